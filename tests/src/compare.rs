//! Runs a list of calls on the second program and on another desk, beside the ledger, and compares
//! what they answer. Where they differ, finds a short list that still shows it.

use crate::desk::{Desk, SecondDesk};
use crate::image::{
    ACCOUNTS, EXPOSURE_AMOUNTS, EXPOSURE_BASKETS, EXPOSURE_CLOSINGS, EXPOSURE_GIVERS,
    EXPOSURE_TAKERS, IN_USE, POSITIONS,
};
use crate::lists::{Call, List};
use crate::second::book::{Book, Key, Nominals, BASKETS, EXPOSURES, PARTICIPANTS, SECURITIES};
use crate::second::ledger::Ledger;
use crate::second::notes::{Branch, Notes};
use crate::second::reads::{Question, Reply};
use crate::second::records;

/// Kinds 0 to 12, and one place for the others.
pub const KINDS: usize = 14;
/// Codes 0 to 16.
pub const CODES: usize = 17;

/// How often each pair of kind and code and each branch was reached.
pub struct Coverage {
    pub calls: u64,
    pub reads: u64,
    pub pairs: [[u64; CODES]; KINDS],
    pub branches: Vec<u64>,
    /// How often each kind of read gave each code.
    pub questions: [[u64; CODES]; 5],
}

impl Coverage {
    pub fn new() -> Coverage {
        Coverage {
            calls: 0,
            reads: 0,
            pairs: [[0; CODES]; KINDS],
            branches: vec![0; Branch::ALL.len()],
            questions: [[0; CODES]; 5],
        }
    }

    fn count_call(&mut self, bytes: &[u8], code: u64) {
        let kind = bytes.first().map_or(KINDS - 1, |&kind| usize::from(kind).min(KINDS - 1));
        self.calls += 1;
        self.pairs[kind][code as usize] += 1;
    }

    fn count_read(&mut self, question: Question, code: u64) {
        let place = match question {
            Question::Account { .. } => 0,
            Question::Position { .. } => 1,
            Question::Exposure(_) => 2,
            Question::Request(_) => 3,
            Question::Basket(_) => 4,
        };
        self.reads += 1;
        self.questions[place][code as usize] += 1;
    }

    /// Adds the counts of another run.
    pub fn add(&mut self, other: &Coverage) {
        self.calls += other.calls;
        self.reads += other.reads;
        for (mine, theirs) in self.pairs.iter_mut().flatten().zip(other.pairs.iter().flatten()) {
            *mine += theirs;
        }
        for (mine, theirs) in self.branches.iter_mut().zip(&other.branches) {
            *mine += theirs;
        }
        let theirs = other.questions.iter().flatten();
        for (mine, theirs) in self.questions.iter_mut().flatten().zip(theirs) {
            *mine += theirs;
        }
    }

    pub fn branch(&self, branch: Branch) -> u64 {
        self.branches[branch as usize]
    }

    /// The counts as text, a line for each kind and each branch.
    pub fn text(&self) -> String {
        let mut text = format!("{} calls, {} reads\n", self.calls, self.reads);
        let counts = |codes: &[u64; CODES]| -> String {
            let reached = codes.iter().enumerate().filter(|(_, &count)| count > 0);
            reached.map(|(code, count)| format!("  {code}: {count}")).collect()
        };
        for (kind, codes) in self.pairs.iter().enumerate() {
            let name = if kind == KINDS - 1 { "other".to_string() } else { kind.to_string() };
            text += &format!("kind {name:<6}{}\n", counts(codes));
        }
        let names = ["account", "position", "exposure", "request", "basket"];
        for (name, codes) in names.iter().zip(&self.questions) {
            text += &format!("read {name:<9}{}\n", counts(codes));
        }
        for (branch, count) in Branch::ALL.iter().zip(&self.branches) {
            text += &format!("{:<24}{count}\n", format!("{branch:?}"));
        }
        text
    }
}

impl Default for Coverage {
    fn default() -> Coverage {
        Coverage::new()
    }
}

impl Notes for Coverage {
    fn reached(&mut self, branch: Branch) {
        self.branches[branch as usize] += 1;
    }
}

/// What is looked at beside the answers.
#[derive(Clone, Copy, Debug)]
pub struct Checks {
    /// All bytes of the book after every call, by docs/LAYOUT.md, and demand 3's sums in them.
    pub bytes: bool,
    /// Reads after every call, in turn over all that the book holds; all that the call has changed
    /// is read beside them. With 0 nothing is read here.
    pub reads: usize,
    /// All that the book holds is read at the end, after a book was lent, and after every so many
    /// calls that changed it: with 1 after each of them. (A call that changes no byte can change no
    /// read.)
    pub sweep: usize,
}

/// The first difference between two desks.
#[derive(Clone, Debug)]
pub struct Difference {
    /// The place of the call in the list.
    pub place: usize,
    pub text: String,
}

/// Runs a list. The first difference, if there is one.
pub fn run(
    list: &List,
    other: &mut dyn Desk,
    checks: Checks,
    coverage: &mut Coverage,
) -> Option<Difference> {
    run_beside(list, other, Ledger::new, checks, coverage)
}

/// The same beside another ledger: a wrong one shows that the ledger is compared.
pub fn run_beside(
    list: &List,
    other: &mut dyn Desk,
    ledger: fn() -> Ledger,
    checks: Checks,
    coverage: &mut Coverage,
) -> Option<Difference> {
    let mut run = Run {
        second: SecondDesk::new(),
        other,
        new_ledger: ledger,
        ledger: None,
        checks,
        turn: 0,
        changes: 0,
        last: Vec::new(),
    };
    if let Some(book) = &list.book {
        run.second.lend(book);
        run.other.lend(book);
        if let Err(text) = run.sweep(coverage) {
            return Some(Difference { place: 0, text });
        }
    }
    for (place, call) in list.calls.iter().enumerate() {
        let last = place + 1 == list.calls.len();
        if let Err(text) = run.step(call, last, coverage) {
            return Some(Difference { place, text });
        }
    }
    None
}

struct Run<'a> {
    second: SecondDesk,
    other: &'a mut dyn Desk,
    new_ledger: fn() -> Ledger,
    /// From the first accepted opening.
    ledger: Option<Ledger>,
    checks: Checks,
    /// Which of the book's contents are read next.
    turn: usize,
    /// Calls that have changed the book.
    changes: usize,
    /// The other desk's bytes after the last call, where bytes are compared.
    last: Vec<u8>,
}

/// An error where the two are not the same.
fn same<T: PartialEq + std::fmt::Debug>(what: &str, second: T, other: T) -> Result<(), String> {
    if second == other {
        return Ok(());
    }
    Err(format!("{what}: second {second:?}, other {other:?}"))
}

impl Run<'_> {
    fn step(&mut self, call: &Call, last: bool, coverage: &mut Coverage) -> Result<(), String> {
        let mut changes = false;
        match call {
            Call::Read(question) => {
                let reply = self.second.read(*question);
                coverage.count_read(*question, reply[0]);
                same("read", reply, self.other.read(*question))?;
            }
            Call::Record(bytes) => {
                let before = self.second.book().clone();
                let answer = self.second.call_noted(bytes, coverage);
                coverage.count_call(bytes, answer[0]);
                changes = answer[0] == 0;
                same("answer", answer, self.other.call(bytes))?;
                self.step_of_ledger(bytes, answer[0])?;
                if self.checks.reads > 0 {
                    self.read_touched(bytes, answer, &before, coverage)?;
                }
            }
        }
        if self.checks.bytes {
            self.compare_bytes(changes)?;
        }
        self.changes += usize::from(changes);
        if last || (changes && self.changes % self.checks.sweep == 0) {
            self.sweep(coverage)?;
        }
        Ok(())
    }

    /// "every call in the list gave the ledger's code".
    fn step_of_ledger(&mut self, bytes: &[u8], code: u64) -> Result<(), String> {
        if self.ledger.is_none() && bytes.first() == Some(&0) && code == 0 {
            self.ledger = Some((self.new_ledger)());
        }
        if let Some(ledger) = &mut self.ledger {
            same("the ledger's code", ledger.call(bytes), code)?;
            if !ledger.agrees_with_its_steps() {
                return Err("the ledger's steps and sums differ".to_string());
            }
        }
        Ok(())
    }

    /// Puts the questions to both. The other desk's replies.
    fn ask(
        &mut self,
        questions: &[Question],
        coverage: &mut Coverage,
    ) -> Result<Vec<Reply>, String> {
        let mut others = Vec::with_capacity(questions.len());
        for (&question, reply) in questions.iter().zip(self.second.read_all(questions)) {
            coverage.count_read(question, reply[0]);
            let other = self.other.read(question);
            if reply != other {
                return Err(format!("{question:?}: second {reply:?}, other {other:?}"));
            }
            others.push(other);
        }
        Ok(others)
    }

    /// Reads what the call named, all that it changed, and some of the rest.
    fn read_touched(
        &mut self,
        bytes: &[u8],
        answer: [u64; 4],
        before: &Book,
        coverage: &mut Coverage,
    ) -> Result<(), String> {
        let mut asked = Vec::new();
        if let Ok(record) = records::read(bytes) {
            let f = &record.fields;
            match record.kind {
                4 | 5 => asked.push(Question::Account { participant: f[0], security: f[1] }),
                6 | 7 if answer[0] == 0 => {
                    asked.extend([Question::Request(answer[1]), Question::Request(answer[2])])
                }
                8 => asked.push(Question::Request(f[1])),
                11 => asked.push(Question::Position { exposure: f[1], security: f[2] }),
                _ => {}
            }
        }
        if answer[0] == 0 {
            asked.extend(changed(before, self.second.book()));
        }
        asked.extend(questions_in_turn(self.second.book(), self.turn, self.checks.reads));
        self.turn += self.checks.reads;
        self.ask(&asked, coverage).map(|_| ())
    }

    /// Every byte, and demand 3's sums in the other desk's bytes. A refused call and a read change
    /// none.
    fn compare_bytes(&mut self, changes: bool) -> Result<(), String> {
        let (second, other) = (self.second.bytes(), self.other.bytes());
        if !changes && !self.last.is_empty() && self.last != other {
            return Err("a call that was not accepted has changed the book".to_string());
        }
        if second != other {
            let place = second.iter().zip(&other).position(|(a, b)| a != b);
            return Err(format!("the book's bytes differ, first at {place:?}"));
        }
        self.last = other;
        let other = &self.last;
        let ledger = match &self.ledger {
            None => return Ok(()),
            Some(ledger) => ledger,
        };
        let holdings = holdings_of(other);
        for (p, nominals) in holdings.iter().enumerate() {
            for (s, &held) in nominals.iter().enumerate() {
                let paper = ledger.sums.lodged(p, s);
                if held != paper {
                    return Err(format!("participant {p}, security {s}: {held}, on paper {paper}"));
                }
            }
        }
        for (e, paper) in ledger.exposures().iter().enumerate() {
            let used = match IN_USE.get(other, e) {
                0 => None,
                _ => Some([
                    EXPOSURE_GIVERS.get(other, e),
                    EXPOSURE_TAKERS.get(other, e),
                    EXPOSURE_BASKETS.get(other, e),
                    EXPOSURE_CLOSINGS.get(other, e),
                    EXPOSURE_AMOUNTS.get(other, e),
                ]),
            };
            let paper = paper.map(|(key, amount)| {
                let numbers = [key.giver, key.taker, key.basket].map(u64::from);
                [numbers[0], numbers[1], numbers[2], u64::from(key.closing), amount]
            });
            same("an exposure on paper", paper, used)?;
        }
        Ok(())
    }

    /// Reads all that the book holds, and demand 3's sums by the other desk's reads alone.
    fn sweep(&mut self, coverage: &mut Coverage) -> Result<(), String> {
        let asked = questions(self.second.book());
        let replies = self.ask(&asked, coverage)?;
        let ledger = match &self.ledger {
            None => return Ok(()),
            Some(ledger) => ledger,
        };
        let paper = ledger.exposures();
        let mut lodged = [[None; SECURITIES]; PARTICIPANTS];
        for (question, reply) in asked.iter().zip(&replies) {
            let (giver, security) = match *question {
                Question::Exposure(e) => {
                    same(
                        "an exposure on paper",
                        on_paper(&paper[e as usize]),
                        reply[..6].to_vec(),
                    )?;
                    continue;
                }
                // A key's giver was compared above: the exposures come before their positions.
                Question::Position { exposure, security } => match paper[exposure as usize] {
                    None => continue,
                    Some((key, _)) => (usize::from(key.giver), security as usize),
                },
                Question::Account { participant, security } => {
                    (participant as usize, security as usize)
                }
                _ => continue,
            };
            if reply[0] == 0 {
                *lodged[giver][security].get_or_insert(0) += reply[1];
            }
        }
        for (p, nominals) in lodged.iter().enumerate() {
            for (s, nominal) in nominals.iter().enumerate() {
                if let Some(nominal) = *nominal {
                    same("what a giver lodged", ledger.sums.lodged(p, s), nominal)?;
                }
            }
        }
        Ok(())
    }
}

/// The reply that an exposure's read gives by the ledger.
fn on_paper(exposure: &Option<(Key, u64)>) -> Vec<u64> {
    match exposure {
        None => vec![5, 0, 0, 0, 0, 0],
        Some((key, amount)) => {
            let [giver, taker, basket] = [key.giver, key.taker, key.basket].map(u64::from);
            vec![0, giver, taker, basket, u64::from(key.closing), *amount]
        }
    }
}

/// The account plus the positions of the giver's exposures, out of a book's bytes.
fn holdings_of(bytes: &[u8]) -> Vec<[u64; SECURITIES]> {
    let word = |place: usize| {
        let bytes = [bytes[place], bytes[place + 1], bytes[place + 2], bytes[place + 3]];
        u64::from(u32::from_be_bytes(bytes))
    };
    let mut holdings = vec![[0; SECURITIES]; PARTICIPANTS];
    for (p, holding) in holdings.iter_mut().enumerate() {
        for (s, nominal) in holding.iter_mut().enumerate() {
            *nominal = word(ACCOUNTS.begins + 4 * (SECURITIES * p + s));
        }
    }
    for e in 0..EXPOSURES {
        if IN_USE.get(bytes, e) == 0 {
            continue;
        }
        let giver = EXPOSURE_GIVERS.get(bytes, e) as usize;
        for (s, nominal) in holdings[giver].iter_mut().enumerate() {
            *nominal += word(POSITIONS.begins + 4 * (SECURITIES * e + s));
        }
    }
    holdings
}

fn set_up(book: &Book) -> Vec<usize> {
    (0..SECURITIES).filter(|&s| book.securities[s].set_up()).collect()
}

/// Every read of a request, an exposure and a basket, and every account and position of what is set
/// up, with some of what is not.
pub fn questions(book: &Book) -> Vec<Question> {
    let mut all: Vec<Question> =
        book.used_rows().map(|(_, r)| Question::Request(u64::from(r.number))).collect();
    all.extend((0..EXPOSURES as u64).map(Question::Exposure));
    all.extend((0..16).map(Question::Basket));
    let mut securities = set_up(book);
    securities.extend((0..SECURITIES).find(|&s| !book.securities[s].set_up()));
    for s in securities {
        let security = s as u64;
        for (p, participant) in book.participants.iter().enumerate() {
            if participant.is_some() {
                all.push(Question::Account { participant: p as u64, security });
            }
        }
        for (e, _) in book.used_exposures() {
            all.push(Question::Position { exposure: e as u64, security });
        }
    }
    all
}

/// The reads of all that differs between two books: rows, exposures, baskets, each account's and
/// each position's nominal.
fn changed(before: &Book, after: &Book) -> Vec<Question> {
    let mut all = Vec::new();
    for (was, is) in before.requests.iter().zip(&after.requests) {
        if was != is {
            let rows = [was, is];
            let numbers = rows.iter().filter_map(|row| row.as_ref().map(|r| u64::from(r.number)));
            all.extend(numbers.map(Question::Request));
        }
    }
    for e in (0..EXPOSURES).filter(|&e| before.exposures[e] != after.exposures[e]) {
        all.push(Question::Exposure(e as u64));
    }
    for n in (0..BASKETS).filter(|&n| before.baskets[n] != after.baskets[n]) {
        all.push(Question::Basket(n as u64));
    }
    for (e, s) in cells(&before.positions, &after.positions) {
        all.push(Question::Position { exposure: e, security: s });
    }
    for (p, s) in cells(&before.accounts, &after.accounts) {
        all.push(Question::Account { participant: p, security: s });
    }
    all
}

/// The places in which two tables of nominals differ.
fn cells(before: &[Nominals], after: &[Nominals]) -> Vec<(u64, u64)> {
    let mut cells = Vec::new();
    for (row, (was, is)) in before.iter().zip(after).enumerate() {
        if was != is {
            let places = (0..SECURITIES).filter(|&s| was[s] != is[s]);
            cells.extend(places.map(|s| (row as u64, s as u64)));
        }
    }
    cells
}

/// `count` of these questions, going round.
fn questions_in_turn(book: &Book, turn: usize, count: usize) -> Vec<Question> {
    let all = questions(book);
    (turn..turn + count).map(|place| all[place % all.len()]).collect()
}

/// A short list that still shows a difference: what comes after it goes, then ever smaller parts
/// are left out as long as a difference stays.
pub fn shrink(list: &List, checks: Checks, make: &dyn Fn() -> Box<dyn Desk>) -> List {
    let differs = |calls: &[Call]| {
        let list = List { calls: calls.to_vec(), ..list.clone() };
        run(&list, &mut *make(), checks, &mut Coverage::new()).map(|difference| difference.place)
    };
    let mut calls = list.calls.clone();
    match differs(&calls) {
        None => return list.clone(),
        Some(place) => calls.truncate(place + 1),
    }
    let mut part = (calls.len() / 2).max(1);
    loop {
        let mut shorter = false;
        let mut from = 0;
        while from < calls.len() {
            let mut without = calls[..from].to_vec();
            without.extend_from_slice(&calls[(from + part).min(calls.len())..]);
            match differs(&without) {
                Some(place) => {
                    calls = without;
                    calls.truncate(place + 1);
                    shorter = true;
                }
                None => from += part,
            }
        }
        if part == 1 && !shorter {
            break;
        }
        part = (part / 2).max(1);
    }
    List { calls, ..list.clone() }
}

/// A list as text: a line for each call, with its answers.
pub fn text(list: &List, make: &dyn Fn() -> Box<dyn Desk>) -> String {
    let (mut second, mut other) = (SecondDesk::new(), make());
    let mut text =
        format!("theme {:?}, seed {}, {} calls\n", list.theme, list.seed, list.calls.len());
    if let Some(book) = &list.book {
        second.lend(book);
        other.lend(book);
        text += "begins with a lent book\n";
    }
    for (place, call) in list.calls.iter().enumerate() {
        let place = place + 1;
        text += &match call {
            Call::Read(question) => {
                let (mine, theirs) = (second.read(*question), other.read(*question));
                format!("{place}: {question:?}: second {mine:?}, other {theirs:?}\n")
            }
            Call::Record(bytes) => {
                let (mine, theirs) = (second.call(bytes), other.call(bytes));
                let record = match records::read(bytes) {
                    Ok(record) => format!("kind {} {:?}", record.kind, record.fields),
                    Err(_) => format!("bytes {bytes:?}"),
                };
                format!("{place}: {record}: second {mine:?}, other {theirs:?}\n")
            }
        };
    }
    text
}
