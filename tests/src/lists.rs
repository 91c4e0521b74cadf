//! Lists of calls from a seed, made to go deep: few participants, securities and baskets, so that
//! things collide. While a list is made, the second program runs along, so that calls can name what
//! the book holds.

use crate::desk::{Desk, SecondDesk};
use crate::image::bytes_of;
use crate::lent::{shuffle_requests, Class};
use crate::random::Random;
use crate::second::book::{
    Book, Deal, Request, Side, BASKETS, EXPOSURES, GREATEST_AMOUNT, GREATEST_HOLDING, LAST_NUMBER,
    PARTICIPANTS, ROWS, SECURITIES,
};
use crate::second::calendar::LAST_DAY;
use crate::second::days::Days;
use crate::second::reads::Question;
use crate::second::records::fields_of;
use crate::second::sound::is_sound;

/// One call of a list.
#[derive(Clone, Debug, PartialEq, Eq)]
pub enum Call {
    Record(Vec<u8>),
    Read(Question),
}

/// A list of calls, and the book it begins with where that is not the zero book.
#[derive(Clone, Debug)]
pub struct List {
    pub theme: Theme,
    pub seed: u64,
    pub book: Option<Vec<u8>>,
    pub calls: Vec<Call>,
}

/// What a list is about.
#[derive(Clone, Copy, Debug, PartialEq, Eq)]
pub enum Theme {
    /// Values are multiples of the tolerance, so that equalities are common.
    Round,
    /// Cents: rounding shows.
    Tiny,
    /// Odd prices, haircuts and tolerances.
    Odd,
    /// Equal requests in numbers, up to a full table.
    Crowd,
    /// Many keys, up to a full table of exposures.
    Keys,
    /// Amounts at 10^12 and exposures at 10^13.
    Great,
    /// The last days of the calendar.
    LastDays,
    /// All numbers, and damage everywhere.
    Wild,
    /// A sound book that no list of calls reaches, and many calls.
    Lent,
    /// Books of the classes of `lent`, sound or not, and the calls of a day or two.
    Unreached,
    /// A book of another length: a short list of every kind and read.
    OtherLength,
}

impl Theme {
    pub const ALL: [Theme; 11] = [
        Theme::Round,
        Theme::Tiny,
        Theme::Odd,
        Theme::Crowd,
        Theme::Keys,
        Theme::Great,
        Theme::LastDays,
        Theme::Wild,
        Theme::Lent,
        Theme::OtherLength,
        Theme::Unreached,
    ];

    /// Those whose lists begin with the zero book and an opening.
    pub const FROM_AN_OPENING: [Theme; 8] = [
        Theme::Round,
        Theme::Tiny,
        Theme::Odd,
        Theme::Crowd,
        Theme::Keys,
        Theme::Great,
        Theme::LastDays,
        Theme::Wild,
    ];
}

/// The whole record of any numbers, each cut to its field's width.
pub fn record(kind: u64, numbers: &[u64]) -> Vec<u8> {
    let fields = fields_of(kind).expect("a known kind");
    assert_eq!(fields.len(), numbers.len(), "fields of kind {kind}");
    let mut bytes = vec![kind as u8];
    for (field, number) in fields.iter().zip(numbers) {
        bytes.extend(&number.to_be_bytes()[8 - field.bytes()..]);
    }
    bytes
}

/// The list of a theme and a seed, of about that many calls.
pub fn list(theme: Theme, seed: u64, length: usize) -> List {
    if theme == Theme::Unreached {
        return unreached(seed, length.min(MOST_UNREACHED));
    }
    let mut maker = Maker::new(theme, seed);
    if theme == Theme::OtherLength {
        let book = Some(maker.book_of_another_length());
        return List { theme, seed, book, calls: maker.calls };
    }
    let book = match theme {
        Theme::Lent => Some(maker.lent_book()),
        _ => {
            maker.begin();
            None
        }
    };
    if theme == Theme::Great {
        maker.reach_the_limit();
    }
    while maker.calls.len() < length {
        maker.any();
    }
    List { theme, seed, book, calls: maker.calls }
}

/// After so many calls little is left of what made a lent book another than those of calls.
const MOST_UNREACHED: usize = 60;

/// A list of the theme `Unreached`: the seeds take turns over the books of the other themes.
fn unreached(seed: u64, length: usize) -> List {
    let themes = Theme::FROM_AN_OPENING;
    let mut maker = Maker::new(themes[seed as usize % themes.len()], seed);
    let book = maker.unreached_book();
    if is_sound(maker.book(), maker.days) {
        while maker.calls.len() < length {
            maker.day();
        }
    } else {
        maker.before_the_opening();
    }
    List { theme: Theme::Unreached, seed, book: Some(book), calls: maker.calls }
}

/// How many participants, securities and baskets a list uses, and its prices and amounts.
struct Scale {
    participants: u64,
    securities: u64,
    baskets: u64,
    lots: Vec<u64>,
    prices: Vec<u64>,
    haircuts: Vec<u64>,
    tolerances: Vec<u64>,
    /// The greatest count of lots in a deposit.
    deposit: u64,
}

impl Scale {
    fn of(theme: Theme) -> Scale {
        let round = Scale {
            participants: 4,
            securities: 4,
            baskets: 3,
            lots: vec![100, 100, 200],
            prices: vec![1_000_000, 1_000_000, 1_000_000, 500_000, 2_000_000],
            haircuts: vec![0],
            tolerances: vec![10_000],
            deposit: 12,
        };
        match theme {
            Theme::Round | Theme::Crowd | Theme::Lent => round,
            Theme::OtherLength | Theme::Unreached => round,
            Theme::Keys => Scale { participants: 6, baskets: 4, ..round },
            Theme::Tiny => Scale {
                lots: vec![1, 1, 2, 3],
                prices: vec![5_000, 15_000, 10_000, 33_333, 26_000, 7_000, 1],
                haircuts: vec![0, 1, 500, 3_333],
                tolerances: vec![1, 1, 2, 3],
                deposit: 40,
                ..round
            },
            Theme::Odd => Scale {
                participants: 5,
                securities: 6,
                lots: vec![1, 7, 1_000, 999_983, 1_000_000],
                prices: vec![999_999, 1_000_000, 333_333, 3_000_000, 1, 1_234_567],
                haircuts: vec![0, 1, 500, 9_999, 2_777],
                tolerances: vec![1, 777, 10_000, 100_000_000],
                deposit: 400,
                ..round
            },
            Theme::Great => Scale {
                participants: 3,
                securities: 64,
                baskets: 2,
                lots: vec![1_000_000, 500_000, 1],
                prices: vec![3_000_000],
                haircuts: vec![0],
                tolerances: vec![100_000_000, 1, 10_000],
                deposit: 500,
            },
            Theme::LastDays => Scale { participants: 3, securities: 3, ..round },
            Theme::Wild => Scale {
                participants: 32,
                securities: 64,
                baskets: 16,
                lots: vec![1, 10, 1_000, 1_000_000],
                prices: vec![1, 900_000, 1_000_000, 3_000_000],
                haircuts: vec![0, 500, 9_999],
                tolerances: vec![1, 10_000, 100_000_000],
                deposit: 500,
            },
        }
    }
}

struct Maker {
    theme: Theme,
    scale: Scale,
    random: Random,
    days: &'static Days,
    mirror: SecondDesk,
    calls: Vec<Call>,
    reference: u64,
}

impl Maker {
    fn new(theme: Theme, seed: u64) -> Maker {
        Maker {
            theme,
            scale: Scale::of(theme),
            random: Random::new(seed),
            days: Days::shared(),
            mirror: SecondDesk::new(),
            calls: Vec::new(),
            reference: 0,
        }
    }

    fn book(&self) -> &Book {
        self.mirror.book()
    }

    /// Adds a record to the list and to the mirror. The code.
    fn send(&mut self, bytes: Vec<u8>) -> u64 {
        let code = self.mirror.call(&bytes)[0];
        self.calls.push(Call::Record(bytes));
        code
    }

    fn put(&mut self, kind: u64, numbers: &[u64]) -> u64 {
        self.send(record(kind, numbers))
    }

    /// A record, which now and then gets a number that it should not have.
    fn put_perhaps_spoiled(&mut self, kind: u64, numbers: &[u64]) -> u64 {
        let rate = if self.theme == Theme::Wild { 12 } else { 40 };
        if numbers.is_empty() || !self.random.once_in(rate) {
            return self.put(kind, numbers);
        }
        // One number or two: the lowest code counts.
        let mut numbers = numbers.to_vec();
        for _ in 0..self.random.between(1, 2) {
            let place = self.random.below(numbers.len() as u64) as usize;
            let near = self.random.near(numbers[place]);
            let any = self.random.any_length();
            let ends = [0, 1, 2, 3, 15, 16, 31, 32, 63, 64, 255, 10_000, u64::MAX, near, near, any];
            numbers[place] = self.random.one_of(&ends);
        }
        self.put(kind, &numbers)
    }

    // Choices.

    fn participant(&mut self) -> u64 {
        let odd = self.random.once_in(60);
        let end = if odd { PARTICIPANTS as u64 } else { self.scale.participants };
        self.random.below(end)
    }

    fn security(&mut self) -> u64 {
        let odd = self.random.once_in(60);
        let end = if odd { SECURITIES as u64 } else { self.scale.securities };
        self.random.below(end)
    }

    fn basket(&mut self) -> u64 {
        let odd = self.random.once_in(60);
        let end = if odd { BASKETS as u64 } else { self.scale.baskets };
        self.random.below(end)
    }

    /// A giver and a taker, mostly two.
    fn parties(&mut self) -> (u64, u64) {
        let giver = self.participant();
        let mut taker = self.participant();
        if giver == taker && !self.random.once_in(30) {
            taker = (giver + 1) % self.scale.participants;
        }
        (giver, taker)
    }

    fn one_of(&mut self, numbers: &[u64]) -> u64 {
        self.random.one_of(numbers)
    }

    /// The open day that is `count` open days after a day, or the last day.
    fn open_after(&self, day: u64, count: u64) -> u64 {
        (0..count).fold(day, |day, _| self.days.next_open(day as u32).map_or(LAST_DAY, u64::from))
    }

    /// The open day that is `count` open days before a day, or the first open day.
    fn open_before(&self, day: u64, count: u64) -> u64 {
        let mut day = day;
        for _ in 0..count {
            day = (1..day).rev().find(|&d| self.days.is_open(d as u32)).unwrap_or(1);
        }
        day
    }

    fn today(&self) -> u64 {
        u64::from(self.book().today)
    }

    /// A settlement day: today, soon, rarely one that is refused.
    fn settlement(&mut self) -> u64 {
        let today = self.today();
        match self.random.below(100) {
            0..=59 => today,
            60..=89 => {
                let count = self.random.between(1, 3);
                self.open_after(today, count)
            }
            90..=95 => (today + self.random.below(12)).saturating_sub(4),
            96..=97 => LAST_DAY + self.random.below(3),
            _ => self.random.any_length(),
        }
    }

    /// A closing: none, soon after the settlement, rarely one that is refused.
    fn closing(&mut self, settlement: u64) -> u64 {
        let from = settlement.min(LAST_DAY);
        match self.random.below(100) {
            0..=44 => 0,
            45..=94 => {
                let most = if self.theme == Theme::Keys { 30 } else { 3 };
                let count = self.random.between(1, most);
                self.open_after(from, count)
            }
            95..=96 => settlement,
            97..=98 => (from + self.random.below(12)).saturating_sub(4),
            _ => self.random.any_length(),
        }
    }

    fn reference(&mut self) -> u64 {
        self.reference += 1;
        match self.random.below(10) {
            0 => self.random.bits(),
            1 => 7,
            _ => self.reference,
        }
    }

    /// What a giver could bring into a basket in whole lots today.
    fn value_at_hand(&self, giver: u64, basket: u64) -> u64 {
        let book = self.book();
        let map = match book.baskets.get(basket as usize) {
            Some(Some(basket)) => basket.map,
            _ => return 0,
        };
        let account = match book.accounts.get(giver as usize) {
            None => return 0,
            Some(account) => account,
        };
        let securities = book.securities.iter().zip(account).enumerate();
        securities
            .filter(|(s, (security, _))| map >> s & 1 == 1 && security.set_up())
            .map(|(_, (security, &nominal))| security.worth(nominal - nominal % security.lot))
            .sum()
    }

    /// A FOP's amount: often one that several requests share, often at the edge of what is at hand.
    fn fop_amount(&mut self, giver: u64, basket: u64) -> u64 {
        let tolerance = u64::from(self.book().tolerance).max(1);
        let at_hand = self.value_at_hand(giver, basket);
        let amount = match self.random.below(10) {
            0..=3 => tolerance * self.random.between(1, 6),
            4..=5 => tolerance * self.random.between(1, 40) + self.random.below(3),
            6..=7 => (at_hand + tolerance + 2).saturating_sub(self.random.below(5)),
            8 => at_hand / self.random.between(1, 4),
            _ if !self.random.once_in(4) => tolerance * self.random.between(1, 3),
            _ => self.one_of(&[
                tolerance.saturating_sub(1),
                tolerance,
                GREATEST_AMOUNT,
                GREATEST_AMOUNT + 1,
                GREATEST_AMOUNT - 1,
            ]),
        };
        if self.theme == Theme::Great && self.random.below(10) < 6 {
            return GREATEST_AMOUNT;
        }
        amount
    }

    /// A place in use, if there is one.
    fn used_row(&mut self, wanted: impl Fn(&Request) -> bool) -> Option<Request> {
        let rows: Vec<Request> =
            self.book().used_rows().map(|(_, r)| *r).filter(|r| wanted(r)).collect();
        if rows.is_empty() {
            return None;
        }
        let place = self.random.below(rows.len() as u64) as usize;
        Some(rows[place])
    }

    /// A used exposure, mostly one with a position.
    fn used_exposure(&mut self) -> Option<usize> {
        let any = self.random.once_in(6);
        let holds = |book: &Book, e: usize| book.positions[e].iter().any(|&nominal| nominal != 0);
        let used = self.book().used_exposures().map(|(e, _)| e);
        let mut used: Vec<usize> = used.filter(|&e| any || holds(self.book(), e)).collect();
        if used.is_empty() {
            used = self.book().used_exposures().map(|(e, _)| e).collect();
        }
        if used.is_empty() {
            return None;
        }
        let place = self.random.below(used.len() as u64) as usize;
        Some(used[place])
    }

    // The calls.

    /// An opening, and the set-up that the theme needs; some calls before it.
    fn begin(&mut self) {
        if self.random.once_in(3) {
            self.before_the_opening();
        }
        self.open();
        for number in 0..self.scale.participants {
            if !self.random.once_in(25) {
                self.set_up_participant(number);
            }
        }
        for number in 0..self.scale.securities {
            if !self.random.once_in(25) {
                self.price(number);
            }
        }
        for number in 0..self.scale.baskets {
            self.set_up_basket(number);
        }
        for _ in 0..4 * self.scale.participants {
            self.deposit();
        }
    }

    /// The zero book refuses all but an opening.
    fn before_the_opening(&mut self) {
        for kind in 0..=13 {
            let bytes = match fields_of(kind) {
                Some(fields) if kind != 0 => record(kind, &vec![1; fields.len()]),
                _ => vec![kind as u8],
            };
            self.send(bytes);
        }
        self.send(Vec::new());
        self.read();
    }

    fn open(&mut self) {
        let day = loop {
            let day = match self.theme {
                Theme::LastDays => LAST_DAY - self.random.below(12),
                _ => match self.random.below(4) {
                    // The days before Easter 2002, before Christmas 2002, any.
                    0 => 80 + self.random.below(8),
                    1 => 350 + self.random.below(8),
                    _ => self.random.below(LAST_DAY),
                },
            };
            if self.days.is_open(day as u32) {
                break day;
            }
        };
        let tolerance = self.random.one_of(&self.scale.tolerances.clone());
        self.put(0, &[day, tolerance]);
    }

    /// An opening in the middle of a list, mostly one that is refused.
    fn open_again(&mut self) {
        if self.random.once_in(6) {
            self.begin();
            return;
        }
        let (day, tolerance) = (self.random.near(self.today()), self.random.below(3));
        let day = if self.random.once_in(2) { LAST_DAY + 1 } else { day };
        if tolerance != 0 && self.days.is_open(day as u32) {
            return;
        }
        self.put(0, &[day, tolerance]);
    }

    fn set_up_participant(&mut self, number: u64) {
        let mode = self.one_of(&[0, 1, 1, 2, 2, 2]);
        let list = self.random.bits() & self.random.bits() & 0xffff_ffff;
        let partial = u64::from(!self.random.once_in(3));
        self.put_perhaps_spoiled(2, &[number, mode, list, partial]);
    }

    fn set_up_basket(&mut self, number: u64) {
        let all =
            if self.scale.securities == 64 { u64::MAX } else { (1 << self.scale.securities) - 1 };
        // Now and then a security that is not set up.
        let extra = if self.random.once_in(4) { 1 << self.random.below(64) } else { 0 };
        let map = match self.random.below(3) {
            0 => all,
            _ => (self.random.bits() & all).max(1),
        };
        let age = self.one_of(&[0, 1, 1, 2, 5, 255]);
        self.put_perhaps_spoiled(3, &[number, map | extra, age]);
    }

    fn price(&mut self, security: u64) {
        let known = self.book().securities[security as usize % SECURITIES];
        let lot = match known.set_up() && !self.random.once_in(30) {
            true => u64::from(known.lot),
            false => self.random.one_of(&self.scale.lots.clone()),
        };
        let prices = self.scale.prices.clone();
        let price = match (known.set_up(), self.random.below(4)) {
            (true, 0) => self.random.near(u64::from(known.price)).max(1),
            (true, 1) => u64::from(known.price) * self.random.between(1, 16) / 8,
            _ => self.random.one_of(&prices),
        };
        let haircut = self.random.one_of(&self.scale.haircuts.clone());
        let today = self.today();
        let quote = match self.random.below(20) {
            0..=13 => today,
            14..=18 => {
                let count = self.random.between(1, 4);
                self.open_before(today, count)
            }
            _ => self.random.near(today) + self.random.below(3),
        };
        self.put_perhaps_spoiled(1, &[security, lot, price.clamp(1, 3_000_000), haircut, quote]);
    }

    fn deposit(&mut self) {
        let (participant, security) = (self.participant(), self.security());
        let lot = u64::from(self.book().securities[security as usize].lot).max(1);
        let held = self.book().holding(participant as usize, security as usize);
        let room = u64::from(GREATEST_HOLDING) - held;
        let lots = lot * self.random.between(1, self.scale.deposit);
        let nominal = match self.random.below(20) {
            0 => room + self.random.below(2),
            1 => lots + self.random.below(lot),
            _ => lots,
        };
        let most = u64::from(GREATEST_HOLDING);
        self.put_perhaps_spoiled(4, &[participant, security, nominal.clamp(1, most)]);
    }

    fn withdraw(&mut self) {
        let (participant, security) = (self.participant(), self.security());
        let account = u64::from(self.book().accounts[participant as usize][security as usize]);
        let nominal = match self.random.below(6) {
            0 => account,
            1 => account + 1,
            _ => account / self.random.between(2, 20),
        };
        self.put_perhaps_spoiled(5, &[participant, security, nominal.max(1)]);
    }

    /// The record of a request with a side and a new reference.
    fn enter(&mut self, request: &Request, side: Side) -> u64 {
        let side = u64::from(side == Side::Taker);
        let (giver, taker) = (u64::from(request.giver), u64::from(request.taker));
        let (amount, settlement) = (request.amount, u64::from(request.settlement));
        let reference = self.reference();
        match request.deal {
            Deal::Fop { basket, closing } => {
                let (basket, closing) = (u64::from(basket), u64::from(closing));
                let numbers = [side, giver, taker, basket, amount, settlement, closing, reference];
                self.put_perhaps_spoiled(6, &numbers)
            }
            Deal::Return { exposure } => {
                let exposure = u64::from(exposure);
                let numbers = [side, giver, taker, exposure, amount, settlement, reference];
                self.put_perhaps_spoiled(7, &numbers)
            }
        }
    }

    /// The other side of a request that waits, or one more of the same side.
    fn enter_equal(&mut self) {
        let other = self.random.below(5) < 3;
        let today = self.book().today;
        let wanted = |r: &Request| r.settlement >= today && (!other || r.partner.is_none());
        if let Some(request) = self.used_row(wanted) {
            let side = if other { request.side.other() } else { request.side };
            self.enter(&request, side);
        }
    }

    fn fop(&mut self) {
        let (giver, taker) = self.parties();
        let (side, basket) = (self.random.below(2), self.basket());
        let amount = self.fop_amount(giver, basket);
        let settlement = self.settlement();
        let closing = self.closing(settlement);
        let reference = self.reference();
        let numbers = [side, giver, taker, basket, amount, settlement, closing, reference];
        if self.put_perhaps_spoiled(6, &numbers) == 0 && self.random.below(10) < 6 {
            let numbers = [1 - side, giver, taker, basket, amount, settlement, closing, reference];
            self.put(6, &numbers);
        }
    }

    fn give_back(&mut self) {
        let exposure = match self.used_exposure() {
            Some(exposure) if !self.random.once_in(25) => exposure,
            _ => self.random.below(EXPOSURES as u64) as usize,
        };
        let used = self.book().exposures[exposure];
        let (mut giver, mut taker) = self.parties();
        let mut at = 0;
        if let Some(used) = used {
            if !self.random.once_in(25) {
                giver = u64::from(used.key.giver);
                taker = u64::from(used.key.taker);
            }
            at = used.amount;
        }
        let amount = match self.random.below(8) {
            0..=2 => at,
            3..=4 => at / self.random.between(2, 4),
            5 => at + 1,
            6 => self.random.between(1, 20),
            _ => self.one_of(&[1, at + 10_000, GREATEST_AMOUNT]),
        };
        let amount = amount.clamp(1, GREATEST_AMOUNT);
        let (side, settlement, reference) =
            (self.random.below(2), self.settlement(), self.reference());
        let exposure = exposure as u64;
        let numbers = [side, giver, taker, exposure, amount, settlement, reference];
        if self.put_perhaps_spoiled(7, &numbers) == 0 && self.random.below(10) < 7 {
            let numbers = [1 - side, giver, taker, exposure, amount, settlement, reference];
            self.put(7, &numbers);
        }
    }

    fn cancel(&mut self) {
        let request = match self.random.below(10) {
            0 => None,
            1..=3 => self.used_row(|r| r.partner.is_some()),
            4 => self.used_row(|r| r.partner.is_none()),
            5 => self.used_row(|r| r.cancelled),
            _ => self.used_row(|_| true),
        };
        let (owner, number) = match request {
            None => (self.participant(), self.random.below(300)),
            Some(request) => (u64::from(request.owner()), u64::from(request.number)),
        };
        let participant = if self.random.once_in(10) { self.participant() } else { owner };
        self.put_perhaps_spoiled(8, &[participant, number]);
        // The partner's owner often follows.
        let partner = request.and_then(|r| r.partner);
        let partner = partner.and_then(|row| self.book().requests[usize::from(row)]);
        if let (Some(partner), true) = (partner, self.random.once_in(3)) {
            self.put(8, &[u64::from(partner.owner()), u64::from(partner.number)]);
        }
    }

    fn recall(&mut self) {
        let exposure = match self.used_exposure() {
            None => return,
            Some(exposure) => exposure,
        };
        let used = self.book().exposures[exposure].expect("a used exposure");
        let held: Vec<u64> = (0..SECURITIES as u64)
            .filter(|&s| self.book().positions[exposure][s as usize] > 0)
            .collect();
        let security = match held.is_empty() || self.random.once_in(20) {
            true => self.security(),
            false => self.random.one_of(&held),
        };
        let position = u64::from(self.book().positions[exposure][security as usize]);
        let lot = u64::from(self.book().securities[security as usize].lot).max(1);
        let nominal = match self.random.below(12) {
            0..=3 => position,
            4..=9 => lot * self.random.between(1, (position / lot).clamp(1, 6)),
            10 => position + lot,
            _ => position / 2 + 1,
        };
        let giver =
            if self.random.once_in(25) { self.participant() } else { u64::from(used.key.giver) };
        self.put_perhaps_spoiled(11, &[giver, exposure as u64, security, nominal.max(1)]);
    }

    /// Cut, too long, unknown, empty.
    fn damaged(&mut self) {
        let kind = self.random.below(13);
        let fields = fields_of(kind).expect("a known kind");
        let numbers: Vec<u64> = fields.iter().map(|_| self.random.any_length()).collect();
        let mut bytes = record(kind, &numbers);
        match self.random.below(5) {
            0 => bytes.truncate(self.random.below(bytes.len() as u64) as usize),
            1 => bytes.push(self.random.bits() as u8),
            2 => bytes[0] = self.random.between(13, 255) as u8,
            3 => bytes = (0..self.random.below(40)).map(|_| self.random.bits() as u8).collect(),
            _ => {}
        }
        // An opening that is taken would end the story.
        if bytes.first() != Some(&0) || bytes.len() != 9 {
            self.send(bytes);
        }
    }

    fn read(&mut self) {
        let random = &mut self.random;
        let mut number = |end: u64| match random.once_in(6) {
            true => {
                let any = random.any_length();
                random.one_of(&[end, end - 1, u64::MAX, 1 << 32, 1 << 63, any])
            }
            false => random.below(end),
        };
        let (first, second) = (number(32), number(64));
        let question = match number(15) % 5 {
            0 => Question::Account { participant: first, security: second },
            1 => Question::Position { exposure: number(64), security: second },
            2 => Question::Exposure(second),
            3 => Question::Request(number(400)),
            _ => Question::Basket(number(16)),
        };
        self.mirror.read(question);
        self.calls.push(Call::Read(question));
    }

    fn next_day(&mut self) {
        if self.put(12, &[]) == 0 && !self.random.once_in(3) {
            // The day's prices.
            for security in 0..self.scale.securities.min(8) {
                if !self.random.once_in(3) {
                    self.price(security);
                }
            }
        }
    }

    /// Equal requests of both sides in a row, some for another day.
    fn burst(&mut self) {
        let (giver, taker) = self.parties();
        let basket = self.basket();
        let amount = self.fop_amount(giver, basket);
        let (settlement, first) = (self.settlement(), self.random.below(2));
        let closing = self.closing(settlement);
        let count = if self.theme == Theme::Crowd { 40 } else { 5 };
        for place in 0..2 * count {
            let side = if place < count { first } else { 1 - first };
            let reference = self.reference();
            if self.random.once_in(6) {
                continue;
            }
            self.put(6, &[side, giver, taker, basket, amount, settlement, closing, reference]);
        }
    }

    /// One pair of each of many keys.
    fn spread(&mut self) {
        let today = self.today();
        for count in 1..=self.random.between(10, 30) {
            let (giver, taker) = self.parties();
            let (basket, reference) = (self.basket(), self.reference());
            let closing = self.open_after(today, count);
            let amount = 10 * u64::from(self.book().tolerance);
            for side in [0, 1] {
                self.put(6, &[side, giver, taker, basket, amount, today, closing, reference]);
            }
        }
    }

    /// A security loses its value, then part of an exposure that holds it is returned.
    fn lose_value(&mut self) {
        let e = match self.used_exposure() {
            None => return,
            Some(e) => e,
        };
        let used = self.book().exposures[e].expect("a used exposure");
        let today = self.today();
        for s in 0..SECURITIES {
            let lot = u64::from(self.book().securities[s].lot);
            if self.book().positions[e][s] > 0 && self.random.once_in(2) {
                let price = self.one_of(&[1, 100, 1_000, 4_000, 9_000]);
                self.put(1, &[s as u64, lot, price, 0, today]);
            }
        }
        let (giver, taker) = (u64::from(used.key.giver), u64::from(used.key.taker));
        let amount = (used.amount - used.amount / self.random.between(2, 20)).max(1);
        for side in [0, 1] {
            let amount = amount.min(GREATEST_AMOUNT);
            self.put(7, &[side, giver, taker, e as u64, amount, today, 7]);
        }
        self.put(9, &[]);
    }

    /// Requests that wait until no row is left; then a pair of a new key.
    fn fill_rows(&mut self) {
        let today = self.today();
        let (giver, taker) = self.parties();
        let (basket, amount) = (self.basket(), 10 * u64::from(self.book().tolerance));
        for _ in 0..ROWS {
            let reference = self.reference();
            if self.put(6, &[0, giver, taker, basket, amount, today, 0, reference]) != 0 {
                break;
            }
        }
        let closing = self.open_after(today, 40);
        for side in [0, 1] {
            self.put(6, &[side, giver, taker, basket, amount, today, closing, 7]);
        }
        if let Some(request) = self.used_row(|request| request.partner.is_none()) {
            self.enter(&request, request.side.other());
        }
    }

    /// One exposure up to 10^13. At this price an account of all securities is worth 8 × 10^12, so
    /// the bonds are given back as ineligible once, and picked again.
    fn reach_the_limit(&mut self) {
        let (day, tolerance) = (self.today(), u64::from(self.book().tolerance));
        self.put(0, &[day, tolerance]);
        self.put(2, &[0, 2, 0, 1]);
        self.put(2, &[1, 0, 0, 1]);
        self.put(2, &[2, 2, 0, 0]);
        self.put(3, &[0, u64::MAX, 0]);
        self.put(3, &[1, u64::MAX, 255]);
        for security in 0..64 {
            self.put(1, &[security, 1_000_000, 2_500_000, 0, day]);
            self.put(4, &[0, security, 500_000_000]);
        }
        for reference in 0..8 {
            self.put(6, &[0, 0, 1, 0, GREATEST_AMOUNT, day, 0, reference]);
        }
        self.put(9, &[]);
        // To 9 × 10^12, then to the limit, to the last FOP's room below it, or to half of the way.
        let room = self.one_of(&[0, tolerance, GREATEST_AMOUNT / 2]);
        let amounts = [GREATEST_AMOUNT, GREATEST_AMOUNT - room, GREATEST_AMOUNT, tolerance];
        for (reference, &amount) in amounts.iter().enumerate() {
            self.put(6, &[0, 0, 1, 0, amount, day, 0, 8 + reference as u64]);
        }
        self.put(12, &[]);
        self.put(10, &[]);
        let day = self.today();
        // Thirteen are worth one FOP and a half, and something more.
        let kept = if room == GREATEST_AMOUNT / 2 { self.random.between(12, 15) } else { 64 };
        for security in 0..64 {
            self.put(1, &[security, 1_000_000, 2_500_000, 0, day]);
            if security >= kept {
                self.put(5, &[0, security, 500_000_000]);
            }
        }
        self.put(9, &[]);
        self.put(10, &[]);
        self.put(9, &[]);
        self.put(7, &[0, 0, 1, 0, GREATEST_AMOUNT, day, 12]);
        self.put(9, &[]);
        self.put(9, &[]);
    }

    fn any(&mut self) {
        match self.theme {
            Theme::Crowd if self.random.once_in(40) => return self.burst(),
            Theme::Keys if self.random.once_in(40) => return self.spread(),
            Theme::Tiny | Theme::Odd if self.random.once_in(40) => return self.lose_value(),
            Theme::Keys | Theme::Crowd if self.random.once_in(150) => return self.fill_rows(),
            _ if self.random.once_in(60) => return self.burst(),
            _ => {}
        }
        match self.random.below(1000) {
            0..=79 => {
                let security = self.security();
                self.price(security);
            }
            80..=109 => {
                let number = self.participant();
                self.set_up_participant(number);
            }
            110..=117 => {
                let number = self.basket();
                self.set_up_basket(number);
            }
            118..=219 => self.deposit(),
            220..=249 => self.withdraw(),
            250..=399 => self.fop(),
            400..=499 => self.enter_equal(),
            500..=619 => self.give_back(),
            620..=689 => self.cancel(),
            690..=769 => {
                self.put(9, &[]);
            }
            770..=819 => {
                self.put(10, &[]);
            }
            820..=899 => self.recall(),
            900..=939 => self.next_day(),
            940..=959 => self.damaged(),
            960..=962 => self.open_again(),
            _ => self.read(),
        }
    }

    /// A sound book that no list of calls reaches: the rows in another order, the next number near
    /// the last, cancel notes anywhere, quotes after today.
    fn lent_book(&mut self) -> Vec<u8> {
        self.begin();
        let length = self.random.between(20, 300) as usize;
        while self.calls.len() < length {
            self.any();
        }
        let mut book = self.book().clone();
        shuffle_requests(&mut book, &mut self.random, false);
        if self.random.once_in(3) {
            book.next_number = LAST_NUMBER + 1 - self.random.below(60) as u32;
            if let Some(request) = book.requests.iter_mut().flatten().next() {
                request.number = book.next_number - 1;
            }
        }
        for request in book.requests.iter_mut().flatten() {
            if self.random.once_in(8) {
                request.cancelled = !request.cancelled;
            }
        }
        for security in book.securities.iter_mut().filter(|security| security.set_up()) {
            if self.random.once_in(6) {
                security.quote = self.days.next_open(book.today).unwrap_or(security.quote);
            }
        }
        self.swap_exposures(&mut book);
        self.calls.clear();
        let bytes = bytes_of(&book);
        self.mirror.lend(&bytes);
        bytes
    }

    /// A book of some of the classes, now and then by halves, which leaves most of them not sound.
    fn unreached_book(&mut self) -> Vec<u8> {
        self.begin();
        if self.theme == Theme::Great && self.random.once_in(3) {
            self.reach_the_limit();
        }
        let length = self.one_of(&[40, 60, 100, 200, 300]) as usize;
        while self.calls.len() < length {
            self.any();
        }
        let mut book = self.book().clone();
        let halves = self.random.once_in(6);
        for place in 0..self.random.between(1, 4) {
            let class = Class::ALL[self.random.below(Class::ALL.len() as u64) as usize];
            class.make(&mut book, &mut self.random, halves && place == 0);
        }
        self.calls.clear();
        let bytes = bytes_of(&book);
        self.mirror.lend(&bytes);
        bytes
    }

    /// A day on a lent book: calls of every kind but an opening in any order, all of them or the
    /// first few, then the next day.
    fn day(&mut self) {
        let mut kinds = vec![1, 1, 2, 3, 4, 5, 5, 6, 6, 6, 7, 7, 8, 8, 8, 8, 9, 9, 10, 11, 11];
        for place in (1..kinds.len()).rev() {
            kinds.swap(place, self.random.below(place as u64 + 1) as usize);
        }
        if self.random.once_in(3) {
            kinds.truncate(self.random.below(6) as usize);
        }
        for kind in kinds {
            self.of_kind(kind);
        }
        self.next_day();
    }

    /// A call of a kind, which often names what is peculiar to a lent book.
    fn of_kind(&mut self, kind: u64) {
        let lodged = if self.random.once_in(2) { self.lodged() } else { None };
        match (kind, lodged) {
            (1, lodged) => {
                let security = lodged.map_or_else(|| self.security(), |(_, security)| security);
                self.price(security);
            }
            (2, lodged) => {
                let number = lodged.map_or_else(|| self.participant(), |(number, _)| number);
                self.set_up_participant(number);
            }
            (3, _) => {
                let number = self.basket();
                self.set_up_basket(number);
            }
            (4, _) => self.deposit(),
            (5, Some((participant, security))) => {
                let account = self.book().accounts[participant as usize][security as usize];
                let nominal = self.random.between(1, u64::from(account));
                self.put(5, &[participant, security, nominal]);
            }
            (5, None) => self.withdraw(),
            (6 | 7, Some(_)) => {
                if let Some(request) = self.used_row(|request| request.partner.is_none()) {
                    self.enter(&request, request.side.other());
                }
            }
            (6, None) => self.fop(),
            (7, None) => self.give_back(),
            (8, _) => self.cancel(),
            (11, _) => self.recall(),
            _ => {
                self.put(kind, &[]);
            }
        }
    }

    /// A participant and a security whose account is not empty: one of what is not set up, if any.
    fn lodged(&mut self) -> Option<(u64, u64)> {
        let book = self.book();
        let places = (0..PARTICIPANTS).flat_map(|p| (0..SECURITIES).map(move |s| (p, s)));
        let lodged: Vec<_> = places.filter(|&(p, s)| book.accounts[p][s] > 0).collect();
        let set_up =
            |p: usize, s: usize| book.participants[p].is_some() && book.securities[s].set_up();
        let odd: Vec<_> = lodged.iter().copied().filter(|&(p, s)| !set_up(p, s)).collect();
        let from = if odd.is_empty() { lodged } else { odd };
        if from.is_empty() {
            return None;
        }
        let (p, s) = from[self.random.below(from.len() as u64) as usize];
        Some((p as u64, s as u64))
    }

    /// A sound book that is cut or has bytes after it, and calls of every kind on it.
    fn book_of_another_length(&mut self) -> Vec<u8> {
        let mut bytes = self.lent_book();
        let length = match self.random.below(3) {
            0 => self.random.below(bytes.len() as u64) as usize,
            1 => bytes.len() - self.random.between(1, 16) as usize,
            _ => bytes.len() + self.random.between(1, 16) as usize,
        };
        bytes.resize(length, 0);
        self.mirror.lend(&bytes);
        self.before_the_opening();
        for kind in 0..=12 {
            let fields = fields_of(kind).expect("a known kind");
            self.send(record(kind, &vec![1; fields.len()]));
        }
        for question in [
            Question::Account { participant: 1, security: 1 },
            Question::Position { exposure: 0, security: 0 },
            Question::Exposure(0),
            Question::Request(1),
            Question::Basket(0),
        ] {
            self.calls.push(Call::Read(question));
        }
        bytes
    }

    /// Two exposures change rows, with their positions and the returns that name them.
    fn swap_exposures(&mut self, book: &mut Book) {
        let first = self.random.below(EXPOSURES as u64) as usize;
        let second = self.random.below(8) as usize;
        book.exposures.swap(first, second);
        book.positions.swap(first, second);
        for request in book.requests.iter_mut().flatten() {
            if let Deal::Return { exposure } = &mut request.deal {
                if usize::from(*exposure) == first {
                    *exposure = second as u8;
                } else if usize::from(*exposure) == second {
                    *exposure = first as u8;
                }
            }
        }
    }
}
