//! A whole day of some 10,000 calls, from the next day's call on a busy book on.

use crate::books::{self, BY_HAND, CLOSING, TOMORROW};
use crate::table::{head, nanoseconds, row};
use crate::timing::{Both, Start};
use yordzepa_tests::busy;
use yordzepa_tests::lists::{record, Call};
use yordzepa_tests::random::Random;
use yordzepa_tests::second::book::Program;
use yordzepa_tests::second::notes::Silent;
use yordzepa_tests::second::reads::Question;

const CALLS: usize = 10_000;
const HEADS: [&str; 5] = ["calls", "accepted", "engine", "second", "ratio"];

pub fn print(both: &mut Both) {
    let busy = books::busy();
    let mut day = Day::new(&busy);
    day.make();
    let times = both.list(&busy, &day.calls);
    let note = "Calls a second over a whole day, from the next day's call to the last settle: all \
                prices and a mark in the morning, then price records, reads, deposits, withdrawals, \
                recalls, requests up to a full table and refused from then on, cancels, a settle \
                or a mark every 500 calls, in turn.";
    head("A day", note, "", 14, &HEADS);
    let count = day.calls.len() as f64;
    let a_second = |time: f64| format!("{:.0}", count / time * 1e9);
    let numbers = [
        day.calls.len().to_string(),
        day.accepted.to_string(),
        a_second(times.engine),
        a_second(times.second),
        times.ratio(),
    ];
    row("calls a second", 14, &HEADS, &numbers);
    let numbers = [
        String::new(),
        String::new(),
        nanoseconds(times.engine / count),
        nanoseconds(times.second / count),
        times.ratio(),
    ];
    row("ns a call", 14, &HEADS, &numbers);
}

/// The day's calls, with the second program running along so that they name what there is.
struct Day {
    program: Box<Program>,
    random: Random,
    calls: Vec<Call>,
    accepted: usize,
}

impl Day {
    fn new(start: &Start) -> Day {
        Day {
            program: Program::of(start.book.clone()),
            random: Random::new(0xda70_0000_0000_0001),
            calls: Vec::new(),
            accepted: 0,
        }
    }

    fn make(&mut self) {
        self.send(record(12, &[]));
        for security in 0..64 {
            self.price(security);
        }
        self.send(record(10, &[]));
        while self.calls.len() < CALLS {
            match self.calls.len() {
                place if place % 1_000 == 0 => self.send(record(10, &[])),
                place if place % 500 == 0 => self.send(record(9, &[])),
                _ => self.any(),
            }
        }
        self.send(record(9, &[]));
    }

    fn any(&mut self) {
        match self.random.below(100) {
            0..=29 => self.read(),
            30..=49 => {
                let security = self.random.below(64);
                self.price(security);
            }
            50..=61 => self.entry(4),
            62..=73 => self.entry(5),
            74..=81 => self.fop(),
            82..=87 => self.giving_back(),
            88..=91 => self.cancel(),
            _ => self.recall(),
        }
    }

    fn send(&mut self, record: Vec<u8>) {
        let answer = self.program.call(&record, &mut Silent);
        self.accepted += usize::from(answer[0] == 0);
        self.calls.push(Call::Record(record));
    }

    fn price(&mut self, security: u64) {
        let price = self.random.between(990_000, 1_010_000);
        self.send(busy::price(security, price, TOMORROW));
    }

    fn read(&mut self) {
        let (participant, security) = (self.random.below(13), self.random.below(64));
        let exposure = self.random.below(40);
        let number = u64::from(self.program.book.next_number);
        let question = match self.random.below(5) {
            0 => Question::Account { participant, security },
            1 => Question::Position { exposure, security },
            2 => Question::Exposure(exposure),
            3 => Question::Request(number - self.random.between(1, 100)),
            _ => Question::Basket(self.random.below(8)),
        };
        self.accepted += usize::from(self.program.read(question)[0] == 0);
        self.calls.push(Call::Read(question));
    }

    /// A deposit or a withdrawal.
    fn entry(&mut self, kind: u64) {
        let nominal = 100 * self.random.between(1, 50);
        let numbers = [self.random.below(8), self.random.below(64), nominal];
        self.send(record(kind, &numbers));
    }

    /// A FOP of a giver with any taker; a fifth of them waits.
    fn fop(&mut self) {
        let (giver, taker) = (self.random.below(8), self.random.between(8, BY_HAND));
        let closing = if giver % 2 == 0 { 0 } else { CLOSING };
        let amount = 10_000 * self.random.between(1, 300);
        let basket = busy::basket_of(giver, taker);
        self.send(record(6, &[0, giver, taker, basket, amount, TOMORROW, closing, amount]));
    }

    /// A return by an exposure's giver.
    fn giving_back(&mut self) {
        let exposure = self.random.below(40);
        let (giver, taker) = (exposure / busy::TAKERS, 8 + exposure % busy::TAKERS);
        let amount = 10_000 * self.random.between(1, 100);
        self.send(record(7, &[0, giver, taker, exposure, amount, TOMORROW, amount]));
    }

    /// One of the latest requests' cancel by its owner; many have settled.
    fn cancel(&mut self) {
        let number = self.program.book.next_number - self.random.between(1, 60) as u32;
        let owner = match self.program.book.row_of(number) {
            None => 0,
            Some(row) => self.program.book.requests[row].map_or(0, |request| request.owner()),
        };
        self.send(record(8, &[u64::from(owner), u64::from(number)]));
    }

    /// The recall of some lots that an exposure has.
    fn recall(&mut self) {
        let exposure = self.random.below(40);
        let position = self.program.book.positions[exposure as usize];
        let held: Vec<usize> = (0..64).filter(|&s| position[s] != 0).collect();
        let security = match held.len() {
            0 => 0,
            count => held[self.random.below(count as u64) as usize],
        };
        let lots = self.random.between(1, u64::from(position[security] / 100).max(1));
        let giver = exposure / busy::TAKERS;
        self.send(record(11, &[giver, exposure, security as u64, 100 * lots]));
    }
}
