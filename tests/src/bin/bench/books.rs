//! The books that the measured calls begin with, made by calls alone.

use crate::timing::Start;
use yordzepa_tests::busy;
use yordzepa_tests::lists::record;
use yordzepa_tests::second::book::{Book, Program};
use yordzepa_tests::second::calendar::LAST_DAY;
use yordzepa_tests::second::days::Days;
use yordzepa_tests::second::notes::Silent;

/// The busy book's today, the day after, and the last open day before its closing.
pub const TODAY: u64 = 2;
pub const TOMORROW: u64 = 3;
const BEFORE_CLOSING: u64 = 364;
/// Takers 8 to 11 accept automatically, taker 12 by hand.
pub const BY_HAND: u64 = 12;
pub const CLOSING: u64 = 366;

/// Makes a book by accepted calls.
struct Maker {
    program: Box<Program>,
}

impl Maker {
    fn from(book: &Book) -> Maker {
        Maker { program: Program::of(book.clone()) }
    }

    fn take(&mut self, kind: u64, numbers: &[u64]) {
        self.take_record(&record(kind, numbers));
    }

    fn take_record(&mut self, record: &[u8]) {
        let answer = self.program.call(record, &mut Silent);
        assert_eq!(answer[0], 0, "{record:?}");
    }

    /// A FOP of an exposure's key, due today, by the giver; the taker's request is made for it.
    fn fop_of(&mut self, exposure: usize, amount: u64, settlement: u64) {
        let key = self.program.book.exposures[exposure].expect("in use").key;
        let [giver, taker, basket] = [key.giver, key.taker, key.basket].map(u64::from);
        for side in 0..if taker == BY_HAND { 2 } else { 1 } {
            let closing = u64::from(key.closing);
            self.take(6, &[side, giver, taker, basket, amount, settlement, closing, 5]);
        }
    }

    /// A return of an exposure, by its giver and, where it has to, its taker.
    fn return_of(&mut self, exposure: usize, amount: u64, settlement: u64) {
        let key = self.program.book.exposures[exposure].expect("in use").key;
        let (giver, taker) = (u64::from(key.giver), u64::from(key.taker));
        for side in 0..if taker == BY_HAND { 2 } else { 1 } {
            self.take(7, &[side, giver, taker, exposure as u64, amount, settlement, 6]);
        }
    }

    /// New prices for all securities.
    fn prices(&mut self, price: impl Fn(u64) -> u64) {
        let today = u64::from(self.program.book.today);
        for security in 0..64 {
            self.take_record(&busy::price(security, price(security), today));
        }
    }

    fn next_day_up_to(&mut self, day: u64) {
        while u64::from(self.program.book.today) < day {
            self.take(12, &[]);
        }
    }

    fn start(&self) -> Start {
        Start::of(&self.program.book)
    }
}

/// Nothing but the opening.
pub fn opened() -> Start {
    let mut maker = Maker { program: Program::new() };
    maker.take(0, &[1, 10_000]);
    maker.start()
}

/// The busy book's participants, securities, baskets and deposits; no row and no exposure.
pub fn set_up() -> Start {
    with_set_up().start()
}

fn with_set_up() -> Maker {
    let mut maker = Maker { program: Program::new() };
    for call in busy::set_up() {
        maker.take_record(&call);
    }
    maker
}

/// 240 rows, 40 exposures with positions.
pub fn busy() -> Start {
    Start::of(&busy::book())
}

/// The busy book with all 256 rows in use.
pub fn full(busy: &Start) -> Start {
    let mut maker = Maker::from(&busy.book);
    for exposure in 0..8 {
        maker.take(6, &[0, exposure, BY_HAND, 0, 7_000_000, TOMORROW, 0, 1]);
        maker.take(6, &[0, exposure, BY_HAND, 0, 8_000_000, TOMORROW, 0, 1]);
    }
    maker.start()
}

/// The busy book a day later, with 40 FOP pairs more: 240 rows, of which 80 FOP pairs and 20 pairs
/// of returns are due.
pub fn due(busy: &Start) -> Start {
    let mut maker = Maker::from(&busy.book);
    maker.take(12, &[]);
    let mut exposures = (0..40).filter(|exposure| exposure % 5 != 4).cycle();
    while maker.program.book.used_rows().count() < 240 {
        maker.fop_of(exposures.next().expect("endless"), 4_000_000, TOMORROW);
    }
    maker.start()
}

/// The busy book after a rise of every other price and a fall of the others.
pub fn moved(busy: &Start) -> Start {
    let mut maker = Maker::from(&busy.book);
    maker.prices(|security| if security % 2 == 0 { 1_040_000 } else { 960_000 });
    maker.start()
}

/// The busy book after a mark and with the same prices.
pub fn marked(moved: &Start) -> Start {
    let mut maker = Maker::from(&moved.book);
    maker.take(10, &[]);
    maker.start()
}

/// The busy book with nothing left in giver 0's account, so that no substitute is found.
pub fn drained(busy: &Start) -> Start {
    let mut maker = Maker::from(&busy.book);
    for security in 0..64 {
        let held = maker.program.book.accounts[0][security as usize];
        if held != 0 {
            maker.take(5, &[0, security, u64::from(held)]);
        }
    }
    maker.start()
}

/// The day before 20 of the 40 exposures close, with settled rows, pairs and returns of tomorrow,
/// and requests that wait.
pub fn closing(busy: &Start) -> Start {
    let mut maker = Maker::from(&busy.book);
    maker.next_day_up_to(TOMORROW);
    maker.take(9, &[]);
    maker.next_day_up_to(BEFORE_CLOSING);
    maker.prices(|security| 1_000_000 + 50 * security);
    maker.take(10, &[]);
    for exposure in 0..40 {
        maker.fop_of(exposure, 1_000_000, BEFORE_CLOSING);
    }
    maker.take(9, &[]);
    for exposure in 0..20 {
        maker.return_of(exposure, 500_000, CLOSING);
    }
    for place in 0..80 {
        let amount = 5_000_000 + 10_000 * place;
        maker.take(6, &[0, place % 8, BY_HAND, 0, amount, BEFORE_CLOSING, 0, place]);
    }
    maker.start()
}

/// The busy book on the calendar's last open day.
pub fn last_day(busy: &Start) -> Start {
    let mut book = busy.book.clone();
    book.today = LAST_DAY as u32;
    Start::of(&book)
}

/// The busy book so many open days later, its baskets taking prices of just that age: no price looks
/// fresh by the days gone by alone.
pub fn aged(busy: &Start, open_days: u8) -> Start {
    let mut book = busy.book.clone();
    for _ in 0..open_days {
        book.today = Days::shared().next_open(book.today).expect("a next day");
    }
    for basket in book.baskets.iter_mut().flatten() {
        basket.greatest_age = open_days;
    }
    Start::of(&book)
}

/// The key of one of 64 exposures: giver, taker, basket, closing.
pub fn key(exposure: u64) -> [u64; 4] {
    let (giver, taker) = (exposure % 8, 8 + exposure / 8 % 4);
    let closing = if exposure < 32 { 0 } else { CLOSING };
    [giver, taker, busy::basket_of(giver, taker), closing]
}

/// A book with that many exposures and no row.
fn with_exposures(exposures: u64) -> Maker {
    let mut maker = with_set_up();
    for exposure in 0..exposures {
        let [giver, taker, basket, closing] = key(exposure);
        maker.take(6, &[0, giver, taker, basket, 100_000_000, 1, closing, exposure]);
    }
    maker.take(9, &[]);
    maker.take(12, &[]);
    assert_eq!(maker.program.book.used_rows().count(), 0);
    maker.prices(|security| if security % 2 == 0 { 1_040_000 } else { 960_000 });
    maker
}

/// 40 exposures and that many rows: FOP pairs and, for every fourth pair, a return, all due today.
pub fn of_rows(rows: u64) -> Start {
    let mut maker = with_exposures(40);
    for pair in 0..rows / 2 {
        let exposure = (pair * 7 % 40) as usize;
        match pair % 4 {
            3 => maker.return_of(exposure, 1_000_000, TODAY),
            _ => maker.fop_of(exposure, 2_000_000, TODAY),
        }
    }
    maker.start()
}

/// That many exposures and 128 rows that wait.
pub fn of_exposures(exposures: u64) -> Start {
    let mut maker = with_exposures(exposures);
    for place in 0..128 {
        let amount = 5_000_000 + 10_000 * place;
        maker.take(6, &[0, place % 8, BY_HAND, 0, amount, TOMORROW, 0, place]);
    }
    maker.start()
}

/// The book after a settle.
pub fn settled(start: &Start) -> Start {
    let mut maker = Maker::from(&start.book);
    maker.take(9, &[]);
    maker.start()
}
