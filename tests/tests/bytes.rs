//! Books and records of other bytes, all of them: every byte of a busy book changed, one at a time and
//! in bursts, random books, books of every length near the right one, records cut at every byte and
//! with every first byte, random records. The code is the one that the second program's reading of
//! docs/LAYOUT.md gives; a refused call leaves every byte of the book. The desk under test is lent
//! memory beside inaccessible pages.

use std::sync::atomic::{AtomicUsize, Ordering};
use yordzepa_tests::busy;
use yordzepa_tests::desk::{under_test, Desk, SecondDesk};
use yordzepa_tests::image::{bytes_of, BYTES, TABLES};
use yordzepa_tests::lists::record;
use yordzepa_tests::random::Random;
use yordzepa_tests::second::reads::Question;
use yordzepa_tests::second::records::{fields_of, length_of, KINDS};

/// The busy book with what it lacks: a change that waits, a closing near, a note of a cancel.
fn busy_book() -> Vec<u8> {
    let mut book = busy::book();
    if let Some(participant) = &mut book.participants[8] {
        participant.waiting = Some(participant.profile);
    }
    for request in book.requests.iter_mut().flatten().step_by(7) {
        request.cancelled = true;
    }
    bytes_of(&book)
}

/// A record of each kind that the busy book accepts or refuses late.
fn records() -> Vec<Vec<u8>> {
    let fop = [0, 0, 12, 0, 5_000_000, 3, 366, 7];
    vec![
        record(9, &[]),
        record(1, &[3, 100, 900_000, 700, 2]),
        record(2, &[3, 1, 5, 0]),
        record(3, &[9, 3, 4]),
        record(4, &[1, 1, 100]),
        record(5, &[1, 1, 100]),
        record(6, &fop),
        record(7, &[0, 0, 8, 0, 1_000, 3, 7]),
        record(8, &[0, 200]),
        record(10, &[]),
        record(11, &[0, 0, 0, 100]),
        record(12, &[]),
        record(0, &[1, 10_000]),
    ]
}

/// The two desks, and how many books were sound.
struct Both {
    second: SecondDesk,
    other: Box<dyn Desk>,
    sound: usize,
    unsound: usize,
}

impl Both {
    fn new() -> Both {
        Both { second: SecondDesk::new(), other: under_test(), sound: 0, unsound: 0 }
    }

    fn lend(&mut self, bytes: &[u8]) {
        self.second.lend(bytes);
        self.other.lend(bytes);
    }

    /// A call on a book whose bytes are given: its code. A refusal leaves them.
    fn call(&mut self, book: &[u8], record: &[u8]) -> u64 {
        let answer = self.second.call(record);
        assert_eq!(answer, self.other.call(record), "{record:?}");
        if answer[0] == 0 {
            assert!(self.second.bytes() == self.other.bytes(), "{record:?}: other bytes");
        } else {
            assert_eq!(answer[1..], [0; 3], "{record:?}");
            assert!(self.other.bytes() == book, "{record:?}: a refusal has written");
        }
        answer[0]
    }

    /// A damaged book: a read and a call on it.
    fn judge(&mut self, book: &[u8], record: &[u8], question: Question) {
        self.lend(book);
        let reply = self.second.read(question);
        assert_eq!(reply, self.other.read(question), "{question:?}");
        match reply[0] {
            2 => self.unsound += 1,
            _ => self.sound += 1,
        }
        let code = self.call(book, record);
        assert_eq!(code == 2, reply[0] == 2 && record[0] != 0, "{record:?}");
    }
}

/// Gives each place below `end` to a worker, and adds up what they count.
fn on_all_processors(end: usize, work: impl Fn(&mut Both, usize) + Sync) -> (usize, usize) {
    const STEP: usize = 256;
    let next = AtomicUsize::new(0);
    let worker = || {
        let mut both = Both::new();
        loop {
            let from = next.fetch_add(STEP, Ordering::Relaxed);
            if from >= end {
                return (both.sound, both.unsound);
            }
            (from..end.min(from + STEP)).for_each(|place| work(&mut both, place));
        }
    };
    let count = std::thread::available_parallelism().map_or(1, usize::from);
    std::thread::scope(|scope| {
        let workers: Vec<_> = (0..count).map(|_| scope.spawn(worker)).collect();
        let counts = workers.into_iter().map(|worker| worker.join().expect("a worker failed"));
        counts.fold((0, 0), |sum, count| (sum.0 + count.0, sum.1 + count.1))
    })
}

/// The questions of the reads, in turn.
fn question(place: usize) -> Question {
    let number = place as u64 / 5;
    match place % 5 {
        0 => Question::Account { participant: number % 32, security: number % 64 },
        1 => Question::Position { exposure: number % 64, security: number % 64 },
        2 => Question::Exposure(number % 64),
        3 => Question::Request(number % 300),
        _ => Question::Basket(number % 16),
    }
}

/// Every byte of the book, one at a time: one bit of it, each in turn, and any other value.
#[test]
fn every_byte_of_a_busy_book_changed() {
    let whole = busy_book();
    let records = records();
    let (sound, unsound) = on_all_processors(2 * BYTES, |both, place| {
        let (byte, second_time) = (place % BYTES, place >= BYTES);
        let mut random = Random::new(place as u64 + 1);
        let mut book = whole.clone();
        book[byte] ^= match second_time {
            false => 1 << (byte / 4 % 8),
            true => random.between(1, 255) as u8,
        };
        both.judge(&book, &records[place % records.len()], question(place));
    });
    println!("{sound} sound, {unsound} not");
    assert!(sound > 10_000 && unsound > 10_000, "{sound} sound, {unsound} not");
}

/// Bursts of up to 64 bytes: random ones, zeros, ones, or copied from elsewhere in the book.
#[test]
fn bursts_of_bytes_changed() {
    let whole = busy_book();
    let records = records();
    let (sound, unsound) = on_all_processors(12_000, |both, place| {
        let mut random = Random::new(place as u64 + 1);
        let mut book = whole.clone();
        let length = random.between(2, 64) as usize;
        let mut from = random.below((BYTES - length) as u64) as usize;
        let mut origin = random.below((BYTES - length) as u64) as usize;
        if random.once_in(2) {
            // Whole rows of one table, so that more of them fit.
            let table = TABLES[random.below(TABLES.len() as u64) as usize];
            let mut row = || table.begins + table.width * random.below(table.rows as u64) as usize;
            from = row().min(BYTES - length);
            origin = row().min(BYTES - length);
        }
        let kind = random.below(4);
        for offset in 0..length {
            book[from + offset] = match kind {
                0 => random.bits() as u8,
                1 => 0,
                2 => 255,
                _ => whole[origin + offset],
            };
        }
        both.judge(&book, &records[place % records.len()], question(place));
    });
    println!("{sound} sound, {unsound} not");
    assert!(sound > 500 && unsound > 5_000, "{sound} sound, {unsound} not");
}

/// Books of random bytes, and of mostly zeros.
#[test]
fn random_books() {
    let records = records();
    let (sound, unsound) = on_all_processors(1_000, |both, place| {
        let mut random = Random::new(place as u64 + 1);
        let sparse = random.below(40);
        let byte = |random: &mut Random| match sparse > 0 && !random.once_in(1 + 30 * sparse) {
            true => 0,
            false => random.bits() as u8,
        };
        let book: Vec<u8> = (0..BYTES).map(|_| byte(&mut random)).collect();
        both.judge(&book, &records[place % records.len()], question(place));
    });
    assert_eq!((sound, unsound), (0, 1_000));
}

/// A sound book cut, and one with bytes after it: 1 for every call and read, and nothing is written.
#[test]
fn books_of_every_length_near_the_right_one() {
    let mut long = busy_book();
    long.resize(BYTES + 130, 0);
    let (records, mut both) = (records(), Both::new());
    let near = (0..=130).chain(BYTES - 130..=BYTES + 130);
    for length in near.filter(|&length| length != BYTES) {
        let book = &long[..length];
        both.lend(book);
        for record in records.iter().chain([&Vec::new(), &vec![99]]) {
            assert_eq!(both.call(book, record), 1, "length {length}");
        }
        for place in 0..5 {
            let reply = both.other.read(question(place));
            assert_eq!(reply, both.second.read(question(place)));
            assert_eq!(reply[0], 1, "length {length}");
        }
    }
}

/// Records of every kind cut at every byte and with up to some bytes too many, with every first byte:
/// on a sound book, and on one that is not.
#[test]
fn records_cut_at_every_byte_with_every_first_byte() {
    let whole = busy_book();
    let mut damaged = whole.clone();
    damaged[BYTES - 1] = 1;
    let records = records();
    let longest = 1 + records.iter().map(Vec::len).max().unwrap_or(0);
    let mut counts = [0u64; 17];
    let mut both = Both::new();
    for (book, sound) in [(&whole, true), (&damaged, false)] {
        both.lend(book);
        for record in &records {
            let mut bytes = record.clone();
            bytes.resize(longest, 0);
            for length in 0..=longest {
                for first in 0..=255 {
                    bytes[0] = first;
                    let code = both.call(book, &bytes[..length]);
                    let right = length > 0 && fits(first, length);
                    let shape = if sound || (length > 0 && first == 0) { 3 } else { 2 };
                    assert!(right || code == shape, "{first}, {length}: {code}");
                    counts[code as usize] += 1;
                    if code == 0 {
                        both.lend(book);
                    }
                    if length == 0 {
                        break;
                    }
                }
            }
        }
    }
    println!("{counts:?}");
    assert!([0, 2, 3, 4, 7, 12].iter().all(|&code: &usize| counts[code] > 0), "{counts:?}");
}

/// The length is that of the kind in the first byte.
fn fits(first: u8, length: usize) -> bool {
    fields_of(u64::from(first)).map_or(false, |fields| length_of(&fields) == length)
}

/// Records of random bytes: any length, and the right length of a known kind, where they get further.
#[test]
fn random_records() {
    let whole = busy_book();
    let mut random = Random::new(0x0b17_e500);
    let mut counts = [0u64; 17];
    let mut both = Both::new();
    both.lend(&whole);
    for _ in 0..60_000 {
        let kind = random.below(KINDS);
        let length = match random.once_in(4) {
            true => random.below(41) as usize,
            false => length_of(&fields_of(kind).expect("a known kind")),
        };
        let small = random.below(8);
        let mut bytes: Vec<u8> = (0..length).map(|_| random.bits() as u8 >> small).collect();
        if let (Some(first), false) = (bytes.first_mut(), random.once_in(8)) {
            *first = kind as u8;
        }
        let code = both.call(&whole, &bytes);
        counts[code as usize] += 1;
        if code == 0 {
            both.lend(&whole);
        }
    }
    println!("{counts:?}");
    assert!([0, 3, 4, 5, 7].iter().all(|&code: &usize| counts[code] > 0), "{counts:?}");
}
