//! Every exported function that is lent memory, on memory beside inaccessible pages: a read or write
//! outside what was lent ends this test. (The comparisons of the other tests lend such memory too.)
//! The libraries are not instrumented, so this is what catches them; tests/guard.c adds the
//! sanitizers on the host's side.
#![cfg(feature = "engine")]

use std::os::unix::process::ExitStatusExt;
use std::process::Command;
use yordzepa_tests::answers::{Reading, COLUMNS, FIELDS, SECURITIES};
use yordzepa_tests::busy;
use yordzepa_tests::engine::{self, ask, numbers_of};
use yordzepa_tests::guarded::{Guarded, GuardedNumbers, Place};
use yordzepa_tests::image::{bytes_of, BYTES};
use yordzepa_tests::lists::record;
use yordzepa_tests::proved;
use yordzepa_tests::random::Random;
use yordzepa_tests::second::reads::Question;
use yordzepa_tests::second::records;

/// One call on a book and a record, neither of which may be touched outside; the record may not be
/// written at all.
fn call(book: &mut Guarded, record: &[u8], place: Place) -> Vec<u64> {
    let mut lent = Guarded::of(record, place);
    let answer = GuardedNumbers::new(4, place);
    lent.forbid_writing();
    // SAFETY: lengths and pointers are those of the memory lent.
    unsafe {
        engine::raw::engine_call(
            book.pointer(),
            book.bytes().len(),
            lent.pointer(),
            record.len(),
            answer.pointer(),
        );
    }
    assert!(book.rest_untouched() && answer.rest_untouched());
    answer.numbers().to_vec()
}

/// One read on a book that may not be written at all.
fn read(book: &mut Guarded, question: Question, place: Place) -> Vec<u64> {
    let answer = GuardedNumbers::new(numbers_of(question), place);
    book.forbid_writing();
    // SAFETY: lengths and pointers are those of the memory lent.
    unsafe { ask(book.pointer(), book.bytes().len(), question, answer.pointer()) };
    book.allow_writing();
    assert!(answer.rest_untouched());
    answer.numbers().to_vec()
}

const QUESTIONS: [Question; 8] = [
    Question::Account { participant: 0, security: 63 },
    Question::Account { participant: 31, security: u64::MAX },
    Question::Position { exposure: 63, security: 63 },
    Question::Position { exposure: 0, security: 0 },
    Question::Exposure(63),
    Question::Request(1),
    Question::Request(u64::MAX),
    Question::Basket(15),
];

/// Records of every length from 0 to 40 and every first byte, random bytes after it.
#[test]
fn records_of_every_length_and_first_byte() {
    let mut random = Random::new(0x6a2d_0001);
    let whole = bytes_of(&busy::book());
    for place in Place::BOTH {
        let mut book = Guarded::of(&whole, place);
        for length in 0..=40 {
            for kind in 0..=255 {
                let mut record: Vec<u8> = (0..length).map(|_| random.bits() as u8 >> 6).collect();
                if let Some(first) = record.first_mut() {
                    *first = kind;
                }
                if call(&mut book, &record, place)[0] == 0 {
                    book.put(&whole);
                }
            }
        }
    }
}

/// Every call of a busy day: the steps themselves.
#[test]
fn calls_that_are_accepted() {
    for place in Place::BOTH {
        let mut book = Guarded::new(BYTES, place);
        let mut calls = busy::calls();
        for kind in [9, 10, 12, 9, 10, 12, 12] {
            calls.push(record(kind, &[]));
        }
        for bytes in calls {
            assert_eq!(call(&mut book, &bytes, place)[0], 0, "{bytes:?}");
        }
        for question in QUESTIONS {
            read(&mut book, question, place);
        }
    }
}

/// Books of every other length near the right one and near 0, of zeros and of a busy book's bytes:
/// 1, and no byte of them is written.
#[test]
fn books_of_every_length_near_the_right_one() {
    let mut whole = bytes_of(&busy::book());
    whole.resize(BYTES + 300, 7);
    for place in Place::BOTH {
        for length in (0..=300).chain(BYTES - 300..=BYTES + 300).filter(|&n| n != BYTES) {
            let mut book = Guarded::of(&whole[..length], place);
            book.forbid_writing();
            for bytes in [record(0, &[1, 10_000]), record(9, &[]), Vec::new()] {
                assert_eq!(call(&mut book, &bytes, place), [1, 0, 0, 0], "{length}");
            }
            for question in QUESTIONS {
                let reply = read(&mut book, question, place);
                assert_eq!((reply[0], reply[1]), (1, 0), "{length}");
                book.forbid_writing();
            }
        }
    }
}

/// The reader and the writer at every length from 0 to 40, every kind.
#[test]
fn reader_and_writer_at_every_length() {
    let mut random = Random::new(0x6a2d_0002);
    for place in Place::BOTH {
        for length in 0..=40 {
            for kind in 0..=255 {
                let mut bytes: Vec<u8> = (0..length).map(|_| random.bits() as u8 >> 6).collect();
                if let Some(first) = bytes.first_mut() {
                    *first = kind;
                }
                let mut lent = Guarded::of(&bytes, place);
                lent.forbid_writing();
                // SAFETY: the length is that of the memory lent.
                let reading = unsafe { proved::raw::records_read(lent.pointer(), length) };
                let expected = match records::read(&bytes) {
                    Err(code) => Reading::refused(code),
                    Ok(record) => {
                        let mut fields = [0; FIELDS];
                        fields[..record.fields.len()].copy_from_slice(&record.fields);
                        Reading { code: 0, kind: record.kind, fields }
                    }
                };
                assert_eq!(reading, expected);
                // What was read, or small numbers that are often legal.
                let fields = match reading.code {
                    0 => reading.fields,
                    _ => [0; FIELDS].map(|_: u64| random.below(3)),
                };
                let mut part = Guarded::of(&bytes, place);
                let numbers = GuardedNumbers::of(&fields, place);
                // SAFETY: the part's length is that of the memory lent; there are eight fields.
                let code = unsafe {
                    proved::raw::records_write(
                        u64::from(kind),
                        numbers.pointer(),
                        part.pointer(),
                        length,
                    )
                };
                assert!(part.rest_untouched());
                assert!(code == 0 || part.bytes() == bytes, "a refused part has changed");
                assert!(reading.code != 0 || (code == 0 && part.bytes_mut() == bytes));
            }
        }
    }
}

/// Pick and Free read 64 nominals and 256 numbers, and nothing beside them.
#[test]
fn pick_and_free() {
    let mut random = Random::new(0x6a2d_0003);
    for place in Place::BOTH {
        for _ in 0..2_000 {
            let held: Vec<u64> = (0..SECURITIES).map(|_| random.below(500_000)).collect();
            let mut columns = vec![0; COLUMNS];
            for s in 0..SECURITIES {
                if !random.once_in(4) {
                    columns[s] = random.between(1, 1_000);
                    columns[SECURITIES + s] = random.between(1, 3_000_000);
                    columns[2 * SECURITIES + s] = random.below(10_000);
                    columns[3 * SECURITIES + s] = 1;
                }
            }
            if random.once_in(10) {
                columns[random.below(COLUMNS as u64) as usize] = random.any_length();
            }
            let account = GuardedNumbers::of(&held, place);
            let table = GuardedNumbers::of(&columns, place);
            let amount = random.below(10_000_000_000);
            // SAFETY: 64 nominals and four columns of 64 numbers.
            unsafe {
                let (account, table) = (account.pointer(), table.pointer());
                proved::raw::picking_pick(account, table, random.bits(), 255, 1, amount);
                proved::raw::picking_free(account, table, amount);
            }
        }
    }
}

/// The pages are inaccessible: a touch right outside, or a write to what may not be written, ends
/// the process by a segmentation fault.
#[test]
fn a_touch_outside_is_caught() {
    let tests = std::env::current_exe().expect("this test's own file");
    let touched = |touch: &str| {
        let mut command = Command::new(&tests);
        let run = command.args(["--exact", "touch", "--ignored", "--quiet"]).env("TOUCH", touch);
        run.output().expect("a second process").status
    };
    for touch in ["read before", "write before", "read after", "write after", "write"] {
        assert_eq!(touched(touch).signal(), Some(11), "{touch}");
    }
    assert!(touched("read").success());
}

#[test]
#[ignore = "ends the process: run by a_touch_outside_is_caught"]
fn touch() {
    let touch = std::env::var("TOUCH").unwrap_or_default();
    let mut before = Guarded::new(10, Place::AfterPage);
    let after = Guarded::new(10, Place::BeforePage);
    before.forbid_writing();
    let (before, after) = (before.pointer(), after.pointer());
    // SAFETY: none: this is what the test is about.
    unsafe {
        match &touch[..] {
            "read before" => assert_eq!(before.sub(1).read_volatile(), 0),
            "write before" => before.sub(1).write_volatile(1),
            "read after" => assert_eq!(after.add(10).read_volatile(), 0),
            "write after" => after.add(10).write_volatile(1),
            "write" => before.write_volatile(1),
            _ => assert_eq!(before.read_volatile(), after.add(9).read_volatile()),
        }
    }
}
