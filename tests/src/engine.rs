//! The proved engine as a desk (the feature `engine`), and the proved reads (the feature `reads`).

use crate::desk::{Desk, SecondDesk};
#[cfg(feature = "engine")]
use crate::guarded::{Guarded, GuardedNumbers, Place};
#[cfg(feature = "engine")]
use crate::image::BYTES;
use crate::second::reads::{Question, Reply, REPLY};
use crate::second::steps::Answer;

/// The functions as the libraries export them.
pub mod raw {
    extern "C" {
        #[cfg(feature = "engine")]
        pub fn engine_call(
            book: *mut u8,
            book_length: usize,
            record: *const u8,
            record_length: usize,
            answer: *mut u64,
        );
        pub fn reads_account(
            book: *const u8,
            book_length: usize,
            participant: u64,
            security: u64,
            answer: *mut u64,
        );
        pub fn reads_position(
            book: *const u8,
            book_length: usize,
            exposure: u64,
            security: u64,
            answer: *mut u64,
        );
        pub fn reads_exposure(book: *const u8, book_length: usize, exposure: u64, answer: *mut u64);
        pub fn reads_request(book: *const u8, book_length: usize, number: u64, answer: *mut u64);
        pub fn reads_basket(book: *const u8, book_length: usize, basket: u64, answer: *mut u64);
    }
}

/// What is written past the numbers of an answer shows here.
const UNTOUCHED: u64 = 0x5a5a_5a5a_5a5a_5a5a;

/// How many numbers a read fills.
pub fn numbers_of(question: Question) -> usize {
    match question {
        Question::Account { .. } | Question::Position { .. } => 2,
        Question::Exposure(_) => 6,
        Question::Request(_) => 15,
        Question::Basket(_) => 5,
    }
}

/// A read as the libraries export it.
///
/// # Safety
/// The book points to as many bytes as the length says, the answer to `numbers_of` numbers.
pub unsafe fn ask(book: *const u8, length: usize, question: Question, answer: *mut u64) {
    match question {
        Question::Account { participant, security } => {
            raw::reads_account(book, length, participant, security, answer)
        }
        Question::Position { exposure, security } => {
            raw::reads_position(book, length, exposure, security, answer)
        }
        Question::Exposure(exposure) => raw::reads_exposure(book, length, exposure, answer),
        Question::Request(number) => raw::reads_request(book, length, number, answer),
        Question::Basket(basket) => raw::reads_basket(book, length, basket, answer),
    }
}

/// A read's numbers, then zeros.
fn reply_of(numbers: &[u64]) -> Reply {
    let mut reply = [0; REPLY];
    reply[..numbers.len()].copy_from_slice(numbers);
    reply
}

/// A read of the proved library on any book's bytes.
pub fn read(book: &[u8], question: Question) -> Reply {
    let mut filled = [UNTOUCHED; REPLY + 1];
    // SAFETY: the book's length is that of the memory lent, and the answer has room for the
    // longest read's numbers.
    unsafe { ask(book.as_ptr(), book.len(), question, filled.as_mut_ptr()) };
    let (numbers, rest) = filled.split_at(numbers_of(question));
    assert!(rest.iter().all(|&number| number == UNTOUCHED), "{question:?}");
    reply_of(numbers)
}

/// The second program's calls, and the proved reads on the bytes of its book.
pub struct ReadsDesk {
    second: SecondDesk,
    bytes: Vec<u8>,
}

impl ReadsDesk {
    pub fn new() -> ReadsDesk {
        let second = SecondDesk::new();
        ReadsDesk { bytes: second.bytes(), second }
    }
}

impl Default for ReadsDesk {
    fn default() -> ReadsDesk {
        ReadsDesk::new()
    }
}

impl Desk for ReadsDesk {
    fn call(&mut self, record: &[u8]) -> Answer {
        let answer = self.second.call(record);
        self.bytes = self.second.bytes();
        answer
    }

    fn read(&mut self, question: Question) -> Reply {
        read(&self.bytes, question)
    }

    fn bytes(&self) -> Vec<u8> {
        self.bytes.clone()
    }

    fn lend(&mut self, bytes: &[u8]) {
        self.second.lend(bytes);
        self.bytes = bytes.to_vec();
    }
}

/// The engine with its book, which starts as zero bytes, in ordinary memory: what is measured.
#[cfg(feature = "engine")]
pub struct EngineDesk {
    book: Vec<u8>,
}

#[cfg(feature = "engine")]
impl EngineDesk {
    pub fn new() -> EngineDesk {
        EngineDesk { book: vec![0; BYTES] }
    }
}

#[cfg(feature = "engine")]
impl Default for EngineDesk {
    fn default() -> EngineDesk {
        EngineDesk::new()
    }
}

#[cfg(feature = "engine")]
impl Desk for EngineDesk {
    fn call(&mut self, record: &[u8]) -> Answer {
        let mut filled = [UNTOUCHED; 5];
        // SAFETY: the lengths are those of the memory lent; an empty slice's pointer is not null;
        // the answer has room for its four numbers.
        unsafe {
            raw::engine_call(
                self.book.as_mut_ptr(),
                self.book.len(),
                record.as_ptr(),
                record.len(),
                filled.as_mut_ptr(),
            );
        }
        assert_eq!(filled[4], UNTOUCHED, "the answer has four numbers");
        [filled[0], filled[1], filled[2], filled[3]]
    }

    fn read(&mut self, question: Question) -> Reply {
        read(&self.book, question)
    }

    fn bytes(&self) -> Vec<u8> {
        self.book.clone()
    }

    fn lend(&mut self, bytes: &[u8]) {
        self.book = bytes.to_vec();
    }
}

/// The engine with its book, record and answer beside inaccessible pages: what is compared. Each
/// call is made twice, on memory that begins right after such a page and on memory that ends right
/// before one, and has to give the same both times; the reads take turns.
#[cfg(feature = "engine")]
pub struct GuardedDesk {
    lent: [Lent; 2],
    turn: usize,
}

/// What the host lends, all in one place.
#[cfg(feature = "engine")]
struct Lent {
    book: Guarded,
    record: Guarded,
    answer: GuardedNumbers,
}

#[cfg(feature = "engine")]
impl Lent {
    fn new(place: Place) -> Lent {
        Lent {
            book: Guarded::new(BYTES, place),
            record: Guarded::new(64, place),
            answer: GuardedNumbers::new(REPLY, place),
        }
    }

    fn call(&mut self, record: &[u8]) -> Answer {
        self.record.put(record);
        self.answer.set_count(4);
        // SAFETY: the lengths are those of the memory lent, the pointers are not null, and the
        // answer has room for its four numbers.
        unsafe {
            raw::engine_call(
                self.book.pointer(),
                self.book.bytes().len(),
                self.record.pointer(),
                record.len(),
                self.answer.pointer(),
            );
        }
        assert!(self.record.bytes() == record, "the record has changed");
        self.assert_rest_untouched();
        let mut answer = [0; 4];
        answer.copy_from_slice(self.answer.numbers());
        answer
    }

    fn read(&mut self, question: Question) -> Reply {
        self.answer.set_count(numbers_of(question));
        let book = self.book.bytes();
        // SAFETY: as in `call`; the answer has room for the read's numbers.
        unsafe { ask(book.as_ptr(), book.len(), question, self.answer.pointer()) };
        self.assert_rest_untouched();
        reply_of(self.answer.numbers())
    }

    fn assert_rest_untouched(&self) {
        let all = self.book.rest_untouched() && self.record.rest_untouched();
        assert!(all && self.answer.rest_untouched(), "written beside what was lent");
    }
}

#[cfg(feature = "engine")]
impl GuardedDesk {
    pub fn new() -> GuardedDesk {
        GuardedDesk { lent: Place::BOTH.map(Lent::new), turn: 0 }
    }
}

#[cfg(feature = "engine")]
impl Default for GuardedDesk {
    fn default() -> GuardedDesk {
        GuardedDesk::new()
    }
}

#[cfg(feature = "engine")]
impl Desk for GuardedDesk {
    fn call(&mut self, record: &[u8]) -> Answer {
        let [first, second] = &mut self.lent;
        let answer = first.call(record);
        assert_eq!(answer, second.call(record), "the same call, answered in two ways");
        assert!(first.book.bytes() == second.book.bytes(), "the same call, two books");
        answer
    }

    fn read(&mut self, question: Question) -> Reply {
        self.turn += 1;
        self.lent[self.turn % 2].read(question)
    }

    fn bytes(&self) -> Vec<u8> {
        self.lent[0].book.bytes().to_vec()
    }

    fn lend(&mut self, bytes: &[u8]) {
        for (lent, place) in self.lent.iter_mut().zip(Place::BOTH) {
            if lent.book.bytes().len() == bytes.len() {
                lent.book.bytes_mut().copy_from_slice(bytes);
            } else {
                lent.book = Guarded::of(bytes, place);
            }
        }
    }
}
