//! A desk is a program with a book: the second program, the proved engine, or the second program
//! with a wrong turn. The comparison takes any two of them.

use crate::image::{book_of, bytes_of, BYTES};
use crate::second::book::{Book, Program, Turn};
use crate::second::codes::{LENGTH, UNSOUND};
use crate::second::notes::{Notes, Silent};
use crate::second::reads::{refusal, Question, Reply};
use crate::second::steps::{refused, Answer};

pub trait Desk {
    /// Code, A, B, M.
    fn call(&mut self, record: &[u8]) -> Answer;

    /// The code, what was asked for, zeros.
    fn read(&mut self, question: Question) -> Reply;

    /// The book, as docs/LAYOUT.md sets it out.
    fn bytes(&self) -> Vec<u8>;

    /// Lends another book, of any bytes and any length.
    fn lend(&mut self, bytes: &[u8]);
}

/// The desk that the second program is compared with: the proved engine on guarded memory with the
/// feature `engine`; the second program's calls and the proved reads with the feature `reads`; else
/// the second program itself, so that the comparison runs before there is an engine.
pub fn under_test() -> Box<dyn Desk> {
    #[cfg(feature = "engine")]
    return Box::new(crate::engine::GuardedDesk::new());
    #[cfg(all(feature = "reads", not(feature = "engine")))]
    return Box::new(crate::engine::ReadsDesk::new());
    #[cfg(not(feature = "reads"))]
    return Box::new(SecondDesk::new());
}

/// The second program as a desk. It starts with the book of zero bytes.
pub struct SecondDesk {
    program: Box<Program>,
    /// Bytes that no book of the second program can hold, or of another length: these are lent in
    /// place of its book.
    other: Option<Vec<u8>>,
}

impl SecondDesk {
    pub fn new() -> SecondDesk {
        SecondDesk { program: Program::new(), other: None }
    }

    /// The second program with one wrong turn.
    pub fn wrong(turn: Turn) -> SecondDesk {
        SecondDesk { program: Program::wrong(turn), other: None }
    }

    pub fn book(&self) -> &Book {
        &self.program.book
    }

    /// Many reads of one book: its soundness is tested once.
    pub fn read_all(&self, questions: &[Question]) -> Vec<Reply> {
        let refused = match &self.other {
            None if self.program.is_sound() => None,
            Some(bytes) if bytes.len() != BYTES => Some(refusal(LENGTH)),
            _ => Some(refusal(UNSOUND)),
        };
        let look = |&question: &Question| refused.unwrap_or_else(|| self.program.look(question));
        questions.iter().map(look).collect()
    }

    /// A call that tells a listener of its step.
    pub fn call_noted<N: Notes>(&mut self, record: &[u8], notes: &mut N) -> Answer {
        if let Some(bytes) = &self.other {
            if bytes.len() != BYTES {
                return refused(LENGTH);
            }
            if record.first() != Some(&0) {
                return refused(UNSOUND);
            }
            // Only an opening changes such a book: it is then as any other.
            let answer = self.program.call(record, notes);
            if answer[0] == 0 {
                self.other = None;
            }
            return answer;
        }
        self.program.call(record, notes)
    }
}

impl Default for SecondDesk {
    fn default() -> SecondDesk {
        SecondDesk::new()
    }
}

impl Desk for SecondDesk {
    fn call(&mut self, record: &[u8]) -> Answer {
        self.call_noted(record, &mut Silent)
    }

    fn read(&mut self, question: Question) -> Reply {
        match &self.other {
            None => self.program.read(question),
            Some(bytes) if bytes.len() != BYTES => refusal(LENGTH),
            Some(_) => refusal(UNSOUND),
        }
    }

    fn bytes(&self) -> Vec<u8> {
        match &self.other {
            None => bytes_of(&self.program.book),
            Some(bytes) => bytes.clone(),
        }
    }

    fn lend(&mut self, bytes: &[u8]) {
        let book = if bytes.len() == BYTES { book_of(bytes) } else { None };
        match book {
            Some(book) => {
                self.program.book = *book;
                self.other = None;
            }
            None => self.other = Some(bytes.to_vec()),
        }
    }
}
