//! The clock. Each call is made from a fresh copy of the same book, which is not timed; the engine
//! and the second program take turns, and the least time of each counts.

use std::time::Instant;
use yordzepa_tests::desk::Desk;
use yordzepa_tests::engine::EngineDesk;
use yordzepa_tests::image::bytes_of;
use yordzepa_tests::lists::Call;
use yordzepa_tests::second::book::{Book, Program};
use yordzepa_tests::second::notes::Silent;
use yordzepa_tests::second::reads::{Question, Reply, REPLY};
use yordzepa_tests::second::steps::Answer;

const ROUNDS: usize = 400;
const LIST_ROUNDS: usize = 15;
const TWENTY: usize = 20;

/// A book in both forms.
pub struct Start {
    pub bytes: Vec<u8>,
    pub book: Book,
}

impl Start {
    pub fn of(book: &Book) -> Start {
        Start { bytes: bytes_of(book), book: book.clone() }
    }
}

/// Nanoseconds of both sides.
#[derive(Clone, Copy, Debug)]
pub struct Times {
    pub engine: f64,
    pub second: f64,
}

impl Times {
    fn none() -> Times {
        Times { engine: f64::INFINITY, second: f64::INFINITY }
    }

    fn least(self, other: Times) -> Times {
        let (engine, second) = (self.engine.min(other.engine), self.second.min(other.second));
        Times { engine, second }
    }

    pub fn ratio(self) -> String {
        crate::table::ratio(self.engine, self.second)
    }
}

/// The engine and the second program, each with its book.
pub struct Both {
    engine: EngineDesk,
    second: Box<Program>,
    /// What the clock itself takes.
    clock: f64,
}

impl Both {
    pub fn new() -> Both {
        Both { engine: EngineDesk::new(), second: Program::new(), clock: clock() }
    }

    fn lend(&mut self, start: &Start) {
        self.engine.lend(&start.bytes);
        self.second.book.clone_from(&start.book);
    }

    /// The answer to a call, which both sides must give, leaving the same book.
    pub fn answer(&mut self, start: &Start, call: &Call) -> Reply {
        self.lend(start);
        let answer = by_engine(&mut self.engine, call);
        assert_eq!(answer, by_second(&mut self.second, call), "the answers to {call:?} differ");
        assert_same_books(&self.engine, &self.second);
        answer
    }

    /// The least times of one call.
    pub fn time(&mut self, start: &Start, call: &Call) -> Times {
        let expected = self.answer(start, call);
        let mut least = Times::none();
        for _ in 0..ROUNDS {
            least = least.least(self.round(start, call, &expected));
        }
        least
    }

    /// The least times of one call, and what it takes past another one: the median of the
    /// differences of two calls that follow each other.
    fn time_past(&mut self, start: &Start, call: &Call, other: &Call) -> [Times; 2] {
        let expected = [self.answer(start, call), self.answer(start, other)];
        let mut least = Times::none();
        let mut past = [Vec::new(), Vec::new()];
        for _ in 0..ROUNDS {
            let one = self.round(start, call, &expected[0]);
            let two = self.round(start, other, &expected[1]);
            least = least.least(one);
            past[0].push(one.engine - two.engine);
            past[1].push(one.second - two.second);
        }
        let [engine, second] = past.map(median);
        [least, Times { engine, second }]
    }

    /// The means over several calls, each from the same book: their times, and past the other one.
    pub fn mean_past(&mut self, start: &Start, calls: &[Call], other: &Call) -> [Times; 2] {
        let mut sums = [Times { engine: 0.0, second: 0.0 }; 2];
        for call in calls {
            let times = self.time_past(start, call, other);
            for (sum, times) in sums.iter_mut().zip(times) {
                sum.engine += times.engine / calls.len() as f64;
                sum.second += times.second / calls.len() as f64;
            }
        }
        sums
    }

    /// One call by each side.
    fn round(&mut self, start: &Start, call: &Call, expected: &Reply) -> Times {
        self.engine.lend(&start.bytes);
        let began = Instant::now();
        let answer = by_engine(&mut self.engine, call);
        let engine = since(began) - self.clock;
        assert_eq!(answer, *expected);

        self.second.book.clone_from(&start.book);
        let began = Instant::now();
        let answer = by_second(&mut self.second, call);
        let second = since(began) - self.clock;
        assert_eq!(answer, *expected);
        Times { engine, second }
    }

    /// The times of a whole list of calls, one after the other: the least time of each twenty calls,
    /// summed, since no round of a whole list goes undisturbed on a machine that does other work.
    pub fn list(&mut self, start: &Start, calls: &[Call]) -> Times {
        self.check_list(start, calls);
        let mut least = vec![Times::none(); calls.chunks(TWENTY).len()];
        for _ in 0..LIST_ROUNDS {
            self.lend(start);
            for (least, calls) in least.iter_mut().zip(calls.chunks(TWENTY)) {
                *least = least.least(self.some(calls));
            }
        }
        least.iter().fold(Times { engine: 0.0, second: 0.0 }, |sum, times| Times {
            engine: sum.engine + times.engine,
            second: sum.second + times.second,
        })
    }

    fn check_list(&mut self, start: &Start, calls: &[Call]) {
        self.lend(start);
        for call in calls {
            let answer = by_engine(&mut self.engine, call);
            assert_eq!(answer, by_second(&mut self.second, call), "the answers to {call:?} differ");
        }
        assert_same_books(&self.engine, &self.second);
    }

    /// Some calls by each side.
    fn some(&mut self, calls: &[Call]) -> Times {
        let began = Instant::now();
        let first = calls.iter().fold(0, |sum, call| add(sum, by_engine(&mut self.engine, call)));
        let engine = since(began) - self.clock;
        let began = Instant::now();
        let other = calls.iter().fold(0, |sum, call| add(sum, by_second(&mut self.second, call)));
        let second = since(began) - self.clock;
        assert_eq!(first, other);
        Times { engine, second }
    }
}

/// Reading the clock twice.
fn clock() -> f64 {
    (0..10_000).map(|_| since(Instant::now())).fold(f64::INFINITY, f64::min)
}

fn since(began: Instant) -> f64 {
    began.elapsed().as_nanos() as f64
}

fn median(mut numbers: Vec<f64>) -> f64 {
    numbers.sort_by(f64::total_cmp);
    numbers[numbers.len() / 2]
}

fn add(sum: u64, reply: Reply) -> u64 {
    reply.iter().fold(sum, |sum, &number| sum.wrapping_mul(31).wrapping_add(number))
}

fn assert_same_books(engine: &EngineDesk, second: &Program) {
    assert!(engine.bytes() == bytes_of(&second.book), "the books differ");
}

#[inline(never)]
fn by_engine(engine: &mut EngineDesk, call: &Call) -> Reply {
    match call {
        Call::Record(record) => widened(engine.call(record)),
        Call::Read(question) => engine.read(*question),
    }
}

#[inline(never)]
fn by_second(second: &mut Program, call: &Call) -> Reply {
    match call {
        Call::Record(record) => widened(second.call(record, &mut Silent)),
        Call::Read(question) => second.read(*question),
    }
}

fn widened(answer: Answer) -> Reply {
    let mut reply = [0; REPLY];
    reply[..answer.len()].copy_from_slice(&answer);
    reply
}

/// A read that does next to nothing but the soundness test.
pub fn sound_test() -> Call {
    Call::Read(Question::Account { participant: 0, security: 0 })
}
