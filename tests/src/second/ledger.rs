//! Document 01, The ledger of demand 3: "It is fed the list's calls with their arguments, no answer
//! and no byte of the book."

use super::book::{Book, Exposure, Key, Program, EXPOSURES, PARTICIPANTS, SECURITIES};
use super::notes::Notes;

/// "sums: D (deposited), W (withdrawn) for each participant and security; S (settled), R
/// (returned), C (closed) for each exposure row."
#[derive(Clone, Debug, PartialEq, Eq)]
pub struct Sums {
    pub deposited: [[u64; SECURITIES]; PARTICIPANTS],
    pub withdrawn: [[u64; SECURITIES]; PARTICIPANTS],
    pub settled: [u64; EXPOSURES],
    pub returned: [u64; EXPOSURES],
    pub closed: [u64; EXPOSURES],
    /// None but in the tests of the tests.
    lapse: Option<Lapse>,
}

/// What a wrong ledger forgets to add, to see that the comparison looks at its sums.
#[derive(Clone, Copy, Debug, PartialEq, Eq)]
pub enum Lapse {
    Withdrawals,
    Closings,
}

impl Sums {
    fn zero(lapse: Option<Lapse>) -> Sums {
        Sums {
            lapse,
            deposited: [[0; SECURITIES]; PARTICIPANTS],
            withdrawn: [[0; SECURITIES]; PARTICIPANTS],
            settled: [0; EXPOSURES],
            returned: [0; EXPOSURES],
            closed: [0; EXPOSURES],
        }
    }

    /// "An exposure's amount on paper is S − R − C."
    pub fn amount(&self, exposure: usize) -> u64 {
        self.settled[exposure] - self.returned[exposure] - self.closed[exposure]
    }

    /// "exactly its accepted deposits less its accepted withdrawals".
    pub fn lodged(&self, participant: usize, security: usize) -> u64 {
        self.deposited[participant][security] - self.withdrawn[participant][security]
    }
}

impl Notes for Sums {
    const COUNTS: bool = false;

    /// "An opening sets all sums to 0."
    fn opened(&mut self) {
        *self = Sums::zero(self.lapse);
    }

    /// "A deposit adds to D, a withdrawal to W."
    fn deposited(&mut self, participant: usize, security: usize, nominal: u32) {
        self.deposited[participant][security] += u64::from(nominal);
    }

    fn withdrawn(&mut self, participant: usize, security: usize, nominal: u32) {
        if self.lapse != Some(Lapse::Withdrawals) {
            self.withdrawn[participant][security] += u64::from(nominal);
        }
    }

    /// "A row given out starts with S, R and C at 0."
    fn row_given(&mut self, exposure: usize) {
        self.settled[exposure] = 0;
        self.returned[exposure] = 0;
        self.closed[exposure] = 0;
    }

    /// "What a FOP settles is added to its exposure's S, what a return settles to R. In 12, a
    /// zeroed exposure's amount is added to C."
    fn settled(&mut self, exposure: usize, amount: u64) {
        self.settled[exposure] += amount;
    }

    fn returned(&mut self, exposure: usize, amount: u64) {
        self.returned[exposure] += amount;
    }

    fn closed(&mut self, exposure: usize, amount: u64) {
        if self.lapse != Some(Lapse::Closings) {
            self.closed[exposure] += amount;
        }
    }
}

/// The ledger: what the steps speak of, on paper, and the sums.
pub struct Ledger {
    paper: Box<Program>,
    pub sums: Box<Sums>,
}

impl Ledger {
    /// The paper before the list, which begins with an accepted opening.
    pub fn new() -> Ledger {
        Ledger { paper: Program::of(Book::zero()), sums: Box::new(Sums::zero(None)) }
    }

    /// A ledger that forgets.
    pub fn wrong(lapse: Lapse) -> Ledger {
        Ledger { sums: Box::new(Sums::zero(Some(lapse))), ..Ledger::new() }
    }

    /// "A call's code on paper is the one that the rules above give, 0 if none applies (1 and 2
    /// never do). A call with 0 is accepted and takes its step there; a refused call or a read
    /// changes nothing."
    pub fn call(&mut self, record: &[u8]) -> u64 {
        // The steps see the sums' amounts.
        for (e, exposure) in self.paper.book.exposures.iter_mut().enumerate() {
            if let Some(used) = exposure {
                used.amount = self.sums.amount(e);
            }
        }
        self.paper.take(record, &mut *self.sums)[0]
    }

    /// The exposures in use on paper: their keys and amounts.
    pub fn exposures(&self) -> [Option<(Key, u64)>; EXPOSURES] {
        let mut exposures = [None; EXPOSURES];
        for (e, used) in self.paper.book.used_exposures() {
            exposures[e] = Some((used.key, self.sums.amount(e)));
        }
        exposures
    }

    /// Whether the steps left the amounts that the sums give; a row not in use has 0 on paper, whose
    /// amount was returned or closed.
    pub fn agrees_with_its_steps(&self) -> bool {
        let rows = self.paper.book.exposures.iter().enumerate();
        let amount = |used: &Option<Exposure>| used.map_or(0, |used| used.amount);
        rows.map(|(e, used)| (e, amount(used))).all(|(e, amount)| amount == self.sums.amount(e))
    }
}

impl Default for Ledger {
    fn default() -> Ledger {
        Ledger::new()
    }
}
