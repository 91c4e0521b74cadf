//! A small generator of random numbers (xorshift64*), the same numbers on every run.

/// Prints its seed when the test that holds it fails.
pub struct Random {
    seed: u64,
    state: u64,
    drawn: u64,
}

impl Random {
    pub fn new(seed: u64) -> Random {
        assert!(seed != 0, "xorshift stays at 0");
        Random { seed, state: seed, drawn: 0 }
    }

    /// Any 64 bits.
    pub fn bits(&mut self) -> u64 {
        self.drawn += 1;
        self.state ^= self.state >> 12;
        self.state ^= self.state << 25;
        self.state ^= self.state >> 27;
        self.state.wrapping_mul(0x2545_f491_4f6c_dd1d)
    }

    /// 0 to `end` - 1.
    pub fn below(&mut self, end: u64) -> u64 {
        ((u128::from(self.bits()) * u128::from(end)) >> 64) as u64
    }

    /// `low` to `high`, both included.
    pub fn between(&mut self, low: u64, high: u64) -> u64 {
        match (high - low).checked_add(1) {
            Some(size) => low + self.below(size),
            None => self.bits(),
        }
    }

    /// True once in `n`.
    pub fn once_in(&mut self, n: u64) -> bool {
        self.below(n) == 0
    }

    /// One of the numbers given.
    pub fn one_of(&mut self, numbers: &[u64]) -> u64 {
        numbers[self.below(numbers.len() as u64) as usize]
    }

    /// A number of any length: 0 to 64 random bits.
    pub fn any_length(&mut self) -> u64 {
        let length = self.between(0, 64) as u32;
        self.bits().checked_shr(64 - length).unwrap_or(0)
    }

    /// `number`, or one to three more or less, not below 0.
    pub fn near(&mut self, number: u64) -> u64 {
        number.saturating_add(self.below(4)).saturating_sub(self.below(4))
    }
}

impl Drop for Random {
    fn drop(&mut self) {
        if std::thread::panicking() {
            eprintln!("random numbers: seed {:#x}, {} drawn", self.seed, self.drawn);
        }
    }
}
