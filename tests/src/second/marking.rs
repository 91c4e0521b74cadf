//! Document 01, Steps, 10 and 11.

use super::bonds::pick;
use super::book::{bits, Program, Turn, BASKETS, EXPOSURES, SECURITIES};
use super::codes::NOT_COVERED;
use super::notes::{Branch, Notes};
use super::steps::Totals;

impl Program {
    /// 10: "on all exposures give back ineligible securities; then on all Free; then by rising
    /// number, where the value is below the exposure, Pick the difference. A: exposures that gave
    /// back, B: exposures that took in, M: total missing after."
    pub(super) fn mark<N: Notes>(&mut self, notes: &mut N) -> Totals {
        let mut eligible = [0; BASKETS];
        for (basket, map) in eligible.iter_mut().enumerate() {
            *map = self.eligible(basket as u8);
        }
        let mut gave = [false; EXPOSURES];
        let mut totals = Totals::default();
        if self.takes(Turn::MarkInOnePass) {
            for (exposure, gave) in gave.iter_mut().enumerate() {
                *gave |= self.give_back_ineligible(exposure, &eligible, notes);
                *gave |= self.free_marked(exposure, notes);
                self.cover(exposure, &eligible, *gave, &mut totals, notes);
            }
        } else {
            for (exposure, gave) in gave.iter_mut().enumerate() {
                *gave |= self.give_back_ineligible(exposure, &eligible, notes);
            }
            for (exposure, gave) in gave.iter_mut().enumerate() {
                *gave |= self.free_marked(exposure, notes);
            }
            for (exposure, &gave) in gave.iter().enumerate() {
                self.cover(exposure, &eligible, gave, &mut totals, notes);
            }
        }
        totals.a = gave.iter().filter(|&&gave| gave).count() as u64;
        totals
    }

    fn give_back_ineligible<N: Notes>(
        &mut self,
        exposure: usize,
        eligible: &[u64; BASKETS],
        notes: &mut N,
    ) -> bool {
        let map = match &self.book.exposures[exposure] {
            None => return false,
            Some(used) => eligible[usize::from(used.key.basket)],
        };
        let mut any = false;
        for s in bits(!map) {
            let held = self.book.positions[exposure][s];
            if held != 0 {
                self.give_back(exposure, s, held);
                any = true;
            }
        }
        if any {
            notes.reached(Branch::MarkIneligible);
        }
        any
    }

    fn free_marked<N: Notes>(&mut self, exposure: usize, notes: &mut N) -> bool {
        let any = self.free(exposure, notes);
        if any {
            notes.reached(Branch::MarkFreed);
        }
        any
    }

    /// Picks what an exposure lacks, and adds what is missing after.
    fn cover<N: Notes>(
        &mut self,
        exposure: usize,
        eligible: &[u64; BASKETS],
        gave: bool,
        totals: &mut Totals,
        notes: &mut N,
    ) {
        let used = match self.book.exposures[exposure] {
            None => return,
            Some(used) => used,
        };
        let value = self.value(&self.book.positions[exposure]);
        if value >= used.amount {
            return;
        }
        let giver = usize::from(used.key.giver);
        let map = eligible[usize::from(used.key.basket)];
        let picked = pick(&self.book, &self.book.accounts[giver], map, used.amount - value);
        self.take_in(exposure, giver, &picked);
        totals.b += u64::from(picked.count > 0 || self.takes(Turn::WrongBOfMark));
        let missing = used.amount.saturating_sub(self.value(&self.book.positions[exposure]));
        totals.m += match self.takes(Turn::MOfMarkBefore) {
            true => used.amount - value,
            false => missing,
        };
        notes.reached(match (picked.count, missing) {
            (0, _) => Branch::MarkFoundNothing,
            (_, 0) => Branch::MarkCovered,
            _ => Branch::MarkCoveredInPart,
        });
        if gave && picked.count > 0 {
            notes.reached(Branch::MarkBothWays);
        }
    }

    /// 11: "give the nominal back to the giver's account; Pick what is then missing from the
    /// exposure amount, leaving that security out. Accepted if the new value plus tolerance exceeds
    /// the exposure, or the new value is no lower than before. B: securities picked, M: the value
    /// found."
    pub(super) fn recall<N: Notes>(
        &mut self,
        exposure: usize,
        security: usize,
        nominal: u32,
        notes: &mut N,
    ) -> Result<Totals, u64> {
        let used = self.book.exposures[exposure].expect("12 was not given");
        let giver = usize::from(used.key.giver);
        let mut account = self.book.accounts[giver];
        let mut position = self.book.positions[exposure];
        let before = self.value(&position);
        position[security] -= nominal;
        account[security] += nominal;
        let mut map = self.eligible(used.key.basket);
        if !self.takes(Turn::RecallKeepsSecurity) {
            map &= !(1 << security);
        }
        let left = self.value(&position);
        let missing = used.amount.saturating_sub(left);
        let picked = pick(&self.book, &account, map, missing);
        for s in 0..SECURITIES {
            account[s] -= picked.nominals[s];
            position[s] += picked.nominals[s];
        }
        let after = self.value(&position);
        let reach = after + u64::from(self.book.tolerance);
        let covered =
            reach > used.amount || (reach == used.amount && self.takes(Turn::RecallOffByOne));
        let no_lower = after >= before && !self.takes(Turn::RecallIgnoresBefore);
        let refused_wrongly = self.takes(Turn::False16) && after < used.amount;
        if (!covered && !no_lower) || refused_wrongly {
            if self.takes(Turn::RefusalWrites) {
                self.book.accounts[giver] = account;
                self.book.positions[exposure] = position;
            }
            notes.reached(match picked.count {
                0 => Branch::RecallRefused,
                _ => Branch::RecallRefusedWithPick,
            });
            return Err(NOT_COVERED);
        }
        notes.reached(match (missing, covered) {
            (0, _) => Branch::RecallWithoutPick,
            (_, false) => Branch::RecallNoLower,
            _ if after < used.amount => Branch::RecallWithinTolerance,
            _ => Branch::RecallCovered,
        });
        self.book.accounts[giver] = account;
        self.book.positions[exposure] = position;
        let m = if self.takes(Turn::MOfRecallGrowth) { after - left } else { picked.value };
        Ok(Totals { a: 0, b: picked.count, m })
    }
}
