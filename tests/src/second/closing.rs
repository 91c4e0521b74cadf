//! Document 01, Steps, 12.

use super::book::{Deal, Key, Program, Request, Turn, EXPOSURES, ROWS, SECURITIES};
use super::codes::DAY;
use super::notes::{Branch, Notes};
use super::steps::Totals;

impl Program {
    /// 12: "A: new day, B: rows dropped, M: amounts closed." 7 where there is "no next day".
    pub(super) fn next_day<N: Notes>(&mut self, notes: &mut N) -> Result<Totals, u64> {
        let new_day = match self.days.next_open(self.book.today) {
            None => {
                notes.reached(Branch::NoNextDay);
                return Err(DAY);
            }
            Some(day) => day,
        };
        let mut totals = Totals { a: u64::from(new_day), b: 0, m: 0 };

        // "drop settled and ended rows, and unpaired rows with settlement up to today"
        totals.b += self.drop_finished(notes);

        // "go to the next open day": what waited for it comes into force.
        self.book.today = new_day;
        for participant in self.book.participants.iter_mut().flatten() {
            if let Some(profile) = participant.waiting.take() {
                participant.profile = profile;
                notes.reached(Branch::ProfileInForce);
            }
        }

        // "drop FOP pairs with closing date reached"
        let reached_by = if self.takes(Turn::ClosingDayLater) { new_day - 1 } else { new_day };
        let on_its_day = self.takes(Turn::ClosingOnItsDay);
        let alone_too = self.takes(Turn::UnpairedClosedDropped);
        let reached = |key: Key| match on_its_day {
            true => key.closing == new_day,
            false => key.closing_reached(reached_by),
        };
        totals.b += self.drop_rows(|_, request| {
            let belongs = request.partner.is_some() || alone_too;
            if belongs && request.key().map_or(false, reached) {
                notes.reached(Branch::DropClosedPair);
                return true;
            }
            false
        });

        // "zero exposures with closing date reached, give back their positions"
        let mut closed = [false; EXPOSURES];
        for (e, closed) in closed.iter_mut().enumerate() {
            let used = match &mut self.book.exposures[e] {
                Some(used) if reached(used.key) => used,
                _ => continue,
            };
            *closed = true;
            notes.reached(match used.amount {
                0 => Branch::ClosedNothing,
                _ => Branch::ClosedAmount,
            });
            notes.closed(e, used.amount);
            totals.m += used.amount;
            used.amount = 0;
            for s in 0..SECURITIES {
                let held = self.book.positions[e][s];
                if held != 0 {
                    self.give_back(e, s, held);
                }
            }
        }

        // "drop returns naming them"
        totals.b += self.drop_rows(|_, request| match request.deal {
            Deal::Return { exposure } if closed[usize::from(exposure)] => {
                notes.reached(Branch::DropClosedReturn);
                true
            }
            _ => false,
        });

        let only_changed = self.takes(Turn::FreesWhatChangedOnly);
        if !only_changed || totals.b > 0 || closed.contains(&true) {
            self.free_exposures(notes);
        }
        if self.takes(Turn::WrongBOfDay) {
            totals.b /= 2;
        }
        if self.takes(Turn::MOfDayCountsAll) {
            totals.m += self.book.used_exposures().map(|(_, used)| used.amount).sum::<u64>();
        }
        Ok(totals)
    }

    fn drop_finished<N: Notes>(&mut self, notes: &mut N) -> u64 {
        let up_to = match self.takes(Turn::UnpairedStay) {
            true => self.book.today - 1,
            false => self.book.today,
        };
        let first = match self.takes(Turn::EarlierUnpairedStay) {
            true => self.book.today,
            false => 0,
        };
        self.drop_rows(|_, request| {
            let unpaired = request.partner.is_none();
            if request.settled == request.amount {
                notes.reached(Branch::DropSettled);
            } else if request.ended {
                notes.reached(Branch::DropEnded);
            } else if unpaired && (first..=up_to).contains(&request.settlement) {
                notes.reached(Branch::DropUnpaired);
            } else {
                if !unpaired && request.settled > 0 {
                    notes.reached(Branch::PairKept);
                }
                return false;
            }
            true
        })
    }

    /// Drops the rows that the test names, and counts them.
    fn drop_rows(&mut self, mut dropped: impl FnMut(usize, &Request) -> bool) -> u64 {
        let mut count = 0;
        for row in 0..ROWS {
            let drop = match &self.book.requests[row] {
                None => false,
                Some(request) => dropped(row, request),
            };
            if drop {
                self.book.requests[row] = None;
                count += 1;
            }
        }
        count
    }

    /// "free exposures of amount 0 to which no row belongs (a return belongs to the one it names)":
    /// a FOP pair belongs to its key's, an unpaired FOP to none.
    fn free_exposures<N: Notes>(&mut self, notes: &mut N) {
        let mut for_pair = [false; EXPOSURES];
        let mut for_return = [false; EXPOSURES];
        for (_, request) in self.book.used_rows() {
            match request.deal {
                Deal::Return { exposure } => for_return[usize::from(exposure)] = true,
                Deal::Fop { .. } if request.partner.is_some() => {
                    if let Some(e) = request.key().and_then(|key| self.book.exposure_of(key)) {
                        for_pair[e] = true;
                    }
                }
                Deal::Fop { .. } => {}
            }
        }
        if self.takes(Turn::FreesNamedExposure) {
            for_return = [false; EXPOSURES];
        }
        for e in 0..EXPOSURES {
            match &self.book.exposures[e] {
                Some(used) if used.amount == 0 => {}
                _ => continue,
            }
            if for_pair[e] {
                notes.reached(Branch::KeptForPair);
            } else if for_return[e] {
                notes.reached(Branch::KeptForReturn);
            } else {
                self.book.exposures[e] = None;
                notes.reached(Branch::ExposureFreed);
            }
        }
    }
}
