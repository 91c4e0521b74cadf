//! Document 01, Steps, 9.

use super::bonds::pick;
use super::book::{Deal, Program, Request, Side, Turn, BASKETS, GREATEST_EXPOSURE, ROWS};
use super::notes::{Branch, Notes};
use super::steps::Totals;

/// A due pair: its place in the order, and the giver's row.
#[derive(Clone, Copy, Default, PartialEq, Eq, PartialOrd, Ord)]
struct Due {
    /// "returns before FOPs"
    is_fop: bool,
    /// "then by settlement date"
    settlement: u32,
    /// "then by pairing order": a pair is made when its later request enters.
    order: u32,
    row: usize,
}

impl Program {
    /// 9: "live pairs due today or earlier, returns before FOPs, then by settlement date, then by
    /// pairing order." "A: FOPs changed, B: returns changed, M: cents settled by both."
    pub(super) fn settle<N: Notes>(&mut self, notes: &mut N) -> Totals {
        let mut due = [Due::default(); ROWS / 2];
        let mut count = 0;
        for (row, request) in self.book.used_rows() {
            if request.side != Side::Giver
                || !(request.live() || self.goes_on(request))
                || (request.settlement > self.book.today && !self.has_begun(request))
            {
                continue;
            }
            if let Some(partner) = self.partner_of(request) {
                if self.takes(Turn::NotedByBothIsEnded) && request.cancelled && partner.cancelled {
                    continue;
                }
                due[count] = self.due(row, request, &partner);
                count += 1;
            }
        }
        let due = &mut due[..count];
        due.sort_unstable();

        let mut totals = Totals::default();
        let mut eligible = [None; BASKETS];
        for (place, pair) in due.iter().enumerate() {
            if place > 0 && self.takes(Turn::FirstPairOnly) {
                break;
            }
            let request = match self.book.requests[pair.row] {
                None => continue,
                Some(request) => request,
            };
            let settled = match request.deal {
                Deal::Return { exposure } => {
                    self.settle_return(&request, usize::from(exposure), notes)
                }
                Deal::Fop { basket, .. } => {
                    let map = &mut eligible[usize::from(basket)];
                    let map = *map.get_or_insert_with(|| self.eligible(basket));
                    self.settle_fop(&request, map, notes)
                }
            };
            if settled == 0 {
                if pair.is_fop && self.takes(Turn::AOfSettleCountsDue) {
                    totals.a += 1;
                }
                continue;
            }
            if request.cancelled || self.partner_of(&request).map_or(false, |p| p.cancelled) {
                notes.reached(Branch::SettledThoughCancelled);
            }
            self.add_settled(pair.row, settled);
            match request.deal {
                Deal::Fop { .. } => totals.a += 1,
                Deal::Return { .. } => totals.b += 1,
            }
            totals.m += settled;
        }
        totals
    }

    /// Two wrong turns of pairs that have settled a part.
    fn goes_on(&self, request: &Request) -> bool {
        self.takes(Turn::EndedSettlesOn) && request.settled > 0 && request.rest() > 0
    }

    fn has_begun(&self, request: &Request) -> bool {
        self.takes(Turn::BegunIsDue) && request.settled > 0
    }

    fn partner_of(&self, request: &Request) -> Option<Request> {
        request.partner.and_then(|partner| self.book.requests[usize::from(partner)])
    }

    fn due(&self, row: usize, request: &Request, partner: &Request) -> Due {
        let is_fop = matches!(request.deal, Deal::Fop { .. });
        let order = if self.takes(Turn::OrderByLowerNumber) {
            request.number.min(partner.number)
        } else {
            request.number.max(partner.number)
        };
        Due {
            is_fop: is_fop != self.takes(Turn::FopsFirst),
            settlement: request.settlement,
            order,
            row,
        }
    }

    /// Both rows of a pair have settled the same.
    fn add_settled(&mut self, row: usize, settled: u64) {
        let partner = self.book.requests[row].and_then(|request| request.partner);
        for row in [Some(row), partner.map(usize::from)].iter().flatten() {
            if let Some(request) = &mut self.book.requests[*row] {
                request.settled += settled;
            }
        }
    }

    /// "A return settles the lesser of its rest and the exposure, lowers the exposure and Frees."
    fn settle_return<N: Notes>(
        &mut self,
        request: &Request,
        exposure: usize,
        notes: &mut N,
    ) -> u64 {
        let used = match &mut self.book.exposures[exposure] {
            None => return 0,
            Some(used) => used,
        };
        let settled = request.rest().min(used.amount);
        if settled == 0 {
            notes.reached(Branch::ReturnOfNothing);
            return 0;
        }
        used.amount -= settled;
        notes.returned(exposure, settled);
        notes.reached(match settled == request.rest() {
            true => Branch::ReturnWhole,
            false => Branch::ReturnInPart,
        });
        if !self.takes(Turn::ReturnKeepsBonds) && self.free(exposure, notes) {
            notes.reached(Branch::ReturnFreed);
        }
        settled
    }

    /// "A FOP Picks its rest: if the value found falls short by less than the tolerance, the whole
    /// rest settles; else, if both parties allowed partial when they paired .. and something was
    /// found, the value found settles; else nothing moves. The exposure grows by what settles. A
    /// FOP whose rest would take the exposure above 10^13 waits."
    fn settle_fop<N: Notes>(&mut self, request: &Request, eligible: u64, notes: &mut N) -> u64 {
        let exposure = match request.key().and_then(|key| self.book.exposure_of(key)) {
            None => return 0,
            Some(exposure) => exposure,
        };
        let amount = self.book.exposures[exposure].map_or(0, |used| used.amount);
        let rest = request.rest();
        if self.above_limit(amount + rest) && !self.takes(Turn::LimitByFound) {
            notes.reached(Branch::FopAboveLimit);
            return 0;
        }
        let giver = usize::from(request.giver);
        let picked = pick(&self.book, &self.book.accounts[giver], eligible, rest);
        if self.takes(Turn::LimitByFound) && amount + picked.value > GREATEST_EXPOSURE {
            return 0;
        }
        let short = rest - picked.value;
        let whole = if self.takes(Turn::ToleranceOffByOne) {
            short <= u64::from(self.book.tolerance)
        } else {
            short < u64::from(self.book.tolerance)
        };
        let settled = if whole {
            notes.reached(match short {
                0 => Branch::FopWhole,
                _ => Branch::FopWithinTolerance,
            });
            rest
        } else if self.allows_partial(request) && picked.value > 0 {
            notes.reached(Branch::FopInPart);
            picked.value
        } else {
            notes.reached(match request.partial {
                true => Branch::FopFoundNothing,
                false => Branch::FopWaitsForAll,
            });
            return 0;
        };
        if request.settled > 0 {
            notes.reached(Branch::FopRestSettled);
        }
        if amount + settled == GREATEST_EXPOSURE {
            notes.reached(Branch::FopAtLimit);
        }
        self.take_in(exposure, giver, &picked);
        if let Some(used) = &mut self.book.exposures[exposure] {
            used.amount += settled;
        }
        notes.settled(exposure, settled);
        settled
    }

    fn above_limit(&self, amount: u64) -> bool {
        if self.takes(Turn::LimitOffByOne) {
            return amount >= GREATEST_EXPOSURE;
        }
        amount > GREATEST_EXPOSURE
    }

    fn allows_partial(&self, request: &Request) -> bool {
        if self.takes(Turn::PartialOfToday) {
            let allows = |participant| self.book.profile(participant).map_or(false, |p| p.partial);
            return allows(request.giver) && allows(request.taker);
        }
        request.partial || (self.takes(Turn::BegunGoesOnInParts) && request.settled > 0)
    }
}
