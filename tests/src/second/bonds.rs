//! Document 01, Steps: Eligible, Pick and Free on the book's accounts and positions.

use super::book::{bits, Book, Nominals, Program, Turn, PARTS, SECURITIES};
use super::notes::{Branch, Notes};

/// "The pick's outcome holds one nominal for each of the 64 securities": with the value found and
/// the count of securities.
#[derive(Clone, Copy, Debug, PartialEq, Eq)]
pub struct Picked {
    pub nominals: Nominals,
    pub value: u64,
    pub count: u64,
}

impl Program {
    /// "Eligible for a basket: in its map, set up, price age not above the greatest age, one lot
    /// worth at least 1 cent." The securities as a map.
    pub fn eligible(&self, basket: u8) -> u64 {
        let basket = match &self.book.baskets[usize::from(basket)] {
            None => return 0,
            Some(basket) => basket,
        };
        let mut eligible = 0;
        for s in bits(basket.map) {
            let security = &self.book.securities[s];
            if security.set_up()
                && self.age(security.quote) <= u32::from(basket.greatest_age)
                && !(self.takes(Turn::QuoteAheadIsOld) && security.quote > self.book.today)
                && security.worth(security.lot) >= 1
            {
                eligible |= 1 << s;
            }
        }
        eligible
    }

    fn age(&self, quote: u32) -> u32 {
        if self.takes(Turn::AgeInCalendarDays) {
            return self.book.today.saturating_sub(quote);
        }
        self.days.age(quote, self.book.today)
    }

    /// The value of a position.
    pub(super) fn value(&self, position: &Nominals) -> u64 {
        if self.takes(Turn::ValueByParcels) {
            let held = self.book.securities.iter().zip(position).filter(|(s, _)| s.set_up());
            return held.map(|(s, &n)| u64::from(n / s.lot) * s.worth(s.lot)).sum();
        }
        self.book.position_value(position)
    }

    /// Moves what was picked from the giver's account to the exposure's position.
    pub(super) fn take_in(&mut self, exposure: usize, giver: usize, picked: &Picked) {
        if self.takes(Turn::PicksNothing) {
            return;
        }
        let account = &mut self.book.accounts[giver];
        let position = &mut self.book.positions[exposure];
        for s in 0..SECURITIES {
            account[s] -= picked.nominals[s];
            position[s] += picked.nominals[s];
        }
    }

    /// Moves a nominal from the exposure's position to the giver's account.
    pub(super) fn give_back(&mut self, exposure: usize, security: usize, nominal: u32) {
        if let Some(used) = &self.book.exposures[exposure] {
            let giver = usize::from(used.key.giver);
            let lost = u32::from(self.takes(Turn::LosesBond) && nominal % 7 == 0);
            self.book.positions[exposure][security] -= nominal;
            self.book.accounts[giver][security] += nominal - lost;
        }
    }

    /// "Free down to exposure E: by falling number, give back the largest count of lots that leaves
    /// the position worth E or more; none if it is below E." True if something went back.
    pub fn free<N: Notes>(&mut self, exposure: usize, notes: &mut N) -> bool {
        let amount = match &self.book.exposures[exposure] {
            None => return false,
            Some(used) => used.amount,
        };
        let mut value = self.book.position_value(&self.book.positions[exposure]);
        if value < amount {
            return false;
        }
        let mut any = false;
        for s in (0..SECURITIES).rev() {
            let held = self.book.positions[exposure][s];
            if held == 0 {
                continue;
            }
            if value == amount && self.takes(Turn::FreeStopsAtNothing) {
                break;
            }
            let security = self.book.securities[s];
            let others = value - security.worth(held);
            // The least nominal worth what the others lack. What they lack is at most this one's
            // value, so the product is below 2^64.
            let lacking = amount.saturating_sub(others);
            let factor = security.factor();
            let least = ((lacking * PARTS + factor - 1) / factor) as u32;
            let back = (held - least) / security.lot * security.lot;
            if back == 0 {
                continue;
            }
            self.give_back(exposure, s, back);
            let left = others + security.worth(held - back);
            if left == value {
                notes.reached(Branch::FreedForNothing);
            }
            value = left;
            any = true;
        }
        any
    }
}

/// "Pick amount X from a giver's account: eligible securities by rising number; from each, the
/// largest count of whole lots in the account whose value is not above what remains of X, which
/// that value then lowers."
pub fn pick(book: &Book, account: &Nominals, eligible: u64, amount: u64) -> Picked {
    let mut picked = Picked { nominals: [0; SECURITIES], value: 0, count: 0 };
    let mut rest = amount;
    for s in bits(eligible) {
        if rest == 0 {
            // An eligible lot is worth a cent or more.
            break;
        }
        let security = &book.securities[s];
        let whole = account[s] / security.lot * security.lot;
        if whole == 0 {
            continue;
        }
        let all = security.worth(whole);
        let (nominal, value) = if all <= rest {
            (whole, all)
        } else {
            // The greatest nominal worth no more than the rest. The rest is below 1.5 × 10^11 here,
            // so the product is below 2^64.
            let most = ((rest + 1) * PARTS - 1) / security.factor();
            let nominal = most as u32 / security.lot * security.lot;
            (nominal, security.worth(nominal))
        };
        picked.nominals[s] = nominal;
        picked.count += u64::from(nominal != 0);
        rest -= value;
    }
    picked.value = amount - rest;
    picked
}
