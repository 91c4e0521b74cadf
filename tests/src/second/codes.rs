//! Document 01, Codes: "The lowest that applies is given." The tests of each kind stand in the order
//! of their codes; 1 and 2 come before, 3 and 4 by the ranges from the reader.

use super::actions::Entry;
use super::book::{Deal, Program, Request, Side, Turn, GREATEST_HOLDING, LAST_NUMBER};
use super::notes::{Branch, Notes};

/// "book of another length".
pub const LENGTH: u64 = 1;
/// "book not sound (not tested for kind 0)".
pub const UNSOUND: u64 = 2;
/// "field out of range, or recall of a set-up security not in its whole lots".
pub const RANGE: u64 = 4;
/// "participant, security or basket not set up".
pub const NOT_SET_UP: u64 = 5;
/// "basket again, or price with another lot".
pub const AGAIN: u64 = 6;
/// "any day named, quote days too, not open or above 146,096 ..".
pub const DAY: u64 = 7;
/// "giver equals taker".
pub const SAME_PARTY: u64 = 8;
/// "taker's own request where it accepts that giver automatically".
pub const AUTOMATIC: u64 = 9;
/// "more than the account or position holds".
pub const TOO_MUCH: u64 = 10;
/// "deposit takes account plus positions above 500,000,000".
pub const ABOVE_HOLDING: u64 = 11;
/// "no such live request of that owner, or no used exposure of that giver (and taker)".
pub const NONE_SUCH: u64 = 12;
/// "cancel of a request settled in part or whole".
pub const SETTLED: u64 = 13;
/// "too few request rows, or numbers above 999,999,999".
pub const NO_ROW: u64 = 14;
/// "pairing needs an exposure row and none is free".
pub const NO_EXPOSURE: u64 = 15;
/// "recall not accepted by the rule above".
pub const NOT_COVERED: u64 = 16;

/// The code where a rule applies.
#[inline]
fn refuse_if(applies: bool, code: u64) -> Result<(), u64> {
    if applies {
        Err(code)
    } else {
        Ok(())
    }
}

/// How a new request finds its partner.
#[derive(Clone, Copy, Debug, PartialEq, Eq)]
pub enum Pairing {
    /// A taker request is made for it.
    Made,
    /// It pairs with the request in that row.
    Found(usize),
    /// It waits.
    Alone,
}

impl Program {
    /// Kind 0.
    pub(super) fn opening_code(&self, day: u32) -> Result<(), u64> {
        refuse_if(!self.days.is_open(day), DAY)
    }

    /// Kind 1: 6 before 7.
    pub(super) fn price_code(&self, security: usize, lot: u32, quote: u32) -> Result<(), u64> {
        let known = &self.book.securities[security];
        refuse_if(known.set_up() && known.lot != lot, AGAIN)?;
        refuse_if(!self.days.is_open(quote) || quote > self.book.today, DAY)
    }

    /// Kind 3: "a basket never changes".
    pub(super) fn basket_code(&self, number: usize) -> Result<(), u64> {
        refuse_if(self.book.baskets[number].is_some(), AGAIN)
    }

    /// Kind 4.
    pub(super) fn deposit_code(&self, entry: Entry) -> Result<(), u64> {
        self.entry_code(entry)?;
        let held = if self.takes(Turn::DepositLimitOfAccount) {
            u64::from(self.book.accounts[entry.participant][entry.security])
        } else {
            self.book.holding(entry.participant, entry.security)
        };
        refuse_if(held + u64::from(entry.nominal) > u64::from(GREATEST_HOLDING), ABOVE_HOLDING)
    }

    /// Kind 5.
    pub(super) fn withdrawal_code(&self, entry: Entry) -> Result<(), u64> {
        self.entry_code(entry)?;
        let account = self.book.accounts[entry.participant][entry.security];
        refuse_if(entry.nominal > account, TOO_MUCH)
    }

    fn entry_code(&self, entry: Entry) -> Result<(), u64> {
        let participant = &self.book.participants[entry.participant];
        let security = &self.book.securities[entry.security];
        refuse_if(participant.is_none() || !security.set_up(), NOT_SET_UP)
    }

    /// Kinds 6 and 7. Accepted: how the request pairs.
    pub(super) fn request_code<N: Notes>(
        &self,
        request: &Request,
        notes: &mut N,
    ) -> Result<Pairing, u64> {
        let book = &self.book;
        // 4: "amount 64 (tolerance to 10^12)"
        if let Deal::Fop { .. } = request.deal {
            refuse_if(request.amount < u64::from(book.tolerance), RANGE)?;
        }
        if self.takes(Turn::DayBeforeSetUp) {
            self.request_days(request)?;
        }
        // 5
        let unknown =
            book.profile(request.giver).is_none() || book.profile(request.taker).is_none();
        refuse_if(unknown, NOT_SET_UP)?;
        if let Deal::Fop { basket, .. } = request.deal {
            refuse_if(book.baskets[usize::from(basket)].is_none(), NOT_SET_UP)?;
        }
        // 7
        self.request_days(request)?;
        // 8, 9
        refuse_if(request.giver == request.taker, SAME_PARTY)?;
        let automatic = book.takes_automatically(request.taker, request.giver);
        refuse_if(request.side == Side::Taker && automatic, AUTOMATIC)?;
        // 12: "no used exposure of that giver (and taker)"
        if let Deal::Return { exposure } = request.deal {
            let named = &book.exposures[usize::from(exposure)];
            let theirs = named.map_or(false, |exposure| {
                exposure.key.giver == request.giver && exposure.key.taker == request.taker
            });
            refuse_if(!theirs, NONE_SUCH)?;
        }
        let pairing = self.pairing(request, notes);
        if self.takes(Turn::ExposureBeforeRow) {
            self.exposure_row(request, pairing)?;
        }
        // 14, 15
        self.request_rows(pairing, notes)?;
        self.exposure_row(request, pairing)?;
        Ok(pairing)
    }

    /// "any day named .. not open or above 146,096 (closing 0 is no day)"; "settlement before today;
    /// closing not after settlement".
    fn request_days(&self, request: &Request) -> Result<(), u64> {
        let settlement = request.settlement;
        refuse_if(!self.days.is_open(settlement) || settlement < self.book.today, DAY)?;
        match request.deal {
            Deal::Fop { closing, .. } if closing != 0 => {
                refuse_if(!self.days.is_open(closing) || closing <= settlement, DAY)
            }
            _ => Ok(()),
        }
    }

    /// "too few request rows, or numbers above 999,999,999": two of each where a taker request is
    /// made.
    fn request_rows<N: Notes>(&self, pairing: Pairing, notes: &mut N) -> Result<(), u64> {
        let needed = match pairing {
            Pairing::Made => 2,
            _ if self.takes(Turn::False14) => 2,
            _ => 1,
        };
        let free = self.book.requests.iter().filter(|row| row.is_none()).take(needed).count();
        if free < needed {
            notes.reached(if free == 0 { Branch::NoRow } else { Branch::OneRowOfTwo });
            return Err(NO_ROW);
        }
        let last = self.book.next_number as usize + needed - 1;
        let greatest = LAST_NUMBER as usize + usize::from(self.takes(Turn::NumberOffByOne));
        if last > greatest {
            notes.reached(Branch::NoNumber);
            return Err(NO_ROW);
        }
        Ok(())
    }

    /// "pairing needs an exposure row and none is free".
    fn exposure_row(&self, request: &Request, pairing: Pairing) -> Result<(), u64> {
        let key = match request.key() {
            Some(key) if pairing != Pairing::Alone => key,
            _ => return Ok(()),
        };
        let used = self.book.exposure_of(key).filter(|_| !self.takes(Turn::False15));
        let row = used.or_else(|| self.book.lowest_free_exposure());
        refuse_if(row.is_none(), NO_EXPOSURE)
    }

    /// Kind 8. Accepted: the row. "for kind 8, a whole settled row gives its owner 13 until day
    /// change", although it is live no more.
    pub(super) fn cancel_code(&self, participant: u8, number: u32) -> Result<usize, u64> {
        refuse_if(self.book.profile(participant).is_none(), NOT_SET_UP)?;
        let row = self.row_of(number).ok_or(NONE_SUCH)?;
        let request = self.book.requests[row].as_ref().ok_or(NONE_SUCH)?;
        refuse_if(request.owner() != participant, NONE_SUCH)?;
        if self.takes(Turn::EndedWholeGives12) {
            refuse_if(request.ended, NONE_SUCH)?;
        }
        refuse_if(request.settled == request.amount, SETTLED)?;
        if self.takes(Turn::EndedGives13) {
            refuse_if(request.settled != 0, SETTLED)?;
        }
        refuse_if(!request.live(), NONE_SUCH)?;
        refuse_if(request.settled != 0, SETTLED)?;
        Ok(row)
    }

    /// The row of a request's number.
    fn row_of(&self, number: u32) -> Option<usize> {
        let book = &self.book;
        if self.takes(Turn::NumbersAreRows)
            && book.used_rows().count() + 1 == book.next_number as usize
            && (1..book.next_number).contains(&number)
        {
            return Some(number as usize - 1);
        }
        book.row_of(number)
    }

    /// Kind 11 up to 10; "For kind 11, 12 comes before 10". 16 is given by the step.
    pub(super) fn recall_code(
        &self,
        giver: u8,
        exposure: usize,
        security: usize,
        nominal: u32,
    ) -> Result<(), u64> {
        let bond = &self.book.securities[security];
        refuse_if(bond.set_up() && nominal % bond.lot != 0, RANGE)?;
        refuse_if(self.book.profile(giver).is_none() || !bond.set_up(), NOT_SET_UP)?;
        let held = self.book.positions[exposure][security];
        if self.takes(Turn::TooMuchBeforeNone) {
            refuse_if(nominal > held, TOO_MUCH)?;
        }
        let named = &self.book.exposures[exposure];
        refuse_if(named.map_or(true, |exposure| exposure.key.giver != giver), NONE_SUCH)?;
        refuse_if(nominal > held, TOO_MUCH)
    }
}
