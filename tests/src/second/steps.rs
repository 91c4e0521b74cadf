//! Document 01, Steps: kinds 0 to 8. Kinds 9 to 12 are in `settling`, `marking` and `closing`.

use super::actions::{Action, Entry};
use super::book::{
    Book, Exposure, Participant, Profile, Program, Request, Security, Side, Turn, SECURITIES,
};
use super::codes::{Pairing, NO_ROW, UNSOUND};
use super::notes::{Branch, Notes};
use super::SHAPE;
use crate::answers::Reading;
use crate::plain;

/// A, B and M of an accepted call: "0 unless named".
#[derive(Clone, Copy, Debug, Default, PartialEq, Eq)]
pub struct Totals {
    pub a: u64,
    pub b: u64,
    pub m: u64,
}

/// What a search for an equal request found.
struct Earliest {
    row: usize,
    number: u32,
    /// How many wait, and the lowest of their rows: for the count of branches.
    count: usize,
    lowest_row: usize,
}

/// "The answer is code, A, B, M."
pub type Answer = [u64; 4];

pub fn refused(code: u64) -> Answer {
    [code, 0, 0, 0]
}

impl Program {
    /// A call on the book. "book not sound (not tested for kind 0)" goes by the first byte.
    pub fn call<N: Notes>(&mut self, record: &[u8], notes: &mut N) -> Answer {
        if record.first() != Some(&0) && !self.is_sound() {
            return refused(UNSOUND);
        }
        if self.turn == Turn::Right {
            return self.take(record, notes);
        }
        self.take_wrongly(record, notes)
    }

    /// The wrong turns that go for all kinds, and those of single kinds.
    fn take_wrongly<N: Notes>(&mut self, record: &[u8], notes: &mut N) -> Answer {
        let before = self.book.clone();
        let answer = self.take(record, notes);
        match self.turn {
            Turn::OneCode => {
                self.book = before;
                refused(NO_ROW)
            }
            Turn::OneCodeForRefusals if answer[0] != 0 => refused(SHAPE),
            Turn::BookNeverMoves if record[0] != 0 => {
                self.book = before;
                answer
            }
            _ => answer,
        }
    }

    /// A call on a book that is known to be sound: 1 and 2 do not apply.
    pub fn take<N: Notes>(&mut self, record: &[u8], notes: &mut N) -> Answer {
        let reading: Reading = plain::read(record);
        if reading.code != 0 {
            return refused(reading.code);
        }
        match self.act(Action::of(&reading), notes) {
            Ok(totals) => [0, totals.a, totals.b, totals.m],
            Err(code) => refused(code),
        }
    }

    fn act<N: Notes>(&mut self, action: Action, notes: &mut N) -> Result<Totals, u64> {
        match action {
            Action::Opening { day, tolerance } => {
                self.opening_code(day)?;
                self.book = Book::empty(day, tolerance);
                notes.opened();
                Ok(Totals::default())
            }
            Action::Price { security, lot, price, haircut, quote } => {
                self.price_code(security, lot, quote)?;
                self.book.securities[security] = Security { lot, price, haircut, quote };
                Ok(Totals::default())
            }
            Action::Participant { number, profile } => {
                self.set_up(number, profile, notes);
                Ok(Totals::default())
            }
            Action::Basket { number, basket } => {
                self.basket_code(number)?;
                self.book.baskets[number] = Some(basket);
                Ok(Totals::default())
            }
            Action::Deposit(entry) => {
                self.deposit_code(entry)?;
                let Entry { participant, security, nominal } = entry;
                self.book.accounts[participant][security] += nominal;
                notes.deposited(participant, security, nominal);
                Ok(Totals::default())
            }
            Action::Withdrawal(entry) => {
                self.withdrawal_code(entry)?;
                let Entry { participant, security, nominal } = entry;
                self.book.accounts[participant][security] -= nominal;
                notes.withdrawn(participant, security, nominal);
                Ok(Totals::default())
            }
            Action::Request(request) => {
                let pairing = self.request_code(&request, notes)?;
                Ok(self.enter(request, pairing, notes))
            }
            Action::Cancel { participant, number } => {
                let row = self.cancel_code(participant, number)?;
                self.cancel(row, notes);
                Ok(Totals::default())
            }
            Action::Settle => Ok(self.settle(notes)),
            Action::Mark => Ok(self.mark(notes)),
            Action::Recall { giver, exposure, security, nominal } => {
                self.recall_code(giver, exposure, security, nominal)?;
                self.recall(exposure, security, nominal, notes)
            }
            Action::NextDay => self.next_day(notes),
        }
    }

    /// 2: "first set-up holds from the call; a change holds from the next day, the last one of a
    /// day counting."
    fn set_up<N: Notes>(&mut self, number: usize, profile: Profile, notes: &mut N) {
        let at_once = self.takes(Turn::ProfileAtOnce);
        let first_counts = self.takes(Turn::FirstProfileOfDay);
        match &mut self.book.participants[number] {
            None => {
                self.book.participants[number] = Some(Participant { profile, waiting: None });
                if self.turn == Turn::SetUpEmptiesAccount {
                    self.book.accounts[number] = [0; SECURITIES];
                }
            }
            Some(participant) => {
                notes.reached(match participant.waiting {
                    None => Branch::ProfileWaits,
                    Some(_) => Branch::ProfileReplaced,
                });
                if at_once {
                    participant.profile = profile;
                } else if !(first_counts && participant.waiting.is_some()) {
                    participant.waiting = Some(profile);
                }
            }
        }
    }

    /// 6, 7: "If a giver enters and the taker is automatic, or lists that giver, a taker request is
    /// made .. Otherwise it pairs with the earliest live unpaired request of the other side equal
    /// in all fields but side and reference".
    pub(super) fn pairing<N: Notes>(&self, request: &Request, notes: &mut N) -> Pairing {
        let automatic = self.book.takes_automatically(request.taker, request.giver);
        if request.side == Side::Giver && automatic {
            // Whether an equal one waits plays no part, but for the count of branches.
            let wrong = self.takes(Turn::WaitingTakerFirst);
            let beside = (N::COUNTS || wrong) && self.earliest_equal(request).is_some();
            if !(beside && wrong) {
                notes.reached(match beside {
                    true => Branch::TakerMadeBesideWaiting,
                    false => Branch::TakerMade,
                });
                return Pairing::Made;
            }
        }
        match self.earliest_equal(request) {
            None => {
                notes.reached(Branch::LeftAlone);
                Pairing::Alone
            }
            Some(found) => {
                notes.reached(match found.count {
                    1 => Branch::PairedWithOne,
                    _ => Branch::PairedWithEarliest,
                });
                if found.row != found.lowest_row {
                    notes.reached(Branch::EarliestInHigherRow);
                }
                Pairing::Found(found.row)
            }
        }
    }

    /// "the earliest live unpaired request of the other side equal in all fields but side and
    /// reference": the one with the lowest number, wherever its row stands.
    fn earliest_equal(&self, request: &Request) -> Option<Earliest> {
        let mut earliest: Option<Earliest> = None;
        for (row, waiting) in self.book.used_rows() {
            if waiting.partner.is_some()
                || waiting.side == request.side
                || !waiting.equals(request)
                || !waiting.live()
            {
                continue;
            }
            let number = waiting.number;
            match &mut earliest {
                None => earliest = Some(Earliest { row, number, count: 1, lowest_row: row }),
                Some(found) => {
                    found.count += 1;
                    let earlier = match self.turn {
                        Turn::LatestFirst => number > found.number,
                        Turn::LowestRowFirst => false,
                        _ => number < found.number,
                    };
                    if earlier {
                        found.row = row;
                        found.number = number;
                    }
                }
            }
        }
        earliest
    }

    /// 6, 7: "each request gets the next number from 1 (A)"; B is the partner's number, else 0.
    fn enter<N: Notes>(&mut self, request: Request, pairing: Pairing, notes: &mut N) -> Totals {
        let row = self.place(request);
        let a = u64::from(self.book.next_number - 1);
        let partner = match pairing {
            Pairing::Alone => return Totals { a, ..Totals::default() },
            Pairing::Found(partner) => partner,
            // "a taker request is made with the same reference, numbered next, and paired (B)"
            Pairing::Made => self.place(Request { side: Side::Taker, ..request }),
        };
        self.pair(row, partner, notes);
        if self.takes(Turn::BOfRequestIsRow) {
            return Totals { a, b: partner as u64 + 1, m: 0 };
        }
        let b = self.book.requests[partner].as_ref().map_or(0, |request| u64::from(request.number));
        Totals { a, b, m: 0 }
    }

    /// Gives a request the next number and the lowest free row.
    fn place(&mut self, request: Request) -> usize {
        let row = self.book.requests.iter().position(|row| row.is_none());
        let row = row.expect("14 was not given");
        self.book.requests[row] = Some(Request { number: self.book.next_number, ..request });
        self.book.next_number += 1;
        row
    }

    /// Pairs two rows: both parties' partial flags of now are kept with the pair, and "A FOP pair
    /// belongs to the exposure of its giver, taker, basket and closing date, or to the lowest free
    /// row."
    fn pair<N: Notes>(&mut self, row: usize, partner: usize, notes: &mut N) {
        let request = self.book.requests[row].expect("the row was just filled");
        let allows = |participant| self.book.profile(participant).map_or(false, |p| p.partial);
        let partial = allows(request.giver) && allows(request.taker);
        for (this, other) in [(row, partner), (partner, row)] {
            if let Some(request) = &mut self.book.requests[this] {
                request.partner = Some(other as u8);
                request.partial = partial;
                request.cancelled &= self.turn != Turn::PairingForgetsNote;
            }
        }
        let key = match request.key() {
            None => return,
            Some(key) => key,
        };
        if self.book.exposure_of(key).is_some() {
            notes.reached(Branch::ExposureShared);
            return;
        }
        notes.reached(Branch::ExposureGiven);
        let lowest = self.book.lowest_free_exposure().expect("15 was not given");
        self.book.exposures[lowest] = Some(Exposure { key, amount: 0 });
        notes.row_given(lowest);
    }

    /// 8: "an unpaired request ends"; "A paired one ends, with its partner, when both owners have
    /// cancelled, or the giver alone where the taker now accepts it automatically."
    fn cancel<N: Notes>(&mut self, row: usize, notes: &mut N) {
        let request = self.book.requests[row].expect("12 was not given");
        let partner = match request.partner {
            None => {
                notes.reached(Branch::CancelAlone);
                self.end(row);
                return;
            }
            Some(partner) => usize::from(partner),
        };
        notes.reached(match request.cancelled {
            false => Branch::CancelNoted,
            true => Branch::CancelNotedAgain,
        });
        if let Some(request) = &mut self.book.requests[row] {
            request.cancelled = true;
        }
        let both = self.book.requests[partner].map_or(false, |other| other.cancelled);
        let giver_alone = request.side == Side::Giver
            && self.book.takes_automatically(request.taker, request.giver);
        let taker_alone = request.side == Side::Taker && self.takes(Turn::TakerCancelsAlone);
        if both || giver_alone || taker_alone {
            notes.reached(if both { Branch::CancelByBoth } else { Branch::CancelByGiver });
            self.end(row);
            if !self.takes(Turn::CancelOneSide) {
                self.end(partner);
            }
        }
    }

    fn end(&mut self, row: usize) {
        if let Some(request) = &mut self.book.requests[row] {
            request.ended = true;
        }
    }
}
