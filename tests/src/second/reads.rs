//! Document 01, Records: "Reads give an account's or position's nominal of one security, an
//! exposure, a request by its number, or a basket". "A read refuses with 1, 2, 4 or 5 (a row not in
//! use counts as 5)."

use super::baskets::report;
use super::book::{Deal, Program, Side, BASKETS, EXPOSURES, PARTICIPANTS, SECURITIES};
use super::codes::{NOT_SET_UP, RANGE, UNSOUND};

/// A read's question. Numbers are any 64 bits.
#[derive(Clone, Copy, Debug, PartialEq, Eq)]
pub enum Question {
    Account { participant: u64, security: u64 },
    Position { exposure: u64, security: u64 },
    Exposure(u64),
    Request(u64),
    Basket(u64),
}

/// The most numbers that a read gives (a request's).
pub const REPLY: usize = 15;

/// A read's answer: the code, then what was asked for, then zeros. A refusal has zeros only.
pub type Reply = [u64; REPLY];

pub fn refusal(code: u64) -> Reply {
    reply(&[code])
}

fn reply(numbers: &[u64]) -> Reply {
    let mut reply = [0; REPLY];
    reply[..numbers.len()].copy_from_slice(numbers);
    reply
}

/// The number as a place below `end`: 4 otherwise.
fn place(number: u64, end: usize) -> Result<usize, u64> {
    if number < end as u64 {
        Ok(number as usize)
    } else {
        Err(RANGE)
    }
}

impl Program {
    /// The book's soundness is tested first, as before every call.
    pub fn read(&self, question: Question) -> Reply {
        if !self.is_sound() {
            return refusal(UNSOUND);
        }
        self.look(question)
    }

    /// The answer on a book that is known to be sound.
    pub fn look(&self, question: Question) -> Reply {
        let answer = match question {
            Question::Account { participant, security } => self.account(participant, security),
            Question::Position { exposure, security } => self.position(exposure, security),
            Question::Exposure(exposure) => self.exposure(exposure),
            Question::Request(number) => self.request(number),
            Question::Basket(basket) => self.basket(basket),
        };
        answer.unwrap_or_else(refusal)
    }

    /// Code and nominal.
    fn account(&self, participant: u64, security: u64) -> Result<Reply, u64> {
        let (p, s) = (place(participant, PARTICIPANTS)?, place(security, SECURITIES)?);
        if self.book.participants[p].is_none() || !self.book.securities[s].set_up() {
            return Err(NOT_SET_UP);
        }
        Ok(reply(&[0, u64::from(self.book.accounts[p][s])]))
    }

    /// Code and nominal.
    fn position(&self, exposure: u64, security: u64) -> Result<Reply, u64> {
        let (e, s) = (place(exposure, EXPOSURES)?, place(security, SECURITIES)?);
        if self.book.exposures[e].is_none() || !self.book.securities[s].set_up() {
            return Err(NOT_SET_UP);
        }
        Ok(reply(&[0, u64::from(self.book.positions[e][s])]))
    }

    /// Code, giver, taker, basket, closing, amount.
    fn exposure(&self, exposure: u64) -> Result<Reply, u64> {
        let used = self.book.exposures[place(exposure, EXPOSURES)?].ok_or(NOT_SET_UP)?;
        Ok(reply(&[
            0,
            u64::from(used.key.giver),
            u64::from(used.key.taker),
            u64::from(used.key.basket),
            u64::from(used.key.closing),
            used.amount,
        ]))
    }

    /// Code, kind, side, giver, taker, basket or exposure, amount, settlement, closing (0 for a
    /// return), reference, settled, the partner's number or 0, the pair's partial mark, cancelled
    /// by its owner while paired, ended. A number that no row has gives 5.
    fn request(&self, number: u64) -> Result<Reply, u64> {
        let rows = || self.book.used_rows().map(|(_, request)| request);
        let request = rows().find(|r| u64::from(r.number) == number).ok_or(NOT_SET_UP)?;
        let (kind, object, closing) = match request.deal {
            Deal::Fop { basket, closing } => (6, basket, closing),
            Deal::Return { exposure } => (7, exposure, 0),
        };
        let partner = request.partner.and_then(|row| self.book.requests[usize::from(row)]);
        Ok(reply(&[
            0,
            kind,
            u64::from(request.side == Side::Taker),
            u64::from(request.giver),
            u64::from(request.taker),
            u64::from(object),
            request.amount,
            u64::from(request.settlement),
            u64::from(closing),
            request.reference,
            request.settled,
            partner.map_or(0, |partner| u64::from(partner.number)),
            u64::from(request.partial),
            u64::from(request.cancelled),
            u64::from(request.ended),
        ]))
    }

    /// Code, map, greatest age, "how many securities it holds and the lowest of them".
    fn basket(&self, basket: u64) -> Result<Reply, u64> {
        let basket = self.book.baskets[place(basket, BASKETS)?].ok_or(NOT_SET_UP)?;
        let (count, lowest) = report(basket.map)?;
        Ok(reply(&[0, basket.map, u64::from(basket.greatest_age), count, lowest]))
    }
}
