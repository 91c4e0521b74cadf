//! Document 01, The desk's business: "A book is sound when ..".

use super::book::{
    Book, Deal, Exposure, Key, Nominals, Program, Request, Turn, BASKETS, EXPOSURES,
    GREATEST_AMOUNT, GREATEST_EXPOSURE, GREATEST_HAIRCUT, GREATEST_HOLDING, GREATEST_LOT,
    GREATEST_PRICE, GREATEST_TOLERANCE, LAST_NUMBER, PARTICIPANTS, ROWS, SECURITIES,
};
use super::days::Days;

impl Program {
    /// Made before every call but an opening, and before every read.
    pub fn is_sound(&self) -> bool {
        is_sound(&self.book, self.days)
            && !(self.takes(Turn::BondsOfSetUpOnly) && has_bonds_not_set_up(&self.book))
    }
}

/// What the sentence lets pass, for a wrong turn.
fn has_bonds_not_set_up(book: &Book) -> bool {
    let lodged = |s: usize| book.accounts.iter().any(|account| account[s] != 0);
    (0..SECURITIES).any(|s| !book.securities[s].set_up() && lodged(s))
}

/// The soundness sentence, clause by clause.
pub fn is_sound(book: &Book, days: &Days) -> bool {
    days.is_open(book.today)
        && (1..=GREATEST_TOLERANCE).contains(&book.tolerance)
        && (1..=LAST_NUMBER + 1).contains(&book.next_number)
        && securities_sound(book, days)
        && baskets_sound(book)
        && exposures_sound(book, days).map_or(false, |keys| requests_sound(book, days, &keys))
        && holdings_sound(book)
}

/// A security is not set up, or its fields are those of a price record. Accounts and positions of
/// one that is not set up are no matter of this clause.
fn securities_sound(book: &Book, days: &Days) -> bool {
    book.securities.iter().all(|security| {
        if !security.set_up() {
            return security.price == 0 && security.haircut == 0 && security.quote == 0;
        }
        security.lot <= GREATEST_LOT
            && (1..=GREATEST_PRICE).contains(&security.price)
            && security.haircut <= GREATEST_HAIRCUT
            && days.is_open(security.quote)
    })
}

/// A mode, a list of any 32 bits and a partial flag have no other values here, so participants need
/// no test; a basket has "map 64 (.. not 0)".
fn baskets_sound(book: &Book) -> bool {
    book.baskets.iter().flatten().all(|basket| basket.map != 0)
}

/// "every giver, taker and basket named is set up, giver and taker differ".
#[inline]
fn parties_sound(book: &Book, giver: u8, taker: u8) -> bool {
    let set_up = |number: u8| {
        usize::from(number) < PARTICIPANTS && book.participants[usize::from(number)].is_some()
    };
    giver != taker && set_up(giver) && set_up(taker)
}

#[inline]
fn basket_sound(book: &Book, basket: u8) -> bool {
    usize::from(basket) < BASKETS && book.baskets[usize::from(basket)].is_some()
}

/// "a closing may be 0".
#[inline]
fn closing_sound(days: &Days, closing: u32) -> bool {
    closing == 0 || days.is_open(closing)
}

/// A set of numbers by open addressing, so that a test of them all is one pass. A place that is free
/// holds 0; there are twice as many places as numbers, or more.
struct Set<const PLACES: usize> {
    places: [u32; PLACES],
}

impl<const PLACES: usize> Set<PLACES> {
    fn new() -> Set<PLACES> {
        Set { places: [0; PLACES] }
    }

    /// The place where a number other than 0 stands, or would stand.
    #[inline]
    fn place(&self, number: u32) -> usize {
        let mut place = (number.wrapping_mul(0x9e37_79b1) >> 16) as usize % PLACES;
        while self.places[place] != 0 && self.places[place] != number {
            place = (place + 1) % PLACES;
        }
        place
    }

    /// False where the number is there already.
    #[inline]
    fn insert(&mut self, number: u32) -> bool {
        let place = self.place(number);
        let new = self.places[place] == 0;
        self.places[place] = number;
        new
    }

    #[inline]
    fn has(&self, number: u32) -> bool {
        self.places[self.place(number)] != 0
    }
}

/// The keys of the used exposures.
type Keys = Set<{ 2 * EXPOSURES }>;

/// A key as one number other than 0, its parts being in range: a day has 18 bits.
#[inline]
fn packed(key: Key) -> u32 {
    let parties = u32::from(key.giver) << 5 | u32::from(key.taker);
    (key.closing << 14 | parties << 4 | u32::from(key.basket)) + 1
}

/// Fields and names of the exposures; "exposures are at most 10^13; used exposures have distinct
/// keys"; "an exposure of amount 0 has no position", nor has a row that is not used. The keys.
fn exposures_sound(book: &Book, days: &Days) -> Option<Keys> {
    let mut keys = Keys::new();
    for (exposure, position) in book.exposures.iter().zip(&book.positions) {
        let mut has_amount = false;
        if let Some(Exposure { key, amount }) = exposure {
            if !parties_sound(book, key.giver, key.taker)
                || !basket_sound(book, key.basket)
                || !closing_sound(days, key.closing)
                || *amount > GREATEST_EXPOSURE
                || !keys.insert(packed(*key))
            {
                return None;
            }
            has_amount = *amount != 0;
        }
        if !has_amount && !is_empty(position) {
            return None;
        }
    }
    Some(keys)
}

#[inline]
fn is_empty(nominals: &[u32]) -> bool {
    nominals.iter().fold(0, |all, &nominal| all | nominal) == 0
}

/// Fields, names and pairs of the requests; "request numbers are distinct".
fn requests_sound(book: &Book, days: &Days, keys: &Keys) -> bool {
    let mut numbers = Set::<{ 2 * ROWS }>::new();
    for (row, request) in book.used_rows() {
        // A number of 0 is out of its range.
        if request.number == 0
            || !numbers.insert(request.number)
            || !request_sound(book, days, request)
            || !pair_sound(book, row, request)
        {
            return false;
        }
        // "FOP pairs belong to a used exposure with their key"
        if let (Some(_), Some(key)) = (request.partner, request.key()) {
            if !keys.has(packed(key)) {
                return false;
            }
        }
    }
    true
}

/// One row by itself.
#[inline]
fn request_sound(book: &Book, days: &Days, request: &Request) -> bool {
    let least = match request.deal {
        Deal::Fop { basket, closing } => {
            if !basket_sound(book, basket) || !closing_sound(days, closing) {
                return false;
            }
            u64::from(book.tolerance)
        }
        Deal::Return { exposure } => {
            // "returns name a used exposure of their giver and taker"
            match book.exposures.get(usize::from(exposure)) {
                Some(Some(exposure))
                    if exposure.key.giver == request.giver
                        && exposure.key.taker == request.taker => {}
                _ => return false,
            }
            1
        }
    };
    request.number < book.next_number
        && parties_sound(book, request.giver, request.taker)
        && (least..=GREATEST_AMOUNT).contains(&request.amount)
        && days.is_open(request.settlement)
        && request.settled <= request.amount
}

/// "paired rows name each other, their sides opposite, their kind, other record fields but
/// reference, settled amount and end equal"; "an unpaired one [has settled] nothing". The partial
/// mark is the pair's, so it is equal too, and an unpaired row has none.
#[inline]
fn pair_sound(book: &Book, row: usize, request: &Request) -> bool {
    let partner = match request.partner {
        None => return request.settled == 0 && !request.partial,
        Some(partner) => partner,
    };
    match &book.requests[usize::from(partner)] {
        None => false,
        Some(other) => {
            other.partner == Some(row as u8)
                && other.side != request.side
                && other.equals(request)
                && other.settled == request.settled
                && other.ended == request.ended
                && other.partial == request.partial
        }
    }
}

/// "positions stand .. in whole lots of securities set up"; "account plus positions of a giver in
/// one security is at most 500,000,000".
fn holdings_sound(book: &Book) -> bool {
    let mut holdings = book.accounts;
    let mut too_much = false;
    for &nominal in holdings.iter().flatten() {
        too_much |= nominal > GREATEST_HOLDING;
    }
    for (e, exposure) in book.used_exposures() {
        if exposure.amount == 0 {
            continue;
        }
        let position = &book.positions[e];
        let holding = &mut holdings[usize::from(exposure.key.giver)];
        for s in 0..SECURITIES {
            // As long as neither is above 500,000,000, the sum is below 2^32.
            let sum = holding[s].wrapping_add(position[s]);
            too_much |= position[s] > GREATEST_HOLDING || sum > GREATEST_HOLDING;
            holding[s] = sum;
        }
        if too_much || !in_whole_lots(book, position) {
            return false;
        }
    }
    !too_much
}

/// Most positions are mostly empty: eight securities at a time are passed over.
fn in_whole_lots(book: &Book, position: &Nominals) -> bool {
    position.chunks(8).zip(book.securities.chunks(8)).all(|(nominals, securities)| {
        is_empty(nominals)
            || nominals.iter().zip(securities).all(|(&nominal, security)| {
                nominal == 0 || (security.set_up() && nominal % security.lot == 0)
            })
    })
}
