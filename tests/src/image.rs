//! The book's 49,152 bytes as docs/LAYOUT.md sets them out, made from the second program's book and
//! read back. The second program itself knows nothing of bytes.

use crate::second::book::{
    Basket, Book, Deal, Exposure, Key, Mode, Nominals, Participant, Profile, Request, Security,
    Side, BASKETS, EXPOSURES, PARTICIPANTS, ROWS, SECURITIES,
};

/// "The book is 49,152 bytes lent by the caller".
pub const BYTES: usize = 49_152;

/// A table of the layout: where it begins, and the bytes of a row.
#[derive(Clone, Copy, Debug, PartialEq, Eq)]
pub struct Table {
    pub begins: usize,
    pub rows: usize,
    pub width: usize,
}

const fn table(begins: usize, rows: usize, width: usize) -> Table {
    Table { begins, rows, width }
}

pub const TODAY: Table = table(0, 1, 4);
pub const TOLERANCE: Table = table(4, 1, 4);
pub const NEXT_NUMBER: Table = table(8, 1, 4);
pub const LOTS: Table = table(12, 64, 4);
pub const PRICES: Table = table(268, 64, 4);
pub const HAIRCUTS: Table = table(524, 64, 4);
pub const QUOTES: Table = table(780, 64, 4);
pub const MODES: Table = table(1036, 32, 4);
pub const LISTS: Table = table(1164, 32, 4);
pub const PARTIALS: Table = table(1292, 32, 4);
pub const WAITING_MODES: Table = table(1420, 32, 4);
pub const WAITING_LISTS: Table = table(1548, 32, 4);
pub const WAITING_PARTIALS: Table = table(1676, 32, 4);
pub const MAPS: Table = table(1804, 16, 8);
pub const AGES: Table = table(1932, 16, 4);
pub const NUMBERS: Table = table(1996, 256, 4);
pub const KINDS: Table = table(3020, 256, 4);
pub const SIDES: Table = table(4044, 256, 4);
pub const GIVERS: Table = table(5068, 256, 4);
pub const TAKERS: Table = table(6092, 256, 4);
pub const OBJECTS: Table = table(7116, 256, 4);
pub const AMOUNTS: Table = table(8140, 256, 8);
pub const SETTLEMENTS: Table = table(10188, 256, 4);
pub const CLOSINGS: Table = table(11212, 256, 4);
pub const REFERENCES: Table = table(12236, 256, 8);
pub const SETTLED_AMOUNTS: Table = table(14284, 256, 8);
pub const PARTNERS: Table = table(16332, 256, 4);
pub const PAIR_PARTIALS: Table = table(17356, 256, 4);
pub const CANCELS: Table = table(18380, 256, 4);
pub const ENDS: Table = table(19404, 256, 4);
pub const IN_USE: Table = table(20428, 64, 4);
pub const EXPOSURE_GIVERS: Table = table(20684, 64, 4);
pub const EXPOSURE_TAKERS: Table = table(20940, 64, 4);
pub const EXPOSURE_BASKETS: Table = table(21196, 64, 4);
pub const EXPOSURE_CLOSINGS: Table = table(21452, 64, 4);
pub const EXPOSURE_AMOUNTS: Table = table(21708, 64, 8);
pub const ACCOUNTS: Table = table(22220, 2048, 4);
pub const POSITIONS: Table = table(30412, 4096, 4);
pub const SPARES: Table = table(46796, 589, 4);

/// Every table, in the layout's order.
pub const TABLES: [Table; 39] = [
    TODAY,
    TOLERANCE,
    NEXT_NUMBER,
    LOTS,
    PRICES,
    HAIRCUTS,
    QUOTES,
    MODES,
    LISTS,
    PARTIALS,
    WAITING_MODES,
    WAITING_LISTS,
    WAITING_PARTIALS,
    MAPS,
    AGES,
    NUMBERS,
    KINDS,
    SIDES,
    GIVERS,
    TAKERS,
    OBJECTS,
    AMOUNTS,
    SETTLEMENTS,
    CLOSINGS,
    REFERENCES,
    SETTLED_AMOUNTS,
    PARTNERS,
    PAIR_PARTIALS,
    CANCELS,
    ENDS,
    IN_USE,
    EXPOSURE_GIVERS,
    EXPOSURE_TAKERS,
    EXPOSURE_BASKETS,
    EXPOSURE_CLOSINGS,
    EXPOSURE_AMOUNTS,
    ACCOUNTS,
    POSITIONS,
    SPARES,
];

impl Table {
    #[inline]
    fn place(self, row: usize) -> usize {
        self.begins + self.width * row
    }

    #[inline]
    pub fn get(self, bytes: &[u8], row: usize) -> u64 {
        let place = self.place(row);
        let part = &bytes[place..place + self.width];
        match *part {
            [a, b, c, d] => u64::from(u32::from_be_bytes([a, b, c, d])),
            _ => part.iter().fold(0, |number, &byte| number << 8 | u64::from(byte)),
        }
    }

    #[inline]
    pub fn put(self, bytes: &mut [u8], row: usize, number: u64) {
        let place = self.place(row);
        bytes[place..place + self.width].copy_from_slice(&number.to_be_bytes()[8 - self.width..]);
    }

    #[inline]
    fn put_word(self, bytes: &mut [u8], row: usize, number: u32) {
        let place = self.place(row);
        bytes[place..place + 4].copy_from_slice(&number.to_be_bytes());
    }
}

/// The bytes of a book.
pub fn bytes_of(book: &Book) -> Vec<u8> {
    let mut bytes = vec![0; BYTES];
    let b = &mut bytes[..];
    TODAY.put_word(b, 0, book.today);
    TOLERANCE.put_word(b, 0, book.tolerance);
    NEXT_NUMBER.put_word(b, 0, book.next_number);
    for (s, security) in book.securities.iter().enumerate() {
        LOTS.put_word(b, s, security.lot);
        PRICES.put_word(b, s, security.price);
        HAIRCUTS.put_word(b, s, security.haircut);
        QUOTES.put_word(b, s, security.quote);
    }
    for (p, participant) in book.participants.iter().enumerate() {
        if let Some(participant) = participant {
            put_profile(b, [MODES, LISTS, PARTIALS], p, &participant.profile);
            if let Some(waiting) = &participant.waiting {
                put_profile(b, [WAITING_MODES, WAITING_LISTS, WAITING_PARTIALS], p, waiting);
            }
        }
    }
    for (n, basket) in book.baskets.iter().enumerate() {
        if let Some(basket) = basket {
            MAPS.put(b, n, basket.map);
            AGES.put_word(b, n, u32::from(basket.greatest_age));
        }
    }
    for (row, request) in book.used_rows() {
        put_request(b, row, request);
    }
    for (e, exposure) in book.used_exposures() {
        IN_USE.put_word(b, e, 1);
        EXPOSURE_GIVERS.put_word(b, e, u32::from(exposure.key.giver));
        EXPOSURE_TAKERS.put_word(b, e, u32::from(exposure.key.taker));
        EXPOSURE_BASKETS.put_word(b, e, u32::from(exposure.key.basket));
        EXPOSURE_CLOSINGS.put_word(b, e, exposure.key.closing);
        EXPOSURE_AMOUNTS.put(b, e, exposure.amount);
    }
    put_nominals(b, ACCOUNTS, &book.accounts);
    put_nominals(b, POSITIONS, &book.positions);
    bytes
}

/// "1 automatic, 2 list, 3 by hand".
fn put_profile(bytes: &mut [u8], tables: [Table; 3], row: usize, profile: &Profile) {
    let mode = match profile.mode {
        Mode::Automatic => 1,
        Mode::List => 2,
        Mode::ByHand => 3,
    };
    tables[0].put_word(bytes, row, mode);
    tables[1].put_word(bytes, row, profile.list);
    tables[2].put_word(bytes, row, u32::from(profile.partial));
}

fn put_request(b: &mut [u8], row: usize, request: &Request) {
    let (kind, object, closing) = match request.deal {
        Deal::Fop { basket, closing } => (6, basket, closing),
        Deal::Return { exposure } => (7, exposure, 0),
    };
    NUMBERS.put_word(b, row, request.number);
    KINDS.put_word(b, row, kind);
    SIDES.put_word(b, row, u32::from(request.side == Side::Taker));
    GIVERS.put_word(b, row, u32::from(request.giver));
    TAKERS.put_word(b, row, u32::from(request.taker));
    OBJECTS.put_word(b, row, u32::from(object));
    AMOUNTS.put(b, row, request.amount);
    SETTLEMENTS.put_word(b, row, request.settlement);
    CLOSINGS.put_word(b, row, closing);
    REFERENCES.put(b, row, request.reference);
    SETTLED_AMOUNTS.put(b, row, request.settled);
    PARTNERS.put_word(b, row, request.partner.map_or(0, |partner| u32::from(partner) + 1));
    PAIR_PARTIALS.put_word(b, row, u32::from(request.partial));
    CANCELS.put_word(b, row, u32::from(request.cancelled));
    ENDS.put_word(b, row, u32::from(request.ended));
}

/// "the nominal of security i of participant p, at 64 p + i".
fn put_nominals(bytes: &mut [u8], table: Table, rows: &[Nominals]) {
    let part = &mut bytes[table.begins..table.begins + 4 * table.rows];
    for (place, nominal) in part.chunks_exact_mut(4).zip(rows.iter().flatten()) {
        place.copy_from_slice(&nominal.to_be_bytes());
    }
}

/// The book of 49,152 bytes, or none where a number stands that no book of the second program can
/// hold: such a book is not sound (a row not in use that is not all zeros, a mode of 4 ..).
pub fn book_of(bytes: &[u8]) -> Option<Box<Book>> {
    assert_eq!(bytes.len(), BYTES);
    let word = |table: Table, row: usize| table.get(bytes, row) as u32;
    let mut book = Box::new(Book::empty(word(TODAY, 0), word(TOLERANCE, 0)));
    book.next_number = word(NEXT_NUMBER, 0);
    for s in 0..SECURITIES {
        book.securities[s] = Security {
            lot: word(LOTS, s),
            price: word(PRICES, s),
            haircut: word(HAIRCUTS, s),
            quote: word(QUOTES, s),
        };
    }
    for p in 0..PARTICIPANTS {
        let profile = profile_of(bytes, [MODES, LISTS, PARTIALS], p)?;
        let waiting = profile_of(bytes, [WAITING_MODES, WAITING_LISTS, WAITING_PARTIALS], p)?;
        book.participants[p] = match (profile, waiting) {
            (Some(profile), waiting) => Some(Participant { profile, waiting }),
            (None, None) => None,
            (None, Some(_)) => return None,
        };
    }
    for n in 0..BASKETS {
        let (map, age) = (MAPS.get(bytes, n), word(AGES, n));
        let greatest_age = u8::try_from(age).ok()?;
        book.baskets[n] = match (map, age) {
            (0, 0) => None,
            (0, _) => return None,
            _ => Some(Basket { map, greatest_age }),
        };
    }
    for row in 0..ROWS {
        book.requests[row] = request_of(bytes, row)?;
    }
    for e in 0..EXPOSURES {
        book.exposures[e] = exposure_of(bytes, e)?;
    }
    get_nominals(bytes, ACCOUNTS, &mut book.accounts);
    get_nominals(bytes, POSITIONS, &mut book.positions);
    // "the spare rows always hold 0"
    if (0..SPARES.rows).any(|row| SPARES.get(bytes, row) != 0) {
        return None;
    }
    Some(book)
}

fn flag(number: u64) -> Option<bool> {
    match number {
        0 => Some(false),
        1 => Some(true),
        _ => None,
    }
}

fn profile_of(bytes: &[u8], tables: [Table; 3], row: usize) -> Option<Option<Profile>> {
    let [mode, list, partial] = tables.map(|table| table.get(bytes, row));
    let mode = match mode {
        0 if list == 0 && partial == 0 => return Some(None),
        1 => Mode::Automatic,
        2 => Mode::List,
        3 => Mode::ByHand,
        _ => return None,
    };
    Some(Some(Profile { mode, list: list as u32, partial: flag(partial)? }))
}

fn request_of(bytes: &[u8], row: usize) -> Option<Option<Request>> {
    let word = |table: Table| table.get(bytes, row) as u32;
    let byte = |table: Table| u8::try_from(table.get(bytes, row)).ok();
    if word(NUMBERS) == 0 {
        let tables = [
            KINDS,
            SIDES,
            GIVERS,
            TAKERS,
            OBJECTS,
            AMOUNTS,
            SETTLEMENTS,
            CLOSINGS,
            REFERENCES,
            SETTLED_AMOUNTS,
            PARTNERS,
            PAIR_PARTIALS,
            CANCELS,
            ENDS,
        ];
        return match tables.iter().all(|table| table.get(bytes, row) == 0) {
            true => Some(None),
            false => None,
        };
    }
    let deal = match word(KINDS) {
        6 => Deal::Fop { basket: byte(OBJECTS)?, closing: word(CLOSINGS) },
        // A return has no closing.
        7 if word(CLOSINGS) == 0 => Deal::Return { exposure: byte(OBJECTS)? },
        _ => return None,
    };
    let side = match flag(SIDES.get(bytes, row))? {
        false => Side::Giver,
        true => Side::Taker,
    };
    let partner = match word(PARTNERS) {
        0 => None,
        partner => Some(u8::try_from(partner - 1).ok()?),
    };
    Some(Some(Request {
        number: word(NUMBERS),
        side,
        giver: byte(GIVERS)?,
        taker: byte(TAKERS)?,
        deal,
        amount: AMOUNTS.get(bytes, row),
        settlement: word(SETTLEMENTS),
        reference: REFERENCES.get(bytes, row),
        settled: SETTLED_AMOUNTS.get(bytes, row),
        partner,
        partial: flag(PAIR_PARTIALS.get(bytes, row))?,
        cancelled: flag(CANCELS.get(bytes, row))?,
        ended: flag(ENDS.get(bytes, row))?,
    }))
}

fn exposure_of(bytes: &[u8], e: usize) -> Option<Option<Exposure>> {
    let byte = |table: Table| u8::try_from(table.get(bytes, e)).ok();
    let key = Key {
        giver: byte(EXPOSURE_GIVERS)?,
        taker: byte(EXPOSURE_TAKERS)?,
        basket: byte(EXPOSURE_BASKETS)?,
        closing: EXPOSURE_CLOSINGS.get(bytes, e) as u32,
    };
    let amount = EXPOSURE_AMOUNTS.get(bytes, e);
    if flag(IN_USE.get(bytes, e))? {
        return Some(Some(Exposure { key, amount }));
    }
    let none = key.giver == 0 && key.taker == 0 && key.basket == 0 && key.closing == 0;
    match none && amount == 0 {
        true => Some(None),
        false => None,
    }
}

fn get_nominals(bytes: &[u8], table: Table, rows: &mut [Nominals]) {
    for (p, nominals) in rows.iter_mut().enumerate() {
        for (s, nominal) in nominals.iter_mut().enumerate() {
            *nominal = table.get(bytes, SECURITIES * p + s) as u32;
        }
    }
}
