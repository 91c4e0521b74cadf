//! Books that a host may lend and no list of calls reaches, made from the book of a list by changing
//! its rows. A change done by halves mostly leaves a book that is not sound.

use crate::random::Random;
use crate::second::book::{
    Book, Deal, Exposure, Key, Request, BASKETS, GREATEST_AMOUNT, GREATEST_EXPOSURE,
    GREATEST_HOLDING, LAST_NUMBER, PARTICIPANTS, ROWS, SECURITIES,
};
use crate::second::calendar::LAST_DAY;
use crate::second::days::Days;

macro_rules! classes {
    ($($(#[$text:meta])* $name:ident,)*) => {
        /// What such a book holds.
        #[derive(Clone, Copy, Debug, PartialEq, Eq)]
        pub enum Class { $($(#[$text])* $name,)* }

        impl Class {
            pub const ALL: &'static [Class] = &[$(Class::$name,)*];
        }
    };
}

classes! {
    /// An ended pair that has settled a part.
    EndedInPart,
    /// An ended pair that has settled whole.
    EndedWhole,
    /// An ended pair that nobody has cancelled.
    EndedUnnoted,
    /// A live pair that has settled a part, past its settlement day.
    PartPast,
    /// A live pair that has settled a part before its settlement day.
    PartAhead,
    /// A live FOP pair that has settled a part and does not allow it.
    PartUnmarked,
    /// A live unpaired request past its settlement day.
    UnpairedPast,
    /// A live unpaired FOP whose closing was reached before, to settle on another day.
    UnpairedClosed,
    /// A live unpaired request that its owner has cancelled.
    NotedAlone,
    /// A live pair that both owners have cancelled.
    NotedByBoth,
    /// Rows not in the order of their numbers, though no row was ever dropped.
    AnyOrder,
    /// An account of a security that is not set up.
    BondsNotSetUp,
    /// An account of a participant that is not set up.
    BondsOfNobody,
    /// A quote after today.
    QuoteAhead,
    /// An exposure whose closing was reached before.
    ClosingPast,
    /// An exposure of 0 to which no row belongs.
    BareExposure,
    /// An exposure at 10^13 or just below.
    GreatExposure,
    /// A next number near the last.
    LastNumbers,
}

impl Class {
    /// Whether the book is one of this class, by a look at the book alone.
    pub fn shown_by(self, book: &Book) -> bool {
        let today = book.today;
        let pairs = || book.used_rows().map(|(_, r)| r).filter(|r| r.partner.is_some());
        let alone = || book.used_rows().map(|(_, r)| r).filter(|r| r.partner.is_none());
        let partner = |r: &Request| r.partner.and_then(|row| book.requests[usize::from(row)]);
        let part = |r: &Request| r.settled > 0 && r.settled < r.amount;
        match self {
            Class::EndedInPart => pairs().any(|r| r.ended && part(r)),
            Class::EndedWhole => pairs().any(|r| r.ended && r.settled == r.amount),
            Class::EndedUnnoted => pairs().any(|r| {
                r.ended && !r.cancelled && partner(r).map_or(false, |other| !other.cancelled)
            }),
            Class::PartPast => pairs().any(|r| r.live() && part(r) && r.settlement < today),
            Class::PartAhead => pairs().any(|r| r.live() && part(r) && r.settlement > today),
            Class::PartUnmarked => {
                pairs().any(|r| r.live() && part(r) && !r.partial && r.key().is_some())
            }
            Class::UnpairedPast => alone().any(|r| r.live() && r.settlement < today),
            Class::UnpairedClosed => alone().any(|r| {
                let closed = r.key().map_or(false, |key| key.closing_reached(today));
                r.live() && closed && r.settlement > today
            }),
            Class::NotedAlone => alone().any(|r| r.live() && r.cancelled),
            Class::NotedByBoth => pairs().any(|r| {
                r.live() && r.cancelled && partner(r).map_or(false, |other| other.cancelled)
            }),
            Class::AnyOrder => {
                let numbers: Vec<u32> = book.used_rows().map(|(_, r)| r.number).collect();
                let none_dropped = numbers.len() as u32 + 1 == book.next_number;
                none_dropped && numbers.windows(2).any(|two| two[0] > two[1])
            }
            Class::BondsNotSetUp => book.accounts.iter().any(|account| {
                (0..SECURITIES).any(|s| account[s] > 0 && !book.securities[s].set_up())
            }),
            Class::BondsOfNobody => (0..PARTICIPANTS)
                .any(|p| book.participants[p].is_none() && book.accounts[p].iter().any(|&n| n > 0)),
            Class::QuoteAhead => book.securities.iter().any(|s| s.set_up() && s.quote > today),
            Class::ClosingPast => book.used_exposures().any(|(_, e)| e.key.closing_reached(today)),
            Class::BareExposure => {
                let mut used = book.used_exposures();
                used.any(|(e, used)| used.amount == 0 && !has_row(book, e, used.key))
            }
            Class::GreatExposure => {
                book.used_exposures().any(|(_, e)| e.amount > GREATEST_EXPOSURE - GREATEST_AMOUNT)
            }
            Class::LastNumbers => book.next_number > LAST_NUMBER - 60,
        }
    }

    /// Makes the book one of this class where it has the rows for it. By halves: one row of a pair
    /// only, or something that belongs to the change is left out.
    pub fn make(self, book: &mut Book, random: &mut Random, by_halves: bool) {
        let days = Days::shared();
        let past = open_before(days, book.today, random);
        let ahead = open_after(days, book.today, random);
        let (alone, live, fops) = (alone(book), live_pairs(book), live_fops(book));
        let mut change = |rows: &[usize], change: &dyn Fn(&mut Request, u64)| {
            change_some(book, random, rows, by_halves, change)
        };
        match self {
            Class::EndedInPart => change(&live, &|r, part| {
                r.settled = part;
                r.ended = true;
            }),
            Class::EndedWhole => change(&live, &|r, _| {
                r.settled = r.amount;
                r.ended = true;
            }),
            Class::EndedUnnoted => change(&live, &|r, _| {
                r.ended = true;
                r.cancelled = false;
            }),
            Class::PartPast => change(&live, &|r, part| {
                r.settled = part;
                r.settlement = past;
            }),
            Class::PartAhead => change(&live, &|r, part| {
                r.settled = part;
                r.settlement = ahead;
            }),
            Class::PartUnmarked => change(&fops, &|r, part| {
                r.settled = part;
                r.partial = false;
            }),
            Class::UnpairedPast => change(&alone, &|r, _| r.settlement = past),
            Class::UnpairedClosed => change(&alone, &|r, _| {
                if let Deal::Fop { closing, .. } = &mut r.deal {
                    *closing = past;
                    r.settlement = ahead;
                }
            }),
            Class::NotedAlone => change(&alone, &|r, _| r.cancelled = true),
            Class::NotedByBoth => change(&live, &|r, _| r.cancelled = true),
            Class::AnyOrder => shuffle_requests(book, random, by_halves),
            Class::BondsNotSetUp => {
                let set_up = book.securities.map(|security| security.set_up());
                lodge(book, random, by_halves, |_, s| !set_up[s]);
            }
            Class::BondsOfNobody => {
                let set_up = book.participants.map(|participant| participant.is_some());
                lodge(book, random, by_halves, |p, _| !set_up[p]);
            }
            Class::QuoteAhead => {
                let closed = (book.today..).find(|&day| !days.is_open(day)).unwrap_or(0);
                let quote = if by_halves { closed } else { ahead };
                for security in book.securities.iter_mut().filter(|s| s.set_up()) {
                    if random.once_in(2) {
                        security.quote = quote;
                    }
                }
            }
            Class::ClosingPast => close_some(book, random, past, by_halves),
            Class::BareExposure => add_exposures(book, random, [0, past, ahead], by_halves),
            Class::GreatExposure => {
                for used in book.exposures.iter_mut().flatten() {
                    let below = random.one_of(&[0, 1, 100_000, 10_000_000]);
                    used.amount = GREATEST_EXPOSURE - below;
                    used.amount += if by_halves { below + 1 } else { 0 };
                }
            }
            Class::LastNumbers => {
                book.next_number = LAST_NUMBER + 1 - random.below(60) as u32;
                let number = book.next_number - u32::from(!by_halves);
                if let Some(request) = book.requests.iter_mut().flatten().next() {
                    request.number = number;
                }
            }
        }
    }
}

/// Whether a row belongs to an exposure: "a return belongs to the one it names".
fn has_row(book: &Book, exposure: usize, key: Key) -> bool {
    book.used_rows().any(|(_, request)| match request.deal {
        Deal::Return { exposure: named } => usize::from(named) == exposure,
        Deal::Fop { .. } => request.partner.is_some() && request.key() == Some(key),
    })
}

/// An open day, one to twenty of them back; today where there is none.
fn open_before(days: &Days, today: u32, random: &mut Random) -> u32 {
    let count = random.between(1, 20) as usize;
    let before = (0..today).rev().filter(|&day| days.is_open(day)).take(count);
    before.last().unwrap_or(today)
}

/// An open day, one to twenty of them on; today where there is none.
fn open_after(days: &Days, today: u32, random: &mut Random) -> u32 {
    let count = random.between(1, 20) as usize;
    let after = (today + 1..=LAST_DAY as u32).filter(|&day| days.is_open(day)).take(count);
    after.last().unwrap_or(today)
}

/// The rows of the live requests that have no partner.
fn alone(book: &Book) -> Vec<usize> {
    let rows = book.used_rows().filter(|(_, r)| r.partner.is_none() && r.live());
    rows.map(|(row, _)| row).collect()
}

/// One row of each live pair of two cents or more.
fn live_pairs(book: &Book) -> Vec<usize> {
    let rows = book.used_rows().filter(|(row, r)| {
        r.partner.map_or(false, |other| usize::from(other) > *row) && r.live() && r.amount > 1
    });
    rows.map(|(row, _)| row).collect()
}

/// Those of FOPs.
fn live_fops(book: &Book) -> Vec<usize> {
    let is_fop = |&row: &usize| book.requests[row].map_or(false, |r| r.key().is_some());
    live_pairs(book).into_iter().filter(is_fop).collect()
}

/// Changes some of the rows, at least one of them, with their partners; `part` is below the amount.
/// By halves: the partners stay, and a request that has none has settled something.
fn change_some(
    book: &mut Book,
    random: &mut Random,
    rows: &[usize],
    by_halves: bool,
    change: &dyn Fn(&mut Request, u64),
) {
    let surely = random.below(rows.len().max(1) as u64) as usize;
    for (place, &row) in rows.iter().enumerate() {
        let request = book.requests[row].expect("a row in use");
        let part = random.between(1, request.amount.max(2) - 1);
        if !random.once_in(2) && place != surely {
            continue;
        }
        let partner = request.partner.map(usize::from).filter(|_| !by_halves);
        for row in std::iter::once(row).chain(partner) {
            // An earlier change by halves may have left a partner's row that is not in use.
            if let Some(request) = &mut book.requests[row] {
                change(request, part);
            }
        }
        if let (Some(request), true) = (&mut book.requests[row], by_halves) {
            if request.partner.is_none() {
                request.settled = 1;
            }
        }
    }
}

/// The request rows in another order. By halves: their partners keep the old one.
pub fn shuffle_requests(book: &mut Book, random: &mut Random, by_halves: bool) {
    for row in (1..ROWS).rev() {
        let other = random.below(row as u64 + 1) as usize;
        book.requests.swap(row, other);
        if by_halves {
            continue;
        }
        for request in book.requests.iter_mut().flatten() {
            request.partner = request.partner.map(|partner| match usize::from(partner) {
                partner if partner == row => other as u8,
                partner if partner == other => row as u8,
                _ => partner,
            });
        }
    }
}

/// Bonds in some accounts of a kind. By halves: one above 500,000,000.
fn lodge(
    book: &mut Book,
    random: &mut Random,
    by_halves: bool,
    wanted: impl Fn(usize, usize) -> bool,
) {
    let places = (0..PARTICIPANTS).flat_map(|p| (0..SECURITIES).map(move |s| (p, s)));
    let places: Vec<(usize, usize)> = places.filter(|&(p, s)| wanted(p, s)).collect();
    if places.is_empty() {
        return;
    }
    let most = u64::from(GREATEST_HOLDING);
    for _ in 0..random.between(1, 40) {
        let (p, s) = places[random.below(places.len() as u64) as usize];
        let any = random.between(1, most);
        let nominal = random.one_of(&[1, 100, 5_000, 1_000_000, most, any]);
        book.accounts[p][s] = nominal as u32 + if by_halves { GREATEST_HOLDING } else { 0 };
    }
}

/// Some exposures get a closing that was reached before, with the pairs that belong to them. By
/// halves: the pairs stay.
fn close_some(book: &mut Book, random: &mut Random, closing: u32, by_halves: bool) {
    for e in 0..book.exposures.len() {
        let old = match book.exposures[e] {
            Some(used) if random.once_in(2) => used.key,
            _ => continue,
        };
        let new = Key { closing, ..old };
        if book.exposure_of(new).is_some() {
            continue;
        }
        book.exposures[e].as_mut().expect("in use").key = new;
        let belongs = |r: &&mut Request| r.partner.is_some() && r.key() == Some(old);
        for request in book.requests.iter_mut().flatten().filter(belongs) {
            if let (Deal::Fop { closing: its, .. }, false) = (&mut request.deal, by_halves) {
                *its = closing;
            }
        }
    }
}

/// New exposures of 0. By halves: one of them has a position.
fn add_exposures(book: &mut Book, random: &mut Random, closings: [u32; 3], by_halves: bool) {
    let set_up: Vec<u8> = (0..PARTICIPANTS as u8).filter(|&p| book.profile(p).is_some()).collect();
    let baskets = 0..BASKETS as u8;
    let baskets: Vec<u8> = baskets.filter(|&n| book.baskets[usize::from(n)].is_some()).collect();
    if set_up.len() < 2 || baskets.is_empty() {
        return;
    }
    let any = |random: &mut Random, of: &[u8]| of[random.below(of.len() as u64) as usize];
    for _ in 0..random.between(1, 6) {
        let (giver, taker) = (any(random, &set_up), any(random, &set_up));
        let basket = any(random, &baskets);
        let closing = random.one_of(&closings.map(u64::from)) as u32;
        let key = Key { giver, taker, basket, closing };
        let free = (0..book.exposures.len()).filter(|&e| book.exposures[e].is_none());
        let free: Vec<usize> = free.collect();
        if giver == taker || free.is_empty() || book.exposure_of(key).is_some() {
            continue;
        }
        let e = free[random.below(free.len() as u64) as usize];
        book.exposures[e] = Some(Exposure { key, amount: 0 });
        let bond = (0..SECURITIES).find(|&s| book.securities[s].set_up());
        if let (Some(s), true) = (bond, by_halves) {
            book.positions[e][s] = book.securities[s].lot;
        }
    }
}
