//! Document 01, The desk's business: the book as native structures. Its layout in bytes plays no
//! part here.

use super::days::Days;

/// "It has 32 participants (0 to 31), 64 securities, 16 baskets, 256 request rows, 64 exposures."
pub const PARTICIPANTS: usize = 32;
pub const SECURITIES: usize = 64;
pub const BASKETS: usize = 16;
pub const ROWS: usize = 256;
pub const EXPOSURES: usize = 64;

/// The ranges of Records.
pub const GREATEST_TOLERANCE: u32 = 100_000_000;
pub const GREATEST_LOT: u32 = 1_000_000;
pub const GREATEST_PRICE: u32 = 3_000_000;
pub const GREATEST_HAIRCUT: u32 = 9_999;
pub const GREATEST_AMOUNT: u64 = 1_000_000_000_000;
/// "exposures are at most 10^13".
pub const GREATEST_EXPOSURE: u64 = 10_000_000_000_000;
/// "account plus positions of a giver in one security is at most 500,000,000".
pub const GREATEST_HOLDING: u32 = 500_000_000;
/// "numbers above 999,999,999" are refused.
pub const LAST_NUMBER: u32 = 999_999_999;
/// "N × price × (10,000 − haircut) / 10^8".
pub const PARTS: u64 = 100_000_000;

/// One nominal for each security: an account, or an exposure's position.
pub type Nominals = [u32; SECURITIES];

/// The last price record of a security; all 0 where it is not set up.
#[derive(Clone, Copy, Debug, Default, PartialEq, Eq)]
pub struct Security {
    pub lot: u32,
    pub price: u32,
    pub haircut: u32,
    pub quote: u32,
}

impl Security {
    #[inline]
    pub fn set_up(&self) -> bool {
        self.lot != 0
    }

    /// Price times what the haircut leaves; at most 3 × 10^10.
    #[inline]
    pub fn factor(&self) -> u64 {
        u64::from(self.price) * u64::from(10_000 - self.haircut)
    }

    /// "Value of nominal N", rounded down. The greatest product is 1.5 × 10^19, below 2^64.
    #[inline]
    pub fn worth(&self, nominal: u32) -> u64 {
        u64::from(nominal) * self.factor() / PARTS
    }
}

/// "mode 8 (0 automatic, 1 list, 2 by hand)".
#[derive(Clone, Copy, Debug, PartialEq, Eq)]
pub enum Mode {
    Automatic,
    List,
    ByHand,
}

/// What a participant's record says.
#[derive(Clone, Copy, Debug, PartialEq, Eq)]
pub struct Profile {
    pub mode: Mode,
    /// "bit n is giver n"; counts in mode 1 only.
    pub list: u32,
    pub partial: bool,
}

impl Profile {
    /// "the taker is automatic, or lists that giver".
    #[inline]
    pub fn accepts(&self, giver: usize) -> bool {
        match self.mode {
            Mode::Automatic => true,
            Mode::List => self.list >> giver & 1 == 1,
            Mode::ByHand => false,
        }
    }
}

/// A participant that is set up: the profile in force, and the change that "holds from the next
/// day".
#[derive(Clone, Copy, Debug, PartialEq, Eq)]
pub struct Participant {
    pub profile: Profile,
    pub waiting: Option<Profile>,
}

#[derive(Clone, Copy, Debug, PartialEq, Eq)]
pub struct Basket {
    /// "bit n is security n, not 0".
    pub map: u64,
    pub greatest_age: u8,
}

#[derive(Clone, Copy, Debug, PartialEq, Eq)]
pub enum Side {
    Giver,
    Taker,
}

impl Side {
    pub fn other(self) -> Side {
        match self {
            Side::Giver => Side::Taker,
            Side::Taker => Side::Giver,
        }
    }
}

/// What a request asks for: kinds 6 and 7. A closing of 0 is open-ended.
#[derive(Clone, Copy, Debug, PartialEq, Eq)]
pub enum Deal {
    Fop { basket: u8, closing: u32 },
    Return { exposure: u8 },
}

/// A request row in use.
#[derive(Clone, Copy, Debug, PartialEq, Eq)]
pub struct Request {
    pub number: u32,
    pub side: Side,
    pub giver: u8,
    pub taker: u8,
    pub deal: Deal,
    pub amount: u64,
    pub settlement: u32,
    pub reference: u64,
    pub settled: u64,
    /// The partner's row.
    pub partner: Option<u8>,
    /// Both parties allowed partial settlement when they paired; false where unpaired.
    pub partial: bool,
    /// Its owner has cancelled it while it was paired.
    pub cancelled: bool,
    pub ended: bool,
}

impl Request {
    /// "A request is live until it ends or has settled whole."
    #[inline]
    pub fn live(&self) -> bool {
        !self.ended && self.settled < self.amount
    }

    #[inline]
    pub fn rest(&self) -> u64 {
        self.amount - self.settled
    }

    /// The owner of a side: the giver of a giver's request, the taker of a taker's.
    pub fn owner(&self) -> u8 {
        match self.side {
            Side::Giver => self.giver,
            Side::Taker => self.taker,
        }
    }

    /// "equal in all fields but side and reference".
    #[inline]
    pub fn equals(&self, other: &Request) -> bool {
        self.amount == other.amount
            && self.giver == other.giver
            && self.taker == other.taker
            && self.settlement == other.settlement
            && self.deal == other.deal
    }

    /// The key of the exposure that a FOP pair belongs to.
    #[inline]
    pub fn key(&self) -> Option<Key> {
        match self.deal {
            Deal::Fop { basket, closing } => {
                Some(Key { giver: self.giver, taker: self.taker, basket, closing })
            }
            Deal::Return { .. } => None,
        }
    }
}

/// "the exposure of its giver, taker, basket and closing date".
#[derive(Clone, Copy, Debug, PartialEq, Eq)]
pub struct Key {
    pub giver: u8,
    pub taker: u8,
    pub basket: u8,
    pub closing: u32,
}

impl Key {
    /// The closing date is there and not after that day.
    pub fn closing_reached(&self, day: u32) -> bool {
        self.closing != 0 && self.closing <= day
    }
}

/// An exposure row in use.
#[derive(Clone, Copy, Debug, PartialEq, Eq)]
pub struct Exposure {
    pub key: Key,
    pub amount: u64,
}

/// The book.
#[derive(Clone, Debug, PartialEq, Eq)]
pub struct Book {
    pub today: u32,
    pub tolerance: u32,
    pub next_number: u32,
    pub securities: [Security; SECURITIES],
    pub participants: [Option<Participant>; PARTICIPANTS],
    pub baskets: [Option<Basket>; BASKETS],
    pub requests: [Option<Request>; ROWS],
    pub exposures: [Option<Exposure>; EXPOSURES],
    pub accounts: [Nominals; PARTICIPANTS],
    pub positions: [Nominals; EXPOSURES],
}

impl Book {
    /// "the empty one with that day and tolerance, next request number 1".
    pub fn empty(day: u32, tolerance: u32) -> Book {
        Book {
            today: day,
            tolerance,
            next_number: 1,
            securities: [Security::default(); SECURITIES],
            participants: [None; PARTICIPANTS],
            baskets: [None; BASKETS],
            requests: [None; ROWS],
            exposures: [None; EXPOSURES],
            accounts: [[0; SECURITIES]; PARTICIPANTS],
            positions: [[0; SECURITIES]; EXPOSURES],
        }
    }

    /// The book of zero bytes, with which the program starts. It is not sound.
    pub fn zero() -> Book {
        Book { next_number: 0, ..Book::empty(0, 0) }
    }

    /// The request rows in use, with their places.
    pub fn used_rows(&self) -> impl Iterator<Item = (usize, &Request)> {
        self.requests.iter().enumerate().filter_map(|(row, r)| r.as_ref().map(|r| (row, r)))
    }

    /// The exposures in use, with their places.
    pub fn used_exposures(&self) -> impl Iterator<Item = (usize, &Exposure)> {
        self.exposures.iter().enumerate().filter_map(|(e, x)| x.as_ref().map(|x| (e, x)))
    }

    /// The row of the request with that number.
    pub fn row_of(&self, number: u32) -> Option<usize> {
        self.used_rows().find(|(_, request)| request.number == number).map(|(row, _)| row)
    }

    /// The used exposure with that key.
    #[inline]
    pub fn exposure_of(&self, key: Key) -> Option<usize> {
        self.used_exposures().find(|(_, exposure)| exposure.key == key).map(|(e, _)| e)
    }

    pub fn lowest_free_exposure(&self) -> Option<usize> {
        self.exposures.iter().position(|exposure| exposure.is_none())
    }

    /// The profile in force of a participant that is set up.
    pub fn profile(&self, participant: u8) -> Option<&Profile> {
        self.participants[usize::from(participant)].as_ref().map(|p| &p.profile)
    }

    /// "the taker is automatic, or lists that giver", by the profile in force.
    pub fn takes_automatically(&self, taker: u8, giver: u8) -> bool {
        self.profile(taker).map_or(false, |profile| profile.accepts(usize::from(giver)))
    }

    /// "account plus positions" of a giver in one security.
    pub fn holding(&self, participant: usize, security: usize) -> u64 {
        let positions: u64 = self
            .used_exposures()
            .filter(|(_, exposure)| usize::from(exposure.key.giver) == participant)
            .map(|(e, _)| u64::from(self.positions[e][security]))
            .sum();
        u64::from(self.accounts[participant][security]) + positions
    }

    /// "A position's value is the sum over its securities, each at its whole nominal and last
    /// price."
    pub fn position_value(&self, position: &Nominals) -> u64 {
        let mut value = 0;
        for (security, &nominal) in self.securities.iter().zip(position) {
            if nominal != 0 {
                value += security.worth(nominal);
            }
        }
        value
    }
}

/// The places of the ones of a map, rising.
pub fn bits(map: u64) -> impl Iterator<Item = usize> {
    let mut rest = map;
    std::iter::from_fn(move || {
        if rest == 0 {
            return None;
        }
        let place = rest.trailing_zeros() as usize;
        rest &= rest - 1;
        Some(place)
    })
}

/// The second program: a book and the calendar. `turn` is `Turn::Right` but in the tests of the
/// tests.
pub struct Program {
    pub book: Book,
    pub(super) days: &'static Days,
    pub(super) turn: Turn,
}

impl Program {
    /// Boxed, since a book is large.
    pub fn new() -> Box<Program> {
        Program::of(Book::zero())
    }

    pub fn of(book: Book) -> Box<Program> {
        Box::new(Program { book, days: Days::shared(), turn: Turn::Right })
    }

    /// A program that takes one wrong turn.
    pub fn wrong(turn: Turn) -> Box<Program> {
        Box::new(Program { book: Book::zero(), days: Days::shared(), turn })
    }

    #[inline]
    pub(super) fn takes(&self, turn: Turn) -> bool {
        self.turn == turn
    }
}

macro_rules! turns {
    ($($list:ident: $(#[$about:meta])* { $($(#[$text:meta])* $name:ident,)* })*) => {
        /// Wrong turns, one at a time, to see that the comparison finds each of them.
        #[derive(Clone, Copy, Debug, PartialEq, Eq)]
        pub enum Turn {
            /// None: the second program itself.
            Right,
            $($($(#[$text])* $name,)*)*
        }

        impl Turn {
            $($(#[$about])* pub const $list: &'static [Turn] = &[$(Turn::$name,)*];)*
        }
    };
}

turns! {
    WRONG:
    /// Those that lists of calls show.
    {
        /// Every call gets the same code.
        OneCode,
        /// Every refusal gets the same code.
        OneCodeForRefusals,
        /// Every call is answered rightly and leaves the book as it was, but for an opening.
        BookNeverMoves,
        /// A recall that is refused by 16 moves the bonds.
        RefusalWrites,
        /// Nothing that is picked moves; every answer and total is as if it did.
        PicksNothing,
        /// What goes back to an account lacks one nominal, now and then.
        LosesBond,
        /// Pairs with the latest equal request.
        LatestFirst,
        /// Pairs with the equal request in the lowest row, whatever its number.
        LowestRowFirst,
        /// A giver's request pairs with a waiting taker's request although the taker is automatic.
        WaitingTakerFirst,
        /// A change of profile holds at once.
        ProfileAtOnce,
        /// The first change of a day counts.
        FirstProfileOfDay,
        /// The age of a price counts calendar days.
        AgeInCalendarDays,
        /// A position is valued lot by lot.
        ValueByParcels,
        /// A deposit's limit looks at the account alone.
        DepositLimitOfAccount,
        /// A cancel ends one row of a pair.
        CancelOneSide,
        /// A taker alone ends a pair.
        TakerCancelsAlone,
        /// FOPs settle before returns.
        FopsFirst,
        /// Only the first due pair settles.
        FirstPairOnly,
        /// Equal dates settle by the lower number of a pair.
        OrderByLowerNumber,
        /// A shortfall equal to the tolerance settles whole.
        ToleranceOffByOne,
        /// Partial settlement goes by the profiles of the day of settlement.
        PartialOfToday,
        /// A FOP may take an exposure above 10^13 with what it finds.
        LimitByFound,
        /// 10^13 itself is refused.
        LimitOffByOne,
        /// A return does not free bonds.
        ReturnKeepsBonds,
        /// Free stops where nothing is left to spare.
        FreeStopsAtNothing,
        /// The mark goes exposure by exposure, once.
        MarkInOnePass,
        /// The mark's B counts exposures that were below their amount, not those that took in.
        WrongBOfMark,
        /// The day change's B counts pairs.
        WrongBOfDay,
        /// A recall may pick the security that it gives back.
        RecallKeepsSecurity,
        /// A recall needs the new value plus tolerance to reach the exposure only.
        RecallOffByOne,
        /// A recall is held to the exposure alone, not to the value before.
        RecallIgnoresBefore,
        /// An exposure of 0 goes free although a waiting return names it.
        FreesNamedExposure,
        /// A closing is reached the day after.
        ClosingDayLater,
        /// Unpaired requests that settle today stay.
        UnpairedStay,
        /// The number 1,000,000,000 is given.
        NumberOffByOne,
        /// Requests: 7 before 5.
        DayBeforeSetUp,
        /// Requests: 15 before 14.
        ExposureBeforeRow,
        /// Recall: 10 before 12.
        TooMuchBeforeNone,
        /// The settlement's A counts the FOPs that were due.
        AOfSettleCountsDue,
        /// A request's B is the partner's row.
        BOfRequestIsRow,
        /// The mark's M is what was missing before the Pick.
        MOfMarkBefore,
        /// A recall's M is the growth of the position's value, not the value found.
        MOfRecallGrowth,
        /// The day change's M adds up what all exposures have, closed or not.
        MOfDayCountsAll,
        /// 14 with one row left that would do.
        False14,
        /// 15 although the pair's exposure is there.
        False15,
        /// 16 unless the exposure is covered whole.
        False16,
    }

    UNREACHED:
    /// Those that show only on books that no list of calls reaches.
    {
        /// An ended pair that has settled a part goes on settling.
        EndedSettlesOn,
        /// A cancel of an ended request that has settled a part gives 13.
        EndedGives13,
        /// A cancel of an ended request that has settled whole gives 12.
        EndedWholeGives12,
        /// A pair that has settled a part is due, whatever its day.
        BegunIsDue,
        /// A pair that has settled a part may go on in parts.
        BegunGoesOnInParts,
        /// The day change drops unpaired requests that settle today, not those of earlier days.
        EarlierUnpairedStay,
        /// The day change drops unpaired FOPs whose closing is reached.
        UnpairedClosedDropped,
        /// Pairing takes a cancel note away.
        PairingForgetsNote,
        /// A pair that both owners have cancelled settles no more, though it has not ended.
        NotedByBothIsEnded,
        /// As long as no row was dropped, number n is looked for in row n - 1.
        NumbersAreRows,
        /// A book with bonds of a security that is not set up is not sound.
        BondsOfSetUpOnly,
        /// The first set-up of a participant empties its account.
        SetUpEmptiesAccount,
        /// A quote after today is too old.
        QuoteAheadIsOld,
        /// A closing is reached on its day, not later.
        ClosingOnItsDay,
        /// Exposures of 0 go free only at a day change that drops a row or closes an exposure.
        FreesWhatChangedOnly,
    }
}
