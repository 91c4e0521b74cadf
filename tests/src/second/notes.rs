//! What a step tells while it runs: the ledger's sums listen to it, and the count of branches.

/// Told of each accepted step. A listener takes what it needs.
pub trait Notes {
    /// False where nobody counts branches, so that nothing is worked out for the count alone.
    const COUNTS: bool = true;

    fn opened(&mut self) {}
    fn deposited(&mut self, _participant: usize, _security: usize, _nominal: u32) {}
    fn withdrawn(&mut self, _participant: usize, _security: usize, _nominal: u32) {}
    fn row_given(&mut self, _exposure: usize) {}
    fn settled(&mut self, _exposure: usize, _amount: u64) {}
    fn returned(&mut self, _exposure: usize, _amount: u64) {}
    fn closed(&mut self, _exposure: usize, _amount: u64) {}
    fn reached(&mut self, _branch: Branch) {}
}

/// Listens to nothing.
pub struct Silent;

impl Notes for Silent {
    const COUNTS: bool = false;
}

macro_rules! branches {
    ($($(#[$text:meta])* $name:ident,)*) => {
        /// The ways through the steps that the lists of calls have to reach.
        #[derive(Clone, Copy, Debug, PartialEq, Eq)]
        pub enum Branch { $($(#[$text])* $name,)* }

        impl Branch {
            pub const ALL: &'static [Branch] = &[$(Branch::$name,)*];
        }
    };
}

branches! {
    /// A participant's change waits for the next day.
    ProfileWaits,
    /// It replaces a change that was waiting.
    ProfileReplaced,
    /// It comes into force.
    ProfileInForce,
    /// A taker request is made for a giver.
    TakerMade,
    /// One is made although an equal taker request waits.
    TakerMadeBesideWaiting,
    /// A request pairs with the only equal one.
    PairedWithOne,
    /// A request pairs with the earliest of several.
    PairedWithEarliest,
    /// The earliest does not stand in the lowest row.
    EarliestInHigherRow,
    /// A request waits.
    LeftAlone,
    /// A pair belongs to a used exposure.
    ExposureShared,
    /// A pair is given a row.
    ExposureGiven,
    /// 14: no row.
    NoRow,
    /// 14: one row where two are needed.
    OneRowOfTwo,
    /// 14: no number.
    NoNumber,
    /// An unpaired request ends.
    CancelAlone,
    /// A paired one's cancel is noted.
    CancelNoted,
    /// It was noted before.
    CancelNotedAgain,
    /// Both owners have cancelled.
    CancelByBoth,
    /// The giver alone, since the taker accepts it automatically.
    CancelByGiver,
    /// A return settles whole.
    ReturnWhole,
    /// A return settles what the exposure has.
    ReturnInPart,
    /// A return finds an exposure of 0.
    ReturnOfNothing,
    /// A return gives bonds back.
    ReturnFreed,
    /// A FOP settles whole, with all of its value found.
    FopWhole,
    /// A FOP settles whole although some cents are missing.
    FopWithinTolerance,
    /// A FOP settles the value found.
    FopInPart,
    /// A FOP that allows partial finds nothing.
    FopFoundNothing,
    /// A FOP that does not allow partial finds too little.
    FopWaitsForAll,
    /// The rest of a FOP settled in part settles.
    FopRestSettled,
    /// A FOP would take the exposure above 10^13.
    FopAboveLimit,
    /// A FOP takes the exposure to 10^13 itself.
    FopAtLimit,
    /// A pair that one owner has cancelled settles.
    SettledThoughCancelled,
    /// Bonds free themselves without a cent's loss.
    FreedForNothing,
    /// The mark gives back ineligible securities.
    MarkIneligible,
    /// The mark frees.
    MarkFreed,
    /// The mark picks all that is missing.
    MarkCovered,
    /// The mark picks some.
    MarkCoveredInPart,
    /// The mark finds nothing.
    MarkFoundNothing,
    /// An exposure gives back and takes in.
    MarkBothWays,
    /// A recall needs no pick.
    RecallWithoutPick,
    /// A recall picks all that is missing.
    RecallCovered,
    /// A recall is accepted within the tolerance only.
    RecallWithinTolerance,
    /// A recall is accepted since the value is no lower than before only.
    RecallNoLower,
    /// 16.
    RecallRefused,
    /// 16 although something was picked.
    RecallRefusedWithPick,
    /// The day change drops a row that has settled whole.
    DropSettled,
    /// An ended row.
    DropEnded,
    /// An unpaired row.
    DropUnpaired,
    /// A part-settled pair stays past its settlement.
    PairKept,
    /// A FOP pair whose closing is reached.
    DropClosedPair,
    /// A return on an exposure whose closing is reached.
    DropClosedReturn,
    /// An exposure with an amount is closed.
    ClosedAmount,
    /// An exposure without an amount is closed.
    ClosedNothing,
    /// An exposure goes free.
    ExposureFreed,
    /// An exposure of 0 stays, since a return names it.
    KeptForReturn,
    /// An exposure of 0 stays, since a FOP pair belongs to it.
    KeptForPair,
    /// No day comes after the last.
    NoNextDay,
}
