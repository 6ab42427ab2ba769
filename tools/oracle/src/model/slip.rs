//! Slips planted on purpose, to see that a run finds them. A model without a slip is the statement of 01.

macro_rules! slips {
    ($($(#[$doc:meta])* $name:ident,)*) => {
        /// One wrong reading of 01; the comment says what the slipped model does.
        #[derive(Debug, Clone, Copy, PartialEq, Eq)]
        pub enum Slip { $($(#[$doc])* $name,)* }

        impl Slip {
            pub const ALL: &'static [Slip] = &[$(Slip::$name,)*];
        }
    };
}

slips! {
    // 01's four.
    /// 30 before 31.
    MakerBeforeTaker,
    /// `done filled` removes the row.
    FilledRemoves,
    /// A refused snapshot ends a good segment.
    RefusedSnapshotEnds,
    /// An ahead entry counts by its id alone.
    ReusedIdAhead,

    // Numbers 1 and 2.
    /// 1 at 4,096 already.
    CeilingOneLess,
    /// 1 looks at the order limit alone.
    CeilingOfOrdersOnly,
    /// 2 for exactly 8 × max_orders row words.
    ExactRowsShort,
    /// 2 ignores scratch.
    ScratchLengthIgnored,
    /// 2 for exactly max_orders words of scratch.
    ExactScratchShort,
    /// 2 where the list's length equals its count.
    FullListShort,

    // Number 3, one condition forgotten or made too strict.
    RowsAboveLimitTaken,
    KindAboveThreeTaken,
    PriceZeroTaken,
    PriceAboveLimitTaken,
    RemainingZeroTaken,
    RemainingAboveLimitTaken,
    FlagAboveOneTaken,
    DecreasedAtWithoutFlagTaken,
    /// 3 for a flag with decreased_at 0.
    DecreasedAtZeroRefused,
    IdTwiceTaken,
    LevelsAboveLimitTaken,
    CrossedTaken,
    /// 3 wants the best buy above the best sell.
    TouchingTaken,
    NoSegmentTaken,
    RowsBeforeSnapshotTaken,
    SegmentsBeforeSnapshotTaken,
    /// 3 is not looked at while the book is invalid.
    InvalidRowsTaken,

    // Pieces, 4 to 6.
    /// A snapshot's time may be anything.
    SnapshotTimeTaken,
    /// Unused presence bits may be set.
    UnusedBitsTaken,
    /// Absent amounts may be anything.
    AbsentAmountTaken,
    /// 5 at 10^15 already.
    AmountLimitOneLess,
    /// 5 before 3.
    AmountsBeforeRows,
    /// 6 after 10.
    FullListAfterProduct,
    /// 6 is never said, the last record is overwritten.
    FullListTaken,

    // `apply` before the event.
    /// 10 after 15 and 17.
    ProductAfterStanding,
    WrongProductUncounted,
    SkippedUncounted,
    /// 20 at the last sequence.
    LastSequenceIsGap,
    /// 22 is forgotten: 0 follows 2^64−1.
    SequenceWraps,
    /// 16 tells one less than the offending sequence as last good.
    LastGoodFromOffending,
    /// 16 zeroes the rows.
    InvalidClearsRows,
    /// 16 leaves the segment's record open.
    InvalidationUnrecorded,
    /// 17 takes the newer message's sequence as offending.
    NewestOffending,

    // Open.
    /// 34 after 42.
    OpenIdAfterValues,
    /// 41 before 42.
    OpenCrossBeforeValues,
    /// 43 before 41.
    OpenLimitBeforeCross,
    /// 41 only above the best sell or below the best buy.
    CrossStrict,
    /// 43 one order later.
    OrderLimitOneMore,
    /// 43 one level later.
    LevelLimitOneMore,
    /// 43 counts the levels of one side.
    LevelLimitPerSide,
    /// 43 though the price has its level.
    LevelLimitAtKnownPrice,
    /// entered_at is the sequence before.
    OpenEnteredBefore,
    /// The row's kind is a snapshot's.
    OpenUnobserved,
    /// Joins the front.
    JoinsFront,

    // Done and removals.
    /// 37 after 35.
    FilledBeforeFacts,
    /// 36 before 37.
    CancelSizeBeforeFacts,
    CancelWithoutSize,
    DonePriceIgnored,
    OffBookDoneAsDone,
    /// The freed row keeps its words.
    FreedRowKept,
    /// The last row is moved into the freed place.
    LastRowFillsGap,
    /// A removal zeroes one row more.
    RowPastLastZeroed,

    // Match.
    /// 42 before 32.
    MatchSizeBeforeFacts,
    /// 33 before 32.
    MatchExcessBeforeFacts,
    /// The side is taken as the taker's.
    MatchSideTakers,
    MatchMarksDecrease,

    // Change.
    /// 39 before the 40 of `modify_order`.
    FactsBeforeModify,
    /// 40 of a new price before 39.
    NewPriceBeforeFacts,
    /// 38 before the 40 of a new price.
    NoSizeBeforeNewPrice,
    /// 40 of a larger size before 39.
    LargerBeforeFacts,
    OldPriceIgnored,
    FundsAsNoSize,
    OffBookChangeAsDone,
    NoopMarks,
    NoopAsDecrease,
    DecreaseUnmarked,
    /// decreased_at stays at the first decrease.
    FirstDecreaseKept,
    /// A decrease goes to the back of its price.
    DecreaseLosesPlace,

    // Acceptance and segments.
    /// A message without effect leaves the last sequence.
    KeepHoldsSequence,
    /// A message without effect answers BookChanged.
    KeepAnswersChanged,
    /// The first accepted message is told by first_us = 0.
    FirstTimeByZero,
    /// last_us never falls.
    LastTimeNeverFalls,
    /// Counts start again after 2^64−1.
    CountsWrap,

    // `bootstrap`.
    /// 12 before 11.
    SnapshotValuesBeforeId,
    /// 14 (levels) before 12.
    SnapshotLevelsBeforeValues,
    /// 13 before the orders are looked at.
    SnapshotCrossFirst,
    SnapshotOrderLimitOneMore,
    SnapshotLevelLimitOneMore,
    SnapshotLevelsPerSide,
    /// A bid and an ask at one price are one level.
    SnapshotLevelsByPrice,
    SnapshotCrossStrict,
    /// 10 is not counted in rejected_snapshots.
    RejectedProductUncounted,
    SupersededUnrecorded,
    /// An invalidated segment becomes superseded too.
    InvalidSuperseded,
    /// entered_at of snapshot rows is 0.
    SnapshotRowsEnterAtZero,
    SnapshotRowsObserved,
    AsksBeforeBids,
    FormerRowsKept,
    /// Every word past the last row is zeroed.
    SnapshotClearsMemory,

    // Handshake steps.
    /// A handshake made before any snapshot has not ended.
    EarlyHandshakeAlive,
    HandshakeEndIgnored,
    /// 9 is not said for another segment.
    HandshakeOfAnySegment,
    /// 9 compares the place alone.
    HandshakeNumberIgnored,
    /// 5 after a drop.
    DropBeforeAmounts,
    /// A drop only below start_seq.
    DropBelowStart,
    /// A drop at or below what the handshake value holds as start.
    DropByOwnStart,
    DropOtherProducts,
    /// On an invalid book nothing is dropped.
    DropOnlyWhileValid,
    DropUncounted,
    DropCountsApplied,
    /// 10 ends the handshake.
    OtherProductEnds,
    /// 17 leaves the handshake alive.
    SkippedKeepsHandshake,

    // Reads.
    SellsFromHighest,
    BuysFromLowest,
    UnknownCountsObserved,
    /// Totals leave out rows from the snapshot.
    TotalsOfObserved,
    ScratchKept,
    /// All of scratch is zeroed.
    ScratchAllZeroed,
    /// `stale_l2` zeroes scratch though it answers none.
    ScratchZeroedOnNone,
    /// `stale_l2` answers on a valid book.
    StaleWhileValid,
    /// 18 before 3.
    StandingBeforeRows,
    /// 7 where the output fits exactly.
    ExactOutputSmall,
    /// 7 is said after the words that fit are written.
    OutputWrittenBeforeSeven,
    /// 7 before 15 and 18.
    OutputBeforeStanding,
    /// Output words past the entries are zeroed.
    OutputPastZeroed,
    /// `level_queue` shows entered_at of snapshot rows.
    SnapshotEntryShown,
    /// 5 for a price out of range.
    ReadPriceInRange,

    // Queue estimates.
    /// The ahead-list carries 0 for rows of a snapshot.
    SnapshotEntryUnlisted,
    /// 51 before 52.
    UnknownBeforeResting,
    OwnSnapshotTaken,
    OwnDecreaseTaken,
    /// An own order marked decreased is 51 under either rule.
    OwnDecreaseRefused,
    /// 52 looks at the id alone.
    OwnByIdAlone,
    /// 8 after 50.
    EstimateBeforeList,
    /// 8 for an own order too.
    ListOfOwnChecked,
    /// 8 at 4,096 orders already.
    ListCeilingOneLess,
    ExactListShort,
    /// 50 compares the place alone.
    EstimateNumberIgnored,
    EstimateOfAnySegment,
    DoubledEntryOnce,
    AheadDecreaseTaken,
    /// A decrease at the estimate's sequence counts as after it.
    DecreaseAtEstimate,
    /// Orders behind an own order are counted.
    BehindOwnCounted,
    /// The own order's price and side are used, whatever the estimate holds.
    OwnLevelTrusted,
    /// SizeDecreaseKeepsPriority once an order.
    AssumptionRepeated,
    /// at_seq is the estimate's sequence.
    ReadAtEstimate,
}

/// The slip planted in a model: none in normal use.
#[derive(Debug, Clone, Copy, PartialEq, Eq, Default)]
pub struct Planted(pub Option<Slip>);

impl Planted {
    pub fn is(self, slip: Slip) -> bool {
        self.0 == Some(slip)
    }
}

/// A list of tests whose order 01 gives.
#[derive(Clone, Copy, PartialEq, Eq)]
pub enum Part {
    Entry,
    Open,
    Done,
    Match,
    Change,
    Bootstrap,
    SnapshotOrder,
    Estimate,
}

/// Which test of which part the slip moves, from and to which place.
fn moved(slip: Slip) -> Option<(Part, usize, usize)> {
    Some(match slip {
        Slip::ProductAfterStanding => (Part::Entry, 0, 2),
        Slip::OpenIdAfterValues => (Part::Open, 0, 2),
        Slip::OpenCrossBeforeValues => (Part::Open, 3, 1),
        Slip::OpenLimitBeforeCross => (Part::Open, 4, 3),
        Slip::FilledBeforeFacts => (Part::Done, 0, 1),
        Slip::CancelSizeBeforeFacts => (Part::Done, 2, 0),
        Slip::MakerBeforeTaker => (Part::Match, 1, 0),
        Slip::MatchSizeBeforeFacts => (Part::Match, 3, 2),
        Slip::MatchExcessBeforeFacts => (Part::Match, 4, 2),
        Slip::FactsBeforeModify => (Part::Change, 1, 0),
        Slip::NewPriceBeforeFacts => (Part::Change, 2, 1),
        Slip::NoSizeBeforeNewPrice => (Part::Change, 3, 2),
        Slip::LargerBeforeFacts => (Part::Change, 5, 1),
        Slip::FullListAfterProduct => (Part::Bootstrap, 0, 1),
        Slip::SnapshotValuesBeforeId => (Part::SnapshotOrder, 1, 0),
        Slip::SnapshotLevelsBeforeValues => (Part::SnapshotOrder, 2, 1),
        Slip::EstimateBeforeList => (Part::Estimate, 0, 1),
        _ => return None,
    })
}

/// The first test that holds gives the number.
pub fn first<const N: usize>(
    slip: Planted,
    part: Part,
    mut tests: [(u8, bool); N],
) -> Result<(), u8> {
    match slip.0.and_then(moved) {
        Some((at, from, to)) if at == part && from < to => tests[from..=to].rotate_left(1),
        Some((at, from, to)) if at == part => tests[to..=from].rotate_right(1),
        _ => {}
    }
    match tests.into_iter().find(|&(_, holds)| holds) {
        Some((number, _)) => Err(number),
        None => Ok(()),
    }
}
