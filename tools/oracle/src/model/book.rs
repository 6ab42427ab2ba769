//! A book's state, a plain value, and the port's own checks 1, 2 and 3 on it and on the words it is lent.

use super::rows::{self, ROW_WORDS, Row};
use super::slip::{Planted, Slip};
use crate::call::{Counts, Invalidation, Rules, Segment, SegmentName, Status};
use crate::piece::Product;

/// "Limits .. 4,096 orders and levels"
pub const CEILING: u64 = 4_096;

/// "price or remaining 0 or above 10^15"
const AMOUNT_LIMIT: u64 = 1_000_000_000_000_000;

/// A number that turns a call away, with the invalidation that 16, 17 and 18 carry.
#[derive(Debug, Clone, Copy, PartialEq, Eq)]
pub struct Refusal {
    pub number: u8,
    pub invalidation: Option<Invalidation>,
}

impl From<u8> for Refusal {
    fn from(number: u8) -> Refusal {
        Refusal {
            number,
            invalidation: None,
        }
    }
}

/// The state that each call is handed and hands on.
#[derive(Debug, Clone, Copy, PartialEq, Eq)]
pub struct State {
    pub product: Product,
    pub rules: Rules,
    /// "the reconstructor's number (given by the host at creation)"
    pub number: u64,
    pub status: Status,
    pub rows: u64,
    pub segments: u64,
    pub last_sequence: u64,
    pub counts: Counts,
}

impl State {
    pub fn fresh(product: Product, rules: Rules, number: u64) -> State {
        let (status, counts) = (Status::NoSnapshot, Counts::default());
        State {
            product,
            rules,
            number,
            status,
            rows: 0,
            segments: 0,
            last_sequence: 0,
            counts,
        }
    }

    /// "A segment's name is the reconstructor's number .. with its place in the list": the last one's, if there is one.
    pub fn segment_name(&self) -> Option<SegmentName> {
        let place = self.segments.checked_sub(1)?;
        Some(SegmentName {
            number: self.number,
            place,
        })
    }

    /// 1, 2, 3. `scratch` and `list` are None in calls that are not lent them: 2 looks at what a call is lent.
    pub fn check_lent(
        &self,
        slip: Planted,
        words: &[u64],
        scratch: Option<usize>,
        list: Option<usize>,
    ) -> Result<(), u8> {
        if self.limit_above_ceiling(slip) {
            return Err(1);
        }
        if self.lent_too_short(slip, words.len(), scratch, list) {
            return Err(2);
        }
        if self.broken(slip, words) {
            Err(3)
        } else {
            Ok(())
        }
    }

    /// 1, "an order or level limit above 4,096"
    fn limit_above_ceiling(&self, slip: Planted) -> bool {
        let ceiling = if slip.is(Slip::CeilingOneLess) {
            CEILING - 1
        } else {
            CEILING
        };
        let levels = self.rules.max_levels > ceiling && !slip.is(Slip::CeilingOfOrdersOnly);
        self.rules.max_orders > ceiling || levels
    }

    /// 2, "rows under 8 × max_orders words, scratch under max_orders, or list shorter than the segment count"
    fn lent_too_short(
        &self,
        slip: Planted,
        words: usize,
        scratch: Option<usize>,
        list: Option<usize>,
    ) -> bool {
        let under = |lent: usize, need: u64, exact: Slip| {
            (lent as u64) < need.saturating_add(slip.is(exact) as u64)
        };
        let need = self.rules.max_orders;
        let rows_short = under(words, ROW_WORDS as u64 * need, Slip::ExactRowsShort);
        let scratch_short = scratch.is_some_and(|lent| under(lent, need, Slip::ExactScratchShort));
        let list_short = list.is_some_and(|lent| under(lent, self.segments, Slip::FullListShort));
        rows_short || (scratch_short && !slip.is(Slip::ScratchLengthIgnored)) || list_short
    }

    /// 3 on state and words as they are, each condition beside the slip that forgets it.
    pub fn broken(&self, slip: Planted, words: &[u64]) -> bool {
        if slip.is(Slip::InvalidRowsTaken) && matches!(self.status, Status::Invalid(_)) {
            return false;
        }
        let bootstrapped = self.status != Status::NoSnapshot;
        let line = &rows::line(words, self.rows);
        let (buy, sell) = rows::best(line);
        let met = buy.zip(sell);
        let conditions = [
            (Slip::RowsAboveLimitTaken, self.rows > self.rules.max_orders),
            (Slip::IdTwiceTaken, id_twice(line)),
            (
                Slip::LevelsAboveLimitTaken,
                rows::level_count(line) > self.rules.max_levels,
            ),
            // "best buy ≥ best sell"
            (
                Slip::CrossedTaken,
                met.is_some_and(|(buy, sell)| buy > sell),
            ),
            (
                Slip::TouchingTaken,
                met.is_some_and(|(buy, sell)| buy == sell),
            ),
            (Slip::NoSegmentTaken, bootstrapped && self.segments == 0),
            // "rows or segments before"
            (
                Slip::RowsBeforeSnapshotTaken,
                !bootstrapped && self.rows != 0,
            ),
            (
                Slip::SegmentsBeforeSnapshotTaken,
                !bootstrapped && self.segments != 0,
            ),
        ];
        line.iter().any(|row| row_broken(slip, row)) || any_holds(slip, &conditions)
    }
}

/// Whether a condition holds that the slip does not forget.
fn any_holds(slip: Planted, conditions: &[(Slip, bool)]) -> bool {
    (conditions.iter()).any(|&(forgotten, holds)| holds && !slip.is(forgotten))
}

/// "kind above 3; price or remaining 0 or above 10^15; a flag rule broken", that is "decreased flag (0 or 1), decreased_at
/// (0 without flag)".
fn row_broken(slip: Planted, row: &Row) -> bool {
    let flag_without_time = row.decreased == 1 && row.decreased_at == 0;
    let conditions = [
        (Slip::KindAboveThreeTaken, row.kind > 3),
        (Slip::PriceZeroTaken, row.price == 0),
        (Slip::PriceAboveLimitTaken, row.price > AMOUNT_LIMIT),
        (Slip::RemainingZeroTaken, row.remaining == 0),
        (Slip::RemainingAboveLimitTaken, row.remaining > AMOUNT_LIMIT),
        (Slip::FlagAboveOneTaken, row.decreased > 1),
        (
            Slip::DecreasedAtWithoutFlagTaken,
            row.decreased == 0 && row.decreased_at != 0,
        ),
    ];
    any_holds(slip, &conditions) || (flag_without_time && slip.is(Slip::DecreasedAtZeroRefused))
}

/// "an id twice"
fn id_twice(line: &[Row]) -> bool {
    let mut ids: Vec<u128> = line.iter().map(|row| row.id).collect();
    ids.sort_unstable();
    ids.windows(2).any(|pair| pair[0] == pair[1])
}

/// The state and the memory that a mutating call is lent.
pub struct LentBook<'a> {
    pub state: &'a mut State,
    pub words: &'a mut [u64],
    pub list: &'a mut [Segment],
}

impl LentBook<'_> {
    pub fn check_lent(&self, slip: Planted) -> Result<(), u8> {
        self.state
            .check_lent(slip, self.words, None, Some(self.list.len()))
    }

    pub fn last_segment(&mut self) -> Option<&mut Segment> {
        let place = self.state.segments.checked_sub(1)?;
        self.list.get_mut(place as usize)
    }
}
