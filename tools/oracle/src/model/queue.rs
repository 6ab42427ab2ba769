//! 01, "Reads": `queue_estimate`, `queue_estimate_own`, `volume_ahead`, "the Rust's checks in its own order".

use super::book::{CEILING, Refusal};
use super::reads::{Reading, sum};
use super::rows::{self, Row};
use super::slip::{Part, Slip, first};
use crate::call::{Ahead, Anchor, Assumption, Estimate, SegmentName, SizeDecrease};
use crate::piece::{Id, Side};

/// "three words an order (id, entered_at)"
const ENTRY_WORDS: usize = 3;

/// An entry of an ahead-list: an id and the entered_at it counts with.
type Entry = (Id, u64);

/// What `volume_ahead` adds up: the entries ahead, the estimate's sequence and the first assumptions.
struct Before {
    entries: Vec<Entry>,
    since: u64,
    assumptions: Vec<Assumption>,
}

impl Reading<'_> {
    /// The current segment's name; a valid book has one, or 3 was said.
    fn segment(&self) -> SegmentName {
        self.state.segment_name().unwrap_or(SegmentName {
            number: self.state.number,
            place: 0,
        })
    }

    fn decrease_is_unknown(&self) -> bool {
        self.state.rules.size_decrease == SizeDecrease::PriorityUnknown
    }

    /// "`queue_estimate` writes its ahead-list"; 7 is "the list `queue_estimate` writes included". Answers the words
    /// written too.
    pub fn queue_estimate(
        &self,
        side: Side,
        price: i64,
        list: &mut [u64],
    ) -> Result<(Estimate, Vec<u64>), Refusal> {
        let line = self.valid_line(None)?;
        let queue: Vec<&Row> = line
            .iter()
            .filter(|row| row.rests_at(side, price))
            .collect();
        // An entry of a snapshot row carries the snapshot's sequence.
        let hidden = |row: &Row| self.is(Slip::SnapshotEntryUnlisted) && !row.observed();
        let words: Vec<u64> = (queue.iter())
            .flat_map(|row| {
                let [high, low] = rows::id_words(row.id);
                [high, low, if hidden(row) { 0 } else { row.entered_at }]
            })
            .collect();
        self.check_output(&words, list)?;
        list[..words.len()].copy_from_slice(&words);
        if self.is(Slip::OutputPastZeroed) {
            list[words.len()..].fill(0);
        }
        let anchor = Anchor::Hypothetical {
            orders: queue.len() as u64,
            created_at: self.state.last_sequence,
        };
        Ok((
            Estimate {
                side,
                price,
                segment: self.segment(),
                anchor,
            },
            words,
        ))
    }

    /// 52, "own id not resting"; 51, "own order from a snapshot; under PriorityUnknown also an own order marked decreased".
    pub fn queue_estimate_own(&self, id: Id) -> Result<Estimate, Refusal> {
        let line = self.valid_line(None)?;
        let own = line.iter().find(|row| row.id == id).ok_or(52)?;
        self.check_own(own)?;
        let anchor = Anchor::Own {
            order_id: id,
            entered_at: own.entered_at,
        };
        Ok(Estimate {
            side: own.side(),
            price: own.price as i64,
            segment: self.segment(),
            anchor,
        })
    }

    /// 51 of an own order.
    fn check_own(&self, own: &Row) -> Result<(), u8> {
        let from_snapshot = !own.observed() && !self.is(Slip::OwnSnapshotTaken);
        let refused = match self.slip.0 {
            Some(Slip::OwnDecreaseTaken) => false,
            Some(Slip::OwnDecreaseRefused) => true,
            _ => self.decrease_is_unknown(),
        };
        if from_snapshot || (own.decreased == 1 && refused) {
            Err(51)
        } else {
            Ok(())
        }
    }

    /// "then 15 or 18, then 8, 50 and the Rust's checks in its own order". The list is the caller's memory: its entries
    /// count as they stand, a doubled one twice.
    pub fn volume_ahead(&self, estimate: &Estimate, list: &[u64]) -> Result<Ahead, Refusal> {
        let line = self.valid_line(None)?;
        let tests = [
            (8, self.list_too_short(estimate, list.len())),
            (50, self.of_other_segment(estimate)),
        ];
        first(self.slip, Part::Estimate, tests)?;
        let ahead = match estimate.anchor {
            Anchor::Hypothetical { orders, created_at } => Before {
                entries: entries(list, orders),
                since: created_at,
                assumptions: vec![Assumption::BackOfVisibleQueueAtCreation],
            },
            Anchor::Own {
                order_id,
                entered_at,
            } => self.ahead_of_own(&line, estimate, order_id, entered_at)?,
        };
        Ok(self.add_up(&line, ahead)?)
    }

    /// 8, "in `volume_ahead` of an estimate that isn't of an own order: ahead-list above 4,096 orders, or under 3 words an
    /// order"
    fn list_too_short(&self, estimate: &Estimate, words: usize) -> bool {
        let Anchor::Hypothetical { orders, .. } = estimate.anchor else {
            return self.is(Slip::ListOfOwnChecked) && words < ENTRY_WORDS;
        };
        let ceiling = CEILING - self.is(Slip::ListCeilingOneLess) as u64;
        let spare = self.is(Slip::ExactListShort) as u64;
        orders > ceiling || (words as u64) < ENTRY_WORDS as u64 * orders + spare
    }

    /// 50, "estimate of another segment"
    fn of_other_segment(&self, estimate: &Estimate) -> bool {
        match self.slip.0 {
            Some(Slip::EstimateOfAnySegment) => false,
            Some(Slip::EstimateNumberIgnored) => estimate.segment.place != self.segment().place,
            _ => estimate.segment != self.segment(),
        }
    }

    /// 52, "or in `volume_ahead` resting with another entered_at", then 51. Ahead of an own order are the rows at the
    /// estimate's side and price that come before its id.
    fn ahead_of_own(
        &self,
        line: &[Row],
        estimate: &Estimate,
        id: Id,
        entered_at: u64,
    ) -> Result<Before, u8> {
        let found = line.iter().find(|row| row.id == id).ok_or(52)?;
        if self.is(Slip::UnknownBeforeResting) {
            self.check_own(found)?;
        }
        if found.entered_at != entered_at && !self.is(Slip::OwnByIdAlone) {
            return Err(52);
        }
        self.check_own(found)?;
        let mut assumptions = vec![Assumption::EntrySequenceIsPriority];
        if found.decreased == 1 {
            assumptions.push(Assumption::SizeDecreaseKeepsPriority);
        }
        let (side, price) = match self.slip.0 {
            Some(Slip::OwnLevelTrusted) => (found.side(), found.price as i64),
            _ => (estimate.side, estimate.price),
        };
        let queue = line.iter().filter(|row| row.rests_at(side, price));
        let behind = self.is(Slip::BehindOwnCounted);
        let before = queue
            .take_while(|row| row.id != id || behind)
            .filter(|row| row.id != id);
        let entries = before.map(|row| (row.id, row.entered_at)).collect();
        Ok(Before {
            entries,
            since: found.entered_at,
            assumptions,
        })
    }

    /// 51, "under PriorityUnknown also .. a counted order ahead decreased after the estimate's sequence (an own order's
    /// entry)"; else each counted entry adds what remains of its row.
    fn add_up(&self, line: &[Row], ahead: Before) -> Result<Ahead, u8> {
        let counted = self.counted(line, &ahead.entries);
        let mut assumptions = ahead.assumptions;
        for _ in counted
            .iter()
            .filter(|row| self.decreased_after(row, ahead.since))
        {
            if self.decrease_is_unknown() && !self.is(Slip::AheadDecreaseTaken) {
                return Err(51);
            }
            // At most once.
            let kept = Assumption::SizeDecreaseKeepsPriority;
            if !assumptions.contains(&kept) || self.is(Slip::AssumptionRepeated) {
                assumptions.push(kept);
            }
        }
        let since = ahead.since;
        Ok(Ahead {
            at_seq: if self.is(Slip::ReadAtEstimate) {
                since
            } else {
                self.state.last_sequence
            },
            volume: sum(counted.iter()),
            from_snapshot: sum(counted.iter().filter(|row| !row.observed())),
            observed: sum(counted.iter().filter(|row| row.observed())),
            orders: counted.len() as u64,
            assumptions,
        })
    }

    fn decreased_after(&self, row: &Row, since: u64) -> bool {
        let at = row.decreased_at == since && self.is(Slip::DecreaseAtEstimate);
        row.decreased == 1 && (row.decreased_at > since || at)
    }

    /// The rows that the entries count, entry by entry: "An entry counts only while its id rests with that entered_at."
    fn counted(&self, line: &[Row], ahead: &[Entry]) -> Vec<Row> {
        let resting: std::collections::HashMap<Id, Row> =
            line.iter().map(|row| (row.id, *row)).collect();
        let mut rows: Vec<Row> = Vec::new();
        for (id, entered_at) in ahead {
            let Some(row) = resting.get(id) else { continue };
            let doubled = self.is(Slip::DoubledEntryOnce) && rows.contains(row);
            if (row.entered_at == *entered_at || self.is(Slip::ReusedIdAhead)) && !doubled {
                rows.push(*row);
            }
        }
        rows
    }
}

/// The first `orders` entries of an ahead-list.
fn entries(list: &[u64], orders: u64) -> Vec<Entry> {
    let chunks = list.chunks_exact(ENTRY_WORDS).take(orders as usize);
    chunks
        .map(|words| (rows::id_of_words(words[0], words[1]), words[2]))
        .collect()
}
