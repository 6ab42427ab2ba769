//! 01, "Reads": what a valid book shows, and `stale_l2`, what an invalid one showed last.

use super::book::{Refusal, State};
use super::rows::{self, Row};
use super::slip::{Planted, Slip};
use crate::call::Status;
use crate::piece::Side;

/// What a read is lent: the state, the row words and, for a level read, scratch and output.
pub struct Reading<'a> {
    pub slip: Planted,
    pub state: &'a State,
    pub words: &'a [u64],
}

/// The buffers of a level read.
pub struct Buffers {
    pub scratch: Vec<u64>,
    pub output: Vec<u64>,
}

/// Which level read.
#[derive(Debug, Clone, Copy, PartialEq, Eq)]
pub enum LevelRead {
    LevelQueue { side: Side, price: i64 },
    PriorityProfile { side: Side },
    L2 { side: Side },
    StaleL2 { side: Side },
}

/// The entries of a level read and the words written, in order.
#[derive(Debug, Clone, PartialEq, Eq)]
pub struct Entries {
    pub entries: u64,
    pub words: Vec<u64>,
}

impl Reading<'_> {
    pub fn is(&self, slip: Slip) -> bool {
        self.slip.is(slip)
    }

    pub fn line(&self) -> Vec<Row> {
        rows::line(self.words, self.state.rows)
    }

    /// "1, 2, 3, then 15 or 18": the line of a valid book. `scratch` is None for a read that borrows none.
    pub fn valid_line(&self, scratch: Option<usize>) -> Result<Vec<Row>, Refusal> {
        if self.is(Slip::StandingBeforeRows) {
            self.check_standing()?;
        }
        self.state
            .check_lent(self.slip, self.words, scratch, None)?;
        self.check_standing()?;
        Ok(self.line())
    }

    /// 15, "no snapshot yet"; 18, "read while invalid", which carries the invalidation in force.
    fn check_standing(&self) -> Result<(), Refusal> {
        match self.state.status {
            Status::NoSnapshot => Err(15.into()),
            Status::Invalid(invalidation) => Err(Refusal {
                number: 18,
                invalidation: Some(invalidation),
            }),
            Status::Valid => Ok(()),
        }
    }

    /// A level read. "The answer counts the entries; words past them are untouched." None is `stale_l2` on a book that
    /// isn't invalid: it "answers none and writes nothing, scratch included".
    pub fn level_read(
        &self,
        read: LevelRead,
        buffers: &mut Buffers,
    ) -> Result<Option<Entries>, Refusal> {
        let Some(line) = self.line_of(read, buffers)? else {
            if self.is(Slip::ScratchZeroedOnNone) {
                self.zero_scratch(&mut buffers.scratch);
            }
            return Ok(None);
        };
        let (words_each, words) = self.entry_words(read, &line);
        self.check_output(&words, &mut buffers.output)?;
        buffers.output[..words.len()].copy_from_slice(&words);
        if self.is(Slip::OutputPastZeroed) {
            buffers.output[words.len()..].fill(0);
        }
        if !self.is(Slip::ScratchKept) {
            self.zero_scratch(&mut buffers.scratch);
        }
        Ok(Some(Entries {
            entries: (words.len() / words_each) as u64,
            words,
        }))
    }

    /// "1, 2, 3, then 15 or 18"; "`stale_l2` is a level read with 1, 2, 3 and last 7; unless invalid it answers none".
    fn line_of(&self, read: LevelRead, buffers: &mut Buffers) -> Result<Option<Vec<Row>>, Refusal> {
        let scratch = Some(buffers.scratch.len());
        match read {
            LevelRead::StaleL2 { .. } => {
                self.state
                    .check_lent(self.slip, self.words, scratch, None)?;
                let shown = match self.state.status {
                    Status::Invalid(_) => true,
                    Status::Valid => self.is(Slip::StaleWhileValid),
                    Status::NoSnapshot => false,
                };
                Ok(shown.then(|| self.line()))
            }
            LevelRead::LevelQueue { price, .. }
                if self.is(Slip::ReadPriceInRange) && price.unsigned_abs() > 10_u64.pow(15) =>
            {
                Err(5.into())
            }
            _ => {
                if self.is(Slip::OutputBeforeStanding) {
                    self.state
                        .check_lent(self.slip, self.words, scratch, None)?;
                    self.check_output(
                        &self.entry_words(read, &self.line()).1,
                        &mut buffers.output,
                    )?;
                }
                self.valid_line(scratch).map(Some)
            }
        }
    }

    /// 7, "output too small": nothing is written then.
    pub fn check_output(&self, words: &[u64], output: &mut [u64]) -> Result<(), u8> {
        let need = words.len() + self.is(Slip::ExactOutputSmall) as usize;
        if output.len() >= need {
            return Ok(());
        }
        if self.is(Slip::OutputWrittenBeforeSeven) {
            let fit = output.len();
            output.copy_from_slice(&words[..fit]);
        }
        Err(7)
    }

    /// "Level reads borrow scratch, one word per permitted order, its first max_orders words zeroed on success."
    fn zero_scratch(&self, scratch: &mut [u64]) {
        let all = scratch.len();
        let zeroed = if self.is(Slip::ScratchAllZeroed) {
            all
        } else {
            self.state.rules.max_orders as usize
        };
        scratch[..zeroed.min(all)].fill(0);
    }

    /// "The level reads and their words an entry", and the words of every entry.
    fn entry_words(&self, read: LevelRead, line: &[Row]) -> (usize, Vec<u64>) {
        match read {
            LevelRead::LevelQueue { side, price } => {
                let queue = line.iter().filter(|row| row.rests_at(side, price));
                (5, queue.flat_map(|row| self.queue_entry(row)).collect())
            }
            LevelRead::PriorityProfile { side } => {
                let levels = self.levels(line, side);
                (
                    3,
                    levels
                        .iter()
                        .flat_map(|level| [level.price, level.total, level.unknown])
                        .collect(),
                )
            }
            LevelRead::L2 { side } | LevelRead::StaleL2 { side } => {
                let levels = self.levels(line, side);
                (
                    2,
                    levels
                        .iter()
                        .flat_map(|level| [level.price, level.total])
                        .collect(),
                )
            }
        }
    }

    /// "`level_queue` id high, id low, remaining, 1 if observed else 0, entered_at if observed else 0"
    fn queue_entry(&self, row: &Row) -> [u64; 5] {
        let [high, low] = rows::id_words(row.id);
        let shown = row.observed() || self.is(Slip::SnapshotEntryShown);
        [
            high,
            low,
            row.remaining,
            row.observed() as u64,
            if shown { row.entered_at } else { 0 },
        ]
    }

    /// "Buys run from the highest price, sells from the lowest."
    fn levels<'a>(&self, line: &'a [Row], side: Side) -> Vec<Level<'a>> {
        let mut levels = levels(line, side);
        let turned = match side {
            Side::Buy => self.is(Slip::BuysFromLowest),
            Side::Sell => self.is(Slip::SellsFromHighest),
        };
        if turned {
            levels.reverse();
        }
        for level in &mut levels {
            if self.is(Slip::UnknownCountsObserved) {
                level.unknown = level.total;
            }
            if self.is(Slip::TotalsOfObserved) {
                level.total = level.total.wrapping_sub(level.unknown);
            }
        }
        levels
    }
}

/// One level: its price, the sum of its rows' remaining and that of those of unknown priority.
pub struct Level<'a> {
    pub price: u64,
    pub total: u64,
    pub unknown: u64,
    /// Its rows in order of arrival.
    pub queue: Vec<&'a Row>,
}

/// The levels of a side, the best one first: "Buys run from the highest price, sells from the lowest."
pub fn levels<'a>(line: &'a [Row], side: Side) -> Vec<Level<'a>> {
    let mut rows: Vec<&Row> = line.iter().filter(|row| row.side() == side).collect();
    match side {
        Side::Buy => rows.sort_by_key(|row| std::cmp::Reverse(row.price)),
        Side::Sell => rows.sort_by_key(|row| row.price),
    }
    let level = |queue: &[&'a Row]| Level {
        price: queue[0].price,
        total: sum(queue.iter().copied()),
        unknown: sum(queue.iter().copied().filter(|row| !row.observed())),
        queue: queue.to_vec(),
    };
    rows.chunk_by(|one, next| one.price == next.price)
        .map(level)
        .collect()
}

/// "A level sum never exceeds 4.096 × 10^18"; a slip may let a row through that breaks this, so the sum may wrap.
pub fn sum<'a>(rows: impl Iterator<Item = &'a Row>) -> u64 {
    rows.fold(0, |total, row| total.wrapping_add(row.remaining))
}
