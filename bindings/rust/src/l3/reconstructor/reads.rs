//! The reads of a book.

use super::{BookReconstructor, LevelProfile, QueueEntry, Refusal, ViewError};
use crate::Decimal;
use crate::l3::book::PriorityEvidence;
use crate::l3::message::L3Side;
use crate::l3::words::{amount, id_text, side_word, word};
use crate::sys::{
    self, BEST_WORDS, L2_WORDS, NOT_STALE, PROFILE_WORDS, QUEUE_WORDS, ROW_WORDS, STATE_ROWS,
    STATE_WORDS,
};

/// A level read of a side that [`sys`] has.
type LevelRead = fn(&[u64], &[u64], &mut [u64], u64, &mut [u64], &mut [u64]) -> u64;

/// The level whose words are `entry`.
fn level(entry: &[u64]) -> (Decimal, Decimal) {
    (amount(entry[0]), amount(entry[1]))
}

impl BookReconstructor {
    /// The state and the rows, as a read is lent them.
    pub(in crate::l3) fn lent(&self) -> (&[u64; STATE_WORDS], &[u64]) {
        (&self.state, &self.rows)
    }

    /// The result of a read that was answered by `number`.
    pub(in crate::l3) fn view(&self, number: u64) -> Result<(), ViewError> {
        match number {
            0 => Ok(()),
            sys::NOT_BOOTSTRAPPED => Err(ViewError::NotBootstrapped),
            sys::VIEW_INVALIDATED => Err(ViewError::Invalidated(self.in_force())),
            _ => Err(ViewError::Refused(Refusal::of(number))),
        }
    }

    /// A level read with room for every order: its number, and the words of its entries.
    fn entries(
        &self,
        width: usize,
        read: impl FnOnce(&mut [u64], &mut [u64], &mut [u64]) -> u64,
    ) -> (u64, Vec<u64>) {
        let mut scratch = vec![0; self.rows.len() / ROW_WORDS];
        let mut out = vec![0; width * self.state[STATE_ROWS] as usize];
        let mut count = [0];
        let number = read(&mut scratch, &mut out, &mut count);
        out.truncate(width * count[0] as usize);
        (number, out)
    }

    fn levels(&self, width: usize, read: LevelRead, side: L3Side) -> (u64, Vec<u64>) {
        let (state, rows) = self.lent();
        self.entries(width, |scratch, out, count| {
            read(state, rows, scratch, side_word(side), out, count)
        })
    }

    /// The last sequence applied.
    ///
    /// # Errors
    ///
    /// A [`ViewError`] unless the book is valid.
    pub fn last_sequence(&self) -> Result<u64, ViewError> {
        let (state, rows) = self.lent();
        let mut last = [0];
        self.view(sys::last_sequence(state, rows, &mut last))?;
        Ok(last[0])
    }

    /// Best bid and ask.
    ///
    /// # Errors
    ///
    /// A [`ViewError`] unless the book is valid.
    pub fn best(&self) -> Result<(Option<Decimal>, Option<Decimal>), ViewError> {
        let (state, rows) = self.lent();
        let mut out = [0; BEST_WORDS];
        self.view(sys::best(state, rows, &mut out))?;
        let [has_bid, bid, has_ask, ask] = out;
        let price = |has: u64, price| (has != 0).then(|| amount(price));
        Ok((price(has_bid, bid), price(has_ask, ask)))
    }

    /// Aggregated size per price, best first.
    ///
    /// # Errors
    ///
    /// A [`ViewError`] unless the book is valid.
    pub fn l2(&self, side: L3Side) -> Result<Vec<(Decimal, Decimal)>, ViewError> {
        let (number, words) = self.levels(L2_WORDS, sys::l2, side);
        self.view(number)?;
        Ok(words.chunks_exact(L2_WORDS).map(level).collect())
    }

    /// The last good book's aggregated sizes while invalidated: a stale diagnostic, never a valid view.
    #[must_use]
    pub fn stale_l2(&self, side: L3Side) -> Option<Vec<(Decimal, Decimal)>> {
        match self.levels(L2_WORDS, sys::stale_l2, side) {
            (0, words) => Some(words.chunks_exact(L2_WORDS).map(level).collect()),
            // A book whose limits are too high never took a snapshot, so it is not invalid.
            (NOT_STALE | sys::LIMIT_ABOVE_CEILING, _) => None,
            (number, _) => unreachable!("the library answered {number} on memory of its own"),
        }
    }

    /// The orders of one level in queue order.
    ///
    /// # Errors
    ///
    /// A [`ViewError`] unless the book is valid. An empty level is an empty queue.
    pub fn level_queue(&self, side: L3Side, price: Decimal) -> Result<Vec<QueueEntry>, ViewError> {
        let (state, rows) = self.lent();
        let (side, price) = (side_word(side), word(price));
        let (number, words) = self.entries(QUEUE_WORDS, |scratch, out, count| {
            sys::level_queue(state, rows, scratch, side, price, out, count)
        });
        self.view(number)?;
        let entry = |words: &[u64]| QueueEntry {
            order_id: id_text([words[0], words[1]]),
            remaining: amount(words[2]),
            evidence: match words[3] {
                0 => PriorityEvidence::Unknown,
                _ => PriorityEvidence::Observed { sequence: words[4] },
            },
        };
        Ok(words.chunks_exact(QUEUE_WORDS).map(entry).collect())
    }

    /// Per level, best first: total size and the size of unknown priority.
    ///
    /// # Errors
    ///
    /// A [`ViewError`] unless the book is valid.
    pub fn priority_profile(&self, side: L3Side) -> Result<Vec<LevelProfile>, ViewError> {
        let (number, words) = self.levels(PROFILE_WORDS, sys::priority_profile, side);
        self.view(number)?;
        let profile = |words: &[u64]| LevelProfile {
            price: amount(words[0]),
            total: amount(words[1]),
            unknown_priority: amount(words[2]),
        };
        Ok(words.chunks_exact(PROFILE_WORDS).map(profile).collect())
    }

    /// Checks every invariant of the valid book: positive sizes, each id once, not crossed. That levels are the exact sums of their orders is proved.
    ///
    /// # Errors
    ///
    /// A [`ViewError`] reason, described.
    pub fn audit(&self) -> Result<(), String> {
        let (state, rows) = self.lent();
        let number = sys::audit(state, rows);
        self.view(number).map_err(|error| format!("{error:?}"))
    }
}
