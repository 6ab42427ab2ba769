//! Volume ahead of an own order, under declared hypotheses.
//!
//! This is queue estimation, kept apart from the visible book: it rests on hypotheses, which every result lists, and it validates no fill model.

use std::fmt;

use thiserror::Error;

use super::book::{Resting, resting};
use super::message::L3Side;
use super::reconstructor::{BookReconstructor, ViewError};
use super::words::{amount, id_of, id_text, id_words, side_word, word};
use crate::Decimal;
use crate::sys::{self, AHEAD_WORDS, ESTIMATE_WORDS, STATE_ROWS, VOLUME_WORDS};

/// A hypothesis a queue result rests on.
#[derive(Debug, Clone, Copy, PartialEq, Eq)]
pub enum Assumption {
    /// A hypothetical order created now joins the back of the visible queue at its price: every order resting there now is ahead of it, every later one behind.
    BackOfVisibleQueueAtCreation,
    /// Orders keep their entry order: an order opened before ours at its price is ahead of it.
    EntrySequenceIsPriority,
    /// An order ahead decreased its size and kept its place ([`KeepsPriority`]).
    ///
    /// [`KeepsPriority`]: super::SizeDecrease::KeepsPriority
    SizeDecreaseKeepsPriority,
}

/// Why a queue result is unavailable.
#[derive(Debug, Clone, PartialEq, Eq, Error)]
pub enum QueueError {
    /// The book itself is unavailable.
    #[error("{0}")]
    View(ViewError),
    /// The estimate was made on another reconstructor, or on an earlier segment of this one (a snapshot has replaced the book since).
    #[error("estimate from another reconstructor or an earlier segment")]
    StaleEstimate,
    /// An order's place is unknown: our own order came from a snapshot, or it or an order ahead decreased its size under [`PriorityUnknown`].
    ///
    /// [`PriorityUnknown`]: super::SizeDecrease::PriorityUnknown
    #[error("priority of {order_id} unknown")]
    PriorityUnknown {
        /// The order.
        order_id: String,
    },
    /// Our own order does not rest on the book.
    #[error("own order {order_id} is not on the book")]
    NotResting {
        /// The order.
        order_id: String,
    },
    /// Checked decimal arithmetic failed: cannot arise here.
    #[error("checked arithmetic failed: {0}")]
    Arithmetic(String),
}

impl From<ViewError> for QueueError {
    fn from(error: ViewError) -> Self {
        Self::View(error)
    }
}

/// A handle on the volume ahead of one order, read with [`BookReconstructor::volume_ahead`].
#[derive(Clone, PartialEq, Eq)]
pub struct QueueEstimate {
    /// As it was asked; the words hold what the library makes of it.
    price: Decimal,
    words: [u64; ESTIMATE_WORDS],
    ahead: Vec<u64>,
}

impl QueueEstimate {
    fn side(&self) -> L3Side {
        match self.words[0] {
            0 => L3Side::Buy,
            _ => L3Side::Sell,
        }
    }
}

/// Whom an estimate is for, shown as the Rust shows it.
struct Anchor<'a>(&'a QueueEstimate);

impl fmt::Debug for Anchor<'_> {
    fn fmt(&self, f: &mut fmt::Formatter<'_>) -> fmt::Result {
        let [_, _, _, _, own, fifth, sixth, seventh] = self.0.words;
        if own != 0 {
            return f
                .debug_struct("Own")
                .field("order_id", &id_text([fifth, sixth]))
                .field("entered_at", &seventh)
                .finish();
        }
        let entries = self.0.ahead.chunks_exact(AHEAD_WORDS);
        let ahead = entries.map(|entry| (id_text([entry[0], entry[1]]), entry[2]));
        f.debug_struct("Hypothetical")
            .field("ahead", &ahead.collect::<Vec<_>>())
            .field("created_at", &sixth)
            .finish()
    }
}

impl fmt::Debug for QueueEstimate {
    fn fmt(&self, f: &mut fmt::Formatter<'_>) -> fmt::Result {
        f.debug_struct("QueueEstimate")
            .field("side", &self.side())
            .field("price", &self.price)
            .field("segment", &(self.words[2], self.words[3]))
            .field("anchor", &Anchor(self))
            .finish()
    }
}

/// The volume ahead of an order.
#[derive(Debug, Clone, PartialEq, Eq)]
pub struct QueueAhead {
    /// The sequence it was read at.
    pub at_seq: u64,
    /// Total size ahead.
    pub volume: Decimal,
    /// Of which from orders of unknown priority among themselves (from the snapshot); informational, as all of them are ahead.
    pub from_snapshot: Decimal,
    /// Of which from orders whose `open` was observed.
    pub observed: Decimal,
    /// Orders ahead.
    pub orders: usize,
    /// The hypotheses the result rests on.
    pub assumptions: Vec<Assumption>,
}

impl QueueAhead {
    fn of(words: [u64; VOLUME_WORDS]) -> Self {
        let [
            at_seq,
            volume,
            from_snapshot,
            observed,
            orders,
            first,
            keeps,
        ] = words;
        let mut assumptions = vec![match first {
            0 => Assumption::BackOfVisibleQueueAtCreation,
            _ => Assumption::EntrySequenceIsPriority,
        }];
        if keeps != 0 {
            assumptions.push(Assumption::SizeDecreaseKeepsPriority);
        }
        Self {
            at_seq,
            volume: amount(volume),
            from_snapshot: amount(from_snapshot),
            observed: amount(observed),
            orders: orders as usize,
            assumptions,
        }
    }
}

impl BookReconstructor {
    /// A hypothetical order of `side` at `price` created at the current sequence, behind every order resting there now.
    ///
    /// # Errors
    ///
    /// [`QueueError::View`] unless the book is valid.
    pub fn queue_estimate(
        &self,
        side: L3Side,
        price: Decimal,
    ) -> Result<QueueEstimate, QueueError> {
        let (state, rows) = self.lent();
        let mut words = [0; ESTIMATE_WORDS];
        let mut ahead = vec![0; AHEAD_WORDS * state[STATE_ROWS] as usize];
        let (side, units) = (side_word(side), word(price));
        self.view(sys::queue_estimate(
            state, rows, side, units, &mut ahead, &mut words,
        ))?;
        ahead.truncate(AHEAD_WORDS * words[5] as usize);
        Ok(QueueEstimate {
            price,
            words,
            ahead,
        })
    }

    /// Our own resting order, whose `open` was observed in the feed.
    ///
    /// # Errors
    ///
    /// [`QueueError::View`] unless the book is valid, [`QueueError::NotResting`] if the order is not on the book, and [`QueueError::PriorityUnknown`] if it
    /// came from a snapshot.
    pub fn queue_estimate_own(&self, order_id: &str) -> Result<QueueEstimate, QueueError> {
        let not_resting = || QueueError::NotResting {
            order_id: order_id.to_string(),
        };
        let Some(id) = id_of(order_id) else {
            // No order that rests has such an id.
            self.last_sequence()?;
            return Err(not_resting());
        };
        let (state, rows) = self.lent();
        let [high, low] = id_words(id);
        let mut words = [0; ESTIMATE_WORDS];
        match sys::queue_estimate_own(state, rows, high, low, &mut words) {
            sys::PRIORITY_UNKNOWN => Err(QueueError::PriorityUnknown {
                order_id: order_id.to_string(),
            }),
            sys::NOT_RESTING => Err(not_resting()),
            number => {
                self.view(number)?;
                Ok(QueueEstimate {
                    price: amount(words[1]),
                    words,
                    ahead: Vec::new(),
                })
            }
        }
    }

    /// The volume now ahead of `estimate`'s order. Only the orders ahead count, each with its current remaining size: their matches, cancels and decreases
    /// reduce it, and orders opened later are behind.
    ///
    /// # Errors
    ///
    /// [`QueueError::View`] unless the book is valid, [`QueueError::StaleEstimate`] after a new snapshot, [`QueueError::NotResting`] once our own order has
    /// left the book (an order reusing its id later is not ours), and [`QueueError::PriorityUnknown`] when an order ahead decreased its size under
    /// [`PriorityUnknown`].
    ///
    /// [`PriorityUnknown`]: super::SizeDecrease::PriorityUnknown
    pub fn volume_ahead(&self, estimate: &QueueEstimate) -> Result<QueueAhead, QueueError> {
        let (state, rows) = self.lent();
        let QueueEstimate { words, ahead, .. } = estimate;
        let mut out = [0; VOLUME_WORDS];
        match sys::volume_ahead(state, rows, words, ahead, &mut out) {
            sys::STALE_ESTIMATE => Err(QueueError::StaleEstimate),
            sys::PRIORITY_UNKNOWN => Err(QueueError::PriorityUnknown {
                order_id: self.of_unknown_place(estimate),
            }),
            sys::NOT_RESTING => Err(QueueError::NotResting {
                order_id: id_text([words[5], words[6]]),
            }),
            number => {
                self.view(number)?;
                Ok(QueueAhead::of(out))
            }
        }
    }

    /// The order whose decrease leaves the place of `estimate`'s order unknown: our own, else the first such order ahead.
    fn of_unknown_place(&self, estimate: &QueueEstimate) -> String {
        let orders = || resting(self.rows_in_use());
        let decreased = |order: &Resting, since| order.decreased_at.is_some_and(|at| at > since);
        let [_, _, _, _, own, fifth, sixth, seventh] = estimate.words;
        let found = if own == 0 {
            let mut entries = estimate.ahead.chunks_exact(AHEAD_WORDS);
            entries.find_map(|entry| {
                let same = |o: &Resting| o.id == entry[..2] && o.entered_at == entry[2];
                orders().find(|o| same(o) && decreased(o, sixth))
            })
        } else {
            let is_ours = |o: &Resting| o.id == [fifth, sixth];
            let level = |o: &Resting| o.side == estimate.side() && o.price == estimate.price;
            let mut before = orders().take_while(|o| !is_ours(o));
            orders()
                .find(|o| is_ours(o) && o.decreased_at.is_some())
                .or_else(|| before.find(|o| level(o) && decreased(o, seventh)))
        };
        id_text(found.expect("the number says that there is one").id)
    }
}
