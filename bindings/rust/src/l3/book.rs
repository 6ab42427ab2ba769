//! What is known of an order's place, and the book's rows as values.

use super::message::L3Side;
use super::words::amount;
use crate::Decimal;
use crate::sys::{
    ROW_DECREASED, ROW_DECREASED_AT, ROW_ENTERED_AT, ROW_ID_HIGH, ROW_ID_LOW, ROW_KIND, ROW_PRICE,
    ROW_REMAINING, ROW_WORDS,
};

/// What is known of a resting order's place in its level's queue.
#[derive(Debug, Clone, Copy, PartialEq, Eq)]
pub enum PriorityEvidence {
    /// From a snapshot: it rests ahead of every order opened later at its price, but its order among the snapshot's orders is unknown.
    Unknown,
    /// Its `open` was observed at this sequence. This is its entry sequence, not a verified FIFO priority.
    Observed {
        /// The sequence of its `open`.
        sequence: u64,
    },
}

/// A resting order.
pub(crate) struct Resting {
    pub(crate) id: [u64; 2],
    pub(crate) side: L3Side,
    pub(crate) price: Decimal,
    pub(crate) remaining: Decimal,
    pub(crate) entered_at: u64,
    pub(crate) decreased_at: Option<u64>,
}

/// The orders of rows in use, in order of arrival.
pub(crate) fn resting(rows: &[u64]) -> impl Iterator<Item = Resting> {
    rows.chunks_exact(ROW_WORDS).map(|row| Resting {
        id: [row[ROW_ID_HIGH], row[ROW_ID_LOW]],
        side: match row[ROW_KIND] {
            0 | 2 => L3Side::Buy,
            _ => L3Side::Sell,
        },
        price: amount(row[ROW_PRICE]),
        remaining: amount(row[ROW_REMAINING]),
        entered_at: row[ROW_ENTERED_AT],
        decreased_at: (row[ROW_DECREASED] != 0).then_some(row[ROW_DECREASED_AT]),
    })
}
