//! Why a call was turned away.

use thiserror::Error;

use crate::{Decimal, sys};

/// A message inconsistent with the book: the book can no longer be trusted.
#[derive(Debug, Clone, PartialEq, Eq, Error)]
#[non_exhaustive]
pub enum Discrepancy {
    /// A match against a maker that does not rest on the book.
    #[error("match against maker {maker_id}, which is not on the book")]
    UnknownMaker {
        /// The maker.
        maker_id: String,
    },
    /// A match whose taker rests on the book.
    #[error("match whose taker {taker_id} rests on the book")]
    TakerResting {
        /// The taker.
        taker_id: String,
    },
    /// A match whose side or price differs from the maker's.
    #[error("match side or price differs from maker {maker_id}")]
    MatchMismatch {
        /// The maker.
        maker_id: String,
    },
    /// A match larger than the maker's remaining size.
    #[error("match of {size} exceeds maker {maker_id}'s remaining {remaining}")]
    MatchExceedsRemaining {
        /// The maker.
        maker_id: String,
        /// Its remaining size.
        remaining: Decimal,
        /// The match size.
        size: Decimal,
    },
    /// An `open` for an order already resting.
    #[error("open of {order_id}, already on the book")]
    DuplicateOpen {
        /// The order.
        order_id: String,
    },
    /// A `done` filled for an order still resting with size: a match is
    /// missing.
    #[error("done filled for {order_id} with {remaining} still resting")]
    MissingMatch {
        /// The order.
        order_id: String,
        /// Its tracked remaining size.
        remaining: Decimal,
    },
    /// A `done` canceled whose remaining size differs from the tracked one.
    #[error("done canceled for {order_id} reports {reported:?}, tracked {tracked}")]
    RemainingMismatch {
        /// The order.
        order_id: String,
        /// Tracked.
        tracked: Decimal,
        /// Reported.
        reported: Option<Decimal>,
    },
    /// A `done` whose side or price differs from the order's.
    #[error("done side or price differs from order {order_id}")]
    DoneMismatch {
        /// The order.
        order_id: String,
    },
    /// A `change` of a resting order without the fields it needs.
    #[error("malformed change of {order_id}: {reason}")]
    MalformedChange {
        /// The order.
        order_id: String,
        /// What is wrong.
        reason: String,
    },
    /// A `change` whose old values or side differ from the order's.
    #[error("change old values or side differ from order {order_id}")]
    ChangeMismatch {
        /// The order.
        order_id: String,
    },
    /// A modification this reconstruction does not support: a price change,
    /// a size increase, or any `modify_order`. Its effect on priority is not
    /// documented, so none is invented.
    #[error("unsupported modification of {order_id}")]
    UnsupportedModification {
        /// The order.
        order_id: String,
    },
    /// The visible book would cross.
    #[error("book would cross: bid {bid} >= ask {ask}")]
    CrossedAfterApply {
        /// Best bid after.
        bid: Decimal,
        /// Best ask after.
        ask: Decimal,
    },
    /// A price or size that is not positive.
    #[error("invalid value: {what}")]
    InvalidValue {
        /// What.
        what: String,
    },
    /// The book would exceed [`VenueRules`](super::VenueRules) capacity.
    #[error("capacity exceeded: {what}")]
    CapacityExceeded {
        /// What.
        what: String,
    },
    /// Checked decimal arithmetic failed: cannot arise here.
    #[error("checked arithmetic failed: {what}")]
    Arithmetic {
        /// What.
        what: String,
    },
    /// A message type the reconstruction does not handle.
    #[error("unsupported message type {kind}")]
    UnsupportedInput {
        /// The type.
        kind: String,
    },
}

/// Why a segment stopped being valid.
#[derive(Debug, Clone, PartialEq, Eq, Error)]
pub enum InvalidationKind {
    /// A sequence was skipped.
    #[error("gap: expected {expected}, got {got}")]
    Gap {
        /// The sequence expected.
        expected: u64,
        /// The one received.
        got: u64,
    },
    /// A sequence at or before the last applied one.
    #[error("sequence {got} at or before the last applied {last}")]
    OutOfOrderOrDuplicate {
        /// The last applied.
        last: u64,
        /// The one received.
        got: u64,
    },
    /// The next sequence does not fit in `u64`.
    #[error("the next sequence overflows u64")]
    SequenceOverflow,
    /// A message inconsistent with the book.
    #[error("discrepancy: {0}")]
    Discrepancy(Discrepancy),
}

/// The end of a valid segment.
#[derive(Debug, Clone, PartialEq, Eq, Error)]
#[error("invalidated at sequence {first_offending_seq} (last good {last_good_seq}): {kind}")]
pub struct Invalidation {
    /// The last sequence applied while valid.
    pub last_good_seq: u64,
    /// The sequence of the offending message.
    pub first_offending_seq: u64,
    /// Why.
    pub kind: InvalidationKind,
}

/// Why a snapshot was refused; the reconstructor's state is unchanged.
#[derive(Debug, Clone, PartialEq, Eq, Error)]
pub enum SnapshotError {
    /// Another product's snapshot.
    #[error("snapshot of {got}, expected {expected}")]
    WrongProduct {
        /// Expected.
        expected: String,
        /// Received.
        got: String,
    },
    /// The same id twice.
    #[error("snapshot repeats order id {0}")]
    DuplicateId(String),
    /// A price or size that is not positive.
    #[error("snapshot value not positive: {0}")]
    InvalidValue(String),
    /// Bids at or above asks.
    #[error("snapshot crossed: bid {bid} >= ask {ask}")]
    Crossed {
        /// Best bid.
        bid: Decimal,
        /// Best ask.
        ask: Decimal,
    },
    /// More orders or levels than [`VenueRules`](super::VenueRules) allows.
    #[error("snapshot capacity exceeded: {0}")]
    CapacityExceeded(String),
    /// Checked decimal arithmetic failed: cannot arise here.
    #[error("snapshot checked arithmetic failed: {0}")]
    Arithmetic(String),
    /// Turned away under a number that the Rust does not know; nothing changed.
    #[error("{0}")]
    Refused(Refusal),
}

/// Why a message was not applied.
#[derive(Debug, Clone, PartialEq, Eq, Error)]
pub enum ApplyError {
    /// Another product's message: refused, the segment untouched.
    #[error("message of {got}, expected {expected}")]
    WrongProduct {
        /// Expected.
        expected: String,
        /// Received.
        got: String,
    },
    /// No snapshot has been applied yet.
    #[error("no snapshot applied yet")]
    NotBootstrapped,
    /// This message ended the segment.
    #[error("{0}")]
    Invalidated(Invalidation),
    /// The segment had already ended; the message was skipped. Recovery is
    /// only through [`BookReconstructor::bootstrap`](super::BookReconstructor::bootstrap).
    #[error("awaiting a snapshot after: {0}")]
    AwaitingSnapshot(Invalidation),
    /// Turned away under a number that the Rust does not know; nothing changed.
    #[error("{0}")]
    Refused(Refusal),
}

/// Why a view is unavailable.
#[derive(Debug, Clone, PartialEq, Eq, Error)]
pub enum ViewError {
    /// No snapshot has been applied yet.
    #[error("no snapshot applied yet")]
    NotBootstrapped,
    /// The book is invalid until the next snapshot.
    #[error("book invalid until the next snapshot: {0}")]
    Invalidated(Invalidation),
    /// Checked decimal arithmetic failed: cannot arise here.
    #[error("checked arithmetic failed: {0}")]
    Arithmetic(String),
    /// Turned away under a number that the Rust does not know; nothing changed.
    #[error("{0}")]
    Refused(Refusal),
}

/// Why the snapshot handshake stopped.
#[derive(Debug, Clone, PartialEq, Eq, Error)]
pub enum HandshakeError {
    /// The snapshot was refused.
    #[error("{0}")]
    Snapshot(SnapshotError),
    /// A buffered message could not be applied.
    #[error("{0}")]
    Apply(ApplyError),
}

/// A number of 01's table that the Rust does not know. The other such numbers (2, 3 and 6 to 9) cannot arise on memory that a [`BookReconstructor`] owns, nor can
/// 768 (an input lent too short).
///
/// [`BookReconstructor`]: super::BookReconstructor
#[derive(Debug, Clone, Copy, PartialEq, Eq, Error)]
pub enum Refusal {
    /// 1: an order or level limit above 4,096.
    #[error("an order or level limit above 4,096")]
    LimitAboveCeiling,
    /// 4: an order id that is no UUID in lower case, or a reconstructor whose product is no name of at most 16 bytes.
    #[error("an order id that is no UUID, or a product above 16 bytes")]
    NotAPiece,
    /// 5: an amount that is no whole number of 10^-8 within ±10^15 of them.
    #[error("an amount that is no whole number of 10^-8 within the range")]
    AmountOutOfRange,
}

impl Refusal {
    /// The refusal of a number. 4 is a snapshot's alone, whose bytes may be none: the words of messages and estimates are always a value's.
    ///
    /// # Panics
    ///
    /// If the number cannot arise on memory that a reconstructor owns: a fault of this crate.
    pub(crate) fn of(number: u64) -> Self {
        match number {
            sys::LIMIT_ABOVE_CEILING => Self::LimitAboveCeiling,
            sys::AMOUNT_OUT_OF_RANGE => Self::AmountOutOfRange,
            _ => unreachable!("the library answered {number} on memory of a reconstructor"),
        }
    }

    /// Its number in 01's table.
    #[must_use]
    pub fn number(self) -> u64 {
        match self {
            Self::LimitAboveCeiling => sys::LIMIT_ABOVE_CEILING,
            Self::NotAPiece => sys::NOT_A_PIECE,
            Self::AmountOutOfRange => sys::AMOUNT_OUT_OF_RANGE,
        }
    }
}
