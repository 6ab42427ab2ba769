//! Books, messages, rebuilding and queue estimates, under the Rust's names.
//!
//! The library decides every answer and every word of the book. This module owns the memory that the library works on and turns values into words and back:
//!
//! - An amount is a whole number of 10^-8 within ±10^15 units. A [`Decimal`](crate::Decimal) converts exactly, or the call is refused
//!   ([`Refusal::AmountOutOfRange`]). What comes back has scale 8.
//! - An order id is a UUID as the venue writes it, 36 characters in lower case ([`Refusal::NotAPiece`] else). A product is a name of at most 16 bytes.
//! - At most 4,096 orders and levels, which is also the default ([`Refusal::LimitAboveCeiling`] else).
//! - The ids, amounts and texts inside an error are the Rust's; they are filled in here from the message and the book, as the library's answer is a number.
//! - Results named `Arithmetic` cannot arise in this range; the cases are kept so that a `match` written for the Rust still reads.
//!
//! A refusal by number 1, 4 or 5 of 01's table, which the Rust does not know, is a case `Refused` of the error. It changes nothing.

pub mod book;
#[path = "../../../docs/src/l3/message.rs"]
pub mod message;
pub(crate) mod pieces;
pub mod queue;
mod reasons;
pub mod reconstructor;
pub(crate) mod words;

pub use book::PriorityEvidence;
pub use message::{
    ChangeReason, DoneReason, L3Event, L3Message, L3Side, L3Snapshot, SnapshotOrder,
};
pub use queue::{Assumption, QueueAhead, QueueError, QueueEstimate};
pub use reconstructor::{
    Applied, ApplyError, BookReconstructor, Discrepancy, HandshakeError, Invalidation,
    InvalidationKind, LevelProfile, MessageCounts, QualityManifest, QueueEntry, Refusal, Segment,
    SegmentEnd, SegmentTimes, SizeDecrease, SnapshotError, VenueRules, ViewError,
};
