//! Rules, results and the quality record.

use super::errors::Invalidation;
use crate::Decimal;
use crate::l3::book::PriorityEvidence;
use crate::sys;

/// What a size decrease does to an order's place in its queue.
#[derive(Debug, Clone, Copy, PartialEq, Eq)]
pub enum SizeDecrease {
    /// It keeps its place. A declared assumption (the usual price time
    /// rule), not a fact the feed documents.
    KeepsPriority,
    /// Its place afterwards is unknown: a queue estimate that depends on it
    /// is refused.
    PriorityUnknown,
}

/// The venue rules and limits the reconstruction runs under.
#[derive(Debug, Clone, Copy, PartialEq, Eq)]
pub struct VenueRules {
    /// What a size decrease does to priority.
    pub size_decrease: SizeDecrease,
    /// Most resting orders held.
    pub max_orders: usize,
    /// Most price levels held, both sides together.
    pub max_levels: usize,
}

impl Default for VenueRules {
    /// 4,096 orders and levels, where the Rust has 1,000,000 and 100,000.
    fn default() -> Self {
        Self {
            size_decrease: SizeDecrease::KeepsPriority,
            max_orders: sys::CEILING,
            max_levels: sys::CEILING,
        }
    }
}

/// What an applied message did.
#[derive(Debug, Clone, Copy, PartialEq, Eq)]
pub enum Applied {
    /// It changed the visible book.
    BookChanged,
    /// It concerns no resting order (a `received`, or a `done` or `change`
    /// of an order not on the book), or changed nothing.
    NoBookEffect,
}

/// How a segment ended.
#[derive(Debug, Clone, PartialEq, Eq)]
pub enum SegmentEnd {
    /// Still valid.
    Open,
    /// Invalidated.
    Invalidated(Invalidation),
    /// Replaced by a new snapshot while still valid.
    Superseded,
}

/// A run of messages applied on one snapshot.
#[derive(Debug, Clone, PartialEq, Eq)]
pub struct Segment {
    /// The snapshot's sequence.
    pub start_seq: u64,
    /// The last sequence applied while valid.
    pub last_good_seq: u64,
    /// How it ended.
    pub end: SegmentEnd,
}

/// Messages counted by what they did.
#[derive(Debug, Clone, Copy, PartialEq, Eq, Default)]
pub struct MessageCounts {
    /// `received`.
    pub received: usize,
    /// `open` applied.
    pub open: usize,
    /// `done` that removed a resting order.
    pub done: usize,
    /// `match` applied.
    pub matched: usize,
    /// Size decreases applied (`change` STP).
    pub stp_decrease: usize,
    /// `done` of an order not on the book.
    pub off_book_done: usize,
    /// `change` of an order not on the book.
    pub off_book_change: usize,
    /// `change` that left the size as it was.
    pub noop_change: usize,
    /// Messages dropped by the snapshot handshake (sequence at or before
    /// the snapshot's).
    pub handshake_dropped: usize,
    /// Messages skipped while waiting for a snapshot.
    pub skipped_while_invalid: usize,
    /// Messages of another product, refused.
    pub wrong_product: usize,
    /// Snapshots refused.
    pub rejected_snapshots: usize,
}

/// The reconstruction's quality record.
#[derive(Debug, Clone, PartialEq, Eq)]
pub struct QualityManifest {
    /// Product.
    pub product_id: String,
    /// The rules in force.
    pub rules: VenueRules,
    /// Every segment, in order.
    pub segments: Vec<Segment>,
    /// Counters.
    pub counts: MessageCounts,
}

/// Total and unknown priority volume of one level.
#[derive(Debug, Clone, Copy, PartialEq, Eq)]
pub struct LevelProfile {
    /// Price.
    pub price: Decimal,
    /// Total visible size.
    pub total: Decimal,
    /// Size of the orders with [`PriorityEvidence::Unknown`].
    pub unknown_priority: Decimal,
}

/// One order of a level's queue.
#[derive(Debug, Clone, PartialEq, Eq)]
pub struct QueueEntry {
    /// Order id.
    pub order_id: String,
    /// Remaining size.
    pub remaining: Decimal,
    /// Priority evidence.
    pub evidence: PriorityEvidence,
}

/// When a segment's accepted messages were sent, by the feed's own clock. The Rust keeps no times.
#[derive(Debug, Clone, Copy, PartialEq, Eq)]
pub struct SegmentTimes {
    /// `time_us` of the first accepted message; 0 until there is one.
    pub first_us: u64,
    /// `time_us` of the latest accepted message; 0 until there is one.
    pub last_us: u64,
}

impl SegmentTimes {
    /// Microseconds from the first to the latest, 0 if the clock went back.
    #[must_use]
    pub fn elapsed_us(&self) -> u64 {
        self.last_us.saturating_sub(self.first_us)
    }
}
