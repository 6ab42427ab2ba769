//! Calls, answers and the trait that the Rust's runner and the model share.
//!
//! LINES.md says how they are written as lines and what a host's memory is.

use std::hash::{Hash, Hasher};

use crate::piece::{Id, Message, Product, Side, Snapshot};

/// The ceiling of both limits.
pub const CEILING: u64 = 4_096;
/// Words of one row.
pub const ROW_WORDS: u64 = 8;
/// Fresh buffers (scratch, output, a new ahead-list) are never longer: a larger lent length lends this many words.
pub const FRESH_LIMIT: u64 = 65_536;

/// The word that `seed` puts at `index` of untouched memory; seed 0 stands for zeros.
pub fn fill_word(seed: u64, index: u64) -> u64 {
    if seed == 0 {
        return 0;
    }
    let mut z = seed.wrapping_add(index.wrapping_mul(0x9E37_79B9_7F4A_7C15));
    z = (z ^ (z >> 30)).wrapping_mul(0xBF58_476D_1CE4_E5B9);
    z = (z ^ (z >> 27)).wrapping_mul(0x94D0_49BB_1331_11EB);
    z ^ (z >> 31)
}

/// The seeds of the fresh buffers.
pub const SCRATCH_SEED: u64 = 1;
pub const OUTPUT_SEED: u64 = 2;
pub const AHEAD_SEED: u64 = 3;

/// A fresh buffer of the lent length.
pub fn fresh_words(seed: u64, length: u64) -> Vec<u64> {
    let length = length.min(FRESH_LIMIT);
    (0..length).map(|index| fill_word(seed, index)).collect()
}

/// A book's row memory at creation.
pub fn fresh_rows(seed: u64, words: u64) -> Vec<u64> {
    (0..words).map(|index| fill_word(seed, index)).collect()
}

/// A book's segment memory at creation: seven fill words a record.
pub fn fresh_segments(seed: u64, records: u64) -> Vec<Segment> {
    let record = |index: u64| {
        let word = |field: u64| fill_word(seed, index * 7 + field);
        Segment {
            start_seq: word(0),
            last_good_seq: word(1),
            end: match word(2) % 3 {
                0 => SegmentEnd::Open,
                1 => SegmentEnd::Superseded,
                _ => SegmentEnd::Invalidated(Invalidation {
                    last_good_seq: word(3),
                    first_offending_seq: word(4),
                    reason: 20,
                    funds: false,
                }),
            },
            first_us: word(5),
            last_us: word(6),
        }
    };
    (0..records).map(record).collect()
}

#[derive(Debug, Clone, Copy, PartialEq, Eq, Hash)]
pub enum SizeDecrease {
    KeepsPriority,
    PriorityUnknown,
}

#[derive(Debug, Clone, Copy, PartialEq, Eq, Hash)]
pub struct Rules {
    pub size_decrease: SizeDecrease,
    pub max_orders: u64,
    pub max_levels: u64,
}

/// Why and where a segment stopped being valid. `reason` is 20 to 44; `funds` tells the two reasons of 38 apart and is false elsewhere.
#[derive(Debug, Clone, Copy, PartialEq, Eq, Hash)]
pub struct Invalidation {
    pub last_good_seq: u64,
    pub first_offending_seq: u64,
    pub reason: u8,
    pub funds: bool,
}

#[derive(Debug, Clone, Copy, PartialEq, Eq, Hash)]
pub enum SegmentEnd {
    Open,
    Superseded,
    Invalidated(Invalidation),
}

/// One record of the segment list.
#[derive(Debug, Clone, Copy, PartialEq, Eq, Hash)]
pub struct Segment {
    pub start_seq: u64,
    pub last_good_seq: u64,
    pub end: SegmentEnd,
    pub first_us: u64,
    pub last_us: u64,
}

/// A segment's name: the reconstructor's number and the record's index in the list, from 0.
#[derive(Debug, Clone, Copy, PartialEq, Eq, Hash)]
pub struct SegmentName {
    pub number: u64,
    pub place: u64,
}

/// A handshake value. `start_seq` is what the value claims; 01 reads the segment's record instead.
#[derive(Debug, Clone, Copy, PartialEq, Eq, Hash)]
pub struct Handshake {
    pub segment: SegmentName,
    pub start_seq: u64,
    pub applied: u64,
    pub ended: bool,
}

#[derive(Debug, Clone, Copy, PartialEq, Eq, Hash)]
pub enum Anchor {
    /// The ahead-list holds `orders` entries of three words: id high, id low, entered_at.
    Hypothetical {
        orders: u64,
        created_at: u64,
    },
    Own {
        order_id: Id,
        entered_at: u64,
    },
}

/// An estimate value; its ahead-list is memory beside it.
#[derive(Debug, Clone, Copy, PartialEq, Eq, Hash)]
pub struct Estimate {
    pub side: Side,
    pub price: i64,
    pub segment: SegmentName,
    pub anchor: Anchor,
}

#[derive(Debug, Clone, Copy, PartialEq, Eq, Hash)]
pub enum Status {
    NoSnapshot,
    Valid,
    Invalid(Invalidation),
}

/// The twelve counts, in the Rust's order.
#[derive(Debug, Clone, Copy, PartialEq, Eq, Default)]
pub struct Counts {
    pub received: u64,
    pub open: u64,
    pub done: u64,
    pub matched: u64,
    pub stp_decrease: u64,
    pub off_book_done: u64,
    pub off_book_change: u64,
    pub noop_change: u64,
    pub handshake_dropped: u64,
    pub skipped_while_invalid: u64,
    pub wrong_product: u64,
    pub rejected_snapshots: u64,
}

impl Counts {
    pub fn array(&self) -> [u64; 12] {
        [
            self.received,
            self.open,
            self.done,
            self.matched,
            self.stp_decrease,
            self.off_book_done,
            self.off_book_change,
            self.noop_change,
            self.handshake_dropped,
            self.skipped_while_invalid,
            self.wrong_product,
            self.rejected_snapshots,
        ]
    }

    /// The count at `index` of [`Self::array`] (`index` below 12).
    pub fn slot(&mut self, index: usize) -> &mut u64 {
        let slots = [
            &mut self.received,
            &mut self.open,
            &mut self.done,
            &mut self.matched,
            &mut self.stp_decrease,
            &mut self.off_book_done,
            &mut self.off_book_change,
            &mut self.noop_change,
            &mut self.handshake_dropped,
            &mut self.skipped_while_invalid,
            &mut self.wrong_product,
            &mut self.rejected_snapshots,
        ];
        slots.into_iter().nth(index).expect("twelve counts")
    }
}

/// How much of each buffer a call is lent, in words (records for `segments`). A call looks only at the buffers that 01 lends it.
///
/// Rows, segments and an estimate's ahead-list are prefixes of memory that lasts: a length past its end lends all of it.
/// Scratch, output and the list that `queue_estimate` writes are fresh, filled by [`fresh_words`].
#[derive(Debug, Clone, Copy, PartialEq, Eq, Default, Hash)]
pub struct Lent {
    pub rows: u64,
    pub segments: u64,
    pub scratch: u64,
    pub output: u64,
    pub ahead: u64,
}

/// A field of the state value, for the host's damage.
#[derive(Debug, Clone, Copy, PartialEq, Eq, Hash)]
pub enum Field {
    Rows(u64),
    Segments(u64),
    LastSequence(u64),
    Status(Status),
    /// Index in [`Counts::array`], below 12.
    Count(u8, u64),
}

/// What is called. Slots of handshakes and estimates are shared by all books.
#[derive(Debug, Clone, PartialEq, Eq, Hash)]
pub enum Act {
    /// A new book in the call's slot, with memory of its own.
    Create {
        product: Product,
        rules: Rules,
        number: u64,
        row_words: u64,
        segment_records: u64,
        row_fill: u64,
        segment_fill: u64,
    },
    /// Lent rows and segments.
    Bootstrap { piece: Vec<u8> },
    /// The value of a message piece, lent rows and segments. Bytes without a message's shape get 4 before all else; amounts out of range get 5 in its place.
    Apply { piece: Vec<u8> },
    /// Makes a handshake of the book's current segment (index: segment count less 1), nothing applied, not ended. Without a segment: of index 0, ended.
    Handshake { slot: u8 },
    /// As `Apply`.
    Step { slot: u8, piece: Vec<u8> },
    /// The Rust's `bootstrap_with_buffer`: a snapshot and the messages buffered meanwhile. Lent rows and segments. Where the snapshot is
    /// accepted, the slot holds its handshake, stepped by the messages in turn until one ends it.
    BootstrapWithBuffer {
        slot: u8,
        piece: Vec<u8>,
        buffer: Vec<Vec<u8>>,
    },
    /// Lent rows, scratch and output.
    LevelQueue { side: Side, price: i64 },
    /// Lent rows, scratch and output.
    PriorityProfile { side: Side },
    /// Lent rows, scratch and output.
    StaleL2 { side: Side },
    /// Lent rows, scratch and output.
    L2 { side: Side },
    /// Lent rows.
    Best,
    /// Lent rows.
    LastSequence,
    /// Lent rows.
    Audit,
    /// Lent rows and a fresh ahead-list; on success estimate and list are put into the slot, else the slot stays as it is.
    QueueEstimate { slot: u8, side: Side, price: i64 },
    /// Lent rows; on success the slot holds the estimate and an empty list.
    QueueEstimateOwn { slot: u8, order_id: Id },
    /// Lent rows and the slot's ahead-list.
    VolumeAhead { slot: u8 },
    /// Lent the segments; never refused. The records answered are those below both the segment count and the lent length.
    Manifest,
    /// Lent nothing; never refused.
    Invalidation,
    /// The message reader; no book is concerned.
    ReadMessage { piece: Vec<u8> },
    /// The snapshot reader; no book is concerned.
    ReadSnapshot { piece: Vec<u8> },
    /// The host writes a word of row memory (past its end: nothing happens).
    SetRow { index: u64, word: u64 },
    /// The host writes a segment record (past the end: nothing happens).
    SetSegment { index: u64, record: Segment },
    /// The host writes a field of the state value.
    SetState { field: Field },
    /// Any handshake value.
    ForgeHandshake { slot: u8, handshake: Handshake },
    /// Any estimate value, with its ahead-list memory.
    ForgeEstimate {
        slot: u8,
        estimate: Estimate,
        list: Vec<u64>,
    },
    /// The host writes a word of an ahead-list (past its end: nothing happens).
    SetAhead { slot: u8, index: u64, word: u64 },
}

/// One call on the book in slot `book`.
#[derive(Debug, Clone, PartialEq, Eq, Hash)]
pub struct Call {
    pub book: u8,
    pub lent: Lent,
    pub act: Act,
}

#[derive(Debug, Clone, Copy, PartialEq, Eq)]
pub enum Applied {
    BookChanged,
    NoBookEffect,
}

/// What a step did when it was not refused.
#[derive(Debug, Clone, Copy, PartialEq, Eq)]
pub enum Stepped {
    Dropped,
    Applied(Applied),
}

#[derive(Debug, Clone, Copy, PartialEq, Eq)]
pub enum Assumption {
    BackOfVisibleQueueAtCreation,
    EntrySequenceIsPriority,
    SizeDecreaseKeepsPriority,
}

#[derive(Debug, Clone, PartialEq, Eq)]
pub struct Ahead {
    pub at_seq: u64,
    pub volume: u64,
    pub from_snapshot: u64,
    pub observed: u64,
    pub orders: u64,
    pub assumptions: Vec<Assumption>,
}

/// What an answer carries besides its number.
#[derive(Debug, Clone, PartialEq, Eq)]
pub enum Values {
    /// A refusal without values, an accepted snapshot, a passed audit, a creation, the host's damage.
    Nothing,
    /// Apply's success.
    Applied(Applied),
    /// 16, 17 and 18 (of 16: the new one; else the one in force).
    Invalidation(Invalidation),
    /// Every step: what it did (success only), the invalidation (16 and 17 only) and the handshake afterwards, refused steps included.
    Step {
        stepped: Option<Stepped>,
        invalidation: Option<Invalidation>,
        handshake: Handshake,
    },
    /// `Act::BootstrapWithBuffer`, once the snapshot is accepted: the invalidation (16 only) and the handshake afterwards.
    Buffered {
        invalidation: Option<Invalidation>,
        handshake: Handshake,
    },
    /// `Act::Handshake` and `Act::ForgeHandshake`.
    Handshake(Handshake),
    /// A level read's success: entries, and exactly the words written.
    Entries {
        entries: u64,
        words: Vec<u64>,
    },
    /// `stale_l2` of a book that isn't invalid.
    NoStale,
    /// Best buy and best sell.
    Best(Option<i64>, Option<i64>),
    LastSequence(u64),
    /// `queue_estimate` (with the list's words written) and `queue_estimate_own` (no words).
    Estimate {
        estimate: Estimate,
        list: Vec<u64>,
    },
    Ahead(Ahead),
    Manifest {
        product: Product,
        rules: Rules,
        number: u64,
        counts: Counts,
        segments: Vec<Segment>,
    },
    /// `invalidation`'s answer.
    InForce(Option<Invalidation>),
    Message(Message),
    Snapshot(Snapshot),
}

/// What a lent fresh buffer holds after the call.
#[derive(Debug, Clone, Copy, PartialEq, Eq)]
pub enum Left {
    /// Not lent to this kind of call.
    NotLent,
    /// Every word is as it was.
    Untouched,
    /// Its first words (this many, above 0) were written as they should be, the others are as they were.
    Written(u64),
    /// Anything else, by its digest.
    Other(u64),
}

/// What `buffer`, fresh from `seed`, holds if its first words should be `written`.
pub fn left(buffer: &[u64], seed: u64, written: &[u64]) -> Left {
    let untouched = |from: usize| {
        buffer.len() >= from
            && (from..buffer.len()).all(|index| buffer[index] == fill_word(seed, index as u64))
    };
    if untouched(0) && written.is_empty() {
        Left::Untouched
    } else if untouched(written.len()) && buffer.starts_with(written) {
        Left::Written(written.len() as u64)
    } else {
        Left::Other(digest_words(buffer))
    }
}

/// The fresh buffers after a call.
#[derive(Debug, Clone, Copy, PartialEq, Eq)]
pub struct Buffers {
    pub scratch: Left,
    pub output: Left,
    /// The list that `queue_estimate` is lent; `NotLent` elsewhere.
    pub ahead: Left,
}

impl Buffers {
    pub const NONE: Buffers = Buffers {
        scratch: Left::NotLent,
        output: Left::NotLent,
        ahead: Left::NotLent,
    };
}

/// The book's state and memory after the call.
#[derive(Debug, Clone, Copy, PartialEq, Eq)]
pub struct State {
    pub rows: u64,
    pub segments: u64,
    /// The last sequence applied: 0 before any snapshot; unchanged by an invalidation.
    pub last_sequence: u64,
    pub status: Status,
    pub counts: Counts,
    /// The record at index `segments` - 1, if the memory has it.
    pub last_segment: Option<Segment>,
    /// [`Digest`] of the levels (see LINES.md); `None` where number 3 holds, so that there are no levels to speak of.
    pub levels: Option<u64>,
    /// Digests of the whole row memory and of the whole segment memory; `None` from the Rust, which has no such memory.
    pub memory: Option<Memory>,
}

#[derive(Debug, Clone, Copy, PartialEq, Eq)]
pub struct Memory {
    pub rows: u64,
    pub segments: u64,
}

/// Who stands behind an answer.
#[derive(Debug, Clone, Copy, PartialEq, Eq)]
pub enum Voice {
    /// The unchanged Rust gave the number and the values.
    Rust,
    /// The runner supplied what the Rust lacks.
    Runner,
    Model,
    /// The port's exported functions.
    Port,
}

#[derive(Debug, Clone, PartialEq, Eq)]
pub struct Said {
    /// The number of 01's table, 0 for success.
    pub number: u8,
    pub voice: Voice,
    pub values: Values,
    pub buffers: Buffers,
    /// The book's state afterwards; `None` for the two readers and for the forging of handshakes, estimates and ahead-lists.
    pub state: Option<State>,
}

#[derive(Debug, Clone, PartialEq, Eq)]
pub enum Answer {
    /// A slot that the call names is empty: nothing was called.
    Absent,
    /// Neither the Rust nor the runner can say.
    NoWord,
    Said(Box<Said>),
}

pub trait Subject {
    fn call(&mut self, call: &Call) -> Answer;
}

impl Answer {
    /// Whether two answers agree: where either has no word, or on the memory that the Rust doesn't have, there is nothing to compare. Voices don't count.
    pub fn agrees(&self, other: &Answer) -> bool {
        let (mut one, mut two) = match (self, other) {
            (Answer::NoWord, _) | (_, Answer::NoWord) => return true,
            (Answer::Said(one), Answer::Said(two)) => (one.clone(), two.clone()),
            _ => return self == other,
        };
        two.voice = one.voice;
        if let (Some(a), Some(b)) = (&mut one.state, &mut two.state)
            && (a.memory.is_none() || b.memory.is_none())
        {
            (a.memory, b.memory) = (None, None);
        }
        one == two
    }
}

/// A 64-bit digest of words: each step is a bijection of the sum so far, so one differing word always shows.
#[derive(Debug, Clone, Copy, PartialEq, Eq)]
pub struct Digest(u64);

impl Default for Digest {
    fn default() -> Self {
        Self(0xCBF2_9CE4_8422_2325)
    }
}

impl Digest {
    pub fn word(&mut self, word: u64) {
        let mixed = (self.0 ^ word).wrapping_mul(0x9E37_79B9_7F4A_7C15);
        self.0 = mixed.rotate_left(29);
    }

    pub fn id(&mut self, id: Id) {
        self.word((id >> 64) as u64);
        self.word(id as u64);
    }

    pub fn value(self) -> u64 {
        self.0
    }
}

/// For [`Call::digest`].
impl Hasher for Digest {
    fn write(&mut self, bytes: &[u8]) {
        for chunk in bytes.chunks(8) {
            let mut word = [0; 8];
            word[..chunk.len()].copy_from_slice(chunk);
            self.word(u64::from_le_bytes(word));
        }
    }

    fn finish(&self) -> u64 {
        self.0
    }
}

impl Call {
    /// The same for equal calls, wherever in a stream they come.
    pub fn digest(&self) -> u64 {
        let mut digest = Digest::default();
        self.hash(&mut digest);
        digest.value()
    }
}

/// One order as the digest of a valid book sees it.
#[derive(Debug, Clone, Copy, PartialEq, Eq)]
pub struct LevelOrder {
    pub id: Id,
    pub remaining: u64,
    pub observed: bool,
    pub entered_at: u64,
    pub decreased_at: Option<u64>,
}

/// The digest of the levels: buys from the highest price, then sells from the lowest, each level opened by [`Self::level`].
#[derive(Debug, Clone, Copy, Default)]
pub struct LevelDigest(Digest);

impl LevelDigest {
    /// Opens a level: side, price and the total of its orders.
    pub fn level(&mut self, side: Side, price: u64, total: u64) {
        self.0.word(match side {
            Side::Buy => 100,
            Side::Sell => 101,
        });
        self.0.word(price);
        self.0.word(total);
    }

    /// The level's next order, oldest first. Left out for an invalid book, of which the Rust shows totals only.
    pub fn order(&mut self, order: &LevelOrder) {
        self.0.id(order.id);
        self.0.word(order.remaining);
        self.0.word(u64::from(order.observed));
        self.0.word(order.entered_at);
        self.0.word(u64::from(order.decreased_at.is_some()));
        self.0.word(order.decreased_at.unwrap_or(0));
    }

    pub fn value(self) -> u64 {
        self.0.value()
    }
}

pub fn digest_words(words: &[u64]) -> u64 {
    let mut digest = Digest::default();
    for &word in words {
        digest.word(word);
    }
    digest.value()
}

/// Start, last good, end (0 open, 1 superseded, 2 invalidated, then its last good, offending, reason and funds; zeros otherwise) and the two times.
pub fn digest_segments(segments: &[Segment]) -> u64 {
    let mut digest = Digest::default();
    for segment in segments {
        let (end, why) = match segment.end {
            SegmentEnd::Open => (0, [0; 4]),
            SegmentEnd::Superseded => (1, [0; 4]),
            SegmentEnd::Invalidated(why) => (
                2,
                [
                    why.last_good_seq,
                    why.first_offending_seq,
                    u64::from(why.reason),
                    u64::from(why.funds),
                ],
            ),
        };
        digest.word(segment.start_seq);
        digest.word(segment.last_good_seq);
        digest.word(end);
        why.into_iter().for_each(|word| digest.word(word));
        digest.word(segment.first_us);
        digest.word(segment.last_us);
    }
    digest.value()
}
