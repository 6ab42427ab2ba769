//! Book reconstruction from a snapshot and a sequenced message stream.

mod errors;
mod reads;
mod records;

use std::fmt;
use std::sync::atomic::{AtomicU64, Ordering};

use super::message::{L3Message, L3Snapshot};
use super::pieces;
use super::reasons::{self, Met};
use super::words;
use crate::sys::{
    self, BOOK_CHANGED, CEILING, DROPPED, HANDSHAKE_APPLIED, HANDSHAKE_WORDS, INVALIDATION_DETAIL,
    INVALIDATION_FIRST, INVALIDATION_FIRST_OFFENDING_SEQ, INVALIDATION_LAST_GOOD_SEQ,
    INVALIDATION_REASON, INVALIDATION_SECOND, INVALIDATION_WORDS, MESSAGE_WORDS, RECORD_WORDS,
    ROW_WORDS, SEGMENT_END, SEGMENT_FIRST_US, SEGMENT_LAST_GOOD_SEQ, SEGMENT_LAST_US,
    SEGMENT_START_SEQ, SEGMENT_WORDS, STATE_NUMBER, STATE_RECEIVED, STATE_ROWS, STATE_SEGMENTS,
    STATE_WORDS,
};

pub use errors::{
    ApplyError, Discrepancy, HandshakeError, Invalidation, InvalidationKind, Refusal,
    SnapshotError, ViewError,
};
pub use records::{
    Applied, LevelProfile, MessageCounts, QualityManifest, QueueEntry, Segment, SegmentEnd,
    SegmentTimes, SizeDecrease, VenueRules,
};

/// Rebuilds the visible book of one product from a snapshot and its sequenced messages, failing closed on any gap or inconsistency.
///
/// A clone is a separate reconstructor: queue estimates of one are not valid on the other.
pub struct BookReconstructor {
    /// The product's words; none where its name is no product.
    product: Option<[u64; 2]>,
    state: [u64; STATE_WORDS],
    /// Room for every permitted order.
    rows: Vec<u64>,
    /// The records in use, and room for one more while a snapshot is taken.
    segments: Vec<u64>,
    /// What the words say, with what the Rust's errors say besides.
    manifest: QualityManifest,
    invalidation: Option<Invalidation>,
}

/// Source of the reconstructors' numbers: no two of a process share one, so that an estimate is told from another book's.
static NEXT_NUMBER: AtomicU64 = AtomicU64::new(1);

fn next_number() -> u64 {
    NEXT_NUMBER.fetch_add(1, Ordering::Relaxed)
}

/// The state of a book without a snapshot.
fn new_state([product_high, product_low]: [u64; 2], rules: VenueRules) -> [u64; STATE_WORDS] {
    let mut state = [0; STATE_WORDS];
    let number = sys::new(
        &mut state,
        product_high,
        product_low,
        u64::from(rules.size_decrease == SizeDecrease::PriorityUnknown),
        rules.max_orders as u64,
        rules.max_levels as u64,
        next_number(),
    );
    sure(number);
    state
}

/// Sees that a call succeeded that cannot do otherwise: its words are a value's, and every slice of a fixed size has that size, so that 768, 4 and 7 are
/// faults of this crate.
fn sure(number: u64) {
    assert_eq!(number, 0, "the library turned away words of this crate");
}

impl Clone for BookReconstructor {
    fn clone(&self) -> Self {
        let mut state = self.state;
        state[STATE_NUMBER] = next_number();
        Self {
            product: self.product,
            state,
            rows: self.rows.clone(),
            segments: self.segments.clone(),
            manifest: self.manifest.clone(),
            invalidation: self.invalidation.clone(),
        }
    }
}

impl fmt::Debug for BookReconstructor {
    fn fmt(&self, f: &mut fmt::Formatter<'_>) -> fmt::Result {
        f.debug_struct("BookReconstructor")
            .field("manifest", &self.manifest)
            .field("invalidation", &self.invalidation)
            .field("orders", &self.state[STATE_ROWS])
            .finish_non_exhaustive()
    }
}

impl BookReconstructor {
    /// A reconstructor for `product_id`, waiting for a snapshot.
    ///
    /// Any name and any limits will do here, as in the Rust; calls refuse a limit above 4,096 and a name that is no product. The book holds 64 bytes for each
    /// permitted order from the start, and 64 more for each snapshot it takes.
    #[must_use]
    pub fn new(product_id: impl Into<String>, rules: VenueRules) -> Self {
        let product_id = product_id.into();
        let product = words::product_words(&product_id);
        Self {
            product,
            state: new_state(product.unwrap_or_default(), rules),
            rows: vec![0; ROW_WORDS * rules.max_orders.min(CEILING)],
            segments: Vec::new(),
            manifest: QualityManifest {
                product_id,
                rules,
                segments: Vec::new(),
                counts: MessageCounts::default(),
            },
            invalidation: None,
        }
    }

    /// The quality record.
    #[must_use]
    pub fn manifest(&self) -> &QualityManifest {
        &self.manifest
    }

    /// The invalidation in force, if the book is waiting for a snapshot.
    #[must_use]
    pub fn invalidation(&self) -> Option<&Invalidation> {
        self.invalidation.as_ref()
    }

    /// When the messages of the segment at a place of the manifest's list were sent.
    #[must_use]
    pub fn segment_times(&self, place: usize) -> Option<SegmentTimes> {
        self.segment_words(place).map(|record| SegmentTimes {
            first_us: record[SEGMENT_FIRST_US],
            last_us: record[SEGMENT_LAST_US],
        })
    }

    /// Replaces the book with a validated snapshot and starts a segment.
    ///
    /// # Errors
    ///
    /// A [`SnapshotError`]; the state is then unchanged but for the count of rejected snapshots, which a [`SnapshotError::Refused`] leaves too.
    pub fn bootstrap(&mut self, snapshot: &L3Snapshot) -> Result<(), SnapshotError> {
        // No bytes are no piece: where the snapshot has none, the library says so at its place.
        let piece = self
            .product_words(&snapshot.product_id)
            .and_then(|product| pieces::snapshot_piece(product, snapshot))
            .unwrap_or_default();
        let records = self.state[STATE_SEGMENTS] as usize + 1;
        self.segments.resize(SEGMENT_WORDS * records, 0);
        let number = sys::bootstrap(&mut self.state, &mut self.rows, &mut self.segments, &piece);
        self.record_counts();
        if number != 0 {
            let QualityManifest {
                product_id, rules, ..
            } = &self.manifest;
            return Err(reasons::snapshot_error(
                number, snapshot, product_id, *rules,
            ));
        }
        self.record_segments();
        self.invalidation = None;
        Ok(())
    }

    /// The snapshot handshake: bootstraps on `snapshot`, drops the buffered messages at or before its sequence, and applies the rest in order. The first one
    /// applied must follow the snapshot's sequence, or the segment ends in a gap.
    ///
    /// Another product's messages are refused and counted, as by [`Self::apply`], and the handshake goes on.
    ///
    /// # Errors
    ///
    /// The snapshot's error, as [`HandshakeError::Snapshot`], or the first message that could not be applied, as [`HandshakeError::Apply`]; the messages after
    /// it are not applied.
    pub fn bootstrap_with_buffer<'a>(
        &mut self,
        snapshot: &L3Snapshot,
        buffered: impl IntoIterator<Item = &'a L3Message>,
    ) -> Result<usize, HandshakeError> {
        self.bootstrap(snapshot).map_err(HandshakeError::Snapshot)?;
        let mut handshake = [0; HANDSHAKE_WORDS];
        sure(sys::handshake(&self.state, &mut handshake));
        for message in buffered {
            match self.step(&mut handshake, message) {
                Ok(()) | Err(ApplyError::WrongProduct { .. }) => {}
                Err(error) => return Err(HandshakeError::Apply(error)),
            }
        }
        Ok(handshake[HANDSHAKE_APPLIED] as usize)
    }

    /// Drops or applies one buffered message.
    fn step(
        &mut self,
        handshake: &mut [u64; HANDSHAKE_WORDS],
        message: &L3Message,
    ) -> Result<(), ApplyError> {
        let words = self.message_words(message)?;
        let (rows, segments) = (&mut self.rows, &mut self.segments);
        match sys::step(&mut self.state, rows, segments, handshake, &words) {
            DROPPED => {
                self.record_counts();
                Ok(())
            }
            number => self.answered(number, message).map(drop),
        }
    }

    /// Applies the next message. Nothing changes unless every check passes.
    ///
    /// # Errors
    ///
    /// An [`ApplyError`]: another product's message is refused with the segment untouched; a gap, an out of order sequence or a discrepancy ends the segment
    /// ([`ApplyError::Invalidated`]), and later messages are skipped until the next snapshot.
    pub fn apply(&mut self, message: &L3Message) -> Result<Applied, ApplyError> {
        let words = self.message_words(message)?;
        let (rows, segments) = (&mut self.rows, &mut self.segments);
        let number = sys::apply(&mut self.state, rows, segments, &words);
        self.answered(number, message)
    }

    /// The words of a product for this book; none if the book has no product.
    fn product_words(&self, name: &str) -> Option<[u64; 2]> {
        let own = self.product?;
        Some(words::product_words(name).unwrap_or(words::other_product(own)))
    }

    fn message_words(&self, message: &L3Message) -> Result<[u64; MESSAGE_WORDS], ApplyError> {
        self.product_words(&message.product_id)
            .and_then(|product| words::message_words(product, message))
            .ok_or(ApplyError::Refused(Refusal::NotAPiece))
    }

    /// The result of a message that was answered by `number`.
    fn answered(&mut self, number: u64, message: &L3Message) -> Result<Applied, ApplyError> {
        self.record_counts();
        match number {
            0 | BOOK_CHANGED => {
                self.record_segments();
                Ok(match number {
                    BOOK_CHANGED => Applied::BookChanged,
                    _ => Applied::NoBookEffect,
                })
            }
            sys::WRONG_PRODUCT => Err(ApplyError::WrongProduct {
                expected: self.manifest.product_id.clone(),
                got: message.product_id.clone(),
            }),
            sys::NOT_BOOTSTRAPPED => Err(ApplyError::NotBootstrapped),
            sys::INVALIDATED => {
                let why = self.why(message);
                self.invalidation = Some(why.clone());
                self.record_segments();
                Err(ApplyError::Invalidated(why))
            }
            sys::AWAITING_SNAPSHOT => Err(ApplyError::AwaitingSnapshot(self.in_force())),
            _ => Err(ApplyError::Refused(Refusal::of(number))),
        }
    }

    /// The invalidation that the state holds, which `message` caused.
    fn why(&self, message: &L3Message) -> Invalidation {
        let mut words = [0; INVALIDATION_WORDS];
        sure(sys::invalidation(&self.state, &mut words));
        let (first, second) = (words[INVALIDATION_FIRST], words[INVALIDATION_SECOND]);
        let met = Met {
            rows: self.rows_in_use(),
            rules: self.manifest.rules,
        };
        let funds = words[INVALIDATION_DETAIL] != 0;
        Invalidation {
            last_good_seq: words[INVALIDATION_LAST_GOOD_SEQ],
            first_offending_seq: words[INVALIDATION_FIRST_OFFENDING_SEQ],
            kind: match words[INVALIDATION_REASON] {
                sys::GAP => InvalidationKind::Gap {
                    expected: first,
                    got: second,
                },
                sys::OUT_OF_ORDER_OR_DUPLICATE => InvalidationKind::OutOfOrderOrDuplicate {
                    last: first,
                    got: second,
                },
                sys::SEQUENCE_OVERFLOW => InvalidationKind::SequenceOverflow,
                number => InvalidationKind::Discrepancy(reasons::discrepancy(
                    number,
                    funds,
                    &message.event,
                    &met,
                )),
            },
        }
    }

    /// The invalidation of a book that the library calls invalid.
    fn in_force(&self) -> Invalidation {
        let known = "a message made the book invalid";
        self.invalidation.clone().expect(known)
    }

    pub(super) fn rows_in_use(&self) -> &[u64] {
        &self.rows[..ROW_WORDS * self.state[STATE_ROWS] as usize]
    }

    /// The record of the segment at a place of the list.
    fn segment_words(&self, place: usize) -> Option<[u64; RECORD_WORDS]> {
        let mut record = [0; RECORD_WORDS];
        match sys::segment(&self.state, &self.segments, place, &mut record) {
            sys::NO_RECORD => None,
            number => {
                sure(number);
                Some(record)
            }
        }
    }

    fn record_counts(&mut self) {
        let mut words = self.state[STATE_RECEIVED..].iter();
        let mut next = || words.next().map_or(0, |count| *count as usize);
        self.manifest.counts = MessageCounts {
            received: next(),
            open: next(),
            done: next(),
            matched: next(),
            stp_decrease: next(),
            off_book_done: next(),
            off_book_change: next(),
            noop_change: next(),
            handshake_dropped: next(),
            skipped_while_invalid: next(),
            wrong_product: next(),
            rejected_snapshots: next(),
        };
    }

    /// Brings the manifest's last segment up to date, and adds a new one.
    fn record_segments(&mut self) {
        let known = self.manifest.segments.len().saturating_sub(1);
        self.manifest.segments.truncate(known);
        for place in known..self.state[STATE_SEGMENTS] as usize {
            let record = self.segment_words(place).expect("records in use are held");
            let segment = Segment {
                start_seq: record[SEGMENT_START_SEQ],
                last_good_seq: record[SEGMENT_LAST_GOOD_SEQ],
                end: match record[SEGMENT_END] {
                    0 => SegmentEnd::Open,
                    1 => SegmentEnd::Superseded,
                    _ => SegmentEnd::Invalidated(self.in_force()),
                },
            };
            self.manifest.segments.push(segment);
        }
    }
}
