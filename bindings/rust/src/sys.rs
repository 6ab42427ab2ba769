//! The functions that crate `host_c` exports, and the words they speak in.
//!
//! Each function answers 0 or a number; `include/pinuglaw.h` says what each takes and writes, and which number comes before which. The wrappers here lend
//! slices, nothing more: any words of any length may be handed over, and every call returns.

/// Declares an exported function and a safe wrapper of it. A slice crosses as a pointer and a length.
macro_rules! exported {
    ($($(#[$doc:meta])* fn $export:ident as $name:ident($($parameters:tt)*) -> $answer:ty;)*) => {$(
        exported!(@split $(#[$doc])* $export $name $answer [] [] [] $($parameters)*,);
    )*};
    (@split $(#[$doc:meta])* $export:ident $name:ident $answer:ty [$($declared:tt)*] [$($taken:tt)*] [$($given:tt)*]) => {
        unsafe extern "C" {
            fn $export($($declared)*) -> $answer;
        }
        $(#[$doc])*
        pub fn $name($($taken)*) -> $answer {
            // SAFETY: each slice is lent whole for the call and kept by none, and the borrows keep them apart.
            unsafe { $export($($given)*) }
        }
    };
    (@split $(#[$doc:meta])* $export:ident $name:ident $answer:ty [$($d:tt)*] [$($t:tt)*] [$($g:tt)*] $p:ident: &mut [$of:ty], $($rest:tt)*) => {
        exported!(@split $(#[$doc])* $export $name $answer
            [$($d)* $p: *mut $of, _: usize,] [$($t)* $p: &mut [$of],] [$($g)* $p.as_mut_ptr(), $p.len(),] $($rest)*);
    };
    (@split $(#[$doc:meta])* $export:ident $name:ident $answer:ty [$($d:tt)*] [$($t:tt)*] [$($g:tt)*] $p:ident: &[$of:ty], $($rest:tt)*) => {
        exported!(@split $(#[$doc])* $export $name $answer
            [$($d)* $p: *const $of, _: usize,] [$($t)* $p: &[$of],] [$($g)* $p.as_ptr(), $p.len(),] $($rest)*);
    };
    (@split $(#[$doc:meta])* $export:ident $name:ident $answer:ty [$($d:tt)*] [$($t:tt)*] [$($g:tt)*] $p:ident: $of:ty, $($rest:tt)*) => {
        exported!(@split $(#[$doc])* $export $name $answer [$($d)* $p: $of,] [$($t)* $p: $of,] [$($g)* $p,] $($rest)*);
    };
}

exported! {
    /// Reads a message piece into [`MESSAGE_WORDS`].
    fn pinuglaw_read_message as read_message(bytes: &[u8], out: &mut [u64]) -> u64;
    /// Reads a snapshot piece's header into [`SNAPSHOT_WORDS`]: product (two), sequence, number of bids, number of asks.
    fn pinuglaw_read_snapshot as read_snapshot(bytes: &[u8], out: &mut [u64]) -> u64;
    /// Reads the order at a place of a snapshot piece into four words: id (two), price, size.
    fn pinuglaw_snapshot_order as snapshot_order(bytes: &[u8], place: usize, out: &mut [u64]) -> u64;
    /// Writes the state of a book without a snapshot into [`STATE_WORDS`].
    fn pinuglaw_new as new(state: &mut [u64], product_high: u64, product_low: u64, size_decrease: u64, max_orders: u64, max_levels: u64, number: u64) -> u64;
    /// Whether `n` rows are no book: number 3's part on the rows.
    fn pinuglaw_rows_broken as rows_broken(rows: &[u64], n: usize, max_levels: usize) -> bool;
    /// Applies a message: [`BOOK_CHANGED`], 0 for one without effect, else 01's number.
    fn pinuglaw_apply as apply(state: &mut [u64], rows: &mut [u64], segments: &mut [u64], message: &[u64]) -> u64;
    /// Applies messages, [`MESSAGE_WORDS`] each, in turn, the number of each into a word of `answers`: 0, or 1, 2 or 3 of them all.
    fn pinuglaw_apply_all as apply_all(state: &mut [u64], rows: &mut [u64], segments: &mut [u64], messages: &[u64], answers: &mut [u64]) -> u64;
    /// Takes a snapshot piece.
    fn pinuglaw_bootstrap as bootstrap(state: &mut [u64], rows: &mut [u64], segments: &mut [u64], bytes: &[u8]) -> u64;
    /// Makes a handshake for the segment that the book is in, an ended one where there is none.
    fn pinuglaw_handshake as handshake(state: &[u64], handshake: &mut [u64]) -> u64;
    /// Steps a handshake by one message: [`DROPPED`], or as [`apply`].
    fn pinuglaw_step as step(state: &mut [u64], rows: &mut [u64], segments: &mut [u64], handshake: &mut [u64], message: &[u64]) -> u64;
    /// The last sequence applied, into [`LAST_SEQUENCE_WORDS`].
    fn pinuglaw_last_sequence as last_sequence(state: &[u64], rows: &[u64], out: &mut [u64]) -> u64;
    /// The best bid and ask, into [`BEST_WORDS`].
    fn pinuglaw_best as best(state: &[u64], rows: &[u64], out: &mut [u64]) -> u64;
    /// The audit of a valid book.
    fn pinuglaw_audit as audit(state: &[u64], rows: &[u64]) -> u64;
    /// The invalidation in force, into [`INVALIDATION_WORDS`]; [`NOT_STALE`] of a book that is not invalid.
    fn pinuglaw_invalidation as invalidation(state: &[u64], out: &mut [u64]) -> u64;
    /// The record of the segment at a place, into [`RECORD_WORDS`]; [`NO_RECORD`] where there is none.
    fn pinuglaw_segment as segment(state: &[u64], segments: &[u64], place: usize, out: &mut [u64]) -> u64;
    /// The orders at a side and price, [`QUEUE_WORDS`] each.
    fn pinuglaw_level_queue as level_queue(state: &[u64], rows: &[u64], scratch: &mut [u64], side: u64, price: u64, out: &mut [u64], count: &mut [u64]) -> u64;
    /// The levels of a side, [`PROFILE_WORDS`] each.
    fn pinuglaw_priority_profile as priority_profile(state: &[u64], rows: &[u64], scratch: &mut [u64], side: u64, out: &mut [u64], count: &mut [u64]) -> u64;
    /// The levels of a side, [`L2_WORDS`] each.
    fn pinuglaw_l2 as l2(state: &[u64], rows: &[u64], scratch: &mut [u64], side: u64, out: &mut [u64], count: &mut [u64]) -> u64;
    /// The same of an invalid book; [`NOT_STALE`] of any other.
    fn pinuglaw_stale_l2 as stale_l2(state: &[u64], rows: &[u64], scratch: &mut [u64], side: u64, out: &mut [u64], count: &mut [u64]) -> u64;
    /// An estimate for an order created now, and the orders ahead of it, [`AHEAD_WORDS`] each.
    fn pinuglaw_queue_estimate as queue_estimate(state: &[u64], rows: &[u64], side: u64, price: u64, ahead: &mut [u64], estimate: &mut [u64]) -> u64;
    /// An estimate for our own order.
    fn pinuglaw_queue_estimate_own as queue_estimate_own(state: &[u64], rows: &[u64], id_high: u64, id_low: u64, estimate: &mut [u64]) -> u64;
    /// The volume ahead of an estimate, into [`VOLUME_WORDS`].
    fn pinuglaw_volume_ahead as volume_ahead(state: &[u64], rows: &[u64], estimate: &[u64], ahead: &[u64], out: &mut [u64]) -> u64;
    /// Replays a day file and lists its segments: the listing's length, or 7 where it exceeds `listing`. [`LISTING_BYTES`] are always enough.
    fn pinuglaw_replay as replay(file: &[u8], listing: &mut [u8]) -> u64;
}

// The numbers in force (docs/NUMBERS.md).
/// An order or level limit above 4,096.
pub const LIMIT_ABOVE_CEILING: u64 = 1;
/// Rows, scratch or the segment list too short.
pub const MEMORY_TOO_SHORT: u64 = 2;
/// Words that are no book.
pub const BROKEN_BOOK: u64 = 3;
/// No piece, or words that no value has.
pub const NOT_A_PIECE: u64 = 4;
/// An amount out of range.
pub const AMOUNT_OUT_OF_RANGE: u64 = 5;
/// No room for another segment record.
pub const SEGMENT_LIST_FULL: u64 = 6;
/// An output too small; always said last.
pub const OUTPUT_TOO_SMALL: u64 = 7;
/// An ahead-list above 4,096 orders, or of fewer words than its orders need.
pub const AHEAD_LIST_UNUSABLE: u64 = 8;
/// A handshake ended, or of another segment.
pub const HANDSHAKE_OVER: u64 = 9;
/// Another product.
pub const WRONG_PRODUCT: u64 = 10;
/// A snapshot with an id twice.
pub const SNAPSHOT_DUPLICATE_ID: u64 = 11;
/// A snapshot with a price or size that is not positive.
pub const SNAPSHOT_INVALID_VALUE: u64 = 12;
/// A crossed snapshot.
pub const SNAPSHOT_CROSSED: u64 = 13;
/// A snapshot above a limit.
pub const SNAPSHOT_CAPACITY_EXCEEDED: u64 = 14;
/// No snapshot yet.
pub const NOT_BOOTSTRAPPED: u64 = 15;
/// This message ended the segment.
pub const INVALIDATED: u64 = 16;
/// The segment had ended before.
pub const AWAITING_SNAPSHOT: u64 = 17;
/// A read of an invalid book.
pub const VIEW_INVALIDATED: u64 = 18;
/// Above the next sequence.
pub const GAP: u64 = 20;
/// At or below the last sequence.
pub const OUT_OF_ORDER_OR_DUPLICATE: u64 = 21;
/// No next sequence.
pub const SEQUENCE_OVERFLOW: u64 = 22;
/// The maker does not rest.
pub const UNKNOWN_MAKER: u64 = 30;
/// The taker rests.
pub const TAKER_RESTING: u64 = 31;
/// The maker's side or price differs.
pub const MATCH_MISMATCH: u64 = 32;
/// A match above what remains.
pub const MATCH_EXCEEDS_REMAINING: u64 = 33;
/// An open of an order that rests.
pub const DUPLICATE_OPEN: u64 = 34;
/// An order that rests is said to be filled.
pub const MISSING_MATCH: u64 = 35;
/// A canceled size differs.
pub const REMAINING_MISMATCH: u64 = 36;
/// The side or price of a done differs.
pub const DONE_MISMATCH: u64 = 37;
/// A change without a new size.
pub const MALFORMED_CHANGE: u64 = 38;
/// The old facts of a change differ.
pub const CHANGE_MISMATCH: u64 = 39;
/// A modification that is not followed.
pub const UNSUPPORTED_MODIFICATION: u64 = 40;
/// An open would cross.
pub const CROSSED_AFTER_APPLY: u64 = 41;
/// A price or size that is not positive.
pub const INVALID_VALUE: u64 = 42;
/// An open above a limit.
pub const CAPACITY_EXCEEDED: u64 = 43;
/// An unsupported event.
pub const UNSUPPORTED_INPUT: u64 = 44;
/// An estimate of another segment.
pub const STALE_ESTIMATE: u64 = 50;
/// An order's place is unknown.
pub const PRIORITY_UNKNOWN: u64 = 51;
/// The own order does not rest.
pub const NOT_RESTING: u64 = 52;

/// A file that breaks the rules of a day file, or is longer than [`DAY_FILE_BYTES`]; said in its listing.
pub const NOT_A_DAY_FILE: u64 = 60;

/// The answer to a message that was applied and changed the book.
pub const BOOK_CHANGED: u64 = 256;
/// The answer of [`stale_l2`] on a book that is not invalid.
pub const NOT_STALE: u64 = 256;
/// No record at that place.
pub const NO_RECORD: u64 = 256;
/// The answer to a step whose message lies at or below the snapshot's sequence.
pub const DROPPED: u64 = 512;
/// A state, message, handshake or estimate of fewer words than it has.
pub const SHORT_INPUT: u64 = 768;

/// The ceiling of both limits.
pub const CEILING: usize = 4096;

// The state: 27 words.
/// The product's first eight bytes, big-endian.
pub const STATE_PRODUCT_HIGH: usize = 0;
/// Its last eight.
pub const STATE_PRODUCT_LOW: usize = 1;
/// 0 keeps priority, 1 priority unknown.
pub const STATE_SIZE_DECREASE: usize = 2;
/// Most orders.
pub const STATE_MAX_ORDERS: usize = 3;
/// Most levels.
pub const STATE_MAX_LEVELS: usize = 4;
/// The reconstructor's number.
pub const STATE_NUMBER: usize = 5;
/// Rows in use.
pub const STATE_ROWS: usize = 13;
/// Segment records in use.
pub const STATE_SEGMENTS: usize = 14;
/// The first of the twelve counts.
pub const STATE_RECEIVED: usize = 15;
/// The words of a state.
pub const STATE_WORDS: usize = 27;

// A row: 8 words an order, in order of arrival.
/// The id's first eight bytes, big-endian.
pub const ROW_ID_HIGH: usize = 0;
/// Its last eight.
pub const ROW_ID_LOW: usize = 1;
/// Price.
pub const ROW_PRICE: usize = 2;
/// What remains.
pub const ROW_REMAINING: usize = 3;
/// 0 buy, 1 sell of a snapshot; 2 buy, 3 sell of an observed open.
pub const ROW_KIND: usize = 4;
/// The sequence it entered at.
pub const ROW_ENTERED_AT: usize = 5;
/// 1 where a change made it smaller.
pub const ROW_DECREASED: usize = 6;
/// The sequence of that change.
pub const ROW_DECREASED_AT: usize = 7;
/// The words of a row.
pub const ROW_WORDS: usize = 8;

// A segment record: 8 words.
/// The snapshot's sequence.
pub const SEGMENT_START_SEQ: usize = 0;
/// The last sequence applied.
pub const SEGMENT_LAST_GOOD_SEQ: usize = 1;
/// 0 open, 1 superseded, else the reason, 20 to 44.
pub const SEGMENT_END: usize = 2;
/// `time_us` of the first accepted message.
pub const SEGMENT_FIRST_US: usize = 6;
/// `time_us` of the latest.
pub const SEGMENT_LAST_US: usize = 7;
/// The words of a record.
pub const SEGMENT_WORDS: usize = 8;

// A record as `segment` writes it: those, and two more.
/// Its elapsed time.
pub const SEGMENT_ELAPSED: usize = 8;
/// How many messages it accepted.
pub const SEGMENT_ACCEPTED: usize = 9;
/// Its words.
pub const RECORD_WORDS: usize = 10;

// An invalidation: words 7 to 12 of the state.
/// The last good sequence.
pub const INVALIDATION_LAST_GOOD_SEQ: usize = 0;
/// The offending sequence.
pub const INVALIDATION_FIRST_OFFENDING_SEQ: usize = 1;
/// The reason, 20 to 44.
pub const INVALIDATION_REASON: usize = 2;
/// Of 20 the expected sequence, of 21 the last one.
pub const INVALIDATION_FIRST: usize = 3;
/// Of 20 and 21 the sequence that came.
pub const INVALIDATION_SECOND: usize = 4;
/// Of 38: 1 funds, 0 no size.
pub const INVALIDATION_DETAIL: usize = 5;
/// Its words.
pub const INVALIDATION_WORDS: usize = 6;

// Other blocks.
/// The words of a message.
pub const MESSAGE_WORDS: usize = 21;
/// The words of a snapshot's header.
pub const SNAPSHOT_WORDS: usize = 5;
/// The messages that a handshake has applied.
pub const HANDSHAKE_APPLIED: usize = 3;
/// The words of a handshake.
pub const HANDSHAKE_WORDS: usize = 4;
/// The last sequence.
pub const LAST_SEQUENCE_WORDS: usize = 1;
/// The number of entries of a level read.
pub const COUNT_WORDS: usize = 1;
/// Of each side whether it has a price, and the price.
pub const BEST_WORDS: usize = 4;
/// The words of an order in a level's queue.
pub const QUEUE_WORDS: usize = 5;
/// The words of a level in a profile.
pub const PROFILE_WORDS: usize = 3;
/// The words of a level.
pub const L2_WORDS: usize = 2;
/// The words of an estimate.
pub const ESTIMATE_WORDS: usize = 8;
/// The words of an order in an ahead-list.
pub const AHEAD_WORDS: usize = 3;
/// The words of a volume ahead.
pub const VOLUME_WORDS: usize = 7;

// Day files.
/// The most bytes of a day file.
pub const DAY_FILE_BYTES: usize = 65_536;
/// The most bytes of its listing.
pub const LISTING_BYTES: usize = 8192;
