//! The port, called as a host calls it: the functions that crate `host_c` exports, declared once in `pinuglaw::sys`. Every slice crosses by way of
//! [`lend`], which can lay it beside a protected page.

pub mod lend;
pub mod reads;

use pinuglaw::sys;

/// The words of a message, of a snapshot's header and of one of its orders.
pub use sys::MESSAGE_WORDS;
pub const SNAPSHOT_WORDS: usize = 5;
pub const ORDER_WORDS: usize = 4;
/// The answers of `apply` and `step` where the book changed, and of `step` where the message was dropped.
pub use sys::BOOK_CHANGED as CHANGED;
pub use sys::DROPPED;
/// The words of a book's state, and of a handshake; the word of a state that counts the rows.
pub use sys::HANDSHAKE_WORDS;
/// No listing is longer.
pub use sys::LISTING_BYTES;
/// The answer where a state, message, handshake or estimate is lent too short.
pub use sys::SHORT_INPUT;
pub use sys::STATE_ROWS;
pub use sys::STATE_WORDS as BLOCK_WORDS;

/// Reads a message piece into words; the answer is 01's number, 0 for success.
pub fn read_message(bytes: &[u8], out: &mut [u64]) -> u64 {
    sys::read_message(&lend::read(bytes), &mut lend::write(out))
}

/// Replays a day file and writes its listing: the listing's length, or 7.
pub fn replay(file: &[u8], listing: &mut [u8]) -> u64 {
    sys::replay(&lend::read(file), &mut lend::write(listing))
}

/// Reads a snapshot piece's header into words.
pub fn read_snapshot(bytes: &[u8], out: &mut [u64]) -> u64 {
    sys::read_snapshot(&lend::read(bytes), &mut lend::write(out))
}

/// Reads the order at a place of a snapshot piece into words.
pub fn snapshot_order(bytes: &[u8], place: usize, out: &mut [u64]) -> u64 {
    sys::snapshot_order(&lend::read(bytes), place, &mut lend::write(out))
}

/// Writes the state of a book without a snapshot. The limits are of orders and of levels.
pub fn new(
    state: &mut [u64],
    product: u128,
    size_decrease: u64,
    (max_orders, max_levels): (u64, u64),
    number: u64,
) -> u64 {
    sys::new(
        &mut lend::write(state),
        (product >> 64) as u64,
        product as u64,
        size_decrease,
        max_orders,
        max_levels,
        number,
    )
}

/// Number 3's part on the rows.
pub fn rows_broken(rows: &[u64], n: usize, max_levels: usize) -> bool {
    sys::rows_broken(&lend::read(rows), n, max_levels)
}

/// Applies a message, handed over as its words: the number, or [`CHANGED`].
pub fn apply(state: &mut [u64], rows: &mut [u64], segments: &mut [u64], message: &[u64]) -> u64 {
    sys::apply(
        &mut lend::write(state),
        &mut lend::write(rows),
        &mut lend::write(segments),
        &lend::read(message),
    )
}

/// Applies messages, handed over as their words one behind the other, in turn: the number of each goes into a word of `answers`.
pub fn apply_all(
    state: &mut [u64],
    rows: &mut [u64],
    segments: &mut [u64],
    messages: &[u64],
    answers: &mut [u64],
) -> u64 {
    sys::apply_all(
        &mut lend::write(state),
        &mut lend::write(rows),
        &mut lend::write(segments),
        &lend::read(messages),
        &mut lend::write(answers),
    )
}

/// Loads a snapshot piece.
pub fn bootstrap(state: &mut [u64], rows: &mut [u64], segments: &mut [u64], bytes: &[u8]) -> u64 {
    sys::bootstrap(
        &mut lend::write(state),
        &mut lend::write(rows),
        &mut lend::write(segments),
        &lend::read(bytes),
    )
}

/// Makes a handshake for the segment that the book is in.
pub fn handshake(state: &[u64], handshake: &mut [u64]) -> u64 {
    sys::handshake(&lend::read(state), &mut lend::write(handshake))
}

/// Steps a handshake by one message: the number, [`CHANGED`] or [`DROPPED`].
pub fn step(
    state: &mut [u64],
    rows: &mut [u64],
    segments: &mut [u64],
    handshake: &mut [u64],
    message: &[u64],
) -> u64 {
    sys::step(
        &mut lend::write(state),
        &mut lend::write(rows),
        &mut lend::write(segments),
        &mut lend::write(handshake),
        &lend::read(message),
    )
}
