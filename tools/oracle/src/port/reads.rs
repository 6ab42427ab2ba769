//! The reads and estimates that crate `host` exports. A side is a word, 0 buy or 1 sell; an amount is its two's-complement word.
//! The answer is 0, a number of 01, [`NO_STALE`] or [`super::SHORT_INPUT`].

use super::{lend, sys};

/// The words of an order in an ahead-list.
pub use sys::AHEAD_WORDS as LISTED_WORDS;
/// The words of a best pair, of the number of entries of a level read, of an estimate, of a last sequence.
pub use sys::BEST_WORDS;
pub use sys::COUNT_WORDS;
pub use sys::ESTIMATE_WORDS;
/// The words of an invalidation.
pub use sys::INVALIDATION_WORDS;
/// The words of an entry of each level read.
pub use sys::L2_WORDS;
pub use sys::LAST_SEQUENCE_WORDS as LAST_WORDS;
/// The answer of `stale_l2` and `invalidation` where the book is not invalid, and of `segment` where there is no record.
pub use sys::NOT_STALE as NO_STALE;
pub use sys::PROFILE_WORDS;
pub use sys::QUEUE_WORDS;
/// The words of a segment's record, and of a volume ahead.
pub use sys::RECORD_WORDS;
pub use sys::VOLUME_WORDS as AHEAD_WORDS;

/// Writes the sequence.
pub fn last_sequence(state: &[u64], rows: &[u64], out: &mut [u64]) -> u64 {
    sys::last_sequence(&lend::read(state), &lend::read(rows), &mut lend::write(out))
}

/// Writes bid present, bid, ask present, ask; an absent price is 0.
pub fn best(state: &[u64], rows: &[u64], out: &mut [u64]) -> u64 {
    sys::best(&lend::read(state), &lend::read(rows), &mut lend::write(out))
}

pub fn audit(state: &[u64], rows: &[u64]) -> u64 {
    sys::audit(&lend::read(state), &lend::read(rows))
}

/// Writes the six words of the invalidation in force.
pub fn invalidation(state: &[u64], out: &mut [u64]) -> u64 {
    sys::invalidation(&lend::read(state), &mut lend::write(out))
}

/// Writes the ten words of a segment's record.
pub fn segment(state: &[u64], segments: &[u64], place: usize, out: &mut [u64]) -> u64 {
    let (state, segments) = (lend::read(state), lend::read(segments));
    sys::segment(&state, &segments, place, &mut lend::write(out))
}

/// Writes five words an order.
pub fn level_queue(
    state: &[u64],
    rows: &[u64],
    scratch: &mut [u64],
    (side, price): (u64, u64),
    out: &mut [u64],
    count: &mut [u64],
) -> u64 {
    sys::level_queue(
        &lend::read(state),
        &lend::read(rows),
        &mut lend::write(scratch),
        side,
        price,
        &mut lend::write(out),
        &mut lend::write(count),
    )
}

/// A level read of a side: state, rows, scratch, side, entries, their count.
pub type LevelRead = fn(&[u64], &[u64], &mut [u64], u64, &mut [u64], &mut [u64]) -> u64;

fn level_read(
    read: LevelRead,
    state: &[u64],
    rows: &[u64],
    scratch: &mut [u64],
    side: u64,
    out: &mut [u64],
    count: &mut [u64],
) -> u64 {
    read(
        &lend::read(state),
        &lend::read(rows),
        &mut lend::write(scratch),
        side,
        &mut lend::write(out),
        &mut lend::write(count),
    )
}

/// Writes three words a level.
pub fn priority_profile(
    state: &[u64],
    rows: &[u64],
    scratch: &mut [u64],
    side: u64,
    out: &mut [u64],
    count: &mut [u64],
) -> u64 {
    level_read(
        sys::priority_profile,
        state,
        rows,
        scratch,
        side,
        out,
        count,
    )
}

/// Writes two words a level.
pub fn l2(
    state: &[u64],
    rows: &[u64],
    scratch: &mut [u64],
    side: u64,
    out: &mut [u64],
    count: &mut [u64],
) -> u64 {
    level_read(sys::l2, state, rows, scratch, side, out, count)
}

/// As `l2`, of an invalid book; of any other it answers [`NO_STALE`].
pub fn stale_l2(
    state: &[u64],
    rows: &[u64],
    scratch: &mut [u64],
    side: u64,
    out: &mut [u64],
    count: &mut [u64],
) -> u64 {
    level_read(sys::stale_l2, state, rows, scratch, side, out, count)
}

/// Writes three words an order ahead, and the estimate.
pub fn queue_estimate(
    state: &[u64],
    rows: &[u64],
    (side, price): (u64, u64),
    ahead: &mut [u64],
    estimate: &mut [u64],
) -> u64 {
    sys::queue_estimate(
        &lend::read(state),
        &lend::read(rows),
        side,
        price,
        &mut lend::write(ahead),
        &mut lend::write(estimate),
    )
}

/// Writes the estimate of an own order.
pub fn queue_estimate_own(state: &[u64], rows: &[u64], id: u128, estimate: &mut [u64]) -> u64 {
    let (high, low) = ((id >> 64) as u64, id as u64);
    let (state, rows) = (lend::read(state), lend::read(rows));
    sys::queue_estimate_own(&state, &rows, high, low, &mut lend::write(estimate))
}

/// Writes at_seq, volume, from_snapshot, observed, orders, the first assumption, and 1 if a decrease is assumed to keep its priority.
pub fn volume_ahead(
    state: &[u64],
    rows: &[u64],
    estimate: &[u64],
    ahead: &[u64],
    out: &mut [u64],
) -> u64 {
    sys::volume_ahead(
        &lend::read(state),
        &lend::read(rows),
        &lend::read(estimate),
        &lend::read(ahead),
        &mut lend::write(out),
    )
}
