//! The words of a book's memory, as crates `host_words` and `host_answers` document them in their specs.

use crate::call::{
    Anchor, Estimate, Handshake, Invalidation, Rules, Segment, SegmentEnd, SizeDecrease, State,
    Status,
};
use crate::piece::{Id, Product, Side};

/// Words of a segment record and of a state.
pub const RECORD: usize = 8;
pub const BLOCK: usize = 27;
/// The first word of a state that a call may change.
pub const STATUS: usize = 6;

/// What a call was lent, afterwards.
pub struct Memory<'a> {
    pub block: [u64; BLOCK],
    pub rows: &'a [u64],
    pub segments: Vec<u64>,
}

pub fn id(id: Id) -> [u64; 2] {
    [(id >> 64) as u64, id as u64]
}

pub fn side(side: Side) -> u64 {
    match side {
        Side::Buy => 0,
        Side::Sell => 1,
    }
}

pub fn record(segment: &Segment) -> [u64; RECORD] {
    let [code, good, offending, detail] = match segment.end {
        SegmentEnd::Open => [0; 4],
        SegmentEnd::Superseded => [1, 0, 0, 0],
        SegmentEnd::Invalidated(why) => {
            let [good, offending, reason, detail] = invalidation(&why);
            [reason, good, offending, detail]
        }
    };
    [
        segment.start_seq,
        segment.last_good_seq,
        code,
        good,
        offending,
        detail,
        segment.first_us,
        segment.last_us,
    ]
}

pub fn records(segments: &[Segment]) -> Vec<u64> {
    segments.iter().flat_map(record).collect()
}

pub fn invalidation(why: &Invalidation) -> [u64; 4] {
    [
        why.last_good_seq,
        why.first_offending_seq,
        u64::from(why.reason),
        u64::from(why.funds),
    ]
}

/// An invalidation with all that its reason holds: words 7 to 12 of a state.
pub fn reason(why: &Invalidation) -> [u64; 6] {
    let [good, offending, reason, detail] = invalidation(why);
    let [first, second] = match reason {
        20 => [good.wrapping_add(1), offending],
        21 => [good, offending],
        _ => [0; 2],
    };
    [good, offending, reason, first, second, detail]
}

/// Words 6 to 12 of a state.
fn status(state: &State) -> [u64; 7] {
    match state.status {
        Status::NoSnapshot => [0; 7],
        Status::Valid => [1, state.last_sequence, 0, 0, 0, 0, 0],
        Status::Invalid(why) => {
            let [good, offending, reason, first, second, detail] = reason(&why);
            [2, good, offending, reason, first, second, detail]
        }
    }
}

/// A record, its elapsed time, and how many messages it accepted.
pub fn shown(segment: &Segment) -> Vec<u64> {
    let elapsed = segment.last_us.saturating_sub(segment.first_us);
    let accepted = segment.last_good_seq.saturating_sub(segment.start_seq);
    [&record(segment)[..], &[elapsed, accepted]].concat()
}

/// Words 0 to 5 of a state: what a creation sets.
pub fn created(product: &Product, rules: &Rules, number: u64) -> [u64; STATUS] {
    let [high, low] = id(u128::from_be_bytes(*product));
    let decrease = u64::from(rules.size_decrease == SizeDecrease::PriorityUnknown);
    [
        high,
        low,
        decrease,
        rules.max_orders,
        rules.max_levels,
        number,
    ]
}

pub fn block(product: &Product, rules: &Rules, number: u64, state: &State) -> [u64; BLOCK] {
    let words: Vec<u64> = created(product, rules, number)
        .into_iter()
        .chain(status(state))
        .chain([state.rows, state.segments])
        .chain(state.counts.array())
        .collect();
    words.try_into().expect("27 words")
}

pub fn handshake(value: &Handshake) -> [u64; 4] {
    let name = value.segment;
    let ended = u64::from(value.ended);
    [name.number, name.place, ended, value.applied]
}

pub fn estimate(value: &Estimate) -> [u64; 8] {
    let [kind, first, second, third] = match value.anchor {
        Anchor::Hypothetical { orders, created_at } => [0, orders, created_at, 0],
        Anchor::Own {
            order_id,
            entered_at,
        } => {
            let [high, low] = id(order_id);
            [1, high, low, entered_at]
        }
    };
    let (side, price, name) = (side(value.side), value.price as u64, value.segment);
    [
        side,
        price,
        name.number,
        name.place,
        kind,
        first,
        second,
        third,
    ]
}
