//! Nanoseconds a snapshot, loaded into a book without one: the port's `bootstrap` and the Rust's. Ours reads the piece too, theirs takes the
//! value that was made of it.

use std::hint::black_box;

use super::books::{self, Ours};
use super::{round, round_on};
use crate::piece::{Snapshot, encode_snapshot};
use crate::rust::convert;

/// Ours, on the same memory each time.
fn ours(snapshot: &Snapshot, number: u64) -> f64 {
    let piece = encode_snapshot(snapshot);
    let mut book = Ours::fresh();
    let fresh = book.block;
    round(|| {
        book.block = fresh;
        assert_eq!(black_box(&mut book).bootstrap(&piece), number);
    })
}

/// Theirs, on as many new books at a time as have 4,096 orders.
fn theirs(snapshot: &Snapshot, number: u64) -> f64 {
    // Once a block of this size was freed, the allocator keeps what the dropped books give back: theirs pays for no new pages.
    drop(black_box(vec![0_u8; 16 << 20]));
    let books = 4_096 / (snapshot.bids.len() + snapshot.asks.len());
    let snapshot = convert::snapshot(snapshot);
    let fresh = || -> Vec<_> { (0..books).map(|_| books::theirs()).collect() };
    let all = round_on(fresh, |made| {
        for book in made {
            let answer = book.bootstrap(&snapshot);
            let said = answer.map_or_else(|error| convert::snapshot_error(&error), |()| 0);
            assert_eq!(u64::from(said), number);
        }
    });
    all / books as f64
}

/// Ours and theirs on a sound snapshot.
pub fn accepted(snapshot: &Snapshot) -> [f64; 2] {
    [ours(snapshot, 0), theirs(snapshot, 0)]
}

/// On one whose last order has the first one's id.
pub fn refused(snapshot: &Snapshot) -> [f64; 2] {
    let mut snapshot = snapshot.clone();
    let first = snapshot.bids[0].id;
    snapshot.asks.last_mut().expect("an ask").id = first;
    [ours(&snapshot, 11), theirs(&snapshot, 11)]
}
