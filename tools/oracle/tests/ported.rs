//! Every call of the port beside the Rust and the model, trials with something amiss, and each run of messages in one call beside single ones.
//! Built with the feature `port` only; SEED, STREAMS and CALLS give another run.
//!
//! A call costs as much as its book is large, and a stream's books grow. So most calls are made in short streams, and one long
//! stream fills a book to the ceiling.
#![cfg(feature = "port")]

use oracle::call::CEILING;
use oracle::ported::{Tally, compare};

/// Calls of a short stream.
const SHORT: u64 = 4_000;

fn setting(name: &str, default: u64) -> u64 {
    std::env::var(name).map_or(default, |v| v.parse().expect("a number"))
}

fn agree(seed: u64, calls: u64) -> Tally {
    compare(seed, calls).unwrap_or_else(|difference| panic!("{difference}"))
}

/// The numbers that 01 gives each call: of `apply` 16 with each of its reasons, and 4 by the reader.
const NUMBERS: &[(&str, &[u8])] = &[
    ("bootstrap", &[0, 1, 2, 3, 4, 5, 6, 10, 11, 12, 13, 14]),
    ("apply", &[0, 1, 2, 3, 4, 5, 10, 15, 17, 20, 21, 22]),
    (
        "apply",
        &[30, 31, 32, 33, 34, 35, 36, 37, 38, 39, 40, 41, 42, 43, 44],
    ),
    ("handshake", &[0]),
    ("step", &[0, 1, 2, 3, 4, 5, 9, 10, 17, 20, 21, 22]),
    (
        "step",
        &[30, 31, 32, 33, 34, 35, 36, 37, 38, 39, 40, 41, 42, 43, 44],
    ),
    (
        "bootstrap_with_buffer",
        &[0, 1, 2, 3, 4, 5, 6, 10, 11, 12, 13, 14, 20, 21, 22],
    ),
    (
        "bootstrap_with_buffer",
        &[30, 31, 32, 33, 34, 35, 36, 37, 38, 39, 40, 41, 42, 43, 44],
    ),
    ("read_message", &[0, 4, 5]),
    ("read_snapshot", &[0, 4, 5]),
    ("last_sequence", &[0, 1, 2, 3, 15, 18]),
    ("best", &[0, 1, 2, 3, 15, 18]),
    ("audit", &[0, 1, 2, 3, 15, 18]),
    ("level_queue", &[0, 1, 2, 3, 7, 15, 18]),
    ("priority_profile", &[0, 1, 2, 3, 7, 15, 18]),
    ("l2", &[0, 1, 2, 3, 7, 15, 18]),
    ("stale_l2", &[0, 1, 2, 3, 7]),
    ("queue_estimate", &[0, 1, 2, 3, 7, 15, 18]),
    ("queue_estimate_own", &[0, 1, 2, 3, 15, 18, 51, 52]),
    ("volume_ahead", &[0, 1, 2, 3, 8, 15, 18, 50, 51, 52]),
];

fn reaches_every_number(tally: &Tally) {
    for &(name, numbers) in NUMBERS {
        for &number in numbers {
            assert!(tally.times(name, number) > 0, "{name} says {number}");
        }
    }
}

fn applies_messages(tally: &Tally) {
    let applied = tally.times("apply", 0);
    assert!(applied > tally.calls / 4, "messages are applied");
}

/// A book was filled to the ceiling, and one by messages alone but for the few orders of its snapshot.
fn fills_a_book(tally: &Tally) {
    assert_eq!(tally.most_rows, CEILING, "a book has 4,096 rows");
    assert!(tally.most_grown > CEILING - 100, "messages fill a book");
}

/// Runs of a hundred messages and more went through one call.
fn met_long_runs(tally: &Tally) {
    let long = tally.cases.times("apply_all", "long run");
    assert!(long > 0, "no long run was met");
}

#[test]
fn short_streams_agree() {
    let (seed, streams) = (setting("SEED", 51), setting("STREAMS", 225));
    let mut all = Tally::default();
    for seed in seed..seed + streams {
        all.add(&agree(seed, SHORT));
    }
    println!("{streams} streams from seed {seed} on: {all:?}");
    applies_messages(&all);
    reaches_every_number(&all);
    let missing = all.cases.missing();
    assert!(missing.is_empty(), "never met: {missing:?}");
}

#[test]
fn a_long_stream_agrees() {
    let (seed, calls) = (setting("SEED", 51), setting("CALLS", 100_000));
    let tally = agree(seed, calls);
    println!("seed {seed}: {tally:?}");
    applies_messages(&tally);
    fills_a_book(&tally);
    met_long_runs(&tally);
}
