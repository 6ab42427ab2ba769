//! Number 3's part on the rows, which every call that is lent them pays.

use std::collections::{HashMap, HashSet};
use std::hint::black_box;

use super::{best, books};
use crate::generate::random::Random;
use crate::l3::reconstructor::BookReconstructor;
use crate::piece::{Snapshot, SnapshotOrder};
use crate::port;
use crate::rows::sound;
use crate::rust::convert;

/// Resting orders.
const SIZES: [usize; 4] = [10, 100, 512, 4_096];
const WORDS: usize = 8;
const LIMIT: u64 = 1_000_000_000_000_000;

/// The same validation as a Rust host would write it.
fn validate(words: &[u64], max_levels: usize) -> bool {
    let mut ids = HashSet::with_capacity(words.len() / WORDS);
    let mut levels: HashMap<(u64, u64), u64> = HashMap::new();
    let (mut bid, mut ask) = (0, u64::MAX);
    for row in words.chunks_exact(WORDS) {
        let &[high, low, price, remaining, kind, _, flag, at] = row else {
            unreachable!("eight words")
        };
        let amounts = (1..=LIMIT).contains(&price) && (1..=LIMIT).contains(&remaining);
        if kind > 3 || !amounts || flag > 1 || (flag == 0 && at != 0) || !ids.insert((high, low)) {
            return false;
        }
        *levels.entry((kind % 2, price)).or_default() += remaining;
        if kind % 2 == 0 {
            bid = bid.max(price);
        } else {
            ask = ask.min(price);
        }
    }
    levels.len() <= max_levels && bid < ask
}

/// The Rust's own book of the same orders.
fn theirs(words: &[u64]) -> BookReconstructor {
    let order = |row: &[u64]| SnapshotOrder {
        id: u128::from(row[0]) << 64 | u128::from(row[1]),
        price: row[2] as i64,
        size: row[3] as i64,
    };
    let side = |kind: u64| {
        let rows = words.chunks_exact(WORDS);
        rows.filter(|r| r[4] % 2 == kind).map(order).collect()
    };
    let (bids, asks) = (side(0), side(1));
    let snapshot = Snapshot {
        product: books::PRODUCT,
        sequence: 1,
        bids,
        asks,
    };
    books::loaded(&convert::snapshot(&snapshot))
}

/// Ids that all fall into one bucket of the port's tables: the halves of their words have one sum.
fn one_bucket(words: &mut [u64]) {
    for (place, row) in words.chunks_exact_mut(WORDS).enumerate() {
        let k = place as u64;
        (row[0], row[1]) = (0, k << 32 | (1_000_000 - k));
    }
}

pub fn run() {
    println!(
        "|rows|prices a side|ours, ns|one pass, ns|ratio|maps, ns|ratio|audit(), ns|ratio|levels counted, ns|ratio|one bucket, ns|"
    );
    println!("|-|-|-|-|-|-|-|-|-|-|-|-|");
    for rows in SIZES {
        for levels in [(rows as f64).sqrt() as u64, rows as u64] {
            row(rows, levels);
        }
    }
}

fn row(rows: usize, levels: u64) {
    let mut words = sound(&mut Random::new(7), rows, levels);
    let calls = 400_000 / (rows + 10);
    let book = theirs(&words);
    let ours = best(calls, || {
        assert!(!port::rows_broken(black_box(&words), rows, 4_096));
    });
    let pass = best(calls, || {
        black_box(
            black_box(&words[..])
                .iter()
                .fold(0_u64, |s, w| s.wrapping_add(*w)),
        );
    });
    let maps = best(calls, || {
        assert!(validate(black_box(&words), 4_096));
    });
    let audit = best(calls, || {
        assert!(black_box(&book).audit().is_ok());
    });
    // A limit below the rows: the levels have to be counted too.
    let counted = best(calls, || {
        black_box(port::rows_broken(black_box(&words), rows, rows - 1));
    });
    one_bucket(&mut words);
    let bucket = best(calls / 20 + 1, || {
        assert!(!port::rows_broken(black_box(&words), rows, 4_096));
    });
    println!(
        "|{rows}|{levels}|{ours:.0}|{pass:.0}|{:.1}|{maps:.0}|{:.2}|{audit:.0}|{:.2}|{counted:.0}|{:.1}|{bucket:.0}|",
        ours / pass,
        ours / maps,
        ours / audit,
        counted / pass
    );
}
