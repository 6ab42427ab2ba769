//! Nanoseconds a piece: the port's reader and the decoder, on the same pieces, in one run.

use std::hint::black_box;

use super::best;
use crate::piece::{
    ChangeReason, DoneReason, Event, Message, Side, Snapshot, SnapshotOrder, decode_message,
    decode_snapshot, encode_message, encode_snapshot,
};
use crate::port;

fn row(name: &str, ours: f64, rust: f64) {
    println!("|{name}|{ours:.1}|{rust:.1}|{:.2}|", ours / rust);
}

fn events() -> [(&'static str, Event); 6] {
    let (order_id, side) = (0x0123_4567_89AB_CDEF_FEDC_BA98_7654_3210, Side::Sell);
    let some = Some(1_000);
    [
        ("received", Event::Received { order_id, side }),
        (
            "open",
            Event::Open {
                order_id,
                side,
                price: 1_000,
                remaining: 5,
            },
        ),
        (
            "done",
            Event::Done {
                order_id,
                side,
                price: some,
                reason: DoneReason::Canceled,
                remaining: some,
            },
        ),
        (
            "match",
            Event::Match {
                maker_id: order_id,
                taker_id: !order_id,
                side,
                price: 1_000,
                size: 5,
            },
        ),
        (
            "change",
            Event::Change {
                order_id,
                side,
                reason: ChangeReason::Stp,
                price: some,
                old_size: some,
                new_size: some,
                old_price: None,
                new_price: None,
                new_funds: None,
            },
        ),
        ("unsupported", Event::Unsupported { kind: 7 }),
    ]
}

fn messages() {
    for (name, event) in events() {
        let piece = encode_message(&Message {
            product: *b"BTC-USD\0\0\0\0\0\0\0\0\0",
            sequence: 101,
            time_us: 1_700_000_000_123_456,
            event,
        });
        let mut out = [0; port::MESSAGE_WORDS];
        let ours = best(1_000_000, || {
            black_box(port::read_message(black_box(&piece), &mut out));
            black_box(&out);
        });
        let rust = best(1_000_000, || {
            let _ = black_box(decode_message(black_box(&piece)));
        });
        row(name, ours, rust);
    }
}

/// Header and every order, as a snapshot is loaded: the decoder fills two vectors, the port reads order by order.
fn snapshots() {
    for orders in [0_u32, 10, 100, 512, 4_096] {
        let all: Vec<SnapshotOrder> = (0..orders)
            .map(|i| SnapshotOrder {
                id: u128::from(i),
                price: 1_000 + i64::from(i),
                size: 5,
            })
            .collect();
        let (bids, asks) = all.split_at(all.len() / 2);
        let piece = encode_snapshot(&Snapshot {
            product: *b"BTC-USD\0\0\0\0\0\0\0\0\0",
            sequence: 100,
            bids: bids.to_vec(),
            asks: asks.to_vec(),
        });
        let calls = 2_000_000 / (orders as usize + 10);
        let (mut header, mut order) = ([0; port::SNAPSHOT_WORDS], [0; port::ORDER_WORDS]);
        let ours = best(calls, || {
            black_box(port::read_snapshot(black_box(&piece), &mut header));
            for place in 0..orders as usize {
                port::snapshot_order(&piece, place, &mut order);
                black_box(&order);
            }
        });
        let rust = best(calls, || {
            let _ = black_box(decode_snapshot(black_box(&piece)));
        });
        row(&format!("snapshot of {orders} orders"), ours, rust);
    }
    lying_count();
}

/// A snapshot whose counts claim 2^33 - 2 orders: the refusal takes no longer for it.
fn lying_count() {
    let mut piece = encode_snapshot(&Snapshot {
        product: [0; 16],
        sequence: 100,
        bids: vec![],
        asks: vec![],
    });
    piece[33..41].fill(0xFF);
    let mut header = [0; port::SNAPSHOT_WORDS];
    let ours = best(1_000_000, || {
        black_box(port::read_snapshot(black_box(&piece), &mut header));
    });
    let rust = best(1_000_000, || {
        let _ = black_box(decode_snapshot(black_box(&piece)));
    });
    row("snapshot with lying counts", ours, rust);
}

pub fn run() {
    println!("|piece|ours, ns|decoder, ns|ratio|");
    println!("|-|-|-|-|");
    messages();
    snapshots();
}
