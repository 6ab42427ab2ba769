//! What the library reads from a piece is what the value's words say.

use super::*;
use crate::l3::words::message_words;
use crate::sys::{self, MESSAGE_WORDS, SNAPSHOT_WORDS};

const A: &str = "aaaaaaaa-0000-4000-8000-000000000001";
const B: &str = "bbbbbbbb-0000-4000-8000-000000000002";
const PRODUCT: [u64; 2] = [0x4254_432d_5553_4400, 7];

fn amount(units: i64) -> Decimal {
    Decimal::new(units, 8)
}

/// Whether the bit of an optional amount is set.
fn given(presence: u32, place: u32, units: i64) -> Option<Decimal> {
    (presence >> place & 1 == 1).then(|| amount(units))
}

fn plain_events(side: L3Side) -> [L3Event; 4] {
    let (a, b) = (A.to_string(), B.to_string());
    [
        L3Event::Received {
            order_id: a.clone(),
            side,
        },
        L3Event::Open {
            order_id: b.clone(),
            side,
            price: amount(10),
            remaining: amount(-2),
        },
        L3Event::Match {
            maker_id: a,
            taker_id: b,
            side,
            price: amount(1_000_000_000_000_000),
            size: amount(3),
        },
        L3Event::Unsupported {
            kind: "auction".to_string(),
        },
    ]
}

/// A done and a change with the optional amounts that the bits name.
fn events_with_options(side: L3Side, presence: u32) -> [L3Event; 4] {
    let done = |reason| L3Event::Done {
        order_id: A.to_string(),
        side,
        price: given(presence, 0, 11),
        reason,
        remaining: given(presence, 1, 12),
    };
    let change = |reason| L3Event::Change {
        order_id: B.to_string(),
        side,
        reason,
        price: given(presence, 0, 21),
        old_size: given(presence, 1, 22),
        new_size: given(presence, 2, 23),
        old_price: given(presence, 3, 24),
        new_price: given(presence, 4, 25),
        new_funds: given(presence, 5, -26),
    };
    [
        done(DoneReason::Filled),
        done(DoneReason::Canceled),
        change(ChangeReason::Stp),
        change(ChangeReason::ModifyOrder),
    ]
}

fn read_back(event: L3Event) {
    let message = L3Message {
        product_id: "BTC-USD".to_string(),
        sequence: 0x0102_0304_0506_0708,
        time_us: 0x1112_1314_1516_1718,
        event,
    };
    let piece = message_piece(PRODUCT, &message).expect("a piece");
    let mut words = [0; MESSAGE_WORDS];
    assert_eq!(sys::read_message(&piece, &mut words), 0, "{message:?}");
    let expected = message_words(PRODUCT, &message).expect("words");
    assert_eq!(words, expected, "{message:?}");
}

#[test]
fn messages_read_back() {
    for side in [L3Side::Buy, L3Side::Sell] {
        plain_events(side).into_iter().for_each(read_back);
        for presence in 0..64 {
            let events = events_with_options(side, presence);
            events.into_iter().for_each(read_back);
        }
    }
}

#[test]
fn a_snapshot_reads_back() {
    let order = |id: &str, price, size| SnapshotOrder {
        order_id: id.to_string(),
        price: amount(price),
        size: amount(size),
    };
    let snapshot = L3Snapshot {
        product_id: "BTC-USD".to_string(),
        sequence: 100,
        bids: vec![order(A, 10, 2)],
        asks: vec![order(B, 12, -3)],
    };
    let piece = snapshot_piece(PRODUCT, &snapshot).expect("a piece");
    let mut words = [0; SNAPSHOT_WORDS];
    assert_eq!(sys::read_snapshot(&piece, &mut words), 0);
    assert_eq!(words, [PRODUCT[0], PRODUCT[1], 100, 1, 1]);
    let mut order = [0; 4];
    assert_eq!(sys::snapshot_order(&piece, 1, &mut order), 0);
    let b = [0xbbbb_bbbb_0000_4000, 0x8000_0000_0000_0002];
    assert_eq!(order, [b[0], b[1], 12, (-3_i64).cast_unsigned()]);
}

#[test]
fn an_id_that_is_no_uuid_has_no_piece() {
    let message = L3Message {
        product_id: "BTC-USD".to_string(),
        sequence: 1,
        time_us: 2,
        event: L3Event::Received {
            order_id: "A".to_string(),
            side: L3Side::Buy,
        },
    };
    assert_eq!(message_piece(PRODUCT, &message), None);
}
