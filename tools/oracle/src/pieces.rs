//! The recorded pieces for the program crate: what is read, and what each reader should say.

use std::fs;
use std::io;
use std::path::Path;

use crate::lines::Line;
use crate::piece::{
    AMOUNT_LIMIT, ChangeReason, DoneReason, Event, Message, Side, Snapshot, SnapshotOrder,
    decode_message, decode_snapshot, encode_message, encode_snapshot,
};

const PRODUCT: [u8; 16] = *b"BTC-USD\0\0\0\0\0\0\0\0\0";
const ID: u128 = 0x0123_4567_89AB_CDEF_FEDC_BA98_7654_3210;
const TAKER: u128 = 0xF0E0_D0C0_B0A0_9080_7060_5040_3020_1000;
/// Amounts at and one past every bound.
const AMOUNTS: [i64; 9] = [
    AMOUNT_LIMIT,
    -AMOUNT_LIMIT,
    AMOUNT_LIMIT + 1,
    -AMOUNT_LIMIT - 1,
    0,
    -1,
    1,
    i64::MAX,
    i64::MIN,
];

fn message(event: Event) -> Vec<u8> {
    encode_message(&Message {
        product: PRODUCT,
        sequence: 0x1122_3344_5566_7788,
        time_us: 1_700_000_000_123_456,
        event,
    })
}

fn received(side: Side) -> Vec<u8> {
    message(Event::Received { order_id: ID, side })
}

fn open(price: i64, remaining: i64) -> Vec<u8> {
    message(Event::Open {
        order_id: ID,
        side: Side::Sell,
        price,
        remaining,
    })
}

fn done(reason: DoneReason, price: Option<i64>, remaining: Option<i64>) -> Vec<u8> {
    message(Event::Done {
        order_id: ID,
        side: Side::Buy,
        price,
        reason,
        remaining,
    })
}

fn matched(price: i64, size: i64) -> Vec<u8> {
    message(Event::Match {
        maker_id: ID,
        taker_id: TAKER,
        side: Side::Buy,
        price,
        size,
    })
}

fn change(reason: ChangeReason, amounts: [Option<i64>; 6]) -> Vec<u8> {
    let [price, old_size, new_size, old_price, new_price, new_funds] = amounts;
    message(Event::Change {
        order_id: ID,
        side: Side::Sell,
        reason,
        price,
        old_size,
        new_size,
        old_price,
        new_price,
        new_funds,
    })
}

fn snapshot(orders: &[(i64, i64)]) -> Vec<u8> {
    let order = |(at, &(price, size)): (usize, &(i64, i64))| SnapshotOrder {
        id: ID + at as u128,
        price,
        size,
    };
    let all: Vec<SnapshotOrder> = orders.iter().enumerate().map(order).collect();
    let (bids, asks) = all.split_at(all.len().div_ceil(2));
    encode_snapshot(&Snapshot {
        product: PRODUCT,
        sequence: 0x8877_6655_4433_2211,
        bids: bids.to_vec(),
        asks: asks.to_vec(),
    })
}

/// The optional amounts of `bits`, each different.
fn present<const N: usize>(bits: u8) -> [Option<i64>; N] {
    std::array::from_fn(|at| (bits >> at & 1 != 0).then_some(1_000 + at as i64))
}

/// One piece of each kind, and the snapshots of 0, 1 and 3 orders.
fn samples() -> Vec<Vec<u8>> {
    vec![
        received(Side::Buy),
        open(12, 3),
        done(DoneReason::Canceled, Some(10), Some(2)),
        done(DoneReason::Filled, None, None),
        matched(10, 1),
        change(ChangeReason::Stp, present(0b00_0110)),
        change(ChangeReason::ModifyOrder, present(0b11_1111)),
        message(Event::Unsupported { kind: 0xFEDC_BA98 }),
        snapshot(&[]),
        snapshot(&[(10, 2)]),
        snapshot(&[(10, 2), (9, 1), (12, 3)]),
    ]
}

/// Each length one short and one long, cut to the header and to nothing.
fn lengths(pieces: &mut Vec<Vec<u8>>) {
    pieces.push(Vec::new());
    for piece in samples() {
        for length in [piece.len() - 1, 33, 32, 1] {
            pieces.push(piece[..length].to_vec());
        }
        let mut longer = piece;
        longer.push(0);
        pieces.push(longer);
    }
}

/// Every presence byte, and absent amounts with each byte set.
fn presence(pieces: &mut Vec<Vec<u8>>) {
    for reason in [DoneReason::Filled, DoneReason::Canceled] {
        for bits in 0..4 {
            let [price, remaining] = present(bits);
            pieces.push(done(reason, price, remaining));
        }
    }
    for bits in 0..64 {
        let reason = if bits & 1 == 0 {
            ChangeReason::Stp
        } else {
            ChangeReason::ModifyOrder
        };
        pieces.push(change(reason, present(bits)));
    }
    let empty_done = done(DoneReason::Canceled, None, None);
    let empty_change = change(ChangeReason::Stp, [None; 6]);
    for (piece, at, used, amounts) in [
        (&empty_done, 59, 2, vec![50, 60]),
        (&empty_change, 51, 6, (52..100).step_by(8).collect()),
    ] {
        for bit in used..8 {
            let mut piece = piece.clone();
            piece[at] |= 1 << bit;
            pieces.push(piece);
        }
        for byte in amounts
            .into_iter()
            .flat_map(|amount: usize| amount..amount + 8)
        {
            for value in [1, 0x80] {
                let mut piece = piece.clone();
                piece[byte] = value;
                pieces.push(piece);
            }
        }
    }
}

/// Every byte of one piece of each kind with all bits flipped, and with the lowest one.
fn damaged(pieces: &mut Vec<Vec<u8>>) {
    let full_change = change(ChangeReason::ModifyOrder, present(0b11_1111));
    for piece in samples() {
        if piece == full_change {
            // One change is enough to damage.
            continue;
        }
        for at in 0..piece.len() {
            for flip in [0xFF, 1] {
                let mut piece = piece.clone();
                piece[at] ^= flip;
                pieces.push(piece);
            }
        }
    }
}

/// Every amount field at and one past its bounds.
fn amounts(pieces: &mut Vec<Vec<u8>>) {
    for amount in AMOUNTS {
        pieces.push(open(amount, 3));
        pieces.push(open(12, amount));
        pieces.push(matched(amount, 1));
        pieces.push(matched(10, amount));
        pieces.push(done(DoneReason::Canceled, Some(amount), Some(2)));
        pieces.push(done(DoneReason::Canceled, None, Some(amount)));
        for field in 0..6 {
            let mut amounts = [None; 6];
            amounts[field] = Some(amount);
            pieces.push(change(ChangeReason::Stp, amounts));
        }
        for field in 0..3 {
            let mut orders = [(10, 2), (9, 1), (12, 3)];
            orders[field].0 = amount;
            pieces.push(snapshot(&orders));
            orders[field] = (10, amount);
            pieces.push(snapshot(&orders));
        }
    }
    // A shape at fault goes before an amount out of range.
    let mut piece = open(AMOUNT_LIMIT + 1, 3);
    piece[49] = 2;
    pieces.push(piece);
    let mut piece = snapshot(&[(AMOUNT_LIMIT + 1, 2)]);
    piece[25] = 1;
    pieces.push(piece);
}

/// Kinds that don't exist, at the lengths of kinds that do, and counts that lie.
fn kinds_and_counts(pieces: &mut Vec<Vec<u8>>) {
    for kind in 7..=255 {
        let mut piece = message(Event::Unsupported { kind: 7 });
        piece[0] = kind;
        pieces.push(piece);
    }
    for sample in samples() {
        for kind in 0..=6 {
            let mut piece = sample.clone();
            piece[0] = kind;
            pieces.push(piece);
        }
    }
    for kind in [0, 7, u32::MAX] {
        pieces.push(message(Event::Unsupported { kind }));
    }
    let sample = snapshot(&[(10, 2), (9, 1), (12, 3)]);
    let most = u32::MAX;
    for (bids, asks) in [
        (most, most),
        (most, 0),
        (0, most),
        (most, 1),
        (1, most),
        (most, 4),
        (4, most),
        (1 << 31, 1 << 31),
        ((1 << 31) + 3, 1 << 31),
        ((1 << 27) + 3, 0),
        (3, 0),
        (0, 3),
        (1, 2),
        (2, 2),
        (1, 1),
        (0, 0),
    ] {
        let mut piece = sample.clone();
        piece[33..37].copy_from_slice(&bids.to_le_bytes());
        piece[37..41].copy_from_slice(&asks.to_le_bytes());
        pieces.push(piece);
    }
}

/// All recorded pieces.
pub fn recorded() -> Vec<Vec<u8>> {
    let mut pieces = samples();
    pieces.push(received(Side::Sell));
    lengths(&mut pieces);
    presence(&mut pieces);
    damaged(&mut pieces);
    amounts(&mut pieces);
    kinds_and_counts(&mut pieces);
    pieces
}

/// What the two readers say of a piece: a line each.
pub fn said(piece: &[u8]) -> String {
    let mut line = Line::default();
    line.put("m");
    match decode_message(piece) {
        Ok(message) => line.put(0).message(&message),
        Err(number) => line.put(number),
    };
    let mut second = Line::default();
    second.put("s");
    match decode_snapshot(piece) {
        Ok(snapshot) => second.put(0).snapshot(&snapshot),
        Err(number) => second.put(number),
    };
    format!("{line}\n{second}\n")
}

/// Writes `stdin` and `stdout` into the folder.
pub fn write(folder: &Path) -> io::Result<()> {
    let (mut input, mut output) = (Vec::new(), String::new());
    for piece in recorded() {
        input.extend_from_slice(&(piece.len() as u32).to_le_bytes());
        input.extend_from_slice(&piece);
        output.push_str(&said(&piece));
    }
    fs::create_dir_all(folder)?;
    fs::write(folder.join("stdin"), input)?;
    fs::write(folder.join("stdout"), output)
}
