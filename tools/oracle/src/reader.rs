//! The port's piece reader beside the independent decoder, on random pieces: whole ones, damaged ones and plain noise.
//!
//! Compared are the number, every word written, and every word that must stay: outputs one short, exact and longer, with guard words behind.

use crate::generate::random::Random;
use crate::piece::{
    AMOUNT_LIMIT, ChangeReason, DoneReason, Event, Id, Message, Product, Side, Snapshot,
    SnapshotOrder, decode_message, decode_snapshot, encode_message, encode_snapshot,
};
use crate::port;

/// What a run met: how often each number was answered, by messages and by snapshots.
#[derive(Debug, Default)]
pub struct Tally {
    pub pieces: u64,
    pub messages: [u64; 8],
    pub snapshots: [u64; 8],
    pub orders: u64,
}

/// Stands in every output word before a call, so that a word not written is seen.
const GUARD: u64 = 0xA5A5_5A5A_DEAD_BEEF;

fn amount(random: &mut Random) -> i64 {
    match random.below(6) {
        0 => random.pick(&[AMOUNT_LIMIT, -AMOUNT_LIMIT, 0, 1, -1]),
        1 if random.chance(20) => {
            random.pick(&[AMOUNT_LIMIT + 1, -AMOUNT_LIMIT - 1, i64::MAX, i64::MIN])
        }
        _ => random.below(2 * AMOUNT_LIMIT as u64 + 1) as i64 - AMOUNT_LIMIT,
    }
}

fn optional(random: &mut Random) -> Option<i64> {
    random.chance(60).then(|| amount(random))
}

fn wide(random: &mut Random) -> u128 {
    u128::from(random.word()) << 64 | u128::from(random.word())
}

fn side(random: &mut Random) -> Side {
    random.pick(&[Side::Buy, Side::Sell])
}

fn event(random: &mut Random) -> Event {
    let (order_id, side): (Id, Side) = (wide(random), side(random));
    match random.below(6) {
        0 => Event::Received { order_id, side },
        1 => Event::Open {
            order_id,
            side,
            price: amount(random),
            remaining: amount(random),
        },
        2 => Event::Done {
            order_id,
            side,
            price: optional(random),
            reason: random.pick(&[DoneReason::Filled, DoneReason::Canceled]),
            remaining: optional(random),
        },
        3 => Event::Match {
            maker_id: order_id,
            taker_id: wide(random),
            side,
            price: amount(random),
            size: amount(random),
        },
        4 => Event::Change {
            order_id,
            side,
            reason: random.pick(&[ChangeReason::Stp, ChangeReason::ModifyOrder]),
            price: optional(random),
            old_size: optional(random),
            new_size: optional(random),
            old_price: optional(random),
            new_price: optional(random),
            new_funds: optional(random),
        },
        _ => Event::Unsupported {
            kind: random.word() as u32,
        },
    }
}

fn product(random: &mut Random) -> Product {
    wide(random).to_be_bytes()
}

fn orders(random: &mut Random) -> Vec<SnapshotOrder> {
    (0..random.below(6))
        .map(|_| SnapshotOrder {
            id: wide(random),
            price: amount(random),
            size: amount(random),
        })
        .collect()
}

fn whole(random: &mut Random) -> Vec<u8> {
    if random.chance(80) {
        encode_message(&Message {
            product: product(random),
            sequence: random.word(),
            time_us: random.word(),
            event: event(random),
        })
    } else {
        encode_snapshot(&Snapshot {
            product: product(random),
            sequence: random.word(),
            bids: orders(random),
            asks: orders(random),
        })
    }
}

/// A piece, damaged in about half of the cases.
fn piece(random: &mut Random) -> Vec<u8> {
    let mut bytes = whole(random);
    match random.below(10) {
        0 => bytes.truncate(random.below(bytes.len() as u64 + 1) as usize),
        1 => bytes.extend((0..random.below(40)).map(|_| 0)),
        2 => bytes[0] = random.below(9) as u8,
        3 | 4 => {
            let at = random.below(bytes.len() as u64) as usize;
            bytes[at] ^= 1 << random.below(8);
        }
        5 if random.chance(20) => {
            bytes = (0..random.below(120))
                .map(|_| random.word() as u8)
                .collect();
        }
        _ => {}
    }
    bytes
}

fn id_words(id: Id) -> [u64; 2] {
    [(id >> 64) as u64, id as u64]
}

fn optional_words(amount: Option<i64>) -> [u64; 2] {
    amount.map_or([0, 0], |a| [1, a as u64])
}

fn side_word(side: Side) -> u64 {
    match side {
        Side::Buy => 0,
        Side::Sell => 1,
    }
}

/// The fields of an event in order, as crate `host_words` says that they are written.
fn event_words(event: &Event) -> Vec<u64> {
    match *event {
        Event::Received { order_id, side } => {
            [&id_words(order_id)[..], &[side_word(side)]].concat()
        }
        Event::Open {
            order_id,
            side,
            price,
            remaining,
        } => [
            &id_words(order_id)[..],
            &[side_word(side), price as u64, remaining as u64],
        ]
        .concat(),
        Event::Done {
            order_id,
            side,
            price,
            reason,
            remaining,
        } => [
            &id_words(order_id)[..],
            &[side_word(side)],
            &optional_words(price),
            &[u64::from(reason == DoneReason::Canceled)],
            &optional_words(remaining),
        ]
        .concat(),
        Event::Match {
            maker_id,
            taker_id,
            side,
            price,
            size,
        } => [
            &id_words(maker_id)[..],
            &id_words(taker_id),
            &[side_word(side), price as u64, size as u64],
        ]
        .concat(),
        Event::Change { .. } => change_words(event),
        Event::Unsupported { kind } => vec![u64::from(kind)],
    }
}

fn change_words(event: &Event) -> Vec<u64> {
    let &Event::Change {
        order_id,
        side,
        reason,
        price,
        old_size,
        new_size,
        old_price,
        new_price,
        new_funds,
    } = event
    else {
        unreachable!("called with a change")
    };
    let mut words = id_words(order_id).to_vec();
    words.extend([
        side_word(side),
        u64::from(reason == ChangeReason::ModifyOrder),
    ]);
    for amount in [price, old_size, new_size, old_price, new_price, new_funds] {
        words.extend(optional_words(amount));
    }
    words
}

/// A message as crate `host` hands its fields over.
pub fn message_words(message: &Message) -> Vec<u64> {
    let [high, low] = id_words(u128::from_be_bytes(message.product));
    let kind = u64::from(message.event.kind());
    let mut words = vec![kind, high, low, message.sequence, message.time_us];
    words.extend(event_words(&message.event));
    words.resize(port::MESSAGE_WORDS, 0);
    words
}

/// Number and output that a reader owes: `words` ahead of what stood there, unless refused, and 7 where they have no room.
fn owed(found: Result<Vec<u64>, u8>, room: usize) -> (u64, Vec<u64>) {
    let mut out = vec![GUARD; room];
    match found {
        Ok(words) if words.len() <= room => {
            out[..words.len()].copy_from_slice(&words);
            (0, out)
        }
        Ok(_) => (7, out),
        Err(number) => (u64::from(number), out),
    }
}

/// Calls a reader with `room` words of a longer buffer and compares with what is owed.
fn hold(
    what: &str,
    bytes: &[u8],
    found: Result<Vec<u64>, u8>,
    room: usize,
    reader: impl Fn(&[u8], &mut [u64]) -> u64,
) -> Result<u64, String> {
    let (number, words) = owed(found, room);
    let mut out = vec![GUARD; room + 4];
    let got = reader(bytes, &mut out[..room]);
    if got != number || out[..room] != words || out[room..] != [GUARD; 4] {
        return Err(format!(
            "{what} of {bytes:02x?} with {room} words: {got} {out:x?}, but owed {number} {words:x?}"
        ));
    }
    Ok(number)
}

/// A room for `words` words: mostly enough, else around the bound.
fn room(random: &mut Random, words: usize) -> usize {
    match random.below(8) {
        0 => random.below(words as u64) as usize,
        1 => words - 1,
        2 => words + random.below(4) as usize,
        _ => words,
    }
}

fn hold_orders(
    random: &mut Random,
    bytes: &[u8],
    snapshot: &Snapshot,
    tally: &mut Tally,
) -> Result<(), String> {
    let orders = snapshot.bids.iter().chain(&snapshot.asks);
    for (place, order) in orders.enumerate() {
        let [high, low] = id_words(order.id);
        let words = vec![high, low, order.price as u64, order.size as u64];
        let room = room(random, port::ORDER_WORDS);
        hold("an order", bytes, Ok(words), room, |b, out| {
            port::snapshot_order(b, place, out)
        })?;
        tally.orders += 1;
    }
    Ok(())
}

/// Past the last order, and at any place of bytes that are no snapshot, whole orders that the bytes do not reach are zeros.
fn hold_past(random: &mut Random, bytes: &[u8]) -> Result<(), String> {
    let reached = bytes.len().saturating_sub(41) / 32;
    let place = match random.below(3) {
        0 => reached,
        1 => reached + random.below(1 << 20) as usize,
        _ => usize::MAX - random.below(4) as usize,
    };
    let zeros = vec![0; port::ORDER_WORDS];
    hold("no order", bytes, Ok(zeros), port::ORDER_WORDS, |b, out| {
        port::snapshot_order(b, place, out)
    })
    .map(|_| ())
}

/// Runs `count` pieces through both readers of the port and of the decoder.
pub fn compare(seed: u64, count: u64) -> Result<Tally, String> {
    let mut random = Random::new(seed);
    let mut tally = Tally::default();
    for _ in 0..count {
        let bytes = piece(&mut random);
        let message = decode_message(&bytes).map(|m| message_words(&m));
        let space = room(&mut random, port::MESSAGE_WORDS);
        let number = hold("a message", &bytes, message, space, port::read_message)?;
        tally.messages[number as usize] += 1;

        let snapshot = decode_snapshot(&bytes);
        let header = snapshot.as_ref().map_err(|&n| n).map(|v| {
            let [high, low] = id_words(u128::from_be_bytes(v.product));
            let (bids, asks) = (v.bids.len() as u64, v.asks.len() as u64);
            vec![high, low, v.sequence, bids, asks]
        });
        let space = room(&mut random, port::SNAPSHOT_WORDS);
        let number = hold("a snapshot", &bytes, header, space, port::read_snapshot)?;
        tally.snapshots[number as usize] += 1;
        if let Ok(v) = &snapshot {
            hold_orders(&mut random, &bytes, v, &mut tally)?;
        }
        hold_past(&mut random, &bytes)?;
        tally.pieces += 1;
    }
    Ok(tally)
}
