//! 01, "A piece": the reader, from bytes to a value. It says 4; `in_range` below is 5's test.

use super::slip::{Planted, Slip};
use crate::piece::{ChangeReason, DoneReason, Event, Message, Side, Snapshot, SnapshotOrder};

/// "bytes not a piece as above"
const NOT_A_PIECE: u8 = 4;

/// "An amount is .. from −10^15 to 10^15"
const AMOUNT_LIMIT: u64 = 1_000_000_000_000_000;

/// What is left to read of a piece.
struct Bytes<'a> {
    rest: &'a [u8],
    slip: Planted,
}

impl Bytes<'_> {
    fn take<const N: usize>(&mut self) -> Result<[u8; N], u8> {
        let (taken, rest) = self.rest.split_first_chunk::<N>().ok_or(NOT_A_PIECE)?;
        self.rest = rest;
        Ok(*taken)
    }

    /// "Integers are little-endian"
    fn word(&mut self) -> Result<u64, u8> {
        self.take().map(u64::from_le_bytes)
    }

    fn count(&mut self) -> Result<u32, u8> {
        self.take().map(u32::from_le_bytes)
    }

    /// "amounts two's complement"
    fn amount(&mut self) -> Result<i64, u8> {
        self.take().map(i64::from_le_bytes)
    }

    /// "ids 16 bytes in text order (id high is the first eight, big-endian)"
    fn id(&mut self) -> Result<u128, u8> {
        self.take().map(u128::from_be_bytes)
    }

    /// A byte that is 0 or 1.
    fn choice<T>(&mut self, zero: T, one: T) -> Result<T, u8> {
        match self.take()? {
            [0] => Ok(zero),
            [1] => Ok(one),
            _ => Err(NOT_A_PIECE),
        }
    }

    /// "Side byte: 0 buy, 1 sell"
    fn side(&mut self) -> Result<Side, u8> {
        self.choice(Side::Buy, Side::Sell)
    }

    /// "one presence byte, first optional field lowest bit, unused bits 0"
    fn presence(&mut self, fields: u32) -> Result<u8, u8> {
        let [bits] = self.take()?;
        let unused = bits >> fields != 0 && !self.slip.is(Slip::UnusedBitsTaken);
        if unused { Err(NOT_A_PIECE) } else { Ok(bits) }
    }

    /// "Absent amounts are eight zero bytes."
    fn if_present(&self, bits: u8, field: u32, amount: i64) -> Result<Option<i64>, u8> {
        if bits >> field & 1 == 1 {
            return Ok(Some(amount));
        }
        if amount == 0 || self.slip.is(Slip::AbsentAmountTaken) {
            Ok(None)
        } else {
            Err(NOT_A_PIECE)
        }
    }

    fn event(&mut self, kind: u8) -> Result<Event, u8> {
        Ok(match kind {
            1 => Event::Received {
                order_id: self.id()?,
                side: self.side()?,
            },
            2 => Event::Open {
                order_id: self.id()?,
                side: self.side()?,
                price: self.amount()?,
                remaining: self.amount()?,
            },
            3 => self.done()?,
            4 => Event::Match {
                maker_id: self.id()?,
                taker_id: self.id()?,
                side: self.side()?,
                price: self.amount()?,
                size: self.amount()?,
            },
            5 => self.change()?,
            6 => Event::Unsupported {
                kind: self.count()?,
            },
            _ => return Err(NOT_A_PIECE),
        })
    }

    /// The presence byte follows the reason, so it comes after the price that it governs.
    fn done(&mut self) -> Result<Event, u8> {
        let (order_id, side, price) = (self.id()?, self.side()?, self.amount()?);
        let reason = self.choice(DoneReason::Filled, DoneReason::Canceled)?;
        let bits = self.presence(2)?;
        let remaining = self.amount()?;
        Ok(Event::Done {
            order_id,
            side,
            price: self.if_present(bits, 0, price)?,
            reason,
            remaining: self.if_present(bits, 1, remaining)?,
        })
    }

    fn change(&mut self) -> Result<Event, u8> {
        let (order_id, side) = (self.id()?, self.side()?);
        let reason = self.choice(ChangeReason::Stp, ChangeReason::ModifyOrder)?;
        let bits = self.presence(6)?;
        let mut field = |place| {
            self.amount()
                .and_then(|amount| self.if_present(bits, place, amount))
        };
        Ok(Event::Change {
            order_id,
            side,
            reason,
            price: field(0)?,
            old_size: field(1)?,
            new_size: field(2)?,
            old_price: field(3)?,
            new_price: field(4)?,
            new_funds: field(5)?,
        })
    }

    fn orders(&mut self, count: u32) -> Result<Vec<SnapshotOrder>, u8> {
        (0..count)
            .map(|_| {
                Ok(SnapshotOrder {
                    id: self.id()?,
                    price: self.amount()?,
                    size: self.amount()?,
                })
            })
            .collect()
    }

    /// "Lengths: ..": no byte may follow.
    fn end(&self) -> Result<(), u8> {
        if self.rest.is_empty() {
            Ok(())
        } else {
            Err(NOT_A_PIECE)
        }
    }
}

/// "kind byte, product 16, sequence 8, time 8; then the Rust's fields in their order"; "for a message, kind 0" is 4.
pub fn message(slip: Planted, bytes: &[u8]) -> Result<Message, u8> {
    let mut piece = Bytes { rest: bytes, slip };
    let [kind] = piece.take()?;
    let (product, sequence, time_us) = (piece.take()?, piece.word()?, piece.word()?);
    let event = piece.event(kind)?;
    piece.end()?;
    Ok(Message {
        product,
        sequence,
        time_us,
        event,
    })
}

/// "time 8 (0 in a snapshot)"; "counts of bids and asks (4 bytes each), then id, price, size an order";
/// "for `bootstrap`, not kind 0" is 4.
pub fn snapshot(slip: Planted, bytes: &[u8]) -> Result<Snapshot, u8> {
    let mut piece = Bytes { rest: bytes, slip };
    let [kind] = piece.take()?;
    let (product, sequence, time) = (piece.take()?, piece.word()?, piece.word()?);
    let (bids, asks) = (piece.count()?, piece.count()?);
    // "41 + 32 per order for kind 0", told before any order is read.
    let length = 41 + 32 * (u64::from(bids) + u64::from(asks));
    let timed = time != 0 && !slip.is(Slip::SnapshotTimeTaken);
    if kind != 0 || timed || bytes.len() as u64 != length {
        return Err(NOT_A_PIECE);
    }
    Ok(Snapshot {
        product,
        sequence,
        bids: piece.orders(bids)?,
        asks: piece.orders(asks)?,
    })
}

/// The amounts present in an event.
fn amounts(event: &Event) -> Vec<i64> {
    match *event {
        Event::Received { .. } | Event::Unsupported { .. } => vec![],
        Event::Open {
            price, remaining, ..
        } => vec![price, remaining],
        Event::Done {
            price, remaining, ..
        } => [price, remaining].into_iter().flatten().collect(),
        Event::Match { price, size, .. } => vec![price, size],
        Event::Change {
            price,
            old_size,
            new_size,
            old_price,
            new_price,
            new_funds,
            ..
        } => [price, old_size, new_size, old_price, new_price, new_funds]
            .into_iter()
            .flatten()
            .collect(),
    }
}

fn within(slip: Planted, amount: i64) -> bool {
    let limit = if slip.is(Slip::AmountLimitOneLess) {
        AMOUNT_LIMIT - 1
    } else {
        AMOUNT_LIMIT
    };
    amount.unsigned_abs() <= limit
}

/// 5, "a present amount out of range", for a message.
pub fn message_in_range(slip: Planted, message: &Message) -> bool {
    amounts(&message.event)
        .into_iter()
        .all(|amount| within(slip, amount))
}

/// 5 for a snapshot.
pub fn snapshot_in_range(slip: Planted, snapshot: &Snapshot) -> bool {
    let mut orders = snapshot.bids.iter().chain(&snapshot.asks);
    orders.all(|order| within(slip, order.price) && within(slip, order.size))
}
