//! Pieces: the bytes a message or a snapshot travels in, and the values they stand for.
//!
//! Written from "Rows and pieces" of 01 alone: encoders, and readers that say 4 (not a piece) before 5 (a present amount out of range).

/// The largest amount, and its negative the smallest.
pub const AMOUNT_LIMIT: i64 = 1_000_000_000_000_000;

/// Sixteen bytes; shorter names are padded with zeros.
pub type Product = [u8; 16];

/// An order id in text order: the high word is the first eight bytes, big-endian.
pub type Id = u128;

#[derive(Debug, Clone, Copy, PartialEq, Eq, Hash, PartialOrd, Ord)]
pub enum Side {
    Buy,
    Sell,
}

#[derive(Debug, Clone, Copy, PartialEq, Eq)]
pub enum DoneReason {
    Filled,
    Canceled,
}

#[derive(Debug, Clone, Copy, PartialEq, Eq)]
pub enum ChangeReason {
    Stp,
    ModifyOrder,
}

/// The Rust's events, fields in its order, amounts in units of 10^-8.
#[derive(Debug, Clone, Copy, PartialEq, Eq)]
pub enum Event {
    Received {
        order_id: Id,
        side: Side,
    },
    Open {
        order_id: Id,
        side: Side,
        price: i64,
        remaining: i64,
    },
    Done {
        order_id: Id,
        side: Side,
        price: Option<i64>,
        reason: DoneReason,
        remaining: Option<i64>,
    },
    Match {
        maker_id: Id,
        taker_id: Id,
        side: Side,
        price: i64,
        size: i64,
    },
    Change {
        order_id: Id,
        side: Side,
        reason: ChangeReason,
        price: Option<i64>,
        old_size: Option<i64>,
        new_size: Option<i64>,
        old_price: Option<i64>,
        new_price: Option<i64>,
        new_funds: Option<i64>,
    },
    Unsupported {
        kind: u32,
    },
}

#[derive(Debug, Clone, Copy, PartialEq, Eq)]
pub struct Message {
    pub product: Product,
    pub sequence: u64,
    pub time_us: u64,
    pub event: Event,
}

#[derive(Debug, Clone, Copy, PartialEq, Eq)]
pub struct SnapshotOrder {
    pub id: Id,
    pub price: i64,
    pub size: i64,
}

#[derive(Debug, Clone, PartialEq, Eq)]
pub struct Snapshot {
    pub product: Product,
    pub sequence: u64,
    pub bids: Vec<SnapshotOrder>,
    pub asks: Vec<SnapshotOrder>,
}

/// Kind, product, sequence and time.
const HEADER: usize = 33;
/// A snapshot's header with its two counts.
const SNAPSHOT_HEADER: usize = 41;
/// Id, price and size of one order of a snapshot.
const SNAPSHOT_ORDER: usize = 32;

fn in_range(amount: i64) -> bool {
    (-AMOUNT_LIMIT..=AMOUNT_LIMIT).contains(&amount)
}

impl Event {
    /// The event's kind byte.
    pub fn kind(&self) -> u8 {
        match self {
            Event::Received { .. } => 1,
            Event::Open { .. } => 2,
            Event::Done { .. } => 3,
            Event::Match { .. } => 4,
            Event::Change { .. } => 5,
            Event::Unsupported { .. } => 6,
        }
    }

    /// Whether every present amount lies within the range (else 5).
    pub fn amounts_in_range(&self) -> bool {
        let optional = |amount: Option<i64>| amount.is_none_or(in_range);
        match *self {
            Event::Received { .. } | Event::Unsupported { .. } => true,
            Event::Open {
                price, remaining, ..
            } => in_range(price) && in_range(remaining),
            Event::Done {
                price, remaining, ..
            } => optional(price) && optional(remaining),
            Event::Match { price, size, .. } => in_range(price) && in_range(size),
            Event::Change {
                price,
                old_size,
                new_size,
                old_price,
                new_price,
                new_funds,
                ..
            } => [price, old_size, new_size, old_price, new_price, new_funds]
                .into_iter()
                .all(optional),
        }
    }
}

/// Appends the fields of a piece.
struct Writer(Vec<u8>);

impl Writer {
    fn header(kind: u8, product: &Product, sequence: u64, time_us: u64) -> Self {
        let mut bytes = Vec::with_capacity(100);
        bytes.push(kind);
        bytes.extend_from_slice(product);
        bytes.extend_from_slice(&sequence.to_le_bytes());
        bytes.extend_from_slice(&time_us.to_le_bytes());
        Self(bytes)
    }

    fn id(&mut self, id: Id) {
        self.0.extend_from_slice(&id.to_be_bytes());
    }

    fn side(&mut self, side: Side) {
        self.0.push(match side {
            Side::Buy => 0,
            Side::Sell => 1,
        });
    }

    fn amount(&mut self, amount: i64) {
        self.0.extend_from_slice(&amount.to_le_bytes());
    }

    fn optional(&mut self, amount: Option<i64>) {
        self.amount(amount.unwrap_or(0));
    }

    /// The presence byte: the first optional field is the lowest bit.
    fn presence(&mut self, amounts: &[Option<i64>]) {
        let bits = amounts.iter().enumerate();
        self.0.push(bits.fold(0, |byte, (bit, amount)| {
            byte | u8::from(amount.is_some()) << bit
        }));
    }
}

/// The piece of a message; amounts out of range are written as they are.
pub fn encode_message(message: &Message) -> Vec<u8> {
    let kind = message.event.kind();
    let mut w = Writer::header(kind, &message.product, message.sequence, message.time_us);
    encode_event(&mut w, &message.event);
    w.0
}

fn encode_event(w: &mut Writer, event: &Event) {
    match *event {
        Event::Received { order_id, side } => {
            w.id(order_id);
            w.side(side);
        }
        Event::Open {
            order_id,
            side,
            price,
            remaining,
        } => {
            w.id(order_id);
            w.side(side);
            w.amount(price);
            w.amount(remaining);
        }
        Event::Match {
            maker_id,
            taker_id,
            side,
            price,
            size,
        } => {
            w.id(maker_id);
            w.id(taker_id);
            w.side(side);
            w.amount(price);
            w.amount(size);
        }
        Event::Done { .. } => encode_done(w, event),
        Event::Change { .. } => encode_change(w, event),
        Event::Unsupported { kind } => w.0.extend_from_slice(&kind.to_le_bytes()),
    }
}

fn encode_done(w: &mut Writer, event: &Event) {
    let &Event::Done {
        order_id,
        side,
        price,
        reason,
        remaining,
    } = event
    else {
        unreachable!("called for dones only");
    };
    w.id(order_id);
    w.side(side);
    w.optional(price);
    w.0.push(match reason {
        DoneReason::Filled => 0,
        DoneReason::Canceled => 1,
    });
    w.presence(&[price, remaining]);
    w.optional(remaining);
}

fn encode_change(w: &mut Writer, event: &Event) {
    let &Event::Change {
        order_id,
        side,
        reason,
        price,
        old_size,
        new_size,
        old_price,
        new_price,
        new_funds,
    } = event
    else {
        unreachable!("called for changes only");
    };
    w.id(order_id);
    w.side(side);
    w.0.push(match reason {
        ChangeReason::Stp => 0,
        ChangeReason::ModifyOrder => 1,
    });
    let amounts = [price, old_size, new_size, old_price, new_price, new_funds];
    w.presence(&amounts);
    for amount in amounts {
        w.optional(amount);
    }
}

/// The piece of a snapshot.
pub fn encode_snapshot(snapshot: &Snapshot) -> Vec<u8> {
    let mut w = Writer::header(0, &snapshot.product, snapshot.sequence, 0);
    for side in [&snapshot.bids, &snapshot.asks] {
        w.0.extend_from_slice(&(side.len() as u32).to_le_bytes());
    }
    for order in snapshot.bids.iter().chain(&snapshot.asks) {
        w.id(order.id);
        w.amount(order.price);
        w.amount(order.size);
    }
    w.0
}

fn bytes<const N: usize>(piece: &[u8], at: usize) -> Result<[u8; N], u8> {
    let field = piece.get(at..at + N).ok_or(4)?;
    field.try_into().map_err(|_| 4)
}

fn word(piece: &[u8], at: usize) -> Result<u64, u8> {
    bytes(piece, at).map(u64::from_le_bytes)
}

fn half(piece: &[u8], at: usize) -> Result<u32, u8> {
    bytes(piece, at).map(u32::from_le_bytes)
}

fn amount(piece: &[u8], at: usize) -> Result<i64, u8> {
    bytes(piece, at).map(i64::from_le_bytes)
}

fn id(piece: &[u8], at: usize) -> Result<Id, u8> {
    bytes(piece, at).map(u128::from_be_bytes)
}

/// A byte that may be 0 or 1 only.
fn choice<T>(piece: &[u8], at: usize, zero: T, one: T) -> Result<T, u8> {
    match piece.get(at) {
        Some(0) => Ok(zero),
        Some(1) => Ok(one),
        _ => Err(4),
    }
}

fn side(piece: &[u8], at: usize) -> Result<Side, u8> {
    choice(piece, at, Side::Buy, Side::Sell)
}

/// An optional amount; an absent one is eight zero bytes.
fn optional(piece: &[u8], at: usize, present: bool) -> Result<Option<i64>, u8> {
    match (amount(piece, at)?, present) {
        (value, true) => Ok(Some(value)),
        (0, false) => Ok(None),
        _ => Err(4),
    }
}

fn done(piece: &[u8]) -> Result<Event, u8> {
    let [presence] = bytes(piece, 59)?;
    if presence > 0b11 {
        return Err(4);
    }
    Ok(Event::Done {
        order_id: id(piece, 33)?,
        side: side(piece, 49)?,
        price: optional(piece, 50, presence & 1 != 0)?,
        reason: choice(piece, 58, DoneReason::Filled, DoneReason::Canceled)?,
        remaining: optional(piece, 60, presence & 2 != 0)?,
    })
}

fn change(piece: &[u8]) -> Result<Event, u8> {
    let [presence] = bytes(piece, 51)?;
    if presence > 0b11_1111 {
        return Err(4);
    }
    let field = |place: usize| optional(piece, 52 + 8 * place, presence >> place & 1 != 0);
    Ok(Event::Change {
        order_id: id(piece, 33)?,
        side: side(piece, 49)?,
        reason: choice(piece, 50, ChangeReason::Stp, ChangeReason::ModifyOrder)?,
        price: field(0)?,
        old_size: field(1)?,
        new_size: field(2)?,
        old_price: field(3)?,
        new_price: field(4)?,
        new_funds: field(5)?,
    })
}

fn event(piece: &[u8]) -> Result<Event, u8> {
    // Kind and length together, so that each arm knows its bytes are there.
    Ok(match (piece.first(), piece.len()) {
        (Some(1), 50) => Event::Received {
            order_id: id(piece, HEADER)?,
            side: side(piece, 49)?,
        },
        (Some(2), 66) => Event::Open {
            order_id: id(piece, HEADER)?,
            side: side(piece, 49)?,
            price: amount(piece, 50)?,
            remaining: amount(piece, 58)?,
        },
        (Some(3), 68) => done(piece)?,
        (Some(4), 82) => Event::Match {
            maker_id: id(piece, HEADER)?,
            taker_id: id(piece, 49)?,
            side: side(piece, 65)?,
            price: amount(piece, 66)?,
            size: amount(piece, 74)?,
        },
        (Some(5), 100) => change(piece)?,
        (Some(6), 37) => Event::Unsupported {
            kind: half(piece, HEADER)?,
        },
        _ => return Err(4),
    })
}

/// The message of a piece by its shape alone: 4, but amounts out of range are let through.
pub fn shape_message(piece: &[u8]) -> Result<Message, u8> {
    let event = event(piece)?;
    Ok(Message {
        product: bytes(piece, 1)?,
        sequence: word(piece, 17)?,
        time_us: word(piece, 25)?,
        event,
    })
}

/// The message reader: 4, then 5.
pub fn decode_message(piece: &[u8]) -> Result<Message, u8> {
    let message = shape_message(piece)?;
    if message.event.amounts_in_range() {
        Ok(message)
    } else {
        Err(5)
    }
}

/// The orders of one side. Room is made by the bytes that are there, not by a count.
fn orders(piece: &[u8]) -> Result<Vec<SnapshotOrder>, u8> {
    let mut orders = Vec::with_capacity(piece.len() / SNAPSHOT_ORDER);
    for field in piece.chunks_exact(SNAPSHOT_ORDER) {
        let (price, size) = (amount(field, 16)?, amount(field, 24)?);
        if !in_range(price) || !in_range(size) {
            return Err(5);
        }
        orders.push(SnapshotOrder {
            id: id(field, 0)?,
            price,
            size,
        });
    }
    Ok(orders)
}

/// The snapshot reader: 4, then 5. The counts are held against the length before anything is made from them.
pub fn decode_snapshot(piece: &[u8]) -> Result<Snapshot, u8> {
    if piece.len() < SNAPSHOT_HEADER || piece[0] != 0 || word(piece, 25)? != 0 {
        return Err(4);
    }
    let (bids, asks) = (u64::from(half(piece, 33)?), u64::from(half(piece, 37)?));
    let body = &piece[SNAPSHOT_HEADER..];
    if body.len() as u64 != (bids + asks) * SNAPSHOT_ORDER as u64 {
        return Err(4);
    }
    let (bids, asks) = body.split_at(bids as usize * SNAPSHOT_ORDER);
    Ok(Snapshot {
        product: bytes(piece, 1)?,
        sequence: word(piece, 17)?,
        bids: orders(bids)?,
        asks: orders(asks)?,
    })
}

#[cfg(test)]
mod tests;
