//! Messages as the venue mixes them: 33 % opens, 20 % partial and 13 % full matches, 20 % cancels, 13 % changes.

use super::books::{PRODUCT, SIZE};
use crate::generate::random::Random;
use crate::piece::{ChangeReason, DoneReason, Event, Id, Message, Side, Snapshot, SnapshotOrder};

/// The messages of a run: 66 cycles.
pub const MESSAGES: usize = 990;

/// A snapshot, and a run of messages on it.
pub struct Mix {
    pub snapshot: Snapshot,
    pub messages: Vec<Message>,
}

#[derive(Clone, Copy)]
struct Resting {
    id: Id,
    side: Side,
    price: i64,
    size: i64,
}

/// What a message does.
#[derive(Clone, Copy)]
enum Kind {
    Open,
    Partial,
    Full,
    Cancel,
    Change,
}

/// One cycle of the mix: 5 opens, 3 partial and 2 full matches, 3 cancels and 2 changes, in such an order that the book holds as many orders afterwards and
/// never more.
const CYCLE: [Kind; 15] = [
    Kind::Cancel,
    Kind::Open,
    Kind::Partial,
    Kind::Full,
    Kind::Open,
    Kind::Change,
    Kind::Cancel,
    Kind::Open,
    Kind::Partial,
    Kind::Full,
    Kind::Open,
    Kind::Change,
    Kind::Cancel,
    Kind::Open,
    Kind::Partial,
];

/// Bids stand at 1 to 64, asks at 65 to 128.
fn order(random: &mut Random) -> Resting {
    let level = 1 + random.below(64) as i64;
    let (side, price) = random.pick(&[(Side::Buy, level), (Side::Sell, 64 + level)]);
    Resting {
        id: u128::from(random.word()) << 64 | u128::from(random.word()),
        side,
        price,
        size: SIZE,
    }
}

fn snapshot(resting: &[Resting]) -> Snapshot {
    let side = |side: Side| {
        let orders = resting.iter().filter(|r| r.side == side);
        let row = |r: &Resting| SnapshotOrder {
            id: r.id,
            price: r.price,
            size: r.size,
        };
        orders.map(row).collect()
    };
    Snapshot {
        product: PRODUCT,
        sequence: 0,
        bids: side(Side::Buy),
        asks: side(Side::Sell),
    }
}

fn matched(random: &mut Random, maker: Resting, size: i64) -> Event {
    Event::Match {
        maker_id: maker.id,
        taker_id: u128::from(random.word()) << 64 | u128::from(random.word()),
        side: maker.side,
        price: maker.price,
        size,
    }
}

/// The event of a kind, on an order drawn at random wherever it stands.
fn event(random: &mut Random, resting: &mut Vec<Resting>, kind: Kind) -> Event {
    let place = random.below(resting.len().max(1) as u64) as usize;
    match kind {
        Kind::Open => {
            let new = order(random);
            resting.push(new);
            Event::Open {
                order_id: new.id,
                side: new.side,
                price: new.price,
                remaining: new.size,
            }
        }
        Kind::Partial => {
            resting[place].size -= 1;
            matched(random, resting[place], 1)
        }
        Kind::Full => {
            let gone = resting.swap_remove(place);
            matched(random, gone, gone.size)
        }
        Kind::Cancel => {
            let gone = resting.swap_remove(place);
            Event::Done {
                order_id: gone.id,
                side: gone.side,
                price: Some(gone.price),
                reason: DoneReason::Canceled,
                remaining: Some(gone.size),
            }
        }
        Kind::Change => {
            let old = resting[place];
            resting[place].size -= 1;
            Event::Change {
                order_id: old.id,
                side: old.side,
                reason: ChangeReason::Stp,
                price: Some(old.price),
                old_size: Some(old.size),
                new_size: Some(old.size - 1),
                old_price: None,
                new_price: None,
                new_funds: None,
            }
        }
    }
}

impl Mix {
    /// The book has so many orders before the run and after it.
    pub fn new(orders: usize) -> Mix {
        let mut random = Random::new(7);
        let mut resting: Vec<Resting> = (0..orders).map(|_| order(&mut random)).collect();
        let snapshot = snapshot(&resting);
        let kinds = CYCLE.into_iter().cycle().take(MESSAGES);
        let message = |(place, kind)| Message {
            product: PRODUCT,
            sequence: place,
            time_us: place,
            event: event(&mut random, &mut resting, kind),
        };
        let messages = (1..).zip(kinds).map(message).collect();
        Mix { snapshot, messages }
    }
}
