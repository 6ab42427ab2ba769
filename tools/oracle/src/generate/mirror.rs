//! What the generator remembers of a book: enough to aim its calls. It follows the Rust's answers and decides nothing itself;
//! on a damaged book it guesses, and keeps amounts above 0 whatever it guesses.

use crate::call::{CEILING, Rules, SegmentName};
use crate::piece::{Event, Id, Message, Product, Side, Snapshot, SnapshotOrder};

#[derive(Debug, Clone, Copy, PartialEq, Eq)]
pub struct Order {
    pub id: Id,
    pub side: Side,
    pub price: i64,
    pub remaining: i64,
    pub observed: bool,
    pub entered_at: u64,
}

#[derive(Debug, Clone, Copy, PartialEq, Eq)]
pub enum Standing {
    NoSnapshot,
    Valid,
    Invalid,
}

/// Whether the host has written into the book.
#[derive(Debug, Clone, Copy, PartialEq, Eq)]
pub enum Damage {
    None,
    /// The book is another one now, but number 3 doesn't hold.
    Harmless,
    Broken,
}

#[derive(Debug, Clone)]
pub struct Mirror {
    pub product: Product,
    pub rules: Rules,
    pub number: u64,
    pub row_words: u64,
    pub segment_records: u64,
    /// In order of arrival.
    pub orders: Vec<Order>,
    /// Ids that left, for reuse.
    pub gone: Vec<Id>,
    pub last: u64,
    pub start: u64,
    pub segments: u64,
    pub standing: Standing,
    pub damage: Damage,
    /// Calls until it is created anew.
    pub life: u64,
    /// Buys are below this price, sells at or above it.
    pub middle: i64,
    pub width: i64,
    /// How many of a hundred orders buy.
    pub buys: u64,
    /// The number of orders it tends to.
    pub target: u64,
}

impl Mirror {
    pub fn current_segment(&self) -> SegmentName {
        SegmentName {
            number: self.number,
            place: self.segments.wrapping_sub(1),
        }
    }

    pub fn full(&self) -> bool {
        self.orders.len() as u64 >= self.rules.max_orders
    }

    /// Whether it is on its way to the ceiling by opens alone, so that nothing may throw it back.
    pub fn filling(&self) -> bool {
        self.target > CEILING && !self.full()
    }

    /// Whether the limits let it be called at all.
    pub fn callable(&self) -> bool {
        self.rules.max_orders <= CEILING
            && self.rules.max_levels <= CEILING
            && self.row_words >= 8 * self.rules.max_orders
    }

    pub fn find(&self, id: Id) -> Option<&Order> {
        self.orders.iter().find(|order| order.id == id)
    }

    pub fn rests(&self, id: Id) -> bool {
        self.find(id).is_some()
    }

    pub fn best(&self, side: Side) -> Option<i64> {
        let prices = self.orders.iter().filter(|o| o.side == side);
        let prices = prices.map(|order| order.price);
        match side {
            Side::Buy => prices.max(),
            Side::Sell => prices.min(),
        }
    }

    pub fn has_level(&self, side: Side, price: i64) -> bool {
        self.at_level(side, price) > 0
    }

    pub fn at_level(&self, side: Side, price: i64) -> u64 {
        let there = |order: &&Order| order.side == side && order.price == price;
        self.orders.iter().filter(there).count() as u64
    }

    pub fn levels(&self, side: Side) -> u64 {
        let there = self.orders.iter().filter(|order| order.side == side);
        let mut prices: Vec<i64> = there.map(|order| order.price).collect();
        prices.sort_unstable();
        prices.dedup();
        prices.len() as u64
    }

    pub fn all_levels(&self) -> u64 {
        self.levels(Side::Buy) + self.levels(Side::Sell)
    }

    fn forget(&mut self, id: Id) {
        self.orders.retain(|order| order.id != id);
        if self.gone.len() >= 40 {
            self.gone.remove(0);
        }
        self.gone.push(id);
    }

    fn reduce(&mut self, id: Id, remaining: i64) {
        if remaining <= 0 {
            self.forget(id);
        } else if let Some(order) = self.orders.iter_mut().find(|order| order.id == id) {
            order.remaining = remaining;
        }
    }

    /// Follows an accepted message.
    pub fn accept(&mut self, message: &Message) {
        self.last = message.sequence;
        match message.event {
            Event::Received { .. } | Event::Unsupported { .. } => {}
            Event::Open {
                order_id,
                side,
                price,
                remaining,
            } => self.orders.push(Order {
                id: order_id,
                side,
                price: price.max(1),
                remaining: remaining.max(1),
                observed: true,
                entered_at: message.sequence,
            }),
            Event::Done { order_id, .. } => {
                if self.rests(order_id) {
                    self.forget(order_id);
                }
            }
            Event::Match { maker_id, size, .. } => {
                let left = self
                    .find(maker_id)
                    .map_or(0, |order| order.remaining - size);
                self.reduce(maker_id, left);
            }
            Event::Change {
                order_id, new_size, ..
            } => {
                if let (true, Some(size)) = (self.rests(order_id), new_size) {
                    self.reduce(order_id, size);
                }
            }
        }
    }

    /// Follows an accepted snapshot.
    pub fn replace(&mut self, snapshot: &Snapshot) {
        let left = self.orders.iter().map(|order| order.id);
        self.gone.extend(left.take(10));
        let excess = self.gone.len().saturating_sub(40);
        self.gone.drain(..excess);
        let order = |side: Side| {
            move |order: &SnapshotOrder| Order {
                id: order.id,
                side,
                price: order.price.max(1),
                remaining: order.size.max(1),
                observed: false,
                entered_at: snapshot.sequence,
            }
        };
        let bids = snapshot.bids.iter().map(order(Side::Buy));
        self.orders = bids
            .chain(snapshot.asks.iter().map(order(Side::Sell)))
            .collect();
        self.gone
            .retain(|id| !self.orders.iter().any(|order| order.id == *id));
        (self.start, self.last) = (snapshot.sequence, snapshot.sequence);
        self.segments += 1;
        self.standing = Standing::Valid;
    }
}
