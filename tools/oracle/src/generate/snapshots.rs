//! Snapshots: good ones of every size, and ones aimed at 10 to 14.

use super::events::BOUNDS;
use super::mirror::Mirror;
use super::random::Random;
use crate::piece::{AMOUNT_LIMIT, Id, Product, Snapshot, SnapshotOrder};

/// The flaws aimed at 10 to 14 and 5; `Wild` mixes several.
#[derive(Debug, Clone, Copy, PartialEq, Eq)]
pub enum Flaw {
    None,
    Product,
    Repeated,
    NotPositive,
    /// Both in one order.
    RepeatedNotPositive,
    Crossed,
    /// An ask at a bid's price that would also be one level too many.
    CrossedFull,
    /// A price or size that isn't positive, in an order that would also be one level too many.
    NotPositiveFull,
    Orders,
    Levels,
    OutOfRange,
    Wild,
}

const FLAWS: [Flaw; 11] = [
    Flaw::Product,
    Flaw::Repeated,
    Flaw::NotPositive,
    Flaw::RepeatedNotPositive,
    Flaw::Crossed,
    Flaw::CrossedFull,
    Flaw::NotPositiveFull,
    Flaw::Orders,
    Flaw::Levels,
    Flaw::OutOfRange,
    Flaw::Wild,
];

impl Random {
    pub fn flaw(&mut self) -> Flaw {
        self.pick(&FLAWS)
    }

    /// A product other than `product`: another name, or one byte away.
    pub fn other_product(&mut self, product: &Product) -> Product {
        let mut other = *product;
        other[self.below(16) as usize] ^= self.pick(&[1, 0x80, 0xFF]);
        other
    }

    /// A snapshot's sequence: small, any, or so near the top that messages run into it.
    fn start(&mut self, book: &Mirror) -> u64 {
        if book.filling() {
            return self.below(1 << 40);
        }
        match self.weighted(&[15, 50, 15, 12, 8]) {
            0 => self.below(4),
            1 => self.below(1 << 40),
            2 => book.last.wrapping_add(self.below(5)),
            3 => u64::MAX - self.below(12),
            _ => self.word(),
        }
    }

    /// How many orders a good snapshot of the book holds.
    fn snapshot_size(&mut self, book: &Mirror) -> u64 {
        let (limit, target) = (book.rules.max_orders.min(4_096), book.target);
        if book.filling() {
            return self.below(20);
        }
        // Large books are mostly begun full, or nearly so.
        let weights = if target > 500 {
            [3, 3, 40, 24, 30]
        } else {
            [5, 5, 10, 60, 20]
        };
        match self.weighted(&weights) {
            0 => 0,
            1 => 1.min(limit),
            2 => limit.min(target + 2),
            3 => self.below(target.min(limit) + 1),
            _ => target.min(limit),
        }
    }

    fn snapshot_orders(&mut self, book: &Mirror, count: u64) -> Vec<(bool, SnapshotOrder)> {
        let mut orders: Vec<(bool, SnapshotOrder)> = Vec::with_capacity(count as usize);
        let mut ids: std::collections::HashSet<Id> = std::collections::HashSet::new();
        let (mut bids, mut asks) = (Vec::new(), Vec::new());
        for _ in 0..count {
            let mut id = self.absent_id(book);
            while !ids.insert(id) {
                id = u128::from(self.word()) << 64 | u128::from(self.word());
            }
            let buy = self.chance(book.buys);
            let offset = self.below(book.width as u64) as i64;
            let mut price = if buy {
                (book.middle - 1 - offset).max(1)
            } else {
                (book.middle + offset).min(AMOUNT_LIMIT)
            };
            let prices = if buy { &mut bids } else { &mut asks };
            let known: &[i64] = prices;
            if !known.contains(&price) {
                if !known.is_empty() && self.chance(50) && book.width < 1_000 {
                    price = self.pick(known);
                } else {
                    prices.push(price);
                }
            }
            let size = self.size();
            orders.push((buy, SnapshotOrder { id, price, size }));
        }
        orders
    }

    fn spoil(&mut self, book: &Mirror, snapshot: &mut Snapshot, flaw: Flaw) {
        let bids = snapshot.bids.len();
        let count = bids + snapshot.asks.len();
        if flaw == Flaw::Product {
            snapshot.product = self.other_product(&book.product);
        }
        if count == 0 {
            return;
        }
        let mut at = self.below(count as u64) as usize;
        if flaw == Flaw::Crossed && !snapshot.asks.is_empty() {
            at = at.max(bids);
        }
        let from = self.below(count as u64) as usize;
        let all: Vec<SnapshotOrder> = snapshot
            .bids
            .iter()
            .chain(&snapshot.asks)
            .copied()
            .collect();
        let best_bid = snapshot.bids.iter().map(|order| order.price).max();
        let order = if at < bids {
            &mut snapshot.bids[at]
        } else {
            &mut snapshot.asks[at - bids]
        };
        let bad = self.pick(&[0, -1, -AMOUNT_LIMIT]);
        let outside = self.pick(&BOUNDS[5..]);
        let field = if self.chance(50) {
            &mut order.price
        } else {
            &mut order.size
        };
        match flaw {
            Flaw::Repeated if from != at => order.id = all[from].id,
            Flaw::NotPositive => *field = bad,
            Flaw::RepeatedNotPositive if from < at => {
                *field = bad;
                order.id = all[from].id;
            }
            Flaw::OutOfRange => *field = outside,
            Flaw::Crossed => {
                if let (Some(bid), true) = (best_bid, at >= bids) {
                    order.price = bid - self.below(2) as i64;
                }
            }
            _ => {}
        }
    }

    /// As many levels of bids as there may be, and one order more with the flaw; large limits are left alone.
    fn flaw_when_full(&mut self, book: &Mirror, snapshot: &mut Snapshot, flaw: Flaw) {
        let levels = book.rules.max_levels;
        if levels > 20 || levels >= book.rules.max_orders {
            return;
        }
        let order = |step: u64| SnapshotOrder {
            id: u128::from(step) + 1,
            price: AMOUNT_LIMIT / 2 - step as i64,
            size: 1,
        };
        snapshot.bids = (0..levels).map(order).collect();
        snapshot.asks.clear();
        let mut more = order(levels);
        if flaw == Flaw::CrossedFull {
            more.price = order(self.below(levels + 1)).price;
            snapshot.asks.push(more);
        } else {
            let bad = self.pick(&[0, -1]);
            *(if self.chance(50) {
                &mut more.price
            } else {
                &mut more.size
            }) = bad;
            snapshot.bids.push(more);
        }
    }

    pub fn snapshot(&mut self, book: &Mirror, flaw: Flaw) -> Snapshot {
        let count = match flaw {
            Flaw::Orders => book.rules.max_orders.min(4_096) + 1,
            // Small books reach their levels' limit with all the orders they may hold.
            Flaw::Levels => book.rules.max_orders.min(50),
            Flaw::None => self.snapshot_size(book),
            _ => self.snapshot_size(book).max(2),
        };
        let orders = self.snapshot_orders(book, count);
        let side = |buy: bool| {
            let there = orders.iter().filter(|(side, _)| *side == buy);
            there.map(|(_, order)| *order).collect()
        };
        let mut snapshot = Snapshot {
            product: book.product,
            sequence: self.start(book),
            bids: side(true),
            asks: side(false),
        };
        match flaw {
            Flaw::CrossedFull | Flaw::NotPositiveFull => {
                self.flaw_when_full(book, &mut snapshot, flaw);
            }
            Flaw::Wild => {
                for _ in 0..3 {
                    let flaw = self.flaw();
                    self.spoil(book, &mut snapshot, flaw);
                }
            }
            flaw => self.spoil(book, &mut snapshot, flaw),
        }
        if matches!(flaw, Flaw::None | Flaw::Orders) {
            within_levels(book, &mut snapshot);
        }
        snapshot
    }
}

/// Moves orders beyond the levels' limit to a level that is there already.
fn within_levels(book: &Mirror, snapshot: &mut Snapshot) {
    let limit = book.rules.max_levels as usize;
    if limit == 0 {
        snapshot.bids.clear();
        snapshot.asks.clear();
        return;
    }
    let mut levels: std::collections::BTreeSet<(bool, i64)> = std::collections::BTreeSet::new();
    for (buy, orders) in [(true, &mut snapshot.bids), (false, &mut snapshot.asks)] {
        let mut first = None;
        orders.retain_mut(|order| {
            if levels.len() >= limit && !levels.contains(&(buy, order.price)) {
                match first {
                    Some(price) => order.price = price,
                    None => return false,
                }
            }
            levels.insert((buy, order.price));
            first.get_or_insert(order.price);
            true
        });
    }
}
