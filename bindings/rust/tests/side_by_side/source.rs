//! Random messages and snapshots that fit a book more often than not.

use pinuglaw::Decimal;
use pinuglaw::l3::{
    BookReconstructor, ChangeReason, DoneReason, L3Event, L3Message, L3Side, L3Snapshot,
    SnapshotOrder,
};
use rand::rngs::SmallRng;
use rand::{Rng, SeedableRng};

use crate::SIDES;
use crate::books::Rules;

/// Books of one run.
pub const BOOKS: usize = 3;

/// The last one is no product of the port's: longer than 16 bytes.
const PRODUCTS: [&str; 4] = [
    "BTC-USD",
    "ETH-USD",
    "sixteen-byte-id!",
    "a name of more than 16 bytes",
];

/// The largest amount of the domain, in units.
const MOST: i64 = 1_000_000_000_000_000;

/// An order that rests: id, side, price, remaining.
struct Order(String, L3Side, Decimal, Decimal);

pub struct Source {
    pub seed: u64,
    pub random: SmallRng,
    /// Ids given out so far.
    fresh: u64,
}

fn amount(units: i64) -> Decimal {
    Decimal::new(units, 8)
}

/// The UUID of a number; numbers below 2^32 have different ones.
fn uuid(number: u64) -> String {
    let spread = number.wrapping_mul(0x9E37_79B9_7F4A_7C15);
    let (first, second, third) = (spread >> 32, spread >> 16 & 0xffff, spread & 0xffff);
    format!(
        "{first:08x}-{second:04x}-{third:04x}-{:04x}-{number:012x}",
        spread >> 48
    )
}

impl Source {
    pub fn new(seed: u64) -> Self {
        Self {
            seed,
            random: SmallRng::seed_from_u64(seed),
            fresh: 100,
        }
    }

    fn pick<T: Copy>(&mut self, choices: &[T]) -> T {
        choices[self.random.gen_range(0..choices.len())]
    }

    fn chance(&mut self, percent: u32) -> bool {
        self.random.gen_ratio(percent, 100)
    }

    pub fn product(&mut self) -> &'static str {
        self.pick(&PRODUCTS[..3])
    }

    /// Mostly limits that are seldom reached.
    pub fn rules(&mut self) -> Rules {
        let tiny = self.chance(15);
        let limits: &[usize] = if tiny { &[0, 2, 6, 9] } else { &[40, 60, 4096] };
        Rules {
            keeps_priority: self.chance(50),
            max_orders: self.pick(limits),
            max_levels: self.pick(limits),
        }
    }

    fn side(&mut self) -> L3Side {
        self.pick(&SIDES)
    }

    /// Bids from 1 to 10 units, asks from 11 to 20.
    fn sound_price(&mut self, side: L3Side) -> Decimal {
        amount(match side {
            L3Side::Buy => self.random.gen_range(1..=10),
            L3Side::Sell => self.random.gen_range(11..=20),
        })
    }

    /// Any price, about where the sides meet and at the ends.
    fn odd_price(&mut self) -> Decimal {
        amount(self.pick(&[-3, 0, 9, 10, 11, 12, MOST]))
    }

    fn price(&mut self, side: L3Side) -> Decimal {
        if self.chance(2) {
            self.odd_price()
        } else {
            self.sound_price(side)
        }
    }

    fn size(&mut self) -> Decimal {
        let units = match self.random.gen_range(0..120) {
            0 => 0,
            1 => -1,
            2 => MOST,
            _ => self.random.gen_range(1..=9),
        };
        amount(units)
    }

    fn new_id(&mut self) -> String {
        self.fresh += 1;
        uuid(self.fresh)
    }

    /// A new id, or one of a few that return.
    fn id(&mut self) -> String {
        if self.chance(15) {
            return uuid(self.random.gen_range(0..8));
        }
        self.new_id()
    }

    fn resting(&mut self, book: &BookReconstructor) -> Option<Order> {
        let of = |side| book.l2(side).unwrap_or_default().into_iter();
        let levels = SIDES
            .into_iter()
            .flat_map(|side| of(side).map(move |(price, _)| (side, price)));
        let levels: Vec<_> = levels.collect();
        if levels.is_empty() {
            return None;
        }
        let (side, price) = self.pick(&levels);
        let mut queue = book.level_queue(side, price).ok()?;
        let entry = queue.swap_remove(self.random.gen_range(0..queue.len()));
        Some(Order(entry.order_id, side, price, entry.remaining))
    }

    /// An order that rests if there is one, else any.
    fn some_order(&mut self, book: &BookReconstructor) -> Order {
        match self.resting(book) {
            Some(order) => order,
            None => {
                let side = self.side();
                Order(self.id(), side, self.price(side), self.size())
            }
        }
    }

    pub fn order_id(&mut self, book: &BookReconstructor) -> String {
        if self.chance(10) {
            return self.id();
        }
        self.some_order(book).0
    }

    pub fn level(&mut self, book: &BookReconstructor) -> (L3Side, Decimal) {
        let Order(_, side, price, _) = self.some_order(book);
        (side, price)
    }

    /// `value`, or now and then another.
    fn nearly(&mut self, value: Decimal) -> Decimal {
        if self.chance(1) { self.size() } else { value }
    }

    fn maybe(&mut self, value: Decimal) -> Option<Decimal> {
        self.chance(50).then(|| self.nearly(value))
    }

    fn wrong_side(&mut self, side: L3Side) -> L3Side {
        if self.chance(3) { self.side() } else { side }
    }

    pub fn message(&mut self, book: &BookReconstructor) -> L3Message {
        let last = book.last_sequence().unwrap_or(100);
        let sequence = match self.random.gen_range(0..400) {
            0 => last,
            1 => last.wrapping_add(2),
            2 => last.saturating_sub(5),
            3 => u64::MAX,
            _ => last.wrapping_add(1),
        };
        let product = &book.manifest().product_id;
        L3Message {
            product_id: if self.chance(2) {
                self.pick(&PRODUCTS)
            } else {
                product
            }
            .to_string(),
            sequence,
            time_us: self.random.gen_range(0..1_000_000),
            event: self.event(book),
        }
    }

    /// The number of orders and of levels.
    fn held(book: &BookReconstructor) -> (usize, usize) {
        let (mut orders, mut levels) = (0, 0);
        for side in SIDES {
            for (price, _) in book.l2(side).unwrap_or_default() {
                levels += 1;
                orders += book.level_queue(side, price).map_or(0, |queue| queue.len());
            }
        }
        (orders, levels)
    }

    fn event(&mut self, book: &BookReconstructor) -> L3Event {
        let (orders, levels) = Self::held(book);
        let rules = &book.manifest().rules;
        let full = orders >= rules.max_orders || levels >= rules.max_levels;
        match self.random.gen_range(0..100) {
            0..=92 if orders == 0 && !full && self.chance(95) => self.open(book),
            0..=44 if orders != 0 && full && self.chance(95) => self.change(book),
            0..=44 => self.open(book),
            45..=59 => self.done(book),
            60..=79 => self.matched(book),
            80..=92 => self.change(book),
            93..=98 => L3Event::Received {
                order_id: self.id(),
                side: self.side(),
            },
            _ => L3Event::Unsupported {
                kind: self.pick(&["activate", "rebate"]).to_string(),
            },
        }
    }

    fn open(&mut self, book: &BookReconstructor) -> L3Event {
        let side = self.side();
        L3Event::Open {
            order_id: if self.chance(2) {
                self.order_id(book)
            } else {
                self.id()
            },
            side,
            price: self.price(side),
            remaining: self.size(),
        }
    }

    /// An open that fits every book with room for it and an ask above 1.
    pub fn sound_open(&mut self) -> L3Event {
        L3Event::Open {
            order_id: self.new_id(),
            side: L3Side::Buy,
            price: amount(1),
            remaining: amount(1),
        }
    }

    fn done(&mut self, book: &BookReconstructor) -> L3Event {
        let Order(order_id, side, price, remaining) = self.some_order(book);
        // One that does not rest.
        let order_id = if self.chance(25) { self.id() } else { order_id };
        let filled = self.chance(4);
        L3Event::Done {
            order_id,
            side: self.wrong_side(side),
            price: self.maybe(price),
            reason: if filled {
                DoneReason::Filled
            } else {
                DoneReason::Canceled
            },
            remaining: if self.chance(3) {
                None
            } else {
                Some(self.nearly(remaining))
            },
        }
    }

    fn matched(&mut self, book: &BookReconstructor) -> L3Event {
        let Order(maker_id, side, price, remaining) = self.some_order(book);
        let part = self.size().min(remaining);
        let size = if self.chance(40) { remaining } else { part };
        L3Event::Match {
            maker_id: if self.chance(2) { self.id() } else { maker_id },
            taker_id: if self.chance(3) {
                self.order_id(book)
            } else {
                self.id()
            },
            side: self.wrong_side(side),
            price: self.nearly(price),
            size: if self.chance(2) {
                (remaining + size).min(amount(MOST))
            } else {
                size
            },
        }
    }

    fn change(&mut self, book: &BookReconstructor) -> L3Event {
        let Order(order_id, side, price, remaining) = self.some_order(book);
        let smaller = self.size().min(remaining);
        let modify = self.chance(3);
        L3Event::Change {
            order_id: if self.chance(15) { self.id() } else { order_id },
            side: self.wrong_side(side),
            reason: if modify {
                ChangeReason::ModifyOrder
            } else {
                ChangeReason::Stp
            },
            price: self.maybe(price),
            old_size: self.maybe(remaining),
            new_size: (!self.chance(5)).then(|| self.nearly(smaller)),
            old_price: self.maybe(price),
            new_price: self.maybe(price),
            new_funds: self.maybe(price),
        }
    }

    pub fn snapshot(&mut self, book: &BookReconstructor) -> L3Snapshot {
        let manifest = book.manifest();
        let most = manifest.rules.max_orders.min(12) + usize::from(self.chance(10));
        let mut orders = |side| -> Vec<SnapshotOrder> {
            let number = self.random.gen_range(0..=most / 2);
            (0..number).map(|_| self.snapshot_order(side)).collect()
        };
        let (bids, asks) = (orders(L3Side::Buy), orders(L3Side::Sell));
        let last = book.last_sequence().unwrap_or(100);
        let product = &manifest.product_id;
        L3Snapshot {
            product_id: if self.chance(5) {
                self.pick(&PRODUCTS)
            } else {
                product
            }
            .to_string(),
            sequence: match self.random.gen_range(0..50) {
                0 => u64::MAX,
                1 => self.random.gen_range(0..200),
                _ => last
                    .saturating_add(self.random.gen_range(0..5))
                    .min(1 << 40),
            },
            bids,
            asks,
        }
    }

    /// As many orders as the port can hold: bids at 64 prices, asks at one.
    pub fn full_snapshot(&mut self) -> L3Snapshot {
        let mut orders = |price: fn(i64) -> i64| -> Vec<SnapshotOrder> {
            let order = |place: i64| SnapshotOrder {
                order_id: self.new_id(),
                price: amount(price(place)),
                size: amount(MOST - place),
            };
            (0..2_048).map(order).collect()
        };
        let (bids, asks) = (orders(|place| 1 + place % 64), orders(|_| 100));
        L3Snapshot {
            product_id: self.product().to_string(),
            sequence: 100,
            bids,
            asks,
        }
    }

    fn snapshot_order(&mut self, side: L3Side) -> SnapshotOrder {
        let flawed = self.chance(3);
        SnapshotOrder {
            order_id: if self.chance(8) {
                uuid(self.random.gen_range(0..8))
            } else {
                self.new_id()
            },
            price: if flawed {
                self.odd_price()
            } else {
                self.sound_price(side)
            },
            size: if flawed {
                self.size()
            } else {
                amount(self.random.gen_range(1..=9))
            },
        }
    }
}
