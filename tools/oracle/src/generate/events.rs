//! Events: ones that should be accepted, ones aimed at a reason, and wild ones.

use super::mirror::{Mirror, Order};
use super::random::Random;
use crate::piece::{AMOUNT_LIMIT, ChangeReason, DoneReason, Event, Id, Side};

/// Amounts at and one past every bound.
pub const BOUNDS: [i64; 9] = [
    0,
    1,
    -1,
    AMOUNT_LIMIT,
    -AMOUNT_LIMIT,
    AMOUNT_LIMIT + 1,
    -AMOUNT_LIMIT - 1,
    i64::MAX,
    i64::MIN,
];

/// Every reason of 16 but the three of the sequence.
pub const REASONS: [u8; 15] = [30, 31, 32, 33, 34, 35, 36, 37, 38, 39, 40, 41, 42, 43, 44];

pub fn other(side: Side) -> Side {
    match side {
        Side::Buy => Side::Sell,
        Side::Sell => Side::Buy,
    }
}

/// The amounts of an event that has any; absent ones become 0 when asked for.
pub fn amounts(event: &mut Event) -> Vec<&mut i64> {
    match event {
        Event::Received { .. } | Event::Unsupported { .. } => Vec::new(),
        Event::Open {
            price, remaining, ..
        } => vec![price, remaining],
        Event::Match { price, size, .. } => vec![price, size],
        Event::Done {
            price, remaining, ..
        } => vec![price.get_or_insert(0), remaining.get_or_insert(0)],
        Event::Change {
            price,
            old_size,
            new_size,
            old_price,
            new_price,
            new_funds,
            ..
        } => [price, old_size, new_size, old_price, new_price, new_funds]
            .map(|amount| amount.get_or_insert(0))
            .into(),
    }
}

impl Random {
    pub fn side(&mut self) -> Side {
        self.pick(&[Side::Buy, Side::Sell])
    }

    pub fn size(&mut self) -> i64 {
        match self.weighted(&[60, 15, 10, 5, 10]) {
            0 => 2 + self.below(20) as i64,
            1 => 1,
            2 => AMOUNT_LIMIT,
            3 => AMOUNT_LIMIT - self.below(3) as i64,
            _ => 1 + self.below(AMOUNT_LIMIT as u64) as i64,
        }
    }

    fn amount_in_range(&mut self) -> i64 {
        match self.below(3) {
            0 => self.pick(&BOUNDS[..5]),
            1 => self.below(40) as i64,
            _ => self.below(2 * AMOUNT_LIMIT as u64) as i64 - AMOUNT_LIMIT,
        }
    }

    /// An id that doesn't rest: mostly any 128 bits, at times one bit or one word away from a resting one.
    pub fn fresh_id(&mut self, book: &Mirror) -> Id {
        let near = self.order(book).map_or(0, |order| order.id);
        let id = match self.weighted(&[70, 10, 10, 3, 4, 3]) {
            0 => u128::from(self.word()) << 64 | u128::from(self.word()),
            1 => near ^ 1,
            2 => near ^ 1 << 64,
            3 => near.rotate_left(64),
            4 => u128::from(self.below(4)),
            _ => u128::MAX,
        };
        if book.rests(id) {
            u128::from(self.word()) << 64 | u128::from(self.word())
        } else {
            id
        }
    }

    /// An id that doesn't rest, at times one that did.
    pub fn absent_id(&mut self, book: &Mirror) -> Id {
        if !book.gone.is_empty() && self.chance(50) {
            let id = self.pick(&book.gone);
            if !book.rests(id) {
                return id;
            }
        }
        self.fresh_id(book)
    }

    pub fn order(&mut self, book: &Mirror) -> Option<Order> {
        (!book.orders.is_empty()).then(|| self.pick(&book.orders))
    }

    /// A price that joins without crossing, if there is one.
    fn joining_price(&mut self, book: &Mirror, side: Side) -> Option<i64> {
        let offset = self.below(book.width as u64) as i64;
        let beside = self.chance(4);
        let price = match side {
            Side::Buy => {
                let below_ask = book.best(Side::Sell).map_or(AMOUNT_LIMIT, |ask| ask - 1);
                let wanted = if beside {
                    below_ask
                } else {
                    (book.middle - 1 - offset).max(1)
                };
                wanted.min(below_ask)
            }
            Side::Sell => {
                let above_bid = book.best(Side::Buy).map_or(1, |bid| bid + 1);
                let wanted = if beside {
                    above_bid
                } else {
                    book.middle + offset
                };
                wanted.min(AMOUNT_LIMIT).max(above_bid)
            }
        };
        (1..=AMOUNT_LIMIT).contains(&price).then_some(price)
    }

    fn open(&mut self, book: &Mirror) -> Option<Event> {
        if book.full() {
            return None;
        }
        let mut side = if self.chance(book.buys) {
            Side::Buy
        } else {
            Side::Sell
        };
        let mut price = self.joining_price(book, side)?;
        if !book.has_level(side, price) && book.all_levels() >= book.rules.max_levels {
            let order = self.order(book)?;
            (side, price) = (order.side, order.price);
        }
        Some(Event::Open {
            order_id: self.absent_id(book),
            side,
            price,
            remaining: self.size(),
        })
    }

    fn matched(&mut self, book: &Mirror) -> Option<Event> {
        let maker = self.order(book)?;
        let size = if self.chance(40) {
            maker.remaining
        } else {
            1 + self.below(maker.remaining as u64) as i64
        };
        Some(Event::Match {
            maker_id: maker.id,
            taker_id: self.absent_id(book),
            side: maker.side,
            price: maker.price,
            size,
        })
    }

    fn canceled(&mut self, book: &Mirror) -> Option<Event> {
        let order = self.order(book)?;
        Some(Event::Done {
            order_id: order.id,
            side: order.side,
            price: self.chance(60).then_some(order.price),
            reason: DoneReason::Canceled,
            remaining: Some(order.remaining),
        })
    }

    fn off_book_done(&mut self, book: &Mirror) -> Event {
        Event::Done {
            order_id: self.absent_id(book),
            side: self.side(),
            price: self.chance(50).then(|| self.amount_in_range()),
            reason: self.pick(&[DoneReason::Filled, DoneReason::Canceled]),
            remaining: self.chance(50).then(|| self.amount_in_range()),
        }
    }

    fn off_book_change(&mut self, book: &Mirror) -> Event {
        let mut optional = || self.chance(50).then(|| self.amount_in_range());
        let [price, old_size, new_size, old_price, new_price, new_funds] =
            std::array::from_fn(|_| optional());
        Event::Change {
            order_id: self.absent_id(book),
            side: self.side(),
            reason: self.pick(&[ChangeReason::Stp, ChangeReason::ModifyOrder]),
            price,
            old_size,
            new_size,
            old_price,
            new_price,
            new_funds,
        }
    }

    /// A change of a resting order to `new_size` with right old facts, each given or not.
    fn change_of(&mut self, order: &Order, new_size: Option<i64>) -> Event {
        Event::Change {
            order_id: order.id,
            side: order.side,
            reason: ChangeReason::Stp,
            price: self.chance(50).then_some(order.price),
            old_size: self.chance(50).then_some(order.remaining),
            new_size,
            old_price: self.chance(40).then_some(order.price),
            new_price: self.chance(40).then_some(order.price),
            new_funds: self.chance(30).then(|| self.amount_in_range()),
        }
    }

    fn decrease(&mut self, book: &Mirror) -> Option<Event> {
        let order = self.order(book)?;
        let size = match self.below(10) {
            0 | 1 => 0,
            2 | 3 => order.remaining,
            4 => order.remaining - 1,
            _ => self.below(order.remaining as u64) as i64,
        };
        Some(self.change_of(&order, Some(size)))
    }

    /// An event that the rules should accept.
    pub fn good_event(&mut self, book: &Mirror) -> Event {
        let orders = book.orders.len() as u64;
        let weights = if book.filling() {
            [90, 3, 2, 1, 2, 1, 1]
        } else if orders < book.target {
            [60, 8, 5, 4, 9, 4, 10]
        } else {
            [16, 28, 20, 6, 16, 4, 10]
        };
        let event = match self.weighted(&weights) {
            0 => self.open(book),
            1 => self.matched(book),
            2 => self.canceled(book),
            3 => Some(self.off_book_done(book)),
            4 => self.decrease(book),
            5 => Some(self.off_book_change(book)),
            _ => None,
        };
        event.unwrap_or_else(|| Event::Received {
            order_id: self.order(book).map_or(7, |order| order.id),
            side: self.side(),
        })
    }

    /// An event aimed at one reason, at times with a second fault of the same kind of event; the book may have no place for it.
    pub fn bad_event(&mut self, book: &Mirror, reason: u8) -> Option<Event> {
        let (family, mut event): (&[u8], Event) = match reason {
            30..=33 => (&[30, 31, 32, 33, 42], self.matched(book)?),
            34 | 41..=43 => (&[34, 41, 42], self.any_open(book)),
            35..=37 => (&[35, 36, 37], self.canceled(book)?),
            38..=40 => {
                let order = self.order(book)?;
                let size = self.below(order.remaining as u64) as i64;
                (&[38, 39, 40, 42], self.change_of(&order, Some(size)))
            }
            _ => {
                let kind = self.pick(&[0, 7, u32::MAX]);
                return Some(Event::Unsupported { kind });
            }
        };
        self.twist(book, &mut event, reason)?;
        if self.chance(35) {
            let second = self.pick(family);
            self.twist(book, &mut event, second)?;
        }
        Some(event)
    }

    /// Puts one fault into an event.
    fn twist(&mut self, book: &Mirror, event: &mut Event, reason: u8) -> Option<()> {
        match event {
            Event::Match { .. } => self.twist_match(book, event, reason),
            Event::Open { .. } => self.twist_open(book, event, reason),
            Event::Done { .. } => self.twist_done(book, event, reason),
            _ => self.twist_change(book, event, reason),
        }
    }

    fn any_open(&mut self, book: &Mirror) -> Event {
        let side = self.side();
        Event::Open {
            order_id: self.absent_id(book),
            side,
            price: self.joining_price(book, side).unwrap_or(1),
            remaining: self.size(),
        }
    }

    fn twist_match(&mut self, book: &Mirror, event: &mut Event, reason: u8) -> Option<()> {
        let resting = self.order(book)?.id;
        let (absent, outside) = (self.absent_id(book), self.pick(&BOUNDS[1..5]));
        let (twist, not_positive) = (self.below(3), self.pick(&[0, -1]));
        let Event::Match {
            maker_id,
            taker_id,
            side,
            price,
            size,
        } = event
        else {
            return None;
        };
        match reason {
            30 => *maker_id = absent,
            31 => {
                *taker_id = resting;
                if twist == 0 {
                    *maker_id = absent;
                }
            }
            32 if twist == 0 => *side = other(*side),
            32 => *price = if twist == 1 { *price ^ 1 } else { outside },
            42 => *size = not_positive,
            _ if twist == 0 => *size = AMOUNT_LIMIT,
            _ => *size = book.find(*maker_id).map_or(1, |maker| maker.remaining) + 1,
        }
        Some(())
    }

    fn twist_open(&mut self, book: &Mirror, event: &mut Event, reason: u8) -> Option<()> {
        let resting = self.order(book).map(|order| order.id);
        let (beyond, at_price) = (self.pick(&[0, 0, 1, 5]), self.chance(50));
        let bad = self.pick(&[0, -1, -AMOUNT_LIMIT]);
        let Event::Open {
            order_id,
            side,
            price,
            remaining,
        } = event
        else {
            return None;
        };
        match reason {
            34 => *order_id = resting?,
            41 => {
                let best = book.best(other(*side))?;
                *price = match side {
                    Side::Buy => (best + beyond).min(AMOUNT_LIMIT),
                    Side::Sell => (best - beyond).max(1),
                };
            }
            42 if at_price => *price = bad,
            42 => *remaining = bad,
            _ if !book.full() => {
                // The levels' limit: any price without a level.
                let free = (1..60).map(|step| match side {
                    Side::Buy => book.middle - step,
                    Side::Sell => book.middle + step,
                });
                let mut free = free.filter(|p| (1..=AMOUNT_LIMIT).contains(p));
                *price = free.find(|p| !book.has_level(*side, *p))?;
            }
            _ => {}
        }
        Some(())
    }

    fn twist_done(&mut self, book: &Mirror, event: &mut Event, fault: u8) -> Option<()> {
        let (bound, twist) = (self.pick(&BOUNDS[..5]), self.below(3));
        let Event::Done {
            order_id,
            side,
            price,
            reason,
            remaining,
        } = event
        else {
            return None;
        };
        let order = book.find(*order_id)?;
        match (fault, twist) {
            (35, _) => *reason = DoneReason::Filled,
            (36, 0) => *remaining = None,
            (36, 1) => *remaining = Some(order.remaining - 1),
            (36, _) => *remaining = Some(bound),
            (_, 0) => *side = other(*side),
            (_, 1) => *price = Some(order.price ^ 1),
            _ => *price = Some(bound),
        }
        Some(())
    }

    fn twist_change(&mut self, book: &Mirror, event: &mut Event, fault: u8) -> Option<()> {
        let (bound, twist) = (self.pick(&BOUNDS[..5]), self.below(4));
        let Event::Change {
            order_id,
            side,
            reason,
            price,
            old_size,
            new_size,
            old_price,
            new_price,
            new_funds,
        } = event
        else {
            return None;
        };
        let order = book.find(*order_id)?;
        match (fault, twist) {
            (38, 0) => {
                *new_size = None;
                *new_price = Some(order.price ^ 1);
            }
            (38, 1) => {
                *new_size = None;
                *new_funds = Some(bound);
            }
            (38, _) => *new_size = None,
            (39, 0) => *side = other(*side),
            (39, 1) => *price = Some(bound),
            (39, 2) => *old_size = Some(order.remaining ^ 1),
            (39, _) => *old_price = Some(order.price ^ 1),
            (40, 0) => *reason = ChangeReason::ModifyOrder,
            (40, 1) => *new_price = Some(order.price ^ 1),
            (40, _) => *new_size = Some((order.remaining + 1).min(AMOUNT_LIMIT)),
            _ => *new_size = Some(-1),
        }
        Some(())
    }

    /// A value near the right one, or at a bound.
    fn near(&mut self, right: i64) -> i64 {
        match self.below(8) {
            0 => self.pick(&BOUNDS[..5]),
            1 => right.saturating_sub(1),
            2 => (right + 1).min(AMOUNT_LIMIT),
            _ => right,
        }
    }

    /// Right and wrong fields thrown together, so that several checks could fail at once.
    pub fn wild_event(&mut self, book: &Mirror) -> Event {
        let order = self.order(book).unwrap_or(Order {
            id: 1,
            side: Side::Buy,
            price: 10,
            remaining: 2,
            observed: true,
            entered_at: 0,
        });
        let order_id = if self.chance(75) {
            order.id
        } else {
            self.absent_id(book)
        };
        let side = if self.chance(80) {
            order.side
        } else {
            other(order.side)
        };
        match self.below(4) {
            0 => Event::Open {
                order_id,
                side,
                price: self.near(order.price),
                remaining: self.near(order.remaining),
            },
            1 => Event::Done {
                order_id,
                side,
                price: self.chance(50).then(|| self.near(order.price)),
                reason: self.pick(&[DoneReason::Filled, DoneReason::Canceled]),
                remaining: self.chance(80).then(|| self.near(order.remaining)),
            },
            2 => Event::Match {
                maker_id: order_id,
                taker_id: if self.chance(15) {
                    order.id
                } else {
                    self.absent_id(book)
                },
                side,
                price: self.near(order.price),
                size: self.near(order.remaining),
            },
            _ => self.wild_change(&order, order_id, side),
        }
    }

    fn wild_change(&mut self, order: &Order, order_id: Id, side: Side) -> Event {
        let modify = self.chance(15);
        Event::Change {
            order_id,
            side,
            reason: if modify {
                ChangeReason::ModifyOrder
            } else {
                ChangeReason::Stp
            },
            price: self.chance(50).then(|| self.near(order.price)),
            old_size: self.chance(50).then(|| self.near(order.remaining)),
            new_size: self.chance(80).then(|| self.near(order.remaining)),
            old_price: self.chance(30).then(|| self.near(order.price)),
            new_price: self.chance(30).then(|| self.near(order.price)),
            new_funds: self.chance(30).then(|| self.near(order.remaining)),
        }
    }
}
