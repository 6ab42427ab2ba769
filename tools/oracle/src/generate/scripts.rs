//! Short scripts on one level: an estimate, something that happens ahead of it or to it, and the volume ahead.

use super::mirror::{Mirror, Order};
use super::random::Random;
use crate::call::Act;
use crate::piece::{ChangeReason, DoneReason, Event, Message, encode_message};

fn decrease(order: &Order, size: i64) -> Event {
    Event::Change {
        order_id: order.id,
        side: order.side,
        reason: ChangeReason::Stp,
        price: None,
        old_size: Some(order.remaining),
        new_size: Some(size),
        old_price: None,
        new_price: None,
        new_funds: None,
    }
}

fn cancel(order: &Order) -> Event {
    Event::Done {
        order_id: order.id,
        side: order.side,
        price: Some(order.price),
        reason: DoneReason::Canceled,
        remaining: Some(order.remaining),
    }
}

fn reopen(order: &Order) -> Event {
    Event::Open {
        order_id: order.id,
        side: order.side,
        price: order.price,
        remaining: order.remaining,
    }
}

fn matched(order: &Order, taker_id: u128, size: i64) -> Event {
    Event::Match {
        maker_id: order.id,
        taker_id,
        side: order.side,
        price: order.price,
        size,
    }
}

impl Random {
    /// The acts of a script for estimate slot `slot`; none on an empty book.
    pub fn script(&mut self, book: &Mirror, slot: u8) -> Option<Vec<Act>> {
        let own = self.order(book)?;
        let there = |o: &&Order| o.side == own.side && o.price == own.price;
        let level: Vec<Order> = book.orders.iter().filter(there).copied().collect();
        let first = self.pick(&level);
        // Of two resting at the level, the later one is ours.
        let (ahead, own) = if first.entered_at <= own.entered_at {
            (first, own)
        } else {
            (own, first)
        };
        let estimate = if self.chance(50) {
            Act::QueueEstimate {
                slot,
                side: own.side,
                price: own.price,
            }
        } else {
            Act::QueueEstimateOwn {
                slot,
                order_id: own.id,
            }
        };
        let subject = if self.chance(70) { ahead } else { own };
        let smaller = self.below(subject.remaining as u64) as i64;
        let taker = self.fresh_id(book);
        let events = match self.below(7) {
            0 | 1 => vec![decrease(&subject, smaller)],
            6 if ahead.id != own.id => vec![
                decrease(&ahead, (ahead.remaining - 1).max(1)),
                decrease(&own, (own.remaining - 1).max(1)),
            ],
            2 => vec![matched(&subject, taker, smaller.max(1))],
            3 => vec![cancel(&subject)],
            4 => vec![cancel(&subject), reopen(&subject)],
            _ => vec![reopen(&Order {
                id: taker,
                ..subject
            })],
        };
        let mut acts = vec![estimate];
        for (place, event) in events.into_iter().enumerate() {
            let message = Message {
                product: book.product,
                sequence: book.last.wrapping_add(1 + place as u64),
                time_us: self.below(1_000),
                event,
            };
            let piece = encode_message(&message);
            acts.push(Act::Apply { piece });
        }
        acts.push(Act::VolumeAhead { slot });
        Some(acts)
    }
}
