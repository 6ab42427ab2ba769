//! What the Rust's errors say besides their number: ids, amounts and texts, taken from the message, the snapshot and the rows.
//!
//! The library has decided the number. A message that it refuses leaves the rows, so they still show what the message met.

use std::collections::HashSet;

use super::book::{Resting, resting};
use super::message::{L3Event, L3Side, L3Snapshot};
use super::reconstructor::{Discrepancy, Refusal, SnapshotError, VenueRules};
use super::words::{id_of, id_words};
use crate::{Decimal, sys};

/// The book that a message met.
pub struct Met<'a> {
    pub rows: &'a [u64],
    pub rules: VenueRules,
}

impl Met<'_> {
    fn remaining(&self, id: &str) -> Decimal {
        let id = id_of(id).map(id_words);
        let order = resting(self.rows).find(|order| Some(order.id) == id);
        order.expect("the number says that it rests").remaining
    }

    fn prices(&self, side: L3Side) -> impl Iterator<Item = Decimal> {
        let on_side = move |order: &Resting| order.side == side;
        resting(self.rows).filter(on_side).map(|order| order.price)
    }

    /// The prices that an open at `price` would cross.
    fn crossed(&self, side: L3Side, price: Decimal) -> Discrepancy {
        let crossing = "the number says that the other side has a price";
        let (bid, ask) = match side {
            L3Side::Buy => (price, self.prices(L3Side::Sell).min().expect(crossing)),
            L3Side::Sell => (self.prices(L3Side::Buy).max().expect(crossing), price),
        };
        Discrepancy::CrossedAfterApply { bid, ask }
    }

    /// The limit that one more order would exceed.
    fn capacity(&self) -> String {
        let VenueRules {
            max_orders,
            max_levels,
            ..
        } = self.rules;
        if resting(self.rows).count() >= max_orders {
            format!("{max_orders} orders")
        } else {
            format!("{max_levels} levels")
        }
    }
}

/// The order an event names; of a match the maker.
fn named(event: &L3Event) -> &str {
    match event {
        L3Event::Received { order_id, .. }
        | L3Event::Open { order_id, .. }
        | L3Event::Done { order_id, .. }
        | L3Event::Change { order_id, .. } => order_id,
        L3Event::Match { maker_id, .. } => maker_id,
        L3Event::Unsupported { .. } => "",
    }
}

/// The Rust's value for a number from 30 to 44; `funds` tells the two reasons of 38 apart.
pub fn discrepancy(number: u64, funds: bool, event: &L3Event, met: &Met) -> Discrepancy {
    let order_id = named(event).to_string();
    match (number, event) {
        (sys::UNKNOWN_MAKER, _) => Discrepancy::UnknownMaker { maker_id: order_id },
        (sys::TAKER_RESTING, L3Event::Match { taker_id, .. }) => Discrepancy::TakerResting {
            taker_id: taker_id.clone(),
        },
        (sys::MATCH_MISMATCH, _) => Discrepancy::MatchMismatch { maker_id: order_id },
        (sys::MATCH_EXCEEDS_REMAINING, L3Event::Match { size, .. }) => {
            Discrepancy::MatchExceedsRemaining {
                remaining: met.remaining(&order_id),
                maker_id: order_id,
                size: *size,
            }
        }
        (sys::DUPLICATE_OPEN, _) => Discrepancy::DuplicateOpen { order_id },
        (sys::CROSSED_AFTER_APPLY, L3Event::Open { side, price, .. }) => met.crossed(*side, *price),
        (sys::INVALID_VALUE, _) => Discrepancy::InvalidValue {
            what: invalid_value(event),
        },
        (sys::CAPACITY_EXCEEDED, _) => Discrepancy::CapacityExceeded {
            what: met.capacity(),
        },
        (sys::UNSUPPORTED_INPUT, L3Event::Unsupported { kind }) => {
            Discrepancy::UnsupportedInput { kind: kind.clone() }
        }
        _ => leaving(number, funds, event, met),
    }
}

/// The numbers of a done or a change.
fn leaving(number: u64, funds: bool, event: &L3Event, met: &Met) -> Discrepancy {
    let order_id = named(event).to_string();
    match (number, event) {
        (sys::MISSING_MATCH, _) => Discrepancy::MissingMatch {
            remaining: met.remaining(&order_id),
            order_id,
        },
        (sys::REMAINING_MISMATCH, L3Event::Done { remaining, .. }) => {
            Discrepancy::RemainingMismatch {
                tracked: met.remaining(&order_id),
                order_id,
                reported: *remaining,
            }
        }
        (sys::DONE_MISMATCH, _) => Discrepancy::DoneMismatch { order_id },
        (sys::MALFORMED_CHANGE, _) => Discrepancy::MalformedChange {
            order_id,
            reason: if funds {
                "funds change for a resting limit order".to_string()
            } else {
                "no new size".to_string()
            },
        },
        (sys::CHANGE_MISMATCH, _) => Discrepancy::ChangeMismatch { order_id },
        (sys::UNSUPPORTED_MODIFICATION, _) => Discrepancy::UnsupportedModification { order_id },
        _ => unreachable!("the library gave the reason {number} for {event:?}"),
    }
}

fn invalid_value(event: &L3Event) -> String {
    match event {
        L3Event::Open { price, .. } if *price <= Decimal::ZERO => {
            format!("open price {price} is not positive")
        }
        L3Event::Open { remaining, .. } => format!("open size {remaining} is not positive"),
        L3Event::Match { size, .. } => format!("match size {size} is not positive"),
        L3Event::Change {
            new_size: Some(size),
            ..
        } => format!("new size {size} is negative"),
        _ => unreachable!("42 is for opens, matches and changes: {event:?}"),
    }
}

/// The Rust's value for a number that refuses a snapshot.
pub fn snapshot_error(
    number: u64,
    snapshot: &L3Snapshot,
    expected: &str,
    rules: VenueRules,
) -> SnapshotError {
    let mut orders = snapshot.bids.iter().chain(&snapshot.asks);
    let found = "the number says that there is one";
    match number {
        sys::WRONG_PRODUCT => SnapshotError::WrongProduct {
            expected: expected.to_string(),
            got: snapshot.product_id.clone(),
        },
        sys::SNAPSHOT_DUPLICATE_ID => {
            let mut ids = HashSet::new();
            let twice = orders.find(|order| !ids.insert(&order.order_id));
            SnapshotError::DuplicateId(twice.expect(found).order_id.clone())
        }
        sys::SNAPSHOT_INVALID_VALUE => {
            let zero = Decimal::ZERO;
            let order = orders.find(|order| order.price <= zero || order.size <= zero);
            let order = order.expect(found);
            SnapshotError::InvalidValue(format!(
                "order {}: price {} size {}",
                order.order_id, order.price, order.size
            ))
        }
        sys::SNAPSHOT_CROSSED => SnapshotError::Crossed {
            bid: snapshot.bids.iter().map(|o| o.price).max().expect(found),
            ask: snapshot.asks.iter().map(|o| o.price).min().expect(found),
        },
        sys::SNAPSHOT_CAPACITY_EXCEEDED => {
            SnapshotError::CapacityExceeded(above(orders.count(), rules))
        }
        sys::NOT_A_PIECE => SnapshotError::Refused(Refusal::NotAPiece),
        _ => SnapshotError::Refused(Refusal::of(number)),
    }
}

/// The limit that a snapshot of so many orders exceeds.
fn above(orders: usize, rules: VenueRules) -> String {
    if orders > rules.max_orders {
        format!("{orders} orders above {}", rules.max_orders)
    } else {
        format!("more than {} levels", rules.max_levels)
    }
}
