//! Messages as each module takes them; the streams are made of this crate's.

/// This crate's own.
pub mod ours {
    use pinuglaw::l3::{L3Message, L3Side, L3Snapshot};

    pub fn side(side: L3Side) -> L3Side {
        side
    }

    pub fn snapshot(snapshot: &L3Snapshot) -> L3Snapshot {
        snapshot.clone()
    }

    pub fn message(message: &L3Message) -> L3Message {
        message.clone()
    }
}

/// The Rust's.
pub mod theirs {
    use crate::original::message::{
        ChangeReason, DoneReason, L3Event, L3Message, L3Side, L3Snapshot, SnapshotOrder,
    };
    use pinuglaw::l3 as ours;

    pub fn side(side: ours::L3Side) -> L3Side {
        match side {
            ours::L3Side::Buy => L3Side::Buy,
            ours::L3Side::Sell => L3Side::Sell,
        }
    }

    pub fn snapshot(snapshot: &ours::L3Snapshot) -> L3Snapshot {
        let order = |order: &ours::SnapshotOrder| SnapshotOrder {
            order_id: order.order_id.clone(),
            price: order.price,
            size: order.size,
        };
        L3Snapshot {
            product_id: snapshot.product_id.clone(),
            sequence: snapshot.sequence,
            bids: snapshot.bids.iter().map(order).collect(),
            asks: snapshot.asks.iter().map(order).collect(),
        }
    }

    pub fn message(message: &ours::L3Message) -> L3Message {
        L3Message {
            product_id: message.product_id.clone(),
            sequence: message.sequence,
            time_us: message.time_us,
            event: event(message.event.clone()),
        }
    }

    fn event(event: ours::L3Event) -> L3Event {
        match event {
            ours::L3Event::Received { order_id, side: s } => L3Event::Received {
                order_id,
                side: side(s),
            },
            ours::L3Event::Open {
                order_id,
                side: s,
                price,
                remaining,
            } => L3Event::Open {
                order_id,
                side: side(s),
                price,
                remaining,
            },
            ours::L3Event::Match {
                maker_id,
                taker_id,
                side: s,
                price,
                size,
            } => L3Event::Match {
                maker_id,
                taker_id,
                side: side(s),
                price,
                size,
            },
            ours::L3Event::Unsupported { kind } => L3Event::Unsupported { kind },
            event => leaving(event),
        }
    }

    fn done_reason(reason: ours::DoneReason) -> DoneReason {
        match reason {
            ours::DoneReason::Filled => DoneReason::Filled,
            ours::DoneReason::Canceled => DoneReason::Canceled,
        }
    }

    fn change_reason(reason: ours::ChangeReason) -> ChangeReason {
        match reason {
            ours::ChangeReason::Stp => ChangeReason::Stp,
            ours::ChangeReason::ModifyOrder => ChangeReason::ModifyOrder,
        }
    }

    fn leaving(event: ours::L3Event) -> L3Event {
        match event {
            ours::L3Event::Done {
                order_id,
                side: s,
                price,
                reason,
                remaining,
            } => L3Event::Done {
                order_id,
                side: side(s),
                price,
                reason: done_reason(reason),
                remaining,
            },
            ours::L3Event::Change {
                order_id,
                side: s,
                reason,
                price,
                old_size,
                new_size,
                old_price,
                new_price,
                new_funds,
            } => L3Event::Change {
                order_id,
                side: side(s),
                reason: change_reason(reason),
                price,
                old_size,
                new_size,
                old_price,
                new_price,
                new_funds,
            },
            event => unreachable!("the streams have no {event:?}"),
        }
    }
}
