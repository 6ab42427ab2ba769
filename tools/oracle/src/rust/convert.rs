//! Between the pieces' values and the Rust's.

use crate::Decimal;
use crate::call;
use crate::l3::message as theirs;
use crate::l3::queue::{Assumption, QueueAhead, QueueError};
use crate::l3::reconstructor::{
    Applied, Discrepancy, Invalidation, InvalidationKind, MessageCounts, SegmentEnd, SizeDecrease,
    SnapshotError, VenueRules, ViewError,
};
use crate::piece::{ChangeReason, DoneReason, Event, Id, Message, Product, Side, Snapshot};

pub fn amount(units: i64) -> Decimal {
    Decimal::new(units, 8)
}

/// The units of a Decimal of scale 8 or less.
pub fn units(value: Decimal) -> i64 {
    let scale = value.scale();
    assert!(scale <= 8, "{value} has a scale above 8");
    let units = value.mantissa() * 10_i128.pow(8 - scale);
    i64::try_from(units).expect("amounts and sums fit a word")
}

/// The units of a price, size or sum that can't be negative.
pub fn word(value: Decimal) -> u64 {
    u64::try_from(units(value)).expect("resting amounts aren't negative")
}

pub fn id_text(id: Id) -> String {
    format!("{id:032x}")
}

pub fn id_of(text: &str) -> Id {
    Id::from_str_radix(text, 16).expect("ids are the runner's own texts")
}

pub fn product_text(product: &Product) -> String {
    format!("{:032x}", u128::from_be_bytes(*product))
}

pub fn side(side: Side) -> theirs::L3Side {
    match side {
        Side::Buy => theirs::L3Side::Buy,
        Side::Sell => theirs::L3Side::Sell,
    }
}

pub fn rules(rules: &call::Rules) -> VenueRules {
    let limit = |limit: u64| usize::try_from(limit).expect("a 64-bit machine");
    VenueRules {
        size_decrease: match rules.size_decrease {
            call::SizeDecrease::KeepsPriority => SizeDecrease::KeepsPriority,
            call::SizeDecrease::PriorityUnknown => SizeDecrease::PriorityUnknown,
        },
        max_orders: limit(rules.max_orders),
        max_levels: limit(rules.max_levels),
    }
}

pub fn snapshot(snapshot: &Snapshot) -> theirs::L3Snapshot {
    let orders = |orders: &[crate::piece::SnapshotOrder]| {
        let order = |o: &crate::piece::SnapshotOrder| theirs::SnapshotOrder {
            order_id: id_text(o.id),
            price: amount(o.price),
            size: amount(o.size),
        };
        orders.iter().map(order).collect()
    };
    theirs::L3Snapshot {
        product_id: product_text(&snapshot.product),
        sequence: snapshot.sequence,
        bids: orders(&snapshot.bids),
        asks: orders(&snapshot.asks),
    }
}

pub fn message(message: &Message) -> theirs::L3Message {
    theirs::L3Message {
        product_id: product_text(&message.product),
        sequence: message.sequence,
        time_us: message.time_us,
        event: event(&message.event),
    }
}

fn done_reason(reason: DoneReason) -> theirs::DoneReason {
    match reason {
        DoneReason::Filled => theirs::DoneReason::Filled,
        DoneReason::Canceled => theirs::DoneReason::Canceled,
    }
}

fn event(event: &Event) -> theirs::L3Event {
    match *event {
        Event::Received { order_id, side: s } => theirs::L3Event::Received {
            order_id: id_text(order_id),
            side: side(s),
        },
        Event::Open {
            order_id,
            side: s,
            price,
            remaining,
        } => theirs::L3Event::Open {
            order_id: id_text(order_id),
            side: side(s),
            price: amount(price),
            remaining: amount(remaining),
        },
        Event::Done {
            order_id,
            side: s,
            price,
            reason,
            remaining,
        } => theirs::L3Event::Done {
            order_id: id_text(order_id),
            side: side(s),
            price: price.map(amount),
            reason: done_reason(reason),
            remaining: remaining.map(amount),
        },
        Event::Match {
            maker_id,
            taker_id,
            side: s,
            price,
            size,
        } => theirs::L3Event::Match {
            maker_id: id_text(maker_id),
            taker_id: id_text(taker_id),
            side: side(s),
            price: amount(price),
            size: amount(size),
        },
        Event::Change { .. } => change(event),
        Event::Unsupported { kind } => theirs::L3Event::Unsupported {
            kind: kind.to_string(),
        },
    }
}

fn change(event: &Event) -> theirs::L3Event {
    let &Event::Change {
        order_id,
        side: s,
        reason,
        price,
        old_size,
        new_size,
        old_price,
        new_price,
        new_funds,
    } = event
    else {
        unreachable!("called for changes only");
    };
    theirs::L3Event::Change {
        order_id: id_text(order_id),
        side: side(s),
        reason: match reason {
            ChangeReason::Stp => theirs::ChangeReason::Stp,
            ChangeReason::ModifyOrder => theirs::ChangeReason::ModifyOrder,
        },
        price: price.map(amount),
        old_size: old_size.map(amount),
        new_size: new_size.map(amount),
        old_price: old_price.map(amount),
        new_price: new_price.map(amount),
        new_funds: new_funds.map(amount),
    }
}

pub fn applied(applied: Applied) -> call::Applied {
    match applied {
        Applied::BookChanged => call::Applied::BookChanged,
        Applied::NoBookEffect => call::Applied::NoBookEffect,
    }
}

pub fn snapshot_error(error: &SnapshotError) -> u8 {
    match error {
        SnapshotError::WrongProduct { .. } => 10,
        SnapshotError::DuplicateId(_) => 11,
        SnapshotError::InvalidValue(_) => 12,
        SnapshotError::Crossed { .. } => 13,
        SnapshotError::CapacityExceeded(_) => 14,
        SnapshotError::Arithmetic(what) => panic!("Arithmetic can't arise in the domain: {what}"),
    }
}

fn discrepancy(discrepancy: &Discrepancy) -> (u8, bool) {
    match discrepancy {
        Discrepancy::UnknownMaker { .. } => (30, false),
        Discrepancy::TakerResting { .. } => (31, false),
        Discrepancy::MatchMismatch { .. } => (32, false),
        Discrepancy::MatchExceedsRemaining { .. } => (33, false),
        Discrepancy::DuplicateOpen { .. } => (34, false),
        Discrepancy::MissingMatch { .. } => (35, false),
        Discrepancy::RemainingMismatch { .. } => (36, false),
        Discrepancy::DoneMismatch { .. } => (37, false),
        Discrepancy::MalformedChange { reason, .. } => (38, reason.starts_with("funds")),
        Discrepancy::ChangeMismatch { .. } => (39, false),
        Discrepancy::UnsupportedModification { .. } => (40, false),
        Discrepancy::CrossedAfterApply { .. } => (41, false),
        Discrepancy::InvalidValue { .. } => (42, false),
        Discrepancy::CapacityExceeded { .. } => (43, false),
        Discrepancy::UnsupportedInput { .. } => (44, false),
        Discrepancy::Arithmetic { what } => panic!("Arithmetic can't arise in the domain: {what}"),
    }
}

/// The number keeps what a gap or a repeat says besides: both follow from the two sequences.
pub fn invalidation(why: &Invalidation) -> call::Invalidation {
    let (last, offending) = (why.last_good_seq, why.first_offending_seq);
    let (reason, funds) = match &why.kind {
        InvalidationKind::Gap { expected, got } => {
            assert_eq!((*expected, *got), (last + 1, offending));
            (20, false)
        }
        InvalidationKind::OutOfOrderOrDuplicate { last: theirs, got } => {
            assert_eq!((*theirs, *got), (last, offending));
            (21, false)
        }
        InvalidationKind::SequenceOverflow => (22, false),
        InvalidationKind::Discrepancy(why) => discrepancy(why),
    };
    call::Invalidation {
        last_good_seq: last,
        first_offending_seq: offending,
        reason,
        funds,
    }
}

pub fn segment_end(end: &SegmentEnd) -> call::SegmentEnd {
    match end {
        SegmentEnd::Open => call::SegmentEnd::Open,
        SegmentEnd::Superseded => call::SegmentEnd::Superseded,
        SegmentEnd::Invalidated(why) => call::SegmentEnd::Invalidated(invalidation(why)),
    }
}

pub fn counts(counts: &MessageCounts) -> call::Counts {
    let word = |count: usize| count as u64;
    call::Counts {
        received: word(counts.received),
        open: word(counts.open),
        done: word(counts.done),
        matched: word(counts.matched),
        stp_decrease: word(counts.stp_decrease),
        off_book_done: word(counts.off_book_done),
        off_book_change: word(counts.off_book_change),
        noop_change: word(counts.noop_change),
        handshake_dropped: word(counts.handshake_dropped),
        skipped_while_invalid: word(counts.skipped_while_invalid),
        wrong_product: word(counts.wrong_product),
        rejected_snapshots: word(counts.rejected_snapshots),
    }
}

pub fn view_error(error: &ViewError) -> (u8, call::Values) {
    match error {
        ViewError::NotBootstrapped => (15, call::Values::Nothing),
        ViewError::Invalidated(why) => (18, call::Values::Invalidation(invalidation(why))),
        ViewError::Arithmetic(what) => panic!("Arithmetic can't arise in the domain: {what}"),
    }
}

pub fn queue_error(error: &QueueError) -> (u8, call::Values) {
    match error {
        QueueError::View(error) => view_error(error),
        QueueError::StaleEstimate => (50, call::Values::Nothing),
        QueueError::PriorityUnknown { .. } => (51, call::Values::Nothing),
        QueueError::NotResting { .. } => (52, call::Values::Nothing),
        QueueError::Arithmetic(what) => panic!("Arithmetic can't arise in the domain: {what}"),
    }
}

pub fn ahead(ahead: &QueueAhead) -> call::Ahead {
    let assumption = |assumption: &Assumption| match assumption {
        Assumption::BackOfVisibleQueueAtCreation => call::Assumption::BackOfVisibleQueueAtCreation,
        Assumption::EntrySequenceIsPriority => call::Assumption::EntrySequenceIsPriority,
        Assumption::SizeDecreaseKeepsPriority => call::Assumption::SizeDecreaseKeepsPriority,
    };
    call::Ahead {
        at_seq: ahead.at_seq,
        volume: word(ahead.volume),
        from_snapshot: word(ahead.from_snapshot),
        observed: word(ahead.observed),
        orders: ahead.orders as u64,
        assumptions: ahead.assumptions.iter().map(assumption).collect(),
    }
}
