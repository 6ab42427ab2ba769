//! 01's examples, row by row, and its figures C1 to C4, on the model alone.

use super::Model;
use crate::call::{
    Act, Ahead, Anchor, Answer, Applied, Assumption, Call, Estimate, Field, Handshake, Lent, Rules,
    Said, SegmentEnd, SegmentName, SizeDecrease, Status, Stepped, Subject, Values, fill_word,
};
use crate::piece::{
    ChangeReason, DoneReason, Event, Id, Message, Product, Side, Snapshot, SnapshotOrder,
    encode_message, encode_snapshot,
};

const P: Product = *b"P\0\0\0\0\0\0\0\0\0\0\0\0\0\0\0";
const Q: Product = *b"Q\0\0\0\0\0\0\0\0\0\0\0\0\0\0\0";
const A: Id = 0xA;
const B: Id = 0xB;
const C: Id = 0xC;
const Z: Id = 0xF;

const LENT: Lent = Lent {
    rows: 64,
    segments: 4,
    scratch: 8,
    output: 64,
    ahead: 12,
};

/// A host with one book, lent enough of everything unless a test says otherwise.
struct Host {
    model: Model,
    lent: Lent,
}

impl Host {
    /// A fresh book of product P under these limits.
    fn fresh(max_orders: u64, max_levels: u64) -> Host {
        let (model, lent) = (Model::new(), LENT);
        let mut host = Host { model, lent };
        let rules = Rules {
            size_decrease: SizeDecrease::KeepsPriority,
            max_orders,
            max_levels,
        };
        host.create(rules);
        host
    }

    /// "E is the book of product P, limits 3 and 3, snapshot at 100: buy A price 10 size 2, sell B price 12 size 3"
    fn e() -> Host {
        let mut host = Host::fresh(3, 3);
        assert_eq!(host.bootstrap(&snapshot_e(100)), 0);
        host
    }

    fn create(&mut self, rules: Rules) {
        self.call(Act::Create {
            product: P,
            rules,
            number: 1,
            row_words: 64,
            segment_records: 4,
            row_fill: 9,
            segment_fill: 9,
        });
    }

    fn call(&mut self, act: Act) -> Said {
        let lent = self.lent;
        match self.model.call(&Call { book: 0, lent, act }) {
            Answer::Said(said) => *said,
            other => panic!("{other:?}"),
        }
    }

    fn bootstrap(&mut self, snapshot: &Snapshot) -> u8 {
        let piece = encode_snapshot(snapshot);
        self.call(Act::Bootstrap { piece }).number
    }

    fn send(&mut self, message: Message) -> Said {
        let piece = encode_message(&message);
        self.call(Act::Apply { piece })
    }

    fn apply(&mut self, sequence: u64, event: Event) -> Said {
        self.send(message(P, sequence, event))
    }

    /// The reason of the 16 that this event at 101 is answered with.
    fn reason(&mut self, event: Event) -> u8 {
        let said = self.apply(101, event);
        match (said.number, said.values) {
            (16, Values::Invalidation(why)) => {
                assert_eq!((why.last_good_seq, why.first_offending_seq), (100, 101));
                why.reason
            }
            other => panic!("{other:?}"),
        }
    }

    fn set(&mut self, field: Field) {
        self.call(Act::SetState { field });
    }

    fn audit(&mut self) -> u8 {
        self.call(Act::Audit).number
    }
}

fn message(product: Product, sequence: u64, event: Event) -> Message {
    let time_us = sequence * 10;
    Message {
        product,
        sequence,
        time_us,
        event,
    }
}

fn order(id: Id, price: i64, size: i64) -> SnapshotOrder {
    SnapshotOrder { id, price, size }
}

fn snapshot(sequence: u64, bids: &[SnapshotOrder], asks: &[SnapshotOrder]) -> Snapshot {
    let (bids, asks) = (bids.to_vec(), asks.to_vec());
    Snapshot {
        product: P,
        sequence,
        bids,
        asks,
    }
}

fn snapshot_e(sequence: u64) -> Snapshot {
    snapshot(sequence, &[order(A, 10, 2)], &[order(B, 12, 3)])
}

fn open(order_id: Id, side: Side, price: i64, remaining: i64) -> Event {
    Event::Open {
        order_id,
        side,
        price,
        remaining,
    }
}

fn matched(maker_id: Id, taker_id: Id, price: i64, size: i64) -> Event {
    let side = Side::Buy;
    Event::Match {
        maker_id,
        taker_id,
        side,
        price,
        size,
    }
}

fn done(order_id: Id, side: Side, reason: DoneReason, remaining: Option<i64>) -> Event {
    let price = None;
    Event::Done {
        order_id,
        side,
        price,
        reason,
        remaining,
    }
}

fn change(reason: ChangeReason, old_size: Option<i64>, new_size: Option<i64>) -> Event {
    Event::Change {
        order_id: A,
        side: Side::Buy,
        reason,
        price: None,
        old_size,
        new_size,
        old_price: None,
        new_price: None,
        new_funds: None,
    }
}

fn received() -> Event {
    Event::Received {
        order_id: Z,
        side: Side::Buy,
    }
}

/// 1 to 9.
#[test]
fn the_ports_own_checks() {
    assert_eq!(Host::fresh(4_097, 3).bootstrap(&snapshot_e(100)), 1);
    let mut host = Host::e();
    host.lent.rows = 23;
    assert_eq!(host.audit(), 2);
    let mut host = Host::e();
    host.call(Act::SetRow { index: 2, word: 0 });
    assert_eq!(host.audit(), 3);
    let mut host = Host::e();
    assert_eq!(host.call(Act::Bootstrap { piece: vec![] }).number, 4);
    assert_eq!(
        host.apply(101, open(C, Side::Buy, 1_000_000_000_000_001, 1))
            .number,
        5
    );
    host.lent.segments = 1;
    assert_eq!(host.bootstrap(&snapshot_e(200)), 6);
    host.lent.output = 0;
    let level = Act::LevelQueue {
        side: Side::Buy,
        price: 10,
    };
    assert_eq!(host.call(level).number, 7);
    let queue = Act::QueueEstimate {
        slot: 0,
        side: Side::Buy,
        price: 10,
    };
    assert_eq!(host.call(queue).number, 0);
    host.lent.ahead = 2;
    assert_eq!(host.call(Act::VolumeAhead { slot: 0 }).number, 8);
    host.call(Act::Handshake { slot: 0 });
    let piece = encode_message(&message(P, 102, received()));
    let step = Act::Step { slot: 0, piece };
    assert_eq!(host.call(step.clone()).number, 16);
    assert_eq!(host.call(step).number, 9);
}

/// 3, one condition at a time, on E: A's row is words 0 to 7, B's 8 to 15.
#[test]
fn every_condition_of_number_3() {
    const ABOVE: u64 = 1_000_000_000_000_001;
    let words: [&[(u64, u64)]; 12] = [
        &[(4, 4)],
        &[(2, 0)],
        &[(10, ABOVE)],
        &[(3, 0)],
        &[(3, ABOVE)],
        &[(6, 2)],
        &[(7, 1)],
        &[(6, 0), (7, u64::MAX)],
        &[(8, 0), (9, 0xA)],
        &[(2, 12)],
        &[(2, 13)],
        &[(12, 0), (10, 0)],
    ];
    for damage in words {
        let mut host = Host::e();
        for &(index, word) in damage {
            host.call(Act::SetRow { index, word });
        }
        assert_eq!(host.audit(), 3, "{damage:?}");
    }
}

#[test]
fn words_that_number_3_leaves_free() {
    let harmless: [&[(u64, u64)]; 4] = [
        &[(6, 1)],
        &[(6, 1), (7, u64::MAX)],
        &[(5, 7)],
        &[(4, 2), (12, 3), (16, 1)],
    ];
    for damage in harmless {
        let mut host = Host::e();
        for &(index, word) in damage {
            host.call(Act::SetRow { index, word });
        }
        assert_eq!(host.audit(), 0, "{damage:?}");
    }
}

/// 3 on the state's fields and on the level limit.
#[test]
fn conditions_of_number_3_on_the_state() {
    for field in [
        Field::Rows(4),
        Field::Segments(0),
        Field::Status(Status::NoSnapshot),
    ] {
        let mut host = Host::e();
        host.set(field);
        assert_eq!(host.audit(), 3, "{field:?}");
    }
    for field in [Field::Rows(1), Field::Segments(1)] {
        let mut host = Host::fresh(3, 3);
        host.call(Act::SetRow { index: 4, word: 0 });
        host.call(Act::SetRow { index: 2, word: 1 });
        host.call(Act::SetRow { index: 3, word: 1 });
        host.set(field);
        assert_eq!(host.audit(), 3, "{field:?}");
    }
    // Four levels under limit 3: two rows more, at prices of their own.
    let mut host = Host::fresh(4, 3);
    let full = snapshot(
        100,
        &[order(A, 10, 2), order(C, 10, 2)],
        &[order(B, 12, 3), order(Z, 13, 3)],
    );
    assert_eq!(host.bootstrap(&full), 0);
    assert_eq!(host.audit(), 0);
    host.call(Act::SetRow { index: 10, word: 9 });
    assert_eq!(host.audit(), 3);
}

/// 10 to 14.
#[test]
fn products_and_snapshots() {
    let mut host = Host::e();
    assert_eq!(
        host.send(message(Q, 101, open(C, Side::Buy, 10, 1))).number,
        10
    );
    let refused = [
        (11, snapshot(200, &[order(A, 10, 2), order(A, 9, 2)], &[])),
        (12, snapshot(200, &[order(A, 10, 0)], &[])),
        (13, snapshot(200, &[order(A, 5, 1)], &[order(B, 5, 1)])),
        (
            14,
            snapshot(
                200,
                &[order(A, 4, 1), order(B, 4, 1)],
                &[order(C, 5, 1), order(Z, 5, 1)],
            ),
        ),
    ];
    for (number, snapshot) in &refused {
        assert_eq!(host.bootstrap(snapshot), *number);
    }
    let state = host.call(Act::Audit).state.unwrap();
    assert_eq!(
        (state.counts.wrong_product, state.counts.rejected_snapshots),
        (1, 4)
    );
    assert_eq!(
        (state.status, state.last_segment.unwrap().end),
        (Status::Valid, SegmentEnd::Open)
    );
    // Limits 2 and 1: a level is a (side, price) pair, so 14 comes before 13.
    let touching = snapshot(200, &[order(A, 5, 1)], &[order(B, 5, 1)]);
    assert_eq!(Host::fresh(2, 1).bootstrap(&touching), 14);
}

/// 15 to 22.
#[test]
fn standing_and_sequence() {
    assert_eq!(
        Host::fresh(3, 3)
            .apply(101, open(C, Side::Buy, 10, 1))
            .number,
        15
    );
    for (sequence, reason) in [(102, 20), (100, 21)] {
        let mut host = Host::e();
        let Values::Invalidation(why) = host.apply(sequence, received()).values else {
            panic!("not invalidated");
        };
        assert_eq!((why.reason, why.last_good_seq), (reason, 100));
        assert_eq!(host.apply(sequence, received()).number, 17);
        assert_eq!(host.audit(), 18);
    }
    let mut host = Host::e();
    assert_eq!(host.bootstrap(&snapshot_e(u64::MAX)), 0);
    let Values::Invalidation(why) = host.apply(0, received()).values else {
        panic!("not invalidated");
    };
    assert_eq!(why.reason, 22);
}

/// 30 to 44.
#[test]
fn events_that_invalidate() {
    let (stp, modify) = (ChangeReason::Stp, ChangeReason::ModifyOrder);
    let (filled, canceled) = (DoneReason::Filled, DoneReason::Canceled);
    let rows = [
        (30, matched(Z, C, 10, 1)),
        (31, matched(Z, A, 10, 1)),
        (32, matched(A, Z, 11, 1)),
        (33, matched(A, Z, 10, 3)),
        (34, open(A, Side::Buy, 10, 1)),
        (35, done(A, Side::Buy, filled, None)),
        (36, done(A, Side::Buy, canceled, None)),
        (37, done(A, Side::Sell, canceled, Some(2))),
        (38, change(stp, None, None)),
        (39, change(stp, Some(9), None)),
        (40, change(stp, None, Some(3))),
        (40, change(modify, Some(9), None)),
        (41, open(C, Side::Buy, 12, 1)),
        (42, open(C, Side::Buy, 10, 0)),
        (42, change(stp, None, Some(-1))),
        (44, Event::Unsupported { kind: 7 }),
    ];
    for (reason, event) in rows {
        assert_eq!(Host::e().reason(event), reason, "{event:?}");
    }
    let mut host = Host::e();
    assert_eq!(host.apply(101, open(C, Side::Buy, 10, 5)).number, 0);
    let Values::Invalidation(why) = host.apply(102, open(Z, Side::Buy, 10, 5)).values else {
        panic!("not invalidated");
    };
    assert_eq!(why.reason, 43);
}

/// 50 to 52.
#[test]
fn estimates_that_are_refused() {
    let mut host = Host::e();
    assert_eq!(
        host.call(Act::QueueEstimateOwn {
            slot: 0,
            order_id: A
        })
        .number,
        51
    );
    assert_eq!(
        host.call(Act::QueueEstimateOwn {
            slot: 0,
            order_id: Z
        })
        .number,
        52
    );
    host.call(Act::QueueEstimate {
        slot: 0,
        side: Side::Buy,
        price: 10,
    });
    assert_eq!(host.bootstrap(&snapshot_e(100)), 0);
    assert_eq!(host.call(Act::VolumeAhead { slot: 0 }).number, 50);
}

fn own_estimate() -> Estimate {
    Estimate {
        side: Side::Buy,
        price: 10,
        segment: SegmentName {
            number: 1,
            place: 0,
        },
        anchor: Anchor::Own {
            order_id: C,
            entered_at: 101,
        },
    }
}

fn ahead(at_seq: u64, from_snapshot: u64, orders: u64) -> Values {
    Values::Ahead(Ahead {
        at_seq,
        volume: from_snapshot,
        from_snapshot,
        observed: 0,
        orders,
        assumptions: vec![Assumption::EntrySequenceIsPriority],
    })
}

/// C1 and C2.
#[test]
fn volume_ahead_of_an_own_order() {
    let mut host = Host::e();
    assert_eq!(
        host.apply(101, open(C, Side::Buy, 10, 5)).values,
        Values::Applied(Applied::BookChanged)
    );
    let own = host
        .call(Act::QueueEstimateOwn {
            slot: 0,
            order_id: C,
        })
        .values;
    assert_eq!(
        own,
        Values::Estimate {
            estimate: own_estimate(),
            list: vec![]
        }
    );
    assert_eq!(
        host.call(Act::VolumeAhead { slot: 0 }).values,
        ahead(101, 2, 1)
    );
    assert_eq!(host.apply(102, matched(A, Z, 10, 2)).number, 0);
    let level = host.call(Act::L2 { side: Side::Buy }).values;
    assert_eq!(
        level,
        Values::Entries {
            entries: 1,
            words: vec![10, 5]
        }
    );
    assert_eq!(
        host.call(Act::VolumeAhead { slot: 0 }).values,
        ahead(102, 0, 0)
    );
}

/// C3 and C4.
#[test]
fn off_book_done_and_the_largest_amount() {
    let mut host = Host::e();
    let before = host.call(Act::Audit).state.unwrap();
    let said = host.apply(101, done(Z, Side::Buy, DoneReason::Canceled, None));
    let after = said.state.unwrap();
    assert_eq!(said.values, Values::Applied(Applied::NoBookEffect));
    assert_eq!(after.memory.unwrap().rows, before.memory.unwrap().rows);
    assert_eq!((after.last_sequence, after.counts.off_book_done), (101, 1));
    let largest = open(C, Side::Sell, 1_000_000_000_000_000, 1_000_000_000_000_000);
    assert_eq!(host.apply(102, largest).number, 0);
    let segment = host.call(Act::Audit).state.unwrap().last_segment.unwrap();
    assert_eq!((segment.first_us, segment.last_us), (1_010, 1_020));
}

/// A drop is told by the segment's record, on an invalid book too, and leaves the handshake alive.
#[test]
fn steps_of_a_handshake() {
    let mut host = Host::e();
    host.call(Act::Handshake { slot: 0 });
    let mut step = |sequence, event| {
        let piece = encode_message(&message(P, sequence, event));
        let said = host.call(Act::Step { slot: 0, piece });
        let Values::Step {
            stepped, handshake, ..
        } = said.values
        else {
            panic!("no step");
        };
        (said.number, stepped, handshake.applied, handshake.ended)
    };
    let unsupported = Event::Unsupported { kind: 7 };
    assert_eq!(
        step(100, unsupported),
        (0, Some(Stepped::Dropped), 0, false)
    );
    let applied = Some(Stepped::Applied(Applied::NoBookEffect));
    assert_eq!(step(101, received()), (0, applied, 1, false));
    assert_eq!(step(102, unsupported), (16, None, 1, true));
    assert_eq!(step(103, received()), (9, None, 1, true));
    host.call(Act::Handshake { slot: 0 });
    let mut step = |sequence| {
        let piece = encode_message(&message(P, sequence, received()));
        host.call(Act::Step { slot: 0, piece }).number
    };
    assert_eq!((step(100), step(103), step(100)), (0, 17, 9));
}

/// A handshake made before any snapshot has ended: every step of it is 9, after a snapshot too.
#[test]
fn a_handshake_without_a_segment() {
    let mut host = Host::fresh(3, 3);
    let said = host.call(Act::Handshake { slot: 0 });
    let name = SegmentName {
        number: 1,
        place: 0,
    };
    let ended = Handshake {
        segment: name,
        start_seq: 0,
        applied: 0,
        ended: true,
    };
    assert_eq!((said.number, said.values), (0, Values::Handshake(ended)));
    let piece = encode_message(&message(P, 101, received()));
    let step = Act::Step { slot: 0, piece };
    assert_eq!(host.call(step.clone()).number, 9);
    assert_eq!(host.bootstrap(&snapshot_e(100)), 0);
    assert_eq!(host.call(step).number, 9);
}

/// Row memory word by word: what stood past the last row at creation stays there until a row is written over it.
#[test]
fn rows_in_memory() {
    let fill: Vec<u64> = (0..64).map(|index| fill_word(9, index)).collect();
    let holds = |host: &Host, rows: &[[u64; 8]]| {
        let written = rows.concat();
        let untouched = &fill[written.len()..];
        assert_eq!(host.model.books[&0].words, [&written, untouched].concat());
    };
    let a = [0, 0xA, 10, 2, 0, 100, 0, 0];
    let b = [0, 0xB, 12, 3, 1, 100, 0, 0];
    let mut host = Host::e();
    holds(&host, &[a, b]);
    host.apply(101, open(C, Side::Buy, 10, 5));
    holds(&host, &[a, b, [0, 0xC, 10, 5, 2, 101, 0, 0]]);
    // A match leaves no mark, a decrease does, an equal size changes nothing.
    host.apply(102, matched(C, Z, 10, 1));
    holds(&host, &[a, b, [0, 0xC, 10, 4, 2, 101, 0, 0]]);
    host.apply(103, change(ChangeReason::Stp, Some(2), Some(1)));
    let smaller = [0, 0xA, 10, 1, 0, 100, 1, 103];
    holds(&host, &[smaller, b, [0, 0xC, 10, 4, 2, 101, 0, 0]]);
    host.apply(104, change(ChangeReason::Stp, Some(1), Some(1)));
    holds(&host, &[smaller, b, [0, 0xC, 10, 4, 2, 101, 0, 0]]);
    // Later rows move down and the freed one is zeroed.
    host.apply(105, change(ChangeReason::Stp, None, Some(0)));
    holds(&host, &[b, [0, 0xC, 10, 4, 2, 101, 0, 0], [0; 8]]);
    // The rows stay as stale book; a snapshot zeroes the former rows beyond its own.
    host.apply(107, received());
    holds(&host, &[b, [0, 0xC, 10, 4, 2, 101, 0, 0], [0; 8]]);
    assert_eq!(host.bootstrap(&snapshot(7, &[], &[order(Z, 9, 9)])), 0);
    holds(&host, &[[0, 0xF, 9, 9, 1, 7, 0, 0], [0; 8], [0; 8]]);
}

/// Estimates and ahead-lists are the caller's memory and count as they stand.
#[test]
fn forged_estimates() {
    let mut host = Host::e();
    host.apply(101, open(C, Side::Buy, 9, 5));
    let volume = |host: &mut Host, estimate: Estimate, list: &[u64]| {
        let (slot, list) = (0, list.to_vec());
        host.call(Act::ForgeEstimate {
            slot,
            estimate,
            list,
        });
        host.lent.ahead = 12;
        let said = host.call(Act::VolumeAhead { slot });
        match said.values {
            Values::Ahead(ahead) => (said.number, ahead.volume, ahead.orders),
            _ => (said.number, 0, 0),
        }
    };
    // An own order's estimate that names another level: all of that level is ahead.
    assert_eq!(volume(&mut host, own_estimate(), &[]), (0, 2, 1));
    let entries = [0, 0xA, 100, 0, 0xA, 100, 0, 0xC, 100, 0, 0xB, 100];
    let of = |orders| Estimate {
        anchor: Anchor::Hypothetical {
            orders,
            created_at: 0,
        },
        ..own_estimate()
    };
    // A doubled entry counts twice, one with another entered_at not at all, one of another level as well.
    assert_eq!(volume(&mut host, of(4), &entries), (0, 7, 3));
    assert_eq!(volume(&mut host, of(0), &[]), (0, 0, 0));
    assert_eq!(volume(&mut host, of(4), &entries[..11]), (8, 0, 0));
    assert_eq!(volume(&mut host, of(u64::MAX), &entries), (8, 0, 0));
}

/// "whatever the value holds": a forged start_seq drops nothing, and forged state ends the handshake as any other would.
#[test]
fn forged_handshakes() {
    let mut host = Host::e();
    let forged = |place, start_seq, applied| Handshake {
        segment: SegmentName { number: 1, place },
        start_seq,
        applied,
        ended: false,
    };
    let mut step = |handshake, sequence| {
        let slot = 0;
        host.call(Act::ForgeHandshake { slot, handshake });
        let piece = encode_message(&message(P, sequence, received()));
        let said = host.call(Act::Step { slot, piece });
        let Values::Step { handshake, .. } = said.values else {
            panic!("no step");
        };
        (said.number, handshake.applied, handshake.ended)
    };
    assert_eq!(step(forged(1, 0, 0), 100), (9, 0, false));
    assert_eq!(step(forged(0, 0, 7), 100), (0, 7, false));
    assert_eq!(step(forged(0, 500, u64::MAX), 101), (0, u64::MAX, false));
    assert_eq!(step(forged(0, 500, 3), 103), (16, 3, true));
    assert_eq!(step(forged(0, 500, 3), 103), (17, 3, true));
    let mut fresh = Host::fresh(3, 3);
    let handshake = forged(u64::MAX, 0, 0);
    fresh.call(Act::ForgeHandshake { slot: 0, handshake });
    let piece = encode_message(&message(P, 0, received()));
    assert_eq!(fresh.call(Act::Step { slot: 0, piece }).number, 9);
}
