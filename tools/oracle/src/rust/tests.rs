//! The runner against the Rust itself: handshakes step by step, and the figures and examples of 01.

use std::collections::BTreeMap;

use super::{Rust, convert};
use crate::call::{
    Act, Ahead, Answer, Applied, Assumption, CEILING, Call, Counts, Lent, Rules, Said,
    SizeDecrease, State, Status, Stepped, Subject, Values,
};
use crate::generate::Generator;
use crate::l3::message::L3Message;
use crate::l3::reconstructor::{ApplyError, BookReconstructor, HandshakeError, SegmentEnd};
use crate::piece::{
    DoneReason, Event, Message, Product, Side, Snapshot, SnapshotOrder, decode_message,
    decode_snapshot, encode_message, encode_snapshot,
};

const P: [u8; 16] = *b"P\0\0\0\0\0\0\0\0\0\0\0\0\0\0\0";
const A: u128 = 0xA;
const B: u128 = 0xB;
const C: u128 = 0xC;
const Z: u128 = 0xF;

const PLENTY: Lent = Lent {
    rows: 1_000,
    segments: 100,
    scratch: 100,
    output: 100,
    ahead: 100,
};

fn said(subject: &mut impl Subject, act: Act) -> Said {
    let call = Call {
        book: 0,
        lent: PLENTY,
        act,
    };
    match subject.call(&call) {
        Answer::Said(said) => *said,
        other => panic!("{call:?}: {other:?}"),
    }
}

const RULES: Rules = Rules {
    size_decrease: SizeDecrease::KeepsPriority,
    max_orders: 3,
    max_levels: 3,
};

fn create_with(subject: &mut impl Subject, product: Product, rules: Rules) {
    let act = Act::Create {
        product,
        rules,
        number: 1,
        row_words: 8 * rules.max_orders.min(CEILING),
        segment_records: 50,
        row_fill: 1,
        segment_fill: 1,
    };
    said(subject, act);
}

fn create(subject: &mut impl Subject) {
    create_with(subject, P, RULES);
}

fn snapshot() -> Snapshot {
    let order = |id: u128, price: i64, size: i64| SnapshotOrder { id, price, size };
    Snapshot {
        product: P,
        sequence: 100,
        bids: vec![order(A, 10, 2)],
        asks: vec![order(B, 12, 3)],
    }
}

/// The book E of 01.
fn book_e() -> Rust {
    let mut rust = Rust::new();
    create(&mut rust);
    let piece = encode_snapshot(&snapshot());
    assert_eq!(said(&mut rust, Act::Bootstrap { piece }).number, 0);
    rust
}

fn message(sequence: u64, event: Event) -> Message {
    Message {
        product: P,
        sequence,
        time_us: sequence * 10,
        event,
    }
}

fn apply(subject: &mut impl Subject, sequence: u64, event: Event) -> Said {
    let piece = encode_message(&message(sequence, event));
    said(subject, Act::Apply { piece })
}

fn open(order_id: u128, side: Side, price: i64, remaining: i64) -> Event {
    Event::Open {
        order_id,
        side,
        price,
        remaining,
    }
}

fn matched(maker_id: u128, taker_id: u128, price: i64, size: i64) -> Event {
    Event::Match {
        maker_id,
        taker_id,
        side: Side::Buy,
        price,
        size,
    }
}

fn done(order_id: u128, reason: DoneReason, remaining: Option<i64>) -> Event {
    Event::Done {
        order_id,
        side: Side::Buy,
        price: None,
        reason,
        remaining,
    }
}

fn reason(said: &Said) -> Option<u8> {
    match said.values {
        Values::Invalidation(why) => Some(why.reason),
        _ => None,
    }
}

#[test]
fn figures_c1_and_c2() {
    let mut rust = book_e();
    assert_eq!(
        apply(&mut rust, 101, open(C, Side::Buy, 10, 5)).values,
        Values::Applied(Applied::BookChanged)
    );
    let own = Act::QueueEstimateOwn {
        slot: 0,
        order_id: C,
    };
    assert_eq!(said(&mut rust, own).number, 0);
    let ahead = |at_seq: u64, volume: u64, orders: u64| {
        Values::Ahead(Ahead {
            at_seq,
            volume,
            from_snapshot: volume,
            observed: 0,
            orders,
            assumptions: vec![Assumption::EntrySequenceIsPriority],
        })
    };
    let volume_ahead = Act::VolumeAhead { slot: 0 };
    assert_eq!(
        said(&mut rust, volume_ahead.clone()).values,
        ahead(101, 2, 1)
    );
    assert_eq!(apply(&mut rust, 102, matched(A, Z, 10, 2)).number, 0);
    assert_eq!(said(&mut rust, volume_ahead).values, ahead(102, 0, 0));
    let words = vec![10, 5, 0];
    assert_eq!(
        said(&mut rust, Act::PriorityProfile { side: Side::Buy }).values,
        Values::Entries { entries: 1, words }
    );
}

#[test]
fn figures_c3_and_c4() {
    let mut rust = book_e();
    let before = said(&mut rust, Act::Audit).state;
    let after = apply(&mut rust, 101, done(Z, DoneReason::Canceled, None));
    assert_eq!(after.values, Values::Applied(Applied::NoBookEffect));
    let (before, after) = (before.expect("a book"), after.state.expect("a book"));
    assert_eq!((after.rows, after.levels), (before.rows, before.levels));
    assert_eq!(after.last_sequence, 101);
    let limit = crate::piece::AMOUNT_LIMIT;
    assert_eq!(
        apply(&mut rust, 102, open(C, Side::Sell, limit, limit)).number,
        0
    );
    assert_eq!(
        apply(&mut rust, 103, open(Z, Side::Sell, limit + 1, 1)).number,
        5
    );
}

/// The examples of 01's table that are one message on E.
#[test]
fn examples_of_the_reasons() {
    let examples = [
        (20, 102, open(C, Side::Buy, 10, 1)),
        (21, 100, open(C, Side::Buy, 10, 1)),
        (30, 101, matched(Z, C, 10, 1)),
        (31, 101, matched(Z, A, 10, 1)),
        (32, 101, matched(A, Z, 11, 1)),
        (33, 101, matched(A, Z, 10, 3)),
        (34, 101, open(A, Side::Buy, 10, 1)),
        (35, 101, done(A, DoneReason::Filled, Some(0))),
        (36, 101, done(A, DoneReason::Canceled, None)),
        (41, 101, open(C, Side::Buy, 12, 1)),
        (42, 101, open(C, Side::Buy, 10, 0)),
        (44, 101, Event::Unsupported { kind: 7 }),
    ];
    for (number, sequence, event) in examples {
        let mut rust = book_e();
        let answer = apply(&mut rust, sequence, event);
        assert_eq!((answer.number, reason(&answer)), (16, Some(number)));
        assert_eq!(apply(&mut rust, 101, event).number, 17);
        assert_eq!(said(&mut rust, Act::Audit).number, 18);
    }
}

#[test]
fn lent_lengths_are_the_runners() {
    let mut rust = book_e();
    let (side, price) = (Side::Buy, 10);
    let level = || Act::LevelQueue { side, price };
    let estimate = || Act::QueueEstimate {
        slot: 0,
        side,
        price,
    };
    let ahead = || Act::VolumeAhead { slot: 0 };
    let again = || Act::Bootstrap {
        piece: encode_snapshot(&snapshot()),
    };
    let lent = |change: fn(&mut Lent)| {
        let mut lent = PLENTY;
        change(&mut lent);
        lent
    };
    let cases = [
        (lent(|l| l.rows = 23), Act::Audit, 2),
        (lent(|l| l.rows = 24), Act::Audit, 0),
        (lent(|l| l.scratch = 2), level(), 2),
        (lent(|l| l.output = 4), level(), 7),
        (lent(|l| l.output = 5), level(), 0),
        (lent(|l| l.ahead = 2), estimate(), 7),
        (lent(|l| l.ahead = 3), estimate(), 0),
        (lent(|l| l.ahead = 2), ahead(), 8),
        (PLENTY, ahead(), 0),
        (lent(|l| l.segments = 0), again(), 2),
        (lent(|l| l.segments = 1), again(), 6),
        (lent(|l| l.segments = 2), again(), 0),
    ];
    for (lent, act, number) in cases {
        match rust.call(&Call { book: 0, lent, act }) {
            Answer::Said(said) => assert_eq!(said.number, number, "{lent:?}"),
            other => panic!("{other:?}"),
        }
    }
}

/// The words of an estimate's list come from the Rust's own value.
#[test]
fn an_estimate_is_opened_rightly() {
    let mut rust = book_e();
    apply(&mut rust, 101, open(u128::MAX - 1, Side::Buy, 10, 5));
    let estimate = Act::QueueEstimate {
        slot: 3,
        side: Side::Buy,
        price: 10,
    };
    let Values::Estimate { estimate, list } = said(&mut rust, estimate).values else {
        panic!("no estimate");
    };
    assert_eq!(list, [0, 0xA, 100, u64::MAX, u64::MAX - 1, 101]);
    assert_eq!((estimate.side, estimate.price), (Side::Buy, 10));
}

/// What a whole buffer came to, step by step: applied, and the number and reason that ended it.
fn stepped(rust: &mut Rust, messages: &[Message]) -> (u64, Option<(u8, u8)>) {
    said(rust, Act::Handshake { slot: 0 });
    let mut applied = 0;
    for message in messages {
        let piece = encode_message(message);
        let answer = said(rust, Act::Step { slot: 0, piece });
        let Values::Step {
            stepped,
            invalidation,
            handshake,
        } = answer.values
        else {
            panic!("a step answers as a step");
        };
        applied += u64::from(matches!(stepped, Some(Stepped::Applied(_))));
        assert_eq!(handshake.applied, applied);
        if let Some(why) = invalidation {
            assert!(handshake.ended);
            return (applied, Some((answer.number, why.reason)));
        }
    }
    (applied, None)
}

/// The counts, the last segment and the standing of the Rust's own run.
fn outcome(book: &BookReconstructor) -> (Counts, usize, u64, bool, Option<u64>) {
    let segments = &book.manifest().segments;
    let last = segments.last().expect("a segment");
    (
        convert::counts(&book.manifest().counts),
        segments.len(),
        last.last_good_seq,
        last.end == SegmentEnd::Open,
        book.last_sequence().ok(),
    )
}

fn outcome_of(state: &State) -> (Counts, usize, u64, bool, Option<u64>) {
    let last = state.last_segment.expect("a segment");
    let valid = state.status == Status::Valid;
    (
        state.counts,
        state.segments as usize,
        last.last_good_seq,
        last.end == crate::call::SegmentEnd::Open,
        valid.then_some(state.last_sequence),
    )
}

/// A snapshot with the messages buffered for it.
struct Buffered {
    product: Product,
    rules: Rules,
    snapshot: Snapshot,
    messages: Vec<Message>,
}

/// Runs the Rust's own loop and the steps on a buffer and holds one against the other; tells how it ended.
fn replay(buffered: &Buffered) -> Option<u8> {
    let product = convert::product_text(&buffered.product);
    let mut book = BookReconstructor::new(product, convert::rules(&buffered.rules));
    let theirs: Vec<L3Message> = buffered.messages.iter().map(convert::message).collect();
    let whole = book.bootstrap_with_buffer(&convert::snapshot(&buffered.snapshot), &theirs);

    let mut rust = Rust::new();
    create_with(&mut rust, buffered.product, buffered.rules);
    let piece = encode_snapshot(&buffered.snapshot);
    let begun = said(&mut rust, Act::Bootstrap { piece }).number;
    if let Err(HandshakeError::Snapshot(error)) = &whole {
        assert_eq!(convert::snapshot_error(error), begun);
        return Some(begun);
    }
    let (applied, ended) = stepped(&mut rust, &buffered.messages);
    let state = said(&mut rust, Act::Invalidation).state.expect("a book");
    assert_eq!(outcome(&book), outcome_of(&state));
    match whole {
        Ok(count) => assert_eq!((count as u64, None), (applied, ended)),
        Err(HandshakeError::Apply(ApplyError::Invalidated(why))) => {
            let reason = convert::invalidation(&why).reason;
            assert_eq!(Some((16, reason)), ended);
        }
        Err(other) => panic!("{other:?}"),
    }
    ended.map(|(_, reason)| reason)
}

/// Buffers from the generator's stream: each snapshot with the messages for the same book up to the next one.
#[test]
fn bootstrap_with_buffer_is_bootstrap_and_steps() {
    let mut creations: BTreeMap<u8, (Product, Rules)> = BTreeMap::new();
    let mut open: BTreeMap<u8, Buffered> = BTreeMap::new();
    let mut ends: BTreeMap<Option<u8>, u64> = BTreeMap::new();
    for call in Generator::new(9).take(40_000) {
        match call.act {
            Act::Create { product, rules, .. }
                if rules.max_orders <= 100 && rules.max_levels <= 100 =>
            {
                creations.insert(call.book, (product, rules));
            }
            Act::Create { .. } => drop(creations.remove(&call.book)),
            Act::Bootstrap { piece } => {
                let (Some(&(product, rules)), Ok(snapshot)) =
                    (creations.get(&call.book), decode_snapshot(&piece))
                else {
                    continue;
                };
                let next = Buffered {
                    product,
                    rules,
                    snapshot,
                    messages: Vec::new(),
                };
                if let Some(buffered) = open.insert(call.book, next) {
                    *ends.entry(replay(&buffered)).or_default() += 1;
                }
            }
            Act::Apply { piece } | Act::Step { piece, .. } => {
                if let (Some(buffered), Ok(message)) =
                    (open.get_mut(&call.book), decode_message(&piece))
                {
                    buffered.messages.push(message);
                }
            }
            _ => {}
        }
    }
    println!("{ends:?}");
    assert!(
        ends.get(&None).is_some_and(|whole| *whole > 100),
        "{ends:?}"
    );
    assert!(ends.len() > 15, "{ends:?}");
}

/// A number supplied twice makes two books' segments look alike to the port but not to the Rust: no word.
#[test]
fn twin_numbers_leave_no_word() {
    let mut rust = book_e();
    let estimate = Act::QueueEstimate {
        slot: 0,
        side: Side::Buy,
        price: 10,
    };
    assert_eq!(said(&mut rust, estimate).number, 0);
    create(&mut rust);
    let piece = encode_snapshot(&snapshot());
    said(&mut rust, Act::Bootstrap { piece });
    let call = Call {
        book: 0,
        lent: PLENTY,
        act: Act::VolumeAhead { slot: 0 },
    };
    assert_eq!(rust.call(&call), Answer::NoWord);
}

/// Writes into rows take the word away until the book is created anew; writes past the last row don't.
#[test]
fn damage_leaves_no_word() {
    let mut rust = book_e();
    said(&mut rust, Act::SetRow { index: 16, word: 9 });
    assert_eq!(said(&mut rust, Act::Audit).number, 0);
    let call = |act: Act| Call {
        book: 0,
        lent: PLENTY,
        act,
    };
    assert_eq!(
        rust.call(&call(Act::SetRow { index: 15, word: 0 })),
        Answer::NoWord
    );
    assert_eq!(rust.call(&call(Act::Audit)), Answer::NoWord);
    create(&mut rust);
    assert_eq!(said(&mut rust, Act::Audit).number, 15);
}
