//! What 100,000 calls of a fixed seed reach: printed in full, and a zero fails.

use std::collections::{BTreeMap, BTreeSet};

use oracle::call::{
    Act, Anchor, Answer, Applied, Assumption, CEILING, Call, Estimate, Lent, Rules, Said, State,
    Status, Stepped, Subject, Values, Voice,
};
use oracle::generate::{Generator, WAYS};
use oracle::model::Model;
use oracle::piece::{AMOUNT_LIMIT, Event, decode_snapshot, shape_message};

const SEED: u64 = 20_261_115;
const CALLS: u64 = 100_000;

const BOUNDS: [i64; 9] = [
    0,
    1,
    -1,
    AMOUNT_LIMIT,
    -AMOUNT_LIMIT,
    AMOUNT_LIMIT + 1,
    -AMOUNT_LIMIT - 1,
    i64::MAX,
    i64::MIN,
];

const COUNTERS: [&str; 12] = [
    "received",
    "open",
    "done",
    "matched",
    "stp_decrease",
    "off_book_done",
    "off_book_change",
    "noop_change",
    "handshake_dropped",
    "skipped_while_invalid",
    "wrong_product",
    "rejected_snapshots",
];

const ACTS: [&str; 26] = [
    "create",
    "bootstrap",
    "apply",
    "handshake",
    "step",
    "bootstrap_with_buffer",
    "level_queue",
    "priority_profile",
    "stale_l2",
    "l2",
    "best",
    "last_sequence",
    "audit",
    "queue_estimate",
    "queue_estimate_own",
    "volume_ahead",
    "manifest",
    "invalidation",
    "read_message",
    "read_snapshot",
    "set_row",
    "set_segment",
    "set_state",
    "forge_handshake",
    "forge_estimate",
    "set_ahead",
];

const SIZES: [(&str, u64, u64); 10] = [
    ("0", 0, 0),
    ("1", 1, 1),
    ("2", 2, 2),
    ("3 to 7", 3, 7),
    ("8 to 31", 8, 31),
    ("32 to 127", 32, 127),
    ("128 to 511", 128, 511),
    ("512 to 2047", 512, 2_047),
    ("2048 to 4095", 2_048, 4_095),
    ("4096", 4_096, 4_096),
];

const SPECIALS: [&str; 50] = [
    "4096 orders by a snapshot",
    "4096 orders by opens",
    "open refused at 4096 orders",
    "43 by the orders' limit",
    "43 by the levels' limit",
    "38 for funds",
    "38 for no size",
    "message accepted at 2^64-1",
    "snapshot at 2^64-1",
    "repeat of the last sequence",
    "sequence 0 refused as old",
    "gap of one",
    "gap to 2^64-1",
    "four valid books at once",
    "three living handshakes at once",
    "five estimates at once",
    "drop on a valid book",
    "drop on an invalid book",
    "step of another product passes by",
    "step ends by 16",
    "step ends by 17",
    "handshake before any snapshot",
    "9 of an ended handshake",
    "9 of another segment",
    "9 before any snapshot",
    "buffer of no message",
    "buffer with messages applied and dropped",
    "buffer ended by 16 after a message",
    "snapshot of a buffer refused",
    "step after a buffer",
    "forged handshake applied",
    "forged handshake dropped",
    "accepted message with time 0",
    "level of several orders read",
    "stale levels read",
    "stale read of a sound book",
    "estimate of an empty level",
    "estimate of several orders",
    "estimate of 4096 orders",
    "forged estimate of 4096 orders counted",
    "estimate handed to another book",
    "entry ahead gone",
    "entry ahead reused by a later order",
    "own order gone",
    "own order's id reused",
    "decrease ahead kept by assumption",
    "decrease ahead unknown",
    "own order of a snapshot",
    "superseded segment",
    "reader on a snapshot handed as message",
];

#[derive(Default)]
struct Coverage {
    counts: BTreeMap<(&'static str, String), u64>,
    rules: BTreeMap<u8, Rules>,
    states: BTreeMap<u8, State>,
    living: BTreeMap<u8, bool>,
    forged: BTreeMap<u8, bool>,
    /// Handshakes that came with a buffer.
    buffered: BTreeSet<u8>,
    estimates: BTreeMap<u8, (u8, Estimate, Vec<u64>)>,
}

impl Coverage {
    fn hit(&mut self, group: &'static str, name: impl ToString) {
        *self.counts.entry((group, name.to_string())).or_default() += 1;
    }

    fn special(&mut self, name: &'static str) {
        assert!(SPECIALS.contains(&name), "{name} is not listed");
        self.hit("special case", name);
    }

    fn expect(&mut self, group: &'static str, name: impl ToString) {
        self.counts.entry((group, name.to_string())).or_default();
    }

    /// All that must not stay zero.
    fn expect_all(&mut self) {
        let numbers = (0..=18).chain(50..=52);
        for number in numbers {
            self.expect("number", format!("{number:2}"));
        }
        for number in (10..=18).chain(50..=52) {
            self.expect("number by the Rust", number);
        }
        for reason in (20..=22).chain(30..=44) {
            self.expect("reason by the Rust", reason);
        }
        for counter in COUNTERS {
            self.expect("counter by the Rust", counter);
        }
        for (class, ..) in SIZES {
            self.expect("orders in a valid book", class);
        }
        for act in ACTS {
            self.expect("call", act);
        }
        for special in SPECIALS {
            self.expect("special case", special);
        }
        for way in WAYS {
            self.expect("damage", way);
        }
        for limit in ["0", "1", "2 to 7", "8 to 4095", "4096", "4097", "more"] {
            self.expect("limit of orders", limit);
            self.expect("limit of levels", limit);
        }
        for buffer in [
            "rows",
            "segments",
            "scratch",
            "output",
            "new list",
            "ahead-list",
        ] {
            for length in ["one short", "exact", "more"] {
                self.expect("lent", format!("{buffer} {length}"));
            }
        }
        for field in FIELDS {
            for bound in BOUNDS {
                self.expect("amount", format!("{field} {bound}"));
            }
        }
        for number in [0, 8, 50, 51, 52] {
            self.expect("forged estimate", format!("{number:2}"));
        }
    }
}

/// The answer of whoever has a word.
fn said<'a>(rust: &'a Answer, model: &'a Answer) -> Option<&'a Said> {
    match (rust, model) {
        (Answer::Said(said), _) | (Answer::NoWord, Answer::Said(said)) => Some(said),
        _ => None,
    }
}

/// The amount fields of the pieces.
const FIELDS: [&str; 14] = [
    "open price",
    "open remaining",
    "match price",
    "match size",
    "done price",
    "done remaining",
    "change price",
    "change old_size",
    "change new_size",
    "change old_price",
    "change new_price",
    "change new_funds",
    "snapshot price",
    "snapshot size",
];

/// The event's amounts, each with its place in [`FIELDS`].
fn amounts(event: &Event) -> Vec<(usize, i64)> {
    let (first, all) = match *event {
        Event::Received { .. } | Event::Unsupported { .. } => (0, Vec::new()),
        Event::Open {
            price, remaining, ..
        } => (0, vec![Some(price), Some(remaining)]),
        Event::Match { price, size, .. } => (2, vec![Some(price), Some(size)]),
        Event::Done {
            price, remaining, ..
        } => (4, vec![price, remaining]),
        Event::Change {
            price,
            old_size,
            new_size,
            old_price,
            new_price,
            new_funds,
            ..
        } => (
            6,
            vec![price, old_size, new_size, old_price, new_price, new_funds],
        ),
    };
    let places = all.into_iter().enumerate();
    places
        .filter_map(|(at, amount)| Some((first + at, amount?)))
        .collect()
}

impl Coverage {
    fn amounts(&mut self, act: &Act) {
        let amounts = match act {
            Act::Apply { piece } | Act::Step { piece, .. } => match shape_message(piece) {
                Ok(message) => amounts(&message.event),
                Err(_) => return,
            },
            // Out of range too: only the shape is asked for.
            Act::Bootstrap { piece }
                if piece.len() % 32 == 9 && (41..2_000).contains(&piece.len()) =>
            {
                let orders = piece[41..].chunks_exact(32);
                let word = |field: &[u8]| i64::from_le_bytes(field.try_into().expect("8 bytes"));
                let both = |order: &[u8]| [(12, word(&order[16..24])), (13, word(&order[24..]))];
                orders.flat_map(both).collect()
            }
            _ => return,
        };
        for (field, amount) in amounts {
            if BOUNDS.contains(&amount) {
                self.hit("amount", format!("{} {amount}", FIELDS[field]));
            }
        }
    }

    fn limits(&mut self, call: &Call) {
        if let Act::Create { rules, .. } = &call.act {
            self.rules.insert(call.book, *rules);
            for (group, limit) in [
                ("limit of orders", rules.max_orders),
                ("limit of levels", rules.max_levels),
            ] {
                self.hit(
                    group,
                    match limit {
                        0 => "0",
                        1 => "1",
                        2..=7 => "2 to 7",
                        8..=4_095 => "8 to 4095",
                        4_096 => "4096",
                        4_097 => "4097",
                        _ => "more",
                    },
                );
            }
        }
    }

    fn length(&mut self, buffer: &str, lent: u64, needed: u64) {
        let length = match lent {
            _ if lent + 1 == needed => "one short",
            _ if lent == needed => "exact",
            _ if lent > needed => "more",
            _ => return,
        };
        self.hit("lent", format!("{buffer} {length}"));
    }

    /// The lent lengths beside what the call needed.
    fn lengths(&mut self, call: &Call, said: &Said, model: &mut Model) {
        let (Some(rules), Some(state)) = (self.rules.get(&call.book).copied(), said.state) else {
            return;
        };
        if rules.max_orders > CEILING || rules.max_levels > CEILING || said.number == 3 {
            return;
        }
        let (lent, act) = (&call.lent, &call.act);
        if matches!(act, Act::Apply { .. } | Act::Step { .. } | Act::Audit) {
            self.length("rows", lent.rows.min(1 << 40), 8 * rules.max_orders);
        }
        if matches!(act, Act::Apply { .. } | Act::Step { .. }) {
            self.length("segments", lent.segments.min(1 << 40), state.segments);
        }
        let level_read = matches!(
            act,
            Act::LevelQueue { .. }
                | Act::PriorityProfile { .. }
                | Act::L2 { .. }
                | Act::StaleL2 { .. }
        );
        if level_read {
            self.length("scratch", lent.scratch.min(1 << 40), rules.max_orders);
        }
        if level_read && matches!(said.number, 0 | 7) && said.values != Values::NoStale {
            self.length("output", lent.output.min(1 << 40), words(call, model));
        }
        if let (Act::QueueEstimate { side, price, .. }, 0 | 7) = (act, said.number) {
            let level = Act::LevelQueue {
                side: *side,
                price: *price,
            };
            let entries = words(
                &Call {
                    act: level,
                    ..call.clone()
                },
                model,
            ) / 5;
            self.length("new list", lent.ahead.min(1 << 40), 3 * entries);
        }
        if let (Act::VolumeAhead { slot }, 0 | 8) = (act, said.number)
            && let Some((_, estimate, _)) = self.estimates.get(slot)
            && let Anchor::Hypothetical { orders, .. } = estimate.anchor
        {
            let needed = orders.saturating_mul(3);
            self.length("ahead-list", lent.ahead.min(1 << 40), needed);
        }
    }
}

/// How many words a level read of the model would write, with all it may want.
fn words(call: &Call, model: &mut Model) -> u64 {
    let mut call = call.clone();
    call.lent = Lent {
        rows: u64::MAX,
        segments: u64::MAX,
        scratch: u64::MAX,
        output: u64::MAX,
        ahead: u64::MAX,
    };
    match model.call(&call) {
        Answer::Said(said) => match said.values {
            Values::Entries { words, .. } => words.len() as u64,
            _ => 0,
        },
        _ => 0,
    }
}

impl Coverage {
    fn numbers(&mut self, call: &Call, said: &Said) {
        self.hit("number", format!("{:2}", said.number));
        if said.voice != Voice::Rust {
            return;
        }
        if said.number >= 10 {
            self.hit("number by the Rust", said.number);
        }
        let why = match said.values {
            Values::Invalidation(why) if said.number == 16 => Some(why),
            Values::Step { invalidation, .. } | Values::Buffered { invalidation, .. }
                if said.number == 16 =>
            {
                invalidation
            }
            _ => None,
        };
        if let Some(why) = why {
            self.hit("reason by the Rust", why.reason);
            self.invalidated(call, why.reason, why.funds);
        }
    }

    fn invalidated(&mut self, call: &Call, reason: u8, funds: bool) {
        let (Act::Apply { piece } | Act::Step { piece, .. }) = &call.act else {
            return;
        };
        let (Some(before), Ok(message)) = (self.states.get(&call.book), shape_message(piece))
        else {
            return;
        };
        let (rows, last, sequence) = (before.rows, before.last_sequence, message.sequence);
        let full = self.rules.get(&call.book).map(|rules| rules.max_orders) == Some(rows);
        match reason {
            38 if funds => self.special("38 for funds"),
            38 => self.special("38 for no size"),
            43 if full => {
                self.special("43 by the orders' limit");
                if rows == CEILING {
                    self.special("open refused at 4096 orders");
                }
            }
            43 => self.special("43 by the levels' limit"),
            20 if sequence == u64::MAX => self.special("gap to 2^64-1"),
            20 if sequence == last + 2 => self.special("gap of one"),
            21 if sequence == last => self.special("repeat of the last sequence"),
            21 if sequence == 0 => self.special("sequence 0 refused as old"),
            _ => {}
        }
    }

    fn state(&mut self, call: &Call, said: &Said) {
        let Some(state) = said.state else {
            return;
        };
        if said.voice != Voice::Model {
            for (counter, count) in COUNTERS.into_iter().zip(state.counts.array()) {
                let before = self.states.get(&call.book);
                let known = before.map_or(0, |state| {
                    let at = COUNTERS.iter().position(|name| *name == counter);
                    state.counts.array()[at.expect("a counter")]
                });
                if count == known + 1 {
                    self.hit("counter by the Rust", counter);
                }
            }
            if state.status == Status::Valid {
                let class = SIZES
                    .into_iter()
                    .find(|(_, from, to)| (*from..=*to).contains(&state.rows));
                self.hit("orders in a valid book", class.expect("a class").0);
            }
            if let (CEILING, 0, act) = (state.rows, said.number, &call.act) {
                match act {
                    Act::Bootstrap { .. } => self.special("4096 orders by a snapshot"),
                    Act::Apply { .. } if state.counts.open > 4_000 => {
                        self.special("4096 orders by opens");
                    }
                    _ => {}
                }
            }
        }
        self.states.insert(call.book, state);
        let valid = |state: &&State| state.status == Status::Valid;
        if self.states.values().filter(valid).count() >= 4 {
            self.special("four valid books at once");
        }
        if self.living.values().filter(|living| **living).count() >= 3 {
            self.special("three living handshakes at once");
        }
        if self.estimates.len() >= 5 {
            self.special("five estimates at once");
        }
    }

    fn mutations(&mut self, call: &Call, said: &Said) {
        let before = self.states.get(&call.book).copied();
        match (&call.act, said.number) {
            (Act::Apply { piece }, 0) => {
                let message = shape_message(piece).expect("an accepted message");
                if message.sequence == u64::MAX {
                    self.special("message accepted at 2^64-1");
                }
                if message.time_us == 0 {
                    self.special("accepted message with time 0");
                }
            }
            (Act::Bootstrap { piece }, 0) => {
                let snapshot = decode_snapshot(piece).expect("an accepted snapshot");
                if snapshot.sequence == u64::MAX {
                    self.special("snapshot at 2^64-1");
                }
                if before.is_some_and(|state| state.status == Status::Valid) {
                    self.special("superseded segment");
                }
            }
            (Act::ReadMessage { piece }, 4) if piece.first() == Some(&0) => {
                self.special("reader on a snapshot handed as message");
            }
            (Act::BootstrapWithBuffer { slot, buffer, .. }, _) => {
                self.buffer(*slot, buffer, before, said);
            }
            (Act::Handshake { slot }, 0) => {
                let ended = matches!(said.values, Values::Handshake(made) if made.ended);
                if ended {
                    self.special("handshake before any snapshot");
                }
                self.buffered.remove(slot);
                self.living.insert(*slot, !ended);
                self.forged.insert(*slot, false);
            }
            (Act::ForgeHandshake { slot, handshake }, _) => {
                self.buffered.remove(slot);
                self.living.insert(*slot, !handshake.ended);
                self.forged.insert(*slot, true);
            }
            (Act::Step { slot, .. }, _) => self.step(*slot, before, said),
            _ => {}
        }
    }

    fn buffer(&mut self, slot: u8, buffer: &[Vec<u8>], before: Option<State>, said: &Said) {
        let Values::Buffered { handshake, .. } = said.values else {
            if said.number > 9 {
                self.special("snapshot of a buffer refused");
            }
            return;
        };
        let dropped = |state: State| state.counts.handshake_dropped;
        let drops = before.map(dropped) != said.state.map(dropped);
        match (said.number, handshake.applied) {
            (0, 0) if buffer.is_empty() => self.special("buffer of no message"),
            (0, 1..) if drops => self.special("buffer with messages applied and dropped"),
            (16, 1..) => self.special("buffer ended by 16 after a message"),
            _ => {}
        }
        self.living.insert(slot, !handshake.ended);
        self.forged.insert(slot, false);
        self.buffered.insert(slot);
    }

    fn step(&mut self, slot: u8, before: Option<State>, said: &Said) {
        let Values::Step {
            stepped, handshake, ..
        } = said.values
        else {
            return;
        };
        if self.buffered.contains(&slot) && stepped.is_some() {
            self.special("step after a buffer");
        }
        let forged = self.forged.get(&slot) == Some(&true);
        let ended = self.living.get(&slot) == Some(&false);
        match (said.number, stepped) {
            (0, Some(Stepped::Dropped)) => {
                let valid = before.is_some_and(|state| state.status == Status::Valid);
                self.special(if valid {
                    "drop on a valid book"
                } else {
                    "drop on an invalid book"
                });
                if forged {
                    self.special("forged handshake dropped");
                }
            }
            (0, Some(Stepped::Applied(Applied::BookChanged))) if forged => {
                self.special("forged handshake applied");
            }
            (10, _) => self.special("step of another product passes by"),
            (16, _) => self.special("step ends by 16"),
            (17, _) => self.special("step ends by 17"),
            (9, _) if ended => self.special("9 of an ended handshake"),
            (9, _) if before.is_some_and(|state| state.segments == 0) => {
                self.special("9 before any snapshot");
            }
            (9, _) => self.special("9 of another segment"),
            _ => {}
        }
        self.living.insert(slot, !handshake.ended);
    }

    fn reads(&mut self, call: &Call, said: &Said, model: &mut Model) {
        match (&call.act, &said.values, said.number) {
            (Act::LevelQueue { .. }, Values::Entries { entries: 2.., .. }, 0) => {
                self.special("level of several orders read");
            }
            (Act::StaleL2 { .. }, Values::Entries { entries: 1.., .. }, 0) => {
                self.special("stale levels read");
            }
            (Act::StaleL2 { .. }, Values::NoStale, 0) => self.special("stale read of a sound book"),
            (Act::QueueEstimate { slot, .. }, Values::Estimate { estimate, list }, 0) => {
                self.special(match list.len() {
                    0 => "estimate of an empty level",
                    12_288 => "estimate of 4096 orders",
                    _ => "estimate of several orders",
                });
                self.estimates
                    .insert(*slot, (call.book, *estimate, list.clone()));
                self.forged.insert(100 + slot, false);
            }
            (Act::QueueEstimateOwn { slot, .. }, Values::Estimate { estimate, .. }, 0) => {
                self.estimates
                    .insert(*slot, (call.book, *estimate, Vec::new()));
                self.forged.insert(100 + slot, false);
            }
            (Act::QueueEstimateOwn { .. }, _, 51) => self.special("own order of a snapshot"),
            (Act::ForgeEstimate { slot, estimate, .. }, ..) => {
                self.estimates
                    .insert(*slot, (call.book, *estimate, Vec::new()));
                self.forged.insert(100 + slot, true);
            }
            (Act::VolumeAhead { slot }, ..) => self.volume_ahead(call, *slot, said, model),
            _ => {}
        }
    }

    fn volume_ahead(&mut self, call: &Call, slot: u8, said: &Said, model: &mut Model) {
        let Some((book, estimate, list)) = self.estimates.get(&slot).cloned() else {
            return;
        };
        if self.forged.get(&(100 + slot)) == Some(&true) {
            if [0, 8, 50, 51, 52].contains(&said.number) {
                self.hit("forged estimate", format!("{:2}", said.number));
            }
            if matches!(
                estimate.anchor,
                Anchor::Hypothetical {
                    orders: CEILING,
                    ..
                }
            ) && said.number == 0
            {
                self.special("forged estimate of 4096 orders counted");
            }
            return;
        }
        match (said.number, &said.values, estimate.anchor) {
            (50, ..) if book != call.book => self.special("estimate handed to another book"),
            (51, _, Anchor::Hypothetical { .. }) => self.special("decrease ahead unknown"),
            (52, _, Anchor::Own { order_id, .. }) => {
                let reused = entered_at(call, order_id, model).is_some();
                self.special(if reused {
                    "own order's id reused"
                } else {
                    "own order gone"
                });
            }
            (0, Values::Ahead(ahead), Anchor::Hypothetical { .. }) => {
                for entry in list.chunks_exact(3) {
                    let id = u128::from(entry[0]) << 64 | u128::from(entry[1]);
                    match entered_at(call, id, model) {
                        Some(at) if at != 0 && at != entry[2] => {
                            self.special("entry ahead reused by a later order");
                        }
                        None => self.special("entry ahead gone"),
                        _ => {}
                    }
                }
                if ahead
                    .assumptions
                    .contains(&Assumption::SizeDecreaseKeepsPriority)
                {
                    self.special("decrease ahead kept by assumption");
                }
            }
            _ => {}
        }
    }
}

/// When a resting order with a known place entered; the model's slot 255 is no other call's.
fn entered_at(call: &Call, order_id: u128, model: &mut Model) -> Option<u64> {
    let act = Act::QueueEstimateOwn {
        slot: 255,
        order_id,
    };
    match model.call(&Call {
        act,
        ..call.clone()
    }) {
        Answer::Said(said) => match said.values {
            Values::Estimate { estimate, .. } => match estimate.anchor {
                Anchor::Own { entered_at, .. } => Some(entered_at),
                Anchor::Hypothetical { .. } => None,
            },
            // Unknown priority: it rests, from the snapshot or decreased.
            _ if said.number == 51 => Some(0),
            _ => None,
        },
        _ => None,
    }
}

/// The audit that follows damage, told by the model: 3 for a broken book, another number for the rest.
fn audit_tells(way: &str, answer: &Answer) -> bool {
    match answer {
        Answer::Said(said) => {
            (said.number == 3) != way.starts_with("harmless") || way == "harmless: status"
        }
        _ => false,
    }
}

#[test]
fn every_case_is_reached() {
    let mut generator = Generator::new(SEED);
    let mut model = Model::new();
    let mut coverage = Coverage::default();
    coverage.expect_all();
    let mut way: Option<&'static str> = None;
    let mut deep = 0_u64;
    for _ in 0..CALLS {
        let (call, rust) = generator.next_answered();
        let answer = model.call(&call);
        way = generator.take_way().or(way);
        coverage.hit("call", call.act.name());
        coverage.amounts(&call.act);
        coverage.limits(&call);
        if let (Some(done), Act::Audit) = (way, &call.act) {
            let callable = !matches!(&answer, Answer::Said(said) if matches!(said.number, 1 | 2));
            if callable && audit_tells(done, &answer) {
                coverage.hit("damage", done);
            }
            way = None;
        }
        let Some(said) = said(&rust, &answer) else {
            continue;
        };
        deep += u64::from(said.number == 0 && said.voice == Voice::Rust);
        coverage.numbers(&call, said);
        coverage.lengths(&call, said, &mut model);
        coverage.mutations(&call, said);
        coverage.reads(&call, said, &mut model);
        coverage.state(&call, said);
    }
    let mut group = "";
    for ((of, name), count) in &coverage.counts {
        if *of != group {
            println!("{of}");
            group = of;
        }
        println!("  {count:7} {name}");
    }
    println!("{deep} of {CALLS} calls succeed on a sound book");
    let zeros: Vec<_> = coverage
        .counts
        .iter()
        .filter(|(_, count)| **count == 0)
        .collect();
    assert!(zeros.is_empty(), "never reached: {zeros:?}");
    assert!(deep > CALLS / 2, "most calls should go deep");
}
