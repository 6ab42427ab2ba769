//! Which cases the calls of a run met, told from the port's own memory.

use std::collections::{BTreeMap, BTreeSet, HashMap};

use super::amiss;
use super::book::{Block, Book, at};
use super::forms;
use super::orders;
use super::reads::{Held, entry_words};
use crate::call::{Act, Anchor, Assumption, CEILING, Estimate, Lent, Values};
use crate::piece::{Id, Side};
use crate::port;

/// How often each case of each call was met, and how often a call said a number where another held beside it.
#[derive(Debug, Default)]
pub struct Cases {
    met: BTreeMap<(&'static str, &'static str), u64>,
    orders: BTreeMap<(&'static str, u64, u64), u64>,
    /// Calls made with something amiss.
    trials: u64,
    /// The reasons of the invalid books that were called on.
    reasons: BTreeMap<(u64, u64), u64>,
}

fn merge<K: Copy + Ord>(to: &mut BTreeMap<K, u64>, from: &BTreeMap<K, u64>) {
    for (&case, &times) in from {
        *to.entry(case).or_default() += times;
    }
}

impl Cases {
    pub fn add(&mut self, call: &'static str, case: &'static str) {
        *self.met.entry((call, case)).or_default() += 1;
    }

    /// Notes the numbers that held for a call, which said the first; 0 stands for none beside it.
    pub fn order(&mut self, call: &'static str, numbers: &[u64]) {
        self.trials += 1;
        let (said, beside) = numbers.split_first().expect("something is amiss");
        let alone: &[u64] = if beside.is_empty() { &[0] } else { &[] };
        for &other in beside.iter().chain(alone) {
            *self.orders.entry((call, *said, other)).or_default() += 1;
        }
    }

    /// Notes why the book was invalid, if it was and the call passed 1, 2 and 3.
    pub fn invalid(&mut self, block: &Block, answer: u64) {
        if block[at::STATUS] == 2 && !(1..=3).contains(&answer) {
            let reason = block[at::KIND];
            let detail = if reason == 38 { block[at::DETAIL] } else { 0 };
            *self.reasons.entry((reason, detail)).or_default() += 1;
        }
    }

    pub fn times(&self, call: &'static str, case: &'static str) -> u64 {
        self.met.get(&(call, case)).copied().unwrap_or(0)
    }

    pub fn merge(&mut self, other: &Cases) {
        merge(&mut self.met, &other.met);
        merge(&mut self.orders, &other.orders);
        self.trials += other.trials;
        merge(&mut self.reasons, &other.reasons);
    }

    /// What every run must meet, and this one did not.
    pub fn missing(&self) -> Vec<String> {
        let met = expected().filter(|case| !self.met.contains_key(case));
        let orders = orders::expected().filter(|order| !self.orders.contains_key(order));
        let reasons = REASONS.iter().filter(|why| !self.reasons.contains_key(why));
        let met = met.map(|(call, case)| format!("{call}: {case}"));
        let orders = orders.map(|(call, said, other)| format!("{call}: {said} before {other}"));
        let reasons = reasons.map(|(reason, detail)| format!("invalid by {reason} {detail}"));
        met.chain(orders).chain(reasons).collect()
    }
}

/// The cases that every run must meet: those of each call, of its trials, the forms of its state, and the calls between two steps.
fn expected() -> impl Iterator<Item = (&'static str, &'static str)> {
    let calls = EXPECTED.iter().map(|&(call, _)| call);
    let forms = calls.map(|call| (call, forms::WAYS));
    let trials = orders::TRIALS.iter();
    let trials = trials.flat_map(|&(call, parts)| parts.iter().map(move |&part| (call, part)));
    let lists = EXPECTED.iter().copied().chain(forms).chain(trials);
    let all = lists.chain([("between steps", BETWEEN)]);
    let all = all.flat_map(|(call, cases)| cases.iter().map(move |&case| (call, case)));
    let message = |call| amiss::no_messages().map(move |name| (call, name));
    all.chain(["apply", "step", "apply_all"].into_iter().flat_map(message))
}

/// The reasons that make a book invalid, with the details of 38.
const REASONS: &[(u64, u64)] = &[
    (20, 0),
    (21, 0),
    (22, 0),
    (30, 0),
    (31, 0),
    (32, 0),
    (33, 0),
    (34, 0),
    (35, 0),
    (36, 0),
    (37, 0),
    (38, 0),
    (38, 1),
    (39, 0),
    (40, 0),
    (41, 0),
    (42, 0),
    (43, 0),
    (44, 0),
];

/// What every run must meet of each call.
const EXPECTED: &[(&str, &[&str])] = &[
    ("apply", APPLY),
    ("bootstrap", BOOTSTRAP),
    ("handshake", &["no segment"]),
    ("step", STEP),
    ("apply_all", APPLY_ALL),
    ("last_sequence", &[]),
    ("best", &[]),
    ("audit", &[]),
    ("invalidation", &[]),
    ("segment", &[]),
    ("level_queue", LEVEL_QUEUE),
    ("priority_profile", LEVELS),
    ("l2", LEVELS),
    ("stale_l2", LEVELS),
    ("stale_l2", &["a sound book"]),
    ("queue_estimate", QUEUE_ESTIMATE),
    ("queue_estimate_own", &[]),
    ("volume_ahead", VOLUME_AHEAD),
];

const APPLY: &[&str] = &[
    "another form of a message",
    "accepted in another form",
    "invalidated in another form",
    "10 in another form",
    "17 in another form",
    "refused in another form",
];

const STEP: &[&str] = &[
    "another form of a message",
    "accepted in another form",
    "invalidated in another form",
    "dropped in another form",
    "10 in another form",
    "17 in another form",
    "refused in another form",
    "dropped",
    "dropped while invalid",
    "changed the book",
    "without effect",
    "applied stops",
    "9 on a fresh book",
    "9 of one made without a snapshot",
    "9 of one made before the snapshot",
    "9 of an ended one",
    "9 of another segment",
    "10 passes by",
    "16 ends it",
    "17 ends it",
];

const APPLY_ALL: &[&str] = &[
    "run",
    "run told 1",
    "run told 2",
    "run told 3",
    "run of no message",
    "run of no message refused",
    "goes on after 16",
    "run on a large book",
    "message changes the book",
    "message without effect",
    "message told 4",
    "message told 5",
    "message told 10",
    "message told 15",
    "message told 16",
    "message told 17",
];

/// The calls that must come between two steps of a handshake on one book, neither of them 9.
const BETWEEN: &[&str] = &[
    "bootstrap",
    "apply",
    "handshake",
    "step",
    "bootstrap_with_buffer",
    "level_queue",
    "priority_profile",
    "stale_l2",
    "l2",
    "best",
    "last_sequence",
    "audit",
    "queue_estimate",
    "queue_estimate_own",
    "volume_ahead",
    "manifest",
    "invalidation",
    "read_message",
    "read_snapshot",
    "set_row",
    "set_segment",
    "set_state",
    "forge_handshake",
    "forge_estimate",
    "set_ahead",
];

const BOOTSTRAP: &[&str] = &[
    "accepted in another form",
    "10 in another form",
    "11 in another form",
    "12 in another form",
    "13 in another form",
    "14 in another form",
    "refused in another form",
];

/// What a call answered that was lent another form of its state.
pub fn outcome(answer: u64) -> &'static str {
    match answer {
        0 | port::CHANGED => "accepted in another form",
        10 => "10 in another form",
        11 => "11 in another form",
        12 => "12 in another form",
        13 => "13 in another form",
        14 => "14 in another form",
        16 => "invalidated in another form",
        17 => "17 in another form",
        port::DROPPED => "dropped in another form",
        _ => "refused in another form",
    }
}

const LEVELS: &[&str] = &[
    "output one short",
    "output exact",
    "no entry, no output",
    "scratch one short",
    "scratch exact",
    "several entries",
];

const LEVEL_QUEUE: &[&str] = &[
    "output one short",
    "output exact",
    "no entry, no output",
    "scratch one short",
    "scratch exact",
    "several entries",
    "price absent",
    "price 0",
    "price negative",
];

const QUEUE_ESTIMATE: &[&str] = &[
    "output one short",
    "output exact",
    "no entry, no output",
    "several entries",
    "price absent",
    "price 0",
    "price negative",
];

const VOLUME_AHEAD: &[&str] = &[
    "of another place",
    "of another number",
    "list one word short",
    "list exact",
    "4,096 orders",
    "4,097 orders",
    "2^64-1 orders",
    "entry counted twice",
    "entry of another level counted",
    "entry of another sequence",
    "entry of no order",
    "decrease ahead kept",
    "decrease ahead unknown",
    "own gone",
    "own with another entered_at",
    "own of a snapshot",
    "own with orders ahead",
    "own at another price",
    "own at another side",
    "own at a price absent",
    "own at price 0",
    "own at a negative price",
    "own decrease kept",
    "own decrease unknown",
];

/// A row by name, as far as the cases ask.
#[derive(Clone, Copy)]
struct Row {
    id: Id,
    price: i64,
    side: Side,
    observed: bool,
    entered_at: u64,
    decreased: bool,
}

fn line(book: &Book) -> impl Iterator<Item = Row> {
    book.line().map(|words| Row {
        id: u128::from(words[0]) << 64 | u128::from(words[1]),
        price: words[2] as i64,
        side: if words[4] % 2 == 0 {
            Side::Buy
        } else {
            Side::Sell
        },
        observed: words[4] >= 2,
        entered_at: words[5],
        decreased: words[6] == 1,
    })
}

fn at_level(book: &Book, side: Side, price: i64) -> u64 {
    let there = |row: &Row| row.side == side && row.price == price;
    line(book).filter(there).count() as u64
}

fn levels(book: &Book, side: Side) -> u64 {
    let there = line(book).filter(|row| row.side == side);
    there.map(|row| row.price).collect::<BTreeSet<i64>>().len() as u64
}

/// The entries that a read of this book writes if it is not turned away.
pub fn entries(book: &Book, act: &Act) -> u64 {
    match *act {
        Act::LevelQueue { side, price } | Act::QueueEstimate { side, price, .. } => {
            at_level(book, side, price)
        }
        Act::PriorityProfile { side } | Act::L2 { side } | Act::StaleL2 { side } => {
            levels(book, side)
        }
        _ => 0,
    }
}

/// One read, as it was asked and answered.
pub struct Read<'a> {
    pub book: &'a Book,
    pub lent: &'a Lent,
    pub act: &'a Act,
    pub held: Option<&'a Held>,
    pub number: u64,
    pub values: &'a Values,
}

impl Read<'_> {
    pub fn note(&self, cases: &mut Cases) {
        let mut add = |case: &'static str| cases.add(self.act.name(), case);
        let entries = entries(self.book, self.act);
        match *self.act {
            Act::LevelQueue { price, .. } => {
                self.price(entries, price, &mut add);
                self.lengths(5, entries, self.lent.output, &mut add);
            }
            Act::QueueEstimate { price, .. } => {
                self.price(entries, price, &mut add);
                self.lengths(3, entries, self.lent.ahead, &mut add);
            }
            Act::PriorityProfile { .. } | Act::L2 { .. } | Act::StaleL2 { .. } => {
                let each = entry_words(self.act).unwrap_or(0) as u64;
                self.lengths(each, entries, self.lent.output, &mut add);
            }
            Act::VolumeAhead { .. } => {
                if let Some(held) = self.held {
                    self.volume_ahead(held, &mut add);
                }
            }
            _ => {}
        }
    }

    fn price(&self, orders: u64, price: i64, add: &mut impl FnMut(&'static str)) {
        if self.number != 0 {
            return;
        }
        match price {
            ..0 => add("price negative"),
            0 => add("price 0"),
            _ if orders == 0 => add("price absent"),
            _ => {}
        }
    }

    /// The lent lengths beside what the entries need.
    fn lengths(&self, each: u64, entries: u64, lent: u64, add: &mut impl FnMut(&'static str)) {
        if *self.values == Values::NoStale {
            return add("a sound book");
        }
        let need = each * entries;
        match self.number {
            0 if need == 0 && lent == 0 => add("no entry, no output"),
            0 if need > 0 && lent == need => add("output exact"),
            7 if lent + 1 == need => add("output one short"),
            _ => {}
        }
        if self.number == 0 && entries > 1 {
            add("several entries");
        }
        let orders = self.book.max_orders();
        if entry_words(self.act).is_some() {
            match self.number {
                0 if self.lent.scratch == orders => add("scratch exact"),
                2 if self.scratch_one_short() => {
                    add("scratch one short");
                }
                _ => {}
            }
        }
    }

    /// And that is all that is short.
    fn scratch_one_short(&self) -> bool {
        let short = self.lent.scratch.saturating_add(1) == self.book.max_orders();
        short && self.book.rows_suffice(self.lent)
    }

    fn volume_ahead(&self, held: &Held, add: &mut impl FnMut(&'static str)) {
        let Estimate {
            segment, anchor, ..
        } = held.estimate;
        if self.number == 50 {
            let other = segment.number != self.book.number();
            add(if other {
                "of another number"
            } else {
                "of another place"
            });
        }
        match anchor {
            Anchor::Hypothetical { orders, .. } => self.list_length(held, orders, add),
            Anchor::Own {
                order_id,
                entered_at,
            } => self.own(&held.estimate, order_id, entered_at, add),
        }
        if let (Anchor::Hypothetical { orders, .. }, 0 | 51) = (anchor, self.number) {
            self.entries(held, orders, add);
        }
    }

    fn list_length(&self, held: &Held, orders: u64, add: &mut impl FnMut(&'static str)) {
        let lent = self.lent.ahead.min(held.list.len() as u64);
        let need = orders.saturating_mul(3);
        match self.number {
            8 if orders <= CEILING && lent + 1 == need => add("list one word short"),
            8 if orders == CEILING + 1 && lent >= need => add("4,097 orders"),
            8 if orders == u64::MAX => add("2^64-1 orders"),
            0 if orders > 0 && lent == need => add("list exact"),
            _ => {}
        }
        if self.number == 0 && orders == CEILING {
            add("4,096 orders");
        }
    }

    fn entries(&self, held: &Held, orders: u64, add: &mut impl FnMut(&'static str)) {
        if self.number == 51 {
            return add("decrease ahead unknown");
        }
        let rows: HashMap<Id, Row> = line(self.book).map(|row| (row.id, row)).collect();
        let mut counted = BTreeSet::new();
        for entry in held.list.chunks_exact(3).take(orders as usize) {
            let id = u128::from(entry[0]) << 64 | u128::from(entry[1]);
            let (side, price) = (held.estimate.side, held.estimate.price);
            match rows.get(&id) {
                None => add("entry of no order"),
                Some(row) if row.entered_at != entry[2] => add("entry of another sequence"),
                Some(row) => {
                    if !counted.insert(id) {
                        add("entry counted twice");
                    }
                    if (row.side, row.price) != (side, price) {
                        add("entry of another level counted");
                    }
                }
            }
        }
        if self.assumes_kept() {
            add("decrease ahead kept");
        }
    }

    fn assumes_kept(&self) -> bool {
        let kept = Assumption::SizeDecreaseKeepsPriority;
        matches!(self.values, Values::Ahead(ahead) if ahead.assumptions.contains(&kept))
    }

    fn own(
        &self,
        estimate: &Estimate,
        id: Id,
        entered_at: u64,
        add: &mut impl FnMut(&'static str),
    ) {
        let row = line(self.book).find(|row| row.id == id);
        match (self.number, row) {
            (52, None) => add("own gone"),
            (52, Some(row)) if row.entered_at != entered_at => add("own with another entered_at"),
            (51, Some(row)) if !row.observed => add("own of a snapshot"),
            (51, Some(row)) if row.decreased => add("own decrease unknown"),
            (51, Some(_)) => add("decrease ahead unknown"),
            (0, Some(row)) => {
                self.own_level(estimate, &row, add);
                if row.decreased && self.assumes_kept() {
                    add("own decrease kept");
                }
                if matches!(self.values, Values::Ahead(ahead) if ahead.orders > 0) {
                    add("own with orders ahead");
                }
            }
            _ => {}
        }
    }

    /// Where the estimate puts the own order.
    fn own_level(&self, estimate: &Estimate, own: &Row, add: &mut impl FnMut(&'static str)) {
        let (side, price) = (estimate.side, estimate.price);
        if own.side != side {
            add("own at another side");
        } else if own.price != price {
            add("own at another price");
        }
        match price {
            ..0 => add("own at a negative price"),
            0 => add("own at price 0"),
            _ if at_level(self.book, side, price) == 0 => add("own at a price absent"),
            _ => {}
        }
    }
}
