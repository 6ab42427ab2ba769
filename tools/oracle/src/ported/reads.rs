//! The reads and estimates of the port. Each is lent fresh buffers with guard words behind them and may write only those; words that
//! no rule looks at (what lies behind a slice's fixed size) vary from call to call. A trial lends some of it short, or words of no value.

use std::collections::BTreeMap;

use super::book::{Block, Book, Extent, GUARD, GUARDS, Kept, RARE_TRIALS};
use super::boundary::{Given, Memory, OUTPUT_TOO_SMALL};
use super::cases::{Cases, Read, entries};
use super::trials::{Part, Trial};
use super::{READ_TRIAL_PERCENT, Reply, amiss, forms};
use crate::call::{
    AHEAD_SEED, Act, Ahead, Anchor, Assumption, Buffers, Call, Estimate, Left, Lent, OUTPUT_SEED,
    SCRATCH_SEED, SegmentName, Status, Values, fresh_words, left,
};
use crate::generate::random::Random;
use crate::piece::Side;
use crate::port::{self, reads as exported};

/// Fills the slices of a fixed size.
const FIXED_SEED: u64 = 4;

/// An estimate's words, with guards behind them, and its ahead-list.
pub struct Held {
    pub estimate: Estimate,
    words: Vec<u64>,
    pub list: Vec<u64>,
}

#[derive(Default)]
pub struct Reads {
    estimates: BTreeMap<u8, Held>,
}

/// Whether it is one of the calls dealt with here.
pub fn asks(act: &Act) -> bool {
    fixed_words(act).is_some() || !concerns_book(act)
}

/// The forging of estimates and ahead-lists concerns no book.
pub fn concerns_book(act: &Act) -> bool {
    !matches!(act, Act::ForgeEstimate { .. } | Act::SetAhead { .. })
}

/// The words of the slice of a fixed size that a read writes.
fn fixed_words(act: &Act) -> Option<usize> {
    match act {
        Act::Audit => Some(0),
        Act::Best => Some(exported::BEST_WORDS),
        Act::QueueEstimate { .. } | Act::QueueEstimateOwn { .. } => Some(exported::ESTIMATE_WORDS),
        Act::VolumeAhead { .. } => Some(exported::AHEAD_WORDS),
        Act::LastSequence => Some(exported::LAST_WORDS),
        act => entry_words(act).map(|_| exported::COUNT_WORDS),
    }
}

/// The words of an entry of a level read.
pub fn entry_words(act: &Act) -> Option<usize> {
    match act {
        Act::LevelQueue { .. } => Some(exported::QUEUE_WORDS),
        Act::PriorityProfile { .. } => Some(exported::PROFILE_WORDS),
        Act::L2 { .. } | Act::StaleL2 { .. } => Some(exported::L2_WORDS),
        _ => None,
    }
}

/// The words of an order of the list that `queue_estimate` writes.
fn listed_words(act: &Act) -> Option<usize> {
    matches!(act, Act::QueueEstimate { .. }).then_some(exported::LISTED_WORDS)
}

/// The side that a read is asked for.
fn side_of(act: &Act) -> Option<Side> {
    match *act {
        Act::LevelQueue { side, .. }
        | Act::PriorityProfile { side }
        | Act::L2 { side }
        | Act::StaleL2 { side }
        | Act::QueueEstimate { side, .. } => Some(side),
        _ => None,
    }
}

/// What a read is lent beside the rows: words, and the lengths of what it writes.
struct Lending {
    block: Block,
    /// So many words of the block are lent.
    state: usize,
    /// The estimate that is read, with guards behind it, and how many of its words are lent.
    estimate: Vec<u64>,
    estimate_lent: usize,
    side: u64,
    /// The slice of a fixed size that is written.
    fixed: usize,
    /// Entries of a level read, or a list of orders ahead.
    output: u64,
}

/// Words lent to a call, with guards behind them.
struct Guarded(Vec<u64>);

impl Guarded {
    fn fresh(seed: u64, length: u64) -> Guarded {
        let mut words = fresh_words(seed, length);
        words.extend([GUARD; GUARDS]);
        Guarded(words)
    }

    fn lent(&mut self) -> &mut [u64] {
        let length = self.0.len() - GUARDS;
        &mut self.0[..length]
    }

    fn back(mut self) -> Vec<u64> {
        assert!(
            self.0.ends_with(&[GUARD; GUARDS]),
            "a guard word was touched"
        );
        self.0.truncate(self.0.len() - GUARDS);
        self.0
    }
}

/// A call's answer and its buffers afterwards; those that it is not lent are empty.
struct Done {
    answer: u64,
    scratch: Vec<u64>,
    output: Vec<u64>,
    ahead: Vec<u64>,
    fixed: Vec<u64>,
}

/// One call of the library.
struct Asked<'a> {
    book: &'a Book,
    lent: &'a Lent,
    act: &'a Act,
    held: Option<&'a Held>,
}

fn word_of(side: Side) -> u64 {
    match side {
        Side::Buy => 0,
        Side::Sell => 1,
    }
}

impl Asked<'_> {
    /// As much as the call asks for, or more.
    fn lending(&self, random: &mut Random) -> Lending {
        let mut more = || random.below(GUARDS as u64 + 1) as usize;
        Lending {
            block: self.book.block,
            state: port::BLOCK_WORDS + more(),
            estimate: self.held.map_or(vec![], |held| held.words.clone()),
            estimate_lent: exported::ESTIMATE_WORDS + more(),
            side: side_of(self.act).map_or(0, word_of),
            fixed: fixed_words(self.act).map_or(0, |words| words + more()),
            output: match listed_words(self.act) {
                Some(_) => self.lent.ahead,
                None => self.lent.output,
            },
        }
    }

    fn done(&self, lending: &Lending) -> Done {
        let leveled = entry_words(self.act).is_some();
        let listed = listed_words(self.act).is_some();
        let if_lent = |lent: bool, length: u64| if lent { length } else { 0 };
        let mut scratch = Guarded::fresh(SCRATCH_SEED, if_lent(leveled, self.lent.scratch));
        let mut output = Guarded::fresh(OUTPUT_SEED, if_lent(leveled, lending.output));
        let mut ahead = Guarded::fresh(AHEAD_SEED, if_lent(listed, lending.output));
        let mut out = Guarded::fresh(FIXED_SEED, lending.fixed as u64);
        let state = &lending.block[..lending.state];
        let before = Kept::of(&lending.block);
        let answer = self.book.read(self.lent, |rows| {
            let out = out.lent();
            match *self.act {
                Act::LastSequence => exported::last_sequence(state, rows, out),
                Act::Best => exported::best(state, rows, out),
                Act::Audit => exported::audit(state, rows),
                Act::QueueEstimate { price, .. } => {
                    let place = (lending.side, price as u64);
                    exported::queue_estimate(state, rows, place, ahead.lent(), out)
                }
                Act::QueueEstimateOwn { order_id, .. } => {
                    exported::queue_estimate_own(state, rows, order_id, out)
                }
                Act::VolumeAhead { .. } => self.volume_ahead(lending, rows, out),
                _ => self.level_read(lending, rows, (scratch.lent(), output.lent(), out)),
            }
        });
        assert!(before.holds(&lending.block), "a read wrote into the state");
        Done {
            answer,
            scratch: scratch.back(),
            output: output.back(),
            ahead: ahead.back(),
            fixed: out.back(),
        }
    }

    fn level_read(
        &self,
        lending: &Lending,
        rows: &[u64],
        (scratch, out, count): (&mut [u64], &mut [u64], &mut [u64]),
    ) -> u64 {
        let (state, side) = (&lending.block[..lending.state], lending.side);
        match *self.act {
            Act::LevelQueue { price, .. } => {
                let place = (side, price as u64);
                exported::level_queue(state, rows, scratch, place, out, count)
            }
            Act::PriorityProfile { .. } => {
                exported::priority_profile(state, rows, scratch, side, out, count)
            }
            Act::L2 { .. } => exported::l2(state, rows, scratch, side, out, count),
            Act::StaleL2 { .. } => exported::stale_l2(state, rows, scratch, side, out, count),
            ref act => unreachable!("{act:?} is no level read"),
        }
    }

    /// Neither the estimate nor its list may change.
    fn volume_ahead(&self, lending: &Lending, rows: &[u64], out: &mut [u64]) -> u64 {
        let held = self.held.expect("an estimate is held");
        let memories = [&lending.estimate, &held.list];
        let before = memories.map(|memory| Kept::of(memory));
        let state = &lending.block[..lending.state];
        let estimate = &lending.estimate[..lending.estimate_lent];
        let list = &held.list[..self.lent_list(held)];
        let answer = exported::volume_ahead(state, rows, estimate, list, out);
        for (before, memory) in before.iter().zip(memories) {
            assert!(before.holds(memory), "a read wrote into the estimate");
        }
        answer
    }

    fn lent_list(&self, held: &Held) -> usize {
        held.list.len().min(self.lent.ahead as usize)
    }

    /// The words that a success writes into the output or the list.
    fn need(&self) -> u64 {
        let each = entry_words(self.act).or(listed_words(self.act));
        each.map_or(0, |each| each as u64 * entries(self.book, self.act))
    }

    /// The same call with something amiss, where the rules say `rules` (7 left out): the first number that holds is said, and nothing is written.
    fn amiss(&self, rules: u64, random: &mut Random, cases: &mut Cases) {
        let mut trial = Trial::new(self.act.name(), &self.book.block, random);
        let mut lending = self.lending(random);
        (lending.block, lending.state) = (trial.block, trial.extent.state);
        let need = self.need();
        lending.output = need;
        self.spoil_input(&mut lending, &mut trial, random);
        self.shorten_output(&mut lending, &mut trial, random);
        let given = Given {
            estimate: self
                .held
                .map(|_| &lending.estimate[..lending.estimate_lent]),
            side: side_of(self.act).map(|_| lending.side),
            output_short: lending.fixed < fixed_words(self.act).unwrap_or(0)
                || lending.output < need,
            ..Given::new(trial.state(), Some(self.memory()))
        };
        let Some(number) = trial.expected(&given, rules, cases) else {
            return;
        };
        let done = self.done(&lending);
        assert_eq!(done.answer, number, "a trial: {:?}", self.act);
        let buffers = [
            (&done.scratch, SCRATCH_SEED),
            (&done.output, OUTPUT_SEED),
            (&done.ahead, AHEAD_SEED),
            (&done.fixed, FIXED_SEED),
        ];
        for (buffer, seed) in buffers {
            let left = left(buffer, seed, &[]);
            assert_eq!(left, Left::Untouched, "a trial: {:?}", self.act);
        }
    }

    fn memory(&self) -> Memory {
        let scratch = entry_words(self.act).map(|_| self.lent.scratch as usize);
        Memory {
            segments: None,
            scratch,
            ..self.book.memory(self.lent, Extent::EXACT)
        }
    }

    fn spoil_input(&self, lending: &mut Lending, trial: &mut Trial, random: &mut Random) {
        if side_of(self.act).is_some() && amiss::drawn(random) {
            lending.side = amiss::above(1, random);
            trial.met(Part::Value, "side above 1");
        }
        if self.held.is_none() {
            return;
        }
        if amiss::drawn(random) {
            let (place, what) = random.pick(&ESTIMATE_FLAGS);
            lending.estimate[place] = amiss::above(1, random);
            trial.met(Part::Value, what);
        }
        if amiss::drawn(random) {
            lending.estimate_lent = amiss::short(exported::ESTIMATE_WORDS, random);
            trial.met(Part::Input, "estimate short");
        }
    }

    fn shorten_output(&self, lending: &mut Lending, trial: &mut Trial, random: &mut Random) {
        let fixed = fixed_words(self.act).unwrap_or(0);
        if fixed > 0 && amiss::drawn(random) {
            lending.fixed = amiss::short(fixed, random);
            trial.met(Part::Output, "fixed output short");
        }
        if lending.output > 0 && amiss::drawn(random) {
            lending.output = amiss::short(lending.output as usize, random) as u64;
            trial.met(Part::Output, "entries short");
        }
    }
}

/// The words of an estimate that are 0 or 1.
const ESTIMATE_FLAGS: [(usize, &str); 2] = [(0, "estimate's side above 1"), (4, "own above 1")];

/// The words of an estimate, with guards behind them. `rest` is the word that a hypothetical anchor does not use.
fn estimate_words(estimate: &Estimate, rest: u64) -> Vec<u64> {
    let SegmentName { number, place } = estimate.segment;
    let (side, price) = (word_of(estimate.side), estimate.price as u64);
    let mut words = vec![side, price, number, place];
    words.extend(match estimate.anchor {
        Anchor::Hypothetical { orders, created_at } => [0, orders, created_at, rest],
        Anchor::Own {
            order_id,
            entered_at,
        } => [1, (order_id >> 64) as u64, order_id as u64, entered_at],
    });
    words.extend([GUARD; GUARDS]);
    words
}

/// The estimate that a call wrote, which it writes in one form only.
fn estimate_of(words: &[u64]) -> Estimate {
    let anchor = match words[4] {
        0 => Anchor::Hypothetical {
            orders: words[5],
            created_at: words[6],
        },
        _ => Anchor::Own {
            order_id: u128::from(words[5]) << 64 | u128::from(words[6]),
            entered_at: words[7],
        },
    };
    let estimate = Estimate {
        side: if words[0] == 0 { Side::Buy } else { Side::Sell },
        price: words[1] as i64,
        segment: SegmentName {
            number: words[2],
            place: words[3],
        },
        anchor,
    };
    let form = estimate_words(&estimate, 0);
    assert!(form.starts_with(words), "an estimate's form: {words:?}");
    estimate
}

fn best_of(words: &[u64]) -> Values {
    let price = |words: &[u64]| match *words {
        [0, 0] => None,
        [1, price] => Some(price as i64),
        _ => panic!("no best price: {words:?}"),
    };
    Values::Best(price(&words[..2]), price(&words[2..]))
}

fn ahead_of(words: &[u64]) -> Ahead {
    let first = match words[5] {
        0 => Assumption::BackOfVisibleQueueAtCreation,
        1 => Assumption::EntrySequenceIsPriority,
        other => panic!("no assumption: {other}"),
    };
    assert!(words[6] <= 1, "a flag: {}", words[6]);
    let kept = (words[6] == 1).then_some(Assumption::SizeDecreaseKeepsPriority);
    Ahead {
        at_seq: words[0],
        volume: words[1],
        from_snapshot: words[2],
        observed: words[3],
        orders: words[4],
        assumptions: [first].into_iter().chain(kept).collect(),
    }
}

/// The first words of a buffer, as many as `count` asks for and as there are.
fn first_words(buffer: &[u64], count: u64, each: usize) -> Vec<u64> {
    let length = count.saturating_mul(each as u64);
    buffer[..buffer.len().min(length as usize)].to_vec()
}

impl Done {
    fn values(&self, act: &Act, status: Status) -> Values {
        match (act, self.answer) {
            (Act::StaleL2 { .. }, exported::NO_STALE) => Values::NoStale,
            (_, 18) => match status {
                Status::Invalid(why) => Values::Invalidation(why),
                _ => Values::Nothing,
            },
            (_, 1..) | (Act::Audit, 0) => Values::Nothing,
            (Act::LastSequence, 0) => Values::LastSequence(self.fixed[0]),
            (Act::Best, 0) => best_of(&self.fixed[..exported::BEST_WORDS]),
            (Act::VolumeAhead { .. }, 0) => {
                Values::Ahead(ahead_of(&self.fixed[..exported::AHEAD_WORDS]))
            }
            (Act::QueueEstimate { .. } | Act::QueueEstimateOwn { .. }, 0) => {
                let estimate = estimate_of(&self.fixed[..exported::ESTIMATE_WORDS]);
                let orders = match estimate.anchor {
                    Anchor::Hypothetical { orders, .. } => orders,
                    Anchor::Own { .. } => 0,
                };
                let list = first_words(&self.ahead, orders, exported::LISTED_WORDS);
                Values::Estimate { estimate, list }
            }
            (act, 0) => {
                let each = entry_words(act).expect("a level read");
                let entries = self.fixed[0];
                let words = first_words(&self.output, entries, each);
                Values::Entries { entries, words }
            }
        }
    }

    /// How the buffers are left, if these values should have been written.
    fn buffers(&self, act: &Act, values: &Values, max_orders: u64) -> Buffers {
        let (zeroed, written, list): (u64, &[u64], &[u64]) = match values {
            Values::Entries { words, .. } => (max_orders, words, &[]),
            Values::Estimate { list, .. } => (0, &[], list),
            _ => (0, &[], &[]),
        };
        let zeros = vec![0; zeroed.min(self.scratch.len() as u64) as usize];
        let mut buffers = Buffers::NONE;
        if entry_words(act).is_some() {
            buffers.scratch = left(&self.scratch, SCRATCH_SEED, &zeros);
            buffers.output = left(&self.output, OUTPUT_SEED, written);
        }
        if let Act::QueueEstimate { .. } = act {
            buffers.ahead = left(&self.ahead, AHEAD_SEED, list);
        }
        buffers
    }

    /// Words of the fixed slice past those written; a refusal and a stale read of a sound book write none.
    fn check_fixed(&self, act: &Act) {
        let written = match self.answer {
            0 => fixed_words(act).unwrap_or(0),
            _ => 0,
        };
        let fresh = fresh_words(FIXED_SEED, self.fixed.len() as u64);
        assert_eq!(
            self.fixed[written..],
            fresh[written..],
            "words past the answer: {act:?}"
        );
    }
}

impl Reads {
    /// None if a slot that the call names is empty.
    pub fn reply(
        &mut self,
        books: &BTreeMap<u8, Book>,
        call: &Call,
        random: &mut Random,
        cases: &mut Cases,
    ) -> Option<Reply> {
        match &call.act {
            Act::ForgeEstimate {
                slot,
                estimate,
                list,
            } => {
                let held = Held {
                    estimate: *estimate,
                    words: estimate_words(estimate, random.below(2) * GUARD),
                    list: list.to_vec(),
                };
                self.estimates.insert(*slot, held);
                Some(Reply::new(0, Values::Nothing))
            }
            Act::SetAhead { slot, index, word } => {
                let list = &mut self.estimates.get_mut(slot)?.list;
                if *index < list.len() as u64 {
                    list[*index as usize] = *word;
                }
                Some(Reply::new(0, Values::Nothing))
            }
            _ => self.asked(books.get(&call.book)?, call, random, cases),
        }
    }

    fn asked(
        &mut self,
        book: &Book,
        call: &Call,
        random: &mut Random,
        cases: &mut Cases,
    ) -> Option<Reply> {
        let act = &call.act;
        let held = match act {
            Act::VolumeAhead { slot } => Some(self.estimates.get(slot)?),
            _ => None,
        };
        let asked = Asked {
            book,
            lent: &call.lent,
            act,
            held,
        };
        if let Some(form) = forms::of(&book.block) {
            cases.add(act.name(), form);
        }
        let (reply, made) = asked.reply(random, cases);
        if let (Act::QueueEstimate { slot, .. } | Act::QueueEstimateOwn { slot, .. }, Some(made)) =
            (act, made)
        {
            self.estimates.insert(*slot, made);
        }
        Some(reply)
    }
}

/// How often a read that the rules answered so is made with something amiss too: the more, the fewer of them there are.
fn trials(act: &Act, rules: u64, random: &mut Random) -> u64 {
    match (act, rules) {
        (Act::LastSequence | Act::Best | Act::Audit, _) | (_, 1 | 2) => RARE_TRIALS,
        _ => u64::from(random.chance(READ_TRIAL_PERCENT)),
    }
}

impl Asked<'_> {
    /// Trials of a read that was answered so; an output that is too small is no rule's.
    fn try_amiss(&self, answer: u64, random: &mut Random, cases: &mut Cases) {
        let rules = if answer == OUTPUT_TOO_SMALL {
            0
        } else {
            answer
        };
        cases.invalid(&self.book.block, rules);
        for _ in 0..trials(self.act, rules, random) {
            self.amiss(rules, random, cases);
        }
    }

    /// The reply, and the estimate made.
    fn reply(&self, random: &mut Random, cases: &mut Cases) -> (Reply, Option<Held>) {
        let act = self.act;
        let done = self.done(&self.lending(random));
        done.check_fixed(act);
        self.try_amiss(done.answer, random, cases);
        let values = done.values(act, self.book.status());
        let buffers = done.buffers(act, &values, self.book.max_orders());
        let number = match values {
            Values::NoStale => 0,
            _ => done.answer,
        };
        let read = Read {
            book: self.book,
            lent: self.lent,
            act,
            held: self.held,
            number,
            values: &values,
        };
        read.note(cases);
        let made = match &values {
            Values::Estimate { estimate, .. } => Some(Held {
                estimate: *estimate,
                words: estimate_words(estimate, 0),
                list: done.ahead,
            }),
            _ => None,
        };
        let reply = Reply {
            number,
            values,
            buffers,
        };
        (reply, made)
    }
}
