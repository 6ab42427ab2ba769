//! Runs of messages: those that a book was handed one by one, words of no message put among them, are applied in one call on a copy of its memory as
//! it was before, beside single calls on another copy.

use super::book::{Book, Extent, GUARD, GUARDS, at};
use super::boundary::{Given, NO_VALUE};
use super::cases::Cases;
use super::trials::{Part, Trial};
use super::{Ported, TRIAL_PERCENT, amiss, forms};
use crate::call::{Act, Call, Lent};
use crate::generate::random::Random;
use crate::port::{self, MESSAGE_WORDS};

/// After how many messages in a hundred a run is handed over that could go on.
const END_PERCENT: u64 = 1;
/// How many runs without a message in a hundred are handed over.
const EMPTY_PERCENT: u64 = 25;
/// Before how many messages in a hundred, and before the end, words of no message are put.
const NO_MESSAGE_PERCENT: u64 = 10;
/// From how many messages on a run is a long one, and from how many orders on a book a large one.
const LONG: usize = 100;
const LARGE: u64 = 1_000;

/// Messages, the answers to each, and the book before the first.
pub struct Run {
    before: Book,
    lent: Lent,
    messages: Vec<u64>,
    answers: Vec<u64>,
}

/// The words that a run is lent beside the book's.
struct Words {
    messages: Vec<u64>,
    answers: Vec<u64>,
}

impl Run {
    fn new(book: &Book, lent: Lent) -> Run {
        Run {
            before: book.clone(),
            lent,
            messages: Vec::new(),
            answers: Vec::new(),
        }
    }

    fn push(&mut self, message: &[u64], answer: u64) {
        self.messages.extend(&message[..MESSAGE_WORDS]);
        self.answers.push(answer);
    }

    /// What the run is to answer: 1, 2 or 3 as any message is, else 0.
    fn number(&self) -> u64 {
        let ask = || apply(&mut self.before.clone(), &self.lent, &ANY_MESSAGE);
        let told = |answer: &&u64| **answer != NO_VALUE;
        let first = self.answers.iter().find(told).copied();
        match first.unwrap_or_else(ask) {
            refused @ 1..=3 => refused,
            _ => 0,
        }
    }

    /// The same run with words of no message put among its messages: each is told 4 and changes nothing.
    fn with_no_messages(&self, random: &mut Random, cases: &mut Cases) -> Run {
        let mut run = Run::new(&self.before, self.lent);
        let mut put = |run: &mut Run| {
            if random.chance(NO_MESSAGE_PERCENT) {
                let mut message = ANY_MESSAGE;
                message[1..].fill_with(|| random.word());
                cases.add("apply_all", amiss::spoil_message(&mut message, random));
                run.push(&message, NO_VALUE);
            }
        };
        let messages = self.messages.chunks_exact(MESSAGE_WORDS);
        for (message, &answer) in messages.zip(&self.answers) {
            put(&mut run);
            run.push(message, answer);
        }
        put(&mut run);
        run
    }

    /// The book after single calls; the answers must be those that were given before.
    fn singly(&self) -> Book {
        let mut book = self.before.clone();
        let messages = self.messages.chunks_exact(MESSAGE_WORDS);
        for (message, &answer) in messages.zip(&self.answers) {
            assert_eq!(apply(&mut book, &self.lent, message), answer, "made again");
        }
        book
    }

    /// Hands the messages over, with part of another behind them.
    fn check(&self, random: &mut Random, cases: &mut Cases) {
        let (count, mut book) = (self.answers.len(), self.before.clone());
        let mut words = Words {
            messages: self.messages.clone(),
            answers: vec![GUARD; count + GUARDS],
        };
        let part = random.below(MESSAGE_WORDS as u64);
        words.messages.extend((0..part).map(|_| random.word()));
        if random.chance(TRIAL_PERCENT) {
            self.amiss(&mut words, random, cases);
        }
        let room = count + random.below(GUARDS as u64 + 1) as usize;
        let extent = Extent::drawn(random);
        let number = book.lend(&self.lent, extent, |state, rows, segments| {
            let answers = &mut words.answers[..room];
            port::apply_all(state, rows, segments, &words.messages, answers)
        });
        assert_eq!(number, self.number(), "the number of a run");
        let mut expected = match number {
            0 => self.answers.clone(),
            _ => vec![GUARD; count],
        };
        expected.extend([GUARD; GUARDS]);
        assert_eq!(words.answers, expected, "the answers of a run");
        book.check_same(&self.singly(), "a run");
        self.note(number, cases);
    }

    /// The same run with something amiss.
    fn amiss(&self, words: &mut Words, random: &mut Random, cases: &mut Cases) {
        let mut trial = Trial::new("apply_all", &self.before.block, random);
        let (count, mut room) = (self.answers.len(), words.answers.len());
        if count > 0 && amiss::drawn(random) {
            room = amiss::short(count, random);
            trial.met(Part::Output, "answers short");
        }
        let given = Given {
            output_short: room < count,
            ..Given::new(
                trial.state(),
                Some(self.before.memory(&self.lent, trial.extent)),
            )
        };
        let Some(number) = trial.expected(&given, self.number(), cases) else {
            return;
        };
        (self.before).turns_away(&self.lent, &trial, number, |state, rows, segments| {
            let answers = &mut words.answers[..room];
            port::apply_all(state, rows, segments, &words.messages, answers)
        });
        let kept = words.answers.iter().all(|&word| word == GUARD);
        assert!(kept, "a trial leaves the answers");
    }

    fn note(&self, number: u64, cases: &mut Cases) {
        let mut add = |case| cases.add("apply_all", case);
        forms::of(&self.before.block).map(&mut add);
        match (number, self.answers.is_empty()) {
            (0, false) => add("run"),
            (0, true) => add("run of no message"),
            (1, false) => add("run told 1"),
            (2, false) => add("run told 2"),
            (_, false) => add("run told 3"),
            (_, true) => add("run of no message refused"),
        }
        if self.answers.len() >= LONG {
            add("long run");
        }
        if number == 0 && self.before.block[at::ROWS] >= LARGE {
            add("run on a large book");
        }
        let invalidated = self.answers.iter().position(|&answer| answer == 16);
        if invalidated.is_some_and(|place| place + 1 < self.answers.len()) {
            add("goes on after 16");
        }
        self.answers.iter().copied().map(case).for_each(add);
    }
}

/// The case of a message's answer.
fn case(answer: u64) -> &'static str {
    match answer {
        0 => "message without effect",
        port::CHANGED => "message changes the book",
        1..=3 => "message refused as all are",
        NO_VALUE => "message told 4",
        5 => "message told 5",
        10 => "message told 10",
        15 => "message told 15",
        16 => "message told 16",
        17 => "message told 17",
        _ => "message told another number",
    }
}

/// The words of some message.
const ANY_MESSAGE: [u64; MESSAGE_WORDS] = {
    let mut words = [0; MESSAGE_WORDS];
    words[0] = 1;
    words
};

fn apply(book: &mut Book, lent: &Lent, message: &[u64]) -> u64 {
    book.lend(lent, Extent::EXACT, |state, rows, segments| {
        port::apply(state, rows, segments, message)
    })
}

impl Ported {
    /// Comes before a message is handed to the call's book: a run begins, unless one is under way.
    pub(super) fn begin_run(&mut self, call: &Call) -> Option<()> {
        let book = self.books.get(&call.book)?;
        let begun = || Run::new(book, call.lent);
        self.runs.entry(call.book).or_insert_with(begun);
        Some(())
    }

    /// Comes after it: the message belongs to the run. One that was told 1, 2 or 3 touched nothing and makes a run of its own, up to three
    /// times over.
    pub(super) fn note_message(&mut self, call: &Call, message: &[u64], answer: u64) -> Option<()> {
        if (1..=3).contains(&answer) {
            let mut run = Run::new(self.books.get(&call.book)?, call.lent);
            for _ in 0..self.random.below(4) {
                run.push(message, answer);
            }
            self.apply_all(&run);
            return Some(());
        }
        let run = self.runs.get_mut(&call.book)?;
        run.lent = call.lent;
        run.push(message, answer);
        if self.random.chance(END_PERCENT) {
            self.end_run(call);
        }
        Some(())
    }

    fn apply_all(&mut self, run: &Run) {
        let run = run.with_no_messages(&mut self.random, &mut self.cases);
        run.check(&mut self.random, &mut self.cases);
    }

    /// Hands over the run of the call's book.
    fn end_run(&mut self, call: &Call) {
        let Some(book) = self.books.get(&call.book) else {
            return;
        };
        let run = self.runs.remove(&call.book);
        let run = run.unwrap_or_else(|| Run::new(book, call.lent));
        if !run.answers.is_empty() || self.random.chance(EMPTY_PERCENT) {
            self.apply_all(&run);
        }
    }

    /// Ends a run where the call changes its book by other than a message.
    pub(super) fn before_change(&mut self, call: &Call) {
        if matches!(
            call.act,
            Act::Create { .. }
                | Act::Bootstrap { .. }
                | Act::BootstrapWithBuffer { .. }
                | Act::SetRow { .. }
                | Act::SetSegment { .. }
                | Act::SetState { .. }
        ) {
            self.end_run(call);
        }
    }
}
