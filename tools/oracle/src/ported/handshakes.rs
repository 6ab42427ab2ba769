//! Handshakes as a host keeps them: four words each, and guard words behind them.

use std::collections::BTreeSet;

use super::book::{Book, GUARD, GUARDS};
use super::boundary::Given;
use super::states::Asked;
use super::trials::{Part, Trial};
use super::{Export, Ported, READ_TRIAL_PERCENT, Reply, STEP_TRIAL_PERCENT, amiss, read_message};
use crate::call::{Act, Applied, Call, Handshake, Lent, SegmentName, Status, Stepped, Values};
use crate::piece::{Message, shape_message};
use crate::port;

const WORDS: usize = port::HANDSHAKE_WORDS;

type Words = [u64; WORDS + GUARDS];

/// Places of the words.
mod at {
    pub const NUMBER: usize = 0;
    pub const PLACE: usize = 1;
    pub const ENDED: usize = 2;
    pub const APPLIED: usize = 3;
}

pub struct Held {
    words: Words,
    /// What the value claims. The port holds none and no rule looks at it.
    start_seq: u64,
    /// Whether the library made it of a book without a snapshot.
    early: bool,
    /// The book of its latest step that 9 did not turn away, and the calls made on that book since.
    stepped: Option<u8>,
    between: BTreeSet<&'static str>,
}

impl Held {
    fn new(words: Words, start_seq: u64) -> Held {
        Held {
            words,
            start_seq,
            early: false,
            stepped: None,
            between: BTreeSet::new(),
        }
    }

    fn value(&self) -> Handshake {
        Handshake {
            segment: SegmentName {
                number: self.words[at::NUMBER],
                place: self.words[at::PLACE],
            },
            start_seq: self.start_seq,
            applied: self.words[at::APPLIED],
            ended: self.words[at::ENDED] == 1,
        }
    }

    /// Sees that a step with this answer left the words as it should: one more applied, or ended, else as they were.
    fn check(&self, before: &Words, answer: u64) {
        let mut expected = *before;
        match answer {
            0 | port::CHANGED => {
                expected[at::APPLIED] = expected[at::APPLIED].saturating_add(1);
            }
            16 | 17 => expected[at::ENDED] = 1,
            _ => {}
        }
        assert_eq!(self.words, expected, "the handshake after {answer}");
    }
}

/// What a step is about to meet.
struct Before {
    words: Words,
    early: bool,
    fresh: bool,
    invalid: bool,
    same_segment: bool,
}

impl Before {
    fn of(book: &Book, held: &Held) -> Before {
        let Handshake { segment, .. } = held.value();
        let (number, place) = (book.number(), book.segments().wrapping_sub(1));
        Before {
            words: held.words,
            early: held.early,
            fresh: book.segments() == 0,
            invalid: matches!(book.status(), Status::Invalid(_)),
            same_segment: segment == SegmentName { number, place },
        }
    }

    /// The case of a step with this answer.
    fn case(&self, answer: u64) -> Option<&'static str> {
        Some(match answer {
            port::DROPPED if self.invalid => "dropped while invalid",
            port::DROPPED => "dropped",
            0 | port::CHANGED if self.words[at::APPLIED] == u64::MAX => "applied stops",
            port::CHANGED => "changed the book",
            0 => "without effect",
            9 if self.fresh && self.early => "9 of one made without a snapshot",
            9 if self.fresh => "9 on a fresh book",
            9 if self.same_segment && self.early => "9 of one made before the snapshot",
            9 if self.same_segment => "9 of an ended one",
            9 if self.words[at::ENDED] == 0 => "9 of another segment",
            10 => "10 passes by",
            16 => "16 ends it",
            17 => "17 ends it",
            _ => return None,
        })
    }
}

/// The words of a handshake, with guards behind them.
fn guarded(words: [u64; WORDS]) -> Words {
    let mut guarded = [GUARD; WORDS + GUARDS];
    guarded[..WORDS].copy_from_slice(&words);
    guarded
}

impl Ported {
    pub(super) fn forge_handshake(&mut self, slot: u8, handshake: &Handshake) -> Reply {
        let mut words = [0; WORDS];
        words[at::NUMBER] = handshake.segment.number;
        words[at::PLACE] = handshake.segment.place;
        words[at::ENDED] = u64::from(handshake.ended);
        words[at::APPLIED] = handshake.applied;
        let held = Held::new(guarded(words), handshake.start_seq);
        let value = held.value();
        self.handshakes.insert(slot, held);
        Reply::new(0, Values::Handshake(value))
    }

    /// Of a book without a snapshot too: such a handshake has ended.
    pub(super) fn handshake(&mut self, call: &Call, slot: u8) -> Option<Reply> {
        let book = self.books.get(&call.book)?;
        let asked = Asked {
            call: "handshake",
            block: &book.block,
            trials: u64::from(self.random.chance(READ_TRIAL_PERCENT)),
        };
        let words = asked.written(&mut self.random, &mut self.cases, port::handshake)?;
        let mut held = Held::new(guarded(words), book.start_seq());
        if book.segments() == 0 {
            self.cases.add("handshake", "no segment");
            held.early = true;
        }
        let value = held.value();
        self.handshakes.insert(slot, held);
        Some(Reply::new(0, Values::Handshake(value)))
    }

    pub(super) fn step(&mut self, call: &Call, slot: u8, piece: &[u8]) -> Option<Reply> {
        let mut held = self.handshakes.remove(&slot)?;
        let answer = match shape_message(piece) {
            Ok(message) => self.step_message(call, &mut held, &message),
            // No value to step by: the reader says so.
            Err(_) => Some(read_message(piece).number),
        };
        let handshake = held.value();
        self.handshakes.insert(slot, held);
        let answer = answer?;
        let stepped = match answer {
            0 => Some(Stepped::Applied(Applied::NoBookEffect)),
            port::CHANGED => Some(Stepped::Applied(Applied::BookChanged)),
            port::DROPPED => Some(Stepped::Dropped),
            _ => None,
        };
        let invalidation = match (answer, self.books.get(&call.book)?.status()) {
            (16 | 17, Status::Invalid(why)) => Some(why),
            _ => None,
        };
        let values = Values::Step {
            stepped,
            invalidation,
            handshake,
        };
        let number = if stepped.is_some() { 0 } else { answer };
        Some(Reply::new(number, values))
    }

    fn step_message(&mut self, call: &Call, held: &mut Held, message: &Message) -> Option<u64> {
        let words = self.message_form(Export::Step, message);
        let trial = self.book_for_trial(call, STEP_TRIAL_PERCENT)?;
        let before = Before::of(self.books.get(&call.book)?, held);
        self.begin_run(call)?;
        let room = WORDS + self.random.below(GUARDS as u64 + 1) as usize;
        let answer = self.lend(Export::Step, call, |state, rows, segments| {
            port::step(state, rows, segments, &mut held.words[..room], &words)
        })?;
        held.check(&before.words, answer);
        if let Some(book) = trial {
            self.try_step(&book, &call.lent, (before.words, words.clone()), answer);
        }
        if !matches!(answer, 9 | port::DROPPED) {
            self.note_message(call, &words, answer)?;
        }
        if let Some(case) = before.case(answer) {
            self.cases.add("step", case);
        }
        if matches!(answer, 0 | 10 | 16 | 17 | port::CHANGED | port::DROPPED) {
            if held.stepped == Some(call.book) {
                let between = std::mem::take(&mut held.between);
                let mut add = |name| self.cases.add("between steps", name);
                between.into_iter().for_each(&mut add);
            }
            held.between.clear();
            held.stepped = Some(call.book);
        }
        Some(answer)
    }

    /// The same step with something amiss.
    fn try_step(
        &mut self,
        book: &Book,
        lent: &Lent,
        (mut words, mut message): (Words, Vec<u64>),
        rules: u64,
    ) {
        let random = &mut self.random;
        let mut trial = Trial::new(Export::Step.name(), &book.block, random);
        amiss::message(&mut message, &mut trial, random);
        if amiss::drawn(random) {
            words[at::ENDED] = amiss::above(1, random);
            trial.met(Part::Value, "ended above 1");
        }
        let mut room = WORDS;
        if amiss::drawn(random) {
            room = amiss::short(WORDS, random);
            trial.met(Part::Input, "handshake short");
        }
        let given = Given {
            message: Some(&message),
            handshake: Some(&words[..room]),
            ..Given::new(trial.state(), Some(book.memory(lent, trial.extent)))
        };
        let Some(number) = trial.expected(&given, rules, &mut self.cases) else {
            return;
        };
        let kept = words;
        book.turns_away(lent, &trial, number, |state, rows, segments| {
            port::step(state, rows, segments, &mut words[..room], &message)
        });
        assert_eq!(words, kept, "the handshake after a trial");
    }

    /// As a host writes it out: `bootstrap`, the handshake, a step for each message until one ends it.
    pub(super) fn bootstrap_with_buffer(
        &mut self,
        call: &Call,
        slot: u8,
        piece: &[u8],
        buffer: &[Vec<u8>],
    ) -> Option<Reply> {
        let number = self.bootstrap(call, piece)?;
        if number != 0 {
            return Some(Reply::new(number, Values::Nothing));
        }
        self.handshake(call, slot)?;
        let (mut number, mut why) = (0, None);
        for message in buffer {
            let reply = self.step(call, slot, message)?;
            if let Values::Step {
                invalidation,
                handshake,
                ..
            } = reply.values
                && handshake.ended
            {
                (number, why) = (reply.number, invalidation);
                break;
            }
        }
        let values = Values::Buffered {
            invalidation: why,
            handshake: self.handshakes.get(&slot)?.value(),
        };
        Some(Reply::new(number, values))
    }

    /// Notes a call for the handshakes that its book was stepped by.
    pub(super) fn between(&mut self, call: &Call) {
        let own = match call.act {
            Act::Step { slot, .. } | Act::BootstrapWithBuffer { slot, .. } => Some(slot),
            _ => None,
        };
        let created = matches!(call.act, Act::Create { .. });
        for (&slot, held) in &mut self.handshakes {
            held.stepped = held.stepped.filter(|&book| !(created && book == call.book));
            if held.stepped == Some(call.book) && own != Some(slot) {
                held.between.insert(call.act.name());
            }
        }
    }
}
