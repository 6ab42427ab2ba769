//! One call as bytes (crates/recorded/specs/Format.antt) and its answer as a line (docs/VECTORS.md).

use std::fmt::Write;

use super::words::{self, Memory};
use crate::call::{
    AHEAD_SEED, Act, Ahead, Applied, Assumption, Buffers, Estimate, Handshake, Left, Lent,
    OUTPUT_SEED, SCRATCH_SEED, Said, Stepped, Values, Voice, digest_words, fresh_words,
};

/// One call: what the program is to do with the book that it keeps.
pub struct Record<'a> {
    pub act: &'a Act,
    pub voice: Voice,
    pub max_orders: u64,
    /// Words lent.
    pub rows: u64,
    pub segments: u64,
    pub lent: Lent,
    /// The place of the segment asked for.
    pub place: u64,
    /// What a step or a volume ahead is handed.
    pub handshake: Option<Handshake>,
    pub estimate: Option<(Estimate, Vec<u64>)>,
}

/// Whose answers are recorded, in the order of their numbers.
const VOICES: [Voice; 3] = [Voice::Rust, Voice::Runner, Voice::Model];

/// Whose an answer is.
pub fn voice_name(voice: Voice) -> &'static str {
    match voice {
        Voice::Rust => "rust",
        Voice::Runner => "runner",
        Voice::Model => "model",
        Voice::Port => unreachable!("the port gives no answers here"),
    }
}

/// The operation's number and name; none for what is no call on the book.
fn operation(act: &Act) -> Option<(u8, &'static str)> {
    Some(match act {
        Act::Create { .. } => (0, "create"),
        Act::SetRow { .. } | Act::SetSegment { .. } | Act::SetState { .. } => (1, "write"),
        Act::Bootstrap { .. } => (2, "bootstrap"),
        Act::Apply { .. } => (3, "apply"),
        Act::Handshake { .. } => (4, "handshake"),
        Act::Step { .. } => (5, "step"),
        Act::LastSequence => (6, "last_sequence"),
        Act::Best => (7, "best"),
        Act::Audit => (8, "audit"),
        Act::LevelQueue { .. } => (9, "level_queue"),
        Act::PriorityProfile { .. } => (10, "priority_profile"),
        Act::L2 { .. } => (11, "l2"),
        Act::StaleL2 { .. } => (12, "stale_l2"),
        Act::QueueEstimate { .. } => (13, "queue_estimate"),
        Act::QueueEstimateOwn { .. } => (14, "queue_estimate_own"),
        Act::VolumeAhead { .. } => (15, "volume_ahead"),
        Act::Invalidation => (16, "invalidation"),
        Act::Manifest => (17, "segment"),
        _ => return None,
    })
}

fn bytes_of(words: &[u64]) -> Vec<u8> {
    words.iter().flat_map(|word| word.to_le_bytes()).collect()
}

impl Record<'_> {
    pub fn is_a_call(&self) -> bool {
        operation(self.act).is_some()
    }

    /// The side or the memory written, and the two arguments.
    fn arguments(&self) -> (u16, u64, u64) {
        let side = |side| words::side(side) as u16;
        match *self.act {
            Act::Create { row_fill, .. } => (0, row_fill, 0),
            Act::SetState { .. } => (0, words::STATUS as u64, 0),
            Act::SetRow { index, .. } => (1, index, 0),
            Act::SetSegment { index, .. } => (2, index * words::RECORD as u64, 0),
            Act::LevelQueue { side: s, price } => (side(s), price as u64, 0),
            Act::QueueEstimate { side: s, price, .. } => (side(s), price as u64, 0),
            Act::PriorityProfile { side: s } => (side(s), 0, 0),
            Act::L2 { side: s } | Act::StaleL2 { side: s } => (side(s), 0, 0),
            Act::QueueEstimateOwn { order_id, .. } => {
                let [high, low] = words::id(order_id);
                (0, high, low)
            }
            Act::Manifest => (0, self.place, 0),
            _ => (0, 0, 0),
        }
    }

    fn payload(&self, memory: &Memory) -> Vec<u8> {
        match self.act {
            Act::Create { .. } => bytes_of(&memory.block[..words::STATUS]),
            Act::SetState { .. } => bytes_of(&memory.block[words::STATUS..]),
            Act::SetRow { word, .. } => bytes_of(&[*word]),
            Act::SetSegment { record, .. } => bytes_of(&words::record(record)),
            Act::Bootstrap { piece } | Act::Apply { piece } => piece.clone(),
            Act::Step { piece, .. } => {
                let handshake = self.handshake.expect("the step's handshake");
                let mut payload = bytes_of(&words::handshake(&handshake));
                payload.extend(piece);
                payload
            }
            Act::VolumeAhead { .. } => {
                let (estimate, list) = self.estimate.as_ref().expect("the estimate asked for");
                let lent = list.len().min(self.lent.ahead as usize);
                let mut payload = bytes_of(&words::estimate(estimate));
                payload.extend(bytes_of(&list[..lent]));
                payload
            }
            _ => Vec::new(),
        }
    }

    /// The header of 32 bytes and the payload.
    pub fn bytes(&self, memory: &Memory) -> Vec<u8> {
        let (number, _) = operation(self.act).expect("a call");
        let voice = VOICES.iter().position(|voice| *voice == self.voice);
        let payload = self.payload(memory);
        let (which, first, second) = self.arguments();
        let lengths = [
            payload.len() as u64,
            self.rows,
            self.segments,
            self.lent.scratch,
            self.lent.output,
            self.lent.ahead,
        ];
        let mut bytes = vec![number, voice.expect("one of three") as u8];
        for length in lengths {
            let length = u16::try_from(length).expect("a length of 16 bits");
            bytes.extend(length.to_le_bytes());
        }
        bytes.extend(which.to_le_bytes());
        bytes.extend(bytes_of(&[first, second]));
        bytes.extend(payload);
        bytes
    }

    /// The words that a buffer holds if its first words are these.
    fn left(&self, seed: u64, length: u64, left: Left, first: &[u64]) -> Vec<u64> {
        let mut words = fresh_words(seed, length);
        match left {
            Left::Untouched => {}
            Left::Written(count) => {
                assert_eq!(count, first.len() as u64, "{:?}", self.act);
                words[..first.len()].copy_from_slice(first);
            }
            other => panic!("{:?}: {other:?}", self.act),
        }
        words
    }

    /// What follows the values: digests of the memory that the call may write.
    fn digests(&self, said: &Said, memory: &Memory) -> Vec<u64> {
        let Buffers {
            scratch,
            output,
            ahead,
        } = said.buffers;
        match (self.act, &said.values) {
            (Act::QueueEstimate { .. }, values) => {
                let list: &[u64] = match values {
                    Values::Estimate { list, .. } => list,
                    _ => &[],
                };
                let words = self.left(AHEAD_SEED, self.lent.ahead, ahead, list);
                vec![digest_words(&words)]
            }
            (
                Act::LevelQueue { .. }
                | Act::PriorityProfile { .. }
                | Act::L2 { .. }
                | Act::StaleL2 { .. },
                values,
            ) => {
                let (zeros, first): (u64, &[u64]) = match values {
                    Values::Entries { words, .. } => (self.max_orders, words),
                    _ => (0, &[]),
                };
                let zeros = vec![0; zeros as usize];
                let scratch = self.left(SCRATCH_SEED, self.lent.scratch, scratch, &zeros);
                let output = self.left(OUTPUT_SEED, self.lent.output, output, first);
                vec![digest_words(&scratch), digest_words(&output)]
            }
            _ if self.changes() => vec![
                digest_words(&memory.block),
                digest_words(memory.rows),
                digest_words(&memory.segments),
            ],
            _ => Vec::new(),
        }
    }

    /// Whether the call may change the book.
    fn changes(&self) -> bool {
        matches!(
            self.act,
            Act::Create { .. }
                | Act::SetRow { .. }
                | Act::SetSegment { .. }
                | Act::SetState { .. }
                | Act::Bootstrap { .. }
                | Act::Apply { .. }
                | Act::Step { .. }
        )
    }

    /// The answer's line.
    pub fn line(&self, said: &Said, memory: &Memory) -> String {
        let (_, name) = operation(self.act).expect("a call");
        let mut line = format!("{} {name}", voice_name(said.voice));
        for word in number_and_values(said) {
            write!(line, " {word}").expect("a string takes it");
        }
        let digests = self.digests(said, memory);
        if !digests.is_empty() {
            line.push_str(" ;");
        }
        for digest in digests {
            write!(line, " {digest}").expect("a string takes it");
        }
        line.push('\n');
        line
    }
}

fn applied_number(applied: Applied) -> u64 {
    match applied {
        Applied::BookChanged => 256,
        Applied::NoBookEffect => 0,
    }
}

fn ahead_words(ahead: &Ahead) -> [u64; 7] {
    let first = match ahead.assumptions[0] {
        Assumption::BackOfVisibleQueueAtCreation => 0,
        Assumption::EntrySequenceIsPriority => 1,
        Assumption::SizeDecreaseKeepsPriority => unreachable!("never the first"),
    };
    let more = ahead.assumptions.len() as u64 - 1;
    [
        ahead.at_seq,
        ahead.volume,
        ahead.from_snapshot,
        ahead.observed,
        ahead.orders,
        first,
        more,
    ]
}

fn best_words(price: Option<i64>) -> [u64; 2] {
    price.map_or([0, 0], |price| [1, price as u64])
}

/// The exported function's number (256 and 512 among them) and the words that it gives.
fn number_and_values(said: &Said) -> Vec<u64> {
    let number = u64::from(said.number);
    match &said.values {
        Values::Nothing => vec![number],
        Values::Applied(applied) => vec![applied_number(*applied)],
        Values::Invalidation(why) => [&[number][..], &words::invalidation(why)].concat(),
        Values::Step {
            stepped,
            invalidation,
            handshake,
        } => {
            let number = match stepped {
                None => number,
                Some(Stepped::Dropped) => 512,
                Some(Stepped::Applied(applied)) => applied_number(*applied),
            };
            let why = invalidation.map(|why| words::invalidation(&why));
            let why = why.as_ref().map_or(&[][..], |words| words);
            [&[number][..], why, &words::handshake(handshake)].concat()
        }
        Values::Handshake(value) => [&[number][..], &words::handshake(value)].concat(),
        Values::Entries { entries, words } => [&[number, *entries][..], words].concat(),
        Values::NoStale => vec![256],
        Values::Best(buy, sell) => [&[number][..], &best_words(*buy), &best_words(*sell)].concat(),
        Values::LastSequence(sequence) => vec![number, *sequence],
        Values::Estimate { estimate, list } => {
            [&[number][..], &words::estimate(estimate), list].concat()
        }
        Values::Ahead(ahead) => [&[number][..], &ahead_words(ahead)].concat(),
        Values::InForce(why) => why.map_or(vec![256], |why| {
            [&[number][..], &words::reason(&why)].concat()
        }),
        Values::Manifest { segments, .. } => segments.last().map_or(vec![256], |record| {
            [&[number][..], &words::shown(record)].concat()
        }),
        other => unreachable!("no call has these values: {other:?}"),
    }
}
