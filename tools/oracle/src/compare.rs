//! The Rust and the model side by side.

use std::collections::BTreeMap;

use crate::call::{Act, Answer, Call, Subject, Values, Voice};
use crate::generate::Generator;

/// What a run without a difference has to say.
#[derive(Debug, Default, Clone, Copy, PartialEq, Eq)]
pub struct Tally {
    pub calls: u64,
    /// Calls on which neither the Rust nor its runner had a word.
    pub no_word: u64,
    /// Calls that the unchanged Rust decided.
    pub rust: u64,
}

pub struct Difference {
    /// The place of the call in the stream, from 1.
    pub call: u64,
    pub rust: Answer,
    pub other: Answer,
    /// The calls that lead to it, the differing one last: alone they lead there again.
    pub calls: Vec<Call>,
}

/// Runs `count` calls of the seed's stream; the first answer on which `subject` and the Rust disagree ends the run.
pub fn compare(
    seed: u64,
    count: u64,
    subject: &mut impl Subject,
) -> Result<Tally, Box<Difference>> {
    let mut generator = Generator::new(seed);
    let mut tally = Tally::default();
    for place in 1..=count {
        let (call, rust) = generator.next_answered();
        let other = subject.call(&call);
        if !rust.agrees(&other) {
            return Err(Box::new(Difference {
                call: place,
                rust,
                other,
                calls: leading(seed, place),
            }));
        }
        tally.calls += 1;
        tally.no_word += u64::from(rust == Answer::NoWord);
        if let Answer::Said(said) = &rust {
            tally.rust += u64::from(said.voice == Voice::Rust);
        }
    }
    Ok(tally)
}

/// A handshake slot or an estimate slot.
#[derive(Clone, Copy, PartialEq, Eq, PartialOrd, Ord)]
enum Slot {
    Handshake(u8),
    Estimate(u8),
}

/// The slot that a call names.
fn named(act: &Act) -> Option<Slot> {
    match act {
        Act::Handshake { slot }
        | Act::Step { slot, .. }
        | Act::BootstrapWithBuffer { slot, .. }
        | Act::ForgeHandshake { slot, .. } => Some(Slot::Handshake(*slot)),
        Act::QueueEstimate { slot, .. }
        | Act::QueueEstimateOwn { slot, .. }
        | Act::VolumeAhead { slot }
        | Act::ForgeEstimate { slot, .. }
        | Act::SetAhead { slot, .. } => Some(Slot::Estimate(*slot)),
        _ => None,
    }
}

/// Whether the call surely put a new value into the slot it names.
fn overwrites(act: &Act, answer: &Answer) -> bool {
    let Answer::Said(said) = answer else {
        return false;
    };
    let makes = matches!(
        act,
        Act::Handshake { .. }
            | Act::ForgeHandshake { .. }
            | Act::QueueEstimate { .. }
            | Act::QueueEstimateOwn { .. }
            | Act::ForgeEstimate { .. }
    );
    said.number == 0 && makes || matches!(said.values, Values::Buffered { .. })
}

/// Calls by their place in the stream.
type History = BTreeMap<u64, Call>;

fn add(to: &mut History, from: &History) {
    to.extend(from.iter().map(|(at, call)| (*at, call.clone())));
}

/// The calls that bear on call `place` of the seed's stream: its book's since creation, those that made the slot it names,
/// and so on for the books and handshakes that these rest on.
pub fn leading(seed: u64, place: u64) -> Vec<Call> {
    let mut generator = Generator::new(seed);
    let mut books: BTreeMap<u8, History> = BTreeMap::new();
    let mut slots: BTreeMap<Slot, History> = BTreeMap::new();
    let mut bearing = History::new();
    for at in 1..=place {
        let (call, answer) = generator.next_answered();
        let book = books.entry(call.book).or_default();
        if matches!(call.act, Act::Create { .. }) {
            book.clear();
        }
        if let Some(name) = named(&call.act) {
            let slot = slots.entry(name).or_default();
            if overwrites(&call.act, &answer) {
                slot.clear();
            }
            if matches!(call.act, Act::Step { .. }) {
                // What a step does to the book rests on the handshake.
                add(book, slot);
            }
            book.insert(at, call);
            add(slot, book);
            bearing = if at == place { slot.clone() } else { bearing };
        } else {
            book.insert(at, call);
            bearing = if at == place { book.clone() } else { bearing };
        }
    }
    bearing.into_values().collect()
}
