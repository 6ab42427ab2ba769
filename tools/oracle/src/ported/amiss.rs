//! What a trial has amiss: a slice of a fixed size lent short, words that no value has, a state that no book has.

use super::book::{Block, at};
use super::boundary::is_reason;
use super::trials::{Part, Trial};
use crate::generate::random::Random;
use crate::port::MESSAGE_WORDS;

/// How many of a hundred trials have one part amiss; every part is drawn for itself, so that one may hide another.
const PERCENT: u64 = 25;

pub fn drawn(random: &mut Random) -> bool {
    random.chance(PERCENT)
}

/// A length below `whole`, which is above 0.
pub fn short(whole: usize, random: &mut Random) -> usize {
    let any = random.below(whole as u64) as usize;
    random.pick(&[0, whole - 1, any])
}

/// A word above `most`: often the next one, or one whose low bits alone would pass.
pub fn above(most: u64, random: &mut Random) -> u64 {
    let word = match random.below(5) {
        0 | 1 => most + 1,
        2 => 1 << random.pick(&[8, 16, 32, 63]) | random.below(most + 1),
        3 => u64::MAX - random.below(2),
        _ => random.word(),
    };
    word.max(most + 1)
}

/// The states that no book has, by name.
pub const NO_BOOK: [&str; 4] = [
    "rule above 1",
    "status above 2",
    "reason of no number",
    "detail above 1",
];

/// A word that is no reason's number: beside one, with one in its low bits, or any.
fn no_reason(random: &mut Random) -> u64 {
    let reason = random.pick(&[20, 22, 30, 38, 44]);
    let wide = 1 << random.pick(&[8, 32, 63]) | reason;
    let any = random.word();
    let word = random.pick(&[0, 1, 19, 23, 29, 45, wide, any]);
    if is_reason(word) { 0 } else { word }
}

/// Makes a state one that no book has; which.
pub fn spoil_state(block: &mut Block, random: &mut Random) -> &'static str {
    let way = random.pick(&NO_BOOK);
    match way {
        "rule above 1" => block[at::DECREASE] = above(1, random),
        "status above 2" => block[at::STATUS] = above(2, random),
        "reason of no number" => (block[at::STATUS], block[at::KIND]) = (2, no_reason(random)),
        _ => {
            (block[at::STATUS], block[at::KIND]) = (2, 38);
            block[at::DETAIL] = above(1, random);
        }
    }
    way
}

/// The kinds of messages, and the largest number of an unsupported one.
const KINDS: u64 = 6;
const UNSUPPORTED: u64 = 6;
const MOST_UNSUPPORTED: u64 = u32::MAX as u64;

/// The words of a message that its kind bounds: kind, place, name.
const BOUNDED: [(u64, usize, &str); 18] = [
    (1, 7, "side of a received"),
    (2, 7, "side of an open"),
    (3, 7, "side of a done"),
    (3, 8, "price's presence of a done"),
    (3, 10, "reason of a done"),
    (3, 11, "remaining's presence of a done"),
    (4, 9, "side of a match"),
    (5, 7, "side of a change"),
    (5, 8, "reason of a change"),
    (5, 9, "price's presence of a change"),
    (5, 11, "old_size's presence of a change"),
    (5, 13, "new_size's presence of a change"),
    (5, 15, "old_price's presence of a change"),
    (5, 17, "new_price's presence of a change"),
    (5, 19, "new_funds' presence of a change"),
    (UNSUPPORTED, 5, "number of an unsupported"),
    // Of no kind: the kind's own word.
    (0, 0, "kind 0"),
    (0, 0, "kind above 6"),
];

/// The names of [`BOUNDED`].
pub fn no_messages() -> impl Iterator<Item = &'static str> {
    BOUNDED.iter().map(|bounded| bounded.2)
}

fn most(kind: u64) -> u64 {
    if kind == UNSUPPORTED {
        MOST_UNSUPPORTED
    } else {
        1
    }
}

/// Makes the words of a message, as many as one has, those of none; which word is amiss.
pub fn spoil_message(words: &mut [u64], random: &mut Random) -> &'static str {
    let (kind, place, name) = random.pick(&BOUNDED);
    words[0] = match name {
        "kind 0" => 0,
        "kind above 6" => above(KINDS, random),
        _ => kind,
    };
    if kind == 0 {
        return name;
    }
    // Any other kind is as good, once its words are in bounds.
    for (_, place, _) in BOUNDED.iter().filter(|bounded| bounded.0 == kind) {
        words[*place] = random.below(most(kind) + 1);
    }
    words[place] = above(most(kind), random);
    name
}

/// Draws what is amiss with the words of a message.
pub fn message(words: &mut Vec<u64>, trial: &mut Trial, random: &mut Random) {
    if drawn(random) {
        trial.met(Part::Value, spoil_message(words, random));
    }
    if drawn(random) {
        words.truncate(short(MESSAGE_WORDS, random));
        trial.met(Part::Input, "message short");
    }
}
