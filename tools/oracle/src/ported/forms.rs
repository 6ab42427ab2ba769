//! Words that mean the same: those of a state or a message that no field names do not matter (crate `host_words`, specs/Block.antt), so a
//! host may lend anything there.

use std::ops::Range;

use super::book::{Block, at};
use crate::generate::random::Random;
use crate::port;

/// Any word, often a small one or one at a bound.
fn any(random: &mut Random) -> u64 {
    match random.below(4) {
        0 => random.below(64),
        1 => u64::MAX - random.below(2),
        2 => 1 << random.below(64),
        _ => random.word(),
    }
}

fn junk(words: &mut [u64], random: &mut Random) {
    words.fill_with(|| any(random));
}

/// The words of the status that mean nothing beside the others.
fn unused(block: &Block) -> Range<usize> {
    match (block[at::STATUS], block[at::KIND]) {
        (0, _) => at::LAST..at::ROWS,
        (1, _) => at::OFFENDING..at::ROWS,
        (_, 20 | 21) => at::DETAIL..at::ROWS,
        (_, 38) => at::FIRST..at::DETAIL,
        _ => at::FIRST..at::ROWS,
    }
}

/// Draws other words for the same state.
pub fn scatter(block: &mut Block, random: &mut Random) {
    let unused = unused(block);
    junk(&mut block[unused], random);
    if let (2, 20 | 21) = (block[at::STATUS], block[at::KIND]) {
        // What was expected and what came: `invalidation` alone tells them, and is held to these words.
        junk(&mut block[at::FIRST..at::DETAIL], random);
    }
}

/// In which way these words are not those that a call writes.
pub fn of(block: &Block) -> Option<&'static str> {
    let junk = block[unused(block)].iter().any(|&word| word != 0);
    junk.then_some(match block[at::STATUS] {
        0 => "junk without a snapshot",
        1 => "junk in a valid book",
        _ => "junk in an invalid book",
    })
}

/// The ways of [`of`]: every call must meet each.
pub const WAYS: &[&str] = &[
    "junk without a snapshot",
    "junk in a valid book",
    "junk in an invalid book",
];

/// Where a message's words have optional amounts (a flag and the amount), and where its fields end.
fn fields(kind: u64) -> (&'static [usize], usize) {
    match kind {
        1 => (&[], 8),
        2 => (&[], 10),
        3 => (&[8, 11], 13),
        4 => (&[], 12),
        5 => (&[9, 11, 13, 15, 17, 19], port::MESSAGE_WORDS),
        _ => (&[], 6),
    }
}

/// Draws other words for the same message, up to four more than it has.
pub fn scatter_message(words: &mut Vec<u64>, random: &mut Random) {
    let (optionals, end) = fields(words[0]);
    for &optional in optionals {
        if words[optional] == 0 {
            words[optional + 1] = any(random);
        }
    }
    junk(&mut words[end..], random);
    for _ in 0..random.below(5) {
        words.push(any(random));
    }
}
