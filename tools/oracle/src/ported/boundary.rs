//! In which order an exported function turns a call away: what it is lent short (768), words that no value has (4), a state that no book has
//! (1, 2, 3), 01's rules, and an output that is too small last (7). Written from include/pinuglaw.h and apart from the library; what the
//! rules say is handed in, and is for the model and the Rust to judge.

use super::book::{RECORD, ROW, at};
use crate::call::CEILING;
use crate::port::{self, BLOCK_WORDS, HANDSHAKE_WORDS, MESSAGE_WORDS};

/// The numbers of this order that are no rule's of a single call.
pub const SHORT_INPUT: u64 = port::SHORT_INPUT;
pub const NO_VALUE: u64 = 4;
pub const OUTPUT_TOO_SMALL: u64 = 7;

/// The memory that a call is lent, in words; of what it is not lent, none.
#[derive(Clone, Copy)]
pub struct Memory {
    pub rows: usize,
    pub segments: Option<usize>,
    pub scratch: Option<usize>,
}

/// What a call is lent, as far as the order asks; of what it is not lent, none.
#[derive(Clone, Copy)]
pub struct Given<'a> {
    pub state: &'a [u64],
    pub memory: Option<Memory>,
    pub message: Option<&'a [u64]>,
    pub handshake: Option<&'a [u64]>,
    pub estimate: Option<&'a [u64]>,
    pub side: Option<u64>,
    /// Whether an output has fewer words than a success writes.
    pub output_short: bool,
}

/// The word at a place, 0 where the slice is too short for it.
fn word(words: &[u64], place: usize) -> u64 {
    words.get(place).copied().unwrap_or(0)
}

fn above_one(words: &[u64], places: &[usize]) -> bool {
    places.iter().any(|&place| word(words, place) > 1)
}

fn no_message(words: &[u64]) -> bool {
    match word(words, 0) {
        1 | 2 => above_one(words, &[7]),
        3 => above_one(words, &[7, 8, 10, 11]),
        4 => above_one(words, &[9]),
        5 => above_one(words, &[7, 8, 9, 11, 13, 15, 17, 19]),
        6 => word(words, 5) >= 1 << 32,
        _ => true,
    }
}

pub fn is_reason(word: u64) -> bool {
    matches!(word, 20..=22 | 30..=44)
}

fn no_book(state: &[u64]) -> bool {
    let (status, reason) = (word(state, at::STATUS), word(state, at::KIND));
    let no_reason = !is_reason(reason) || (reason == 38 && word(state, at::DETAIL) > 1);
    word(state, at::DECREASE) > 1 || status > 2 || (status == 2 && no_reason)
}

impl<'a> Given<'a> {
    pub fn new(state: &'a [u64], memory: Option<Memory>) -> Given<'a> {
        Given {
            state,
            memory,
            message: None,
            handshake: None,
            estimate: None,
            side: None,
            output_short: false,
        }
    }

    fn input_short(&self) -> bool {
        let inputs = [
            (Some(self.state), BLOCK_WORDS),
            (self.message, MESSAGE_WORDS),
            (self.handshake, HANDSHAKE_WORDS),
            (self.estimate, port::reads::ESTIMATE_WORDS),
        ];
        let short = |&(lent, need): &(Option<&[u64]>, usize)| lent.is_some_and(|l| l.len() < need);
        inputs.iter().any(short)
    }

    fn no_value(&self) -> bool {
        self.message.is_some_and(no_message)
            || self.handshake.is_some_and(|words| above_one(words, &[2]))
            || self.estimate.is_some_and(|words| above_one(words, &[0, 4]))
            || self.side.is_some_and(|side| side > 1)
    }

    /// What memory is too short, if any is.
    pub fn short_memory(&self) -> Option<&'static str> {
        let Memory {
            rows,
            segments,
            scratch,
        } = self.memory?;
        let max_orders = word(self.state, at::MAX_ORDERS);
        let records = segments.map(|words| (words / RECORD) as u64);
        if (rows as u64) < max_orders.saturating_mul(ROW as u64) {
            Some("rows")
        } else if records.is_some_and(|records| records < word(self.state, at::SEGMENTS)) {
            Some("list")
        } else if scratch.is_some_and(|words| (words as u64) < max_orders) {
            Some("scratch")
        } else {
            None
        }
    }

    /// The number of a state that no book has; none of any other.
    pub fn no_book(&self) -> Option<u64> {
        if !no_book(self.state) {
            return None;
        }
        let above = |place| word(self.state, place) > CEILING;
        Some(match self.short_memory() {
            // Limits are looked at beside the memory that they are of.
            _ if self.memory.is_none() => 3,
            _ if above(at::MAX_ORDERS) || above(at::MAX_LEVELS) => 1,
            Some(_) => 2,
            None => 3,
        })
    }

    /// Every number that holds, in order, where the rules say `rules` (0 of a success): the call answers the first.
    pub fn numbers(&self, rules: u64) -> Vec<u64> {
        let mut numbers = Vec::new();
        numbers.extend(self.input_short().then_some(SHORT_INPUT));
        numbers.extend(self.no_value().then_some(NO_VALUE));
        numbers.extend(self.no_book());
        numbers.extend((rules != 0).then_some(rules));
        numbers.extend(self.output_short.then_some(OUTPUT_TOO_SMALL));
        numbers
    }

    /// Whether anything is amiss, whatever the rules say.
    pub fn is_amiss(&self) -> bool {
        !self.numbers(0).is_empty()
    }
}

#[cfg(test)]
mod tests {
    use super::{Given, Memory};
    use crate::port::BLOCK_WORDS;

    /// The state of a book of three orders that is invalid by a gap.
    fn invalid() -> [u64; BLOCK_WORDS] {
        let mut state = [0; BLOCK_WORDS];
        (state[3], state[4], state[6], state[9], state[14]) = (3, 3, 2, 20, 1);
        state
    }

    fn memory(rows: usize) -> Option<Memory> {
        Some(Memory {
            rows,
            segments: None,
            scratch: None,
        })
    }

    /// What holds for a read of a side that is none, with an output that is too small, where the rules say 18.
    fn numbers(state: &[u64], rows: usize) -> Vec<u64> {
        let given = Given {
            side: Some(2),
            output_short: true,
            ..Given::new(state, memory(rows))
        };
        given.numbers(18)
    }

    #[test]
    fn the_first_number_that_holds_is_said() {
        let mut state = invalid();
        assert_eq!(numbers(&state, 24), [4, 18, 7]);
        state[6] = 3;
        assert_eq!(numbers(&state, 24), [4, 3, 18, 7]);
        assert_eq!(numbers(&state, 23), [4, 2, 18, 7]);
        state[3] = 4_097;
        assert_eq!(numbers(&state, 23), [4, 1, 18, 7]);
        assert_eq!(numbers(&state[..26], 23), [768, 4, 1, 18, 7]);
    }

    #[test]
    fn states_that_no_book_has() {
        let broken = |place: usize, word: u64| {
            let mut state = invalid();
            state[place] = word;
            Given::new(&state, None).no_book() == Some(3)
        };
        let reasons: Vec<u64> = (0..300).filter(|&reason| !broken(9, reason)).collect();
        let known: Vec<u64> = (20..=22).chain(30..=44).collect();
        assert_eq!(reasons, known);
        assert!(broken(2, 2) && broken(6, 3) && !broken(2, 1) && !broken(12, 2));
        let mut malformed = invalid();
        (malformed[9], malformed[12]) = (38, 1);
        assert_eq!(Given::new(&malformed, None).no_book(), None);
        malformed[12] = 2;
        assert_eq!(Given::new(&malformed, None).no_book(), Some(3));
    }
}
