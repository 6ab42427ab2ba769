//! Trials: a call made once more with something amiss, on a copy of what it was lent before. It must say the first number that holds
//! ([`super::boundary`]) and touch nothing.

use super::amiss;
use super::book::{Block, Extent};
use super::boundary::{Given, NO_VALUE, OUTPUT_TOO_SMALL, SHORT_INPUT};
use super::cases::Cases;
use crate::generate::random::Random;
use crate::port::BLOCK_WORDS;

/// What is amiss, by the number that it is told with.
#[derive(Clone, Copy, PartialEq, Eq)]
pub enum Part {
    Input,
    Value,
    Book,
    Output,
}

/// A call, the state that it is lent, and what is amiss.
pub struct Trial {
    call: &'static str,
    pub block: Block,
    pub extent: Extent,
    met: Vec<(Part, &'static str)>,
}

impl Trial {
    /// Of a call on this state; draws what is amiss with that.
    pub fn new(call: &'static str, block: &Block, random: &mut Random) -> Trial {
        let mut trial = Trial {
            call,
            block: *block,
            extent: Extent::drawn(random),
            met: Vec::new(),
        };
        if amiss::drawn(random) {
            let way = amiss::spoil_state(&mut trial.block, random);
            trial.met(Part::Book, way);
        }
        if amiss::drawn(random) {
            trial.extent.state = amiss::short(BLOCK_WORDS, random);
            trial.met(Part::Input, "state short");
        }
        trial
    }

    pub fn state(&self) -> &[u64] {
        &self.block[..self.extent.state]
    }

    pub fn met(&mut self, part: Part, what: &'static str) {
        self.met.push((part, what));
    }

    /// The number that the call must say, noted with what it was said for and with those that held beside it. None if nothing is amiss.
    pub fn expected(&self, given: &Given, rules: u64, cases: &mut Cases) -> Option<u64> {
        if !given.is_amiss() {
            return None;
        }
        let numbers = given.numbers(rules);
        cases.order(self.call, &numbers);
        let told = match numbers[0] {
            SHORT_INPUT => Part::Input,
            NO_VALUE => Part::Value,
            OUTPUT_TOO_SMALL => Part::Output,
            number if given.no_book() == Some(number) => {
                cases.add(self.call, no_book(number, given));
                Part::Book
            }
            // The rules', beside an output that is too small.
            number => return Some(number),
        };
        for (_, what) in self.met.iter().filter(|met| met.0 == told) {
            cases.add(self.call, what);
        }
        Some(numbers[0])
    }
}

/// The case of a state that no book has.
fn no_book(number: u64, given: &Given) -> &'static str {
    match (number, given.short_memory()) {
        (1, _) => "no book, told 1",
        (2, Some("rows")) => "no book, told 2 of rows",
        (2, Some("list")) => "no book, told 2 of the list",
        (2, _) => "no book, told 2 of scratch",
        _ => "no book, told 3",
    }
}
