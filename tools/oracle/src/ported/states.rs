//! The calls that are lent a state and no rows: `handshake`, `invalidation`, `segment`. Each writes words of a fixed number.

use super::amiss;
use super::book::{Block, GUARDS, Kept};
use super::boundary::Given;
use super::cases::Cases;
use super::forms;
use super::trials::{Part, Trial};
use crate::generate::random::Random;
use crate::port::{BLOCK_WORDS, reads::NO_STALE};

/// More words than any of them writes.
const ROOM: usize = 16;

/// One of these calls, on a state.
pub struct Asked<'a> {
    pub call: &'static str,
    pub block: &'a Block,
    /// How often it is made with something amiss.
    pub trials: u64,
}

/// Calls `function` with the first words of a block and room for words, some of `out`; the whole block must stay.
fn call(
    block: &Block,
    lent: usize,
    out: &mut [u64],
    function: impl FnOnce(&[u64], &mut [u64]) -> u64,
) -> u64 {
    let before = Kept::of(block);
    let answer = function(&block[..lent], out);
    assert!(before.holds(block), "a read wrote into the state");
    answer
}

impl Asked<'_> {
    /// The `N` words that `function` writes, if it has any to write; words past them must stay, and all where it has none.
    pub fn written<const N: usize>(
        &self,
        random: &mut Random,
        cases: &mut Cases,
        function: impl Fn(&[u64], &mut [u64]) -> u64,
    ) -> Option<[u64; N]> {
        let fresh: [u64; ROOM] = std::array::from_fn(|_| random.word());
        let mut out = fresh;
        let mut more = || random.below(GUARDS as u64 + 1) as usize;
        let (lent, room) = (BLOCK_WORDS + more(), N + more());
        let answer = call(self.block, lent, &mut out[..room], &function);
        let written = match answer {
            0 => N,
            NO_STALE => 0,
            _ => panic!("{} answered {answer}", self.call),
        };
        assert_eq!(out[written..], fresh[written..], "words past the output");
        if let Some(form) = forms::of(self.block) {
            cases.add(self.call, form);
        }
        for _ in 0..self.trials {
            self.amiss(N, answer, (random, cases), &function);
        }
        (written > 0).then(|| std::array::from_fn(|place| out[place]))
    }

    fn amiss(
        &self,
        words: usize,
        rules: u64,
        (random, cases): (&mut Random, &mut Cases),
        function: impl Fn(&[u64], &mut [u64]) -> u64,
    ) {
        let mut trial = Trial::new(self.call, self.block, random);
        let mut room = words;
        if amiss::drawn(random) {
            room = amiss::short(words, random);
            trial.met(Part::Output, "output short");
        }
        let given = Given {
            output_short: room < words,
            ..Given::new(trial.state(), None)
        };
        let Some(number) = trial.expected(&given, rules, cases) else {
            return;
        };
        let fresh: [u64; ROOM] = std::array::from_fn(|_| random.word());
        let mut out = fresh;
        let lent = trial.extent.state;
        let answer = call(&trial.block, lent, &mut out[..room], function);
        assert_eq!((answer, out), (number, fresh), "{}: a trial", self.call);
    }
}
