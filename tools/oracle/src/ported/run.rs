//! The port beside the model and the Rust on the generator's streams.

use std::fmt::{self, Display};
use std::panic::{set_hook, take_hook};
use std::sync::{Mutex, PoisonError};
use std::thread;

use super::{Ported, Tally};
use crate::call::{Answer, Call};
use crate::compare::leading;
use crate::difference::{Answers, Kind};
use crate::generate::Generator;
use crate::model::Model;
use crate::shrink::{Small, shrink};

/// Where a stream's answers differ.
pub struct Difference {
    pub seed: u64,
    /// The place of the call in the stream, from 1.
    pub place: u64,
    pub call: Call,
    pub kind: Kind,
    pub answers: Answers,
}

impl Display for Difference {
    fn fmt(&self, f: &mut fmt::Formatter<'_>) -> fmt::Result {
        writeln!(f, "seed {}, call {}: {}", self.seed, self.place, self.kind)?;
        write!(f, "{}\n{}", self.call, self.answers)
    }
}

impl Difference {
    /// The few calls that show it: from those that bear on it, or else from the whole stream up to it.
    pub fn small(&self) -> Option<Small> {
        let fresh = || Ported::new(self.seed);
        // Each trial may panic, as the call itself may have.
        let hook = take_hook();
        set_hook(Box::new(|_| {}));
        let bearing = leading(self.seed, self.place);
        let small = shrink(bearing, &self.kind, fresh).or_else(|| {
            let whole = Generator::new(self.seed).take(self.place as usize);
            shrink(whole.collect(), &self.kind, fresh)
        });
        set_hook(hook);
        small
    }
}

/// Runs `count` calls of the seed's stream on the port, the model and the Rust; all three must agree, the port and the model on every word.
pub fn compare(seed: u64, count: u64) -> Result<Tally, Box<Difference>> {
    let mut generator = Generator::new(seed);
    let (mut port, mut model) = (Ported::new(seed), Model::new());
    let mut tally = Tally::default();
    for place in 1..=count {
        let (call, theirs) = generator.next_answered();
        let answers = Answers::of(&call, &mut port, &mut model, theirs);
        if let Some(kind) = answers.kind(&call) {
            return Err(Box::new(Difference {
                seed,
                place,
                call,
                kind,
                answers,
            }));
        }
        tally.calls += 1;
        if let Some(Answer::Said(said)) = &answers.ours {
            tally.note(&call, said);
        }
    }
    tally.cases = port.cases;
    Ok(tally)
}

/// Calls of a short and of a long stream. A call costs as much as its book is large, and a stream's books grow: so most calls are made
/// in short streams. A long one fills a book to the ceiling.
const SHORT: u64 = 4_000;
const LONG: u64 = 100_000;
/// One stream in so many is a long one.
const PERIOD: u64 = 50;
/// How often the run says how far it is, in calls.
const NEWS: u64 = 1_000_000;

/// The streams of a run, in the order of their seeds.
struct Plan {
    first: u64,
    streams: u64,
    left: u64,
    agreed: u64,
}

impl Plan {
    /// The seed and the calls of the next stream.
    fn next(&mut self) -> Option<(u64, u64)> {
        let length = match self.streams % PERIOD {
            0 => LONG,
            _ => SHORT,
        };
        let calls = length.min(self.left);
        if calls == 0 {
            return None;
        }
        let seed = self.first.wrapping_add(self.streams);
        (self.streams, self.left) = (self.streams + 1, self.left - calls);
        Some((seed, calls))
    }

    /// Says how far the run is, so that one which is broken off has shown something too.
    fn agree(&mut self, calls: u64) {
        let before = self.agreed;
        self.agreed += calls;
        if self.agreed / NEWS > before / NEWS {
            eprintln!("{} calls agree so far", self.agreed);
        }
    }
}

/// Runs `count` calls in the streams of the seeds from `seed` on, split between threads; tells what they met and the number of streams.
pub fn run(seed: u64, count: u64, threads: usize) -> Result<(Tally, u64), Box<Difference>> {
    let plan = Mutex::new(Plan {
        first: seed,
        streams: 0,
        left: count,
        agreed: 0,
    });
    let lock = || plan.lock().unwrap_or_else(PoisonError::into_inner);
    let work = || {
        let mut tally = Tally::default();
        loop {
            let Some((seed, calls)) = lock().next() else {
                return Ok(tally);
            };
            match compare(seed, calls) {
                Ok(stream) => {
                    lock().agree(stream.calls);
                    tally.add(&stream);
                }
                Err(difference) => {
                    // Nobody begins another stream.
                    lock().left = 0;
                    return Err(difference);
                }
            }
        }
    };
    let ended: Vec<Result<Tally, Box<Difference>>> = thread::scope(|scope| {
        let workers: Vec<_> = (0..threads).map(|_| scope.spawn(work)).collect();
        let join = |worker: thread::ScopedJoinHandle<_>| worker.join().expect("no panic is left");
        workers.into_iter().map(join).collect()
    });
    let mut all = Tally::default();
    for tally in ended {
        all.add(&tally?);
    }
    let streams = lock().streams;
    Ok((all, streams))
}
