//! The benchmarks of docs/PERFORMANCE.md: the port and the Rust on the same input, from one driver, in one run.

pub mod beside;
mod books;
mod bootstrap;
mod daybook;
mod library;
mod messages;
mod mix;
mod pieces;
mod reads;
mod rows;
mod venue;

use std::hint::black_box;
use std::time::{Duration, Instant};

/// Rounds of each measurement; the best one counts, since other work on the machine only adds.
const ROUNDS: usize = 7;
/// The least time of a round of [`round`] and [`round_on`].
const ROUND: Duration = Duration::from_millis(3);

/// The best round's nanoseconds a call.
fn best(calls: usize, mut call: impl FnMut()) -> f64 {
    (0..ROUNDS)
        .map(|_| {
            let start = Instant::now();
            for _ in 0..calls {
                call();
            }
            start.elapsed().as_nanos() as f64 / calls as f64
        })
        .fold(f64::INFINITY, f64::min)
}

/// One round's nanoseconds a call, of as many calls as take long enough.
fn round(call: impl FnMut()) -> f64 {
    round_of(ROUND, call)
}

/// The same, of as many calls as take so long.
fn round_of(least: Duration, mut call: impl FnMut()) -> f64 {
    let mut calls = 1;
    loop {
        let start = Instant::now();
        for _ in 0..calls {
            call();
        }
        let spent = start.elapsed();
        if spent >= least {
            return spent.as_nanos() as f64 / f64::from(calls);
        }
        calls *= 2;
    }
}

/// The same of `work` on what `fresh` makes, which is made and dropped outside the measured time.
fn round_on<B>(fresh: impl Fn() -> B, mut work: impl FnMut(&mut B)) -> f64 {
    let (mut spent, mut calls) = (Duration::ZERO, 0);
    while spent < ROUND {
        let mut made = fresh();
        let start = Instant::now();
        work(black_box(&mut made));
        spent += start.elapsed();
        calls += 1;
    }
    spent.as_nanos() as f64 / f64::from(calls)
}

/// The benchmarks by name.
const ALL: &[(&str, fn())] = &[
    ("pieces", pieces::run),
    ("rows", rows::run),
    ("venue", venue::run),
    ("daybook", daybook::run),
];

/// Runs the named benchmarks, or all; an unknown name is refused.
pub fn run(names: &[&str]) -> Result<(), String> {
    let known = |name: &&&str| ALL.iter().all(|(of, _)| of != *name);
    if let Some(name) = names.iter().find(known) {
        return Err(format!("no benchmark {name}"));
    }
    for &(name, run) in ALL {
        if names.is_empty() || names.contains(&name) {
            run();
            println!();
        }
    }
    Ok(())
}
