//! The oracle's command line; see README.md.

use std::io::{self, BufRead, BufWriter, Read, Write};
use std::path::Path;
use std::process::ExitCode;

use oracle::call::{Call, Subject};
use oracle::compare::compare;
use oracle::daybook;
use oracle::difference::first;
use oracle::generate::Generator;
use oracle::model::Model;
use oracle::pieces;
#[cfg(feature = "port")]
use oracle::ported::Ported;
use oracle::rust::Rust;
use oracle::shrink::{Small, shrink};
use oracle::vectors;

const USAGE: &str =
    "usage: oracle gen SEED N | run | model | compare SEED N | pieces DIR | vectors DIR | daybook | day SEED N
with the feature `port`: oracle reader SEED N | port SEED N [THREADS] | ported SEED | days SEED N [THREADS] | bench [NAME ..] | bench beside BEFORE AFTER [NAME ..] | show";

fn main() -> ExitCode {
    let args: Vec<String> = std::env::args().skip(1).collect();
    let words: Vec<&str> = args.iter().map(String::as_str).collect();
    let done = match words.as_slice() {
        ["gen", seed, count] => numbers(seed, count).and_then(|(s, n)| generate(s, n)),
        ["run"] => answer(&mut Rust::new()),
        ["model"] => answer(&mut Model::new()),
        ["compare", seed, count] => numbers(seed, count).and_then(|(s, n)| side_by_side(s, n)),
        ["pieces", folder] => pieces::write(Path::new(folder)).map_err(|e| e.to_string()),
        ["vectors", folder] => vectors::write(Path::new(folder)).map_err(|e| e.to_string()),
        ["daybook"] => list_day(),
        ["day", seed, place] => numbers(seed, place).and_then(|(s, n)| write_day(s, n)),
        #[cfg(feature = "port")]
        ["reader", seed, count] => numbers(seed, count).and_then(|(s, n)| readers(s, n)),
        #[cfg(feature = "port")]
        ["port", seed, count] => numbers(seed, count).and_then(|(s, n)| ported(s, n, cores())),
        #[cfg(feature = "port")]
        ["port", seed, count, threads] => numbers(seed, count)
            .and_then(|(s, n)| Ok((s, n, number(threads)? as usize)))
            .and_then(|(s, n, threads)| ported(s, n, threads.max(1))),
        #[cfg(feature = "port")]
        ["days", seed, count] => numbers(seed, count).and_then(|(s, n)| days(s, n, cores())),
        #[cfg(feature = "port")]
        ["days", seed, count, threads] => numbers(seed, count)
            .and_then(|(s, n)| Ok((s, n, number(threads)? as usize)))
            .and_then(|(s, n, threads)| days(s, n, threads.max(1))),
        #[cfg(feature = "port")]
        ["ported", seed] => number(seed).and_then(|s| answer(&mut Ported::new(s))),
        #[cfg(feature = "port")]
        ["bench", "beside", before, after, parts @ ..] => {
            oracle::bench::beside::run(before, after, parts)
        }
        #[cfg(feature = "port")]
        ["bench", names @ ..] => oracle::bench::run(names),
        #[cfg(feature = "port")]
        ["show"] => {
            oracle::show::run();
            Ok(())
        }
        _ => Err(USAGE.to_string()),
    };
    match done {
        Ok(()) => ExitCode::SUCCESS,
        Err(message) => {
            eprintln!("{message}");
            ExitCode::FAILURE
        }
    }
}

fn number(text: &str) -> Result<u64, String> {
    text.parse().map_err(|_| USAGE.to_string())
}

fn numbers(seed: &str, count: &str) -> Result<(u64, u64), String> {
    Ok((number(seed)?, number(count)?))
}

fn generate(seed: u64, count: u64) -> Result<(), String> {
    let mut out = BufWriter::new(io::stdout().lock());
    for call in Generator::new(seed).take(count as usize) {
        writeln!(out, "{call}").map_err(|e| e.to_string())?;
    }
    out.flush().map_err(|e| e.to_string())
}

/// Answers the call lines of the standard input, one line each.
fn answer(subject: &mut impl Subject) -> Result<(), String> {
    let mut out = BufWriter::new(io::stdout().lock());
    for (number, line) in io::stdin().lock().lines().enumerate() {
        let line = line.map_err(|e| e.to_string())?;
        let call: Call = line
            .parse()
            .map_err(|e| format!("line {}: {e}", number + 1))?;
        writeln!(out, "{}", subject.call(&call)).map_err(|e| e.to_string())?;
    }
    out.flush().map_err(|e| e.to_string())
}

fn side_by_side(seed: u64, count: u64) -> Result<(), String> {
    match compare(seed, count, &mut Model::new()) {
        Ok(tally) => {
            println!(
                "{} calls agree: {} decided by the Rust, {} without a word",
                tally.calls, tally.rust, tally.no_word
            );
            Ok(())
        }
        Err(difference) => {
            let calls = difference.calls;
            let kind = first(&calls, Model::new()).map(|(_, kind, _)| kind);
            let small = kind.and_then(|kind| shrink(calls, &kind, Model::new));
            tell(small);
            Err(format!("first difference at call {}", difference.call))
        }
    }
}

/// Lists the day file of the standard input. One byte more than a file may have is enough to refuse it.
fn list_day() -> Result<(), String> {
    let mut file = Vec::new();
    let most = daybook::LONGEST as u64 + 1;
    let read = io::stdin().lock().take(most).read_to_end(&mut file);
    read.map_err(|e| e.to_string())?;
    print_bytes(&daybook::listing(&file))
}

/// Writes a seed's day file by its place, from 1.
fn write_day(seed: u64, place: u64) -> Result<(), String> {
    print_bytes(&daybook::generate::file(seed, place))
}

fn print_bytes(bytes: &[u8]) -> Result<(), String> {
    let mut out = io::stdout().lock();
    let printed = out.write_all(bytes).and_then(|()| out.flush());
    printed.map_err(|e| e.to_string())
}

#[cfg(feature = "port")]
fn readers(seed: u64, count: u64) -> Result<(), String> {
    let tally = oracle::reader::compare(seed, count)?;
    println!("{} pieces agree: {tally:?}", tally.pieces);
    Ok(())
}

/// Prints the few calls that show a difference, for `run`, `model` and `ported` to answer.
fn tell(small: Option<Small>) {
    let Some(small) = small else {
        eprintln!("the calls that lead to it show no such difference by themselves");
        return;
    };
    for call in &small.calls {
        println!("{call}");
    }
    eprintln!("{}\n{}", small.kind, small.answers);
}

#[cfg(feature = "port")]
fn cores() -> usize {
    std::thread::available_parallelism().map_or(1, usize::from)
}

#[cfg(feature = "port")]
fn ported(seed: u64, count: u64, threads: usize) -> Result<(), String> {
    let began = std::time::Instant::now();
    match oracle::ported::run(seed, count, threads) {
        Ok((tally, streams)) => {
            println!(
                "{} calls agree, in {streams} streams of seed {seed} on, {} s: {tally:?}",
                tally.calls,
                began.elapsed().as_secs()
            );
            Ok(())
        }
        Err(difference) => {
            tell(difference.small());
            Err(difference.to_string())
        }
    }
}

#[cfg(feature = "port")]
fn days(seed: u64, count: u64, threads: usize) -> Result<(), String> {
    let began = std::time::Instant::now();
    let cases = daybook::compare::run(&oracle::port::replay, seed, count, threads);
    let cases = cases.map_err(|difference| difference.to_string())?;
    println!("{cases:?}");
    let seconds = began.elapsed().as_secs();
    println!("{count} files of seed {seed} agree, {seconds} s");
    match daybook::compare::missing(&cases) {
        missing if missing.is_empty() || count < daybook::compare::ENOUGH => Ok(()),
        missing => Err(format!("never met: {missing:?}")),
    }
}
