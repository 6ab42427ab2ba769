//! A host's call beside the listing: the number, every byte of the listing, and every byte that must stay, on slices of several lengths.

use std::fmt::{self, Display};
use std::sync::atomic::{AtomicBool, AtomicU64, Ordering};
use std::thread;

use super::cases::Cases;
use super::shrink::shrink;
use super::{Day, generate};
use crate::generate::random::Random;

/// Stands in every byte of a slice before a call; no listing has it.
const GUARD: u8 = 0xA5;

/// A host's call: takes a file and a slice for its listing.
pub trait Call: Fn(&[u8], &mut [u8]) -> u64 {}

impl<F: Fn(&[u8], &mut [u8]) -> u64> Call for F {}

/// How long the slice is, beside the listing.
#[derive(Debug, Clone, Copy, PartialEq, Eq)]
pub enum Lent {
    Exact,
    Longer(usize),
    Shorter(usize),
    Empty,
}

impl Lent {
    fn length(self, listing: usize) -> usize {
        match self {
            Lent::Exact => listing,
            Lent::Longer(by) => listing + by,
            Lent::Shorter(by) => listing.saturating_sub(by),
            Lent::Empty => 0,
        }
    }

    fn case(self) -> &'static str {
        match self {
            Lent::Exact => "slice of the listing's length",
            Lent::Longer(_) => "slice longer than the listing",
            Lent::Shorter(1) => "slice one byte short",
            Lent::Shorter(_) => "slice shorter than the listing",
            Lent::Empty => "empty slice",
        }
    }
}

/// What a call must meet besides the cases of its file: each length, for day files and for what is none.
const EXPECTED: [&str; 7] = [
    "slice of the listing's length",
    "slice longer than the listing",
    "slice one byte short",
    "slice shorter than the listing",
    "empty slice",
    "60 and 7",
    "60 in a slice of the listing's length",
];

/// The slices that a file is called with: one that its listing fits, and often one that it does not.
fn slices(random: &mut Random, listing: usize) -> Vec<Lent> {
    let by = 1 + random.below(9_000) as usize;
    let some = 1 + random.below(20) as usize;
    let less = 2 + random.below(listing as u64 - 2) as usize;
    let fits = random.pick(&[
        Lent::Exact,
        Lent::Longer(1),
        Lent::Longer(some),
        Lent::Longer(by),
    ]);
    let short = random.pick(&[
        Lent::Shorter(1),
        Lent::Shorter(1),
        Lent::Shorter(less),
        Lent::Empty,
    ]);
    match random.below(5) {
        0 => vec![fits, short],
        1 => vec![short, fits],
        2 => vec![short, Lent::Exact, Lent::Longer(1)],
        _ => vec![fits],
    }
}

/// In what an answer differs.
#[derive(Debug, Clone, Copy, PartialEq, Eq)]
pub enum Part {
    Number,
    Listing,
    /// The bytes past the listing; all bytes where it does not fit.
    Beyond,
}

/// What a call gave, and what it should have.
struct Answer {
    listing: Vec<u8>,
    wanted: u64,
    number: u64,
    slice: Vec<u8>,
}

impl Answer {
    fn of(call: &impl Call, file: &[u8], listing: Vec<u8>, lent: Lent) -> Answer {
        let mut slice = vec![GUARD; lent.length(listing.len())];
        let number = call(file, &mut slice);
        let fits = listing.len() <= slice.len();
        let wanted = if fits { listing.len() as u64 } else { 7 };
        Answer {
            listing,
            wanted,
            number,
            slice,
        }
    }

    fn differs(&self) -> Option<Part> {
        if self.number != self.wanted {
            return Some(Part::Number);
        }
        let written = match self.wanted {
            7 => 0,
            _ => self.listing.len(),
        };
        let (front, beyond) = self.slice.split_at(written);
        if front != &self.listing[..written] {
            return Some(Part::Listing);
        }
        let touched = beyond.iter().any(|&byte| byte != GUARD);
        touched.then_some(Part::Beyond)
    }
}

/// A file on which the call differs, made smaller.
pub struct Difference {
    pub seed: u64,
    /// The file's place in the seed's row, from 1, and its length there.
    pub place: u64,
    pub whole: usize,
    pub lent: Lent,
    pub part: Part,
    pub file: Vec<u8>,
    answer: Answer,
}

fn hex(bytes: &[u8]) -> String {
    bytes.iter().map(|byte| format!("{byte:02x}")).collect()
}

/// A slice's bytes as text, up to the last that was written; a guard byte before it shows as a strange one.
fn shown(slice: &[u8]) -> String {
    let written = slice.iter().rposition(|&byte| byte != GUARD);
    let written = written.map_or(0, |last| last + 1);
    String::from_utf8_lossy(&slice[..written]).into_owned()
}

impl Display for Difference {
    fn fmt(&self, f: &mut fmt::Formatter<'_>) -> fmt::Result {
        let Answer {
            listing,
            wanted,
            number,
            slice,
        } = &self.answer;
        let part = match self.part {
            Part::Number => "the number differs",
            Part::Listing => "the listing differs",
            Part::Beyond => "bytes that must stay differ",
        };
        let case = self.lent.case();
        writeln!(f, "seed {}, file {}, {case}: {part}", self.seed, self.place)?;
        writeln!(
            f,
            "the Rust, {wanted} in {} bytes:\n{}",
            slice.len(),
            shown(listing)
        )?;
        writeln!(f, "the port, {number}:\n{}", shown(slice))?;
        let (bytes, whole) = (self.file.len(), self.whole);
        let day = format!("oracle day {} {}", self.seed, self.place);
        writeln!(f, "the file, {bytes} bytes of the {whole} of `{day}`:")?;
        write!(f, "{}", hex(&self.file))
    }
}

/// In what the call differs on a file and a slice.
fn differs(call: &impl Call, file: &[u8], lent: Lent) -> Option<Part> {
    Answer::of(call, file, super::listing(file), lent).differs()
}

/// Makes the file smaller as long as it shows the same part of the answer to differ.
fn told(
    call: &impl Call,
    (seed, place): (u64, u64),
    file: Vec<u8>,
    lent: Lent,
    part: Part,
) -> Difference {
    let whole = file.len();
    let file = shrink(file, |smaller| differs(call, smaller, lent) == Some(part));
    let answer = Answer::of(call, &file, super::listing(&file), lent);
    Difference {
        seed,
        place,
        whole,
        lent,
        part,
        file,
        answer,
    }
}

/// Calls with one file of a seed, and notes what it met.
fn compare(
    call: &impl Call,
    seed: u64,
    place: u64,
    cases: &mut Cases,
) -> Result<(), Box<Difference>> {
    let file = generate::file(seed, place);
    let day = Day::of(&file);
    let listing = day.text().into_bytes();
    let random = &mut generate::words(seed ^ u64::MAX, place);
    for lent in slices(random, listing.len()) {
        let answer = Answer::of(call, &file, listing.clone(), lent);
        if let Some(part) = answer.differs() {
            return Err(Box::new(told(call, (seed, place), file, lent, part)));
        }
        cases.add(lent.case());
        match (day.stop, answer.wanted, lent) {
            (Some((_, 60)), 7, _) => cases.add("60 and 7"),
            (Some((_, 60)), _, Lent::Exact) => cases.add("60 in a slice of the listing's length"),
            _ => {}
        }
    }
    cases.note(&file, &day);
    Ok(())
}

/// How often a run says how far it is, in files.
const NEWS: u64 = 1_000_000;

/// Calls with the first `files` files of a seed, split between threads, up to the first difference that one of them finds.
pub fn run(
    call: &(impl Call + Sync),
    seed: u64,
    files: u64,
    threads: usize,
) -> Result<Cases, Box<Difference>> {
    let (next, found) = (AtomicU64::new(1), AtomicBool::new(false));
    let work = || {
        let mut cases = Cases::default();
        while !found.load(Ordering::Relaxed) {
            let place = next.fetch_add(1, Ordering::Relaxed);
            if place > files {
                break;
            }
            let compared = compare(call, seed, place, &mut cases);
            compared.inspect_err(|_| found.store(true, Ordering::Relaxed))?;
            if place % NEWS == 0 {
                eprintln!("{place} files so far");
            }
        }
        Ok(cases)
    };
    let ended: Vec<Result<Cases, Box<Difference>>> = thread::scope(|scope| {
        let workers: Vec<_> = (0..threads).map(|_| scope.spawn(work)).collect();
        let join = |worker: thread::ScopedJoinHandle<_>| worker.join().expect("no panic is left");
        workers.into_iter().map(join).collect()
    });
    let mut all = Cases::default();
    for cases in ended {
        all.merge(&cases?);
    }
    Ok(all)
}

/// So many files meet every case, whatever the seed.
pub const ENOUGH: u64 = 20_000;

/// What every run of [`ENOUGH`] files must meet, and this one did not.
pub fn missing(cases: &Cases) -> Vec<String> {
    let slices = EXPECTED.into_iter().filter(|case| cases.times(case) == 0);
    let slices = slices.map(str::to_string);
    cases.missing().into_iter().chain(slices).collect()
}
