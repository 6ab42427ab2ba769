//! Two builds of the library, before and after a change, on the same books in one run. The rounds of the two take turns and are spread over the whole run, so
//! that other work on the machine meets both alike. Whatever is timed is called once in either build first, and must give the same words.

use std::ffi::CStr;
use std::hint::black_box;
use std::time::Duration;

use super::books::{self, Ours};
use super::library::Library;
use super::mix::Mix;
use super::reads::BUY;
use super::round_of;
use super::venue::{SIZES, nanoseconds, ratio};
use crate::port::reads::QUEUE_WORDS;

/// Rounds of each build, the best of which counts, and the least time of one: many and short, since a machine with other work on it is quick only at moments.
const TURNS: usize = 60;
const TURN: Duration = Duration::from_micros(400);

/// The words that a call may write.
#[derive(Clone, PartialEq, Eq)]
struct Written {
    out: Vec<u64>,
    count: [u64; 1],
}

/// What a call is lent beside the book. Scratch is a word an order, which is enough before paper 2 as well.
struct Lent {
    scratch: Vec<u64>,
    written: Written,
}

impl Lent {
    fn new() -> Lent {
        let most = books::RULES.max_orders as usize;
        Lent {
            scratch: vec![0; most],
            written: Written {
                out: vec![0; QUEUE_WORDS * most],
                count: [0],
            },
        }
    }
}

/// A book, and the price of the level that is read of it.
struct Shown {
    book: Ours,
    price: u64,
}

/// A call of one build, which answers 0 on the books that it is timed on.
type Timed = Box<dyn Fn(&Shown, &mut Lent) -> u64>;

/// Looks a call up in a build.
type Find = fn(&Library) -> Result<Timed, String>;

/// What is timed: on which book, and the call before and after, since a change may lend it other words.
struct Case {
    name: &'static str,
    book: fn(usize) -> Ours,
    calls: [Find; 2],
}

impl Case {
    /// Of a call that is lent the same words in both builds.
    const fn of(name: &'static str, book: fn(usize) -> Ours, call: Find) -> Case {
        Case {
            name,
            book,
            calls: [call, call],
        }
    }
}

const CASES: &[Case] = &[
    Case::of("`level_queue`", mixed, level_queue),
    Case::of("`priority_profile`", mixed, priority_profile),
    Case::of("`l2`", mixed, l2),
    Case::of("`stale_l2`", mixed_invalid, stale_l2),
    Case::of("`level_queue`, one order a level", spread, level_queue),
    Case::of(
        "`priority_profile`, one order a level",
        spread,
        priority_profile,
    ),
    Case::of("`l2`, one order a level", spread, l2),
    Case::of("`stale_l2`, one order a level", spread_invalid, stale_l2),
];

/// The book that the venue's mix of messages leaves.
fn mixed(orders: usize) -> Ours {
    Ours::after(&Mix::new(orders))
}

fn mixed_invalid(orders: usize) -> Ours {
    mixed(orders).invalidated()
}

/// One order a level.
fn spread(orders: usize) -> Ours {
    Ours::loaded(&books::spread(orders))
}

fn spread_invalid(orders: usize) -> Ours {
    spread(orders).invalidated()
}

type QueueRead = unsafe extern "C" fn(
    *const u64,
    usize,
    *const u64,
    usize,
    *mut u64,
    usize,
    u64,
    u64,
    *mut u64,
    usize,
    *mut u64,
    usize,
) -> u64;

/// The bids at a price.
fn level_queue(library: &Library) -> Result<Timed, String> {
    // SAFETY: the function's type by include/pinuglaw.h.
    let read: QueueRead = unsafe { library.function(c"pinuglaw_level_queue")? };
    Ok(Box::new(move |shown, lent| {
        let Lent { scratch, written } = lent;
        let (Ours { block, rows, .. }, Written { out, count }) = (&shown.book, written);
        // SAFETY: every slice is lent whole, and none overlaps another.
        unsafe {
            read(
                block.as_ptr(),
                block.len(),
                rows.as_ptr(),
                rows.len(),
                scratch.as_mut_ptr(),
                scratch.len(),
                BUY,
                shown.price,
                out.as_mut_ptr(),
                out.len(),
                count.as_mut_ptr(),
                count.len(),
            )
        }
    }))
}

type SideRead = unsafe extern "C" fn(
    *const u64,
    usize,
    *const u64,
    usize,
    *mut u64,
    usize,
    u64,
    *mut u64,
    usize,
    *mut u64,
    usize,
) -> u64;

/// A level read of the bids.
fn side_read(library: &Library, name: &CStr) -> Result<Timed, String> {
    // SAFETY: the type that the three reads of a side have by include/pinuglaw.h.
    let read: SideRead = unsafe { library.function(name)? };
    Ok(Box::new(move |shown, lent| {
        let Lent { scratch, written } = lent;
        let (Ours { block, rows, .. }, Written { out, count }) = (&shown.book, written);
        // SAFETY: every slice is lent whole, and none overlaps another.
        unsafe {
            read(
                block.as_ptr(),
                block.len(),
                rows.as_ptr(),
                rows.len(),
                scratch.as_mut_ptr(),
                scratch.len(),
                BUY,
                out.as_mut_ptr(),
                out.len(),
                count.as_mut_ptr(),
                count.len(),
            )
        }
    }))
}

fn priority_profile(library: &Library) -> Result<Timed, String> {
    side_read(library, c"pinuglaw_priority_profile")
}

fn l2(library: &Library) -> Result<Timed, String> {
    side_read(library, c"pinuglaw_l2")
}

fn stale_l2(library: &Library) -> Result<Timed, String> {
    side_read(library, c"pinuglaw_stale_l2")
}

/// A case on a book: the call in both builds, and the best round of each so far.
struct Cell {
    shown: Shown,
    calls: [Timed; 2],
    best: [f64; 2],
}

impl Cell {
    /// Refused where a build has no such call, or the two write other words.
    fn new(case: &Case, orders: usize, libraries: &[Library; 2]) -> Result<Cell, String> {
        let [before, after] = &case.calls;
        let calls = [before(&libraries[0])?, after(&libraries[1])?];
        let book = (case.book)(orders);
        let price = book.last_bid();
        let shown = Shown { book, price };
        let [before, after] = calls.each_ref().map(|call| {
            let mut lent = Lent::new();
            (call(&shown, &mut lent), lent.written)
        });
        if before.0 != 0 || before != after {
            let (name, numbers) = (case.name, [before.0, after.0]);
            return Err(format!(
                "{name}, {orders} orders: answers {numbers:?}, or other words"
            ));
        }
        let best = [f64::INFINITY; 2];
        Ok(Cell { shown, calls, best })
    }

    /// A round of one build.
    fn time(&mut self, build: usize, lent: &mut Lent) {
        let Cell { shown, calls, best } = self;
        let call = &calls[build];
        let spent = round_of(TURN, || {
            assert_eq!(call(black_box(shown), black_box(lent)), 0)
        });
        best[build] = best[build].min(spent);
    }

    fn text(&self) -> String {
        let [before, after] = self.best;
        let share = ratio([after, before]);
        format!("{} → {} = {share}", nanoseconds(before), nanoseconds(after))
    }
}

/// Times the two builds in these files on the cases whose names hold one of `parts`, or on all, and prints the table.
pub fn run(before: &str, after: &str, parts: &[&str]) -> Result<(), String> {
    let libraries = [Library::open(before)?, Library::open(after)?];
    let named =
        |case: &&Case| parts.is_empty() || parts.iter().any(|part| case.name.contains(part));
    let cases: Vec<&Case> = CASES.iter().filter(named).collect();
    if cases.is_empty() {
        return Err(format!("no case {parts:?}"));
    }
    let cell = |case: &&Case, orders: usize| Cell::new(case, orders, &libraries);
    let mut table = Vec::new();
    for case in &cases {
        let row: Result<Vec<Cell>, String> = SIZES.iter().map(|&n| cell(case, n)).collect();
        table.push(row?);
    }
    let mut lent = Lent::new();
    for turn in 0..TURNS {
        for cell in table.iter_mut().flatten() {
            // Neither build always comes first.
            for build in [turn % 2, 1 - turn % 2] {
                cell.time(build, &mut lent);
            }
        }
    }
    let sizes = SIZES.map(|size| nanoseconds(size as f64)).join("|");
    println!("|ns before → after = after / before|{sizes}|\n|-|-|-|-|-|-|");
    for (case, row) in cases.iter().zip(&table) {
        let cells: Vec<String> = row.iter().map(Cell::text).collect();
        println!("|{}|{}|", case.name, cells.join("|"));
    }
    Ok(())
}
