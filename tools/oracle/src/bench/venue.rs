//! The table: each operation on books of several sizes at the venue's mix of messages, ours by the Rust's. The rounds of a measurement are
//! spread over the whole run, so that other work on the machine does not meet all of them.

use super::mix::Mix;
use super::reads::Both;
use super::{ROUNDS, books, bootstrap, messages};

/// Resting orders.
pub const SIZES: [usize; 5] = [10, 100, 512, 1_000, 4_096];

/// An operation's name, and nanoseconds of ours and theirs.
type Cell = (&'static str, [f64; 2]);

/// A round of every operation, on books of so many orders.
fn column(orders: usize) -> Vec<Cell> {
    let mix = Mix::new(orders);
    let (both, stale) = (Both::after(&mix), Both::invalidated(&mix));
    let spread = Both::of(&books::spread(orders));
    let [all, apply, audited] = messages::measure(&mix);
    vec![
        ("`apply_all` against `apply`", all),
        ("`apply`", apply),
        ("`apply` against `apply` and `audit()`", audited),
        ("`last_sequence`", both.last_sequence()),
        ("`best`", both.best()),
        ("`audit`", both.audit()),
        ("`level_queue`", both.level_queue()),
        ("`priority_profile`", both.priority_profile()),
        (
            "`priority_profile`, one order a level",
            spread.priority_profile(),
        ),
        ("`l2`", both.l2()),
        ("`l2`, one order a level", spread.l2()),
        ("`stale_l2`", stale.stale_l2()),
        ("`queue_estimate`", both.queue_estimate()),
        ("`queue_estimate_own`", both.queue_estimate_own()),
        ("`volume_ahead` of a list", both.volume_ahead()),
        ("`volume_ahead` of an own order", both.volume_ahead_own()),
        ("`bootstrap`", bootstrap::accepted(&mix.snapshot)),
        (
            "`bootstrap`, refused (11)",
            bootstrap::refused(&mix.snapshot),
        ),
    ]
}

/// Whole nanoseconds in groups of three digits, or one place below ten.
pub fn nanoseconds(value: f64) -> String {
    if value < 9.95 {
        return format!("{value:.1}");
    }
    let digits = format!("{value:.0}");
    let groups = digits.as_bytes().rchunks(3).rev();
    let groups: Vec<_> = groups.map(String::from_utf8_lossy).collect();
    groups.join(",")
}

pub fn ratio([ours, theirs]: [f64; 2]) -> String {
    match ours / theirs {
        small @ ..9.995 => format!("{small:.2}"),
        large => nanoseconds(large),
    }
}

/// Takes over what is faster in another round.
fn improve(best: &mut [Cell], round: &[Cell]) {
    for ((_, best), (_, round)) in best.iter_mut().zip(round) {
        *best = [best[0].min(round[0]), best[1].min(round[1])];
    }
}

pub fn run() {
    let mut columns = SIZES.map(column);
    for _ in 1..ROUNDS {
        for (best, size) in columns.iter_mut().zip(SIZES) {
            improve(best, &column(size));
        }
    }
    let sizes = SIZES.map(|size| nanoseconds(size as f64)).join("|");
    println!("|ns, ours / the Rust's|{sizes}|\n|-|-|-|-|-|-|");
    for (row, (name, _)) in columns[0].iter().enumerate() {
        let cell = |column: &Vec<Cell>| {
            let (_, pair @ [ours, theirs]) = column[row];
            let (ours, theirs) = (nanoseconds(ours), nanoseconds(theirs));
            format!("{ours} / {theirs} = {}", ratio(pair))
        };
        println!("|{name}|{}|", columns.each_ref().map(cell).join("|"));
    }
}
