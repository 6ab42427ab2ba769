//! What the trials of a run must meet: which part of each call was amiss, and which number was said where another held beside it.

/// The state of every call.
const STATE: &[&str] = &[
    "state short",
    "rule above 1",
    "status above 2",
    "reason of no number",
    "detail above 1",
    "no book, told 3",
];
/// What a state that no book has is told beside memory.
const ROWS: &[&str] = &["no book, told 1", "no book, told 2 of rows"];
const LIST: &[&str] = &["no book, told 2 of the list"];
const SCRATCH: &[&str] = &["no book, told 2 of scratch"];
const SIDE: &[&str] = &["side above 1"];
const OUTPUT: &[&str] = &["fixed output short"];
const ENTRIES: &[&str] = &["fixed output short", "entries short"];
const STEP: &[&str] = &["message short", "handshake short", "ended above 1"];
const ESTIMATE: &[&str] = &["estimate short", "estimate's side above 1", "own above 1"];

/// The parts of each call that must have been told amiss.
pub const TRIALS: &[(&str, &[&[&str]])] = &[
    ("apply", &[STATE, ROWS, LIST, &["message short"]]),
    ("bootstrap", &[STATE, ROWS, LIST]),
    ("step", &[STATE, ROWS, LIST, STEP]),
    ("apply_all", &[STATE, ROWS, LIST, &["answers short"]]),
    ("handshake", &[STATE, &["output short"]]),
    ("invalidation", &[STATE, &["output short"]]),
    ("segment", &[STATE, &["output short"]]),
    ("last_sequence", &[STATE, ROWS, OUTPUT]),
    ("best", &[STATE, ROWS, OUTPUT]),
    ("audit", &[STATE, ROWS]),
    ("level_queue", &[STATE, ROWS, SCRATCH, SIDE, ENTRIES]),
    ("priority_profile", &[STATE, ROWS, SCRATCH, SIDE, ENTRIES]),
    ("l2", &[STATE, ROWS, SCRATCH, SIDE, ENTRIES]),
    ("stale_l2", &[STATE, ROWS, SCRATCH, SIDE, ENTRIES]),
    ("queue_estimate", &[STATE, ROWS, SIDE, ENTRIES]),
    ("queue_estimate_own", &[STATE, ROWS, OUTPUT]),
    ("volume_ahead", &[STATE, ROWS, OUTPUT, ESTIMATE]),
];

/// What stands after 768, 4 and a state that no book has, before 7: the numbers of the call's own rules, and 256 or 512 where it succeeds so.
const RULES: &[(&str, &[u64])] = &[
    ("apply", &[5, 10, 15, 16, 17, 256]),
    ("bootstrap", &[4, 5, 6, 10, 11, 12, 13, 14]),
    ("step", &[9, 5, 10, 16, 17, 256, 512]),
    ("apply_all", &[]),
    ("handshake", &[]),
    ("invalidation", &[256]),
    ("segment", &[256]),
    ("last_sequence", &[15, 18]),
    ("best", &[15, 18]),
    ("audit", &[15, 18]),
    ("level_queue", &[15, 18]),
    ("priority_profile", &[15, 18]),
    ("l2", &[15, 18]),
    ("stale_l2", &[256]),
    ("queue_estimate", &[15, 18]),
    ("queue_estimate_own", &[15, 18, 51, 52]),
    ("volume_ahead", &[8, 15, 18, 50, 51, 52]),
];

/// The calls that are lent words which no value may have; those that are lent rows, by which 1 and 2 come; and those that write an output.
const VALUED: &[&str] = &[
    "apply",
    "step",
    "level_queue",
    "priority_profile",
    "l2",
    "stale_l2",
    "queue_estimate",
    "volume_ahead",
];
const WITHOUT_ROWS: &[&str] = &["handshake", "invalidation", "segment"];
const WITHOUT_OUTPUT: &[&str] = &["apply", "bootstrap", "step", "audit"];

/// The numbers that a call can say, in order.
fn numbers(call: &str, rules: &[u64]) -> Vec<u64> {
    let mut numbers = vec![768];
    numbers.extend(VALUED.contains(&call).then_some(4));
    if !WITHOUT_ROWS.contains(&call) {
        numbers.extend([1, 2]);
    }
    numbers.push(3);
    numbers.extend(rules);
    numbers.extend((!WITHOUT_OUTPUT.contains(&call)).then_some(7));
    numbers
}

/// Whether `said` can have come before `other` in a trial: a call has one answer of 1, 2, 3 and its rules, unless its state was made one of
/// no book, which is 3 where the other is a rule.
fn meet(call: &str, said: u64, other: u64) -> bool {
    let early = |number| number == 768 || (number == 4 && VALUED.contains(&call));
    early(said) || other == 7 || said == 3
}

/// A call, a number that it must have said, and one that held too and comes later; 0 where nothing else held.
pub fn expected() -> impl Iterator<Item = (&'static str, u64, u64)> {
    let of_call = |&(call, rules): &(&'static str, &'static [u64])| {
        let numbers = numbers(call, rules);
        let mut orders = Vec::new();
        for (place, &said) in numbers.iter().enumerate() {
            let later = numbers[place + 1..].iter();
            let later = later.filter(|&&other| meet(call, said, other));
            orders.extend(later.map(|&other| (call, said, other)));
        }
        let alone = numbers.iter().filter(|&&said| said == 7 || said == 768);
        orders.extend(alone.map(|&said| (call, said, 0)));
        orders
    };
    RULES
        .iter()
        .flat_map(of_call)
        .chain([("new", 4, 7), ("new", 4, 0), ("new", 7, 0)])
}

#[cfg(test)]
mod tests {
    use super::expected;
    use crate::ported::cases::Cases;

    /// An output that is too small beside every refusal that comes before it.
    const SEVEN_LAST: [(&str, &[u64]); 9] = [
        ("last_sequence", &[1, 2, 3, 15, 18]),
        ("best", &[1, 2, 3, 15, 18]),
        ("level_queue", &[1, 2, 3, 15, 18]),
        ("stale_l2", &[1, 2, 3, 256]),
        ("queue_estimate", &[1, 2, 3, 15, 18]),
        ("queue_estimate_own", &[1, 2, 3, 15, 18, 51, 52]),
        ("volume_ahead", &[1, 2, 3, 8, 15, 18, 50, 51, 52]),
        ("invalidation", &[3, 256]),
        ("apply_all", &[1, 2, 3]),
    ];

    #[test]
    fn seven_is_demanded_beside_every_refusal() {
        for (call, refusals) in SEVEN_LAST {
            for &said in refusals {
                assert!(
                    expected().any(|order| order == (call, said, 7)),
                    "{call} {said}"
                );
            }
        }
    }

    #[test]
    fn a_run_that_met_nothing_misses_every_order() {
        let missing = Cases::default().missing();
        for (call, said, other) in expected() {
            let order = format!("{call}: {said} before {other}");
            assert!(missing.contains(&order), "{order}");
        }
    }
}
