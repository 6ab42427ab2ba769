//! Nanoseconds a message: the port's `apply_all` of a run and its `apply`, the Rust's `apply`, and that followed by `audit()`, on the same
//! messages.

use super::books::{self, Ours};
use super::mix::{MESSAGES, Mix};
use super::round_on;
use crate::l3::message::L3Message;
use crate::port::CHANGED;
use crate::reader::message_words;
use crate::rust::convert;

fn in_one_call(mix: &Mix) -> f64 {
    let words: Vec<u64> = mix.messages.iter().flat_map(message_words).collect();
    let mut answers = vec![0; MESSAGES];
    round_on(
        || Ours::loaded(&mix.snapshot),
        |book| {
            assert_eq!(book.apply_all(&words, &mut answers), 0);
            assert!(answers.iter().all(|&answer| answer == CHANGED));
        },
    )
}

fn applied(mix: &Mix) -> f64 {
    let words: Vec<Vec<u64>> = mix.messages.iter().map(message_words).collect();
    round_on(
        || Ours::loaded(&mix.snapshot),
        |book| {
            for message in &words {
                assert_eq!(book.apply(message), CHANGED);
            }
        },
    )
}

fn theirs(mix: &Mix, audited: bool) -> f64 {
    let messages: Vec<L3Message> = mix.messages.iter().map(convert::message).collect();
    let snapshot = convert::snapshot(&mix.snapshot);
    round_on(
        || books::loaded(&snapshot),
        |book| {
            for message in &messages {
                assert!(book.apply(message).is_ok());
                assert!(!audited || book.audit().is_ok());
            }
        },
    )
}

/// Ours and theirs, a message: `apply_all` by `apply`, `apply` by `apply`, and `apply` by `apply` and `audit()`.
pub fn measure(mix: &Mix) -> [[f64; 2]; 3] {
    let runs = [
        in_one_call(mix),
        applied(mix),
        theirs(mix, false),
        theirs(mix, true),
    ];
    let [all, apply, alone, audited] = runs.map(|run| run / MESSAGES as f64);
    [[all, alone], [apply, alone], [apply, audited]]
}
