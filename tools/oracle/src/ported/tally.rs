//! What a run met.

use std::collections::BTreeMap;

use super::cases::Cases;
use crate::call::{Act, Call, Said, Values};

/// Calls made, how often each was answered by each number (16 by its reason), the most rows that a snapshot or message left in a book,
/// and the most that messages added since its snapshot.
#[derive(Debug, Default)]
pub struct Tally {
    pub calls: u64,
    pub numbers: BTreeMap<&'static str, BTreeMap<u8, u64>>,
    pub most_rows: u64,
    pub most_grown: u64,
    pub cases: Cases,
    /// The rows of each book's latest snapshot.
    loaded: BTreeMap<u8, u64>,
}

/// Why a message was the last one.
fn reason(said: &Said) -> Option<u8> {
    let why = match said.values {
        Values::Invalidation(why) => Some(why),
        Values::Step { invalidation, .. } | Values::Buffered { invalidation, .. } => invalidation,
        _ => None,
    };
    why.filter(|_| said.number == 16).map(|why| why.reason)
}

impl Tally {
    pub fn add(&mut self, other: &Tally) {
        self.calls += other.calls;
        for (&name, numbers) in &other.numbers {
            let sums = self.numbers.entry(name).or_default();
            for (&number, &times) in numbers {
                *sums.entry(number).or_default() += times;
            }
        }
        self.most_rows = self.most_rows.max(other.most_rows);
        self.most_grown = self.most_grown.max(other.most_grown);
        self.cases.merge(&other.cases);
    }

    pub fn times(&self, name: &str, number: u8) -> u64 {
        let numbers = self.numbers.get(name);
        numbers
            .and_then(|all| all.get(&number))
            .copied()
            .unwrap_or(0)
    }

    pub(super) fn note(&mut self, call: &Call, said: &Said) {
        let number = reason(said).unwrap_or(said.number);
        let numbers = self.numbers.entry(call.act.name()).or_default();
        *numbers.entry(number).or_default() += 1;
        let Some(state) = said.state else { return };
        let loads = matches!(
            call.act,
            Act::Bootstrap { .. } | Act::BootstrapWithBuffer { .. }
        );
        let loaded = self.loaded.entry(call.book).or_default();
        if loads && number == 0 {
            *loaded = state.rows;
        }
        if number == 0 && (loads || matches!(call.act, Act::Apply { .. } | Act::Step { .. })) {
            self.most_rows = self.most_rows.max(state.rows);
            let grown = state.rows.saturating_sub(*loaded);
            self.most_grown = self.most_grown.max(grown);
        }
    }
}
