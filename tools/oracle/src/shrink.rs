//! Makes a list of calls that shows a difference small: fewer calls, and shorter lists in them, as long as the same kind of difference stays.
//! A message left out leaves a gap in the sequence, so the later ones are also tried one sequence lower.

use std::ops::Range;

use crate::call::{Act, Anchor, Call, Estimate, Subject};
use crate::difference::{Answers, Kind, first};
use crate::piece::{decode_snapshot, encode_snapshot};

/// A difference made small: the calls, the differing one last, and its answers.
pub struct Small {
    pub calls: Vec<Call>,
    pub kind: Kind,
    pub answers: Answers,
}

/// The smallest list found that shows the same kind of difference; none if the calls alone, on a fresh subject, show another or none.
pub fn shrink<S: Subject>(calls: Vec<Call>, kind: &Kind, fresh: impl Fn() -> S) -> Option<Small> {
    let mut search = Search { calls, kind, fresh };
    let whole = search.calls.clone();
    if !search.take(whole) {
        return None;
    }
    loop {
        let before = search.size();
        search.drop_calls();
        search.shorten_lists();
        if search.size() == before {
            break;
        }
    }
    let (_, kind, answers) = first(&search.calls, (search.fresh)())?;
    Some(Small {
        calls: search.calls,
        kind,
        answers,
    })
}

struct Search<'a, F> {
    calls: Vec<Call>,
    kind: &'a Kind,
    fresh: F,
}

/// Tries to take out runs of a list, long ones first and none of `least` or shorter; `take` says whether a run was taken out.
pub(crate) fn take_out(
    mut length: usize,
    least: usize,
    mut take: impl FnMut(Range<usize>) -> bool,
) {
    let mut run = length;
    while run > least {
        let mut end = length;
        while end > 0 {
            let start = end.saturating_sub(run);
            if take(start..end) {
                length -= end - start;
            }
            end = start;
        }
        run /= 2;
    }
}

impl<S: Subject, F: Fn() -> S> Search<'_, F> {
    /// Calls, and entries of their lists.
    fn size(&self) -> usize {
        let entries = |call: &Call| lists(call).iter().sum::<usize>();
        self.calls.len() + self.calls.iter().map(entries).sum::<usize>()
    }

    /// Goes on with `calls`, up to the differing one, if their first difference is of the kind.
    fn take(&mut self, mut calls: Vec<Call>) -> bool {
        match first(&calls, (self.fresh)()) {
            Some((place, kind, _)) if kind == *self.kind => {
                calls.truncate(place + 1);
                self.calls = calls;
                true
            }
            _ => false,
        }
    }

    fn drop_calls(&mut self) {
        take_out(self.calls.len() - 1, 0, |run| {
            // An earlier difference may have cut the list short.
            run.end < self.calls.len() && self.drop_run(run)
        });
    }

    fn drop_run(&mut self, run: Range<usize>) -> bool {
        let mut fewer = self.calls.clone();
        let dropped: Vec<Call> = fewer.drain(run.clone()).collect();
        if self.take(fewer.clone()) {
            return true;
        }
        let mut closed = false;
        for call in dropped.iter().rev() {
            if let Act::Apply { piece } | Act::Step { piece, .. } = &call.act {
                close_gap(&mut fewer[run.start..], call.book, piece);
                closed = true;
            }
        }
        closed && self.take(fewer)
    }

    fn shorten_lists(&mut self) {
        let mut at = 0;
        while at < self.calls.len() {
            for (list, length) in lists(&self.calls[at]).into_iter().enumerate() {
                // A long list is first made shorter by long runs: each trial costs as much as the list is long.
                take_out(length, length / 64, |run| {
                    at < self.calls.len() && self.shorten(at, list, run)
                });
            }
            at += 1;
        }
    }

    fn shorten(&mut self, at: usize, list: usize, run: Range<usize>) -> bool {
        let mut shorter = self.calls.clone();
        shorter[at] = without(&shorter[at], list, run.clone());
        if self.take(shorter.clone()) {
            return true;
        }
        let (here, later) = shorter[at..].split_first_mut().expect("a call");
        let (
            Act::BootstrapWithBuffer { buffer: whole, .. },
            Act::BootstrapWithBuffer { buffer, .. },
            BUFFER,
        ) = (&self.calls[at].act, &mut here.act, list)
        else {
            return false;
        };
        for left_out in whole[run.clone()].iter().rev() {
            let after = buffer[run.start..].iter_mut();
            after.for_each(|piece| lower(piece, left_out));
            close_gap(later, here.book, left_out);
        }
        self.take(shorter)
    }
}

/// The place of the messages buffered among a call's lists.
const BUFFER: usize = 2;

/// The lengths of a call's lists: a snapshot's bids and asks, the messages buffered, the orders of a forged ahead-list.
fn lists(call: &Call) -> Vec<usize> {
    let orders = |piece: &[u8]| match decode_snapshot(piece) {
        Ok(snapshot) => vec![snapshot.bids.len(), snapshot.asks.len()],
        Err(_) => vec![0, 0],
    };
    match &call.act {
        Act::Bootstrap { piece } | Act::ReadSnapshot { piece } => orders(piece),
        Act::BootstrapWithBuffer { piece, buffer, .. } => {
            let mut lengths = orders(piece);
            lengths.push(buffer.len());
            lengths
        }
        Act::ForgeEstimate { list, .. } => vec![list.len() / 3],
        _ => Vec::new(),
    }
}

/// The call without a run of one of its [`lists`].
fn without(call: &Call, list: usize, run: Range<usize>) -> Call {
    let mut call = call.clone();
    match &mut call.act {
        Act::BootstrapWithBuffer { buffer, .. } if list == BUFFER => drop(buffer.drain(run)),
        Act::Bootstrap { piece }
        | Act::ReadSnapshot { piece }
        | Act::BootstrapWithBuffer { piece, .. } => {
            let mut snapshot = decode_snapshot(piece).expect("a snapshot has orders");
            let orders = match list {
                0 => &mut snapshot.bids,
                _ => &mut snapshot.asks,
            };
            orders.drain(run);
            *piece = encode_snapshot(&snapshot);
        }
        Act::ForgeEstimate { list, .. } => drop(list.drain(3 * run.start..3 * run.end)),
        act => unreachable!("{act:?} has no list"),
    }
    call
}

/// Where a message piece has its sequence.
const SEQUENCE: Range<usize> = 17..25;

fn sequence(piece: &[u8]) -> Option<u64> {
    let bytes = piece.get(SEQUENCE)?.try_into().ok()?;
    Some(u64::from_le_bytes(bytes))
}

/// Lowers the sequence of a message that comes after the one left out.
pub(crate) fn lower(piece: &mut [u8], left_out: &[u8]) {
    if let (Some(this), Some(gone)) = (sequence(piece), sequence(left_out))
        && this > gone
    {
        piece[SEQUENCE].copy_from_slice(&(this - 1).to_le_bytes());
    }
}

/// Lowers the sequences that a forged estimate and its list name.
fn lower_estimate(estimate: &mut Estimate, list: &mut [u64], left_out: &[u8]) {
    let Some(gone) = sequence(left_out) else {
        return;
    };
    let (Anchor::Own { entered_at: at, .. } | Anchor::Hypothetical { created_at: at, .. }) =
        &mut estimate.anchor;
    for word in list.iter_mut().skip(2).step_by(3).chain([at]) {
        *word -= u64::from(*word > gone);
    }
}

/// Lowers the sequences of a book's messages, up to its next snapshot, where a message before them is left out.
fn close_gap(calls: &mut [Call], book: u8, left_out: &[u8]) {
    for call in calls.iter_mut().filter(|call| call.book == book) {
        match &mut call.act {
            Act::Apply { piece } | Act::Step { piece, .. } => lower(piece, left_out),
            Act::ForgeEstimate { estimate, list, .. } => lower_estimate(estimate, list, left_out),
            Act::Create { .. } | Act::Bootstrap { .. } | Act::BootstrapWithBuffer { .. } => return,
            _ => {}
        }
    }
}
