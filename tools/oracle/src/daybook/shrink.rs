//! Makes a day file that shows a difference smaller, as long as the difference stays. Of a sound file pieces are left out, and orders of
//! snapshots; of another one pairs, and bytes at its end.

use std::ops::Range;

use super::layout::{self, PAIR, Parts};
use crate::piece::{Snapshot, SnapshotOrder, decode_snapshot, encode_snapshot};
use crate::shrink::{lower, take_out};

/// The smallest file found of which `still` holds; it holds of the one given.
pub fn shrink(file: Vec<u8>, still: impl Fn(&[u8]) -> bool) -> Vec<u8> {
    let mut search = Search { file, still };
    loop {
        let before = search.file.len();
        match search.pieces() {
            Some(pieces) => search.leave_out_pieces(pieces),
            None => search.leave_out_pairs(),
        }
        search.cut();
        if search.file.len() == before {
            return search.file;
        }
    }
}

struct Search<F> {
    file: Vec<u8>,
    still: F,
}

impl<F: Fn(&[u8]) -> bool> Search<F> {
    /// The pieces, if the file is sound and shows the difference without its gaps too.
    fn pieces(&mut self) -> Option<Vec<Vec<u8>>> {
        let pieces = layout::pieces(&self.file)?;
        let pieces: Vec<Vec<u8>> = pieces.into_iter().map(<[u8]>::to_vec).collect();
        self.take(layout::pack(&pieces)).then_some(pieces)
    }

    /// Goes on with a file if it shows the difference and is no longer.
    fn take(&mut self, file: Vec<u8>) -> bool {
        let taken = file.len() <= self.file.len() && (self.still)(&file);
        if taken {
            self.file = file;
        }
        taken
    }

    fn leave_out_pieces(&mut self, mut pieces: Vec<Vec<u8>>) {
        take_out(pieces.len(), 0, |run| {
            let fewer = without(&pieces, run.clone());
            let closed = closed(&pieces, run);
            let found = [fewer, closed]
                .into_iter()
                .find(|fewer| self.take(layout::pack(fewer)));
            found.map(|fewer| pieces = fewer).is_some()
        });
        for place in 0..pieces.len() {
            self.leave_out_orders(&mut pieces, place);
        }
    }

    /// Makes the orders of a snapshot fewer. A long list is made shorter by long runs only: each trial costs as much as the file is long.
    fn leave_out_orders(&mut self, pieces: &mut Vec<Vec<u8>>, place: usize) {
        let Ok(snapshot) = decode_snapshot(&pieces[place]) else {
            return;
        };
        let bids = snapshot.bids.iter().map(|order| (true, *order));
        let asks = snapshot.asks.iter().map(|order| (false, *order));
        let mut orders: Vec<(bool, SnapshotOrder)> = bids.chain(asks).collect();
        take_out(orders.len(), orders.len() / 64, |run| {
            let mut fewer = orders.clone();
            fewer.drain(run);
            let mut others = pieces.clone();
            others[place] = encode_snapshot(&Snapshot {
                bids: side(&fewer, true),
                asks: side(&fewer, false),
                ..snapshot
            });
            let taken = self.take(layout::pack(&others));
            if taken {
                (*pieces, orders) = (others, fewer);
            }
            taken
        });
    }

    /// Leaves out pairs, with their count and the bytes they take; the offsets stay where they pointed.
    fn leave_out_pairs(&mut self) {
        let Some(mut parts) = Parts::of(&self.file) else {
            return;
        };
        take_out(parts.pairs.len(), 0, |run| {
            let mut fewer = parts.clone();
            let gone = fewer.pairs.drain(run).count() as u32;
            fewer.count = fewer.count.wrapping_sub(gone);
            for pair in &mut fewer.pairs {
                pair.0 = pair.0.saturating_sub(PAIR as u32 * gone);
            }
            let taken = self.take(fewer.bytes());
            if taken {
                parts = fewer;
            }
            taken
        });
    }

    /// Cuts bytes off the end.
    fn cut(&mut self) {
        let mut less = self.file.len();
        while less > 0 {
            let shorter = self.file[..self.file.len().saturating_sub(less)].to_vec();
            if shorter.len() == self.file.len() || !self.take(shorter) {
                less /= 2;
            }
        }
    }
}

/// The orders of one side.
fn side(orders: &[(bool, SnapshotOrder)], buy: bool) -> Vec<SnapshotOrder> {
    let there = orders.iter().filter(|(side, _)| *side == buy);
    there.map(|(_, order)| *order).collect()
}

fn without(pieces: &[Vec<u8>], run: Range<usize>) -> Vec<Vec<u8>> {
    let mut fewer = pieces.to_vec();
    fewer.drain(run);
    fewer
}

/// The pieces without a run of them, the messages up to the next snapshot lowered by as many sequences as were left out.
fn closed(pieces: &[Vec<u8>], run: Range<usize>) -> Vec<Vec<u8>> {
    let mut fewer = without(pieces, run.clone());
    let is_message = |piece: &&mut Vec<u8>| piece.first() != Some(&0);
    for gone in pieces[run.clone()].iter().rev() {
        if gone.first() != Some(&0) {
            let later = fewer[run.start..].iter_mut().take_while(is_message);
            later.for_each(|piece| lower(piece, gone));
        }
    }
    fewer
}
