//! The cases of the replay: what each piece was told, and where the book stood before it.

use std::collections::BTreeSet;

use super::Cases;
use crate::daybook::Day;
use crate::daybook::replay::{ORDERS, Replay, SEGMENTS};
use crate::generate::mirror::Standing;
use crate::piece::{Product, Snapshot, SnapshotOrder, decode_snapshot};

pub const EXPECTED: &[&str] = &[
    "snapshot without orders",
    "snapshot of one order",
    "snapshot of several orders",
    "snapshot of 512 orders",
    "snapshot of 512 orders, a level each",
    "14 of 513 orders",
    "14 of more than 513 orders",
    "10 of a snapshot above the limit",
    "6 of another product",
    "6 of a snapshot that would be refused",
    "10 of a message, no snapshot yet",
    "10 of a message, valid book",
    "10 of a message, invalid book",
    "10 of a snapshot, no snapshot yet",
    "10 of a snapshot, valid book",
    "10 of a snapshot, invalid book",
    "snapshot refused, then a message accepted",
    "snapshot accepted, no snapshot yet",
    "snapshot accepted, valid book",
    "snapshot accepted, invalid book",
    "empty piece",
    "first piece under 17 bytes",
    "first piece of 16 bytes",
    "first piece of 17 bytes",
    "first piece of no kind",
    "first piece a message",
    "first piece a snapshot",
    "product of zeros",
    "product of another kind",
    "all behind the first of another product",
    "stopped at the first piece",
    "stopped within",
    "stopped at the last piece",
    "stopped at a piece above 9",
    "stopped at a piece above 99",
    "stopped at a piece above 999",
    "not stopped",
];

/// A piece with what was said of it, and where the book stood.
struct Told<'a> {
    piece: &'a [u8],
    number: u8,
    standing: Standing,
    segments: usize,
    product: &'a Product,
}

impl Cases {
    pub fn note_pieces(&mut self, pieces: &[&[u8]], day: &Day) {
        let Some(first) = pieces.first() else {
            return;
        };
        self.note_first(first);
        self.note_stop(pieces.len(), day.stop);
        let product: Product = match first.get(1..17) {
            Some(bytes) => bytes.try_into().expect("sixteen bytes"),
            None => [0; 16],
        };
        let (mut standing, mut segments, mut refused) = (Standing::NoSnapshot, 0, false);
        for (piece, &number) in pieces.iter().zip(&day.numbers) {
            let snapshot = piece.first() == Some(&0);
            let told = Told {
                piece,
                number,
                standing,
                segments,
                product: &product,
            };
            match snapshot {
                true => self.note_snapshot(&told),
                false => self.note_message(&told),
            }
            match (snapshot, number) {
                (true, 0) => (standing, segments) = (Standing::Valid, segments + 1),
                (false, 16) => standing = Standing::Invalid,
                (false, 0) if refused => self.add("snapshot refused, then a message accepted"),
                _ => {}
            }
            refused = snapshot && (10..=14).contains(&number);
        }
        let wrong = day.counts.wrong_product + day.counts.rejected_snapshots;
        if pieces.len() > 5 && day.segments.is_empty() && wrong + 1 == pieces.len() as u64 {
            self.add("all behind the first of another product");
        }
    }

    fn note_first(&mut self, first: &[u8]) {
        match first.len() {
            16 => self.add("first piece of 16 bytes"),
            17 => self.add("first piece of 17 bytes"),
            _ => {}
        }
        match first {
            [] => {}
            [0, ..] => self.add("first piece a snapshot"),
            [1..=6, ..] => self.add("first piece a message"),
            _ => self.add("first piece of no kind"),
        }
        match first.get(1..17) {
            None => self.add("first piece under 17 bytes"),
            Some(product) if product.iter().all(|&byte| byte == 0) => self.add("product of zeros"),
            Some(_) => self.add("product of another kind"),
        }
    }

    fn note_stop(&mut self, pieces: usize, stop: Option<(usize, u8)>) {
        let Some((place, _)) = stop else {
            return self.add("not stopped");
        };
        match place {
            1 => self.add("stopped at the first piece"),
            _ if place == pieces => self.add("stopped at the last piece"),
            _ => self.add("stopped within"),
        }
        match place {
            10..=99 => self.add("stopped at a piece above 9"),
            100..=999 => self.add("stopped at a piece above 99"),
            1_000.. => self.add("stopped at a piece above 999"),
            _ => {}
        }
    }

    fn note_message(&mut self, told: &Told) {
        self.number("message told", told.number);
        let kind = told.piece.first().map_or(7, |&kind| kind.min(7));
        match told.number {
            4 => self.number("4 of kind", kind),
            5 => self.number("5 of kind", kind),
            10 => self.add(match told.standing {
                Standing::NoSnapshot => "10 of a message, no snapshot yet",
                Standing::Valid => "10 of a message, valid book",
                Standing::Invalid => "10 of a message, invalid book",
            }),
            _ => {}
        }
        if told.piece.is_empty() {
            self.add("empty piece");
        }
        if told.segments == SEGMENTS {
            self.number("with 64 segments, message told", told.number);
        }
    }

    fn note_snapshot(&mut self, told: &Told) {
        self.number("snapshot told", told.number);
        if told.segments == SEGMENTS {
            self.number("with 64 segments, snapshot told", told.number);
        }
        match (told.number, decode_snapshot(told.piece)) {
            (0, Ok(snapshot)) => self.accepted(told.standing, &snapshot),
            (_, Ok(snapshot)) => self.refused(told, &snapshot),
            (4, _) => self.number("4 of kind", 0_u64),
            _ => self.number("5 of kind", 0_u64),
        }
    }

    fn refused(&mut self, told: &Told, snapshot: &Snapshot) {
        let orders = snapshot.bids.len() + snapshot.asks.len();
        match told.number {
            6 if snapshot.product != *told.product => self.add("6 of another product"),
            6 if Replay::new(told.product).take(told.piece) != 0 => {
                self.add("6 of a snapshot that would be refused");
            }
            10 => self.add(match told.standing {
                Standing::NoSnapshot => "10 of a snapshot, no snapshot yet",
                Standing::Valid => "10 of a snapshot, valid book",
                Standing::Invalid => "10 of a snapshot, invalid book",
            }),
            14 if orders == ORDERS + 1 => self.add("14 of 513 orders"),
            14 => self.add("14 of more than 513 orders"),
            _ => {}
        }
        if told.number == 10 && orders > ORDERS {
            self.add("10 of a snapshot above the limit");
        }
    }

    fn accepted(&mut self, standing: Standing, snapshot: &Snapshot) {
        self.add(match standing {
            Standing::NoSnapshot => "snapshot accepted, no snapshot yet",
            Standing::Valid => "snapshot accepted, valid book",
            Standing::Invalid => "snapshot accepted, invalid book",
        });
        self.add(match snapshot.bids.len() + snapshot.asks.len() {
            0 => "snapshot without orders",
            1 => "snapshot of one order",
            ORDERS => "snapshot of 512 orders",
            _ => "snapshot of several orders",
        });
        if levels(&snapshot.bids) + levels(&snapshot.asks) == ORDERS {
            self.add("snapshot of 512 orders, a level each");
        }
    }
}

/// The prices of one side.
fn levels(orders: &[SnapshotOrder]) -> usize {
    let prices: BTreeSet<i64> = orders.iter().map(|order| order.price).collect();
    prices.len()
}
