//! Nanoseconds a read: the port's and the Rust's, on books of the same orders. Read are the bids, and the level of the own order, which is the
//! last bid that came by an open.

use std::hint::black_box;

use super::books::{self, Ours, PRODUCT};
use super::mix::Mix;
use super::round;
use crate::l3::message::L3Side;
use crate::l3::queue::QueueEstimate;
use crate::l3::reconstructor::BookReconstructor;
use crate::piece::{Event, Id, Message, Snapshot};
use crate::port::reads::{self, LevelRead};
use crate::reader::message_words;
use crate::rust::convert;

pub const BUY: u64 = 0;
/// The kind of a bid's row that came by an open.
const OPENED_BID: u64 = 2;

/// The same book twice.
pub struct Both {
    ours: Ours,
    theirs: BookReconstructor,
}

/// An estimate's words and list, beside the Rust's.
struct Estimates {
    words: [u64; reads::ESTIMATE_WORDS],
    list: Vec<u64>,
    theirs: QueueEstimate,
}

impl Both {
    pub fn of(snapshot: &Snapshot) -> Both {
        Both {
            ours: Ours::loaded(snapshot),
            theirs: books::loaded(&convert::snapshot(snapshot)),
        }
    }

    /// The book that a mix leaves.
    pub fn after(mix: &Mix) -> Both {
        let mut both = Both::of(&mix.snapshot);
        for message in &mix.messages {
            both.hand(message);
        }
        both
    }

    /// The same, invalidated by a gap.
    pub fn invalidated(mix: &Mix) -> Both {
        let mut both = Both::after(mix);
        both.hand(&Message {
            product: PRODUCT,
            sequence: 2 + mix.messages.len() as u64,
            time_us: 0,
            event: Event::Unsupported { kind: 0 },
        });
        both
    }

    fn hand(&mut self, message: &Message) {
        let ours = self.ours.apply(&message_words(message));
        let theirs = self.theirs.apply(&convert::message(message));
        assert_eq!(ours == 16, theirs.is_err());
    }

    /// The id and the price of the own order.
    fn own(&self) -> (Id, u64) {
        let rows = self.ours.rows.chunks_exact(8).take(self.ours.orders());
        let row = rows.rev().find(|row| row[4] == OPENED_BID);
        let row = row.expect("a bid came by an open");
        (u128::from(row[0]) << 64 | u128::from(row[1]), row[2])
    }

    fn time(
        &self,
        mut ours: impl FnMut(&[u64], &[u64]) -> u64,
        theirs: impl Fn(&BookReconstructor) -> bool,
    ) -> [f64; 2] {
        let Ours { block, rows, .. } = &self.ours;
        [
            round(|| assert_eq!(ours(black_box(block), black_box(rows)), 0)),
            round(|| assert!(theirs(black_box(&self.theirs)))),
        ]
    }

    pub fn last_sequence(&self) -> [f64; 2] {
        let mut out = [0];
        self.time(
            |state, rows| reads::last_sequence(state, rows, &mut out),
            |book| black_box(&book.last_sequence()).is_ok(),
        )
    }

    pub fn best(&self) -> [f64; 2] {
        let mut out = [0; reads::BEST_WORDS];
        self.time(
            |state, rows| reads::best(state, rows, &mut out),
            |book| black_box(&book.best()).is_ok(),
        )
    }

    pub fn audit(&self) -> [f64; 2] {
        self.time(reads::audit, |book| book.audit().is_ok())
    }

    pub fn level_queue(&self) -> [f64; 2] {
        let (mut scratch, mut out, mut count) = (vec![0; 4_096], vec![0; 5 * 4_096], [0]);
        let (_, price) = self.own();
        let amount = convert::amount(price as i64);
        self.time(
            |state, rows| {
                let place = (BUY, price);
                reads::level_queue(state, rows, &mut scratch, place, &mut out, &mut count)
            },
            |book| black_box(&book.level_queue(L3Side::Buy, amount)).is_ok(),
        )
    }

    /// A read of the bids' levels.
    fn levels(&self, ours: LevelRead, theirs: impl Fn(&BookReconstructor) -> bool) -> [f64; 2] {
        let (mut scratch, mut out, mut count) = (vec![0; 4_096], vec![0; 3 * 4_096], [0]);
        self.time(
            |state, rows| ours(state, rows, &mut scratch, BUY, &mut out, &mut count),
            theirs,
        )
    }

    pub fn priority_profile(&self) -> [f64; 2] {
        self.levels(reads::priority_profile, |book| {
            black_box(&book.priority_profile(L3Side::Buy)).is_ok()
        })
    }

    pub fn l2(&self) -> [f64; 2] {
        self.levels(reads::l2, |book| black_box(&book.l2(L3Side::Buy)).is_ok())
    }

    pub fn stale_l2(&self) -> [f64; 2] {
        self.levels(reads::stale_l2, |book| {
            black_box(&book.stale_l2(L3Side::Buy)).is_some()
        })
    }

    pub fn queue_estimate(&self) -> [f64; 2] {
        let (mut list, mut words) = (vec![0; 3 * 4_096], [0; reads::ESTIMATE_WORDS]);
        let (_, price) = self.own();
        let amount = convert::amount(price as i64);
        self.time(
            |state, rows| reads::queue_estimate(state, rows, (BUY, price), &mut list, &mut words),
            |book| black_box(&book.queue_estimate(L3Side::Buy, amount)).is_ok(),
        )
    }

    pub fn queue_estimate_own(&self) -> [f64; 2] {
        let mut words = [0; reads::ESTIMATE_WORDS];
        let (own, _) = self.own();
        let text = convert::id_text(own);
        self.time(
            |state, rows| reads::queue_estimate_own(state, rows, own, &mut words),
            |book| black_box(&book.queue_estimate_own(&text)).is_ok(),
        )
    }

    /// Of an order behind all others at the own order's price.
    pub fn volume_ahead(&self) -> [f64; 2] {
        let Ours { block, rows, .. } = &self.ours;
        let (mut words, mut list) = ([0; reads::ESTIMATE_WORDS], vec![0; 3 * 4_096]);
        let (_, price) = self.own();
        let answer = reads::queue_estimate(block, rows, (BUY, price), &mut list, &mut words);
        assert_eq!(answer, 0);
        list.truncate(3 * words[5] as usize);
        let amount = convert::amount(price as i64);
        let theirs = self.theirs.queue_estimate(L3Side::Buy, amount);
        self.ahead(&Estimates {
            words,
            list,
            theirs: theirs.expect("the book is valid"),
        })
    }

    /// Of the own order.
    pub fn volume_ahead_own(&self) -> [f64; 2] {
        let Ours { block, rows, .. } = &self.ours;
        let mut words = [0; reads::ESTIMATE_WORDS];
        let (own, _) = self.own();
        assert_eq!(reads::queue_estimate_own(block, rows, own, &mut words), 0);
        let theirs = self.theirs.queue_estimate_own(&convert::id_text(own));
        self.ahead(&Estimates {
            words,
            list: Vec::new(),
            theirs: theirs.expect("the order rests"),
        })
    }

    fn ahead(&self, estimates: &Estimates) -> [f64; 2] {
        let Estimates {
            words,
            list,
            theirs,
        } = estimates;
        let mut out = [0; reads::AHEAD_WORDS];
        self.time(
            |state, rows| reads::volume_ahead(state, rows, words, list, &mut out),
            |book| black_box(&book.volume_ahead(theirs)).is_ok(),
        )
    }
}
