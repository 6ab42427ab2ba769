//! The port's book and the Rust's, of the same product and rules.

use super::mix::Mix;
use crate::call::{ROW_WORDS, Rules, SizeDecrease};
use crate::generate::random::Random;
use crate::l3::message::L3Snapshot;
use crate::l3::reconstructor::BookReconstructor;
use crate::piece::{Event, Message, Snapshot, SnapshotOrder, encode_snapshot};
use crate::port;
use crate::reader::message_words;
use crate::rust::convert;

pub const PRODUCT: [u8; 16] = [0; 16];
pub const SIZE: i64 = 1_000_000_000;
/// The word of these rules' size_decrease.
const KEEPS_PRIORITY: u64 = 0;
pub const RULES: Rules = Rules {
    size_decrease: SizeDecrease::KeepsPriority,
    max_orders: 4_096,
    max_levels: 4_096,
};

/// The number of a message that ends its segment.
const INVALIDATED: u64 = 16;

/// The port's book as a host keeps it.
pub struct Ours {
    pub block: [u64; port::BLOCK_WORDS],
    pub rows: Vec<u64>,
    pub segments: Vec<u64>,
}

impl Ours {
    /// Without a snapshot.
    pub fn fresh() -> Ours {
        let mut block = [0; port::BLOCK_WORDS];
        let (product, limits) = (
            u128::from_be_bytes(PRODUCT),
            (RULES.max_orders, RULES.max_levels),
        );
        assert_eq!(port::new(&mut block, product, KEEPS_PRIORITY, limits, 0), 0);
        let (rows, segments) = (vec![0; 8 * 4_096], vec![0; 8 * 4]);
        Ours {
            block,
            rows,
            segments,
        }
    }

    /// With this one, which is sound.
    pub fn loaded(snapshot: &Snapshot) -> Ours {
        let mut book = Ours::fresh();
        assert_eq!(book.bootstrap(&encode_snapshot(snapshot)), 0);
        book
    }

    /// The one that a mix leaves.
    pub fn after(mix: &Mix) -> Ours {
        let mut book = Ours::loaded(&mix.snapshot);
        for message in &mix.messages {
            assert_ne!(book.apply(&message_words(message)), INVALIDATED);
        }
        book
    }

    /// The same, invalidated by a gap.
    pub fn invalidated(mut self) -> Ours {
        let answer = self.apply(&message_words(&Message {
            product: PRODUCT,
            sequence: u64::MAX,
            time_us: 0,
            event: Event::Unsupported { kind: 0 },
        }));
        assert_eq!(answer, INVALIDATED);
        self
    }

    /// The price of the last bid in order of arrival.
    pub fn last_bid(&self) -> u64 {
        let rows = self.rows.chunks_exact(ROW_WORDS as usize);
        let bid = rows.take(self.orders()).rev().find(|row| row[4] % 2 == 0);
        bid.expect("a bid rests")[2]
    }

    pub fn orders(&self) -> usize {
        self.block[port::STATE_ROWS] as usize
    }

    pub fn bootstrap(&mut self, piece: &[u8]) -> u64 {
        port::bootstrap(&mut self.block, &mut self.rows, &mut self.segments, piece)
    }

    pub fn apply_all(&mut self, messages: &[u64], answers: &mut [u64]) -> u64 {
        let Ours {
            block,
            rows,
            segments,
        } = self;
        port::apply_all(block, rows, segments, messages, answers)
    }

    pub fn apply(&mut self, message: &[u64]) -> u64 {
        port::apply(&mut self.block, &mut self.rows, &mut self.segments, message)
    }
}

/// The Rust's book, without a snapshot.
pub fn theirs() -> BookReconstructor {
    BookReconstructor::new(convert::product_text(&PRODUCT), convert::rules(&RULES))
}

/// The Rust's book, with this one, which is sound.
pub fn loaded(snapshot: &L3Snapshot) -> BookReconstructor {
    let mut book = theirs();
    book.bootstrap(snapshot).expect("the snapshot is sound");
    book
}

/// Bids and asks, half of the orders each (there is an even number of them), in random order under random ids, each at a price of its own:
/// bids at 1 and above, asks at 1,000,001 and above.
pub fn spread(orders: usize) -> Snapshot {
    let mut random = Random::new(7);
    let mut side = |base: i64| {
        let mut all: Vec<SnapshotOrder> = (0..orders / 2)
            .map(|place| SnapshotOrder {
                id: u128::from(random.word()) << 64 | u128::from(random.word()),
                price: base + place as i64,
                size: SIZE,
            })
            .collect();
        for left in (1..all.len()).rev() {
            all.swap(left, random.below(left as u64 + 1) as usize);
        }
        all
    };
    Snapshot {
        product: PRODUCT,
        sequence: 0,
        bids: side(1),
        asks: side(1_000_001),
    }
}
