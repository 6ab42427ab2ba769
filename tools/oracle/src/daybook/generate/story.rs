//! The pieces of a day: mostly snapshots and messages that a book accepts, as a mirror of it knows them.

use crate::call::{Rules, SizeDecrease};
use crate::daybook::LONGEST;
use crate::daybook::layout::{COUNT, PAIR};
use crate::daybook::replay::{LEVELS, ORDERS, Replay, SEGMENTS};
use crate::generate::at_a_bound;
use crate::generate::events::REASONS;
use crate::generate::mirror::{Damage, Mirror, Standing};
use crate::generate::random::Random;
use crate::generate::snapshots::Flaw;
use crate::piece::{
    AMOUNT_LIMIT, Event, Message, Product, Snapshot, SnapshotOrder, decode_message,
    decode_snapshot, encode_message, encode_snapshot,
};

/// The longest piece of a message, with its pair.
const MESSAGE: usize = PAIR + 100;

pub struct Story<'a> {
    random: &'a mut Random,
    replay: Replay,
    book: Mirror,
    /// The time of the latest message.
    clock: u64,
    steady: bool,
    /// How many messages and snapshots in a hundred have something amiss.
    rough: u64,
    pieces: Vec<Vec<u8>>,
    /// The file's length so far, without gaps.
    bytes: usize,
}

/// What kind of day it is.
#[derive(Clone, Copy, PartialEq, Eq)]
enum Plan {
    Few,
    Segments,
    Brim,
    Full,
    Crowd,
}

fn plan(random: &mut Random) -> Plan {
    match random.weighted(&[880, 55, 35, 20, 10]) {
        0 => Plan::Few,
        1 => Plan::Segments,
        2 => Plan::Brim,
        3 => Plan::Full,
        _ => Plan::Crowd,
    }
}

fn product(random: &mut Random) -> Product {
    let word = random.word().to_le_bytes();
    let mut any = [0; 16];
    any[..8].copy_from_slice(&word);
    let known = b"BTC-USD\0\0\0\0\0\0\0\0\0";
    random.pick(&[*known, *known, [0; 16], *b"sixteen-byte-id!", any])
}

fn book(random: &mut Random, plan: Plan) -> Mirror {
    let (target, width) = match plan {
        Plan::Brim => (ORDERS as u64 + 90, random.pick(&[1, 20, 5_000])),
        Plan::Segments => (random.below(3), random.pick(&[1, 3, 12])),
        Plan::Full if random.chance(10) => (400, 40),
        _ => {
            let target = random.pick(&[2, 4, 8, 15, 40]);
            (1 + random.below(target), random.pick(&[1, 2, 3, 6, 12, 40]))
        }
    };
    let any = random.pick(&[2, 30, 1_000_000, AMOUNT_LIMIT - 3, AMOUNT_LIMIT]);
    Mirror {
        product: product(random),
        rules: Rules {
            size_decrease: SizeDecrease::KeepsPriority,
            max_orders: ORDERS as u64,
            max_levels: LEVELS as u64,
        },
        number: 0,
        row_words: 8 * ORDERS as u64,
        segment_records: SEGMENTS as u64,
        orders: Vec::new(),
        gone: Vec::new(),
        last: 0,
        start: 0,
        segments: 0,
        standing: Standing::NoSnapshot,
        damage: Damage::None,
        life: 0,
        middle: if target > 100 { 1_000_000 } else { any },
        width,
        buys: 50,
        target,
    }
}

impl<'a> Story<'a> {
    /// The pieces of a day.
    pub fn tell(random: &'a mut Random) -> Vec<Vec<u8>> {
        let plan = plan(random);
        let book = book(random, plan);
        let mut story = Story {
            replay: Replay::new(&book.product),
            book,
            clock: random.pick(&[0, 1_000, 1_700_000_000_000_000]),
            steady: random.chance(40),
            rough: match plan {
                Plan::Few => random.pick(&[0, 4, 10, 25]),
                Plan::Full => random.pick(&[0, 1, 2, 12]),
                _ => random.pick(&[0, 3, 10]),
            },
            pieces: Vec::new(),
            bytes: COUNT,
            random,
        };
        match plan {
            Plan::Few => story.few(),
            Plan::Segments => story.segments(),
            Plan::Brim => story.brim(),
            Plan::Full => while story.has_room() && story.next() {},
            Plan::Crowd => story.crowd(),
        }
        story.put_amiss();
        story.pieces
    }

    /// Whether any message still fits.
    fn has_room(&self) -> bool {
        self.bytes + MESSAGE <= LONGEST
    }

    /// Adds a piece if it fits. The mirror follows what the replay says of it, though the replay of the file may have stopped before.
    fn push(&mut self, piece: Vec<u8>) -> bool {
        let bytes = self.bytes + PAIR + piece.len();
        if bytes > LONGEST {
            return false;
        }
        let number = self.replay.take(&piece);
        match (piece.first(), number) {
            (Some(0), 0) => {
                let snapshot = decode_snapshot(&piece).expect("it was accepted");
                self.book.replace(&snapshot);
            }
            (_, 0) => {
                let message = decode_message(&piece).expect("it was accepted");
                self.book.accept(&message);
            }
            (_, 16) => self.book.standing = Standing::Invalid,
            _ => {}
        }
        self.bytes = bytes;
        self.pieces.push(piece);
        true
    }

    /// A snapshot or a message, as the book's standing suggests.
    fn next(&mut self) -> bool {
        let snapshots = match self.book.standing {
            Standing::NoSnapshot => 75,
            Standing::Valid => 4,
            Standing::Invalid => 45,
        };
        let piece = match self.random.chance(snapshots) {
            true => encode_snapshot(&self.snapshot()),
            false => encode_message(&self.message()),
        };
        self.push(piece)
    }

    fn few(&mut self) {
        let most = self.random.pick(&[3, 15, 15, 40]);
        let pieces = match self.random.chance(3) {
            true => 0,
            false => 1 + self.random.below(most),
        };
        for _ in 0..pieces {
            self.next();
        }
    }

    /// As many segments as a list has records, or nearly, then a few pieces more.
    fn segments(&mut self) {
        let wanted = SEGMENTS as u64 - self.random.pick(&[0, 0, 0, 0, 0, 1, 2, 20]);
        let messages = self.random.below(60);
        while self.book.segments < wanted && self.has_room() {
            let piece = match self.random.chance(messages) {
                true => encode_message(&self.message()),
                false => encode_snapshot(&self.snapshot()),
            };
            self.push(piece);
        }
        // Later snapshots are mostly such as would be refused anyway.
        self.rough = 60;
        for _ in 0..self.random.below(10) {
            let piece = match self.random.below(10) {
                0 | 1 => self.amiss(),
                2..=4 => encode_snapshot(&self.snapshot()),
                _ => encode_message(&self.message()),
            };
            self.push(piece);
        }
    }

    /// A book at or near the most orders it may hold, and snapshots beyond.
    fn brim(&mut self) {
        let any = self.random.below(1_500) as usize;
        let orders = self.random.pick(&[
            ORDERS - 30,
            ORDERS - 5,
            ORDERS - 1,
            ORDERS,
            ORDERS,
            ORDERS,
            ORDERS + 1,
            ORDERS + 1,
            ORDERS + any,
            (LONGEST - COUNT - PAIR - 41) / 32,
        ]);
        if self.random.chance(40) {
            let first = encode_message(&self.message());
            self.push(first);
        }
        let snapshot = match self.random.chance(60) {
            true => self.ladder(orders),
            false => self.snapshot(),
        };
        self.push(encode_snapshot(&snapshot));
        for _ in 0..self.random.below(40) {
            self.next();
        }
        if self.random.chance(20) {
            let above = encode_snapshot(&self.ladder(ORDERS + 1));
            self.push(above);
        }
    }

    /// So many orders, each at a price of its own; those above the limit at times with another fault.
    fn ladder(&mut self, orders: usize) -> Snapshot {
        let order = |place: usize| SnapshotOrder {
            id: 1 + place as u128,
            price: 999_000 + place as i64,
            size: 5,
        };
        let bids = self.random.pick(&[0, orders / 2, orders]);
        let mut snapshot = Snapshot {
            product: self.book.product,
            sequence: self.random.below(1 << 40),
            bids: (0..bids).map(order).collect(),
            asks: (bids..orders).map(order).collect(),
        };
        let place = self.random.below(orders as u64) as usize;
        let all = snapshot.bids.iter_mut().chain(&mut snapshot.asks);
        let any = all.skip(place).step_by(orders);
        match self.random.below(10) {
            0 | 1 => snapshot.product = self.random.other_product(&self.book.product),
            2 => any.for_each(|order| order.id = 1),
            3 => any.for_each(|order| order.size = 0),
            4 => any.for_each(|order| order.price = AMOUNT_LIMIT + 1),
            5 => std::mem::swap(&mut snapshot.bids, &mut snapshot.asks),
            _ => {}
        }
        snapshot
    }

    /// As many small pieces as a file holds: messages of no kind that is supported, or received ones.
    fn crowd(&mut self) {
        let sequence = self.random.below(1_000);
        let (supported, other) = (self.random.chance(30), self.random.chance(30));
        if self.random.chance(80) {
            let product = self.book.product;
            self.push(encode_snapshot(&Snapshot {
                product,
                sequence,
                bids: vec![],
                asks: vec![],
            }));
        }
        let other = match other {
            true => self.random.other_product(&self.book.product),
            false => self.book.product,
        };
        for at in 1.. {
            let event = match supported {
                true => self.received(),
                false => Event::Unsupported { kind: at as u32 },
            };
            let message = Message {
                product: other,
                sequence: sequence + at,
                time_us: self.time(),
                event,
            };
            if !self.push(encode_message(&message)) {
                break;
            }
        }
        if self.random.chance(40) {
            // In the place of the last three.
            let piece = self.amiss();
            self.pieces.truncate(self.pieces.len() - 3);
            self.bytes = COUNT + self.pieces.iter().map(|p| PAIR + p.len()).sum::<usize>();
            self.push(piece);
        }
    }

    fn received(&mut self) -> Event {
        Event::Received {
            order_id: u128::from(self.random.word()),
            side: self.random.side(),
        }
    }

    /// A flaw that suits the book: too many orders are for large ones, and amounts out of range, which stop the day, come seldom.
    fn flaw(&mut self) -> Flaw {
        if !self.random.chance(self.rough) {
            return Flaw::None;
        }
        match self.random.flaw() {
            Flaw::Orders if self.book.target < ORDERS as u64 && !self.random.chance(5) => {
                Flaw::Product
            }
            Flaw::OutOfRange if self.random.chance(70) => Flaw::Crossed,
            flaw => flaw,
        }
    }

    fn snapshot(&mut self) -> Snapshot {
        let flaw = self.flaw();
        self.random.snapshot(&self.book, flaw)
    }

    /// A message's time: mostly later than the last, at times as early, earlier, or at either end.
    fn time(&mut self) -> u64 {
        let weights = match self.steady {
            true => [80, 20, 0, 0, 0, 0, 0],
            false => [40, 15, 15, 8, 8, 6, 8],
        };
        let (step, leap) = (self.random.below(3_000), self.random.below(1 << 40));
        self.clock = match self.random.weighted(&weights) {
            0 => self.clock.saturating_add(step),
            1 => self.clock,
            2 => self.clock.saturating_sub(step),
            3 => 0,
            4 => u64::MAX - step % 3,
            5 => self.random.word(),
            _ => self.clock.saturating_add(leap),
        };
        self.clock
    }

    /// A message for the book: mostly one that it accepts.
    fn message(&mut self) -> Message {
        let next = self.book.last.wrapping_add(1);
        let mut message = Message {
            product: self.book.product,
            sequence: next,
            time_us: self.time(),
            event: self.random.good_event(&self.book),
        };
        let (book, random) = (&self.book, &mut *self.random);
        if book.standing != Standing::Valid {
            message.sequence = random.pick(&[next, book.last, book.start, 0, u64::MAX]);
            if random.chance(self.rough) {
                message.product = random.other_product(&book.product);
            }
            return message;
        }
        if book.full() && random.chance(25) {
            message.event = random.bad_event(book, 43).unwrap_or(message.event);
        } else if random.chance(self.rough) {
            self.twist(&mut message);
        }
        message
    }

    /// Puts something amiss into a message.
    fn twist(&mut self, message: &mut Message) {
        let (book, random) = (&self.book, &mut *self.random);
        match random.weighted(&[20, 20, 45, 15]) {
            0 => message.product = random.other_product(&book.product),
            1 => {
                let (last, word) = (book.last, random.word());
                message.sequence = random.pick(&[
                    last,
                    last.wrapping_sub(1),
                    last.wrapping_add(2),
                    0,
                    u64::MAX,
                    word,
                ]);
            }
            2 => {
                let reason = random.pick(&REASONS);
                message.event = random.bad_event(book, reason).unwrap_or(message.event);
            }
            _ => message.event = random.wild_event(book),
        }
    }

    /// One piece in the place of another, or before it, that mostly stops the day; and first pieces that hardly are any.
    fn put_amiss(&mut self) {
        if self.random.chance(18) {
            let piece = self.amiss();
            let places = self.pieces.len() as u64;
            let place = match self.random.below(5) {
                0 => 0,
                1 => places,
                _ => self.random.below(places + 1),
            };
            self.put(place as usize, piece);
        }
        if self.random.chance(6) {
            let piece = self.first();
            self.put(0, piece);
        }
    }

    /// Puts a piece in the place of the one there, or before it, if the file has room for it.
    fn put(&mut self, place: usize, piece: Vec<u8>) {
        let replaces = place < self.pieces.len() && self.random.chance(50);
        let others = match replaces {
            true => self.bytes - self.pieces[place].len(),
            false => self.bytes + PAIR,
        };
        if others + piece.len() > LONGEST {
            return;
        }
        self.bytes = others + piece.len();
        if replaces {
            self.pieces[place] = piece;
        } else {
            self.pieces.insert(place, piece);
        }
    }

    fn amiss(&mut self) -> Vec<u8> {
        let mut message = self.message();
        let (book, random) = (&self.book, &mut *self.random);
        let mut piece = encode_message(&message);
        match random.below(8) {
            0 => piece.clear(),
            1 | 2 => random.spoil_piece(&mut piece),
            3 => {
                piece = encode_snapshot(&random.snapshot(book, Flaw::None));
                random.spoil_piece(&mut piece);
            }
            4 | 5 => {
                message.event = at_a_bound(random, book);
                piece = encode_message(&message);
            }
            6 => piece = encode_snapshot(&random.snapshot(book, Flaw::OutOfRange)),
            _ => piece[0] = random.pick(&[0, 1, 2, 3, 4, 5, 6, 7, 8, 0x80, 0xFF]),
        }
        piece
    }

    /// A first piece around the length that holds a product, or a piece of another product than all that follow.
    fn first(&mut self) -> Vec<u8> {
        if self.random.chance(30) {
            let mut message = self.message();
            message.product = self.random.other_product(&self.book.product);
            return encode_message(&message);
        }
        let length = self.random.pick(&[0, 1, 15, 16, 17, 17, 18, 33, 50]);
        let mut piece = vec![self.random.pick(&[0, 1, 6, 7, 0xFF])];
        piece.extend_from_slice(&self.book.product);
        piece.resize(length, 0);
        piece
    }
}
