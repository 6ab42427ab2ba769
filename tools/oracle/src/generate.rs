//! An endless, deterministic stream of calls.
//!
//! The generator runs the Rust on its own calls and keeps a mirror of each book from the answers, so that most calls go deep.

mod create;
mod damage;
pub(crate) mod events;
mod follow;
pub(crate) mod mirror;
pub mod random;
mod scripts;
pub(crate) mod snapshots;

use std::collections::VecDeque;

use crate::call::{Act, Answer, CEILING, Call, Lent, SegmentName, Subject};
use crate::piece::{AMOUNT_LIMIT, Event, Message, Snapshot, encode_message, encode_snapshot};
use crate::rust::Rust;
use events::{BOUNDS, REASONS};
use mirror::{Damage, Mirror, Standing};
use random::Random;
use snapshots::Flaw;

pub use damage::WAYS;

/// Ordinary books; two more slots hold a book filled to the brim by opens and one filled by a snapshot.
const BOOKS: u8 = 6;
const BUILT: u8 = 6;
const BIG: u8 = 7;
const HANDSHAKES: u64 = 8;
const ESTIMATES: u64 = 10;
/// The book filled by opens is begun once in so many calls, and is called in so many of a hundred meanwhile.
const BUILD_PERIOD: u64 = 250_000;
const BUILD_START: u64 = 5_000;
const BUILD_LIFE: u64 = 5_700;
const BUILD_SHARE: u64 = 25;
/// How many snapshots in a hundred come with a buffer.
const BUFFERED: u64 = 30;

/// Enough for every call, and for a forged list of one order too many.
const PLENTY: Lent = Lent {
    rows: u64::MAX,
    segments: u64::MAX,
    scratch: CEILING,
    output: 5 * CEILING,
    ahead: 3 * CEILING + 3,
};

const PRODUCTS: [&[u8; 16]; 3] = [
    b"BTC-USD\0\0\0\0\0\0\0\0\0",
    b"ETH-USD\0\0\0\0\0\0\0\0\0",
    b"sixteen-byte-id!",
];

/// A handshake slot as far as the generator cares. The runner may have no word on one stepped by a damaged book.
#[derive(Clone, Copy)]
struct Shaken {
    book: u8,
    segment: SegmentName,
    alive: bool,
    wordless: bool,
}

/// An estimate slot as far as the generator cares: its book, and the entries of its list.
#[derive(Clone, Copy)]
struct Estimated {
    book: u8,
    entries: u64,
}

pub struct Generator {
    random: Random,
    rust: Rust,
    books: Vec<Option<Mirror>>,
    handshakes: [Option<Shaken>; HANDSHAKES as usize],
    estimates: [Option<Estimated>; ESTIMATES as usize],
    /// Calls that belong together and go out first.
    queued: VecDeque<Call>,
    calls: u64,
    /// When the next book is to be filled by opens.
    next_build: u64,
    numbers: u64,
    /// How the latest damage was done, until it is asked for.
    way: Option<&'static str>,
}

impl Iterator for Generator {
    type Item = Call;

    fn next(&mut self) -> Option<Call> {
        Some(self.next_answered().0)
    }
}

impl Generator {
    pub fn new(seed: u64) -> Self {
        Self {
            random: Random::new(seed),
            rust: Rust::new(),
            books: vec![None; usize::from(BOOKS) + 2],
            handshakes: [None; HANDSHAKES as usize],
            estimates: [None; ESTIMATES as usize],
            queued: VecDeque::new(),
            calls: 0,
            next_build: BUILD_START,
            numbers: seed.wrapping_mul(1_000_003),
            way: None,
        }
    }

    /// The next call with the Rust's answer.
    pub fn next_answered(&mut self) -> (Call, Answer) {
        self.next_asked(Some).expect("every call is asked")
    }

    /// As [`Self::next_answered`], with the call that `ask` makes of the next one; where it makes none, nothing is called.
    pub fn next_asked(&mut self, ask: impl FnOnce(Call) -> Option<Call>) -> Option<(Call, Answer)> {
        let call = match self.queued.pop_front() {
            Some(call) => call,
            None => self.invent(),
        };
        self.calls += 1;
        let call = ask(call)?;
        let answer = self.rust.call(&call);
        self.follow(&call, &answer);
        Some((call, answer))
    }

    /// How the latest call began to damage its book, told once. The writes that follow and an audit come right after it.
    pub fn take_way(&mut self) -> Option<&'static str> {
        self.way.take()
    }

    fn invent(&mut self) -> Call {
        let building = self.books[usize::from(BUILT)].is_some();
        let slot = if building && self.random.chance(BUILD_SHARE) {
            BUILT
        } else if self.calls >= self.next_build {
            self.next_build += BUILD_PERIOD;
            return self.create(BUILT);
        } else if self.random.chance(3) {
            BIG
        } else {
            self.random.below(u64::from(BOOKS)) as u8
        };
        match &mut self.books[usize::from(slot)] {
            None => self.create(slot),
            Some(book) if book.life == 0 => self.retire(slot),
            Some(book) => {
                book.life -= 1;
                self.on_book(slot)
            }
        }
    }

    /// A book at its life's end is created anew; the built one is left alone.
    fn retire(&mut self, slot: u8) -> Call {
        if slot == BUILT {
            self.books[usize::from(slot)] = None;
            return self.invent();
        }
        self.create(slot)
    }

    fn on_book(&mut self, slot: u8) -> Call {
        let Some(mut book) = self.books[usize::from(slot)].take() else {
            return self.create(slot);
        };
        // Apply, bootstrap, handshake or step, read, damage, forge, reader, script.
        let weights = match (book.standing, slot) {
            (Standing::Valid, BUILT) => [94, 0, 0, 5, 0, 0, 1, 0],
            (Standing::Valid, BIG) => [50, 3, 6, 31, 0, 4, 2, 4],
            (Standing::NoSnapshot, _) => [8, 60, 8, 15, 3, 4, 2, 0],
            (Standing::Valid, _) => [62, 2, 8, 19, 1, 3, 2, 3],
            (Standing::Invalid, _) => [12, 44, 11, 25, 1, 4, 3, 0],
        };
        let act = match self.random.weighted(&weights) {
            0 => {
                let message = self.message(&book);
                let piece = match book.filling() {
                    true => encode_message(&message),
                    false => self.message_piece(&message),
                };
                Act::Apply { piece }
            }
            1 => self.bootstrap(&book),
            2 => self.handshake(&book, slot),
            3 => self.read(&book, slot),
            4 if slot < BUILT => self.damage(&mut book, slot),
            5 => self.forge(&book, slot),
            7 => self.script(&book, slot),
            _ => self.reader(&book),
        };
        let call = self.lend(&book, slot, act);
        self.books[usize::from(slot)] = Some(book);
        call
    }

    /// The piece readers alone, on pieces and on damaged ones.
    fn reader(&mut self, book: &Mirror) -> Act {
        let message = self.message(book);
        let mut piece = self.message_piece(&message);
        if self.random.chance(40) {
            let flaw = self.random.flaw();
            piece = encode_snapshot(&self.random.snapshot(book, flaw));
            if piece.len() > 2_000 {
                piece.truncate(41 + 32);
            }
        }
        if self.random.chance(40) {
            self.random.spoil_piece(&mut piece);
        }
        if self.random.chance(50) {
            Act::ReadMessage { piece }
        } else {
            Act::ReadSnapshot { piece }
        }
    }

    fn message_piece(&mut self, message: &Message) -> Vec<u8> {
        let mut piece = encode_message(message);
        if self.random.chance(1) {
            self.random.spoil_piece(&mut piece);
        }
        piece
    }

    /// A message for the book: mostly one that should be accepted.
    fn message(&mut self, book: &Mirror) -> Message {
        let random = &mut self.random;
        let next = book.last.wrapping_add(1);
        let brim = book.orders.len() as u64 == CEILING && random.chance(5);
        let mut message = Message {
            product: book.product,
            sequence: next,
            time_us: random.time(),
            event: random.good_event(book),
        };
        if book.standing != Standing::Valid {
            message.sequence = random.pick(&[next, book.last, book.start, 0]);
            return message;
        }
        if book.filling() {
            return message;
        }
        match random.weighted(&[910, 8, 37, 10, 25, 10]) {
            _ if brim => message.event = random.bad_event(book, 43).unwrap_or(message.event),
            0 => {}
            1 => message.product = random.other_product(&book.product),
            2 => message.event = at_a_bound(random, book),
            3 => {
                let word = random.word();
                message.sequence = random.pick(&[
                    book.last,
                    book.last.wrapping_sub(1),
                    next.wrapping_add(1),
                    0,
                    u64::MAX,
                    word,
                ]);
            }
            4 => {
                let at_a_limit = book.full() || book.all_levels() >= book.rules.max_levels;
                let reason = match at_a_limit && random.chance(40) {
                    true => 43,
                    false => random.pick(&REASONS),
                };
                message.event = random.bad_event(book, reason).unwrap_or(message.event);
            }
            _ => message.event = random.wild_event(book),
        }
        message
    }

    fn bootstrap(&mut self, book: &Mirror) -> Act {
        let flaw = if self.random.chance(18) {
            self.random.flaw()
        } else {
            Flaw::None
        };
        let snapshot = self.random.snapshot(book, flaw);
        let mut piece = encode_snapshot(&snapshot);
        if self.random.chance(3) {
            self.random.spoil_piece(&mut piece);
        }
        if self.random.chance(1) {
            let message = self.message(book);
            piece = encode_message(&message);
        }
        if book.filling() || !self.random.chance(BUFFERED) {
            return Act::Bootstrap { piece };
        }
        Act::BootstrapWithBuffer {
            slot: self.random.below(HANDSHAKES) as u8,
            piece,
            buffer: self.buffer(book, &snapshot),
        }
    }

    /// Messages buffered for a snapshot: those that it has already, and those after it, mostly in order.
    fn buffer(&mut self, book: &Mirror, snapshot: &Snapshot) -> Vec<Vec<u8>> {
        let mut after = book.clone();
        after.replace(snapshot);
        let length = match self.random.below(10) {
            0 => 0,
            1..=6 => self.random.below(10),
            _ => self.random.below(40),
        };
        let mut buffer = Vec::new();
        for _ in 0..length {
            let mut message = self.message(&after);
            if self.random.chance(25) {
                let back = self.random.below(3);
                message.sequence = after.start.saturating_sub(back);
            }
            if self.random.chance(5) {
                message.product = self.random.other_product(&book.product);
            }
            let next = message.sequence == after.last.wrapping_add(1);
            if next && message.product == book.product && message.event.amounts_in_range() {
                after.accept(&message);
            }
            buffer.push(self.message_piece(&message));
        }
        buffer
    }

    /// A handshake made, or a step of one: mostly of this segment's, at times of any.
    fn handshake(&mut self, book: &Mirror, slot: u8) -> Act {
        let any = self.random.below(HANDSHAKES) as u8;
        let current = |held: &Shaken| {
            held.book == slot && held.alive && held.segment == book.current_segment()
        };
        let own = (0..HANDSHAKES as u8)
            .find(|at| self.handshakes[usize::from(*at)].is_some_and(|held| current(&held)));
        let stepped = match own {
            Some(own) if self.random.chance(92) => own,
            None if self.random.chance(25) => return Act::Handshake { slot: any },
            _ => any,
        };
        // A handshake without a word would take the word from a sound book.
        let held = self.handshakes[usize::from(stepped)];
        if book.damage == Damage::None && held.is_some_and(|held| held.wordless) {
            return Act::Handshake { slot: stepped };
        }
        let mut message = self.message(book);
        if self.random.chance(35) {
            let back = self.random.below(3);
            message.sequence = book.start.saturating_sub(back);
        }
        if self.random.chance(5) {
            message.product = self.random.other_product(&book.product);
        }
        let piece = self.message_piece(&message);
        Act::Step {
            slot: stepped,
            piece,
        }
    }

    fn read(&mut self, book: &Mirror, slot: u8) -> Act {
        let random = &mut self.random;
        let order = random.order(book);
        let price = match order {
            Some(order) if random.chance(85) => order.price,
            _ => random.pick(&[book.middle, 0, -1, AMOUNT_LIMIT, i64::MAX, i64::MIN]),
        };
        let side = match order {
            Some(order) if random.chance(90) => order.side,
            _ => random.side(),
        };
        let estimate = random.below(ESTIMATES) as u8;
        match random.weighted(&[14, 10, 12, 8, 4, 3, 5, 12, 10, 18, 2, 2]) {
            0 => Act::LevelQueue { side, price },
            1 => Act::PriorityProfile { side },
            2 => Act::StaleL2 { side },
            3 => Act::L2 { side },
            4 => Act::Best,
            5 => Act::LastSequence,
            6 => Act::Audit,
            7 => Act::QueueEstimate {
                slot: estimate,
                side,
                price,
            },
            8 => {
                let observed: Vec<_> = book.orders.iter().filter(|o| o.observed).collect();
                let order_id = match (observed.is_empty(), order) {
                    (false, _) if random.chance(75) => random.pick(&observed).id,
                    (_, Some(order)) if random.chance(70) => order.id,
                    _ => random.absent_id(book),
                };
                Act::QueueEstimateOwn {
                    slot: estimate,
                    order_id,
                }
            }
            9 => self.volume_ahead(slot, estimate),
            10 => Act::Manifest,
            _ => Act::Invalidation,
        }
    }

    /// An estimate of the book itself if there is one, at times any other.
    fn volume_ahead(&mut self, slot: u8, any: u8) -> Act {
        let own: Vec<u8> = (0..ESTIMATES as u8)
            .filter(|e| self.estimates[usize::from(*e)].is_some_and(|held| held.book == slot))
            .collect();
        let slot = if own.is_empty() || self.random.chance(12) {
            any
        } else {
            self.random.pick(&own)
        };
        Act::VolumeAhead { slot }
    }

    /// Damages the book: the further writes of the same damage and an audit follow, then a few calls more.
    fn damage(&mut self, book: &mut Mirror, slot: u8) -> Act {
        let (way, mut acts, outcome) = damage::any_damage(&mut self.random, book);
        self.way = Some(way);
        let first = acts.remove(0);
        for act in acts {
            let call = self.lend(book, slot, act);
            self.queued.push_back(call);
        }
        // Lent all it may want, so that number 3 has the word.
        self.queued.push_back(Call {
            book: slot,
            lent: PLENTY,
            act: Act::Audit,
        });
        if outcome != Damage::None {
            book.damage = outcome;
            book.life = book.life.min(2 + self.random.below(14));
        }
        first
    }

    /// The first act of a script; the others are queued.
    fn script(&mut self, book: &Mirror, slot: u8) -> Act {
        let estimate = self.random.below(ESTIMATES) as u8;
        let Some(mut acts) = self.random.script(book, estimate) else {
            return Act::Audit;
        };
        let first = acts.remove(0);
        for act in acts {
            let call = Call {
                book: slot,
                lent: PLENTY,
                act,
            };
            self.queued.push_back(call);
        }
        first
    }

    /// Forges a value; most are used at once.
    fn forge(&mut self, book: &Mirror, own: u8) -> Act {
        let slot = self.random.below(ESTIMATES) as u8;
        match self.random.below(5) {
            0 | 1 => {
                let slot = self.random.below(HANDSHAKES) as u8;
                if self.random.chance(60) {
                    let message = self.message(book);
                    let piece = encode_message(&message);
                    let call = self.lend(book, own, Act::Step { slot, piece });
                    self.queued.push_back(call);
                }
                Act::ForgeHandshake {
                    slot,
                    handshake: self.random.forged_handshake(book),
                }
            }
            2 | 3 => {
                let (estimate, list) = self.random.forged_estimate(book);
                if self.random.chance(60) {
                    self.queued.push_back(Call {
                        book: own,
                        lent: PLENTY,
                        act: Act::VolumeAhead { slot },
                    });
                }
                Act::ForgeEstimate {
                    slot,
                    estimate,
                    list,
                }
            }
            _ => {
                let entries = self.estimates[usize::from(slot)].map_or(0, |held| held.entries);
                Act::SetAhead {
                    slot,
                    index: self.random.below(3 * entries + 2),
                    word: self.random.word(),
                }
            }
        }
    }

    /// Adds the lent lengths that suit the act: mostly enough, now and then one short.
    fn lend(&mut self, book: &Mirror, slot: u8, act: Act) -> Call {
        let (output, ahead) = match &act {
            Act::LevelQueue { side, price } => (5 * book.at_level(*side, *price), 0),
            Act::PriorityProfile { side } => (3 * book.levels(*side), 0),
            Act::StaleL2 { side } | Act::L2 { side } => (2 * book.levels(*side), 0),
            Act::QueueEstimate { side, price, .. } => (0, 3 * book.at_level(*side, *price)),
            Act::VolumeAhead { slot } => {
                let held = self.estimates.get(usize::from(*slot)).copied().flatten();
                (0, 3 * held.map_or(0, |held| held.entries.min(CEILING + 1)))
            }
            _ => (0, 0),
        };
        let more = u64::from(matches!(act, Act::Bootstrap { .. }));
        let lent = self.lent(book, more, output, ahead);
        Call {
            book: slot,
            lent,
            act,
        }
    }

    fn lent(&mut self, book: &Mirror, more_segments: u64, output: u64, ahead: u64) -> Lent {
        let orders = book.rules.max_orders.min(CEILING);
        let random = &mut self.random;
        Lent {
            rows: random.length(8 * orders, 1, book.row_words),
            segments: random.length(book.segments + more_segments, 2, book.segment_records),
            scratch: random.length(orders, 2, orders),
            output: random.length(output, 12, output + 10),
            ahead: random.length(ahead, 10, ahead + 10),
        }
    }
}

/// An event with one amount at a bound or, more often, one past it: that is refused and costs the book nothing.
pub(crate) fn at_a_bound(random: &mut Random, book: &Mirror) -> Event {
    let mut event = random.wild_event(book);
    let mut amounts = events::amounts(&mut event);
    let at = random.below(amounts.len() as u64) as usize;
    *amounts[at] = if random.chance(75) {
        random.pick(&BOUNDS[5..])
    } else {
        random.pick(&BOUNDS[..5])
    };
    event
}

impl Random {
    /// One byte changed, one missing or one too many.
    pub(crate) fn spoil_piece(&mut self, piece: &mut Vec<u8>) {
        match self.below(5) {
            0 => drop(piece.pop()),
            1 => piece.push(0),
            2 => {
                // A snapshot's time; the presence byte of a done or a change, or the amount after it.
                let at = match piece.first() {
                    Some(0) => 25,
                    Some(3) => 59,
                    Some(5) => 51,
                    _ => 49,
                };
                let at = at + self.pick(&[0, 0, 0, 1, 5]);
                if at < piece.len() {
                    piece[at] ^= self.pick(&[1, 2, 4, 8, 0x10, 0x20, 0x40, 0x80]);
                }
            }
            3 if !piece.is_empty() => {
                let at = self.below(piece.len().min(110) as u64) as usize;
                piece[at] ^= self.pick(&[1, 2, 0x80, 0xFF]);
            }
            _ => {
                let length = self.below(piece.len() as u64 + 1) as usize;
                piece.truncate(length);
            }
        }
    }

    /// A message's time: often 0 or earlier than the last.
    fn time(&mut self) -> u64 {
        match self.below(6) {
            0 => 0,
            1 => self.word(),
            2 => u64::MAX,
            _ => self.below(1_000_000),
        }
    }

    /// A lent length: one short in about `short` of a hundred, else exactly enough, one more, all there is, or more than that.
    fn length(&mut self, enough: u64, short: u64, all: u64) -> u64 {
        if self.chance(short) {
            return match self.below(4) {
                0 => 0,
                1 => self.below(enough + 1),
                _ => enough.saturating_sub(1),
            };
        }
        match self.below(5) {
            0 | 1 => enough,
            2 => enough + 1,
            3 => all.max(enough),
            _ => self.pick(&[enough + 50, 40_000, u64::MAX]).max(enough),
        }
    }
}
