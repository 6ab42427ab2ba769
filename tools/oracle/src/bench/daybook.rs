//! Nanoseconds a full day file: the port's `replay`, the Rust's driver on the same bytes (it reads the format and the pieces, applies and prints), and
//! the Rust's calls alone, handed the values that were made of the pieces.

use std::hint::black_box;

use super::mix::Mix;
use super::venue::{nanoseconds, ratio};
use super::{ROUNDS, round, round_on};
use crate::daybook::layout::{COUNT, PAIR, pack};
use crate::daybook::replay::{LEVELS, ORDERS, SEGMENTS};
use crate::daybook::{LONGEST, listing};
use crate::l3::message::{L3Message, L3Snapshot};
use crate::l3::reconstructor::{BookReconstructor, VenueRules};
use crate::piece::{
    Message, Product, decode_message, decode_snapshot, encode_message, encode_snapshot,
};
use crate::port;
use crate::rust::convert;

/// A piece as the Rust takes it.
enum Value {
    Snapshot(L3Snapshot),
    Message(L3Message),
}

/// A day, as a file and as values.
struct Day {
    name: String,
    messages: usize,
    file: Vec<u8>,
    product: Product,
    values: Vec<Value>,
}

fn value(piece: &[u8]) -> Value {
    match decode_snapshot(piece) {
        Ok(snapshot) => Value::Snapshot(convert::snapshot(&snapshot)),
        Err(_) => {
            let message = decode_message(piece).expect("a snapshot or a message");
            Value::Message(convert::message(&message))
        }
    }
}

impl Day {
    /// A full file of these pieces: bytes behind the last are no fault.
    fn new(name: String, product: Product, pieces: &[Vec<u8>]) -> Day {
        let mut file = pack(pieces);
        assert!(file.len() <= LONGEST, "{} bytes are no day", file.len());
        file.resize(LONGEST, 0);
        let values: Vec<Value> = pieces.iter().map(|piece| value(piece)).collect();
        let is_message = |value: &&Value| matches!(value, Value::Message(_));
        Day {
            name,
            messages: values.iter().filter(is_message).count(),
            file,
            product,
            values,
        }
    }

    /// One snapshot of so many orders, and as many messages as fit.
    fn of_one(orders: usize) -> Day {
        let Mix { snapshot, messages } = Mix::new(orders);
        let mut pieces = vec![encode_snapshot(&snapshot)];
        let mut bytes = COUNT + PAIR + pieces[0].len();
        for piece in messages.iter().map(encode_message) {
            bytes += PAIR + piece.len();
            if bytes > LONGEST {
                break;
            }
            pieces.push(piece);
        }
        Day::new(format!("{orders} orders"), snapshot.product, &pieces)
    }

    /// As many segments as a day may have, each of a small snapshot and a few messages.
    fn of_many(orders: usize, messages: usize) -> Day {
        let mix = Mix::new(orders);
        let run: &[Message] = &mix.messages[..messages];
        let run = run.iter().map(encode_message);
        let segment: Vec<Vec<u8>> = [encode_snapshot(&mix.snapshot)]
            .into_iter()
            .chain(run)
            .collect();
        let pieces = vec![segment; SEGMENTS].concat();
        let name = format!("{SEGMENTS} segments of {orders} orders");
        Day::new(name, mix.snapshot.product, &pieces)
    }

    fn all() -> [Day; 4] {
        [
            Day::of_one(ORDERS),
            Day::of_one(100),
            Day::of_one(10),
            Day::of_many(10, 6),
        ]
    }

    fn ours(&self) -> f64 {
        let (mut slice, wanted) = (vec![0; port::LISTING_BYTES], listing(&self.file));
        let length = wanted.len() as u64;
        let time = round(|| assert_eq!(port::replay(black_box(&self.file), &mut slice), length));
        assert_eq!(slice[..wanted.len()], wanted);
        time
    }

    fn theirs(&self) -> f64 {
        round(|| assert!(!black_box(listing(black_box(&self.file))).is_empty()))
    }

    /// The Rust's `bootstrap` and `apply` alone: nothing is read and nothing printed.
    fn calls_alone(&self) -> f64 {
        let rules = VenueRules {
            max_orders: ORDERS,
            max_levels: LEVELS,
            ..VenueRules::default()
        };
        let product = convert::product_text(&self.product);
        round_on(
            || BookReconstructor::new(product.clone(), rules),
            |book| {
                for value in &self.values {
                    assert!(match value {
                        Value::Snapshot(snapshot) => book.bootstrap(snapshot).is_ok(),
                        Value::Message(message) => book.apply(message).is_ok(),
                    });
                }
            },
        )
    }

    fn round(&self) -> [f64; 3] {
        [self.ours(), self.theirs(), self.calls_alone()]
    }
}

fn row(day: &Day, [ours, theirs, alone]: [f64; 3]) {
    println!(
        "|{}|{}|{}|{}|{}|{}|{}|",
        day.name,
        day.messages,
        nanoseconds(ours),
        nanoseconds(theirs),
        ratio([ours, theirs]),
        nanoseconds(alone),
        ratio([ours, alone])
    );
}

pub fn run() {
    // Once a block of this size was freed, the allocator keeps what dropped books give back: theirs pays for no new pages.
    drop(black_box(vec![0_u8; 16 << 20]));
    let days = Day::all();
    let mut best = [[f64::INFINITY; 3]; 4];
    for _ in 0..ROUNDS {
        for (best, day) in best.iter_mut().zip(&days) {
            let round = day.round();
            *best = std::array::from_fn(|at| best[at].min(round[at]));
        }
    }
    println!(
        "|a day file of 65,536 bytes|messages|ours, ns|the Rust's driver, ns|ratio|the Rust's calls alone, ns|ratio|"
    );
    println!("|-|-|-|-|-|-|-|");
    for (day, best) in days.iter().zip(best) {
        row(day, best);
    }
}
