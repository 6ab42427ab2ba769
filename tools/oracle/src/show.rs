//! The port at work on a small example: 01's book E, read piece by piece, and the desk's figure on it: the volume ahead of an order, with its sequence number.

use crate::piece::{
    DoneReason, Event, Message, Product, Side, Snapshot, SnapshotOrder, encode_message,
    encode_snapshot,
};
use crate::port;

const PRODUCT: Product = *b"BTC-USD\0\0\0\0\0\0\0\0\0";
const A: u128 = 0xA;
const B: u128 = 0xB;
const C: u128 = 0xC;
const Z: u128 = 0xF;

fn hex(bytes: &[u8]) -> String {
    bytes.iter().map(|b| format!("{b:02x}")).collect()
}

fn message(sequence: u64, event: Event) -> Vec<u8> {
    encode_message(&Message {
        product: PRODUCT,
        sequence,
        time_us: 1_000 * sequence,
        event,
    })
}

/// A piece, and what the proved reader makes of it.
fn show(what: &str, piece: &[u8]) {
    println!("{what}\n  piece   {}", hex(piece));
    let mut words = [0; port::MESSAGE_WORDS];
    if piece.first() == Some(&0) {
        let number = port::read_snapshot(piece, &mut words);
        println!("  number  {number}");
        for place in 0..(words[3] + words[4]) as usize {
            let mut order = [0; port::ORDER_WORDS];
            port::snapshot_order(piece, place, &mut order);
            println!(
                "  order   {place}: id {:x}, price {}, size {}",
                order[1], order[2], order[3]
            );
        }
    } else {
        let number = port::read_message(piece, &mut words);
        println!("  number  {number}");
        if number == 0 {
            println!(
                "  words   kind {}, sequence {}, time {}, fields {:x?}",
                words[0],
                words[3],
                words[4],
                &words[5..]
            );
        }
    }
}

fn order(id: u128, price: i64, size: i64) -> SnapshotOrder {
    SnapshotOrder { id, price, size }
}

/// The most orders and levels of the board's book.
const ORDERS: usize = 3;

/// A book as a host keeps it: state words, rows for its orders, one segment record.
struct Board {
    state: [u64; port::BLOCK_WORDS],
    rows: [u64; ORDERS * 8],
    segments: [u64; 8],
}

impl Board {
    fn new() -> Board {
        let mut state = [0; port::BLOCK_WORDS];
        let (product, keeps_priority, number) = (u128::from_be_bytes(PRODUCT), 0, 1);
        let limits = (ORDERS as u64, ORDERS as u64);
        let made = port::new(&mut state, product, keeps_priority, limits, number);
        assert_eq!(made, 0, "a rule and words enough");
        let (rows, segments) = ([0; ORDERS * 8], [0; 8]);
        Board {
            state,
            rows,
            segments,
        }
    }

    fn take(&mut self, piece: &[u8]) -> u64 {
        let (state, rows, segments) = (&mut self.state, &mut self.rows, &mut self.segments);
        if piece[0] == 0 {
            return port::bootstrap(state, rows, segments, piece);
        }
        let mut words = [0; port::MESSAGE_WORDS];
        assert_eq!(port::read_message(piece, &mut words), 0);
        port::apply(state, rows, segments, &words)
    }

    /// The volume ahead of an own order.
    fn ahead(&self, id: u128) {
        let mut estimate = [0; port::reads::ESTIMATE_WORDS];
        let number = port::reads::queue_estimate_own(&self.state, &self.rows, id, &mut estimate);
        if number != 0 {
            println!("  ahead   no figure: {number}");
            return;
        }
        let mut out = [0; port::reads::AHEAD_WORDS];
        port::reads::volume_ahead(&self.state, &self.rows, &estimate, &[], &mut out);
        let [at, volume, snapshot, observed, orders, ..] = out;
        println!(
            "  ahead   {volume} ({snapshot} from the snapshot, {observed} observed, {orders} orders), read at {at}"
        );
    }
}

/// The desk's story: C waits behind A; the line re-sends a match, and the board shows no figure rather than a wrong one.
fn story(snapshot: &[u8], open: &[u8], matched: &[u8]) {
    let mut board = Board::new();
    for (what, piece) in [
        ("the book takes the snapshot", snapshot),
        ("and the open of our order C", open),
        ("and the match of A", matched),
        ("and the same match, sent again", matched),
    ] {
        let number = board.take(piece);
        println!("{what}: {number}");
        board.ahead(C);
    }
    println!("  reason  {}", board.state[9]);
}

pub fn run() {
    let snapshot = encode_snapshot(&Snapshot {
        product: PRODUCT,
        sequence: 100,
        bids: vec![order(A, 10, 2)],
        asks: vec![order(B, 12, 3)],
    });
    show(
        "snapshot at 100: buy A price 10 size 2, sell B price 12 size 3",
        &snapshot,
    );
    let open = Event::Open {
        order_id: C,
        side: Side::Buy,
        price: 10,
        remaining: 5,
    };
    let open = message(101, open);
    show("101: open C buy 10 size 5", &open);
    let matched = Event::Match {
        maker_id: A,
        taker_id: Z,
        side: Side::Buy,
        price: 10,
        size: 2,
    };
    let matched = message(102, matched);
    show("102: match A size 2, taker Z", &matched);
    let done = Event::Done {
        order_id: Z,
        side: Side::Sell,
        price: None,
        reason: DoneReason::Canceled,
        remaining: None,
    };
    show(
        "103: done canceled for Z, without price and size",
        &message(103, done),
    );
    let wide = Event::Open {
        order_id: Z,
        side: Side::Buy,
        price: 1_000_000_000_000_001,
        remaining: 5,
    };
    show(
        "an open whose price is one past the range: 5",
        &message(104, wide),
    );
    show(
        "the same piece, one byte short: 4",
        &message(104, wide)[..65],
    );
    story(&snapshot, &open, &matched);
}
