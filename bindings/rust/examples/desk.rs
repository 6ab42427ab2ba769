//! The desk's story: how much volume rests ahead of our order, each figure with the sequence number it was read at. Once the line sends part of its buffer
//! again, the board shows no figure rather than a wrong one, until the next snapshot.

use std::error::Error;

use pinuglaw::Decimal;
use pinuglaw::l3::{
    BookReconstructor, L3Event, L3Message, L3Side, L3Snapshot, QueueEstimate, SnapshotOrder,
    VenueRules,
};

const PRODUCT: &str = "BTC-USD";
const A: &str = "aaaaaaaa-77a8-460a-b958-66f114b0de9b";
const B: &str = "bbbbbbbb-4de9-4b0b-9f3e-0c1a5f6d7e8f";
/// Our own order.
const C: &str = "cccccccc-1a2b-4c3d-8e4f-5a6b7c8d9e0f";
const TAKER: &str = "ffffffff-0000-4000-8000-000000000001";

fn order(id: &str, price: Decimal, size: Decimal) -> SnapshotOrder {
    SnapshotOrder {
        order_id: id.to_string(),
        price,
        size,
    }
}

fn snapshot(sequence: u64, bids: Vec<SnapshotOrder>) -> L3Snapshot {
    L3Snapshot {
        product_id: PRODUCT.to_string(),
        sequence,
        bids,
        asks: vec![order(B, price(12), size(3_00))],
    }
}

fn message(sequence: u64, event: L3Event) -> L3Message {
    L3Message {
        product_id: PRODUCT.to_string(),
        sequence,
        time_us: 1_000 * sequence,
        event,
    }
}

fn price(whole: i64) -> Decimal {
    Decimal::new(whole, 0)
}

fn size(hundredths: i64) -> Decimal {
    Decimal::new(hundredths, 2)
}

fn received(sequence: u64) -> L3Message {
    let event = L3Event::Received {
        order_id: TAKER.to_string(),
        side: L3Side::Sell,
    };
    message(sequence, event)
}

fn our_open(sequence: u64) -> L3Message {
    let event = L3Event::Open {
        order_id: C.to_string(),
        side: L3Side::Buy,
        price: price(10),
        remaining: size(5_00),
    };
    message(sequence, event)
}

fn match_of_a(sequence: u64) -> L3Message {
    let event = L3Event::Match {
        maker_id: A.to_string(),
        taker_id: TAKER.to_string(),
        side: L3Side::Buy,
        price: price(10),
        size: size(50),
    };
    message(sequence, event)
}

/// What the board shows for an estimate.
fn board(book: &BookReconstructor, estimate: &QueueEstimate) {
    match book.volume_ahead(estimate) {
        Ok(ahead) => println!(
            "  board: {} ahead ({} from the snapshot, {} observed, {} orders), read at {}",
            ahead.volume.normalize(),
            ahead.from_snapshot.normalize(),
            ahead.observed.normalize(),
            ahead.orders,
            ahead.at_seq
        ),
        Err(why) => println!("  board: no figure: {why}"),
    }
}

/// Takes a snapshot with the buffer that the line sent meanwhile.
fn handshake(
    book: &mut BookReconstructor,
    snapshot: &L3Snapshot,
    buffer: &[L3Message],
) -> Result<(), Box<dyn Error>> {
    let dropped = book.manifest().counts.handshake_dropped;
    let applied = book.bootstrap_with_buffer(snapshot, buffer)?;
    let dropped = book.manifest().counts.handshake_dropped - dropped;
    let at = snapshot.sequence;
    println!("snapshot at {at}: of the buffer {dropped} dropped, {applied} applied");
    Ok(())
}

fn main() -> Result<(), Box<dyn Error>> {
    let mut book = BookReconstructor::new(PRODUCT, VenueRules::default());
    let first = snapshot(100, vec![order(A, price(10), size(2_00))]);
    let buffer = [received(99), received(100), our_open(101)];
    handshake(&mut book, &first, &buffer)?;
    let ours = book.queue_estimate_own(C)?;
    board(&book, &ours);

    println!("102, a match of A: {:?}", book.apply(&match_of_a(102))?);
    board(&book, &ours);

    // A tally would take the same match off twice.
    let again = book.apply(&match_of_a(102));
    println!("102, sent again: {}", again.expect_err("a repeat"));
    board(&book, &ours);
    let stale = book.stale_l2(L3Side::Buy).unwrap_or_default();
    for (price, total) in stale {
        println!("  stale: {} at {}", total.normalize(), price.normalize());
    }

    let left = order(A, price(10), size(1_50));
    let second = snapshot(103, vec![left, order(C, price(10), size(5_00))]);
    let buffer = [match_of_a(102), received(103), match_of_a(104)];
    handshake(&mut book, &second, &buffer)?;
    board(&book, &ours);
    println!("an order that would join at 10 now:");
    board(&book, &book.queue_estimate(L3Side::Buy, price(10))?);
    for segment in &book.manifest().segments {
        let (start, last) = (segment.start_seq, segment.last_good_seq);
        println!("segment {start} to {last}: {:?}", segment.end);
    }
    Ok(())
}
