//! The day of `docs/02-change-requests.md`, paper 1, as a day file on standard output: `examples/day` at the repository's root.
//!
//! A gap ends the first segment, so that the board shows nothing until the snapshot at 200.

use std::error::Error;
use std::io::{self, Write};

use pinuglaw::Decimal;
use pinuglaw::daybook::DayFile;
use pinuglaw::l3::{L3Event, L3Message, L3Side, L3Snapshot, SnapshotOrder};

const PRODUCT: &str = "BTC-USD";
const A: &str = "aaaaaaaa-77a8-460a-b958-66f114b0de9b";
const B: &str = "bbbbbbbb-77a8-460a-b958-66f114b0de9b";
const C: &str = "cccccccc-77a8-460a-b958-66f114b0de9b";
const Z: &str = "ffffffff-77a8-460a-b958-66f114b0de9b";

fn whole(amount: i64) -> Decimal {
    Decimal::new(amount, 0)
}

fn snapshot(sequence: u64, bids: Vec<SnapshotOrder>) -> L3Snapshot {
    L3Snapshot {
        product_id: PRODUCT.to_string(),
        sequence,
        bids,
        asks: vec![],
    }
}

fn message(sequence: u64, time_us: u64, event: L3Event) -> L3Message {
    L3Message {
        product_id: PRODUCT.to_string(),
        sequence,
        time_us,
        event,
    }
}

fn received() -> L3Event {
    L3Event::Received {
        order_id: C.to_string(),
        side: L3Side::Buy,
    }
}

fn main() -> Result<(), Box<dyn Error>> {
    let a = SnapshotOrder {
        order_id: A.to_string(),
        price: whole(10),
        size: whole(2),
    };
    let open = L3Event::Open {
        order_id: B.to_string(),
        side: L3Side::Sell,
        price: whole(12),
        remaining: whole(3),
    };
    let matched = L3Event::Match {
        maker_id: A.to_string(),
        taker_id: Z.to_string(),
        side: L3Side::Buy,
        price: whole(10),
        size: whole(1),
    };
    let mut day = DayFile::new();
    day.snapshot(&snapshot(100, vec![a]))?
        .message(&message(101, 1_000, open))?
        .message(&message(102, 1_500, matched))?
        .message(&message(104, 1_700, received()))?
        .message(&message(105, 1_800, received()))?
        .snapshot(&snapshot(200, vec![]))?;
    io::stdout().write_all(&day.to_bytes()?)?;
    Ok(())
}
