//! 01, "`bootstrap`".

use std::collections::HashSet;

use super::book::{LentBook, Refusal};
use super::message::count;
use super::reader;
use super::rows::{self, ROW_WORDS, Row};
use super::slip::{Part, Planted, Slip, first};
use crate::call::{Segment, SegmentEnd, Status};
use crate::piece::{Side, Snapshot, SnapshotOrder};

/// "Takes a snapshot piece. Checks 1, 2, 3, 4, 5, 6, 10, 14 (orders), then each bid and then each ask in turn: 11, 12,
/// 14 (levels); last 13."
pub fn bootstrap(slip: Planted, book: &mut LentBook, piece: &[u8]) -> Result<(), Refusal> {
    let read = reader::snapshot(slip, piece);
    if slip.is(Slip::AmountsBeforeRows) {
        check_amounts(slip, read.as_ref().ok())?;
    }
    book.check_lent(slip)?;
    let snapshot = read?;
    check_amounts(slip, Some(&snapshot))?;
    let full = book.list.len() as u64 == book.state.segments && !slip.is(Slip::FullListTaken);
    let tests = [
        (6, full),
        (10, snapshot.product != book.state.product),
        (14, orders_above_limit(slip, book, &snapshot)),
    ];
    match first(slip, Part::Bootstrap, tests).and_then(|()| checked_line(slip, book, &snapshot)) {
        Ok(line) => accept(slip, book, snapshot.sequence, &line),
        Err(number) => {
            refuse(slip, book, number);
            return Err(number.into());
        }
    }
    Ok(())
}

/// 5 for a snapshot that could be read.
fn check_amounts(slip: Planted, snapshot: Option<&Snapshot>) -> Result<(), u8> {
    if snapshot.is_none_or(|snapshot| reader::snapshot_in_range(slip, snapshot)) {
        Ok(())
    } else {
        Err(5)
    }
}

/// 14, "snapshot above a limit", for orders
fn orders_above_limit(slip: Planted, book: &LentBook, snapshot: &Snapshot) -> bool {
    let orders = (snapshot.bids.len() + snapshot.asks.len()) as u64;
    orders > book.state.rules.max_orders + slip.is(Slip::SnapshotOrderLimitOneMore) as u64
}

/// "each bid and then each ask in turn: 11, 12, 14 (levels); last 13": the rows if no number is met, bids then asks,
/// "unknown priority with entered_at = the snapshot's sequence".
fn checked_line(slip: Planted, book: &LentBook, snapshot: &Snapshot) -> Result<Vec<Row>, u8> {
    let crossed = crosses(slip, snapshot);
    if crossed && slip.is(Slip::SnapshotCrossFirst) {
        return Err(13);
    }
    let bids = snapshot.bids.iter().map(|order| (Side::Buy, order));
    let asks = snapshot.asks.iter().map(|order| (Side::Sell, order));
    let (mut ids, mut levels) = (HashSet::new(), HashSet::<(Side, i64)>::new());
    let mut line = Vec::new();
    for (side, order) in bids.chain(asks) {
        // A level is a (side, price) pair, in a snapshot too.
        let level = match slip.0 {
            Some(Slip::SnapshotLevelsByPrice) => (Side::Buy, order.price),
            _ => (side, order.price),
        };
        let held = match slip.0 {
            Some(Slip::SnapshotLevelsPerSide) => {
                levels.iter().filter(|level| level.0 == side).count()
            }
            _ => levels.len(),
        } as u64;
        let limit = book.state.rules.max_levels + slip.is(Slip::SnapshotLevelLimitOneMore) as u64;
        let tests = [
            (11, ids.contains(&order.id)),
            (12, order.price <= 0 || order.size <= 0),
            (14, !levels.contains(&level) && held >= limit),
        ];
        first(slip, Part::SnapshotOrder, tests)?;
        ids.insert(order.id);
        levels.insert(level);
        line.push(row_of(slip, side, order, snapshot.sequence));
    }
    if crossed { Err(13) } else { Ok(line) }
}

/// 13, "snapshot bid ≥ ask"
fn crosses(slip: Planted, snapshot: &Snapshot) -> bool {
    let bid = snapshot.bids.iter().map(|order| order.price).max();
    let ask = snapshot.asks.iter().map(|order| order.price).min();
    let strict = slip.is(Slip::SnapshotCrossStrict);
    matches!((bid, ask), (Some(bid), Some(ask)) if bid > ask || (bid == ask && !strict))
}

fn row_of(slip: Planted, side: Side, order: &SnapshotOrder, sequence: u64) -> Row {
    Row {
        id: order.id,
        price: order.price as u64,
        remaining: order.size as u64,
        kind: rows::kind(side, slip.is(Slip::SnapshotRowsObserved)),
        entered_at: if slip.is(Slip::SnapshotRowsEnterAtZero) {
            0
        } else {
            sequence
        },
        decreased: 0,
        decreased_at: 0,
    }
}

/// "Refusals 10 to 14 add one to rejected_snapshots (10 included) and leave all else; a valid book stays valid."
fn refuse(slip: Planted, book: &mut LentBook, number: u8) {
    let counted = (10..=14).contains(&number);
    if counted && !(number == 10 && slip.is(Slip::RejectedProductUncounted)) {
        count(slip, &mut book.state.counts.rejected_snapshots);
    }
    if counted
        && slip.is(Slip::RefusedSnapshotEnds)
        && let Some(segment) = book.last_segment()
    {
        segment.end = SegmentEnd::Superseded;
    }
}

/// "Acceptance ends an open segment as superseded, adds a segment, and gives rows .."
fn accept(slip: Planted, book: &mut LentBook, sequence: u64, line: &[Row]) {
    let open = book.state.status == Status::Valid;
    let invalid = matches!(book.state.status, Status::Invalid(_));
    let ends =
        open && !slip.is(Slip::SupersededUnrecorded) || invalid && slip.is(Slip::InvalidSuperseded);
    if ends && let Some(segment) = book.last_segment() {
        segment.end = SegmentEnd::Superseded;
    }
    let place = (book.state.segments as usize).min(book.list.len().saturating_sub(1));
    if let Some(record) = book.list.get_mut(place) {
        // "first_us and last_us (zero until a message is accepted)"
        *record = Segment {
            start_seq: sequence,
            last_good_seq: sequence,
            end: SegmentEnd::Open,
            first_us: 0,
            last_us: 0,
        };
    }
    write_rows(slip, book, line);
    book.state.segments += 1;
    book.state.rows = line.len() as u64;
    book.state.status = Status::Valid;
    book.state.last_sequence = sequence;
}

/// "an accepted snapshot writes bids then asks from the first row and zeroes former rows beyond them; other words past the
/// last row are untouched."
fn write_rows(slip: Planted, book: &mut LentBook, line: &[Row]) {
    let former = match slip.0 {
        Some(Slip::FormerRowsKept) => 0,
        Some(Slip::SnapshotClearsMemory) => book.words.len() / ROW_WORDS,
        _ => book.state.rows as usize,
    };
    rows::zero_rows(book.words, line.len()..former);
    let mut line = line.to_vec();
    if slip.is(Slip::AsksBeforeBids) {
        line.sort_by_key(|row| row.side() == Side::Buy);
    }
    rows::write_line(book.words, &line);
}
