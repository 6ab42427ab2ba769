//! Day files written by hand, with the listings that paper 1 asks for; what the generator reaches; and faults that a run must find.

mod faults;

use oracle::daybook::cases::Cases;
use oracle::daybook::compare;
use oracle::daybook::generate::Days;
use oracle::daybook::layout::pack;
use oracle::daybook::{Day, LONGEST, listing, replay};
use oracle::piece::{
    AMOUNT_LIMIT, ChangeReason, DoneReason, Event, Message, Product, Side, Snapshot, SnapshotOrder,
    encode_message, encode_snapshot,
};

const PRODUCT: Product = *b"BTC-USD\0\0\0\0\0\0\0\0\0";
const OTHER: Product = *b"ETH-USD\0\0\0\0\0\0\0\0\0";
const A: u128 = 0xA;
const B: u128 = 0xB;
const Z: u128 = 0xF;
const ZEROS: &str = "counts 0 0 0 0 0 0 0 0 0 0 0 0\n";
const REFUSED: &str = "counts 0 0 0 0 0 0 0 0 0 0 0 0\nstop 0 60\n";

fn text(file: &[u8]) -> String {
    String::from_utf8(listing(file)).expect("a listing is text")
}

fn order(id: u128, price: i64, size: i64) -> SnapshotOrder {
    SnapshotOrder { id, price, size }
}

fn snapshot_of(product: Product, sequence: u64, bids: Vec<SnapshotOrder>) -> Vec<u8> {
    encode_snapshot(&Snapshot {
        product,
        sequence,
        bids,
        asks: vec![],
    })
}

fn snapshot(sequence: u64, bids: Vec<SnapshotOrder>) -> Vec<u8> {
    snapshot_of(PRODUCT, sequence, bids)
}

fn message_of(product: Product, sequence: u64, time_us: u64, event: Event) -> Vec<u8> {
    encode_message(&Message {
        product,
        sequence,
        time_us,
        event,
    })
}

fn message(sequence: u64, time_us: u64, event: Event) -> Vec<u8> {
    message_of(PRODUCT, sequence, time_us, event)
}

fn received(sequence: u64, time_us: u64) -> Vec<u8> {
    let (order_id, side) = (Z, Side::Buy);
    message(sequence, time_us, Event::Received { order_id, side })
}

fn open(id: u128, side: Side, price: i64, size: i64) -> Event {
    Event::Open {
        order_id: id,
        side,
        price,
        remaining: size,
    }
}

fn matched(maker_id: u128, size: i64) -> Event {
    Event::Match {
        maker_id,
        taker_id: Z,
        side: Side::Buy,
        price: 10,
        size,
    }
}

/// The example of paper 1.
fn example() -> Vec<Vec<u8>> {
    vec![
        snapshot(100, vec![order(A, 10, 2)]),
        message(101, 1_000, open(B, Side::Sell, 12, 3)),
        message(102, 1_500, matched(A, 1)),
        received(104, 1_600),
        received(105, 1_700),
        snapshot(200, vec![]),
    ]
}

const EXAMPLE: &str = "\
segment 1 100 102 20 500
segment 2 200 200 open 0
counts 0 1 0 1 0 0 0 0 0 1 0 0
";

#[test]
fn the_papers_example() {
    assert_eq!(text(&pack(&example())), EXAMPLE);
}

/// The same, every byte of the file written out.
#[test]
fn the_papers_example_byte_by_byte() {
    let mut file = Vec::new();
    let mut put = |bytes: &[u8]| file.extend_from_slice(bytes);
    put(&[6, 0, 0, 0]);
    put(&[52, 0, 0, 0, 73, 0, 0, 0]);
    put(&[125, 0, 0, 0, 66, 0, 0, 0]);
    put(&[191, 0, 0, 0, 82, 0, 0, 0]);
    put(&[17, 1, 0, 0, 50, 0, 0, 0]);
    put(&[67, 1, 0, 0, 50, 0, 0, 0]);
    put(&[117, 1, 0, 0, 41, 0, 0, 0]);
    let product = b"BTC-USD\0\0\0\0\0\0\0\0\0";
    let a = [0, 0, 0, 0, 0, 0, 0, 0, 0, 0, 0, 0, 0, 0, 0, 10];
    let b = [0, 0, 0, 0, 0, 0, 0, 0, 0, 0, 0, 0, 0, 0, 0, 11];
    let z = [0, 0, 0, 0, 0, 0, 0, 0, 0, 0, 0, 0, 0, 0, 0, 15];
    // Snapshot at 100: one bid, no ask.
    put(&[0]);
    put(product);
    put(&[100, 0, 0, 0, 0, 0, 0, 0]);
    put(&[0; 8]);
    put(&[1, 0, 0, 0, 0, 0, 0, 0]);
    put(&a);
    put(&[10, 0, 0, 0, 0, 0, 0, 0, 2, 0, 0, 0, 0, 0, 0, 0]);
    // Open at 101, time 1000.
    put(&[2]);
    put(product);
    put(&[101, 0, 0, 0, 0, 0, 0, 0, 0xE8, 3, 0, 0, 0, 0, 0, 0]);
    put(&b);
    put(&[1, 12, 0, 0, 0, 0, 0, 0, 0, 3, 0, 0, 0, 0, 0, 0, 0]);
    // Match at 102, time 1500.
    put(&[4]);
    put(product);
    put(&[102, 0, 0, 0, 0, 0, 0, 0, 0xDC, 5, 0, 0, 0, 0, 0, 0]);
    put(&a);
    put(&z);
    put(&[0, 10, 0, 0, 0, 0, 0, 0, 0, 1, 0, 0, 0, 0, 0, 0, 0]);
    // Received at 104 and 105.
    for (sequence, time) in [(104, [0x40, 6]), (105, [0xA4, 6])] {
        put(&[1]);
        put(product);
        put(&[sequence, 0, 0, 0, 0, 0, 0, 0]);
        put(&time);
        put(&[0; 6]);
        put(&z);
        put(&[0]);
    }
    // Empty snapshot at 200.
    put(&[0]);
    put(product);
    put(&[200, 0, 0, 0, 0, 0, 0, 0]);
    put(&[0; 16]);
    assert_eq!(file, pack(&example()), "the encoder writes the same");
    assert_eq!(text(&file), EXAMPLE);
}

/// A file of any pairs and any bytes behind them.
fn file(count: u32, pairs: &[(u32, u32)], behind: &[u8]) -> Vec<u8> {
    let mut file = count.to_le_bytes().to_vec();
    for (offset, length) in pairs {
        file.extend_from_slice(&offset.to_le_bytes());
        file.extend_from_slice(&length.to_le_bytes());
    }
    file.extend_from_slice(behind);
    file
}

fn sound(count: u32, pairs: &[(u32, u32)], behind: &[u8], listing: &str) {
    let file = file(count, pairs, behind);
    assert_eq!(text(&file), listing, "{count} {pairs:?}");
}

fn refused(count: u32, pairs: &[(u32, u32)], behind: &[u8]) {
    sound(count, pairs, behind, REFUSED);
}

#[test]
fn a_file_shorter_than_its_count() {
    for length in 0..4 {
        for byte in [0, 1, 0xFF] {
            assert_eq!(text(&vec![byte; length]), REFUSED, "{length} of {byte}");
        }
    }
    sound(0, &[], &[], ZEROS);
    sound(0, &[], &[0xFF], ZEROS);
    sound(0, &[], &[0xFF; 500], ZEROS);
}

#[test]
fn a_file_shorter_than_its_pairs() {
    refused(1, &[], &[]);
    refused(1, &[], &[12, 0, 0, 0, 0, 0, 0]);
    // One byte more, and there is a piece without bytes at the file's end.
    sound(1, &[(12, 0)], &[], &format!("{ZEROS}stop 1 4\n"));
    refused(2, &[(20, 0)], &[]);
    refused(2, &[(20, 0)], &[21, 0, 0, 0, 0, 0, 0]);
    // Counts whose pairs a 32-bit sum would take for the ones that are there.
    for count in [1 << 29, 1 << 30, 1 << 31, 7 << 29, u32::MAX] {
        refused(count, &[], &[]);
        refused(count, &[], &[0; 500]);
    }
    for wraps in 1..8 {
        refused(wraps << 29 | 1, &[(12, 0)], &[]);
        refused(wraps << 29 | 1, &[(12, 37)], &[0; 37]);
    }
}

#[test]
fn offsets_rise_strictly() {
    let stopped = format!("{ZEROS}stop 1 4\n");
    sound(2, &[(20, 0), (21, 0)], &[0], &stopped);
    refused(2, &[(20, 0), (20, 0)], &[0]);
    refused(2, &[(20, 0), (20, 1)], &[0]);
    refused(2, &[(21, 0), (20, 0)], &[0]);
    refused(2, &[(21, 0), (20, 1)], &[0]);
    sound(3, &[(28, 0), (29, 0), (30, 0)], &[0, 0], &stopped);
    refused(3, &[(28, 0), (29, 0), (29, 0)], &[0, 0]);
    refused(3, &[(29, 0), (29, 0), (30, 0)], &[0, 0]);
}

#[test]
fn the_first_piece_starts_past_the_pairs() {
    let stopped = format!("{ZEROS}stop 1 4\n");
    sound(1, &[(12, 1)], &[1], &stopped);
    refused(1, &[(11, 1)], &[1]);
    refused(1, &[(11, 0)], &[1]);
    refused(1, &[(0, 0)], &[1]);
    refused(1, &[(4, 8)], &[]);
    sound(1, &[(13, 0)], &[1], &stopped);
    sound(2, &[(20, 0), (21, 0)], &[0], &stopped);
    refused(2, &[(19, 0), (21, 0)], &[0]);
}

#[test]
fn a_piece_ends_by_the_next_ones_offset() {
    let stopped = format!("{ZEROS}stop 1 4\n");
    sound(2, &[(20, 3), (23, 1)], &[9; 4], &stopped);
    refused(2, &[(20, 4), (23, 1)], &[9; 4]);
    sound(2, &[(20, 2), (23, 1)], &[9; 4], &stopped);
    // An end that a 32-bit sum would take for an early one.
    refused(2, &[(20, u32::MAX - 19), (23, 1)], &[9; 4]);
    refused(2, &[(20, u32::MAX), (23, 1)], &[9; 4]);
    refused(2, &[(20, u32::MAX - 16), (23, 1)], &[9; 4]);
}

#[test]
fn the_last_piece_ends_by_the_files_end() {
    let stopped = format!("{ZEROS}stop 1 4\n");
    sound(1, &[(12, 5)], &[9; 5], &stopped);
    refused(1, &[(12, 6)], &[9; 5]);
    sound(1, &[(12, 5)], &[9; 6], &stopped);
    sound(1, &[(17, 0)], &[9; 5], &stopped);
    refused(1, &[(18, 0)], &[9; 5]);
    refused(1, &[(u32::MAX, 0)], &[9; 5]);
    refused(1, &[(u32::MAX, 1)], &[9; 5]);
    refused(1, &[(u32::MAX, u32::MAX)], &[9; 5]);
    refused(1, &[(12, u32::MAX - 11)], &[9; 5]);
    refused(1, &[(12, u32::MAX)], &[9; 5]);
    refused(2, &[(20, 0), (u32::MAX, 0)], &[9; 5]);
}

#[test]
fn a_file_has_65_536_bytes_at_most() {
    let mut file = pack(&example());
    for (length, listing) in [
        (LONGEST - 1, EXAMPLE),
        (LONGEST, EXAMPLE),
        (LONGEST + 1, REFUSED),
        (LONGEST + 2, REFUSED),
        (200_000, REFUSED),
    ] {
        file.resize(length, 0);
        assert_eq!(text(&file), listing, "{length} bytes");
    }
    let count_alone = vec![0; LONGEST + 1];
    assert_eq!(text(&count_alone[..LONGEST]), ZEROS);
    assert_eq!(text(&count_alone), REFUSED);
}

/// Bytes between the pieces and behind the last are no fault.
#[test]
fn gaps() {
    let pieces = example();
    let mut pairs = Vec::new();
    let mut behind = vec![0xEE; 3];
    for (place, piece) in pieces.iter().enumerate() {
        let offset = 4 + 8 * pieces.len() + behind.len();
        pairs.push((offset as u32, piece.len() as u32));
        behind.extend_from_slice(piece);
        behind.resize(behind.len() + 7 * place, 1);
    }
    sound(6, &pairs, &behind, EXAMPLE);
}

fn day(pieces: &[Vec<u8>], listing: &str) {
    assert_eq!(text(&pack(pieces)), listing);
}

#[test]
fn a_piece_that_is_none_stops_it() {
    let mut pieces = example();
    pieces.insert(3, vec![]);
    let two = "segment 1 100 102 open 500\ncounts 0 1 0 1 0 0 0 0 0 0 0 0\nstop 4 4\n";
    day(&pieces, two);
    for bad in [vec![0], vec![7; 50], vec![1; 49], vec![0xFF], vec![2; 66]] {
        pieces[3] = bad;
        day(&pieces, two);
    }
    // One byte short, one too many, a side that is none, a snapshot with a time.
    pieces[3] = received(103, 0)[..49].to_vec();
    day(&pieces, two);
    pieces[3] = [received(103, 0), vec![0]].concat();
    day(&pieces, two);
    pieces[3] = received(103, 0);
    pieces[3][49] = 2;
    day(&pieces, two);
    pieces[3] = snapshot(103, vec![]);
    pieces[3][25] = 1;
    day(&pieces, two);
    // The first piece, and the last.
    pieces[0] = vec![];
    day(&pieces, &format!("{ZEROS}stop 1 4\n"));
    let mut pieces = example();
    pieces.push(vec![]);
    day(&pieces, &format!("{EXAMPLE}stop 7 4\n"));
}

#[test]
fn an_amount_out_of_range_stops_it() {
    let mut pieces = example();
    pieces[1] = message(101, 1_000, open(B, Side::Sell, AMOUNT_LIMIT + 1, 3));
    let one = "segment 1 100 100 open 0\ncounts 0 0 0 0 0 0 0 0 0 0 0 0\nstop 2 5\n";
    day(&pieces, one);
    pieces[1] = snapshot(101, vec![order(A, 1, -AMOUNT_LIMIT - 1)]);
    day(&pieces, one);
    // Of another product, before any snapshot and on an invalid book too: the reader comes first.
    let wide = open(B, Side::Sell, 12, i64::MAX);
    pieces[1] = message_of(OTHER, 7, 0, wide);
    day(&pieces, one);
    day(
        &[received(1, 0), message(2, 0, wide)],
        &format!("{ZEROS}stop 2 5\n"),
    );
    let invalid = "segment 1 100 100 20 0\ncounts 0 0 0 0 0 0 0 0 0 0 0 0\nstop 3 5\n";
    day(
        &[snapshot(100, vec![]), received(102, 0), message(3, 0, wide)],
        invalid,
    );
    // At the limit it goes on.
    pieces[1] = message(101, 1_000, open(B, Side::Sell, AMOUNT_LIMIT, AMOUNT_LIMIT));
    day(&pieces, EXAMPLE);
}

/// 64 snapshots at 1 to 64, and their lines: all but the last superseded.
fn full() -> (Vec<Vec<u8>>, String) {
    let pieces = (1..=64).map(|sequence| snapshot(sequence, vec![]));
    let line = |place: u64| match place {
        64 => "segment 64 64 64 open 0\n".to_string(),
        _ => format!("segment {place} {place} {place} superseded 0\n"),
    };
    (pieces.collect(), (1..=64).map(line).collect())
}

#[test]
fn the_65th_segment_stops_it() {
    let (full, lines) = full();
    let stopped = |piece: usize, number: u8| format!("{lines}{ZEROS}stop {piece} {number}\n");
    day(&full, &format!("{lines}{ZEROS}"));
    let with = |piece: Vec<u8>| [full.clone(), vec![piece]].concat();
    day(&with(snapshot(65, vec![])), &stopped(65, 6));
    // 6 comes after 4 and 5 and before 10 to 14.
    day(&with(snapshot_of(OTHER, 65, vec![])), &stopped(65, 6));
    day(&with(snapshot(65, vec![order(A, 0, 1)])), &stopped(65, 6));
    let many = (0..513).map(|id| order(id, 1, 1)).collect();
    day(&with(snapshot(65, many)), &stopped(65, 6));
    let wide = vec![order(A, AMOUNT_LIMIT + 1, 1)];
    day(&with(snapshot(65, wide)), &stopped(65, 5));
    day(&with(vec![0; 40]), &stopped(65, 4));
}

/// With 64 segments listed, messages and refused messages still go on.
#[test]
fn messages_after_the_64th_segment() {
    let (mut pieces, lines) = full();
    let others = lines.strip_suffix("segment 64 64 64 open 0\n");
    let others = others.expect("the last line");
    pieces.push(received(65, 10));
    pieces.push(message_of(OTHER, 1, 0, Event::Unsupported { kind: 1 }));
    pieces.push(received(66, 25));
    pieces.push(received(66, 30));
    pieces.push(received(67, 40));
    let last = "segment 64 64 66 21 15\ncounts 2 0 0 0 0 0 0 0 0 1 1 0\n";
    day(&pieces, &format!("{others}{last}"));
    pieces.push(snapshot(300, vec![]));
    day(&pieces, &format!("{others}{last}stop 70 6\n"));
}

/// Refused snapshots are counted and change nothing else.
#[test]
fn refused_snapshots_go_on() {
    let crossed = encode_snapshot(&Snapshot {
        product: PRODUCT,
        sequence: 500,
        bids: vec![order(A, 5, 1)],
        asks: vec![order(B, 5, 1)],
    });
    let many = (0..513).map(|id| order(id, 1, 1)).collect();
    let mut pieces = vec![
        snapshot(100, vec![order(A, 10, 2)]),
        snapshot_of(OTHER, 500, vec![]),
        snapshot(500, vec![order(A, 1, 1), order(A, 1, 1)]),
        snapshot(500, vec![order(A, 1, 0)]),
        crossed,
        snapshot(500, many),
        received(101, 7),
    ];
    let listing = "segment 1 100 101 open 0\ncounts 1 0 0 0 0 0 0 0 0 0 0 5\n";
    day(&pieces, listing);
    // The same before any snapshot: the first piece gives the product, so none of them is of another.
    pieces.remove(0);
    pieces.remove(0);
    day(&pieces, "counts 0 0 0 0 0 0 0 0 0 0 0 4\n");
}

/// The first piece gives the product, whatever it is.
#[test]
fn the_product_is_the_first_pieces() {
    let pieces = [
        message_of(OTHER, 1, 0, Event::Unsupported { kind: 1 }),
        snapshot(100, vec![]),
        received(101, 0),
        snapshot_of(OTHER, 100, vec![]),
    ];
    let listing = "segment 1 100 100 open 0\ncounts 0 0 0 0 0 0 0 0 0 0 1 1\n";
    day(&pieces, listing);
    // Not a piece: it stops at once, whether it has a product or not.
    for bad in [vec![9; 16], vec![9; 17], vec![9; 50], vec![0; 16]] {
        day(&[bad, snapshot(100, vec![])], &format!("{ZEROS}stop 1 4\n"));
    }
}

fn timed(times: &[u64], elapsed: &str) {
    let mut pieces = vec![snapshot(1, vec![])];
    pieces.extend((2..).zip(times).map(|(at, &time)| received(at, time)));
    let received = times.len();
    let last = 1 + received;
    let listing =
        format!("segment 1 1 {last} open {elapsed}\ncounts {received} 0 0 0 0 0 0 0 0 0 0 0\n");
    day(&pieces, &listing);
}

#[test]
fn elapsed_times() {
    timed(&[], "0");
    timed(&[5_000], "0");
    timed(&[5_000, 5_000], "0");
    timed(&[5_000, 6_000], "1000");
    timed(&[5_000, 9_000, 5_001], "1");
    timed(&[5_000, 4_999], "0");
    timed(&[5_000, 0], "0");
    timed(&[5_000, 0, 5_002], "2");
    timed(&[0, u64::MAX], "18446744073709551615");
    timed(&[0, 5], "5");
    timed(&[0, 0, 5], "5");
    timed(&[u64::MAX, 0], "0");
    timed(&[u64::MAX, 0, u64::MAX], "0");
    timed(&[1, 10_000_000_000_000_000_000], "9999999999999999999");
}

/// The message that ends a segment has no part in its time, nor has one of another product.
#[test]
fn only_accepted_messages_have_a_time() {
    let pieces = [
        snapshot(100, vec![]),
        message_of(OTHER, 101, 1, Event::Unsupported { kind: 1 }),
        received(101, 10),
        received(102, 12),
        received(104, 900),
        received(103, 950),
    ];
    let listing = "segment 1 100 102 20 2\ncounts 2 0 0 0 0 0 0 0 0 1 1 0\n";
    day(&pieces, listing);
}

#[test]
fn the_last_sequence() {
    let top = u64::MAX;
    let pieces = [
        snapshot(top - 1, vec![]),
        received(top, 3),
        received(0, 4),
        snapshot(top, vec![]),
        received(top, 5),
    ];
    let listing = "\
segment 1 18446744073709551614 18446744073709551615 22 0
segment 2 18446744073709551615 18446744073709551615 22 0
counts 1 0 0 0 0 0 0 0 0 0 0 0
";
    day(&pieces, listing);
}

fn done(id: u128, reason: DoneReason, remaining: Option<i64>) -> Event {
    Event::Done {
        order_id: id,
        side: Side::Buy,
        price: None,
        reason,
        remaining,
    }
}

fn change(id: u128, reason: ChangeReason, new_size: Option<i64>) -> Event {
    Event::Change {
        order_id: id,
        side: Side::Buy,
        reason,
        price: None,
        old_size: None,
        new_size,
        old_price: None,
        new_price: None,
        new_funds: None,
    }
}

/// Eleven of the twelve counts, each another number; no handshake drops anything.
#[test]
fn every_count() {
    let decreased = |size| change(1, ChangeReason::Stp, Some(size));
    let events = [
        vec![open(1, Side::Buy, 10, 9), open(2, Side::Buy, 10, 9)],
        vec![matched(1, 1); 3],
        vec![decreased(5), decreased(4), decreased(3), decreased(2)],
        vec![change(9, ChangeReason::ModifyOrder, None); 5],
        vec![done(9, DoneReason::Filled, None); 6],
        vec![decreased(2); 7],
        vec![done(2, DoneReason::Canceled, Some(9))],
    ];
    let mut pieces = vec![snapshot(100, vec![order(3, 10, 2)])];
    let events = (101..).zip(events.concat());
    pieces.extend(events.map(|(at, event)| message(at, 0, event)));
    pieces.extend((129..137).map(|at| received(at, 0)));
    pieces.extend(vec![
        message_of(OTHER, 1, 0, Event::Unsupported { kind: 0 });
        9
    ]);
    // The first of these ends the segment, the others are skipped.
    pieces.extend(vec![received(1, 0); 11]);
    pieces.extend(vec![snapshot(7, vec![order(1, 1, -1)]); 12]);
    let listing = "segment 1 100 136 21 0\ncounts 8 2 1 3 4 6 5 7 0 10 9 12\n";
    day(&pieces, listing);
}

/// The host's call, on slices of every length around the listing's.
#[test]
fn the_hosts_call() {
    for (file, listing) in [(pack(&example()), EXAMPLE), (vec![], REFUSED)] {
        for length in 0..listing.len() + 5 {
            let mut slice = vec![b'!'; length];
            let answer = replay(&file, &mut slice);
            if length < listing.len() {
                assert_eq!(answer, 7, "{length} bytes");
                assert_eq!(slice, vec![b'!'; length]);
            } else {
                assert_eq!(answer, listing.len() as u64, "{length} bytes");
                assert!(slice.starts_with(listing.as_bytes()));
                assert_eq!(slice[listing.len()..], b"!!!!!"[..length - listing.len()]);
            }
        }
    }
}

/// What 20,000 files of a fixed seed reach: printed in full, and a zero fails.
#[test]
fn the_generators_coverage() {
    let mut cases = Cases::default();
    for file in Days::new(5).take(20_000) {
        cases.note(&file, &Day::of(&file));
    }
    println!("{cases:?}");
    let missing = cases.missing();
    assert!(missing.is_empty(), "never met: {missing:?}");
}

#[test]
fn a_sound_call_agrees() {
    let cases = compare::run(&replay, 5, 20_000, 2).unwrap_or_else(|told| panic!("{told}"));
    let missing = compare::missing(&cases);
    assert!(missing.is_empty(), "never met: {missing:?}");
}

#[test]
fn planted_faults_are_found() {
    faults::all_found(&replay, 5, 3_000);
}
