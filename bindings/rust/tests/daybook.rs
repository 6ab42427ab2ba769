//! Day files made from values and listed through the exported call.

use pinuglaw::Decimal;
use pinuglaw::daybook::{DayFile, DayFileError};
use pinuglaw::l3::{L3Event, L3Message, L3Side, L3Snapshot, SnapshotOrder};
use pinuglaw::{daybook, sys};

const EXAMPLE: &[u8] = include_bytes!("../../../examples/day");
const EXAMPLE_LISTING: &str = "\
segment 1 100 102 20 500
segment 2 200 200 open 0
counts 0 1 0 1 0 0 0 0 0 1 0 0
";
const NO_DAY_FILE: &str = "counts 0 0 0 0 0 0 0 0 0 0 0 0\nstop 0 60\n";
const JUNK: u8 = 77;

fn received(product: &str, order: &str) -> L3Message {
    L3Message {
        product_id: product.to_string(),
        sequence: 1,
        time_us: 2,
        event: L3Event::Received {
            order_id: order.to_string(),
            side: L3Side::Sell,
        },
    }
}

fn snapshot(price: Decimal) -> L3Snapshot {
    L3Snapshot {
        product_id: "BTC-USD".to_string(),
        sequence: 100,
        bids: vec![SnapshotOrder {
            order_id: "aaaaaaaa-0000-4000-8000-000000000001".to_string(),
            price,
            size: Decimal::ONE,
        }],
        asks: vec![],
    }
}

#[test]
fn the_papers_example() {
    assert_eq!(daybook(EXAMPLE), EXAMPLE_LISTING);
}

#[test]
fn the_listing_slice_is_written_whole_or_not_at_all() {
    let length = EXAMPLE_LISTING.len();
    for lent in [0, length - 1, length, length + 5] {
        let mut listing = vec![JUNK; lent];
        let number = sys::replay(EXAMPLE, &mut listing);
        if lent < length {
            assert_eq!(number, sys::OUTPUT_TOO_SMALL);
            assert_eq!(listing, vec![JUNK; lent]);
        } else {
            assert_eq!(number, length as u64);
            assert_eq!(&listing[..length], EXAMPLE_LISTING.as_bytes());
            assert_eq!(listing[length..], [JUNK].repeat(lent - length));
        }
    }
}

#[test]
fn what_is_no_day_file_is_60() {
    let longer = [EXAMPLE, &[0; sys::DAY_FILE_BYTES]].concat();
    for file in [&[][..], &[1, 0, 0, 0], &[0xff; 200], &longer] {
        assert_eq!(daybook(file), NO_DAY_FILE);
    }
    // Bytes behind the last piece are no fault.
    assert_eq!(daybook(&longer[..sys::DAY_FILE_BYTES]), EXAMPLE_LISTING);
}

#[test]
fn a_day_without_a_piece() {
    let file = DayFile::new().to_bytes().expect("four bytes");
    assert_eq!(file, [0; 4]);
    assert_eq!(daybook(&file), "counts 0 0 0 0 0 0 0 0 0 0 0 0\n");
}

#[test]
fn a_piece_of_no_bytes_stands_before_others() {
    let mut day = DayFile::new();
    day.snapshot(&snapshot(Decimal::ONE)).expect("a piece");
    day.piece([]).piece([9]);
    let listing = daybook(&day.to_bytes().expect("a short file"));
    let expected = "segment 1 100 100 open 0\ncounts 0 0 0 0 0 0 0 0 0 0 0 0\nstop 2 4\n";
    assert_eq!(listing, expected);
}

#[test]
fn values_without_a_piece_are_turned_away_and_not_added() {
    let mut day = DayFile::new();
    let id = "aaaaaaaa-0000-4000-8000-000000000001";
    let unfit = [
        day.message(&received("BTC-USD", "A")).err(),
        day.message(&received("seventeen-byte-id", id)).err(),
        day.snapshot(&snapshot(Decimal::new(1, 9))).err(),
        day.snapshot(&snapshot(Decimal::new(10_000_001, 0))).err(),
    ];
    let (four, five) = (DayFileError::NotAPiece, DayFileError::AmountOutOfRange);
    assert_eq!(unfit, [Some(four), Some(four), Some(five), Some(five)]);
    assert_eq!(day, DayFile::new());
}

#[test]
fn a_file_holds_as_many_bytes_as_a_replay_takes() {
    let mut day = DayFile::new();
    day.piece(vec![0; sys::DAY_FILE_BYTES - 12]);
    let longest = day.to_bytes().expect("just the most");
    assert_eq!(longest.len(), sys::DAY_FILE_BYTES);
    assert_ne!(daybook(&longest), NO_DAY_FILE);
    day.piece([]);
    assert_eq!(day.to_bytes(), Err(DayFileError::TooLong));
}
