use super::*;

const PRODUCT: Product = *b"BTC-USD\0\0\0\0\0\0\0\0\0";
const ID: Id = 0x0123_4567_89AB_CDEF_FEDC_BA98_7654_3210;

/// Every event, with each optional amount present and absent.
fn events() -> Vec<Event> {
    let (order_id, side) = (ID, Side::Sell);
    let mut events = vec![
        Event::Received { order_id, side },
        Event::Open {
            order_id,
            side,
            price: AMOUNT_LIMIT,
            remaining: -AMOUNT_LIMIT,
        },
        Event::Match {
            maker_id: ID,
            taker_id: !ID,
            side: Side::Buy,
            price: 1,
            size: -1,
        },
        Event::Unsupported { kind: 0x0102_0304 },
    ];
    let amount = |bits: u32, at: u32| (bits >> at & 1 != 0).then_some(i64::from(at) - 2);
    for bits in 0..4 {
        events.push(Event::Done {
            order_id,
            side,
            price: amount(bits, 0),
            reason: DoneReason::Canceled,
            remaining: amount(bits, 1),
        });
    }
    for bits in 0..64 {
        events.push(Event::Change {
            order_id,
            side,
            reason: ChangeReason::ModifyOrder,
            price: amount(bits, 0),
            old_size: amount(bits, 1),
            new_size: amount(bits, 2),
            old_price: amount(bits, 3),
            new_price: amount(bits, 4),
            new_funds: amount(bits, 5),
        });
    }
    events
}

fn message(event: Event) -> Message {
    Message {
        product: PRODUCT,
        sequence: 0x1122_3344_5566_7788,
        time_us: 9,
        event,
    }
}

fn snapshot(bids: usize, asks: usize) -> Snapshot {
    let order = |at: usize| SnapshotOrder {
        id: ID + at as u128,
        price: 10 + at as i64,
        size: -1,
    };
    Snapshot {
        product: PRODUCT,
        sequence: 100,
        bids: (0..bids).map(order).collect(),
        asks: (bids..bids + asks).map(order).collect(),
    }
}

#[test]
fn messages_come_back() {
    for event in events() {
        let piece = encode_message(&message(event));
        assert_eq!(decode_message(&piece), Ok(message(event)));
        assert_eq!(shape_message(&piece), Ok(message(event)));
        assert_eq!(decode_snapshot(&piece), Err(4));
    }
}

#[test]
fn snapshots_come_back() {
    for (bids, asks) in [(0, 0), (1, 0), (0, 1), (2, 1), (100, 50)] {
        let piece = encode_snapshot(&snapshot(bids, asks));
        assert_eq!(piece.len(), 41 + 32 * (bids + asks));
        assert_eq!(decode_snapshot(&piece), Ok(snapshot(bids, asks)));
        assert_eq!(decode_message(&piece), Err(4));
    }
}

#[test]
fn lengths_are_exact() {
    let lengths = [50, 66, 68, 82, 100, 37];
    for event in events() {
        let piece = encode_message(&message(event));
        assert_eq!(piece.len(), lengths[usize::from(event.kind()) - 1]);
        assert_eq!(decode_message(&piece[..piece.len() - 1]), Err(4));
        assert_eq!(decode_message(&[piece.as_slice(), &[0]].concat()), Err(4));
    }
    let piece = encode_snapshot(&snapshot(1, 2));
    assert_eq!(decode_snapshot(&piece[..piece.len() - 1]), Err(4));
    assert_eq!(decode_snapshot(&[piece.as_slice(), &[0]].concat()), Err(4));
    assert_eq!(decode_message(&[]), Err(4));
    assert_eq!(decode_snapshot(&[]), Err(4));
}

/// The bytes of one change, written out by hand from 01.
#[test]
fn a_change_byte_by_byte() {
    let mut piece = vec![5];
    piece.extend_from_slice(&PRODUCT);
    piece.extend_from_slice(&[0x88, 0x77, 0x66, 0x55, 0x44, 0x33, 0x22, 0x11]);
    piece.extend_from_slice(&[9, 0, 0, 0, 0, 0, 0, 0]);
    piece.extend_from_slice(&[0x01, 0x23, 0x45, 0x67, 0x89, 0xAB, 0xCD, 0xEF]);
    piece.extend_from_slice(&[0xFE, 0xDC, 0xBA, 0x98, 0x76, 0x54, 0x32, 0x10]);
    piece.extend_from_slice(&[1, 0, 0b10_0010]);
    piece.extend_from_slice(&[0; 8]);
    piece.extend_from_slice(&[0xFF; 8]);
    piece.extend_from_slice(&[0; 24]);
    piece.extend_from_slice(&[2, 0, 0, 0, 0, 0, 0, 0]);
    let event = Event::Change {
        order_id: ID,
        side: Side::Sell,
        reason: ChangeReason::Stp,
        price: None,
        old_size: Some(-1),
        new_size: None,
        old_price: None,
        new_price: None,
        new_funds: Some(2),
    };
    assert_eq!(decode_message(&piece), Ok(message(event)));
    assert_eq!(encode_message(&message(event)), piece);
}

/// The bytes of one done: the presence byte follows the reason, after the price that it governs.
#[test]
fn a_done_byte_by_byte() {
    let event = Event::Done {
        order_id: ID,
        side: Side::Buy,
        price: Some(3),
        reason: DoneReason::Canceled,
        remaining: None,
    };
    let piece = encode_message(&message(event));
    assert_eq!(
        piece[49..],
        [0, 3, 0, 0, 0, 0, 0, 0, 0, 1, 1, 0, 0, 0, 0, 0, 0, 0, 0]
    );
}

/// Bytes whose every other value is refused: kind, side, reason, presence and absent amounts.
#[test]
fn damaged_bytes_are_refused() {
    let done = Event::Done {
        order_id: ID,
        side: Side::Buy,
        price: None,
        reason: DoneReason::Filled,
        remaining: None,
    };
    let piece = encode_message(&message(done));
    for at in (49..68).chain([0]) {
        for value in 0..=255_u8 {
            let mut damaged = piece.clone();
            damaged[at] = value;
            let good = match at {
                49 | 58 => value < 2,
                // A present price or remaining may be 0.
                59 => value < 4,
                0 => value == 3,
                _ => value == 0,
            };
            assert_eq!(
                decode_message(&damaged).is_ok(),
                good,
                "byte {at} at {value}"
            );
        }
    }
    let mut timed = encode_snapshot(&snapshot(1, 1));
    timed[32] = 1;
    assert_eq!(decode_snapshot(&timed), Err(4));
}

#[test]
fn amounts_are_judged_last() {
    for (amount, number) in [
        (AMOUNT_LIMIT, None),
        (-AMOUNT_LIMIT, None),
        (AMOUNT_LIMIT + 1, Some(5)),
        (-AMOUNT_LIMIT - 1, Some(5)),
        (i64::MIN, Some(5)),
    ] {
        let open = message(Event::Open {
            order_id: ID,
            side: Side::Buy,
            price: 1,
            remaining: amount,
        });
        let mut piece = encode_message(&open);
        assert_eq!(decode_message(&piece).err(), number);
        assert_eq!(shape_message(&piece), Ok(open));
        piece[49] = 2;
        assert_eq!(decode_message(&piece), Err(4));
        let mut listed = snapshot(1, 1);
        listed.asks[0].size = amount;
        assert_eq!(decode_snapshot(&encode_snapshot(&listed)).err(), number);
    }
}

/// Counts that lie, sums beyond 32 bits among them, are held against the length alone.
#[test]
fn lying_counts_are_refused() {
    let piece = encode_snapshot(&snapshot(2, 1));
    let most = u32::MAX;
    for (bids, asks) in [
        (most, most),
        (most, 4),
        (1 << 31, (1 << 31) + 3),
        ((1 << 27) + 3, 0),
        (2, 0),
        (2, 2),
    ] {
        let mut lying = piece.clone();
        lying[33..37].copy_from_slice(&u32::to_le_bytes(bids));
        lying[37..41].copy_from_slice(&u32::to_le_bytes(asks));
        assert_eq!(decode_snapshot(&lying), Err(4));
    }
}
