//! Where the port differs from the Rust: what does not fit its domain is refused under 01's number and changes nothing.

use std::str::FromStr;

use pinuglaw::Decimal;
use pinuglaw::l3::{
    ApplyError, BookReconstructor, HandshakeError, L3Event, L3Message, L3Side, L3Snapshot,
    QualityManifest, QueueError, Refusal, SnapshotError, SnapshotOrder, VenueRules, ViewError,
};

const A: &str = "aaaaaaaa-0000-4000-8000-000000000001";
const B: &str = "bbbbbbbb-0000-4000-8000-000000000002";
const C: &str = "cccccccc-0000-4000-8000-000000000003";

fn decimal(text: &str) -> Decimal {
    Decimal::from_str(text).expect("a decimal")
}

fn order(id: &str, price: &str, size: &str) -> SnapshotOrder {
    SnapshotOrder {
        order_id: id.to_string(),
        price: decimal(price),
        size: decimal(size),
    }
}

fn snapshot(bids: Vec<SnapshotOrder>) -> L3Snapshot {
    L3Snapshot {
        product_id: "BTC-USD".to_string(),
        sequence: 100,
        bids,
        asks: vec![order(B, "12", "3")],
    }
}

fn open(id: &str, price: &str) -> L3Message {
    L3Message {
        product_id: "BTC-USD".to_string(),
        sequence: 101,
        time_us: 7,
        event: L3Event::Open {
            order_id: id.to_string(),
            side: L3Side::Buy,
            price: decimal(price),
            remaining: decimal("5"),
        },
    }
}

fn book() -> BookReconstructor {
    let mut book = BookReconstructor::new("BTC-USD", VenueRules::default());
    book.bootstrap(&snapshot(vec![order(A, "10", "2")]))
        .expect("a sound snapshot");
    book
}

/// The messages that the domain has no words for, with what each is refused as.
fn unfit() -> [(L3Message, Refusal); 4] {
    [
        (open(C, "10000000.00000001"), Refusal::AmountOutOfRange),
        (open(C, "0.000000001"), Refusal::AmountOutOfRange),
        (
            open(C, "79228162514264337593543950335"),
            Refusal::AmountOutOfRange,
        ),
        (open("C", "10"), Refusal::NotAPiece),
    ]
}

fn unchanged(book: &BookReconstructor, manifest: &QualityManifest) {
    assert_eq!(book.manifest(), manifest);
    assert_eq!(book.last_sequence(), Ok(100));
    assert_eq!(
        book.l2(L3Side::Buy),
        Ok(vec![(decimal("10"), decimal("2"))])
    );
}

#[test]
fn unfit_messages_are_refused_and_change_nothing() {
    let mut book = book();
    let manifest = book.manifest().clone();
    for (message, refusal) in unfit() {
        assert_eq!(book.apply(&message), Err(ApplyError::Refused(refusal)));
        unchanged(&book, &manifest);
    }
    // The largest price that fits would cross; the book is the same and says so.
    assert!(matches!(
        book.apply(&open(C, "10000000")),
        Err(ApplyError::Invalidated(_))
    ));
}

#[test]
fn unfit_messages_stop_a_handshake() {
    for (message, refusal) in unfit() {
        let mut book = book();
        let fit = open(C, "9");
        let stopped = book.bootstrap_with_buffer(&snapshot(vec![]), [&message, &fit]);
        assert_eq!(
            stopped,
            Err(HandshakeError::Apply(ApplyError::Refused(refusal)))
        );
        assert_eq!(book.last_sequence(), Ok(100));
    }
}

#[test]
fn unfit_snapshots_are_refused_and_not_counted() {
    let mut book = book();
    let manifest = book.manifest().clone();
    for (orders, refusal) in [
        (
            vec![order(C, "10000000.00000001", "1")],
            Refusal::AmountOutOfRange,
        ),
        (
            vec![order(C, "1", "0.000000001")],
            Refusal::AmountOutOfRange,
        ),
        (vec![order("c", "1", "1")], Refusal::NotAPiece),
    ] {
        assert_eq!(
            book.bootstrap(&snapshot(orders)),
            Err(SnapshotError::Refused(refusal))
        );
        unchanged(&book, &manifest);
    }
}

#[test]
fn limits_above_the_ceiling_refuse_every_call() {
    let refusal = Refusal::LimitAboveCeiling;
    for (max_orders, max_levels) in [(4_097, 1), (1, 4_097), (usize::MAX, usize::MAX)] {
        let rules = VenueRules {
            max_orders,
            max_levels,
            ..VenueRules::default()
        };
        let mut book = BookReconstructor::new("BTC-USD", rules);
        assert_eq!(
            book.bootstrap(&snapshot(vec![])),
            Err(SnapshotError::Refused(refusal))
        );
        assert_eq!(book.apply(&open(C, "9")), Err(ApplyError::Refused(refusal)));
        assert_eq!(book.best(), Err(ViewError::Refused(refusal)));
        assert_eq!(book.l2(L3Side::Buy), Err(ViewError::Refused(refusal)));
        assert_eq!(book.stale_l2(L3Side::Buy), None);
        let own = book.queue_estimate_own(C);
        assert_eq!(own, Err(QueueError::View(ViewError::Refused(refusal))));
    }
}

#[test]
fn a_book_whose_product_has_no_words_takes_nothing() {
    for product in ["a name of more than 16 bytes", "\0", "BTC-USD\0"] {
        let mut book = BookReconstructor::new(product, VenueRules::default());
        let mut sent = snapshot(vec![]);
        for name in [product, "", "BTC-USD"] {
            sent.product_id = name.to_string();
            let refused = Err(SnapshotError::Refused(Refusal::NotAPiece));
            assert_eq!(book.bootstrap(&sent), refused, "{product:?} {name:?}");
        }
        assert_eq!(book.last_sequence(), Err(ViewError::NotBootstrapped));
    }
}

#[test]
fn amounts_of_any_scale_name_the_same_level() {
    let mut book = BookReconstructor::new("BTC-USD", VenueRules::default());
    let bids = vec![order(A, "10.5", "2"), order(C, "10.5000000000000", "1.00")];
    book.bootstrap(&snapshot(bids)).expect("a sound snapshot");
    let queue = book
        .level_queue(L3Side::Buy, decimal("10.50"))
        .expect("a valid book");
    let sizes: Vec<_> = queue.iter().map(|entry| entry.remaining).collect();
    assert_eq!(sizes, [decimal("2"), decimal("1")]);
    // A price that is no amount names no level.
    assert_eq!(
        book.level_queue(L3Side::Buy, decimal("10.5000000001")),
        Ok(vec![])
    );
}

#[test]
fn an_own_id_that_is_no_uuid_does_not_rest() {
    let order_id = "C".to_string();
    let not_resting = Err(QueueError::NotResting { order_id });
    assert_eq!(book().queue_estimate_own("C"), not_resting);
    let fresh = BookReconstructor::new("BTC-USD", VenueRules::default());
    let unavailable = Err(QueueError::View(ViewError::NotBootstrapped));
    assert_eq!(fresh.queue_estimate_own("C"), unavailable);
}

#[test]
fn segments_have_times() {
    let mut book = book();
    assert_eq!(book.segment_times(0).map(|times| times.last_us), Some(0));
    let (mut first, mut second) = (open(C, "9"), open(A, "9"));
    (first.time_us, second.time_us, second.sequence) = (1_000, 1_500, 102);
    let event = second.event.clone();
    assert!(book.apply(&first).is_ok());
    // 01 counts accepted messages only.
    assert!(
        matches!(book.apply(&second), Err(ApplyError::Invalidated(_))),
        "{event:?}"
    );
    let times = book.segment_times(0).expect("a segment");
    assert_eq!(
        (times.first_us, times.last_us, times.elapsed_us()),
        (1_000, 1_000, 0)
    );
    assert_eq!(book.segment_times(1), None);
}

/// As the Rust's is.
#[test]
fn a_book_can_be_shared_between_threads() {
    fn shared<T: Send + Sync>(_: &T) {}
    shared(&book());
}

#[test]
fn refusals_have_01s_numbers() {
    assert_eq!(Refusal::LimitAboveCeiling.number(), 1);
    assert_eq!(Refusal::NotAPiece.number(), 4);
    assert_eq!(Refusal::AmountOutOfRange.number(), 5);
}
