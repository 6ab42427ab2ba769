//! The `l3` order book of `market-maker-rs`, proved: the same names over a library whose every answer is proved against its definition.
//!
//! A host changes one line, `use market_maker_rs::l3::...` to `use pinuglaw::l3::...`:
//!
//! ```
//! use pinuglaw::Decimal;
//! use pinuglaw::l3::{BookReconstructor, L3Side, L3Snapshot, SnapshotOrder, VenueRules};
//!
//! let mut book = BookReconstructor::new("BTC-USD", VenueRules::default());
//! let bid = SnapshotOrder {
//!     order_id: "d50ec984-77a8-460a-b958-66f114b0de9b".to_string(),
//!     price: Decimal::new(10_50, 2),
//!     size: Decimal::new(2, 0),
//! };
//! book.bootstrap(&L3Snapshot {
//!     product_id: "BTC-USD".to_string(),
//!     sequence: 100,
//!     bids: vec![bid],
//!     asks: vec![],
//! })?;
//! let estimate = book.queue_estimate(L3Side::Buy, Decimal::new(10_50, 2)).unwrap();
//! let ahead = book.volume_ahead(&estimate).unwrap();
//! assert_eq!((ahead.volume, ahead.at_seq), (Decimal::new(2, 0), 100));
//! # Ok::<(), pinuglaw::l3::SnapshotError>(())
//! ```
//!
//! [`daybook()`] lists which stretches of a day could be shown, from a file of its snapshots and messages.
//!
//! What differs from the Rust, beyond what [`l3`] says, is in `docs/DIFFERENCES.md`. [`sys`] has the exported functions themselves.

#![deny(missing_docs)]

pub use rust_decimal::Decimal;

pub mod daybook;
pub mod l3;
pub mod sys;

pub use daybook::daybook;
