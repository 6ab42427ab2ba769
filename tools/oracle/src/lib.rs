//! The Rust being ported, built unchanged, beside an independent model of the rules, a generator of calls and the lines both speak.

pub use rust_decimal::Decimal;

#[cfg(feature = "port")]
pub mod bench;
pub mod call;
pub mod compare;
pub mod daybook;
pub mod difference;
pub mod generate;
pub mod lines;
pub mod model;
pub mod piece;
pub mod pieces;
#[cfg(feature = "port")]
pub mod port;
#[cfg(feature = "port")]
pub mod ported;
#[cfg(feature = "port")]
pub mod reader;
#[cfg(feature = "port")]
pub mod rows;
pub mod rust;
#[cfg(feature = "port")]
pub mod show;
pub mod shrink;
pub mod vectors;

/// The Rust being ported, byte for byte.
#[allow(dead_code)]
#[path = "../../../docs/src/l3"]
mod l3 {
    pub mod book;
    pub mod message;
    pub mod queue;
    pub mod reconstructor;
}
