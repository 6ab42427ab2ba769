//! Snapshots and messages as pieces: the bytes that 01 gives them.

use super::message::{
    ChangeReason, DoneReason, L3Event, L3Message, L3Side, L3Snapshot, SnapshotOrder,
};
use super::words::{id_of, kind_word, side_word, units};
use crate::Decimal;

/// The kind byte of a snapshot.
const SNAPSHOT: u64 = 0;

/// The bytes of a number of orders, and of an order.
const COUNT_BYTES: usize = 4;
const ORDER_BYTES: usize = 32;

/// A piece in the making. A field without bytes gives none.
struct Piece(Vec<u8>);

impl Piece {
    /// What stands before the fields of every piece.
    fn headed(kind: u64, product: [u64; 2], sequence: u64, time_us: u64) -> Self {
        let mut piece = Piece(vec![kind as u8]);
        piece
            .0
            .extend(product.into_iter().flat_map(u64::to_be_bytes));
        piece.0.extend(sequence.to_le_bytes());
        piece.0.extend(time_us.to_le_bytes());
        piece
    }

    /// A number of orders, or of an unsupported kind.
    fn number(&mut self, value: usize) -> Option<()> {
        self.0.extend(u32::try_from(value).ok()?.to_le_bytes());
        Some(())
    }

    fn id(&mut self, text: &str) -> Option<()> {
        self.0.extend(id_of(text)?.to_be_bytes());
        Some(())
    }

    fn side(&mut self, side: L3Side) {
        self.0.push(side_word(side) as u8);
    }

    fn amount(&mut self, amount: Decimal) {
        self.0.extend(units(amount).to_le_bytes());
    }

    /// An amount, eight zeros where it is absent: a presence byte tells.
    fn optional(&mut self, amount: Option<Decimal>) {
        self.amount(amount.unwrap_or_default());
    }

    fn event(&mut self, event: &L3Event) -> Option<()> {
        match event {
            L3Event::Received { order_id, side } => {
                self.id(order_id)?;
                self.side(*side);
            }
            L3Event::Open {
                order_id,
                side,
                price,
                remaining,
            } => {
                self.id(order_id)?;
                self.side(*side);
                self.amount(*price);
                self.amount(*remaining);
            }
            L3Event::Match {
                maker_id,
                taker_id,
                side,
                price,
                size,
            } => {
                self.id(maker_id)?;
                self.id(taker_id)?;
                self.side(*side);
                self.amount(*price);
                self.amount(*size);
            }
            // Every number of an unsupported kind gets 44; a piece has no room for its name.
            L3Event::Unsupported { .. } => self.number(0)?,
            L3Event::Done { .. } | L3Event::Change { .. } => self.event_with_options(event)?,
        }
        Some(())
    }

    /// The events with optional amounts.
    fn event_with_options(&mut self, event: &L3Event) -> Option<()> {
        match event {
            L3Event::Done {
                order_id,
                side,
                price,
                reason,
                remaining,
            } => {
                self.id(order_id)?;
                self.side(*side);
                self.optional(*price);
                self.0.push(u8::from(*reason == DoneReason::Canceled));
                self.0.push(present([*price, *remaining]));
                self.optional(*remaining);
            }
            L3Event::Change {
                order_id,
                side,
                reason,
                price,
                old_size,
                new_size,
                old_price,
                new_price,
                new_funds,
            } => {
                self.id(order_id)?;
                self.side(*side);
                self.0.push(u8::from(*reason == ChangeReason::ModifyOrder));
                let amounts = [price, old_size, new_size, old_price, new_price, new_funds];
                self.all_optional(amounts.map(|amount| *amount));
            }
            _ => unreachable!("called for events with optional amounts"),
        }
        Some(())
    }

    /// The presence byte, and the amounts that are there.
    fn all_optional<const N: usize>(&mut self, amounts: [Option<Decimal>; N]) {
        self.0.push(present(amounts));
        for amount in amounts {
            self.optional(amount);
        }
    }
}

/// The presence byte: which amounts are there, the first one in the lowest bit.
fn present<const N: usize>(amounts: [Option<Decimal>; N]) -> u8 {
    let bits = amounts.map(|amount| u8::from(amount.is_some()));
    bits.into_iter().rev().fold(0, |byte, bit| byte << 1 | bit)
}

/// The piece of a snapshot of a product; none where an id is no UUID or a count does not fit its four bytes.
pub fn snapshot_piece(product: [u64; 2], snapshot: &L3Snapshot) -> Option<Vec<u8>> {
    let mut piece = Piece::headed(SNAPSHOT, product, snapshot.sequence, 0);
    let orders = snapshot.bids.len() + snapshot.asks.len();
    piece.0.reserve(2 * COUNT_BYTES + ORDER_BYTES * orders);
    piece.number(snapshot.bids.len())?;
    piece.number(snapshot.asks.len())?;
    for SnapshotOrder {
        order_id,
        price,
        size,
    } in snapshot.bids.iter().chain(&snapshot.asks)
    {
        piece.id(order_id)?;
        piece.amount(*price);
        piece.amount(*size);
    }
    Some(piece.0)
}

/// The piece of a message of a product; none where an id is no UUID.
pub fn message_piece(product: [u64; 2], message: &L3Message) -> Option<Vec<u8>> {
    let kind = kind_word(&message.event);
    let mut piece = Piece::headed(kind, product, message.sequence, message.time_us);
    piece.event(&message.event)?;
    Some(piece.0)
}

#[cfg(test)]
mod tests;
