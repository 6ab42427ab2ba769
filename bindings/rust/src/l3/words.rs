//! Values as the library's words, and back.

use super::message::{ChangeReason, DoneReason, L3Event, L3Message, L3Side};
use crate::Decimal;
use crate::sys::MESSAGE_WORDS;

/// The scale of an amount's units.
const SCALE: u32 = 8;

/// The units handed over for a decimal that is no whole number of them in a word: out of range, so that the library says 5 at its place. As a read's price it
/// names no level, as in the Rust.
const NO_AMOUNT: i64 = i64::MAX;

pub fn units(value: Decimal) -> i64 {
    let value = if value.scale() > SCALE {
        value.normalize()
    } else {
        value
    };
    let whole = SCALE.checked_sub(value.scale()).and_then(|zeros| {
        let units = value.mantissa().checked_mul(10_i128.pow(zeros))?;
        i64::try_from(units).ok()
    });
    whole.unwrap_or(NO_AMOUNT)
}

/// An amount's word.
pub fn word(value: Decimal) -> u64 {
    units(value).cast_unsigned()
}

/// The decimal of an amount's word. Zero is the Rust's own, of scale 0.
pub fn amount(word: u64) -> Decimal {
    match word.cast_signed() {
        0 => Decimal::ZERO,
        units => Decimal::new(units, SCALE),
    }
}

pub fn side_word(side: L3Side) -> u64 {
    match side {
        L3Side::Buy => 0,
        L3Side::Sell => 1,
    }
}

/// The id of a UUID as the venue writes it. Other texts name no order, so that text and id determine each other.
pub fn id_of(text: &str) -> Option<u128> {
    if text.len() != 36 {
        return None;
    }
    let mut id = 0;
    for (place, byte) in text.bytes().enumerate() {
        let digit = match (place, byte) {
            (8 | 13 | 18 | 23, b'-') => continue,
            (8 | 13 | 18 | 23, _) => return None,
            (_, b'0'..=b'9') => byte - b'0',
            (_, b'a'..=b'f') => byte - b'a' + 10,
            _ => return None,
        };
        id = id << 4 | u128::from(digit);
    }
    Some(id)
}

pub fn id_words(id: u128) -> [u64; 2] {
    [(id >> 64) as u64, id as u64]
}

pub fn id_text([high, low]: [u64; 2]) -> String {
    let (first, second, third) = (high >> 32, high >> 16 & 0xffff, high & 0xffff);
    let (fourth, last) = (low >> 48, low & 0xffff_ffff_ffff);
    format!("{first:08x}-{second:04x}-{third:04x}-{fourth:04x}-{last:012x}")
}

/// The words of a product: its bytes, padded with zeros. A name that is longer, or ends in a zero byte, is none.
pub fn product_words(name: &str) -> Option<[u64; 2]> {
    let mut bytes = [0; 16];
    bytes
        .get_mut(..name.len())?
        .copy_from_slice(name.as_bytes());
    let padded = u128::from_be_bytes(bytes);
    (!name.ends_with('\0')).then(|| id_words(padded))
}

/// A product that is not `own`, for a name that has no words.
pub fn other_product([high, low]: [u64; 2]) -> [u64; 2] {
    [!high, !low]
}

/// The words of a message for a product; none where an id is no UUID.
pub fn message_words(product: [u64; 2], message: &L3Message) -> Option<[u64; MESSAGE_WORDS]> {
    let mut words = Vec::with_capacity(MESSAGE_WORDS);
    let kind = kind_word(&message.event);
    words.extend([
        kind,
        product[0],
        product[1],
        message.sequence,
        message.time_us,
    ]);
    event_words(&mut words, &message.event)?;
    words.resize(MESSAGE_WORDS, 0);
    words.try_into().ok()
}

/// The number of an event's kind, in words and in pieces.
pub fn kind_word(event: &L3Event) -> u64 {
    match event {
        L3Event::Received { .. } => 1,
        L3Event::Open { .. } => 2,
        L3Event::Done { .. } => 3,
        L3Event::Match { .. } => 4,
        L3Event::Change { .. } => 5,
        L3Event::Unsupported { .. } => 6,
    }
}

fn optional(amount: &Option<Decimal>) -> [u64; 2] {
    amount.map_or([0, 0], |amount| [1, word(amount)])
}

fn event_words(words: &mut Vec<u64>, event: &L3Event) -> Option<()> {
    match event {
        L3Event::Received { order_id, side } => {
            words.extend(id_words(id_of(order_id)?));
            words.push(side_word(*side));
        }
        L3Event::Open {
            order_id,
            side,
            price,
            remaining,
        } => {
            words.extend(id_words(id_of(order_id)?));
            words.extend([side_word(*side), word(*price), word(*remaining)]);
        }
        L3Event::Match {
            maker_id,
            taker_id,
            side,
            price,
            size,
        } => {
            words.extend(id_words(id_of(maker_id)?));
            words.extend(id_words(id_of(taker_id)?));
            words.extend([side_word(*side), word(*price), word(*size)]);
        }
        L3Event::Done { .. } | L3Event::Change { .. } => optional_words(words, event)?,
        // Every number of an unsupported kind gets 44; its name is kept by the error alone.
        L3Event::Unsupported { .. } => {}
    }
    Some(())
}

/// The events with optional amounts.
fn optional_words(words: &mut Vec<u64>, event: &L3Event) -> Option<()> {
    match event {
        L3Event::Done {
            order_id,
            side,
            price,
            reason,
            remaining,
        } => {
            words.extend(id_words(id_of(order_id)?));
            words.push(side_word(*side));
            words.extend(optional(price));
            words.push(u64::from(*reason == DoneReason::Canceled));
            words.extend(optional(remaining));
        }
        L3Event::Change {
            order_id,
            side,
            reason,
            price,
            old_size,
            new_size,
            old_price,
            new_price,
            new_funds,
        } => {
            words.extend(id_words(id_of(order_id)?));
            let modify = u64::from(*reason == ChangeReason::ModifyOrder);
            words.extend([side_word(*side), modify]);
            let amounts = [price, old_size, new_size, old_price, new_price, new_funds];
            words.extend(amounts.into_iter().flat_map(optional));
        }
        _ => unreachable!("called for events with optional amounts"),
    }
    Some(())
}

#[cfg(test)]
mod tests;
