//! The unchanged Rust as a [`Subject`].
//!
//! The Rust decides 10 to 52 and every value it has. The runner supplies what the Rust lacks: 1, 2, 4 to 9, segment times,
//! the handshake one message at a time, lent lengths and the port's ceilings. Where neither can say, the answer is no word.

pub(crate) mod convert;
mod host;
#[cfg(test)]
mod tests;

use std::collections::BTreeMap;

use crate::call::{
    Act, Anchor, Answer, Buffers, CEILING, Call, Estimate, FRESH_LIMIT, Handshake, Lent, Said,
    Stepped, Subject, Values, Voice,
};
use crate::l3::queue::QueueEstimate;
use crate::l3::reconstructor::ApplyError;
use crate::piece::{Message, Side, decode_message, decode_snapshot, shape_message};
use host::Host;

/// What the runner knows of a slot.
enum Slot<T> {
    Known(T),
    /// Damaged, forged or drawn from something damaged.
    NoWord,
}

/// An estimate with what the runner must know of it.
struct Held {
    value: Estimate,
    /// The creation that made it, and the Rust's own value; none for a forged one.
    made: Option<(u64, QueueEstimate)>,
    list_words: u64,
}

/// The Rust's runner.
#[derive(Default)]
pub struct Rust {
    books: BTreeMap<u8, Slot<Box<Host>>>,
    handshakes: BTreeMap<u8, Slot<Handshake>>,
    estimates: BTreeMap<u8, Slot<Held>>,
    creations: u64,
}

/// A number with its values, before the state is added.
struct Reply {
    number: u8,
    voice: Voice,
    values: Values,
    buffers: Buffers,
}

impl Reply {
    fn new(number: u8, voice: Voice, values: Values) -> Self {
        Self {
            number,
            voice,
            values,
            buffers: Buffers::NONE,
        }
    }

    fn runner(number: u8) -> Self {
        Self::new(number, Voice::Runner, Values::Nothing)
    }

    fn rust(number: u8, values: Values) -> Self {
        Self::new(number, Voice::Rust, values)
    }

    fn said(self, host: Option<&Host>) -> Answer {
        Answer::Said(Box::new(Said {
            number: self.number,
            voice: self.voice,
            values: self.values,
            buffers: self.buffers,
            state: host.map(Host::state),
        }))
    }
}

impl Subject for Rust {
    fn call(&mut self, call: &Call) -> Answer {
        match &call.act {
            Act::Create { .. } => self.create(call),
            Act::ReadMessage { piece } => match decode_message(piece) {
                Ok(message) => Reply::new(0, Voice::Runner, Values::Message(message)),
                Err(number) => Reply::runner(number),
            }
            .said(None),
            Act::ReadSnapshot { piece } => match decode_snapshot(piece) {
                Ok(snapshot) => Reply::new(0, Voice::Runner, Values::Snapshot(snapshot)),
                Err(number) => Reply::runner(number),
            }
            .said(None),
            Act::ForgeHandshake { slot, handshake } => {
                self.handshakes.insert(*slot, Slot::Known(*handshake));
                Reply::new(0, Voice::Runner, Values::Handshake(*handshake)).said(None)
            }
            Act::ForgeEstimate {
                slot,
                estimate,
                list,
            } => {
                let held = Held {
                    value: *estimate,
                    made: None,
                    list_words: list.len() as u64,
                };
                self.estimates.insert(*slot, Slot::Known(held));
                Reply::runner(0).said(None)
            }
            Act::SetAhead { slot, index, .. } => self.set_ahead(*slot, *index),
            _ => self.on_book(call),
        }
    }
}

impl Rust {
    pub fn new() -> Self {
        Self::default()
    }

    fn create(&mut self, call: &Call) -> Answer {
        self.creations += 1;
        let host = Box::new(Host::new(&call.act, self.creations));
        let answer = Reply::runner(0).said(Some(&host));
        self.books.insert(call.book, Slot::Known(host));
        answer
    }

    fn set_ahead(&mut self, slot: u8, index: u64) -> Answer {
        match self.estimates.get_mut(&slot) {
            None => Answer::Absent,
            Some(Slot::NoWord) => Answer::NoWord,
            Some(Slot::Known(held)) => {
                if index < held.list_words {
                    held.made = None;
                }
                Reply::runner(0).said(None)
            }
        }
    }

    /// Whether the call names an empty handshake or estimate slot.
    fn names_empty_slot(&self, act: &Act) -> bool {
        match act {
            Act::Step { slot, .. } => !self.handshakes.contains_key(slot),
            Act::VolumeAhead { slot } => !self.estimates.contains_key(slot),
            _ => false,
        }
    }

    fn on_book(&mut self, call: &Call) -> Answer {
        if !self.books.contains_key(&call.book) || self.names_empty_slot(&call.act) {
            return Answer::Absent;
        }
        // Taken out of its slot, so that the other slots stay within reach.
        let Some(Slot::Known(mut host)) = self.books.insert(call.book, Slot::NoWord) else {
            self.spoil(&call.act);
            return Answer::NoWord;
        };
        let reply = match &call.act {
            Act::Handshake { slot } => {
                let handshake = host.handshake();
                self.handshakes.insert(*slot, Slot::Known(handshake));
                Some(Reply::new(0, Voice::Runner, Values::Handshake(handshake)))
            }
            Act::Step { slot, piece } => match self.handshakes.get_mut(slot) {
                Some(Slot::Known(handshake)) => Some(step(&mut host, handshake, &call.lent, piece)),
                _ => return Answer::NoWord,
            },
            Act::BootstrapWithBuffer {
                slot,
                piece,
                buffer,
            } => Some(self.buffered(&mut host, &call.lent, *slot, piece, buffer)),
            Act::QueueEstimate { slot, side, price } => {
                Some(self.queue_estimate(&host, &call.lent, *slot, *side, *price))
            }
            Act::QueueEstimateOwn { slot, order_id } => {
                let (reply, made) = host.queue_estimate_own(&call.lent, *order_id);
                self.hold(&host, *slot, &reply, made, 0);
                Some(reply)
            }
            Act::VolumeAhead { slot } => match self.estimates.get(slot) {
                Some(Slot::Known(held)) => volume_ahead(&host, &call.lent, held),
                _ => None,
            },
            Act::SetRow { .. } | Act::SetSegment { .. } | Act::SetState { .. } => {
                if !host.shrugs_off(&call.act) {
                    return Answer::NoWord;
                }
                Some(Reply::runner(0))
            }
            act => Some(host.plain(&call.lent, act)),
        };
        let answer = reply.map_or(Answer::NoWord, |reply| reply.said(Some(&host)));
        self.books.insert(call.book, Slot::Known(host));
        answer
    }

    /// A call on a book without a word leaves the slot it may write without a word.
    fn spoil(&mut self, act: &Act) {
        match act {
            Act::Handshake { slot }
            | Act::Step { slot, .. }
            | Act::BootstrapWithBuffer { slot, .. } => {
                self.handshakes.insert(*slot, Slot::NoWord);
            }
            Act::QueueEstimate { slot, .. } | Act::QueueEstimateOwn { slot, .. } => {
                self.estimates.insert(*slot, Slot::NoWord);
            }
            _ => {}
        }
    }

    fn buffered(
        &mut self,
        host: &mut Host,
        lent: &Lent,
        slot: u8,
        piece: &[u8],
        buffer: &[Vec<u8>],
    ) -> Reply {
        let reply = host.bootstrap_with_buffer(lent, piece, buffer);
        if let Values::Buffered { handshake, .. } = reply.values {
            self.handshakes.insert(slot, Slot::Known(handshake));
        }
        reply
    }

    fn queue_estimate(
        &mut self,
        host: &Host,
        lent: &Lent,
        slot: u8,
        side: Side,
        price: i64,
    ) -> Reply {
        let (reply, made) = host.queue_estimate(lent, side, price);
        self.hold(host, slot, &reply, made, lent.ahead.min(FRESH_LIMIT));
        reply
    }

    /// Puts an estimate just made into its slot.
    fn hold(
        &mut self,
        host: &Host,
        slot: u8,
        reply: &Reply,
        made: Option<QueueEstimate>,
        list_words: u64,
    ) {
        if let (Values::Estimate { estimate, .. }, Some(made)) = (&reply.values, made) {
            let held = Held {
                value: *estimate,
                made: Some((host.creation, made)),
                list_words,
            };
            self.estimates.insert(slot, Slot::Known(held));
        }
    }
}

/// What turns a step away before it is dropped or applied: 1, 2, 9, 5.
fn no_step(host: &Host, handshake: &Handshake, lent: &Lent, message: &Message) -> Option<u8> {
    let other = handshake.ended || host.current_segment() != Some(handshake.segment);
    host.limits(lent)
        .or_else(|| host.short_list(lent))
        .or_else(|| other.then_some(9))
        .or_else(|| (!message.event.amounts_in_range()).then_some(5))
}

/// One message of a handshake: 4, 1, 2, 9, 5, then a drop or the Rust's `apply`.
fn step(host: &mut Host, handshake: &mut Handshake, lent: &Lent, piece: &[u8]) -> Reply {
    let reply = |number, voice, stepped, invalidation, handshake: &Handshake| {
        let values = Values::Step {
            stepped,
            invalidation,
            handshake: *handshake,
        };
        Reply::new(number, voice, values)
    };
    let message = match shape_message(piece) {
        Ok(message) => message,
        Err(number) => return reply(number, Voice::Runner, None, None, handshake),
    };
    if let Some(number) = no_step(host, handshake, lent, &message) {
        return reply(number, Voice::Runner, None, None, handshake);
    }
    if host.drops(&message) {
        return reply(0, Voice::Runner, Some(Stepped::Dropped), None, handshake);
    }
    let (number, stepped, why) = match host.apply(&message) {
        Ok(applied) => (0, Some(Stepped::Applied(applied)), None),
        Err(ApplyError::WrongProduct { .. }) => (10, None, None),
        Err(ApplyError::NotBootstrapped) => (15, None, None),
        Err(ApplyError::Invalidated(why)) => (16, None, Some(why)),
        Err(ApplyError::AwaitingSnapshot(why)) => (17, None, Some(why)),
    };
    handshake.applied = handshake
        .applied
        .saturating_add(u64::from(stepped.is_some()));
    handshake.ended = why.is_some();
    let why = why.as_ref().map(convert::invalidation);
    reply(number, Voice::Rust, stepped, why, handshake)
}

/// `None` is no word: a forged estimate, or one that only the host's numbers make look like this segment's.
fn volume_ahead(host: &Host, lent: &Lent, held: &Held) -> Option<Reply> {
    if let Some(number) = host.limits(lent) {
        return Some(Reply::runner(number));
    }
    if let Some(reply) = host.no_view() {
        return Some(reply);
    }
    if let Anchor::Hypothetical { orders, .. } = held.value.anchor
        && (orders > CEILING || lent.ahead.min(held.list_words) < 3 * orders)
    {
        return Some(Reply::runner(8));
    }
    let (creation, estimate) = held.made.as_ref()?;
    if *creation != host.creation && host.current_segment() == Some(held.value.segment) {
        return None;
    }
    Some(host.volume_ahead(estimate))
}
