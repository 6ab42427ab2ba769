//! One book: the Rust's reconstructor with the host's side of it.

use std::str::FromStr;

use super::{Reply, convert};
use crate::Decimal;
use crate::call::{
    Act, Anchor, Applied, Buffers, CEILING, Estimate, Handshake, Left, Lent, LevelDigest,
    LevelOrder, ROW_WORDS, Rules, Segment, SegmentName, State, Status, Values,
};
use crate::l3::book::{Book, PriorityEvidence};
use crate::l3::message::L3Side;
use crate::l3::queue::QueueEstimate;
use crate::l3::reconstructor::{ApplyError, BookReconstructor, HandshakeError, ViewError};
use crate::piece::{
    Id, Message, Product, Side, Snapshot, decode_message, decode_snapshot, shape_message,
};

pub struct Host {
    reconstructor: BookReconstructor,
    product: Product,
    rules: Rules,
    number: u64,
    /// Tells creations apart that share a number.
    pub creation: u64,
    row_words: u64,
    segment_records: u64,
    /// First and last time of each segment.
    times: Vec<(u64, u64)>,
    /// Drops by handshake steps, which the Rust counts in its own loop only.
    dropped: u64,
    /// Resting orders, and the digest of the levels.
    rows: u64,
    levels: u64,
}

fn digest_book(book: &Book) -> u64 {
    let mut digest = LevelDigest::default();
    let mut walk = |side: Side, price: &Decimal, level: &crate::l3::book::Level| {
        digest.level(side, convert::word(*price), convert::word(level.total));
        for id in &level.queue {
            let order = &book.orders[id];
            digest.order(&LevelOrder {
                id: convert::id_of(id),
                remaining: convert::word(order.remaining),
                observed: matches!(order.evidence, PriorityEvidence::Observed { .. }),
                entered_at: order.entered_at,
                decreased_at: order.decreased_at,
            });
        }
    };
    for (price, level) in book.levels(L3Side::Buy).iter().rev() {
        walk(Side::Buy, price, level);
    }
    for (price, level) in book.levels(L3Side::Sell) {
        walk(Side::Sell, price, level);
    }
    digest.value()
}

/// How a fresh buffer is left with its first `words` words written.
fn written(words: u64) -> Left {
    match words {
        0 => Left::Untouched,
        words => Left::Written(words),
    }
}

impl Host {
    pub fn new(act: &Act, creation: u64) -> Self {
        let &Act::Create {
            product,
            rules,
            number,
            row_words,
            segment_records,
            ..
        } = act
        else {
            unreachable!("called for creations only");
        };
        let text = convert::product_text(&product);
        Self {
            reconstructor: BookReconstructor::new(text, convert::rules(&rules)),
            product,
            rules,
            number,
            creation,
            row_words,
            segment_records,
            times: Vec::new(),
            dropped: 0,
            rows: 0,
            levels: LevelDigest::default().value(),
        }
    }

    fn segments(&self) -> u64 {
        self.times.len() as u64
    }

    pub fn current_segment(&self) -> Option<SegmentName> {
        Some(SegmentName {
            number: self.number,
            place: self.segments().checked_sub(1)?,
        })
    }

    /// Without a segment, one that has ended.
    pub fn handshake(&self) -> Handshake {
        let segment = self.current_segment();
        let last = self.reconstructor.manifest().segments.last();
        Handshake {
            segment: segment.unwrap_or(SegmentName {
                number: self.number,
                place: 0,
            }),
            start_seq: last.map_or(0, |segment| segment.start_seq),
            applied: 0,
            ended: segment.is_none(),
        }
    }

    /// The records, with the times that the runner keeps.
    fn records(&self) -> impl DoubleEndedIterator<Item = Segment> {
        let segments = self.reconstructor.manifest().segments.iter();
        segments
            .zip(&self.times)
            .map(|(segment, &(first_us, last_us))| Segment {
                start_seq: segment.start_seq,
                last_good_seq: segment.last_good_seq,
                end: convert::segment_end(&segment.end),
                first_us,
                last_us,
            })
    }

    fn counts(&self) -> crate::call::Counts {
        let mut counts = convert::counts(&self.reconstructor.manifest().counts);
        counts.handshake_dropped += self.dropped;
        counts
    }

    pub fn state(&self) -> State {
        let (status, last_sequence) = match self.reconstructor.last_sequence() {
            Ok(last) => (Status::Valid, last),
            Err(ViewError::Invalidated(why)) => {
                let why = convert::invalidation(&why);
                (Status::Invalid(why), why.last_good_seq)
            }
            Err(_) => (Status::NoSnapshot, 0),
        };
        State {
            rows: self.rows,
            segments: self.segments(),
            last_sequence,
            status,
            counts: self.counts(),
            last_segment: self.records().next_back(),
            levels: Some(self.levels),
            memory: None,
        }
    }

    /// Takes the rows' number and the levels anew from the Rust; of an invalid book it shows the totals only.
    fn refresh(&mut self) {
        if let Ok((book, _)) = self.reconstructor.valid_book() {
            self.rows = book.orders.len() as u64;
            self.levels = digest_book(book);
            return;
        }
        let mut digest = LevelDigest::default();
        for side in [Side::Buy, Side::Sell] {
            let stale = self.reconstructor.stale_l2(convert::side(side));
            for (price, total) in stale.unwrap_or_default() {
                digest.level(side, convert::word(price), convert::word(total));
            }
        }
        self.levels = digest.value();
    }

    /// 1, and 2 for the rows.
    pub fn limits(&self, lent: &Lent) -> Option<u8> {
        if self.rules.max_orders > CEILING || self.rules.max_levels > CEILING {
            return Some(1);
        }
        let rows = lent.rows.min(self.row_words);
        (rows < ROW_WORDS * self.rules.max_orders).then_some(2)
    }

    /// 2 for the segment list.
    pub fn short_list(&self, lent: &Lent) -> Option<u8> {
        (lent.segments.min(self.segment_records) < self.segments()).then_some(2)
    }

    /// 15 or 18.
    pub fn no_view(&self) -> Option<Reply> {
        let error = self.reconstructor.last_sequence().err()?;
        let (number, values) = convert::view_error(&error);
        Some(Reply::rust(number, values))
    }

    /// Damage that no rule looks at: past the memory, past the last row, past the last record.
    pub fn shrugs_off(&self, act: &Act) -> bool {
        match act {
            Act::SetRow { index, .. } => {
                *index >= self.row_words || *index >= ROW_WORDS * self.rows
            }
            Act::SetSegment { index, .. } => {
                *index >= self.segment_records || *index >= self.segments()
            }
            _ => false,
        }
    }

    /// The calls that concern no other slot.
    pub fn plain(&mut self, lent: &Lent, act: &Act) -> Reply {
        match act {
            Act::Bootstrap { piece } => self.bootstrap(lent, piece),
            Act::Apply { piece } => self.apply_piece(lent, piece),
            Act::LevelQueue { side, price } => self.level_queue(lent, *side, *price),
            Act::PriorityProfile { side } => self.priority_profile(lent, *side),
            Act::StaleL2 { side } => self.stale_l2(lent, *side),
            Act::L2 { side } => self.l2(lent, *side),
            Act::Best | Act::LastSequence | Act::Audit => self.small_read(lent, act),
            Act::Manifest => {
                let shown = lent.segments.min(self.segment_records) as usize;
                Reply::rust(
                    0,
                    Values::Manifest {
                        product: self.product,
                        rules: self.rules,
                        number: self.number,
                        counts: self.counts(),
                        segments: self.records().take(shown).collect(),
                    },
                )
            }
            Act::Invalidation => {
                let why = self.reconstructor.invalidation();
                Reply::rust(0, Values::InForce(why.map(convert::invalidation)))
            }
            act => unreachable!("{act:?} is dealt with elsewhere"),
        }
    }

    /// The snapshot of a piece, unless the runner turns it away: 1, 2, 4, 5, 6.
    fn snapshot(&self, lent: &Lent, piece: &[u8]) -> Result<Snapshot, u8> {
        if let Some(number) = self.limits(lent).or_else(|| self.short_list(lent)) {
            return Err(number);
        }
        let snapshot = decode_snapshot(piece)?;
        if lent.segments.min(self.segment_records) == self.segments() {
            return Err(6);
        }
        Ok(snapshot)
    }

    fn bootstrap(&mut self, lent: &Lent, piece: &[u8]) -> Reply {
        let snapshot = match self.snapshot(lent, piece) {
            Ok(snapshot) => snapshot,
            Err(number) => return Reply::runner(number),
        };
        let number = match self.reconstructor.bootstrap(&convert::snapshot(&snapshot)) {
            Ok(()) => {
                self.times.push((0, 0));
                self.refresh();
                0
            }
            Err(error) => convert::snapshot_error(&error),
        };
        Reply::rust(number, Values::Nothing)
    }

    /// The Rust's own `bootstrap_with_buffer`. Messages that a step would turn away by 4 or 5 are the runner's to leave out.
    pub fn bootstrap_with_buffer(
        &mut self,
        lent: &Lent,
        piece: &[u8],
        buffer: &[Vec<u8>],
    ) -> Reply {
        let snapshot = match self.snapshot(lent, piece) {
            Ok(snapshot) => snapshot,
            Err(number) => return Reply::runner(number),
        };
        let messages: Vec<Message> = buffer
            .iter()
            .filter_map(|piece| decode_message(piece).ok())
            .collect();
        let theirs: Vec<_> = messages.iter().map(convert::message).collect();
        let whole = self
            .reconstructor
            .bootstrap_with_buffer(&convert::snapshot(&snapshot), &theirs);
        let (told, invalidation) = match whole {
            Ok(applied) => (Some(applied as u64), None),
            Err(HandshakeError::Snapshot(error)) => {
                return Reply::rust(convert::snapshot_error(&error), Values::Nothing);
            }
            Err(HandshakeError::Apply(ApplyError::Invalidated(why))) => {
                (None, Some(convert::invalidation(&why)))
            }
            Err(other) => unreachable!("{other:?} after an accepted snapshot"),
        };
        let applied = self.take_buffer(&snapshot, &messages, told);
        let handshake = Handshake {
            segment: self.current_segment().expect("a snapshot was accepted"),
            start_seq: snapshot.sequence,
            applied,
            ended: invalidation.is_some(),
        };
        let values = Values::Buffered {
            invalidation,
            handshake,
        };
        Reply::rust(if handshake.ended { 16 } else { 0 }, values)
    }

    /// Follows a buffer that the Rust took in one call, and gives the number applied. The Rust tells it of a whole buffer only; of another
    /// it is the record's, and the rows of the book, which is invalid, are those of a book that is fed only what was accepted.
    fn take_buffer(&mut self, snapshot: &Snapshot, messages: &[Message], told: Option<u64>) -> u64 {
        let record = self.reconstructor.manifest().segments.last();
        let record = record.expect("a snapshot was accepted");
        let applied = told.unwrap_or(record.last_good_seq - record.start_seq);
        let accepted: Vec<&Message> = messages
            .iter()
            .filter(|m| m.product == self.product && m.sequence > snapshot.sequence)
            .take(applied as usize)
            .collect();
        let time = |message: Option<&&Message>| message.map_or(0, |message| message.time_us);
        self.times
            .push((time(accepted.first()), time(accepted.last())));
        if told.is_none() {
            let product = convert::product_text(&self.product);
            let mut fed = BookReconstructor::new(product, convert::rules(&self.rules));
            fed.bootstrap(&convert::snapshot(snapshot))
                .expect("it was accepted");
            for message in accepted {
                fed.apply(&convert::message(message))
                    .expect("it was accepted");
            }
            let (book, _) = fed.valid_book().expect("nothing was refused");
            self.rows = book.orders.len() as u64;
        }
        self.refresh();
        applied
    }

    fn apply_piece(&mut self, lent: &Lent, piece: &[u8]) -> Reply {
        let message = match shape_message(piece) {
            Ok(message) => message,
            Err(number) => return Reply::runner(number),
        };
        if let Some(number) = self.limits(lent).or_else(|| self.short_list(lent)) {
            return Reply::runner(number);
        }
        if !message.event.amounts_in_range() {
            return Reply::runner(5);
        }
        match self.apply(&message) {
            Ok(applied) => Reply::rust(0, Values::Applied(applied)),
            Err(ApplyError::WrongProduct { .. }) => Reply::rust(10, Values::Nothing),
            Err(ApplyError::NotBootstrapped) => Reply::rust(15, Values::Nothing),
            Err(ApplyError::Invalidated(why)) => {
                Reply::rust(16, Values::Invalidation(convert::invalidation(&why)))
            }
            Err(ApplyError::AwaitingSnapshot(why)) => {
                Reply::rust(17, Values::Invalidation(convert::invalidation(&why)))
            }
        }
    }

    /// The Rust's `apply`, with the segment's times beside it: the first accepted message is told by last good = start.
    pub fn apply(&mut self, message: &Message) -> Result<Applied, ApplyError> {
        let first = self
            .reconstructor
            .manifest()
            .segments
            .last()
            .is_some_and(|segment| segment.last_good_seq == segment.start_seq);
        let answer = self.reconstructor.apply(&convert::message(message));
        match &answer {
            Ok(applied) => {
                if let Some(times) = self.times.last_mut() {
                    times.0 = if first { message.time_us } else { times.0 };
                    times.1 = message.time_us;
                }
                if convert::applied(*applied) == Applied::BookChanged {
                    self.refresh();
                }
            }
            Err(ApplyError::Invalidated(_)) => self.refresh(),
            Err(_) => {}
        }
        answer.map(convert::applied)
    }

    /// Whether a handshake step drops the message; counts it if so.
    pub fn drops(&mut self, message: &Message) -> bool {
        let segments = &self.reconstructor.manifest().segments;
        let old = segments
            .last()
            .is_some_and(|segment| message.sequence <= segment.start_seq);
        let drops = old && message.product == self.product;
        self.dropped += u64::from(drops);
        drops
    }

    /// A level read's last step: 7, or the words and how scratch and output are left.
    fn entries(&self, lent: &Lent, words_an_entry: u64, words: Vec<u64>) -> Reply {
        let length = words.len() as u64;
        if length > lent.output {
            let mut reply = Reply::runner(7);
            reply.buffers = Self::untouched();
            return reply;
        }
        let entries = length / words_an_entry;
        let mut reply = Reply::rust(0, Values::Entries { entries, words });
        reply.buffers = Buffers {
            scratch: written(self.rules.max_orders),
            output: written(length),
            ahead: Left::NotLent,
        };
        reply
    }

    fn untouched() -> Buffers {
        Buffers {
            scratch: Left::Untouched,
            output: Left::Untouched,
            ahead: Left::NotLent,
        }
    }

    /// 1, 2 and, unless the read is of the stale book, 15 or 18.
    fn no_level_read(&self, lent: &Lent, stale: bool) -> Option<Reply> {
        let scratch = || (lent.scratch < self.rules.max_orders).then_some(2);
        let mut reply = match self.limits(lent).or_else(scratch) {
            Some(number) => Reply::runner(number),
            None if stale => return None,
            None => self.no_view()?,
        };
        reply.buffers = Self::untouched();
        Some(reply)
    }

    fn level_queue(&self, lent: &Lent, side: Side, price: i64) -> Reply {
        if let Some(reply) = self.no_level_read(lent, false) {
            return reply;
        }
        let queue = self
            .reconstructor
            .level_queue(convert::side(side), convert::amount(price))
            .expect("the book is valid");
        let words = queue.iter().flat_map(|entry| {
            let id = convert::id_of(&entry.order_id);
            let (observed, entered_at) = match entry.evidence {
                PriorityEvidence::Unknown => (0, 0),
                PriorityEvidence::Observed { sequence } => (1, sequence),
            };
            let remaining = convert::word(entry.remaining);
            [
                (id >> 64) as u64,
                id as u64,
                remaining,
                observed,
                entered_at,
            ]
        });
        self.entries(lent, 5, words.collect())
    }

    fn priority_profile(&self, lent: &Lent, side: Side) -> Reply {
        if let Some(reply) = self.no_level_read(lent, false) {
            return reply;
        }
        let profile = self
            .reconstructor
            .priority_profile(convert::side(side))
            .expect("the book is valid");
        let words = profile.iter().flat_map(|level| {
            [level.price, level.total, level.unknown_priority].map(convert::word)
        });
        self.entries(lent, 3, words.collect())
    }

    fn l2_words(levels: &[(Decimal, Decimal)]) -> Vec<u64> {
        let level = |(price, total): &(Decimal, Decimal)| [*price, *total].map(convert::word);
        levels.iter().flat_map(level).collect()
    }

    fn stale_l2(&self, lent: &Lent, side: Side) -> Reply {
        if let Some(reply) = self.no_level_read(lent, true) {
            return reply;
        }
        match self.reconstructor.stale_l2(convert::side(side)) {
            Some(levels) => self.entries(lent, 2, Self::l2_words(&levels)),
            None => {
                let mut reply = Reply::rust(0, Values::NoStale);
                reply.buffers = Self::untouched();
                reply
            }
        }
    }

    fn l2(&self, lent: &Lent, side: Side) -> Reply {
        if let Some(reply) = self.no_level_read(lent, false) {
            return reply;
        }
        let levels = self.reconstructor.l2(convert::side(side));
        let words = Self::l2_words(&levels.expect("the book is valid"));
        self.entries(lent, 2, words)
    }

    /// The reads that are lent the rows only.
    fn small_read(&self, lent: &Lent, act: &Act) -> Reply {
        if let Some(number) = self.limits(lent) {
            return Reply::runner(number);
        }
        let values = match act {
            Act::Best => self
                .reconstructor
                .best()
                .map(|(bid, ask)| Values::Best(bid.map(convert::units), ask.map(convert::units))),
            Act::LastSequence => self.reconstructor.last_sequence().map(Values::LastSequence),
            // The Rust's audit gives a text; a book that it finds at fault here is the runner's bug or the Rust's.
            _ => self.reconstructor.last_sequence().map(|_| {
                self.reconstructor.audit().expect("a valid book audits");
                Values::Nothing
            }),
        };
        match values {
            Ok(values) => Reply::rust(0, values),
            Err(error) => {
                let (number, values) = convert::view_error(&error);
                Reply::rust(number, values)
            }
        }
    }

    pub fn queue_estimate(
        &self,
        lent: &Lent,
        side: Side,
        price: i64,
    ) -> (Reply, Option<QueueEstimate>) {
        let refused = |mut reply: Reply| {
            reply.buffers.ahead = Left::Untouched;
            (reply, None)
        };
        if let Some(number) = self.limits(lent) {
            return refused(Reply::runner(number));
        }
        let made = match self
            .reconstructor
            .queue_estimate(convert::side(side), convert::amount(price))
        {
            Ok(made) => made,
            Err(error) => {
                let (number, values) = convert::queue_error(&error);
                return refused(Reply::rust(number, values));
            }
        };
        let (estimate, list) = self.opened(&made);
        let words = list.len() as u64;
        if words > lent.ahead {
            return refused(Reply::runner(7));
        }
        let mut reply = Reply::rust(0, Values::Estimate { estimate, list });
        reply.buffers.ahead = written(words);
        (reply, Some(made))
    }

    pub fn queue_estimate_own(&self, lent: &Lent, order_id: Id) -> (Reply, Option<QueueEstimate>) {
        if let Some(number) = self.limits(lent) {
            return (Reply::runner(number), None);
        }
        match self
            .reconstructor
            .queue_estimate_own(&convert::id_text(order_id))
        {
            Ok(made) => {
                let (estimate, list) = self.opened(&made);
                (
                    Reply::rust(0, Values::Estimate { estimate, list }),
                    Some(made),
                )
            }
            Err(error) => {
                let (number, values) = convert::queue_error(&error);
                (Reply::rust(number, values), None)
            }
        }
    }

    pub fn volume_ahead(&self, estimate: &QueueEstimate) -> Reply {
        match self.reconstructor.volume_ahead(estimate) {
            Ok(ahead) => Reply::rust(0, Values::Ahead(convert::ahead(&ahead))),
            Err(error) => {
                let (number, values) = convert::queue_error(&error);
                Reply::rust(number, values)
            }
        }
    }

    /// The fields of an estimate just made here. They are private in the Rust, but its `Debug` text shows them all.
    fn opened(&self, made: &QueueEstimate) -> (Estimate, Vec<u64>) {
        let text = format!("{made:?}");
        let after = |key: &str| text.split_once(key).map(|(_, rest)| rest);
        let number = |key: &str| {
            let digits = after(key).expect("the Debug text names the field");
            let end = digits.find(|c: char| !c.is_ascii_digit());
            digits[..end.unwrap_or(digits.len())]
                .parse()
                .expect("a whole number")
        };
        let price = after("price: ").and_then(|rest| rest.split(',').next());
        let price = Decimal::from_str(price.expect("a price")).expect("a Decimal");
        let mut list = Vec::new();
        let anchor = if let Some(own) = after("order_id: \"") {
            Anchor::Own {
                order_id: convert::id_of(&own[..32]),
                entered_at: number("entered_at: "),
            }
        } else {
            let entries = after("ahead: [")
                .expect("an ahead-list")
                .split("(\"")
                .skip(1);
            for entry in entries {
                let id = convert::id_of(&entry[..32]);
                let generation = entry[35..].split(')').next().expect("a closed pair");
                list.extend([(id >> 64) as u64, id as u64]);
                list.push(generation.parse().expect("a sequence"));
            }
            Anchor::Hypothetical {
                orders: list.len() as u64 / 3,
                created_at: number("created_at: "),
            }
        };
        let estimate = Estimate {
            side: if text.contains("side: Buy") {
                Side::Buy
            } else {
                Side::Sell
            },
            price: convert::units(price),
            segment: self.current_segment().expect("a valid book has a segment"),
            anchor,
        };
        (estimate, list)
    }
}
