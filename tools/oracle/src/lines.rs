//! Calls and answers as lines of text; LINES.md describes them.

use std::fmt::{self, Display};
use std::str::SplitAsciiWhitespace;

use crate::call::{
    Act, Anchor, Answer, Applied, Assumption, Call, Counts, Estimate, Field, Handshake,
    Invalidation, Left, Lent, Rules, Said, Segment, SegmentEnd, SegmentName, SizeDecrease, State,
    Status, Stepped, Values, Voice,
};
use crate::piece::{ChangeReason, DoneReason, Event, Id, Message, Product, Side, Snapshot};

/// Words with one space between.
#[derive(Default)]
pub struct Line(String);

impl Line {
    pub fn put(&mut self, word: impl Display) -> &mut Self {
        if !self.0.is_empty() {
            self.0.push(' ');
        }
        self.0.push_str(&word.to_string());
        self
    }

    fn all<T: Display>(&mut self, words: impl IntoIterator<Item = T>) -> &mut Self {
        for word in words {
            self.put(word);
        }
        self
    }

    fn hex(&mut self, bytes: &[u8]) -> &mut Self {
        let digits: String = bytes.iter().map(|byte| format!("{byte:02x}")).collect();
        self.put(if digits.is_empty() { "-" } else { &digits })
    }

    fn id(&mut self, id: Id) -> &mut Self {
        self.put(format_args!("{id:032x}"))
    }

    /// The two words of an id, high first.
    fn id_words(&mut self, id: Id) -> &mut Self {
        self.put((id >> 64) as u64).put(id as u64)
    }

    fn product_words(&mut self, product: &Product) -> &mut Self {
        self.id_words(u128::from_be_bytes(*product))
    }

    fn side(&mut self, side: Side) -> &mut Self {
        self.put(match side {
            Side::Buy => 0,
            Side::Sell => 1,
        })
    }

    fn flag(&mut self, flag: bool) -> &mut Self {
        self.put(u8::from(flag))
    }

    /// `1 amount`, or `0 0`.
    fn optional(&mut self, amount: Option<i64>) -> &mut Self {
        self.flag(amount.is_some()).put(amount.unwrap_or(0))
    }

    fn rules(&mut self, rules: &Rules) -> &mut Self {
        self.put(match rules.size_decrease {
            SizeDecrease::KeepsPriority => 0,
            SizeDecrease::PriorityUnknown => 1,
        })
        .put(rules.max_orders)
        .put(rules.max_levels)
    }

    fn invalidation(&mut self, why: &Invalidation) -> &mut Self {
        self.put(why.last_good_seq)
            .put(why.first_offending_seq)
            .put(why.reason)
            .flag(why.funds)
    }

    /// A leading number, then the invalidation's four, zeros without one.
    fn tagged(&mut self, tag: u8, why: Option<&Invalidation>) -> &mut Self {
        self.put(tag);
        match why {
            Some(why) => self.invalidation(why),
            None => self.put("0 0 0 0"),
        }
    }

    fn optional_invalidation(&mut self, why: Option<&Invalidation>) -> &mut Self {
        self.tagged(u8::from(why.is_some()), why)
    }

    fn status(&mut self, status: &Status) -> &mut Self {
        match status {
            Status::NoSnapshot => self.tagged(0, None),
            Status::Valid => self.tagged(1, None),
            Status::Invalid(why) => self.tagged(2, Some(why)),
        }
    }

    fn segment(&mut self, segment: &Segment) -> &mut Self {
        self.put(segment.start_seq).put(segment.last_good_seq);
        match &segment.end {
            SegmentEnd::Open => self.tagged(0, None),
            SegmentEnd::Superseded => self.tagged(1, None),
            SegmentEnd::Invalidated(why) => self.tagged(2, Some(why)),
        }
        .put(segment.first_us)
        .put(segment.last_us)
    }

    fn name(&mut self, name: &SegmentName) -> &mut Self {
        self.put(name.number).put(name.place)
    }

    fn handshake(&mut self, handshake: &Handshake) -> &mut Self {
        self.name(&handshake.segment)
            .put(handshake.start_seq)
            .put(handshake.applied)
            .flag(handshake.ended)
    }

    fn estimate(&mut self, estimate: &Estimate, list: &[u64]) -> &mut Self {
        self.side(estimate.side)
            .put(estimate.price)
            .name(&estimate.segment);
        match estimate.anchor {
            Anchor::Hypothetical { orders, created_at } => self.put(0).put(orders).put(created_at),
            Anchor::Own {
                order_id,
                entered_at,
            } => self.put(1).id(order_id).put(entered_at),
        }
        .all(list)
    }

    /// A message as the program crate prints it: kind, product, sequence, time and the fields in order.
    pub fn message(&mut self, message: &Message) -> &mut Self {
        self.put(message.event.kind())
            .product_words(&message.product)
            .put(message.sequence)
            .put(message.time_us)
            .event(&message.event)
    }

    fn event(&mut self, event: &Event) -> &mut Self {
        match *event {
            Event::Received { order_id, side } => self.id_words(order_id).side(side),
            Event::Open {
                order_id,
                side,
                price,
                remaining,
            } => self.id_words(order_id).side(side).put(price).put(remaining),
            Event::Done {
                order_id,
                side,
                price,
                reason,
                remaining,
            } => self
                .id_words(order_id)
                .side(side)
                .optional(price)
                .flag(reason == DoneReason::Canceled)
                .optional(remaining),
            Event::Match {
                maker_id,
                taker_id,
                side,
                price,
                size,
            } => self
                .id_words(maker_id)
                .id_words(taker_id)
                .side(side)
                .put(price)
                .put(size),
            Event::Change { .. } => self.change(event),
            Event::Unsupported { kind } => self.put(kind),
        }
    }

    fn change(&mut self, event: &Event) -> &mut Self {
        let &Event::Change {
            order_id,
            side,
            reason,
            price,
            old_size,
            new_size,
            old_price,
            new_price,
            new_funds,
        } = event
        else {
            unreachable!("called for changes only");
        };
        self.id_words(order_id)
            .side(side)
            .flag(reason == ChangeReason::ModifyOrder);
        for amount in [price, old_size, new_size, old_price, new_price, new_funds] {
            self.optional(amount);
        }
        self
    }

    /// A snapshot as the program crate prints it.
    pub fn snapshot(&mut self, snapshot: &Snapshot) -> &mut Self {
        self.product_words(&snapshot.product)
            .put(snapshot.sequence)
            .put(snapshot.bids.len())
            .put(snapshot.asks.len());
        for order in snapshot.bids.iter().chain(&snapshot.asks) {
            self.id_words(order.id).put(order.price).put(order.size);
        }
        self
    }

    fn values(&mut self, values: &Values) -> &mut Self {
        match values {
            Values::Nothing => self.put("nothing"),
            Values::Applied(applied) => self.put("applied").flag(*applied == Applied::BookChanged),
            Values::Invalidation(why) => self.put("invalidation").invalidation(why),
            Values::Step {
                stepped,
                invalidation,
                handshake,
            } => self
                .put("step")
                .put(match stepped {
                    None => 0,
                    Some(Stepped::Dropped) => 1,
                    Some(Stepped::Applied(Applied::NoBookEffect)) => 2,
                    Some(Stepped::Applied(Applied::BookChanged)) => 3,
                })
                .optional_invalidation(invalidation.as_ref())
                .handshake(handshake),
            Values::Buffered {
                invalidation,
                handshake,
            } => self
                .put("buffered")
                .optional_invalidation(invalidation.as_ref())
                .handshake(handshake),
            Values::Handshake(handshake) => self.put("handshake").handshake(handshake),
            Values::Entries { entries, words } => self.put("entries").put(entries).all(words),
            Values::NoStale => self.put("none"),
            Values::Best(bid, ask) => self.put("best").optional(*bid).optional(*ask),
            Values::LastSequence(last) => self.put("last_sequence").put(last),
            Values::Estimate { estimate, list } => self.put("estimate").estimate(estimate, list),
            Values::Ahead(ahead) => self
                .put("ahead")
                .put(ahead.at_seq)
                .put(ahead.volume)
                .put(ahead.from_snapshot)
                .put(ahead.observed)
                .put(ahead.orders)
                .all(ahead.assumptions.iter().map(|assumption| match assumption {
                    Assumption::BackOfVisibleQueueAtCreation => 0,
                    Assumption::EntrySequenceIsPriority => 1,
                    Assumption::SizeDecreaseKeepsPriority => 2,
                })),
            Values::Manifest {
                product,
                rules,
                number,
                counts,
                segments,
            } => {
                self.put("manifest").hex(product).rules(rules).put(number);
                self.counts(counts).put(segments.len());
                for segment in segments {
                    self.segment(segment);
                }
                self
            }
            Values::InForce(why) => self.put("in_force").optional_invalidation(why.as_ref()),
            Values::Message(message) => self.put("message").message(message),
            Values::Snapshot(snapshot) => self.put("snapshot").snapshot(snapshot),
        }
    }

    fn counts(&mut self, counts: &Counts) -> &mut Self {
        self.all(counts.array())
    }

    fn left(&mut self, left: Left) -> &mut Self {
        match left {
            Left::NotLent => self.put("-"),
            Left::Untouched => self.put("="),
            Left::Written(words) => self.put(words),
            Left::Other(digest) => self.put(format_args!("?{digest:016x}")),
        }
    }

    fn digest(&mut self, digest: Option<u64>) -> &mut Self {
        match digest {
            Some(digest) => self.put(format_args!("{digest:016x}")),
            None => self.put("~"),
        }
    }

    fn state(&mut self, state: &State) -> &mut Self {
        self.put(state.rows)
            .put(state.segments)
            .put(state.last_sequence)
            .status(&state.status)
            .counts(&state.counts);
        match &state.last_segment {
            Some(segment) => self.put(1).segment(segment),
            None => self.put("0 0 0 0 0 0 0 0 0 0"),
        }
        .digest(state.levels)
        .digest(state.memory.map(|memory| memory.rows))
        .digest(state.memory.map(|memory| memory.segments))
    }

    fn said(&mut self, said: &Said) -> &mut Self {
        self.put(said.number)
            .put(match said.voice {
                Voice::Rust => "rust",
                Voice::Runner => "runner",
                Voice::Model => "model",
                Voice::Port => "port",
            })
            .values(&said.values)
            .put(";")
            .left(said.buffers.scratch)
            .left(said.buffers.output)
            .left(said.buffers.ahead)
            .put(";");
        match &said.state {
            Some(state) => self.state(state),
            None => self.put("-"),
        }
    }

    fn act(&mut self, act: &Act) -> &mut Self {
        match act {
            Act::Create {
                product,
                rules,
                number,
                row_words,
                segment_records,
                row_fill,
                segment_fill,
            } => self.hex(product).rules(rules).put(number).all([
                row_words,
                segment_records,
                row_fill,
                segment_fill,
            ]),
            Act::Bootstrap { piece }
            | Act::Apply { piece }
            | Act::ReadMessage { piece }
            | Act::ReadSnapshot { piece } => self.hex(piece),
            Act::Handshake { slot } | Act::VolumeAhead { slot } => self.put(slot),
            Act::Step { slot, piece } => self.put(slot).hex(piece),
            Act::BootstrapWithBuffer {
                slot,
                piece,
                buffer,
            } => {
                self.put(slot).hex(piece);
                buffer.iter().fold(self, |line, message| line.hex(message))
            }
            Act::LevelQueue { side, price } => self.side(*side).put(price),
            Act::PriorityProfile { side } | Act::StaleL2 { side } | Act::L2 { side } => {
                self.side(*side)
            }
            Act::QueueEstimate { slot, side, price } => self.put(slot).side(*side).put(price),
            Act::QueueEstimateOwn { slot, order_id } => self.put(slot).id(*order_id),
            Act::Best | Act::LastSequence | Act::Audit | Act::Manifest | Act::Invalidation => self,
            Act::SetRow { index, word } => self.put(index).put(word),
            Act::SetSegment { index, record } => self.put(index).segment(record),
            Act::SetState { field } => self.field(field),
            Act::ForgeHandshake { slot, handshake } => self.put(slot).handshake(handshake),
            Act::ForgeEstimate {
                slot,
                estimate,
                list,
            } => self.put(slot).estimate(estimate, list),
            Act::SetAhead { slot, index, word } => self.put(slot).put(index).put(word),
        }
    }

    fn field(&mut self, field: &Field) -> &mut Self {
        match field {
            Field::Rows(rows) => self.put("rows").put(rows),
            Field::Segments(segments) => self.put("segments").put(segments),
            Field::LastSequence(last) => self.put("last_sequence").put(last),
            Field::Status(status) => self.put("status").status(status),
            Field::Count(index, count) => self.put("count").put(index).put(count),
        }
    }
}

impl Display for Line {
    fn fmt(&self, f: &mut fmt::Formatter<'_>) -> fmt::Result {
        f.write_str(&self.0)
    }
}

impl Act {
    /// The first word of the call's line.
    pub fn name(&self) -> &'static str {
        match self {
            Act::Create { .. } => "create",
            Act::Bootstrap { .. } => "bootstrap",
            Act::Apply { .. } => "apply",
            Act::Handshake { .. } => "handshake",
            Act::Step { .. } => "step",
            Act::BootstrapWithBuffer { .. } => "bootstrap_with_buffer",
            Act::LevelQueue { .. } => "level_queue",
            Act::PriorityProfile { .. } => "priority_profile",
            Act::StaleL2 { .. } => "stale_l2",
            Act::L2 { .. } => "l2",
            Act::Best => "best",
            Act::LastSequence => "last_sequence",
            Act::Audit => "audit",
            Act::QueueEstimate { .. } => "queue_estimate",
            Act::QueueEstimateOwn { .. } => "queue_estimate_own",
            Act::VolumeAhead { .. } => "volume_ahead",
            Act::Manifest => "manifest",
            Act::Invalidation => "invalidation",
            Act::ReadMessage { .. } => "read_message",
            Act::ReadSnapshot { .. } => "read_snapshot",
            Act::SetRow { .. } => "set_row",
            Act::SetSegment { .. } => "set_segment",
            Act::SetState { .. } => "set_state",
            Act::ForgeHandshake { .. } => "forge_handshake",
            Act::ForgeEstimate { .. } => "forge_estimate",
            Act::SetAhead { .. } => "set_ahead",
        }
    }
}

impl Display for Call {
    fn fmt(&self, f: &mut fmt::Formatter<'_>) -> fmt::Result {
        let lent = &self.lent;
        let lengths = [
            lent.rows,
            lent.segments,
            lent.scratch,
            lent.output,
            lent.ahead,
        ];
        let mut line = Line::default();
        line.put(self.act.name()).put(self.book).all(lengths);
        write!(f, "{}", line.act(&self.act))
    }
}

impl Display for Answer {
    fn fmt(&self, f: &mut fmt::Formatter<'_>) -> fmt::Result {
        match self {
            Answer::Absent => f.write_str("- absent"),
            Answer::NoWord => f.write_str("? no word"),
            Answer::Said(said) => write!(f, "{}", Line::default().said(said)),
        }
    }
}

/// The words of a call's line; every read says what it wanted.
struct Words<'a>(SplitAsciiWhitespace<'a>);

type Parsed<T> = Result<T, String>;

fn bytes(text: &str) -> Parsed<Vec<u8>> {
    if text == "-" {
        return Ok(Vec::new());
    }
    if !text.len().is_multiple_of(2) || !text.is_ascii() {
        return Err(format!("{text} is not hex"));
    }
    let byte = |at: usize| u8::from_str_radix(&text[at..at + 2], 16);
    let bytes: Result<Vec<u8>, _> = (0..text.len()).step_by(2).map(byte).collect();
    bytes.map_err(|_| format!("{text} is not hex"))
}

impl Words<'_> {
    fn text(&mut self) -> Parsed<&str> {
        self.0
            .next()
            .ok_or_else(|| "the line ends early".to_string())
    }

    fn number<T: std::str::FromStr>(&mut self) -> Parsed<T> {
        let text = self.text()?;
        text.parse()
            .map_err(|_| format!("{text} is no number that fits here"))
    }

    fn hex(&mut self) -> Parsed<Vec<u8>> {
        bytes(self.text()?)
    }

    /// The pieces up to the end of the line.
    fn pieces(&mut self) -> Parsed<Vec<Vec<u8>>> {
        self.0.by_ref().map(bytes).collect()
    }

    fn id(&mut self) -> Parsed<Id> {
        let text = self.text()?;
        Id::from_str_radix(text, 16).map_err(|_| format!("{text} is no id"))
    }

    fn product(&mut self) -> Parsed<Product> {
        let bytes = self.hex()?;
        bytes
            .try_into()
            .map_err(|_| "a product is 16 bytes".to_string())
    }

    fn flag(&mut self) -> Parsed<bool> {
        match self.number::<u8>()? {
            0 => Ok(false),
            1 => Ok(true),
            other => Err(format!("{other} is neither 0 nor 1")),
        }
    }

    fn side(&mut self) -> Parsed<Side> {
        Ok(if self.flag()? { Side::Sell } else { Side::Buy })
    }

    fn invalidation(&mut self) -> Parsed<Invalidation> {
        Ok(Invalidation {
            last_good_seq: self.number()?,
            first_offending_seq: self.number()?,
            reason: self.number()?,
            funds: self.flag()?,
        })
    }

    fn status(&mut self) -> Parsed<Status> {
        let tag: u8 = self.number()?;
        let why = self.invalidation()?;
        match tag {
            0 => Ok(Status::NoSnapshot),
            1 => Ok(Status::Valid),
            2 => Ok(Status::Invalid(why)),
            other => Err(format!("{other} is no status")),
        }
    }

    fn segment(&mut self) -> Parsed<Segment> {
        let (start_seq, last_good_seq) = (self.number()?, self.number()?);
        let end = match self.status()? {
            Status::NoSnapshot => SegmentEnd::Open,
            Status::Valid => SegmentEnd::Superseded,
            Status::Invalid(why) => SegmentEnd::Invalidated(why),
        };
        Ok(Segment {
            start_seq,
            last_good_seq,
            end,
            first_us: self.number()?,
            last_us: self.number()?,
        })
    }

    fn rules(&mut self) -> Parsed<Rules> {
        Ok(Rules {
            size_decrease: if self.flag()? {
                SizeDecrease::PriorityUnknown
            } else {
                SizeDecrease::KeepsPriority
            },
            max_orders: self.number()?,
            max_levels: self.number()?,
        })
    }

    fn name(&mut self) -> Parsed<SegmentName> {
        Ok(SegmentName {
            number: self.number()?,
            place: self.number()?,
        })
    }

    fn handshake(&mut self) -> Parsed<Handshake> {
        Ok(Handshake {
            segment: self.name()?,
            start_seq: self.number()?,
            applied: self.number()?,
            ended: self.flag()?,
        })
    }

    fn estimate(&mut self) -> Parsed<Estimate> {
        Ok(Estimate {
            side: self.side()?,
            price: self.number()?,
            segment: self.name()?,
            anchor: if self.flag()? {
                Anchor::Own {
                    order_id: self.id()?,
                    entered_at: self.number()?,
                }
            } else {
                Anchor::Hypothetical {
                    orders: self.number()?,
                    created_at: self.number()?,
                }
            },
        })
    }

    fn field(&mut self) -> Parsed<Field> {
        let name = self.text()?.to_string();
        match name.as_str() {
            "rows" => Ok(Field::Rows(self.number()?)),
            "segments" => Ok(Field::Segments(self.number()?)),
            "last_sequence" => Ok(Field::LastSequence(self.number()?)),
            "status" => Ok(Field::Status(self.status()?)),
            "count" => match self.number()? {
                index @ 0..12 => Ok(Field::Count(index, self.number()?)),
                index => Err(format!("there is no count {index}")),
            },
            _ => Err(format!("{name} is no field")),
        }
    }

    fn rest(&mut self) -> Parsed<Vec<u64>> {
        let mut words = Vec::new();
        for text in self.0.by_ref() {
            let word = text.parse();
            words.push(word.map_err(|_| format!("{text} is no word"))?);
        }
        Ok(words)
    }

    fn create(&mut self) -> Parsed<Act> {
        Ok(Act::Create {
            product: self.product()?,
            rules: self.rules()?,
            number: self.number()?,
            row_words: self.number()?,
            segment_records: self.number()?,
            row_fill: self.number()?,
            segment_fill: self.number()?,
        })
    }

    /// The host's acts on values and memory.
    fn damage(&mut self, name: &str) -> Parsed<Act> {
        Ok(match name {
            "set_row" => Act::SetRow {
                index: self.number()?,
                word: self.number()?,
            },
            "set_segment" => Act::SetSegment {
                index: self.number()?,
                record: self.segment()?,
            },
            "set_state" => Act::SetState {
                field: self.field()?,
            },
            "forge_handshake" => Act::ForgeHandshake {
                slot: self.number()?,
                handshake: self.handshake()?,
            },
            "forge_estimate" => Act::ForgeEstimate {
                slot: self.number()?,
                estimate: self.estimate()?,
                list: self.rest()?,
            },
            "set_ahead" => Act::SetAhead {
                slot: self.number()?,
                index: self.number()?,
                word: self.number()?,
            },
            _ => return Err(format!("{name} is no call")),
        })
    }

    fn act(&mut self, name: &str) -> Parsed<Act> {
        Ok(match name {
            "create" => self.create()?,
            "bootstrap" => Act::Bootstrap { piece: self.hex()? },
            "apply" => Act::Apply { piece: self.hex()? },
            "handshake" => Act::Handshake {
                slot: self.number()?,
            },
            "step" => Act::Step {
                slot: self.number()?,
                piece: self.hex()?,
            },
            "bootstrap_with_buffer" => Act::BootstrapWithBuffer {
                slot: self.number()?,
                piece: self.hex()?,
                buffer: self.pieces()?,
            },
            "level_queue" => Act::LevelQueue {
                side: self.side()?,
                price: self.number()?,
            },
            "priority_profile" => Act::PriorityProfile { side: self.side()? },
            "stale_l2" => Act::StaleL2 { side: self.side()? },
            "l2" => Act::L2 { side: self.side()? },
            "best" => Act::Best,
            "last_sequence" => Act::LastSequence,
            "audit" => Act::Audit,
            "queue_estimate" => Act::QueueEstimate {
                slot: self.number()?,
                side: self.side()?,
                price: self.number()?,
            },
            "queue_estimate_own" => Act::QueueEstimateOwn {
                slot: self.number()?,
                order_id: self.id()?,
            },
            "volume_ahead" => Act::VolumeAhead {
                slot: self.number()?,
            },
            "manifest" => Act::Manifest,
            "invalidation" => Act::Invalidation,
            "read_message" => Act::ReadMessage { piece: self.hex()? },
            "read_snapshot" => Act::ReadSnapshot { piece: self.hex()? },
            _ => self.damage(name)?,
        })
    }
}

impl std::str::FromStr for Call {
    type Err = String;

    fn from_str(line: &str) -> Parsed<Call> {
        let mut words = Words(line.split_ascii_whitespace());
        let name = words.text()?.to_string();
        let call = Call {
            book: words.number()?,
            lent: Lent {
                rows: words.number()?,
                segments: words.number()?,
                scratch: words.number()?,
                output: words.number()?,
                ahead: words.number()?,
            },
            act: words.act(&name)?,
        };
        match words.0.next() {
            None => Ok(call),
            Some(more) => Err(format!("{more} is one word too many")),
        }
    }
}
