//! The model: 01 stated once more, sentence by sentence, for the runs to judge by. It is written from 01's words and not
//! from the Rust, and it is the judge of what the Rust has no word on: lent lengths, damaged memory, forged values.
//!
//! State is a plain value ([`book::State`]); memory is words (rows, ahead-lists, outputs, scratch) and segment records, of
//! which each call sees the lent prefix. `tests/slips.rs` plants a [`Slip`] and sees that a run finds it.

mod book;
mod events;
mod message;
mod queue;
mod reader;
mod reads;
mod rows;
mod slip;
mod snapshot;
#[cfg(test)]
mod tests;

use std::collections::BTreeMap;

pub use slip::Slip;

use crate::call::State as Shown;
use crate::call::{
    AHEAD_SEED, Act, Answer, Buffers, Call, Estimate, Field, Handshake, Left, Lent, LevelDigest,
    LevelOrder, Memory, OUTPUT_SEED, SCRATCH_SEED, Said, Segment, SegmentName, Status, Subject,
    Values, Voice, digest_segments, digest_words, fresh_rows, fresh_segments, fresh_words, left,
};
use crate::call::{Rules, SizeDecrease};
use crate::piece::{Product, Side};
use book::{LentBook, Refusal, State};
use reads::{LevelRead, Reading};
use slip::Planted;

/// A book: its state and the memory that lasts between calls.
struct Book {
    state: State,
    words: Vec<u64>,
    list: Vec<Segment>,
    /// What the last answer showed, kept while nothing can have changed: digests of large memories are slow.
    last_shown: Option<Shown>,
}

/// An estimate and its ahead-list.
struct Estimated {
    estimate: Estimate,
    list: Vec<u64>,
}

/// The books, handshakes and estimates of a host.
#[derive(Default)]
pub struct Model {
    slip: Planted,
    books: BTreeMap<u8, Book>,
    handshakes: BTreeMap<u8, Handshake>,
    estimates: BTreeMap<u8, Estimated>,
}

/// What a call comes to: number and values, and the fresh buffers it was lent.
struct Reply {
    number: u8,
    values: Values,
    buffers: Buffers,
}

impl Reply {
    fn new(number: u8, values: Values) -> Reply {
        Reply {
            number,
            values,
            buffers: Buffers::NONE,
        }
    }

    /// A refusal's reply; 16, 17 and 18 carry an invalidation.
    fn refused(refusal: Refusal) -> Reply {
        Reply::new(
            refusal.number,
            refusal
                .invalidation
                .map_or(Values::Nothing, Values::Invalidation),
        )
    }

    fn of<T>(result: Result<T, Refusal>, values: impl FnOnce(T) -> Values) -> Reply {
        match result {
            Ok(success) => Reply::new(0, values(success)),
            Err(refusal) => Reply::refused(refusal),
        }
    }
}

/// As much of a memory as is lent.
fn prefix(length: u64, memory: usize) -> usize {
    length.min(memory as u64) as usize
}

impl Model {
    pub fn new() -> Model {
        Model::default()
    }

    /// A model that makes one planted mistake.
    pub fn slipping(slip: Slip) -> Model {
        Model {
            slip: Planted(Some(slip)),
            ..Model::default()
        }
    }

    /// A book's row words and segment records.
    pub fn memory(&self, slot: u8) -> Option<(&[u64], &[Segment])> {
        let book = self.books.get(&slot)?;
        Some((&book.words, &book.list))
    }

    /// None if a slot that the call names is empty.
    fn reply(&mut self, call: &Call) -> Option<Reply> {
        match &call.act {
            Act::Create { .. } => {
                self.books.insert(call.book, Book::create(&call.act)?);
                Some(Reply::new(0, Values::Nothing))
            }
            Act::ReadMessage { piece } => Some(self.read_message(piece)),
            Act::ReadSnapshot { piece } => Some(self.read_snapshot(piece)),
            Act::ForgeHandshake { slot, handshake } => {
                self.handshakes.insert(*slot, *handshake);
                Some(Reply::new(0, Values::Handshake(*handshake)))
            }
            Act::ForgeEstimate {
                slot,
                estimate,
                list,
            } => {
                self.estimates.insert(
                    *slot,
                    Estimated {
                        estimate: *estimate,
                        list: list.clone(),
                    },
                );
                Some(Reply::new(0, Values::Nothing))
            }
            Act::SetAhead { slot, index, word } => {
                let list = &mut self.estimates.get_mut(slot)?.list;
                write(list, *index, *word);
                Some(Reply::new(0, Values::Nothing))
            }
            act => {
                let mut book = self.books.remove(&call.book)?;
                let reply = self.on_book(&mut book, &call.lent, act);
                self.books.insert(call.book, book);
                reply
            }
        }
    }

    /// "which the piece reader makes from bytes (4, then 5)"
    fn read_message(&self, piece: &[u8]) -> Reply {
        match reader::message(self.slip, piece) {
            Ok(message) if reader::message_in_range(self.slip, &message) => {
                Reply::new(0, Values::Message(message))
            }
            Ok(_) => Reply::new(5, Values::Nothing),
            Err(number) => Reply::new(number, Values::Nothing),
        }
    }

    fn read_snapshot(&self, piece: &[u8]) -> Reply {
        match reader::snapshot(self.slip, piece) {
            Ok(snapshot) if reader::snapshot_in_range(self.slip, &snapshot) => {
                Reply::new(0, Values::Snapshot(snapshot))
            }
            Ok(_) => Reply::new(5, Values::Nothing),
            Err(number) => Reply::new(number, Values::Nothing),
        }
    }

    fn on_book(&mut self, book: &mut Book, lent: &Lent, act: &Act) -> Option<Reply> {
        match act {
            Act::Bootstrap { piece } => {
                let result = snapshot::bootstrap(self.slip, &mut book.lend(lent), piece);
                Some(Reply::of(result, |()| Values::Nothing))
            }
            Act::Apply { piece } => {
                let message = reader::message(self.slip, piece);
                let result = message.map_err(Refusal::from);
                let result = result
                    .and_then(|message| message::apply(self.slip, &mut book.lend(lent), &message));
                Some(Reply::of(result, Values::Applied))
            }
            Act::Handshake { slot } => {
                let handshake = book.handshake(self.slip);
                self.handshakes.insert(*slot, handshake);
                Some(Reply::new(0, Values::Handshake(handshake)))
            }
            Act::Step { slot, piece } => self.step(book, lent, *slot, piece),
            Act::BootstrapWithBuffer {
                slot,
                piece,
                buffer,
            } => self.bootstrap_with_buffer(book, lent, *slot, piece, buffer),
            Act::SetRow { .. } | Act::SetSegment { .. } | Act::SetState { .. } => {
                book.damage(act);
                Some(Reply::new(0, Values::Nothing))
            }
            _ => self.read(book, lent, act),
        }
    }

    /// "the handshake hands itself back", whatever the step came to.
    fn step(&mut self, book: &mut Book, lent: &Lent, slot: u8, piece: &[u8]) -> Option<Reply> {
        let handshake = self.handshakes.get_mut(&slot)?;
        let message = reader::message(self.slip, piece).map_err(Refusal::from);
        let result = message.and_then(|message| {
            message::step(self.slip, &mut book.lend(lent), handshake, &message)
        });
        let invalidation = result.err().and_then(|refusal| refusal.invalidation);
        let values = Values::Step {
            stepped: result.ok(),
            invalidation,
            handshake: *handshake,
        };
        Some(Reply::new(
            result.err().map_or(0, |refusal| refusal.number),
            values,
        ))
    }

    /// "becomes `bootstrap`, then a handshake value for that segment stepped by one message a call", until one ends it.
    fn bootstrap_with_buffer(
        &mut self,
        book: &mut Book,
        lent: &Lent,
        slot: u8,
        piece: &[u8],
        buffer: &[Vec<u8>],
    ) -> Option<Reply> {
        if let Err(refusal) = snapshot::bootstrap(self.slip, &mut book.lend(lent), piece) {
            return Some(Reply::refused(refusal));
        }
        self.handshakes.insert(slot, book.handshake(self.slip));
        let (mut number, mut why) = (0, None);
        for message in buffer {
            let reply = self.step(book, lent, slot, message)?;
            if let Values::Step {
                invalidation,
                handshake,
                ..
            } = reply.values
                && handshake.ended
            {
                (number, why) = (reply.number, invalidation);
                break;
            }
        }
        let values = Values::Buffered {
            invalidation: why,
            handshake: *self.handshakes.get(&slot)?,
        };
        Some(Reply::new(number, values))
    }

    fn read(&mut self, book: &Book, lent: &Lent, act: &Act) -> Option<Reply> {
        let words = &book.words[..prefix(lent.rows, book.words.len())];
        let reading = Reading {
            slip: self.slip,
            state: &book.state,
            words,
        };
        Some(match *act {
            Act::LevelQueue { side, price } => {
                level_read(&reading, lent, LevelRead::LevelQueue { side, price })
            }
            Act::PriorityProfile { side } => {
                level_read(&reading, lent, LevelRead::PriorityProfile { side })
            }
            Act::StaleL2 { side } => level_read(&reading, lent, LevelRead::StaleL2 { side }),
            Act::L2 { side } => level_read(&reading, lent, LevelRead::L2 { side }),
            Act::Best => Reply::of(reading.valid_line(None), |line| {
                let (buy, sell) = rows::best(&line);
                Values::Best(
                    buy.map(|price| price as i64),
                    sell.map(|price| price as i64),
                )
            }),
            Act::LastSequence => Reply::of(reading.valid_line(None), |_| {
                Values::LastSequence(book.state.last_sequence)
            }),
            // What the Rust's audit recomputes is what 3 has looked at.
            Act::Audit => Reply::of(reading.valid_line(None), |_| Values::Nothing),
            Act::Manifest => Reply::new(0, book.manifest(lent)),
            Act::Invalidation => Reply::new(0, Values::InForce(book.in_force())),
            _ => return self.estimate(&reading, lent, act),
        })
    }

    fn estimate(&mut self, reading: &Reading, lent: &Lent, act: &Act) -> Option<Reply> {
        Some(match *act {
            Act::QueueEstimate { slot, side, price } => {
                self.queue_estimate(reading, lent, slot, side, price)
            }
            Act::QueueEstimateOwn { slot, order_id } => {
                let result = reading.queue_estimate_own(order_id);
                if let Ok(estimate) = result {
                    let list = vec![];
                    self.estimates.insert(slot, Estimated { estimate, list });
                }
                Reply::of(result, |estimate| Values::Estimate {
                    estimate,
                    list: vec![],
                })
            }
            Act::VolumeAhead { slot } => {
                let Estimated { estimate, list } = self.estimates.get(&slot)?;
                let lent_list = &list[..prefix(lent.ahead, list.len())];
                Reply::of(reading.volume_ahead(estimate, lent_list), Values::Ahead)
            }
            _ => return None,
        })
    }

    /// The list written stays with the estimate.
    fn queue_estimate(
        &mut self,
        reading: &Reading,
        lent: &Lent,
        slot: u8,
        side: Side,
        price: i64,
    ) -> Reply {
        let mut list = fresh_words(AHEAD_SEED, lent.ahead);
        let result = reading.queue_estimate(side, price, &mut list);
        let written: &[u64] = result.as_ref().map_or(&[], |(_, words)| words);
        let ahead = left(&list, AHEAD_SEED, written);
        if let Ok((estimate, _)) = result {
            self.estimates.insert(slot, Estimated { estimate, list });
        }
        let reply = Reply::of(result, |(estimate, list)| Values::Estimate {
            estimate,
            list,
        });
        Reply {
            buffers: Buffers {
                ahead,
                ..Buffers::NONE
            },
            ..reply
        }
    }
}

/// A level read on fresh buffers.
fn level_read(reading: &Reading, lent: &Lent, read: LevelRead) -> Reply {
    let mut buffers = reads::Buffers {
        scratch: fresh_words(SCRATCH_SEED, lent.scratch),
        output: fresh_words(OUTPUT_SEED, lent.output),
    };
    let result = reading.level_read(read, &mut buffers);
    let (zeroed, words): (usize, &[u64]) = match &result {
        Ok(Some(entries)) => (reading.state.rules.max_orders as usize, &entries.words),
        _ => (0, &[]),
    };
    let scratch = left(&buffers.scratch, SCRATCH_SEED, &vec![0; zeroed]);
    let output = left(&buffers.output, OUTPUT_SEED, words);
    let reply = Reply::of(result, |entries| {
        entries.map_or(Values::NoStale, |entries| Values::Entries {
            entries: entries.entries,
            words: entries.words,
        })
    });
    Reply {
        buffers: Buffers {
            scratch,
            output,
            ahead: Left::NotLent,
        },
        ..reply
    }
}

/// The host's write of a word; past the end nothing happens.
fn write<T>(memory: &mut [T], index: u64, value: T) {
    if let Some(place) = usize::try_from(index)
        .ok()
        .and_then(|index| memory.get_mut(index))
    {
        *place = value;
    }
}

impl Book {
    fn create(act: &Act) -> Option<Book> {
        let Act::Create {
            product,
            rules,
            number,
            row_words,
            segment_records,
            row_fill,
            segment_fill,
        } = *act
        else {
            return None;
        };
        Some(Book {
            state: State::fresh(product, rules, number),
            words: fresh_rows(row_fill, row_words),
            list: fresh_segments(segment_fill, segment_records),
            last_shown: None,
        })
    }

    /// "each call is lent a prefix of any length, the next call sees what the last one left."
    fn lend(&mut self, lent: &Lent) -> LentBook<'_> {
        self.last_shown = None;
        let (words, list) = (
            prefix(lent.rows, self.words.len()),
            prefix(lent.segments, self.list.len()),
        );
        LentBook {
            state: &mut self.state,
            words: &mut self.words[..words],
            list: &mut self.list[..list],
        }
    }

    /// "a handshake value for that segment". Before any snapshot there is none: the handshake has ended, so that every step of it is 9.
    fn handshake(&self, slip: Planted) -> Handshake {
        let segment = self.state.segment_name();
        let start_seq = self.last_segment().map_or(0, |record| record.start_seq);
        Handshake {
            segment: segment.unwrap_or(SegmentName {
                number: self.state.number,
                place: 0,
            }),
            start_seq,
            applied: 0,
            ended: segment.is_none() && !slip.is(Slip::EarlyHandshakeAlive),
        }
    }

    fn last_segment(&self) -> Option<Segment> {
        let place = self.state.segments.checked_sub(1)?;
        self.list.get(usize::try_from(place).ok()?).copied()
    }

    fn damage(&mut self, act: &Act) {
        self.last_shown = None;
        match *act {
            Act::SetRow { index, word } => write(&mut self.words, index, word),
            Act::SetSegment { index, record } => write(&mut self.list, index, record),
            Act::SetState { field } => match field {
                Field::Rows(rows) => self.state.rows = rows,
                Field::Segments(segments) => self.state.segments = segments,
                Field::LastSequence(sequence) => self.state.last_sequence = sequence,
                Field::Status(status) => self.state.status = status,
                Field::Count(index, value) => *self.state.counts.slot(index as usize) = value,
            },
            _ => {}
        }
    }

    /// "manifest and invalidation are the state's own fields and the lent list"
    fn manifest(&self, lent: &Lent) -> Values {
        let shown = prefix(lent.segments.min(self.state.segments), self.list.len());
        let State {
            product,
            rules,
            number,
            counts,
            ..
        } = self.state;
        Values::Manifest {
            product,
            rules,
            number,
            counts,
            segments: self.list[..shown].to_vec(),
        }
    }

    fn in_force(&self) -> Option<crate::call::Invalidation> {
        match self.state.status {
            Status::Invalid(invalidation) => Some(invalidation),
            Status::NoSnapshot | Status::Valid => None,
        }
    }

    /// What an answer shows of the book.
    fn shown(&mut self) -> Shown {
        if let Some(shown) = self.last_shown {
            return shown;
        }
        let State {
            rows,
            segments,
            last_sequence,
            status,
            counts,
            ..
        } = self.state;
        let shown = Shown {
            rows,
            segments,
            last_sequence,
            status,
            counts,
            last_segment: self.last_segment(),
            levels: levels(&self.state, &self.words),
            memory: Some(Memory {
                rows: digest_words(&self.words),
                segments: digest_segments(&self.list),
            }),
        };
        self.last_shown = Some(shown);
        shown
    }
}

/// The levels' digest, unless the book is broken (3).
fn levels(state: &State, words: &[u64]) -> Option<u64> {
    let line = rows::line(words, state.rows);
    if line.len() as u64 != state.rows || state.broken(Planted(None), words) {
        return None;
    }
    let mut digest = LevelDigest::default();
    for side in [Side::Buy, Side::Sell] {
        for level in reads::levels(&line, side) {
            digest.level(side, level.price, level.total);
            // Of an invalid book the Rust shows totals only.
            let queue = if state.status == Status::Valid {
                level.queue
            } else {
                vec![]
            };
            queue.iter().for_each(|row| {
                digest.order(&LevelOrder {
                    id: row.id,
                    remaining: row.remaining,
                    observed: row.observed(),
                    entered_at: row.entered_at,
                    decreased_at: (row.decreased == 1).then_some(row.decreased_at),
                })
            });
        }
    }
    Some(digest.value())
}

/// The readers and the forging of handshakes, estimates and ahead-lists concern no book.
fn concerns_book(act: &Act) -> bool {
    !matches!(
        act,
        Act::ReadMessage { .. }
            | Act::ReadSnapshot { .. }
            | Act::ForgeHandshake { .. }
            | Act::ForgeEstimate { .. }
            | Act::SetAhead { .. }
    )
}

impl Subject for Model {
    fn call(&mut self, call: &Call) -> Answer {
        let Some(Reply {
            number,
            values,
            buffers,
        }) = self.reply(call)
        else {
            return Answer::Absent;
        };
        let book = self.books.get_mut(&call.book);
        let book = book.filter(|_| concerns_book(&call.act));
        Answer::Said(Box::new(Said {
            number,
            voice: Voice::Model,
            values,
            buffers,
            state: book.map(Book::shown),
        }))
    }
}

/// Number 3's part on the rows: `rows` rows in `words`, under a limit of levels. More rows than the ceiling, or than the words hold, are broken.
pub fn rows_broken(words: &[u64], rows: u64, max_levels: u64) -> bool {
    let rules = Rules {
        size_decrease: SizeDecrease::KeepsPriority,
        max_orders: rows,
        max_levels,
    };
    let mut state = State::fresh(Product::default(), rules, 0);
    state.status = Status::Valid;
    (state.rows, state.segments) = (rows, 1);
    let held = (words.len() / rows::ROW_WORDS) as u64;
    rows > book::CEILING || rows > held || state.broken(Planted(None), words)
}
