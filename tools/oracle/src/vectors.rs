//! The recorded calls for the program crate `vectors`, and what it must print.
//!
//! The generator's calls are put into the crate's form ([`record`]), a book's calls one after another. The answers are the Rust's; what the Rust lacks
//! is the runner's or the model's, and each line says whose it is. The words behind the digests of rows and segments are always the model's: the Rust has no
//! such memory, but its levels and its last segment are compared with the model's at every call.

mod record;
mod words;

use std::collections::{BTreeMap, BTreeSet};
use std::fs;
use std::io;
use std::path::Path;

use crate::call::{
    AHEAD_SEED, Act, Answer, CEILING, Call, Estimate, Handshake, Lent, Rules, Said, Subject,
    Values, fresh_words,
};
use crate::generate::Generator;
use crate::model::Model;
use crate::piece::{Product, decode_message};
use record::Record;

/// With this seed so few calls meet every number of 01's table twice, and steps of a handshake made before any snapshot.
const SEED: u64 = 4550;
const CALLS: u64 = 3_000;
/// The program's memory, in words; of segments in records.
const ROWS: u64 = 2_048;
const SEGMENTS: u64 = 64;
const SCRATCH: u64 = 256;
const OUTPUT: u64 = 1_280;
const AHEAD: u64 = 768;
/// Larger books, unless their limit is above the ceiling, and larger pieces are left out: the files are to stay small.
const MOST_ORDERS: u64 = 64;
const MOST_PIECE: usize = 41 + 32 * (MOST_ORDERS as usize + 1);

/// The two files, and what they hold.
#[derive(Default)]
pub struct Sample {
    pub input: Vec<u8>,
    pub output: String,
    pub calls: u64,
    /// How often each number was answered, the reasons of 16 among them.
    pub numbers: BTreeMap<u8, u64>,
    /// How often each kind of call was made, and how many answers are whose.
    pub names: BTreeMap<&'static str, u64>,
    pub voices: BTreeMap<&'static str, u64>,
}

/// A book that lives, and its part of the sample.
struct Book {
    product: Product,
    rules: Rules,
    number: u64,
    row_words: u64,
    input: Vec<u8>,
    output: String,
}

/// What a host keeps: the values that a call is handed, which its record holds.
#[derive(Default)]
struct Recorder {
    model: Model,
    books: BTreeMap<u8, Book>,
    handshakes: BTreeMap<u8, Handshake>,
    estimates: BTreeMap<u8, (Estimate, Vec<u64>)>,
    sample: Sample,
}

/// As much as the program can lend.
fn within(lent: Lent) -> Lent {
    Lent {
        rows: lent.rows.min(ROWS),
        segments: lent.segments.min(SEGMENTS),
        scratch: lent.scratch.min(SCRATCH),
        output: lent.output.min(OUTPUT),
        ahead: lent.ahead.min(AHEAD),
    }
}

/// Whether the host acts on its own memory, all of it.
fn is_hosts(act: &Act) -> bool {
    matches!(
        act,
        Act::Create { .. } | Act::SetRow { .. } | Act::SetSegment { .. } | Act::SetState { .. }
    )
}

impl Recorder {
    /// The call as the program can make it; none if it cannot.
    fn ask(&mut self, call: Call) -> Option<Call> {
        let call = Call {
            lent: within(call.lent),
            ..call
        };
        match &call.act {
            Act::Create { .. } => self.ask_creation(call),
            Act::ReadMessage { .. } | Act::ReadSnapshot { .. } => None,
            Act::BootstrapWithBuffer { .. } => None,
            Act::ForgeHandshake { .. } | Act::SetAhead { .. } => Some(call),
            Act::ForgeEstimate { list, .. } => (list.len() as u64 <= AHEAD).then_some(call),
            _ if !self.books.contains_key(&call.book) => None,
            Act::Bootstrap { piece } if piece.len() > MOST_PIECE => None,
            Act::Apply { piece } | Act::Step { piece, .. } => {
                // The program reads a piece first; where 1, 2, 3 or 9 would come before the reader's 5 there is no such call.
                let passes = decode_message(piece) != Err(5) || self.says_5(&call);
                passes.then_some(call)
            }
            _ => Some(call),
        }
    }

    /// Whether the model answers 5. It then leaves everything, as it does where a lower number or 9 comes before.
    fn says_5(&mut self, call: &Call) -> bool {
        matches!(self.model.call(call), Answer::Said(said) if said.number == 5)
    }

    fn ask_creation(&mut self, mut call: Call) -> Option<Call> {
        self.end(call.book);
        let Act::Create {
            rules,
            row_words,
            segment_fill,
            ..
        } = &mut call.act
        else {
            return None;
        };
        if (MOST_ORDERS + 1..=CEILING).contains(&rules.max_orders) {
            return None;
        }
        *row_words = ROWS.min(*row_words);
        *segment_fill = 0;
        Some(call)
    }

    /// Puts the calls of a book behind those of the books that ended before.
    fn end(&mut self, slot: u8) {
        if let Some(book) = self.books.remove(&slot) {
            self.sample.input.extend(book.input);
            self.sample.output.push_str(&book.output);
        }
    }

    fn created(&mut self, call: &Call) {
        if let Act::Create {
            product,
            rules,
            number,
            row_words,
            ..
        } = call.act
        {
            let book = Book {
                product,
                rules,
                number,
                row_words,
                input: Vec::new(),
                output: String::new(),
            };
            self.books.insert(call.book, book);
        }
    }

    /// The Rust's answer, or the model's where the Rust has no word; the two agree.
    fn said(&mut self, call: &Call, theirs: Answer) -> Option<(Box<Said>, Box<Said>)> {
        let judged = self.model.call(call);
        assert!(theirs.agrees(&judged), "{call}\n{theirs}\n{judged}");
        match (theirs, judged) {
            (Answer::Said(theirs), Answer::Said(judged)) => Some((theirs, judged)),
            (_, Answer::Said(judged)) => Some((judged.clone(), judged)),
            _ => None,
        }
    }

    /// Records a call with its answer.
    fn take(&mut self, call: &Call, theirs: Answer) {
        let Some((said, judged)) = self.said(call, theirs) else {
            return;
        };
        self.created(call);
        if let (Some(record), Some(state)) = (self.record(call, &said), judged.state) {
            let book = &self.books[&call.book];
            let (rows, segments) = self.model.memory(call.book).expect("the book is there");
            let memory = words::Memory {
                block: words::block(&book.product, &book.rules, book.number, &state),
                rows: &rows[..record.rows as usize],
                segments: words::records(&segments[..record.segments as usize / words::RECORD]),
            };
            let (input, line) = (record.bytes(&memory), record.line(&said, &memory));
            let book = self.books.get_mut(&call.book).expect("the book is there");
            book.input.extend(input);
            book.output.push_str(&line);
            self.tally(call, &said);
        }
        self.keep(call, &said);
    }

    fn record<'a>(&self, call: &'a Call, said: &'a Said) -> Option<Record<'a>> {
        let book = self.books.get(&call.book)?;
        Some(Record {
            act: &call.act,
            voice: said.voice,
            max_orders: book.rules.max_orders,
            rows: if is_hosts(&call.act) {
                book.row_words
            } else {
                book.row_words.min(call.lent.rows)
            },
            segments: self.lent_segments(call),
            lent: call.lent,
            handshake: match call.act {
                Act::Step { slot, .. } => self.handshakes.get(&slot).copied(),
                _ => None,
            },
            place: match &said.values {
                // Of a manifest the last record that it shows.
                Values::Manifest { segments, .. } => segments.len().saturating_sub(1) as u64,
                _ => 0,
            },
            estimate: match call.act {
                Act::VolumeAhead { slot } => self.estimates.get(&slot).cloned(),
                _ => None,
            },
        })
        .filter(Record::is_a_call)
    }

    /// In words.
    fn lent_segments(&self, call: &Call) -> u64 {
        let memory = self.model.memory(call.book);
        let records = memory.map_or(0, |(_, list)| list.len()) as u64;
        let lent = if is_hosts(&call.act) {
            records
        } else {
            records.min(call.lent.segments)
        };
        lent * words::RECORD as u64
    }

    /// Follows the host's handshakes and estimates.
    fn keep(&mut self, call: &Call, said: &Said) {
        match (&call.act, &said.values) {
            (
                Act::Handshake { slot } | Act::ForgeHandshake { slot, .. } | Act::Step { slot, .. },
                Values::Handshake(handshake) | Values::Step { handshake, .. },
            ) => {
                self.handshakes.insert(*slot, *handshake);
            }
            (Act::QueueEstimate { slot, .. }, Values::Estimate { estimate, list }) => {
                let mut words = fresh_words(AHEAD_SEED, call.lent.ahead);
                words[..list.len()].copy_from_slice(list);
                self.estimates.insert(*slot, (*estimate, words));
            }
            (Act::QueueEstimateOwn { slot, .. }, Values::Estimate { estimate, .. }) => {
                self.estimates.insert(*slot, (*estimate, Vec::new()));
            }
            (
                Act::ForgeEstimate {
                    slot,
                    estimate,
                    list,
                },
                _,
            ) => {
                self.estimates.insert(*slot, (*estimate, list.clone()));
            }
            (Act::SetAhead { slot, index, word }, _) => {
                let list = self.estimates.get_mut(slot).map(|(_, list)| list);
                if let Some(place) = list.and_then(|list| list.get_mut(*index as usize)) {
                    *place = *word;
                }
            }
            _ => {}
        }
    }

    fn tally(&mut self, call: &Call, said: &Said) {
        let sample = &mut self.sample;
        sample.calls += 1;
        *sample.names.entry(call.act.name()).or_default() += 1;
        *sample
            .voices
            .entry(record::voice_name(said.voice))
            .or_default() += 1;
        let reason = match (said.number, &said.values) {
            (16, Values::Invalidation(why)) => Some(why.reason),
            _ => None,
        };
        let numbers: BTreeSet<u8> = reason.into_iter().chain([said.number]).collect();
        for number in numbers {
            *sample.numbers.entry(number).or_default() += 1;
        }
    }
}

/// The sample: the same at every run.
pub fn sample() -> Sample {
    let mut recorder = Recorder::default();
    let mut generator = Generator::new(SEED);
    while recorder.sample.calls < CALLS {
        if let Some((call, theirs)) = generator.next_asked(|call| recorder.ask(call)) {
            recorder.take(&call, theirs);
        }
    }
    let slots: Vec<u8> = recorder.books.keys().copied().collect();
    slots.into_iter().for_each(|slot| recorder.end(slot));
    recorder.sample
}

/// Writes `stdin` and `stdout` into the folder.
pub fn write(folder: &Path) -> io::Result<()> {
    let sample = sample();
    fs::create_dir_all(folder)?;
    fs::write(folder.join("stdin"), sample.input)?;
    fs::write(folder.join("stdout"), sample.output)
}
