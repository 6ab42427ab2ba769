//! The port as a `Subject`: every call through the exported functions, and now and then once more with something amiss.

mod amiss;
mod apply_all;
mod book;
mod boundary;
pub mod cases;
mod forms;
mod handshakes;
mod orders;
mod reads;
mod run;
mod states;
mod tally;
mod trials;

use std::collections::BTreeMap;

use crate::call::{
    Act, Answer, Applied, Buffers, Call, Lent, Said, Status, Subject, Values, Voice,
};
use crate::generate::random::Random;
use crate::piece::{Message, Snapshot, SnapshotOrder, decode_message, shape_message};
use crate::port;
use crate::reader::message_words;
use book::{Book, Effect, Extent};
use boundary::Given;
use cases::Cases;
use trials::Trial;

pub use run::{Difference, compare, run};
pub use tally::Tally;

/// How many in a hundred of the calls that change a book, of steps, and of reads are made with something amiss too.
const TRIAL_PERCENT: u64 = 15;
const STEP_TRIAL_PERCENT: u64 = 40;
const READ_TRIAL_PERCENT: u64 = 50;

pub struct Ported {
    seed: u64,
    books: BTreeMap<u8, Book>,
    handshakes: BTreeMap<u8, handshakes::Held>,
    /// The runs of messages under way, by book.
    runs: BTreeMap<u8, apply_all::Run>,
    reads: reads::Reads,
    /// Draws the form of a call's words: from the seed and the call alone, so that a call keeps its form in any list of calls.
    random: Random,
    cases: Cases,
}

/// What a call comes to.
struct Reply {
    number: u64,
    values: Values,
    buffers: Buffers,
}

impl Reply {
    fn new(number: u64, values: Values) -> Reply {
        Reply {
            number,
            values,
            buffers: Buffers::NONE,
        }
    }
}

/// An exported function that changes a book.
#[derive(Clone, Copy, PartialEq, Eq)]
enum Export {
    Apply,
    Bootstrap,
    Step,
}

impl Export {
    fn name(self) -> &'static str {
        match self {
            Export::Apply => "apply",
            Export::Bootstrap => "bootstrap",
            Export::Step => "step",
        }
    }

    /// What an answer may have done to the block: a refusal, but for its count, nothing.
    fn effect(self, answer: u64) -> Effect {
        match (self, answer) {
            (_, 0 | 16 | port::CHANGED) => Effect::Sets,
            (Export::Step, port::DROPPED) => Effect::Counts(8),
            (Export::Apply | Export::Step, 10) => Effect::Counts(10),
            (Export::Apply | Export::Step, 17) => Effect::Counts(9),
            (Export::Bootstrap, 10..=14) => Effect::Counts(11),
            _ => Effect::Nothing,
        }
    }
}

impl Ported {
    pub fn new(seed: u64) -> Ported {
        Ported {
            seed,
            books: BTreeMap::new(),
            handshakes: BTreeMap::new(),
            runs: BTreeMap::new(),
            reads: reads::Reads::default(),
            random: Random::new(seed),
            cases: Cases::default(),
        }
    }

    /// Calls `function` with the book's memory as the call lends it; the number that it answers.
    fn lend(
        &mut self,
        export: Export,
        call: &Call,
        function: impl FnOnce(&mut [u64], &mut [u64], &mut [u64]) -> u64,
    ) -> Option<u64> {
        let (book, name) = (self.books.get_mut(&call.book)?, export.name());
        let before = book.block;
        let answer = book.lend(&call.lent, Extent::drawn(&mut self.random), function);
        book.check_block(&before, export.effect(answer));
        if let Some(form) = forms::of(&before) {
            self.cases.add(name, form);
            self.cases.add(name, cases::outcome(answer));
        }
        self.cases.invalid(&before, answer);
        Some(answer)
    }

    /// The call's book as it is now, where the call is to be made with something amiss too: always where 1 or 2 is to come, which is rare.
    fn book_for_trial(&mut self, call: &Call, percent: u64) -> Option<Option<Book>> {
        let book = self.books.get(&call.book)?;
        let drawn = self.random.chance(percent) || !book.fits(&call.lent);
        Some(drawn.then(|| book.clone()))
    }

    fn bootstrap(&mut self, call: &Call, piece: &[u8]) -> Option<u64> {
        let trial = self.book_for_trial(call, TRIAL_PERCENT)?;
        let answer = self.lend(Export::Bootstrap, call, |state, rows, segments| {
            port::bootstrap(state, rows, segments, piece)
        })?;
        if let Some(book) = trial {
            self.try_bootstrap(&book, &call.lent, piece, answer);
        }
        Some(answer)
    }

    /// The same call with something amiss; `rules` is what it answered.
    fn try_bootstrap(&mut self, book: &Book, lent: &Lent, piece: &[u8], rules: u64) {
        let trial = Trial::new(Export::Bootstrap.name(), &book.block, &mut self.random);
        let given = Given::new(trial.state(), Some(book.memory(lent, trial.extent)));
        if let Some(number) = trial.expected(&given, rules, &mut self.cases) {
            book.turns_away(lent, &trial, number, |state, rows, segments| {
                port::bootstrap(state, rows, segments, piece)
            });
        }
    }

    /// The words of a message, at times in another form.
    fn message_form(&mut self, export: Export, message: &Message) -> Vec<u64> {
        let mut words = message_words(message);
        if self.random.chance(50) {
            forms::scatter_message(&mut words, &mut self.random);
            self.cases.add(export.name(), "another form of a message");
        }
        words
    }

    fn apply(&mut self, call: &Call, message: &Message) -> Option<Reply> {
        let words = self.message_form(Export::Apply, message);
        let trial = self.book_for_trial(call, TRIAL_PERCENT)?;
        self.begin_run(call)?;
        let answer = self.lend(Export::Apply, call, |state, rows, segments| {
            port::apply(state, rows, segments, &words)
        })?;
        if let Some(book) = trial {
            self.try_apply(&book, &call.lent, words.clone(), answer);
        }
        self.note_message(call, &words, answer)?;
        Some(applied(answer, self.books[&call.book].status()))
    }

    /// The same call with something amiss; `rules` is what it answered.
    fn try_apply(&mut self, book: &Book, lent: &Lent, mut message: Vec<u64>, rules: u64) {
        let mut trial = Trial::new(Export::Apply.name(), &book.block, &mut self.random);
        amiss::message(&mut message, &mut trial, &mut self.random);
        let given = Given {
            message: Some(&message),
            ..Given::new(trial.state(), Some(book.memory(lent, trial.extent)))
        };
        if let Some(number) = trial.expected(&given, rules, &mut self.cases) {
            book.turns_away(lent, &trial, number, |state, rows, segments| {
                port::apply(state, rows, segments, &message)
            });
        }
    }

    /// None if a slot that the call names is empty.
    fn reply(&mut self, call: &Call) -> Option<Reply> {
        if let Act::Create { .. } = call.act {
            let book = Book::create(&call.act, &mut self.random, &mut self.cases)?;
            self.books.insert(call.book, book);
            return Some(Reply::new(0, Values::Nothing));
        }
        if let Some(book) = self.books.get_mut(&call.book)
            && self.random.chance(50)
        {
            forms::scatter(&mut book.block, &mut self.random);
        }
        if reads::asks(&call.act) {
            let (random, cases) = (&mut self.random, &mut self.cases);
            return self.reads.reply(&self.books, call, random, cases);
        }
        match &call.act {
            Act::ReadMessage { piece } => Some(read_message(piece)),
            Act::ReadSnapshot { piece } => Some(read_snapshot(piece)),
            Act::ForgeHandshake { slot, handshake } => Some(self.forge_handshake(*slot, handshake)),
            _ => self.on_book(call),
        }
    }

    fn on_book(&mut self, call: &Call) -> Option<Reply> {
        self.books.get(&call.book)?;
        match &call.act {
            Act::Bootstrap { piece } => {
                let number = self.bootstrap(call, piece)?;
                Some(Reply::new(number, Values::Nothing))
            }
            Act::Apply { piece } => match shape_message(piece) {
                Ok(message) => self.apply(call, &message),
                Err(_) => Some(Reply::new(read_message(piece).number, Values::Nothing)),
            },
            Act::Handshake { slot } => self.handshake(call, *slot),
            Act::Step { slot, piece } => self.step(call, *slot, piece),
            Act::BootstrapWithBuffer {
                slot,
                piece,
                buffer,
            } => self.bootstrap_with_buffer(call, *slot, piece, buffer),
            Act::Manifest => {
                let (book, lent) = (&self.books[&call.book], &call.lent);
                let values = book.manifest(lent, &mut self.random, &mut self.cases);
                Some(Reply::new(0, values))
            }
            Act::Invalidation => {
                let book = &self.books[&call.book];
                let why = book.invalidation(&mut self.random, &mut self.cases);
                Some(Reply::new(0, Values::InForce(why)))
            }
            act => {
                self.books.get_mut(&call.book)?.damage(act);
                Some(Reply::new(0, Values::Nothing))
            }
        }
    }
}

/// The number and values of an answer of `apply`; the invalidation of 16 and 17 is the state's.
fn applied(answer: u64, status: Status) -> Reply {
    match (answer, status) {
        (0, _) => Reply::new(0, Values::Applied(Applied::NoBookEffect)),
        (port::CHANGED, _) => Reply::new(0, Values::Applied(Applied::BookChanged)),
        (16 | 17, Status::Invalid(why)) => Reply::new(answer, Values::Invalidation(why)),
        _ => Reply::new(answer, Values::Nothing),
    }
}

/// The message reader; its words stand for the message that the decoder finds, if they are its words.
fn read_message(piece: &[u8]) -> Reply {
    let mut out = [0; port::MESSAGE_WORDS];
    let number = port::read_message(piece, &mut out);
    match decode_message(piece) {
        Ok(message) if number == 0 && message_words(&message) == out => {
            Reply::new(0, Values::Message(message))
        }
        _ => Reply::new(number, Values::Nothing),
    }
}

fn read_snapshot(piece: &[u8]) -> Reply {
    let mut out = [0; port::SNAPSHOT_WORDS];
    let number = port::read_snapshot(piece, &mut out);
    if number != 0 {
        return Reply::new(number, Values::Nothing);
    }
    let [high, low, sequence, bids, asks] = out;
    let id = |high: u64, low: u64| u128::from(high) << 64 | u128::from(low);
    let order = |place: u64| {
        let mut out = [0; port::ORDER_WORDS];
        port::snapshot_order(piece, place as usize, &mut out);
        SnapshotOrder {
            id: id(out[0], out[1]),
            price: out[2] as i64,
            size: out[3] as i64,
        }
    };
    let snapshot = Snapshot {
        product: id(high, low).to_be_bytes(),
        sequence,
        bids: (0..bids).map(order).collect(),
        asks: (bids..bids + asks).map(order).collect(),
    };
    Reply::new(0, Values::Snapshot(snapshot))
}

/// The readers and the forging of handshakes, estimates and ahead-lists concern no book.
fn concerns_book(act: &Act) -> bool {
    reads::concerns_book(act)
        && !matches!(
            act,
            Act::ReadMessage { .. } | Act::ReadSnapshot { .. } | Act::ForgeHandshake { .. }
        )
}

impl Subject for Ported {
    fn call(&mut self, call: &Call) -> Answer {
        self.random = Random::new(self.seed ^ call.digest());
        self.before_change(call);
        let reply = self.reply(call);
        self.between(call);
        let Some(Reply {
            number,
            values,
            buffers,
        }) = reply
        else {
            return Answer::Absent;
        };
        let book = self.books.get_mut(&call.book);
        let book = book.filter(|_| concerns_book(&call.act));
        Answer::Said(Box::new(Said {
            number: u8::try_from(number).expect("a number of 01"),
            voice: Voice::Port,
            values,
            buffers,
            state: book.map(Book::shown),
        }))
    }
}
