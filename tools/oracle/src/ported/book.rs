//! A book as a host keeps it: the state in a block of words, the rows, the segment records, and guard words behind each.

use super::amiss;
use super::boundary;
use super::cases::Cases;
use super::states::Asked;
use super::trials::Trial;
use crate::call::{
    Act, CEILING, Counts, Field, Invalidation, Lent, Memory, Rules, Segment, SegmentEnd,
    SizeDecrease, State, Status, Values, digest_segments, digest_words, fresh_rows, fresh_segments,
};
use crate::generate::random::Random;
use crate::piece::Product;
use crate::port;

/// The words of a segment record and of a row.
pub const RECORD: usize = 8;
pub const ROW: usize = 8;
/// Stand behind each memory, and must stay.
pub const GUARDS: usize = 4;
pub const GUARD: u64 = 0xA5A5_5A5A_DEAD_BEEF;

/// How often a call that comes seldom is made with something amiss.
pub const RARE_TRIALS: u64 = 4;

/// A state's words, and guards.
pub type Block = [u64; port::BLOCK_WORDS + GUARDS];

/// How many words of the block are lent, and how many behind the last record that is: they are none.
#[derive(Clone, Copy)]
pub struct Extent {
    pub state: usize,
    part: usize,
}

impl Extent {
    pub const EXACT: Extent = Extent {
        state: port::BLOCK_WORDS,
        part: 0,
    };

    /// Exact or longer.
    pub fn drawn(random: &mut Random) -> Extent {
        let mut more = || random.below(GUARDS as u64 + 1) as usize;
        Extent {
            state: port::BLOCK_WORDS + more(),
            part: more(),
        }
    }
}

#[derive(Clone)]
pub struct Book {
    pub block: Block,
    rows: Vec<u64>,
    segments: Vec<u64>,
    /// The last sequence that the host knows: the block has it only while the book is valid.
    last_sequence: u64,
    /// What the last answer showed, kept while nothing can have changed: digests of large memories are slow.
    last_shown: Option<State>,
}

/// Places in the block, as crate `host_words` documents them.
pub mod at {
    pub const DECREASE: usize = 2;
    pub const MAX_ORDERS: usize = 3;
    pub const MAX_LEVELS: usize = 4;
    pub const NUMBER: usize = 5;
    pub const STATUS: usize = 6;
    pub const LAST: usize = 7;
    pub const OFFENDING: usize = 8;
    pub const KIND: usize = 9;
    pub const FIRST: usize = 10;
    pub const SECOND: usize = 11;
    pub const DETAIL: usize = 12;
    pub const ROWS: usize = 13;
    pub const SEGMENTS: usize = 14;
    pub const COUNTS: usize = 15;
}

fn record_words(segment: &Segment) -> [u64; RECORD] {
    let end = match segment.end {
        SegmentEnd::Open => [0; 4],
        SegmentEnd::Superseded => [1, 0, 0, 0],
        SegmentEnd::Invalidated(why) => [
            u64::from(why.reason),
            why.last_good_seq,
            why.first_offending_seq,
            u64::from(why.funds),
        ],
    };
    let [code, good, offending, detail] = end;
    let (first, last) = (segment.first_us, segment.last_us);
    [
        segment.start_seq,
        segment.last_good_seq,
        code,
        good,
        offending,
        detail,
        first,
        last,
    ]
}

fn record_of(words: &[u64]) -> Segment {
    Segment {
        start_seq: words[0],
        last_good_seq: words[1],
        end: match words[2] {
            0 => SegmentEnd::Open,
            1 => SegmentEnd::Superseded,
            reason => SegmentEnd::Invalidated(Invalidation {
                last_good_seq: words[3],
                first_offending_seq: words[4],
                reason: reason as u8,
                funds: words[5] == 1,
            }),
        },
        first_us: words[6],
        last_us: words[7],
    }
}

/// Words 6 to 12 as a call writes them.
fn status_words(status: Status, last_sequence: u64) -> [u64; at::ROWS - at::STATUS] {
    match status {
        Status::NoSnapshot => [0; 7],
        Status::Valid => [1, last_sequence, 0, 0, 0, 0, 0],
        Status::Invalid(why) => {
            let (good, offending) = (why.last_good_seq, why.first_offending_seq);
            let [first, second] = match why.reason {
                20 => [good.wrapping_add(1), offending],
                21 => [good, offending],
                _ => [0; 2],
            };
            let (reason, detail) = (u64::from(why.reason), u64::from(why.funds));
            [2, good, offending, reason, first, second, detail]
        }
    }
}

/// What a call may do to the block.
pub enum Effect {
    /// Sets status, rows, segments and counts.
    Sets,
    /// Adds one to this count.
    Counts(usize),
    Nothing,
}

impl Book {
    /// The state is the library's; the host's memory is as the act fills it.
    pub fn create(act: &Act, random: &mut Random, cases: &mut Cases) -> Option<Book> {
        let &Act::Create {
            ref product,
            rules,
            number,
            row_words,
            segment_records,
            row_fill,
            segment_fill,
        } = act
        else {
            return None;
        };
        let mut rows = fresh_rows(row_fill, row_words);
        rows.extend([GUARD; GUARDS]);
        let records = fresh_segments(segment_fill, segment_records);
        let mut segments: Vec<u64> = records.iter().flat_map(record_words).collect();
        segments.extend([GUARD; GUARDS]);
        let new = New {
            product: *product,
            rules,
            number,
        };
        Some(Book {
            block: new.block(random, cases),
            rows,
            segments,
            last_sequence: 0,
            last_shown: None,
        })
    }

    fn lent_rows(&self, lent: &Lent) -> usize {
        (self.rows.len() - GUARDS).min(lent.rows as usize)
    }

    /// In words.
    fn lent_segments(&self, lent: &Lent) -> usize {
        let records = (self.segments.len() - GUARDS) / RECORD;
        RECORD * records.min(lent.segments as usize)
    }

    /// Calls `function` with the first words of the block and the lent prefixes, and sees that the guards stand.
    pub fn lend(
        &mut self,
        lent: &Lent,
        extent: Extent,
        function: impl FnOnce(&mut [u64], &mut [u64], &mut [u64]) -> u64,
    ) -> u64 {
        self.last_shown = None;
        let (rows, segments) = (self.lent_rows(lent), self.lent_segments(lent));
        let answer = function(
            &mut self.block[..extent.state],
            &mut self.rows[..rows],
            &mut self.segments[..segments + extent.part],
        );
        for memory in [&self.block[..], &self.rows, &self.segments] {
            assert!(
                memory.ends_with(&[GUARD; GUARDS]),
                "a guard word was touched"
            );
        }
        if self.block[at::STATUS] == 1 {
            self.last_sequence = self.block[at::LAST];
        }
        answer
    }

    /// Sees that `function`, lent the trial's state and a copy of the memory, answers `number` and touches nothing.
    pub fn turns_away(
        &self,
        lent: &Lent,
        trial: &Trial,
        number: u64,
        function: impl FnOnce(&mut [u64], &mut [u64], &mut [u64]) -> u64,
    ) {
        let mut copy = self.clone();
        copy.block = trial.block;
        assert_eq!(copy.lend(lent, trial.extent, function), number, "a trial");
        assert_eq!(copy.block, trial.block, "the block after a trial");
        copy.block = self.block;
        copy.check_same(self, "a trial");
    }

    /// What a call that changes a book is lent of the memory.
    pub fn memory(&self, lent: &Lent, extent: Extent) -> boundary::Memory {
        boundary::Memory {
            rows: self.lent_rows(lent),
            segments: Some(self.lent_segments(lent) + extent.part),
            scratch: None,
        }
    }

    /// Sees that every word is the other's.
    pub fn check_same(&self, other: &Book, what: &str) {
        assert_eq!(self.block, other.block, "the block after {what}");
        assert!(self.rows == other.rows, "the rows after {what}");
        assert!(self.segments == other.segments, "the list after {what}");
    }

    /// Sees that a call left the block as it was, but for its effect. Which rows, segments and counts a status comes with is the model's to say.
    pub fn check_block(&self, before: &Block, effect: Effect) {
        let mut expected = *before;
        match effect {
            Effect::Sets => {
                let status = status_words(self.status(), self.last_sequence);
                expected[at::STATUS..at::ROWS].copy_from_slice(&status);
                expected[at::ROWS..].copy_from_slice(&self.block[at::ROWS..]);
            }
            Effect::Counts(index) => {
                let count = &mut expected[at::COUNTS + index];
                *count = count.saturating_add(1);
            }
            Effect::Nothing => {}
        }
        assert_eq!(self.block, expected, "the block afterwards");
    }

    pub fn status(&self) -> Status {
        let reason = self.block[at::KIND];
        match self.block[at::STATUS] {
            0 => Status::NoSnapshot,
            1 => Status::Valid,
            _ => Status::Invalid(Invalidation {
                last_good_seq: self.block[at::LAST],
                first_offending_seq: self.block[at::OFFENDING],
                reason: reason as u8,
                funds: reason == 38 && self.block[at::DETAIL] == 1,
            }),
        }
    }

    fn set_status(&mut self, status: Status) {
        let words = status_words(status, self.last_sequence);
        self.block[at::STATUS..at::ROWS].copy_from_slice(&words);
    }

    pub fn damage(&mut self, act: &Act) {
        self.last_shown = None;
        match *act {
            Act::SetRow { index, word } if index < (self.rows.len() - GUARDS) as u64 => {
                self.rows[index as usize] = word;
            }
            Act::SetSegment { index, record } => {
                let records = (self.segments.len() - GUARDS) / RECORD;
                if index < records as u64 {
                    let place = RECORD * index as usize;
                    self.segments[place..place + RECORD].copy_from_slice(&record_words(&record));
                }
            }
            Act::SetState { field } => self.set(field),
            _ => {}
        }
    }

    fn set(&mut self, field: Field) {
        match field {
            Field::Rows(rows) => self.block[at::ROWS] = rows,
            Field::Segments(segments) => self.block[at::SEGMENTS] = segments,
            Field::LastSequence(sequence) => {
                self.last_sequence = sequence;
                if self.block[at::STATUS] == 1 {
                    self.block[at::LAST] = sequence;
                }
            }
            Field::Status(status) => self.set_status(status),
            Field::Count(index, value) => self.block[at::COUNTS + index as usize] = value,
        }
    }

    fn records(&self) -> Vec<Segment> {
        let words = &self.segments[..self.segments.len() - GUARDS];
        words.chunks_exact(RECORD).map(record_of).collect()
    }

    /// The state without the levels, which follow from the rows.
    pub fn shown(&mut self) -> State {
        let shown = self.last_shown.unwrap_or_else(|| self.show());
        self.last_shown = Some(shown);
        shown
    }

    fn show(&self) -> State {
        let records = self.records();
        let (rows, segments) = (self.block[at::ROWS], self.segments());
        let last = segments
            .checked_sub(1)
            .and_then(|i| usize::try_from(i).ok());
        let words = &self.rows[..self.rows.len() - GUARDS];
        State {
            rows,
            segments,
            last_sequence: self.last_sequence,
            status: self.status(),
            counts: self.counts(),
            last_segment: last.and_then(|i| records.get(i).copied()),
            levels: None,
            memory: Some(Memory {
                rows: digest_words(words),
                segments: digest_segments(&records),
            }),
        }
    }
}

impl Book {
    /// Calls `function` with the lent rows. It may only read: the whole memory is compared.
    pub fn read(&self, lent: &Lent, function: impl FnOnce(&[u64]) -> u64) -> u64 {
        let memories = [&self.block[..], &self.rows, &self.segments];
        let before = memories.map(Kept::of);
        let answer = function(&self.rows[..self.lent_rows(lent)]);
        for (before, memory) in before.iter().zip(memories) {
            assert!(before.holds(memory), "a read wrote into the book");
        }
        answer
    }

    pub fn max_orders(&self) -> u64 {
        self.block[at::MAX_ORDERS]
    }

    pub fn number(&self) -> u64 {
        self.block[at::NUMBER]
    }

    pub fn segments(&self) -> u64 {
        self.block[at::SEGMENTS]
    }

    /// The start of the last segment, 0 where the memory has no such record.
    pub fn start_seq(&self) -> u64 {
        let place = self.segments().checked_sub(1);
        let record = place.and_then(|place| self.records().get(place as usize).copied());
        record.map_or(0, |record| record.start_seq)
    }

    /// The invalidation in force, as the library writes it.
    pub fn invalidation(&self, random: &mut Random, cases: &mut Cases) -> Option<Invalidation> {
        let asked = Asked {
            call: "invalidation",
            block: &self.block,
            trials: RARE_TRIALS,
        };
        let words: [u64; port::reads::INVALIDATION_WORDS] =
            asked.written(random, cases, port::reads::invalidation)?;
        let [last_good_seq, first_offending_seq, reason, more @ ..] = words;
        // What the reason does not hold is 0, whatever the state has there.
        let held = match reason {
            20 | 21 => [self.block[at::FIRST], self.block[at::SECOND], 0],
            38 => [0, 0, self.block[at::DETAIL]],
            _ => [0; 3],
        };
        assert_eq!(more, held, "what the reason {reason} holds");
        Some(Invalidation {
            last_good_seq,
            first_offending_seq,
            reason: reason as u8,
            funds: more[2] == 1,
        })
    }

    /// The record at a place of the lent list, as the library writes it.
    fn segment(
        &self,
        lent: &Lent,
        place: usize,
        (random, cases): (&mut Random, &mut Cases),
    ) -> Option<Segment> {
        let part = Extent::drawn(random).part;
        let list = &self.segments[..self.lent_segments(lent) + part];
        let asked = Asked {
            call: "segment",
            block: &self.block,
            trials: RARE_TRIALS,
        };
        let words: [u64; port::reads::RECORD_WORDS] =
            asked.written(random, cases, |state, out| {
                port::reads::segment(state, list, place, out)
            })?;
        let [start, good, .., first, last, elapsed, accepted] = words;
        let computed = (last.saturating_sub(first), good.saturating_sub(start));
        assert_eq!((elapsed, accepted), computed, "elapsed time and messages");
        Some(record_of(&words[..RECORD]))
    }

    /// What the words say of the book, and the records below both the segment count and the lent length.
    pub fn manifest(&self, lent: &Lent, random: &mut Random, cases: &mut Cases) -> Values {
        let product = u128::from(self.block[0]) << 64 | u128::from(self.block[1]);
        Values::Manifest {
            product: product.to_be_bytes(),
            rules: Rules {
                size_decrease: match self.block[at::DECREASE] {
                    0 => SizeDecrease::KeepsPriority,
                    _ => SizeDecrease::PriorityUnknown,
                },
                max_orders: self.max_orders(),
                max_levels: self.block[at::MAX_LEVELS],
            },
            number: self.number(),
            counts: self.counts(),
            segments: (0..)
                .map_while(|place| self.segment(lent, place, (&mut *random, &mut *cases)))
                .collect(),
        }
    }

    fn counts(&self) -> Counts {
        let mut counts = Counts::default();
        for index in 0..12 {
            *counts.slot(index) = self.block[at::COUNTS + index];
        }
        counts
    }

    /// Whether the limits and the lent memory pass 1 and 2.
    pub fn fits(&self, lent: &Lent) -> bool {
        let within = self.max_orders().max(self.block[at::MAX_LEVELS]) <= CEILING;
        let records = (self.lent_segments(lent) / RECORD) as u64;
        within && self.rows_suffice(lent) && records >= self.segments()
    }

    /// Whether as many rows are lent as number 2 asks for.
    pub fn rows_suffice(&self, lent: &Lent) -> bool {
        (self.lent_rows(lent) as u64) >= ROW as u64 * self.max_orders()
    }

    /// The rows in order of arrival.
    pub fn line(&self) -> impl Iterator<Item = &[u64]> {
        let words = &self.rows[..self.rows.len() - GUARDS];
        words.chunks_exact(ROW).take(self.block[at::ROWS] as usize)
    }
}

/// Words as they were before a call that may only read them.
pub struct Kept(Vec<u64>);

impl Kept {
    pub fn of(words: &[u64]) -> Kept {
        Kept(std::hint::black_box(words.to_vec()))
    }

    /// Whether they are as they were. The compiler may take that for granted of a shared borrow, hence the volatile reads.
    pub fn holds(&self, words: &[u64]) -> bool {
        // SAFETY: the reference is to a word of the slice.
        let now = |word: &u64| unsafe { std::ptr::read_volatile(word) };
        words.iter().map(now).eq(self.0.iter().copied())
    }
}

/// A book to be made.
struct New {
    product: Product,
    rules: Rules,
    number: u64,
}

impl New {
    /// The words that its state is to have.
    fn words(&self) -> [u64; port::BLOCK_WORDS] {
        let product = u128::from_be_bytes(self.product);
        let mut words = [0; port::BLOCK_WORDS];
        (words[0], words[1]) = ((product >> 64) as u64, product as u64);
        words[at::DECREASE] = self.decrease();
        words[at::MAX_ORDERS] = self.rules.max_orders;
        words[at::MAX_LEVELS] = self.rules.max_levels;
        words[at::NUMBER] = self.number;
        words
    }

    fn decrease(&self) -> u64 {
        u64::from(self.rules.size_decrease == SizeDecrease::PriorityUnknown)
    }

    fn make(&self, state: &mut [u64], decrease: u64) -> u64 {
        let limits = (self.rules.max_orders, self.rules.max_levels);
        let product = u128::from_be_bytes(self.product);
        port::new(state, product, decrease, limits, self.number)
    }

    /// The state that the library writes over any words, with guards behind it.
    fn block(&self, random: &mut Random, cases: &mut Cases) -> Block {
        let mut block = [GUARD; port::BLOCK_WORDS + GUARDS];
        block[..port::BLOCK_WORDS].fill_with(|| random.word());
        self.amiss(&block, random, cases);
        let words = port::BLOCK_WORDS + random.below(GUARDS as u64 + 1) as usize;
        assert_eq!(self.make(&mut block[..words], self.decrease()), 0, "new");
        let (state, guards) = block.split_at(port::BLOCK_WORDS);
        assert_eq!(state, self.words(), "a new state");
        assert_eq!(guards, [GUARD; GUARDS], "words past a new state");
        block
    }

    /// A rule of no value is told before words that are too few.
    fn amiss(&self, fresh: &Block, random: &mut Random, cases: &mut Cases) {
        let (mut words, mut decrease) = (port::BLOCK_WORDS, self.decrease());
        let mut numbers = Vec::new();
        if amiss::drawn(random) {
            decrease = amiss::above(1, random);
            numbers.push(boundary::NO_VALUE);
        }
        if amiss::drawn(random) {
            words = amiss::short(port::BLOCK_WORDS, random);
            numbers.push(boundary::OUTPUT_TOO_SMALL);
        }
        let Some(&number) = numbers.first() else {
            return;
        };
        let mut block = *fresh;
        let answer = self.make(&mut block[..words], decrease);
        assert_eq!((answer, block), (number, *fresh), "a trial of new");
        cases.order("new", &numbers);
    }
}
