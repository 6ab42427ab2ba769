//! Day files listed a second time, by calls of the model or the runner and another reading of the format: all listings must be the same, and each
//! slip planted into the second must show within the generator's first files.

use oracle::call::{
    Act, Answer, Call, Counts, Lent, Rules, Segment, SegmentEnd, SizeDecrease, Subject, Values,
};
use oracle::daybook;
use oracle::daybook::generate::Days;
use oracle::model::{self, Model};
use oracle::piece::shape_message;
use oracle::rust::Rust;

const SEED: u64 = 3;
const FILES: usize = 20_000;

macro_rules! slips {
    ($($(#[$doc:meta])* $name:ident,)*) => {
        /// One wrong reading of paper 1.
        #[derive(Debug, Clone, Copy, PartialEq, Eq)]
        enum Slip {
            $($(#[$doc])* $name,)*
            StopsAt(u8),
            GoesOnAfter(u8),
        }

        const PLAIN: &[Slip] = &[$(Slip::$name,)*];
    };
}

slips! {
    // The format.
    PairsIn32Bits,
    PairsInSigned32Bits,
    EndIn32Bits,
    EqualOffsetsTaken,
    FirstUnchecked,
    FirstOneEarlyTaken,
    FirstRightBehindRefused,
    NextUnchecked,
    NextOneMoreTaken,
    NextTouchingRefused,
    EndOneMoreTaken,
    EndTouchingRefused,
    LastUnchecked,
    OffsetAtEndRefused,
    LongestOneLess,
    LongestOneMore,
    /// Fewer bytes than a count has are a day without pieces.
    NoCountAsNone,
    NoneRefused,
    EmptyPieceRefused,
    GapRefused,
    BytesBehindRefused,
    CountBigEndian,
    PairBigEndian,
    LengthBeforeOffset,
    /// The pieces before a broken rule are read.
    ReadBeforeRefused,

    // The replay.
    EmptyPieceSkipped,
    /// 6 is counted among the rejected snapshots.
    SixCounted,
    SixBeforeFour,
    OneSegmentLess,
    OneSegmentMore,
    OneOrderLess,
    OneOrderMore,
    OneLevelLess,
    ProductOfFirstSnapshot,
    ProductOfZeros,
    ProductFirstEight,
    /// Messages at or below a snapshot's sequence are dropped.
    Handshake,

    // Times and text.
    ElapsedWraps,
    ElapsedEitherWay,
    ElapsedFromZero,
    /// The sum of the forward steps.
    ElapsedSummed,
    /// From the earliest to the latest.
    ElapsedLongest,
    OffendingTimeTaken,
    /// A segment without messages keeps the times of the one before.
    TimesKept,
    StopFromZero,
    /// The stop tells how many messages were read.
    StopOfMessages,
    PlaceFromZero,
    /// Segments before the last are superseded, whatever ended them.
    EndOfLastOnly,
}

fn slips() -> Vec<Slip> {
    let stops = (10..=17).map(Slip::StopsAt);
    let goes_on = (4..=6).map(Slip::GoesOnAfter);
    PLAIN.iter().copied().chain(stops).chain(goes_on).collect()
}

/// The slips of the model that a listing can show.
const OF_THE_MODEL: &[model::Slip] = &[
    model::Slip::ExactRowsShort,
    model::Slip::FullListShort,
    model::Slip::SnapshotTimeTaken,
    model::Slip::UnusedBitsTaken,
    model::Slip::AbsentAmountTaken,
    model::Slip::AmountLimitOneLess,
    model::Slip::FullListAfterProduct,
    model::Slip::FullListTaken,
    model::Slip::ProductAfterStanding,
    model::Slip::WrongProductUncounted,
    model::Slip::SkippedUncounted,
    model::Slip::LastSequenceIsGap,
    model::Slip::SequenceWraps,
    model::Slip::InvalidationUnrecorded,
    model::Slip::OpenIdAfterValues,
    model::Slip::OpenCrossBeforeValues,
    model::Slip::OpenLimitBeforeCross,
    model::Slip::CrossStrict,
    model::Slip::OrderLimitOneMore,
    model::Slip::FilledRemoves,
    model::Slip::FilledBeforeFacts,
    model::Slip::CancelSizeBeforeFacts,
    model::Slip::CancelWithoutSize,
    model::Slip::DonePriceIgnored,
    model::Slip::OffBookDoneAsDone,
    model::Slip::MakerBeforeTaker,
    model::Slip::MatchSizeBeforeFacts,
    model::Slip::MatchExcessBeforeFacts,
    model::Slip::MatchSideTakers,
    model::Slip::FactsBeforeModify,
    model::Slip::NewPriceBeforeFacts,
    model::Slip::NoSizeBeforeNewPrice,
    model::Slip::LargerBeforeFacts,
    model::Slip::OldPriceIgnored,
    model::Slip::OffBookChangeAsDone,
    model::Slip::NoopAsDecrease,
    model::Slip::KeepHoldsSequence,
    model::Slip::FirstTimeByZero,
    model::Slip::LastTimeNeverFalls,
    model::Slip::RefusedSnapshotEnds,
    model::Slip::SnapshotOrderLimitOneMore,
    model::Slip::SnapshotCrossStrict,
    model::Slip::RejectedProductUncounted,
    model::Slip::SupersededUnrecorded,
    model::Slip::InvalidSuperseded,
];

/// The second way to a listing, with a slip or none.
struct Second<S> {
    subject: S,
    slip: Option<Slip>,
}

/// What the pairs say of one piece.
struct Span {
    offset: u64,
    length: u64,
    /// Where the next one begins; none for the last.
    next: Option<u64>,
}

/// The times of a segment's accepted messages.
type Times = Vec<u64>;

/// The reading of the format.
impl<S: Subject> Second<S> {
    fn is(&self, slip: Slip) -> bool {
        self.slip == Some(slip)
    }

    /// 1 with the slip, 0 without.
    fn slack(&self, slip: Slip) -> u64 {
        u64::from(self.is(slip))
    }

    fn half(&self, file: &[u8], at: usize, big: Slip) -> Option<u64> {
        let bytes: [u8; 4] = file.get(at..at + 4)?.try_into().ok()?;
        let number = match self.is(big) {
            true => u32::from_be_bytes(bytes),
            false => u32::from_le_bytes(bytes),
        };
        Some(u64::from(number))
    }

    /// How many pairs there are; none for 60.
    fn count(&self, file: &[u8]) -> Option<usize> {
        let longest = match self.slip {
            Some(Slip::LongestOneLess) => 65_535,
            Some(Slip::LongestOneMore) => 65_537,
            _ => 65_536,
        };
        if file.len() > longest {
            return None;
        }
        let Some(count) = self.half(file, 0, Slip::CountBigEndian) else {
            return self.is(Slip::NoCountAsNone).then_some(0);
        };
        let table = match self.slip {
            Some(Slip::PairsIn32Bits) => i64::from((4 + 8 * count) as u32),
            Some(Slip::PairsInSigned32Bits) => i64::from((4 + 8 * count) as i32),
            _ => 4 + 8 * count as i64,
        };
        let fits = table <= file.len() as i64 && !(count == 0 && self.is(Slip::NoneRefused));
        fits.then_some((table.max(4) as usize - 4) / 8)
    }

    fn span(&self, file: &[u8], count: usize, place: usize) -> Option<Span> {
        let (mut at, mut with) = (4 + 8 * place, 8 + 8 * place);
        if self.is(Slip::LengthBeforeOffset) {
            (at, with) = (with, at);
        }
        Some(Span {
            offset: self.half(file, at, Slip::PairBigEndian)?,
            length: self.half(file, with, Slip::PairBigEndian)?,
            next: match place + 1 == count {
                true => None,
                false => Some(self.half(file, at + 8, Slip::PairBigEndian)?),
            },
        })
    }

    /// Whether the first piece starts past the pairs.
    fn starts(&self, span: &Span, table: u64) -> bool {
        let from = table + self.slack(Slip::FirstRightBehindRefused);
        let early = self.is(Slip::FirstUnchecked);
        let gap = self.is(Slip::GapRefused) && span.offset != table;
        (early || span.offset + self.slack(Slip::FirstOneEarlyTaken) >= from) && !gap
    }

    fn end(&self, span: &Span) -> u64 {
        let end = span.offset + span.length;
        match self.is(Slip::EndIn32Bits) {
            true => end % (1 << 32),
            false => end,
        }
    }

    /// Whether a piece ends by the next one's offset, which is higher than its own.
    fn before(&self, span: &Span, next: u64) -> bool {
        let end = self.end(span);
        let equal = self.is(Slip::EqualOffsetsTaken) && next == span.offset;
        let by = next + self.slack(Slip::NextOneMoreTaken);
        let ends =
            self.is(Slip::NextUnchecked) || end + self.slack(Slip::NextTouchingRefused) <= by;
        let gap = self.is(Slip::GapRefused) && end != next;
        (next > span.offset || equal) && ends && !gap
    }

    /// Whether the last piece ends by the file's end.
    fn last(&self, span: &Span, bytes: u64) -> bool {
        let end = self.end(span);
        let at_end = self.is(Slip::OffsetAtEndRefused) && span.offset == bytes;
        let behind = self.is(Slip::BytesBehindRefused) && end != bytes;
        let by = bytes + self.slack(Slip::EndOneMoreTaken);
        let ends = self.is(Slip::LastUnchecked) || end + self.slack(Slip::EndTouchingRefused) <= by;
        ends && !at_end && !behind
    }

    /// A piece's bytes, if its pair keeps the rules. A slip may let it past the file's end: it is cut there.
    fn piece<'a>(&self, file: &'a [u8], count: usize, place: usize) -> Option<&'a [u8]> {
        let span = self.span(file, count, place)?;
        let bytes = file.len() as u64;
        let sound = match span.next {
            Some(next) => self.before(&span, next),
            None => self.last(&span, bytes),
        };
        let starts = place > 0 || self.starts(&span, 4 + 8 * count as u64);
        let empty = self.is(Slip::EmptyPieceRefused) && span.length == 0;
        let (from, to) = (span.offset, span.offset + span.length);
        let cut = from.min(bytes) as usize..to.min(bytes) as usize;
        (sound && starts && !empty).then(|| file.get(cut).unwrap_or_default())
    }

    /// The pieces, and whether the file keeps the rules.
    fn pieces<'a>(&self, file: &'a [u8]) -> (Vec<&'a [u8]>, bool) {
        let Some(count) = self.count(file) else {
            return (Vec::new(), false);
        };
        let pieces = (0..count).map_while(|place| self.piece(file, count, place));
        let pieces: Vec<&[u8]> = pieces.collect();
        let sound = pieces.len() == count;
        (pieces, sound)
    }
}

/// The replay.
impl<S: Subject> Second<S> {
    fn call(&mut self, act: Act) -> (u8, Values) {
        let lent = Lent {
            rows: u64::MAX,
            segments: u64::MAX,
            scratch: 0,
            output: 0,
            ahead: 0,
        };
        let book = 0;
        match self.subject.call(&Call { book, lent, act }) {
            Answer::Said(said) => (said.number, said.values),
            other => panic!("{other:?} where no book is damaged"),
        }
    }

    fn product(&self, pieces: &[&[u8]]) -> [u8; 16] {
        let snapshot = self.is(Slip::ProductOfFirstSnapshot);
        let named = pieces.iter().find(|p| !snapshot || p.first() == Some(&0));
        let mut product = [0; 16];
        if let Some(bytes) = named.and_then(|piece| piece.get(1..17)) {
            product.copy_from_slice(bytes);
        }
        match self.slip {
            Some(Slip::ProductOfZeros) => product.fill(0),
            Some(Slip::ProductFirstEight) => product[8..].fill(0),
            _ => {}
        }
        product
    }

    fn create(&mut self, pieces: &[&[u8]]) {
        let (max_orders, max_levels) = match self.slip {
            Some(Slip::OneOrderLess) => (511, 512),
            Some(Slip::OneOrderMore) => (513, 512),
            Some(Slip::OneLevelLess) => (512, 511),
            _ => (512, 512),
        };
        let rules = Rules {
            size_decrease: SizeDecrease::KeepsPriority,
            max_orders,
            max_levels,
        };
        self.call(Act::Create {
            product: self.product(pieces),
            rules,
            number: 9,
            row_words: 8 * max_orders,
            segment_records: match self.slip {
                Some(Slip::OneSegmentLess) => 63,
                Some(Slip::OneSegmentMore) => 65,
                _ => 64,
            },
            row_fill: 1,
            segment_fill: 1,
        });
    }

    fn snapshot(&mut self, piece: &[u8], times: &mut Vec<Times>) -> u8 {
        if times.len() == 64 && self.is(Slip::SixBeforeFour) {
            return 6;
        }
        let piece = piece.to_vec();
        let (number, _) = self.call(Act::Bootstrap { piece });
        if number == 0 {
            times.push(Times::new());
            if self.is(Slip::Handshake) {
                self.call(Act::Handshake { slot: 0 });
            }
        }
        number
    }

    fn message(&mut self, piece: &[u8], times: &mut [Times]) -> u8 {
        let (slot, bytes) = (0, piece.to_vec());
        let (number, _) = match self.is(Slip::Handshake) && !times.is_empty() {
            true => self.call(Act::Step { slot, piece: bytes }),
            false => self.call(Act::Apply { piece: bytes }),
        };
        let timed = number == 0 || (number == 16 && self.is(Slip::OffendingTimeTaken));
        if let (Ok(message), Some(times), true) = (shape_message(piece), times.last_mut(), timed) {
            times.push(message.time_us);
        }
        number
    }

    fn goes_on(&self, number: u8) -> bool {
        match self.slip {
            Some(Slip::StopsAt(at)) if at == number => false,
            Some(Slip::GoesOnAfter(at)) if at == number => true,
            _ => matches!(number, 0 | 10..=17),
        }
    }

    /// Takes the pieces in turn; tells where it stopped, and how often 6 was said.
    fn replay(&mut self, pieces: &[&[u8]], times: &mut Vec<Times>) -> (Option<(usize, u8)>, u64) {
        let (mut messages, mut sixes) = (0, 0);
        for (place, piece) in (1_usize..).zip(pieces) {
            if piece.is_empty() && self.is(Slip::EmptyPieceSkipped) {
                continue;
            }
            let number = match piece.first() {
                Some(0) => self.snapshot(piece, times),
                _ => self.message(piece, times),
            };
            messages += usize::from(piece.first() != Some(&0));
            sixes += u64::from(number == 6);
            if !self.goes_on(number) {
                let place = match self.slip {
                    Some(Slip::StopFromZero) => place - 1,
                    Some(Slip::StopOfMessages) => messages,
                    _ => place,
                };
                return (Some((place, number)), sixes);
            }
        }
        (None, sixes)
    }

    fn listing(&mut self, file: &[u8]) -> String {
        let (mut pieces, sound) = self.pieces(file);
        if !sound && !self.is(Slip::ReadBeforeRefused) {
            pieces.clear();
        }
        self.create(&pieces);
        let mut times = Vec::new();
        let (mut stop, sixes) = self.replay(&pieces, &mut times);
        if !sound {
            stop = Some((0, 60));
        }
        let (_, values) = self.call(Act::Manifest);
        let Values::Manifest {
            mut counts,
            segments,
            ..
        } = values
        else {
            panic!("a manifest is never refused");
        };
        if self.is(Slip::SixCounted) {
            counts.rejected_snapshots += sixes;
        }
        if self.is(Slip::TimesKept) {
            keep(&mut times);
        }
        self.text(&segments, &times, &counts, stop)
    }
}

/// A segment without a message keeps the times of the one before.
fn keep(times: &mut [Times]) {
    for place in 1..times.len() {
        if times[place].is_empty() {
            times[place] = times[place - 1].clone();
        }
    }
}

/// The text.
impl<S: Subject> Second<S> {
    /// The subject's own times, or what a slip makes of those of the messages.
    fn elapsed(&self, segment: &Segment, times: &[u64]) -> u64 {
        let (first, last) = (segment.first_us, segment.last_us);
        let (least, most) = (times.iter().min(), times.iter().max());
        match self.slip {
            Some(Slip::ElapsedWraps) => last.wrapping_sub(first),
            Some(Slip::ElapsedEitherWay) => last.abs_diff(first),
            Some(Slip::ElapsedFromZero) => last,
            Some(Slip::ElapsedLongest) => most.unwrap_or(&0) - least.unwrap_or(&0),
            Some(Slip::ElapsedSummed) => {
                let steps = times.windows(2).map(|two| two[1].saturating_sub(two[0]));
                steps.fold(0, u64::saturating_add)
            }
            Some(Slip::OffendingTimeTaken | Slip::TimesKept) => {
                let (first, last) = (times.first(), times.last());
                last.unwrap_or(&0).saturating_sub(*first.unwrap_or(&0))
            }
            _ => last.max(first) - first,
        }
    }

    fn ended(&self, segment: &Segment, last: bool) -> String {
        match segment.end {
            SegmentEnd::Open => "open".to_string(),
            SegmentEnd::Invalidated(why) if last || !self.is(Slip::EndOfLastOnly) => {
                why.reason.to_string()
            }
            _ => "superseded".to_string(),
        }
    }

    fn text(
        &self,
        segments: &[Segment],
        times: &[Times],
        counts: &Counts,
        stop: Option<(usize, u8)>,
    ) -> String {
        let mut text = String::new();
        let mut line = |words: &[String]| text.push_str(&(words.join(" ") + "\n"));
        for (place, (segment, times)) in segments.iter().zip(times).enumerate() {
            let number = place + 1 - usize::from(self.is(Slip::PlaceFromZero));
            line(&[
                "segment".to_string(),
                number.to_string(),
                segment.start_seq.to_string(),
                segment.last_good_seq.to_string(),
                self.ended(segment, place + 1 == segments.len()),
                self.elapsed(segment, times).to_string(),
            ]);
        }
        let counts = counts.array().map(|count| count.to_string());
        line(&["counts".to_string(), counts.join(" ")]);
        if let Some((place, number)) = stop {
            line(&[format!("stop {place} {number}")]);
        }
        text
    }
}

fn first(file: &[u8]) -> String {
    String::from_utf8(daybook::listing(file)).expect("a listing is text")
}

fn second(subject: impl Subject, slip: Option<Slip>, file: &[u8]) -> String {
    Second { subject, slip }.listing(file)
}

#[test]
fn the_listings_agree() {
    for (place, file) in (1..).zip(Days::new(SEED).take(2_000)) {
        let listing = first(&file);
        assert_eq!(listing, second(Model::new(), None, &file), "file {place}");
        assert_eq!(listing, second(Rust::new(), None, &file), "file {place}");
    }
}

/// Tells where each first shows, and fails if one never does.
fn all_show<T: std::fmt::Debug + Copy>(all: &[T], slipped: impl Fn(T, &[u8]) -> String) {
    let mut hidden = all.to_vec();
    for (place, file) in (1..).zip(Days::new(SEED).take(FILES)) {
        let listing = first(&file);
        hidden.retain(|&slip| {
            let shows = slipped(slip, &file) != listing;
            if shows {
                println!("{slip:?} shows in file {place}");
            }
            !shows
        });
        if hidden.is_empty() {
            return;
        }
    }
    panic!("not shown by {FILES} files: {hidden:?}");
}

#[test]
fn every_slip_shows() {
    all_show(&slips(), |slip, file| second(Rust::new(), Some(slip), file));
}

#[test]
fn every_slip_of_the_model_shows() {
    all_show(OF_THE_MODEL, |slip, file| {
        second(Model::slipping(slip), None, file)
    });
}
