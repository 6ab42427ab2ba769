//! The cases of the format: each rule broken alone, by one byte, by sums that 32 bits don't hold, and together; and what is no fault.

use super::Cases;
use crate::daybook::LONGEST;
use crate::daybook::layout::{COUNT, PAIR};

/// 2^32.
const WRAP: u64 = 1 << 32;

/// Lengths that a run must meet.
pub const BYTES: &[u64] = &[0, 1, 2, 3, 4, 5, 65_535, 65_536, 65_537];

const NO_COUNT: &str = "60: no whole count";
const NO_PAIRS: &str = "60: shorter than its pairs";
const LONGER: &str = "60: longer than 65,536 bytes";
const RISING: &str = "60: offsets that don't rise";
const FIRST: &str = "60: first piece within the pairs";
const NEXT: &str = "60: piece past the next";
const END: &str = "60: last piece past the end";
const SEVERAL: &str = "60: several rules";

pub const EXPECTED: &[&str] = &[
    NO_COUNT,
    NO_PAIRS,
    LONGER,
    RISING,
    FIRST,
    NEXT,
    END,
    SEVERAL,
    "60: one byte short of its pairs",
    "60: count one too large",
    "60: count of 2^31 and more",
    "60: pairs whose length wraps",
    "60: pairs whose length wraps to what is there",
    "60: one byte longer",
    "60: far longer",
    "60: offset of the one before",
    "60: offset below the one before",
    "60: first piece one byte early",
    "60: first piece at 0",
    "60: one byte past the next",
    "60: one byte past the end",
    "60: last offset past the end",
    "60: end that wraps to before the next",
    "60: end that wraps to before the end",
    "60: all that and longer",
    "first piece right behind the pairs",
    "bytes before the first piece",
    "piece right behind another",
    "bytes between pieces",
    "last piece ends the file",
    "bytes behind the last piece",
    "piece of length 0",
    "first piece of length 0",
    "last piece of length 0 at the end",
    "no piece, no byte",
    "no piece, but bytes",
    "65,535 bytes",
    "65,536 bytes",
    "65,536 bytes, ended by a piece",
    "several pieces",
    "more than 100 pieces",
    "more than 1,000 pieces",
];

fn half(file: &[u8], at: usize) -> u64 {
    let byte = |at: usize| u64::from(file[at]);
    byte(at) | byte(at + 1) << 8 | byte(at + 2) << 16 | byte(at + 3) << 24
}

/// Where so many pairs end.
fn pairs_end(pairs: u64) -> u64 {
    COUNT as u64 + PAIR as u64 * pairs
}

/// A piece as its pair says: where it begins, where it ends, and by where it should, each as wide as it needs.
struct Span {
    offset: u64,
    end: u64,
    by: u64,
}

fn spans(file: &[u8], count: u64) -> Vec<Span> {
    let at = |place: u64| pairs_end(place) as usize;
    let span = |place: u64| {
        let offset = half(file, at(place));
        Span {
            offset,
            end: offset + half(file, at(place) + PAIR / 2),
            by: match place + 1 == count {
                true => file.len() as u64,
                false => half(file, at(place + 1)),
            },
        }
    };
    (0..count).map(span).collect()
}

/// The rules that the pairs break.
fn broken(spans: &[Span]) -> Vec<&'static str> {
    let behind_pairs = pairs_end(spans.len() as u64);
    let rising = spans.windows(2).all(|two| two[1].offset > two[0].offset);
    let first = spans.first().is_none_or(|s| s.offset >= behind_pairs);
    let (last, others) = match spans.split_last() {
        Some((last, others)) => (last.end <= last.by, others),
        None => (true, spans),
    };
    let next = others.iter().all(|span| span.end <= span.by);
    let rules = [(rising, RISING), (first, FIRST), (next, NEXT), (last, END)];
    let broken = rules.into_iter().filter(|(kept, _)| !kept);
    broken.map(|(_, rule)| rule).collect()
}

impl Cases {
    pub fn note_format(&mut self, file: &[u8]) {
        let bytes = file.len() as u64;
        if BYTES.contains(&bytes) {
            self.number("bytes", bytes);
        }
        if file.len() < COUNT {
            return self.add(NO_COUNT);
        }
        let count = half(file, 0);
        if bytes < pairs_end(count) {
            return self.short(bytes, count);
        }
        let spans = spans(file, count);
        let mut rules = broken(&spans);
        if file.len() > LONGEST {
            if !rules.is_empty() {
                self.add("60: all that and longer");
            }
            rules.push(LONGER);
        }
        match rules[..] {
            [] => self.sound(bytes, &spans),
            [rule] => self.alone(rule, bytes, &spans),
            _ => self.several(&spans),
        }
    }

    /// Fewer bytes than the pairs have.
    fn short(&mut self, bytes: u64, count: u64) {
        let wanted = pairs_end(count);
        self.add(NO_PAIRS);
        if bytes + 1 == wanted {
            self.add("60: one byte short of its pairs");
        }
        if bytes + 8 >= wanted {
            self.add("60: count one too large");
        }
        if count >= WRAP / 2 {
            self.add("60: count of 2^31 and more");
        }
        if wanted >= WRAP {
            self.add("60: pairs whose length wraps");
            if wanted % WRAP <= bytes && wanted % WRAP > 4 {
                self.add("60: pairs whose length wraps to what is there");
            }
        }
    }

    fn several(&mut self, spans: &[Span]) {
        self.add(SEVERAL);
        if spans.windows(2).any(|two| two[1].offset < two[0].offset) {
            self.add("60: offset below the one before");
        }
    }

    /// One rule broken, and no other.
    fn alone(&mut self, rule: &'static str, bytes: u64, spans: &[Span]) {
        self.add(rule);
        match rule {
            LONGER if bytes == LONGEST as u64 + 1 => self.add("60: one byte longer"),
            LONGER => self.add("60: far longer"),
            // A lower offset would lie before the end of the piece before, too.
            RISING => self.add("60: offset of the one before"),
            FIRST => self.early(spans),
            _ => {
                let past = spans.iter().filter(|span| span.end > span.by);
                past.for_each(|span| self.past(rule, span));
            }
        }
    }

    fn early(&mut self, spans: &[Span]) {
        let offset = spans[0].offset;
        if offset == 0 {
            self.add("60: first piece at 0");
        } else if offset + 1 == pairs_end(spans.len() as u64) {
            self.add("60: first piece one byte early");
        }
    }

    fn past(&mut self, rule: &'static str, span: &Span) {
        let by_one = span.end == span.by + 1;
        let wraps = span.end >= WRAP && span.end % WRAP <= span.by;
        match rule {
            NEXT if by_one => self.add("60: one byte past the next"),
            NEXT if wraps => self.add("60: end that wraps to before the next"),
            END if span.offset > span.by => self.add("60: last offset past the end"),
            END if by_one => self.add("60: one byte past the end"),
            END if wraps => self.add("60: end that wraps to before the end"),
            _ => {}
        }
    }

    /// Every rule kept.
    fn sound(&mut self, bytes: u64, spans: &[Span]) {
        match bytes {
            65_535 => self.add("65,535 bytes"),
            65_536 => self.add("65,536 bytes"),
            _ => {}
        }
        match spans.len() {
            0 if bytes == 4 => self.add("no piece, no byte"),
            0 => self.add("no piece, but bytes"),
            1 => {}
            2..=100 => self.add("several pieces"),
            101..=1_000 => self.add("more than 100 pieces"),
            _ => self.add("more than 1,000 pieces"),
        }
        let Some((last, others)) = spans.split_last() else {
            return;
        };
        self.first_and_last(bytes, &spans[0], last, spans.len());
        for span in others {
            match span.end == span.by {
                true => self.add("piece right behind another"),
                false => self.add("bytes between pieces"),
            }
        }
        if spans.iter().any(|span| span.offset == span.end) {
            self.add("piece of length 0");
        }
    }

    fn first_and_last(&mut self, bytes: u64, first: &Span, last: &Span, pieces: usize) {
        match first.offset == pairs_end(pieces as u64) {
            true => self.add("first piece right behind the pairs"),
            false => self.add("bytes before the first piece"),
        }
        if first.end == first.offset {
            self.add("first piece of length 0");
        }
        if last.end < last.by {
            return self.add("bytes behind the last piece");
        }
        self.add("last piece ends the file");
        if last.offset == last.end {
            self.add("last piece of length 0 at the end");
        }
        if bytes == LONGEST as u64 && last.offset < last.end {
            self.add("65,536 bytes, ended by a piece");
        }
    }
}
