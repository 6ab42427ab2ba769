//! Which cases the day files of a run met, told from the files' own bytes and from what the replay said of each piece.

mod format;
mod pieces;

use std::collections::BTreeMap;
use std::fmt::{self, Debug};

use super::{Day, layout};
use crate::call::{Segment, SegmentEnd};

/// How often each case was met; some are a number under a heading.
#[derive(Default)]
pub struct Cases {
    pub files: u64,
    met: BTreeMap<&'static str, u64>,
    numbers: BTreeMap<(&'static str, u64), u64>,
}

impl Cases {
    pub fn add(&mut self, case: &'static str) {
        *self.met.entry(case).or_default() += 1;
    }

    fn number(&mut self, heading: &'static str, number: impl Into<u64>) {
        *self.numbers.entry((heading, number.into())).or_default() += 1;
    }

    pub fn times(&self, case: &'static str) -> u64 {
        self.met.get(case).copied().unwrap_or(0)
    }

    pub fn times_of(&self, heading: &'static str, number: u64) -> u64 {
        self.numbers.get(&(heading, number)).copied().unwrap_or(0)
    }

    pub fn merge(&mut self, other: &Cases) {
        self.files += other.files;
        for (&case, times) in &other.met {
            *self.met.entry(case).or_default() += times;
        }
        for (&case, times) in &other.numbers {
            *self.numbers.entry(case).or_default() += times;
        }
    }

    /// Notes a file and what became of it.
    pub fn note(&mut self, file: &[u8], day: &Day) {
        self.files += 1;
        self.note_format(file);
        if let Some(pieces) = layout::pieces(file) {
            self.note_pieces(&pieces, day);
        }
        for segment in &day.segments {
            self.note_segment(segment);
        }
        self.note_counts(day);
    }

    fn note_segment(&mut self, segment: &Segment) {
        match segment.end {
            SegmentEnd::Open => self.add("segment open"),
            SegmentEnd::Superseded => self.add("segment superseded"),
            SegmentEnd::Invalidated(why) => self.number("segment ended by", why.reason),
        }
        if segment.start_seq > u64::MAX - 20 {
            self.add("segment from near 2^64 on");
        }
        if segment.last_good_seq == u64::MAX && segment.start_seq < u64::MAX {
            self.add("messages up to 2^64-1");
        }
        self.add(elapsed(segment));
    }

    fn note_counts(&mut self, day: &Day) {
        for (place, count) in (0_u64..).zip(day.counts.array()) {
            if count > 0 {
                self.number("count above 0", place);
            }
            match count {
                10..100 => self.add("count of two digits"),
                100..1_000 => self.add("count of three digits"),
                1_000.. => self.add("count of four digits"),
                _ => {}
            }
        }
        match day.segments.len() {
            0 => self.add("no segment"),
            10..=63 => self.add("segments of two digits"),
            64 => self.add("64 segments"),
            _ => {}
        }
    }

    /// What every run must meet, and this one did not.
    pub fn missing(&self) -> Vec<String> {
        let met = EXPECTED.iter().copied().flatten();
        let met = met.filter(|case| !self.met.contains_key(*case));
        let numbers = NUMBERS.iter();
        let numbers = numbers.flat_map(|&(heading, all)| all.iter().map(move |&n| (heading, n)));
        let numbers = numbers.filter(|case| !self.numbers.contains_key(case));
        let met = met.map(|case| (*case).to_string());
        met.chain(numbers.map(|(heading, number)| format!("{heading} {number}")))
            .collect()
    }
}

/// How a segment's times lie.
fn elapsed(segment: &Segment) -> &'static str {
    let (first, last) = (segment.first_us, segment.last_us);
    match segment.last_good_seq - segment.start_seq {
        0 => "no time",
        1 => "one time",
        _ if last < first => "time back",
        _ if last == first => "time the same",
        _ if first == 0 => "time from 0 on",
        _ if last - first > u64::MAX / 2 => "time above 2^63",
        _ => "time forward",
    }
}

const SEGMENTS: &[&str] = &[
    "segment open",
    "segment superseded",
    "segment from near 2^64 on",
    "messages up to 2^64-1",
    "no time",
    "one time",
    "time back",
    "time the same",
    "time from 0 on",
    "time above 2^63",
    "time forward",
    "count of two digits",
    "count of three digits",
    "count of four digits",
    "no segment",
    "segments of two digits",
    "64 segments",
];

const EXPECTED: &[&[&str]] = &[SEGMENTS, format::EXPECTED, pieces::EXPECTED];

const NUMBERS: &[(&str, &[u64])] = &[
    ("segment ended by", REASONS),
    // All but 8, handshake_dropped: there is no handshake here.
    ("count above 0", &[0, 1, 2, 3, 4, 5, 6, 7, 9, 10, 11]),
    ("bytes", format::BYTES),
    ("snapshot told", &[0, 4, 5, 6, 10, 11, 12, 13, 14]),
    ("message told", &[0, 4, 5, 10, 15, 16, 17]),
    ("4 of kind", &[0, 1, 2, 3, 4, 5, 6, 7]),
    ("5 of kind", &[0, 2, 3, 4, 5]),
    ("with 64 segments, snapshot told", &[4, 5, 6]),
    ("with 64 segments, message told", &[0, 4, 5, 10, 16, 17]),
];

const REASONS: &[u64] = &[
    20, 21, 22, 30, 31, 32, 33, 34, 35, 36, 37, 38, 39, 40, 41, 42, 43, 44,
];

impl Debug for Cases {
    fn fmt(&self, f: &mut fmt::Formatter<'_>) -> fmt::Result {
        writeln!(f, "{} files", self.files)?;
        for (case, times) in &self.met {
            writeln!(f, "  {case}: {times}")?;
        }
        for ((heading, number), times) in &self.numbers {
            writeln!(f, "  {heading} {number}: {times}")?;
        }
        Ok(())
    }
}
