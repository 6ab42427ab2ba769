//! A day file's replay and its listing, written from paper 1 of docs/02-change-requests.md and from 01.
//!
//! The unchanged Rust decides the counts, the segments with their ends and reasons, and the refusals 10 to 17. Supplied here is what it lacks:
//! the file's format (60), the readers of the pieces (4, 5), a list of 64 records (6), the segments' times, and the text.

pub mod cases;
pub mod compare;
pub mod generate;
pub mod layout;
pub mod replay;
mod shrink;

use std::fmt::Write;

use crate::call::{Counts, Segment, SegmentEnd};
use crate::piece::Product;
use replay::Replay;

/// The most bytes of a day file.
pub const LONGEST: usize = 65_536;

/// What became of a day file.
#[derive(Debug, Default)]
pub struct Day {
    pub segments: Vec<Segment>,
    pub counts: Counts,
    /// The piece at which it stopped, from 1, and the number why; piece 0 where none was read.
    pub stop: Option<(usize, u8)>,
    /// What was said of each piece that was read: 0, or the number that turned it away.
    pub numbers: Vec<u8>,
}

/// The product of a day: bytes 1 to 16 of its first piece, zeros where there are none.
fn product(pieces: &[&[u8]]) -> Product {
    let bytes = pieces.first().and_then(|piece| piece.get(1..17));
    bytes.map_or([0; 16], |bytes| bytes.try_into().expect("sixteen bytes"))
}

/// Whether the replay goes on after this number.
fn goes_on(number: u8) -> bool {
    matches!(number, 0 | 10..=17)
}

impl Day {
    pub fn of(file: &[u8]) -> Day {
        match layout::pieces(file) {
            Some(pieces) => Day::of_pieces(&pieces),
            None => Day {
                stop: Some((0, 60)),
                ..Day::default()
            },
        }
    }

    fn of_pieces(pieces: &[&[u8]]) -> Day {
        let mut replay = Replay::new(&product(pieces));
        let mut day = Day::default();
        for (place, piece) in (1..).zip(pieces) {
            let number = replay.take(piece);
            day.numbers.push(number);
            if !goes_on(number) {
                day.stop = Some((place, number));
                break;
            }
        }
        day.segments = replay.segments();
        day.counts = replay.counts();
        day
    }

    /// The listing: a line a segment, the counts, and why it stopped.
    pub fn text(&self) -> String {
        let mut text = String::new();
        for (place, segment) in (1..).zip(&self.segments) {
            line(&mut text, &segment_line(place, segment));
        }
        let counts = self.counts.array().map(|count| count.to_string());
        line(&mut text, &format!("counts {}", counts.join(" ")));
        if let Some((piece, number)) = self.stop {
            line(&mut text, &format!("stop {piece} {number}"));
        }
        text
    }
}

fn line(text: &mut String, words: &str) {
    writeln!(text, "{words}").expect("a string takes all");
}

fn segment_line(place: usize, segment: &Segment) -> String {
    let (start, last_good) = (segment.start_seq, segment.last_good_seq);
    let end = match segment.end {
        SegmentEnd::Open => "open".to_string(),
        SegmentEnd::Superseded => "superseded".to_string(),
        SegmentEnd::Invalidated(why) => why.reason.to_string(),
    };
    let elapsed = segment.last_us.saturating_sub(segment.first_us);
    format!("segment {place} {start} {last_good} {end} {elapsed}")
}

/// The listing of a day file.
pub fn listing(file: &[u8]) -> Vec<u8> {
    Day::of(file).text().into_bytes()
}

/// A host's call: writes the listing to the front of the slice and answers its length; 7 where it does not fit, and then nothing is written.
pub fn replay(file: &[u8], slice: &mut [u8]) -> u64 {
    let listing = listing(file);
    match slice.get_mut(..listing.len()) {
        Some(front) => {
            front.copy_from_slice(&listing);
            listing.len() as u64
        }
        None => 7,
    }
}
