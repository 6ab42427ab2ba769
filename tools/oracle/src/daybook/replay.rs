//! The replay of a day's pieces on the unchanged Rust.

use crate::call::{Counts, Segment};
use crate::l3::reconstructor::{ApplyError, BookReconstructor, VenueRules};
use crate::piece::{Product, decode_message, decode_snapshot};
use crate::rust::convert;

/// The limits of a day's book, and the most segments of a day.
pub const ORDERS: usize = 512;
pub const LEVELS: usize = 512;
pub const SEGMENTS: usize = 64;

/// A day's book: the Rust's, and the times of its segments, which the Rust does not keep.
pub struct Replay {
    book: BookReconstructor,
    /// `time_us` of each segment's first and latest accepted message.
    times: Vec<Option<(u64, u64)>>,
}

impl Replay {
    pub fn new(product: &Product) -> Replay {
        let rules = VenueRules {
            max_orders: ORDERS,
            max_levels: LEVELS,
            ..VenueRules::default()
        };
        Replay {
            book: BookReconstructor::new(convert::product_text(product), rules),
            times: Vec::new(),
        }
    }

    /// Takes the next piece: 0, or the number that turns it away.
    pub fn take(&mut self, piece: &[u8]) -> u8 {
        let taken = match piece.first() {
            Some(0) => self.bootstrap(piece),
            _ => self.apply(piece),
        };
        taken.err().unwrap_or(0)
    }

    /// 4, 5 and 6 before the Rust's 10 to 14.
    fn bootstrap(&mut self, piece: &[u8]) -> Result<(), u8> {
        let snapshot = decode_snapshot(piece)?;
        if self.times.len() == SEGMENTS {
            return Err(6);
        }
        let taken = self.book.bootstrap(&convert::snapshot(&snapshot));
        taken.map_err(|error| convert::snapshot_error(&error))?;
        self.times.push(None);
        Ok(())
    }

    /// 4 and 5 before the Rust's 10, 15, 16 and 17.
    fn apply(&mut self, piece: &[u8]) -> Result<(), u8> {
        let message = decode_message(piece)?;
        match self.book.apply(&convert::message(&message)) {
            Ok(_) => {
                self.accepted_at(message.time_us);
                Ok(())
            }
            Err(ApplyError::WrongProduct { .. }) => Err(10),
            Err(ApplyError::NotBootstrapped) => Err(15),
            Err(ApplyError::Invalidated(_)) => Err(16),
            Err(ApplyError::AwaitingSnapshot(_)) => Err(17),
        }
    }

    fn accepted_at(&mut self, time_us: u64) {
        let times = self.times.last_mut().expect("a message follows a snapshot");
        let first_us = times.map_or(time_us, |(first_us, _)| first_us);
        *times = Some((first_us, time_us));
    }

    /// The Rust's segments, with their times.
    pub fn segments(&self) -> Vec<Segment> {
        let segments = self.book.manifest().segments.iter();
        let timed = segments.zip(&self.times).map(|(segment, times)| {
            let (first_us, last_us) = times.unwrap_or((0, 0));
            Segment {
                start_seq: segment.start_seq,
                last_good_seq: segment.last_good_seq,
                end: convert::segment_end(&segment.end),
                first_us,
                last_us,
            }
        });
        timed.collect()
    }

    pub fn counts(&self) -> Counts {
        convert::counts(&self.book.manifest().counts)
    }
}
