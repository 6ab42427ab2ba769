//! An endless, deterministic row of day files for a seed: most are small, some full; sound ones, and ones that break the format.

mod broken;
mod spaced;
mod story;

use super::LONGEST;
use super::layout::Parts;
use crate::generate::random::Random;
use story::Story;

/// The files of a seed, from the first on.
pub struct Days {
    seed: u64,
    place: u64,
}

impl Days {
    pub fn new(seed: u64) -> Days {
        Days { seed, place: 0 }
    }
}

impl Iterator for Days {
    type Item = Vec<u8>;

    fn next(&mut self) -> Option<Vec<u8>> {
        self.place += 1;
        Some(file(self.seed, self.place))
    }
}

/// The random words of a seed's file; each file has its own, so that any can be made alone.
pub fn words(seed: u64, place: u64) -> Random {
    let seed = Random::new(seed).word();
    Random::new(Random::new(seed.wrapping_add(place)).word())
}

/// A seed's file by its place, from 1.
pub fn file(seed: u64, place: u64) -> Vec<u8> {
    let random = &mut words(seed, place);
    match random.weighted(&[2, 2, 96]) {
        0 => random.tiny(),
        1 => random.noise(),
        _ => told(random),
    }
}

/// A file that tells a story; one in six or so has something amiss in its layout.
fn told(random: &mut Random) -> Vec<u8> {
    let pieces = Story::tell(random);
    let parts = random.spaced(&pieces);
    if !random.chance(17) {
        return parts.bytes();
    }
    random.broken(parts)
}

impl Random {
    /// A few bytes: no count, a count alone, or one byte more.
    fn tiny(&mut self) -> Vec<u8> {
        let mut file = match self.below(4) {
            0 => vec![0; 5],
            1 => vec![1, 0, 0, 0, 12],
            2 => vec![0xFF; 5],
            _ => self.word().to_le_bytes()[..5].to_vec(),
        };
        file.truncate(self.below(6) as usize);
        file
    }

    /// Any bytes behind a small count.
    fn noise(&mut self) -> Vec<u8> {
        let count = self.below(6) as u32;
        let length = self.below(120) as usize;
        let behind = self.filling(length);
        let parts = Parts {
            count,
            pairs: Vec::new(),
            behind,
        };
        parts.bytes()
    }

    /// So many bytes that mean nothing.
    fn filling(&mut self, length: usize) -> Vec<u8> {
        if length > 200 || self.chance(50) {
            return vec![self.pick(&[0, 1, 0xFF]); length];
        }
        (0..length).map(|_| self.word() as u8).collect()
    }

    /// A length around the most that a file may have.
    fn full_length(&mut self) -> usize {
        LONGEST + 1 - self.pick(&[0, 0, 1, 1, 1, 2, 3])
    }
}
