//! Layouts that break a rule of the format, by one byte or by far, alone or together.

use crate::daybook::LONGEST;
use crate::daybook::layout::{COUNT, PAIR, Parts};
use crate::generate::random::Random;

impl Random {
    /// The file of these parts with one rule broken, or a few.
    pub fn broken(&mut self, mut parts: Parts) -> Vec<u8> {
        if self.chance(20) {
            let bytes = parts.bytes();
            return self.cut(bytes);
        }
        for _ in 0..self.pick(&[1, 1, 1, 2, 3]) {
            self.break_rule(&mut parts);
        }
        parts.bytes()
    }

    /// One rule broken. A file without pieces has only its count and its length to break.
    fn break_rule(&mut self, parts: &mut Parts) {
        if parts.pairs.is_empty() {
            match self.chance(80) {
                true => self.count(parts),
                false => self.longer(parts),
            }
            return;
        }
        match self.below(8) {
            0 => self.equal(parts),
            1 => self.falling(parts),
            2 => self.early(parts),
            3 | 4 => self.past(parts),
            5 => self.count(parts),
            6 => self.any_field(parts),
            _ => self.longer(parts),
        }
    }

    fn place(&mut self, parts: &Parts) -> usize {
        self.below(parts.pairs.len() as u64) as usize
    }

    /// A piece without bytes at the next one's offset.
    fn equal(&mut self, parts: &mut Parts) {
        let place = self.place(parts);
        if let Some(&(next, _)) = parts.pairs.get(place + 1) {
            parts.pairs[place] = (next, 0);
        }
    }

    /// Two pairs change places, or one is there twice.
    fn falling(&mut self, parts: &mut Parts) {
        let (one, two) = (self.place(parts), self.place(parts));
        match self.chance(70) {
            true => parts.pairs.swap(one, two),
            false => parts.pairs[one] = parts.pairs[two],
        }
    }

    /// The first piece within the pairs.
    fn early(&mut self, parts: &mut Parts) {
        let end = parts.behind_pairs() as u32;
        let by = self.pick(&[1, 1, 1, 1, 2, 8, end]);
        parts.pairs[0].0 = end - by;
    }

    /// A piece past the next one's offset, or the last past the file's end: by one byte, by more, or so far that 32 bits don't hold its end.
    fn past(&mut self, parts: &mut Parts) {
        let place = match self.chance(40) {
            true => parts.pairs.len() - 1,
            false => self.place(parts),
        };
        let next = parts.pairs.get(place + 1).map(|next| next.0);
        let by = next.unwrap_or(parts.length() as u32);
        let offset = parts.pairs[place].0;
        let far = self.below(40) as u32;
        match self.below(6) {
            0..=2 => parts.pairs[place].1 = by.wrapping_sub(offset).wrapping_add(1),
            3 => parts.pairs[place].1 = by.wrapping_sub(offset).wrapping_add(far),
            4 => parts.pairs[place].1 = offset.wrapping_neg().wrapping_add(far),
            _ => {
                let last = parts.pairs.len() - 1;
                let end = parts.length() as u32;
                let length = self.pick(&[0, 0, 1, far]);
                parts.pairs[last] = (self.pick(&[end + 1, end + far, u32::MAX]), length);
            }
        }
    }

    /// A count too large or too small by one, or far too large: such that its pairs' length wraps 32 bits to the right one, or to any.
    fn count(&mut self, parts: &mut Parts) {
        let count = parts.count;
        let wraps = 1 + self.below(7) as u32;
        match self.below(7) {
            0 | 1 => parts.count = count.wrapping_add(1),
            2 => parts.count = count.wrapping_sub(1),
            3 => parts.count = count.wrapping_add(wraps << 29),
            4 => parts.count = self.pick(&[u32::MAX, u32::MAX - 1, 1 << 31, 1 << 28, 1 << 29]),
            5 => parts.count = self.pick(&[8_190, 8_191, 8_192, 65_535, 65_536]),
            _ => {
                // Nothing behind the pairs but a few bytes, and one pair more announced.
                parts.behind.truncate(self.below(8) as usize);
                parts.count = count.wrapping_add(1);
            }
        }
    }

    /// Any number in any pair.
    fn any_field(&mut self, parts: &mut Parts) {
        let place = self.place(parts);
        let (word, end) = (self.word() as u32, parts.length() as u32);
        let number = self.pick(&[0, 1, end - 1, end, end + 1, 1 << 31, u32::MAX, word]);
        let pair = &mut parts.pairs[place];
        *(if self.chance(50) {
            &mut pair.0
        } else {
            &mut pair.1
        }) = number;
    }

    /// More bytes than a file may have, mostly by one; the last piece may take them.
    fn longer(&mut self, parts: &mut Parts) {
        let length = LONGEST + self.pick(&[1, 1, 1, 2, 700]);
        let spare = length.saturating_sub(parts.length());
        parts.behind.extend(self.filling(spare));
        let end = parts.length() as u32;
        if let Some(last) = parts.pairs.last_mut()
            && self.chance(30)
        {
            last.1 = end.wrapping_sub(last.0);
        }
    }

    /// A file cut short: at the pairs, or anywhere.
    fn cut(&mut self, mut file: Vec<u8>) -> Vec<u8> {
        let pairs = u32::from_le_bytes([file[0], file[1], file[2], file[3]]) as usize;
        let end = COUNT + PAIR * pairs;
        let any = self.below(file.len() as u64 + 1) as usize;
        let one_less = file.len() - 1;
        let length = self.pick(&[end, end - 1, end + 1, COUNT, one_less, one_less, any]);
        file.truncate(length);
        file
    }
}
