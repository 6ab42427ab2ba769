//! Sound layouts of pieces: one right behind the other, with gaps, or as long as a file may be.

use crate::daybook::layout::Parts;
use crate::generate::random::Random;

/// How the pieces lie.
enum Style {
    Tight,
    Gaps,
    /// All spare bytes at one place, so that the file has this length.
    Sized(usize),
}

impl Random {
    fn style(&mut self) -> Style {
        match self.weighted(&[50, 46, 4]) {
            0 => Style::Tight,
            1 => Style::Gaps,
            _ => Style::Sized(self.full_length()),
        }
    }

    /// A layout of these pieces. It keeps every rule but perhaps the one on the file's length.
    pub fn spaced(&mut self, pieces: &[Vec<u8>]) -> Parts {
        let tight = Parts::with_gaps(pieces, |_| Vec::new());
        match self.style() {
            Style::Tight => tight,
            Style::Gaps => {
                let gaps = Parts::with_gaps(pieces, |_| self.gap());
                // Full days have no room for gaps.
                match gaps.length() <= super::LONGEST {
                    true => gaps,
                    false => tight,
                }
            }
            Style::Sized(length) => {
                let spare = length.saturating_sub(tight.length());
                let at = self.below(pieces.len() as u64 + 1) as usize;
                let spare = self.filling(spare);
                Parts::with_gaps(pieces, |place| match place == at {
                    true => spare.clone(),
                    false => Vec::new(),
                })
            }
        }
    }

    fn gap(&mut self) -> Vec<u8> {
        let most = self.pick(&[1, 1, 2, 12, 50]);
        let length = self.below(most);
        self.filling(length as usize)
    }
}
