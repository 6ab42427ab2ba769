//! 01, "Rows and pieces": "Row memory is 64-bit words, eight a row, in order of arrival".

use std::ops::Range;

use crate::piece::Side;

/// Words of one row.
pub const ROW_WORDS: usize = 8;

/// One row by name. Each field is the word as it lies in memory, so a damaged row can be held and judged.
#[derive(Debug, Clone, Copy, PartialEq, Eq)]
pub struct Row {
    pub id: u128,
    pub price: u64,
    pub remaining: u64,
    /// "0 buy snapshot, 1 sell snapshot, 2 buy observed, 3 sell observed"
    pub kind: u64,
    pub entered_at: u64,
    /// "decreased flag (0 or 1)"
    pub decreased: u64,
    /// "decreased_at (0 without flag)"
    pub decreased_at: u64,
}

impl Row {
    fn of_words(w: &[u64]) -> Row {
        Row {
            id: id_of_words(w[0], w[1]),
            price: w[2],
            remaining: w[3],
            kind: w[4],
            entered_at: w[5],
            decreased: w[6],
            decreased_at: w[7],
        }
    }

    fn words(&self) -> [u64; ROW_WORDS] {
        let [high, low] = id_words(self.id);
        [
            high,
            low,
            self.price,
            self.remaining,
            self.kind,
            self.entered_at,
            self.decreased,
            self.decreased_at,
        ]
    }

    pub fn side(&self) -> Side {
        if self.kind.is_multiple_of(2) {
            Side::Buy
        } else {
            Side::Sell
        }
    }

    pub fn observed(&self) -> bool {
        self.kind >= 2
    }

    pub fn rests_at(&self, side: Side, price: i64) -> bool {
        self.side() == side && self.price as i64 == price
    }
}

/// Kind word of a row.
pub fn kind(side: Side, observed: bool) -> u64 {
    (side == Side::Sell) as u64 + 2 * observed as u64
}

pub fn id_of_words(high: u64, low: u64) -> u128 {
    (high as u128) << 64 | low as u128
}

pub fn id_words(id: u128) -> [u64; 2] {
    [(id >> 64) as u64, id as u64]
}

/// The first `count` rows, as far as the lent words hold them.
pub fn line(words: &[u64], count: u64) -> Vec<Row> {
    words
        .chunks_exact(ROW_WORDS)
        .take(count as usize)
        .map(Row::of_words)
        .collect()
}

/// Writes the line from the first row on.
pub fn write_line(words: &mut [u64], line: &[Row]) {
    for (row, place) in line.iter().zip(words.chunks_exact_mut(ROW_WORDS)) {
        place.copy_from_slice(&row.words());
    }
}

/// Zeroes the rows of these places, as far as the words hold them.
pub fn zero_rows(words: &mut [u64], places: Range<usize>) {
    for place in places.start..places.end.min(words.len() / ROW_WORDS) {
        words[place * ROW_WORDS..][..ROW_WORDS].fill(0);
    }
}

/// Levels are (side, price) pairs: how many, over both sides.
pub fn level_count(line: &[Row]) -> u64 {
    prices(line, Side::Buy).len() as u64 + prices(line, Side::Sell).len() as u64
}

/// Prices of one side's levels, rising.
pub fn prices(line: &[Row], side: Side) -> Vec<u64> {
    let mut prices: Vec<u64> = line
        .iter()
        .filter(|r| r.side() == side)
        .map(|r| r.price)
        .collect();
    prices.sort_unstable();
    prices.dedup();
    prices
}

/// Best (buy, sell) prices.
pub fn best(line: &[Row]) -> (Option<u64>, Option<u64>) {
    let of = |side| {
        line.iter()
            .filter(move |r| r.side() == side)
            .map(|r| r.price)
    };
    (of(Side::Buy).max(), of(Side::Sell).min())
}
