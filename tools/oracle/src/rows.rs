//! Number 3's part on the rows: the port beside the model, on sound rows and on rows damaged in one place.

use crate::generate::random::Random;
use crate::model::rows_broken;
use crate::port;

const WORDS: usize = 8;
const AMOUNT_LIMIT: u64 = 1_000_000_000_000_000;

/// How many rows were sound and how many broken.
#[derive(Debug, Default)]
pub struct Tally {
    pub sound: u64,
    pub broken: u64,
}

/// Sound rows: ids apart, buys below sells, on about `levels` prices a side.
pub fn sound(random: &mut Random, rows: usize, levels: u64) -> Vec<u64> {
    let mut words = Vec::with_capacity(WORDS * rows);
    for place in 0..rows as u64 {
        let kind = random.below(4);
        let step = random.below(levels) + 1;
        let price = if kind.is_multiple_of(2) {
            AMOUNT_LIMIT / 2 - step
        } else {
            AMOUNT_LIMIT / 2 + step
        };
        let marked = random.below(2);
        let at = marked * random.below(1 << 20);
        let remaining = random.below(AMOUNT_LIMIT) + 1;
        let high = random.pick(&[0, 7, u64::MAX]);
        words.extend([
            high,
            place,
            price,
            remaining,
            kind,
            random.word(),
            marked,
            at,
        ]);
    }
    words
}

/// Breaks (or nearly breaks) one rule of number 3 in one place.
fn damage(random: &mut Random, words: &mut [u64]) {
    let rows = words.len() / WORDS;
    if rows == 0 {
        return;
    }
    let at = WORDS * random.below(rows as u64) as usize;
    let other = WORDS * random.below(rows as u64) as usize;
    match random.below(8) {
        0 => words[at + 2] = random.pick(&[0, AMOUNT_LIMIT, AMOUNT_LIMIT + 1, u64::MAX]),
        1 => words[at + 3] = random.pick(&[0, 1, AMOUNT_LIMIT, AMOUNT_LIMIT + 1, u64::MAX]),
        2 => words[at + 4] = random.pick(&[0, 3, 4, 5, u64::MAX]),
        3 => words[at + 6] = random.pick(&[0, 1, 2, u64::MAX]),
        4 => words[at + 7] = random.pick(&[0, 1, u64::MAX]),
        5 => words.copy_within(other..other + 2, at),
        6 => words[at + 2] = words[other + 2],
        _ => words[at] = words[other],
    }
}

/// A number of rows: mostly few, now and then around the tables' sizes and the ceiling.
fn count(random: &mut Random) -> usize {
    match random.below(40) {
        0 => random.pick(&[15, 16, 17, 127, 128, 129, 511, 512, 513]),
        1 if random.chance(10) => random.pick(&[4_095, 4_096]),
        _ => random.below(24) as usize,
    }
}

/// Runs `count` books through both.
pub fn compare(seed: u64, books: u64) -> Result<Tally, String> {
    let mut random = Random::new(seed);
    let mut tally = Tally::default();
    for _ in 0..books {
        let rows = count(&mut random);
        let levels = random.pick(&[1, 2, 30, 5_000]);
        let mut words = sound(&mut random, rows, levels);
        if random.chance(60) {
            damage(&mut random, &mut words);
        }
        let max_levels = random.pick(&[0, 1, 2, 3, 24, 4_096]);
        let claimed = match random.below(30) {
            0 => rows + 1,
            1 => random.pick(&[4_096, 4_097, usize::MAX]),
            _ => rows,
        };
        let ours = port::rows_broken(&words, claimed, max_levels);
        if ours != rows_broken(&words, claimed as u64, max_levels as u64) {
            return Err(format!(
                "{claimed} rows, {max_levels} levels at most, {words:?}: {ours}"
            ));
        }
        tally.sound += u64::from(!ours);
        tally.broken += u64::from(ours);
    }
    Ok(tally)
}
