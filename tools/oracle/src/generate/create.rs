//! New books.

use super::mirror::{Damage, Mirror, Standing};
use super::random::Random;
use super::{BIG, BOOKS, BUILD_LIFE, BUILT, Generator, PRODUCTS};
use crate::call::{Act, CEILING, Call, Rules, SizeDecrease};
use crate::piece::AMOUNT_LIMIT;

/// What kind of book it is to be.
struct Profile {
    max_orders: u64,
    max_levels: u64,
    /// In calls.
    life: u64,
    width: i64,
    target: u64,
}

fn profile(random: &mut Random, slot: u8) -> Profile {
    let (max_orders, max_levels, life) = match slot {
        BUILT => (CEILING, CEILING, BUILD_LIFE),
        BIG => {
            let orders = random.pick(&[CEILING, CEILING, CEILING, 600, 2_500]);
            (orders, CEILING, 60)
        }
        _ => small_limits(random),
    };
    let width = match slot {
        BUILT => random.pick(&[20, 5_000]),
        BIG => random.pick(&[1, 20, 5_000]),
        _ => random.pick(&[1, 2, 3, 6, 12, 40]),
    };
    let target = match slot {
        BUILT => CEILING + 10,
        BIG => max_orders,
        // Some tend to more than they may hold, and so are often full.
        _ => random.below(max_orders.min(60) * 3 / 2 + 1) + 1,
    };
    Profile {
        max_orders,
        max_levels,
        life,
        width,
        target,
    }
}

/// Limits of an ordinary book and its life in calls.
fn small_limits(random: &mut Random) -> (u64, u64, u64) {
    let orders = match random.weighted(&[2, 4, 30, 40, 14, 4, 2, 1]) {
        0 => 0,
        1 => 1,
        2 => 2 + random.below(5),
        3 => 7 + random.below(30),
        4 => 40 + random.below(160),
        5 => CEILING,
        6 => CEILING + 1,
        _ => random.pick(&[u64::MAX, 1 << 32, 1 << 61]),
    };
    let levels = match random.weighted(&[2, 4, 26, 40, 20, 2, 1]) {
        0 => 0,
        1 => 1,
        2 => 2 + random.below(5),
        3 => orders.min(CEILING),
        4 => CEILING,
        5 => CEILING + 1,
        _ => u64::MAX,
    };
    (orders, levels, 30 + random.below(400))
}

/// Row memory: mostly enough.
fn row_words(random: &mut Random, slot: u8, max_orders: u64) -> u64 {
    let rows = 8 * max_orders.min(CEILING + 1);
    let words = match random.weighted(&[30, 10, 55, 3, 2]) {
        0 => rows,
        1 => rows + 1,
        2 => rows + random.below(60),
        3 => rows.saturating_sub(1),
        _ => 0,
    };
    if slot >= BUILT {
        rows.max(words)
    } else {
        words
    }
}

fn middle(random: &mut Random, slot: u8) -> i64 {
    let any = random.pick(&[
        2,
        30,
        1_000_000,
        5_000_000_000,
        AMOUNT_LIMIT - 3,
        AMOUNT_LIMIT,
    ]);
    if slot >= BUILT { 1_000_000 } else { any }
}

impl Generator {
    /// The host's number: a new one, but now and then another book's.
    fn number(&mut self) -> u64 {
        self.numbers = self.numbers.wrapping_add(1);
        let twin = &self.books[self.random.below(u64::from(BOOKS)) as usize];
        match twin {
            Some(twin) if self.random.chance(4) => twin.number,
            _ => self.numbers,
        }
    }

    pub(super) fn create(&mut self, slot: u8) -> Call {
        let number = self.number();
        let random = &mut self.random;
        let profile = profile(random, slot);
        let decreases = [SizeDecrease::KeepsPriority, SizeDecrease::PriorityUnknown];
        let least = if slot >= BUILT { 3 } else { 0 };
        let book = Mirror {
            product: *random.pick(&PRODUCTS),
            rules: Rules {
                size_decrease: random.pick(&decreases),
                max_orders: profile.max_orders,
                max_levels: profile.max_levels,
            },
            number,
            row_words: row_words(random, slot, profile.max_orders),
            segment_records: random.pick(&[0, 1, 2, 3, 5, 9, 20, 20, 60]).max(least),
            orders: Vec::new(),
            gone: Vec::new(),
            last: 0,
            start: 0,
            segments: 0,
            standing: Standing::NoSnapshot,
            damage: Damage::None,
            life: profile.life,
            buys: if slot == BIG && profile.width == 1 {
                100
            } else {
                50
            },
            middle: middle(random, slot),
            width: profile.width,
            target: profile.target,
        };
        self.creation(slot, book)
    }

    fn creation(&mut self, slot: u8, mut book: Mirror) -> Call {
        // A book that can't be called, or has no room for a segment, is soon replaced.
        if !book.callable() || book.segment_records == 0 {
            book.life = self.random.below(12);
        }
        let act = Act::Create {
            product: book.product,
            rules: book.rules,
            number: book.number,
            row_words: book.row_words,
            segment_records: book.segment_records,
            row_fill: self.random.below(5),
            segment_fill: self.random.below(5),
        };
        let lent = self.lent(&book, 0, 0, 0);
        self.books[usize::from(slot)] = Some(book);
        Call {
            book: slot,
            lent,
            act,
        }
    }
}
