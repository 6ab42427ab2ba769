//! The host's damage: every way into number 3, harmless writes, forged handshakes and estimates.

use super::mirror::{Damage, Mirror, Order, Standing};
use super::random::Random;
use crate::call::{
    Act, Anchor, Estimate, Field, Handshake, Invalidation, Segment, SegmentEnd, SegmentName, Status,
};
use crate::piece::{AMOUNT_LIMIT, Side};

/// The ways to damage a book, by name.
pub const WAYS: [&str; 28] = [
    "rows above max_orders",
    "rows past all memory",
    "kind above 3",
    "price 0",
    "price above the range",
    "remaining 0",
    "remaining above the range",
    "flag above 1",
    "decreased_at without flag",
    "id twice",
    "levels above the limit",
    "best buy at best sell",
    "best buy above best sell",
    "good rows above max_orders",
    "set back with its rows",
    "no segment once bootstrapped",
    "rows before a snapshot",
    "good rows before a snapshot",
    "segments before a snapshot",
    "harmless: remaining",
    "harmless: kind",
    "harmless: entered_at",
    "harmless: decreased",
    "harmless: last sequence",
    "harmless: count near its end",
    "harmless: status",
    "harmless: segment record",
    "harmless: past the last row",
];

/// Those for a book without a snapshot.
const EARLY: [&str; 3] = [
    "rows before a snapshot",
    "good rows before a snapshot",
    "segments before a snapshot",
];

/// Those that few books have a place for.
const NARROW: [&str; 2] = ["levels above the limit", "good rows above max_orders"];

/// A row's word by name.
const ID_HIGH: u64 = 0;
const ID_LOW: u64 = 1;
const PRICE: u64 = 2;
const REMAINING: u64 = 3;
const KIND: u64 = 4;
const ENTERED_AT: u64 = 5;
const FLAG: u64 = 6;
const DECREASED_AT: u64 = 7;

/// Some way that the book has a place for: its name, its acts (one or more) and what they make of the book.
pub fn any_damage(random: &mut Random, book: &Mirror) -> (&'static str, Vec<Act>, Damage) {
    loop {
        let way = match book.standing {
            Standing::NoSnapshot => random.pick(&EARLY),
            _ if random.chance(15) => random.pick(&NARROW),
            _ => random.pick(&WAYS),
        };
        if let Some((acts, outcome)) = damage(random, book, way) {
            return (way, acts, outcome);
        }
    }
}

/// What a way comes to.
type Outcome = Option<(Vec<Act>, Damage)>;

/// The acts of one way, and what they make of the book; none if the book has no place for it.
fn damage(random: &mut Random, book: &Mirror, way: &str) -> Outcome {
    let early = book.standing == Standing::NoSnapshot;
    let broken = |fits: bool, acts: Vec<Act>| fits.then_some((acts, Damage::Broken));
    match way {
        "rows above max_orders" => broken(
            true,
            vec![state(Field::Rows(book.rules.max_orders.saturating_add(1)))],
        ),
        "rows past all memory" => {
            let rows = random.pick(&[u64::MAX, 1 << 61, 1 << 60]);
            broken(true, vec![state(Field::Rows(rows))])
        }
        "no segment once bootstrapped" => broken(!early, vec![state(Field::Segments(0))]),
        "rows before a snapshot" => broken(early, vec![state(Field::Rows(1))]),
        "segments before a snapshot" => broken(early, vec![state(Field::Segments(1))]),
        "good rows before a snapshot" => {
            let fits = early && book.rules.max_orders > 0;
            broken(fits, append_row(book, &one_order(book)))
        }
        "good rows above max_orders" => {
            let fits = book.full() && book.row_words >= 8 * (book.rules.max_orders + 1);
            let id = random.fresh_id(book);
            let order = random.order(book)?;
            broken(fits, append_row(book, &Order { id, ..order }))
        }
        "set back with its rows" => {
            let set_back = [Field::Status(Status::NoSnapshot), Field::Segments(0)];
            broken(!book.orders.is_empty(), set_back.map(state).into())
        }
        "levels above the limit" => level_too_many(random, book),
        _ if way.starts_with("harmless") => harmless(random, book, way),
        _ => broken_row(random, book, way),
    }
}

fn state(field: Field) -> Act {
    Act::SetState { field }
}

fn word_at(index: u64, word: u64) -> Act {
    Act::SetRow { index, word }
}

/// Writes that number 3 doesn't forbid.
fn harmless(random: &mut Random, book: &Mirror, way: &str) -> Outcome {
    let acts = match way {
        "harmless: last sequence" => {
            let last = random.pick(&[0, 5, u64::MAX, u64::MAX - 1, book.last.wrapping_add(3)]);
            vec![state(Field::LastSequence(last))]
        }
        "harmless: count near its end" => {
            let count = random.pick(&[u64::MAX, u64::MAX - 1]);
            (0..12)
                .map(|index| state(Field::Count(index, count)))
                .collect()
        }
        "harmless: status" => vec![state(Field::Status(random.status()))],
        "harmless: segment record" => vec![Act::SetSegment {
            index: random.below(book.segments + 2),
            record: random.segment(),
        }],
        "harmless: past the last row" => {
            let index = 8 * book.orders.len() as u64 + random.below(20);
            return Some((vec![word_at(index, random.word())], Damage::None));
        }
        _ => harmless_row(random, book, way)?,
    };
    Some((acts, Damage::Harmless))
}

fn harmless_row(random: &mut Random, book: &Mirror, way: &str) -> Option<Vec<Act>> {
    let order = random.order(book)?;
    let row = book.orders.iter().position(|o| o.id == order.id)? as u64;
    let write = |word: u64, value: u64| word_at(8 * row + word, value);
    Some(match way {
        "harmless: remaining" => {
            vec![write(REMAINING, random.pick(&[1, 2, AMOUNT_LIMIT as u64]))]
        }
        "harmless: kind" => {
            let side = u64::from(order.side == Side::Sell);
            vec![write(KIND, side + random.pick(&[0, 2]))]
        }
        "harmless: entered_at" => {
            let any = random.word();
            vec![write(ENTERED_AT, random.pick(&[0, u64::MAX, any]))]
        }
        _ => {
            let at = random.pick(&[0, 1, order.entered_at, book.last, u64::MAX]);
            vec![write(FLAG, 1), write(DECREASED_AT, at)]
        }
    })
}

/// Words of one row that number 3 forbids.
fn broken_row(random: &mut Random, book: &Mirror, way: &str) -> Outcome {
    let order = random.order(book)?;
    let row = book.orders.iter().position(|o| o.id == order.id)? as u64;
    let write = |word: u64, value: u64| word_at(8 * row + word, value);
    let past = AMOUNT_LIMIT as u64 + 1;
    let acts = match way {
        "kind above 3" => vec![write(KIND, random.pick(&[4, 5, 256, u64::MAX]))],
        "price 0" => vec![write(PRICE, 0)],
        "price above the range" => vec![write(PRICE, random.pick(&[past, u64::MAX, 1 << 63]))],
        "remaining 0" => vec![write(REMAINING, 0)],
        "remaining above the range" => {
            vec![write(REMAINING, random.pick(&[past, u64::MAX, 1 << 63]))]
        }
        "flag above 1" => vec![write(FLAG, random.pick(&[2, 256, u64::MAX]))],
        "decreased_at without flag" => {
            let at = random.pick(&[1, order.entered_at.max(1), u64::MAX]);
            vec![write(FLAG, 0), write(DECREASED_AT, at)]
        }
        "best buy at best sell" => {
            let price = book.best(super::events::other(order.side))?;
            vec![write(PRICE, price as u64)]
        }
        "best buy above best sell" => {
            let beyond = 1 + random.below(3) as i64;
            let price = match order.side {
                Side::Buy => book.best(Side::Sell)? + beyond,
                Side::Sell => book.best(Side::Buy)? - beyond,
            };
            let good = (1..=AMOUNT_LIMIT).contains(&price);
            good.then(|| vec![write(PRICE, price as u64)])?
        }
        _ => return id_twice(random, book, row),
    };
    Some((acts, Damage::Broken))
}

fn id_twice(random: &mut Random, book: &Mirror, row: u64) -> Outcome {
    let twin = random.pick(&book.orders);
    (twin.id != book.orders[row as usize].id).then(|| {
        let acts = vec![
            word_at(8 * row + ID_HIGH, (twin.id >> 64) as u64),
            word_at(8 * row + ID_LOW, twin.id as u64),
        ];
        (acts, Damage::Broken)
    })
}

/// A good order for an empty book.
fn one_order(book: &Mirror) -> Order {
    Order {
        id: 77,
        side: Side::Buy,
        price: book.middle,
        remaining: 5,
        observed: true,
        entered_at: 9,
    }
}

/// Writes a further row behind the book's and counts it.
fn append_row(book: &Mirror, order: &Order) -> Vec<Act> {
    let row = book.orders.len() as u64;
    let kind = u64::from(order.side == Side::Sell) + if order.observed { 2 } else { 0 };
    let words = [
        (order.id >> 64) as u64,
        order.id as u64,
        order.price as u64,
        order.remaining as u64,
        kind,
        order.entered_at,
        0,
        0,
    ];
    let write = |(word, value): (usize, u64)| word_at(8 * row + word as u64, value);
    let writes = words.into_iter().enumerate().map(write);
    writes.chain([state(Field::Rows(row + 1))]).collect()
}

/// A further row below or above all others, when there are as many levels as there may be.
fn level_too_many(random: &mut Random, book: &Mirror) -> Outcome {
    if book.all_levels() != book.rules.max_levels || book.full() {
        return None;
    }
    let prices = book.orders.iter().map(|order| order.price);
    let away = 1 + random.below(3) as i64;
    let below = (Side::Buy, prices.clone().min()? - away);
    let above = (Side::Sell, prices.max()? + away);
    let (side, price) = random.pick(&[below, above]);
    let added = Order {
        id: random.fresh_id(book),
        side,
        price,
        ..one_order(book)
    };
    let good = (1..=AMOUNT_LIMIT).contains(&price);
    good.then(|| (append_row(book, &added), Damage::Broken))
}

impl Random {
    fn invalidation(&mut self) -> Invalidation {
        let reason = self.pick(&[20, 21, 22, 30, 38, 44]);
        Invalidation {
            last_good_seq: self.word(),
            first_offending_seq: self.word(),
            reason,
            funds: reason == 38 && self.chance(50),
        }
    }

    fn status(&mut self) -> Status {
        match self.below(3) {
            0 => Status::NoSnapshot,
            1 => Status::Valid,
            _ => Status::Invalid(self.invalidation()),
        }
    }

    fn segment(&mut self) -> Segment {
        Segment {
            start_seq: self.pick(&[0, 100, u64::MAX]),
            last_good_seq: self.below(200),
            end: match self.below(3) {
                0 => SegmentEnd::Open,
                1 => SegmentEnd::Superseded,
                _ => SegmentEnd::Invalidated(self.invalidation()),
            },
            first_us: self.word(),
            last_us: self.below(1 << 40),
        }
    }

    /// A segment's name: mostly the book's current one, else near it.
    fn name(&mut self, book: &Mirror) -> SegmentName {
        let mut name = book.current_segment();
        match self.below(14) {
            0 => name.place = name.place.wrapping_add(1),
            1 => name.place = name.place.wrapping_sub(1),
            2 => name.number = name.number.wrapping_add(1),
            3 => name.place = u64::MAX,
            _ => {}
        }
        name
    }

    pub fn forged_handshake(&mut self, book: &Mirror) -> Handshake {
        Handshake {
            segment: self.name(book),
            start_seq: self.pick(&[0, book.start, book.last, u64::MAX]),
            applied: self.pick(&[0, 7, u64::MAX - 1, u64::MAX]),
            ended: self.chance(20),
        }
    }

    /// The entry of an order in a forged ahead-list: right, of another time, or of no resting order.
    fn forged_entry(&mut self, order: Option<Order>) -> [u64; 3] {
        let Some(order) = order else {
            return [self.word(), self.word(), self.word()];
        };
        let (mut id, mut entered_at) = (order.id, order.entered_at);
        match self.below(8) {
            0 => entered_at = entered_at.wrapping_add(1),
            1 => id ^= 1,
            2 => id ^= 1 << 64,
            _ => {}
        }
        [(id >> 64) as u64, id as u64, entered_at]
    }

    /// A forged ahead-list and the number of orders claimed for it: entries of any level, at times one of them twice, a word too few,
    /// or more than there may be.
    fn forged_list(&mut self, book: &Mirror) -> (Vec<u64>, u64) {
        let entries = match self.below(50) {
            0..=3 => 4_096,
            4 | 5 => 4_097,
            few => few % 9,
        };
        let mut list = Vec::new();
        for _ in 0..entries {
            let order = self.order(book);
            list.extend(self.forged_entry(order));
        }
        if entries > 1 && self.chance(30) {
            let twin = 3 * self.below(entries) as usize;
            let over = 3 * self.below(entries) as usize;
            list.copy_within(twin..twin + 3, over);
        }
        if !list.is_empty() && self.chance(15) {
            list.pop();
        }
        let orders = match self.below(10) {
            0 => entries + 1,
            1 => u64::MAX,
            2 => entries / 2,
            _ => entries,
        };
        (list, orders)
    }

    fn forged_hypothetical(&mut self, book: &Mirror) -> (Estimate, Vec<u64>) {
        let order = self.order(book);
        let (list, orders) = self.forged_list(book);
        let before = book.last.wrapping_sub(1);
        let estimate = Estimate {
            side: order.map_or(Side::Buy, |order| order.side),
            price: order.map_or(5, |order| order.price),
            segment: self.name(book),
            anchor: Anchor::Hypothetical {
                orders,
                created_at: self.pick(&[0, book.start, book.last, before, u64::MAX]),
            },
        };
        (estimate, list)
    }

    /// An own order's estimate: at its level, at another order's, on the other side, or at a price without orders.
    fn forged_own(&mut self, book: &Mirror) -> Estimate {
        let observed: Vec<Order> = book.orders.iter().filter(|o| o.observed).copied().collect();
        let own = match observed.is_empty() || self.chance(30) {
            true => self.order(book),
            false => Some(self.pick(&observed)),
        };
        let [high, low, entered_at] = self.forged_entry(own);
        let (mut side, mut price) = own.map_or((Side::Buy, 5), |o| (o.side, o.price));
        match (self.below(12), self.order(book)) {
            (0 | 1, Some(other)) => (side, price) = (other.side, other.price),
            (2, _) => side = super::events::other(side),
            (3, _) => price += 1,
            (4, _) => price = 0,
            (5, _) => price = self.pick(&[-1, -price, i64::MIN]),
            (6, _) => price = self.pick(&[AMOUNT_LIMIT + 1, i64::MAX]),
            _ => {}
        }
        Estimate {
            side,
            price,
            segment: self.name(book),
            anchor: Anchor::Own {
                order_id: u128::from(high) << 64 | u128::from(low),
                entered_at,
            },
        }
    }

    pub fn forged_estimate(&mut self, book: &Mirror) -> (Estimate, Vec<u64>) {
        match self.chance(50) {
            true => self.forged_hypothetical(book),
            false => (self.forged_own(book), Vec::new()),
        }
    }
}
