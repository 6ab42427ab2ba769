//! 01, "Open", "Done", "Match", "Change", "Received": what an event comes to on the line of orders, in order of arrival.

use super::rows::{self, Row};
use super::slip::{Part, Planted, Slip, first};
use crate::call::Rules;
use crate::piece::{ChangeReason, DoneReason, Event, Id, Side};

/// The counters of accepted messages.
#[derive(Debug, Clone, Copy, PartialEq, Eq)]
pub enum Counter {
    Received,
    Open,
    Done,
    Matched,
    StpDecrease,
    OffBookDone,
    OffBookChange,
    NoopChange,
}

/// A result from 20 to 44; `funds` tells 38's two reasons apart and is false elsewhere.
#[derive(Debug, Clone, Copy, PartialEq, Eq)]
pub struct Reason {
    pub number: u8,
    pub funds: bool,
}

impl Reason {
    pub fn of(number: u8) -> Reason {
        Reason {
            number,
            funds: false,
        }
    }
}

/// What an accepted event does to the line.
pub enum Effect {
    Keep,
    Join(Row),
    /// The row of this place is left with this much; with nothing left it is removed.
    Cut {
        place: usize,
        remaining: u64,
        decreased_at: Option<u64>,
    },
}

/// The effect of an accepted event and the one counter it adds to, or the reason that invalidates.
pub type Outcome = Result<(Effect, Counter), Reason>;

/// Whether a given amount differs from the row's word.
fn differs(given: Option<i64>, held: u64) -> bool {
    given.is_some_and(|given| given != held as i64)
}

/// What the rules of an event look at.
pub struct EventRules<'a> {
    pub rules: &'a Rules,
    pub line: &'a [Row],
    pub sequence: u64,
    pub slip: Planted,
}

impl EventRules<'_> {
    pub fn event(&self, event: &Event) -> Outcome {
        match *event {
            // "Received has no effect but is counted and advances the sequence."
            Event::Received { .. } => Ok((Effect::Keep, Counter::Received)),
            Event::Open {
                order_id,
                side,
                price,
                remaining,
            } => self.open(order_id, side, price, remaining),
            Event::Done {
                order_id,
                side,
                price,
                reason,
                remaining,
            } => self.done(order_id, side, price, reason, remaining),
            Event::Match {
                maker_id,
                taker_id,
                side,
                price,
                size,
            } => self.matched(maker_id, taker_id, side, price, size),
            Event::Change { order_id, .. } => self.change(order_id, event),
            // 44, "unsupported event"
            Event::Unsupported { .. } => Err(Reason::of(44)),
        }
    }

    fn is(&self, slip: Slip) -> bool {
        self.slip.is(slip)
    }

    fn find(&self, id: Id) -> Option<(usize, Row)> {
        self.line
            .iter()
            .position(|row| row.id == id)
            .map(|place| (place, self.line[place]))
    }

    /// "Order of checks 34, 42 price, 42 size, 41, 43 orders, 43 levels (only if the price has no level)."
    fn open(&self, id: Id, side: Side, price: i64, remaining: i64) -> Outcome {
        let has_level = self.line.iter().any(|row| row.rests_at(side, price));
        let tests = [
            (34, self.find(id).is_some()),
            (42, price <= 0),
            (42, remaining <= 0),
            (41, self.crosses(side, price)),
            (43, self.orders_full()),
            (
                43,
                self.levels_full(side) && (!has_level || self.is(Slip::LevelLimitAtKnownPrice)),
            ),
        ];
        first(self.slip, Part::Open, tests).map_err(Reason::of)?;
        // "Joins the back, observed, entered_at = its sequence."
        let entered_at = self.sequence - self.is(Slip::OpenEnteredBefore) as u64;
        let (price, remaining) = (price as u64, remaining as u64);
        let kind = rows::kind(side, !self.is(Slip::OpenUnobserved));
        let row = Row {
            id,
            price,
            remaining,
            kind,
            entered_at,
            decreased: 0,
            decreased_at: 0,
        };
        Ok((Effect::Join(row), Counter::Open))
    }

    /// 41, "open would cross": a buy at or above the best sell, a sell at or below the best buy.
    fn crosses(&self, side: Side, price: i64) -> bool {
        let (buy, sell) = rows::best(self.line);
        let strict = self.is(Slip::CrossStrict);
        match side {
            Side::Buy => {
                sell.is_some_and(|sell| price > sell as i64 || (price == sell as i64 && !strict))
            }
            Side::Sell => {
                buy.is_some_and(|buy| price < buy as i64 || (price == buy as i64 && !strict))
            }
        }
    }

    /// 43, "a 4th order" under limit 3
    fn orders_full(&self) -> bool {
        let more = self.is(Slip::OrderLimitOneMore) as u64;
        self.line.len() as u64 >= self.rules.max_orders + more
    }

    /// 43 for a level more: the limit counts both sides together.
    fn levels_full(&self, side: Side) -> bool {
        let levels = if self.is(Slip::LevelLimitPerSide) {
            rows::prices(self.line, side).len() as u64
        } else {
            rows::level_count(self.line)
        };
        levels >= self.rules.max_levels + self.is(Slip::LevelLimitOneMore) as u64
    }

    fn done(
        &self,
        id: Id,
        side: Side,
        price: Option<i64>,
        reason: DoneReason,
        remaining: Option<i64>,
    ) -> Outcome {
        // "Id not resting: no effect, counts off_book_done."
        let Some((place, row)) = self.find(id) else {
            return Ok((
                Effect::Keep,
                self.counter(Slip::OffBookDoneAsDone, Counter::OffBookDone),
            ));
        };
        let price_differs = differs(price, row.price) && !self.is(Slip::DonePriceIgnored);
        let size_absent = remaining.is_none() && !self.is(Slip::CancelWithoutSize);
        let size_differs = size_absent || differs(remaining, row.remaining);
        // "Else 37 (side differs, or a given price differs); `filled` is 35; `canceled` is 36 if remaining is absent or
        // differs; else removed."
        let tests = [
            (37, row.side() != side || price_differs),
            (
                35,
                reason == DoneReason::Filled && !self.is(Slip::FilledRemoves),
            ),
            (36, reason == DoneReason::Canceled && size_differs),
        ];
        first(self.slip, Part::Done, tests).map_err(Reason::of)?;
        let gone = Effect::Cut {
            place,
            remaining: 0,
            decreased_at: None,
        };
        Ok((gone, Counter::Done))
    }

    /// "31, 30, 32, 42, 33; the maker loses the size and leaves at zero. Side is the maker's."
    fn matched(&self, maker_id: Id, taker_id: Id, side: Side, price: i64, size: i64) -> Outcome {
        let maker = self.find(maker_id);
        let resting = |is: &dyn Fn(&Row) -> bool| maker.is_some_and(|(_, row)| is(&row));
        let takers = self.is(Slip::MatchSideTakers);
        let tests = [
            (31, self.find(taker_id).is_some()),
            (30, maker.is_none()),
            (
                32,
                resting(&|row| (row.side() != side) != takers || row.price as i64 != price),
            ),
            (42, size <= 0),
            (33, resting(&|row| size > row.remaining as i64)),
        ];
        first(self.slip, Part::Match, tests).map_err(Reason::of)?;
        let Some((place, row)) = maker else {
            return Err(Reason::of(30));
        };
        // "A match never marks a decrease."
        let decreased_at = self.is(Slip::MatchMarksDecrease).then_some(self.sequence);
        Ok((
            Effect::Cut {
                place,
                remaining: row.remaining - size as u64,
                decreased_at,
            },
            Counter::Matched,
        ))
    }

    fn change(&self, id: Id, event: &Event) -> Outcome {
        // "Id not resting: no effect, counts off_book_change."
        let Some((place, row)) = self.find(id) else {
            return Ok((
                Effect::Keep,
                self.counter(Slip::OffBookChangeAsDone, Counter::OffBookChange),
            ));
        };
        let remaining = self.changed_size(&row, event)?;
        // "equal counts noop_change; zero removes; smaller reduces and sets decreased_at."
        let equal = remaining == row.remaining;
        if equal && !self.is(Slip::NoopMarks) {
            return Ok((
                Effect::Keep,
                self.counter(Slip::NoopAsDecrease, Counter::NoopChange),
            ));
        }
        let decreased_at = match self.slip.0 {
            Some(Slip::DecreaseUnmarked) => None,
            Some(Slip::FirstDecreaseKept) if row.decreased == 1 => Some(row.decreased_at),
            _ => Some(self.sequence),
        };
        let counter = if equal {
            Counter::NoopChange
        } else {
            Counter::StpDecrease
        };
        Ok((
            Effect::Cut {
                place,
                remaining,
                decreased_at,
            },
            counter,
        ))
    }

    /// The counter, or the one that the slip takes for it.
    fn counter(&self, slip: Slip, counter: Counter) -> Counter {
        match slip {
            _ if !self.is(slip) => counter,
            Slip::OffBookDoneAsDone => Counter::Done,
            Slip::OffBookChangeAsDone => Counter::OffBookDone,
            _ => Counter::StpDecrease,
        }
    }

    /// "Else `modify_order` 40; 39 (side, given price, old size or old price differs); 40 (new price differs); 38 without
    /// new size (reason "funds" if new_funds is given, else "no size"); 42 negative; 40 larger": the new size otherwise.
    fn changed_size(&self, row: &Row, event: &Event) -> Result<u64, Reason> {
        let &Event::Change {
            side,
            reason,
            price,
            old_size,
            new_size,
            old_price,
            new_price,
            new_funds,
            ..
        } = event
        else {
            return Ok(row.remaining);
        };
        let old_price_differs = differs(old_price, row.price) && !self.is(Slip::OldPriceIgnored);
        let facts_differ = row.side() != side
            || differs(price, row.price)
            || differs(old_size, row.remaining)
            || old_price_differs;
        let tests = [
            (40, reason == ChangeReason::ModifyOrder),
            (39, facts_differ),
            (40, differs(new_price, row.price)),
            (38, new_size.is_none()),
            (42, new_size.is_some_and(|size| size < 0)),
            (40, new_size.is_some_and(|size| size > row.remaining as i64)),
        ];
        let funds = new_funds.is_some() && !self.is(Slip::FundsAsNoSize);
        first(self.slip, Part::Change, tests).map_err(|number| Reason {
            number,
            funds: number == 38 && funds,
        })?;
        Ok(new_size.map_or(row.remaining, |size| size as u64))
    }
}
