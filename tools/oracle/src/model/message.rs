//! 01, "`apply`" and the steps of a handshake: one message, from the entry down.

use super::book::{LentBook, Refusal};
use super::events::{Counter, Effect, EventRules, Outcome, Reason};
use super::reader;
use super::rows::{self, Row};
use super::slip::{Part, Planted, Slip, first};
use crate::call::{Applied, Counts, Handshake, Invalidation, SegmentEnd, Status, Stepped};
use crate::piece::Message;

/// "Counters stop at 2^64−1."
pub fn count(slip: Planted, counter: &mut u64) {
    *counter = if slip.is(Slip::CountsWrap) {
        counter.wrapping_add(1)
    } else {
        counter.saturating_add(1)
    };
}

/// 5, "a present amount out of range"
fn check_amounts(slip: Planted, message: &Message) -> Result<(), u8> {
    if reader::message_in_range(slip, message) {
        Ok(())
    } else {
        Err(5)
    }
}

/// "After the port's own checks 1, 2, 3, 5: .."
pub fn apply(slip: Planted, book: &mut LentBook, message: &Message) -> Result<Applied, Refusal> {
    if slip.is(Slip::AmountsBeforeRows) {
        check_amounts(slip, message)?;
    }
    book.check_lent(slip)?;
    check_amounts(slip, message)?;
    decide(slip, book, message)
}

/// "another product is 10 (counts wrong_product); no snapshot yet is 15; an invalid book is 17 (counts
/// skipped_while_invalid). Then sequence .."
fn decide(slip: Planted, book: &mut LentBook, message: &Message) -> Result<Applied, Refusal> {
    let state = &mut *book.state;
    let in_force = match state.status {
        Status::Invalid(invalidation) => Some(invalidation),
        Status::NoSnapshot | Status::Valid => None,
    };
    let tests = [
        (10, message.product != state.product),
        (15, state.status == Status::NoSnapshot),
        (17, in_force.is_some()),
    ];
    if let Err(number) = first(slip, Part::Entry, tests) {
        match number {
            10 if !slip.is(Slip::WrongProductUncounted) => {
                count(slip, &mut state.counts.wrong_product)
            }
            17 if !slip.is(Slip::SkippedUncounted) => {
                count(slip, &mut state.counts.skipped_while_invalid)
            }
            _ => {}
        }
        let newest = |held: Invalidation| match slip.0 {
            Some(Slip::NewestOffending) => Invalidation {
                first_offending_seq: message.sequence,
                ..held
            },
            _ => held,
        };
        // 17 carries the invalidation in force.
        return Err(Refusal {
            number,
            invalidation: in_force.filter(|_| number == 17).map(newest),
        });
    }
    match outcome(slip, book, message) {
        Ok((effect, counter)) => Ok(accept(slip, book, message, effect, counter)),
        Err(reason) => Err(invalidate(slip, book, message, reason)),
    }
}

/// "last applied 2^64−1 is 22; last + 1 goes on to the event; at or below last is 21; else 20."
fn outcome(slip: Planted, book: &LentBook, message: &Message) -> Outcome {
    let (last, sequence) = (book.state.last_sequence, message.sequence);
    let next = match last.checked_add(1) {
        None if slip.is(Slip::SequenceWraps) => 0,
        None => return Err(Reason::of(22)),
        Some(next) => next,
    };
    if sequence == next {
        let line = &rows::line(book.words, book.state.rows);
        return EventRules {
            rules: &book.state.rules,
            line,
            sequence,
            slip,
        }
        .event(&message.event);
    }
    let old = sequence < last || (sequence == last && !slip.is(Slip::LastSequenceIsGap));
    Err(Reason::of(if old { 21 } else { 20 }))
}

/// "Acceptance sets last sequence and the segment's last_good_seq, and adds one to one counter."
fn accept(
    slip: Planted,
    book: &mut LentBook,
    message: &Message,
    effect: Effect,
    counter: Counter,
) -> Applied {
    // The Rust's answer: NoBookEffect for received, off-book and no-op.
    let keeps = matches!(effect, Effect::Keep) || counter == Counter::NoopChange;
    perform(slip, book, effect);
    if !(keeps && slip.is(Slip::KeepHoldsSequence)) {
        book.state.last_sequence = message.sequence;
    }
    if let Some(segment) = book.last_segment() {
        // "time_us of the segment's first and latest accepted message": the first one finds last_good_seq at start_seq.
        let first = match slip.0 {
            Some(Slip::FirstTimeByZero) => segment.first_us == 0,
            _ => segment.last_good_seq == segment.start_seq,
        };
        if first {
            segment.first_us = message.time_us;
        }
        let floor = if slip.is(Slip::LastTimeNeverFalls) {
            segment.last_us
        } else {
            0
        };
        segment.last_us = message.time_us.max(floor);
        segment.last_good_seq = message.sequence;
    }
    count(slip, counter_of(&mut book.state.counts, counter));
    if keeps && !slip.is(Slip::KeepAnswersChanged) {
        Applied::NoBookEffect
    } else {
        Applied::BookChanged
    }
}

fn counter_of(counts: &mut Counts, counter: Counter) -> &mut u64 {
    match counter {
        Counter::Received => &mut counts.received,
        Counter::Open => &mut counts.open,
        Counter::Done => &mut counts.done,
        Counter::Matched => &mut counts.matched,
        Counter::StpDecrease => &mut counts.stp_decrease,
        Counter::OffBookDone => &mut counts.off_book_done,
        Counter::OffBookChange => &mut counts.off_book_change,
        Counter::NoopChange => &mut counts.noop_change,
    }
}

/// Works the effect on the rows: "A removal moves later rows down and zeroes the freed one .. other words past the last
/// row are untouched."
fn perform(slip: Planted, book: &mut LentBook, effect: Effect) {
    let mut line = rows::line(book.words, book.state.rows);
    match effect {
        Effect::Keep => return,
        Effect::Join(row) if slip.is(Slip::JoinsFront) => line.insert(0, row),
        Effect::Join(row) => line.push(row),
        Effect::Cut {
            place,
            remaining: 0,
            ..
        } => {
            take_out(slip, &mut line, place);
            let freed = line.len();
            match slip.0 {
                Some(Slip::FreedRowKept) => {}
                Some(Slip::RowPastLastZeroed) => rows::zero_rows(book.words, freed..freed + 2),
                _ => rows::zero_rows(book.words, freed..freed + 1),
            }
        }
        Effect::Cut {
            place,
            remaining,
            decreased_at,
        } => {
            let row = &mut line[place];
            row.remaining = remaining;
            if let Some(sequence) = decreased_at {
                (row.decreased, row.decreased_at) = (1, sequence);
            }
            if slip.is(Slip::DecreaseLosesPlace) && decreased_at.is_some() {
                line[place..].rotate_left(1);
            }
        }
    }
    rows::write_line(book.words, &line);
    book.state.rows = line.len() as u64;
}

fn take_out(slip: Planted, line: &mut Vec<Row>, place: usize) {
    if slip.is(Slip::LastRowFillsGap) {
        line.swap_remove(place);
    } else {
        line.remove(place);
    }
}

/// "Results 20 to 44 invalidate: the answer is 16 with the last good sequence, the offending one and the reason; the rows
/// stay as stale book."
fn invalidate(slip: Planted, book: &mut LentBook, message: &Message, reason: Reason) -> Refusal {
    let invalidation = Invalidation {
        last_good_seq: match slip.0 {
            Some(Slip::LastGoodFromOffending) => message.sequence.wrapping_sub(1),
            _ => book.state.last_sequence,
        },
        first_offending_seq: message.sequence,
        reason: reason.number,
        funds: reason.funds,
    };
    book.state.status = Status::Invalid(invalidation);
    if !slip.is(Slip::InvalidationUnrecorded)
        && let Some(segment) = book.last_segment()
    {
        segment.end = SegmentEnd::Invalidated(invalidation);
    }
    if slip.is(Slip::InvalidClearsRows) {
        rows::zero_rows(book.words, 0..book.state.rows as usize);
        book.state.rows = 0;
    }
    Refusal {
        number: 16,
        invalidation: Some(invalidation),
    }
}

/// "a handshake value for that segment stepped by one message a call: after 1, 2, 3, 9, 5, the same product at or below
/// that segment's start_seq, whatever the value holds, is dropped and counted; else `apply` decides."
pub fn step(
    slip: Planted,
    book: &mut LentBook,
    handshake: &mut Handshake,
    message: &Message,
) -> Result<Stepped, Refusal> {
    book.check_lent(slip)?;
    check_handshake(slip, book, handshake)?;
    let amounts = check_amounts(slip, message);
    if !slip.is(Slip::DropBeforeAmounts) {
        amounts?;
    }
    if drops(slip, book, handshake, message) {
        if !slip.is(Slip::DropUncounted) {
            count(slip, &mut book.state.counts.handshake_dropped);
        }
        if slip.is(Slip::DropCountsApplied) {
            count(slip, &mut handshake.applied);
        }
        return Ok(Stepped::Dropped);
    }
    amounts?;
    let decided = decide(slip, book, message);
    match &decided {
        // "it keeps the number applied"
        Ok(_) => count(slip, &mut handshake.applied),
        // "10 passes by; 16 or 17 ends the handshake"
        Err(refusal) => match refusal.number {
            16 => handshake.ended = true,
            17 => handshake.ended = !slip.is(Slip::SkippedKeepsHandshake),
            10 => handshake.ended = slip.is(Slip::OtherProductEnds),
            _ => {}
        },
    }
    decided.map(Stepped::Applied)
}

/// 9, "handshake ended, or of another segment"; before any snapshot there is no segment, so every step is 9.
fn check_handshake(slip: Planted, book: &LentBook, handshake: &Handshake) -> Result<(), u8> {
    let ended = handshake.ended && !slip.is(Slip::HandshakeEndIgnored);
    let ours = book.state.segment_name().is_some_and(|name| match slip.0 {
        Some(Slip::HandshakeNumberIgnored) => name.place == handshake.segment.place,
        Some(Slip::HandshakeOfAnySegment) => true,
        _ => name == handshake.segment,
    });
    if ended || !ours { Err(9) } else { Ok(()) }
}

/// "the same product at or below that segment's start_seq": start_seq is the record's, not the value's.
fn drops(slip: Planted, book: &mut LentBook, handshake: &Handshake, message: &Message) -> bool {
    let same_product = message.product == book.state.product || slip.is(Slip::DropOtherProducts);
    let invalid = matches!(book.state.status, Status::Invalid(_));
    let Some(segment) = book.last_segment() else {
        return false;
    };
    let start_seq = if slip.is(Slip::DropByOwnStart) {
        handshake.start_seq
    } else {
        segment.start_seq
    };
    let old = message.sequence < start_seq
        || (message.sequence == start_seq && !slip.is(Slip::DropBelowStart));
    same_product && old && !(invalid && slip.is(Slip::DropOnlyWhileValid))
}
