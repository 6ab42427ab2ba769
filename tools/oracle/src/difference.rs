//! Where a subject differs from the model or from the Rust, and in what.

use std::fmt::{self, Display};
use std::panic::{AssertUnwindSafe, catch_unwind};

use crate::call::{Answer, Call, Said, State, Subject, Voice};
use crate::model::Model;
use crate::rust::Rust;

/// What a difference is about: a shorter list of calls shows the same difference if this is the same.
#[derive(Debug, Clone, PartialEq, Eq)]
pub struct Kind {
    /// The call's name.
    pub act: &'static str,
    /// From whom the subject differs.
    pub from: &'static str,
    /// The first part of the answers that differs.
    pub part: &'static str,
    /// The numbers answered, the subject's first.
    pub numbers: Option<(u8, u8)>,
}

impl Display for Kind {
    fn fmt(&self, f: &mut fmt::Formatter<'_>) -> fmt::Result {
        write!(
            f,
            "{} differs from {} in {}",
            self.act, self.from, self.part
        )?;
        match self.numbers {
            Some((ours, theirs)) if ours != theirs => write!(f, ": {ours}, not {theirs}"),
            _ => Ok(()),
        }
    }
}

/// The first part of a state that differs.
fn state_part(one: &State, two: &State) -> &'static str {
    let parts = [
        (one.rows != two.rows, "the number of rows"),
        (one.segments != two.segments, "the number of segments"),
        (one.last_sequence != two.last_sequence, "the last sequence"),
        (one.status != two.status, "the status"),
        (one.counts != two.counts, "the counts"),
        (one.last_segment != two.last_segment, "the last segment"),
        (one.levels != two.levels, "the levels"),
    ];
    let differing = parts.into_iter().find(|part| part.0);
    differing.map_or("the memory", |part| part.1)
}

fn part(one: &Said, two: &Said) -> &'static str {
    if one.number != two.number {
        return "the number";
    }
    if one.values != two.values {
        return "the values";
    }
    if one.buffers != two.buffers {
        return "the buffers";
    }
    match (&one.state, &two.state) {
        (Some(one), Some(two)) => state_part(one, two),
        _ => "whether a book is concerned",
    }
}

fn between(act: &'static str, ours: &Answer, from: &'static str, theirs: &Answer) -> Option<Kind> {
    if ours.agrees(theirs) {
        return None;
    }
    let (part, numbers) = match (ours, theirs) {
        (Answer::Said(one), Answer::Said(two)) => (part(one, two), Some((one.number, two.number))),
        _ => ("whether there is an answer", None),
    };
    Some(Kind {
        act,
        from,
        part,
        numbers,
    })
}

/// The answers to one call. A subject that panics, as the port's does where a word was touched that should not be, has none.
pub struct Answers {
    pub ours: Option<Answer>,
    pub model: Answer,
    pub rust: Answer,
}

impl Answers {
    pub fn of(call: &Call, subject: &mut impl Subject, model: &mut Model, rust: Answer) -> Answers {
        let ours = catch_unwind(AssertUnwindSafe(|| subject.call(call))).ok();
        let model = model.call(call);
        let ours = ours.map(|ours| with_levels(ours, &model));
        Answers { ours, model, rust }
    }

    pub fn kind(&self, call: &Call) -> Option<Kind> {
        let act = call.act.name();
        let Some(ours) = &self.ours else {
            return Some(Kind {
                act,
                from: "the model",
                part: "what it touches",
                numbers: None,
            });
        };
        between(act, ours, "the model", &self.model)
            .or_else(|| between(act, ours, "the Rust", &self.rust))
    }
}

impl Display for Answers {
    fn fmt(&self, f: &mut fmt::Formatter<'_>) -> fmt::Result {
        match &self.ours {
            Some(ours) => writeln!(f, "ours  {ours}")?,
            None => writeln!(f, "ours  a panic")?,
        }
        write!(f, "model {}\nrust  {}", self.model, self.rust)
    }
}

/// The port's levels follow from the row memory, whose digests are compared: they are the model's.
fn with_levels(mut ours: Answer, model: &Answer) -> Answer {
    if let (Answer::Said(ours), Answer::Said(model)) = (&mut ours, model)
        && let (Voice::Port, Some(ours), Some(model)) = (ours.voice, &mut ours.state, &model.state)
    {
        ours.levels = model.levels;
    }
    ours
}

/// The first difference of a fresh subject on a list of calls: its place, its kind and the answers.
pub fn first(calls: &[Call], mut subject: impl Subject) -> Option<(usize, Kind, Answers)> {
    let (mut model, mut rust) = (Model::new(), Rust::new());
    calls.iter().enumerate().find_map(|(place, call)| {
        let theirs = rust.call(call);
        let answers = Answers::of(call, &mut subject, &mut model, theirs);
        let kind = answers.kind(call)?;
        Some((place, kind, answers))
    })
}
