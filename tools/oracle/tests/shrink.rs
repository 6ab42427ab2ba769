//! A difference found in a stream is made small: each fault planted into the model, found among the first calls, must come down to a few
//! calls that show the same kind of difference, and no call of them can be spared.

use oracle::call::{Call, Subject};
use oracle::compare::leading;
use oracle::difference::{Answers, Kind, first};
use oracle::generate::Generator;
use oracle::model::{Model, Slip};
use oracle::shrink::shrink;

const SEED: u64 = 3;
const CALLS: u64 = 2_500;
/// The most calls that may be left.
const MOST: usize = 15;
const MOST_ON_AVERAGE: usize = 4;

/// The slips that show within the first calls: where, and how.
fn found() -> Vec<(Slip, u64, Kind)> {
    let (mut generator, mut model) = (Generator::new(SEED), Model::new());
    let slipping = |&slip| (slip, Model::slipping(slip));
    let mut hidden: Vec<(Slip, Model)> = Slip::ALL.iter().map(slipping).collect();
    let mut found = Vec::new();
    for place in 1..=CALLS {
        let (call, rust) = generator.next_answered();
        let right = model.call(&call);
        hidden.retain_mut(|(slip, slipped)| {
            let answers = Answers {
                ours: Some(slipped.call(&call)),
                model: right.clone(),
                rust: rust.clone(),
            };
            let kind = answers.kind(&call);
            found.extend(kind.clone().map(|kind| (*slip, place, kind)));
            kind.is_none()
        });
    }
    found
}

fn shows(calls: &[Call], slip: Slip, kind: &Kind) -> bool {
    first(calls, Model::slipping(slip)).is_some_and(|(_, shown, _)| shown == *kind)
}

#[test]
fn a_planted_fault_comes_down_to_a_few_calls() {
    let found = found();
    assert!(found.len() > 100, "{} slips show", found.len());
    let mut sizes = Vec::new();
    for (slip, place, kind) in found {
        let calls = leading(SEED, place);
        let before = calls.len();
        let small = shrink(calls, &kind, || Model::slipping(slip));
        let small = small.unwrap_or_else(|| panic!("{slip:?}: {kind} is lost"));
        let calls = small.calls;
        println!("{slip:?}: {before} calls became {}", calls.len());
        assert!(shows(&calls, slip, &kind), "{slip:?} still shows");
        assert!(calls.len() <= MOST, "{slip:?} needs {} calls", calls.len());
        for spared in 0..calls.len() - 1 {
            let mut fewer = calls.clone();
            fewer.remove(spared);
            assert!(!shows(&fewer, slip, &kind), "{slip:?} spares {spared}");
        }
        let lines: Vec<Call> = calls
            .iter()
            .map(|call| call.to_string().parse().expect("a line"))
            .collect();
        assert!(shows(&lines, slip, &kind), "{slip:?} shows from lines");
        sizes.push(calls.len());
    }
    let sum: usize = sizes.iter().sum();
    assert!(sum <= MOST_ON_AVERAGE * sizes.len(), "{sum} calls are left");
}

/// A list of calls that shows no difference, or another one, is not shrunk.
#[test]
fn nothing_is_shrunk_without_a_difference() {
    let calls: Vec<Call> = Generator::new(SEED).take(100).collect();
    let kind = Kind {
        act: "apply",
        from: "the model",
        part: "the number",
        numbers: Some((0, 16)),
    };
    assert!(shrink(calls, &kind, Model::new).is_none());
}
