//! The Rust and the model side by side, with fixed seeds.

use oracle::call::Subject;
use oracle::compare::compare;
use oracle::model::{Model, Slip};
use oracle::rust::Rust;

#[test]
fn the_model_agrees_with_the_rust() {
    for seed in [11, 12] {
        match compare(seed, 100_000, &mut Model::new()) {
            Ok(tally) => {
                println!("seed {seed}: {tally:?}");
                assert!(tally.rust > tally.calls / 2, "the Rust decides most calls");
            }
            Err(difference) => panic!(
                "seed {seed}, call {}: {}\nrust  {}\nmodel {}",
                difference.call,
                difference.calls.last().expect("the differing call"),
                difference.rust,
                difference.other
            ),
        }
    }
}

/// The calls told with a difference lead there again by themselves.
#[test]
fn a_difference_can_be_replayed() {
    for slip in [
        Slip::MakerBeforeTaker,
        Slip::FilledRemoves,
        Slip::RefusedSnapshotEnds,
        Slip::ReusedIdAhead,
        Slip::EstimateNumberIgnored,
        Slip::HandshakeNumberIgnored,
    ] {
        let found = compare(21, 100_000, &mut Model::slipping(slip));
        let difference = found.expect_err("the slip is found");
        let (mut rust, mut model) = (Rust::new(), Model::slipping(slip));
        let (last, before) = difference.calls.split_last().expect("a call");
        for call in before {
            assert!(rust.call(call).agrees(&model.call(call)), "{call}");
        }
        assert!(!rust.call(last).agrees(&model.call(last)), "{last}");
    }
}
