//! A run tells a model with one planted slip from a right one: each slip must show within the generator's first calls.
//!
//! A slip is found where its answer differs from the Rust's, or, where the Rust has no word, from the model without a slip.
//! All slipped models are run side by side on the same calls, each until it is found.

use oracle::call::{Answer, Subject};
use oracle::generate::Generator;
use oracle::model::{Model, Slip};

const SEED: u64 = 1;
const CALLS: u64 = 100_000;

/// Who tells the slipped answer from a right one.
fn finder(slipped: &Answer, rust: &Answer, model: &Answer) -> Option<&'static str> {
    if !slipped.agrees(rust) {
        Some("by the Rust")
    } else if !slipped.agrees(model) {
        Some("by the model")
    } else {
        None
    }
}

#[test]
fn every_slip_is_found() {
    let mut generator = Generator::new(SEED);
    let mut model = Model::new();
    let slipping = |&slip| (slip, Model::slipping(slip));
    let mut hidden: Vec<(Slip, Model)> = Slip::ALL.iter().map(slipping).collect();
    for number in 1..=CALLS {
        let (call, rust_says) = generator.next_answered();
        let model_says = model.call(&call);
        assert!(
            model_says.agrees(&rust_says),
            "the model itself slips at call {number}"
        );
        hidden.retain_mut(|(slip, subject)| {
            let found = finder(&subject.call(&call), &rust_says, &model_says);
            if let Some(who) = found {
                println!("{slip:?} found at call {number} {who}");
            }
            found.is_none()
        });
        if hidden.is_empty() {
            return;
        }
    }
    let names: Vec<Slip> = hidden.iter().map(|(slip, _)| *slip).collect();
    panic!("not found within {CALLS} calls: {names:?}");
}
