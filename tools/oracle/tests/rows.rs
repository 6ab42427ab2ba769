//! Number 3's part on the rows: the port beside the model. Built with the feature `port` only; SEED and BOOKS give another run.
#![cfg(feature = "port")]

use oracle::rows::compare;

fn setting(name: &str, default: u64) -> u64 {
    std::env::var(name).map_or(default, |v| v.parse().expect("a number"))
}

#[test]
fn number_3_agrees_with_the_model() {
    let (seed, books) = (setting("SEED", 41), setting("BOOKS", 500_000));
    let tally = compare(seed, books).unwrap_or_else(|difference| panic!("{difference}"));
    println!("seed {seed}: {tally:?}");
    assert!(tally.sound > books / 10, "sound rows are reached");
    assert!(tally.broken > books / 10, "broken rows are reached");
}
