//! Day files through the port, beside the Rust. Built with the feature `port` only; SEED and FILES give another run.
#![cfg(feature = "port")]

mod faults;

use oracle::daybook::compare;
use oracle::port;

fn setting(name: &str, default: u64) -> u64 {
    std::env::var(name).map_or(default, |v| v.parse().expect("a number"))
}

#[test]
fn the_ports_listings_agree() {
    let (seed, files) = (setting("SEED", 61), setting("FILES", 30_000));
    let cases = compare::run(&port::replay, seed, files, 1);
    let cases = cases.unwrap_or_else(|difference| panic!("{difference}"));
    println!("seed {seed}: {cases:?}");
    let missing = compare::missing(&cases);
    assert!(missing.is_empty(), "never met: {missing:?}");
}

/// Each fault planted into the port's answers is found.
#[test]
fn planted_faults_are_found() {
    faults::all_found(&port::replay, setting("SEED", 61), 3_000);
}

/// The same file gives the same listing however often it is asked for: nothing is left over from another.
#[test]
fn a_call_leaves_nothing_behind() {
    let files: Vec<Vec<u8>> = oracle::daybook::generate::Days::new(62).take(200).collect();
    let listing = |file: &Vec<u8>| {
        let mut slice = vec![0; port::LISTING_BYTES];
        let length = port::replay(file, &mut slice) as usize;
        slice.truncate(length);
        slice
    };
    let forwards: Vec<Vec<u8>> = files.iter().map(listing).collect();
    let backwards: Vec<Vec<u8>> = files.iter().rev().map(listing).collect();
    assert!(forwards.iter().eq(backwards.iter().rev()));
}
