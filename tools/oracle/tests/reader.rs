//! The port's reader beside the decoder. Built with the feature `port` only; SEED and PIECES give another run.
#![cfg(feature = "port")]

use oracle::reader::compare;

fn setting(name: &str, default: u64) -> u64 {
    std::env::var(name).map_or(default, |v| v.parse().expect("a number"))
}

#[test]
fn the_ports_reader_agrees_with_the_decoder() {
    let (seed, pieces) = (setting("SEED", 31), setting("PIECES", 2_000_000));
    let tally = compare(seed, pieces).unwrap_or_else(|difference| panic!("{difference}"));
    println!("seed {seed}: {tally:?}");
    for number in [0, 4, 5, 7] {
        assert!(
            tally.messages[number] > pieces / 1000,
            "{number} is reached"
        );
        assert!(tally.snapshots[number] > 0, "{number} is reached");
    }
    assert!(tally.orders > pieces / 10, "orders are read");
}
