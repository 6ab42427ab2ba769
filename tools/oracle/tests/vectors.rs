//! What crate `vectors` is run on, and what it must print: `oracle vectors crates/vectors` writes both anew.

use std::collections::BTreeSet;
use std::path::{Path, PathBuf};

use oracle::vectors::{self, Sample};

fn repository(path: &str) -> PathBuf {
    Path::new(env!("CARGO_MANIFEST_DIR"))
        .join("../..")
        .join(path)
}

/// The numbers of 01's table: its rows begin with one, at times starred.
fn table() -> BTreeSet<u8> {
    let scope = std::fs::read_to_string(repository("docs/01-scope.md")).expect("01 is there");
    let number = |line: &str| {
        let cell = line.strip_prefix('|')?.split('|').next()?;
        cell.trim_end_matches('*').parse().ok()
    };
    scope.lines().filter_map(number).collect()
}

fn check_files(sample: &Sample) {
    for (name, fresh) in [
        ("stdin", &sample.input[..]),
        ("stdout", sample.output.as_bytes()),
    ] {
        let kept = std::fs::read(repository("crates/vectors").join(name)).expect("a file to read");
        assert!(kept == fresh, "{name} is stale");
    }
}

/// Whether a line is of a handshake made before any snapshot: of place 0, ended, nothing applied.
fn is_early_handshake(line: &str) -> bool {
    let words: Vec<&str> = line.split(' ').collect();
    matches!(words[..], [_, "handshake", "0", _, "0", "1", "0"])
}

#[test]
fn the_sample_is_the_committed_one_and_meets_every_number() {
    let sample = vectors::sample();
    println!(
        "{} calls, {} and {} bytes\n{:?}\n{:?}\n{:?}",
        sample.calls,
        sample.input.len(),
        sample.output.len(),
        sample.voices,
        sample.names,
        sample.numbers
    );
    let table = table();
    assert_eq!(table.len(), 39, "01's table: {table:?}");
    let met: BTreeSet<u8> = sample.numbers.keys().copied().collect();
    let missing: Vec<&u8> = table.difference(&met).collect();
    assert!(missing.is_empty(), "numbers not met: {missing:?}");
    assert_eq!(sample.names.len(), 20, "every kind of call");
    assert_eq!(sample.output.lines().count() as u64, sample.calls);
    let early = sample.output.lines().any(is_early_handshake);
    assert!(early, "a handshake before any snapshot");
    check_files(&sample);
}
