//! The library touches no byte outside what it is lent, and writes nothing that it is lent to read: every slice lies right beside a
//! protected page, once with its first byte and once with its last. Built with the feature `port` only; SEED and STREAMS give another run.
//!
//! A touch ends the process by a signal, so the faults planted here, which show that the pages catch, are children of the test.
#![cfg(all(feature = "port", target_os = "linux"))]

use std::io::{Write, stderr};
use std::os::unix::process::ExitStatusExt;
use std::process::{Command, ExitStatus, Stdio};

use oracle::piece::{Event, Message, encode_message};
use oracle::port::lend::{self, Place};
use oracle::{daybook, port, ported, reader, rows};

/// Calls of a stream.
const CALLS: u64 = 4_000;
const PIECES: u64 = 20_000;
const BOOKS: u64 = 1_000;
const DAYS: u64 = 2_000;
/// The signal of a touched page.
const SEGMENTATION_FAULT: i32 = 11;

fn setting(name: &str, default: u64) -> u64 {
    std::env::var(name).map_or(default, |v| v.parse().expect("a number"))
}

#[test]
fn calls_touch_what_they_are_lent() {
    let (seed, streams) = (setting("SEED", 71), setting("STREAMS", 6));
    for place in [Place::Begins, Place::Ends] {
        lend::at(place);
        for seed in seed..seed + streams {
            // Not captured: where a page is touched, this line is all that is left.
            writeln!(stderr(), "{place:?}, seed {seed}").expect("a line");
            let agreed = ported::compare(seed, CALLS);
            agreed.unwrap_or_else(|difference| panic!("{place:?}, {difference}"));
        }
        reader::compare(seed, PIECES).unwrap_or_else(|difference| panic!("{difference}"));
        rows::compare(seed, BOOKS).unwrap_or_else(|difference| panic!("{difference}"));
        let days = daybook::compare::run(&port::replay, seed, DAYS, 1);
        days.unwrap_or_else(|difference| panic!("{place:?}, {difference}"));
    }
}

unsafe extern "C" {
    fn pinuglaw_read_message(
        bytes: *const u8,
        bytes_len: usize,
        out: *mut u64,
        out_len: usize,
    ) -> u64;
}

/// What is wrong with a call of the message reader.
#[derive(Debug, Clone, Copy, PartialEq, Eq)]
enum Fault {
    Nothing,
    OutputLonger,
    OutputEarlier,
    BytesLonger,
    BytesEarlier,
    OutputToRead,
}

const FAULTS: [(Fault, Place); 8] = [
    (Fault::Nothing, Place::Begins),
    (Fault::Nothing, Place::Ends),
    (Fault::OutputLonger, Place::Ends),
    (Fault::OutputEarlier, Place::Begins),
    (Fault::BytesLonger, Place::Ends),
    (Fault::BytesEarlier, Place::Begins),
    (Fault::OutputToRead, Place::Begins),
    (Fault::OutputToRead, Place::Ends),
];

fn piece() -> Vec<u8> {
    encode_message(&Message {
        product: *b"BTC-USD\0\0\0\0\0\0\0\0\0",
        sequence: 101,
        time_us: 5,
        event: Event::Unsupported { kind: 7 },
    })
}

/// Calls the message reader with one fault: the library is told a slice that is a word or a byte longer than lent, or lent to be read.
fn call_with(fault: Fault, place: Place) -> u64 {
    lend::at(place);
    let piece = piece();
    let less = |longer: Fault| usize::from(fault == longer);
    let bytes = &piece[less(Fault::BytesEarlier)..piece.len() - less(Fault::BytesLonger)];
    let words = port::MESSAGE_WORDS - less(Fault::OutputLonger) - less(Fault::OutputEarlier);
    let mut out = [0; port::MESSAGE_WORDS];
    let bytes = lend::read(bytes);
    let out = match fault {
        Fault::OutputToRead => lend::read(&out[..words]),
        _ => lend::write(&mut out[..words]),
    };
    let from = bytes.at().wrapping_sub(less(Fault::BytesEarlier));
    let to = out.at().wrapping_sub(less(Fault::OutputEarlier));
    // SAFETY: none where there is a fault: the process is to end here. Otherwise both slices are lent whole.
    unsafe { pinuglaw_read_message(from, piece.len(), to, port::MESSAGE_WORDS) }
}

/// The child: makes the call that PLANT names.
#[test]
#[ignore = "run by the_pages_catch"]
fn planted() {
    let (fault, place) = FAULTS[setting("PLANT", 0) as usize];
    assert_eq!(call_with(fault, place), 0, "a message is read");
}

fn child(plant: usize) -> ExitStatus {
    let this = std::env::current_exe().expect("this test");
    Command::new(this)
        .args(["--ignored", "--exact", "planted"])
        .env("PLANT", plant.to_string())
        .stdout(Stdio::null())
        .stderr(Stdio::null())
        .status()
        .expect("the child runs")
}

#[test]
fn the_pages_catch() {
    for (plant, (fault, place)) in FAULTS.into_iter().enumerate() {
        let status = child(plant);
        match fault {
            Fault::Nothing => assert!(status.success(), "{place:?}: {status}"),
            _ => assert_eq!(
                status.signal(),
                Some(SEGMENTATION_FAULT),
                "{fault:?}, {place:?}: {status}"
            ),
        }
    }
}
