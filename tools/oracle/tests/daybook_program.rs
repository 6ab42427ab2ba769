//! The program `daybook` beside the listing: day files on its standard input, in portions of several sizes and as files. Built with the feature
//! `port` only; DAYBOOK names another program than the one that is built at the repository's root.
#![cfg(feature = "port")]

use std::fs::File;
use std::io::{ErrorKind, Read, Write};
use std::path::{Path, PathBuf};
use std::process::{Child, Command, Stdio};
use std::thread;

use oracle::daybook::generate::Days;
use oracle::daybook::layout::pack;
use oracle::daybook::{LONGEST, listing};

fn program() -> PathBuf {
    let built = Path::new(env!("CARGO_MANIFEST_DIR")).join("../../target/bin/daybook_main");
    let program = std::env::var_os("DAYBOOK").map_or(built, PathBuf::from);
    assert!(program.is_file(), "{} is missing", program.display());
    program
}

fn started(input: Stdio) -> Child {
    let mut command = Command::new(program());
    command.stdin(input).stdout(Stdio::piped());
    command.spawn().expect("the program runs")
}

/// What the program prints; it must end well.
fn printed(mut child: Child) -> Vec<u8> {
    let mut text = Vec::new();
    let mut output = child.stdout.take().expect("its standard output");
    output.read_to_end(&mut text).expect("what it prints");
    let status = child.wait().expect("it ends");
    assert!(status.success(), "{status}");
    text
}

/// Hands over the bytes in portions. The program may end before it has read all of a file that is too long.
fn in_portions(bytes: &[u8], portion: usize) -> Vec<u8> {
    let mut child = started(Stdio::piped());
    let mut input = child.stdin.take().expect("its standard input");
    thread::scope(|scope| {
        scope.spawn(move || {
            for part in bytes.chunks(portion) {
                match input.write_all(part).and_then(|()| input.flush()) {
                    Err(error) if error.kind() == ErrorKind::BrokenPipe => return,
                    written => written.expect("it takes its input"),
                }
            }
        });
        printed(child)
    })
}

/// Hands over a file that holds the bytes.
fn from_file(bytes: &[u8], name: &str) -> Vec<u8> {
    let path = std::env::temp_dir().join(format!("daybook-{}-{name}", std::process::id()));
    std::fs::write(&path, bytes).expect("a file to write");
    let file = File::open(&path).expect("the file just written");
    let text = printed(started(Stdio::from(file)));
    std::fs::remove_file(&path).expect("our own file");
    text
}

/// The listing of what the program may look at.
fn wanted(bytes: &[u8]) -> String {
    let most = bytes.len().min(LONGEST + 1);
    String::from_utf8(listing(&bytes[..most])).expect("a listing is text")
}

fn agrees(name: &str, bytes: &[u8]) {
    let wanted = wanted(bytes);
    let check = |printed: Vec<u8>, how: &str| {
        let printed = String::from_utf8_lossy(&printed);
        assert_eq!(printed, wanted, "{name}, {} bytes {how}", bytes.len());
    };
    for portion in [4_096, LONGEST + 1] {
        check(in_portions(bytes, portion), &format!("by {portion}"));
    }
    if bytes.len() < 3_000 {
        check(in_portions(bytes, 1), "one by one");
    }
    check(from_file(bytes, name), "from a file");
}

#[test]
fn generated_files() {
    for (place, file) in (1..).zip(Days::new(63).take(60)) {
        agrees(&format!("file {place}"), &file);
    }
}

/// A day of one snapshot, as long as asked for: the bytes behind it are no fault.
fn day(length: usize) -> Vec<u8> {
    let mut snapshot = vec![0; 41];
    snapshot[17] = 100;
    let mut file = pack(&[snapshot]);
    file.resize(length, 0xEE);
    file
}

#[test]
fn special_sizes() {
    for length in 0..=5 {
        agrees("zeros", &vec![0; length]);
        agrees("ones", &vec![1; length]);
    }
    for length in [
        53, 4_095, 4_096, 4_097, 8_192, 16_384, 65_535, 65_536, 65_537, 65_538, 131_072, 200_000,
    ] {
        agrees("day", &day(length));
        agrees("nothing", &vec![0; length]);
    }
    assert_eq!(wanted(&day(65_536)).lines().count(), 2, "a segment, counts");
}

/// Input that comes in the slowest way, byte after byte up to the longest file and past it.
#[test]
fn byte_after_byte() {
    for length in [LONGEST, LONGEST + 1] {
        let day = day(length);
        let printed = String::from_utf8(in_portions(&day, 1)).expect("text");
        assert_eq!(printed, wanted(&day), "{length} bytes");
    }
}

#[test]
fn an_empty_input() {
    assert_eq!(wanted(&[]), "counts 0 0 0 0 0 0 0 0 0 0 0 0\nstop 0 60\n");
    assert_eq!(from_file(&[], "empty"), wanted(&[]).into_bytes());
    assert_eq!(printed(started(Stdio::null())), wanted(&[]).into_bytes());
}
