//! Faults planted into a host's call of the replay: each alters what the call within answers, and a run must find it.

use oracle::daybook::compare;

type Call<'a> = &'a dyn Fn(&[u8], &mut [u8]) -> u64;
type Fault = fn(Call, &[u8], &mut [u8]) -> u64;

/// More than any listing has.
const ROOM: usize = 10_000;

/// The listing that the call gives.
fn text(call: Call, file: &[u8]) -> String {
    let mut slice = vec![0; ROOM];
    let length = call(file, &mut slice) as usize;
    slice.truncate(length);
    String::from_utf8(slice).expect("a listing is text")
}

/// A sound answer with this listing.
fn give(listing: &str, slice: &mut [u8]) -> u64 {
    match slice.get_mut(..listing.len()) {
        Some(front) => {
            front.copy_from_slice(listing.as_bytes());
            listing.len() as u64
        }
        None => 7,
    }
}

/// A listing with words altered: what `alter` makes of a line's words.
fn lines(listing: &str, alter: impl Fn(&mut Vec<String>)) -> String {
    let line = |line: &str| {
        let mut words: Vec<String> = line.split(' ').map(str::to_string).collect();
        alter(&mut words);
        words.join(" ") + "\n"
    };
    listing.lines().map(line).collect()
}

/// Alters one word of the lines that begin with `name`, where it is a number.
fn numbers(listing: &str, name: &str, at: usize, alter: impl Fn(u64) -> u64) -> String {
    lines(listing, |words| {
        if words[0] == name
            && let Ok(number) = words[at].parse()
        {
            words[at] = alter(number).to_string();
        }
    })
}

/// A listing without its `stop` line.
fn unstopped(listing: &str) -> String {
    let kept = listing.lines().filter(|line| !line.starts_with("stop"));
    kept.map(|line| format!("{line}\n")).collect()
}

/// The faults of the text.
const TEXT: &[(&str, Fault)] = &[
    ("superseded as open", |call, file, slice| {
        give(&text(call, file).replace("superseded", "open"), slice)
    }),
    ("open as superseded", |call, file, slice| {
        give(&text(call, file).replace("open", "superseded"), slice)
    }),
    ("a reason one more", |call, file, slice| {
        give(&numbers(&text(call, file), "segment", 4, |n| n + 1), slice)
    }),
    ("a place from 0", |call, file, slice| {
        give(&numbers(&text(call, file), "segment", 1, |n| n - 1), slice)
    }),
    ("a stop's piece from 0", |call, file, slice| {
        let listing = numbers(&text(call, file), "stop", 1, |n| n.saturating_sub(1));
        give(&listing, slice)
    }),
    ("a refused file's stop from 1", |call, file, slice| {
        give(&text(call, file).replace("stop 0 60", "stop 1 60"), slice)
    }),
    ("no stop", |call, file, slice| {
        give(&unstopped(&text(call, file)), slice)
    }),
    ("no counts of a refused file", |call, file, slice| {
        let listing = text(call, file);
        match listing.ends_with("stop 0 60\n") {
            true => give("stop 0 60\n", slice),
            false => give(&listing, slice),
        }
    }),
    ("the start as last good", |call, file, slice| {
        let listing = lines(&text(call, file), |words| {
            if words[0] == "segment" {
                words[3] = words[2].clone();
            }
        });
        give(&listing, slice)
    }),
    ("an elapsed time one more", |call, file, slice| {
        let listing = numbers(&text(call, file), "segment", 5, |n| n.saturating_add(1));
        give(&listing, slice)
    }),
    ("elapsed times in 32 bits", |call, file, slice| {
        let listing = numbers(&text(call, file), "segment", 5, |n| n % (1 << 32));
        give(&listing, slice)
    }),
    ("sequences in 63 bits", |call, file, slice| {
        let listing = numbers(&text(call, file), "segment", 2, |n| n << 1 >> 1);
        give(&listing, slice)
    }),
    ("counts of one digit", |call, file, slice| {
        let listing = numbers(&text(call, file), "counts", 1, |n| n % 10);
        give(&listing, slice)
    }),
    ("eleven counts", |call, file, slice| {
        let listing = lines(&text(call, file), |words| {
            if words[0] == "counts" {
                words.remove(9);
            }
        });
        give(&listing, slice)
    }),
    ("two spaces", |call, file, slice| {
        give(&text(call, file).replace("counts ", "counts  "), slice)
    }),
    ("a space at the end", |call, file, slice| {
        give(&text(call, file).replace('\n', " \n"), slice)
    }),
    ("no last line end", |call, file, slice| {
        give(text(call, file).trim_end(), slice)
    }),
    ("a line end of two bytes", |call, file, slice| {
        give(&text(call, file).replace('\n', "\r\n"), slice)
    }),
    ("at most 63 segments", |call, file, slice| {
        let listing = text(call, file);
        let most = listing
            .lines()
            .filter(|line| !line.starts_with("segment 64 "));
        let most: String = most.map(|line| format!("{line}\n")).collect();
        give(&most, slice)
    }),
];

/// Two neighbouring counts the other way round.
fn swapped(call: Call, file: &[u8], slice: &mut [u8], at: usize) -> u64 {
    let listing = lines(&text(call, file), |words| {
        if words[0] == "counts" {
            words.swap(at, at + 1);
        }
    });
    give(&listing, slice)
}

const COUNTS: &[(&str, Fault)] = &[
    ("counts 1 and 2", |c, f, s| swapped(c, f, s, 1)),
    ("counts 2 and 3", |c, f, s| swapped(c, f, s, 2)),
    ("counts 3 and 4", |c, f, s| swapped(c, f, s, 3)),
    ("counts 4 and 5", |c, f, s| swapped(c, f, s, 4)),
    ("counts 5 and 6", |c, f, s| swapped(c, f, s, 5)),
    ("counts 6 and 7", |c, f, s| swapped(c, f, s, 6)),
    ("counts 7 and 8", |c, f, s| swapped(c, f, s, 7)),
    ("counts 8 and 9", |c, f, s| swapped(c, f, s, 8)),
    ("counts 9 and 10", |c, f, s| swapped(c, f, s, 9)),
    ("counts 10 and 11", |c, f, s| swapped(c, f, s, 10)),
    ("counts 11 and 12", |c, f, s| swapped(c, f, s, 11)),
];

/// The faults of the call.
const CALL: &[(&str, Fault)] = &[
    ("7 at the exact length", |call, file, slice| {
        match text(call, file).len() == slice.len() {
            true => 7,
            false => call(file, slice),
        }
    }),
    ("no 7 where a byte is missing", |call, file, slice| {
        let listing = text(call, file);
        if listing.len() == slice.len() + 1 {
            slice.copy_from_slice(&listing.as_bytes()[..slice.len()]);
            return listing.len() as u64;
        }
        call(file, slice)
    }),
    ("no 7 for a refused file", |call, file, slice| {
        let listing = text(call, file);
        match listing.ends_with("stop 0 60\n") {
            true => listing.len() as u64,
            false => call(file, slice),
        }
    }),
    ("60 for a refused file", |call, file, slice| {
        match text(call, file).ends_with("stop 0 60\n") {
            true => 60,
            false => call(file, slice),
        }
    }),
    ("0 for an empty slice", |call, file, slice| {
        match slice.is_empty() {
            true => 0,
            false => call(file, slice),
        }
    }),
    ("a length one less", |call, file, slice| {
        match call(file, slice) {
            7 => 7,
            length => length - 1,
        }
    }),
    ("a byte past the listing", |call, file, slice| {
        let length = call(file, slice);
        if let (true, Some(byte)) = (length != 7, slice.get_mut(length as usize)) {
            *byte = 0;
        }
        length
    }),
    ("the last byte of the slice", |call, file, slice| {
        let length = call(file, slice);
        if length as usize != slice.len()
            && let Some(byte) = slice.last_mut()
        {
            *byte = 0;
        }
        length
    }),
    ("written before 7", |call, file, slice| {
        let listing = text(call, file);
        let fits = listing.len().min(slice.len());
        slice[..fits].copy_from_slice(&listing.as_bytes()[..fits]);
        call(file, slice)
    }),
    ("a first byte written before 7", |call, file, slice| {
        let length = call(file, slice);
        if let (7, Some(byte)) = (length, slice.first_mut()) {
            *byte = b's';
        }
        length
    }),
    ("nothing written", |call, file, slice| {
        let mut other = slice.to_vec();
        call(file, &mut other)
    }),
];

/// The faults of reading: the call within is handed another file.
const FILE: &[(&str, Fault)] = &[
    ("65,536 bytes refused", |call, file, slice| {
        match file.len() == 65_536 {
            true => call(&[], slice),
            false => call(file, slice),
        }
    }),
    ("65,537 bytes cut", |call, file, slice| {
        call(&file[..file.len().min(65_536)], slice)
    }),
    ("missing bytes as zeros", |call, file, slice| {
        let mut file = file.to_vec();
        file.resize(file.len().max(4), 0);
        call(&file, slice)
    }),
    (
        "a file without pieces refused",
        |call, file, slice| match file.starts_with(&[0; 4]) {
            true => call(&[], slice),
            false => call(file, slice),
        },
    ),
    ("the last byte not read", |call, file, slice| {
        let mut file = file.to_vec();
        if let Some(last) = file.last_mut() {
            *last = 0;
        }
        call(&file, slice)
    }),
];

/// Plants each fault into the call; a run of so many files must find it, and make what it found small.
pub fn all_found(call: &(impl Fn(&[u8], &mut [u8]) -> u64 + Sync), seed: u64, files: u64) {
    for (name, fault) in [TEXT, COUNTS, CALL, FILE].into_iter().flatten() {
        let planted = |file: &[u8], slice: &mut [u8]| fault(call, file, slice);
        let Err(difference) = compare::run(&planted, seed, files, 1) else {
            panic!("{name} is not found within {files} files");
        };
        let (place, small, whole) = (difference.place, difference.file.len(), difference.whole);
        println!("{name}: file {place}, {small} bytes of {whole}");
        let told = difference.to_string();
        assert!(
            told.contains(&format!("seed {seed}, file {place}")),
            "{told}"
        );
        // Two of them need a file of that length.
        assert!(
            small < 4_000 || name.contains("65,53"),
            "{name}: {small} bytes are left"
        );
    }
}
