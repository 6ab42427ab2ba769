//! Call lines are read back as they were written, and the recorded pieces hold what they should.

use oracle::call::{Act, Call, Field, Lent, Segment, SegmentEnd, Status, Subject};
use oracle::generate::Generator;
use oracle::piece::{decode_message, decode_snapshot};
use oracle::pieces;
use oracle::rust::Rust;

#[test]
fn calls_come_back() {
    for call in Generator::new(5).take(20_000) {
        let line = call.to_string();
        assert_eq!(line.parse(), Ok(call), "{line}");
    }
}

/// The generator's own run of the Rust and a run over the lines give the same answers.
#[test]
fn lines_carry_the_whole_call() {
    let (mut generator, mut rust) = (Generator::new(6), Rust::new());
    for _ in 0..20_000 {
        let (call, answer) = generator.next_answered();
        let read: Call = call.to_string().parse().expect("a call");
        assert_eq!(rust.call(&read).to_string(), answer.to_string());
    }
}

#[test]
fn rare_fields_come_back() {
    let record = Segment {
        start_seq: 1,
        last_good_seq: 2,
        end: SegmentEnd::Superseded,
        first_us: 3,
        last_us: 4,
    };
    let fields = [
        Field::Rows(1),
        Field::Segments(2),
        Field::LastSequence(3),
        Field::Status(Status::NoSnapshot),
        Field::Count(11, u64::MAX),
    ];
    let acts = fields
        .into_iter()
        .map(|field| Act::SetState { field })
        .chain([Act::SetSegment { index: 7, record }]);
    for act in acts {
        let call = Call {
            book: 255,
            lent: Lent::default(),
            act,
        };
        assert_eq!(call.to_string().parse(), Ok(call));
    }
}

#[test]
fn bad_lines_are_refused() {
    for line in [
        "",
        "best",
        "best 0 1 2 3 4",
        "best 0 1 2 3 4 5 6",
        "best 256 1 2 3 4 5",
        "better 0 1 2 3 4 5",
        "apply 0 1 2 3 4 5 abc",
        "apply 0 1 2 3 4 5 zz",
        "l2 0 1 2 3 4 5 2",
        "set_state 0 1 2 3 4 5 count 12 1",
        "bootstrap_with_buffer 0 1 2 3 4 5 6",
        "bootstrap_with_buffer 0 1 2 3 4 5 6 - 00 zz",
    ] {
        assert!(line.parse::<Call>().is_err(), "{line}");
    }
}

/// One seed's stream is the same each time; another seed's is not.
#[test]
fn a_seed_is_a_stream() {
    let stream = |seed: u64| Generator::new(seed).take(2_000).collect::<Vec<Call>>();
    assert_eq!(stream(1), stream(1));
    // Not merely the hosts' numbers differ.
    let names = |seed: u64| {
        stream(seed)
            .iter()
            .map(|call| call.act.name())
            .collect::<Vec<_>>()
    };
    assert_ne!(names(1), names(2));
}

/// What the recorded pieces must hold, each by its own mark in the bytes.
#[test]
fn recorded_pieces() {
    let recorded = pieces::recorded();
    let bytes: usize = recorded.iter().map(|piece| piece.len() + 4).sum();
    assert!(bytes < 200_000, "{bytes} bytes");
    let some = |what: &str, test: &dyn Fn(&Vec<u8>) -> bool| {
        assert!(recorded.iter().any(test), "{what} is missing");
    };
    let good = |piece: &Vec<u8>| decode_message(piece).is_ok();
    for kind in 0..=255 {
        some("a kind", &|piece| piece.first() == Some(&kind));
    }
    for bits in 0..=255 {
        let (done, change) = (bits < 4, bits < 64);
        // One bit alone beyond those in use.
        let marked = bits & (bits - u8::from(bits > 0)) == 0;
        if done || marked {
            some("done's presence", &|p| {
                p.len() == 68 && p[59] == bits && good(p) == done
            });
        }
        if change || marked {
            some("change's presence", &|p| {
                p.len() == 100 && p[51] == bits && good(p) == change
            });
        }
    }
    for (kind, length) in [(1, 50), (2, 66), (3, 68), (4, 82), (5, 100), (6, 37)] {
        some("a good one", &|piece| {
            piece.first() == Some(&kind) && good(piece)
        });
        for wrong in [length - 1, length + 1] {
            some("a wrong length", &|p| {
                p.first() == Some(&kind) && p.len() == wrong
            });
        }
    }
    for orders in [0, 1, 3] {
        let length = 41 + 32 * orders;
        some("a snapshot", &|p| {
            p.len() == length && decode_snapshot(p).is_ok()
        });
    }
    let counts = [0xFF; 8];
    some("a lie", &|p| {
        p.first() == Some(&0) && p.get(33..41) == Some(&counts[..])
    });
    for number in [4, 5] {
        some("a message refused", &|piece| {
            decode_message(piece) == Err(number)
        });
        some("a snapshot refused", &|piece| {
            decode_snapshot(piece) == Err(number)
        });
    }
}

/// Every byte of the sample pieces is flipped whole and at its lowest bit.
#[test]
fn recorded_damage() {
    let recorded = pieces::recorded();
    for (place, sample) in recorded[..6].iter().enumerate() {
        for at in 0..sample.len() {
            for flip in [0xFF, 1] {
                let mut damaged = sample.clone();
                damaged[at] ^= flip;
                assert!(recorded.contains(&damaged), "sample {place}, byte {at}");
            }
        }
    }
}

#[test]
fn recorded_lines() {
    let recorded = pieces::recorded();
    assert_eq!(
        pieces::said(&recorded[0]),
        "m 0 1 4779518966531048448 0 1234605616436508552 1700000000123456 \
         81985529216486895 18364758544493064720 0\ns 4\n"
    );
    assert_eq!(pieces::said(&[]), "m 4\ns 4\n");
}
