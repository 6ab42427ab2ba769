//! The Rust, built unchanged, and this crate side by side: random streams of snapshots, messages, buffers and reads, every result compared as the text that
//! shows all of it (`Debug`, and of an error `Display` too).

mod books;
mod given;
mod source;

/// For the Rust, whose files name it so.
use rust_decimal::Decimal;

use std::collections::BTreeMap;

use books::{Estimated, L3Book, Original, Ported, Rules};
use pinuglaw::l3::{L3Message, L3Side};
use rand::Rng;
use source::{BOOKS, Source};

/// The Rust, byte for byte.
#[allow(dead_code)]
#[path = "../../../../docs/src/l3"]
mod original {
    pub mod book;
    pub mod message;
    pub mod queue;
    pub mod reconstructor;
}

const SIDES: [L3Side; 2] = [L3Side::Buy, L3Side::Sell];

/// The cases that each call must meet in the streams: every one of the Rust's but Arithmetic, which cannot arise.
const CASES: [(&str, &str); 14] = [
    (
        "apply",
        "BookChanged NoBookEffect WrongProduct NotBootstrapped Invalidated AwaitingSnapshot Gap OutOfOrderOrDuplicate SequenceOverflow UnknownMaker \
         TakerResting MatchMismatch MatchExceedsRemaining DuplicateOpen MissingMatch RemainingMismatch DoneMismatch MalformedChange ChangeMismatch \
         UnsupportedModification CrossedAfterApply InvalidValue CapacityExceeded UnsupportedInput",
    ),
    (
        "bootstrap",
        "Ok WrongProduct DuplicateId InvalidValue Crossed CapacityExceeded",
    ),
    ("bootstrap_with_buffer", "Ok Snapshot Apply Invalidated Gap"),
    ("manifest", "Open Superseded Invalidated"),
    ("invalidation", "None Some"),
    ("last_sequence", "Ok NotBootstrapped Invalidated"),
    ("best", "Ok Some None NotBootstrapped Invalidated"),
    ("l2", "Ok NotBootstrapped Invalidated"),
    ("stale_l2", "Some None"),
    (
        "level_queue",
        "Ok Unknown Observed NotBootstrapped Invalidated",
    ),
    (
        "priority_profile",
        "LevelProfile NotBootstrapped Invalidated",
    ),
    ("audit", "Ok NotBootstrapped Invalidated"),
    (
        "estimate",
        "Hypothetical Own View PriorityUnknown NotResting",
    ),
    (
        "volume_ahead",
        "View StaleEstimate PriorityUnknown NotResting BackOfVisibleQueueAtCreation EntrySequenceIsPriority SizeDecreaseKeepsPriority",
    ),
];

/// A book of each kind, fed the same calls.
struct Pair {
    theirs: Original,
    ours: Ported,
}

impl Pair {
    fn new(product: &str, rules: &Rules) -> Self {
        Self {
            theirs: Original::new(product, rules),
            ours: Ported::new(product, rules),
        }
    }
}

/// An estimate of each kind, and the place of the book that made it.
struct Estimates {
    at: usize,
    theirs: <Original as L3Book>::Estimate,
    ours: <Ported as L3Book>::Estimate,
}

type Met = BTreeMap<(&'static str, String), u64>;

struct Run {
    source: Source,
    books: Vec<Pair>,
    estimates: Vec<Estimates>,
    results: u64,
    /// The calls with the capitalised words of their results, and how often.
    met: Met,
}

/// One call on both books at a place.
macro_rules! same {
    ($run:expr, $at:expr, $method:ident($($argument:expr),*)) => {{
        let pair = &mut $run.books[$at];
        let theirs = pair.theirs.$method($($argument),*);
        let ours = pair.ours.$method($($argument),*);
        $run.same(stringify!($method), &theirs, &ours);
    }};
}

impl Run {
    fn new(seed: u64) -> Self {
        let mut source = Source::new(seed);
        let books = (0..BOOKS).map(|_| Self::pair(&mut source)).collect();
        Self {
            source,
            books,
            estimates: Vec::new(),
            results: 0,
            met: Met::new(),
        }
    }

    fn pair(source: &mut Source) -> Pair {
        let (product, rules) = (source.product(), source.rules());
        Pair::new(product, &rules)
    }

    /// Both must say the same.
    fn same(&mut self, call: &'static str, theirs: &str, ours: &str) {
        let (result, seed) = (self.results, self.source.seed);
        assert_eq!(theirs, ours, "{call}, result {result} of seed {seed}");
        self.results += 1;
        let words = theirs.split(|c: char| !c.is_alphanumeric());
        for case in words.filter(|word| word.starts_with(|c: char| c.is_ascii_uppercase())) {
            *self.met.entry((call, case.to_string())).or_default() += 1;
        }
    }

    fn call(&mut self) {
        let at = self.source.random.gen_range(0..BOOKS);
        // A book that is not valid soon gets a snapshot.
        let invalid = self.books[at].ours.0.last_sequence().is_err();
        let drawn = if invalid && self.source.random.gen_bool(0.5) {
            0..6
        } else {
            0..300
        };
        match self.source.random.gen_range(drawn) {
            0..=2 => {
                let snapshot = self.source.snapshot(&self.books[at].ours.0);
                same!(self, at, bootstrap(&snapshot));
            }
            3..=5 => self.handshake(at),
            6 => self.renew(at),
            7..=39 => self.estimate(at),
            40..=99 => return self.read(at),
            _ => {
                let message = self.source.message(&self.books[at].ours.0);
                same!(self, at, apply(&message));
            }
        }
        same!(self, at, manifest());
        same!(self, at, invalidation());
        same!(self, at, last_sequence());
    }

    /// A snapshot with a buffer that the line may have sent before.
    fn handshake(&mut self, at: usize) {
        let snapshot = self.source.snapshot(&self.books[at].ours.0);
        // The buffer is made for the book as the snapshot leaves it, and fed to a copy as it grows.
        let mut ahead = self.books[at].ours.clone();
        ahead.bootstrap(&snapshot);
        let mut buffer: Vec<L3Message> = Vec::new();
        for _ in 0..self.source.random.gen_range(0..8) {
            let mut message = self.source.message(&ahead.0);
            if self.source.random.gen_bool(0.4) {
                message.sequence = snapshot
                    .sequence
                    .saturating_sub(self.source.random.gen_range(0..3));
            } else {
                ahead.apply(&message);
            }
            buffer.push(message);
        }
        same!(self, at, bootstrap_with_buffer(&snapshot, &buffer));
    }

    fn estimate(&mut self, at: usize) {
        let pair = &self.books[at];
        let (theirs, ours): (Estimated<_>, Estimated<_>) = if self.source.random.gen_bool(0.4) {
            let (side, price) = self.source.level(&pair.ours.0);
            (
                pair.theirs.queue_estimate(side, price),
                pair.ours.queue_estimate(side, price),
            )
        } else {
            let id = self.source.order_id(&pair.ours.0);
            (
                pair.theirs.queue_estimate_own(&id),
                pair.ours.queue_estimate_own(&id),
            )
        };
        self.same("estimate", &theirs.0, &ours.0);
        if let (Some(theirs), Some(ours)) = (theirs.1, ours.1) {
            if self.estimates.len() == 12 {
                let forgotten = self.source.random.gen_range(0..12);
                self.estimates.remove(forgotten);
            }
            self.estimates.push(Estimates { at, theirs, ours });
        }
    }

    fn read(&mut self, at: usize) {
        let side = SIDES[self.source.random.gen_range(0..2)];
        match self.source.random.gen_range(0..8) {
            0 => same!(self, at, best()),
            1 => same!(self, at, l2(side)),
            2 => same!(self, at, stale_l2(side)),
            3 => same!(self, at, priority_profile(side)),
            4 => same!(self, at, audit()),
            5 => {
                let (side, price) = self.source.level(&self.books[at].ours.0);
                same!(self, at, level_queue(side, price));
            }
            _ => self.volume_ahead(at),
        }
    }

    /// The volume ahead of one of the latest estimates, mostly on the book that made it.
    fn volume_ahead(&mut self, at: usize) {
        if self.estimates.is_empty() {
            return;
        }
        let few = self.estimates.len().min(6);
        let latest = self.source.random.gen_range(1..=few);
        let estimate = &self.estimates[self.estimates.len() - latest];
        let other = self.source.random.gen_bool(0.2);
        let book = &self.books[if other { at } else { estimate.at }];
        let theirs = book.theirs.volume_ahead(&estimate.theirs);
        let ours = book.ours.volume_ahead(&estimate.ours);
        self.same("volume_ahead", &theirs, &ours);
    }

    /// A copy, on which estimates of its source are stale, or a new book.
    fn renew(&mut self, at: usize) {
        self.books[at] = if self.source.random.gen_bool(0.5) {
            let from = &self.books[self.source.random.gen_range(0..BOOKS)];
            Pair {
                theirs: from.theirs.clone(),
                ours: from.ours.clone(),
            }
        } else {
            Self::pair(&mut self.source)
        };
    }
}

/// Streams from `SEED` on, so many as `STREAMS` says.
#[test]
fn every_result_is_the_rusts() {
    let number = |name: &str, default: u64| {
        std::env::var(name).map_or(default, |text| text.parse().expect("a whole number"))
    };
    let (seed, streams) = (number("SEED", 1), number("STREAMS", 40));
    let (mut met, mut results) = (Met::new(), 0);
    for seed in seed..seed + streams {
        let mut run = Run::new(seed);
        for _ in 0..2_000 {
            run.call();
        }
        results += run.results;
        for (case, times) in run.met {
            *met.entry(case).or_default() += times;
        }
    }
    let times = |call, case: &str| met.get(&(call, case.to_string())).copied().unwrap_or(0);
    let cases = CASES.iter().flat_map(|(call, cases)| {
        let cases = cases.split_whitespace();
        cases.map(move |case| (times(call, case), call, case))
    });
    let rarest = cases.min().expect("cases");
    println!("{results} results compared; the rarest case is {rarest:?}");
    assert!(rarest.0 > 0, "never met: {rarest:?}");
}

/// 4,096 orders, half of them at one price.
#[test]
fn a_full_book_reads_as_the_rusts() {
    let mut run = Run::new(0);
    let rules = Rules {
        keeps_priority: true,
        max_orders: 4_096,
        max_levels: 4_096,
    };
    let snapshot = run.source.full_snapshot();
    run.books[0] = Pair::new(&snapshot.product_id, &rules);
    same!(run, 0, bootstrap(&snapshot));
    for side in SIDES {
        same!(run, 0, l2(side));
        same!(run, 0, priority_profile(side));
    }
    same!(run, 0, level_queue(L3Side::Sell, snapshot.asks[0].price));
    while run.estimates.is_empty() {
        run.estimate(0);
    }
    run.volume_ahead(0);
    let one_too_many = L3Message {
        product_id: snapshot.product_id.clone(),
        sequence: snapshot.sequence + 1,
        time_us: 0,
        event: run.source.sound_open(),
    };
    same!(run, 0, apply(&one_too_many));
    let full = run
        .met
        .contains_key(&("apply", "CapacityExceeded".to_string()));
    assert!(full, "the book takes one order more");
    same!(run, 0, stale_l2(L3Side::Buy));
    same!(run, 0, manifest());
}
