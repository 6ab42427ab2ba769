"""The shells, and where each is written. One more slice of words that is lent and passed on is one more name in WORDS."""

from parts import LAST, LENT, Ask, Put, ReadLast, Slice, Value, Work, words
from shell import Shell

# lent to each of the three that changes a book, and passed on to its work
WORDS = ("rows",)

RECORDS = Slice("segments", "R", "ys", "zs", lent=True)

APPLY = Shell(
    file="crates/reconstructor_shells/proofs/ApplyShell.antt",
    function="apply",
    argument="the segment list is lent to `last_segment`, the words are passed on for good to the work, and the list is lent to `rewrite_last`.",
    data="B D Y X",
    params=[Value("B", "b"), *words(*WORDS), RECORDS, Value("X", "x")],
    steps=[
        Ask("count", "count", "b", "N", "n"),
        ReadLast("n"),
        Work(("b", *WORDS, LENT, LAST, "x"), "D", "w"),
        Ask("segment", "segment", "w", "G", "h"),
        Put("rewrite", "relast", "n", "h"),
        Ask("reply", "reply", "w", "Y", "r"),
    ],
)

BOOTSTRAP = Shell(
    file="crates/reconstructor_shells/proofs/BootShell.antt",
    function="bootstrap",
    argument="that of `apply`, with bytes for the message, and a record that is appended.",
    data="B D Y",
    params=[Value("B", "b"), *words(*WORDS), RECORDS, Slice("bytes", "u8", "bs")],
    steps=[
        Ask("count", "count", "b", "N", "n"),
        ReadLast("n"),
        Work(("b", *WORDS, LENT, LAST, "bytes"), "D", "w"),
        Ask("segment", "segment", "w", "G", "h"),
        Put("rewrite", "relast", "n", "h"),
        Ask("at", "place-of", "w", "N", "k"),
        Ask("started", "started", "w", "G", "s"),
        Put("append", "set", "k", "s"),
        Ask("reply", "reply", "w", "Y", "r"),
    ],
)

STEP = Shell(
    file="crates/reconstructor_shells/proofs/StepShell.antt",
    function="Handshake::step",
    argument="that of `apply`, with one more value.",
    data="Z B D Y X",
    params=[Value("Z", "z"), Value("B", "b"), *words(*WORDS), RECORDS, Value("X", "x")],
    steps=[
        Ask("count", "count", "b", "N", "n"),
        ReadLast("n"),
        Work(("z", "b", *WORDS, LENT, LAST, "x"), "D", "w"),
        Ask("segment", "segment", "w", "G", "h"),
        Put("rewrite", "relast", "n", "h"),
        Ask("reply", "reply", "w", "Y", "r"),
    ],
)

SEGMENT = Shell(
    file="crates/reconstructor_shells/proofs/SegmentShell.antt",
    function="segment",
    argument="the list is passed on for good to `last_segment`, and the record that this answers to the work by value.",
    data="B Y",
    params=[Value("B", "b"), Slice("segments", "R", "ys"), Value("N", "k")],
    steps=[
        Ask("count", "count", "k", "N", "n"),
        ReadLast("n"),
        Work(("b", LENT, "k", LAST), "Y", "r"),
    ],
    few=True,
)

ALL = [APPLY, BOOTSTRAP, STEP, SEGMENT]
