#!/usr/bin/env python3
"""Compares the exported functions of crate `host_c` with their declarations for C and Rust, and the named words with the definitions.

    check_declarations.py [ROOT]

Names, order of parameters, widths, const or not; each export's signature and clauses beside those of the function of crate `host` of its name; the numbers in
force, their words and their definitions; the word layouts that a definition names field by field; the sizes and bounds, which the header, the code that runs, the
definitions and the oracle name once each. Prints each difference; exits 1 if there is one, or if a file has nothing to
compare.
"""

import re
import sys
from pathlib import Path

ROOT = Path(sys.argv[1] if len(sys.argv) > 1 else Path(__file__).resolve().parent.parent)
HOST = "crates/host_c/src/lib.rt"
LIBRARY = "crates/host/src/lib.rt"
HEADER = "include/pinuglaw.h"
SYS = "bindings/rust/src/sys.rs"
SCOPE = "docs/01-scope.md"
NUMBERS = "docs/NUMBERS.md"

# A type of the Rattle source as the parameters it becomes in C, by the names they get.
C_TYPES = {"u64": "uint64_t", "u8": "uint8_t", "usize": "size_t", "bool": "bool"}


def read(name):
    return (ROOT / name).read_text()


def spaced(text):
    return " ".join(text.split())


def parameters(text):
    return [spaced(part) for part in text.split(",") if part.strip()]


def exported():
    """Function name to its parameters and its answer, as crate `host_c` writes them."""
    pattern = r'#\[unsafe\(no_mangle\)\]\s*pub extern "C" fn (\w+)\((.*?)\)\s*->\s*(\w+)'
    found = re.findall(pattern, read(HOST), re.S)
    return {name: (parameters(inside), answer) for name, inside, answer in found}


def promised(file, head):
    """Function name to its signature and clauses, as a crate writes them after `head`."""
    found = re.findall(head + r"fn (pinuglaw_\w+)(\(.*?)^\{$", read(file), re.S | re.M)
    # a signature that stands on several lines is the same as one that fits a line
    return {name: spaced(rest).replace("( ", "(").replace(", )", ")").replace(" )", ")") for name, rest in found}


def in_c(parameter):
    """The C parameters of one Rattle parameter."""
    name, kind = parameter.split(": ")
    lent = re.fullmatch(r"&(mut )?\[(\w+)\]", kind)
    if not lent:
        return [f"{C_TYPES[kind]} {name}"]
    const = "" if lent[1] else "const "
    return [f"{const}{C_TYPES[lent[2]]} *{name}", f"size_t {name}_len"]


def expected_in_c():
    made = {}
    for name, (inside, answer) in exported().items():
        made[name] = ([c for parameter in inside for c in in_c(parameter)], C_TYPES[answer])
    return made


def in_header():
    text = re.sub(r"/\*.*?\*/", "", read(HEADER), flags=re.S)
    found = re.findall(r"^(\w+) (\w+)\(([^)]*)\);", text, re.M)
    return {name: (parameters(inside), answer) for answer, name, inside in found}


def in_sys():
    found = re.findall(r"fn (pinuglaw_\w+) as \w+\(([^)]*)\) -> (\w+);", read(SYS))
    return {name: (parameters(inside), answer) for name, inside, answer in found}


def header_constants():
    text = read(HEADER)
    found = re.findall(r"PINUGLAW_(\w+) = (\d+)", text) + re.findall(r"#define PINUGLAW_(\w+) (\d+)", text)
    return {name: int(value) for name, value in found}


def sys_constants():
    found = re.findall(r"pub const (\w+): (?:usize|u64) = ([\d_]+);", read(SYS))
    return {name: int(value) for name, value in found}


def header_numbers():
    inside = re.search(r"enum pinuglaw_number \{(.*?)\};", read(HEADER), re.S)[1]
    return {int(value) for value in re.findall(r"= (\d+)", inside)}


# Success, the answers of a success that is told apart (256, 512), and an input of fixed size lent too short.
BESIDE_THE_TABLE = {0, 256, 512, 768}


def in_force():
    """The table in force: number to its words, its definitions as files and names, and the paper that added or reworded it."""
    found = re.findall(r"^\|(\d+)\|(.*?)\|(.*?)\|(\d*)\|$", read(NUMBERS), re.M)
    return {int(number): (words, definitions(cell), paper) for number, words, cell, paper in found}


def definitions(cell):
    """`a`, `b` (`file`); `c` (`other`) as pairs of a file and a name."""
    for names, file in re.findall(r"([^;]*?) \(`(.*?)`\)", cell):
        yield from ((f"crates/{file}.antt", name) for name in re.findall(r"`(.*?)`", names))


def number_differences():
    """Where the table in force is not 01's with the papers' rows, names no definition, or is not the header's."""
    table = in_force()
    scope = {int(number): words for number, words in re.findall(r"^\|(\d+)\*?\|(.*?)\|", read(SCOPE), re.M)}
    if not scope or not table:
        yield f"{NUMBERS} and {SCOPE}: nothing to compare"
    for number in sorted(scope.keys() | table.keys()):
        words, places, paper = table.get(number, ("", [], ""))
        if not paper and words != scope.get(number):
            yield f"{NUMBERS} and {SCOPE}: {number}: no paper is named, and the words are not 01's"
        places = list(places)
        if not places:
            yield f"{NUMBERS}: {number}: no definition"
        for file, name in places:
            if not (ROOT / file).exists() or not re.search(rf"pub {name} :", read(file)):
                yield f"{NUMBERS}: {number}: {name} is not in {file}"
    if header_numbers() != table.keys() | BESIDE_THE_TABLE:
        yield f"{HEADER} and {NUMBERS}: the numbers differ: {sorted(header_numbers() ^ (table.keys() | BESIDE_THE_TABLE))}"


def defined(prefix, file, function, index):
    """The words that a record definition names: constant name to word."""
    body = re.search(rf"^{function} ws.*?=\s*record \{{(.*?)\n    \}}", read(file), re.S | re.M)[1]
    return {f"{prefix}_{name.upper()}": int(place or 0) for name, place in re.findall(index, body)}


def state_words():
    return defined("STATE", "crates/host_words/specs/Block.antt", "counts_of", r"(\w+) = get_or ws (\d+) 0")


def segment_words():
    return defined("SEGMENT", "crates/host_records/specs/Records.antt", "record_at", r"(\w+) = get_or ws \(record_words \* i(?: \+ (\d+))?\) 0")


# A size or bound of the header: the file and name in the code, and those in the definitions.
SIZES = {
    "CEILING": ("reconstructor_state/src/lib.rt", "CEILING", "reconstructor_state/specs/State.antt", "ceiling"),
    "ROW_WORDS": ("book/src/lib.rt", "ROW_WORDS", "book/specs/Rows.antt", "row_words"),
    "SEGMENT_WORDS": ("host_records/src/lib.rt", "RECORD_WORDS", "host_records/specs/Records.antt", "record_words"),
    "STATE_WORDS": ("host_words/src/lib.rt", "STATE_WORDS", "host_words/specs/Block.antt", "state_words"),
    "MESSAGE_WORDS": ("piece/src/lib.rt", "MESSAGE_WORDS", "piece/specs/Words.antt", "message_words"),
    "HANDSHAKE_WORDS": ("host_handshake/src/lib.rt", "HANDSHAKE_WORDS", "host_handshake/specs/HandshakeWords.antt", "handshake_words"),
    "ESTIMATE_WORDS": ("host_estimate_words/src/lib.rt", "ESTIMATE_WORDS", "host_estimate_words/specs/Estimates.antt", "estimate_words"),
    "QUEUE_WORDS": ("book_queue/src/lib.rt", "QUEUE_WORDS", "book_queue/specs/Queue.antt", "entry_width Queue"),
    "AHEAD_WORDS": ("book_queue/src/lib.rt", "AHEAD_ENTRY_WORDS", "book_queue/specs/Queue.antt", "entry_width Ahead"),
    "PROFILE_WORDS": ("reconstructor_reads/src/lib.rt", "PROFILE_WORDS", "reconstructor_reads/specs/LevelReads.antt", "profile_words"),
    "L2_WORDS": ("reconstructor_reads/src/lib.rt", "L2_WORDS", "reconstructor_reads/specs/LevelReads.antt", "l2_words"),
    "DAY_FILE_BYTES": ("daybook_file/src/lib.rt", "DAY_BYTES", "daybook_file/specs/DayFile.antt", "day_bytes"),
    "LISTING_BYTES": ("daybook/src/lib.rt", "LISTING_BYTES", "daybook_lines/specs/Most.antt", "listing_bytes"),
}

# Those that the oracle names for itself, since its model is written from the paper alone.
ORACLE = {
    "CEILING": [("call.rs", "CEILING"), ("model/book.rs", "CEILING")],
    "ROW_WORDS": [("call.rs", "ROW_WORDS"), ("model/rows.rs", "ROW_WORDS"), ("ported/book.rs", "ROW")],
    "SEGMENT_WORDS": [("ported/book.rs", "RECORD"), ("vectors/words.rs", "RECORD")],
    "STATE_WORDS": [("vectors/words.rs", "BLOCK")],
    "AHEAD_WORDS": [("model/queue.rs", "ENTRY_WORDS")],
    "DAY_FILE_BYTES": [("daybook.rs", "LONGEST")],
}

# The index and an estimate's list hold as many orders as the ceiling admits. A bound that parts from the ceiling leaves this table.
AS_THE_CEILING = [
    ("crates/book/src/lib.rt", r"const MOST_ROWS: \w+ = ([\d_]+);"),
    ("crates/book/specs/Rows.antt", r"^most_rows = (\d+)"),
    ("crates/queue_ahead/src/lib.rt", r"const LIST_BOUND: \w+ = ([\d_]+);"),
    ("crates/queue/specs/Estimates.antt", r"^list_bound = (\d+)"),
]


def value(file, pattern):
    """The one number that `pattern` finds, none where the file names it not at all or twice."""
    found = re.findall(pattern, read(file), re.M)
    return int(found[0]) if len(found) == 1 else None


def in_code(file, name):
    return value(f"crates/{file}", rf"const {name}: \w+ = ([\d_]+);")


def size_differences(constants):
    """Where a size of the header is another one in the code, the definitions or the oracle."""
    for name, (code, const, spec, definition) in SIZES.items():
        places = [(f"crates/{code}", in_code(code, const)), (f"crates/{spec}", value(f"crates/{spec}", rf"^{definition} = (\d+)"))]
        for file, const in ORACLE.get(name, []):
            file = f"tools/oracle/src/{file}"
            places.append((file, value(file, rf"const {const}: \w+ = ([\d_]+);")))
        if name == "CEILING":
            places += [(file, value(file, pattern)) for file, pattern in AS_THE_CEILING]
        for file, number in places:
            if number != constants.get(name):
                yield f"{file} and {HEADER}: {name}: {number} is not {constants.get(name)}"


def differences(what, one, other):
    """Where `one` and `other` differ; both name the same things."""
    if not one or not other:
        yield f"{what}: nothing to compare"
    for name in sorted(one.keys() | other.keys()):
        if one.get(name) != other.get(name):
            yield f"{what}: {name}: {one.get(name)} is not {other.get(name)}"


def all_differences():
    yield from differences(f"{HOST} and {HEADER}", expected_in_c(), in_header())
    yield from differences(f"{HOST} and {SYS}", exported(), in_sys())
    library = promised(LIBRARY, r"^pub ")
    yield from differences(f"{HOST} and {LIBRARY}", promised(HOST, r'^pub extern "C" '), library)
    if len(library) != len(exported()):
        yield f"{HOST} and {LIBRARY}: {len(exported())} functions are exported, {len(library)} are there"
    constants = header_constants()
    for what, part in [(SYS, sys_constants()), ("the state's words", state_words()), ("a record's words", segment_words())]:
        yield from differences(f"{what} and {HEADER}", part, {k: v for k, v in constants.items() if k in part})
    yield from size_differences(constants)
    yield from number_differences()


found = list(all_differences())
for line in found:
    print(line)
print(f"declarations: {len(exported())} functions, {len(found)} differences")
sys.exit(bool(found))
