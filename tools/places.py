#!/usr/bin/env python3
"""Counts the places of the design pass in crates/*/src: places.py [--list] [POINT ..] [REV]

Each point is a rule over the text, so that a count can be made again at any commit (REV; without one, of the files as they lie).
"""
import re
import subprocess
import sys
from collections import defaultdict
from pathlib import Path

TOP = Path(__file__).resolve().parent.parent


def sources(rev, pattern):
    """path -> text of the files of crates/ whose path fits the pattern."""
    if rev:
        names = subprocess.run(["git", "-C", TOP, "ls-tree", "-r", "--name-only", rev, "crates"],
                               check=True, capture_output=True, text=True).stdout.split("\n")
        read = lambda n: subprocess.run(["git", "-C", TOP, "show", f"{rev}:{n}"], check=True, capture_output=True, text=True).stdout
    else:
        names = [str(p.relative_to(TOP)) for p in (TOP / "crates").rglob("*") if p.is_file() and "/out/" not in str(p)]
        read = lambda n: (TOP / n).read_text()
    return {n: read(n) for n in sorted(names) if re.search(pattern, n)}


def uncommented(text):
    return re.sub(r"//[^\n]*", "", text)


def functions(text):
    """(line, name, parameters, contract, body) of each function."""
    for m in re.finditer(r"\bfn (\w+)(?:<[^>(]*>)?\s*\(", text):
        depth, i = 1, m.end()
        while depth:
            depth += {"(": 1, ")": -1}.get(text[i], 0)
            i += 1
        parameters = text[m.end():i - 1]
        # The body is the first block at the left of its function: clauses keep their braces in one line.
        body = re.compile(r"^\s*\{$|(?<=\S) \{$", re.M).search(text, i)
        if not body:
            continue
        j, depth = body.end(), 1
        while depth and j < len(text):
            depth += {"{": 1, "}": -1}.get(text[j], 0)
            j += 1
        yield text.count("\n", 0, m.start()) + 1, m.group(1), parameters, text[i:body.start()], text[body.end():j]


ERRORS = r"\b(\w*Error|Discrepancy|InvalidationKind)\b"


def own_results(files):
    """1a: enums of two variants of which one alone carries a value, and enums of which some variants, not all, are refusals."""
    for n, t in files.items():
        for m in re.finditer(r"^pub enum (\w+) \{\n(.*?)^\}", t, re.M | re.S):
            variants = re.findall(r"^    (\w+)( \{[^}]*\}|\([^)]*\))?,", m.group(2), re.M)
            loaded = [v for v in variants if v[1]]
            refusing = [v for v in variants if re.search(ERRORS, v[1]) or re.match(r"Refused|Unusable|Stop|Broken|OutputTooSmall|OtherSegment|AmountOutOfRange|NotLent", v[0])]
            two = len(variants) == 2 and len(loaded) == 1
            mixed = refusing and len(refusing) < len(variants)
            if (two or mixed) and not re.search(r"(Error|Finding|Kind|Discrepancy|Reason)$", m.group(1)):
                yield n, t.count("\n", 0, m.start()) + 1, m.group(1)


def flags(files):
    """1b: a field that is a flag, beside other fields."""
    for n, t in files.items():
        for m in re.finditer(r"struct (\w+) \{\n(.*?)^\}", t, re.M | re.S):
            for f in re.finditer(r"^    (?:pub )?(\w+): bool,", m.group(2), re.M):
                yield n, t.count("\n", 0, m.start()) + 1, f"{m.group(1)}.{f.group(1)}"
            for f in re.finditer(r"^    (?:pub )?(decreased|end|kind|number): (?:u64|usize),", m.group(2), re.M):
                yield n, t.count("\n", 0, m.start()) + 1, f"{m.group(1)}.{f.group(1)}"


def number_codes(files):
    """1c: functions whose answer is a number of the table, and constants that are one."""
    for n, t in files.items():
        for line, name, parameters, contract, body in functions(uncommented(t)):
            if re.search(r"-> u64", contract) and re.search(r"return \d+;|=> \d+,|^\s*\d+$|\.number\(\)|return stop;|stop$|_number\(", body, re.M):
                yield n, line, name
        for m in re.finditer(r"^(?:pub )?const (\w+): u64 = \d+;", t, re.M):
            yield n, t.count("\n", 0, m.start()) + 1, m.group(1)


def shape(body):
    """The body's tokens, with names and numbers left out."""
    tokens = re.findall(r"[A-Za-z_]\w*|\d\w*|[^\s\w]", body)
    keep = {"if", "else", "match", "while", "loop", "for", "return", "let", "mut", "as", "in"}
    return tuple(t if t in keep or not re.match(r"\w", t) else "x" for t in tokens)


def twins(files):
    """2: functions of one shape, of 24 tokens or more: each beyond the first of its group."""
    groups = defaultdict(list)
    for n, t in files.items():
        for line, name, parameters, contract, body in functions(uncommented(t)):
            s = shape(body)
            if len(s) >= 24:
                groups[s].append((n, line, name))
    for group in groups.values():
        for n, line, name in group[1:]:
            yield n, line, f"{name} ~ {group[0][2]} ({group[0][0].split('/')[1]})"


def counted_loops(files):
    """3: loops written with while or loop."""
    for n, t in files.items():
        for m in re.finditer(r"^\s*(while|loop)\b.*$", uncommented(t), re.M):
            yield n, t.count("\n", 0, m.start() + 1) + 1, m.group(0).strip()


def by_hand(files):
    """4: equality, zeros, copies and conversions by hand: functions same_*, a value of zeros, `let x = s.x;` before a value is made again, `as`."""
    for n, t in files.items():
        u = uncommented(t)
        for line, name, parameters, contract, body in functions(u):
            if re.match(r"same_\w+$", name):
                yield n, line, f"{name}: equality"
            if len(re.findall(r"^\s*\w+: 0,$", body, re.M)) >= 4:
                yield n, line, f"{name}: zeros"
            if len(re.findall(r"^\s*let (\w+) = \w+\.\1;$", body, re.M)) >= 2:
                yield n, line, f"{name}: copies of fields"
        for m in re.finditer(r"\bas (u8|u16|u32|u64|i64|usize)\b", u):
            yield n, u.count("\n", 0, m.start()) + 1, m.group(0)


def repeated_facts(files):
    """5a: a `requires` that stands, but for names of places, in three functions or more."""
    facts = defaultdict(list)
    for n, t in files.items():
        for line, name, parameters, contract, body in functions(uncommented(t)):
            for m in re.finditer(r"requires (?:\w+ )?\{ (.*) \}$", contract, re.M):
                facts[re.sub(r"\.(now|old)\b", "", m.group(1))].append((n, line, name))
    for fact, places in facts.items():
        if len(places) >= 3:
            for n, line, name in places:
                yield n, line, f"{name}: {fact}"


def travelling(files):
    """5b: two parameters or more that stand side by side in five functions or more."""
    groups = defaultdict(set)
    for n, t in files.items():
        for line, name, parameters, contract, body in functions(uncommented(t)):
            ps = [re.sub(r"\s+", " ", p.strip()) for p in parameters.split(",") if ":" in p]
            for size in (2, 3, 4):
                for i in range(len(ps) - size + 1):
                    groups[tuple(ps[i:i + size])].add((n, line, name))
    seen = set()
    for group, places in sorted(groups.items(), key=lambda g: -len(g[0])):
        if len(places) >= 5 and not any(set(group) < set(o) and places == groups[o] for o in seen):
            seen.add(group)
            yield f"{len(places)} functions", 0, ", ".join(group)


def buffers(files):
    """6: a slice or array with its count beside it, and arrays that go side by side."""
    for n, t in files.items():
        for line, name, parameters, contract, body in functions(uncommented(t)):
            p = re.sub(r"\s+", " ", parameters)
            if re.search(r"(\w+): (&mut |&)\[[^\]]*\], (n|m|at|count|len|lent|k|i): usize", p):
                yield n, line, name


def switches(files):
    """7: a match on a number that says which step to run."""
    for n, t in files.items():
        for m in re.finditer(r"^\s*match (\w*(operation|kind|voice|form|which)\w*) \{", uncommented(t), re.M):
            yield n, t.count("\n", 0, m.start() + 1) + 1, m.group(0).strip()


def answers(files):
    """8: answers to goals."""
    for n, t in files.items():
        k = len(re.findall(r"^pub [\w'-]+ : goal\.", t, re.M))
        if k:
            yield n, k, f"{k} answers"


POINTS = {"1a": own_results, "1b": flags, "1c": number_codes, "2": twins, "3": counted_loops, "4": by_hand,
          "5a": repeated_facts, "5b": travelling, "6": buffers, "7": switches, "8": answers}


def main(words):
    listed = "--list" in words
    words = [w for w in words if w != "--list"]
    points = [w for w in words if w in POINTS] or list(POINTS)
    rev = next((w for w in words if w not in POINTS), None)
    code = sources(rev, r"/src/.*\.rt$")
    proofs = sources(rev, r"/proofs/.*/(Answers|Invariants)\.antt$") if "8" in points else {}
    for point in points:
        places = list(POINTS[point](proofs if point == "8" else code))
        total = sum(p[1] for p in places) if point == "8" else len(places)
        print(f"{point:3} {total:5}  {POINTS[point].__doc__.split(': ', 1)[1]}")
        if listed:
            for n, line, what in places:
                print(f"      {n}:{line} {what}" if line else f"      {n}: {what}")


main(sys.argv[1:])
