#!/usr/bin/env python3
"""Spell the repository's own names as today's Rattle does. Run once at the top, after the kit's port.py, on a tree that it has just turned.

Definitions, fields and lemmas in camelCase become snake_case. In a lemma's name a dash stays where it joins the names of two things
(`length-set_row`), and becomes `_` where it adds a plain word (`beyond-same` is `beyond_same`). Names of Rust items, exported names and the names of
the kit keep their spelling. A name whose new spelling is taken keeps its old one; those are printed. It does not see where a
parameter of a function in a .rt file now hides a definition of its name: the check does."""
import collections
import glob
import re
import sys

TOKEN = re.compile(r"(?<![\w'·-])[^\W\d][\w'·]*(?:-[\w'·]+)*", re.UNICODE)
# A declaration: at the head of a line, or inside a record, a module or a `where`.
DECLARED = re.compile(r"^ *(?:pub |abbrev |unfoldable |let )*([^\W\d][\w'·]*(?:-[\w'·]+)*)(?: \{[^}]*\})* :(?: |$)", re.UNICODE | re.MULTILINE)
IMPORT = re.compile(r"^(?:ghost )?use ([\w.+·-]+)\.\{([^}]*)\}", re.UNICODE | re.MULTILINE)


# Names that would fall together with another, mostly lemmas whose name a definition now needs; and where they stand.
APART = {
    "row_words": ("drop-row_at", "crates/book/proofs/"),
    "same_id": ("same_id-eq", "crates/book_index/proofs/Index.antt"),
    "order_from": ("order_from-order", "crates/piece/proofs/Encoded.antt"),
    "goesOn": ("is_continued", "crates/"),
}


def read(path):
    with open(path, encoding="utf-8") as file:
        return file.read()


def snake(name):
    name = re.sub(r"(?<=[a-zA-Z0-9])([A-Z])", lambda m: "_" + m.group(1).lower(), name)
    return name


def is_camel(part):
    return re.match(r"[a-z]", part) and re.search(r"[a-z0-9][A-Z]", part)


def main():
    antt = sorted(glob.glob("crates/*/specs/**/*.antt", recursive=True) + glob.glob("crates/*/proofs/**/*.antt", recursive=True))
    code = sorted(glob.glob("crates/*/src/**/*.rt", recursive=True))
    edits = sorted(glob.glob("crates/*/must-fail/*.edit"))
    crates = {path.split("/")[1] for path in antt + code}
    texts = {path: read(path) for path in antt + code + edits}

    imported = set()  # from the kit
    declared = collections.Counter()
    for path in antt + code:
        for source, names in IMPORT.findall(texts[path]):
            head = source.split(".")
            if head[0] != "Rattle" or len(head) < 2 or head[1] not in crates:
                for name in names.split(","):
                    imported.add(name.split(" as ")[0].strip())
    for path in antt:
        # a walk by hand declares the goals' names there, which Rattle gives
        if path.endswith("/Proof.antt"):
            continue
        for name in DECLARED.findall(texts[path]):
            declared[name] += 1
    tokens = set()
    for text in texts.values():
        tokens.update(TOKEN.findall(text))
    # A name is taken where a definition, lemma or variable of antt has it: no name of a Rust item or field, which stand in modules of their own or behind a dot.
    taken = set()
    for path in antt:
        text = re.sub(r"--.*", "", texts[path])
        text = re.sub(r"^use .*", "", text, flags=re.MULTILINE)
        taken.update(re.findall(r"(?<![\w'·.-])[^\W\d][\w'·]*(?:-[\w'·]+)*(?! *=[^>=])", text))

    # what a dash may join: names of definitions, functions and fields
    things = {snake(name) for name in declared if "-" not in name} | {name for name in imported if "-" not in name}
    for path in code:
        things.update(re.findall(r"\bfn (\w+)", texts[path]))

    def spelled(name):
        parts = [snake(part) if is_camel(part) else part for part in name.split("-")]
        result = parts[0]
        for part in parts[1:]:
            result += ("-" if len(part) > 3 and part in things else "_") + part
        return result

    live = set()  # what stands in more than an edit: the kit's script turned the rest, and left the edits
    for path in antt + code:
        live.update(TOKEN.findall(texts[path]))

    renamed = {}
    taken -= set(APART)
    kept = []
    # definitions first, so that a lemma gives way
    for name in sorted(tokens, key=lambda name: ("-" in name, name)):
        if name in imported or name in APART or name.startswith("«"):
            continue
        own = name in declared
        camel = any(is_camel(part) for part in name.split("-")) and re.match(r"[a-z]", name)
        if not own and not (camel and "-" not in name):
            continue
        if not camel and "-" not in name:
            continue
        if not own and (re.match(r"x[0-9A-F]+$", name) or re.search(r"_[A-Z]", name)):
            continue
        new = spelled(name)
        if new == name:
            continue
        if name not in live and "-" not in name:
            renamed[name] = new
            continue
        if new in taken or new in imported or new in renamed.values():
            other = name
            if camel:
                other = "-".join(snake(part) for part in name.split("-"))
            if other != name and other not in taken and other not in imported and other not in renamed.values():
                new = other
            else:
                kept.append((name, new))
                continue
        renamed[name] = new

    for path, text in texts.items():
        lines = []
        here = {**renamed, **{old: new for old, (new, where) in APART.items() if path.startswith(where)}}
        for line in text.split("\n"):
            if path.endswith(".rt") and '"' in line:
                lines.append(line)
                continue
            lines.append(TOKEN.sub(lambda m: here.get(m.group(0), m.group(0)), line))
        new_text = "\n".join(lines)
        if new_text != text and "--dry" not in sys.argv:
            with open(path, "w", encoding="utf-8") as file:
                file.write(new_text)
    for name, new in sorted(renamed.items()):
        print(f"{name} {new}")
    for name, new in kept:
        print(f"kept: {name} (not {new})")


main()
