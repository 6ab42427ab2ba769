#!/usr/bin/env python3
"""Bring names of definitions and lemmas in pages and tools to their spelling in the crates.

usage: pages.py FILE..

A name that no crate has any more is looked for in today's spelling; what is found nowhere is printed and left."""
import glob
import re
import sys

TOKEN = re.compile(r"(?<![\w'·./-])[^\W\d][\w'′·]*(?:-[\w'′·]+)*", re.UNICODE)
APART = {"goesOn": "is_continued", "getD": "get_or", "toZ": "to_z", "ofZ": "of_z"}

known = set()
for path in glob.glob("crates/*/specs/**/*.antt", recursive=True) + glob.glob("crates/*/proofs/**/*.antt", recursive=True) + glob.glob("crates/*/src/**/*.rt", recursive=True):
    known.update(TOKEN.findall(open(path, encoding="utf-8").read()))
loose = {}
for name in known:
    loose.setdefault(name.replace("-", "_").lower(), name)


def spelled(name, left):
    if name in known and not re.match(r"[a-z].*[A-Z]", name):
        return name
    if name in APART:
        return APART[name]
    camel = re.match(r"[a-z]", name) and re.search(r"[a-z0-9][A-Z]", name)
    if not camel and "-" not in name and "′" not in name:
        return name
    snake = re.sub(r"(?<=[a-z0-9])([A-Z])", lambda m: "_" + m.group(1).lower(), name).replace("′", "'")
    for found in (snake, loose.get(snake.replace("-", "_").lower())):
        if found in known:
            return found
    left.add(name)
    return name


for path in sys.argv[1:]:
    text = open(path, encoding="utf-8").read()
    left = set()
    if path.endswith(".md"):
        new = re.sub(r"`[^`\n]+`", lambda m: TOKEN.sub(lambda t: spelled(t.group(0), left), m.group(0)) if "/" not in m.group(0) or " " in m.group(0) else m.group(0), text)
    else:
        new = TOKEN.sub(lambda t: spelled(t.group(0), left) if re.match(r"[a-z].*[A-Z]", t.group(0)) else t.group(0), text)
    if new != text:
        open(path, "w", encoding="utf-8").write(new)
    if left:
        print(path, " ".join(sorted(left)))
