#!/usr/bin/env python3
"""Bring the texts of must-fail edits to today's spelling, where the old: text no longer stands in its file. Prints those that it can't place;
what it turned is read by eye afterwards, the new: texts above all."""
import glob
import re


def turned(text):
    text = text.replace("get_d ", "get_or ").replace("«", "").replace("»", "")
    text = re.sub(r"Rattle·(\w+)·?", r"Rattle.\1", text).replace("the-variants", "TheVariants")
    for _ in range(4):
        text = re.sub(r"\bnow \((\w+) \.entry\)", r"\1.old", text)
        text = re.sub(r"\bnow \((\w+) \.exit\)", r"\1.new", text)
        text = re.sub(r"\((\w+) \.(\w+)\)", r"\1.\2", text)
        text = re.sub(r"\((\w+(?:\.\w+)*)((?: \.\w+)+)\)", lambda m: m.group(1) + m.group(2).replace(" ", ""), text)
        text = re.sub(r"(?<=[\w')]) \.(?=\w)", ".", text)
        text = re.sub(r"\(([\w.]+)\.(old|new)\)", r"\1.\2", text)
    return text


for path in sorted(glob.glob("crates/*/must-fail/*.edit")):
    crate = path.split("/")[1]
    lines = open(path, encoding="utf-8").read().split("\n")
    text, changed, bad = None, False, False
    for i, line in enumerate(lines):
        if line.startswith("file:"):
            text = open(f"crates/{crate}/{line[5:].strip()}", encoding="utf-8").read()
        if line.startswith("old:"):
            old = line[4:].strip()
            if text.count(old) == 1:
                continue
            new = turned(old)
            if text.count(new) == 1:
                lines[i] = line[: line.index(old)] + new
                follow = lines[i + 1]
                value = follow[4:].strip()
                lines[i + 1] = follow[: follow.index(value)] + turned(value)
                changed = True
            else:
                bad = True
                print(path, "\n   ", new)
    if changed and not bad:
        open(path, "w", encoding="utf-8").write("\n".join(lines))
