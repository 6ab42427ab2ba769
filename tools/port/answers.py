#!/usr/bin/env python3
"""Turn the proofs of a crate from the older form, `tie.close (tie.spec ..)` in Proof.antt, to Invariants.antt and Answers.antt.

usage: answers.py CRATE OLD_PROOFS NAMES.json

CRATE is the crate's folder, OLD_PROOFS a folder with its old `proofs`, NAMES.json what `rt check --generated DIR --old-names` wrote of the crate once
its Proof.antt were out of the way. Printed is what was left to do by hand. What the search finds alone (`search rules`) is left out."""
import glob
import json
import os
import re
import sys

GARBLED = {"type-size": "size-of"}
NAME = r"[^\W\d][\w'·]*(?:-[\w'·]+)*"
HANDLE = re.compile(rf"(?<![\w'·.-])({NAME})((?:\.[\w'·-]+)+)", re.UNICODE)


def same(name):
    return name.replace("_", "-").lower()


def contracts():
    """Of each function its requires and ensures: the clauses' names, where there are two or more."""
    found = {}
    for path in glob.glob("crates/*/src/**/*.rt", recursive=True):
        parts = path.split("/")
        crate = parts[1]
        module = [] if parts[-1] in ("lib.rt", "main.rt") else [parts[-1][:-3]]
        text = open(path, encoding="utf-8").read()
        scope = []
        current = None
        for line in text.split("\n"):
            impl = re.match(r"impl(?:<[^>]*>)? (?:\w+ for )?(\w+)", line)
            if impl:
                scope = [impl.group(1)]
            elif line.startswith("}"):
                scope = []
            fn = re.search(r"\bfn (\w+)", line)
            if fn and not line.strip().startswith("//"):
                if not line.startswith(" "):
                    scope = []
                current = "::".join([crate] + module + scope + [fn.group(1)])
                found[current] = {"requires": [], "ensures": [], "lent": re.findall(r"(\w+): &(?:'\w+ )?mut ", line) + (["self"] if "&mut self" in line else [])}
            clause = re.match(r"\s*(requires|ensures)\*? (\w+)?\s*\{", line)
            if clause and current:
                found[current][clause.group(1)].append(clause.group(2))
    return found


class Function:
    def __init__(self, entry, name, clauses):
        self.name = name
        self.clauses = clauses
        self.needs = {}
        for old, new in entry["needs"]:
            self.needs.setdefault(same(old), new)
        for old, new in entry["needs"]:
            self.needs.setdefault(same(new), new)
        self.order = [new for old, new in entry["needs"]]
        self.steps = {}
        self.callee = {}
        self.clash = set()
        for place in entry["places"]:
            old, new = place[2]
            if not old:
                continue
            key = same(old)
            if key in self.steps and self.steps[key] != new:
                self.clash.add(key)
            self.steps[key] = new
            if place[3]:
                self.callee[key] = place[3]
        self.loops = {same(old): new for (old, new), _ in entry["loops"]}
        for (old, new), _ in entry["loops"]:
            self.steps.setdefault(same(old), new)
            self.steps.setdefault(same(old) + "-test", new + "-test")
        self.loop_vars = {new: (names, changed) for ((old, new), names), changed in zip(entry["loops"], entry["changed"])}
        self.arms = {}
        self.wholes = {}
        for arm in entry["arms"]:
            if not arm:
                continue
            label, _, items = arm
            for field, step, path in items:
                if not path:
                    self.wholes.setdefault(same(step), []).append((label, field))
                    continue
                self.arms.setdefault((same(step), tuple(path)), (label, field))


def blocks(text):
    return re.split(r"\n\n+", text.strip("\n"))


def rewrite(fn, text, notes, goal):
    """The paths of a body."""
    aliases = {"c"}
    # a handle on an earlier place is the flat record itself
    changed = True
    while changed:
        changed = False
        for match in re.finditer(rf"let ({NAME}) = ({NAME})((?:\.before)+) in *", text, re.UNICODE):
            if match.group(2) in aliases:
                aliases.add(match.group(1))
                text = text[: match.start()] + text[match.end():]
                changed = True
                break
        else:
            for match in re.finditer(rf"let ({NAME}) = ({NAME}) in *", text, re.UNICODE):
                if match.group(2) in aliases:
                    aliases.add(match.group(1))
                    text = text[: match.start()] + text[match.end():]
                    changed = True
                    break

    # a name for what a variant holds: each part has a name of its own now
    for match in list(re.finditer(rf"let ({NAME}) = ({NAME}(?:\.[\w'-]+)*\.given(?:\.[01])*) in *", text, re.UNICODE)):
        name, value = match.groups()
        if value.split(".")[0] in aliases:
            text = text.replace(match.group(0), "", 1)
            text = re.sub(rf"(?<![\w'·.-]){re.escape(name)}(?![\w'·-])", value, text)

    def path(match):
        head, tail = match.group(1), match.group(2)
        if head not in aliases:
            return match.group(0)
        fields = [f for f in tail[1:].split(".")]
        while fields and fields[0] == "before":
            fields = fields[1:]
        if not fields:
            return "c"
        step = same(fields[0])
        # what the kit's script took for a word of the library
        if step not in fn.steps and step in GARBLED:
            step = GARBLED[step]
        rest = [{"type-inv": "type_inv", "well-formed": "well_formed"}.get(field, field) for field in fields[1:]]
        if step in ("args", "requires", "ranges", "well-formed"):
            if step == "requires" and len(fn.clauses["requires"]) > 1 and rest and rest[0].isdigit():
                rest[0] = fn.clauses["requires"][int(rest[0])]
            if step == "args":
                rest = [field.replace("-", "_") for field in rest]
            return ".".join(["c", fields[0].replace("-", "_")] + rest)
        if step in fn.clash:
            notes.append(f"{fn.name}: step {fields[0]} stands at two places")
        for length in range(len(rest), 0, -1):
            arm = fn.arms.get((step, tuple(rest[:length])))
            if arm:
                return ".".join(["c", arm[0], arm[1]] + rest[length:])
        wholes = [label for label, field in fn.wholes.get(step, [])]
        if wholes and step not in fn.callee:
            here = [label for label in wholes if goal.endswith(label)] or (wholes if len(set(wholes)) == 1 else [])
            if here and rest:
                return ".".join(["c", here[0], here[0] + "-own"] + rest)
        if step in fn.steps:
            new = fn.steps[step]
            callee = fn.callee.get(step)
            if callee and rest and rest[0] == "ensures" and len(rest) > 1 and rest[1].isdigit():
                names = CONTRACTS.get(callee, {"ensures": []})["ensures"]
                if len(names) > 1:
                    rest[1] = names[int(rest[1])]
            # what a call keeps of a slice that it is lent to write goes by the parameter
            if callee and len(rest) > 1 and rest[0] == "auto" and rest[1].isdigit():
                lent = CONTRACTS.get(callee, {"lent": []})["lent"]
                if int(rest[1]) < len(lent):
                    rest[1] = lent[int(rest[1])]
            return ".".join(["c", new] + rest)
        notes.append(f"{fn.name}: unknown step {fields[0]}")
        return ".".join(["c"] + fields)

    return HANDLE.sub(path, text)


def split_tuple(text):
    """The parts of a tuple, or None."""
    if not (text.startswith("(") and text.endswith(")")):
        return None
    parts, depth, start = [], 0, 1
    for i, letter in enumerate(text):
        if letter in "([{":
            depth += 1
        elif letter in ")]}":
            depth -= 1
            if depth == 0 and i < len(text) - 1:
                return None
        elif letter == "," and depth == 1:
            parts.append(text[start:i].strip())
            start = i + 1
    last = text[start:-1].strip()
    if last:
        parts.append(last)
    return parts if len(parts) > 1 else None


def by_clauses(text, names):
    """A tuple at the end of a body as a record with a field for each clause."""
    if len(names) < 2:
        return text
    depth = 0
    for i in range(len(text) - 1, -1, -1):
        if text[i] in ")]}":
            depth += 1
        elif text[i] in "([{":
            depth -= 1
            if depth == 0:
                parts = split_tuple(text[i:].strip())
                head = text[:i]
                if parts and len(parts) == len(names) and (not head.strip() or re.search(r"(?: in|\nin|,)\s*$", head) or head.rstrip().endswith(" in")):
                    return head + "record { " + "; ".join(f"{n} = {v}" for n, v in zip(names, parts)) + " }"
                return None
    return None


def turn(fn, text, folder, notes, module):
    parts = blocks(text)
    comments, uses = [], []
    answers, invariants, helpers = [], [], []
    renamed = {}
    inline = []
    for part in parts:
        lines = part.split("\n")
        heads = [line for line in lines if line.startswith("use ")]
        if heads:
            comments += [line for line in lines if line.startswith("--")]
            uses += [line for line in heads if not re.search(r"\.(Statement\.\{statement\}|Tie as tie)$", line)]
            continue
        own_comment = []
        while lines and lines[0].startswith("--"):
            own_comment.append(lines.pop(0))
        if not lines:
            comments += own_comment
            continue
        head = lines[0]
        match = re.match(rf"(?:abbrev )?({NAME}) : tie\.(invariant|decreases)-(\S+)\s*$", head, re.UNICODE)
        if match:
            name, kind, loop = match.groups()
            new = fn.loops.get(same(loop))
            if new is None:
                notes.append(f"{fn.name}: no loop {loop}")
                continue
            body = "\n".join(lines[1:])
            definition = re.match(rf"{re.escape(name)} ([^=]*)= ?(.*)", body, re.DOTALL)
            params = definition.group(1).split()
            names, changed = fn.loop_vars[new]
            value = definition.group(2)
            table = {}
            for i, param in enumerate(params):
                if i < len(names):
                    table[param] = f"l.initial.{names[i]}" if changed[i] else f"l.{names[i]}"
                else:
                    later = [n for n, c in zip(names, changed) if c]
                    table[param] = f"l.{later[i - len(names)]}"
            value = re.sub(rf"(?<![\w'·.-])({NAME})", lambda m: table.get(m.group(1), m.group(1)), value)
            goal = f"{kind}-{new}"
            invariants.append("\n".join(own_comment + [f"abbrev pub {goal} : goal.{goal}", f"{goal} l = {value}"]))
            continue
        match = re.match(rf"({NAME}) : tie\.Need-(\S+)", head, re.UNICODE)
        if match:
            name, need = match.groups()
            new = fn.needs.get(same(need))
            if new is None:
                notes.append(f"{fn.name}: no goal for {need}; it was\n{part}")
                continue
            index = 1
            unfolding = []
            while lines[index].startswith("unfolding"):
                unfolding.append(lines[index])
                index += 1
            body = "\n".join(lines[index:])
            definition = re.match(rf"{re.escape(name)} c( κs)?\s*=\s*(.*)", body, re.DOTALL)
            if not definition:
                notes.append(f"{fn.name}: unread {need}: {body}")
                continue
            value = rewrite(fn, definition.group(2), notes, new)
            value = re.sub(r"^\s*\n", "", value)
            if value.strip() == "search rules":
                continue
            names = []
            if new.startswith("returns"):
                names = fn.clauses["ensures"]
            elif new.endswith("-requires") or "-requires-" in new:
                for key, callee in fn.callee.items():
                    if fn.steps[key] == new.replace("-requires", ""):
                        names = CONTRACTS.get(callee, {"requires": []})["requires"]
            if len(names) > 1:
                value = value.strip()
                clauses = by_clauses(value, names)
                if clauses is None:
                    notes.append(f"{fn.name}: {new} has the clauses {', '.join(names)}")
                else:
                    value = clauses
            sep = "\n    " if "\n" in value else " "
            answers.append("\n".join(own_comment + [f"pub {new} : goal.{new}"] + unfolding + [f"{new} c ={sep}{value.strip()}"]))
            continue
        if re.match(r"pub \S+ : \{M : Type 1\} → statement M", head):
            spec = part[part.index("tie.close"):] if "tie.close" in part else ""
            for lam in re.findall(r"\(λ c(?: κs)?\. (?!search rules\))[^\n]*", spec):
                inline.append(lam)
            continue
        helpers.append("\n".join(own_comment + lines))
    if inline:
        notes.append(f"{fn.name}: inline answers, goals are {', '.join(fn.order)}:\n    " + "\n    ".join(inline))
    os.makedirs(folder, exist_ok=True)
    head = "\n".join(comments + uses)
    if invariants:
        body = "\n\n".join(invariants)
        with open(f"{folder}/Invariants.antt", "w", encoding="utf-8") as file:
            file.write(head + f"\nuse {module}.Given as goal\n\n" + body + "\n")
    if answers or helpers:
        body = "\n\n".join(helpers + answers)
        with open(f"{folder}/Answers.antt", "w", encoding="utf-8") as file:
            file.write(head + f"\nuse {module}.Goals as goal\n\n" + body + "\n")
    if not (invariants or answers or helpers):
        try:
            os.rmdir(folder)
        except OSError:
            pass


CONTRACTS = contracts()


def main():
    crate, old, names = sys.argv[1:4]
    name = os.path.basename(crate.rstrip("/"))
    data = json.load(open(names, encoding="utf-8"))
    notes = []
    for key, entry in sorted(data.items()):
        match = re.match(rf"Rattle-{name}-proofs\.(.*)\.Lts$", key)
        if not match:
            continue
        path = match.group(1)
        proof = f"{old}/{path.replace('.', '/')}/Proof.antt"
        if not os.path.exists(proof):
            continue
        text = open(proof, encoding="utf-8").read()
        if "tie.close" not in text:
            notes.append(f"{path}: a walk by hand")
            continue
        function = f"{name}::" + path.replace(".", "::")
        clauses = CONTRACTS.get(function, {"requires": [], "ensures": []})
        turn(Function(entry, function, clauses), text, f"{crate}/proofs/{path.replace('.', '/')}", notes, f"Rattle.{name}.proofs.{path}")
    print("\n".join(notes))


main()
