#!/usr/bin/env python3
"""What the program crate `book_main` must write, worked out from 01's rules on plain lists of orders, apart from the Rattle code.
Usage: expect_book_main.py > crates/book_main/stdout"""
import sys

LIMIT = 10**15
FIELDS = ("high", "low", "price", "remaining", "kind", "entered", "flag", "at")
out = []


def say(*parts):
    out.append(" ".join(str(p) for p in parts) + "\n")


def row(i, price, remaining, kind, entered):
    return dict(high=1, low=i, price=price, remaining=remaining, kind=kind, entered=entered, flag=0, at=0)


def words(rows):
    return [r[f] for r in rows for f in FIELDS]


def rows_of(ws):
    return [dict(zip(FIELDS, ws[i:i + 8])) for i in range(0, len(ws), 8)]


def buy(r):
    # 01 knows kinds 0 to 3. Of a larger one, which number 3 names, an audit reads the side by its last bit
    return r["kind"] % 2 == 0


def side(rows, s):
    return [r for r in rows if buy(r) == (s == "buy")]


def levels(rows):
    return {(buy(r), r["price"]) for r in rows}


def best(rows, s):
    ps = [r["price"] for r in side(rows, s)]
    return "none" if not ps else max(ps) if s == "buy" else min(ps)


def crossed(rows):
    b, a = best(rows, "buy"), best(rows, "sell")
    return "none" not in (b, a) and b >= a


def broken(rows, max_levels):
    for r in rows:
        if r["kind"] > 3 or not 0 < r["price"] <= LIMIT or not 0 < r["remaining"] <= LIMIT:
            return True
        if r["flag"] not in (0, 1) or (r["flag"] == 0 and r["at"] != 0):
            return True
    ids = [(r["high"], r["low"]) for r in rows]
    return len(set(ids)) < len(ids) or len(levels(rows)) > max_levels or crossed(rows)


def audit(rows):
    if any(r["remaining"] == 0 for r in rows):
        return "size"
    ids = [(r["high"], r["low"]) for r in rows]
    if len(set(ids)) < len(ids):
        return "id-twice"
    return "crossed" if crossed(rows) else "ok"


def judge(rows, max_levels):
    say("broken", "yes" if broken(rows, max_levels) else "no", "audit", audit(rows))


def find(rows, i):
    places = [k for k, r in enumerate(rows) if r["low"] == i]
    say("find", places[0] if places else "none")


def tops(rows):
    say("best", best(rows, "buy"), best(rows, "sell"), "levels", len(levels(rows)), len(levels(side(rows, "buy"))), len(levels(side(rows, "sell"))))


def meets(rows, s, price):
    other = best(rows, "sell" if s == "buy" else "buy")
    cross = other != "none" and (price >= other if s == "buy" else price <= other)
    say("level", "yes" if (s == "buy", price) in levels(rows) else "no", "crosses", "yes" if cross else "no")


def numbers(rows, s, price):
    here = [r for r in side(rows, s) if r["price"] == price]
    return price, sum(r["remaining"] for r in here), sum(r["remaining"] for r in here if r["kind"] in (0, 1)), len(here)


def show(ws):
    say("words", *ws)


def walk(rows, s):
    ps = sorted({r["price"] for r in side(rows, s)}, reverse=s == "buy")
    return [w for p in ps for w in numbers(rows, s, p)[:3]], len(ps)


def padded(rows, before, size):
    """Words once rows have replaced `before`: former rows zeroed, the rest untouched."""
    ws = words(rows)
    return ws + [0] * (8 * len(before[1]) - len(ws)) + before[0][max(8 * len(before[1]), len(ws)):size]


def sample():
    return [row(1, 10, 2, 0, 100), row(2, 12, 3, 1, 100), row(3, 10, 5, 2, 101), row(4, 13, 7, 3, 102)]


# 0 rows
find([], 1), tops([]), meets([], "buy", 10), judge([], 0)
# 1 row, removed again
one = [row(1, 10, 2, 0, 100)]
find(one, 1), find(one, 2), tops(one), judge(one, 1), judge(one, 0)
show([0] * 8 + [9] * 8), tops([])
# 4 rows
four = sample()
show(words(four) + [9] * 8)
for i in (1, 3, 4, 5):
    find(four, i)
tops(four), judge(four, 3)
for s, p in (("buy", 12), ("buy", 11), ("sell", 10), ("sell", 12)):
    meets(four, s, p)
for s, p in (("buy", 10), ("sell", 12), ("sell", 10)):
    say("at", *numbers(four, s, p))
# walks: out and marks are lent with other words in them
five = sample() + [row(5, 12, 4, 3, 103)]
memory = [8] * 12
for s in ("buy", "sell"):
    ws, count = walk(five, s)
    memory = ws + memory[len(ws):]
    out.append(f" {count}")
    show(memory)
    if s == "buy":
        show([0] * 6)
# changes
rows = sample()
rows[2].update(remaining=4, flag=1, at=103)
rows[0].update(remaining=1)
memory = words(rows) + [9] * 8
show(memory)
for i in (1, 0, 1):
    less = rows[:i] + rows[i + 1:]
    memory = padded(less, (memory, rows), 40)
    rows = less
    show(memory)
judge(rows, 3)
# damages
for at, word in ((39, 1), (4, 4), (2, 0), (2, LIMIT + 1), (10, LIMIT), (3, 0), (3, LIMIT + 1), (3, LIMIT), (6, 2), (7, 5), (6, 1), (9, 1), (2, 9), (10, 10), (10, 11)):
    ws = words(sample()) + [0] * 8
    ws[at] = word
    judge(rows_of(ws)[:4], 3)
judge(sample(), 2)
say("broken yes audit not-lent")
say("broken yes audit not-lent")
# 4,096 rows
full = [row(i, 1 + i * 7 % 600, 1 + i % 5, 2, i) if i % 2 == 0 else row(i, 10000 + i * 11 % 700, 1 + i % 3, 1, i) for i in range(4096)]
out.append(" 4096")
for i in (0, 4095, 4096):
    find(full, i)
tops(full), judge(full, 4096), judge(full, 100)
say("at", *numbers(full, "buy", 8))
ws, count = walk(full, "buy")
out.append(f" {count}")
show(ws[:6]), show([0, 0, 0])
out.append(" 4096")  # no room for one more
less = full[1:]
find(less, 4095)
judge(less + [row(4095, 500, 1, 2, 5000)], 4096)
sys.stdout.write("".join(out))
