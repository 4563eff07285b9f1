#!/usr/bin/env python3
"""Writes the input of the test program `cases` and what it has to write, the latter by oracle.py. Run it in this folder."""
import random
import re
from math import prod

from oracle import (bytes_of, fields, printout, read, Refused, scored_ways, show_filter, show_read, show_score, show_search, show_sweep, word, words_of)

A = [0x11002000, 0x20000000, 0x30400802, 0x20800000, 0x30C0300A, 0x40C00800, 0x40801000, 0x40400803, 0x40002003]
B = [0x10801000, 0x20000000, 0x3040380A, 0x40400800, 0x40001000]

lines, answers, cases = [], [], []


def note(text):
    assert ":" not in text
    lines.append("# " + text)
    answers.append("# " + text)


def text_of(data, *parts):
    return " | ".join([" ".join(data[i:i + 4].hex() for i in range(0, len(data), 4)), *parts])


def marks_of(plan):
    return "".join("%x" % m for m in plan)


def case(label, service, text, answer):
    lines.append(f"{label}: {service} {text}".rstrip())
    answers.append(f"{label}:{answer}")
    cases.append((label, service, text, answer))


def file_of(data):
    return data if isinstance(data, bytes) else bytes_of(data)


def reads(label, data):
    data = file_of(data)
    case(label, "r", text_of(data), show_read(data))


def scores(label, data, plan):
    data = file_of(data)
    case(label, "s", text_of(data, marks_of(plan)), show_score(data, plan))


def sweeps(label, data, plan, size=None):
    data = file_of(data)
    size = len(plan) if size is None else size
    case(label, "w", text_of(data, marks_of(plan), str(size)), show_sweep(data, plan, size))


def ways_of(data, plan):
    """The completions with their scores, once for many requests; none where the request is refused."""
    try:
        return scored_ways(read(data), plan)
    except (Refused, IndexError):
        return None


def filters(label, data, plan, percents, size=None):
    data = file_of(data)
    size = len(plan) if size is None else size
    ways = ways_of(data, plan)
    for percent in percents:
        case(f"{label}, {percent}", "f", text_of(data, marks_of(plan), f"{size}, {percent}"), show_filter(data, plan, percent, size, ways))


def searches(label, data, plan, jobs, size=None, ways=None):
    data = file_of(data)
    size = len(plan) if size is None else size
    ways = ways or ways_of(data, plan)
    for kits, percent in jobs:
        case(f"{label}, kits {kits}, {percent}", "p", text_of(data, marks_of(plan), f"{size}, {percent}, {kits}"),
             show_search(data, plan, kits, percent, size, ways))


def runs(label, data, ways=None):
    """A job of the program: all bytes of its standard input. What it prints stands on lines of its own."""
    data = file_of(data)
    case(label, "j", text_of(data), "\n" + printout(data, ways))


def choice(p):
    return word(2, p, 0, 0)


def chance(p, a, b):
    return word(3, p, a, b)


def record(p, hi, lo):
    return word(4, p, hi, lo)


def table(variables, records):
    return [word(1, len(variables), len(records), 0)] + variables + records


def put(words, i, w):
    return words[:i] + [w] + words[i + 1:]


note("Tables A and B of document 01")
reads("A", A)
reads("B", B)
reads("B with last word 40000002", put(B, 4, 0x40000002))

note("A cut at every length")
for n in range(0, 37):
    reads(f"A, {n} bytes", bytes_of(A)[:n])
reads("A and a byte", bytes_of(A) + b"\0")

note("Limits")
last = [record(0, 1, 0)]
for n in (16, 17, 18):
    reads(f"{n} chances of b 10", table([chance(i, 3, 10) for i in range(n)], last))
for b in (1, 1000, 1001, 2047):
    reads(f"b {b}", table([chance(0, 1, b)], last))
reads("b 0", table([chance(0, 0, 0)], last))
reads("a equal to b", table([chance(0, 7, 7)], last))
reads("a above b", table([chance(0, 8, 7)], last))
reads("a 0", table([chance(0, 0, 7)], last))
for n in (56, 57):
    reads(f"{n} chances of b 2", table([chance(i, 1, 2) for i in range(n)], last))
for n in (5, 6):
    reads(f"{n} chances of b 1000", table([chance(i, 1, 1000) for i in range(n)], last))
for v in (60, 61):
    reads(f"V {v}", table([chance(i, 1, 1) for i in range(v)], last))
for n in (254, 255):
    reads(f"N {n}", table([chance(0, 1, 2)], [record(0, 1, 0)] * n))
reads("V 0", [word(1, 0, 1, 0), record(0, 1, 0)])
reads("N 0", [word(1, 1, 0, 0), chance(0, 1, 2)])
for n in (20, 21):
    reads(f"{n} choices", table([choice(i) for i in range(n)], last))
reads("the 21st choice after chances", table([choice(i) if i % 2 else chance(i, 1, 1) for i in range(45)], last))
wide = [choice(i) if i % 3 == 0 else chance(i, 1, 2) if i < 40 else chance(i, 1, 1) for i in range(60)]
deep = [record(59 - k // 5, 1 if k < 5 else k // 5 * 5 - 3 + k % 5, 0) for k in range(254)]
reads("60 variables and 254 records", table(wide, deep))
reads("60 variables, 254 records and a word", table(wide, deep) + [record(0, 1, 0)])

note("12 of a word of zeros and of 1,264 bytes of zeros, 11 where there are no whole words")
reads("one zero word", [0])
reads("1264 bytes", [0] * 316)
reads("5 bytes", bytes(5))

note("12, kind, V, N and R of the heading")
for w in (0x21002000, 0x01002000, 0xF1002000, 0x10002000, 0x1F402000, 0x11000000, 0x1107F800, 0x11002011, 0x110027FF):
    reads(f"heading {w:08x}", put(A, 0, w))

note("13, a word missing, a word too many")
reads("A less a word", A[:-1])
reads("A and a word", A + [A[-1]])
reads("heading alone", A[:1])

note("14, kind, position and fields of a variable word, at the first and at a later place")
for i in (1, 2, 3, 4):
    kind, p, q, r = fields(A[i])
    for k in (0, 1, 4, 5, 15):
        reads(f"word {i} of kind {k}", put(A, i, word(k, p, q, r)))
    reads(f"word {i} with the position before", put(A, i, word(kind, (p - 1) % 64, q, r)))
    reads(f"word {i} with the position after", put(A, i, word(kind, p + 1, q, r)))
    for q, r in ((1, 0), (0, 1), (5, 4), (0, 0), (0, 1001), (1001, 1001), (1000, 1000)):
        reads(f"word {i} with Q {q} and R {r}", put(A, i, word(kind, p, q, r)))

note("17, kind, position and children of a record, at the first and at a later place")
for i in (5, 6, 7, 8):
    kind, p, hi, lo = fields(A[i])
    own = i - 5 + 2
    for k in (0, 3, 5):
        reads(f"word {i} of kind {k}", put(A, i, word(k, p, hi, lo)))
    for q in (0, 1, 2, 3, 4, 63):
        reads(f"word {i} at position {q}", put(A, i, word(4, q, hi, lo)))
    for child in (0, 1, own - 1, own, own + 1, 255, 256, 257, 2047):
        reads(f"word {i} with hi {child}", put(A, i, word(4, p, child, lo)))
        reads(f"word {i} with lo {child}", put(A, i, word(4, p, hi, child)))
same = [choice(0), chance(1, 1, 2)]
reads("hi at the same position", table(same, [record(1, 1, 0), record(1, 2, 0)]))
reads("lo at the same position", table(same, [record(1, 1, 0), record(1, 1, 2)]))
reads("hi at a smaller position", table(same, [record(0, 1, 0), record(1, 2, 0)]))
reads("lo at a smaller position", table(same, [record(0, 1, 0), record(1, 1, 2)]))

note("18, by truth and never by shares, on unreachable records too")
two = [choice(0), choice(1), chance(2, 1, 2)]
reads("first record", table(two, [record(0, 0, 1), record(0, 1, 0)]))
reads("a later record", table(two, [record(2, 1, 0), record(1, 1, 2), record(0, 2, 1)]))
reads("an unreachable record", table(two, [record(1, 0, 1), record(0, 1, 0)]))
reads("a record above a faulty one", table(two, [record(1, 0, 1), record(0, 1, 2)]))
reads("hi equal to lo", table(two, [record(2, 1, 0), record(0, 2, 2)]))
reads("equal records", table(two, [record(2, 1, 0), record(2, 1, 0), record(0, 2, 3)]))
reads("equal records the other way", table(two, [record(2, 1, 0), record(2, 1, 0), record(0, 3, 2)]))
never = [choice(0), chance(1, 0, 2), chance(2, 1, 2)]
reads("scores rise, truth does not", table(never, [record(2, 1, 0), record(1, 1, 0), record(0, 2, 3)]))
always = [choice(0), chance(1, 2, 2)]
reads("certain event", table(always, [record(1, 1, 0), record(0, 2, 1)]))
reads("lo implies hi by cases", table([choice(0), chance(1, 1, 2), chance(2, 1, 2)],
      [record(2, 1, 0), record(1, 2, 0), record(1, 1, 2), record(0, 4, 3)]))
reads("hi implies lo by cases", table([choice(0), chance(1, 1, 2), chance(2, 1, 2)],
      [record(2, 1, 0), record(1, 2, 0), record(1, 1, 2), record(0, 3, 4)]))
reads("a chance record may fall", table([chance(0, 1, 2)], [record(0, 0, 1)]))

note("Two faults, the first check in order decides, wherever the second stands")
reads("11 and 12", bytes_of([0x21002000])[:3])
reads("12 and 13", put(A, 0, 0x11002011)[:-1])
reads("13 and 14", put(A, 1, 0)[:-1])
many = [choice(i) for i in range(21)] + [chance(i, 1, 1000) for i in range(21, 30)]
reads("14 after 15 and 16", table(many + [word(3, 30, 1, 0)], last))
reads("15 after 16", table([chance(i, 1, 1000) for i in range(9)] + [choice(i) for i in range(9, 30)], last))
reads("15 before 16", table(many, last))
reads("16 and 17", table([chance(i, 1, 1000) for i in range(9)], [record(0, 1, 2)]))
reads("17 after 18", table(two, [record(0, 0, 1), record(0, 1, 3)]))
reads("17 and 18 at one record", table(two, [record(2, 1, 0), record(0, 0, 5)]))
reads("14 twice", put(put(A, 3, 0), 4, 0))
reads("17 twice", put(put(A, 6, 0), 8, 0))
reads("18 twice", table(two, [record(1, 0, 1), record(0, 0, 1)]))

rng = random.Random(7)


def made(v, n):
    """A table whose records are in order; about half are monotone."""
    variables = [choice(i) if rng.random() < 0.5 else chance(i, rng.randint(0, 4), 4) for i in range(v)]
    records, at = [], []
    for k in range(n):
        p = rng.randrange(v)
        below = [0, 1] + [j + 2 for j in range(k) if at[j] > p]
        hi, lo = rng.choice(below), rng.choice(below)
        if variables[p] >> 28 == 2 and rng.random() < 0.7:
            lo = min(lo, hi) if hi < 2 or lo < 2 else lo
            if lo == 1:
                hi = 1
        records.append(record(p, hi, lo))
        at.append(p)
    return table(variables, records)


note("Made tables, right in form")
for i in range(150):
    reads(f"made {i}", made(rng.randint(1, 7), rng.randint(1, 12)))

note("Made tables with one word changed")
for i in range(150):
    t = made(rng.randint(1, 5), rng.randint(1, 8))
    j = rng.randrange(len(t))
    reads(f"damaged {i}", put(t, j, t[j] ^ 1 << rng.randrange(32)))

note("Scores of tables A and B")
for i in (1, 2):
    for j in (1, 2):
        scores(f"A {i} {j}", A, [i, j])
scores("B taken", B, [1])
scores("B left", B, [2])

note("Scores with variables that a walk skips, shared and equal nodes, certain events")
chances = [chance(0, 2, 7), choice(1), chance(2, 1, 3), chance(3, 4, 5), choice(4), chance(5, 3, 8)]
skip = {
    "at the root": [record(4, 1, 0)],
    "at an arc": [record(5, 1, 0), record(1, 2, 0)],
    "before an end": [record(0, 1, 0), record(0, 0, 1)],
    "everywhere": [record(5, 1, 0), record(3, 2, 0), record(1, 3, 0), record(0, 4, 2)],
}
for label, records in skip.items():
    for i in (1, 2):
        for j in (1, 2):
            scores(f"skipped {label} {i} {j}", table(chances, records), [i, j])
shared = [record(5, 1, 0), record(4, 1, 2), record(3, 2, 3), record(2, 2, 3), record(1, 3, 5), record(0, 6, 4)]
equal = [record(5, 1, 0), record(5, 1, 0), record(4, 1, 2), record(2, 4, 3), record(2, 4, 2), record(1, 5, 6), record(0, 7, 7)]
unreachable = [record(5, 1, 0), record(3, 1, 0), record(2, 0, 1), record(1, 2, 0)]
for label, records in (("shared nodes", shared), ("equal records", equal), ("unreachable records", unreachable)):
    for i in (1, 2):
        for j in (1, 2):
            scores(f"{label} {i} {j}", table(chances, records), [i, j])
for a in (0, 3, 5):
    scores(f"a {a} of 5", table([chance(0, a, 5), choice(1)], [record(1, 1, 0), record(0, 2, 0)]), [1])

note("No chance at all, no choice at all, B of 2^56")
for i in (1, 2):
    scores(f"no chance {i}", table([choice(0)], [record(0, 1, 0)]), [i])
scores("no choice", table([chance(0, 3, 10)], [record(0, 1, 0)]), [])
scores("no choice, from false", table([chance(0, 3, 10)], [record(0, 0, 1)]), [])
big = [choice(0)] + [chance(i, 255, 256) for i in range(1, 8)]
for i in (1, 2):
    scores(f"2^56, a certain line {i}", table(big, [record(0, 1, 0)]), [i])
    scores(f"2^56, a chain {i}", table(big, [record(7, 1, 0)] + [record(7 - k, k + 1, 0) for k in range(1, 7)] + [record(0, 8, 0)]), [i])

note("Refusals of the score, after those of the file")
for label, data in (
    ("11", bytes_of(A)[:35]), ("12", put(A, 0, 0x11002011)), ("13", A[:-1]), ("14", put(A, 1, 0)), ("14 later", put(A, 4, 0)),
    ("15", table([choice(i) for i in range(21)], last)), ("16", table([chance(i, 1, 1000) for i in range(6)], last)),
    ("17", put(A, 5, 0)), ("17 later", put(A, 8, 0)), ("18", table(two, [record(0, 0, 1), record(0, 1, 0)])),
    ("18 later", table(two, [record(1, 1, 0), record(0, 0, 1)])),
):
    scores(f"file refused with {label}", data, [1, 2])
scores("file refused before the plan", put(A, 8, 0), [0])
scores("not monotone and no plan", put(B, 4, 0x40000002), [])
scores("plan too short", A, [1])
scores("plan empty", A, [])
scores("plan too long", A, [1, 1, 1])
scores("plan too long and open", A, [0, 1, 1])
for plan in ([0, 1], [1, 0], [3, 1], [1, 3], [0, 3], [3, 0], [1, 15], [15, 0]):
    scores(f"plan {plan[0]} {plan[1]}", A, plan)
scores("a plan where none is wanted", table([chance(0, 3, 10)], last), [1])

note("Scores of made tables")
for i in range(120):
    t = made(rng.randint(1, 9), rng.randint(1, 14))
    n = sum(1 for w in t[1:1 + fields(t[0])[1]] if w >> 28 == 2)
    scores(f"made {i}", t, [rng.choice((1, 2)) for _ in range(n)])

note("Sweep and filter of table A, all nine markings, and every percentage")
for i in (0, 1, 2):
    for j in (0, 1, 2):
        sweeps(f"sweep A {i} {j}", A, [i, j])
        filters(f"filter A {i} {j}", A, [i, j], range(101))
for i in (0, 1, 2):
    sweeps(f"sweep B {i}", B, [i])
    filters(f"filter B {i}", B, [i], (0, 69, 70, 71, 100))

note("Sweep and filter with skipped variables, shared, equal and unreachable nodes, certain events")
some = (0, 1, 10, 25, 33, 50, 51, 66, 75, 90, 99, 100)
shapes = {**{f"skipped {k}": v for k, v in skip.items()}, "shared nodes": shared, "equal records": equal, "unreachable records": unreachable}
for label, records in shapes.items():
    for i in (0, 1, 2):
        for j in (0, 1, 2):
            sweeps(f"sweep, {label}, {i} {j}", table(chances, records), [i, j])
            filters(f"filter, {label}, {i} {j}", table(chances, records), [i, j], some)
for a in (0, 3, 5):
    t = table([chance(0, a, 5), choice(1)], [record(1, 1, 0), record(0, 2, 0)])
    sweeps(f"sweep, a {a} of 5", t, [0])
    filters(f"filter, a {a} of 5", t, [0], (0, 1, 59, 60, 61, 99, 100))
sweeps("sweep, no chance", table([choice(0)], last), [0])
filters("filter, no chance", table([choice(0)], last), [0], (0, 99, 100))
for label, records in (("true", last), ("false", [record(0, 0, 0)])):
    t = table([chance(0, 3, 10)], records)
    sweeps(f"sweep, no choice, {label}", t, [])
    filters(f"filter, no choice, {label}", t, [], (0, 29, 30, 31, 100))
chain = table(big, [record(7, 1, 0)] + [record(7 - k, k + 1, 0) for k in range(1, 7)] + [record(0, 8, 0)])
for i in (0, 1, 2):
    sweeps(f"sweep, 2^56, {i}", chain, [i])
    filters(f"filter, 2^56, {i}", chain, [i], (0, 97, 98, 100))

note("Refusals of sweep and filter, after those of the file, with the buffer as it was")
bad = (
    ("11", bytes_of(A)[:35]), ("12", put(A, 0, 0x11002011)), ("13", A[:-1]), ("14", put(A, 1, 0)),
    ("15", table([choice(i) for i in range(21)], last)), ("16", table([chance(i, 1, 1000) for i in range(6)], last)),
    ("17", put(A, 5, 0)), ("18", table(two, [record(0, 0, 1), record(0, 1, 0)])), ("18 later", table(two, [record(1, 1, 0), record(0, 0, 1)])),
)
for label, data in bad:
    sweeps(f"sweep, {label}", data, [0, 3], 1)
    filters(f"filter, {label}", data, [0, 3], (101,), 1)
for plan, size in (([], 2), ([0], 2), ([0, 0, 0], 2), ([0, 3, 0], 1), ([3, 0], 2), ([0, 3], 2), ([15, 9], 2), ([3, 3], 1), ([0, 0], 0), ([0, 0], 1), ([0, 0], 3),
                   ([1, 2], 24)):
    sweeps(f"sweep, plan {marks_of(plan)} and {size} places", A, plan, size)
    filters(f"filter, plan {marks_of(plan)} and {size} places", A, plan, (50, 80, 101), size)
filters("filter, percent", A, [0, 0], (99, 100, 101, 128, 256, 2047, 65536, 999999))
sweeps("sweep, a place too many", table([chance(0, 3, 10)], last), [], 1)
filters("filter, a place too many", table([chance(0, 3, 10)], last), [], (0,), 1)


def sweep_and_filter(label, t):
    n = sum(1 for w in t[1:1 + fields(t[0])[1]] if w >> 28 == 2)
    plan = [rng.choice((0, 0, 0, 1, 2)) for _ in range(n)]
    sweeps(f"sweep, {label}", t, plan)
    filters(f"filter, {label}", t, plan, (0, 20, 40, 60, 80, 100))


note("Sweep and filter of made tables")
for i in range(150):
    sweep_and_filter(f"made {i}", made(rng.randint(1, 9), rng.randint(1, 16)))


def layered(v, n):
    """A table in which every arc leads to a nearby node, so that nodes are shared; a choice's lo is an end or its own hi's lo."""
    variables = [choice(i) if rng.random() < 0.4 else chance(i, rng.randint(1, 4), 5) for i in range(v)]
    records = []
    for p in sorted((rng.randrange(v) for _ in range(n)), reverse=True):
        below = [k + 2 for k, r in enumerate(records) if fields(r)[1] > p] or [0, 1]
        hi, lo = rng.choice(below[-4:]), rng.choice(below[-4:])
        if variables[p] >> 28 == 2:
            lo = 0 if hi < 2 or rng.random() < 0.4 else fields(records[hi - 2])[3]
        records.append(record(p, hi, lo))
    return table(variables, records)


note("Sweep and filter of made tables with many shared nodes")
for i in range(150):
    sweep_and_filter(f"shared {i}", layered(rng.randint(3, 10), rng.randint(4, 24)))

note("Search of table A, all kits and percentages, from the fully open plan, and from every other marking")
searches("search A", A, [0, 0], [(kits, percent) for kits in range(21) for percent in range(101)])
for i in (0, 1, 2):
    for j in (0, 1, 2):
        searches(f"search A {i} {j}", A, [i, j], [(kits, percent) for kits in (0, 1, 2, 20) for percent in (0, 49, 50, 51, 59, 60, 61, 79, 80, 81, 100)])
for i in (0, 1, 2):
    searches(f"search B {i}", B, [i], [(kits, percent) for kits in (0, 1, 20) for percent in (0, 69, 70, 71, 100)])

note("Ties in score, in cost and in both")
lines3 = [choice(0), choice(1), choice(2), chance(3, 1, 2)]
any_line = table(lines3, [record(3, 1, 0), record(2, 2, 0), record(1, 2, 3), record(0, 2, 4)])
two_lines = table(lines3, [record(3, 1, 0), record(2, 2, 0), record(1, 2, 3), record(1, 3, 0), record(0, 4, 5)])
idle = table(lines3, [record(3, 1, 0)])
last_line = table(lines3, [record(3, 1, 0), record(2, 2, 0)])
jobs = [(kits, percent) for kits in (0, 1, 2, 3) for percent in (0, 49, 50, 51, 100)]
for label, t in (("any line", any_line), ("two lines of three", two_lines), ("no line matters", idle), ("the last line alone", last_line)):
    for plan in ([0, 0, 0], [0, 0, 1], [1, 0, 0], [0, 2, 0], [2, 0, 0], [0, 1, 2], [1, 1, 1], [2, 2, 2], [1, 1, 0], [0, 1, 1]):
        searches(f"ties, {label}, {marks_of(plan)}", t, plan, jobs)

note("Search with no choices, and with twenty")
for label, records in (("true", last), ("false", [record(0, 0, 0)])):
    searches(f"search, no choice, {label}", table([chance(0, 3, 10)], records), [], [(kits, percent) for kits in (0, 20) for percent in (0, 29, 30, 31, 100)])
twenty = table([choice(i) for i in range(20)] + [chance(20, 1, 2)],
               [record(20, 1, 0)] + [record(19 - k, k + 2, 0) for k in range(20)])
pairs = table([choice(i) for i in range(20)],
              [record(19 - k, 1, 0) if k % 2 == 0 else record(19 - k, k + 1, 0 if k == 1 else k) for k in range(20)])
searches("search, twenty in a row", twenty, [0] * 20, [(20, 0), (20, 49), (20, 50), (20, 51), (19, 1), (2, 0), (0, 0)])
searches("search, twenty, some settled", twenty, [0, 1, 0, 0, 1] * 4, [(20, 0), (20, 50), (20, 51), (19, 0), (19, 1)])
searches("search, ten pairs", pairs, [0] * 20, [(20, 0), (20, 99), (20, 100), (2, 0), (2, 100), (1, 0), (1, 1)])
searches("search, ten pairs, some settled", pairs, [0, 1, 2, 0, 0] * 4, [(20, 0), (5, 0), (4, 0), (4, 1), (3, 0)])


def every_way(label, t, plan, percents):
    """The filter, the search with no kits and with as many as there are lines, and the program, at the same percentages."""
    filters(f"at least, filter, {label}", t, plan, percents)
    searches(f"at least, search, {label}", t, plan, [(kits, percent) for percent in percents for kits in sorted({0, len(plan)})])
    for percent in percents:
        runs(f"at least, {label}, {percent}", [word(5, len(plan), 0, percent)] + t)


note("100 percent of certain events, by filter, search and program")
line_and = [choice(0), chance(1, 7, 7), chance(2, 1, 1)]
every_way("a certain link", table(line_and, [record(2, 1, 0), record(1, 2, 0), record(0, 3, 0)]), [0], (0, 99, 100))
every_way("a certain link without lines", table([chance(0, 1000, 1000)], last), [], (0, 99, 100))
every_way("all but certain", table([chance(0, 999, 1000)], last), [], (99, 100))
sure = [choice(0)] + [chance(1 + i, 128, 128) for i in range(8)]
every_way("certain, 2^56", table(sure, [record(8 - k, k + 1, 0) for k in range(9)]), [0], (0, 99, 100))
note("0 percent, which every score passes, also where the top is 0")
every_way("never", table([choice(0), chance(1, 0, 5)], [record(1, 1, 0), record(0, 2, 0)]), [0], (0, 1, 100))
every_way("false", table([choice(0)], [record(0, 0, 0)]), [0], (0, 1))
every_way("false without lines", table([chance(0, 3, 10)], [record(0, 0, 0)]), [], (0, 1))
note("A score that is the percentage exactly, and shares that no percentage is")
for a in range(0, 101, 4):
    hundredths = table([choice(0), chance(1, a, 100)], [record(1, 1, 0), record(0, 2, 0)])
    every_way(f"{a} of 100", hundredths, [0], [percent for percent in (a - 1, a, a + 1) if 0 <= percent <= 100])
for a, b in ((1, 3), (2, 3), (1, 7), (6, 7), (1, 1000), (333, 1000), (999, 1000)):
    every_way(f"{a} of {b}", table([choice(0), chance(1, a, b)], [record(1, 1, 0), record(0, 2, 0)]), [0], (100 * a // b, 100 * a // b + 1))
half = put(sure, 1, chance(1, 64, 128))
every_way("half, 2^56", table(half, [record(1, 1, 0), record(0, 2, 0)]), [0], (49, 50, 51))

note("Refusals of the search, after those of the file, with the buffer as it was")
for label, data in bad:
    searches(f"search, {label}", data, [0, 3], [(21, 101)], 1)
for plan, size in (([], 2), ([0], 2), ([0, 0, 0], 2), ([0, 3, 0], 1), ([3, 0], 2), ([0, 3], 2), ([15, 9], 2), ([3, 3], 1), ([0, 0], 0), ([0, 0], 1), ([0, 0], 3),
                   ([1, 2], 24)):
    searches(f"search, plan {marks_of(plan)} and {size} places", A, plan, [(1, 50), (0, 80), (21, 101), (21, 100), (20, 101)], size)
searches("search, limits", A, [0, 0], [(20, 100), (20, 101), (21, 100), (21, 101), (20, 2047), (64, 0), (255, 50), (256, 50), (65536, 256), (999999, 999999)])
searches("search, a place too many", table([chance(0, 3, 10)], last), [], [(0, 0)], 1)


def search_some(label, t):
    n = sum(1 for w in t[1:1 + fields(t[0])[1]] if w >> 28 == 2)
    plan = [rng.choice((0, 0, 0, 0, 1, 2)) for _ in range(n)]
    searches(f"search, {label}", t, plan, [(kits, percent) for kits in (0, 1, 2, 20) for percent in (0, 40, 80)])


note("Search of made tables")
for i in range(100):
    search_some(f"made {i}", made(rng.randint(1, 9), rng.randint(1, 16)))
for i in range(100):
    search_some(f"shared {i}", layered(rng.randint(3, 10), rng.randint(4, 24)))

note("Jobs of the program, first the printed one")
job = [0x50400032]
runs("job A", job + A)
for n in range(0, 44):
    runs(f"job A, {n} bytes", bytes_of(job + A)[:n])
for w in (0x40400032, 0x60400032, 0x00400032, 0x50400832, 0x507FF832, 0x50600032):
    runs(f"job word {w:08x}", [w] + A)
    runs(f"job word {w:08x} and no table", [w])
note("10 before the table, the table before 23, 23 before 24, 24 before 32")
runs("10 and 11", bytes_of([0x40400032]) + b"\0")
runs("11 and 23 and 24", bytes_of([0x5FC007FF]) + b"\0")
for label, data in bad:
    runs(f"{label} and 23 and 24", bytes_of([0x5FC007FF]) + file_of(data))
for kits in (0, 1, 2, 20, 21, 63):
    for percent in (0, 50, 51, 60, 61, 79, 80, 81, 100, 101, 2047):
        runs(f"kits {kits}, percent {percent}", [word(5, kits, 0, percent)] + A)
        runs(f"kits {kits}, percent {percent}, B", [word(5, kits, 0, percent)] + B)
note("Inputs of 1,260 bytes and more without root words")
large = table([choice(i) if i % 6 == 0 else chance(i, 1, 1) for i in range(60)], deep)
runs("1264 bytes, 60 variables and 254 records", job + large)
runs("1265 bytes", bytes_of(job + large) + b"\0")
runs("1266 bytes", bytes_of(job + large) + b"\0\0")
runs("1268 bytes", job + large + [0])
runs("1300 bytes, no job word", bytes(1300))
runs("1260 bytes, a record missing", (job + large)[:-1])
note("No choices, twenty choices, the largest scale")
runs("no choice", [word(5, 0, 0, 30)] + table([chance(0, 3, 10)], last))
runs("no choice, 32", [word(5, 0, 0, 31)] + table([chance(0, 3, 10)], last))
runs("twenty in a row", [word(5, 20, 0, 0)] + twenty)
runs("ten pairs", [word(5, 2, 0, 0)] + pairs)
runs("2^56", [word(5, 20, 0, 97)] + chain)
for i in range(60):
    runs(f"job, made {i}", [word(5, rng.randint(0, 4), 0, rng.randint(0, 100))] + made(rng.randint(1, 9), rng.randint(1, 16)))
for i in range(60):
    runs(f"job, shared {i}", [word(5, rng.randint(0, 4), 0, rng.randint(0, 100))] + layered(rng.randint(3, 10), rng.randint(4, 24)))


def on_opened_tables(chosen):
    """The same requests by the upper-case letters, which open the file first; the answers are the same."""
    for label, service, text, answer in list(chosen):
        case(f"opened, {label}", service.upper(), text, answer)


def first_refusals(services):
    """Of each service and number of a refusal the first two cases."""
    found = {}
    for c in services:
        number = re.match(r" refused (\d+)", c[3])
        if number:
            found.setdefault((c[1], number[1]), []).append(c)
    return [c for of_one in found.values() for c in of_one[:2]]


def answered(services):
    return [c for c in services if not c[3].startswith(" refused")]


# Which of these requests are made of opened tables stays as it was before paper 2: those that are answered since then are not chosen, and two that
# were refused with 24 are.
answered_since = [f"word {i} with Q 0 and R 1" for i in (1, 3)] + [f"damaged {i}" for i in (41, 78, 107)]
answered_since += [f"search, limits, kits {kits}, {percent}" for kits, percent in ((64, 0), (255, 50), (256, 50))]
refused_before = [f"search, plan 00 and {size} places, kits 21, 100" for size in (0, 1)]

services = [c for c in cases if c[1] != "j"]
printed = [text_of(bytes_of(t)) for t in (A, B)]
of_both = [c for c in services if c[2].split(" | ")[0] in printed]
note("Requests of opened tables, of A and B")
on_opened_tables(c for c in of_both if c[1] in "rsw")
on_opened_tables([c for c in of_both if c[1] in "fp"][::7])
note("Requests of opened tables, of each service every refusal")
on_opened_tables(first_refusals(services))
on_opened_tables(c for c in services if c[0] in refused_before)
note("Requests of opened tables that are answered")
on_opened_tables([c for c in answered(services) if c[0] not in answered_since][::20])

note("A table that is hard for check 18 (hard_table.rs). Every record stands for the last event, so that all plans score the same and nothing is cut")
hard = bytes.fromhex(open("hard_table.hex").read())
shares = [fields(w)[2:] for w in words_of(hard)[1:61] if w >> 28 == 3]
assert all((hi, lo) == (1, 0) if k == 0 else hi > 1 and lo > 1 for k, (_, _, hi, lo) in enumerate(map(fields, words_of(hard)[61:])))
scale = prod(b for _, b in shares)
alike = scale // shares[-1][1] * shares[-1][0]


def uncut(own, kits):
    """The visits with open lines of these kits and such room where no branch is cut."""
    return 1 if own == [] or kits < 0 else 1 + uncut(own[1:], kits - own[0]) + uncut(own[1:], kits)


case("hard, read", "r", text_of(hard), f" table 60 254 20 {scale}")
for plan in ([1] * 20, [2] * 20, [1, 2] * 10):
    case(f"hard, score {marks_of(plan)}", "s", text_of(hard, marks_of(plan)), f" score {alike}")
for plan in ([0] * 20, [1, 0, 2, 0] * 5):
    numbers = "".join(f" {m}" for m in plan)
    case(f"hard, sweep {marks_of(plan)}", "w", text_of(hard, marks_of(plan), "20"), f" top {alike}, drops" + " 0" * 20)
    case(f"hard, filter {marks_of(plan)}, 42", "f", text_of(hard, marks_of(plan), "20, 42"), f" forced 0, plan{numbers}")
    case(f"hard, filter {marks_of(plan)}, 43", "f", text_of(hard, marks_of(plan), "20, 43"), " refused 31 0, plan" + " 7" * 20)
case("hard, search, kits 3", "p", text_of(hard, "0" * 20, "20, 42, 3"), f" score {alike} visits {uncut([1] * 20, 3)}, plan" + " 2" * 20)
case("hard, search, kits 20", "p", text_of(hard, "0" * 20, "20, 42, 20"), f" score {alike} visits {2 ** 21 - 1}, plan" + " 2" * 20)
case("hard, job", "j", text_of(bytes_of([word(5, 3, 0, 42)]) + hard),
     f"\nchoices 20 scale {scale}\nkits 0 score {alike} visits {uncut([1] * 20, 3)}\n" + "".join(f"{i} left\n" for i in range(20)))

before_kits = len(cases)
note("Long spans, which take several kits (paper 2). R of a choice word, 14 above 500, and Q, 14 above 0")


def with_kits(t, kits):
    """The table with these kits of its lines, by choice number."""
    kits = iter(kits)
    return [w & ~2047 | next(kits) - 1 if w >> 28 == 2 else w for w in t]


def job_of(kits, percent):
    """A job word; its P and Q are such that P plus 64 times Q is the kits."""
    return word(5, kits % 64, kits // 64, percent)


for i in (1, 3):
    p = fields(A[i])[1]
    for r in (2, 255, 256, 499, 500, 501, 502, 511, 512, 756, 1000, 1023, 1024, 1524, 2047):
        reads(f"word {i} with R {r}", put(A, i, word(2, p, 0, r)))
    for q in (1, 2, 64, 1024, 2047):
        for r in (0, 1, 500, 501):
            reads(f"word {i} with Q {q} and R {r}, kits", put(A, i, word(2, p, q, r)))
    wrong = put(A, i, word(2, p, 0, 501))
    scores(f"word {i} with R 501, score", wrong, [0, 1])
    sweeps(f"word {i} with R 501, sweep", wrong, [0, 0, 0])
    filters(f"word {i} with R 501, filter", wrong, [0, 3], (101,))
    searches(f"word {i} with R 501, search", wrong, [0, 0], [(10021, 101), (2, 50)], 1)
    runs(f"word {i} with R 501, job", [job_of(10021, 101)] + wrong)
reads("R 501 twice", put(put(A, 1, word(2, 0, 0, 501)), 3, word(2, 2, 0, 501)))
reads("R 500 and then R 501", put(put(A, 1, word(2, 0, 0, 500)), 3, word(2, 2, 0, 501)))
reads("b of 501 and of 1000", table([chance(0, 501, 501), chance(1, 500, 1000)], last))
reads("14 by R before 15", table([choice(i) for i in range(20)] + [word(2, 20, 0, 501)], last))
reads("15 with kits", with_kits(table([choice(i) for i in range(21)], last), [501] * 21))
reads("14 by R before 16 and 17", table([chance(i, 1, 1000) for i in range(9)] + [word(2, 9, 0, 501)], [0]))
reads("18 with kits", with_kits(put(B, 4, 0x40000002), [501]))

note("Reading, score, sweep and filter do not look at the kits")
rivers = {"1 and 501": with_kits(A, [1, 501]), "501 and 1": with_kits(A, [501, 1]), "3 and 2": with_kits(A, [3, 2])}
for label, t in rivers.items():
    reads(f"A, {label}", t)
    for i in (1, 2):
        for j in (1, 2):
            scores(f"A, {label}, {i} {j}", t, [i, j])
    for plan in ([0, 0], [0, 1], [2, 0]):
        sweeps(f"sweep A, {label}, {marks_of(plan)}", t, plan)
        filters(f"filter A, {label}, {marks_of(plan)}", t, plan, (0, 49, 50, 51, 59, 60, 61, 79, 80, 81, 100))

note("Table A with long spans, and kits beside every sum")
for label, t in rivers.items():
    own = [fields(t[i])[3] + 1 for i in (1, 3)]
    beside = sorted({max(0, x + y) for x in (0, own[0], own[1], sum(own)) for y in (-1, 0, 1)})
    searches(f"search A, {label}", t, [0, 0], [(kits, percent) for kits in beside for percent in (0, 50, 60, 80, 81)])
    for plan in ([0, 1], [0, 2], [1, 0], [2, 0], [1, 1], [2, 2]):
        searches(f"search A, {label}, {marks_of(plan)}", t, plan, [(kits, 0) for kits in beside])
    for kits in beside:
        runs(f"job A, {label}, kits {kits}", [job_of(kits, 50)] + t)

note("A river span of 501 kits")
river = with_kits(B, [501])
for i in (0, 1, 2):
    searches(f"river {i}", river, [i], [(kits, percent) for kits in (0, 1, 245, 499, 500, 501, 502, 10020) for percent in (0, 70, 71)])
for kits in (0, 1, 499, 500, 501, 502, 10020):
    for percent in (0, 70):
        runs(f"river, kits {kits}, percent {percent}", [job_of(kits, percent)] + river)

note("The same score, the cheaper plan with more lines, the same sums, and sums against choice numbers")


def network(n, ways, chance_too=True):
    """Some lines, and after them an event of a half: it holds, and all lines of one of the ways are taken."""
    records, nodes = [], {}

    def node(p, rest):
        if frozenset() in rest:
            return node_of_event() if chance_too else 1
        if not rest:
            return 0
        if (p, rest) not in nodes:
            hi, lo = node(p + 1, frozenset(way - {p} for way in rest)), node(p + 1, frozenset(way for way in rest if p not in way))
            records.append(record(p, hi, lo))
            nodes[p, rest] = len(records) + 1
        return nodes[p, rest]

    def node_of_event():
        if n not in nodes:
            records.append(record(n, 1, 0))
            nodes[n] = len(records) + 1
        return nodes[n]

    node(0, frozenset(map(frozenset, ways)))
    return table([choice(i) for i in range(n)] + [chance(n, 1, 2)] * chance_too, records)


one_or_two, two_or_one = network(3, [{0}, {1, 2}]), network(3, [{0, 1}, {2}])
ties = (
    ("one or two", one_or_two, ((5, 2, 2), (4, 2, 2), (3, 2, 2), (501, 250, 250), (501, 250, 251), (501, 251, 251), (501, 1, 1))),
    ("two or one", two_or_one, ((2, 2, 5), (2, 2, 4), (2, 2, 3), (250, 250, 501), (250, 251, 501), (251, 251, 501), (1, 1, 501))),
    ("any line", any_line, ((1, 2, 3), (3, 2, 1), (2, 1, 3), (2, 2, 1), (2, 1, 1), (1, 1, 2), (501, 501, 500), (500, 501, 501))),
    ("two lines of three", two_lines, ((1, 2, 3), (3, 2, 1), (2, 3, 1), (2, 2, 1), (1, 1, 2), (501, 500, 499), (499, 501, 500))),
    ("two pairs", network(4, [{0, 3}, {1, 2}]), ((1, 1, 1, 1), (2, 1, 2, 1), (1, 2, 2, 3), (1, 2, 1, 3), (500, 1, 501, 1), (501, 1, 500, 1))),
    ("three or two or one", network(6, [{0, 1, 2}, {3, 4}, {5}]), ((1, 1, 1, 1, 2, 3), (2, 1, 1, 1, 2, 3), (2, 1, 1, 1, 3, 3), (1, 1, 1, 1, 1, 3))),
)
for label, t, kits_of_lines in ties:
    for own in kits_of_lines:
        name = f"ties, {label}, {' '.join(map(str, own))}"
        near = sorted({x + y for x in (min(own), max(own), sum(own)) for y in (-1, 0)} | {min(own) + max(own)})
        searches(name, with_kits(t, own), [0] * len(own), [(kits, 0) for kits in near] + [(max(own), 50)])
        searches(f"{name}, one taken", with_kits(t, own), [0, 1] + [0] * (len(own) - 2), [(own[1] - 1, 0), (sum(own), 50)])
        runs(name, [job_of(sum(own), 50)] + with_kits(t, own))

note("Twenty lines, first of 501 kits, 10,020 in all, each of which is needed")
dear = with_kits(network(20, [set(range(20))], False), [501] * 20)
ways = ways_of(bytes_of(dear), [0] * 20)
searches("twenty of 501", dear, [0] * 20, [(kits, percent) for kits in (10020, 10019, 9519) for percent in (1, 100)], ways=ways)
for kits in (10020, 10019):
    runs(f"twenty of 501, kits {kits}", [job_of(kits, 100)] + dear, ways)
del ways
for taken in (16, 19, 20):
    plan = [1] * taken + [0] * (20 - taken)
    searches(f"twenty of 501, {taken} taken", dear, plan, [(kits, percent) for kits in (501 * taken - 1, 501 * taken, 10019, 10020) for percent in (0, 100)])
searches("twenty of 501, spread", dear, [0, 1, 1, 1, 2] * 4, [(kits, 0) for kits in (6011, 6012, 6512, 6513, 8015, 8016)])
own = [5, 501, 20, 30, 100, 1, 7, 8, 499, 2, 50, 51, 7, 8]
couples = with_kits(network(14, [{i, i + 1} for i in range(0, 14, 2)]), own)
searches("seven couples", couples, [0] * 14, [(kits, 50) for kits in (14, 15, 50)])
for plan in ([0, 0] * 3 + [2, 0] + [0, 0] * 2 + [0, 2], [0, 0, 2, 2] * 3 + [0, 0], [1, 2, 0, 0] * 3 + [0, 0], [2] * 8 + [0] * 6):
    taken = sum(k for k, m in zip(own, plan) if m == 1)
    searches(f"seven couples, {marks_of(plan)}", couples, plan, [(taken + kits, 50) for kits in (14, 15, 50, 101, 501, 505, 506)] + [(10020, 50)])

note("The hard table with kits")
hard_plan = [0, 1, 0, 2] * 5
for own, kits in (([501] * 20, 1503), (list(range(20, 0, -1)), 40)):
    t = with_kits(words_of(hard), own)
    case(f"hard, search, line 0 of {own[0]}, kits {kits}", "p", text_of(bytes_of(t), "0" * 20, f"20, 42, {kits}"),
         f" score {alike} visits {uncut(own, kits)}, plan" + " 2" * 20)
    kits += sum(k for k, m in zip(own, hard_plan) if m == 1)
    case(f"hard, search, line 0 of {own[0]}, five taken, kits {kits}", "p", text_of(bytes_of(t), marks_of(hard_plan), f"20, 42, {kits}"),
         f" score {alike} visits {uncut([k for k, m in zip(own, hard_plan) if m == 0], kits - sum(own[1::4]))}, plan" + " 2 1 2 2" * 5)

note("The lines that the plan takes already, which cost more than the kits, and as much")
several = with_kits(network(4, [{0, 1}, {2, 3}, {1, 3}]), [7, 2, 501, 3])
for plan in ([1, 0, 0, 0], [0, 0, 1, 0], [1, 0, 1, 0], [1, 2, 1, 0], [1, 1, 0, 2], [1, 1, 2, 2], [2, 0, 1, 1], [1, 1, 1, 1]):
    own = sum(k for k, m in zip((7, 2, 501, 3), plan) if m == 1)
    searches(f"already taken, {marks_of(plan)}", several, plan, [(own + more, percent) for more in (-1, 0, 1, 2, 3, 5) for percent in (0, 50)])

note("Kits up to 10,020, 24 above, of any size")
most = (10019, 10020, 10021, 10022, 10240, 16383, 16384, 16385, 32768, 65535, 65536, 65537, 65556, 75556, 131071, 131072, 16777216)
most += (2147483647, 2147483648, 4294967294, 4294967295)
for label, t in (("A", A), ("A, 3 and 2", rivers["3 and 2"])):
    searches(f"kits, {label}", t, [0, 0], [(kits, 50) for kits in most])
searches("kits and percent", A, [0, 0], [(kits, percent) for kits in (10020, 10021, 4294967295) for percent in (100, 101, 4294967295)])
searches("kits, no choice", table([chance(0, 3, 10)], last), [], [(kits, 0) for kits in (0, 1, 10020, 10021, 4294967295)])
for plan, size in (([0], 2), ([3, 0], 2), ([0, 0], 1), ([0, 0], 3)):
    searches(f"kits, plan {marks_of(plan)} and {size} places", A, plan, [(10020, 100), (10021, 100), (10021, 101), (65536, 0)], size)

note("Job words with Q, kits P plus 64 times Q")
job_fields = [(p, q) for p in (0, 1, 63) for q in (0, 1, 2, 31, 32, 63, 64, 156, 157, 256, 1024, 2047)]
job_fields += [(35, 156), (36, 156), (37, 156), (36, 157), (20, 1024), (36, 1180), (52, 7), (53, 7), (54, 7), (7, 53)]
for p, q in job_fields:
    for label, t in (("A", A), ("river", river)):
        runs(f"job word with P {p} and Q {q}, {label}", [word(5, p, q, 50)] + t)
for p, q in ((0, 1), (36, 156), (37, 156), (63, 2047)):
    runs(f"job word with P {p} and Q {q}, no table", [word(5, p, q, 50)])
    runs(f"job word with P {p} and Q {q}, kind 4", [word(4, p, q, 50)] + A)
    runs(f"job word with P {p} and Q {q}, percent 101", [word(5, p, q, 101)] + A)
    runs(f"job word with P {p} and Q {q}, no choice", [word(5, p, q, 30)] + table([chance(0, 3, 10)], last))
    runs(f"job word with P {p} and Q {q}, 18", [word(5, p, q, 30)] + put(B, 4, 0x40000002))


def kits_drawn(n):
    """Kits of lines: few, many, or some of both."""
    most = rng.choice((2, 3, 4, 12, 501))
    return [rng.randint(1, 501) if rng.random() < 0.1 else rng.randint(1, most) for _ in range(n)]


def budgets(own, how_many):
    """Kits beside what some of the lines cost, or any, with none and all."""
    near = [max(0, sum(k for k in own if rng.random() < 0.5) + rng.choice((-1, 0, 0, 1))) for _ in range(how_many - 1)]
    return near + [rng.choice((0, sum(own), 10020, rng.randint(0, 10020)))]


def right(make):
    """A made table that is accepted and has lines."""
    while True:
        t = make()
        n = sum(1 for w in t[1:1 + fields(t[0])[1]] if w >> 28 == 2)
        if n > 1 and not show_read(bytes_of(t)).startswith(" refused"):
            return t, n


def any_network():
    """A network of some lines, by ways of up to three lines each."""
    n = rng.randint(3, 6)
    return network(n, [rng.sample(range(n), rng.randint(1, 3)) for _ in range(rng.randint(2, 5))], rng.random() < 0.5)


makers = {
    "made": lambda: made(rng.randint(3, 8), rng.randint(4, 14)),
    "shared": lambda: layered(rng.randint(4, 9), rng.randint(6, 18)),
    "network": any_network,
}
note("Search of made tables with kits")
for label, make in makers.items():
    for i in range(30):
        t, n = right(make)
        own = kits_drawn(n)
        plan = [rng.choice((0, 0, 0, 0, 1, 2)) for _ in range(n)]
        searches(f"kits, {label} {i}", with_kits(t, own), plan, [(kits, rng.choice((0, 0, 25, 50, 80))) for kits in budgets(own, 4)])
note("Jobs with made tables with kits")
for label, make in makers.items():
    for i in range(40):
        t, n = right(make)
        own = kits_drawn(n)
        runs(f"job, kits, {label} {i}", [job_of(budgets(own, 1 + i % 2)[0], rng.choice((0, 0, 25, 50)))] + with_kits(t, own))
note("Sweep and filter of made tables with kits")
for label, make in makers.items():
    for i in range(3):
        t, n = right(make)
        sweep_and_filter(f"kits, {label} {i}", with_kits(t, kits_drawn(n)))

services = [c for c in cases[before_kits:] if c[1] != "j"]
note("Requests of opened tables with kits")
on_opened_tables(first_refusals(services))
on_opened_tables(answered(services)[::10])

before_roots = len(cases)
note("Several roots (paper 3). Two of them on table A, rewards 3 and 1, counted by hand")


def root(node, reward=1):
    return word(6, 0, reward, node)


def rooted(t, *roots):
    """A table without root words with these after its records."""
    return [t[0] + len(roots), *t[1:], *roots]


def every_service(label, t, plan, percents, kits):
    """The file read, the plan with its open lines taken and left scored, swept, filtered and searched, and the program's job. The answers."""
    start = len(cases)
    reads(label, t)
    assert " table " in answers[-1]
    for mark in (1, 2):
        scores(f"{label}, {marks_of(plan)} with {mark}", t, [m or mark for m in plan])
    sweeps(f"{label}, sweep {marks_of(plan)}", t, plan)
    filters(f"{label}, filter {marks_of(plan)}", t, plan, percents)
    searches(f"{label}, search {marks_of(plan)}", t, plan, [(k, percent) for k in kits for percent in percents])
    for k in kits:
        runs(f"{label}, job, kits {k}", [job_of(k, percents[0])] + t)
    return [c[3] for c in cases[start:]]


def choices_of(t):
    return sum(1 for w in t[1:1 + fields(t[0])[1]] if w >> 28 == 2)


# Table A: node 2 is event 3, node 3 is line 1 and event 3, node 4 is event 1 or node 3, node 5 is (line 0 and node 4) or (not line 0 and node 3).
# Event 1 holds 1 of 2 times, event 3 6 of 10 times. On the scale 20 a node's score, by the lines taken:
#     none    node 3: 0,  node 4: 1 * 10 = 10,             node 5: 0
#     line 0  node 3: 0,  node 4: 10,                      node 5: 10
#     line 1  node 3: 2 * 6 = 12,  node 4: 10 + 1 * 6 = 16,  node 5: 12
#     both    node 3: 12, node 4: 16,                      node 5: 16
# Rewards 3 for node 5 and 1 for node 3, on the scale 20 * 4 = 80: 0, 3 * 10 = 30, 3 * 12 + 12 = 48 and 3 * 16 + 12 = 60. Drops 60 - 48 = 12 and
# 60 - 30 = 30. At 50 percent, 40 of 80, line 1 is forced; 48 is 60 percent, 60 is 75 percent.
# Rewards 1 for node 5 and 3 for node 3: 0, 10, 12 + 36 = 48 and 16 + 36 = 52; drops 4 and 42.
# Rewards 3 for node 4 and 1 for node 5: 30, 30 + 10 = 40, 48 + 12 = 60 and 48 + 16 = 64; drops 4 and 24.
two_roots = {
    "3 for node 5 and 1 for node 3": (rooted(A, root(5, 3), root(3, 1)), (0, 30, 48, 60), (12, 30)),
    "1 for node 5 and 3 for node 3": (rooted(A, root(5, 1), root(3, 3)), (0, 10, 48, 52), (4, 42)),
    "3 for node 4 and 1 for node 5": (rooted(A, root(4, 3), root(5, 1)), (30, 40, 60, 64), (4, 24)),
}
percents = (0, 30, 37, 38, 50, 51, 60, 61, 75, 76, 80, 81, 100)
for label, (t, by_hand, drops) in two_roots.items():
    reads(label, t)
    assert answers[-1].endswith(" table 4 4 2 80")
    for plan, x in zip(([2, 2], [1, 2], [2, 1], [1, 1]), by_hand):
        scores(f"{label}, {marks_of(plan)}", t, plan)
        assert answers[-1].endswith(f" score {x}")
    for i in (0, 1, 2):
        for j in (0, 1, 2):
            sweeps(f"{label}, sweep {i} {j}", t, [i, j])
            assert i + j or answers[-1].endswith(f" top {by_hand[3]}, drops {drops[0]} {drops[1]}")
            filters(f"{label}, filter {i} {j}", t, [i, j], range(0, 101) if i + j == 0 else (0, 37, 38, 50, 60, 61, 75, 76, 100))
            searches(f"{label}, search {i} {j}", t, [i, j], [(kits, percent) for kits in (0, 1, 2) for percent in percents[::1 if i + j == 0 else 3]])
    for kits in (0, 1, 2):
        for percent in (0, 50, 60, 61, 75, 76, 101):
            runs(f"{label}, job, kits {kits}, {percent}", [job_of(kits, percent)] + t)
    runs(f"{label}, job, kits 10021", [job_of(10021, 100)] + t)

note("The last record with reward 1, as without root words. And every node of a table as the root, alone and beside the last record")
lines_of_two = table([choice(0), chance(1, 1, 3), choice(2), chance(3, 2, 5), choice(4), chance(5, 3, 4)],
                     [record(5, 1, 0), record(4, 2, 0), record(3, 1, 2), record(3, 2, 3), record(2, 4, 5), record(1, 6, 3), record(0, 6, 7)])
networks = {"A": A, "B": B, "lines of two": lines_of_two, "any line": any_line, "two lines of three": two_lines, "no line matters": idle,
            "chances, shared nodes": table(chances, shared), "chances, equal records": table(chances, equal),
            "chances, unreachable records": table(chances, unreachable)}
for label, t in networks.items():
    n, v = fields(t[0])[2], choices_of(t)
    without = every_service(f"{label}, without root words", t, [0] * v, (50, 0, 100), (1, v))
    assert without == every_service(f"{label}, the last record", rooted(t, root(n + 1)), [0] * v, (50, 0, 100), (1, v))
    for k in range(2, n + 2):
        given = rooted(t, root(k, 2))
        reads(f"{label}, node {k}", given)
        sweeps(f"{label}, node {k}", given, [0] * v)
        searches(f"{label}, node {k}", given, [0] * v, [(v, 0), (1, 40)])
        every_service(f"{label}, the last record and node {k}", rooted(t, root(n + 1, 2), root(k, 5)), [0] * v, (40, 70), (1, v))
    every_service(f"{label}, all nodes", rooted(t, *(root(k, k) for k in range(2, n + 2))), [0] * v, (40, 0, 70), (1, 2, v))

note("Roots after open lines, at them, before them and above all, with some lines settled")
places = {"after the lowest open line": [5], "after two lines": [3], "at the lowest line and after it": [8, 4, 2], "after all lines": [2],
          "above all": [8], "above all, twice, and after all": [8, 8, 2], "between lines": [6, 5, 4], "at each position": [2, 3, 4, 5, 6, 7, 8]}
for label, nodes in places.items():
    t = rooted(lines_of_two, *(root(k, 1 + k % 3) for k in nodes))
    for plan in ([0, 0, 0], [1, 0, 0], [2, 0, 0], [0, 1, 0], [0, 2, 0], [0, 0, 2], [0, 1, 2], [2, 2, 0], [1, 2, 1], [2, 2, 2]):
        sweeps(f"roots {label}, sweep {marks_of(plan)}", t, plan)
        assert " top " in answers[-1]
        filters(f"roots {label}, filter {marks_of(plan)}", t, plan, (0, 25, 40, 60, 75))
        searches(f"roots {label}, search {marks_of(plan)}", t, plan, [(kits, percent) for kits in (0, 1, 2, 3) for percent in (0, 40)])

note("A node named twice counts twice, as one word of the rewards together, and the words' order does not matter")
for alike_words in (
    {"twice": [root(5), root(5)], "twice, as one": [root(5, 2)]},
    {"3 and 61": [root(3, 3), root(3, 61)], "3 and 61, as one": [root(3, 64)]},
    {"twice, with another": [root(5, 2), root(3, 4), root(5, 7)], "twice, with another, as two": [root(5, 9), root(3, 4)],
     "twice, with another, in another order": [root(3, 4), root(5, 7), root(5, 2)], "twice, with another, falling": [root(5, 7), root(5, 2), root(3, 4)]},
    {"four in order": [root(2, 5), root(3, 1), root(4, 2), root(5, 3)], "four in another": [root(4, 2), root(5, 3), root(2, 5), root(3, 1)]},
):
    same = [every_service(label, rooted(A, *roots), [0, 0], (50, 0, 60, 75, 90, 100), (0, 1, 2)) for label, roots in alike_words.items()]
    assert all(x == same[0] for x in same)

note("16 root words, and 15")
for label, roots in (
    ("one node, reward 64", [root(5, 64)] * 16), ("one node, reward 1", [root(5)] * 16), ("one node in the middle, reward 64", [root(3, 64)] * 16),
    ("every node four times", [root(2 + i % 4, 1 + i) for i in range(16)]), ("rewards 64 and 1", [root(2 + i // 4, 64 if i % 2 else 1) for i in range(16)]),
    ("the last one another", [root(3, 5)] * 15 + [root(5, 64)]), ("falling rewards", [root(2 + i % 4, 64 - i) for i in range(15)]),
):
    every_service(f"{len(roots)} root words, {label}", rooted(A, *roots), [0, 0], (50, 0, 60, 80, 81), (0, 1, 2))
pairs_of_nodes = [record(7, 1, 0), record(7, 1, 1)]
for p in range(6, -1, -1):
    # of two nodes at each position the first implies the second
    x, y = len(pairs_of_nodes), len(pairs_of_nodes) + 1
    pairs_of_nodes += [record(p, y, x), record(p, y, y)] if p % 2 else [record(p, x, 0), record(p, y, x)]
rows = table([choice(i) if i % 2 else chance(i, 1 + i % 3, 4) for i in range(8)], pairs_of_nodes)
every_service("16 roots", rooted(rows, *(root(2 + i, 1 + i * 5 % 7) for i in range(16))), [0] * 4, (50, 0, 20, 80, 100), (0, 1, 2, 4))
every_service("16 roots, some settled", rooted(rows, *(root(17 - i, 64 - i) for i in range(16))), [1, 0, 2, 0], (50, 0, 20, 80, 100), (1, 2, 4))

note("12, R above 16. 13, a root word missing or too many")
for n in (17, 18, 31, 32, 33, 63, 64, 255):
    reads(f"{n} root words", rooted(A, *[root(5)] * n))
for r in (1, 2, 16, 17, 18, 32, 64, 272, 1024, 1040, 2047):
    reads(f"R {r}, no root words", [A[0] + r] + A[1:])
    scores(f"R {r}, no root words, score", [A[0] + r] + A[1:], [1, 2])
    sweeps(f"R {r}, no root words, sweep", [A[0] + r] + A[1:], [0, 3], 1)
    filters(f"R {r}, no root words, filter", [A[0] + r] + A[1:], [0, 3], (101,), 1)
    searches(f"R {r}, no root words, search", [A[0] + r] + A[1:], [0, 3], [(10021, 101)], 1)
    runs(f"R {r}, no root words, job", [job_of(10021, 101), A[0] + r] + A[1:])
for r in (0, 1, 2, 3, 15, 16):
    for n in {0, r - 1, r + 1, 16, 17} - {-1, r}:
        reads(f"R {r}, {n} root words", [A[0] + r] + A[1:] + [root(5)] * n)
reads("R 1, and half of a root word", bytes_of(rooted(A, root(5)))[:-2])
reads("R 1, and a root word and a byte", bytes_of(rooted(A, root(5))) + b"\0")
reads("a root word for the last record", put(A, 8, root(3)))
reads("the last record for a root word", [word(1, 4, 3, 1)] + A[1:])
reads("a root word before the last record", [word(1, 4, 4, 1)] + A[1:8] + [root(3)] + A[8:])
reads("V one more, no root word", [word(1, 5, 4, 0)] + A[1:] + [root(3)])
reads("N one more, no root word", [word(1, 4, 5, 0)] + A[1:] + [root(3)])
reads("N one less and R one more", [word(1, 4, 3, 2)] + A[1:] + [root(3)])

note("26, each way in which a root word can be wrong, as the first and as a later one")
wrong_roots = {f"kind {k}": word(k, 0, 1, 5) for k in range(16) if k != 6}
wrong_roots |= {f"P {p}": word(6, p, 1, 5) for p in (1, 2, 5, 32, 63)}
wrong_roots |= {f"reward {q}": word(6, 0, q, 5) for q in (0, 65, 66, 96, 127, 128, 129, 192, 256, 320, 1024, 1088, 2047)}
wrong_roots |= {f"node {r}": word(6, 0, 1, r) for r in (0, 1, 6, 7, 63, 255, 256, 257, 258, 261, 512, 1029, 2047)}
wrong_roots |= {"all zero": 0, "all ones": 0xFFFFFFFF}
for label, w in wrong_roots.items():
    reads(f"root word, {label}", rooted(A, w))
    reads(f"root word, {label}, the first of two", rooted(A, w, root(5, 64)))
    reads(f"root word, {label}, the second of two", rooted(A, root(2, 64), w))
    reads(f"root word, {label}, the last of 16", rooted(A, *[root(5)] * 15, w))
for label in ("kind 4", "P 1", "reward 0", "reward 65", "node 0", "node 1", "node 6"):
    for name, given in (("first", [wrong_roots[label], root(5)]), ("third", [root(5), root(3, 64), wrong_roots[label]])):
        t = rooted(A, *given)
        scores(f"root word, {label}, {name}, score", t, [0, 1])
        sweeps(f"root word, {label}, {name}, sweep", t, [0, 0, 0])
        filters(f"root word, {label}, {name}, filter", t, [0, 3], (101,))
        searches(f"root word, {label}, {name}, search", t, [0, 0], [(10021, 101), (2, 50)], 1)
        runs(f"root word, {label}, {name}, job", [job_of(10021, 101)] + t)
for a in ("kind 4", "P 1", "reward 0", "reward 65", "node 1", "node 6"):
    for b in ("kind 4", "P 1", "reward 0", "reward 65", "node 1", "node 6"):
        reads(f"root words, {a} and then {b}", rooted(A, root(5), wrong_roots[a], root(4), wrong_roots[b], root(2)))
for reward in (1, 2, 63, 64):
    for node in (2, 3, 4, 5):
        reads(f"root word, reward {reward} and node {node}", rooted(A, root(node, reward)))
large_n = table([chance(0, 1, 2)], [record(0, 1, 0)] * 254)
for node in (1, 2, 127, 128, 254, 255, 256, 257, 511):
    reads(f"254 records, node {node}", rooted(large_n, root(node)))
reads("one record, node 2", rooted(table([chance(0, 1, 2)], last), root(2, 64)))
reads("one record, node 3", rooted(table([chance(0, 1, 2)], last), root(3, 64)))

note("27, B times the total reward above 2^56. Exactly 2^56, one step above, and products of more than 64 bits")


def events(*scales):
    """A line and events of such scales, of which the last decides; the line is the root, and every event holds one time less than always."""
    v = len(scales)
    return table([choice(0)] + [chance(1 + i, b - 1, b) for i, b in enumerate(scales)], [record(v, 1, 0), record(0, 2, 0)])


def rewards(total, node=3):
    """Root words of a total reward, as few as can be."""
    return [root(node, min(64, total - i)) for i in range(0, total, 64)]


for label, scales, totals in (
    ("2^56", [256] * 7, (1, 2, 3, 64, 65, 128, 255, 256, 257, 258, 512, 513, 768, 1000, 1023, 1024)),
    ("2^55", [256] * 6 + [128], (1, 2, 3, 4, 512, 513, 514, 1024)),
    ("2^50", [32] * 10, (63, 64, 65, 1024)), ("2^48", [256] * 6, (128, 255, 256, 257, 1024)), ("2^47", [256] * 5 + [128], (511, 512, 513, 1024)),
    ("2^46", [512] * 5 + [2], (1023, 1024)), ("3 times 2^45", [512] * 5 + [3], (682, 683, 1024)), ("10^16", [10] * 16, (7, 8, 1024)),
    ("10^15", [1000] * 5, (64, 72, 73, 1024)), ("2^56 less 256", [673, 771, 964, 832, 595, 3], (96, 97, 98)),
    ("2^56 and 19435", [791, 721, 31, 43, 53, 97, 179], (102, 103, 104)), ("1", [1], (1, 2, 64, 1024)), ("7", [7], (1, 64, 1024)),
):
    for total in totals:
        reads(f"B of {label}, total reward {total}", rooted(events(*scales), *rewards(total)))
most = [("2^46, 16 of 64", rooted(events(*[512] * 5 + [2]), *rewards(1024))), ("2^50, one of 64", rooted(events(*[32] * 10), root(3, 64))),
        ("2^55, two of 1", rooted(events(*[256] * 6 + [128]), root(3), root(2))), ("2^56, one of 1", rooted(events(*[256] * 7), root(3))),
        ("2^56 less 256", rooted(events(673, 771, 964, 832, 595, 3), root(3, 64), root(2, 33))),
        ("certain", rooted([chance(fields(w)[1], 2, 2) if w >> 28 == 3 else w for w in events(*[2] * 46)], *rewards(1024)))]
for label, t in most:
    every_service(f"the largest B, {label}", t, [0], (0, 50, 97, 98, 99, 100), (0, 1))
for label, t in (("2^56 and 2", rooted(events(*[256] * 7), root(3, 2))), ("2^56 and 257", rooted(events(*[256] * 7), *rewards(257))),
                 ("2^56 and 1024", rooted(events(*[256] * 7), *rewards(1024))), ("2^56 and 19435", rooted(events(791, 721, 31, 43, 53, 97, 179), *rewards(103)))):
    scores(f"27, {label}, score", t, [0])
    sweeps(f"27, {label}, sweep", t, [], 3)
    filters(f"27, {label}, filter", t, [3], (101,))
    searches(f"27, {label}, search", t, [0], [(10021, 101), (1, 50)], 2)
    runs(f"27, {label}, job", [job_of(10021, 101)] + t)
reads("27 of words that name the same node and others", rooted(events(*[256] * 6 + [128]), root(3), root(2), root(3)))
reads("16 with root words", rooted(events(*[256] * 7 + [2]), root(3)))
reads("16 with root words, later", rooted(events(2, *[256] * 6, 255, 2), root(3), root(2, 64)))
reads("16 speaks of the product of b alone", rooted(events(*[256] * 6 + [255]), root(3, 64)))

note("Two faults, with 26 and 27 after 17 and before 18, and 18 before what comes with the file")
over = [choice(0)] + [chance(i, 1, 256) for i in range(1, 8)]
right_records, wrong_record = [record(7, 1, 0), record(0, 2, 0)], [record(7, 1, 0), record(0, 3, 0)]
falling = [record(7, 1, 0), record(0, 2, 1)]
small, too_large, too_much = [choice(0), chance(1, 1, 2)], over + [chance(8, 1, 2)], [root(3, 64), root(2)]
small_falling, small_wrong = [record(1, 1, 0), record(0, 2, 1)], [record(1, 1, 0), record(0, 3, 0)]
for w in ("kind 4", "P 1", "reward 0", "reward 65", "node 0", "node 1", "node 6"):
    bad_root = wrong_roots[w]
    for label, t in (
        ("12 and 26", [word(1, 2, 2, 17)] + rooted(table(small, [record(1, 1, 0), record(0, 2, 0)]), bad_root)[1:]),
        ("13 and 26", rooted(table(small, [record(1, 1, 0), record(0, 2, 0)]), bad_root) + [bad_root]),
        ("14 and 26", rooted(table(put(small, 1, word(3, 1, 1, 0)), [record(1, 1, 0), record(0, 2, 0)]), bad_root)),
        ("15 and 26", rooted(table([choice(i) for i in range(21)], last), bad_root)),
        ("16 and 26", rooted(table(too_large, right_records), bad_root)),
        ("17 and 26", rooted(table(small, small_wrong), bad_root)),
        ("17 in the first record and 26", rooted(table(small, [record(1, 2, 0), record(0, 1, 0)]), bad_root, root(2))),
        ("26 and 27", rooted(table(over, right_records), bad_root, root(3, 64))),
        ("26 and 27, in another order", rooted(table(over, right_records), root(3, 64), root(3, 64), bad_root)),
        ("26 and 18", rooted(table(small, small_falling), bad_root)),
        ("26 and 18, in another order", rooted(table(small, small_falling), root(3), root(2), bad_root)),
        ("17, 26 and 18", rooted(table(small, [record(1, 1, 0), record(0, 2, 1), record(0, 5, 0)]), bad_root)),
        ("26, 27 and 18", rooted(table(over, falling), root(3, 64), bad_root)),
    ):
        reads(f"{label}, {w}", t)
for label, t in (
    ("16 and 27", rooted(table(too_large, right_records), *too_much)), ("16 and 27 and 18", rooted(table(too_large, falling), *too_much)),
    ("17 and 27", rooted(table(over, wrong_record), *too_much)), ("17 and 27 and 18", rooted(table(over, falling + [record(0, 9, 0)]), *too_much)),
    ("27 and 18", rooted(table(over, falling), *too_much)), ("27 and 18, 16 words", rooted(table(over, falling), *[root(3, 64)] * 16)),
    ("27 and 21", rooted(table(over, right_records), *too_much)), ("18 of a table with root words", rooted(table(small, small_falling), root(2, 64), root(2))),
    ("18 of a record that no root leads to", rooted(table(small, small_falling), root(2))),
    ("18 of two records", rooted(table(small, small_falling + [record(0, 0, 1)]), root(4), root(2))),
    ("15 and 27", rooted(table([choice(i) for i in range(21)] + [chance(21 + i, 1, 256) for i in range(7)], last), *too_much)),
    ("14 and 27", rooted(table(over + [word(3, 8, 1, 0)], right_records), *too_much)), ("13 and 27", rooted(table(over, right_records), *too_much)[:-1]),
):
    reads(label, t)
    scores(f"{label}, score", t, [0, 3])
    sweeps(f"{label}, sweep", t, [0, 3], 1)
    filters(f"{label}, filter", t, [3], (101,), 2)
    searches(f"{label}, search", t, [0, 0], [(10021, 101)], 0)
    runs(f"{label}, job", [job_of(10021, 101)] + t)
pair = two_roots["3 for node 5 and 1 for node 3"][0]
for plan, size in (([], 2), ([0], 2), ([0, 0, 0], 2), ([0, 3, 0], 1), ([3, 0], 2), ([0, 3], 2), ([3, 3], 1), ([0, 0], 0), ([0, 0], 1), ([0, 0], 3), ([0, 0], 2)):
    label = f"root words, plan {marks_of(plan)} and {size} places"
    scores(f"{label}, score", pair, plan)
    sweeps(f"{label}, sweep", pair, plan, size)
    filters(f"{label}, filter", pair, plan, (50, 75, 76, 100, 101), size)
    searches(f"{label}, search", pair, plan, [(1, 50), (0, 76), (10020, 100), (10021, 100), (10020, 101)], size)

note("Files of 1,264 to 1,324 bytes and more")
long_roots = [root(2 + i * 16, 1 + i) for i in range(16)]
for n in range(316, 332):
    reads(f"{4 * n} bytes, zero words", [0] * n)
    reads(f"{4 * n} bytes, no root words", (large + [record(0, 1, 0)] * 16)[:n])
    reads(f"{4 * n} bytes, root words that the heading does not count", (large + long_roots)[:n])
    reads(f"{4 * n} bytes, V 61", [word(1, 61, n - 62, 0)] + large[1:] + [0] * (n - 315))
    reads(f"{4 * n} bytes, N {n - 61}", [word(1, 60, n - 61, 0)] + large[1:] + [0] * (n - 315))
    reads(f"{4 * n} bytes, root words", rooted(large, *long_roots[:n - 315]))
    reads(f"{4 * n} bytes, the last root word wrong", rooted(large, *long_roots[:n - 316], root(1)))
    reads(f"{4 * n} bytes, a record for the last root word", rooted(large, *long_roots[:n - 316], record(0, 1, 0)))
    runs(f"{4 * n + 4} bytes, job, no root words", job + (large + [record(0, 1, 0)] * 16)[:n])
    runs(f"{4 * n + 4} bytes, job, 18 root words", job + put((large + long_roots)[:n], 0, large[0] + 18))
for n in (332, 333, 349):
    reads(f"{4 * n} bytes, zero words", [0] * n)
    reads(f"{4 * n} bytes, {n - 315} root words", rooted(large, *[root(2)] * (n - 315)))
    reads(f"{4 * n} bytes, 16 root words", rooted(large, *long_roots) + [root(2)] * (n - 331))
whole = bytes_of(rooted(large, *long_roots))
assert len(whole) == 1324
for n in (1261, 1262, 1263, 1265, 1320, 1321, 1322, 1323, 1324):
    reads(f"the longest table, {n} bytes", whole[:n])
for n in (1, 2, 3, 4, 5, 8):
    reads(f"the longest table and {n} bytes", whole + bytes(n))
all_open, some_open = [0] * 10, [0, 2, 1, 0, 0, 2, 0, 1, 0, 0]
for label, t in (("the longest table", rooted(large, *long_roots)), ("the longest table, 16 nodes", rooted(large, *(root(255 - i, 64 - i) for i in range(16))))):
    for plan in (all_open, some_open):
        sweeps(f"{label}, sweep {marks_of(plan)}", t, plan)
        filters(f"{label}, filter {marks_of(plan)}", t, plan, (0, 40, 100))
    scores(f"{label}, score", t, [1, 2] * 5)
    searches(f"{label}, search", t, some_open, [(10, 0), (4, 0), (3, 0), (10, 60)])
    runs(f"{label}, job", job + t)
note("The program's input of 1,328 bytes, 1,329 bytes and more")
program = bytes_of(job) + whole
for n in (1265, 1266, 1268, 1300, 1320, 1324, 1325, 1326, 1327, 1328):
    runs(f"{n} bytes, job", program[:n])
for n in (1, 2, 3, 4, 5, 8, 32, 64, 72):
    runs(f"{1328 + n} bytes, job", program + bytes(n))
    runs(f"{1328 + n} bytes, job, root words after it", (program + bytes_of(long_roots) + bytes(8))[:1328 + n])
    runs(f"{1328 + n} bytes, no job word", bytes(1328 + n))
for r in (1, 9, 15, 16):
    runs(f"{1264 + 4 * r} bytes, job, {r} root words", job + rooted(large, *long_roots[:r]))
    runs(f"{1264 + 4 * r} bytes, job, {r} root words, a byte more", bytes_of(job + rooted(large, *long_roots[:r])) + b"\0")
    runs(f"{1264 + 4 * r} bytes, job, {r} root words, a word more", job + rooted(large, *long_roots[:r]) + [root(2)])

note("The hard table with root words, all of which score the same")
for r in (1, 8):
    t = bytes_of(rooted(words_of(hard), *(root(255 - 30 * i) for i in range(r))))
    case(f"hard, {r} roots, read", "r", text_of(t), f" table 60 254 20 {scale * r}")
    case(f"hard, {r} roots, score", "s", text_of(t, "12" * 10), f" score {alike * r}")
    case(f"hard, {r} roots, sweep", "w", text_of(t, "0" * 20, "20"), f" top {alike * r}, drops" + " 0" * 20)
    case(f"hard, {r} roots, filter, 42", "f", text_of(t, "0" * 20, "20, 42"), " forced 0, plan" + " 0" * 20)
    case(f"hard, {r} roots, filter, 43", "f", text_of(t, "0" * 20, "20, 43"), " refused 31 0, plan" + " 7" * 20)
    case(f"hard, {r} roots, search, kits 3", "p", text_of(t, "0" * 20, "20, 42, 3"), f" score {alike * r} visits {uncut([1] * 20, 3)}, plan" + " 2" * 20)
for label, given in (("9 roots", [root(255 - 20 * i) for i in range(9)]), ("16 roots", [root(255 - i) for i in range(16)])):
    case(f"hard, {label}, read", "r", text_of(bytes_of(rooted(words_of(hard), *given))), " refused 27 0")

note("Kits and root words, ties of the sum")
for label, t, kits_of_lines in ties:
    n, own = fields(t[0])[2], kits_of_lines[0]
    for name, roots in (("last and first", [root(n + 1, 2), root(2)]), ("all", [root(k) for k in range(2, n + 2)][:16]), ("last but one", [root(n, 3)])):
        given = with_kits(rooted(t, *roots), own)
        searches(f"ties, {label}, {name}", given, [0] * len(own), [(kits, percent) for kits in (min(own), max(own), sum(own)) for percent in (0, 50)])
        runs(f"ties, {label}, {name}", [job_of(max(own), 50)] + given)


def roots_drawn(n):
    """Root words of a table of n records: mostly few, of any nodes or about the last ones, with small rewards or any."""
    count = rng.choice((1, 2, 2, 3, 3, 4, 5, 8, 16))
    nearest = rng.choice((n, n, 3))
    most = rng.choice((1, 3, 10, 64))
    return [root(n + 1 - rng.randrange(min(n, nearest)), rng.randint(1, most)) for _ in range(count)]


def with_roots(make):
    t, n = right(make)
    t = rooted(t, *roots_drawn(fields(t[0])[2]))
    return (with_kits(t, kits_drawn(n)) if rng.random() < 0.3 else t), n


note("Made tables with root words")
for label, make in makers.items():
    for i in range(60):
        t, n = with_roots(make)
        name = f"roots, {label} {i}"
        reads(name, t)
        scores(f"{name}, score", t, [rng.choice((1, 2)) for _ in range(n)])
        sweep_and_filter(name, t)
    for i in range(60):
        t, n = with_roots(make)
        own = [fields(w)[3] + 1 for w in t if w >> 28 == 2]
        plan = [rng.choice((0, 0, 0, 0, 1, 2)) for _ in range(n)]
        searches(f"roots, {label} {i}", t, plan, [(kits, rng.choice((0, 0, 25, 50, 80))) for kits in budgets(own, 4)])
    for i in range(30):
        t, n = with_roots(make)
        own = [fields(w)[3] + 1 for w in t if w >> 28 == 2]
        runs(f"job, roots, {label} {i}", [job_of(budgets(own, 1 + i % 2)[0], rng.choice((0, 0, 25, 50)))] + t)
note("Made tables with root words and one word changed")
for i in range(200):
    t, n = with_roots(makers["made"])
    r = fields(t[0])[3]
    j = rng.choice((0, len(t) - 1, len(t) - 1 - rng.randrange(r), len(t) - 1 - rng.randrange(r), rng.randrange(len(t))))
    reads(f"damaged, roots {i}", put(t, j, t[j] ^ 1 << rng.randrange(32)))

services = [c for c in cases[before_roots:] if c[1] != "j"]
note("Requests of opened tables with root words")
on_opened_tables(first_refusals(services))
on_opened_tables(answered(services)[::10])

note("Printed numbers at the powers of ten and next to them")


def any_of(events):
    """Events of which one is enough."""
    n = len(events)
    return table([chance(i, a, b) for i, (a, b) in enumerate(events)], [record(n - 1 - i, 1, i + 1 if i else 0) for i in range(n)])


for k in range(1, 17):
    runs(f"B and score 10^{k}", [job_of(0, 100)] + any_of([(10, 10)] * k))
    runs(f"B 10^{k}, score one less", [job_of(0, 0)] + any_of([(9, 10)] * k))
    runs(f"B 10^16, score 10^{16 - k}", [job_of(0, 0)] + table([chance(i, 1, 10) for i in range(16)], [record(k - 1 - i, i + 1, 0) for i in range(k)]))
for scales in ([9], [11], [99], [101], [999], [7, 143], [99, 101], [73, 137], [369, 271], [999, 7, 143], [99, 101, 73, 137]):
    runs(f"B and score {prod(scales)}", [job_of(0, 100)] + any_of([(b, b) for b in scales]))
for own in ([1] * 9, [1] * 10, [1] * 11, [99], [100], [101], [499, 500], [500, 500], [500] * 19 + [499], [500] * 20):
    runs(f"{sum(own)} kits", [job_of(sum(own), 100)] + with_kits(network(len(own), [set(range(len(own)))], False), own))
for i in (9, 10, 99, 100, 199, 200, 299, 300):
    runs(f"word {i} wrong", job + put(large, i, 0))

with open("../crates/cases/stdin", "w") as out:
    out.write("\n".join(lines) + "\n")
with open("../crates/cases/stdout", "w") as out:
    out.write("\n".join(answers) + "\n")
