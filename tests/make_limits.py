#!/usr/bin/env python3
"""Writes the standard input of the programs `plan_at_limit`, `plan_past_limit`, `plan_certain` and `plan_span`, and what they have to print, the latter by
oracle.py.

The first two begin with a job word and a table of 60 variables, 254 records and 16 root words, 1,328 bytes, which is the longest job that is
answered. `plan_at_limit` reads these bytes alone. `plan_past_limit` has 36 more, so that the table is longer than any, which is refused; it then
prints how many bytes are left unread, which are those after the first 1,329.
`plan_certain` reads a job of one kit and 100 percent, and table A of document 01 with certain events, 2/2 and 10/10.
`plan_span` reads this table without root words, with lines of 501, 401, 301 and 201 kits, and a job of 1,000 kits, P 40 and Q 15.
Run it in this folder: python3 make_limits.py
"""
from oracle import MOST_READ, bytes_of, printout, word

CHOICES = (48, 51, 54, 57)


def variable(p, kits=(1, 1, 1, 1)):
    """A choice, a chance below the first choice, or a certain event above it."""
    if p in CHOICES:
        return word(2, p, 0, kits[CHOICES.index(p)] - 1)
    return word(3, p, 10 - p % 3, 10) if p > CHOICES[0] else word(3, p, 1, 1)


def record(k):
    """Five records a position, from the last position up. Each of the five holds wherever the one before it does."""
    p, column = 59 - k // 5, k % 5

    def below(c):
        return k - column - 3 + min(max(c, 0), 4)

    if p == 59:
        return word(4, p, int(column > 0), int(column == 4))
    if p in CHOICES:
        return word(4, p, below(column + 1), below(column))
    return word(4, p, below(column), below(column - 1) if p > CHOICES[0] else 0)


def write(name, data, after=""):
    with open(f"../crates/{name}/stdin", "wb") as out:
        out.write(data)
    with open(f"../crates/{name}/stdout", "w") as out:
        out.write(printout(data) + after)


table = [word(1, 60, 254, 0)] + [variable(p) for p in range(60)] + [record(k) for k in range(254)]
# roots above all lines, between them and below them
roots = [word(6, 0, 1 + 21 * i % 64, 255 - 13 * i % 62 - 193 * (i % 2)) for i in range(16)]
rooted = [word(1, 60, 254, 16)] + table[1:] + roots
job = bytes_of([word(5, 2, 0, 50)] + rooted)
assert len(job) == 1328 and printout(job).startswith("choices 4 ")
write("plan_at_limit", job)
past = job + bytes_of(table[-9:])
write("plan_past_limit", past, str(len(past) - MOST_READ))

certain = [0x11002000, 0x20000000, 0x30401002, 0x20800000, 0x30C0500A, 0x40C00800, 0x40801000, 0x40400803, 0x40002003]
write("plan_certain", bytes_of([word(5, 1, 0, 100)] + certain))

span = table[:1] + [variable(p, (501, 401, 301, 201)) for p in range(60)] + table[61:]
write("plan_span", bytes_of([word(5, 40, 15, 50)] + span))
