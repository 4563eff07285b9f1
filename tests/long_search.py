#!/usr/bin/env python3
"""Writes a job whose search is the longest found, to the file named: crates/plan/out/plan searches it in 2,097,151 visits.

Every record stands for the event of the last variable, so that all plans score the same and no branch is cut. Of the 20 lines 19 come first; all records
but two lie in the layer of the last line, which a quarter of the visits pass: its own nodes, and others that lead to these. The root leads to three of them.
"""
import sys

from oracle import bytes_of, word

LINE, OWN, RECORDS = 58, 30, 254

variables = [word(2, i, 0, 0) if i < 19 or i == LINE else word(3, i, 1, 2) for i in range(60)]
records = [(59, 1, 0)] + [(LINE, 2, 2)] * OWN
for i in range(RECORDS - 2 - OWN):
    records.append((19, 3 + 2 * i % OWN, 3 + (2 * i + 1) % OWN))
records.append((0, RECORDS, RECORDS))
job = [word(5, 20, 0, 0), word(1, 60, RECORDS, 0)] + variables + [word(4, *x) for x in records]
with open(sys.argv[1], "wb") as out:
    out.write(bytes_of(job))
