#!/usr/bin/env python3
"""tools/crates.py [LOG...]: writes crates.txt from what the files of crates/ name: a line for each crate with the crates that it names and those below
them, by level, and within a level those first that took longest by the LOGs of `rt check`. rt proves the crates of a level two at a time, in the order
of their lines."""
import glob
import os
import re
import sys

KIT = ['arrayvec', 'bytes', 'check', 'io', 'os', 'libc']
HEAD = '''# NAME: the crates it stands on. By level, one above the highest that it stands on; the crates of a level are proved two at a time, in this order, so
# that those that take about as long stand beside each other (tools/crates.py). README.md has the map.

'''


def named(crate):
    """The crates that a crate's files name, in code and in proofs."""
    code = glob.glob(f'crates/{crate}/src/**/*.rt', recursive=True)
    proofs = glob.glob(f'crates/{crate}/**/*.antt', recursive=True)
    texts = {f: open(f).read() for f in code + proofs}
    modules = {m for f in code for m in re.findall(r'^\s*(?:pub )?mod (\w+);', texts[f], re.M)}
    found = {m for text in texts.values() for m in re.findall(r'Rattle·(\w+)[.·]', text)}
    for f in code:
        found |= set(re.findall(r'(?<![:\w])(\w+)::', re.sub('//.*', '', texts[f]))) - modules
    return found - {crate}


crates = sorted(x for x in os.listdir('crates') if os.path.isdir(f'crates/{x}/src'))
direct = {x: named(x) & set(crates + KIT) for x in crates} | {'io': {'libc'}, 'os': {'libc'}}
below = {}
levels = {}


def reached(crate):
    if crate not in below:
        named = direct.get(crate, set())
        below[crate] = named.union(*map(reached, named))
    return below[crate]


def level(crate):
    if crate not in levels:
        levels[crate] = max([level(x) + 1 for x in reached(crate) if x in crates], default=0)
    return levels[crate]


seconds = {}
for log in sys.argv[1:]:
    seconds |= {m[1]: int(m[2]) for m in re.finditer(r'^rt: (\w+) proved \((\d+) s\)', open(log).read(), re.M)}
order = sorted(crates, key=lambda x: (level(x), -seconds.get(x, 15), x)) + KIT
lines = [HEAD]
for i, x in enumerate(order[:-len(KIT)]):
    if i and levels[x] != levels[order[i - 1]]:
        lines.append('\n')
    lines.append(' '.join([x + ':'] + [y for y in order if y in below[x]]) + '\n')
open('crates.txt', 'w').write(''.join(lines))
