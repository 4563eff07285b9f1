#!/usr/bin/env python3
"""Brings the names of this repository's own definitions and lemmas to the spelling of Rattle's library: words in snake case, types and modules in camel case,
a dash only between two names. usage: tools/respell.py, once, at the top, right after port.py. With --dry it lists what would change.

A definition is what stands at the head of a declaration, a field or a constructor of an .antt file. Functions of src/, strings, inputs and outputs keep their names.
It rewrites the .antt files, the clauses of the .rt files (no code there has such a name), and README.md and docs/*.md."""

import collections
import os
import re
import sys

TOKEN = re.compile(r"(?<![\w'₀-₉-])([A-Za-z_][\w'₀-₉]*(?:-[\w'₀-₉*]+)*)")
HEAD = re.compile(r"^[ \t]*(?:abbrev +|unfoldable +|pub +|record +|data +)*([A-Za-z_][\w'₀-₉-]*)(?: +[({][^\n]*?)? : *([^\n]*)", re.M)
LIST = re.compile(r"^([A-Za-z_][\w'₀-₉-]*), +", re.M)

# words of the library that stand in names of lemmas
WORDS = set("length take drop set get_or replicate map sum append snoc suc add mul sub pow le lt eqb leb ltb cond filter reverse".split())


def files(root, *endings):
    for folder, dirs, names in os.walk(root):
        dirs[:] = sorted(d for d in dirs if d not in ("out", ".git", "must-fail"))
        for n in sorted(names):
            if n.endswith(endings):
                yield os.path.join(folder, n)


def read(p):
    with open(p, encoding="utf-8") as f:
        return f.read()


def snake(part):
    """lowestOpen as lowest_open; getD is the older name of get_or."""
    part = re.sub(r"getD", "get_or", part)
    if not re.match(r"[a-z_]", part):
        return part
    return re.sub(r"(?<=[a-z0-9_'])_?([A-Z])", lambda m: "_" + m[1].lower(), part)


def declared(root):
    """Every name that an .antt file of the repository declares, and those of definitions among them."""
    every, definitions = collections.Counter(), set()
    for p in files(root, ".antt"):
        t = read(p)
        for m in HEAD.finditer(t):
            name, rest = m[1], m[2]
            if rest.startswith("tie.") or rest.startswith("goal.") or name in ("use", "module", "where", "let", "in"):
                continue
            every[name] += 1
            if "-" not in name and ("/specs/" in p or re.match(r"[ \t]*(?:pub +)?(?:abbrev|unfoldable|record|data)\b", m[0])):
                definitions.add(name)
    return every, definitions


def renamed(every, definitions):
    names = {snake(d) for d in definitions} | WORDS
    out = {}
    for name in every:
        parts = [snake(p) for p in name.split("-")]
        if parts[-1] == "spec":
            parts = ["_".join(parts)]
        new = parts[0]
        left = parts[0]
        for p in parts[1:]:
            joined = (left in names or left[:1].isupper()) and (p in names or p[:1].isupper())
            new += ("-" if joined else "_") + p
            left = p if joined else left + "_" + p
        out[name] = new
    # a lemma that would have the name of a definition gets `_lem`
    taken = {out[d] for d in definitions}
    for name in every:
        if name not in definitions and out[name] in taken:
            out[name] += "_lem"
    return {old: new for old, new in out.items() if old != new}


def main(argv):
    root = "crates"
    every, definitions = declared(root)
    table = renamed(every, definitions)
    back = collections.defaultdict(set)
    for old, new in table.items():
        back[new].add(old)
    for new, olds in sorted(back.items()):
        if new in every:
            olds = olds | {new}
        if len(olds) > 1:
            print("together:", new, "<-", ", ".join(sorted(olds)))
    texts = {p: read(p) for p in files(root, ".antt", ".rt")}
    for p in ["README.md"] + list(files("docs", ".md")):
        texts[p] = read(p)
    for p, t in texts.items():
        tokens = {m[1] for m in TOKEN.finditer(t)}
        if not p.endswith(".md"):
            for k in sorted(tokens & table.keys()):
                if table[k] in tokens and table[k] not in WORDS:
                    print("stands already:", p, k, "->", table[k])

    def turn(p, t):
        def one(m):
            w = m[1]
            if w not in table:
                return w
            before = t[max(0, m.start() - 4):m.start()]
            if "-" in w and before.endswith("."):
                return w if not p.endswith(".md") else table[w]
            if p.endswith(".md") and "-" in w and not (t[m.start() - 1:m.start()] == "`" or t[m.end():m.end() + 1] == "`"):
                return w
            return table[w]
        return TOKEN.sub(one, t)

    for p, t in texts.items():
        new = turn(p, t)
        if new != t and "--dry" not in argv:
            with open(p, "w", encoding="utf-8") as f:
                f.write(new)
    print(len(table), "names")
    if "--list" in argv:
        for k in sorted(table):
            print(k, table[k])
    return 0


if __name__ == "__main__":
    raise SystemExit(main(sys.argv[1:]))
