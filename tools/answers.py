#!/usr/bin/env python3
"""Turns the proof files that walk by places (`Proof.antt`, of the older form) of a crate to `Invariants.antt` and `Answers.antt`. usage: tools/answers.py NAME..

For each crate it asks `rt check --generated DIR --old-names` for the older and the newer name of each goal, step and place. Answers that the check finds alone go.
What it leaves, and each old file, stands in ROOM/NAME: the check says what is still open."""

import json
import os
import re
import shutil
import subprocess
import sys
import tempfile

ROOM = os.path.join(tempfile.gettempdir(), "answers")

ALONE = {"omega arith", "search rules", "tt", "refl", "(refl, refl)", "(omega arith, omega arith)", "(refl, omega arith)", "(tt, tt)"}
NAME = r"[A-Za-z_μ][\w'₀-₉μ-]*"


def norm(name):
    name = re.sub(r"^Need-", "", name)
    name = re.sub(r"^overflow[-_]", "", name)
    name = name.replace("-", "_").lower()
    return re.sub(r"_lem(?=\d*$)", "", name)


def blocks(text):
    """The text cut at each declaration at the margin, with the comments above it."""
    out, cur, comments = [], [], []
    for line in text.split("\n"):
        head = re.match(r"(?:pub |abbrev |unfoldable |data |record )*(" + NAME + r")(?: .*)? :(?: |$)|use |module |mod ", line)
        if re.match(r"--", line) and not line.startswith("    "):
            comments.append(line)
            continue
        if head and not line.startswith(" "):
            if cur:
                out.append(cur)
            cur = comments + [line]
            comments = []
        else:
            if comments:
                cur += comments
                comments = []
            cur.append(line)
    if cur:
        out.append(cur + comments)
    return out


def words(text, table):
    """Each whole identifier of the table replaced; not a field, and not one that a dot follows in a module's name."""
    def one(m):
        return table.get(m[0], m[0])
    return re.sub(r"(?<![\w'₀-₉.-])" + NAME, one, text)


def tuple_parts(t):
    """The parts of a tuple that ends the text, with where it begins; or None."""
    if not t.endswith(")"):
        return None
    deep, i = 0, len(t)
    while i > 0:
        i -= 1
        if t[i] in ")]}":
            deep += 1
        elif t[i] in "([{":
            deep -= 1
            if not deep:
                break
    inner, parts, deep, cur = t[i + 1:-1], [], 0, ""
    for ch in inner:
        if ch in "([{":
            deep += 1
        if ch in ")]}":
            deep -= 1
        if ch == "," and not deep:
            parts.append(cur.strip())
            cur = ""
        else:
            cur += ch
    if cur.strip():
        parts.append(cur.strip())
    before = t[:i].rstrip()
    if len(parts) < 2 or not (before == "" or re.search(r"(\bin|\.|=)$", before)):
        return None
    return i, parts


class Fn:
    def __init__(self, it):
        self.asked = it.get("asked", {})
        self.goal = {}
        for old, new in it["needs"]:
            self.goal.setdefault(norm(old), new)
        self.step = {}
        for p in it["places"]:
            old, new = p[2]
            if old:
                self.step.setdefault(norm(old), new)
        self.place = {}
        for p, new in zip(it["places"], it["places_by_name"]):
            self.place.setdefault(norm(p[0]), new)
        self.loops = {norm(l[0][0]): (l[0][1], l[1]) for l in it["loops"]}
        self.changed = {norm(l[0][0]): ch for l, ch in zip(it["loops"], it["changed"])}
        self.clauses = {}
        for p, c in zip(it["places"], it["clauses"]):
            if c and c.get("fields"):
                self.clauses[p[2][1]] = c["fields"]
        pre = it.get("pre")
        self.pre = pre.get("fields") if isinstance(pre, dict) else pre

    def paths(self, t):
        # aliases of a place
        for _ in range(20):
            m = re.search(r"let (" + NAME + r") = (" + NAME + r"(?:\.before)*) in\s*", t)
            if not m:
                break
            alias, of = m[1], m[2]
            t = t[:m.start()] + re.sub(r"(?<![\w'₀-₉.-])" + re.escape(alias) + r"(?![\w'₀-₉-])", lambda _: of, t[m.end():])

        def one(m):
            n = norm(m[1])
            if n in self.step and m[1] not in ("args", "requires", "ranges", "ensures", "result", "new", "now"):
                return "." + self.step[n]
            return m[0]
        # the steps of all places before are fields of each
        t = re.sub(r"(?<=[\w'₀-₉])(?:\.before)+(?=\.(?!before(?![\w-])))", "", t)
        t = re.sub(r"(?<=[\w'₀-₉])\.([a-zA-Z_][\w-]*)", one, t)

        # a clause of several is a field of its name
        def clause(m):
            fields = self.clauses.get(m[1])
            return f".{m[1]}.ensures.{fields[int(m[2])]}" if fields and int(m[2]) < len(fields) else m[0]
        t = re.sub(r"\.([\w-]+)\.ensures\.(\d+)", clause, t)
        if isinstance(self.pre, list) and len(self.pre) > 1:
            t = re.sub(r"(?<=[\w'])\.requires\.(\d+)", lambda m: ".requires." + self.pre[int(m[1])] if int(m[1]) < len(self.pre) else m[0], t)
        return t

    def types(self, t, ghost):
        def one(m):
            kind = m[1]
            n = norm(kind)
            if n in self.place:
                return "goal." + self.place[n] + (" g" if ghost else "")
            return m[0]
        return re.sub(r"tie\.([A-Z][\w-]*)(?: (?:invariant|decreases)[\w-]*)*", one, t)


def by_place(name, body, sig, fn):
    """A lemma or abbreviation whose first argument is a place, of one clause: its name, whether it is an abbreviation, its further binders, its type and its body."""
    lines = [l for l in body.split("\n") if not l.startswith("--")]
    text = "\n".join(lines)
    m = re.match(r"(?:pub )?(abbrev )?" + re.escape(name) + r" : (?:\((" + NAME + r") : )?tie\.[A-Z][\w-]*(?: (?:invariant|decreases)[\w-]*)*\)?(?: →)?((?:\s*\([^()]*\))*)\s*(?:→)?\s*", text)
    if not m or "unfolding" in text:
        return None
    rest = text[m.end():]
    d = re.search(r"^" + re.escape(name) + r"((?: " + NAME + r")+) =", rest, re.M)
    if not d or len(re.findall(r"^" + re.escape(name) + r" ", rest, re.M)) != 1:
        return None
    typ = rest[:d.start()].strip()
    names = d[1].split()
    place, more = names[0], names[1:]
    value = rest[d.end():].strip()
    binders = m[3].strip()
    if m[2] and m[2] != place:
        typ = re.sub(r"(?<![\w'.-])" + re.escape(m[2]) + r"(?![\w'-])", place, typ)
        binders = re.sub(r"(?<![\w'.-])" + re.escape(m[2]) + r"(?![\w'-])", place, binders)
    if place != "c":
        value = re.sub(r"(?<![\w'.-])" + re.escape(place) + r"(?![\w'-])", "c", value)
        typ = re.sub(r"(?<![\w'.-])" + re.escape(place) + r"(?![\w'-])", "c", typ)
        binders = re.sub(r"(?<![\w'.-])" + re.escape(place) + r"(?![\w'-])", "c", binders)
    return name, bool(m[1]), fn.paths(binders), more, fn.paths(typ), fn.paths(value)


def inlined(value, helpers):
    """The value with a `let` for each helper that it calls, in the helpers' order."""
    def calls(h, t):
        return re.search(r"(?<![\w'₀-₉.-])" + re.escape(h[0]) + r"(?![\w'₀-₉-])", t)

    def cited(t, hs):
        out = []
        for h in reversed(hs):
            if calls(h, t):
                out.insert(0, h)
                t = t + " " + h[5] + " " + h[4]
        return out

    def strip(t, hs):
        for h in hs:
            t = re.sub(r"\((" + re.escape(h[0]) + r") " + r"c(?:\.before)*\)(?![\w'-])", r"\1", t)
            t = re.sub(r"(?<![\w'₀-₉.-])" + re.escape(h[0]) + r" c(?:\.before)*(?![\w'.-])", h[0], t)
        return t

    need = cited(value, helpers)
    if not need:
        return value
    lets = ""
    for name, short, binders, more, typ, body in need:
        body, typ = strip(body, need), strip(typ, need)
        if short and not more:
            lets += f"let {name} : {typ} = {body} in\n    " if typ else f"let {name} = {body} in\n    "
        elif more:
            bound = binders or " ".join(f"({x} : ℕ)" for x in more)
            lets += f"let {name} : {bound} → {typ} = λ {' '.join(more)}. {body} in\n    "
        else:
            lets += f"let {name} : {typ} = {body} in\n    "
    return lets + strip(value, need)


def ghosted(t, names):
    """In the older form a ghost value's own clause was no part of what is required."""
    if len(names) == 1:
        return re.sub(r"(?<=[\w'])\.requires(?![\w-])", ".requires." + names[0], t)
    return t


def has_ghost(crate, path):
    """Whether the function has a ghost clause, by the text of src/: the names of its `requires` but the first, or None."""
    name = path.split("/")[-1]
    for folder, _, names in os.walk(os.path.join("crates", crate, "src")):
        for n in names:
            t = open(os.path.join(folder, n), encoding="utf-8").read()
            for m in re.finditer(r"\bfn " + re.escape(name) + r"\b", t):
                head = t[m.start():t.find("\n{", m.start())]
                if re.search(r"^\s*ghost ", head, re.M):
                    return re.findall(r"^\s*requires\*? (\w+)", head, re.M)[1:] or [""]
    return None


def convert(crate, rel, it):
    where = os.path.join("crates", crate, "proofs", rel)
    text = open(os.path.join(where, "Proof.antt"), encoding="utf-8").read()
    fn, ghost = Fn(it), has_ghost(crate, rel)
    keep = os.path.join(ROOM, crate, rel)
    os.makedirs(keep, exist_ok=True)
    shutil.copy(os.path.join(where, "Proof.antt"), os.path.join(keep, "Proof.antt"))
    module = "Rattle." + crate + ".proofs." + rel.replace("/", ".")
    uses, helpers, answers, invariants, head, left = [], [], [], [], [], []
    taken, place_helpers = set(), []
    bs = blocks(text)
    first = True
    for b in bs:
        body = "\n".join(b).strip("\n")
        sig = next((l for l in b if not l.startswith("--")), "")
        comments = [l for l in b if l.startswith("--")]
        if sig.startswith("use "):
            if first:
                head = comments
            first = False
            if re.search(r"\.(Statement|Tie|Lts|Reads)(\.| |$)", sig):
                continue
            uses.append("\n".join(l for l in b if not l.startswith("--")).strip("\n"))
            continue
        first = False
        m = re.match(r"(?:pub )?(?:abbrev )?(" + NAME + r") :", sig)
        name = m[1] if m else None
        if "statement" in sig:
            continue
        m = re.search(r": tie\.(invariant|decreases)-([\w-]+)", sig)
        if m:
            kind, loop = m[1], norm(m[2])
            rest = body[body.index(sig) + len(sig):].strip("\n")
            d = re.match(r"(" + NAME + r")((?: " + NAME + r")*) =(.*)", rest, re.S)
            if loop not in fn.loops or not d:
                left.append("loop " + loop)
                invariants.append("-- LEFT\n" + body)
                continue
            new, vs = fn.loops[loop]
            ch = [v for v, c in zip(vs, fn.changed.get(loop, [])) if c]
            ps = d[2].split()
            table = {}
            if len(ps) == len(vs) + len(ch):
                for p, v in zip(ps, vs):
                    table[p] = ("l.initial." if v in ch else "l.") + v
                for p, v in zip(ps[len(vs):], ch):
                    table[p] = "l." + v
            else:
                left.append(f"params of {loop}: {ps} against {vs} and {ch}")
                for p in ps:
                    q = re.sub(r"₀$", "", p)
                    table[p] = ("l.initial." if p != q and q in ps else "l.") + q
            value = words(d[3], table)
            l = "g l" if ghost else "l"
            invariants.append("\n".join(comments + [f"abbrev pub {kind}-{new} : goal.{kind}-{new}", f"{kind}-{new} {l} ={value}"]))
            continue
        m = re.search(r": tie\.(Need-[\w-]+)", sig)
        if m:
            n = norm(m[1])
            rest = body[body.index(sig) + len(sig):].strip("\n")
            unf = ""
            while re.match(r"unfolding ", rest):
                line, _, rest = rest.partition("\n")
                unf += line + "\n"
            d = re.match(re.escape(name) + r"((?: [^\s=]+)*) =(.*)", rest, re.S)
            if not d:
                left.append("clauses of " + name)
                answers.append("-- LEFT\n" + body)
                continue
            value = fn.paths(d[2]).strip()
            if ghost:
                value = ghosted(value, ghost)
            if value in ALONE and not unf and (n in fn.goal):
                continue
            if n not in fn.goal:
                left.append("goal " + m[1])
                answers.append("-- LEFT " + m[1] + "\n" + "\n".join("-- " + l for l in (unf + d[2]).split("\n")))
                continue
            goal = fn.goal[n]
            clauses = fn.asked.get(goal) or (fn.asked.get("returns") if goal.startswith("returns") else None)
            cut = tuple_parts(value)
            if clauses and cut and len(cut[1]) == len(clauses):
                value = value[:cut[0]] + "record { " + "; ".join(f"{k} = {v}" for k, v in zip(clauses, cut[1])) + " }"
            elif clauses:
                left.append("clauses of " + goal)
            value = inlined(value, place_helpers)
            if value.startswith("let "):
                d2_lead = "\n    "
            else:
                d2_lead = None
            if goal in taken:
                left.append("goal twice " + goal)
            taken.add(goal)
            ps = [p for p in d[1].split() if p != "κs"]
            params = " ".join((["g"] if ghost else []) + ps)
            lead = d2_lead or ("\n    " if d[2].startswith("\n") else " ")
            answers.append("\n".join(comments + [f"pub {goal} : goal.{goal}"]) + "\n" + unf + f"{goal} {params} ={lead}" + value)
            continue
        h = by_place(name, body, sig, fn) if name else None
        if h and ghost:
            h = h[:2] + (ghosted(h[2], ghost), h[3], ghosted(h[4], ghost), ghosted(h[5], ghost))
        if h:
            place_helpers.append(h)
            continue
        b2 = fn.paths(body)
        if "tie." in b2:
            left.append("helper " + str(name))
            b2 = "-- LEFT\n" + b2
        answers.append(b2)
    helpers_text = "\n\n".join(helpers + answers)
    if invariants:
        used = [u for u in uses]
        with open(os.path.join(where, "Invariants.antt"), "w", encoding="utf-8") as f:
            f.write("\n".join(head + used + [f"use {module}.Given as goal", ""]) + "\n" + "\n\n".join(invariants) + "\n")
    if helpers_text.strip():
        with open(os.path.join(where, "Answers.antt"), "w", encoding="utf-8") as f:
            f.write("\n".join(([] if invariants else head) + uses + [f"use {module}.Goals as goal", ""]) + "\n" + helpers_text + "\n")
    os.remove(os.path.join(where, "Proof.antt"))
    return left


def trim(path):
    """Drops the names of `use` lines that the file does not use."""
    t = open(path, encoding="utf-8").read()
    lines = t.split("\n")
    rest = "\n".join(l for l in lines if not l.startswith("use ") and not l.startswith("--"))
    rest = re.sub(r"--[^\n]*", "", rest)
    out = []
    for l in lines:
        m = re.match(r"use (\S+)\.\{(.*)\}$", l)
        if not m:
            out.append(l)
            continue
        names = []
        for n in [x.strip() for x in m[2].split(",")]:
            alias = n.split(" as ")[-1]
            if "◌" in alias:
                parts = [p for p in alias.split("◌") if p]
                if all(p in rest for p in parts):
                    names.append(n)
            elif re.search(r"(?<![\w'₀-₉-])" + re.escape(alias) + r"(?![\w'₀-₉-])", rest):
                names.append(n)
        if names:
            out.append(f"use {m[1]}.{{{', '.join(names)}}}")
    open(path, "w", encoding="utf-8").write("\n".join(out))


def main(names):
    for crate in names:
        at = os.path.join(ROOM, f"{crate}-names")
        shutil.rmtree(at, ignore_errors=True)
        os.makedirs(ROOM, exist_ok=True)
        r = subprocess.run(["rt", "check", "--generated", at, "--old-names"], cwd=os.path.join("crates", crate), stdout=subprocess.PIPE, stderr=subprocess.STDOUT, text=True, errors="replace")
        table = os.path.join(at, "names.json")
        if not os.path.exists(table):
            print(crate + ": no names: " + r.stdout[-1500:])
            continue
        its = json.load(open(table))
        base = os.path.join("crates", crate, "proofs")
        for folder, _, files in sorted(os.walk(base)):
            if "Proof.antt" not in files:
                continue
            rel = os.path.relpath(folder, base)
            key = f"Rattle-{crate}-proofs." + rel.replace("/", ".") + ".Lts"
            if key not in its:
                print(f"{crate}: {rel}: no names under {key}")
                continue
            left = convert(crate, rel, its[key])
            for f in ("Invariants.antt", "Answers.antt"):
                p = os.path.join(base, rel, f)
                if os.path.exists(p):
                    trim(p)
            print(f"{crate}: {rel}" + (": " + "; ".join(left) if left else ""))
        for folder, dirs, files in sorted(os.walk(base), reverse=True):
            if not os.listdir(folder):
                os.rmdir(folder)
        subprocess.run(["rt", "fmt"], cwd=os.path.join("crates", crate), stdout=subprocess.DEVNULL, stderr=subprocess.DEVNULL)


if __name__ == "__main__":
    main(sys.argv[1:])
