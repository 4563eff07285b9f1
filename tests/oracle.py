"""Answers of the planner's services, written from documents 01 and 02 (papers 1 to 3) alone and by enumeration: what the test programs are compared with.

Nothing here is shared with the crates. A table is a list of words (ints); a file is bytes.
"""
from itertools import product

LIMIT = 2 ** 56
MOST_KITS = 10020
MOST_READ = 1329


class Refused(Exception):
    def __init__(self, number, place):
        self.number, self.place = number, place


def words_of(data):
    return [int.from_bytes(data[i:i + 4], "big") for i in range(0, len(data) - 3, 4)]


def fields(word):
    return word >> 28, word >> 22 & 63, word >> 11 & 2047, word & 2047


def bytes_of(words):
    return b"".join(w.to_bytes(4, "big") for w in words)


def word(kind, p, q, r):
    return kind << 28 | p << 22 | q << 11 | r


class Table:
    def __init__(self, variables, records, roots):
        self.variables = variables  # the kits of a choice, (a, b) of a chance
        self.records = records  # (position, hi, lo)
        self.roots = roots  # (reward, node)
        self.choices = [i for i, v in enumerate(variables) if isinstance(v, int)]
        self.chances = [i for i, v in enumerate(variables) if not isinstance(v, int)]
        self.kits = [variables[i] for i in self.choices]
        self.scale = 1
        for i in self.chances:
            self.scale *= variables[i][1]
        self.scale *= sum(reward for reward, _ in roots)

    def truth(self, node, assignment):
        while node > 1:
            position, hi, lo = self.records[node - 2]
            node = hi if assignment[position] else lo
        return node == 1

    def support(self, *nodes):
        """The variables that a walk from one of these nodes can meet."""
        seen, todo, found = set(), list(nodes), set()
        while todo:
            n = todo.pop()
            if n < 2 or n in seen:
                continue
            seen.add(n)
            position, hi, lo = self.records[n - 2]
            found.add(position)
            todo += [hi, lo]
        return sorted(found)

    def implies(self, m, n):
        """Whether every settling that leads from m to true leads from n to true; a variable that no walk meets does not matter."""
        if m == 0 or n == 1:
            return True
        met = self.support(m, n)
        if len(met) > 16:
            raise ValueError("too many variables to enumerate")
        assignment = [False] * len(self.variables)
        for values in product([False, True], repeat=len(met)):
            for p, v in zip(met, values):
                assignment[p] = v
            if self.truth(m, assignment) and not self.truth(n, assignment):
                return False
        return True


def read(data):
    """The table, or a refusal 11 to 18, 26 or 27."""
    if len(data) < 4 or len(data) > 1324 or len(data) % 4:
        raise Refused(11, 0)
    ws = words_of(data)
    kind, v, n, root_words = fields(ws[0])
    if kind != 1 or not 1 <= v <= 60 or not 1 <= n <= 254 or root_words > 16:
        raise Refused(12, 0)
    if len(ws) != 1 + v + n + root_words:
        raise Refused(13, 0)
    variables = []
    for i in range(1, v + 1):
        kind, p, q, r = fields(ws[i])
        choice = kind == 2 and q == 0 and r <= 500
        chance = kind == 3 and 1 <= r <= 1000 and q <= r
        if p != i - 1 or not (choice or chance):
            raise Refused(14, i)
        variables.append(r + 1 if choice else (q, r))
    count = 0
    for i in range(1, v + 1):
        count += isinstance(variables[i - 1], int)
        if count > 20:
            raise Refused(15, i)
    scale = 1
    for i in range(1, v + 1):
        scale *= 1 if isinstance(variables[i - 1], int) else variables[i - 1][1]
        if scale > LIMIT:
            raise Refused(16, i)
    records = []
    for k in range(n):
        kind, p, hi, lo = fields(ws[1 + v + k])
        right = kind == 4 and p < v
        for child in (hi, lo):
            right = right and child < k + 2 and (child < 2 or records[child - 2][0] > p)
        if not right:
            raise Refused(17, 1 + v + k)
        records.append((p, hi, lo))
    roots = []
    for i in range(1 + v + n, len(ws)):
        kind, p, reward, node = fields(ws[i])
        if kind != 6 or p or not 1 <= reward <= 64 or not 2 <= node <= n + 1:
            raise Refused(26, i)
        roots.append((reward, node))
    table = Table(variables, records, roots or [(1, n + 1)])
    if table.scale > LIMIT:
        raise Refused(27, 0)
    for k, (p, hi, lo) in enumerate(records):
        if p in table.choices and not table.implies(lo, hi):
            raise Refused(18, 1 + v + k)
    return table


def score(table, plan):
    """The sum, over the roots, of the reward times the root's score."""
    return sum(reward * root_score(table, plan, root) for reward, root in table.roots)


def root_score(table, plan, root):
    """The sum, over all settlings of all chances whose walk from the root ends in true, of their products."""
    chances = table.chances
    assignment = [False] * len(table.variables)
    for line, i in enumerate(table.choices):
        assignment[i] = plan[line] == 1
    total = 0
    ways = [[holds for holds, x in ((False, b - a), (True, a)) if x] for a, b in (table.variables[i] for i in chances)]
    for values in product(*ways):  # all settlings but those of weight 0
        weight = 1
        for i, holds in zip(chances, values):
            a, b = table.variables[i]
            assignment[i] = holds
            weight *= a if holds else b - a
        if weight and table.truth(root, assignment):
            total += weight
    return total


def full(plan, mark):
    """The plan with this mark in place of open."""
    return [m or mark for m in plan]


def completions(plan):
    return product(*([m] if m else [1, 2] for m in plan))


def passes(table, percent, x):
    return 100 * x >= percent * table.scale


def sweep(table, plan):
    """The top, and the drops."""
    top = score(table, full(plan, 1))
    return top, [top - score(table, full(plan[:i] + [2] + plan[i + 1:], 1)) if m == 0 else 0 for i, m in enumerate(plan)]


def cost(table, plan):
    """The sum of the kits of the lines taken."""
    return sum([k for k, m in zip(table.kits, plan) if m == 1])


def scored_ways(table, plan):
    """Every completion, with its score and its cost."""
    return {way: (score(table, way), cost(table, way)) for way in completions(plan)}


def filter_of(table, plan, percent, ways):
    """How many lines are forced, and the plan with them taken, or refusal 31."""
    passing = [way for way, (x, _) in ways.items() if passes(table, percent, x)]
    if not passing:
        raise Refused(31, 0)
    forced = [m == 0 and all(way[i] != 2 for way in passing) for i, m in enumerate(plan)]
    return sum(forced), [1 if f else m for f, m in zip(forced, plan)]


def ranks_before(table, way, x, other, y):
    """Whether a way with score x ranks before another with score y: higher score, then fewer kits, then at the first difference the one that takes."""
    if x != y:
        return x > y
    if cost(table, way) != cost(table, other):
        return cost(table, way) < cost(table, other)
    return any(m == 1 for m, o in [(m, o) for m, o in zip(way, other) if m != o][:1])


def best_of(table, kits, percent, ways):
    """The candidate that ranks before all others, by comparing with every other one, or refusal 32."""
    candidates = [(way, x) for way, (x, c) in ways.items() if c <= kits and passes(table, percent, x)]
    if not candidates:
        raise Refused(32, 0)
    top = max(x for way, x in candidates)
    candidates = [(way, x) for way, x in candidates if x == top]
    first = [(way, x) for way, x in candidates if all(way == o or ranks_before(table, way, x, o, y) for o, y in candidates)]
    assert len(first) == 1
    return first[0]


def visits_of(table, plan, kits, percent, count=None):
    """The visits of document 01's rule, sentence by sentence, with kits in place of lines; scores are counted afresh."""
    count = count or (lambda way: score(table, way))
    held, visits = [], 0

    def visit(plan):
        nonlocal visits
        visits += 1
        top = count(full(plan, 1))
        if cost(table, plan) > kits or not passes(table, percent, top) or held and top < held[1]:
            return
        if 0 not in plan:
            if not held or ranks_before(table, plan, top, held[0], held[1]):
                held[:] = [plan, top]
            return
        d = plan.index(0)
        visit(plan[:d] + [1] + plan[d + 1:])
        left = plan[:d] + [2] + plan[d + 1:]
        drop = top - count(full(left, 1))
        if passes(table, percent, top - drop) and not (held and top - drop < held[1]):
            visit(left)

    visit(plan)
    return visits, held


def check_plan(table, plan, score=False):
    if len(plan) != len(table.choices):
        raise Refused(21, 0)
    for i, m in enumerate(plan):
        if m > 2 or score and m == 0:
            raise Refused(22, i)


def check_buffer(table, size):
    if size != len(table.choices):
        raise Refused(25, 0)


def numbers(xs):
    return "".join(f" {x}" for x in xs)


def accepted(data, plan, size, percent=0, kits=0):
    """The table of a request that no check turns away; a service without kits or percent asks for none."""
    t = read(data)
    check_plan(t, plan)
    if percent > 100:
        raise Refused(23, 0)
    if kits > MOST_KITS:
        raise Refused(24, 0)
    check_buffer(t, size)
    return t


def search_of(table, plan, kits, percent, ways):
    """The first candidate, its score and the visits; what the visits leave held is the same plan."""
    visits, kept = visits_of(table, plan, kits, percent, lambda way: ways[tuple(way)][0])
    assert visits < 2 ** (plan.count(0) + 1)
    best, x = best_of(table, kits, percent, ways)
    assert kept == [list(best), x]
    return best, x, visits


def show_sweep(data, plan, size):
    held = [7] * size
    try:
        top, held = sweep(accepted(data, plan, size), plan)
        return f" top {top}, drops{numbers(held)}"
    except Refused as r:
        return f" refused {r.number} {r.place}, drops{numbers(held)}"


def show_filter(data, plan, percent, size, ways=None):
    held = [7] * size
    try:
        t = accepted(data, plan, size, percent)
        count, held = filter_of(t, plan, percent, ways or scored_ways(t, plan))
        return f" forced {count}, plan{numbers(held)}"
    except Refused as r:
        return f" refused {r.number} {r.place}, plan{numbers(held)}"


def show_search(data, plan, kits, percent, size, ways=None):
    held = [7] * size
    try:
        t = accepted(data, plan, size, percent, kits)
        held, x, visits = search_of(t, plan, kits, percent, ways or scored_ways(t, plan))
        return f" score {x} visits {visits}, plan{numbers(held)}"
    except Refused as r:
        return f" refused {r.number} {r.place}, plan{numbers(held)}"


def printout(data, ways=None):
    """What the program prints for the bytes on its standard input."""
    data = data[:MOST_READ]
    try:
        if len(data) < 4:
            raise Refused(10, 0)
        kind, p, q, percent = fields(words_of(data)[0])
        kits = p + 64 * q
        if kind != 5:
            raise Refused(10, 0)
        plan = [0] * len(read(data[4:]).choices)
        t = accepted(data[4:], plan, len(plan), percent, kits)
        best, x, visits = search_of(t, plan, kits, percent, ways or scored_ways(t, plan))
        text = f"choices {len(plan)} scale {t.scale}\nkits {cost(t, best)} score {x} visits {visits}\n"
        return text + "".join(f"{i} {'take' if m == 1 else 'left'}\n" for i, m in enumerate(best))
    except Refused as r:
        return f"refused {r.number} {r.place}\n"


def show_score(data, plan):
    try:
        t = read(data)
        check_plan(t, plan, score=True)
    except Refused as r:
        return f" refused {r.number} {r.place}"
    return f" score {score(t, plan)}"


def show_read(data):
    try:
        t = read(data)
    except Refused as r:
        return f" refused {r.number} {r.place}"
    return f" table {len(t.variables)} {len(t.records)} {len(t.choices)} {t.scale}"
