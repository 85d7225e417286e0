#!/usr/bin/env python3
"""Makes the input and the expected output of the program totals_run, from its own reading of the paper's paragraph on totals.

    totals.py CRATE        writes CRATE/stdin and CRATE/stdout

It shares no line with the project's code: a total is added up quarter hour by quarter hour in Python's own integers, of which none is too large, and a refusal is
looked for sentence by sentence.
"""
import random
import sys

LIMIT = 10 ** 15
DAYS = {1: (92, 96, 100)}
MOST = 366 * 24 * 4
WIDTH = 12  # numbers that a series takes


class Call:
    """what is handed over: rows are (first, count), which stand in the last two cells of each twelve"""

    def __init__(self, kind, quarters, rows, positions, amounts, count=None, cells=None, npos=None, namounts=None, ntotals=None, nsum=2):
        self.kind, self.quarters, self.rows = kind, quarters, rows
        self.count = len(rows) if count is None else count
        self.cells = WIDTH * len(rows) if cells is None else cells
        self.npos = len(positions) if npos is None else npos
        self.namounts = len(amounts) if namounts is None else namounts
        self.positions, self.amounts = positions, amounts
        self.ntotals = 2 * len(rows) + 2 if ntotals is None else ntotals
        self.nsum = nsum


def refused(c):
    """what refuses it with 18, or none"""
    if c.kind not in (1, 2, 3):
        return "kind"
    if c.quarters not in DAYS.get(c.kind, range(1, MOST + 1)):
        return "N"
    if c.count * WIDTH > c.cells:
        return "series past the table"
    end = 0
    for first, count in c.rows[:c.count]:
        if first + count > c.npos or first + count > c.namounts:
            return "rows past the tables"
        if first != end:
            return "rows that begin elsewhere"
        end = first + count
        if count not in {1: (c.quarters,), 2: range(1, 2 ** 32), 3: range(1, 101)}[c.kind]:
            return "count"
        own = c.positions[first:end]
        if any(p > c.quarters for p in own):
            return "Pos past N"
        if c.kind == 2:
            if own[0] != 1 or any(q <= p for p, q in zip(own, own[1:])):
                return "Pos"
        elif own != list(range(1, count + 1)):
            return "Pos"
        if any(abs(a) >= LIMIT for a in c.amounts[first:end]):
            return "size"
    return None


def total(c, first, count):
    """quarter hour by quarter hour"""
    stands = {p: a for p, a in zip(c.positions[first:first + count], c.amounts[first:first + count])}
    last = c.quarters if c.kind == 2 else count
    amount, out = 0, 0
    for k in range(1, last + 1):
        amount = stands.get(k, amount)
        out += amount
    return out


def answer(c):
    refusal = 17 if c.count > 200 else 18 if refused(c) else 0
    each = [] if refusal else [total(c, *row) for row in c.rows[:c.count]]

    def cells(values, n):
        told = [part for z in values for part in divmod(z, 1000)]  # divmod rounds down
        return " ".join(str(v) for v in (told + [0] * n)[:n])

    return "%d:%s:%s" % (refusal, "".join(" " + x for x in cells(each, c.ntotals).split()), "".join(" " + x for x in cells([] if refusal else [sum(each)], c.nsum).split()))


def written(c):
    head = [c.kind, c.quarters, c.count, c.cells, c.npos, c.namounts, c.ntotals, c.nsum]
    rows = [n for row in c.rows for n in row]
    return "".join(" ".join(str(n) for n in line) + "\n" for line in (head, rows, c.positions, c.amounts))


def laid(kind, quarters, series, **more):
    """series as lists of (Pos, amount), one after the other"""
    rows, at = [], 0
    for s in series:
        rows.append((at, len(s)))
        at += len(s)
    return Call(kind, quarters, rows, [p for s in series for p, _ in s], [a for s in series for _, a in s], **more)


def cases():
    big = LIMIT - 1
    day = lambda n, f: [(k, f(k)) for k in range(1, n + 1)]
    # what the paper tells
    yield laid(2, 96, [[(1, -1), (2, 0)]])
    yield laid(2, 96, [[(1, 1500)]])
    yield laid(2, 96, [[(1, 0), (96, -1)]])
    yield laid(2, 96, [[(1, 1000), (5, 2500), (90, -999)]])
    yield laid(2, 96, [[(1, -1), (2, 0)], [(1, -1), (2, 0)], [(1, 2), (2, 0)]])  # each told down, and 0 in all
    yield laid(3, 96, [[(1, -1)]])
    yield laid(3, 96, [[(1, 7), (2, 8), (3, -20)]])  # kind 3 does not go on to N
    for n in (92, 96, 100):
        yield laid(1, n, [day(n, lambda k: 1001 * k - 50000), day(n, lambda k: -k)])
    # one series passes an i64 in thousandths, and 200 of them do not pass one in whole numbers
    yield laid(2, MOST, [[(1, big)]])
    yield laid(2, MOST, [[(1, -big)]])
    yield laid(2, MOST, [[(1, big)]] * 200)
    yield laid(2, MOST, [[(1, -big)]] * 200)
    yield laid(2, MOST, [[(1, big)], [(1, -big)]])
    # no series
    for kind in range(5):
        yield laid(kind, 96, [])
        yield laid(kind, 0, [])
    # kinds and N at their limits
    for kind in (0, 1, 2, 3, 4, 4294967295):
        for n in (0, 1, 91, 92, 93, 95, 96, 97, 99, 100, 101, MOST, MOST + 1, 4294967295):
            yield laid(kind, n, [])
    for n in (91, 92, 93, 96, 100, 101):
        yield laid(1, n, [day(n, lambda k: k)])
    for n in (1, 2, MOST - 1, MOST):
        yield laid(2, n, [[(1, 999)]])
    # the number of series
    one = [(1, 1)]
    for n in (199, 200, 201):
        yield laid(3, 5, [one] * n)
    for n in (201, 4294967295, 4294967296, 9223372036854775807):
        yield laid(3, 5, [one], count=n)
        yield laid(4, 0, [one], count=n)
    for n in (1, 2, 3):
        yield laid(3, 5, [one, one], count=n)
    for cells in (0, 11, 12, 23, 24, 35, 36):
        yield laid(3, 5, [one, one], cells=cells)
    # rows past the tables
    for npos, namounts in ((4, 4), (3, 4), (4, 3), (5, 5), (0, 0)):
        yield laid(3, 5, [[(1, 3), (2, 4)], [(1, 5), (2, 6)]], npos=npos, namounts=namounts)
    yield Call(2, 5, [(4294967295, 1)], [1], [1])
    yield Call(2, 5, [(0, 4294967295)], [1], [1])
    yield Call(2, 5, [(4294967295, 4294967295)], [1], [1])
    # rows that begin elsewhere: the first not at 0; a gap; an overlap; the same rows twice; another order
    for rows in ([(1, 1)], [(0, 1), (2, 1)], [(0, 2), (1, 1)], [(0, 1), (0, 1)], [(1, 1), (0, 1)], [(0, 1), (1, 1)], [(0, 1), (1, 1), (2, 1)]):
        yield Call(2, 5, rows, [1, 2, 1], [1, 2, 3])
        yield Call(2, 5, rows, [1, 1, 1], [1, 2, 3])
    # nothing past the given series is looked at
    yield Call(2, 5, [(0, 1), (77, 77)], [1, 1, 9], [3, -9223372036854775808, 9223372036854775807], count=1)
    # counts
    for n in (0, 1, 99, 100, 101):
        for kind in (1, 2, 3):
            yield laid(kind, 100, [day(n, lambda k: k)])
            yield laid(kind, 101, [day(n, lambda k: k)])
    # positions
    for own in ([1], [2], [0], [1, 2, 3], [1, 3, 5], [1, 3, 3], [1, 3, 2], [2, 3], [1, 5], [1, 6], [1, 2, 6], [0, 1], [1, 4294967295]):
        for kind in (2, 3):
            yield laid(kind, 5, [[(p, 10 * p) for p in own]])
            yield laid(kind, 5, [[(1, 4)], [(p, 10 * p) for p in own]])
    for n in (92, 96):
        yield laid(1, n, [[(p + (p == 50), p) for p, _ in day(n, abs)]])
        yield laid(1, n, [[(p, p) for p, _ in day(n, abs)][::-1]])
    # sizes
    for a in (big, big + 1, -big, -big - 1, 2 * big, 9223372036854775807, -9223372036854775807, -9223372036854775808):
        yield laid(2, 5, [[(1, 1), (3, a)]])
        yield laid(3, 5, [[(1, 1)], [(1, a), (2, 1)]])
    # slices that are too short, and longer ones
    for n in range(7):
        yield laid(2, 5, [[(1, 1234)], [(1, -1234), (5, 1)]], ntotals=n, nsum=min(n, 5))
        yield laid(2, 5, [[(1, 1234)], [(2, -1234)]], ntotals=n, nsum=min(n, 5))
    r = random.Random(11)
    for _ in range(60):
        kind = r.choice((2, 2, 3))
        n = r.choice((1, 2, 7, 96, 2976, MOST))
        series = []
        for _ in range(r.randrange(5)):
            k = r.randrange(1, min(n, 8) + 1)
            places = [1] + sorted(r.sample(range(2, n + 1), k - 1)) if kind == 2 else list(range(1, k + 1))
            size = r.choice((10, 2000, 10 ** 6, LIMIT))
            series.append([(p, r.randrange(-size + 1, size)) for p in places])
        c = laid(kind, n, series)
        if r.random() < 0.3 and c.positions:
            k = r.randrange(len(c.positions))
            c.positions[k] = max(0, c.positions[k] + r.choice((-1, 1)))
        yield c


def main():
    calls = list(cases())
    with open(sys.argv[1] + "/stdin", "w") as f:
        f.write("".join(written(c) for c in calls))
    with open(sys.argv[1] + "/stdout", "w") as f:
        f.write("".join(answer(c) + "\n" for c in calls))


main()
