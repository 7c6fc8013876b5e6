"""Windows on filed charts and on others, and what each must list, worked out by clipping in fractions.

A triangle is cut along the four sides of the window, one after the other, and counts when something is left of it: a part of the plane,
of a line, or a point. No bounding box and no D value is looked at. On a filed chart every triangle of the table counts so; on another only
those that are listed in a cell whose square, with its border, has a point in common with the window.

tests/library.py makes these calls from C and compares the lists."""

import re
from fractions import Fraction

import tables
from call_cases.script import LONGEST, NEEDED, PAIRS, WINDOW
from call_cases.windows import GRID, drawn_chain
from tables import MARK, U, V, corners

SEEN = WINDOW + 2  # the places of the list that are looked at: two of them are beyond the length asked
BEFORE = 30583  # what each place of the list holds before a call


# ---- what is in a window


def cut(points, axis, sign, bound):
    """What is left of a polygon where sign times a coordinate is at most sign times the bound."""
    left = []
    for p, q in zip(points, points[1:] + points[:1]):
        here, there = (sign * (bound - c[axis]) for c in (p, q))
        if here >= 0:
            left.append(p)
        if here * there < 0:
            left.append(tuple(u + (v - u) * Fraction(here, here - there) for u, v in zip(p, q)))
    return left


def meets(t, window):
    """Whether a triangle and a window, both with their borders, have a point in common."""
    left, top, right, bottom = window
    points = corners(t)
    for axis, sign, bound in ((0, -1, left), (0, 1, right), (1, -1, top), (1, 1, bottom)):
        points = cut(points, axis, sign, bound)
    return points != []


def square(key, level):
    """The square of a cell, with its border, as a window: the bits of a key are x and y by turns."""
    x, y = (sum((key >> 2 * k + odd & 1) << k for k in range(16)) for odd in (0, 1))
    return (x, y, x + 2 ** (16 - level), y + 2 ** (16 - level))


def touch(w, v):
    """Whether two windows have a point in common."""
    return all(max(w[k], v[k]) <= min(w[k + 2], v[k + 2]) for k in (0, 1))


def listed(table, entries, window):
    """The numbers that a window must list; without entries the chart is filed."""
    near = range(len(table))
    if entries is not None:
        near = sorted({item for key, level, item in entries if item != MARK and touch(square(key, level), window)})
    return [i for i in near if meets(table[i], window)]


# ---- windows


def clamped(*window):
    return tuple(min(65535, max(0, c)) for c in window)


def at_corner(rng, p):
    """Windows of one point, at a corner and beside it, and one that has it as its own corner."""
    x, y = p
    u, v = tables.near(rng, p, rng.choice([1, 40, 9000]))
    yield from [(x, y, x, y), clamped(x + 1, y, x + 1, y), clamped(x, y - 1, x, y - 1), (min(x, u), min(y, v), max(x, u), max(y, v))]


def at_side(rng, t, k):
    """Windows of no width or no height that cross a side between grid points or end there, and windows with a corner on it."""
    x, y = tables.side_point(t, k, rng.randint(0, tables.side_parts(t, k)))
    for u, v in ((x, 0), (x, 65535), (0, y), (65535, y)):
        yield (min(x, u), min(y, v), max(x, u), max(y, v))
    (ax, ay), (bx, by) = tables.side(t, k)
    if ax != bx:
        x = rng.randint(min(ax, bx), max(ax, bx))
        y = Fraction((x - ax) * (by - ay), bx - ax) + ay
        low, high = int(y), -int(-y // 1)
        yield from [(x, low, x, high), (x, low, x, low), (x, high, x, high), clamped(x - 1, low, x + 1, high)]
    if ay != by:
        y = rng.randint(min(ay, by), max(ay, by))
        x = Fraction((y - ay) * (bx - ax), by - ay) + ax
        low, high = int(x), -int(-x // 1)
        yield from [(low, y, high, y), (low, y, low, y), (high, y, high, y), clamped(low, y - 1, high, y + 1)]


def at_seam(rng):
    """Windows that end at a line between cells, or one beside it."""
    at = lambda: clamped((rng.randint(0, 16) << rng.choice([12, 12, 8, 0])) + rng.choice([-1, 0, 0, 1]))[0]
    (left, right), (top, bottom) = sorted((at(), at())), sorted((at(), at()))
    yield from [(left, top, right, bottom), (left, top, left, bottom), (left, bottom, right, bottom), (right, top, right, top)]
    yield from [(32768, top, 32768, bottom), (left, 32768, right, 32768), (32768, 32768, 32768, 32768), (32768, 32768, 65535, 65535)]


def around(rng, table, most):
    """Windows on a chart, so many at most, the whole grid among them."""
    some = rng.sample(table, min(4, len(table)))
    found = [w for t in some for p in corners(t) for w in at_corner(rng, p)]
    found += [w for t in some for k in range(3) for w in at_side(rng, t, k)]
    found += list(at_seam(rng)) + list(at_seam(rng))
    for _ in range(4):
        (a, b), (c, d) = tables.anywhere(rng), tables.anywhere(rng)
        found.append((min(a, c), min(b, d), max(a, c), max(b, d)))
    return [GRID] + rng.sample(found, min(most - 1, len(found)))


# ---- calls


def look(s, window, number, shows=""):
    """A window whose list holds the same at every place before."""
    s.fill(PAIRS, BEFORE)
    s.call(shows, number, "window", *window)


def looks(s, table, entries, most):
    """Windows on the chart that is there, and beside each of some the same with two of its sides exchanged."""
    for k, window in enumerate(around(s.rng, table, most)):
        look(s, window, 0, "lists " + " ".join(map(str, listed(table, entries, window))))
        left, top, right, bottom = window
        if k % 8 == 1 and left > 0:
            look(s, (left, top, s.rng.choice([0, left - 1]), bottom), 15)
        if k % 8 == 2 and bottom < 65535:
            look(s, (left, s.rng.choice([bottom + 1, 65535]), right, bottom), 15)


def lengths(s):
    """Lists and charts of the asked length, one place short, none at all and longer; 1 before 2 before 15."""
    s.on(0)
    s.table([U, V], number=0)
    for n in (WINDOW, WINDOW + 1, LONGEST[PAIRS], WINDOW - 1, 0):
        s.lend(PAIRS, n)
        look(s, GRID, 0 if n >= WINDOW else 1, "lists 0 1" if n >= WINDOW else "")
        look(s, (9, 0, 8, 0), 15 if n >= WINDOW else 1)
    s.lend(PAIRS, WINDOW)
    for k in range(4):
        for n in (NEEDED[k] - 1, 0, LONGEST[k], NEEDED[k]):
            s.lend(k, n)
            look(s, GRID, 0 if n >= NEEDED[k] else 1, "lists 0 1" if n >= NEEDED[k] else "")
            look(s, (0, 9, 0, 8), 15 if n >= NEEDED[k] else 1)
    for counts in ((3, 10), (2, 9), (513, 10), (2, 0)):
        s.counts(*counts)
        look(s, GRID, 2)
        look(s, (1, 0, 0, 0), 2)
        s.lend(PAIRS, WINDOW - 1)
        look(s, (1, 0, 0, 0), 1)
        s.lend(PAIRS, WINDOW)
    s.lend(PAIRS, NEEDED[PAIRS])


def kept(rng, table):
    """The entries of a table, of which some are left out; a cell with none left has the mark."""
    cells = {}
    for key, level, item in tables.entries_of(table):
        cells.setdefault((key, level), []).append(item)
    some = {cell: [i for i in items if i != MARK and rng.random() < 0.6] for cell, items in cells.items()}
    return [(*cell, item) for cell, items in some.items() for item in items or [MARK]]


def strange(rng, n):
    """Entries that are those of no table."""
    while len(chain := drawn_chain(rng, n)) > tables.LIMIT:
        pass
    return chain


def drawn(s, kind, most):
    """A chart of one kind, and windows on it as it is filed, with entries left out, and with a chain that is none of its own."""
    s.on(s.rng.randrange(2))
    table = tables.KINDS[kind](s.rng)
    while tables.entries_of(table) is None:
        table = tables.KINDS[kind](s.rng)
    s.table(table, number=0)
    looks(s, table, None, most)
    for entries in (kept(s.rng, table), strange(s.rng, len(table))):
        s.entries(len(table), entries)
        looks(s, table, entries, most)


def fixed(s, most):
    """Lengths, a chart without triangles, and charts of each kind."""
    lengths(s)
    s.table([], number=0)
    looks(s, [], None, most)
    for kind in tables.KINDS:
        drawn(s, kind, most)


# ---- comparing


def dumped(text):
    """A script in which the list is shown after each window."""
    return re.sub(r"^(window .*)$", rf"\1\ndump pairs 0 {SEEN}", text, flags=re.M)


def joined(lines):
    """The lines of a script's calls, each with what is shown after it."""
    made = []
    for line in lines:
        if line.startswith("dump "):
            made[-1] += " " + line
        else:
            made.append(line)
    return made


def is_right(case, line):
    """Whether a call gave its number, and a window the list that it must give, and touched no other place."""
    (shows, number), words = case, line.split()
    if words[1] != str(number) or words[0] != "window":
        return words[1] == str(number)
    wanted = shows.split()[1:]
    held = [str(BEFORE)] * SEEN
    if number == 0:
        held = wanted + ["0"] * (WINDOW - len(wanted)) + held[WINDOW:]
    return words[2] == str(len(wanted)) and words[7:] == held
