"""Triangles and tables for the tests: how they are drawn, their entries by the reference model, edits of plain tables, and what inserts show.

A point is two numbers, a triangle six, a table a list of triangles."""

import collections
import math

import engines

LIMIT = 16384  # the most entries
MARK = 65535
# document 01's triangles
U = (0, 0, 65535, 0, 0, 65535)
V = (65535, 65535, 0, 65535, 65535, 0)
# triangles that a load refuses, and two with far more entries than there may be
FLAT = (0, 0, 5, 5, 9, 9)
REVERSED = (0, 0, 0, 5, 5, 0)
SLIVERS = [(0, 0, 65535, 0, 65535, 1), (0, 0, 65535, 1, 0, 1)]


# ---- triangles


def orientation(t):
    ax, ay, bx, by, cx, cy = t
    return (bx - ax) * (cy - ay) - (by - ay) * (cx - ax)


def corners(t):
    return [tuple(t[2 * k : 2 * k + 2]) for k in range(3)]


def turned(t, k):
    """The triangle with its corner k first."""
    return tuple(t[2 * k :]) + tuple(t[: 2 * k])


def middles(t):
    """The middles of the sides ab, bc and ca, rounded down."""
    a, b, c = corners(t)
    return [tuple((u + v) // 2 for u, v in zip(p, q)) for p, q in ((a, b), (b, c), (c, a))]


def sides_seen(t, p):
    """D of each side, ab, bc and ca, and a point."""
    a, b, c = corners(t)
    return [orientation(u + v + p) for u, v in ((a, b), (b, c), (c, a))]


def inside(t, p):
    """Whether a point is strictly inside."""
    return min(sides_seen(t, p)) > 0


def holds(t, p):
    """Whether a point is inside, on a side or at a corner."""
    return min(sides_seen(t, p)) >= 0


def side(t, k):
    """The ends of side k: ab, bc, ca."""
    return corners(turned(t, k))[:2]


def side_parts(t, k):
    """How many parts grid points divide a side into."""
    (ax, ay), (bx, by) = side(t, k)
    return math.gcd(bx - ax, by - ay)


def side_point(t, k, n):
    """Grid point n of a side: 0 is where it starts, and its last part ends at its end."""
    (ax, ay), (bx, by) = side(t, k)
    parts = side_parts(t, k)
    return (ax + (bx - ax) // parts * n, ay + (by - ay) // parts * n)


def side_of(t, p):
    """The side that a point is on, at neither end; nothing where there is none."""
    for k in range(3):
        a, b = side(t, k)
        if orientation(a + b + p) == 0 and sum((u - w) * (v - w) for u, v, w in zip(a, b, p)) < 0:
            return k
    return None


def sides_shared(t, u):
    """The corners at which a side of t starts and the same side of u, the other way round; none where there is none."""
    for k in range(3):
        for m in range(3):
            (a, b, _), (c, d, _) = corners(turned(t, k)), corners(turned(u, m))
            if (a, b) == (d, c):
                return k, m
    return None


def proper(points):
    """The triangle of three points with D > 0, or nothing."""
    t = points[0] + points[1] + points[2]
    d = orientation(t)
    return t if d > 0 else points[1] + points[0] + points[2] if d < 0 else None


# ---- drawing


def drawn(make):
    """The first proper triangle of three points as they are made."""
    while True:
        t = proper(make())
        if t:
            return t


def anywhere(rng):
    return (rng.randint(0, 65535), rng.randint(0, 65535))


def near(rng, p, reach):
    return tuple(max(0, min(65535, c + rng.randint(-reach, reach))) for c in p)


def anyhow(rng):
    """A triangle of any three points."""
    return drawn(lambda: [anywhere(rng) for _ in "abc"])


def soup(rng):
    reach = rng.choice([40, 900, 9000, 65535])

    def one():
        p = anywhere(rng)
        return [near(rng, p, reach) for _ in range(3)]

    return [drawn(one) for _ in range(rng.choice([1, 2, 5, 12, 40]))]


def mesh(rng):
    g = rng.choice([1, 2, 3, 5, 8, 16])
    step = 65535 // g
    at = {
        (i, j): near(rng, (i * step, j * step), step // 4) if 0 < i < g and 0 < j < g else (i * step, j * step)
        for i in range(g + 1)
        for j in range(g + 1)
    }
    table = []
    for j in range(g):
        for i in range(g):
            a, b, c, d = at[i, j], at[i + 1, j], at[i, j + 1], at[i + 1, j + 1]
            table += [t for t in (proper([a, b, c]), proper([d, c, b])) if t]
    return table


def slivers(rng):
    def one():
        p = anywhere(rng)
        q = near(rng, p, rng.choice([30, 3000, 30000]))
        return [p, q, near(rng, q, rng.choice([1, 2, 9]))]

    return [drawn(one) for _ in range(rng.choice([1, 2, 3, 8]))]


def borders(rng):
    """Corners on the borders of squares and one beside them."""

    def point():
        return tuple(min(65535, max(0, (rng.randint(0, 16) << rng.choice([4, 8, 12])) + rng.choice([-1, 0, 0, 0, 1]))) for _ in "xy")

    return [drawn(lambda: [point(), point(), point()]) for _ in range(rng.choice([1, 2, 4, 8]))]


def repeated(rng):
    base = rng.choice([soup, borders, mesh])(rng)[:20]
    return [rng.choice(base) for _ in range(rng.randint(1, 60))]


def copies(rng):
    return [anyhow(rng)] * rng.choice([2, 100, 511, 512])


def lattice(rng):
    """A mesh of equal triangles: every side of a larger one has grid points between its ends."""
    across, down = rng.choice([(1, 2), (3, 2), (4, 5)])
    wide, high = (rng.choice([2, 12, 60, 9000]) for _ in "xy")
    left, top = rng.randint(0, 65535 - across * wide), rng.randint(0, 65535 - down * high)
    table = []
    for j in range(down):
        for i in range(across):
            a, b, c, d = ((left + (i + k % 2) * wide, top + (j + k // 2) * high) for k in range(4))
            table += [a + b + c, d + c + b]
    rng.shuffle(table)
    return table


def beside(rng):
    """Triangles on few sides, in both directions: several on one, repeated, and some on a part of it or on more than it."""
    unit = [(12, 5), (-7, 4), (0, 9), (3000, 2), (-1, 5000)]
    sides, table, wanted = [], [], rng.choice([2, 5, 9])
    for _ in range(rng.choice([1, 1, 2])):
        (dx, dy), parts = rng.choice(unit), rng.choice([2, 3, 4, 6])
        start = (rng.randint(max(0, -dx) * 7, 65535 - max(0, dx) * 7), rng.randint(0, 65535 - dy * 7))
        sides += [[(start[0] + dx * n, start[1] + dy * n) for n in range(parts + 2)]]
    while len(table) < wanted:
        points = rng.choice(sides)
        first, last = rng.choice([(0, -2)] * 6 + [(0, -1), (1, -2), (1, -1)])
        ends = [points[first], points[last]]
        third = near(rng, points[len(points) // 2], rng.choice([30, 900, 9000]))
        t = proper(ends + [third]) if points[first] != points[last] else None
        if t:
            table += [turned(t, rng.randrange(3))] * rng.choice([1, 1, 1, 2])
    rng.shuffle(table)
    return table


KINDS = {"soup": soup, "mesh": mesh, "slivers": slivers, "borders": borders, "repeated": repeated, "copies": copies}
KINDS |= {"lattice": lattice, "beside": beside}


# ---- entries


def entries_of(table):
    """Key, level and item of each entry, by the model; nothing where a load is refused."""
    lines = engines.model_lines("entries", "".join(" ".join(map(str, t)) + "\n" for t in table))
    return [tuple(map(int, line.split())) for line in lines[1:]] if lines[0].isdigit() else None


def exactly(rng, total):
    """A table of exactly that many entries: a copy of a triangle adds as many as cells list it, and changes no cell."""
    while True:
        base = [anyhow(rng) for _ in range(rng.choice([4, 5, 6, 7]))]
        entries = entries_of(base)
        if entries is None:
            continue
        listed = collections.Counter(item for _, _, item in entries)
        counts = [listed[i] for i in range(len(base))]
        table, missing = list(base), total - len(entries)
        most = counts.index(max(counts))
        while missing > 3 * counts[most] and len(table) < 512:
            table.append(base[most])
            missing -= counts[most]
        chosen = reached(counts, missing, 512 - len(table)) if missing >= 0 else None
        if chosen is not None:
            return table + [base[i] for i in chosen]


def reached(counts, total, most):
    """At most that many numbers of triangles whose counts sum to the total, or nothing."""
    ways = {0: []}
    for _ in range(min(most, 4)):
        for reached_sum, chosen in list(ways.items()):
            for i, c in enumerate(counts):
                if reached_sum + c <= total and reached_sum + c not in ways:
                    ways[reached_sum + c] = chosen + [i]
    return ways.get(total)


# ---- edits of plain tables


def split(table, i, p):
    a, b, c = corners(table[i])
    return table[:i] + [a + b + p] + table[i + 1 :] + [b + c + p, c + a + p]


def side_split(table, i, p):
    """The table after triangle i is split at a point of its side."""
    a, b, c = corners(turned(table[i], side_of(table[i], p)))
    new = list(table)
    new[i] = a + p + c
    new.append(p + b + c)
    for j, t in enumerate(table):
        for first, second, third in (corners(turned(t, m)) for m in range(3)):
            if (first, second) == (b, a):
                new[j] = b + p + third
                return new + [p + a + third]
    return new


def taken(table, p):
    """The lowest numbered triangle that holds a point, or nothing."""
    return next((i for i, t in enumerate(table) if holds(t, p)), None)


def insert(table, p):
    """The table after an insert, or nothing."""
    i = taken(table, p)
    if i is None or p in corners(table[i]):
        return None
    return split(table, i, p) if inside(table[i], p) else side_split(table, i, p)


def flip(table, i, j):
    """The table after a flip, or nothing."""
    found = sides_shared(table[i], table[j]) if max(i, j) < len(table) else None
    if not found:
        return None
    (a, b, c), d = corners(turned(table[i], found[0])), corners(turned(table[j], found[1]))[2]
    first, second = a + d + c, d + b + c
    if min(orientation(first), orientation(second)) <= 0:
        return None
    new = list(table)
    new[i], new[j] = first, second
    return new


def take_out(table, p):
    """The table after a take-out, or nothing."""
    places = [i for i, t in enumerate(table) if p in corners(t)]
    if len(places) != 3:
        return None
    ends = [corners(turned(table[i], (corners(table[i]).index(p) + 1) % 3)) for i in places]
    a, b, _ = ends[0]
    for second, third in (ends[1:], ends[:0:-1]):
        if second[0] == b and second[1] == third[0] and third[1] == a:
            new = [a + b + second[1] if i == places[0] else t for i, t in enumerate(table)]
            return [t for i, t in enumerate(new) if i not in places[1:]]
    return None


def edited(call, table, operands):
    """The table after an edit, or nothing."""
    operands = tuple(operands)
    return flip(table, *operands) if call == "flip" else {"insert": insert, "take_out": take_out}[call](table, operands)


# ---- what an insert shows

# where its point is, where that also is in triangles that are not the lowest, and how many triangles are added to how many
PLACES = ["inside", "on a side alone", "on a side with a neighbour", "at a corner"]
HIGHER = [f"{place}, inside another" for place in PLACES] + ["inside, on a side of another", "at a corner, on a side of another"]
HIGHER += ["on a side with a neighbour, and a second one"]
ADDED = ["one to 511", "two to 510", "10 for one to 512", "10 for two to 511"]


def insert_place(table, p):
    """Where a point to be inserted is."""
    i, made = taken(table, p), insert(table, p)
    if made is None:
        return "nowhere" if i is None else "at a corner"
    if inside(table[i], p):
        return "inside"
    return "on a side alone" if len(made) == len(table) + 1 else "on a side with a neighbour"


def insert_shows(table, p, number):
    """What an insert that gives a number shows."""
    place = insert_place(table, p)
    added = f"{'one' if place == 'on a side alone' else 'two'} to {len(table)}"
    if number in (0, 10):
        yield f"insert {added}" if number == 0 else f"insert 10 for {added}"
    if number in (0, 14):
        yield f"insert {place}"
        i = taken(table, p)
        others = table[i + 1 :]
        if any(inside(t, p) for t in others):
            yield f"insert {place}, inside another"
        if any(side_of(t, p) is not None for t in others):
            yield f"insert {place}, on a side of another"
        if place == "on a side with a neighbour":
            beyond = side(table[i], side_of(table[i], p))[::-1]
            if sum(beyond in (side(t, k) for k in range(3)) for t in others) > 1:
                yield f"insert {place}, and a second one"
