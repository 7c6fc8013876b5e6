"""Each refusal of each edit, every way in which the triangles of an edit can be turned, which triangle an insert takes and which takes
part beside it, edits after which a table has 16,384 and 16,385 entries, and lists of edits, on meshes and on tables that overlap."""

import tables
from tables import U, V, corners, side_parts, side_point, turned

from .script import INNER, PARTS, SOMEWHERE, listed

# points by where they are in U: some inside are beside a side, some on sides beside an end, some outside by one
POINTS = {
    "inside": [INNER, (1, 1), (65533, 1), (32767, 32767)],
    "on a side": [(20000, 0), (1, 0), (65534, 0), (0, 1), (0, 45000), (0, 65534), (32768, 32767), (1, 65534), (65534, 1)],
    "at a corner": [(0, 0), (65535, 0), (0, 65535)],
    "in no triangle": [(32768, 32768), (65535, 1), (20000, 65535), (65535, 65535)],
}
GIVES = {"inside": 0, "on a side": 0, "at a corner": 14, "in no triangle": 7}
# triangles, and points beside a side with D = 1 and D = -1, and on the line of a side, near its ends and far from them
NEARLY = {
    (1000, 1000, 1009, 1007, 1000, 1020): {(1005, 1004): 0, (1004, 1003): 7, (1018, 1014): 7, (991, 993): 7},
    (0, 0, 65535, 65534, 0, 65535): {(1, 1): 0, (65534, 65533): 7, (32768, 32767): 7, (32767, 32767): 0},
    (40000, 40000, 50000, 50000, 40000, 60000): dict.fromkeys([(0, 0), (39999, 39999), (50001, 50001), (65535, 65535), (40000, 60001)], 7),
}
# side ab is from (100, 40) to (0, 40), and AT is on it; two on the other side of it, and one in its direction
ABOVE, AT = (100, 40, 0, 40, 30, 5), (40, 40)
BELOW, BELOW_TOO, ALONG = (0, 40, 100, 40, 60, 90), (0, 40, 100, 40, 50, 70), (100, 40, 0, 40, 70, 11)
# AT on a longer side, on a shorter one, at the end of one, and inside
LONGER, SHORTER, ENDING, AROUND = (0, 40, 120, 40, 60, 90), (20, 40, 80, 40, 60, 90), (40, 40, 100, 40, 60, 90), (0, 30, 90, 35, 40, 80)
# of few entries, far from the others
TINY = (65000, 9, 65001, 9, 65000, 10)


def inserts(s):
    for place, points in POINTS.items():
        for p in points:
            # V is U seen from the other end of the grid
            q = tuple(65535 - c for c in p)
            for table, at in (([U], p), ([V], q), ([U, U], p), ([turned(V, 1), V, V], q)):
                s.table(table, number=0)
                s.call(place, GIVES[place], "insert", *at)
            # each point is in one of them or in both
            for table in ([U, V], [V, U]):
                s.table(table, number=0)
                s.call("U and V", 14 if place == "at a corner" or q == (0, 0) else 0, "insert", *p)
    for t, points in NEARLY.items():
        for k in range(3):
            for p, number in points.items():
                s.table([turned(t, k)], number=0)
                s.call("nearly on a side", number, "insert", *p)
    s.table([], number=0)
    s.call("no triangle", 7, "insert", 1, 0)
    s.table([V, U, U], number=0)
    s.call("the second of three", 0, "insert", 1, 1)
    s.call("the same again", 14, "insert", 1, 1)
    s.call("one of its parts", 0, "insert", 100, 101)
    lowest(s)
    neighbours(s)
    lists_of_inserts(s)
    most_triangles(s)


def lowest(s):
    """The triangle that is taken, where others hold the point too, at another position."""
    charts = {
        "a corner of the lowest, inside another": ([ENDING, AROUND, ABOVE], 14),
        "a corner of the lowest, on a side of others": ([turned(ENDING, 1), ABOVE, BELOW], 14),
        "on a side of the lowest, inside another": ([SHORTER, AROUND, AROUND], 0),
        "on a side of the lowest, at a corner of another": ([ABOVE, ENDING], 0),
        "inside the lowest, on a side of others": ([AROUND, ABOVE, BELOW], 0),
        "inside the lowest, at a corner of another": ([turned(AROUND, 2), ENDING], 0),
        "inside several": ([AROUND, turned(AROUND, 1), AROUND], 0),
    }
    for shows, (table, number) in charts.items():
        for before in ([], [TINY, (0, 41, 100, 41, 60, 91)]):
            s.table(before + table, number=0)
            s.call(shows, number, "insert", *AT)
            s.measure(number=0)
            s.call("the same again", 14, "insert", *AT)


def neighbours(s):
    """The triangles on the other side, in every rotation, and those that stay as they are."""
    t = (12, 24, 24, 26, 16, 38)
    far = [(20, 7), (40, 45), (3, 29)]
    for k in range(3):
        a, b = tables.side(t, k)
        for i in range(3):
            for j in range(3):
                one, other = turned(t, i), turned(b + a + far[k], j)
                s.table([TINY, one, U, other, other], number=0)
                s.call(f"side {(k - i) % 3} facing {-j % 3}", 0, "insert", *side_point(t, k, 1))
    charts = {
        "no neighbour": [ABOVE],
        "a copy of it": [ABOVE, ABOVE, BELOW],
        "copies of it alone": [ABOVE, turned(ABOVE, 1), turned(ABOVE, 2)],
        "the lowest of two": [ABOVE, BELOW_TOO, BELOW],
        "the lowest of two, another way": [ABOVE, BELOW, BELOW_TOO],
        "a neighbour twice": [ABOVE, turned(BELOW, 1), BELOW],
        "the side in the same direction": [ABOVE, ALONG, BELOW],
        "the side in the same direction alone": [ABOVE, turned(ALONG, 1)],
        "a longer side": [ABOVE, LONGER],
        "a shorter side": [ABOVE, SHORTER],
        "a side that ends there": [ABOVE, ENDING],
        "a triangle around": [ABOVE, AROUND],
        "others before the neighbour": [ABOVE, LONGER, SHORTER, ENDING, AROUND, BELOW],
        "a corner in common": [ABOVE, (100, 40, 120, 40, 110, 90), (0, 40, 10, 60, 5, 90)],
    }
    for shows, table in charts.items():
        # first as it stands, then with each of the others as the lowest
        for k in range(len(table)):
            s.table(table[k:] + table[:k], number=0)
            s.call(shows, 14 if table[k] == ENDING else 0, "insert", *AT)
            s.measure(number=0)


def lists_of_inserts(s):
    """Inserts on the sides of what inserts made, and with flips and take-outs."""
    square = [(0, 0, 64, 0, 0, 64), (64, 64, 0, 64, 64, 0)]
    s.table(square, number=0)
    s.call("to be followed", 0, "insert", 24, 40)
    s.call("a side that it made", 0, "insert", 12, 20)
    s.call("a border", 0, "insert", 33, 64)
    s.call("inside after it", 0, "insert", 30, 30)
    s.call("a corner on the border", 8, "take_out", 33, 64)
    s.measure(number=0)
    # with a side of the new point flipped, three triangles are around it
    s.table(square, number=0)
    s.call("to be taken out", 0, "insert", 24, 40)
    s.call("a corner of four", 8, "take_out", 24, 40)
    s.call("a side of the new point", 0, "flip", 0, 3)
    s.call("after an insert and a flip", 0, "take_out", 24, 40)
    s.call("on what is left", 0, "insert", 12, 12)


def most_triangles(s):
    """509 to 512 triangles, inserts that add one and two, and more entries than there may be."""
    for n in (509, 510, 511, 512):
        for shows, p, beside in (("inside", (40, 39), TINY), ("alone", AT, TINY), ("and a neighbour", AT, BELOW)):
            s.table([TINY] * (n - 2) + [ABOVE, beside], number=0)
            if n == 512:
                s.call("7 before 10", 7, "insert", 400, 40)
                s.call("14 before 10", 14, "insert", 100, 40)
            fits = n + (1 if shows == "alone" else 2) <= 512
            s.call(f"{n} {shows}", 0 if fits else 10, "insert", *p)
            s.call("the same again", 14 if fits else 10, "insert", *p)
        s.table([U] * n, number=0)
        s.call(f"{n} copies", 0 if n + 2 <= 512 else 10, "insert", *INNER)
    # a new side through many copies
    s.table([U] * 300, number=0)
    s.call("7 before 11", 7, "insert", 65535, 65535)
    s.call("14 before 11", 14, "insert", 0, 0)
    s.call("many copies", 11, "insert", 20000, 0)
    # 511 triangles with 16,352 entries and some marks: an insert would list more
    s.table([(0, 0, 21845, 0, 0, 21845)] * 511, number=0)
    s.call("10 before 11", 10, "insert", 7001, 7000)
    for table in ([U] * 512, [U] * 510 + [V]):
        s.table(table, number=0)
        s.call("10 before 11", 10, "insert", 32768, 32767)


def take_outs(s):
    around = PARTS[:3]
    for first in range(3):
        for second in range(3):
            for third in range(3):
                for swapped in (False, True):
                    a, b, c = (turned(t, k) for t, k in zip(around, (first, second, third)))
                    table = [V, a] + ([c, V, b] if swapped else [b, V, c]) + [V]
                    shows = f"corners {(2 - first) % 3} {(2 - second) % 3} {(2 - third) % 3}" + (" swapped" if swapped else "")
                    s.table(table, number=0)
                    s.call(shows, 0, "take_out", *INNER)
    s.call("no triangle has the point", 8, "take_out", *INNER)
    p, q, r = around
    outer = (0, 0, 65535, 0, 65535, 1)
    charts = {
        "one triangle has the point": [p, V],
        "two triangles have the point": [p, q, V],
        "four triangles have the point": [p, q, r, p],
        "a triangle twice": [p, p, q],
        "a fan": [p, q, (0, 65535, 0, 60000) + INNER],
        "a gap": [p, (65535, 1, 0, 65535) + INNER, r],
        "three apart": [(0, 0, 9, 0) + INNER, (65535, 0, 65535, 9) + INNER, (0, 65535, 0, 65526) + INNER],
        "none": [outer, V],
    }
    for shows, table in charts.items():
        s.table(table, number=0)
        s.call(shows, 8, "take_out", *INNER)
    s.table([], number=0)
    s.call("no triangle", 8, "take_out", 0, 0)
    # a corner at (0, 0) and triangles that overlap those around the point
    s.table([U, U] + around + [U], number=0)
    s.call("among overlaps", 0, "take_out", *INNER)
    s.call("a corner of four", 8, "take_out", 0, 0)
    # insert, take out: the table is as it was
    s.table([V, U], number=0)
    s.call("to be taken out", 0, "insert", *INNER)
    s.call("taken out again", 0, "take_out", *INNER)


def flips(s):
    for i in range(3):
        for j in range(3):
            for back in (False, True):
                s.table([turned(U, i), turned(V, j), U], number=0)
                # the side of U starts at its corner 1, that of V at its corner 1
                shows = f"sides {(1 - i) % 3} {(1 - j) % 3}"
                s.call(shows, 0, "flip", *((1, 0) if back else (0, 1)))
                s.call("flipped back", 0, "flip", 0, 1)
    s.table([U, V], number=0)
    for i, j in ((2, 0), (0, 2), (2, 2), (0, 65535), (2**32 - 1, 1), (1, 2**32 - 1)):
        s.call("a triangle that is not there", 6, "flip", i, j)
    for i in range(2):
        s.call("a triangle with itself", 9, "flip", i, i)
    s.table([], number=0)
    s.call("no triangle", 6, "flip", 0, 0)
    base = (0, 0, 100, 0, 50, 80)
    charts = {
        "no side shared": [base, (200, 0, 300, 0, 250, 80)],
        "a corner shared": [base, (100, 0, 200, 0, 150, 80)],
        "the side in the same direction": [base, (0, 0, 100, 0, 50, 90)],
        "a repeated triangle": [base, turned(base, 1)],
        "a part of the side shared": [(0, 10, 100, 10, 50, 80), (99, 10, 0, 10, 50, 0)],
        "the first with D = 0": [(0, 10, 100, 10, 0, 80), (100, 10, 0, 10, 0, 0)],
        "the second with D = 0": [(0, 10, 100, 10, 100, 80), (100, 10, 0, 10, 100, 0)],
        "the first with D < 0": [(10, 10, 100, 10, 0, 80), (100, 10, 10, 10, 0, 0)],
        "the second with D < 0": [(0, 10, 90, 10, 100, 80), (90, 10, 0, 10, 100, 0)],
    }
    for shows, table in charts.items():
        s.table(table, number=0)
        s.call(shows, 9, "flip", 0, 1)
        s.call(shows, 9, "flip", 1, 0)
    s.table([U, V, U, V], number=0)
    s.call("among overlaps", 0, "flip", 2, 1)
    s.call("among overlaps", 0, "flip", 0, 3)


# ---- the most entries


def inside_drawn(rng, base):
    p = tuple(sum(c) // 3 for c in zip(*corners(base[0])))
    return base, tables.insert(base, p) if tables.inside(base[0], p) else None, ("insert", *p)


def flip_drawn(rng, base):
    a, b, c, d = (tables.anywhere(rng) for _ in "abcd")
    base[:1] = [a + b + c, b + a + d]
    good = min(map(tables.orientation, base[:2])) > 0
    return base, tables.flip(base, 0, 1) if good else None, ("flip", 0, 1)


def on_side_drawn(rng, base, beside=False):
    """Into the first triangle, at a point whose distances to the ends of its side are 1 to 3 times the same."""
    p, (dx, dy), c, d = tables.anywhere(rng), (rng.randint(-9000, 9000) for _ in "xy"), tables.anywhere(rng), tables.anywhere(rng)
    a, b = ((p[0] + n * dx, p[1] + n * dy) for n in (-rng.randint(1, 3), rng.randint(1, 3)))
    base[:1] = [a + b + c, b + a + d] if beside else [a + b + c]
    good = all(0 <= v <= 65535 for v in a + b) and min(map(tables.orientation, base[: 1 + beside])) > 0
    return base, tables.insert(base, p) if good else None, ("insert", *p)


# edits of drawn triangles, by what they show
DRAWN = {
    "insert inside": inside_drawn,
    "insert on a side alone": on_side_drawn,
    "insert on a side with a neighbour": lambda rng, base: on_side_drawn(rng, base, beside=True),
    "flip": flip_drawn,
}


def exactly_after(rng, total, edit):
    """A table and an edit of it after which it has exactly that many entries, and no more than allowed before: copies of
    triangles that the edit leaves alone add as many as cells list them."""
    while True:
        base, new, call = DRAWN[edit](rng, [tables.anyhow(rng) for _ in range(rng.choice([3, 4, 5]))])
        before, after = (tables.entries_of(t) if new else None for t in (base, new))
        if before is None or after is None:
            continue
        kept = [i for i, t in enumerate(base) if new[i] == t]
        adds = [[sum(item == i for _, _, item in entries) for i in kept] for entries in (before, after)]
        copies = fewest(adds[1], total - len(after))
        if copies is not None and len(base) + len(copies) <= 510 and len(before) + sum(adds[0][i] for i in copies) <= tables.LIMIT:
            return base + [base[kept[i]] for i in copies], call


def fewest(counts, total):
    """The fewest places of counts, with repetition, whose counts sum to the total; nothing where there are none."""
    last = [None] * (total + 1)
    many = [0] + [total + 1] * total
    for reached in range(1, total + 1):
        for i, c in enumerate(counts):
            if c <= reached and many[reached - c] + 1 < many[reached]:
                many[reached], last[reached] = many[reached - c] + 1, i
    if total < 0 or many[total] > total:
        return None
    places = []
    while total:
        places.append(last[total])
        total -= counts[last[total]]
    return places


def full(s):
    """Edits after which the table has 16,384 and 16,385 entries."""
    for edit in DRAWN:
        for total, number in ((16384, 0), (16385, 11)):
            table, call = exactly_after(s.rng, total, edit)
            s.table(table, number=0)
            s.call(f"{total} entries" + edit[len(call[0]) :], number, *call)
            s.read(SOMEWHERE[1], number=0)


# ---- lists of edits

# what they start from, and how many triangles of it
STARTS = {"UV": 2, "mesh": 60, "soup": 6, "borders": 6, "repeated": 12, "lattice": 40, "beside": 12, "nearly full": 508}


def new_point(rng, table):
    """A point to insert: inside a triangle, or a grid point between the ends of a side, where there is one; now and then a corner, a
    point beside these or on the line of a side, or one anywhere."""
    sides = [(t, k) for t in table for k in range(3) if side_parts(t, k) > 1]
    t, k = rng.choice(sides) if sides else (rng.choice(table), rng.randrange(3))
    parts = side_parts(t, k)
    on_side = side_point(t, k, rng.choice([1, parts - 1, parts // 2, rng.randrange(parts)]))
    beyond = side_point(t, k, rng.choice([-1, parts + 1]))
    middle = tuple(sum(c) // 3 for c in zip(*corners(rng.choice([t, rng.choice(table)]))))
    others = [side_point(t, k, 0), tables.near(rng, on_side, 1), tables.near(rng, middle, 50), tables.near(rng, beyond, 0), tables.anywhere(rng)]
    return rng.choice([on_side] * 8 + [middle] * 6 + others)


def start(rng, name):
    """A table that a load takes."""
    table = [U, V] if name == "UV" else None
    while not table or not tables.entries_of(table):
        table = tables.KINDS["lattice" if name == "nearly full" else name](rng)
        table = [TINY] * (STARTS[name] - len(table)) * (name == "nearly full") + table[: STARTS[name]]
    return [turned(t, rng.randrange(3)) for t in table]


def drawn_edits(s, name):
    """A list of edits, most of which can be done: of a mesh, or of a table whose triangles overlap. The table that they lead
    to is followed here to make them."""
    rng = s.rng
    s.on(rng.randrange(2))
    table = start(rng, name)
    s.table(table, number=0)
    points = []
    for _ in range(30):
        kind = rng.choice(["insert"] * 9 + ["flip"] * 4 + ["take_out"] * 2)
        shows = f"drawn on {name}"
        if kind == "insert":
            operands = new_point(rng, table)
            shows += "; " + tables.insert_place(table, operands)
        elif kind == "flip":
            i = rng.randrange(len(table))
            beside = [j for j in range(len(table)) if tables.sides_shared(table[i], table[j])]
            j = rng.choice(beside * 3 + [rng.randrange(len(table)), len(table)])
            operands = (i, j)
        else:
            operands = rng.choice(points[-3:] * 2 + [rng.choice(corners(rng.choice(table)))])
        s.call(shows, None, kind, *operands)
        new = tables.edited(kind, table, operands)
        if new and tables.entries_of(new):
            table = new
            points += [operands] * (kind == "insert")
    s.read(tables.anywhere(rng), rng.choice(corners(table[0])))
    s.measure()
    s.look("drawn edits")


# the numbers that each edit can give, and what each is made for
WANTED = [f"insert {n}" for n in (0, 1, 2, 3, 7, 10, 11, 14)] + [f"take_out {n}" for n in (0, 1, 2, 3, 8)]
WANTED += [f"flip {n}" for n in (0, 1, 2, 3, 6, 9, 11)]
WANTED += [f"insert: {place}" for place in POINTS] + [f"insert: side {i} facing {j}" for i in range(3) for j in range(3)]
WANTED += [f"insert: {n} {what}" for n in (509, 510, 511, 512) for what in ("inside", "alone", "and a neighbour", "copies")]
WANTED += [f"insert: {n} entries {place}" for n in (16384, 16385) for place in tables.PLACES if place != "at a corner"]
WANTED += [f"take_out: corners {i} {j} {k}{o}" for i in range(3) for j in range(3) for k in range(3) for o in ("", " swapped")]
WANTED += [f"flip: sides {i} {j}" for i in range(3) for j in range(3)] + ["flip: 16384 entries", "flip: 16385 entries"]
WANTED += ["insert of 16384", "flip of 16384"]
WANTED += listed(
    """insert: U and V; insert: nearly on a side; insert: no triangle; insert: the second of three; insert: the same again;
    insert: one of its parts; insert: a corner of the lowest, inside another; insert: a corner of the lowest, on a side of others;
    insert: on a side of the lowest, inside another; insert: on a side of the lowest, at a corner of another;
    insert: inside the lowest, on a side of others; insert: inside the lowest, at a corner of another; insert: inside several;
    insert: no neighbour; insert: a copy of it; insert: copies of it alone; insert: the lowest of two;
    insert: the lowest of two, another way; insert: a neighbour twice; insert: the side in the same direction;
    insert: the side in the same direction alone; insert: a longer side; insert: a shorter side; insert: a side that ends there;
    insert: a triangle around; insert: others before the neighbour; insert: a corner in common; insert: a side that it made;
    insert: a border; insert: inside after it; insert: on what is left; insert: 7 before 10; insert: 14 before 10;
    insert: 7 before 11; insert: 14 before 11; insert: 10 before 11; insert: many copies; take_out: after an insert and a flip"""
)
# drawn inserts, by number and place, and the other drawn edits
WANTED += [f"drawn insert 0 {place}" for place in tables.PLACES if place != "at a corner"]
WANTED += listed("drawn insert 7 nowhere; drawn insert 14 at a corner; drawn insert 10; drawn insert 11")
WANTED += listed("drawn take_out 0; drawn take_out 8; drawn flip 0; drawn flip 6; drawn flip 9")
WANTED += listed(
    """take_out: no triangle has the point; take_out: one triangle has the point;
    take_out: two triangles have the point; take_out: four triangles have the point; take_out: a triangle twice; take_out: a fan;
    take_out: a gap; take_out: three apart; take_out: no triangle; take_out: among overlaps; take_out: a corner of four;
    take_out: taken out again; flip: flipped back; flip: a triangle that is not there; flip: a triangle with itself;
    flip: no triangle; flip: no side shared; flip: a corner shared; flip: the side in the same direction; flip: a repeated triangle;
    flip: a part of the side shared; flip: the first with D = 0; flip: the second with D = 0; flip: the first with D < 0;
    flip: the second with D < 0; flip: among overlaps"""
)
# what each edit is to be met on
WANTED_OF_EDITS = [f"drawn on {name}" for name in STARTS]
