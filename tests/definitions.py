#!/usr/bin/env python3
"""Runs the definitions of document 01 (crates/spec_calls, crates/spec_log and below) inside the proof checker on generated input and holds
what they compute to what the reference model (model/) answers.

usage: definitions.py SEED COUNT [FOLDER]

COUNT of each kind of drawn case: the entries of a table; the log of a command stream; the public calls on raw buffers, most of
them damaged; an event on a plain table; an insert on a side that triangles share, among others; the overlay of two different
tables; windows of a table, with its own entries and with drawn ones. With them the fixed ones: locates and inserts at each position of a
triangle, in every rotation, refused locates, take-outs with the point at each corner, flips in every rotation, both ways, inserts on a
side that two triangles share in every rotation, inserts where several triangles hold the point, windows that touch a triangle and that
miss it by one, at seams of squares, and refused ones, and the worked streams of tests/cases.txt but those that load over 500 triangles,
which are named. That each of these, accepted take-outs and flips, inserts inside, on a side alone and with a neighbour, refused by 7 and
by 14, and pairs with i and j different are among them is asserted. The cases are facts of two crates that are written outside the
repository, whose gate reads every text, and checked there; nothing of them is kept but with a third word, the folder for them."""

import collections
import os
import random
import re
import subprocess
import sys
import tempfile

import crates
import engines
import streams
import tables
from call_cases import positions, windows
from tables import corners, drawn, entries_of, inside, insert, orientation, side_of, side_parts, side_point, sides_shared, taken, turned

TRIALS = ["trial", "trial_worked"]  # the crates of the cases: the worked streams take as long as all others


def numbers(values):
    return "(" + "".join(f"{v} ∷ " for v in values) + "[])"


def flat(ts):
    """The numbers of a table, or of entries."""
    return [v for t in ts for v in t]


# ---- what is drawn


def coordinate(rng, kind):
    if kind == "coarse":  # few places, so that sides touch, cross and repeat
        return min(65535, rng.choice([0, 1, 2, 3, 4]) * 16384)
    if kind == "fine":  # next to each other and to the borders of squares
        return max(0, min(65535, rng.choice([0, 8192, 32768, 65535]) + rng.randint(-3, 3)))
    return rng.randint(0, 65535)


def drawn_point(rng, kind):
    return (coordinate(rng, kind), coordinate(rng, kind))


def triangle(rng, kind):
    return drawn(lambda: [drawn_point(rng, kind) for _ in "abc"])


def few(ts, entries):
    """The entries of a table that has at most so many; else nothing."""
    found = entries_of(ts)
    return found if found is not None and len(found) <= entries else None


def table(rng, most, entries):
    """A table of at most `most` triangles and `entries` entries, with its entries."""
    while True:
        kind = rng.choice(["coarse", "coarse", "any", "fine"])
        ts = [triangle(rng, kind) for _ in range(rng.randint(1, most))]
        if rng.random() < 0.2:
            ts.append(rng.choice(ts))
        found = few(ts, entries)
        if found is not None:
            return ts, found


def around(rng, kind):
    """A point and the three triangles around it that a split makes."""
    while True:
        t = triangle(rng, kind)
        w = [rng.randint(1, 5) for _ in range(3)]
        p = tuple(sum(w[k] * t[2 * k + c] for k in range(3)) // sum(w) for c in (0, 1))
        if inside(t, p):
            return p, [t[0:4] + p, t[2:6] + p, t[4:6] + t[0:2] + p]


def sharing(rng, kind):
    """Two triangles (a,b,c) and (b,a,d) that can be flipped."""
    while True:
        t, d = triangle(rng, kind), drawn_point(rng, kind)
        a, b, c = corners(t)
        if orientation(b + a + d) > 0 and orientation(a + d + c) > 0 and orientation(d + b + c) > 0:
            return t, b + a + d


def halved(rng, kind):
    """Two triangles (a,b,c) and (b,a,d), and a point of the grid on ab, at neither end."""
    while True:
        t, d = triangle(rng, kind), drawn_point(rng, kind)
        a, b, _ = corners(t)
        if orientation(b + a + d) > 0 and side_parts(t, 0) > 1:
            return t, b + a + d, side_points(rng, t)[0]


def mesh(rng, entries):
    """A table with three triangles around a point and two that can be flipped, rotated and in any order: the table, the
    point, the two places, and the entries."""
    while True:
        kind = rng.choice(["coarse", "any"])
        p, three = around(rng, kind)
        two = list(sharing(rng, kind))
        ts = [(turned(t, rng.randrange(3)), k) for k, t in enumerate(three + two)]
        rng.shuffle(ts)
        found = few([t for t, _ in ts], entries)
        if found is not None:
            places = {k: n for n, (_, k) in enumerate(ts)}
            return [t for t, _ in ts], p, [places[3], places[4]], found


def point(rng, ts):
    """A point that is often a corner, on a side or strictly inside a triangle of the table."""
    t = rng.choice(ts) if ts else (0, 0, 9, 0, 0, 9)
    x, y = t[0::2], t[1::2]
    i, j = rng.randrange(3), rng.randrange(3)
    return rng.choice(
        [
            (x[i], y[i]),
            ((x[i] + x[j]) // 2, (y[i] + y[j]) // 2),
            (sum(x) // 3, sum(y) // 3),
            (rng.randint(0, 65535), rng.randint(0, 65535)),
        ]
    )


def side_points(rng, t):
    """A point of the grid on each side of a triangle that has one between its ends."""
    return [side_point(t, k, rng.randrange(1, side_parts(t, k))) for k in range(3) if side_parts(t, k) > 1]


def insert_few(ts, p, entries=150):
    """Whether an insert is refused by 7 or 14 or leaves at most so many entries."""
    made = insert(ts, p)
    return made is None or few(made, entries) is not None


def new_point(rng, ts):
    """A point to insert, which then leaves few entries or is refused; corners are refused."""
    while True:
        p = point(rng, ts)
        if insert_few(ts, p):
            return p


EDITS = {3: "insert", 4: "take_out", 5: "flip"}


def stream(rng):
    """A short command stream; a part of them is damaged at the end."""
    out, charts = b"", []
    for c in (0, 1):
        ts, _ = table(rng, 2, 30)
        faulty = [(5, 5) + triangle(rng, "any")[2:4] + (5, 5)] if rng.random() < 0.15 else []
        charts.append([] if faulty else ts)
        out += b"".join(b"\x01" + streams.words(t) for t in ts + faulty) + bytes([2, c])
    for _ in range(rng.randint(1, 3)):
        c = rng.randrange(2)
        code = rng.choice([3, 3, 4, 5, 6, 6])
        number = lambda: rng.randrange(len(charts[c]) + 2)
        operands = [number(), number()] if code == 5 else new_point(rng, charts[c]) if code == 3 else point(rng, charts[c])
        out += bytes([code, c]) + streams.words(operands)
        if code in EDITS:
            charts[c] = tables.edited(EDITS[code], charts[c], operands) or charts[c]
        if code == 3 and rng.random() < 0.6:
            out += bytes([4, c]) + streams.words(operands)
            charts[c] = tables.take_out(charts[c], operands) or charts[c]
    out += b"\x07"
    if rng.random() < 0.3:
        out += rng.choice([b"\x08", b"\x00", b"\x02\x02", b"\x03\x00\x01", b"\x01\x05", b"\x06\x01\x01\x01\x01"])
    return out


# ---- facts


def entries_case(rng):
    ts, found = table(rng, 3, 120)
    given = "".join(
        f"triangle (at {t[0]} {t[1]}) (at {t[2]} {t[3]}) (at {t[4]} {t[5]}) ∷ " for t in ts
    )
    return f"entry_numbers (entries_of ({given}[]))", numbers(flat(found))


def log_case(rng):
    data = stream(rng)
    return f"log_of {numbers(data)}", numbers(engines.run([engines.MODEL, "log"], data).encode())


DAMAGE = ["none", "none", "level", "key", "item", "mark", "count", "triangles", "short", "table", "swap", "behind"]
LISTS = ("table", "keys", "levels", "items")
met = collections.Counter()  # what the cases meet


def calls_of(script):
    """The lines that the model prints for a script of calls, as words, without the hash."""
    lines = engines.model_lines("calls", "\n".join(script) + "\n")
    return [l.split()[: None if l.startswith("dump") else -1] for l in lines]


def noted(ts, event, number):
    """Counts what an event on the table meets."""
    what, *operands = event
    met[f"{what} {number}"] += 1
    if what == "take_out" and number == 0:
        p = tuple(operands)
        for t in ts:
            if p in corners(t):
                met[f"take-out at corner {'abc'[corners(t).index(p)]}"] += 1
    if what == "flip" and number == 0:
        i, j = operands
        k, l = sides_shared(ts[i], ts[j])
        met[f"flip of sides {k} {l}" + (" back" if i > j else "")] += 1
    if what == "insert":
        p, i = tuple(operands), taken(ts, tuple(operands))
        met.update(tables.insert_shows(ts, p, number))
        if number == 14:
            met[f"insert at corner {'abc'[corners(ts[i]).index(p)]}"] += 1
        if number == 0 and not inside(ts[i], p):
            k, made = side_of(ts[i], p), insert(ts, p)
            other = [j for j, t in enumerate(ts) if j != i and made[j] != t]
            l = sides_shared(turned(ts[i], k), ts[other[0]])[1] if other else "alone"
            met[f"insert on sides {k} {l}"] += 1


def event_fact(ts, event):
    """The event on the plain table: refused with number and value, or the whole new table."""
    what, *e = event
    plain = " ".join(map(str, e))
    loaded, done, dump = calls_of([f"load 0 {' '.join(map(str, flat(ts)))}", f"{what} 0 {plain}", "dump table0 0 3072"])
    assert loaded[1] == "0", ts
    number, value, n = int(done[1]), int(done[2]), int(done[3])
    noted(ts, event, number)
    want = [0] + [int(v) for v in dump[3 : 3 + 6 * n]] if number == 0 else [number, value]
    written = {
        "load": lambda: f"load {numbers(e)}",
        "insert": lambda: f"insert (at {e[0]} {e[1]})",
        "take_out": lambda: f"take_out (at {e[0]} {e[1]})",
        "flip": lambda: f"flip {e[0]} {e[1]}",
    }[what]()
    return f"outcome_numbers (event_on ({written}) (given_table {numbers(flat(ts))}))", numbers(want)


def event_case(rng):
    ts, p, two, _ = mesh(rng, 60)
    i, j = rng.sample(two, 2) if rng.random() < 0.6 else (rng.randrange(6), rng.randrange(6))
    other = flat([triangle(rng, "any"), triangle(rng, "any")])
    if rng.random() < 0.5:
        other = rng.choice([other[:-1], other[:6] + other[8:10] + other[6:8] + other[10:]])
    take_outs = [("take_out", *p), ("take_out", *point(rng, ts))]
    return event_fact(ts, rng.choice([*take_outs, ("flip", i, j), ("insert", *new_point(rng, ts)), ("load", *other)]))


def insert_case(rng):
    """An insert at a point of a side that two triangles may share, among others: copies, triangles on the same ends either way round,
    and triangles on a part of the side, which have the point as a corner."""
    while True:
        kind = rng.choice(["coarse", "any", "fine"])
        t, u, p = halved(rng, kind)
        (a, b, c), d = corners(t), corners(u)[2]
        e = drawn_point(rng, kind)
        more = [v for v in (t, u, u, a + b + e, b + a + e, p + a + d, b + p + d, a + p + c) if orientation(v) > 0]
        ts = [turned(v, rng.randrange(3)) for v in [t, *rng.sample(more, rng.randint(0, 3))]]
        rng.shuffle(ts)
        if few(ts, 60) is not None and insert_few(ts, p):
            return event_fact(ts, ("insert", *p))


# a point, and triangles of few entries that have it inside, on a side, at a corner, and on that side from beyond
HELD = (1, 2)
IN, ON, ENDING, BEYOND = (0, 2, 2, 0, 4, 3), (1, 0, 2, 0, 0, 4), (1, 2, 2, 2, 1, 3), (0, 4, 2, 0, 4, 3)
HOLDERS = [[ENDING, IN, ON], [ON, IN], [ON, IN, BEYOND], [IN, ON], [IN, IN, ENDING], [ON, turned(ON, 1), BEYOND, turned(BEYOND, 2)]]


def fixed_inserts(rng):
    """Inserts at each position of a triangle in every rotation, on a side that two triangles share in the nine pairs of rotations, and
    where several triangles hold the point."""
    t, other = positions.TRIANGLES[1]
    for k in range(3):
        for p in positions.places(turned(t, k)):
            yield event_fact([other, turned(t, k)] if k == 2 else [turned(t, k)], ("insert", *p))
    while True:
        t, u, p = halved(rng, "coarse")
        if few(insert([t, u], p), 90) is not None:
            break
    for k in range(3):
        for l in range(3):
            yield event_fact([turned(t, k), turned(u, l)], ("insert", *p))
    for ts in HOLDERS:
        yield event_fact(ts, ("insert", *HELD))


def fixed_events(rng):
    """Take-outs with the point at each corner of each of the three triangles, and flips in the nine pairs of rotations, both ways, on a
    table of few entries."""
    while True:
        (p, three), rest = around(rng, "coarse"), [triangle(rng, "coarse"), triangle(rng, "coarse")]
        if few(three + rest, 60) is not None:
            break
    while True:
        two = list(sharing(rng, "coarse"))
        if few(rest[:1] + two, 60) is not None:
            break
    for k in range(3):
        three_turned = [turned(t, (k + n) % 3) for n, t in enumerate(three)]
        rng.shuffle(three_turned)
        yield event_fact(rest[:1] + three_turned[:2] + rest[1:] + three_turned[2:], ("take_out", *p))
    for k in range(3):
        for l in range(3):
            ts = [rest[0], turned(two[0], k), turned(two[1], l)]
            yield event_fact(ts, ("flip", 1, 2))
            yield event_fact(ts, ("flip", 2, 1))


def overlay_fact(ss, ts):
    loads = [f"load {c} {' '.join(map(str, flat(x)))}" for c, x in ((0, ss), (1, ts))]
    _, _, done, dump = calls_of(loads + ["overlay 0 1", "dump pairs 0 8192"])
    count = int(done[2])
    pairs = [int(v) for v in dump[3 : 3 + 2 * count]]
    met["overlay pairs with i and j different"] += sum(i != j for i, j in zip(pairs[0::2], pairs[1::2]))
    given = f"overlaid (given_table {numbers(flat(ss))}) (given_table {numbers(flat(ts))})"
    return given, numbers([int(done[1]), count, int(done[3])] + pairs)


def overlay_case(rng):
    return overlay_fact(table(rng, 3, 40)[0], table(rng, 3, 40)[0])


class Buffers:
    """The buffers of a chart that has entries, those of its table or others: what is used of them, their lengths with that of the pairs,
    what unused places hold, and the counts."""

    def __init__(self, ts, entries):
        self.used = dict(zip(LISTS, (flat(ts), *map(list, zip(*entries)))))
        self.length = {"table": 3072, "keys": 16384, "levels": 16384, "items": 16384, "pairs": 8192}
        self.pad, self.triangles, self.entries = 0, len(ts), len(entries)

    def damage(self, rng):
        """Damages them at random, in one way or in none; tells whether it did."""
        table, keys, levels, items = self.used.values()
        i, n = rng.randrange(self.entries), self.entries
        how = rng.choice(DAMAGE)
        if how == "level":
            levels[i] = rng.choice([17, levels[i] + 1, max(0, levels[i] - 1), 255])
        elif how == "key":
            keys[i] = rng.choice([keys[i] + 1, keys[(i + 1) % n], 0, 2**32 - 1])
        elif how == "item":
            items[i] = rng.choice([self.triangles, 0, 512, max(0, items[i] - 1)])
        elif how == "mark":
            items[i] = 65535
        elif how == "count":
            self.entries = rng.choice([0, n - 1, n + 1, 16385])
        elif how == "triangles":
            self.triangles = rng.choice([0, self.triangles - 1, self.triangles + 1, 513])
        elif how == "short":
            self.length[rng.choice(["keys", "levels", "pairs", "table", "items"])] -= 1
        elif how == "table":
            table[rng.randrange(len(table))] = rng.randint(0, 65535)
        elif how == "swap" and n > 1:
            items[i], items[(i + 1) % n] = items[(i + 1) % n], items[i]
        elif how == "behind":
            self.pad = 7
        return how not in ("none", "behind")

    def script(self, c):
        """The model's commands that make them chart c."""
        for b, used in self.used.items():
            yield from (f"len {b}{c} 0", f"len {b}{c} {self.length[b]} {self.pad}", f"set {b}{c} 0 " + " ".join(map(str, used)))
        yield f"counts {c} {self.triangles} {self.entries}"

    def written(self):
        """They as the cases write them."""
        sizes, lists = " ".join(str(self.length[b]) for b in LISTS), " ".join(map(numbers, self.used.values()))
        return f"(chart {self.pad} {sizes} {lists} {self.triangles} {self.entries})"


def answered(lines):
    """The numbers of the answers and dumps that the model prints."""
    for what, *rest in lines:
        if what == "locate":
            number, triangle, place = rest
            met[f"locate {number} position {place}"] += 1
            yield from [int(number), *([0] if triangle == "nowhere" else [1, int(triangle)]), int(place)]
        elif what == "listing":
            yield from map(int, rest[1 : 1 + int(rest[0])])
        elif what == "sound":
            yield from (int(rest[0]), int(rest[1] == "yes"))
        elif what == "dump":
            yield from map(int, rest[2:])
        else:
            yield from map(int, rest)
            met[f"call {what} {rest[0]}"] += 1


def calls_case(rng):
    """Every public call on the buffers of two charts, the first often damaged; numbers, values, counts and the lists as far as
    they are used."""
    ts, p, two, entries = mesh(rng, 40)
    first, second = Buffers(ts, entries), Buffers(*table(rng, 2, 24))
    met["calls on a chart that is " + ("damaged" if first.damage(rng) else "sound")] += 1
    q = point(rng, ts)
    r = new_point(rng, ts)
    z = next(z for z in [*side_points(rng, rng.choice(ts)), r] if insert_few(ts, z))
    i, j = rng.sample(two, 2)
    pairs, places, w = first.length["pairs"], rng.choice([511, 512, 512, 513]), windows.drawn_window(rng, ts)
    script = [*first.script(0), *second.script(1), "len pairs 0", f"len pairs {pairs} 9"]
    script += [f"locate 0 {q[0]} {q[1]}", f"listing 0 {q[0]} {q[1]}", "sound 0", "area 0", "overlay 0 1", "dump pairs 0 12", "overlay 1 0", "dump pairs 0 12"]
    script += ["len pairs 0", f"len pairs {places} 9", "window 0 " + " ".join(map(str, w)), "dump pairs 0 12", f"dump pairs {places - 2} {places}"]
    changes = [f"insert 1 {r[0]} {r[1]}", f"take_out 1 {p[0]} {p[1]}", f"flip 1 {i} {j}", f"insert 1 {z[0]} {z[1]}"]
    changes.append(f"load 1 {' '.join(map(str, ts[0]))}")
    for change in changes:
        script += ["copy 0 1", change, "dump table1 0 44", "dump keys1 0 30", "dump levels1 0 30", "dump items1 0 30"]
    given = (
        f"call_numbers {first.written()} {second.written()}"
        f" (replicate {pairs} 9) {places} (box {' '.join(map(str, w))})"
        f" (at {q[0]} {q[1]}) (at {r[0]} {r[1]}) (at {z[0]} {z[1]}) (at {p[0]} {p[1]}) {i} {j} {numbers(ts[0])}"
    )
    return given, numbers(answered(calls_of(script)))


def located_fact(buffers, p):
    given = f"located (locate_call {buffers.written()} (at {p[0]} {p[1]}))"
    return given, numbers(answered(calls_of([*buffers.script(0), f"locate 0 {p[0]} {p[1]}"])))


def fixed_locates():
    """Locates at each position of a triangle, listed between one that does not hold the points and one that holds them elsewhere;
    then refused ones, of a point inside: a list is short, a count is too high."""
    for t, other in positions.TRIANGLES:
        ts, points = [other, t, turned(t, 1)], positions.places(t)
        good, short, uncounted = (Buffers(ts, [(0, 0, item) for item in range(len(ts))]) for _ in range(3))
        short.length["keys"] -= 1
        uncounted.entries += 1
        yield from (located_fact(good, p) for p in points)
        yield from (located_fact(buffers, points[0]) for buffers in (short, uncounted))


def given_entries(entries):
    return "(" + "".join(f"entry {key} {level} {item} ∷ " for key, level, item in entries) + "[])"


def window_fact(ts, entries, sides):
    """What a window lists of a table with these entries."""
    buffers = Buffers(ts, entries)
    (_, number, count), dump = calls_of([*buffers.script(0), "window 0 " + " ".join(map(str, sides)), "dump pairs 0 512"])
    assert number == "0", (ts, entries, sides)
    met["window of some" if count != "0" else "window of none"] += 1
    given = f"window_of (given_table {numbers(flat(ts))}) {given_entries(entries)} (box {' '.join(map(str, sides))})"
    return given, numbers(map(int, dump[3 : 3 + int(count)]))


def windowed_fact(buffers, sides, places):
    """A window into a list of so many places."""
    script = [*buffers.script(0), "len pairs 0", f"len pairs {places} 7", "window 0 " + " ".join(map(str, sides))]
    dumps = ["dump pairs 0 12", f"dump pairs {places - 2} {places}"]
    given = f"windowed {places} (window_call {buffers.written()} (box {' '.join(map(str, sides))}) (replicate {places} 7))"
    return given, numbers(answered(calls_of(script + dumps)))


def window_case(rng):
    """A window of a table with its own entries, or with drawn ones."""
    ts, entries = table(rng, 3, 60)
    sides = windows.EMPTY
    while not windows.has_points(sides):
        sides = windows.drawn_window(rng, ts)
    chain = windows.drawn_chain(rng, len(ts))
    return window_fact(ts, chain if len(chain) <= 60 else entries, sides)


def fixed_windows():
    """Windows that touch a triangle in one point, in each rotation, and those beside them, at fractional points alone, and at seams of
    squares that list other triangles; then windows of the call: lists of 511 to 513 places, refusals and their order."""
    whole = [(0, 0, 0)]
    for k, (touches, apart) in enumerate(windows.TOUCHING.items()):
        for sides in (touches, *apart):
            yield window_fact([turned(windows.SLANTED, k % 3)], whole, sides)
    for sides in windows.OTHERS:
        yield window_fact([windows.SLANTED], whole, sides)
    for sides in windows.BETWEEN:
        yield window_fact([windows.THIN], whole, sides)
    for x in (32767, 32768, 32769):
        for y in (32767, 32768, 32769):
            yield window_fact([tables.U, tables.V] * 4, windows.QUARTERS, (x, y, x, y))
    good, short, uncounted = (Buffers([tables.U, tables.V], entries_of([tables.U, tables.V])) for _ in range(3))
    short.length["levels"] -= 1
    uncounted.entries += 1
    for buffers in (good, uncounted, short):
        for sides in (windows.GRID, windows.EMPTY, (9, 9, 9, 8)):
            for places in (511, 512, 513):
                yield windowed_fact(buffers, sides, places)


# ---- the worked streams of tests/cases.txt

MOST = 500  # a load of so many triangles, executed, is beyond the checker's memory


def largest_load(commands):
    """The most triangles that a stream loads at once."""
    most = waiting = 0
    for c in commands:
        times = re.fullmatch(r"(\d+)x 1 .*", c)
        if times or c.startswith("1 "):
            waiting += int(times.group(1)) if times else 1
        elif c.startswith("2 "):
            most, waiting = max(most, waiting), 0
    return most


def worked_cases():
    faults = []
    for name, given, wanted in streams.cases(faults):
        commands = streams.parts(given)
        if largest_load(commands) >= MOST:
            print(f"not executed, a load of over {MOST} triangles: {name}")
            continue
        met["worked streams"] += 1
        yield f"log_of {numbers(b''.join(map(streams.command, commands)))}", numbers(streams.log(wanted))
    if faults:
        sys.exit("\n".join(faults))


HEADER = """use Rattle.std.specs.Prelude.{◌≡◌, refl, Bool, true, false, List, [], ◌∷◌, ◌++◌, ℕ, ◌-◌, length, take, drop, replicate}
use Rattle.spec_plane.specs.declared.Point.{Point}
use Rattle.spec_plane.specs.Position.{position_number}
use Rattle.spec_plane.specs.Box.{Box}
use Rattle.theory_orthtree.specs.Entries.{Entry}
use Rattle.spec_charts.specs.Cells.{entries_of}
use Rattle.spec_charts.specs.Edits.{triangle, given_table, load, insert, take_out, flip, event_on}
use Rattle.spec_window.specs.Window.{window_of}
use Rattle.spec_calls.specs.Buffers.{Chart, padded}
use Rattle.spec_calls.specs.Calls.{Changed, Located, Soundness, Area, Windowed, Overlaid, load_call, insert_call, take_out_call, flip_call, locate_call, listing_call, sound_call, area_call, window_call, overlay_call}
use Rattle.spec_log.specs.Log.{log_of}
use Rattle.spec_calls.proofs.Evaluate.{evaluate}
use Rattle.spec_log.proofs.Evaluate.{evaluate as logging}
use Rattle.spec_charts.proofs.Written.{at, entry_numbers, found_numbers, outcome_numbers, overlaid}

abbrev buffer : ℕ → ℕ → List ℕ → List ℕ
buffer pad n used = used ++ replicate (n - length used) pad

abbrev chart : ℕ → ℕ → ℕ → ℕ → ℕ → List ℕ → List ℕ → List ℕ → List ℕ → ℕ → ℕ → Chart
chart pad m a b c t ks ls is n e =
    record { table = buffer pad m t; keys = buffer pad a ks; levels = buffer pad b ls; items = buffer pad c is; triangle_count = n; entry_count = e }

abbrev located : Located → List ℕ
located r = (r.number ∷ found_numbers r.found) ++ (position_number r.position ∷ [])

abbrev yes-no : Bool → ℕ
yes-no true = 1
yes-no false = 0

abbrev changed : Changed → List ℕ
changed r =
    (r.number ∷ r.value ∷ r.chart.triangle_count ∷ r.chart.entry_count ∷ []) ++ take 44 (r.chart.table)
    ++ take 30 (r.chart.keys) ++ take 30 (r.chart.levels) ++ take 30 (r.chart.items)

abbrev box : ℕ → ℕ → ℕ → ℕ → Box
box l t r b = record { left = l; top = t; right = r; bottom = b }

abbrev entry : ℕ → ℕ → ℕ → Entry
entry k l i = record { key = k; level = l; item = i }

abbrev windowed : ℕ → Windowed → List ℕ
windowed n w = (w.number ∷ w.listed ∷ []) ++ take 12 w.list ++ drop (n - 2) w.list

abbrev pairing : Overlaid → List ℕ
pairing o = (o.number ∷ o.pair_count ∷ o.meets ∷ []) ++ take 12 o.pairs

abbrev call_numbers : Chart → Chart → List ℕ → ℕ → Box → Point → Point → Point → Point → ℕ → ℕ → List ℕ → List ℕ
call_numbers c d pairs n w q r z p i j ns =
    let o = overlay_call c d pairs in
    located (locate_call c q) ++ listing_call c q
    ++ ((sound_call c).number ∷ yes-no (sound_call c).is_sound ∷ (area_call c).number ∷ (area_call c).area ∷ [])
    ++ pairing o ++ pairing (overlay_call d c o.pairs) ++ windowed n (window_call c w (replicate n 9))
    ++ changed (insert_call r c) ++ changed (take_out_call p c) ++ changed (flip_call i j c)
    ++ changed (insert_call z c) ++ changed (load_call ns c)
"""


# the crates that the cases name, and what they stand on
CRATES = crates.below(re.findall(r"Rattle\.(\w+)\.", HEADER))

# one triangle that shares ground with both of two
FIXED_OVERLAY = (
    [(40000, 5000, 45000, 5000, 60000, 45000), (65535, 65535, 0, 40000, 60000, 45000)],
    [(30000, 50000, 30000, 0, 65535, 30000)],
)

# what every run must meet
EXPECTED = [f"take-out at corner {c}" for c in "abc"]
EXPECTED += [f"flip of sides {k} {l}{way}" for k in range(3) for l in range(3) for way in ("", " back")]
EXPECTED += [f"insert on sides {k} {l}" for k in range(3) for l in (0, 1, 2, "alone")] + [f"insert at corner {c}" for c in "abc"]
EXPECTED += [f"insert {what}" for what in tables.PLACES + tables.HIGHER] + ["insert 7", "insert 14"]
EXPECTED += [f"locate 0 position {place}" for place in range(8)] + ["locate 1 position 7", "locate 2 position 7"]
EXPECTED += [f"call window {n}" for n in (0, 1, 2, 15)] + ["window of some", "window of none"]
EXPECTED += ["overlay pairs with i and j different", "worked streams"]


def judge(facts, folder):
    """Writes the cases as facts of two crates in a folder, and has them checked there."""
    crates.copy(folder, CRATES, dict.fromkeys(TRIALS, CRATES))
    texts = dict.fromkeys(TRIALS, HEADER)
    for kind, fs in facts.items():
        for k, (given, want) in enumerate(fs):
            fact = f"\n{kind}-{k} : {given} ≡ {want}\nunfolding evaluate logging\n{kind}-{k} = refl\n"
            texts[TRIALS[kind == "worked"]] += fact
    for trial, text in texts.items():
        files = {"src/lib.rt": "// Facts to try.\n\n#![tactic(auto)]\n", "proofs/Lib.antt": "pub mod Cases\n", "proofs/Cases.antt": text}
        for file, said in files.items():
            crates.write(os.path.join(folder, "crates", trial, file), said)
    cases = sum(map(len, facts.values()))
    print(f"checking {cases} cases, seed {sys.argv[1]}", flush=True)
    said, failed = "", False
    for trial in TRIALS:
        run = subprocess.run(["rt", "check"], cwd=os.path.join(folder, "crates", trial), stdout=subprocess.PIPE, stderr=subprocess.STDOUT, text=True)
        said, failed = said + run.stdout, failed or run.returncode != 0
    wrong = sorted(set(re.findall(r"error: `([a-z]+-\d+)`", said)))
    if failed or wrong:
        print("\n".join(l[:2000] for l in said.split("\n") if "Cases.antt" in l or "error" in l)[:8000])
        print("cases that differ from the model, or were not decided:", " ".join(wrong))
        sys.exit(1)
    print(f"{cases} cases agree with the model")


def main():
    seed, count = int(sys.argv[1]), int(sys.argv[2])
    rng = random.Random(seed)
    facts = {
        "entries": [entries_case(rng) for _ in range(count)],
        "log": [log_case(rng) for _ in range(count)],
        "calls": [calls_case(rng) for _ in range(count)],
        "event": [event_case(rng) for _ in range(count)],
        "insert": [insert_case(rng) for _ in range(count)],
        "overlay": [overlay_case(rng) for _ in range(count)],
        "window": [window_case(rng) for _ in range(count)],
        "fixed": [*fixed_events(rng), *fixed_inserts(rng), *fixed_locates(), *fixed_windows(), overlay_fact(*FIXED_OVERLAY)],
        "worked": list(worked_cases()),
    }
    print("met: " + ", ".join(f"{n} {k}" for k, n in sorted(met.items())))
    if not engines.all_met(dict.fromkeys(EXPECTED, 1), met):
        sys.exit(1)
    if len(sys.argv) > 3:
        judge(facts, sys.argv[3])
    else:
        with tempfile.TemporaryDirectory(prefix="definitions-") as folder:
            judge(facts, folder)


if __name__ == "__main__":
    main()
