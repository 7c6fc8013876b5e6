"""Every fault of the chain rule, one after another, each once with nothing else amiss, and counts that are too high; then entries
that satisfy the chain rule and are not those of the table; then charts that are loaded, read, damaged at random and read again."""

import tables
from tables import MARK, U, V, entries_of

from .script import ITEMS, KEYS, LEVELS, PARTS, TABLE, listed

# What is changed in the chart of U and V, and the number that it then gives. Its entries: 0 to 2 alone in their cells of level
# 2, then a cell of level 2 and two of level 1 with both triangles, then a cell of level 1 with V.
CHANGES = {
    "level 17": ([(LEVELS, 0, 17)], 2),
    "level 255": ([(LEVELS, 0, 255)], 2),
    "level 17 at the end": ([(LEVELS, 9, 17)], 2),
    "a smaller cell and a gap": ([(LEVELS, 1, 16)], 2),
    "first key 1": ([(KEYS, 0, 1)], 2),
    "first key of another square": ([(KEYS, 0, 268435456)], 2),
    "a key that is no multiple": ([(KEYS, 1, 268435457)], 2),
    "a gap": ([(KEYS, 1, 536870912)], 2),
    "a cell that starts over": ([(KEYS, 2, 268435456)], 2),
    "back to the first key": ([(KEYS, 2, 0)], 2),
    "a cell that overlaps the next": ([(LEVELS, 2, 1)], 2),
    "the last cell ends short": ([(LEVELS, 9, 2)], 2),
    "the same key with a higher level": ([(LEVELS, 4, 3)], 2),
    "the same key with a lower level": ([(LEVELS, 6, 0)], 2),
    "the same key and a higher level first": ([(LEVELS, 3, 3)], 2),
    "descending numbers in a cell": ([(ITEMS, 3, 1), (ITEMS, 4, 0)], 2),
    "a triangle twice in its cell": ([(ITEMS, 4, 0)], 2),
    "the mark before a triangle": ([(ITEMS, 3, MARK)], 2),
    "the mark after a triangle": ([(ITEMS, 4, MARK)], 2),
    "the mark twice in a cell": ([(ITEMS, 3, MARK), (ITEMS, 4, MARK)], 2),
    "a triangle number at the count": ([(ITEMS, 0, 2)], 2),
    "a triangle number above the count at the end": ([(ITEMS, 9, 3)], 2),
    "a triangle number beside the mark": ([(ITEMS, 0, MARK - 1)], 2),
    "a triangle with D = 0": ([(TABLE, 2, 0)], 2),
    "a triangle with D < 0": ([(TABLE, 0, 0, 0, 0, 65535, 65535, 0)], 2),
    "the last triangle with D < 0": ([(TABLE, 6, 0, 0, 0, 65535, 65535, 0)], 2),
    # no faults of the chain
    "nothing": ([], 0),
    "another listing": ([(ITEMS, 0, MARK)], 0),
    "a triangle that does not meet its cell": ([(ITEMS, 0, 1)], 0),
    "another triangle": ([(TABLE, 0, 40000)], 0),
    "one cell for all": ([(KEYS, 0, 0), (LEVELS, 0, 0), (ITEMS, 0, 1), ("counts", 2, 1)], 0),
    # counts
    "a triangle fewer": ([("counts", 1, 10)], 2),
    "no triangle left": ([("counts", 0, 10)], 2),
    "an entry fewer": ([("counts", 2, 9)], 2),
    "an entry more": ([("counts", 2, 11)], 2),
    "no entry": ([("counts", 2, 0)], 2),
    "513 triangles": ([("counts", 513, 10)], 2),
    "65538 triangles": ([("counts", 65538, 10)], 2),
    "2^32 - 1 triangles": ([("counts", 2**32 - 1, 10)], 2),
    "16385 counted": ([("counts", 2, 16385)], 2),
    "65546 counted": ([("counts", 2, 65546)], 2),
    "70000 counted": ([("counts", 2, 70000)], 2),
    "2^32 - 1 counted": ([("counts", 2, 2**32 - 1)], 2),
    "both counts at their most": ([("counts", 2**32 - 1, 2**32 - 1)], 2),
}


def damaged(s):
    """The chart of U and V, with one change after another."""
    for shows, (changes, number) in CHANGES.items():
        s.table([U, V])
        s.change(changes)
        s.read((1, 1), (40000, 60000), shows=shows, number=number)
        s.measure(shows, number)
        s.look(shows, number)
        if changes:
            s.edit(shows, number or 3)


# ---- whole chains


def grid(first=0, last=16, item=MARK):
    """The cells of level 2 from one up to another, one entry each."""
    return [(2**28 * k, 2, item) for k in range(first, last)]


def ladder(key, levels):
    """Three cells of each level in turn, from a key on."""
    entries = []
    for level in levels:
        for _ in range(3):
            entries.append((key, level, MARK))
            key += 4 ** (16 - level)
    return entries


# with nothing but one fault, or with none
CHAINS = {
    "sixteen cells": (grid(), 0),
    "cells of every level": ([(0, 16, MARK)] + ladder(1, range(16, 0, -1)), 0),
    "a cell of one key with level 17": ([(0, 17, MARK)] + ladder(1, range(16, 0, -1)), 2),
    "a cell of one key with level 255": ([(0, 255, MARK)] + ladder(1, range(16, 0, -1)), 2),
    "the first cell is missing": (grid(1), 2),
    "a cell is missing": (grid(0, 5) + grid(6), 2),
    "the last cell is missing": (grid(0, 15), 2),
    "a cell too many": (grid(0, 16) + [(2**32 - 1, 16, MARK)], 2),
    "a cell inside the one before": ([(0, 1, MARK)] + grid(1), 2),
    "keys that are no multiples": (
        [(0, 16, MARK)] + [(1 + 2**28 * k, 2, MARK) for k in range(15)] + ladder(1 + 15 * 2**28, range(3, 17)),
        2,
    ),
    "a cell twice with the mark": (grid(0, 5) + grid(4), 2),
    "a number at the count alone": (grid(0, 5) + grid(5, 6, 2) + grid(6), 2),
}


def hand_made(s):
    for shows, (entries, number) in CHAINS.items():
        s.table([U, V])
        s.entries(2, entries)
        s.read((1, 1), (40000, 60000), shows=shows, number=number)
        s.measure(shows, number)
        s.look(shows, number)
        s.edit(shows, number or 3)


# ---- entries that are not those of the table


def cell_of(entries, i):
    """The places of the entries in the cell of entry i."""
    return [k for k, e in enumerate(entries) if e[:2] == entries[i][:2]]


def stale(s):
    """Entries that satisfy the chain rule and are those of the table but for one entry, or one cell."""
    table = PARTS + [V, (20000, 3000, 24000, 3000, 20000, 5000)]
    good = entries_of(table)
    n, last = len(table), len(good) - 1
    alone = next(i for i in range(len(good)) if len(cell_of(good, i)) == 1)
    several = next(i for i in range(len(good)) if len(cell_of(good, i)) > 2 and cell_of(good, i)[0] == i)
    key, level, item = good[alone]
    size = 4 ** (15 - level)
    charts = {
        "another item": good[:alone] + [(key, level, (item + 1) % n)] + good[alone + 1 :],
        "the mark for an item": good[:alone] + [(key, level, MARK)] + good[alone + 1 :],
        "a cell divided": good[:alone] + [(key + k * size, level + 1, item) for k in range(4)] + good[alone + 1 :],
        "cells joined": joined(good),
        "the first of a cell missing": good[:several] + good[several + 1 :],
        "another of a cell missing": good[: several + 1] + good[several + 2 :],
        "one more in a cell": good[: alone + 1] + [(key, level, n - 1)] + good[alone + 1 :],
        "the last entry missing": good[:last],
        "one more at the end": good + [good[last][:2] + (good[last][2] + 1,)],
    }
    charts = {shows: (table, entries) for shows, entries in charts.items()}
    charts["another key"] = moved()
    for shows, (table, entries) in charts.items():
        s.table(table, number=0)
        s.entries(len(table), entries)
        s.read((1, 1), shows=f"stale: {shows}", number=0)
        s.look(f"stale: {shows}", 0)
        s.edit(f"stale: {shows}", 3)
    for edit in [("insert", 65535, 65535), ("flip", 0, n), ("insert", 0, 0), ("take_out", 1, 1), ("flip", 0, 0)]:
        s.call("3 before the others", 3, *edit)
    # the same entries, and another table
    s.table(PARTS, number=0)
    s.put(TABLE, 4, 10001)
    s.edit("stale: another table", 3)
    s.counts(4, 0)
    s.edit("2 before 3", 2)


def moved():
    """A table and entries of which one has another key: it ends its cell, and goes to the next, which has the same level."""
    table = [(0, 0, 32768, 0, 0, 32768)] * 2 + [(32768, 0, 65535, 0, 32768, 32768)]
    good = entries_of(table)
    for i in range(1, len(good) - 1):
        before, one, after = good[i - 1 : i + 2]
        if before[:2] == one[:2] and one[1] == after[1] and one[2] < after[2] < MARK and one[0] < after[0]:
            return table, good[:i] + [(after[0],) + one[1:]] + good[i + 1 :]
    raise ValueError("no such entry")


def joined(entries):
    """Four cells that are quarters of one square, joined to it with the items of the first."""
    heads = [i for i in range(len(entries)) if i == 0 or entries[i][:2] != entries[i - 1][:2]]
    for i, a in enumerate(heads[:-4]):
        key, level, _ = entries[a]
        four = [entries[h] for h in heads[i : i + 4]]
        if {e[1] for e in four} == {level} and key % 4 ** (17 - level) == 0:
            first = entries[a : heads[i + 1]]
            return entries[:a] + [(key, level - 1, e[2]) for e in first] + entries[heads[i + 4] :]
    raise ValueError("no four quarters")


# ---- at random


def drawn(s):
    """A chart that is read at corners, at the middles of sides and elsewhere, then damaged at random."""
    s.on(s.rng.randrange(2))
    table = s.rng.choice(list(tables.KINDS.values()))(s.rng)
    s.table(table, "drawn")
    points = [p for t in s.rng.sample(table, min(3, len(table))) for p in tables.corners(t) + tables.middles(t)]
    points += [tables.anywhere(s.rng) for _ in range(4)]
    s.read(*points)
    s.measure()
    s.look()
    for _ in range(4):
        buffer = s.rng.randrange(4)
        s.put(buffer, s.rng.choice([0, 1, 2, s.rng.randrange(40)]), s.rng.choice([0, 1, 4, 16, 17, 2**30, 65535, s.rng.randrange(600)]))
        s.read(points[-1], shows="drawn damage")
        s.measure("drawn damage")
        s.look("drawn damage")
        s.edit("drawn damage")


# what calls other than edits, overlays and windows are to be met on
WANTED = listed(
    """level 17; level 255; level 17 at the end; a smaller cell and a gap;
    first key 1; first key of another square; a key that is no multiple; a gap; a cell that starts over; back to the first key;
    a cell that overlaps the next; the last cell ends short; the same key with a higher level; the same key with a lower level;
    the same key and a higher level first; descending numbers in a cell; a triangle twice in its cell; the mark before a triangle;
    the mark after a triangle; the mark twice in a cell; a triangle number at the count; a triangle number above the count at the end;
    a triangle number beside the mark; a triangle with D = 0; a triangle with D < 0; the last triangle with D < 0; nothing;
    another listing; a triangle that does not meet its cell; another triangle; one cell for all; a triangle fewer; no triangle left;
    an entry fewer; an entry more; no entry; 513 triangles; 65538 triangles; 2^32 - 1 triangles; 16385 counted; 65546 counted;
    70000 counted; 2^32 - 1 counted; both counts at their most;
    sixteen cells; cells of every level; a cell of one key with level 17; a cell of one key with level 255; the first cell is missing;
    a cell is missing; the last cell is missing; a cell too many;
    a cell inside the one before; keys that are no multiples; a cell twice with the mark; a number at the count alone;
    drawn; drawn damage"""
)
STALE = listed(
    """stale: another item; stale: the mark for an item; stale: another key; stale: a cell divided; stale: cells joined;
    stale: the first of a cell missing; stale: another of a cell missing; stale: one more in a cell; stale: the last entry missing;
    stale: one more at the end"""
)
# what each edit is to be met on, and overlays, and windows
WANTED_OF_EDITS = [shows for shows in (*CHANGES, *CHAINS) if shows != "nothing"] + STALE
WANTED_OF_EDITS += listed("2 before 3; stale: another table; 3 before the others; drawn damage")
WANTED_OF_OVERLAYS = [*CHANGES, *CHAINS]
WANTED_OF_WINDOWS = WANTED_OF_OVERLAYS + STALE + ["drawn damage"]
