"""Overlays: each buffer short, each fault of the chain rule, 4,095, 4,096 and 4,097 pairs, charts that are not indexed, small cells
over large ones, and pairs of charts that are laid over each other, edited and damaged."""

import tables
from tables import MARK, U, V, turned

from .damage import CHAINS, CHANGES, grid, ladder
from .script import BUFFERS, LONGEST, NEEDED, PAIRS, listed


def known_overlays(s):
    """Overlays whose pairs and meetings are known; what they are to show says them, and calls.py asserts it."""
    s.both([U], [V])
    s.overlay(shows="0 pairs, 7 meetings", number=0)
    s.overlay(1, 0, "0 pairs, 7 meetings", 0)
    s.overlay(0, 0, "1 pairs, 7 meetings", 0)
    s.overlay(1, 1, "1 pairs, 4 meetings", 0)
    s.both([], [])
    s.overlay(shows="0 pairs, 1 meetings", number=0)
    s.both([U, V], [])
    s.overlay(shows="0 pairs, 7 meetings", number=0)
    s.overlay(0, 0, "2 pairs, 7 meetings", 0)
    # copies: every triangle of one shares ground with every triangle of the other
    for n, m in ((63, 65), (64, 64), (17, 241), (8, 512), (512, 8), (1, 512), (9, 512), (512, 512), (65, 63), (241, 17)):
        s.both([U] * n, [turned(U, 1)] * m)
        if n * m <= 4096:
            s.overlay(shows=f"{n * m} pairs, 7 meetings", number=0)
        else:
            s.overlay(shows=f"over 4096 pairs: {n * m}", number=12)
    s.overlay(1, 1, "289 pairs, 7 meetings", 0)
    s.overlay(0, 0, "over 4096 pairs: a chart with itself", 12)


def touching(s):
    """Triangles that share a side, a corner, a part of a side, or ground that no corner shows."""
    base = (1000, 1000, 3000, 1000, 1000, 3000)
    seconds = {
        "a shared side": (3000, 1000, 3000, 3000, 1000, 3000),
        "a shared corner": (3000, 1000, 4000, 1000, 4000, 2000),
        "a part of a side": (2000, 2000, 3000, 1000, 3000, 3000),
        "one inside the other": (1100, 1100, 1200, 1100, 1100, 1200),
        "sides that cross": (500, 2000, 900, 1100, 3500, 1200),
        "the same triangle": base,
        "one unit of overlap": (1999, 2000, 3000, 1000, 3000, 3000),
        "apart": (40000, 40000, 41000, 40000, 40000, 41000),
    }
    s.both([base], [t for t in seconds.values() if tables.orientation(t) > 0])
    s.overlay(shows="touching", number=0)
    s.overlay(1, 0, "touching", 0)
    s.overlay(1, 1, "touching", 0)


def every_two(s, step=26):
    """Triangles on nine points of the grid, its four corners among them, two at a time, each as first and as second of an overlay and both as
    a table whose soundness is asked: the largest and the smallest D, and every way to touch and to cross. Of the others each is tried
    with one of `step`; with 1 every two are."""
    points = [(x, y) for x in (0, 40000, 65535) for y in (0, 30000, 65535)]
    found = [p + q + r for p in points for q in points for r in points if min(p, q, r) == p]
    found = [turned(t, k % 3) for k, t in enumerate(t for t in found if tables.orientation(t) > 0)]
    for k, t in enumerate(found):
        for other in found[k % step :: step]:
            s.both([t], [turned(other, k % 3)])
            s.overlay(shows="two alone", number=0)
            s.overlay(1, 0, "two alone", 0)
            s.on(0)
            s.table([t, other], number=0)
            s.measure(number=0)


def overlay_refusals(s):
    """Each buffer of each chart and the pairs short, each chart's chain broken, and their order."""
    s.both([U, V], [V, U])
    for chart in range(2):
        for k in range(4):
            for short in (NEEDED[k] - 1, 0):
                s.on(chart)
                s.lend(k, short)
                shows = f"short {BUFFERS[k]} of chart {chart}"
                s.overlay(shows=shows, number=1)
                s.overlay(1, 0, shows, 1)
                s.overlay(chart, chart, shows, 1)
                s.overlay(1 - chart, 1 - chart, "the other chart alone", 0)
                s.on(1 - chart)
                s.counts(2, 9)
                s.overlay(shows="1 of one before 2 of the other", number=1)
                s.on(1 - chart)
                s.counts(2, 10)
                s.on(chart)
                s.lend(k, NEEDED[k])
    for short in (8191, 8190, 1, 0):
        s.lend(PAIRS, short)
        s.overlay(shows="short pairs", number=1)
        s.counts(2, 9)
        s.overlay(shows="1 before 2", number=1)
        s.counts(2, 10)
    s.lend(PAIRS, LONGEST[PAIRS])
    s.overlay(shows="longer pairs", number=0)
    s.lend(PAIRS, NEEDED[PAIRS])
    s.both([U] * 65, [U] * 65)
    for chart in range(2):
        s.on(chart)
        s.counts(65, 0)
        s.overlay(shows="2 before 12", number=2)
        s.on(chart)
        s.counts(65, 391)
    s.overlay(shows="over 4096 pairs: 4225", number=12)


def overlay_damaged(s):
    """Charts that the chain rule refuses, and charts that it allows though they are not indexed."""
    s.both([U, V], [V, U, U])
    for shows, (changes, number) in CHANGES.items():
        s.on(0)
        s.table([U, V])
        s.change(changes)
        s.overlay(shows=shows, number=number)
        s.overlay(1, 0, shows, number)
        s.overlay(0, 0, shows, number)
    for shows, (entries, number) in CHAINS.items():
        s.on(0)
        s.table([U, V])
        s.entries(2, entries)
        s.overlay(shows=shows, number=number)
        s.overlay(1, 0, shows, number)


def deep(s):
    """Chains from the whole square down to squares of one key, one against the other."""
    down = [(key, level, k % 3 if k % 3 < 2 else MARK) for k, (key, level, _) in enumerate([(0, 16, 0)] + ladder(1, range(16, 0, -1)))]
    up = [(2**32 - key - 4 ** (16 - level), level, item) for key, level, item in reversed(down)]
    chains = {
        "one cell": [(0, 0, 0), (0, 0, 1)],
        "sixteen cells": [(key, level, k % 2) for k, (key, level, _) in enumerate(grid())],
        "down": down,
        "up": up,
        "4096 cells": [(2**20 * k, 6, k % 2) for k in range(4096)],
        "16384 cells": [(2**18 * k, 7, k % 2) for k in range(16384)],
    }
    s.both([U, V], [V, U])
    for a, first in chains.items():
        s.on(0)
        s.entries(2, first)
        for b, second in chains.items():
            s.on(1)
            s.entries(2, second)
            s.overlay(shows=f"{a} over {b}", number=0)


def drawn_overlays(s):
    """Two drawn charts, one over the other; then edits, and damage."""
    rng = s.rng
    for chart in range(2):
        s.on(chart)
        table = tables.KINDS[rng.choice(list(tables.KINDS))](rng)
        s.table(table[:80] if rng.random() < 0.8 else table)
    for first, second in ((0, 1), (1, 0), (0, 0)):
        s.overlay(first, second, "drawn overlay")
    for _ in range(3):
        s.on(rng.randrange(2))
        s.call("", None, "insert", *tables.anywhere(rng))
        s.call("", None, "flip", rng.randrange(4), rng.randrange(4))
        s.overlay(shows="drawn overlay after edits")
    for _ in range(3):
        s.on(rng.randrange(2))
        buffer = rng.randrange(4)
        s.put(buffer, rng.choice([0, 1, rng.randrange(20)]), rng.choice([0, 1, 2, 16, 65535, rng.randrange(600)]))
        s.overlay(shows="drawn overlay of damage")


# the numbers that an overlay can give, and what it is made for
WANTED = [f"overlay {n}" for n in (0, 1, 2, 12)] + [f"overlay of {n}" for n in (0, 1, 4095, 4096)]
WANTED += [f"overlay: short {BUFFERS[k]} of chart {c}" for k in range(4) for c in range(2)]
WANTED += [f"overlay: over 4096 pairs: {n}" for n in (4097, 4608, 262144, 4225, "a chart with itself")]
WANTED += listed(
    """overlay: 4095 pairs, 7 meetings; overlay: 4096 pairs, 7 meetings; overlay: 512 pairs, 7 meetings;
    overlay: 289 pairs, 7 meetings; overlay: short pairs; overlay: 1 before 2; overlay: 1 of one before 2 of the other;
    overlay: the other chart alone; overlay: 2 before 12; overlay: longer pairs; overlay: touching; overlay: drawn overlay;
    overlay: drawn overlay after edits; overlay: drawn overlay of damage; overlay: 16384 cells over down; overlay: down over up;
    overlay: one cell over 16384 cells; overlay: 16384 cells over 16384 cells; drawn overlay 0; drawn overlay 2"""
)
