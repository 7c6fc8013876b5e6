"""The boundaries of document 01's numbers: buffers one place short, lists of wrong lengths, triangles with D = 0 and D < 0, 512
and 513 triangles, 16,384 and 16,385 entries, and places that the counts do not reach."""

import tables
from tables import FLAT, REVERSED, U, V

from .script import ALLOWED, BUFFERS, ITEMS, KEYS, LEVELS, LONGEST, NEEDED, PARTS, SOMEWHERE, TABLE, listed


def lengths(s):
    """Buffers of the asked length, one place short, none at all, and longer."""
    s.read(*SOMEWHERE[:2], shows="counts 0 and 0", number=2)
    s.measure("counts 0 and 0", 2)
    s.look("counts 0 and 0", 2)
    s.edit("counts 0 and 0", 2)
    s.table([U, V], "buffers as asked", 0)
    s.read(*SOMEWHERE, shows="buffers as asked", number=0)
    s.measure("buffers as asked", 0)
    s.look("buffers as asked", 0)
    for k in range(4):
        s.lend(k, LONGEST[k])
    s.table([U, V], "longer buffers", 0)
    s.read(*SOMEWHERE, shows="longer buffers", number=0)
    s.measure("longer buffers", 0)
    s.look("longer buffers", 0)
    for edit in ALLOWED:
        s.table(PARTS, number=0)
        s.call("longer buffers", 0, *edit)
    for k in range(4):
        for short in (NEEDED[k] - 1, 0):
            lent_short(s, k, short)


def lent_short(s, k, short):
    """A buffer of which too few places are lent, then as many as asked, then more."""
    shows = f"short {BUFFERS[k]}"
    s.table(PARTS, number=0)
    s.lend(k, short)
    s.read(SOMEWHERE[1], shows=shows, number=1)
    s.measure(shows, 1)
    s.look(shows, 1)
    s.edit(shows, 1)
    s.counts(600, 0)
    s.read(SOMEWHERE[1], shows="1 before 2", number=1)
    s.measure("1 before 2", 1)
    s.look("1 before 2", 1)
    s.edit("1 before 2", 1)
    s.table([U], shows, 1)
    s.load([1] * 7, "1 before 4", 1)
    s.table([FLAT], "1 before 5", 1)
    s.lend(k, NEEDED[k])
    s.table(PARTS, f"{BUFFERS[k]} as asked", 0)
    s.read(SOMEWHERE[1], number=0)
    s.call(f"{BUFFERS[k]} as asked", 0, *ALLOWED[k])
    s.lend(k, LONGEST[k])


def loads(s):
    """Both sides of each boundary of the numbers 4, 5 and 11."""
    for n in (1, 5, 7, 3071, 3073, 3077):
        s.load([3] * n, f"length {n}", 4)
    s.load(list(U) * 513, "length 3078", 4)
    s.load(list(FLAT) * 513, "4 before 5", 4)
    s.table([U] * 512, "512 triangles", 0)
    s.read(*SOMEWHERE[:2], shows="512 triangles", number=0)
    s.measure("512 triangles", 0)
    s.look("512 triangles", 0)
    s.table([FLAT], "D = 0", 5)
    s.table([REVERSED], "D < 0", 5)
    s.table([V] * 3 + [REVERSED, FLAT], "triangle 3 named", 5)
    s.table([U] * 511 + [FLAT], "triangle 511 named", 5)
    full, over = tables.exactly(s.rng, 16384), tables.exactly(s.rng, 16385)
    s.table(full, "16384 entries", 0)
    s.read(*SOMEWHERE, shows="16384 entries", number=0)
    s.measure("16384 entries", 0)
    s.look("16384 entries", 0)
    s.table(over, "16385 entries", 11)
    s.read(*SOMEWHERE[:2])
    s.table(over + [FLAT], "5 before 11", 5)
    s.table([], "no triangle", 0)
    s.read(*SOMEWHERE, shows="no triangle", number=0)
    s.measure("no triangle", 0)
    s.look("no triangle", 0)


def unused(s):
    """Places that the counts do not reach hold anything, and an edit that is done leaves 0 there."""
    s.table([U, V])
    s.put(TABLE, 12, *s.drawn_values(TABLE, 3060))
    for k in (KEYS, LEVELS, ITEMS):
        s.put(k, 10, *s.drawn_values(k, 16374))
    s.read((1, 1), (40000, 60000), (65535, 65535), shows="unused places", number=0)
    s.measure("unused places", 0)
    s.look("unused places", 0)
    for edit in ALLOWED:
        s.table(PARTS)
        s.put(TABLE, 24, *s.drawn_values(TABLE, 40))
        for k in (KEYS, LEVELS, ITEMS):
            s.put(k, 16000, *s.drawn_values(k, 384))
        s.call("unused places", 0, *edit)


def chain(more):
    """A chain of 16,384 entries and some more: 24 cells of level 3, then 10 of level 2, with up to 512 numbers each."""
    cells = [(2**26 * k, 3) for k in range(24)] + [(2**28 * k, 2) for k in range(6, 16)]
    sizes = [512] * 31 + [170, 171, 171 + more]
    return [(key, level, item) for (key, level), size in zip(cells, sizes) for item in range(size)]


def fullest(s):
    """Chains that hold but for their counts: the places beyond the asked length carry on what stands before them."""
    for more in (0, 1):
        for n in (512, 513):
            shows = f"a chain of {16384 + more} entries and {n} triangles"
            number = 0 if (more, n) == (0, 512) else 2
            s.table([U] * 512)
            s.put(TABLE, 3072, *U)
            s.entries(n, chain(more))
            s.read((1, 1), (65535, 65535), shows=shows, number=number)
            s.measure(shows, number)
            s.look(shows, number)
            s.edit(shows, number or 3)


# what calls other than edits, overlays and windows are to be met on
WANTED = listed(
    """counts 0 and 0; buffers as asked; longer buffers; short table; short keys; short levels; short items;
    table as asked; keys as asked; levels as asked; items as asked; 1 before 2; 1 before 4; 1 before 5; length 1; length 5; length 7;
    length 3071; length 3073; length 3077; length 3078; 4 before 5; 512 triangles; D = 0; D < 0; triangle 3 named; triangle 511 named;
    16384 entries; 16385 entries; 5 before 11; no triangle; unused places; a chain of 16384 entries and 512 triangles;
    a chain of 16384 entries and 513 triangles; a chain of 16385 entries and 512 triangles; a chain of 16385 entries and 513 triangles"""
)
# what each edit is to be met on
WANTED_OF_EDITS = listed(
    """counts 0 and 0; longer buffers; short table; short keys; short levels; short items; 1 before 2; unused places;
    a chain of 16384 entries and 512 triangles"""
)
WANTED_OF_WINDOWS = WANTED_OF_EDITS + listed("buffers as asked; 512 triangles; 16384 entries; no triangle")
