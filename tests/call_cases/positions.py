"""Locates and inserts at each position of a triangle: in each of its rotations, with small and large numbers, and in cells that list
triangles that do not hold the point, or that hold it at another position."""

import math

from tables import U, V, corners, middles, turned

# triangles not alike in x and y, each with one that holds none of the points below; the middles of their sides are grid points
TRIANGLES = [((12, 24, 24, 26, 16, 38), V), ((40000, 33000, 64000, 36000, 46000, 63000), U)]
OUTSIDE = 7
# what an insert gives, by position
GIVES = [0, 0, 0, 0, 14, 14, 14, 7]


def places(t):
    """A point at each position, by its number: inside, on ab, bc and ca, at a, b and c, and outside on the line of ab."""
    a, b, c = corners(t)
    parts = math.gcd(b[0] - a[0], b[1] - a[1])
    beyond = tuple(q + (q - p) // parts for p, q in zip(a, b))
    return [tuple(sum(v) // 3 for v in zip(a, b, c)), *middles(t), a, b, c, beyond]


def located(s, t, triangle):
    """A locate at each position of a triangle; calls.py asserts what it is to show, the triangle found and the position there."""
    for place, p in enumerate(places(t)):
        s.call("nowhere position 7" if place == OUTSIDE else f"{triangle} position {place}", 0, "locate", *p)


def positions(s):
    for t, other in TRIANGLES:
        for k in range(3):
            s.table([turned(t, k)], number=0)
            located(s, turned(t, k), 0)
            for place, p in enumerate(places(turned(t, k))):
                for table in ([turned(t, k)], [other, turned(t, k), t]):
                    s.table(table, number=0)
                    s.call(f"position {place}", GIVES[place], "insert", *p)
        s.table([turned(t, k) for k in (2, 0, 1)], number=0)
        located(s, turned(t, 2), 0)
        s.table([other, t, turned(t, 1)], number=0)
        for items, shape, triangle in (([0, 1, 2], t, 1), ([0, 2], turned(t, 1), 2), ([1], t, 1)):
            s.entries(3, [(0, 0, item) for item in items])
            located(s, shape, triangle)
        s.entries(3, [(0, 0, 0)])
        for p in places(t):
            s.call("nowhere position 7", 0, "locate", *p)


# what is to be met
WANTED = [f"{t} position {place}" for t in range(3) for place in range(OUTSIDE)] + ["nowhere position 7"]
WANTED += [f"insert: position {place}" for place in range(OUTSIDE + 1)]
