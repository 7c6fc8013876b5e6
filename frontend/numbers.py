"""Document 01's numbers and document 02's in words, and what to do. These words stand nowhere else.

In the words, {T} is the triangle that is printed beside the number, {N} the chart's count of triangles, {W} where it was written.
A program that calls the engine has no paper, and its own words where those above would not fit."""

from collections import namedtuple

# beside: the name of the number that is printed after it; called: the words for a call without a paper, where they are others
Number = namedtuple("Number", "number says todo beside called", defaults=(None, None))
NUMBERS = (
    Number(0, "accepted; the result follows", "nothing", called="accepted"),
    Number(
        1,
        "a lent buffer is too short (table 3,072, lists 16,384, pairs 8,192, window's list 512)",
        "lend longer buffers; a paper cannot meet it",
    ),
    Number(
        2,
        "counts, table or entries break the chain rule",
        "the buffers were changed or the counts mixed up: load the chart again; a paper cannot meet it",
    ),
    Number(
        3,
        "the entries are not those of the table",
        "the table was changed outside an edit: load it again; a paper cannot meet it",
    ),
    Number(
        4,
        "over 512 triangles wait, this one is dropped",
        "load what waits first, or leave triangles out; a call that loads has a length that is no multiple of 6 or above 3,072",
        called="the length to be loaded is no multiple of 6, or above 3,072",
    ),
    Number(
        5,
        "triangle {T} has D ≤ 0{W}",
        "D < 0: its corners run the wrong way round, write A C B; D = 0: its corners lie on one line",
        "faulty",
        called="a triangle to be loaded has D ≤ 0",
    ),
    Number(
        6,
        "no triangle has that number; the chart has {N}",
        "they are numbered from 0; after a take-out later ones have moved down",
        called="no triangle has that number",
    ),
    Number(
        7,
        "no triangle holds the point; the chart has {N}",
        "the point lies off the chart or in a gap of it: look at x and y, and whether the other chart is meant; an insert adds no ground",
        called="no triangle holds the point",
    ),
    Number(
        8,
        "not exactly three triangles around the point, one after the other",
        "only a point that an insert inside a triangle would add can be taken out; one on a side has two triangles around it, or four",
    ),
    Number(
        9,
        "no side that the two share in opposite directions, or a new triangle with D ≤ 0",
        "the four corners must be strictly convex at both ends of the side",
    ),
    Number(
        10,
        "the table would have over 512 triangles; it has {N}",
        "take out points or load a smaller chart",
        called="the table would have over 512 triangles",
    ),
    Number(
        11,
        "the new chart would have over 16,384 entries",
        "sides that run close to each other without a common end cost most: join or part them",
    ),
    Number(12, "over 4,096 pairs share ground", "overlay a part of the chart"),
    Number(
        14,
        "the point is a corner already, of the lowest numbered triangle that holds it",
        "the chart has the point: leave the insert out; locate tells the triangle and the corner",
    ),
    Number(
        15,
        "the window's right is less than its left, or its bottom less than its top",
        "exchange the two; a window of no width or no height is allowed; a paper cannot meet it",
    ),
)


def row_of(number):
    return next((row for row in NUMBERS if row.number == number), None)


def meaning(number, beside="T", count="N", where=""):
    """The words of a number, completed with what is known."""
    return row_of(number).says.format(T=beside, N="N" if count is None else count, W=where and f" ({where})")


def called(number):
    """The words of a number that a call gave, in ASCII, for a program that has no paper."""
    row = row_of(number)
    return (row.called or row.says).replace("≤", "<=")
