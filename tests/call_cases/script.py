"""Lists of steps on two charts, and both engines that run them.

Buffers have more places than are asked. Before each load every place of the chart holds something other than 0, lent or not, and
so do the pairs before each overlay and each window, which gets them as its list; the checksum that is compared goes over all places of
the chart, or after those two calls of both charts and the pairs."""

import struct

import engines
from tables import V

PROGRAM = "test_calls"
BUFFERS = ["table", "keys", "levels", "items", "pairs"]
TABLE, KEYS, LEVELS, ITEMS, PAIRS = range(5)
NEEDED = [3072, 16384, 16384, 16384, 8192]
# the places that a window asks of its list
WINDOW = 512
# the places that the program has
LONGEST = [3100, 16500, 16500, 16500, 8300]
WIDTHS = [65536, 2**32, 256, 65536, 65536]
CALLS = {"load": 1, "locate": 2, "listing": 3, "sound": 4, "area": 5}
CALLS |= {"insert": 10, "take_out": 11, "flip": 12, "overlay": 13, "window": 14}
EDITS = ["insert", "take_out", "flip"]
SOMEWHERE = [(0, 0), (32768, 32767), (32768, 32768), (65535, 0), (65535, 65535)]
# U split at INNER, then V; and edits of each kind that this table allows, with inserts inside and on a side
INNER = (10000, 10000)
PARTS = [(0, 0, 65535, 0) + INNER, (65535, 0, 0, 65535) + INNER, (0, 65535, 0, 0) + INNER, V]
ALLOWED = [("insert", 50000, 50000), ("take_out", *INNER), ("flip", 1, 3), ("insert", 32768, 32767)]
# a window that is a part of the line between quarters of the grid, and one that ends before it starts
SEAM, EMPTY = (32768, 20000, 32768, 32767), (1, 1, 0, 1)


def listed(text):
    """The things of a text that stand between semicolons."""
    return " ".join(text.split()).split("; ")


class Script:
    """Steps for both engines. Each call goes with what it is to show and the number that it is to give, where that is known."""

    def __init__(self, rng, short=False):
        self.rng = rng
        self.short = short
        self.steps = []
        self.shown = []
        self.chart = 0

    def on(self, chart):
        self.chart = chart

    # ---- calls

    def call(self, shows, number, what, *operands):
        self.steps.append((what, self.chart, list(operands)))
        self.shown.append((shows, number))

    def load(self, numbers, shows="", number=None):
        """A load into buffers that hold anything."""
        self.junk()
        self.call(shows, number, "load", *numbers)

    def table(self, triangles, shows="", number=None):
        self.load([c for t in triangles for c in t], shows, number)

    def both(self, first, second):
        """The tables of two charts."""
        for chart, table in enumerate((first, second)):
            self.on(chart)
            self.table(table, number=0)

    def read(self, *points, shows="", number=None):
        for p in points:
            self.call(shows, number, "locate", *p)
            self.call(shows, number, "listing", *p)

    def measure(self, shows="", number=None):
        self.call(shows, number, "sound")
        self.call(shows, number, "area")

    def edit(self, shows="", number=None):
        """Edits of each kind, which are all refused or whose effect is not of interest."""
        for edit in ALLOWED:
            self.call(shows, number, *edit)

    def overlay(self, first=0, second=1, shows="", number=None):
        """An overlay into pairs that hold anything."""
        self.fill(PAIRS, self.rng.randrange(1, 65536))
        self.put(PAIRS, NEEDED[PAIRS], *self.drawn_values(PAIRS, 2 if self.short else LONGEST[PAIRS] - NEEDED[PAIRS]))
        self.on(first)
        self.call(shows, number, "overlay", second)

    def window(self, sides, shows="", number=None):
        """A window, by left, top, right and bottom, into a list that holds anything."""
        self.fill(PAIRS, self.rng.randrange(1, WIDTHS[PAIRS]))
        self.call(shows, number, "window", *sides)

    def look(self, shows="", number=None):
        """Windows that give the same number, but that an empty one gives 15 for 0."""
        self.window(SEAM, shows, number)
        self.window(EMPTY, shows, 15 if number == 0 else number)

    # ---- buffers and counts

    def put(self, buffer, place, *values):
        """Values at a place and those after it."""
        self.steps.append(("put", self.chart, buffer, place, [v % WIDTHS[buffer] for v in values]))

    def fill(self, buffer, value):
        self.steps.append(("fill", self.chart, buffer, value % WIDTHS[buffer]))

    def counts(self, n, m):
        self.steps.append(("counts", self.chart, n, m))

    def change(self, changes):
        """Values put, each as buffer, place and values, and counts, as `counts` and both."""
        for what, *rest in changes:
            self.counts(*rest) if what == "counts" else self.put(what, *rest)

    def entries(self, n, entries):
        """Entries in the three lists, and the counts."""
        for k, column in zip((KEYS, LEVELS, ITEMS), zip(*entries)):
            self.put(k, 0, *column)
        self.counts(n, len(entries))

    def lend(self, buffer, n):
        self.steps.append(("lend", self.chart, buffer, n))

    def drawn_values(self, buffer, n):
        return [self.rng.randrange(1, WIDTHS[buffer]) for _ in range(n)]

    def junk(self):
        """Every place of every buffer holds something other than 0, those beyond the asked length each something else."""
        for k in range(4):
            self.fill(k, self.rng.randrange(1, WIDTHS[k]))
        for k in range(4):
            more = 2 if self.short else LONGEST[k] - NEEDED[k]
            self.put(k, NEEDED[k], *self.drawn_values(k, more))


# ---- both engines


def program_data(steps):
    """The steps as the program reads them."""

    def step(what, chart, buffer=0, a=0, b=0, c=0):
        return struct.pack("<BBHII", what, 8 if buffer == PAIRS else 4 * chart + buffer, a, b, c)

    data = []
    for what, chart, *rest in steps:
        if what == "load":
            data.append(step(1, chart, a=len(rest[0])) + struct.pack(f"<{len(rest[0])}H", *rest[0]))
        elif what == "overlay":
            data.append(step(13, chart, a=rest[0][0]))
        elif what == "window":
            left, top, right, bottom = rest[0]
            data.append(step(14, chart, b=left + 65536 * top, c=right + 65536 * bottom))
        elif what in CALLS:
            data.append(step(CALLS[what], chart, 0, 0, *rest[0]))
        elif what == "put":
            data += [step(6, chart, rest[0], rest[1] + k, v) for k, v in enumerate(rest[2])]
        elif what == "lend":
            data.append(step(7, chart, *rest))
        elif what == "counts":
            data.append(step(8, chart, 0, 0, *rest))
        elif what == "fill":
            data.append(step(9, chart, rest[0], 0, rest[1]))
    return b"".join(data)


def program_lines(steps):
    return engines.program_lines(PROGRAM, program_data(steps))


def model_text(steps, sums):
    """The steps as the model reads them, and where `sums` says so a checksum after each call."""

    def name(chart, buffer):
        return "pairs" if buffer == PAIRS else f"{BUFFERS[buffer]}{chart}"

    text = []
    for chart in range(2):
        for k in range(5):
            text += [f"len {name(chart, k)} {LONGEST[k]}", f"lend {name(chart, k)} {NEEDED[k]}"]
    for what, chart, *rest in steps:
        if what == "put":
            text.append(f"set {name(chart, rest[0])} {rest[1]} " + " ".join(map(str, rest[2])))
        elif what == "fill":
            text.append(f"fill {name(chart, rest[0])} {rest[1]}")
        elif what == "counts":
            text.append(f"counts {chart} {rest[0]} {rest[1]}")
        elif what == "lend":
            text.append(f"lend {name(chart, rest[0])} {rest[1]}")
        else:
            text.append(f"{what} {chart} " + " ".join(map(str, rest[0])))
            if sums:
                text.append("sum" if what in ("overlay", "window") else f"sum {chart}")
    return "\n".join(text)


def model_lines(steps):
    """The model's lines, with the checksum of the buffers in place of its own hash."""
    lines = engines.model_lines("calls", model_text(steps, sums=True))
    return [call.rsplit(" ", 1)[0] + " " + total.split()[1] for call, total in zip(lines[::2], lines[1::2])]
