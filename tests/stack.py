#!/usr/bin/env python3
"""Measures the stack that each export of the library uses, on tables of 2 triangles and on full ones, and prints it in KB (1,024 bytes)
beside what its header says.

usage: stack.py

A C program (tests/library/stack.c), linked with target/lib/libjirdtungsten.a, makes each call on a stack whose bytes all hold one value,
and looks for the lowest that holds another afterwards. So what is measured goes from the caller's arguments down to the deepest place
that is written, the C library's memset and memcpy included; the buffers that the caller lends are not in it. It is a measurement and no
bound: of these tables, and of the code that the compiler made.

Its error: the last function called may have places in its frame that are never written, less than half a KB; the arguments that the
caller puts on the stack count, some 100 bytes.

Tables: document 01's U and V, whose cells have levels 1 and 2; a strip of two triangles, with cells of all levels to 16; a long strip
of two triangles, with more entries than the scratch of a small table has room for; a grid of 512 triangles; a strip and 510 copies of
a triangle. Each number is the largest of its tables. It fails when a call takes more than its header says, or gives another number than
0, or a call that reads does not find what is there."""

import os
import subprocess
import sys

import engines
import headers
from engines import ROOT
from tables import U, V

LIBRARY = os.path.join(ROOT, "target", "lib", "libjirdtungsten.a")
PROGRAM = os.path.join(ROOT, "target", "lib", "stack")
AT_C = headers.in_header(headers.read("include", headers.HELM)).constants["JIRD_AT_C"]
CALLS = ["load", "insert", "take_out", "flip", "locate", "cell", "soundness", "doubled_area", "window", "overlay"]


def build():
    """The C program."""
    if not os.path.isfile(LIBRARY):
        sys.exit("target/lib/libjirdtungsten.a is not built: make lib")
    source = os.path.join(ROOT, "tests", "library", "stack.c")
    words = ["cc", "-std=c11", "-D_DEFAULT_SOURCE", "-O1", "-Wall", "-Wl,-z,now", "-I", os.path.join(ROOT, "include")]
    if subprocess.run([*words, "-o", PROGRAM, source, LIBRARY]).returncode != 0:
        sys.exit("tests/library/stack.c cannot be built")


# ---- what is called


def grid(g):
    """A grid of g times g squares over the whole chart, each halved."""
    at = [65535 * k // g for k in range(g + 1)]
    cells = [(at[i], at[j], at[i + 1], at[j + 1]) for j in range(g) for i in range(g)]
    return [t for x, y, u, v in cells for t in ((x, y, u, y, x, v), (u, v, x, v, u, y))]


def strip(length):
    """Two triangles of a strip that is two units wide."""
    a, d, b, c = (100, 100), (100 + length, 100), (101 + length, 102), (101, 102)
    return [a + b + c, b + a + d]


COPIES = [(40000, 40000, 40400, 40000, 40000, 40400)] * 510
# each with a point strictly inside its first triangle, and one on a side of it; beyond that side of U and of the grid's is another triangle
TABLES = {
    "2 triangles": [([U, V], (10000, 10000), (32768, 32767)), (strip(40), (110, 101), (120, 102))],
    "2, over 1,024 entries": [(strip(1000), (350, 101), (600, 102))],
    "512 triangles": [(grid(16), (1000, 1001), (1000, 3095)), (strip(40) + COPIES, (110, 101), (120, 102))],
}


def calls_on(table, p, q):
    """The calls on chart 0: it is loaded, its first two triangles are flipped; it is loaded again with room for two more, and q is
    inserted; it is loaded so again, p is inserted, the chart is read, by a window over all of it too, and laid over a chart of U and V,
    and p is taken out."""

    def load(chart, ts):
        numbers = [c for t in ts for c in t]
        return " ".join(map(str, ["load", chart, len(numbers), *numbers]))

    point = f"{p[0]} {p[1]}"
    yield from [load(0, table), "flip 0 0 1", load(0, table[:510]), f"insert 0 {q[0]} {q[1]}"]
    yield from [load(0, table[:510]), f"insert 0 {point}", f"locate 0 {point}", f"cell 0 {point}"]
    yield from ["soundness 0", "doubled_area 0", "window 0 0 0 65535 65535", load(1, [U, V]), "overlay 0 1", f"take_out 0 {point}"]


def is_right(call, number, answer):
    """Whether a call was done, and one that reads found what is there: locate the point inserted, at corner c of the lowest triangle
    that has it. Tables may be sound or not."""
    found = {"locate": answer == AT_C, **dict.fromkeys(["cell", "doubled_area", "window", "overlay"], answer > 0)}
    return number == 0 and found.get(call, True)


def measured(cases):
    """The most bytes that each call uses on these tables."""
    most = dict.fromkeys(CALLS, 0)
    for case in cases:
        calls = list(calls_on(*case))
        lines = engines.run([PROGRAM], "\n".join(calls).encode()).split("\n")[:-1]
        if len(lines) != len(calls):
            sys.exit(f"{len(calls)} calls, {len(lines)} answers")
        for call, line in zip(calls, lines):
            word, number, answer, used = line.split()
            if call.split()[0] != word or not is_right(word, int(number), int(answer)):
                sys.exit(f"a call that went otherwise than it must: {call[:60]}: {line}")
            if not call.startswith("load 1"):  # the chart below an overlay is none of the tables
                most[word] = max(most[word], int(used))
    return most


def main():
    build()
    found = {name: measured(cases) for name, cases in TABLES.items()}
    said = {name: kb for header in headers.CRATES for name, kb in headers.stacks(headers.read("include", header)).items()}
    print("KB of stack" + " " * 5 + "".join(f"{name:>24}" for name in found) + f"{'said':>8}")
    for call in CALLS:
        print(f"{call:<16}" + "".join(f"{most[call] / 1024:>24.1f}" for most in found.values()) + f"{said['jird_' + call]:>8}")
    over = [call for call in CALLS if max(most[call] for most in found.values()) > 1024 * said[f"jird_{call}"]]
    if over:
        print(f"more stack than the header says: {', '.join(over)}")
    return 1 if over else 0


if __name__ == "__main__":
    sys.exit(main())
