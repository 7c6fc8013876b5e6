#!/usr/bin/env python3
"""Builds generated tables by the proved program (crates/test_quadtree) and by the reference model, and compares list for list.

usage: quadtree.py SEED COUNT

COUNT tables of each kind: overlapping triangles, meshes, slivers, triangles on the borders of squares, repeated triangles, copies of
one triangle up to 512, lattices, triangles beside few sides, and tables of exactly 16,384 and 16,385 entries. A few tables come at the
end that nothing is drawn for: the empty table, one triangle, 512 copies, two triangles that cross, triangles with D = 0 and D < 0, two
slivers with far too many entries, and 513 copies.

It fails when the lists differ, when a table whose answer is known by its making has another, when something that is to be met
was not met (see `WANTED`), and when either engine ends with a status other than 0, says something on its standard error or
does not end."""

import collections
import random
import struct
import sys

import engines
import tables
from tables import FLAT, LIMIT, REVERSED, SLIVERS, U

KINDS = tables.KINDS | {
    "exactly full": lambda rng: tables.exactly(rng, LIMIT),
    "one too many": lambda rng: tables.exactly(rng, LIMIT + 1),
}
# what nothing is drawn for, and how its answer starts. The program ends after the last one
PLAIN = {
    "empty": ([], "1"),
    "one": ([U], "7"),
    "512 copies": ([U] * 512, "3073"),
    "crossing": ([U, (30000, 20000, 60001, 40003, 20005, 60007)], "348"),
    "D = 0": ([U, FLAT], "refused"),
    "D < 0": ([U, REVERSED], "refused"),
    "D < 0 in a full table": ([U] * 511 + [(0, 0, 0, 65535, 65535, 0)], "refused"),
    "far too many": (SLIVERS, "over"),
    "513 copies": ([U] * 513, "refused"),
}
# how the answers to drawn tables start, where it is known
STARTS = {"exactly full": str(LIMIT), "one too many": "over"}


# ---- both engines: the number of entries and the entries, or `over`, or `refused`


def by_model(table):
    lines = engines.model_lines("entries", "".join(" ".join(map(str, t)) + "\n" for t in table))
    return ["refused"] if lines[0].startswith("refused") else lines


def by_program(given):
    """The lines of each table."""
    data = b"".join(struct.pack("<H", len(t)) + b"".join(struct.pack("<6H", *c) for c in t) for t in given)
    lines = engines.program_lines("test_quadtree", data)
    answers, k = [], 0
    while k < len(lines):
        end = k + 1 + (int(lines[k]) if lines[k].isdigit() else 0)
        while end < len(lines) and lines[end].startswith("the rest"):
            end += 1
        answers.append(lines[k:end])
        k = end
    return answers


# ---- what is met


def met(name, table, answer):
    """What a table and its answer show."""
    yield name
    yield f"{len(table)} triangles" if len(table) in (0, 1, 512) else "some triangles"
    if answer[0] in ("over", "refused"):
        yield answer[0]
        return
    if answer[0] == str(LIMIT):
        yield f"{LIMIT} entries"
    entries = [tuple(map(int, l.split())) for l in answer[1:]]
    for key, level, item in entries:
        yield f"level {level}"
        if item == tables.MARK:
            yield "the mark"
    cells = [(key, level) for key, level, _ in entries]
    if len(set(cells)) < len(cells):
        yield "several triangles in a cell"


# each kind is to be met as often as asked, and each of these once
WANTED_KINDS = ["soup", "mesh", "slivers", "borders", "repeated", "copies", "lattice", "beside", "exactly full", "one too many"]
WANTED = ["empty", "one", "512 copies", "crossing", "D = 0", "D < 0", "D < 0 in a full table", "far too many", "513 copies"]
WANTED += ["over", "refused", f"{LIMIT} entries", "0 triangles", "1 triangles", "512 triangles", "some triangles"]
WANTED += [f"level {k}" for k in range(17)] + ["the mark", "several triangles in a cell"]


def main():
    seed, count = int(sys.argv[1]), int(sys.argv[2])
    rng = random.Random(seed)
    cases = [(name, STARTS.get(name), kind(rng)) for _ in range(count) for name, kind in KINDS.items()]
    cases += [(name, start, table) for name, (table, start) in PLAIN.items()]
    print(f"building {len(cases)} tables, seed {seed}")
    ours, theirs = by_program([table for _, _, table in cases]), [by_model(table) for _, _, table in cases]
    if not engines.agree("table", cases, ours, theirs, lambda case, answer: answer[0] == (case[1] or answer[0])):
        return 1
    seen = collections.Counter(what for (name, _, table), answer in zip(cases, ours) for what in set(met(name, table, answer)))
    if not engines.all_met(dict.fromkeys(WANTED_KINDS, max(1, count)) | dict.fromkeys(WANTED, 1), seen):
        return 1
    print(f"all agree; {seen['over']} over, {seen['refused']} refused, {seen[f'{LIMIT} entries']} of exactly {LIMIT:,} entries")
    return 0


if __name__ == "__main__":
    sys.exit(main())
