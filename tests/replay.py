#!/usr/bin/env python3
"""Runs two lists of calls and the overlay after them by the proved program (crates/test_replay) and by the reference model, and
compares the overlay's number, pairs and meetings, the counts of both charts, and a checksum of all places of all buffers.

usage: replay.py SEED COUNT    compares the stored cases, and COUNT drawn ones
       replay.py store         writes the program's stored cases, crates/test_replay/stdin and stdout, the latter by the model

The model makes each call by itself: a load of the empty table on either chart, the calls that the lists' numbers stand for, and the
overlay. It fails when the engines differ, when an overlay that is known gives something else, when a call that is to be met with
a number was not (see `WANTED`), and when either engine ends with a status other than 0, says something on its standard error or
does not end."""

import collections
import random
import struct
import sys

import engines
import tables
from call_cases import edits
from call_cases.script import INNER, PARTS, Script
from tables import FLAT, SLIVERS, U, V

PROGRAM = "test_replay"
COMMANDS = {2: "load", 3: "insert", 4: "take_out", 5: "flip"}
SIZE = 3  # of a call that is no load
# the program's buffers: places, and what each of them holds before a case
BUFFERS = {"table0": (3080, 21), "keys0": (16390, 22), "levels0": (16390, 23), "items0": (16390, 24)}
BUFFERS |= {"table1": (3080, 31), "keys1": (16390, 32), "levels1": (16390, 33), "items1": (16390, 34), "pairs": (8200, 41)}
COUNTS = [(513, 70000), (7, 20000)]
LONGEST = 4096  # the most numbers of a list


# ---- lists of calls as numbers


def load(*triangles):
    return [2, 6 * len(triangles)] + [c for t in triangles for c in t]


def insert(p):
    return [3, *p]


def take_out(p):
    return [4, *p]


def flip(i, j):
    return [5, i, j]


def decoded(numbers):
    """The calls of a list, up to its end or to a place where no whole call stands."""
    while len(numbers) > 1 and numbers[0] in COMMANDS:
        size = numbers[1] + 2 if numbers[0] == 2 else SIZE
        if size > len(numbers):
            return
        yield COMMANDS[numbers[0]], numbers[2 if numbers[0] == 2 else 1 : size]
        numbers = numbers[size:]


# ---- both engines


def program_data(cases):
    return b"".join(struct.pack(f"<H{len(ns)}H", len(ns), *ns) for case in cases for ns in case)


def model_lines(cases):
    """The lines that the program is to print, and the calls that were made, each as its name and the number that it gave."""
    text = [f"len {name} {places}" for name, (places, _) in BUFFERS.items()]
    for case in cases:
        text += [f"fill {name} {value}" for name, (_, value) in BUFFERS.items()]
        for chart, numbers in enumerate(case):
            text += [f"counts {chart} {COUNTS[chart][0]} {COUNTS[chart][1]}", f"load {chart}"]
            text += [f"{name} {chart} " + " ".join(map(str, operands)) for name, operands in decoded(numbers)]
            text.append(f"echo {chart}")
        text += ["overlay 0 1", "sum"]
    lines, counts, gave = [], [], []
    for line in engines.model_lines("calls", "\n".join(text)):
        words = line.split()
        if words[0] == "sum":
            lines.append(" ".join(["replay"] + overlay + counts + words[1:]))
            counts = []
            continue
        if words[0] == "echo":
            counts += before[3:5]
        elif words[0] == "overlay":
            overlay = words[1:4]
        if words[0] != "echo":
            gave.append(" ".join(words[:2]))
        before = words
    return lines, gave


# ---- what is run


def stored():
    """Cases that nothing is drawn for, and what the overlay is to answer, where it is known: number, pairs and meetings."""
    out = (65535, 65535)
    one = load(U, V) + insert(INNER) + insert((50000, 50000)) + flip(4, 2) + insert((3000, 30000)) + flip(7, 4)
    other = load(V, U) + insert((40000, 40000)) + flip(1, 2) + insert((30000, 10000)) + insert((10000, 30000)) + take_out((30000, 10000))
    grid = tables.mesh(random.Random(4))
    side = (32768, 32767)
    square = load((0, 0, 64, 0, 0, 64), (64, 64, 0, 64, 64, 0))
    small = (1000, 1000, 1040, 1000, 1000, 1040)
    many = [(0, 0, 1, 0, 0, 1)] * 509
    under = (1040, 1000, 1000, 1000, 1020, 960)
    return [
        ([], [], "0 0 1"),
        # marked cases 7, 8 and 9
        (load(U), load(V), "0 0 7"),
        (load(U), load(U), "0 1 7"),
        (load(U, V) + flip(0, 1), [], "0 0"),
        (load(U, V) + flip(0, 0), load(U, V), "0 2 7"),
        (load(U) + insert(INNER) + take_out(INNER), load(U), "0 1 7"),
        (load(U) + insert(side), load(U) + insert(INNER), "0 5"),
        # each refusal, and the chart goes on as it was
        (load(U, V, FLAT) + load(U) + insert(out) + insert((0, 0)) + take_out(INNER) + flip(0, 1) + flip(0, 0), load(V), "0 0 7"),
        ([2, 7] + [1] * 7 + load(V) + load(*SLIVERS), load(V) + load(*[U] * 513) + load(FLAT), "0 1 4"),
        (load(*[U] * 512) + insert(INNER), [], "0 0 7"),
        (load(*[U] * 300) + insert(side), load(V), "0 0 7"),
        (load(*[U] * 512) + insert(side), load(V), "0 0 7"),
        (insert(side) + load(U), insert(out) + load(V), "0 0 7"),
        (load(U) + load(), load(U), "0 0 7"),
        # a command that is none, and what follows is dropped; 0, 1, 6, 7, 8, 9, 259 and 65535 are none
        (load(U) + [6, 0, 0] + load(V), load(U) + [0] + load(V), "0 1 7"),
        (load(U) + [1, *U] + load(), load(U) + [65535, 2, 0], "0 1 7"),
        ([7] + load(U), load(U), "0 0 7"),
        (load(U) + [8, 0, 20000, 0] + load(V), load(U) + [9, 20000, 0] + load(V), "0 1 7"),
        (load(U) + [7, 20000, 0] + load(V), load(U) + [259, 20000, 0] + load(V), "0 1 7"),
        # cut calls at the end
        (load(U) + [2], load(U) + [2, 1], "0 1 7"),
        (load(U) + [2, 6, *V[:5]], load(U) + [3, *INNER[:1]], "0 1 7"),
        (load(U) + [3], load(U) + [4, 1], "0 1 7"),
        (load(U, V) + [5, 0], load(U, V) + [4], "0 2 7"),
        (load(U, V) + [5], load(U, V) + [2, 65535], "0 2 7"),
        (load(U) + [3, 20000, 0], load(U) + [3, 20000, 0, 3], "0 2"),
        # inserts on sides: of U and V, either taken, of U alone, with all other events
        (load(U, V) + insert(side), load(V, U) + insert(side), "0 4"),
        (load(V, U) + insert(side), load(V), "0 2"),
        (load(U) + insert((20000, 0)), load(U), "0 2"),
        (square + insert((24, 40)) + flip(0, 3) + take_out((24, 40)), square + flip(0, 1), "0 2"),
        (square + insert((24, 40)) + insert((30, 12)) + insert((12, 20)), square + insert((64, 7)), "0"),
        (load(edits.ABOVE, edits.BELOW_TOO, edits.BELOW, edits.LONGER, edits.ABOVE) + insert(edits.AT), load(edits.BELOW), "0 4"),
        (load(edits.BELOW, edits.BELOW_TOO, edits.ABOVE) + insert((101, 40)) + insert(edits.AT), load(edits.BELOW_TOO), "0 3"),
        # the lowest that holds the point: at a corner, on a side, inside
        (load(edits.ENDING, edits.AROUND, edits.ABOVE) + insert(edits.AT), load(edits.AROUND), "0 3"),
        (load(edits.SHORTER, edits.AROUND, edits.BELOW) + insert(edits.AT), load(edits.AROUND), "0 4"),
        (load(edits.ABOVE, edits.AROUND, edits.BELOW) + insert(edits.AT), load(edits.BELOW), "0 3"),
        (load(edits.AROUND, edits.ABOVE, edits.BELOW) + insert(edits.AT), load(edits.AROUND), "0 5"),
        # 511 triangles and one more or two, 510 and two
        (load(small, *many, small) + insert((1007, 1000)), load(small), "0 3"),
        (load(small, *many, under) + insert((1007, 1000)), load(small), "0 1"),
        (load(small, *many, under) + insert((1007, 1001)), load(small), "0 1"),
        (load(small, *many) + insert((1007, 1001)), load(small), "0 3"),
        # 4,096 pairs and more
        (load(*[U] * 64), load(*[U] * 64), "0 4096 7"),
        (load(*[U] * 65), load(*[U] * 64), "12 0 0"),
        (load(*[U] * 509) + insert(INNER), load(*[U] * 512), "12 0 0"),
        # meshes made by inserts and flips
        (one, other, "0"),
        (other, one, "0"),
        (load(*PARTS) + flip(1, 3), load(*grid), "0"),
    ]


def drawn(rng):
    """The numbers of a list of calls, most of which can be done; some lists are damaged."""
    s = Script(rng, short=True)
    for _ in range(rng.choice([1, 1, 2])):
        edits.drawn_edits(s, rng.choice(list(edits.STARTS)))
    codes = {name: code for code, name in COMMANDS.items()}
    made = [(step[0], step[2]) for step in s.steps if step[0] in codes]
    numbers = [n for name, ops in made for n in [codes[name]] + [len(ops)] * (name == "load") + ops][: LONGEST - 1]
    if rng.random() < 0.2:
        return numbers[: rng.randrange(len(numbers))]
    if rng.random() < 0.2:
        numbers.insert(rng.randrange(len(numbers)), rng.choice([0, 1, 2, 3, 4, 5, 6, 7, 8, 9, 65535]))
    return numbers


WANTED = [f"load {n}" for n in (0, 4, 5, 11)] + [f"insert {n}" for n in (0, 7, 10, 11, 14)] + ["take_out 0", "take_out 8"]
WANTED += [f"flip {n}" for n in (0, 6, 9)] + ["overlay 0", "overlay 12"]
WANTED += [f"insert {what}" for what in tables.PLACES + tables.HIGHER + tables.ADDED]


def inserts(lists, gave):
    """What the inserts show, by the tables that the calls before them lead to."""
    numbers = (int(call.split()[1]) for call in gave)
    for case in lists:
        for calls in case:
            table, _ = [], next(numbers)
            for name, operands in decoded(calls):
                number = next(numbers)
                if name == "insert":
                    yield from tables.insert_shows(table, tuple(operands), number)
                if number == 0:
                    loaded = [tuple(operands[k : k + 6]) for k in range(0, len(operands), 6)]
                    table = loaded if name == "load" else tables.edited(name, table, operands)
        next(numbers)


def is_known(case, line):
    """Whether the overlay answers what is known of it."""
    known = case[2]
    return not known or f"{line} ".startswith(f"replay {known} ")


def store():
    cases = [case[:2] for case in stored()]
    engines.store(PROGRAM, program_data(cases), model_lines(cases)[0])
    print(f"{len(cases)} cases stored")
    return 0


def main():
    if sys.argv[1:] == ["store"]:
        return store()
    rng = random.Random(int(sys.argv[1]))
    cases = stored() + [(drawn(rng), drawn(rng), None) for _ in range(int(sys.argv[2]))]
    lists = [case[:2] for case in cases]
    theirs, gave = model_lines(lists)
    if not engines.agree("case", cases, engines.program_lines(PROGRAM, program_data(lists)), theirs, is_known):
        return 1
    if not engines.all_met(dict.fromkeys(WANTED, 1), collections.Counter([*gave, *inserts(lists, gave)])):
        return 1
    print(f"{len(cases)} cases of {len(gave)} calls, all agree; " + engines.tally(gave))
    return 0


if __name__ == "__main__":
    sys.exit(main())
