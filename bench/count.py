#!/usr/bin/env python3
"""Counts instructions, branches and mispredicted branches of one overlay and one soundness check on each pair of charts of the benchmark,
by the library and by an earlier archive if the program has one, and of 16 windows, by the library, by the hand-written engine, and of the
library's locate at as many points: what valgrind counts is the same in every run, which time is not.

usage: count.py PROGRAM [--before]    (bench/run.sh --count [ARCHIVE] builds the program and calls this)
"""

import os
import re
import subprocess
import sys
import tempfile

CALLS = ["soundness", "overlay"]
CHARTS = ["%s%d" % (name, n) for name, sizes in (("even", (2, 32, 128, 512)), ("uneven", (2, 32, 128, 512)), ("drawn", (32, 128, 512))) for n in sizes]
LIBRARY, BEFORE = 0, 2  # the engines' numbers in bench/calls.c, for these calls
WINDOWS = [(LIBRARY, "library"), (1, "plain"), (2, "locate")]  # and for windows


def counted(program, call, charts, engine):
    """Instructions, branches and mispredicted branches of one call."""
    with tempfile.TemporaryDirectory() as folder:
        out = os.path.join(folder, "out")
        words = ["valgrind", "--tool=callgrind", "--branch-sim=yes", "--toggle-collect=counted", "--callgrind-out-file=" + out,
                 program, call, charts, str(engine)]
        done = subprocess.run(words, capture_output=True, text=True)
        if done.returncode != 0:
            sys.exit("count.py: %s\n%s" % (" ".join(words), done.stderr))
        text = open(out).read()
    events = re.search(r"^events: (.*)$", text, re.M).group(1).split()
    totals = dict(zip(events, map(int, re.search(r"^(?:summary|totals): (.*)$", text, re.M).group(1).split())))
    return totals["Ir"], totals["Bc"], totals["Bcm"]


def table(call, engines):
    """The counts of a call by engines, each as number and name, on each pair of charts, and the library's as ratios to the others'."""
    print("%s: instructions, branches, mispredicted of %s" % (call, ", ".join(name for _, name in engines)))
    for charts in CHARTS:
        first, *others = [counted(sys.argv[1], call, charts, e) for e, _ in engines]
        line = "%-10s" % charts + "".join("  %11s %9s %7s" % tuple("{:,}".format(n) for n in row) for row in (first, *others))
        for (_, name), row in zip(engines[1:], others):
            line += "   / %s %s" % (name, " ".join("%.3f" % (a / max(b, 1)) for a, b in zip(first, row)))
        print(line, flush=True)


def main():
    if len(sys.argv) not in (2, 3) or sys.argv[2:] not in ([], ["--before"]):
        sys.exit(__doc__)
    for call in CALLS:
        table(call, [(LIBRARY, "library")] + [(BEFORE, "before")] * (len(sys.argv) - 2))
    table("window", WINDOWS)


if __name__ == "__main__":
    main()
