#!/usr/bin/env python3
"""Runs a command program on the cases of tests/cases.txt and the streams of tests/vectors/ and compares what it prints.

It fails as well when there are not as many cases and streams as it counts below, when a block of cases.txt is
not a name, an input and an output (two blocks that run together are none), when a name repeats, when tests/vectors/ holds other
files than its MANIFEST lists or a file with another SHA-256, and when the program ends with a status other than 0, says
something on its standard error, or does not end within a minute. With --portions each is run again, fed one byte at a time, in
pieces, and with each command only when the one before it is answered (tests/feeding.py).

usage: log_cases.py [--portions] PROGRAM [ARGUMENT ..]"""

import hashlib
import os
import random
import sys

import feeding
import streams

VECTORS = os.path.join(os.path.dirname(os.path.abspath(__file__)), "vectors")
PORTIONS = sys.argv[1:2] == ["--portions"]
PROGRAM = sys.argv[1 + PORTIONS :]
WAYS = feeding.WAYS if PORTIONS else ["whole"]
# how many there are: a new case or stream is counted here
CASES = 34
STREAMS = 27
SECONDS = 60
faults = []


def read(path):
    with open(path, "rb") as f:
        return f.read()


def worked():
    """The cases of cases.txt."""
    for name, given, wanted in streams.cases(faults):
        yield name, b"".join(map(streams.command, streams.parts(given))), streams.log(wanted)


def stored():
    """The pairs of files of tests/vectors/, as its MANIFEST lists them."""
    listed = dict(reversed(l.split("  ")) for l in read(os.path.join(VECTORS, "MANIFEST")).decode().splitlines())
    there = set(os.listdir(VECTORS)) - {"MANIFEST"}
    for name in sorted(there ^ set(listed)):
        faults.append(f"tests/vectors: {name} is {'not listed' if name in there else 'missing'}")
    for name in sorted(there & set(listed)):
        if hashlib.sha256(read(os.path.join(VECTORS, name))).hexdigest() != listed[name]:
            faults.append(f"tests/vectors: {name} is not what its MANIFEST lists")
        if name.endswith(".bin"):
            if name[:-4] + ".log" not in there:
                faults.append(f"tests/vectors: {name} has no log")
                continue
            yield name, read(os.path.join(VECTORS, name)), read(os.path.join(VECTORS, name[:-4] + ".log"))


def run(program, name, way, data, want):
    """Whether the program does what it should."""
    done = program.run(data, way, want, random.Random(0))
    if done.fault:
        faults.append(f"{name}: {done.fault}")
    elif done.status != 0:
        faults.append(f"{name}: ended with status {done.status}")
    if done.said:
        faults.append(f"{name}: said {done.said[:300]}")
    if done.printed != want:
        faults.append(f"differs: {name}\n  wanted {want[:300]}\n  got    {done.printed[:300]}")


def main():
    blocks, pairs = list(worked()), list(stored())
    if len(blocks) != CASES:
        faults.append(f"cases.txt has {len(blocks)} cases, not {CASES}")
    if len(pairs) != STREAMS:
        faults.append(f"tests/vectors has {len(pairs)} streams, not {STREAMS}")
    program = feeding.Program(PROGRAM, SECONDS)
    for name, data, want in blocks + pairs:
        for way in WAYS:
            run(program, f"{name}, fed {way}" if PORTIONS else name, way, data, want)
    fed = f", fed in {len(WAYS)} ways" * PORTIONS
    print("\n".join(faults) if faults else f"{len(blocks)} cases and {len(pairs)} streams, all as stored{fed}")
    sys.exit(1 if faults else 0)


main()
