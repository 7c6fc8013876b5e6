#!/usr/bin/env python3
"""Shows how far rt has come: copies its lines from standard input, those that judge a crate or a must-fail edit with `[n of N]` before
them. A program or a library that is built shows those and errors alone, the gate every line.

usage: rt .. 2>&1 | progress.py ci
       rt .. 2>&1 | progress.py program NAME
       rt .. 2>&1 | progress.py staticlib NAME

N is how many crates and edits rt will judge: for `ci` every crate and every edit, else the crate named and those below it, of which
rt is silent where nothing changed."""

import glob
import os
import re
import signal
import sys

import crates

VERDICT = rb"rt: (must-fail \S+: |\S+ (proved$|NOT PROVED|is kept: ))"
ERROR = rb"rt: .*(NOT PROVED|did not build)|error|\S+:\d+:\d+: error|fn .*: no proof"


def judged(verb, names):
    """How many verdicts there will be."""
    if verb == "ci":
        return len(crates.needs()) + len(glob.glob(os.path.join(crates.ROOT, "crates", "*", "must-fail", "*.edit")))
    return len(crates.below(names))


def judged_lines(verb, lines):
    """The lines to show, each with whether it is a verdict. Where a crate is built, rt's last lines of it are made one."""
    crate = b"?"
    for line in lines:
        if verb == "ci":
            yield line, re.match(VERDICT, line.rstrip(b"\n"))
            continue
        named = re.match(rb"crate (\w+): modules ", line)
        if named:
            crate = named.group(1)
        elif line.startswith(b"logic="):
            yield b"rt: %s %s\n" % (crate, b"proved" if line.startswith(b"logic=proved ") else b"NOT PROVED"), True
        elif re.match(ERROR, line):
            yield line, False


def main():
    # Ctrl-C and a closed pipe end it without a message
    signal.signal(signal.SIGINT, signal.SIG_DFL)
    signal.signal(signal.SIGPIPE, signal.SIG_DFL)
    verb, *names = sys.argv[1:]
    number, total = 0, judged(verb, names)
    for line, is_verdict in judged_lines(verb, sys.stdin.buffer):
        if is_verdict:
            number += 1
            line = b"[%d of %d] %s" % (number, total, line)
        sys.stdout.buffer.write(line)
        sys.stdout.buffer.flush()


main()
