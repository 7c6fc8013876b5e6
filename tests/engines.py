"""What the scripts share that hold the proved programs to the reference model: both engines, a program's stored case, the
comparing of answers, and what a run must have met."""

import collections
import os
import subprocess
import sys

from crates import ROOT

MODEL = os.path.join(ROOT, "target", "model", "model")


# ---- both engines


def run(words, data, seconds=300):
    """What a program prints; everything else that it could do is a fault."""
    try:
        done = subprocess.run(words, input=data, stdout=subprocess.PIPE, stderr=subprocess.PIPE, timeout=seconds)
    except subprocess.TimeoutExpired:
        sys.exit(f"{words}: no end within {seconds} seconds")
    if done.returncode != 0 or done.stderr:
        sys.exit(f"{words}: ended with status {done.returncode}, said {done.stderr[:300]}")
    return done.stdout.decode()


def program_lines(name, data):
    """The lines that a proved program prints, given bytes."""
    return run([os.path.join(ROOT, "target", "bin", name)], data).split("\n")[:-1]


def model_lines(mode, text):
    """The lines that the model prints in one of its modes, given text."""
    return run([MODEL, mode], text.encode()).split("\n")[:-1]


def store(name, data, lines):
    """Writes a program's stored case: what it reads, and the lines that it must print."""
    with open(os.path.join(ROOT, "crates", name, "stdin"), "wb") as f:
        f.write(data)
    with open(os.path.join(ROOT, "crates", name, "stdout"), "w") as f:
        f.writelines(line + "\n" for line in lines)


# ---- comparing


def agree(what, cases, ours, theirs, is_right):
    """Whether both engines answer every case alike, and rightly where that is known; the first case that fails is printed."""
    if not len(cases) == len(ours) == len(theirs):
        print(f"{len(cases)} {what}s, {len(ours)} answers of the program, {len(theirs)} of the model")
        return False
    for k, (case, a, b) in enumerate(zip(cases, ours, theirs)):
        if a != b or not is_right(case, b):
            print(f"{what} {k}: " + ", ".join(repr(part)[:200] for part in case))
            a, b = (answer if isinstance(answer, str) else " / ".join(answer) for answer in (a, b))
            start = max(0, len(os.path.commonprefix([a, b])) - 100)
            print(f"  from {start} on, program {a[start : start + 200]}\n  from {start} on, model   {b[start : start + 200]}")
            return False
    return True


def all_met(wanted, seen):
    """Whether each thing that is wanted was met as often as is wanted; what was not is printed."""
    lacking = [f"{what}, {seen[what]} of {least}" for what, least in wanted.items() if seen[what] < least]
    if lacking:
        print("not met: " + "; ".join(lacking))
    return not lacking


def tally(answers):
    """How often each answer was given, as text."""
    return ", ".join(f"{n} × {answer}" for answer, n in sorted(collections.Counter(answers).items()))
