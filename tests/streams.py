"""Command streams as tests/cases.txt writes them: commands between semicolons, points as x,y, U and V by their names."""

import collections
import os
import re
import struct

import tables

PAGE = os.path.join(os.path.dirname(os.path.abspath(__file__)), "cases.txt")
NAMED = {"U": tables.U, "V": tables.V}
OPERANDS = {1: 6, 2: 1, 3: 3, 4: 3, 5: 3, 6: 3, 7: 0}


def words(values):
    """Numbers of 16 bits, low byte first."""
    return struct.pack(f"<{len(values)}H", *values)


def numbers(data):
    """The numbers of such bytes."""
    return struct.unpack(f"<{len(data) // 2}H", data)


def command(text):
    """The bytes of one command."""
    head, *rest = text.split()
    if head == "raw":
        return bytes(int(w, 16) for w in rest)
    if re.fullmatch(r"\d+x", head):
        return int(head[:-1]) * command(" ".join(rest))
    code = int(head)
    values = [int(v) for w in rest for v in NAMED.get(w) or w.split(",")]
    assert len(values) == OPERANDS[code], text
    chart = [values.pop(0)] if 2 <= code <= 6 else []
    return bytes([code] + chart) + words(values)


def parts(text):
    return [t.strip() for t in text.split(";") if t.strip()]


def log(wanted):
    """What the command program prints, from the lines of a case."""
    return "".join(t + "\n" for t in ["overlay log"] + parts(wanted)).encode()


def cases(faults):
    """Name, input and output of each case of cases.txt, the last two as they stand there; what is no case goes to the faults."""
    names = set()
    with open(PAGE, encoding="utf-8") as f:
        blocks = f.read().split("\n\n")
    for block in blocks:
        lines = [l for l in block.split("\n") if l and not l.startswith("#")]
        if not lines:
            continue
        fields = [re.fullmatch(r"(name|in|out):(?: (.*))?", l) for l in lines]
        if [f and f.group(1) for f in fields] != ["name", "in", "out"]:
            faults.append(f"cases.txt: not a name, an input and an output: {lines[:4]}")
            continue
        name, given, wanted = (f.group(2) or "" for f in fields)
        if not name or name in names:
            faults.append(f"cases.txt: a name that repeats or is none: {name!r}")
        names.add(name)
        yield name, given, wanted


# ---- streams and logs, command by command

SIZES = {code: 1 + 2 * n - (2 <= code <= 6) for code, n in OPERANDS.items()}
MOST_WAITING = 512
# one command: what it is (its number, or why it is bad), where it ends in the stream, its first line, where the log then ends
Step = collections.namedtuple("Step", "what end line shown")


def fault_at(stream, at):
    """Why the command at an offset is bad, or nothing."""
    code, there = stream[at], len(stream) - at
    if code not in SIZES:
        return "unknown byte"
    if 2 <= code <= 6 and there > 1 and stream[at + 1] > 1:
        return f"{code} with c above 1"
    return f"{code} cut after {there} of {SIZES[code]} bytes" if there < SIZES[code] else None


def line_end(log, at, lines=1):
    for _ in range(lines):
        at = log.index(b"\n", at) + 1
    return at


def steps(stream, log):
    """The commands of a stream, with what its log has for each."""
    at, shown, waiting = 0, line_end(log, 0), 0
    while at < len(stream):
        fault, code = fault_at(stream, at), stream[at]
        at += SIZES.get(code, 1)
        if fault:
            yield Step("bad: " + fault, at, log[shown:-1], len(log))
            return
        line = b""
        if code != 1 or waiting == MOST_WAITING:
            end = line_end(log, shown)
            line = log[shown : end - 1]
            shown = line_end(log, end, int(line.split()[2])) if line.startswith(b"7 0 ") else end
        waiting = 0 if code == 2 else min(waiting + (code == 1), MOST_WAITING)
        yield Step(str(code), at, line, shown)
