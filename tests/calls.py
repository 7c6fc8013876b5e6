#!/usr/bin/env python3
"""Runs public calls on sound and damaged charts by the proved program (crates/test_calls) and by the reference model, and
compares what they answer and what the buffers hold afterwards.

usage: calls.py SEED COUNT    compares; COUNT is at least 8
       calls.py store         writes the program's stored case, crates/test_calls/stdin and stdout, the latter by the model

What is run stands in tests/call_cases, in parts that each say what they show: the boundaries of document 01's numbers, damaged
charts, positions of points, edits, overlays, windows. Then COUNT charts that are loaded, read, damaged at random and read again, COUNT
lists of edits, COUNT pairs of charts that are laid over each other, edited and damaged, and windows of COUNT charts.

A take-out cannot be refused with 11: it takes sides away and adds none, so every cell of the new table is one or more of the old,
and no cell lists more triangles than those did together.

It fails when the engines differ, when a call whose number is known by its making gives another, when something that is to be met
was not met (see `WANTED`), and when either engine ends with a status other than 0, says something on its standard error or
does not end."""

import collections
import random
import re
import sys

import engines
from call_cases import boundaries, damage, edits, overlays, positions, script, windows
from call_cases.script import EDITS, Script, listed
from tables import FLAT, V


# ---- what is run


def fixed(s):
    """What nothing but what the buffers hold is drawn for."""
    boundaries.lengths(s)
    boundaries.loads(s)
    damage.damaged(s)
    boundaries.unused(s)
    damage.hand_made(s)
    boundaries.fullest(s)
    s.on(1)
    on_charts(s)
    overlays.deep(s)
    overlays.every_two(s)


def on_charts(s):
    """Positions, entries that are stale, edits, overlays and windows, but for the longest lists."""
    for part in (positions.positions, damage.stale, edits.inserts, edits.take_outs, edits.flips, edits.full):
        part(s)
    for part in (overlays.known_overlays, overlays.touching, overlays.overlay_refusals, overlays.overlay_damaged):
        part(s)
    for part in (windows.known_windows, windows.touching_windows, windows.between_points, windows.mesh):
        part(s)
    for part in (windows.window_refusals, windows.unfiled, windows.seams):
        part(s)


def drawn(s, count):
    starts = list(edits.STARTS)
    for k in range(count):
        damage.drawn(s)
        edits.drawn_edits(s, starts[k % len(starts)])
        overlays.drawn_overlays(s)
        windows.drawn_windows(s)


def store():
    """The stored case: what is fixed, but for the longest lists."""
    s = Script(random.Random(0), short=True)
    boundaries.lengths(s)
    s.load([3] * 7, number=4)
    s.table([V, FLAT], number=5)
    damage.damaged(s)
    s.on(1)
    on_charts(s)
    engines.store(script.PROGRAM, script.program_data(s.steps), script.model_lines(s.steps))
    print(f"{len(s.shown)} calls stored")
    return 0


# ---- what is met

# each number that each call but edits, overlays and windows can give, with its values
WANTED = listed(
    """load 0; load 1; load 4; load 5 0; load 5 3; load 5 511; load 11; load of 512; load of 16384;
    locate 0 above 0; locate 1 position 7; locate 2 position 7; sound 0 yes; sound 0 no; sound 1; sound 2;
    area 0 0; area 0 above 2^32; area 1; area 2; listing of none; listing of some; listing of 512; the mark listed as none"""
)
WANTED += [f"locate 0 position {place}" for place in range(8)]
# each thing that a call is made for
WANTED += boundaries.WANTED + damage.WANTED + positions.WANTED + edits.WANTED + overlays.WANTED + windows.WANTED
for part in (boundaries, damage, edits):
    WANTED += [f"{edit}: {shows}" for edit in EDITS for shows in part.WANTED_OF_EDITS]
WANTED += [f"overlay: {shows}" for shows in damage.WANTED_OF_OVERLAYS]
WANTED += [f"window: {shows}" for shows in boundaries.WANTED_OF_WINDOWS + damage.WANTED_OF_WINDOWS]


def met(shows, words, before):
    """What a call and its answer show; `before` is the answer of the call before it."""
    call, number = words[:2]
    if call in EDITS:
        shows, *place = shows.split("; ")
        yield f"{call} {number}"
        yield f"{call}: {shows}"
        if shows.startswith("drawn on"):
            yield f"drawn {call} {number}"
            yield " ".join([f"drawn {call} {number}", *place])
        if number == "0":
            yield f"{call} of {words[4]}"
        return
    if call == "overlay":
        yield f"overlay {number}"
        yield f"overlay: {shows}"
        yield f"overlay of {words[2]}"
        if shows.startswith("drawn"):
            yield f"drawn overlay {number}"
        return
    if call == "window":
        yield f"window {number}"
        yield f"window: {shows}"
        yield f"window of {words[2]}"
        if shows.startswith("drawn"):
            yield f"drawn window {number}"
            yield "drawn window of some" if words[2] != "0" else "drawn window of none"
        return
    if shows:
        yield shows
    if call == "load":
        yield f"load {number}" + (f" {words[2]}" if number == "5" else "")
        if number == "0":
            yield f"load of {words[3]}"
            yield f"load of {words[4]}"
    elif call == "listing":
        yield "listing of none" if number == "0" else "listing of some"
        yield f"listing of {number}"
        if number == "0" and before[:2] == ["locate", "0"]:
            yield "the mark listed as none"
    elif call == "locate":
        yield f"locate {number} position {words[3]}"
        if words[2] not in ("nowhere", "0"):
            yield "locate 0 above 0"
    elif number != "0":
        yield f"{call} {number}"
    elif call == "sound":
        yield f"sound 0 {words[2]}"
    else:
        yield "area 0 above 2^32" if int(words[2]) > 2**32 else f"area 0 {words[2]}"


def given(case, line):
    """Whether a call gave its number; a listing has none and is empty at a refusal. An overlay may have to give pairs and meetings, a
    window how many it lists."""
    (shows, number), words = case, line.split()
    if words[0] == "overlay" and re.fullmatch(r"\d+ pairs, \d+ meetings", shows):
        return words[1:4] == ["0"] + re.findall(r"\d+", shows)
    if words[0] == "window" and re.fullmatch(r"\d+ listed", shows):
        return words[1:3] == ["0"] + re.findall(r"\d+", shows)
    if words[0] == "locate" and not placed(shows, words):
        return False
    return number is None or (words[0] == "listing" and (number == 0 or words[1] == "0")) or words[1] == str(number)


def placed(shows, words):
    """Whether a locate gave the triangle and position that it may have to give, and 7 where it gave no triangle, and there alone."""
    _, number, triangle, place = words[:4]
    known = re.fullmatch(r"(\w+) position (\d)", shows)
    if known and [triangle, place] != list(known.groups()):
        return False
    return (triangle == "nowhere") == (place == "7") and (number == "0" or triangle == "nowhere")


def main():
    if sys.argv[1:] == ["store"]:
        return store()
    seed, count = int(sys.argv[1]), int(sys.argv[2])
    s = Script(random.Random(seed))
    fixed(s)
    drawn(s, count)
    ours, theirs = script.program_lines(s.steps), script.model_lines(s.steps)
    print(f"{len(s.shown)} calls, seed {seed}")
    if not engines.agree("call", s.shown, ours, theirs, given):
        return 1
    seen, before = collections.Counter(), []
    for line, (shows, _) in zip(theirs, s.shown):
        seen.update(met(shows, line.split(), before))
        before = line.split()
    if not engines.all_met(dict.fromkeys(WANTED, 1), seen):
        return 1
    print("all agree; " + engines.tally(" ".join(line.split()[:2]) for line in theirs if not line.startswith("listing")))
    return 0


if __name__ == "__main__":
    sys.exit(main())
