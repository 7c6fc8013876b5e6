#!/usr/bin/env python3
"""Holds helm-display to what docs/DISPLAY.md says of it.

usage: display.py PROGRAM [ARGUMENT ..]      the command program, which chartkey runs

It builds the display twice, the second time with address and undefined-behaviour sanitizers, and once more with a window call that
refuses. It draws the stored command streams, streams that the reference model draws from a fixed seed, the example papers, damaged streams
and random bytes. It fails when
  - a build warns, or a sanitizer or valgrind complains of any run;
  - a report has other tables, entries, counts, refusals, pairs, meetings, triangles found or positions than the model's calls and log,
    or chartkey's answers on the same paper, or a number's place is not inside its triangle, or a position is met by no head;
  - the rectangle that the plan is drawn by is not the smallest around its window and what reaches into it, the triangles listed for it
    are not those of an exact clipping (tests/clipping.py), what reaches into the window is missing, or a refusal of it is not told;
  - ink is missing where it must be, or is where it must not be; the rings of the head have another form or colour than its position,
    or the side or corner on which it sits is not the one that stands out; colours are too close to each other (tests/ink.py);
  - the same input gives other bytes of PDF or SVG, or the picture of the README is not what the display draws: blocks of 8 by 8
    pixels are compared by their mean colour, so that another version of the font or of cairo does not matter, and a line elsewhere does;
  - --watch draws another picture than --head of the same point, or not the newest, or leaves half a picture or a part of one;
  - an option, an error or a missing package has another status or message than is said;
  - the installed display does not find what it needs, or is left after make uninstall."""

import json
import math
import os
import random
import re
import shlex
import shutil
import signal
import subprocess
import sys
import tempfile
import time
from fractions import Fraction

import clipping
import ink
import png
import streams
import tables
from engines import MODEL, ROOT, model_lines

sys.path.insert(0, ROOT)
from frontend import numbers

PROGRAM = sys.argv[1:]
DISPLAY = os.path.join(ROOT, "target", "bin", "helm-display")
CHECKED = os.path.join(ROOT, "target", "display", "helm-display")
EXAMPLES = os.path.join(ROOT, "examples")
VECTORS = os.path.join(ROOT, "tests", "vectors")
BASIN = os.path.join(EXAMPLES, "turning-basin.txt")
STREAM = os.path.join(EXAMPLES, "turning-basin.bin")
PICTURES = os.path.join(ROOT, "docs", "pictures")
CHARTS = ("bed", "design")
POSITIONS = list(range(8))
# U in both charts, and a head at each position by it: inside, on ab, bc and ca, at a, b and c, outside
BOTH_U = b"".join(map(streams.command, streams.parts("1 U; 2 0; 1 U; 2 1")))
HEADS_OF_U = [[1, 1], [7, 0], [32768, 32767], [0, 7], [0, 0], [65535, 0], [0, 65535], [65535, 65535]]
SEED = 7
DRAWN = 60
SMALL = ["--size", "320x200"]
# how far beyond the plan triangles are asked for: pixels of a picture of 1280 by 800, millimetres of a sheet
REACH = {"helm": 18.4, "sheet": 3.4}
# how many windows and triangles in them a run must have met
LEAST_OF_WINDOWS = {"windows of a part": 60, "windows of all or none": 15, "triangles that only touch a window": 60}
# the streams are drawn in these ways, one after the other
VIEWS = (
    SMALL,
    ["--form", "pdf"],
    [*SMALL, "--night", "--cells"],
    ["--form", "pdf", "--a3", "--portrait", "--cells"],
    ["--form", "svg", "--cells"],
    ["--size", "3000x300"],
    ["--form", "svg", "--sheet"],
    [*SMALL, "--window", "30000,30000,36000,36000"],
)
WAIT = 120  # a guard against a hang, in seconds
faults = []
counts = {}


def fault(*parts):
    faults.append(" ".join(str(p)[:700] for p in parts))


def count(what, n=1):
    counts[what] = counts.get(what, 0) + n


def same(what, got, want):
    count("comparisons")
    if got != want:
        fault(f"{what}:\n  wanted {str(want)[:700]}\n  got    {str(got)[:700]}")


def read(path):
    with open(path, "rb") as f:
        return f.read()


def environment(leaks="0", **more):
    """Of a run. Looking for what is never freed takes longer than most runs, so that is done for the command lines alone."""
    first = os.path.abspath(PROGRAM[0]) if os.path.exists(PROGRAM[0]) else PROGRAM[0]
    own = {"CHARTKEY": os.path.join(ROOT, "chartkey"), "CHARTKEY_ENGINE": shlex.join([first] + PROGRAM[1:])}
    own["ASAN_OPTIONS"] = "exitcode=99:detect_leaks=" + leaks
    # the font library keeps its tables until the process ends
    own["LSAN_OPTIONS"] = "print_suppressions=0:suppressions=" + os.path.join(ROOT, "tests", "display.supp")
    return {**os.environ, **own, **more}


def run(*arguments, given=b"", program=CHECKED, before=(), **more):
    """A run of the display; a sanitizer's complaint, a signal or another status than there is are faults."""
    words = [*before, program, *map(str, arguments)]
    done = subprocess.run(words, input=given, capture_output=True, env=environment(**more), timeout=WAIT)
    count("runs")
    said = done.stderr.decode("utf-8", "replace")
    if re.search(r"Sanitizer|runtime error", said) or done.returncode not in (0, 1, 2, 4):
        fault("ended badly:", arguments, done.returncode, said[-3000:])
    return done


def report_of(*arguments, **more):
    """The report of a run, and its status."""
    done = run("--report", *arguments, **more)
    try:
        return json.loads(done.stdout), done.returncode
    except ValueError:
        fault("no report:", arguments, done.returncode, done.stderr)
        return None, done.returncode


# ---- building


def need():
    """What the test needs and is not here, with the command that brings it."""
    if not PROGRAM:
        sys.exit(__doc__)
    for missing, what in (
        (not os.path.exists(MODEL), "the reference model (make model)"),
        (not shutil.which(PROGRAM[0]), f"{PROGRAM[0]} (make run)"),
        (not shutil.which("valgrind"), "valgrind (Debian: apt-get install valgrind)"),
    ):
        if missing:
            sys.exit(f"missing: {what}")


def build():
    """Both builds, without a word but the program's name."""
    for options, program in (([], DISPLAY), (["--sanitize"], CHECKED)):
        print(f"building {os.path.relpath(program, ROOT)}", flush=True)
        done = subprocess.run(["bash", "display/build.sh", *options], cwd=ROOT, capture_output=True, text=True)
        if done.returncode != 0:
            sys.exit(f"display/build.sh {' '.join(options)}:\n{done.stdout}{done.stderr}")
        same("what the build says", done.stdout.split("\n")[-2:] + [done.stderr], [os.path.relpath(program, ROOT), "", ""])


# ---- the model's answers


def model_logs(given):
    """The model's logs of many streams."""
    data = b"".join(b"%d\n" % len(d) + d for d in given)
    out = subprocess.run([MODEL, "logs"], input=data, capture_output=True, timeout=WAIT, check=True).stdout
    logs, at = [], 0
    while at < len(out):
        end = out.index(b"\n", at) + 1
        logs.append(out[end : end + int(out[at:end])])
        at = end + int(out[at:end])
    return logs


def words_of(data):
    return [int.from_bytes(data[k : k + 2], "little") for k in range(0, len(data), 2)]


def commands_of(data):
    """Offset, code, chart or None, and 16-bit operands of each command of a whole stream."""
    at = 0
    while at < len(data):
        code = data[at]
        end, chart = at + streams.SIZES[code], data[at + 1] if 2 <= code <= 6 else None
        yield at, code, chart, words_of(data[at + 1 + (chart is not None) : end])
        at = end


def script_of(data, sizes):
    """Calls on raw buffers that do what a whole stream does, and dumps of what is in use after them."""
    yield "load 0"
    yield "load 1"
    waiting = []
    for _, code, chart, words in commands_of(data):
        if code == 1 and len(waiting) < 6 * streams.MOST_WAITING:
            waiting += words
        elif 2 <= code <= 5:
            name = {2: "load", 3: "insert", 4: "take_out", 5: "flip"}[code]
            yield " ".join(map(str, [name, chart, *(waiting if code == 2 else words)]))
            waiting = [] if code == 2 else waiting
    for chart, (triangles, entries) in enumerate(sizes):
        yield f"dump table{chart} 0 {6 * triangles}"
        for name in ("keys", "levels", "items"):
            yield f"dump {name}{chart} 0 {entries}"
    yield "echo end"


def model_charts(given):
    """For each stream, with the counts to be dumped: counts, table and entries of both charts by the model's calls."""
    lines = iter(model_lines("calls", "\n".join(l for data, sizes in given for l in script_of(data, sizes)) + "\n"))
    charts = []
    for data, _ in given:
        counted, dumps, wanted = [None, None], [], [0, 1] + [c for _, code, c, _ in commands_of(data) if 2 <= code <= 5]
        for line in iter(lambda: next(lines), "echo end"):
            words = line.split()
            if words[0] == "dump":
                dumps.append(list(map(int, words[3:])))
            else:
                counted[wanted.pop(0)] = list(map(int, words[3:5]))
        charts.append([(counted[c], dumps[4 * c], list(map(list, zip(*dumps[4 * c + 1 : 4 * c + 4])))) for c in (0, 1)])
    return charts


# ---- reports


def all_streams():
    """Name and bytes of stored streams and of drawn ones."""
    for name, given, _ in streams.cases(faults):
        yield name, b"".join(map(streams.command, streams.parts(given)))
    for name in sorted(os.listdir(VECTORS)):
        if name.endswith(".bin"):
            yield name, read(os.path.join(VECTORS, name))
    out = subprocess.run([MODEL, "streams", str(SEED), "0", str(DRAWN), "1"], capture_output=True, timeout=WAIT, check=True).stdout
    at = 0
    for k in range(DRAWN):
        end = out.index(b"\n", at) + 1
        kind, size, log = out[at:end].split()
        yield f"drawn {k}, {kind.decode()}", out[end : end + int(size)]
        at = end + int(size) + int(log)


def wanted_run(data, log):
    """Where a stream is bad, its refusals, and what its commands come to, by its log."""
    bad, refusals, refused, head, at, steps = None, [], [0, 0], None, 0, 0
    for step in streams.steps(data, log):
        start, at = at, step.end
        if step.what.startswith("bad"):
            bad = start
            break
        steps += 1
        code, line = int(step.what), list(map(int, step.line.split()))
        chart = data[start + 1] if 2 <= code <= 6 else None
        if code == 6:
            head = words_of(data[start + 2 : at])
        if code == 1 and line or 2 <= code <= 5 and line[1]:
            value = line[2] if line[1] == 5 else 0
            name = None if chart is None else CHARTS[chart]
            refusals.append({"offset": start, "command": code, "chart": name, "number": line[1], "value": value})
        if 2 <= code <= 5:
            refused[chart] = line[1]
    return bad, refusals, refused, head, steps


def wanted_end(log):
    """Number, pairs, meetings and key of the overlay, and the triangles found, from a log that ends with two locates and an overlay."""
    lines = [list(map(int, line.split())) for line in log.decode().split("\n")[1:-1]]
    at = max(k for k, line in enumerate(lines) if len(line) != 2 or line[0] == 7 and line[1] == 12 and k == len(lines) - 1)
    number, *rest = lines[at][1:]
    pairs, meetings = rest or (0, 0)
    found = [{"number": n, "triangle": None if t == 65535 else t, "position": k[0] if k else 7} for _, n, t, *k in lines[at - 2 : at]]
    return {"number": number, "pairs": pairs, "meetings": meetings, "key": lines[at + 1 :]}, dict(zip(CHARTS, found))


def with_tail(data, head):
    """A stream, and then what a report shows at its end: both locates and the overlay."""
    return data + b"".join(bytes([6, c]) + streams.words(head) for c in (0, 1)) + b"\7"


def check_report(name, report, data, log, tail_log, charts, head):
    """One report against the model's answers; the head is that of --head, or None."""
    bad, refusals, refused, located, steps = wanted_run(data, log)
    overlay, found = wanted_end(tail_log)
    if overlay["number"]:
        at = len(data) if bad is None else bad
        refusals.append({"offset": at, "command": 7, "chart": None, "number": overlay["number"], "value": 0})
    same(f"{name}: bad", report["bad"], bad)
    same(f"{name}: commands", report["commands"], steps)
    same(f"{name}: refusals", (report["refused"], report["refusals"]), (len(refusals), refusals[:64]))
    same(f"{name}: overlay", report["overlay"], overlay)
    head = head or located
    same(f"{name}: head", (report["head"], report["found"]), (head, found if head else None))
    for c, (counted, table, cells) in enumerate(charts):
        shown = report["charts"][CHARTS[c]]
        same(f"{name}: refused of {CHARTS[c]}", shown["refused"], refused[c])
        same(f"{name}: counts of {CHARTS[c]}", [shown["triangles"], shown["entries"]], counted)
        same(f"{name}: table of {CHARTS[c]}", [v for t in shown["table"] for v in t], table)
        same(f"{name}: cells of {CHARTS[c]}", shown["cells"], cells)
    check_labels(name, report)
    check_windowed(name, report)
    return {0: "accepted"}.get(len(refusals), "refused"), bad is not None


def check_labels(name, report):
    """Each number stands inside its triangle, and none is both set and left out; on a sheet every number is one of the two."""
    for chart in CHARTS:
        labels, table = report["picture"]["labels"][chart], report["charts"][chart]["table"]
        for i, x, y in labels["set"]:
            if not ink.inside(table[i], (x, y)):
                fault(f"{name}: the number of {chart} {i} stands at {x},{y}, outside its triangle {table[i]}")
        count("numbers set", len(labels["set"]))
        numbers = sorted([i for i, *_ in labels["set"]] + labels["left_out"])
        every = range(len(table)) if report["picture"]["layout"] == "sheet" else set(numbers)
        same(f"{name}: numbers set and left out of {chart}", numbers, sorted(every))


def drawn_head(rng, data, log):
    """A point of a triangle that the stream has, at a corner, on a side or inside where that can be; or any point."""
    triangles = [words_of(data[step.end - 12 : step.end]) for step in streams.steps(data, log) if step.what == "1"]
    if not triangles or rng.random() < 0.15:
        return [rng.randrange(65536), rng.randrange(65536)]
    t = rng.choice(triangles)
    (ax, ay), (bx, by), (cx, cy) = rng.sample([t[0:2], t[2:4], t[4:6]], 3)
    steps = math.gcd(bx - ax, by - ay) or 1
    k = rng.randrange(steps)
    on_side = [ax + (bx - ax) // steps * k, ay + (by - ay) // steps * k]
    return rng.choice([[ax, ay], on_side, [(ax + bx + cx) // 3, (ay + by + cy) // 3]])


def test_reports():
    """Every stream by the display and by the model."""
    rng, given = random.Random(SEED), list(all_streams())
    heads = [None] * len(given) + HEADS_OF_U
    given += [("U at {},{}".format(*head), BOTH_U) for head in HEADS_OF_U]
    logs, seen = model_logs([data for _, data in given]), []
    for k, (name, data) in enumerate(given):
        head = heads[k] or (drawn_head(rng, data, logs[k]) if k % 2 else None)
        view = VIEWS[k % len(VIEWS)]
        report, status = report_of("--bytes", *view, *(["--head", "{},{}".format(*head)] if head else []), given=data)
        if report is None:
            sys.exit("\n".join(faults))
        want = 4 if report["bad"] is not None else 1 if report["refused"] else 0
        same(f"{name}: status", status, want)
        seen.append((name, data, report, head))
    whole = [data if report["bad"] is None else data[: report["bad"]] for _, data, report, _ in seen]
    tails = []
    for (_, _, report, _), data in zip(seen, whole):
        tails.append(with_tail(data, report["head"] or (0, 0)))
    sizes = [[(r["charts"][c]["triangles"], r["charts"][c]["entries"]) for c in CHARTS] for _, _, r, _ in seen]
    charts = model_charts(list(zip(whole, sizes)))
    kinds = [check_report(name, report, data, log, tail, chart, head)
             for (name, data, report, head), log, tail, chart in zip(seen, logs, model_logs(tails), charts)]
    count("streams", len(given))
    for what in (("accepted", False), ("refused", False), ("accepted", True), ("refused", True)):
        if what not in kinds:
            fault("no stream was", what)
    for chart in CHARTS:
        met = {report["found"][chart]["position"] for _, _, report, _ in seen if report["found"]}
        same(f"positions met by heads over the {chart} of streams", sorted(met), POSITIONS)


# ---- windows


def reach_of(shown):
    """In the units of the plan's frame."""
    width, height = shown["size"]
    by = min(max(width, height) / 1280, min(width, height) / 800) if shown["layout"] == "helm" else 1
    return REACH[shown["layout"]] * by


def ground(t, rectangle):
    """Twice the area of what a triangle and a rectangle have in common."""
    points = tables.corners(t)
    for axis, sign, line in zip((0, 1, 0, 1), (-1, -1, 1, 1), rectangle):
        points = clipping.cut(points, axis, sign, line)
    return sum(tables.orientation((*points[0], *p, *q)) for p, q in zip(points, points[1:]))


def check_windowed(name, report):
    """The rectangle is the smallest that has the window and what reaches into it, and what has a point in it is listed. What has ground in
    the window has a number, set or left out, and what is not listed has none."""
    shown, rectangle = report["picture"], report["windowed"]["rectangle"]
    # the report has three digits of the window, and the display leaves out what is too thin to be seen
    window = [Fraction(round(1000 * line) + inward, 1000) for line, inward in zip(shown["window"], (1, 1, -1, -1))]
    thin = Fraction(1, 10**6)
    scale = (shown["plan"][2] - shown["plan"][0]) / (shown["window"][2] - shown["window"][0])
    for line, edge, sign in zip(rectangle, shown["window"], (-1, -1, 1, 1)):
        off = sign * (line - max(0, min(65535, edge + sign * reach_of(shown) / scale)))
        if not -0.01 < off < 1.01:
            fault(f"{name}: the rectangle {rectangle} is not the smallest around the window {shown['window']}")
    for chart in CHARTS:
        table, labels = report["charts"][chart]["table"], shown["labels"][chart]
        want, numbers = clipping.listed(table, None, rectangle), {i for i, *_ in labels["set"]} | set(labels["left_out"])
        seen = {i for i in want if ground(table[i], window) > thin}
        same(f"{name}: {chart} in {rectangle}", report["windowed"][chart], {"number": 0, "triangles": want})
        same(f"{name}: numbers of {chart} missing, and too many", (seen - numbers, numbers - set(want)), (set(), set()))
        count("windows of a part" if 0 < len(want) < len(table) else "windows of all or none")
        count("triangles that only touch a window", sum(ground(table[i], rectangle) == 0 for i in want))


def drawn_windows(rng, report):
    """Windows at corners of the charts' triangles, from one grid unit to a large part of the grid."""
    corners = [p for chart in CHARTS for t in report["charts"][chart]["table"] for p in tables.corners(t)]
    for size in (1, 2, 30, 900, 9000, 9000, 30000):
        left, top = (min(65534, max(0, v - rng.randrange(size + 1))) for v in rng.choice(corners))
        yield left, top, min(65535, left + size), min(65535, top + rng.randrange(1, size + 1))


def crowd(rng, rectangle, n):
    """A stream of both charts with small triangles around the corners of a rectangle: many only touch it, or just do not."""
    left, top, right, bottom = rectangle
    lines = []
    for c in (0, 1):
        for _ in range(n):
            at = rng.choice((left, right)), rng.choice((top, bottom))
            a, b, d = (clipping.clamped(*(v + rng.randrange(-6, 7) for v in at)) for _ in range(3))
            area = tables.orientation(a + b + d)
            if area:
                lines.append("1 " + " ".join(f"{x},{y}" for x, y in ((a, b, d) if area > 0 else (a, d, b))))
        lines.append(f"2 {c}")
    return b"".join(map(streams.command, lines))


def test_windows(folder):
    """Windows of many sizes, at the helm and on sheets; triangles that touch a window; strokes that reach into it; refusals."""
    rng, views = random.Random(SEED), (SMALL, ["--sheet"], ["--size", "320x900"], ["--a3", "--portrait"])
    for name in ("mesh-9002.bin", "soup-9003.bin", "edge-9001.bin", "many-9001.bin"):
        data = read(os.path.join(VECTORS, name))
        for k, window in enumerate(drawn_windows(rng, report_of("--bytes", *SMALL, given=data)[0])):
            words = [*views[k % len(views)], "--window", ",".join(map(str, window))]
            check_windowed(f"{name} {words}", report_of("--bytes", *words, given=data)[0])
    for window in ("30000,30000,30009,30006", "0,0,1,1", "65500,0,65535,30", "65534,65530,65535,65535"):
        words = [*SMALL, "--window", window]
        rectangle = report_of("--bytes", *words, given=BOTH_U)[0]["windowed"]["rectangle"]
        for _ in range(4):
            check_windowed(f"around {rectangle}", report_of("--bytes", *words, given=crowd(rng, rectangle, 40))[0])
    looked_at(LEAST_OF_WINDOWS)
    check_border(folder)
    check_refused_windows(folder)


# a bed triangle left of the window and a design triangle right of it, one grid unit away, and both again farther away than anything reaches
BORDER_WINDOW = (20000, 20000, 40000, 32500)
BORDER = """
1 15000,25000 19999,26000 15000,27000; 1 15000,29000 19000,30000 15000,31000; 2 0
1 45000,25000 45000,27000 40001,26000; 1 45000,29000 45000,31000 41000,30000; 2 1
"""


def check_border(folder):
    """The corners of triangles just beyond the window reach into it, and are drawn; those of triangles farther away are not listed."""
    place = os.path.join(folder, "border.png")
    data = b"".join(map(streams.command, streams.parts(BORDER.strip().replace("\n", "; "))))
    words = ["--window", ",".join(map(str, BORDER_WINDOW)), "--size", "2560x1600", "-o", place]
    for night in ([], ["--night"]):
        report, _ = report_of("--bytes", *words, *night, given=data, program=DISPLAY)
        check_windowed("beyond the border", report)
        same("listed beyond the border", [report["windowed"][chart]["triangles"] for chart in CHARTS], [[0], [0]])
        plan = ink.Plan(png.decoded(read(place)), report, ink.NIGHT if night else ink.DAY)
        for chart, x, inward in zip(CHARTS, BORDER_WINDOW[0::2], (4, -4)):
            px, py = plan.pixels((x, 26000))
            same(f"ink of the {chart} from beyond the border", plan.near((px + inward, py), chart, 1, 0.9), True)


# the window call, which refuses the charts whose places stand in REFUSED: the bed is asked first, then the design
REFUSING = """
#include "jirdtungsten.h"
#include <stdlib.h>
#include <string.h>
jird_windowed __real_jird_window(PARAMETERS);
jird_windowed __wrap_jird_window(PARAMETERS);
jird_windowed __wrap_jird_window(PARAMETERS) {
    static unsigned calls;
    if (strchr(getenv("REFUSED"), "01"[calls++ % 2])) return (jird_windowed){ JIRD_BROKEN_CHAIN, 0 };
    return __real_jird_window(NAMES);
}
"""


def build_refusing(folder):
    """A display whose window call is that one; its place."""
    header = read(os.path.join(ROOT, "include", "jirdtungsten.h")).decode()
    parameters = re.search(r"^jird_windowed jird_window\(([^)]*)\);", header, re.M).group(1)
    names = ", ".join(re.findall(r"(\w+)(?:,|$)", parameters))
    source, program = (os.path.join(folder, name) for name in ("refusing.c", "refusing"))
    with open(source, "w") as f:
        f.write(REFUSING.replace("PARAMETERS", parameters).replace("NAMES", names))
    script(folder, "cc", f'exec cc "$@" {shlex.quote(source)} -Wl,--wrap=jird_window -o {shlex.quote(program)}')
    done = subprocess.run(["bash", "display/build.sh", "--sanitize"], cwd=ROOT, capture_output=True, text=True,
                          env={**os.environ, "CC": os.path.join(folder, "cc")})
    same("build of the refusing display", (done.returncode, done.stderr), (0, ""))
    return program


def check_refused_windows(folder):
    """A refusal is told with its number and words, and in the plan there is nothing of that chart."""
    program, place = build_refusing(folder), os.path.join(folder, "refused.png")
    words, insides = [BASIN, "--window", "0,0,65535,65535", "--report", "-o", place], []
    plain, _ = report_of(*words, program=DISPLAY)
    for refused, more in (("", []), ("0", ["--cells"]), ("1", ["--night"]), ("01", ["--sheet"]), ("01", ["--sheet", "--cells"])):
        done = run(*words, *more, program=program, REFUSED=refused)
        report, charts = json.loads(done.stdout), [CHARTS[int(c)] for c in refused]
        told = f"refused 2: {numbers.NUMBERS[2].says}; the plan is drawn without it"
        said = "".join(f"helm-display: window {chart}: {told}\n" for chart in charts)
        same(f"told of refused windows {charts}", (done.returncode, done.stderr.decode()), (1 if charts else 0, said))
        plan = ink.Plan(png.decoded(read(place)), report, ink.NIGHT if "--night" in more else ink.DAY)
        for chart in CHARTS:
            answer = {"number": 2, "triangles": []} if chart in charts else plain["windowed"][chart]
            same(f"windowed of {chart} at refusals of {charts}", report["windowed"][chart], answer)
            same(f"numbers of {chart} at refusals of {charts}", bool(report["picture"]["labels"][chart]["set"]), chart not in charts)
            same(f"ink of {chart} at refusals of {charts}", ink.has_ink(plan, chart), chart not in charts)
        same(f"all else at refusals of {charts}", [report[k] for k in ("charts", "overlay")], [plain[k] for k in ("charts", "overlay")])
        count("refused windows", len(charts))
        insides.append(plan.inside())
    same("no cells of refused charts", insides[-1] == insides[-2], True)
    watched = run("--watch", BASIN, *SMALL, "-o", place, given=b"1 2\n", program=program, REFUSED="0")
    told = re.findall(rb"window bed: refused 2|1 points read, 1 drawn", watched.stderr)
    same("--watch at refused windows", (watched.returncode, told), (1, [b"window bed: refused 2", b"1 points read, 1 drawn"]))


# ---- papers


def chartkey(*arguments, given=b""):
    words = [sys.executable, os.path.join(ROOT, "chartkey"), *arguments]
    return subprocess.run(words, input=given, capture_output=True, env=environment(), timeout=WAIT)


def check_paper(name, place):
    """The report of a paper, of its stream and chartkey's answers."""
    told = chartkey("--json", place)
    answers = json.loads(told.stdout)
    report, status = report_of(place, *SMALL)
    same(f"{name}: status", status, {3: 0}.get(told.returncode, told.returncode) if report["overlay"]["number"] == 0 else status)
    same(f"{name}: title and id", (report["title"], report["id"]), (answers["title"] or os.path.basename(place), answers["id"] or ""))
    from_stream, _ = report_of(*SMALL, "--title", report["title"], "--id", report["id"], given=chartkey("--bytes", place).stdout)
    same(f"{name}: paper and stream", report, from_stream)
    accepted = {}
    for step in answers["steps"]:
        if step["number"] == 0:
            accepted[step["command"], step.get("chart")] = step
            accepted["changed", step.get("chart")] = step if "entries" in step else accepted.get(("changed", step.get("chart")))
    for chart in CHARTS:
        step = accepted.get(("changed", chart))
        if step:
            shown = report["charts"][chart]
            same(f"{name}: counts of {chart}", (shown["triangles"], shown["entries"]), (step["triangles"], step["entries"]))
    last = answers["steps"][-1] if answers["steps"] else {}
    if last.get("command") == "overlay" and last["number"] == 0:
        same(f"{name}: key", (report["overlay"]["key"], report["overlay"]["meetings"]), (last["pairs"], last["meetings"]))
        count("keys of chartkey")
    count("papers")


def test_papers(folder):
    for name in sorted(os.listdir(EXAMPLES)):
        if name.endswith(".txt"):
            check_paper(name, os.path.join(EXAMPLES, name))
    for name in ("mesh-9002.bin", "soup-9003.bin", "edge-9001.bin"):
        place = os.path.join(folder, name + ".txt")
        with open(place, "wb") as f:
            f.write(chartkey("--from-bytes", os.path.join(VECTORS, name)).stdout)
        check_paper(name, place)
    named = report_of(BASIN, *SMALL)[0]
    same("a paper on standard input", report_of(*SMALL, given=read(BASIN))[0], named)
    piped = report_of("/dev/stdin", *SMALL, given=read(BASIN))[0]
    same("a paper by the name of a pipe", piped, named)
    same("a stream by the name of a pipe", report_of("/dev/stdin", *SMALL, given=read(STREAM))[0]["overlay"], named["overlay"])
    same("a paper that is said to be one", report_of("--paper", *SMALL, given=read(BASIN))[0], named)
    unbuilt = run(BASIN, "--report", *SMALL, CHARTKEY_ENGINE="/no/such/program")
    same("without the command program", (json.loads(unbuilt.stdout)["title"], unbuilt.returncode), ("turning-basin.txt", 1))
    same("told without it", b"note: without title and id" in unbuilt.stderr, True)
    quoted = 'title "a \\ b é 港 /"\nid "<&>"\n'.encode()
    same("a title with signs", [report_of("--paper", *SMALL, given=quoted)[0][k] for k in ("title", "id")], ["a \\ b é 港 /", "<&>"])
    beside = os.path.join(folder, "bin")
    os.mkdir(beside)
    shutil.copy(DISPLAY, beside)
    os.symlink(os.path.join(ROOT, "chartkey"), os.path.join(beside, "chartkey"))
    for program in (os.path.join(beside, "helm-display"), DISPLAY):
        same(f"chartkey is found by {program}", report_of(BASIN, *SMALL, program=program, CHARTKEY="")[1], 0)
    wrong = run("--report", "--paper", given=b"triangel 0,0 5,0 0,5\n")
    told = chartkey("--bytes", given=b"triangel 0,0 5,0 0,5\n")
    same("a wrong paper", (wrong.returncode, wrong.stdout, wrong.stderr), (2, b"", told.stderr))
    same("random text", run("--report", given=b"\xff\xfe\x00").returncode, 2)


# ---- damaged streams


def test_damaged():
    """A small stream of every command cut at each byte, and random bytes: what is whole is drawn, and the place is told."""
    rng = random.Random(SEED)
    lines = ["1 U", "1 V", "2 0", "1 0,0 50000,0 0,50000", "2 1", "3 0 9,9", "4 1 9,9", "5 0 0 1", "6 0 30000,15000", "7"]
    small = b"".join(map(streams.command, lines))
    given = [small[:k] for k in range(len(small) + 1)] + [rng.randbytes(rng.randrange(1, 40)) for _ in range(30)]
    given += [bytes([1] + 12 * [0] + [code, chart]) + bytes(8) for code in range(2, 7) for chart in (2, 3, 255)]
    given += [bytes([rng.randrange(9)]) + rng.randbytes(rng.randrange(30)) for _ in range(30)]
    for data, log in zip(given, model_logs(given)):
        bad = re.search(rb"^bad (\d+)$", log, re.M)
        done = run("--bytes", "--report", *SMALL, given=data)
        report = json.loads(done.stdout or b'{"bad": "no report"}')
        same(f"damage of {data.hex()}", report["bad"], int(bad.group(1)) if bad else None)
        if bad:
            told = f"helm-display: error: bad {int(bad.group(1))}: ".encode() in done.stderr
            same(f"told of {data.hex()}", (done.returncode, told), (4, True))
        count("damaged streams", bool(bad))


# ---- the command line


# command lines that draw the turning basin; OUT is the name of a picture without its ending
DRAWING = """
-o OUT.png
-o OUT.png --night --cells
-o OUT.png --size 640x480 --head 30000,30000
-o OUT.png --size=7680x4320
-o OUT.png --window 0,0,65535,65535
-o OUT.png --window=29000,27000,31000,29000 --cells
-o OUT.png --head 65535,65535 --window 65534,65534,65535,65535
-o OUT.png --title LONG --id LONG
-o OUT.png --title '' --id ''
-o OUT.png --sheet --page 1
-o OUT.png --a3 --portrait
-o OUT.svg
-o OUT.svg --night --head 0,0
-o OUT.svg --sheet --cells
-o OUT.any --form svg
-o OUT.pdf
-o OUT.pdf --helm
-o OUT.pdf --night
-o OUT.pdf --a3 --cells
-o OUT.pdf --a4 --portrait --title LONG
"""
# a command line, its status, and a part of what is said; FOLDER is a folder, STREAM the turning basin's stream, in which one is refused
TOLD = """
-o OUT.png STREAM | 1 | insert bed at byte 127: refused 14: the point is a corner already
--report --bytes STREAM | 1 | insert bed at byte 127: refused 14
STREAM | 2 | nothing to do: give -o PICTURE, or --report
STREAM --nigth | 2 | --nigth: there is no such option
STREAM --size | 2 | --size at the end: it wants
--size 319x200 STREAM | 2 | it wants WxH, from 320x200 to 7680x4320
--size 7680x4321 STREAM | 2 | it wants WxH
--size 640 STREAM | 2 | it wants WxH
--size 640x480x2 STREAM | 2 | it wants WxH
--head 1 STREAM | 2 | it wants X,Y, each 0 to 65535
--head 1,65536 STREAM | 2 | each 0 to 65535
--head 1,-1 STREAM | 2 | each 0 to 65535
--head '1, 1' STREAM | 2 | each 0 to 65535
--head '' STREAM | 2 | each 0 to 65535
--head 99999999999999999999,1 STREAM | 2 | each 0 to 65535
--window 1,1,1,2 STREAM | 2 | left below right
--window 1,2,3,2 STREAM | 2 | top below bottom
--window 3,2,1,4 STREAM | 2 | left below right
--window 1,2,3 STREAM | 2 | it wants X,Y,X,Y
--page 0 STREAM | 2 | a number from 1 to 999
--page 1000 STREAM | 2 | a number from 1 to 999
--page 2 -o OUT.png STREAM | 2 | there is no page 2: the sheet has 1
--form gif STREAM | 2 | it wants png, svg or pdf
-o OUT.gif STREAM | 2 | ends with .png, .svg or .pdf
-o OUT STREAM | 2 | ends with .png, .svg or .pdf
-o '' STREAM | 2 | the name of a picture
-o - STREAM | 2 | wants --form
-o - --form png --report STREAM | 2 | both go to standard output
--cells=1 --report STREAM | 2 | --cells: takes no value
--sheet --night --report STREAM | 2 | --night is of the helm's picture and --sheet of a sheet
--size 640x480 --a3 --report STREAM | 2 | --size is of the helm's picture and --a3 of a sheet
--watch --report STREAM | 2 | give -o PICTURE
--watch -o - --form png STREAM | 2 | give -o PICTURE
--watch -o OUT.png | 2 | the charts come from a FILE
--title TABBED STREAM | 2 | a text in UTF-8 on one line
--id BROKEN STREAM | 2 | a text in UTF-8 on one line
--report STREAM second | 2 | second: one FILE at a time
--report -- --cells | 4 | cannot read --cells: No such file
--report FOLDER/none | 4 | No such file
--report FOLDER | 4 | Is a directory
--report --paper FOLDER | 4 | irectory
-o FOLDER/none/x.png STREAM | 4 | No such file or directory
-o FOLDER --form png STREAM | 4 | Is a directory
-o /dev/full --form png STREAM | 4 | No space left on device
"""


def option_cases(folder):
    """Arguments, the status, and a part of what is said."""
    meant = {"OUT": os.path.join(folder, "picture"), "FOLDER": folder, "STREAM": STREAM}
    meant.update(LONG=700 * "é ", TABBED="a\tb", BROKEN=os.fsdecode(b"\xff"))

    def words(line):
        return [re.sub("|".join(meant), lambda m: meant[m.group()], word) for word in shlex.split(line)]

    for line in DRAWING.strip().split("\n"):
        yield [*words(line), BASIN], 0, ""
    for line in TOLD.strip().split("\n"):
        given, status, said = line.split(" | ")
        yield words(given), int(status), said


def test_options(folder):
    for words, status, said in option_cases(folder):
        done = run(*words, leaks="1")
        same(f"status of {words}", done.returncode, status)
        if said not in done.stderr.decode("utf-8", "replace") or (status == 0 and done.stderr):
            fault("said at", words, ":", done.stderr)
        count("command lines")
    shown = run("--help").stdout.decode()
    same("help within a screen", (shown.count("\n") <= 24, max(map(len, shown.split("\n"))) <= 80), (True, True))
    names = set(re.findall(r"--\w+|-o\b", shown))
    source = read(os.path.join(ROOT, "display", "options.c")).decode()
    same("options in the help", names, set(re.findall(r'{ "(-\S+)",', source)) | {"--help", "--version"})
    with open(os.path.join(ROOT, "include", "jirdtungsten.h")) as f:
        version = re.search(r'JIRD_VERSION "(.*)"', f.read()).group(1)
    same("version", run("--version").stdout.decode(), f"helm-display {version}\n")


def test_outputs(folder):
    """Standard output, links, rights, closed pipes and files."""
    place = os.path.join(folder, "plain.png")
    run("-o", place, BASIN)
    same("standard output", run("-o", "-", "--form", "png", BASIN).stdout, read(place))
    same("left beside the picture", [n for n in os.listdir(folder) if n.startswith("plain.png.")], [])
    for words in (["--report"], ["-o", "-", "--form", "pdf"], ["--help"]):
        reader, writer = os.pipe()
        os.close(reader)
        done = subprocess.run([DISPLAY, *words, STREAM], stdout=writer, stderr=subprocess.PIPE, env=environment(), timeout=WAIT)
        os.close(writer)
        same(f"a closed pipe at {words}", (done.returncode, b"error" in done.stderr), (-signal.SIGPIPE, False))
    closed = subprocess.run(["sh", "-c", '"$0" --report "$1" >&-', DISPLAY, STREAM], capture_output=True, env=environment())
    same("standard output closed", (closed.returncode, b"cannot write the report" in closed.stderr), (4, True))
    closed = subprocess.run(["sh", "-c", '"$0" --report <&-', DISPLAY], capture_output=True, env=environment())
    same("standard input closed", (closed.returncode, b"cannot read standard input" in closed.stderr), (4, True))
    lost = run("--report", BASIN, CHARTKEY="/no/such/chartkey")
    same("no chartkey", (lost.returncode, b"set CHARTKEY to where it is" in lost.stderr), (4, True))


# ---- the same bytes


def draw_forms(folder):
    """PDF and SVG of some inputs, helm and sheet."""
    made = {}
    for source in (BASIN, os.path.join(EXAMPLES, "outer-harbour.txt"), os.path.join(VECTORS, "many-9001.bin")):
        for name, words in (("a.svg", []), ("b.svg", ["--sheet", "--cells"]), ("c.pdf", []), ("d.pdf", ["--helm", "--night"])):
            place = os.path.join(folder, name)
            run(source, *words, "-o", place, program=DISPLAY)
            made[source, name] = read(place)
    return made


def check_forms(made):
    for (source, name), data in made.items():
        what = f"{name} of {os.path.basename(source)}"
        if name.endswith(".pdf"):
            same(f"{what}: a whole PDF", (data[:5], data.rstrip()[-5:]), (b"%PDF-", b"%%EOF"))
        else:
            same(f"{what}: a whole SVG", (b"<svg" in data[:300], data.rstrip()[-6:]), (True, b"</svg>"))
        count("forms")


# ---- ink


def looked_at(wanted):
    """Whether enough places were."""
    for what, least in wanted.items():
        if counts.get(what, 0) < least:
            fault(f"only {counts.get(what, 0)} {what} were looked at, not {least}")


def test_ink(folder):
    """Ink is where it must be, and not where it must not."""
    place = os.path.join(folder, "ink.png")
    for source, words in (
        (BASIN, ["--window", "0,0,65535,65535", "--size", "1000x800"]),
        (BASIN, ["--window", "0,0,65535,65535", "--size", "1000x800", "--night"]),
        (BASIN, ["--sheet"]),
        (os.path.join(EXAMPLES, "outer-harbour.txt"), ["--window", "15000,15000,35000,35000", "--size", "1600x1200"]),
    ):
        report, _ = report_of(source, *words, "-o", place, program=DISPLAY)
        for text in ink.faults_of(png.decoded(read(place)), report, "--night" in words, counts):
            fault(os.path.basename(source), *words, ":", text)
    looked_at(ink.LEAST)


# a bed triangle and a design triangle apart from each other; heads over the turning basin, the last on a side of both charts
APART = {"bed": ((10000, 10000), (50000, 14000), (18000, 50000)), "design": ((40000, 40000), (62000, 44000), (46000, 62000))}
BASIN_HEADS = [(30000, 10000), (30000, 28000), (30000, 34000), (22000, 10000)]


def heads_by(corners):
    """A point inside a triangle, amid each of its sides, and at each of its corners: the positions 0 to 6."""
    after = corners[1:] + corners[:1]
    yield tuple(sum(c) // 3 for c in zip(*corners))
    yield from (((ax + bx) // 2, (ay + by) // 2) for (ax, ay), (bx, by) in zip(corners, after))
    yield from corners


def head_cases():
    """A stream, a head, and the positions that it has if they are known by its making."""
    lines = []
    for c, corners in enumerate(APART.values()):
        lines += ["1 " + " ".join(f"{x},{y}" for x, y in corners), f"2 {c}"]
    apart = b"".join(map(streams.command, lines))
    for chart, corners in APART.items():
        for position, head in enumerate(heads_by(corners)):
            yield apart, head, {**dict.fromkeys(CHARTS, 7), chart: position}
    yield apart, (3000, 60000), dict.fromkeys(CHARTS, 7)
    yield from ((read(STREAM), head, None) for head in BASIN_HEADS)


def test_head(folder):
    """The cutter head in every position: the report as the model's log, the rings and what stands out as the report."""
    place, cases = os.path.join(folder, "head.png"), list(head_cases())
    for (data, head, known), log in zip(cases, model_logs([with_tail(data, head) for data, head, _ in cases])):
        for words in ([], ["--night"], ["--sheet"]):
            words = ["--head", "{},{}".format(*head), "--window", "0,0,65535,65535", *words]
            report, _ = report_of("--bytes", "-o", place, *words, given=data, program=DISPLAY)
            if report is None:
                return
            positions = {chart: report["found"][chart]["position"] for chart in CHARTS}
            same(f"found at {head}", (report["found"], known or positions), (wanted_end(log)[1], positions))
            for text in ink.head_faults(png.decoded(read(place)), report, "--night" in words, counts):
                fault(*words, ":", text)
    looked_at(ink.LEAST_OF_HEADS)
    for text in ink.colour_faults():
        fault(text)


def test_stored_picture(folder):
    """The pictures of the pages are what the display draws."""
    subprocess.run(["bash", "display/pictures.sh", folder], cwd=ROOT, env=environment(), check=True)
    same("pictures of the pages", sorted(os.listdir(PICTURES)), sorted(n for n in os.listdir(folder)))
    for name in sorted(set(os.listdir(folder)) & set(os.listdir(PICTURES))):
        stored, now = (png.decoded(read(os.path.join(f, name))) for f in (PICTURES, folder))
        same(f"size of {name}", stored[:2], now[:2])
        far = sum(max(abs(a - b) for a, b in zip(p, q)) > 24 for p, q in zip(png.blocks(stored, 8), png.blocks(now, 8)))
        if far > 20:
            fault(f"docs/pictures/{name} is not what the display draws: {far} blocks differ; make pictures draws it anew")
        count("stored pictures")


def test_installed(folder):
    """make install puts the display where it finds chartkey; make uninstall takes it away."""
    to = os.path.join(folder, "usr")
    place = {**{k: v for k, v in os.environ.items() if not k.startswith("CHARTKEY")}, "PREFIX": "/usr", "DESTDIR": folder}
    for word in ("install", "uninstall"):
        done = subprocess.run(["bash", "library/install.sh", word], cwd=ROOT, env=place, capture_output=True, text=True)
        same(f"make {word}: {done.stdout}{done.stderr}", done.returncode, 0)
        if word == "install":
            drawn = subprocess.run([os.path.join(to, "bin", "helm-display"), "-o", "basin.pdf", BASIN], cwd=folder, env=place, timeout=WAIT)
            same("the installed display draws a paper", (drawn.returncode, read(os.path.join(folder, "basin.pdf"))[:5]), (0, b"%PDF-"))
            count("installed programs")
    same("what is left after make uninstall", os.path.exists(to), False)


# ---- watch


def changed(place, before):
    """Waits until another file stands there; its bytes."""
    start = time.monotonic()
    while os.stat(place).st_ino == before:
        if time.monotonic() - start > WAIT:
            sys.exit("--watch draws nothing")
        time.sleep(0.005)
    return read(place)


def test_watch(folder):
    place, alone = os.path.join(folder, "watch.png"), os.path.join(folder, "alone.png")
    run(BASIN, *SMALL, "-o", place, "--head", "44000,29000")
    before = os.stat(place).st_ino
    words = [CHECKED, "--watch", BASIN, *SMALL, "-o", place, "--report"]
    process = subprocess.Popen(words, stdin=subprocess.PIPE, stdout=subprocess.PIPE, stderr=subprocess.PIPE, env=environment())
    changed(place, before)
    for x, y in ((30000, 20000), (0, 0), (65535, 65535), (44000, 29000)):
        before = os.stat(place).st_ino
        process.stdin.write(f"{x} {y}\n".encode())
        process.stdin.flush()
        shown = changed(place, before)
        run(BASIN, *SMALL, "-o", alone, "--head", f"{x},{y}")
        same(f"--watch and --head at {x},{y}", shown == read(alone), True)
        png.decoded(shown)
        count("points watched")
    out, said = process.communicate(b"nonsense\n1 2 3\n9999999 1\n\n 7 , 8 \r\n5000\t6000", timeout=WAIT)
    report = json.loads(out)
    same("the head of the last point", report["head"], [5000, 6000])
    check_windowed("--watch", report)
    same("lines that are no point", re.findall(rb"line (\d+) is no point", said), [b"5", b"6", b"7", b"8"])
    tally = re.search(rb"(\d+) points read, (\d+) drawn, (\d+) passed over for newer ones, (\d+) lines were no point", said)
    points, drawn, passed, others = map(int, tally.groups()) if tally else 4 * [None]
    # whether the last but one is drawn hangs on when the pipe is closed
    same("tally", (process.returncode, points, others, [drawn, passed] in ([6, 0], [5, 1])), (0, 6, 4, True))
    newest(folder)
    interrupted(folder)
    same("left beside the picture", [n for n in os.listdir(folder) if n.startswith("watch.png.")], [])


def newest(folder):
    """Of points that wait only the newest is drawn."""
    place = os.path.join(folder, "watch.png")
    lines = "".join(f"{k},{2 * k}\n" for k in range(1000)).encode()
    with tempfile.TemporaryFile() as f:
        f.write(lines + 300 * b"x" + b"\n" + b"12 34")
        f.seek(0)
        words = [CHECKED, "--watch", STREAM, *SMALL, "-o", place, "--report"]
        done = subprocess.run(words, stdin=f, capture_output=True, env=environment(), timeout=WAIT)
    report = json.loads(done.stdout)
    same("the newest", (report["head"], done.returncode), ([12, 34], 1))
    told = b"1001 points read, 1 drawn, 1000 passed over for newer ones, 1 lines were no point"
    same("tally of the newest", told in done.stderr, True)
    empty = run("--watch", STREAM, *SMALL, "-o", place)
    same("no points", (b"0 points read, 0 drawn" in empty.stderr, empty.returncode), (True, 1))
    broken = run("--watch", STREAM, *SMALL, "-o", os.path.join(folder, "none", "x.png"), given=b"1 2\n")
    same("--watch without a place to draw", broken.returncode, 4)


def interrupted(folder):
    """Ctrl-C ends it with the tally."""
    place = os.path.join(folder, "stopped.png")
    words = [DISPLAY, "--watch", STREAM, *SMALL, "-o", place]
    process = subprocess.Popen(words, stdin=subprocess.PIPE, stderr=subprocess.PIPE, env=environment())
    start = time.monotonic()
    while not os.path.exists(place) and time.monotonic() - start < WAIT:
        time.sleep(0.01)
    process.send_signal(signal.SIGINT)
    said = process.stderr.read()
    same("Ctrl-C", (process.wait(WAIT), b"0 points read" in said), (130, True))
    process.stdin.close()
    process.stderr.close()


# ---- valgrind, packages


def test_valgrind(folder):
    before = ["valgrind", "-q", "--error-exitcode=99", "--leak-check=no"]
    picture = os.path.join(folder, "valgrind")
    for words, given in (
        (["-o", picture + ".png", *SMALL, "--cells", "--report", STREAM], b""),
        (["-o", picture + ".pdf", STREAM], b""),
        (["-o", picture + ".svg", "--sheet", "--window", "29000,27000,31000,29000", "--report", STREAM], b""),
        (["--bytes", "--report", *SMALL], read(STREAM)[:100]),
        (["--watch", STREAM, *SMALL, "--night", "-o", picture + ".svg"], b"1 2\nx\n40000 30000\n"),
    ):
        run(*words, given=given, program=DISPLAY, before=before)
        count("runs of valgrind")


def script(folder, name, text):
    with open(os.path.join(folder, name), "w") as f:
        f.write("#!/bin/sh\n" + text + "\n")
    os.chmod(f.name, 0o755)


def test_no_cairo(folder):
    """What the build says and does where cairo is missing: a pkg-config that finds nothing, and an apt-get that only tells."""
    script(folder, "pkg-config", "exit 1")
    script(folder, "apt-get", f'echo "$@" >>{shlex.quote(folder)}/asked; exit 1')
    command = "install -y libcairo2-dev\n"
    for user, wanted, asked in (
        ("1000", "missing: libcairo2-dev (Debian, as root: apt-get install -y libcairo2-dev)\n", None),
        ("0", "missing: libcairo2-dev; installing by: apt-get " + command, command + "update\n" + command),
    ):
        script(folder, "id", f"echo {user}")
        done = subprocess.run(["bash", "display/build.sh"], cwd=ROOT, capture_output=True, text=True,
                              env={**os.environ, "PATH": folder + ":" + os.environ["PATH"]})
        same(f"no cairo, user {user}", (done.returncode, done.stdout.startswith("make display: " + wanted)), (1, True))
        place = os.path.join(folder, "asked")
        same(f"packages asked for by user {user}", read(place).decode() if os.path.exists(place) else None, asked)


def main():
    need()
    build()
    with tempfile.TemporaryDirectory() as folder:
        places = [os.path.join(folder, name) for name in ("forms", "again", "fake", "pictures", "installed")]
        for place in places:
            os.mkdir(place)
        first, begun = draw_forms(places[0]), time.time()
        parts = [(test_reports,), (test_windows, folder), (test_papers, folder), (test_damaged,), (test_options, folder)]
        parts += [(test_outputs, folder), (test_ink, folder), (test_head, folder), (test_stored_picture, places[3]), (test_watch, folder)]
        parts += [(test_valgrind, folder), (test_no_cairo, places[2]), (test_installed, places[4])]
        for part, *given in parts:
            start = time.monotonic()
            part(*given)
            print(f"{part.__name__[5:].replace('_', ' ')}: {time.monotonic() - start:.1f} s", flush=True)
        # a time of making would be another now
        time.sleep(max(0, begun + 1.1 - time.time()))
        again = draw_forms(places[1])
        check_forms(again)
        same("the same bytes", [name for name in first if first[name] != again[name]], [])
    print("\n".join(faults) if faults else ", ".join(f"{n} {what}" for what, n in sorted(counts.items())) + ", all as wanted")
    sys.exit(1 if faults else 0)


main()
