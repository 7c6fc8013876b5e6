#!/usr/bin/env python3
"""Holds chartkey to what docs/PAPERS.md says of it: stored keys, exit statuses, messages, positions, counts of triangles, forms, schema,
round trips, wrong logs.

It draws random bytes, papers with a byte changed and streams from a fixed seed, and fails when chartkey ends with anything but a
message and a status. `--store` writes the stored forms of examples/ anew, by the program given: look at what changed.

usage: frontend.py [--store] PROGRAM [ARGUMENT ..]"""

import errno
import io
import json
import os
import random
import re
import shlex
import shutil
import signal
import subprocess
import sys
import tempfile
import time
import traceback

ROOT = os.path.dirname(os.path.dirname(os.path.abspath(__file__)))
sys.path.insert(0, ROOT)
from frontend import VERSION, cli, commands, counting, files, forms, log, numbers, paper, schema, stream

sys.path.append(os.path.join(ROOT, "tests"))
import streams

STORE = sys.argv[1:2] == ["--store"]
PROGRAM = sys.argv[2:] if STORE else sys.argv[1:]
EXAMPLES = os.path.join(ROOT, "examples")
VECTORS = os.path.join(ROOT, "tests", "vectors")
SCRIPT = os.path.join(ROOT, "chartkey")
# the form of each kind of stored file
STORED = {".key": [], ".json": ["--json"], ".csv": ["--csv"], ".log": ["--log"], ".bin": ["--bytes"]}
PAPERS = 6
faults = []
counts = {}
statuses = set()


def fault(*parts):
    faults.append(" ".join(str(p) if len(str(p)) < 700 else str(p)[:700] + " .." for p in parts))


def count(what, n=1):
    counts[what] = counts.get(what, 0) + n


def same(what, got, want):
    count("comparisons")
    if got != want:
        fault(f"{what}:\n  wanted {want!r}\n  got    {got!r}")


def read(path):
    with open(path, "rb") as f:
        return f.read()


def engine():
    """The program as one word list, wherever chartkey is called."""
    first = os.path.abspath(PROGRAM[0]) if os.path.exists(PROGRAM[0]) else PROGRAM[0]
    return shlex.join([first] + PROGRAM[1:])


def run(*arguments, given=b"", program=None):
    """The outcome of a command line inside this process. What it prints as JSON fits the schema."""
    come = cli.outcome(list(arguments), ROOT, io.BytesIO(given), {cli.VARIABLE: program or engine()})
    statuses.add(come.status)
    if not isinstance(come.out, bytes) or come.status not in range(5):
        fault("no outcome:", arguments, come)
    come.err.encode("utf-8")
    if "--json" in arguments:
        whole = json.loads(come.out)
        count("JSON outputs")
        for wrong in misfits(whole, SCHEMA, "output"):
            fault("schema:", arguments, given[:60], wrong)
        same("JSON has the status", whole["status"], come.status)
        same("JSON leaves standard error empty", come.err, "")
    return come


def process(*arguments, given=b"", script=SCRIPT, **more):
    """chartkey as a process of its own; a traceback is a fault."""
    environ = {**os.environ, cli.VARIABLE: engine(), **more.pop("environ", {})}
    done = subprocess.run([sys.executable, script, *arguments], input=given, capture_output=True, env=environ, timeout=60, **more)
    count("processes")
    if b"Traceback" in done.stderr or b"Exception" in done.stderr:
        fault("traceback:", arguments, done.stderr.decode())
    return done


# ---- a validator for the part of JSON Schema that the schema uses

KINDS = {"object": dict, "array": list, "string": str, "integer": int, "null": type(None)}


def is_kind(value, kind):
    return isinstance(value, KINDS[kind]) and not isinstance(value, bool)


def misfits(value, shape, where):
    """What of a value does not fit a schema."""
    for word, wanted in shape.items():
        if word == "oneOf":
            fitting = sum(not list(misfits(value, s, where)) for s in wanted)
            wrong = fitting != 1 and f"fits {fitting} of the shapes"
        elif word == "type":
            wrong = not any(is_kind(value, kind) for kind in ([wanted] if isinstance(wanted, str) else wanted)) and f"is no {wanted}"
        elif word in ("const", "enum"):
            wrong = value not in (wanted if word == "enum" else [wanted]) and f"is none of {wanted}"
        elif word in ("minimum", "maximum"):
            wrong = is_kind(value, "integer") and (value < wanted if word == "minimum" else value > wanted) and f"beyond {wanted}"
        elif word in ("minItems", "maxItems"):
            wrong = isinstance(value, list) and (len(value) < wanted if word == "minItems" else len(value) > wanted) and "its length"
        elif word == "required":
            wrong = isinstance(value, dict) and [name for name in wanted if name not in value]
        elif word == "additionalProperties" and wanted is False:
            wrong = isinstance(value, dict) and [name for name in value if name not in shape["properties"]]
        elif word in ("properties", "items"):
            parts = [(k, value[k], s) for k, s in wanted.items() if k in value] if word == "properties" and isinstance(value, dict) else []
            parts += [(k, v, wanted) for k, v in enumerate(value)] if word == "items" and isinstance(value, list) else []
            for k, part, s in parts:
                yield from misfits(part, s, f"{where}.{k}")
            wrong = False
        else:
            wrong = word not in ("$schema", "title") and f"the validator does not know {word}"
        if wrong:
            yield f"{where}: {word}: {wrong}: {str(value)[:200]}"


SCHEMA = json.loads(read(os.path.join(ROOT, "docs", "chartkey.schema.json")))


def test_schema():
    same("docs/chartkey.schema.json is what the tables make", SCHEMA, schema.schema())
    good = json.loads(run("--json", os.path.join(EXAMPLES, "turning-basin.txt")).out)
    step = good["steps"][0]
    for change in ({"line": 0}, {"number": 1}, {"chart": "sea"}, {"entries": None}, {"extra": 1}, {"meaning": "x"}, {"command": "overlay"}):
        if not list(misfits({**good, "steps": [{**step, **change}]}, SCHEMA, "output")):
            fault("the schema takes a wrong step:", change)
    step = next(s for s in good["steps"] if "found" in s)
    for found, position, is_right in (
        (0, "on ab", True),
        (None, None, True),
        (0, None, False),
        (None, "inside", False),
        (None, "outside", False),
        (0, "outside", False),
        (0, "on ac", False),
        (0, "ab", False),
        (0, 1, False),
    ):
        wrong = list(misfits({**good, "steps": [{**step, "found": found, "position": position}]}, SCHEMA, "output"))
        same(f"the schema on found {found}, position {position}", not wrong, is_right)
    del step["position"]
    same("the schema on a triangle without a position", bool(list(misfits({**good, "steps": [step]}, SCHEMA, "output"))), True)
    for change in ({"status": 2}, {"title": 5}, {"steps": {}}, {"errors": []}):
        if not list(misfits({**good, **change}, SCHEMA, "output")):
            fault("the schema takes a wrong answer:", change)


# ---- examples


def test_examples():
    names = sorted(n[:-4] for n in os.listdir(EXAMPLES) if n.endswith(".txt"))
    same("papers in examples/", len(names), PAPERS)
    for name in names:
        path = os.path.join(EXAMPLES, name + ".txt")
        for kind, form in STORED.items():
            stored = os.path.join(EXAMPLES, name + kind)
            if kind == ".csv" and name + ".csv" in read(path).decode():
                continue
            if kind == ".key" or os.path.exists(stored):
                come = run(*form, path)
                if STORE:
                    with open(stored, "wb") as f:
                        f.write(come.out)
                same(f"{name}{kind}", (come.status, come.out, come.err), (0, read(stored), ""))
                count("stored forms")
    steps = json.loads(run("--json", os.path.join(EXAMPLES, "every-number.txt")).out)["steps"]
    same("numbers that a paper can meet", sorted({s["number"] for s in steps}), [0, *range(4, 13), 14])
    same("most triangles", max(s.get("triangles", 0) for s in steps), 512)
    steps = json.loads(run("--json", os.path.join(EXAMPLES, "every-position.txt")).out)["steps"]
    same("positions of a paper", {s["position"] for s in steps if "found" in s}, {*POSITIONS, None})


# ---- messages and statuses

BAD = b"""triangel 0,0 5,0 0,5
triangle 0,0 70000,0 0,5
\ttriangle 0,0\t5,-1 0,5
"""
BAD_TOLD = """standard input:1:1: error: unknown command `triangel`
    1 | triangel 0,0 5,0 0,5
      | ^^^^^^^^
      = did you mean `triangle`?
standard input:2:14: error: a coordinate is 0 to 65535, not 70000
    2 | triangle 0,0 70000,0 0,5
      |              ^^^^^
standard input:3:17: error: a coordinate is 0 to 65535, not -1
    3 | \ttriangle 0,0\t5,-1 0,5
      | \t            \t  ^^
3 errors; nothing was run
"""
# a paper, and line, column, a part of the message and a part of the hint of each of its faults
KINDS_OF_FAULTS = [
    (b"overlay x", [(1, 9, "`x` is too much here", "written `overlay`")]),
    (b"load", [(1, 5, "`load` ends too early: CHART is missing", "written `load CHART`")]),
    (b"load sea", [(1, 6, "`sea` is no chart", "bed and design")]),
    (b"load Bed", [(1, 6, "`Bed` is no chart", "did you mean `bed`?")]),
    (b"OVERLAY", [(1, 1, "unknown command `OVERLAY`", "did you mean `overlay`?")]),
    (b"insert bed 5;5", [(1, 12, "`5;5` is no point", "x,y")]),
    (b"insert bed 0 5,5", [(1, 12, "`0` is no point", "x,y")]),
    (b"insert 5,5", [(1, 8, "`5,5` is no chart", "bed and design")]),
    (b"insert bed 5,5\nexpect refused 6", [(2, 16, "`insert` is never refused with 6", "7, 10, 11, 14")]),
    (b"split bed 1 at 45000,30000", [(1, 1, "`split` is now `insert CHART P`", "write `insert bed 45000,30000`")]),
    (b" split\tdesign 0 at (5,6) # x\nexpect refused 6", [(1, 2, "without a triangle's number", "write `insert design (5,6)`")]),
    (b"split bed 45000,30000", [(1, 1, "`split` is now `insert CHART P`", "the lowest numbered triangle")]),
    (b"split", [(1, 1, "`split` is now `insert CHART P`", "the lowest numbered triangle")]),
    (b"Split bed 1 at 5;5", [(1, 1, "`Split` is now `insert CHART P`", "the lowest numbered triangle")]),
    (b"flip bed x y", [(1, 10, "a triangle's number is a whole number, not `x`", ""), (1, 12, "a whole number, not `y`", "")]),
    (b"locate bed (5,5", [(1, 12, "`(5,5` is no point", "x,y")]),
    (b"locate bed 5, 5", [(1, 14, "a coordinate is missing", "without a blank")]),
    (b"locate bed (5,1.5)", [(1, 15, "a coordinate is a whole number, not `1.5`", "")]),
    ("locate bed ５,٥".encode(), [(1, 12, "a whole number, not `５`", ""), (1, 14, "a whole number, not `٥`", "")]),
    (b"locate bed 1_0,0x5", [(1, 12, "a whole number", ""), (1, 16, "a whole number", "")]),
    (b"flip bed 65536 0", [(1, 10, "a triangle's number is 0 to 65535, not 65536", "")]),
    (b"flip bed " + 9 * b"123456789" + b" 0", [(1, 10, "not 12345678912345678912345678912345678912..", "")]),
    (b"expect accepted", [(1, 1, "no command stands above it", "")]),
    (b"overlay\nexpect", [(2, 7, "ANSWER is missing", "written")]),
    (b"overlay\nexpect pair 2", [(2, 8, "unknown answer `pair`", "`pairs`")]),
    (b"overlay\nexpect zebra", [(2, 8, "unknown answer `zebra`", "accepted | refused N")]),
    (b"overlay\nexpect pairs", [(2, 13, "N is missing", "expect pairs N")]),
    (b"overlay\nexpect entries 2", [(2, 8, "`overlay` never answers `entries N`", "pairs N, meetings N")]),
    (b"overlay\nexpect refused 7", [(2, 16, "`overlay` is never refused with 7", "12")]),
    (b"locate bed 1,1\nexpect refused 7", [(2, 8, "`locate` never answers `refused N`", "nowhere")]),
    (b"locate bed 1,1\nexpect on ac", [(2, 11, "`ac` is no side", "the sides are ab, bc and ca")]),
    (b"locate bed 1,1\nexpect on 2", [(2, 11, "`2` is no side", "the sides are ab, bc and ca")]),
    (b"locate bed 1,1\nexpect on AB", [(2, 11, "`AB` is no side", "did you mean `ab`?")]),
    (b"locate bed 1,1\nexpect at d", [(2, 11, "`d` is no corner", "the corners are a, b and c")]),
    (b"locate bed 1,1\nexpect at 1,1", [(2, 11, "`1,1` is no corner", "the corners are a, b and c")]),
    (b"locate bed 1,1\nexpect on", [(2, 10, "SIDE is missing", "written `expect on SIDE`; SIDE is ab, bc or ca")]),
    (b"locate bed 1,1\nexpect at #a", [(2, 10, "CORNER is missing", "written `expect at CORNER`; CORNER is a, b or c")]),
    (b"locate bed 1,1\nexpect on side bc", [(2, 16, "`bc` is too much here", "SIDE is ab, bc or ca")]),
    (b"locate bed 1,1\nexpect inside 0", [(2, 15, "`0` is too much here", "written `expect inside`")]),
    (b"locate bed 1,1\nexpect inside, on ab", [(2, 8, "unknown answer `inside,`", "did you mean `inside`?")]),
    (b"locate bed 1,1\nexpect side ab", [(2, 8, "unknown answer `side`", "written `expect on SIDE`")]),
    (b"locate bed 1,1\nexpect corner a", [(2, 8, "unknown answer `corner`", "written `expect at CORNER`")]),
    (b"locate bed 1,1\nexpect outside", [(2, 8, "unknown answer `outside`", "written `expect nowhere`")]),
    (b"locate bed 1,1\nexpect position 3", [(2, 8, "unknown answer `position`", "nowhere | inside | on SIDE | at CORNER |")]),
    (b"load bed\nexpect inside", [(2, 8, "`load` never answers `inside`", "it can be accepted, refused N, entries N")]),
    (b"overlay\nexpect on ab", [(2, 8, "`overlay` never answers `on SIDE`", "it can be accepted, refused N, pairs N")]),
    (b"expect at a", [(1, 1, "no command stands above it", "")]),
    (b"overlai\nexpect entries 2", [(1, 1, "unknown command", "overlay")]),
    (b"overlay\nload b\x01ed\nexpect entries 2", [(2, 7, "U+0001", "--from-bytes")]),
    (b"title x", [(1, 7, "between double quotes", '"x"')]),
    (b'title "x', [(1, 7, "does not end", "")]),
    (b'title "', [(1, 7, "does not end", "")]),
    (b'title " "', [(1, 7, "empty", "")]),
    (b'title "a"\nid "b"\ntitle "c"', [(3, 1, "a second `title`; the first is in line 1", "")]),
    (b"question\nquestion", [(2, 1, "a second `question`; the first is in line 1", "")]),
    (b'triangles "no such file.csv"', [(1, 11, "no such file.csv: cannot read it: No such file", "")]),
    (b'triangles "."', [(1, 11, "cannot read it", "")]),
    (b"triangles x.csv", [(1, 11, "between double quotes", '"x.csv"')]),
    (b"overlay\xff", [(1, 8, "not UTF-8 text: byte FF", "--from-bytes")]),
    (b"title \"\xc3", [(1, 8, "not UTF-8 text: byte C3", "--from-bytes")]),
    (b"\xff\xfeo\0v\0", [(1, 1, "not UTF-8 text", "UTF-16")]),
    (b"over\0lay", [(1, 5, "U+0000", "--from-bytes")]),
    (b"overlay\rload bed", [(1, 8, "U+000D", "")]),
    (b"# \x1b[2J", [(1, 3, "U+001B", "")]),
    ("title \"a\u2028b\"".encode(), [(1, 9, "U+2028", "")]),
    (b"# " + 10**6 * b"x", [(1, 4097, "at most 4096 characters, not 1000002", "")]),
    ("# é\nlocate béd 0,0".encode(), [(2, 8, "`béd` is no chart", "`bed`")]),
    ("load\u00a0bed".encode(), [(1, 5, "U+00A0 looks like a blank", "spaces and tabs")]),
    ("overlay\n \ufeffoverlay\nexpect pairs 9999".encode(), [(2, 2, "U+FEFF looks like a blank or like nothing", "spaces and tabs")]),
    ("locate bed 5,\u200b5".encode(), [(1, 14, "U+200B", "spaces and tabs")]),
    ("title \"a\u00a0b\" # \u00a0\nload".encode(), [(2, 5, "`load` ends too early", "written")]),
    (b"overlay\nexpect pairs 4096\nexpect pairs 4097", [(3, 14, "`overlay` never answers `pairs 4097`", "0 to 4096")]),
    (b"load bed\nexpect entries 0\nexpect entries 1", [(2, 16, "`load` never answers `entries 0`", "1 to 16384")]),
    (b"locate bed 1,1\nexpect triangle 512\nexpect triangle 511", [(2, 17, "never answers `triangle 512`", "0 to 511")]),
]


def test_messages():
    come = run(given=BAD)
    same("three faults", (come.status, come.out, come.err), (2, b"", BAD_TOLD))
    for given, wanted in KINDS_OF_FAULTS:
        come = run("--json", given=given)
        found = json.loads(come.out)["errors"]
        same(f"places of {given[:60]}", [(e["line"], e["column"]) for e in found], [w[:2] for w in wanted])
        for e, (_, _, message, hint) in zip(found, wanted):
            if message not in e["message"] or hint not in (e["hint"] or "") or (e["hint"] and not hint):
                fault("message of", given[:60], e)
        told = run(given=given)
        same(f"places as text of {given[:60]}", [m for m in re.findall(r"^standard input:(\d+):(\d+): error: ", told.err, re.M)],
             [(str(line), str(column)) for line, column, _, _ in wanted])
        if max(map(len, told.err.split("\n"))) > 200:
            fault("a line of a message is too long:", given[:60])
        count("kinds of faults")
    come = run(given=b"x\n" * 33)
    same("20 of 33 faults", (come.err.count("error:"), come.err.split("\n")[-3:]), (20, ["and 13 more", "33 errors; nothing was run", ""]))
    same("enough faults", run(given=b"x\n" * 5000).err.split("\n")[-2], "1000 errors, the rest was not read; nothing was run")
    same("13 more", json.loads(run("--json", given=b"x\n" * 33).out)["more"], 13)
    same("wide characters", run(given="locate 港 0,0 深 ".encode()).err.split("\n")[2], "      |        ^")


def test_tables_of_triangles(folder):
    """Faults of a file of triangles have its own name; it is found beside the paper."""
    with open(os.path.join(folder, "t.csv"), "wb") as f:
        f.write(b"\xef\xbb\xbf0,0,5,0,0,5\r\n\n# none\n 1 , 2 ,3\t,4,5,99999 # x\n1,2,3\n,,,,,\na,b,c,d,e,f\n1,2,,4,5,6\n")
    place = os.path.join(folder, "p.txt")
    with open(place, "wb") as f:
        f.write(b'triangles "t.csv"\ntriangles "t.csv"\noverlay x\n')
    found = json.loads(run("check", "--json", place).out)["errors"]
    table = os.path.join(folder, "t.csv")
    want = [(table, 4, 16), (table, 5, 1), (table, 6, 1), (table, 7, 1), (table, 8, 5), (place, 3, 9)]
    same("faults of a table", [(e["file"], e["line"], e["column"]) for e in found], want)
    same("hint of a heading", [e["hint"] for e in found][3], "a heading starts with #")
    with open(os.path.join(folder, "t.csv"), "wb") as f:
        f.write('"0","0","5","0","0","5"\r\n0;0;5;0;0;5\n0\t0\t5\t0\t0\t5\n0,0,5,\u00a00,0,5\n# "\u00a0;\n'.encode())
    found = [(e["line"], e["column"], (e["hint"] or "").split(":")[0]) for e in json.loads(run("--json", place).out)["errors"]]
    want = [(1, 1, "it has quotes"), (2, 1, "it has semicolons"), (3, 1, "it has tabs"), (4, 7, "blanks are spaces and tabs")]
    same("tables of other programs", found[:-1], want)
    with open(os.path.join(folder, "t.csv"), "wb") as f:
        f.write(b"0,0,0,5,5,0\n" * 2 + b"\n")
    with open(place, "wb") as f:
        f.write(b'triangles "t.csv"\nexpect accepted\nload bed')
    come = run(place)
    same("where the faulty triangle is written", (come.status, "(t.csv:1)" in come.out.decode()), (1, True))
    with open(place, "wb") as f:
        f.write(b'triangles "t.csv"\n' * 257 + b"expect refused 4\nload bed\nexpect refused 5\n")
    whole = json.loads(run("--json", place).out)
    same("dropped triangles", [(s["line"], s.get("from"), s["number"]) for s in whole["steps"]],
         [(257, "t.csv:1", 4), (257, "t.csv:2", 4), (258 + 1, None, 5)])
    same("dropped as expected", (whole["status"], whole["refused"], whole["unexpected"]), (0, 3, 0))
    with open(place, "wb") as f:
        f.write(b'triangles "t.csv"\n' * 257 + b"expect refused 4\n" * 3 + b"expect accepted\n" * 2)
    whole = json.loads(run("--json", place).out)
    same("several expectations of a table", (whole["status"], whole["unexpected"], len(whole["unmet"])), (3, 0, 2))


FLAT = b"triangle 0,0 5,5 9,9\nload bed\n"


def status_cases(folder):
    """A name, the status, what standard input has, and the arguments."""
    return [
        ("nothing refused", 0, b"overlay\n", []),
        ("an empty paper", 0, b"", []),
        ("line ends of two bytes, a byte order mark, brackets", 0, b"\xef\xbb\xbfload bed # x\r\n\r\n \tlocate bed (1,2)", []),
        ("foreseen", 0, FLAT + b"expect refused 5\n", []),
        ("refused", 1, FLAT, []),
        ("wrong paper", 2, b"load", []),
        ("wrong paper, checked", 2, b"load", ["check"]),
        ("another refusal than foreseen", 3, FLAT + b"expect refused 11\n", []),
        ("accepted, where refused was foreseen", 3, b"load bed\nexpect refused 5", []),
        ("not met, and refused", 3, FLAT + b"overlay\nexpect pairs 1\n", []),
        ("no such program", 4, b"overlay\n", ["--engine", "/no/such/program"]),
        ("a folder as program", 4, b"overlay\n", ["--engine", folder]),
        ("no such paper", 4, b"", [os.path.join(folder, "none.txt")]),
        ("a folder as paper", 4, b"", [folder]),
        ("a missing table beside a fault", 4, b'triangles "none.csv"\nload', []),
        ("unknown option", 2, b"", ["--sheet"]),
        ("two forms", 2, b"", ["--csv", "--log"]),
        ("two papers", 2, b"", ["a", "b"]),
        ("no program", 2, b"", ["--engine"]),
        ("half a program", 2, b"", ["--engine", "'a"]),
        ("no such number", 2, b"", ["numbers", "99"]),
        ("a number that no call gives", 2, b"", ["numbers", "13"]),
        ("an empty name", 2, b"", [""]),
        ("a form that `check` has not", 2, b"", ["check", "--csv"]),
        ("a stream that is whole", 0, b"\7", ["--from-bytes"]),
        ("no path can be so", 4, b"", ["a\0b"]),
        ("a name that is not UTF-8", 4, b"", ["\udcff.txt"]),
        ("a program that is not UTF-8", 4, b"", ["--engine", "\udcff"]),
        ("an option that is not UTF-8", 2, b"", ["--\udcff\x1b"]),
    ]


def test_statuses(folder):
    for what, status, given, arguments in status_cases(folder):
        for form in ([], ["--json"]) if not {"--csv", "--from-bytes", "numbers", "--sheet"} & set(arguments) else ([],):
            come = run(*form, *arguments, given=given)
            same(what, (come.status, bool(come.err) or form != [] or status < 2), (status, True))
    come = run(given=b" overlay\n expect pairs 1 # no\nexpect meetings 1\nlocate bed 1,1\nexpect triangle 7\n")
    want = "standard input:2:2: error: expected pairs 1, found pairs 0\n    2 |  expect pairs 1 # no\n      |  ^^^^^^^^^^^^^^\n"
    want += "standard input:5:1: error: expected triangle 7, found nowhere\n    5 | expect triangle 7\n      | ^^^^^^^^^^^^^^^^^\n"
    same("expectations not met", (come.status, come.err), (3, want))
    same("the last line", come.out.decode().split("\n")[-2], "0 pairs; nothing refused; 2 expectations not met")
    for form in ("-q", "--csv", "--log"):
        come = run(form, given=FLAT)
        same(f"a refusal beside {form}", (come.status, come.err.split("\n")[0]),
             (1, f"standard input:2:1: error: refused 5: {numbers.meaning(5, 0, None, 'line 1')}"))


# ---- positions

DEFINED = os.path.join(ROOT, "crates", "spec_plane", "specs", "Position.antt")
TRIANGLE = b"triangle 10,20 50,20 30,60\nload bed\n"
# each position as an answer, by its number: how people read it, and a point of the triangle
POSITIONS = {
    "inside": ("inside", "30,30"),
    "on ab": ("on side ab", "20,20"),
    "on bc": ("on side bc", "40,40"),
    "on ca": ("on side ca", "20,40"),
    "at a": ("at corner a", "10,20"),
    "at b": ("at corner b", "50,20"),
    "at c": ("at corner c", "30,60"),
}


def test_positions():
    """Every position in the log, the key and JSON; met where it is expected, and told where another is. Expectations that cannot be met
    together can be read, and all but one of them are not met."""
    cases = re.findall(r"^position_number (\w+) = (\d+)$", read(DEFINED).decode(), re.M)
    named = {int(n): re.sub(r"\B(?=[A-Z])", " ", case).lower() for case, n in cases}
    same("the numbers of positions by their definition", named, dict(enumerate([*POSITIONS, "outside"])))
    answers = [*POSITIONS, "nowhere"]
    for k, answer in enumerate(answers):
        said, at = POSITIONS.get(answer, (None, "30,61"))
        asked = TRIANGLE + f"locate bed {at}\n".encode()
        same(f"{answer}: log", run("--log", given=asked).out.split(b"\n")[2], b"6 0 0 %d" % k if said else b"6 0 65535")
        told = f"triangle 0, {said}" if said else answer
        same(f"{answer}: key", f"    3  locate bed {at}  {told}\n" in run(given=asked).out.decode(), True)
        step = json.loads(run("--json", given=asked).out)["steps"][1]
        same(f"{answer}: JSON", (step["found"], step["position"]), (0, answer) if said else (None, None))
        met = f"expect {answer}\n" + ("expect triangle 0\n" if said else "") + "expect accepted\n"
        same(f"{answer}: met", run(given=asked + met.encode())[::2], (0, ""))
        come = run("--json", given=asked + "".join(f"expect {other}\n" for other in answers).encode())
        unmet = [(e["line"], e["expected"]) for e in json.loads(come.out)["unmet"]]
        same(f"{answer}: status of all answers", come.status, 3)
        same(f"{answer}: not met", unmet, [(4 + n, other) for n, other in enumerate(answers) if other != answer])
        for e in json.loads(come.out)["unmet"]:
            same(f"{answer}: found for {e['expected']}", e["found"], "triangle 0" if e["expected"] == "nowhere" else answer)
        count("positions")
    come = run(given=TRIANGLE + b"locate bed 10,20\nexpect  on\tca # no\n")
    want = "standard input:4:1: error: expected on ca, found at a\n    4 | expect  on\tca # no\n      | ^^^^^^^^^^^^^\n"
    same("a position not met", (come.status, come.err), (3, want))


# ---- counts of triangles

SQUARE = b"triangle 0,0 60000,0 0,60000\ntriangle 60000,0 60000,60000 0,60000\nload bed\n"
# what is written below the square, and how many triangles come: inside, on a side that two share, on a side of one alone
COMING = [
    ("insert bed 1000,1000", 2),
    ("insert bed 60000,20000", 1),
    ("take-out bed 1000,1000", -2),
    ("flip bed 0 1", 0),
    ("insert bed 30000,30000", 2),
    ("insert bed 30000,0", 1),
    ("insert bed 0,20000", 1),
    ("insert bed 30000,40000", 2),
    ("insert bed 45000,45000", 2),
    ("insert bed 60000,40000", 1),
]
# over all ground, so that an overlay lists every triangle of the other chart
GROUND = "load {0}\ntriangle 0,0 65535,0 0,65535\ntriangle 65535,65535 0,65535 65535,0\nload {0}\noverlay\n"


def runs_of(given):
    """How often the program is run for a paper, and what comes of it."""
    ran, before = [], counting.engine.run
    counting.engine.run = lambda *words: ran.append(words) or before(*words)
    try:
        return run("--json", given=given), len(ran)
    finally:
        counting.engine.run = before


def counted(come):
    """The count of triangles after each accepted load and edit."""
    return [step["triangles"] for step in json.loads(come.out)["steps"] if "triangles" in step]


def test_counts():
    """What an insert adds is asked of the program, in few runs; the paper's own stream and log stay as they are."""
    text, wanted = SQUARE, [2]
    for line, come in COMING:
        text += line.encode() + b"\n"
        wanted.append(wanted[-1] + come)
    come, runs = runs_of(text)
    same("counts", (counted(come), runs <= 5), (wanted, True))
    same("its log", run("--log", given=text).out.count(b"\n"), 2 + len(COMING))
    alone = " ".join(map(str, range(wanted[-1])))
    same("what is in no pair", f"in no pair: bed {alone};" in run(given=text + b"overlay\n").out.decode(), True)
    for given, most in ((SQUARE, 1), (SQUARE + b"insert bed 0,0\ninsert bed 65535,0\n", 1), (SQUARE + b"insert bed 5,5\n", 2)):
        same(f"runs of {given[-24:]}", runs_of(given)[1], most)
    quay = SQUARE + b"".join(b"insert bed %d,0\n" % (600 * k) for k in range(1, 100))
    come, runs = runs_of(quay)
    same("a long quay", (counted(come), runs <= 8), (list(range(2, 102)), True))
    for name, data, printed in stored():
        if told_bad(printed) is None and b"\n3 0 " in printed:
            covered(name, run("--from-bytes", given=data).out)


def covered(name, text):
    """After a paper, an overlay with all ground lists every triangle of a chart, and none that its count does not have."""
    for chart, other in (commands.CHARTS, commands.CHARTS[::-1]):
        come = run("-q", given=text + GROUND.format(other).encode())
        alone = come.out.decode().split("\n")[-2]
        same(f"{name}: the count of the {chart}", (come.status < 2, f"{chart} (none)" in alone), (True, True))
        count("counts")


ASKED = b"triangle 0,0 65535,0 0,65535\nload bed\ninsert bed 9,9\ninsert bed 8,9\n"
ASKED_LOG = b"overlay log\n2 0 7\n3 0 19\n3 0 31\n"
# how a program answers when it is asked whether two triangles came by each insert: its log, and a part of the message
ANSWERED = [
    (ASKED_LOG, "line 4 of its log: another answer"),
    (b"overlay log\n2 0 7\n3 0 19\n5 9\n3 0 31\n", "line 6 of its log: the log is cut"),
    (b"overlay log\n2 0 7\n3 0 19\n5 0 19\n3 0 31\n5 9\n", "`flip bed 2 2` gives 0"),
    (b"overlay log\n2 0 7\n3 0 19\n5 9\n3 0 31\n5 11\n", "`flip bed 4 4` gives 11"),
    (b"overlay log\n2 0 7\n3 0 19\n5 9\n3 0 32\n5 9\n", "it answers the paper otherwise than before"),
    (b"overlay log\n2 0 7\n3 0 19\n5 6\n3 0 31\n5 9\n", "no count of triangles fits the answer of `insert bed 8,9` (line 4)"),
]


def test_wrong_counts(folder):
    """Programs that do not tell a count; and accepted commands after which no count can be."""
    own = len(run("--bytes", given=ASKED).out)
    answer = "data = sys.stdin.buffer.read()\nsys.stdout.buffer.write({!r} if len(data) == {} else {!r})\n"
    for printed, message in ANSWERED:
        program = sham(folder, answer.format(ASKED_LOG, own, printed))
        come = run(given=ASKED, program=program)
        same(f"{printed[12:]}: told", (come.status, come.out, message in come.err), (4, b"", True))
        same(f"{printed[12:]}: the paper's log", run("--log", given=ASKED, program=program)[:2], (4, ASKED_LOG))
        count("wrong logs")
    ended = sham(folder, answer.format(ASKED_LOG, own, b"") + f"sys.exit(0 if len(data) == {own} else 3)")
    same("a program that ends badly when asked", "ended with status 3" in run(given=ASKED, program=ended).err, True)
    full = paper.read(b"triangle 0,0 5,0 0,5\n" * 512 + b"load bed\ninsert bed 1,1\n", "p").calls
    must_not_fit(b"overlay log\n2 0 9\n3 0 9\n", full, "an insert into a full chart")
    must_not_fit(b"overlay log\n4 0 9\n", paper.read(b"take-out bed 1,1\n", "p").calls, "a take-out of a chart without triangles")


# ---- hostile bytes


def hostile(data, what, with_engine=False):
    try:
        for arguments in (["check", "--json"], ["--from-bytes"]) + ((["check"], ["--json"], []) if with_engine else ()):
            run(*arguments, given=data)
        count("hostile inputs")
    except Exception as e:
        fault(f"{what}: {type(e).__name__}: {e}: {data[:80]}")


def test_hostile(draw):
    texts = [read(os.path.join(EXAMPLES, n)) for n in sorted(os.listdir(EXAMPLES)) if n.endswith(".txt")]
    words = [w.encode() for row in commands.COMMANDS for w in [row.word] + [o.letter for o in row.operands]]
    words += [w.encode() for w in paper.LINES] + [b"7", b"-", b"99999", b"bed", b"design", b"0,0", b"(1,2)"]
    words += [w.encode() for e in commands.all_expectations() for w in [e.word, *(e.takes.names if e.takes else ())]]
    words += [b"split", b"at", b'"', b'"x.csv"', b"#", b"\n", b"\n", b"\n", b"\t", b"\r"]
    for k in range(400):
        hostile(bytes(draw.randrange(256) for _ in range(draw.randrange(60))), "random bytes", k < 30)
        hostile(b" ".join(draw.choice(words) for _ in range(draw.randrange(40))), "random words", k < 30)
    first = texts[-1]
    for k in range(len(first) + 1):
        hostile(first[:k], "a prefix", k % 40 == 0)
    for text in texts:
        for k in range(250):
            at = draw.randrange(len(text))
            hostile(text[:at] + bytes([draw.randrange(256)]) + text[at + 1 :], "a byte changed", k < 8)
    for data in (b"(", b"a ", b'"', b",", b"\0", b"\xf0", b"9"):
        hostile(data * 10**6, "a megabyte")
    hostile(b"\n" * 10**5, "empty lines")


def test_no_permission():
    """A file that may not be read; every user meets it here, also one who may read all."""

    def refusing(path, mode):
        raise PermissionError(errno.EACCES, os.strerror(errno.EACCES), path)

    files.open = refusing
    try:
        for form in ([], ["--json"], ["--from-bytes"]):
            come = run(*form, "paper.txt")
            same("no permission", (come.status, "Permission denied" in (come.err or come.out.decode())), (4, True))
        same("no permission for a table", run(given=b'triangles "t.csv"').status, 4)
    finally:
        del files.open


def test_limits(folder):
    same("too long a paper", run(given=b"\n" * (files.MOST_BYTES + 1)).status, 4)
    most, paper.MOST_COMMANDS = paper.MOST_COMMANDS, 1000
    try:
        same("too many commands", run("check", given=b"overlay\n" * 1001).status, 2)
        same("as many commands as there may be", run("check", given=b"overlay\n" * 1000).status, 0)
        same("too long a stream", run("--from-bytes", given=b"\7" * 1001).status, 2)
        same("as long a stream as there may be", run("--from-bytes", given=b"\7" * 1000).status, 0)
        with open(os.path.join(folder, "ten.csv"), "wb") as f:
            f.write(b"0,0,5,0,0,5\n" * 10)
        come = run("check", "--json", given=b'triangles "%s"\n' % os.path.join(folder, "ten.csv").encode() * 10**4)
        same("too many by tables", [e["line"] for e in json.loads(come.out)["errors"]], [101])
    finally:
        paper.MOST_COMMANDS = most


# ---- round trips


def drawn(draw):
    """A stream of whole commands, by the table of bytes that document 01 has."""
    data = b""
    for _ in range(draw.randrange(40)):
        byte = draw.randrange(1, 8)
        data += bytes([byte]) + (bytes([draw.randrange(2)]) if 2 <= byte <= 6 else b"")
        data += b"".join(draw.choice((0, 1, 255, 256, 65535, draw.randrange(65536))).to_bytes(2, "little")
                         for _ in range({1: 6, 2: 0, 3: 2, 4: 2, 5: 2, 6: 2, 7: 0}[byte]))
    return data


def round_trip(name, data, bad):
    """Stream to paper to stream; bad is the offset of the first command that is not whole, or None."""
    text = run("--from-bytes", given=data).out
    back = run("--bytes", given=text)
    last = text.split(b"\n")[-2:-1]
    same(f"{name}: the end of the paper", last == [b"# bad at %d" % bad] if bad is not None else b"#" not in text, True)
    same(f"{name}: paper to bytes", (back.status, back.out), (0, data if bad is None else data[:bad]))
    same(f"{name}: bytes to the same paper", run("--from-bytes", given=back.out).out, text if bad is None else text[: text.rindex(b"#")])
    count("round trips")


def told_bad(printed):
    found = re.search(rb"\nbad (\d+)\n$", printed)
    return int(found.group(1)) if found else None


def stored():
    """Name, stream and log of the cases and of the stored streams."""
    for name, given, wanted in streams.cases(faults):
        yield name, b"".join(map(streams.command, streams.parts(given))), streams.log(wanted)
    for name in sorted(n[:-4] for n in os.listdir(VECTORS) if n.endswith(".bin")):
        yield name, read(os.path.join(VECTORS, name + ".bin")), read(os.path.join(VECTORS, name + ".log"))


def test_round_trips(draw):
    for k in range(300):
        round_trip(f"drawn {k}", drawn(draw), None)
    for name, data, printed in stored():
        round_trip(name, data, told_bad(printed))
        if told_bad(printed) is None:
            come = run("--log", given=run("--from-bytes", given=data).out)
            same(f"{name}: its log", (come.out, come.status < 2), (printed, True))
            run("--json", given=run("--from-bytes", given=data).out)
    ends = (b"\0", b"\x08", b"7", b"\x02\x02", b"\x03\1\0\0", b"\1" + 11 * b"x", b"\6\0\1\0\1")
    for data in [drawn(draw) + draw.choice(ends) for _ in range(60)]:
        done = subprocess.run(PROGRAM, input=data, stdout=subprocess.PIPE, check=True)
        round_trip(f"damaged {data[-14:]}", data, told_bad(done.stdout))


# ---- logs that do not fit

PAPER = b"triangle 0,0 65535,0 0,65535\nload bed\ntriangle 0,0 65535,0 0,65535\ntriangle 0,0 9,0 0,9\nload design\n"
PAPER += b"insert bed 65535,65535\nlocate bed 1,1\noverlay\nload bed\n"
LOG = b"overlay log\n2 0 7\n2 0 40\n3 7\n6 0 0 0\n7 0 2 7\n0 0\n0 1\n2 0 1\n"
# what a program does wrong: its log, and the line of the log and a part of the message that chartkey gives
SHAMS = [
    ("prints nothing", b"", 1, "the log is cut: its heading is missing"),
    ("a wrong heading", LOG.replace(b"log", b"lag"), 1, "does not begin with"),
    ("a cut log", LOG[:-7], 8, "the log is cut: pair 2 of 2"),
    ("no last line feed", LOG[:-1], 9, "the log is cut"),
    ("another command", LOG.replace(b"3 7", b"4 8"), 4, "another answer"),
    ("one pair too few", LOG.replace(b"\n0 1\n", b"\n"), 8, "no pair"),
    ("one pair too many", LOG.replace(b"\n0 1\n", b"\n0 1\n0 2\n"), 9, "another answer"),
    ("an extra line", LOG + b"2 0 1\n", 10, "goes on after the last answer"),
    ("an empty extra line", LOG + b"\n", 10, "goes on after the last answer"),
    ("an answer too few", LOG.replace(b"6 0 0 0\n", b""), 5, "another answer"),
    ("a number too many", LOG.replace(b"2 0 40", b"2 0 40 1"), 3, "another count of numbers"),
    ("a number too few", LOG.replace(b"2 0 40", b"2 0"), 3, "another count of numbers"),
    ("a refusal with a number beside", LOG.replace(b"3 7", b"3 7 1"), 4, "another count of numbers"),
    ("one number", LOG.replace(b"3 7", b"3"), 4, "another answer"),
    ("letters", LOG.replace(b"40", b"4o"), 3, "no line of numbers"),
    ("digits of another script", LOG.replace(b"40", "٤٠".encode()), 3, "no line of numbers"),
    ("two blanks", LOG.replace(b"2 0 40", b"2  0 40"), 3, "no line of numbers"),
    ("a leading nought", LOG.replace(b"40", b"040"), 3, "no line of numbers"),
    ("a leading nought in the command", LOG.replace(b"2 0 40", b"02 0 40"), 3, "no line of numbers"),
    ("a number of 5,000 digits", LOG.replace(b"40", b"4" * 5000), 3, "no line of numbers"),
    ("line ends of two bytes", LOG.replace(b"\n", b"\r\n"), 1, "does not begin with"),
    ("a number that the command never gives", LOG.replace(b"3 7", b"3 12"), 4, "never refused with 12"),
    ("a number that another command gives", LOG.replace(b"3 7", b"3 6"), 4, "never refused with 6"),
    ("a number that there is not", LOG.replace(b"3 7", b"3 13"), 4, "never refused with 13"),
    ("a triangle that is not there", LOG.replace(b"6 0 0 0", b"6 0 1 0"), 5, "cannot have 1 as its triangle"),
    ("no triangle", LOG.replace(b"6 0 0 0", b"6 0"), 5, "its triangle is missing"),
    ("no position", LOG.replace(b"6 0 0 0", b"6 0 0"), 5, "(line 7) has: its position is missing"),
    ("outside as the position of a triangle", LOG.replace(b"6 0 0 0", b"6 0 0 7"), 5, "(line 7) cannot have 7 as its position"),
    ("the mark as a position", LOG.replace(b"6 0 0 0", b"6 0 0 65535"), 5, "cannot have 65535 as its position"),
    ("a number after a position", LOG.replace(b"6 0 0 0", b"6 0 0 0 0"), 5, "another count of numbers"),
    ("nowhere and outside", LOG.replace(b"6 0 0 0", b"6 0 65535 7"), 5, "`locate bed 1,1` (line 7) has: 7 is too much"),
    ("nowhere and inside", LOG.replace(b"6 0 0 0", b"6 0 65535 0"), 5, "`locate bed 1,1` (line 7) has: 0 is too much"),
    ("a faulty triangle that is not there", LOG.replace(b"2 0 40", b"2 5 2"), 3, "not there"),
    ("a pair that is not there", LOG.replace(b"\n0 1\n", b"\n0 2\n"), 8, "not there"),
    ("a pair twice", LOG.replace(b"\n0 1\n", b"\n0 0\n"), 8, "not after"),
    ("no entry", LOG.replace(b"2 0 40", b"2 0 0"), 3, "cannot have 0"),
    ("too many entries", LOG.replace(b"2 0 40", b"2 0 16385"), 3, "cannot have 16385"),
    ("`bad`", LOG[: LOG.index(b"3 7")] + b"bad 30\n", 4, "calls the stream bad"),
    ("`bad` at the end", LOG + b"bad 70\n", 10, "goes on after the last answer"),
    ("a refusal of a triangle that waits", LOG.replace(b"2 0 7", b"1 4\n2 0 7"), 2, "another answer"),
]


def sham(folder, text):
    """A program that does as the text says, in Python."""
    path = os.path.join(folder, "sham.py")
    with open(path, "w", encoding="utf-8") as f:
        f.write("import os, signal, sys, time\n" + text)
    return shlex.join([sys.executable, "-S", path])


def test_wrong_logs(folder, draw):
    calls = paper.read(PAPER, "p").calls
    same("the good log", len(log.read(LOG, calls)[0]), 6)
    for k in range(len(POSITIONS)):
        step = log.read(LOG.replace(b"6 0 0 0", b"6 0 0 %d" % k), calls)[0][3]
        same(f"the good log with position {k}", step.values, {"found": 0, "position": k})
    step = log.read(LOG.replace(b"6 0 0 0", b"6 0 65535"), calls)[0][3]
    same("the good log with nowhere", step.values, {"found": None, "position": None})
    for what, printed, line, message in SHAMS:
        program = sham(folder, f"sys.stdin.buffer.read()\nsys.stdout.buffer.write({printed!r})")
        come = run(given=PAPER, program=program)
        first = come.err.split("\n")[0]
        same(what, (come.status, come.out, first.startswith(f"log:{line}:1: error: "), message in first), (4, b"", True, True))
        same(f"{what}: its bytes", run("--log", given=PAPER, program=program)[:2], (4, printed))
        count("wrong logs")
    for k in range(len(LOG)):
        must_not_fit(LOG[:k], calls, "a prefix")
    lines = LOG.split(b"\n")[:-1]
    for k in range(len(lines)):
        must_not_fit(b"".join(l + b"\n" for l in lines[:k] + lines[k + 1 :]), calls, "a line left out")
        must_not_fit(b"".join(l + b"\n" for l in lines[: k + 1] + lines[k:]), calls, "a line twice")
    for _ in range(2000):
        at = draw.randrange(len(LOG))
        try:
            log.read(LOG[:at] + bytes([draw.randrange(256)]) + LOG[at + 1 :], calls)
        except log.Misfit:
            pass
    waits = paper.read(b"triangle 0,0 5,0 0,5\n" * 513, "p").calls
    same("the 513th", [s.number for s in log.read(b"overlay log\n1 4\n", waits)[0]], [4])
    must_not_fit(b"overlay log\n1 0\n", waits, "the 513th accepted")
    must_not_fit(b"overlay log\n", waits, "the 513th without an answer")
    must_not_fit(b"overlay log\n1 4\n", waits[:-1], "the 512th refused")


def must_not_fit(printed, calls, what):
    try:
        log.read(printed, calls)
        fault(f"{what} is taken: {printed}")
    except log.Misfit as e:
        count("wrong logs")
        if not 1 <= e.line <= printed.count(b"\n") + 1:
            fault(f"{what}: no such line {e.line}: {printed}")


def test_programs(folder):
    """Programs that end badly."""
    good = f"sys.stdin.buffer.read()\nsys.stdout.buffer.write({LOG!r})\nsys.stdout.flush()\n"
    for text, message in [
        (good + "sys.exit(3)", "ended with status 3"),
        (good + "sys.stderr.write('a warning')", "wrote to standard error; it said: a warning"),
        (good + "sys.stderr.buffer.write(bytes([255]) * 10**6)", "wrote to standard error"),
        (good + "os.kill(os.getpid(), signal.SIGKILL)", "ended by signal 9 (SIGKILL)"),
        ("sys.exit(1)", "ended with status 1"),
        ("while True: sys.stdout.write('x' * 10**6)", "longer than"),
    ]:
        program = sham(folder, text)
        for form in ([], ["--json"]):
            come = run(*form, given=PAPER, program=program)
            same(message, (come.status, message in (come.err or come.out.decode())), (4, True))
    same("a log of another paper", run(given=b"overlay\n", program=sham(folder, good)).status, 4)
    unread = sham(folder, "sys.stdout.write('overlay log\\n')")
    same("a program that reads nothing", run(given=b"triangle 0,0 5,0 0,5\n" * 512, program=unread).status, 0)
    same("a long stream that is not read", run(given=b"overlay\n" * 100000, program=unread).status, 4)
    come = run(given=b"overlay\n" * 20000)
    same("a long paper", (come.status, come.out.split(b"\n")[-2]), (0, b"20000 overlays, 0 pairs; nothing refused"))


# ---- processes


def test_processes(folder):
    example = os.path.join(EXAMPLES, "turning-basin.txt")
    key = read(os.path.join(EXAMPLES, "turning-basin.key"))
    link = os.path.join(folder, "key of charts")
    os.symlink(SCRIPT, link)
    same("by a link, from another folder", process(example, script=link, cwd=folder).stdout, key)
    for locale in ({"LC_ALL": "C", "PYTHONUTF8": "0", "PYTHONCOERCECLOCALE": "0"}, {"PYTHONIOENCODING": "ascii"}):
        done = process("numbers", "5", environ=locale)
        same(f"UTF-8 by {locale}", (done.returncode, "≤".encode() in done.stdout), (0, True))
    same("standard input", process("-", given=read(example)).stdout, key)
    with open(os.path.join(folder, "sham engine"), "w", encoding="utf-8") as f:
        f.write(f"#!/bin/sh\nexec {engine()}\n")
    os.chmod(os.path.join(folder, "sham engine"), 0o755)
    same("a program by its name alone", process("--engine", "sham engine", example, cwd=folder).stdout, key)
    same("version", process("--version").stdout.decode(), f"chartkey {VERSION}\n")


def test_closed_and_full():
    """Standard streams that are closed or full, no file that can be written, warnings as errors."""
    example = os.path.join(EXAMPLES, "turning-basin.txt")
    full = subprocess.run([sys.executable, SCRIPT, "numbers"], stdout=open("/dev/full", "wb"), stderr=subprocess.PIPE)
    same("nothing can be written", (full.returncode, b"cannot write" in full.stderr, b"Trace" in full.stderr), (4, True, False))
    shell = f"{shlex.quote(sys.executable)} {shlex.quote(SCRIPT)}"
    named = f" --engine {shlex.quote(engine())} {shlex.quote(example)}"
    for head, tail, status in (
        ("", " --help >&-", 4),
        ("", " --help <&-", 0),
        ("", " <&-", 4),
        ("", " load 2>&-", 4),
        ("", " load 2>/dev/full", 4),
        ("", named + " <&- 2>&-", 0),
        ("ulimit -f 0; ", named, 0),
        ("export PYTHONWARNINGS=error; ", named, 0),
    ):
        done = subprocess.run(["bash", "-c", head + shell + tail], stdout=subprocess.PIPE, stderr=subprocess.PIPE)
        same(f"{head}chartkey{tail}", (done.returncode, b"Trace" in done.stderr), (status, False))
    many = subprocess.Popen([sys.executable, SCRIPT, "--from-bytes"], stdin=subprocess.PIPE, stdout=subprocess.PIPE, stderr=subprocess.PIPE)
    many.stdout.close()
    many.stdin.write(b"\7" * 100000)
    many.stdin.close()
    same("a closed pipe", (many.stderr.read(), many.wait()), (b"", 0))
    many.stderr.close()


def test_places(folder):
    """Where the program is looked for, when none is named; a link to the script stands in another folder."""
    example = os.path.join(EXAMPLES, "turning-basin.txt")
    bare, link = os.path.join(folder, "bare"), os.path.join(folder, "link")
    os.makedirs(os.path.join(bare, "target", "bin"))
    os.symlink(os.path.join(ROOT, "frontend"), os.path.join(bare, "frontend"))
    shutil.copy(SCRIPT, bare)
    os.symlink(os.path.join(bare, "chartkey"), link)
    done = process(example, script=link, environ={cli.VARIABLE: ""})
    same("not built", (done.returncode, b"`make run`" in done.stderr), (4, True))
    for place in (os.path.join("target", "bin", "overlay_log"), "overlay_log"):
        with open(os.path.join(bare, place), "w", encoding="utf-8") as f:
            f.write(f"#!/bin/sh\nexec {engine()}\n")
        same(f"{place} may not be run", process(example, script=link, environ={cli.VARIABLE: ""}).returncode, 4)
        os.chmod(os.path.join(bare, place), 0o755)
        done = process("--json", example, script=link, environ={cli.VARIABLE: ""})
        same(f"{place} is found", (done.returncode, json.loads(done.stdout).get("engine")), (0, VERSION))


def test_alone(folder):
    """A script that cannot load its modules."""
    alone = os.path.join(folder, "alone")
    os.makedirs(alone)
    shutil.copy(SCRIPT, alone)
    done = process("--help", script=os.path.join(alone, "chartkey"))
    same("a copy of the script", (done.returncode, b"needs the folder frontend" in done.stderr), (4, True))
    os.makedirs(os.path.join(alone, "frontend"))
    with open(os.path.join(alone, "frontend", "__init__.py"), "w", encoding="utf-8") as f:
        f.write("raise MemoryError\n")
    done = process("--help", script=os.path.join(alone, "chartkey"))
    same("no memory for the modules", (done.returncode, done.stderr), (4, b"chartkey: error: there is not enough memory\n"))


def test_terminal():
    """A paper from a terminal: it is told that the terminal is read."""
    near, far = os.openpty()
    os.write(near, b"overlay\n\4")
    done = subprocess.run([sys.executable, SCRIPT, "--bytes"], stdin=far, stdout=subprocess.PIPE, stderr=subprocess.PIPE, timeout=60)
    os.close(near)
    os.close(far)
    same("a terminal", (done.returncode, done.stdout, b"reads from the terminal; Ctrl-D ends it" in done.stderr), (0, b"\7", True))


def test_interrupt(folder):
    """Ctrl-C while the program runs; a shell that starts the test in the background has it ignored, so it is set anew."""
    ready = os.path.join(folder, "ready")
    program = sham(folder, f"open({ready!r}, 'w').close()\ntime.sleep(30)")
    pipes = dict.fromkeys(("stdin", "stdout", "stderr"), subprocess.PIPE)
    before = signal.signal(signal.SIGINT, signal.default_int_handler)
    try:
        child = subprocess.Popen([sys.executable, SCRIPT, "--engine", program], **pipes)
    finally:
        signal.signal(signal.SIGINT, before)
    child.stdin.close()
    for _ in range(400):
        if os.path.exists(ready) or child.poll() is not None:
            break
        time.sleep(0.05)
    child.send_signal(signal.SIGINT)
    try:
        same("Ctrl-C", (child.wait(60), child.stderr.read()), (130, b""))
    finally:
        child.kill()
        child.stdout.close()
        child.stderr.close()


# ---- help, words, tables


def test_help():
    text = run("--help").out.decode()
    lines = text.split("\n")[:-1]
    same("help fits a screen", (len(lines) <= 24, max(map(len, lines)) <= 80), (True, True))
    for word in [commands.form(row) for row in commands.COMMANDS] + [*cli.FORMS, *cli.VERBS, "--engine", *paper.LINES.values()]:
        if word not in text:
            fault("help does not tell", word)
    for word in [paper.answer_form(e) for e in commands.all_expectations()] + ["SIDE is ab, bc or ca", "CORNER is a, b or c"]:
        if not any(word in line for line in lines):
            fault("help does not tell in a line", word)
    same("-h is --help", run("-h", "x", "y").out.decode(), text)
    told = run("numbers").out.decode()
    same("each number once", [int(n) for n in re.findall(r"^ ?(\d+)  ", told, re.M)], [*range(13), 14, 15])
    same("one number", run("numbers", "14").out.decode() in told, True)


def test_words():
    """The words of the numbers stand in frontend/numbers.py alone. Left out: what quotes document 01, stored answers, and the headers,
    which tests/headers.py writes and holds to the table."""
    listed = [os.path.relpath(os.path.join(at, n), ROOT) for at, _, names in os.walk(ROOT) for n in names]
    parts = [p.strip(" ;(") for row in numbers.NUMBERS for text in (row.says, row.todo) for p in re.split(r"\{.\}", text)]
    parts = [p for p in parts if len(p) > 14]
    same("enough words", len(parts) >= 2 * len(numbers.NUMBERS) - 4, True)
    for name in listed:
        if re.match(r"frontend/numbers\.py|include/|docs/CLAIMS\.md|crates/|\.git/|target/|.*\.pyc$|examples/.*(?<!\.txt)$", name):
            continue
        text = read(os.path.join(ROOT, name)).decode("utf-8", "replace")
        for part in parts:
            if part in " ".join(text.split()):
                fault(f"{name} repeats the words of a number: {part}")
        count("files without the words")


MOVED = b"""triangle 0,0 65535,0 0,65535 7
load bed
locate bed 0,0
locate bed 65535,65535
expect nowhere
overlay
"""
MOVED_LOG = b"overlay log\n2 0 7\n6 0 0 4\n6 0 65535\n7 0 0 7\n"


def test_moved_row():
    """What document 02 asks later of command 1 moves its row of the table, and nothing else."""
    whole, rows = commands.COMMANDS, list(commands.COMMANDS)
    rows[0] = rows[0]._replace(operands=rows[0].operands + (commands.number("class", "K", "a class"),))
    commands.COMMANDS = tuple(rows)
    try:
        one = paper.read(MOVED, "moved")
        same("no fault", one.faults.kept, [])
        data = stream.to_bytes(one.calls)
        same("seven numbers", (data[13:15], len(data)), (b"\7\0", 30))
        same("back", "".join(l + "\n" for l in stream.as_paper(data)), MOVED.decode().replace("expect nowhere\n", ""))
        answers = forms.Answers(one, *log.read(MOVED_LOG, one.calls)[:2])
        same("status", answers.status, 0)
        told = forms.people(answers)
        for part in ("accepted: 1 triangle, 7 entries", "triangle 0, at corner a", "nowhere\n", "in no pair: bed 0; design (none)"):
            same(f"tells {part!r}", part in told, True)
        same("schema", list(misfits(json.loads(forms.answers_json(answers, None)), schema.schema(), "output")), [])
        same("help", "triangle A B C K" in cli.help_text(), True)
        same("a class", paper.read(b"triangle 0,0 1,0 0,1 x", "p").faults.kept[0].message, "a class is a whole number, not `x`")
    finally:
        commands.COMMANDS = whole


def tests(folder, draw):
    """Each test with what it is given."""
    yield test_examples, ()
    if STORE:
        return
    plain = (test_schema, test_messages, test_positions, test_counts, test_no_permission, test_help, test_words, test_moved_row)
    plain += (test_terminal, test_closed_and_full)
    yield from ((test, ()) for test in plain)
    with_folder = (test_tables_of_triangles, test_statuses, test_limits, test_programs, test_processes)
    with_folder += (test_places, test_alone, test_interrupt, test_wrong_counts)
    yield from ((test, (folder,)) for test in with_folder)
    yield from ((test, (draw,)) for test in (test_hostile, test_round_trips))
    yield test_wrong_logs, (folder, draw)


def main():
    if not PROGRAM:
        sys.exit(__doc__.split("\n")[-1])
    with tempfile.TemporaryDirectory() as folder:
        for test, given in tests(folder, random.Random(20261116)):
            try:
                test(*given)
            except Exception:
                fault(f"{test.__name__} broke off: {traceback.format_exc(limit=-3)}")
    if not STORE:
        same("every status was met", statuses, {0, 1, 2, 3, 4})
    print("\n".join(faults) if faults else "chartkey: " + ", ".join(f"{n} {what}" for what, n in counts.items()))
    sys.exit(1 if faults else 0)


main()
