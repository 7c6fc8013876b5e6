#!/usr/bin/env python3
"""Holds make and its scripts to what a new user meets: what a target needs and is not here is told in one line, before anything is
done; Ctrl-C and a closed pipe end the scripts that run long without a traceback, and the fuzzer with its tally.

make runs in a folder that has the Makefile and tests/need.sh alone, with a PATH of stand-ins for the tools, without one after the other;
and `make run` in a copy with a stand-in for rt: the first time, again, after the program was removed, and where nothing is proved.

usage: way_in.py PROGRAM [ARGUMENT ..]"""

import functools
import os
import re
import shlex
import shutil
import signal
import subprocess
import sys
import tempfile

from crates import ROOT

PROGRAM = sys.argv[1:]
COMMAND_PROGRAM = "target/bin/overlay_log"
SECONDS = 60
faults = []
count = 0


def same(what, got, want):
    global count
    count += 1
    if got != want:
        faults.append(f"{what}:\n  wanted {want!r}\n  got    {got!r}")


def write(path, text, mode=0o755):
    os.makedirs(os.path.dirname(path), exist_ok=True)
    with open(path, "w", encoding="utf-8") as f:
        f.write(text)
    os.chmod(path, mode)


# ---- what is not here


@functools.cache
def needs():
    """Each target with what it needs, as `make` alone tells them."""
    environ = {"PATH": os.environ["PATH"]}  # nothing of a make above this one
    told = subprocess.run(["make"], cwd=ROOT, env=environ, stdout=subprocess.PIPE, check=True).stdout.decode()
    return {target: ["bash"] + words.split() for target, words in re.findall(r"^(\w+): .*\n +needs (.*?); takes ", told, re.M)}


def told(folder, target, without, python_is_old=False):
    """What make prints where these are not here; everything else is a stand-in that ends with 9."""
    tools, place = os.path.join(folder, "tools"), os.path.join(folder, "place")
    for part in (tools, place):
        shutil.rmtree(part, ignore_errors=True)
    stand_ins = {name: "exit 9" for names in needs().values() for name in names if "/" not in name}
    stand_ins["python3"] = f"exit {int(python_is_old)}"  # what it says when its version is asked
    stand_ins["sh"] = f'exec {shutil.which("sh")} "$@"'
    for name in set(stand_ins) - set(without):
        write(os.path.join(tools, name), f"#!/bin/sh\n{stand_ins[name]}\n")
    write(os.path.join(place, "tests", "need.sh"), read("tests/need.sh"))
    write(os.path.join(place, "Makefile"), read("Makefile"))
    if COMMAND_PROGRAM not in without:
        write(os.path.join(place, COMMAND_PROGRAM), "#!/bin/sh\nexit 9\n")
    done = subprocess.run(
        [shutil.which("make"), target], cwd=place, env={"PATH": tools}, stdout=subprocess.PIPE, stderr=subprocess.STDOUT, check=False
    )
    return done.returncode, [line for line in done.stdout.decode().split("\n") if line and not line.startswith("make: ***")]


def read(name):
    with open(os.path.join(ROOT, name), encoding="utf-8") as f:
        return f.read()


def test_missing(folder):
    """One line with the name of what is missing, and in brackets what to do."""
    wanted = needs()
    targets = re.search(r"^TARGETS := (.*)", read("Makefile"), re.M).group(1).split()
    same("targets that tell what they need", list(wanted), targets)
    for target, names in wanted.items():
        for name in names:
            status, lines = told(folder, target, [name])
            same(f"make {target} without {name}: status and lines", (status, len(lines)), (2, 1))
            one = re.escape(f"make {target}: missing: {name}") + r"[^;()]* \([^()]+\)"
            same(f"make {target} without {name}: {lines}", bool(re.fullmatch(one, "\n".join(lines))), True)
        status, lines = told(folder, target, names)
        same(f"make {target} without all: {lines}", (status, len(lines), "".join(lines).count("; ")), (2, 1, len(names) - 1))
    status, lines = told(folder, "map", [], python_is_old=True)
    same("an old Python", (status, lines), (2, ["make map: missing: python3, version 3.9 or later (Debian: apt-get install python3)"]))


# ---- make run

RT = """#!/bin/sh
[ -e ../../target/refuse ] && { echo "crate spec_plane: modules loaded=0 checked=1"; echo "logic=not-proved"; exit 1; }
echo "crate overlay_log: modules loaded=0 checked=1"
echo "logic=proved functions=1"
mkdir -p out
printf '#!/bin/sh\\nexec %s\\n' "$COMMAND_PROGRAM" >out/overlay_log
chmod +x out/overlay_log
"""


def test_run(folder):
    place, tools = os.path.join(folder, "a copy"), os.path.join(folder, "rt")
    for part in ("tests", "frontend", "examples"):
        shutil.copytree(os.path.join(ROOT, part), os.path.join(place, part), ignore=shutil.ignore_patterns("vectors", "__pycache__"))
    os.makedirs(os.path.join(place, "crates", "overlay_log"))
    for part in ("Makefile", "chartkey", "crates.txt", "crates/overlay_log/stdin"):
        shutil.copy(os.path.join(ROOT, part), os.path.join(place, part))
    write(os.path.join(tools, "rt"), RT)
    words = [os.path.abspath(PROGRAM[0])] + PROGRAM[1:]
    environ = {"PATH": f"{tools}:{os.environ['PATH']}", "COMMAND_PROGRAM": shlex.join(words)}

    def made():
        done = subprocess.run(["make", "run"], cwd=place, env=environ, stdout=subprocess.PIPE, stderr=subprocess.STDOUT, check=False)
        return done.returncode, done.stdout.decode()

    for what, is_first in (("the first time", True), ("again", False), ("after the program was removed", True)):
        status, text = made()
        same(f"make run {what}: status", (status, text.startswith("The first time ")), (0, is_first))
        for part in ("[1 of ", read("examples/turning-basin.txt"), read("examples/turning-basin.key"), read("crates/overlay_log/stdout")):
            same(f"make run {what}: shows {part[:20]!r}", part in text, True)
        if not is_first:
            os.remove(os.path.join(place, COMMAND_PROGRAM))
    write(os.path.join(place, "target", "refuse"), "")
    status, text = made()
    told_so = "NOT PROVED\nnot proved; target/run.log has what rt says\n" in text
    same(f"make run where nothing is proved: {text}", (status, told_so, "== " in text), (2, True, False))


# ---- Ctrl-C and closed pipes


def start(*words):
    """A script with pipes. Ctrl-C is set anew: a shell that starts the test in the background has it ignored."""
    before = signal.signal(signal.SIGINT, signal.default_int_handler)
    try:
        pipes = dict.fromkeys(("stdin", "stdout", "stderr"), subprocess.PIPE)
        return subprocess.Popen([sys.executable, *words], cwd=ROOT, bufsize=0, **pipes)
    finally:
        signal.signal(signal.SIGINT, before)


def ended(child):
    """Its status, the rest that it printed, and what it said."""
    try:
        printed, said = child.communicate(timeout=SECONDS)
        return child.returncode, printed, said
    finally:
        child.kill()


def progress():
    """The script that shows how far rt has come, when it has shown one line."""
    child = start("tests/progress.py", "ci")
    child.stdin.write(b"rt: theory_lists proved\n")
    same("progress", re.sub(rb"of \d+", b"of N", child.stdout.readline()), b"[1 of N] rt: theory_lists proved\n")
    return child


def test_progress():
    child = progress()
    child.send_signal(signal.SIGINT)
    same("Ctrl-C of progress.py", ended(child), (-signal.SIGINT, b"", b""))
    child = progress()
    child.stdout.close()
    child.stdin.write(b"rt: theory_orthtree proved\n")
    child.stdin.close()
    same("a closed pipe of progress.py", (child.wait(SECONDS), child.stderr.read()), (-signal.SIGPIPE, b""))
    child.stderr.close()


def test_fuzz():
    child = start("tests/fuzz.py", "--seed", "7", "--seconds", "600", *PROGRAM)
    same("fuzz.py begins", b"fixed check" in child.stdout.readline(), True)
    child.send_signal(signal.SIGINT)
    status, printed, said = ended(child)
    heads = [line.split()[0] for line in printed.decode().split("\n") if line]
    same("Ctrl-C of fuzz.py", (status, heads, said), (130, "fuzz commands answers positions fed kinds inserts limits others bad".split(), b""))
    child = start("tests/fuzz.py", "--seed", "7", "--seconds", "600", *PROGRAM)
    child.stdout.close()
    same("a closed pipe of fuzz.py", (child.wait(SECONDS), child.stderr.read()), (141, b""))
    child.stdin.close()
    child.stderr.close()
    for words in (["--seconds", "0"], ["--streams", "-1"], ["--seed", "x"], ["--seed", "1" * 40], ["--jobs", "0"], []):
        status, printed, said = ended(start("tests/fuzz.py", *words, *(PROGRAM if words else [])))
        same(f"fuzz.py {' '.join(words)}", (status, printed, b"error: " in said, b"Traceback" in said), (2, b"", True, False))
    status, printed, said = ended(start("tests/fuzz.py", "no/such/program"))
    same("no such program", (status, printed, said.count(b"\n"), b"`make run`" in said), (1, b"", 1, True))


def main():
    if not PROGRAM:
        sys.exit(__doc__.split("\n")[-1])
    with tempfile.TemporaryDirectory() as folder:
        test_missing(folder)
        test_run(folder)
    test_progress()
    test_fuzz()
    print("\n".join(faults) if faults else f"the way in: {count} comparisons")
    sys.exit(1 if faults else 0)


main()
