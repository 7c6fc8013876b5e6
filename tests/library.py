#!/usr/bin/env python3
"""Holds the library of target/lib to its headers and to the reference model, from C and from C++.

usage: library.py SEED COUNT     all of it; COUNT is at least 5
       library.py PART..         one or more of: marked, calls, windows, threads, install

  marked    every export on document 01's marked cases, and inserts and windows worked out by hand, by the prototypes and by
            the inline functions: as C, as C++, with the shared library, with sanitizers, under valgrind
  calls     the calls of tests/calls.py (boundaries, damaged charts of each kind, buffers one place short, COUNT drawn lists) and counts
            up to the largest, with buffers that end at an unreadable page and others that start after one, const ones on pages that
            cannot be written: answers and all places of all buffers as the model has them; some of them under valgrind, in blocks of
            the heap of exactly their size. Every number that a header says of a call must be met, and no other, and every position
  windows   windows at corners, on sides, between grid points, at the lines between cells and anywhere, on charts of each kind, filed and
            not, lists of every length that matters: as above, and each list as clipping in fractions has it (tests/clipping.py)
  threads   two threads with charts of their own at the same time
  install   `make install` below an empty folder, the examples built from another one by pkg-config, as C and as C++, with the archive
            and with the shared library; `chartkey` and the proved program run; `make uninstall`, and nothing is left

The drivers (tests/library/*.c) are built with the address and undefined-behaviour sanitizers too; the code of the engine is not
instrumented by them, but what it passes to memcpy and memset is. valgrind sees all of it; library/jirdtungsten.supp says what it is told
to pass over, and why. It fails on any difference, any warning of a
compiler, and any status other than 0. The library, the model and the command program must be built."""

import collections
import os
import random
import re
import shutil
import subprocess
import sys
import tempfile

import calls
import clipping
import engines
import headers
from call_cases import boundaries, damage, script
from engines import ROOT
from tables import FLAT, U, V

LIB = os.path.join(ROOT, "target", "lib")
BUILT = os.path.join(LIB, "test")
STRICT = "-Wall -Wextra -Wpedantic -Wconversion -Werror -g -O1".split()
SANITIZED = ["-fsanitize=address,undefined", "-fno-sanitize-recover=all"]
C, CPP = ["cc", "-std=c11", "-D_DEFAULT_SOURCE"], ["c++", "-std=c++17", "-x", "c++"]
SUPPRESSED = os.path.join(ROOT, "library", "jirdtungsten.supp")
VALGRIND = ["valgrind", "-q", "--error-exitcode=9", "--leak-check=full", "--error-limit=no", f"--suppressions={SUPPRESSED}"]


# ---- running


def run(words, data=b"", **more):
    """What a program prints; another status than 0, or something on standard error, is a fault."""
    done = subprocess.run(words, input=data, stdout=subprocess.PIPE, stderr=subprocess.PIPE, **more)
    if done.returncode != 0 or done.stderr:
        said = (done.stdout[-2000:] + done.stderr[-4000:]).decode("utf-8", "replace")
        sys.exit(f"{' '.join(words)[:300]}: status {done.returncode}\n{said}")
    return done.stdout.decode()


def compiled(name, language=C, shared=False, options=()):
    """A driver of tests/library, built; its path."""
    os.makedirs(BUILT, exist_ok=True)
    program = os.path.join(BUILT, "_".join([name, language[0], *(["shared"] if shared else []), *(["sanitized"] if options else [])]))
    library = ["-L", LIB, "-ljirdtungsten", f"-Wl,-rpath,{LIB}"] if shared else [os.path.join(LIB, "libjirdtungsten.a")]
    source = os.path.join(ROOT, "tests", "library", f"{name}.c")
    end_of_source = ["-x", "none"] if language is CPP else []
    run([*language, *STRICT, *options, "-I", os.path.join(ROOT, "include"), source, *end_of_source, *library, "-pthread", "-o", program])
    return program


# ---- marked cases


def marked():
    ways = [(C, False, ()), (CPP, False, ()), (C, True, ()), (CPP, True, ()), (C, False, SANITIZED), (CPP, False, SANITIZED)]
    for language, shared, options in ways:
        said = run([compiled("marked", language, shared, options)])
    run([*VALGRIND, compiled("marked")])
    print(f"marked cases: {said.strip()}, in {len(ways)} ways and under valgrind")


# ---- calls, compared with the model

# counts up to the largest, and some whose multiples wrap to something small
LARGE = [2**64 - 1, 2**64 - 2, 2**63, 2**63 - 1, 2**62, 2**61 + 1, 2**60 + 2, 2**32, 2**32 + 2, 2**48 + 2, 2**16 + 2]
LARGE += [2**64 // 6 + 1, 2**64 // 12 + 1, 2**64 // 3 + 2, 513, 16385]


def large(s):
    """Counts and triangle numbers up to the largest, on the chart of U and V and on both charts of an overlay."""
    for n in LARGE:
        for counts in ((n, 10), (2, n), (n, n)):
            s.both([U, V], [V])
            s.on(0)
            s.counts(*counts)
            s.read((40000, 5), shows="large", number=2)
            s.measure("large", 2)
            s.edit("large", 2)
            s.look("large", 2)
            s.overlay(0, 1, "large", 2)
            s.overlay(1, 0, "large", 2)
            s.on(0)
            s.load([*U, *FLAT], "large", 5)
            s.counts(*counts)
            s.load([*V], "large", 0)
        s.table([U, V], number=0)
        s.call("large", 6, "flip", n, 0)
        s.call("large", 6, "flip", 1, n)


def fixed(seed, count):
    """What the gate of calls makes, large counts, and drawn lists of calls."""
    s = script.Script(random.Random(seed))
    calls.fixed(s)
    large(s)
    calls.drawn(s, count)
    return s


def few(seed):
    """The same without the longest lists, for valgrind."""
    s = script.Script(random.Random(seed), short=True)
    boundaries.lengths(s)
    damage.damaged(s)
    s.on(1)
    calls.on_charts(s)
    calls.drawn(s, 5)
    return s


def agree(what, s, words, text, answers, is_right):
    """Whether a driver prints what the model prints, and rightly."""
    ours = clipping.joined(run(words, text.encode()).split("\n")[:-1])
    return engines.agree(f"call ({what})", s.shown, ours, answers, is_right)


EXPORTS = {"sound": "soundness", "area": "doubled_area", "listing": "cell"}


def said_numbers():
    """The numbers that the headers say of each call, and those of them that are not to be expected."""
    said, unmet = {}, {}
    for header in headers.CRATES:
        found = re.findall(r"/\*((?:(?!\*/).)*)\*/\n\w+ jird_(\w+)\(", headers.read("include", header), re.S)
        for comment, name in found:
            gives = re.search(r"Gives (no number|[\d, or]+)[.;]", " ".join(comment.split()))
            said[name] = {int(n) for n in re.findall(r"\d+", gives[1])} if gives else None
            unmet[name] = {int(n) for n in re.findall(r"(\d+) is not to be expected", " ".join(comment.split()))}
    return said, unmet


def same_numbers(answers):
    """Whether the calls gave the numbers that the headers say of them."""
    met = collections.defaultdict(set)
    for word, number in (line.split()[:2] for line in answers):
        met[EXPORTS.get(word, word)].update([] if word == "listing" else [int(number)])
    said, unmet = said_numbers()
    wrong = [name for name in said if said[name] is None or met[name] != said[name] - unmet[name]]
    for name in wrong:
        print(f"jird_{name} gave {sorted(met[name])}, and its header says {said[name]}")
    return not wrong and set(met) == set(said)


def same_positions(answers):
    """Whether locates gave every position that the header has, and no other."""
    met = {int(line.split()[3]) for line in answers if line.startswith("locate ")}
    said = {number for _, number, _ in headers.position_rows()}
    if met != said:
        print(f"jird_locate gave the positions {sorted(met)}, and its header has {sorted(said)}")
    return met == said


def compared(s, ways, is_right=calls.given):
    """The model's answers, if each of these programs gives them; the checksum of all buffers is in each, and a window's list."""
    text = clipping.dumped(script.model_text(s.steps, sums=False))
    answers = clipping.joined(engines.model_lines("calls", text))
    for words in ways:
        if not agree(" ".join(map(os.path.basename, words)), s, words, text, answers, is_right):
            sys.exit(1)
    return answers


def drivers():
    """The calls by guard pages after and before each buffer, without and with sanitizers, and those under valgrind."""
    plain, sanitized = compiled("calls"), compiled("calls", options=SANITIZED)
    return [[program, mode] for program in (plain, sanitized) for mode in ("end", "start")], [[*VALGRIND, plain, "heap"]]


def made_calls(seed, count):
    guarded, watched = drivers()
    answers = compared(fixed(seed, count), guarded)
    if not same_numbers(answers) or not same_positions(answers):
        sys.exit(1)
    under = compared(few(seed), watched)
    print(f"calls: {len(answers)} in buffers that end at a guard page and {len(answers)} in such that start after one, both with and "
          f"without sanitizers, and {len(under)} under valgrind: as the model answers")


# ---- windows, compared with clipping too


def made_windows(seed, most=40):
    """Windows on charts of each kind, so many on each as it is filed and as it is not; under valgrind a tenth."""
    made = []
    for ways, on_each in zip(drivers(), (most, most // 10)):
        s = script.Script(random.Random(seed), short=on_each < most)
        clipping.fixed(s, on_each)
        answers = compared(s, ways, clipping.is_right)
        made.append([int(line.split()[2]) for line in answers if line.startswith("window ")])
    print(f"windows: {len(made[0])} by guard pages and {len(made[1])} under valgrind, each with the list that clipping in fractions has, of "
          f"up to {max(made[0])} triangles: as the model answers")


# ---- threads


def threads():
    plain = run([compiled("threads"), "60"]).strip()
    sanitized = run([compiled("threads", options=SANITIZED), "10", "large"]).strip()
    print(f"threads: {plain}, with sanitizers {sanitized}")


# ---- what is built and installed

# what the engine's code may take from the C library
TAKEN = {"memcpy", "memmove", "memset", "memcmp", "bcmp"}


def symbols():
    """The library needs nothing but what copies and clears memory: no heap, no files, no state."""
    lines = run(["nm", "-u", os.path.join(LIB, "libjirdtungsten.a")]).split("\n")
    needed = {line.split()[-1] for line in lines if re.match(r" +U ", line)} - {"_GLOBAL_OFFSET_TABLE_"}
    if not needed <= TAKEN:
        sys.exit(f"the library needs {', '.join(sorted(needed - TAKEN))}")
    sections = run(["objdump", "-h", os.path.join(LIB, "libjirdtungsten.a")])
    for section, size in re.findall(r" \d+ (\.(?:data|bss|tdata|tbss)\S*) +([0-9a-f]+)", sections):
        if int(size, 16) > 0 and not section.startswith(".data.rel.ro"):
            sys.exit(f"the library has {int(size, 16)} bytes of state in {section}")
    name = re.search(r"SONAME +(\S+)", run(["objdump", "-p", os.path.join(LIB, "libjirdtungsten.so")]))
    abi = headers.in_header(headers.read("include", headers.HELM)).defines["JIRD_ABI"]
    if not name or name[1] != f"libjirdtungsten.so.{abi}":
        sys.exit(f"the shared library's name is {name and name[1]}, and JIRD_ABI {abi}")


def files_below(folder):
    return sorted(os.path.relpath(os.path.join(at, n), folder) for at, _, names in os.walk(folder) for n in names)


def make(target, prefix, stage):
    outside = {name: value for name, value in os.environ.items() if name not in ("MAKEFLAGS", "MAKELEVEL", "MFLAGS")}
    return run(["make", "-s", "-C", ROOT, target, f"PREFIX={prefix}", f"DESTDIR={stage}"], env=outside)


def built_examples(folder, to, stage):
    """The installed examples, built from an empty folder by pkg-config, run."""
    pkg = {**os.environ, "PKG_CONFIG_LIBDIR": os.path.join(to, "lib", "pkgconfig"), "PKG_CONFIG_SYSROOT_DIR": stage}
    flags = {word: run(["pkg-config", word, "jirdtungsten"], env=pkg).split() for word in ("--cflags", "--libs")}
    wanted = headers.read("examples", "overlay.out")
    for source, language in (("overlay.c", C[:2]), ("overlay.cpp", CPP[:2])):
        shutil.copy(os.path.join(to, "share", "doc", "jirdtungsten", "examples", source), folder)
        if len(headers.read("examples", source).split("\n")) > 30:
            sys.exit(f"examples/{source} has 30 lines or more")
        for library in (flags["--libs"], [os.path.join(to, "lib", "libjirdtungsten.a")]):
            run([*language, *STRICT, *flags["--cflags"], source, *library, "-o", "overlay"], cwd=folder)
            said = run(["./overlay"], cwd=folder, env={**os.environ, "LD_LIBRARY_PATH": os.path.join(to, "lib")})
            if said != wanted:
                sys.exit(f"examples/{source} prints\n{said}and examples/overlay.out has\n{wanted}")


def installed_programs(to):
    """chartkey and the proved program, as they are installed, and the manual pages."""
    paper = os.path.join(to, "share", "doc", "jirdtungsten", "examples", "turning-basin.txt")
    if run([os.path.join(to, "bin", "chartkey"), paper], cwd=to) != headers.read("examples", "turning-basin.key"):
        sys.exit("the installed chartkey gives another key")
    if run([os.path.join(to, "bin", "overlay_log")], bytes([2, 0])) != "overlay log\n2 0 1\n":
        sys.exit("the installed program gives another log")
    page = run(["cat", os.path.join(to, "share", "man", "man3", "jirdtungsten.3")])
    missing = [name for name in map("jird_{}".format, said_numbers()[0]) if f".SH {name}\n" not in page]
    if missing or "usage: chartkey" not in run(["cat", os.path.join(to, "share", "man", "man1", "chartkey.1")]):
        sys.exit(f"the manual pages do not have {', '.join(missing) or 'the use of chartkey'}")


def install():
    """With a prefix, and with a folder before it; afterwards nothing is left."""
    symbols()
    for staged in (False, True):
        with tempfile.TemporaryDirectory() as empty, tempfile.TemporaryDirectory() as folder:
            stage, prefix = (os.path.join(empty, "stage"), "/usr") if staged else ("", os.path.join(empty, "prefix"))
            to = stage + prefix
            make("install", prefix, stage)
            count = len(files_below(to))
            built_examples(folder, to, stage)
            installed_programs(to)
            if f"prefix={prefix}\n" not in run(["cat", os.path.join(to, "lib", "pkgconfig", "jirdtungsten.pc")]):
                sys.exit("jirdtungsten.pc has another prefix")
            make("uninstall", prefix, stage)
            if os.path.exists(to):
                sys.exit(f"left after `make uninstall`: {', '.join(files_below(to)[:9]) or 'empty folders'}")
    print(f"install: {count} files and links, 4 examples built and run from an empty folder, twice; nothing left")


PARTS = {"marked": marked, "calls": lambda: made_calls(7, 20), "windows": lambda: made_windows(7), "threads": threads, "install": install}


def main():
    words = sys.argv[1:]
    if not os.path.isfile(os.path.join(LIB, "libjirdtungsten.a")):
        sys.exit("target/lib/libjirdtungsten.a is not built: make lib")
    if words and all(word in PARTS for word in words):
        for word in words:
            PARTS[word]()
        return 0
    if len(words) != 2 or not all(word.isdigit() for word in words):
        sys.exit("usage: library.py SEED COUNT | PART..    (PART is one of " + ", ".join(PARTS) + ")")
    seed, count = map(int, words)
    marked()
    made_calls(seed, count)
    made_windows(seed)
    threads()
    install()
    return 0


if __name__ == "__main__":
    sys.exit(main())
