#!/usr/bin/env python3
"""Drives a command program and the reference model with drawn streams and compares their logs byte for byte.

usage: fuzz.py [--seed N] [--seconds S | --streams N | --only K] [--jobs J] [--model "CMD .."] PROGRAM [ARGUMENT ..]

First the fixed checks of tests/edges.py. Then stream 0, 1, 2, .. of the seed, by as many workers as there are processors: `model
streams N K 1 1` makes stream K of seed N with its log (model/gen/small.rs has the kinds and their shares), and N and K also draw how
it is fed (tests/feeding.py). So `--seed N --only K` runs one stream again, in all ways. Without a seed one is drawn; without an end it
runs for a minute.

A difference is a log that is not the model's, a status other than 0, something on standard error, an answer that does not come, or
no end. It is shortened as far as it stays one, printed, and kept under target/fuzz/; the status is then 1. A run of 4,000
streams and more fails as well when something of `WANTED` was not met. Ctrl-C ends it with the tally and status 130, a closed pipe
without a word and status 141."""

import argparse
import collections
import multiprocessing
import multiprocessing.connection
import os
import random
import shutil
import signal
import subprocess
import sys
import time

import edges
import engines
import feeding
import streams
import tables
from crates import ROOT

KEPT = os.path.join(ROOT, "target", "fuzz")
CHARTKEY = os.path.join(ROOT, "chartkey")
ENDLESS = 1 << 40
FEW = 4000  # a run of fewer need not meet all that is wanted
SHORTENING = 20  # seconds
LONGEST_BY_BYTES = 1500

ANSWERS = "1 4; 2 0; 2 5; 2 11; 3 0; 3 7; 3 10; 3 11; 3 14; 4 0; 4 8; 5 0; 5 6; 5 9; 5 11; 6 0; 7 0; 7 12".split("; ")
LIMITS = ["4096 pairs", "4095 pairs", "16384 entries", "16383 entries", "an empty table", "512 wait, and a load"]
POSITIONS = [f"position {k}" for k in range(7)]  # of the point in the triangle found
OTHERS = ["nowhere", "found above 0", "5 at triangle 0", "5 above triangle 0", "empty input", "no pair", "some pairs"]
BAD = ["bad: unknown byte"] + [f"bad: {code} with c above 1" for code in range(2, 7)]
BAD += [f"bad: {code} cut after {k} of {size} bytes" for code, size in streams.SIZES.items() for k in range(1, size)]
ONCE = [f"command {code}" for code in range(1, 8)] + [f"answer {a}" for a in ANSWERS] + LIMITS + OTHERS + BAD
ONCE += [f"fed {way}" for way in feeding.WAYS] + [f"insert {what}" for what in tables.HIGHER + tables.ADDED]
# what is to be met, and how often
WANTED = dict.fromkeys(ONCE, 1) | dict.fromkeys(POSITIONS + [f"insert {place}" for place in tables.PLACES], 100)


# ---- what is met

EDITS = {"3": "insert", "4": "take_out", "5": "flip"}


def met(stream, log):
    """What a stream and its log show. The tables that its accepted commands lead to are followed."""
    charts, waiting, at = [[], []], [], 0
    if not stream:
        yield "empty input"
    for step in streams.steps(stream, log):
        if step.what.startswith("bad"):
            yield step.what
            return
        yield f"command {step.what}"
        words, command, at = step.line.decode().split(), stream[at : step.end], step.end
        chart, operands = command[1:2], streams.numbers(command[1 if step.what == "1" else 2 :])
        if step.what == "1" and not words:
            waiting.append(operands)
        elif step.what == "3":
            yield from tables.insert_shows(charts[chart[0]], operands, int(words[1]))
        elif step.what == "2" and len(waiting) == streams.MOST_WAITING:
            yield "512 wait, and a load"
        if step.what in "2345" and words[1] == "0":
            charts[chart[0]] = waiting if step.what == "2" else tables.edited(EDITS[step.what], charts[chart[0]], operands)
        if step.what == "2":
            waiting = []
        if words:
            yield from answered(words)


def answered(words):
    """What the first line of an answer shows."""
    code, number = words[:2]
    yield f"answer {code} {number}"
    if number == "5":
        yield "5 at triangle 0" if words[2] == "0" else "5 above triangle 0"
    elif code == "6":
        yield "nowhere" if words[2] == "65535" else f"position {words[3]}"
        if words[2] not in ("0", "65535"):
            yield "found above 0"
    elif code == "7" and number == "0":
        yield "some pairs" if words[2] != "0" else "no pair"
        if words[2] in ("4095", "4096"):
            yield f"{words[2]} pairs"
    elif number == "0":
        if words[2] in ("16383", "16384"):
            yield f"{words[2]} entries"
        elif words[:3] == ["2", "0", "1"]:
            yield "an empty table"


def tally(seen):
    """How often each thing was met, in few lines."""
    groups = [("commands", "command "), ("answers", "answer "), ("positions", "position "), ("fed", "fed "), ("kinds", "kind ")]
    for name, start in groups:
        there = [k for k in seen if k.startswith(start)]
        print(f"  {name:10}" + ", ".join(f"{k[len(start):]} × {seen[k]:,}" for k in sorted(there, key=order)))
    print("  inserts   " + ", ".join(f"{k} × {seen[f'insert {k}']:,}" for k in tables.PLACES + tables.HIGHER + tables.ADDED))
    print("  limits    " + ", ".join(f"{k} × {seen[k]:,}" for k in LIMITS))
    print("  others    " + ", ".join(f"{k} × {seen[k]:,}" for k in OTHERS))
    print(f"  bad       {sum(seen[k] for k in BAD):,} in {sum(seen[k] > 0 for k in BAD)} of {len(BAD)} places")


def order(name):
    return [(int(w), "") if w.isdigit() else (0, w) for w in name.split()]


# ---- both sides


class Model:
    """The reference model: numbered streams with their logs, and the logs of other streams."""

    def __init__(self, words):
        self.words, self.started = words, []
        if not shutil.which(words[0]):
            sys.exit(f"{words[0]} is not there; `make model` builds the reference model")

    def start(self, *more):
        p = subprocess.Popen([*self.words, *map(str, more)], stdin=subprocess.PIPE, stdout=subprocess.PIPE, start_new_session=True)
        self.started.append(p)
        return p

    def streams(self, seed, first, count, step=1):
        made = self.start("streams", seed, first, count, step).stdout
        for number in range(first, first + count * step, step):
            head = made.readline().decode().split()
            if not head:
                sys.exit(f"the model {' '.join(self.words)} ended before stream {number}")
            yield number, head[0], made.read(int(head[1])), made.read(int(head[2]))

    def answerer(self):
        """A function from a stream to its log."""
        p = self.start("logs")

        def log(stream):
            try:
                p.stdin.write(b"%d\n%s" % (len(stream), stream))
                p.stdin.flush()
                return p.stdout.read(int(p.stdout.readline()))
            except (BrokenPipeError, ValueError):
                sys.exit(f"the model {' '.join(self.words)} ended before it told a log")

        return log

    def close(self):
        for p in self.started:
            p.kill()
            p.wait()
            p.stdin.close()
            p.stdout.close()


def difference(done, log):
    """What of a run is not as it should be, or nothing."""
    if done.fault:
        return done.fault
    if done.printed != log:
        return "another log"
    if done.status != 0:
        return f"status {done.status}"
    return f"said {done.said[:200]}" if done.said else None


def way_of(rng, stream):
    """How a stream is fed: most of them whole."""
    way = rng.choice(feeding.WAYS + 4 * ["whole"])
    return "pieces" if way == "bytes" and len(stream) > LONGEST_BY_BYTES else way


# ---- a difference


def commands(stream, log):
    """The stream, cut into its commands and what is left."""
    ends = [0] + [min(step.end, len(stream)) for step in streams.steps(stream, log)] + [len(stream)]
    return [stream[a:b] for a, b in zip(ends, ends[1:]) if a < b]


def shortest(stream, log_of, differs):
    """The shortest stream found that still differs: commands dropped, many at a time and then one, then bytes at the end."""
    stop = time.monotonic() + SHORTENING
    parts = commands(stream, log_of(stream))
    size = max(1, len(parts) // 2)
    while time.monotonic() < stop:
        k, before = 0, len(parts)
        while k < len(parts) and time.monotonic() < stop:
            rest = parts[:k] + parts[k + size :]
            if differs(b"".join(rest)):
                parts = rest
            else:
                k += size
        if size == 1 and len(parts) == before:
            break
        size = max(1, size // 2)
    found = b"".join(parts)
    while found and time.monotonic() < stop and differs(found[:-1]):
        found = found[:-1]
    return found


def first_difference(printed, log):
    """The first line in which two logs differ."""
    if printed == log:
        return "  both logs are the same"
    ours, theirs = printed.split(b"\n"), log.split(b"\n")
    k = next((k for k, (a, b) in enumerate(zip(ours, theirs)) if a != b), min(len(ours), len(theirs)))
    shown = [(lines[k] if k < len(lines) else b"").decode(errors="replace") for lines in (ours, theirs)]
    return f"  line {k}: program {shown[0]!r}, model {shown[1]!r}"


def report(program, log_of, seed, number, kind, way, stream, log, done):
    """Prints a difference and the shortest stream that shows one, and keeps that."""
    print(f"difference: seed {seed}, stream {number}, kind {kind}, {len(stream)} bytes, fed {way}: {difference(done, log)}")
    print(first_difference(done.printed, log), flush=True)
    # a hang is not waited for as long again
    quick = feeding.Program(program.words, min(program.seconds, 2))

    def differs(cut, way=way):
        log = log_of(cut)
        return difference(quick.run(cut, way, log, random.Random(0)), log)

    way = "whole" if differs(stream, "whole") else way
    found = shortest(stream, log_of, lambda cut: differs(cut, way))
    log = log_of(found)
    done = quick.run(found, way, log, random.Random(0))
    os.makedirs(KEPT, exist_ok=True)
    path = os.path.join(KEPT, f"{seed}-{number}.bin")
    with open(path, "wb") as f:
        f.write(found)
    print(f"shortest found: {len(found)} bytes, fed {way}: {difference(done, log)}; kept in {os.path.relpath(path)}")
    print(first_difference(done.printed, log))
    print(f"hex: {found[:400].hex(' ')}" + " .." * (len(found) > 400))
    if os.path.exists(CHARTKEY):
        print("paper:", flush=True)
        subprocess.run([CHARTKEY, "--from-bytes", path], check=False)
    print(f"again: python3 tests/fuzz.py --seed {seed} --only {number} {' '.join(program.words)}", flush=True)


# ---- the run


class Progress:
    """One line, rewritten on a terminal at most ten times a second, else a new one every ten seconds."""

    def __init__(self, seed):
        self.seed, self.count, self.differences, self.terminal = seed, 0, 0, sys.stdout.isatty()
        self.begin()

    def begin(self):
        self.start = self.shown = time.monotonic()

    def line(self):
        took = time.monotonic() - self.start
        rate = f"{self.count / max(took, 0.001):,.0f}/s"
        clock = f"{int(took) // 60:02}:{int(took) % 60:02}"
        found = f"{self.differences} difference{'s' * (self.differences != 1)}"
        return f"fuzz  {self.count:,} streams  {rate}  {found}  seed {self.seed}  {clock}"

    def show(self):
        now = time.monotonic()
        if now - self.shown >= (0.1 if self.terminal else 10):
            self.shown = now
            line = self.line()
            print(f"\r{line}\x1b[K" if self.terminal else line, end="" if self.terminal else "\n", flush=True)

    def last(self):
        print("\r\x1b[K" * self.terminal + self.line(), flush=True)


def work(options, place, told):
    """A worker. It ends with the run, also where that ended without a word."""
    signal.signal(signal.SIGINT, signal.SIG_IGN)
    try:
        run_share(options, place, told)
    except (BrokenPipeError, ConnectionResetError):
        pass


def run_share(options, place, told):
    """Runs every J-th stream until the end that was asked for, or a difference; tells ten times a second what it ran and met."""
    program, model = feeding.Program(options.program), Model(options.model.split())
    stop = time.monotonic() + (options.seconds or 60) if options.streams is None else float("inf")
    count, seen, last = 0, collections.Counter(), time.monotonic()
    share = ENDLESS if options.streams is None else len(range(place, options.streams, options.jobs))
    for number, kind, stream, log in model.streams(options.seed, place, share, options.jobs):
        rng = random.Random(f"{options.seed} {number}")
        way = way_of(rng, stream)
        done = program.run(stream, way, log, rng)
        count += 1
        seen.update([f"kind {kind}", f"fed {way}", *met(stream, log)])
        now = time.monotonic()
        if difference(done, log):
            told.send((count, seen, (number, kind, way, stream, log, done)))
            return model.close()
        if now - last > 0.1 or now > stop:
            told.send((count, seen, None))
            count, seen, last = 0, collections.Counter(), now
        if now > stop:
            break
    told.send((count, seen, None))
    return model.close()


def started(options):
    """The workers, and what each tells. Ctrl-C waits until all have started."""
    signal.pthread_sigmask(signal.SIG_BLOCK, {signal.SIGINT})
    ends = [multiprocessing.Pipe(duplex=False) for _ in range(options.jobs)]
    workers = [multiprocessing.Process(target=work, args=(options, k, told), daemon=True) for k, (_, told) in enumerate(ends)]
    for worker, (_, told) in zip(workers, ends):
        worker.start()
        told.close()
    return workers, [heard for heard, _ in ends]


def drawn(program, log_of, options, seen, progress):
    """Lets the workers run, and reports the first difference; whether there was one."""
    workers, ends = started(options)
    found = None
    try:
        signal.pthread_sigmask(signal.SIG_UNBLOCK, {signal.SIGINT})
        for count, met_there, found in messages(ends):
            seen.update(met_there)
            progress.count += count
            if found:
                progress.differences = 1
                break
            progress.show()
        failed = not found and any(worker.join() or worker.exitcode for worker in workers)
    finally:
        for worker in workers:
            worker.terminate()
            worker.join()
    progress.last()
    if failed:
        sys.exit("a worker failed")
    if found:
        report(program, log_of, options.seed, *found)
    return found is not None


def messages(ends):
    """What the workers tell, until all have ended."""
    while ends:
        for end in multiprocessing.connection.wait(ends):
            try:
                yield end.recv()
            except EOFError:
                ends.remove(end)


def only(program, model, log_of, options):
    """Runs one stream in all ways."""
    _, kind, stream, log = next(model.streams(options.seed, options.only, 1))
    for way in feeding.WAYS:
        done = program.run(stream, way, log, random.Random(f"{options.seed} {options.only}"))
        if difference(done, log):
            report(program, log_of, options.seed, options.only, kind, way, stream, log, done)
            return 1
    print(f"stream {options.only} of seed {options.seed}, kind {kind}, {len(stream)} bytes: no difference in {len(feeding.WAYS)} ways")
    return 0


def least(low):
    """The type of an argument: a whole number from there on, and of 63 bits."""

    def number(text):
        if not text.isdecimal() or not low <= int(text) < 1 << 63:
            raise argparse.ArgumentTypeError(f"{text} is no whole number from {low} on")
        return int(text)

    return number


def arguments():
    usage = argparse.ArgumentParser(usage=__doc__.split("usage: ")[1].split("\n")[0])
    usage.add_argument("--seed", type=least(0), default=int.from_bytes(os.urandom(2), "little"))
    end = usage.add_mutually_exclusive_group()
    end.add_argument("--seconds", type=least(1))
    end.add_argument("--streams", type=least(1))
    end.add_argument("--only", type=least(0))
    usage.add_argument("--jobs", type=least(1), default=len(os.sched_getaffinity(0)))
    usage.add_argument("--model", default=engines.MODEL)
    usage.add_argument("program", nargs=argparse.REMAINDER)
    options = usage.parse_args()
    if not options.program:
        usage.error("no program")
    return options


def run(options, model, seen, progress):
    """The status of the whole run."""
    program, log_of = feeding.Program(options.program), model.answerer()
    if options.only is not None:
        return only(program, model, log_of, options)
    faults = edges.faults(options.program)
    print("\n".join(faults) if faults else f"{len(edges.CHECKS)} fixed checks of reading, writing, length and memory pass", flush=True)
    progress.begin()
    differs = drawn(program, log_of, options, seen, progress)
    tally(seen)
    met_all = differs or engines.all_met(WANTED, seen)
    return 1 if faults or differs or progress.count >= FEW and not met_all else 0


def main():
    options, seen = arguments(), collections.Counter()
    model, progress = Model(options.model.split()), Progress(options.seed)
    try:
        return run(options, model, seen, progress)
    except KeyboardInterrupt:
        signal.signal(signal.SIGINT, signal.SIG_IGN)
        progress.last()
        tally(seen)
        return 130
    finally:
        model.close()


if __name__ == "__main__":
    try:
        sys.exit(main())
    except OSError as e:
        # nothing more is printed; a closed pipe is nobody's fault
        os.dup2(os.open(os.devnull, os.O_WRONLY), sys.stdout.fileno())
        sys.exit(141 if isinstance(e, BrokenPipeError) else f"fuzz.py: {e}")
