#!/usr/bin/env python3
"""Measures `helm-display --watch`: pictures a second, and processor time of a picture, at 512 triangles over 512.

usage: watch.py [PICTURES]      how many pictures of each kind, if not 40

The bed is examples/outer-harbour.csv, the design the same made smaller; the head goes round. Each point is given when the picture of
the one before has come, so none is passed over; the time is from the first point to the last picture, waiting for points
included. It fails when target/bin/helm-display is not built (make display), or draws nothing."""

import math
import os
import resource
import subprocess
import sys
import tempfile
import time

ROOT = os.path.dirname(os.path.dirname(os.path.abspath(__file__)))
DISPLAY = os.path.join(ROOT, "target", "bin", "helm-display")
KINDS = ([], ["--cells"], ["--night"], ["--window", "0,0,65535,65535"], ["--window", "0,0,65535,65535", "--cells"])


def stream():
    """The commands that load both charts."""
    with open(os.path.join(ROOT, "examples", "outer-harbour.csv")) as f:
        lines = [line.split("#")[0].strip() for line in f]
    bed = [list(map(int, line.split(","))) for line in lines if line]
    design = [[3000 + 9 * v // 10 for v in t] for t in bed]
    made = b""
    for chart, table in enumerate((bed, design)):
        made += b"".join(b"\1" + b"".join(v.to_bytes(2, "little") for v in t) for t in table) + bytes([2, chart])
    return made


def await_picture(process, place, before):
    while os.stat(place).st_ino == before:
        if process.poll() is not None:
            sys.exit("helm-display ended early")
        time.sleep(0.001)
    return os.stat(place).st_ino


def measure(folder, words, pictures):
    """Pictures a second, and seconds of processor time of a picture."""
    given, place = os.path.join(folder, "charts.bin"), os.path.join(folder, "head.png")
    with open(given, "wb") as f, open(place, "wb"):
        f.write(stream())
    last = os.stat(place).st_ino
    used = resource.getrusage(resource.RUSAGE_CHILDREN)
    process = subprocess.Popen([DISPLAY, "--watch", given, "-o", place, *words], stdin=subprocess.PIPE, stderr=subprocess.DEVNULL)
    last = await_picture(process, place, last)
    start = time.monotonic()
    for k in range(pictures):
        x, y = (int(32768 + 20000 * f(k / 6)) for f in (math.cos, math.sin))
        process.stdin.write(f"{x} {y}\n".encode())
        process.stdin.flush()
        last = await_picture(process, place, last)
    rate = pictures / (time.monotonic() - start)
    process.stdin.close()
    process.wait()
    now = resource.getrusage(resource.RUSAGE_CHILDREN)
    spent = now.ru_utime + now.ru_stime - used.ru_utime - used.ru_stime
    return rate, spent / (pictures + 1)


def main():
    pictures = int(sys.argv[1]) if len(sys.argv) > 1 else 40
    if not os.path.exists(DISPLAY):
        sys.exit("target/bin/helm-display is not built: make display")
    print("options: pictures a second, milliseconds of processor time of a picture (1280x800, PNG)")
    with tempfile.TemporaryDirectory() as folder:
        for words in KINDS:
            rate, spent = measure(folder, words, pictures)
            print(f"{' '.join(words) or '(none)'}: {rate:.1f}, {1000 * spent:.0f}", flush=True)


main()
