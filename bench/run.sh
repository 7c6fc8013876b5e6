#!/usr/bin/env bash
# Measures the library's load, insert, locate, window, soundness and overlay beside hand-written engines: proves and builds the library,
# builds the C program with it, runs it. What is measured is the archive that is installed.
# usage: run.sh [--count] [ARCHIVE]
# ARCHIVE is an earlier libjirdtungsten.a: its load, locate, soundness and overlay, of the same prototypes, are measured by turns with this
# one's, in the same process. Inserts and windows are measured without it.
# With --count instructions, branches and mispredicted ones are counted (valgrind), not time.
# It fails when the library is not proved, or an engine answers otherwise than the library.
set -eu
count=
[ "${1:-}" != --count ] || { count=yes; shift; }
before=${1:+$(realpath "$1")}
cd "$(dirname "$0")/.."
bash library/build.sh
echo "== build bench/calls.c"
sources="bench/calls.c bench/engine.c"
archives="target/lib/libjirdtungsten.a"
flags="-std=c11 -D_DEFAULT_SOURCE -O3 -Wall -Wextra -Wpedantic -Wconversion -Iinclude"
if [ -n "$before" ]; then
    nm -g --defined-only "$before" | awk 'NF == 3 && $3 ~ /^jird_/ { print $3, "before_" $3 }' > target/lib/before.names
    objcopy --redefine-syms=target/lib/before.names "$before" target/lib/before.a
    sources="$sources bench/before.c"
    archives="$archives target/lib/before.a"
    flags="$flags -DBEFORE"
fi
# shellcheck disable=SC2086
cc $flags -o target/lib/bench $sources $archives
if [ -n "$count" ]; then
    exec python3 bench/count.py target/lib/bench ${before:+--before}
fi
echo "== time per call, best of 40 rounds"
target/lib/bench
