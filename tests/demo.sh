#!/usr/bin/env bash
# make run: proves what the command program needs and builds it, then shows a paper and its key, and document 01's example as bytes and
# as the log that the program prints.
set -eu
cd "$(dirname "$0")/.."
program=target/bin/overlay_log
mkdir -p target
[ -x "$program" ] || echo "The first time the command program and all crates below it are proved, which takes some time; then seconds."
bash tests/prove.sh target/run.log program overlay_log || { echo "not proved; target/run.log has what rt says"; exit 1; }
[ -x "$program" ] || { echo "proved, and $program is not there; target/run.log has what rt says"; exit 1; }
echo
echo "== the paper examples/turning-basin.txt"
cat examples/turning-basin.txt
echo
echo "== its key, by ./chartkey examples/turning-basin.txt"
./chartkey examples/turning-basin.txt
echo
echo "== document 01's example, 1 U, 2 0, 1 V, 2 1, 7, as bytes"
od -An -v -tx1 crates/overlay_log/stdin
echo "== its log, by $program"
"$program" <crates/overlay_log/stdin
