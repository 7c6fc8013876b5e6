#!/usr/bin/env bash
# Runs rt, shows how far it has come, and ends with its status. LOG gets what rt says, as it says it.
# usage: prove.sh LOG ci               the gate of proofs, at the top of the repository
#        prove.sh LOG program NAME     proves a program and what it stands on, and builds target/bin/NAME
#        prove.sh LOG staticlib NAME   the same of a static library, target/staticlib/libNAME.a
set -u
cd "$(dirname "$0")/.."
log=$(realpath "$1")
shift

# rt with the words given, in a crate's folder or at the top
shown() {
    (cd "$1" && shift && rt "$@" 2>&1 </dev/null) | tee "$log" | python3 tests/progress.py "${words[@]}"
    return "${PIPESTATUS[0]}"
}

words=("$@")
case $1 in
ci)
    shown . ci
    ;;
program)
    shown "crates/$2" run || exit 1
    mkdir -p target/bin && cp "crates/$2/out/$2" "target/bin/$2"
    ;;
staticlib)
    shown "crates/$2" lib || exit 1
    mkdir -p target/staticlib && cp "crates/$2/out/lib$2.a" "target/staticlib/lib$2.a"
    ;;
esac
