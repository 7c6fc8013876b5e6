#!/usr/bin/env bash
# Every test of the project. The last line is 'N passed, M failed', over rt ci and the project's own tests.
set -u
cd "$(dirname "$0")/.."
passed=0
failed=0
log=$(mktemp)
trap 'rm -f "$log"' EXIT

# runs a test by name; it passes when its command exits with 0
check() {
    local name=$1
    shift
    echo "== $name"
    if "$@"; then
        passed=$((passed + 1))
    else
        failed=$((failed + 1))
        echo "FAILED: $name"
    fi
}

# the programs that the tests run; one that was there before may be of other sources, and is built anew
programs="overlay_log test_quadtree test_calls test_replay"
there=
for name in $programs; do
    [ -e "crates/$name/out/$name" ] && there="$there $name "
done
build_programs() {
    local name
    for name in $programs; do
        if [[ $there != *" $name "* && -x crates/$name/out/$name ]]; then
            cp "crates/$name/out/$name" "target/bin/$name" || return 1
        else
            bash tests/prove.sh "target/$name.log" program "$name" || return 1
        fi
    done
}

mkdir -p target/bin
echo "== rt ci: prove every crate, try the must-fail edits, run the programs"
bash tests/prove.sh "$log" ci
verdict=$?
last=$(tail -n 1 "$log")
wanted=$(($(grep -c '^[^#[:space:]]' crates.txt) + $(find crates -path '*/must-fail/*' -type f | wc -l)))
if [[ $last =~ ^([0-9]+)\ passed,\ ([0-9]+)\ failed$ ]]; then
    passed=$((passed + BASH_REMATCH[1]))
    failed=$((failed + BASH_REMATCH[2]))
    if [ "$verdict" -ne 0 ] && [ "${BASH_REMATCH[2]}" -eq 0 ]; then
        failed=$((failed + 1))
        echo "FAILED: rt ci exited with $verdict"
    fi
    if [ $((BASH_REMATCH[1] + BASH_REMATCH[2])) -ne "$wanted" ]; then
        failed=$((failed + 1))
        echo "FAILED: rt ci judged $((BASH_REMATCH[1] + BASH_REMATCH[2])) crates and must-fail edits, and there are $wanted"
    fi
else
    failed=$((failed + 1))
    echo "FAILED: rt ci printed no verdict"
fi
if ! grep '^rt: ok; ' "$log" | grep -q 'must-fail edits: ' || grep '^rt: ok; ' "$log" | grep -Eq ', [0-9]+ bad'; then
    failed=$((failed + 1))
    echo "FAILED: rt ci tells of no must-fail edits, or of bad ones"
fi

check "every crate proved with no hole and no axiom, every must-fail edit refused at a fact" python3 tests/verdicts.py "$log"
check "every sentence of the demands and of both documents has its row, and what says and holds it (docs/CLAIMS.md)" python3 tests/claims.py
check "the storeys stand on earlier ones, and docs/MAP.md shows them" python3 tests/map.py --check
check "the reference model builds" bash tests/model.sh build
check "the reference model's own tests" bash tests/model.sh test
check "the reference model on the stored command streams" python3 tests/log_cases.py target/model/model log
check "the test programs and the command program are built" build_programs
check "the definitions, executed, against the reference model" python3 tests/definitions.py 7 4
check "entries built by the program and by the reference model" python3 tests/quadtree.py 7 10
check "calls on sound and damaged charts by the program and by the reference model" python3 tests/calls.py 7 20
check "two lists of calls and the overlay after them by the program and by the reference model" python3 tests/replay.py 7 20
check "the command program on the stored command streams, whole and in portions" python3 tests/log_cases.py --portions target/bin/overlay_log
check "drawn command streams by the command program and by the reference model" python3 tests/fuzz.py --seed 7 --streams 4000 target/bin/overlay_log
check "papers, their keys and faults by the front end and the command program" python3 tests/frontend.py target/bin/overlay_log
check "what make needs and is not here; Ctrl-C and closed pipes" python3 tests/way_in.py target/bin/overlay_log
check "the headers say what the exports and the definitions say, and wrong headers are noticed" python3 tests/headers.py
check "the library is built, and shows the exports alone" bash library/build.sh
check "the library from C and C++: marked cases, guard pages, sanitizers, valgrind, threads, install" python3 tests/library.py 7 20
check "the stack of each export is within what its header says" python3 tests/stack.py
check "the display: reports, ink, options, damaged streams, watch, under sanitizers and valgrind" python3 tests/display.py target/bin/overlay_log

echo "$passed passed, $failed failed"
[ "$failed" -eq 0 ]
