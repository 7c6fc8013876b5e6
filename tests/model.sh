#!/usr/bin/env bash
# The reference model: `model.sh build` builds it and its own tests where a source is newer, `model.sh test` runs these: as many pass
# as are written, and none is passed over.
set -eu
cd "$(dirname "$0")/.."
case ${1:-} in
build)
    mkdir -p target/model
    # the tests are built last
    if [ -x target/model/tests ] && [ -z "$(find model -newer target/model/tests)" ]; then exit 0; fi
    rm -f target/model/tests
    rustc --edition 2021 -O -o target/model/model model/main.rs
    rustc --edition 2021 -O --test -o target/model/tests model/main.rs
    ;;
test)
    said=$(target/model/tests -q 2>&1) || { echo "$said"; exit 1; }
    echo "$said" | grep '^test result:'
    written=$(cat model/*.rs | grep -c '^ *#\[test\]')
    [[ $said =~ test\ result:\ ok\.\ $written\ passed\;\ 0\ failed\;\ 0\ ignored ]]
    ;;
*)
    echo "usage: model.sh build | test"
    exit 2
    ;;
esac
