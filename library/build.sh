#!/usr/bin/env bash
# Proves the exports, builds them, and joins them to target/lib/libjirdtungsten.a and .so, with progress.
# usage: build.sh
# It fails when an export is not proved; target/lib/NAME.log has what rt says.
set -eu
cd "$(dirname "$0")/.."
mkdir -p target/lib
for name in export_helm export_charts; do
    echo "== prove and build crates/$name"
    bash tests/prove.sh "target/lib/$name.log" staticlib "$name" || { tail -n 20 "target/lib/$name.log"; exit 1; }
done
bash library/join.sh
