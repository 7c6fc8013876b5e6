#!/bin/sh
# Tells in one line what a target of make needs and is not here, and what to do about it; then it fails.
# usage: need.sh TARGET COMMAND..
set -u
target=$1
shift
missing=
for name in "$@"; do
    case $name in
    python3) python3 -c 'import sys; sys.exit(sys.version_info < (3, 9))' >/dev/null 2>&1 && continue ;;
    *) command -v "$name" >/dev/null 2>&1 && continue ;;
    esac
    case $name in
    rt) what="rt, the Rattle toolchain (put the bin folder of its kit on the PATH)" ;;
    rustc) what="rustc, the Rust compiler (Debian: apt-get install rustc)" ;;
    cc) what="cc, a C compiler (Debian: apt-get install gcc libc6-dev)" ;;
    c++) what="c++, a C++ compiler (Debian: apt-get install g++)" ;;
    python3) what="python3, version 3.9 or later (Debian: apt-get install python3)" ;;
    */overlay_log) what="$name, the command program (make run proves and builds it)" ;;
    ld | objcopy | nm | ar) what="$name (Debian: apt-get install binutils)" ;;
    *) what="$name (Debian: apt-get install $name)" ;;
    esac
    missing=${missing:+$missing; }$what
done
[ -z "$missing" ] || { echo "make $target: missing: $missing"; exit 1; }
