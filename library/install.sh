#!/usr/bin/env bash
# Installs what is built, or takes it away again.
# usage: PREFIX=/usr/local DESTDIR= install.sh install|uninstall
#
#   PREFIX/include               jirdtungsten.h, jirdtungsten_charts.h
#   PREFIX/lib                   libjirdtungsten.a, libjirdtungsten.so with its links, pkgconfig/jirdtungsten.pc
#   PREFIX/lib/jirdtungsten      chartkey with its modules, and beside it the proved program overlay_log
#   PREFIX/bin                   links to these two, and helm-display if it is built (make display)
#   PREFIX/share/man             a page for each program and for the library
#   PREFIX/share/doc/jirdtungsten, with examples
# DESTDIR stands before every path that is written, for packages. Uninstall takes away what install would write now, the folders that are
# the project's own, and other folders that it leaves empty, but not those of /usr and /usr/local. It fails when something is not built,
# or cannot be written.
set -eu
cd "$(dirname "$0")/.."
PREFIX=${PREFIX:-/usr/local}
DESTDIR=${DESTDIR:-}
case $PREFIX in /*) ;; *) echo "make $1: PREFIX is a whole path, such as /usr/local, and not $PREFIX"; exit 1 ;; esac
to=$DESTDIR${PREFIX%/}
version=$(sed -n 's/^#define JIRD_VERSION "\(.*\)".*/\1/p' include/jirdtungsten.h)
abi=$(sed -n 's/^#define JIRD_ABI \([0-9]*\).*/\1/p' include/jirdtungsten.h)
own=lib/jirdtungsten
doc=share/doc/jirdtungsten

# the files, a line for each: mode, source, place below PREFIX
files() {
    local name
    for name in include/*.h; do echo "644 $name include/${name##*/}"; done
    echo "644 target/lib/libjirdtungsten.a lib/libjirdtungsten.a"
    echo "755 target/lib/libjirdtungsten.so.$version lib/libjirdtungsten.so.$version"
    echo "755 chartkey $own/chartkey"
    for name in frontend/*.py; do echo "644 $name $own/$name"; done
    echo "755 target/bin/overlay_log $own/overlay_log"
    for name in chartkey.1 overlay_log.1 jirdtungsten.3; do echo "644 target/man/$name share/man/man${name##*.}/$name"; done
    if [ -f target/bin/helm-display ]; then
        echo "755 target/bin/helm-display bin/helm-display"
        echo "644 target/man/helm-display.1 share/man/man1/helm-display.1"
    fi
    echo "644 library/jirdtungsten.supp $doc/jirdtungsten.supp"
    find README.md docs examples -type f | while read -r name; do echo "644 $name $doc/$name"; done
}

# the links, a line for each: what it points to, place below PREFIX
links() {
    echo "libjirdtungsten.so.$version lib/libjirdtungsten.so.$abi"
    echo "libjirdtungsten.so.$abi lib/libjirdtungsten.so"
    echo "../$own/chartkey bin/chartkey"
    echo "../$own/overlay_log bin/overlay_log"
}

# names what is not built, and the command that builds it
built() {
    local missing=
    [ -f "target/lib/libjirdtungsten.so.$version" ] || missing="the library (make lib)"
    [ -f target/bin/overlay_log ] || missing="${missing:+$missing, }the proved program (make run)"
    [ -z "$missing" ] || { echo "make install: not built: $missing"; exit 1; }
}

put() {
    local mode from name
    python3 library/man.py target/man
    files | while read -r mode from name; do install -D -m "$mode" "$from" "$to/$name"; done
    mkdir -p "$to/bin" "$to/lib/pkgconfig"
    links | while read -r from name; do ln -sfn "$from" "$to/$name"; done
    sed -e "s|@PREFIX@|${PREFIX%/}|" -e "s|@VERSION@|$version|" library/jirdtungsten.pc.in >"$to/lib/pkgconfig/jirdtungsten.pc"
    chmod 644 "$to/lib/pkgconfig/jirdtungsten.pc"
    echo "installed below $to"
}

# takes away the folders of others that are empty now, the deepest first
empty_folders() {
    local name
    for name in share/man/man1 share/man/man3 share/man share/doc share bin include lib/pkgconfig lib; do
        if [ -d "$to/$name" ]; then rmdir --ignore-fail-on-non-empty "$to/$name"; fi
    done
    if [ -d "$to" ]; then rmdir --ignore-fail-on-non-empty "$to"; fi
}

take_away() {
    local mode from name
    files | while read -r mode from name; do rm -f "$to/$name"; done
    links | while read -r from name; do rm -f "$to/$name"; done
    rm -f "$to/lib/pkgconfig/jirdtungsten.pc" "$to/bin/helm-display" "$to/share/man/man1/helm-display.1"
    rm -f "$to/$own/frontend/__pycache__"/*.pyc
    for name in "$own" "$doc"; do
        if [ -d "$to/$name" ]; then find "$to/$name" -depth -type d -empty -delete; fi
    done
    case $to in /usr | /usr/local) ;; *) empty_folders ;; esac
    echo "taken away from below $to"
}

# tells the loader of the shared library, where it looks into that folder and we may
told_loader() {
    if [ -z "$DESTDIR" ] && [ "$(id -u)" -eq 0 ] && ldconfig -vNX 2>/dev/null | grep -q "^${PREFIX%/}/lib:"; then ldconfig; fi
}

case ${1:-} in
install) built && put && told_loader ;;
uninstall) take_away && told_loader ;;
*) echo "usage: PREFIX=/usr/local DESTDIR= install.sh install|uninstall"; exit 1 ;;
esac
