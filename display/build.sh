#!/usr/bin/env bash
# make display: builds target/bin/helm-display from display/, the proved library and cairo.
# usage: build.sh [--sanitize | --packages]
#   --sanitize   builds target/display/helm-display, with address and undefined-behaviour sanitizers
#   --packages   looks for the packages alone
# What is missing of the system's packages is named with the command that brings it; as root that command is run, after it is said.
# Where target/lib has no library yet, `make lib` makes it. It fails when a package is missing, the library or the program does not build.
set -eu
cd "$(dirname "$0")/.."
library=target/lib/libjirdtungsten.a
modules="cairo cairo-pdf cairo-svg"

# the packages that are missing
missing() {
    command -v pkg-config >/dev/null || echo pkg-config
    # shellcheck disable=SC2086
    pkg-config --exists $modules 2>/dev/null || echo libcairo2-dev
    local folders=(/usr/share/fonts /usr/local/share/fonts "${HOME:-/}/.fonts" "${HOME:-/}/.local/share/fonts")
    find -L "${folders[@]}" -name DejaVuSans.ttf -print -quit 2>/dev/null | grep -q . || echo fonts-dejavu-core
}

install_packages() {
    DEBIAN_FRONTEND=noninteractive apt-get install -y "$@" >target/packages.log 2>&1
}

# names what is missing, and as root installs it
need_packages() {
    local packages
    mapfile -t packages < <(missing)
    [ ${#packages[@]} -gt 0 ] || return 0
    local command="apt-get install -y ${packages[*]}"
    if [ "$(id -u)" != 0 ] || ! command -v apt-get >/dev/null; then
        echo "make display: missing: ${packages[*]} (Debian, as root: $command)"
        return 1
    fi
    echo "make display: missing: ${packages[*]}; installing by: $command"
    if ! install_packages "${packages[@]}"; then
        echo "make display: the list of packages is read anew by: apt-get update"
        apt-get update >>target/packages.log 2>&1 || true
        install_packages "${packages[@]}" || { tail -n 5 target/packages.log; echo "make display: not installed: ${packages[*]}"; return 1; }
    fi
}

program=target/bin/helm-display
options="-O2"
case ${1:-} in
--sanitize)
    program=target/display/helm-display
    options="-O1 -g -fsanitize=address,undefined -fno-sanitize-recover=all -fno-omit-frame-pointer"
    ;;
--packages | "") ;;
*)
    echo "usage: build.sh [--sanitize | --packages]"
    exit 2
    ;;
esac
mkdir -p target "$(dirname "$program")"
need_packages
[ "${1:-}" != --packages ] || exit 0
[ -f "$library" ] || make --no-print-directory lib
# shellcheck disable=SC2086,SC2046
"${CC:-cc}" -std=c11 -Wall -Wextra -Wpedantic -Wconversion $options -Iinclude -Idisplay $(pkg-config --cflags $modules) \
    -o "$program" display/*.c "$library" $(pkg-config --libs $modules) -lm
echo "$program"
