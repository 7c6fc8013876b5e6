#!/usr/bin/env bash
# Joins the two proved archives of target/staticlib to target/lib/libjirdtungsten.a and target/lib/libjirdtungsten.so. Only the
# prototypes of include/ are visible in them: the two archives both have the code below the exports, each its own.
# usage: join.sh
# It fails when an archive is not there, or when what is visible is not what the headers have.
set -eu
cd "$(dirname "$0")/.."
for name in export_helm export_charts; do
    [ -f "target/staticlib/lib$name.a" ] || { echo "target/staticlib/lib$name.a is not built: make lib"; exit 1; }
done
mkdir -p target/lib
cd target/lib
headers="../../include/jirdtungsten.h ../../include/jirdtungsten_charts.h"
# shellcheck disable=SC2086
sed -n 's/^jird_[a-z]* \(jird_[a-z_]*\)($/\1/p' $headers | sort >symbols
version=$(sed -n 's/^#define JIRD_VERSION "\(.*\)".*/\1/p' ../../include/jirdtungsten.h)
abi=$(sed -n 's/^#define JIRD_ABI \([0-9]*\).*/\1/p' ../../include/jirdtungsten.h)

for name in export_helm export_charts; do
    ld -r --whole-archive "../staticlib/lib$name.a" -o "$name.o"
    objcopy --keep-global-symbols=symbols "$name.o"
done
rm -f libjirdtungsten.a libjirdtungsten.so*
ar rcsD libjirdtungsten.a export_helm.o export_charts.o

{ echo "JIRDTUNGSTEN_$abi {"; echo "global:"; sed 's/$/;/' symbols; echo "local: *;"; echo "};"; } >export.map
cc -shared -o "libjirdtungsten.so.$version" -Wl,-soname,"libjirdtungsten.so.$abi" -Wl,--version-script,export.map \
    -Wl,-z,defs -Wl,-z,now -Wl,-z,noexecstack export_helm.o export_charts.o
ln -s "libjirdtungsten.so.$version" "libjirdtungsten.so.$abi"
ln -s "libjirdtungsten.so.$abi" libjirdtungsten.so

# what a program sees of either: defined, not local, without the version's own name
seen() { sed -n 's/.* [A-TV-Z] \([^@]*\).*/\1/p' | grep -v '^JIRDTUNGSTEN_' | sort; }
other() { echo "$1 shows other symbols than the headers have"; exit 1; }
nm -g --defined-only libjirdtungsten.a | seen | diff symbols - || other libjirdtungsten.a
nm -D --defined-only libjirdtungsten.so | seen | diff symbols - || other libjirdtungsten.so
echo "target/lib: libjirdtungsten.a and libjirdtungsten.so.$version, with $(wc -l <symbols) symbols each"
