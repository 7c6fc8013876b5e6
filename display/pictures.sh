#!/usr/bin/env bash
# make pictures: draws the pictures of the pages, docs/pictures/, by target/bin/helm-display.
# usage: pictures.sh [FOLDER]      the folder, if not docs/pictures
# It fails when the display or the command program is not built (the paper's title comes through chartkey), or a picture cannot be drawn.
set -eu
cd "$(dirname "$0")/.."
folder=${1:-docs/pictures}
paper=examples/turning-basin.txt
./chartkey -q "$paper" >/dev/null
mkdir -p "$folder"
target/bin/helm-display "$paper" --sheet --cells -o "$folder/turning-basin.png"
target/bin/helm-display "$paper" -o "$folder/turning-basin-helm.png"
target/bin/helm-display "$paper" --size 800x500 --head 30000,10000 -o "$folder/head-on-side.png"
target/bin/helm-display "$paper" --size 800x500 --head 30000,28000 --night -o "$folder/head-at-corner.png"
