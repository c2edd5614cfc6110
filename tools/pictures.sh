#!/usr/bin/env bash
# Draws the graphs that README.md shows, from what the program itself writes, into docs/: tools/pictures.sh, with Graphviz's dot.
set -eu
case $* in
    '') ;;
    --help) sed -n '2,/^set/s/^# //p' "$0"; exit ;;
    *) echo "pictures.sh: it takes no words but --help, and has drawn nothing" >&2; exit 2 ;;
esac
top=$(cd "$(dirname "${BASH_SOURCE[0]}")/.." && pwd)
command -v dot > /dev/null || { echo "pictures.sh: there is no command dot, of Graphviz" >&2; exit 70; }
for log in five_reasons; do
    status=0
    "$top/run" explain --format dot --workers 1 "$top/examples/$log.log" > "$top/docs/$log.dot" || status=$?
    [ "$status" -eq 1 ] || exit "$status"
    dot -Tsvg "$top/docs/$log.dot" > "$top/docs/$log.svg"
    rm "$top/docs/$log.dot"
done
