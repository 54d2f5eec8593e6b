#!/bin/sh
# Makes searches of every kind over JPL's year 2000 twice, in seconds and in milliseconds, over spans of a second to two
# months and over the whole file: each window in milliseconds has to lie within one in seconds, where it is undecided within
# one of the search in any direction, and a certain window in seconds has to hold one event in milliseconds, in its
# direction. It prints a line for each kind, with how many windows were compared. Then it prints for the searches of
# nodes.c over the whole file at both ticks how many nodes C judges, and the time that passes in the program without
# reading the file; both have to find as many events. Run by hand, as
# `bench/ticks.sh [PROGRAM [SPANS]]`: SPANS is how many spans of each length a search has, 6 where it is left out; so may
# the program be, and is then the one that `rt run` in crates/finder_main has built.
set -e
here=$(realpath "$(dirname "$0")")
program=$(realpath -m "${1:-$here/../crates/finder_main/out/finder_main}")
[ -x "$program" ] || { echo "build it first: cd crates/finder_main && rt run" >&2; exit 1; }
work=$(mktemp -d)
trap 'rm -rf "$work"' EXIT
cc -O2 -o "$work/nodes" "$here/nodes.c"
python3 -B "$here/ticks.py" "$program" "$work/nodes" "$here/../examples/de405-2000.asc" "${2:-6}"
