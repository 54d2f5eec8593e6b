#!/bin/sh
# Runs the program with each of its requests of memory refused in turn, over all threads, and then with its threads refused,
# for a search of each kind, a check of two files and a generated text; and with threads refused by the system. Each run
# has to be out of memory, with nothing written, or to write its whole report. Run by hand, as `bench/memory.sh [PROGRAM]`;
# the program may be left out, and is then the one that `rt run` in crates/finder_main has built.
set -e
here=$(realpath "$(dirname "$0")")
program=$(realpath -m "${1:-$here/../crates/finder_main/out/finder_main}")
[ -x "$program" ] || { echo "build it first: cd crates/finder_main && rt run" >&2; exit 1; }
work=$(mktemp -d)
trap 'rm -rf "$work"' EXIT
cc -O2 -Wall -Wextra -shared -fPIC -o "$work/refused.so" "$here/refused.c" -ldl
cp "$program" "$work/finder"
chmod 755 "$work" "$work/finder" "$work/refused.so"
python3 "$here/memory.py" "$work/finder" "$work/refused.so" "$work"
