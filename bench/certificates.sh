#!/bin/sh
# Writes a certificate of a search of every kind over JPL's year 2000, and verifies it: `verify` has to print the report of
# `find`, and after it the number of leaves. Then it changes a digit, a letter or a line of each certificate, a hundred times,
# and each has to be refused. It prints a line for each kind. Run by hand, as `bench/certificates.sh [PROGRAM [REFERENCE]]`:
# REFERENCE is a folder with a reference of the program's answers in Python, which each answer is compared with where it is
# named (see certificates.py); the program, where it is left out, is the one that `rt run` in crates/finder_main has built.
set -e
here=$(realpath "$(dirname "$0")")
program=$(realpath -m "${1:-$here/../crates/finder_main/out/finder_main}")
[ -x "$program" ] || { echo "build it first: cd crates/finder_main && rt run" >&2; exit 1; }
python3 -B "$here/certificates.py" "$program" "$here/../examples/de405-2000.asc" 100 ${2:+"$(realpath "$2")"}
