#!/bin/sh
# Searches with as many leaves as a search may have, and with one more: Mercury's x is a number so small that no enclosure
# tells its sign, so that each second of the span is a leaf. Run by hand, as `bench/limits.sh [PROGRAM [WORKERS]]`; the program
# may be left out, and is then the one that `rt run` in crates/finder_main has built. It prints the time and the memory of
# each, and takes some gigabytes.
set -e
here=$(realpath "$(dirname "$0")")
program=$(realpath -m "${1:-$here/../crates/finder_main/out/finder_main}")
workers=${2:-4}
[ -x "$program" ] || { echo "build it first: cd crates/finder_main && rt run" >&2; exit 1; }
work=$(mktemp -d)
trap 'rm -rf "$work"' EXIT
cd "$work"
awk 'BEGIN {
    print "KSIZE= 52 NCOEFF= 26\nGROUP 1010\nE1 TEST EPHEMERIS\nGROUP 1030\n2451544.50 2451576.50 32.\nGROUP 1040\n1\nEMRAT"
    print "GROUP 1041\n1\n0.810000000000000000D+02\nGROUP 1050\n3 9 9 15 15 15 15 15 15 15 21 27 27"
    print "2 0 2 0 0 0 0 0 0 2 2 0 0\n1 0 1 0 0 0 0 0 0 1 1 0 0\nGROUP 1070"
    for (n = 0; n < 13; n++) {
        day = 2451544 + 32 * n
        print "1 26\n" day ".5 " day + 32 ".5 -0.1D-20"
        for (line = 0; line < 8; line++) print "0.0 0.0 0.0"
    }
}' >small

# Runs a search up to a second, and compares its status and outputs.
search() {
    /usr/bin/time -q -f '%e s, %M KiB' -o time "$program" find --kind coord --target mercury --axis x --to "$1" \
        --workers "$workers" small >out 2>err && status=0 || status=$?
    printf '%s' "$3" >wanted.out
    printf '%s' "$4" >wanted.err
    if [ "$status" -ne "$2" ] || ! cmp -s wanted.out out || ! cmp -s wanted.err err; then
        echo "a search up to $1: status $status, not $2" >&2
        cat out err >&2
        exit 1
    fi
    echo "a search up to $1 by $workers workers: status $status, $(cat time)"
}

search 33511232 0 \
"FIND coord target mercury second - observer ssb frame eq axis x values 0 dir any width 1 depth 40 cut half span 2000-01-01T00:00:00 2001-01-23T08:40:32
U 2000-01-01T00:00:01 2001-01-23T08:40:32
END certain 0 undecided 1
" ''
search 33511233 9 '' 'finder: more than 33554432 leaves
'
