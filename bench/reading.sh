#!/bin/sh
# Times `finder` on two large texts beside a C program that reads the numbers of the same files, by `strtod` and with
# digits eight at a time, in one run, and prints for each its status, its times and the peak of its memory. The first
# text has 16,384 small blocks, the second 32 million bytes in JPL's own layout. Run by hand, as `bench/reading.sh FILE
# PROGRAM`: FILE is JPL's text of DE405 with a header and blocks; PROGRAM may be left out, and is then the one that
# `rt run` in crates/finder_main has built.
set -e
[ -r "$1" ] || { echo "usage: bench/reading.sh FILE [PROGRAM], FILE a text of DE405 by JPL" >&2; exit 2; }
source=$(realpath "$1")
here=$(realpath "$(dirname "$0")")
ours=$(realpath -m "${2:-$here/../crates/finder_main/out/finder_main}")
[ -x "$ours" ] || { echo "build it first: cd crates/finder_main && rt run" >&2; exit 1; }
work=$(mktemp -d)
trap 'rm -rf "$work"' EXIT
cc -O2 -o "$work/peer" "$here/doubles.c" -lm
python3 "$here/texts.py" small "$work/small.asc"
python3 "$here/texts.py" large "$work/large.asc" "$source"

# The least time of the processor in a file of times, of the runs by which the machine's other work counts least.
least_time() {
    awk '{ print $1 + $2 }' "$1" | sort -n | head -n 1
}

# The run with that time.
least() {
    awk '{ print $1 + $2, $0 }' "$2" | sort -n | head -n 1 | awk -v name="$1" \
        '{ printf "  %s: status %s, user %s s, system %s s, elapsed %s s, peak %.1f MB\n", name, $6, $2, $3, $4, $5 / 1024 }'
}

# One run, timed to a file of times, with its output in a file.
run() {
    times=$work/$1.times out=$work/$1.out
    shift
    /usr/bin/time -q -f '%U %S %e %M %x' -a -o "$times" "$@" > "$out" 2>&1 || true
}

# How the times of the processor of ours stand to those of another.
ratio() {
    awk -v a="$(least_time "$work/ours.times")" -v b="$(least_time "$work/$1.times")" -v name="$2" \
        'BEGIN { printf "  ratio of the times of the processor to %s: %.2f\n", name, a / b }'
}

# Five runs of each, turn about. A status other than 0 is told, and is no failure of the measurement.
measure() {
    echo "$1: $(wc -c < "$work/$1") bytes, $(wc -l < "$work/$1") lines"
    rm -f "$work"/*.times
    for _ in 1 2 3 4 5; do
        run ours "$ours" check "$work/$1"
        run strtod "$work/peer" reading strtod "$work/$1"
        run eights "$work/peer" reading eights "$work/$1"
    done
    least "finder check" "$work/ours.times"
    least "C with strtod" "$work/strtod.times"
    least "C with eight digits at a time" "$work/eights.times"
    ratio strtod "C with strtod"
    ratio eights "C with eight digits at a time"
    echo "  finder says at last: $(tail -n 1 "$work/ours.out")"
    echo "  C says: $(cat "$work/strtod.out")"
    if ! cmp -s "$work/strtod.out" "$work/eights.out"; then
        echo "  C says otherwise with eight digits at a time: $(cat "$work/eights.out")"
    fi
}

for text in small.asc large.asc; do
    measure $text
done
