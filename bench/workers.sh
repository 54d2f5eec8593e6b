#!/bin/sh
# Times searches by 1, 2 and 4 workers over FILE, JPL's text of a year of DE405, and over twenty years, the blocks of FILE
# repeated with running dates, in one run. For each it prints the time that passes in a run of the program, less that of a run
# that reads the file alone, and how many times as fast it is as with one worker. All have to print the same report. Run by
# hand on a machine with four processors that are free, as `bench/workers.sh FILE [PROGRAM]`; where no program is given, it is
# the one that is shipped.
set -e
[ -r "$1" ] || { echo "usage: bench/workers.sh FILE [PROGRAM], FILE a text of DE405 by JPL" >&2; exit 2; }
year=$(realpath "$1")
here=$(realpath "$(dirname "$0")")
program=$(realpath -m "${2:-$here/../release/finder-x86_64-linux}")
[ -x "$program" ] || { echo "$program is no program" >&2; exit 1; }
work=$(mktemp -d)
trap 'rm -rf "$work"' EXIT
years=$work/years.asc
python3 "$here/texts.py" blocks 228 "$years" "$year"

# Runs the program, and adds the time that passes, in nanoseconds, to a file of times. The words are a name, and the program's.
run() {
    name=$1
    shift
    from=$(date +%s%N)
    "$program" "$@" >"$work/$name.out"
    echo $(($(date +%s%N) - from)) >>"$work/$name.times"
}

# The milliseconds of a search with so many workers: of all turns the least time, by which the machine's other work counts
# least, less the least time of a reading.
milliseconds() {
    sort -n "$work/$1.times" | head -n 1 >"$work/least"
    sort -n "$work/reading.times" | head -n 1 >>"$work/least"
    awk 'NR == 1 { all = $1 } NR == 2 { printf "%.3f\n", (all - $1) / 1e6 }' "$work/least"
}

# The words are what is searched for, a file, its name, and the options of the search.
measure() {
    what=$1
    file=$2
    span=$3
    shift 3
    rm -f "$work"/*.times
    for _ in 1 2 3 4 5 6 7 8 9; do
        run reading check "$file"
        for workers in 1 2 4; do
            run "$workers" find "$@" --observer earth --workers "$workers" "$file"
        done
    done
    echo "$what over $span: $(awk '$1 == "END" { print $3 + $5 }' "$work/1.out") windows"
    for workers in 1 2 4; do
        cmp -s "$work/1.out" "$work/$workers.out" || { echo "$what over $span: the reports differ" >&2; exit 1; }
        awk -v workers="$workers" -v a="$(milliseconds "$workers")" -v single="$(milliseconds 1)" 'BEGIN {
            name = workers == 1 ? "worker" : "workers"
            printf "  %d %s: %.3f ms, %.2f times as fast as with 1 worker\n", workers, name, a, single / a
        }'
    done
}

for file in "$year" "$years"; do
    if [ "$file" = "$year" ]; then span="a year"; else span="twenty years"; fi
    measure "Mercury and Venus at an angle" "$file" "$span" --kind sep --target mercury --second venus --ref 0.998
    measure "their conjunctions" "$file" "$span" --kind conj --target mercury --second venus
done
