#!/bin/sh
# What searches of a century of DE405 cannot do without: in C, with the program's own interval arithmetic, one enclosure of
# the function over each leaf that is clear by it, and nothing for any other node (nodes.c), beside whole runs of C in
# doubles that steps and bisects (doubles.c) and a reading by the program, in one run. Run by hand, as `bench/least.sh FILE
# [PROGRAM]`; FILE is JPL's text of DE405 with a header and blocks.
set -e
[ -r "$1" ] || { echo "usage: bench/least.sh FILE [PROGRAM], FILE a text of DE405 by JPL" >&2; exit 2; }
here=$(realpath "$(dirname "$0")")
program=$(realpath "${2:-$here/../release/finder-x86_64-linux}")
work=$(mktemp -d)
trap 'rm -rf "$work"' EXIT
cc -O2 -o "$work/nodes" "$here/nodes.c"
cc -O2 -o "$work/doubles" "$here/doubles.c" -lm
python3 "$here/texts.py" large "$work/century.asc" "$1"

# The least time of the processor of three runs of a command.
processor() {
    for _ in 1 2 3; do
        /usr/bin/time -f '%U %S' -a -o "$work/times" "$@" >/dev/null
    done
    awk '{ print $1 + $2 }' "$work/times" | sort -n | head -n 1
    rm "$work/times"
}

# A search: its kind for nodes.c, how many times as long as the peer it may take, and its options with the peer's step.
measure() {
    kind=$1
    times=$2
    shift 2
    for _ in 1 2 3; do
        "$work/nodes" least "$kind" "$work/century.asc"
    done | sort -k 7 -n | head -n 1 >"$work/least"
    peer=$(processor "$work/doubles" find --reader strtod --observer earth "$@" "$work/century.asc")
    awk -v peer="$peer" -v times="$times" -v reading="$reading" '{
        printf "%s: %d leaves, %d clear by an enclosure: %.2f s for these in C; ", $1, $3, $5, $7
        printf "the peer %.2f s, of %.2f times which a reading of %.2f s ", peer, times, reading
        printf "leaves %.2f s\n", times * peer - reading
    }' "$work/least"
}

reading=$(processor "$program" check "$work/century.asc")
measure apsis 1.1 --kind apsis --target moon --step 21600
measure moonext 1.5 --kind sepext --target moon --second sun --step 21600
