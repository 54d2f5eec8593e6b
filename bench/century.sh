#!/bin/sh
# Searches a century of DE405 for what century.txt lists: the blocks of FILE repeated with running dates to 32 million bytes, or
# FILE as it is (-r). By `finder` with one worker and with four, beside C that reads the same text by `strtod` or its digits
# eight at a time, steps and bisects in doubles (doubles.c), and may miss events, in one run. Both ways of C have to read the
# same doubles. For each search it prints the times of the processor, the windows, and how many events of the peer differ from
# them; then how many searches are slower than each peer, the worst and the median ratio, two readings of the text alone, and
# last the rows of README.md, which rows.py takes. Run by hand, as
#
#     bench/century.sh [-r] [-n TURNS] [-s TIMES] [-t TICKS] [-m MACHINE] FILE [PROGRAM]
#
# FILE is JPL's text of DE405 with a header and blocks; each time is the least of TURNS, 3 where they are left out; the peer's
# steps are TIMES as long as century.txt says, where that is given; a second has TICKS for `finder`, 1 or 1000, and the peer
# stays in seconds; MACHINE is a name for the rows; PROGRAM may be left out too, and is then the one that is shipped.
set -e
usage() {
    echo "usage: bench/century.sh [-r] [-n TURNS] [-s TIMES] [-t TICKS] [-m MACHINE] FILE [PROGRAM], FILE JPL's DE405" >&2
    exit 2
}
real=
turns=3
times=1
ticks=1
machine=-
while getopts rn:s:t:m: option; do
    case $option in
        r) real=yes ;;
        n) turns=$OPTARG ;;
        s) times=$OPTARG ;;
        t) ticks=$OPTARG ;;
        m) machine=$OPTARG ;;
        *) usage ;;
    esac
done
shift $((OPTIND - 1))
[ -r "$1" ] || usage
for number in "$turns" "$times" "$ticks"; do
    [ "$number" -gt 0 ] 2>/dev/null || usage
done
here=$(realpath "$(dirname "$0")")
program=$(realpath -m "${2:-$here/../release/finder-x86_64-linux}")
[ -x "$program" ] || { echo "$program is no program" >&2; exit 1; }
work=$(mktemp -d)
trap 'rm -rf "$work"' EXIT
cc -O2 -Wall -Wextra -o "$work/doubles" "$here/doubles.c" -lm
if [ "$real" ]; then
    ln -s "$(realpath "$1")" "$work/century.asc"
else
    python3 "$here/texts.py" large "$work/century.asc" "$1"
fi
python3 -B "$here/century.py" "$program" "$work/doubles" "$work/century.asc" "$here/century.txt" \
    "$turns" "$times" "$ticks" "$machine"
