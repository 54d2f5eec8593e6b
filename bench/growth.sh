#!/bin/sh
# How the time of a search grows with its span: eight searches of century.txt over 128 blocks of FILE, and over 2, 4, .. times
# as many up to MOST: its blocks again and again, with running dates. For each search it prints the time of the processor less
# that of a reading, in microseconds a block, and how many times the first of these the greatest is. With -c it is the
# searches of cancel.txt, whose bodies almost cancel, over 1, 3, 5 and 10 years of FILE as it is, and in parts of a year: a run
# of more than LIMIT seconds is not done. Run by hand, as
#
#     bench/growth.sh [-n TURNS] [-b MOST] FILE [PROGRAM]
#     bench/growth.sh -c [-n TURNS] [-l LIMIT] FILE [PROGRAM]
#
# FILE is a text of DE405 by JPL, with a header and blocks; each time is the least of TURNS, 3 where they are left out, and with
# -c of one where it is longer than a second; MOST is 16384 then, and LIMIT 60; PROGRAM may be left out too, and is then the one
# that is shipped.
set -e
usage() {
    echo "usage: bench/growth.sh [-n TURNS] [-b MOST | -c [-l LIMIT]] FILE [PROGRAM], FILE a text of DE405 by JPL" >&2
    exit 2
}
turns=3
most=16384
limit=60
cancel=
while getopts cn:b:l: option; do
    case $option in
        c) cancel=yes ;;
        n) turns=$OPTARG ;;
        b) most=$OPTARG ;;
        l) limit=$OPTARG ;;
        *) usage ;;
    esac
done
shift $((OPTIND - 1))
[ -r "$1" ] || usage
for number in "$turns" "$most" "$limit"; do
    [ "$number" -gt 0 ] 2>/dev/null || usage
done
here=$(realpath "$(dirname "$0")")
program=$(realpath -m "${2:-$here/../release/finder-x86_64-linux}")
[ -x "$program" ] || { echo "$program is no program" >&2; exit 1; }
if [ "$cancel" ]; then
    exec python3 -B "$here/cancel.py" "$program" "$1" "$here/cancel.txt" "$turns" "$limit"
fi
work=$(mktemp -d)
trap 'rm -rf "$work"' EXIT
python3 -B "$here/growth.py" "$program" "$1" "$work/text" "$here/century.txt" "$turns" "$most"
