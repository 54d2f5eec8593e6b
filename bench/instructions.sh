#!/bin/sh
# Counts the instructions of whole runs over FILE by one worker, which other work on a machine does not change, and those of the
# peer in C (doubles.c) by both of its readers, in seconds and at the steps of century.txt. It needs valgrind, which counts one
# instruction for each byte of large storage that is cleared.
#
#     bench/instructions.sh FILE [PROGRAM]     FILE is JPL's text of DE405 with a header and blocks
#
# It prints a row for each run: what is run, and millions of instructions. rows.py takes them. PROGRAM is the shipped one if it
# is left out.
set -e
if [ $# -lt 1 ] || [ ! -r "$1" ]; then
    echo "usage: bench/instructions.sh FILE [PROGRAM], FILE a text of DE405 by JPL" >&2
    exit 2
fi
file=$(realpath "$1")
here=$(realpath "$(dirname "$0")")
program=$(realpath -m "${2:-$here/../release/finder-x86_64-linux}")
[ -x "$program" ] || { echo "$program is no program" >&2; exit 2; }
command -v valgrind >/dev/null || { echo "bench/instructions.sh: valgrind is not on the path" >&2; exit 1; }
work=$(mktemp -d)
trap 'rm -rf "$work"' EXIT
cc -O2 -o "$work/doubles" "$here/doubles.c" -lm
stamp="$(date -I) | \`$(sha256sum "$program" | cut -c 1-8)\`"

# Prints the millions of instructions of a command.
millions() {
    valgrind --tool=cachegrind --cache-sim=no --cachegrind-out-file=/dev/null "$@" >"$work/out" 2>"$work/err" ||
        { cat "$work/err" >&2; exit 1; }
    awk '/I *refs:/ { gsub(",", "", $NF); printf "%.1f\n", $NF / 1e6 }' "$work/err"
}

# Prints a row: the program's command and what it is of, the counts of the program, and those of C or dashes.
row() {
    said=$1 ours=$2 by_strtod=$3 by_eights=$4
    echo "| \`${said%% *}\`, ${said#* } | $ours | $by_strtod | $by_eights | $stamp |"
}

# A search by the program and by C, whose step in seconds comes second. OPTIONS are those of both; more are of the program.
find_both() {
    said=$1 step=$2 options=$3
    shift 3
    # shellcheck disable=SC2086  # options are words
    row "find $said" "$(millions "$program" find $options "$@" "$file")" \
        "$(millions "$work/doubles" find --reader strtod --step "$step" $options "$file")" \
        "$(millions "$work/doubles" find --reader eights --step "$step" $options "$file")"
}

# Another command of the program alone.
alone() {
    said=$1
    shift
    row "$said" "$(millions "$program" "$@" "$file")" - -
}

# A line for each search that C makes too: what it is of, the step, whether it is made in milliseconds too, and its options.
searches() {
    cat <<END
Mercury's x|86400|no|--kind coord --target mercury --axis x
conjunctions of Mercury and Venus along the ecliptic|86400|no|--kind conj --target mercury --second venus \
--observer earth --frame ecl
solar eclipses somewhere on Earth|3600|no|--kind any --target moon --second sun --observer earth --radius1 8115.5 \
--radius2 695700
the Moon's apsides|21600|yes|--kind apsis --target moon --observer earth
extremes of Moon and Sun|21600|yes|--kind sepext --target moon --second sun --observer earth
extremes of Mercury and the Sun|86400|no|--kind sepext --target mercury --second sun --observer earth
quarters of the Moon|21600|yes|--kind sep --target moon --second sun --observer earth --ref 0
END
}

echo "| Run | \`finder\` | C by strtod | C by eight digits | Date | Program |"
echo "|---|---|---|---|---|---|"
row "check of the text" "$(millions "$program" check "$file")" \
    "$(millions "$work/doubles" reading strtod "$file")" "$(millions "$work/doubles" reading eights "$file")"
searches | while IFS='|' read -r name step in_milliseconds options; do
    find_both "$name" "$step" "$options"
    [ "$in_milliseconds" = no ] || find_both "$name, in milliseconds" "$step" "$options" --tick 1000
done
moons='--kind conj --target moon --second sun --observer earth --frame ecl'
quarter='--kind sep --target moon --second sun --observer earth --ref 0'
# shellcheck disable=SC2086  # options are words
{
    alone "set Moon and Sun within a right angle" set --relation atleast $quarter
    alone "cert new moons" cert $moons
    "$program" cert $moons "$file" >"$work/certificate"
    alone "verify that of new moons" verify --cert "$work/certificate" $moons
}
