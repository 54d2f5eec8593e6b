# shellcheck shell=sh
# Read by the checks in shell, at the top of the repository. They print a line for each thing that they check, in the Test
# Anything Protocol, which `./test` and `prove` read:
#
#     . tests/support/checks.sh
#     check 'a report is printed' [ -s report ]
#     finish
#
# What a check says beside that, on either output, is for whoever reads why it failed.
checks=0
failures=0

# Makes a folder for what the checks write, $work, which goes when they end; Python leaves nothing elsewhere.
make_work() {
    work=$(mktemp -d) || exit 1
    trap 'rm -rf "$work"' EXIT
    export PYTHONDONTWRITEBYTECODE=1 FINDER_CACHE="$work/cache"
}

# Prints the name of a check as the protocol wants it: a backslash before each `#` and each backslash.
escaped() { printf '%s' "$1" | sed 's/[\\#]/\\&/g'; }

# Counts what is as it has to be.
passed() {
    checks=$((checks + 1))
    printf 'ok %s - %s\n' "$checks" "$(escaped "$1")"
}

# Counts what is not, and says what was seen: the files that are named behind it.
failed() {
    checks=$((checks + 1))
    failures=$((failures + 1))
    printf 'not ok %s - %s\n' "$checks" "$(escaped "$1")"
    shift
    [ $# -eq 0 ] || cat -- "$@" | sed 's/^/# /'
}

# Counts what cannot be checked here, and says why.
skipped() {
    checks=$((checks + 1))
    printf 'ok %s - %s # SKIP %s\n' "$checks" "$(escaped "$1")" "$2"
}

# Counts what a command finds to be so: its name, and the command. Files named in $seen are shown where it fails.
check() {
    what=$1
    shift
    # shellcheck disable=SC2086 # names of files
    if "$@"; then passed "$what"; else failed "$what" ${seen-}; fi
}

# Ends the checks: their number, and the exit status.
finish() {
    echo "1..$checks"
    [ "$failures" -eq 0 ]
}

# Ends checks of which none can be made here.
skip_all() {
    echo "1..0 # SKIP $1"
    exit 0
}

# Whether all is to be checked, and not a sample.
is_whole() { [ "${FINDER_TESTS-}" = whole ]; }

# Counts what a sample does not check.
of_the_whole() { skipped "$1" 'this is a sample'; }

# Prints the first of each so many words that follow the number, or all of them if all is to be checked.
sample() {
    every=$1
    shift
    ! is_whole || every=1
    printf '%s\n' "$@" | awk -v every="$every" 'NR % every == 1 || every == 1'
}

# Finds a python3 that has these modules, as `numpy, erfa`, and puts it into $python; fails where there is none.
find_python() {
    for python in python3 /usr/bin/python3; do
        ! "$python" -c "import $1" 2>/dev/null || return 0
    done
    python=
    return 1
}
