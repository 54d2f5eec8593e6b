"""The almanac of 2000 that several tests look at, and programs that stand in for the command."""

import datetime
import functools
import importlib.util
import os

import finder
from finder.almanac.almanac import Machine, Wanted
from finder.almanac.almanac import almanac_of as made_of
from finder.process.program import runs_of
from finder.seen.scales import UTC
from tests.common import PROGRAM, YEAR, stand_in

CLOCK = finder.Clock()
ECLIPTIC = {"observer": "earth", "frame": "ecl"}
# What makes undecided windows of the certain ones of apsides.
UNDECIDED = f"""\
{PROGRAM} "$@" | awk '/^FIND/ {{ apsis = $2 == "apsis" }}
    apsis && ($1 == "C" || $1 == "U") {{ print "U", $2, $3; count++; next }}
    apsis && $1 == "END" {{ print "END certain 0 undecided", count + 0; next }}
    {{ print }}'
"""
# What leaves windows wide: a search of depth 4 that is said to be of depth 40.
WIDE = f"""\
for word; do
    shift
    [ "$word" != --depth=40 ] || word=--depth=4
    set -- "$@" "$word"
done
{PROGRAM} "$@" | sed 's/ depth 4 / depth 40 /'
"""


# The groups that an almanac without a place has.
CENTRE = tuple(group for group in finder.Group if group.value not in ("days", "weeks"))


def has(name):
    return importlib.util.find_spec(name) is not None


def almanac_of(year, groups=CENTRE, files=(YEAR,), program=PROGRAM, progress=None):
    """The almanac of a year of UTC."""
    span = CLOCK.start_of(year), CLOCK.start_of(year + 1)
    names = [os.fspath(file) for file in files]
    machine = Machine(names, runs_of(program, None), 1, progress)
    return made_of(machine, Wanted(f"Almanac {year}", *span, groups))


@functools.lru_cache(maxsize=None)
def almanac_of_2000():
    """The whole almanac of 2000."""
    return almanac_of(2000)


def undecided_moon(folder):
    """The Moon's part of it, whose apsides are undecided."""
    return almanac_of(2000, (finder.Group.MOON,), program=stand_in(folder, UNDECIDED))


def wide_moon(folder):
    """The Moon's part of it, whose windows are wide."""
    return almanac_of(2000, (finder.Group.MOON,), program=stand_in(folder, WIDE))


def moment(text):
    """The seconds of a time of 2000 in UTC, as `0106 1814`."""
    return CLOCK.seconds_of(datetime.datetime.strptime(f"2000{text}", "%Y%m%d %H%M"))


def utc(seconds):
    """A time as it stands in an almanac, to the minute."""
    return f"{CLOCK.minute(seconds).astimezone(UTC):%m%d %H%M}"
