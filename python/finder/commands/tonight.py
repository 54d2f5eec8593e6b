"""The command `finder tonight`: one night at a place."""

from __future__ import annotations

import argparse
import datetime
from collections.abc import Sequence
from typing import Any

from ..ephemeris.ephemeris import Ephemeris
from ..process.program import runs_of
from ..seen.scales import Clock
from ..sky.place import Place
from ..sky.sky import Sky
from .almanac import add_place_words, clock_of, date_of

DESCRIPTION = """\
Prints one night at a place: sunset, twilights and sunrise, the Moon, when each planet rises, stands highest and sets,
how high it stands in the dark, and the eclipses and occultations that are seen.

Times are those of windows that are proved to miss nothing in the text of this sky; how far the text is from what is
seen is measured."""
EXAMPLES = """\
examples:
  finder tonight examples/de405-2000.asc --place 52.52,13.40 --tz Europe/Berlin --on 2000-10-20
  finder tonight de440.bsp --place '33.86 S 151.21 E' --tz Australia/Sydney --stars

It needs erfa, and astropy for its table of UT1, or --delta-t."""


def add_words(command: argparse.ArgumentParser) -> None:
    """Adds what the command takes."""
    command.add_argument("files", nargs="+", metavar="FILE", help="JPL's text, binary file or kernel (SPK)")
    command.add_argument("--on", type=date_of, metavar="DATE", help="the day on whose evening it begins: today's")
    add_place_words(command)


def run(words: argparse.Namespace) -> str:
    """The night in lines."""
    # (these import what makes texts, and words are refused without them)
    from ..almanac.local import lit_of
    from ..almanac.texts import STARS
    from ..sky.tonight import night_span, tonight_of

    place: Place = words.place or words.refuse("a night is of a place: write --place 52.52,13.40")
    date = words.on or datetime.date.today()
    clock = clock_of(words, date.year)
    local = Clock.of(datetime.timezone(datetime.timedelta(hours=place.longitude / 15)))
    evening = local.seconds_of(datetime.datetime.combine(date, datetime.time(18)))
    day, start, end = night_span(place, evening)
    source, runs = Ephemeris.open(words.files, start, end), runs_of(words.program, None)

    def sky(bodies: Sequence[str], stars: Any = None) -> Sky:
        made = source.sky(place, start, end, delta_t=words.delta_t, bodies=["sun", "moon", *bodies], stars=stars)
        return made.run_by(runs)

    skies = [sky(["mercury", "venus", "mars", "jupiter", "saturn"])]
    if words.pluto:
        skies.append(sky(["uranus", "neptune", "pluto"]))
    if words.stars:
        skies.append(sky([], STARS))
    return tonight_of(skies, day, start, end, lit_of(skies[0], (start + end) / 2)).text(clock)
