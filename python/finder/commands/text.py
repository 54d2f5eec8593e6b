"""The command `finder text`: a source of any form as text files for the program."""

from __future__ import annotations

import argparse
from typing import Optional

from ..ephemeris.ephemeris import Ephemeris

DESCRIPTION = """\
Writes a source as text files that `finder find` reads, and prints their names, in the order in which it takes them.

A source is JPL's ASCII or binary files of DE in any order, or SPK kernels, each of them compressed or not, a folder or
a pattern in quotes. With --place or --centre it is the sky that is seen there: apparent places on axes of date. The
header of the text says what it was made of, what each column holds, and how far it is from the motion."""
EXAMPLES = """\
examples:
  finder text de440.bsp --from 2031-01-01 --to 2032-01-01 --out texts
  finder text 'ascp*.405' header.405 --place '52.52 N 13.40 E' --from 2031-01-01 --to 2032-01-01 --out texts
  finder find --kind conj --target moon --second sun --observer earth $(finder text de440.bsp --out texts)

Kernels need jplephem (Debian: python3-jplephem), a sky needs erfa and astropy."""
AXES = ("equator", "ecliptic", "j2000")


def add_words(command: argparse.ArgumentParser) -> None:
    """Adds what the command takes: sources and options."""
    command.add_argument("sources", nargs="+", metavar="SOURCE", help="a file, a folder or a pattern")
    command.add_argument("--out", required=True, metavar="FOLDER", help="where the texts are written")
    command.add_argument("--from", dest="start", metavar="TIME", help="the start of the span, TDB: all without it")
    command.add_argument("--to", dest="end", metavar="TIME", help="the end of the span, TDB")
    command.add_argument("--bodies", metavar="BODY,..", help="of kernels: names, or NAIF's numbers; of a sky: names")
    where = command.add_mutually_exclusive_group()
    where.add_argument("--place", metavar="PLACE", help="the sky of a place, as '52.52 N 13.40 E 34 m' or 52.52,13.40")
    where.add_argument("--centre", action="store_true", help="the sky from the Earth's centre")
    command.add_argument("--axes", choices=AXES, help="of a sky: equator of date without it")
    command.add_argument("--delta-t", type=float, metavar="SECONDS", help="of a place: TT less UT1; else by the IERS")
    command.add_argument("--no-cache", action="store_true", help="keep nothing in the cache")


def run(words: argparse.Namespace) -> str:
    """The names of the text files, each on a line."""
    is_sky = bool(words.place or words.centre)
    if (words.axes or words.delta_t is not None) and not is_sky:
        words.refuse("--axes and --delta-t are of a sky: name --place or --centre")
    bodies = (
        None if words.bodies is None else [int(each) if each.isdigit() else each for each in words.bodies.split(",")]
    )
    cache = not words.no_cache
    if not is_sky:
        eph = Ephemeris.open(words.sources, words.start, words.end, bodies=bodies, cache=cache)
    else:
        source = Ephemeris.open(words.sources, words.start, words.end, cache=cache)
        axes, place = words.axes or "equator", _place(words.place)
        eph = source.sky(place, axes=axes, delta_t=words.delta_t, bodies=_names(bodies), cache=cache)
    return "".join(f"{name}\n" for name in eph.write(words.out))


def _place(text: Optional[str]) -> object:
    """A place as it is written on a command line: a text, or numbers with commas."""
    return tuple(float(each) for each in text.split(",")) if text and "," in text else text


def _names(bodies: Optional[list[object]]) -> Optional[list[str]]:
    return None if bodies is None else [str(each) for each in bodies]
