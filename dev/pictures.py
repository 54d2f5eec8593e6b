#!/usr/bin/env python3
"""Makes the pictures of the documents, of JPL's year 2000 in DE405.

    dev/pictures.py FOLDER     writes timeline.png and conjunction.png into the folder (needs matplotlib)
    dev/pictures.py --data     prints what they show, and needs numpy alone

It needs numpy, and uses the package of `python/`.
"""

import argparse
import sys
from pathlib import Path

TOP = Path(__file__).resolve().parents[1]
sys.path.insert(0, str(TOP / "python"))

import finder  # noqa: E402
import finder.plot  # noqa: E402

YEAR = TOP / "examples" / "de405-2000.asc"
SEEN = {"observer": "earth", "frame": "ecl"}
RESOLUTION = 110


def rows():
    """The searches of the first picture."""
    return {
        "Mercury: stations": finder.stations(YEAR, "mercury", **SEEN),
        "Mercury and Sun: conjunctions": finder.conjunctions(YEAR, "mercury", "sun", **SEEN),
        "Jupiter: opposition": finder.oppositions(YEAR, "jupiter", **SEEN),
        "Saturn: opposition": finder.oppositions(YEAR, "saturn", **SEEN),
        "Jupiter and Saturn: conjunction": conjunction(),
        "Venus within 1° of Jupiter": finder.separation(YEAR, "venus", "jupiter", degrees=1, observer="earth"),
        "New Moon": finder.conjunctions(YEAR, "moon", "sun", **SEEN),
        "Full Moon": finder.oppositions(YEAR, "moon", **SEEN),
        "Moon: perigee and apogee": finder.apsides(YEAR, "moon", observer="earth"),
        "Earth: perihelion and aphelion": finder.apsides(YEAR, "earth", observer="sun"),
        "New Moon, with --depth 4": finder.conjunctions(YEAR, "moon", "sun", depth=4, **SEEN),
    }


def conjunction():
    """The search of the second picture."""
    return finder.conjunctions(YEAR, "jupiter", "saturn", **SEEN)


def data():
    """What both pictures show, as text."""
    lines = [
        f"{name}: {found.certain.sum()} certain, {(~found.certain).sum()} undecided" for name, found in rows().items()
    ]
    drawn = finder.plot.curve(conjunction(), YEAR, points=3)
    signs = " ".join("above" if value > 0 else "below" for value in drawn.values[[0, -1]])
    return "\n".join([*lines, f"{drawn.unit}: {signs} 0"])


def draw(folder):
    """Writes both pictures."""
    import matplotlib

    matplotlib.use("Agg")
    axes = finder.plot.timeline(rows(), title="JPL's DE405 in the year 2000: events that finder has found")
    axes.figure.savefig(folder / "timeline.png", dpi=RESOLUTION)
    axes = finder.plot.around(conjunction(), YEAR)
    axes.set_title("The great conjunction of 2000, seen from the Earth")
    axes.figure.savefig(folder / "conjunction.png", dpi=RESOLUTION)


def main() -> None:
    """Writes the pictures, or prints what they show."""
    form = argparse.RawDescriptionHelpFormatter
    asked = argparse.ArgumentParser(prog="dev/pictures.py", description=__doc__, formatter_class=form)
    asked.add_argument("--data", action="store_true", help="print what the pictures show")
    asked.add_argument("folder", metavar="FOLDER", type=Path, nargs="?", help="the folder to put the pictures in")
    options = asked.parse_args()
    if options.data == bool(options.folder) or options.folder and not options.folder.is_dir():
        asked.error("name a folder that is there, or give --data")
    if options.data:
        print(data())
    else:
        draw(options.folder)


if __name__ == "__main__":
    main()
