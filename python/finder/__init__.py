"""Events in JPL ephemerides, as proved windows of time: the command `finder`, from Python.

>>> import finder
>>> found = finder.conjunctions("examples/de405-2000.asc", "jupiter", "saturn", observer="earth", frame="ecl")
>>> found[0]
Window(first=12801349, last=12801349, turn='fall')
>>> print(found.time().iso[0])
2000-05-28 15:55:49.000

A window with a turn is certain: it holds exactly one event, in that direction. One without is undecided: nothing is
known of its times. No event of the span is outside of the windows. The numbers of a window are ticks since J2000,
2000-01-01T12:00:00 TDB: seconds, or milliseconds with `tick=1000`. `docs/guide/usage.md` says what each kind means.

The searches for events are `coordinate`, `distance`, `apsides`, `conjunctions`, `oppositions`, `stations`,
`separation`, `separation_extremes`, `occultations`, and `find`, which takes a kind by its name; `over_files` runs one
of them over files in order of time, one by one. `certificate` takes what `find` takes, and `verify` checks what it
gives. `least` and `greatest` prove the extremes of a distance or a separation. `times` finds how long something lasts,
as a set of sure and of possible times; `near`, `far` and `retrograde` do so by an astronomer's words, and `a & b`,
`a | b` and `~a` are sets made of others. Each search runs the command in a process of its own, and takes

    observer, frame, dir, tick, width, depth, workers, cut     as the command's options, with its defaults; sets no dir
    start, end        times of TDB: the events after `start` and up to `end` are looked for, and the times of a set from
                      `start` to `end`
    program           the command; else $FINDER, the clone's that this package lies in, or `finder` on the path
    timeout           seconds after which the process is ended, and `TimedOut` raised

A time is a whole number of seconds since J2000, a text as `2000-05-01` or `2000-05-01T12:00:00.25`, a `datetime64`, a
`datetime` or a `date` without a zone, all of these TDB, or an astropy `Time` of any scale. Between two ticks, `start`
is rounded down and `end` up. A number is an int, a decimal text, a `Decimal`, a float (its shortest decimal), or an
astropy quantity. Each refusal is an exception with the command's status, its line, and a hint of its likely causes:
`FinderError` and those below it.

What stands beside the windows is computed of the same files in doubles, and unproved: `seen` says when each event is
seen, as almanacs print it, `values` where the bodies are then, in km and degrees, and `ApparentPlaces` and `Series` give
places at any time. `names` says what an almanac calls each event. `intervals` pairs rises and falls into the times
during which something lasts, which is proved where an interval says so.
"""

import importlib
from typing import TYPE_CHECKING, Any

from .version import read_version as _read_version

if TYPE_CHECKING:
    from . import plot as plot  # noqa: F401
    from . import spans as spans  # noqa: F401
    from .almanac.almanac import SpanNotHeld, almanac
    from .almanac.entries import Almanac, Contact, Entry, Event, Group, Numbers, Status
    from .almanac.names import names
    from .almanac.pages import Format, page
    from .ephemeris.ephemeris import Ephemeris
    from .ephemeris.fitting import FitError
    from .ephemeris.order import WrongFiles
    from .ephemeris.series import Series
    from .ephemeris.sky_text import Edge, SkyText
    from .ephemeris.sources import WrongSource
    from .ephemeris.stars import Star
    from .ephemeris.text import WrongText
    from .process.path import NoProgram
    from .process.program import (
        CertificateRefused,
        EventRefused,
        FileFault,
        FinderError,
        Interrupted,
        OutOfMemory,
        ReadFailed,
        SpanRefused,
        TimedOut,
        TooManyLeaves,
        WordsRefused,
        WriteFailed,
    )
    from .reports.calendar import WrongReport
    from .reports.certificates import Certificate, Verified, certificate, verify
    from .reports.intervals import Interval, intervals, on_at_start
    from .reports.joining import WrongParts
    from .reports.report import Summary
    from .reports.sets import Span, Spans, TimeSet, WrongSets
    from .reports.windows import Window, Windows
    from .searches.durations import far, near, retrograde, times
    from .searches.events import (
        apsides,
        conjunctions,
        coordinate,
        distance,
        occultations,
        oppositions,
        separation,
        separation_extremes,
        stations,
    )
    from .searches.extremes import Extreme, NotProved, greatest, least
    from .searches.numbers import cosine_of_degrees
    from .searches.parts import join, over_files
    from .searches.search import check, find
    from .searches.words import BarycentreWarning
    from .seen.apparent import ApparentPlaces, NoErfa
    from .seen.scales import Clock, Scale
    from .seen.seen import Seen, seen
    from .seen.values import Coordinates, Values, values
    from .sky.centre import Meeting
    from .sky.earth_rotation import EarthRotation, earth_rotation
    from .sky.eclipses import LocalEclipse
    from .sky.moments import Moment, Moments
    from .sky.nights import Night, Nights
    from .sky.occultations import Occultation
    from .sky.place import Place
    from .sky.sky import NeverReached, Sky

__version__ = _read_version()

# The module of each public name: it is imported when one of its names is first used.
_MODULES = {
    "almanac.almanac": "SpanNotHeld almanac",
    "almanac.entries": "Almanac Contact Entry Event Group Numbers Status",
    "almanac.names": "names",
    "almanac.pages": "Format page",
    "ephemeris.ephemeris": "Ephemeris",
    "ephemeris.fitting": "FitError",
    "ephemeris.order": "WrongFiles",
    "ephemeris.series": "Series",
    "ephemeris.sky_text": "Edge SkyText",
    "ephemeris.sources": "WrongSource",
    "ephemeris.stars": "Star",
    "ephemeris.text": "WrongText",
    "process.path": "NoProgram",
    "process.program": "CertificateRefused EventRefused FileFault FinderError Interrupted OutOfMemory ReadFailed "
    "SpanRefused TimedOut TooManyLeaves WordsRefused WriteFailed",
    "reports.calendar": "WrongReport",
    "reports.certificates": "Certificate Verified certificate verify",
    "reports.intervals": "Interval intervals on_at_start",
    "reports.joining": "WrongParts",
    "reports.report": "Summary",
    "reports.sets": "Span Spans TimeSet WrongSets",
    "reports.windows": "Window Windows",
    "searches.durations": "far near retrograde times",
    "searches.events": "apsides conjunctions coordinate distance occultations oppositions separation "
    "separation_extremes stations",
    "searches.extremes": "Extreme NotProved greatest least",
    "searches.numbers": "cosine_of_degrees",
    "searches.parts": "join over_files",
    "searches.search": "check find",
    "searches.words": "BarycentreWarning",
    "seen.apparent": "ApparentPlaces NoErfa",
    "seen.scales": "Clock Scale",
    "seen.seen": "Seen seen",
    "seen.values": "Coordinates Values values",
    "sky.centre": "Meeting",
    "sky.earth_rotation": "EarthRotation earth_rotation",
    "sky.eclipses": "LocalEclipse",
    "sky.moments": "Moment Moments",
    "sky.nights": "Night Nights",
    "sky.occultations": "Occultation",
    "sky.place": "Place",
    "sky.sky": "NeverReached Sky",
}
_HOMES = {name: module for module, names in _MODULES.items() for name in names.split()}

__all__ = [
    "Almanac",
    "ApparentPlaces",
    "BarycentreWarning",
    "Certificate",
    "CertificateRefused",
    "Clock",
    "Contact",
    "Coordinates",
    "EarthRotation",
    "Edge",
    "Entry",
    "Ephemeris",
    "Event",
    "EventRefused",
    "Extreme",
    "FileFault",
    "FinderError",
    "FitError",
    "Format",
    "Group",
    "Interrupted",
    "Interval",
    "LocalEclipse",
    "Meeting",
    "Moment",
    "Moments",
    "NeverReached",
    "Night",
    "Nights",
    "NoErfa",
    "NoProgram",
    "NotProved",
    "Numbers",
    "Occultation",
    "OutOfMemory",
    "Place",
    "ReadFailed",
    "Scale",
    "Seen",
    "Series",
    "Sky",
    "SkyText",
    "Span",
    "SpanNotHeld",
    "SpanRefused",
    "Spans",
    "Star",
    "Status",
    "Summary",
    "TimeSet",
    "TimedOut",
    "TooManyLeaves",
    "Values",
    "Verified",
    "Window",
    "Windows",
    "WordsRefused",
    "WriteFailed",
    "WrongFiles",
    "WrongParts",
    "WrongReport",
    "WrongSets",
    "WrongSource",
    "WrongText",
    "almanac",
    "apsides",
    "certificate",
    "check",
    "conjunctions",
    "coordinate",
    "cosine_of_degrees",
    "distance",
    "earth_rotation",
    "far",
    "find",
    "greatest",
    "intervals",
    "join",
    "least",
    "names",
    "near",
    "occultations",
    "on_at_start",
    "oppositions",
    "over_files",
    "page",
    "retrograde",
    "seen",
    "separation",
    "separation_extremes",
    "stations",
    "times",
    "values",
    "verify",
]

# (a function has the name of its package: once the package is imported, no later import hides the function by it)
for _name in ("almanac", "seen"):
    importlib.import_module(f".{_name}", __name__)
    del globals()[_name]


def __getattr__(name: str) -> Any:
    """A public name, whose module is imported when it is first used."""
    if name in ("plot", "spans"):
        return importlib.import_module(f".{name}", __name__)
    if name not in _HOMES:
        raise AttributeError(f"module {__name__!r} has no attribute {name!r}")
    value = getattr(importlib.import_module(f".{_HOMES[name]}", __name__), name)
    globals()[name] = value
    return value


def __dir__() -> list[str]:
    return sorted([*globals(), *__all__, "plot", "spans"])
