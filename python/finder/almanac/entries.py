"""What an almanac holds: entries in order of time, and the certified windows that each rests on.

Times are seconds of TDB since J2000, 2000-01-01T12:00:00 TDB.
"""

from __future__ import annotations

from collections.abc import Iterator, Mapping
from dataclasses import dataclass, field
from enum import Enum
from typing import Any, Optional

from ..public import public
from ..reports.calendar import DAY
from ..reports.windows import Window
from ..seen.vectors import Floats
from ..sky.moments import Moments
from ..sky.place import Place
from ..sky.refraction import HORIZON

# The modified Julian date of J2000.
DAYS_TO_J2000 = 51_544.5

# The planets of an almanac, in order from the Sun; from Jupiter on they are the barycentres of their systems.
PLANETS = ("mercury", "venus", "mars", "jupiter", "saturn", "uranus", "neptune")


@public
class Group(Enum):
    """The groups of entries, by the names that `--only` takes.

    >>> import finder
    >>> [group.value for group in finder.Group][:3]
    ['moon', 'seasons', 'eclipses']
    """

    MOON = "moon"
    SEASONS = "seasons"
    ECLIPSES = "eclipses"
    PLANETS = "planets"
    MEETINGS = "meetings"
    MOON_MEETINGS = "moon-meetings"
    DAYS = "days"
    WEEKS = "weeks"

    @property
    def title(self) -> str:
        """What a page calls the group."""
        return GROUP_TITLES[self]


GROUP_TITLES = {
    Group.MOON: "The Moon",
    Group.SEASONS: "Earth and Sun",
    Group.ECLIPSES: "Eclipses and transits",
    Group.PLANETS: "Planets",
    Group.MEETINGS: "Planets that meet",
    Group.MOON_MEETINGS: "The Moon and planets",
    Group.DAYS: "Sun and Moon by day",
    Group.WEEKS: "Planets by week",
}


@public
class Event(Enum):
    """What happens. The names up to that of the elongation are those that `finder.names` gives.

    >>> import finder
    >>> finder.Event.FULL_MOON.value
    'full moon'
    """

    NEW_MOON = "new moon"
    FIRST_QUARTER = "first quarter"
    FULL_MOON = "full moon"
    LAST_QUARTER = "last quarter"
    PERIGEE = "perigee"
    APOGEE = "apogee"
    ASCENDING_NODE = "ascending node"
    DESCENDING_NODE = "descending node"
    MARCH_EQUINOX = "March equinox"
    JUNE_SOLSTICE = "June solstice"
    SEPTEMBER_EQUINOX = "September equinox"
    DECEMBER_SOLSTICE = "December solstice"
    PERIHELION = "perihelion"
    APHELION = "aphelion"
    CONJUNCTION = "conjunction"
    INFERIOR_CONJUNCTION = "inferior conjunction"
    SUPERIOR_CONJUNCTION = "superior conjunction"
    OPPOSITION = "opposition"
    TURNS_DIRECT = "station, turns direct"
    TURNS_RETROGRADE = "station, turns retrograde"
    GREATEST_ELONGATION = "greatest elongation"
    MEETING = "meeting"
    OCCULTATION = "occultation"
    SOLAR_ECLIPSE = "solar eclipse"
    LUNAR_ECLIPSE = "lunar eclipse"
    TRANSIT = "transit"
    UNDECIDED = "undecided"


class Side(Enum):
    """On which side of the Sun a body is seen: east is the evening's."""

    EAST = "east"
    WEST = "west"

    @property
    def sky(self) -> str:
        """When it is seen."""
        return "evening sky" if self is Side.EAST else "morning sky"


class Way(Enum):
    """Where the second body passes the first one."""

    NORTH = "north"
    SOUTH = "south"


class EclipseKind(Enum):
    """The kinds of eclipses of the Sun and of the Moon."""

    PENUMBRAL = "penumbral"
    PARTIAL = "partial"
    TOTAL = "total"
    ANNULAR = "annular"
    HYBRID = "hybrid"


@public
class Status(Enum):
    """How far a moment is proved: its window is certain, or undecided, or it is computed in doubles and has none.

    >>> import finder
    >>> [status.value for status in finder.Status]
    ['certified', 'undecided', 'computed']
    """

    CERTIFIED = "certified"
    UNDECIDED = "undecided"
    COMPUTED = "computed"


@public
@dataclass(frozen=True)
class Numbers:
    """What is said of an event, in doubles; None where it is not said. The unit ends the name: km, au, degrees (`deg`),
    arc seconds, radii of the Earth. Magnitudes and `gamma` are as almanacs have them: parts of a diameter, and the
    distance of the shadow's axis from the Earth's centre in its radii, below 0 to the south.

    >>> import finder
    >>> finder.Numbers(distance_km=384_400.0).distance_km
    384400.0
    """

    distance_km: Optional[float] = None
    distance_au: Optional[float] = None
    elongation_deg: Optional[float] = None
    side: Optional[Side] = None
    separation_deg: Optional[float] = None
    second_is: Optional[Way] = None
    kind: Optional[EclipseKind] = None
    magnitude: Optional[float] = None
    penumbral_magnitude: Optional[float] = None
    gamma: Optional[float] = None
    umbra_radii: Optional[float] = None
    least_angle_arcsec: Optional[float] = None
    obscuration: Optional[float] = None
    altitude_deg: Optional[float] = None
    sun_altitude_deg: Optional[float] = None


@public
@dataclass(frozen=True)
class Contact:
    """A moment of an event: its window, whose search `request` is, and its time in `seconds`, which is the window's
    own.

    `text` says what is searched: of what is seen, or of where bodies are. The window is None for what no search is made
    for, as the greatest of a solar eclipse, whose time is computed in doubles. At a place `altitude` and `azimuth` in
    degrees say where the body is then, without refraction, and `is_up` whether it is above the horizon.

    >>> import finder
    >>> year = "examples/de405-2000.asc"
    >>> entry = finder.almanac(year, "2000-03-01", "2000-04-01", groups="seasons").entries[0]
    >>> entry.contacts[0].window.text()
    '2000-03-20T07:36:19'
    """

    name: str
    window: Optional[Window]
    request: str
    seconds: float
    text: str = ""
    altitude: Optional[float] = None
    azimuth: Optional[float] = None

    @property
    def is_up(self) -> Optional[bool]:
        """Whether the body is above the horizon of the place, lifted by 34' of refraction; None for the Earth's
        centre."""
        return None if self.altitude is None else self.altitude > -HORIZON

    @property
    def status(self) -> Status:
        """Whether its window is certain."""
        if self.window is None:
            return Status.COMPUTED
        return Status.UNDECIDED if self.window.turn is None else Status.CERTIFIED


@public
@dataclass(frozen=True)
class Entry:
    """A line of an almanac: `seconds` is its time as it is seen, and `contacts` are the moments that it rests on, of
    one window mostly, of several for an eclipse. `text` says the numbers as a line does.

    >>> import finder
    >>> year = "examples/de405-2000.asc"
    >>> entry = finder.almanac(year, "2000-03-01", "2000-04-01", groups="seasons").entries[0]
    >>> entry.name, entry.event, entry.status
    ('March equinox', <Event.MARCH_EQUINOX: 'March equinox'>, <Status.CERTIFIED: 'certified'>)
    """

    group: Group
    event: Event
    name: str
    bodies: tuple[str, ...]
    seconds: float
    contacts: tuple[Contact, ...]
    numbers: Numbers = Numbers()
    text: str = ""

    @property
    def status(self) -> Status:
        """The worst of its contacts: undecided where one is, certified where one is that and none is undecided."""
        have = {contact.status for contact in self.contacts}
        return next(each for each in (Status.UNDECIDED, Status.CERTIFIED, Status.COMPUTED) if each in have)


@dataclass(frozen=True)
class Curves:
    """What a drawing shows at `times`, in doubles: the Moon's distance in km, and for each planet its ecliptic
    longitude less the Sun's in degrees, from -180 to 180, above 0 in the evening sky; and which planets move backward
    at first."""

    times: Floats
    moon_km: Floats
    from_sun_deg: dict[str, Floats]
    retrograde_at_start: tuple[str, ...]


@dataclass(frozen=True)
class LocalYear:
    """What a place sees in the span of an almanac, by its `sky`: the moments of the Sun (`sun`), of the Moon (`moon`)
    and of each planet, sentences of what does not rise or set (`said`), what UT1 stands on (`rotation`), and by day
    the part of the Moon's disc that is lit (`lit`, from 0 to 1, at `lit_times`)."""

    place: Place
    rotation: str
    sun: Moments
    moon: Moments
    planets: Mapping[str, Moments]
    said: tuple[str, ...]
    lit_times: Floats
    lit: Floats
    searches: int
    skies: tuple[Any, ...] = field(repr=False, compare=False, default=())


@public
@dataclass(frozen=True)
class Almanac:
    """The entries of a span in order of time, from `start` and before `end`, and what they come from: the `groups` that
    were looked for, by so many `searches` of the `files`, from `first_searched` to `last_searched`.

    An undecided window has an entry, which says so. None is left out. Of a place it has the `place`, its days and
    weeks, and what UT1 stands on.

    >>> import finder
    >>> year = "examples/de405-2000.asc"
    >>> finder.almanac(year, "2000-03-01", "2000-04-01", groups="seasons")
    <'Almanac': 1 entries of 3 searches>
    """

    title: str
    start: float
    end: float
    entries: tuple[Entry, ...]
    groups: tuple[Group, ...]
    searches: int
    files: tuple[str, ...]
    first_searched: int
    last_searched: int
    curves: Curves = field(compare=False)
    local: Optional[LocalYear] = field(compare=False, default=None)
    bodies: tuple[str, ...] = PLANETS

    def __repr__(self) -> str:
        return f"<{self.title!r}: {len(self.entries)} entries of {self.searches} searches>"

    def __len__(self) -> int:
        return len(self.entries)

    def __iter__(self) -> Iterator[Entry]:
        return iter(self.entries)

    def time(self) -> Any:
        """The times of the entries as they are seen, as an astropy `Time` of scale TDB."""
        from astropy.time import Time

        return Time([DAYS_TO_J2000 + entry.seconds / DAY for entry in self.entries], format="mjd", scale="tdb")

    def to_pandas(self) -> Any:
        """A `DataFrame` of pandas with a row for each moment of each entry: `group`, `event`, `name`, `contact`, `status`,
        `turn` (None where it is undecided), `certain`, `first` and `last` of its window (TDB; NaT without one), and
        `seen_s`, its time in seconds since J2000 (TDB), with `seen_utc` from 1972 on.

        >>> import finder
        >>> year = "examples/de405-2000.asc"
        >>> rows = finder.almanac(year, "2000-03-01", "2000-04-01", groups="seasons").to_pandas()
        >>> print(rows[["name", "certain", "last", "seen_utc"]].to_string(index=False))
                 name  certain                last                seen_utc
        March equinox     True 2000-03-20 07:36:19 2000-03-20 07:35:14.330
        """
        from .table import frame_of_entries

        return frame_of_entries(self.entries)

    def of(self, *events: Event) -> list[Entry]:
        """The entries of some events, in order."""
        return [entry for entry in self.entries if entry.event in events]
