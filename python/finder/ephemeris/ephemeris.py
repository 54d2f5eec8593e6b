"""`Ephemeris`: what a search reads, of whatever source it is made."""

from __future__ import annotations

import math
import os
from collections.abc import Callable, Iterable, Mapping
from pathlib import Path
from typing import TYPE_CHECKING, Any, Optional, Union

from ..public import public, renamed
from ..searches.times import Time, ticks_of_time
from ..seen.vectors import Floats
from ..sky.place import PlaceLike
from .cache import Kept
from .fitting import FitError
from .named import words_of_request

if TYPE_CHECKING:
    from ..sky.sky import Sky
    from .motions import Motion
    from .spk_text import Bodies

Source = Union[str, os.PathLike[str], Iterable[Union[str, os.PathLike[str]]]]


@public
class Ephemeris:
    """A text that is searched: JPL's files as they are, or the blocks of a span of any source that `open` reads,
    motions that `fit` fits, or the sky of a place.

    Every search takes it in place of files, and takes and gives the names of `names`.

    >>> eph = Ephemeris.open("examples/de405-2000.asc", "2000-05-01", "2000-06-01")
    >>> eph
    <Ephemeris of 2000-04-30T00:00:00 to 2000-07-03T00:00:00 (TDB): mercury, venus, .., sun, earth, ssb>
    """

    def __init__(self, kept: Kept, span: Optional[tuple[Optional[float], Optional[float]]] = None) -> None:
        self._kept = kept
        # (one text may be that of several spans)
        self._requested_span = span or tuple(kept.about["asked"])

    @classmethod
    def open(
        cls,
        source: Source,
        start: Optional[Time] = None,
        end: Optional[Time] = None,
        *,
        bodies: Bodies = None,
        cache: bool = True,
    ) -> Ephemeris:
        """The ephemeris of a source, clipped to the blocks of the span from `start` to `end`, times of TDB of any usual
        form, with a day around them. A search that names no span is of this one.

        A source is a file, a folder, a pattern, or several of these in any order: JPL's ASCII or binary files of DE, or
        SPK kernels, each of them compressed by gzip, bzip2 or xz or not. The first bytes of a file say what it is.
        Files that the program reads as they are are not copied. Of kernels `bodies` are names, or NAIF's numbers, or
        both in a dictionary; without it they are those of the columns of DE. Without `cache` the text is removed with
        the object.

        A `ValueError` names the body or the file, the span that there is, and what to do; an `ImportError` the package
        that is missing, as jplephem for kernels.

        >>> eph = Ephemeris.open(["examples/de405-2000.asc"], "2000-05-01", "2000-06-01")
        >>> eph.start, eph.end, eph.requested_span
        (10324800, 15854400, (10411200.0, 13089600.0))
        """
        from .open import opened

        span = seconds_of_time(start), seconds_of_time(end)
        return cls(opened(source, *span, bodies, cache), span)

    @classmethod
    def fit(
        cls,
        functions: Mapping[str, Motion],
        start: Time,
        end: Time,
        *,
        tolerance: Union[None, float, Mapping[str, float]] = None,
        cache: bool = True,
    ) -> Ephemeris:
        """The ephemeris of up to eleven motions, fitted by Chebyshev series over the span from `start` to `end`.

        Each is a function of seconds of TDB since J2000: an array of n in, kilometres out, 3 by n; or n numbers, a
        scalar, which stands on the axis x, so that `coordinate` searches it. Or it is a vector function of Skyfield, a
        `Satrec` of sgp4 (from the Earth's centre, on the axes of the GCRS), a `Star`, a `SkyCoord` of astropy or a
        `Star` of Skyfield (a direction from the barycentre, at 10^9 km), or a table: seconds, kilometres and perhaps
        km/s, 3 by n.

        `tolerance` is in km, one or by name: a millimetre without it, and of directions a microarcsecond. A fit that
        misses it is refused by body and time. Searches look from the origin of the functions.

        >>> import numpy as np
        >>> def probe(seconds):
        ...     turn = 2 * np.pi * np.mod(seconds, 864_000) / 864_000
        ...     return 1e6 * np.array([np.cos(turn), np.sin(turn), 0 * turn])
        >>> eph = Ephemeris.fit({"probe": probe}, "2000-01-01", "2000-02-01")
        >>> eph.names["probe"], eph.errors["probe"].largest_km < 1e-6
        ('pluto', True)
        """
        from .fit import fit

        first, last = seconds_of_time(start), seconds_of_time(end)
        if first is None or last is None:
            raise ValueError("a fit has a start and an end: name both")
        return cls(fit(functions, first, last, tolerance, cache))

    def sky(
        self,
        place: Optional[PlaceLike] = None,
        start: Optional[Time] = None,
        end: Optional[Time] = None,
        *,
        light_time: bool = True,
        bending: bool = True,
        aberration: bool = True,
        axes: str = "equator",
        delta_t: Any = None,
        bodies: Optional[Iterable[str]] = None,
        stars: Optional[Mapping[str, Any]] = None,
        cache: bool = True,
    ) -> Sky:
        """The sky as it is seen from the Earth's centre, or from a place on the Earth, from `start` to `end`: apparent
        places, with the light's time, its bending by the Sun and aberration, of which each can be left out.

        `axes` are those of the true `equator` or `ecliptic` of date, or those of `j2000`, the source's. The observer is
        the origin, so that `observer="earth"`, the default, is the place. Ten bodies are seen at most: `bodies` names
        them, and `stars` has a `Star`, a `SkyCoord`, a `Star` of Skyfield or a pair of degrees by name. A place has
        `zenith` and `nadir` too. UT1 is by the table of the IERS, or `delta_t`, seconds of TT less UT1.

        >>> eph = Ephemeris.open("examples/de405-2000.asc")
        >>> sky = eph.sky("52.52 N 13.40 E", "2000-06-01", "2000-06-03", delta_t=64)
        >>> sorted(sky.names)[:4], sky.errors["zenith"].largest_arcseconds < 1e-6
        (['earth', 'jupiter', 'mars', 'mercury'], True)
        """
        from ..sky.sky import Sky
        from .apparent_places import Model

        model = Model(light_time, bending, aberration, axes)
        return Sky.of(self, place, start, end, model, delta_t=delta_t, bodies=bodies, stars=stars, cache=cache)

    def motion(self, body: str, observer: str = "ssb") -> Callable[[Any], Floats]:
        """The places of a body from another in km, 3 by n, as a function of seconds of TDB since J2000: a motion that
        `fit` takes beside others. It is in doubles, and NaN outside of the text.

        >>> moon = Ephemeris.open("examples/de405-2000.asc").motion("moon", "earth")
        >>> (moon([0.0]) ** 2).sum() ** 0.5 // 1
        402448.0
        """
        from .series import Series

        series, words = Series(self), words_of_request(self, {"target": body, "observer": observer})

        def places(seconds: Any) -> Floats:
            return series.body(words["target"], seconds) - series.body(words["observer"], seconds)

        return places

    @property
    def files(self) -> tuple[str, ...]:
        """The names of the text's files, in the order in which the program reads them."""
        return self._kept.files

    @property
    def origin(self) -> Optional[str]:
        """The body from which a search looks if it names no observer: None is the barycentre of the solar system."""
        origin: Optional[str] = self._kept.about.get("origin")
        return origin

    @property
    def frames(self) -> tuple[str, ...]:
        """The frames in which a search may ask for longitudes: of a text on axes of date only its own, `eq`."""
        return tuple(self._kept.about.get("frames", ("eq", "ecl")))

    @property
    def is_apparent(self) -> bool:
        """Whether places are as they are seen: those of a sky are."""
        return "sky" in self._kept.about

    @property
    def start(self) -> int:
        """The start of the first block, in seconds of TDB since J2000."""
        return int(self._kept.about["start"])

    @property
    def end(self) -> int:
        """The end of the last block, in seconds of TDB since J2000."""
        return int(self._kept.about["end"])

    @property
    def requested_span(self) -> tuple[Optional[float], Optional[float]]:
        """The span that was asked for, in seconds of TDB since J2000: None if it is that of the source."""
        start, end = self._requested_span
        return start, end

    asked = renamed("asked", "requested_span")

    @property
    def names(self) -> dict[str, str]:
        """The names that a search takes, and what the program calls each: columns of the text, `earth` and `ssb`."""
        return dict(self._kept.about["names"])

    @property
    def errors(self) -> dict[str, FitError]:
        """How far the series of each body that was fitted is from its motion; a body whose coefficients were copied is
        not among them."""
        return {name: FitError(**error) for name, error in self._kept.about["errors"].items()}

    @property
    def titles(self) -> tuple[str, ...]:
        """What the header says of the text: its sources with their SHA-256, models, errors."""
        return tuple(self._kept.about["titles"])

    @property
    def sha256(self) -> str:
        """The SHA-256 of the bytes of `files`, one after the other."""
        return str(self._kept.about["sha256"])

    @property
    def text(self) -> str:
        """The text: the bytes of `files`, one after the other."""
        return "".join(Path(name).read_text("ascii") for name in self.files)

    def write(self, folder: Union[str, os.PathLike[str]]) -> tuple[str, ...]:
        """Writes the text to a folder, which is made if it is missing, for the command line: the names of its files, in
        the order in which `finder find` takes them.

        A file that has other bytes is not written over: `FileExistsError`. Each is written whole, or not at all.

        >>> import tempfile
        >>> with tempfile.TemporaryDirectory() as folder:
        ...     names = Ephemeris.open("examples/de405-2000.asc", "2000-05-01", "2000-06-01").write(folder)
        >>> [os.path.basename(name) for name in names]
        ['ephemeris.asc']
        """
        from .cache import write_text

        path = Path(folder)
        path.mkdir(parents=True, exist_ok=True)
        return tuple(write_text(path / os.path.basename(name), name) for name in self.files)

    def __repr__(self) -> str:
        from .text import span_text

        names = list(self.names)
        shown = names if len(names) < 8 else [*names[:2], "..", *names[-3:]]
        return f"<{type(self).__name__} of {span_text(self.start, self.end)}: {', '.join(shown)}>"


def seconds_of_time(time: Optional[Time]) -> Optional[float]:
    """A time of any usual form in seconds of TDB since J2000, to the millisecond."""
    if time is None:
        return None
    if isinstance(time, float):
        if not math.isfinite(time):
            raise ValueError(f"no time: {time!r}")
        return time
    return ticks_of_time(time, 1_000, up=False) / 1_000
