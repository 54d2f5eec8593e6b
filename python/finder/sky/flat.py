"""The Moon and the Sun laid flat on the ecliptic of date: between them angles are differences of longitude."""

from __future__ import annotations

from collections.abc import Mapping, Sequence
from typing import Any


from ..ephemeris import writing
from ..ephemeris.cache import Made, kept, key_of
from ..ephemeris.columns import columns_of
from ..ephemeris.series import Series
from ..ephemeris.sky_text import SkyText
from ..ephemeris.text import EphemerisText
from ..seen.vectors import Floats

BODIES = ("moon", "sun")


class FlatText:
    """The text of a sky on the axes of the ecliptic of date, whose Moon and Sun have no latitude.

    Its coefficients are those of the sky's text, without the ones of the third axis: so the Moon is 90 degrees from the
    Sun in it where their longitudes differ by 90 degrees, which is how quarters are defined.
    """

    def __init__(self, sky: SkyText, cache: bool = True) -> None:
        if sky.axes != "ecliptic" or sky.place is not None:
            raise ValueError("the flat text is of the Earth's centre, on the axes of the ecliptic of date")
        self._kept = kept(key_of(["flat", sky.sha256]), lambda: _made(sky), cache)

    @property
    def files(self) -> Sequence[str]:
        """The files of the text."""
        return self._kept.files

    @property
    def names(self) -> Mapping[str, str]:
        """The columns of the names."""
        return {**{body: body for body in BODIES}, "earth": "earth"}

    def places(self, body: str, seconds: Any) -> Floats:
        """The places of a body at seconds since J2000 (TDB): three rows in km."""
        return Series(self.files).seen(body, "earth", "eq", seconds)


def _made(sky: SkyText) -> Made:
    """The bytes of the text, and what is known of it."""
    series = Series(sky)
    columns = {}
    for body in BODIES:
        coefficients = series.coefficients(sky.names[body]).copy()
        coefficients[:, 2, :] = 0.0
        columns[body] = coefficients, series.granules(sky.names[body])
    block = round(series.block)
    count = round((series.end - series.start) / block)
    title = f"The Moon and the Sun on the ecliptic of date without latitude, of the sky with SHA-256 {sky.sha256}."
    text = EphemerisText(round(series.start), block, count, columns_of(columns), titles=(title, *sky.titles))
    about = {
        "name": "flat",
        "start": text.start,
        "end": text.end,
        "asked": list(sky.requested_span),
        "names": {body: body for body in BODIES},
        "errors": {},
        "titles": list(text.titles),
    }
    return Made(writing.files(text), about, text)
