"""The function of a request around its events, in doubles: nothing is proved of it."""

from __future__ import annotations

import numpy as np

from .. import spans
from ..ephemeris.files import number_of
from ..ephemeris.series import Series
from ..searches.kinds import KINDS
from .vectors import Floats, angle, disc, floats, length, longitude, wrapped

# The speed of light in km/s.
LIGHT = 299_792.458
# The seconds on each side by which the change of a direction is taken.
STEP = 60.0
# The kinds whose function is the change of a direction.
CHANGES = ("station", "sepext")
# How the radii of both discs are counted while one covers a part of the other, covers all of it, or lies within it.
SIGNS = {"any": (1, 1), "full": (1, -1), "annular": (-1, 1)}


class Curve:
    """A quantity that is above 0 after a rise and below 0 after a fall of the events of a request, and its unit.

    `asked` are the words of the request by their names, as `Windows.request_words` has them. Places are geometric, of `series`.
    """

    def __init__(self, series: Series, asked: dict[str, str]) -> None:
        self._series = series
        self._asked = asked
        self._kind = asked["kind"]
        self._values = [] if asked["values"] == "-" else [number_of(word) for word in asked["values"].split(",")]
        names = {name: asked[name].capitalize() for name in ("target", "second")}
        self.unit = KINDS[self._kind].unit.format(**names)

    def _place(self, role: str, times: Floats) -> Floats:
        """The place of the target or the second body from the observer, in km."""
        return self._series.seen(self._asked[role], self._asked["observer"], self._asked["frame"], times)

    def light(self, times: Floats) -> Floats:
        """The seconds that light takes to the observer from the farther one of the bodies, where they are at seconds
        since J2000 (TDB)."""
        observer = self._series.body(self._asked["observer"], times)
        bodies = {self._asked["target"], self._asked["second"]} - {"-"}
        ways = [length(self._series.body(body, times) - observer) / LIGHT for body in sorted(bodies)]
        return floats(np.max(ways, axis=0))

    def at(self, times: Floats) -> Floats:
        """The quantity at seconds since J2000 (TDB), in `unit`; NaN where the files have no place."""
        if self._kind == "apsis":
            return self._receding(times)
        if self._kind not in CHANGES:
            return self._plain(times)
        change = self._plain(times + STEP) - self._plain(times - STEP)
        return (wrapped(change) if self._kind == "station" else -change) * spans.DAY / (2 * STEP)

    def _receding(self, times: Floats) -> Floats:
        """How fast the target goes away from the observer, in km/s."""
        state = self._series.body(self._asked["target"], times, rates=True)
        state = state - self._series.body(self._asked["observer"], times, rates=True)
        return floats((state[:3] * state[3:]).sum(axis=0) / length(state[:3]))

    def _plain(self, times: Floats) -> Floats:
        """The quantity, or what it is the change of."""
        target = self._place("target", times)
        if self._kind == "coord":
            return floats(target["xyz".index(self._asked["axis"])] - self._values[0])
        if self._kind == "radius":
            return floats(length(target) - self._values[0])
        if self._kind == "station":
            return longitude(target)
        second = self._place("second", times)
        if self._kind in ("conj", "oppo"):
            ahead = longitude(second) - longitude(target)
            return wrapped(ahead) if self._kind == "conj" else wrapped(180 - ahead)
        return self._of_angle(target, second)

    def _of_angle(self, target: Floats, second: Floats) -> Floats:
        """The quantity of the kinds that depend on the angle between two places."""
        apart = angle(target, second)
        if self._kind == "sepext":
            return apart
        if self._kind == "sep":
            return floats(np.degrees(np.arccos(self._values[0])) - apart)
        of_target, of_second = SIGNS[self._kind]
        discs = of_target * disc(target, self._values[0]) + of_second * disc(second, self._values[1])
        return floats(discs - apart)
