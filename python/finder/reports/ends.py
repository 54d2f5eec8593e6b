"""First and last ticks, as arrays and as times."""

from __future__ import annotations

from typing import Any, Literal

import numpy as np
import numpy.typing as npt

from .. import spans
from ..searches.times import J2000, J2000_DAYS

End = Literal["first", "last"]
UNITS = {1: "s", 1_000: "ms"}


def datetime64_of(ticks: npt.NDArray[np.int64], tick: int) -> npt.NDArray[np.datetime64]:
    """Ticks since J2000 (TDB) on its calendar, exactly, to the second or the millisecond."""
    unit = UNITS[tick]
    times: npt.NDArray[np.datetime64] = J2000.astype(f"datetime64[{unit}]") + ticks.astype(f"m8[{unit}]")
    return times


class Ends:
    """What has `first` and `last`: arrays of int64, ticks since J2000 (TDB) of which `tick` are in a second."""

    tick: int
    first: npt.NDArray[np.int64]
    last: npt.NDArray[np.int64]

    def datetime64(self, which: End = "last") -> npt.NDArray[np.datetime64]:
        """The first or the last ticks on the calendar of TDB, exactly, to the second or the millisecond."""
        return datetime64_of(self._ticks(which), self.tick)

    def time(self, which: End = "last") -> Any:
        """The first or the last ticks as an astropy `Time`, of scale TDB, to 10^-11 seconds."""
        from astropy.time import Time

        days, rest = np.divmod(self._ticks(which), spans.DAY * self.tick)
        made = Time(J2000_DAYS + days, rest / (spans.DAY * self.tick), format="jd", scale="tdb")
        made.format = "isot"
        return made

    def _ticks(self, which: End) -> npt.NDArray[np.int64]:
        if which not in ("first", "last"):
            raise ValueError(f"`first` or `last` is wanted, not {which!r}")
        return self.first if which == "first" else self.last

    def _texts(self, which: End) -> list[str]:
        return [spans.time_text(ticks, self.tick) for ticks in self._ticks(which).tolist()]
