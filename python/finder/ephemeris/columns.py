"""Which column of a text each name has, and the columns of the Earth and the Moon."""

from __future__ import annotations

from collections.abc import Iterable, Mapping

import numpy as np

from ..seen.vectors import Floats
from .text import COLUMNS, Column, WrongText

# The columns that are places from the origin as they are, in the order in which other names take them; the Moon's
# column is the last, as the Earth stands in it too.
FREE = ("pluto", "neptune", "uranus", "saturn", "jupiter", "mars", "venus", "mercury", "sun", "moon")
MASS_RATIO = 81.30056


def words_of(names: Iterable[str]) -> dict[str, str]:
    """The word of the program for each name: its own where it is one of a column, else one that is free."""
    asked = list(names)
    own = [name for name in asked if name in FREE]
    free = [word for word in FREE if word not in own]
    if len(asked) > len(FREE):
        raise WrongText(f"a text with its origin at the observer has at most {len(FREE)} bodies: name fewer")
    return {name: name if name in FREE else free.pop(0) for name in asked}


def columns_of(series: Mapping[str, tuple[Floats, int]]) -> dict[str, Column]:
    """The columns of series by word, each with the granules in a block, by which the Earth is the origin: the column of
    the barycentre of Earth and Moon is the part of the Moon's that is subtracted from it."""
    blocks = max(len(each) // granules for each, granules in series.values())
    columns = {word: Column(each, granules) for word, (each, granules) in series.items()}
    moon = columns.setdefault("moon", Column(np.zeros((blocks, 3, 1)), 1))
    columns["emb"] = Column(moon.coefficients / (1 + MASS_RATIO), moon.granules)
    return {word: columns[word] for word in COLUMNS if word in columns}
