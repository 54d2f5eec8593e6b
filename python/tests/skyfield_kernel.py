"""A kernel of Skyfield with the numbers of JPL's text, by numpy's own sums of Chebyshev series, so that Skyfield and the
package read the same coefficients and share no code."""

import types

import numpy as np
from numpy.polynomial.chebyshev import chebder, chebval

DAY = 86_400
J2000 = 2_451_545.0
# The numbers by which SPICE knows what JPL's columns have, all from the barycentre, and the Moon from the Earth.
BODIES = dict(zip((1, 2, 3, 4, 5, 6, 7, 8, 9, 301, 10), range(11)))
NAMES = {"mercury": 1, "venus": 2, "mars": 4, "jupiter": 5, "saturn": 6, "uranus": 7, "neptune": 8, "pluto": 9}
NAMES.update(moon=301, sun=10, earth=399)


def columns_of(files):
    """The columns of DE405's header, the ratio of masses, and the blocks of files as rows of numbers."""
    lines = [line.replace("D", "E").split() for file in files for line in file.read_text("ascii").splitlines()]
    groups = {line[1]: place for place, line in enumerate(lines) if line[:1] == ["GROUP"]}
    table = np.array([[int(word) for word in line] for line in lines[groups["1050"] :] if len(line) == 13][:3])
    names = [word for line in lines[groups["1040"] + 1 : groups["1041"]] for word in line][1:]
    values = [word for line in lines[groups["1041"] + 1 : groups["1050"]] for word in line][1:]
    heads = [place for place, line in enumerate(lines) if len(line) == 2 and line[1] == "1018"]
    blocks = [[float(word) for line in lines[head + 1 : head + 341] for word in line][:1018] for head in heads]
    return table, float(values[names.index("EMRAT")]), np.array(blocks)


def kernel_of(*files):
    """A kernel of Skyfield with the blocks of JPL's files, which are in order of time without a gap."""
    from skyfield.jpllib import SpiceKernel, SPICESegment

    table, ratio, blocks = columns_of(files)

    def state(column, days, part):
        """Km and km a day of a column, at whole and parts of days."""
        start, count, granules = table[:, column]
        places = ((days - blocks[0, 0]) + part) / 32 * granules
        number = np.clip(np.floor(places).astype(int), 0, len(blocks) * granules - 1)
        rows = blocks[:, start - 1 : start - 1 + 3 * count * granules].reshape(-1, 3, count)[number]
        at = 2 * (places - number) - 1
        series = np.moveaxis(rows, -1, 0)
        position = chebval(at[..., None], series, tensor=False)
        rate = chebval(at[..., None], chebder(series), tensor=False) * (2 * granules / 32)
        return np.moveaxis(position, -1, 0), np.moveaxis(rate, -1, 0)

    def segment(target, center, column, factor):
        def both(days, part):
            days, part = np.broadcast_arrays(np.asarray(days, float), np.asarray(part, float))
            return tuple(factor * each for each in state(column, days, part))

        return types.SimpleNamespace(data_type=2, target=target, center=center, compute_and_differentiate=both)

    class Kernel(SpiceKernel):
        def __init__(self):
            self.path = self.filename = "JPL's text"
            made = [segment(code, 0, column, 1.0) for code, column in BODIES.items() if code != 301]
            made.append(segment(399, 3, BODIES[301], -1 / (1 + ratio)))
            made.append(segment(301, 3, BODIES[301], ratio / (1 + ratio)))
            self.segments = [SPICESegment(self, each) for each in made]
            self.codes = {0, *(each.target for each in made)}

    return Kernel()


def scale_of(rotation):
    """A timescale of Skyfield whose delta T is that of a rotation of the package."""
    from skyfield.api import load
    from skyfield.timelib import Timescale

    usual = load.timescale(builtin=True)
    return Timescale(lambda tt: rotation.delta_t((np.asarray(tt) - J2000) * DAY), usual.leap_dates, usual.leap_offsets)
