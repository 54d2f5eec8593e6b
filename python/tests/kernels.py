"""SPK kernels and binary DE files of JPL's year, made by numpy for tests, as NAIF and JPL describe them: SPK Required
Reading (types 2, 3 and 9), DAF Required Reading, and JPL's `asc2eph.f`."""

import re
from dataclasses import dataclass

import numpy as np

from tests.common import YEAR

DAY = 86_400.0
J2000_DATE = 2_451_545.0
# The columns in their order, and NAIF's numbers of body and centre.
BODIES = "mercury venus emb mars jupiter saturn uranus neptune pluto moon sun".split()
PAIRS = dict(zip(BODIES, [(1, 0), (2, 0), (3, 0), (4, 0), (5, 0), (6, 0), (7, 0), (8, 0), (9, 0), (301, 399), (10, 0)]))
TEST_STRING = b"FTPSTR:\r:\n:\r\n:\r\x00:\x81:\x10\xce:ENDFTP"


def table_of_text(path=YEAR):
    """The three rows of a text's columns, EMRAT, and its blocks as rows of numbers."""
    text = path.read_text("ascii").replace("D", "E")
    words = text.split()
    places = {words[at + 1]: at + 2 for at, word in enumerate(words) if word == "GROUP"}
    first = places["1050"]
    table = np.array(words[first : first + 39], int).reshape(3, 13)
    count = int(words[3])
    names = words[places["1040"] + 1 : places["1040"] + 1 + int(words[places["1040"]])]
    ratio = float(words[places["1041"] + 1 + names.index("EMRAT")].replace("E", "E")) if "EMRAT" in names else None
    body = text[re.search(r"GROUP +1070\s*\n", text).end() :].split()
    size = 2 + -(-count // 3) * 3
    blocks = np.array(body, float).reshape(-1, size)[:, 2 : 2 + count]
    return table, ratio, blocks


def series_of_text(path=YEAR):
    """The Chebyshev coefficients of each column of a text, by granule, component and degree; the seconds at which the
    first block begins, the length of its granules, and EMRAT."""
    table, ratio, blocks = table_of_text(path)
    length = (blocks[0, 1] - blocks[0, 0]) * DAY
    start = (blocks[0, 0] - J2000_DATE) * DAY
    made = {}
    for name, (place, count, granules) in zip(BODIES, table.T):
        numbers = blocks[:, place - 1 : place - 1 + 3 * count * granules]
        made[name] = numbers.reshape(-1, 3, count), length / granules
    return made, start, ratio


@dataclass
class Segment:
    """A segment of a kernel: its body and centre, its type, and its numbers as they stand there."""

    target: int
    center: int
    kind: int
    start: float
    end: float
    numbers: np.ndarray
    frame: int = 1


def chebyshev_segment(target, center, series, start, length, kind=2):
    """A segment of type 2 or 3 of series by record, component and degree; of type 3 with rates of zero."""
    count = len(series)
    middle = start + length * (np.arange(count) + 0.5)
    rows = [middle[:, None], np.full((count, 1), length / 2), series.reshape(count, -1)]
    if kind == 3:
        rows.append(np.zeros((count, series[0].size)))
    records = np.concatenate(rows, axis=1)
    numbers = np.concatenate([records.ravel(), [start, length, records.shape[1], count]])
    return Segment(target, center, kind, start, start + length * count, numbers)


def state_segment(target, center, states, times):
    """A segment of type 9 and degree 1: states at times, straight between them."""
    numbers = np.concatenate([states.ravel(), times, times[100:-1:100], [1, len(times)]])
    return Segment(target, center, 9, times[0], times[-1], numbers)


def write_spk(path, segments, order="<"):
    """Writes segments as an SPK kernel."""
    summaries, names, data = b"", b"", b""
    free = 4 * 128 + 1
    for segment in segments:
        numbers = np.asarray(segment.numbers, f"{order}f8")
        ends = np.array([segment.start, segment.end], f"{order}f8").tobytes()
        words = [segment.target, segment.center, segment.frame, segment.kind, free, free + len(numbers) - 1]
        summaries += ends + np.array(words, f"{order}i4").tobytes()
        names += b"MADE FOR A TEST".ljust(40)
        data += numbers.tobytes()
        free += len(numbers)
    control = np.array([0, 0, len(segments)], f"{order}f8").tobytes()
    head = b"DAF/SPK " + np.array([2, 6], f"{order}i4").tobytes() + b"made for a test".ljust(60)
    head += np.array([2 + 1, 2 + 1, free], f"{order}i4").tobytes() + (b"LTL-IEEE" if order == "<" else b"BIG-IEEE")
    head = head.ljust(699, b"\0") + TEST_STRING
    records = [head.ljust(1024, b"\0"), b"\4".ljust(1024, b"\0"), (control + summaries).ljust(1024, b"\0")]
    path.write_bytes(b"".join([*records, names.ljust(1024), data]))
    return path


def write_year(path, order="<", kind=2):
    """Writes JPL's year as a kernel, as JPL's own are: Earth and Moon from their barycentre, and Mercury from its own.

    The Earth's numbers are rounded to as many bits as leave the Moon's less the Earth's the column of the text, bit for
    bit: JPL's kernels have no such rounding, and EMRAT as the ratio of both to as many digits as that leaves.
    """
    series, start, ratio = series_of_text()
    made = []
    for name, (coefficients, length) in series.items():
        if name == "moon":
            unit = np.spacing(np.abs(coefficients))
            earth = -np.round(coefficients / (1 + ratio) / unit) * unit
            made.append(chebyshev_segment(399, 3, earth, start, length, kind))
            made.append(chebyshev_segment(301, 3, coefficients + earth, start, length, kind))
        else:
            made.append(chebyshev_segment(*PAIRS[name], coefficients, start, length, kind))
    made.append(chebyshev_segment(199, 1, np.zeros((1, 3, 2)), start, 384 * DAY, kind))
    return write_spk(path, made, order)


def swapped(data):
    """A little-endian binary DE file in the other byte order: its letters are as they were."""
    made = bytearray(data)
    size = 8 * 1018

    def swap(at, kind, count):
        numbers = np.frombuffer(data, f"<{kind}", count, at)
        made[at : at + numbers.nbytes] = numbers.astype(f">{kind}").tobytes()

    for at, kind, count in [(2652, "f8", 3), (2676, "i4", 1), (2680, "f8", 2), (2696, "i4", 40)]:
        swap(at, kind, count)
    swap(size, "f8", (len(data) - size) // 8)
    return bytes(made)
