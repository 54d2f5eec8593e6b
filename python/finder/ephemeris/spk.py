"""SPK kernels, read by jplephem, or by SpiceyPy for the types that jplephem does not know: which segments lead from a
body to the barycentre of the solar system, and places by them."""

from __future__ import annotations

import io
import itertools
from collections.abc import Iterable
from dataclasses import dataclass, field
from typing import Any, Optional

import numpy as np

from ..reports.calendar import DAY
from ..seen.vectors import Floats, floats
from .order import J2000_DATE
from .series import OBLIQUITY
from .sources import SourceFile, WrongSource
from .text import span_text

# NAIF's numbers: of a body that has several, the first that leads to the barycentre is taken.
IDS = {
    "mercury": (199, 1),
    "venus": (299, 2),
    "earth": (399,),
    "moon": (301,),
    "emb": (3,),
    "mars": (4, 499),
    "jupiter": (5, 599),
    "saturn": (6, 699),
    "uranus": (7, 799),
    "neptune": (8, 899),
    "pluto": (9, 999),
    "sun": (10,),
}
BARYCENTRE = 0
COPIED_TYPES = (2, 3)
# The frames whose axes are known here: those of J2000, and the ecliptic of J2000.
EQUATOR, ECLIPTIC = 1, 17
# At so many times two files are compared that have one body, and so near they are of one series, in km.
COMPARED, SAME = 8, 1e-3


@dataclass(frozen=True)
class Piece:
    """A span of a leg in which one segment counts, in seconds since J2000 (TDB)."""

    segment: Any
    start: float
    end: float


@dataclass(frozen=True)
class Leg:
    """The way from a centre to a target: its segments in order of time, without a gap, and whether it is subtracted."""

    target: int
    center: int
    pieces: tuple[Piece, ...]
    sign: int = 1

    @property
    def start(self) -> float:
        """The start of its first segment, in seconds since J2000 (TDB)."""
        return self.pieces[0].start

    @property
    def end(self) -> float:
        """The end of its last segment."""
        return self.pieces[-1].end


@dataclass(frozen=True)
class Kernels:
    """The segments of kernels, of which those that come later count before those that come first."""

    files: list[SourceFile]
    segments: dict[tuple[int, int], list[Any]] = field(default_factory=dict)
    opened: list[Any] = field(default_factory=list)
    file_of: dict[int, str] = field(default_factory=dict)

    @classmethod
    def of(cls, files: list[SourceFile]) -> Kernels:
        """The kernels of files."""
        made = cls(files)
        for file in files:
            made.opened.append(_opened(file))
            for segment in made.opened[-1].segments:
                if segment.frame not in (EQUATOR, ECLIPTIC):
                    made.close()
                    raise WrongSource(
                        f"{file.name} has places of {segment.target} on the axes of the frame {segment.frame}: those "
                        "of J2000 (1) and of its ecliptic (17) are read"
                    )
                made.file_of[id(segment)] = file.name
                made.segments.setdefault((segment.target, segment.center), []).append(segment)
        return made

    def close(self) -> None:
        """Closes the files."""
        for kernel in self.opened:
            kernel.close()

    @property
    def names(self) -> str:
        """The files, for a sentence."""
        return ", ".join(file.name for file in self.files)

    def refuse_two_series(self) -> None:
        """Refuses two files that have different places of one body from one centre."""
        for (target, center), segments in self.segments.items():
            for one, other in itertools.combinations(segments, 2):
                names = self.file_of[id(one)], self.file_of[id(other)]
                start, end = max(one.start_second, other.start_second), min(one.end_second, other.end_second)
                if names[0] == names[1] or start >= end:
                    continue
                times = np.linspace(start, end, COMPARED + 2)[1:-1]
                away = np.abs(self._evaluated(one, times) - self._evaluated(other, times)).max()
                if away > SAME:
                    raise WrongSource(
                        f"{names[0]} and {names[1]} have other places of {target} from {center}, by {away:.3g} km: "
                        "they are of two series, so name kernels of one; with bodies= the later file counts"
                    )

    def path(self, target: int) -> Optional[list[tuple[int, int]]]:
        """The pairs of target and centre that lead from a body to the barycentre, or None where none do."""
        made: list[tuple[int, int]] = []
        while target != BARYCENTRE:
            pairs = [pair for pair in self.segments if pair[0] == target and pair not in made]
            if not pairs or len(made) > len(self.segments):
                return None
            made.append(pairs[-1])
            target = pairs[-1][1]
        return made

    def target(self, body: str) -> Optional[int]:
        """NAIF's number of a body, where its segments lead to the barycentre."""
        return next((each for each in IDS[body] if self.path(each) is not None), None)

    def leg(self, pair: tuple[int, int], sign: int) -> Leg:
        """A leg with its segments: refused where there is a gap between them."""
        segments = self.segments[pair]
        edges = sorted({each.start_second for each in segments} | {each.end_second for each in segments})
        pieces: list[Piece] = []
        for start, end in zip(edges, edges[1:]):
            inside = [each for each in segments if each.start_second <= start and end <= each.end_second]
            if not inside:
                raise WrongSource(
                    f"{self.names} have no place of {pair[0]} from {pair[1]} in {span_text(start, end)}, between two "
                    "segments: name start= and end= on one side, or the kernel that has it"
                )
            if pieces and pieces[-1].segment is inside[-1]:
                pieces[-1] = Piece(inside[-1], pieces[-1].start, end)
            else:
                pieces.append(Piece(inside[-1], start, end))
        return Leg(*pair, tuple(pieces), sign)

    def legs(self, plus: int, minus: int = BARYCENTRE) -> list[Leg]:
        """The legs from one body to another, without what both ways have in common and without legs that are zero."""
        there, back = self.path(plus) or [], self.path(minus) or []
        made = [self.leg(pair, 1) for pair in there if pair not in back]
        made += [self.leg(pair, -1) for pair in back if pair not in there]
        return [leg for leg in made if not _is_zero(leg)] or made[:1]

    def places(self, legs: Iterable[Leg], times: Floats) -> Floats:
        """The sum of legs in km, 3 by n, at seconds since J2000 (TDB)."""
        made = np.zeros((3, len(times)))
        for leg in legs:
            for number, piece in enumerate(leg.pieces):
                last = number == len(leg.pieces) - 1
                inside = (times >= piece.start) & ((times <= piece.end) if last else (times < piece.end))
                if inside.any():
                    made[:, inside] += leg.sign * self._evaluated(piece.segment, times[inside])
        return made

    def _evaluated(self, segment: Any, times: Floats) -> Floats:
        """The places of a segment on the equator of J2000, by the library that knows its type."""
        if segment.data_type in COPIED_TYPES:
            days = np.floor(times / DAY)
            return on_equator(floats(segment.compute(J2000_DATE + days, (times - days * DAY) / DAY)[:3]), segment.frame)
        if has_spice():
            return _by_spice(self.files, segment, times)
        try:
            # (jplephem looks at one number of a time there, which has 4 10^-5 seconds)
            return on_equator(floats(segment.compute(J2000_DATE + times / DAY)), segment.frame)
        except ValueError:
            raise ImportError(
                f"the places of {segment.target} from {segment.center} are of type {segment.data_type}, which needs "
                "the package spiceypy (pip: spiceypy): jplephem reads types 2 and 3"
            ) from None


def on_equator(places: Floats, frame: int) -> Floats:
    """Places, or coefficients, whose first axis has the components, on the equator of J2000."""
    if frame == EQUATOR:
        return places
    x, y, z = places
    cosine, sine = np.cos(OBLIQUITY), np.sin(OBLIQUITY)
    return floats(np.stack([x, cosine * y - sine * z, sine * y + cosine * z]))


def records(segment: Any) -> tuple[float, float, int]:
    """The start of the first record, the length of each in seconds, and their number, of a segment of type 2 or 3."""
    start, size, _, count = segment.daf.read_array(segment.end_i - 3, segment.end_i)
    return float(start), float(size), int(count)


def _is_zero(leg: Leg) -> bool:
    """Whether a leg is zero throughout, as that of Mercury from its barycentre."""
    return all(
        piece.segment.data_type in COPIED_TYPES and not piece.segment.load_array()[2][:3].any() for piece in leg.pieces
    )


def _opened(file: SourceFile) -> Any:
    """The kernel of a file, by jplephem."""
    try:
        from jplephem.daf import DAF
        from jplephem.spk import SPK
    except ImportError:
        raise ImportError(
            f"{file.name} is an SPK kernel, which needs the package jplephem (Debian: python3-jplephem)"
        ) from None
    stream = open(file.name, "rb") if file.is_plain else io.BytesIO(file.data)
    try:
        return SPK(DAF(stream))
    except (ValueError, OSError, IndexError) as error:
        stream.close()
        raise WrongSource(f"{file.name} is a damaged SPK kernel ({error}): copy it anew") from None


def has_spice() -> bool:
    """Whether SpiceyPy is installed."""
    try:
        import spiceypy  # noqa: F401
    except ImportError:
        return False
    return True


def _by_spice(files: list[SourceFile], segment: Any, times: Floats) -> Floats:
    """The places of a segment by SpiceyPy, on the equator of J2000."""
    import spiceypy

    if not all(file.is_plain for file in files):
        raise WrongSource(
            f"the places of {segment.target} are of type {segment.data_type}, which SpiceyPy reads of files that are "
            "not compressed: unpack them"
        )
    for file in files:
        spiceypy.furnsh(file.name)
    try:
        rows = [spiceypy.spkgps(segment.target, time, "J2000", segment.center)[0] for time in times.tolist()]
    finally:
        for file in files:
            spiceypy.unload(file.name)
    return floats(rows).T
