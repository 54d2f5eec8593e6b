"""Readers of files: each fault of the table of docs/guide/formats.md, and what an accepted text is."""

from __future__ import annotations

import unittest
from pathlib import Path
from random import Random
from typing import Mapping, Optional

from tests.reference import answer
from tests.reference.blocks import read_ephemeris
from tests.reference.decimals import Decimal
from tests.reference.ephemeris import Column, Ephemeris, Header
from tests.reference.faults import Fault, FileError

EXAMPLE = Path(__file__).resolve().parents[3] / "examples" / "mercury-crossing.asc"
ABSENT = Column(3, 0, 0)
COLUMNS = "3 9 9 15 15 15 15 15 15 15 21 27 27"


def changed_example(changes: Mapping[int, Optional[str]]) -> bytes:
    """The example with some lines, numbered from 1, in place of its own; None leaves a line out."""
    lines: list[Optional[str]] = list(EXAMPLE.read_text().splitlines())
    for number, line in changes.items():
        lines[number - 1] = line
    return "".join(f"{line}\n" for line in lines if line is not None).encode()


# Of each fault the lines of the example that are changed, the line of the fault, and its detail.
FAULTS: list[tuple[Fault, dict[int, Optional[str]], int, int]] = [
    (Fault.LineTooLong, {3: "x" * 4097}, 3, 0),
    (Fault.FirstLine, {1: "KSIZE= 52 NCOEFF="}, 1, 0),
    (Fault.Limit, {1: "KSIZE= 52 NCOEFF= 2"}, 1, 0),
    (Fault.Limit, {5: "2451544.50 5000000.5 32."}, 5, 0),
    (Fault.Limit, {5: "2451544.50 2451576.50 64.0003125"}, 5, 0),
    (Fault.Limit, {7: "2001"}, 7, 0),
    (Fault.GroupMissing, {2: "GROUP 1011"}, 2, 1010),
    (Fault.GroupMissing, {4: "GROUP 1030 x"}, 4, 1030),
    (Fault.GroupMissing, {16: "1 26"}, 16, 1070),
    (Fault.JdNotWholeSecond, {5: "2451544.500001 2451576.50 32."}, 5, 0),
    (Fault.CountMismatch, {10: "2"}, 10, 0),
    (Fault.EmratMissing, {8: "emrat"}, 10, 0),
    (Fault.EmratRange, {11: "1000.1"}, 11, 0),
    (Fault.ColumnCount, {13: "3 9 9"}, 13, 0),
    (Fault.ColumnCount, {14: "2 0 2 0 0 0 0 0 0 2 2 0 0 0"}, 14, 0),
    (Fault.CoefficientCount, {14: "33 0 2 0 0 0 0 0 0 2 2 0 0"}, 15, 0),
    (Fault.ColumnPlace, {13: "2" + COLUMNS[1:]}, 15, 0),
    (Fault.ColumnPlace, {13: COLUMNS.replace("21", "22")}, 15, 0),
    (Fault.ColumnPlace, {13: COLUMNS.replace("21", "20")}, 15, 0),
    (Fault.GranuleNotWhole, {14: "1" + " 0" * 12, 15: "7" + " 0" * 12}, 15, 0),
    (Fault.HeaderNumber, {5: "2451544.50 2451576.50"}, 5, 1),
    (Fault.HeaderNumber, {5: "2451544.50 1e100 32."}, 5, 3),
    (Fault.HeaderNumber, {11: "1234567890123456789"}, 11, 2),
    (Fault.Ended, dict.fromkeys(range(16, 27)), 16, 0),
    (Fault.RecordLine, {17: "1"}, 17, 0),
    (Fault.NcoeffDiffers, {17: "1 27"}, 17, 0),
    (Fault.BlockSpan, {18: "2451544.5 2451576.6 0"}, 18, 0),
    (Fault.BlockGap, {26: "0 0 0\n2 26\n2451577.5 2451609.5"}, 28, 0),
    (Fault.Number, {19: "1 0.1234567890123456789 x"}, 19, 2),
    (Fault.TooLarge, {19: "0.1D+12 0.0 0.0"}, 19, 0),
    (Fault.Truncated, {26: None}, 26, 0),
    (Fault.NoBlock, dict.fromkeys(range(17, 27)), 17, 0),
    (Fault.TrailingNumbers, {26: "0 0 0 1"}, 26, 0),
]


class Faults(unittest.TestCase):
    """The first rule that is broken is the fault."""

    def test_each_fault_of_a_text(self) -> None:
        for fault, changes, line, detail in FAULTS:
            with self.subTest(fault=fault, changes=changes):
                with self.assertRaises(FileError) as raised:
                    read_ephemeris([(b"a", changed_example(changes))])
                error = raised.exception
                self.assertEqual((error.fault, error.line, error.detail, error.name), (fault, line, detail, b"a"))

    def test_every_fault_of_files_is_tried(self) -> None:
        tried = {fault for fault, *_ in FAULTS} | {Fault.TooManyFiles, Fault.FileTooLarge, Fault.TooManyBlocks}
        self.assertEqual(tried, {fault for fault in Fault if fault.value < Fault.BodyAbsent.value})

    def test_too_many_files_and_blocks(self) -> None:
        names = [b"%d" % number for number in range(1, 66)]
        self.assertEqual(answer([b"check", *names], {}).error, b"finder: file 65 line 0: 5 TooManyFiles\n")
        header = changed_example({1: "KSIZE= 1 NCOEFF= 3", 14: "0 " * 13, **dict.fromkeys(range(17, 27))})
        dates = [(2_300_000 + 32 * number, 2_300_032 + 32 * number) for number in range(16_385)]
        blocks = "".join(f"1 3\n{first} {last} 0\n" for first, last in dates).encode()
        error = answer([b"check", b"a"], {b"a": header + blocks}).error
        self.assertEqual(error, b"finder: file a line %d: 38 TooManyBlocks\n" % (16 + 2 * 16_385))

    def test_a_file_that_cannot_be_read_comes_before_faults_and_after_them_none_is_opened(self) -> None:
        files = {b"a": b"x\n"}
        self.assertEqual(answer([b"check", b"a", b"missing"], files).error, b"finder: file a line 1: 10 FirstLine\n")
        self.assertEqual(answer([b"check", b"a"], files, {"shelf": "1 3"}).error, b"finder: read fault a\n")


class Accepted(unittest.TestCase):
    """What an accepted text is."""

    def test_the_example(self) -> None:
        ephemeris = read_ephemeris([(b"a", EXAMPLE.read_bytes())])
        self.assertEqual((ephemeris.start, ephemeris.end, len(ephemeris.blocks)), (-43_200, 2_721_600, 1))
        self.assertEqual(ephemeris.granule(1, 0).components[0], (Decimal(0, 0), Decimal(138240000000000000, -11)))

    def test_blocks_are_split_over_files_and_read_once(self) -> None:
        second = "1 26\n2451544.5 2451576.5" + " 0" * 24 + "\n2 26\n2451576.5 2451608.5" + " 0" * 24 + "\n"
        whole = EXAMPLE.read_bytes() + second.encode()
        for cut in range(0, len(whole), 37):
            at = whole.index(b"\n", cut) + 1
            ephemeris = read_ephemeris([(b"a", whole[:at]), (b"b", whole[at:])])
            self.assertEqual(len(ephemeris.blocks), 2)
            self.assertEqual(ephemeris.granule(1, 0).components[0][1].value(), 1_382_400)


def random_ephemeris(rng: Random) -> Ephemeris:
    """Three columns of one coefficient in small blocks; each coefficient is its place in the block."""
    block = rng.choice([4, 6, 12, 24])
    granules = [rng.choice([count for count in (1, 2, 3, 4, 6, 12) if block % count == 0]) for _ in range(3)]
    columns = [Column(3, 1, count) for count in granules] + [ABSENT] * 10
    ephemeris = Ephemeris(Header(40, block, Decimal(81, 0), tuple(columns)), rng.randrange(-50, 50))
    ephemeris.blocks += [tuple(Decimal(place, 0) for place in range(1, 41))] * rng.randrange(1, 5)
    return ephemeris.in_ticks(rng.choice([1, 1, 1000]))


class Borders(unittest.TestCase):
    """Granules and borders, by a look at each of them."""

    def test_nearest_border_and_granule(self) -> None:
        rng = Random(4)
        for _ in range(400):
            ephemeris = random_ephemeris(rng)
            used = rng.sample([1, 2, 3], rng.randrange(1, 4))
            first = rng.randrange(ephemeris.start, ephemeris.end)
            last = rng.randrange(first + 1, ephemeris.end + 1)
            lengths = [ephemeris.granule_length(number) for number in used]
            starts = {at for step in lengths for at in range(ephemeris.start + step, ephemeris.end, step)}
            inside = sorted((abs(2 * at - first - last), at) for at in starts if first < at <= last)
            self.assertEqual(ephemeris.nearest_border(used, first, last), inside[0][1] if inside else None)
            self.check_granule(ephemeris, used[0], first)
            self.check_granule(ephemeris, used[0], ephemeris.end)

    def check_granule(self, ephemeris: Ephemeris, number: int, time: int) -> None:
        """The granule holds the time, and has the coefficient of its place."""
        granule = ephemeris.granule(number, time)
        is_last = granule.start + granule.length == time == ephemeris.end
        self.assertTrue(is_last or granule.start <= time < granule.start + granule.length)
        index = (granule.start - ephemeris.start) // granule.length % ephemeris.header.columns[number - 1].granules
        self.assertEqual(granule.components[0], (Decimal(3 + 3 * index, 0),))


if __name__ == "__main__":
    unittest.main()
