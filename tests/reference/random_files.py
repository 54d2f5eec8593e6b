"""Files made at random: small ephemerides in every layout that the format allows, with numbers in every spelling."""

from __future__ import annotations

from dataclasses import dataclass
from fractions import Fraction
from random import Random
from typing import Mapping, Optional, Sequence

from .ephemeris import Column, component_count
from .header import DAY, J2000, MAX_BLOCK_DAYS

Files = dict[bytes, bytes]
"""Texts by their names, in the order in which they are named."""

BODIES = {1: "mercury", 2: "venus", 3: "emb", 4: "mars", 10: "moon", 11: "sun"}
"""The bodies that made files may have, by their columns."""
SHORTEST_BLOCK = 27
"""The fewest seconds of a block: days of that are the least decimal that is a whole number of seconds."""
LAST_PLACE = 3000
STYLES = ("small", "small", "half", "mixed", "mixed", "tiny", "large")
LARGE_WORDS = ("0.687194767359999999D+11", "68719476735", "68719476735.9999999", "34359738368", "5D10")
TINY_EXPONENTS = (5, 7, 8, 9, 11, 20, 99)
ABSENT = Column(3, 0, 0)


def plain_word(number: Fraction) -> str:
    """A number that has finitely many digits, without an exponent."""
    digits = 0
    while (number * 10**digits).denominator != 1:
        digits += 1
    text = str(abs(number * 10**digits)).rjust(digits + 1, "0")
    sign = "-" if number < 0 else ""
    return sign + (f"{text[:-digits]}.{text[-digits:]}" if digits else text)


def rounded_word(number: Fraction, digits: int) -> str:
    """A number rounded down to so many digits after the point."""
    return plain_word(Fraction(number * 10**digits // 1, 10**digits))


def date_word(rng: Random, second: int) -> str:
    """A Julian date in one of several spellings; the second since J2000 is a multiple of 27."""
    plain = plain_word(Fraction(second, DAY) + J2000)
    whole, _, part = plain.partition(".")
    spellings = [plain, f"0.{whole}{part}D+{len(whole):02d}", plain + ("e0" if part else "."), f"+0{plain}"]
    return rng.choice(spellings)


def coefficient_word(rng: Random, style: str) -> str:
    """A coefficient in km."""
    if rng.random() < 0.2:
        return "0.0"
    sign = rng.choice(["", "-"])
    if style == "small":
        return f"{sign}{rng.randrange(1, 60)}"
    if style == "large":
        return sign + rng.choice(LARGE_WORDS)
    if style == "tiny":
        return f"{sign}0.{rng.randrange(1, 999)}D-{rng.choice(TINY_EXPONENTS):02d}"
    if style == "half":
        return f"{sign}{rng.randrange(0, 40)}.5"
    return f"{sign}{rng.randrange(0, 10 ** rng.randrange(1, 10))}.{rng.randrange(10**6):06d}"


def text_of(lines: Sequence[str]) -> bytes:
    """Lines that each end with a line feed."""
    return "".join(line + "\n" for line in lines).encode()


@dataclass
class Draft:
    """What a text is to be: the start in seconds, the blocks, the columns, and the numbers of a block."""

    start: int
    block_seconds: int
    block_count: int
    columns: list[Column]
    ncoeff: int
    emrat: str

    def present_columns(self) -> list[int]:
        """The numbers of the columns that are present, from 1 to 13."""
        return [number for number, column in enumerate(self.columns[:13], 1) if column.is_present]

    def header_lines(self, rng: Random) -> list[str]:
        """The header, up to and including `GROUP 1070`."""
        names = rng.choice([["EMRAT"], ["AU", "EMRAT"], ["EMRAT", "EMRAT", "X"]])
        values = ["x"] * len(names)
        values[names.index("EMRAT")] = self.emrat
        days = plain_word(Fraction(self.block_seconds, DAY))
        dates = [date_word(rng, self.start) for _ in range(2)]
        lines = [f"KSIZE= 1 NCOEFF= {self.ncoeff}", "GROUP 1010", "MADE AT RANDOM", "GROUP 1030"]
        lines += [" ".join([*dates, days]), "GROUP 1040", str(len(names)), " ".join(names)]
        lines += ["GROUP 1041", str(len(values)), " ".join(values), "GROUP 1050"]
        return lines + [" ".join(map(str, row)) for row in zip(*self.columns)] + ["GROUP 1070"]

    def coefficients(self, rng: Random, style: str) -> list[str]:
        """The words of a block; those of the dates are filled in later. Some columns keep to one axis."""
        words = ["0.0"] * self.ncoeff
        for number in self.present_columns():
            column = self.columns[number - 1]
            keeps_to_axis = rng.random() < 0.3
            for place in range(component_count(number) * column.coefficients * column.granules):
                axis = place // column.coefficients % 3
                if not (keeps_to_axis and axis > 0 and rng.random() < 0.8):
                    words[column.start - 1 + place] = coefficient_word(rng, style)
        return words

    def block_lines(self, rng: Random, number: int, coefficients: Sequence[str]) -> list[str]:
        """A block by its number from 0: a record line, and three words a line."""
        first = self.start + number * self.block_seconds
        dates = [date_word(rng, first), date_word(rng, first + self.block_seconds)]
        words = [*dates, *coefficients[2:]] + ["0.0"] * (-len(coefficients) % 3)
        rows = [" ".join(words[at : at + 3]) for at in range(0, len(words), 3)]
        return [f"{number + 1} {self.ncoeff}", *rows]

    def blocks(self, rng: Random) -> list[list[str]]:
        """The lines of each block; all may have the same numbers, and some stand twice."""
        style = rng.choice(STYLES)
        shared = self.coefficients(rng, style) if rng.random() < 0.3 else None
        blocks = []
        for number in range(self.block_count):
            block = self.block_lines(rng, number, shared or self.coefficients(rng, style))
            blocks += [block] * (2 if rng.random() < 0.1 else 1)
        return blocks

    def files(self, rng: Random) -> Files:
        """One file, or two of which the second has no header."""
        blocks = self.blocks(rng)
        cut = rng.randrange(len(blocks) + 1) if rng.random() < 0.3 else len(blocks)
        first, second = ([line for block in part for line in block] for part in (blocks[:cut], blocks[cut:]))
        files = {b"a": text_of(self.header_lines(rng) + first)}
        return {**files, b"b": text_of(second)} if second else files


def _place_columns(rng: Random, sizes: Mapping[int, tuple[int, int]], gaps: Sequence[int]) -> tuple[list[Column], int]:
    """Columns with these coefficients and granules, in any order in a block, and the last place that one takes."""
    columns, place = [ABSENT] * 13, 3
    for number in rng.sample(sorted(sizes), len(sizes)):
        columns[number - 1] = Column(place, *sizes[number])
        place += component_count(number) * sizes[number][0] * sizes[number][1] + rng.choice(gaps)
    return columns, place - 1


def _any_size(rng: Random, block_seconds: int, number: int) -> tuple[int, int]:
    """Coefficients and granules; a granule may be as short as a second."""
    many, few = [1, 2, 2, 2, 3, 3, 4, 5, 8, 14, 32], [1, 2, 2, 3, 3, 4]
    coefficients = rng.choice(many if rng.random() < 0.3 else few)
    most = LAST_PLACE // 7 // (component_count(number) * coefficients)
    granules = [count for count in (1, 1, 2, 3, 4, 6, 9, 27, block_seconds) if block_seconds % count == 0]
    return coefficients, rng.choice([count for count in granules if count <= most] or [1])


def any_draft(rng: Random) -> Draft:
    """An ephemeris with Mercury and perhaps others, of 1 to 4 blocks from 27 seconds to 64 days."""
    unit = rng.choice([27, 27, 54, 135, 270, 540, 2700, 86_400, 864_000])
    block_seconds = min(unit * rng.randrange(1, 5), MAX_BLOCK_DAYS * DAY)
    chances = {2: 0.8, 3: 0.7, 4: 0.2, 10: 0.7, 11: 0.5, 12: 0.2, 13: 0.2}
    numbers = [1] + [number for number, chance in chances.items() if rng.random() < chance]
    sizes = {number: _any_size(rng, block_seconds, number) for number in numbers}
    columns, last = _place_columns(rng, sizes, [0, 0, 0, 1])
    if rng.random() < 0.2:
        columns += [Column(rng.randrange(9), rng.randrange(40), rng.randrange(3)) for _ in range(rng.randrange(1, 3))]
    emrat = rng.choice(["0.813005600000000000D+02", "81", "1", "1000", "3", "0.8130056D2"])
    start = SHORTEST_BLOCK * rng.randrange(-(10**6), 10**6)
    return Draft(start, block_seconds, rng.randrange(1, 5), columns, max(3, last), emrat)


def tiny_draft(rng: Random) -> Draft:
    """An ephemeris of blocks of 27 seconds with granules of 1 second and more: there are borders nearly everywhere."""
    more: tuple[int, ...] = rng.choice([(), (3, 10), (3, 10, 11)])
    numbers = [1, 2, *more]
    sizes = {number: (rng.choice([1, 1, 2, 2, 3, 4]), rng.choice([27, 27, 9, 3, 1])) for number in numbers}
    columns, last = _place_columns(rng, sizes, [0])
    start = SHORTEST_BLOCK * rng.randrange(-1000, 1000)
    return Draft(start, SHORTEST_BLOCK, rng.randrange(2, 6), columns, last, rng.choice(["81", "1", "3"]))


def made_draft(rng: Random, tiny_chance: Optional[float] = None) -> Draft:
    """An ephemeris of either sort."""
    return tiny_draft(rng) if rng.random() < (tiny_chance or 0.15) else any_draft(rng)
