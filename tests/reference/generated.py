"""Generated texts: files with the columns of DE405, whose coefficients come from a number.

    >>> len(generated_text(3, 7))
    78344
"""

from __future__ import annotations

from typing import Iterator

from .ephemeris import Column, component_count

STARTS = (3, 171, 231, 309, 342, 366, 387, 405, 423, 441, 753, 819, 899)
COEFFICIENTS = (14, 10, 13, 11, 8, 7, 6, 6, 6, 13, 11, 10, 10)
GRANULES = (4, 2, 2, 1, 1, 1, 1, 1, 1, 8, 2, 4, 4)
SCALES = (27000, 50000, 70000, 100000, 360000, 660000, 1300000, 2100000, 2700000, 180, 350, 1, 1)
"""Of each column, what the upper half of a draw is multiplied by to give millionths of a km."""
NCOEFF = 1018
FIRST_DAY = 2_451_536
"""The text begins half a day after this Julian date."""
BLOCK_DAYS = 32
FACTOR = 6_364_136_223_846_793_005
ADDEND = 1_442_695_040_888_963_407
WORDS_OF_A_ROW = 3
ZERO_WORD = "0.000000000000000000D+00"
HEADER = """KSIZE= 2036 NCOEFF= 1018
GROUP 1010
GENERATED TEXT
GROUP 1030
2451536.50 2525008.50 32.
GROUP 1040
1
EMRAT
GROUP 1041
1
0.813005600000000000D+02
GROUP 1050
"""


def draws(seed: int) -> Iterator[int]:
    """The upper halves of a state of 64 bits, which is multiplied and added to before each."""
    state = seed
    while True:
        state = (state * FACTOR + ADDEND) % 2**64
        yield state >> 32


def terms() -> list[tuple[int, int]]:
    """Of each place after the two dates of a block the scale of its column, and the degree of its polynomial."""
    found: list[tuple[int, int]] = []
    for number, (scale, *row) in enumerate(zip(SCALES, STARTS, COEFFICIENTS, GRANULES), 1):
        column = Column(*row)
        degrees = list(range(column.coefficients))
        found += [(scale, degree) for degree in degrees * (column.granules * component_count(number))]
    return found


def date_word(half_days: int) -> str:
    """A Julian date by its half days: `0.`, 18 digits and `D+07`."""
    return f"0.{half_days * 10**11 // 2:018d}D+07"


def coefficient_word(draw: int, scale: int, degree: int) -> str:
    """(draw - 2^31) scale / 4^degree millionths of a km, rounded towards zero: `0.`, 18 digits and `D+12`."""
    product = (draw - 2**31) * scale
    millionths = abs(product) // 4**degree
    return f"{'-' if product < 0 < millionths else ''}0.{millionths:018d}D+12"


def generated_text(blocks: int, seed: int) -> bytes:
    """The text of so many blocks from a seed below 2^64."""
    rows = (STARTS, COEFFICIENTS, GRANULES)
    lines = [HEADER + "\n".join(" ".join(map(str, row)) for row in rows), "GROUP 1070"]
    numbers, places = draws(seed), terms()
    for block in range(blocks):
        first = 2 * (FIRST_DAY + BLOCK_DAYS * block) + 1
        words = [date_word(first), date_word(first + 2 * BLOCK_DAYS)]
        words += [coefficient_word(next(numbers), *term) for term in places]
        words += [ZERO_WORD] * (-len(words) % WORDS_OF_A_ROW)
        lines.append(f"{block + 1} {NCOEFF}")
        starts = range(0, len(words), WORDS_OF_A_ROW)
        lines += [" ".join(words[start : start + WORDS_OF_A_ROW]) for start in starts]
    return "".join(line + "\n" for line in lines).encode()
