"""Makes the texts that reading is measured on.

    texts.py small FILE           16,384 blocks of a layout of 26 numbers: Mercury, the Earth-Moon barycentre, the Moon
                                  and the Sun with two coefficients each
    texts.py large FILE SOURCE    JPL's header and blocks of SOURCE, repeated with running dates to 32 million bytes,
                                  which are a century of DE405
    texts.py blocks COUNT FILE SOURCE
                                  the same up to so many blocks
    texts.py files COUNT FOLDER SOURCE
                                  the large text in the form in which JPL keeps its files: header.405, and so many files
                                  ascp1.405 and so on, each of which begins with the last block of the one before

Every block begins where the one before it ended. The header's dates stay as they are.
"""

import itertools
import sys

DAYS = 32
SMALL_BLOCKS = 16_384
LARGE_BYTES = 32_000_000

SMALL_HEADER = """\
KSIZE= 52 NCOEFF= 26
GROUP 1010
SMALL TEST EPHEMERIS
GROUP 1030
2451544.50 2451576.50 32.
GROUP 1040
1
EMRAT
GROUP 1041
1
0.810000000000000000D+02
GROUP 1050
3 9 9 15 15 15 15 15 15 15 21 27 27
2 0 2 0 0 0 0 0 0 2 2 0 0
1 0 1 0 0 0 0 0 0 1 1 0 0
GROUP 1070
"""


def fortran(halves):
    """Half days as JPL writes a number: 18 digits behind the point, and an exponent of ten."""
    digits = str(halves * 5)
    return f"0.{digits.ljust(18, '0')}D+{len(digits) - 1:02}"


def small_block(number):
    """Mercury's x rises through zero in the first block, and keeps its last value in all others."""
    start = 2 * 2_451_544 + 1 + 2 * DAYS * number
    x = ("0.0", "0.138240000000000000D+07") if number == 0 else ("0.138240000000000000D+07", "0.0")
    lines = [
        f"{number + 1} 26",
        f"{fortran(start)} {fortran(start + 2 * DAYS)} {x[0]}",
        f"{x[1]} 0.0 0.0",
    ]
    return "\n".join(lines + ["0.0 0.0 0.0"] * 7) + "\n"


def small():
    yield SMALL_HEADER
    for number in range(SMALL_BLOCKS):
        yield small_block(number)


def half_days(word):
    """The half days of a date as JPL writes it."""
    mantissa, exponent = word.split("D")
    digits = mantissa.removeprefix("0.")
    return 2 * int(digits) * 10 ** int(exponent) // 10 ** len(digits)


def moved(block, number, start):
    """The lines of a block with another number and other dates, at their places of the lines."""
    record, dates, *rest = block
    for place, word in enumerate(dates.split()[:2]):
        dates = dates.replace(word, fortran(start + 2 * DAYS * (number + place)), 1)
    return f"{number + 1:6}{record[6:]}" + dates + "".join(rest)


def repeated(source):
    """The header, then the blocks again and again, without an end."""
    with open(source, encoding="ascii", newline="") as file:
        lines = file.read().splitlines(keepends=True)
    records = [i for i, line in enumerate(lines) if len(line.split()) == 2 and line.split()[0].isdigit()]
    header = "".join(lines[: records[0]])
    blocks = [lines[i:j] for i, j in zip(records, records[1:] + [len(lines)])]
    start = half_days(blocks[0][1].split()[0])
    yield header
    for number in itertools.count():
        yield moved(blocks[number % len(blocks)], number, start)


def large(source):
    """The first of these texts that make 32 million bytes."""
    size = 0
    for text in repeated(source):
        yield text
        size += len(text)
        if size >= LARGE_BYTES:
            return


def write(name, texts):
    with open(name, "w", encoding="ascii", newline="") as file:
        file.writelines(texts)


def write_files(count, folder, source):
    """Writes a header and files of about as many blocks each."""
    header, *blocks = large(source)
    write(f"{folder}/header.405", [header])
    places = [len(blocks) * number // count for number in range(count + 1)]
    for number, (first, last) in enumerate(zip(places, places[1:]), 1):
        write(f"{folder}/ascp{number}.405", blocks[max(0, first - 1) : last])


def main(words):
    match words:
        case ["small", name]:
            texts = small()
        case ["large", name, source]:
            texts = large(source)
        case ["blocks", count, name, source]:
            texts = itertools.islice(repeated(source), int(count) + 1)
        case ["files", count, folder, source]:
            write_files(int(count), folder, source)
            return
        case _:
            sys.exit(__doc__)
    write(name, texts)


if __name__ == "__main__":
    main(sys.argv[1:])
