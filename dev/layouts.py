#!/usr/bin/env python3
"""Writes a small example of each layout of JPL's series in ASCII form but DE405, whose own text stands in `examples/`.

    dev/layouts.py FOLDER    writes FOLDER/de102-layout.asc and the like

The first line, the dates, the number of constants and the columns are those of the published header, as far as
`examples/README.md` says. The blocks are made: each body moves on an ellipse about the centre, at its mean distance and
period, from its mean longitude at J2000, in the plane of its mean orbit. Its eccentric anomaly grows evenly, so it is no
motion under gravity. What a column holds of it is exact to the 18 digits that are printed: cos(a + b x) has the Chebyshev
coefficients J_0(b) cos a and 2 J_k(b) cos(a + k pi/2), J_k being Bessel's functions. All arithmetic is that of `decimal`,
so each machine writes the same bytes.
"""

import argparse
import os
from decimal import ROUND_HALF_EVEN, Context, Decimal, localcontext

PI = Decimal("3.14159265358979323846264338327950288419716939937510582097494459230781640629")
J2000 = Decimal(2451545)
FIRST_DAY = Decimal("2451536.5")  # 1999-12-24, at which a block of every series begins

# An ellipse: half of its greatest width (km), its period (days), the mean longitude at J2000, the inclination to the
# ecliptic, the longitudes of the node and of the least distance (degrees), and the eccentricity.
BODIES = [
    ("57909000", "87.9693", "252.25", "7.00", "48.33", "77.46", "0.2056"),
    ("108209000", "224.7008", "181.98", "3.39", "76.68", "131.60", "0.0068"),
    ("149598000", "365.2564", "100.46", "0", "0", "102.94", "0.0167"),
    ("227940000", "686.9796", "355.43", "1.85", "49.56", "336.06", "0.0934"),
    ("778340000", "4332.6", "34.40", "1.30", "100.46", "14.73", "0.0485"),
    ("1426700000", "10759.2", "49.94", "2.49", "113.67", "92.60", "0.0555"),
    ("2870700000", "30687", "313.23", "0.77", "74.01", "170.95", "0.0463"),
    ("4498400000", "60190", "304.88", "1.77", "131.78", "44.96", "0.0090"),
    ("5906400000", "90560", "238.93", "17.14", "110.30", "224.07", "0.2488"),
    ("384400", "27.321661", "218.32", "5.145", "125.04", "83.35", "0.0549"),
    ("742000", "4332.6", "214.40", "1.30", "100.46", "194.73", "0.0485"),
]
NUTATIONS = ("0.00008", "6798.38", "125.04")  # radians; two components on a circle
LIBRATIONS = ("0.03", "27.321661", "218.32")  # radians; three components, the third as the first
CLOCK = ("0.001657", "365.2596", "267.53")  # TT less TDB in seconds; one component

# The obliquity of the ecliptic, as the frame `ecl` has it.
COSINE = Decimal("0.917482062069182")
SINE = Decimal("0.397777155931914")

DE405_NAMES = (
    "DENUM LENUM TDATEF TDATEB CENTER CLIGHT AU EMRAT GM1 GM2 GMB GM4 GM5 GM6 GM7 GM8 GM9 GMS RAD1 RAD2 RAD4 JDEPOC "
    "X1 Y1 Z1 XD1 YD1 ZD1 X2 Y2 Z2 XD2 YD2 ZD2 XB YB ZB XDB YDB ZDB X4 Y4 Z4 XD4 YD4 ZD4 X5 Y5 Z5 XD5 YD5 ZD5 X6 Y6 Z6 "
    "XD6 YD6 ZD6 X7 Y7 Z7 XD7 YD7 ZD7 X8 Y8 Z8 XD8 YD8 ZD8 X9 Y9 Z9 XD9 YD9 ZD9 XM YM ZM XDM YDM ZDM XS YS ZS XDS YDS "
    "ZDS BETA GAMMA J2SUN GDOT MA0001 MA0002 MA0004 MAD1 MAD2 MAD3 RE ASUN PHI THT PSI OMEGAX OMEGAY OMEGAZ AM J2M J3M "
    "J4M C22M C31M C32M C33M S31M S32M S33M C41M C42M C43M C44M S41M S42M S43M S44M LBET LGAM K2M TAUM AE J2E J3E J4E "
    "K2E0 K2E1 K2E2 TAUE0 TAUE1 TAUE2 DROTEX DROTEY GMAST1 GMAST2 GMAST3 KVC IFAC PHIC THTC PSIC OMGCX OMGCY OMGCZ "
    "PSIDOT MGMIS ROTEX ROTEY"
).split()

LATE_COLUMNS = [
    "3 171 231 309 342 366 387 405 423 441 753 819 899 1019 1019",
    "14 10 13 11 8 7 6 6 6 13 11 10 10 0 0",
    "4 2 2 1 1 1 1 1 1 8 2 4 4 0 0",
]

# Of each series: its name, NCOEFF, the three dates, the number of constants, AU and EMRAT, the rows of group 1050, and
# how many blocks are made.
LAYOUTS = [
    ("DE102", 773, "1206160.50", "2817872.50", "64.", 8, "149597870.68", "81.3007", [
        "3 183 225 279 315 342 366 390 408 426 738 774 774",
        "15 14 9 12 9 8 8 6 6 13 12 0 0",
        "4 1 2 1 1 1 1 1 1 8 1 0 0"], 2),
    ("DE200", 826, "2305424.50", "2513392.50", "32.", 200, "149597870.66", "81.300587", [
        "3 147 183 273 303 330 354 378 396 414 702 747 0",
        "12 12 15 10 9 8 8 6 6 12 15 10 0",
        "4 1 2 1 1 1 1 1 1 8 1 4 0"], 2),
    ("DE406", 728, "625360.50", "2816912.50", "64.", 156, "149597870.691", "81.30056", [
        "3 171 207 261 291 309 327 345 363 381 693 729 729",
        "14 12 9 10 6 6 6 6 6 13 12 0 0",
        "4 1 2 1 1 1 1 1 1 8 1 0 0"], 2),
    ("DE430", 1018, "2287184.50", "2688976.50", "32.", 572, "149597870.7", "81.30056907419062", LATE_COLUMNS, 1),
    ("DE430t", 982, "2287184.50", "2688976.50", "32.", 572, "149597870.7", "81.30056907419062", [
        "3 171 231 309 342 366 387 405 423 441 753 819 819 939 939",
        "14 10 13 11 8 7 6 6 6 13 11 0 10 0 11",
        "4 2 2 1 1 1 1 1 1 8 2 0 4 0 4"], 1),
    ("DE440", 1018, "2287184.50", "2688976.50", "32.", 645, "149597870.7", "81.3005682214972154", LATE_COLUMNS, 1),
]


def exponential_series(angle, alternate_from):
    """The sum of (-1)^j angle^i / i! over i = alternate_from + 2j: the cosine from 0, the sine from 1."""
    term = angle ** alternate_from if alternate_from else Decimal(1)
    total, at = Decimal(0), alternate_from
    while total + term != total:
        total += term
        at += 2
        term = -term * angle * angle / (at * (at - 1))
    return total


def circle(angle):
    """The cosine and the sine of an angle in radians."""
    angle = angle.remainder_near(2 * PI)
    return exponential_series(angle, 0), exponential_series(angle, 1)


def bessel(order, at):
    """J_order(at), by its power series."""
    term = Decimal(1)
    for i in range(1, order + 1):
        term = term * at / (2 * i)
    total, count = Decimal(0), 0
    while total + term != total:
        total += term
        count += 1
        term = -term * at * at / (4 * count * (count + order))
    return total


def turn(period, longitude, middle, half):
    """The angle at the middle of a granule, and how far it goes in half of one (radians)."""
    rate = 2 * PI / Decimal(period)
    return Decimal(longitude) * PI / 180 + rate * (middle - J2000), rate * half


def waves(angle, half_turn, count):
    """The Chebyshev coefficients of the cosine and of the sine of angle + half_turn x."""
    cosine, sine = circle(angle)
    rows = ([], [])
    for k in range(count):
        size = bessel(k, half_turn) * (1 if k == 0 else 2)
        rows[0].append(size * cosine)
        rows[1].append(size * sine)
        cosine, sine = -sine, cosine
    return rows


def position(body, middle, half, count):
    """The coefficients of x, y and z of a body over a granule, in the axes of the files."""
    size, period, longitude, inclination, node, least, eccentricity = body
    node_cosine, node_sine = circle(Decimal(node) * PI / 180)
    tilt_cosine, tilt_sine = circle(Decimal(inclination) * PI / 180)
    least_cosine, least_sine = circle((Decimal(least) - Decimal(node)) * PI / 180)
    long, short = Decimal(size), Decimal(size) * (1 - Decimal(eccentricity) ** 2).sqrt()
    angle, half_turn = turn(period, Decimal(longitude) - Decimal(least), middle, half)
    axes = ([], [], [])
    for k, (cosine, sine) in enumerate(zip(*waves(angle, half_turn, count))):
        p, q = long * (cosine - (Decimal(eccentricity) if k == 0 else 0)), short * sine
        u, v = least_cosine * p - least_sine * q, least_sine * p + least_cosine * q
        x = node_cosine * u - node_sine * tilt_cosine * v
        y = node_sine * u + node_cosine * tilt_cosine * v
        z = tilt_sine * v
        for axis, value in zip(axes, (x, COSINE * y - SINE * z, SINE * y + COSINE * z)):
            axis.append(value)
    return axes


def components(number, middle, half, count):
    """The coefficients of each component of a column, by its number from 1, over a granule."""
    if number <= len(BODIES):
        return position(BODIES[number - 1], middle, half, count)
    size, period, longitude = {12: NUTATIONS, 13: LIBRATIONS, 15: CLOCK}[number]
    rows = waves(*turn(period, longitude, middle, half), count)
    rows = [[Decimal(size) * value for value in row] for row in rows]
    return {12: rows, 13: rows + rows[:1], 15: rows[1:]}[number]


def printed(value):
    """A number as JPL prints it: 18 digits behind the point and an exponent of ten."""
    value = Context(prec=18, rounding=ROUND_HALF_EVEN).plus(value)
    if value == 0:
        return "0.000000000000000000D+00"
    digits = "".join(map(str, value.as_tuple().digits)).ljust(18, "0")
    exponent = value.adjusted() + 1
    return f"{'-' if value < 0 else ''}0.{digits}D{'-' if exponent < 0 else '+'}{abs(exponent):02}"


def lines_of(words, width, count):
    """Words in columns, so many on a line."""
    for at in range(0, len(words), count):
        yield "  " + "".join(word.ljust(width) for word in words[at:at + count]).rstrip()


def number_lines(values):
    """Numbers in threes; the last line is filled up with zeros."""
    values = values + [Decimal(0)] * (-len(values) % 3)
    for at in range(0, len(values), 3):
        yield "".join(printed(value).rjust(26) for value in values[at:at + 3])


def block(number, ncoeff, days, columns):
    """The lines of a block, by its number from 1."""
    start = FIRST_DAY + days * (number - 1)
    places = [start, start + days] + [Decimal(0)] * (ncoeff - 2)
    for index, (at, count, granules) in enumerate(zip(*columns), 1):
        half = days / (2 * granules) if granules else None
        for granule in range(granules if count else 0):
            for row in components(index, start + half * (2 * granule + 1), half, count):
                places[at - 1:at - 1 + count] = row
                at += count
    assert len(places) == ncoeff
    yield f"{number:6}{ncoeff:6}"
    yield from number_lines(places)


def header(name, ncoeff, dates, count, au, emrat, rows):
    """The lines of a header."""
    number = Decimal(name[2:5])
    values = {"DENUM": number, "LENUM": number, "AU": Decimal(au), "EMRAT": Decimal(emrat)}
    values["CLIGHT"] = Decimal("299792.458")
    names = DE405_NAMES[:count] if count <= len(DE405_NAMES) else DE405_NAMES[:8]
    names = names + [f"MADE{i:03}" for i in range(len(names) + 1, count + 1)]
    yield f"KSIZE={2 * ncoeff:6}    NCOEFF={ncoeff:6}"
    yield from ("", "GROUP   1010", "", f"LAYOUT OF JPL PLANETARY EPHEMERIS {name}, WITH BLOCKS OF MADE NUMBERS")
    yield from (f"Start Epoch: JED= {dates[0]}", f"Final Epoch: JED= {dates[1]}")
    yield from ("", "GROUP   1030", "", f"{dates[0]:>12}{dates[1]:>12}{dates[2]:>12}")
    yield from ("", "GROUP   1040", "", f"{count:6}", *lines_of(names, 8, 10))
    yield from ("", "GROUP   1041", "", f"{count:6}")
    yield from number_lines([values.get(name, Decimal(0)) for name in names])
    yield from ("", "GROUP   1050", "", *("".join(word.rjust(6) for word in row.split()) for row in rows))
    yield from ("", "GROUP   1070", "")


def example(name, ncoeff, start, end, days, count, au, emrat, rows, blocks):
    """The lines of an example."""
    columns = [list(map(int, row.split())) for row in rows]
    yield from header(name, ncoeff, (start, end, days), count, au, emrat, rows)
    for number in range(1, blocks + 1):
        yield from block(number, ncoeff, Decimal(days), columns)


def main():
    """Writes the examples."""
    asked = argparse.ArgumentParser(description=__doc__, formatter_class=argparse.RawDescriptionHelpFormatter)
    asked.add_argument("folder", metavar="FOLDER", help="the folder to put the examples in, which is made if it is missing")
    folder = asked.parse_args().folder
    os.makedirs(folder, exist_ok=True)
    for layout in LAYOUTS:
        with localcontext() as context:
            context.prec = 50
            text = "".join(line + "\n" for line in example(*layout))
        path = os.path.join(folder, f"{layout[0].lower()}-layout.asc")
        with open(path, "w", encoding="ascii", newline="\n") as file:
            file.write(text)


if __name__ == "__main__":
    main()
