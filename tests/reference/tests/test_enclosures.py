"""Intervals, bases, motions and enclosures: each holds the exact value, as fractions have it."""

from __future__ import annotations

import unittest
from fractions import Fraction
from random import Random
from typing import Callable, Sequence

from tests.reference import intervals
from tests.reference.bodies import View
from tests.reference.brute_force import polynomial
from tests.reference.chebyshev import Motion, Pair, row_q, row_r, row_t, row_u
from tests.reference.decimals import Decimal
from tests.reference.enclosures import Span
from tests.reference.ephemeris import Column, Ephemeris, Granule, Header
from tests.reference.expressions import Coordinate, Cosine, Difference, Expression, Length, Product, Quantity
from tests.reference.expressions import SignedSquare, Sum, passed_limit
from tests.reference.intervals import MAX_END, Interval
from tests.support.settings import REFERENCE_ROUNDS

ONE = 2**60
QUANTITIES: tuple[Quantity, ...] = ("position", "velocity")
LARGEST = (Decimal(687194767359999999, -7), Decimal(-687194767359999999, -7), Decimal(68719476735, 0))
LENGTHS = (1, 1, 2, 3, 4, 5, 7, 27, 60, 1000, 86_400, 2_764_800, 5_529_600_000, 2**40 - 1, 2**40)


def random_interval(rng: Random) -> Interval:
    """An interval whose ends are often at the limit."""
    ends = [0, 1, -1, MAX_END, -MAX_END, MAX_END // 2, rng.randrange(-MAX_END, MAX_END + 1), rng.randrange(-100, 100)]
    low, high = sorted(rng.choice(ends) for _ in range(2))
    return Interval(low, high, rng.choice([0, -84, -24, 5, rng.randrange(-300, 300), rng.randrange(-70, 70)]))


def random_coefficient(rng: Random) -> Decimal:
    """A coefficient below 2^36 in magnitude, often at that limit, or tiny, or 0."""
    mantissa = rng.randrange(-(10 ** rng.randrange(1, 19)), 10 ** rng.randrange(1, 19))
    any_number = Decimal(mantissa, rng.randrange(-25, -7)) if mantissa else Decimal(0, 0)
    tiny = Decimal(rng.randrange(1 - 10**18, 10**18), rng.randrange(-139, -17))
    return rng.choice([*LARGEST, any_number, any_number, tiny, Decimal(0, 0)])


def random_components(rng: Random, count: int) -> tuple[tuple[Decimal, ...], ...]:
    """Three components."""
    return tuple(tuple(random_coefficient(rng) for _ in range(count)) for _ in range(3))


def random_granule(rng: Random) -> Granule:
    """A granule at the limits of lengths, starts and counts."""
    length = rng.choice([*LENGTHS, rng.randrange(1, 2**40)])
    start = rng.choice([0, -43_200, 2**50 - length, -(2**50), rng.randrange(-(2**49), 2**49)])
    count = rng.choice([1, 2, 3, 4, 14, 31, 32, 32])
    return Granule(start, length, random_components(rng, count))


def random_span(rng: Random, start: int, end: int) -> Span:
    """A span within two times."""
    first = rng.choice([start, end, (start + end) // 2, rng.randrange(start, end + 1)])
    lasts = [first, first + 1, first + 2, end, rng.randrange(first, end + 1), first + rng.randrange(1000)]
    return Span(first, min(rng.choice(lasts), end))


def exact_motion(granule: Granule, axis: int, time: int) -> tuple[Fraction, Fraction]:
    """Position and velocity of a component at a time."""
    coefficients = [number.value() for number in granule.components[axis]]
    position, slope = polynomial(coefficients, Fraction(2 * (time - granule.start), granule.length) - 1)
    return position, slope * Fraction(2, granule.length)


class Intervals(unittest.TestCase):
    """Operations hold the exact results of any numbers that the operands hold."""

    def test_the_documents_sum(self) -> None:
        self.assertEqual(intervals.add(Interval(-3, 5, 0), Interval(1, 2, 4)), Interval(13, 37, 0))

    def check(self, result: Interval, number: Fraction, name: str) -> None:
        """The result holds the number, and its ends are within the limit."""
        self.assertTrue(result.holds(number), (name, result, number))
        self.assertTrue(-MAX_END <= result.low <= result.high <= MAX_END, (name, result))

    def test_operations(self) -> None:
        rng = Random(5)
        for _ in range(100 * REFERENCE_ROUNDS):
            x, y = random_interval(rng), random_interval(rng)
            v = rng.choice([x.lower(), x.upper(), (x.lower() + x.upper()) / 2])
            w = rng.choice([y.lower(), y.upper(), (2 * y.lower() + y.upper()) / 3])
            self.check(intervals.add(x, y), v + w, "sum")
            self.check(intervals.subtract(x, y), v - w, "difference")
            self.check(intervals.multiply(x, y), v * w, "product")
            self.check(intervals.signed_square(x), v * abs(v), "signed square")
            for number in (v, w):
                self.check(intervals.hull(x, y), number, "hull")
            if y.holds(v):
                self.check(intervals.intersection(x, y), v, "intersection")

    def test_scale(self) -> None:
        rng = Random(6)
        for _ in range(34 * REFERENCE_ROUNDS):
            length = rng.choice([1, 2, 3, 2**40, rng.randrange(1, 2**40)])
            ends = [2**126 - 1, 1 - 2**126, 0, rng.randrange(-(2**126) + 1, 2**126), rng.randrange(-9, 9)]
            low, high = sorted(rng.choice(ends) for _ in range(2))
            self.check(intervals.scale(low, high, -70, length), Fraction(2 * low, length) / 2**70, "scale")

    def test_normalizing_takes_the_finest_unit(self) -> None:
        rng = Random(7)
        for _ in range(34 * REFERENCE_ROUNDS):
            most = 2 ** rng.randrange(1, 127)
            low, high = sorted(rng.choice([0, most, -most, rng.randrange(-most, most)]) for _ in range(2))
            shift = 0
            while low // 2**shift < -MAX_END or -(-high // 2**shift) > MAX_END:
                shift += 1
            normalized = Interval(low // 2**shift, -(-high // 2**shift), shift)
            self.assertEqual(intervals.normalize(low, high, 0), normalized)

    def test_there_is_no_interval_of_no_number(self) -> None:
        with self.assertRaises(ValueError):
            intervals.intersection(Interval(0, 1, 0), Interval(2, 3, 0))


def exact_row(x: Fraction, y: Fraction, count: int, kind: int) -> list[tuple[Fraction, Fraction]]:
    """T (kind 1) or U (kind 2) at both arguments, by the recurrence."""
    row = [(Fraction(1), Fraction(1)), (kind * x, kind * y)]
    while len(row) < count:
        row.append((2 * x * row[-1][0] - row[-2][0], 2 * y * row[-1][1] - row[-2][1]))
    return row[:count]


class Bases(unittest.TestCase):
    """The rows hold the polynomials and their divided differences."""

    def test_the_documents_value(self) -> None:
        half = ONE // 2
        self.assertEqual(row_t((half, half), 4)[3], (-ONE, -ONE))

    def test_rows(self) -> None:
        rng = Random(8)
        for _ in range(17 * REFERENCE_ROUNDS):
            low = rng.choice([-ONE, ONE, 0, 1, -1, ONE // 2, rng.randrange(-ONE, ONE + 1)])
            high = rng.choice([low, ONE, min(ONE, low + 1), rng.randrange(low, ONE + 1)])
            count = rng.choice([1, 2, 3, 32])
            x, y = (Fraction(rng.choice([low, high, rng.randrange(low, high + 1)]), ONE) for _ in range(2))
            t, u = row_t((low, high), count), row_u((low, high), count)
            exact_t, exact_u = exact_row(x, y, count, 1), exact_row(x, y, count, 2)
            self.check(t, [value for value, _ in exact_t], 60)
            self.check(u, [value for value, _ in exact_u], 50)
            if x != y:
                self.check(row_q((low, high), count, t), [(b - a) / (y - x) for a, b in exact_t], 46)
                self.check(row_r((low, high), count, u), [(b - a) / (y - x) for a, b in exact_u], 44)

    def check(self, row: Sequence[Pair], exact: Sequence[Fraction], bits: int) -> None:
        """Each entry holds its value."""
        for k, ((low, high), value) in enumerate(zip(row, exact)):
            self.assertTrue(low <= value * 2**bits <= high, (bits, k))


class Motions(unittest.TestCase):
    """Positions, velocities and steps hold the exact ones."""

    def test_motions(self) -> None:
        rng = Random(9)
        for _ in range(8 * REFERENCE_ROUNDS):
            granule, axis = random_granule(rng), rng.randrange(3)
            span = random_span(rng, granule.start, granule.start + granule.length)
            motion = Motion(granule, span)
            ranges = motion.position(axis), motion.velocity(axis)
            steps = motion.position_step(axis), motion.velocity_step(axis)
            for time in {*span, span.middle, rng.randrange(span.first, span.last + 1)}:
                now = exact_motion(granule, axis, time)
                self.assertTrue(all(found.holds(value) for found, value in zip(ranges, now)), (granule, span))
                if time < span.last:
                    then = exact_motion(granule, axis, time + 1)
                    changes = [after - before for before, after in zip(now, then)]
                    self.assertTrue(all(found.holds(value) for found, value in zip(steps, changes)), (granule, span))

    def test_no_span_reaches_over_a_granule(self) -> None:
        with self.assertRaises(ValueError):
            Motion(Granule(0, 10, random_components(Random(0), 2)), Span(5, 11))


def random_expression(rng: Random, depth: int) -> Expression:
    """An expression of at most so many operations within one another."""
    how = rng.randrange(3, 8) if depth else rng.randrange(3)
    if how == 0:
        return Coordinate(rng.choice(QUANTITIES), rng.randrange(2), rng.randrange(3))
    if how == 1:
        return Length(random_coefficient(rng))
    if how == 2:
        return Cosine(Decimal(rng.randrange(-(10**17), 10**17 + 1), -17))
    if how == 3:
        return SignedSquare(random_expression(rng, depth - 1))
    operations: list[Callable[[Expression, Expression], Expression]] = [Sum, Difference, Product, Product]
    parts = [random_expression(rng, rng.randrange(depth)) for _ in range(2)]
    return rng.choice(operations)(parts[0], parts[1])


def exact_value(expression: Expression, granules: Sequence[Granule], time: int) -> Fraction:
    """The value of an expression whose targets move by two granules."""
    if isinstance(expression, Coordinate):
        motion = exact_motion(granules[expression.target], expression.axis, time)
        return motion[expression.quantity == "velocity"]
    if isinstance(expression, (Length, Cosine)):
        return expression.value.value()
    if isinstance(expression, SignedSquare):
        value = exact_value(expression.operand, granules, time)
        return value * abs(value)
    left, right = (exact_value(part, granules, time) for part in (expression.left, expression.right))
    if isinstance(expression, Product):
        return left * right
    return left + right if isinstance(expression, Sum) else left - right


def ephemeris_of_two(rng: Random) -> Ephemeris:
    """An ephemeris of one block in which Mercury and Venus have a granule each."""
    count = rng.choice([1, 2, 3, 5, 14])
    columns = [Column(3, count, 1), Column(3 + 3 * count, count, 1)] + [Column(3, 0, 0)] * 11
    header = Header(2 + 6 * count, rng.choice([27, 60, 86_400, 5_529_600]), Decimal(81, 0), tuple(columns))
    ephemeris = Ephemeris(header, rng.randrange(-(10**9), 10**9))
    ephemeris.blocks.append(tuple(random_coefficient(rng) for _ in range(header.ncoeff)))
    return ephemeris.in_ticks(rng.choice([1, 1000]))


class Enclosures(unittest.TestCase):
    """Mid, range and step of whole expressions hold the exact value in the middle, everywhere, and its changes."""

    def test_expressions(self) -> None:
        rng = Random(10)
        tried = 0
        while tried < 10 * REFERENCE_ROUNDS:
            ephemeris, expression = ephemeris_of_two(rng), random_expression(rng, rng.randrange(5))
            if passed_limit(expression):
                continue
            tried += 1
            granules = [ephemeris.granule(number, ephemeris.start) for number in (1, 2)]
            span = random_span(rng, ephemeris.start, ephemeris.end)
            found = View(ephemeris, ("mercury", "venus"), "ssb", "eq").over(span).enclosure(expression)
            self.assertTrue(found.mid.holds(exact_value(expression, granules, span.middle)))
            for time in {*span, rng.randrange(span.first, span.last + 1)}:
                now = exact_value(expression, granules, time)
                self.assertTrue(found.range.holds(now))
                if time < span.last:
                    self.assertTrue(found.step.holds(exact_value(expression, granules, time + 1) - now))


if __name__ == "__main__":
    unittest.main()
