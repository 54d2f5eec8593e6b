"""Extremes of distances and separations of JPL's year, proved by two searches.

What is right is taken from elsewhere: 357,130 km is the Moon's least distance in the span of the file, found by
bisection with the command; and each value and its hour are compared with those of a grid of times, in doubles."""

import unittest
from fractions import Fraction

import numpy as np

import finder
from finder.searches.extremes import _kilometres
from finder.seen.vectors import angle, length
from tests.common import PROGRAM, YEAR, InFolder, stand_in

EARTH = {"observer": "earth"}
YEAR_2000 = {"start": "2000-01-01", "end": "2001-01-01", **EARTH}
ARC_SECOND = 1 / 3_600


def grid(start, end, target, second=None, step=600):
    """The distances in km, or the angles in degrees, seen from the Earth at times of a grid."""
    series = finder.Series(YEAR)
    times = np.arange(start, end + 1, step, dtype=float)
    places = [series.seen(body, "earth", "eq", times) for body in (target, second) if body]
    return length(places[0]) if second is None else angle(*places)


class Extremes(InFolder):
    def proved(self, found, wanted, way):
        """The bounds and the windows of both searches are those that prove an extreme in a direction."""
        beyond, short = found.certificates()
        for made, windows in ((beyond, found.beyond), (short, found.short)):
            self.assertEqual(finder.verify(YEAR, made).windows, windows)
        self.assertEqual(len(found.beyond), 0)
        self.assertTrue(len(found.short) and found.short.certain.all())
        self.assertAlmostEqual(found.value, wanted, delta=found.margin)
        self.assertTrue(any(span.first <= found.window.last <= span.last for span in found.where))
        if found.quantity == "distance":
            limits = [float(windows.request_words["values"]) for windows in (found.beyond, found.short)]
            self.assertAlmostEqual(way * (limits[0] - found.value), found.margin, places=6)
            self.assertAlmostEqual(way * (found.value - limits[1]), found.margin, places=6)

    def test_the_moon_in_the_span_of_the_file(self):
        found = finder.least(YEAR, "moon", **EARTH)
        self.proved(found, 357_130, -1)
        self.assertEqual((round(found.value), found.margin), (357_130, 1.0))
        numbers = grid(-734_400, 32_443_200, "moon")
        self.assertAlmostEqual(found.value, numbers.min(), delta=1)
        self.assertAlmostEqual(found.window.last, -734_400 + 600 * numbers.argmin(), delta=600)

    def test_the_moon_in_the_year_2000(self):
        start, end = -43_200, 31_579_200
        numbers = grid(start, end, "moon")
        nearest, farthest = finder.least(YEAR, "moon", **YEAR_2000), finder.greatest(YEAR, "moon", **YEAR_2000)
        self.proved(nearest, numbers.min(), -1)
        self.proved(farthest, numbers.max(), 1)
        self.assertAlmostEqual(nearest.window.last, start + 600 * numbers.argmin(), delta=600)
        self.assertAlmostEqual(farthest.window.last, start + 600 * numbers.argmax(), delta=600)
        self.assertEqual((nearest.window.turn, farthest.window.turn), ("rise", "fall"))

    def test_venus_and_jupiter(self):
        found = finder.least(YEAR, "venus", "jupiter", **EARTH)
        self.proved(found, grid(11_800_000, 11_860_000, "venus", "jupiter", step=1).min(), -1)
        self.assertEqual((found.margin, len(found.where)), (ARC_SECOND, 1))
        self.assertAlmostEqual(found.value * 3_600, 42.5, delta=0.1)
        # both cosines are rounded towards the extreme, so that what is proved is no less than what is said
        cosines = [windows.request_words["values"] for windows in (found.beyond, found.short)]
        for cosine, bound, up in zip(cosines, (found.value - ARC_SECOND, found.value + ARC_SECOND), (False, True)):
            self.assertEqual(cosine[:17], finder.cosine_of_degrees(bound, up=up)[:17])

    def test_an_extreme_at_an_end_of_the_span(self):
        found = finder.greatest(YEAR, "venus", "sun", **EARTH)
        self.proved(found, grid(-734_400, 32_443_200, "venus", "sun").max(), 1)
        self.assertEqual(found.window, finder.Window(32_443_200, 32_443_200, None))
        self.assertEqual(found.where[-1].last, 32_443_200)
        days = {"start": "2000-03-02", "end": "2000-03-09", **EARTH}
        self.assertEqual(finder.least(YEAR, "moon", **days).window.turn, None)

    def test_other_margins(self):
        found = finder.least(YEAR, "moon", margin=0.001, **YEAR_2000)
        self.proved(found, grid(15_760_000, 15_764_000, "moon", step=1).min(), -1)
        self.assertEqual(found.margin, 0.001)
        wide = finder.greatest(YEAR, "moon", margin=1_000, **YEAR_2000)
        self.assertGreater(len(wide.where), 1)
        self.assertEqual(len(wide.where), int((wide.short.rises).sum()))

    def test_bodies_beyond_a_milliard_of_kilometres(self):
        # a bound has 18 digits at most, ten of them before the point here
        for call, way, numbers in ((finder.least, -1, np.min), (finder.greatest, 1, np.max)):
            self.proved(call(YEAR, "saturn", **EARTH), numbers(grid(-734_400, 32_443_200, "saturn")), way)
        self.assertEqual(_kilometres(Fraction(9_999_999_999_999_999_999, 10**10), 1), "1000000000")
        self.assertEqual(_kilometres(Fraction(1_347_789_912_123_456_789, 10**9), -1), "1347789912.12345678")
        self.assertEqual(_kilometres(Fraction(1, 3), 1), "0.333333334")

    def test_words_that_are_none(self):
        for margin, error in ((float("nan"), ValueError), (float("inf"), ValueError), ("wide", ValueError)):
            with self.assertRaises(error):
                finder.least(YEAR, "moon", margin=margin, **YEAR_2000)
        # (the spans in which an extreme lies are those of both directions)
        with self.assertRaisesRegex(TypeError, r"least\(\) takes no option 'dir'"):
            finder.least(YEAR, "moon", dir="rise", **YEAR_2000)
        with self.assertRaisesRegex(TypeError, "did you mean 'start'"):
            finder.greatest(YEAR, "moon", strat="2000-02-01", **EARTH)

    def test_what_is_not_proved(self):
        for call, words in (
            (finder.least, {"margin": 100_000, **YEAR_2000}),
            (finder.greatest, {"margin": 1e6, **YEAR_2000}),
            (finder.least, {"depth": 3, **YEAR_2000}),
        ):
            with self.assertRaises(finder.NotProved):
                call(YEAR, "moon", **words)
        with self.assertRaisesRegex(ValueError, "above 0"):
            finder.least(YEAR, "moon", margin=0, **YEAR_2000)
        with self.assertRaisesRegex(ValueError, "whole seconds"):
            finder.least(YEAR, "moon", tick=1000, **YEAR_2000)

    def test_a_time_that_lies_beyond(self):
        # a stand-in of the command that knows of no apsis, so that the ends alone are candidates
        forget = "sed '/^C/d; s/certain [0-9]*/certain 0/'"
        program = stand_in(
            self.folder, f'case "$*" in *=apsis*) {PROGRAM} "$@" | {forget} ;; *) exec {PROGRAM} "$@" ;; esac'
        )
        with self.assertRaisesRegex(finder.NotProved, "beyond it"):
            finder.least(YEAR, "moon", program=program, **YEAR_2000)


if __name__ == "__main__":
    unittest.main()
