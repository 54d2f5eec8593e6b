"""Lines, numbers and times, by the rules and the examples of docs/guide/formats.md."""

from __future__ import annotations

import unittest
from datetime import datetime, timedelta
from random import Random

from tests.reference.decimals import Decimal, NumberFault, read_decimal, read_whole
from tests.reference.lines import Line, LongLine, counted_lines, cut_lines, end_number
from tests.reference.times import FIRST_SECOND, LAST_SECOND, TimeFault, read_time, time_text


class Lines(unittest.TestCase):
    """Section "Texts", its first part."""

    def test_ends(self) -> None:
        self.assertEqual(cut_lines(b"a\r\nb\n\nc"), [b"a", b"b", b"", b"c"])
        self.assertEqual(cut_lines(b"a\r\r\nb\rc"), [b"a\r", b"b\rc"])

    def test_a_last_piece_that_is_a_return_is_a_blank_line(self) -> None:
        self.assertEqual(end_number(b"a\n\r"), 3)
        self.assertEqual(end_number(b"a\n"), 2)
        self.assertEqual(end_number(b""), 1)

    def test_tokens(self) -> None:
        self.assertEqual(list(counted_lines(b" \n\tx  y\t\n")), [Line(2, [b"x", b"y"])])

    def test_a_long_line_ends_the_text(self) -> None:
        whole, long = b"x" * 4096, b" " * 4097
        self.assertEqual(list(counted_lines(whole + b"\r\n" + long + b"\nx")), [Line(1, [whole]), LongLine(2)])


class Numbers(unittest.TestCase):
    """Section "Texts", its second part."""

    def test_examples(self) -> None:
        rows = {
            b"0.230542450000000000D+07": Decimal(230542450000000000, -11),
            b"32.": Decimal(32, 0),
            b".5": Decimal(5, -1),
            b"-0.0e5": Decimal(0, 0),
            b".": NumberFault.NOT_NUMBER,
            b"+": NumberFault.NOT_NUMBER,
            b"1d": NumberFault.NOT_NUMBER,
        }
        for word, number in rows.items():
            self.assertEqual(read_decimal(word), number, word)

    def test_limits(self) -> None:
        self.assertEqual(read_decimal(b"0" * 39 + b"1"), Decimal(1, 0))
        self.assertEqual(read_decimal(b"0" * 40 + b"1"), NumberFault.NOT_NUMBER)
        self.assertEqual(read_decimal(b"-0." + b"9" * 18), Decimal(1 - 10**18, -18))
        self.assertEqual(read_decimal(b"1" + b"0" * 18), NumberFault.TOO_MANY_DIGITS)
        self.assertEqual(read_decimal(b"1e-99"), Decimal(1, -99))
        self.assertEqual(read_decimal(b"0e100"), NumberFault.EXPONENT_RANGE)
        self.assertEqual(read_decimal(b"1" * 19 + b"e100"), NumberFault.TOO_MANY_DIGITS)

    def test_values_are_those_of_fractions(self) -> None:
        rng = Random(1)
        for _ in range(300):
            number = Decimal(rng.randrange(-(10**18), 10**18), rng.randrange(-139, 100))
            limit = rng.choice([1, 2**36, 10**rng.randrange(40)])
            self.assertEqual(number.has_magnitude(limit), abs(number.value()) >= limit)
            self.assertEqual(number.value() * 10**139, number.mantissa * 10 ** (number.exponent + 139))

    def test_whole_numbers(self) -> None:
        rows = {b"007": 7, b"999999999": 999999999, b"0000000001": None, b"": None, b"+1": None, b"1.": None}
        self.assertEqual({word: read_whole(word) for word in rows}, rows)


class Times(unittest.TestCase):
    """Section "What is printed", its last part."""

    def test_ends_of_the_range(self) -> None:
        self.assertEqual(time_text(FIRST_SECOND), "-004713-11-24T12:00:00")
        self.assertEqual(time_text(LAST_SECOND), "8977-06-07T12:00:00")
        self.assertEqual(read_time(b"8977-06-07T12:00:01"), TimeFault.OUT_OF_RANGE)
        self.assertEqual(read_time(b"8977-06-07T12:00:00.001", 1000), TimeFault.OUT_OF_RANGE)

    def test_examples(self) -> None:
        self.assertEqual(time_text(0), "2000-01-01T12:00:00")
        self.assertEqual(read_time(b"2000-01-16T23:59:59.750", 1000), 1339199750)
        self.assertEqual(read_time(b"-734400"), read_time(b"1999-12-24T00:00:00"))
        self.assertEqual(read_time(b"-734400", 1000), -734400000)

    def test_dates_are_those_of_the_calendar(self) -> None:
        rng = Random(2)
        for _ in range(500):
            second = rng.randrange(-63_082_324_800, LAST_SECOND)
            date = datetime(2000, 1, 1, 12) + timedelta(seconds=second)
            text = f"{date.year:04d}" + date.strftime("-%m-%dT%H:%M:%S")
            self.assertEqual(time_text(second), text)
            self.assertEqual(read_time(text.encode()), second)

    def test_the_calendar_repeats_itself_before_year_1(self) -> None:
        rng = Random(3)
        era = 146_097 * 86_400
        for _ in range(300):
            second = rng.randrange(FIRST_SECOND, 0)
            text = time_text(second)
            self.assertEqual(read_time(text.encode()), second)
            if text.startswith("-"):
                later = time_text(second + 20 * era)
                self.assertEqual(int(later[:4]) - 8000, int(text[:7]))
                self.assertEqual(later[4:], text[7:])

    def test_words_that_are_no_times(self) -> None:
        words = [b"2000-02-30T00:00:00", b"1900-02-29T00:00:00", b"-000000-01-01T00:00:00", b"2000-01-01T24:00:00"]
        words += [b"2000-01-01T00:00:60", b"2000-1-1T00:00:00", b"+5", b"1.5", b"", b"1234567890123", b"2000-01-01"]
        for word in words:
            self.assertEqual(read_time(word, 1000), TimeFault.NOT_TIME, word)
        self.assertEqual(read_time(b"2000-01-01T12:00:00.000"), TimeFault.NOT_TIME)


if __name__ == "__main__":
    unittest.main()
