"""The rows of the tables of values are answered as they stand, and a row that is not is printed."""

from __future__ import annotations

import contextlib
import io
import tempfile
import unittest
from pathlib import Path

from tests.reference.row_fields import bytes_of_field, field_of_bytes
from tests.reference.value_rows import ANSWERS, DATA, answered_row, differing_rows, main, rows_of


class Tables(unittest.TestCase):
    """All tables."""

    def test_each_row_is_answered_as_it_stands(self) -> None:
        kinds = set()
        for table in sorted(DATA.glob("*.rows")):
            with self.subTest(table=table.name):
                self.assertEqual(list(differing_rows(table)), [])
            kinds |= {row.split(" ")[0] for _, row in rows_of(table)}
        self.assertEqual(kinds, set(ANSWERS))

    def test_a_changed_row_is_printed(self) -> None:
        with tempfile.TemporaryDirectory() as folder, contextlib.redirect_stdout(io.StringIO()) as said:
            table = Path(folder, "some.rows")
            table.write_text("# words\n\ndecimal 32. ok 32 1 none\ndecimal 5. ok 5 0 none\n")
            self.assertEqual(main([str(table)]), 1)
        answered = "some.rows: line 3 is answered: decimal 32. ok 32 0 none\n"
        self.assertEqual(said.getvalue(), answered + "some.rows: 1 of 2 rows are answered as they stand\n")


class NewRows(unittest.TestCase):
    """A row is answered from what it gives alone."""

    def test_what_follows_is_answered(self) -> None:
        self.assertEqual(answered_row("interval add -3 5 0 1 2 4"), "interval add -3 5 0 1 2 4 13 37 0")
        self.assertEqual(answered_row("limit - length 68719476736 0"), "limit constant length 68719476736 0")

    def test_rows_that_are_none(self) -> None:
        formula = "formula line.txt mercury mercury ssb eq 0 0 x"
        for row in ("", "interval add 1", "interval add x 5 0 1 2 4", "other 1", formula):
            with self.assertRaises(ValueError):
                answered_row(row)

    def test_fields_of_bytes(self) -> None:
        for text in (b"", b" ", b"a%b", b"\n\r\t", "é".encode(), bytes(range(256))):
            field = field_of_bytes(text)
            self.assertNotIn(" ", field)
            self.assertEqual(bytes_of_field(field), text)


if __name__ == "__main__":
    unittest.main()
