"""Commands of the documents print by the reference what the documents show.

Those of docs/guide/formats.md are light and run here; `python3 -m tests.reference.documented` runs those of others too.
"""

from __future__ import annotations

import contextlib
import io
import tempfile
import unittest
from pathlib import Path

from tests.reference.documented import Example, examples_of, main
from tests.support.settings import of_the_whole


class Documents(unittest.TestCase):
    """The examples of a document."""

    def compare(self, *words: str) -> str:
        """Runs the command, which has to find no difference, and returns what it prints."""
        with contextlib.redirect_stdout(io.StringIO()) as said:
            status = main(list(words))
        self.assertEqual(status, 0, said.getvalue())
        return said.getvalue()

    def test_readme(self) -> None:
        self.assertIn("README.md: 1 of 1 commands", self.compare("tests/reference/README.md"))

    @of_the_whole
    def test_formats(self) -> None:
        self.assertRegex(self.compare("docs/guide/formats.md"), r"formats\.md: [1-9][0-9] of [1-9][0-9] commands")


class Reading(unittest.TestCase):
    """How examples are read and compared."""

    TEXT = "# A\n\n    $ echo 1\n    1\n    $ true\n\ntext\n\n    none\n\n## B\n\n    $ echo 2; echo 3\n    2\n    3\n"

    def test_examples(self) -> None:
        first = [Example("A", 3, "echo 1", "1\n"), Example("A", 5, "true", "")]
        self.assertEqual(list(examples_of(self.TEXT)), [*first, Example("B", 13, "echo 2; echo 3", "2\n3\n")])

    def test_one_section_alone(self) -> None:
        with tempfile.TemporaryDirectory() as folder, contextlib.redirect_stdout(io.StringIO()) as said:
            document = Path(folder, "page.md")
            document.write_text(self.TEXT.replace("    1\n", "    4\n"))
            self.assertEqual(main(["--section", "B", str(document)]), 0)
        self.assertIn("page.md: 1 of 1 commands print what they show", said.getvalue())

    def test_a_difference_is_printed(self) -> None:
        with tempfile.TemporaryDirectory() as folder, contextlib.redirect_stdout(io.StringIO()) as said:
            document = Path(folder, "page.md")
            document.write_text(self.TEXT.replace("    1\n", "    4\n") + "    $ ./finder scalar\n    finder: x\n")
            self.assertEqual(main([str(document)]), 1)
        self.assertIn("page.md: line 3: echo 1\n  prints: 1\n", said.getvalue())
        self.assertIn("  prints: finder: words: 63 BadValue quad\n", said.getvalue())
        self.assertIn("page.md: 2 of 4 commands print what they show", said.getvalue())


if __name__ == "__main__":
    unittest.main()
