"""VERSION is the one place of the version: whatever else names it has the same."""

import re
import unittest

from tests.support.records import TOP

VERSION = (TOP / "VERSION").read_text("ascii").strip()
# What names the version, and the form in which it does. The change log may begin with what is not released yet.
NAMED = {
    "CITATION.cff": r'^version: "(.+)"$',
    "CHANGELOG.md": r"^## ([0-9.]+), ",
    "packaging/changelog": r"^finder \((.+)\) ",
    "release/finder-x86_64-linux.txt": r"^# finder ([0-9.]+) for Linux",
    "release/finder-aarch64-linux.txt": r"^# finder ([0-9.]+) for Linux",
}


class Version(unittest.TestCase):
    """Looks at the files that name the version."""

    def test_form(self):
        self.assertRegex(VERSION, r"^\d+\.\d+(\.\d+)?$")

    def test_what_names_it(self):
        for name, form in NAMED.items():
            with self.subTest(name=name):
                found = re.findall(form, (TOP / name).read_text("utf-8"), re.MULTILINE)
                self.assertEqual(found[:1], [VERSION])

    def test_the_dates_are_those_of_the_package(self):
        found = re.search(r"^date-released: (\d+)-(\d+)-(\d+)$", (TOP / "CITATION.cff").read_text("utf-8"), re.MULTILINE)
        year, _, day = (int(it) for it in found.groups())
        self.assertRegex((TOP / "CHANGELOG.md").read_text("utf-8"), rf"(?m)^## {re.escape(VERSION)}, {day} \w+ {year}$")


if __name__ == "__main__":
    unittest.main()
