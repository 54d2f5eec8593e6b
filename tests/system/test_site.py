"""The documents as a site: no link is dead, sentences are short, and Sphinx builds the pages without a warning.

The pages as they stand: each relative link of a page leads to a file, and to a heading of it; README.md has at most 70
lines of 100 columns; each page for users says first for whom it is; the sentences of the pages have the lengths of
`BOUNDS`. The whole run builds the site, where Sphinx is there. Sphinx warns of a name without a reference and of a public
name of the package without one of its own. In the built site each link leads to a page and to a place in it, and each page
that is named is a link.
"""

from __future__ import annotations

import re
import subprocess
import sys
import tempfile
import unicodedata
import unittest
from html.parser import HTMLParser
from pathlib import Path
from urllib.parse import unquote, urlsplit

from tests.support.settings import TOP, of_the_whole

FOLDERS = ("bench", "crates", "dev", "docs", "examples", "packaging", "python", "tests")
# What `docs/build` makes of the crates.
MADE = TOP / "docs/proved/crates"
FOR_USERS = ("docs/start", "docs/guide", "docs/python")
# The mean words of a sentence and the most, of the pages in a folder.
BOUNDS = {"docs/start": (17.9, 40), "docs/guide": (17.9, 40), "docs/python": (17.9, 40)}
# A page whose links are those of its place in the Debian package, at the top of all pages.
OF_PACKAGE = TOP / "packaging/README.md"
README_LINES, README_COLUMNS = 70, 100
CODE = re.compile(r"^```.*?^```$|^    .*?$|`[^`\n]+`", re.MULTILINE | re.DOTALL)
LINK = re.compile(r"\]\(<?([^)\s>]+)>?\)")
HEADING = re.compile(r"^#{1,6} +(.+?) *$", re.MULTILINE)
PAGE = re.compile(r"(?:[\w./-]+/)?[\w-]+\.md")


def pages() -> list[Path]:
    """All pages in Markdown, but for those that `docs/build` makes."""
    below = (page for name in FOLDERS for page in (TOP / name).rglob("*.md"))
    return sorted(page for page in (*TOP.glob("*.md"), *below) if MADE not in page.parents)


def slug(heading: str) -> str:
    """The anchor of a heading, as GitHub and MyST make it."""
    plain = re.sub(r"[`*]|\[([^\]]*)\]\([^)]*\)", r"\1", heading)
    kept = (each for each in plain.strip().lower().replace(" ", "-") if each.isalnum() or each in "-_")
    return unicodedata.normalize("NFC", "".join(kept))


def anchors(page: Path) -> set[str]:
    """The anchors of the headings of a page."""
    text = re.sub(r"^```.*?^```$", "", page.read_text(encoding="utf-8"), flags=re.MULTILINE | re.DOTALL)
    return {slug(found[1]) for found in HEADING.finditer(text)}


def dead_links(page: Path) -> list[str]:
    """The relative links of a page that lead to no file, or to no heading of it."""
    folder = TOP if page == OF_PACKAGE else page.parent
    dead = []
    for found in LINK.finditer(CODE.sub("", page.read_text(encoding="utf-8"))):
        link = urlsplit(found[1])
        target = (folder / unquote(link.path)).resolve() if link.path else page
        is_there = target.exists() and (not link.fragment or target.suffix != ".md" or link.fragment in anchors(target))
        dead += [] if link.scheme or is_there else [found[1]]
    return dead


class Html(HTMLParser):
    """What a page of the site has: the places in it, its links, and the pages that it names without a link."""

    def __init__(self, text: str) -> None:
        super().__init__()
        self.places: set[str] = set()
        self.links: list[str] = []
        self.named: list[str] = []
        self.depth = 0
        self.is_code = False
        self.feed(text)

    def handle_starttag(self, tag: str, attrs: list[tuple[str, str | None]]) -> None:
        """Called for each tag that begins something."""
        given = dict(attrs)
        self.places.update(filter(None, (given.get("id"), given.get("name") if tag == "a" else None)))
        self.links += filter(None, (given.get("href"), given.get("src")))
        self.depth += tag in ("a", "pre", "h1", "h2", "h3", "title")
        self.is_code = tag == "code" or (self.is_code and tag == "span")

    def handle_endtag(self, tag: str) -> None:
        """Called for each tag that ends something."""
        self.depth -= tag in ("a", "pre", "h1", "h2", "h3", "title")
        self.is_code = self.is_code and tag != "code"

    def handle_data(self, data: str) -> None:
        """Called for each piece of text."""
        if self.is_code and not self.depth and PAGE.fullmatch(data.strip()):
            self.named.append(data.strip())


def dead_links_of_html(path: Path, found: dict[Path, Html]) -> list[str]:
    """The links of a built page that lead to no file of the site, or to no place in it."""
    dead = []
    for link in map(urlsplit, found[path].links):
        target = (path.parent / unquote(link.path)).resolve() if link.path else path
        is_place = not link.fragment or target not in found or unquote(link.fragment) in found[target].places
        dead += [] if link.scheme or link.netloc or (target.exists() and is_place) else [link.geturl()]
    return dead


class Pages(unittest.TestCase):
    """The pages as they stand."""

    def test_no_link_is_dead(self) -> None:
        for page in pages():
            with self.subTest(page=str(page.relative_to(TOP))):
                self.assertEqual(dead_links(page), [])

    def test_the_readme_is_short(self) -> None:
        lines = (TOP / "README.md").read_text(encoding="utf-8").splitlines()
        self.assertLessEqual(len(lines), README_LINES)
        self.assertEqual([at for at, line in enumerate(lines, 1) if len(line) > README_COLUMNS], [])

    def test_each_page_for_users_says_first_for_whom_it_is(self) -> None:
        """And what a reader can do after it."""
        for page in [page for folder in FOR_USERS for page in sorted((TOP / folder).glob("*.md"))]:
            with self.subTest(page=str(page.relative_to(TOP))):
                opening = re.sub(r"\s+", " ", page.read_text(encoding="utf-8").partition("\n\n")[2])
                self.assertTrue(opening.startswith("For "))
                self.assertIn("After this page", opening.partition(". ")[2][:40])

    def test_sentences_are_short(self) -> None:
        for folder, (mean, longest) in BOUNDS.items():
            with self.subTest(folder=folder):
                names = [str(page) for page in sorted((TOP / folder).rglob("*.md"))]
                command = [sys.executable, str(TOP / "dev/prose"), f"--mean={mean}", f"--longest={longest}", *names]
                done = subprocess.run(command, capture_output=True, text=True, check=False)
                self.assertEqual(done.returncode, 0, done.stdout + done.stderr)


@of_the_whole
class Site(unittest.TestCase):
    """The site that Sphinx builds."""

    def test_the_built_site(self) -> None:
        with tempfile.TemporaryDirectory() as folder:
            done = subprocess.run([TOP / "docs/build", folder], capture_output=True, text=True, check=False)
            if done.returncode == 3:
                self.skipTest(done.stderr.strip().removeprefix("docs/build: "))
            self.assertEqual(done.returncode, 0, done.stdout + done.stderr)
            self.look_at(Path(folder))

    def look_at(self, site: Path) -> None:
        """Each link of the built site leads somewhere, and each page that is named is a link."""
        found = {path.resolve(): Html(path.read_text(encoding="utf-8")) for path in sorted(site.rglob("*.html"))}
        self.assertGreater(len(found), 30)
        for path, html in found.items():
            with self.subTest(page=str(path)):
                self.assertEqual(dead_links_of_html(path, found), [])
                pages_named = [name for name in html.named if (TOP / name).exists()]
                self.assertEqual([name for name in pages_named if (site / name).with_suffix(".html").exists()], [])


if __name__ == "__main__":
    unittest.main()
