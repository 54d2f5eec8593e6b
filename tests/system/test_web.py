"""The page of web/ in browsers, from a folder on disk: the stored cases by its module, and the page as a user sees it.

Of the cases that need no device that fails the gate runs one in 8 in Chromium and one in 40 in Firefox; a sample runs one in
80 in Chromium, and nothing in Firefox. FINDER_WEB=whole runs all in both. What the page shows is compared with what the
shipped program prints for the command that the page names. Each browser is skipped where it is not installed."""

from __future__ import annotations

import base64
import hashlib
import http.server
import os
import re
import shlex
import subprocess
import tempfile
import threading
import unittest
import zlib
from functools import partial
from pathlib import Path
from typing import Any, Callable, ClassVar, Optional, Sequence, TypeVar

from tests.support.browsers import BROWSERS, Browser, Chromium, Firefox
from tests.support.case_runs import Answer, differences, shown
from tests.support.records import Case, listed_counts, read_cases, text_name
from tests.support.settings import IS_WHOLE, SAMPLED, SHIPPED, TOP, of_the_whole

Item = TypeVar("Item")

PAGE = TOP / "web" / "index.html"
YEAR = TOP / "examples" / "de405-2000.asc"
RUNS_ALL = os.environ.get("FINDER_WEB") == "whole"
# One case of so many is run: by the gate in each browser, and in a sample.
SHARES = {Chromium: 8, Firefox: 40}
SAMPLE_SHARE = 80
GREAT = "--kind conj --target jupiter --second saturn --observer earth --frame ecl"
# Answers words by the module in the page, over texts that were given to it by name.
ANSWER = """
const [words, files] = values;
const blobs = files.map(([name, text]) => ({ name, blob: new Blob([window.texts[text]]) }));
const answer = await answerWords(await finder.module(), words, blobs);
let letters = "";
for (let at = 0; at < answer.text.length; at += 8192) letters += String.fromCharCode(...answer.text.subarray(at, at + 8192));
return [answer.status, btoa(letters)];
"""
KEEP_TEXT = "(window.texts ??= {})[values[0]] = Uint8Array.from(atob(values[1]), (letter) => letter.charCodeAt(0));"
# Whether the browser takes a module whose memory has 64 bits: the least one.
HAS_MEMORY = "return WebAssembly.validate(new Uint8Array([0, 97, 115, 109, 1, 0, 0, 0, 5, 3, 1, 4, 1]));"
# Drops files on the page, or chooses them in a field, as the browser gives them to it.
DROP = """
const given = new DataTransfer();
for (const [name, text] of values) given.items.add(new File([Uint8Array.from(atob(text), (it) => it.charCodeAt(0))], name));
document.body.dispatchEvent(new DragEvent("drop", { dataTransfer: given, bubbles: true, cancelable: true }));
"""
# Puts values into fields of the form, as a user does.
FILL = """
for (const [name, value] of values) {
    const field = document.getElementById(name);
    if (!field || field.closest("[hidden]")) throw new Error(`the form shows no ${name}`);
    if (field.type === "radio") field.click();
    else field.value = value;
    if (field.type !== "radio" && field.value !== value) throw new Error(`${name} cannot be ${value}`);
    field.dispatchEvent(new Event("input", { bubbles: true }));
    field.dispatchEvent(new Event("change", { bubbles: true }));
}
"""
SHOWN = """
const text = (name) => document.getElementById(name).textContent;
return { status: text("status"), command: text("command"), text: text("text"), refusal: text("refusal"),
    rows: document.querySelectorAll("#tables tbody tr").length, signs: document.querySelectorAll("#picture .sign").length };
"""
# What a reader for the blind and a reader with weak eyes need, as far as a script can see it, and whether it is too wide.
LOOK = """
const wrong = [], parts = (colour) => colour.match(/[\\d.]+/g).map(Number);
const light = (part) => part <= 10.31475 ? part / 3294.6 : Math.pow((part / 255 + 0.055) / 1.055, 2.4);
const luminance = ([r, g, b]) => 0.2126 * light(r) + 0.7152 * light(g) + 0.0722 * light(b);
const behind = (each) => {
    for (let at = each; at; at = at.parentElement) {
        const colour = parts(getComputedStyle(at).backgroundColor);
        if (colour.length < 4 || colour[3] === 1) return colour;
    }
    return [255, 255, 255];
};
const visible = (each) => each.getClientRects().length && getComputedStyle(each).visibility === "visible" && !each.disabled;
for (const each of document.querySelectorAll("body *:not(script)")) {
    if (!visible(each) || ![...each.childNodes].some((node) => node.nodeType === 3 && node.textContent.trim())) continue;
    const style = getComputedStyle(each), colour = each.closest("svg") ? style.fill : style.color;
    const pair = [parts(colour), behind(each)].map(luminance).sort((a, b) => b - a);
    if ((pair[0] + 0.05) / (pair[1] + 0.05) < 4.5) wrong.push(`faint: ${each.tagName} ${each.textContent.slice(0, 20)}`);
    const right = each.closest("pre, .wide, .skip") ? 0 : each.getBoundingClientRect().right;
    if (right > innerWidth + 0.5) wrong.push(`wide: ${each.tagName}`);
}
for (const each of document.querySelectorAll("input, select, progress")) {
    const name = each.getAttribute("aria-label") ?? document.getElementById(each.getAttribute("aria-labelledby"))?.textContent;
    if (!name && ![...(each.labels ?? [])].some((label) => label.textContent.trim())) wrong.push(`no label: ${each.id}`);
    const said = each.getAttribute("aria-describedby");
    if (said && !document.getElementById(said)) wrong.push(`no hint: ${each.id}`);
}
for (const each of document.querySelectorAll("button, a, summary")) {
    if (!(each.getAttribute("aria-label") ?? each.textContent).trim()) wrong.push(`no name: ${each.outerHTML}`);
}
for (const each of document.querySelectorAll("table")) {
    if (!each.caption?.textContent.trim()) wrong.push("no caption");
    if ([...each.querySelectorAll("th")].some((head) => !head.scope)) wrong.push("no scope");
}
if (document.querySelector("svg[role=img]:not([aria-label])")) wrong.push("no name: the picture");
const levels = [...document.querySelectorAll("h1, h2, h3")].map((each) => Number(each.tagName[1]));
if (levels[0] !== 1 || levels.some((level, at) => at && level > levels[at - 1] + 1)) wrong.push(`headings: ${levels}`);
const ids = [...document.querySelectorAll("[id]")].map((each) => each.id);
if (new Set(ids).size !== ids.length) wrong.push("a name stands twice");
if (!document.documentElement.lang) wrong.push("no language");
if (document.documentElement.scrollWidth > innerWidth) wrong.push("it is scrolled sideways");
return [...new Set(wrong)];
"""


# (a case that differs is shown without the lines of this module)
__unittest = True


def letters(data: bytes) -> str:
    """Bytes as a page can be given them."""
    return base64.b64encode(data).decode("ascii")


def printed(command: str, folder: Path) -> "subprocess.CompletedProcess[bytes]":
    """What the shipped program does for a command that the page shows, in a folder with its files."""
    first, *words = shlex.split(command)
    assert first == "./finder"
    return subprocess.run([SHIPPED, *words], cwd=folder, capture_output=True, check=False)


# The browsers that run, each for all of its tests.
RUNNING: dict[type[Browser], Browser] = {}


def tearDownModule() -> None:
    """Ends the browsers."""
    while RUNNING:
        RUNNING.popitem()[1].__exit__(None, None, None)


class BrowserTest(unittest.TestCase):
    """Has a browser with the page, from a folder on disk, and a folder with a file to search."""

    kind: ClassVar[Optional[type[Browser]]] = None
    browser: ClassVar[Any]
    folder: ClassVar[Path]

    @classmethod
    def setUpClass(cls) -> None:
        assert cls.kind
        if cls.kind is not Chromium and not IS_WHOLE and not RUNS_ALL:
            raise unittest.SkipTest(SAMPLED)
        if not cls.kind.command():
            raise unittest.SkipTest(f"there is no {cls.kind.name} here")
        place = tempfile.TemporaryDirectory(prefix="finder-web-")
        cls.addClassCleanup(place.cleanup)
        cls.folder = Path(place.name)
        (cls.folder / YEAR.name).symlink_to(YEAR)
        if cls.kind not in RUNNING:
            RUNNING[cls.kind] = cls.kind().__enter__()
        cls.browser = RUNNING[cls.kind]
        cls.browser.open(PAGE.as_uri())
        if not cls.browser.run(HAS_MEMORY):
            raise unittest.SkipTest(f"this {cls.kind.name} has no memory of 64 bits")

    def drop(self, *paths: Path, data: Optional[bytes] = None) -> None:
        """Drops files on the page."""
        self.browser.run(DROP, *([path.name, letters(path.read_bytes() if data is None else data)] for path in paths))

    def drop_year(self) -> None:
        """Drops JPL's year, and waits until the page has read it."""
        self.drop(YEAR)
        self.browser.wait_until("document.getElementById('summary').className !== ''")

    def fill(self, command: str, fields: dict[str, str]) -> None:
        """Fills in the form."""
        self.browser.run(FILL, [f"command-{command}", ""], *(list(each) for each in fields.items() if each[0] not in RARE))
        self.browser.run("document.getElementById('more').open = true;")
        self.browser.run(FILL, *(list(each) for each in fields.items() if each[0] in RARE))

    def search(self) -> dict[str, Any]:
        """Presses the button, waits for the end of the search, and returns what is shown."""
        self.browser.run("document.getElementById('status').textContent = '';")
        self.browser.run("document.getElementById('run').click();")
        self.browser.wait_until("document.getElementById('progress').hidden && document.getElementById('status').textContent")
        found: dict[str, Any] = self.browser.run(SHOWN)
        return found

    def some(self, items: Sequence[Item], every: int) -> Sequence[Item]:
        """All items in Chromium if the whole is run, else the first of each so many."""
        return items if RUNS_ALL or (IS_WHOLE and self.kind is Chromium) else items[::every]

    def leave_to_chromium(self) -> None:
        """Skips what is the same in each browser, but in the one that is cheaper and where all is run."""
        if self.kind is not Chromium and not RUNS_ALL:
            self.skipTest("FINDER_WEB=whole runs it in this browser too")

    def compare(self, seen: dict[str, Any]) -> str:
        """Compares what is shown with what the program prints for the command that the page names; returns the command."""
        done = printed(seen["command"], self.folder)
        self.assertEqual((seen["text"], seen["refusal"]), (done.stdout.decode(), ""), seen["command"])
        windows = sum(line[:2] in ("C ", "U ", "S ", "P ") for line in done.stdout.decode().splitlines())
        self.assertEqual((seen["rows"], seen["signs"]), (windows, windows), seen["command"])
        command: str = seen["command"]
        return command


def in_each_browser(base: type[BrowserTest]) -> None:
    """Makes a class of tests for each browser."""
    for kind in BROWSERS:
        name = f"{base.__name__}In{kind.name}"
        globals()[name] = type(name, (base,), {"__module__": __name__, "kind": kind, "__doc__": base.__doc__})


class Cases(BrowserTest):
    """Compares the answers of the module with those of stored cases, byte for byte."""

    given: ClassVar[set[str]]

    @classmethod
    def setUpClass(cls) -> None:
        super().setUpClass()
        cls.given = set()

    def run_case(self, case: Case) -> None:
        """Compares one answer. The module gives one text, which is the report or the line of the error."""
        for text in case.files.values():
            if text_name(text) not in self.given:
                self.browser.run(KEEP_TEXT, text_name(text), letters(text))
                self.given.add(text_name(text))
        files = [[os.fsdecode(name), text_name(text)] for name, text in case.files.items()]
        status, text = self.browser.run(ANSWER, [os.fsdecode(word) for word in case.words], files)
        said = base64.b64decode(text)
        found = differences(case, Answer(status, b"" if status else said, said if status else b""))
        if found:
            self.fail("\n".join([f"{case.name} differs", shown(case.words), *found]))


def sampled(kind: type[Browser]) -> list[Case]:
    """The cases that are run in a browser: of those that need no device that fails."""
    every = [case for file in listed_counts() for case in read_cases(file) if not case.devices]
    return every if RUNS_ALL else every[:: SHARES[kind] if IS_WHOLE else SAMPLE_SHARE]


def test_of(case: Case) -> Callable[[Cases], None]:
    """The test of a case."""
    return lambda self: self.run_case(case)


def cases_in(kind: type[Browser]) -> type[Cases]:
    """The class of the cases in a browser."""
    members: dict[str, Any] = {"__module__": __name__, "kind": kind}
    members.update((f"test_{case.name}", test_of(case)) for case in sampled(kind))
    return type(f"CasesIn{kind.name}", (Cases,), members)


globals().update({made.__name__: made for made in map(cases_in, BROWSERS)})


# Each kind of `find` and of `set`, with what its form needs.
PAIR = {"target": "jupiter", "second": "saturn", "observer": "earth"}
KINDS: tuple[dict[str, str], ...] = (
    {"kind": "coord", "target": "sun", "observer": "earth", "frame": "ecl", "axis": "y"},
    {"kind": "coord", "target": "mars", "axis": "z", "ref": "-1e7", "dir": "rise"},
    {"kind": "radius", "target": "mercury", "observer": "earth", "ref": "100000000", "to": "2000-04-01T00:00:00"},
    {"kind": "apsis", "target": "earth", "observer": "sun", "tick": "1000"},
    {"kind": "conj", **PAIR, "frame": "ecl"},
    {"kind": "oppo", "target": "saturn", "second": "sun", "observer": "earth", "frame": "ecl"},
    {"kind": "station", "target": "venus", "observer": "earth", "frame": "ecl", "from": "2000-03-01T00:00:00", "dir": "fall"},
    {"kind": "sep", **PAIR, "ref": "0.999", "width": "3600", "depth": "9", "cut": "third"},
    {"kind": "sepext", **PAIR},
    {"kind": "any", "target": "moon", "second": "sun", "observer": "earth", "radius1": "8115.5", "radius2": "689321.9"},
    {"kind": "full", "target": "earth", "second": "sun", "observer": "moon", "radius1": "8179.8", "radius2": "697437.4"},
    {"kind": "annular", "target": "venus", "second": "sun", "observer": "earth"},
)
SETS: tuple[dict[str, str], ...] = (
    {"kind": "coord", "relation": "within", "target": "sun", "observer": "earth", "axis": "x", "ref": "0", "ref2": "1e8"},
    {"kind": "radius", "relation": "outside", "target": "mars", "observer": "earth", "ref": "3e8", "ref2": "3.5e8"},
    {"kind": "apsis", "relation": "atleast", "target": "earth", "observer": "sun"},
    {"kind": "station", "relation": "less", "target": "mercury", "observer": "earth", "frame": "ecl"},
    {"kind": "sep", "relation": "atleast", "target": "venus", "second": "sun", "observer": "earth", "ref": "0.984807753"},
    {"kind": "sepext", "relation": "less", **PAIR},
)
RARE = ("tick", "width", "depth", "cut")


@in_each_browser
class Page(BrowserTest):
    """What a user does with the page, and sees of it."""

    def setUp(self) -> None:
        self.browser.open(PAGE.as_uri())

    def test_each_kind_gives_a_command_and_its_windows(self) -> None:
        self.drop_year()
        for fields in self.some(KINDS, 4):
            with self.subTest(**fields):
                self.fill("find", fields)
                self.assertIn(f"--kind {fields['kind']} ", self.compare(self.search()))
                self.browser.run("finder.fill({ kind: 'apsis', command: 'find' })")

    @of_the_whole
    def test_each_kind_of_a_set_gives_a_command_and_its_spans(self) -> None:
        self.leave_to_chromium()
        self.drop_year()
        for fields in self.some(SETS, 4):
            with self.subTest(**fields):
                self.fill("set", fields)
                self.assertIn(f"--relation {fields['relation']} ", self.compare(self.search()))
                self.browser.run("finder.fill({ kind: 'apsis', command: 'find' })")

    @of_the_whole
    def test_each_example_is_a_search_of_the_program(self) -> None:
        self.leave_to_chromium()
        self.drop_year()
        names = self.browser.run("return Object.keys(finder.examples)")
        self.assertGreater(len(names), 5)
        for name in self.some(names, 10):
            with self.subTest(name=name):
                self.browser.run(FILL, ["example", name])
                self.compare(self.search())

    @of_the_whole
    def test_a_polynomial_beside_a_search_of_files(self) -> None:
        self.leave_to_chromium()
        self.drop_year()
        self.fill("find", {"kind": "apsis", "target": "moon", "observer": "earth", "to": "2000-03-01T00:00:00"})
        self.browser.run(FILL, ["command-scalar", ""])
        self.assertIn(" --quad 1,0,-100 --from=-50 --to 50", self.compare(self.search()))
        self.browser.run(FILL, ["command-find", ""])
        self.assertIn(" --to 2000-03-01T00:00:00 ", self.compare(self.search()))

    @of_the_whole
    def test_commands_without_a_file(self) -> None:
        self.leave_to_chromium()
        for command, fields in (
            ("scalar", {"quad": "1,0,-100", "from": "-50", "to": "50", "dir": "rise"}),
            ("gen", {"blocks": "3", "seed": "7"}),
        ):
            with self.subTest(command=command):
                self.fill(command, fields)
                self.compare(self.search())

    @of_the_whole
    def test_a_check_shows_the_columns(self) -> None:
        self.leave_to_chromium()
        self.drop_year()
        self.fill("check", {})
        seen = self.search()
        done = printed(seen["command"], self.folder)
        self.assertEqual(seen["text"].encode(), done.stdout)
        self.assertEqual(seen["rows"], done.stdout.count(b"COLUMN "))

    @of_the_whole
    def test_files_are_listed_and_read_in_order(self) -> None:
        self.drop_year()
        said = self.browser.run("return document.getElementById('summary').textContent")
        self.assertEqual(said, "1999-12-24 to 2001-01-11, 12 blocks, 13 columns.")
        self.drop(Path("header.405"), data=b"KSIZE= 2036 NCOEFF= 1018\n")
        names = "[...document.querySelectorAll('#list .name')].map((each) => each.textContent)"
        self.browser.wait_until(f"{names}.length === 2 && document.getElementById('summary').className === 'wrong'")
        self.browser.run("document.querySelector('#list li:nth-child(2) button').click()")
        self.assertEqual(self.browser.run(f"return {names}"), ["header.405", YEAR.name])
        self.browser.run("document.querySelector('#list li:nth-child(1) button[title^=Remove]').click()")
        self.browser.wait_until("document.getElementById('summary').className === 'right'")
        self.assertEqual(self.browser.run(f"return {names}"), [YEAR.name])

    @of_the_whole
    def test_files_are_put_in_the_order_of_their_dates(self) -> None:
        lines = YEAR.read_text("ascii").splitlines(keepends=True)
        starts = [at for at, line in enumerate(lines) if re.fullmatch(r" +\d+ +1018 *\r?\n", line)]
        self.assertEqual(len(starts), 12)
        cuts = {"m.asc": (0, starts[0]), "a.asc": (starts[7], len(lines)), "z.asc": (starts[0], starts[7])}
        for name, (first, last) in cuts.items():
            (self.folder / name).write_text("".join(lines[first:last]), "ascii")
        self.drop(*(self.folder / name for name in ("a.asc", "z.asc", "m.asc")))
        self.browser.wait_until("document.getElementById('summary').className === 'right'")
        self.browser.run(FILL, ["example", "New moons"])
        self.assertTrue(self.compare(self.search()).endswith(" m.asc z.asc a.asc"))

    def test_a_certificate_is_written_verified_and_refused_if_broken(self) -> None:
        self.drop_year()
        self.browser.run(FILL, ["command-cert", ""])
        seen = self.search()
        certificate = printed(seen["command"], self.folder).stdout
        self.assertEqual(seen["text"].encode(), certificate)
        (self.folder / "great.cert").write_bytes(certificate)
        self.browser.run("finder.fill({ kind: 'apsis', command: 'find' })")
        self.drop(self.folder / "great.cert")
        self.browser.wait_until("document.getElementById('command-verify').checked")
        seen = self.search()
        self.assertIn("--cert great.cert", seen["command"])
        self.assertRegex(seen["status"], r"^1 certain window, 0 undecided; verified, \d+ pieces\.")
        self.compare(seen)
        (self.folder / "broken.cert").write_bytes(re.sub(rb"(?m)^(L \S+ \S+ \S+) N$", rb"\1 R", certificate, count=1))
        self.drop(self.folder / "broken.cert")
        self.browser.wait_until("document.getElementById('command').textContent.includes('broken.cert')")
        seen = self.search()
        done = printed(seen["command"], self.folder)
        self.assertEqual(done.returncode, 10)
        self.assertTrue(seen["refusal"].startswith(done.stderr.decode().strip()), seen["refusal"])
        self.assertEqual((seen["rows"], seen["text"]), (0, ""))

    @of_the_whole
    def test_a_certificate_of_the_page_is_verified_there(self) -> None:
        self.drop_year()
        for fields in self.some(KINDS[1:], 6):
            with self.subTest(**fields):
                self.browser.run("finder.fill({ kind: 'apsis', command: 'find' })")
                self.fill("cert", fields)
                self.search()
                self.browser.run("document.getElementById('status').textContent = '';")
                self.browser.run("document.querySelector('#downloads button').click()")
                self.browser.wait_until("document.getElementById('status').textContent.includes('took')")
                self.assertIn("; verified, ", self.browser.run(SHOWN)["status"])

    def test_an_error_is_the_line_of_the_program(self) -> None:
        self.leave_to_chromium()
        self.drop_year()
        for fields, named in (
            ({"kind": "sep", **PAIR}, "ref"),
            ({"kind": "sep", **PAIR, "ref": "2"}, ""),
            ({"kind": "conj", "target": "moon", "second": "moon", "observer": "earth"}, ""),
            ({"kind": "apsis", "target": "moon", "from": "1900-01-01T00:00:00"}, ""),
        ):
            with self.subTest(**fields):
                self.browser.run("finder.fill({ kind: 'apsis', command: 'find' })")
                self.fill("find", fields)
                seen = self.search()
                done = printed(seen["command"], self.folder)
                line = done.stderr.decode().strip()
                self.assertTrue(line.startswith("finder: "), line)
                self.assertTrue(seen["refusal"].startswith(f"{line}Status {done.returncode}: "), seen["refusal"])
                marked = self.browser.run("return [...document.querySelectorAll('[aria-invalid]')].map((each) => each.id)")
                self.assertEqual(marked, [named] if named else [])

    def test_a_search_can_be_stopped_and_the_page_stays_alive(self) -> None:
        self.drop_year()
        # A function that is 0 throughout takes minutes, by docs/guide/windows.md.
        self.fill("find", {"kind": "conj", "target": "moon", "second": "emb", "observer": "earth", "frame": "ecl"})
        self.browser.run("document.getElementById('run').click()")
        self.browser.wait_until("/Searching for [1-9]/.test(document.getElementById('status').textContent)")
        self.assertFalse(self.browser.run("return document.getElementById('stop').disabled"))
        self.browser.run("document.getElementById('stop').click()")
        self.browser.wait_until("document.getElementById('status').textContent.startsWith('Stopped after')")
        self.assertTrue(self.browser.run("return document.getElementById('stop').disabled"))
        self.fill("scalar", {"quad": "1,0,-100", "from": "-50", "to": "50"})
        self.compare(self.search())

    @of_the_whole
    def test_a_browser_that_refuses_workers_searches_in_the_page(self) -> None:
        self.browser.run("window.Worker = class { constructor() { throw new Error('refused'); } };")
        self.drop_year()
        self.assertTrue(self.browser.run("return finder.refusesWorkers"))
        self.compare(self.search())

    @of_the_whole
    def test_the_command_is_one_line_of_a_shell(self) -> None:
        self.leave_to_chromium()
        odd = self.folder / "it's a file.asc"
        odd.write_bytes(YEAR.read_bytes())
        self.drop(odd)
        self.browser.wait_until("document.getElementById('summary').className !== ''")
        self.compare(self.search())


class Look(BrowserTest):
    """What Chromium alone tells: how the page looks, what it asks of any address, and what keys do."""

    kind = Chromium

    def setUp(self) -> None:
        self.browser.open(PAGE.as_uri())

    def test_a_file_is_chosen(self) -> None:
        self.browser.choose_files("#files", [YEAR])
        self.browser.wait_until("document.getElementById('summary').className !== ''")
        self.compare(self.search())

    @of_the_whole
    def test_enter_searches(self) -> None:
        self.drop_year()
        self.browser.run("document.getElementById('from').focus(); document.getElementById('status').textContent = '';")
        self.browser.press("Enter", 13, "\r")
        self.browser.wait_until("/certain window/.test(document.getElementById('status').textContent)")
        self.compare(self.browser.run(SHOWN))

    @of_the_whole
    def test_each_control_is_reached_by_the_keyboard(self) -> None:
        reached = []
        for _ in range(40):
            self.browser.press("Tab", 9)
            reached.append(self.browser.run("return document.activeElement.id || document.activeElement.tagName"))
        fields = ["kind", "target", "second", "observer", "frame", "dir", "from", "to"]
        expected = ["files", "command-find", "example", *fields, "command", "run", "copy"]
        self.assertEqual([name for name in reached if name in expected][: len(expected)], expected)

    def test_nothing_is_asked_of_any_address(self) -> None:
        self.browser.requests.clear()
        self.browser.messages.clear()
        self.browser.open(PAGE.as_uri())
        self.drop_year()
        self.compare(self.search())
        own = f"{PAGE.parent.as_uri()}/"
        self.assertEqual([it for it in self.browser.requests if not it.startswith((own, "blob:", "data:"))], [])
        self.assertTrue(any(it.startswith(own) for it in self.browser.requests))
        self.assertEqual(self.browser.messages, [])

    @of_the_whole
    def test_what_a_certificate_is_saved_as(self) -> None:
        self.drop_year()
        self.browser.run(FILL, ["command-cert", ""])
        seen = self.search()
        self.browser.run("document.querySelector('#downloads a').click()")
        path = self.browser.downloads / "cert-conj-jupiter.cert"
        self.browser.wait_for_file(path)
        self.assertEqual(path.read_bytes(), printed(seen["command"], self.folder).stdout)

    def test_a_desk_and_a_phone_in_the_light_and_in_the_dark(self) -> None:
        self.drop_year()
        self.browser.run(FILL, ["example", "Perigees and apogees"])
        self.compare(self.search())
        for width in (1280, 390):
            for is_dark in (False, True):
                with self.subTest(width=width, is_dark=is_dark):
                    self.browser.show(width, is_dark)
                    self.browser.run("await new Promise((resolve) => setTimeout(resolve, 200));")
                    self.assertEqual(self.browser.run(LOOK), [])
                    paper = self.browser.run("return getComputedStyle(document.body).backgroundColor")
                    self.assertEqual(paper, "rgb(17, 21, 29)" if is_dark else "rgb(251, 250, 247)")
        self.browser.show(1280)


class Server(http.server.SimpleHTTPRequestHandler):
    """Serves files, and keeps what it is asked for."""

    heard: ClassVar[list[str]] = []

    def log_request(self, code: object = "-", size: object = "-") -> None:
        """Called for each request."""
        self.heard.append(self.path)

    def log_message(self, format: str, *values: object) -> None:
        """Says nothing."""


@in_each_browser
class Refused(BrowserTest):
    """What the page forbids itself: a server of this machine hears nothing of it."""

    def serve(self) -> tuple[str, list[str]]:
        """Serves the folder of the page: the address, and what was asked of it."""
        server = http.server.ThreadingHTTPServer(("127.0.0.1", 0), partial(Server, directory=str(PAGE.parent)))
        self.addCleanup(server.server_close)
        threading.Thread(target=server.serve_forever, daemon=True).start()
        self.addCleanup(server.shutdown)
        Server.heard.clear()
        return f"http://127.0.0.1:{server.server_address[1]}", Server.heard

    def test_nothing_can_be_sent(self) -> None:
        tries = """
            const address = values[0], refused = [];
            await fetch(`${address}/fetched`).catch(() => refused.push("fetch"));
            await new Promise((end) => {
                const asked = new XMLHttpRequest();
                asked.onerror = () => { refused.push("request"); end(); };
                asked.onload = end;
                try { asked.open("GET", `${address}/asked`); asked.send(); } catch { refused.push("request"); end(); }
            });
            await new Promise((end) => {
                const image = new Image();
                image.onerror = () => { refused.push("image"); end(); };
                image.onload = end;
                image.src = `${address}/image`;
            });
            const tried = (act) => { try { act(); } catch { /* a browser may say so */ } };
            tried(() => navigator.sendBeacon(`${address}/beacon`, "text"));
            const form = document.createElement("form");
            form.action = `${address}/form`;
            document.body.append(form);
            tried(() => form.submit());
            await new Promise((end) => setTimeout(end, 300));
            return refused;
        """
        address, heard = self.serve()
        for page in (PAGE.as_uri(), f"{address}/index.html"):
            with self.subTest(page=page.split(":")[0]):
                self.browser.open(page)
                self.browser.wait_until("document.getElementById('command').textContent.startsWith('./finder find')")
                heard.clear()
                self.assertEqual(self.browser.run(tries, address), ["fetch", "request", "image"])
                self.assertEqual(heard, [])

    @of_the_whole
    def test_a_page_that_a_server_gives_searches_too(self) -> None:
        self.browser.open(f"{self.serve()[0]}/index.html")
        self.browser.run(FILL, ["command-scalar", ""], ["from", "-50"], ["to", "50"])
        self.browser.run("document.getElementById('run').click()")
        self.browser.wait_until("/2 certain windows/.test(document.getElementById('status').textContent)")


class Texts(unittest.TestCase):
    """What needs no browser: the module and its text, and the options of the page beside those of the documents."""

    def test_the_packed_module_is_that_of_its_text(self) -> None:
        packed = re.search(r"finder\.packed = `([^`]*)`;", (TOP / "web/module.js").read_text("ascii"))
        assert packed
        module = zlib.decompress(base64.b64decode(packed[1]), wbits=31)
        said = (TOP / "web/module.txt").read_text("ascii").splitlines()[-1]
        self.assertEqual(said, f"{hashlib.sha256(module).hexdigest()}  finder.wasm")

    def test_the_options_are_those_of_the_documents(self) -> None:
        text = (TOP / "docs/guide/usage.md").read_text("utf-8")
        listed = set(re.findall(r"`--(\w+)`", "\n".join(line for line in text.splitlines() if line.startswith("| `--"))))
        page = (TOP / "web/options.js").read_text("utf-8")
        block = page.partition("finder.options = {")[2].partition("\n};")[0]
        own = set(re.findall(r"^    (\w+): \{", block, re.MULTILINE))
        # Workers change nothing in the page; `gen` names its numbers by their place.
        self.assertEqual(own - {"blocks", "seed"}, listed - {"workers"})
        kinds = re.search(r"\| `--kind` \| `([^`]*)`", text)
        assert kinds
        block = page.partition("finder.kinds = {")[2].partition("\n};")[0]
        self.assertEqual(re.findall(r"^    (\w+): \{", block, re.MULTILINE), kinds[1].split())

    def test_the_files_of_the_page_are_there(self) -> None:
        page = PAGE.read_text("utf-8")
        for name in re.findall(r'(?:src|href)="([\w.]+)"', page):
            self.assertTrue((PAGE.parent / name).exists(), name)


if __name__ == "__main__":
    unittest.main()
