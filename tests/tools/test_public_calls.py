"""dev/public-calls over a small repository whose list is whole, and with one public name lost, changed or not listed."""

from tests.support.small_repository import InSmallRepository

HEAD = "# Public calls\n\n    $ dev/public-calls --add\n\n"
FILES = {
    "crates.txt": "low:\nhigh may_wait=1: low\nfinder_tests: low\n",
    "crates/low/src/lib.rt": """//! Numbers.
mod numbers;

pub use numbers::{Number, Sink, twice};
""",
    "crates/low/src/numbers.rt": """// Numbers.

/// A number; what it holds twice is its own.
pub struct Number {
    /// The number.
    pub value: u32,
    twice: u32,
}

/// What takes numbers.
pub trait Sink {
    ghost taken: { Self → List ℕ };

    /// Takes a number.
    fn take(&mut self, value: u32) -> bool
        ensures taken { true };
}

impl Number {
    /// Makes a number.
    pub fn new(
        value: u32,
        twice: u32,
    ) -> Self
        ensures { result.value ≡ value }
    {
        Number { value, twice }
    }

    // Not for others.
    fn hidden(&self) -> u32 {
        self.twice
    }
}

/// Twice a number.
pub const fn twice<T: Into<u32>>(value: T) -> u32 {
    2 * value.into()
}

/// Not exported.
pub fn thrice(value: u32) -> u32 {
    3 * value
}

/// A law.
pub fn one_is_one()
    ensures { 1 ≡ 1 }
{}
""",
    "crates/high/src/main.rt": "// The program.\nfn main(rt: HostRuntime) {\n}\n",
    "crates/finder_tests/src/lib.rt": "pub fn tested() {\n    low::twice(1)\n}\n",
    "dev/public-calls.md": HEAD,
}
LISTED = """## `low`

```
struct Number { value: u32, .. }
fn Number::new(value: u32, twice: u32) -> Self
trait Sink
fn Sink::take(&mut self, value: u32) -> bool
const fn twice<T: Into<u32>>(value: T) -> u32
```
"""
# What is put into a file, in place of what, and how the line begins that says what is wrong then.
WRONG = (
    ("pub fn new(", "pub fn make(", ("Number::make is not in the list", "Number::new is missing")),
    ("pub fn new(", "fn new(", ("Number::new is missing",)),
    ("        value: u32,\n        twice", "        value: u64,\n        twice", ("Number::new has another signature",)),
    ("pub value: u32", "pub value: u64", ("Number has another signature",)),
    ("pub value: u32", "value: u32", ("Number has another signature",)),
    ("fn take(&mut self", "fn take(&self", ("Sink::take has another signature",)),
    ("    fn take(&mut self, value: u32) -> bool\n        ensures taken { true };\n", "", ("Sink::take is missing",)),
    ("pub const fn twice", "pub const fn double", ("twice is missing",)),
    ("-> u32 {\n    2", "-> Result<u32, Full> {\n    2", ("twice has another signature",)),
    ("    // Not for others.\n    fn", "    /// For all.\n    pub fn", ("Number::hidden is not in the list",)),
    ("pub trait Sink", "trait Sink", ("Sink is missing", "Sink::take is missing")),
)


class PublicCalls(InSmallRepository):
    """Tries of the tool over a folder of their own."""

    TOOL = "dev/public-calls"
    FILES = FILES

    def write_list(self, text):
        (self.root / "dev/public-calls.md").write_text(text, "utf-8")

    def test_the_list_is_made_whole(self):
        self.assertEqual(self.run_tool("--add"), (0, ["public-calls: 5 passed, 0 failed"]))
        self.assertEqual((self.root / "dev/public-calls.md").read_text("utf-8"), HEAD + LISTED)
        self.assertEqual(self.run_tool(), (0, ["public-calls: 5 passed, 0 failed"]))

    def test_an_empty_list_fails(self):
        status, lines = self.run_tool()
        self.assertEqual((status, lines[-1]), (1, "public-calls: 0 passed, 5 failed"))

    def test_what_is_lost_or_changed(self):
        self.write_list(HEAD + LISTED)
        path = self.root / "crates/low/src/numbers.rt"
        text = path.read_text("utf-8")
        for old, new, told in WRONG:
            with self.subTest(new=new):
                self.assertEqual(text.count(old), 1)
                path.write_text(text.replace(old, new), "utf-8")
                status, lines = self.run_tool()
                path.write_text(text, "utf-8")
                self.assertEqual(status, 1, lines)
                self.assertEqual(len(lines), len(told) + 1, lines)
                for line in told:
                    self.assertTrue(any(it.startswith(f"crates/low: {line}") for it in lines), lines)

    def test_a_name_that_is_no_longer_exported(self):
        self.write_list(HEAD + LISTED)
        (self.root / "crates/low/src/lib.rt").write_text("mod numbers;\n\npub use numbers::{Number, twice};\n", "utf-8")
        status, lines = self.run_tool()
        self.assertEqual((status, lines[-1]), (1, "public-calls: 3 passed, 2 failed"))

    def test_additions_take_no_line_away(self):
        self.write_list(HEAD + LISTED.replace("fn Number::new(value: u32, twice: u32) -> Self\n", "fn Number::old() -> Self\n"))
        status, lines = self.run_tool("--add")
        self.assertEqual(status, 1, lines)
        self.assertTrue(lines[0].startswith("crates/low: Number::old is missing"), lines)
        text = (self.root / "dev/public-calls.md").read_text("utf-8")
        self.assertIn("fn Number::old() -> Self\n", text)
        self.assertIn("fn Number::new(value: u32, twice: u32) -> Self\n", text)
