"""dev/sources over a small repository: its crates, functions, clauses, definitions and edits."""

import os
import tempfile
import unittest
from pathlib import Path

from dev.sources import code, planting
from dev.sources.calls import Calls
from dev.sources.definitions import definitions_in, path_of
from dev.sources.public import Crate
from dev.sources.repository import Repository

FILES = {
    "crates.txt": """# base: what all stand on
low:
# code: what runs
middle may_wait=2: low std
high: low middle
tried tests_may=Threads: high
""",
    "crates/low/src/lib.rt": """//! Numbers that count. They begin at 0:
//! no more.
//!
//! More.
mod numbers;
pub use numbers::{Number, twice};
""",
    "crates/low/src/numbers.rt": """// Numbers.

/// A number { of these }.
pub struct Number {
    value: u32,
}

impl Number {
    /// Makes a number. It is small.
    ///
    /// Never fails.
    #[inline]
    pub fn new(
        value: u32,
    ) -> Self
        requires small { value ≤ 10 }
        ensures { result.value ≡ value }
        ensures long { (n : ℕ) → n ≡ value
            → result.value ≡ n }
    {
        Number { value } // fn hidden() {}
    }
}

impl Clone for Number {
    fn clone(&self) -> Self {
        Number::new(self.value)
    }
}

/// Twice: of any number.
pub fn twice(n: u32) -> u32 {
    n + n
}

/// States that one is one.
pub fn one_is_one()
    ensures { 1 ≡ 1 }
{}

#[test]
fn it_doubles() {
    assert!(twice(1) == 2);
}
""",
    "crates/low/specs/Numbers.antt": """-- Numbers.
use Rattle.std.specs.Prelude.{ℕ, List as Listed}

-- how many
record Count : Type 0 where
  -- the number
  pub many : ℕ

module _ (n : ℕ) where
  -- twice that one
  abbrev pub double : ℕ
  double = n + n

data Kind : Type 0 where
  One : Kind
""",
    "crates/middle/src/lib.rt": "//! Calls.\nuse low::twice;\n\n/// Calls.\npub fn called() -> u32 {\n    twice(2)\n}\n",
    "crates/high/src/main.rt": "//! Runs.\nfn main(rt: HostRuntime) {\n    middle::called();\n}\n",
    "crates/low/must-fail/it_adds_one.edit": "only: numbers::twice\nfile: src/numbers.rt\nold: n + n\nnew: n + 1\n",
    "tests/edits/gate/low/it_is_new.edit": "only: numbers::Number::new\nfile: src/numbers.rt\nold: value }\nnew: value: 1 }\n",
    "tests/edits/more/low/no_pair.edit": "only: numbers::twice\nfile: src/numbers.rt\nold: n + n\n",
}


class Sources(unittest.TestCase):
    """Readings of a folder of their own."""

    def setUp(self):
        place = tempfile.TemporaryDirectory()
        self.addCleanup(place.cleanup)
        self.root = Path(place.name).resolve()
        for name, text in FILES.items():
            (self.root / name).parent.mkdir(parents=True, exist_ok=True)
            (self.root / name).write_text(text, "utf-8")
        self.house = Repository(self.root)
        self.functions = {it.shown: it for it in code.functions_of(f"{self.root}/crates/low")}

    def test_crates(self):
        self.assertEqual([*self.house.crates], ["low", "middle", "high", "tried"])
        layers = [(it.name, it.says) for it in self.house.layers]
        self.assertEqual(layers, [("base", "what all stand on"), ("code", "what runs")])
        self.assertEqual(self.house.crates["middle"].mark("may_wait"), "2")
        self.assertTrue(self.house.crates["tried"].is_of_tests)
        self.assertEqual(self.house.above(["middle"]), ["middle", "high", "tried"])
        self.assertEqual(self.house.below("high"), {"low", "middle", "high"})
        self.assertEqual(self.house.opening("low"), ["Numbers that count.", "They begin at 0: no more."])
        self.assertTrue(self.house.first_file("high").endswith("main.rt"))

    def test_a_line_of_crates_that_cannot_be_read(self):
        (self.root / "crates.txt").write_text("low\n", "utf-8")
        with self.assertRaises(SystemExit):
            Repository(self.root).crates  # noqa: B018

    def test_functions(self):
        self.assertEqual([*self.functions], ["Number::new", "Number::clone of Clone", "twice", "one_is_one", "it_doubles"])
        new = self.functions["Number::new"]
        self.assertEqual((new.first, new.opens, new.last), (13, 20, 22))
        self.assertEqual(new.signature, "fn new(value: u32) -> Self")
        self.assertEqual((new.says, self.functions["twice"].says), ("Makes a number.", "Twice: of any number."))
        self.assertEqual([it.is_public for it in self.functions.values()], [True, False, True, True, False])
        self.assertTrue(self.functions["it_doubles"].is_test)
        self.assertIn("numbers::Number+Clone::clone", self.functions["Number::clone of Clone"].names)

    def test_clauses(self):
        clauses = self.functions["Number::new"].clauses
        self.assertEqual([(it.kind, it.name) for it in clauses], [("requires", "small"), ("ensures", ""), ("ensures", "long")])
        self.assertEqual(clauses[2].text, "ensures long { (n : ℕ) → n ≡ value → result.value ≡ n }")
        self.assertEqual([it.is_long for it in clauses], [False, False, True])

    def test_what_is_public(self):
        crate = Crate(self.house, "low")
        items = ["struct Number { .. }", "fn Number::new(value: u32) -> Self", "fn twice(n: u32) -> u32"]
        self.assertEqual([it.line for it in crate.items()], items)
        self.assertEqual([*crate.laws()], [])

    def test_calls(self):
        calls = Calls(self.house)
        self.assertEqual([it.shown for it in calls.callers[calls.named("low", "twice")[0]]], ["it_doubles", "called"])
        self.assertIn(calls.named("low", "twice")[0], calls.reached(calls.named("high", "main")))

    def test_definitions(self):
        file = definitions_in(self.house, "crates/low/specs/Numbers.antt")
        self.assertEqual([*file.definitions], ["Count", "double", "Kind"])
        lines = ["-- how many", "record Count : Type 0 where", "  -- the number", "  pub many : ℕ"]
        self.assertEqual(file.definitions["Count"].shown, lines)
        self.assertEqual(file.definitions["double"].bare, ["abbrev pub double : ℕ", "double = n + n"])
        self.assertEqual((file.home("many"), file.home("One"), file.home("Two")), ("Count", "Kind", ""))
        self.assertEqual(file.brought["Listed"].name, "List")
        self.assertEqual(path_of(self.house, "Rattle.low.specs.Numbers.Count"), ("crates/low/specs/Numbers.antt", ("Count",)))
        declared = path_of(self.house, "Rattle.low.specs.declared.numbers.Number")
        self.assertEqual(declared, ("crates/low/src/numbers.rt", ("Number",)))
        self.assertEqual(path_of(self.house, "Rattle.std.specs.Prelude"), ("", ()))

    def test_edits(self):
        before = os.getcwd()
        self.addCleanup(os.chdir, before)
        os.chdir(self.root)
        self.assertEqual(len(planting.paths_of()), 3)
        good, new, bad = planting.paths_of("low")
        edit = planting.read_edit(good)
        self.assertEqual((edit.name, edit.is_of_rt, edit.only), ("low/it_adds_one", True, ("numbers::twice",)))
        self.assertIn("    n + 1\n", planting.planted(edit, "crates/low", {})["src/numbers.rt"])
        struck = planting.struck(planting.read_edit(new), "crates/low", code.functions_of("crates/low"))
        self.assertEqual([it.shown for it in struck], ["Number::new"])
        with self.assertRaisesRegex(planting.BadEdit, "no old: and new:"):
            planting.read_edit(bad)


if __name__ == "__main__":
    unittest.main()
