"""dev/unused over a small repository in which all is used, and with one more thing of each kind that nothing uses."""

from tests.support.settings import sample
from tests.support.small_repository import InSmallRepository

FILES = {
    "crates.txt": "# Numbers.\nlow:\nhigh may_wait=1: low\nfinder_tests: low\n",
    "crates/low/specs/Lib.antt": "pub mod Numbers\n",
    "crates/low/specs/Numbers.antt": """-- Numbers; thrice is none of them.
use Rattle.std.specs.Prelude.{ℕ, ◌+◌, ◌>>=◌}

-- twice
abbrev pub twice : ℕ → ℕ
twice n = do
  more ← n
  more + n
""",
    "crates/low/proofs/Laws.antt": """-- Laws.
use Rattle.std.proofs.Common.{ℕ, ◌≡◌, refl}
use Rattle.low.specs.Numbers as numbers

module _ (n : ℕ)
    (is : n ≡ 1) where
  inner : n ≡ 1
  inner = is

  module _ (more : ℕ) where
    pub law : numbers.twice n ≡ numbers.twice n
    law = by inner
      where
        by : n ≡ 1 → numbers.twice n ≡ numbers.twice n
        by e = refl
""",
    "crates/low/proofs/doubled/Answers.antt": """use Rattle.low.proofs.Laws.{law}
use Rattle.low.proofs.doubled.Goals as goal

pub returns : goal.returns
returns c = law 1 c.is 2
""",
    "crates/low/src/lib.rt": """//! Numbers.
ghost use Rattle.std.specs.Prelude.{◌≡◌};

/// How often.
pub const TIMES: u32 = 2;

impl Number {
    ghost use Rattle.low.specs.Numbers.{twice};

    /// Twice the number.
    pub fn doubled(&self) -> u32
        ensures { result ≡ twice self.now }
    {
        self.0 * TIMES
    }
}

/// A number.
pub struct Number(pub u32);

/// Nothing but a fact.
pub fn one_is_one()
    ensures { 1 ≡ 1 }
{}
""",
    "crates/high/src/main.rt": """// The program.
use low::Number;

fn main(rt: HostRuntime) {
    println!(rt; "law thrice {}", Number(1).doubled())?;
}
""",
    "crates/finder_tests/src/lib.rt": "use low::Number;\n\n#[test]\nfn it_halves() {\n    Number(1).halved();\n}\n",
}
# What is put into a file, in place of what or at its end, and what is listed then.
LISTED = (
    ("low/specs/Numbers.antt", "", "\nabbrev pub thrice : ℕ → ℕ\nthrice n = n + n\n", ("antt:10: nothing uses thrice",)),
    ("low/specs/Numbers.antt", "", "\n-- (thrice)\npub record IsIt : Type 0 where\n  pub it : ℕ\n", ("11: nothing uses IsIt",)),
    ("low/specs/Numbers.antt", "ℕ, ◌+◌", "ℕ, List, ◌*◌, ◌+◌", ("nothing uses the name List", "nothing uses the name ◌*◌")),
    ("low/proofs/Laws.antt", "", "\n    pub by_it : ℕ\n    by_it = 1\n", ("Laws.antt:17: nothing uses by_it",)),
    (
        "low/proofs/Laws.antt",
        "inner = is\n",
        "inner = is\n\n  one : ℕ\n  one = two\n\n  two : ℕ\n  two = one\n",
        ("one", "two"),
    ),
    ("low/proofs/doubled/Answers.antt", "law 1", "1", ("proofs/Laws.antt:1: nothing uses this file", "the name law")),
    ("low/proofs/doubled/Answers.antt", "goal.returns\n", "1\n", ("Answers.antt:2: nothing uses the name goal",)),
    ("low/src/lib.rt", "Prelude.{", "Prelude.{All, ", ("the name All",)),
    ("low/src/lib.rt", "", "\nfn other() -> bool\n    ensures { twice x }\n{ true }\n", ("nothing but a test uses other",)),
    ("low/src/lib.rt", "twice self.now", "self.now", ("lib.rt:8: nothing uses the name twice",)),
    ("low/src/lib.rt", "    /// Twice", "    pub fn halved(&self) {\n    }\n\n    /// Twice", ("a test uses Number::halved",)),
    ("low/src/lib.rt", "", "\npub enum Other {\n    One,\n}\n", ("nothing but a test uses Other",)),
    ("low/src/lib.rt", "self.0 * TIMES", "self.0 * 2", ("lib.rt:5: nothing but a test uses TIMES",)),
    ("high/src/main.rt", "low::Number", "low::{Number, TIMES}", ("main.rt:2: nothing uses the name TIMES",)),
    ("../crates.txt", "\nhigh may_wait=1: low", "\nmiddle:\nhigh: low middle", ("high names the library middle nowhere",)),
)


class Unused(InSmallRepository):
    """Tries of the tool in a folder of their own."""

    TOOL = "dev/unused"
    FILES = FILES

    def test_all_is_used(self):
        status, lines = self.run_tool()
        self.assertEqual((status, len(lines)), (0, 1), lines)
        self.assertRegex(lines[0], r"^unused: [1-9]\d+ passed, 0 failed$")

    def test_what_nothing_uses(self):
        for name, old, new, told in sample(LISTED, 4):
            with self.subTest(name=name, new=new):
                path = self.root / "crates" / name
                text = path.read_text("utf-8")
                self.assertIn(old, text)
                path.write_text(text.replace(old, new, 1) if old else text + new, "utf-8")
                status, lines = self.run_tool()
                path.write_text(text, "utf-8")
                self.assertEqual(status, 1, lines)
                self.assertRegex(lines[-1], rf"^unused: \d+ passed, {len(lines) - 1} failed$")
                for line in told:
                    self.assertTrue(any(it.endswith(line) for it in lines), lines)
                self.assertEqual(len(told), len(lines) - 1, lines)

    def test_a_crate(self):
        (self.root / "crates/low/specs/More.antt").write_text("more : ℕ\nmore = 1\n", "utf-8")
        self.assertEqual(self.run_tool("high")[0], 0)
        self.assertEqual(self.run_tool("low")[0], 1)
        self.assertEqual(self.run_tool("lower"), (2, ["dev/unused: there is no crate lower"]))
