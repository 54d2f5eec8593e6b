"""dev/statement over a small repository: what a clause rests on, down to some definitions and below them, and documents
that print it."""

from tests.support.small_repository import InSmallRepository

FILES = {
    "crates.txt": "low:\nhigh: low\n",
    "crates/low/specs/Numbers.antt": """-- Numbers.
use Rattle.std.specs.Prelude.{ℕ, ◌+◌, ◌≡◌}

-- twice
abbrev pub twice : ℕ → ℕ
twice n = n + n
-- a pair, over
-- two lines
pub record Pair {A : Type 0} (first : A)
    (second : A) : Type 0 where
  pub same : first ≡ second
abbrev pub once : ℕ → ℕ
once n = n
""",
    "crates/high/specs/Answers.antt": """-- Answers.
use Rattle.std.specs.Prelude.{ℕ}
use Rattle.low.specs.Numbers.{Pair, once, twice}

abbrev pub Answers : ℕ → Type 0
Answers n = Pair (once n) (fourfold n)
abbrev pub fourfold : ℕ → ℕ
fourfold n = twice (twice n)
""",
    "crates/high/src/top.rt": """// The call.
ghost use Rattle.high.specs.Answers.{Answers};

pub fn answer(n: u32) -> u32
    // It is right.
    ensures right { Answers n }
{
    n
}
""",
    "docs/ANSWER.md": "# The answer\n\n<!-- dev/statement --page --to fourfold high answer right -->\n<!-- end -->\n",
}
# The options of a call of the tool, the definitions that it prints in their order, and its last line.
ANSWERS = (
    ("", ("twice", "Pair", "once", "Answers", "fourfold"), "5 definitions, 14 lines, 2 files, 2 crates"),
    ("--to fourfold", ("Pair", "once", "Answers", "fourfold"), "4 definitions, 10 lines, 2 files, 2 crates"),
    ("--to fourfold --below fourfold", ("twice", "fourfold"), "2 definitions, 5 lines, 2 files, 2 crates"),
    (
        "--to fourfold,once --below fourfold --without once",
        ("twice", "fourfold"),
        "2 definitions, 5 lines, 2 files, 2 crates",
    ),
)
# Words that are refused, and why.
REFUSED = (
    (("high", "answer", "wrong"), "the crate high has no public function answer with a clause wrong"),
    (("--to", "once", "--below", "thrice", "high", "answer", "right"), "the clause does not rest on thrice"),
)


class Statement(InSmallRepository):
    """Tries of the tool in a folder of their own."""

    TOOL = "dev/statement"
    FILES = FILES

    def test_what_a_clause_rests_on(self):
        for options, names, last in ANSWERS:
            with self.subTest(options=options):
                status, lines = self.run_tool(*options.split(), "high", "answer", "right")
                heads = [it.removeprefix("abbrev ").split()[1:] for it in lines if it.startswith(("abbrev pub", "pub record"))]
                found = [(it[1] if it[0] == "record" else it[0]) for it in heads]
                self.assertEqual((status, tuple(found), lines[-1]), (0, names, last), lines)

    def test_a_record_whose_head_has_two_lines(self):
        lines = self.run_tool("high", "answer", "right")[1]
        start = lines.index("pub record Pair {A : Type 0} (first : A)")
        self.assertEqual(lines[start - 2 : start], ["-- a pair, over", "-- two lines"])
        self.assertEqual(lines[start + 1 : start + 3], ["    (second : A) : Type 0 where", "  pub same : first ≡ second"])

    def test_words_that_are_refused(self):
        for words, why in REFUSED:
            with self.subTest(words=words):
                self.assertEqual(self.run_tool(*words), (1, [f"dev/statement: {why}"]))

    def test_a_document_that_is_stale(self):
        self.assertEqual(self.run_tool("--check", "docs/ANSWER.md")[1][-1], "statement: 0 passed, 1 failed")
        self.assertEqual(self.run_tool("--fill", "docs/ANSWER.md"), (0, ["wrote docs/ANSWER.md"]))
        self.assertEqual(self.run_tool("--check", "docs/ANSWER.md"), (0, ["statement: 1 passed, 0 failed"]))
        path = self.root / "crates/low/specs/Numbers.antt"
        path.write_text(path.read_text("utf-8").replace("once n = n\n", "once n = n + 1\n"), "utf-8")
        status, lines = self.run_tool("--check", "docs/ANSWER.md")
        self.assertEqual((status, lines[-1]), (1, "statement: 0 passed, 1 failed"))
