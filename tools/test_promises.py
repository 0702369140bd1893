"""Tests of what tools/promises looks at: sentences, their anchors, and the definitions that a job's clauses reach."""
import pathlib
import tempfile
import unittest
from unittest import mock

import anchors
import declared
import definitions
import reached
import sentences

FILES = {
    "crates/low/src/lib.rt": "//! A sum.\nmod sums;\n\npub use sums::{Even, nothing, twice};\n",
    "crates/low/src/sums.rt": """/// The greatest number.
pub const MOST: u32 = 1000;

/// The number twice.
pub fn twice(number: u32) -> u32
    requires { number < MOST }
    ensures sum { result ≡ number + number }
    ensures even { IsEven result }
{
    number + number
}

/// Nothing.
pub fn nothing() {}

/// A number that can be halved.
pub struct Even(u32);

impl Clone for Even {
    fn half(&self) {}
}

impl Even {
    /// Its half.
    pub fn half(&self) -> u32
        ensures whole { result + result ≡ self.now }
    {
        self.0 / 2
    }
}
""",
    "crates/low/specs/Sums.antt": """-- Sums.
use Rattle.std.specs.Prelude.{ℕ, ◌≡◌, List}

-- a number with its name
pub record Named : Type 0 where
  -- as it was given
  pub name : List ℕ
  pub number : ℕ

-- the number of it
abbrev pub number_of : Named → ℕ
number_of named = named.number

abbrev mutual
  -- whether it can be halved
  pub is_even : ℕ → Bool
  is_even 0 = true
  is_even (suc number) = is_odd number

  pub is_odd : ℕ → Bool
  is_odd 0 = false
  is_odd (suc number) = is_even number

-- it has a half
pub record IsEven (number : ℕ) : Type 0 where
  pub half : ℕ
  pub twice : number ≡ half + half
""",
    "crates/low/specs/Handed.antt": """-- Hands on.
pub use Rattle.low.specs.Sums.{IsEven}
""",
    "crates/pol_cli/specs/Tasks.antt": """-- How each task ended.
use Rattle.low.specs.Handed.{IsEven}
use Rattle.low.specs.Sums as sums

-- the words ask for it
pub record GoesByWords (words : ℕ) : Type 0 where
  pub meant : words ≡ 0

-- how a task of one thread ended
abbrev pub SerialEnds : SerialTask → ℕ → Type 0
SerialEnds Find status = IsEven status
SerialEnds (Demo seed) status =
    IsTrue (sums.is_even status)

-- how a task ended
abbrev pub TaskEnds : Task → ℕ → Type 0
TaskEnds (Serial task) status = SerialEnds task status
TaskEnds (Live task) status = Ran status

-- it ran
pub record Ran (status : ℕ) : Type 0 where
  pub named : sums.Named
  pub same : sums.number_of named ≡ status
""",
    "crates/pol_cli/specs/Journal.antt": """-- The theorem.
use Rattle.low.specs.Sums.{IsEven}

-- every number is even twice
abbrev pub JournalTheorem : ℕ → Type 0
JournalTheorem number = IsEven (number + number)

-- the laws
pub record Laws : Type 0 where
  pub doubled : (number : ℕ) → JournalTheorem number
""",
}


class InRepository(unittest.TestCase):
    """Tests on a repository of two small crates."""

    def setUp(self):
        folder = tempfile.TemporaryDirectory(prefix="pol-test-")
        self.addCleanup(folder.cleanup)
        self.root = pathlib.Path(folder.name)
        for path, text in FILES.items():
            (self.root / path).parent.mkdir(parents=True, exist_ok=True)
            (self.root / path).write_text(text)


class Sentences(unittest.TestCase):
    def texts(self, page):
        return [one.text for one in sentences.sentences(page)]

    def test_a_paragraph_is_cut_at_its_full_stops_and_not_within_code(self):
        page = "# Heading\n\nIt *ends*. So **does\nit.** `a. B` stays; [a link](b.md#c) too. `x` begins."
        self.assertEqual(self.texts(page), ["It ends.", "So does it.", "`a. B` stays; a link too.", "`x` begins."])

    def test_items_and_cells_begin_anew_and_code_and_headings_of_tables_are_left_out(self):
        page = "- one\n  more\n- two\n\n| Head | Row |\n|---|---|\n| `a|b` | three |\n\n    code\n\n> four\n"
        self.assertEqual(self.texts(page), ["one more", "two", "`a|b`", "three", "four"])

    def test_a_sentence_knows_its_line_its_part_and_its_words(self):
        one = sentences.sentences("## Part\n\nEach of `every` one.\n")[0]
        self.assertEqual((one.line, one.part, one.words), (3, "Part", ["each", "of", "one"]))


class Anchors(InRepository):
    def setUp(self):
        super().setUp()
        (self.root / "try").write_text("def sums():\n    pass\n")
        self.crates = declared.known(self.root)
        patched = mock.patch.object(anchors, "PROMISED", ["low"])
        patched.start()
        self.addCleanup(patched.stop)

    def faults(self, page, rows, name="README.md", clauses=True):
        """What is wrong with a page and its rows, beside a row for the clauses of the small crate."""
        table = f"## {name}\n\n| Sentence | Carried by |\n|---|---|\n" + "".join(f"| {row} |\n" for row in rows)
        table += "| Sums. | clause `low::twice sum, even` |\n" if clauses else ""
        names = {"twice", "IsEven"}
        pages = {name: page + "\n\nSums.\n"}
        found = anchors.Coverage(pages, anchors.read(table), anchors.Targets(self.root, self.crates), names).faults()
        return [what for _, _, what in found]

    def test_a_row_with_its_sentence_and_its_target_is_right(self):
        for target in ("clause `low::twice sum`", "clause `low::twice`", "clause `low::Even::half whole`",
                       "definition `low: Sums.IsEven.half`",
                       "definition `low: Sums.is_odd`", "definition `low: Sums`", "limit `low: MOST`",
                       "test `low: sums`", "test `try sums`", "test `try`; clause `low::twice even`",
                       "no promise: an example"):
            row = f"Each sum is even, .. | {target}"
            self.assertEqual(self.faults("Each sum is *even*, always.", [row]), [], target)

    def test_an_anchor_whose_target_is_gone_is_told(self):
        for target in ("clause `low::twice odd`", "clause `low::thrice sum`", "clause `high::twice sum`",
                       "clause `low::nothing`", "clause `low::Even::half even`", "clause `low::half whole`",
                       "definition `low: Sums.IsOdd`", "definition `low: Sums.IsEven.third`", "definition `low: Sum`",
                       "limit `low: LEAST`", "test `low: summed`", "test `try products`", "test `tried`"):
            kind, name = target.replace("`", "").split(" ", 1)
            self.assertEqual(self.faults("Each sum.", [f"Each sum. | {target}"]), [f"{kind} {name} is gone"])

    def test_what_is_no_anchor_is_told(self):
        self.assertEqual(self.faults("Each sum.", ["Each sum. | `low`"]), ["no anchor: `low`"])
        self.assertEqual(self.faults("Each sum.", ["Each sum. | no promise"]), ["no reason why it is no promise"])

    def test_an_anchor_whose_sentence_is_gone_is_told(self):
        for quote in ("Each sum ..", "A"):
            self.assertEqual(self.faults("A sum.", [f"{quote} | no promise: a name"]),
                             [f"no sentence of README.md begins so: {quote}"])
        self.assertEqual(self.faults("A sum. A number.", ["A .. | no promise: a name"]),
                         ["more than one sentence of README.md begins so: A .."])

    def test_a_sentence_of_all_there_is_without_an_anchor_is_told(self):
        for word in sorted(anchors.STRONG):
            page = f"First. It is {word} so, as `twice` says. Last."
            told = f"no anchor in docs/ANCHORS.md for: It is {word} so, as `twice` says."
            self.assertEqual(self.faults(page, []), [told])
        self.assertEqual(self.faults("It is `always` so.\n\n    each line\n\n## Every day", []), [])

    def test_a_sentence_of_the_index_is_carried_by_what_its_block_names(self):
        page = "It is even. So it is always, by `low::twice`.\n\nIt is never `odd`."
        self.assertEqual(self.faults(page, [], name=anchors.INDEX),
                         ["no anchor in docs/ANCHORS.md for: It is never `odd`."])

    def test_a_clause_without_a_sentence_is_told(self):
        self.assertEqual(self.faults("A sum.", ["A sum. | clause `low::twice even`"], clauses=False),
                         ["no sentence for clause `low::twice sum`"])

    def test_a_clause_of_a_call_that_the_index_names_wants_a_sentence_too(self):
        told = [f"no sentence for clause `low::twice {label}`" for label in ("even", "sum")]
        with mock.patch.object(anchors, "PROMISED", []):
            self.assertEqual(self.faults("A sum.", [], name=anchors.INDEX, clauses=False), [])
            head = "| Crate | Call | It says |\n|---|---|---|\n"
            for row in ("| low | `twice` | a sum |", "| `twice` (`low`) | a sum |",
                        "| high, low | `nothing`, `twice` | |", "| low | `Even`, `twice` | |"):
                self.assertEqual(self.faults(head + row, [], name=anchors.INDEX, clauses=False), told)
            half = ["no sentence for clause `low::Even::half whole`"]
            for row in ("| low | `Even::half` | |", "| low | `Even::new`, `half` | |"):
                self.assertEqual(self.faults(head + row, [], name=anchors.INDEX, clauses=False), half)


class Definitions(InRepository):
    def setUp(self):
        super().setUp()
        self.made = definitions.definitions(self.root)

    def test_a_definition_has_its_comment_its_lines_and_what_it_uses(self):
        named, even = self.made["low", "Sums", "Named"], self.made["low", "Sums", "is_even"]
        self.assertEqual((named.note, len(named.lines), len(named.code)), (("-- a number with its name",), 4, 3))
        self.assertEqual((even.form, len(even.code), even.uses), ("function", 3, {("low", "Sums", "is_odd")}))

    def test_names_are_found_by_files_that_hand_them_on_and_by_aliases(self):
        self.assertEqual(self.made["pol_cli", "Tasks", "SerialEnds"].uses,
                         {("low", "Sums", "IsEven"), ("low", "Sums", "is_even")})

    def test_data_is_words_what_computes_is_worked_out_and_what_says_something_is_a_fact(self):
        kinds = definitions.kinds(self.made)
        self.assertEqual({name: kinds["low", "Sums", name] for name in ("Named", "number_of", "is_odd", "IsEven")},
                         {"Named": "words", "number_of": "words", "is_odd": "worked out", "IsEven": "fact"})
        self.assertEqual({kinds["pol_cli", "Tasks", name] for name in ("GoesByWords", "SerialEnds", "Ran")}, {"fact"})


class Reading(InRepository):
    def setUp(self):
        super().setUp()
        self.reading = reached.Reading(self.root)

    def test_each_job_begins_at_its_equation_and_reaches_what_that_names(self):
        names = {job: [place[2] for place in found.places] for job, found in self.reading.jobs.items()}
        self.assertEqual(names, {
            "every job": ["GoesByWords", "JournalTheorem", "Laws", "IsEven"], "find": ["IsEven"],
            "demo": ["is_even", "is_odd"], "plant": ["Ran", "Named", "number_of"]})

    def test_lines_are_counted_by_kind_and_those_that_not_every_job_has(self):
        self.assertEqual(self.reading.row("find"), "| find | 3 | 0 | 0 | 0 | 0 | 0 |")
        self.assertEqual(self.reading.row("demo"), "| demo | 0 | 0 | 6 | 6 | 0 | 0 |")
        self.assertEqual(self.reading.row("plant"), "| plant | 3 | 3 | 0 | 0 | 5 | 5 |")
        self.assertEqual(self.reading.files(), {("low", "Sums"), ("pol_cli", "Journal"), ("pol_cli", "Tasks")})

    def test_a_job_with_too_many_lines_that_say_something_is_told(self):
        self.assertEqual(self.reading.remark("demo"), "")
        with mock.patch.object(reached, "MOST", 5):
            self.assertEqual(self.reading.remark("demo"),
                             "demo: 6 lines say something, more than 5: 0 of facts, 6 of what is worked out")
