"""The functions of a file, as the scripts find them for the must-fail edits, and what a check says of their proofs."""

import os
import shutil
import sys
import tempfile
import unittest
from pathlib import Path
from typing import List

from . import TOP

sys.path.insert(0, str(TOP / "scripts"))

from edits_listed import clauses  # noqa: E402
from edits_over import PARTS, Libraries, owner_of  # noqa: E402
from must_fail import complaints  # noqa: E402
from sources import functions_of  # noqa: E402

TRAIT = """/// What is known.
pub trait Domain {
    type State;

    /// An equal state.
    fn copy(&self, s: &Self::State) -> Self::State
        requires { is_state self.now s.now }
        ensures { result ≡ s.now };

    fn join(
        &self,
        a: &Self::State,
    ) -> Self::State
        ensures { below self.now a.now result };

    fn small(&self) -> bool;

    fn given(&self) -> bool {
        true
    }
}

/// Goes on.
fn pass<D: Domain>(
    d: &D,
    first: usize,
) -> usize
    requires { first ≤ 1 }
{
    let step = || {
        first
    };
    d.copy(step());
}

pub fn law()
    ensures { IsLaw }
{}

pub(crate) fn none() {}

fn last(
    n: u64,
) -> u64 {
    n
}
"""


class Functions(unittest.TestCase):
    """Each line of a file belongs to the function that it is read with."""

    def test_functions_of_a_trait_may_have_no_body(self) -> None:
        names = [function.name for function in functions_of(TRAIT)]
        self.assertEqual(names, ["copy", "join", "small", "given", "pass", "law", "none", "last"])

    def test_a_line_is_of_the_function_that_it_stands_in(self) -> None:
        lines = TRAIT.split("\n")
        for text, name in (
            ("    fn copy(&self, s: &Self::State) -> Self::State", "copy"), ("        ensures { result ≡ s.now };", "copy"),
            ("        ensures { below self.now a.now result };", "join"), ("    fn small(&self) -> bool;", "small"), ("        true", "given"),
            ("    requires { first ≤ 1 }", "pass"), ("        first", "pass"), ("    d.copy(step());", "pass"), ("    ensures { IsLaw }", "law"),
            ("pub(crate) fn none() {}", "none"), ("    n", "last"),
        ):
            with self.subTest(text):
                at = lines.index(text)
                self.assertEqual([function.name for function in functions_of(TRAIT) if function.first <= at <= function.last], [name])

    def test_what_stands_before_a_function_is_its_own(self) -> None:
        functions = functions_of(TRAIT)
        self.assertEqual(functions[0].first, 0)
        for one, after in zip(functions, functions[1:]):
            self.assertEqual(after.first, one.last + 1)


GONE = "./proofs/ways/Graph/extend/Answers.antt:7:85: error: `returns`: record `proofs.ways.Graph.extend.Lts.Past` has no field `remove`"
LONG = "./proofs/ways/Graph/extend/Answers.antt:8:40: error: `returns-in-Some`: `goal.returns-in-Some`: module `proofs.ways.Graph.extend.Goals`"
LONG += "\n  has no `returns-in-Some` that can be named from here (names in it that begin alike: `returns`)"
NEAREST = "./proofs/ways/Graph/extend/Answers.antt:9:77: error: `found`: record `proofs.ways.Graph.extend.Lts.After` (nearest: .insert)"
NEAREST += "\n  has no field `insert-count`\n  the fields that can be named here are `insert`"
LEFT = "./proofs/ways/Graph/extend/Answers.antt:9:5: error: 1 declaration that depends on `few`, which was rejected, was not checked: few-short"
FALSE = "./proofs/ways/Graph/extend/Answers.antt:9:13: error: `returns-in-Some`: as printed, the two types differ only where one has `0`"
CUT = "./proofs/ways/Graph/extend/Answers.antt:7:5: error: `returns`: in its elaboration: stopped at the step limit (50000000 steps a task)"
OTHER = "./proofs/ways/Graph/extended/Answers.antt:4:6: error: `returns`: as printed, the two types differ only where one has `1`"


class Complaints(unittest.TestCase):
    """A proof that names what an edit took away, or a limit of the prover, shows nothing of a contract; a goal that is false does."""

    def test_a_proof_that_only_names_what_is_gone_is_told_apart(self) -> None:
        told, why = complaints("extend", "\n".join([GONE, LONG, NEAREST, LEFT, OTHER]))
        self.assertEqual(told, [])
        self.assertIn("a proof names what it takes away", why)

    def test_a_limit_of_the_prover_is_told_apart(self) -> None:
        for lines in [CUT], [CUT, GONE]:
            told, why = complaints("extend", "\n".join(lines))
            self.assertEqual(told, [])
            self.assertIn("a limit of the prover", why)

    def test_a_goal_that_is_false_is_told(self) -> None:
        told, why = complaints("extend", "\n".join([GONE, CUT, FALSE]))
        self.assertEqual([it.split("`")[1] for it in told], ["returns-in-Some"])
        self.assertEqual(why, "")

    def test_another_functions_proof_says_nothing_of_it(self) -> None:
        self.assertEqual(complaints("extend", OTHER), ([], ""))


class Owners(unittest.TestCase):
    """What a method's name has before it, as the prover prints it."""

    def owner(self, line: str) -> str:
        return owner_of([line, "    fn call(&self) {}"], 1)[0]

    def test_of_a_type(self) -> None:
        self.assertEqual(self.owner("impl Overlay<'_> {"), "Overlay")
        self.assertEqual(self.owner("impl<'a, W: Write> super::Report<'a, W> {"), "Report")

    def test_of_a_trait(self) -> None:
        self.assertEqual(self.owner("impl<W: Write> Write for Report<'_, W> {"), "ReportWrite")
        self.assertEqual(self.owner("impl<D: Domain> Passage for Stepwise<'_, D> {"), "StepwisePassage")

    def test_of_a_trait_that_is_given_types(self) -> None:
        self.assertEqual(self.owner("impl From<io::Error> for KeepError {"), "KeepErrorFromIoError")
        self.assertEqual(self.owner("impl<R: Read, W: Write> AfterRecord<R, BufWriter<W>> for Prompt {"), "PromptAfterRecordBufWriter")

        self.assertEqual(self.owner("impl<R: Read, A: AfterRecord<Counted<R>, u8>> AfterRecord<Counted<R>, u8> for Whole<A> {"), "WholeAfterRecordCountedU8")

    def test_of_a_drop(self) -> None:
        self.assertEqual(self.owner("impl Drop for Overlay<'_> {"), "Overlay")

    def test_a_function_of_no_type(self) -> None:
        self.assertEqual(owner_of(["fn call() {}"], 0), ("", ""))


class OfTheseSources(unittest.TestCase):
    """Edits are tried over libraries of the text of today alone."""

    def setUp(self) -> None:
        self.room = Path(tempfile.mkdtemp())
        self.addCleanup(shutil.rmtree, self.room)
        self.crate = self.room / "crates/mv_edges"
        for below in "mv_move_types", "mv_edges":
            for part in PARTS:
                if (TOP / "crates" / below / part).is_dir():
                    shutil.copytree(TOP / "crates" / below / part, self.room / "crates" / below / part)
            (self.room / f"crates/{below}/out/rlib/{below}.rlib").mkdir(parents=True)

    def lacking(self) -> List[str]:
        return Libraries(self.room, self.room).lacking({"mv_ways"})

    def test_a_library_of_the_same_sources_serves(self) -> None:
        self.assertEqual(self.lacking(), [])

    def test_a_library_of_another_text_does_not(self) -> None:
        with open(self.crate / "src/lib.rt", "a", encoding="utf-8") as file:
            file.write("// Another line.\n")
        os.utime(self.crate / "src/lib.rt", (0, 0))
        self.assertEqual(self.lacking(), ["mv_edges"])

    def test_nor_does_one_that_is_older_than_its_sources(self) -> None:
        os.utime(self.crate / "out/rlib/mv_edges.rlib", (0, 0))
        self.assertEqual(self.lacking(), ["mv_edges"])

    def test_nor_one_that_is_gone(self) -> None:
        shutil.rmtree(self.crate / "out")
        self.assertEqual(self.lacking(), ["mv_edges"])


class Clauses(unittest.TestCase):
    """What a page states, each of which is to have an edit."""

    def test_names_alone_are_no_clauses(self) -> None:
        found = list(clauses("crates/moveledger/specs/Headline.antt"))
        self.assertIn("Headline.written", found)
        self.assertIn("AnswersWhole.no_fault", found)
        self.assertIn("KeysAscend", found)
        self.assertNotIn("Headline.records", found)
        self.assertNotIn("AnswersWhole.request", found)

    def test_cases_are_clauses(self) -> None:
        self.assertIn("EndsReading.at_a_cut_record", list(clauses("crates/moveledger/specs/Outcome.antt")))


if __name__ == "__main__":
    unittest.main()
