"""What an author is told: at the right word, of every function, with a rule that the page has, and in lines that aren't too long."""

import random
import re
import unittest
from pathlib import Path
from typing import Iterator, List, Optional, Set, Tuple

from movetext import VERSION
from movetext.errors import SHOWN, WIDTH, Source, TextErrors, distance, folded, nearest, wrapped
from movetext.explain.failures import Failure, Place
from movetext.explain.pages import RULES, rule_of
from movetext.explain.verdict import Trial, explain_module
from movetext.proving import Prover
from movetext.random_code import random_typed_module
from movetext.random_modules import random_module
from movetext.samples import altered
from movetext.streaming import TextAssembler
from movetext.writer import write_module

TOP = Path(__file__).resolve().parent.parent.parent
PAGE = (TOP / "docs/REFUSALS.md").read_text(encoding="utf-8")
# A text of the page with what is said of it, and a verdict in that.
EXAMPLE = re.compile(r"^((?: {4}.*\n|\n)+)```\n((?:(?!```).*\n)*)```\n", re.M)
VERDICT = re.compile(r"^(?:\d+ )?(?:refused (\d+)|too complex)")


def said_of(text: str) -> List[str]:
    """What is said of a text."""
    try:
        TextAssembler(Source("my.text", text), "", Prover(), checks=True).bytes()
    except TextErrors as errors:
        return errors.lines()
    return []


def refused_examples() -> Iterator[Tuple[str, str, List[str]]]:
    """Each example of the page that is refused, with the heading above it, and what is said of it from its verdict on."""
    for found in EXAMPLE.finditer(PAGE):
        lines = found[2].splitlines()
        heading = re.findall(r"^### (.*)$", PAGE[:found.start()], re.M)[-1:]
        for at, line in enumerate(lines):
            if VERDICT.match(line):
                yield found[1], heading[0], lines[at:]
                break


class Rules(unittest.TestCase):
    def test_each_rule_is_a_heading_of_the_page(self) -> None:
        headings = re.findall(r"^### (.*)$", PAGE, re.M)
        self.assertEqual(sorted(headings), sorted({one.name for one in RULES}))

    def test_each_example_of_the_page_stands_below_its_rule(self) -> None:
        count = 0
        for _, heading, lines in refused_examples():
            phase = VERDICT.match(lines[0])
            assert phase is not None
            number = int(phase[1]) if phase[1] else None
            names = {rule_of(Failure(number, Place(""), "", line)).name for line in lines[1:]
                     if any(one.phase == number and re.match(one.sentence, line) for one in RULES)}
            self.assertIn(heading, names, lines)
            count += 1
        self.assertGreater(count, 90)


class Failures(unittest.TestCase):
    def test_the_first_of_all_failures_is_the_verdict(self) -> None:
        draw = random.Random("failures of functions")
        kinds: Set[Optional[int]] = set()
        for number in range(160):
            module = random_typed_module(draw, (bytes(16), f"M{number}"), errors=0.15, needs=0.1) if number % 2 else random_module(draw, False)
            data = write_module(module)
            data = altered(draw, data) if number % 3 == 0 else data
            failures = list(Trial(data, advises=True).failures())
            first = explain_module(data).failure
            self.assertEqual(first, failures[0]._replace(advice=first and first.advice) if failures else None)
            functions = [one.place.function for one in failures if one.place.function is not None]
            self.assertEqual(len(set(functions)), len(functions), "a function fails once")
            kinds.update(one.phase for one in failures)
        self.assertLessEqual({4, 8, 11}, kinds)


class Messages(unittest.TestCase):
    def test_each_refusal_of_the_page_is_told_in_the_form_of_a_message(self) -> None:
        told = 0
        for text, _, _ in refused_examples():
            lines = said_of("\n".join(line[4:] for line in text.split("\n")))
            told += bool(lines)
            for line in lines:
                if not re.match(r"my.text:\d+:\d+: (error|note): ", line):
                    self.assertTrue(line.startswith("    "), line)
                    self.assertLessEqual(len(line), WIDTH, line)
        self.assertGreater(told, 80)

    def test_all_errors_are_told_and_none_that_follows_from_another(self) -> None:
        text = ("module 0x1::M {\n    import 0x2::N { pay(Purs) }\n    struct A { b: B }\n    f(x: u64) {\n        let y u64\n        MovLoc x\n"
                "        StLoc y\n        Ret\n    }\n    g(a A) { Ret }\n    h() {\n        Call g\n        Call N::pay\n        Ret\n    }\n}\n")
        self.assertEqual([line for line in said_of(text) if ": error: " in line], [
            "my.text:2:25: error: no type `Purs`", "my.text:3:19: error: no type `B`", "my.text:5:15: error: wanted `:`, found `u64`",
            "my.text:6:9: error: no instruction `MovLoc`", "my.text:10:9: error: wanted `:`, found `A`"])

    def test_no_more_errors_than_twenty_are_told(self) -> None:
        lines = said_of("module 0x1::M {\n    f() {\n" + 30 * "        Pup\n" + "    }\n}\n")
        self.assertEqual((sum(": error: " in line for line in lines), lines[-1]), (20, "my.text: and 10 more"))

    def test_a_long_line_is_shown_around_its_word(self) -> None:
        for before in (0, 40, 90, 91, 200, 5_000):
            for word, after in (("no", 0), ("no", 300), ("n" * 200, 10)):
                source = Source("t", " " * before + word + " " + "x" * after)
                shown, marks = source.marked(before) if before + after else source.marked(0)
                at = marks.index("^")
                self.assertLessEqual(max(len(shown), len(marks)), SHOWN)
                self.assertTrue(shown[at:].startswith(word[:len(marks) - at - 2]), (before, after))

    def test_a_line_that_just_fits_is_shown_whole(self) -> None:
        for length, shown in (SHOWN - 1, "x" * (SHOWN - 1)), (SHOWN, "x" * SHOWN), (SHOWN + 1, "x" * (SHOWN - 2) + ".."):
            self.assertEqual(Source("t", "x" * length).marked(0), [shown, "^" * min(length, SHOWN)])
        half = SHOWN // 2
        self.assertEqual(Source("t", " " * half + "x" * (SHOWN - half)).marked(half)[0], " " * half + "x" * (SHOWN - half))
        self.assertEqual(Source("t", " " * (half + 1) + "x" * (SHOWN - half)).marked(half + 1)[0][:4], "..  ")

    def test_words_are_not_broken_between_lines(self) -> None:
        long = "n" * (2 * WIDTH)
        self.assertEqual(wrapped(f"one {long} {'two ' * 3}well-known"), ["one", long, "two two two well-known"])
        self.assertEqual(folded("help: ", f"one {long} well-known"), ["    help: one", " " * 10 + long, " " * 10 + "well-known"])
        self.assertEqual(folded("help: ", ""), [])

    def test_a_line_and_a_column_have_an_offset(self) -> None:
        source = Source("t", "ab\ncd\n\ne")
        for at in range(9):
            self.assertEqual(source.offset(*source.place(at)), at)

    def test_what_was_meant_is_near(self) -> None:
        rows = [
            ("MovLoc", "MoveLoc"), ("Movloc", "MoveLoc"), ("moveloc", "MoveLoc"), ("LocMove", "MoveLoc"), ("MvoeLoc", "MoveLoc"), ("Mv", None),
            ("Mxxxloc", None), ("Po", "Pop"), ("P", None), ("Ppo", "Pop"), ("Pops", "Pop"), ("Popsy", None), ("N::Coin", "M::Coin"), ("", None),
        ]
        for name, wanted in rows:
            self.assertEqual(nearest(name, ["Pop", "MoveLoc", "M::Coin"]), wanted, name)
        self.assertEqual([distance("abcd", it, 3) for it in ("abcd", "abc", "abdc", "bacd", "xbcd", "abxcd", "wxyz", "abcdwxyz")],
                         [0, 1, 1, 1, 1, 1, 4, 4])
        self.assertEqual(distance("ab", "ba", 0), 1)

    def test_tabs_and_wide_letters_stay_before_the_marks(self) -> None:
        source = Source("t", "\t\u00e9 MoveLoc x")
        self.assertEqual(source.marked(11), ["\t\u00e9 MoveLoc x", "\t          ^"])
        self.assertEqual(source.told(11), "t:1:12")


class Authors(unittest.TestCase):
    """The table of docs/AUTHORS.md: what stands in its last column is a text."""

    CONTEXT = ("module 0x1::Own {\n    import 0x2::Others as C { mint(signer, u64) }\n    struct Coin has store, key { value: u64 }\n%s\n"
               "    half(x: u64): u64 { MoveLoc x; Ret }\n"
               "    f(x: u64, y: u64, b: bool, c: bool, a: address, s: signer, r: &mut u64, coin: Coin) {\n        %s; Ret\n    }\n}\n")

    def test_each_construct_is_written_as_the_table_says(self) -> None:
        page = (TOP / "docs/AUTHORS.md").read_text(encoding="utf-8")
        rows = re.findall(r"^\| [^|]*\|.*\| ([^|]*) \|$", page.partition("## From Move's source")[2].partition("## Checklist")[0], re.M)
        tried = 0
        for row in rows[2:]:
            for text in re.findall(r"`([^`]+)`", row):
                if re.fullmatch(r"[a-z]+", text):
                    continue
                with self.subTest(text):
                    self.assertEqual(said_unchecked(self.in_context(text)), [])
                    tried += 1
        self.assertGreater(tried, 60)

    def in_context(self, text: str) -> str:
        """A text of the table within a module; `..` is any code."""
        if text.startswith("module"):
            return text.replace("..", "")
        text = text.replace("..", "Nop")
        if text.startswith("let "):
            return self.CONTEXT % ("", text + "; Nop")
        if text.startswith("import"):
            return self.CONTEXT.replace("C { mint", "O { mint") % (text.replace(" { struct", " as C { struct"), "Nop")
        if text.startswith("struct"):
            return self.CONTEXT.replace("struct Coin has store, key { value: u64 }", "%s") % (text, "", "Nop")
        if "{" in text:
            return (self.CONTEXT.replace("    half(x: u64): u64 { MoveLoc x; Ret }\n", "") if "half" in text else self.CONTEXT) % (text, "Nop")
        return self.CONTEXT % ("", text)


def said_unchecked(text: str) -> List[str]:
    """What is said of a text whose modules aren't tried."""
    try:
        TextAssembler(Source("my.text", text), "", Prover()).bytes()
    except TextErrors as errors:
        return errors.lines()
    return []


class Versions(unittest.TestCase):
    def test_there_is_one_version(self) -> None:
        project = re.search(r'^version = "(.*)"$', (TOP / "tools/pyproject.toml").read_text(encoding="utf-8"), re.M)
        program = re.search(r'VERSION: &str = "moveledger (.*)\\n"', (TOP / "crates/moveledger_program/src/program.rt").read_text(encoding="utf-8"))
        assert project is not None and program is not None
        self.assertEqual((project[1], program[1]), (VERSION, VERSION))


if __name__ == "__main__":
    unittest.main()
