"""Runs step by step: their ends, steps and reports are those of the rows, and what is shown agrees with itself."""

import json
import re
import unittest
from typing import Any, Dict, Iterator, List, Optional, Tuple

from movetext.explain.telling import NoRecord
from movetext.proving import Prover
from movetext.showing import OPTIONS, asked_of, wrong_together
from movetext.source_names import NameTable
from movetext.streaming import TextAssembler, read_source
from movetext.trace import Asked, Spot, trace
from movetext.writing import printable

from . import TOP

ROWS = TOP / "crates/moveledger_tests/src/tests/rows.rt"
# So many rows, runs and steps there are at least, so that a new form of the file can't leave the tests without any.
LEAST_ROWS, LEAST_RUNS, LEAST_STEPS = 130, 95, 1_500
# So many steps are looked at of each row.
MOST = 400
ENDED = re.compile(r"(?:returned|aborted \w+ \d+|exhausted \w+) (\d+)$")

TEXT = """\
publish by 0x1 {
    module 0x1::M {
        struct Coin has key { inner: Inner, owner: address }
        struct Inner has store { value: u64 }

        public entry make(s: signer, value: u64) {
            ImmBorrowLoc s
            MoveLoc value
            Pack Inner
            LdConst @0x2
            Pack Coin
            MoveTo Coin
            Ret
        }

        set(place: &mut u64) {
            LdU64 9
            MoveLoc place
            WriteRef
            Ret
        }

        public entry both(a: address) acquires Coin {
            let x: u64
            LdU64 1
            StLoc x
            MutBorrowLoc x
            Call set
            MoveLoc a
            MutBorrowGlobal Coin
            MutBorrowField Coin.inner
            MutBorrowField Inner.value
            Call set
            Ret
        }

        public entry take(a: address, wanted: u64) acquires Coin {
            MoveLoc a
            MoveFrom Coin
            Unpack Coin
            Pop
            Unpack Inner
            MoveLoc wanted
            Eq
            BrTrue fine
            LdU64 3
            Abort
        fine:
            Ret
        }

        public entry forever() {
        again:
            Branch again
        }
    }
}
run 0x1::M::make(7u64) by 0x1 budget 100
run 0x1::M::both(@0x1) by 0x1 budget 100
run 0x1::M::take(@0x1, 8u64) by 0x1 budget 100
run 0x1::M::forever() by 0x1 budget 5
run 0x1::M::take(@0x1, 9u64) by 0x1 budget 100
show
"""


def rows() -> Iterator[Tuple[str, bytes, List[str]]]:
    """The rows' titles, streams and reports."""
    for row in ROWS.read_text(encoding="utf-8").split('r#"')[1].split("#")[1:]:
        title, digits, report = (row.split("\n") + ["", ""])[:3]
        yield title.strip(), bytes.fromhex(digits), [line for line in report.split("; ") if line]


def traced(data: bytes, asked: Asked = Asked(), names: NameTable = NameTable()) -> List[Dict[str, Any]]:
    """What is shown, by field."""
    lines: List[str] = []
    trace(data, None, names, asked, lines.append, True)
    return [json.loads(line) for line in lines]


def made(text: str = TEXT) -> Tuple[bytes, NameTable]:
    maker = TextAssembler(read_source("my.text", text.encode()), "", Prover())
    return maker.bytes(), maker.names


def told(asked: Asked, text: str = TEXT) -> List[str]:
    """What is shown of a text, in lines."""
    data, names = made(text)
    lines: List[str] = []
    trace(data, None, names, asked, lines.append)
    return lines


class Rows(unittest.TestCase):
    def test_the_end_the_steps_and_the_report_of_each_row_are_those_of_the_program(self) -> None:
        runs = steps = count = 0
        for title, data, report in rows():
            count += 1
            with self.subTest(title):
                found = traced(data, Asked(most=MOST))
                ends = [one for one in found if "lines" in one]
                self.assertEqual([line for one in ends for line in one["lines"]], report)
                for end in ends:
                    ended = ENDED.match(end["verdict"])
                    if ended:
                        runs += 1
                        shown = [one for one in found if one["record"] == end["record"] and "step" in one]
                        steps += len(shown)
                        self.check_run(end, int(ended[1]), shown, len([one for one in found if "step" in one]) < MOST)
        self.assertGreater(count, LEAST_ROWS)
        self.assertGreater(runs, LEAST_RUNS)
        self.assertGreater(steps, LEAST_STEPS)

    def check_run(self, end: Dict[str, Any], count: int, shown: List[Dict[str, Any]], is_whole: bool) -> None:
        """A run has so many steps, one after the other, and ends where the last of them stands."""
        self.assertEqual(end["steps"], count)
        self.assertEqual([one["step"] for one in shown], list(range(1, len(shown) + 1)))
        if not is_whole or not shown:
            return
        self.assertEqual(len(shown), count)
        last = shown[-1]
        if end["verdict"].startswith("returned"):
            self.assertEqual((last["code"], last["frames"]), ("Ret", 1))
        if end["verdict"].startswith(("aborted", "exhausted frames")):
            self.assertEqual((last["instruction"], last["code"]), (end["instruction"], end["code"]))
        for one in shown:
            self.check_references(one)

    def check_references(self, step: Dict[str, Any]) -> None:
        """A reference to a local of its frame has an edge from the local, or from another reference to it."""
        nodes = [(f"Temp {at}", one) for at, one in enumerate(step["stack"])] + [(f"Slot {one['name']}", one) for one in step["locals"]]
        for node, one in nodes:
            if one["refers"] and " of " not in one["refers"] and "[" not in one["refers"]:
                root = one["refers"].split(".")[0]
                wanted = re.compile(rf"Own {re.escape(root)}(?:\.\S*)? -> {re.escape(node)}")
                self.assertTrue(any(wanted.fullmatch(edge) for edge in step["edges"]), (step, node))


class Shown(unittest.TestCase):
    def test_a_step_has_operands_locals_and_edges_by_name(self) -> None:
        lines = told(Asked(record=3))
        at = lines.index("  step 13  0x1::M::both  8  Call set  (my.text:33:13)")
        self.assertEqual(lines[at + 1:at + 4], [
            "    stack   &mut Coin[@0x1].inner.value = 7u64", "    locals  x: 9u64", "    edges   Glob Coin.inner.value -> Temp 0"])
        self.assertIn("    locals  place: &mut x of 0x1::M::both = 1u64", lines)
        self.assertEqual(lines[-3:], [
            "3 returned 18", "0x1::M, function 2 `both`, block 0, instruction 9 `Ret`, offset 288, my.text:34:13",
            "    changes 0x1::M::Coin at @0x1 to { inner: { value: 9u64 }, owner: @0x2 }, from { inner: { value: 7u64 }, owner: @0x2 }"])

    def test_ends_say_where_and_why(self) -> None:
        self.assertEqual(told(Asked(record=4))[-3:], [
            "4 aborted code 3 10", "0x1::M, function 3 `take`, block 1, instruction 9 `Abort`, offset 319, my.text:47:13",
            "Abort gives up with the code 3"])
        self.assertEqual(told(Asked(record=5))[-3:], [
            "5 exhausted steps 5", "0x1::M, function 4 `forever`, block 0, instruction 0 `Branch again`, offset 327, my.text:54:13",
            "the budget is used up before this instruction"])
        self.assertEqual(told(Asked(record=6))[-1], "    takes 0x1::M::Coin at @0x1, which was { inner: { value: 9u64 }, owner: @0x2 }")
        self.assertEqual(told(Asked(record=2))[-1], "    stores 0x1::M::Coin at @0x1, { inner: { value: 7u64 }, owner: @0x2 }")

    def test_only_what_is_asked_for_is_shown(self) -> None:
        def steps(asked: Asked) -> List[Tuple[int, int]]:
            data, names = made()
            return [(one["record"], one["step"]) for one in traced(data, asked, names) if "step" in one]
        self.assertEqual(steps(Asked(record=3, until=2)), [(3, 1), (3, 2)])
        self.assertEqual(steps(Asked(most=9)), [(2, at) for at in range(1, 8)] + [(3, 1), (3, 2)])
        self.assertEqual(steps(Asked(spot=Spot("", "set", 17))), [(3, 5), (3, 14)])
        self.assertEqual(steps(Asked(spot=Spot("M", "set", None, 3))), [(3, 8), (3, 17)])
        self.assertEqual(len(steps(Asked(spot=Spot("0x1::M", "forever")))), 5)
        self.assertEqual(told(Asked(record=3, most=4))[-4], "  4 steps of 18 are shown: no more than 4 are; `--steps N` shows more")

    def test_what_is_not_there_is_refused(self) -> None:
        for asked, wanted in (
                (Asked(record=9), "there is no record 9: the stream has 7"),
                (Asked(spot=Spot("", "sets")), "no module of the stream has the function `sets`"),
                (Asked(spot=Spot("N", "set")), "no module of the stream has the function `N::set`"),
                (Asked(spot=Spot("", "set", None, 4)), "`set` has 4 instructions, and none of the number 4: they are counted from 0"),
                (Asked(spot=Spot("", "set", 16)), "`set` has no instruction in line 16; it has some in the lines 17, 18, 19, 20")):
            with self.assertRaises(NoRecord) as caught:
                told(asked)
            self.assertEqual(str(caught.exception), wanted)

    def test_lines_for_a_terminal_cannot_move_its_cursor(self) -> None:
        self.assertEqual(printable("it\x1b[2J is\u202e \ud800 é"), "it\\x1b[2J is\\u202e \\ud800 é")


class Words(unittest.TestCase):
    def given(self, **more: str) -> "Dict[str, Optional[str]]":
        names = ["--explain", "FUNCTION", "CERTIFICATE", "KIND", "OUT", "FILE", "LEDGER", "NAMES", "N"]
        names += [one.value or one.flag for one in OPTIONS]
        return {**{name: None for name in names}, **{name.replace("__", "--"): value for name, value in more.items()}}

    def test_what_goes_together(self) -> None:
        for given, wanted in (
                (self.given(__trace=""), ""), (self.given(__trace="", PLACE="0x1::M::f#3", STEP="1", STEPS="9"), ""), (self.given(__html=""), ""),
                (self.given(__trace="", __html=""), "only one of '--trace' and '--html' is given"),
                (self.given(__trace="", CERTIFICATE="x"), "'--trace' is about a stream"),
                (self.given(STEP="1"), "'--until <STEP>' needs '--trace'"),
                (self.given(__trace="", STEP="0"), "invalid value '0' for '--until <STEP>': a whole number of at least 1"),
                (self.given(__trace="", PLACE="a:b"), "invalid value 'a:b' for '--at <PLACE>': a place is FUNCTION, FUNCTION:LINE or "
                 "FUNCTION#INSTRUCTION")):
            self.assertEqual(wrong_together(given), wanted)

    def test_places_are_functions_lines_and_instructions(self) -> None:
        for text, wanted in (("f", Spot("", "f")), ("M::f:12", Spot("M", "f", 12)), ("0x1::M::f#0", Spot("0x1::M", "f", None, 0)),
                             ("#3", Spot("", "#3")), ("#3#5", Spot("", "#3", None, 5)), ("`u64`:7", Spot("", "u64", 7))):
            self.assertEqual(asked_of(self.given(PLACE=text)).spot, wanted)
