"""What bytes are taken for by how they begin, faults of modules that few bytes make, and what pages draw and count."""

import re
import unittest
from typing import List, Tuple

from movetext.coverage import percent, ranges
from movetext.kinds import FRONT, LEDGER, MODULE, STREAM, bytes_kind, is_text, kind_of
from movetext.limits import FUNCTION_COUNT
from movetext.model import MAGIC, FunctionDefinition, FunctionHandle, Instruction, StructHandle
from movetext.opcodes import BY_NAME
from movetext.pages import of_module, whole_page
from movetext.reader import read_module
from movetext.streaming import assemble
from movetext.writer import write_module


class Kinds(unittest.TestCase):
    def test_what_bytes_are_taken_for(self) -> None:
        rows: List[Tuple[bytes, str]] = [
            (b"", STREAM), (MAGIC[:1], MODULE), (MAGIC[:2], MODULE), (MAGIC, MODULE), (MAGIC[:2] + b"xy", MODULE),
            (b"xy" + MAGIC[2:], MODULE), (MAGIC[:1] + b"xyz", STREAM), (b"x", STREAM), (b"x" + MAGIC[1:2], STREAM), (b"MVL1", LEDGER),
            (b"MVL2\0", LEDGER), (b"MVL3\0", STREAM), (b"MVL", STREAM), (b"\3\0", STREAM),
        ]
        for data, kind in rows:
            self.assertEqual(kind_of(data), kind, data)
        found = [bytes_kind(data) for data in (b"", MAGIC, MAGIC[:3], b"MVL2", b"\3\0", b"show\n", b"module 0x1::M {}")]
        self.assertEqual(found, [None, MODULE, None, LEDGER, STREAM, None, None])

    def test_texts(self) -> None:
        letter = "\u20ac".encode()
        rows: List[Tuple[bytes, bool]] = [
            (b"show\n", True), (b"", False), (b" \n", False), (b"a\0", False), (b"a\x7f", False), (b"a\x1f", False),
            (b"a\tb\r\n\x0c", True), (letter, True), (letter[:2], False), (b"\xff", False), (b"a" * FRONT + b"\xff", True),
            (b"a" * (FRONT - 1) + letter, True), (b"a" * (FRONT - 2) + letter, True), (b"a" * (FRONT - 2) + letter[:2], False),
            (b"a" * (FRONT - 4) + b"\xff" + b"a" * 9, False),
        ]
        for data, wanted in rows:
            self.assertEqual(is_text(data), wanted, (len(data), data[-9:]))


class Faults(unittest.TestCase):
    def test_no_more_functions_than_there_may_be(self) -> None:
        module = read_module(assemble("module 0x1::M { f() { Ret } }")).module
        for count, faults in (FUNCTION_COUNT, 0), (FUNCTION_COUNT + 1, 1):
            module.functions = [FunctionDefinition(0, code=[Instruction(BY_NAME["Ret"])]) for _ in range(count)]
            found = read_module(write_module(module)).faults
            self.assertEqual([fault.reason for fault in found], ["257 function definitions; there are at most 256"] * faults)

    def test_as_many_handles_as_one_likes(self) -> None:
        module = read_module(assemble("module 0x1::M { f() { Ret } }")).module
        module.struct_handles = [StructHandle(0, 0, 0) for _ in range(FUNCTION_COUNT + 9)]
        module.function_handles += [FunctionHandle(0, 0, 0, 0) for _ in range(FUNCTION_COUNT + 9)]
        self.assertEqual(read_module(write_module(module)).faults, [])

    def test_there_are_no_type_parameters(self) -> None:
        data = assemble("module 0x1::M {\nimport 0x2::N { struct A has key; g() }\nf() { Call N::g; Ret }\n}")
        reasons = set()
        for at, byte in enumerate(data):
            if byte == 0:
                reasons |= {fault.reason for fault in read_module(data[:at] + b"\3" + data[at + 1 :]).faults if "generics" in fault.reason}
        self.assertEqual(reasons, {f"a {what} has 3 type parameters; there are no generics, so the number is 0"
                                   for what in ("struct handle", "function handle")})


class Counts(unittest.TestCase):
    def test_percentages_and_ranges(self) -> None:
        found = [percent(*it) for it in ((0, 0), (0, 3), (1, 3), (199, 200), (200, 200))]
        self.assertEqual(found, ["none", "0 %", "33 %", "99 %", "100 %"])
        rows: List[Tuple[List[int], str]] = [
            ([], ""), ([3], "3"), ([3, 4], "3-4"), ([1, 3, 4, 5, 7], "1, 3-5, 7"),
            (list(range(1, 40, 2)), "1, 3, 5, 7, 9, 11, 13, 15, 17, 19, 21, 23 and 8 more")]
        self.assertEqual([ranges(numbers) for numbers, _ in rows], [told for _, told in rows])


class Drawing(unittest.TestCase):
    def test_arcs_stand_beside_their_rows(self) -> None:
        text = "module 0x1::M { f(b: bool) {\nagain:\nCopyLoc b; BrTrue done\nNop; Branch again\ndone: Ret\n} }"
        page = whole_page(of_module(assemble(text), None, None), "it")
        # Rows are 22 high. From the second instruction to the third and to the last, and from the fourth to the first block's head.
        self.assertEqual(re.findall(r'<path class="arc ?(\w*)" data-from="(\d)" d="([^"]*)"', page), [
            ("next", "1", "M41,58 H39 Q35,58 35,62 V73 Q35,77 39,77 H41"),
            ("", "1", "M41,58 H30 Q26,58 26,62 V139 Q26,143 30,143 H41"),
            ("back", "3", "M41,124 H21 Q17,124 17,120 V15 Q17,11 21,11 H41")])
        self.assertEqual(re.findall(r'<path class="tip ?(\w*)" d="([^"]*)"', page), [
            ("next", "M37,73 L44,77 L37,81 z"), ("", "M37,139 L44,143 L37,147 z"), ("back", "M37,7 L44,11 L37,15 z")])
        self.assertIn('<svg class="flow" width="49" height="176"', page)
