"""Certificates: made, printed, read and written again, and what is told of bytes that are none."""

import unittest
from typing import List, Tuple

from movetext.certificates import read_certificate
from movetext.cursor import Fault
from movetext.disassembler import disassemble, disassemble_module
from movetext.model import AVAILABLE, GLOB, MAYBE, OWN, SLOT, UNAVAILABLE, BlockState, Certificate, Edge, Module, Node
from movetext.proving import NotProved, Prover
from movetext.reader import read_module
from movetext.streaming import assemble
from movetext.writer import write_certificate

# The code of f begins two blocks; behind the branch r refers to x, mr to a field of the stored Coin.
TEXT = """module 0x1::M {
    struct Coin has key { value: u64 }
    f(x: u64, b: bool, a: address) acquires Coin {
        let r: &u64
        let mr: &mut u64
        ImmBorrowLoc x; StLoc r
        MoveLoc a; MutBorrowGlobal Coin; MutBorrowField Coin.value; StLoc mr
        MoveLoc b; BrTrue done
    done:
        Ret
    }
}
"""
# A block that isn't reached, and one of a parameter that is taken along one of two paths.
BRANCHES = """module 0x1::M {
    f(b: bool, c: u64) { CopyLoc b; BrTrue on; MoveLoc c; Pop; Branch on; Nop; Branch on; on: Ret }
}
"""
BEGINNING = BlockState([AVAILABLE, AVAILABLE, AVAILABLE, UNAVAILABLE, UNAVAILABLE])
AT_DONE = BlockState([AVAILABLE, UNAVAILABLE, UNAVAILABLE, AVAILABLE, AVAILABLE],
                     [Edge(Node(OWN, 0), Node(SLOT, 3)), Edge(Node(GLOB, 0), Node(SLOT, 4), (0,))])
# Edges into TEXT's second block as bytes, and the faults that they are, from the edge's first byte.
EDGES: List[Tuple[str, List[Tuple[int, str]]]] = [
    ("0100000300 00", []),
    ("0303000300 00", [(0, "a node of the kind 03; it is 00 Slot, 01 Own or 02 Glob")]),
    ("0107000300 00", [(0, "Own 7: the function has 5 locals")]),
    ("0103000300 00", [(0, "Own 3: the local's node is Slot")]),
    ("0000000300 00", [(0, "Slot 0: the local's node is Own")]),
    ("0105000300 00", [(0, "Own 5: the function has 5 locals")]),
    ("0202000300 00", [(0, "Glob 2: the module has 1 struct definitions")]),
    ("0201000300 00", [(0, "Glob 1: the module has 1 struct definitions")]),
    ("0100010100 00", [(0, "an edge leads to Own 1; an edge leads to a Slot")]),
    ("0004000400 00", [(0, "an edge leads from a node to itself; it leads to another one")]),
    ("0003000400 00", [(0, "an edge leads from Slot 3, an immutable reference; it leads from a mutable one, an Own or a Glob")]),
    ("0100000309", [(4, "the number of an edge's positions: 9; it is at most 8"),
                    (5, "an edge's position: the bytes end before a number")]),
    ("0100000301 20 00", [(5, "an edge's position: 32; it is at most 31")]),
    ("0100000300 02", [(5, "an edge has the mark 02; it is 00 exact or 01 open")]),
]


def module_of(text: str) -> Tuple[bytes, Module]:
    """A text's module, as bytes and as it is read."""
    data = assemble(text)
    return data, read_module(data).module


class Certificates(unittest.TestCase):
    def setUp(self) -> None:
        self.data, self.module = module_of(TEXT)

    def test_the_least_states_are_stated(self) -> None:
        made = Prover().certificate(self.data)
        reading = read_certificate(made, self.module)
        self.assertEqual((reading.faults, reading.certificate), ([], Certificate([[BEGINNING, AT_DONE]])))
        self.assertEqual(write_certificate(reading.certificate), made)

    def test_a_block_that_is_not_reached_states_nothing(self) -> None:
        data, module = module_of(BRANCHES)
        made = Prover().certificate(data)
        reading = read_certificate(made, module)
        states = reading.certificate.functions[0]
        self.assertEqual([state and state.availabilities for state in states], [[1, 1], [1, 1], None, [AVAILABLE, MAYBE]])
        self.assertEqual(reading.offsets[0], [0, 4, 8, 9])
        self.assertEqual(write_certificate(reading.certificate), made)

    def test_each_fault_of_an_edge_is_told_at_its_place(self) -> None:
        before = write_certificate(Certificate([[BEGINNING]])) + b"\1" + bytes(AT_DONE.availabilities) + b"\1"
        for digits, faults in EDGES:
            data = before + bytes.fromhex(digits)
            with self.subTest(digits):
                found = read_certificate(data, self.module).faults
                self.assertEqual(found[:len(faults)], [Fault(len(before) + at, reason) for at, reason in faults])
                self.assertEqual(bool(found), bool(faults))

    def test_marks_order_and_the_end_are_looked_at(self) -> None:
        first = write_certificate(Certificate([[BEGINNING]]))
        turned = BlockState(AT_DONE.availabilities, AT_DONE.edges[::-1])
        rows = [
            (b"", Fault(0, "the mark of a block: the bytes end before it")),
            (b"\2", Fault(0, "the mark of a block is 02; it is 00 or 01")),
            (b"\1\3", Fault(1, "the availability 03; it is 00 Unavailable, 01 Available or 02 Maybe")),
            (first + b"\0\7", Fault(len(first) + 1, "a byte after the last block's state, where nothing follows")),
            (first + write_certificate(Certificate([[turned]])),
             Fault(len(first) + 14, "an edge isn't above the one before it; edges ascend strictly")),
        ]
        for data, fault in rows:
            with self.subTest(fault.reason):
                self.assertEqual(read_certificate(data, self.module).faults, [fault])

    def test_a_module_without_least_states_has_none(self) -> None:
        data, _ = module_of("module 0x1::M { f(x: u64) { MoveLoc x; Pop; MoveLoc x; Pop; Ret } }")
        with self.assertRaises(NotProved) as caught:
            Prover().certificate(data)
        assert caught.exception.failure is not None
        self.assertEqual(caught.exception.failure.phase, 10)


class Printing(unittest.TestCase):
    def test_the_text_that_is_printed_makes_the_very_bytes(self) -> None:
        for text in (TEXT, BRANCHES):
            data = assemble(text)
            printed = disassemble(data).text
            self.assertEqual(assemble(printed), data)
            self.assertEqual(disassemble(assemble(printed)).text, printed)

    def test_a_certificate_is_printed_as_comments(self) -> None:
        data = assemble(TEXT)
        found = disassemble_module(data, Prover().certificate(data))
        self.assertEqual((found.faults, assemble(found.text)), ([], data))
        self.assertIn("Own p0 -> Slot l3", found.text)
        self.assertIn("Glob Coin.value -> Slot l4", found.text)

    def test_bytes_that_are_no_certificate_are_told_behind_the_module(self) -> None:
        data = assemble(TEXT)
        found = disassemble_module(data, b"\2")
        self.assertIn("// No certificate of this module:\n// offset 0", found.text)
        self.assertEqual(assemble(found.text), data)
