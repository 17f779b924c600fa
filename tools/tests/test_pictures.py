"""Pictures for Graphviz: their fonts, and the nodes of references without edges."""

import re
import unittest
from typing import List

from movetext.explain.pictures import borrow_graph, flow_graph
from movetext.explain.subject import Subject
from movetext.reader import read_module
from movetext.source_names import NameTable
from movetext.streaming import TextAssembler, read_source
from movetext.proving import Prover

TEXT = """\
module 0x1::M {
    f(on: bool, place: &mut u64, other: &u64): u64 {
        let late: &u64
        let pair: u64
        LdU64 1
        StLoc pair
        CopyLoc on
        BrTrue so
        CopyLoc other
        StLoc late
    so:
        MoveLoc place
        ReadRef
        ImmBorrowLoc pair
        ReadRef
        Add
        Ret
    }
}
"""


def subject() -> Subject:
    maker = TextAssembler(read_source("my.text", TEXT.encode()), "", Prover())
    data = maker.bytes()
    names: NameTable = maker.names
    return Subject(read_module(data), 0, names.of(data))


def labels(at: int) -> List[str]:
    return re.findall(r'^    n\d+ \[label="([^"]*)"', "\n".join(borrow_graph(subject(), 0, at)), re.M)


class Pictures(unittest.TestCase):
    def test_references_that_are_there_are_nodes_without_an_edge(self) -> None:
        self.assertEqual(labels(0), ["Slot place: &mut u64", "Slot other: &u64"])
        self.assertEqual(labels(6), ["Slot place: &mut u64", "Slot other: &u64", "Slot late: &u64"])
        self.assertEqual(labels(7), ["Slot other: &u64", "Slot late: &u64", "Temp 0: &mut u64"])
        self.assertEqual(labels(9), ["Slot other: &u64", "Slot late: &u64", "Own pair", "Temp 1: &u64"])

    def test_no_edges_are_told(self) -> None:
        for at, is_told in ((0, True), (7, True), (9, False)):
            self.assertEqual("\\nno edges" in borrow_graph(subject(), 0, at)[1], is_told, at)

    def test_all_text_is_of_one_font(self) -> None:
        drawn = "\n".join(borrow_graph(subject(), 0, 9))
        for words in ('    fontname="monospace"', '    node [fontname="monospace"]', '    edge [fontname="monospace"]'):
            self.assertIn(words, drawn)
        self.assertIn('    edge [fontname="monospace"]', flow_graph(subject(), 0))
