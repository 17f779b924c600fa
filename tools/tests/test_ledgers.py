"""Saved ledgers of both forms: what is read of them, why one isn't loaded, and each fault at its place."""

import unittest
from typing import List, Tuple

from movetext.disassembler import disassemble
from movetext.ledgers import LedgerReading, Structs, read_ledger
from movetext.model import Stored, Tally
from movetext.reader import read_module
from movetext.streaming import assemble

ONE, TWO = bytes(15) + b"\1", bytes(15) + b"\2"
# Coins are scarce and stored, marks are stored, tokens are scarce, and ids are neither.
MODULE = assemble("""module 0x1::M {
    struct Id has copy, drop, store { n: u8 }
    struct Mark has drop, key { id: Id, on: bool }
    struct Coin has key { v: u8 }
    struct Token has store { v: u8 }
}
""")
OFFER = bytes([len(MODULE)]) + MODULE + b"\0"
SECOND, FIRST = b"MVL2\5\1" + OFFER, b"MVL1\5\1" + OFFER
TALLIES = b"\3\1\2\0"
OLD_TALLIES = b"".join(number.to_bytes(16, "little") for number in (3, 1, 2, 0))
MARK, COIN = b"\0\0\1\0", b"\0\0\2\0"


def read(data: bytes) -> LedgerReading:
    reading = read_ledger(data)
    assert reading is not None
    return reading


def index(place: int) -> bytes:
    return bytes([place])


class Ledgers(unittest.TestCase):
    def test_the_form_of_today(self) -> None:
        reading = read(SECOND + TALLIES + b"\1" + ONE + b"\7\1" + b"\2" + ONE + b"\x08" + TWO + b"\x09")
        ledger = reading.ledger
        self.assertEqual((reading.faults, reading.reason, reading.is_listed), ([], 0, True))
        self.assertEqual((ledger.form, ledger.runs, [one.module for one in ledger.offers]), (2, 5, [MODULE]))
        self.assertEqual((ledger.scarce, ledger.keys), ([(0, 2), (0, 3)], [(0, 1), (0, 2)]))
        self.assertEqual(ledger.tallies, [Tally(3, 1), Tally(2, 0)])
        self.assertEqual([(one.address, one.struct, [leaf.value for leaf in one.leaves]) for one in ledger.stored],
                         [(ONE, 1, [7, True]), (ONE, 2, [8]), (TWO, 2, [9])])
        self.assertEqual((reading.module_offsets, reading.certificate_offsets), ([7], [8 + len(MODULE)]))

    def test_the_old_form(self) -> None:
        stored = ONE + index(0) + index(1) + b"\7\1" + ONE + index(0) + index(2) + b"\x08" + TWO + index(0) + index(1) + b"\7\0"
        reading = read(FIRST + OLD_TALLIES + b"\3" + stored)
        self.assertEqual((reading.faults, reading.ledger.tallies), ([], [Tally(3, 1), Tally(2, 0)]))
        found: List[Stored] = reading.ledger.stored
        self.assertEqual([(one.address, one.struct) for one in found], [(ONE, 1), (ONE, 2), (TWO, 1)])

    def test_why_one_is_not_loaded(self) -> None:
        whole = SECOND + TALLIES + b"\0\0"
        rows: List[Tuple[bytes, int, int, str]] = [
            (b"MVL2", 1, 4, "the number of runs: the bytes end before a number"),
            (b"MVL2\0\1", 1, 6, "a module's length: the bytes end before a number"),
            (b"MVL2\0\1\5abcd", 1, 7, "a module: only 4 of 5 bytes are left"),
            (b"MVL2\0\1\4abcd\1", 1, 12, "a certificate: only 0 of 1 bytes are left"),
            (b"MVL2\0\1\4abcd\0", 2, 7, "module 0: "),
            (b"MVL2\0\2" + OFFER + b"\4abcd\0", 2, 9 + len(MODULE), "module 1: "),
            (SECOND, 4, len(SECOND), "how many values were packed: the bytes end before a number"),
            (SECOND + b"\1", 4, len(SECOND) + 1, "how many values were unpacked: the bytes end before a number"),
            (SECOND + TALLIES, 4, len(SECOND) + 4, "the number of a struct's stored values: the bytes end before a number"),
            (SECOND + TALLIES + b"\1", 4, len(SECOND) + 5, "a stored value's address: only 0 of 16 bytes are left"),
            (SECOND + TALLIES + b"\1" + ONE + b"\7\2", 4, len(SECOND) + 22, "a stored value's leaf: the byte 02; a bool is 00 or 01"),
            (SECOND + TALLIES + b"\0\2" + TWO + b"\7" + ONE + b"\7", 4, len(SECOND) + 23, "a stored value isn't above the one before it"),
            (SECOND + TALLIES + b"\0\2" + TWO + b"\7" + TWO + b"\7", 4, len(SECOND) + 23, "a stored value isn't above the one before it"),
            (whole + b"\0\0", 4, len(whole), "2 bytes after the last stored value"),
            (FIRST + OLD_TALLIES + b"\1" + ONE + index(0) + index(0), 4, len(FIRST) + 65,
             "no struct with key has the place 0 and the definition 0"),
            (FIRST + OLD_TALLIES + b"\1" + ONE + index(1) + index(1), 4, len(FIRST) + 65,
             "no struct with key has the place 1 and the definition 1"),
            (FIRST + OLD_TALLIES + b"\2" + 2 * (ONE + index(0) + index(2) + b"\7"), 4, len(FIRST) + 84,
             "a stored value isn't above the one before it"),
            (FIRST + OLD_TALLIES[:40], 4, len(FIRST) + 32, "how many values were packed: only 8 of 16 bytes are left"),
        ]
        for data, reason, at, fault in rows:
            with self.subTest(fault):
                reading = read(data)
                self.assertEqual((reading.reason, reading.faults[0].offset), (reason, at))
                self.assertTrue(reading.faults[0].reason.startswith(fault), reading.faults[0].reason)
        self.assertEqual((read(whole).faults, read(whole).reason), ([], 0))

    def test_what_is_printed(self) -> None:
        whole = SECOND + TALLIES + b"\1" + ONE + b"\7\1" + b"\2" + ONE + b"\x08" + TWO + b"\x09"
        front = ["// A saved ledger; `moveledger apply --save` makes one, and moveasm none.", "ledger 2 {", "    runs 5"]
        printed = disassemble(whole).text.rstrip("\n").split("\n")
        self.assertEqual(printed[:3], front)
        self.assertEqual(printed[-7:], [
            '    certificate x""', "    tally 0x1::M::Coin packed 3 unpacked 1", "    tally 0x1::M::Token packed 2 unpacked 0",
            "    stored 0x1 0x1::M::Mark { id: { n: 7u8 }, on: true }", "    stored 0x1 0x1::M::Coin { v: 8u8 }",
            "    stored 0x2 0x1::M::Coin { v: 9u8 }", "}"])
        cut = disassemble(SECOND + TALLIES + b"\1" + ONE + b"\7\2").text.rstrip("\n").split("\n")
        self.assertEqual(cut[-4:], [
            "    stored 0x1 0x1::M::Mark { id: { n: 7u8 }, .. }", "}", "// It stops here:",
            f"// offset {len(SECOND) + 22}: a stored value's leaf: the byte 02; a bool is 00 or 01"])
        self.assertEqual(disassemble(b"MVL1\0\1\4abcd\0").text.split("\n")[1:6], [
            "ledger 1 {", "    runs 0", "    // No module:",
            "    // offset 7: byte 0 is 61, not A1; a module begins with the bytes A1 1C EB 0B", '    module x"61626364"'])

    def test_leaves_of_structs_that_are_in_others(self) -> None:
        module = read_module(MODULE).module
        structs = Structs([module])
        self.assertEqual([structs.leaves(0, struct) for struct in range(4)], [[2], [2, 1], [2], [2]])
        self.assertEqual(structs.parts(0, 1, 0), ([2, 1], 4))
        self.assertEqual(structs.definition(module, module.structs[2].handle), (0, 2))
        other = read_module(assemble(
            "module 0x2::N {\nimport 0x1::M { struct Id has copy, drop, store }\nstruct A has drop { a: M::Id, b: u64 }\n}")).module
        self.assertEqual([Structs(every).leaves(len(every) - 1, 0) for every in ([other], [module, other])], [None, [2, 3]])

    def test_structs_without_end_have_no_leaves(self) -> None:
        wide = "".join(f"struct S{at} has drop {{ a: S{at + 1}, b: S{at + 1} }}\n" for at in range(14)) + "struct S14 has drop { v: u8 }"
        for text in "struct A has drop { a: A }", "struct B has drop { a: A }\nstruct A has drop { b: B }", wide:
            module = read_module(assemble(f"module 0x1::M {{ {text} }}")).module
            self.assertIsNone(Structs([module]).leaves(0, 0), text)
        deep = "\n".join(f"struct S{at} has drop {{ a: S{at + 1} }}" for at in range(9)) + "\nstruct S9 has drop { v: u8 }"
        self.assertEqual(Structs([read_module(assemble(f"module 0x1::M {{ {deep} }}")).module]).leaves(0, 0), [2])
