"""The cursor: what it reads, where it notes a fault and goes on, and where it stops."""

import unittest
from typing import Callable, List, Tuple

from movetext import model
from movetext.cursor import Cursor, Fault, Stop, loose_number

# What is read of bytes, what comes of it, where the cursor then stands, and the faults that it notes and goes on after.
Row = Tuple[str, Callable[[Cursor], object], object, int, List[Fault]]
COIN = model.Token(model.STRUCT, struct=3)
ROWS: List[Row] = [
    ("ac02", lambda it: it.number(300, "it"), 300, 2, []),
    ("ad02", lambda it: it.number(300, "it"), 301, 2, [Fault(0, "it: 301; it is at most 300")]),
    ("8100", lambda it: it.number(300, "it"), 1, 2,
     [Fault(0, "it: the number 1 is written in 2 bytes, longer than its shortest form")]),
    ("0700", lambda it: it.byte("it"), 7, 1, []),
    ("010203", lambda it: it.bytes(2, "it"), b"\1\2", 2, []),
    ("00" * 17, lambda it: it.address("it"), bytes(16), 16, []),
    ("03615f31", lambda it: it.identifier("it"), "a_1", 4, []),
    ("0131", lambda it: it.identifier("it"), "1", 2,
     [Fault(0, "it: '1'; an identifier is a letter and letters, digits or `_`, or `_` and at least one of these")]),
    ("04", lambda it: it.token(5, "it"), model.Token(model.U128), 1, []),
    ("070803", lambda it: it.token(5, "it"), model.Token(model.MUTABLE, COIN), 3, []),
    ("0d", lambda it: it.token(6, "it"), model.Token(model.U16), 1, []),
    ("0d", lambda it: it.token(5, "it"), model.Token(model.U16), 1, [Fault(0, "it: u16 in version 5; only version 6 has it")]),
    ("01", lambda it: it.value(model.BOOL, "it"), model.Value(model.BOOL, True), 1, []),
    ("0201", lambda it: it.value(model.U16, "it"), model.Value(model.U16, 258), 2, []),
]
# What is read of bytes where reading can't go on, and the fault.
STOPS: List[Tuple[str, Callable[[Cursor], object], Fault]] = [
    ("", lambda it: it.number(300, "it"), Fault(0, "it: the bytes end before a number")),
    ("ff", lambda it: it.number(300, "it"), Fault(0, "it: the bytes end within a number")),
    ("ff" * 11, lambda it: it.number(300, "it"), Fault(0, "it: a number has more than ten bytes")),
    ("", lambda it: it.byte("it"), Fault(0, "it: the bytes end before it")),
    ("0102", lambda it: it.bytes(3, "it"), Fault(0, "it: only 2 of 3 bytes are left")),
    ("0361", lambda it: it.identifier("it"), Fault(1, "it: only 1 of 3 bytes are left")),
    ("0706", lambda it: it.token(5, "it"), Fault(0, "it: a reference to a reference; it refers to what is none")),
    ("09", lambda it: it.token(5, "it"), Fault(0, "it: the byte 09; a type begins with 01 to 08, 0C, 0D or 0E")),
    ("02", lambda it: it.value(model.BOOL, "it"), Fault(0, "it: the byte 02; a bool is 00 or 01")),
    ("01", lambda it: it.value(model.U16, "it"), Fault(0, "it: only 1 of 2 bytes are left")),
]


class Reading(unittest.TestCase):
    def test_what_is_read_and_what_is_noted(self) -> None:
        for digits, read, wanted, at, faults in ROWS:
            cursor = Cursor(bytes.fromhex(digits))
            with self.subTest(digits):
                self.assertEqual((read(cursor), cursor.at, cursor.faults), (wanted, at, faults))

    def test_where_reading_stops(self) -> None:
        for digits, read, fault in STOPS:
            cursor = Cursor(bytes.fromhex(digits))
            with self.subTest(digits), self.assertRaises(Stop):
                read(cursor)
            self.assertEqual(cursor.faults, [fault])

    def test_an_end_is_not_read_across(self) -> None:
        cursor = Cursor(b"\1\2\3\4", 1, 3)
        self.assertEqual((cursor.left(), cursor.bytes(2, "it"), cursor.is_at_end), ("2 bytes", b"\2\3", True))
        with self.assertRaises(Stop):
            cursor.byte("it")

    def test_cursors_may_share_their_faults(self) -> None:
        faults: List[Fault] = []
        for at in (0, 1):
            Cursor(b"\1\2", at, faults=faults).fault(at, "no")
        self.assertEqual(faults, [Fault(0, "no"), Fault(1, "no")])

    def test_a_number_in_any_spelling(self) -> None:
        rows = [("07", 7, 1), ("7f", 127, 1), ("8001", 128, 2), ("ff7f", 16_383, 2), ("8100", 1, 2), ("80" * 9 + "00", 0, 10),
                ("80" * 9 + "01", 1 << 63, 10), ("80" * 10, None, 10), ("80" * 11, None, 10), ("80", None, 1), ("", None, 0)]
        for digits, value, at in rows:
            with self.subTest(digits):
                data = bytes.fromhex(digits)
                self.assertEqual(loose_number(data, 0, len(data)), (value, at))
                self.assertEqual(loose_number(b"\1\2" + data + b"\5", 2, 2 + len(data)), (value, at + 2))
