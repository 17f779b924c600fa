"""Streams: their records as bytes and back, what isn't whole, and what is told of a payload of no shape."""

import unittest
from typing import List, Tuple
from unittest import mock

from movetext.errors import Source, TextErrors
from movetext.model import ADDRESS, BOOL, U64, U128, Audit, Offer, Publish, RawRecord, Record, Run, Show, Stream, Value
from movetext.proving import Prover
from movetext.records import read_stream
from movetext.streaming import TextAssembler, assemble, read_source
from movetext.writer import write_record, write_stream

ONE, TWO = bytes(15) + b"\1", bytes(15) + b"\2"
RECORDS: List[Record] = [
    Publish(ONE, [Offer(b"module", b"\1"), Offer(b"", b"")]),
    Run(ONE, TWO, "M", "f", 300, [Value(BOOL, True), Value(U64, 7), Value(U128, 1 << 127), Value(ADDRESS, TWO)]),
    Show(), Show(True), Audit(), Audit(True), RawRecord(0x2A, b"any"),
]
# Payloads that aren't of their kind's shape: the kind, the payload, where in the payload the fault is, and the fault.
PAYLOADS: List[Tuple[int, str, int, str]] = [
    (1, "00" * 15, 0, "the sender: only 15 of 16 bytes are left"),
    (1, "00" * 17, 16, "a publish record of no module; it has 1 to 16"),
    (1, "00" * 16 + "11", 16, "the number of modules: 17; it is at most 16"),
    (1, "00" * 16 + "01010080", 19, "a certificate's length: the bytes end within a number"),
    (2, "00" * 32 + "0131", 32,
     "the module's name: '1'; an identifier is a letter and letters, digits or `_`, or `_` and at least one of these"),
    (2, "00" * 32 + "014d0166" + "00" + "11", 37, "the number of arguments: 17; it is at most 16"),
    (2, "00" * 32 + "014d0166" + "00" + "010c", 38, "an argument of the type signer; it is a bool, a number or an address"),
    (2, "00" * 32 + "014d0166" + "00" + "010102", 39, "an argument: the byte 02; a bool is 00 or 01"),
    (3, "02", 0, "the payload of a show or an audit begins with 02; it is nothing, or 01 for JSON"),
    (4, "0100", 1, "a byte after the record's last part"),
]


class Streams(unittest.TestCase):
    def test_records_come_back_one_behind_the_other(self) -> None:
        data = write_stream(Stream(RECORDS))
        reading = read_stream(data)
        self.assertEqual((reading.stream.records, reading.stream.rest, reading.faults), (RECORDS, b"", []))
        self.assertEqual([data[one.at] for one in reading.places], [1, 2, 3, 3, 4, 4, 0x2A])

    def test_what_is_not_whole_is_the_rest(self) -> None:
        whole = write_record(Show(True))
        for data in (b"\1", b"\1\x80", b"\1\5abcd", b"\1\xff\xff\xff\xff\1"):
            reading = read_stream(whole + data)
            self.assertEqual((reading.stream.records, reading.stream.rest, reading.rest_at), ([Show(True)], data, 3))
            self.assertTrue(reading.faults)

    def test_a_payload_of_no_shape_is_a_record_all_the_same(self) -> None:
        for kind, digits, at, reason in PAYLOADS:
            payload = bytes.fromhex(digits)
            data = write_record(RawRecord(kind, payload)) + write_record(Show())
            with self.subTest(reason):
                reading = read_stream(data)
                place = reading.places[0]
                self.assertEqual([(fault.offset - place.payload_at, fault.reason) for fault in place.faults[:1]], [(at, reason)])
                self.assertEqual(reading.stream.records, [RawRecord(kind, payload), Show()])


class Texts(unittest.TestCase):
    def test_a_text_of_records_is_their_bytes(self) -> None:
        text = 'publish by 0x1 { module x"6d 6f" certificate x"01" }\nrun 0x2::M::f(true) by 0x1 budget 9\nshow json\nbytes x"01"\n'
        wanted = Stream([Publish(ONE, [Offer(b"mo", b"\1")]), Run(ONE, TWO, "M", "f", 9, [Value(BOOL, True)]), Show(True)], b"\1")
        self.assertEqual(assemble(text), write_stream(wanted))

    def test_a_module_in_a_record_is_proved_where_no_certificate_stands(self) -> None:
        text = "publish by 0x1 {\n    module 0x1::M {\n        f(x: u64): u64 { MoveLoc x; Ret }\n    }\n}\n"
        record = read_stream(assemble(text)).stream.records[0]
        assert isinstance(record, Publish)
        self.assertEqual(record.offers[0].certificate, Prover().certificate(record.offers[0].module))

    def test_all_errors_of_a_text_are_told_in_their_order(self) -> None:
        text = "module 0x1::M {\n    f(x: u64): u64 {\n        MoveLoc y\n        Call g\n        Branch on\n    }\n}\n"
        with self.assertRaises(TextErrors) as caught:
            TextAssembler(Source("my.text", text), "", Prover()).bytes()
        self.assertEqual(caught.exception.lines(), [
            "my.text:3:17: error: no local `y`",
            "            MoveLoc y",
            "                    ^",
            "    help: write `let y: TYPE` before the first instruction",
            "my.text:4:14: error: no function `g`",
            "            Call g",
            "                 ^",
            "    help: the module's functions are `f`",
            "my.text:5:16: error: no label `on`",
            "            Branch on",
            "                   ^^",
            "    help: write `on:` before the instruction to go on with"])

    def test_a_module_of_as_many_bytes_as_there_may_be(self) -> None:
        text = "module 0x1::M { f() { Ret } }"
        size = len(assemble(text))
        for most, is_told in (size, False), (size - 1, True):
            with mock.patch("movetext.assembler.TABLE_BYTES", most):
                if is_told:
                    with self.assertRaisesRegex(TextErrors, f"the module has {size} bytes, more than {most}"):
                        assemble(text)
                else:
                    self.assertEqual(len(assemble(text)), size)

    def test_a_text_is_of_utf_8(self) -> None:
        with self.assertRaisesRegex(TextErrors, "my.text:2:2: error: the byte FF isn't UTF-8"):
            read_source("my.text", b"// \xc3\xa9\n \xff")
