"""Reader and writer over the bytes of the engine's tests and of the examples: what is read of them is written again as it was."""

import unittest
from typing import Dict, List, Tuple

from movetext.certificates import read_certificate
from movetext.disassembler import STREAM, disassemble
from movetext.ledgers import read_ledger
from movetext.model import MAGIC
from movetext.reader import read_module
from movetext.records import read_stream
from movetext.samples import given_bytes, modules_in
from movetext.streaming import assemble
from movetext.writer import write_certificate, write_ledger, write_module, write_stream

from . import TOP

ROWS = TOP / "crates/moveledger_tests/src/tests/rows.rt"
# So many rows, modules and certificates there are at least, so that a new form of the file can't leave the tests without any.
LEAST_ROWS, LEAST_MODULES, LEAST_CERTIFICATES = 100, 120, 100


def rows_in(text: str) -> Dict[str, bytes]:
    """The streams of the rows, by what each shows."""
    found = {}
    for row in text.split('r#"')[1].split("#")[1:]:
        shows, digits = row.split("\n")[:2]
        found[shows.strip()] = bytes.fromhex(digits)
    return found


class Rows(unittest.TestCase):
    streams: List[bytes]
    modules: List[Tuple[bytes, bytes]]

    @classmethod
    def setUpClass(cls) -> None:
        cls.streams = list(rows_in(ROWS.read_text()).values())
        cls.streams += [data for _, data in given_bytes(sorted((TOP / "examples").glob("*.stream")))]
        cls.modules = list({module: stated for stream in cls.streams for module, stated in modules_in(stream)}.items())

    def test_streams_come_back(self) -> None:
        self.assertGreater(len(self.streams), LEAST_ROWS)
        for data in self.streams:
            reading = read_stream(data)
            self.assertEqual(write_stream(reading.stream), data)
            self.assertEqual(len(reading.places), len(reading.stream.records))
            self.assertEqual(reading.rest_at, len(data) - len(reading.stream.rest))

    def test_modules_come_back_where_they_are_in_order(self) -> None:
        readings = [(data, read_module(data)) for data, _ in self.modules]
        whole = [(data, reading) for data, reading in readings if reading.is_module and reading.is_in_order]
        self.assertGreater(len(whole), LEAST_MODULES)
        for data, reading in whole:
            self.assertEqual(write_module(reading.module), data)

    def test_what_is_no_module_has_a_fault_within_its_bytes(self) -> None:
        for data, _ in self.modules:
            reading = read_module(data)
            if not reading.is_module:
                self.assertTrue(all(0 <= fault.offset <= len(data) for fault in reading.faults))

    def test_certificates_come_back(self) -> None:
        count = 0
        for data, stated in self.modules:
            reading = read_module(data)
            found = read_certificate(stated, reading.module) if reading.is_module else None
            if found is not None and not found.faults:
                self.assertEqual(write_certificate(found.certificate), stated)
                count += 1
        self.assertGreater(count, LEAST_CERTIFICATES)

    def test_a_stream_is_printed_and_made_again(self) -> None:
        for data in self.streams[::8]:
            self.assertEqual(assemble(disassemble(data, STREAM).text), data)


class Ledgers(unittest.TestCase):
    def test_saved_ledgers_of_both_forms_come_back(self) -> None:
        forms = set()
        for path in sorted((TOP / "examples").glob("*.ledger")):
            data = path.read_bytes()
            reading = read_ledger(data)
            assert reading is not None
            self.assertEqual((reading.faults, write_ledger(reading.ledger)), ([], data))
            forms.add(reading.ledger.form)
        self.assertEqual(forms, {1, 2})

    def test_other_bytes_are_no_ledger(self) -> None:
        self.assertIsNone(read_ledger(MAGIC))
        reading = read_ledger(b"MVL2\0\0\7")
        assert reading is not None
        self.assertEqual([(fault.offset, fault.reason) for fault in reading.faults], [(6, "a byte after the last stored value")])
