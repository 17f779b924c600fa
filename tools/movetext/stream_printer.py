"""Streams of records and saved ledgers as text."""

from typing import Iterator, List, Optional

from .certificates import read_certificate
from .cursor import Fault
from .ledgers import LedgerReading, Structs
from .model import STRUCT, TABLE_FIELDS, TABLE_NAMES, Audit, Offer, Publish, RawRecord, Record, Run, Value, known
from .naming import address_text, hex_text, quoted, value_text
from .printer import indented, module_lines
from .reader import Header, ModuleReading, read_module
from .records import RecordPlace, StreamReading
from .source_names import NameTable

HEX_BYTES = 48
MOST_FAULTS = 12


def commented(lines: List[str]) -> List[str]:
    return [f"// {line}" if line else "//" for line in lines]


def hex_lines(front: str, data: bytes) -> List[str]:
    """Bytes in hexadecimal behind a word, on several lines where they are many."""
    if len(data) <= HEX_BYTES:
        return [f"{front} {hex_text(data)}"]
    rows = [data[at:at + HEX_BYTES].hex() for at in range(0, len(data), HEX_BYTES)]
    return [f'{front} x"'] + indented(rows) + ['"']


def fault_lines(faults: List[Fault], base: int = 0) -> List[str]:
    """Faults as comments, each with its offset from the first byte of the file."""
    lines = [f"// offset {base + fault.offset}: {fault.reason}" for fault in faults[:MOST_FAULTS]]
    more = len(faults) - MOST_FAULTS
    return lines + ([f"// and {more} more"] if more > 0 else [])


def header_text(header: Header) -> str:
    named = TABLE_NAMES.get(header.kind, "no table")
    return f"// header {header.kind:02X}, {named}: offset {header.offset}, length {header.length}"


def broken_module_lines(reading: ModuleReading, base: int = 0) -> List[str]:
    """What is no module, as comments: where it stops and why, its headers, and what was read of its tables."""
    lines = ["// No module:"] + fault_lines(reading.faults, base) + list(map(header_text, reading.headers))
    if any(map(reading.module.table, TABLE_FIELDS)):
        lines += ["// As far as it goes:"] + commented(module_lines(reading, base=base))
    return lines


def offer_lines(offer: Offer, module_at: int = 0, certificate_at: int = 0, names: Optional[NameTable] = None) -> List[str]:
    """A module and its certificate, with what the certificate states of blocks beside the code."""
    reading = read_module(offer.module)
    if not reading.is_module:
        lines = broken_module_lines(reading, module_at) + hex_lines("module", offer.module)
        return lines + hex_lines("certificate", offer.certificate)
    stated = read_certificate(offer.certificate, reading.module)
    lines = module_lines(reading, stated.certificate, source=names.of(offer.module) if names else None)
    if stated.faults:
        lines += ["// No certificate of this module:"] + fault_lines(stated.faults, certificate_at)
    return lines + hex_lines("certificate", offer.certificate)


def publish_lines(record: Publish, place: RecordPlace, names: Optional[NameTable] = None) -> List[str]:
    lines = [f"publish by {address_text(record.sender)} {{"]
    for offer, module_at, certificate_at in zip(record.offers, place.modules, place.certificates):
        lines += indented(offer_lines(offer, module_at, certificate_at, names))
    return lines + ["}"]


def run_line(record: Run) -> str:
    function = f"{address_text(record.address)}::{quoted(record.module)}::{quoted(record.function)}"
    arguments = ", ".join(value_text(one.kind, one.value) for one in record.arguments)
    return f"run {function}({arguments}) by {address_text(record.sender)} budget {record.budget}"


def record_lines(record: Record, place: RecordPlace, names: Optional[NameTable] = None) -> List[str]:
    """A record."""
    if isinstance(record, Publish):
        return publish_lines(record, place, names)
    if isinstance(record, Run):
        return [run_line(record)]
    if isinstance(record, RawRecord):
        return fault_lines(place.faults) + hex_lines(f"record {record.kind}", record.payload)
    word = "audit" if isinstance(record, Audit) else "show"
    return [word + (" json" if record.is_json else "")]


def stream_lines(reading: StreamReading, names: Optional[NameTable] = None) -> List[str]:
    """A stream that was read. Behind each record's first line stands its number, as in the lines of a report."""
    lines = []
    for number, (record, place) in enumerate(zip(reading.stream.records, reading.places), 1):
        first, *others = record_lines(record, place, names)
        lines += [f"{first}  // {number}"] + others
    if reading.stream.rest:
        lines += ["// No record follows:"] + fault_lines(reading.faults) + hex_lines("bytes", reading.stream.rest)
    return lines


def ledger_lines(reading: LedgerReading, names: Optional[NameTable] = None) -> List[str]:
    """A saved ledger that was read. No text of the language: it's for reading alone."""
    ledger, structs = reading.ledger, Structs(reading.modules)
    body = [f"runs {ledger.runs}"]
    for offer, module_at, certificate_at in zip(ledger.offers, reading.module_offsets, reading.certificate_offsets):
        body += offer_lines(offer, module_at, certificate_at, names)
    for key, tally in zip(ledger.scarce, ledger.tallies):
        body.append(f"tally {struct_text(structs, *key)} packed {tally.packed} unpacked {tally.unpacked}")
    for stored in ledger.stored:
        text = stored_text(structs, stored.place, stored.struct, iter(stored.leaves))
        body.append(f"stored {address_text(stored.address)} {struct_text(structs, stored.place, stored.struct)} {text}")
    front = ["// A saved ledger; `moveledger apply --save` makes one, and moveasm none.", f"ledger {ledger.form} {{"]
    lines = front + indented(body) + ["}"]
    if reading.faults:
        lines += ["// It stops here:"] + fault_lines(reading.faults)
    return lines


def struct_text(structs: Structs, place: int, struct: int) -> str:
    """A struct's module and name."""
    module = structs.modules[place]
    address = module.address_of(module.own)
    return f"{address_text(address) if address else '?'}::{module.module_name(module.own)}::{module.definition_name(struct)}"


def stored_text(structs: Structs, place: int, struct: int, leaves: Iterator[Value]) -> str:
    """A stored value with its fields' names; `..` where its leaves end before it does."""
    module = structs.modules[place]
    parts = []
    for one in module.structs[struct].fields:
        name = module.identifier(one.name)
        if one.type.kind == STRUCT:
            inner = known(structs.definition(module, one.type.struct))
            parts.append(f"{name}: {stored_text(structs, *inner, leaves)}")
            continue
        leaf = next(leaves, None)
        parts.append(f"{name}: {value_text(leaf.kind, leaf.value)}" if leaf else "..")
        if leaf is None:
            break
    return "{ " + ", ".join(parts) + " }" if parts else "{}"
