"""Streams of records from bytes."""

from dataclasses import dataclass, field
from typing import Callable, Dict, List, Optional, Tuple

from . import limits, model
from .cursor import Cursor, Fault, Stop
from .model import LEAF_NAMES, LEAF_WIDTHS, Audit, Offer, Publish, RawRecord, Run, Show, Stream


@dataclass
class RecordPlace:
    """Where a record and its payload begin, and why its payload isn't of its kind's shape, if it isn't. `modules` are where
    the modules of a publish record begin, and `certificates` where their certificates do."""

    at: int
    payload_at: int
    faults: List[Fault] = field(default_factory=list)
    modules: List[int] = field(default_factory=list)
    certificates: List[int] = field(default_factory=list)


@dataclass
class StreamReading:
    """What was read of a stream: its records, where each stands, and why it ends before the bytes do, if it does."""

    stream: Stream
    places: List[RecordPlace] = field(default_factory=list)
    faults: List[Fault] = field(default_factory=list)
    rest_at: int = 0


def read_stream(data: bytes) -> StreamReading:
    """What bytes are as a stream of records: a StreamReading. All bytes are one, but for a rest after the last record."""
    reading = StreamReading(Stream())
    cursor = Cursor(data, faults=reading.faults)
    while not cursor.is_at_end and not reading.faults:
        reading.rest_at = cursor.at
        try:
            record, place = read_record(cursor)
        except Stop:
            break
        if not reading.faults:
            reading.stream.records.append(record)
            reading.places.append(place)
            reading.rest_at = cursor.at
    reading.stream.rest = bytes(data[reading.rest_at:])
    return reading


def read_record(cursor: Cursor) -> Tuple[model.Record, RecordPlace]:
    """A record and its place. A payload that isn't of its kind's shape makes a raw record."""
    at = cursor.at
    kind = cursor.byte("a record's kind")
    size = cursor.number(limits.RECORD_BYTES, "a record's length")
    place = RecordPlace(at, cursor.at)
    cursor.bytes(size, "a record's payload")
    payload = Cursor(cursor.data, place.payload_at, cursor.at, place.faults)
    read_payload = PAYLOADS.get(kind)
    record: Optional[model.Record] = None
    if read_payload is None:
        payload.fault(at, f"a record of the kind {kind:02X}; the kinds are 01 publish, 02 run, 03 show and 04 audit")
    else:
        try:
            record = read_payload(payload, place)
        except Stop:
            pass
        if not place.faults and not payload.is_at_end:
            payload.fault(payload.at, f"{payload.left()} after the record's last part")
    if place.faults:
        record = RawRecord(kind, bytes(cursor.data[place.payload_at:cursor.at]))
    assert record is not None
    return record, place


def read_publish(cursor: Cursor, place: RecordPlace) -> Publish:
    record = Publish(cursor.address("the sender"))
    at = cursor.at
    count = cursor.number(limits.BUNDLE_MODULES, "the number of modules")
    if count == 0:
        cursor.fault(at, "a publish record of no module; it has 1 to 16")
    for _ in range(count):
        size = cursor.number(limits.TABLE_BYTES, "a module's length")
        place.modules.append(cursor.at)
        module = cursor.bytes(size, "a module")
        size = cursor.number(limits.CERTIFICATE_BYTES, "a certificate's length")
        place.certificates.append(cursor.at)
        record.offers.append(Offer(module, cursor.bytes(size, "a certificate")))
    return record


def read_run(cursor: Cursor, _place: RecordPlace) -> Run:
    sender, address = cursor.address("the sender"), cursor.address("the module's address")
    module, function = cursor.identifier("the module's name"), cursor.identifier("the function's name")
    record = Run(sender, address, module, function, cursor.number(limits.BUDGET, "the budget"))
    for _ in range(cursor.number(limits.ARGUMENT_COUNT, "the number of arguments")):
        record.arguments.append(read_argument(cursor))
    return record


def read_argument(cursor: Cursor) -> model.Value:
    at = cursor.at
    kind = cursor.byte("an argument's type")
    if kind not in LEAF_WIDTHS:
        named = f"the type {LEAF_NAMES[kind]}" if kind in LEAF_NAMES else f"a type that is written {kind:02X}"
        cursor.stop(at, f"an argument of {named}; it is a bool, a number or an address")
    return cursor.value(kind, "an argument")


def read_marked(record_type: Callable[[bool], model.Record]) -> Callable[[Cursor, RecordPlace], model.Record]:
    """A reader of a show or an audit record: its payload is nothing, or 01 for JSON."""
    def read(cursor: Cursor, _place: RecordPlace) -> model.Record:
        at = cursor.at
        if cursor.is_at_end:
            return record_type(False)
        if cursor.byte("the payload") != 1:
            cursor.fault(at, f"the payload of a show or an audit begins with {cursor.data[at]:02X}; it is nothing, or 01 for "
                             "JSON")
        return record_type(True)
    return read


PAYLOADS: Dict[int, Callable[[Cursor, RecordPlace], model.Record]] = {
    model.PUBLISH: read_publish, model.RUN: read_run, model.SHOW: read_marked(Show), model.AUDIT: read_marked(Audit)}
