"""Bytes to try tools and the program on: those that stand in files, and altered ones."""

import re
from pathlib import Path
from random import Random
from typing import Iterable, Iterator, List, Tuple

from . import model
from .records import read_stream

# Bytes in hexadecimal: digits in quotes with commas between, or on indented lines, or a whole line with blanks between.
HEX = "(?:[0-9a-fA-F]{2})+"
HEX_TEXT = re.compile(rf'"{HEX}"(?:\s*,\s*"{HEX}")*|(?m:^ {{4,}}{HEX}$\n?)+|(?m:^{HEX}(?: {HEX})*$)')


def given_bytes(paths: Iterable[Path]) -> Iterator[Tuple[str, bytes]]:
    """The bytes that stand in files: a file's own where it is no text, otherwise those in hexadecimal."""
    for path in paths:
        data = path.read_bytes()
        if path.suffix in (".stream", ".module", ".ledger"):
            yield path.name, data
            continue
        for found in HEX_TEXT.finditer(data.decode("utf-8", "replace")):
            yield f"{path.name}, at {found.start()}", bytes.fromhex(re.sub(r'["\s,]', "", found.group()))


def modules_in(data: bytes) -> List[Tuple[bytes, bytes]]:
    """The modules of a stream, with their certificates."""
    if data[:4] == model.MAGIC:
        return [(data, b"")]
    records = read_stream(data).stream.records
    return [(offer.module, offer.certificate) for record in records if isinstance(record, model.Publish)
            for offer in record.offers]


def altered(draw: Random, data: bytes) -> bytes:
    """Bytes in which one is another, or some are cut off, left out, doubled, or put in."""
    if not data:
        return bytes([draw.randrange(256)])
    at, size = draw.randrange(len(data)), draw.choice((1, 1, 2, 5, 16))
    way = draw.randrange(5)
    if way == 0:
        return data[:at]
    if way == 1:
        return data[:at] + data[at + size:]
    if way == 2:
        return data[:at + size] + data[at:]
    middle = bytes([draw.choice((0, 1, 127, 128, 255, draw.randrange(256)))])
    return data[:at] + middle + data[at + (way == 3):]
