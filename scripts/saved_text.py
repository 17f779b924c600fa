"""Saved ledgers as text, in the rows of tests/rows. The language of docs/TEXT.md has none, for only the program makes a ledger; a row
also has those that no program makes."""

import re
from typing import List, Tuple

from common import use_tools

use_tools()

from movetext.ledgers import Structs  # noqa: E402
from movetext.model import Offer  # noqa: E402
from movetext.reader import read_module  # noqa: E402
from movetext.writer import write_numbers, write_offer  # noqa: E402

# A ledger: its form, its runs, and between braces its modules and then lines of what it states besides.
LEDGER_TEXT = re.compile(r"^ledger (?P<form>\d) runs (?P<runs>[\d_]+) \{(?P<parts>\}$|.*?^\})", re.M | re.S)
# Such a line.
STATED = re.compile(r"^ +(?:tally|stored) .*$", re.M)
TALLY = re.compile(r"^ +tally (\S+) packed ([\d_]+) unpacked ([\d_]+)$", re.M)
STORED = re.compile(r"^ +stored 0x([0-9a-f]+) (\S+) \{(.*)\}$", re.M)
# A leaf of a stored value. Bytes may stand for one.
LEAF = re.compile(r'\b(?:(?P<bool>true|false)|(?P<number>\d+)u(?P<bits>\d+))\b|@0x(?P<address>[0-9a-f]+)|x"(?P<bytes>[0-9a-f]*)"')


def address_of(digits: str) -> bytes:
    return bytes.fromhex(digits.zfill(32))


def leaf_of(found: "re.Match[str]") -> bytes:
    """A leaf's bytes."""
    if found["bool"]:
        return bytes([found["bool"] == "true"])
    if found["number"]:
        return int(found["number"]).to_bytes(int(found["bits"]) // 8, "little")
    return address_of(found["address"]) if found["address"] else bytes.fromhex(found["bytes"])


class SavedText:
    """A ledger as its text states it, whether or not there can be such a one. ValueError where the text names no struct of it."""

    def __init__(self, found: "re.Match[str]", offers: List[Offer]):
        self.form, self.runs, self.offers = int(found["form"]), int(found["runs"]), offers
        self.structs = Structs([read_module(offer.module).module for offer in offers])
        self.tallies = [(self.key(name), int(packed), int(unpacked)) for name, packed, unpacked in TALLY.findall(found["parts"])]
        self.stored = [(address_of(address), self.key(name), b"".join(map(leaf_of, LEAF.finditer(leaves))))
                       for address, name, leaves in STORED.findall(found["parts"])]
        if [key for key, *_ in self.tallies] not in ([], self.structs.scarce()):
            raise ValueError("it needs a tally of each struct with neither copy nor drop, in order, or none")
        if len(STATED.findall(found["parts"])) != len(self.tallies) + len(self.stored):
            raise ValueError("a line of a tally or of a stored value isn't understood")

    def key(self, name: str) -> Tuple[int, int]:
        """The place of a struct's module and the index of its definition, by its name or by themselves, as `#0.1`."""
        if re.fullmatch(r"#\d+\.\d+", name):
            place, index = name[1:].split(".")
            return int(place), int(index)
        parts = re.fullmatch(r"0x([0-9a-f]+)::(\w+)::(\w+)", name)
        key = self.structs.by_name.get((address_of(parts[1]), parts[2], parts[3])) if parts else None
        if key is None:
            raise ValueError(f"no struct {name}")
        return key

    def written(self, form: int) -> bytes:
        """Its bytes, in a form. Where it has no tallies and should have some, nothing follows the modules."""
        written = b"MVL%d" % form + write_numbers(self.runs, len(self.offers)) + b"".join(map(write_offer, self.offers))
        if len(self.tallies) < len(self.structs.scarce()):
            return written
        for _, *counts in self.tallies:
            written += b"".join(n.to_bytes(16, "little") for n in counts) if form == 1 else write_numbers(*counts)
        if form == 1:
            written += write_numbers(len(self.stored))
            return written + b"".join(address + write_numbers(*key) + leaves for address, key, leaves in self.stored)
        for key in self.structs.keys():
            values = [address + leaves for address, its, leaves in self.stored if its == key]
            written += write_numbers(len(values)) + b"".join(values)
        return written
