"""The keys of one ledger in the store, as docs/FORMATS.md lists them."""

import re
from typing import Optional

NUMBER = re.compile(rb"[0-9a-f]{16}")
# Names of submitters and ids, as they stand before a record.
NAME_TEXT = re.compile(r"[A-Za-z0-9-]{1,64}")
# What replicas put under their own names for a number: lines of one record each, saves, programs, and lines of many records behind each other.
LINES, SAVED, PROGRAM, TOLD = "lines", "saved", "program", "told"
# And once each: up to where it has answered, where it gives its saves, and the newest protocol that it knows.
VOTE, AT, PROTOCOL = "vote", "at", "protocol"


class Keys:
    """The keys that begin with a ledger's name."""

    def __init__(self, ledger: str) -> None:
        self.ledger = ledger
        self.all = f"{ledger}/".encode()
        self.log = self.all + b"log"
        self.cleared = self.all + b"cleared"
        self.times = self.all + b"times"
        self.last = self.all + b"last"
        self.records = self.all + b"record/"
        self.ids = self.all + b"id/"
        self.all_pieces = self.all + b"piece/"
        self.by_replicas = self.all + b"by/"

    def record(self, number: int) -> bytes:
        return self.records + numbered(number)

    def id(self, name: str) -> bytes:
        return self.ids + name.encode()

    def pieces(self, name: str) -> bytes:
        """What the keys of the pieces of the record with this id begin with."""
        return self.all_pieces + f"{name}/".encode()

    def piece(self, name: str, place: int) -> bytes:
        return self.pieces(name) + f"{place:04x}".encode()

    def used(self, submitter: str) -> bytes:
        return self.all + f"used/{submitter}".encode()

    def gone(self, submitter: str) -> bytes:
        return self.all + f"gone/{submitter}".encode()

    def own(self, replica: str, what: str) -> bytes:
        """What a replica puts once."""
        return self.by_replicas + f"{replica}/{what}".encode()

    def by(self, replica: str, kind: str) -> bytes:
        """What the keys of a kind begin with that a replica puts."""
        return self.by_replicas + f"{replica}/{kind}/".encode()

    def vote(self, replica: str, kind: str, number: int) -> bytes:
        return self.by(replica, kind) + numbered(number)


def size_in(text: Optional[bytes]) -> int:
    """The number of bytes that a submitter has in the log, by what stands there; 0 where that is no number."""
    return int(text) if text and text.isdigit() else 0


def numbered(number: int) -> bytes:
    return f"{number:016x}".encode()


def number_in(key: bytes) -> Optional[int]:
    """The number that a key or a value ends in, behind a `/` or at its beginning; None where there is none."""
    found = NUMBER.fullmatch(key.rpartition(b"/")[2])
    return int(found.group(0), 16) if found else None
