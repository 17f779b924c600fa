"""Reading bytes from the front, with a note of each place where they aren't as docs/FORMATS.md has them."""

import builtins
from typing import List, NamedTuple, NoReturn, Optional, Tuple

from .model import (ADDRESS_BYTES, LATE_KINDS, LEAF_NAMES, LEAF_WIDTHS, MUTABLE, REFERENCE, STRUCT, Token, Value,
                    read_leaf)
from .limits import IDENTIFIER_BYTES, INDEX
from .numbers import NumberError, read_number
from .scanner import is_identifier


class Fault(NamedTuple):
    """A place where bytes aren't as they have to be, and why."""

    offset: int
    reason: str


class Stop(Exception):
    """Raised where reading can't go on; the fault has been noted."""


# The types that need no index are the same value wherever they stand.
LEAF_TOKENS = {kind: Token(kind) for kind in LEAF_NAMES}


class Cursor:
    """A place in bytes, and an end that isn't read across. Its faults are noted in a list that other cursors may share."""

    def __init__(self, data: bytes, at: int = 0, end: Optional[int] = None, faults: Optional[List[Fault]] = None):
        self.data = data
        self.at = at
        self.end = len(data) if end is None else end
        self.faults = [] if faults is None else faults

    @property
    def is_at_end(self) -> bool:
        return self.at >= self.end

    def fault(self, offset: int, reason: str) -> None:
        """Notes a fault, after which reading goes on."""
        self.faults.append(Fault(offset, reason))

    def stop(self, offset: int, reason: str) -> NoReturn:
        """Notes a fault after which reading can't go on."""
        self.fault(offset, reason)
        raise Stop

    def left(self) -> str:
        """How many bytes are left, in words."""
        count = self.end - self.at
        return "a byte" if count == 1 else f"{count} bytes"

    def number(self, greatest: int, what: str) -> int:
        """A number; where it's spelled too long or is too great that is noted, and it's taken as it is."""
        at = self.at
        if at < self.end:
            byte = self.data[at]
            if byte < 128 and byte <= greatest:
                self.at = at + 1
                return byte
        try:
            value, self.at = read_number(self.data, at, self.end, greatest)
            return value
        except NumberError as error:
            return self.wrong_number(error, what)

    def wrong_number(self, error: NumberError, what: str) -> int:
        """The number where the bytes are one but for its spelling or its greatest value."""
        value, self.at = loose_number(self.data, self.at, self.end)
        if value is None:
            self.stop(error.offset, f"{what}: {error.reason}")
        self.fault(error.offset, f"{what}: {error.reason}")
        return value

    def index(self, what: str) -> int:
        return self.number(INDEX, what)

    def byte(self, what: str) -> int:
        if self.at >= self.end:
            self.stop(self.at, f"{what}: the bytes end before it")
        self.at += 1
        return self.data[self.at - 1]

    def bytes(self, count: int, what: str) -> "builtins.bytes":
        if count > self.end - self.at:
            self.stop(self.at, f"{what}: only {self.end - self.at} of {count} bytes are left")
        self.at += count
        return bytes(self.data[self.at - count:self.at])

    def address(self, what: str) -> "builtins.bytes":
        return self.bytes(ADDRESS_BYTES, what)

    def identifier(self, what: str) -> str:
        """A name after its length. Bytes that are no identifier are noted, and taken as they are."""
        start = self.at
        count = self.number(IDENTIFIER_BYTES, f"the length of {what}")
        name = self.bytes(count, what).decode("latin-1")
        if not is_identifier(name):
            self.fault(start, f"{what}: {name!r}; an identifier is a letter and letters, digits or `_`, or `_` and at least "
                              "one of these")
        return name

    def token(self, version: int, what: str) -> Token:
        """A type. One that only version 6 has is noted in version 5, and taken as it is."""
        start = self.at
        kind = self.byte(what)
        if kind in (REFERENCE, MUTABLE):
            if not self.is_at_end and self.data[self.at] in (REFERENCE, MUTABLE):
                self.stop(start, f"{what}: a reference to a reference; it refers to what is none")
            return Token(kind, inner=self.token(version, what))
        if kind == STRUCT:
            return Token(STRUCT, struct=self.index(f"the struct handle of {what}"))
        if kind not in LEAF_TOKENS:
            self.stop(start, f"{what}: the byte {kind:02X}; a type begins with 01 to 08, 0C, 0D or 0E")
        if kind in LATE_KINDS and version < 6:
            self.fault(start, f"{what}: {LEAF_NAMES[kind]} in version {version}; only version 6 has it")
        return LEAF_TOKENS[kind]

    def value(self, kind: int, what: str) -> Value:
        """A value of a leaf type."""
        start = self.at
        data = self.bytes(LEAF_WIDTHS[kind], what)
        value = read_leaf(kind, data)
        if value is None:
            self.stop(start, f"{what}: the byte {data.hex().upper()}; a {LEAF_NAMES[kind]} is 00 or 01")
        return Value(kind, value)


def loose_number(data: bytes, at: int, end: int) -> Tuple[Optional[int], int]:
    """A number of at most ten bytes in any spelling, and the offset after it; None where there is none."""
    value = shift = 0
    while at < end and shift < 70:
        byte = data[at]
        at += 1
        value |= (byte & 127) << shift
        shift += 7
        if byte < 128:
            return value, at
    return None, at
