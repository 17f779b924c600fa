"""Lines of many records as one chain: the digest at a record is that of the digest before it and of the record's lines. So a vote on all
records up to one is a number and a digest, and lines stand in the log once. docs/REPLICAS.md has the rules."""

import hashlib
import re
from typing import Dict, List, NamedTuple, Optional, Sequence, Tuple

from .keys import number_in
from .requests import Entry

# The digest before the first record that is chained.
START = bytes(32)
# So many records, and so many bytes unless they are those of one record, stand under one key.
MOST_TOLD = 512
MOST_TOLD_BYTES = 256 << 10
# So many of its last lines a replica keeps, to tell them and to compare their digests.
KEPT = 20_000
VOTE_TEXT = re.compile(rb"([0-9a-f]{16}) ([0-9a-f]{64}) ([0-9a-f]{16}) ([0-9a-f]{64}) ([0-9a-f]{16})")
DIGEST_TEXT = re.compile(rb"[0-9a-f]{64}")


def chained(before: bytes, lines: bytes) -> bytes:
    return hashlib.sha256(before + lines).digest()


class Point(NamedTuple):
    """The digest at a record."""

    number: int
    digest: bytes


class ChainVote(NamedTuple):
    """What a replica says of its lines: up to where it has answered; up to where lines are told, by whomever, that it made too; and up to
    where it has told lines itself."""

    made: Point
    told: Point
    own: int

    def text(self) -> bytes:
        made, told = self.made, self.told
        return b"%016x %s %016x %s %016x" % (made.number, made.digest.hex().encode(), told.number, told.digest.hex().encode(), self.own)

    def points(self) -> Tuple[Point, Point]:
        return self.made, self.told


def vote_in(text: Optional[bytes]) -> Optional[ChainVote]:
    """The vote that a text is; None where it is none."""
    found = VOTE_TEXT.fullmatch(text or b"")
    if not found:
        return None
    made, chain, told, told_chain, own = (part.decode() for part in found.groups())
    return ChainVote(Point(int(made, 16), bytes.fromhex(chain)), Point(int(told, 16), bytes.fromhex(told_chain)), int(own, 16))


class Told(NamedTuple):
    """Lines that a replica has told: of the records from one on, and the digest before it."""

    first: int
    before: bytes
    lines: List[bytes]

    def last(self) -> int:
        return self.first + len(self.lines) - 1

    def value(self) -> bytes:
        return self.before.hex().encode() + b"\n" + b"".join(self.lines)


def lines_of(first: int, text: bytes) -> Optional[List[bytes]]:
    """The lines of each record from one on; None where they aren't those of records that follow each other."""
    found: List[bytes] = []
    for line in text.split(b"\n")[:-1]:
        number, is_there, _ = line.partition(b" ")
        if is_there and found and number == b"%d" % (first + len(found) - 1):
            found[-1] += line + b"\n"
        elif is_there and number == b"%d" % (first + len(found)):
            found.append(line + b"\n")
        else:
            return None
    return found if 0 < len(found) <= MOST_TOLD and text.endswith(b"\n") else None


def told_in(entry: Entry) -> Optional[Told]:
    """The lines that stand under a key; None where what stands there is none."""
    first = number_in(entry.key)
    digest, _, text = entry.value.partition(b"\n")
    if not first or not DIGEST_TEXT.fullmatch(digest):
        return None
    lines = lines_of(first, text)
    return None if lines is None else Told(first, bytes.fromhex(digest.decode()), lines)


class OwnChain:
    """What a replica made: the last of its lines, and the digests at them. Up to where the chain begins the digest is START."""

    def __init__(self, begins: int, at: Point) -> None:
        self.begins = begins
        self.end = at
        self.digests: Dict[int, bytes] = {at.number: at.digest}
        self.lines: Dict[int, bytes] = {}

    def add(self, lines: Sequence[bytes]) -> None:
        """Takes the lines of the records that come next."""
        for one in lines:
            number = self.end.number + 1
            self.end = Point(number, START if number <= self.begins else chained(self.end.digest, one))
            self.digests[number], self.lines[number] = self.end.digest, one
        while len(self.lines) > KEPT:
            del self.lines[next(iter(self.lines))]
            del self.digests[next(iter(self.digests))]

    def has(self, point: Point) -> Optional[bool]:
        """Whether a point is on it; None where it isn't known any more, or not yet."""
        digest = self.digests.get(point.number)
        return None if digest is None else digest == point.digest

    def point(self, number: int) -> Optional[Point]:
        digest = self.digests.get(number)
        return None if digest is None else Point(number, digest)

    def parts(self, first: int, last: int) -> List[Told]:
        """The lines from a record on, as they stand under keys: from the oldest one that it still has, where that isn't there."""
        found: List[Told] = []
        number = max(first, next(iter(self.lines), last + 1), self.begins + 1)
        while number <= last:
            lines: List[bytes] = []
            size = 0
            while number + len(lines) <= last and len(lines) < MOST_TOLD:
                size += len(self.lines[number + len(lines)])
                if lines and size > MOST_TOLD_BYTES:
                    break
                lines.append(self.lines[number + len(lines)])
            found.append(Told(number, self.digests[number - 1], lines))
            number += len(lines)
        return found
