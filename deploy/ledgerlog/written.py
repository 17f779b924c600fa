"""What stands under a record's number: who put it and by which id, and the record itself or the digest of its pieces. And the
rule by which anything else is skipped."""

import hashlib
import re
from typing import List, NamedTuple, Optional, Tuple

from .errors import NotWhole
from .etcd import Etcd
from .keys import Keys
from .records import check_one, is_question
from .requests import Body, Entry, absent, get, put, unchanged

# Records of up to so many bytes stand under their key, and so a hundred of them fit into one answer.
INLINE_BYTES = 16_384
# etcd takes requests of up to 1.5 MiB.
PIECE_BYTES = 1 << 20
INLINE, IN_PIECES = b"\x00", b"\x01"
DIGEST_BYTES = 32
HEAD = re.compile(rb"([\x00\x01])([A-Za-z0-9-]{1,96}) ([A-Za-z0-9-]{1,64})\n")
# Why something is skipped, in the order in which it is asked.
MISSING, FORM, PIECES, RECORD, QUESTION = "missing", "form", "pieces", "record", "question"


class Head(NamedTuple):
    """What stands before a record: whether it lies in pieces, its id, who put it; and what follows."""

    is_in_pieces: bool
    id: str
    submitter: str
    rest: bytes

    def size(self) -> int:
        """How many bytes count for the submitter: those of the record, or of all its pieces."""
        if self.is_in_pieces:
            return int.from_bytes(self.rest[DIGEST_BYTES:], "big") * PIECE_BYTES
        return len(self.rest)


class Taken(NamedTuple):
    """What the log has under a number: a record, or why it is skipped."""

    record: bytes
    why: Optional[str] = None


def count_of_pieces(record: bytes) -> int:
    """How many pieces a record lies in; 0 where it stands under its key."""
    return 0 if len(record) <= INLINE_BYTES else -(-len(record) // PIECE_BYTES)


def counted_size(record: bytes) -> int:
    """How many bytes of a submitter's quota a record takes."""
    return count_of_pieces(record) * PIECE_BYTES or len(record)


def written(name: str, submitter: str, record: bytes) -> bytes:
    """What is to stand under the record's number."""
    head = f"{name} {submitter}\n".encode()
    count = count_of_pieces(record)
    if count == 0:
        return INLINE + head + record
    return IN_PIECES + head + hashlib.sha256(record).digest() + count.to_bytes(2, "big")


def put_piece(etcd: Etcd, key: bytes, piece: bytes, condition: Body) -> Optional[int]:
    """Puts a piece, unless it stands there already: in place of nothing, or of what was read there, so that one that is late puts nothing.
    The change that has put it, which is durable; None where the condition doesn't hold."""
    seen = 0
    while True:
        is_done, found, revision = etcd.transacted([condition, unchanged(key, seen)], [put(key, piece)], [get(key)])
        if is_done:
            return revision
        changed = found[0][0].changed if found[0] else 0
        if found[0] and found[0][0].value == piece:
            return changed
        if changed == seen:
            return None
        seen = changed


def put_pieces(etcd: Etcd, keys: Keys, name: str, record: bytes, condition: Optional[Body] = None) -> Optional[Tuple[int, ...]]:
    """Puts a record's pieces, as long as nothing was put by its id, or as long as another condition holds. The change that has put each;
    None where the condition doesn't hold."""
    changes: List[int] = []
    for place in range(count_of_pieces(record)):
        piece = record[place * PIECE_BYTES:(place + 1) * PIECE_BYTES]
        changed = put_piece(etcd, keys.piece(name, place), piece, condition or absent(keys.id(name)))
        if changed is None:
            return None
        changes.append(changed)
    return tuple(changes)


def head_of(value: bytes) -> Optional[Head]:
    """What is told before the record; None where it isn't told in the form that it has to be."""
    found = HEAD.match(value)
    if not found:
        return None
    kind, name, submitter = found.groups()
    rest = value[found.end():]
    if len(rest) != DIGEST_BYTES + 2 if kind == IN_PIECES else len(rest) > INLINE_BYTES:
        return None
    return Head(kind == IN_PIECES, name.decode(), submitter.decode(), rest)


def joined(etcd: Etcd, keys: Keys, head: Head, changed: int) -> Optional[bytes]:
    """A record out of its pieces; None where they aren't all there, came after the record, or aren't those that were meant."""
    parts: List[bytes] = []
    for place in range(int.from_bytes(head.rest[DIGEST_BYTES:], "big")):
        piece = etcd.entry(keys.piece(head.id, place))
        if piece is None or piece.created > changed:
            return None
        parts.append(piece.value)
    record = b"".join(parts)
    return record if hashlib.sha256(record).digest() == head.rest[:DIGEST_BYTES] else None


def taken(etcd: Etcd, keys: Keys, entry: Optional[Entry]) -> Taken:
    """What the replicas make of what stands under a number: all of them the same."""
    if entry is None:
        return Taken(b"", MISSING)
    head = head_of(entry.value)
    if head is None:
        return Taken(b"", FORM)
    record = joined(etcd, keys, head, entry.changed) if head.is_in_pieces else head.rest
    if record is None:
        return Taken(b"", PIECES)
    try:
        check_one(record)
    except NotWhole:
        return Taken(b"", RECORD)
    return Taken(b"", QUESTION) if is_question(record) else Taken(record)
