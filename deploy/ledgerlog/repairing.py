"""Puts pieces of a record again that were lost, or overwritten, after its lines were final: without them no replica can answer it as it was."""

from typing import List

from .errors import LogError
from .final import Final
from .log import Log
from .program import skipped_line
from .requests import Body, Entry, put, unchanged
from .written import PIECES, head_of, put_pieces, taken, written


def repair_record(log: Log, number: int, record: bytes) -> None:
    """Puts a record's pieces again, and then the record as it stands there: pieces count only if they were there before it. LogError where these
    bytes aren't the record's, where none of its pieces is lost, and where no majority has answered it as one that has them."""
    entry = log.etcd.entry(log.keys.record(number)) if number <= log.last() else None
    head = head_of(entry.value) if entry else None
    if entry is None or head is None or not head.is_in_pieces:
        raise LogError(f"the log has no record {number} that lies in pieces")
    if entry.value != written(head.id, head.submitter, record):
        raise LogError(f"these bytes aren't those of record {number}: its SHA-256 is another one")
    check_lost(log, number, entry)
    same = unchanged(entry.key, entry.changed)
    changes = put_pieces(log.etcd, log.keys, head.id, record, same)
    pieces: List[Body] = [unchanged(log.keys.piece(head.id, at), change) for at, change in enumerate(changes or ())]
    if changes is None or not log.etcd.transact([same, *pieces], [put(entry.key, entry.value)], [])[0]:
        raise LogError(f"record {number} or a piece of it was changed meanwhile: try again")


def check_lost(log: Log, number: int, entry: Entry) -> None:
    """LogError unless a record lacks pieces, and was answered when it had them."""
    if taken(log.etcd, log.keys, entry).why != PIECES:
        raise LogError(f"record {number} has all its pieces")
    lines = Final(log.etcd, log.keys, log.settings()).lines(number, 1)
    if not lines:
        raise LogError(f"the lines of record {number} aren't final")
    if lines[0] == skipped_line(number, PIECES):
        raise LogError(f"record {number} is answered as skipped, and what is final doesn't change")
