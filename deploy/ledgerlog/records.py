"""What one whole record is, by docs/FORMATS.md: a kind, a length in its shortest spelling, and so many bytes."""

from typing import Iterator, Tuple

from .errors import NotWhole

MOST_BYTES = 33_554_432
# So many bits have the bytes that a length may take, seven each.
LENGTH_BITS = 28
RUN, ADDRESS_BYTES, MOST_SHIFT = 2, 16, 63
# The kinds that change nothing: show and audit.
QUESTIONS = (3, 4)
# The records by the words that a replica is asked them by.
ASKED = {"show": b"\3\0", "show json": b"\3\1\1", "audit": b"\4\0", "audit json": b"\4\1\1"}


def end_of_record(data: bytes, at: int) -> int:
    """Where the record that begins there ends. NotWhole where none does."""
    if at >= len(data):
        raise NotWhole("there is no byte")
    length = shift = 0
    place = at + 1
    while True:
        if place >= len(data):
            raise NotWhole("the length is cut")
        byte = data[place]
        length |= (byte & 127) << shift
        place, shift = place + 1, shift + 7
        is_longer_than_needed = byte == 0 and shift > 7
        if length > MOST_BYTES or shift > LENGTH_BITS or is_longer_than_needed:
            raise NotWhole(f"the length is no number of at most {MOST_BYTES} in its shortest spelling")
        if byte < 128:
            break
    if len(data) - place < length:
        raise NotWhole(f"the payload has {len(data) - place} bytes of {length}")
    return place + length


def check_one(data: bytes) -> None:
    """NotWhole where bytes aren't exactly one whole record."""
    end = end_of_record(data, 0)
    if end < len(data):
        raise NotWhole(f"{len(data) - end} bytes follow the record")


def records_of(data: bytes) -> Iterator[bytes]:
    """The records of a stream. NotWhole where the stream has something else behind them."""
    at = 0
    while at < len(data):
        try:
            end = end_of_record(data, at)
        except NotWhole as why:
            raise NotWhole(f"at the byte {at}: {why}") from None
        yield data[at:end]
        at = end


def is_question(record: bytes) -> bool:
    """Whether a whole record is a show or an audit, whose answer nothing after it depends on."""
    return record[0] in QUESTIONS


def number_at(data: bytes, at: int) -> Tuple[int, int]:
    """A number, seven bits in a byte, and where it ends. IndexError where it's cut, or longer than any that a record has."""
    value = shift = 0
    while True:
        if shift > MOST_SHIFT:
            raise IndexError
        byte = data[at]
        value |= (byte & 127) << shift
        at, shift = at + 1, shift + 7
        if byte < 128:
            return value, at


def budget_of(record: bytes) -> int:
    """The steps that a whole record may take, by its budget; 0 where it is no run, or none of the right shape, which is rejected."""
    if record[0] != RUN:
        return 0
    try:
        _, at = number_at(record, 1)
        at += 2 * ADDRESS_BYTES
        for _ in ("the module's name", "the function's name"):
            length, at = number_at(record, at)
            at += length
        return number_at(record, at)[0]
    except IndexError:
        return 0


def check_put(data: bytes) -> None:
    """NotWhole where bytes aren't exactly one whole record that is put into a log."""
    check_one(data)
    if is_question(data):
        raise NotWhole("shows and audits are asked of a replica (deploy/ask) and not put into the log")
