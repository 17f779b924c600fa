"""Lines that are written one after the other, as they come."""

import os
import sys
from contextlib import contextmanager
from typing import IO, Callable, Iterable, Iterator, Optional

from .outputs import Kind, check_output, new_file

Write = Callable[[str], None]


class Unwritten(Exception):
    """Raised where a line can't be written; has the reason."""

    def __init__(self, why: OSError):
        super().__init__(str(why))
        self.why = why


def printable(text: str) -> str:
    """A line for a terminal: what would move its cursor, or can't be encoded, is escaped."""
    if text.isprintable():
        return text
    return "".join(one if one.isprintable() or one == "\t" else one.encode("unicode_escape").decode("ascii") for one in text)


@contextmanager
def lines_to(name: Optional[str], kind: Kind, inputs: Iterable[str] = ()) -> Iterator[Write]:
    """What writes lines to a file, or to standard output where there is no name or it is `-`. A file is there once it is whole.
    Unwritten where lines can't be written, or would take the place of something else."""
    try:
        if name is None or name == "-":
            if sys.stdout is None:
                raise OSError("standard output is closed")
            with flushed(sys.stdout.buffer) as out:
                yield writer(out)
            return
        check_output(name, kind, inputs)
        place = os.path.realpath(name)
        if os.path.exists(place) and not os.path.isfile(place):
            with open(place, "wb") as out:
                yield writer(out)
            return
        fresh = new_file(os.path.dirname(place))
    except OSError as error:
        raise Unwritten(error) from None
    try:
        with open(fresh, "wb") as out:
            yield writer(out)
        os.replace(fresh, place)
    except BaseException as error:
        os.unlink(fresh)
        if isinstance(error, OSError):
            raise Unwritten(error) from None
        raise


@contextmanager
def flushed(out: IO[bytes]) -> Iterator[IO[bytes]]:
    yield out
    out.flush()


def writer(out: IO[bytes]) -> Write:
    """What writes lines to a file that is open."""
    def write(line: str) -> None:
        try:
            out.write(printable(line).encode() + b"\n")
        except OSError as error:
            raise Unwritten(error) from None
    return write
