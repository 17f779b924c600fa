"""Files that the tools write. What stands there already is left as it is where it was read, or where it is of another kind; it is
replaced by a whole new file or not at all."""

import errno
import os
import re
import stat
import sys
from typing import Callable, Iterable, List, NamedTuple, Optional

from .commandline import input_name
from .model import LEDGER_MAGIC, MAGIC
from .numbers import NumberError, read_number

# So many bytes of a file say what it is.
FRONT = 4_096


class Kind(NamedTuple):
    """What a tool writes: its name, what a file of it looks like by its first bytes and its size, and whether it is text."""

    name: str
    is_of: Callable[[bytes, int], bool]
    is_text: bool = True


def is_made(front: bytes, size: int) -> bool:
    """Whether a file is a module, or a stream: no text begins with a byte of a record's kind."""
    if front[:4] == MAGIC:
        return True
    if front[0] >= 9 or front[:4] in LEDGER_MAGIC.values():
        return False
    try:
        length, at = read_number(front, 1, len(front), size)
    except NumberError:
        return False
    return at + length <= size


def begins(pattern: bytes) -> Callable[[bytes, int], bool]:
    """Whether a file begins like this."""
    found = re.compile(pattern)
    return lambda front, _size: bool(found.match(front))


# The first line of a text that movedis writes into a file. It tells it from the text of an author, which nothing replaces.
PRINTED = "// Printed by movedis."

BYTES = Kind("a module or a stream", is_made, is_text=False)
NAMES = Kind("names as `moveasm -g` keeps them", begins(rb'\{"form":'))
LISTING = Kind("a text that movedis printed", begins(re.escape(PRINTED.encode())))
EXPLAINED = Kind("what `movedis --explain` says", begins(rb"(?:accepted|too complex|too long|loaded|load refused|refused|[0-9]+ [a-z])"))
OBJECTS = Kind("what `movedis --explain --json` says", begins(rb'\{"(?:record|verdict)"'))
PICTURE = Kind("a picture for Graphviz", begins(rb"digraph "))
TRACED = Kind("what `movedis --trace` shows", begins(rb'[0-9]+ [a-z]|\{"record"'))
PAGE = Kind("a page", begins(rb"<!doctype html>"))
# A text in its form: it takes the place of no other file.
FORM = Kind("a text in this form", lambda _front, _size: False)


class Kept(OSError):
    """Raised where a file isn't written, since another one stands there; it is left as it is."""


def write_output(name: Optional[str], data: bytes, kind: Kind, inputs: Iterable[str] = ()) -> None:
    """Writes bytes to a file, or to standard output where there is no name or it is `-`. OSError where they can't be written, or
    aren't, since what stands there is an input or of another kind."""
    if name is None or name == "-":
        write_standard(data, kind)
        return
    check_output(name, kind, inputs, data)
    place = os.path.realpath(name)
    if os.path.exists(place) and not os.path.isfile(place):
        # A device or a pipe has no place that another file could take.
        with open(place, "wb") as file:
            file.write(data)
        return
    replace(place, data)


def write_standard(data: bytes, kind: Kind) -> None:
    """Writes to standard output, and no bytes to a terminal."""
    if sys.stdout is None:
        raise OSError(errno.EBADF, "standard output is closed")
    if not kind.is_text and sys.stdout.isatty():
        raise Kept("bytes aren't written to a terminal: name a file with '-o <OUT>'")
    sys.stdout.buffer.write(data)
    sys.stdout.buffer.flush()


def check_output(name: str, kind: Kind, inputs: Iterable[str] = (), data: Optional[bytes] = None) -> None:
    """Wants that nothing is lost where a file is written: OSError where it is an input, or of another kind than is written there.
    A file that has these very bytes, or none, may be of any kind."""
    try:
        there = os.stat(name)
    except FileNotFoundError:
        return
    for one in inputs:
        if os.path.samestat(there, os.fstat(0) if one == "-" else os.stat(one)):
            raise Kept(f"'{name}' is read here ({input_name(one)}), and left as it is: give another name")
    if not stat.S_ISREG(there.st_mode):
        if not kind.is_text and stat.S_ISCHR(there.st_mode) and is_terminal(name):
            raise Kept("bytes aren't written to a terminal: name a file with '-o <OUT>'")
        return
    with open(name, "rb") as file:
        front = file.read(FRONT)
        if front and not kind.is_of(front, there.st_size) and (data is None or front + file.read(len(data)) != data):
            raise Kept(f"'{name}' is there already and isn't {kind.name}, so it is left as it is: give another name, or remove "
                       "it first")
    if not os.access(name, os.W_OK):
        raise PermissionError(errno.EACCES, os.strerror(errno.EACCES), name)


def is_terminal(name: str) -> bool:
    with open(name, "rb") as file:
        return file.isatty()


def replace(place: str, data: bytes) -> None:
    """Puts a new file into a place, whole or not at all. It keeps the mode of the one that was there."""
    new = ""
    try:
        new = new_file(os.path.dirname(place))
        with open(new, "wb") as file:
            file.write(data)
            file.flush()
            os.fsync(file.fileno())
        if os.path.exists(place):
            os.chmod(new, stat.S_IMODE(os.stat(place).st_mode))
        os.replace(new, place)
    except BaseException as error:
        if new:
            os.unlink(new)
        if isinstance(error, OSError):
            error.filename = place
        raise


def new_file(folder: str) -> str:
    """The name of a new empty file in a folder."""
    number = 0
    while True:
        name = os.path.join(folder, f".movetext-{os.getpid()}-{number}")
        try:
            os.close(os.open(name, os.O_WRONLY | os.O_CREAT | os.O_EXCL, 0o666))
            return name
        except FileExistsError:
            number += 1


def beside(name: str, ending: str) -> str:
    """The name of an output beside an input, with another ending."""
    return os.path.splitext(name)[0] + ending


def known_inputs(*names: Optional[str]) -> List[str]:
    """The inputs that were given."""
    return [name for name in names if name is not None]
