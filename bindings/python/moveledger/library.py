"""The shared library, and its calls as moveledger.h has them."""

import ctypes
import os
from ctypes import POINTER, byref, c_char_p, c_int32, c_size_t, c_uint8, c_uint32, c_uint64, c_void_p
from pathlib import Path
from typing import Any, Callable, List, NoReturn, Optional, Tuple

from .errors import LedgerError, LoadRefused, NoBlock, NoLibrary, OutOfMemory, Refused, TooComplex, TooLong

FILE = "libmoveledger.so"
HERE = Path(__file__).resolve().parent
# What a call answers.
DONE, REFUSED, LOAD_REFUSED, TOO_COMPLEX, MEMORY, ARGUMENTS = range(6)
NO_BLOCK, ABSENT, TOO_LONG = 7, 8, 9


class Holder(ctypes.Structure):
    """What holds a ledger, or none where it is null."""

    _fields_ = [("own", c_void_p)]


class Saving(ctypes.Structure):
    """How far a save in pieces is, or none where it is null."""

    _fields_ = [("own", c_void_p)]


class Bytes(ctypes.Structure):
    """Bytes that the library gives."""

    _fields_ = [("bytes", c_void_p), ("length", c_size_t), ("own", c_void_p)]


# A place for an address.
Place = c_uint8 * 16
# The types of each call's arguments. A text is a pointer and a length, and a struct's name an address and two texts.
TEXT: List[Any] = [c_char_p, c_size_t]
STRUCT: List[Any] = [c_char_p, *TEXT, *TEXT]
CALLS = {
    "new": [POINTER(Holder)],
    "load": [*TEXT, POINTER(Holder), POINTER(c_uint8)],
    "free": [POINTER(Holder)],
    "apply": [POINTER(Holder), *TEXT, POINTER(c_uint64), POINTER(Bytes)],
    "begin": [POINTER(Holder)],
    "rollback": [POINTER(Holder)],
    "commit": [POINTER(Holder)],
    "changes": [POINTER(Holder), POINTER(Bytes), POINTER(Bytes)],
    "changed_modules": [POINTER(Holder), POINTER(Bytes)],
    "save": [POINTER(Holder), POINTER(Bytes)],
    "save_begin": [POINTER(Saving)],
    "save_next": [POINTER(Holder), POINTER(Saving), POINTER(Bytes)],
    "save_end": [POINTER(Saving)],
    "show": [POINTER(Holder), c_uint32, POINTER(Bytes)],
    "audit": [POINTER(Holder), c_uint32, POINTER(Bytes)],
    "show_value": [POINTER(Holder), c_char_p, *STRUCT, c_uint32, POINTER(Bytes)],
    "show_at": [POINTER(Holder), c_char_p, c_uint32, POINTER(Bytes)],
    "show_page": [POINTER(Holder), *STRUCT, POINTER(Place), c_size_t, c_uint32, POINTER(Bytes), POINTER(c_uint8)],
    "modules": [POINTER(Holder), POINTER(Bytes)],
    "module": [POINTER(Holder), c_char_p, *TEXT, POINTER(Bytes), POINTER(Bytes)],
    "runs": [POINTER(Holder), POINTER(c_uint64)],
    "tally": [POINTER(Holder), *STRUCT, POINTER(c_uint64), POINTER(c_uint64)],
    "read_record": [*TEXT, POINTER(c_size_t), POINTER(c_uint8), POINTER(c_uint8), POINTER(Place), POINTER(c_uint64)],
    "prove": [*TEXT, POINTER(Bytes), POINTER(c_uint8)],
    "prove_within": [*TEXT, c_uint64, POINTER(Bytes), POINTER(c_uint8)],
    "check": [*TEXT, *TEXT, POINTER(c_uint8)],
    "migrate": [*TEXT, POINTER(Bytes), POINTER(c_uint8)],
    "bytes_free": [POINTER(Bytes)],
}
NO_ANSWER = ("free", "bytes_free", "save_end")


def places() -> List[Path]:
    """Where the library may be, the first first: where MOVELEDGER_LIB_DIR says, beside this file, and where the repository's
    bindings/library puts it."""
    said = os.environ.get("MOVELEDGER_LIB_DIR")
    if said is not None:
        return [Path(said) / FILE]
    top = HERE.parents[2] if len(HERE.parents) > 2 else HERE
    return [HERE / FILE, top / "out/library" / FILE]


class Library:
    """The library's calls. Each lets other threads of Python run while it works."""

    def __init__(self) -> None:
        found = [place for place in places() if place.is_file()]
        if not found:
            raise NoLibrary(f"there is no {' or '.join(map(str, places()))}: bindings/library makes it")
        self.calls = ctypes.CDLL(str(found[0]))
        for name, arguments in CALLS.items():
            call = getattr(self.calls, f"moveledger_{name}")
            call.argtypes = arguments
            call.restype = None if name in NO_ANSWER else c_int32
            setattr(self, name, call)

    def __getattr__(self, name: str) -> Callable[..., int]:
        call: Callable[..., int] = getattr(self.calls, f"moveledger_{name}")
        return call

    def taken(self, given: Bytes) -> bytes:
        """A copy of bytes that the library gave, which are freed."""
        data = copied(given)
        self.bytes_free(byref(given))
        return data

    def answer(self, name: str, *words: Any) -> bytes:
        """The bytes that a call without a reason gives: its last argument is a place for them."""
        given = Bytes()
        status = getattr(self, name)(*words, byref(given))
        data = self.taken(given)
        return data if status == DONE else fail(status, 0)

    def found(self, name: str, *words: Any) -> Optional[bytes]:
        """The same of a question by a name; None where nothing is there."""
        given = Bytes()
        status = getattr(self, name)(*words, byref(given))
        data = self.taken(given)
        return data if is_found(status) else None

    def judged(self, name: str, *words: Any) -> bytes:
        """The bytes that a call with a reason gives: its last arguments are places for both."""
        given, why = Bytes(), c_uint8()
        status = getattr(self, name)(*words, byref(given), byref(why))
        data = self.taken(given)
        return data if status == DONE else fail(status, why.value)


def copied(given: Bytes) -> bytes:
    """A copy of bytes that the library gave."""
    return ctypes.string_at(given.bytes, given.length) if given.length else b""


def fail(status: int, why: int) -> NoReturn:
    """The exception of a status other than DONE."""
    if status == REFUSED:
        raise Refused(why)
    if status == LOAD_REFUSED:
        raise LoadRefused(why)
    if status == TOO_COMPLEX:
        raise TooComplex()
    if status == TOO_LONG:
        raise TooLong()
    if status == MEMORY:
        raise OutOfMemory("there is no memory left")
    if status == NO_BLOCK:
        raise NoBlock("no block is open")
    if status == ARGUMENTS:
        raise ValueError("the library was given wrong arguments")
    raise LedgerError(f"the library answered the status {status}")


def is_found(status: int) -> bool:
    """Whether what was asked for by its name is there. The exception of a status that says neither."""
    if status not in (DONE, ABSENT):
        fail(status, 0)
    return status == DONE


def text(data: bytes) -> Tuple[bytes, int]:
    """Bytes as a call takes them. TypeError where they are none."""
    whole = data if isinstance(data, bytes) else bytes(memoryview(data))
    return whole, len(whole)


_loaded: List[Library] = []


def library() -> Library:
    """The library, loaded once."""
    if not _loaded:
        _loaded.append(Library())
    return _loaded[0]
