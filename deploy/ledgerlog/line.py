"""What the command lines of this folder have in common, over those of tools/."""

import http.client
import io
import os
import re
import subprocess
import sys
from typing import Callable, Dict, List, NoReturn, Optional, TypeVar

TOP = os.path.dirname(os.path.dirname(os.path.dirname(os.path.realpath(__file__))))
sys.path.append(os.path.join(TOP, "tools"))

from movetext.commandline import (DONE, FAULT, INTERRUPTED, REFUSED, WORDS, Argument, CommandLine, Option, WordsError, read_input,  # noqa: E402
                                  understood_or_exit)

from .errors import LogError, NeedsPerson  # noqa: E402
from .etcd import Access, Etcd  # noqa: E402
from .log import Log  # noqa: E402
from .nodes import address_in, port_in  # noqa: E402

# What this module has of the tools for those that import it, beside what it uses.
__all__ = ["DONE", "REFUSED", "Argument", "WordsError", "port_in", "read_input", "understood_or_exit"]

# Beside the program's and the tools' own: a replica stops until a person has looked.
LOOK = 4
LOG = Option("--log", "ADDRESSES", "The log's nodes, as HOST:PORT,..; those that deploy/node starts if it isn't given")
LEDGER = Option("--ledger", "NAME", "The ledger, of several in one log: letters, digits and -; `moveledger` if it isn't given")
MOVELEDGER = Option("--moveledger", "PROGRAM", "The program; MOVELEDGER of the environment, or this repository's own, "
                    "if it isn't given")
CA = Option("--ca", "AUTHORITY", "A file with the authority's certificate that vouches for the nodes: TLS is spoken with them")
CERTIFICATE = Option("--certificate", "CERTIFICATE", "A file with this side's own certificate")
KEY = Option("--key", "KEY", "A file with that certificate's key")
USER = Option("--user", "USER", "The user of the log as which to log in")
PASSWORD = Option("--password", "PASSWORD", "A file with that user's password")
REACHED_BY = [LOG, LEDGER, CA, CERTIFICATE, KEY, USER, PASSWORD]
FIRST_PORT = 23_791
NODES = 3
LOOPBACK = ("127.0.0.1", "localhost", "::1")
NAME = re.compile(r"[A-Za-z0-9-]{1,64}")
# Of records, bytes and hours none has more digits.
NUMBER = re.compile(r"[0-9]{1,16}")
ADDRESSES = ",".join(f"127.0.0.1:{FIRST_PORT + at}" for at in range(NODES))

Value = TypeVar("Value")
Given = Dict[str, Optional[str]]


def refuse(line: CommandLine, message: str) -> NoReturn:
    """Ends the program as one whose words aren't understood."""
    sys.stderr.write(line.refusal(message))
    sys.exit(WORDS)


def value_of(line: CommandLine, given: Given, option: Option, default: Value,
             read: Callable[[str], Value]) -> Value:
    """The value of an option. Ends the program where it isn't read."""
    text = given[option.value]
    if text is None:
        return default
    try:
        return read(text)
    except ValueError:
        return refuse(line, f"invalid value '{text}' for '{option.usage}'")


def whole_number(text: str) -> int:
    """A number of at least 0. ValueError where the text is none."""
    if not NUMBER.fullmatch(text):
        raise ValueError(text)
    return int(text)


def positive_number(text: str) -> int:
    """A number of at least 1. ValueError where the text is none."""
    if whole_number(text) < 1:
        raise ValueError(text)
    return int(text)


def positive_seconds(text: str) -> float:
    """Seconds, more than none. ValueError where the text is no such number."""
    if not 0 < float(text) < 1e9:
        raise ValueError(text)
    return float(text)


def name(text: str) -> str:
    """A name of letters, digits and -. ValueError where the text is none."""
    if not NAME.fullmatch(text):
        raise ValueError(text)
    return text


def addresses(text: str) -> List[str]:
    """Addresses with `,` between. ValueError where the text has none."""
    told = text.split(",")
    for address in told:
        address_in(address)
    return told


def file_in(given: Given, name: str) -> str:
    """A file or a folder that has to be given, and was."""
    value = given[name]
    assert value is not None
    return value


def access_of(given: Given) -> Access:
    """How the log is reached, by the words. OSError where a file can't be read."""
    access = Access(given[CA.value], given[CERTIFICATE.value], given[KEY.value], given[USER.value], password_file=given[PASSWORD.value])
    try:
        access.secret()
    except UnicodeDecodeError as why:
        raise OSError(f"{access.password_file} is no text: {why}") from None
    return access


def log_of(line: CommandLine, given: Given, patience: float) -> Log:
    """The log that the words name. Ends the program where a file that it takes can't be read."""
    nodes = value_of(line, given, LOG, addresses(ADDRESSES), addresses)
    try:
        etcd = Etcd(nodes, patience, access_of(given))
    except OSError as why:
        sys.stderr.write(f"{line.name}: a certificate, a key or a password can't be read: {why}\n")
        sys.exit(FAULT)
    return Log(etcd, value_of(line, given, LEDGER, "moveledger", name))


def own_program() -> Optional[str]:
    """The program of this repository's sources: the one that was built here, otherwise that of `dist/`. None is built."""
    words = [os.path.join(TOP, "scripts", "program"), "--here"]
    try:
        return subprocess.run(words, stdout=subprocess.PIPE, encoding="utf-8").stdout.strip() or None
    except OSError:
        return None


def program_of(line: CommandLine, given: Given) -> str:
    """The program that is to answer. Ends where there is none: nothing is built here."""
    found = given[MOVELEDGER.value] or os.environ.get("MOVELEDGER") or own_program()
    if not found or not os.access(found, os.X_OK):
        there_is = f"there is no program {found}" if found else "this repository has no program of its sources"
        sys.stderr.write(f"{line.name}: {there_is}: build it (./moveledger does), or name one by --moveledger\n")
        sys.exit(FAULT)
    return found


class Errors(io.TextIOWrapper):
    """Standard error. What it doesn't take, since a disk is full or nobody reads it any more, is lost: nothing ends by that."""

    def write(self, text: str) -> int:
        try:
            return super().write(text)
        except OSError:
            return len(text)

    def flush(self) -> None:
        try:
            super().flush()
        except OSError:
            pass


def take_outputs() -> None:
    """Makes standard error one that may fail, and a standard output that is closed one that can't be written."""
    sys.stderr = Errors(open(2, "wb", closefd=False) if sys.stderr is not None else open(os.devnull, "wb"),
                        errors="backslashreplace", line_buffering=True)
    if sys.stdout is None:
        os.dup2(os.open(os.devnull, os.O_RDONLY), 1)
        sys.stdout = open(1, "w", closefd=False)
    if isinstance(sys.stdout, io.TextIOWrapper):
        sys.stdout.reconfigure(errors="backslashreplace")


def ended(name: str, error: BaseException) -> int:
    """Says why a command ends, and its status. A reader that has gone away is told nothing."""
    if isinstance(error, KeyboardInterrupt):
        return INTERRUPTED
    if not isinstance(error, BrokenPipeError):
        print(f"{name}: {str(error) or type(error).__name__}", file=sys.stderr)
    return FAULT


def run(name: str, main: Callable[[], int]) -> NoReturn:
    """Runs a command, and ends the program with its status. What a user or a machine does is told in one line."""
    take_outputs()
    try:
        status = main()
    except SystemExit as ends:
        status = ends.code if isinstance(ends.code, int) else FAULT
    except (LogError, NeedsPerson, OSError, UnicodeError, MemoryError, http.client.HTTPException, KeyboardInterrupt) as error:
        status = ended(name, error)
    try:
        sys.stdout.flush()
    except OSError as error:
        # What is left isn't tried again when the program ends.
        os.dup2(os.open(os.devnull, os.O_WRONLY), 1)
        if status in (DONE, WORDS):
            is_gone = isinstance(error, BrokenPipeError)
            status = ended(name, error if is_gone else OSError(f"standard output can't be written: {error.strerror}"))
    sys.exit(status)
