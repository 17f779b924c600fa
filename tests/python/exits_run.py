"""How the tests of exits run the program, and what they run it on."""

import os
import re
import resource
import select
import subprocess
from pathlib import Path
from typing import Any, Callable, Dict, List, Optional, Sequence, Tuple, Union

from cases import program
from common import EXAMPLES, PATIENCE as PATIENCE

# A word of the command line, which may be no text.
Given = Union[str, bytes, Path]
# How a program ended: its status, its standard output where that was read, and what its standard error says of a fault.
End = Tuple[int, Optional[bytes], bytes]

STREAM = EXAMPLES / "first-coin.stream"
REPORT = b"1 published 1\n2 returned 5\n"
READ, WRITE, MEMORY = b"fault: read\n", b"fault: write\n", b"fault: memory\n"
MEGABYTE = 1 << 20
# The bytes of the example's first record.
FIRST = 124
# What the names of files that stay end in.
LEFT = re.compile(r"\.(?:previous|unsaved)(?:-\d+)?$")
# The place of a record's sender.
SENDER = 2
# A module whose function never ends, and a run of it that uses up the largest budget.
SPIN = bytes.fromhex("""0158000000000000000000000000000000010143a11ceb0b0500000006010002030205050701070807080f100c1f080000000100000000014d
    047370696e00000000000000000000000000000001000104000001050000020100""")
RUN = bytes.fromhex("022c0000000000000000000000000000000000000000000000000000000000000001014d047370696e80ade20400")
# The module of no definition, and the ledger after the example: its head, its module of coins with the certificate, what was made
# of coins and taken apart, and the one that is stored; in the form of today, and in the old one.
EMPTY = bytes.fromhex("a11ceb0b050000000301000207020208041000000" "14d" + 15 * "00" + "0100")
ONE = 15 * "00" + "01"
HEAD = STREAM.read_bytes()[19:124]
SAVED = b"MVL2\1\1" + HEAD + bytes.fromhex("0100" + "01" + ONE + "0700000000000000")
OLD_FORM = b"MVL1\1\1" + HEAD + bytes.fromhex("01" + 31 * "00" + "01" + ONE + "0000" + "0700000000000000")
# How it ends where the ledger after the example is kept, and where it can't be, whenever that shows.
KEPT, NOT_KEPT = (0, REPORT, b""), (1, REPORT, WRITE)
# The ledger of nothing, as one that stands where another is saved.
OLD = b"MVL2\0\0"
COUNTED = b"3 count 00000000000000000000000000000001::M::Coin stored 1 packed 1 unpacked 0\n3 end 1\n"


def closes(number: int) -> Callable[[], None]:
    return lambda: os.close(number)


def limits(megabytes: int) -> Callable[[], None]:
    return lambda: resource.setrlimit(resource.RLIMIT_AS, (megabytes * MEGABYTE, megabytes * MEGABYTE))


def no_bytes() -> None:
    resource.setrlimit(resource.RLIMIT_FSIZE, (0, 0))


def nobody() -> None:
    """From here on the program has no rights but anyone's."""
    os.setgroups([])
    os.setgid(65534)
    os.setuid(65534)


def broken_pipe() -> int:
    """An end of a pipe that nobody reads."""
    read, write = os.pipe()
    os.close(read)
    return write


def fault_in(errors: bytes) -> bytes:
    """What standard error says, without the lines that have a file and a reason."""
    return b"".join(line for line in errors.splitlines(keepends=True) if not line.startswith(b"moveledger: "))


def ended(words: Sequence[Given], stdout: Any = subprocess.PIPE, **settings: Any) -> End:
    run = subprocess.run([program(), *words], stdout=stdout, stderr=subprocess.PIPE, **settings)
    return run.returncode, run.stdout, fault_in(run.stderr)


def explained(words: Sequence[Given], **settings: Any) -> Tuple[int, str]:
    """The status, and all that standard error says."""
    pipes: Dict[str, Any] = {"stdout": subprocess.PIPE, "stderr": subprocess.PIPE, **settings}
    run = subprocess.run([program(), *words], **pipes)
    return run.returncode, run.stderr.decode()


def not_kept(path: Given, why: str) -> Tuple[int, str]:
    """How it ends, and what is said, where it shows before the first record that a ledger can't be saved by a name."""
    return 1, f"moveledger: {os.fsdecode(path)}: {why}: the ledger won't be saved\n{WRITE.decode()}"


def saved(path: Given, **settings: Any) -> End:
    """How it ends where the ledger after the example is to be saved in a file."""
    return ended(["apply", "--save", path, STREAM], **settings)


def line_from(number: int, seconds: float = PATIENCE) -> bytes:
    """The next line, from a file that may give a part of it at a time; what came of it, where no more comes."""
    line = b""
    while not line.endswith(b"\n") and select.select([number], [], [], seconds)[0]:
        byte = os.read(number, 1)
        if not byte:
            break
        line += byte
    return line


class Shelf:
    """A folder with files that programs keep their ledgers in."""

    def __init__(self, folder: str):
        self.folder = Path(folder)

    def file(self, name: str, text: Optional[bytes] = None) -> Path:
        """A file of this name, with this text if one is given."""
        path = self.folder / name
        if text is not None:
            path.write_bytes(text)
        return path

    def state(self, name: str) -> Tuple[Optional[bytes], List[str]]:
        """What a file has, and what else the folder has that a program may have left."""
        path = self.folder / name
        left = sorted(other.name for other in self.folder.iterdir() if other.name.startswith(".") or LEFT.match(other.suffix))
        return path.read_bytes() if path.is_file() else None, left


def mint_by(sender: int) -> bytes:
    """A mint of the example's coin by this sender."""
    mint = STREAM.read_bytes()[FIRST:]
    return mint[:SENDER] + sender.to_bytes(16, "big") + mint[SENDER + 16 :]


class Running:
    """A program that was started, by these words, over pipes."""

    def __init__(self, words: Sequence[Given], **settings: Any):
        pipes: Dict[str, Any] = {"stdin": subprocess.PIPE, "stdout": subprocess.PIPE, "stderr": subprocess.PIPE, **settings}
        self.run: "subprocess.Popen[bytes]" = subprocess.Popen(words, **pipes)

    def write(self, data: bytes) -> None:
        assert self.run.stdin is not None
        self.run.stdin.write(data)
        self.run.stdin.flush()

    def lines(self, count: int) -> bytes:
        """The next lines of its report."""
        assert self.run.stdout is not None
        number = self.run.stdout.fileno()
        return b"".join(line_from(number) for _ in range(count))

    def sent(self, record: bytes, lines: int = 1) -> bytes:
        """What is answered to a record."""
        self.write(record)
        return self.lines(lines)

    def end_input(self) -> None:
        assert self.run.stdin is not None
        self.run.stdin.close()

    def ended(self) -> Tuple[int, bytes, bytes]:
        """How it ends by itself: its status, the rest of its report, and all that standard error says."""
        status = self.run.wait(PATIENCE)
        rest, errors = (file.read() if file is not None else b"" for file in (self.run.stdout, self.run.stderr))
        return status, rest, errors

    def closed(self) -> Tuple[int, bytes, str]:
        """How it ends once it is given no more."""
        rest, errors = self.run.communicate(timeout=PATIENCE)
        return self.run.returncode, rest, errors.decode()
