"""A running moveledger, that is given records and gives the lines of each; and which program it is."""

import hashlib
import queue
import subprocess
import threading
from typing import IO, List, Optional

from .errors import ProgramEnded
from .written import Taken

# Words of lines behind which a record has more lines.
MORE_WORDS = (b"at", b"count")
# A busy machine may take long to start a program: one that says nothing for so long hangs.
VERSION_SECONDS = 600.0
# A nice program leaves the processors to others.
NICE = ("nice", "-n", "19")


def identity(program: str) -> bytes:
    """What a program says its version is, where it says so, and the SHA-256 of its file: the same however busy the machine is. OSError where
    the file can't be read, or the program neither says anything nor ends by itself."""
    with open(program, "rb") as file:
        digest = hashlib.sha256(file.read()).hexdigest()
    try:
        done = subprocess.run([program, "--version"], stdin=subprocess.DEVNULL, stdout=subprocess.PIPE, stderr=subprocess.DEVNULL,
                              timeout=VERSION_SECONDS)
    except subprocess.TimeoutExpired:
        raise OSError(f"{program} hasn't said within {VERSION_SECONDS:g} seconds which version it is") from None
    if done.returncode < 0:
        raise OSError(f"{program} was killed by signal {-done.returncode} when it was asked for its version")
    told = done.stdout.decode("ascii", "replace").split()
    version = " ".join(told) if done.returncode == 0 and told else "unversioned"
    return f"{version} sha256:{digest}".encode()


def skipped_line(number: int, why: str) -> bytes:
    """The line of what is skipped."""
    return b"%d skipped %s\n" % (number, why.encode())


class Program:
    """A program that answers the records after one number, from a saved ledger on or from an empty one."""

    def __init__(self, program: str, number: int, load: Optional[str], save: Optional[str], is_nice: bool = False) -> None:
        """`number` is that of the last record in the ledger to load, 0 with none. A nice one leaves the processors to others."""
        nice = NICE if is_nice else ()
        options = [*(["--load", load] if load else []), *(["--save", save] if save else [])]
        self.base = number
        self.number = number
        # How many records this run of the program was given and has answered, questions with them.
        self.given = 0
        self.is_finishing = False
        self.lines: "queue.Queue[Optional[bytes]]" = queue.Queue()
        # In a session of its own, so that an interrupt from a terminal doesn't reach it before what it has is saved.
        self.process = subprocess.Popen([*nice, program, "apply", *options, "-"], stdin=subprocess.PIPE, stdout=subprocess.PIPE,
                                        stderr=subprocess.PIPE, start_new_session=True)
        assert self.process.stdin and self.process.stdout and self.process.stderr
        self.input: IO[bytes] = self.process.stdin
        self.output: IO[bytes] = self.process.stdout
        self.errors: IO[bytes] = self.process.stderr
        self.reader = threading.Thread(target=self.read, daemon=True)
        self.reader.start()

    def read(self) -> None:
        """Takes what the program prints, so that it never waits for that; None is the end."""
        for line in self.output:
            self.lines.put(line)
        self.lines.put(None)

    def give(self, data: bytes) -> None:
        try:
            self.input.write(data)
            self.input.flush()
        except BrokenPipeError:
            pass

    def answer(self, taken: List[Taken]) -> List[bytes]:
        """The lines of what comes next in the log, with its numbers. ProgramEnded, with what was made, where the program ends sooner."""
        self.give(b"".join(one.record for one in taken if one.why is None))
        answers: List[bytes] = []
        for one in taken:
            number = self.number + 1
            try:
                answers.append(self.next_lines(number) if one.why is None else skipped_line(number, one.why))
            except ProgramEnded as ended:
                ended.made = answers
                raise
            self.number = number
        return answers

    def ask(self, question: bytes) -> bytes:
        """The lines of a show or an audit, which begin with the number of the last record."""
        self.give(question)
        return self.next_lines(self.number)

    def check(self) -> None:
        """ProgramEnded where it has ended, though its input hasn't."""
        if self.process.poll() is not None:
            raise self.ended(self.lines.get())

    def next_lines(self, number: int) -> bytes:
        """The lines of the next record that the program was given, with this number in place of its own."""
        told: List[bytes] = []
        self.given += 1
        while True:
            line = self.lines.get()
            begins, _, rest = (line or b"").rstrip(b"\n").partition(b" ")
            if begins != b"%d" % self.given:
                raise self.ended(line)
            told.append(b"%d %s\n" % (number, rest))
            if rest.partition(b" ")[0] not in MORE_WORDS:
                return b"".join(told)

    def ended(self, line: Optional[bytes]) -> ProgramEnded:
        """How the program ended, with what it said. `line` is the last that was read of it, None where that was all."""
        self.close_input()
        words = b"" if line is None else line + b"".join(part for part in iter(self.lines.get, None) if part is not None)
        words += self.errors.read()
        return ProgramEnded(self.process.wait(), words.decode("utf-8", "replace").strip())

    def finish(self) -> None:
        """Ends the input, which saves the ledger. ProgramEnded where that isn't done."""
        self.is_finishing = True
        self.close_input()
        line = self.lines.get()
        if line is not None or self.process.wait() != 0:
            raise self.ended(line)

    def close_input(self) -> None:
        try:
            self.input.close()
        except BrokenPipeError:
            pass

    def end(self) -> None:
        """Ends the program where it runs yet, and lets nothing of it stay."""
        self.process.kill()
        self.process.wait()
        self.close_input()
        self.reader.join()
        self.output.close()
        self.errors.close()
