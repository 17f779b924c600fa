"""Saves that a second run of the program makes while the first one answers on: it loads the save before, is given the records since, and
saves."""

import threading
import time
from typing import NamedTuple, Optional

from .chains import OwnChain, Point
from .errors import LogError, NeedsPerson, ProgramEnded
from .log import Log
from .program import Program
from .saves import sync_file, vote_on

# After saves that failed the next one is up to so many times as late.
MOST_PATIENCE = 64
# Between two saves is this many times as long as one took: a second run costs no more than a tenth.
REST = 9.0


class Base(NamedTuple):
    """What a run of the program begins with: a saved ledger, or none, and the digest of the lines at its last record."""

    path: Optional[str]
    at: Point


def common_number(after: int, last: int, every: int) -> int:
    """The number at which a replica saves that has saved one and answered the other; 0 where there is none yet. Of the multiples of
    `every` it is the one that can be halved most often: replicas that leave out some meet there."""
    step = every
    found = 0
    while last // step * step > after:
        found = last // step * step
        step *= 2
    return found


class SecondRun:
    """One run that saves. It ends by itself, or when it is asked to."""

    def __init__(self, log: Log, program: str, base: Base, wanted: Point, begins: int, path: str) -> None:
        """`wanted` is where it is to save, and the digest of the lines of the first run there. The lines behind `begins` are chained."""
        self.log = log
        self.program = program
        self.base = base
        self.wanted = wanted
        self.begins = begins
        self.path = path
        self.began = time.monotonic()
        self.is_ending = False
        self.is_saved = False
        # What is voted for the file that it saved: read here, and on the disk by then, since answers would wait for that.
        self.ledger = b""
        # Why it hasn't saved; and whether its lines are others than those of the first run.
        self.error: Optional[Exception] = None
        self.is_other = False
        self.running: Optional[Program] = None
        self.thread = threading.Thread(target=self.work, daemon=True)
        self.thread.start()

    def work(self) -> None:
        try:
            self.running = Program(self.program, self.base.at.number, self.base.path, self.path, is_nice=True)
            try:
                self.run(self.running)
            finally:
                self.running.end()
        except (LogError, NeedsPerson, ProgramEnded, OSError, ValueError) as why:
            self.error = why
        finally:
            self.log.etcd.close()

    def run(self, running: Program) -> None:
        chain = OwnChain(self.begins, self.base.at)
        while running.number < self.wanted.number and not self.is_ending:
            read = self.log.read(running.number + 1)
            given = read.taken[:self.wanted.number - running.number]
            if not given:
                raise LogError(f"the log has no record {running.number + 1} any more")
            chain.add(running.answer(given))
        if self.is_ending:
            return
        if chain.end != self.wanted:
            self.is_other = True
            return
        running.finish()
        self.ledger = vote_on(self.path)
        sync_file(self.path)
        self.is_saved = True

    def is_over(self) -> bool:
        return not self.thread.is_alive()

    def end(self) -> None:
        """Ends it before it has saved."""
        self.is_ending = True
        if self.running is not None:
            self.running.process.kill()
        self.thread.join()

    def seconds(self) -> float:
        return time.monotonic() - self.began
