"""What the submit service does beside listening: it puts what many submitters give it, and tells the final lines to those who wait for
them."""

import threading
import time
from typing import Callable, Dict, List, Optional

from .appending import Offer, Outcome
from .errors import Full, LogError, Refused, Unreachable
from .final import Final
from .keys import LINES
from .log import NO_MORE, Log
from .nodes import FIRST_SECONDS
from .pipelining import MOST_FLYING, Pipeline, Wanted
from .settings import Settings
from .votes import MOST_COMPARED, Vote, majority, votes_in
from .written import count_of_pieces

# So often the settings and the room are read again while records come, and so old they may be.
LOOK_SECONDS, OLD_SECONDS = 1.0, 3.0
IDLE_SECONDS = 0.2
# The lines of so many records are looked up at once.
MOST_FINAL = 5_000


class Rules:
    """What the log says of itself and its room. A thread reads them while records come, so that none waits for that."""

    def __init__(self, log: Log) -> None:
        self.log = log
        self.settings: Optional[Settings] = None
        self.is_full = False
        self.read = 0.0
        self.lock = threading.Lock()
        self.is_asked, self.is_stopping = threading.Event(), threading.Event()
        self.thread = threading.Thread(target=self.work, daemon=True)

    def now(self) -> Settings:
        """Refused where the log has no more room."""
        self.is_asked.set()
        if self.settings is None or time.monotonic() > self.read + OLD_SECONDS:
            self.look()
        assert self.settings is not None
        if self.is_full:
            raise Refused("the log has no more room: clear it (deploy/log clear, and room)")
        return self.settings

    def look(self) -> None:
        with self.lock:
            began = time.monotonic()
            settings = self.log.settings()
            self.is_full = self.log.room(settings).part() >= NO_MORE
            self.settings, self.read = settings, began

    def work(self) -> None:
        self.is_asked.set()
        while not self.is_stopping.is_set():
            if self.is_asked.is_set():
                self.is_asked.clear()
                try:
                    self.look()
                except Exception:  # noqa: BLE001
                    self.read = 0.0
            self.is_stopping.wait(LOOK_SECONDS)


class Writer:
    """The one who puts, by several threads that each send one transaction at a time. What is unknown is told so: whoever wants it tries again
    with the same id."""

    def __init__(self, log: Log) -> None:
        self.rules = Rules(log.another())
        self.pipeline = Pipeline(log, self.rules.now)
        self.logs = [log.another() for _ in range(MOST_FLYING)]
        # One of them at a time takes what goes next.
        self.turn = threading.Lock()
        self.threads = [self.rules.thread, *(threading.Thread(target=self.work, args=(one,), daemon=True) for one in self.logs)]

    def start(self) -> None:
        for thread in self.threads:
            thread.start()

    def want(self, one: Wanted) -> None:
        self.pipeline.want(one)

    def work(self, log: Log) -> None:
        by = time.monotonic() + FIRST_SECONDS
        log.etcd.find(by)
        with self.turn:
            self.pipeline.log.etcd.find(by)
        while True:
            with self.turn:
                flight = self.pipeline.next()
            if flight is None:
                return
            flight.send(log.etcd, self.pipeline.departed)
            self.pipeline.end(flight)

    def stop(self) -> None:
        self.rules.is_stopping.set()
        self.pipeline.stop()
        for thread in self.threads:
            thread.join()
        for log in (*self.logs, self.pipeline.log, self.rules.log):
            log.etcd.close()


def put_large(log: Log, offer: Offer, submitter: str) -> Outcome:
    """Puts a record that lies in pieces, by itself: the others don't wait for them."""
    try:
        return next(iter(log.append([offer], submitter, log.settings())))
    except LogError as why:
        return why
    finally:
        log.etcd.close()


def is_large(offer: Offer) -> bool:
    return count_of_pieces(offer.record) > 0


def is_unknown(error: LogError) -> bool:
    """Whether a record may be put yet, or may be put by another try."""
    return isinstance(error, (Unreachable, Full))


class Finals:
    """Tells the final lines of records to those who wait for them."""

    def __init__(self, log: Log) -> None:
        self.log = log
        self.waiting: Dict[int, List[Callable[[bytes], None]]] = {}
        # What is final by the settings that were read last, and until when they count.
        self.final: Optional[Final] = None
        self.until = 0.0
        self.lock = threading.Lock()
        self.is_stopping = False
        self.thread = threading.Thread(target=self.work, daemon=True)

    def want(self, number: int, done: Callable[[bytes], None]) -> None:
        with self.lock:
            self.waiting.setdefault(number, []).append(done)

    def stop(self) -> None:
        self.is_stopping = True
        self.thread.join()

    def work(self) -> None:
        while not self.is_stopping:
            with self.lock:
                first = min(self.waiting, default=0)
            try:
                if first == 0 or not self.look(first):
                    time.sleep(IDLE_SECONDS / 10)
            except LogError:
                time.sleep(IDLE_SECONDS)

    def look(self, first: int) -> int:
        """Tells what is final from a number on. How many are."""
        if self.final is None or time.monotonic() > self.until:
            settings = self.log.settings()
            self.until = time.monotonic() + LOOK_SECONDS
            if self.final is None or self.final.settings != settings:
                self.final = Final(self.log.etcd, self.log.keys, settings)
        settings = self.final.settings
        if settings.is_chaining():
            return sum(self.told(number, lines) for number, lines in enumerate(self.final.lines(first, MOST_FINAL), first))
        votes = votes_in(self.log.etcd, self.log.keys, settings)
        found: List[List[Vote]] = votes.since([(name, LINES, first, first + MOST_COMPARED - 1) for name in votes.replicas])
        given: Dict[int, Dict[str, bytes]] = {}
        for name, those in zip(votes.replicas, found):
            for vote in those:
                given.setdefault(vote.number, {})[name] = vote.value
        told = 0
        for number, by in given.items():
            lines = majority(LINES, by, len(votes.replicas))
            told += self.told(number, lines) if lines is not None else 0
        return told

    def told(self, number: int, lines: bytes) -> int:
        """Tells the lines of a record to those who wait for them. How many do."""
        with self.lock:
            waiting = self.waiting.pop(number, [])
        for done in waiting:
            done(lines)
        return len(waiting)
