"""Puts the records of the trial into the log, from several threads at once, and keeps what was said to be durable."""

import random
import threading
import time
from typing import Dict, Iterable, List, Tuple

from ledgerlog.etcd import Etcd
from ledgerlog.log import Log, Offer

from .processes import PATIENCE, Failed, command

THREADS = 3
MOST_AT_ONCE = 60
SLOW_SECONDS = 1.0


class Feeding:
    """Records on their way into a log. `durable` has the records by the number that the log gave to each."""

    def __init__(self, addresses: List[str], ledger: str, seed: int) -> None:
        self.addresses = addresses
        self.ledger = ledger
        self.random = random.Random(seed)
        self.durable: Dict[int, bytes] = {}
        self.errors: List[Exception] = []
        self.lock = threading.Lock()
        self.left: List[Offer] = []
        self.kept_back = 0
        self.by_command = 0

    def log(self) -> Log:
        return Log(Etcd(list(self.addresses), PATIENCE), self.ledger)

    def feed(self, records: List[bytes], name: str, kept_back: int = 0) -> List[threading.Thread]:
        """Begins to put records, which get ids of this name. As many as are kept back are put slowly until fewer are."""
        self.left = [Offer(f"{name}-{place}", record) for place, record in enumerate(records)]
        self.kept_back = kept_back
        threads = [threading.Thread(target=self.work, args=(self.random.getrandbits(64),), daemon=True) for _ in range(THREADS)]
        for thread in threads:
            thread.start()
        return threads

    def take(self, most: int) -> List[Offer]:
        """The records to be put next: one after a while where the rest is kept back."""
        if len(self.left) <= self.kept_back:
            time.sleep(SLOW_SECONDS)
            most = 1
        with self.lock:
            taken, self.left = self.left[:most], self.left[most:]
        return taken

    def work(self, seed: int) -> None:
        draw = random.Random(seed)
        try:
            log = self.log()
            while not self.errors:
                offers = self.take(draw.randrange(1, MOST_AT_ONCE + 1))
                if not offers:
                    return
                self.put(log, offers, draw)
        except Exception as error:  # noqa: BLE001
            self.errors.append(error)

    def put(self, log: Log, offers: List[Offer], draw: random.Random) -> None:
        """Puts a few records; some are put again, and have to stay where they are."""
        settings = log.settings()
        numbers = list(log.append(offers, "trial", settings))
        if draw.random() < 0.1 and list(log.append(offers, "trial", settings)) != numbers:
            raise Failed("a record that is put again has another number")
        self.keep(zip(numbers, (offer.record for offer in offers)))

    def keep(self, pairs: Iterable[Tuple[int, bytes]]) -> None:
        with self.lock:
            for number, record in pairs:
                if number in self.durable:
                    raise Failed(f"two records have the number {number}")
                self.durable[number] = record

    def submit(self, record: bytes) -> None:
        """Puts a record by the command, which waits for its lines."""
        words = ["--wait", "--seconds", PATIENCE, "--log", ",".join(self.addresses), "--ledger", self.ledger, "-"]
        it = command("submit", *words, given=record)
        number, _, lines = it.stdout.partition(b"\n")
        if it.returncode != 0 or not lines.startswith(number + b" "):
            raise Failed(f"submit ended with the status {it.returncode}: {it.stdout!r} {it.stderr!r}")
        self.keep([(int(number), record)])
        self.by_command += 1

    def done(self, threads: List[threading.Thread]) -> None:
        """Waits until all is put."""
        for thread in threads:
            thread.join()
        if self.errors:
            raise self.errors[0]
