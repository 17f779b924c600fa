"""A scene in which several clear at once, while records come through the submit service and a node is killed."""

import re
import threading
from typing import List

from ledgerlog.client import Ledger
from ledgerlog.errors import LogError
from ledgerlog.keys import LINES, TOLD, size_in

from .checking import taken_from
from .processes import DEPLOY, Failed, Started, command, done, end_all, until
from .stage import NAMES, PATIENCE, Stage

SUBMITTERS = 6
CLEARED = re.compile(rb"cleared up to record (\d+): (\d+) records removed now")
BATCH, BATCHES = 500, 6


class Coming:
    """Records that come through the service until it is enough."""

    def __init__(self, stage: Stage) -> None:
        self.stage = stage
        self.socket = stage.folder / "service" / "socket"
        self.service = Started([DEPLOY / "serve", *stage.words("submitter"), self.socket], stage.folder / "service.errors")
        self.is_enough = False
        self.count = 0
        self.errors: List[Exception] = []
        self.lock = threading.Lock()
        self.threads = [threading.Thread(target=self.work, daemon=True) for _ in range(SUBMITTERS)]

    def start(self) -> None:
        self.service.start()
        for thread in self.threads:
            thread.start()

    def work(self) -> None:
        ledger = Ledger(str(self.socket), "trial", PATIENCE)
        try:
            while not self.is_enough:
                ledger.submit(b"\x2a\x28" + bytes(40))
                with self.lock:
                    self.count += 1
        except Exception as error:  # noqa: BLE001
            self.errors.append(error)
        finally:
            ledger.close()

    def end(self) -> None:
        self.is_enough = True
        for thread in self.threads:
            thread.join()

    def close(self) -> None:
        end_all([self.service])


def three_at_once(stage: Stage) -> List[int]:
    """Clears three times at once. How many records each says that it removed."""
    told: List[int] = []

    def clear() -> None:
        it = command("log", *stage.words("keeper"), "clear", "--keep", 50)
        found = CLEARED.search(it.stdout)
        told.append(int(found.group(2)) if found else -1)

    threads = [threading.Thread(target=clear) for _ in range(3)]
    for thread in threads:
        thread.start()
    for thread in threads:
        thread.join()
    return told


def check_counts(stage: Stage, before: int, told: List[int]) -> int:
    """Failed where what they removed isn't what is gone, or a quota isn't what stands. How many are gone."""
    keys, etcd = stage.log.keys, stage.log.etcd
    gone = stage.log.cleared() - before
    if min(told) < 0 or sum(told) != gone:
        raise Failed(f"three that cleared at once removed {told}, and {gone} records are gone")
    if etcd.count(keys.records) != etcd.count(keys.ids) or etcd.count(keys.records) != stage.log.last() - stage.log.cleared():
        raise Failed(f"there are {etcd.count(keys.records)} records and {etcd.count(keys.ids)} ids behind {stage.log.cleared()}")
    for name in NAMES:
        for kind, end in ((LINES, stage.log.cleared() + 1), (TOLD, max(0, stage.log.cleared() - 510))):
            if etcd.range(keys.by(name, kind), keys.vote(name, kind, end), 1).entries:
                raise Failed(f"{name} has {kind} of records that were cleared")
    stands = sum(len(taken.record) for taken in taken_from(stage.log, stage.log.cleared() + 1))
    used = size_in(etcd.get(keys.used("trial"))) - size_in(etcd.get(keys.gone("trial")))
    if used != stands:
        raise Failed(f"the submitter has {used} bytes in the log by its quota, and {stands} stand there")
    return gone


def cleared(stage: Stage) -> List[str]:
    """All of this on one ledger. Its records are small, so that many come."""
    stage.make("--quota", 1 << 30)
    stage.start()
    stage.feed(60)
    coming = Coming(stage)
    try:
        coming.start()
        until(lambda: coming.count >= BATCH or coming.errors, PATIENCE, "records come")
        told: List[int] = []
        before = stage.log.cleared()
        node = stage.random.choice(stage.place.nodes)
        comes_back = threading.Timer(2.0, node.start)
        for at in range(BATCHES):
            wanted = coming.count + BATCH
            until(lambda: coming.count >= wanted or coming.errors, PATIENCE, "records come")
            if at == 2:
                node.kill()
                comes_back.start()
            told += three_at_once(stage)
        comes_back.join()
        coming.end()
        if coming.errors:
            raise Failed(f"a submitter fails: {coming.errors[0]}")
        stage.all_answered(stage.log.last())
        gone = check_counts(stage, before, told)
        if gone < BATCH:
            raise Failed(f"{gone} records were cleared, while {coming.count} came")
        stage.check_running()
    except LogError as why:
        raise Failed(str(why)) from None
    finally:
        coming.is_enough = True
        coming.close()
    done("log", *stage.words("reader"), "show", says="cleared: ")
    return [f"{coming.count} records came while three cleared at once, {BATCHES} times, a node killed: {gone} removed, each counted once; the "
            "quota is what stands"]
