"""The scene in which everything is killed: replicas, nodes, a save cut short, a disk filled, while records come from several
threads; and the rates."""

import time
from typing import Callable, List

from .checking import check_durable, check_saves, check_whole, taken_from
from .feeding import Feeding
from .mischief import Mischief, SmallDisk, check_running
from .processes import Failed, until
from .stage import NAMES, PATIENCE, Place, Stage

KILLS, NODE_KILLS, BY_COMMAND = 12, 3, 12
DISK_MEGABYTES = 32
# A replica saves so many times on its way, but not more often than after so many records.
SAVES, LEAST_EVERY = 40, 50
LONG = 1_800.0


def pace(records: int) -> int:
    return max(LEAST_EVERY, records // SAVES)


def rates(place: Place, program: str, seed: int, count: int) -> List[str]:
    """How many records a second are put, and answered by one replica and by three, each from an empty ledger on."""
    told: List[str] = []
    for ledger, names in (("one", NAMES[:1]), ("three", NAMES)):
        stage = Stage(place, ledger, program, seed, pace(count))
        stage.make(names=names)
        feeding = Feeding(place.addresses, ledger, seed)
        records = stage.given.records(count)
        began = time.monotonic()
        feeding.done(feeding.feed(records, "rate"))
        if len(names) == 1:
            told.append(f"put from three threads: {count / (time.monotonic() - began):.0f} records a second")
        began = time.monotonic()
        for replica in stage.start(names):
            until(lambda: replica.END.search(replica.told()), LONG, f"{replica.name} has answered all")
        took = time.monotonic() - began
        stage.close()
        told.append(f"answered by {len(names)} replica{'s' * (len(names) > 1)}: {count / took:.0f} records a second")
    return told


class Killing:
    """Feeds both halves of the records, and does mischief meanwhile."""

    def __init__(self, stage: Stage, count: int, seed: int) -> None:
        self.stage = stage
        self.disk = SmallDisk(stage.folder / "disk", DISK_MEGABYTES)
        self.seed = seed
        self.records = stage.given.records(count)
        self.feeding = Feeding(stage.place.addresses, stage.ledger, seed)
        self.told: List[str] = []

    def run(self) -> List[str]:
        stage = self.stage
        stage.make()
        disk = self.disk if self.disk.is_there else None
        small = disk.folder / "saves" if disk else None
        three = [stage.replica(NAMES[0]), stage.replica(NAMES[1]), stage.replica(NAMES[2], folder=small)]
        for replica in three:
            replica.start()
        mischief = Mischief(stage.place.nodes, three, disk, self.seed)
        half = len(self.records) // 2
        self.half("first", self.records[:half], mischief.calls(KILLS // 2, NODE_KILLS // 2, True))
        self.half("second", self.records[half:], mischief.calls(KILLS - KILLS // 2, NODE_KILLS - NODE_KILLS // 2, False))
        self.told.append(f"meanwhile: {mischief.told()}; {self.feeding.by_command} records put by the command, "
                         f"{self.feeding.by_command} shows asked")
        self.checks()
        return self.told

    def half(self, name: str, records: List[bytes], calls: List[Callable[[], None]]) -> None:
        """Feeds records, each part of them when what comes before it was done."""
        asks = BY_COMMAND // 2
        three = list(self.stage.replicas.values())[:len(NAMES)]
        threads = self.feeding.feed(records, name, len(records))
        for done, call in enumerate(calls):
            self.feeding.kept_back = len(records) * (len(calls) - 1 - done) // len(calls)
            call()
            check_running(three)
            if done < asks:
                self.feeding.submit(self.stage.given.fresh_mint())
                self.stage.show(NAMES[1 + done % 2])
        self.feeding.kept_back = 0
        self.feeding.done(threads)
        self.come_back(len(self.feeding.durable), name)

    def come_back(self, number: int, name: str) -> None:
        """How long a replica takes to come back, from its newest saved ledger, and from nothing."""
        self.stage.answered(number)
        replica = self.stage.replicas[NAMES[0]]
        replica.kill()
        newest = replica.saves()[0].number
        took = replica.comes_back(number, LONG)
        fresh = self.stage.replica(f"from-nothing-{name}")
        self.told.append(f"back at {number} records: {took:.2f} s from the ledger saved after {newest}, "
                         f"{fresh.comes_back(number, LONG):.2f} s from nothing")
        fresh.kill()

    def checks(self) -> None:
        """Compares everything."""
        log, three = self.stage.log, [self.stage.replicas[name] for name in NAMES]
        records = [one.record for one in taken_from(log)]
        check_durable(records, self.feeding.durable)
        self.told.append(f"all {len(records)} records that were said to be durable are in the log, once each")
        saved = check_whole(log, self.stage.program, self.stage.folder, len(records))
        self.told.append("the final lines of every record are those of one `moveledger apply`, byte by byte")
        check_saves(three, len(records), saved)
        check_running(three)
        self.told.append("the saved ledgers of all three replicas are the one that `moveledger apply --save` writes")
        for replica in three:
            if replica.stop() != 0:
                raise Failed(f"{replica.name} doesn't stop as it is asked to")
        until(lambda: not any(replica.is_running() for replica in three), PATIENCE, "the replicas stop when they are asked to")

    def close(self) -> None:
        self.disk.close()
