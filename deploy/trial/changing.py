"""A scene in which the set changes again and again while records come: what was final stays so, and what comes goes on."""

import threading
from typing import List, Sequence

from ledgerlog.log import Log, Offer

from .checking import check_whole, final_lines, taken_from
from .processes import PATIENCE, Failed, done, until
from .stage import Stage

# So many records come at once, and so many at least from one change to the next.
AT_ONCE, BETWEEN = 10, 80


class Coming:
    """Records that come until they are to end."""

    def __init__(self, stage: Stage) -> None:
        self.stage = stage
        self.log = Log(stage.place.etcd(), stage.ledger)
        self.records: List[bytes] = []
        self.numbers: List[int] = []
        self.errors: List[Exception] = []
        self.is_over = False
        self.thread = threading.Thread(target=self.work, daemon=True)
        self.thread.start()

    def work(self) -> None:
        try:
            while not self.is_over:
                records = [self.stage.given.fresh_mint() for _ in range(AT_ONCE)]
                offers = [Offer(f"coming-{len(self.records) + at}", record) for at, record in enumerate(records)]
                self.numbers += list(self.log.append(offers, "trial", self.log.settings()))
                self.records += records
        except Exception as error:  # noqa: BLE001
            self.errors.append(error)

    def more(self) -> int:
        """Waits for more of them. How many there are."""
        least = len(self.records) + BETWEEN
        until(lambda: len(self.records) >= least or self.errors, PATIENCE, "records come")
        if self.errors:
            raise self.errors[0]
        return len(self.records)

    def end(self) -> None:
        self.is_over = True
        self.thread.join()
        self.log.etcd.close()


def exchanged(stage: Stage, coming: Coming, gone: Sequence[str], new: Sequence[str]) -> int:
    """Exchanges replicas of the set for others while records come. Up to which record the old set had made lines final."""
    coming.more()
    seen = stage.log.last()
    stage.answered(seen)
    before = final_lines(stage.log, seen)
    names = [*(name for name in stage.final().replicas if name not in gone), *new]
    done("log", *stage.words("keeper"), "set", "--replicas", ",".join(names))
    settings = stage.log.settings()
    if settings.settled is None or settings.settled.number < seen or settings.changing:
        raise Failed(f"the settings say {settings}, and record {seen} was final before")
    if final_lines(stage.log, seen) != before:
        raise Failed(f"of {seen} lines that were final some are others now")
    for name in gone:
        stage.replicas.pop(name).kill()
    for name in new:
        stage.replica(name).start()
    coming.more()
    stage.all_answered(stage.log.last())
    stage.check_running()
    return settings.settled.number


def changing(stage: Stage) -> List[str]:
    """All of this on one ledger."""
    stage.make()
    stage.start()
    stage.feed(60)
    coming = Coming(stage)
    try:
        points = [exchanged(stage, coming, ["third"], ["fourth"]), exchanged(stage, coming, ["second", "fourth"], ["fifth", "sixth"]),
                  exchanged(stage, coming, [], ["seventh", "eighth"])]
    finally:
        coming.end()
    last = stage.log.last()
    there = [taken.record for taken in taken_from(stage.log)]
    if last != 60 + len(coming.records) or [there[number - 1] for number in coming.numbers] != coming.records:
        raise Failed(f"the log has {last} records, and {60 + len(coming.records)} were put")
    stage.all_answered(last)
    check_whole(stage.log, stage.program, stage.folder, last)
    stage.verify()
    return [f"one replica exchanged for another, two for two others, and two added while {len(coming.records)} records came: final up to "
            f"records {', '.join(map(str, points))} then, and the lines of all are those of one `moveledger apply`"]
