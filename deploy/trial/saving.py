"""A scene in which saves take long, and a replica lacks what was cleared: answers go on, and it fetches a save from another one."""

import re
import signal
import time
from typing import List, Optional

from ledgerlog.keys import AT
from ledgerlog.saves import Save
from ledgerlog.saving import REST

from .differing import flip
from .processes import Failed, done, until
from .stage import NAMES, PATIENCE, Stage

# So many times four records come while saves are under way.
FEEDS = 20
# What lets saves end, and what is there of each replica that has begun one.
LET_GO, BEGUN = "let-go", "begun"


def slow(stage: Stage) -> str:
    """A program whose saves don't end until they are let go."""
    path, let_go, begun = (stage.folder / name for name in ("moveledger-slow", LET_GO, BEGUN))
    path.write_text(f'#!/bin/sh\n"{stage.program}" "$@"\nstatus=$?\ncase "$*" in *--save*)\n'
                    f'  : > "{begun}.$PPID"\n  while [ ! -e "{let_go}" ]; do sleep 0.1; done;;\nesac\nexit $status\n')
    path.chmod(0o755)
    return str(path)


def answered_while_saving(stage: Stage) -> str:
    """Records are answered while all replicas save: none of the saves ends before all are answered."""
    waits: List[float] = []
    last, first_began = stage.log.last(), time.monotonic()
    try:
        until(lambda: len(list(stage.folder.glob(f"{BEGUN}.*"))) == len(NAMES), PATIENCE, "all replicas save")
        for _ in range(FEEDS):
            began = time.monotonic()
            stage.feed(4)
            waits.append(time.monotonic() - began)
    finally:
        (stage.folder / LET_GO).touch()
    took = time.monotonic() - first_began
    # A replica that has saved for so long rests for a multiple of that.
    until(lambda: agreed(stage) > last, PATIENCE + 2 * REST * took, "a majority agrees on a save that was made meanwhile")
    stage.check_running()
    return (f"saves took {took:.1f} s: {4 * len(waits)} records were answered meanwhile, each within {max(waits):.2f} s, and the replicas "
            f"agree on the save behind record {agreed(stage)}")


def agreed(stage: Stage) -> int:
    """The newest save that a majority has agreed on; 0 where there is none."""
    found = re.search(r"agreed save: (\d+) ", done("log", *stage.words("reader"), "show"))
    return int(found.group(1)) if found else 0


def newest_agreed(stage: Stage, name: str) -> Optional[Save]:
    """A replica's save that is the newest one that a majority has voted for; None where it hasn't it yet."""
    number = agreed(stage)
    return next((save for save in stage.replicas[name].saves() if save.number == number), None)


def cleared_behind(stage: Stage, count: int) -> int:
    """Clears the log behind a save that is newer than so many records."""
    last = stage.log.last()
    while agreed(stage) < last + count:
        stage.feed(stage.every)
        time.sleep(0.2)
    done("log", *stage.words("keeper"), "clear", "--keep", 0, says="cleared up to record")
    return stage.log.cleared()


def fetched(stage: Stage) -> str:
    """A replica stands still while the log is cleared: it has to fetch a save, from whoever gives the right one."""
    third = stage.replicas["third"]
    if third.process is None:
        raise Failed("third isn't there")
    third.process.send_signal(signal.SIGSTOP)
    number = cleared_behind(stage, 2 * stage.every)
    newest = until(lambda: newest_agreed(stage, "first"), PATIENCE, "first has the newest save that a majority has voted for")
    flip(newest.path, stage.random.getrandbits(60))
    before = len(third.told())
    third.process.send_signal(signal.SIGCONT)
    said = third.says("has the save behind record", before)
    stage.all_answered(stage.feed(10))
    stage.check_running()
    wrong = "it is thrown away" in third.told()[before:]
    return (f"third stood still while the log was cleared up to record {number}: `{said.split(': ', 1)[1]}`"
            + ("; a wrong one from another was thrown away" if wrong else ""))


def from_nothing(stage: Stage) -> str:
    """A replica with an empty folder fetches a save; where nobody says that it gives one, a person has to look."""
    fresh = stage.replica("fresh")
    took = fresh.comes_back(stage.log.last(), PATIENCE)
    fresh.stop()
    del stage.replicas["fresh"]
    for name in NAMES:
        key = stage.log.keys.own(name, AT)
        stage.log.etcd.delete(key, key + b"\0")
    lost = stage.replica("lost")
    lost.start()
    lost.ends(4, "says where it gives its saves")
    del stage.replicas["lost"]
    return f"a replica from nothing is there after {took:.2f} s; where nobody gives saves, it ends with the status 4"


def saved(stage: Stage) -> List[str]:
    """All of this on one ledger."""
    stage.make()
    for name in NAMES:
        stage.replica(name, program=slow(stage)).start()
    stage.feed(60)
    told = [answered_while_saving(stage)]
    for name in NAMES:
        stage.replicas[name].kill()
        stage.again(name)
    stage.all_answered(stage.feed(10))
    return [*told, fetched(stage), from_nothing(stage)]
