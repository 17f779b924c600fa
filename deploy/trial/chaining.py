"""A scene in which a running set goes from votes on single records to votes by chain, while records come, and another one is killed
meanwhile; and what votes by chain leave in the log."""

from typing import List

from ledgerlog.keys import LINES, TOLD

from .checking import check_whole
from .processes import Failed, done, until
from .stage import NAMES, PATIENCE, Stage

OLD_PROTOCOL = 3


def old_set(stage: Stage) -> None:
    """A log that goes by an older protocol, one of whose replicas was never started by this version."""
    stage.make()
    settings = stage.log.settings()
    stage.log.etcd.put(stage.log.keys.log, settings._replace(protocol=OLD_PROTOCOL).text())
    stage.start(NAMES[:2])
    stage.feed(60)
    done("log", *stage.words("keeper"), "upgrade", status=1, says="third was never started with a version of deploy/")
    stage.replica("third").start()
    stage.all_answered(stage.feed(40))


def upgraded(stage: Stage) -> str:
    """Upgrades it while records come; one replica is down, and one is killed right after."""
    stage.saved("first", 80)
    stage.saved("second", 80)
    stage.replicas["third"].kill()
    last = stage.feed(30)
    told = done("log", *stage.words("keeper"), "upgrade")
    done("log", *stage.words("keeper"), "upgrade", status=1, says="already")
    stage.feed(30, False)
    stage.replicas["second"].kill()
    stage.replicas["third"].start()
    stage.feed(30, False)
    stage.replicas["second"].start()
    stage.all_answered(stage.feed(40))
    stage.check_running()
    chained = stage.log.settings().chained
    if not 0 < chained <= last:
        raise Failed(f"lines are chained behind record {chained}")
    check_whole(stage.log, stage.program, stage.folder, stage.log.last())
    return f"{told}; no line was lost, and all are those of one apply, on both sides of the change"


def lines_once(stage: Stage) -> str:
    """Of many records, lines stand there once, under few keys, and each replica votes under one."""
    etcd, keys = stage.log.etcd, stage.log.keys
    before = sum(etcd.count(keys.by(name, TOLD)) for name in NAMES)
    first = stage.log.last()
    last = stage.feed(600)
    stage.all_answered(last)
    told = sum(etcd.count(keys.by(name, TOLD)) for name in NAMES) - before
    single = sum(etcd.count(keys.by(name, LINES)) for name in NAMES)
    for name in NAMES:
        stage.replicas[name].stop()
        stage.again(name)
    stage.all_answered(stage.feed(10))
    if told > (last - first) // 5 or single > 3 * (stage.log.settings().chained + 60):
        raise Failed(f"the lines of {last - first} records stand under {told} keys, and {single} have those of single records")
    until(lambda: stage.verify(), PATIENCE, "the log verifies")
    return f"the lines of {last - first} records stand under {told} keys, and the votes of three replicas under three"


def chained(stage: Stage) -> List[str]:
    """All of this on one ledger."""
    old_set(stage)
    return [upgraded(stage), lines_once(stage)]
