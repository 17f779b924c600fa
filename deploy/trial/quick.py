"""The scene for a minute: replicas and nodes are killed, two nodes hang, the log is cleared, and everything is compared."""

from typing import List

from .checking import check_whole
from .hanging import two_pause
from .stage import NAMES, Stage


def killed(stage: Stage) -> str:
    """kill -9 of a node and a replica, with their saves, and of another replica."""
    node = stage.random.choice(stage.place.nodes)
    gone = [stage.replicas[name] for name in stage.random.sample(NAMES, 2)]
    node.kill()
    for replica in gone:
        replica.kill()
        stage.feed(20, False)
    node.start()
    for replica in gone:
        replica.start()
    stage.all_answered(stage.feed(20))
    stage.check_running()
    return f"node {node.number}, {gone[0].name} and {gone[1].name} killed while records came: all answered by all"


def cleared(stage: Stage) -> str:
    """Clears the log behind what all have saved."""
    last = stage.feed(2 * stage.every)
    for name in NAMES:
        stage.saved(name, last - stage.every)
    told = stage.clear(10)
    stage.all_answered(stage.feed(10))
    stage.check_running()
    stage.verify()
    return told


def quick(stage: Stage) -> List[str]:
    """All of this on one ledger."""
    stage.make()
    stage.start()
    stage.feed(60)
    told = [killed(stage), two_pause(stage, "paused", True)]
    check_whole(stage.log, stage.program, stage.folder, stage.log.last())
    return [*told, "the final lines of every record are those of one `moveledger apply`", cleared(stage)]
