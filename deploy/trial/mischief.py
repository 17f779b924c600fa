"""What is done to replicas and nodes while they work."""

import errno
import os
import random
import signal
import subprocess
import time
from pathlib import Path
from typing import Callable, List, Optional

from .processes import Failed, Node, ReplicaProcess, until

WAIT_SECONDS = 600.0
NODE_DOWN_SECONDS = 1.5
# For so long a replica stands still. It is longer than what a node waits for an answer.
PAUSE_SECONDS = 3.0
PIECE = bytes(4096)


class SmallDisk:
    """A folder on a disk of its own, in memory; `is_there` tells whether it could be made."""

    def __init__(self, folder: Path, megabytes: int) -> None:
        self.folder = folder
        folder.mkdir()
        words = ["mount", "-t", "tmpfs", "-o", f"size={megabytes}m", "tmpfs", str(folder)]
        self.is_there = subprocess.run(words, stderr=subprocess.DEVNULL).returncode == 0

    def fill(self) -> None:
        """Takes all room that is left."""
        with open(self.folder / "filler", "ab", buffering=0) as file:
            try:
                while True:
                    file.write(PIECE)
            except OSError as error:
                if error.errno != errno.ENOSPC:
                    raise

    def empty(self) -> None:
        os.remove(self.folder / "filler")

    def close(self) -> None:
        if self.is_there:
            subprocess.run(["umount", "-l", str(self.folder)], check=True)


class Mischief:
    """Does one thing after the other, and counts them."""

    def __init__(self, nodes: List[Node], replicas: List[ReplicaProcess], disk: Optional[SmallDisk], seed: int) -> None:
        self.random = random.Random(seed)
        self.nodes = nodes
        self.replicas = replicas
        self.disk = disk
        self.kills = self.node_kills = self.cuts = self.fills = self.all_kills = self.pauses = 0

    def calls(self, kills: int, node_kills: int, is_all: bool) -> List[Callable[[], None]]:
        """So many kills of a replica and of a node, and if it's to be all a cut and a full disk, in some order."""
        calls: List[Callable[[], None]] = [self.kill] * kills + [self.kill_node] * node_kills + [self.cut] * is_all
        calls += [self.kill_all_nodes, self.pause]
        self.random.shuffle(calls)
        # Records have to come yet when the disk is full.
        at = len(calls) // 3
        calls[at:at] = [self.fill] * (is_all and self.disk is not None)
        return calls

    def kill(self) -> None:
        """Kills a replica, and starts it again."""
        replica = self.replicas[self.kills % len(self.replicas)]
        time.sleep(self.random.random())
        replica.check()
        replica.kill()
        replica.start()
        self.kills += 1

    def kill_node(self) -> None:
        """Kills a node of the log, and starts it again after a while."""
        node = self.nodes[self.node_kills % len(self.nodes)]
        node.kill()
        time.sleep(NODE_DOWN_SECONDS)
        node.start()
        # Only one node is down at a time, and one that comes back needs some time.
        time.sleep(2 * NODE_DOWN_SECONDS)
        self.node_kills += 1

    def kill_all_nodes(self) -> None:
        """Kills all nodes at once, and starts them again."""
        for node in self.nodes:
            node.kill()
        for node in self.nodes:
            node.start()
        time.sleep(2 * NODE_DOWN_SECONDS)
        self.all_kills += 1

    def pause(self) -> None:
        """Lets a replica stand still for a while, in the middle of whatever it does."""
        replica = self.random.choice(self.replicas)
        assert replica.process is not None
        replica.process.send_signal(signal.SIGSTOP)
        time.sleep(PAUSE_SECONDS)
        replica.process.send_signal(signal.SIGCONT)
        self.pauses += 1

    def cut(self) -> None:
        """Cuts the newest saved ledger of a replica short: it has to say so, and to go on from the one before."""
        replica = self.random.choice(self.replicas)
        until(lambda: len(replica.saves()) > 1, WAIT_SECONDS, f"{replica.name} has saved twice")
        before = len(replica.told())
        replica.kill()
        newest = replica.saves()[0]
        os.truncate(newest.path, self.random.randrange(os.path.getsize(newest.path)))
        replica.start()
        until(lambda: f"{newest.path} isn't believed" in replica.told()[before:], WAIT_SECONDS,
              f"{replica.name} says that {newest.path} isn't believed")
        self.cuts += 1

    def fill(self) -> None:
        """Fills the disk of the last replica: it has to say that it can't save, and to save again when there is room."""
        assert self.disk is not None
        replica, disk = self.replicas[-1], self.disk
        before = len(replica.told())
        last = max([save.number for save in replica.saves()], default=0)

        def is_without_room() -> bool:
            # What it forgets makes room again.
            disk.fill()
            return "isn't saved" in replica.told()[before:]

        until(is_without_room, WAIT_SECONDS, f"{replica.name} says that it can't save")
        disk.empty()
        until(lambda: any(save.number > last for save in replica.saves()), WAIT_SECONDS, f"{replica.name} saves again")
        self.fills += 1

    def told(self) -> str:
        fills = f"{self.fills} disk filled" if self.disk else "no disk filled, since none could be mounted"
        return (f"{self.kills} times a replica killed, {self.node_kills} times a node, {self.all_kills} times all "
                f"nodes at once, {self.pauses} times a replica stood still, {self.cuts} saved ledger cut, {fills}")


def check_running(replicas: List[ReplicaProcess]) -> None:
    """Failed where a replica has ended, or says that the replicas differ."""
    for replica in replicas:
        replica.check()
        if "DIFFER" in replica.told():
            raise Failed(f"{replica.name}: {replica.told()[-400:]}")
