"""Scenes about which history a ledger is of: a log made anew, a lost node, a backup that is restored."""

import secrets
import shutil
import subprocess
import time
from typing import Dict, List

from .checking import check_whole
from .processes import Failed, Node, done, until
from .stage import PATIENCE, Place, Stage

LOOK = 4
MEMBER_SECONDS = 600.0


def etcdctl(place: Place, *words: object) -> str:
    """Runs etcd's own command on the place's nodes."""
    asked = ["etcdctl", "--endpoints", ",".join(place.addresses), *map(str, words)]
    it = subprocess.run(asked, stdout=subprocess.PIPE, stderr=subprocess.PIPE, env={"ETCDCTL_API": "3", "PATH": "/usr/bin:/bin"})
    if it.returncode != 0:
        raise Failed(f"{' '.join(asked)} ends with the status {it.returncode}: {it.stderr!r}")
    return it.stdout.decode()


def made_anew(stage: Stage) -> str:
    """Takes a ledger's keys away and makes its log anew while replicas run: they have to stop, and not to start on
    the old saves."""
    stage.saved("first", stage.feed(80))
    old = stage.log.settings().id
    stage.log.etcd.delete(stage.log.keys.all, stage.log.keys.all[:-1] + b"0")
    said = [one.ends(LOOK, "stops:") for one in stage.replicas.values()]
    stage.put.clear()
    stage.make()
    stage.again("first").ends(LOOK, f"was made of the log {old}")
    done("snapshot", *stage.words("reader"), stage.replicas["first"].folder, stage.folder / "none", status=1,
         says="of another history")
    for one in stage.replicas.values():
        shutil.move(str(one.folder), str(one.folder) + ".old")
    stage.start()
    stage.given = type(stage.given)(stage.random.getrandbits(32))
    stage.all_answered(stage.feed(80))
    return (f"a log made anew: three replicas stopped with the status {LOOK} (`{said[0].split(': ', 1)[1][:70]}..`); on their "
            "old saves they don't start, snapshot hands none out; with empty folders they follow the new one")


def members(place: Place) -> Dict[str, str]:
    """The ids of the nodes by their names."""
    rows = [line.split(", ") for line in etcdctl(place, "member", "list").splitlines()]
    return {row[2] or row[3]: row[0] for row in rows}


def is_added(place: Place, node: Node, url: str) -> bool:
    """Adds a node. etcd refuses that for some seconds behind a change of the nodes: the cluster isn't healthy yet."""
    try:
        etcdctl(place, "member", "add", f"node{node.number}", f"--peer-urls={url}")
    except Failed as why:
        if "unhealthy cluster" in str(why):
            return False
        raise
    return True


def lost_node(stage: Stage, place: Place, node: Node) -> str:
    """A node and all of its files are lost: it is taken out and put in again with none."""
    node.kill()
    shutil.rmtree(node.folder)
    stage.feed(30)
    etcdctl(place, "member", "remove", members(place)[f"node{node.number}"])
    port = int(place.addresses[0].rpartition(":")[2])
    url = f"http://127.0.0.1:{port + 2 + node.number}"
    until(lambda: is_added(place, node, url), MEMBER_SECONDS, "a node is added")
    began = time.monotonic()
    node.start_in_place()
    alone = type(stage.log.etcd)([place.addresses[node.number - 1]], MEMBER_SECONDS)
    last = stage.log.keys.last
    until(lambda: alone.get(last) == stage.log.etcd.get(last), MEMBER_SECONDS, "the new node has the log")
    took = time.monotonic() - began
    node.kill()
    node.start()
    stage.all_answered(stage.feed(30))
    stage.check_running()
    return (f"node {node.number} lost with its files: records went on; removed, added and started with none, it had the log "
            f"after {took:.1f} s")


def restore(place: Place, backup: str) -> None:
    """Makes each node anew from a backup."""
    port = int(place.addresses[0].rpartition(":")[2])
    peers = {f"node{node.number}": f"http://127.0.0.1:{port + 2 + node.number}" for node in place.nodes}
    cluster = ",".join(f"{name}={url}" for name, url in peers.items())
    # Nodes that are restored twice by one token are taken for the same ones.
    token = secrets.token_hex(8)
    for node in place.nodes:
        shutil.move(str(node.folder), str(node.folder) + ".old")
        name = f"node{node.number}"
        etcdctl(place, "snapshot", "restore", backup, "--name", name, "--data-dir", node.folder, "--initial-cluster", cluster,
                "--initial-cluster-token", token, "--initial-advertise-peer-urls", peers[name])


def drilled(stage: Stage) -> str:
    """Takes a backup, and restores it for a look; one that was damaged isn't taken for a good one. Where the good one is."""
    folder = stage.folder / "backups"
    done("backup", *stage.words("root"), "--keep", 2, folder)
    path, = folder.glob("*.db")
    done("backup", *stage.words("root"), "--drill", folder, says=f"with all records from 1 to {stage.log.last()}")
    bad = folder / "log-99990101T000000Z.db"
    data = bytearray(path.read_bytes())
    data[len(data) // 2] ^= 1
    bad.write_bytes(data)
    done("backup", *stage.words("root"), "--drill", folder, status=1, says="backup: ")
    bad.unlink()
    return str(path)


def restored(stage: Stage, place: Place) -> str:
    """Takes a backup, puts more records, and restores it: replicas have to say that they are ahead, and to go on from the
    common past when they are told that it was restored."""
    backed_up = stage.feed(50)
    for name in stage.replicas:
        stage.saved(name, backed_up)
    backup = drilled(stage)
    lost = stage.feed(70) - backed_up
    for name in stage.replicas:
        stage.saved(name, backed_up + 1)
    for node in place.nodes:
        node.kill()
    restore(place, backup)
    place.start()
    said = [replica.ends(LOOK, "ahead of the log") for replica in stage.replicas.values()]
    stage.again("first").ends(LOOK, "ahead of the log")
    done("log", *stage.words("keeper"), "restored")
    stage.put = stage.put[:backed_up]
    for name in list(stage.replicas):
        stage.again(name)
    stage.replicas["first"].says("of a log that was restored since")
    stage.all_answered(stage.feed(40))
    stage.check_running()
    check_whole(stage.log, stage.program, stage.folder, stage.log.last())
    return (f"a backup taken and tried; restored from it, {lost} records behind it lost: all three replicas stopped "
            f"(`{said[0].split(': ', 1)[1][:90]}..`); after "
            "`log restored` they set aside what they saved since, and go on behind the backup's last record")


def brought_back(stage: Stage, place: Place) -> str:
    """Clears the log, takes a backup, and puts more records until no replica has a save that is as old; restores it. One replica is given the
    backup's save, and the others have to fetch it."""
    backed_up = stage.feed(100)
    stage.clear(10)
    folder = stage.folder / "whole"
    done("backup", *stage.words("root"), folder, says="with the save behind record")
    done("backup", *stage.words("root"), "--drill", "--moveledger", stage.program, folder, says="and the save behind record")
    path, = folder.glob("*.db")

    def is_newer() -> bool:
        stage.feed(20)
        return all(one.saves() and one.saves()[-1].number > backed_up for one in stage.replicas.values())

    until(is_newer, PATIENCE, f"all saves are of records behind {backed_up}")
    for one in stage.replicas.values():
        one.stop()
    for node in place.nodes:
        node.kill()
    restore(place, str(path))
    place.start()
    done("log", *stage.words("keeper"), "restored", says="has to have the save that stands beside the backup")
    stage.put = stage.put[:backed_up]
    done("snapshot", *stage.words("reader"), str(path)[:-len(".db")] + f"-{stage.ledger}", stage.replicas["first"].folder)
    for name in list(stage.replicas):
        stage.again(name)
    stage.all_answered(stage.feed(40))
    stage.check_running()
    return (f"cleared, backed up with its save and restored, when no replica had one that old: one was given the backup's, the others fetched "
            f"it, and all went on behind record {backed_up}")


def histories(stage: Stage, place: Place) -> List[str]:
    """All of this on one ledger. The nodes are taken down meanwhile."""
    stage.make()
    stage.start()
    told = [made_anew(stage), lost_node(stage, place, stage.random.choice(place.nodes)), restored(stage, place),
            brought_back(stage, place)]
    until(lambda: stage.verify(), PATIENCE, "the log verifies")
    return told
