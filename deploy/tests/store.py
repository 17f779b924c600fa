"""A store in memory that answers what the client of etcd asks, so that what stands on it is tried without a node."""

import base64
import json
import os
import subprocess
import threading
import time
import unittest
from typing import Any, Callable, Dict, List, Tuple

from ledgerlog.errors import Full, LogError
from ledgerlog.etcd import Etcd
from ledgerlog.keys import Keys
from ledgerlog.log import Log, Offer
from ledgerlog.requests import Body
from ledgerlog.settings import Settings
from ledgerlog.votes import Vote, Votes

HERE = os.path.dirname(os.path.realpath(__file__))
STAND_IN = os.path.join(HERE, "stand_in.py")
LOG_ID = "0123456789abcdef" * 2
SET = ("a", "b", "c")
MOST_OPERATIONS = 128
# More than the busiest machine takes: nothing that is awaited comes as late as that, so no test depends on how fast a machine is.
PATIENCE = float(os.environ.get("PATIENCE", "600"))


def for_now(test: unittest.TestCase, module: object, **values: Any) -> None:
    """Gives a module other values until a test is over."""
    for name, value in values.items():
        test.addCleanup(setattr, module, name, getattr(module, name))
        setattr(module, name, value)


def until(condition: Callable[[], Any]) -> None:
    """Waits until something holds."""
    ends = time.monotonic() + PATIENCE
    while not condition():
        if time.monotonic() > ends:
            raise AssertionError("it doesn't come")
        time.sleep(0.005)


def script(path: str, words: str) -> str:
    """A program that the shell runs. Another process writes it: what a thread of this one starts just then would have it open for a moment
    to be written, and nothing that is can be run."""
    subprocess.run(["sh", "-c", 'cat > "$0" && chmod 755 "$0"', path], input=f"#!/bin/sh\n{words}\n".encode(), check=True)
    return path


def decoded(text: str) -> bytes:
    return base64.b64decode(text)


def coded(data: bytes) -> str:
    return base64.b64encode(data).decode()


class Store(Etcd):
    """Keys and values, each with the change that made it and the last one that put it."""

    def __init__(self) -> None:
        super().__init__(["nowhere:1"], 1.0)
        self.there: Dict[bytes, Tuple[bytes, int, int]] = {}
        self.revision = 1
        self.used = 0
        self.is_full = False
        self.most_operations = MOST_OPERATIONS
        self.lock = threading.RLock()

    def another(self) -> "Store":
        return self

    def ask(self, path: str, body: Body) -> Body:
        json.dumps(body)
        with self.lock:
            return self.answered(path, body)

    def answered(self, path: str, body: Body) -> Body:
        ways: Dict[str, Callable[[Body], Body]] = {
            "/v3/kv/range": self.ranged, "/v3/kv/put": self.asked_put, "/v3/kv/deleterange": self.deleted, "/v3/kv/txn": self.done,
            "/v3/maintenance/status": lambda _: {"dbSize": str(self.used)},
        }
        answer = ways[path](body)
        return {"header": {"revision": str(self.revision)}, **answer}

    def wait(self, first: bytes, end: bytes, revision: int, seconds: float) -> None:
        ends = time.monotonic() + min(seconds, 0.05)
        while time.monotonic() < ends and not self.is_changed(first, end, revision):
            time.sleep(0.005)

    def is_changed(self, first: bytes, end: bytes, revision: int) -> bool:
        with self.lock:
            return any(first <= key < end and one[2] > revision for key, one in self.there.items())

    def forget(self, *keys: bytes) -> None:
        """Takes keys away, as no client does, or all of them."""
        with self.lock:
            for key in keys or list(self.there):
                self.there.pop(key, None)

    def keys_of(self, body: Body) -> List[bytes]:
        first = decoded(body["key"])
        if not body.get("range_end"):
            return [first] if first in self.there else []
        return sorted(key for key in self.there if first <= key < decoded(body["range_end"]))

    def ranged(self, body: Body) -> Body:
        keys = self.keys_of(body)
        if body.get("sort_order") == "DESCEND":
            keys.reverse()
        limit = int(body.get("limit", 0)) or len(keys)
        kvs = [{"key": coded(key), "value": "" if body.get("keys_only") else coded(self.there[key][0]),
                "create_revision": str(self.there[key][1]), "mod_revision": str(self.there[key][2])} for key in keys[:limit]]
        return {"kvs": kvs, "count": str(len(keys))}

    def asked_put(self, body: Body) -> Body:
        if self.is_full:
            raise Full("mvcc: database space exceeded")
        self.revision += 1
        key = decoded(body["key"])
        created = self.there[key][1] if key in self.there else self.revision
        self.there[key] = (decoded(body["value"]), created, self.revision)
        return {}

    def deleted(self, body: Body) -> Body:
        for key in self.keys_of(body):
            del self.there[key]
        self.revision += 1
        return {}

    def holds(self, one: Body) -> bool:
        keys = self.keys_of(one) or [decoded(one["key"])]
        value, created, changed = self.there.get(keys[0], (None, 0, 0))
        if one["target"] == "VALUE":
            return value is not None and value == decoded(one["value"])
        if one["target"] == "MOD" and one["result"] == "LESS":
            return all(self.there[key][2] < int(one["mod_revision"]) for key in self.keys_of(one))
        if one["target"] == "MOD":
            return changed == int(one["mod_revision"])
        wanted = int(one["create_revision"])
        return created > wanted if one["result"] == "GREATER" else created == wanted

    def done(self, body: Body) -> Body:
        if any(len(body[part]) > self.most_operations for part in ("compare", "success", "failure")):
            raise LogError("etcdserver: too many operations in txn request")
        puts = [one["request_put"]["key"] for one in body["success"] if "request_put" in one]
        if len(set(puts)) < len(puts):
            raise LogError("duplicate key given in txn request")
        is_done = all(map(self.holds, body["compare"]))
        before = self.revision
        responses: List[Any] = []
        changes = 0
        for one in body["success" if is_done else "failure"]:
            (kind, words), = one.items()
            # All that a transaction puts has the same change.
            changes, self.revision = max(changes, self.revision), before
            responses.append({"response_range": self.ranged(words)} if kind == "request_range" else {})
            if kind == "request_put":
                self.asked_put(words)
            elif kind == "request_delete_range":
                self.deleted(words)
        self.revision = max(changes, self.revision)
        return {"succeeded": is_done, "responses": responses}


def made_log(store: Store, **given: Any) -> Log:
    """A log with a set of three."""
    log = Log(store, "L")
    store.put(log.keys.log, Settings(LOG_ID, SET, 4, hours=0)._replace(**given).text())
    return log


def run(number: int) -> bytes:
    """A record of which no other has the bytes."""
    return b"\2\2" + number.to_bytes(2, "big")


def fill(log: Log, count: int, submitter: str = "anyone") -> List[int]:
    """Puts so many records behind those that are there."""
    first = log.last() + 1
    offers = [Offer(f"id-{number}", run(number)) for number in range(first, first + count)]
    return list(log.append(offers, submitter, log.settings()))


def votes_of(log: Log, name: str) -> Votes:
    return Votes(log.etcd, log.keys, log.settings().replicas, name)


def put_vote(log: Log, name: str, kind: str, number: int, value: bytes) -> None:
    votes_of(log, name).put(kind, [Vote(number, value)])


__all__ = ["Keys", "Store", "made_log", "run", "fill", "votes_of", "put_vote", "for_now", "until", "script", "STAND_IN", "LOG_ID", "PATIENCE", "SET"]
