import json
import subprocess
import tempfile
import unittest
from typing import Any, Callable, Dict, List, Tuple

from ledgerlog.clearing import Clearing
from ledgerlog.errors import LogError, OtherProtocol
from ledgerlog.keys import SAVED
from ledgerlog.settings import PROTOCOL, settings_of

from .served import Served
from .store import LOG_ID, SET, STAND_IN, Store, fill, made_log, put_vote
from .test_commands import done


class Fields(unittest.TestCase):
    def text(self, **more: Any) -> bytes:
        told: Dict[str, Any] = {"form": 2, "id": LOG_ID, "replicas": list(SET), "every": 4, "room": 0, "quota": 0, "quotas": {}, "past": []}
        return json.dumps({**told, **more}).encode()

    def test_a_field_that_is_not_known_is_kept(self) -> None:
        settings = settings_of(self.text(colour=[1, "red"]))
        self.assertEqual(settings.more, {"colour": [1, "red"]})
        self.assertEqual(json.loads(settings._replace(every=5).text())["colour"], [1, "red"])

    def test_what_an_older_log_does_not_say_is_not_written(self) -> None:
        self.assertEqual(set(json.loads(settings_of(self.text()).text())), set(json.loads(self.text())))
        self.assertEqual(json.loads(settings_of(self.text(protocol=9)).text())["protocol"], 9)

    def test_a_field_with_another_kind_of_value_is_a_fault(self) -> None:
        rows: List[Dict[str, Any]] = [{"every": 0}, {"every": "x"}, {"every": True}, {"quota": -1}, {"quotas": []}, {"quotas": {"a": "x"}},
                                      {"past": 3},
                                      {"protocol": "x"}, {"replicas": None}, {"past": [["x"]]}]
        for more in rows:
            with self.subTest(more), self.assertRaises(LogError):
                settings_of(self.text(**more))

    def test_the_least_value_of_a_field_is_read_and_less_is_a_fault(self) -> None:
        rows: List[Tuple[str, Any, Any]] = [
            ("every", 1, 0), ("room", 0, -1), ("quota", 0, -1), ("quotas", {"a": 0}, {"a": -1}), ("past", [["x", 0]], [["x", -1]]),
            ("protocol", 1, 0), ("hours", 0, -1), ("limits", [[1, 0, 0]], [[0, 0, 0]]), ("skips", {"1": "why"}, {"0": "why"}),
            ("agreed", [1, "MVL2 x"], [0, "MVL2 x"]), ("chained", 0, -1), ("settled", [1, "0" * 64], [0, "0" * 64]),
            ("former", {"a": 1}, {"a": 0})]
        for name, least, less in rows:
            with self.subTest(name):
                settings = settings_of(self.text(**{name: least}))
                self.assertEqual(settings_of(settings.text()), settings)
                with self.assertRaises(LogError):
                    settings_of(self.text(**{name: less}))

    def test_a_newer_protocol_is_read_and_not_gone_by(self) -> None:
        store = Store()
        log = made_log(store, protocol=PROTOCOL + 1)
        self.assertEqual(log.settings_at(True)[0].protocol, PROTOCOL + 1)
        calls: List[Callable[[], object]] = [log.settings, log.settings_at, lambda: log.read(1)]
        for call in calls:
            with self.assertRaisesRegex(OtherProtocol, f"protocol {PROTOCOL + 1}, and this program knows those up to {PROTOCOL}"):
                call()

    def test_what_was_cleared_may_be_no_number(self) -> None:
        log = made_log(Store())
        fill(log, 8)
        for name in SET:
            put_vote(log, name, SAVED, 4, b"MVL2 x")
        log.etcd.put(log.keys.cleared, b"abc")
        calls: List[Callable[[], object]] = [log.cleared, lambda: log.read(1), Clearing(log, 0).run]
        for call in calls:
            with self.assertRaisesRegex(LogError, "under L/cleared stands no number: b'abc'"):
                call()


class ByCommand(unittest.TestCase):
    def setUp(self) -> None:
        self.store = Store()
        self.node = Served(self.store)
        self.addCleanup(self.node.close)
        self.words = self.node.words()

    def replica(self) -> "subprocess.CompletedProcess[bytes]":
        with tempfile.TemporaryDirectory() as folder:
            return done(["replica", *self.words, "--moveledger", STAND_IN, "--name", "a", folder])

    def test_a_newer_protocol_ends_who_writes_and_not_who_reads(self) -> None:
        made_log(self.store, protocol=PROTOCOL + 1)
        for it in (self.replica(), done(["submit", *self.words, "-"], b"\2\0"), done(["log", *self.words, "set", "--every", "7"])):
            self.assertEqual(it.returncode, 4, it.stderr)
            self.assertIn(b"take a newer one", it.stderr)
        shown = done(["log", *self.words, "show"])
        self.assertEqual(shown.returncode, 0, shown.stderr)
        self.assertIn(f"protocol: {PROTOCOL + 1}, and this program knows those up to {PROTOCOL}".encode(), shown.stdout)

    def test_fields_that_are_not_known_are_kept_and_told(self) -> None:
        log = made_log(self.store, more={"colour": "red"})
        self.assertEqual(done(["log", *self.words, "set", "--every", "7"]).returncode, 0)
        self.assertEqual((log.settings().every, log.settings().more), (7, {"colour": "red"}))
        self.assertIn(b'unknown to this program: colour: "red"\n', done(["log", *self.words, "show"]).stdout)

    def test_what_stands_there_by_hand_is_a_fault_of_one_line(self) -> None:
        log = made_log(self.store)
        log.etcd.put(log.keys.cleared, b"abc")
        for it in (self.replica(), done(["log", *self.words, "show"]), done(["log", *self.words, "clear"])):
            self.assertEqual(it.returncode, 1)
            self.assertNotIn(b"Traceback", it.stderr)

    def test_who_may_not_do_what_it_has_to_ends_for_a_person(self) -> None:
        made_log(self.store)
        self.node.refusal = {"code": 7, "message": "etcdserver: permission denied"}
        it = self.replica()
        self.assertEqual((it.returncode, it.stderr), (4, b"replica: stops: etcdserver: permission denied\n"))
