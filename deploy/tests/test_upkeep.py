import os
import tempfile
import unittest
from typing import Dict, List, Tuple

from ledgerlog.backups import counted
from ledgerlog.clearing import Size, alarms_of, defragment, disarm, full_ones, lasting, make_room
from ledgerlog.errors import LogError
from ledgerlog.etcd import Access, Etcd
from ledgerlog.keys import Keys
from ledgerlog.log import Log
from ledgerlog.requests import Body
from ledgerlog.users import change_passwords, make_user

from .served import Served
from .store import PATIENCE, Store, fill, made_log
from .test_etcd import GOOD, OverNodes


class Asked(Store):
    """A store that notes what else it is asked, and fails at one of these."""

    def __init__(self, sizes: Tuple[int, int] = (0, 0), fails_at: int = -1) -> None:
        super().__init__()
        self.sizes = sizes
        self.fails_at = fails_at
        self.asked: List[Tuple[str, Body]] = []

    def ask(self, path: str, body: Body) -> Body:
        if path == "/v3/maintenance/status":
            return {"dbSize": str(self.sizes[0]), "dbSizeInUse": str(self.sizes[1])}
        if len(self.asked) == self.fails_at:
            raise LogError("no")
        self.asked.append((path, body))
        return {}


class Alarmed(Store):
    """A store whose nodes raise alarms, the next ones when those before are disarmed."""

    def __init__(self, *raised: List[str]) -> None:
        super().__init__()
        self.raised = [set(names) for names in raised]

    def ask(self, path: str, body: Body) -> Body:
        there = self.raised[0] if self.raised else set()
        if body["action"] == "GET":
            return {"alarms": [{"memberID": name, "alarm": "NOSPACE"} for name in sorted(there)]} if there else {}
        there.remove(body["memberID"])
        if not there:
            self.raised.pop(0)
        return {}


class Maintained(Store):
    """A store whose node is full and damaged, and holds three times what it uses."""

    def __init__(self) -> None:
        super().__init__()
        self.alarms = ["CORRUPT", "NOSPACE"]
        self.asked: List[Tuple[str, Body]] = []

    def ask(self, path: str, body: Body) -> Body:
        if path == "/v3/kv/compaction" or path.endswith("/defragment"):
            self.asked.append((path, body))
            return {}
        if path == "/v3/maintenance/status":
            return {"dbSize": "300", "dbSizeInUse": "100"}
        if path == "/v3/maintenance/alarm":
            if body["action"] == "DEACTIVATE":
                self.alarms.remove(body["alarm"])
            return {"alarms": [{"memberID": "1", "alarm": name} for name in self.alarms]}
        return super().ask(path, body)


class Room(unittest.TestCase):
    def test_room_is_made_and_it_is_said_what_was_done(self) -> None:
        store = Maintained()
        node = Served(store)
        self.addCleanup(node.close)
        fill(made_log(store), 3)
        etcd = Etcd([node.address], PATIENCE)
        self.addCleanup(etcd.close)
        self.assertEqual(make_room(Log(etcd, "L")), f"{node.address} has 300 bytes, and had 300; 1 alarms are disarmed; the alarm CORRUPT stays")
        self.assertEqual(store.asked, [("/v3/kv/compaction", {"revision": str(store.revision), "physical": True}),
                                       ("/v3/maintenance/defragment", {})])

    def test_an_alarm_that_a_slow_node_raises_later_is_disarmed_too(self) -> None:
        cases: List[List[List[str]]] = [[], [["1", "2"]], [["1"], ["2", "3"]]]
        for raised in cases:
            store = Alarmed(*raised)
            self.assertEqual((disarm(store), store.raised), (sum(map(len, raised)), []))
        self.assertLess(disarm(Alarmed(*[["1"]] * 100)), 100)

    def test_only_the_alarm_that_the_log_is_full_is_disarmed(self) -> None:
        class Damaged(Alarmed):
            def ask(self, path: str, body: Body) -> Body:
                answer = super().ask(path, body)
                damage: Body = {"memberID": "7", "alarm": "CORRUPT"}
                return {"alarms": [damage, *answer.get("alarms", [])]} if body["action"] == "GET" else answer

        store = Damaged(["1"], ["2"])
        self.assertEqual((disarm(store), store.raised), (2, []))
        self.assertEqual(disarm(Damaged()), 0)
        alarms = alarms_of(Damaged(["1", "2"]))
        self.assertEqual([one["memberID"] for one in full_ones(alarms)], ["1", "2"])
        self.assertEqual(lasting([*alarms, *alarms]), ["the alarm CORRUPT stays"])
        self.assertEqual(lasting(full_ones(alarms)), [])

    def test_a_node_stands_still_only_for_what_is_worth_it(self) -> None:
        self.assertTrue(Size(200, 100).is_loose())
        self.assertFalse(Size(199, 100).is_loose())
        for sizes, is_full, count in (((300, 100), False, 1), ((150, 100), False, 0), ((150, 100), True, 1)):
            node = Asked(sizes)
            defragment(node, is_full)
            self.assertEqual([path for path, _ in node.asked], ["/v3/maintenance/defragment"] * count)


class Passwords(OverNodes):
    def setUp(self) -> None:
        super().setUp()
        holder = tempfile.TemporaryDirectory()
        self.addCleanup(holder.cleanup)
        self.folder = holder.name

    def path(self, user: str) -> str:
        return os.path.join(self.folder, f"{user}.password")

    def write(self, user: str, text: str) -> str:
        with open(self.path(user), "w", encoding="ascii") as file:
            file.write(text + "\n")
        return self.path(user)

    def read(self, user: str) -> str:
        with open(self.path(user), encoding="ascii") as file:
            return file.read().strip()

    def test_those_in_the_folder_are_changed_and_root_is_the_last(self) -> None:
        for user in ("root", "L-keeper", "L-by-a", "M-keeper"):
            self.write(user, "old")
        etcd = Asked()
        self.assertEqual(change_passwords(etcd, Keys("L"), self.folder), ["L-by-a", "L-keeper", "root"])
        told: Dict[str, str] = {body["name"]: body["password"] for _, body in etcd.asked}
        self.assertEqual(told, {user: self.read(user) for user in ("root", "L-keeper", "L-by-a")})
        self.assertEqual(len(set(told.values()) | {"old"}), 4)

    def test_one_that_etcd_does_not_take_is_kept_and_tried_again(self) -> None:
        self.write("L-keeper", "old")
        with self.assertRaises(LogError):
            change_passwords(Asked(fails_at=0), Keys("L"), self.folder)
        self.assertEqual(self.read("L-keeper"), "old")
        with open(self.path("L-keeper") + ".new", encoding="ascii") as file:
            new = file.read().strip()
        change_passwords(Asked(), Keys("L"), self.folder)
        self.assertEqual(self.read("L-keeper"), new)

    def test_a_user_whose_making_was_answered_late_is_made_once(self) -> None:
        rows: List[Tuple[List[str], bool]] = [([], True), (["x"], False)]
        for roles, is_made in rows:
            path = self.path(f"user{len(roles)}")
            etcd = Asked()
            real = etcd.ask

            def there(asked: str, body: Body, roles: List[str] = roles) -> Body:
                real(asked, body)
                if asked.endswith("user/add"):
                    raise LogError("etcdserver: user name already exists")
                return {"roles": roles}

            setattr(etcd, "ask", there)
            if is_made:
                make_user(etcd, "x", path)
                self.assertEqual(etcd.asked[-1][0], "/v3/auth/user/changepw")
                self.assertEqual(etcd.asked[-1][1]["password"], self.read("user0"))
            else:
                with self.assertRaisesRegex(LogError, "already exists"):
                    make_user(etcd, "x", path)
            self.assertEqual(os.path.exists(path), is_made)

    def test_a_password_that_changes_is_read_again(self) -> None:
        path = self.write("me", "old")
        node = self.node((400, {"code": 3, "message": "etcdserver: authentication failed, invalid user ID or password"}),
                         (200, {"token": "one"}), GOOD)
        client = self.client(node, access=Access(user="me", password_file=path))
        ask_node = client.ask_node

        def and_change(*given: object) -> Body:
            try:
                return ask_node(*given)  # type: ignore[arg-type]
            finally:
                self.write("me", "new")

        setattr(client, "ask_node", and_change)
        self.assertIsNone(client.get(b"x"))
        self.assertEqual([body.get("password") for path, body, _ in node.asked if "authenticate" in path], ["old", "new"])


class Counted(unittest.TestCase):
    def test_a_backup_without_a_record_is_none(self) -> None:
        log = made_log(Store())
        fill(log, 30)
        log.etcd.put(log.keys.cleared, b"4")
        log.etcd.delete(log.keys.record(1), log.keys.record(5))
        self.assertIn("all records from 5 to 30", counted(log))
        log.etcd.delete(log.keys.record(20), log.keys.record(21))
        with self.assertRaisesRegex(LogError, "has no record 20"):
            counted(log)
