import io
import os
import pickle
import shutil
import socket
import subprocess
import tempfile
import unittest
from contextlib import contextmanager, redirect_stdout
from typing import Any, Callable, Dict, Iterator, List, Optional, Sequence

from ledgerlog import backups, fetching, saves
from ledgerlog.backups import backups_in, drilled, failure_in, ledgers_in, new_name, taken, workplace
from ledgerlog.clearing import Clearing
from ledgerlog.errors import LogError, ProgramEnded
from ledgerlog.etcd import Access
from ledgerlog.fetching import Giving
from ledgerlog.keys import AT, SAVED
from ledgerlog.log import Log
from ledgerlog.saves import SavedVote, name_of, saves_in, vote_on
from ledgerlog.settings import Past, Settings

from .served import Served
from .store import LOG_ID, PATIENCE, SET, STAND_IN, Store, fill, for_now, put_vote, script, until
from .test_commands import DEPLOY, done
from .test_fetching import Lying, wrong
from .test_following import OverStandIn

JOURNAL = '{"level":"info","msg":"restoring snapshot"}'


def restored_store(path: str) -> Store:
    """What a node has that was made from a snapshot."""
    store = Store()
    with open(path, "rb") as file:
        store.there, store.revision = pickle.load(file)
    return store


@contextmanager
def served_node(backup: str, place: str) -> Iterator[str]:
    """In a node's place, a store with what a backup has."""
    node = Served(restored_store(backup))
    try:
        yield node.address
    finally:
        node.close()


class WithBackups(OverStandIn):
    """Replicas over a store in memory, of which etcd's command takes snapshots."""

    protocol = 4

    def setUp(self) -> None:
        super().setUp()
        for_now(self, backups, etcdctl=self.etcdctl, node_of=served_node, PAUSES=(0.0,), START_SECONDS=PATIENCE)
        for_now(self, fetching, SILENT_SECONDS=PATIENCE)
        for_now(self, saves, LOCK_SECONDS=0.05)
        times = iter(range(10, 60))
        for_now(self, backups, new_name=lambda _: f"log-20260101T0000{next(times)}Z")
        self.there = self.path("backups")
        self.told: List[str] = []
        for_now(self, backups.Taking, tell=lambda _, text: self.told.append(text))
        # What happens before each snapshot; how old each is, and why none is taken.
        self.before: List[Callable[[], Any]] = []
        self.lag: List[int] = []
        self.fault: Optional[str] = None

    def etcdctl(self, words: Sequence[str], access: Access = Access()) -> str:
        """What etcd's own command does, over the store."""
        self.assertEqual(words[0], "snapshot")
        if words[1] == "save":
            if self.before:
                self.before.pop(0)()
            with self.store.lock, open(words[2], "wb") as file:
                pickle.dump((self.store.there, self.store.revision - (self.lag.pop(0) if self.lag else 0)), file)
            if self.fault is not None:
                raise LogError(self.fault)
            return ""
        self.assertEqual(words[1], "status")
        return '{"revision":%d}' % restored_store(words[2]).revision

    def gives(self, *names: str) -> None:
        for name in names:
            made = Giving("127.0.0.1", 0, self.path(name))
            self.addCleanup(made.close)
            self.store.put(self.log.keys.own(name, AT), made.address.encode())

    def agreed(self, number: int) -> None:
        """Two have saved behind a record, and the log is cleared up to there."""
        for name in "ab":
            os.makedirs(self.path(name), exist_ok=True)
            path = os.path.join(self.path(name), name_of(number, LOG_ID))
            with open(path, "wb") as file:
                file.write(b"MVL2 %d x" % number)
            put_vote(self.log, name, SAVED, number, SavedVote(vote_on(path), bytes(32), os.path.getsize(path)).value())
        self.assertEqual(Clearing(self.log, 0).run().upto, number)

    def cleared(self, *names: str) -> None:
        """A log that was cleared, of which these give their saves."""
        fill(self.log, 9)
        self.agreed(8)
        self.gives(*names)

    def go_on(self) -> None:
        """More is put, saved and cleared."""
        fill(self.log, 8)
        self.agreed(16)

    def cleared_by_replicas(self) -> None:
        """A log that was cleared behind a save that two replicas have made."""
        for name in "ab":
            self.start(name)
        fill(self.log, 9)
        self.answered(9, "a", "b")
        self.saved_at(8, "a", "b")
        self.assertEqual(Clearing(self.log, 0).run().upto, 8)
        self.gives("a")

    def take(self, keep: int = 9, ledger: Optional[str] = None) -> str:
        """Takes a backup, and gives its name without the end."""
        before = set(backups_in(self.there)) if os.path.isdir(self.there) else set()
        taken(self.log, self.there, keep, ledger)
        made, = set(backups_in(self.there)) - before
        return os.path.join(self.there, made[:-3])

    def saves_of(self, backup: str, ledger: str = "L") -> List[int]:
        path = f"{backup}-{ledger}"
        return [save.number for save in saves_in(path)] if os.path.isdir(path) else []


class Taken(WithBackups):
    def test_a_backup_of_a_log_that_was_cleared_brings_the_ledger_back(self) -> None:
        self.cleared_by_replicas()
        backup = self.take()
        self.assertEqual(self.saves_of(backup), [8])
        self.assertIn("with all records from 9 to 9, and the save behind record 8", drilled(self.there))
        lines = self.lines(9)
        fill(self.log, 8)
        self.answered(17, "a", "b")
        self.saved_at(16, "a", "b")
        self.stop_all()
        # All is lost, but for what the replicas saved since.
        self.store = restored_store(backup + ".db")
        self.log = Log(self.store, "L")
        node = Served(self.store)
        self.addCleanup(node.close)
        told = done(["log", *node.words(), "restored"])
        self.assertIn(b": goes on behind record 9 of " + LOG_ID.encode(), told.stdout)
        self.assertIn(b"one of them has to have the save that stands beside the backup", told.stderr)
        told = done(["snapshot", *node.words(), backup + "-L", self.path("a")])
        self.assertEqual((told.returncode, told.stdout), (0, b"8\n"))
        self.start("a")
        until(lambda: self.running["a"].says("up to its end, record 9"))
        self.gives("a")
        for name in "bc":
            self.start(name)
        fill(self.log, 3)
        self.answered(12, *SET)
        self.assertEqual([self.lines(9, name) for name in SET], [lines] * 3)

    def test_where_nothing_was_cleared_no_save_is_needed(self) -> None:
        fill(self.log, 9)
        backup = self.take()
        self.assertEqual(os.listdir(self.there).count(os.path.basename(backup) + ".db"), 1)
        self.assertEqual(self.saves_of(backup), [])
        self.assertTrue(drilled(self.there).endswith(f"the log {LOG_ID} of L is there with all records from 1 to 9"))

    def test_without_a_save_it_is_not_whole_and_no_other_one_goes(self) -> None:
        self.cleared("a")
        before = self.take()
        self.store.forget(self.log.keys.own("a", AT))
        shutil.rmtree(before + "-L")
        with self.assertRaisesRegex(LogError, r"isn't whole: the log of L was cleared up to record 8, and no replica of the set says where it "):
            self.take(keep=1)
        self.assertEqual(len(backups_in(self.there)), 2)
        with self.assertRaisesRegex(LogError, "with all records from 9 to 9, but it isn't whole: no save stands beside it"):
            drilled(self.there)

    def test_a_save_that_nobody_gives_or_has_agreed_on_is_told(self) -> None:
        self.cleared()
        lying = Lying(lambda handler: handler.send_error(404))
        self.addCleanup(lying.close)
        self.store.put(self.log.keys.own("c", AT), lying.address.encode())
        with self.assertRaisesRegex(LogError, "none of c gives a save from there on that a majority has voted for"):
            self.take()
        self.store.forget(self.log.keys.vote("a", SAVED, 8))
        with self.assertRaisesRegex(LogError, "no majority has voted for a save from there on"):
            self.take()

    def test_one_that_is_down_or_gives_another_save_costs_nothing(self) -> None:
        self.cleared("b")
        with socket.socket() as closed:
            closed.bind(("127.0.0.1", 0))
            self.store.put(self.log.keys.own("a", AT), f"127.0.0.1:{closed.getsockname()[1]}".encode())
            self.assertEqual(self.saves_of(self.take()), [8])
        lying = Lying(wrong)
        self.addCleanup(lying.close)
        self.store.put(self.log.keys.own("a", AT), lying.address.encode())
        self.assertEqual(self.saves_of(self.take()), [8])
        self.assertTrue(any("it is thrown away" in text for text in self.told))

    def test_the_save_of_an_earlier_backup_is_taken_where_no_replica_gives_it(self) -> None:
        self.cleared("a")
        first = self.take()
        self.store.forget(self.log.keys.own("a", AT))
        second = self.take()
        self.assertEqual((self.saves_of(first), self.saves_of(second)), ([8], [8]))
        # Not one that is another save by now, or can't be read.
        with open(saves_in(first + "-L")[0].path, "ab") as file:
            file.write(b"x")
        path = saves_in(second + "-L")[0].path
        os.remove(path)
        os.mkdir(path)
        with self.assertRaisesRegex(LogError, "isn't whole"):
            self.take()

    def test_what_is_cleared_meanwhile_is_taken_anew(self) -> None:
        self.cleared("a", "b")
        self.before = [self.go_on]
        backup = self.take()
        self.assertEqual(self.saves_of(backup), [16])
        self.assertIn("with all records from 17 to 17, and the save behind record 16", drilled(self.there))
        self.assertIn("a log was cleared or changed meanwhile: takes it anew", self.told)

    def test_settings_that_change_meanwhile_are_looked_at_anew(self) -> None:
        fill(self.log, 2)
        settings = self.log.settings()
        self.before = [lambda: self.store.put(self.log.keys.log, settings.text())] * backups.MOST_TRIES
        with self.assertRaisesRegex(LogError, "cleared or changed while a backup was taken"):
            self.take()
        self.before = self.before[:1]
        self.take()

    def test_a_node_that_is_behind_is_not_taken_for_the_log(self) -> None:
        fill(self.log, 2)
        setattr(self.store.nodes, "addresses", ["one:1", "two:1"])
        self.lag = [1]
        self.take()
        self.lag = [1, 1]
        with self.assertRaisesRegex(LogError, "two:1 is behind the other nodes"):
            self.take()

    def test_each_ledger_of_a_log_has_its_own_save_or_the_one_that_is_named(self) -> None:
        self.cleared("a")
        other = Log(self.store, "a-b")
        self.store.put(other.keys.log, Settings("e" * 32, SET, protocol=4, hours=0).text())
        fill(other, 3)
        self.store.put(b"stray", b"")
        self.store.put(b"L0/x", b"")
        self.assertEqual(ledgers_in(self.store), ["L", "a-b"])
        backup = self.take()
        self.assertEqual((self.saves_of(backup), self.saves_of(backup, "a-b")), ([8], []))
        self.assertRegex(drilled(self.there), "of L is there.* save behind record 8; the log e{32} of a-b is there with all records from 1 to 3")
        self.assertNotIn("of L", drilled(self.there, "a-b"))
        self.assertEqual(self.saves_of(self.take(ledger="a-b")), [])
        with self.assertRaisesRegex(LogError, "there is no log of the ledger none"):
            self.take(ledger="none")

    def test_the_oldest_go_with_their_saves(self) -> None:
        self.cleared("a")
        made = [self.take(keep=2) for _ in range(4)]
        self.assertEqual([os.path.exists(one + ".db") for one in made], [False, False, True, True])
        self.assertEqual([self.saves_of(one) for one in made], [[], [], [8], [8]])

    def test_what_was_left_halfway_goes_and_is_no_backup(self) -> None:
        self.cleared("a")
        os.makedirs(os.path.join(self.there, "unfinished", "L"))
        for left in ("unfinished/log.db", "unfinished/L/ledger", "log-20260101T000000Z.db.unfinished",
                     "log-20260101T000000Z.db.unfinished.part"):
            with open(os.path.join(self.there, left), "wb"):
                pass
        os.mkdir(os.path.join(self.there, "log-20260101T000000Z-L"))
        self.assertEqual(backups_in(self.there), [])
        name = os.path.basename(self.take())
        self.assertEqual(sorted(os.listdir(self.there)), [f"{name}-L", f"{name}.db", "unfinished"])
        self.assertEqual(os.listdir(os.path.join(self.there, "unfinished")), [])

    def test_one_that_fails_leaves_nothing_and_the_others(self) -> None:
        self.cleared("a")
        self.take(keep=1)
        self.fault = "no space left on device"
        before = sorted(os.listdir(self.there))
        with self.assertRaisesRegex(LogError, "no space left"):
            self.take(keep=1)
        self.assertEqual(sorted(os.listdir(self.there)), before)
        self.assertEqual(os.listdir(os.path.join(self.there, "unfinished")), [])

    def test_two_at_once_do_not_get_in_each_others_way(self) -> None:
        fill(self.log, 2)
        os.makedirs(self.there)
        with workplace(self.there, "unfinished"), self.assertRaisesRegex(LogError, "another one is at work in .*unfinished"):
            self.take()
        self.take()
        with workplace(self.there, "drill"), self.assertRaisesRegex(LogError, "another one is at work in .*drill"):
            drilled(self.there)
        # A drill and a backup don't wait for each other.
        with workplace(self.there, "drill"):
            self.take()
        with workplace(self.there, "unfinished"):
            drilled(self.there)


class Drilled(WithBackups):
    def setUp(self) -> None:
        super().setUp()
        self.cleared("a")
        self.backup = self.take()

    def change(self, call: Callable[[Log], Any]) -> None:
        """Changes what the backup has."""
        store = restored_store(self.backup + ".db")
        call(Log(store, "L"))
        with open(self.backup + ".db", "wb") as file:
            pickle.dump((store.there, store.revision), file)

    def wrong(self, text: str, **given: Any) -> None:
        with self.assertRaisesRegex(LogError, text):
            drilled(self.there, **given)

    def test_a_save_is_compared_with_what_a_majority_has_voted_for(self) -> None:
        path = saves_in(self.backup + "-L")[0].path
        with open(path, "r+b") as file:
            file.write(b"MVL3")
        self.wrong("isn't the save that a majority has voted for")

    def test_a_save_of_which_the_log_knows_nothing_is_none(self) -> None:
        self.change(lambda log: log.etcd.delete(log.keys.vote("a", SAVED, 8), log.keys.vote("a", SAVED, 9)))
        self.wrong("isn't the save that a majority has voted for")

    def test_a_save_has_to_be_of_the_log_and_of_records_that_it_has(self) -> None:
        path = saves_in(self.backup + "-L")[0].path
        rows: List[Callable[[Log], Any]] = [lambda log: log.etcd.put(log.keys.cleared, b"9"),
                                            lambda log: log.etcd.put(log.keys.last, b"%016x" % 7),
                                            lambda log: log.etcd.put(log.keys.log, log.settings()._replace(id="e" * 32).text())]
        for call in rows:
            with open(self.backup + ".db", "rb") as file:
                before = file.read()
            self.change(call)
            self.wrong(f"{path} isn't of the log")
            with open(self.backup + ".db", "wb") as file:
                file.write(before)
        self.change(lambda log: log.etcd.put(log.keys.log, log.settings()._replace(id="e" * 32, past=(Past(LOG_ID, 8),)).text()))
        drilled(self.there)

    def test_a_save_from_before_a_record_was_skipped_is_none(self) -> None:
        self.change(lambda log: log.etcd.put(log.keys.log, log.settings()._replace(skips={8: "why"}).text()))
        self.wrong("was saved before a record of it was skipped")

    def test_a_record_that_is_missing_is_told(self) -> None:
        self.change(lambda log: log.etcd.delete(log.keys.record(9), log.keys.record(10)))
        self.wrong("has no record 9 of L")

    def test_a_folder_without_one_or_one_without_a_log_is_told(self) -> None:
        self.change(lambda log: log.etcd.delete(b"L/", b"L0"))
        shutil.rmtree(self.backup + "-L")
        self.wrong("has no log of any ledger")
        os.remove(self.backup + ".db")
        self.wrong("has no backup")


class Answered(WithBackups):
    def test_a_program_answers_what_is_there_from_the_save_on(self) -> None:
        self.cleared_by_replicas()
        self.take()
        self.stop_all()
        with redirect_stdout(io.StringIO()):
            self.assertIn("and the save behind record 8", drilled(self.there, program=STAND_IN))
            with self.assertRaisesRegex(LogError, "answers the records of L otherwise than the replicas did"):
                drilled(self.there, program=self.build("wrong", "STAND_IN_WRONG=9"))
        refuses = script(self.path("refuses"), 'echo "load refused 1"; exit 3')
        with self.assertRaisesRegex(ProgramEnded, "load refused 1"):
            drilled(self.there, program=refuses)


class Command(unittest.TestCase):
    def setUp(self) -> None:
        holder = tempfile.TemporaryDirectory()
        self.addCleanup(holder.cleanup)
        self.folder = holder.name

    def drill(self, says: str) -> "subprocess.CompletedProcess[bytes]":
        """Drills where etcdctl says this, and fails."""
        script(os.path.join(self.folder, "etcdctl"), f"echo '{says}' >&2; exit 1")
        os.makedirs(os.path.join(self.folder, "there"), exist_ok=True)
        with open(os.path.join(self.folder, "there", "log-20260101T000000Z.db"), "wb"):
            pass
        environment: Dict[str, str] = {**os.environ, "PATH": f"{self.folder}:{os.environ['PATH']}"}
        return subprocess.run([os.path.join(DEPLOY, "backup"), "--drill", os.path.join(self.folder, "there")], env=environment,
                              stdout=subprocess.PIPE, stderr=subprocess.PIPE, timeout=PATIENCE)

    def test_of_what_etcdctl_says_its_error_is_told(self) -> None:
        it = self.drill(f"{JOURNAL}\nError: expected sha256 [1], got [2]")
        self.assertEqual((it.returncode, it.stdout), (1, b""))
        self.assertEqual(it.stderr, b"backup: etcdctl snapshot restore ends with the status 1: Error: expected sha256 [1], got [2]\n")

    def test_no_two_have_one_name(self) -> None:
        first = new_name(self.folder)
        self.assertRegex(first, r"log-\d{8}T\d{6}Z")
        os.mkdir(os.path.join(self.folder, first + "-L"))
        self.assertGreater(new_name(self.folder), first)

    def test_where_it_says_no_error_its_last_line_is(self) -> None:
        self.assertEqual(failure_in(f"{JOURNAL}\nlast\n"), "last")
        self.assertEqual(failure_in("x\nfatal error: fault\ngoroutine 1"), "fatal error: fault")
        self.assertEqual(failure_in(""), "it doesn't say why")
