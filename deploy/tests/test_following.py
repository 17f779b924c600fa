import os
import shutil
import tempfile
import threading
import unittest
from typing import Any, Dict, List, Optional

from ledgerlog import comparing, following, program, status
from ledgerlog.chains import told_in
from ledgerlog.comparing import Comparing
from ledgerlog.errors import Differs, NeedsPerson, OtherHistory
from ledgerlog.final import Final, Walk
from ledgerlog.following import Plan, Replica
from ledgerlog.keys import LINES, PROGRAM, SAVED, TOLD, VOTE, numbered
from ledgerlog.log import Log
from ledgerlog.requests import after
from ledgerlog.saves import SOCKET, Saves
from ledgerlog.settings import Past
from ledgerlog.status import Asked, Status, ask
from ledgerlog.votes import Vote

from .store import LOG_ID, PATIENCE, SET, STAND_IN, Store, fill, for_now, made_log, put_vote, run, script, until, votes_of

class Running:
    """A replica in a thread, over a store in memory and the stand-in."""

    def __init__(self, log: Log, folder: str, name: str, is_again: bool = False, program: str = STAND_IN) -> None:
        self.saves = Saves(folder)
        self.status = Status(name)
        self.asked = Asked(self.saves.path(SOCKET), self.status)
        self.replica = Replica(log, self.saves, Plan(name, program, 1000.0), self.status, self.asked)
        self.told: List[str] = []
        self.error: Optional[Exception] = None
        setattr(self.replica, "tell", self.told.append)
        self.thread = threading.Thread(target=self.work, args=(is_again,), daemon=True)
        self.thread.start()

    def work(self, is_again: bool) -> None:
        try:
            self.replica.run(is_again)
        except Exception as error:  # noqa: BLE001
            self.error = error
        finally:
            self.asked.close()
            self.saves.close()

    def stop(self) -> None:
        self.replica.stop()
        self.ends()

    def ends(self) -> Optional[Exception]:
        self.thread.join(PATIENCE)
        if self.thread.is_alive():
            raise AssertionError("it doesn't end")
        return self.error

    def says(self, text: str) -> bool:
        return any(text in one for one in self.told)


class OverStandIn(unittest.TestCase):
    """Replicas over a store in memory."""

    protocol = 2

    def setUp(self) -> None:
        for_now(self, following, REST=0.0)
        # Where a machine is busy all the time, a nice program never has its turn, and a log that was just read was read long ago.
        for_now(self, program, NICE=())
        for_now(self, status, FRESH_SECONDS=PATIENCE)
        holder = tempfile.TemporaryDirectory()
        self.addCleanup(holder.cleanup)
        self.folder = holder.name
        self.store = Store()
        self.log = made_log(self.store, protocol=self.protocol)
        self.running: Dict[str, Running] = {}
        self.addCleanup(self.stop_all)

    def stop_all(self) -> None:
        for one in self.running.values():
            one.stop()

    def path(self, name: str) -> str:
        return os.path.join(self.folder, name)

    def start(self, name: str = "a", **given: Any) -> Running:
        log = type(self.log)(self.store, "L")
        self.running[name] = Running(log, self.path(name), name, **given)
        return self.running[name]

    def build(self, name: str, words: str) -> str:
        """Another build of the stand-in."""
        return script(self.path(name), f'{words} exec {STAND_IN} "$@"')

    def lines(self, number: int, name: str = "a") -> Optional[bytes]:
        """The lines on which a replica has voted."""
        settings = self.log.settings()
        if settings.is_chaining() and number > settings.chained:
            return lines_by_chain(self.log, number, name)
        return self.store.get(self.log.keys.vote(name, LINES, number))

    def answered(self, number: int, *names: str) -> None:
        until(lambda: all(self.lines(number, name) for name in names or ("a",)))

    def three(self, count: int) -> None:
        for name in SET:
            self.start(name)
        fill(self.log, count)
        self.answered(count, *SET)

    def saved_at(self, number: int, *names: str) -> None:
        until(lambda: all(any(save.number == number for save in self.running[name].saves.all()) for name in names))


def lines_by_chain(log: Log, number: int, name: str) -> Optional[bytes]:
    """The lines of a record on the chain that a replica is on, whoever told them; None where it hasn't voted on the record."""
    final = Final(log.etcd, log.keys, log.settings())
    votes = final.votes()
    if name not in votes:
        return None
    walk = Walk({name: votes[name]}, range(number, number + 1))
    for one in final.replicas:
        prefix = log.keys.by(one, TOLD)
        for told in sorted(filter(None, map(told_in, log.etcd.range(prefix, after(prefix), 0).entries))):
            walk.take(told)
    return next((chain.lines.get(number) for chain in walk.chains if chain.on.get(name, 0) >= number), None)


class Following(OverStandIn):
    def test_three_answer_alike_and_save_at_the_same_numbers(self) -> None:
        self.three(9)
        self.assertEqual(len({self.lines(9, name) for name in SET}), 1)
        self.saved_at(8, *SET)
        self.assertEqual(len(votes_of(self.log, "a").of(SAVED, 8)), 3)

    def test_a_stopped_replica_goes_on_with_the_same_lines(self) -> None:
        self.start()
        fill(self.log, 6)
        self.answered(6)
        self.running["a"].stop()
        fill(self.log, 3)
        self.start()
        self.answered(9)
        other = self.start("b")
        self.answered(9, "b")
        self.assertEqual([self.lines(number) for number in range(1, 10)], [self.lines(number, "b") for number in range(1, 10)])
        self.assertFalse(other.replica.comparing.differing)

    def test_a_save_with_a_flipped_bit_is_set_aside_and_the_one_before_taken(self) -> None:
        self.three(9)
        self.saved_at(8, "a")
        for name in SET:
            self.running[name].stop()
        newest = self.running["a"].saves.all()[0]
        self.assertEqual(newest.number, 9)
        with open(newest.path, "r+b") as file:
            file.seek(7)
            byte = file.read(1)
            file.seek(7)
            file.write(bytes([byte[0] ^ 1]))
        again = self.start("a")
        until(lambda: again.says("isn't believed"))
        until(lambda: os.path.exists(newest.path + ".refused"))
        fill(self.log, 1)
        self.start("b")
        self.answered(10, "a", "b")
        self.assertEqual(self.lines(10), self.lines(10, "b"))

    def test_where_no_save_is_believed_the_log_is_answered_from_its_start(self) -> None:
        self.three(9)
        self.saved_at(8, "a")
        for name in SET:
            self.running[name].stop()
        saves = self.running["a"].saves.all()
        for save in saves:
            with open(save.path, "ab") as file:
                file.write(b"0")
        again = self.start("a")
        until(lambda: again.status.answered == 9)
        self.assertEqual(len([one for one in again.told if "isn't believed" in one]), len(saves))
        self.assertFalse(again.replica.comparing.held)

    def test_a_wrong_program_differs_and_stays_stopped_without_a_word(self) -> None:
        self.start("a", program=self.build("wrong", "STAND_IN_WRONG=6"))
        self.start("b")
        self.start("c")
        fill(self.log, 7)
        self.answered(7, "b", "c")
        error = self.running["a"].ends()
        self.assertIsInstance(error, Differs)
        self.assertIn("the lines of record 6", str(error))
        self.assertTrue(self.running["b"].thread.is_alive() and self.running["c"].thread.is_alive())
        saves = Saves(self.path("a"))
        saves.stop(str(error))
        saves.close()
        self.assertRegex(str(self.start("a").ends()), "stopped here before: the lines of record 6.*--again")
        again = self.start("a", is_again=True)
        self.answered(7)
        until(lambda: self.lines(7) == self.lines(7, "b") and not again.replica.comparing.held)

    def forge(self) -> None:
        for number in (3, 4):
            put_vote(self.log, "a", LINES, number, b"%d forged\n" % number)

    def test_wrong_lines_in_its_name_stop_nobody(self) -> None:
        self.forge()
        self.three(8)
        until(lambda: self.lines(3) == self.lines(3, "b") and self.lines(4) == self.lines(4, "b"))
        self.assertTrue(all(one.thread.is_alive() for one in self.running.values()))

    def test_builds_that_save_in_another_form_are_exchanged_one_by_one(self) -> None:
        self.three(4)
        self.saved_at(4, *SET)
        new = self.build("new", "STAND_IN_FORM=MVL3 STAND_IN_VERSION=2")
        for last, name in zip((8, 12, 16), "cba"):
            self.running[name].stop()
            self.start(name, program=new)
            fill(self.log, 4)
            self.answered(last, *SET)
            self.saved_at(last, *SET)
        votes = votes_of(self.log, "a")
        self.assertEqual([len(set(votes.of(SAVED, number).values())) for number in (4, 8, 12, 16)], [1, 2, 2, 1])
        self.assertEqual([one.replica.comparing.differing for one in self.running.values()], [{}, {}, {}])
        self.assertTrue(all(votes.newest(name, PROGRAM)[0].value.startswith(b"2 sha256:") for name in SET))

    def test_what_is_no_record_is_skipped_by_all(self) -> None:
        self.three(2)
        self.store.put(self.log.keys.record(3), b"junk")
        self.store.put(self.log.keys.last, numbered(3))
        fill(self.log, 1)
        self.answered(4, *SET)
        self.assertEqual({self.lines(3, name) for name in SET}, {b"3 skipped form\n"})

    def test_a_folder_of_another_log_is_said_to_be_one(self) -> None:
        self.start()
        fill(self.log, 4)
        self.answered(4)
        self.running["a"].stop()
        self.store.forget()
        self.log = made_log(self.store, protocol=self.protocol)
        self.store.put(self.log.keys.log, self.log.settings()._replace(id="f" * 32).text())
        error = self.start().ends()
        self.assertIsInstance(error, OtherHistory)
        self.assertIn(f"was made of the log {LOG_ID}", str(error))

    def test_a_ledger_that_is_ahead_stops_when_it_starts_and_while_it_runs(self) -> None:
        self.start()
        fill(self.log, 4)
        self.answered(4)
        self.saved_at(4, "a")
        self.store.put(self.log.keys.last, numbered(2))
        self.assertRegex(str(self.running["a"].ends()), "ahead of the log: it has answered record 4, and the log ends with 2")
        self.assertRegex(str(self.start().ends()), "ahead of the log, which ends with record 2")

    def test_a_log_that_is_made_anew_under_a_running_replica_stops_it(self) -> None:
        running = self.start()
        fill(self.log, 2)
        self.answered(2)
        self.store.put(self.log.keys.log, self.log.settings()._replace(id="f" * 32).text())
        self.assertRegex(str(running.ends()), "is the log f+ now")

    def test_nodes_that_were_made_anew_under_a_running_replica_stop_it(self) -> None:
        for name, text in (("a", "made anew while this replica ran"), ("b", "made anew while this replica ran")):
            running = self.start(name)
            fill(self.log, 2)
            self.answered(self.log.last(), name)
            if name == "a":
                with self.store.lock:
                    self.store.revision //= 2
            else:
                self.store.cluster = "another"
            self.assertRegex(str(running.ends()), text)

    def test_a_restored_log_keeps_the_saves_up_to_there(self) -> None:
        self.start()
        fill(self.log, 6)
        self.answered(6)
        self.running["a"].stop()
        settings = self.log.settings()
        self.store.put(self.log.keys.log, settings._replace(id="e" * 32, past=(Past(LOG_ID, 5),)).text())
        self.store.put(self.log.keys.last, numbered(5))
        again = self.start()
        until(lambda: again.says("goes on behind record 6 of a log that was restored"))
        until(lambda: again.status.saved == 4)
        self.assertTrue(os.path.exists(os.path.join(self.path("a"), f"ledger-{6:016d}-{LOG_ID}.refused")))

    def test_one_outside_the_set_follows_and_puts_nothing(self) -> None:
        self.three(5)
        self.saved_at(4, *SET)
        other = self.start("other")
        until(lambda: other.status.answered == 5)
        self.assertGreater(self.store.count(b"L/by/a/"), 0)
        self.assertEqual(self.store.count(b"L/by/other/"), 0)

    def test_one_outside_the_set_believes_what_it_saved_and_nothing_else(self) -> None:
        other = self.start("other")
        fill(self.log, 6)
        until(lambda: other.status.answered == 6 and other.status.saved == 4)
        with open(other.saves.all()[0].path, "ab") as file:
            file.write(b"0")
        os.kill(other.status.program_id, 9)
        until(lambda: other.says("isn't believed"))
        until(lambda: other.status.restarts == 1 and other.status.saved == 4)

    def test_a_killed_program_is_started_again(self) -> None:
        running = self.start()
        fill(self.log, 6)
        self.answered(6)
        os.kill(running.status.program_id, 9)
        until(lambda: running.status.restarts == 1)
        fill(self.log, 1)
        self.answered(7)
        self.assertTrue(running.says("was killed by signal 9"))

    def test_questions_are_answered_between_records(self) -> None:
        self.start()
        fill(self.log, 3)
        self.answered(3)
        path = os.path.join(self.path("a"), SOCKET)
        self.assertEqual(ask(path, "show"), b"3 at 00 3\n3 end 1\n")
        self.assertIn(b"answered: 3\nbehind: 0\n", ask(path, "status"))
        self.assertIn(b'moveledger_records_answered{replica="a"} 3\n', ask(path, "metrics"))
        self.assertIn(b"no such question", ask(path, run(7).hex()))
        self.assertEqual(ask(path, "show"), b"3 at 00 3\n3 end 1\n")
        self.assertEqual(self.log.last(), 3)
        self.assertEqual(os.stat(path).st_mode & 0o777, 0o660)

    def test_a_full_log_is_waited_for(self) -> None:
        for_now(self, following, FULL_SECONDS=0.05)
        running = self.start()
        fill(self.log, 1)
        self.answered(1)
        fill(self.log, 1)
        self.store.is_full = True
        self.store.forget(self.log.keys.vote("a", LINES, 2), self.log.keys.own("a", VOTE))
        running.stop()
        self.store.is_full = False
        again = self.start()
        self.answered(2)
        self.assertTrue(again.thread.is_alive())

    def test_a_good_save_that_cannot_be_read_stays(self) -> None:
        self.start()
        fill(self.log, 6)
        self.answered(6)
        self.running["a"].stop()
        newest = self.running["a"].saves.all()[0]
        shutil.move(newest.path, self.path("kept"))
        os.mkdir(newest.path)
        again = self.start()
        until(lambda: again.says("can't be read"))
        until(lambda: again.status.answered == 6)
        self.assertTrue(os.path.isdir(newest.path))

    def test_a_program_that_refuses_a_good_save_is_the_wrong_one(self) -> None:
        self.start()
        fill(self.log, 4)
        self.answered(4)
        self.saved_at(4, "a")
        self.running["a"].stop()
        old = script(self.path("old"), "echo 'load refused 1'\nexit 3")
        error = self.start(program=old).ends()
        self.assertIsInstance(error, NeedsPerson)
        self.assertRegex(str(error), "the program refuses .* whose digest is the one that the log has")
        self.assertEqual(len(self.running["a"].saves.all()), 1)


class SetAlone(unittest.TestCase):
    def test_kept_values_are_bounded(self) -> None:
        for_now(self, comparing, KEPT=5)
        one = Comparing(votes_of(made_log(Store()), "a"), print)
        for number in range(1, 20):
            one.put(LINES, [Vote(number, b"x")])
        self.assertEqual(list(one.made[LINES]), [15, 16, 17, 18, 19])
