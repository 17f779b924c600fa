import tempfile
import unittest
from typing import Any, List

from ledgerlog import following
from ledgerlog.errors import LogError, RulesChanged, Unfit
from ledgerlog.keys import LINES, numbered
from ledgerlog.log import Offer
from ledgerlog.records import budget_of
from ledgerlog.requests import put
from ledgerlog.ruling import put_limit, skip_record
from ledgerlog.settings import Limit, Settings, settings_of
from ledgerlog.votes import Vote

from .served import Served
from .store import LOG_ID, SET, STAND_IN, Store, fill, for_now, made_log, put_vote, run, until, votes_of
from .test_commands import done
from .test_following import OverStandIn


def run_with_budget(budget: bytes) -> bytes:
    """A run of the right shape, without arguments."""
    payload = bytes(32) + b"\1M\4mint" + budget + b"\0"
    return b"\2" + bytes([len(payload)]) + payload


class Skipping(OverStandIn):
    def setUp(self) -> None:
        super().setUp()
        for_now(self, following, FIRST_PAUSE=0.01, MOST_PAUSE=0.2, MOST_RESTARTS=1_000_000)

    def skip(self, number: int, why: str = "too dear") -> None:
        skip_record(self.log, number, why)

    def test_a_record_that_no_program_can_take_is_named_and_can_be_skipped(self) -> None:
        fatal = self.build("fatal", f"STAND_IN_FATAL={run(6)[2:].hex()}")
        for name in SET:
            self.start(name, program=fatal)
        fill(self.log, 9)
        self.answered(5, *SET)
        until(lambda: all(one.status.stuck == 6 for one in self.running.values()))
        for one in self.running.values():
            until(lambda: one.says("has ended (the program ended with the status 1: fault: memory) at record 6"))
            self.assertEqual(dict(one.status.rows())["stuck at record"], "6")
            self.assertIn("moveledger_record_stuck", one.status.metrics())
        self.skip(6)
        self.answered(9, *SET)
        until(lambda: all(one.status.stuck == 0 for one in self.running.values()))
        self.assertEqual({self.lines(6, name) for name in SET}, {b"6 skipped asked\n"})
        self.assertEqual(len({self.lines(9, name) for name in SET}), 1)
        self.assertTrue(all(one.says("record 6 is skipped: asked (too dear)") for one in self.running.values()))

    def test_what_a_majority_has_answered_is_not_skipped(self) -> None:
        fill(self.log, 5)
        put_vote(self.log, "a", LINES, 3, b"x")
        put_vote(self.log, "b", LINES, 3, b"y")
        with self.assertRaisesRegex(LogError, "record 3 is answered by a, b"):
            self.skip(3)
        for number in 0, 6:
            with self.assertRaisesRegex(LogError, "has no record"):
                self.skip(number)
        self.skip(4)
        with self.assertRaisesRegex(LogError, "skipped already: too dear"):
            self.skip(4)
        self.assertEqual(self.log.settings().protocol, 3)

    def test_a_vote_that_comes_while_it_is_skipped_is_seen(self) -> None:
        fill(self.log, 5)
        real = self.store.done

        def and_vote(body: Any) -> Any:
            if any("request_put" in one for one in body["success"]):
                setattr(self.store, "done", real)
                put_vote(self.log, "b", LINES, 3, b"x")
            return real(body)

        setattr(self.store, "done", and_vote)
        with self.assertRaisesRegex(LogError, "a replica answered it meanwhile"):
            self.skip(3)
        self.assertEqual(self.log.settings().skips, {})

    def test_one_that_has_answered_it_goes_back(self) -> None:
        running = self.start("a")
        fill(self.log, 6)
        self.answered(6)
        self.saved_at(4, "a")
        self.skip(5)
        until(lambda: running.says("has answered record 5, which is to be skipped"))
        self.start("b")
        self.start("c")
        until(lambda: {self.lines(5, name) for name in SET} == {b"5 skipped asked\n"})
        until(lambda: len({self.lines(6, name) for name in SET}) == 1)
        self.assertIsNone(running.error)

    def test_one_that_was_down_meanwhile_goes_back_when_it_comes(self) -> None:
        self.start("a")
        fill(self.log, 6)
        self.answered(6)
        self.running["a"].stop()
        self.skip(5)
        again = self.start("a")
        until(lambda: again.says("has answered record 5, which is to be skipped"))
        self.start("b")
        self.start("c")
        until(lambda: {self.lines(5, name) for name in SET} == {b"5 skipped asked\n"})
        until(lambda: len({self.lines(6, name) for name in SET}) == 1)

    def test_no_line_is_put_by_settings_that_are_not_the_logs_any_more(self) -> None:
        votes = votes_of(self.log, "a")
        votes.rules = self.log.settings_at()[1]
        self.assertEqual(votes.put(LINES, [Vote(1, b"x")]), [])
        fill(self.log, 3)
        self.skip(2)
        with self.assertRaises(RulesChanged):
            votes.put(LINES, [Vote(2, b"x")])
        self.assertEqual(votes.of(LINES, 2), {})
        put_vote(self.log, "b", LINES, 1, b"y")
        put_vote(self.log, "c", LINES, 1, b"y")
        self.assertFalse(votes.replace(LINES, Vote(1, b"y"))[0])

    def test_other_settings_that_change_under_a_replica_lose_no_line(self) -> None:
        self.three(3)
        for every in range(5, 12):
            self.store.put(self.log.keys.log, self.log.settings()._replace(every=every).text())
            fill(self.log, 2)
        self.answered(17, *SET)
        self.assertTrue(all(self.lines(number, name) for number in range(1, 18) for name in SET))


class Limits(unittest.TestCase):
    def setUp(self) -> None:
        self.store = Store()
        self.log = made_log(self.store)

    def limit(self, size: int, budget: int) -> None:
        settings, changed = self.log.settings_at()
        put_limit(self.log, changed, settings, size, budget)

    def put_by_hand(self, record: bytes) -> None:
        number = self.log.last() + 1
        value = b"\0x%d anyone\n" % number + record
        self.store.transact([], [put(self.log.keys.record(number), value), put(self.log.keys.last, numbered(number))], [])

    def offered(self, name: str, record: bytes) -> List[int]:
        return list(self.log.append([Offer(name, record)], "anyone", self.log.settings()))

    def test_a_limit_holds_from_the_next_record_on(self) -> None:
        dear = run_with_budget(b"\xe8\7")
        self.offered("before", dear)
        self.limit(64, 999)
        for record in dear, run(1) + bytes(63), run_with_budget(b"\xe7\7"):
            self.put_by_hand(record)
        self.limit(0, 0)
        self.put_by_hand(dear)
        self.assertEqual([one.why for one in self.log.read(1).taken], [None, "budget", "record", None, None])

    def test_of_two_limits_from_the_same_record_on_the_last_holds(self) -> None:
        self.limit(64, 999)
        self.limit(32, 0)
        self.assertEqual(self.log.settings().limits, (Limit(1, 32, 0),))

    def test_submit_refuses_what_replicas_would_skip(self) -> None:
        self.offered("dear", run_with_budget(b"\xe8\7"))
        self.limit(64, 999)
        with self.assertRaisesRegex(Unfit, "budget is beyond the log's limit of 64 bytes and 999 steps"):
            self.offered("x", run_with_budget(b"\xe8\7"))
        with self.assertRaisesRegex(Unfit, "size is beyond"):
            self.offered("y", b"\2\x40" + bytes(64))
        self.assertEqual(self.offered("dear", run_with_budget(b"\xe8\7")), [1])
        self.assertEqual(self.offered("z", run_with_budget(b"\xe7\7")), [2])

    def test_the_budget_of_a_run(self) -> None:
        rows = [(run_with_budget(b"\xe8\7"), 1000), (run_with_budget(b"\0"), 0), (b"\1\2ab", 0), (b"\2\0", 0), (b"\2\3abc", 0),
                (b"\2\x21" + bytes(32) + b"\xff", 0), (run_with_budget(b"\xff" * 30), 0)]
        for record, budget in rows:
            self.assertEqual(budget_of(record), budget)

    def test_what_is_written_is_read(self) -> None:
        settings = Settings(LOG_ID, SET, limits=(Limit(3, 4, 5), Limit(9, 0, 1)), skips={7: "why"}, protocol=3)
        self.assertEqual(settings_of(settings.text()), settings)
        self.assertEqual([settings.limit_at(number) for number in (2, 3, 8, 9)],
                         [Limit(0, 0, 0), Limit(3, 4, 5), Limit(3, 4, 5), Limit(9, 0, 1)])

    def test_by_the_commands(self) -> None:
        node = Served(self.store)
        self.addCleanup(node.close)
        fill(self.log, 3)
        self.assertEqual(done(["log", *node.words(), "set", "--record-size", "50"]).returncode, 0)
        self.assertEqual(done(["submit", *node.words(), "-"], b"\2\x40" + bytes(64)).returncode, 3)
        self.assertEqual(done(["log", *node.words(), "skip", "2"]).returncode, 2)
        self.assertEqual(done(["log", *node.words(), "skip", "9", "--reason", "x"]).returncode, 1)
        self.assertEqual(done(["log", *node.words(), "skip", "2", "--reason", "too dear"]).returncode, 0)
        shown = done(["log", *node.words(), "show"]).stdout
        self.assertIn(b"limit from 4: 50 bytes, 0 steps\n", shown)
        self.assertIn(b"skipped 2: too dear\n", shown)
        with tempfile.TemporaryDirectory() as folder:
            told = done(["replica", *node.words(), "--verify", "--moveledger", STAND_IN, folder])
        self.assertIn(b"record 2 is skipped, since that was asked for: too dear\n", told.stdout)


