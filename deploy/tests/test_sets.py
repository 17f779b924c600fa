import unittest
from typing import List, Optional

from ledgerlog.chains import START, ChainVote, OwnChain, Point, Told, vote_in
from ledgerlog.clearing import Clearing
from ledgerlog.errors import Differs, LogError
from ledgerlog.final import Final
from ledgerlog.keys import LINES, SAVED, TOLD, VOTE
from ledgerlog.requests import Body
from ledgerlog.ruling import change_set, skip_record
from ledgerlog.saves import SavedVote
from ledgerlog.settings import Agreed, Settings, Settled, settings_of
from ledgerlog.votes import votes_in

from .served import Served
from .store import LOG_ID, SET, Store, fill, made_log, put_vote, until
from .test_commands import done
from .test_following import OverStandIn


class Commanded(OverStandIn):
    """Replicas, and commands over a node."""

    def setUp(self) -> None:
        super().setUp()
        self.node = Served(self.store)
        self.addCleanup(self.node.close)

    def set(self, *names: str, status: int = 0, more: str = "--replicas") -> str:
        words = [more] if more != "--replicas" else []
        told = done(["log", *self.node.words(), "set", *words, *(["--replicas", ",".join(names)] if names else [])])
        self.assertEqual(told.returncode, status, told.stderr)
        return told.stderr.decode()


class Changing(Commanded):

    def cleared_set(self) -> None:
        """Three that have agreed on a save, behind which the log is cleared; two of them are lost, and the third goes on."""
        self.three(9)
        self.saved_at(8, *SET)
        self.assertEqual(Clearing(self.log, 0).run().upto, 8)
        for name in "bc":
            self.running[name].stop()
        for last in (12, 16, 20):
            fill(self.log, last - self.log.last())
            self.saved_at(last, "a")

    def test_two_of_three_are_lost_and_new_ones_take_their_place(self) -> None:
        self.cleared_set()
        self.assertIn(8, [save.number for save in self.running["a"].saves.all()])
        self.set("a", "d", "e")
        self.assertEqual(self.log.settings().agreed and self.log.settings().agreed.number, 8)  # type: ignore[union-attr]
        for name in "de":
            told = done(["snapshot", *self.node.words(), self.path("a"), self.path(name)])
            self.assertEqual((told.returncode, told.stdout), (0, b"8\n"), told.stderr)
        for name in "de":
            self.start(name)
        self.answered(20, "d", "e")
        fill(self.log, 5)
        self.answered(25, "a", "d", "e")
        self.saved_at(24, "a", "d", "e")
        agreed = votes_in(self.store, self.log.keys, self.log.settings()).newest_agreed_save(25)
        self.assertEqual(agreed and agreed.number, 24)
        self.assertEqual(Clearing(self.log, 0).run().upto, 24)
        self.assertFalse(any(self.running[name].says("isn't believed") for name in "ade"))

    def test_a_set_without_a_way_on_is_refused(self) -> None:
        self.cleared_set()
        said = self.set("d", "e", "f", status=1)
        self.assertIn("none of d, e, f has put an agreed save from there on: keep one of a, b, c in the set", said)
        self.assertEqual(self.log.settings().replicas, SET)

    def test_one_that_nobody_vouches_for_can_be_trusted_alone(self) -> None:
        fill(self.log, 20)
        for name in "bc":
            put_vote(self.log, name, SAVED, 12, b"MVL2 x")
        put_vote(self.log, "a", SAVED, 16, b"MVL2 y")
        Clearing(self.log, 0).run()
        self.set("a", "d", "e", status=1)
        self.set("a")
        self.assertEqual(votes_in(self.store, self.log.keys, self.log.settings()).final(SAVED, 16), b"MVL2 y")
        self.set("a", "d", "e")
        self.assertEqual(self.log.settings().agreed, Agreed(16, "MVL2 y"))

    def test_where_nothing_is_cleared_any_set_has_a_way_on(self) -> None:
        fill(self.log, 4)
        self.set("d", "e", "f")
        self.assertEqual(self.log.settings().replicas, ("d", "e", "f"))
        self.assertIsNone(self.log.settings().agreed)

    def test_what_was_agreed_is_kept_over_further_changes(self) -> None:
        fill(self.log, 8)
        for name in SET:
            put_vote(self.log, name, SAVED, 4, b"MVL2 x")
        self.set("a", "d", "e")
        self.set("a", "d", "e", "f", "g")
        self.assertEqual(self.log.settings().agreed, Agreed(4, "MVL2 x"))
        votes = votes_in(self.store, self.log.keys, self.log.settings())
        self.assertEqual(votes.final(SAVED, 4), b"MVL2 x")
        put_vote(self.log, "d", SAVED, 4, b"MVL2 y")
        self.assertEqual(votes.final(SAVED, 4), b"MVL2 x")
        self.assertIsNone(votes.final(LINES, 4))
        self.assertIsNone(votes.newest_agreed_save(3))

    def test_what_is_written_is_read(self) -> None:
        settings = Settings(LOG_ID, SET, agreed=Agreed(4, "MVL2 x"), settled=Settled(9, "ab" * 32), former={"b": 3}, changing="the set to a")
        self.assertEqual(settings_of(settings.text()), settings)
        for text in (b'"settled": [0, "%s"]' % (b"ab" * 32), b'"settled": [4, "AB"]', b'"settled": 4'):
            with self.assertRaises(LogError):
                settings_of(settings.text().replace(b'"settled": [9, "%s"]' % (b"ab" * 32), text))


class WhileRecordsCome(Commanded):
    """Sets that change where lines are chained."""

    protocol = 4

    def vote(self, name: str) -> Optional[ChainVote]:
        return vote_in(self.store.get(self.log.keys.own(name, VOTE)))

    def final(self, count: int) -> List[bytes]:
        return Final(self.store, self.log.keys, self.log.settings()).lines(1, count)

    def test_what_was_final_stays_so_whatever_a_new_majority_makes(self) -> None:
        self.three(9)
        self.saved_at(8, *SET)
        before = self.final(20)
        self.assertEqual(len(before), 9)
        for name in "bc":
            self.running[name].stop()
        self.set("a", "d", "e")
        settings = self.log.settings()
        self.assertEqual((settings.settled, settings.changing), (Settled(9, self.running["a"].replica.chain.digests[9].hex()), ""))
        self.assertEqual(self.final(20), before)
        wrong = self.build("wrong", "STAND_IN_WRONG=5")
        for name in "de":
            self.start(name, program=wrong)
        for name in "de":
            error = self.running[name].ends()
            self.assertIsInstance(error, Differs)
            self.assertIn("the lines of record 9, or of one before: an earlier set of replicas made others final", str(error))
            self.assertIsNone(self.vote(name))
        self.assertEqual(self.final(20), before)
        for name in "fg":
            self.start(name)
        self.set("a", "f", "g")
        fill(self.log, 4)
        self.answered(13, "a", "f", "g")
        self.assertEqual(self.final(20)[:9], before)
        until(lambda: len(self.final(20)) == 13)

    def test_nobody_votes_while_the_log_is_changed(self) -> None:
        self.three(5)
        settings, changed = self.log.settings_at()
        self.store.put(self.log.keys.log, settings._replace(changing="the set to a,d,e").text())
        fill(self.log, 4)
        until(lambda: all(one.status.answered == 9 and one.says("the log is being changed, the set to a,d,e: no votes meanwhile")
                          for one in self.running.values()))
        self.assertEqual([vote.made.number for vote in map(self.vote, SET) if vote], [5, 5, 5])
        self.assertIn("the log is just being changed, the set to a,d,e: try again", self.set("a", "d", "e", status=1))
        with self.assertRaisesRegex(LogError, "just being changed"):
            skip_record(self.log, 9, "x")
        self.set("a", "b", "d", more="--take-over")
        self.assertEqual(self.log.settings().replicas, ("a", "b", "d"))
        until(lambda: len(self.final(20)) == 9)
        until(lambda: [name for name in SET if self.running[name].status.is_counted] == ["a", "b"])
        self.assertTrue(self.running["a"].says("votes go on"))

    def test_a_change_that_ended_halfway_is_taken_back(self) -> None:
        self.three(3)
        self.store.put(self.log.keys.log, self.log.settings()._replace(changing="x").text())
        fill(self.log, 1)
        until(lambda: self.running["a"].status.answered == 4)
        self.set(more="--take-over")
        self.assertEqual((self.log.settings().replicas, self.log.settings().changing), (SET, ""))
        self.answered(4, *SET)


class Settling(unittest.TestCase):
    """What a change of the set carries over, without replicas that run."""

    def setUp(self) -> None:
        self.store = Store()
        self.log = made_log(self.store, protocol=4)
        fill(self.log, 20)

    def chain(self, last: bytes = b"x") -> OwnChain:
        made = OwnChain(0, Point(0, START))
        made.add([b"%d %s\n" % (number, last if number == 7 else b"x") for number in range(1, 21)])
        return made

    def vote(self, name: str, chain: OwnChain, number: int, told: int = 0) -> None:
        """A vote of one that has told its lines up to a record."""
        points = chain.point(number), chain.point(told)
        assert points[0] and points[1]
        if told:
            self.store.put(self.log.keys.vote(name, TOLD, 1), Told(1, START, [chain.lines[at] for at in range(1, told + 1)]).value())
        self.store.put(self.log.keys.own(name, VOTE), ChainVote(points[0], points[1], told).text())

    def changed(self, *names: str) -> Optional[Settled]:
        old, changed = self.log.settings_at()
        change_set(self.log, changed, old, old._replace(replicas=names))
        return self.log.settings().settled

    def settled(self, chain: OwnChain, number: int) -> Settled:
        return Settled(number, chain.digests[number].hex())

    def final(self, first: int = 1) -> List[bytes]:
        return Final(self.store, self.log.keys, self.log.settings()).lines(first, 100)

    def test_the_last_point_that_is_final_is_carried(self) -> None:
        chain, other = self.chain(), self.chain(b"y")
        self.assertIsNone(self.changed("a", "b", "c"))
        self.vote("a", chain, 15, 15)
        self.assertIsNone(self.changed("a", "b", "c"))
        self.vote("c", other, 18, 18)
        self.assertIsNone(self.changed("a", "b", "c"))
        self.vote("b", chain, 11)
        self.store.put(self.log.keys.own("c", VOTE), ChainVote(Point(10 ** 9, START), Point(10 ** 9, START), 0).text())
        self.assertEqual(self.changed("a", "d", "e"), self.settled(chain, 11))
        self.assertEqual(len(self.final()), 11)
        self.assertEqual(len(self.final(11)), 1)
        self.assertEqual(self.final(12), [])

    def test_lines_that_only_one_told_who_is_left_out_are_read_still(self) -> None:
        chain = self.chain()
        for name in SET:
            self.vote(name, chain, 15, 5 if name == "a" else 0)
        for name, first, last in ("b", 6, 9), ("a", 10, 12), ("b", 13, 15):
            lines = [chain.lines[at] for at in range(first, last + 1)]
            self.store.put(self.log.keys.vote(name, TOLD, first), Told(first, chain.digests[first - 1], lines).value())
        self.store.put(self.log.keys.own("b", VOTE), ChainVote(Point(15, chain.digests[15]), Point(12, chain.digests[12]), 15).text())
        self.store.put(self.log.keys.own("a", VOTE), ChainVote(Point(15, chain.digests[15]), Point(9, chain.digests[9]), 12).text())
        self.assertEqual(self.changed("a", "d", "e"), self.settled(chain, 15))
        self.assertEqual(self.log.settings().former, {"b": 15})
        for first in (1, 7, 13):
            self.assertEqual(self.final(first), [chain.lines[number] for number in range(first, 16)])
        for name in "ade":
            put_vote(self.log, name, SAVED, 15, SavedVote(b"MVL2 x", START, 1).value())
        self.store.put(self.log.keys.cleared, b"14")
        self.assertEqual(self.changed("d", "e", "f"), self.settled(chain, 15))
        self.assertEqual(self.log.settings().former, {"b": 15})
        self.store.put(self.log.keys.cleared, b"15")
        self.changed("d", "e", "g")
        self.assertEqual(self.log.settings().former, {})

    def test_it_is_kept_over_changes_until_more_is_final(self) -> None:
        chain = self.chain()
        for name in "ab":
            self.vote(name, chain, 9, 9)
        self.assertEqual(self.changed("a", "d", "e"), self.settled(chain, 9))
        self.assertEqual(self.changed("a", "f", "g"), self.settled(chain, 9))
        self.vote("a", chain, 12, 12)
        self.vote("f", chain, 11)
        self.assertEqual(self.changed("a", "d", "e"), self.settled(chain, 11))

    def test_another_chain_is_never_final_whoever_votes_for_it(self) -> None:
        chain, other = self.chain(), self.chain(b"y")
        for name in "ab":
            self.vote(name, chain, 9, 9)
        self.changed("a", "d", "e")
        for name in "de":
            self.vote(name, other, 20, 20)
        self.assertEqual(self.final(), [chain.lines[number] for number in range(1, 10)])
        self.assertEqual(self.final(8), [chain.lines[8], chain.lines[9]])

    def test_what_becomes_final_while_the_set_changes_is_carried_too(self) -> None:
        chain = self.chain()
        for name in "ab":
            self.vote(name, chain, 9, 9)
        real, count = self.store.done, 0

        def and_vote(body: Body) -> Body:
            nonlocal count
            if settings_of(self.store.there[self.log.keys.log][0]).changing and body["success"] and "request_put" in body["success"][0]:
                count += 1
                if count <= 3:
                    # One that doesn't know that nobody may vote just now.
                    for name in "ab":
                        self.vote(name, chain, 9 + count, 9 + count)
            return real(body)

        setattr(self.store, "done", and_vote)
        self.assertEqual(self.changed("a", "d", "e"), self.settled(chain, 12))
        self.assertEqual(count, 4)

    def test_where_votes_do_not_stand_still_all_stays_as_it_was(self) -> None:
        chain = self.chain()
        real, number = self.store.done, 0

        def and_vote(body: Body) -> Body:
            nonlocal number
            number += 1
            if body["compare"]:
                self.vote("a", chain, 1 + number % 20)
            return real(body)

        before = self.log.settings()
        setattr(self.store, "done", and_vote)
        with self.assertRaisesRegex(LogError, "replicas vote on, though the log is being changed"):
            self.changed("a", "d", "e")
        self.assertEqual(self.log.settings(), before)

    def test_a_lost_answer_is_no_other_change(self) -> None:
        real = self.store.done

        def twice(body: Body) -> Body:
            real(body)
            return real(body)

        setattr(self.store, "done", twice)
        self.assertIsNone(self.changed("a", "d", "e"))
        self.assertEqual((self.log.settings().replicas, self.log.settings().changing), (("a", "d", "e"), ""))

    def test_what_is_final_is_not_skipped(self) -> None:
        chain = self.chain()
        for name in "ab":
            self.vote(name, chain, 9, 9)
        self.changed("d", "e", "f")
        with self.assertRaisesRegex(LogError, "record 9 was answered by an earlier set of replicas"):
            skip_record(self.log, 9, "x")
        skip_record(self.log, 10, "x")
