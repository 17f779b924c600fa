"""What replicas do, tried again in a log where they vote by chain; and what is said of them alone."""

import unittest
from typing import List, Optional

from ledgerlog import voting
from ledgerlog.chains import ChainVote, OwnChain, Point, Told, chained, told_in, vote_in
from ledgerlog.errors import Differs, LogError
from ledgerlog.final import Final
from ledgerlog.keys import LINES, SAVED, TOLD, VOTE
from ledgerlog.requests import Body, after
from ledgerlog.ruling import skip_record, upgrade
from ledgerlog.saves import saved_vote_in
from ledgerlog.voting import Voting

from .store import PATIENCE, SET, Store, fill, for_now, made_log, until
from .test_following import Following, OverStandIn

OTHER = b"\1" * 32


class FollowingChained(Following):
    protocol = 4

    def forge(self) -> None:
        keys = self.log.keys
        self.store.put(keys.vote("a", TOLD, 3), Told(3, OTHER, [b"3 forged\n", b"4 forged\n"]).value())
        self.store.put(keys.own("a", VOTE), ChainVote(Point(4, OTHER), Point(4, OTHER), 4).text())

    def test_lines_are_told_once_and_votes_are_a_key_each(self) -> None:
        # On a busy machine one may be silent for a second.
        for_now(self, voting, TELL_SECONDS=2 * PATIENCE)
        self.three(9)
        fill(self.log, 200)
        self.answered(209, *SET)
        told = [told_in(entry) for name in SET for entry in
                self.store.range(self.log.keys.by(name, TOLD), after(self.log.keys.by(name, TOLD)), 0).entries]
        lines = sum(len(one.lines) for one in told if one)
        self.assertLess(lines, 2 * 209)
        self.assertEqual(self.store.count(b"L/by/a/lines/"), 0)
        votes = Final(self.store, self.log.keys, self.log.settings()).votes()
        self.assertEqual([votes[name].made.number for name in SET], [209] * 3)
        self.assertEqual(len({votes[name].made for name in SET}), 1)

    def test_a_save_says_the_digest_of_the_lines_there(self) -> None:
        self.three(9)
        self.saved_at(8, *SET)
        value = next(iter(set(self.running["a"].replica.votes.of(SAVED, 8).values())))
        said = saved_vote_in(value)
        self.assertEqual(said.chain, self.running["a"].replica.chain.digests[8])
        self.assertEqual(said.skips, 0)
        self.assertGreater(said.size, 0)

    def test_another_one_tells_when_the_first_is_silent(self) -> None:
        self.three(5)
        for name in SET:
            own = vote_in(self.store.get(self.log.keys.own(name, VOTE)))
            if own and own.own == 5:
                break
        self.running[name].stop()
        fill(self.log, 5)
        others = [one for one in SET if one != name]
        self.answered(10, *others)
        final = Final(self.store, self.log.keys, self.log.settings())
        until(lambda: len(final.lines(1, 20)) == 10)

    def test_the_last_two_that_stop_leave_every_line(self) -> None:
        self.three(30)
        for name in SET:
            self.running[name].stop()
        final = Final(self.store, self.log.keys, self.log.settings())
        self.assertEqual(len(final.lines(1, 100)), 30)

    def test_a_vote_that_stands_otherwise_waits_for_the_others(self) -> None:
        self.start("a")
        fill(self.log, 6)
        self.answered(6)
        key = self.log.keys.own("a", VOTE)
        self.store.put(key, ChainVote(Point(6, OTHER), Point(0, bytes(32)), 0).text())
        until(lambda: self.running["a"].says("others than it made stand under this replica's own name"))
        fill(self.log, 2)
        until(lambda: self.running["a"].status.answered == 8)
        self.assertEqual(vote_in(self.store.get(key)), ChainVote(Point(6, OTHER), Point(0, bytes(32)), 0))
        self.start("b")
        self.answered(8, "b")
        self.assertEqual(vote_in(self.store.get(key)).made, Point(6, OTHER))  # type: ignore[union-attr]
        self.start("c")
        self.answered(8, *SET)
        until(lambda: self.running["a"].replica.voting.held is None)  # type: ignore[union-attr]

    def test_a_vote_beyond_the_log_stops_nobody(self) -> None:
        for name in SET:
            self.store.put(self.log.keys.own(name, VOTE), ChainVote(Point(10 ** 9, OTHER), Point(10 ** 9, OTHER), 10 ** 9).text())
        self.three(6)
        self.assertEqual(len(Final(self.store, self.log.keys, self.log.settings()).lines(1, 10)), 6)

    def test_no_save_is_kept_while_a_vote_is_held(self) -> None:
        self.store.put(self.log.keys.last, b"%016x" % 2)
        self.store.put(self.log.keys.own("a", VOTE), ChainVote(Point(2, OTHER), Point(2, OTHER), 2).text())
        self.start("a")
        fill(self.log, 7)
        until(lambda: self.running["a"].status.answered == 9)
        until(lambda: self.running["a"].status.held == 1)
        self.running["a"].stop()
        self.assertEqual(self.running["a"].saves.all(), [])

    def test_two_that_differ_name_both_lines_and_wait(self) -> None:
        # On a busy machine one may tell its lines after many seconds.
        for_now(self, voting, NAME_SECONDS=2 * PATIENCE)
        self.start("a", program=self.build("wrong", "STAND_IN_WRONG=6"))
        self.start("b")
        fill(self.log, 9)
        for one in ("a", "b"):
            until(lambda: self.running[one].says("DIFFERS: the lines of record 6: it has put"))
            self.assertTrue(self.running[one].says("no majority has decided yet"))
        self.start("c")
        self.assertIsInstance(self.running["a"].ends(), Differs)
        self.answered(9, "b", "c")


class Upgrading(OverStandIn):
    """A set that goes from votes on single records to votes by chain, while records come."""

    protocol = 3

    def upgraded(self) -> None:
        until(lambda: all(self.store.get(self.log.keys.own(name, "protocol")) for name in SET))
        upgrade(self.log)

    def test_a_running_set_goes_on_by_chain(self) -> None:
        self.three(9)
        self.saved_at(8, *SET)
        before = [self.lines(number) for number in range(1, 10)]
        self.upgraded()
        self.assertEqual(self.log.settings().chained, 8)
        fill(self.log, 10)
        self.answered(19, *SET)
        final = Final(self.store, self.log.keys, self.log.settings())
        until(lambda: len(final.lines(9, 20)) == 11)
        self.assertEqual(final.lines(1, 20), before[:8])
        self.assertEqual(final.lines(9, 1), before[8:])
        self.assertEqual(self.store.count(b"L/by/a/lines/"), 9)
        self.saved_at(16, *SET)
        for name in SET:
            self.running[name].stop()
            self.start(name)
        fill(self.log, 4)
        self.answered(23, *SET)
        self.assertFalse(any(one.says("DIFFERS") or one.says("isn't believed") for one in self.running.values()))

    def test_one_that_was_down_meanwhile_goes_back_to_where_the_chain_begins(self) -> None:
        self.three(9)
        self.saved_at(8, *SET)
        self.running["c"].stop()
        self.assertEqual(self.running["c"].saves.all()[0].number, 9)
        self.upgraded()
        fill(self.log, 3)
        self.answered(12, "a", "b")
        again = self.start("c")
        self.answered(12, *SET)
        self.assertTrue(again.says("was saved before lines were chained"))

    def test_an_old_vote_otherwise_is_held_over_the_upgrade(self) -> None:
        self.three(9)
        self.saved_at(8, *SET)
        for name in SET:
            self.running[name].stop()
        fill(self.log, 1)
        self.store.put(self.log.keys.vote("a", LINES, 10), b"10 returned 999\n")
        self.upgraded()
        self.start("a")
        until(lambda: self.running["a"].says("others than it made stand under this replica's own name"))
        self.assertIsNone(self.store.get(self.log.keys.own("a", VOTE)))
        self.start("b")
        self.start("c")
        self.answered(10, *SET)

    def test_an_old_set_is_told_what_to_do(self) -> None:
        self.start("a")
        fill(self.log, 5)
        self.answered(5)
        with self.assertRaisesRegex(LogError, r"^b, c was never started .* knows protocol 4: upgrade deploy/ on the machines of all"):
            upgrade(self.log)
        self.start("b")
        self.start("c")
        self.answered(5, *SET)
        self.upgraded()
        with self.assertRaisesRegex(LogError, "goes by protocol 4 already"):
            upgrade(self.log)


class Alone(unittest.TestCase):
    """The votes of one replica, without a program."""

    def setUp(self) -> None:
        self.store = Store()
        self.log = made_log(self.store, protocol=4)
        fill(self.log, 20)
        self.told: List[str] = []

    def voting(self, name: str, count: int, begins: int = 0, last: bytes = b"x") -> Voting:
        """One that has made so many lines."""
        chain = OwnChain(begins, Point(0, bytes(32)))
        chain.add([b"%d %s\n" % (number, last if number == count else b"x") for number in range(1, count + 1)])
        final = Final(self.store, self.log.keys, self.log.settings())
        return Voting(final, name, chain, self.told.append, {})

    def vote(self, one: Voting, rules: Optional[int] = None) -> bool:
        names = self.log.settings().replicas
        read = self.log.read(20, names)
        one.see(read.votes, read.last)
        return one.vote(read.rules if rules is None else rules)

    def made(self, name: str) -> Optional[ChainVote]:
        return vote_in(self.store.get(self.log.keys.own(name, VOTE)))

    def test_no_vote_by_settings_that_are_not_the_logs_any_more(self) -> None:
        one, before = self.voting("a", 5), self.log.settings_at()[1]
        self.store.put(self.log.keys.log, self.log.settings()._replace(skips={5: "too dear"}).text())
        self.assertFalse(self.vote(one, before))
        self.assertIsNone(self.made("a"))
        self.assertTrue(self.vote(one))

    def test_who_has_told_furthest_tells_and_of_several_the_first_by_name(self) -> None:
        for_now(self, voting, TELL_SECONDS=PATIENCE)
        for name in "ab":
            self.vote(self.voting(name, 9))
        rows = [("a", 9, 9, True), ("b", 9, 9, False), ("a", 8, 9, False), ("b", 9, 8, True)]
        for name, own, known, is_telling in rows:
            one = self.voting(name, 12)
            one.votes = {who: ChainVote(Point(9, OTHER), Point(9, OTHER), 9 if who != name else own) for who in "ab"}
            self.assertEqual(one.is_teller(own, known), is_telling, (name, own, known))

    def test_junk_and_what_is_beyond_the_log_is_no_vote(self) -> None:
        for name, text in ("b", b"junk"), ("c", ChainVote(Point(99, OTHER), Point(9, OTHER), 9).text()):
            self.store.put(self.log.keys.own(name, VOTE), text)
        one = self.voting("a", 9)
        self.assertTrue(self.vote(one))
        self.assertEqual(list(one.votes), ["a"])

    def test_what_a_majority_has_answered_by_chain_is_not_skipped(self) -> None:
        for name in "ab":
            self.vote(self.voting(name, 9))
        with self.assertRaisesRegex(LogError, "record 9 is answered by a, b"):
            skip_record(self.log, 9, "too dear")
        skip_record(self.log, 10, "too dear")
        self.assertEqual(self.log.settings().skips, {10: "too dear"})

    def test_a_vote_never_moves_back(self) -> None:
        self.vote(self.voting("a", 9))
        before = self.made("a")
        self.assertTrue(self.vote(self.voting("a", 6)))
        self.assertEqual(self.made("a"), before)

    def test_what_it_makes_otherwise_waits_for_a_majority_of_the_others_there(self) -> None:
        self.vote(self.voting("a", 9, last=b"y"))
        before = self.made("a")
        again = self.voting("a", 10)
        for name, count in (("b", 10), ("c", 8)):
            self.vote(again)
            self.assertEqual(self.made("a"), before)
            self.vote(self.voting(name, count))
        self.vote(again)
        self.assertEqual(self.made("a"), before)
        self.vote(self.voting("c", 9))
        self.vote(again)
        self.assertEqual(self.made("a") and self.made("a").made.number, 10)  # type: ignore[union-attr]
        self.assertEqual([one.partition(":")[0] for one in self.told if "counts as its vote now" in one], ["the lines of record 9"])

    def test_a_vote_that_another_wrote_meanwhile_is_not_written_over(self) -> None:
        one = self.voting("a", 5)
        real = self.store.done

        def forged(body: Body) -> Body:
            if body["success"] and "request_put" in body["success"][0]:
                setattr(self.store, "done", real)
                self.store.put(self.log.keys.own("a", VOTE), ChainVote(Point(5, OTHER), Point(0, bytes(32)), 0).text())
            return real(body)

        setattr(self.store, "done", forged)
        self.assertFalse(self.vote(one))
        self.assertEqual(self.made("a").made, Point(5, OTHER))  # type: ignore[union-attr]

    def test_lines_are_told_from_the_oldest_on_where_a_liar_told_them(self) -> None:
        wrong = self.voting("a", 9)
        wrong.chain.lines[3] = b"3 y\n"
        chain = OwnChain(0, Point(0, bytes(32)))
        chain.add(list(wrong.chain.lines.values()))
        self.vote(Voting(wrong.final, "a", chain, self.told.append, {}))
        for name in "bc":
            for _ in range(2):
                self.vote(self.voting(name, 9))
        self.assertEqual(Final(self.store, self.log.keys, self.log.settings()).lines(1, 9), [b"%d x\n" % at for at in range(1, 10)])


class Reading(unittest.TestCase):
    """What a reader takes for final."""

    def setUp(self) -> None:
        self.store = Store()
        self.log = made_log(self.store, protocol=4)
        self.keys = self.log.keys

    def chain(self, lines: List[bytes], before: bytes = bytes(32)) -> List[bytes]:
        digests = [before]
        for line in lines:
            digests.append(chained(digests[-1], line))
        return digests

    def tell(self, name: str, first: int, digests: List[bytes], lines: List[bytes]) -> None:
        """Lines from a record on, of a chain that begins with the first record."""
        self.store.put(self.keys.vote(name, TOLD, first), Told(first, digests[first - 1], lines).value())

    def vote(self, name: str, made: Point, told: Point) -> None:
        self.store.put(self.keys.own(name, VOTE), ChainVote(made, told, 0).text())

    def final(self, first: int = 1, count: int = 1000) -> List[bytes]:
        return Final(self.store, self.keys, self.log.settings()).lines(first, count)

    def test_a_majority_at_a_point_or_behind_it_decides(self) -> None:
        lines = [b"%d x\n" % number for number in range(1, 11)]
        digests = self.chain(lines)
        self.tell("a", 1, digests, lines)
        self.vote("a", Point(10, digests[10]), Point(10, digests[10]))
        self.assertEqual(self.final(), [])
        self.vote("b", Point(6, digests[6]), Point(0, bytes(32)))
        self.assertEqual(self.final(), lines[:6])
        self.assertEqual(self.final(5), lines[4:6])
        self.vote("c", Point(8, OTHER), Point(7, digests[7]))
        self.assertEqual(self.final(), lines[:7])
        self.vote("d", Point(10, digests[10]), Point(10, digests[10]))
        self.assertEqual(self.final(), lines[:7])

    def test_a_vote_ahead_of_the_lines_counts_by_its_second_point(self) -> None:
        lines = [b"%d x\n" % number for number in range(1, 6)]
        digests = self.chain(lines)
        self.tell("a", 1, digests, lines)
        self.vote("a", Point(5, digests[5]), Point(5, digests[5]))
        self.vote("b", Point(900, OTHER), Point(0, bytes(32)))
        self.assertEqual(self.final(), [])
        self.vote("b", Point(900, OTHER), Point(4, digests[4]))
        self.assertEqual(self.final(), lines[:4])

    def test_a_liar_that_tells_first_is_another_chain(self) -> None:
        lines = [b"%d x\n" % number for number in range(1, 11)]
        wrong = lines[:4] + [b"%d y\n" % number for number in range(5, 11)]
        digests, other = self.chain(lines), self.chain(wrong)
        self.tell("a", 1, other, wrong)
        self.vote("a", Point(10, other[10]), Point(10, other[10]))
        for name in "bc":
            self.vote(name, Point(10, digests[10]), Point(10, digests[10]))
        self.assertEqual(self.final(), [])
        self.tell("b", 3, digests, lines[2:])
        self.assertEqual(self.final(1), lines)
        self.assertEqual(self.final(7), lines[6:])

    def test_lines_of_several_that_told_follow_each_other(self) -> None:
        lines = [b"%d x\n" % number for number in range(1, 1501)]
        digests = self.chain(lines)
        for at, name in zip(range(1, 1500, 100), "abc" * 5):
            self.tell(name, at, digests, lines[at - 1:at + 99 + (50 if at < 1400 else 0)])
        for name in "ab":
            self.vote(name, Point(1500, digests[1500]), Point(1500, digests[1500]))
        self.assertEqual(self.final(count=2000), lines)
        for first in (99, 100, 101, 450, 512, 1499):
            self.assertEqual(self.final(first, 3), lines[first - 1:first + 2])

    def test_single_lines_far_from_the_end_are_found(self) -> None:
        lines = [b"%d x\n" % number for number in range(1, 1501)]
        digests = self.chain(lines)
        for at in range(1, 1501):
            self.tell("a", at, digests, [lines[at - 1]])
        for name in "ab":
            self.vote(name, Point(1500, digests[1500]), Point(1500, digests[1500]))
        self.assertEqual(self.final(1, 2), lines[:2])
        self.assertEqual(self.final(700, 2), lines[699:701])
        final = Final(self.store, self.keys, self.log.settings())
        for first in (1, 700, 701, 300, 1499, 1, 1300):
            self.assertEqual(final.lines(first, 2), lines[first - 1:first + 1])

    def test_junk_in_the_place_of_lines_and_votes_is_nothing(self) -> None:
        lines = [b"%d x\n" % number for number in range(1, 4)]
        digests = self.chain(lines)
        self.tell("b", 1, digests, lines)
        for key, value in ((self.keys.vote("a", TOLD, 1), b"junk"), (self.keys.by("a", TOLD) + b"00junk", b"x"),
                           (self.keys.vote("a", TOLD, 2), digests[1].hex().encode() + b"\n2 x\n7 x\n"),
                           (self.keys.own("c", VOTE), b"junk")):
            self.store.put(key, value)
        for name in "ab":
            self.vote(name, Point(3, digests[3]), Point(3, digests[3]))
        self.assertEqual(self.final(), lines)

    def test_lines_of_records_with_several(self) -> None:
        lines = [b"1 at x\n1 end 1\n", b"2 x\n", b"3 count 2\n3 at y\n3 end 1\n"]
        digests = self.chain(lines)
        self.tell("a", 1, digests, lines)
        for name in "ab":
            self.vote(name, Point(3, digests[3]), Point(3, digests[3]))
        self.assertEqual(self.final(), lines)


# They are run where they stand.
del Following
