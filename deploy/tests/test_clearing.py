import threading
import time
import unittest
from typing import Iterable, List

from ledgerlog import clearing
from ledgerlog.chains import START, ChainVote, OwnChain, Point
from ledgerlog.clearing import Clearing
from ledgerlog.errors import LogError, OtherProtocol, Refused, Unfit
from ledgerlog.keys import LINES, PROGRAM, SAVED, TOLD, VOTE, numbered, size_in
from ledgerlog.log import Log, Offer
from ledgerlog.requests import Body, after
from ledgerlog.saves import SavedVote
from ledgerlog.users import roles_of
from ledgerlog.written import INLINE_BYTES

from .store import SET, Keys, Store, decoded, fill, made_log, put_vote, run
from .test_log import large


class ClearingALog(unittest.TestCase):
    protocol = 2

    def setUp(self) -> None:
        self.addCleanup(setattr, clearing, "LOST_SECONDS", clearing.LOST_SECONDS)
        setattr(clearing, "LOST_SECONDS", (0.0, 0.01))
        self.store = Store()
        self.log = made_log(self.store, protocol=self.protocol)

    def has(self, submitter: str) -> int:
        """What counts for a submitter's quota."""
        used, gone = (size_in(self.store.get(key)) for key in (self.log.keys.used(submitter), self.log.keys.gone(submitter)))
        return used - gone

    def agree(self, number: int, names: Iterable[str] = SET) -> None:
        for name in names:
            put_vote(self.log, name, SAVED, number, SavedVote(b"MVL2 %d" % number, START, 1).value())

    def test_nothing_is_cleared_without_a_save_of_a_majority(self) -> None:
        fill(self.log, 10)
        self.agree(8, "a")
        with self.assertRaisesRegex(LogError, "no majority"):
            Clearing(self.log, 0).run()
        self.assertEqual(len(self.log.read(1).taken), 10)

    def test_what_lies_behind_the_newest_such_save_goes(self) -> None:
        fill(self.log, 100)
        for name in SET:
            for number in range(1, 101):
                put_vote(self.log, name, LINES, number, b"x")
        self.agree(40)
        self.agree(80, "ab")
        self.agree(96, "c")
        done = Clearing(self.log, 0).run()
        self.assertEqual((done.upto, done.records, done.behind), (80, 80, []))
        self.assertEqual(len(self.log.read(81).taken), 20)
        self.assertEqual(self.store.count(b"L/id/"), 20)
        self.assertEqual(self.has("anyone"), 80)
        self.assertEqual(self.store.count(b"L/by/a/lines/"), 20)
        self.assertEqual([key for key in self.store.there if b"/saved/" in key and key.endswith(numbered(40))], [])
        self.assertEqual(fill(self.log, 1), [101])

    def test_the_last_records_stay(self) -> None:
        fill(self.log, 20)
        self.agree(20)
        self.assertEqual(Clearing(self.log, 5).run().upto, 15)
        self.assertEqual(Clearing(self.log, 1000).run().upto, 15)

    def test_who_has_not_answered_so_far_is_named(self) -> None:
        fill(self.log, 20)
        self.agree(16, "ab")
        vote_up_to(self.log, "c", 14)
        for _ in range(2):
            self.assertEqual(Clearing(self.log, 5).run().behind, ["c"])
        vote_up_to(self.log, "c", 15)
        self.assertEqual(Clearing(self.log, 5).run().behind, [])

    def test_at_least_one_record_goes_at_once(self) -> None:
        fill(self.log, 3)
        one = Clearing(self.log, 0)
        one.most_operations = 0
        entries = self.store.range(self.log.keys.records, after(self.log.keys.records), 0).entries
        self.assertEqual((len(entries), one.fitting(entries)), (3, entries[:1]))

    def test_pieces_go_with_their_record_and_those_that_never_came_too(self) -> None:
        settings = self.log.settings()
        list(self.log.append([Offer("x", large(INLINE_BYTES))], "anyone", settings))
        self.store.put(self.log.keys.piece("orphan", 0), b"piece")
        list(self.log.append([Offer("y", large(INLINE_BYTES))], "anyone", settings))
        self.agree(1)
        self.assertEqual(Clearing(self.log, 0).run().orphans, 0)
        self.assertEqual(self.store.count(b"L/piece/x/"), 0)
        self.assertEqual(Clearing(self.log, 0).run().orphans, 1)
        self.assertEqual(self.store.count(b"L/piece/"), 1)
        self.assertEqual(len(self.log.read(2).taken[0].record), INLINE_BYTES + 4)

    def test_nothing_is_taken_off_twice_where_two_clear_at_once(self) -> None:
        fill(self.log, 250)
        self.agree(250)
        real = self.store.done

        def with_another_before(body: Body) -> Body:
            if any("request_delete_range" in one for one in body["success"]):
                setattr(self.store, "done", real)
                Clearing(self.log, 0).run()
                # The submitter puts as much again meanwhile: what it has is the same.
                fill(self.log, 250)
            return real(body)

        setattr(self.store, "done", with_another_before)
        self.assertEqual(Clearing(self.log, 0).run().records, 0)
        self.assertEqual(self.store.count(b"L/record/"), 250)
        self.assertEqual(self.has("anyone"), 1000)

    def test_nothing_is_taken_off_twice_where_an_answer_is_lost(self) -> None:
        fill(self.log, 250)
        self.agree(200)
        real = self.store.done

        def twice(body: Body) -> Body:
            real(body)
            return real(body)

        setattr(self.store, "done", twice)
        Clearing(self.log, 0).run()
        self.assertEqual(self.has("anyone"), 200)
        self.assertEqual(self.store.count(b"L/record/"), 50)

    def test_records_of_many_submitters_and_in_pieces_are_removed(self) -> None:
        settings = self.log.settings()
        for at in range(130):
            list(self.log.append([Offer(f"x{at}", large(INLINE_BYTES) if at % 3 else b"\2\0")], f"s{at}", settings))
        self.agree(130)
        self.assertEqual(Clearing(self.log, 0).run().records, 130)
        self.assertEqual([key for key in self.store.there if b"/piece/" in key or b"/id/" in key], [])
        self.assertEqual([self.has(f"s{at}") for at in range(130)], [0] * 130)

    def test_the_newest_lines_are_found_wherever_they_are(self) -> None:
        import ledgerlog.votes as votes
        self.addCleanup(setattr, votes, "LEAST_WIDTH", votes.LEAST_WIDTH)
        setattr(votes, "LEAST_WIDTH", 2)
        fill(self.log, 100)
        one = Clearing(self.log, 0).votes
        self.assertEqual(one.newest_lines("a", 100), 0)
        for number in (1, 7, 60, 99, 100):
            vote_up_to(self.log, "a", number)
            self.assertEqual(one.newest_lines("a", 100), number)

    def test_what_was_put_by_hand_takes_nothing_of_others_away(self) -> None:
        self.store.put(self.log.keys.record(1), b"\0id-2 rich\n\2\0")
        self.store.put(self.log.keys.last, numbered(1))
        fill(self.log, 2)
        self.agree(1)
        Clearing(self.log, 0).run()
        self.assertEqual(self.store.get(self.log.keys.id("id-2")), numbered(2))

    def test_many_lines_are_removed_some_at_a_time(self) -> None:
        before, clearing.MOST_DELETED = clearing.MOST_DELETED, 3
        self.addCleanup(setattr, clearing, "MOST_DELETED", before)
        fill(self.log, 20)
        for number in range(1, 21):
            put_vote(self.log, "b", LINES, number, b"x")
        self.store.put(self.log.keys.by("b", LINES) + b"00junk", b"x")
        self.agree(16)
        Clearing(self.log, 0).run()
        self.assertEqual([vote.number for vote in Clearing(self.log, 0).votes.newest("b", LINES, 20)], [20, 19, 18, 17])

    def test_of_programs_the_last_one_stays_known(self) -> None:
        fill(self.log, 10)
        for number in (0, 3, 6):
            put_vote(self.log, "a", PROGRAM, number, b"v%d" % number)
        self.agree(8)
        Clearing(self.log, 0).run()
        self.assertEqual([key for key in self.store.there if b"/program/" in key], [self.log.keys.vote("a", PROGRAM, 6)])


class ClearingAChainedLog(ClearingALog):
    """The same where lines are chained, and what was cleared is counted by itself."""

    protocol = 4

    def told_from(self, name: str) -> List[int]:
        prefix = self.log.keys.by(name, TOLD)
        return [int(entry.key[-16:], 16) for entry in self.store.range(prefix, after(prefix), 0).entries]

    def test_lines_go_with_the_keys_that_have_none_but_theirs(self) -> None:
        fill(self.log, 1200)
        for name, firsts in (("a", (1, 512, 513)), ("gone", (1, 600))):
            for first in firsts:
                self.store.put(self.log.keys.vote(name, TOLD, first), b"x")
        self.agree(1024)
        Clearing(self.log, 0).run()
        self.assertEqual((self.told_from("a"), self.told_from("gone")), ([], [600]))

    def test_three_at_once_count_everything_once_while_records_come(self) -> None:
        fill(self.log, 1000, "alice")
        self.agree(900)
        counts: List[int] = []
        threads = [threading.Thread(target=lambda: counts.append(Clearing(Log(self.store, "L"), 0).run().records)) for _ in range(3)]
        for thread in threads:
            thread.start()
        fill(self.log, 100, "alice")
        for thread in threads:
            thread.join()
        self.assertEqual((sum(counts), self.has("alice")), (900, 800))
        self.assertEqual(self.store.count(b"L/record/"), self.store.count(b"L/id/"))

    def test_no_submitter_is_raced_with(self) -> None:
        fill(self.log, 100)
        self.agree(80)
        compared: List[bytes] = []
        real = self.store.done

        def noted(body: Body) -> Body:
            compared.extend(decoded(one["key"]) for one in body["compare"])
            return real(body)

        setattr(self.store, "done", noted)
        Clearing(self.log, 0).run()
        self.assertNotIn(self.log.keys.used("anyone"), compared)
        self.assertNotIn(self.log.keys.last, compared)

    def test_a_quota_counts_what_was_cleared(self) -> None:
        self.store.put(self.log.keys.log, self.log.settings()._replace(quotas={"poor": 40}).text())
        fill(self.log, 10, "poor")
        with self.assertRaisesRegex(Refused, "poor has 40 bytes in the log, and may have 40"):
            fill(self.log, 1, "poor")
        self.agree(8)
        Clearing(self.log, 0).run()
        fill(self.log, 8, "poor")
        with self.assertRaisesRegex(Refused, "poor has 40 bytes in the log, and may have 40"):
            fill(self.log, 1, "poor")

    def test_many_operations_at_once_where_the_nodes_take_them(self) -> None:
        self.store.most_operations = 1024
        fill(self.log, 1000)
        self.agree(1000)
        before = self.store.revision
        Clearing(self.log, 0).run()
        self.assertEqual(self.store.count(b"L/record/"), 0)
        self.assertLess(self.store.revision - before, 12)

    def test_ids_that_say_their_time_go_by_it_and_others_with_their_record(self) -> None:
        self.store.put(self.log.keys.log, self.log.settings()._replace(hours=2).text())
        now = int(time.time())
        keys = self.log.keys
        offers = [Offer(f"t{now:08x}-{at}", run(at)) for at in range(8)] + [Offer(f"t1-{at}", run(100 + at)) for at in range(4)]
        list(self.log.append(offers, "anyone", self.log.settings()))
        self.store.put(keys.times, b"%d 12\n" % (now - 2 * 3600 - 60))
        self.agree(12)
        self.assertEqual(Clearing(self.log, 0, now + 60).run().upto, 12)
        self.assertEqual((self.store.count(keys.records), self.store.count(keys.ids)), (0, 8))
        for later, left in ((3 * 3600 - 1, 9), (3 * 3600 + 1, 1)):
            if later < 3 * 3600:
                list(self.log.append([Offer("t2-late", run(300))], "anyone", self.log.settings()))
            Clearing(self.log, 0, now + later).run()
            self.assertEqual(self.store.count(keys.ids), left, later)
        self.assertEqual(self.store.get(keys.id("t2-late")), numbered(13))
        with self.assertRaisesRegex(Unfit, "more than half of the 2"):
            list(self.log.append([Offer(f"t{now - 3700:08x}-0", run(0))], "anyone", self.log.settings()))

    def test_a_record_that_is_kept_keeps_its_id_and_its_pieces_however_old_it_is(self) -> None:
        self.store.put(self.log.keys.log, self.log.settings()._replace(hours=2).text())
        now = int(time.time())
        record = large(INLINE_BYTES)
        offers = [Offer(f"t{now:08x}-{at}", run(at)) for at in range(3)] + [Offer(f"t{now:08x}-large", record)]
        list(self.log.append(offers, "anyone", self.log.settings()))
        self.agree(4)
        for hours in range(0, 12, 2):
            done = Clearing(self.log, 2, now + hours * 3600).run()
            self.assertEqual((done.orphans, self.log.read(4).taken[0].record), (0, record))
        self.assertEqual((done.upto, self.store.count(self.log.keys.ids)), (2, 2))
        Clearing(self.log, 0, now + 12 * 3600).run()
        self.assertEqual((self.store.count(self.log.keys.ids), self.store.count(b"L/piece/")), (0, 0))

    def test_an_id_that_comes_among_those_that_go_stays(self) -> None:
        self.store.put(self.log.keys.log, self.log.settings()._replace(hours=2).text())
        keys, now = self.log.keys, int(time.time())
        fill(self.log, 4)
        for name in ("t00000001-1", "t00000002-2"):
            self.store.put(keys.id(name), numbered(0))
        self.agree(4)
        real = self.store.done

        def with_another(body: Body) -> Body:
            if any("request_delete_range" in one and decoded(one["request_delete_range"]["key"]).startswith(keys.ids) for one in body["success"]):
                setattr(self.store, "done", real)
                list(self.log.append([Offer("t00000001x", run(9))], "anyone", self.log.settings()))
            return real(body)

        setattr(self.store, "done", with_another)
        Clearing(self.log, 0, now).run()
        self.assertEqual(self.store.get(keys.id("t00000001x")), numbered(5))
        self.assertEqual([key for key in self.store.there if key.startswith(keys.id("t0")) and b"-" in key], [])

    def test_two_at_once_count_once_where_no_id_is_compared(self) -> None:
        now = int(time.time())
        self.store.put(self.log.keys.log, self.log.settings()._replace(hours=2).text())
        self.store.put(self.log.keys.times, b"%d 250\n" % (now - 7300))
        offers = [Offer(f"t{now:08x}-{at}", run(at)) for at in range(300)]
        list(self.log.append(offers, "alice", self.log.settings()))
        self.agree(250)
        real = self.store.done

        def with_another_before(body: Body) -> Body:
            if any("request_delete_range" in one for one in body["success"]):
                setattr(self.store, "done", real)
                self.assertEqual(Clearing(self.log, 0, now).run().records, 250)
            return real(body)

        setattr(self.store, "done", with_another_before)
        self.assertEqual(Clearing(self.log, 0, now).run().records, 0)
        self.assertEqual((self.has("alice"), self.store.count(b"L/record/")), (200, 50))

    def test_a_clear_by_other_rules_than_the_logs_does_nothing(self) -> None:
        fill(self.log, 100)
        self.agree(80)
        real = self.store.done

        def with_other_rules(body: Body) -> Body:
            if any("request_delete_range" in one for one in body["success"]):
                setattr(self.store, "done", real)
                self.store.put(self.log.keys.log, self.log.settings()._replace(protocol=5).text())
            return real(body)

        setattr(self.store, "done", with_other_rules)
        with self.assertRaises(OtherProtocol):
            Clearing(self.log, 0).run()
        self.assertEqual(self.store.count(b"L/record/"), 100)


def vote_up_to(log: Log, name: str, number: int) -> None:
    """A vote on all records up to one, by whichever way the log goes."""
    if log.settings().is_chaining():
        chain = OwnChain(0, Point(0, START))
        chain.add([b"%d x\n" % at for at in range(1, number + 1)])
        log.etcd.put(log.keys.own(name, VOTE), ChainVote(chain.end, Point(0, START), 0).text())
    else:
        put_vote(log, name, LINES, number, b"x")


class Roles(unittest.TestCase):
    def test_who_may_submit_may_not_write_lines_and_the_other_way_round(self) -> None:
        keys = Keys("L")
        roles = roles_of(keys, ["a", "b"])

        def may_write(role: str, key: bytes) -> bool:
            return any(kind == "READWRITE" and (first == key if not end else first <= key < end)
                       for kind, first, end in roles[role])

        for key in (keys.record(1), keys.last, keys.id("x"), keys.piece("x", 0), keys.used("alice")):
            self.assertTrue(may_write("L-submitter", key))
            self.assertFalse(may_write("L-by-a", key))
        for key in (keys.vote("a", LINES, 1), keys.vote("a", SAVED, 1), keys.vote("a", PROGRAM, 1)):
            self.assertFalse(may_write("L-submitter", key))
            self.assertTrue(may_write("L-by-a", key))
            self.assertFalse(may_write("L-by-b", key))
        for role in ("L-submitter", "L-by-a", "L-reader"):
            self.assertFalse(may_write(role, keys.log))
            self.assertFalse(may_write(role, keys.cleared))
