import unittest
from typing import List

from ledgerlog.comparing import Comparing
from ledgerlog.errors import Differs
from ledgerlog.keys import LINES, SAVED
from ledgerlog.votes import Vote, decided_against, majority

from .store import Store, made_log, put_vote, votes_of


class Counting(unittest.TestCase):
    def test_more_than_half_of_the_set_is_a_majority(self) -> None:
        self.assertIsNone(majority(LINES, {}, 3))
        self.assertIsNone(majority(LINES, {"a": b"x"}, 3))
        self.assertEqual(majority(LINES, {"a": b"x", "b": b"x"}, 3), b"x")
        self.assertIsNone(majority(LINES, {"a": b"x", "b": b"y", "c": b"z"}, 3))
        self.assertIsNone(majority(LINES, {"a": b"x", "b": b"x"}, 4))
        self.assertEqual(majority(LINES, {"a": b"x"}, 1), b"x")

    def test_only_a_majority_decides_and_only_among_one_form(self) -> None:
        both = {"a": b"MVL2 x", "b": b"MVL2 x"}
        self.assertEqual(decided_against(SAVED, both, 3, b"MVL2 y"), b"MVL2 x")
        self.assertIsNone(decided_against(SAVED, both, 3, b"MVL3 y"))
        self.assertIsNone(decided_against(SAVED, both, 3, b"MVL2 x"))
        self.assertIsNone(decided_against(SAVED, {"a": b"MVL2 x"}, 3, b"MVL2 y"))


class Putting(unittest.TestCase):
    def setUp(self) -> None:
        self.store = Store()
        self.log = made_log(self.store)

    def test_what_stands_in_its_name_stays_unless_the_others_have_decided(self) -> None:
        votes = votes_of(self.log, "a")
        put_vote(self.log, "a", LINES, 1, b"old")
        self.assertEqual(votes.put(LINES, [Vote(1, b"new"), Vote(2, b"two")]), [Vote(1, b"new")])
        self.assertEqual(votes.of(LINES, 1), {"a": b"old"})
        self.assertEqual(votes.of(LINES, 2), {"a": b"two"})
        put_vote(self.log, "b", LINES, 1, b"new")
        self.assertFalse(votes.replace(LINES, Vote(1, b"new"))[0])
        put_vote(self.log, "c", LINES, 1, b"new")
        self.assertTrue(votes.replace(LINES, Vote(1, b"new"))[0])
        self.assertEqual(votes.final(LINES, 1), b"new")

    def test_a_vote_that_may_count_never_changes(self) -> None:
        votes = votes_of(self.log, "a")
        put_vote(self.log, "a", LINES, 1, b"old")
        put_vote(self.log, "b", LINES, 1, b"new")
        put_vote(self.log, "c", LINES, 1, b"old")
        self.assertFalse(votes.replace(LINES, Vote(1, b"new"))[0])
        self.assertEqual(votes.final(LINES, 1), b"old")

    def test_one_outside_the_set_puts_nothing(self) -> None:
        before = dict(self.store.there)
        self.assertEqual(votes_of(self.log, "other").put(LINES, [Vote(1, b"x")]), [])
        self.assertEqual(self.store.there, before)

    def test_more_than_a_transaction_takes_is_put(self) -> None:
        made = [Vote(number, b"%d" % number) for number in range(1, 351)]
        put_vote(self.log, "a", LINES, 150, b"old")
        self.assertEqual(votes_of(self.log, "a").put(LINES, made), [Vote(150, b"150")])
        self.assertEqual(self.store.count(b"L/by/a/lines/"), 350)

    def test_who_has_put_no_lines_has_answered_nothing(self) -> None:
        votes = votes_of(self.log, "a")
        self.assertEqual(votes.newest_lines("a", 5000), 0)
        put_vote(self.log, "a", LINES, 1, b"x")
        self.assertEqual((votes.newest_lines("a", 5000), votes.newest_lines("a", 1)), (1, 1))

    def test_the_newest_save_that_a_majority_has(self) -> None:
        for name, number, value in (("a", 4, b"x"), ("b", 4, b"x"), ("c", 4, b"y"), ("a", 8, b"z"), ("c", 8, b"w"),
                                    ("b", 6, b"v")):
            put_vote(self.log, name, SAVED, number, value)
        self.assertEqual(votes_of(self.log, "a").newest_agreed_save(8), Vote(4, b"x"))
        put_vote(self.log, "b", SAVED, 8, b"z")
        self.assertEqual(votes_of(self.log, "a").newest_agreed_save(8), Vote(8, b"z"))
        self.assertEqual(votes_of(self.log, "a").newest_agreed_save(7), Vote(4, b"x"))


class ComparingVotes(unittest.TestCase):
    def setUp(self) -> None:
        self.log = made_log(Store())
        self.told: List[str] = []
        self.one = Comparing(votes_of(self.log, "a"), self.told.append)

    def test_a_replica_that_differs_is_named_once_and_this_one_goes_on(self) -> None:
        for number in (1, 2):
            put_vote(self.log, "b", LINES, number, b"wrong")
            put_vote(self.log, "c", LINES, number, b"right")
        self.one.put(LINES, [Vote(1, b"right"), Vote(2, b"right")])
        self.one.look()
        self.assertEqual(len(self.told), 1)
        self.assertIn("REPLICA b DIFFERS: the lines of record 1: it has put 'wrong', and this one made 'right'; a majority",
                      self.told[0])
        self.assertEqual(self.one.differing, {"b": 1})

    def test_while_no_majority_has_decided_it_goes_on(self) -> None:
        put_vote(self.log, "b", LINES, 1, b"other")
        self.one.put(LINES, [Vote(1, b"mine")])
        self.one.look()
        self.assertIn("no majority has decided yet", self.told[0])
        put_vote(self.log, "c", LINES, 1, b"other")
        with self.assertRaisesRegex(Differs, "a majority of the replicas has voted for 'other', and this one made 'mine'"):
            self.one.look()

    def test_what_others_put_later_is_compared_too(self) -> None:
        self.one.put(LINES, [Vote(number, b"x") for number in range(1, 301)])
        self.one.look()
        for number in range(1, 301):
            put_vote(self.log, "b", LINES, number, b"x" if number < 290 else b"y")
        for _ in range(4):
            self.one.look()
        self.assertEqual(self.one.differing, {"b": 290})

    def test_wrong_lines_in_its_own_name_are_replaced_when_the_others_have_decided(self) -> None:
        put_vote(self.log, "a", LINES, 1, b"forged")
        self.assertFalse(self.one.put(LINES, [Vote(1, b"right")]))
        self.assertIn("this replica's own name", self.told[0])
        for name in "bc":
            put_vote(self.log, name, LINES, 1, b"right")
        self.one.look()
        self.assertEqual(self.one.votes.of(LINES, 1), dict.fromkeys("abc", b"right"))
        self.assertFalse(self.one.held)

    def test_what_is_made_again_is_put_and_compared_anew(self) -> None:
        put_vote(self.log, "a", LINES, 3, b"forged")
        self.one.put(LINES, [Vote(number, b"x") for number in (1, 2, 3)])
        self.assertEqual(self.one.held, {(LINES, 3): b"x"})
        self.one.forget_from(3)
        self.assertEqual((self.one.held, self.one.made[LINES]), ({}, {1: b"x", 2: b"x"}))

    def test_where_lines_are_chained_no_vote_on_a_record_is_held(self) -> None:
        for kind in (LINES, SAVED):
            put_vote(self.log, "a", kind, 4, b"forged")
            self.one.put(kind, [Vote(4, b"mine")])
        self.one.forget_lines()
        self.assertEqual((self.one.held, self.one.made), ({(SAVED, 4): b"mine"}, {LINES: {}, SAVED: {4: b"mine"}}))

    def test_where_all_is_compared_nothing_is_asked(self) -> None:
        self.one.put(LINES, [Vote(1, b"x")])
        for name in "bc":
            put_vote(self.log, name, LINES, 1, b"x")
        self.one.look()
        asked: List[object] = []
        setattr(self.one.votes, "since", asked.append)
        self.one.look()
        self.assertEqual(asked, [])

    def test_a_save_that_a_majority_contradicts_stops_it(self) -> None:
        self.one.put(SAVED, [Vote(4, b"MVL2 mine")])
        put_vote(self.log, "b", SAVED, 4, b"MVL3 other")
        put_vote(self.log, "c", SAVED, 4, b"MVL2 other")
        self.one.look()
        self.assertIn("REPLICA c DIFFERS: the ledger saved after record 4", self.told[0])
        log = made_log(Store())
        one = Comparing(votes_of(log, "a"), self.told.append)
        one.put(SAVED, [Vote(4, b"MVL2 mine")])
        for name in "bc":
            put_vote(log, name, SAVED, 4, b"MVL2 other")
        with self.assertRaisesRegex(Differs, "the ledger saved after record 4: a majority of the replicas has voted for 'MVL2 other'"):
            one.look()

    def test_wrong_lines_that_others_agree_with_stop_it(self) -> None:
        put_vote(self.log, "a", LINES, 1, b"other")
        put_vote(self.log, "b", LINES, 1, b"other")
        with self.assertRaises(Differs):
            self.one.put(LINES, [Vote(1, b"mine")])
