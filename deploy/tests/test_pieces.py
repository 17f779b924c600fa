import threading
import time
import unittest
from typing import Callable, List, Optional, Tuple

from ledgerlog import appending, written
from ledgerlog.chains import START
from ledgerlog.clearing import Clearing
from ledgerlog.errors import LogError, OtherRecord, Unreachable
from ledgerlog.keys import LINES, SAVED
from ledgerlog.log import Log, Offer, parts_of
from ledgerlog.records import MOST_BYTES
from ledgerlog.repairing import repair_record
from ledgerlog.requests import Body
from ledgerlog.saves import SavedVote
from ledgerlog.written import INLINE_BYTES, PIECES, Taken, count_of_pieces

from .store import PATIENCE, SET, Store, decoded, fill, for_now, made_log, put_vote
from .test_log import large

# Pieces that are put in less time.
PIECE_BYTES = 20_000
# More moments than a record has requests on its way.
MOMENTS = 12


def other(size: int) -> bytes:
    """A record of the same length with another payload."""
    record = large(size)
    return record[:-size] + b"\7" * size


FIRST, SECOND = large(2 * PIECE_BYTES), other(2 * PIECE_BYTES)


def puts_in(path: str, body: Body) -> List[bytes]:
    """The keys that a request puts."""
    puts = [body] if path == "/v3/kv/put" else [one["request_put"] for one in body.get("success", ()) if "request_put" in one]
    return [decoded(one["key"]) for one in puts]


class Died(Exception):
    """A submitter ends here."""


class Way(Store):
    """One submitter's way to a store. `before` is called before each of its requests, with how many there were and what this one puts."""

    def __init__(self, store: Store, before: Callable[[int, List[bytes]], None] = lambda count, keys: None) -> None:
        super().__init__()
        self.store = store
        self.before = before
        self.asked = 0
        self.patience = PATIENCE
        # What puts a piece, and goes this way a second time, late.
        self.late: List[Tuple[str, Body]] = []

    def another(self) -> "Way":
        return Way(self.store, self.before)

    def ask(self, path: str, body: Body) -> Body:
        keys = puts_in(path, body)
        self.before(self.asked, keys)
        self.asked += 1
        if any(b"/piece/" in key for key in keys):
            self.late.append((path, body))
        return self.store.ask(path, body)


def append(etcd: Store, record: bytes, name: str = "x") -> int:
    log = Log(etcd, "L")
    return list(log.append([Offer(name, record)], "anyone", log.settings()))[0]


def outcome(etcd: Store, record: bytes) -> Optional[int]:
    """The number that a record gets; None where another one has its id."""
    try:
        return append(etcd, record)
    except OtherRecord:
        return None


class WithPieces(unittest.TestCase):
    def setUp(self) -> None:
        for_now(self, appending, LEAST_AWAITED=0.001)
        for_now(self, written, PIECE_BYTES=PIECE_BYTES)
        self.made()

    def made(self) -> None:
        self.store = Store()
        self.log = made_log(self.store)

    def taken(self) -> List[Taken]:
        return self.log.read(1).taken


class LargeRecordsOfOneId(WithPieces):

    def at(self, moment: int, act: Callable[[], None]) -> Way:
        """A way on which something happens before the request that has this place."""
        return Way(self.store, lambda count, keys: act() if count == moment else None)

    def test_one_of_two_is_put_whole_and_the_other_is_told_so(self) -> None:
        for moment in range(MOMENTS):
            with self.subTest(moment):
                self.made()
                second: List[Optional[int]] = []
                first = outcome(self.at(moment, lambda: second.append(outcome(Way(self.store), SECOND))), FIRST)
                second = second or [outcome(self.store, SECOND)]
                self.assertEqual(sorted([first or 0, second[0] or 0]), [0, 1])
                self.assertEqual(self.taken(), [Taken(FIRST if first else SECOND)])

    def test_one_of_two_is_put_whole_where_each_goes_on_between_the_others_requests(self) -> None:
        records = FIRST, SECOND
        for _ in range(3):
            self.made()
            found: List[Optional[int]] = [None, None]

            def put(at: int) -> None:
                found[at] = outcome(Way(self.store, lambda count, keys: time.sleep(0.002)), records[at])

            threads = [threading.Thread(target=put, args=(at,)) for at in range(2)]
            for thread in threads:
                thread.start()
            for thread in threads:
                thread.join()
            self.assertEqual(sorted(number or 0 for number in found), [0, 1])
            self.assertEqual(self.taken(), [Taken(records[found.index(1)])])

    def test_a_piece_that_comes_late_changes_nothing(self) -> None:
        """Whenever it comes, while another record is put by its id and behind that."""
        for moment in range(MOMENTS):
            with self.subTest(moment):
                self.made()
                first = Way(self.store, dies_before_record)
                with self.assertRaises(Died):
                    append(first, FIRST)

                def come() -> None:
                    for path, body in first.late:
                        self.store.ask(path, body)

                self.store.forget(*[key for key in self.store.there if b"/piece/" in key])
                second = self.at(moment, come)
                self.assertEqual(append(second, SECOND), 1)
                self.assertEqual(self.taken(), [Taken(SECOND)])
                come()
                self.assertEqual(self.taken(), [Taken(SECOND)])
                self.assertIsNone(outcome(self.store, FIRST))

    def test_a_piece_of_its_own_that_comes_late_changes_nothing(self) -> None:
        way = Way(self.store)
        self.assertEqual(append(way, FIRST), 1)
        before = dict(self.store.there)
        for path, body in way.late:
            self.store.ask(path, body)
        self.assertEqual(self.store.there, before)

    def test_the_same_record_is_put_once_by_two_at_once(self) -> None:
        for moment in range(MOMENTS):
            with self.subTest(moment):
                self.made()
                second: List[int] = []
                first = append(self.at(moment, lambda: second.append(append(Way(self.store), FIRST))), FIRST)
                self.assertEqual([first, *(second or [1])], [1, 1])
                self.assertEqual(self.taken(), [Taken(FIRST)])

    def test_the_same_record_is_put_once_by_each_try(self) -> None:
        self.assertEqual([append(self.store, FIRST) for _ in range(2)], [1, 1])
        self.assertEqual(self.taken(), [Taken(FIRST)])

    def test_pieces_of_one_who_died_are_taken_for_the_same_record(self) -> None:
        with self.assertRaises(Died):
            append(Way(self.store, dies_before_record), FIRST)
        before = self.changes()
        self.assertEqual((len(before), self.log.last()), (3, 0))
        self.assertEqual(append(self.store, FIRST), 1)
        self.assertEqual(self.changes(), before)
        self.assertEqual(self.taken(), [Taken(FIRST)])

    def changes(self) -> List[int]:
        return [changed for key, (_, _, changed) in sorted(self.store.there.items()) if b"/piece/" in key]

    def test_pieces_of_one_who_died_make_way_for_another_record(self) -> None:
        for record in (SECOND, other(PIECE_BYTES)):
            self.made()
            with self.assertRaises(Died):
                append(Way(self.store, dies_before_record), FIRST)
            self.assertEqual(append(self.store, record), 1)
            self.assertEqual(self.taken(), [Taken(record)])
            self.assertEqual(self.store.count(b"L/piece/"), 3)
            self.clear(1)
            self.assertEqual(self.store.count(b"L/piece/"), 0)

    def clear(self, number: int) -> int:
        """Clears what lies before a save of all. Of how many that never came the pieces were removed."""
        for name in SET:
            put_vote(self.log, name, SAVED, number, SavedVote(b"MVL2 %d" % number, START, 1).value())
        return Clearing(self.log, 0).run().orphans

    def test_pieces_of_one_who_died_are_cleared(self) -> None:
        with self.assertRaises(Died):
            append(Way(self.store, dies_before_record), FIRST)
        fill(self.log, 1)
        self.assertEqual([self.clear(1), self.clear(1)], [0, 1])
        self.assertEqual(self.store.count(b"L/piece/"), 0)

    def test_pieces_that_are_cleared_meanwhile_are_put_again(self) -> None:
        fill(self.log, 1)
        for moment in range(MOMENTS):
            with self.subTest(moment):
                number = append(self.at(moment, lambda: self.store.delete(b"L/piece/", b"L/piece0")), FIRST, f"x{moment}")
                self.assertEqual(self.log.read(number).taken, [Taken(FIRST)])

    def test_a_piece_that_comes_late_behind_a_clear_is_cleared_too(self) -> None:
        way = Way(self.store)
        append(way, FIRST)
        self.clear(1)
        for path, body in way.late:
            self.store.ask(path, body)
        self.assertEqual(self.store.count(b"L/piece/"), 3)
        self.assertEqual([self.clear(1), self.clear(1)], [0, 1])
        self.assertEqual(self.store.count(b"L/piece/"), 0)

    def test_who_finds_others_pieces_again_and_again_gives_up(self) -> None:
        def spoil(count: int, keys: List[bytes]) -> None:
            if any(b"/record/" in key for key in keys):
                self.store.put(self.log.keys.piece("x", 1), b"%d" % count)

        way = Way(self.store, spoil)
        way.patience = 0.2
        with self.assertRaisesRegex(Unreachable, "another record is being put by the id x"):
            append(way, FIRST)
        self.assertEqual(self.log.last(), 0)

    def test_who_found_others_pieces_puts_its_record_within_the_time_that_is_left(self) -> None:
        spoiled: List[int] = []

        def spoil(count: int, keys: List[bytes]) -> None:
            if any(b"/record/" in key for key in keys) and len(spoiled) < 2:
                spoiled.append(count)
                self.store.put(self.log.keys.piece("x", 1), b"%d" % count)

        self.assertEqual(append(Way(self.store, spoil), FIRST), 1)
        self.assertEqual((len(spoiled), self.taken()), (2, [Taken(FIRST)]))

    def test_pieces_are_put_for_none_whose_submitter_may_put_no_more(self) -> None:
        self.store.put(self.log.keys.log, self.log.settings()._replace(quota=4 * PIECE_BYTES).text())
        offers = [Offer("x", FIRST), Offer("y", SECOND)]
        with self.assertRaises(LogError):
            list(self.log.append(offers, "anyone", self.log.settings()))
        self.assertEqual(self.store.count(b"L/piece/"), 0)


class RepairingARecord(WithPieces):
    """Where pieces are lost of a record whose lines are final."""

    def made(self) -> None:
        self.store = Store()
        self.log = made_log(self.store, protocol=2)
        append(self.store, FIRST)

    def answered(self, lines: bytes = b"1 refused 1\n") -> None:
        for name in SET[:2]:
            put_vote(self.log, name, LINES, 1, lines)

    def lose(self) -> None:
        self.store.forget(self.log.keys.piece("x", 1))

    def repair(self, record: bytes = FIRST, number: int = 1) -> None:
        repair_record(self.log, number, record)

    def test_pieces_that_are_gone_or_were_overwritten_are_put_again(self) -> None:
        self.answered()
        for text in None, b"junk":
            if text is None:
                self.lose()
            else:
                self.store.put(self.log.keys.piece("x", 2), text)
            self.assertEqual(self.taken(), [Taken(b"", PIECES)])
            self.repair()
            self.assertEqual(self.taken(), [Taken(FIRST)])
        fill(self.log, 1)
        self.assertEqual(append(self.store, FIRST), 1)

    def test_what_is_whole_or_is_no_large_record_or_another_is_not_repaired(self) -> None:
        self.answered()
        fill(self.log, 1)
        with self.assertRaisesRegex(LogError, "has all its pieces"):
            self.repair()
        self.lose()
        for record in SECOND, FIRST + b"\0", large(INLINE_BYTES - 4), b"":
            with self.assertRaisesRegex(LogError, "aren't those of record 1"):
                self.repair(record)
        for number in 0, 2, 3:
            with self.assertRaisesRegex(LogError, f"no record {number} that lies in pieces"):
                self.repair(number=number)
        self.assertEqual(self.taken()[0], Taken(b"", PIECES))

    def test_what_is_not_final_or_was_skipped_is_not_repaired(self) -> None:
        self.lose()
        with self.assertRaisesRegex(LogError, "the lines of record 1 aren't final"):
            self.repair()
        self.answered(b"1 skipped pieces\n")
        with self.assertRaisesRegex(LogError, "answered as skipped"):
            self.repair()
        self.assertEqual(self.taken(), [Taken(b"", PIECES)])

    def test_what_is_changed_meanwhile_is_not_put(self) -> None:
        self.answered()
        self.lose()
        value = self.store.get(self.log.keys.record(1)) or b""
        for key, to in (self.log.keys.record(1), value), (self.log.keys.piece("x", 0), b"junk"):
            def change(count: int, keys: List[bytes]) -> None:
                if self.log.keys.record(1) in keys:
                    self.store.put(key, to)

            with self.assertRaisesRegex(LogError, "changed meanwhile"):
                repair_record(Log(Way(self.store, change), "L"), 1, FIRST)
            self.lose()
        self.repair()
        self.assertEqual(self.taken(), [Taken(FIRST)])


class TheLargestRecord(unittest.TestCase):
    def test_one_transaction_compares_the_pieces_of_as_many_as_it_may(self) -> None:
        record = large(MOST_BYTES)
        self.assertEqual(count_of_pieces(record), 33)
        self.assertEqual([len(part) for part in parts_of([Offer(f"x{at}", record) for at in range(4)])], [3, 1])


def dies_before_record(count: int, keys: List[bytes]) -> None:
    if any(b"/record/" in key for key in keys):
        raise Died
