import time
import unittest
from typing import List

from ledgerlog.clearing import Cleared, Clearing
from ledgerlog.errors import LogError, Refused
from ledgerlog.keys import SAVED, numbered
from ledgerlog.log import Offer
from ledgerlog.times import GAP_SECONDS, HOUR, Mark, marked, marks_in, new_record_id, newest_before, text_of, untimely

from .served import Served
from .store import SET, Store, fill, made_log, put_vote, run
from .test_commands import done

NOW = 1_800_000_000


def made(hours: float) -> str:
    """An id that says that it was made so many hours ago."""
    return f"t{int(time.time() - hours * HOUR):08x}-x"


class Marks(unittest.TestCase):
    def test_what_is_written_is_read_and_junk_is_left_out(self) -> None:
        marks = [Mark(NOW, 5), Mark(NOW + 1000, 9)]
        self.assertEqual(marks_in(text_of(marks) + b"junk\n-1 2\n3\n"), marks)
        self.assertEqual(marks_in(None), [])

    def test_a_mark_is_made_now_and_then_and_old_ones_go(self) -> None:
        self.assertEqual(marked([], NOW, 3, 1), [Mark(NOW, 3)])
        self.assertEqual(marked([Mark(NOW, 3)], NOW + GAP_SECONDS - 1, 4, 1), [Mark(NOW, 3)])
        marks: List[Mark] = []
        for at in range(20):
            marks = marked(marks, NOW + at * GAP_SECONDS, at, 1)
        self.assertEqual(newest_before(marks, NOW + 19 * GAP_SECONDS - HOUR), marks[0])
        self.assertEqual(len(marks), 1 + HOUR // GAP_SECONDS)


class Keeping(unittest.TestCase):
    def setUp(self) -> None:
        self.store = Store()
        self.log = made_log(self.store, hours=24)

    def clear(self, hours: float) -> Cleared:
        last = self.log.last()
        for name in SET:
            put_vote(self.log, name, SAVED, last, b"MVL2 %d" % last)
        return Clearing(self.log, 2, NOW + hours * HOUR).run()

    def test_records_are_kept_by_time_and_by_number(self) -> None:
        fill(self.log, 40)
        self.assertEqual((self.clear(0).upto, self.clear(0).is_young), (0, True))
        fill(self.log, 40)
        self.assertEqual(self.clear(23.9).upto, 0)
        self.assertEqual(self.clear(24).upto, 40)
        self.assertEqual(self.clear(48).upto, 78)
        self.assertEqual(self.clear(48).is_young, False)

    def test_a_clock_that_is_behind_a_mark_clears_nothing(self) -> None:
        fill(self.log, 40)
        self.clear(30)
        with self.assertRaisesRegex(LogError, "seconds ahead of this one"):
            self.clear(0)

    def test_a_payment_that_is_repeated_when_its_record_was_cleared_is_refused(self) -> None:
        record_id = made(13)
        fill(self.log, 3)
        self.store.put(self.log.keys.id(record_id), self.store.get(self.log.keys.last) or b"")
        value = b"\0" + record_id.encode() + b" anyone\n" + run(3)
        self.store.put(self.log.keys.record(3), value)

        def again() -> List[int]:
            return list(self.log.append([Offer(record_id, run(3))], "anyone", self.log.settings()))

        self.assertEqual(again(), [3])
        self.store.delete(self.log.keys.id(record_id), self.log.keys.id(record_id) + b"\0")
        with self.assertRaisesRegex(Refused, "was made 13.0 hours ago, more than half of the 24"):
            again()
        self.assertEqual(self.log.last(), 3)

    def test_ids_say_when_they_were_made(self) -> None:
        for record_id in (new_record_id(), made(11.9), made(-0.1), "mine", "t0-x", "t00000000", "tea-0"):
            self.assertIsNone(untimely(record_id, 24))
        self.assertIsNotNone(untimely(made(12.1), 24))
        self.assertIsNotNone(untimely(made(-0.5), 24))
        self.assertIsNone(untimely(made(100), 0))

    def test_upper_case_says_when_an_id_was_made_too(self) -> None:
        for hours, is_refused in (0, False), (11.9, False), (12.1, True), (-0.5, True):
            record_id = "t" + made(hours)[1:].upper()
            with self.subTest(record_id):
                self.assertEqual(untimely(record_id, 24) is not None, is_refused)

    def test_an_id_in_upper_case_does_not_go_by_the_order_of_keys(self) -> None:
        self.store.put(self.log.keys.log, self.log.settings()._replace(protocol=4).text())
        keys = [self.log.keys.id(name) for name in (f"t{NOW:08x}-x", f"t{NOW + 47 * HOUR:08X}-x")]
        for key in keys:
            self.store.put(key, numbered(0))
        Clearing(self.log, 2, NOW + 48 * HOUR).remove_ids()
        self.assertEqual([self.store.get(key) for key in keys], [None, numbered(0)])

    def test_the_command_makes_such_ids_and_refuses_old_ones(self) -> None:
        node = Served(self.store)
        self.addCleanup(node.close)
        self.assertEqual(done(["submit", *node.words(), "-"], run(1)).returncode, 0)
        self.assertEqual(self.store.count(b"L/id/t"), 1)
        it = done(["submit", *node.words(), "--id", made(13), "-"], run(1))
        self.assertEqual(it.returncode, 3, it.stderr)
        self.assertNotIn(b"try again", it.stderr)
        self.assertEqual(done(["log", *node.words(), "set", "--hours", "48"]).returncode, 0)
        self.assertEqual(done(["submit", *node.words(), "--id", made(13), "-"], run(1)).returncode, 0)
