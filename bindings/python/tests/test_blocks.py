"""Blocks as scopes in all orders, calls that a signal's handler breaks off, and calls from within a call.
usage: python3 -m unittest discover -s bindings/python/tests    from the repository's top, with bindings/python on PYTHONPATH"""

import random
import signal
import threading
import time
import unittest
from contextlib import contextmanager
from types import FrameType
from typing import Callable, Generator, Iterator, List, Optional

import moveledger

from test_ledger import COIN, PUBLISH, mint

# How many records take so long that an alarm comes while they are answered, and how many scopes are broken off at random.
MANY, SCOPES = 15_000, 1_500


class Alarm(Exception):
    """What the handler of an alarm raises, as that of Ctrl-C raises KeyboardInterrupt."""


class WithLedger(unittest.TestCase):
    """A ledger with the coin's module, and what it holds."""

    def setUp(self) -> None:
        self.ledger = moveledger.Ledger()
        self.addCleanup(self.ledger.close)
        self.ledger.apply(PUBLISH)

    def held(self) -> List[int]:
        """The addresses that have a coin."""
        return [int(line.address, 16) for line in self.ledger.show()]

    def has(self, *addresses: int, answered: int) -> None:
        """No block is open, and so many records have been answered, of which the coins are those of these addresses."""
        self.assertEqual((self.held(), self.ledger.answered, self.ledger.open_blocks), ([*addresses], answered, 0))
        for call in self.ledger.rollback, self.ledger.commit:
            self.assertRaises(moveledger.NoBlock, call)

    def minting(self, sender: int) -> Generator[None, None, None]:
        """A scope that mints, and waits in its block."""
        with self.ledger.block() as block:
            block.apply(mint(sender))
            yield


class Scopes(WithLedger):
    def test_an_outer_block_is_taken_back_from_within(self) -> None:
        with self.ledger.block() as outer:
            outer.apply(mint(1))
            with self.ledger.block() as inner:
                inner.apply(mint(2))
                outer.rollback()
                self.has(answered=1)
                self.assertRaises(moveledger.NoBlock, inner.apply, mint(3))
                self.assertRaises(moveledger.NoBlock, inner.rollback)
        self.has(answered=1)

    def test_only_what_is_within_a_block_goes_with_it(self) -> None:
        with self.ledger.block() as outermost:
            outermost.apply(mint(1))
            with self.ledger.block() as outer:
                with self.ledger.block() as inner:
                    inner.apply(mint(2))
                    outer.rollback()
                self.assertEqual((self.held(), self.ledger.open_blocks), ([1], 1))
            outermost.apply(mint(3))
        self.has(1, 3, answered=3)

    def test_a_block_is_open_once(self) -> None:
        block = self.ledger.block()
        with block:
            block.apply(mint(1))
            with self.assertRaisesRegex(RuntimeError, "is open already"):
                with block:
                    self.fail("it isn't opened")
            block.apply(mint(2))
        self.has(1, 2, answered=3)
        with self.assertRaises(KeyError), block:
            block.apply(mint(3))
            raise KeyError
        self.has(1, 2, answered=3)

    def test_a_scope_that_is_collected_takes_back_its_own_block(self) -> None:
        with self.assertRaisesRegex(moveledger.NoBlock, "one around it"):
            waiting = self.minting(1)
            next(waiting)
            with self.ledger.block() as within:
                within.apply(mint(2))
                del waiting
                self.assertEqual((self.held(), self.ledger.open_blocks), ([], 0))
                self.assertRaises(moveledger.NoBlock, within.apply, mint(3))
        self.has(answered=1)

    def test_a_scope_that_ends_around_an_open_block_is_taken_back(self) -> None:
        with self.assertRaisesRegex(RuntimeError, "within this one"), self.ledger.block() as block:
            block.apply(mint(1))
            self.ledger.begin()
            self.ledger.apply(mint(2))
        self.has(answered=1)
        waiting = self.minting(3)
        with self.assertRaises(KeyError), self.ledger.block():
            next(waiting)
            raise KeyError
        self.has(answered=1)
        self.assertRaises(moveledger.NoBlock, next, waiting)
        self.has(answered=1)

    def test_a_block_that_is_not_open_answers_nothing(self) -> None:
        def answers_nothing(block: moveledger.Block) -> None:
            calls: List[Callable[[], object]] = [lambda: block.apply(mint(5)), block.changes, block.changed_modules, block.rollback]
            for around in False, True:
                if around:
                    self.ledger.begin()
                for call in calls:
                    self.assertRaises(moveledger.NoBlock, call)
            self.ledger.rollback()
            self.has(answered=1)

        answers_nothing(self.ledger.block())
        with self.ledger.block() as block:
            self.assertEqual(block.changes(), [])
            self.assertEqual(block.changed_modules(), [])
            block.rollback()
            answers_nothing(block)
        answers_nothing(block)
        with self.assertRaises(moveledger.NoBlock), self.ledger.block() as block:
            block.rollback()
            block.apply(mint(4))
        self.has(answered=1)

    def test_a_block_may_be_closed_by_the_ledger(self) -> None:
        with self.ledger.block() as block:
            block.apply(mint(1))
            self.ledger.rollback()
        self.has(answered=1)
        with self.assertRaises(KeyError), self.ledger.block() as block:
            block.apply(mint(2))
            self.ledger.commit()
            raise KeyError
        self.has(2, answered=2)

    def test_a_ledger_may_be_closed_in_a_scope(self) -> None:
        with self.assertRaises(ValueError), self.ledger.block():
            self.ledger.close()
        self.ledger = moveledger.Ledger()
        with self.assertRaises(KeyError) as left, self.ledger.block():
            self.ledger.close()
            raise KeyError
        self.assertIsNone(left.exception.__context__)
        self.assertEqual(self.ledger.open_blocks, 0)

    def test_open_blocks_are_counted(self) -> None:
        for depth in range(5):
            self.assertEqual(self.ledger.open_blocks, depth)
            self.ledger.begin()
        self.ledger.commit()
        self.ledger.rollback()
        self.assertEqual(self.ledger.open_blocks, 3)


@unittest.skipUnless(hasattr(signal, "setitimer") and threading.current_thread() is threading.main_thread(), "there are no alarms")
class Signals(WithLedger):
    """What a signal's handler breaks off by an exception."""

    def setUp(self) -> None:
        super().setUp()
        before = signal.signal(signal.SIGALRM, self.ring)
        self.addCleanup(signal.signal, signal.SIGALRM, before)
        self.is_on = False

    def ring(self, number: int, frame: Optional[FrameType]) -> None:
        if self.is_on:
            raise Alarm

    @contextmanager
    def alarm(self, seconds: float) -> Iterator[None]:
        """An alarm after so many seconds, unless the scope has ended before."""
        try:
            self.is_on = True
            signal.setitimer(signal.ITIMER_REAL, seconds)
            yield
        finally:
            self.is_on = False
            signal.setitimer(signal.ITIMER_REAL, 0)

    def is_broken_off(self, seconds: float, call: Callable[[], object]) -> bool:
        """Whether an alarm comes while a call goes on."""
        try:
            with self.alarm(seconds):
                call()
        except Alarm:
            return True
        return False

    def break_off(self, call: Callable[[], object], is_done: Callable[[], object]) -> None:
        """Has a call broken off while the library is at work. Where the alarm came before that, nothing was done, and it is called again."""
        for _ in range(50):
            self.assertTrue(self.is_broken_off(0.003, call))
            if is_done():
                return
        self.fail("no call was broken off at work")

    def break_off_apply(self, records: bytes) -> None:
        runs = self.ledger.runs()
        self.break_off(lambda: self.ledger.apply(records), lambda: self.ledger.runs() > runs)

    def test_apply_is_broken_off(self) -> None:
        records = b"".join(mint(sender) for sender in range(MANY))
        with moveledger.Ledger() as plain:
            plain.apply(PUBLISH)
            wanted = plain.apply(records).text
        self.break_off_apply(records)
        self.assertEqual((self.ledger.answered, self.ledger.runs(), len(self.held())), (MANY + 1, MANY, MANY))
        report = self.ledger.missed_report()
        assert report is not None
        self.assertEqual(report.text, wanted)
        self.assertIsNone(self.ledger.missed_report())
        self.assertEqual(self.ledger.apply(mint(MANY)).text, f"{MANY + 2} returned 5\n")
        self.assertIsNone(self.ledger.missed_report())

    def test_missed_reports_are_kept_in_order(self) -> None:
        for begin in 0, MANY:
            records = b"".join(mint(sender) for sender in range(begin, begin + MANY))
            self.break_off_apply(records)
        self.assertEqual(self.ledger.apply(mint(2 * MANY)).text, f"{2 * MANY + 2} returned 5\n")
        self.ledger.close()
        report = self.ledger.missed_report()
        assert report is not None
        self.assertEqual([line.record for line in report], list(range(2, 2 * MANY + 2)))
        self.assertIsNone(self.ledger.missed_report())

    def test_apply_in_a_block_is_broken_off(self) -> None:
        records = b"".join(mint(sender) for sender in range(MANY))

        def scope() -> None:
            with self.ledger.block() as block:
                block.apply(records)

        reports: List[moveledger.Report] = []

        def is_missed() -> bool:
            self.has(answered=1)
            report = self.ledger.missed_report()
            reports.extend([report] if report else [])
            return bool(reports)

        self.break_off(scope, is_missed)
        self.assertEqual([len(report) for report in reports], [MANY])

    def test_rollback_is_broken_off(self) -> None:
        """Of several tries one at least is broken off; and in all the count is the ledger's."""
        records, broken_off = b"".join(mint(sender) for sender in range(MANY)), 0
        for _ in range(5):
            self.ledger.begin()
            self.ledger.apply(records)
            broken_off += self.is_broken_off(0.001, self.ledger.rollback)
            self.has(answered=1)
        self.assertGreater(broken_off, 0)

    def test_scopes_are_broken_off_at_any_moment(self) -> None:
        """A block that is left open is counted, and can be taken back; then all is as before. It is rare that a scope's end doesn't begin."""
        chance, saved, left_open, broken_off = random.Random(1), self.ledger.save(), 0, 0

        def scope() -> None:
            with self.ledger.block() as block:
                block.apply(mint(1))
                block.rollback()

        for _ in range(SCOPES):
            broken_off += self.is_broken_off(chance.uniform(1e-6, 60e-6), scope)
            left_open += self.ledger.open_blocks
            while self.ledger.open_blocks:
                self.ledger.rollback()
            self.assertEqual((self.ledger.save(), self.ledger.answered), (saved, 1))
            self.assertRaises(moveledger.NoBlock, self.ledger.rollback)
        self.assertLess(left_open, SCOPES // 10)
        self.assertGreater(broken_off, 0)

    def test_each_report_is_given_or_missed(self) -> None:
        chance, lost, missed = random.Random(2), 0, 0
        for _ in range(SCOPES):
            report, answered = None, self.ledger.answered
            try:
                with self.alarm(chance.uniform(1e-6, 60e-6)):
                    report = self.ledger.apply(mint(1))
            except Alarm:
                pass
            left = self.ledger.missed_report()
            missed += left is not None
            told = [line.record for each in (report, left) if each is not None for line in each]
            if told or self.ledger.answered != answered + 1:
                self.assertEqual(told, list(range(answered + 1, self.ledger.answered + 1)))
            else:
                # (an old Python may raise what a handler raises after `apply` has given its report, before that is named)
                lost += 1
        self.assertGreater(missed, 0)
        self.assertLess(lost, SCOPES // 100)

    def test_the_end_of_a_scope_is_broken_off_while_it_waits(self) -> None:
        reading = Reading(self.ledger, 0.3)
        with self.assertRaises(Alarm), self.alarm(30):
            with self.ledger.block() as block:
                block.apply(mint(1))
                reading.begin()
                signal.setitimer(signal.ITIMER_REAL, 0.1)
        reading.thread.join()
        self.has(answered=1)

    def test_a_call_from_a_handler_is_refused(self) -> None:
        """It comes while `apply` is at work, for which it would wait for ever."""
        rung: List[object] = []

        def ring(number: int, frame: Optional[FrameType]) -> None:
            rung.append(number)
            if len(rung) > 1:
                self.fail("a call hangs")
            self.ledger.runs()

        signal.signal(signal.SIGALRM, ring)
        self.addCleanup(signal.setitimer, signal.ITIMER_REAL, 0)
        records = b"".join(mint(sender) for sender in range(MANY))
        for _ in range(50):
            rung.clear()
            signal.setitimer(signal.ITIMER_REAL, 0.003, 10)
            try:
                self.ledger.apply(records)
            except RuntimeError as error:
                self.assertIn("goes on in this thread", str(error))
                return
        self.fail("no call came while another one was at work")


class Reading:
    """A thread that reads the ledger for so many seconds at least."""

    def __init__(self, ledger: moveledger.Ledger, seconds: float) -> None:
        self.reads, self.is_reading = threading.Event(), False
        self.seconds = seconds
        self.thread = threading.Thread(target=ledger.save_to, args=(self.write,))

    def write(self, piece: bytes) -> None:
        self.is_reading = True
        self.reads.set()
        time.sleep(self.seconds)
        self.is_reading = False

    def begin(self) -> None:
        self.thread.start()
        self.reads.wait()


class Waiting(WithLedger):
    """The ends of scopes while another thread reads: they wait, and close their blocks."""

    def scope(self, sender: int, error: Optional[Exception]) -> None:
        reading = Reading(self.ledger, 0.1)
        try:
            with self.ledger.block() as block:
                block.apply(mint(sender))
                reading.begin()
                if error:
                    raise error
        finally:
            self.assertFalse(reading.is_reading)
            reading.thread.join()

    def test_the_end_of_a_scope_waits(self) -> None:
        self.scope(1, None)
        self.has(1, answered=2)
        error = KeyError("left")
        with self.assertRaises(KeyError) as left:
            self.scope(2, error)
        self.assertIs(left.exception, error)
        self.assertIsNone(error.__context__)
        self.has(1, answered=2)


class Within(WithLedger):
    """Calls from the function of save_to."""

    def setUp(self) -> None:
        super().setUp()
        self.ledger.apply(mint(1))

    def saves(self, write: Callable[[bytes], object]) -> None:
        """Saves, in a thread that is given up where it hangs."""
        failed: List[BaseException] = []

        def save() -> None:
            try:
                self.ledger.save_to(write)
            except BaseException as error:
                failed.append(error)

        thread = threading.Thread(target=save, daemon=True)
        thread.start()
        thread.join(10)
        if thread.is_alive():
            # (which nobody can close any more)
            self.ledger = moveledger.Ledger()
            self.fail("a call hangs")
        for error in failed:
            raise error

    def test_they_are_refused(self) -> None:
        ledger, scope = self.ledger, self.ledger.block()
        calls: List[Callable[[], object]] = [
            lambda: ledger.apply(mint(2)), ledger.begin, ledger.rollback, ledger.commit, ledger.changes, ledger.changed_modules, ledger.save,
            lambda: ledger.save_to(len), ledger.show, ledger.audit, lambda: ledger.value(1, COIN), lambda: list(ledger.values(COIN)),
            ledger.modules, lambda: ledger.module("0x1::M"), ledger.runs, lambda: ledger.tally(COIN), ledger.close, scope.__enter__,
            ledger.missed_report, lambda: setattr(ledger, "answered", 5)]
        for call in calls:
            with self.assertRaisesRegex(RuntimeError, "the function of save_to"):
                self.saves(lambda piece: call())
        self.has(1, answered=2)

    def test_numbers_may_be_looked_at(self) -> None:
        seen: List[object] = []
        self.saves(lambda piece: seen.append((self.ledger.answered, self.ledger.open_blocks)))
        self.assertEqual(set(seen), {(2, 0)})

    def test_other_errors_pass(self) -> None:
        def write(piece: bytes) -> None:
            raise KeyError

        self.assertRaises(KeyError, self.saves, write)
        self.has(1, answered=2)

    def test_a_scope_that_ends_there_is_taken_back_by_the_next_call(self) -> None:
        waiting = self.minting(2)
        next(waiting)
        self.saves(lambda piece: waiting.close())
        self.assertEqual(self.held(), [1])
        self.has(1, answered=2)


if __name__ == "__main__":
    unittest.main()
