import unittest
from pathlib import Path
from typing import Set

from ledgerlog.clearing import Clearing
from ledgerlog.errors import Differs
from ledgerlog.saving import common_number

from .store import SET, STAND_IN, fill, script, until
from .test_following import OverStandIn


class Points(unittest.TestCase):
    def test_those_that_leave_out_some_meet(self) -> None:
        rows = [(0, 0, 10, 0), (0, 9, 10, 0), (0, 10, 10, 10), (0, 39, 10, 20), (0, 40, 10, 40), (10, 39, 10, 20), (20, 39, 10, 30),
                (40, 49, 10, 0), (45, 99, 10, 80), (40, 99, 10, 80), (70, 99, 10, 80), (80, 99, 10, 90)]
        for after, last, every, number in rows:
            self.assertEqual(common_number(after, last, every), number, (after, last))

    def test_two_of_different_speed_meet_again_and_again(self) -> None:
        one: Set[int] = set()
        other: Set[int] = set()
        for numbers, pace in ((one, 7), (other, 11)):
            saved = 0
            for last in range(0, 10_000, 10 * pace):
                number = common_number(saved, last, 10)
                if number:
                    numbers.add(number)
                    saved = number
        self.assertGreater(len(one & other), 20)


class WhileItAnswers(OverStandIn):
    protocol = 4

    def slow(self, name: str, until_there: str) -> str:
        """A build that answers at once, and ends when it has saved and a file is there."""
        words = f'STAND "$@" || exit $?\nuntil [ -e {until_there} ]; do sleep 0.1; done'
        return script(self.path(name), f'[ "$1" = apply ] || exec STAND "$@"\n{words}'.replace("STAND", STAND_IN))

    def test_answers_go_on_while_a_save_is_made(self) -> None:
        let_go = Path(self.path("let-go"))
        self.addCleanup(let_go.touch)
        one = self.start("a", program=self.slow("slow", str(let_go)))
        fill(self.log, 4)
        self.answered(4)
        until(lambda: one.replica.second is not None)
        for number in range(5, 15):
            fill(self.log, 1)
            self.answered(number)
            self.assertIsNotNone(one.replica.second)
        self.assertEqual(one.saves.all(), [])
        let_go.touch()
        self.saved_at(4, "a")

    def test_a_second_run_that_makes_other_lines_stops_it(self) -> None:
        marker = self.path("first-has-begun")
        path = script(self.path("flaky"), f'[ "$1" = apply ] && [ -e {marker} ] && export STAND_IN_WRONG=2\n[ "$1" = apply ] && touch {marker}\n'
                      f'exec {STAND_IN} "$@"')
        one = self.start("a", program=path)
        fill(self.log, 5)
        error = one.ends()
        self.assertIsInstance(error, Differs)
        self.assertIn("a second run of the program makes other lines for records 1 to 4 than the first one", str(error))
        self.assertEqual(one.saves.all(), [])

    def test_a_save_that_fails_is_tried_later_and_nobody_stops(self) -> None:
        path = script(self.path("failing"), f'case "$*" in *second*) exit 7;; esac\nexec {STAND_IN} "$@"')
        one = self.start("a", program=path)
        fill(self.log, 5)
        self.answered(5)
        until(lambda: one.says("the ledger after record 4 isn't saved (the program ended with the status 7)"))
        fill(self.log, 5)
        self.answered(10)
        one.stop()
        self.assertEqual(one.saves.all()[0].number, 10)

    def test_one_whose_save_lies_behind_a_clearing_saves_by_itself(self) -> None:
        one = self.start("c")
        setattr(one.replica, "rests_until", float("inf"))
        for name in "ab":
            self.start(name)
        fill(self.log, 9)
        self.answered(9, *SET)
        self.saved_at(8, "a", "b")
        self.assertEqual(Clearing(self.log, 0).run().upto, 8)
        setattr(one.replica, "rests_until", 0.0)
        until(lambda: any(save.number == 9 for save in one.saves.all()))
        fill(self.log, 4)
        self.answered(13, *SET)
        self.assertIsNone(one.error)
