import hashlib
import os
import tempfile
import unittest

from ledgerlog import saves
from ledgerlog.saves import REFUSED, Save, SavedVote, Saves, saved_vote_in, saves_in, vote_on

from .store import LOG_ID


class Folder(unittest.TestCase):
    def setUp(self) -> None:
        holder = tempfile.TemporaryDirectory()
        self.addCleanup(holder.cleanup)
        self.folder = os.path.join(holder.name, "replica")
        self.saves = Saves(self.folder)
        self.addCleanup(self.saves.close)

    def save(self, number: int, every: int = 4) -> Save:
        with open(self.saves.new(), "wb") as file:
            file.write(b"MVL2 %d" % number)
        return self.saves.keep(self.saves.new(), number, LOG_ID, every)

    def test_a_save_is_named_by_its_number_and_its_log(self) -> None:
        save = self.save(3)
        self.assertEqual(os.path.basename(save.path), f"ledger-{3:016d}-{LOG_ID}")
        self.assertEqual(self.saves.all(), [save])

    def test_a_vote_has_the_form_and_the_digest(self) -> None:
        save = self.save(3)
        self.assertEqual(save.vote(), b"MVL2 " + hashlib.sha256(b"MVL2 3").hexdigest().encode())
        with open(save.path, "wb") as file:
            file.write(b"\0\1")
        self.assertEqual(save.vote().partition(b" ")[0], b"0001")
        with open(save.path, "wb"):
            pass
        self.assertEqual(save.vote().partition(b" ")[0], b"-")

    def test_what_is_said_of_a_save_in_another_form_is_no_ledgers(self) -> None:
        told = SavedVote(b"MVL2 x", bytes(32), 7, 1)
        self.assertEqual(saved_vote_in(told.value()), told)
        words = told.value().split(b" ")
        for at, word in (2, b"x"), (3, b"-7"), (4, b"x"), (4, b"1 1"):
            value = b" ".join([*words[:at], word, *words[at + 1:]])
            self.assertEqual(saved_vote_in(value), SavedVote(value))

    def test_the_newest_two_stay_and_the_newest_two_that_all_make(self) -> None:
        for number in (4, 6, 8, 9, 12, 13, 14, 15):
            self.save(number)
        self.assertEqual([save.number for save in self.saves.all()], [15, 14, 12, 8])

    def test_what_is_set_aside_is_no_save_and_goes_in_the_end(self) -> None:
        for number in range(1, 6):
            self.saves.set_aside(self.save(number))
        self.assertEqual(saves_in(self.folder), [])
        self.assertEqual(len([name for name in os.listdir(self.folder) if name.endswith(REFUSED)]), 2)

    def test_that_it_differed_stays_until_someone_says_so(self) -> None:
        self.assertIsNone(self.saves.stopped())
        self.saves.stop("why")
        self.assertEqual(self.saves.stopped(), "why")
        self.saves.start_again()
        self.assertIsNone(self.saves.stopped())

    def test_a_folder_is_one_replicas(self) -> None:
        before, saves.LOCK_SECONDS = saves.LOCK_SECONDS, 0.1
        self.addCleanup(setattr, saves, "LOCK_SECONDS", before)
        with self.assertRaises(OSError):
            Saves(self.folder)

    def test_what_cannot_be_read_is_a_fault(self) -> None:
        with self.assertRaises(OSError):
            vote_on(self.folder)
