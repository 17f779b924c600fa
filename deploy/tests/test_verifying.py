import contextlib
import io
import os
import tempfile
import unittest
from typing import List, Tuple

from ledgerlog import program
from ledgerlog.errors import OtherHistory
from ledgerlog.keys import LINES, SAVED
from ledgerlog.program import Program, identity
from ledgerlog.saves import name_of, vote_on
from ledgerlog.verifying import Verifying
from ledgerlog.votes import Vote

from .store import LOG_ID, PATIENCE, SET, STAND_IN, Store, fill, for_now, made_log, script, votes_of


class VerifyingALog(unittest.TestCase):
    def setUp(self) -> None:
        holder = tempfile.TemporaryDirectory()
        self.addCleanup(holder.cleanup)
        self.folder = holder.name
        self.log = made_log(Store())
        fill(self.log, 10)
        running = Program(STAND_IN, 0, None, self.path("saved"))
        lines: List[bytes] = running.answer(self.log.read(1).taken[:8])
        running.finish()
        running.end()
        running = Program(STAND_IN, 8, self.path("saved"), None)
        lines += running.answer(self.log.read(9).taken)
        running.end()
        self.vote = vote_on(self.path("saved"))
        for name in SET:
            votes_of(self.log, name).put(LINES, [Vote(number, line) for number, line in enumerate(lines, 1)])
            votes_of(self.log, name).put(SAVED, [Vote(8, self.vote)])

    def path(self, name: str) -> str:
        return os.path.join(self.folder, name)

    def verified(self) -> Tuple[bool, str]:
        told = io.StringIO()
        with contextlib.redirect_stdout(told):
            return Verifying(self.log, STAND_IN, self.folder).run(), told.getvalue()

    def test_what_was_put_is_made_again(self) -> None:
        is_alike, told = self.verified()
        self.assertTrue(is_alike)
        self.assertEqual(told, "records 1 to 10: 10 answers and 1 saves compared, of which 0 no majority has decided; nothing "
                               "differs\n")

    def test_a_line_and_a_digest_that_differ_are_named(self) -> None:
        self.log.etcd.put(self.log.keys.vote("b", LINES, 3), b"3 returned 999\n")
        self.log.etcd.put(self.log.keys.vote("c", SAVED, 8), b"MVL2 other")
        is_alike, told = self.verified()
        self.assertFalse(is_alike)
        self.assertRegex(told, r"b: the lines of record 3: it has put '3 returned 999\\n', and '3 returned \d+\\n' is made now")
        self.assertIn("c: the ledger saved after record 8: it has put 'MVL2 other', and 'MVL2 ", told)
        self.assertIn("b differs 1 times; c differs 1 times", told)

    def test_what_is_final_and_wrong_is_said_to_be_final(self) -> None:
        for name in "ab":
            self.log.etcd.put(self.log.keys.vote(name, LINES, 9), b"9 returned 999\n")
        is_alike, told = self.verified()
        self.assertFalse(is_alike)
        self.assertIn("a: the lines of record 9: it has put '9 returned 999\\n', which is final, and", told)

    def test_lines_before_those_that_are_chained_are_compared_too(self) -> None:
        self.log.etcd.put(self.log.keys.log, self.log.settings()._replace(protocol=4, chained=8).text())
        self.log.etcd.put(self.log.keys.vote("b", LINES, 3), b"3 returned 999\n")
        is_alike, told = self.verified()
        self.assertFalse(is_alike)
        self.assertIn("b: the lines of record 3: it has put '3 returned 999\\n', and", told)
        self.assertIn("records 1 to 10: 10 answers and 1 saves compared, of which 2 no majority has decided; b differs 1 times", told)

    def test_a_cleared_log_is_verified_from_a_save_on(self) -> None:
        self.log.etcd.put(self.log.keys.cleared, b"8")
        with self.assertRaisesRegex(OtherHistory, "has no later save that a majority has voted for"):
            self.verified()
        os.rename(self.path("saved"), self.path(name_of(8, LOG_ID)))
        is_alike, told = self.verified()
        self.assertTrue(is_alike)
        self.assertIn("records 9 to 10: 2 answers", told)


class Identity(unittest.TestCase):
    def test_a_program_says_its_version_or_none(self) -> None:
        self.assertRegex(identity(STAND_IN), rb"^unversioned sha256:[0-9a-f]{64}$")
        os.environ["STAND_IN_VERSION"] = "moveledger 1.2.3"
        self.addCleanup(os.environ.pop, "STAND_IN_VERSION")
        self.assertRegex(identity(STAND_IN), rb"^moveledger 1\.2\.3 sha256:[0-9a-f]{64}$")

    def test_one_that_does_not_end_by_itself_is_none_without_a_version(self) -> None:
        for words, why in ("exec sleep 600", "hasn't said within 0.1 seconds"), ("kill -9 $$", "was killed by signal 9"):
            with self.subTest(words), tempfile.TemporaryDirectory() as folder:
                path = script(os.path.join(folder, "program"), words)
                for_now(self, program, VERSION_SECONDS=0.1 if "sleep" in words else PATIENCE)
                with self.assertRaisesRegex(OSError, why):
                    identity(path)
