import os
import signal
import socket
import subprocess
import tempfile
import unittest
from contextlib import suppress
from typing import Any, Callable, List, Sequence, Tuple

from ledgerlog.line import ADDRESSES, Errors, addresses, ended, name, port_in, positive_number, positive_seconds, whole_number

from .served import Served
from .store import PATIENCE, Store, fill, made_log

DEPLOY = os.path.dirname(os.path.dirname(os.path.realpath(__file__)))
COMMANDS = ("ask", "backup", "serve", "log", "node", "replica", "snapshot", "submit")
# Nothing listens there.
NOWHERE = ["--log", "127.0.0.1:9"]


def done(words: List[str], given: bytes = b"") -> "subprocess.CompletedProcess[bytes]":
    asked = [os.path.join(DEPLOY, words[0]), *words[1:]]
    return subprocess.run(asked, input=given, stdout=subprocess.PIPE, stderr=subprocess.PIPE, timeout=PATIENCE)


class Values(unittest.TestCase):
    def test_a_value_at_its_bound_is_read_and_one_beyond_it_is_none(self) -> None:
        rows: List[Tuple[Callable[[str], Any], Sequence[str], Sequence[str]]] = [
            (addresses, ("h:1", "h:1,[::1]:65535", "é.x:1"),
             ("h:0", "h:65536", ":1", "h", "h:1,", "a..b:1", "a" * 80 + ":1", "a b:1", "h:+1", "h:1_0", "h:٣", "h/x:1", "h:1\n")),
            (port_in, ("1", "65535"), ("0", "65536", "", "+1", "1_0", "٣", "9" * 5000)),
            (positive_number, ("1", "9" * 16), ("0", "x", "+1", "1_0", "-1", "1" * 17)), (whole_number, ("0",), ("", "-1", "²", "1" * 400)),
            (positive_seconds, ("0.1",), ("0", "1e9")), (name, ("a-1", "a" * 64), ("", "a_", "a" * 65))]
        for read, good, bad in rows:
            for text in good:
                read(text)
            for text in bad:
                with self.subTest(text), self.assertRaises(ValueError):
                    read(text)

    def test_three_nodes_on_this_machine_are_asked_where_none_are_named(self) -> None:
        self.assertEqual(ADDRESSES, "127.0.0.1:23791,127.0.0.1:23792,127.0.0.1:23793")


def by_shell(words: str) -> "subprocess.CompletedProcess[bytes]":
    """What the shell does with a command of this folder."""
    return subprocess.run(["sh", "-c", f"./{words}"], cwd=DEPLOY, stdin=subprocess.DEVNULL, stdout=subprocess.PIPE, stderr=subprocess.PIPE,
                          timeout=PATIENCE)


class Outputs(unittest.TestCase):
    def setUp(self) -> None:
        store = Store()
        fill(made_log(store), 3)
        self.node = Served(store)
        self.addCleanup(self.node.close)

    def test_a_fault_of_an_output_is_one_line(self) -> None:
        words = " ".join(self.node.words())
        for output in (">/dev/full", ">&-"):
            for command in (f"log {words} show", "ask --help"):
                with self.subTest(command + output):
                    told = by_shell(command + output)
                    self.assertEqual((told.returncode, told.stdout, told.stderr.count(b"\n")), (1, b"", 1), told.stderr)
                    self.assertRegex(told.stderr, rb"\A(log|ask): .*(No space left on device|Bad file descriptor)")

    def test_nothing_ends_since_standard_error_takes_nothing(self) -> None:
        for output in ("2>/dev/full", "2>&-"):
            told = by_shell(f"log {' '.join(self.node.words())} show {output}")
            self.assertEqual((told.returncode, told.stderr), (0, b""))
            self.assertIn(b"last: 3\n", told.stdout)
            told = by_shell(f"log --log 127.0.0.1:9 unmake {output}")
            self.assertEqual((told.returncode, told.stdout), (2, b""))

    def test_a_reader_that_goes_away_is_told_nothing(self) -> None:
        told = by_shell("log --help | :")
        self.assertEqual((told.returncode, told.stderr), (0, b""))

    def test_standard_error_loses_what_it_cannot_take(self) -> None:
        full = open("/dev/full", "wb")
        errors = Errors(full, line_buffering=True)
        for _ in range(3):
            print("x" * 20_000, file=errors, flush=True)
        errors.detach()
        # (what it holds still can't be written)
        with suppress(OSError):
            full.close()

    def test_what_ends_a_command_is_told_in_a_line(self) -> None:
        for error, status in (MemoryError(), 1), (OSError("no"), 1), (KeyboardInterrupt(), 130), (BrokenPipeError(), 1):
            self.assertEqual(ended("log", error), status)


class Commands(unittest.TestCase):
    def test_each_lists_its_options(self) -> None:
        for command in COMMANDS:
            with self.subTest(command):
                told = done([command, "--help"])
                self.assertEqual(told.returncode, 2)
                self.assertIn(b"Usage: deploy/" + command.encode(), told.stdout)

    def test_words_that_are_not_understood(self) -> None:
        for words in (["log", "unmake"], ["ask", "x", "why"], ["node", "4"], ["replica"], ["submit", "--seconds", "0", "-"],
                      ["log", "make"], ["log", "make", "--replicas", "a,a"], ["log", "set", "--quota", "x"],
                      ["replica", "--metrics-port", "99999", "x"], ["node", "--port", "65531", "1"], ["log", "--log", "a..b:1", "show"],
                      ["log", "--log", "a" * 80 + ":1", "show"], ["submit", "--service", "a..b:1", "-"], ["serve", "--listen", "a:0", "x"],
                      ["replica", "--saves-at", "a:65536", "x"], ["log", "set", "--hours", "9" * 400], ["node", "--ca", "x", "1"], ["node", "--hosts", "a,b", "1"]):
            with self.subTest(words):
                told = done(words)
                self.assertEqual((told.returncode, told.stdout), (2, b""))
                self.assertIn(b"error: ", told.stderr)

    def test_submit_refuses_what_is_no_record_for_the_log(self) -> None:
        for data in (b"", b"\2\5a", b"\3\0", b"\2\0\2\0"):
            told = done(["submit", *NOWHERE, "-"], data)
            self.assertEqual((told.returncode, told.stdout), (3, b""))
        told = done(["submit", "--stream", *NOWHERE, "-"], b"\2\0\4\0")
        self.assertEqual(told.returncode, 3)
        self.assertIn(b"record 2: shows and audits are asked of a replica", told.stderr)

    def test_submit_tells_its_id_where_it_is_not_known_what_was_put(self) -> None:
        told = done(["submit", "--seconds", "0.2", *NOWHERE, "--id", "mine", "-"], b"\2\0")
        self.assertEqual(told.returncode, 1)
        self.assertIn(b"try again with --id mine", told.stderr)

    def test_an_interrupt_does_not_lose_the_id(self) -> None:
        for number in (signal.SIGINT, signal.SIGTERM):
            with tempfile.NamedTemporaryFile() as file, socket.create_server(("127.0.0.1", 0)) as node:
                file.write(b"\2\0")
                file.flush()
                node.settimeout(PATIENCE)
                address = f"127.0.0.1:{node.getsockname()[1]}"
                words = [os.path.join(DEPLOY, "submit"), "--log", address, file.name]
                with subprocess.Popen(words, stdout=subprocess.PIPE, stderr=subprocess.PIPE) as process:
                    # A node that never answers: it is interrupted when it asks.
                    connection, _ = node.accept()
                    process.send_signal(number)
                    _, errors = process.communicate(timeout=PATIENCE)
                connection.close()
                self.assertEqual(process.returncode, 1)
                self.assertRegex(errors, rb"interrupted; it isn't known what was put: try again with --id t[0-9a-f]{8}-[0-9a-f]{32}\n")

    def test_no_command_builds_a_program(self) -> None:
        told = done(["replica", *NOWHERE, "--moveledger", "/nowhere", "/tmp/nowhere"])
        self.assertEqual(told.returncode, 1)
        self.assertIn(b"there is no program /nowhere", told.stderr)

    def test_nobody_answers_for_a_replica_that_does_not_run(self) -> None:
        with tempfile.TemporaryDirectory() as folder:
            for words in (["replica", "--status", folder], ["ask", folder, "show"]):
                told = done(words)
                self.assertEqual(told.returncode, 1)
                self.assertIn(b"no replica that runs there answers", told.stderr)
