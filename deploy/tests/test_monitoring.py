import http.client
import os
import re
import shutil
import signal
import socket
import subprocess
import tempfile
import time
import unittest
from pathlib import Path
from typing import Dict, Tuple

from ledgerlog import asking, status
from ledgerlog.asking import Asking, Heard, Told
from ledgerlog.errors import LogError, Unreachable
from ledgerlog.requests import Body
from ledgerlog.saves import SOCKET
from ledgerlog.serving import Metrics
from ledgerlog.status import Status

from .served import Served, trickle
from .store import PATIENCE, SET, STAND_IN, Store, fill, for_now, made_log, until
from .test_commands import DEPLOY, done
from .test_following import OverStandIn


def got(port: int, path: str = "/metrics") -> Tuple[int, str]:
    connection = http.client.HTTPConnection("127.0.0.1", port, timeout=PATIENCE)
    connection.request("GET", path)
    answer = connection.getresponse()
    found = answer.status, answer.read().decode()
    connection.close()
    return found


def catches(process: int, number: int) -> bool:
    """Whether a process has a handler of its own for a signal."""
    with open(f"/proc/{process}/status", encoding="ascii", errors="replace") as file:
        caught = next(line.split()[1] for line in file if line.startswith("SigCgt:"))
    return bool(int(caught, 16) >> number - 1 & 1)


def says(folder: str, row: bytes) -> bool:
    """Whether a replica runs in a folder, and says this of itself."""
    try:
        return row in status.ask(os.path.join(folder, SOCKET), "status", PATIENCE)
    except LogError:
        return False


def free_port() -> int:
    with socket.socket() as one:
        one.bind(("127.0.0.1", 0))
        return int(one.getsockname()[1])


class Telling(OverStandIn):
    def test_one_that_has_not_read_the_log_does_not_know_how_far_it_is_behind(self) -> None:
        one = Status("a")
        self.assertEqual(dict(one.rows())["behind"], "unknown")
        one.read_at = time.time()
        self.assertEqual(dict(one.rows())["behind"], "0")
        one.read_at = time.time() - status.FRESH_SECONDS - 1
        self.assertEqual(dict(one.rows())["behind"], "unknown")
        self.assertGreater(float(dict(one.rows())["log read"].replace(" s ago", "")), status.FRESH_SECONDS)

    def test_a_replica_whose_nodes_hang_says_for_how_long(self) -> None:
        running = self.start()
        fill(self.log, 3)
        self.answered(3)
        until(lambda: running.status.behind_words() == "0")
        for_now(self, status, FRESH_SECONDS=0.2)
        real = self.store.ask

        def hangs(path: str, body: Body) -> Body:
            time.sleep(0.05)
            raise Unreachable("no node of the log answers")

        setattr(self.store, "ask", hangs)
        until(lambda: running.status.behind_words() == "unknown" and running.status.unread_seconds() > 0.5)
        setattr(self.store, "ask", real)
        for_now(self, status, FRESH_SECONDS=PATIENCE)
        until(lambda: running.status.behind_words() == "0")

    def test_the_metrics_have_the_logs_values(self) -> None:
        self.store.put(self.log.keys.log, self.log.settings()._replace(room=1000).text())
        self.store.used = 300
        self.three(9)
        self.saved_at(8, *SET)
        for one in self.running.values():
            one.replica.looks_at = 0.0
        until(lambda: all(one.status.log_values.agreed == 8 for one in self.running.values()))
        told = self.running["a"].status.metrics()
        for name, value in ("log_last", 9), ("log_agreed_save", 8), ("log_room_bytes", 1000), ("log_used_bytes", 300), ("log_cleared", 0):
            self.assertIn(f'moveledger_{name}{{replica="a"}} {value}\n', told)

    def test_metrics_are_served_and_nothing_else(self) -> None:
        served = Metrics(0, Status("a"))
        self.assertIn('moveledger_records_answered{replica="a"} 0\n', got(served.port)[1])
        self.assertEqual(got(served.port, "/x")[0], 404)
        served.close()
        self.assertEqual(served.server.socket.fileno(), -1)

    def test_each_alert_is_of_a_metric_that_is_there_and_says_what_to_do(self) -> None:
        with open(os.path.join(DEPLOY, "units", "alerts.yml"), encoding="utf-8") as file:
            rules = file.read().split("- alert: ")[1:]
        names = set(re.findall(r"# TYPE (\w+)", Status("a").metrics()))
        self.assertGreater(len(rules), 10)
        for rule in rules:
            with self.subTest(rule.split("\n")[0]):
                self.assertRegex(rule, r'summary: ".+"\n +action: ".+"')
                self.assertLessEqual(set(re.findall(r"moveledger_\w+", rule)), names)

    def test_one_is_asked_when_it_is_far_enough(self) -> None:
        self.start()
        fill(self.log, 3)
        self.answered(3)
        self.assertTrue(Asking([self.path("a")], "show", 3, PATIENCE).of_one().startswith(b"3 "))
        with self.assertRaisesRegex(LogError, "hasn't answered record 4 yet: it is at 3"):
            Asking([self.path("a")], "show", 4, 1.0).of_one()

    def test_an_old_answer_is_said_to_be_one(self) -> None:
        running = self.start()
        fill(self.log, 3)
        self.answered(3)
        until(lambda: running.status.behind_words() == "0" and running.status.answered == 3)
        one = Asking([self.path("a")], "show", 0, PATIENCE)
        one.of_one()
        self.assertEqual(one.doubts, [])
        for_now(self, status, FRESH_SECONDS=-1.0)
        one.of_one()
        self.assertRegex(one.doubts[0], "has answered record 3, is behind the log by unknown, and has read it .* s ago")

    def test_one_that_hangs_is_said_not_to_answer(self) -> None:
        path = self.path("socket")
        with socket.socket(socket.AF_UNIX) as one:
            status.bound(one.bind, path)
            one.listen(1)
            with self.assertRaisesRegex(LogError, "the replica that runs there doesn't answer within 0.1 s"):
                status.ask(path, "status", 0.1)

    def trickling(self, name: str) -> str:
        """The folder of a replica that answers by a byte now and then, for ever."""
        os.makedirs(self.path(name), exist_ok=True)
        place = socket.socket(socket.AF_UNIX)
        self.addCleanup(place.close)
        status.bound(place.bind, os.path.join(self.path(name), SOCKET))
        place.listen(16)
        self.addCleanup(trickle(place, b"1").set)
        return self.path(name)

    def test_one_that_answers_ever_more_slowly_has_its_time_and_no_more(self) -> None:
        folder = self.trickling("z")
        with self.assertRaisesRegex(LogError, "doesn't answer within 0.5 s"):
            status.ask(os.path.join(folder, SOCKET), "show", 0.5)
        for least in (0, 1):
            with self.assertRaisesRegex(LogError, "doesn't answer within"):
                Asking([folder], "show", least, 0.5).of_one()

    def test_a_majority_does_not_wait_for_one_that_hangs(self) -> None:
        self.three(5)
        for_now(self, asking, GRACE_SECONDS=0.2)
        folders = [self.trickling("z"), self.path("a"), self.path("b")]
        one = Asking(folders, "show", 5, PATIENCE)
        self.assertIn(b"5 end 1\n", one.by_majority())
        self.assertEqual(one.doubts, [f"{folders[0]} hasn't answered yet"])
        with self.assertRaisesRegex(LogError, "no 2 of 3 replicas answer alike.*doesn't answer within"):
            Asking([folders[0], self.trickling("y"), folders[1]], "show", 5, 1.0).by_majority()

    def test_answers_behind_one_record_count_whenever_they_come(self) -> None:
        heard = Heard(["a", "b", "c"])
        self.assertFalse(heard.take(Told("a", b"5 end 1\n")))
        self.assertFalse(heard.take(Told("a", b"6 end 1\n")))
        self.assertFalse(heard.take(Told("a", b"6 end 1\n")))
        self.assertFalse(heard.take(Told("c", LogError("c is gone"))))
        self.assertTrue(heard.take(Told("b", b"5 end 1\n")))
        self.assertEqual(heard.others(b"5 end 1\n"), ["c is gone"])

    def test_a_majority_is_asked(self) -> None:
        self.three(5)
        folders = [self.path(name) for name in SET]
        answers: Dict[str, bytes] = {folder: b"5 end 0\n" for folder in folders}
        self.addCleanup(setattr, asking, "ask", asking.ask)
        real = asking.ask
        self.assertIn(b"5 end 1\n", Asking(folders, "show", 5, PATIENCE).by_majority())

        def told(path: str, words: str, seconds: float) -> bytes:
            return real(path, words, seconds) if words == "status" else answers[os.path.dirname(path)]

        setattr(asking, "ask", told)
        for_now(self, asking, GRACE_SECONDS=PATIENCE)
        answers[folders[0]] = b"5 end 7\n"
        one = Asking(folders, "show", 0, PATIENCE)
        self.assertEqual(one.by_majority(), b"5 end 0\n")
        self.assertEqual(one.doubts, [f"{folders[0]} answers otherwise"])
        self.running["b"].stop()
        with self.assertRaisesRegex(LogError, "no 2 of 3 replicas answer alike"):
            Asking(folders, "show", 0, 1.0).by_majority()


class ByCommand(unittest.TestCase):
    def test_a_replica_that_is_killed_answers_no_more(self) -> None:
        store = Store()
        fill(made_log(store), 3)
        node = Served(store)
        self.addCleanup(node.close)
        while not self.is_killed(node):
            pass

    def started(self, *words: str) -> Tuple["subprocess.Popen[bytes]", str]:
        """A replica that runs, and its folder."""
        holder = tempfile.mkdtemp()
        self.addCleanup(shutil.rmtree, holder, True)
        folder = os.path.join(holder, "a")
        process = subprocess.Popen([os.path.join(DEPLOY, "replica"), *words, "--moveledger", STAND_IN, folder], stderr=subprocess.DEVNULL)
        self.addCleanup(process.wait)
        self.addCleanup(process.kill)
        return process, folder

    def test_a_replica_that_hangs_is_said_not_to_answer(self) -> None:
        store = Store()
        fill(made_log(store), 3)
        node = Served(store)
        self.addCleanup(node.close)
        process, folder = self.started(*node.words())
        until(lambda: says(folder, b"answered: 3\n"))
        process.send_signal(signal.SIGSTOP)
        for words in (["replica", "--status", folder], ["replica", "--metrics", folder], ["ask", "--seconds", "1", folder, "show"],
                      ["ask", "--seconds", "1", "--at-least", "1", folder, "show"],
                      ["ask", "--seconds", "1", "--majority", folder, "show"]):
            with self.subTest(words):
                told = done(words)
                self.assertEqual((told.returncode, told.stdout, told.stderr.count(b"\n")), (1, b"", 1))
                self.assertIn(b"doesn't answer within", told.stderr)

    def test_a_replica_stops_soon_where_a_node_answers_ever_more_slowly(self) -> None:
        store = Store()
        fill(made_log(store), 3)
        node = Served(store)
        self.addCleanup(node.close)
        with socket.create_server(("127.0.0.1", 0)) as slow:
            self.addCleanup(trickle(slow, b"1", b"HTTP/1.1 2").set)
            address = f"127.0.0.1:{slow.getsockname()[1]}"
            for log, status_at_end in (f"{address},{node.address}", 0), (address, 1):
                process, folder = self.started("--log", log, "--ledger", "L")
                until(lambda: says(folder, b"answered: 3\n" if log != address else b"answered: 0\n"))
                until(lambda: catches(process.pid, signal.SIGTERM))
                began = time.monotonic()
                process.send_signal(signal.SIGTERM)
                self.assertEqual(process.wait(PATIENCE), status_at_end)
                # Without a stop it would be asked for ten seconds, and then again.
                self.assertLess(time.monotonic() - began, max(9.0, PATIENCE / 4))

    def is_killed(self, node: Served) -> bool:
        """Tries one port. False where another program has taken it meanwhile."""
        port = free_port()

        def is_told() -> bool:
            try:
                return 'moveledger_records_answered{replica="a"} 3\n' in got(port)[1]
            except (OSError, http.client.HTTPException):
                return False

        folder = tempfile.mkdtemp()
        # The program that a killed replica leaves behind may still be saving there.
        self.addCleanup(shutil.rmtree, folder, True)
        words = [os.path.join(DEPLOY, "replica"), *node.words(), "--moveledger", STAND_IN, "--name", "a", "--metrics-port", str(port)]
        errors = Path(folder, "errors")
        with errors.open("wb") as file, subprocess.Popen([*words, os.path.join(folder, "a")], stderr=file) as process:
            until(lambda: is_told() or process.poll() is not None)
            was_there = process.poll() is None
            process.send_signal(signal.SIGKILL)
        self.assertFalse(is_told())
        if not was_there:
            self.assertIn("a port can't be had", errors.read_text())
        return was_there


