"""Clients of the submit service that are many, don't read, aren't understood, or share an id."""

import errno
import json
import os
import resource
import signal
import socket
import ssl
import subprocess
import tempfile
import threading
import time
import unittest
from typing import Any, Dict, List, Optional, Sequence, Tuple

from ledgerlog import service as served
from ledgerlog.client import Ledger, Placed, Refused, Stream, Unknown
from ledgerlog.errors import Unreachable
from ledgerlog.keys import LINES
from ledgerlog.line import LOOPBACK
from ledgerlog.log import Offer
from ledgerlog.service import Answers
from ledgerlog.written import INLINE_BYTES

from .served import Served
from .services import ServiceCase, TlsCase
from .store import PATIENCE, Store, for_now, made_log, put_vote, run, until
from .test_commands import DEPLOY, done
from .test_log import large

LONGEST_ID, LONGEST_NAME = "i" * 96, "n" * 64


def request(record: bytes, **told: Any) -> bytes:
    return json.dumps({"bytes": len(record), **told}).encode() + b"\n" + record


def many(count: int) -> bytes:
    """So many requests behind each other."""
    return b"".join(request(run(at), id=f"many-{at}") for at in range(count))


def send(connection: socket.socket, data: bytes) -> None:
    """Sends all of it meanwhile, or what the other side takes of it before it ends."""
    def work() -> None:
        try:
            connection.sendall(data)
        except OSError:
            pass
    threading.Thread(target=work, daemon=True).start()


def all_of(connection: socket.socket) -> bytes:
    """What comes until the other side ends."""
    connection.settimeout(PATIENCE)
    told = b""
    try:
        for part in iter(lambda: connection.recv(1 << 16), b""):
            told += part
    except ConnectionError:
        pass
    return told


def close_all(opened: List[socket.socket]) -> None:
    for one in opened:
        one.close()


class Dialling(ServiceCase):
    """A service, and clients at its socket that are made by hand."""

    def dial(self) -> socket.socket:
        made = socket.socket(socket.AF_UNIX)
        self.addCleanup(made.close)
        made.settimeout(PATIENCE)
        made.connect(self.path)
        return made

    def ask(self, connection: socket.socket, data: bytes) -> Dict[str, Any]:
        """The next line that is told when this was sent."""
        connection.sendall(data)
        with connection.makefile("rb") as lines:
            told: Dict[str, Any] = json.loads(lines.readline() or b"{}")
        return told

    def hold(self) -> None:
        """Has the log answer nothing."""
        def held(body: Any) -> Any:
            raise Unreachable("held")

        self.addCleanup(setattr, self.store, "done", self.store.done)
        setattr(self.store, "done", held)


class Place:
    """In place of a socket at which clients are taken: each time one of these errors, or a client."""

    def __init__(self, *given: object) -> None:
        self.given = list(given)

    def accept(self) -> Tuple[object, object]:
        one = self.given.pop(0)
        if isinstance(one, Exception):
            raise one
        return one, None


class TooMany(Dialling):
    def serve_at(self, *given: object) -> List[str]:
        """Has clients be taken at a place that is lost at last. What is said."""
        said: List[str] = []
        for_now(self, self.service, say=said.append)
        place: Any = Place(*given, OSError(errno.EINVAL, "lost"))
        self.service.serve_at(place)
        self.assertEqual(self.service.lost, "the port is lost: [Errno 22] lost")
        return said

    def test_after_an_error_clients_are_taken_again(self) -> None:
        for_now(self, served, PAUSE_SECONDS=0.01)
        own, given = socket.socketpair()
        self.addCleanup(own.close)
        full = OSError(errno.EMFILE, "Too many open files")
        said = self.serve_at(full, full, ConnectionAbortedError(), RuntimeError("can't start new thread"), given)
        self.assertEqual(said, ["no client can be taken now, and the next one is tried: [Errno 24] Too many open files"])
        self.assertEqual(self.ask(own, request(run(1), id="a")), {"id": "a", "number": 1})

    def test_the_one_that_is_idle_for_longest_is_closed_for_another(self) -> None:
        self.service.most = 3
        first, second, third = self.dial(), self.dial(), self.dial()
        for number, one in enumerate((second, first, third), 1):
            self.assertEqual(self.ask(one, request(run(number), id=f"id-{number}"))["number"], number)
        fourth = self.dial()
        self.assertEqual(self.ask(fourth, request(run(4), id="id-4"))["number"], 4)
        self.assertEqual(all_of(second), b"")
        self.assertEqual(self.ask(first, request(run(5), id="id-5"))["number"], 5)
        self.assertEqual(len(self.service.connections), 3)

    def test_who_has_a_record_on_its_way_is_not_closed(self) -> None:
        self.service.most = 1
        pipeline, taken = self.service.writer.pipeline, threading.Event()
        real = pipeline.take

        def held() -> Any:
            taken.wait(PATIENCE)
            return real()

        setattr(pipeline, "take", held)
        first = self.dial()
        first.sendall(request(run(1), id="first"))
        until(lambda: any(one.flying for one in self.service.connections))
        self.assertEqual(json.loads(all_of(self.dial())), {"unknown": "the service has as many clients as it takes"})
        threading.Timer(0.3, taken.set).start()
        self.assertEqual(self.ask(first, b"")["number"], 1)
        self.assertEqual(self.ledger().submit(run(2)).number, 2)

    def test_large_records_are_put_a_few_at_once(self) -> None:
        at_once: List[int] = []
        lock = threading.Lock()
        now = [0]

        def slowly(log: object, offer: Offer, submitter: str) -> int:
            with lock:
                now[0] += 1
                at_once.append(now[0])
            time.sleep(0.05)
            with lock:
                now[0] -= 1
            return int(offer.id)

        for_now(self, served, put_large=slowly)
        connection = self.dial()
        send(connection, b"".join(request(large(INLINE_BYTES), id=f"{at}") for at in range(20)))
        with connection.makefile("rb") as lines:
            told = [json.loads(lines.readline()) for _ in range(20)]
        self.assertEqual(sorted(one["number"] for one in told), list(range(20)))
        self.assertLessEqual(max(at_once), served.MOST_LARGE)

    def test_a_large_record_that_cannot_be_put_is_told_so(self) -> None:
        def fails(log: object, offer: Offer, submitter: str) -> int:
            raise OSError(errno.EMFILE, "Too many open files")

        for_now(self, served, put_large=fails)
        told = self.ask(self.dial(), request(large(INLINE_BYTES), id="a"))
        self.assertIn("Too many open files", told["unknown"])


class ByCommand(unittest.TestCase):
    """The command, with few descriptors."""

    DESCRIPTORS = 200

    def setUp(self) -> None:
        folder = tempfile.TemporaryDirectory()
        self.addCleanup(folder.cleanup)
        self.path = os.path.join(folder.name, "socket")
        store = Store()
        made_log(store)
        self.node = Served(store)
        self.addCleanup(self.node.close)
        with socket.create_server((LOOPBACK[0], 0)) as free:
            self.place = f"{LOOPBACK[0]}:{free.getsockname()[1]}"
        words = [os.path.join(DEPLOY, "serve"), *self.node.words(), "--listen", self.place, self.path]
        self.one = subprocess.Popen(words, stderr=subprocess.PIPE, preexec_fn=lambda: resource.setrlimit(
            resource.RLIMIT_NOFILE, (self.DESCRIPTORS, self.DESCRIPTORS)))
        self.addCleanup(self.end)
        until(self.is_reached)

    def is_reached(self) -> bool:
        with socket.socket(socket.AF_UNIX) as made:
            try:
                made.connect(self.path)
                return True
            except OSError:
                return False

    def end(self) -> None:
        self.one.kill()
        self.one.communicate()

    def submits(self, place: str, number: int) -> None:
        ledger = Ledger(place, seconds=PATIENCE)
        self.addCleanup(ledger.close)
        self.assertEqual(ledger.submit(run(number)).number, number)

    def test_more_clients_than_descriptors_end_nothing(self) -> None:
        opened: List[socket.socket] = []
        self.addCleanup(close_all, opened)
        number = 0
        for place in (self.path, self.place):
            for _ in range(self.DESCRIPTORS + 50):
                if place == self.path:
                    opened.append(socket.socket(socket.AF_UNIX))
                    opened[-1].connect(place)
                else:
                    host, _, port = place.rpartition(":")
                    opened.append(socket.create_connection((host, int(port))))
            for one in (self.path, self.place):
                number += 1
                self.submits(one, number)
        self.assertIsNone(self.one.poll())
        self.one.send_signal(signal.SIGTERM)
        self.assertEqual((self.one.communicate(timeout=PATIENCE)[1], self.one.returncode), (b"", 0))

    def test_a_socket_that_is_lost_is_a_fault(self) -> None:
        self.submits(self.path, 1)
        os.remove(self.path)
        told = self.one.communicate(timeout=PATIENCE)[1]
        self.assertEqual((told, self.one.returncode), (f"serve: ends: the socket {self.path} was removed\n".encode(), 1))


class NotReading(Dialling):
    COUNT = 1_200

    def test_who_takes_nothing_holds_up_nobody_and_is_closed(self) -> None:
        for_now(self, served, CLIENT_SECONDS=1.0)
        silent = self.dial()
        send(silent, many(self.COUNT))
        until(lambda: any(one.answers.left for one in self.service.connections))
        self.assertGreater(self.ledger().submit(run(60_000), "other").number, 0)
        until(lambda: len(self.service.connections) == 1)
        numbers = [json.loads(line)["number"] for line in all_of(silent).splitlines() if line.endswith(b"}")]
        self.assertLess(len(numbers), self.COUNT)

    def test_who_reads_late_gets_all(self) -> None:
        late = self.dial()
        late.sendall(many(self.COUNT))
        until(lambda: self.log.last() == self.COUNT and not any(one.flying for one in self.service.connections))
        with late.makefile("rb") as lines:
            told = [json.loads(lines.readline()) for _ in range(self.COUNT)]
        self.assertEqual({one["id"]: one["number"] for one in told}, {f"many-{at}": at + 1 for at in range(self.COUNT)})

    def pair(self) -> Tuple[socket.socket, Answers]:
        own, given = socket.socketpair()
        for one in (own, given):
            self.addCleanup(one.close)
        return own, Answers(Stream(given))

    def test_only_so_much_waits_for_a_client(self) -> None:
        for_now(self, served, MOST_QUEUED=1 << 16)
        own, answers = self.pair()
        for count in range(1, 10_000):
            answers.add(bytes(1 << 12))
            if answers.is_ended:
                break
        self.assertLess(count, 1_000)
        self.assertEqual(len(answers.left), 0)
        self.assertLess(len(all_of(own)), count << 12)

    def test_what_waits_comes_in_its_order_and_whole(self) -> None:
        own, answers = self.pair()
        parts = [bytes([at % 251]) * (at * 20) for at in range(300)]
        for part in parts:
            answers.add(part)
        self.assertFalse(answers.is_ended)
        threading.Timer(1.0, answers.end).start()
        own.settimeout(PATIENCE)
        wanted = b"".join(parts)
        found = b""
        while len(found) < len(wanted):
            part = own.recv(1 << 16)
            self.assertNotEqual(part, b"")
            found += part
        self.assertTrue(found == wanted)


class OverThePort(TlsCase):
    quotas: Dict[str, int] = {}
    COUNT = 2_000

    def dial(self, name: Optional[str] = "alice") -> socket.socket:
        """A client with this certificate, or one that says nothing."""
        assert self.service.port is not None
        made = socket.socket()
        made.setsockopt(socket.SOL_SOCKET, socket.SO_RCVBUF, 4096)
        made.settimeout(PATIENCE)
        made.connect(self.service.port.getsockname())
        if name is not None:
            context = ssl.create_default_context(cafile=self.file("ca.pem"))
            context.load_cert_chain(self.file(f"{name}.pem"), self.file(f"{name}.key"))
            made = context.wrap_socket(made, server_hostname="127.0.0.1")
        self.addCleanup(made.close)
        return made

    def test_who_takes_nothing_holds_up_nobody_and_is_closed(self) -> None:
        for_now(self, served, CLIENT_SECONDS=1.0)
        assert self.service.port is not None
        self.service.port.setsockopt(socket.SOL_SOCKET, socket.SO_SNDBUF, 4096)
        silent = self.dial()
        send(silent, many(self.COUNT))
        until(lambda: any(one.answers.left for one in self.service.connections))
        self.assertGreater(self.ledger("alice").submit(run(60_000), "other").number, 0)
        until(lambda: len(self.service.connections) == 1)

    def test_who_does_not_say_who_it_is_is_closed_first(self) -> None:
        self.service.most = 4
        alice = self.ledger("alice")
        self.assertEqual(alice.submit(run(1)).number, 1)
        line = alice.line
        for _ in range(10):
            self.dial(None)
        self.assertEqual(alice.submit(run(2)).number, 2)
        self.assertIs(alice.line, line)
        self.assertLessEqual(len(self.service.connections), 4)

    def test_all_of_what_it_says_first_has_to_come_in_time(self) -> None:
        for_now(self, served, CLIENT_SECONDS=0.5)
        slow = self.dial(None)
        began = time.monotonic()
        try:
            for byte in b"\x16\x03\x01\x02\x00" + bytes(495):
                slow.send(bytes([byte]))
                time.sleep(0.02)
        except OSError:
            pass
        self.assertLess(time.monotonic() - began, 8.0)
        until(lambda: not self.service.connections)

    def test_a_certificate_without_a_name_is_told_so_at_once(self) -> None:
        self.assertIn("the certificate names no submitter", json.loads(all_of(self.dial("no name")))["refused"])
        began = time.monotonic()
        with self.assertRaisesRegex(Unknown, "names no submitter"):
            self.ledger("no name", 1_000.0).submit(run(1))
        self.assertLess(time.monotonic() - began, PATIENCE)

    def test_lines_of_any_size_come_whole(self) -> None:
        lines = b"1 returned 5\n" * 200_000
        for name in "ab":
            put_vote(self.log, name, LINES, 1, lines)
        local = Ledger(self.socket, seconds=PATIENCE)
        self.addCleanup(local.close)
        self.assertEqual(local.submit(run(1), "one", wait=True).number, 1)
        for ledger in (local, self.ledger("alice", submitter="anyone")):
            placed = ledger.submit(run(1), "one" if ledger is local else "two", wait=ledger is local)
            self.assertTrue(placed.lines in (lines, None))
        for name in "ab":
            put_vote(self.log, name, LINES, 2, lines)
        self.assertTrue(self.ledger("alice").submit(run(1), "two", wait=True).lines == lines)


class NotUnderstood(Dialling):
    HEADS: Sequence[bytes] = (
        b'{"id":"a","bytes":Infinity}', b'{"id":"a","bytes":1e400}', b'{"id":"a","bytes":NaN}', b'{"id":"a","bytes":"52"}',
        b'{"id":"a","bytes":52.9}', b'{"id":"a","bytes":52.0}', b'{"id":"a","bytes":true}', b'{"id":"a","bytes":-1}', b'{"id":"a"}',
        b'{"id":"a","bytes":33558530}', b'{"id":null,"bytes":4}', b'{"id":7,"bytes":4}', b'{"bytes":4}', b"[1]", b"null", b"\xff", b"{",
        b"[" * 4095, b'{"id":"' + b"a" * 4095, b"GET / HTTP/1.1\r", b"")

    def test_a_request_that_is_not_understood_is_told_so(self) -> None:
        failures: List[Any] = []
        for_now(self, threading, excepthook=failures.append)
        for head in self.HEADS:
            with self.subTest(head[:40]):
                connection = self.dial()
                connection.sendall(head + b"\n" + run(1))
                told = json.loads(all_of(connection))
                self.assertEqual(list(told), ["id", "refused"] if b'"id":"a",' in head or head == b'{"id":"a"}' else ["refused"])
                self.assertEqual(told.get("id", "a"), "a")
        self.assertEqual((failures, self.log.last()), ([], 0))

    def test_what_is_refused_leaves_the_connection(self) -> None:
        connection = self.dial()
        rows: Sequence[Tuple[Dict[str, Any], str]] = (
            ({"id": ""}, "an id has 1 to 96"), ({"id": LONGEST_ID + "i"}, "an id has 1 to 96"), ({"id": "a b"}, "an id has 1 to 96"),
            ({"id": "a", "as": LONGEST_NAME + "n"}, "name has 1 to 64"), ({"id": "a", "as": None}, "`as` is no text"),
            ({"id": "a", "as": ""}, "name has 1 to 64"))
        for head, why in rows:
            with self.subTest(head):
                told = self.ask(connection, request(run(1), **head))
                self.assertEqual(told["id"], head["id"])
                self.assertIn(why, told["refused"])
        told = self.ask(connection, request(run(1), **{"id": LONGEST_ID, "as": LONGEST_NAME}))
        self.assertEqual(told, {"id": LONGEST_ID, "number": 1})

    def test_the_client_says_so_at_once(self) -> None:
        for name, submitter in (("", "anyone"), (LONGEST_ID + "i", "anyone"), ("a_b", "anyone"), ("a", "no name")):
            with self.subTest(name), self.assertRaisesRegex(Refused, "letters, digits and -"):
                self.ledger(submitter, 1_000.0).submit(run(1), name)
        self.assertEqual(self.ledger(LONGEST_NAME).submit(run(1), LONGEST_ID).number, 1)

    def test_the_same_ids_are_taken_with_the_service_and_without(self) -> None:
        node = Served(self.store)
        self.addCleanup(node.close)
        for name, place in (("a" * 64, ["--service", self.path]), ("b" * 64, node.words())):
            rows: List[Tuple[List[str], bytes, int]] = [(["--stream"], run(1) + run(2), 2), ([], run(3), 1)]
            for words, data, count in rows:
                it = done(["submit", *place, "--id", name, *words, "-"], data)
                self.assertEqual((it.returncode, it.stdout.count(b"\n")), (0, count), it.stderr)
            it = done(["submit", *place, "--id", name + "x", "-"], run(1))
            self.assertEqual(it.returncode, 2)
        self.assertIn(b"at most 64 letters", done(["submit", "--help"]).stdout.replace(b"\n", b" "))


class OneId(ServiceCase):
    """Threads that put by one id, over one connection."""

    def vote(self) -> None:
        for name in "ab":
            put_vote(self.log, name, LINES, 1, b"1 returned 5\n")

    def test_threads_with_one_id_get_its_number_and_its_lines(self) -> None:
        ledger = self.ledger()
        ledger.submit(run(1), "same")
        threading.Timer(0.5, self.vote).start()
        placed = self.at_once(*(lambda at=at: [ledger.submit(run(1), "same", wait=(at + one) % 2 == 0) for one in range(6)] for at in range(8)))
        self.assertEqual({one for those in placed for one in those}, {Placed(1, None), Placed(1, b"1 returned 5\n")})
        assert ledger.line is not None
        self.assertEqual(ledger.line.requests, {})

    def test_who_waits_for_lines_holds_up_nobody_with_its_id(self) -> None:
        ledger = self.ledger()
        waiting = threading.Thread(target=lambda: ledger.submit(run(1), "same", wait=True))
        waiting.start()
        until(lambda: self.log.last() == 1)
        self.assertEqual(self.at_once(*[lambda: ledger.submit(run(1), "same")] * 4), [Placed(1, None)] * 4)
        self.vote()
        waiting.join()

    def test_what_came_too_late_is_not_taken_for_the_next_answer(self) -> None:
        ledger = self.ledger()
        ledger.seconds = 0.5
        until(lambda: self.is_unknown(ledger) and self.log.last() == 1)
        self.vote()
        ledger.seconds = PATIENCE
        time.sleep(0.3)
        self.assertEqual(ledger.submit(run(1), "same", wait=True), Placed(1, b"1 returned 5\n"))
        self.assertEqual(ledger.submit(run(1), "same"), Placed(1, None))

    def is_unknown(self, ledger: Ledger) -> bool:
        with self.assertRaises(Unknown):
            ledger.submit(run(1), "same", wait=True)
        return True


class Answering(unittest.TestCase):
    """Services that answer late, or not as they should."""

    def setUp(self) -> None:
        folder = tempfile.TemporaryDirectory()
        self.addCleanup(folder.cleanup)
        self.path = os.path.join(folder.name, "socket")
        self.socket = socket.socket(socket.AF_UNIX)
        self.addCleanup(self.socket.close)
        self.socket.bind(self.path)
        self.socket.listen()

    def answering(self, *rows: Tuple[float, bytes]) -> None:
        """On each connection, one after the other, this is told so long after a request came."""
        def work() -> None:
            for seconds, told in rows:
                connection = self.socket.accept()[0]
                self.addCleanup(connection.close)
                connection.recv(1 << 16)
                threading.Timer(seconds, self.tell, (connection, told)).start()
        threading.Thread(target=work, daemon=True).start()

    def tell(self, connection: socket.socket, told: bytes) -> None:
        try:
            connection.sendall(told)
        except OSError:
            pass

    def test_an_answer_that_came_too_late_is_not_taken_for_another(self) -> None:
        self.answering((1.0, b'{"id": "a", "refused": "the first"}\n'), (1.0, b'{"id": "a", "number": 7}\n'))
        ledger = Ledger(self.path, seconds=0.3)
        self.addCleanup(ledger.close)
        with self.assertRaises(Unknown):
            ledger.submit(run(1), "a")
        ledger.seconds = PATIENCE
        time.sleep(1.0)
        self.assertEqual(ledger.submit(run(1), "a").number, 7)

    def test_a_service_that_has_too_many_is_tried_again(self) -> None:
        self.answering((0.0, b'{"unknown": "too many"}\n'), (0.0, b'{"id": "a", "number": 7}\n'))
        ledger = Ledger(self.path, seconds=0.5)
        self.addCleanup(ledger.close)
        until(lambda: self.number(ledger) == 7)

    def number(self, ledger: Ledger) -> int:
        try:
            return ledger.submit(run(1), "a").number
        except Unknown:
            return 0

    def test_who_is_not_heard_ends_in_its_time(self) -> None:
        for record in (run(1), b"\2\x80\x80\x80\x02" + bytes(1 << 22)):
            ledger = Ledger(self.path, seconds=0.5)
            self.addCleanup(ledger.close)
            with self.assertRaisesRegex(Unknown, "the time is over|takes nothing"):
                ledger.submit(record, "a")
