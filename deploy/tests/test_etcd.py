import json
import socket
import threading
import time
import unittest
from http.server import BaseHTTPRequestHandler, ThreadingHTTPServer
from typing import Any, Dict, List, Tuple

from ledgerlog import etcd
from ledgerlog.errors import Denied, Full, LogError, Unreachable
from ledgerlog.etcd import Access, Etcd

from .served import trickle
from .store import PATIENCE, for_now, until

Answer = Tuple[int, Dict[str, Any]]
GOOD: Answer = (200, {"header": {"revision": "7", "cluster_id": "42"}, "kvs": []})


class Node:
    """A node that answers what it is told to, one answer after the other, and the last one for ever."""

    def __init__(self, *answers: Answer, seconds: float = 0.0) -> None:
        """`seconds` is what each answer takes."""
        self.left = list(answers)
        self.connections = 0
        self.asked: List[Tuple[str, Dict[str, Any], str]] = []
        node = self

        class Handler(BaseHTTPRequestHandler):
            protocol_version = "HTTP/1.1"

            def setup(self) -> None:
                node.connections += 1
                super().setup()

            def do_POST(self) -> None:
                body = json.loads(self.rfile.read(int(self.headers["Content-Length"])))
                node.asked.append((self.path, body, self.headers.get("Authorization", "")))
                status, told = node.left[0] if len(node.left) == 1 else node.left.pop(0)
                data = json.dumps(told).encode()
                time.sleep(seconds)
                try:
                    self.send_response(status)
                    self.send_header("Content-Length", str(len(data)))
                    self.end_headers()
                    self.wfile.write(data)
                except OSError:
                    self.close_connection = True

            def log_message(self, *_: object) -> None:
                pass

        self.server = ThreadingHTTPServer(("127.0.0.1", 0), Handler)
        self.address = f"127.0.0.1:{self.server.server_port}"
        threading.Thread(target=self.server.serve_forever, daemon=True).start()

    def close(self) -> None:
        self.server.shutdown()
        self.server.server_close()


class OverNodes(unittest.TestCase):
    def setUp(self) -> None:
        # A node is asked again only where a test has it hang.
        for_now(self, etcd, FIRST_SECONDS=PATIENCE)

    def node(self, *answers: Answer, seconds: float = 0.0) -> Node:
        made = Node(*answers, seconds=seconds)
        self.addCleanup(made.close)
        return made

    def client(self, *nodes: Node, patience: float = PATIENCE, access: Access = Access()) -> Etcd:
        made = Etcd([node.address for node in nodes], patience, access)
        self.addCleanup(made.close)
        return made


class Asking(OverNodes):
    def test_the_next_node_is_asked_where_one_is_busy_or_has_no_leader(self) -> None:
        first = self.node((503, {"code": 14, "message": "etcdserver: no leader"}))
        client = self.client(first, self.node(GOOD))
        self.assertIsNone(client.get(b"x"))
        self.assertEqual(client.cluster, "42")

    def test_nobody_answers(self) -> None:
        gone = self.node(GOOD)
        gone.close()
        with self.assertRaisesRegex(Unreachable, "no node of the log answers"):
            Etcd([gone.address], 0.2).get(b"x")

    def test_a_full_log_and_other_refusals_are_told_apart(self) -> None:
        with self.assertRaises(Full):
            self.client(self.node((429, {"code": 8, "message": "etcdserver: mvcc: database space exceeded"}))).put(b"x", b"")
        with self.assertRaisesRegex(LogError, "permission denied"):
            self.client(self.node((403, {"code": 7, "message": "etcdserver: permission denied"}))).put(b"x", b"")

    def test_a_user_logs_in_and_again_where_its_token_is_too_old(self) -> None:
        node = self.node((200, {"token": "one"}), (401, {"code": 16, "message": "etcdserver: invalid auth token"}),
                         (200, {"token": "two"}), GOOD)
        self.client(node, access=Access(user="me", password="mine")).get(b"x")
        self.assertEqual([(path, token) for path, _, token in node.asked],
                         [("/v3/auth/authenticate", ""), ("/v3/kv/range", "one"), ("/v3/auth/authenticate", ""),
                          ("/v3/kv/range", "two")])
        self.assertEqual(node.asked[0][1], {"name": "me", "password": "mine"})

    def test_what_is_no_refusal_is_asked_again(self) -> None:
        for code in (1, 2, 4, 10, 13, 14, 15, None):
            with self.subTest(code):
                node = self.node((500, {"code": code, "error": "context deadline exceeded"}), GOOD)
                self.assertIsNone(self.client(node).get(b"x"))
                self.assertEqual(len(node.asked), 2)

    def test_a_refusal_is_told_at_once(self) -> None:
        for code in (3, 5, 6, 8, 9, 11, 12):
            with self.subTest(code), self.assertRaisesRegex(LogError, "no"):
                self.client(self.node((400, {"code": code, "message": "no"}))).get(b"x")

    def test_who_may_not_is_told_apart(self) -> None:
        for code, message in (7, "etcdserver: permission denied"), (3, "etcdserver: user name is empty"), (
                3, "etcdserver: authentication failed, invalid user ID or password"):
            with self.subTest(message), self.assertRaises(Denied):
                self.client(self.node((403, {"code": code, "message": message}))).get(b"x")

    def test_what_is_no_answer_is_asked_again(self) -> None:
        for told in ([], "x", None):
            node = self.node((200, told), GOOD)  # type: ignore[arg-type]
            self.assertIsNone(self.client(node).get(b"x"))


class Hanging(OverNodes):
    """Nodes that take what they are asked and don't answer in time."""

    def silent(self) -> str:
        """The address of one that takes connections and answers nothing."""
        made = socket.create_server(("127.0.0.1", 0))
        self.addCleanup(made.close)
        return f"127.0.0.1:{made.getsockname()[1]}"

    def dropping(self) -> str:
        """The address of one that takes no connection and refuses none: its queue is full."""
        made = socket.socket()
        made.bind(("127.0.0.1", 0))
        made.listen(0)
        self.addCleanup(made.close)
        for _ in range(2):
            waiting = socket.socket()
            waiting.setblocking(False)
            waiting.connect_ex(made.getsockname())
            self.addCleanup(waiting.close)
        return f"127.0.0.1:{made.getsockname()[1]}"

    def test_a_node_that_hangs_costs_a_first_question_nothing(self) -> None:
        for address in self.silent(), self.dropping():
            client = Etcd([address, self.node(GOOD).address], 2 * PATIENCE)
            self.addCleanup(client.close)
            began = time.monotonic()
            self.assertIsNone(client.get(b"x"))
            # To connect alone a node that hangs costs half of what it may take.
            self.assertLess(time.monotonic() - began, PATIENCE / 2)

    def test_a_node_that_begins_to_hang_is_asked_once_and_then_the_next_one(self) -> None:
        for_now(self, etcd, FIRST_SECONDS=1.0)
        good = self.node(GOOD)
        client = Etcd([good.address], PATIENCE)
        self.addCleanup(client.close)
        self.assertIsNone(client.get(b"x"))
        client.nodes.addresses = [self.silent(), good.address]
        self.assertIsNone(client.get(b"x"))
        self.assertEqual(client.addresses[0], good.address)

    def trickling(self, first: bytes, part: bytes) -> str:
        """The address of one whose answer comes in small parts and never ends."""
        made = socket.create_server(("127.0.0.1", 0))
        self.addCleanup(made.close)
        self.addCleanup(trickle(made, part, first).set)
        return f"127.0.0.1:{made.getsockname()[1]}"

    def slow(self) -> List[str]:
        """The addresses of some that answer ever more slowly: their status, the line before it, their headers, their bytes or their parts."""
        ok = b"HTTP/1.1 200 OK\r\n"
        return [self.trickling(first, part) for first, part in (
            (b"HTTP/1.1 2", b"0"), (b"", b"HTTP/1.1 100 Continue\r\n\r\n"), (ok, b"X"), (ok + b"Content-Length: 100000\r\n\r\n", b" "),
            (ok + b"\r\n", b" "), (ok + b"Transfer-Encoding: chunked\r\n\r\n", b"1\r\n \r\n"))]

    def test_an_answer_has_its_time_however_slowly_it_comes(self) -> None:
        for address in self.slow():
            client = Etcd([address], 1.0)
            began = time.monotonic()
            with self.subTest(address), self.assertRaisesRegex(Unreachable, "timed out"):
                client.get(b"x")
            self.assertLess(time.monotonic() - began, PATIENCE / 2)

    def test_one_that_answers_ever_more_slowly_costs_a_first_question_nothing(self) -> None:
        for address in self.slow():
            client = Etcd([address, self.node(GOOD).address], 2 * PATIENCE)
            self.addCleanup(client.close)
            began = time.monotonic()
            self.assertIsNone(client.get(b"x"))
            self.assertLess(time.monotonic() - began, PATIENCE / 2)

    def test_what_is_waited_for_has_its_time_however_slowly_it_comes(self) -> None:
        for address in self.slow():
            client = Etcd([address], PATIENCE)
            began = time.monotonic()
            client.wait(b"x", b"y", 1, 0.5)
            self.assertLess(time.monotonic() - began, PATIENCE / 2)

    def test_what_is_asked_that_nobody_takes_has_its_time(self) -> None:
        client = Etcd([self.silent()], 1.0)
        began = time.monotonic()
        with self.assertRaises(Unreachable):
            client.put(b"x", bytes(16 << 20))
        self.assertLess(time.monotonic() - began, PATIENCE / 2)

    def test_who_is_to_stop_waits_for_no_node_long(self) -> None:
        for_now(self, etcd, FIRST_SECONDS=4 * PATIENCE)
        for address in self.silent(), self.dropping(), self.slow()[0]:
            client = Etcd([address], 4 * PATIENCE)
            is_stopping = threading.Event()
            client.nodes.is_stopping = is_stopping.is_set
            threading.Timer(0.3, is_stopping.set).start()
            began = time.monotonic()
            with self.assertRaises(Unreachable):
                client.another().get(b"x")
            self.assertLess(time.monotonic() - began, PATIENCE)

    def test_who_is_to_stop_asks_the_other_nodes(self) -> None:
        for_now(self, etcd, FIRST_SECONDS=4 * PATIENCE)
        good = self.node(GOOD)
        client = self.client(good, patience=4 * PATIENCE)
        self.assertIsNone(client.get(b"x"))
        client.nodes.addresses, client.nodes.is_stopping = [self.silent(), good.address], lambda: True
        began = time.monotonic()
        self.assertIsNone(client.get(b"x"))
        self.assertLess(time.monotonic() - began, PATIENCE)

    def test_a_host_that_is_none_is_a_node_that_does_not_answer(self) -> None:
        for host in "a" * 80, "a..b", "a b":
            client = Etcd([f"{host}:1", self.node(GOOD).address], PATIENCE)
            self.addCleanup(client.close)
            self.assertIsNone(client.get(b"x"))
            with self.assertRaises(Unreachable):
                Etcd([f"{host}:1"], 0.2).get(b"x")

    def test_patience_is_kept_to(self) -> None:
        for address in self.silent(), self.dropping():
            for patience, given in (1.0, 2 * PATIENCE), (2 * PATIENCE, 1.0):
                client = Etcd([address] * 3, patience)
                client.give(given)
                began = time.monotonic()
                with self.assertRaises(Unreachable):
                    client.get(b"x")
                self.assertLess(time.monotonic() - began, PATIENCE)

    def test_an_answer_after_its_time_is_asked_for_again(self) -> None:
        for_now(self, etcd, FIRST_SECONDS=0.5)
        node = self.node(GOOD, seconds=1.0)
        self.assertIsNone(self.client(node).get(b"x"))
        self.assertGreater(len(node.asked), 1)

    def test_connections_are_kept(self) -> None:
        nodes = [self.node(GOOD) for _ in range(3)]
        client = self.client(*nodes)
        for _ in range(5):
            client.get(b"x")
        # Those that weren't the first to answer may come later.
        until(lambda: sum(node.connections for node in nodes) >= 3)
        self.assertEqual(sum(node.connections for node in nodes), 3)
