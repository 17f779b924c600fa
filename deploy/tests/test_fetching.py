import http.client
import os
import socket
import threading
import time
from http.server import BaseHTTPRequestHandler, ThreadingHTTPServer
from typing import Any, Callable

from ledgerlog import fetching
from ledgerlog.clearing import Clearing
from ledgerlog.errors import Behind
from ledgerlog.fetching import Giving
from ledgerlog.keys import AT, VOTE
from ledgerlog.saves import saves_in

from .served import trickle
from .store import PATIENCE, SET, fill, for_now, until
from .test_following import OverStandIn


class Lying:
    """What gives something else in a save's place."""

    def __init__(self, give: Callable[[BaseHTTPRequestHandler], None]) -> None:
        self.asked = 0
        one = self

        class Handler(BaseHTTPRequestHandler):
            def do_GET(self) -> None:
                one.asked += 1
                give(self)

            def log_message(self, *_: object) -> None:
                pass

        self.server = ThreadingHTTPServer(("127.0.0.1", 0), Handler)
        self.server.daemon_threads = True
        setattr(self.server, "handle_error", lambda *_: None)
        self.address = f"127.0.0.1:{self.server.server_port}"
        threading.Thread(target=self.server.serve_forever, args=(0.05,), daemon=True).start()

    def close(self) -> None:
        self.server.shutdown()
        self.server.server_close()


def wrong(handler: BaseHTTPRequestHandler) -> None:
    data = b"MVL2 5 wrong"
    handler.send_response(200)
    handler.send_header("Content-Length", str(len(data)))
    handler.end_headers()
    handler.wfile.write(data)


def endless(handler: BaseHTTPRequestHandler) -> None:
    handler.send_response(200)
    handler.end_headers()
    while True:
        handler.wfile.write(bytes(65_536))


def half(handler: BaseHTTPRequestHandler) -> None:
    handler.send_response(200)
    handler.send_header("Content-Length", "1000")
    handler.end_headers()
    handler.wfile.write(b"MVL2 5 ")


class Fetches(OverStandIn):
    protocol = 4

    def setUp(self) -> None:
        super().setUp()
        for_now(self, fetching, SILENT_SECONDS=PATIENCE, FIRST_PAUSE=0.05)

    def given(self, name: str, address: str) -> None:
        self.store.put(self.log.keys.own(name, AT), address.encode())

    def gives(self, name: str) -> Giving:
        made = Giving("127.0.0.1", 0, self.path(name))
        self.addCleanup(made.close)
        self.given(name, made.address)
        return made

    def lies(self, name: str, give: Callable[[BaseHTTPRequestHandler], None]) -> Lying:
        made = Lying(give)
        self.addCleanup(made.close)
        self.given(name, made.address)
        return made

    def cleared(self) -> None:
        """Two have answered, and the log is cleared up to their save."""
        for name in "ab":
            self.start(name)
        fill(self.log, 9)
        self.answered(9, "a", "b")
        self.saved_at(8, "a", "b")
        self.assertEqual(Clearing(self.log, 0).run().upto, 8)

    def test_one_that_begins_behind_a_clearing_fetches_a_save(self) -> None:
        self.cleared()
        self.gives("a")
        self.start("c")
        self.answered(9, *SET)
        self.assertEqual([save.number for save in saves_in(self.path("c"))][-1], 8)
        fill(self.log, 4)
        self.answered(13, *SET)
        self.assertTrue(self.running["c"].says("has the save behind record 8 from a"))

    def test_one_that_lags_behind_a_clearing_while_it_runs_does_too(self) -> None:
        lagging = self.start("c")
        fill(self.log, 2)
        self.answered(2, "c")
        real = lagging.replica.log.read
        waits, go = threading.Event(), threading.Event()
        self.addCleanup(go.set)

        def held(*given: Any) -> Any:
            waits.set()
            go.wait(PATIENCE)
            return real(*given)

        setattr(lagging.replica.log, "read", held)
        until(waits.is_set)
        self.cleared()
        self.gives("b")
        go.set()
        self.answered(9, *SET)
        self.assertIsNone(lagging.error)

    def test_what_is_wrong_endless_or_half_is_thrown_away_and_another_one_asked(self) -> None:
        self.cleared()
        for give in (wrong, endless, half):
            with self.subTest(give):
                liar = self.lies("a", give)
                self.gives("b")
                one = self.start("c")
                self.answered(9, *SET)
                self.assertTrue(one.says("it is thrown away") or one.says("doesn't give a save"))
                self.assertGreater(liar.asked, 0)
                self.assertTrue(one.says("has the save behind record 8 from b"))
                one.stop()
                for save in saves_in(self.path("c")):
                    os.remove(save.path)
                self.store.forget(self.log.keys.own("c", VOTE))

    def test_one_that_hangs_costs_its_time_and_no_more(self) -> None:
        for_now(self, fetching, SILENT_SECONDS=1.0)
        self.cleared()
        with socket.create_server(("127.0.0.1", 0)) as silent:
            self.given("a", f"127.0.0.1:{silent.getsockname()[1]}")
            self.gives("b")
            one = self.start("c")
            self.answered(9, *SET)
            self.assertTrue(one.says("doesn't give a save: timed out"))

    def trickles(self, name: str, first: bytes) -> None:
        """One that gives a byte now and then, for ever."""
        place = socket.create_server(("127.0.0.1", 0))
        self.addCleanup(place.close)
        self.addCleanup(trickle(place, b"x", first).set)
        self.given(name, f"127.0.0.1:{place.getsockname()[1]}")

    def test_one_that_answers_ever_more_slowly_costs_its_time_and_no_more(self) -> None:
        for_now(self, fetching, SILENT_SECONDS=1.0)
        self.cleared()
        self.gives("b")
        for first in b"HTTP/1.1 200 OK\r\n", b"HTTP/1.1 200 OK\r\n\r\n":
            self.trickles("a", first)
            one = self.start("c")
            self.answered(9, *SET)
            self.assertTrue(one.says("doesn't give a save: timed out"))
            one.stop()
            for save in saves_in(self.path("c")):
                os.remove(save.path)
            self.store.forget(self.log.keys.own("c", VOTE))

    def test_one_that_is_to_stop_waits_for_no_save(self) -> None:
        for_now(self, fetching, SILENT_SECONDS=10 * PATIENCE)
        self.cleared()
        with socket.create_server(("127.0.0.1", 0)) as silent:
            self.given("a", f"127.0.0.1:{silent.getsockname()[1]}")
            one = self.start("c")
            silent.settimeout(PATIENCE)
            connection, _ = silent.accept()
            began = time.monotonic()
            one.stop()
            self.assertLess(time.monotonic() - began, PATIENCE)
            self.assertIsNone(one.error)
            connection.close()

    def test_what_is_no_address_is_not_asked(self) -> None:
        self.cleared()
        for address in "a" * 80 + ":1", "a..b:1", "a:99999", "a b:1", "1", "a:1\n":
            self.given("a", address)
            self.assertRegex(str(self.start("c").ends()), "no replica of the set says where it gives its saves")

    def test_it_is_asked_again_while_nobody_answers(self) -> None:
        for_now(self, fetching, SILENT_SECONDS=1.0)
        self.cleared()
        with socket.create_server(("127.0.0.1", 0)) as silent:
            self.given("a", f"127.0.0.1:{silent.getsockname()[1]}")
            one = self.start("c")
            until(lambda: one.says("gives none yet: asks again in 0.1 s"))
            for_now(self, fetching, SILENT_SECONDS=PATIENCE)
            self.gives("a")
            self.answered(9, *SET)

    def test_where_nobody_has_one_a_person_has_to_look(self) -> None:
        self.cleared()
        self.assertRegex(str(self.start("c").ends()), "record 1 isn't in the log any more.*no replica of the set says where it gives its saves")
        self.lies("a", lambda handler: handler.send_error(404))
        self.assertRegex(str(self.start("c").ends()), "none of a gives one that a majority has voted for")
        self.assertIsInstance(self.running["c"].error, Behind)

    def test_nothing_but_saves_is_given(self) -> None:
        self.cleared()
        giving = self.gives("a")
        rows = [("/save/8", 200), ("/save/7", 404), ("/save/../STOPPED", 404), ("/", 404), ("/save/" + "9" * 30, 404)]
        for path, status in rows:
            asked: Any = http.client.HTTPConnection(giving.address)
            asked.request("GET", path)
            self.assertEqual(asked.getresponse().status, status, path)
            asked.close()
