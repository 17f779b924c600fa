import os
import socket
import subprocess
import threading
import time
import unittest
from functools import partial
from typing import Any, Dict, List, Optional

from ledgerlog.client import Ledger, Line, Placed, Refused, Unknown
from ledgerlog.errors import Unreachable
from ledgerlog.keys import LINES
from ledgerlog.log import Log, Offer
from ledgerlog.pipelining import Flight, Pipeline, Wanted
from ledgerlog.service import Service
from ledgerlog.written import INLINE_BYTES

from .services import ServiceCase, TlsCase
from .store import PATIENCE, Store, made_log, put_vote, run, until
from .test_commands import done
from .test_log import large


class Serving(ServiceCase):
    def let_go_where_waiting(self, count: int) -> None:
        """Has the service put nothing until so many wait."""
        pipeline = self.service.writer.pipeline
        real = pipeline.take

        def take() -> Optional[Flight]:
            until(lambda: len(pipeline.wanted) >= count)
            setattr(pipeline, "take", real)
            return real()

        setattr(pipeline, "take", take)

    def test_many_at_once_get_a_number_each_in_few_transactions(self) -> None:
        ledgers = [self.ledger(f"s{at % 20}") for at in range(40)]
        before = self.store.revision
        self.let_go_where_waiting(2)
        placed = self.at_once(*(lambda at=at: [ledgers[at].submit(run(10 * at + one)).number for one in range(5)]
                                for at in range(40)))
        numbers = sorted(number for one in placed for number in one)
        self.assertEqual(numbers, list(range(1, 201)))
        self.assertLess(self.store.revision - before, 200)
        self.assertTrue(all(self.store.get(self.log.keys.used(f"s{at}")) == b"40" for at in range(20)))
        self.assertEqual({one.record for one in self.log.read(1).taken} | {one.record for one in self.log.read(101).taken},
                         {run(10 * at + one) for at in range(40) for one in range(5)})

    def test_one_id_is_put_once_however_many_put_it(self) -> None:
        ledgers = [self.ledger() for _ in range(8)]
        placed = self.at_once(*(lambda one=one: one.submit(run(1), "same") for one in ledgers))
        self.assertEqual(set(placed), {Placed(1, None)})
        self.assertEqual(self.log.last(), 1)

    def test_a_quota_binds_its_submitter_alone(self) -> None:
        poor, rich = self.ledger("poor"), self.ledger("rich")
        self.assertEqual([poor.submit(run(at)).number for at in (1, 2)], [1, 2])
        told = self.at_once(lambda: poor.submit(run(3)), lambda: rich.submit(run(4)))
        self.assertIsInstance(told[0], Refused)
        self.assertIn("poor has 8 bytes in the log, and may have 8", str(told[0]))
        self.assertEqual(told[1].number, 3)

    def test_a_lost_answer_is_asked_for_again_with_the_same_id(self) -> None:
        real = self.store.done

        def lost(body: Any) -> Any:
            answer = real(body)
            if any("request_put" in one for one in body["success"]):
                setattr(self.store, "done", real)
                raise Unreachable("lost")
            return answer

        setattr(self.store, "done", lost)
        self.assertEqual(self.ledger().submit(run(1)).number, 1)
        self.assertEqual(self.log.last(), 1)

    def test_what_is_unknown_when_the_time_is_over_is_said_with_its_id(self) -> None:
        real = self.store.done

        def hangs(body: Any) -> Any:
            raise Unreachable("no node of the log answers")

        setattr(self.store, "done", hangs)
        with self.assertRaisesRegex(Unknown, "it isn't known whether pay-1 is put .* try again with this id") as caught:
            self.ledger(seconds=0.5).submit(run(1), "pay-1")
        self.assertEqual(caught.exception.id, "pay-1")
        setattr(self.store, "done", real)
        self.assertEqual(self.ledger().submit(run(1), "pay-1").number, 1)

    def test_a_service_that_comes_again_is_found_again(self) -> None:
        ledger = self.ledger()
        self.assertEqual(ledger.submit(run(1)).number, 1)
        self.service.close()
        with self.assertRaises(Unknown):
            self.ledger(seconds=0.3).submit(run(2))
        self.start()
        self.assertEqual(ledger.submit(run(2)).number, 2)

    def test_final_lines_are_waited_for(self) -> None:
        def vote() -> None:
            for name in "ab":
                put_vote(self.log, name, LINES, 1, b"1 returned 5\n")

        threading.Timer(0.3, vote).start()
        self.assertEqual(self.ledger().submit(run(1), wait=True), Placed(1, b"1 returned 5\n"))

    def test_large_records_are_put_and_what_is_none_is_refused(self) -> None:
        ledger = self.ledger()
        self.assertEqual(ledger.submit(large(INLINE_BYTES)).number, 1)
        self.assertEqual(len(self.log.read(1).taken[0].record), INLINE_BYTES + 4)
        for record in b"\3\0", b"\2\5a", b"":
            with self.assertRaises(Refused):
                ledger.submit(record)
        self.assertEqual(ledger.submit(run(1)).number, 2)

    def test_a_refused_record_leaves_its_connection_to_the_others(self) -> None:
        line = Line(self.path)
        self.addCleanup(line.close)
        ends = time.monotonic() + PATIENCE
        asked = [line.ask({"id": name, "bytes": len(record)}, record, ends) for name, record in (("show", b"\3\0"), ("run", run(1)))]
        self.assertIn("refused", line.answer(asked[0], ends))
        self.assertEqual(line.answer(asked[1], ends), {"id": "run", "number": 1})

    def test_one_service_at_a_time_and_its_socket_is_its_groups(self) -> None:
        self.assertEqual(os.stat(self.path).st_mode & 0o777, 0o660)
        from ledgerlog import saves
        self.addCleanup(setattr, saves, "LOCK_SECONDS", saves.LOCK_SECONDS)
        setattr(saves, "LOCK_SECONDS", 0.1)
        with self.assertRaises(OSError):
            Service(self.path, lambda: Log(self.store, "L"))

    def test_other_writers_at_the_log_are_no_harm(self) -> None:
        ledger = self.ledger()
        for at in range(5):
            list(self.log.append([Offer(f"other-{at}", run(at))], "anyone", self.log.settings()))
            self.assertEqual(ledger.submit(run(10 + at)).number, 2 * at + 2)
        self.assertEqual(self.store.get(self.log.keys.used("anyone")), b"40")


class OverTls(TlsCase):
    """A service that takes submitters of other machines."""

    def test_a_submitter_is_who_its_certificate_names(self) -> None:
        alice = self.ledger("alice")
        self.assertEqual([alice.submit(run(at)).number for at in (1, 2)], [1, 2])
        with self.assertRaisesRegex(Refused, "alice has 8 bytes in the log, and may have 8"):
            alice.submit(run(3))
        self.assertEqual(self.store.get(self.log.keys.used("alice")), b"8")
        self.assertIsNone(self.store.get(self.log.keys.used("bob")))

    def test_nobody_else_gets_in(self) -> None:
        rows = [Ledger(self.place, "bob", 0.5), self.ledger("no name", 0.5)]
        for ledger in rows:
            with self.assertRaises(Unknown):
                ledger.submit(run(1))
            ledger.close()
        self.assertEqual(self.log.last(), 0)

    def test_who_says_nothing_or_takes_nothing_holds_up_nobody(self) -> None:
        host, _, port = self.place.rpartition(":")
        with socket.create_connection((host, int(port))), socket.create_connection((host, int(port))) as other:
            other.sendall(b"\x16\x03")
            self.assertEqual(self.ledger("alice").submit(run(1)).number, 1)

    def submitted(self, record: bytes, *words: str, place: Optional[str] = None) -> "subprocess.CompletedProcess[bytes]":
        tls = ["--ca", self.file("ca.pem"), "--certificate", self.file("alice.pem"), "--key", self.file("alice.key")] if place is None else []
        return done(["submit", "--service", place or self.place, *tls, *words, "-"], record)

    def test_submit_is_a_client(self) -> None:
        it = self.submitted(run(1), "--id", "pay-1")
        self.assertEqual((it.returncode, it.stdout), (0, b"1\n"), it.stderr)
        self.assertEqual(self.submitted(run(1), "--id", "pay-1").stdout, b"1\n")
        self.assertEqual(self.submitted(run(2), "--id", "pay-2").stdout, b"2\n")
        it = self.submitted(run(3), "--id", "pay-3")
        self.assertEqual(it.returncode, 3)
        self.assertIn(b"submit: refused: alice has 8 bytes in the log, and may have 8", it.stderr)
        it = self.submitted(run(4) + run(5), "--stream", "--as", "carol", place=self.socket)
        self.assertEqual((it.returncode, it.stdout), (0, b"3\n4\n"), it.stderr)
        self.assertEqual(self.store.get(self.log.keys.used("carol")), b"8")

    def test_submit_waits_for_final_lines_and_says_what_is_not_known(self) -> None:
        def vote() -> None:
            for name in "ab":
                put_vote(self.log, name, LINES, 1, b"1 returned 5\n")

        threading.Timer(0.5, vote).start()
        it = self.submitted(run(1), "--wait", place=self.socket)
        self.assertEqual((it.returncode, it.stdout), (0, b"1\n1 returned 5\n"), it.stderr)
        for seconds in (1, 10, 100):
            it = self.submitted(run(2), "--id", "pay-2", "--wait", "--seconds", str(seconds), place=self.socket)
            # A busy machine may not have put it in so short a time.
            if it.stdout:
                break
        self.assertEqual((it.returncode, it.stdout), (1, b"2\n"))
        self.assertIn(b"record 2 is in the log, and no majority has answered it alike within %d seconds" % seconds, it.stderr)
        it = self.submitted(run(3), "--id", "pay-9", "--seconds", "1", place=self.socket + "-none")
        self.assertEqual(it.returncode, 1)
        self.assertIn(b"it isn't known what was put: try again with --id pay-9", it.stderr)


def put_all(pipeline: Pipeline, store: Store) -> None:
    """Puts all that waits, one transaction after the other."""
    while pipeline.wanted or pipeline.failed:
        flight = pipeline.take()
        if flight is not None:
            flight.send(store)
            pipeline.end(flight)


class Batches(unittest.TestCase):
    def pipeline(self, store: Store, **given: Any) -> Pipeline:
        log = made_log(store, **given)
        return Pipeline(log, log.settings)

    def test_a_transaction_has_no_more_operations_than_it_takes(self) -> None:
        store = Store()
        pipeline = self.pipeline(store)
        told: List[Any] = []
        for at in range(200):
            pipeline.want(Wanted(Offer(f"x{at}", run(at)), f"s{at}", told.append))
        put_all(pipeline, store)
        self.assertEqual(told, list(range(1, 201)))

    def test_as_many_as_the_nodes_take_and_no_more_bytes(self) -> None:
        store = Store()
        store.most_operations = 1024
        pipeline = self.pipeline(store)
        told: List[Any] = []
        for at in range(400):
            pipeline.want(Wanted(Offer(f"x{at}", run(at)), f"s{at % 20}", told.append))
        before = store.revision
        put_all(pipeline, store)
        self.assertEqual((told, store.revision), (list(range(1, 401)), before + 1))
        large_ones = [b"\2" + b"\x80\x7d" + bytes(16_000)] * 100
        for at, record in enumerate(large_ones):
            pipeline.want(Wanted(Offer(f"y{at}", record), "s", told.append))
        flight = pipeline.take()
        assert flight is not None
        self.assertLess(sum(len(one.offer.record) for one in flight.wanted), 1_000_000)
        self.assertEqual(len(flight.wanted) + len(pipeline.wanted), 100)

    def test_in_one_transaction_each_id_is_once_and_a_quota_binds_its_submitter_alone(self) -> None:
        store = Store()
        pipeline = self.pipeline(store, quotas={"poor": 4})
        told: Dict[str, Any] = {}
        for name, who, number in (("a", "poor", 1), ("b", "rich", 2), ("c", "poor", 3), ("b", "rich", 2), ("d", "rich", 4)):
            pipeline.want(Wanted(Offer(name, run(number)), who, partial(told.setdefault, name)))
        put_all(pipeline, store)
        self.assertEqual([told[name] for name in "abd"], [1, 2, 3])
        self.assertEqual(str(told["c"]), "poor has 4 bytes in the log, and may have 4")
        self.assertEqual(store.get(b"L/used/rich"), b"8")
