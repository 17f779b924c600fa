import itertools
import random
import threading
import time
import unittest
from functools import partial
from typing import Any, Callable, Dict, Iterable, List, Optional, Sequence, Set, Tuple

from ledgerlog.errors import LogError, OtherRecord, Refused, Unreachable
from ledgerlog.etcd import Etcd
from ledgerlog.gathering import Writer
from ledgerlog.log import Log, Offer
from ledgerlog.pipelining import MOST_FLYING, Flight, Pipeline, Wanted
from ledgerlog.requests import Body, Entry
from ledgerlog.settings import Settings
from ledgerlog.written import head_of

from .served import Served
from .store import Store, made_log, run

Told = Tuple[bool, List[List[Entry]]]
# More than any machine takes.
DEADLINE = 600.0


class Refusing(Store):
    """Refuses what it's asked."""

    def transact(self, compare: List[Body], success: List[Body], failure: List[Body]) -> Told:
        raise LogError("etcdserver: refused")


class Silent(Store):
    """Has no answer, to what may reach the store that it stands before, or not."""

    def __init__(self, store: Optional[Store] = None) -> None:
        super().__init__()
        self.store = store

    def transact(self, compare: List[Body], success: List[Body], failure: List[Body]) -> Told:
        if self.store is not None:
            self.store.transact(compare, success, failure)
        raise Unreachable("no node of the log answers")


class Again(Store):
    """Asks twice, since it has lost the first answer."""

    def __init__(self, store: Store) -> None:
        super().__init__()
        self.store = store

    def transact(self, compare: List[Body], success: List[Body], failure: List[Body]) -> Told:
        self.store.transact(compare, success, failure)
        return self.store.transact(compare, success, failure)


class Answering(Store):
    """Answers so."""

    def __init__(self, is_done: bool) -> None:
        super().__init__()
        self.is_done = is_done

    def transact(self, compare: List[Body], success: List[Body], failure: List[Body]) -> Told:
        return self.is_done, []


def arrives(flight: Flight, store: Store) -> bool:
    """What was sent reaches the store; whether it's put."""
    return store.transact([*flight.batch.conditions(), *flight.behind], flight.batch.puts(), [])[0]


def ids_in(log: Log) -> List[str]:
    """The ids of the records, in their order."""
    values = [log.etcd.get(log.keys.record(number)) for number in range(1, log.last() + 1)]
    return [head.id for head in map(head_of, filter(None, values)) if head]


class OnTheirWay(unittest.TestCase):
    """A pipeline of transactions of two records, which are sent and answered as a test says."""

    def setUp(self) -> None:
        self.store = Store()
        self.log = made_log(self.store, quotas={"poor": 8}, protocol=4)
        self.told: Dict[str, Any] = {}
        self.again: List[str] = []
        self.pipeline = self.made()

    def made(self, most: int = 2) -> Pipeline:
        pipeline = Pipeline(self.log, self.log.settings)
        pipeline.most_gathered = most
        return pipeline

    def tell(self, name: str, outcome: Any) -> None:
        self.assertNotIn(name, self.told)
        self.told[name] = outcome

    def want(self, names: str, who: str = "s", pipeline: Optional[Pipeline] = None) -> None:
        for name in names:
            self.told.pop(name, None)
            (pipeline or self.pipeline).want(Wanted(Offer(name, run(ord(name))), who, partial(self.tell, name)))

    def flights(self, names: str, pipeline: Optional[Pipeline] = None) -> List[Flight]:
        """As many as go, which have to be of these records."""
        flights = [one for one in ((pipeline or self.pipeline).take() for _ in range(20)) if one is not None]
        self.assertEqual(" ".join("".join(one.offer.id for one in flight.wanted) for flight in flights), names)
        return flights

    def answered(self, *flights: Flight, by: Optional[Store] = None) -> None:
        for flight in flights:
            flight.send(by or self.store)
            self.pipeline.end(flight)

    def rest(self, pipeline: Optional[Pipeline] = None) -> None:
        """Has all the rest put, one transaction after the other."""
        one = pipeline or self.pipeline
        for _ in range(50):
            flight = one.take()
            if flight is not None:
                flight.send(self.store)
                one.end(flight)
        self.assertFalse(one.wanted or one.flying or one.failed)

    def check(self, ids: str, told: Optional[str] = None) -> None:
        """These are in the log in this order, with what they take of a quota, and these were told their numbers."""
        self.assertEqual("".join(ids_in(self.log)), ids)
        for name in ids if told is None else told:
            self.assertEqual(self.told.get(name), 1 + ids.index(name), name)
        for name in ids:
            self.assertEqual(int(self.store.get(self.log.keys.id(name)) or b"0", 16), 1 + ids.index(name))
        used = sum(int(self.store.get(self.log.keys.used(who)) or 0) for who in ("s", "poor", "rich"))
        self.assertEqual(used, 4 * len(ids))

    def test_each_goes_before_the_one_before_it_is_answered(self) -> None:
        self.want("abcdefghij")
        flights = self.flights("ab cd ef gh")
        self.assertEqual(len(flights), MOST_FLYING)
        self.answered(*flights)
        self.assertTrue(all(flight.is_done for flight in flights))
        self.rest()
        self.check("abcdefghij")

    def test_answers_may_come_in_any_order(self) -> None:
        self.want("abcdef")
        flights = self.flights("ab cd ef")
        for flight in flights:
            flight.send(self.store)
        for flight in reversed(flights):
            self.pipeline.end(flight)
        self.check("abcdef")

    def test_one_that_comes_too_early_goes_again_in_its_order(self) -> None:
        self.want("abcdef")
        one, two, three = self.flights("ab cd ef")
        self.answered(two, one, three)
        self.want("gh")
        again = self.flights("cd ef gh")
        self.assertEqual(self.told, {"a": 1, "b": 2})
        self.answered(*again)
        self.assertTrue(all(flight.is_done for flight in again))
        self.check("abcdefgh")

    def test_nothing_goes_behind_one_that_failed_until_all_have_ended(self) -> None:
        self.want("abcdef")
        one, two, three = self.flights("ab cd ef")
        list(self.log.append([Offer("z", run(1))], "rich", self.log.settings()))
        self.answered(one)
        self.want("g")
        self.flights("")
        self.answered(two)
        self.flights("")
        self.answered(three)
        self.rest()
        self.check("zabcdefg", "abcdefg")

    def test_one_that_fails_while_the_next_is_made_keeps_it_back(self) -> None:
        self.want("ab")
        one, = self.flights("ab")
        self.want("cd")

        def rules() -> Settings:
            if self.pipeline.flying:
                self.answered(one, by=Refusing())
            return self.log.settings()

        self.pipeline.rules = rules
        self.assertIsNone(self.pipeline.take())
        self.assertEqual([one.offer.id for one in self.pipeline.wanted], ["c", "d"])
        self.rest()
        self.check("cd")

    def test_one_is_refused_in_the_middle(self) -> None:
        self.want("abcdef")
        one, two, three = self.flights("ab cd ef")
        self.answered(one)
        self.answered(two, by=Refusing())
        self.answered(three)
        self.rest()
        self.check("abef")
        self.assertEqual([str(self.told[name]) for name in "cd"], ["etcdserver: refused"] * 2)

    def test_one_is_unknown_in_the_middle_and_was_not_put(self) -> None:
        self.want("abcdef")
        one, two, three = self.flights("ab cd ef")
        self.answered(one)
        self.answered(two, by=Silent())
        self.answered(three)
        self.rest()
        self.check("abef")
        self.assertTrue(all(isinstance(self.told[name], Unreachable) for name in "cd"))
        self.want("cd")
        self.rest()
        self.assertFalse(arrives(two, self.store))
        self.check("abefcd")

    def test_one_is_unknown_in_the_middle_and_was_put(self) -> None:
        self.want("abcdef")
        one, two, three = self.flights("ab cd ef")
        self.answered(one)
        self.answered(two, by=Silent(self.store))
        self.answered(three)
        self.rest()
        self.check("abcdef", "abef")
        self.assertTrue(all(isinstance(self.told[name], Unreachable) for name in "cd"))
        self.want("cd")
        self.rest()
        self.check("abcdef")

    def test_one_is_asked_again_since_its_answer_was_lost(self) -> None:
        self.want("abcdef")
        one, two, three = self.flights("ab cd ef")
        self.answered(one)
        two.send(Again(self.store))
        self.answered(three)
        self.pipeline.end(two)
        self.rest()
        self.check("abcdef")

    def test_one_arrives_when_nobody_waits_for_it(self) -> None:
        self.want("ab")
        one, = self.flights("ab")
        self.answered(one, by=Silent())
        self.want("cd")
        two, = self.flights("cd")
        self.assertTrue(arrives(one, self.store))
        self.answered(two)
        self.want("ab")
        self.rest()
        self.check("abcd")

    def test_another_writer_puts_as_many_in_place_of_the_first(self) -> None:
        self.want("abcd")
        one, two = self.flights("ab cd")
        list(self.log.append([Offer("y", run(1)), Offer("z", run(2))], "s", self.log.settings()))
        for flight in (one, two):
            flight.send(self.store)
        for flight in (two, one):
            self.pipeline.end(flight)
        self.rest()
        self.check("yzabcd", "abcd")

    def test_what_stands_already_is_told_and_the_rest_goes_on(self) -> None:
        self.want("ac")
        self.rest()
        self.want("abcdef")
        self.flights("ab cd ef")
        for flight in list(self.pipeline.flying):
            self.answered(flight)
        self.rest()
        self.check("acbdef")

    def test_an_id_of_another_record_holds_up_nobody(self) -> None:
        self.want("a")
        self.rest()
        del self.told["a"]
        self.pipeline.want(Wanted(Offer("a", run(1)), "s", partial(self.tell, "a")))
        self.want("bcd")
        self.rest()
        self.assertIsInstance(self.told["a"], OtherRecord)
        self.check("abcd", "bcd")

    def test_an_id_is_on_its_way_once(self) -> None:
        self.want("ab")
        one, = self.flights("ab")
        second: List[Any] = []
        self.pipeline.want(Wanted(Offer("a", run(ord("a"))), "s", second.append))
        self.want("c")
        two, = self.flights("c")
        self.answered(one, two)
        self.rest()
        self.assertEqual(second, [1])
        self.check("abc")

    def test_a_quota_refuses_when_it_is_known_what_was_put(self) -> None:
        self.want("ab", "poor")
        one, = self.flights("ab")
        self.want("c", "poor")
        self.want("de", "rich")
        two, three = self.flights("d e")
        self.assertNotIn("c", self.told)
        self.assertEqual(self.pipeline.held, {"poor"})
        self.answered(one, by=Refusing())
        self.answered(two, three)
        self.rest()
        self.check("dec")
        self.want("fg", "poor")
        self.rest()
        self.assertIsInstance(self.told["g"], Refused)
        self.assertEqual(str(self.told["g"]), "poor has 8 bytes in the log, and may have 8")
        self.check("decf")

    def test_what_was_cleared_counts_no_more(self) -> None:
        self.want("ab", "poor")
        self.rest()
        self.want("abc", "poor")
        self.rest()
        self.assertIsInstance(self.told["c"], Refused)
        self.check("ab")
        self.store.put(self.log.keys.gone("poor"), b"4")
        self.want("cd", "poor")
        self.rest()
        self.assertIsInstance(self.told["d"], Refused)
        self.check("abc")

    def test_nodes_that_take_fewer_operations(self) -> None:
        self.pipeline.most_gathered = 200
        names = [f"x{at}" for at in range(500)]
        for at, name in enumerate(names):
            self.pipeline.want(Wanted(Offer(name, run(at)), "s", partial(self.tell, name)))
        flights = [self.pipeline.take() for _ in range(3)]
        for flight in flights:
            assert flight is not None
            self.answered(flight)
        self.rest()
        self.assertEqual(ids_in(self.log), names)
        self.assertEqual([self.told[name] for name in names], list(range(1, 501)))

    def test_a_service_is_killed_with_three_on_their_way(self) -> None:
        """Each reaches the store before another service begins, or when that has sent its own, or never."""
        for when in itertools.product(("before", "meanwhile", "never"), repeat=3):
            with self.subTest(when):
                self.setUp()
                self.want("abcdef")
                flights = self.flights("ab cd ef")
                for flight in (one for one, time_ in zip(flights, when) if time_ == "before"):
                    arrives(flight, self.store)
                other = self.made()
                self.want("abcdef", pipeline=other)
                sent = [flight for flight in (other.take() for _ in range(3)) if flight]
                for flight in (one for one, time_ in zip(flights, when) if time_ == "meanwhile"):
                    arrives(flight, self.store)
                for flight in sent:
                    flight.send(self.store)
                    other.end(flight)
                self.rest(other)
                self.assertEqual([arrives(flight, self.store) for flight in flights], [False] * 3)
                self.assertEqual(sorted(ids_in(self.log)), list("abcdef"))
                self.check("".join(ids_in(self.log)))

    def test_two_services_at_once(self) -> None:
        other = self.made()
        self.want("abcdef")
        self.want("uvwxyz", "rich", other)
        for _ in range(200):
            flights = [one.take() for one in (self.pipeline, other)]
            for pipeline, flight in zip((self.pipeline, other), flights):
                if flight is not None:
                    flight.send(self.store)
                    pipeline.end(flight)
        ids = "".join(ids_in(self.log))
        self.check(ids)
        self.assertEqual(("".join(sorted(ids)), [name for name in ids if name < "g"]), ("abcdefuvwxyz", list("abcdef")))


class World:
    """Two services, of which each may be killed, and what they have sent: it arrives in any order, late, twice or never, and answers get
    lost. Submitters come again with the same ids, at any of them, until each is told a number."""

    def __init__(self, seed: int) -> None:
        self.random = random.Random(seed)
        self.store = Store()
        self.log = made_log(self.store)
        self.services = [self.service() for _ in range(2)]
        self.sent: List[Tuple[Pipeline, Flight, List[bool]]] = []
        self.home: Dict[str, Pipeline] = {}
        self.told: Dict[str, int] = {}
        # Whose records were tried again: they may have changed places.
        self.disturbed: Set[str] = set()
        self.ids: List[str] = []

    def service(self) -> Pipeline:
        made = Pipeline(self.log, self.log.settings)
        made.most_gathered = self.random.choice((1, 2))
        return made

    def want(self, name: str, service: Pipeline) -> None:
        self.home[name] = service
        service.want(Wanted(Offer(name, run(self.ids.index(name))), name[0], partial(self.tell, name, service)))

    def tell(self, name: str, service: Pipeline, outcome: Any) -> None:
        if isinstance(outcome, int):
            if self.told.setdefault(name, outcome) != outcome:
                raise AssertionError(f"{name} was told {self.told[name]} and {outcome}")
        elif isinstance(outcome, Unreachable):
            self.retry([name])
        else:
            raise AssertionError(f"{name}: {outcome!r}")

    def retry(self, names: Sequence[str]) -> None:
        for name in names:
            self.disturbed.add(name[0])
            if name not in self.told:
                self.want(name, self.random.choice(self.services))

    def submit(self) -> None:
        who = self.random.choice("abc")
        name = f"{who}{len(self.ids):03}"
        self.ids.append(name)
        self.want(name, self.services["abc".index(who) % 2])

    def take(self) -> None:
        service = self.random.choice(self.services)
        flight = service.take()
        if flight is not None:
            self.sent.append((service, flight, []))

    def arrive(self) -> None:
        if self.sent:
            _, flight, answers = self.random.choice(self.sent)
            answers.append(arrives(flight, self.store))

    def answer(self) -> None:
        """The last answer comes; those before it were lost."""
        some = [one for one in self.sent if one[2]]
        if some:
            self.end(*self.random.choice(some))

    def end(self, service: Pipeline, flight: Flight, answers: List[bool]) -> None:
        self.sent = [one for one in self.sent if one[1] is not flight]
        if service in self.services:
            flight.send(Answering(answers[-1]) if answers else Silent())
            service.end(flight)

    def give_up(self) -> None:
        """Nobody waits for one any more; it may arrive yet."""
        some = [one for one in self.sent if one[0] in self.services]
        if some and self.random.random() < 0.1:
            service, flight, _ = self.random.choice(some)
            self.end(service, flight, [])
            if self.random.random() < 0.7:
                self.sent.append((self.service(), flight, []))

    def kill(self) -> None:
        if self.random.random() < 0.03:
            at = self.random.randrange(2)
            killed, self.services[at] = self.services[at], self.service()
            self.sent = [one for one in self.sent if one[0] is not killed or self.random.random() < 0.7]
            lost = [name for name, service in self.home.items() if service is killed and name not in self.told]
            self.random.shuffle(lost)
            self.retry(lost)

    def run(self) -> None:
        calls: List[Callable[[], None]] = [self.submit, self.take, self.take, self.arrive, self.arrive, self.answer, self.answer, self.give_up,
                                           self.kill]
        while len(self.ids) < 40:
            self.random.choice(calls)()
        for _ in range(20_000):
            if len(self.told) == len(self.ids) and not self.sent:
                return
            self.random.choice((self.take, self.arrive, self.answer))()
            late = [one for one in self.sent if one[0] not in self.services and one[2]]
            for one in late:
                self.sent.remove(one)
        raise AssertionError(f"{len(self.told)} of {len(self.ids)} were told a number")

    def check(self) -> None:
        there = ids_in(self.log)
        if sorted(there) != sorted(self.ids):
            raise AssertionError(f"the log has {there}")
        wrong = [name for name, number in self.told.items() if there[number - 1] != name]
        moved = [who for who in set("abc") - self.disturbed if [name for name in there if name[0] == who] != self.of(who)]
        sums = [int(self.store.get(self.log.keys.used(who)) or 0) - 4 * len(self.of(who)) for who in "abc"]
        if wrong or moved or any(sums):
            raise AssertionError(f"{wrong} aren't where they were told to be, those of {moved} changed places, the quotas are off by {sums}")

    def of(self, who: str) -> List[str]:
        return [name for name in self.ids if name[0] == who]


class Explored(unittest.TestCase):
    def test_whatever_becomes_of_what_is_sent(self) -> None:
        for seed in range(150):
            with self.subTest(seed):
                world = World(seed)
                world.run()
                world.check()


class Hanging(Served):
    """A node that takes the second transaction that puts anything at any node, does it or not, and doesn't answer."""

    def __init__(self, store: Store, puts: "itertools.count[int]", is_done: bool) -> None:
        self.puts = puts
        self.is_done = is_done
        self.over = threading.Event()
        super().__init__(store)

    def answered(self, store: Store, path: str, body: Dict[str, Any]) -> Dict[str, Any]:
        is_put = any("request_put" in one for one in body.get("success", ()))
        if is_put and next(self.puts) == 1:
            told = super().answered(store, path, body) if self.is_done else None
            self.over.wait(DEADLINE)
            return told or super().answered(store, path, body)
        return super().answered(store, path, body)


class Waiting(Served):
    """A node that answers nobody who puts until so many transactions that put have come."""

    def __init__(self, store: Store, count: int) -> None:
        self.count = count
        self.come: Set[str] = set()
        self.changed = threading.Condition()
        super().__init__(store)

    def answered(self, store: Store, path: str, body: Dict[str, Any]) -> Dict[str, Any]:
        told = super().answered(store, path, body)
        keys = [one["request_put"]["key"] for one in body.get("success", ()) if "request_put" in one]
        if keys:
            with self.changed:
                # The same one that is asked again is none more.
                self.come.add(keys[0])
                self.changed.notify_all()
                self.changed.wait_for(lambda: len(self.come) >= self.count, DEADLINE)
        return told


class Threads(unittest.TestCase):
    """Writers with their threads, over nodes and over a store."""

    def setUp(self) -> None:
        self.store = Store()
        self.log = made_log(self.store)
        self.told: Dict[str, Any] = {}

    def writer(self, etcd: Etcd, most: int) -> Writer:
        made = Writer(Log(etcd, "L"))
        made.pipeline.most_gathered = most
        made.pipeline.least = 0.0
        self.addCleanup(made.stop)
        return made

    def all_told(self, names: Iterable[str]) -> None:
        ends = time.monotonic() + DEADLINE
        while not set(names) <= set(self.told):
            self.assertLess(time.monotonic(), ends)
            time.sleep(0.01)
        there = ids_in(self.log)
        self.assertEqual(sorted(there), sorted(names))
        self.assertEqual({name: 1 + there.index(name) for name in names}, self.told)

    def test_a_node_hangs_with_one_in_the_middle(self) -> None:
        for is_done in (True, False):
            with self.subTest(is_done=is_done):
                self.setUp()
                puts = itertools.count()
                nodes = [Hanging(self.store, puts, is_done) for _ in range(2)]
                writer = self.writer(Etcd([node.address for node in nodes], DEADLINE), 3)
                names = [f"x{at:02}" for at in range(30)]
                for at, name in enumerate(names):
                    writer.want(Wanted(Offer(name, run(at)), "s", partial(self.told.setdefault, name)))
                writer.start()
                self.all_told(names)
                self.assertEqual(ids_in(self.log), names)
                for node in nodes:
                    node.over.set()
                writer.stop()
                self.assertEqual(ids_in(self.log), names)
                for node in nodes:
                    node.close()

    def test_several_are_on_their_way_before_the_first_is_answered(self) -> None:
        node = Waiting(self.store, 3)
        writer = self.writer(Etcd([node.address], DEADLINE), 2)
        names = [f"x{at:02}" for at in range(30)]
        for at, name in enumerate(names):
            writer.want(Wanted(Offer(name, run(at)), "s", partial(self.told.setdefault, name)))
        writer.start()
        self.all_told(names)
        self.assertEqual(ids_in(self.log), names)
        writer.stop()
        node.close()

    def test_two_services_put_at_once_beside_a_third_writer(self) -> None:
        writers = [self.writer(self.store, 5) for _ in range(2)]
        names = [f"{who}{at:03}" for at in range(100) for who in "ab"]
        for writer in writers:
            writer.start()
        for at, name in enumerate(names):
            writers[at % 2].want(Wanted(Offer(name, run(at)), name[0], partial(self.told.setdefault, name)))
        for at in range(10):
            self.told[f"c{at}"], = self.log.append([Offer(f"c{at}", run(at))], "c", self.log.settings())
        self.all_told([*names, *(f"c{at}" for at in range(10))])
        for who in "ab":
            mine = [name for name in ids_in(self.log) if name[0] == who]
            self.assertEqual(mine, sorted(mine))
