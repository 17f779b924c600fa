#!/usr/bin/env python3
"""Measures the log of replicas (docs/REPLICAS.md) beside etcd's own puts on the same machine: how many records a second go in, by one
transaction each, through the submit service, and by submitters of their own; what votes take, on single records and by chain; how fast a
log is cleared, alone and while records come; and how long answers stand still while a save is made. Three nodes run on the loopback
interface, and with a delay their links, and those to the second and the third, are that long. Each figure with a bound says whether it is
kept. All of it is in one folder, which goes, and all processes end with it.
usage: bench/replicas.py [--parts putting,votes,clearing,saving] [--delays 0,25] [--submitters 1,8,64,300] [--seconds S] [--times N] [--alone]
                         [--old] [--records N] [--moveledger PROGRAM]"""

import argparse
import os
import shutil
import signal
import subprocess
import sys
import tempfile
import threading
import time
from contextlib import contextmanager
from pathlib import Path
from typing import Callable, Iterator, List, NamedTuple, Optional, Sequence, Tuple

HERE = Path(__file__).resolve().parent
DEPLOY = HERE.parent / "deploy"
sys.path[:0] = [str(DEPLOY), str(HERE.parent / "tools"), str(HERE)]

from ledgerlog.chains import START, ChainVote, OwnChain, Point, Told  # noqa: E402
from ledgerlog.clearing import Clearing, compact  # noqa: E402
from ledgerlog.client import Ledger  # noqa: E402
from ledgerlog.errors import LogError  # noqa: E402
from ledgerlog.etcd import Etcd  # noqa: E402
from ledgerlog.final import Final  # noqa: E402
from ledgerlog.keys import SAVED, TOLD, VOTE  # noqa: E402
from ledgerlog.line import own_program, positive_number  # noqa: E402
from ledgerlog.log import Log, Offer  # noqa: E402
from ledgerlog.requests import absent, put  # noqa: E402
from ledgerlog.saves import SavedVote  # noqa: E402
from ledgerlog.settings import Settings, new_id  # noqa: E402
from ledgerlog.times import new_record_id  # noqa: E402
from ledgerlog.votes import LINES, Vote, Votes  # noqa: E402
from trial.processes import adopt, free_ports, wait_for_left  # noqa: E402

NAMES = ("first", "second", "third")
NODES = (1, 2, 3)
PATIENCE = 60.0
# A record of a kind that no program knows: 52 bytes, and one line.
SMALL = b"\x2a\x32" + bytes(50)
# What is promised: within so many times of etcd's own puts; so many a second of 64 submitters at 25 ms; a clear so many times as fast as
# records come; and so many seconds that answers stand still at most while a save is made.
TIMES, FAR_RATE, CLEAR_TIMES, STILL_SECONDS = 1.5, 500.0, 10.0, 1.0
COMING = 500
PARTS = ("putting", "votes", "clearing", "saving")
LEFT_OUT = 77


class Figure(NamedTuple):
    """One row of what is printed; `bound` is what it has to be, and whether it is."""

    what: str
    value: str
    bound: str = ""

    def line(self) -> str:
        return f"{self.what:66} {self.value:44} {self.bound}".rstrip()


def kept(is_kept: bool, text: str) -> str:
    return f"{'kept' if is_kept else 'NOT KEPT'}: {text}"


def tell(*figures: Figure) -> None:
    for figure in figures:
        print(figure.line(), flush=True)


class Fleet:
    """Three nodes in a folder; with a delay the links between them, and to the second and the third, are long."""

    def __init__(self, folder: Path, delay: float, started: List["subprocess.Popen[bytes]"]) -> None:
        """`started` takes all processes, those too of one that doesn't come up."""
        self.folder = folder
        self.delay = delay
        self.started = started
        first, far = free_ports(), free_ports() if delay else 0
        self.near = [f"127.0.0.1:{first + at}" for at in range(3)]
        peers = [first + 3 + at for at in range(3)]
        told = [far + at for at in range(3)] if delay else peers
        self.addresses = [self.near[0], *(f"127.0.0.1:{far + 3 + at}" for at in range(2))] if delay else self.near
        if delay:
            links = [f"{one}:{other}" for one, other in zip(told, peers)] + [f"{far + 3 + at}:{first + 1 + at}" for at in range(2)]
            self.start(sys.executable, HERE / "links.py", delay, *links)
            time.sleep(0.5)
        self.nodes = [self.node(at, peers, told) for at in range(3)]
        self.etcd().get(b"nothing")
        self.lead()

    def node(self, at: int, peers: List[int], told: List[int]) -> "subprocess.Popen[bytes]":
        client = f"http://{self.near[at]}"
        pace = ["--heartbeat-interval", 200, "--election-timeout", 2000] if self.delay else []
        return self.start(
            "etcd", "--name", f"node{at}", "--data-dir", self.folder / f"node{at}", "--listen-client-urls", client, "--advertise-client-urls",
            client, "--listen-peer-urls", f"http://127.0.0.1:{peers[at]}", "--initial-advertise-peer-urls", f"http://127.0.0.1:{told[at]}",
            "--initial-cluster", ",".join(f"node{one}=http://127.0.0.1:{port}" for one, port in enumerate(told)), "--max-txn-ops", 1024,
            "--quota-backend-bytes", 8 << 30, "--pre-vote", "--logger", "zap", "--log-level", "error", *pace)

    def start(self, *words: object) -> "subprocess.Popen[bytes]":
        with open(self.folder / "said", "ab") as said:
            one = subprocess.Popen(list(map(str, words)), stdin=subprocess.DEVNULL, stdout=said, stderr=said)
        self.started.append(one)
        return one

    def etcd(self, at: Optional[int] = None) -> Etcd:
        return Etcd([self.near[at]] if at is not None else list(self.addresses), PATIENCE)

    def lead(self) -> None:
        """Has the first node lead, which the service is beside."""
        told = [self.etcd(at).ask("/v3/maintenance/status", {}) for at in range(3)]
        own, leader = told[0]["header"]["member_id"], told[0]["leader"]
        for at in range(3):
            if own != leader and told[at]["header"]["member_id"] == leader:
                subprocess.run(["etcdctl", "--endpoints", self.near[at], "move-leader", f"{int(own):x}"], stdout=subprocess.DEVNULL,
                               env={**os.environ, "ETCDCTL_API": "3"}, check=False)

    def log(self, ledger: str, protocol: int = 4) -> Log:
        made = Log(self.etcd(), ledger)
        made.etcd.put(made.keys.log, Settings(new_id(), NAMES, every=100_000_000, hours=0, protocol=protocol).text())
        return made

    def processor(self) -> float:
        """Seconds of processor time that the nodes took."""
        ticks = 0
        for node in self.nodes:
            words = Path(f"/proc/{node.pid}/stat").read_text().rpartition(")")[2].split()
            ticks += int(words[11]) + int(words[12])
        return ticks / os.sysconf("SC_CLK_TCK")

    def bytes_used(self) -> int:
        """The bytes that a node uses, when it has forgotten what was replaced."""
        etcd = self.etcd(0)
        compact(etcd, etcd.range(b"nothing", b"nothinh", 1).revision)
        return int(etcd.ask("/v3/maintenance/status", {})["dbSizeInUse"])


@contextmanager
def fleet(delay: float = 0.0) -> Iterator[Fleet]:
    folder = Path(tempfile.mkdtemp())
    started: List["subprocess.Popen[bytes]"] = []
    try:
        yield Fleet(folder, delay, started)
    finally:
        for one in started:
            one.kill()
            one.wait()
        shutil.rmtree(folder, ignore_errors=True)


class Paced(NamedTuple):
    """How many were done a second, and what one took, in milliseconds."""

    rate: float
    p50: float
    p99: float

    def text(self) -> str:
        return f"{self.rate:8.0f} a second  p50 {self.p50:6.0f} ms  p99 {self.p99:6.0f} ms"


def paced(makes: Callable[[int], Callable[[int], object]], submitters: int, seconds: float) -> Paced:
    """Has so many submitters do one after the other for so many seconds."""
    took: List[float] = []
    ends = time.monotonic() + seconds

    def work(at: int) -> None:
        call, number = makes(at), 0
        while time.monotonic() < ends:
            began = time.monotonic()
            try:
                call(number)
            except LogError:
                continue
            took.append(time.monotonic() - began)
            number += 1

    began = time.monotonic()
    threads = [threading.Thread(target=work, args=(at,), daemon=True) for at in range(submitters)]
    for thread in threads:
        thread.start()
    for thread in threads:
        thread.join()
    took.sort()
    if not took:
        return Paced(0.0, 0.0, 0.0)
    return Paced(len(took) / (time.monotonic() - began), 1e3 * took[len(took) // 2], 1e3 * took[len(took) * 99 // 100])


def by_etcd(one: Fleet) -> Callable[[int], Callable[[int], object]]:
    """A record's bytes by one transaction that puts them where the key isn't there: what etcd itself can do."""
    def made(at: int) -> Callable[[int], object]:
        etcd = one.etcd()

        def call(number: int) -> object:
            key = f"own/{new_record_id()}-{at}-{number}".encode()
            return etcd.transact([absent(key)], [put(key, SMALL)], [])
        return call
    return made


def by_service(socket: Path) -> Callable[[int], Callable[[int], object]]:
    def made(at: int) -> Callable[[int], object]:
        ledger = Ledger(str(socket), f"s{at % 20}", PATIENCE)
        return lambda number: ledger.submit(SMALL)
    return made


def by_itself(one: Fleet, ledger: str) -> Callable[[int], Callable[[int], object]]:
    def made(at: int) -> Callable[[int], object]:
        log = Log(one.etcd(), ledger)
        settings = log.settings()
        return lambda number: list(log.append([Offer(new_record_id(), SMALL)], f"s{at % 20}", settings))
    return made


@contextmanager
def service(one: Fleet, ledger: str) -> Iterator[Path]:
    """The submit service, beside the node that leads."""
    socket = one.folder / "service" / "socket"
    started = one.start(DEPLOY / "serve", "--log", ",".join(one.addresses), "--ledger", ledger, socket)
    try:
        while not socket.exists():
            time.sleep(0.05)
        yield socket
    finally:
        started.terminate()
        started.wait()


def middle(some: List[Paced]) -> Paced:
    """The one of the middle rate."""
    return sorted(some)[len(some) // 2]


def putting(given: argparse.Namespace) -> None:
    """Records a second, beside etcd's own puts: the middle of some measurements, which take turns."""
    for delay in given.delays:
        with fleet(delay / 1e3) as one:
            one.log("put")
            for submitters in given.submitters:
                own: List[Paced] = []
                served: List[Paced] = []
                for _ in range(given.times):
                    own.append(paced(by_etcd(one), submitters, given.seconds))
                    with service(one, "put") as socket:
                        served.append(paced(by_service(socket), submitters, given.seconds))
                tell(*compared(middle(own), middle(served), delay, submitters))
                if given.alone:
                    alone = paced(by_itself(one, "put"), submitters, given.seconds)
                    tell(Figure(f"{place(delay, submitters)}: each by itself", alone.text()))


def place(delay: int, submitters: int) -> str:
    return f"{delay} ms one way, {submitters} submitter{'s' * (submitters > 1)}"


def compared(own: Paced, served: Paced, delay: int, submitters: int) -> List[Figure]:
    where = place(delay, submitters)
    bound = kept(served.rate * TIMES >= own.rate, f"within {TIMES} times of etcd ({own.rate / max(served.rate, 1e-9):.2f})")
    told = [Figure(f"{where}: etcd's own puts", own.text()), Figure(f"{where}: through the service", served.text(), bound)]
    if delay == 25 and submitters == 64:
        told.append(Figure(f"{where}: the aim", f"{served.rate:8.0f} a second", kept(served.rate >= FAR_RATE, f"{FAR_RATE:.0f}")))
    return told


def filled(log: Log, count: int, submitter: str = "bench") -> None:
    offers = [Offer(f"{new_record_id()}-{at}", SMALL) for at in range(count)]
    for _ in log.append(offers, submitter, log.settings()):
        pass


def replicas(one: Fleet, ledger: str, program: str, *words: object) -> None:
    for name in NAMES:
        folder = one.folder / ledger / name
        one.start(DEPLOY / "replica", "--log", ",".join(one.near), "--ledger", ledger, "--moveledger", program, *words, folder)


def all_final(log: Log, last: int) -> bool:
    final = Final(log.etcd, log.keys, log.settings())
    return bool(final.lines(last, 1)) and len(final.answered_by(last)) == len(NAMES)


def protocols(given: argparse.Namespace, old: str) -> List[Tuple[int, str]]:
    """The protocols that are measured, and how they are called."""
    return [*([(3, old)] if given.old else []), (4, "by chain")]


def votes(given: argparse.Namespace) -> None:
    """What votes take: three replicas answer a log that is there already, by votes on single records, and by chain."""
    sizes: List[float] = []
    for protocol, how in protocols(given, "on single records"):
        with fleet() as one:
            log = one.log("votes", protocol)
            empty = one.bytes_used()
            filled(log, given.records)
            before, began, used = one.bytes_used(), time.monotonic(), one.processor()
            tell(Figure("a record of 52 bytes with its id: bytes of a node's file", f"{(before - empty) / given.records:8.0f}"))
            replicas(one, "votes", given.moveledger, "--seconds", 100_000)
            while not all_final(log, given.records):
                time.sleep(0.2)
            took, used = time.monotonic() - began, one.processor() - used
            sizes.append((one.bytes_used() - before) / given.records)
            bound = kept(sizes[1] * 5 <= sizes[0], "a fifth of the bytes on single records") if len(sizes) > 1 else ""
            tell(Figure(f"votes {how}: bytes a record, of three replicas", f"{sizes[-1]:8.0f}", bound),
                 Figure(f"votes {how}: processor time of the nodes for 100,000", f"{used * 1e5 / given.records:8.1f} s"),
                 Figure(f"votes {how}: records a second until all three have answered", f"{given.records / took:8.0f}"))
            newest(one, log, how)


def newest(one: Fleet, log: Log, how: str) -> None:
    """How long it takes to learn up to where each has answered, with many votes there."""
    settings, last = log.settings(), log.last()
    seen = Votes(log.etcd, log.keys, NAMES)
    seen.carry(settings)
    began = time.monotonic()
    for _ in range(10):
        for name in NAMES:
            seen.newest_lines(name, last)
    tell(Figure(f"votes {how}: to learn up to where the three have answered", f"{(time.monotonic() - began) * 100:8.1f} ms"))


def agreed(log: Log, number: int) -> None:
    """Has all three agree on a save, and have voted and told lines up to there."""
    is_chaining = log.settings().is_chaining()
    chain = OwnChain(0, Point(0, START))
    lines = [b"%d rejected 1\n" % at for at in range(1, number + 1)]
    for name in NAMES:
        if is_chaining:
            log.etcd.put(log.keys.own(name, VOTE), ChainVote(Point(number, b"\1" * 32), Point(0, START), number).text())
        else:
            Votes(log.etcd, log.keys, NAMES, name).put(LINES, [Vote(at, line) for at, line in enumerate(lines, 1)])
        log.etcd.put(log.keys.vote(name, SAVED, number), SavedVote(b"MVL2 x", START if is_chaining else None, 1).value())
    if is_chaining:
        for first in range(1, number + 1, 400):
            log.etcd.put(log.keys.vote("first", TOLD, first), Told(first, chain.end.digest, lines[first - 1:first + 399]).value())


def clearing(given: argparse.Namespace) -> None:
    """Records cleared a second, alone and while records come."""
    for protocol, how in protocols(given, "as before"):
        with fleet() as one:
            count = given.records if protocol == 4 else min(given.records, 5_000)
            log = one.log("clear", protocol)
            log.etcd.put(log.keys.log, log.settings()._replace(hours=24).text())
            filled(log, 2 * count)
            log.etcd.put(log.keys.times, b"%d %d\n" % (time.time(), 2 * count))
            agreed(log, count)
            time.sleep(1.0)
            began = time.monotonic()
            removed = Clearing(log, 0, later(began)).run().records
            tell(Figure(f"clearing {how}, alone", f"{removed / (time.monotonic() - began):8.0f} a second"))
            agreed(log, 2 * count)
            with service(one, "clear") as socket:
                while_coming(one, log, socket, how, protocol == 4)


def later(since: float) -> float:
    """A time at which what was put up to a moment is old enough to be cleared, with its ids."""
    return time.time() - (time.monotonic() - since) + 1.5 * 24 * 3600


def while_coming(one: Fleet, log: Log, socket: Path, how: str, is_bound: bool) -> None:
    """Clears while submitters put some hundred records a second."""
    rates: List[float] = []
    since = time.monotonic()
    is_over = threading.Event()

    def clear() -> None:
        time.sleep(2.0)
        began = time.monotonic()
        removed = Clearing(Log(one.etcd(), log.keys.ledger), 0, later(since)).run().records
        rates.append(removed / (time.monotonic() - began))
        is_over.set()

    thread = threading.Thread(target=clear)
    thread.start()

    def submits(at: int) -> Callable[[int], object]:
        ledger = Ledger(str(socket), f"s{at}", PATIENCE)

        def call(number: int) -> object:
            began = time.monotonic()
            done = ledger.submit(SMALL)
            time.sleep(max(0.0, 32 / COMING - (time.monotonic() - began)))
            return done
        return call

    first, began = log.last(), time.monotonic()
    came = paced(lambda at: submits(at), 32, 6.0)
    while not is_over.is_set():
        came = paced(lambda at: submits(at), 32, 2.0)
    thread.join()
    rate = (log.last() - first) / (time.monotonic() - began)
    bound = kept(rates[0] >= CLEAR_TIMES * rate, f"{CLEAR_TIMES:.0f} times as fast as they come ({rates[0] / rate:.1f})") if is_bound else ""
    tell(Figure(f"clearing {how}, while {rate:.0f} a second come", f"{rates[0]:8.0f} a second; submits p99 {came.p99:.0f} ms", bound))


def saving(given: argparse.Namespace) -> None:
    """How long final lines stand still while three replicas save a large ledger."""
    import inputs
    import prices
    from costs import Program
    with fleet() as one:
        log = one.log("save")
        log.etcd.put(log.keys.log, log.settings()._replace(every=200).text())
        with tempfile.TemporaryDirectory() as folder:
            publish = Program(given.moveledger, Path(folder)).published(prices.storing())
        large = [inputs.record(2, inputs.run("store", 10_000_000, sender=7 + at)) for at in range(given.stored)]
        list(log.append([Offer(f"large-{at}", data) for at, data in enumerate([publish, *large])], "bench", log.settings()))
        replicas(one, "save", given.moveledger)
        while not all_final(log, log.last()):
            time.sleep(0.5)
        with service(one, "save") as socket:
            waits = still(one, log, socket, given.seconds * 10)
    tell(*waits)


def still(one: Fleet, log: Log, socket: Path, seconds: float) -> Sequence[Figure]:
    """Submits and waits for the final lines while saves are made."""
    took: List[float] = []
    ledger = Ledger(str(socket), "bench", PATIENCE)
    ends = time.monotonic() + seconds
    while time.monotonic() < ends:
        began = time.monotonic()
        ledger.submit(SMALL, wait=True)
        took.append(time.monotonic() - began)
    took.sort()
    folders = [one.folder / "save" / name for name in NAMES]
    saves = [path for folder in folders for path in folder.glob("ledger-*")]
    size = max((path.stat().st_size for path in saves), default=0)
    votes = Votes(log.etcd, log.keys, NAMES)
    votes.carry(log.settings())
    agreed_saves = len(list(votes.agreed_saves(log.last())))
    text = f"p50 {took[len(took) // 2] * 1e3:.0f} ms, p99 {took[len(took) * 99 // 100] * 1e3:.0f} ms, at most {took[-1]:.2f} s"
    bound = kept(took[-1] <= STILL_SECONDS, f"at most {STILL_SECONDS:g} s")
    return [Figure(f"a ledger of {size >> 20} MB, saved every 200 records: final lines", text, bound),
            Figure("records, saves that a majority agreed on, files", f"{len(took)}, {agreed_saves}, {len(saves)}",
                   kept(agreed_saves > 0, "a save is agreed without stopping"))]


def numbers(text: str) -> List[int]:
    return [int(word) for word in text.split(",")]


def words() -> argparse.Namespace:
    parser = argparse.ArgumentParser(description=__doc__, formatter_class=argparse.RawDescriptionHelpFormatter)
    parser.add_argument("--parts", default=",".join(PARTS))
    parser.add_argument("--delays", type=numbers, default=[0, 25])
    parser.add_argument("--submitters", type=numbers, default=[1, 8, 64, 300])
    parser.add_argument("--seconds", type=float, default=4.0, help="for each measurement of putting")
    parser.add_argument("--times", type=positive_number, default=3, help="how often putting is measured: the middle one counts")
    parser.add_argument("--alone", action="store_true", help="measures submitters that put by themselves, too")
    parser.add_argument("--old", action="store_true", help="measures votes and clears by the protocol before, too")
    parser.add_argument("--records", type=positive_number, default=20_000, help="for votes and clearing")
    parser.add_argument("--stored", type=positive_number, default=12, help="how many times 8 MB the ledger of `saving` has")
    parser.add_argument("--moveledger", default=os.environ.get("MOVELEDGER") or own_program())
    given = parser.parse_args()
    given.parts = given.parts.split(",")
    if not set(given.parts) <= set(PARTS):
        parser.error(f"the parts are {', '.join(PARTS)}")
    if not given.moveledger or not os.access(given.moveledger, os.X_OK):
        parser.error(f"there is no program {given.moveledger or 'of these sources'}")
    return given


def main() -> int:
    given = words()
    if shutil.which("etcd") is None:
        print("left out: etcd isn't installed (Debian's etcd-server)")
        return LEFT_OUT
    adopt()
    signal.signal(signal.SIGTERM, lambda *_: sys.exit(1))
    calls = {"putting": putting, "votes": votes, "clearing": clearing, "saving": saving}
    for part in given.parts:
        print(f"{part}, at a load of {os.getloadavg()[0]:.1f} of {os.cpu_count()} processors", flush=True)
        calls[part](given)
    wait_for_left()
    print(f"at a load of {os.getloadavg()[0]:.1f}")
    return 0


if __name__ == "__main__":
    sys.exit(main())
