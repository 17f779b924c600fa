"""Where the trial takes place: the nodes of a log, and a ledger with its replicas on them."""

import random
from pathlib import Path
from typing import Dict, List, NamedTuple, Optional, Sequence, Tuple

from ledgerlog.etcd import Access, Etcd
from ledgerlog.final import Final
from ledgerlog.log import Log, Offer
from ledgerlog.votes import votes_in

from .given import Given
from .processes import NODES, PATIENCE, Node, ReplicaProcess, command, done, end_all, free_ports, until

NAMES = ("first", "second", "third")
# Replicas save so many seconds after the first record that isn't saved.
SECONDS = 2


class Place(NamedTuple):
    """Three nodes, and how they are reached: by whom who may do everything, and by which words of a command line."""

    folder: Path
    nodes: List[Node]
    addresses: List[str]
    access: Access = Access()

    def etcd(self) -> Etcd:
        return Etcd(list(self.addresses), PATIENCE, self.access)

    def start(self) -> None:
        for node in self.nodes:
            node.start()
        self.answers()

    def answers(self) -> None:
        """Waits until a majority of the nodes answers."""
        self.etcd().get(b"nothing")


def place_in(folder: Path, *options: object, access: Access = Access()) -> Place:
    """Nodes that aren't started yet."""
    folder.mkdir(exist_ok=True)
    port = free_ports()
    return Place(folder, [Node(folder, number, port, *options) for number in range(1, NODES + 1)],
                 [f"127.0.0.1:{port + at}" for at in range(NODES)], access)


class Stage:
    """A ledger, its replicas, and what was put into its log."""

    def __init__(self, place: Place, ledger: str, program: str, seed: int, every: int = 40,
                 reached: Optional[Dict[str, Sequence[object]]] = None) -> None:
        """`reached` has the words by which single commands or replicas reach the log, where those of all aren't enough."""
        self.place = place
        self.ledger = ledger
        self.program = program
        self.every = every
        self.reached = reached or {}
        self.folder = place.folder / ledger
        self.folder.mkdir()
        self.log = Log(place.etcd(), ledger)
        self.random = random.Random(f"{seed} {ledger}")
        self.given = Given(self.random.getrandbits(32))
        self.put: List[bytes] = []
        self.replicas: Dict[str, ReplicaProcess] = {}

    def words(self, who: str) -> List[object]:
        return ["--log", ",".join(self.place.addresses), "--ledger", self.ledger, *self.reached.get(who, ())]

    def make(self, *options: object, names: Sequence[str] = NAMES) -> None:
        """Makes the log, with a set of replicas."""
        done("log", *self.words("keeper"), "make", "--replicas", ",".join(names), "--every", self.every, "--hours", 0, *options)

    def replica(self, name: str, *options: object, program: Optional[str] = None,
                folder: Optional[Path] = None) -> ReplicaProcess:
        """A replica that isn't started yet."""
        words = [*self.words(name), "--moveledger", program or self.program, "--seconds", SECONDS, *options]
        made = ReplicaProcess(words, name, folder or self.folder / name, self.folder / f"{name}.errors")
        self.replicas[name] = made
        return made

    def start(self, names: Sequence[str] = NAMES) -> List[ReplicaProcess]:
        made = [self.replica(name) for name in names]
        for one in made:
            one.start()
        return made

    def again(self, name: str, *options: object, program: Optional[str] = None) -> ReplicaProcess:
        """Starts a replica that has ended, with other words."""
        one = self.replica(name, *options, program=program)
        one.start()
        return one

    def offered(self, count: int) -> List[bytes]:
        """So many records; the first ones publish modules."""
        return self.given.records(count) if not self.put else [self.given.next() for _ in range(count)]

    def feed(self, count: int, is_awaited: bool = True) -> int:
        """Puts records, and gives the number of the last one, which is final then."""
        records = self.offered(count)
        first = self.log.last() + 1
        offers = [Offer(f"{self.ledger}-{first + at}", record) for at, record in enumerate(records)]
        last = list(self.log.append(offers, "trial", self.log.settings()))[-1]
        self.put += records
        if is_awaited:
            self.answered(last)
        return last

    def submit(self, record: bytes, *options: object) -> Tuple[int, str]:
        """Puts a record by the command: its number and the lines that answer it."""
        told = done("submit", *self.words("submitter"), "--wait", "--seconds", PATIENCE, *options, "-", given=record)
        number, _, lines = told.partition("\n")
        self.put.append(record)
        return int(number), lines

    def final(self) -> Final:
        return Final(self.log.etcd, self.log.keys, self.log.settings())

    def line(self, number: int) -> Optional[bytes]:
        """The final lines of a record; None where there are none yet."""
        return next(iter(self.final().lines(number, 1)), None)

    def answered(self, number: int) -> bytes:
        """Waits until the lines of a record are final."""
        return bytes(until(lambda: self.line(number), PATIENCE, f"record {number} of {self.ledger} is answered"))

    def all_answered(self, number: int) -> None:
        """Waits until every replica of the set has voted on a record, alike."""
        def is_answered() -> bool:
            final = self.final()
            if not final.settings.is_chaining():
                return len(final.answered_by(number)) == len(final.replicas)
            walked = final.walked(number, 1)
            return walked is not None and all(walked.on.get(name, 0) >= number for name in final.replicas)

        until(is_answered, PATIENCE, f"all have answered record {number} alike")

    def saved(self, name: str, number: int) -> None:
        """Waits until a replica has saved behind a record."""
        one = self.replicas[name]
        until(lambda: any(save.number >= number for save in one.saves()), PATIENCE, f"{name} has saved record {number}")

    def check_running(self, *names: str) -> None:
        for name in names or tuple(self.replicas):
            self.replicas[name].check()

    def with_agreed_save(self) -> ReplicaProcess:
        """Waits until a replica has the newest save that a majority has voted for: those that save at other records don't."""
        def found() -> Optional[ReplicaProcess]:
            settings = self.log.settings()
            agreed = votes_in(self.log.etcd, self.log.keys, settings).newest_agreed_save(self.log.last())
            having = [one for one in self.replicas.values() if agreed and any(save.number == agreed.number for save in one.saves())]
            return having[0] if having else None

        one: ReplicaProcess = until(found, PATIENCE, "a replica has the newest save that a majority has voted for")
        return one

    def clear(self, keep: int, most: Optional[int] = None) -> str:
        """Clears the log, when a majority has a save behind which something is cleared, and so much that at most so many records are left.
        What that says."""
        def told() -> str:
            it = command("log", *self.words("keeper"), "clear", "--keep", keep)
            is_enough = self.log.cleared() > 0 and (most is None or self.log.last() - self.log.cleared() <= most)
            return it.stdout.decode().strip() if it.returncode == 0 and is_enough else ""

        return str(until(told, PATIENCE, "a majority has a save behind which is cleared"))

    def verify(self, status: int = 0, says: str = "nothing differs") -> str:
        """Has the whole log answered again, or what isn't cleared of it."""
        folder = self.with_agreed_save().folder if self.log.cleared() else self.folder / NAMES[0]
        words = ["--verify", *self.words("reader"), "--moveledger", self.program, folder]
        return done("replica", *words, status=status, says=says)

    def show(self, name: str) -> bytes:
        """What a replica answers to a show, when it's there: it may just have been started."""
        asked = lambda: (it := command("ask", self.replicas[name].folder, "show")).returncode == 0 and it.stdout  # noqa: E731
        return bytes(until(asked, PATIENCE, f"{name} answers a show"))

    def close(self) -> None:
        end_all(list(self.replicas.values()))
