"""What each replica has put under its own name for a number, and which of it is final: docs/REPLICAS.md has the rules."""

from collections import Counter
from typing import Dict, Iterator, List, NamedTuple, Optional, Sequence, Tuple

from .errors import RulesChanged
from .etcd import Etcd
from .chains import vote_in
from .keys import LINES, PROGRAM, SAVED, VOTE, Keys, number_in
from .requests import Body, absent, after, equal, get, get_range, none_between, put, unchanged, value_of
from .saves import saved_vote_in
from .settings import Settings

# A transaction takes 128 operations.
MOST_PUT = 100
MOST_COMPARED = 100
# So many records from the end are looked at first.
LEAST_WIDTH = 1_000


class Vote(NamedTuple):
    """What a replica has put for a number."""

    number: int
    value: bytes


def form_of(kind: str, value: bytes) -> bytes:
    """What has to be equal for two values to be compared: saves of two forms differ, though the ledger is the same."""
    return value.partition(b" ")[0] if kind == SAVED else b""


def majority(kind: str, votes: Dict[str, bytes], size: int) -> Optional[bytes]:
    """What more than half of a set of this size has put; None where there is no such value."""
    for value, count in Counter(votes.values()).most_common(1):
        if 2 * count > size:
            return value
    return None


def decided_against(kind: str, votes: Dict[str, bytes], size: int, made: bytes) -> Optional[bytes]:
    """What a majority has voted for in place of what was made; None where none has, or it can't be compared."""
    value = majority(kind, votes, size)
    return value if value not in (None, made) and form_of(kind, value or b"") == form_of(kind, made) else None


def votes_in(etcd: Etcd, keys: Keys, settings: Settings, own: Optional[str] = None) -> "Votes":
    """What the replicas of a log's set have put, with what earlier sets decided."""
    made = Votes(etcd, keys, settings.replicas, own)
    made.carry(settings)
    return made


class Votes:
    """What the replicas of a set have put, as one of them or a reader sees it."""

    def __init__(self, etcd: Etcd, keys: Keys, replicas: Sequence[str], own: Optional[str] = None) -> None:
        self.etcd = etcd
        self.keys = keys
        self.replicas = tuple(replicas)
        self.own = own if own in self.replicas else None
        # The change of the log's settings by which lines were made; 0 where it isn't compared.
        self.rules = 0
        # The save that an earlier set has agreed on: what it decided stays decided.
        self.carried: Optional[Vote] = None
        # Behind which record lines are chained, where they are.
        self.chained: Optional[int] = None

    def carry(self, settings: Settings) -> None:
        agreed = settings.agreed
        self.chained = settings.chained if settings.is_chaining() else None
        self.carried = Vote(agreed.number, agreed.value.encode()) if agreed else None

    def others(self) -> List[str]:
        return [name for name in self.replicas if name != self.own]

    def of(self, kind: str, number: int) -> Dict[str, bytes]:
        """What stands under a number, by the replicas of the set that have put anything."""
        return self.of_at(kind, number)[0]

    def of_at(self, kind: str, number: int) -> Tuple[Dict[str, bytes], int]:
        """As `of`, and the number of the store's last change then."""
        asked = [get(self.keys.vote(name, kind, number)) for name in self.replicas]
        _, found, revision = self.etcd.transacted([], asked, [])
        values = map(value_of, found)
        return {name: value for name, value in zip(self.replicas, values) if value is not None}, revision

    def decided(self, kind: str, number: int, votes: Dict[str, bytes]) -> Optional[bytes]:
        """What is final under a number, by these votes of the set or by those of an earlier one."""
        if kind == SAVED and self.carried is not None and self.carried.number == number:
            return self.carried.value
        return majority(kind, votes, len(self.replicas))

    def final(self, kind: str, number: int) -> Optional[bytes]:
        """What a majority of the set has voted for under a number, or of an earlier one has."""
        return self.decided(kind, number, self.of(kind, number))

    def put(self, kind: str, made: List[Vote]) -> List[Vote]:
        """Puts what this replica made, and gives those under whose numbers something else stands in its name already. RulesChanged where
        the log's settings aren't those any more by which it was made."""
        left_out: List[Vote] = []
        if self.own is None:
            return left_out
        for at in range(0, len(made), MOST_PUT):
            part = [(self.keys.vote(self.own, kind, vote.number), vote) for vote in made[at:at + MOST_PUT]]
            # One comparison for all of them, and one for each where that doesn't hold.
            rules = [unchanged(self.keys.log, self.rules)] if self.rules else []
            free = [none_between(part[0][0], part[-1][0] + b"\0")]
            while not self.etcd.transact(rules + free, [put(key, vote.value) for key, vote in part], [])[0]:
                there = self.etcd.transact([], [get(key) for key, _ in part] + [get(self.keys.log)], [])[1]
                log = there.pop()
                if self.rules and (not log or log[0].changed != self.rules):
                    raise RulesChanged
                values = list(zip(part, map(value_of, there)))
                left_out += [vote for (_, vote), value in values if value not in (None, vote.value)]
                part = [one for one, value in values if value is None]
                free = [absent(key) for key, _ in part]
        return left_out

    def replace(self, kind: str, made: Vote) -> Tuple[bool, Dict[str, bytes]]:
        """Puts what this replica made in place of something else in its own name, where a majority of the others has put the
        same; whether that is done, and what all have put."""
        assert self.own is not None
        votes = self.of(kind, made.number)
        others = {name: value for name, value in votes.items() if name != self.own}
        if majority(kind, others, len(self.replicas)) != made.value:
            return False, votes
        compare: List[Body] = [equal(self.keys.vote(name, kind, made.number), votes.get(name)) for name in self.replicas]
        compare += [unchanged(self.keys.log, self.rules)] if self.rules else []
        done = self.etcd.transact(compare, [put(self.keys.vote(self.own, kind, made.number), made.value)], [])[0]
        return done, votes

    def since(self, asked: List[Tuple[str, str, int, int]]) -> List[List[Vote]]:
        """What replicas have put, each question a name, a kind, and the first and the last number."""
        bodies = [get_range(self.keys.vote(name, kind, first), self.keys.vote(name, kind, last + 1), MOST_COMPARED)
                  for name, kind, first, last in asked]
        found = self.etcd.transact([], bodies, [])[1]
        return [[Vote(number, entry.value) for entry in entries for number in [number_in(entry.key)] if number is not None]
                for entries in found]

    def newest(self, name: str, kind: str, count: int = 1) -> List[Vote]:
        """The last numbers for which a replica has put something, the highest first."""
        prefix = self.keys.by(name, kind)
        entries = self.etcd.range(prefix, after(prefix), count, last_first=True).entries
        return [Vote(number, entry.value) for entry in entries for number in [number_in(entry.key)] if number is not None]

    def newest_lines(self, name: str, last: int) -> int:
        """The newest record up to the last one for which a replica has voted; 0 where there is none. A node reads and sorts all that a
        range has, so the range grows from its end."""
        if self.chained is not None:
            vote = vote_in(self.etcd.get(self.keys.own(name, VOTE)))
            return min(vote.made.number, last) if vote else 0
        width = LEAST_WIDTH
        while True:
            first = max(0, last - width)
            keys = (self.keys.vote(name, LINES, first), self.keys.vote(name, LINES, last + 1))
            entries = self.etcd.range(*keys, 1, last_first=True, keys_only=True).entries
            number = number_in(entries[0].key) if entries else None
            if number is not None or first == 0:
                return number or 0
            width *= 4

    def newest_agreed_save(self, most: int) -> Optional[Vote]:
        """The newest save up to a number that is final."""
        return next(iter(self.agreed_saves(most)), None)

    def agreed_saves(self, most: int) -> Iterator[Vote]:
        """The saves up to a number that are final, the newest first."""
        counted: Dict[int, Dict[str, bytes]] = {}
        for name in self.replicas:
            for vote in self.newest(name, SAVED, MOST_COMPARED):
                counted.setdefault(vote.number, {})[name] = vote.value
        if self.carried is not None:
            counted.setdefault(self.carried.number, {})
        for number in sorted((number for number in counted if number <= most), reverse=True):
            value = self.decided(SAVED, number, counted[number])
            if value is not None and self.is_usable(number, value):
                yield Vote(number, value)

    def is_usable(self, number: int, value: bytes) -> bool:
        """Whether one may go on from a save: where lines are chained, the digest there has to be known."""
        return self.chained is None or number <= self.chained or saved_vote_in(value).chain is not None

    def put_program(self, number: int, identity: bytes) -> None:
        """Says with which program this replica answers the records after a number, where that is another one than before."""
        if self.own is None:
            return
        before = self.newest(self.own, PROGRAM)
        if not before or before[0].value != identity:
            since = max(number, before[0].number) if before else number
            self.etcd.put(self.keys.vote(self.own, PROGRAM, since), identity)
