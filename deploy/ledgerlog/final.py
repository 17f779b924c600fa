"""Which lines are final, as a reader finds it: those on one chain of which a majority has a point at or behind them, or which an earlier set
of replicas has made final. What a minority tells is another chain, which never gets there."""

import time
from typing import Dict, Iterable, List, NamedTuple, Optional, Tuple

from .chains import MOST_TOLD, ChainVote, Point, Told, chained, told_in, vote_in
from .etcd import Etcd
from .keys import LINES, TOLD, VOTE, Keys
from .requests import Body, Entry, after, get, get_range, value_of
from .settings import Settings
from .votes import MOST_COMPARED, Vote, majority, votes_in

# So many keys with lines are read of a replica at once: more than can begin before a record and have its lines.
MOST_READ = 600
# For so long it is remembered where lines begin.
REMEMBERED_SECONDS = 1.0
# Of a chain that is walked, the digests at so many of its last records are known.
KEPT_DIGESTS = 2 * MOST_TOLD
ChainVotes = Dict[str, ChainVote]
# In the place of a replica's name: an earlier set, by the point up to which it has made lines final.
EARLIER = ""


class Walked(NamedTuple):
    """A chain that is read from its begin on: the digests at its last records, the lines that are wanted, and up to where replicas are on
    it, and an earlier set; where that isn't, the number is negative."""

    digests: Dict[int, bytes]
    lines: Dict[int, bytes]
    on: Dict[str, int]

    def end(self) -> int:
        return next(reversed(self.digests))

    def up_to(self, number: int) -> "Walked":
        """The same chain as far as a record."""
        return Walked({at: one for at, one in self.digests.items() if at <= number},
                      {at: one for at, one in self.lines.items() if at <= number},
                      {name: at for name, at in self.on.items() if abs(at) <= number})

    def final(self, size: int) -> int:
        """Up to where a majority of a set of this size is on it, or an earlier set; 0 where none is."""
        earlier = self.on.get(EARLIER, 0)
        furthest = sorted((at for name, at in self.on.items() if name != EARLIER), reverse=True)
        voted = furthest[size // 2] if len(furthest) > size // 2 else 0
        return max(voted, earlier) if earlier >= 0 else 0


class Walk:
    """One reading of what replicas have told, for lines from a record on."""

    def __init__(self, votes: ChainVotes, wanted: range, earlier: Optional[Point] = None) -> None:
        """`earlier` is the last point that an earlier set of replicas made final."""
        self.wanted = wanted
        self.earlier = earlier
        self.chains: List[Walked] = []
        self.points: Dict[int, List[Tuple[str, bytes]]] = {}
        for name, vote in votes.items():
            for point in vote.points():
                self.points.setdefault(point.number, []).append((name, point.digest))
        self.furthest = max([*self.points, earlier.number if earlier else 0], default=0)

    def take(self, told: Told) -> None:
        """Takes lines, those of smaller numbers first."""
        before = told.first - 1
        chain = next((one for one in self.chains if one.digests.get(before) == told.before), None)
        if chain is None and told.first > self.wanted.start:
            return
        if chain is None:
            chain = Walked({before: told.before}, {}, {})
            self.chains.append(chain)
        for number, lines in enumerate(told.lines, told.first):
            digest = chained(chain.digests[number - 1], lines)
            if number in chain.digests:
                if chain.digests[number] == digest:
                    continue
                chain = chain.up_to(number - 1)
                self.chains.append(chain)
            self.extend(chain, Point(number, digest), lines)

    def extend(self, chain: Walked, end: Point, lines: bytes) -> None:
        chain.digests[end.number] = end.digest
        if len(chain.digests) > KEPT_DIGESTS:
            del chain.digests[next(iter(chain.digests))]
        if end.number in self.wanted:
            chain.lines[end.number] = lines
        for name, digest in self.points.get(end.number, ()):
            if digest == end.digest:
                chain.on[name] = end.number
        if self.earlier is not None and end.number == self.earlier.number:
            chain.on[EARLIER] = end.number if end.digest == self.earlier.digest else -end.number

    def is_over(self, next_key: bytes) -> bool:
        """Whether what is told from a key on changes nothing any more."""
        if not self.chains:
            return next_key > b"%016x" % self.wanted.start
        return all(chain.end() >= self.furthest for chain in self.chains)

    def best(self, size: int) -> Optional[Walked]:
        """The chain that a majority is on, where there is one: there are no two from the same record on."""
        best = max(self.chains, key=lambda one: one.final(size), default=None)
        return best if best is not None and best.final(size) >= self.wanted.start else None


class Final:
    """The final lines of a log, and who has answered, by the votes that its protocol has."""

    def __init__(self, etcd: Etcd, keys: Keys, settings: Settings) -> None:
        self.etcd = etcd
        self.keys = keys
        self.settings = settings
        self.replicas = settings.replicas
        # The number of the store's last change when it was read last.
        self.revision = 0
        # The last key of each up to the record that was wanted last: who asks for one behind it needs nothing before; and until when.
        self.begins: Dict[str, bytes] = {}
        self.begins_until = 0.0

    def lines(self, first: int, count: int) -> List[bytes]:
        """The lines from a record on as far as they are final, of at most so many records."""
        chained = self.settings.chained
        if self.settings.is_chaining() and first > chained:
            return self.chained_lines(first, count)
        found = self.single_lines(first, min(count, chained + 1 - first) if self.settings.is_chaining() else count)
        return found

    def single_lines(self, first: int, count: int) -> List[bytes]:
        """Those that replicas have voted on one by one."""
        last = first + min(count, MOST_COMPARED) - 1
        bodies = [get_range(self.keys.vote(name, LINES, first), self.keys.vote(name, LINES, last + 1), MOST_COMPARED)
                  for name in self.replicas]
        _, found, self.revision = self.etcd.transacted([], bodies, [])
        there = [{entry.key[-16:]: entry.value for entry in entries} for entries in found]
        lines: List[bytes] = []
        for number in range(first, last + 1):
            key = b"%016x" % number
            value = majority(LINES, {name: one[key] for name, one in zip(self.replicas, there) if key in one}, len(self.replicas))
            if value is None:
                break
            lines.append(value)
        return lines

    def chained_lines(self, first: int, count: int) -> List[bytes]:
        chain = self.walked(first, count)
        last = min(first + count - 1, chain.final(len(self.replicas))) if chain else 0
        return [chain.lines[number] for number in range(first, last + 1)] if chain else []

    def walked(self, first: int, count: int) -> Optional[Walked]:
        """The chain that a majority is on, from a record on."""
        ends = after(self.keys.by_replicas)
        starts = self.starts(first)
        asked: List[Body] = [get(self.keys.own(name, VOTE)) for name in self.replicas]
        walk: Optional[Walk] = None
        while starts:
            ranges = [get_range(start, min(ends, after(self.keys.by(name, TOLD))), MOST_READ) for name, start in starts.items()]
            _, found, revision = self.etcd.transacted([], asked + ranges, [])
            if walk is None:
                self.revision = revision
                walk = Walk(votes_of_entries(self.replicas, found), range(first, first + count), self.settings.point())
                self.remember(first, dict(zip(list(starts), found[len(asked):])))
            pages = dict(zip(list(starts), found[len(asked):]))
            asked = []
            starts = taken_pages(walk, pages)
            best = walk.best(len(self.replicas))
            if best is not None and best.final(len(self.replicas)) >= first + count - 1:
                return best
            if walk.is_over(min(starts.values(), default=b"g")[-16:]):
                break
        return walk.best(len(self.replicas)) if walk else None

    def starts(self, first: int) -> Dict[str, bytes]:
        """From which key on each may have told the lines of a record."""
        if time.monotonic() > self.begins_until:
            self.begins, self.begins_until = {}, time.monotonic() + REMEMBERED_SECONDS
        found: Dict[str, bytes] = {}
        for name in self.tellers(first):
            known = self.begins.get(name, b"")
            least = self.keys.vote(name, TOLD, max(1, first - MOST_TOLD + 1))
            found[name] = max(least, known) if known <= self.keys.vote(name, TOLD, first) else least
        return found

    def tellers(self, first: int) -> List[str]:
        """Those who may have told lines from a record on."""
        former = self.settings.former
        return [*self.replicas, *(name for name, last in former.items() if last >= first and name not in self.replicas)]

    def remember(self, first: int, pages: Dict[str, List[Entry]]) -> None:
        for name, entries in pages.items():
            before = [entry.key for entry in entries if entry.key <= self.keys.vote(name, TOLD, first) and told_in(entry) is not None]
            if before:
                self.begins[name] = before[-1]

    def last(self, votes: ChainVotes, most: int) -> Optional[Point]:
        """The last point up to this record that is final, by these votes or an earlier set; None where there is none."""
        numbers = {point.number for vote in votes.values() for point in vote.points()}
        for number in sorted((at for at in numbers if self.settings.chained < at <= most), reverse=True):
            walked = self.walked(number, 1)
            if walked is not None and number in walked.digests:
                return Point(number, walked.digests[number])
        return self.settings.point()

    def answered_by(self, number: int) -> List[str]:
        """Who of the set says that it has answered a record, alike or not."""
        if not self.settings.is_chaining() or number <= self.settings.chained:
            return list(votes_in(self.etcd, self.keys, self.settings).of(LINES, number))
        return [name for name, vote in self.votes().items() if vote.made.number >= number]

    def votes(self) -> ChainVotes:
        """The votes of the set by chain, of those that have any."""
        return chain_votes(self.etcd, self.keys, self.replicas)


def votes_of_entries(names: Iterable[str], found: List[List[Entry]]) -> ChainVotes:
    votes = {name: vote_in(value_of(entries)) for name, entries in zip(names, found)}
    return {name: vote for name, vote in votes.items() if vote is not None}


def chain_votes(etcd: Etcd, keys: Keys, names: Iterable[str]) -> ChainVotes:
    """The votes by chain of replicas, at one moment."""
    asked = list(names)
    return votes_of_entries(asked, etcd.transact([], [get(keys.own(name, VOTE)) for name in asked], [])[1])


def taken_pages(walk: Walk, pages: Dict[str, List[Entry]]) -> Dict[str, bytes]:
    """Takes what was read of each replica, the smaller numbers first, as far as all of it was read. Where each has more, and from which
    key on."""
    full = {name: entries[-1].key[-16:] for name, entries in pages.items() if len(entries) == MOST_READ}
    end = min(full.values(), default=b"g")
    found = [one for entries in pages.values() for one in map(told_in, (entry for entry in entries if entry.key[-16:] <= end)) if one]
    for told in sorted(found, key=lambda one: one.first):
        if told.last() >= walk.wanted.start:
            walk.take(told)
    left = {}
    for name, entries in pages.items():
        rest = [entry.key for entry in entries if entry.key[-16:] > end]
        if rest:
            left[name] = rest[0]
        elif name in full:
            left[name] = entries[-1].key + b"\0"
    return left


__all__ = ["Final", "Walk", "Walked", "Vote", "chain_votes"]
