"""One replica's votes by chain: when it votes and tells lines, what it makes of the others' votes, and that a vote which may count never
changes."""

import time
from typing import Callable, Dict, List, Optional, Tuple

from .chains import START, ChainVote, OwnChain, Point, Told, told_in, vote_in
from .comparing import WHAT, shown
from .errors import Differs
from .final import Final
from .keys import LINES, TOLD, VOTE
from .requests import Body, Entry, get_range, put, unchanged
from .settings import Settings
from .votes import Votes

# Another one tells lines when nobody has for so long.
TELL_SECONDS = 1.0
# So often it is looked which lines are final while somebody differs, and for so long the lines of one that differs are waited for.
JUDGE_SECONDS, NAME_SECONDS = 0.5, 3.0
# So many bytes of lines go into one transaction, unless those of one record are more.
MOST_BYTES = 1 << 20
MOST_READ = 600
Tell = Callable[[str], None]


class Voting:
    """The votes of a set as one of its replicas sees them, or one outside it."""

    def __init__(self, final: Final, own: Optional[str], chain: OwnChain, tell: Tell, differing: Dict[str, int]) -> None:
        self.final = final
        self.etcd, self.keys, self.replicas = final.etcd, final.keys, final.replicas
        self.own = own if own in final.replicas else None
        self.chain = chain
        self.tell = tell
        self.differing = differing
        self.entries: Dict[str, Entry] = {}
        self.votes: Dict[str, ChainVote] = {}
        # Up to where each of the others was on this chain, the first point of each that wasn't, and since when that is known.
        self.agreed: Dict[str, int] = {}
        self.wrong: Dict[str, Point] = {}
        self.wrong_since: Dict[str, float] = {}
        self.judged = 0.0
        # At which record something else stands in this replica's name than it makes now.
        self.held: Optional[int] = None
        # Up to which record it is known that this replica didn't vote otherwise before lines were chained.
        self.checked = chain.begins
        self.told, self.told_moved = 0, time.monotonic()
        # While the log's rules change, nobody votes.
        self.is_stopped = bool(final.settings.changing)

    def see(self, entries: Dict[str, Entry], last: int) -> None:
        """Takes the votes of the set as they were at one moment, when the log had this last record, and compares them. What says more than
        that is no vote. Differs where what is final isn't what this one made, or what an earlier set made final isn't."""
        settled = self.final.settings.point()
        if settled is not None and self.chain.has(settled) is False:
            raise Differs(f"{WHAT[LINES]} {settled.number}, or of one before: an earlier set of replicas made others final than this one made")
        self.entries = entries
        found = {name: vote_in(entry.value) for name, entry in entries.items()}
        self.votes = {name: vote for name, vote in found.items()
                      if vote is not None and max(vote.made.number, vote.told.number, vote.own) <= last}
        for name, vote in self.votes.items():
            if name != self.own:
                self.compare(name, vote)
        if self.wrong and time.monotonic() > self.judged + JUDGE_SECONDS:
            self.judged = time.monotonic()
            self.judge()

    def compare(self, name: str, vote: ChainVote) -> None:
        known = [(point, is_on) for point in vote.points() for is_on in [self.chain.has(point)] if is_on is not None]
        off = [point for point, is_on in known if not is_on]
        on = [point.number for point, is_on in known if is_on]
        if off:
            first = min(off)
            if name not in self.wrong or first.number < self.wrong[name].number:
                self.wrong[name] = first
            self.wrong_since.setdefault(name, time.monotonic())
        elif on and name in self.wrong and max(on) >= self.wrong[name].number:
            del self.wrong[name], self.wrong_since[name]
        if on:
            self.agreed[name] = max(self.agreed.get(name, 0), *on)

    def first_doubtful(self, name: str) -> int:
        """The first record whose lines may be other ones at a replica that differs."""
        oldest = next(iter(self.chain.digests))
        return max(min(self.agreed.get(name, 0), self.wrong[name].number - 1), oldest) + 1

    def judge(self) -> None:
        """Says who differs, when it is known at which record or that can't be found out. Differs where a majority does."""
        first = min(map(self.first_doubtful, self.wrong))
        last = max(point.number for point in self.wrong.values())
        walked = self.final.walked(first, last + 1 - first)
        end = min(last, walked.final(len(self.replicas)), self.chain.end.number) if walked else 0
        for number in range(first, end + 1):
            made, other = self.chain.lines.get(number), walked.lines.get(number) if walked else None
            if made is not None and other is not None and made != other:
                raise Differs(f"{WHAT[LINES]} {number}: a majority of the replicas has voted for {shown(other)}, and this one made {shown(made)}")
        if walked and end >= first and walked.digests.get(end) not in (None, self.chain.digests.get(end)):
            raise Differs(f"a majority of the replicas has other lines before record {first} than this one made: their votes at record "
                          f"{end} have another digest")
        for name, point in self.wrong.items():
            if name not in self.differing:
                self.name(name, end >= point.number)

    def name(self, name: str, is_final: bool) -> None:
        """Says once that another one differs: by its lines, where it has told them in time."""
        standing = "a majority has voted for what this one made, which goes on" if is_final else "no majority has decided yet"
        first, point = self.first_doubtful(name), self.wrong[name]
        found = self.first_difference(name, first, point.number)
        if found is None and time.monotonic() < self.wrong_since[name] + NAME_SECONDS:
            return
        self.differing[name] = found[0] if found else point.number
        if found is None:
            self.tell(f"REPLICA {name} DIFFERS: by its vote at record {point.number} it has other lines from a record between {first} and "
                      f"{point.number} on, which it hasn't told; {standing}")
        else:
            self.tell(f"REPLICA {name} DIFFERS: {WHAT[LINES]} {found[0]}: it has put {shown(found[1])}, and this one made "
                      f"{shown(self.chain.lines[found[0]])}; {standing}")

    def first_difference(self, name: str, first: int, last: int) -> Optional[Tuple[int, bytes]]:
        """The first record for which a replica has told other lines than this one made, with those lines; None where it has told none."""
        start = self.keys.vote(name, TOLD, max(1, first + 1 - 512))
        entries = self.etcd.transact([], [get_range(start, self.keys.vote(name, TOLD, last + 1), MOST_READ)], [])[1][0]
        for told in filter(None, map(told_in, entries)):
            for number, lines in enumerate(told.lines, told.first):
                if number >= first and self.chain.lines.get(number, lines) != lines:
                    return number, lines
        return None

    def is_of_others(self, settings: Settings) -> bool:
        """Whether these settings name another set than the one whose votes these are, or more that an earlier one made final."""
        return (settings.replicas, settings.settled) != (self.replicas, self.final.settings.settled)

    def settled(self) -> int:
        """Up to where an earlier set of replicas made lines final, so that no vote is needed."""
        return self.final.settings.settled.number if self.final.settings.settled else 0

    def known(self) -> int:
        """Up to where others have told lines that this one made too."""
        found = self.chain.begins
        for name, vote in self.votes.items():
            if name == self.own or name in self.wrong:
                continue
            if vote.told.number > self.chain.end.number or self.chain.has(vote.told):
                found = max(found, min(vote.own, self.chain.end.number))
        return found

    def is_teller(self, own: int, known: int) -> bool:
        """Whether this one tells lines: who has told furthest does, and of several the first by name; another one after a silence."""
        furthest = max(own, known)
        if furthest != self.told or self.chain.end.number <= furthest:
            self.told, self.told_moved = furthest, time.monotonic()
        if time.monotonic() > self.told_moved + TELL_SECONDS:
            return True
        if own < known:
            return False
        alike = [name for name, vote in self.votes.items() if name not in self.wrong and max(vote.own, self.chain.begins) == own]
        return own > known or self.own == min([*alike, self.own or ""])

    def check_held(self, own: Optional[ChainVote]) -> None:
        """Notes whether something else stands in this replica's name than it makes now."""
        if self.held is None and own is not None and self.chain.has(own.made) is False:
            self.hold(own.made.number)
        if own is None and self.held is None and self.chain.begins:
            number = self.first_of_old()
            if number is not None:
                self.hold(number)

    def hold(self, number: int) -> None:
        self.held = number
        self.tell(f"{WHAT[LINES]} {number}, or of one before: others than it made stand under this replica's own name; it waits for what a "
                  "majority of the other replicas puts")

    def first_of_old(self) -> Optional[int]:
        """The first record behind which lines are chained for which this replica voted otherwise before they were."""
        votes = Votes(self.etcd, self.keys, self.replicas, self.own)
        while self.checked < self.chain.end.number and self.own:
            found = votes.since([(self.own, LINES, self.checked + 1, self.chain.end.number)])[0]
            for vote in found:
                if self.chain.lines.get(vote.number, vote.value) != vote.value:
                    return vote.number
            self.checked = found[-1].number if found else self.chain.end.number
        return None

    def agreeing(self, number: int) -> List[str]:
        """The others that are on this chain at a record or behind it."""
        return [name for name, vote in self.votes.items() if name != self.own
                and any(point.number >= number and self.chain.has(point) for point in vote.points())]

    def vote(self, rules: int, is_telling: bool = False) -> bool:
        """Votes for all that was made, and tells what is to be told, by the log's settings of this change. False where that is to be tried
        again with newer votes, or nothing may be put yet."""
        end = self.chain.end
        if self.own is None or self.is_stopped or end.number < self.settled():
            return True
        entry = self.entries.get(self.own)
        own = self.votes.get(self.own)
        if own is not None and end.number < own.made.number and self.held is None:
            return True
        self.check_held(own)
        compare = [unchanged(self.keys.own(self.own, VOTE), entry.changed if entry else 0), unchanged(self.keys.log, rules)]
        if self.held is not None:
            others = self.agreeing(self.held)
            if 2 * len(others) <= len(self.replicas) or end.number < self.held:
                return True
            compare += [unchanged(self.keys.own(name, VOTE), self.entries[name].changed) for name in others]
        told_before = max(own.own, self.chain.begins) if own is not None and self.held is None else self.chain.begins
        parts = self.parts(told_before, is_telling)
        told = max([self.known(), told_before, *(part.last() for part in parts)])
        new = ChainVote(end, self.chain.point(told) or Point(self.chain.begins, START), parts[-1].last() if parts else told_before)
        if not parts and (own is not None and own.made == end or end.number == 0):
            return True
        return self.put(compare, parts, new)

    def parts(self, told_before: int, is_telling: bool) -> List[Told]:
        """What this replica tells now."""
        known = self.known()
        if not self.is_teller(told_before, known) and not is_telling:
            return []
        found: List[Told] = []
        size = 0
        for part in self.chain.parts(max(told_before, known) + 1, self.chain.end.number):
            size += sum(map(len, part.lines))
            if found and size > MOST_BYTES:
                break
            found.append(part)
        return found

    def put(self, compare: List[Body], parts: List[Told], new: ChainVote) -> bool:
        assert self.own is not None
        puts = [put(self.keys.vote(self.own, TOLD, part.first), part.value()) for part in parts]
        key = self.keys.own(self.own, VOTE)
        is_done, _, revision = self.etcd.transacted(compare, [*puts, put(key, new.text())], [])
        if is_done:
            if self.held is not None:
                self.tell(f"{WHAT[LINES]} {self.held}: what it made is what the other replicas have put too, and counts as its vote now")
            self.held = None
            self.entries[self.own] = Entry(key, new.text(), 0, revision)
            self.votes[self.own] = new
        return is_done

    def is_told(self, number: int) -> bool:
        """Whether the lines up to a record are told on this chain, so that none is lost with this replica."""
        own = self.votes.get(self.own) if self.own else None
        return number <= max(self.known(), own.own if own and self.held is None else 0, self.chain.begins)
