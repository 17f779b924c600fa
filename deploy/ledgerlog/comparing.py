"""Compares what other replicas put with what this one made, and sees to it that a vote that may count never changes."""

from typing import Callable, Dict, List, Tuple

from .errors import Differs
from .keys import LINES, SAVED
from .votes import Vote, Votes, decided_against, form_of

# So many of its last lines, and of its last saves, a replica can compare.
KEPT = 20_000
SHOWN = 200
WHAT = {LINES: "the lines of record", SAVED: "the ledger saved after record"}
Tell = Callable[[str], None]


def shown(value: bytes) -> str:
    return repr(value[:SHOWN])[1:] + ("..." if len(value) > SHOWN else "")


class Comparing:
    """What this replica made, and up to where the others' are compared with it."""

    def __init__(self, votes: Votes, tell: Tell) -> None:
        self.votes = votes
        self.tell = tell
        self.made: Dict[str, Dict[int, bytes]] = {LINES: {}, SAVED: {}}
        self.next: Dict[Tuple[str, str], int] = {}
        self.held: Dict[Tuple[str, int], bytes] = {}
        # The first number at which each of the others differed, and whether this one agrees with a majority there.
        self.differing: Dict[str, int] = {}

    def forget_from(self, number: int) -> None:
        """Forgets what was made for the records from one on: it is made again, otherwise."""
        self.made = {kind: {at: value for at, value in kept.items() if at < number} for kind, kept in self.made.items()}
        self.held = {key: value for key, value in self.held.items() if key[1] < number}
        self.next = {key: min(at, number) for key, at in self.next.items()}

    def forget_lines(self) -> None:
        """Forgets the lines of single records: they are compared by chain from now on."""
        self.made[LINES] = {}
        self.held = {key: value for key, value in self.held.items() if key[0] != LINES}

    def put(self, kind: str, made: List[Vote]) -> bool:
        """Puts what this replica made, and keeps it to be compared. False where something else stands in its name. Differs where
        a majority has voted for something else."""
        kept = self.made[kind]
        kept.update(made)
        while len(kept) > KEPT:
            del kept[next(iter(kept))]
        left_out = self.votes.put(kind, made)
        for vote in left_out:
            self.tell(f"{WHAT[kind]} {vote.number}: others than it made stand under this replica's own name; it waits for what a "
                      "majority of the other replicas puts")
            self.held[(kind, vote.number)] = vote.value
        self.settle()
        return not any((kind, vote.number) in self.held for vote in left_out)

    def settle(self) -> None:
        """Replaces what stands in this replica's name and isn't what it made, where the others have decided so."""
        for (kind, number), value in list(self.held.items()):
            is_done, votes = self.votes.replace(kind, Vote(number, value))
            if is_done:
                self.tell(f"{WHAT[kind]} {number}: {shown(value)} is what the other replicas have put too, and stands under this "
                          "replica's name now")
                del self.held[(kind, number)]
            else:
                self.check(kind, number, value, votes)

    def check(self, kind: str, number: int, made: bytes, votes: Dict[str, bytes]) -> None:
        """Differs where a majority has voted for something else than this replica made."""
        other = decided_against(kind, votes, len(self.votes.replicas), made)
        if other is not None:
            raise Differs(f"{WHAT[kind]} {number}: a majority of the replicas has voted for {shown(other)}, and this one made "
                          f"{shown(made)}")

    def look(self) -> None:
        """Compares what the others have put since. Differs where a majority has voted for something else than this one made."""
        self.settle()
        asked = []
        for kind, kept in self.made.items():
            if kept:
                first, last = next(iter(kept)), next(reversed(kept))
                for name in self.votes.others():
                    self.next[(name, kind)] = max(first, self.next.get((name, kind), first))
                    asked.append((name, kind, self.next[(name, kind)], last))
        asked = [one for one in asked if one[2] <= one[3]]
        if asked:
            for (name, kind, _, _), found in zip(asked, self.votes.since(asked)):
                self.compare(name, kind, found)

    def compare(self, name: str, kind: str, found: List[Vote]) -> None:
        """Compares what one of the others has put."""
        for vote in found:
            self.next[(name, kind)] = vote.number + 1
            made = self.made[kind].get(vote.number)
            if made is None or made == vote.value or form_of(kind, made) != form_of(kind, vote.value):
                continue
            self.check(kind, vote.number, made, self.votes.of(kind, vote.number))
            if name not in self.differing:
                self.differing[name] = vote.number
                self.tell(f"REPLICA {name} DIFFERS: {WHAT[kind]} {vote.number}: it has put {shown(vote.value)}, and this one "
                          f"made {shown(made)}; {self.standing(kind, vote.number, made)}")

    def standing(self, kind: str, number: int, made: bytes) -> str:
        """Whether a majority has voted for what this replica made."""
        is_final = self.votes.final(kind, number) == made
        return "a majority has voted for what this one made, which goes on" if is_final else "no majority has decided yet"
