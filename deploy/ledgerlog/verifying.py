"""Answers a log again, as far as it isn't cleared, and compares what replicas have put: their lines, and the digest of the newest
save that a majority has voted for."""

import os
import sys
import tempfile
from typing import Dict, List, Optional, Tuple

from .chains import MOST_TOLD, START, OwnChain, Point, told_in
from .comparing import WHAT, shown
from .errors import OtherHistory
from .final import Final
from .keys import LINES, SAVED, TOLD
from .log import Log
from .program import Program
from .requests import get_range
from .saves import Save, SavedVote, saved_vote_in, saves_in, vote_on
from .votes import Vote, form_of, votes_in

# So many differences are told for each replica.
MOST_TOLD_DIFFERENCES = 10


class Verifying:
    """One pass over a log, from its start or from the oldest save of a folder that a majority has voted for."""

    def __init__(self, log: Log, program: str, folder: str) -> None:
        self.log = log
        self.program = program
        self.folder = folder
        self.settings = log.settings()
        self.votes = votes_in(log.etcd, log.keys, self.settings)
        self.differences: Dict[str, int] = {}
        self.compared = self.undecided = self.saves = 0
        self.final = Final(log.etcd, log.keys, self.settings)
        # The lines that are made, and the votes by chain that stood when it began, which are compared when it comes to them.
        self.chain = OwnChain(self.settings.chained, Point(0, START))
        self.points: Dict[int, List[Tuple[str, bytes]]] = {}
        self.left: List[str] = []

    def run(self) -> bool:
        """Whether all that was put is what the program makes now. Says what isn't, and how much was compared."""
        save = self.first_save()
        number = save.number if save else 0
        if self.settings.is_chaining():
            value = self.votes.final(SAVED, number) if save else None
            digest = saved_vote_in(value or b"").chain if number > self.settings.chained else START
            self.chain = OwnChain(self.settings.chained, Point(number, digest or START))
            for name, one in self.final.votes().items():
                for point in set(one.points()):
                    self.points.setdefault(point.number, []).append((name, point.digest))
        first, path = number + 1, save.path if save else None
        with tempfile.TemporaryDirectory() as folder:
            while True:
                stop = self.next_saved(number)
                made = os.path.join(folder, f"ledger-{stop or 0}")
                running = Program(self.program, number, path, made)
                try:
                    self.answer(running, stop)
                    if stop is not None:
                        running.finish()
                finally:
                    running.end()
                if stop is None:
                    break
                self.compare(SAVED, Vote(stop, self.saved_vote(stop, made)))
                number, path = stop, made
        self.sum_up(first, running.number)
        return not self.differences

    def saved_vote(self, number: int, path: str) -> bytes:
        """What is put for a saved ledger."""
        if not self.settings.is_chaining() or number <= self.settings.chained:
            return vote_on(path)
        skips = sum(one <= number for one in self.settings.skips)
        return SavedVote(vote_on(path), self.chain.digests[number], os.path.getsize(path), skips).value()

    def first_save(self) -> Optional[Save]:
        """Where it begins: at the log's start, where that isn't cleared."""
        if self.log.cleared() == 0:
            return None
        there = saves_in(self.folder) if os.path.isdir(self.folder) else []
        good = [save for save in there if save.number >= self.log.cleared()
                and self.settings.has_save(save.log_id, save.number) and self.is_agreed(save)]
        if not good:
            raise OtherHistory(f"the log was cleared up to record {self.log.cleared()}, and {self.folder} has no later save that "
                               "a majority has voted for")
        return good[-1]

    def is_agreed(self, save: Save) -> bool:
        value = self.votes.final(SAVED, save.number)
        return value is not None and self.votes.is_usable(save.number, value) and saved_vote_in(value).ledger == save.vote()

    def next_saved(self, number: int) -> Optional[int]:
        """The number of the next save behind a record of which a majority has voted for the digest, where that isn't the last time."""
        newest = self.votes.newest_agreed_save(self.log.last())
        return newest.number if newest and newest.number > number else None

    def answer(self, running: Program, stop: Optional[int]) -> None:
        """Answers records up to one, or to the end of the log, and compares the lines."""
        while stop is None or running.number < stop:
            read = self.log.read(running.number + 1)
            given = read.taken if stop is None else read.taken[:stop - running.number]
            if not given:
                return
            first = running.number + 1
            made = [Vote(first + at, lines) for at, lines in enumerate(running.answer(given))]
            if not self.settings.is_chaining():
                self.compare_all(made)
                continue
            self.chain.add([vote.value for vote in made])
            old = [vote for vote in made if vote.number <= self.settings.chained]
            if old:
                self.compare_all(old)
            self.compare_chained(made[len(old):])

    def compare_all(self, made: List[Vote]) -> None:
        """Compares lines with those that all replicas have put."""
        asked = [(name, LINES, made[0].number, made[-1].number) for name in self.votes.replicas]
        found = dict(zip(self.votes.replicas, ({vote.number: vote.value for vote in votes} for votes in self.votes.since(asked))))
        for vote in made:
            self.compare(LINES, vote, {name: there[vote.number] for name, there in found.items() if vote.number in there})

    def compare_chained(self, made: List[Vote]) -> None:
        """Compares lines with those that replicas have told, and their votes with the digests there."""
        if not made:
            return
        first, last = made[0].number, made[-1].number
        final = len(self.final.lines(first, len(made)))
        self.compared += len(made)
        self.undecided += len(made) - final
        for name in self.votes.replicas:
            start = self.log.keys.vote(name, TOLD, max(1, first + 1 - MOST_TOLD))
            entries = self.log.etcd.transact([], [get_range(start, self.log.keys.vote(name, TOLD, last + 1), 0)], [])[1][0]
            for told in filter(None, map(told_in, entries)):
                for number, lines in enumerate(told.lines, told.first):
                    if first <= number <= last and lines != made[number - first].value:
                        self.told_otherwise(name, made[number - first], lines, number < first + final)
        for number in range(first, last + 1):
            for name, digest in self.points.get(number, ()):
                if digest != self.chain.digests[number]:
                    self.differences.setdefault(name, 0)
                    self.differences[name] += 1
                    print(f"{name}: its vote at record {number} is on other lines than are made now, up to there")

    def told_otherwise(self, name: str, made: Vote, value: bytes, is_final: bool) -> None:
        """Lines that a replica has told aren't made now: they may stand there since it was wrong once, and has voted on others since."""
        if not is_final:
            self.differs(name, LINES, made, value, "")
        elif len(self.left) < MOST_TOLD_DIFFERENCES:
            self.left.append(f"{name}: for record {made.number} it has told {shown(value)} once, which isn't final")

    def differs(self, name: str, kind: str, made: Vote, value: bytes, word: str) -> None:
        """Counts that a replica has put something else, and says so."""
        self.differences[name] = self.differences.get(name, 0) + 1
        if self.differences[name] <= MOST_TOLD_DIFFERENCES:
            print(f"{name}: {WHAT[kind]} {made.number}: it has put {shown(value)}{word}, and {shown(made.value)} is made now")

    def compare(self, kind: str, made: Vote, given: Optional[Dict[str, bytes]] = None) -> None:
        """Compares what was made with what each replica has put, and says what differs."""
        votes = self.votes.of(kind, made.number) if given is None else given
        final = self.votes.decided(kind, made.number, votes)
        self.compared += kind == LINES
        self.saves += kind == SAVED
        self.undecided += final is None
        for name, value in votes.items():
            if value != made.value and form_of(kind, value) == form_of(kind, made.value):
                self.differs(name, kind, made, value, ", which is final" if value == final else "")

    def sum_up(self, first: int, last: int) -> None:
        for words in self.left:
            print(words)
        for number, why in sorted(self.settings.skips.items()):
            if first <= number <= last:
                print(f"record {number} is skipped, since that was asked for: {why}")
        differs = "; ".join(f"{name} differs {count} times" for name, count in sorted(self.differences.items()))
        print(f"records {first} to {last}: {self.compared} answers and {self.saves} saves compared, of which {self.undecided} no "
              f"majority has decided; {differs or 'nothing differs'}")
        sys.stdout.flush()
