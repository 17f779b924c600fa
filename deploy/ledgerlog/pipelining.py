"""Records of many submitters on their way into the log, in several transactions of one writer, each sent before the one before it is
answered: over distance a record needn't wait for that.

A transaction puts its records behind those that the one before it will leave there, so it compares the last number, and what its submitters
have put, with what that one makes of them. It may come before that one, or that one may fail, or come late, or never:

- Then it fails by the last number, unless another writer has put as many records there. So while the one before it has no answer, it also
  compares that the last id of that one has the number that it is to get: records don't change places.
- Where one fails, nothing is sent until all that are on their way have ended. Then it is read which of the ids in those that failed stand in
  the log (one that was asked twice, since its answer was lost, fails by its own ids): these records are told their numbers, if they are the
  same. The rest goes again, in its order and before what came later, behind what is the last record by then.
  Where the first that failed was sent behind another one that is put, it came too early, most likely: it is tried again before that is read.
- One that isn't answered for as long as the client of etcd has patience is unknown. Its records are told so, and come again with the same
  ids. It may be put later, but only where nothing was put since: then what is put next fails, and finds its ids.
- So each id is put once: whoever puts it compares that it isn't there. It is on its way once at a time.
- What a quota may refuse waits until nothing of its submitter is on its way, since that counts for it, and may fail."""

import threading
import time
from collections import deque
from typing import Callable, Deque, Dict, List, NamedTuple, Optional, Sequence, Set

from .appending import (MOST_APPENDED, MOST_OPERATIONS, TOO_MANY, Batch, Offer, Outcome, Used, number_of, operations, over_quota, waiting,
                        why_unfit)
from .errors import LogError, Unfit, Unreachable
from .etcd import Etcd
from .keys import number_in, numbered, size_in
from .log import Log
from .requests import Body, equal, get, value_of
from .settings import Settings
from .written import counted_size

# So many transactions are on their way at most, and the next one goes so long after the one before it, or after its part of the time that one
# takes: sooner, and two would change places on the way, and go again.
MOST_FLYING = 4
LEAST_SECONDS = 0.004
# How much the time that one took counts in the mean.
NEWEST_PART = 0.2
# So many records, of so many bytes, go in one transaction, and so many operations, unless the nodes take no more than those of a submitter.
MOST_GATHERED, MOST_BYTES, MOST_AT_ONCE = 400, 900_000, 1_000
# So many may wait; who comes then waits before it's heard.
MOST_WAITING = 10_000
# So many keys are read at once.
MOST_READ = 120


class Wanted(NamedTuple):
    """A record that waits, who puts it, and what is called with what became of it."""

    offer: Offer
    submitter: str
    done: Callable[[Outcome], None]


class Flight:
    """Records on their way in one transaction. `behind` compares that the one before it is put, where that isn't known."""

    def __init__(self, batch: Batch, wanted: List[Wanted], behind: List[Body]) -> None:
        self.batch = batch
        self.wanted = wanted
        self.behind = behind
        self.is_done = False
        self.error: Optional[LogError] = None
        self.seconds = 0.0

    def is_put(self) -> Body:
        """A comparison: these records are put, behind which others are on their way."""
        return equal(self.batch.ids()[-1], numbered(self.batch.end))

    def send(self, etcd: Etcd, departed: Callable[["Flight"], None] = lambda flight: None) -> None:
        """Sends it, and waits for the answer. `departed` is called when it is on its way."""
        began = time.monotonic()
        etcd.nodes.on_sent = lambda: departed(self)
        try:
            self.is_done = etcd.transact([*self.batch.conditions(), *self.behind], self.batch.puts(), [])[0]
        except Exception as why:  # noqa: BLE001
            self.error = error_of(why)
        self.seconds = time.monotonic() - began

    def tell(self) -> None:
        """Tells the number of each, where they are put."""
        for number, one in enumerate(self.wanted, self.batch.first):
            one.done(number)


def error_of(why: Exception) -> LogError:
    return why if isinstance(why, LogError) else Unreachable(repr(why))


def tell(wanted: Sequence[Wanted], outcome: Outcome) -> None:
    for one in wanted:
        one.done(outcome)


class Pipeline:
    """What waits, and what is on its way. One thread at a time takes what goes next, and any may want, or end what was sent."""

    def __init__(self, log: Log, rules: Callable[[], Settings]) -> None:
        """`rules` gives what the log says of itself; LogError where nothing may be put now."""
        self.log = log
        self.keys = log.keys
        self.rules = rules
        lock = threading.Lock()
        self.changed, self.room = threading.Condition(lock), threading.Condition(lock)
        self.wanted: Deque[Wanted] = deque()
        self.flying: List[Flight] = []
        self.failed: List[Flight] = []
        # Whose records wait until nothing of theirs is on its way; and whether nothing of what waits can go before something ends.
        self.held: Set[str] = set()
        self.is_blocked = False
        self.is_stopping = False
        # The last one that was taken, while it isn't on its way yet; when it was; and the mean of what one takes.
        self.leaving: Optional[Flight] = None
        self.sent = self.mean = 0.0
        self.least = LEAST_SECONDS
        self.most_gathered, self.most_operations = MOST_GATHERED, MOST_AT_ONCE
        # What the last one on its way will leave: the last number, None where it isn't known, and what submitters will have put; and what
        # was cleared of that, as it was read last.
        self.last: Optional[int] = None
        self.used: Used = {}
        self.gone: Dict[str, int] = {}

    def want(self, one: Wanted) -> None:
        with self.changed:
            while len(self.wanted) >= MOST_WAITING and not self.is_stopping:
                self.room.wait()
            self.wanted.append(one)
            if len(self.wanted) == 1 or self.is_blocked:
                self.is_blocked = False
                self.changed.notify()

    def stop(self) -> None:
        with self.changed:
            self.is_stopping = True
            self.changed.notify_all()

    def next(self) -> Optional[Flight]:
        """The transaction that goes next, when there is one; None at the end."""
        while True:
            with self.changed:
                while not self.is_stopping and not self.is_due():
                    self.changed.wait(self.due_in())
                if self.is_stopping:
                    return None
            flight = self.take()
            if flight is not None:
                return flight

    def is_due(self) -> bool:
        """Whether there is something to do."""
        if self.failed or not self.flying:
            return not self.flying and bool(self.failed or self.wanted)
        return self.may_fly() and self.leaving is None and time.monotonic() >= self.sent + self.gap()

    def may_fly(self) -> bool:
        return bool(self.wanted) and not self.is_blocked and not self.failed and len(self.flying) < MOST_FLYING

    def gap(self) -> float:
        return max(self.least, self.mean / MOST_FLYING)

    def due_in(self) -> Optional[float]:
        """How many seconds to wait until there is something to do, where that is known."""
        is_next = self.flying and self.may_fly() and self.leaving is None
        return max(0.0, self.sent + self.gap() - time.monotonic()) if is_next else None

    def take(self) -> Optional[Flight]:
        """The transaction that goes now, where one does. Begins anew behind one that failed, when all have ended."""
        with self.changed:
            failed: List[Flight] = []
            if not self.flying:
                failed, self.failed = self.failed, []
            wanted = self.gathered() if not failed and (self.may_fly() or not self.flying) else []
        if failed:
            self.settle(failed)
        return self.made(wanted) if wanted else None

    def gathered(self) -> List[Wanted]:
        """What goes in one transaction of what waits, in its order."""
        ids = {one.offer.id for flight in self.flying for one in flight.wanted}
        self.held &= self.submitters_flying()
        submitters: Set[str] = set()
        batch: List[Wanted] = []
        kept: List[Wanted] = []
        size = 0
        while self.wanted:
            one = self.wanted.popleft()
            if one.offer.id in ids or one.submitter in self.held:
                kept.append(one)
                continue
            size += len(one.offer.record)
            if batch and (operations(len(batch) + 1, len(submitters | {one.submitter})) > self.most_operations
                          or len(batch) == self.most_gathered or size > MOST_BYTES):
                kept.append(one)
                break
            batch.append(one)
            ids.add(one.offer.id)
            submitters.add(one.submitter)
        self.wanted.extendleft(reversed(kept))
        self.is_blocked = not batch and bool(self.wanted)
        self.room.notify_all()
        return batch

    def submitters_flying(self) -> Set[str]:
        return {who for flight in self.flying for who in flight.batch.used}

    def put_back(self, wanted: Sequence[Wanted]) -> None:
        """Has these go before all others that wait."""
        with self.changed:
            self.wanted.extendleft(reversed(wanted))

    def made(self, wanted: List[Wanted]) -> Optional[Flight]:
        """The transaction that puts these, as far as they go now."""
        try:
            settings = self.rules()
            self.learn(wanted)
        except Exception as why:  # noqa: BLE001
            tell(wanted, error_of(why))
            return None
        going = self.going(wanted, settings)
        ones = [waiting(one.offer, one.submitter) for one in going]
        with self.changed:
            if self.failed:
                self.wanted.extendleft(reversed(going))
                return None
            if not going or self.last is None:
                return None
            flight = Flight(Batch(self.keys, ones, self.last, self.used), going, [one.is_put() for one in self.flying[-1:]])
            self.flying.append(flight)
            self.leaving = flight
        self.last = flight.batch.end
        self.used.update(flight.batch.used_then())
        return flight

    def going(self, wanted: List[Wanted], settings: Settings) -> List[Wanted]:
        """Those that go. Of the others those are told what becomes of them that may be refused now, and the rest goes back."""
        with self.changed:
            flying = self.submitters_flying()
        sums: Dict[str, int] = {}
        going: List[Wanted] = []
        doubtful: List[Wanted] = []
        back: List[Wanted] = []
        above: Set[str] = set()
        for one in wanted:
            who = one.submitter
            size = sums.get(who, size_in(self.used[who])) + counted_size(one.offer.record)
            is_above = 0 < settings.quota_of(who) < size - self.gone.get(who, 0)
            if is_above and (who in flying or who in sums):
                self.held.add(who)
            if who in self.held or (who in above and not is_above):
                back.append(one)
            elif is_above or why_unfit(one.offer, settings):
                above |= {who} if is_above else set()
                doubtful.append(one)
            else:
                sums[who] = size
                going.append(one)
        after_all = self.decided(doubtful, settings, flying) if doubtful else []
        if after_all or back:
            ids = {one.offer.id for one in (*after_all, *back)}
            self.put_back([one for one in wanted if one.offer.id in ids])
        return going

    def decided(self, doubtful: List[Wanted], settings: Settings, flying: Set[str]) -> List[Wanted]:
        """Tells of these which stand in the log already, and which are refused. Those that go after all."""
        names = sorted({one.submitter for one in doubtful} - flying)
        try:
            found = self.values([*map(self.keys.used, names), *map(self.keys.gone, names)])
            self.used.update(zip(names, found))
            if settings.is_chaining():
                self.gone.update(zip(names, map(size_in, found[len(names):])))
            left = self.missing(doubtful, self.values([self.keys.id(one.offer.id) for one in doubtful]))
        except Exception as why:  # noqa: BLE001
            tell(doubtful, error_of(why))
            return []
        after_all: List[Wanted] = []
        for one in left:
            has = size_in(self.used[one.submitter]) - self.gone.get(one.submitter, 0)
            why_not = why_unfit(one.offer, settings)
            if why_not:
                one.done(Unfit(why_not))
            elif one.submitter in names and 0 < settings.quota_of(one.submitter) < has + counted_size(one.offer.record):
                one.done(over_quota(one.submitter, has, settings))
            else:
                after_all.append(one)
        return after_all

    def learn(self, wanted: Sequence[Wanted], keys: Sequence[bytes] = ()) -> List[Optional[bytes]]:
        """Reads the last number and what these submitters have put, where it isn't known, and what stands under these keys."""
        names = sorted({one.submitter for one in wanted} - set(self.used))
        last = [self.keys.last] if self.last is None else []
        found = self.values([*last, *map(self.keys.used, names), *keys])
        if last:
            self.last = self.log.last_of(found[0])
        self.used.update(zip(names, found[len(last):]))
        return found[len(last) + len(names):]

    def forget(self) -> None:
        self.last = None
        self.used.clear()
        self.gone.clear()

    def values(self, keys: Sequence[bytes]) -> List[Optional[bytes]]:
        """What stands under each."""
        found: List[Optional[bytes]] = []
        for at in range(0, len(keys), MOST_READ):
            found += map(value_of, self.log.etcd.transact([], [get(key) for key in keys[at:at + MOST_READ]], [])[1])
        return found

    def missing(self, wanted: Sequence[Wanted], texts: Sequence[Optional[bytes]]) -> List[Wanted]:
        """Tells of these, by what stands under their ids, which are in the log. Those that aren't."""
        there = [(one, text, number_in(text) or 0) for one, text in zip(wanted, texts) if text is not None]
        values = self.values([self.keys.record(number) for _, _, number in there])
        for (one, text, _), value in zip(there, values):
            one.done(number_of(waiting(one.offer, one.submitter), text, value))
        return [one for one, text in zip(wanted, texts) if text is None]

    def departed(self, flight: Flight) -> None:
        with self.changed:
            if self.leaving is flight:
                self.leaving, self.sent = None, time.monotonic()
                self.changed.notify()

    def end(self, flight: Flight) -> None:
        """Takes one that has its answer, or has none."""
        if flight.is_done:
            flight.tell()
        with self.changed:
            self.flying.remove(flight)
            self.is_blocked = False
            if self.leaving is flight:
                self.leaving = None
            if flight.is_done:
                self.mean += NEWEST_PART * (flight.seconds - self.mean) if self.mean else flight.seconds
            else:
                self.failed.append(flight)
            self.changed.notify()

    def settle(self, failed: List[Flight]) -> None:
        """Begins anew: tells what is known of those that failed, and has the rest go again."""
        failed.sort(key=lambda one: one.batch.first)
        if all(flight.error is None for flight in failed) and failed[0].behind:
            self.send_again(failed)
            return
        self.forget()
        most = self.most_operations
        again: List[Wanted] = []
        for flight in failed:
            if flight.error is None:
                again += flight.wanted
            elif TOO_MANY in str(flight.error) and most > MOST_OPERATIONS:
                self.most_gathered, self.most_operations = MOST_APPENDED, MOST_OPERATIONS
                again += flight.wanted
            else:
                tell(flight.wanted, flight.error)
        try:
            self.put_back(self.missing(again, self.learn(again, [self.keys.id(one.offer.id) for one in again])))
        except Exception as why:  # noqa: BLE001
            tell(again, error_of(why))

    def send_again(self, failed: List[Flight]) -> None:
        """Has those go again of which the first came before the one before it, most likely. That one hasn't failed: it is put by now."""
        self.last = failed[0].batch.last
        for flight in reversed(failed):
            self.used.update(flight.batch.used)
        self.put_back([one for flight in failed for one in flight.wanted])
