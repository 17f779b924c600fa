"""Puts records at the end of a log, those of several submitters in one transaction.

A large record's pieces are put before it, and only while nothing was put by its id. Another one may put other pieces by the same id meanwhile,
or a clear remove them. So what puts the record compares that each piece is as its own submitter left it, by the change that put it: it puts
the record with its own bytes or not at all. Where it doesn't, since the pieces are another one's by then, it leaves that one the time to put
its record, and tries again from the pieces on."""

import random
import time
from typing import TYPE_CHECKING, Dict, List, Mapping, NamedTuple, Optional, Sequence, Set, Tuple, Union

from .errors import LogError, OtherRecord, Refused, Unfit, Unreachable
from .keys import Keys, number_in, numbered, size_in
from .requests import Body, Entry, absent, after, equal, get, put, ranged, unchanged, value_of
from .settings import Settings
from .times import untimely
from .written import count_of_pieces, counted_size, put_pieces, written

if TYPE_CHECKING:
    from .log import Log

# A record takes two keys, and a transaction 128; 60 records with what stands under their keys are also within MOST_BYTES.
MOST_APPENDED = 60
MOST_OPERATIONS = 128
# What nodes say that take fewer.
TOO_MANY = "too many operations"
# It compares at most 128 keys: the last number, the quota, and for each record its id and its pieces, of which a record has at most 33.
MOST_COMPARED = 126
# Who finds another one's pieces in the place of its own waits so many times as long as it took to put them, and at least so many seconds; twice
# as long each time. So of two that are about as fast, one puts its record after a few tries at most.
AWAITED, LEAST_AWAITED = (1.0, 2.0), 0.05


class Offer(NamedTuple):
    """A record to be put, and its id: the same one however often it's tried."""

    id: str
    record: bytes


class Waiting(NamedTuple):
    """A record on its way, who puts it, and what is to stand under its number. Where it lies in pieces, the changes that have put them, as
    far as they are known to be there."""

    offer: Offer
    submitter: str
    value: bytes
    changes: Tuple[int, ...] = ()

    def has_pieces(self) -> bool:
        """Whether all its pieces are known to be there."""
        return len(self.changes) == count_of_pieces(self.offer.record)


# The number that a record has, or why it isn't put.
Outcome = Union[int, LogError]
Used = Dict[str, Optional[bytes]]


def waiting(offer: Offer, submitter: str) -> Waiting:
    return Waiting(offer, submitter, written(offer.id, submitter, offer.record))


def operations(records: int, submitters: int) -> int:
    """How many operations a transaction takes that puts so many records, of so many submitters."""
    return 2 * records + 1 + submitters


def why_unfit(offer: Offer, settings: Settings) -> Optional[str]:
    """Why a record may not be put, unless it is in the log already: it has an id so old that its record may have been put and cleared, or it
    is beyond a limit."""
    limit = settings.newest_limit()
    beyond = limit.exceeded(offer.record)
    return untimely(offer.id, settings.hours) or (beyond and f"the record's {beyond} is beyond the log's limit of {limit.size} bytes and "
                                                  f"{limit.budget} steps (0 is none)")


def over_quota(submitter: str, has: int, settings: Settings) -> LogError:
    """Why a record isn't put of a submitter who has so many bytes in the log."""
    return Refused(f"{submitter} has {has} bytes in the log, and may have {settings.quota_of(submitter)}")


def number_of(one: Waiting, text: bytes, there: Optional[bytes]) -> Outcome:
    """The number that an id has by what stands under it, where its record stands under that number; that it's another record's, otherwise."""
    number = number_in(text)
    if number is None or there != one.value:
        return OtherRecord(f"the id {one.offer.id} is that of record {number}, which is another one or isn't kept any more")
    return number


class Batch:
    """Records as one transaction puts them, behind the record that is taken for the last, and with what their submitters are taken to have
    put."""

    def __init__(self, keys: Keys, ones: Sequence[Waiting], last: int, used: Used) -> None:
        self.keys = keys
        self.ones = ones
        self.last = last
        self.first, self.end = last + 1, last + len(ones)
        self.used: Used = {who: used[who] for who in sorted({one.submitter for one in ones})}

    def ids(self) -> List[bytes]:
        return [self.keys.id(one.offer.id) for one in self.ones]

    def sums(self) -> Dict[str, int]:
        """How many bytes each submitter has put with these."""
        sums = {who: size_in(text) for who, text in self.used.items()}
        for one in self.ones:
            sums[one.submitter] += counted_size(one.offer.record)
        return sums

    def used_then(self) -> Used:
        return {who: str(size).encode() for who, size in self.sums().items()}

    def conditions(self) -> List[Body]:
        assert all(one.has_pieces() for one in self.ones)
        pieces = [unchanged(self.keys.piece(one.offer.id, at), change) for one in self.ones for at, change in enumerate(one.changes)]
        last = numbered(self.last) if self.last else None
        used = [equal(self.keys.used(who), text) for who, text in self.used.items()]
        return [*map(absent, self.ids()), equal(self.keys.last, last), *used, *pieces]

    def looks_at_pieces(self) -> List[Body]:
        """What asks which changes have put the pieces that are there."""
        prefixes = [self.keys.pieces(one.offer.id) for one in self.ones if one.changes]
        return [{"request_range": ranged(prefix, after(prefix), keys_only=True)} for prefix in prefixes]

    def puts(self) -> List[Body]:
        numbers = range(self.first, self.end + 1)
        puts = [put(self.keys.record(number), one.value) for number, one in zip(numbers, self.ones)]
        puts += [put(key, numbered(number)) for key, number in zip(self.ids(), numbers)]
        used = [put(self.keys.used(who), text or b"") for who, text in self.used_then().items()]
        return [*puts, put(self.keys.last, numbered(self.end)), *used]


class Appending:
    """A few records on their way into the log, put in one transaction."""

    def __init__(self, log: "Log", offered: Sequence[Tuple[Offer, str]], settings: Settings) -> None:
        self.log = log
        self.etcd = log.etcd
        self.keys = log.keys
        self.settings = settings
        self.outcomes: Dict[str, Outcome] = {}
        self.left = [waiting(offer, who) for offer, who in offered]
        self.ids = [offer.id for offer, _ in offered]
        self.last = 0
        # What submitters have put, as far as it is known.
        self.used: Used = {}
        # What was cleared of what submitters ever put, where that is counted beside it: read when a quota seems to be used up.
        self.gone: Dict[str, int] = {}
        # How long it took to put pieces, how often others stood in their place since, and until when that is borne.
        self.seconds = 0.0
        self.overwritten = 0
        self.until = float("inf")

    def put_after(self, last: int) -> List[Outcome]:
        """Puts them after the record that is taken for the last, or after the one that is. What became of each."""
        self.last = last
        for who in {one.submitter for one in self.left}:
            self.used[who] = self.etcd.get(self.keys.used(who))
        self.check_fit()
        self.put_pieces()
        while self.left:
            self.put_left()
        return [self.outcomes[name] for name in self.ids]

    def batch(self) -> Batch:
        return Batch(self.keys, self.left, self.last, self.used)

    def leave_out(self, outcomes: Mapping[str, Outcome]) -> None:
        """Leaves out those of these ids, of which is known what becomes of them."""
        self.outcomes.update(outcomes)
        self.left = [one for one in self.left if one.offer.id not in outcomes]

    def put_pieces(self) -> None:
        """Puts the pieces of those that have any, where the quota has room for them. Those whose ids are in the log already are told."""
        while True:
            one = next((one for one in self.left if not one.has_pieces()), None)
            if one is None:
                return
            text = self.etcd.get(self.keys.id(one.offer.id))
            if text is not None:
                self.leave_out({one.offer.id: self.number_of(one, text)})
                continue
            self.look_at_gone()
            if one.submitter in self.above_quota():
                self.leave_out(self.over_quota({one.submitter}))
            else:
                self.put_pieces_of(one)

    def put_pieces_of(self, one: Waiting) -> None:
        """Puts the pieces of one, unless its id comes into the log meanwhile."""
        began = time.monotonic()
        changes = put_pieces(self.etcd, self.keys, one.offer.id, one.offer.record)
        self.seconds = time.monotonic() - began
        if changes is not None:
            self.left = [one._replace(changes=changes) if other is one else other for other in self.left]

    def check_fit(self) -> None:
        """Leaves out what may not be put."""
        refused: Dict[str, LogError] = {}
        for one in self.left:
            why = why_unfit(one.offer, self.settings)
            if why and self.etcd.get(self.keys.id(one.offer.id)) is None:
                refused[one.offer.id] = Unfit(why)
        self.leave_out(refused)

    def above_quota(self) -> Set[str]:
        """Those who would have too many bytes in the log."""
        return {who for who, size in self.batch().sums().items() if 0 < self.settings.quota_of(who) < size - self.gone.get(who, 0)}

    def look_at_gone(self) -> None:
        """Reads what was cleared of those who would have too much without that."""
        above = sorted(self.above_quota()) if self.settings.is_chaining() else []
        if above:
            found = self.etcd.transact([], [get(self.keys.gone(who)) for who in above], [])[1]
            self.gone.update((who, size_in(value_of(entries))) for who, entries in zip(above, found))

    def over_quota(self, submitters: Set[str]) -> Dict[str, LogError]:
        """Why the records of these aren't put, by their ids."""
        return {one.offer.id: over_quota(one.submitter, size_in(self.used[one.submitter]) - self.gone.get(one.submitter, 0), self.settings)
                for one in self.left if one.submitter in submitters}

    def put_left(self) -> None:
        """Tries to put those that aren't there. What is found, where that fails, is what the next try begins with. What is there
        already is found at the quota too."""
        self.look_at_gone()
        batch = self.batch()
        asked = [*map(get, batch.ids()), get(self.keys.last), *(get(self.keys.used(who)) for who in batch.used), *batch.looks_at_pieces()]
        if self.above_quota():
            found = self.etcd.transact([], asked, [])[1]
        else:
            is_done, found = self.etcd.transact(batch.conditions(), batch.puts(), asked)
            if is_done:
                self.outcomes.update((one.offer.id, number) for number, one in enumerate(self.left, batch.first))
                self.last = batch.end
                self.left = []
                return
        self.take_over(found, batch)

    def take_over(self, found: List[List[Entry]], batch: Batch) -> None:
        """Takes over what stands in the log by now."""
        known: Dict[str, Outcome] = {}
        for one, entries in zip(self.left, found):
            text = value_of(entries)
            if text is not None:
                known[one.offer.id] = self.number_of(one, text)
        count = len(self.left)
        self.leave_out(known)
        self.last = self.log.last_of(value_of(found[count]))
        now = dict(zip(batch.used, map(value_of, found[count + 1:])))
        self.used.update(now)
        if not known and (batch.last, batch.used) == (self.last, now):
            self.leave_out(self.over_quota(self.above_quota()))
        self.look_at_pieces({entry.key: entry.changed for entries in found[count + 1 + len(now):] for entry in entries})
        self.put_pieces()

    def look_at_pieces(self, found: Dict[bytes, int]) -> None:
        """Has those put their pieces again of which some are lost, by the changes that have put what stands there now. Waits where others stand
        in their place."""
        own = {one.offer.id: {self.keys.piece(one.offer.id, at): change for at, change in enumerate(one.changes)} for one in self.left}
        lost = {name for name, pieces in own.items() if any(found.get(key) != change for key, change in pieces.items())}
        others = sorted(name for name in lost if any(found.get(key, change) != change for key, change in own[name].items()))
        self.left = [one._replace(changes=()) if one.offer.id in lost else one for one in self.left]
        if others:
            self.wait_for_other(others[0])

    def wait_for_other(self, name: str) -> None:
        """Leaves another one that puts other pieces by an id the time to put its record. Unreachable where that is the case for as long as the
        client of etcd has patience."""
        now = time.monotonic()
        if self.overwritten == 0:
            self.until = min(self.etcd.until, now + self.etcd.patience)
        pause = random.uniform(*AWAITED) * max(self.seconds, LEAST_AWAITED) * 2 ** self.overwritten
        self.overwritten += 1
        time.sleep(max(0.0, min(pause, self.until - now)))
        if time.monotonic() >= self.until:
            raise Unreachable(f"another record is being put by the id {name}")

    def number_of(self, one: Waiting, text: bytes) -> Outcome:
        number = number_in(text)
        return number_of(one, text, None if number is None else self.etcd.get(self.keys.record(number)))
