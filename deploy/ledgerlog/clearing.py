"""What removes from a log what is no longer needed, and gives its room back."""

import random
import time
from contextlib import closing
from typing import Dict, List, NamedTuple, Optional, Set, Tuple

from .appending import TOO_MANY
from .chains import MOST_TOLD
from .errors import LogError, Unreachable
from .etcd import Etcd
from .keys import LINES, PROGRAM, SAVED, TOLD, Keys, number_in, numbered, size_in
from .log import Log
from .requests import Body, Entry, absent, after, delete, delete_range, equal, get, get_range, none_since, put, unchanged, value_of
from .times import AHEAD_SECONDS, HOUR, TIMED, marked, marks_in, newest_before, text_of
from .votes import votes_in
from .written import Head, head_of

# So many records are removed in one transaction at most: by one range, with their pieces, the lines by a range for each replica, and what
# was cleared of their submitters; and so many of them have an id that is removed by itself. Nodes that an older deploy/node started take
# 128 operations.
MOST_REMOVED, FEW_REMOVED = 1_000, 100
MOST_OPERATIONS, FEW_OPERATIONS = 1_000, 120
MOST_SINGLE = 250
# Ids that say when they were made are removed by ranges of time, when no record is left that was put by them: one is put at most half as
# many hours later as records are kept.
ID_HOURS = 1.5
# Who clears rests for such a part of the time that it works; and for so many seconds where another one that clears was quicker.
REST = 0.25
LOST_SECONDS = (0.1, 1.0)
# So many of a replica's lines are removed at once.
MOST_DELETED = 10_000
# A node is defragmented where its file has so many times what it uses.
LOOSE = 2
# So long may a node take to compact or to defragment what it has.
LONG_SECONDS = 1_800.0
# So often at most it is looked whether an alarm is there.
MOST_DISARMED = 8
# The alarm of a node that the log is full.
FULL = "NOSPACE"


class Cleared(NamedTuple):
    """Up to which record a log was cleared, how many of what were removed now, which replicas haven't answered so far: they need a save
    of another one; and whether more is kept only since it isn't old enough."""

    upto: int
    records: int
    orphans: int
    behind: List[str]
    is_young: bool


class Clearing:
    """One clearing of a log, behind the newest save that a majority has voted for."""

    def __init__(self, log: Log, keep: int, now: Optional[float] = None) -> None:
        self.log = log
        self.now = int(time.time() if now is None else now)
        self.etcd = log.etcd
        self.keys = log.keys
        self.settings = log.settings()
        self.votes = votes_in(log.etcd, log.keys, self.settings)
        # All that ever put anything, those with them that are in the set no more.
        self.names = names_in(log.etcd, log.keys)
        self.keep = keep
        self.most_removed, self.most_operations = MOST_REMOVED, MOST_OPERATIONS
        # The change that put up to where the log was cleared, when this clearing began.
        self.changed_before = 0
        # What is known to be cleared of submitters, as of the change that put up to where the log was; and whether something in the log
        # isn't as it was taken for.
        self.gone: Dict[str, int] = {}
        self.known_at = -1
        self.is_doubtful = False

    def run(self) -> Cleared:
        """Clears the log. LogError where no majority has voted for the digest of a save."""
        last = self.log.last()
        agreed = self.votes.newest_agreed_save(last)
        if agreed is None:
            raise LogError("no majority of the replicas has voted for the digest of one save: nothing can be cleared")
        before = self.etcd.entry(self.keys.cleared)
        self.changed_before = before.changed if before else 0
        unneeded = min(agreed.number, last - self.keep)
        upto = max(self.log.cleared_of(before.value if before else None), min(unneeded, self.old_enough(last)))
        behind = [name for name in self.votes.replicas if not self.has_answered(name, upto)]
        removed = 0
        is_left = True
        while is_left:
            began = time.monotonic()
            count, is_left = self.remove(upto)
            removed += count
            time.sleep(REST * (time.monotonic() - began) if count else 0.0)
        self.remove_votes(upto, agreed.number)
        self.remove_ids()
        return Cleared(upto, removed, self.remove_orphans(self.changed_before), behind, upto < unneeded)

    def old_enough(self, last: int) -> int:
        """Up to which record all are older than the hours for which they are kept. Notes when the last record was there. LogError where
        the clock was ahead when that was noted before, or is behind now."""
        if self.settings.hours == 0:
            return last
        entry = self.etcd.entry(self.keys.times)
        marks = marks_in(entry.value if entry else None)
        if marks and marks[-1].seconds > self.now + AHEAD_SECONDS:
            raise LogError(f"the log was cleared by a clock that was {marks[-1].seconds - self.now} seconds ahead of this one: set the "
                           f"clocks right, and remove {self.keys.times.decode()} if it was that one")
        new = marked(marks, self.now, last, self.settings.hours)
        if new != marks:
            self.etcd.transact([unchanged(self.keys.times, entry.changed if entry else 0)], [put(self.keys.times, text_of(new))], [])
        mark = newest_before(marks, self.now - self.settings.hours * HOUR)
        return mark.number if mark else 0

    def has_answered(self, name: str, number: int) -> bool:
        saved = self.votes.newest(name, SAVED)
        return number == 0 or any(vote.number >= number for vote in saved) or self.votes.newest_lines(name, self.log.last()) >= number

    def owned(self, heads: Dict[int, Head]) -> Dict[int, Head]:
        """What stands before those records whose ids are their own: what was put by hand may name another one's."""
        ids = map(value_of, self.etcd.transact([], [get(self.keys.id(head.id)) for head in heads.values()], [])[1])
        return {number: head for (number, head), text in zip(heads.items(), ids) if text and number_in(text) == number}

    def is_timed(self, name: str) -> bool:
        """Whether an id goes by the time that it says, and not with its record."""
        found = TIMED.fullmatch(name)
        return self.settings.is_chaining() and self.settings.hours > 0 and bool(found and int(found.group(1), 16) <= self.now + AHEAD_SECONDS)

    def fitting(self, entries: List[Entry]) -> List[Entry]:
        """As many of the first as one transaction removes."""
        operations, single, compared = 3 + 2 * len(self.names), 0, 2
        submitters: Set[str] = set()
        for count, entry in enumerate(entries):
            head = head_of(entry.value)
            if head is not None:
                single += not self.is_timed(head.id)
                operations += (not self.is_timed(head.id)) + head.is_in_pieces
                submitters.add(head.submitter)
            # An old clear may go on at the same time, where it knows the log's protocol: then each record is compared as well.
            compared = 2 + single + (0 if self.settings.is_chaining() else count + 1)
            if max(operations, compared) + len(submitters) > self.most_operations or single > MOST_SINGLE:
                return entries[:max(1, count)]
        return entries

    def remove(self, upto: int) -> Tuple[int, bool]:
        """Removes the oldest records up to one, as many as one transaction does. How many it removed, and whether there may be more."""
        try:
            found = self.tried(upto)
        except LogError as why:
            if TOO_MANY not in str(why) or self.most_operations == FEW_OPERATIONS:
                raise
            self.most_removed, self.most_operations, self.known_at = FEW_REMOVED, FEW_OPERATIONS, -1
            return 0, True
        self.is_doubtful = found is None and not self.is_doubtful
        if found is None:
            time.sleep(random.uniform(*LOST_SECONDS) if not self.is_doubtful else 0.0)
        return found or (0, True)

    def tried(self, upto: int) -> Optional[Tuple[int, bool]]:
        """Removes records with their ids, pieces and lines, and counts their bytes as cleared: all at once, where nobody has cleared since,
        so that nothing is counted twice where two clear, or an answer is lost. None where somebody has."""
        asked = [get(self.keys.cleared), get(self.keys.log), get_range(self.keys.records, self.keys.record(upto + 1), self.most_removed)]
        cleared, log, found = self.etcd.transact([], asked, [])[1]
        self.settings = self.log.understood(value_of(log))
        entries = self.fitting(found)
        numbers = [number for number in (number_in(entry.key) for entry in entries) if number is not None]
        is_last = len(entries) == len(found) < self.most_removed
        already, changed = self.log.cleared_of(value_of(cleared)), cleared[0].changed if cleared else 0
        to = max(already, upto if is_last else max(numbers, default=0))
        if not entries and to == already and changed != self.changed_before:
            return 0, False
        compare = [unchanged(self.keys.cleared, changed), unchanged(self.keys.log, log[0].changed)]
        done: List[Body] = [put(self.keys.cleared, str(to).encode())]
        if changed != self.known_at:
            self.gone.clear()
        if entries:
            more, ways = self.removal(entries)
            compare, done = compare + more, done + ways
        for name in self.names:
            done.append(delete_range(self.keys.by(name, LINES), self.keys.vote(name, LINES, to + 1)))
            done.append(delete_range(self.keys.by(name, TOLD), self.keys.vote(name, TOLD, max(0, to + 2 - MOST_TOLD))))
        is_done, _, revision = self.etcd.transacted(compare, done, [])
        self.known_at = revision if is_done else -1
        return (len(entries), not is_last) if is_done else None

    def removal(self, entries: List[Entry]) -> Tuple[List[Body], List[Body]]:
        """What is compared, and done, to remove these records."""
        found = {number_in(entry.key): head_of(entry.value) for entry in entries}
        heads = {number: head for number, head in found.items() if number is not None and head is not None}
        # The first try takes it that each id is its record's own.
        heads = self.owned(heads) if self.is_doubtful or not self.settings.is_chaining() else heads
        single = {number: head for number, head in heads.items() if not self.is_timed(head.id)}
        compare = [equal(self.keys.id(head.id), numbered(number)) for number, head in single.items()]
        done: List[Body] = [delete_range(self.keys.records, entries[-1].key + b"\0"), *(delete(self.keys.id(head.id)) for head in single.values())]
        for head in heads.values():
            if head.is_in_pieces:
                done.append(delete_range(self.keys.pieces(head.id), after(self.keys.pieces(head.id))))
        sizes: Dict[str, int] = {}
        for head in heads.values():
            sizes[head.submitter] = sizes.get(head.submitter, 0) + head.size()
        if self.settings.is_chaining():
            return compare, done + self.counted(sizes)
        used, given_back = self.given_back(sizes)
        return [*compare, *used, *(unchanged(entry.key, entry.changed) for entry in entries)], done + given_back

    def counted(self, sizes: Dict[str, int]) -> List[Body]:
        """What was cleared of all that submitters ever put, with these bytes: nobody else counts it while `cleared` is as it was."""
        unknown = [who for who in sizes if who not in self.gone]
        found = self.etcd.transact([], [get(self.keys.gone(who)) for who in unknown], [])[1] if unknown else []
        self.gone.update((who, size_in(value_of(entries))) for who, entries in zip(unknown, found))
        for who, size in sizes.items():
            self.gone[who] += size
        return [put(self.keys.gone(who), str(self.gone[who]).encode()) for who in sizes]

    def given_back(self, sizes: Dict[str, int]) -> Tuple[List[Body], List[Body]]:
        """What submitters have in the log, where that is counted alone, and have without these bytes."""
        used = {who: self.etcd.get(self.keys.used(who)) for who in sizes}
        left = {who: size_in(value) - sizes[who] for who, value in used.items()}
        return ([equal(self.keys.used(who), value) for who, value in used.items()],
                [put(self.keys.used(who), str(size).encode()) if size > 0 else delete(self.keys.used(who)) for who, size in left.items()])

    def remove_votes(self, upto: int, saved: int) -> None:
        """Removes digests of saves before the one that counts, and programs before the last."""
        for name in self.names:
            self.delete_up_to(name, SAVED, saved)
            programs = self.votes.newest(name, PROGRAM)
            if programs:
                self.delete_up_to(name, PROGRAM, min(programs[0].number, upto))

    def remove_ids(self) -> None:
        """Removes the ids that are so old that no record is left that was put by them. Others stand among them, and stay, and so do those of the
        last records, which are kept however old they are."""
        if not self.settings.is_chaining() or self.settings.hours == 0:
            return
        cleared = self.log.cleared()
        first, end = self.keys.id("t"), self.keys.id(f"t{max(0, int(self.now - ID_HOURS * self.settings.hours * HOUR)):08x}")
        while first < end:
            found = self.etcd.range(first, end, self.most_removed)
            runs: List[List[bytes]] = [[]]
            for entry in found.entries:
                is_timed = TIMED.fullmatch(entry.key[len(self.keys.ids):].decode("ascii", "replace"))
                if is_timed and (number_in(entry.value) or 0) <= cleared:
                    runs[-1].append(entry.key)
                elif runs[-1]:
                    runs.append([])
            spans = [(run[0], run[-1] + b"\0") for run in runs if run][:FEW_OPERATIONS]
            compare = [none_since(*span, found.revision) for span in spans]
            is_done = not spans or self.etcd.transact(compare, [delete_range(*span) for span in spans], [])[0]
            if len(found.entries) < self.most_removed and len(runs) <= FEW_OPERATIONS and is_done:
                return
            if is_done:
                first = spans[-1][1] if len(runs) > FEW_OPERATIONS else found.entries[-1].key + b"\0"

    def delete_up_to(self, name: str, kind: str, end: int) -> None:
        """Removes what a replica has put for the numbers before one, some at a time, so that no node is busy with it for long."""
        first, last = self.keys.by(name, kind), self.keys.vote(name, kind, end)
        while True:
            there = self.etcd.range(first, last, 1, keys_only=True).entries
            if not there:
                return
            number = number_in(there[0].key)
            self.etcd.delete(first, last if number is None else min(last, self.keys.vote(name, kind, number + MOST_DELETED)))

    def remove_orphans(self, since: int) -> int:
        """Removes pieces that were put for a record which then wasn't, and were there when the log was last cleared, at this
        change. Those that came since may belong to a record that is being put."""
        before = len(self.keys.all_pieces)
        there = self.etcd.range(self.keys.all_pieces, after(self.keys.all_pieces), 0, keys_only=True).entries
        names: Set[bytes] = {entry.key[before:].partition(b"/")[0] for entry in there if entry.created < since}
        count = 0
        for name in sorted(names):
            prefix = self.keys.all_pieces + name + b"/"
            count += self.etcd.transact([absent(self.keys.ids + name)], [delete_range(prefix, after(prefix))], [])[0]
        return count


def names_in(etcd: Etcd, keys: Keys) -> List[str]:
    """The replicas under whose names anything stands."""
    names: List[str] = []
    first = keys.by_replicas
    while True:
        found = etcd.range(first, after(keys.by_replicas), 1, keys_only=True).entries
        if not found:
            return names
        name = found[0].key[len(keys.by_replicas):].partition(b"/")[0]
        names.append(name.decode("ascii", "replace"))
        first = keys.by_replicas + name + b"0"


def patient(etcd: Etcd, addresses: List[str]) -> Etcd:
    """A client of some nodes that waits for what takes a node long."""
    made = Etcd(addresses, etcd.patience, etcd.access)
    made.slow_seconds = LONG_SECONDS
    return made


def compact(etcd: Etcd, revision: int) -> None:
    """Has etcd forget what was replaced and deleted up to a change, where it hasn't yet."""
    try:
        etcd.ask("/v3/kv/compaction", {"revision": str(revision), "physical": True})
    except LogError as why:
        if "compacted" not in str(why):
            raise


class Size(NamedTuple):
    """How many bytes a node's file has, and how many of them are in use."""

    file: int
    used: int

    def is_loose(self) -> bool:
        """Whether giving back what isn't used is worth that the node stands still meanwhile."""
        return self.file >= LOOSE * max(self.used, 1)


def size_of(node: Etcd) -> Size:
    told = node.ask("/v3/maintenance/status", {})
    return Size(int(told.get("dbSize", 0)), int(told.get("dbSizeInUse", 0)))


def defragment(node: Etcd, is_full: bool) -> str:
    """Has one node give back the room of what it forgot, where that is much or the log is full. What became of it; a node that is down is
    left out."""
    address = node.addresses[0]
    try:
        before = size_of(node)
        if not (is_full or before.is_loose()):
            return f"{address} keeps its {before.file} bytes, of which {before.used} are in use"
        node.slow_seconds = LONG_SECONDS
        node.ask("/v3/maintenance/defragment", {})
        node.slow_seconds = 0.0
        return f"{address} has {size_of(node).file} bytes, and had {before.file}"
    except Unreachable:
        return f"{address} doesn't answer"
    finally:
        node.close()


def make_room(log: Log) -> str:
    """Compacts the log, defragments the nodes that hold much more than they use, one after the other, and disarms the alarm that the log
    is full. What it did. Another alarm stays, and is told: room is no answer to it."""
    etcd = log.etcd
    with closing(patient(etcd, list(etcd.addresses))) as slow:
        compact(slow, etcd.range(log.keys.log, log.keys.log + b"\0", 1).revision)
    is_full = bool(full_ones(alarms_of(etcd)))
    told = [defragment(Etcd([address], etcd.patience, etcd.access), is_full) for address in sorted(etcd.addresses)]
    disarmed = disarm(etcd)
    return "; ".join([*told, *([f"{disarmed} alarms are disarmed"] if disarmed else []), *lasting(alarms_of(etcd))])


def alarms_of(etcd: Etcd) -> List[Body]:
    """The alarms of all nodes: each raises its own where the log is full, a slow one later than others."""
    found: List[Body] = etcd.ask("/v3/maintenance/alarm", {"action": "GET"}).get("alarms", [])
    return found


def full_ones(alarms: List[Body]) -> List[Body]:
    """Those of them that say that the log is full."""
    return [one for one in alarms if one["alarm"] == FULL]


def lasting(alarms: List[Body]) -> List[str]:
    """What is told of the others: each kind once."""
    return [f"the alarm {name} stays" for name in sorted({str(one["alarm"]) for one in alarms} - {FULL})]


def disarm(etcd: Etcd) -> int:
    """Disarms all alarms that the log is full, with those that are raised meanwhile. How many; a log that is full yet raises them without
    end. An alarm that a node's data are damaged isn't touched: disarmed, the node would answer from them."""
    count = 0
    for _ in range(MOST_DISARMED):
        alarms = full_ones(alarms_of(etcd))
        if not alarms:
            break
        for one in alarms:
            etcd.ask("/v3/maintenance/alarm", {"action": "DEACTIVATE", "memberID": one.get("memberID", "0"), "alarm": one["alarm"]})
        count += len(alarms)
    return count
