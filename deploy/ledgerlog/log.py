"""The log: records under their numbers, from 1 on and without a gap, with an id for each and a quota for each submitter."""

from typing import Dict, Iterator, List, NamedTuple, Optional, Sequence, Tuple

from .appending import MOST_APPENDED, MOST_COMPARED, Appending, Offer
from .errors import Behind, LogError, NoLog, OtherHistory
from .etcd import Etcd
from .keys import VOTE, Keys, number_in
from .requests import Entry, after, get, get_range, value_of
from .settings import Settings, settings_of
from .written import MISSING, PIECES, Taken, count_of_pieces, taken

MOST_READ = 500
# No more records are taken at once when these have so many bytes.
ENOUGH_BYTES = 8 << 20
# Above these parts of its room a log is nearly full, and is given no more records.
NEARLY_FULL, NO_MORE = 0.75, 0.9


class Read(NamedTuple):
    """What follows each other in the log, the number of the last record, what the log says of itself and the change that put this, the
    number of the store's last change, and the votes that were asked for, all at one moment, and the id of the nodes that answered."""

    taken: List[Taken]
    last: int
    settings: Settings
    rules: int
    revision: int
    cluster: str
    votes: Dict[str, Entry] = {}


class Room(NamedTuple):
    """How many bytes a log takes, and may take; 0 where that isn't limited."""

    used: int
    most: int

    def part(self) -> float:
        return self.used / self.most if self.most else 0.0


class Log:
    """A ledger's part of the store."""

    def __init__(self, etcd: Etcd, ledger: str) -> None:
        self.etcd = etcd
        self.keys = Keys(ledger)

    def settings(self) -> Settings:
        """What the log says of itself. LogError where it says nothing, OtherProtocol where it goes by rules that aren't known here."""
        return self.understood(self.etcd.get(self.keys.log))

    def settings_at(self, is_read_only: bool = False) -> Tuple[Settings, int]:
        """As `settings`, and the change that put it. Who only reads needn't know the rules."""
        entry = self.etcd.entry(self.keys.log)
        return self.understood(entry.value if entry else None, is_read_only), entry.changed if entry else 0

    def understood(self, text: Optional[bytes], is_read_only: bool = False) -> Settings:
        if text is None:
            raise NoLog(f"there is no log of the ledger {self.keys.ledger}: deploy/log make makes one")
        settings = settings_of(text)
        if not is_read_only:
            settings.check_protocol()
        return settings

    def last(self) -> int:
        """The number of the last record; 0 where there is none."""
        return self.last_of(self.etcd.get(self.keys.last))

    def last_of(self, text: Optional[bytes]) -> int:
        number = 0 if text is None else number_in(text)
        if number is None:
            raise LogError(f"under {self.keys.last.decode()} stands no number: {text!r}")
        return number

    def cleared(self) -> int:
        """Up to which record the log was cleared."""
        return self.cleared_of(self.etcd.get(self.keys.cleared))

    def cleared_of(self, text: Optional[bytes]) -> int:
        if text and not text.isdigit():
            raise LogError(f"under {self.keys.cleared.decode()} stands no number: {text!r}; put the one there up to which it was cleared")
        return int(text) if text else 0

    def room(self, settings: Settings) -> Room:
        """How much of the log's room is used, as etcd counts it: what was cleared counts until the log is defragmented."""
        return Room(int(self.etcd.ask("/v3/maintenance/status", {}).get("dbSize", 0)), settings.room)

    def another(self) -> "Log":
        """The same log by a client of its own, for another thread."""
        return Log(self.etcd.another(), self.keys.ledger)

    def append(self, offers: List[Offer], submitter: str, settings: Settings) -> Iterator[int]:
        """Puts records at the end, in this order, and gives their numbers, each when it is durable. A record whose id stands
        in the log already keeps the number that it has there. OtherRecord where another record has the id, Refused at a quota,
        Unfit where it may not be put at all."""
        last = self.last()
        for part in parts_of(offers):
            for outcome in Appending(self, [(offer, submitter) for offer in part], settings).put_after(last):
                if isinstance(outcome, LogError):
                    raise outcome
                last = max(last, outcome)
                yield outcome

    def read(self, first: int, names: Sequence[str] = ()) -> Read:
        """What the log has from this number on, as much as is taken at once, and the votes by chain of these. Behind where that was
        cleared, OtherHistory where the log says nothing of itself any more."""
        keys = self.keys
        asked = [get(keys.last), get(keys.log), get(keys.cleared),
                 get_range(keys.record(first), keys.record(first + MOST_READ), MOST_READ), *(get(keys.own(name, VOTE)) for name in names)]
        _, found, revision = self.etcd.transacted([], asked, [])
        cluster = self.etcd.cluster
        last, told, cleared = (value_of(part) for part in found[:3])
        if told is None:
            raise OtherHistory(f"the log says nothing of the ledger {keys.ledger} any more: it was made anew, or lost")
        self.check_behind(first, self.cleared_of(cleared))
        settings = self.understood(told)
        entries = {entry.key: entry for entry in found[3]}
        end = min(self.last_of(last), first + MOST_READ - 1)
        made: List[Taken] = []
        size = 0
        for number in range(first, end + 1):
            entry = entries.get(keys.record(number))
            if entry is None and len(found[3]) == MOST_READ:
                entry = self.etcd.entry(keys.record(number))
            one = taken(self.etcd, keys, entry)
            why = settings.why_skipped(number, one.record) if one.why is None or number in settings.skips else None
            made.append(Taken(b"", why) if why else one)
            size += len(made[-1].record)
            if size >= ENOUGH_BYTES:
                break
        if any(one.why in (MISSING, PIECES) for one in made):
            self.check_kept(first)
        votes = {name: entries[0] for name, entries in zip(names, found[4:]) if entries}
        return Read(made, self.last_of(last), settings, found[1][0].changed, revision, cluster, votes)

    def check_behind(self, first: int, cleared: int) -> None:
        """Behind where a record was cleared."""
        if first <= cleared:
            raise Behind(f"record {first} isn't in the log any more: begin with a newer save (deploy/snapshot)")

    def check_kept(self, first: int) -> None:
        """Behind where the log was cleared while it was read, so that what wasn't found may have been there."""
        self.check_behind(first, self.cleared())

    def wait(self, revision: int, seconds: float) -> None:
        """Waits until the last record is another one than at a revision, at most for so long."""
        self.etcd.wait(self.keys.last, self.keys.last + b"\0", revision, seconds)

    def wait_for_replicas(self, revision: int, seconds: float) -> None:
        """Waits until a replica has put something after a revision, at most for so long."""
        self.etcd.wait(self.keys.by_replicas, after(self.keys.by_replicas), revision, seconds)


def parts_of(offers: List[Offer]) -> Iterator[List[Offer]]:
    """Records in parts, each of which one transaction can put."""
    part: List[Offer] = []
    compared = 0
    for offer in offers:
        more = 1 + count_of_pieces(offer.record)
        if part and (len(part) == MOST_APPENDED or compared + more > MOST_COMPARED):
            yield part
            part, compared = [], 0
        part.append(offer)
        compared += more
    if part:
        yield part
