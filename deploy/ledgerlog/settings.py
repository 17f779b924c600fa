"""What a log says of itself: its id, its set of replicas, and what they and the submitters go by."""

import json
import re
import secrets
from typing import Any, Callable, Dict, NamedTuple, Optional, Tuple

from .chains import Point
from .errors import LogError, OtherProtocol
from .records import budget_of

# The form of all that stands in the log, and the newest rules that this code knows: who writes has to know the log's. A log that names
# none goes by the first ones.
FORM = 2
FIRST_PROTOCOL, PROTOCOL = 2, 4
# From this one on, replicas skip what the log says, and put no line by settings that aren't the log's any more.
SKIPPING_PROTOCOL = 3
# From this one on, a replica votes once for many records, and what was cleared is counted beside what a submitter ever put.
CHAINING_PROTOCOL = 4


# Why whole records are skipped: since that was asked for, for their size, or for their budget.
ASKED, SIZE, BUDGET = "asked", "size", "budget"


class Past(NamedTuple):
    """An earlier id of a log that was restored, and the last record that it has in common with what it is now."""

    id: str
    last: int


class Limit(NamedTuple):
    """From a number on: the most bytes of a record, and the most steps of a run; 0 is no limit."""

    first: int
    size: int
    budget: int

    def exceeded(self, record: bytes) -> Optional[str]:
        """Which of them a record exceeds."""
        if 0 < self.size < len(record):
            return SIZE
        return BUDGET if 0 < self.budget < budget_of(record) else None


class Agreed(NamedTuple):
    """The save that an earlier set of replicas agreed on: the number of its last record, its form and its SHA-256."""

    number: int
    value: str


class Settled(NamedTuple):
    """What an earlier set of replicas made final: the number of the last record, and the digest of the lines there, in hexadecimal."""

    number: int
    digest: str

    def point(self) -> Point:
        return Point(self.number, bytes.fromhex(self.digest))


class Settings(NamedTuple):
    """What stands under NAME/log. `room` and `quota` are bytes; 0 is no limit. Records and ids are kept for so many `hours`. The lines of
    the records behind `chained` are chained. `former` has replicas of earlier sets, and up to which record
    they may have told lines that no other has told. While something is `changing`, no replica votes. `more` is what this code doesn't know:
    it is kept."""

    id: str
    replicas: Tuple[str, ...]
    every: int = 1000
    room: int = 0
    quota: int = 0
    quotas: Dict[str, int] = {}
    past: Tuple[Past, ...] = ()
    protocol: int = FIRST_PROTOCOL
    hours: int = 24
    limits: Tuple[Limit, ...] = ()
    skips: Dict[int, str] = {}
    agreed: Optional[Agreed] = None
    chained: int = 0
    settled: Optional[Settled] = None
    former: Dict[str, int] = {}
    changing: str = ""
    more: Dict[str, Any] = {}

    def is_chaining(self) -> bool:
        """Whether replicas vote once for many records."""
        return self.protocol >= CHAINING_PROTOCOL

    def quota_of(self, submitter: str) -> int:
        return self.quotas.get(submitter, self.quota)

    def limit_at(self, number: int) -> Limit:
        """What holds for a record with this number."""
        return max((limit for limit in self.limits if limit.first <= number), default=Limit(0, 0, 0))

    def newest_limit(self) -> Limit:
        return max(self.limits, default=Limit(0, 0, 0))

    def why_skipped(self, number: int, record: bytes) -> Optional[str]:
        """Why all replicas skip a record that is whole, by what the log says."""
        return ASKED if number in self.skips else self.limit_at(number).exceeded(record)

    def has_save(self, log_id: str, number: int) -> bool:
        """Whether a ledger that was saved after this record of that log goes on in this one."""
        return log_id == self.id or any(one.id == log_id and number <= one.last for one in self.past)

    def point(self) -> Optional[Point]:
        """The last point that an earlier set of replicas made final."""
        return self.settled.point() if self.settled else None

    def knows(self, log_id: str) -> bool:
        return log_id == self.id or any(one.id == log_id for one in self.past)

    def check_protocol(self) -> None:
        """OtherProtocol where the log goes by rules that this code doesn't know."""
        if self.protocol > PROTOCOL:
            raise OtherProtocol(f"the log goes by protocol {self.protocol}, and this program knows those up to {PROTOCOL}: take a newer "
                                "one")

    def text(self) -> bytes:
        """What stands in the log: what says no more than an older log does is left out, so that older programs go on."""
        told = {**self.more, **self._asdict(), "form": FORM, "past": [[one.id, one.last] for one in self.past],
                "limits": [list(limit) for limit in self.limits], "skips": {str(number): why for number, why in self.skips.items()}}
        del told["more"]
        for name in LATER:
            if getattr(self, name) == Settings._field_defaults[name]:
                del told[name]
        return json.dumps(told, sort_keys=True).encode()


# The fields that came later.
LATER = ("protocol", "hours", "limits", "skips", "agreed", "chained", "settled", "former", "changing")


def new_id() -> str:
    return secrets.token_hex(16)


def number(value: Any, least: int = 0) -> int:
    """A number of at least so many. ValueError where it is none."""
    if type(value) is not int or value < least:
        raise ValueError(f"{value!r} is no number from {least} on")
    return value


def digest(value: Any) -> str:
    """A digest in hexadecimal. ValueError where it is none."""
    if not re.fullmatch("[0-9a-f]{64}", value):
        raise ValueError(f"{value!r} is no digest")
    return str(value)


READ: Dict[str, Callable[[Any], Any]] = {
    "id": str,
    "replicas": lambda value: tuple(map(str, value)),
    "every": lambda value: number(value, 1),
    "room": number,
    "quota": number,
    "quotas": lambda value: {str(who): number(amount) for who, amount in value.items()},
    "past": lambda value: tuple(Past(str(name), number(last)) for name, last in value),
    "protocol": lambda value: number(value, 1),
    "hours": number,
    "limits": lambda value: tuple(Limit(number(first, 1), number(size), number(budget)) for first, size, budget in value),
    "skips": lambda value: {number(int(which), 1): str(why) for which, why in value.items()},
    "agreed": lambda value: Agreed(number(value[0], 1), str(value[1])),
    "chained": number,
    "settled": lambda value: Settled(number(value[0], 1), digest(value[1])),
    "former": lambda value: {str(who): number(last, 1) for who, last in value.items()},
    "changing": str}


def settings_of(text: bytes) -> Settings:
    """What a text says. LogError where it isn't one of this form."""
    try:
        told: Dict[str, Any] = json.loads(text)
        if told.pop("form") != FORM:
            raise ValueError("it is of another form")
        known = {name: read(told.pop(name)) for name, read in READ.items() if name in told}
        return Settings(**known, more=told)
    except (ValueError, TypeError, KeyError, AttributeError) as why:
        raise LogError(f"what the log says of itself isn't understood: {why}") from None
