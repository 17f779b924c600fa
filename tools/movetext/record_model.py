"""Records and saved ledgers as plain values."""

from dataclasses import dataclass, field
from typing import List, Tuple, Union

from .values import Value


@dataclass
class Offer:
    """A module and its certificate, as bytes."""

    module: bytes
    certificate: bytes = b""


@dataclass
class Publish:
    """A record that publishes modules."""

    sender: bytes
    offers: List[Offer] = field(default_factory=list)


@dataclass
class Run:
    """A record that runs a function."""

    sender: bytes
    address: bytes
    module: str
    function: str
    budget: int
    arguments: List[Value] = field(default_factory=list)


@dataclass
class Show:
    """A record that shows the stored values, in lines or in one line of JSON."""

    is_json: bool = False


@dataclass
class Audit:
    """A record that audits the structs with neither copy nor drop, in lines or in one line of JSON."""

    is_json: bool = False


@dataclass
class RawRecord:
    """A record of another kind, or whose payload isn't of its kind's shape."""

    kind: int
    payload: bytes


Record = Union[Publish, Run, Show, Audit, RawRecord]
PUBLISH, RUN, SHOW, AUDIT = 0x01, 0x02, 0x03, 0x04


@dataclass
class Stream:
    """Records, and what stands after the last whole one."""

    records: List[Record] = field(default_factory=list)
    rest: bytes = b""


LEDGER_MAGIC = {1: b"MVL1", 2: b"MVL2"}


@dataclass
class Tally:
    """How many values of a struct with neither copy nor drop were packed and unpacked."""

    packed: int
    unpacked: int


@dataclass
class Stored:
    """A stored value: its address, its module's place, its struct definition's index, and its leaves in order."""

    address: bytes
    place: int
    struct: int
    leaves: List[Value] = field(default_factory=list)


@dataclass
class Ledger:
    """A saved ledger of form 1 or 2. Tallies stand by `scarce`, the structs with neither copy nor drop, each as its module's
    place and its definition's index; stored values stand in the order of the form, which in form 2 is by `keys`, the structs
    with key."""

    form: int
    runs: int = 0
    offers: List[Offer] = field(default_factory=list)
    scarce: List[Tuple[int, int]] = field(default_factory=list)
    tallies: List[Tally] = field(default_factory=list)
    keys: List[Tuple[int, int]] = field(default_factory=list)
    stored: List[Stored] = field(default_factory=list)
