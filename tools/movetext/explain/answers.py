"""The records of a stream: what each is answered, and why."""

from typing import Iterator, List, NamedTuple, Optional

from .. import model
from ..records import RecordPlace, read_stream
from .failures import Failure, Place
from .ledger import Ledger
from .runs import answered
from .shown import report_of

KINDS = {model.PUBLISH: "publish", model.RUN: "run", model.SHOW: "show", model.AUDIT: "audit"}


class Answer(NamedTuple):
    """What a record is answered: its number and its kind, the lines of the report without the number, how many modules it
    publishes, and the first failure, or None. `module` is the number of the bundle's module that fails, from 0, or None."""

    number: int
    kind: str
    words: List[str]
    failure: Optional[Failure] = None
    modules: int = 0
    module: Optional[int] = None

    @property
    def lines(self) -> List[str]:
        """The lines of the report."""
        return [f"{self.number} {one}" for one in self.words]

    @property
    def is_refused(self) -> bool:
        """Whether the record was refused or rejected."""
        return self.failure is not None and self.words[0].startswith(("refused", "rejected"))


def answers(data: bytes, ledger: Optional[Ledger] = None, last: Optional[int] = None) -> Iterator[Answer]:
    """What is answered to a stream's records, one after the other, up to the one of the number `last` where that is given. The
    ledger begins empty where none is given."""
    reading = read_stream(data)
    ledger = ledger or Ledger()
    for number, (record, place) in enumerate(zip(reading.stream.records, reading.places), 1):
        if last is not None and number > last:
            return
        yield answer(ledger, number, record, place)
    number = len(reading.places) + 1
    if reading.faults and (last is None or number <= last):
        failure = shape_failure(reading.faults[0].offset, reading.faults[0].reason)
        yield Answer(number, "none", [failure.verdict], failure)


def answer(ledger: Ledger, number: int, record: model.Record, place: RecordPlace) -> Answer:
    """What a record is answered."""
    if isinstance(record, model.Publish):
        refusal, count = ledger.publish(record, place), len(record.offers)
        if refusal:
            return Answer(number, "publish", [refusal.failure.verdict], refusal.failure, count, refusal.module)
        return Answer(number, "publish", [f"published {count}"], None, count)
    if isinstance(record, model.Run):
        outcome = answered(ledger, record, place.at)
        return Answer(number, "run", [outcome.words], outcome.failure)
    if isinstance(record, model.RawRecord):
        said = "rejected 1" if record.kind == model.RUN else ""
        failure = shape_failure(place.faults[0].offset, place.faults[0].reason, said)
        return Answer(number, KINDS.get(record.kind, "none"), [failure.verdict], failure)
    is_audit = isinstance(record, model.Audit)
    return Answer(number, "audit" if is_audit else "show", report_of(ledger, is_audit, record.is_json))


def shape_failure(offset: int, reason: str, said: str = "") -> Failure:
    """That a record isn't of the shape of its kind."""
    return Failure(None if said else 1, Place(f"offset {offset}", offset), "", f"not of the shape of its kind: {reason}", said=said)
