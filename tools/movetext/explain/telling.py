"""What movedis says where it is asked why something is refused."""

import json
from typing import Any, Dict, List, NamedTuple, Optional

from ..source_names import NameTable, StreamNames
from ..writer import write_certificate
from .answers import Answer, answers
from .failures import SourcePlace, counted
from .ledger import Ledger, Refusal
from .verdict import explain_module

ABOUT_RUNS = ("rejected", "aborted", "exhausted")


class NoRecord(Exception):
    """Raised where a stream hasn't the record that is asked for."""


class Explained(NamedTuple):
    """What is said, in lines and by field, and whether nothing is refused."""

    lines: List[str]
    fields: List[Dict[str, Any]]
    is_accepted: bool

    def json_lines(self) -> List[str]:
        """What is said by field, an object a line."""
        return [json.dumps(one) for one in self.fields]


def module_explained(data: bytes, certificate: Optional[bytes] = None, names: Optional[NameTable] = None) -> Explained:
    """What is said of a module, with a certificate or by the least states."""
    verdict = explain_module(data, certificate, source=names.of(data) if names else None)
    if verdict.failure:
        return Explained(verdict.failure.lines(), [verdict.failure.fields()], False)
    if verdict.least is None:
        return Explained(["accepted"], [{"verdict": "accepted"}], True)
    least = write_certificate(verdict.least).hex()
    said = f"accepted with the certificate of the least states, {least or 'which is empty'}"
    return Explained([said], [{"verdict": "accepted", "certificate": least}], True)


def ledger_explained(data: bytes, names: Optional[NameTable] = None) -> Explained:
    """What is said of a saved ledger: what is loaded of it, or why it isn't."""
    ledger = Ledger(names)
    refusal = ledger.load(data)
    if refusal:
        return load_refused(refusal)
    counts = {"modules": len(ledger.modules), "stored": len(ledger.stored), "runs": ledger.runs}
    parts = [counted(counts["modules"], "module"), counted(counts["stored"], "stored value"), counted(counts["runs"], "run")]
    return Explained(["loaded: " + ", ".join(parts)], [{"verdict": "loaded", **counts}], True)


def stream_explained(data: bytes, number: Optional[int] = None, loaded: Optional[bytes] = None,
                     names: Optional[NameTable] = None) -> Explained:
    """What is said of a stream's records, or of the one of a number, over an empty ledger or one that is loaded. NoRecord where
    the stream hasn't the record."""
    ledger = Ledger(names)
    refusal = None if loaded is None else ledger.load(loaded)
    if refusal:
        return load_refused(refusal)
    lines: List[str] = []
    fields, is_accepted, last = [], True, 0
    places = names.of_stream(data) if names else None
    for one in answers(data, ledger, number):
        last, one = one.number, placed(one, places)
        if number in (None, one.number):
            lines += told(one)
            fields.append(fields_of(one))
            is_accepted = is_accepted and not one.is_refused
    if number is not None and last != number:
        raise NoRecord(f"there is no record {number}: the stream has {last or 'none'}")
    return Explained(lines, fields, is_accepted)


def placed(answer: Answer, places: Optional[StreamNames]) -> Answer:
    """An answer whose failure has a place in the text: that of the record where it has no other."""
    failure = answer.failure
    if places is None or failure is None or failure.source is not None or answer.number > len(places.records):
        return answer
    source = SourcePlace(places.file, *places.records[answer.number - 1])
    return answer._replace(failure=failure._replace(source=source))


def told(answer: Answer) -> List[str]:
    """An answer in lines: those of the report, and why."""
    if answer.failure is None:
        return answer.lines
    first, *rest = answer.failure.lines()
    front = [] if answer.module is None else [f"module {answer.module + 1} of {answer.modules} of the bundle"]
    return [f"{answer.number} {first}", *front, *rest]


def fields_of(answer: Answer) -> Dict[str, Any]:
    """An answer by field."""
    found: Dict[str, Any] = {"record": answer.number, "kind": answer.kind, "lines": answer.lines, "verdict": answer.words[-1],
                             "module": answer.module}
    return {**found, **answer.failure.fields()} if answer.failure else found


def load_refused(refusal: Refusal) -> Explained:
    """That a saved ledger isn't loaded."""
    first, *rest = refusal.failure.lines()
    front = [] if refusal.module is None else [f"module {refusal.module} of the saved ledger"]
    return Explained([first, *front, *rest], [{"record": None, "module": refusal.module, **refusal.failure.fields()}], False)
