"""Phases 1 to 12 of one module, in their order."""

from functools import partial
from typing import Iterator, NamedTuple, Optional, Set

from .. import model
from ..limits import CERTIFICATE_BYTES, TABLE_BYTES
from ..reader import read_module
from ..source_names import ModuleNames
from . import abilities, acquires, bounds, certificate, control, definitions, signatures, stack
from .failures import Check, Failure, Fails, Place
from .subject import ENTRY_WORDS, Subject


class Verdict(NamedTuple):
    """What is found of a module: the module with the words for its places, the first failure or None, and the certificate with
    the least states where none was given."""

    subject: Subject
    failure: Optional[Failure]
    least: Optional[model.Certificate] = None


class Trial:
    """A module that is tried, with a certificate's bytes or without one. `base` and `certificate_base` are where they begin in
    their files, `source` are the names of the module's text. `states` are those of its blocks, once phase 9 is reached."""

    def __init__(self, data: bytes, stated: Optional[bytes] = None, base: int = 0, certificate_base: int = 0,
                 source: Optional[ModuleNames] = None, advises: bool = False):
        self.data, self.stated, self.certificate_base = data, stated, certificate_base
        self.subject = Subject(read_module(data), base, source, advises)
        self.states = certificate.States(self.subject)

    def phases(self) -> Iterator[Iterator[Check]]:
        """What is checked, phase by phase."""
        subject = self.subject
        yield iter([Check(partial(check_sizes, subject, self.data, self.stated))])
        yield iter([Check(partial(check_text, subject))])
        for phase in (bounds, definitions, signatures, abilities, control, stack):
            yield phase.checks(subject)
        yield iter([Check(self.read_certificate)] if self.stated is not None else [])
        yield from self.states.checks()
        yield acquires.checks(subject)

    def read_certificate(self) -> None:
        """Takes the states that the certificate states."""
        self.states.stated = certificate.read(self.subject, self.stated or b"", self.certificate_base)

    def failures(self) -> Iterator[Failure]:
        """The first failure, and then those of other functions, each with its own first. Where one is about what functions stand
        on, no phase after it is tried."""
        broken: Set[Optional[int]] = set()
        for phase in self.phases():
            for check in phase:
                if check.function in broken:
                    continue
                try:
                    check.run()
                except Fails as fails:
                    broken.add(check.function)
                    yield fails.failure
            if None in broken or broken and self.stated is not None:
                return

    def first(self) -> Optional[Failure]:
        """The first failure, or None."""
        return next(self.failures(), None)


def explain_module(data: bytes, stated: Optional[bytes] = None, base: int = 0, certificate_base: int = 0,
                   source: Optional[ModuleNames] = None) -> Verdict:
    """The first phase of 1 to 12 that refuses a module with a certificate's bytes, or without one by the least states. `base`
    and `certificate_base` are where they begin in their files, `source` are the names of the module's text."""
    trial = Trial(data, stated, base, certificate_base, source)
    failure = trial.first()
    return Verdict(trial.subject, failure, trial.states.least() if failure is None and stated is None else None)


def check_sizes(subject: Subject, data: bytes, stated: Optional[bytes]) -> None:
    """Phase 1, as far as it is about a module and its certificate."""
    for what, found, most in (("a module", data, TABLE_BYTES), ("a certificate", stated or b"", CERTIFICATE_BYTES)):
        if len(found) > most:
            subject.fail(1, Place(what), f"{what} has at most {most:,} bytes", f"it has {len(found):,}")


def check_text(subject: Subject) -> None:
    """Phase 2: the first place where the bytes aren't those of a module."""
    faults = subject.reading.faults
    if faults:
        offset, why = faults[0]
        subject.fail(2, place_of(subject, offset), "", f"not a module's encoding: {why}")


def place_of(subject: Subject, offset: int) -> Place:
    """An offset, with the table's entry in which it is."""
    where, at = subject.offset(offset), subject.base + offset
    for header in subject.reading.headers:
        starts = subject.reading.offsets.get(header.kind)
        if starts and header.start <= offset < header.start + header.length:
            place = sum(start <= offset for start in starts) - 1
            return Place(f"{where}, {ENTRY_WORDS[header.kind]} {place}", at, header.kind, place)
    return Place(where, at)
