"""Why a call didn't do what it was asked for."""

from typing import TYPE_CHECKING

if TYPE_CHECKING:
    from .report import Report

# What each reason against a saved ledger says, from 1 on.
REASONS = (
    "no mark, number of runs and list of modules",
    "a module or its certificate is refused",
    "the modules don't link",
    "what follows the modules isn't the ledger's",
    "the counts don't agree with what is stored",
)


class LedgerError(Exception):
    """Why a call didn't do what it was asked for."""


class NoLibrary(LedgerError):
    """There is no shared library to be loaded."""


class Refused(LedgerError):
    """A module or its certificate is refused: `phase` is the first of 14 that fails."""

    def __init__(self, phase: int) -> None:
        super().__init__(f"the module is refused in phase {phase}")
        self.phase = phase


class LoadRefused(LedgerError):
    """The bytes aren't a saved ledger's: `reason` is the first of 5 against them."""

    def __init__(self, reason: int) -> None:
        said = REASONS[reason - 1] if 1 <= reason <= len(REASONS) else "another reason"
        super().__init__(f"the saved ledger is refused, reason {reason}: {said}")
        self.reason = reason


class TooComplex(LedgerError):
    """The search for a certificate of the module reached its limits."""

    def __init__(self) -> None:
        super().__init__("the module is too complex for a certificate")


class TooLong(LedgerError):
    """The search for a certificate of the module took the steps that it was given."""

    def __init__(self) -> None:
        super().__init__("the search for a certificate took the steps that it was given")


class NoBlock(LedgerError):
    """No block of the ledger is open, or that which was asked isn't. Nothing has changed."""


class OutOfMemory(LedgerError, MemoryError):
    """There was no memory for an answer. Nothing has changed."""


class Unfinished(OutOfMemory):
    """Memory ran out while records were answered. The ledger is as those up to its `answered` left it, and `report` has all their lines; behind
    these it may have a beginning of the lines of a show or an audit that comes next. A block that is open takes back what they changed."""

    def __init__(self, report: "Report") -> None:
        super().__init__("memory ran out while records were answered")
        self.report = report
