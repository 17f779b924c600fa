"""What goes wrong beside a log, and what is said of it."""

from typing import List


class LogError(Exception):
    """The log answers what it can't have answered, or says that it can't do what was asked."""


class NoLog(LogError):
    """The log says nothing of a ledger."""


class Unreachable(LogError):
    """No node of the log answered for as long as was waited. What was asked may be done yet."""


class Denied(LogError):
    """The log doesn't let this user do what was asked, or doesn't take it for who it says it is."""


class OtherProtocol(LogError):
    """The log goes by newer rules than this code knows: nothing may be written."""


class OtherRecord(LogError):
    """The id of what is to be put stands in the log already, for another record."""


class Full(LogError):
    """The log has no room left: etcd puts nothing any more."""


class Refused(LogError):
    """The log isn't given what was offered: a submitter's quota or the log's room would be exceeded."""


class Unfit(Refused):
    """What is offered may not be put, however often it's tried: it is beyond a limit, or its id is so old that its record may have been put
    and cleared."""


class RulesChanged(Exception):
    """What the log says of itself isn't what a replica has answered by."""


class GoesBack(Exception):
    """What a replica has answered from a record on doesn't hold any more."""

    def __init__(self, number: int, why: str) -> None:
        super().__init__(why)
        self.number = number


class NotWhole(Exception):
    """Why bytes aren't one whole record, or aren't put into the log."""


class NeedsPerson(Exception):
    """Why a replica stops until a person has looked."""


class Differs(NeedsPerson):
    """A majority of replicas has voted for something else than this one made."""


class OtherHistory(NeedsPerson):
    """The log isn't the one that the ledger was made of, or is behind it."""


class Behind(OtherHistory):
    """What is asked for was cleared: a newer save is needed."""


class ProgramEnded(Exception):
    """The program ended while answers were awaited. The status is below 0 where a signal ended it."""

    def __init__(self, status: int, words: str) -> None:
        super().__init__(f"the program ended with the status {status}" + (f": {words}" if words else ""))
        self.status = status
        self.words = words
        # The lines of the records that it has answered before, of those that it was given last.
        self.made: List[bytes] = []
