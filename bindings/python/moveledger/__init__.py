"""The ledger as a library: over the C calls of moveledger.h, of the same proved code as the program.

    import moveledger

    with moveledger.Ledger() as ledger:
        for line in ledger.apply(records):
            print(line)
        text = ledger.save()

docs/EMBEDDING.md says what is promised at this border. `moveledger.assemble` makes records of text where movetext is installed."""

from .errors import LedgerError, LoadRefused, NoBlock, NoLibrary, OutOfMemory, Refused, TooComplex, TooLong, Unfinished
from .ledger import Block, Change, ChangedModule, Ledger, Module, Record, check, first_record, migrate, prove
from .report import (Aborted, Count, End, Exhausted, Json, Line, Published, Refusal, Rejected, Report, Returned, Stored,
                     Unknown)
from .text import assemble

__version__ = "1.0.0"
__all__ = [
    "Aborted", "Block", "Change", "ChangedModule", "Count", "End", "Exhausted", "Json", "Ledger", "LedgerError", "Line", "LoadRefused", "Module", "NoBlock",
    "NoLibrary", "OutOfMemory", "Published", "Record", "Refusal", "Refused", "Rejected", "Report", "Returned", "Stored", "TooComplex", "TooLong", "Unfinished", "Unknown",
    "assemble", "check", "first_record", "migrate", "prove",
]
