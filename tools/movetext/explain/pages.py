"""The names of the rules, and where docs/REFUSALS.md has each: a heading there for each name."""

import re
from typing import List, NamedTuple, Optional, Tuple

from .failures import Failure

PAGE = "docs/REFUSALS.md"
# Words that begin with a capital letter wherever they stand.
NAMES = ("CopyLoc", "MoveLoc", "StLoc")


class Rule(NamedTuple):
    """A rule: its phase, what the sentence of a failure begins with, and its name, which is the heading."""

    phase: Optional[int]
    sentence: str
    name: str

    @property
    def anchor(self) -> str:
        """The heading as a link has it."""
        return re.sub(r"[^\w -]", "", self.name.lower()).replace(" ", "-")


ROWS: List[Tuple[Optional[int], str, str]] = [
    (1, "", "Shapes of records"),
    (2, "", "Encoding of a module"),
    (3, "every index", "Indices"),
    (3, "local indices", "Indices of locals"),
    (3, "branch targets", "Branch targets"),
    (3, "field positions", "Field positions"),
    (3, "the own handle", "The module's own handle"),
    (4, "no two equal", "Equal entries"),
    (4, "no two struct handles|no two function handles", "Handles of one name"),
    (4, "definitions use", "Definitions of the module itself"),
    (4, "each own handle", "Defined once"),
    (4, "field names", "Names of fields"),
    (4, "each struct has a field", "A struct has a field"),
    (4, "no struct contains itself", "No struct contains itself"),
    (5, "no field is", "Types of fields"),
    (5, "function handles have at most", "Parameters and results"),
    (5, "functions have at most", "Locals of a function"),
    (5, "a constant is", "Constants"),
    (5, "an entry function has no results", "Results of entry functions"),
    (5, "an entry function's parameters", "Parameters of entry functions"),
    (6, "", "Abilities of fields"),
    (7, "each function has", "A function has an instruction"),
    (7, "a function's last", "The last instruction"),
    (8, "in every block", "The stack at a block's end"),
    (8, "nothing else", "The stack at Ret"),
    (8, "the stack never", "The height of the stack"),
    (8, "each instruction finds the types", "Types on the stack"),
    (8, "each instruction finds the abilities", "Abilities on the stack"),
    (9, "", "The shape of a certificate"),
    (10, "the state that is stated", "The first state"),
    (10, "where a local is read", "Locals that are used"),
    (10, "where a local is overwritten", "Locals that are overwritten"),
    (10, "where a local is left", "Locals that are left behind"),
    (10, "where a block ends", "Locals at a block's end"),
    (11, "the state that is stated", "The first state"),
    (11, "CopyLoc of a value", "CopyLoc of a value"),
    (11, "CopyLoc of a mutable", "CopyLoc of a mutable reference"),
    (11, "MoveLoc", "MoveLoc of a value"),
    (11, "StLoc", "StLoc of a value"),
    (11, "(?:Mut|Imm)BorrowLoc", "Borrows of a local"),
    (11, "(?:Mut|Imm)BorrowField", "Borrows of a field"),
    (11, "ReadRef|WriteRef|FreezeRef", "Uses of a reference"),
    (11, "(?:Mut|Imm)BorrowGlobal|MoveFrom", "Borrows of a stored value"),
    (11, "Call with", "Mutable arguments"),
    (11, "Call of", "Calls that acquire"),
    (11, "Ret", "References that are returned"),
    (11, "where a block ends", "Edges at a block's end"),
    (None, "", "Too complex"),
    (12, "a list names no struct twice", "No struct twice"),
    (12, "a list names only", "Acquired structs have key"),
    (12, "a list names exactly", "What a function acquires"),
    (13, "rule a", "The sender's modules"),
    (13, "rule b", "Modules of one name"),
    (13, "rule c", "Imported modules"),
    (13, "rule d", "Imported structs"),
    (13, "rule e, each function handle names a function that is defined there, but", "Imported functions"),
    (13, "rule e, .*same types", "Types of imported functions"),
    (13, "rule e, .*public one", "Imported functions are public"),
    (13, "rule f", "No module depends on itself"),
    (13, "rule g, each struct nests", "How deep a struct nests"),
    (13, "rule g, each struct has", "Leaf values of a struct"),
    (13, "rule h, .*struct definitions", "Structs of a new version"),
    (13, "rule h, .*public functions", "Functions of a new version"),
    (14, "", "Room for modules"),
]
RULES = [Rule(*row) for row in ROWS]


def rule_of(failure: Failure) -> Rule:
    """The rule that a failure is about."""
    return next(one for one in RULES if one.phase == failure.phase and re.match(one.sentence, failure.sentence))


def rule_said(failure: Failure) -> str:
    """The rule with its phase and its place, as a message has it."""
    rule = rule_of(failure)
    front = f"phase {rule.phase}, " if rule.phase else ""
    name = rule.name if rule.name.startswith(NAMES) else rule.name[0].lower() + rule.name[1:]
    return f"{front}{name}, {PAGE}#{rule.anchor}"
