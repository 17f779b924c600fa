"""What is said to an author of a local that has no value where it is used, or one that can't be dropped."""

from typing import Sequence, Tuple

from ..model import AVAILABLE, COPY, MAYBE
from .availability import READING, Locals
from .failures import Advice, Spot, a_type
from .history import changes

Notes = Tuple[Tuple[Spot, str], ...]


def of_local(domain: Locals, state: Sequence[int], at: int, local: int) -> Advice:
    """What is said of a local, before an instruction whose need isn't met."""
    if domain.code[at].name in READING:
        return of_use(domain, state, at, local)
    return of_loss(domain, state, at, local)


def of_use(domain: Locals, state: Sequence[int], at: int, local: int) -> Advice:
    """What is said of a local that is used without a value."""
    function, name = domain.function, domain.subject.local(domain.function, local)
    last, is_first = changes(domain.subject, function, at, local)
    moves, is_given = [one for one in last if domain.code[one].name == "MoveLoc"], domain.start()[local] == AVAILABLE or not is_first
    spot, declared = Spot("operand", function, at), (Spot("local", function, local), f"`{name}` is declared here, without a value")
    notes: Notes = tuple((Spot("instruction", function, one), move_said(name, one, at)) for one in moves)
    can_copy = domain.subject.abilities(domain.types[local]) & COPY
    copied = f"write `CopyLoc {name}` there: `MoveLoc` is for the last use" if can_copy and is_given else ""
    if state[local] == MAYBE:
        how = f"give `{name}` a value again before the next round, or leave the loop after it is moved" if any(
            one >= at for one in moves) else f"give `{name}` a value on every path that leads here, or use it before the paths part"
        return Advice(f"`{name}` has no value on one of the paths that lead here", copied or how, spot, notes or (declared,))
    if not moves:
        return Advice(f"`{name}` has no value yet", f"give it one before, by `StLoc {name}`", spot, (declared,))
    if not is_given:
        return Advice(f"`{name}` has no value here", f"give it one on every path that leads here, by `StLoc {name}`", spot,
                      (declared, *notes))
    how = f"{a_type(domain.subject.type(domain.types[local]))} can't be copied: borrow it there, by `ImmBorrowLoc {name}`, or use it once"
    return Advice(f"`{name}` has no value here: it was moved before", copied or how, spot, notes)


def move_said(name: str, move: int, at: int) -> str:
    return f"`{name}` was moved here" + (", in an earlier round of the loop" if move >= at else "")


def of_loss(domain: Locals, state: Sequence[int], at: int, local: int) -> Advice:
    """What is said of a local whose value can't be dropped, where it is overwritten or left behind."""
    function, name = domain.function, domain.subject.local(domain.function, local)
    type_ = domain.subject.type(domain.types[local])
    stores = [one for one in changes(domain.subject, function, at, local)[0] if domain.code[one].name == "StLoc"]
    notes: Notes = tuple((Spot("instruction", function, one), f"`{name}` gets it here") for one in stores[:1])
    notes = notes or ((Spot("local", function, local), f"`{name}` is a parameter, and holds one from the start"),)
    holds = "still holds" if state[local] == AVAILABLE else "may still hold"
    fact = f"`{name}` {holds} {a_type(type_)} here, which can't be dropped"
    if domain.code[at].name == "StLoc":
        return Advice(fact, "store, return or unpack it before another value takes its place", Spot("operand", function, at), notes)
    return Advice(fact, "store, return or unpack it on every path to Ret", Spot("instruction", function, at), notes)
