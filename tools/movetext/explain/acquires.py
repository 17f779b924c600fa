"""Phase 12: the lists of the structs that functions acquire."""

from functools import partial
from typing import Iterator, List, Set

from .. import model
from ..model import KEY, known
from .failures import Advice, Check, Spot
from .subject import Subject

PHASE = 12
TAKING = ("MoveFrom", "MutBorrowGlobal", "ImmBorrowGlobal")


def checks(subject: Subject) -> Iterator[Check]:
    """What is checked, in its order."""
    for index, function in enumerate(subject.module.functions):
        yield Check(partial(check_list, subject, index, function), index)
        yield Check(partial(check_uses, subject, index, function), index)


def check_list(subject: Subject, index: int, function: model.FunctionDefinition) -> None:
    """Wants no struct twice in a list, and only such as have key."""
    for place, struct in enumerate(function.acquires):
        named, spot = subject.names.definitions[struct], Spot("acquires", index, place)
        if struct in function.acquires[:place]:
            subject.fail_entry(PHASE, model.FUNCTIONS, index, "a list names no struct twice", f"it names `{named}` twice",
                               Advice(f"`acquires` names `{named}` twice", "write it once", spot))
        if not known(subject.module.definition_handle(struct)).abilities & KEY:
            subject.fail_entry(PHASE, model.FUNCTIONS, index, "a list names only structs with key", f"`{named}` lacks key",
                               Advice(f"`{named}` lacks key, so that none is ever stored",
                                      f"take it out of the list, or give `{named}` the ability key", spot))


def acquired_by(subject: Subject, instruction: model.Instruction) -> List[int]:
    """The structs that an instruction makes its function acquire."""
    if instruction.name in TAKING:
        return [instruction.operand]
    callee = subject.definition_of.get(instruction.operand) if instruction.name == "Call" else None
    return [] if callee is None else subject.module.functions[callee].acquires


def check_uses(subject: Subject, index: int, function: model.FunctionDefinition) -> None:
    """Wants exactly the structs that the code names and that called functions list."""
    rule = ("a list names exactly those that its function's MoveFrom, MutBorrowGlobal and ImmBorrowGlobal name, together with "
            "the lists of the own module's functions that it calls")
    used = {struct for instruction in function.code for struct in acquired_by(subject, instruction)}
    for at, instruction in enumerate(function.code):
        for struct in acquired_by(subject, instruction):
            if struct not in function.acquires:
                subject.fail_at(PHASE, index, at, rule, f"the list lacks `{subject.names.definitions[struct]}`",
                                advice=lacking(subject, index, at, struct, used))
    for place, struct in enumerate(function.acquires):
        if struct not in used:
            named = subject.names.definitions[struct]
            subject.fail_entry(PHASE, model.FUNCTIONS, index, rule, f"it names `{named}`, and no instruction does",
                               Advice(f"no instruction of the function acquires `{named}`", f"take `{named}` out of the list"
                                      if len(function.acquires) > 1 else f"take `acquires {named}` out", Spot("acquires", index, place)))


def lacking(subject: Subject, index: int, at: int, struct: int, used: Set[int]) -> Advice:
    """What is said of a struct that a list lacks."""
    function, named = subject.module.functions[index], subject.names.definitions[struct]
    instruction, name = function.code[at], subject.module.function_name(function.handle)
    if instruction.name == "Call":
        fact = f"`{name}` calls `{subject.module.function_name(instruction.operand)}`, which acquires `{named}`, and doesn't say so"
    else:
        fact = f"`{name}` acquires `{named}` here, and doesn't say so"
    whole = [one for one in function.acquires if one in used] + sorted(used - set(function.acquires))
    names = ", ".join(subject.names.definitions[one] for one in whole)
    return Advice(fact, f"write `acquires {names}` in the head of `{name}`", Spot("operand", index, at),
                  ((Spot("function", index), f"the head of `{name}` is here"),))
