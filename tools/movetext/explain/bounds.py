"""Phase 3: every index is below the length of its table."""

from functools import partial
from typing import Iterator, Tuple

from .. import model, opcodes
from .failures import Advice, Check, Place, Spot, counted
from .subject import ENTRY_WORDS, Subject

PHASE = 3

# Of each kind of table what its entries hold as an index: the word, the attribute, and the table that it is an index of.
ROWS = {
    model.MODULE_HANDLES: (("address", "address", model.ADDRESSES), ("name", "name", model.IDENTIFIERS)),
    model.STRUCT_HANDLES: (("module", "module", model.MODULE_HANDLES), ("name", "name", model.IDENTIFIERS)),
    model.FUNCTION_HANDLES: (
        ("module", "module", model.MODULE_HANDLES), ("name", "name", model.IDENTIFIERS),
        ("signature of parameters", "parameters", model.SIGNATURES), ("signature of results", "results", model.SIGNATURES)),
    model.STRUCTS: (("handle", "handle", model.STRUCT_HANDLES),),
    model.FUNCTIONS: (("handle", "handle", model.FUNCTION_HANDLES), ("signature of locals", "locals", model.SIGNATURES)),
    model.FIELD_HANDLES: (("struct", "struct", model.STRUCTS),),
}

# What an immediate is an index of.
OPERANDS = {
    opcodes.FUNCTION: model.FUNCTION_HANDLES, opcodes.STRUCT: model.STRUCTS, opcodes.FIELD: model.FIELD_HANDLES,
    opcodes.CONSTANT: model.CONSTANTS,
}

EVERY_INDEX = "every index is below the length of its table"


def checks(subject: Subject) -> Iterator[Check]:
    """What is checked, in its order: tables, types, acquires lists and code."""
    yield Check(partial(check_entries, subject))
    yield Check(partial(check_types, subject))
    yield Check(partial(check_positions, subject))
    for index, function in enumerate(subject.module.functions):
        yield Check(partial(check_function, subject, index, function))
    yield Check(partial(check_own, subject))


def check_own(subject: Subject) -> None:
    """Wants the module's own handle to be there."""
    if subject.module.own >= len(subject.module.module_handles):
        where, at = "the own module handle", subject.reading.own_at
        place = Place(where) if at is None else Place(f"{where}, {subject.offset(at)}", subject.base + at)
        found = too_great(subject, model.MODULE_HANDLES, subject.module.own)
        subject.fail(PHASE, place, "the own handle is there", f"it is {found}")


def too_great(subject: Subject, kind: int, index: int) -> str:
    """An entry that isn't there, and how many are."""
    count = len(subject.module.table(kind))
    return f"{ENTRY_WORDS[kind]} {index}, and the table has {counted(count, 'entry', 'entries')}"


def check_index(subject: Subject, where: Tuple[int, int], what: str, kind: int, index: int) -> None:
    """Wants an index below the length of its table. `where` is the kind and the index of the entry that has it."""
    if index >= len(subject.module.table(kind)):
        subject.fail_entry(PHASE, *where, EVERY_INDEX, f"{what} is {too_great(subject, kind, index)}")


def check_entries(subject: Subject) -> None:
    for kind, row in ROWS.items():
        for place, one in enumerate(subject.module.table(kind)):
            for what, attribute, table in row:
                check_index(subject, (kind, place), f"its {what}", table, getattr(one, attribute))


def check_types(subject: Subject) -> None:
    """The struct handles that types name, and the names of fields."""
    module = subject.module
    for place, types in enumerate(module.signatures):
        for one in types:
            check_type(subject, (model.SIGNATURES, place), "a type", one)
    for place, constant in enumerate(module.constants):
        check_type(subject, (model.CONSTANTS, place), "its type", constant.type)
    for place, definition in enumerate(module.structs):
        for position, field in enumerate(definition.fields):
            where = (model.STRUCTS, place)
            check_index(subject, where, f"the name of field {position}", model.IDENTIFIERS, field.name)
            check_type(subject, where, f"the type of field {position}", field.type)


def check_type(subject: Subject, where: Tuple[int, int], what: str, token: model.Token) -> None:
    inner = token.value_type
    if inner.kind == model.STRUCT:
        check_index(subject, where, f"what {what} names", model.STRUCT_HANDLES, inner.struct)


def check_positions(subject: Subject) -> None:
    for place, handle in enumerate(subject.module.field_handles):
        count = len(subject.module.structs[handle.struct].fields)
        if handle.position >= count:
            subject.fail_entry(PHASE, model.FIELD_HANDLES, place, "field positions are below the struct's number of fields",
                               f"it is {handle.position}, and the struct has {counted(count, 'field')}")


def check_function(subject: Subject, index: int, function: model.FunctionDefinition) -> None:
    """A function's acquires list and code."""
    for one in function.acquires:
        check_index(subject, (model.FUNCTIONS, index), "an entry of its acquires list", model.STRUCTS, one)
    locals_ = len(model.known(subject.module.local_types(function)))
    for at, instruction in enumerate(function.code):
        kind, operand = instruction.opcode.operand, instruction.operand
        if kind == opcodes.LOCAL and operand >= locals_:
            subject.fail_at(PHASE, index, at, "local indices are below the number of locals (parameters included)",
                            f"it is {operand}, and the function has {counted(locals_, 'local')}",
                            advice=missing(index, at, "local", operand, locals_))
        elif kind == opcodes.TARGET and operand >= len(function.code):
            subject.fail_at(PHASE, index, at, "branch targets are below the number of instructions",
                            f"it is {operand}, and the function has {counted(len(function.code), 'instruction')}",
                            advice=missing(index, at, "instruction", operand, len(function.code)))
        elif kind in OPERANDS and operand >= len(subject.module.table(OPERANDS[kind])):
            subject.fail_at(PHASE, index, at, EVERY_INDEX, f"it is {too_great(subject, OPERANDS[kind], operand)}")


def missing(function: int, at: int, what: str, number: int, count: int) -> Advice:
    """What is said of a local or a target that isn't there."""
    return Advice(f"there is no {what} {number}: the function has {count}", f"they count from 0; a name is safer: write the {what}'s "
                  f"{'label' if what == 'instruction' else 'name'}", Spot("operand", function, at))
