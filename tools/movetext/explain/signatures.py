"""Phase 5: types of fields, handles, constants and entry functions, and how many locals there are."""

from functools import partial
from typing import Iterator, Optional

from .. import model
from ..limits import LOCAL_COUNT, PARAMETER_COUNT, RESULT_COUNT
from ..model import LEAF_WIDTHS, SIGNER, known
from .failures import Advice, Check, Spot, a_type, counted
from .subject import Subject

PHASE = 5


def checks(subject: Subject) -> Iterator[Check]:
    """What is checked, in its order."""
    for index, definition in enumerate(subject.module.structs):
        yield Check(partial(check_struct, subject, index, definition))
    for index, handle in enumerate(subject.module.function_handles):
        yield Check(partial(check_handle, subject, index, handle), subject.definition_of.get(index))
    for index, constant in enumerate(subject.module.constants):
        yield Check(partial(check_constant, subject, index, constant))
    for index, function in enumerate(subject.module.functions):
        yield Check(partial(check_function, subject, index, function), index)


def check_struct(subject: Subject, index: int, definition: model.StructDefinition) -> None:
    for position, one in enumerate(definition.fields):
        if one.type.is_reference or one.type.kind == SIGNER:
            name = subject.module.identifier(one.name)
            what, help = ("a signer", f"store the address: `{name}: address`") if one.type.kind == SIGNER else (
                "a reference", f"store the value: `{name}: {subject.type(one.type.value_type)}`")
            subject.fail_entry(PHASE, model.STRUCTS, index, "no field is a reference or a signer",
                               f"`{name}` is of the type `{subject.type(one.type)}`",
                               Advice(f"the field `{name}` is {what}, which can't be stored", help,
                                      Spot("field type", index, position)))


def check_handle(subject: Subject, index: int, handle: model.FunctionHandle) -> None:
    signatures = subject.module.signatures
    limits = (("parameters", handle.parameters, PARAMETER_COUNT), ("results", handle.results, RESULT_COUNT))
    for what, signature, most in limits:
        count = len(signatures[signature])
        if count > most:
            subject.fail_entry(PHASE, model.FUNCTION_HANDLES, index, f"function handles have at most {most} {what}",
                               f"it has {count}", too_many(subject, index, what, count, most))


def too_many(subject: Subject, handle: int, what: str, count: int, most: int) -> Optional[Advice]:
    """What is said of more parameters or results than there may be; nothing of a function of another module."""
    function = subject.definition_of.get(handle)
    if function is None:
        return None
    name = subject.module.function_name(handle)
    return Advice(f"`{name}` has {count} {what}, more than {most}", "put some of them into a struct",
                  Spot("local type" if what == "parameters" else "result", function, most))


def check_constant(subject: Subject, index: int, constant: model.Constant) -> None:
    """Wants the bytes of a value of a leaf type."""
    if constant.value is not None:
        return
    rule = "a constant is a bool, a number or an address of exactly its length"
    kind, named = constant.type.kind, subject.type(constant.type)
    if kind not in LEAF_WIDTHS:
        found = f"its type is `{named}`"
    elif len(constant.data) != LEAF_WIDTHS[kind]:
        width = counted(LEAF_WIDTHS[kind], "byte")
        found = f"it has {counted(len(constant.data), 'byte')}, and a value of the type `{named}` has {width}"
    else:
        found = f"its byte is {constant.data[0]:02X}, and a bool is 00 or 01"
    subject.fail_entry(PHASE, model.CONSTANTS, index, rule, found)


def check_function(subject: Subject, index: int, function: model.FunctionDefinition) -> None:
    locals_ = len(known(subject.module.local_types(function)))
    if locals_ > LOCAL_COUNT:
        subject.fail_entry(PHASE, model.FUNCTIONS, index, f"functions have at most {LOCAL_COUNT} locals, parameters included",
                           f"it has {locals_}",
                           Advice(f"the function has {locals_} locals, more than {LOCAL_COUNT}",
                                  "use one local for several values, or move a part into another function",
                                  Spot("local", index, LOCAL_COUNT)))
    if function.is_entry:
        check_entry_function(subject, index, function)


def check_entry_function(subject: Subject, index: int, function: model.FunctionDefinition) -> None:
    """Wants what a run can call: no results, and parameters that it can give."""
    module = subject.module
    if module.results(function):
        subject.fail_entry(PHASE, model.FUNCTIONS, index, "an entry function has no results",
                           f"it has {counted(len(known(module.results(function))), 'result')}",
                           Advice(f"`{module.function_name(function.handle)}` is entry, and gives a result that no run takes",
                                  "take the result out, or take `entry` out: another function may call it then",
                                  Spot("result", index)))
    for place, one in enumerate(known(module.parameters(function))):
        if not is_given(one, place):
            rule = "an entry function's parameters are an optional first signer and then leaves that a caller can give"
            subject.fail_entry(PHASE, model.FUNCTIONS, index, rule, f"parameter {place} is of the type `{subject.type(one)}`",
                               not_given(subject, index, place, one))


def is_given(one: model.Token, place: int) -> bool:
    """Whether a run can give a parameter of a type, at a place."""
    return one.kind in LEAF_WIDTHS or place == 0 and one.kind == SIGNER


def not_given(subject: Subject, index: int, place: int, one: model.Token) -> Advice:
    """What is said of a parameter that no run can give."""
    name, type_, spot = subject.local(index, place), subject.type(one), Spot("local type", index, place)
    function = subject.module.function_name(subject.module.functions[index].handle)
    if one.kind == SIGNER:
        return Advice(f"the signer `{name}` isn't the first parameter of the entry function `{function}`",
                      f"write it first: `{function}({name}: signer, ..)`", spot)
    inner = subject.type(one.value_type)
    get = "ImmBorrowGlobal" if one.kind == model.REFERENCE else "MutBorrowGlobal" if one.is_mutable else "MoveFrom"
    how = f"take an address, and get it from the storage by `{get} {inner}`; or take `entry` out" \
        if one.value_type.kind == model.STRUCT else f"take the value: `{name}: {inner}`; or take `entry` out"
    return Advice(f"`{function}` is entry, and `{name}` is {a_type(type_)}, which no run can give", how, spot)
