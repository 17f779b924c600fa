"""What moveasm warns of: it is allowed, and rarely meant."""

import re
from typing import Dict, List, Optional, Set, Tuple

from . import model, syntax
from .errors import Note, Source, TextError, Warned
from .explain.stack import made_by
from .explain.subject import Subject
from .explain.verdict import Trial
from .reader import read_module

# What a text says above a function, or on its line, that may be run by anybody.
ALLOWED = re.compile(r"//[^\n]*\bmoveasm: anyone\b")

# A parameter that an instruction takes a stored value by, and that instruction.
Takes = Dict[int, Tuple[int, int]]


def warnings(tree: syntax.Module, data: bytes, source: Source) -> List[TextError]:
    """Warns of each entry function by which anybody takes what is stored under any address: it has an address and no signer, and
    takes from the storage by it. There is no warning of a module that is refused, nor where the text says that it is meant."""
    subject = Subject(read_module(data))
    asked = [place for place, one in enumerate(tree.functions) if one.is_entry and is_asked(subject, place)]
    if not asked or Trial(data).first() is not None:
        return []
    taken = all_taken(subject)
    return [warning(subject, tree, place, min(taken[place].items())) for place in asked
            if taken[place] and not is_allowed(source, tree.functions[place])]


def is_asked(subject: Subject, place: int) -> bool:
    """Whether a function has an address and no signer."""
    types = model.known(subject.module.parameters(subject.module.functions[place]))
    return any(one.kind == model.ADDRESS for one in types) and not any(one.kind == model.SIGNER for one in types)


def is_allowed(source: Source, function: syntax.Function) -> bool:
    """Whether the text says of a function that anyone may run it: on the line of its head, or on lines of comments above it."""
    lines = source.text.split("\n")
    at = source.place(function.at)[0] - 1
    if ALLOWED.search(lines[at]):
        return True
    while at > 0 and lines[at - 1].strip().startswith("//"):
        at -= 1
        if ALLOWED.search(lines[at]):
            return True
    return False


def all_taken(subject: Subject) -> List[Takes]:
    """Of each function the parameters by which it takes from the storage, itself or by a function of the module that it calls, each
    with its struct and the instruction."""
    found: List[Takes] = [{} for _ in subject.module.functions]
    is_changed = True
    while is_changed:
        is_changed = False
        for place in range(len(found)):
            for parameter, told in taken_in(subject, place, found).items():
                if parameter not in found[place]:
                    found[place][parameter] = told
                    is_changed = True
    return found


def taken_in(subject: Subject, place: int, known: List[Takes]) -> Takes:
    """The parameters of a function by which it takes, as far as those of the functions that it calls are known."""
    function = subject.module.functions[place]
    count = len(model.known(subject.module.parameters(function)))
    found: Takes = {}
    for at, instruction in enumerate(function.code):
        for below, struct in addresses(subject, instruction, known).items():
            local = loaded(subject, place, made_by(subject, place, at, below))
            if local is not None and local < count:
                found.setdefault(local, (struct, at))
    return found


def addresses(subject: Subject, instruction: model.Instruction, known: List[Takes]) -> Dict[int, int]:
    """The operands of an instruction by which it takes from the storage, by how far they are below the top, each with its struct."""
    if instruction.name == "MoveFrom":
        return {0: instruction.operand}
    callee = subject.definition_of.get(instruction.operand) if instruction.name == "Call" else None
    if callee is None:
        return {}
    count = len(model.known(subject.module.parameters(subject.module.functions[callee])))
    return {count - 1 - parameter: struct for parameter, (struct, _) in known[callee].items()}


def loaded(subject: Subject, place: int, at: Optional[int], seen: Optional[Set[int]] = None) -> Optional[int]:
    """The local that an operand was loaded from, by the instruction that made it: a parameter where the local has its value."""
    code = subject.module.functions[place].code
    if at is None or code[at].name not in ("MoveLoc", "CopyLoc"):
        return None
    local, seen = code[at].operand, seen or set()
    stores = [store for store, one in enumerate(code) if one.name == "StLoc" and one.operand == local]
    if len(stores) == 1 and local not in seen:
        return loaded(subject, place, made_by(subject, place, stores[0], 0), seen | {local})
    return int(local)


def warning(subject: Subject, tree: syntax.Module, place: int, taken: Tuple[int, Tuple[int, int]]) -> TextError:
    parameter, (struct, at) = taken
    function, named = tree.functions[place], subject.names.definitions[struct]
    return Warned(
        function.parameters[parameter].name.at if parameter < len(function.parameters) else function.name.at,
        f"anybody can take any `{named}`: `{function_text(function)}` is entry, and has an address and no signer",
        "take a signer too, and test that the address is the signer's; or say that it is meant, by `// moveasm: anyone` above the function",
        "who may do it, docs/AUTHORS.md#who-may-do-it", [Note(function.code[at].at, f"the `{named}` is taken here")])


def function_text(function: syntax.Function) -> str:
    return function.name.text if isinstance(function.name, syntax.Name) else f"#{function.name.number}"
