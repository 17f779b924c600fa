"""Phase 4: entries that are equal, definitions, fields, and structs that contain themselves."""

from functools import partial
from typing import Dict, Hashable, Iterator, List, Sequence

from .. import model
from .chains import chain_back
from .failures import Advice, Check, Spot
from .subject import ENTRY_WORDS, Subject

PHASE = 4

# The tables that have no two equal entries, and their words.
DIFFERENT = {
    model.MODULE_HANDLES: "module handles", model.SIGNATURES: "signatures", model.CONSTANTS: "constants",
    model.IDENTIFIERS: "identifiers", model.ADDRESSES: "addresses", model.FIELD_HANDLES: "field handles",
}

# The tables of handles of which no two have one module and name, with the definitions of the own ones.
DEFINED = {model.STRUCT_HANDLES: ("struct handles", model.STRUCTS),
           model.FUNCTION_HANDLES: ("function handles", model.FUNCTIONS)}

ONCE = "each own handle is defined exactly once"


def checks(subject: Subject) -> Iterator[Check]:
    """What is checked, in its order."""
    for kind, words in DIFFERENT.items():
        yield Check(partial(check_different, subject, kind, subject.module.table(kind), f"no two equal {words}"))
    for kind, (words, _) in DEFINED.items():
        named = [(handle.module, handle.name) for handle in subject.module.table(kind)]
        yield Check(partial(check_different, subject, kind, named, f"no two {words} of one module and name"))
    for kind, (_, definitions) in DEFINED.items():
        yield Check(partial(check_definitions, subject, kind, definitions))
    for index, definition in enumerate(subject.module.structs):
        yield Check(partial(check_fields, subject, index, definition))
    yield Check(partial(check_cycles, subject))


def check_different(subject: Subject, kind: int, entries: Sequence[Hashable], rule: str) -> None:
    """Wants entries that differ."""
    seen: Dict[Hashable, int] = {}
    for index, one in enumerate(entries):
        if one in seen:
            subject.fail_entry(PHASE, kind, index, rule, f"{ENTRY_WORDS[kind]} {seen[one]} is the same")
        seen[one] = index


def check_definitions(subject: Subject, kind: int, definitions: int) -> None:
    """Wants each own handle of a kind defined once, and no other."""
    module = subject.module
    found: Dict[int, int] = {}
    for index, definition in enumerate(module.table(definitions)):
        handle = definition.handle
        if module.table(kind)[handle].module != module.own:
            where = subject.names.module_text(module.table(kind)[handle].module)
            subject.fail_entry(PHASE, definitions, index, "definitions use handles of the own module",
                               f"{ENTRY_WORDS[kind]} {handle} is of {where}")
        if handle in found:
            subject.fail_entry(PHASE, definitions, index, ONCE,
                               f"{ENTRY_WORDS[definitions]} {found[handle]} has {ENTRY_WORDS[kind]} {handle} too")
        found[handle] = index
    for handle, one in enumerate(module.table(kind)):
        if one.module == module.own and handle not in found:
            subject.fail_entry(PHASE, kind, handle, ONCE, "no definition has it")


def check_fields(subject: Subject, index: int, definition: model.StructDefinition) -> None:
    if not definition.fields:
        subject.fail_entry(PHASE, model.STRUCTS, index, "each struct has a field", "it has none",
                           Advice(f"`{subject.module.definition_name(index)}` has no field", "write one at least, as `is_set: bool`",
                                  Spot("struct", index)))
    names = [one.name for one in definition.fields]
    for position, name in enumerate(names):
        first = names.index(name)
        if first != position:
            subject.fail_entry(PHASE, model.STRUCTS, index, "field names of a struct differ",
                               f"fields {first} and {position} are both called `{subject.module.identifier(name)}`")


def held_structs(subject: Subject, index: int) -> List[int]:
    """The own struct definitions that a struct has as fields."""
    module = subject.module
    handles = [one.type.struct for one in module.structs[index].fields if one.type.kind == model.STRUCT]
    return [subject.names.definition_places[handle] for handle in handles if module.is_own_struct(handle)]


def check_cycles(subject: Subject) -> None:
    """Wants no struct that contains itself by a chain of fields."""
    chain = chain_back(range(len(subject.module.structs)), lambda struct: held_structs(subject, struct))
    if chain:
        names = ", which has a ".join(f"`{subject.module.definition_name(one)}`" for one in chain)
        subject.fail_entry(PHASE, model.STRUCTS, chain[0], "no struct contains itself by a chain of fields",
                           f"there is a {names}", contains_itself(subject, chain))


def contains_itself(subject: Subject, chain: Sequence[int]) -> Advice:
    """What is said of a struct that contains itself."""
    spots = []
    for struct, inner in zip(chain, chain[1:]):
        types = [subject.names.definition_places.get(one.type.struct) if one.type.kind == model.STRUCT else None
                 for one in subject.module.structs[struct].fields]
        spots.append(Spot("field type", struct, types.index(inner)))
    name = subject.module.definition_name(chain[0])
    notes = tuple((spot, f"`{subject.module.definition_name(chain[at])}` contains it here") for at, spot in enumerate(spots) if at)
    return Advice(f"`{name}` contains itself, so that it would have no end",
                  "keep an address in its place, and store the other value there", spots[0], notes)
