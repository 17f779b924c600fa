"""Phase 6: a struct's abilities, which its fields have too."""

from functools import partial
from typing import Iterator, NoReturn

from .. import model
from ..model import ABILITIES, COPY, DROP, KEY, STORE
from .failures import Advice, Check, Spot, a_type
from .subject import Subject

PHASE = 6

# What an ability asks of each field.
ROWS = {COPY: COPY, DROP: DROP, STORE: STORE, KEY: STORE}
WORDS = dict(ABILITIES)


def checks(subject: Subject) -> Iterator[Check]:
    """What is checked, in its order."""
    for index in range(len(subject.module.structs)):
        yield Check(partial(check_struct, subject, index))


def check_struct(subject: Subject, index: int) -> None:
    """Wants the fields of a struct to have its abilities."""
    definition = subject.module.structs[index]
    has = subject.module.struct_handles[definition.handle].abilities
    for ability, wanted in ROWS.items():
        for position, one in enumerate(definition.fields) if has & ability else ():
            if not subject.abilities(one.type) & wanted:
                fail(subject, index, ability, position)


def fail(subject: Subject, index: int, ability: int, position: int) -> NoReturn:
    field = subject.module.structs[index].fields[position]
    rule = ("a struct with key has store in every field" if ability == KEY
            else f"a struct with {WORDS[ability]} has that ability in every field")
    lacks, type_, name = WORDS[ROWS[ability]], subject.type(field.type), subject.module.identifier(field.name)
    struct = subject.module.definition_name(index)
    own = subject.names.definition_places.get(field.type.struct) if field.type.kind == model.STRUCT else None
    give = f"give `{type_}` the ability {lacks}, or take {WORDS[ability]} from `{struct}`" if own is not None \
        else f"take {WORDS[ability]} from `{struct}`"
    notes = () if own is None else ((Spot("struct", own), f"`{type_}` is defined here"),)
    subject.fail_entry(PHASE, model.STRUCTS, index, rule, f"`{name}` is of the type `{type_}`, which lacks {lacks}",
                       Advice(f"`{struct}` has {WORDS[ability]}, and its field `{name}` is {a_type(type_)}, which lacks {lacks}", give,
                              Spot("field type", index, position), notes))
