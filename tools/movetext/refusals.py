"""A module's refusal as an error of its text: at the word that it is about, in an author's words."""

from typing import Any, Dict, List, NamedTuple, Optional, Tuple

from . import syntax
from .errors import Note, Source, TextError, wrapped
from .explain.failures import Failure, Spot
from .explain.pages import rule_said

# What an entry of a function's or a struct's parts is called in a tree.
Place = Tuple[Source, int]


class Written(NamedTuple):
    """A module that a text has: the text, the tree, and by the kind of each table the offsets of its entries."""

    source: Source
    tree: syntax.Module
    entries: Dict[int, List[int]]


def function_spot(function: syntax.Function, kind: str, place: int) -> int:
    """The offset of a word of a function."""
    locals_ = function.parameters + function.locals
    if kind in ("instruction", "operand") and place < len(function.code):
        line = function.code[place]
        at = getattr(line.operand, "path", line.operand) if kind == "operand" else line
        return int(getattr(at, "at", line.at))
    if kind in ("local", "local type") and place < len(locals_):
        return locals_[place].name.at if kind == "local" else locals_[place].type.at
    if kind == "result" and place < len(function.results):
        return function.results[place].at
    if kind == "acquires" and place < len(function.acquires):
        return function.acquires[place].at
    return function.name.at


def struct_spot(struct: syntax.Struct, kind: str, place: int) -> int:
    """The offset of a word of a struct."""
    if kind in ("field", "field type") and place < len(struct.fields):
        return struct.fields[place].name.at if kind == "field" else struct.fields[place].type.at
    return struct.name.at


FUNCTION_KINDS = ("function", "local", "local type", "result", "acquires", "instruction", "operand")
STRUCT_KINDS = ("struct", "field", "field type")
TABLES = {"struct handle": 0x02, "function handle": 0x03}


def offset_of(spot: Spot, written: Written, there: Optional[Written]) -> Optional[Place]:
    """The text and the offset of a word, or None where it is in no text. `there` is the module that is imported."""
    kind, owner = spot.kind, written
    if kind.startswith("there "):
        if there is None:
            return None
        kind, owner = kind[len("there "):], there
    parts: Dict[str, Any] = {**dict.fromkeys(FUNCTION_KINDS, owner.tree.functions), **dict.fromkeys(STRUCT_KINDS, owner.tree.structs)}
    if kind in TABLES:
        starts = owner.entries.get(TABLES[kind], [])
        return (owner.source, starts[spot.definition]) if spot.definition < len(starts) else None
    if spot.definition >= len(parts[kind]):
        return None
    part = parts[kind][spot.definition]
    at = function_spot(part, kind, spot.place) if kind in FUNCTION_KINDS else struct_spot(part, kind, spot.place)
    return owner.source, at


def refused(failure: Failure, written: Optional[Written], at: int, there: Optional[Written] = None) -> TextError:
    """A refusal as an error at the word that it is about, where that is in the module's text; otherwise at an offset, with the place
    in words."""
    advice, rule = failure.advice, rule_said(failure)
    if written is None:
        return TextError(at, f"this module is refused: {failure.named_verdict}", rule=rule,
                         state=[*wrapped(f"{failure.place.text}: {failure.sentence}"), *failure.state])
    place = written.source.offset(failure.source.line, failure.source.column) if failure.source else at
    if advice is None:
        return TextError(place, failure.sentence, rule=rule, state=failure.state)
    spot = offset_of(advice.spot, written, there)
    notes = []
    for one, said in advice.notes:
        found = offset_of(one, written, there)
        if found is not None:
            notes.append(Note(found[1], said, found[0]))
    state = failure.state if failure.phase == 8 else ()
    return TextError(spot[1] if spot else place, advice.fact, advice.help, rule, notes, state)
