"""What a certificate states of a block, in words: availabilities and edges by name."""

from typing import Callable, List, Optional, Sequence

from . import model
from .model import AVAILABILITY_NAMES, GLOB, NODE_NAMES, STRUCT, entry
from .naming import Names


def state_lines(names: Names, function: model.FunctionDefinition, locals_: Callable[[int], str],
                state: Optional[model.BlockState]) -> List[str]:
    """The lines that tell a block's state: each local's availability, then an edge a line.

    `locals_` gives the name of each local. An edge is written as the place that is borrowed from, a node and fields below
    it, an arrow, and the Slot that borrows; two dots behind the place say that the edge is open."""
    if state is None:
        return ["not reached"]
    known = [f"{locals_(index)} {AVAILABILITY_NAMES[availability]}" for index, availability in enumerate(state.availabilities)]
    lines = [", ".join(known) if known else "no locals"]
    types = names.module.local_types(function) or ()
    for edge in state.edges:
        lines.append(edge_text(names, types, locals_, edge))
    return lines


def node_text(names: Names, locals_: Callable[[int], str], node: model.Node) -> str:
    if node.kind == GLOB:
        return f"Glob {entry(names.definitions, node.index) or f'#{node.index}'}"
    return f"{NODE_NAMES[node.kind]} {locals_(node.index)}"


def edge_text(names: Names, types: Sequence[model.Token], locals_: Callable[[int], str], edge: model.Edge) -> str:
    place = node_text(names, locals_, edge.source) + path_text(names, types, edge)
    return f"{place}{'..' if edge.is_open else ''} -> {node_text(names, locals_, edge.target)}"


def path_text(names: Names, types: Sequence[model.Token], edge: model.Edge) -> str:
    """An edge's list of positions as fields' names; a position of a struct that isn't known stays a number."""
    definition: Optional[int] = edge.source.index
    if edge.source.kind != GLOB:
        token = entry(types, edge.source.index)
        definition = definition_of(names, token)
    text = ""
    for position in edge.positions:
        struct = entry(names.module.structs, definition)
        field = entry(struct.fields, position) if struct else None
        text += "." + (names.identifier(field.name) if field else str(position))
        definition = definition_of(names, field.type if field else None)
    return text


def definition_of(names: Names, token: Optional[model.Token]) -> Optional[int]:
    """The struct definition of a struct type, or of what a reference refers to; None where the module has none of it."""
    token = token.value_type if token else None
    return names.definition_places.get(token.struct) if token and token.kind == STRUCT else None
