"""Certificates from bytes, beside the module that they are of."""

from dataclasses import dataclass, field
from typing import List, Optional

from . import limits
from .cursor import Cursor, Fault, Stop
from .model import (AVAILABILITY_NAMES, GLOB, NODE_NAMES, OWN, SLOT, BlockState, Certificate, Edge, FunctionDefinition, Module,
                    Node, Signature)


@dataclass
class CertificateReading:
    """What was read of a certificate: states as far as they go, where each block's begins, and the faults found.

    There are no faults where the bytes are a certificate of the module; whether it marks the right blocks as reached is not
    asked. `offsets[function][block]` is where a block's state begins."""

    certificate: Certificate
    faults: List[Fault] = field(default_factory=list)
    offsets: List[List[int]] = field(default_factory=list)


def read_certificate(data: bytes, module: Module) -> CertificateReading:
    """What bytes are as a certificate of a module: a CertificateReading."""
    reading = CertificateReading(Certificate())
    cursor = Cursor(data, faults=reading.faults)
    try:
        for index, function in enumerate(module.functions):
            read_function_states(cursor, module, index, function, reading)
        if not cursor.is_at_end:
            cursor.fault(cursor.at, f"{cursor.left()} after the last block's state, where nothing follows")
    except Stop:
        pass
    return reading


def read_function_states(cursor: Cursor, module: Module, index: int, function: FunctionDefinition,
                         reading: CertificateReading) -> None:
    """The states of a function's blocks."""
    types = module.local_types(function)
    if types is None:
        cursor.stop(cursor.at, f"the locals of function definition {index} aren't known")
    states: List[Optional[BlockState]] = []
    offsets: List[int] = []
    reading.certificate.functions.append(states)
    reading.offsets.append(offsets)
    for _ in function.block_starts():
        offsets.append(cursor.at)
        states.append(read_state(cursor, module, types))


def read_state(cursor: Cursor, module: Module, types: Signature) -> Optional[BlockState]:
    """A block's state, or None where it's marked as not reached."""
    at = cursor.at
    mark = cursor.byte("the mark of a block")
    if mark == 0:
        return None
    if mark != 1:
        cursor.stop(at, f"the mark of a block is {mark:02X}; it is 00 or 01")
    state = BlockState()
    for _ in types:
        at = cursor.at
        availability = cursor.byte("a local's availability")
        if availability >= len(AVAILABILITY_NAMES):
            cursor.stop(at, f"the availability {availability:02X}; it is 00 Unavailable, 01 Available or 02 Maybe")
        state.availabilities.append(availability)
    for _ in range(cursor.number(limits.EDGE_COUNT, "the number of edges")):
        at = cursor.at
        edge = read_edge(cursor, module, types)
        if state.edges and not state.edges[-1] < edge:
            cursor.fault(at, "an edge isn't above the one before it; edges ascend strictly")
        state.edges.append(edge)
    return state


def read_edge(cursor: Cursor, module: Module, types: Signature) -> Edge:
    at = cursor.at
    source, target = read_node(cursor, module, types), read_node(cursor, module, types)
    if target.kind != SLOT:
        cursor.fault(at, f"an edge leads to {NODE_NAMES[target.kind]} {target.index}; an edge leads to a Slot")
    if source == target:
        cursor.fault(at, "an edge leads from a node to itself; it leads to another one")
    if source.kind == SLOT and source.index < len(types) and not types[source.index].is_mutable:
        cursor.fault(at, f"an edge leads from Slot {source.index}, an immutable reference; it leads from a mutable one, an Own or a "
                         "Glob")
    count = cursor.number(limits.POSITION_COUNT, "the number of an edge's positions")
    positions = tuple(cursor.number(limits.POSITION, "an edge's position") for _ in range(count))
    at = cursor.at
    mark = cursor.byte("whether an edge is open")
    if mark > 1:
        cursor.stop(at, f"an edge has the mark {mark:02X}; it is 00 exact or 01 open")
    return Edge(source, target, positions, mark == 1)


def read_node(cursor: Cursor, module: Module, types: Signature) -> Node:
    at = cursor.at
    kind = cursor.byte("the kind of a node")
    if kind >= len(NODE_NAMES):
        cursor.stop(at, f"a node of the kind {kind:02X}; it is 00 Slot, 01 Own or 02 Glob")
    index = cursor.index("the index of a node")
    if kind == GLOB:
        if index >= len(module.structs):
            cursor.fault(at, f"Glob {index}: the module has {len(module.structs)} struct definitions")
    elif index >= len(types):
        cursor.fault(at, f"{NODE_NAMES[kind]} {index}: the function has {len(types)} locals")
    elif types[index].is_reference != (kind == SLOT):
        wanted = NODE_NAMES[SLOT if types[index].is_reference else OWN]
        cursor.fault(at, f"{NODE_NAMES[kind]} {index}: the local's node is {wanted}")
    return Node(kind, index)
