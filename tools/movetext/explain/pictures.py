"""Pictures of a function in the language of Graphviz: its flow graph with what is stated of each block, and the borrow graph
before an instruction."""

from typing import Iterable, List, NamedTuple, Optional, Sequence, Tuple, Union

from .. import model
from ..model import SLOT, UNAVAILABLE
from ..states import path_text
from . import abilities, bounds, certificate, control, definitions, signatures, stack
from .availability import Locals
from .borrows import Borrows
from .edges import TEMP, Edge, Edges, Node
from .failures import Fails, counted
from .flows import Broken, Gives, State, least_states, through
from .subject import Block, Subject


class NoPicture(Exception):
    """Why there is no picture."""


class Flows(NamedTuple):
    """The states of a function's blocks in both domains, None where there is none."""

    locals: List[State]
    edges: List[State]
    borrows: Borrows
    availability: Locals


def escaped(text: str) -> str:
    return text.replace("\\", "\\\\").replace('"', '\\"')


def label(lines: Iterable[str]) -> str:
    """Lines as a label, each from the left."""
    return '"' + "".join(escaped(line) + "\\l" for line in lines) + '"'


def function_named(subject: Subject, name: str) -> int:
    """The function of a name, or of a number behind `#`. NoPicture where there is none."""
    names = [subject.module.function_name(one.handle) for one in subject.module.functions]
    if name.startswith("#") and name[1:].isdigit() and int(name[1:]) < len(names):
        return int(name[1:])
    if name not in names:
        raise NoPicture(f"no function `{name}`: there is {', '.join(f'`{one}`' for one in names) or 'none'}")
    return names.index(name)


def flows_of(subject: Subject, function: int, stated: Optional[bytes]) -> Flows:
    """The states of a function's blocks: those of a certificate, or the least ones. Those that can't be had are left out.
    NoPicture where the module isn't one of phases 2 to 8."""
    if subject.reading.faults:
        fault = subject.reading.faults[0]
        raise NoPicture(f"not a module's encoding: offset {fault.offset}: {fault.reason}")
    try:
        for phase in (bounds, definitions, signatures, abilities, control, stack):
            for check in phase.checks(subject):
                check.run()
        found = None if stated is None else certificate.read(subject, stated).functions[function]
    except Fails as fails:
        raise NoPicture(f"{fails.failure.named_verdict}, {fails.failure.place.text}: {fails.failure.sentence}") from None
    availability = Locals(subject, function)
    borrows = Borrows(subject, function, stack.stacks_of(subject, function))
    if found is not None:
        return Flows([one and availability.stated(one) for one in found], [one and borrows.stated(one) for one in found],
                     borrows, availability)
    graph = subject.graph(function)
    return Flows(states_or_none(availability, graph), states_or_none(borrows, graph), borrows, availability)


def states_or_none(domain: "Locals | Borrows", graph: Sequence[Block]) -> List[State]:
    """The least states of the blocks; None for each where there are none."""
    states = least_states(domain, graph)
    return [None] * len(graph) if isinstance(states, (Broken, Gives)) else states


def block_lines(subject: Subject, function: int, block: int, flows: Flows) -> List[str]:
    """What stands in a block's box: what is stated where it begins, and its instructions."""
    one = subject.graph(function)[block]
    named = subject.label(function, one.first)
    lines = [f"block {block}" + (f" {named}" if named else "") + ("" if one.is_reached else ", not reached")]
    if flows.locals[block] is not None:
        lines += flows.availability.state_lines(flows.locals[block])
    if flows.edges[block] is not None:
        lines += flows.borrows.state_lines(flows.edges[block])
    lines.append("")
    return lines + [f"{at:>3}  {subject.instruction_text(function, at)}" for at in range(one.first, one.last + 1)]


def flow_graph(subject: Subject, function: int, stated: Optional[bytes] = None) -> List[str]:
    """The flow graph of a function, with what a certificate, or the least states, say of each block."""
    flows = flows_of(subject, function, stated)
    code = subject.module.functions[function].code
    lines = [f'digraph "{escaped(subject.function_name(function))}" {{', '    node [shape=box, fontname="monospace"]',
             '    edge [fontname="monospace"]']
    for block, one in enumerate(subject.graph(function)):
        style = "" if one.is_reached else ", style=dashed"
        lines.append(f"    b{block} [label={label(block_lines(subject, function, block, flows))}{style}]")
    for block, one in enumerate(subject.graph(function)):
        for to in one.successors:
            is_jump = code[one.last].opcode.is_branch and subject.graph(function)[to].first == code[one.last].operand
            words = {"BrTrue": "true", "BrFalse": "false"}.get(code[one.last].name, "") if is_jump else ""
            lines.append(f"    b{block} -> b{to}" + (f' [label="{words}"]' if words else ""))
    return lines + ["}"]


def edges_before(subject: Subject, function: int, at: int, flows: Flows) -> Edges:
    """The edges before an instruction. NoPicture where none are known."""
    graph = subject.graph(function)
    block = next(index for index, one in enumerate(graph) if one.first <= at <= one.last)
    state = flows.edges[block]
    if not graph[block].is_reached:
        raise NoPicture(f"block {block} isn't reached")
    if state is None:
        return edges_of_broken(subject, function, at, flows)
    before = Block(graph[block].first, at - 1, [], True)
    found: Union[Edges, Broken] = through(flows.borrows, [before], 0, state)
    if isinstance(found, Broken):
        raise NoPicture(f"{subject.instruction(function, found.at).text}: {found.need}")
    return found


def edges_of_broken(subject: Subject, function: int, at: int, flows: Flows) -> Edges:
    """The edges before the instruction at which the search for the least states breaks off."""
    broken = least_states(flows.borrows, subject.graph(function))
    if isinstance(broken, Broken) and broken.at == at:
        edges: Edges = broken.state
        return edges
    where = f" but before instruction {broken.at}" if isinstance(broken, Broken) else ""
    raise NoPicture(f"the function has no least states, and none are known{where}")


def references_before(subject: Subject, function: int, at: int, flows: Flows) -> List[Node]:
    """The references that are there before an instruction: operands, and locals that hold one or may."""
    found = [(TEMP, place) for place, one in enumerate(flows.borrows.stacks[at]) if one.is_reference]
    state = availabilities_before(subject, function, at, flows)
    return found + [(SLOT, local) for local, one in enumerate(flows.borrows.types) if one.is_reference and state[local] != UNAVAILABLE]


def availabilities_before(subject: Subject, function: int, at: int, flows: Flows) -> List[int]:
    """Which locals hold a value before an instruction; none of them where that isn't known."""
    graph = subject.graph(function)
    block = next(index for index, one in enumerate(graph) if one.first <= at <= one.last)
    found: Union[List[int], Broken, None] = None
    if flows.locals[block] is not None:
        found = through(flows.availability, [Block(graph[block].first, at - 1, [], True)], 0, flows.locals[block])
    return [UNAVAILABLE] * len(flows.borrows.types) if found is None or isinstance(found, Broken) else found


def borrow_graph(subject: Subject, function: int, at: int, stated: Optional[bytes] = None) -> List[str]:
    """The borrow graph before an instruction of a function."""
    code = subject.module.functions[function].code
    if at >= len(code):
        raise NoPicture(f"the function has {counted(len(code), 'instruction')}, and none of the number {at}")
    flows = flows_of(subject, function, stated)
    edges, on_stack = edges_before(subject, function, at, flows), flows.borrows.stacks[at]
    nodes = sorted({node for edge in edges for node in (edge.source, edge.target)} | set(references_before(subject, function, at, flows)))
    title = f"{subject.function_name(function)}, before instruction {at} {subject.instruction_text(function, at)}"
    below = "" if len(edges) else "\\nno edges"
    lines = [f'digraph "{escaped(title)}" {{', f'    label="{escaped(title)}{below}"', '    fontname="monospace"', "    rankdir=LR",
             '    node [fontname="monospace"]', '    edge [fontname="monospace"]']
    for place, node in enumerate(nodes):
        lines.append(f"    n{place} [{node_attributes(flows.borrows, node, on_stack)}]")
    for edge in sorted(edges):
        text = edge_label(flows.borrows, edge, on_stack)
        lines.append(f"    n{nodes.index(edge.source)} -> n{nodes.index(edge.target)}" + (f' [label="{text}"]' if text else ""))
    return lines + ["}"]


def node_attributes(borrows: Borrows, node: Node, on_stack: Tuple[model.Token, ...]) -> str:
    """How a node is drawn: what is borrowed from as a box, a mutable reference with a thick line."""
    kind, index = node
    text = borrows.node_text(node)
    if kind not in (SLOT, TEMP):
        return f'label="{escaped(text)}", shape=box'
    token = (borrows.types if kind == SLOT else on_stack)[index]
    style = ", penwidth=2" if token.is_mutable else ""
    return f'label="{escaped(text)}: {escaped(borrows.subject.type(token))}"{style}'


def edge_label(borrows: Borrows, edge: Edge, on_stack: Tuple[model.Token, ...]) -> str:
    """An edge's list of fields, with two dots where it is open."""
    types = on_stack if edge.source[0] == TEMP else borrows.types
    path = path_text(borrows.subject.names, types, edge.stated())
    return escaped(path + (".." if edge.is_open else ""))
