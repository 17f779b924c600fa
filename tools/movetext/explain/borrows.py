"""Phase 11: edges between references, locals and stored values."""

from typing import Callable, Dict, List, Optional, Sequence, Tuple

from .. import model
from ..model import GLOB, NODE_NAMES, OWN, SLOT, Token, known
from ..limits import EDGE_COUNT, POSITION_COUNT
from ..states import path_text
from .edges import EMPTY, TEMP, Edge, Edges, Node, Origins, edge_of
from .flows import Need
from .subject import Subject

Stack = Tuple[Token, ...]


class Borrows:
    """The domain of sets of edges of a function, at whose instructions the types on the stack are known."""

    phase = 11

    def __init__(self, subject: Subject, function: int, stacks: Sequence[Stack]):
        self.subject, self.function, self.stacks = subject, function, stacks
        self.module = subject.module
        self.code = self.module.functions[function].code
        self.types = known(self.module.local_types(self.module.functions[function]))
        self.are_references = [one.is_reference for one in self.types]
        self.are_mutable = [one.is_mutable for one in self.types]
        self.table = Origins()

    def start(self) -> Edges:
        """Where a function begins there is no edge."""
        return Edges(self.table)

    @staticmethod
    def copy(edges: Edges) -> Edges:
        return edges.copy()

    def stated(self, state: model.BlockState) -> Edges:
        """The part of a block's stated state that this domain is about."""
        edges = self.start()
        edges.add_all(map(edge_of, state.edges))
        return edges

    @staticmethod
    def is_below(one: Edges, other: Edges) -> bool:
        return one.is_below(other)

    @staticmethod
    def join(one: Edges, other: Edges) -> Edges:
        return one.union(other)

    @staticmethod
    def too_large(edges: Edges) -> Optional[str]:
        """Why a block can't begin with these edges, or None."""
        if edges.are_more_than(EDGE_COUNT):
            return f"the block would begin with {len(edges):,} edges, more than {EDGE_COUNT:,}"
        longest = edges.most_positions(POSITION_COUNT)
        if longest > POSITION_COUNT:
            return f"the block would begin with a label of {longest} positions, more than {POSITION_COUNT}"
        return None

    def step(self, edges: Edges, at: int) -> None:
        """Carries edges through an instruction. Need where what it needs isn't met; the edges are then as before."""
        instruction = self.code[at]
        rule = RULES.get(instruction.opcode.name)
        if rule:
            rule(self, edges, self.stacks[at], instruction.operand)

    def is_mutable(self, node: Node, stack: Stack) -> bool:
        kind, index = node
        return self.are_mutable[index] if kind == SLOT else kind == TEMP and stack[index].is_mutable

    def need_none(self, edges: Edges, stack: Stack, node: Node, needs: str, to_mutable: bool = False,
                  field: Optional[int] = None, field_name: str = "") -> None:
        """Wants no edge out of a node, or none to a mutable node, or none that agrees with a field."""
        for edge in edges.leading_from(node):
            if (not to_mutable or self.is_mutable(edge.target, stack)) and (field is None or edge.agrees_with(field)):
                rule = f"no edge leads from {self.node_text(node)}" + (" to a mutable reference" if to_mutable else "")
                rule += "" if field is None else f" that agrees with the field {field_name}"
                raise Need(f"{needs} needs that {rule}", f"there is {self.edge_text(edge, stack)}", edge)

    def node_text(self, node: Node) -> str:
        kind, index = node
        if kind == TEMP:
            return f"Temp {index}"
        return f"Glob {self.subject.names.definitions[index]}" if kind == GLOB \
            else f"{NODE_NAMES[kind]} {self.subject.local(self.function, index)}"

    def edge_text(self, edge: Edge, stack: Stack) -> str:
        """An edge as movedis prints those of a certificate."""
        types = stack if edge.source[0] == TEMP else self.types
        path = path_text(self.subject.names, types, edge.stated())
        return f"{self.node_text(edge.source)}{path}{'..' if edge.is_open else ''} -> {self.node_text(edge.target)}"

    def state_lines(self, edges: Edges, at: Optional[int] = None) -> List[str]:
        """Edges in words, and the references on the stack that they may name."""
        stack = () if at is None else self.stacks[at]
        temps = [f"Temp {place} is an operand of the type `{self.subject.type(one)}`"
                 for place, one in enumerate(stack) if one.is_reference]
        return [self.edge_text(edge, stack) for edge in sorted(edges)] + temps or ["no edges"]

    def excess(self, edges: Edges, stated: Edges) -> List[str]:
        """What edges have that isn't below stated ones."""
        return [f"{self.edge_text(edge, ())} is not below an edge there" for edge in sorted(edges) if not stated.has_above(edge)]


Rule = Callable[[Borrows, Edges, Stack, int], None]


def top(stack: Stack, below: int = 0) -> Node:
    return TEMP, len(stack) - 1 - below


def pop(_domain: Borrows, edges: Edges, stack: Stack, _operand: int) -> None:
    edges.drop(top(stack))


def move_to(_domain: Borrows, edges: Edges, stack: Stack, _operand: int) -> None:
    edges.drop(top(stack, 1))


def copy_local(domain: Borrows, edges: Edges, stack: Stack, local: int) -> None:
    if not domain.are_references[local]:
        domain.need_none(edges, stack, (OWN, local), "CopyLoc of a value", to_mutable=True)
        return
    new, slot = (TEMP, len(stack)), (SLOT, local)
    if domain.are_mutable[local]:
        domain.need_none(edges, stack, slot, "CopyLoc of a mutable reference")
    edges.set(new, edges.leading_to(slot))
    if domain.are_mutable[local]:
        edges.add(new, edges.table.bit((slot, EMPTY)))


def move_local(domain: Borrows, edges: Edges, stack: Stack, local: int) -> None:
    if domain.are_references[local]:
        edges.rename((SLOT, local), (TEMP, len(stack)))
    else:
        domain.need_none(edges, stack, (OWN, local), "MoveLoc of a value")


def store_local(domain: Borrows, edges: Edges, stack: Stack, local: int) -> None:
    if domain.are_references[local]:
        edges.drop((SLOT, local))
        edges.rename(top(stack), (SLOT, local))
    else:
        domain.need_none(edges, stack, (OWN, local), "StLoc of a value")


def borrow(kind: int, name: str, is_mutable: bool, place: int) -> Rule:
    """A borrow of a local or of a stored value: the reference is an operand at a place above those that stay."""
    def rule(domain: Borrows, edges: Edges, stack: Stack, operand: int) -> None:
        domain.need_none(edges, stack, (kind, operand), name, to_mutable=not is_mutable)
        edges.add((TEMP, len(stack) + place), edges.table.bit(((kind, operand), EMPTY)))
    return rule


def borrow_field(name: str, is_mutable: bool) -> Rule:
    """A borrow of a field, whose reference stands where the struct's did."""
    def rule(domain: Borrows, edges: Edges, stack: Stack, operand: int) -> None:
        it, position = top(stack), domain.module.field_handles[operand].position
        field = domain.subject.names.fields[operand]
        domain.need_none(edges, stack, it, name, to_mutable=not is_mutable, field=position, field_name=field)
        edges.drop_from(it)
        edges.set(it, edges.table.extended(edges.leading_to(it), position))
    return rule


def read_reference(domain: Borrows, edges: Edges, stack: Stack, _operand: int) -> None:
    domain.need_none(edges, stack, top(stack), "ReadRef", to_mutable=True)
    edges.drop(top(stack))


def write_reference(domain: Borrows, edges: Edges, stack: Stack, _operand: int) -> None:
    domain.need_none(edges, stack, top(stack), "WriteRef")
    edges.drop(top(stack))


def freeze(domain: Borrows, edges: Edges, stack: Stack, _operand: int) -> None:
    domain.need_none(edges, stack, top(stack), "FreezeRef", to_mutable=True)
    edges.drop_from(top(stack))


def move_from(domain: Borrows, edges: Edges, stack: Stack, struct: int) -> None:
    domain.need_none(edges, stack, (GLOB, struct), "MoveFrom")


def call(domain: Borrows, edges: Edges, stack: Stack, operand: int) -> None:
    """A call: its results have the edges of its arguments, opened."""
    module = domain.module
    handle = module.function_handles[operand]
    parameters, results = known(module.signature(handle.parameters)), known(module.signature(handle.results))
    base = len(stack) - len(parameters)
    arguments = [(TEMP, base + place) for place, one in enumerate(parameters) if one.is_reference]
    mutable = [node for node in arguments if stack[node[1]].is_mutable]
    for node in mutable:
        domain.need_none(edges, stack, node, "Call with a mutable argument")
    callee = domain.subject.definition_of.get(operand)
    for struct in module.functions[callee].acquires if callee is not None else ():
        domain.need_none(edges, stack, (GLOB, struct), f"Call of a function that acquires "
                         f"{domain.subject.names.definitions[struct]}")
    given = [((TEMP, base + place), edges.table.opened(edges.leading_to(node)))
             for place, one in enumerate(results) if one.is_reference for node in (mutable if one.is_mutable else arguments)]
    for node in arguments:
        edges.drop(node)
    for node, some in given:
        edges.add(node, some)


def leave(domain: Borrows, edges: Edges, stack: Stack, _operand: int) -> None:
    """Ret: no result refers to what ends with the frame, to a stored value, or to what a mutable result refers to."""
    for edge in sorted(edge for edge in edges if edge.target[0] == TEMP):
        if edge.source[0] in (OWN, GLOB):
            raise Need("Ret needs that no edge leads from an Own or a Glob to a result",
                       f"there is {domain.edge_text(edge, stack)}", edge)
        if edge.source[0] == TEMP and domain.is_mutable(edge.source, stack):
            raise Need("Ret needs that no edge leads from a mutable result to another result",
                       f"there is {domain.edge_text(edge, stack)}", edge)


# Of each instruction that needs something of edges, or changes them, its rule.
RULES: Dict[str, Rule] = {
    "Pop": pop, "MoveTo": move_to, "CopyLoc": copy_local, "MoveLoc": move_local, "StLoc": store_local,
    "MutBorrowLoc": borrow(OWN, "MutBorrowLoc", True, 0), "ImmBorrowLoc": borrow(OWN, "ImmBorrowLoc", False, 0),
    "MutBorrowGlobal": borrow(GLOB, "MutBorrowGlobal", True, -1), "ImmBorrowGlobal": borrow(GLOB, "ImmBorrowGlobal", False, -1),
    "MutBorrowField": borrow_field("MutBorrowField", True), "ImmBorrowField": borrow_field("ImmBorrowField", False),
    "ReadRef": read_reference, "WriteRef": write_reference, "FreezeRef": freeze, "MoveFrom": move_from, "Call": call,
    "Ret": leave,
}
