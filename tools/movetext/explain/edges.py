"""Sets of edges between references, locals and stored values, found by the node that an edge leads to."""

from typing import Callable, Dict, Iterable, Iterator, List, NamedTuple, Optional, Tuple

from .. import model
from ..model import NODE_NAMES

# A reference at a place of the stack, beside the kinds of nodes that a certificate may name.
TEMP = len(NODE_NAMES)

Node = Tuple[int, int]
Label = Tuple[Tuple[int, ...], bool]
# Where an edge comes from, and its label.
Origin = Tuple[Node, Label]

EMPTY: Label = ((), False)


class Edge(NamedTuple):
    """An edge between nodes, which are pairs of a kind and an index, with its list of field positions, open or exact."""

    source: Node
    target: Node
    positions: Tuple[int, ...] = ()
    is_open: bool = False

    def stated(self) -> model.Edge:
        """The edge as a certificate has it."""
        return model.Edge(model.Node(*self.source), model.Node(*self.target), self.positions, self.is_open)

    def agrees_with(self, position: int) -> bool:
        return not self.positions or self.positions[0] == position


def edge_of(edge: model.Edge) -> Edge:
    """An edge of a certificate."""
    source, target = edge.source, edge.target
    return Edge((source.kind, source.index), (target.kind, target.index), tuple(edge.positions), edge.is_open)


class Origins:
    """The origins of a function's edges, each with a bit of its own, so that a number is a set of them."""

    def __init__(self) -> None:
        self.origins: List[Origin] = []
        self.bits: Dict[Origin, int] = {}
        self.leading_from: Dict[Node, int] = {}
        self.most_positions = 0
        self.extensions: Dict[Tuple[int, int], int] = {}

    def bit(self, origin: Origin) -> int:
        """The set that has an origin alone."""
        found = self.bits.get(origin)
        if found is None:
            found = self.bits[origin] = 1 << len(self.origins)
            self.origins.append(origin)
            self.leading_from[origin[0]] = self.leading_from.get(origin[0], 0) | found
            self.most_positions = max(self.most_positions, len(origin[1][0]))
        return found

    def members(self, some: int) -> Iterator[Origin]:
        """The origins of a set."""
        while some:
            lowest = some & -some
            yield self.origins[lowest.bit_length() - 1]
            some ^= lowest

    def mapped(self, some: int, change: Callable[[Origin], Origin]) -> int:
        """The set of what its members become."""
        found = 0
        for origin in self.members(some):
            found |= self.bit(change(origin))
        return found

    def extended(self, some: int, position: int) -> int:
        """Origins with their labels extended by a field position."""
        key = some, position
        if key not in self.extensions:
            self.extensions[key] = self.mapped(some, lambda origin: (origin[0], extended(origin[1], position)))
        return self.extensions[key]

    def opened(self, some: int) -> int:
        """Origins with their labels made open."""
        key = some, -1
        if key not in self.extensions:
            self.extensions[key] = self.mapped(some, lambda origin: (origin[0], (origin[1][0], True)))
        return self.extensions[key]

    def is_below(self, origin: Origin, others: int) -> bool:
        """Whether an origin is in a set, or one whose open label begins its own is."""
        source, (positions, _) = origin
        labels = [origin[1]] + [(positions[:size], True) for size in range(len(positions) + 1)]
        return any(self.bits.get((source, label), 0) & others for label in labels)


def extended(label: Label, position: int) -> Label:
    """A label extended by a field position."""
    positions, is_open = label
    return label if is_open else (positions + (position,), False)


class Edges:
    """A set of edges: by the node that they lead to, their origins."""

    __slots__ = ("table", "into")

    def __init__(self, table: Origins, into: Optional[Dict[Node, int]] = None):
        self.table = table
        self.into: Dict[Node, int] = into or {}

    def copy(self) -> "Edges":
        return Edges(self.table, dict(self.into))

    def add_all(self, edges: Iterable[Edge]) -> None:
        for edge in edges:
            self.add(edge.target, self.table.bit((edge.source, (edge.positions, edge.is_open))))

    def __iter__(self) -> Iterator[Edge]:
        for target, some in self.into.items():
            for source, label in self.table.members(some):
                yield Edge(source, target, *label)

    def __len__(self) -> int:
        return sum(bin(some).count("1") for some in self.into.values())

    def are_more_than(self, count: int) -> bool:
        """Whether there are more edges than so many."""
        return len(self.into) * len(self.table.origins) > count and len(self) > count

    def most_positions(self, enough: int) -> int:
        """The number of positions of the longest label, where it has more than `enough`; otherwise no more than these."""
        if self.table.most_positions <= enough:
            return enough
        every = 0
        for some in self.into.values():
            every |= some
        return max((len(label[0]) for _, label in self.table.members(every)), default=0)

    def leading_to(self, node: Node) -> int:
        """The origins of the edges that lead to a node."""
        return self.into.get(node, 0)

    def leading_from(self, node: Node) -> List[Edge]:
        """The edges that lead out of a node, in their order."""
        wanted = self.table.leading_from.get(node, 0)
        return [] if not wanted else sorted(
            Edge(node, target, *label) for target, some in self.into.items() if some & wanted
            for _, label in self.table.members(some & wanted))

    def set(self, node: Node, some: int) -> None:
        """Takes these origins, and no others, as those of the edges that lead to a node."""
        if some:
            self.into[node] = some
        else:
            self.into.pop(node, None)

    def add(self, node: Node, some: int) -> None:
        """Adds edges that lead to a node."""
        if some:
            self.into[node] = self.into.get(node, 0) | some

    def drop_from(self, node: Node) -> None:
        """Takes away the edges that lead out of a node."""
        found = self.table.leading_from.get(node, 0)
        if found:
            self.into = {target: some & ~found for target, some in self.into.items() if some & ~found}

    def drop(self, node: Node) -> None:
        """Takes away all edges at a node."""
        self.into.pop(node, None)
        if node in self.table.leading_from:
            self.drop_from(node)

    def rename(self, node: Node, new: Node) -> None:
        """A node becomes another, at which there is no edge."""
        some = self.into.pop(node, 0)
        if some:
            self.into[new] = some
        found = self.table.leading_from.get(node, 0)
        for target, some in self.into.items() if found else ():
            if some & found:
                self.into[target] = some & ~found | self.table.mapped(some & found, lambda origin: (new, origin[1]))

    def has_above(self, edge: Edge) -> bool:
        """Whether an edge is below one of these."""
        return self.table.is_below((edge.source, (edge.positions, edge.is_open)), self.leading_to(edge.target))

    def is_below(self, other: "Edges") -> bool:
        """Whether each of these edges is below one of the others."""
        there = other.into
        for target, some in self.into.items():
            others = there.get(target, 0)
            more = some & ~others
            if more and not all(self.table.is_below(origin, others) for origin in self.table.members(more)):
                return False
        return True

    def union(self, other: "Edges") -> "Edges":
        both = dict(self.into)
        for target, some in other.into.items():
            both[target] = both.get(target, 0) | some
        return Edges(self.table, both)
