"""Where what holds before an instruction comes from: the last instructions before it that are of a kind, and those that made
edges."""

from typing import Callable, Dict, List, Optional, Set, Tuple

from .borrows import Borrows
from .edges import Edge, Edges, Node, Origin
from .flows import Need
from .subject import Block, Subject

# So many instructions are gone through in search of the one that made an edge.
MOST_TRACED = 100_000

# An edge by the node that it leads to and its origin.
Pair = Tuple[Node, Origin]


def latest(subject: Subject, function: int, at: int, is_it: Callable[[int], bool]) -> List[int]:
    """The last instructions before one that are of a kind, on each path that leads there."""
    graph = subject.graph(function)
    before: Dict[int, List[int]] = {}
    for number, one in enumerate(graph):
        for to in one.successors if one.is_reached else ():
            before.setdefault(to, []).append(number)
    here = next(number for number, one in enumerate(graph) if one.first <= at <= one.last)
    found: Set[int] = set()
    seen: Set[int] = set()
    waiting = [(here, at - 1)]
    while waiting:
        number, last = waiting.pop()
        hit = next((place for place in range(last, graph[number].first - 1, -1) if is_it(place)), None)
        if hit is not None:
            found.add(hit)
            continue
        for block in before.get(number, ()):
            if block not in seen:
                seen.add(block)
                waiting.append((block, graph[block].last))
    return sorted(found)


def changes(subject: Subject, function: int, at: int, local: int) -> Tuple[List[int], bool]:
    """The last instructions before one that give a local a value or take it away, on each path that leads there, and whether a path from
    the function's beginning has none."""
    code = subject.module.functions[function].code

    def is_change(place: int) -> bool:
        return code[place].name in ("MoveLoc", "StLoc") and code[place].operand == local
    first = latest(subject, function, at, lambda place: place == 0 or is_change(place))
    return latest(subject, function, at, is_change), at == 0 or 0 in first and not is_change(0)


def pairs(edges: Edges) -> Set[Pair]:
    return {(target, origin) for target, some in edges.into.items() for origin in edges.table.members(some)}


def maker(domain: Borrows, at: int, edge: Edge) -> Optional[int]:
    """The instruction that made an edge that is there before another one, or None where it isn't found."""
    graph = domain.subject.graph(domain.function)
    states: List[Optional[Tuple[Edges, Dict[Pair, int]]]] = [None] * len(graph)
    states[0] = domain.start(), {}
    waiting, left = {0}, MOST_TRACED
    while waiting and left > 0:
        number = min(waiting)
        waiting.remove(number)
        block = graph[number]
        left -= block.last - block.first + 1
        state = states[number]
        assert state is not None
        edges, made = traced(domain, block, state, at)
        if block.first <= at <= block.last:
            found = made.get((edge.target, (edge.source, (edge.positions, edge.is_open))))
            if found is not None:
                return found
        for to in block.successors:
            there = states[to]
            new = (edges.copy(), dict(made)) if there is None else (there[0].union(edges), {**made, **there[1]})
            if there is None or set(new[1]) != set(there[1]):
                states[to] = new
                waiting.add(to)
    return None


def traced(domain: Borrows, block: Block, state: Tuple[Edges, Dict[Pair, int]], until: int) -> Tuple[Edges, Dict[Pair, int]]:
    """The edges behind a block, or before the instruction `until` of it, and which instruction made each."""
    edges, made = state[0].copy(), dict(state[1])
    for at in range(block.first, block.last + 1):
        if at == until:
            break
        before = pairs(edges)
        try:
            domain.step(edges, at)
        except Need:
            break
        after = pairs(edges)
        made = {pair: made[pair] if pair in before and pair in made else made.get(renamed_back(domain, at, pair), at)
                for pair in after}
    return edges, made


def renamed_back(domain: Borrows, at: int, pair: Pair) -> Pair:
    """What an edge was before an instruction that only moves or copies a reference."""
    instruction, stack = domain.code[at], domain.stacks[at]
    (target, (source, label)) = pair
    if instruction.name == "StLoc":
        old, new = (3, len(stack) - 1), (0, instruction.operand)
    elif instruction.name in ("MoveLoc", "CopyLoc"):
        old, new = (0, instruction.operand), (3, len(stack))
    else:
        return pair
    if instruction.name == "CopyLoc":
        return (old if target == new and source != old else target), (source, label)
    return (old if target == new else target), (old if source == new else source, label)
