"""Flows over the blocks of a function: whether a stated one is closed, and the least one that is."""

from typing import Any, List, NamedTuple, Optional, Sequence, Union

from ..limits import VISIT_COUNT
from .subject import Block

# A domain of states has `start`, `copy`, `is_below`, `join`, `too_large` and `step`, as `Locals` and `Borrows` have. What a
# state is, only the domain knows.
Domain = Any
State = Any


class Need(Exception):
    """Raised by a domain where an instruction's need isn't met: the rule, what was found, and the local or the edge that it is
    about."""

    def __init__(self, rule: str, found: str, about: Any):
        super().__init__(f"{rule}, but {found}")
        self.rule, self.found, self.about = rule, found, about


class Broken(NamedTuple):
    """Why there is no closed flow: the block, the instruction where a need fails, the state there, and the need. `to` is the
    next block where the state isn't below the one that is stated for it. There is no block where the first state fails."""

    block: Optional[int]
    at: int
    state: State
    need: Optional[Need] = None
    to: Optional[int] = None


class Gives(NamedTuple):
    """Why the search for the least states gives up: the block, the state that it would begin with, and what is said of it."""

    block: int
    state: State
    why: str


def through(domain: Domain, graph: Sequence[Block], block: int, state: State) -> State:
    """The state behind a block, from the one before it; Broken where a need fails on the way."""
    state = domain.copy(state)
    for at in range(graph[block].first, graph[block].last + 1):
        try:
            domain.step(state, at)
        except Need as need:
            return Broken(block, at, state, need)
    return state


def first_break(domain: Domain, graph: Sequence[Block], stated: Sequence[State]) -> Optional[Broken]:
    """Why stated states aren't a closed flow, or None."""
    if not domain.is_below(domain.start(), stated[0]):
        return Broken(None, graph[0].first, domain.start(), None, 0)
    for block, one in enumerate(graph):
        if not one.is_reached:
            continue
        state = through(domain, graph, block, stated[block])
        if isinstance(state, Broken):
            return state
        for to in one.successors:
            if not domain.is_below(state, stated[to]):
                return Broken(block, one.last, state, None, to)
    return None


def least_states(domain: Domain, graph: Sequence[Block]) -> Union[List[State], Broken, Gives]:
    """The least states of a closed flow, None for each block that isn't reached; Broken or Gives where there are none."""
    states: List[State] = [None] * len(graph)
    visits = [0] * len(graph)
    states[0] = domain.start()
    waiting = {0}
    while waiting:
        block = min(waiting)
        waiting.remove(block)
        visits[block] += 1
        if visits[block] > VISIT_COUNT:
            return Gives(block, states[block], f"the block would be visited a {VISIT_COUNT + 1}th time")
        state = through(domain, graph, block, states[block])
        if isinstance(state, Broken):
            return state
        for to in graph[block].successors:
            if states[to] is not None and domain.is_below(state, states[to]):
                continue
            states[to] = domain.copy(state) if states[to] is None else domain.join(states[to], state)
            large = domain.too_large(states[to])
            if large:
                return Gives(to, states[to], large)
            waiting.add(to)
    return states
