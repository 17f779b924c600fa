"""Phases 9 to 11: a certificate's bytes, and the flows that it states; without one, the least flows."""

from bisect import bisect_right
from functools import partial
from typing import Callable, Dict, Iterator, List, NoReturn, Optional, Sequence, Tuple, Union

from .. import model
from ..certificates import read_certificate
from ..model import known
from .availability import Locals
from .borrows import Borrows
from .edges import Edges
from .failures import Advice, Check, Place
from .borrow_advice import of_edge
from .flows import Broken, Gives, State, first_break, least_states
from .local_advice import of_local
from .stack import stacks_of
from .subject import Subject

PHASE = 9

# So many lines are told of a state, and so many things that one has and the next block's hasn't.
MOST_LINES, MOST_EXCESS = 60, 8

OfFunction = Union[Locals, Borrows]


def read(subject: Subject, data: bytes, base: int = 0) -> model.Certificate:
    """The certificate that bytes are of a module that passed phase 8. Raises the first failure."""
    reading = read_certificate(data, subject.module)
    places = [(offset, function, block) for function, offsets in enumerate(reading.offsets)
              for block, offset in enumerate(offsets)]
    faults = [(fault.offset, fault.reason) for fault in reading.faults]
    for function, states in enumerate(reading.certificate.functions):
        for block, state in enumerate(states):
            is_reached = subject.graph(function)[block].is_reached
            if (state is not None) != is_reached:
                told = "the block is reached, and its mark is 00; it is 01" if is_reached \
                    else "the block isn't reached, and its mark is 01; it is 00"
                faults.append((reading.offsets[function][block], told))
    if faults:
        offset, why = min(faults)
        place = bisect_right(places, (offset, len(places), 0))
        where = Place(f"certificate, offset {base + offset}", base + offset)
        if place:
            of_block = subject.block(*places[place - 1][1:])
            where = of_block._replace(text=f"{where.text}, {of_block.text}", offset=where.offset)
        subject.fail(PHASE, where, "", f"not a certificate of this module's shape: {why}")
    return reading.certificate


class States:
    """The states of a module's functions: those that are stated, which are checked, or the least ones, which are found."""

    def __init__(self, subject: Subject, stated: Optional[model.Certificate] = None):
        self.subject, self.stated = subject, stated
        self.found: Tuple[Dict[int, Sequence[State]], Dict[int, Sequence[State]]] = ({}, {})

    def checks(self) -> Iterator[Iterator[Check]]:
        """What is checked of each function: first its availabilities, then its edges, of which the types on the stacks are found
        once."""
        functions = range(len(self.subject.module.functions))
        yield (Check(partial(self.check, 0, Locals, function), function) for function in functions)
        yield (Check(partial(self.check, 1, self.borrows, function), function) for function in functions)

    @staticmethod
    def borrows(subject: Subject, function: int) -> Borrows:
        return Borrows(subject, function, stacks_of(subject, function))

    def check(self, place: int, domain_of: Callable[[Subject, int], OfFunction], function: int) -> None:
        """Wants a closed flow: the stated one, or any."""
        domain, graph = domain_of(self.subject, function), self.subject.graph(function)
        if self.stated is not None:
            stated = [one and domain.stated(one) for one in self.stated.functions[function]]
            broken = first_break(domain, graph, stated) if graph else None
            if broken:
                not_closed(self.subject, domain, broken, stated)
            return
        states = least_states(domain, graph)
        if isinstance(states, Gives):
            given_up(self.subject, domain, states)
        if isinstance(states, Broken):
            not_closed(self.subject, domain, states)
        self.found[place][function] = states

    def least(self) -> model.Certificate:
        """The certificate that states the least states, once they were found."""
        availabilities, edges = self.found
        return model.Certificate([[stated_block(*both) for both in zip(availabilities[function], edges[function])]
                                  for function in range(len(self.subject.module.functions))])


def domains(subject: Subject) -> Iterator[Iterator[OfFunction]]:
    """For each of the two phases the domain of each function."""
    functions = range(len(subject.module.functions))
    yield (Locals(subject, function) for function in functions)
    yield (States.borrows(subject, function) for function in functions)


def stated_block(availabilities: Optional[List[int]], edges: Edges) -> Optional[model.BlockState]:
    """What a certificate states of a block, or None where it isn't reached."""
    if availabilities is None:
        return None
    return model.BlockState(availabilities, [
        one.stated() for one in sorted(edges)])


def not_closed(subject: Subject, domain: OfFunction, broken: Broken, stated: Sequence[State] = ()) -> NoReturn:
    """Raises the failure of a flow that isn't closed: a need that isn't met, or a state that isn't below the next block's."""
    function = domain.function
    if broken.need is not None:
        lines = ["the state before it:"] + indented(domain.state_lines(broken.state, broken.at))
        advice = advice_of(domain, broken) if subject.advises else None
        subject.fail(domain.phase, subject.instruction(function, broken.at), broken.need.rule, broken.need.found, lines, advice)
    there = stated[known(broken.to)]
    if broken.block is None:
        place = subject.block(function, 0)
        rule = "the state that is stated for the first block is above the state in which the function begins"
        lines = ["the state in which the function begins:"]
    else:
        place = subject.block(function, broken.block, is_end=True).and_text(f", going on to block {broken.to}")
        rule = "where a block ends, the state is below the one that is stated for each block that control may go on to"
        lines = ["the state where it ends:"]
    lines += indented(domain.state_lines(broken.state)) + [f"the state that is stated for block {broken.to}:"]
    lines += indented(domain.state_lines(there))
    excess = domain.excess(broken.state, there)
    told = "; ".join(excess[:MOST_EXCESS]) + (f"; and {len(excess) - MOST_EXCESS} more" if len(excess) > MOST_EXCESS else "")
    subject.fail(domain.phase, place, rule, told, lines)


def advice_of(domain: OfFunction, broken: Broken) -> Advice:
    """What is said of a need that isn't met."""
    about = known(broken.need).about
    if isinstance(domain, Locals):
        return of_local(domain, broken.state, broken.at, about)
    return of_edge(domain, broken.at, about)


def given_up(subject: Subject, domain: OfFunction, gives: Gives) -> NoReturn:
    """Raises the failure of the search for the least states, which gives up."""
    lines = ["the state with which it would begin:"] + indented(domain.state_lines(gives.state))
    place = subject.block(domain.function, gives.block)
    subject.fail(None, place, "", f"the search for the least states gives up: {gives.why}", lines)


def indented(lines: Sequence[str]) -> List[str]:
    """Lines of a state, behind blanks; no more than so many."""
    more = len(lines) - MOST_LINES
    return ["    " + line for line in lines[:MOST_LINES]] + ([f"    and {more} more"] if more > 0 else [])
