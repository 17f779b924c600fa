"""What holds before each instruction of a module, as far as that is known, for the page on which one walks through it: the types on the
stack, which locals hold a value, and the edges. A module that is refused is gone through as far as that goes, with what is wrong."""

from heapq import nsmallest
from typing import Any, Callable, Dict, List, NamedTuple, Optional, Tuple, TypeVar

from . import model
from .explain import certificate, stack
from .explain.availability import Locals
from .explain.borrows import Borrows
from .explain.edges import TEMP, Edge, Edges
from .explain.failures import Failure, Fails
from .explain.flows import Gives, Need, least_states
from .explain.forgiving import Forgiving
from .explain.stack import Step
from .explain.subject import Block, Subject
from .states import path_text

# So many edges are shown before an instruction, and so many in all.
MOST_EDGES, MOST_IN_ALL = 48, 200_000
# The phase from which on the blocks of a module are known, and the one from which on its stacks are.
BLOCKS, STACKS = 8, 9


T = TypeVar("T")
# The kinds and the indices of an edge's nodes, and its fields; such edges, and how many there are.
PageEdge = Tuple[int, int, int, int, str]
Shown = Tuple[List[PageEdge], int]


class Before(NamedTuple):
    """What holds before an instruction, None where it isn't known: types on the stack, availabilities of locals, and edges with how
    many there are."""

    stack: Optional[List[str]]
    locals: Optional[List[int]]
    edges: Optional[List[PageEdge]]
    how_many: int = 0


class Walk(NamedTuple):
    """A function: its blocks, what holds before each instruction, and what is wrong at instructions. `why` says why something isn't
    known."""

    blocks: List[Block]
    before: List[Before]
    wrong: Dict[int, List[str]]
    why: str = ""


class Walker:
    """Goes through a module's functions. `phase` is the one that refuses it, or None."""

    def __init__(self, subject: Subject, failure: Optional[Failure], stated: Optional[bytes]):
        self.subject, self.failure = subject, failure
        phase = failure.phase if failure else None
        self.phase = 99 if phase is None else phase
        self.stated = self.certificate(stated)
        self.edges = 0

    def certificate(self, data: Optional[bytes]) -> Optional[model.Certificate]:
        """What a certificate states, where it can be read."""
        if data is None or self.phase < STACKS:
            return None
        try:
            return certificate.read(self.subject, data)
        except Fails:
            return None

    def walk(self, function: int) -> Walk:
        """A function."""
        code = self.subject.module.functions[function].code
        if self.phase < BLOCKS:
            return Walk(plain_blocks(self.subject.module.functions[function]), [Before(None, None, None)] * len(code),
                        self.failed_at(function), f"the module is refused in phase {self.phase}, before blocks and stacks are looked at")
        wrong = self.failed_at(function)
        stacks, is_whole = self.stacks(function)
        locals_ = self.availabilities(function, wrong)
        edges: List[Optional[Shown]] = self.edge_lists(function, wrong) if is_whole else [None] * len(code)
        before = []
        for types, held, (shown, count) in zip(stacks, locals_, (one or (None, 0) for one in edges)):
            before.append(Before(None if types is None else [self.subject.type(one) for one in types], held, shown, count))
        return Walk(self.subject.graph(function), before, wrong, "" if is_whole else "the stack isn't known to the end, so no edges are")

    def failed_at(self, function: int) -> Dict[int, List[str]]:
        """What refuses the module, by the instruction where it stands in this function."""
        failure = self.failure
        if failure is None or failure.place.function != function or failure.place.instruction is None:
            return {}
        return {failure.place.instruction: [failure.sentence]}

    def stacks(self, function: int) -> Tuple[List[Optional[Tuple[model.Token, ...]]], bool]:
        """The types on the stack before each instruction, as far as they are known, and whether they are everywhere."""
        try:
            return list(stack.stacks_of(self.subject, function)), True
        except Fails:
            found: List[Optional[Tuple[model.Token, ...]]] = []
        for block in self.subject.graph(function):
            types: Optional[Tuple[model.Token, ...]] = ()
            for at in range(block.first, block.last + 1):
                found.append(types)
                if types is not None:
                    types = self.after(function, at, types)
        return found, False

    def after(self, function: int, at: int, types: Tuple[model.Token, ...]) -> Optional[Tuple[model.Token, ...]]:
        try:
            return Step(self.subject, function, at, types).after()
        except Fails:
            return None

    def carried(self, domain: Forgiving, wrong: Dict[int, List[str]], view: Callable[[Any, int], T]) -> List[Optional[T]]:
        """What is seen of the state before each instruction, None where there is none; and what is wrong there."""
        graph = self.subject.graph(domain.function)
        starts = self.starts(domain)
        domain.forgiven.clear()
        found: List[Optional[T]] = []
        for one, start in zip(graph, starts):
            state = None if start is None or not one.is_reached else domain.copy(start)
            for at in range(one.first, one.last + 1):
                found.append(None if state is None else view(state, at))
                if state is not None:
                    domain.step(state, at)
        for at, need in domain.forgiven.items():
            note(wrong, at, need)
        return found

    def starts(self, domain: Forgiving) -> List[Any]:
        """The states with which blocks begin: those that are stated, or the least ones, None where there are none."""
        if self.stated is not None:
            return [one and domain.stated(one) for one in self.stated.functions[domain.function]]
        found = least_states(domain, self.subject.graph(domain.function))
        return [None] * len(self.subject.graph(domain.function)) if isinstance(found, Gives) else list(found)

    def availabilities(self, function: int, wrong: Dict[int, List[str]]) -> List[Optional[List[int]]]:
        return self.carried(Forgiving(Locals(self.subject, function)), wrong, lambda state, _: list(state))

    def edge_lists(self, function: int, wrong: Dict[int, List[str]]) -> List[Optional[Shown]]:
        """The edges before each instruction, and how many there are."""
        borrows = Borrows(self.subject, function, stack.stacks_of(self.subject, function))
        return self.carried(Forgiving(borrows), wrong, lambda state, at: self.shown(borrows, state, at))

    def shown(self, borrows: Borrows, edges: Edges, at: int) -> Shown:
        """The first edges of those before an instruction, and how many there are."""
        some = nsmallest(MOST_EDGES if self.edges < MOST_IN_ALL else 0, edges)
        self.edges += len(some)
        return [(*one.source, *one.target, fields_of(borrows, one, at)) for one in some], len(edges)


def fields_of(borrows: Borrows, edge: Edge, at: int) -> str:
    """An edge's list of fields, with two dots where it is open."""
    types = borrows.stacks[at] if edge.source[0] == TEMP else borrows.types
    return path_text(borrows.subject.names, types, edge.stated()) + (".." if edge.is_open else "")


def note(wrong: Dict[int, List[str]], at: int, need: Need) -> None:
    """Notes what is wrong at an instruction, once."""
    text = str(need)
    if text not in wrong.setdefault(at, []):
        wrong[at].append(text)


def plain_blocks(function: model.FunctionDefinition) -> List[Block]:
    """The blocks of code whose targets may be out of bounds, without what follows them."""
    starts = function.block_starts()
    return [Block(first, last, [], True) for first, last in zip(starts, [one - 1 for one in starts[1:]] + [len(function.code) - 1])]


def local_names(subject: Subject, function: int) -> List[Tuple[str, str]]:
    """The names and types of a function's locals, as far as they are known."""
    types = subject.module.local_types(subject.module.functions[function])
    return [(subject.local(function, index), subject.type(one)) for index, one in enumerate(types or ())]

