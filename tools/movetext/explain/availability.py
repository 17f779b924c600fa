"""Phase 10: which locals hold a value."""

from typing import List, Optional, Sequence

from ..model import AVAILABILITY_NAMES, AVAILABLE, DROP, MAYBE, UNAVAILABLE, BlockState, known
from .flows import Need
from .subject import Subject

READING = ("CopyLoc", "MoveLoc", "MutBorrowLoc", "ImmBorrowLoc")
VERBS = {"CopyLoc": "read", "MoveLoc": "moved", "MutBorrowLoc": "borrowed", "ImmBorrowLoc": "borrowed"}


class Locals:
    """The domain of lists of availabilities, one for each local of a function."""

    phase = 10

    def __init__(self, subject: Subject, function: int):
        self.subject, self.function = subject, function
        self.code = subject.module.functions[function].code
        self.types = known(subject.module.local_types(subject.module.functions[function]))

    def start(self) -> List[int]:
        """Parameters are Available, the others Unavailable."""
        parameters = len(known(self.subject.module.parameters(self.subject.module.functions[self.function])))
        return [AVAILABLE] * parameters + [UNAVAILABLE] * (len(self.types) - parameters)

    @staticmethod
    def stated(state: BlockState) -> List[int]:
        """The part of a block's stated state that this domain is about."""
        return list(state.availabilities)

    copy = staticmethod(list)

    @staticmethod
    def is_below(one: Sequence[int], other: Sequence[int]) -> bool:
        return one == other or all(right in (left, MAYBE) for left, right in zip(one, other))

    @staticmethod
    def join(one: Sequence[int], other: Sequence[int]) -> List[int]:
        return [left if left == right else MAYBE for left, right in zip(one, other)]

    @staticmethod
    def too_large(_state: Sequence[int]) -> Optional[str]:
        return None

    def step(self, state: List[int], at: int) -> None:
        """Carries a state through an instruction. Need where what it needs isn't met; the state is then as before."""
        instruction = self.code[at]
        local = instruction.operand
        if instruction.name in READING:
            if state[local] != AVAILABLE:
                raise Need("where a local is read, moved or borrowed it is Available",
                           f"{self.told(state, local)} where it is {VERBS[instruction.name]}", local)
            if instruction.name == "MoveLoc":
                state[local] = UNAVAILABLE
        elif instruction.name == "StLoc":
            if state[local] != UNAVAILABLE and not self.has_drop(local):
                raise Need("where a local is overwritten, what it may hold has drop",
                           f"{self.told(state, local)}, and its type {self.type(local)} lacks drop", local)
            state[local] = AVAILABLE
        elif instruction.name == "Ret":
            for left, availability in enumerate(state):
                if availability != UNAVAILABLE and not self.has_drop(left):
                    raise Need("where a local is left behind by Ret, what it may hold has drop",
                               f"{self.told(state, left)}, and its type {self.type(left)} lacks drop", left)

    def has_drop(self, local: int) -> bool:
        return bool(self.subject.abilities(self.types[local]) & DROP)

    def type(self, local: int) -> str:
        return f"`{self.subject.type(self.types[local])}`"

    def told(self, state: Sequence[int], local: int) -> str:
        return f"`{self.subject.local(self.function, local)}` is {AVAILABILITY_NAMES[state[local]]}"

    def state_lines(self, state: Sequence[int], _at: Optional[int] = None) -> List[str]:
        """A state in words."""
        return [", ".join(f"{self.subject.local(self.function, local)} {AVAILABILITY_NAMES[one]}"
                          for local, one in enumerate(state)) or "no locals"]

    def excess(self, state: Sequence[int], stated: Sequence[int]) -> List[str]:
        """What a state has that isn't below a stated one."""
        return [f"{self.told(state, local)}, and not {AVAILABILITY_NAMES[stated[local]]}"
                for local in range(len(state)) if not self.is_below([state[local]], [stated[local]])]
