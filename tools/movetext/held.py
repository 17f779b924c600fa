"""What operands and locals hold while a module runs, in words: each value with its type, and each reference with the name of what it
refers to."""

from typing import Any, Dict, Iterator, List, NamedTuple, Optional, Sequence, Tuple

from . import model
from .explain.ledger import Ledger, said_value
from .explain.link import Published, name_text
from .explain.machine import Frame, Machine, StoredKey, Value, short
from .explain.stack import stacks_of
from .model import Token, known
from .naming import quoted


class Held(NamedTuple):
    """What an operand or a local holds: the local's name, the type, the value as a text has it, and of a reference what it refers to,
    as `coin.value`, or `Coin[@0x1]` for what is stored under an address."""

    name: str
    type: str
    value: str
    refers: Optional[str] = None

    @property
    def text(self) -> str:
        """The value in a line; of a reference what it refers to, and what stands there."""
        if self.refers is None:
            return self.value
        front = "&mut " if self.type.startswith("&mut ") else "&"
        return f"{front}{self.refers} = {self.value}"

    def fields(self) -> Dict[str, Any]:
        """What is held by field, for JSON. An operand has no name."""
        return {"name": self.name or None, "type": self.type, "value": self.value, "refers": self.refers}


class Places:
    """The names of the places of a run to which references may refer, as a frame's function has them."""

    def __init__(self, ledger: Ledger, machine: Machine, frame: Frame):
        self.ledger, self.machine, self.frame = ledger, machine, frame
        self.frames = {id(one.locals): one for one in machine.frames}
        self.cells = {id(cell): key for key, cell in machine.cells.items() if cell is not None}
        self.fields: Optional[Dict[Tuple[int, int], str]] = None

    def name(self, reference: Tuple[List[Value], int]) -> str:
        """What a reference refers to."""
        holder, place = reference
        if id(holder) in self.frames:
            return self.local(self.frames[id(holder)], place)
        if id(holder) in self.cells:
            return self.global_name(self.cells[id(holder)])
        if self.fields is None:
            self.fields = {}
            self.find_fields(self.fields)
        return self.fields.get((id(holder), place), "a value")

    def local(self, frame: Frame, index: int) -> str:
        """A local, with its function where that isn't the frame's own."""
        behind = "" if frame is self.frame else f" of {function_text(frame.owner, frame.function)}"
        return frame.owner.subject.local(frame.function, index) + behind

    def global_name(self, key: StoredKey) -> str:
        """What is stored, as `Coin[@0x1]`; a struct of another module with its name."""
        place, struct, address = key
        owner = self.ledger.in_order()[place]
        own = owner is self.frame.owner
        named = quoted(owner.definition_name(struct)) if own else name_text((*owner.name, owner.definition_name(struct)))
        return f"{named}[{short(address)}]"

    def find_fields(self, found: Dict[Tuple[int, int], str]) -> None:
        """The fields of all locals, and of what is stored."""
        for one in self.machine.frames:
            types = types_of_locals(one)
            for index, value in enumerate(one.locals):
                if value is not None and not types[index].is_reference:
                    self.add_fields(found, one.owner, types[index], value, self.local(one, index))
        for key, cell in self.machine.cells.items():
            if cell is not None:
                owner = self.ledger.in_order()[key[0]]
                token = Token(model.STRUCT, struct=owner.module.structs[key[1]].handle)
                self.add_fields(found, owner, token, cell[0], self.global_name(key))

    def add_fields(self, found: Dict[Tuple[int, int], str], owner: Published, token: Token, value: Value, named: str) -> None:
        """The fields of a struct's value, at any depth."""
        if token.kind != model.STRUCT:
            return
        there, struct = self.ledger.definition(owner, token)
        front, _, behind = named.partition(" of ")
        for place, (one, inner) in enumerate(zip(there.module.structs[struct].fields, value)):
            text = f"{front}.{there.subject.names.identifier(one.name)}" + (f" of {behind}" if behind else "")
            found[id(value), place] = text
            self.add_fields(found, there, one.type, inner, text)


def function_text(owner: Published, function: int) -> str:
    """A function with its module."""
    return name_text((*owner.name, known(owner.module.function_name(owner.module.functions[function].handle))))


def types_of_locals(frame: Frame) -> Sequence[Token]:
    return known(frame.owner.module.local_types(frame.owner.module.functions[frame.function]))


# A local or an operand, which has no name: its name, its type and its value.
Holder = Tuple[str, Token, Value]


def local_holders(frame: Frame) -> List[Holder]:
    """The locals of a frame that hold something."""
    types = types_of_locals(frame)
    return [(frame.owner.subject.local(frame.function, index), types[index], value)
            for index, value in enumerate(frame.locals) if value is not None]


def held(ledger: Ledger, frame: Frame, places: Optional[Places], some: Sequence[Holder]) -> Iterator[Held]:
    """What operands or locals of a frame hold. Places are given where one is a reference."""
    for name, token, value in some:
        refers = places.name(value) if places is not None and token.is_reference else None
        yield Held(name, frame.owner.subject.type(token), said_value(ledger, frame.owner, token, value), refers)


def holdings(ledger: Ledger, machine: Machine, frame: Frame) -> Tuple[List[Held], List[Held]]:
    """What the operands of a frame hold, the last on top, and its locals that hold something, before its next instruction."""
    operands = [("", token, value) for token, value in zip(stacks_of(frame.owner.subject, frame.function)[frame.at], frame.stack)]
    others = local_holders(frame)
    has_references = any(token.is_reference for _, token, _ in operands + others)
    places = Places(ledger, machine, frame) if has_references else None
    return list(held(ledger, frame, places, operands)), list(held(ledger, frame, places, others))


def local_holdings(ledger: Ledger, machine: Machine, frame: Frame, most: int) -> Tuple[List[Held], int]:
    """What the locals of a frame hold that hold something, at most so many of them, and how many more there are."""
    holders = local_holders(frame)
    first = held(ledger, frame, Places(ledger, machine, frame), holders[:most])
    return list(first), max(0, len(holders) - most)
