"""What is said to an author of something that is borrowed where it has to be free."""

from typing import Optional, Tuple

from ..model import COPY, DROP, GLOB, OWN, SLOT, STRUCT, Token, known
from ..states import definition_of
from .borrows import Borrows
from .edges import TEMP, Edge, Node
from .failures import Advice, Spot, listed
from .history import maker

# What can't be done with what is borrowed, by the instruction.
CANT = {
    "MoveLoc": "moved", "CopyLoc": "copied", "StLoc": "overwritten", "MutBorrowLoc": "borrowed to write", "ImmBorrowLoc": "borrowed",
    "MutBorrowGlobal": "borrowed to write", "ImmBorrowGlobal": "borrowed", "MoveFrom": "taken from the storage",
    "MutBorrowField": "borrowed to write", "ImmBorrowField": "borrowed", "ReadRef": "read", "WriteRef": "written",
    "FreezeRef": "frozen", "Call": "passed to a function",
}
# The instructions that only a mutable reference stands in the way of.
READS = ("CopyLoc", "ImmBorrowLoc", "ImmBorrowGlobal", "ImmBorrowField", "ReadRef", "FreezeRef")


def of_edge(domain: Borrows, at: int, edge: Edge) -> Advice:
    """What is said of an edge that stands in the way of an instruction."""
    made, name = maker(domain, at, edge), domain.code[at].name
    if name == "Ret":
        return of_result(domain, at, edge, made)
    what, how = told(domain, at, edge.source), "borrowed to write" if name in READS and edge.source[0] != SLOT else "borrowed"
    if name == "Call" and edge.source[0] == GLOB:
        callee = domain.module.function_name(domain.code[at].operand)
        fact = f"{what} is still {how} here, and `{callee}` acquires it"
    else:
        fact = f"{what} is still {how} here, so it can't be {CANT[name]}"
    kind = "operand" if edge.source[0] != TEMP or "Field" in name else "instruction"
    return Advice(fact, end_of(domain, at, edge.target), Spot(kind, domain.function, at), made_notes(domain, edge, made))


def told(domain: Borrows, at: int, node: Node) -> str:
    """A node in an author's words, before an instruction."""
    kind, index = node
    if kind == GLOB:
        return f"`{domain.subject.names.definitions[index]}`"
    if kind == TEMP:
        name = domain.code[at].name
        if "BorrowField" in name:
            return f"`{domain.subject.names.fields[domain.code[at].operand]}`"
        return "what this reference points to" if name != "Call" else "what an argument points to"
    return f"`{domain.subject.local(domain.function, index)}`"


def end_of(domain: Borrows, at: int, node: Node) -> str:
    """How a borrow is ended, before an instruction."""
    kind, index = node
    if kind == SLOT:
        name, users = domain.subject.local(domain.function, index), users_of(domain, domain.types[index])
        return f"use `{name}` up before this, by `MoveLoc {name}` and {users}; or do this before it is borrowed"
    return f"use up the reference on the stack before this, by {users_of(domain, domain.stacks[at][index])}"


def users_of(domain: Borrows, reference: Token) -> str:
    """The instructions that use up a reference of a type."""
    abilities = domain.subject.abilities(reference.inner)
    can_write = reference.is_mutable and abilities & DROP
    return listed([name for name, can in (("ReadRef", abilities & COPY), ("WriteRef", can_write), ("Pop", True)) if can], "or")


def made_notes(domain: Borrows, edge: Edge, made: Optional[int]) -> Tuple[Tuple[Spot, str], ...]:
    """Where an edge was made, and what keeps it."""
    if made is None:
        return ()
    name, kept = domain.code[made].name, ""
    if edge.target[0] == SLOT:
        kept = f"{', which is' if name == 'Call' else ', and'} kept in `{domain.subject.local(domain.function, edge.target[1])}`"
    if name == "Call":
        said = f"`{domain.module.function_name(domain.code[made].operand)}` may give a reference into it here"
    elif name == "CopyLoc":
        said = "it is copied here"
    elif "BorrowField" in name:
        said = f"its field `{field_of(domain, edge, made)}` is borrowed here"
    else:
        said = "it is borrowed here"
    return ((Spot("instruction", domain.function, made), said + kept),)


def field_of(domain: Borrows, edge: Edge, made: int) -> str:
    """The fields that an edge goes through, by name; otherwise the one that its instruction names."""
    types = domain.stacks[made] if edge.source[0] == TEMP else domain.types
    struct = edge.source[1] if edge.source[0] == GLOB else \
        definition_of(domain.subject.names, types[edge.source[1]] if edge.source[1] < len(types) else None)
    names = []
    for position in edge.positions:
        if struct is None:
            break
        field = domain.module.structs[struct].fields[position]
        names.append(known(domain.module.identifier(field.name)))
        struct = domain.subject.names.definition_places.get(field.type.struct) if field.type.kind == STRUCT else None
    return ".".join(names) or domain.subject.names.fields[domain.code[made].operand].rpartition(".")[2]


def of_result(domain: Borrows, at: int, edge: Edge, made: Optional[int]) -> Advice:
    """What is said of a reference that a function mustn't return."""
    spot, notes = Spot("instruction", domain.function, at), made_notes(domain, edge, made)
    can_copy = domain.subject.abilities(domain.stacks[at][edge.target[1]].value_type) & COPY
    if edge.source[0] == OWN:
        name = domain.subject.local(domain.function, edge.source[1])
        # What can't be copied is returned by itself, unless the reference is to a part of it.
        moved = "" if edge.positions or edge.is_open else f"return the value, by `MoveLoc {name}`; or "
        value = "return the value: `ReadRef` before Ret; or " if can_copy else moved
        return Advice(f"this returns a reference to the local `{name}`, which ends here",
                      f"{value}borrow from a parameter that is a reference", spot, notes)
    if edge.source[0] == GLOB:
        name = domain.subject.names.definitions[edge.source[1]]
        value = "return what is read from it, by `ReadRef`; the reference" if can_copy else "it"
        return Advice(f"this returns a reference to a stored `{name}`", f"{value} may be passed to a called function, but not returned",
                      spot, notes)
    return Advice("this returns a mutable reference, and another one into what it points to", "return one of the two", spot, notes)
