"""Modules made at random that borrow much, for tests of the rules for edges: their code is well typed, and reads only locals
that are available along its paths."""

from random import Random
from typing import Dict, List, Optional, Set, Tuple

# The type of what a reference refers to, and whether it is a mutable one.
ReferenceType = Tuple[str, bool]

HEAD = """module 0x1::{name} {{
    struct P has copy, drop, store {{ a: u64, b: u64 }}
    struct Q has copy, drop, store, key {{ p: P, c: u64 }}
    struct R has drop, key {{ c: u64 }}
    same(r: &mut u64): &mut u64 {{ MoveLoc r; Ret }}
    pick(p: &mut P, r: &u64): &mut u64 {{ MoveLoc p; MutBorrowField P.b; Ret }}
    look(p: &P, r: &mut u64): &u64 {{ MoveLoc p; ImmBorrowField P.a; Ret }}
    take(a: address): Q acquires Q {{ MoveLoc a; MoveFrom Q; Ret }}
    f({parameters}){results}{acquires} {{
"""
LOCALS = {"flag": "bool", "a": "address", "s": "&signer", "x": "u64", "y": "u64", "v": "P", "w": "Q", "mx": "&mut u64",
          "my": "&mut u64", "mp": "&mut P", "mq": "&mut Q", "ix": "&u64", "iy": "&u64", "ip": "&P", "iq": "&Q"}
FIELDS: Dict[str, Tuple[Tuple[str, str], ...]] = {
    "u64": (("P.a", "P"), ("P.b", "P"), ("Q.c", "Q")), "P": (("Q.p", "Q"),), "Q": (),
}
CALLS: Dict[ReferenceType, Tuple[Tuple[str, Tuple[ReferenceType, ...]], ...]] = {
    ("u64", True): (("same", (("u64", True),)), ("pick", (("P", True), ("u64", False)))),
    ("u64", False): (("look", (("P", False), ("u64", True))),),
}
RESULTS: Tuple[Tuple[str, ...], ...] = (
    (), (), ("u64",), ("&u64",), ("&mut u64",), ("&mut P",), ("&P", "&mut u64"), ("&mut P", "&u64"), ("&u64", "&u64"))
GLOBALS = (["CopyLoc a", "MoveFrom Q", "Pop"], ["CopyLoc a", "Call take", "Pop"], ["CopyLoc a", "MoveFrom R", "Pop"],
           ["CopyLoc s", "CopyLoc w", "MoveTo Q"], ["CopyLoc a", "MutBorrowGlobal R", "Pop"])
PLACES = ("u64", "u64", "P", "P", "Q")


class BorrowMaker:
    """Makes one module."""

    def __init__(self, random: Random, name: str):
        self.random, self.name = random, name
        self.available: Set[str] = set(LOCALS)
        self.labels = 0

    def text(self) -> str:
        """The module's text."""
        results = self.random.choice(RESULTS)
        lines = self.statements(self.random.choice((1, 3, 6, 12)))
        lines += [line for one in results for line in self.result(one)] + ["Ret"]
        acquires = [name for name in "QR" if any(line.endswith("Global " + name) or line == "MoveFrom " + name for line in lines)]
        if "Call take" in lines and "Q" not in acquires:
            acquires.insert(0, "Q")
        head = HEAD.format(name=self.name, parameters=", ".join(f"{name}: {kind}" for name, kind in LOCALS.items()),
                           results=f": ({', '.join(results)})" if results else "",
                           acquires=" acquires " + ", ".join(acquires) if acquires else "")
        return head + "\n".join(lines) + "\n}\n}\n"

    def result(self, kind: str) -> List[str]:
        if not kind.startswith("&"):
            return ["LdU64 1"]
        return self.reference(kind.rpartition(" ")[2].lstrip("&"), "mut" in kind)

    def statements(self, count: int) -> List[str]:
        """Lines of so many statements, some of them behind a branch or in a loop."""
        lines: List[str] = []
        for _ in range(count):
            draw, before = self.random.random(), set(self.available)
            inner = self.statement(0)
            if draw < 0.15:
                inner = self.branch("BrTrue") + inner + [f"on{self.labels}:"]
                self.available &= before
            elif draw < 0.3 and self.available >= before:
                self.labels += 1
                inner = [f"on{self.labels}:"] + inner + ["CopyLoc flag", f"BrFalse on{self.labels}"]
            lines += inner
        return lines

    def branch(self, name: str) -> List[str]:
        self.labels += 1
        return ["CopyLoc flag", f"{name} on{self.labels}"]

    def statement(self, depth: int) -> List[str]:
        """Lines that leave the stack as it is."""
        random, place, is_mutable = self.random, self.random.choice(PLACES), self.random.random() < 0.5
        way = random.randrange(9)
        if way == 0 and depth < 2:
            return self.reference(place, is_mutable) + self.statement(depth + 1) + ["ReadRef", "Pop"]
        if way == 1 and depth < 2:
            return self.reference(place, is_mutable) + self.statement(depth + 1) + ["Pop"]
        if way == 2:
            return self.value(place) + self.reference(place, True) + ["WriteRef"]
        if way == 3:
            return self.reference(place, is_mutable) + ["ReadRef"] + self.kept(place)
        if way == 4:
            return self.value(place) + self.kept(place)
        if way == 5:
            return random.choice(GLOBALS)
        return self.reference(place, is_mutable) + self.kept(("&mut " if is_mutable else "&") + place)

    def kept(self, kind: str) -> List[str]:
        """Lines that put the operand of a type into a local, or nowhere."""
        name = self.random.choice([name for name, one in LOCALS.items() if one == kind])
        if self.random.random() < 0.2:
            return ["Pop"]
        self.available.add(name)
        return [f"StLoc {name}"]

    def read(self, kind: str) -> Optional[str]:
        """A line that copies or moves a local of a type, or None where none is available."""
        names = [name for name, one in LOCALS.items() if one == kind and name in self.available]
        if not names:
            return None
        name = self.random.choice(names)
        if self.random.random() < 0.7:
            return f"CopyLoc {name}"
        self.available.remove(name)
        return f"MoveLoc {name}"

    def value(self, place: str) -> List[str]:
        found = self.read(place)
        if found is None:
            return self.reference(place, True) + ["ReadRef"]
        return [found]

    def reference(self, place: str, is_mutable: bool, depth: int = 0) -> List[str]:
        """Lines that put a reference on the stack."""
        random, kind = self.random, ("&mut " if is_mutable else "&") + place
        way = random.randrange(7 if depth < 3 else 3)
        if way in (3, 4) and FIELDS[place]:
            field, struct = random.choice(FIELDS[place])
            line = "MutBorrowField" if is_mutable else "ImmBorrowField"
            return self.reference(struct, is_mutable or random.random() < 0.4, depth + 1) + [f"{line} {field}"]
        if way == 5 and not is_mutable:
            return self.reference(place, True, depth + 1) + ["FreezeRef"]
        if way == 6 and (place, is_mutable) in CALLS:
            called, arguments = random.choice(CALLS[place, is_mutable])
            return [line for one in arguments for line in self.reference(*one, depth + 1)] + [f"Call {called}"]
        if way == 2 and place == "Q":
            return ["CopyLoc a", ("MutBorrowGlobal" if is_mutable else "ImmBorrowGlobal") + " Q"]
        found = self.read(kind) if way != 1 else None
        if found:
            return [found]
        names = [name for name, one in LOCALS.items() if one == place and name in self.available]
        if names:
            return [("MutBorrowLoc " if is_mutable else "ImmBorrowLoc ") + random.choice(names)]
        return ["CopyLoc a", ("MutBorrowGlobal" if is_mutable else "ImmBorrowGlobal") + " Q"] + self.fields_to(place, is_mutable)

    @staticmethod
    def fields_to(place: str, is_mutable: bool) -> List[str]:
        """Lines that lead from a reference to Q to one of a place in it."""
        line = "MutBorrowField" if is_mutable else "ImmBorrowField"
        lines: Dict[str, List[str]] = {"Q": [], "P": [f"{line} Q.p"], "u64": [f"{line} Q.c"]}
        return lines[place]


def random_borrowing_text(random: Random, name: str) -> str:
    """The text of a module of this name at the address 1."""
    return BorrowMaker(random, name).text()
