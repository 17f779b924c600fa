"""The modules, payloads and streams of the measurements. Modules are text, as docs/TEXT.md has it."""

import sys
from pathlib import Path
from typing import Dict, Iterable, List, Optional, Sequence, Tuple

sys.path.insert(0, str(Path(__file__).resolve().parent.parent / "tools"))

from movetext import model, syntax, writer  # noqa: E402
from movetext.assembler import Assembler  # noqa: E402
from movetext.stream_parser import parse  # noqa: E402

# Bytes, and a module with its certificate.
Data = bytes
Offered = Tuple[Data, Data]

ASSET = "has store, key"
DROP = "has drop"
PLAIN = "has copy, drop, store"
NONE = ""


def listed(text: str) -> List[str]:
    return [part.strip() for part in text.split(";") if part.strip()]


def numbered(types: str, first: int = 0) -> List[str]:
    """Locals of these types, with their numbers as names."""
    return [f"l{first + n}: {kind}" for n, kind in enumerate(listed(types))]


class Module:
    """A module's text in the making, by default that of the one called M of version 5 at the address 1. A list of types has a
    semicolon between two, and so have instructions; locals go by their numbers. It may have more of something than there
    may be."""

    def __init__(self, own: str = "M", version: int = 5):
        self.head = f"module 0x1::{own} version {version}"
        self.imports: Dict[str, List[str]] = {}
        self.items: List[str] = []
        self.assembled: Optional[model.Module] = None

    def add_names(self, names: Iterable[str]) -> None:
        """Names that stand first among the identifiers, whether anything has them or not."""
        self.items.append(f"tables {{ identifiers {{ {'; '.join(names)} }} }}")

    def add_import(self, module: str, item: str) -> None:
        self.imports.setdefault(module, []).append(item)

    def foreign_struct(self, module: str, own: str, abilities: str) -> None:
        self.add_import(module, f"struct {own} {abilities}")

    def foreign_function(self, module: str, own: str, parameters: str, results: str) -> None:
        self.add_import(module, f"{own}({', '.join(listed(parameters))}): ({', '.join(listed(results))})")

    def struct(self, own: str, abilities: str, fields: str) -> None:
        """A struct with fields such as `a: u64`."""
        self.items.append(f"struct {own} {abilities} {{ {', '.join(listed(fields))} }}")

    def function(self, own: str, parameters: str, results: str, locals_: str, code: str, acquires: str = "", entry: bool = True) -> None:
        """A public function."""
        taken = numbered(parameters)
        front = f"public {'entry ' if entry else ''}{own}({', '.join(taken)}): ({', '.join(listed(results))})"
        front += f" acquires {acquires}" if acquires else ""
        self.items.append("\n".join([front + " {", *(f"let {one}" for one in numbered(locals_, len(taken))), code, "}"]))

    def text(self) -> str:
        imports = ["\n".join([f"import 0x1::{name} {{", *items, "}"]) for name, items in self.imports.items()]
        return "\n".join([self.head + " {", *imports, *self.items, "}"])

    def tables(self) -> model.Module:
        """The module that the text says."""
        if self.assembled is None:
            tree = parse(self.text(), keeps_limits=False)
            assert isinstance(tree, syntax.Module)
            assembler = Assembler(tree)
            self.assembled = assembler.module()
            assert self.assembled, [error.message for error in assembler.errors]
        return self.assembled

    def bytes(self) -> Data:
        return writer.write_module(self.tables())

    def renamed(self, own: str) -> Data:
        """The bytes of the module under another name."""
        tables = self.tables()
        tables.identifiers[tables.module_handles[tables.own].name] = own
        return writer.write_module(tables)

    @property
    def instructions(self) -> int:
        """How many instructions the module has."""
        return sum(len(function.code) for function in self.tables().functions)


# Where there are many edges, so many instructions come before the first state that has them.
BEGINNING = 220

# With so many units a module has about 6 KB and about 60 KB.
SMALL, LARGE = 4, 42

# The instructions of each family: what a function begins with, what it repeats, and what it ends with.
NUMBERS = "CopyLoc 0; StLoc 2;", """CopyLoc 2; CopyLoc 1; Add; LdU64 {n}; Sub; LdU64 3; Mul; LdU64 7; Mod; LdU64 2; Div;
    CopyLoc 1; BitOr; LdU64 255; BitAnd; LdU64 5; Xor; LdU8 2; Shl; LdU8 1; Shr; StLoc 2; CopyLoc 2; CastU128;
    LdU128 18446744073709551616; Lt; CopyLoc 2; LdConst {n}u64; Gt; Or; LdTrue; And; Not; LdFalse; Eq; Pop; CopyLoc 2;
    CopyLoc 1; Le; CopyLoc 2; CopyLoc 1; Ge; Neq; Pop; CopyLoc 2; LdU64 255; BitAnd; CastU8; CastU64; Pop;
    {six}""", "MoveLoc 2; Ret"

# What a module of version 6 has besides.
SIX = "LdU16 1; LdU16 2; Add; CastU32; LdU32 3; Mul; CastU16; CastU64; Pop;"

CONTROL = "LdU64 0; StLoc 1;", """again{k}: CopyLoc 1; CopyLoc 0; Lt; BrFalse done{k}; CopyLoc 1; CopyLoc 0; LdU64 1; Add;
    Call numbers{n}; Call B::help; Pop; CopyLoc 1; LdU64 1; Add; StLoc 1; Nop; Branch again{k}; done{k}: CopyLoc 0; LdU64 1000; Gt;
    BrFalse fine{k}; LdU64 {n}; Abort; fine{k}:""", "Ret"

STRUCTS = "", """CopyLoc 0; LdU128 {n}; LdTrue; Pack P{n}; StLoc 1; CopyLoc 1; CopyLoc 1; Eq; Pop; CopyLoc 1; Unpack P{n}; Pop;
    Pop; Pop; MoveLoc 1; StLoc 2; LdU64 {n}; Pack D{n}; Unpack D{n}; Pop; MutBorrowLoc 2; ImmBorrowLoc 0; Call refer{n}; Pop;
    MoveLoc 2; Pop;""", "Ret"

REFERENCES = "", """CopyLoc 0; ImmBorrowField P{n}.a; ReadRef; StLoc 2; CopyLoc 2; CopyLoc 1; ReadRef; Add; CopyLoc 0;
    MutBorrowField P{n}.a; WriteRef; LdTrue; CopyLoc 0; MutBorrowField P{n}.c; WriteRef; CopyLoc 0; FreezeRef;
    ImmBorrowField P{n}.b; ReadRef; Pop;""", "MoveLoc 0; Pop; MoveLoc 1; Pop; MoveLoc 2; Ret"

GLOBALS = "", """CopyLoc 1; Exists R{n}; BrTrue there{k}; ImmBorrowLoc 0; LdU64 1; LdU128 2; LdFalse; Pack P{n}; LdU64 {n};
    CopyLoc 1; Pack R{n}; MoveTo R{n}; there{k}: CopyLoc 1; MutBorrowGlobal R{n}; StLoc 2; LdU64 9; CopyLoc 2;
    MutBorrowField R{n}.n; WriteRef; MoveLoc 2; MutBorrowField R{n}.p; MutBorrowField P{n}.a; ReadRef; Pop; CopyLoc 1;
    ImmBorrowGlobal R{n}; ImmBorrowField R{n}.n; ReadRef; Pop; CopyLoc 1; MoveFrom R{n}; Unpack R{n}; Pop; Pop; Pop;""", "Ret"


def family(parts: Tuple[str, str, str], n: int, version: int) -> str:
    """The code of a function of a family, which repeats its middle part."""
    first, middle, last = parts
    return first + "".join(middle.format(n=n, k=k, six=SIX if version == 6 else "") + " " for k in (1, 2, 3)) + last


def helping() -> Module:
    """The module B that others call."""
    m = Module("B")
    m.struct("Shared", ASSET, "v: u64")
    m.function("help", "u64", "u64", "", "MoveLoc 0; Ret", entry=False)
    return m


def all_families(units: int, version: int, own: str = "M") -> Module:
    """A module with every table and instruction: so many times three structs and five functions, some 1,400 bytes each time."""
    m = Module(own, version)
    m.foreign_struct("B", "Shared", ASSET)
    m.foreign_function("B", "help", "u64", "u64")
    for n in range(units):
        m.struct(f"P{n}", PLAIN, "a: u64; b: u128; c: bool")
        m.struct(f"R{n}", ASSET, f"p: P{n}; n: u64; who: address")
        m.struct(f"D{n}", NONE, "v: u64")
        m.function(f"numbers{n}", "u64; u64", "u64", "u64", family(NUMBERS, n, version), entry=False)
        m.function(f"control{n}", "u64", "", "u64", family(CONTROL, n, version))
        m.function(f"structs{n}", "u64", "", f"P{n}; P{n}", family(STRUCTS, n, version))
        m.function(f"refer{n}", f"&mut P{n}; &u64", "u64", "u64", family(REFERENCES, n, version), entry=False)
        m.function(f"globals{n}", "signer; address", "", f"&mut R{n}", family(GLOBALS, n, version), f"R{n}")
    return m


def one_function(structs: Sequence[Tuple[str, str, str]], parameters: str, locals_: str, code: str) -> Module:
    m = Module()
    for own, abilities, fields in structs:
        m.struct(own, abilities, fields)
    m.function("f", parameters, "", locals_, code)
    return m


def filled(code: str, count: int) -> str:
    """Code with so many instructions before a Nop at its end, and Ret."""
    lines = [line for line in code.replace("\n", " ").split(";") if line.strip()]
    return ";".join(lines + [" Nop"] * (count - len(lines) - 1) + [" Ret"])


def mixed(count: int) -> Module:
    """A module with one function of so many instructions: two blocks every 22, with a struct and references to it."""
    unit = """LdU64 1; LdU64 2; Pack P; StLoc 2; MutBorrowLoc 2; StLoc 3; CopyLoc 3; ImmBorrowField P.a; ReadRef; StLoc 1;
        CopyLoc 1; CopyLoc 3; MutBorrowField P.b; WriteRef; MoveLoc 3; Pop; CopyLoc 0; LdU64 {n}; Lt; BrTrue next{n};
        CopyLoc 1; StLoc 0; next{n}: """
    code = "".join(unit.format(n=n) for n in range((count - 2) // 22)) + "Nop"
    return one_function([("P", PLAIN, "a: u64; b: u64")], "u64", "u64; P; &mut P", filled(code, count))


def many_edges(count: int) -> Module:
    """A module with a function of so many instructions, in which each of 31 references may lead to each of 32 locals: 992
    edges, stated for each block of 32 instructions."""
    m = Module()
    taken = range(1, 33)
    m.function("pick", "; ".join(["&u64"] * 16), "&u64", "", "MoveLoc 0; Ret", entry=False)
    code = "".join(f"LdU64 {l}; StLoc {l};" for l in taken)
    code += "".join(f"ImmBorrowLoc {l};" for l in taken[:16]) + "Call pick; StLoc 33;"
    code += "MoveLoc 33;" + "".join(f"ImmBorrowLoc {l};" for l in taken[16:31]) + "Call pick; StLoc 33;"
    code += "MoveLoc 33;" + "ImmBorrowLoc 32;" * 15 + "Call pick; StLoc 33;"
    code += "".join(f"CopyLoc 33; StLoc {l};" for l in range(34, 64))
    block = "CopyLoc 0; BrTrue next{n}; next{n}: Nop; Nop;"
    block += "CopyLoc 40; ReadRef; Pop; ImmBorrowLoc 7; StLoc 50; CopyLoc 33; StLoc 50; " * 4
    code += "".join(block.format(n=n) for n in range((count - BEGINNING) // 32)) + "Nop"
    m.function("f", "bool", "", "; ".join(["u64"] * 32 + ["&u64"] * 31), filled(code, count))
    return m


def many_structs(count: int) -> Module:
    """A module with so many structs and nothing else, some 14 bytes each. The fields' name stands first: its index is one byte."""
    m = Module()
    m.add_names(["v"])
    for n in range(count):
        m.struct(f"S{n:x}", PLAIN, "v: u64")
    return m


def looping(blocks: int) -> Module:
    """A module with one function of so many blocks in a loop, every other of which may leave one of 30 references elsewhere.
    What its end does is seen at its start, so that each block is visited twice."""
    code = "".join(f"LdU64 {l}; StLoc {l};" for l in range(1, 31))
    code += "".join(f"ImmBorrowLoc 1; StLoc {l};" for l in range(31, 61)) + "head: Nop;"
    for n in range(blocks // 2):
        code += f"CopyLoc 0; BrTrue next{n}; ImmBorrowLoc {1 + n % 29}; StLoc {31 + n * 7 % 29}; next{n}: "
    code += "ImmBorrowLoc 30; StLoc 60; CopyLoc 0; BrTrue head; Ret"
    return one_function([], "bool", "; ".join(["u64"] * 30 + ["&u64"] * 30), code)


def rippling(rounds: int, blocks: int) -> Module:
    """A module with one function of so many blocks in a loop, for which what is known of references goes round so often: of 50
    references so many are handed on from one local to the next, the last one first."""
    code = "".join(f"LdU64 {l}; StLoc {l};" for l in (1, 2)) + "".join(f"ImmBorrowLoc 1; StLoc {l};" for l in range(3, 53))
    code += "head: Nop;" + "".join(f"CopyLoc {l - 1}; StLoc {l};" for l in range(2 + rounds, 3, -1))
    code += "ImmBorrowLoc 2; StLoc 3;"
    code += "".join(f"CopyLoc 0; BrTrue next{n}; next{n}: " for n in range(blocks - 3)) + "CopyLoc 0; BrTrue head; Ret"
    return one_function([], "bool", "; ".join(["u64"] * 2 + ["&u64"] * 50), code)


def link_of_a_chain(n: int, length: int) -> Module:
    """A module of some 600 bytes, with a struct, which names the module before it in its chain of this length."""
    m = Module(f"M{n}")
    before = n % length != 0
    if before:
        m.foreign_struct(f"M{n - 1}", f"Coin{n - 1}", ASSET)
        m.foreign_function(f"M{n - 1}", f"make{n - 1}", "u64", f"M{n - 1}::Coin{n - 1}")
        m.foreign_function(f"M{n - 1}", f"value{n - 1}", f"&M{n - 1}::Coin{n - 1}", "u64")
    own = f"Coin{n}"
    m.struct(own, ASSET, "v: u64; w: u64")
    m.function(f"make{n}", "u64", own, "", f"CopyLoc 0; MoveLoc 0; Pack {own}; Ret", entry=False)
    m.function(f"value{n}", f"&{own}", "u64", "", f"MoveLoc 0; ImmBorrowField {own}.v; ReadRef; Ret", entry=False)
    m.function("mint", "signer; u64", "", "", f"ImmBorrowLoc 0; MoveLoc 1; Call make{n}; MoveTo {own}; Ret")
    m.function("burn", "address", "", "", f"MoveLoc 0; MoveFrom {own}; Unpack {own}; Pop; Pop; Ret", own)
    m.function("set", "address; u64", "", "", f"""CopyLoc 1; CopyLoc 0; MutBorrowGlobal {own}; MutBorrowField {own}.w; WriteRef;
        Ret""", own)
    of_before = f"CopyLoc 0; Call M{n - 1}::value{n - 1}; StLoc 1; CopyLoc 1; Pop;" if before else ""
    m.function("sum", f"&M{n - 1}::Coin{n - 1}" if before else "&u64", "u64", "u64", f"""{of_before} LdU64 0; StLoc 1; again: CopyLoc 1;
        LdU64 100; Lt; BrFalse done; CopyLoc 1; LdU64 3; Mul; LdU64 1; Add; LdU64 1000003; Mod; StLoc 1; Branch again;
        done: {"CopyLoc 1; LdU64 7; Xor; LdU64 5; Add; LdU64 9; Mul; LdU64 11; Mod; StLoc 1; " * 5}
        CopyLoc 1; Ret""", entry=False)
    return m


# What is run: loops without an end of one kind of work each, under a budget of steps.
SUMS = """again: CopyLoc 0; LdU64 1000000000; Lt; BrFalse done; CopyLoc 0; LdU64 1; Add; StLoc 0; Branch again; done: Ret"""
DEEP = "CopyLoc 0; LdU64 0; Eq; BrTrue done; CopyLoc 0; CopyLoc 0; LdU64 1; Sub; Call deep; Add; Ret; done: LdU64 1; Ret"
MOVES = "MoveLoc 1; StLoc 2; MoveLoc 2; StLoc 1;" * 16
WRITES = "LdU64 5; CopyLoc 2; MutBorrowField S8.f3; WriteRef;" * 16
COINS = "LdU64 5; Pack Coin; Unpack Coin; Pop;" * 16
STORED_READS = "CopyLoc 0; ImmBorrowGlobal Coin; ImmBorrowField Coin.v; ReadRef; Pop;" * 16
STORED_WRITES = "LdU64 5; CopyLoc 0; MutBorrowGlobal Coin; MutBorrowField Coin.v; WriteRef;" * 16


def working() -> Module:
    """The module whose functions are run."""
    m = Module()
    eight = "; ".join(f"f{n}: u64" for n in range(8))
    m.struct("Coin", ASSET, "v: u64")
    m.struct("S1", PLAIN, "f0: u64")
    m.struct("S8", PLAIN, eight)
    m.struct("S64", PLAIN, "; ".join(f"g{n}: S8" for n in range(8)))
    made = {"S1": "LdU64 1; Pack S1;", "S8": "LdU64 1;" * 8 + "Pack S8;"}
    made["S64"] = made["S8"] * 8 + "Pack S64;"
    m.function("sums", "u64", "", "", SUMS)
    m.function("deep", "u64", "u64", "", DEEP, entry=False)
    m.function("calls", "u64", "", "", "again: LdU64 200; Call deep; Pop; Branch again")
    for struct in "S1", "S8", "S64":
        code = f"{made[struct]} StLoc 1; again: {MOVES} Branch again"
        m.function(f"moves{struct[1:]}", "u64", "", f"{struct}; {struct}", code)
    code = f"{made['S8']} StLoc 1; MutBorrowLoc 1; StLoc 2; again: {WRITES} Branch again"
    m.function("writes", "u64", "", "S8; &mut S8", code)
    m.function("coins", "u64", "", "", f"again: {COINS} Branch again")
    m.function("reads", "address", "", "", f"again: {STORED_READS} Branch again", "Coin")
    m.function("stores", "address", "", "", f"again: {STORED_WRITES} Branch again", "Coin")
    m.function("holds", "address", "", "&mut Coin", f"""MoveLoc 0; MutBorrowGlobal Coin; StLoc 1;
        again: {"LdU64 5; CopyLoc 1; MutBorrowField Coin.v; WriteRef;" * 16} Branch again""", "Coin")
    m.function("mint", "signer; u64", "", "", "ImmBorrowLoc 0; MoveLoc 1; Pack Coin; MoveTo Coin; Ret")
    m.function("unpack", "signer; u64", "", "", "ImmBorrowLoc 0; MoveLoc 1; Pack Coin; Unpack Coin; Pop; Pop; Ret")
    return m


def large_working() -> Module:
    """The module of 60 KB, with a function that does nothing."""
    m = all_families(LARGE, 5)
    m.function("idle", "u64", "", "", "Ret")
    return m


def address(n: int) -> Data:
    return n.to_bytes(model.ADDRESS_BYTES, "big")


def publish(*bundle: Offered) -> Data:
    """The payload of a publish record, of modules with their certificates."""
    offers = [model.Offer(module, certificate) for module, certificate in bundle]
    return writer.write_payload(model.Publish(address(1), offers))[1]


def u64(value: int) -> model.Value:
    return model.Value(model.U64, value)


def run(function: str, budget: int, *arguments: model.Value, sender: int = 0, module: str = "M") -> Data:
    """The payload of a run record."""
    record = model.Run(address(sender), address(1), module, function, budget, list(arguments))
    return writer.write_payload(record)[1]


def record(kind: int, payload: bytes) -> Data:
    return writer.write_record(model.RawRecord(kind, payload))
