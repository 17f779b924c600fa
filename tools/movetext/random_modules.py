"""Modules, streams and saved ledgers made at random, for tests. Modules are tame ones, whose names say what is meant, and wild
ones, with indices that are out of bounds, entries that stand twice or are named by nothing, and names that are words of the
language."""

from random import Random
from typing import Any, Collection, Dict, Hashable, Iterable, List, Optional, Sequence, Type, TypeVar, Union

from . import model
from .ledgers import Structs
from .model import (Audit, Constant, Field, FieldHandle, FunctionDefinition, FunctionHandle, Instruction, Module, ModuleHandle,
                    Offer, Publish, RawRecord, Run, Show, Stream, StructDefinition, StructHandle, Token, Value)
from .limits import INDEX
from .opcodes import CONSTANT, FIELD, FUNCTION, LOCAL, NUMBER, OPCODES, STRUCT, TARGET, Opcode
from .writer import write_module

LETTERS = "abcdefghijklmnopqrstuvwxyzABCDEFGHIJKLMNOPQRSTUVWXYZ"
ODD_NAMES = ["module", "struct", "import", "public", "entry", "fun", "let", "has", "acquires", "locals", "tables", "u64",
             "bool", "address", "signer", "mut", "copy", "drop", "store", "key", "Self", "as", "version", "x", "p0", "l1",
             "b0", "Ret", "LdU64", "true", "false", "publish", "run", "by", "budget", "json", "bytes", "record", "prove"]
# An entry of a table.
T = TypeVar("T", bound=Hashable)
LEAVES = [kind for kind in model.LEAF_NAMES if kind != model.SIGNER]


def random_name(random: Random, is_wild: bool = False) -> str:
    """An identifier."""
    if is_wild and random.random() < 0.3:
        return random.choice(ODD_NAMES)
    first = random.choice(LETTERS) if random.random() < 0.95 else "_" + random.choice(LETTERS)
    size = random.choice((0, 1, 3, 6)) if random.random() < 0.97 else random.randrange(7, 120)
    return first + "".join(random.choice(LETTERS + "0123456789_") for _ in range(size))


def random_address(random: Random) -> bytes:
    if random.random() < 0.6:
        return random.randrange(1, 9).to_bytes(16, "big")
    return random.getrandbits(128).to_bytes(16, "big")


def random_value(random: Random, kind: int) -> Union[bool, int, bytes]:
    """A value of a leaf type, as it's kept."""
    if kind == model.ADDRESS:
        return random_address(random)
    if kind == model.BOOL:
        return random.random() < 0.5
    bits = 8 * model.LEAF_WIDTHS[kind]
    values: List[int] = [0, 1, (1 << bits) - 1, random.getrandbits(bits), random.randrange(100)]
    return random.choice(values)


class Maker:
    """Makes one module."""

    def __init__(self, random: Random, is_wild: bool, size: int = 1):
        self.random = random
        self.is_wild = is_wild
        self.size = size
        self.places: Dict[int, Dict[Any, int]] = {}
        self.module = Module(version=random.choice(model.VERSIONS))
        self.leaves = [kind for kind in LEAVES if self.module.version == 6 or kind not in model.LATE_KINDS]

    def count(self, most: int) -> int:
        return self.random.randrange(most * self.size + 1)

    def place(self, table: Sequence[object]) -> int:
        """An index of a table; a wild one may be out of bounds."""
        if not table or self.is_wild and self.random.random() < 0.03:
            return self.random.choice((len(table), len(table) + 1, 127, 128, 300, INDEX))
        return self.random.randrange(len(table))

    def put(self, table: List[T], one: T) -> int:
        """The place of an entry, which is put at the table's end where it isn't there; a wild one may stand twice."""
        places = self.places.get(id(table))
        if places is None:
            places = self.places[id(table)] = {other: index for index, other in enumerate(table)}
        if one in places and not (self.is_wild and self.random.random() < 0.1):
            return places[one]
        places[one] = len(table)
        table.append(one)
        return len(table) - 1

    def name(self, taken: Collection[Optional[str]] = ()) -> int:
        """The place of an identifier that none of these is."""
        name = random_name(self.random, self.is_wild)
        while name in taken and not self.is_wild:
            name = random_name(self.random)
        return self.put(self.module.identifiers, name)

    def fresh_name(self, others: Iterable[Union[StructHandle, FunctionHandle, Field]]) -> int:
        """The place of an identifier that no handle of these has."""
        return self.name({self.module.identifier(one.name) for one in others})

    def token(self, allow_reference: bool = True, allow_signer: bool = True) -> Token:
        draw = self.random.random()
        if allow_reference and draw < 0.25:
            return Token(self.random.choice((model.REFERENCE, model.MUTABLE)), inner=self.token(False, allow_signer))
        if self.module.struct_handles and draw < 0.5:
            return Token(model.STRUCT, struct=self.place(self.module.struct_handles))
        return Token(self.random.choice(self.leaves + [model.SIGNER] * allow_signer))

    def signature(self, most: int) -> int:
        types = tuple(self.token() for _ in range(self.count(most) % 65))
        return self.put(self.module.signatures, types)

    def make(self) -> Module:
        """A module with all of its parts."""
        self.add_modules()
        self.add_structs()
        self.add_functions()
        if self.is_wild:
            self.make_wild()
        for function in self.module.functions:
            self.add_code(function)
        return self.module

    def add_modules(self) -> None:
        module = self.module
        for _ in range(1 + self.count(3)):
            address = self.put(module.addresses, random_address(self.random))
            handle = ModuleHandle(address, self.name())
            if self.is_wild or handle not in module.module_handles:
                module.module_handles.append(handle)
        if self.is_wild and self.random.random() < 0.2:
            module.own = self.place(module.module_handles)

    def handles(self, own: int, others: int) -> List[int]:
        """The modules of handles: those of other modules in order, then so many of the own one."""
        foreign = [index for index in range(len(self.module.module_handles)) if index != self.module.own]
        chosen = sorted(self.random.choice(foreign) for _ in range(others)) if foreign else []
        return chosen + [self.module.own] * own

    def add_structs(self) -> None:
        module = self.module
        for place in self.handles(self.count(4), self.count(3)):
            name = self.fresh_name(module.struct_handles)
            module.struct_handles.append(StructHandle(place, name, self.random.randrange(16)))
        for index, handle in enumerate(module.struct_handles):
            if handle.module == module.own:
                module.structs.append(StructDefinition(index, self.fields()))

    def fields(self) -> List[Field]:
        """The fields of a struct, no two of one name."""
        fields: List[Field] = []
        for _ in range(self.count(4) % 33):
            name = self.fresh_name(fields)
            if self.is_wild or all(name != one.name for one in fields):
                fields.append(Field(name, self.token(self.is_wild, self.is_wild)))
        return fields

    def add_functions(self) -> None:
        module = self.module
        for place in self.handles(self.count(4) % 200, self.count(3)):
            name = self.fresh_name(module.function_handles)
            module.function_handles.append(FunctionHandle(place, name, self.signature(3), self.signature(2)))
        for index, handle in enumerate(module.function_handles):
            if handle.module == module.own:
                self.add_function(index)

    def add_function(self, handle: int) -> None:
        random, module = self.random, self.module
        function = FunctionDefinition(handle, random.random() < 0.5, random.random() < 0.5)
        if module.structs:
            function.acquires = [self.place(module.structs) for _ in range(random.randrange(3))]
        function.locals = self.signature(4)
        module.functions.append(function)

    def make_wild(self) -> None:
        """Entries in other orders, and ones that nothing names."""
        random, module = self.random, self.module
        for kind in model.TABLE_FIELDS:
            table = module.table(kind)
            draw = random.random()
            if draw < 0.1:
                random.shuffle(table)
            elif draw < 0.2 and table:
                table.append(random.choice(table))
        if random.random() < 0.2:
            module.signatures.append(tuple(self.token() for _ in range(random.randrange(4))))
        if random.random() < 0.2:
            module.constants.append(Constant(self.token(), bytes(random.randrange(3))))
        module.functions = module.functions[:250]
        self.places = {}

    def add_code(self, function: FunctionDefinition) -> None:
        count = self.count(40) % 4097
        code = [Instruction(opcode) for opcode in (self.random.choice(OPCODES) for _ in range(count))
                if opcode.version <= self.module.version]
        for instruction in code:
            operand = self.operand(instruction.opcode, function, code)
            if operand is not None:
                instruction.operand = operand
        function.code = [one for one in code if one.operand is not None or not one.opcode.operand]

    def operand(self, opcode: Opcode, function: FunctionDefinition, code: List[Instruction]) -> Optional[int]:
        """An operand, or None where there is nothing that it could name."""
        if opcode.operand == NUMBER:
            values: List[int] = [0, 1, (1 << 8 * opcode.width) - 1, self.random.getrandbits(8 * opcode.width)]
            return self.random.choice(values)
        if opcode.operand == TARGET:
            return self.place(code)
        if opcode.operand == LOCAL:
            return self.place(self.module.local_types(function) or ())
        if opcode.operand == CONSTANT:
            return self.constant()
        if opcode.operand == FIELD:
            return self.field_handle()
        tables: Dict[int, List[Any]] = {STRUCT: self.module.structs, FUNCTION: self.module.function_handles}
        table = tables.get(opcode.operand)
        return self.place(table) if table or table is not None and self.is_wild else None

    def constant(self) -> int:
        """The place of a constant."""
        kind = self.random.choice(self.leaves)
        data = model.write_leaf(kind, random_value(self.random, kind))
        if self.random.random() < 0.1:
            data = bytes(self.random.randrange(256) for _ in range(self.random.randrange(4)))
        return self.put(self.module.constants, Constant(Token(kind), data))

    def field_handle(self) -> Optional[int]:
        """The place of a field handle, or None where there is no field."""
        module = self.module
        if self.is_wild and self.random.random() < 0.1:
            return self.put(module.field_handles, FieldHandle(self.place(module.structs), self.random.randrange(40)))
        structs = [index for index, one in enumerate(module.structs) if one.fields]
        if not structs:
            return None
        struct = self.random.choice(structs)
        return self.put(module.field_handles, FieldHandle(struct, self.random.randrange(len(module.structs[struct].fields))))


def random_module(random: Random, is_wild: bool = False, size: int = 1) -> Module:
    """A module; with a greater size it's about so many times as large."""
    return Maker(random, is_wild, size).make()


def random_record(random: Random) -> model.Record:
    """A record of any kind."""
    draw = random.randrange(8)
    if draw < 3:
        offers = [Offer(write_module(random_module(random, random.random() < 0.3)), bytes(random.randrange(9)))
                  for _ in range(random.randrange(1, 4))]
        return Publish(random_address(random), offers)
    if draw < 6:
        arguments = [Value(kind, random_value(random, kind)) for kind in random.choices(LEAVES, k=random.randrange(5))]
        return Run(random_address(random), random_address(random), random_name(random, True), random_name(random, True),
                   random.choice((0, 1, 100, 2 ** 64 - 1)), arguments)
    if draw < 7:
        kinds: Sequence[Union[Type[Show], Type[Audit]]] = (Show, Audit)
        return random.choice(kinds)(random.random() < 0.5)
    payload = bytes(random.randrange(2, 256) for _ in range(random.randrange(1, 90)))
    return RawRecord(random.randrange(256), payload)


def random_stream(random: Random) -> Stream:
    """Records, and at times bytes after them that are none."""
    rest = b"\x01\x7f" if random.random() < 0.2 else b""
    return Stream([random_record(random) for _ in range(random.randrange(6))], rest)


def random_ledger(random: Random) -> model.Ledger:
    """A saved ledger of either form, with values of such structs as have leaves that are known."""
    modules = [random_module(random) for _ in range(random.randrange(4))]
    structs = Structs(modules)
    ledger = model.Ledger(random.choice((1, 2)), random.randrange(300))
    ledger.offers = [Offer(write_module(module), bytes(random.randrange(5))) for module in modules]
    ledger.scarce, ledger.keys = structs.scarce(), structs.keys()
    ledger.tallies = [model.Tally(random.randrange(1000), random.randrange(1000)) for _ in ledger.scarce]
    for place, struct in ledger.keys:
        kinds = structs.leaves(place, struct)
        if kinds is None:
            continue
        addresses = {random_address(random) for _ in range(random.randrange(4))}
        for address in sorted(addresses):
            leaves = [Value(kind, random_value(random, kind)) for kind in kinds]
            ledger.stored.append(model.Stored(address, place, struct, leaves))
    if ledger.form == 1:
        ledger.stored.sort(key=lambda stored: (stored.address, stored.place, stored.struct))
    return ledger
