"""Modules from bytes. Any bytes are taken: where they are no module, what was read of them is kept, with each place where
they aren't as docs/FORMATS.md has them, and why."""

from dataclasses import dataclass, field
from typing import Any, Dict, List, Optional, Tuple

from . import limits, model
from .cursor import Cursor, Fault, Stop
from .model import TABLE_NAMES, Constant, Field, FieldHandle, FunctionDefinition, FunctionHandle, Instruction, Module
from .model import ModuleHandle, StructDefinition, StructHandle
from .opcodes import BY_CODE, NUMBER

HEADERS_AT = 8
OPCODES_SAID = "01 to 35, and in version 6 48, 49, 4B and 4C"


@dataclass
class Header:
    """A header: its table's kind, the offset and length that it gives, where its bytes begin, and where its table does."""

    kind: int
    offset: int
    length: int
    at: int
    start: int = 0


@dataclass
class ModuleReading:
    """What was read of bytes: a module as far as it goes, its headers, where each entry begins, and the faults found.

    There are no faults exactly where the bytes are a module. `offsets[kind][index]` is where the entry at an index of the
    table of a kind begins; an entry that stopped has an offset and stands in no table, but for a function whose code
    stopped, which is kept. `own_at` is where the own module handle stands, or None."""

    module: Module
    headers: List[Header] = field(default_factory=list)
    faults: List[Fault] = field(default_factory=list)
    offsets: Dict[int, List[int]] = field(default_factory=dict)
    own_at: Optional[int] = None

    @property
    def is_module(self) -> bool:
        return not self.faults

    @property
    def is_in_order(self) -> bool:
        """Whether headers and contents stand in ascending order of kind, as a writer puts them."""
        by_content = sorted(self.headers, key=lambda header: header.offset)
        kinds = [header.kind for header in self.headers]
        return kinds == sorted(kinds) == [header.kind for header in by_content]


def read_module(data: bytes) -> ModuleReading:
    """What bytes are as a module: a ModuleReading."""
    reading = ModuleReading(Module())
    cursor = Cursor(data, faults=reading.faults)
    try:
        read_front(cursor, reading)
        area_end = place_tables(cursor, reading)
        for header in sorted(reading.headers, key=lambda header: header.start):
            read_table(data, header, reading)
        cursor.at = min(area_end, len(data))
        read_own(cursor, reading)
    except Stop:
        pass
    reading.faults.sort(key=lambda fault: fault.offset)
    return reading


def read_front(cursor: Cursor, reading: ModuleReading) -> None:
    """The magic bytes, the version and the headers."""
    for index, wanted in enumerate(model.MAGIC):
        if cursor.byte("the magic bytes") != wanted:
            cursor.stop(index, f"byte {index} is {cursor.data[index]:02X}, not {wanted:02X}; a module begins with the bytes "
                               "A1 1C EB 0B")
    version = int.from_bytes(cursor.bytes(4, "the version"), "little")
    if version not in model.VERSIONS:
        cursor.fault(4, f"version {version}; a module is of version 5 or 6")
    reading.module.version = 5 if version == 5 else 6
    count_at = cursor.at
    count = cursor.number(limits.TABLE_COUNT, "the number of tables")
    if count > len(TABLE_NAMES):
        cursor.fault(count_at, f"{count} tables: there are {len(TABLE_NAMES)} kinds, each at most once")
    for place in range(count):
        reading.headers.append(read_header(cursor, reading.headers, place))


def read_header(cursor: Cursor, before: List[Header], place: int) -> Header:
    """A header."""
    at = cursor.at
    kind = cursor.byte(f"the kind of table {place}")
    if kind not in TABLE_NAMES:
        cursor.fault(at, f"a table of the kind {kind:02X}; the kinds are {', '.join(f'{one:02X}' for one in TABLE_NAMES)}")
    elif any(kind == header.kind for header in before):
        cursor.fault(at, f"a second table of {TABLE_NAMES[kind]}; each kind stands at most once")
    named = TABLE_NAMES.get(kind, f"table {place}")
    offset = cursor.number(limits.TABLE_BYTES, f"the offset of the {named}")
    length_at = cursor.at
    length = cursor.number(limits.TABLE_BYTES, f"the length of the {named}")
    if length == 0:
        cursor.fault(length_at, f"the {named} have the length 0; an empty table has no header")
    return Header(kind, offset, length, at)


def place_tables(cursor: Cursor, reading: ModuleReading) -> int:
    """Finds where each table begins and where their area ends; notes where the tables don't tile it."""
    area = cursor.at
    expected = 0
    for header in sorted(reading.headers, key=lambda header: (header.offset, header.length)):
        header.start = area + header.offset
        if header.offset != expected:
            named = TABLE_NAMES.get(header.kind, "a table")
            cursor.fault(header.at, f"the {named} begin at {header.offset} of the tables' area, not at {expected}: "
                                    f"tables stand without gap or overlap")
        expected = max(expected, header.offset + header.length)
    if expected > limits.TABLE_BYTES:
        cursor.fault(HEADERS_AT, f"the tables have {expected} bytes; they have at most {limits.TABLE_BYTES}")
    return area + expected


def read_table(data: bytes, header: Header, reading: ModuleReading) -> None:
    """The entries of a table, as far as they go. A table of a kind that was read before is passed over."""
    read_entry = READERS.get(header.kind)
    if read_entry is None or header.kind in reading.offsets:
        return
    end = min(header.start + header.length, len(data))
    cursor = Cursor(data, min(header.start, end), end, reading.faults)
    entries = reading.module.table(header.kind)
    offsets = reading.offsets[header.kind] = []
    try:
        while not cursor.is_at_end:
            offsets.append(cursor.at)
            read_entry(cursor, reading.module, entries)
        if end < header.start + header.length:
            cursor.fault(end, f"the bytes end within the {TABLE_NAMES[header.kind]}")
    except Stop:
        pass
    if header.kind == model.FUNCTIONS and len(entries) > limits.FUNCTION_COUNT:
        cursor.fault(offsets[limits.FUNCTION_COUNT],
                     f"{len(entries)} function definitions; there are at most {limits.FUNCTION_COUNT}")


def read_own(cursor: Cursor, reading: ModuleReading) -> None:
    """The own module handle, after which nothing follows."""
    reading.own_at = cursor.at
    reading.module.own = cursor.index("the own module handle")
    if not cursor.is_at_end:
        cursor.fault(cursor.at, f"{cursor.left()} after the own module handle, which is the last part")


def read_module_handle(cursor: Cursor, _module: Module, entries: List[Any]) -> None:
    address = cursor.index("a module handle's address")
    entries.append(ModuleHandle(address, cursor.index("a module handle's name")))


def read_no_type_parameters(cursor: Cursor, what: str) -> None:
    at = cursor.at
    count = cursor.number(limits.INDEX, f"the number of {what}'s type parameters")
    if count:
        cursor.fault(at, f"{what} has {count} type parameters; there are no generics, so the number is 0")


def read_struct_handle(cursor: Cursor, _module: Module, entries: List[Any]) -> None:
    module = cursor.index("a struct handle's module")
    name = cursor.index("a struct handle's name")
    abilities = cursor.number(limits.ABILITY_BITS, "a struct handle's abilities")
    read_no_type_parameters(cursor, "a struct handle")
    entries.append(StructHandle(module, name, abilities))


def read_function_handle(cursor: Cursor, _module: Module, entries: List[Any]) -> None:
    module = cursor.index("a function handle's module")
    name = cursor.index("a function handle's name")
    parameters = cursor.index("a function handle's parameters")
    results = cursor.index("a function handle's results")
    read_no_type_parameters(cursor, "a function handle")
    entries.append(FunctionHandle(module, name, parameters, results))


def read_signature(cursor: Cursor, module: Module, entries: List[Any]) -> None:
    count = cursor.number(limits.SIGNATURE_TYPES, "the number of a signature's types")
    entries.append(tuple(cursor.token(module.version, "a signature's type") for _ in range(count)))


def read_constant(cursor: Cursor, module: Module, entries: List[Any]) -> None:
    token = cursor.token(module.version, "a constant's type")
    count = cursor.index("the number of a constant's bytes")
    entries.append(Constant(token, cursor.bytes(count, "a constant's bytes")))


def read_identifier(cursor: Cursor, _module: Module, entries: List[Any]) -> None:
    entries.append(cursor.identifier("an identifier"))


def read_address(cursor: Cursor, _module: Module, entries: List[Any]) -> None:
    entries.append(cursor.address("an address"))


def read_struct(cursor: Cursor, module: Module, entries: List[Any]) -> None:
    definition = StructDefinition(cursor.index("a struct definition's handle"))
    at = cursor.at
    mark = cursor.byte("the byte 02 of a struct definition")
    if mark != 2:
        cursor.fault(at, f"a struct definition has the byte {mark:02X} after its handle; it is 02")
    for _ in range(cursor.number(limits.STRUCT_FIELDS, "the number of a struct's fields")):
        name = cursor.index("a field's name")
        definition.fields.append(Field(name, cursor.token(module.version, "a field's type")))
    entries.append(definition)


def read_field_handle(cursor: Cursor, _module: Module, entries: List[Any]) -> None:
    struct = cursor.index("a field handle's struct definition")
    entries.append(FieldHandle(struct, cursor.index("a field handle's position")))


def read_choice(cursor: Cursor, what: str, choices: Tuple[int, int]) -> bool:
    """A byte that is one of two, of which the second means True. Another is noted, and taken as the first."""
    at = cursor.at
    byte = cursor.byte(what)
    if byte not in choices:
        cursor.fault(at, f"{what} is {byte:02X}; it is {choices[0]:02X} or {choices[1]:02X}")
    return byte == choices[1]


def read_function(cursor: Cursor, module: Module, entries: List[Any]) -> None:
    function = FunctionDefinition(cursor.index("a function definition's handle"))
    function.is_public = read_choice(cursor, "a function's visibility", (0, 1))
    function.is_entry = read_choice(cursor, "a function's flags", (0, 4))
    for _ in range(cursor.index("the number of a function's acquired structs")):
        function.acquires.append(cursor.index("an acquired struct"))
    function.locals = cursor.index("the signature of a function's locals")
    entries.append(function)
    count = cursor.number(limits.INSTRUCTION_COUNT, "the number of a function's instructions")
    read_code(cursor, module.version, count, function.code)


def read_code(cursor: Cursor, version: int, count: int, code: List[Instruction]) -> None:
    """So many instructions, put at the end of `code` one by one."""
    data, end = cursor.data, cursor.end
    for _ in range(count):
        start = cursor.at
        if start >= end:
            cursor.stop(start, f"{len(code)} of {count} instructions, and the bytes end")
        opcode = BY_CODE.get(data[start])
        if opcode is None:
            cursor.stop(start, f"the opcode {data[start]:02X}; the opcodes are {OPCODES_SAID}")
        if opcode.version > version:
            cursor.fault(start, f"the instruction {opcode.name} in version {version}; only version {opcode.version} has it")
        cursor.at = start + 1
        operand: int = None  # type: ignore[assignment]
        if opcode.operand == NUMBER:
            operand = int.from_bytes(cursor.bytes(opcode.width, f"the number of {opcode.name}"), "little")
        elif opcode.operand:
            operand = cursor.index("an instruction's index")
        code.append(Instruction(opcode, operand, start))


READERS = {
    model.MODULE_HANDLES: read_module_handle, model.STRUCT_HANDLES: read_struct_handle,
    model.FUNCTION_HANDLES: read_function_handle, model.SIGNATURES: read_signature, model.CONSTANTS: read_constant,
    model.IDENTIFIERS: read_identifier, model.ADDRESSES: read_address, model.STRUCTS: read_struct,
    model.FUNCTIONS: read_function, model.FIELD_HANDLES: read_field_handle,
}
