"""What the bytes say: modules and certificates as plain values, and with them records and saved ledgers.

A module keeps its tables as lists in their order, and what refers to an entry holds its index, so that the bytes are made
from it again exactly. Indices may be out of bounds: what resolves them answers None there."""

from dataclasses import dataclass, field
from typing import Any, List, Optional, Sequence, Tuple, TypeVar, Union

from .opcodes import Opcode
from .record_model import (AUDIT, LEDGER_MAGIC, PUBLISH, RUN, SHOW, Audit, Ledger, Offer, Publish, RawRecord,
                           Record, Run, Show, Stored, Stream, Tally)
from .values import (ADDRESS, ADDRESS_BYTES, BOOL, LATE_KINDS, LEAF_KINDS, LEAF_NAMES, LEAF_WIDTHS, MUTABLE,
                     NUMBER_KINDS, REFERENCE, SIGNER, STRUCT, U8, U16, U32, U64, U128, Value, read_leaf, write_leaf)

# What this module has of others for those that import it.
__all__ = [
    "ADDRESS", "ADDRESS_BYTES", "AUDIT", "BOOL", "LATE_KINDS", "LEAF_KINDS", "LEAF_NAMES", "LEAF_WIDTHS", "LEDGER_MAGIC", "MUTABLE",
    "NUMBER_KINDS", "PUBLISH", "REFERENCE", "RUN", "SHOW", "SIGNER", "STRUCT", "U8", "U16", "U32", "U64", "U128", "Audit", "Ledger",
    "Offer", "Publish", "RawRecord", "Record", "Run", "Show", "Stored", "Stream", "Tally", "Value", "read_leaf", "write_leaf",
]

T = TypeVar("T")

MAGIC = bytes.fromhex("a11ceb0b")
VERSIONS = (5, 6)

# The kinds of tables.
MODULE_HANDLES, STRUCT_HANDLES, FUNCTION_HANDLES, SIGNATURES, CONSTANTS = 0x01, 0x02, 0x03, 0x05, 0x06
IDENTIFIERS, ADDRESSES, STRUCTS, FUNCTIONS, FIELD_HANDLES = 0x07, 0x08, 0x0A, 0x0C, 0x0D

TABLE_NAMES = {
    MODULE_HANDLES: "module handles", STRUCT_HANDLES: "struct handles", FUNCTION_HANDLES: "function handles",
    SIGNATURES: "signatures", CONSTANTS: "constants", IDENTIFIERS: "identifiers", ADDRESSES: "addresses",
    STRUCTS: "struct definitions", FUNCTIONS: "function definitions", FIELD_HANDLES: "field handles",
}

# Abilities are bits.
COPY, DROP, STORE, KEY = 1, 2, 4, 8
ABILITIES = ((COPY, "copy"), (DROP, "drop"), (STORE, "store"), (KEY, "key"))


@dataclass(frozen=True)
class Token:
    """A type. `inner` is what a reference refers to, `struct` the index of a struct's handle; of any other type they are None,
    and nobody asks."""

    kind: int
    inner: "Token" = None  # type: ignore[assignment]
    struct: int = None  # type: ignore[assignment]

    @property
    def is_reference(self) -> bool:
        return self.kind in (REFERENCE, MUTABLE)

    @property
    def is_mutable(self) -> bool:
        """Whether it is a mutable reference."""
        return self.kind == MUTABLE

    @property
    def is_number(self) -> bool:
        return self.kind in NUMBER_KINDS

    @property
    def value_type(self) -> "Token":
        """What a reference refers to, and any other type itself."""
        return self.inner if self.is_reference else self


Signature = Tuple[Token, ...]


@dataclass(frozen=True)
class ModuleHandle:
    """A module's address and name, as indices of an address and an identifier."""

    address: int
    name: int


@dataclass(frozen=True)
class StructHandle:
    """A struct: indices of a module handle and an identifier, and its abilities as bits."""

    module: int
    name: int
    abilities: int


@dataclass(frozen=True)
class FunctionHandle:
    """A function: indices of a module handle, an identifier and two signatures."""

    module: int
    name: int
    parameters: int
    results: int


@dataclass(frozen=True)
class FieldHandle:
    """A field: the index of a struct definition, and the field's position there."""

    struct: int
    position: int


@dataclass(frozen=True)
class Constant:
    """A constant's type and bytes."""

    type: Token
    data: bytes

    @property
    def value(self) -> Union[bool, int, bytes, None]:
        """The value, as `read_leaf` gives it, or None where the bytes are no value of the type."""
        return read_leaf(self.type.kind, self.data)


@dataclass(frozen=True)
class Field:
    """A field of a struct definition: the index of its name, and its type."""

    name: int
    type: Token


@dataclass
class StructDefinition:
    """A struct of the module: the index of its handle, and its fields."""

    handle: int
    fields: List[Field] = field(default_factory=list)


@dataclass
class Instruction:
    """A row of the table of instructions with an operand: an index or a number, or None where the row has none. `offset` is where
    it stands in the bytes that it was read from."""

    opcode: Opcode
    operand: int = None  # type: ignore[assignment]
    offset: Optional[int] = field(default=None, compare=False)

    @property
    def name(self) -> str:
        return self.opcode.name


@dataclass
class FunctionDefinition:
    """A function of the module: the index of its handle, its flags, the struct definitions it acquires, the index of the
    signature of its locals beside the parameters, and its instructions."""

    handle: int
    is_public: bool = False
    is_entry: bool = False
    acquires: List[int] = field(default_factory=list)
    locals: int = 0
    code: List[Instruction] = field(default_factory=list)

    def block_starts(self) -> List[int]:
        """The first instructions of the blocks, in order."""
        size = len(self.code)
        starts = {0} if size else set()
        for index, instruction in enumerate(self.code):
            if instruction.opcode.is_branch and instruction.operand < size:
                starts.add(instruction.operand)
            if instruction.opcode.ends_block and index + 1 < size:
                starts.add(index + 1)
        return sorted(starts)


def entry(table: Sequence[T], index: Optional[int]) -> Optional[T]:
    """The entry of a table at an index, or None where there is none."""
    return table[index] if index is not None and 0 <= index < len(table) else None


def known(found: Optional[T]) -> T:
    """What was found of a module that passed phase 3, in which all that is named is there."""
    assert found is not None
    return found


@dataclass
class Module:
    """A module's tables, each in its order, and the index of the module handle that is its own."""

    version: int = 5
    module_handles: List[ModuleHandle] = field(default_factory=list)
    struct_handles: List[StructHandle] = field(default_factory=list)
    function_handles: List[FunctionHandle] = field(default_factory=list)
    signatures: List[Signature] = field(default_factory=list)
    constants: List[Constant] = field(default_factory=list)
    identifiers: List[str] = field(default_factory=list)
    addresses: List[bytes] = field(default_factory=list)
    structs: List[StructDefinition] = field(default_factory=list)
    functions: List[FunctionDefinition] = field(default_factory=list)
    field_handles: List[FieldHandle] = field(default_factory=list)
    own: int = 0

    def table(self, kind: int) -> List[Any]:
        """The entries of the table of a kind."""
        found: List[Any] = getattr(self, TABLE_FIELDS[kind])
        return found

    def identifier(self, index: Optional[int]) -> Optional[str]:
        return entry(self.identifiers, index)

    def address_of(self, module_handle: int) -> Optional[bytes]:
        """The address of the module that the handle at an index names."""
        handle = entry(self.module_handles, module_handle)
        return entry(self.addresses, handle.address) if handle else None

    def module_name(self, module_handle: int) -> Optional[str]:
        """The name of the module that the handle at an index names."""
        handle = entry(self.module_handles, module_handle)
        return entry(self.identifiers, handle.name) if handle else None

    def struct_name(self, struct_handle: Optional[int]) -> Optional[str]:
        """The name of the struct that the handle at an index names."""
        handle = entry(self.struct_handles, struct_handle)
        return entry(self.identifiers, handle.name) if handle else None

    def function_name(self, function_handle: int) -> Optional[str]:
        """The name of the function that the handle at an index names."""
        handle = entry(self.function_handles, function_handle)
        return entry(self.identifiers, handle.name) if handle else None

    def definition_handle(self, struct: int) -> Optional[StructHandle]:
        """The struct handle of the struct definition at an index."""
        definition = entry(self.structs, struct)
        return entry(self.struct_handles, definition.handle) if definition else None

    def definition_name(self, struct: int) -> Optional[str]:
        """The name of the struct definition at an index."""
        definition = entry(self.structs, struct)
        return self.struct_name(definition.handle) if definition else None

    def definition_of(self, struct_handle: Optional[int]) -> Optional[int]:
        """The index of the first struct definition of the handle at an index."""
        return next((i for i, definition in enumerate(self.structs) if definition.handle == struct_handle), None)

    def field_of(self, field_handle: int) -> Optional[Field]:
        """The field that the field handle at an index names."""
        handle = entry(self.field_handles, field_handle)
        definition = entry(self.structs, handle.struct) if handle else None
        return entry(definition.fields, handle.position) if handle and definition else None

    def signature(self, index: Optional[int]) -> Optional[Signature]:
        """The types of a signature, or None."""
        return entry(self.signatures, index)

    def parameters(self, function: FunctionDefinition) -> Optional[Signature]:
        """The types of a function definition's parameters, or None."""
        handle = entry(self.function_handles, function.handle)
        return entry(self.signatures, handle.parameters) if handle else None

    def results(self, function: FunctionDefinition) -> Optional[Signature]:
        """The types of a function definition's results, or None."""
        handle = entry(self.function_handles, function.handle)
        return entry(self.signatures, handle.results) if handle else None

    def local_types(self, function: FunctionDefinition) -> Optional[Signature]:
        """The types of a function definition's locals, its parameters first, or None."""
        parameters, others = self.parameters(function), entry(self.signatures, function.locals)
        return None if parameters is None or others is None else parameters + others

    def is_own_struct(self, struct_handle: Optional[int]) -> bool:
        """Whether the struct handle at an index names a struct of this module."""
        handle = entry(self.struct_handles, struct_handle)
        return handle is not None and handle.module == self.own


# Of each kind of table, in ascending order, where a module keeps it.
TABLE_FIELDS = {
    MODULE_HANDLES: "module_handles", STRUCT_HANDLES: "struct_handles", FUNCTION_HANDLES: "function_handles",
    SIGNATURES: "signatures", CONSTANTS: "constants", IDENTIFIERS: "identifiers", ADDRESSES: "addresses",
    STRUCTS: "structs", FUNCTIONS: "functions", FIELD_HANDLES: "field_handles",
}


# Availabilities of a local.
UNAVAILABLE, AVAILABLE, MAYBE = 0, 1, 2
AVAILABILITY_NAMES = ("Unavailable", "Available", "Maybe")

# Kinds of nodes.
SLOT, OWN, GLOB = 0, 1, 2
NODE_NAMES = ("Slot", "Own", "Glob")


@dataclass(frozen=True, order=True)
class Node:
    """A node: Slot or Own with the index of a local, or Glob with the index of a struct definition."""

    kind: int
    index: int


@dataclass(frozen=True, order=True)
class Edge:
    """An edge from a node to a Slot, with its list of field positions, which is open or exact."""

    source: Node
    target: Node
    positions: Tuple[int, ...] = ()
    is_open: bool = False


@dataclass
class BlockState:
    """What is stated where a reached block begins: an availability for each local, and edges."""

    availabilities: List[int] = field(default_factory=list)
    edges: List[Edge] = field(default_factory=list)


@dataclass
class Certificate:
    """For each function definition, for each of its blocks, the stated state, or None where the block isn't reached."""

    functions: List[List[Optional[BlockState]]] = field(default_factory=list)
