"""What a text says, as it says it: a tree whose parts know their offsets (`at`) in the text."""

from dataclasses import dataclass, field
from typing import Any, Dict, List, NamedTuple, Optional, Set, Union

from .model import Value
from .opcodes import Opcode


class Name(NamedTuple):
    """A name of something."""

    text: str
    at: int


class Index(NamedTuple):
    """The index of an entry, in place of a name."""

    number: int
    at: int


Entry = Union[Name, Index]


class ModuleName(NamedTuple):
    """A module: an address, or its index, and a name, or its index; or a name alone, or the index of its handle."""

    address: Union[bytes, Index, None]
    name: Entry
    at: int


class Path(NamedTuple):
    """Something of a module: of the own one where no other is named."""

    module: Optional[ModuleName]
    name: Entry
    at: int


class Type(NamedTuple):
    """A type: its kind, what a reference refers to, and what struct it is."""

    kind: int
    inner: Optional["Type"]
    struct: Union[Path, Index, None]
    at: int


class Called(NamedTuple):
    """A function that is called, with the types that stand after it; its results may be left out."""

    path: Path
    parameters: List["Type"]
    results: Optional[List["Type"]]


class Literal(NamedTuple):
    """A constant: its type and its bytes."""

    type: Type
    data: bytes
    at: int


class FieldPath(NamedTuple):
    """A field of a struct, or the index of its position."""

    struct: Entry
    field: Entry
    at: int


class Line(NamedTuple):
    """An instruction. Its operand is a number, a name, an index, a path, a literal, or None."""

    opcode: Opcode
    operand: Any
    at: int


class Local(NamedTuple):
    """A parameter or another local, with its type."""

    name: Name
    type: Type


class Variable(NamedTuple):
    """A field, with its type."""

    name: Entry
    type: Type


@dataclass
class StructHandleText:
    """A struct of some module, with its abilities."""

    path: Path
    abilities: int


@dataclass
class FunctionHandleText:
    """A function of some module. Its signatures are lists of types, or indices."""

    path: Path
    parameters: Union[List[Type], Index]
    results: Union[List[Type], Index]


@dataclass
class Import:
    """Another module, the name it goes by, and what the module names there."""

    module: ModuleName
    alias: Entry
    structs: List[StructHandleText] = field(default_factory=list)
    functions: List[FunctionHandleText] = field(default_factory=list)


@dataclass
class Struct:
    """A struct definition."""

    name: Entry
    abilities: int
    fields: List[Variable]
    at: int


@dataclass
class Function:
    """A function definition. It has a list of parameters unless its name is an index; its locals may be an index. It is broken where
    lines of it aren't read, since they have errors; `lacks_locals` says that these declare locals."""

    name: Entry
    at: int
    is_public: bool = False
    is_entry: bool = False
    parameters: List[Local] = field(default_factory=list)
    results: List[Type] = field(default_factory=list)
    acquires: List[Entry] = field(default_factory=list)
    locals_index: Optional[Index] = None
    locals: List[Local] = field(default_factory=list)
    labels: Dict[str, int] = field(default_factory=dict)
    label_places: Dict[str, int] = field(default_factory=dict)
    code: List[Line] = field(default_factory=list)
    is_broken: bool = False
    lacks_locals: bool = False


@dataclass
class Tables:
    """How tables begin. A list is empty where none is given."""

    modules: List[ModuleName] = field(default_factory=list)
    structs: List[StructHandleText] = field(default_factory=list)
    functions: List[FunctionHandleText] = field(default_factory=list)
    signatures: List[List[Type]] = field(default_factory=list)
    constants: List[Literal] = field(default_factory=list)
    identifiers: List[Name] = field(default_factory=list)
    addresses: List[bytes] = field(default_factory=list)
    fields: List[FieldPath] = field(default_factory=list)


@dataclass
class Module:
    """A module. It is broken where parts of it aren't read, since they have errors; `lost` are the names that these may declare."""

    name: ModuleName
    version: int
    at: int
    imports: List[Import] = field(default_factory=list)
    structs: List[Struct] = field(default_factory=list)
    functions: List[Function] = field(default_factory=list)
    tables: Optional[Tables] = None
    is_broken: bool = False
    lost: Set[str] = field(default_factory=set)


class HexBytes(NamedTuple):
    """Bytes that the text has."""

    data: bytes
    at: int


class FileName(NamedTuple):
    """Bytes that a file has, or that are made of its text."""

    name: str
    at: int


class Made(NamedTuple):
    """A certificate that is made, as `moveledger prove` makes it."""

    at: int


@dataclass
class Offer:
    """A module of a bundle, and its certificate."""

    module: Union[Module, HexBytes, FileName]
    certificate: Union[HexBytes, FileName, Made]


@dataclass
class Publish:
    """A record that publishes modules."""

    sender: bytes
    offers: List[Offer]
    at: int


@dataclass
class Run:
    """A record that runs a function."""

    sender: bytes
    address: bytes
    module: Name
    function: Name
    budget: int
    arguments: List[Value]
    at: int


@dataclass
class Ask:
    """A record that shows or audits."""

    is_audit: bool
    is_json: bool
    at: int


@dataclass
class Raw:
    """A record of a kind, or bytes outside of any where it is None."""

    kind: Optional[int]
    data: bytes
    at: int


@dataclass
class Stream:
    """Records."""

    records: List[Union[Publish, Run, Ask, Raw]]
