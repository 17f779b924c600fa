"""The names that a text has and its bytes haven't: those of locals and labels, and the places of what the bytes are made of.
`moveasm -g` keeps them in a file beside the bytes; docs/TEXT.md says what it has."""

import hashlib
import json
from dataclasses import dataclass, field
from typing import Any, Dict, List, Optional, Tuple

from . import syntax
from .errors import Source
from .model import TABLE_NAMES

FORM = 1
SUFFIX = ".names"
KINDS = {name: kind for kind, name in TABLE_NAMES.items()}

LineColumn = Tuple[int, int]


class NamesError(Exception):
    """Why a file has no names."""


@dataclass
class FunctionNames:
    """Of a function: its locals' names, the labels before each instruction that has any, and the places of its head and its
    instructions."""

    place: LineColumn
    locals: List[str] = field(default_factory=list)
    labels: Dict[int, List[str]] = field(default_factory=dict)
    lines: List[LineColumn] = field(default_factory=list)


@dataclass
class ModuleNames:
    """Of a module: the text's file, the places of the module and of the entries of its tables, and its functions."""

    file: str
    place: LineColumn
    entries: Dict[int, List[LineColumn]] = field(default_factory=dict)
    functions: List[FunctionNames] = field(default_factory=list)

    def of_function(self, index: Optional[int]) -> Optional[FunctionNames]:
        """The names of a function, or None where there are none."""
        return self.functions[index] if index is not None and index < len(self.functions) else None

    def line_column(self, kind: Optional[int], index: Optional[int], function: Optional[int],
                    instruction: Optional[int]) -> LineColumn:
        """The nearest place that is known: that of an instruction, of a function, of an entry, or of the module."""
        names = self.of_function(function)
        if names is not None:
            at = instruction if instruction is not None else -1
            return names.lines[at] if 0 <= at < len(names.lines) else names.place
        known = self.entries.get(kind or 0, [])
        return known[index] if index is not None and index < len(known) else self.place


def function_names(function: syntax.Function, source: Source) -> FunctionNames:
    """The names of a function of a text."""
    labels: Dict[int, List[str]] = {}
    for label, place in function.labels.items():
        labels.setdefault(place, []).append(label)
    locals_ = [one.name.text for one in function.parameters + function.locals]
    return FunctionNames(source.place(function.at), locals_, labels, [source.place(one.at) for one in function.code])


def module_names(tree: syntax.Module, entries: Dict[int, List[int]], source: Source) -> ModuleNames:
    """The names of a module of a text. `entries` are the offsets of the entries of its tables."""
    places = {kind: [source.place(at) for at in starts] for kind, starts in entries.items()}
    functions = [function_names(one, source) for one in tree.functions]
    return ModuleNames(source.name, source.place(tree.at), places, functions)


def digest(module: bytes) -> str:
    """What stands for a module's bytes."""
    return hashlib.sha256(module).hexdigest()


@dataclass
class StreamNames:
    """Of a stream: the text's file, and the places of its records."""

    file: str
    records: List[LineColumn] = field(default_factory=list)


class NameTable:
    """The names of modules and of streams, by their bytes."""

    def __init__(self) -> None:
        self.modules: Dict[str, ModuleNames] = {}
        self.streams: Dict[str, StreamNames] = {}

    def add(self, module: bytes, names: ModuleNames) -> None:
        self.modules[digest(module)] = names

    def of(self, module: bytes) -> Optional[ModuleNames]:
        """The names of a module, or None where there are none."""
        return self.modules.get(digest(module)) if self.modules else None

    def add_stream(self, stream: bytes, names: StreamNames) -> None:
        self.streams[digest(stream)] = names

    def of_stream(self, stream: bytes) -> Optional[StreamNames]:
        """The places of a stream's records, or None where they aren't known."""
        return self.streams.get(digest(stream)) if self.streams else None

    def text(self) -> str:
        """The file of these names."""
        streams = {key: {"file": one.file, "records": one.records} for key, one in self.streams.items()}
        return json.dumps({"form": FORM, "modules": {key: fields_of(one) for key, one in self.modules.items()},
                           "streams": streams}, separators=(",", ":")) + "\n"


def fields_of(names: ModuleNames) -> Dict[str, object]:
    """A module's names by field."""
    entries = {TABLE_NAMES[kind]: places for kind, places in names.entries.items()}
    functions = [{"place": one.place, "locals": one.locals, "labels": one.labels, "lines": one.lines} for one in names.functions]
    return {"file": names.file, "place": names.place, "entries": entries, "functions": functions}


def read_names(data: bytes) -> NameTable:
    """The names that a file has. NamesError where it has none."""
    table = NameTable()
    try:
        told = json.loads(data.decode())
        if told["form"] != FORM:
            raise NamesError(f"the names are of the form {told['form']}; this tool reads the form {FORM}")
        for key, one in told["modules"].items():
            table.modules[key] = names_of(one)
        for key, one in told["streams"].items():
            table.streams[key] = StreamNames(str(one["file"]), [pair(place) for place in one["records"]])
    except (ValueError, KeyError, TypeError, AttributeError, RecursionError):
        raise NamesError("it has no names as `moveasm -g` keeps them") from None
    return table


def names_of(told: Dict[str, Any]) -> ModuleNames:
    """A module's names from their fields."""
    entries = {KINDS[name]: [pair(one) for one in places] for name, places in told["entries"].items()}
    functions = [
        FunctionNames(pair(one["place"]), [str(name) for name in one["locals"]],
                      {int(at): [str(name) for name in labels] for at, labels in one["labels"].items()},
                      [pair(line) for line in one["lines"]]) for one in told["functions"]]
    return ModuleNames(str(told["file"]), pair(told["place"]), entries, functions)


def pair(told: List[Any]) -> LineColumn:
    """A line and a column."""
    line, column = told
    return int(line), int(column)
