"""Modules as text in the language of docs/TEXT.md."""

from bisect import bisect_left
from typing import Callable, Dict, Iterable, List, Optional, Sequence, Set

from . import model
from .cursor import Fault
from .model import entry
from .naming import Names, abilities_text, address_text, other_tables, quoted, unused_name
from .opcodes import CONSTANT, FIELD, FUNCTION, LOCAL, NOTHING, NUMBER, STRUCT, TARGET
from .reader import ModuleReading
from .source_names import ModuleNames
from .states import state_lines

INDENT = "    "
WIDTH = 120

# The tables that may be listed, in the order in which they are, and their words.
TABLE_WORDS = {
    model.MODULE_HANDLES: "modules", model.STRUCT_HANDLES: "structs", model.FUNCTION_HANDLES: "functions",
    model.SIGNATURES: "signatures", model.CONSTANTS: "constants", model.IDENTIFIERS: "identifiers",
    model.ADDRESSES: "addresses", model.FIELD_HANDLES: "fields",
}

OTHER_ORDER = "// The tables of these bytes stand in another order than a writer's, in which this text makes them."


def module_lines(reading: ModuleReading, certificate: Optional[model.Certificate] = None, base: int = 0,
                 source: Optional[ModuleNames] = None) -> List[str]:
    """A module that was read, as lines of text. A certificate's states stand as comments where their blocks begin. Offsets
    are told from the first byte of the file, in which the module begins at `base`. Locals and labels are called as in the
    module's text where its names are given."""
    lines = []
    if not reading.is_in_order:
        lines.append(OTHER_ORDER)
    return lines + ModulePrinter(reading.module, certificate, reading.faults, base, source).lines()


def indented(lines: Iterable[str], depth: int = 1) -> List[str]:
    return [INDENT * depth + line if line else line for line in lines]


def filled(front: str, entries: List[str], back: str) -> List[str]:
    """Entries with semicolons between them on one line behind `front`, or on several between `front` and `back`."""
    line = f"{front} {'; '.join(entries)} {back}"
    if len(line) <= WIDTH:
        return [line]
    width = WIDTH - 2 * len(INDENT)
    lines: List[List[str]] = [[]]
    taken = 0
    for one in entries:
        if taken and taken + len(one) > width:
            lines.append([])
            taken = 0
        lines[-1].append(one)
        taken += len(one) + 2
    return [front] + indented("; ".join(line) for line in lines) + [back]


class ModulePrinter:
    """Prints a module. Faults are those found in its bytes, shown as comments where they stand in code."""

    def __init__(self, module: model.Module, certificate: Optional[model.Certificate] = None, faults: Sequence[Fault] = (),
                 base: int = 0, source: Optional[ModuleNames] = None):
        self.base = base
        self.module = module
        self.source = source
        self.names = Names(module)
        self.states = certificate.functions if certificate else []
        self.faults = faults

    def lines(self) -> List[str]:
        """The module, with an empty line before and behind each part of several lines."""
        parts = [self.tables(), self.imports()]
        parts += [self.struct(index, one) for index, one in enumerate(self.module.structs)]
        parts += [FunctionPrinter(self, index, one).lines() for index, one in enumerate(self.module.functions)]
        body: List[str] = []
        is_long = False
        for part in filter(None, parts):
            if body and (is_long or len(part) > 1):
                body.append("")
            body += part
            is_long = len(part) > 1
        return [self.head() + " {"] + indented(body) + ["}"]

    def head(self) -> str:
        """What stands before the module's brace."""
        own = self.module.own
        named = self.names.module_text(own) if entry(self.names.is_module, own) else f"#{own}"
        return f"module {named}" + (f" version {self.module.version}" if self.module.version != 5 else "")

    def tables(self) -> List[str]:
        """The tables that come out in another order where they aren't listed."""
        other = other_tables(self.names)
        if not other:
            return []
        lines = []
        for kind, word in TABLE_WORDS.items():
            if kind in other and self.module.table(kind):
                entries = [self.entry_text(kind, index) for index in range(len(self.module.table(kind)))]
                lines += filled(f"{word} {{", entries, "}")
        return ["tables {"] + indented(lines) + ["}"] if lines else []

    def entry_text(self, kind: int, index: int) -> str:
        """An entry of a table as it's listed."""
        one = self.module.table(kind)[index]
        if kind == model.MODULE_HANDLES:
            return self.names.module_text(index)
        if kind == model.IDENTIFIERS:
            return quoted(one)
        if kind == model.ADDRESSES:
            return address_text(one)
        if kind == model.SIGNATURES:
            return self.names.types(one)
        if kind == model.CONSTANTS:
            return self.names.raw_constant(one)
        if kind == model.STRUCT_HANDLES:
            named = self.names.structs[index] if self.names.is_struct[index] else f"#{one.module}::#{one.name}"
            return named + abilities_text(one.abilities)
        if kind == model.FUNCTION_HANDLES:
            return self.function_handle(index, one)
        return self.names.fields[index] if self.names.is_field[index] else f"#{one.struct}.#{one.position}"

    def function_handle(self, index: int, handle: model.FunctionHandle) -> str:
        """A function handle as an import or a table lists it."""
        if not self.names.is_function[index]:
            return f"#{handle.module}::#{handle.name} #{handle.parameters}: #{handle.results}"
        return self.names.functions[index] + self.signature_text(handle)

    def signature_text(self, handle: model.FunctionHandle) -> str:
        signatures = self.module.signatures
        return self.names.types(signatures[handle.parameters]) + self.names.results(signatures[handle.results])

    def imports(self) -> List[str]:
        """The other modules, each with its structs and functions."""
        lines = []
        for index, named in enumerate(self.names.is_module):
            if named and index != self.module.own:
                lines += self.import_lines(index)
        return lines

    def import_lines(self, index: int) -> List[str]:
        module, names = self.module, self.names
        alias = names.aliases.get(index)
        front = f"import {names.module_text(index)}" + (f" as {alias}" if alias else "")
        parts = [f"struct {names.identifiers[handle.name]}{abilities_text(handle.abilities)}"
                 for place, handle in enumerate(module.struct_handles) if names.is_struct[place] and handle.module == index]
        parts += [names.identifiers[handle.name] + self.signature_text(handle)
                  for place, handle in enumerate(module.function_handles)
                  if names.is_function[place] and handle.module == index]
        return [front + " {"] + indented(parts) + ["}"] if parts else [front]

    def struct(self, index: int, definition: model.StructDefinition) -> List[str]:
        """A struct definition."""
        front = f"struct #{definition.handle}"
        if self.names.is_definition[index]:
            abilities = self.module.struct_handles[definition.handle].abilities
            front = f"struct {self.names.definitions[index]}{abilities_text(abilities)}"
        seen: Set[int] = set()
        fields = [self.field(one, seen) for one in definition.fields]
        line = f"{front} {{ {', '.join(fields)} }}" if fields else f"{front} {{}}"
        if len(line) <= WIDTH:
            return [line]
        return [front + " {"] + indented(one + "," for one in fields) + ["}"]


    def field(self, one: model.Field, seen: Set[int]) -> str:
        """A field of a struct. A second one of a name is told by the name's index."""
        name = f"#{one.name}" if one.name in seen else self.names.identifier(one.name)
        seen.add(one.name)
        return f"{name}: {self.names.type(one.type)}"


class FunctionPrinter:
    """Prints a function definition."""

    def __init__(self, printer: ModulePrinter, index: int, function: model.FunctionDefinition):
        self.names = printer.names
        self.module = printer.module
        self.function = function
        self.base = printer.base
        self.is_named = printer.names.is_function_definition[index]
        self.parameters = model.known(printer.module.parameters(function)) if self.is_named else ()
        self.states = entry(printer.states, index)
        self.faults = self.own_faults(printer, index)
        has_types = self.is_named and entry(self.names.is_signature, function.locals)
        self.others = self.module.signatures[function.locals] if has_types else None
        self.named_locals = len(self.parameters) + len(self.others or ()) if self.is_named else 0
        self.source = printer.source.of_function(index) if printer.source else None
        self.locals = self.local_names()
        self.labels = self.label_names()

    def local_names(self) -> List[str]:
        """The locals' names: those of the text where it has one for each, otherwise by their numbers."""
        known = self.source.locals if self.source else []
        if known and len(known) == self.named_locals and len(set(known)) == len(known):
            return [quoted(name) for name in known]
        first = len(self.parameters)
        return [f"p{index}" if index < first else f"l{index}" for index in range(self.named_locals)]

    def label_names(self) -> Dict[int, List[str]]:
        """The labels before instructions: those of the text, and for each other target one by its block's number."""
        code = self.function.code
        targets = {one.operand for one in code if one.opcode.operand == TARGET}
        known = {at: list(labels) for at, labels in self.source.labels.items() if at < len(code)} if self.source else {}
        taken = {label for labels in known.values() for label in labels}
        found = {at: [quoted(label) for label in labels] for at, labels in known.items() if labels}
        for block, start in enumerate(self.function.block_starts()):
            if start in targets and start not in found:
                found[start] = [unused_name(f"b{block}", taken)]
        return found

    def own_faults(self, printer: ModulePrinter, index: int) -> Sequence[Fault]:
        """The faults that stand in this function's code."""
        if not printer.faults or not self.function.code:
            return []
        after = next((one.code[0].offset for one in printer.module.functions[index + 1:] if one.code), None)
        offsets = [fault.offset for fault in printer.faults]
        end = len(offsets) if after is None else bisect_left(offsets, after)
        return printer.faults[bisect_left(offsets, self.function.code[0].offset or 0):end]

    def lines(self) -> List[str]:
        return [self.head() + " {"] + indented(self.lets()) + self.code() + ["}"]

    def head(self) -> str:
        """What stands before the function's brace."""
        function, names = self.function, self.names
        words = ["public"] * function.is_public + ["entry"] * function.is_entry
        if self.is_named:
            handle = self.module.function_handles[function.handle]
            parameters = ", ".join(f"{self.locals[index]}: {names.type(one)}" for index, one in enumerate(self.parameters))
            results = names.results(self.module.signatures[handle.results])
            words.append(f"{names.functions[function.handle]}({parameters}){results}")
        else:
            words.append(f"#{function.handle}")
        if function.acquires:
            words.append("acquires " + ", ".join(entry(names.definitions, one) or f"#{one}" for one in function.acquires))
        if self.others is None:
            words.append(f"locals #{function.locals}")
        return " ".join(words)

    def lets(self) -> List[str]:
        first = len(self.parameters)
        return [f"let {self.locals[first + index]}: {self.names.type(one)}" for index, one in enumerate(self.others or ())]

    def local(self, index: int) -> str:
        """A local's name, or its number where it has none."""
        return self.locals[index] if index < len(self.locals) else str(index)

    def code(self) -> List[str]:
        """The instructions, with labels and what the certificate states."""
        code, labels = self.function.code, self.labels
        before = self.comments(self.function.block_starts())
        texts = self.operand_texts(labels)
        lines = []
        for index, instruction in enumerate(code):
            if index in labels:
                lines += [label + ":" for label in labels[index]]
            if index in before:
                lines += before[index]
            opcode = instruction.opcode
            lines.append(INDENT + opcode.name + texts[opcode.operand](instruction.operand))
        return lines + before.get(len(code), [])

    def operand_texts(self, labels: Dict[int, List[str]]) -> Dict[int, Callable[[int], str]]:
        """For each kind of operand what makes its text, with a blank before it."""
        def text_of(texts: List[str]) -> Callable[[int], str]:
            return lambda index: f" {texts[index]}" if index < len(texts) else f" #{index}"
        names = self.names
        return {
            NOTHING: lambda _: "", NUMBER: lambda number: f" {number}", LOCAL: lambda index: " " + self.local(index),
            TARGET: lambda index: f" {labels[index][0] if index in labels else index}", FUNCTION: text_of(names.functions),
            STRUCT: text_of(names.definitions), FIELD: text_of(names.fields), CONSTANT: text_of(names.constants),
        }

    def comments(self, blocks: List[int]) -> Dict[int, List[str]]:
        """By instruction, the lines of comments before it: faults, and states."""
        found: Dict[int, List[str]] = {}
        for block, state in enumerate(self.states or ()):
            told = state_lines(self.names, self.function, self.local, state)
            lines = [f"{INDENT}// block {block}: {told[0]}"] + [f"{INDENT}//     {line}" for line in told[1:]]
            found[blocks[block]] = lines
        offsets = [one.offset or 0 for one in self.function.code]
        for fault in self.faults:
            place = bisect_left(offsets, fault.offset)
            found.setdefault(place, []).append(f"{INDENT}// offset {self.base + fault.offset}: {fault.reason}")
        return found
