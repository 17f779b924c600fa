"""A module that was read, with the words for its places."""

from typing import Dict, Iterable, List, NamedTuple, NoReturn, Optional, Tuple

from .. import model
from ..model import entry
from ..naming import Names, address_text, quoted
from ..opcodes import TARGET
from ..printer import FunctionPrinter, ModulePrinter
from ..reader import ModuleReading
from ..source_names import ModuleNames
from .failures import Advice, Failure, Fails, Place, SourcePlace

# What an entry of a table is called.
ENTRY_WORDS = {
    model.MODULE_HANDLES: "module handle", model.STRUCT_HANDLES: "struct handle", model.FUNCTION_HANDLES: "function handle",
    model.SIGNATURES: "signature", model.CONSTANTS: "constant", model.IDENTIFIERS: "identifier", model.ADDRESSES: "address",
    model.STRUCTS: "struct definition", model.FUNCTIONS: "function definition", model.FIELD_HANDLES: "field handle",
}


class Block(NamedTuple):
    """A block: its first and its last instruction, the blocks that control may go on to, and whether it is reached."""

    first: int
    last: int
    successors: List[int]
    is_reached: bool


class Subject:
    """A module with the words for its places. Offsets are told from the first byte of the file, in which the module begins at
    `base`. Where the names of the module's text are given, places and locals have them. Where it advises, failures are told in an
    author's words, too, for which the way to them is searched."""

    def __init__(self, reading: ModuleReading, base: int = 0, source: Optional[ModuleNames] = None, advises: bool = False):
        self.advises = advises
        self.reading = reading
        self.module = reading.module
        self.base = base
        self.source = source
        self.names = Names(self.module)
        self.printer = ModulePrinter(self.module, source=source)
        self.printers: Dict[int, FunctionPrinter] = {}
        self.graphs: Dict[int, List[Block]] = {}
        self.stacks: Dict[int, List[Tuple[model.Token, ...]]] = {}
        self.definition_of = {one.handle: index for index, one in enumerate(self.module.functions)}

    def fail(self, phase: Optional[int], place: Place, rule: str, found: str, state: Iterable[str] = (),
             advice: Optional[Advice] = None) -> NoReturn:
        """Raises a failure."""
        raise Fails(Failure(phase, place, rule, found, tuple(state), self.source_place(place), advice=advice))

    def fail_entry(self, phase: int, kind: int, index: int, rule: str, found: str, advice: Optional[Advice] = None) -> NoReturn:
        """Raises a failure at an entry of a table."""
        self.fail(phase, self.entry(kind, index), rule, found, advice=advice)

    def fail_at(self, phase: int, function: int, at: int, rule: str, found: str, state: Iterable[str] = (),
                advice: Optional[Advice] = None) -> NoReturn:
        """Raises a failure at an instruction of a function."""
        self.fail(phase, self.instruction(function, at), rule, found, state, advice)

    def source_place(self, place: Place) -> Optional[SourcePlace]:
        """A place in the module's text, or None where the text isn't known."""
        if self.source is None:
            return None
        return SourcePlace(self.source.file,
                           *self.source.line_column(place.kind, place.entry, place.function, place.instruction))

    def offset(self, offset: int) -> str:
        return f"offset {self.base + offset}"

    def entry(self, kind: int, index: int) -> Place:
        """An entry of a table, with its name where it has one, and its offset."""
        offset = entry(self.reading.offsets.get(kind, ()), index)
        named = self.entry_name(kind, index)
        text = f"{ENTRY_WORDS[kind]} {index}" + (f" `{named}`" if named else "")
        function = index if kind == model.FUNCTIONS else None
        name = named if kind == model.FUNCTIONS else None
        if offset is None:
            return Place(text, None, kind, index, function, name)
        return Place(f"{text}, {self.offset(offset)}", self.base + offset, kind, index, function, name)

    def entry_name(self, kind: int, index: int) -> Optional[str]:
        """The name of an entry of a table, or None."""
        module, names = self.module, self.names
        if kind == model.ADDRESSES:
            return address_text(module.addresses[index])
        if kind == model.SIGNATURES:
            return names.types(module.signatures[index])
        if kind == model.MODULE_HANDLES:
            return names.module_text(index)
        if kind == model.CONSTANTS:
            return names.raw_constant(module.constants[index])
        if kind == model.FUNCTIONS:
            return module.function_name(module.functions[index].handle)
        if kind == model.FIELD_HANDLES:
            return names.fields[index] if names.is_field[index] else None
        named = {model.IDENTIFIERS: module.identifier, model.STRUCT_HANDLES: module.struct_name,
                 model.FUNCTION_HANDLES: module.function_name, model.STRUCTS: module.definition_name}
        return named[kind](index)

    def function(self, function: int) -> Place:
        """A function definition."""
        return self.entry(model.FUNCTIONS, function)

    def function_name(self, function: int) -> str:
        named = self.entry_name(model.FUNCTIONS, function)
        return f"function {function}" + (f" `{named}`" if named else "")

    def code_printer(self, function: int) -> FunctionPrinter:
        if function not in self.printers:
            self.printers[function] = FunctionPrinter(self.printer, function, self.module.functions[function])
        return self.printers[function]

    def label(self, function: int, at: int) -> Optional[str]:
        """The label that the text has before an instruction, or None."""
        names = self.source.of_function(function) if self.source else None
        labels = names.labels.get(at) if names else None
        return quoted(labels[0]) if labels else None

    def instruction_text(self, function: int, at: int) -> str:
        """An instruction as the language of modules has it; a target without a label is an instruction's number."""
        printer = self.code_printer(function)
        instruction = self.module.functions[function].code[at]
        if instruction.opcode.operand == TARGET:
            return f"{instruction.name} {self.label(function, instruction.operand) or instruction.operand}"
        return instruction.name + printer.operand_texts({})[instruction.opcode.operand](instruction.operand)

    def instruction(self, function: int, at: int) -> Place:
        """An instruction of a function, with its block."""
        code = self.module.functions[function].code
        block = sum(start <= at for start in self.module.functions[function].block_starts()) - 1
        found = code[at].offset
        offset = None if found is None else self.base + found
        where = "" if offset is None else f", offset {offset}"
        text = self.instruction_text(function, at)
        return Place(f"{self.function_name(function)}, block {block}, instruction {at} `{text}`{where}", offset,
                     function=function, function_name=self.entry_name(model.FUNCTIONS, function), block=block, instruction=at,
                     code=text)

    def block(self, function: int, block: int, is_end: bool = False) -> Place:
        """A block of a function. It stands in the text at its first instruction, or at its last one."""
        first, last = self.graph(function)[block][:2]
        label = self.label(function, first)
        named = f"block {block}" + (f" `{label}`" if label else "")
        return Place(f"{self.function_name(function)}, {named} (instructions {first} to {last})", function=function,
                     function_name=self.entry_name(model.FUNCTIONS, function), block=block, instruction=last if is_end else first)

    def local(self, function: int, index: int) -> str:
        """A local's name."""
        return self.code_printer(function).local(index)

    def type(self, token: model.Token) -> str:
        return self.names.type(token)

    def abilities(self, token: model.Token) -> int:
        """The abilities of a type, as bits."""
        if token.kind == model.STRUCT:
            return self.module.struct_handles[token.struct].abilities
        if token.kind == model.SIGNER:
            return model.DROP
        return model.COPY | model.DROP if token.is_reference else model.COPY | model.DROP | model.STORE

    def graph(self, function: int) -> List[Block]:
        """The blocks of a function that passed phase 7."""
        if function not in self.graphs:
            self.graphs[function] = graph_of(self.module.functions[function])
        return self.graphs[function]


def graph_of(function: model.FunctionDefinition) -> List[Block]:
    """The blocks of a function's code."""
    code, starts = function.code, function.block_starts()
    place = {start: block for block, start in enumerate(starts)}
    ends = [start - 1 for start in starts[1:]] + [len(code) - 1]
    successors = []
    for last in ends:
        opcode, operand = code[last].opcode, code[last].operand
        following = [place[operand]] if opcode.is_branch else []
        if not opcode.leaves_or_jumps and place[last + 1] not in following:
            following.append(place[last + 1])
        successors.append(following)
    reached, waiting = {0}, [0]
    while waiting:
        fresh = [block for block in successors[waiting.pop()] if block not in reached]
        reached.update(fresh)
        waiting += fresh
    return [Block(*one, block in reached) for block, one in enumerate(zip(starts, ends, successors))]
