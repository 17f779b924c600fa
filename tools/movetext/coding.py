"""A function's locals and code: names become indices."""

from typing import TYPE_CHECKING, Any, Callable, Dict

from . import model, opcodes, syntax
from .errors import Note, TextError, Unknown, unknown
from .limits import SIGNATURE_TYPES

if TYPE_CHECKING:
    from .assembler import Assembler


class Coder:
    """A function's body in the making."""

    def __init__(self, module: "Assembler", function: syntax.Function, body: model.FunctionDefinition):
        self.module = module
        self.function = function
        self.body = body
        self.locals: Dict[str, int] = {}
        self.index_of: Dict[int, Callable[[Any], int]] = {
            opcodes.TARGET: self.target, opcodes.LOCAL: self.local, opcodes.FUNCTION: module.called,
            opcodes.STRUCT: module.definition, opcodes.FIELD: self.field, opcodes.CONSTANT: self.constant,
        }

    def add_locals(self, function: syntax.Function) -> None:
        """Numbers the parameters and the other locals, and finds the signature of the latter."""
        if len(function.locals) > SIGNATURE_TYPES:
            raise TextError(function.locals[SIGNATURE_TYPES].name.at,
                            f"the function declares {len(function.locals)} locals, more than {SIGNATURE_TYPES}",
                            "use one local for several values, or move a part into another function")
        firsts: Dict[str, int] = {}
        for one in function.parameters + function.locals:
            first = firsts.setdefault(one.name.text, one.name.at)
            if first != one.name.at:
                self.module.collect(TextError(one.name.at, f"a second local `{one.name.text}`", "give one of them another name",
                                              notes=[Note(first, "the first is here")]))
            self.locals.setdefault(one.name.text, len(self.locals))
        types = function.locals_index or [one.type for one in function.locals]
        self.body.locals = self.module.signature(types, function.at)

    def add_code(self) -> None:
        """Adds the instructions; collects the errors."""
        add, index_of = self.body.code.append, self.index_of
        for opcode, operand, at in self.function.code:
            if operand is not None and operand.__class__ is not int:
                try:
                    operand = operand.number if operand.__class__ is syntax.Index else index_of[opcode.operand](operand)
                except TextError as error:
                    self.module.collect(error)
            add(model.Instruction(opcode, operand))

    def local(self, name: syntax.Name) -> int:
        place = self.locals.get(name.text)
        if place is None:
            raise Unknown(name.at, unknown("local", name.text, self.locals), [],
                          f"write `let {name.text}: TYPE` before the first instruction", is_lost=self.function.lacks_locals)
        return place

    def target(self, name: syntax.Name) -> int:
        place = self.function.labels.get(name.text)
        if place is None:
            raise Unknown(name.at, unknown("label", name.text, self.function.labels), [],
                          f"write `{name.text}:` before the instruction to go on with", is_lost=self.function.is_broken)
        return place

    def field(self, path: syntax.FieldPath) -> int:
        return self.module.fields.place(self.module.field_handle(path), path.at)

    def constant(self, literal: syntax.Literal) -> int:
        return self.module.constants.place(self.module.constant(literal), literal.at)
