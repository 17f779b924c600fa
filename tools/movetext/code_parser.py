"""Functions' code: lines of labels and instructions."""

from typing import Any, Callable, Dict, List, NoReturn, Union

from . import habits, opcodes, scanner, syntax
from .errors import Note, TextError, nearest, unknown
from .model import STRUCT, write_leaf
from .limits import INDEX, INSTRUCTION_COUNT
from .opcodes import BY_NAME
from .parsing import TermParser, TextEnds
from .scanner import Words


class CodeParser(TermParser):
    """The lines of a function's code."""

    def __init__(self, words: Words, keeps_limits: bool = True):
        super().__init__(words, keeps_limits)
        self.operands: Dict[int, Callable[[], object]] = {
            opcodes.TARGET: self.target, opcodes.LOCAL: self.local, opcodes.FUNCTION: self.called,
            opcodes.STRUCT: self.definition, opcodes.FIELD: self.field, opcodes.CONSTANT: self.constant,
        }

    def code(self, function: syntax.Function) -> None:
        """Reads lines up to the closing brace, which is read too. A line with an error is left out, and the function is broken."""
        kinds, texts, depth = self.kinds, self.texts, len(self.opened)
        labels: List[syntax.Name] = []
        while True:
            at = self.at
            kind, text = kinds[at], texts[at]
            if kind == scanner.LINE_END or (kind == scanner.MARK and text == ";"):
                self.at = at + 1
                continue
            if text not in BY_NAME:
                if self.accept_close():
                    break
                what = self.head()
                if what:
                    self.ends_before(what)
                    function.is_broken = True
                    return
            try:
                self.line(function, labels)
            except TextEnds:
                raise
            except TextError as error:
                self.note(error)
                function.is_broken = True
                self.skip_line(depth)
        if labels and not function.is_broken:
            self.fail(f"no instruction follows the label `{labels[0].text}`", labels[0].at,
                      "write an instruction after it, as `Ret`")

    def line(self, function: syntax.Function, labels: List[syntax.Name]) -> None:
        """Reads a label, an instruction, or a word before a label."""
        kind, following = self.kinds[self.at], self.texts[self.at + 1]
        if following == ":" and kind in (scanner.NAME, scanner.QUOTED, scanner.NUMBER):
            self.label(function, labels)
        elif self.texts[self.at] == "label" and self.texts[self.at + 2] == ":":
            self.at += 1
        elif kind == scanner.NAME:
            self.instruction(function, self.texts[self.at], self.starts[self.at])
            labels.clear()
        else:
            self.wanted("an instruction, a label or `}`")

    def label(self, function: syntax.Function, labels: List[syntax.Name]) -> None:
        """Reads a label or an instruction's number, and the colon."""
        start, place = self.start, len(function.code)
        if self.kind == scanner.NUMBER:
            if self.number("a number", INDEX) != place and not function.is_broken:
                self.fail(f"this is instruction {place}", start, f"write `{place}:`, or leave the number out")
        else:
            label = self.name("a label")
            if label.text in function.labels:
                self.fail(f"a second label `{label.text}`", start, "give one of them another name",
                          [Note(function.label_places[label.text], "the first is here")])
            function.labels[label.text] = place
            function.label_places[label.text] = start
            labels.append(label)
        self.at += 1

    def instruction(self, function: syntax.Function, word: str, start: int) -> None:
        """Reads an instruction and the end of its line."""
        opcode = BY_NAME.get(word)
        if opcode is None:
            self.no_instruction(word)
        if opcode.version > self.version:
            self.fail(f"`{word}` needs version 6, and this module has version {self.version}",
                      help="write `version 6` after the module's name")
        if len(function.code) == INSTRUCTION_COUNT and self.keeps_limits:
            self.fail(f"a function has at most {INSTRUCTION_COUNT:,} instructions", help="move a part into another function")
        self.at += 1
        kinds, texts = self.kinds, self.texts
        operand: Any = None
        if kinds[self.at] == scanner.MARK and texts[self.at] in ("[", "("):
            operand = self.enclosed(opcode)
        elif opcode.operand == opcodes.NUMBER:
            operand = self.immediate(opcode)
        elif opcode.operand:
            operand = self.operands[opcode.operand]()
        function.code.append(syntax.Line(opcode, operand, start))
        kind, text = kinds[self.at], texts[self.at]
        if kind != scanner.LINE_END and not (kind == scanner.MARK and text in (";", "}")):
            self.not_ended(opcode)

    def not_ended(self, opcode: opcodes.Opcode) -> NoReturn:
        """Fails, since something follows an instruction on its line."""
        if self.text in BY_NAME and self.kind == scanner.NAME:
            self.fail(f"`{self.text}` is on the same line as another instruction",
                      help=f"write it on a line of its own, or after a semicolon: `; {self.text}`")
        if self.is_mark(".") and opcode.operand == opcodes.NUMBER:
            self.fail("there are no fractions", help="numbers are whole")
        takes = opcodes.OPERAND_WORDS[opcode.operand]
        self.fail(f"wanted the end of the line, found {self.found()}",
                  help=f"`{opcode.name}` names {takes}" + (": its operands are on the stack" if not opcode.operand else " alone"))

    def no_instruction(self, word: str) -> NoReturn:
        """Fails, since there is no instruction of this name."""
        if word == "let":
            self.fail("a local is declared after an instruction", help="write each `let` before the first instruction")
        help = habits.of_instruction(word)
        if self.kinds[self.at + 1] == scanner.WRONG and word not in habits.INSTRUCTIONS and word.lower() not in habits.CONTROLS:
            self.at += 1
            self.wanted("an instruction")
        told = f"no instruction `{word}`"
        if help:
            self.fail(told, help=help)
        if self.texts[self.at + 1] == "." and self.texts[self.at + 3] != "(":
            self.fail_as(habits.FIELD_READ)
        if self.texts[self.at + 1] == "(" and not nearest(word, BY_NAME):
            self.fail(told, help=f"a function is called by `Call {word}`, with its arguments on the stack")
        if self.kinds[self.at + 1] == scanner.LINE_END and not nearest(word, BY_NAME):
            self.fail(told, help=f"a label has a colon: `{word}:`")
        self.fail_as(unknown("instruction", word, BY_NAME))

    def immediate(self, opcode: opcodes.Opcode) -> int:
        """The number that an instruction loads."""
        return self.number(f"a number of {8 * opcode.width} bits", (1 << 8 * opcode.width) - 1)

    def enclosed(self, opcode: opcodes.Opcode) -> Union[int, syntax.Index]:
        """An operand in brackets or parentheses. What stands in parentheses after brackets is a comment."""
        start = self.start
        if not opcode.operand:
            self.not_ended(opcode)
        in_brackets = self.accept("[")
        if not in_brackets:
            self.expect("(")
        if opcode.operand == opcodes.NUMBER:
            operand: Union[int, syntax.Index] = self.immediate(opcode)
        else:
            operand = syntax.Index(self.number("an index", INDEX), start)
        self.expect("]" if in_brackets else ")")
        if in_brackets and self.is_mark("("):
            self.skip_parentheses()
        return operand

    def skip_parentheses(self) -> None:
        """Reads what stands in parentheses on this line."""
        depth = 0
        while True:
            if self.kind in (scanner.LINE_END, scanner.END):
                self.wanted("`)`")
            depth += self.is_mark("(") - self.is_mark(")")
            self.at += 1
            if not depth:
                return

    def local(self) -> syntax.Entry:
        if self.kind == scanner.NUMBER:
            return syntax.Index(self.number("a local", INDEX), self.start)
        return self.entry("a local")

    def target(self) -> syntax.Entry:
        if self.kind == scanner.NUMBER:
            return syntax.Index(self.number("a label", INDEX), self.start)
        return self.entry("a label")

    def called(self) -> Union[syntax.Path, syntax.Called]:
        """A function. Its types may stand after it, and are then compared."""
        path = self.path("a function")
        if not self.is_mark("("):
            return path
        parameters = self.in_parentheses(self.parameter_type)
        return syntax.Called(path, parameters, self.results() if self.is_mark(":") else None)

    def definition(self) -> syntax.Path:
        return self.path("a struct")

    def field(self) -> Union[syntax.FieldPath, syntax.Index]:
        """A field as `Coin.value`, or an index."""
        start = self.start
        struct = self.entry("a struct's field as `Coin.value`")
        if self.accept("."):
            return syntax.FieldPath(struct, self.entry("a field"), start)
        if isinstance(struct, syntax.Index):
            return struct
        if self.is_mark("::") and self.kinds[self.at + 1] == scanner.NAME:
            self.fail(f"`{struct.text}::{self.texts[self.at + 1]}` is no field", struct.at,
                      f"write a dot: `{struct.text}.{self.texts[self.at + 1]}`")
        return self.fail(f"`{struct.text}` is no field", struct.at, "write the struct and the field, as `Coin.value`")

    def constant(self) -> Union[syntax.Literal, syntax.Index]:
        """A value, a type with bytes, or an index."""
        start = self.start
        if self.kind == scanner.INDEX and self.kinds[self.at + 1] != scanner.HEX:
            return self.index()
        if self.is_value():
            value = self.value()
            return syntax.Literal(syntax.Type(value.kind, None, None, start), write_leaf(value.kind, value.value), start)
        if self.kind == scanner.FILE:
            self.fail("there are no strings", help='a value is a bool, a number with its type, or an address, as `@0x1`')
        word, kind = self.at, self.type()
        if self.kind not in (scanner.HEX, scanner.WRONG) and kind.kind == STRUCT and self.kinds[word] == scanner.NAME:
            self.fail(f"no constant `{''.join(self.texts[word:self.at])}`", start, habits.CONSTANT)
        if self.kind != scanner.HEX:
            self.wanted('bytes as `x"01"`')
        return syntax.Literal(kind, self.hex(), start)
