"""Phase 8: the operand stack, its types, and their abilities."""

from functools import partial
from typing import Dict, Iterator, List, NoReturn, Optional, Sequence, Tuple, Union

from .. import model, opcodes
from ..limits import OPERAND_COUNT
from ..model import LEAF_KINDS, MUTABLE, REFERENCE, STRUCT, Token, known
from .failures import Advice, Check
from .rows import ROWS, SAID
from .stack_advice import makers, of_block, of_many, of_need, of_rest, of_types
from .subject import Subject

PHASE = 8
ABILITY_BITS = {name: bit for bit, name in model.ABILITIES}
REFERENCES = {"&mut_": MUTABLE, "&": REFERENCE}


def checks(subject: Subject) -> Iterator[Check]:
    """What is checked, in its order."""
    for index in range(len(subject.module.functions)):
        yield Check(partial(stacks_of, subject, index), index)


def stacks_of(subject: Subject, function: int) -> List[Tuple[Token, ...]]:
    """The types on the stack before each instruction of a function that passed phase 7. Raises the first failure. They are found
    once."""
    if function not in subject.stacks:
        subject.stacks[function] = found_stacks(subject, function)
    return subject.stacks[function]


def found_stacks(subject: Subject, function: int) -> List[Tuple[Token, ...]]:
    """The types on the stack before each instruction of a function. Raises the first failure."""
    code = subject.module.functions[function].code
    stacks: List[Tuple[Token, ...]] = []
    for block in subject.graph(function):
        stack: Tuple[Token, ...] = ()
        for at in range(block.first, block.last + 1):
            stacks.append(stack)
            stack = Step(subject, function, at, stack).after()
            if len(stack) > OPERAND_COUNT:
                subject.fail_at(PHASE, function, at, f"the stack never has more than {OPERAND_COUNT} operands",
                                f"it has {len(stack)}", advice=of_many(function, at, OPERAND_COUNT))
        if stack:
            subject.fail_at(PHASE, function, block.last, "in every block the stack is empty at the end",
                            f"{code[block.last].name} leaves {types_text(subject, stack)}",
                            advice=of_block(subject, function, block.last, stack))
    return stacks


def types_text(subject: Subject, types: Sequence[Token]) -> str:
    """Types as they are on the stack, the last on top."""
    return ", ".join(f"`{subject.type(one)}`" for one in types) or "nothing"


class Step:
    """An instruction at the types that it finds."""

    def __init__(self, subject: Subject, function: int, at: int, stack: Tuple[Token, ...]):
        self.subject, self.function, self.at, self.stack = subject, function, at, stack
        self.instruction = subject.module.functions[function].code[at]
        self.row = ROWS[self.instruction.name]
        self.types: Dict[str, Token] = {}
        self.lists: Dict[str, Sequence[Token]] = {}
        self.name_operand()

    def name_operand(self) -> None:
        """What the row's words mean by the operand."""
        module, operand = self.subject.module, self.instruction.operand
        function = module.functions[self.function]
        kind = self.instruction.opcode.operand
        if kind == opcodes.LOCAL:
            self.types["T"] = known(module.local_types(function))[operand]
        elif kind == opcodes.CONSTANT:
            self.types["T"] = module.constants[operand].type
        elif kind == opcodes.FIELD:
            self.types["F"] = known(module.field_of(operand)).type
            self.name_struct(module.field_handles[operand].struct)
        elif kind == opcodes.STRUCT:
            self.name_struct(operand)
        elif kind == opcodes.FUNCTION:
            handle = module.function_handles[operand]
            self.lists = {"parameters..": known(module.signature(handle.parameters)),
                          "results..": known(module.signature(handle.results))}
        elif self.instruction.name == "Ret":
            self.lists = {"results..": known(module.results(function))}

    def name_struct(self, struct: int) -> None:
        definition = self.subject.module.structs[struct]
        self.types["S"] = Token(STRUCT, struct=definition.handle)
        self.lists["fields.."] = tuple(one.type for one in definition.fields)

    def listed(self, words: Sequence[str]) -> List[Union[Token, str]]:
        """The words of a row, each list of types taken apart."""
        found: List[Union[Token, str]] = []
        for word in words:
            found.extend(self.lists.get(word, ()))
            if word not in self.lists:
                found.append(word)
        return found

    def after(self) -> Tuple[Token, ...]:
        """The stack after the instruction. Raises a failure where it doesn't find what it needs."""
        wanted = self.listed(self.row.takes)
        if len(wanted) > len(self.stack):
            self.fail_types()
        base = len(self.stack) - len(wanted)
        for one, found in zip(wanted, self.stack[base:]):
            if not self.fits(one, found):
                self.fail_types()
        for word, need in self.row.needs:
            self.check_need(self.types[word], need)
        if self.instruction.name == "Ret" and base:
            left = types_text(self.subject, self.stack[:base])
            self.fail("nothing else is on the stack", f"Ret takes the results, and leaves {left}",
                      of_rest(self, self.stack[:base]))
        given = self.listed(self.row.gives)
        return self.stack[:base] + tuple(map(self.token, given))

    def fits(self, wanted: Union[Token, str], found: Token) -> bool:
        """Whether a type is the wanted one, which is a type or a word of the row. A word that means none yet then means it."""
        if isinstance(wanted, Token):
            return wanted == found
        if wanted == "&signer":
            return found == Token(REFERENCE, Token(LEAF_KINDS["signer"]))
        if wanted in LEAF_KINDS:
            return found.kind == LEAF_KINDS[wanted]
        if wanted.startswith("&"):
            kinds = (REFERENCE, MUTABLE) if wanted[1] == "?" else (MUTABLE,) if wanted.startswith("&mut_") else (REFERENCE,)
            return found.kind in kinds and self.fits(wanted[-1], found.inner)
        if wanted == "n" and not found.is_number:
            return False
        return self.types.setdefault(wanted, found) == found

    def token(self, given: Union[Token, str]) -> Token:
        """The type that a word of the row means."""
        if isinstance(given, Token):
            return given
        for front, kind in REFERENCES.items():
            if given.startswith(front):
                return Token(kind, self.types[given[len(front):]])
        return Token(LEAF_KINDS[given]) if given in LEAF_KINDS else self.types[given]

    def check_need(self, token: Token, need: str) -> None:
        """Wants an ability of a type, or that it is no reference."""
        named = f"`{self.subject.type(token)}`"
        if need in ABILITY_BITS:
            if not self.subject.abilities(token) & ABILITY_BITS[need]:
                self.fail("each instruction finds the abilities that it needs",
                          f"{self.instruction.name} needs {need}, which the type {named} lacks", of_need(self, token, need))
        elif token.is_reference:
            self.fail("each instruction finds the types that it needs",
                      f"{self.instruction.name} needs a type that is no reference, and {named} is one", of_need(self, token, need))

    def fail_types(self) -> NoReturn:
        """Fails, since the operands aren't those that the row takes."""
        takes = "two numbers of one type" if self.row.takes == ("n", "n") else ", ".join(map(self.said, self.row.takes))
        wanted = self.listed(self.row.takes)
        order = ", the last on top," if len(wanted) > 1 else ""
        found = types_text(self.subject, self.stack[max(0, len(self.stack) - len(wanted)):])
        self.fail("each instruction finds the types that it needs",
                  f"{self.instruction.name} takes {takes or 'nothing'}{order} and finds {found}",
                  of_types(self) if self.subject.advises else None)

    def said(self, word: str) -> str:
        """A word of the row, with what it means where that is known."""
        if word in self.lists:
            types = types_text(self.subject, self.lists[word])
            return f"{'the ' + word[:-2]} {types}" if self.lists[word] else f"no {word[:-2]}"
        if word == "n":
            return "a number"
        named = self.types.get(word[-1]) if word[-1] in "TSF" else None
        told = SAID.get(word, word)
        if named is None or word[-1] == "T" and self.instruction.opcode.operand == opcodes.NOTHING:
            return told if word in ("T", "n") else f"`{told}`"
        return " or ".join(f"`{one.replace(word[-1], self.subject.type(named))}`" for one in told.split(" or "))

    def counts(self) -> Tuple[int, int]:
        """How many operands the instruction takes, and how many it gives."""
        return len(self.listed(self.row.takes)), len(self.listed(self.row.gives))

    def fail(self, rule: str, found: str, advice: Optional[Advice]) -> NoReturn:
        state = [f"the stack before it: {types_text(self.subject, self.stack)}"]
        self.subject.fail_at(PHASE, self.function, self.at, rule, found, state, advice)


def made_by(subject: Subject, function: int, at: int, below: int) -> Optional[int]:
    """The instruction that made an operand of another one, by how far it is below the top; None where there is none."""
    found = makers(Step(subject, function, at, ()))
    return found[-1 - below] if below < len(found) else None
