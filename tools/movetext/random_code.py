"""Modules made at random whose code finds the types that it needs, for tests: many of them pass every phase. They name each
other as they are, or nearly so, so that bundles of them join a ledger or are refused where they link."""

from random import Random
from typing import Any, Dict, List, Optional, Sequence, Set, Tuple, TypeVar

from . import model
from .explain.availability import Locals
from .explain.borrows import Borrows, Stack
from .explain.edges import TEMP, Edges
from .explain.failures import Fails
from .explain.flows import Domain, Need, State
from .explain.stack import Step
from .explain.subject import Subject
from .model import (COPY, DROP, KEY, STORE, Constant, Field, FieldHandle, FunctionDefinition, FunctionHandle, Instruction,
                    Module, ModuleHandle, StructDefinition, StructHandle, Token, known)
from .opcodes import BY_NAME, CONSTANT, FIELD, FUNCTION, LOCAL, NUMBER, STRUCT, TARGET, Opcode
from .random_modules import random_value
from .reader import ModuleReading

T = TypeVar("T")
EVERY = (COPY, DROP, STORE, KEY)
# A module's address and name, and what is known where an instruction stands: availabilities, and edges.
ModuleName = Tuple[bytes, str]
States = Tuple[List[int], Edges]

# Which instructions are tried, by what is on top of the stack; a name stands so often as it is to be tried beside others.
LOADS = "LdU8 LdU16 LdU32 LdU64 LdU64 LdU128 LdConst LdTrue LdFalse"
NAMES_AT_BEGINNING = (f"{LOADS} CopyLoc CopyLoc CopyLoc MoveLoc MoveLoc MutBorrowLoc MutBorrowLoc MutBorrowLoc ImmBorrowLoc "
                      "ImmBorrowLoc Call Call")
NAMES_ON_TOP: Dict[Optional[int], str] = {
    None: "Branch Nop Ret Call",
    model.STRUCT: "StLoc StLoc StLoc Unpack Unpack Call Call MoveTo MoveTo Pop Eq Pack",
    model.BOOL: "BrTrue BrTrue BrFalse BrFalse BrTrue BrFalse Not And Or StLoc StLoc Pop Pack Call Eq Neq",
    model.ADDRESS: "MutBorrowGlobal MutBorrowGlobal ImmBorrowGlobal MoveFrom MoveFrom Exists StLoc Pop Pack Call Eq",
    model.SIGNER: "StLoc Pop Call Eq",
    model.REFERENCE: "StLoc StLoc StLoc ImmBorrowField ImmBorrowField ReadRef ReadRef Call Call Pop",
    model.MUTABLE: "StLoc StLoc StLoc StLoc MutBorrowField MutBorrowField MutBorrowField ImmBorrowField ReadRef WriteRef "
                   "WriteRef FreezeRef Call Call Pop",
}
NAMES_ON_NUMBER = ("Add Sub Mul Mod Div BitOr BitAnd Xor Eq Neq Lt Gt Le Ge Shl Shr CastU8 CastU16 CastU32 CastU64 CastU128 Abort "
                   "StLoc StLoc StLoc Pop Pop Pack Pack Pack Pack Pack Call Call Call")
NAMES_CLEARING = "StLoc StLoc Pop Unpack WriteRef MoveTo"


LITERALS = {"LdTrue": model.BOOL, "LdU8": model.U8, "LdU64": model.U64, "LdU128": model.U128}


def opcodes_of(names: str) -> List[Opcode]:
    return [BY_NAME[name] for name in names.split()]


BEGINNING, ON_NUMBER, CLEARING = map(opcodes_of, (NAMES_AT_BEGINNING, NAMES_ON_NUMBER, NAMES_CLEARING))
ON_TOP = {kind: opcodes_of(names) for kind, names in NAMES_ON_TOP.items()}


def instruction_of(opcode: Opcode, operand: Optional[int]) -> Instruction:
    """An instruction, with an operand where it has one."""
    return Instruction(opcode) if operand is None else Instruction(opcode, operand)


# How often one goes on with what is on the stack, by its height.
GOING_ON = (0.1, 0.5, 0.6, 0.7, 0.85)


class CodeMaker:
    """Makes one module. `others` are modules that it may import from. A choice is a wrong one as often as `errors` says, and an
    instruction stands where locals or edges don't allow it as often as `needs` says."""

    def __init__(self, random: Random, own: ModuleName, others: Sequence[Module] = (), errors: float = 0.0, needs: float = 0.0):
        self.random, self.others, self.errors, self.needs = random, others, errors, needs
        self.module = Module(version=random.choice(model.VERSIONS))
        self.leaves = [kind for kind in model.LEAF_WIDTHS if self.module.version == 6 or kind not in model.LATE_KINDS]
        self.module_handle(*own)
        self.inner: List[Token] = []

    def is_wrong(self) -> bool:
        return self.random.random() < self.errors

    def place(self, table: List[T], one: T) -> int:
        """The place of an entry, which is put at the table's end where it isn't there."""
        if one not in table:
            table.append(one)
        return table.index(one)

    def name(self, text: str) -> int:
        return self.place(self.module.identifiers, text)

    def module_handle(self, address: bytes, name: str) -> int:
        handle = ModuleHandle(self.place(self.module.addresses, address), self.name(name))
        return self.place(self.module.module_handles, handle)

    def make(self) -> Module:
        """A module."""
        for other in self.others:
            self.add_imports(other)
        for number in range(self.random.choice((0, 1, 2, 2, 3))):
            self.add_struct(number)
        for number in range(self.random.randrange(1, 5)):
            self.add_function(number)
        subject = Subject(ModuleReading(self.module))
        for index in range(len(self.module.functions)):
            BodyMaker(self, subject, index).make()
        self.add_acquires()
        return self.module

    def add_imports(self, other: Module) -> None:
        """Handles of another module, and of some of its structs and functions."""
        handle = self.module_handle(known(other.address_of(other.own)), known(other.module_name(other.own)))
        if handle == self.module.own:
            return
        for struct in other.structs:
            if self.random.random() < 0.6:
                self.import_struct(handle, other, struct.handle)
        for function in other.functions:
            if (function.is_public or self.is_wrong()) and self.random.random() < 0.7:
                self.import_function(handle, other, function.handle)

    def import_struct(self, handle: int, other: Module, struct: int) -> int:
        """The place of the handle of a struct of another module."""
        abilities = other.struct_handles[struct].abilities
        if self.is_wrong():
            abilities ^= self.random.choice(EVERY)
        name = self.name(known(other.struct_name(struct)) if not self.is_wrong() else "Nothing")
        for index, one in enumerate(self.module.struct_handles):
            if (one.module, one.name) == (handle, name):
                return index
        return self.place(self.module.struct_handles, StructHandle(handle, name, abilities))

    def import_function(self, handle: int, other: Module, function: int) -> None:
        named = other.function_handles[function]
        name = self.name(known(other.function_name(function)) if not self.is_wrong() else "nothing")
        types = [tuple(self.imported(other, one) for one in known(other.signature(index)))
                 for index in (named.parameters, named.results)]
        if self.is_wrong():
            types[self.random.randrange(2)] += (Token(model.BOOL),)
        signatures = [self.place(self.module.signatures, one) for one in types]
        if all((one.module, one.name) != (handle, name) for one in self.module.function_handles):
            self.module.function_handles.append(FunctionHandle(handle, name, *signatures))

    def imported(self, other: Module, token: Token) -> Token:
        """A type of another module as this one has it."""
        if token.is_reference:
            return Token(token.kind, self.imported(other, token.inner))
        if token.kind != model.STRUCT:
            return token
        named = other.struct_handles[token.struct]
        handle = self.module_handle(known(other.address_of(named.module)), known(other.module_name(named.module)))
        return Token(model.STRUCT, struct=self.import_struct(handle, other, token.struct))

    def add_struct(self, number: int) -> None:
        """A struct of leaves and of structs that are there, with such abilities as they leave it."""
        handle = len(self.module.struct_handles)
        fields = [Field(self.name(f"f{place}"), self.field_type()) for place in range(self.random.randrange(1, 4))]
        abilities = self.random.randrange(16) | self.random.randrange(16)
        for one in fields:
            has = self.abilities(one.type)
            abilities &= has & ~KEY | (KEY if has & STORE else 0) if not self.is_wrong() else 15
        self.module.struct_handles.append(StructHandle(self.module.own, self.name(f"S{number}"), abilities))
        self.module.structs.append(StructDefinition(handle, fields))
        for position in range(len(fields)):
            self.module.field_handles.append(FieldHandle(len(self.module.structs) - 1, position))

    def abilities(self, token: Token) -> int:
        return self.module.struct_handles[token.struct].abilities if token.kind == model.STRUCT else COPY | DROP | STORE

    def field_type(self) -> Token:
        if self.module.struct_handles and self.random.random() < 0.4:
            return Token(model.STRUCT, struct=self.random.randrange(len(self.module.struct_handles)))
        return Token(self.random.choice(self.leaves))

    def type(self) -> Token:
        """A type of a parameter, a result or a local."""
        inner = self.random.choice(self.inner_types())
        draw = self.random.random()
        return Token(model.MUTABLE, inner) if draw < 0.35 else Token(model.REFERENCE, inner) if draw < 0.5 else inner

    def inner_types(self) -> List[Token]:
        """A few types that a module's types are mostly of, so that values of one often fit where one is wanted."""
        if not self.inner:
            structs = range(len(self.module.struct_handles))
            fields = [one.type for definition in self.module.structs for one in definition.fields]
            self.inner = [Token(model.STRUCT, struct=one) for one in structs for _ in range(4)] + fields[:4]
            self.inner += [Token(kind) for kind in (model.ADDRESS, model.BOOL, model.SIGNER, self.random.choice(self.leaves))]
        return self.inner

    def signature(self, most: int) -> int:
        return self.place(self.module.signatures, tuple(self.type() for _ in range(self.random.randrange(most + 1))))

    def add_function(self, number: int) -> None:
        random, handles = self.random, self.module.function_handles
        is_entry = random.random() < 0.2
        results = self.place(self.module.signatures, ()) if is_entry and not self.is_wrong() else self.signature(2)
        parameters = self.signature(3)
        if is_entry and not self.is_wrong():
            leaves = tuple(Token(random.choice(self.leaves)) for _ in range(random.randrange(3)))
            parameters = self.place(self.module.signatures, (Token(model.SIGNER),) * (random.random() < 0.5) + leaves)
        handles.append(FunctionHandle(self.module.own, self.name(f"g{number}"), parameters, results))
        function = FunctionDefinition(len(handles) - 1, random.random() < 0.6, is_entry)
        function.locals = self.signature(5)
        self.module.functions.append(function)

    def add_acquires(self) -> None:
        """The lists that the code asks for, or nearly."""
        functions = self.module.functions
        by_handle = {one.handle: one for one in functions}
        lists: Dict[int, Set[int]] = {one.handle: set() for one in functions}
        for _ in functions:
            for one in functions:
                for instruction in one.code:
                    if instruction.name in ("MoveFrom", "MutBorrowGlobal", "ImmBorrowGlobal"):
                        lists[one.handle].add(instruction.operand)
                    elif instruction.name == "Call" and instruction.operand in by_handle:
                        lists[one.handle] |= lists[instruction.operand]
        for one in functions:
            one.acquires = sorted(lists[one.handle])
            if self.is_wrong() and self.module.structs:
                one.acquires.append(self.random.randrange(len(self.module.structs)))
            if self.is_wrong() and one.acquires:
                one.acquires.pop(self.random.randrange(len(one.acquires)))


class BodyMaker:
    """Makes a function's code, instruction by instruction, along one path. What the path meets is kept as the types on the
    stack, the availabilities and the edges; where paths join nothing is known of the other one."""

    def __init__(self, maker: CodeMaker, subject: Subject, index: int):
        self.maker, self.random, self.module = maker, maker.random, maker.module
        self.subject, self.index = subject, index
        self.function = self.module.functions[index]
        self.code = self.function.code
        self.stacks: List[Stack] = []
        self.stack: Stack = ()
        self.locals, self.borrows = Locals(subject, index), Borrows(subject, index, self.stacks)
        self.states: States = (self.locals.start(), self.borrows.start())
        self.clear: List[Tuple[int, States]] = []

    def make(self) -> None:
        """The code."""
        size = self.random.choice((3, 10, 25, 60))
        while len(self.code) < size and self.add_one():
            if self.code[-1].name in ("Ret", "Abort") and self.random.random() < 0.7:
                break
        while self.stack and self.add_from(CLEARING):
            pass
        if self.stack:
            self.go_back()
        if not self.code or not self.code[-1].opcode.leaves_or_jumps:
            self.end()
        self.aim()

    def go_back(self) -> None:
        """Goes back to where the stack was empty."""
        size, states = self.clear[-1]
        del self.code[size:]
        del self.stacks[size:]
        self.stack, self.states = (), states

    def end(self) -> None:
        """Returns, where there is a way to the results, or gives up."""
        self.note_clear()
        for one in known(self.module.results(self.function)):
            self.add_result(one)
        if not self.put(Instruction(BY_NAME["Ret"])):
            self.go_back()
            self.put(Instruction(BY_NAME["LdU64"], 7))
            self.put(Instruction(BY_NAME["Abort"]))

    def add_result(self, token: Token) -> bool:
        """Puts a value of a type on the stack, where there is a local that has one, or a literal."""
        locals_ = [index for index, one in enumerate(self.locals.types) if one == token]
        self.random.shuffle(locals_)
        ways = [(name, local) for local in locals_ for name in ("MoveLoc", "CopyLoc")]
        ways += [(name, 0) for name in ("LdTrue", "LdU8", "LdU64", "LdU128") if LITERALS[name] == token.kind]
        return any(self.put(instruction_of(BY_NAME[name], operand if BY_NAME[name].operand else None)) for name, operand in ways)

    def note_clear(self) -> None:
        if not self.stack:
            self.clear.append((len(self.code), (self.states[0][:], self.states[1].copy())))

    def add_one(self) -> bool:
        """Adds an instruction that fits. Answers whether there was one."""
        self.note_clear()
        height = len(self.stack)
        if self.random.random() < GOING_ON[min(height, len(GOING_ON) - 1)]:
            top = self.stack[-1].kind if self.stack else None
            if self.add_from(ON_TOP.get(top, ON_NUMBER)):
                return True
        return self.add_from(BEGINNING) or height > 0 and self.add_from(CLEARING)

    def add_from(self, opcodes: List[Opcode]) -> bool:
        """Adds one of these instructions where one is found that fits."""
        for opcode in self.random.sample(opcodes, len(opcodes)):
            if opcode.version <= self.module.version and (opcode.name != "Pop" or self.random.random() < 0.5):
                operand = self.operand(opcode)
                if (operand is not None or not opcode.operand) and self.put(instruction_of(opcode, operand)):
                    return True
        return False

    def put(self, instruction: Instruction) -> bool:
        """Adds an instruction where it fits, or where a wrong one is to stand."""
        at = len(self.code)
        self.code.append(instruction)
        self.stacks.append(self.stack)
        try:
            stack = Step(self.subject, self.index, at, self.stack).after()
            if stack and instruction.opcode.ends_block:
                raise Need("the stack is empty where a block ends", "it isn't", None)
            locals_, edges = self.states[0][:], self.states[1].copy()
            domains: Sequence[Tuple[Domain, State, float]] = (self.locals, locals_, 0.1), (self.borrows, edges, 1)
            for domain, state, share in domains:
                try:
                    domain.step(state, at)
                except Need:
                    if self.random.random() > share * self.maker.needs:
                        raise
                    if domain is self.borrows:
                        self.forget_gone(edges, stack)
        except (Need, Fails):
            self.code.pop()
            self.stacks.pop()
            return False
        self.stack, self.states = stack, (locals_, edges)
        return True

    def forget_gone(self, edges: Edges, stack: Stack) -> None:
        """Takes away the edges at operands that are gone, or others, once the stack is this one: an instruction whose need isn't met leaves
        edges as they were."""
        for place in range(max(len(stack), len(self.stack))):
            if stack[place:place + 1] != self.stack[place:place + 1]:
                edges.drop((TEMP, place))

    def operand(self, opcode: Opcode) -> Optional[int]:
        """An operand, or None where there is nothing that it could name."""
        random, module = self.random, self.module
        if opcode.operand == NUMBER:
            return random.choice((0, 1, random.getrandbits(8 * opcode.width)))
        if opcode.operand == CONSTANT:
            kind = random.choice(self.maker.leaves)
            return self.maker.place(module.constants, Constant(Token(kind), model.write_leaf(kind, random_value(random, kind))))
        if opcode.operand == LOCAL:
            return self.local(opcode.name)
        tables: Dict[int, List[Any]] = {FIELD: module.field_handles, STRUCT: module.structs, FUNCTION: module.function_handles,
                                        TARGET: [0]}
        table = tables.get(opcode.operand)
        return random.randrange(len(table)) if table else None

    def local(self, name: str) -> Optional[int]:
        """A local that an instruction may name: mostly one that fits."""
        types, top = self.locals.types, self.stack[-1] if self.stack else None
        if name == "StLoc":
            fit = [index for index, one in enumerate(types) if one == top]
        else:
            fit = [index for index, one in enumerate(self.states[0]) if one == model.AVAILABLE]
            writing = [index for index in fit if types[index].is_mutable and types[index].inner == top]
            structs = [index for index in fit if types[index].value_type.kind == model.STRUCT]
            for fitter in (structs, writing):
                fit = fitter if fitter and self.random.random() < 0.5 else fit
        if not fit and self.random.random() < self.maker.needs / 10:
            fit = list(range(len(types)))
        return self.random.choice(fit) if fit else None

    def aim(self) -> None:
        """Gives branches their targets: places where the stack is empty, mostly behind the branch."""
        places = sorted({place for place, _ in self.clear if place < len(self.code)} | {0})
        for at, instruction in enumerate(self.code):
            if instruction.opcode.is_branch:
                behind = [place for place in places if place > at]
                near = behind if behind and self.random.random() < 0.8 else places
                instruction.operand = self.random.choice(near)


def random_typed_module(random: Random, own: ModuleName, others: Sequence[Module] = (), errors: float = 0.0, needs: float = 0.0) -> Module:
    """A module of this address and name, whose code finds the types that it needs. `errors` is how often something else is a
    wrong one, `needs` how often an instruction is put where locals or edges don't allow it."""
    return CodeMaker(random, own, others, errors, needs).make()
