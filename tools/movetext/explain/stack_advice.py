"""What is said to an author of an instruction that doesn't find what it takes from the stack."""

from typing import TYPE_CHECKING, List, Optional, Sequence, Tuple, Union

from ..model import (ABILITIES, ADDRESS, BOOL, DROP, KEY, LEAF_KINDS, LEAF_NAMES, MUTABLE, REFERENCE, SIGNER, STORE, STRUCT, Instruction,
                     Token, known)
from ..opcodes import OPCODES
from .failures import Advice, Spot, a_type, listed
from .history import changes

if TYPE_CHECKING:
    from .stack import Step
    from .subject import Subject

CASTS = {name[4:].lower(): name for name in (one.name for one in OPCODES) if name.startswith("Cast")}
LOADS = {name[2:].lower(): name for name in (one.name for one in OPCODES) if name.startswith("LdU")}
GLOBAL = ("Exists", "MutBorrowGlobal", "ImmBorrowGlobal", "MoveFrom")
ON_BOOLS = {"BitAnd": "And", "BitOr": "Or", "Xor": "Neq", "Eq": "Eq"}
ON_NUMBERS = {"And": "BitAnd", "Or": "BitOr"}
TESTED = "take an address too, and test that it is the signer's (docs/AUTHORS.md#who-may-do-it)"
# What is said of a struct of another module.
NOT_READ = "only its own module reads its fields: call a function of that"
NOT_WRITTEN = "only its own module writes its fields: call a function of that"
# So many second places are told of operands that are left.
MOST_NOTES = 4
# So many locals are tried in search of one that may be an operand.
MOST_LOCALS = 16


def makers(step: "Step") -> List[int]:
    """The instructions that put the operands on the stack before this one."""
    block = next(one for one in step.subject.graph(step.function) if one.first <= step.at <= one.last)
    found: List[int] = []
    for at in range(block.first, step.at):
        takes, gives = type(step)(step.subject, step.function, at, ()).counts()
        del found[max(0, len(found) - takes):]
        found += [at] * gives
    return found


class Finds:
    """What an instruction takes, and what it finds: the operands, and the instructions that made them."""

    def __init__(self, step: "Step"):
        self.step, self.subject = step, step.subject
        self.name = step.instruction.name
        self.wanted = step.listed(step.row.takes)
        count = max(0, len(step.stack) - len(self.wanted))
        self.found = step.stack[count:]
        self.makers = makers(step)[count:]
        self.wrong = self.first_wrong()

    def first_wrong(self) -> Optional[int]:
        """The first operand that doesn't fit, or None where there are too few."""
        if len(self.found) < len(self.wanted):
            return None
        step = type(self.step)(self.subject, self.step.function, self.step.at, ())
        return next((place for place, (one, it) in enumerate(zip(self.wanted, self.found)) if not step.fits(one, it)), None)

    def maker(self) -> str:
        """The name of the instruction that made the wrong operand."""
        return "" if self.wrong is None else self.code(self.makers[self.wrong]).name

    def code(self, at: int) -> Instruction:
        return self.subject.module.functions[self.step.function].code[at]

    def text(self, at: int) -> str:
        return self.subject.instruction_text(self.step.function, at)

    def local_of(self) -> Optional[str]:
        """The local that the wrong operand was loaded from, by name."""
        if self.maker() not in ("MoveLoc", "CopyLoc"):
            return None
        return self.subject.local(self.step.function, self.code(self.makers[self.wrong or 0]).operand)

    def fits_reversed(self) -> bool:
        step = type(self.step)(self.subject, self.step.function, self.step.at, ())
        return len(self.found) == len(self.wanted) > 1 and all(map(step.fits, self.wanted, reversed(self.found)))


def of_types(step: "Step") -> Advice:
    """What is said of operands of other types than an instruction takes."""
    finds = Finds(step)
    takes, order = takes_said(step), ", the last on top," if len(finds.wanted) > 1 else ""
    found = " and ".join(f"`{step.subject.type(one)}`" for one in finds.found) if len(finds.found) < 3 \
        else listed([step.subject.type(one) for one in finds.found])
    fact = f"`{named(step)}` takes {takes}{order} and finds {found or 'nothing'}"
    notes: Tuple[Tuple[Spot, str], ...] = ()
    if finds.wrong is not None:
        type_ = step.subject.type(finds.found[finds.wrong])
        notes = ((Spot("instruction", step.function, finds.makers[finds.wrong]), f"the `{type_}` is from here"),)
    return Advice(fact, help_of(finds), Spot("instruction", step.function, step.at), notes)


def named(step: "Step") -> str:
    """An instruction, with the function that it calls."""
    name = step.instruction.name
    return step.subject.instruction_text(step.function, step.at) if name in ("Call", "Pack", "Unpack", "StLoc") else name


def takes_said(step: "Step") -> str:
    """What an instruction takes, in words."""
    row = step.row.takes
    if row == ("n", "n"):
        return "two numbers of one type"
    if row == ("T", "T"):
        return "two values of one type"
    if row == ("T", "&mut_T"):
        return "a value and a `&mut` reference to its type"
    words = {"&?T": "a reference", "&mut_T": "a `&mut` reference"}
    if "T" not in step.types:
        words["T"] = "a value"
    said = [words.get(word) or step.said(word) for word in row]
    return " and ".join(said) or "nothing"


def help_of(finds: Finds) -> str:
    """What to write."""
    step, name = finds.step, finds.name
    if len(finds.found) < len(finds.wanted):
        return of_few(finds)
    if finds.fits_reversed():
        return {"MoveTo": "`ImmBorrowLoc` of the signer comes before the value", "WriteRef": "the value comes before the reference"}.get(
            name, f"put them in the order {order_said(finds)}")
    wrong = finds.wrong or 0
    wanted, found = finds.wanted[wrong] if finds.wanted else "", finds.found[wrong]
    order = stored_reversed(finds)
    if order:
        return order
    if len(finds.wanted) > 2 or name in ("Call", "Pack") and len(finds.wanted) > 1:
        return f"put them in the order {order_said(finds)}"
    return of_one(finds, wanted, found) or f"put {wanted_said(step, wanted)} there"


def of_few(finds: Finds) -> str:
    """What to write where the stack has too few operands."""
    if finds.name == "Ret":
        return f"put {order_said(finds)} on the stack before it, or take the result out of the function's head"
    if finds.name in ("Call", "Pack"):
        what = "argument" if finds.name == "Call" else "field"
        return f"put each {what} on the stack before it, in the order {order_said(finds)}"
    # Where some are there, those that are missing are known if the others are the first ones.
    step = type(finds.step)(finds.subject, finds.step.function, finds.step.at, ())
    fit = all(map(step.fits, finds.wanted, finds.found))
    makes = makes_of(step, finds.wanted[len(finds.found)]) if fit else []
    return "put what it takes on the stack before it" + (f", as by {listed(makes, 'or')}" if makes else "")


def makes_of(step: "Step", wanted: Union[Token, str]) -> List[str]:
    """Instructions that put an operand on the stack, as far as there are any for its type."""
    token = wanted if isinstance(wanted, Token) else type_of(step, wanted)
    if token is None:
        return {"&?T": ["ImmBorrowLoc x"], "&mut_T": ["MutBorrowLoc x"]}.get(str(wanted), ["MoveLoc x", "LdU64 1"])
    tokens = [token, Token(MUTABLE, token.inner)] if str(wanted).startswith("&?") else [token]
    for name, one in [("MoveLoc", one) for one in tokens] + borrows_of(token):
        local = local_of(step, one)
        if local:
            return [f"{name} {local}"]
    type_ = step.subject.type(token)
    if type_ in LOADS:
        return [f"{LOADS[type_]} 1"]
    return {"bool": ["LdTrue"], "address": ["LdConst @0x1"]}.get(type_, [])


def type_of(step: "Step", word: str) -> Optional[Token]:
    """The type that a word of a row means, or None where it isn't known."""
    if word in LEAF_KINDS or word == "&signer":
        leaf = Token(LEAF_KINDS[word.lstrip("&")])
        return Token(REFERENCE, leaf) if word.startswith("&") else leaf
    inner = step.types.get(word[-1])
    if inner is None or not word.startswith("&"):
        return inner
    return Token(MUTABLE if word.startswith("&mut_") else REFERENCE, inner)


def borrows_of(token: Token) -> List[Tuple[str, Token]]:
    """The borrow of a local that gives a type, and the local's type, where it is a reference."""
    return [("MutBorrowLoc" if token.is_mutable else "ImmBorrowLoc", token.inner)] if token.is_reference else []


def local_of(step: "Step", token: Token) -> str:
    """A local of a type that has a value before an instruction, by name; nothing where there is none."""
    subject, function = step.subject, step.function
    definition = subject.module.functions[function]
    count, types = len(known(subject.module.parameters(definition))), known(subject.module.local_types(definition))
    fitting = [local for local, one in enumerate(types)
               if one == token and (step.instruction.name, step.instruction.operand) != ("StLoc", local)]
    for local in fitting[:MOST_LOCALS]:
        last, is_first = changes(subject, function, step.at, local)
        if all(definition.code[at].name == "StLoc" for at in last) and (local < count or not is_first):
            return subject.local(function, local)
    return ""


def stored_reversed(finds: Finds) -> str:
    """What to write where the fields of what is unpacked, or the results of a call, are put into locals from the first to the last;
    nothing where they aren't."""
    if finds.name != "StLoc" or finds.maker() not in ("Unpack", "Call"):
        return ""
    made, subject = finds.makers[finds.wrong or 0], finds.subject
    step = type(finds.step)(subject, finds.step.function, made, ())
    given = step.listed(step.row.gives)
    function = subject.module.functions[step.function]
    stores = [one.operand for one in function.code[made + 1:made + 1 + len(given)] if one.name == "StLoc"]
    types = known(subject.module.local_types(function))
    if [types[one] for one in stores] != given:
        return ""
    order = ", then ".join(f"`StLoc {subject.local(step.function, one)}`" for one in reversed(stores))
    return f"the last {'field' if finds.maker() == 'Unpack' else 'result'} comes off first: {order}"


def order_said(finds: Finds) -> str:
    return ", ".join(wanted_said(finds.step, one).replace("a ", "", 1) if isinstance(one, Token) else wanted_said(finds.step, one)
                     for one in finds.wanted)


def wanted_said(step: "Step", wanted: Union[Token, str]) -> str:
    return f"`{step.subject.type(wanted)}`" if isinstance(wanted, Token) else step.said(wanted)


def of_one(finds: Finds, wanted: Union[Token, str], found: Token) -> str:
    """What to write for one operand of another type."""
    name, local = finds.name, finds.local_of()
    wants_reference = isinstance(wanted, str) and wanted.startswith("&")
    if wanted == "&signer" and found.kind == SIGNER:
        return f"borrow the signer: `ImmBorrowLoc {local or 's'}` in place of `{finds.text(finds.makers[finds.wrong or 0])}`"
    if wants_reference and found.is_reference and not found.is_mutable:
        return "only a mutable reference can be written through: take `&mut`, or borrow it by `MutBorrowLoc`, `MutBorrowField` or " \
            "`MutBorrowGlobal`"
    if wants_reference and not found.is_reference:
        how = "MutBorrowLoc" if "mut" in str(wanted) and "?" not in str(wanted) else "ImmBorrowLoc"
        return f"borrow it: `{how} {local or 'x'}`" + (f" in place of `{finds.text(finds.makers[finds.wrong or 0])}`" if local else "")
    if name in GLOBAL and found.value_type.kind == SIGNER:
        return f"a signer isn't turned into an address: {TESTED}"
    if found.is_reference:
        return "read it: `ReadRef` gives what the reference points to"
    return of_numbers(finds, wanted, found)


def of_numbers(finds: Finds, wanted: Union[Token, str], found: Token) -> str:
    """What to write for a number or a bool of another type."""
    name, type_ = finds.name, wanted_type(finds, wanted)
    if found.kind == BOOL and name in ON_BOOLS:
        return f"`{ON_BOOLS[name]}` takes two bools"
    if found.is_number and name in ON_NUMBERS:
        return f"`{ON_NUMBERS[name]}` takes two numbers"
    if found.is_number and type_ == "bool":
        return f"compare it first: `{LOADS[finds.subject.type(found)]} 0` and `Neq`"
    if found.is_number and type_ in CASTS:
        if finds.maker() in LOADS.values():
            load = finds.text(finds.makers[finds.wrong or 0])
            return f"write `{LOADS[type_]}{load[load.index(' '):]}` for `{load}`"
        return f"cast it: `{CASTS[type_]}` makes {a_type(type_)} of it"
    if type_ == LEAF_NAMES[ADDRESS] and found.is_number:
        return "write an address: `LdConst @0x1`"
    return ""


def wanted_type(finds: Finds, wanted: Union[Token, str]) -> str:
    """The type that is wanted, by name, as far as one is."""
    if isinstance(wanted, Token):
        return finds.subject.type(wanted)
    if wanted in ("n", "T") and finds.wrong:
        return finds.subject.type(finds.found[0])
    known = finds.step.types.get(wanted) if len(wanted) == 1 else None
    return finds.subject.type(known) if known is not None else wanted


def of_need(step: "Step", token: Token, need: str) -> Advice:
    """What is said of a type that lacks what an instruction needs."""
    subject, name, type_ = step.subject, step.instruction.name, step.subject.type(token)
    spot = Spot("operand" if step.instruction.operand is not None else "instruction", step.function, step.at)
    local = subject.local(step.function, step.instruction.operand) if name in ("CopyLoc", "MutBorrowLoc", "ImmBorrowLoc") else ""
    notes: Tuple[Tuple[Spot, str], ...] = ()
    own = subject.names.definition_places.get(token.value_type.struct) if token.value_type.kind == STRUCT else None
    if own is not None and need != "no reference":
        notes = ((Spot("struct", own), f"`{type_}` lacks {need} here"),)
    if need == "no reference":
        if name in ("Eq", "Neq"):
            return Advice(f"`{name}` compares values, and `{type_}` is a reference", "read both, each by `ReadRef` after it", spot)
        return Advice(f"`{local}` is a reference already, which isn't borrowed again", f"write `CopyLoc {local}` or `MoveLoc {local}`", spot)
    if need == "key":
        return Advice(f"`{type_}` lacks key, so that none is stored by itself", key_said(subject, step.instruction.operand), spot, notes)
    is_own = subject.module.is_own_struct(token.struct)
    if need == "copy":
        how = of_read(token, is_own) if name == "ReadRef" else f"move it, by `MoveLoc {local}`, or borrow it, by `ImmBorrowLoc {local}`"
        return Advice(f"{a_type(type_)} can't be copied", how, spot, notes)
    return Advice(*of_drop(name, type_, is_own), spot, notes)


def key_said(subject: "Subject", struct: int) -> str:
    """How a struct of the module is given key, beside the abilities that it has."""
    definition = subject.module.structs[struct]
    abilities = subject.module.struct_handles[definition.handle].abilities | KEY
    words = ", ".join(word for bit, word in ABILITIES if abilities & bit)
    have_store = all(subject.abilities(one.type) & STORE for one in definition.fields)
    return f"write `struct {subject.names.definitions[struct]} has {words}`" + ("" if have_store else ", with store in its fields")


def of_read(token: Token, is_own: bool) -> str:
    """What to write where a value that can't be copied is read."""
    if token.kind == SIGNER:
        return f"no instruction gives a signer's address: {TESTED}"
    if not is_own:
        return NOT_READ
    return "borrow a field of it, and read that: `ImmBorrowField` before `ReadRef`"


def of_drop(name: str, type_: str, is_own: bool) -> Tuple[str, str]:
    """What is said of a value that can't be dropped."""
    if name == "WriteRef":
        return f"what is there is {a_type(type_)}, which can't be dropped", \
            "write its fields one by one, by `MutBorrowField`" if is_own else NOT_WRITTEN
    if name in ("Eq", "Neq"):
        return f"{a_type(type_)} can't be dropped, as `{name}` does with what it compares", \
            "borrow a field of each, and compare these" if is_own else NOT_READ
    return f"{a_type(type_)} can't be dropped", f"unpack it, by `Unpack {type_}` in its own module; or store it, or return it"


def of_rest(step: "Step", rest: Sequence[Token]) -> Advice:
    """What is said of operands that Ret leaves."""
    subject, types = step.subject, [step.subject.type(one) for one in rest]
    it = "it" if len(rest) == 1 else "them"
    by = f"by {'`Pop` or ' if all(subject.abilities(one) & DROP for one in rest) else ''}`StLoc`"
    off = f"take {it} off, {by}"
    notes: Tuple[Tuple[Spot, str], ...] = ()
    if len(rest) < len(step.stack):
        notes = below_notes(step, types)
        below = "the result is" if len(step.stack) == len(rest) + 1 else "the results are"
        off = f"{below} on top of {it}: {off_below(step, len(rest), by)}"
    if not subject.module.functions[step.function].is_entry:
        off += f"; or declare {'it as a result' if len(rest) == 1 else 'results'} in the function's head"
    return Advice(f"`Ret` leaves {listed(types)} on the stack", off, Spot("instruction", step.function, step.at), notes)


def below_notes(step: "Step", types: Sequence[str]) -> Tuple[Tuple[Spot, str], ...]:
    """Where operands below the results come from."""
    found = [(Spot("instruction", step.function, at), f"the `{type_}` is from here") for at, type_ in zip(makers(step), types)]
    return tuple(dict.fromkeys(found[:MOST_NOTES]))


def off_below(step: "Step", count: int, by: str) -> str:
    """How operands below the results are taken off."""
    made = makers(step)[:count]
    if any(type(step)(step.subject, step.function, at, ()).counts()[1] != 1 for at in made):
        return f"`StLoc` what is on top, take {'it' if count == 1 else 'them'} off, {by}, and `MoveLoc` what was on top"
    if count == 1:
        return f"take it off right after `{step.subject.instruction_text(step.function, made[0])}`, {by}"
    return f"take each off right after the instruction that puts it there, {by}"


def of_block(subject: "Subject", function: int, at: int, rest: Sequence[Token]) -> Advice:
    """What is said of operands at the end of a block."""
    name, types = subject.module.functions[function].code[at].name, [subject.type(one) for one in rest]
    label = subject.label(function, at + 1)
    where = "" if subject.module.functions[function].code[at].opcode.ends_block else \
        f" before the label{f' `{label}`' if label else ''}"
    return Advice(f"{listed(types)} {'is' if len(rest) == 1 else 'are'} on the stack after `{name}`{where}, where it has to be empty",
                  "a value doesn't stay on the stack across a branch or a label: `StLoc` it before, and `MoveLoc` it after",
                  Spot("instruction", function, at))


def of_many(function: int, at: int, most: int) -> Advice:
    return Advice(f"there are more than {most} operands on the stack", "put some of them into locals, by `StLoc`",
                  Spot("instruction", function, at))

