"""Words and marks that Move's source or another language has and a module's text hasn't: what one writes in their place."""

import re
from typing import Dict, Optional

from .errors import Help

GENERICS = Help("there are no generics", "a struct or a function has no types in `<` and `>`: write one for each type")
NO_VECTOR = Help("there are no vectors", "a struct has a fixed number of fields")
EXPRESSION = Help("there are no expressions", "code is instructions, which take their operands from the stack: `MoveLoc x`, "
                  "`LdU64 1`, `Add` for `x + 1`")
FIELD_READ = Help(EXPRESSION.fact, "code is instructions, which take their operands from the stack: `ImmBorrowLoc coin`, "
                  "`ImmBorrowField Coin.value`, `ReadRef` for `coin.value`")
ASSIGNED = Help("nothing is assigned with `=`", "a local gets its value from instructions, as `LdU64 1` and `StLoc x` for `x = 1`; a "
                "`let` has a name and a type alone")
# Where the value of a field or a parameter comes from.
VALUES = {"field": "Pack takes the value of each field from the stack", "parameter": "the caller gives each argument"}
CONTROL = "control flow uses labels: `BrTrue done`, `BrFalse done` or `Branch done`, and `done:` before an instruction"
CONSTANT = "constants have no names: write the value where it is loaded, as `LdU64 7` or `LdConst @0x1`"
ASSERT = "write `BrTrue fine`, `LdU64 1`, `Abort`, and `fine:` before what follows"
NUMBERS = "numbers are u8, u16, u32, u64 and u128"
STRINGS = Help("there are no strings and no characters")

# What stands before a number, which is then no operand of an expression.
LOADED = re.compile(r"\b(LdU[0-9]+|LdConst|budget|version)\s*\Z")

# What is said of the marks that begin no word here.
MARKS = {
    "<": GENERICS, ">": GENERICS, "+": EXPRESSION, "*": EXPRESSION, "%": EXPRESSION, "!": EXPRESSION, "|": EXPRESSION,
    "^": EXPRESSION, "-": EXPRESSION, "=": ASSIGNED,
    "\ufeff": Help("the text begins with a byte order mark", "save it as UTF-8 without one"), "'": STRINGS, "?": EXPRESSION,
}


def on_stack(name: str, before: str) -> str:
    """How an instruction that names its struct is written."""
    return f"write `{name} Coin`, with {before} on the stack"


# What to write for words in the place of an instruction.
INSTRUCTIONS = {
    "return": "write `Ret`, with the results on the stack",
    "abort": "write `Abort`, with the code on the stack: `LdU64 1` and `Abort`",
    "assert": ASSERT, "if": CONTROL, "else": CONTROL, "while": CONTROL, "loop": CONTROL, "break": CONTROL, "continue": CONTROL,
    "for": CONTROL, "goto": CONTROL, "match": CONTROL,
    "move_to": on_stack("MoveTo", "a reference to the signer and the value"), "move_from": on_stack("MoveFrom", "the address"),
    "exists": on_stack("Exists", "the address"), "borrow_global": on_stack("ImmBorrowGlobal", "the address"),
    "borrow_global_mut": on_stack("MutBorrowGlobal", "the address"),
    "copy": "`copy x` is written `CopyLoc x`", "move": "`move x` is written `MoveLoc x`",
    "freeze": "write `FreezeRef`, with the reference on the stack", "spec": "there are no specifications in a module's text",
    "BorrowLoc": "write `ImmBorrowLoc x` or `MutBorrowLoc x`", "BorrowField": "write `ImmBorrowField Coin.value` or "
    "`MutBorrowField Coin.value`", "BorrowGlobal": "write `ImmBorrowGlobal Coin` or `MutBorrowGlobal Coin`",
    "Push": "a value is put on the stack by `LdU64 1`, `LdConst @0x1`, `CopyLoc x` or `MoveLoc x`",
    "Load": "a value is put on the stack by `LdU64 1`, `LdConst @0x1`, `CopyLoc x` or `MoveLoc x`",
    "Dup": "no operand is copied: `StLoc x`, and then `CopyLoc x` for each use",
    "Swap": "operands keep their order: `StLoc` both, and load them in the order that you want",
    "CastU256": "the widest number is u128: write `CastU128`", "LdU256": "the widest number is u128: write `LdU128 1`",
    "LdAddr": "write `LdConst @0x1`", "LdFalseConst": "write `LdFalse`", "Assert": ASSERT,
}
MEANT = {
    "Jump": "Branch", "Jmp": "Branch", "Goto": "Branch", "BranchTrue": "BrTrue", "BranchFalse": "BrFalse", "BrIf": "BrTrue",
    "Return": "Ret", "Store": "StLoc", "StoreLoc": "StLoc", "SetLoc": "StLoc", "LoadLoc": "CopyLoc", "LdLoc": "CopyLoc",
    "GetLoc": "CopyLoc", "Copy": "CopyLoc", "Move": "MoveLoc", "CopyLocal": "CopyLoc", "MoveLocal": "MoveLoc",
    "StoreLocal": "StLoc", "LoadConst": "LdConst", "LdAddress": "LdConst", "Const": "LdConst", "Drop": "Pop", "Equal": "Eq",
    "Equals": "Eq", "NotEqual": "Neq", "NotEq": "Neq", "Less": "Lt", "Greater": "Gt", "LessEq": "Le", "GreaterEq": "Ge",
    "Rem": "Mod", "Modulo": "Mod", "Minus": "Sub", "Plus": "Add", "Times": "Mul", "Divide": "Div", "ShiftLeft": "Shl",
    "ShiftRight": "Shr", "BitXor": "Xor", "Store_Global": "MoveTo", "Freeze": "FreezeRef", "Deref": "ReadRef",
}
# The words of control flow in the sources of many languages, which begin no function.
CONTROLS = frozenset(word for word, help in INSTRUCTIONS.items() if help is CONTROL)
for kind in ("Call", "Pack", "Unpack", "MoveTo", "MoveFrom", "Exists", "MutBorrowGlobal", "ImmBorrowGlobal", "MutBorrowField",
             "ImmBorrowField"):
    INSTRUCTIONS[f"{kind}Generic"] = f"there are no generics: write `{kind}`, and one struct or function for each type"
for word in ("VecPack", "VecLen", "VecImmBorrow", "VecMutBorrow", "VecPushBack", "VecPopBack", "VecUnpack", "VecSwap"):
    INSTRUCTIONS[word] = "there are no vectors: a struct has a fixed number of fields"

# What to write for words in the place of an item of a module, or before a function's name.
ITEMS = {
    "use": "another module is named by `import 0x1::M { .. }`, with the structs and functions that are used in braces after it",
    "friend": "there are no friends: a function is `public`, so that every module may call it, or private",
    "const": CONSTANT, "native": "there are no native functions", "spec": "there are no specifications in a module's text",
    "script": "there are no scripts: an `entry` function of a module is run by a `run` record",
    "fn": "a function begins with `fun`, or with its name alone", "func": "a function begins with `fun`, or with its name alone",
    "function": "a function begins with `fun`, or with its name alone", "pub": "what every module may call is `public`",
    "inline": "there are no inline functions", "enum": "there are no enums: a struct has one list of fields",
    "private": "a function without `public` may be called only by its own module; there is no word for it",
    "let": "locals are declared within a function, before its first instruction",
}

# What is said of words in the place of a type.
TYPES: Dict[str, Help] = {
    "vector": NO_VECTOR, "u256": Help("there is no `u256`", "the widest number is u128"), "String": STRINGS, "string": STRINGS,
    "usize": Help("there is no `usize`", NUMBERS), "int": Help("there is no `int`", NUMBERS), "Option": GENERICS,
}
for bits in (8, 16, 32, 64, 128):
    TYPES[f"i{bits}"] = Help(f"there is no `i{bits}`", f"numbers are unsigned: write `u{bits}`")


# The same words with other letters, as `If`.
ANY_CASE = {word.lower(): help for word, help in INSTRUCTIONS.items()}


def of_instruction(word: str) -> str:
    """What to write for a word in the place of an instruction; nothing where that isn't known."""
    if word in MEANT:
        return f"did you mean `{MEANT[word]}`?"
    return INSTRUCTIONS.get(word, ANY_CASE.get(word.lower(), ""))


def of_name(before: str, behind: str) -> Optional[Help]:
    """What is said of a dash between two letters, by the text before and behind it; None where that is a line of its own, as `x-y`, which
    is no name."""
    first, last = re.search(r"[A-Za-z_][\w-]*\Z", before), re.match(r"-[A-Za-z_][\w-]*", behind)
    if first is None or last is None:
        return None
    if re.search(r"(\A|[\n;{}])[ \t\r]*\Z", before[:first.start()]) and re.match(r"[ \t\r]*(\Z|[\n;}])", behind[last.end():]):
        return None
    return Help("a name has letters, digits and `_`", f"write `{(first.group() + last.group()).replace('-', '_')}`")


def of_mark(text: str, at: int) -> Optional[Help]:
    """What is said of a mark that begins no word, by what stands around it; None where nothing is."""
    line = text[text.rfind("\n", 0, at) + 1:at].split()
    if line and text[at] in "=!" and (line[0] == "const" or line[-1] == "assert"):
        return Help("there are no named constants", CONSTANT) if line[0] == "const" else Help("there is no `assert`", ASSERT)
    if text.startswith("->", at):
        return Help("no word begins with `->`", "results stand after a colon, as `f(x: u64): u64`")
    if text.startswith("=>", at):
        return Help("no word begins with `=>`", CONTROL)
    before = text[max(0, at - 99):at]
    if re.match(r"-\s*[0-9]", text[at:at + 9]) and (LOADED.search(before) or not re.search(r"[\w)]\s*\Z", before)):
        return Help("there is no negative number", "numbers are unsigned: Sub aborts the run below 0")
    if text[at] == "-" and of_name(before, text[at:at + 99]):
        return of_name(before, text[at:at + 99])
    if text[at] == "/" and re.search(r"[\w)]\s*\Z", text[max(0, at - 99):at]):
        return EXPRESSION
    if text[at] in "<>" and re.search(r"\bvector\s*\Z", text[max(0, at - 99):at]):
        return NO_VECTOR
    if text[at] in "<>" and is_compared(text, at):
        return EXPRESSION
    if text[at] == "=" and (text.startswith("==", at) or text[at - 1:at] in ("!", "<", ">")):
        return EXPRESSION
    return MARKS.get(text[at])


def is_compared(text: str, at: int) -> bool:
    """Whether `<` or `>` stands between two operands with blanks, as no type's brackets do."""
    return text[at - 1:at] == " " and text[at + 1:at + 2] in (" ", "=")
