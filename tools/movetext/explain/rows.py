"""What each instruction takes from the stack, gives to it and needs, as the tables of docs/INSTRUCTIONS.md have it.

`n` is a number's type, `T` any type, the same at each place of a row; of a local and of a constant `T` is its type. `S` is the
struct that the instruction names, `F` the type of the field. A word with `..` is a list of types."""

from typing import NamedTuple, Tuple


class Row(NamedTuple):
    """What an instruction takes and gives, and what it needs of a type: an ability, or that it is no reference."""

    takes: Tuple[str, ...] = ()
    gives: Tuple[str, ...] = ()
    needs: Tuple[Tuple[str, str], ...] = ()


def row(takes: str = "", gives: str = "", *needs: str) -> Row:
    """A row, from words with blanks between types that are written without any."""
    return Row(tuple(takes.split()), tuple(gives.split()), tuple((need.split(" ", 1)[0], need.split(" ", 1)[1]) for need in needs))


NUMBERS, COMPARED = row("n n", "n"), row("n n", "bool")
EQUAL = row("T T", "bool", "T no reference", "T drop")

ROWS = {
    "LdU8": row("", "u8"), "LdU16": row("", "u16"), "LdU32": row("", "u32"), "LdU64": row("", "u64"), "LdU128": row("", "u128"),
    "LdConst": row("", "T"), "LdTrue": row("", "bool"), "LdFalse": row("", "bool"),
    "Add": NUMBERS, "Sub": NUMBERS, "Mul": NUMBERS, "Mod": NUMBERS, "Div": NUMBERS,
    "BitOr": NUMBERS, "BitAnd": NUMBERS, "Xor": NUMBERS,
    "Or": row("bool bool", "bool"), "And": row("bool bool", "bool"), "Not": row("bool", "bool"),
    "Eq": EQUAL, "Neq": EQUAL, "Lt": COMPARED, "Gt": COMPARED, "Le": COMPARED, "Ge": COMPARED,
    "Shl": row("n u8", "n"), "Shr": row("n u8", "n"),
    "CastU8": row("n", "u8"), "CastU16": row("n", "u16"), "CastU32": row("n", "u32"), "CastU64": row("n", "u64"),
    "CastU128": row("n", "u128"),
    "Ret": row("results.."), "BrTrue": row("bool"), "BrFalse": row("bool"), "Branch": row(),
    "Call": row("parameters..", "results.."), "Abort": row("u64"), "Nop": row(),
    "Pop": row("T", "", "T drop"), "CopyLoc": row("", "T", "T copy"), "MoveLoc": row("", "T"), "StLoc": row("T"),
    "MutBorrowLoc": row("", "&mut_T", "T no reference"), "ImmBorrowLoc": row("", "&T", "T no reference"),
    "Pack": row("fields..", "S"), "Unpack": row("S", "fields.."),
    "MutBorrowField": row("&mut_S", "&mut_F"), "ImmBorrowField": row("&?S", "&F"),
    "ReadRef": row("&?T", "T", "T copy"), "WriteRef": row("T &mut_T", "", "T drop"), "FreezeRef": row("&mut_T", "&T"),
    "Exists": row("address", "bool", "S key"), "MutBorrowGlobal": row("address", "&mut_S", "S key"),
    "ImmBorrowGlobal": row("address", "&S", "S key"), "MoveFrom": row("address", "S", "S key"),
    "MoveTo": row("&signer S", "", "S key"),
}

# How a word of a row is said.
SAID = {"&mut_T": "&mut T", "&mut_S": "&mut S", "&mut_F": "&mut F", "&?T": "&T or &mut T", "&?S": "&S or &mut S"}
