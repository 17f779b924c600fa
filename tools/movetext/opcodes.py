"""The 57 instructions: name, opcode, and what follows the opcode, as docs/INSTRUCTIONS.md lists them."""

from typing import NamedTuple

# What an immediate is. The first six are indices, a constant's among them; the others are numbers of a width.
NOTHING, TARGET, LOCAL, FUNCTION, STRUCT, FIELD, CONSTANT, NUMBER = range(8)

# An immediate's kind in words.
OPERAND_WORDS = {
    NOTHING: "nothing", TARGET: "a label", LOCAL: "a local", FUNCTION: "a function", STRUCT: "a struct",
    FIELD: "a field", CONSTANT: "a constant", NUMBER: "a number",
}


class Opcode(NamedTuple):
    """A row of the table of instructions."""

    code: int
    name: str
    operand: int = NOTHING
    width: int = 0       # of a NUMBER, in bytes
    version: int = 5     # the first version that has it

    @property
    def is_branch(self) -> bool:
        """Whether control may go to a target."""
        return self.operand == TARGET

    @property
    def leaves_or_jumps(self) -> bool:
        """Whether control never goes on to the next instruction."""
        return self.code in (0x02, 0x05, 0x27)

    @property
    def ends_block(self) -> bool:
        """Whether the instruction is the last of its block."""
        return self.operand == TARGET or self.code in (0x02, 0x27)


OPCODES = [
    Opcode(0x01, "Pop"),
    Opcode(0x02, "Ret"),
    Opcode(0x03, "BrTrue", TARGET),
    Opcode(0x04, "BrFalse", TARGET),
    Opcode(0x05, "Branch", TARGET),
    Opcode(0x06, "LdU64", NUMBER, 8),
    Opcode(0x07, "LdConst", CONSTANT),
    Opcode(0x08, "LdTrue"),
    Opcode(0x09, "LdFalse"),
    Opcode(0x0A, "CopyLoc", LOCAL),
    Opcode(0x0B, "MoveLoc", LOCAL),
    Opcode(0x0C, "StLoc", LOCAL),
    Opcode(0x0D, "MutBorrowLoc", LOCAL),
    Opcode(0x0E, "ImmBorrowLoc", LOCAL),
    Opcode(0x0F, "MutBorrowField", FIELD),
    Opcode(0x10, "ImmBorrowField", FIELD),
    Opcode(0x11, "Call", FUNCTION),
    Opcode(0x12, "Pack", STRUCT),
    Opcode(0x13, "Unpack", STRUCT),
    Opcode(0x14, "ReadRef"),
    Opcode(0x15, "WriteRef"),
    Opcode(0x16, "Add"),
    Opcode(0x17, "Sub"),
    Opcode(0x18, "Mul"),
    Opcode(0x19, "Mod"),
    Opcode(0x1A, "Div"),
    Opcode(0x1B, "BitOr"),
    Opcode(0x1C, "BitAnd"),
    Opcode(0x1D, "Xor"),
    Opcode(0x1E, "Or"),
    Opcode(0x1F, "And"),
    Opcode(0x20, "Not"),
    Opcode(0x21, "Eq"),
    Opcode(0x22, "Neq"),
    Opcode(0x23, "Lt"),
    Opcode(0x24, "Gt"),
    Opcode(0x25, "Le"),
    Opcode(0x26, "Ge"),
    Opcode(0x27, "Abort"),
    Opcode(0x28, "Nop"),
    Opcode(0x29, "Exists", STRUCT),
    Opcode(0x2A, "MutBorrowGlobal", STRUCT),
    Opcode(0x2B, "ImmBorrowGlobal", STRUCT),
    Opcode(0x2C, "MoveFrom", STRUCT),
    Opcode(0x2D, "MoveTo", STRUCT),
    Opcode(0x2E, "FreezeRef"),
    Opcode(0x2F, "Shl"),
    Opcode(0x30, "Shr"),
    Opcode(0x31, "LdU8", NUMBER, 1),
    Opcode(0x32, "LdU128", NUMBER, 16),
    Opcode(0x33, "CastU8"),
    Opcode(0x34, "CastU64"),
    Opcode(0x35, "CastU128"),
    Opcode(0x48, "LdU16", NUMBER, 2, 6),
    Opcode(0x49, "LdU32", NUMBER, 4, 6),
    Opcode(0x4B, "CastU16", version=6),
    Opcode(0x4C, "CastU32", version=6),
]

BY_CODE = {opcode.code: opcode for opcode in OPCODES}
BY_NAME = {opcode.name: opcode for opcode in OPCODES}
