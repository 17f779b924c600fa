"""The kinds of types, and values of those that are no references and no structs."""

from dataclasses import dataclass
from typing import Union

# The kinds of types, which are the bytes that begin them.
BOOL, U8, U64, U128, ADDRESS, REFERENCE, MUTABLE, STRUCT, SIGNER, U16, U32 = (
    0x01, 0x02, 0x03, 0x04, 0x05, 0x06, 0x07, 0x08, 0x0C, 0x0D, 0x0E)
LEAF_NAMES = {
    BOOL: "bool", U8: "u8", U64: "u64", U128: "u128", ADDRESS: "address", SIGNER: "signer", U16: "u16", U32: "u32",
}
LEAF_KINDS = {name: kind for kind, name in LEAF_NAMES.items()}
# How many bytes a value of a leaf type takes. No value of signer is ever written.
LEAF_WIDTHS = {BOOL: 1, U8: 1, U16: 2, U32: 4, U64: 8, U128: 16, ADDRESS: 16}
NUMBER_KINDS = (U8, U16, U32, U64, U128)
LATE_KINDS = (U16, U32)

ADDRESS_BYTES = 16


@dataclass(frozen=True)
class Value:
    """A value of a leaf type: a bool, a number, or an address's 16 bytes."""

    kind: int
    value: Union[bool, int, bytes]


def read_leaf(kind: int, data: bytes) -> Union[bool, int, bytes, None]:
    """The value that bytes are of a leaf type: a bool, a number or an address's bytes; None where they are none."""
    if len(data) != LEAF_WIDTHS.get(kind):
        return None
    if kind == ADDRESS:
        return bytes(data)
    if kind == BOOL:
        return bool(data[0]) if data[0] < 2 else None
    return int.from_bytes(data, "little")


def write_leaf(kind: int, value: Union[bool, int, bytes]) -> bytes:
    """The bytes of a value of a leaf type."""
    return bytes(value) if kind == ADDRESS else int(value).to_bytes(LEAF_WIDTHS[kind], "little")
