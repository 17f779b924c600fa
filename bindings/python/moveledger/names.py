"""Addresses, and the names of structs and modules, as calls take them."""

from typing import List, Tuple, Union

# A number, or hexadecimal digits with or without 0x before them.
Address = Union[int, str]
# A text with its length.
Text = Tuple[bytes, int]


def address_bytes(address: Address) -> bytes:
    """An address's 16 bytes, the most significant first. ValueError where it is none."""
    number = int(address, 16) if isinstance(address, str) else address
    if not 0 <= number < 1 << 128:
        raise ValueError(f"{address} is no address: it is at least 0, and below 2^128")
    return number.to_bytes(16, "big")


def parts(name: str, count: int) -> List[str]:
    """The parts of a name, with `::` between them. ValueError where there are more or fewer."""
    found = name.split("::")
    if len(found) != count:
        raise ValueError(f"{name!r} is no name: {'ADDRESS::MODULE::STRUCT' if count == 3 else 'ADDRESS::MODULE'}")
    return found


def text(part: str) -> Text:
    data = part.encode("utf-8")
    return data, len(data)


def struct_words(name: str) -> Tuple[bytes, bytes, int, bytes, int]:
    """What calls take for a struct's name, as `0x1::M::Coin` or as a line of a show has it."""
    home, module, struct = parts(name, 3)
    return (address_bytes(home), *text(module), *text(struct))


def module_words(name: str) -> Tuple[bytes, bytes, int]:
    """What calls take for a module's name, as `0x1::M`."""
    home, module = parts(name, 2)
    return (address_bytes(home), *text(module))
