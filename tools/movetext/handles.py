"""The tables that all others of a module refer to, and the names that modules go by."""

from typing import Dict, Optional, Union

from . import model, syntax
from .errors import TextError, Unknown, unknown
from .limits import IDENTIFIER_BYTES
from .pools import Pool
from .scanner import is_identifier

# What the own module goes by.
OWN = "Self"


class Names:
    """Identifiers, addresses and module handles in the making, and the names that modules go by."""

    def __init__(self) -> None:
        self.identifiers: Pool[str] = Pool("identifiers")
        self.addresses: Pool[bytes] = Pool("addresses")
        self.modules: Pool[model.ModuleHandle] = Pool("module handles")
        self.aliases: Dict[str, int] = {}
        self.own = 0
        self.own_name = ""

    def identifier(self, name: syntax.Entry) -> int:
        """The index of an identifier."""
        if isinstance(name, syntax.Index):
            return name.number
        return self.identifiers.place(checked_identifier(name), name.at)

    def address(self, address: Union[bytes, syntax.Index], at: int) -> int:
        """The index of an address."""
        return address.number if isinstance(address, syntax.Index) else self.addresses.place(address, at)

    def handle(self, module: syntax.ModuleName) -> model.ModuleHandle:
        """A module handle by its address and name."""
        assert module.address is not None
        return model.ModuleHandle(self.address(module.address, module.at), self.identifier(module.name))

    def module(self, module: Optional[syntax.ModuleName]) -> int:
        """The index of the handle of a module that is named."""
        if module is None:
            return self.own
        if module.address is None:
            return self.by_alias(module.name)
        handle = self.known_handle(module)
        place = None if handle is None else self.modules.places.get(handle)
        if place is None:
            raise Unknown(module.at, unknown("import of the module", module_text(module), ()), [entry_text(module.name)],
                          f"write `import {module_text(module)} {{ .. }}`, with what is used from it in the braces")
        return place

    def by_alias(self, name: syntax.Entry) -> int:
        if isinstance(name, syntax.Index):
            return name.number
        place = self.aliases.get(name.text)
        if place is None:
            if name.text == self.own_name:
                raise TextError(name.at, f"`{name.text}` is this module itself", "write what follows alone, or `Self::` before it")
            raise Unknown(name.at, unknown("import of a module", name.text, [one for one in self.aliases if one != OWN]), [name.text],
                          f"write `import ADDRESS::{name.text} {{ .. }}`, with what is used from it in the braces")
        return place

    def known_handle(self, module: syntax.ModuleName) -> Optional[model.ModuleHandle]:
        """A module handle by its address and name, where both are in their tables."""
        told, name = module.address, self.known_identifier(module.name)
        address = told.number if isinstance(told, syntax.Index) else self.addresses.places.get(told or b"")
        return None if address is None or name is None else model.ModuleHandle(address, name)

    def known_identifier(self, name: syntax.Entry) -> Optional[int]:
        """The index of an identifier, or None where it isn't in the table."""
        return name.number if isinstance(name, syntax.Index) else self.identifiers.places.get(name.text)


def checked_identifier(name: syntax.Name) -> str:
    """A name that is an identifier; TextError for any other."""
    if not is_identifier(name.text):
        if len(name.text) > IDENTIFIER_BYTES:
            raise TextError(name.at, f"`{name.text[:40]}..` has {len(name.text)} letters, more than {IDENTIFIER_BYTES}")
        raise TextError(name.at, f"`{name.text[:40]}` is no identifier", "a name is a letter, and letters, digits or `_`")
    return name.text


def entry_text(entry: syntax.Entry) -> str:
    """A name or an index, as one writes it."""
    return entry.text if isinstance(entry, syntax.Name) else f"#{entry.number}"


def module_text(module: syntax.ModuleName) -> str:
    """A module by its address and name, as one writes it."""
    if not isinstance(module.address, bytes):
        return entry_text(module.name)
    return f"0x{int.from_bytes(module.address, 'big'):x}::{entry_text(module.name)}"


def path_text(path: syntax.Path) -> str:
    """Something of a module, as one writes it."""
    name = entry_text(path.name)
    return name if path.module is None else f"{module_text(path.module)}::{name}"
