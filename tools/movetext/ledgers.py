"""Saved ledgers of both forms from bytes."""

from dataclasses import dataclass, field
from typing import Callable, Dict, List, Optional, Tuple

from . import limits, model
from .cursor import Cursor, Fault, Stop
from .model import COPY, DROP, KEY, LEDGER_MAGIC, Ledger, Module, Offer, Stored, Tally
from .reader import read_module

# How deep structs may lie in one another, and how many leaves and structs a value may have, before its leaves aren't looked
# for any more. The linker refuses far smaller ones.
MOST_NESTED = 64
MOST_PARTS = 10_000

# A struct's address, module and name, as far as they are known.
FullName = Optional[Tuple[Optional[bytes], Optional[str], Optional[str]]]


@dataclass
class LedgerReading:
    """What was read of a saved ledger: its parts as far as they go, its modules, where each stands, and the faults found."""

    ledger: Ledger
    modules: List[Module] = field(default_factory=list)
    module_offsets: List[int] = field(default_factory=list)
    certificate_offsets: List[int] = field(default_factory=list)
    faults: List[Fault] = field(default_factory=list)
    reason: int = 0
    is_listed: bool = False


def read_ledger(data: bytes) -> Optional[LedgerReading]:
    """What bytes are as a saved ledger: a LedgerReading, or None where they don't begin as one. Where there are faults its
    reason is 1 for the list of modules, 2 for a module, and 4 for what follows."""
    form = next((form for form, magic in LEDGER_MAGIC.items() if data[:4] == magic), None)
    if form is None:
        return None
    reading = LedgerReading(Ledger(form))
    cursor = Cursor(data, 4, faults=reading.faults)
    try:
        read_parts(cursor, reading)
        if not cursor.is_at_end:
            cursor.fault(cursor.at, f"{cursor.left()} after the last stored value")
    except Stop:
        pass
    if reading.faults and not reading.reason:
        reading.reason = 4 if len(reading.modules) == len(reading.ledger.offers) and reading.is_listed else 1
    return reading


def read_parts(cursor: Cursor, reading: LedgerReading) -> None:
    """Runs, modules, tallies and stored values."""
    ledger = reading.ledger
    ledger.runs = cursor.number(limits.RUN_COUNT, "the number of runs")
    for _ in range(cursor.number(limits.STORE_MODULES, "the number of modules")):
        read_offer(cursor, reading)
    reading.is_listed = True
    reading.reason = 1 if reading.faults else 0
    for index, offer in enumerate(ledger.offers):
        read_offered(cursor, reading, index, offer)
    structs = Structs(reading.modules)
    ledger.scarce, ledger.keys = structs.scarce(), structs.keys()
    for _ in ledger.scarce:
        ledger.tallies.append(read_tally(cursor, ledger.form))
    if ledger.form == 1:
        read_first_form(cursor, ledger, structs)
    else:
        read_second_form(cursor, ledger, structs)


def read_offer(cursor: Cursor, reading: LedgerReading) -> None:
    """The bytes of a module and of its certificate."""
    size = cursor.number(limits.TABLE_BYTES, "a module's length")
    at = cursor.at
    data = cursor.bytes(size, "a module")
    size = cursor.number(limits.CERTIFICATE_BYTES, "a certificate's length")
    reading.module_offsets.append(at)
    reading.certificate_offsets.append(cursor.at)
    reading.ledger.offers.append(Offer(data, cursor.bytes(size, "a certificate")))


def read_offered(cursor: Cursor, reading: LedgerReading, index: int, offer: Offer) -> None:
    """A module; what follows the list of modules can't be read where it is none."""
    module = read_module(offer.module)
    if not module.is_module:
        first = module.faults[0]
        reading.reason = reading.reason or 2
        cursor.stop(reading.module_offsets[index] + first.offset, f"module {index}: {first.reason}")
    reading.modules.append(module.module)


def read_tally(cursor: Cursor, form: int) -> Tally:
    if form == 2:
        packed = cursor.number(limits.TALLY, "how many values were packed")
        return Tally(packed, cursor.number(limits.TALLY, "how many values were unpacked"))
    bytes_packed = cursor.bytes(16, "how many values were packed")
    bytes_unpacked = cursor.bytes(16, "how many values were unpacked")
    return Tally(int.from_bytes(bytes_packed, "little"), int.from_bytes(bytes_unpacked, "little"))


def read_first_form(cursor: Cursor, ledger: Ledger, structs: "Structs") -> None:
    """The stored values, which ascend by address, place and struct definition."""
    before = None
    for _ in range(cursor.number(limits.STORED_COUNT, "the number of stored values")):
        at = cursor.at
        address = cursor.address("a stored value's address")
        place = cursor.index("the place of a stored value's module")
        struct = cursor.index("a stored value's struct definition")
        if (place, struct) not in ledger.keys:
            cursor.stop(at, f"no struct with key has the place {place} and the definition {struct}")
        if before is not None and (address, place, struct) <= before:
            cursor.fault(at, "a stored value isn't above the one before it")
        before = address, place, struct
        read_stored(cursor, ledger, structs, *before)


def read_second_form(cursor: Cursor, ledger: Ledger, structs: "Structs") -> None:
    """For each struct with key its stored values, which ascend by address."""
    for place, struct in ledger.keys:
        before = None
        for _ in range(cursor.number(limits.STORED_COUNT, "the number of a struct's stored values")):
            at = cursor.at
            address = cursor.address("a stored value's address")
            if before is not None and address <= before:
                cursor.fault(at, "a stored value isn't above the one before it")
            before = address
            read_stored(cursor, ledger, structs, address, place, struct)


def read_stored(cursor: Cursor, ledger: Ledger, structs: "Structs", address: bytes, place: int, struct: int) -> None:
    leaves = structs.leaves(place, struct)
    if leaves is None:
        cursor.stop(cursor.at, f"the leaves of struct definition {struct} of module {place} aren't known")
    stored = Stored(address, place, struct)
    ledger.stored.append(stored)
    for kind in leaves:
        stored.leaves.append(cursor.value(kind, "a stored value's leaf"))


class Structs:
    """The struct definitions of modules that link to one another by address and name."""

    def __init__(self, modules: List[Module]):
        self.modules = modules
        self.by_name: Dict[FullName, Tuple[int, int]] = {}
        self.known: Dict[Tuple[int, int], Tuple[Optional[List[int]], int]] = {}
        for place, module in enumerate(modules):
            for index in range(len(module.structs)):
                self.by_name.setdefault(self.full_name(module, module.structs[index].handle), (place, index))

    @staticmethod
    def full_name(module: Module, struct_handle: int) -> FullName:
        """A struct's address, module and name, by its handle in a module."""
        handle = model.entry(module.struct_handles, struct_handle)
        if handle is None:
            return None
        return module.address_of(handle.module), module.module_name(handle.module), module.identifier(handle.name)

    def which(self, wanted: Callable[[int], int]) -> List[Tuple[int, int]]:
        """The place and definition index of each struct whose abilities are wanted, in order."""
        found = []
        for place, module in enumerate(self.modules):
            for index in range(len(module.structs)):
                handle = module.definition_handle(index)
                if handle is not None and wanted(handle.abilities):
                    found.append((place, index))
        return found

    def scarce(self) -> List[Tuple[int, int]]:
        """The structs with neither copy nor drop, of which tallies are kept."""
        return self.which(lambda abilities: not abilities & (COPY | DROP))

    def keys(self) -> List[Tuple[int, int]]:
        """The structs with key, of which values are stored."""
        return self.which(lambda abilities: abilities & KEY)

    def definition(self, module: Module, struct_handle: int) -> Optional[Tuple[int, int]]:
        """The place and definition index of the struct that a handle of a module names, or None."""
        return self.by_name.get(self.full_name(module, struct_handle))

    def leaves(self, place: int, struct: int, depth: int = 0) -> Optional[List[int]]:
        """The kinds of a struct's leaves in order, or None where they aren't known."""
        return self.parts(place, struct, depth)[0]

    def parts(self, place: int, struct: int, depth: int) -> Tuple[Optional[List[int]], int]:
        """A struct's leaves, or None, and how many leaves and structs it has."""
        if (place, struct) not in self.known:
            self.known[place, struct] = self.parts_of(place, struct, depth)
        return self.known[place, struct]

    def parts_of(self, place: int, struct: int, depth: int) -> Tuple[Optional[List[int]], int]:
        module = self.modules[place]
        found: List[int] = []
        count = 1
        for one in module.structs[struct].fields:
            inner: Optional[List[int]] = [one.type.kind]
            size = 1
            if one.type.kind == model.STRUCT:
                key = self.definition(module, one.type.struct)
                inner, size = self.parts(*key, depth + 1) if key and depth < MOST_NESTED else (None, 0)
            elif one.type.kind not in model.LEAF_WIDTHS:
                inner = None
            count += size
            if inner is None or count > MOST_PARTS:
                return None, 0
            found += inner
        return found, count
