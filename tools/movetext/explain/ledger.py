"""What a ledger is: its modules, what is stored, how many values were packed and unpacked, and the runs that it had. It takes
bundles and saved ledgers, or says why not."""

from typing import Counter, Dict, Iterator, List, NamedTuple, NoReturn, Optional, Sequence, Tuple

from .. import model
from ..ledgers import LedgerReading, read_ledger
from ..model import COPY, DROP, KEY, STRUCT, Token
from ..naming import address_text
from ..limits import PACKED_IN_A_RUN, STORE_MODULES
from ..records import RecordPlace
from ..source_names import NameTable
from .failures import Failure, Fails, Place
from .link import Linking, ModuleName, Published, name_text
from .machine import StoredKey, StructKey, Value, Watch
from .verdict import explain_module


class Refusal(NamedTuple):
    """Why a bundle or a saved ledger is refused. `module` is the number of the module that fails, from 0, or None."""

    failure: Failure
    module: Optional[int] = None


class Ledger:
    """A ledger, which begins empty. Modules stand by address and name, in the order of publication. Its runs are watched where
    there is something to watch them."""

    def __init__(self, names: Optional[NameTable] = None):
        self.names = names or NameTable()
        self.modules: Dict[ModuleName, Published] = {}
        self.stored: Dict[StoredKey, Value] = {}
        self.packed: Counter[StructKey] = Counter()
        self.unpacked: Counter[StructKey] = Counter()
        self.runs = 0
        self.watch: Optional[Watch] = None

    def publish(self, record: model.Publish, place: RecordPlace) -> Optional[Refusal]:
        """Publishes a bundle, or says why not; nothing changes then."""
        bundle: List[Published] = []
        for index, offer in enumerate(record.offers):
            verdict = explain_module(offer.module, offer.certificate, place.modules[index], place.certificates[index],
                                     self.names.of(offer.module))
            if verdict.failure:
                return Refusal(verdict.failure, index)
            bundle.append(Published(verdict.subject, offer.certificate))
        try:
            linking = Linking(self.modules, record.sender, bundle)
            linking.check()
            check_room(linking)
        except Fails as fails:
            return Refusal(fails.failure)
        self.join(bundle)
        return None

    def join(self, bundle: Sequence[Published]) -> None:
        """Adds modules, each in the place of the one whose name it has, or behind all others."""
        for one in bundle:
            before = self.modules.get(one.name)
            one.place = before.place if before else len(self.modules)
            self.modules[one.name] = one

    def in_order(self) -> List[Published]:
        return list(self.modules.values())

    def structs(self, abilities: int, lacking: int = 0) -> Iterator[Tuple[Published, int]]:
        """The structs with and without these abilities, by the places of their modules and their definitions."""
        for one in self.modules.values():
            for index in range(len(one.module.structs)):
                has = one.definition_abilities(index)
                if has & abilities == abilities and not has & lacking:
                    yield one, index

    def scarce(self) -> Iterator[Tuple[Published, int]]:
        """The structs with neither copy nor drop."""
        return self.structs(0, COPY | DROP)

    def keyed(self) -> Iterator[Tuple[Published, int]]:
        """The structs with key."""
        return self.structs(KEY)

    def definition(self, owner: Published, token: Token) -> Tuple[Published, int]:
        """The module and the definition of a struct type of a module."""
        name = owner.struct_name(token.struct)
        there = self.modules[name[:2]]
        return there, there.structs[name[2]]

    def load(self, data: bytes) -> Optional[Refusal]:
        """Takes a saved ledger's bytes as an empty ledger's, or says why not."""
        reading = read_ledger(data)
        try:
            if reading is None:
                not_loaded(1, 0, "the bytes begin with a mark, a number of runs and a list of modules",
                           "they don't begin with 4D 56 4C 31 or 4D 56 4C 32")
            return self.take(reading)
        except Fails as fails:
            return Refusal(fails.failure)

    def take(self, reading: LedgerReading) -> Optional[Refusal]:
        """Takes a saved ledger that was read, or says why not. Raises a failure where no module of its own is the reason."""
        if reading.reason == 1:
            not_loaded(1, reading.faults[0].offset, "the bytes begin with a mark, a number of runs and a list of modules",
                       reading.faults[0].reason)
        bundle = []
        for index, offer in enumerate(reading.ledger.offers):
            verdict = explain_module(offer.module, offer.certificate, reading.module_offsets[index],
                                     reading.certificate_offsets[index], self.names.of(offer.module))
            if verdict.failure:
                return Refusal(as_load(2, verdict.failure), index)
            bundle.append(Published(verdict.subject, offer.certificate))
        try:
            Linking({}, None, bundle).check()
        except Fails as fails:
            return Refusal(as_load(3, fails.failure))
        if reading.faults:
            not_loaded(4, reading.faults[0].offset, "what follows the modules is of the shape and order of tallies and stored "
                       "values", reading.faults[0].reason)
        self.join(bundle)
        self.runs = reading.ledger.runs
        self.take_values(reading.ledger)
        self.check_tallies()
        return None

    def take_values(self, saved: model.Ledger) -> None:
        """Takes the tallies and the stored values of a saved ledger."""
        for key, tally in zip(saved.scarce, saved.tallies):
            self.packed[key], self.unpacked[key] = tally.packed, tally.unpacked
        modules = self.in_order()
        for one in saved.stored:
            leaves = iter([leaf.value for leaf in one.leaves])
            self.stored[one.place, one.struct, one.address] = self.built(modules[one.place], one.struct, leaves)

    def built(self, owner: Published, struct: int, leaves: Iterator[Value]) -> Value:
        """A struct's value of its leaves in order."""
        return [self.built(*self.definition(owner, one.type), leaves) if one.type.kind == STRUCT else next(leaves)
                for one in owner.module.structs[struct].fields]

    def count(self, owner: Published, struct: int, value: Value, counts: Counter[StructKey]) -> None:
        """Counts the struct values of a value, at any depth."""
        counts[owner.place, struct] += 1
        for one, inner in zip(owner.module.structs[struct].fields, value):
            if one.type.kind == STRUCT:
                self.count(*self.definition(owner, one.type), inner, counts)

    def check_tallies(self) -> None:
        """Wants the tallies to be those of what is stored."""
        counts: Counter[StructKey] = Counter()
        modules = self.in_order()
        for (place, struct, _), value in self.stored.items():
            self.count(modules[place], struct, value, counts)
        for owner, struct in self.scarce():
            key: StructKey = owner.place, struct
            packed, unpacked, stored = self.packed[key], self.unpacked[key], counts[key]
            named = f"of {name_text((*owner.name, owner.definition_name(struct)))}"
            if packed > PACKED_IN_A_RUN * self.runs:
                not_loaded(5, None, f"at most {PACKED_IN_A_RUN:,} values of a struct were packed in each run",
                           f"{named} {packed:,} were packed in {self.runs:,} runs")
            if packed - unpacked != stored:
                not_loaded(5, None, "the values of a struct that were packed less those unpacked are as many as are stored",
                           f"{named} {packed:,} were packed, {unpacked:,} unpacked, and {stored:,} are stored")


def check_room(linking: Linking) -> None:
    """Phase 14: the ledger would have at most so many modules."""
    count = len(linking.all)
    if count > STORE_MODULES:
        names = ", ".join(name_text(one.name) for one in linking.bundle)
        raise Fails(Failure(14, Place(f"the bundle of {names}"), f"the ledger would have at most {STORE_MODULES:,} modules",
                            f"it would have {count:,}"))


def not_loaded(reason: int, offset: Optional[int], rule: str, found: str) -> NoReturn:
    """Raises a failure of a saved ledger that isn't loaded."""
    place = Place("the tallies") if offset is None else Place(f"offset {offset}", offset)
    raise Fails(Failure(None, place, rule, found, said=f"load refused {reason}"))


def as_load(reason: int, failure: Failure) -> Failure:
    """A module's or a bundle's failure as the reason why a ledger isn't loaded."""
    return failure._replace(phase=None, said=f"load refused {reason}",
                            place=failure.place.behind(f"phase {failure.phase} ({failure.name}): "))


def value_text(ledger: Ledger, owner: Published, token: Token, value: Value) -> str:
    """A value as a report shows it."""
    if token.kind == model.STRUCT:
        there, struct = ledger.definition(owner, token)
        return struct_text(ledger, there, struct, value)
    if isinstance(value, bool):
        return "true" if value else "false"
    return value.hex() if isinstance(value, bytes) else str(value)


def struct_text(ledger: Ledger, owner: Published, struct: int, value: Value) -> str:
    """A struct's value as a report shows it."""
    fields = owner.module.structs[struct].fields
    return "{" + ",".join(value_text(ledger, owner, one.type, inner) for one, inner in zip(fields, value)) + "}"


def said_value(ledger: Ledger, owner: Published, token: Token, value: Value) -> str:
    """A value as a text has it, and a struct's with the names of its fields."""
    if token.is_reference:
        holder, place = value
        return said_value(ledger, owner, token.inner, holder[place])
    if token.kind == model.STRUCT:
        there, struct = ledger.definition(owner, token)
        fields = [f"{there.module.identifier(one.name)}: {said_value(ledger, there, one.type, inner)}"
                  for one, inner in zip(there.module.structs[struct].fields, value)]
        return "{ " + ", ".join(fields) + " }"
    if isinstance(value, bool):
        return "true" if value else "false"
    return "@" + address_text(value) if isinstance(value, bytes) else f"{value}{model.LEAF_NAMES[token.kind]}"
