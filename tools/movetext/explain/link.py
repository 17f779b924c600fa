"""Phase 13: the rules a to h, over all modules that the ledger would then have."""

from functools import partial
from typing import Any, Dict, Iterator, List, NoReturn, Optional, Sequence, Set, Tuple

from .. import model
from ..errors import meant
from ..limits import LEAF_COUNT, NESTING
from ..model import STRUCT, known
from ..naming import address_text, quoted
from .chains import chain_back
from .failures import Advice, Failure, Fails, Place, Spot, counted
from .subject import Subject

PHASE = 13

ModuleName = Tuple[bytes, str]
StructName = Tuple[bytes, str, str]
# A type as any module has it: its kind alone, or with the struct's name, or with the type that a reference refers to.
FullType = Tuple[Any, ...]
FullSignature = Tuple[Tuple[FullType, ...], Tuple[FullType, ...]]


class Published:
    """A module that passed phases 2 to 12, as others name it, with its certificate. `place` is its place in the order of
    publication, once it has one, and `operations` what its functions do, once they were run."""

    def __init__(self, subject: Subject, certificate: bytes = b""):
        self.subject, self.module, self.certificate = subject, subject.module, certificate
        self.place = 0
        self.operations: Dict[int, List[Any]] = {}
        module = subject.module
        self.name = self.module_name(module.own)
        self.structs = {self.definition_name(index): index for index in range(len(module.structs))}
        self.functions = {known(module.function_name(one.handle)): one for one in module.functions}
        self.function_places = {known(module.function_name(one.handle)): index for index, one in enumerate(module.functions)}

    def module_name(self, handle: int) -> ModuleName:
        """The address and name of a module by its handle."""
        return known(self.module.address_of(handle)), known(self.module.module_name(handle))

    def definition_name(self, struct: int) -> str:
        """The name of a struct definition."""
        return known(self.module.definition_name(struct))

    def definition_abilities(self, struct: int) -> int:
        """The abilities of a struct definition, as bits."""
        return known(self.module.definition_handle(struct)).abilities

    def struct_name(self, handle: int) -> StructName:
        """The address, module and name of a struct by its handle."""
        return (*self.module_name(self.module.struct_handles[handle].module), known(self.module.struct_name(handle)))

    def type(self, token: model.Token) -> FullType:
        """A type as any module has it."""
        if token.is_reference:
            return token.kind, self.type(token.inner)
        return (token.kind, self.struct_name(token.struct)) if token.kind == STRUCT else (token.kind,)

    def types(self, signature: int) -> Tuple[FullType, ...]:
        return tuple(map(self.type, known(self.module.signature(signature))))

    def signature(self, function_handle: int) -> FullSignature:
        handle = self.module.function_handles[function_handle]
        return self.types(handle.parameters), self.types(handle.results)

    def needs(self) -> List[ModuleName]:
        """The other modules that handles name."""
        names = map(self.module_name, range(len(self.module.module_handles)))
        return [name for name in names if name != self.name]


def name_text(name: Tuple[Any, ...]) -> str:
    """A module's or a struct's full name."""
    return "::".join([address_text(name[0]), *map(quoted, name[1:])])


def type_text(one: FullType) -> str:
    """A type as `Published.type` gives it."""
    if len(one) == 2 and one[0] != STRUCT:
        return ("&mut " if one[0] == model.MUTABLE else "&") + type_text(one[1])
    return name_text(one[1]) if one[0] == STRUCT else model.LEAF_NAMES[one[0]]


def types_text(types: Sequence[FullType]) -> str:
    return "(" + ", ".join(map(type_text, types)) + ")"


def signature_text(signature: FullSignature) -> str:
    return types_text(signature[0]) + (f": {types_text(signature[1])}" if signature[1] else "")


def short_text(signature: FullSignature) -> str:
    """A signature as an import has it: structs by their module's name, and one result alone."""
    def said(one: FullType) -> str:
        if len(one) == 2 and one[0] != STRUCT:
            return ("&mut " if one[0] == model.MUTABLE else "&") + said(one[1])
        return "::".join(map(quoted, one[1][1:])) if one[0] == STRUCT else model.LEAF_NAMES[one[0]]
    parameters, results = (", ".join(map(said, types)) for types in signature)
    return f"({parameters})" + ("" if not signature[1] else f": {results}" if len(signature[1]) == 1 else f": ({results})")


def abilities_said(bits: int) -> str:
    return ", ".join(word for bit, word in model.ABILITIES if bits & bit) or "no ability"


class Linking:
    """A bundle of published ones beside those that the ledger has, which are given by their names. There is no sender where a
    saved ledger is loaded."""

    def __init__(self, ledger: Dict[ModuleName, Published], sender: Optional[bytes], bundle: List[Published]):
        self.ledger, self.sender, self.bundle = ledger, sender, bundle
        self.sizes: Dict[StructName, Tuple[int, int]] = {}
        self.all = dict(ledger)
        self.all.update({one.name: one for one in bundle})

    def check(self) -> None:
        """Raises the first failure, by the rules' letters."""
        for rule in (self.check_sender, self.check_names, self.check_modules, self.check_structs, self.check_functions,
                     self.check_order, self.check_sizes, self.check_replaced):
            rule()

    @staticmethod
    def fail(one: Published, kind: int, index: int, rule: str, found: str, advice: Optional[Advice] = None) -> NoReturn:
        """Raises a failure at an entry of a module's table."""
        one.subject.fail(PHASE, one.subject.entry(kind, index).behind(f"module {name_text(one.name)}, "), rule, found, advice=advice)

    def check_sender(self) -> None:
        for one in self.bundle:
            if self.sender is not None and one.name[0] != self.sender:
                self.fail(one, model.MODULE_HANDLES, one.module.own, "rule a, each module's own address is the sender",
                          f"it is {address_text(one.name[0])}, and the sender is {address_text(self.sender)}")

    def check_names(self) -> None:
        seen: Set[ModuleName] = set()
        for one in self.bundle:
            if one.name in seen:
                self.fail(one, model.MODULE_HANDLES, one.module.own, "rule b, no two modules of the bundle have one address "
                          "and name", f"a module before it is {name_text(one.name)} too")
            seen.add(one.name)

    def check_modules(self) -> None:
        for one in self.bundle:
            for index in range(len(one.module.module_handles)):
                name = one.module_name(index)
                if name not in self.all:
                    self.fail(one, model.MODULE_HANDLES, index,
                              "rule c, each module handle names a module that is there", f"there is no {name_text(name)}")

    def check_structs(self) -> None:
        for one in self.bundle:
            for index in range(len(one.module.struct_handles)):
                self.check_struct(one, index)

    def check_struct(self, one: Published, index: int) -> None:
        rule = "rule d, each struct handle names a struct that is defined there with the same abilities"
        handle, name = one.module.struct_handles[index], one.struct_name(index)
        there = self.all[name[:2]]
        found = there.structs.get(name[2])
        if found is None:
            self.fail(one, model.STRUCT_HANDLES, index, rule, f"{name_text(name[:2])} defines no {quoted(name[2])}",
                      Advice(f"`{name_text(name[:2])}` has no struct `{name[2]}`", meant(name[2], there.structs), Spot("struct handle", index)))
        has = there.definition_abilities(found)
        if has != handle.abilities:
            said, wanted = abilities_said(handle.abilities), abilities_said(has)
            written = f"struct {quoted(name[2])}" + (f" has {wanted}" if has else "")
            self.fail(one, model.STRUCT_HANDLES, index, rule, f"the handle has {said}, and {name_text(name)} has {wanted}",
                      Advice(f"`{name[2]}` has {wanted} in `{name_text(name[:2])}`, and {said} in this import", f"write `{written}`",
                             Spot("struct handle", index), ((Spot("there struct", found), "it is defined here"),)))

    def check_functions(self) -> None:
        for one in self.bundle:
            for index in range(len(one.module.function_handles)):
                self.check_function(one, index)

    def check_function(self, one: Published, index: int) -> None:
        rule = "rule e, each function handle names a function that is defined there"
        handle = one.module.function_handles[index]
        there, name = self.all[one.module_name(handle.module)], known(one.module.function_name(index))
        found, module = there.functions.get(name), name_text(there.name)
        spot, full = Spot("function handle", index), f"{module}::{quoted(name)}"
        if found is None:
            self.fail(one, model.FUNCTION_HANDLES, index, rule, f"{module} defines no {quoted(name)}",
                      Advice(f"`{module}` has no function `{name}`", meant(name, there.functions), spot))
        notes = ((Spot("there function", there.function_places[name]), "it is defined here"),)
        wanted, has = one.signature(index), there.signature(found.handle)
        if wanted != has:
            self.fail(one, model.FUNCTION_HANDLES, index, f"{rule}, with the same types of parameters and results",
                      f"the handle has {signature_text(wanted)}, and {full} has {signature_text(has)}",
                      Advice(f"this isn't `{name}` as `{module}` defines it, `{quoted(name)}{short_text(has)}`",
                             f"write `{quoted(name)}{short_text(has)}`", spot, notes))
        if there is not one and not found.is_public:
            self.fail(one, model.FUNCTION_HANDLES, index,
                      f"{rule}, and a public one where its module is another", f"{full} is private",
                      Advice(f"`{name}` is private in `{module}`", f"write `public {name}` there, or call a public function of it", spot,
                             notes))

    def wrong_imports(self) -> Iterator[Tuple[int, Failure]]:
        """What the bundle's modules say wrongly of what other modules define, each with the place of the module. Modules that aren't
        there are taken for right."""
        for place, one in enumerate(self.bundle):
            checks = [(handle.module, partial(self.check_struct, one, index)) for index, handle in enumerate(one.module.struct_handles)]
            checks += [(handle.module, partial(self.check_function, one, index))
                       for index, handle in enumerate(one.module.function_handles)]
            for owner, check in checks:
                if owner != one.module.own and one.module_name(owner) in self.all:
                    try:
                        check()
                    except Fails as fails:
                        yield place, fails.failure

    def check_order(self) -> None:
        """Wants no module that depends on itself. A chain that leads back goes through a module of the bundle."""
        chain = chain_back([one.name for one in self.bundle], lambda name: self.all[name].needs())
        if chain:
            one, names = self.all[chain[0]], ", which names ".join(map(name_text, chain))
            self.fail(one, model.MODULE_HANDLES, one.module.own,
                      "rule f, no module depends on itself by a chain of handles", f"there is {names}")

    def check_sizes(self) -> None:
        for one in self.bundle:
            for index in range(len(one.module.structs)):
                nested, leaves = self.size((*one.name, one.definition_name(index)))
                if nested > NESTING:
                    self.fail(one, model.STRUCTS, index,
                              f"rule g, each struct nests at most {NESTING} deep", f"it nests {nested} deep")
                if leaves > LEAF_COUNT:
                    self.fail(one, model.STRUCTS, index,
                              f"rule g, each struct has at most {LEAF_COUNT} leaf values", f"it has {leaves}")

    def size(self, name: StructName) -> Tuple[int, int]:
        """How deep a struct nests, and how many leaf values it has. Those of its fields are found before its own."""
        waiting = [name]
        while waiting:
            there = self.all[waiting[-1][:2]]
            fields = there.module.structs[there.structs[waiting[-1][2]]].fields
            inner = [there.struct_name(one.type.struct) for one in fields if one.type.kind == STRUCT]
            unknown = [one for one in inner if one not in self.sizes]
            if unknown:
                waiting += unknown
                continue
            sizes = [self.sizes[one] for one in inner]
            leaves = len(fields) - len(inner) + sum(leaves for _, leaves in sizes)
            self.sizes[waiting.pop()] = 1 + max((nested for nested, _ in sizes), default=0), leaves
        return self.sizes[name]

    def check_replaced(self) -> None:
        for one in self.bundle:
            if one.name in self.ledger:
                self.check_kept_structs(one, self.ledger[one.name])
                self.check_kept_functions(one, self.ledger[one.name])

    def check_kept_structs(self, one: Published, before: Published) -> None:
        rule = ("rule h, a module that takes another's place has its struct definitions in their places, with the same names, "
                "abilities and fields")
        for index in range(len(before.module.structs)):
            old = struct_said(before, index)
            if index >= len(one.module.structs):
                has = counted(len(one.module.structs), "struct definition")
                one.subject.fail(PHASE, Place(f"module {name_text(one.name)}"), rule,
                                 f"it has {has}, and number {index} was {old}")
            new = struct_said(one, index)
            if new != old:
                self.fail(one, model.STRUCTS, index, rule, f"it is {new}, and was {old}")

    def check_kept_functions(self, one: Published, before: Published) -> None:
        rule = "rule h, a module that takes another's place has each of its public functions, public, with the same types"
        for name, old in before.functions.items():
            if not old.is_public:
                continue
            new, was = one.functions.get(name), f"{quoted(name)}{signature_text(before.signature(old.handle))}"
            if new is None:
                one.subject.fail(PHASE, Place(f"module {name_text(one.name)}"), rule, f"it has no {was}")
            if not new.is_public:
                self.fail(one, model.FUNCTION_HANDLES, new.handle, rule, "it is private, and was public")
            has = f"{quoted(name)}{signature_text(one.signature(new.handle))}"
            if has != was:
                self.fail(one, model.FUNCTION_HANDLES, new.handle, rule, f"it is {has}, and was {was}")


def struct_said(one: Published, index: int) -> str:
    """A struct definition as any module has it."""
    fields = ", ".join(f"{quoted(known(one.module.identifier(field.name)))}: {type_text(one.type(field.type))}"
                       for field in one.module.structs[index].fields)
    abilities = abilities_said(one.definition_abilities(index))
    return f"{quoted(one.definition_name(index))} with {abilities} and {{ {fields} }}"
