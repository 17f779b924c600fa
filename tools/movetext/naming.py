"""How the entries of a module's tables are written where they are named: by a name where that name means the very entry,
otherwise by an index."""

from typing import Dict, Hashable, Iterable, List, Optional, Set, Tuple, Union

from . import model
from .model import ABILITIES, BOOL, LEAF_NAMES, MUTABLE, REFERENCE, STRUCT, entry
from .scanner import is_identifier, needs_quotes


def quoted(name: str) -> str:
    """A name as it stands in a text. One that is no identifier of the format is shown with what can't be printed escaped."""
    if not is_identifier(name):
        name = name.encode("unicode_escape").decode("ascii").replace("`", "\\x60")
        return f"`{name}`"
    return f"`{name}`" if needs_quotes(name) else name


def address_text(address: bytes) -> str:
    return f"0x{int.from_bytes(address, 'big'):x}"


def hex_text(data: bytes) -> str:
    return f'x"{data.hex()}"'


def value_text(kind: int, value: Union[bool, int, bytes]) -> str:
    """A value of a leaf type."""
    if kind == BOOL:
        return "true" if value else "false"
    if isinstance(value, bytes):
        return "@" + address_text(value)
    return f"{value:d}{LEAF_NAMES[kind]}"


def abilities_text(bits: int) -> str:
    """Abilities as they follow a struct's name, with a blank before them; bits that are none are passed over."""
    names = [name for bit, name in ABILITIES if bits & bit]
    return " has " + ", ".join(names) if names else ""


def are_first(entries: Iterable[Hashable]) -> List[bool]:
    """For each entry whether no equal one stands before it."""
    seen = set()
    firsts = []
    for one in entries:
        firsts.append(one not in seen)
        seen.add(one)
    return firsts


class Names:
    """The names of a module's entries. Each list has the text of each entry of a table; `is_..` whether it is a name.
    `definition_places` has the first struct definition of each struct handle."""

    def __init__(self, module: model.Module):
        self.module = module
        self.is_identifier = are_first(module.identifiers)
        self.is_address = are_first(module.addresses)
        self.is_signature = are_first(module.signatures)
        self.is_constant = are_first(module.constants)
        self.identifiers = [quoted(name) if first else f"#{index}"
                            for index, (name, first) in enumerate(zip(module.identifiers, self.is_identifier))]
        self.name_modules()
        self.name_structs()
        self.name_functions()
        self.name_fields()
        self.constants = [self.constant_text(index) for index in range(len(module.constants))]

    def identifier(self, index: int) -> str:
        return entry(self.identifiers, index) or f"#{index}"

    def module_text(self, index: int) -> str:
        """A module handle as the text that is its address and name."""
        handle = entry(self.module.module_handles, index)
        if handle is None:
            return f"#{index}"
        address = entry(self.module.addresses, handle.address)
        text = f"#{handle.address}" if address is None or not self.is_address[handle.address] else address_text(address)
        return f"{text}::{self.identifier(handle.name)}"

    def name_modules(self) -> None:
        """Of each module handle the name that it goes by, which for two of one name is another one."""
        module = self.module
        firsts = are_first(module.module_handles)
        self.is_module = [
            first and bool(entry(self.is_address, handle.address)) and bool(entry(self.is_identifier, handle.name))
            for first, handle in zip(firsts, module.module_handles)]
        taken = set(module.identifiers)
        self.aliases: Dict[int, str] = {}
        self.modules: List[str] = []
        seen = {module.module_name(module.own), "Self"}
        for index, handle in enumerate(module.module_handles):
            name = entry(module.identifiers, handle.name) or ""
            if self.is_module[index] and index != module.own and name in seen:
                name = self.aliases[index] = unused_name(f"{name[:100]}_{index}" if is_identifier(name) else f"m{index}", taken)
            elif self.is_module[index]:
                seen.add(name)
            self.modules.append(quoted(name) if self.is_module[index] else f"#{index}")

    def qualified(self, module_handle: int, name: int) -> str:
        """A struct's or function's name, after its module's where that isn't the own one."""
        own = module_handle == self.module.own
        return self.identifiers[name] if own else f"{self.modules[module_handle]}::{self.identifiers[name]}"

    def is_named(self, handle: Union[model.StructHandle, model.FunctionHandle]) -> bool:
        """Whether a handle's module and name are named."""
        return bool(entry(self.is_module, handle.module)) and bool(entry(self.is_identifier, handle.name))

    def name_structs(self) -> None:
        """Of each struct handle and struct definition its name."""
        module = self.module
        firsts = are_first((handle.module, handle.name) for handle in module.struct_handles)
        self.is_struct = [first and self.is_named(handle) for first, handle in zip(firsts, module.struct_handles)]
        self.structs = [self.qualified(handle.module, handle.name) if named else f"#{index}"
                        for index, (named, handle) in enumerate(zip(self.is_struct, module.struct_handles))]
        self.definition_places = {one.handle: index for index, one in reversed(list(enumerate(module.structs)))}
        firsts = are_first(definition.handle for definition in module.structs)
        self.is_definition = [
            first and bool(entry(self.is_struct, one.handle)) and module.is_own_struct(one.handle)
            for first, one in zip(firsts, module.structs)]
        self.definitions = [self.structs[one.handle] if named else f"#{index}"
                            for index, (named, one) in enumerate(zip(self.is_definition, module.structs))]

    def name_functions(self) -> None:
        """Of each function handle its name."""
        module = self.module
        firsts = are_first((handle.module, handle.name) for handle in module.function_handles)
        self.is_function = [
            first and self.is_named(handle) and self.has_signatures(handle)
            for first, handle in zip(firsts, module.function_handles)]
        self.functions = [self.qualified(handle.module, handle.name) if named else f"#{index}"
                          for index, (named, handle) in enumerate(zip(self.is_function, module.function_handles))]
        firsts = are_first(function.handle for function in module.functions)
        self.is_function_definition = [
            first and bool(entry(self.is_function, one.handle)) and module.function_handles[one.handle].module == module.own
            for first, one in zip(firsts, module.functions)]

    def has_signatures(self, handle: model.FunctionHandle) -> bool:
        """Whether a function handle's signatures are those that their types mean."""
        return bool(entry(self.is_signature, handle.parameters)) and bool(entry(self.is_signature, handle.results))

    def name_fields(self) -> None:
        """Of each field handle the struct and the field."""
        module = self.module
        firsts = are_first(module.field_handles)
        self.is_field: List[bool] = []
        self.fields: List[str] = []
        for index, handle in enumerate(module.field_handles):
            text = self.field_text(handle) if firsts[index] else None
            self.is_field.append(text is not None)
            self.fields.append(text or f"#{index}")

    def field_text(self, handle: model.FieldHandle) -> Optional[str]:
        """A field as its struct and its name, or None where these don't mean it."""
        if not entry(self.is_definition, handle.struct):
            return None
        names = [one.name for one in self.module.structs[handle.struct].fields]
        name = entry(names, handle.position)
        if name is None or not entry(self.is_identifier, name) or names.index(name) != handle.position:
            return None
        return f"{self.definitions[handle.struct]}.{self.identifiers[name]}"

    def constant_text(self, index: int) -> str:
        return self.raw_constant(self.module.constants[index]) if self.is_constant[index] else f"#{index}"

    def raw_constant(self, constant: model.Constant) -> str:
        """A constant as its value, or as its type and its bytes."""
        value = constant.value
        if value is None:
            return f"{self.type(constant.type)} {hex_text(constant.data)}"
        return value_text(constant.type.kind, value)

    def type(self, token: model.Token) -> str:
        """A type."""
        if token.kind == STRUCT:
            return entry(self.structs, token.struct) or f"#{token.struct}"
        if token.kind == REFERENCE:
            return "&" + self.type(token.inner)
        if token.kind == MUTABLE:
            return "&mut " + self.type(token.inner)
        return LEAF_NAMES[token.kind]

    def types(self, signature: model.Signature) -> str:
        return "(" + ", ".join(map(self.type, signature)) + ")"

    def results(self, signature: model.Signature) -> str:
        """Results as they follow a function's parameters, nothing where there are none. An index alone would be a signature's."""
        if not signature:
            return ""
        one = self.type(signature[0])
        return f": {one}" if len(signature) == 1 and not one.startswith("#") else f": {self.types(signature)}"


def unused_name(name: str, taken: Set[str]) -> str:
    """A name that isn't taken, which then is."""
    while name in taken:
        name += "_"
    taken.add(name)
    return name


class Mentions:
    """Goes through a module's tables as an assembler does, and says which tables come out in another order of entries."""

    def __init__(self, names: Names):
        self.names = names
        self.module = names.module
        kinds = model.IDENTIFIERS, model.ADDRESSES, model.SIGNATURES, model.CONSTANTS, model.FIELD_HANDLES
        self.orders: Dict[int, List[int]] = {kind: [] for kind in kinds}
        self.seen: Dict[int, Set[int]] = {kind: set() for kind in self.orders}

    def mention(self, kind: int, index: int) -> None:
        if index not in self.seen[kind]:
            self.seen[kind].add(index)
            self.orders[kind].append(index)

    def go_through_handles(self) -> None:
        """The names and signatures of handles and definitions."""
        module = self.module
        for handle in module.module_handles:
            self.mention(model.ADDRESSES, handle.address)
            self.mention(model.IDENTIFIERS, handle.name)
        for struct in module.struct_handles:
            self.mention(model.IDENTIFIERS, struct.name)
        for definition in module.structs:
            for one in definition.fields:
                self.mention(model.IDENTIFIERS, one.name)
        for function in module.function_handles:
            self.mention(model.IDENTIFIERS, function.name)
            self.mention(model.SIGNATURES, function.parameters)
            self.mention(model.SIGNATURES, function.results)

    def go_through_functions(self) -> None:
        """The locals and code of function definitions."""
        kinds = {model.CONSTANTS: len(self.module.constants), model.FIELD_HANDLES: len(self.module.field_handles)}
        by_operand = {0x07: model.CONSTANTS, 0x0F: model.FIELD_HANDLES, 0x10: model.FIELD_HANDLES}
        for function in self.module.functions:
            self.mention(model.SIGNATURES, function.locals)
            for instruction in function.code:
                kind = by_operand.get(instruction.opcode.code)
                if kind is not None and instruction.operand < kinds[kind]:
                    self.mention(kind, instruction.operand)

    def other_tables(self) -> Set[int]:
        """The kinds of tables that have to be listed for the module to come out as it is."""
        if self.has_unnamed():
            return set(model.TABLE_FIELDS) - {model.STRUCTS, model.FUNCTIONS}
        self.go_through_handles()
        self.go_through_functions()
        other = {kind for kind, order in self.orders.items() if order != list(range(len(self.module.table(kind))))}
        return other | self.other_handles()

    def has_unnamed(self) -> bool:
        """Whether an entry isn't named, so that it has to be listed with all that it refers to."""
        names, module = self.names, self.module
        lists = (names.is_identifier, names.is_address, names.is_signature, names.is_constant, names.is_module,
                 names.is_struct, names.is_definition, names.is_function, names.is_function_definition, names.is_field)
        return (not all(map(all, lists)) or not entry(names.is_module, module.own)
                or not all(entry(names.is_identifier, one.name) for struct in module.structs for one in struct.fields)
                or not all(entry(names.is_signature, function.locals) for function in module.functions))

    def other_handles(self) -> Set[int]:
        """The kinds of tables of handles that don't begin with the imports in their order and end with the definitions."""
        module = self.module
        other = {model.MODULE_HANDLES} if module.own else set()
        rows: List[Tuple[int, List[int]]] = [
            (model.STRUCT_HANDLES, [one.handle for one in module.structs]),
            (model.FUNCTION_HANDLES, [one.handle for one in module.functions])]
        for kind, defined in rows:
            handles: List[Union[model.StructHandle, model.FunctionHandle]] = module.table(kind)
            imported = [index for index, handle in enumerate(handles) if handle.module != module.own]
            imported.sort(key=lambda index: handles[index].module)
            if imported + defined != list(range(len(handles))):
                other.add(kind)
        return other


def other_tables(names: Names) -> Set[int]:
    """The kinds of tables that a text has to list so that an assembler makes the very module."""
    return Mentions(names).other_tables()
