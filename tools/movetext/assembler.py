"""From a module's text to its tables: each name becomes the index of what it names."""

from typing import Callable, Dict, Iterable, List, NamedTuple, Optional, Set, Tuple, TypeVar, Union

from . import habits, model, syntax
from .coding import Coder
from .errors import Help, Note, TextError, Unknown, unknown
from .explain.failures import listed
from .handles import OWN, Names, checked_identifier, entry_text, module_text, path_text
from .model import MUTABLE, REFERENCE, STRUCT, Token
from .limits import SIGNATURE_TYPES, TABLE_BYTES
from .pools import Pool
from .writer import write_module

T = TypeVar("T")
# A struct or a function as its handle names it: the index of a module handle and that of an identifier.
HandleName = Tuple[int, int]

# No more names than these are told in the place of one that isn't there.
MOST_NAMED = 6

LEAVES = {kind: Token(kind) for kind in model.LEAF_NAMES}


class Assembler:
    """A module in the making. Errors are collected, so that all are told."""

    def __init__(self, tree: syntax.Module):
        self.tree = tree
        self.listed = tree.tables or syntax.Tables()
        self.errors: List[TextError] = []
        self.told: Set[Tuple[int, str]] = set()
        self.names = Names()
        self.structs: Pool[model.StructHandle] = Pool("struct handles")
        self.functions: Pool[model.FunctionHandle] = Pool("function handles")
        self.signatures: Pool[model.Signature] = Pool("signatures")
        self.constants: Pool[model.Constant] = Pool("constants")
        self.fields: Pool[model.FieldHandle] = Pool("field handles")
        self.struct_places: Dict[HandleName, int] = {}
        self.function_places: Dict[HandleName, int] = {}
        self.definitions: List[model.StructDefinition] = []
        self.definition_places: Dict[int, int] = {}
        self.field_places: List[Dict[str, int]] = []
        self.bodies: List[model.FunctionDefinition] = []

    def module(self) -> Optional[model.Module]:
        """The module; None where there are errors."""
        steps = self.add_modules, self.add_structs, self.add_lists, self.add_definitions, self.add_functions, self.add_bodies
        for step in steps:
            step()
        if self.errors or self.tree.is_broken:
            return None
        names = self.names
        return model.Module(
            self.tree.version, names.modules.entries, self.structs.entries, self.functions.entries, self.signatures.entries,
            self.constants.entries, names.identifiers.entries, names.addresses.entries, self.definitions, self.bodies,
            self.fields.entries, names.own)

    def starts(self) -> Dict[int, List[int]]:
        """By the kind of each table the offsets of its entries in the text."""
        names = self.names
        return {
            model.MODULE_HANDLES: names.modules.starts, model.STRUCT_HANDLES: self.structs.starts,
            model.FUNCTION_HANDLES: self.functions.starts, model.SIGNATURES: self.signatures.starts,
            model.CONSTANTS: self.constants.starts, model.IDENTIFIERS: names.identifiers.starts,
            model.ADDRESSES: names.addresses.starts, model.STRUCTS: [one.at for one in self.tree.structs],
            model.FUNCTIONS: [one.at for one in self.tree.functions], model.FIELD_HANDLES: self.fields.starts,
        }

    def collect(self, error: TextError) -> None:
        """Keeps an error, once for each place; none of a name that something wrong may have."""
        is_lost = isinstance(error, Unknown) and (error.is_lost or bool(error.names & self.tree.lost))
        if not is_lost and (error.at, error.message) not in self.told:
            self.told.add((error.at, error.message))
            self.errors.append(error)

    def each(self, items: Iterable[T], act: Callable[[T], object], name: Callable[[T], Optional[str]] = lambda _: None) -> None:
        """Does something with each item, and collects the errors. The name of what has one is lost."""
        for item in items:
            try:
                act(item)
            except TextError as error:
                self.collect(error)
                lost = name(item)
                if lost is not None:
                    self.tree.lost.add(lost)

    # Modules.

    def add_modules(self) -> None:
        """Adds the identifiers, addresses and module handles that are listed, and those of the own module and the imports."""
        names, at = self.names, self.tree.at
        self.each(self.listed.identifiers, lambda name: names.identifiers.add(checked_identifier(name), name.at))
        self.each(self.listed.addresses, lambda address: names.addresses.add(address, at))
        self.each(self.listed.modules, lambda module: names.modules.add(names.handle(module), module.at))
        self.each([self.tree.name], self.add_own)
        self.each(self.tree.imports, self.add_import, lambda one: entry_text(one.alias))

    def add_own(self, own: syntax.ModuleName) -> None:
        names = self.names
        if own.address is None:
            names.own = own.name.number if isinstance(own.name, syntax.Index) else 0
        else:
            names.own = names.modules.place(names.handle(own), own.at)
        names.aliases[OWN] = names.own
        names.own_name = entry_text(own.name)

    def add_import(self, imported: syntax.Import) -> None:
        names = self.names
        place = names.modules.place(names.handle(imported.module), imported.module.at)
        if isinstance(imported.alias, syntax.Index):
            return
        alias = imported.alias.text
        if names.aliases.setdefault(alias, place) != place:
            first = next(one.alias.at for one in self.tree.imports if entry_text(one.alias) == alias)
            raise TextError(imported.alias.at, f"a second module goes by `{alias}`", f"give it another name: `as {alias}2`",
                            notes=[Note(first, "the first is here")])

    # Structs.

    def add_structs(self) -> None:
        """Adds the struct handles that are listed, and those of the imports and the own structs."""
        self.each(self.listed.structs, lambda handle: self.add_struct(handle, is_listed=True))
        for imported in self.tree.imports:
            self.each(imported.structs, self.add_struct, lambda one: entry_text(one.path.name))
        self.each(self.tree.structs, self.add_own_struct, lambda one: entry_text(one.name))

    def add_struct(self, text: syntax.StructHandleText, is_listed: bool = False) -> int:
        """The index of a struct handle."""
        path = text.path
        handle = model.StructHandle(self.names.module(path.module), self.names.identifier(path.name), text.abilities)
        if is_listed:
            place = self.structs.add(handle, path.at)
            self.struct_places.setdefault((handle.module, handle.name), place)
            return place
        known = self.struct_places.get((handle.module, handle.name))
        if known is not None and self.structs.entries[known] != handle:
            raise TextError(path.name.at, f"a second struct `{entry_text(path.name)}`, with other abilities",
                            notes=[Note(self.structs.starts[known], "the first is here")])
        place = self.structs.place(handle, path.at)
        self.struct_places[handle.module, handle.name] = place
        return place

    def add_own_struct(self, struct: syntax.Struct) -> None:
        definition = model.StructDefinition(-1)
        self.definitions.append(definition)
        self.field_places.append({entry_text(one.name): place for place, one in reversed(list(enumerate(struct.fields)))})
        if isinstance(struct.name, syntax.Index):
            definition.handle = struct.name.number
        else:
            known = self.own_struct(struct.name)
            if known is not None:
                raise TextError(struct.name.at, f"a second struct `{struct.name.text}`", "give one of them another name",
                                notes=[Note(self.tree.structs[known].name.at, "the first is here")])
            definition.handle = self.add_struct(
                syntax.StructHandleText(syntax.Path(None, struct.name, struct.at), struct.abilities))
        self.definition_places.setdefault(definition.handle, len(self.definitions) - 1)

    def own_struct(self, name: syntax.Name) -> Optional[int]:
        """The definition of a name before this one, or None."""
        place = self.struct_places.get((self.names.own, self.names.known_identifier(name) or 0))
        named = self.names.known_identifier(name) is not None and place is not None
        return self.definition_places.get(model.known(place)) if named else None

    def add_definitions(self) -> None:
        """Adds the fields of the own structs."""
        for struct, definition in zip(self.tree.structs, self.definitions):
            self.add_fields(struct, definition)

    def add_fields(self, struct: syntax.Struct, definition: model.StructDefinition) -> None:
        """Adds the fields of an own struct."""
        seen: Dict[str, int] = {}
        self.each(struct.fields, lambda one: definition.fields.append(self.field(one)))
        self.each(struct.fields, lambda one: check_field(one, seen))

    def field(self, one: syntax.Variable) -> model.Field:
        return model.Field(self.names.identifier(one.name), self.token(one.type))

    def token(self, kind: syntax.Type) -> Token:
        """A type."""
        if kind.kind in (REFERENCE, MUTABLE):
            return Token(kind.kind, inner=self.token(model.known(kind.inner)))
        if kind.kind != STRUCT:
            return LEAVES[kind.kind]
        assert kind.struct is not None
        return Token(STRUCT, struct=self.struct_handle(kind.struct))

    def struct_handle(self, struct: Union[syntax.Path, syntax.Index]) -> int:
        """The index of the handle of a struct that is named."""
        if isinstance(struct, syntax.Index):
            return struct.number
        module = self.names.module(struct.module)
        name = self.names.known_identifier(struct.name)
        place = None if name is None else self.struct_places.get((module, name))
        if place is None:
            otherwise, notes = self.import_lacks(module, struct, f"struct {entry_text(struct.name)} has ..")
            if not otherwise and struct.module is None:
                otherwise = f"write `struct {entry_text(struct.name)} {{ .. }}`, or import it"
            raise Unknown(struct.at, self.no_struct(module, struct), [entry_text(struct.name)], otherwise, notes)
        return place

    def no_struct(self, module: int, struct: syntax.Path) -> Help:
        """That there is no struct of a name, and which one was probably meant."""
        names = self.meant_names(module, struct, self.struct_places)
        if struct.module is None and entry_text(struct.name) in habits.TYPES:
            return habits.TYPES[entry_text(struct.name)]
        if struct.module is None:
            return unknown("type", path_text(struct), [*names, *model.LEAF_KINDS])
        return unknown("struct", path_text(struct), names)

    def import_lacks(self, module: int, path: syntax.Path, written: str) -> Tuple[str, List[Note]]:
        """What to write where an import lacks something, with the import's place; nothing of the own module."""
        found = [one for one in self.tree.imports if self.names.known_handle(one.module) is not None
                 and self.names.modules.places.get(model.known(self.names.known_handle(one.module))) == module]
        if module == self.names.own or not found:
            return "", []
        named = module_text(found[-1].module)
        return f"add `{written}` to the braces of `import {named}`", [Note(found[-1].module.at, "the import that lacks it is here")]

    def meant_names(self, module: int, path: syntax.Path, places: Dict[HandleName, int]) -> List[str]:
        """The names that might be meant by one that nothing has: the same one in another module, or any in this module."""
        name = entry_text(path.name)
        prefix = path_text(path)[:-len(name)]
        own: List[str] = []
        others: List[str] = []
        for other, identifier in places:
            text = self.identifier_text(identifier)
            if other == module:
                own.append(prefix + text)
            elif text == name:
                others.extend(f"{alias}::{text}" for alias, place in self.names.aliases.items() if place == other)
        return others or own

    def identifier_text(self, place: int) -> str:
        names = self.names.identifiers.entries
        return names[place] if place < len(names) else f"#{place}"

    def definition(self, struct: Union[syntax.Entry, syntax.Path]) -> int:
        """The index of the definition of a struct of the own module that is named."""
        if isinstance(struct, syntax.Path) and struct.module is None:
            struct = struct.name
        if isinstance(struct, syntax.Index):
            return struct.number
        path = struct if isinstance(struct, syntax.Path) else syntax.Path(None, struct, struct.at)
        place = self.definition_places.get(self.struct_handle(path))
        if place is None:
            raise TextError(path.at, f"`{path_text(path)}` is a struct of another module",
                            "only a struct's own module packs, unpacks, stores and takes it, and borrows its fields: call a function "
                            "of that module")
        return place

    # Lists that name structs.

    def add_lists(self) -> None:
        """Adds the signatures, constants and field handles that are listed."""
        at = self.tree.at
        self.each(self.listed.signatures, lambda types: self.signatures.add(self.types(types, at), at))
        self.each(self.listed.constants, lambda constant: self.constants.add(self.constant(constant), constant.at))
        self.each(self.listed.fields, lambda path: self.fields.add(self.field_handle(path), path.at))

    def types(self, types: List[syntax.Type], at: int) -> model.Signature:
        if len(types) > SIGNATURE_TYPES:
            raise TextError(types[SIGNATURE_TYPES].at, f"these are more than {SIGNATURE_TYPES} types")
        return tuple(map(self.token, types))

    def signature(self, types: Union[List[syntax.Type], syntax.Index], at: int) -> int:
        """The index of a signature."""
        return types.number if isinstance(types, syntax.Index) else self.signatures.place(self.types(types, at), at)

    def constant(self, literal: syntax.Literal) -> model.Constant:
        return model.Constant(self.token(literal.type), literal.data)

    def field_handle(self, path: syntax.FieldPath) -> model.FieldHandle:
        """A field of an own struct."""
        struct = self.definition(path.struct)
        if isinstance(path.field, syntax.Index):
            return model.FieldHandle(struct, path.field.number)
        places = self.field_places[struct] if struct < len(self.field_places) else {}
        place = places.get(path.field.text)
        if place is None:
            raise Unknown(path.field.at, unknown("field", path.field.text, places, f" in `{entry_text(path.struct)}`"), [],
                          f"its fields are {', '.join(f'`{one}`' for one in sorted(places, key=places.__getitem__))}" if places else "")
        return model.FieldHandle(struct, place)

    # Functions.

    def add_functions(self) -> None:
        """Adds the function handles that are listed, and those of the imports and the own functions."""
        self.each(self.listed.functions, lambda handle: self.add_function(handle, is_listed=True))
        for imported in self.tree.imports:
            self.each(imported.functions, self.add_function, lambda one: entry_text(one.path.name))
        self.each(self.tree.functions, self.add_own_function, lambda one: entry_text(one.name))

    def add_function(self, text: syntax.FunctionHandleText, is_listed: bool = False) -> int:
        """The index of a function handle."""
        path = text.path
        module, name = self.names.module(path.module), self.names.identifier(path.name)
        known = self.function_places.get((module, name))
        if not is_listed and known is not None:
            self.check_signatures(text, self.functions.entries[known])
            return known
        parameters, results = self.signature(text.parameters, path.at), self.signature(text.results, path.at)
        place = self.functions.add(model.FunctionHandle(module, name, parameters, results), path.at)
        self.function_places.setdefault((module, name), place)
        return place

    def check_signatures(self, text: syntax.FunctionHandleText, handle: model.FunctionHandle) -> None:
        """Fails where a function that is named has other signatures than its handle."""
        for types, place in (text.parameters, handle.parameters), (text.results, handle.results):
            known = model.entry(self.signatures.entries, place)
            if known is not None and not isinstance(types, syntax.Index) and self.types(types, text.path.at) != known:
                place = model.known(self.function_places.get((handle.module, handle.name)))
                raise TextError(text.path.name.at, f"a second function `{entry_text(text.path.name)}`, with other types",
                                "give one of them another name", notes=[Note(self.functions.starts[place], "the first is here")])

    def add_own_function(self, function: syntax.Function) -> None:
        body = model.FunctionDefinition(-1, function.is_public, function.is_entry)
        self.bodies.append(body)
        if isinstance(function.name, syntax.Index):
            body.handle = function.name.number
            return
        types = [one.type for one in function.parameters]
        path = syntax.Path(None, function.name, function.at)
        body.handle = self.add_function(syntax.FunctionHandleText(path, types, function.results))
        first = next(at for at, other in enumerate(self.bodies) if other.handle == body.handle)
        if first != len(self.bodies) - 1:
            raise TextError(function.name.at, f"a second function `{function.name.text}`", "give one of them another name",
                            notes=[Note(self.tree.functions[first].name.at, "the first is here")])

    def function(self, path: syntax.Path) -> int:
        """The index of the handle of a function that is named."""
        if path.module is None and isinstance(path.name, syntax.Index):
            return path.name.number
        module, name = self.names.module(path.module), self.names.known_identifier(path.name)
        place = None if name is None else self.function_places.get((module, name))
        if place is None:
            told = self.no_function(module, path)
            otherwise, notes = self.import_lacks(module, path, f"{entry_text(path.name)}(TYPE, ..)")
            if module == self.names.own:
                named = [entry_text(one.name) for one in self.tree.functions]
                otherwise = f"the module's functions are {listed(named)}" if 0 < len(named) <= MOST_NAMED else ""
            raise Unknown(path.at, told, [entry_text(path.name)], otherwise, notes)
        return place

    def no_function(self, module: int, path: syntax.Path) -> Help:
        """That there is no function of a name, and which one was probably meant."""
        return unknown("function", path_text(path), self.meant_names(module, path, self.function_places))

    def called(self, called: Union[syntax.Path, syntax.Called]) -> int:
        """The index of the handle of a function that is called. TextError where other types stand after it than it has."""
        if isinstance(called, syntax.Path):
            return self.function(called)
        place = self.function(called.path)
        handle = model.entry(self.functions.entries, place)
        if handle is not None:
            self.compare(called, called.parameters, handle.parameters, "takes")
            if called.results is not None:
                self.compare(called, called.results, handle.results, "gives")
        return place

    def compare(self, called: syntax.Called, types: List[syntax.Type], signature: int, verb: str) -> None:
        """Fails where types that stand behind a called function aren't its own."""
        known = model.entry(self.signatures.entries, signature)
        try:
            found = self.types(types, called.path.at)
        except TextError as error:
            raise TextError(error.at, error.message, "a Call's parentheses hold types: its arguments are on the stack") from None
        if known is not None and found != known:
            raise TextError(called.path.at, f"`{path_text(called.path)}` {verb} {self.types_text(known)}, but this call says "
                            f"{self.types_text(found)}", "leave the types out, or write those of the function")

    def types_text(self, types: model.Signature) -> str:
        return "(" + ", ".join(map(self.type_text, types)) + ")"

    def type_text(self, token: Token) -> str:
        """A type, as one writes it."""
        if token.is_reference:
            return ("&mut " if token.is_mutable else "&") + self.type_text(token.inner)
        if token.kind != STRUCT:
            return model.LEAF_NAMES[token.kind]
        handle = model.entry(self.structs.entries, token.struct)
        return f"#{token.struct}" if handle is None else self.identifier_text(handle.name)

    def add_bodies(self) -> None:
        """Adds what the functions acquire, their other locals and their code."""
        for function, body in zip(self.tree.functions, self.bodies):
            self.add_acquires(function, body)
            coder = Coder(self, function, body)
            self.each([function], coder.add_locals)
            coder.add_code()

    def add_acquires(self, function: syntax.Function, body: model.FunctionDefinition) -> None:
        self.each(function.acquires, lambda struct: body.acquires.append(self.definition(struct)))


def check_field(one: syntax.Variable, seen: Dict[str, int]) -> None:
    """Fails where a struct has two fields of a name."""
    name = entry_text(one.name)
    if name in seen and isinstance(one.name, syntax.Name):
        raise TextError(one.name.at, f"a second field `{name}`", "give one of them another name",
                        notes=[Note(seen[name], "the first is here")])
    seen[name] = one.name.at


class Assembled(NamedTuple):
    """A module's bytes, and by the kind of each table the offsets of its entries in the text."""

    data: bytes
    entries: Dict[int, List[int]]


def assembled(tree: syntax.Module, errors: List[TextError]) -> Assembled:
    """What is made of a module's text. Its errors are put at the end of those that are given; with any, it means nothing."""
    assembler = Assembler(tree)
    module = assembler.module()
    if module is None:
        errors.extend(assembler.errors)
        return Assembled(b"", {})
    data = write_module(module)
    if len(data) > TABLE_BYTES:
        errors.append(TextError(tree.at, f"the module has {len(data):,} bytes, more than {TABLE_BYTES:,}",
                                "put some of its functions into another module"))
    return Assembled(data, assembler.starts())
