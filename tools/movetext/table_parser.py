"""The tables that a module's text gives: how each begins, entry by entry."""

from typing import Any, Callable, Dict, List, Set, Union

from . import scanner, syntax
from .code_parser import CodeParser
from .errors import unknown


class TableParser(CodeParser):
    """The tables of a module."""

    def __init__(self, words: scanner.Words, keeps_limits: bool = True):
        super().__init__(words, keeps_limits)
        self.table_entries: Dict[str, Callable[[], Any]] = {
            "modules": self.module_handle, "structs": self.struct_handle, "functions": self.function_handle,
            "signatures": self.types, "constants": self.literal, "identifiers": self.identifier, "addresses": self.address,
            "fields": self.field_path,
        }

    def tables(self) -> syntax.Tables:
        """How tables begin."""
        self.form = "tables { NAME { an entry END ... } ... } (docs/TEXT.md#the-order-of-tables)"
        self.expect_word("tables")
        tables = syntax.Tables()
        seen: Set[str] = set()
        self.open_brace()
        while not self.accept_close():
            self.table(tables, seen)
            self.skip_ends()
        return tables

    def table(self, tables: syntax.Tables, seen: Set[str]) -> None:
        """How a table begins."""
        start, kind = self.start, self.text
        if self.kind != scanner.NAME:
            self.wanted("a table's name or `}`")
        if kind not in self.table_entries:
            self.fail_as(unknown("table", kind, self.table_entries))
        read_entry = self.table_entries[kind]
        if kind in seen:
            self.fail(f"a second table `{kind}`", start)
        seen.add(kind)
        self.at += 1
        entries = getattr(tables, kind)
        self.in_braces(lambda: entries.append(read_entry()))

    def module_handle(self) -> syntax.ModuleName:
        return self.module_name()

    def struct_handle(self) -> syntax.StructHandleText:
        path = self.path("a struct")
        return syntax.StructHandleText(path, self.abilities())

    def function_handle(self) -> syntax.FunctionHandleText:
        """A function's name, and its signatures or their indices."""
        path = self.path("a function")
        parameters: Union[syntax.Index, List[syntax.Type]]
        parameters = self.index() if self.kind == scanner.INDEX else self.types()
        results: Union[syntax.Index, List[syntax.Type]] = []
        if self.accept(":"):
            results = self.index_or_results()
        return syntax.FunctionHandleText(path, parameters, results)

    def index_or_results(self) -> Union[syntax.Index, List[syntax.Type]]:
        """The index of a signature, or types."""
        if self.kind == scanner.INDEX:
            return self.index()
        return self.types() if self.is_mark("(") else [self.type()]

    def literal(self) -> syntax.Literal:
        constant = self.constant()
        if isinstance(constant, syntax.Index):
            self.fail("wanted a value, or a type and bytes", constant.at)
        return constant

    def identifier(self) -> syntax.Name:
        return self.name("an identifier")

    def field_path(self) -> syntax.FieldPath:
        path = self.field()
        if isinstance(path, syntax.Index):
            self.fail("wanted a struct and a field, as `Coin.value`", path.at)
        return path
