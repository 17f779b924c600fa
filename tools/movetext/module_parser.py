"""Modules: their imports, structs, functions and tables."""

from typing import List, NoReturn

from . import habits, scanner, syntax
from .errors import Note, TextError, one_of
from .limits import FUNCTION_COUNT, STRUCT_FIELDS
from .model import VERSIONS
from .opcodes import BY_NAME
from .parsing import TextEnds
from .table_parser import TableParser

ITEMS = "import", "struct", "tables", "public", "entry", "fun"

# How each item is written.
PAGE = "(docs/TEXT.md#modules)"
IMPORT = f"import ADDRESS::NAME [as NAME] [{{ struct NAME [has ABILITY, ..]   NAME(TYPE, ..)[: RESULTS] .. }}] {PAGE}"
STRUCT = f"struct NAME [has ABILITY, ..] {{ NAME: TYPE, .. }} {PAGE}"
FUNCTION = f"[public] [entry] [fun] NAME(NAME: TYPE, ..)[: RESULTS] [acquires NAME, ..] {{ .. }} {PAGE}"
MODULE = f"module ADDRESS::NAME [version NUMBER] {{ an import, a struct, a function .. }} {PAGE}"

# Words that stand outside of modules.
OUTSIDE = ("module", "certificate", "publish", "run", "show", "audit", "record", "bytes")


class ModuleParser(TableParser):
    """A module."""

    # The functions of the module that is read, as far as they are read.
    whole_functions: List[syntax.Function] = []

    def module(self) -> syntax.Module:
        """A module, from its first word to its closing brace."""
        start = self.start
        self.form = MODULE
        self.expect_word("module")
        name = self.own_name()
        self.version = self.version_number()
        module = syntax.Module(name, self.version, start)
        self.whole_functions = module.functions
        before = len(self.errors)
        self.open_block(lambda: self.is_item() and (self.text not in OUTSIDE or self.is_named()))
        while not self.accept_close():
            if self.kind == scanner.NAME and self.text in OUTSIDE and self.begins_line() and not self.is_named():
                self.ends_before(self.text if self.text in ("module", "certificate") else "record")
                break
            self.attempt_item(module)
        module.is_broken = len(self.errors) > before
        self.version = 6
        return module

    def attempt_item(self, module: syntax.Module) -> None:
        """Reads an item. Of one that has an error, the names are kept as lost."""
        began = self.at
        if not self.attempt(lambda: self.whole_item(module), self.is_item):
            module.lost.update(self.names_at(began))

    def whole_item(self, module: syntax.Module) -> None:
        self.item(module)
        self.expect_end()

    def is_item(self) -> bool:
        """Whether the next word begins an item."""
        return self.kind == scanner.NAME and (self.text in ITEMS or self.text in habits.ITEMS or self.text in OUTSIDE or self.is_named())

    def names_at(self, at: int) -> List[str]:
        """The names that stand first in an item: those before a parenthesis, a brace or the end of the line."""
        names = []
        while self.texts[at] not in ("(", "{") and self.kinds[at] not in (scanner.LINE_END, scanner.END):
            if self.kinds[at] == scanner.NAME and self.texts[at] not in ITEMS:
                names.append(self.texts[at])
            at += 1
        return names

    def own_name(self) -> syntax.ModuleName:
        """The module's own name, or the index of its handle."""
        start = self.start
        if self.kind == scanner.INDEX:
            index = self.index()
            if not self.is_mark("::") and not self.is_mark("."):
                return syntax.ModuleName(None, index, start)
            self.at -= 1
        return self.module_name()

    def version_number(self) -> int:
        if not self.accept_word("version"):
            return VERSIONS[0]
        start = self.start
        version = self.number("a version", 255)
        if version not in VERSIONS:
            self.fail(f"there is no version {version}", start, f"write `version {VERSIONS[-1]}`, or none for {VERSIONS[0]}")
        return version

    def is_named(self) -> bool:
        """Whether the next word is a function's name, since its parameters follow."""
        return self.texts[self.at + 1] == "(" and self.kinds[self.at + 1] == scanner.MARK

    def item(self, module: syntax.Module) -> None:
        """An import, a struct, a function or tables."""
        if self.kind == scanner.NAME and not self.is_named():
            if self.is_word("import"):
                module.imports.append(self.import_item())
                return
            if self.is_word("struct"):
                module.structs.append(self.struct())
                return
            if self.is_word("tables"):
                if module.tables:
                    self.fail("the module has tables already", help="write all tables within the first `tables`")
                module.tables = self.tables()
                return
        module.functions.append(self.function(module))

    def import_item(self) -> syntax.Import:
        """Another module, with what the module names there."""
        self.form = IMPORT
        self.expect_word("import")
        name = self.module_name()
        alias = self.name("a name") if self.accept_word("as") else name.name
        imported = syntax.Import(name, alias)
        if not self.is_import_block():
            return imported
        self.open_brace()
        while not self.accept_close():
            what = self.head(is_import=True)
            if what:
                self.ends_before(what)
                break
            self.imported(imported)
            self.expect_end()
        return imported

    def is_import_block(self) -> bool:
        """Whether a brace follows, after any line ends, which are then read."""
        at = self.at
        while self.kinds[at] == scanner.LINE_END:
            at += 1
        if self.texts[at] == "{" and self.kinds[at] == scanner.MARK:
            self.at = at
            return True
        return False

    def imported(self, imported: syntax.Import) -> None:
        """A struct or a function of another module."""
        if self.is_word("struct") and not self.is_named():
            self.at += 1
            start = self.start
            path = syntax.Path(imported.module, self.entry("the struct's name"), start)
            imported.structs.append(syntax.StructHandleText(path, self.abilities()))
            return
        self.accept_word("public")
        if not self.is_named():
            self.accept_word("fun")
        start = self.start
        path = syntax.Path(imported.module, self.entry("a struct, a function"), start)
        parameters = self.in_parentheses(self.parameter_type)
        imported.functions.append(syntax.FunctionHandleText(path, parameters, self.results()))

    def struct(self) -> syntax.Struct:
        """A struct definition."""
        start = self.start
        self.form = STRUCT
        self.expect_word("struct")
        name = self.entry("the struct's name")
        struct = syntax.Struct(name, self.abilities(), [], start)
        if isinstance(name, syntax.Index) and struct.abilities:
            self.fail("a struct by its index has the abilities of its handle", name.at)
        self.open_block(self.is_field)
        while not self.accept_close():
            what = self.head()
            if what:
                self.ends_before(what)
                return struct
            self.struct_field(struct)
        if self.is_word("has"):
            abilities = " ".join(self.line_words(self.at))
            self.fail("the abilities stand after the fields",
                      help=f"write `struct {self.texts[self.words_before(start)]} {abilities} {{ .. }}`")
        return struct

    def words_before(self, start: int) -> int:
        """The word after the one at an offset, of those that were read."""
        at = self.at
        while self.starts[at] > start:
            at -= 1
        return at + 1

    def line_words(self, at: int) -> List[str]:
        """The words of a line from one on, with commas at the words before them."""
        words: List[str] = []
        while self.kinds[at] == scanner.NAME or self.texts[at] == ",":
            if self.texts[at] == ",":
                words[-1] += ","
            else:
                words.append(self.texts[at])
            at += 1
        return words

    def struct_field(self, struct: syntax.Struct) -> None:
        """A field, and what parts it from the next one."""
        if len(struct.fields) == STRUCT_FIELDS and self.keeps_limits:
            self.fail(f"a struct has at most {STRUCT_FIELDS} fields", help="put some into another struct, which is a field here")
        struct.fields.append(self.variable("a field's name"))
        if self.accept(","):
            self.skip_lines()
        elif not self.is_mark("}"):
            if self.is_mark(";"):
                self.fail("wanted `,`, `}` or the end of the line, found `;`", help="fields are separated by commas or line ends")
            if self.kind not in (scanner.LINE_END, scanner.END):
                self.wanted("`,`, `}` or the end of the line")
            self.skip_lines()

    def variable(self, what: str) -> syntax.Variable:
        """A name, or for a field its index, and a type."""
        name = self.entry(what)
        self.expect(":")
        variable = syntax.Variable(name, self.type())
        self.check_assigned("field")
        return variable

    def check_assigned(self, what: str) -> None:
        """Fails where a value is given to a name with a type."""
        if self.kind == scanner.WRONG and self.text == "=":
            self.fail(f"a {what} has a name and a type alone", self.start, f"take the value out: {habits.VALUES[what]}")

    def parameter(self) -> syntax.Local:
        """The name and the type of a parameter."""
        parameter = self.local_variable()
        self.check_assigned("parameter")
        return parameter

    def local_variable(self) -> syntax.Local:
        """The name and the type of a parameter or another local."""
        name = self.name("a local's name")
        self.expect(":")
        return syntax.Local(name, self.type())

    def function(self, module: syntax.Module) -> syntax.Function:
        """A function definition."""
        if len(module.functions) == FUNCTION_COUNT and self.keeps_limits:
            self.fail(f"a module has at most {FUNCTION_COUNT} functions", help="put some into another module")
        function = syntax.Function(syntax.Name("", self.start), self.start)
        self.form = FUNCTION
        self.modifiers(function)
        if self.kind not in (scanner.NAME, scanner.QUOTED, scanner.INDEX):
            self.wanted(f"{one_of([*ITEMS, '}'])}, or a function's name")
        function.name = self.entry("the function's name")
        if isinstance(function.name, syntax.Name):
            self.shape(function)
        if self.accept_word("acquires"):
            function.acquires = self.listed(self.acquired)
        if self.accept_word("locals"):
            function.locals_index = self.index()
        function.is_broken = self.open_block(self.is_code)
        self.declarations(function)
        self.form = ""
        self.code(function)
        return function

    def is_field(self) -> bool:
        """Whether the next word is a field's name, since its type follows."""
        return self.kind in (scanner.NAME, scanner.QUOTED, scanner.INDEX) and self.texts[self.at + 1] == ":"

    def is_code(self) -> bool:
        """Whether the next word begins a line of a function."""
        return self.kind == scanner.NAME and (self.text in BY_NAME or self.text == "let" or self.texts[self.at + 1] == ":") and \
            not self.is_named()

    def acquired(self) -> syntax.Entry:
        """A struct of the module after `acquires`."""
        start, is_address = self.start, self.kind == scanner.NUMBER
        struct: syntax.Entry = syntax.Name(self.text, start) if is_address else self.entry("a struct")
        if is_address or self.is_mark("::") or self.is_mark("."):
            self.fail("`acquires` names structs of its own module, by their names alone", start,
                      "what a function of another module acquires isn't listed")
        return struct

    def modifiers(self, function: syntax.Function) -> None:
        """What stands before a function's name."""
        self.check_friends()
        while not self.is_named():
            if not function.is_public and self.accept_word("public"):
                function.is_public = True
            elif not function.is_entry and self.accept_word("entry"):
                function.is_entry = True
            else:
                self.accept_word("fun")
                return

    def check_friends(self) -> None:
        """Fails at `public(friend)` and its like."""
        inner = self.texts[self.at + 2:self.at + 4]
        if self.is_word("public") and self.is_named() and inner[1:] == [")"] and inner[0] in ("friend", "package", "script"):
            self.fail(f"there is no `public({inner[0]})`",
                      help="a function is `public`, so that every module may call it, or private, without a word")

    def shape(self, function: syntax.Function) -> None:
        """A function's parameters and results."""
        if not self.is_mark("("):
            self.no_item(function)
        function.parameters = self.in_parentheses(self.parameter)
        function.results = self.results()

    def no_item(self, function: syntax.Function) -> NoReturn:
        """Fails at a name that is no function's, since no parenthesis follows it."""
        before, self.form = self.texts[self.at - 1], ""
        if before in habits.ITEMS:
            self.fail(f"no item begins with `{before}`", self.starts[self.at - 1], habits.ITEMS[before])
        if before in BY_NAME or self.is_mark(":") or before in habits.INSTRUCTIONS:
            self.outside(before)
        if function.is_public or function.is_entry:
            self.fail(f"wanted `(`, found {self.found()}", help=f"a function has parentheses, also without parameters: `{before}()`")
        self.at -= 1
        self.wanted(f"{one_of(ITEMS)}, or a function's name and `(`", ITEMS)

    def declarations(self, function: syntax.Function) -> None:
        """The locals beside the parameters. One with an error is left out, and the function is broken."""
        self.skip_ends()
        depth = len(self.opened)
        while self.is_word("let") and self.texts[self.at + 1] != ":":
            try:
                self.declaration(function)
            except TextEnds:
                raise
            except TextError as error:
                self.note(error)
                function.is_broken = function.lacks_locals = True
                self.skip_line(depth)
                self.skip_ends()

    def declaration(self, function: syntax.Function) -> None:
        """A local beside the parameters."""
        self.form = f"let NAME: TYPE {PAGE}"
        if function.locals_index:
            self.fail("the locals are those of a signature by its index")
        if isinstance(function.name, syntax.Index):
            self.fail("a function by the index of its handle has `locals` with the index of a signature, and no `let`")
        self.at += 1
        if self.is_word("mut"):
            self.fail("there is no `mut` after `let`", help="leave it out: every local may be written")
        function.locals.append(self.local_variable())
        self.expect_end()

    def outside(self, word: str) -> NoReturn:
        """Fails at an instruction or a label that stands in no function."""
        notes, help = [], "write it within a function, as `f() { Ret }`"
        if self.closed:
            notes = [Note(self.starts[self.closed[-1][1]], "the block before it ends here")]
            help = "if a function is to go on here, take the `}` before it out"
        if self.whole_functions:
            # Its labels may stand behind the brace.
            self.whole_functions[-1].is_broken = True
        self.is_unbalanced = True
        self.fail(f"`{word}` is outside of a function", self.starts[self.at - 1], help, notes)
