"""Whole texts: one module, or the records of a stream."""

from typing import Callable, Dict, List, NamedTuple, Optional, Union

from . import scanner, syntax
from .errors import TextError
from .limits import ARGUMENT_COUNT, BUDGET, BUNDLE_MODULES
from .module_parser import ModuleParser
from .scanner import Words

# How each record is written.
PAGE = "(docs/TEXT.md#streams)"
FORMS = {
    "publish": f"publish by ADDRESS {{ module .. [certificate HEX|FILE|prove] .. }} {PAGE}",
    "run": f"run ADDRESS::NAME::NAME(VALUE, ..) by ADDRESS budget NUMBER {PAGE}",
    "show": f"show [json] {PAGE}", "audit": f"audit [json] {PAGE}", "record": f"record NUMBER HEX {PAGE}", "bytes": f"bytes HEX {PAGE}",
}
TEXT = f"a text is one module, or records: publish, run, show, audit, record and bytes {PAGE}"


class StreamParser(ModuleParser):
    """A text."""

    def __init__(self, words: Words, keeps_limits: bool = True):
        super().__init__(words, keeps_limits)
        self.records: Dict[str, Callable[[], Union[syntax.Publish, syntax.Run, syntax.Ask, syntax.Raw]]] = {
            "publish": self.publish, "run": self.run, "show": self.ask, "audit": self.ask, "record": self.raw_record,
            "bytes": self.raw_bytes,
        }

    def whole(self) -> Union[syntax.Module, syntax.Stream]:
        """A module, or records."""
        self.skip_ends()
        if not self.is_word("module"):
            return self.stream()
        module = self.module()
        self.skip_ends()
        if self.kind != scanner.END and not self.is_unbalanced:
            self.form = TEXT
            self.fail(f"wanted the end of the text, which is one module or records, found {self.found()}",
                      help="a module and records stand together as `publish by ADDRESS { module .. }` and the records"
                      if self.text in (*self.records, "module") else "")
        return module

    def stream(self) -> syntax.Stream:
        stream = syntax.Stream([])
        while self.kind != scanner.END:
            self.attempt(lambda: self.record(stream), self.is_record)
            if self.is_mark("}"):
                self.errors.append(TextError(self.start, "this `}` closes no block", "take it out, or write the `{` before it"))
                break
        return stream

    def is_record(self) -> bool:
        return self.kind == scanner.NAME and self.text in self.records

    def record(self, stream: syntax.Stream) -> None:
        """A record, with its end."""
        read_record = self.records.get(self.text) if self.kind == scanner.NAME else None
        if read_record is None:
            self.form = TEXT
            if self.is_word("ledger"):
                self.fail("a saved ledger isn't made from a text", help="`moveledger apply --save` writes one")
            self.wanted_one_of(self.records if stream.records else ["module", *self.records])
        self.form = FORMS[self.text]
        stream.records.append(read_record())
        self.expect_end()

    def publish(self) -> syntax.Publish:
        """A bundle."""
        start = self.start
        self.at += 1
        self.expect_word("by")
        record = syntax.Publish(self.address(), [], start)
        self.open_block(lambda: self.is_word("module"))
        errors = len(self.errors)
        while not self.accept_close():
            if len(record.offers) == BUNDLE_MODULES:
                self.fail(f"a bundle has at most {BUNDLE_MODULES} modules", help="publish the others in a record after it")
            if self.head() == "record":
                self.ends_before("record")
                return record
            self.attempt(lambda: record.offers.append(self.offer()), self.is_offer)
            if self.is_unbalanced:
                # What follows a brace too much is told wrongly: nothing more is.
                self.at = len(self.kinds) - 3
                return record
        if not record.offers and len(self.errors) == errors:
            self.fail("a bundle has at least one module", start, "write `module ADDRESS::NAME { .. }` within the braces")
        return record

    def is_offer(self) -> bool:
        return self.is_word("module")

    def offer(self) -> syntax.Offer:
        """A module of a bundle, and its certificate."""
        start = self.start
        self.form = FORMS["publish"]
        if not self.is_word("module"):
            self.wanted_one_of(["module", "}"])
        self.at += 1
        if self.kind in (scanner.HEX, scanner.FILE):
            module: Union[syntax.Module, syntax.HexBytes, syntax.FileName] = self.given()
        else:
            self.at -= 1
            module = self.module()
        self.skip_ends()
        self.form = FORMS["publish"]
        if not self.accept_word("certificate"):
            return syntax.Offer(module, syntax.Made(start))
        certificate = self.certificate()
        self.expect_end()
        return syntax.Offer(module, certificate)

    def given(self) -> Union[syntax.HexBytes, syntax.FileName]:
        """Bytes, or a file's name."""
        start = self.start
        if self.kind == scanner.HEX:
            return syntax.HexBytes(self.hex(), start)
        name = self.text[1:-1]
        self.at += 1
        return syntax.FileName(name, start)

    def certificate(self) -> Union[syntax.HexBytes, syntax.FileName, syntax.Made]:
        start = self.start
        if self.accept_word("prove"):
            return syntax.Made(start)
        if self.kind not in (scanner.HEX, scanner.FILE):
            self.wanted('bytes as `x"0100"`, a file\'s name or `prove`')
        return self.given()

    def run(self) -> syntax.Run:
        """A run of a function."""
        start = self.start
        self.at += 1
        address = self.address()
        self.expect_separator()
        module = self.called_name("the module's name")
        self.expect_separator()
        function = self.called_name("the function's name")
        arguments = self.in_parentheses(self.value)
        if len(arguments) > ARGUMENT_COUNT:
            self.fail(f"a run has at most {ARGUMENT_COUNT} arguments, and this one has {len(arguments)}", start)
        self.expect_word("by")
        sender = self.address()
        if not self.accept_word("budget"):
            self.fail(f"wanted `budget`, found {self.found()}", help="write how many steps it may take, as `budget 1000`")
        budget = self.number("a number of steps", BUDGET)
        return syntax.Run(sender, address, module, function, budget, arguments, start)

    def called_name(self, what: str) -> syntax.Name:
        name = self.name(what)
        if not scanner.is_identifier(name.text):
            self.fail(f"`{name.text}` is no identifier", name.at)
        return name

    def ask(self) -> syntax.Ask:
        """Show, or audit."""
        start, is_audit = self.start, self.text == "audit"
        self.at += 1
        return syntax.Ask(is_audit, self.accept_word("json"), start)

    def raw_record(self) -> syntax.Raw:
        """A record of any kind, with any payload."""
        start = self.start
        self.at += 1
        kind = self.number("a record's kind", 255)
        if self.kind != scanner.HEX:
            self.wanted('a payload as `x"01"`')
        return syntax.Raw(kind, self.hex(), start)

    def raw_bytes(self) -> syntax.Raw:
        """Bytes that stand in the stream as they are."""
        start = self.start
        self.at += 1
        if self.kind != scanner.HEX:
            self.wanted('bytes as `x"01"`')
        return syntax.Raw(None, self.hex(), start)


class Parsed(NamedTuple):
    """What a text says, as far as it was read, and all errors of its words. There is no tree where none could be begun."""

    tree: Union[syntax.Module, syntax.Stream, None]
    errors: List[TextError]


def parsed(text: str, keeps_limits: bool = True) -> Parsed:
    """What a text says. Without limits a module may have more functions, instructions and fields than there may be."""
    parser = StreamParser(Words(text), keeps_limits)
    tree: Optional[Union[syntax.Module, syntax.Stream]] = None
    try:
        tree = parser.whole()
    except TextError as error:
        parser.note(error)
    told = {(error.at, error.message): error for error in reversed(parser.errors)}
    return Parsed(tree, sorted(told.values(), key=lambda error: error.at))


def parse(text: str, keeps_limits: bool = True) -> Union[syntax.Module, syntax.Stream]:
    """What a text says. TextError at the first word that says nothing."""
    found = parsed(text, keeps_limits)
    if found.errors or found.tree is None:
        raise found.errors[0]
    return found.tree
