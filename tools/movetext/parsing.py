"""What all parts of the parser stand on: the next word of a text, the names, numbers, types and values that it begins, and where
reading goes on after an error."""

import re
from typing import Callable, Iterable, List, NoReturn, Optional, Sequence, Tuple, TypeVar, Union

from . import habits, model, scanner, syntax
from .errors import Help, Note, TextError, meant, one_of
from .limits import INDEX
from .model import ADDRESS_BYTES, LATE_KINDS, LEAF_KINDS, LEAF_NAMES, LEAF_WIDTHS, MUTABLE, REFERENCE, STRUCT
from .opcodes import BY_NAME
from .scanner import Words

T = TypeVar("T")
NUMBER_PATTERN = re.compile(r"(0x[0-9a-fA-F_]*[0-9a-fA-F]|[0-9][0-9_]*)(u8|u16|u32|u64|u128)?\Z")

# No number has more letters than these, which are enough for any with `_` between digits.
MOST_LETTERS = 200

# Words at the beginning of a line that no block of code, fields or an import's names has: what they begin, and the kind of the next
# word.
HEADS = {
    "import": ("import", (scanner.NUMBER, scanner.INDEX)), "module": ("module", (scanner.NUMBER, scanner.INDEX)),
    "publish": ("record", (scanner.NAME,)), "run": ("record", (scanner.NUMBER,)), "struct": ("struct", (scanner.NAME,)),
    "show": ("record", (scanner.LINE_END, scanner.NAME)), "audit": ("record", (scanner.LINE_END, scanner.NAME)),
}
# What may go on with a head, though only on its line.
IN_HEADS = ("acquires", "has", "locals", "version", ":")
MODIFIERS = ("public", "entry", "fun")


class TextEnds(TextError):
    """The text ends within a block, after which there is nothing to go on with."""


class WordParser:
    """A place in a text's words. Errors are collected, and reading goes on after each as far as it can."""

    def __init__(self, words: Words):
        self.words = words
        self.kinds, self.texts, self.starts = words.kinds, words.texts, words.starts
        self.at = 0
        self.errors: List[TextError] = []
        # The open braces, and the closed ones with what closed them, by their words.
        self.opened: List[int] = []
        self.closed: List[Tuple[int, int]] = []
        # How what is being read is written.
        self.form = ""
        # Whether a brace is known to be missing or too much, so that what follows may only seem wrong.
        self.is_unbalanced = False

    @property
    def kind(self) -> int:
        return self.kinds[self.at]

    @property
    def text(self) -> str:
        return self.texts[self.at]

    @property
    def start(self) -> int:
        return self.starts[self.at]

    def fail(self, message: str, at: Optional[int] = None, help: str = "", notes: Sequence[Note] = ()) -> NoReturn:
        """Fails at the next word, or at another place."""
        if at is None and self.kind == scanner.WRONG:
            message, help = scanner.wrong_word(self.words.text, self.start)
        raise TextError(self.start if at is None else at, message, help, notes=notes)

    def fail_as(self, told: Help, at: Optional[int] = None, notes: Sequence[Note] = ()) -> NoReturn:
        self.fail(told.fact, at, told.help, notes)

    def wanted(self, what: str, words: Iterable[str] = ()) -> NoReturn:
        """Fails, since the next word isn't what is wanted, and says which of these words was probably meant."""
        self.fail(f"wanted {what}, found {self.found()}", help=meant(self.text, words) if self.kind == scanner.NAME else "")

    def wanted_one_of(self, words: Iterable[str]) -> NoReturn:
        """Fails, since the next word is none of these."""
        self.wanted(one_of(words), words)

    def found(self) -> str:
        """The next word, as it is told in an error."""
        if self.kind in (scanner.LINE_END, scanner.END):
            return scanner.KIND_WORDS[self.kind]
        text = shortened(self.text)
        return text if self.kind in (scanner.QUOTED, scanner.FILE, scanner.HEX) else f"`{text}`"

    def note(self, error: TextError) -> None:
        """Keeps an error, with how it is written where it stands, before reading goes on."""
        error.rule = error.rule or self.form
        self.errors.append(error)

    def attempt(self, read: Callable[[], object], is_start: Callable[[], bool]) -> bool:
        """Reads something. After an error it skips what is left of it, up to what begins the next one or closes the block. Answers
        whether there was no error."""
        depth, began = len(self.opened), self.at
        self.form = ""
        try:
            read()
            return True
        except TextEnds:
            raise
        except TextError as error:
            self.note(error)
        first = self.at
        while self.kind != scanner.END and not (self.is_mark("}") and len(self.opened) <= depth):
            if len(self.opened) == depth and self.at > began and (self.at == first or self.begins_line()) and is_start():
                break
            self.skip()
        return False

    def skip(self) -> None:
        """Skips a word, and counts braces."""
        if self.is_mark("{"):
            self.opened.append(self.at)
        elif self.is_mark("}") and self.opened:
            self.closed.append((self.opened.pop(), self.at))
        self.at += 1

    def skip_line(self, depth: int) -> None:
        """Skips what is left of a line, with the blocks that begin on it."""
        while self.kind != scanner.END:
            if len(self.opened) == depth and (self.kind == scanner.LINE_END or self.is_mark(";") or self.is_mark("}")):
                return
            self.skip()

    def begins_line(self) -> bool:
        return self.at == 0 or self.kinds[self.at - 1] == scanner.LINE_END

    def line_of(self, word: int) -> int:
        """The line of a word."""
        return self.words.text.count("\n", 0, self.starts[word]) + 1

    def is_mark(self, text: str) -> bool:
        return self.texts[self.at] == text and self.kinds[self.at] == scanner.MARK

    def accept(self, text: str) -> bool:
        """Whether the next word is this mark, which is then read."""
        if self.is_mark(text):
            self.at += 1
            return True
        return False

    def expect(self, text: str) -> None:
        if not self.accept(text):
            self.wanted(f"`{text}`")

    def is_word(self, text: str) -> bool:
        return self.texts[self.at] == text and self.kinds[self.at] == scanner.NAME

    def accept_word(self, text: str) -> bool:
        """Whether the next word is this one, which is then read."""
        if self.is_word(text):
            self.at += 1
            return True
        return False

    def expect_word(self, text: str) -> None:
        if not self.accept_word(text):
            self.wanted(f"`{text}`", [text])

    def skip_lines(self) -> None:
        """Reads line ends."""
        while self.kinds[self.at] == scanner.LINE_END:
            self.at += 1

    def skip_ends(self) -> None:
        """Reads line ends and semicolons."""
        while self.kinds[self.at] == scanner.LINE_END or self.is_mark(";"):
            self.at += 1

    def expect_end(self) -> None:
        """Reads the end of an item: a line end or a semicolon, with any more of them, or what comes before a brace."""
        if self.kinds[self.at] == scanner.LINE_END or self.is_mark(";"):
            self.skip_ends()
        elif not (self.is_mark("}") or self.kinds[self.at] == scanner.END):
            self.wanted("the end of the line")

    def open_brace(self) -> None:
        head_end = self.at
        self.skip_lines()
        if not self.is_mark("{"):
            if self.text not in IN_HEADS:
                self.at = head_end
            self.wanted("`{`")
        self.opened.append(self.at)
        self.at += 1
        self.skip_ends()

    def open_block(self, is_within: Callable[[], bool]) -> bool:
        """The brace at the end of a head. Where it is missing, and the next line is one of the block, that is kept as an error, and reading
        goes on. Answers whether it is missing."""
        head_end = self.at
        try:
            self.open_brace()
            return False
        except TextError as error:
            self.skip_lines()
            if self.at == head_end or not is_within():
                self.at = head_end
                raise
            self.note(error)
            self.opened.append(head_end)
            return True

    def accept_close(self) -> bool:
        """Whether the next word closes the block, and is then read. Fails where the text ends before that."""
        if self.is_mark("}"):
            self.closed.append((self.opened.pop(), self.at))
            self.at += 1
            return True
        if self.kind == scanner.END:
            self.not_closed()
        return False

    def not_closed(self) -> NoReturn:
        """Fails, since the text ends within a block."""
        if self.words.cut is not None:
            cut = scanner.wrong_word(self.words.text, self.words.cut)
            raise TextEnds(self.words.cut, cut.fact, cut.help)
        opening, closing = self.unclosed()
        told = "this `{` isn't closed"
        if closing is None:
            raise TextEnds(self.starts[opening], told, "write `}` where its block ends")
        raise TextEnds(self.starts[opening], told, "write `}` before that one", notes=[self.closing_note(opening, closing)])

    def unclosed(self) -> Tuple[int, Optional[int]]:
        """The brace that is probably not closed, where one is missing: the first whose line stands elsewhere than the line of the
        brace that closed it, which is answered too; otherwise the last one that is open."""
        for opening, closing in self.closed:
            if opening > self.opened[-1] and self.indent(opening) != self.indent(closing) and self.is_first(closing):
                return opening, closing
        return self.opened[-1], None

    def closing_note(self, opening: int, closing: int) -> Note:
        """That a brace closes another line's block, by where it stands."""
        outer = [one for one in self.opened if one < opening and self.indent(one) == self.indent(closing)]
        where = f"closes the block of line {self.line_of(outer[-1])}" if outer else "closes another block"
        return Note(self.starts[closing], f"judging by its indentation, this `}}` {where}")

    def indent(self, word: int) -> int:
        """How far the line of a word is indented."""
        text, start = self.words.text, self.starts[word]
        begin = text.rfind("\n", 0, start) + 1
        return len(text[begin:start]) - len(text[begin:start].lstrip()) if text[begin:start].strip() else start - begin

    def is_first(self, word: int) -> bool:
        """Whether a word is the first of its line."""
        return self.kinds[word - 1] == scanner.LINE_END

    def head(self, is_import: bool = False) -> Optional[str]:
        """What the next line begins, where that is no part of a block of code, fields or an import's names; otherwise None."""
        word, following = self.text, self.kinds[self.at + 1]
        if self.kind != scanner.NAME or not self.begins_line() or self.texts[self.at + 1] == ":":
            return None
        if word in HEADS and following in HEADS[word][1] and not (is_import and word == "struct" and not self.has_brace()):
            return HEADS[word][0]
        if word in MODIFIERS and (following == scanner.NAME or self.texts[self.at + 1] == "(") and (
                not is_import or self.has_brace()):
            return "function"
        is_call = self.texts[self.at + 1] == "(" and word not in BY_NAME and word not in habits.INSTRUCTIONS and \
            word.lower() not in habits.CONTROLS
        return "function" if is_call and self.has_brace() else None

    def has_brace(self) -> bool:
        """Whether a block begins on the next line, or after its end."""
        at = self.at
        while self.kinds[at] not in (scanner.LINE_END, scanner.END):
            if self.texts[at] == "{" and self.kinds[at] == scanner.MARK:
                return True
            at += 1
        return self.texts[at + 1] == "{" and self.kinds[at] == scanner.LINE_END

    def ends_before(self, what: str) -> None:
        """Ends a block that isn't closed before what begins here, and keeps that as an error."""
        opening, closing = self.unclosed()
        line = self.line_of(self.at)
        which = what if what == "certificate" else f"next {what}"
        notes = [Note(self.start, f"the {which} begins here") if closing is None else self.closing_note(opening, closing)]
        self.errors.append(TextError(
            self.starts[opening], f"this `{{` isn't closed; the {which} begins at line {line}",
            "write `}` where its block ends", notes=notes))
        self.opened.pop()
        if self.kinds[self.at - 1] == scanner.LINE_END:
            self.at -= 1

    def in_braces(self, item: Callable[[], object]) -> None:
        """Reads items in braces, each with its end."""
        self.open_brace()
        while not self.accept_close():
            item()
            self.expect_end()

    def in_parentheses(self, item: Callable[[], T]) -> List[T]:
        """Items in parentheses with commas between them."""
        self.expect("(")
        items = []
        self.skip_lines()
        while not self.accept(")"):
            items.append(item())
            self.skip_lines()
            if not self.is_mark(")"):
                if not self.accept(","):
                    self.wanted("`,` or `)`")
                self.skip_lines()
        return items

    def listed(self, item: Callable[[], T]) -> List[T]:
        """One item or more, with commas between them."""
        items = [item()]
        while self.accept(","):
            self.skip_lines()
            items.append(item())
        return items


class TermParser(WordParser):
    """Names, numbers, types and values. `version` is that of the module that is read, and 6 outside of modules. Where limits
    are kept, a module that has more of something than there may be is an error."""

    def __init__(self, words: Words, keeps_limits: bool = True):
        super().__init__(words)
        self.keeps_limits = keeps_limits
        self.version = 6

    def name(self, what: str) -> syntax.Name:
        kind, text, start = self.kind, self.text, self.start
        if kind == scanner.QUOTED:
            text = text[1:-1]
        elif kind != scanner.NAME:
            self.wanted(what)
        self.at += 1
        return syntax.Name(text, start)

    def index(self) -> syntax.Index:
        """An index after `#`."""
        if self.kind != scanner.INDEX:
            self.wanted("an index as `#3`")
        start, text = self.start, self.text
        number = int(text[1:]) if len(text) < MOST_LETTERS else INDEX + 1
        if number > INDEX:
            self.fail(f"an index is at most {INDEX}")
        self.at += 1
        return syntax.Index(number, start)

    def entry(self, what: str) -> syntax.Entry:
        """A name, or an index."""
        return self.index() if self.kind == scanner.INDEX else self.name(what)

    def number(self, what: str, most: int) -> int:
        """A number of at most so much."""
        if self.kind != scanner.NUMBER:
            if self.kind == scanner.WRONG and self.text == "=":
                self.fail(f"wanted {what}, found `=`", self.start, "leave the `=` out")
            self.wanted(what)
        value, suffix = self.split_number(most)
        if suffix:
            self.fail(f"wanted {what} without a type, found `{self.text}`", help=f"write `{self.text[:-len(suffix)]}`")
        self.at += 1
        return value

    def split_number(self, most: int) -> Tuple[int, str]:
        """The number that the next word is, and the type after it or an empty text. Doesn't read the word."""
        text = self.text
        found = NUMBER_PATTERN.match(text)
        if not found:
            self.fail(f"`{shortened(text)}` is no number")
        digits = found.group(1).replace("_", "")
        value = int(digits, 16 if digits.startswith("0x") else 10) if len(digits) < MOST_LETTERS else most + 1
        if value > most:
            self.fail(f"`{shortened(text)}` is too great: it is at most {most:,}")
        return value, found.group(2) or ""

    def address(self) -> bytes:
        """An address as `0x1`."""
        text = self.text
        if self.kind == scanner.NUMBER and text.isdigit():
            self.fail(f"`{shortened(text)}` is no address, which is hexadecimal", help=f"write `0x{int(text[:MOST_LETTERS]):x}`")
        if self.kind != scanner.NUMBER or not text.startswith("0x"):
            is_module = self.texts[self.at + 1] == "::" and self.texts[self.at + 3] == "("
            names = f"write the module's address first, as `0x1::{text}`" if is_module else "addresses have no names"
            self.fail(f"wanted an address as `0x1`, found {self.found()}",
                      help=names if self.kind == scanner.NAME else "leave the `@` out" if self.is_mark("@") else "")
        digits = text[2:]
        if not re.match(r"[0-9a-fA-F]+\Z", digits):
            self.fail(f"`{shortened(text)}` is no address", help="its digits are 0 to 9 and a to f")
        if len(digits) > 2 * ADDRESS_BYTES:
            self.fail(f"an address has at most {2 * ADDRESS_BYTES} hexadecimal digits, this one {len(digits)}")
        self.at += 1
        return bytes.fromhex(digits.rjust(2 * ADDRESS_BYTES, "0"))

    def hex(self) -> bytes:
        """Bytes as `x"01 ff"`."""
        digits = "".join(self.text[2:-1].split())
        if len(digits) % 2 or not re.match(r"[0-9a-fA-F]*\Z", digits):
            self.fail("these are no bytes", help="bytes are pairs of hexadecimal digits, as `x\"01 ff\"`")
        self.at += 1
        return bytes.fromhex(digits)

    def accept_separator(self) -> bool:
        return self.accept("::") or self.accept(".")

    def expect_separator(self) -> None:
        if not self.accept_separator():
            self.wanted("`::`")

    def address_part(self) -> Union[bytes, syntax.Index]:
        return self.index() if self.kind == scanner.INDEX else self.address()

    def module_name(self) -> syntax.ModuleName:
        """A module by address and name, each of which may be an index."""
        start = self.start
        address = self.address_part()
        self.expect_separator()
        return syntax.ModuleName(address, self.entry("the module's name"), start)

    def path(self, what: str) -> syntax.Path:
        """Something of the own or another module."""
        start = self.start
        if self.kind == scanner.NUMBER:
            module = self.module_name()
            self.expect_separator()
            return syntax.Path(module, self.entry(what), start)
        first = self.entry(what)
        if not self.accept_separator():
            return syntax.Path(None, first, start)
        second = self.entry(what)
        if isinstance(first, syntax.Index) and self.accept_separator():
            return syntax.Path(syntax.ModuleName(first, second, start), self.entry(what), start)
        return syntax.Path(syntax.ModuleName(None, first, start), second, start)

    def type(self) -> syntax.Type:
        """A type."""
        start = self.start
        if not self.accept("&"):
            return self.value_type()
        kind = MUTABLE if self.accept_word("mut") else REFERENCE
        if self.is_mark("&"):
            self.fail("there is no reference to a reference", help="write one `&` alone")
        return syntax.Type(kind, self.value_type(), None, start)

    def value_type(self) -> syntax.Type:
        """A type that is no reference."""
        start, kind = self.start, self.kind
        if kind == scanner.NAME:
            leaf = LEAF_KINDS.get(self.text)
            if leaf is not None:
                self.at += 1
                self.check_leaf(leaf, start)
                return syntax.Type(leaf, None, None, start)
        elif kind not in (scanner.QUOTED, scanner.INDEX, scanner.NUMBER):
            self.wanted("a type")
        path = self.path("a type")
        if path.module is None and isinstance(path.name, syntax.Index):
            return syntax.Type(STRUCT, None, path.name, start)
        return syntax.Type(STRUCT, None, path, start)

    def check_leaf(self, leaf: int, at: int) -> None:
        """Fails where the version of the module hasn't the type."""
        if self.version < 6 and leaf in LATE_KINDS:
            self.fail(f"`{LEAF_NAMES[leaf]}` needs version 6, and this module has version {self.version}", at,
                      "write `version 6` after the module's name")

    def types(self) -> List[syntax.Type]:
        """Types in parentheses."""
        return self.in_parentheses(self.type)

    def parameter_type(self) -> syntax.Type:
        """A parameter's type, with or without a name."""
        if self.kind in (scanner.NAME, scanner.QUOTED) and self.texts[self.at + 1] == ":":
            self.at += 2
        return self.type()

    def results(self) -> List[syntax.Type]:
        """The results after a colon, if there is one."""
        if not self.accept(":"):
            return []
        return self.types() if self.is_mark("(") else [self.type()]

    def abilities(self) -> int:
        """Abilities after `has`, if there are any."""
        if not self.accept_word("has"):
            return 0
        bits = 0
        for bit in self.listed(self.ability):
            bits |= bit
        if self.text in ("+", "|", "&") or self.kind == scanner.NAME and self.text in [word for _, word in model.ABILITIES]:
            self.fail("abilities are separated by commas", self.start, "as `has store, key`")
        return bits

    def ability(self) -> int:
        for bit, word in model.ABILITIES:
            if self.accept_word(word):
                return bit
        return self.wanted_one_of([word for _, word in model.ABILITIES])

    def is_value(self) -> bool:
        """Whether the next word begins a value."""
        return self.kind == scanner.NUMBER or self.is_mark("@") or self.is_word("true") or self.is_word("false")

    def value(self) -> model.Value:
        """A bool, a number with its type, or an address."""
        if self.accept("@"):
            return model.Value(model.ADDRESS, self.address())
        for word, value in (("true", True), ("false", False)):
            if self.accept_word(word):
                return model.Value(model.BOOL, value)
        if self.kind != scanner.NUMBER:
            self.wanted("a value as `7u64`, `true` or `@0x1`")
        return self.number_value()

    def number_value(self) -> model.Value:
        start, text = self.start, self.text
        value, suffix = self.split_number((1 << 128) - 1)
        if not suffix:
            self.fail(f"`{shortened(text)}` has no type",
                      help=f"write `@{text}` for an address, or `{text}u64`" if text.startswith("0x") else f"write `{text}u64`")
        kind = LEAF_KINDS[suffix]
        most = (1 << 8 * LEAF_WIDTHS[kind]) - 1
        if value > most:
            self.fail(f"`{shortened(text)}` is too great: a {suffix} is at most {most:,}")
        self.at += 1
        self.check_leaf(kind, start)
        return model.Value(kind, value)


def shortened(text: str) -> str:
    """The beginning of a text, as much as is told in an error."""
    line = text.split("\n", 1)[0]
    return line if len(line) == len(text) <= 40 else line[:40] + ".."

