"""One form for all texts: indentation, blanks between words, empty lines and comments after code. The words, their lines and the
comments are the author's; docs/WORKBENCH.md has the rules."""

import os
import re
import sys
from typing import Dict, Iterator, List, NamedTuple, Optional, Tuple

from . import scanner
from .commandline import DONE, FAULT, REFUSED, CommandLine, Spent, fault, input_name, limited, read_input
from .errors import Source, TextError, TextErrors
from .outputs import FORM, replace, write_output
from .scanner import Words
from .stream_parser import parse
from .streaming import read_source

INDENT = 4
# Comments after code stand in one column where the code before them isn't longer than this.
MOST_ALIGNED = 100

COMMENT = 0
COMMENTS = re.compile(r"//[^\n]*|/\*[^*]*\*+(?:[^/*][^*]*\*+)*/")
OPENERS, CLOSERS = "({[", ")}]"
# Marks that stand at the word before them, and marks at which the next word stands.
GLUED_BEFORE = frozenset((",", ";", ":", "::", ".", ")", "]"))
GLUED_BEHIND = frozenset(("::", ".", "(", "[", "@", "&"))
# What begins something in braces that is no function, unless parameters follow.
HEADS = frozenset("struct import module publish tables modules structs functions signatures constants identifiers addresses "
                  "fields".split())


class NotKept(Exception):
    """Raised where a text would come out with other words or other comments, which is a fault of this module."""


class Item(NamedTuple):
    """A word or a comment: its kind, its text, and where it begins."""

    kind: int
    text: str
    at: int

    def is_mark(self, marks: str) -> bool:
        return self.kind == scanner.MARK and self.text in marks

    @property
    def is_line_comment(self) -> bool:
        return self.kind == COMMENT and self.text.startswith("//")


class Opener(NamedTuple):
    """A bracket that is open: the indentation of its line, and whether a function's code stands in it."""

    depth: int
    has_code: bool


class Laid(NamedTuple):
    """A line as it comes out: its code, and the comment after it, if any."""

    code: str
    comment: str = ""

    def __bool__(self) -> bool:
        return bool(self.code or self.comment)


def items_of(text: str) -> List[Item]:
    """The words and the comments of a text. TextError where it has something else."""
    words, items, end = Words(text), [], 0
    for kind, word, start in zip(words.kinds, words.texts, words.starts):
        items += [Item(COMMENT, found.group(), end + found.start()) for found in COMMENTS.finditer(text[end:start])]
        if kind == scanner.END:
            break
        items.append(Item(kind, word, start))
        end = start + len(word)
    return items


def lines_of(items: List[Item]) -> Iterator[List[Item]]:
    """The items of each line, none of an empty one. A comment or bytes may go over several."""
    line: List[Item] = []
    for one in items:
        if one.kind == scanner.LINE_END:
            yield line
            line = []
        else:
            line.append(one)
    yield line


def are_glued(left: Item, right: Item) -> bool:
    """Whether nothing stands between two items of a line."""
    if right.kind == scanner.MARK and right.text in GLUED_BEFORE or left.kind == scanner.MARK and left.text in GLUED_BEHIND:
        return True
    if right.is_mark("(["):
        return left.kind in (scanner.NAME, scanner.QUOTED, scanner.INDEX) or left.is_mark("]")
    return left.is_mark("{") and right.is_mark("}")


class Formatter:
    """Lays out a text."""

    def __init__(self, text: str):
        self.text = text
        self.openers: List[Opener] = []
        self.head: List[Item] = []
        self.depth = self.head_depth = 0

    def formatted(self) -> str:
        """The text in its form. TextError where it has an error, NotKept where it would come out as another one."""
        parse(self.text, keeps_limits=False)
        lines = list(lines_of(items_of(self.text)))
        laid = list(self.laid_lines(lines))
        made = "".join(f"{line}\n" for line in with_comments(without_empty(laid)))
        if kept_of(made) != kept_of(self.text):
            raise NotKept("the text would come out with other words or comments")
        return made

    def laid_lines(self, lines: List[List[Item]]) -> Iterator[Laid]:
        """Each line as it comes out. A comment that stands alone begins where the next line does."""
        words: List[Item] = []
        following: List[List[Item]] = []
        for line in reversed(lines):
            following.append(words)
            words = [one for one in line if one.kind != COMMENT] or words
        for line in lines:
            behind = following.pop()
            own = [one for one in line if one.kind != COMMENT]
            self.depth = self.depth_of(own or behind, is_before=not own)
            yield self.laid(line)
            self.enter(line)

    def depth_of(self, words: List[Item], is_before: bool) -> int:
        """How far a line of these words stands from the left, or a comment before it."""
        closers = next((at for at, one in enumerate(words) if not one.is_mark(CLOSERS)), len(words))
        if closers and not is_before:
            return self.openers[-closers].depth if closers <= len(self.openers) else 0
        if not self.openers:
            return 0
        inner = self.openers[-1]
        return inner.depth + (0 if inner.has_code and begins_with_label(words) else 1)

    def enter(self, line: List[Item]) -> None:
        """Takes note of the brackets of a line, and of the words before a brace."""
        for one in line:
            if one.is_mark(OPENERS):
                has_code = one.text == "{" and is_function(self.head)
                self.openers.append(Opener(self.head_depth if one.text == "{" and self.head else self.depth, has_code))
            elif one.is_mark(CLOSERS) and self.openers:
                self.openers.pop()
            self.note(one)
        if line and self.head and not self.head[-1].is_mark(",("):
            self.note(Item(scanner.LINE_END, "\n", 0))

    def note(self, one: Item) -> None:
        """Keeps the words since the last end, of which a brace is about."""
        if one.kind == COMMENT:
            return
        if one.is_mark("{};"):
            self.head = []
        elif not self.head or self.head[-1].kind == scanner.LINE_END:
            self.head, self.head_depth = [one], self.depth
        else:
            self.head.append(one)

    def laid(self, line: List[Item]) -> Laid:
        """A line with the blanks that stand in it."""
        front = " " * INDENT * self.depth
        comment = ""
        if len(line) > 1 and line[-1].is_line_comment:
            *line, last = line
            comment = last.text.rstrip()
        parts: List[str] = []
        for place, one in enumerate(line):
            if place and not are_glued(line[place - 1], one):
                parts.append(" ")
            parts.append(self.item_text(one, line[0], front))
        return Laid((front + "".join(parts)).rstrip() if line else "", comment)

    def item_text(self, one: Item, first: Item, front: str) -> str:
        """An item's text. One of several lines has them where the line now stands."""
        if "\n" not in one.text:
            return one.text.rstrip() if one.kind == COMMENT else one.text
        if one.kind == scanner.HEX:
            return hex_text(one.text, front)
        shift = len(front) - (first.at - self.text.rfind("\n", 0, first.at) - 1)
        head, *others = one.text.split("\n")
        return "\n".join([head.rstrip(), *(shifted(other, shift).rstrip() for other in others)])


def is_function(head: List[Item]) -> bool:
    """Whether the words before a brace are a function's."""
    words = [one for one in head if one.kind != scanner.LINE_END]
    if not words:
        return False
    is_named = len(words) > 1 and words[1].is_mark("(")
    return is_named or words[0].kind != scanner.NAME or words[0].text not in HEADS


def begins_with_label(words: List[Item]) -> bool:
    """Whether a line of code begins with a label; an instruction's number isn't one."""
    if words and words[0].text == "label" and len(words) > 2 and words[2].is_mark(":"):
        return True
    return len(words) > 1 and words[0].kind in (scanner.NAME, scanner.QUOTED) and words[1].is_mark(":")


def hex_text(text: str, front: str) -> str:
    """Bytes of several lines: each line of digits a step from the left, and the quotes at the end where the line stands."""
    first, *rows, last = [row.strip() for row in text.split("\n")]
    step = front + " " * INDENT
    rows = [step + row for row in rows if row]
    return "\n".join([first, *rows, front + last if last == '"' else step + last])


def shifted(line: str, by: int) -> str:
    """A line of a comment, moved by so many columns as far as there are blanks before it."""
    if by >= 0:
        return " " * by + line if line.strip() else ""
    blanks = len(line) - len(line.lstrip(" "))
    return line[min(-by, blanks):]


def without_empty(lines: List[Laid]) -> List[Laid]:
    """Lines with no more than one empty one between two, and none at the beginning, at the end, and within a bracket at either."""
    kept: List[Laid] = []
    for place, line in enumerate(lines):
        if not line:
            if not kept or not kept[-1] or kept[-1].code.endswith(tuple(OPENERS)):
                continue
            following = next((lines[at] for at in range(place + 1, len(lines)) if lines[at]), None)
            if following is None or following.code.lstrip().startswith(tuple(CLOSERS)):
                continue
        kept.append(line)
    return kept


def with_comments(lines: List[Laid]) -> Iterator[str]:
    """Lines as texts: comments after code on lines one below the other begin in one column."""
    widths: Dict[int, int] = {}
    group: List[int] = []
    for place, line in enumerate([*lines, Laid("")]):
        if line.comment and "\n" not in line.code:
            group.append(place)
            continue
        widest = max((len(lines[one].code) for one in group), default=0)
        widths.update({one: widest for one in group if widest <= MOST_ALIGNED})
        group = []
    for place, line in enumerate(lines):
        yield f"{line.code.ljust(widths.get(place, 0))}  {line.comment}" if line.comment else line.code


def kept_of(text: str) -> Tuple[List[Tuple[int, str]], List[str]]:
    """What stays of a text: its words, with one line end where there are several and bytes without blanks, and its comments without
    the blanks in them."""
    words: List[Tuple[int, str]] = []
    comments = []
    for one in items_of(text):
        if one.kind == COMMENT:
            comments.append("".join(one.text.split()))
        elif one.kind != scanner.LINE_END or words and words[-1][0] != scanner.LINE_END:
            words.append((one.kind, "".join(one.text.split()) if one.kind == scanner.HEX else one.text))
    while words and words[-1][0] == scanner.LINE_END:
        words.pop()
    return words, comments


def formatted(text: str) -> str:
    """A text in its form. TextError where it has an error."""
    return Formatter(text).formatted()


def form(line: CommandLine, given: Dict[str, Optional[str]]) -> int:
    """What `moveasm --format` does: prints a text in its form, or writes it into the text's own file, or says whether it is so.
    Answers the status."""
    name = str(given["FILE"])
    try:
        data = read_input(name)
    except OSError as error:
        return fault("read", error)
    try:
        source = read_source(input_name(name), data)
        with limited(line, given):
            made = in_form(source.name, source.text)
    except (TextErrors, NotKept) as error:
        print(error, file=sys.stderr)
        return REFUSED
    except Spent as error:
        return fault(error.kind, error)
    try:
        return given_out(given, name, data, made)
    except OSError as error:
        return fault("write", error)


def in_form(name: str, text: str) -> bytes:
    """A text's bytes in its form. TextErrors where it has an error."""
    try:
        return formatted(text).encode()
    except TextError as error:
        raise TextErrors(Source(name, text), [error]) from None
    except NotKept as error:
        raise NotKept(f"{name}: {error}: it is left as it is; this is a bug in moveasm") from None


def given_out(given: Dict[str, Optional[str]], name: str, data: bytes, made: bytes) -> int:
    """Puts a text in its form where it is wanted, and answers the status. OSError where it can't be written."""
    if given["--check"] is not None:
        if made != data:
            print(f"{name}: not as `moveasm --format` writes it, first in line {first_other(data, made)}", file=sys.stderr)
        return DONE if made == data else FAULT
    if given["--write"] is None:
        write_output(given["OUT"], made, FORM, [name])
    elif made != data:
        replace(os.path.realpath(name), made)
    return DONE


def first_other(one: bytes, other: bytes) -> int:
    """The first line that differs, counted from 1."""
    both = one.split(b"\n"), other.split(b"\n")
    return next((at for at, (a, b) in enumerate(zip(*both), 1) if a != b), min(map(len, both)) + 1)
