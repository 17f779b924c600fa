"""What is wrong with a text, and where; and the name that was meant."""

import re
import textwrap
from bisect import bisect_right
from typing import Iterable, List, NamedTuple, Optional, Sequence, Tuple

# No more errors than these are told of one text.
MOST_ERRORS = 20

# No line of a message has more signs where it can be broken, and no more of a text's line is shown.
WIDTH = 100
INDENT = "    "
SHOWN = WIDTH - len(INDENT)

# What is marked of a line: the word at a place.
MARKED = re.compile(r'\w+|"[^"\n]*"|`[^`\n]*`|::|.')


class Source:
    """A text with its name, in which offsets are told as lines and columns."""

    def __init__(self, name: str, text: str):
        self.name = name
        self.text = text
        self.starts: List[int] = []

    def line_starts(self) -> List[int]:
        """Where each line begins."""
        if not self.starts:
            self.starts = [0] + [found.end() for found in re.finditer("\n", self.text)]
        return self.starts

    def place(self, at: int) -> Tuple[int, int]:
        """The line and the column of an offset, both counted from 1."""
        line = bisect_right(self.line_starts(), at)
        return line, at - self.starts[line - 1] + 1

    def told(self, at: int) -> str:
        """An offset as the beginning of a message has it."""
        line, column = self.place(at)
        return f"{self.name}:{line}:{column}"

    def offset(self, line: int, column: int) -> int:
        """The offset of a line and a column."""
        return self.line_starts()[line - 1] + column - 1

    def marked(self, at: int) -> List[str]:
        """The line of an offset, and a line that marks the word there; nothing of a line without words. No more of the line is
        shown than fits."""
        start = self.text.rfind("\n", 0, at) + 1
        end = self.text.find("\n", at)
        line = (self.text[start:] if end < 0 else self.text[start:end]).rstrip("\r")
        if not line.strip():
            return []
        column = at - start
        found = MARKED.match(line, column)
        length = len(found.group()) if found else 1
        if column > SHOWN // 2 and column + length > SHOWN:
            front = column - SHOWN // 2
            line, column = ".." + line[front:], SHOWN // 2 + 2
        if len(line) > SHOWN:
            line = line[:SHOWN - 2] + ".."
        blanks = "".join("\t" if letter == "\t" else " " for letter in line[:column])
        return [line, blanks + "^" * min(length, SHOWN - column)]


class Note(NamedTuple):
    """A second place of what is wrong: an offset, what is said of it, and the text where it isn't the same one."""

    at: int
    message: str
    source: Optional[Source] = None


class Help(NamedTuple):
    """What is said of a mistake: the fact, and what to write."""

    fact: str
    help: str = ""


class TextError(Exception):
    """Something wrong at an offset of a text: the fact, what to write, the rule, second places, and lines with what holds there."""

    word = "error"

    def __init__(self, at: int, message: str, help: str = "", rule: str = "", notes: Sequence[Note] = (),
                 state: Sequence[str] = ()):
        super().__init__(message)
        self.at = at
        self.message = message
        self.help = help
        self.rule = rule
        self.notes = list(notes)
        self.state = list(state)

    def lines(self, source: Source) -> List[str]:
        """The error as it is told."""
        lines = [f"{source.told(self.at)}: {self.word}: {self.message}", *indented(source.marked(self.at))]
        for note in self.notes:
            there = note.source or source
            lines += [f"{there.told(note.at)}: note: {note.message}", *indented(there.marked(note.at))]
        return lines + indented(self.state) + folded("help: ", self.help) + folded("rule: ", self.rule)


class Unknown(TextError):
    """A name that nothing has. Where what has one of these names is itself wrong, it isn't told."""

    def __init__(self, at: int, told: Help, names: Iterable[str], otherwise: str = "", notes: Sequence[Note] = (),
                 is_lost: bool = False):
        super().__init__(at, told.fact, told.help or otherwise, notes=notes)
        self.names, self.is_lost = set(names), is_lost


class Warned(TextError):
    """Something that is allowed, and rarely meant."""

    word = "warning"


def indented(lines: Iterable[str]) -> List[str]:
    return [INDENT + line for line in lines]


def wrapped(text: str) -> List[str]:
    """A text in lines that aren't too long."""
    return textwrap.wrap(text, WIDTH - len(INDENT), break_long_words=False, break_on_hyphens=False)


def folded(front: str, text: str) -> List[str]:
    """A text after some words, in lines that aren't too long; no line where there is no text."""
    width = WIDTH - len(INDENT)
    return indented(textwrap.wrap(text, width, initial_indent=front, subsequent_indent=" " * len(front),
                                  break_long_words=False, break_on_hyphens=False))


class TextErrors(Exception):
    """All that is wrong with a text, and with others that it names."""

    def __init__(self, source: Source, errors: Iterable[TextError], others: Iterable["TextErrors"] = ()):
        self.source = source
        told = {(error.at, error.message): error for error in errors}
        self.errors = sorted(told.values(), key=lambda error: error.at)
        self.others = list(others)
        super().__init__("\n".join(self.lines()))

    def lines(self) -> List[str]:
        told = [line for error in self.errors[:MOST_ERRORS] for line in error.lines(self.source)]
        more = len(self.errors) - MOST_ERRORS
        told += [f"{self.source.name}: and {more} more"] if more > 0 else []
        return told + [line for other in self.others for line in other.lines()]


def distance(one: str, other: str, most: int) -> int:
    """How many letters have to be put in, left out, changed or swapped with the next; more than `most` where they're more."""
    if abs(len(one) - len(other)) > most:
        return most + 1
    before: List[int] = []
    row = list(range(len(other) + 1))
    for i, letter in enumerate(one, 1):
        last, before, row = before, row, [i] + [0] * len(other)
        for j, wanted in enumerate(other, 1):
            row[j] = min(before[j] + 1, row[j - 1] + 1, before[j - 1] + (letter != wanted))
            if i > 1 and j > 1 and letter == other[j - 2] and one[i - 2] == wanted:
                row[j] = min(row[j], last[j - 2] + 1)
        if min(row) > most:
            return most + 1
    return row[-1]


def nearest(name: str, names: Iterable[str]) -> Optional[str]:
    """The name among these that was probably meant, or None."""
    most = max(1, len(name.rpartition("::")[2]) // 3)
    best, fewest = None, most + 1
    plain, parts = name.rpartition("::")[2].lower(), parts_of(name)
    names = list(names)
    for other in names:
        if other.rpartition("::")[2].lower() == plain or len(parts) > 1 and parts_of(other) == parts:
            return other
    for other in names:
        far = distance(name, other, fewest - 1)
        if far < fewest and far < max(len(name), len(other)):
            best, fewest = other, far
    return best


def parts_of(name: str) -> List[str]:
    """The words that a name is made of, in any order."""
    return sorted(word.lower() for word in re.findall(r"[A-Z]+[a-z0-9]*|[a-z0-9]+", name.rpartition("::")[2]))


def meant(name: str, names: Iterable[str]) -> str:
    """Which name was probably meant; nothing where none was."""
    other = nearest(name, names)
    return f"did you mean `{other}`?" if other else ""


def and_meant(name: str, names: Iterable[str]) -> str:
    """Which name was probably meant, as the end of a sentence; nothing where none was."""
    other = meant(name, names)
    return f"; {other}" if other else ""


def unknown(what: str, name: str, names: Iterable[str], where: str = "") -> Help:
    """That there is nothing of a name, and which name was probably meant."""
    return Help(f"no {what} `{name}`{where}", meant(name, names))


def one_of(words: Iterable[str]) -> str:
    """Words as `a`, `b` or `c`."""
    *others, last = [f"`{word}`" for word in words]
    return f"{', '.join(others)} or {last}" if others else last
