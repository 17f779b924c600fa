"""Reports, and what their lines say."""

from dataclasses import dataclass
from typing import Callable, Dict, List, Sequence, Union, overload


@dataclass(frozen=True)
class Published:
    """So many modules were published."""

    record: int
    modules: int


@dataclass(frozen=True)
class Refusal:
    """The record or its bundle fails this phase; nothing changed."""

    record: int
    phase: int


@dataclass(frozen=True)
class Rejected:
    """The run was not begun, for this reason; nothing changed."""

    record: int
    reason: int


@dataclass(frozen=True)
class Returned:
    """The run returned after so many steps."""

    record: int
    steps: int


@dataclass(frozen=True)
class Aborted:
    """The run was given up after so many steps: by an abort with this code, by a number that doesn't fit (`arith`), or since
    something was stored already (`exists`) or wasn't (`missing`)."""

    record: int
    kind: str
    code: int
    steps: int


@dataclass(frozen=True)
class Exhausted:
    """The run used up its `steps` or its `frames` after so many steps."""

    record: int
    what: str
    steps: int


@dataclass(frozen=True)
class Stored:
    """The value that is stored at an address: its fields in braces. `record` is 0 where no record asked."""

    record: int
    address: str
    struct: str
    value: str


@dataclass(frozen=True)
class Count:
    """How many of a struct's values are stored, and how many were packed and unpacked. `record` is 0 where no record asked."""

    record: int
    struct: str
    stored: int
    packed: int
    unpacked: int


@dataclass(frozen=True)
class End:
    """The last line of a show or an audit: how many there were before it."""

    record: int
    count: int


@dataclass(frozen=True)
class Json:
    """A whole show or audit, as JSON."""

    record: int
    text: str


@dataclass(frozen=True)
class Unknown:
    """A line of another form: one that was cut off, or that a later library writes."""

    record: int
    text: str


Line = Union[Published, Refusal, Rejected, Returned, Aborted, Exhausted, Stored, Count, End, Json, Unknown]


def number(word: str) -> int:
    """A number as lines have it. ValueError where the word is none."""
    if not (word.isascii() and word.isdigit()):
        raise ValueError(word)
    return int(word)


# How the words behind a record's number are read, by the first of them and by how many follow it.
FORMS: Dict[str, Callable[[int, List[str]], Line]] = {
    "published 1": lambda record, words: Published(record, number(words[0])),
    "refused 1": lambda record, words: Refusal(record, number(words[0])),
    "rejected 1": lambda record, words: Rejected(record, number(words[0])),
    "returned 1": lambda record, words: Returned(record, number(words[0])),
    "aborted 3": lambda record, words: Aborted(record, words[0], number(words[1]), number(words[2])),
    "exhausted 2": lambda record, words: Exhausted(record, words[0], number(words[1])),
    "at 3": lambda record, words: Stored(record, words[0], words[1], words[2]),
    "count 7": lambda record, words: Count(record, words[0], number(words[2]), number(words[4]), number(words[6])),
    "end 1": lambda record, words: End(record, number(words[0])),
    "json 1": lambda record, words: Json(record, words[0]),
}


def read_line(line: str) -> Line:
    """What a line says, without its end."""
    first, _, rest = line.partition(" ")
    try:
        return read_words(number(first), rest)
    except ValueError:
        return Unknown(0, line)


def read_words(record: int, rest: str) -> Line:
    """What a line says behind its record's number."""
    word, *words = rest.split(" ")
    form = FORMS.get(f"{word} {len(words)}")
    try:
        return form(record, words) if form else Unknown(record, rest)
    except ValueError:
        return Unknown(record, rest)


class Report(Sequence[Line]):
    """The lines of answered records, in order. `text` is what `moveledger apply` prints."""

    def __init__(self, text: str) -> None:
        self.text = text
        self.lines: List[Line] = [read_line(line) for line in text.splitlines()]

    @overload
    def __getitem__(self, at: int) -> Line: ...

    @overload
    def __getitem__(self, at: slice) -> Sequence[Line]: ...

    def __getitem__(self, at: Union[int, slice]) -> Union[Line, Sequence[Line]]:
        return self.lines[at]

    def __len__(self) -> int:
        return len(self.lines)

    def __str__(self) -> str:
        return self.text

    def __repr__(self) -> str:
        return f"Report({self.lines!r})"
