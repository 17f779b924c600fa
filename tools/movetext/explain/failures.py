"""What is said of a refusal."""

from typing import Callable, Dict, List, NamedTuple, Optional, Sequence, Tuple

# The phases, as docs/VERIFIER.md names them.
PHASES = {
    1: "record", 2: "decode", 3: "bounds", 4: "definitions", 5: "signatures", 6: "abilities", 7: "control flow",
    8: "stack and types", 9: "certificate bytes", 10: "locals", 11: "borrows", 12: "acquires", 13: "link", 14: "full",
}


# Why a run isn't begun, and why bytes aren't loaded, as docs/FORMATS.md has the reasons.
REASONS = {
    "rejected": {1: "record", 2: "budget", 3: "module", 4: "function", 5: "entry", 6: "arguments", 7: "runs"},
    "load refused": {1: "beginning", 2: "modules", 3: "link", 4: "values", 5: "tallies"},
}


class Check(NamedTuple):
    """A part of a phase, which raises Fails at the first failure that it finds. `function` is the definition that it is about, so
    that other functions are tried after a failure; None where it is about what functions stand on."""

    run: Callable[[], object]
    function: Optional[int] = None


class Place(NamedTuple):
    """A place in bytes, in words and by its parts as far as it has them: the table and the index of an entry, a function
    definition with its name, a block and an instruction of it, and the offset from the first byte of the file."""

    text: str
    offset: Optional[int] = None
    kind: Optional[int] = None
    entry: Optional[int] = None
    function: Optional[int] = None
    function_name: Optional[str] = None
    block: Optional[int] = None
    instruction: Optional[int] = None
    code: Optional[str] = None

    def behind(self, words: str) -> "Place":
        """The place, with these words before its own."""
        return self._replace(text=words + self.text)

    def and_text(self, words: str) -> "Place":
        """The place, with these words after its own."""
        return self._replace(text=self.text + words)


class Spot(NamedTuple):
    """A word of a module's text, by what it is: of a function `function`, `local`, `local type`, `result`, `acquires`, `instruction`
    or `operand`, of a struct `struct`, `field` or `field type`; by the definition, and by the place in it. Of an import it is a
    `struct handle` or a `function handle`, and a `there struct` or a `there function` of the module that is imported."""

    kind: str
    definition: int
    place: int = 0


class Advice(NamedTuple):
    """A failure in the words of an author: the fact, what to write, the word that it is about, and second places with what is said
    of each."""

    fact: str
    help: str
    spot: Spot
    notes: Tuple[Tuple[Spot, str], ...] = ()


class Failure(NamedTuple):
    """The first failure of a phase: the place, the rule, and what was found that breaks it. `state` are lines with what holds
    at the place. The phase is None where the search for a certificate gives up, and where `said` has the words of a report for
    what is no refusal. `source` is the line and the column in the text of which the bytes were made, where these are known."""

    phase: Optional[int]
    place: Place
    rule: str
    found: str
    state: Tuple[str, ...] = ()
    source: Optional["SourcePlace"] = None
    said: str = ""
    advice: Optional[Advice] = None

    @property
    def verdict(self) -> str:
        """What the program prints of it."""
        return self.said or ("too complex" if self.phase is None else f"refused {self.phase}")

    @property
    def name(self) -> Optional[str]:
        """The name of the phase, or of the reason why a run isn't begun or bytes aren't loaded."""
        word, _, number = self.said.rpartition(" ")
        if word in REASONS and number.isdigit():
            return REASONS[word][int(number)]
        return PHASES.get(self.phase or 0)

    @property
    def named_verdict(self) -> str:
        """The verdict with the name of its phase or its reason."""
        return self.verdict + (f" ({self.name})" if self.name else "")

    @property
    def sentence(self) -> str:
        """The rule and what was found, in one sentence."""
        return f"{self.rule}, but {self.found}" if self.rule else self.found

    def lines(self) -> List[str]:
        """The failure as lines of text."""
        where = self.place.text + (f", {self.source}" if self.source else "")
        return [self.named_verdict, where, self.sentence, *self.state]

    def fields(self) -> Dict[str, object]:
        """The failure by field, for JSON. A field that the place hasn't is null."""
        place = self.place
        return {
            "verdict": self.verdict, "phase": self.phase, "name": self.name, "rule": self.rule or None,
            "found": self.found, "sentence": self.sentence, "place": place.text, "function": place.function,
            "function_name": place.function_name, "block": place.block, "instruction": place.instruction, "code": place.code,
            "offset": place.offset, "source": self.source and self.source.fields(), "state": list(self.state),
        }


class SourcePlace(NamedTuple):
    """A place in a text: the file's name, and the line and the column, both counted from 1."""

    file: str
    line: int
    column: int

    def __str__(self) -> str:
        return f"{self.file}:{self.line}:{self.column}"

    def fields(self) -> Dict[str, object]:
        """The place by field, for JSON."""
        return self._asdict()


class Fails(Exception):
    """Raised where a rule fails; has the failure."""

    def __init__(self, failure: Failure):
        super().__init__(failure.sentence)
        self.failure = failure


def a_type(name: str) -> str:
    """A type's name with its article."""
    article = "an" if name.lstrip("&")[:1].lower() in "aeio" else "a"
    return f"{article} `{name}`"


def listed(names: Sequence[str], last: str = "and") -> str:
    """Names in backquotes as `a`, `b` and `c`."""
    *others, end = [f"`{name}`" for name in names]
    return f"{', '.join(others)} {last} {end}" if others else end


def counted(count: int, one: str, many: str = "") -> str:
    """A number of things in words."""
    if count == 1:
        return f"1 {one}"
    return f"{count or 'no'} {many or one + 's'}"
