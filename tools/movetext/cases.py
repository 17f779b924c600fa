"""What a test file says: cases, each with records and the report that is wanted of them. docs/WORKBENCH.md has the language."""

import re
from dataclasses import dataclass, field
from typing import List, NamedTuple, NoReturn, Tuple, Union

from . import scanner, syntax
from .errors import Source, TextError, TextErrors, unknown
from .scanner import Words
from .stream_parser import FORMS, StreamParser

# What a report's lines begin with; two dots stand for any number of lines.
REPORT_WORDS = "published", "refused", "rejected", "returned", "aborted", "exhausted", "at", "count", "end", "json"
ANY_LINES = ".."
FILE_WORDS = "records", "publish", "load"
# What is wanted, where it stands outside of comments, quotes and backquotes, up to a comment or the end of the line.
PART = re.compile(r'//[^\n]*|/\*[^*]*\*+(?:[^/*][^*]*\*+)*/|"[^"]*"|`[^`\n]*`|=>((?:"[^"\n]*"|(?!//|/\*)[^\n"])*)')

Record = Union[syntax.Publish, syntax.Run, syntax.Ask, syntax.Raw]


class Wanted(NamedTuple):
    """A line that is wanted, and where it stands."""

    text: str
    at: int


class Included(NamedTuple):
    """The records of another file, or those alone that publish."""

    name: str
    only_publishes: bool
    at: int


class Loaded(NamedTuple):
    """A saved ledger with which a case begins."""

    name: str
    at: int


@dataclass
class Step:
    """A record, or those of a file, or a ledger that is loaded; where it begins and ends in the text, and what is wanted of it."""

    what: Union[Record, Included, Loaded]
    at: int
    end: int
    wanted: List[Wanted] = field(default_factory=list)


@dataclass
class Case:
    """A case: its title, whether it goes on with the ledger that the case before leaves, and its steps."""

    title: str
    at: int
    goes_on: bool
    steps: List[Step] = field(default_factory=list)


@dataclass
class Cases:
    """The cases of a file, and the steps with which each begins that has a ledger of its own."""

    first: List[Step] = field(default_factory=list)
    cases: List[Case] = field(default_factory=list)

    def steps(self) -> List[Step]:
        return self.first + [step for case in self.cases for step in case.steps]


class CaseParser(StreamParser):
    """A test file, without what is wanted."""

    def cases(self) -> Cases:
        found = Cases()
        self.skip_ends()
        while self.kind != scanner.END:
            if self.is_word("case") or self.is_word("then"):
                found.cases.append(self.case(found))
            else:
                self.step(found)
            self.expect_end()
        if not found.cases:
            self.fail('a test file has a case: `case "what it shows"`')
        return found

    def case(self, found: Cases) -> Case:
        """The head of a case."""
        start, goes_on = self.start, self.is_word("then")
        if goes_on and not found.cases:
            self.fail("`then` goes on from a case, and there is none before it")
        self.at += 1
        title = self.quoted('what the case shows, as `"who mints"`')
        if any(one.title == title for one in found.cases):
            self.fail(f'a second case "{title}"', start)
        return Case(title, start, goes_on)

    def quoted(self, what: str) -> str:
        """A text in quotes."""
        if self.kind != scanner.FILE:
            self.wanted(what)
        self.at += 1
        return self.texts[self.at - 1][1:-1]

    def step(self, found: Cases) -> None:
        """A record, or a file's."""
        start, steps = self.start, found.cases[-1].steps if found.cases else found.first
        what = self.of_file(found, start) if self.is_of_file() else self.own_record()
        steps.append(Step(what, start, self.starts[self.at - 1] + len(self.texts[self.at - 1])))

    def is_of_file(self) -> bool:
        return self.kind == scanner.NAME and self.text in FILE_WORDS and self.kinds[self.at + 1] == scanner.FILE

    def of_file(self, found: Cases, start: int) -> Union[Included, Loaded]:
        """What another file has."""
        word = self.text
        self.at += 1
        name = self.quoted("a file's name")
        if word != "load":
            return Included(name, word == "publish", start)
        case = found.cases[-1] if found.cases else None
        if case is not None and (case.goes_on or case.steps or found.first) or case is None and found.first:
            self.fail("a ledger is loaded where a case begins, before any record", start)
        return Loaded(name, start)

    def own_record(self) -> Record:
        read_record = self.records.get(self.text) if self.kind == scanner.NAME else None
        if read_record is None:
            self.wanted_one_of(["case", "then", "records", "load", *(word for word in self.records if word != "bytes")])
        self.form = FORMS[self.text]
        if self.is_word("bytes"):
            self.fail("a test has records, and no bytes outside of them: `record 9 x\"01\"` is a record of any kind")
        return read_record()


def separated(text: str) -> Tuple[str, List[Wanted]]:
    """A text with blanks in the place of what is wanted, and the lines that are."""
    parts: List[str] = []
    lines: List[Wanted] = []
    end = 0
    for found in PART.finditer(text):
        if found[1] is None:
            continue
        parts += [text[end:found.start()], " " * len(found.group())]
        end = found.end()
        at = found.start(1)
        for one in found[1].split(";"):
            lines.append(Wanted(" ".join(one.split()), at + len(one) - len(one.lstrip())))
            at += len(one) + 1
    return "".join([*parts, text[end:]]), lines


def read_cases(source: Source) -> Tuple[Cases, str]:
    """What a test file says, and its text without what is wanted. TextErrors where it has an error."""
    text, lines = separated(source.text)
    parser = CaseParser(Words(text))
    try:
        found = parser.cases()
        for line in lines:
            attach(found, line)
    except TextError as error:
        raise TextErrors(source, [*parser.errors, error]) from None
    if parser.errors:
        raise TextErrors(source, parser.errors)
    return found, text


def attach(found: Cases, line: Wanted) -> None:
    """Gives a line that is wanted to the record before it. TextError where there is none, or no report has such a line."""
    def fail(message: str) -> NoReturn:
        raise TextError(line.at, message)

    steps = [step for step in found.steps() if step.at < line.at]
    heads = [case.at for case in found.cases if case.at < line.at]
    if not steps or isinstance(steps[-1].what, Loaded) or heads and heads[-1] > steps[-1].at:
        fail("`=>` stands after a record, with the report that is wanted")
    if line.at < steps[-1].end:
        fail("`=>` stands after the whole record, with the report that is wanted")
    is_file = re.fullmatch('"[^"]+"', line.text) is not None
    if is_file and not isinstance(steps[-1].what, Included):
        fail('a report in a file is wanted for the records of a file, as `records "my.text" => "my.report"`')
    if not is_file and line.text != ANY_LINES and line.text.split(" ")[0] not in REPORT_WORDS:
        told = unknown("line of a report begins with", line.text.split(" ")[0], REPORT_WORDS)
        raise TextError(line.at, told.fact, told.help)
    steps[-1].wanted.append(line)
