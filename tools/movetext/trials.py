"""Does what the cases of a test file say, each on a ledger of its own or on that of the case before, and compares the report with the
one that is wanted, and with the program's where there is one."""

import os
import re
import subprocess
import tempfile
from typing import Dict, Iterator, List, NamedTuple, Optional, Tuple

from . import model, syntax
from .cases import ANY_LINES, Case, Cases, Included, Loaded, Record, Step, Wanted, read_cases
from .commandline import resource
from .coverage import Counts
from .errors import Source, TextError, TextErrors
from .explain.answers import Answer, answers
from .explain.failures import Failure
from .explain.forgiving import fitting_bytes
from .explain.ledger import Ledger
from .explain.verdict import explain_module
from .kinds import is_text
from .records import read_stream
from .source_names import ModuleNames
from .stream_printer import run_line
from .streaming import TextAssembler, read_source
from .writer import write_certificate

# An address as one writes it, which a report has in all its digits.
SHORT_ADDRESS = re.compile(r"@?\b0x([0-9a-fA-F]{1,32})\b")
# An end of a line that is wanted: the line of a text at which something was refused, or a run given up.
AT_LINE = re.compile(r"((?:refused|rejected|aborted|exhausted)\b.*?) at (?:(\S+):)?([0-9]{1,9})")
SUCCEEDED = "published", "returned"
FAILED = "refused", "rejected", "aborted", "exhausted"
# So many lines of why something came are told, and so many letters of one.
MOST_LINES, MOST_LETTERS = 20, 400


class NotAsked(Exception):
    """Why the program that is given answers nothing."""


class FittingProver:
    """Makes the certificate of each module that has one, and for one that is refused a certificate that leaves the refusal to the phase
    that finds what is wrong."""

    def __init__(self) -> None:
        self.made: Dict[bytes, bytes] = {}

    def certificate(self, module: bytes, names: Optional[ModuleNames] = None) -> bytes:
        """A module's certificate."""
        if module not in self.made:
            verdict = explain_module(module, source=names)
            self.made[module] = fitting_bytes(module) if verdict.least is None else write_certificate(verdict.least)
        return self.made[module]


class Problem(NamedTuple):
    """What isn't as wanted: where in the test file, what, and lines that say more."""

    at: int
    message: str
    more: List[str]


class Done(NamedTuple):
    """A step that was done: its records' bytes and answers, in their order."""

    step: Step
    records: List[bytes]
    found: List[Answer]


class Run(NamedTuple):
    """A run of a case: where it stands, its record in words, the line of its report, and its steps."""

    at: int
    told: str
    words: str


class Result(NamedTuple):
    """How a case came out."""

    case: Optional[Case]
    problems: List[Problem]
    runs: List[Run]
    steps: int


class Program:
    """The program that is compared with, or none."""

    def __init__(self, path: Optional[str]):
        self.path = path

    def answers(self, data: bytes, loaded: Optional[bytes]) -> Dict[int, List[str]]:
        """The lines of the report on a stream, without their numbers, by record. NotAsked where it can't be run."""
        with tempfile.TemporaryDirectory() as folder:
            files = [os.path.join(folder, name) for name in ("stream", "ledger")]
            for name, one in zip(files, (data, loaded or b"")):
                with open(name, "wb") as file:
                    file.write(one)
            words = [] if loaded is None else ["--load", files[1]]
            try:
                ended = subprocess.run([str(self.path), "apply", *words, files[0]], stdin=subprocess.DEVNULL, stdout=subprocess.PIPE,
                                       stderr=subprocess.PIPE, preexec_fn=without_limit)
            except (OSError, ValueError) as error:
                raise NotAsked(f"`{self.path}` can't be run: {getattr(error, 'strerror', None) or error}") from None
        found: Dict[int, List[str]] = {}
        for line in ended.stdout.decode("utf-8", "replace").splitlines():
            number, _, words_of = line.partition(" ")
            found.setdefault(int(number) if number.isdigit() else 0, []).append(words_of if number.isdigit() else line)
        if ended.returncode and not found:
            said = ended.stderr.decode("utf-8", "replace").strip().split("\n")[0]
            raise NotAsked(f"`{self.path} apply` ended with status {ended.returncode}: {said[:MOST_LETTERS]}")
        return found


def without_limit() -> None:
    """Lets a program have the memory that this process had before it limited itself."""
    if resource is not None:
        _, hard = resource.getrlimit(resource.RLIMIT_AS)
        resource.setrlimit(resource.RLIMIT_AS, (hard, hard))


class Trial:
    """The cases of one file. TextErrors where it has an error."""

    def __init__(self, name: str, data: bytes, counts: Counts, program: Program):
        self.source = read_source(name, data)
        self.folder = os.path.dirname(name)
        self.counts, self.program = counts, program
        self.cases, text = read_cases(self.source)
        self.maker = TextAssembler(Source(name, text), self.folder, FittingProver())
        self.files: Dict[str, bytes] = {}
        self.made = {id(step): self.records_of(step) for step in self.cases.steps()}
        if self.maker.errors or self.maker.others:
            raise TextErrors(self.source, self.maker.errors, self.maker.others)

    def records_of(self, step: Step) -> List[bytes]:
        """The bytes of a step's records."""
        what = step.what
        if isinstance(what, Loaded):
            self.read(what.name, what.at)
            return []
        if isinstance(what, Included):
            if step.wanted and step.wanted[0].text.startswith('"'):
                self.read(step.wanted[0].text[1:-1], step.wanted[0].at)
            return self.included(what)
        return [self.maker.record(what)]

    def read(self, name: str, at: int) -> None:
        """Reads a file that is needed later."""
        self.files[name] = self.maker.file(syntax.FileName(name, at))

    def included(self, what: Included) -> List[bytes]:
        """The records of a file, which is a text or a stream."""
        data = self.maker.file(syntax.FileName(what.name, what.at))
        if is_text(data):
            path = os.path.join(self.folder, what.name)
            inner = TextAssembler(read_source(path, data), os.path.dirname(path), self.maker.prover)
            if not isinstance(inner.parsed(), syntax.Stream):
                self.maker.fail(what.at, f'`{what.name}` is one module: `publish by 0x1 {{ module "{what.name}" }}` publishes it')
                return []
            data = inner.bytes()
            self.maker.names.modules.update(inner.names.modules)
        reading = read_stream(data)
        if reading.faults:
            self.maker.fail(what.at, f"`{what.name}` has no records to its end")
        ends = [place.at for place in reading.places[1:]] + [reading.rest_at]
        records = [data[place.at:end] for place, end in zip(reading.places, ends)]
        return [record for record in records if record[0] == model.PUBLISH or not what.only_publishes]

    def results(self, wanted: str) -> Iterator[Result]:
        """How the cases come out whose titles have these words, and first what all begin with, where that isn't as wanted. A case that
        others go on from is done before them."""
        begun = self.begun()
        first = self.done(begun, self.cases.first)
        problems = self.problems(first)
        if problems:
            yield Result(None, problems, [], 0)
        for chain in chains(self.cases):
            last = max((at for at, case in enumerate(chain) if wanted.lower() in case.title.lower()), default=-1)
            if last >= 0:
                yield from self.chain(begun, first, chain[:last + 1], wanted)

    def begun(self) -> Ledger:
        """A ledger as each case begins with that has one of its own."""
        ledger = Ledger(self.maker.names)
        ledger.watch = self.counts
        return ledger

    def after_first(self) -> Ledger:
        """A ledger as a case finds it that has one of its own."""
        ledger = self.begun()
        self.done(ledger, self.cases.first)
        return ledger

    def chain(self, begun: Ledger, first: List[Done], chain: List[Case], wanted: str) -> Iterator[Result]:
        """A case and those that go on from it."""
        ledger, loaded = forked(begun), self.loaded(self.cases.first) or self.loaded(chain[0].steps)
        before, parts = list(first), []
        for case in chain:
            steps = self.counts.steps
            done = self.done(ledger, case.steps)
            parts.append((case, done, self.problems(done), self.counts.steps - steps))
            before += done
        differences = self.differences(before, loaded)
        for case, done, problems, steps in parts:
            if wanted.lower() in case.title.lower():
                own = [one for at, one in differences if any(at is step.step for step in done)]
                yield Result(case, problems + own, list(self.runs(done)), steps)

    def loaded(self, steps: List[Step]) -> Optional[bytes]:
        """The saved ledger that steps begin with, if one does."""
        for step in steps[:1]:
            if isinstance(step.what, Loaded):
                return self.files[step.what.name]
        return None

    def done(self, ledger: Ledger, steps: List[Step]) -> List[Done]:
        """Does steps, one after the other."""
        found = []
        for step in steps:
            if isinstance(step.what, Loaded):
                found.append(Done(step, [], self.load(ledger, step)))
                continue
            records = self.made[id(step)]
            found.append(Done(step, records, [one for record in records for one in answers(record, ledger)]))
            for owner in ledger.modules.values():
                self.counts.note(owner)
        return found

    def load(self, ledger: Ledger, step: Step) -> List[Answer]:
        """Loads a saved ledger. An answer where it is refused."""
        refusal = ledger.load(model.known(self.loaded([step])))
        return [Answer(0, "load", [refusal.failure.verdict], refusal.failure)] if refusal else []

    def problems(self, done: List[Done]) -> List[Problem]:
        """What isn't as wanted of these steps."""
        return [problem for one in done for problem in self.problems_of(one)]

    def problems_of(self, done: Done) -> Iterator[Problem]:
        """What isn't as wanted of a step."""
        step, found = done.step, done.found
        if step.wanted and step.wanted[0].text.startswith('"'):
            yield from self.other_report(step.wanted[0], done)
            return
        if not step.wanted:
            for one in found:
                if one.words[0].split(" ")[0] in FAILED or one.kind == "load":
                    yield Problem(step.at, f"nothing else is wanted of it, so it has to succeed, but `{one.words[0]}` came", why(one))
            return
        lines = [(line, one) for one in found for line in one.words]
        if not are_wanted([one.text for one in step.wanted], lines):
            yield difference(step.wanted, lines)

    def other_report(self, wanted: Wanted, done: Done) -> Iterator[Problem]:
        """Where the report of a file's records isn't that of another file."""
        name = wanted.text[1:-1]
        lines = self.files[name].decode("utf-8", "replace").splitlines()
        ours = [(f"{number} {line}", one) for number, one in enumerate(done.found, 1) for line in one.words]
        for at in range(max(len(lines), len(ours))):
            line = lines[at] if at < len(lines) else "nothing more"
            other, one = ours[at] if at < len(ours) else ("nothing more", None)
            if line != other:
                yield Problem(wanted.at, f"`{name}` has `{line}` in line {at + 1}, but `{other}` came", why(one) if one else [])
                return

    def differences(self, done: List[Done], loaded: Optional[bytes]) -> List[Tuple[Step, Problem]]:
        """Where the program answers something else."""
        if self.program.path is None:
            return []
        theirs = self.program.answers(b"".join(record for one in done for record in one.records), loaded)
        found: List[Tuple[Step, Problem]] = []
        number = 0
        for one in done:
            if isinstance(one.step.what, Loaded) and (one.found or 0 in theirs):
                ours = one.found[0].words if one.found else ["loaded"]
                if theirs.get(0) != ours:
                    found.append((one.step, program_differs(one.step, theirs.get(0), ours)))
                return found
            for answer in one.found:
                number += 1
                if theirs.get(number) != answer.words:
                    found.append((one.step, program_differs(one.step, theirs.get(number), answer.words)))
        return found

    def runs(self, done: List[Done]) -> Iterator[Run]:
        """The runs of steps."""
        for one in done:
            for record, answer in zip(one.records, one.found):
                if answer.kind == "run":
                    yield Run(one.step.at, run_text(record), answer.words[0])


def run_text(record: bytes) -> str:
    """A run in words."""
    told = read_stream(record).stream.records[0]
    return run_line(told) if isinstance(told, model.Run) else "run"


def forked(ledger: Ledger) -> Ledger:
    """A ledger that begins as another one stands, and changes for itself."""
    made = Ledger(ledger.names)
    made.modules, made.stored = dict(ledger.modules), dict(ledger.stored)
    made.packed, made.unpacked, made.runs, made.watch = ledger.packed.copy(), ledger.unpacked.copy(), ledger.runs, ledger.watch
    return made


def chains(cases: Cases) -> List[List[Case]]:
    """Each case with a ledger of its own, with those that go on from it."""
    found: List[List[Case]] = []
    for case in cases.cases:
        if case.goes_on:
            found[-1].append(case)
        else:
            found.append([case])
    return found


def full(text: str) -> str:
    """A line that is wanted as a report has it: with all digits of addresses, and no blanks in values."""
    text = SHORT_ADDRESS.sub(lambda found: found[1].lower().rjust(32, "0"), text)
    return re.sub(r"\s*([{},])\s*", r"\1", text).replace("{", " {", 1) if "{" in text and not text.startswith("json") else text


def is_wanted(wanted: str, line: str, failure: Optional[Failure]) -> bool:
    """Whether a line of a report is a wanted one, which may leave out the last words."""
    placed = AT_LINE.fullmatch(wanted)
    if placed:
        source = failure.source if failure else None
        if source is None or source.line != int(placed[3]) or placed[2] and not is_file(placed[2], source.file):
            return False
        wanted = placed[1]
    words = full(wanted).split()
    return line.split()[:len(words)] == words


def is_file(wanted: str, name: str) -> bool:
    """Whether a file is a wanted one, of which the folders may be left out."""
    return name == wanted or name.endswith("/" + wanted)


def are_wanted(wanted: List[str], lines: List[Tuple[str, Answer]]) -> bool:
    """Whether a report's lines are those that are wanted, with any in the place of two dots."""
    can_end = [True] + [False] * len(lines)
    for one in wanted:
        if one == ANY_LINES:
            first = next((at for at, it in enumerate(can_end) if it), len(lines) + 1)
            can_end = [at >= first for at in range(len(lines) + 1)]
        else:
            can_end = [False] + [can_end[at] and is_wanted(one, line, answer.failure) for at, (line, answer) in enumerate(lines)]
    return can_end[-1]


def difference(wanted: List[Wanted], lines: List[Tuple[str, Answer]]) -> Problem:
    """That other lines came than those that are wanted: of one line alone in the message, otherwise below it."""
    at, last = wanted[0].at, lines[-1][1] if lines else None
    reasons = why(last) if last else []
    if len(wanted) == len(lines) == 1:
        return Problem(at, f"wanted `{wanted[0].text}`, but `{lines[0][0]}` came{where(lines[0][1].failure, wanted[0].text)}", reasons)
    more = [f"wanted  {one.text}" if not place else f"        {one.text}" for place, one in enumerate(wanted)]
    came = [line for line, _ in lines] or ["nothing"]
    more += [f"came    {line}" if not place else f"        {line}" for place, line in enumerate(came[:MOST_LINES])]
    return Problem(at, "the report is another one", more + reasons)


def where(failure: Optional[Failure], wanted: str) -> str:
    """Where it came, if a place is wanted."""
    if not AT_LINE.fullmatch(wanted):
        return ""
    return f" at {failure.source.file}:{failure.source.line}" if failure and failure.source else ", and its line isn't known"


def why(answer: Answer) -> List[str]:
    """Why something was refused, or a run given up."""
    if answer.failure is None:
        return []
    front = [] if answer.module is None or answer.modules < 2 else [f"module {answer.module + 1} of {answer.modules} of the bundle"]
    lines = [*front, *answer.failure.lines()[1:]]
    return [line if len(line) <= MOST_LETTERS else line[:MOST_LETTERS] + ".." for line in lines[:MOST_LINES]]


def program_differs(step: Step, theirs: Optional[List[str]], ours: List[str]) -> Problem:
    """That the program answers something else."""
    told = "`, `".join(theirs) if theirs else ""
    return Problem(step.at, f"the program answers {f'`{told}`' if told else 'nothing'}, and movetest `{'`, `'.join(ours)}`: the program's "
                   "verdict counts, and one of the two has a bug", [])


def told(source: Source, problem: Problem) -> List[str]:
    """What isn't as wanted, with its line of the test file."""
    return TextError(problem.at, problem.message, state=problem.more).lines(source)


__all__ = ["NotAsked", "Problem", "Program", "Record", "Result", "Run", "Trial", "told"]
