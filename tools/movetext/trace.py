"""`movedis --trace`: the runs of a stream step by step, over the machine of `--explain`."""

import json
from bisect import bisect_right
from typing import Any, Dict, List, NamedTuple, Optional, Set, Tuple

from . import model
from .explain import certificate
from .explain.answers import Answer, answer, shape_failure
from .explain.borrows import Borrows
from .explain.failures import Place, counted
from .explain.ledger import Ledger, said_value
from .explain.link import Published, name_text
from .explain.machine import Ending, Frame, Machine, Value, Watch, short
from .explain.runs import place_of
from .explain.stack import stacks_of
from .explain.subject import Subject
from .explain.telling import NoRecord, fields_of, load_refused, placed, told
from .held import Held, function_text, holdings
from .model import Token
from .reader import read_module
from .records import StreamReading, read_stream
from .source_names import NameTable
from .stream_printer import run_line
from .writing import Write

# So many steps are shown, unless another number is asked for.
MOST_STEPS = 1_000
# So many letters of a value, so many edges of a step and so many changes of what is stored are shown in lines.
MOST_LETTERS, MOST_EDGES, MOST_CHANGES = 200, 16, 12


class Spot(NamedTuple):
    """Where steps are shown: in the functions of a name, maybe with their module's, and there at a line of the text or at an
    instruction, where one is given."""

    module: str
    function: str
    line: Optional[int] = None
    instruction: Optional[int] = None

    def is_function(self, subject: Subject, function: int) -> bool:
        """Whether a function of a module is of the name, or of the number behind `#`."""
        where = subject.names.module_text(subject.module.own)
        named = subject.module.function_name(subject.module.functions[function].handle)
        is_it = self.function in (named, f"#{function}")
        return is_it and (not self.module or where == self.module or where.endswith(f"::{self.module}"))

    def instructions(self, subject: Subject, function: int) -> Set[int]:
        """The instructions of a function at which steps are shown."""
        code = subject.module.functions[function].code
        if not self.is_function(subject, function):
            return set()
        if self.instruction is not None:
            return {self.instruction} if self.instruction < len(code) else set()
        if self.line is None:
            return set(range(len(code)))
        names = subject.source.of_function(function) if subject.source else None
        return {at for at, place in enumerate(names.lines[:len(code)] if names else []) if place[0] == self.line}

    @property
    def text(self) -> str:
        """The function's name as it was given."""
        return f"{self.module}::{self.function}" if self.module else self.function


class Asked(NamedTuple):
    """Which steps are shown: of which record, up to which step of a run, where, and how many at most."""

    record: Optional[int] = None
    until: Optional[int] = None
    spot: Optional[Spot] = None
    most: int = MOST_STEPS


class Step(NamedTuple):
    """What holds before an instruction: the number of the step, how many frames there are, the function, the instruction's place,
    operands, locals and edges."""

    number: int
    frames: int
    function: str
    place: Place
    source: Any
    stack: List[Held]
    locals: List[Held]
    edges: List[str]

    def lines(self) -> List[str]:
        """The step as lines of text."""
        frame = f"  frame {self.frames}" if self.frames > 1 else ""
        source = f"  ({self.source})" if self.source else ""
        lines = [f"  step {self.number}{frame}  {self.function}  {self.place.instruction}  {self.place.code}{source}"]
        if self.stack:
            lines.append("    stack   " + ", ".join(shortened(one.text) for one in self.stack))
        if self.locals:
            lines.append("    locals  " + ", ".join(f"{one.name}: {shortened(one.text)}" for one in self.locals))
        shown = self.edges[:MOST_EDGES]
        more = len(self.edges) - len(shown)
        lines += [f"    {'edges   ' if not at else '        '}{one}" for at, one in enumerate(shown)]
        return lines + ([f"            and {more} more"] if more > 0 else [])

    def fields(self, record: int) -> Dict[str, Any]:
        """The step by field, for JSON."""
        return {
            "record": record, "step": self.number, "frames": self.frames, "function": self.function,
            "instruction": self.place.instruction, "code": self.place.code, "offset": self.place.offset,
            "source": self.source and self.source.fields(), "stack": [one.fields() for one in self.stack],
            "locals": [one.fields() for one in self.locals], "edges": self.edges,
        }


def shortened(text: str) -> str:
    return text if len(text) <= MOST_LETTERS else text[:MOST_LETTERS] + ".."


class EdgesBefore:
    """The edges before instructions, as their modules' certificates state them of blocks, carried on from one instruction of a block to
    the next that is asked for."""

    def __init__(self) -> None:
        self.domains: Dict[Tuple[Published, int], Borrows] = {}
        self.stated: Dict[Published, model.Certificate] = {}
        self.place: Optional[Tuple[Published, int, int]] = None
        self.at = 0
        self.edges: Any = None

    def before(self, owner: Published, function: int, at: int) -> List[str]:
        """The edges before an instruction."""
        graph = owner.subject.graph(function)
        block = bisect_right([one.first for one in graph], at) - 1
        borrows = self.domain(owner, function)
        if self.place != (owner, function, block) or self.at > at:
            self.place, self.at = (owner, function, block), graph[block].first
            self.edges = borrows.stated(model.known(self.certificate(owner).functions[function][block]))
        while self.at < at:
            borrows.step(self.edges, self.at)
            self.at += 1
        return [borrows.edge_text(edge, borrows.stacks[at]) for edge in sorted(self.edges)]

    def domain(self, owner: Published, function: int) -> Borrows:
        if (owner, function) not in self.domains:
            self.domains[owner, function] = Borrows(owner.subject, function, stacks_of(owner.subject, function))
        return self.domains[owner, function]

    def certificate(self, owner: Published) -> model.Certificate:
        if owner not in self.stated:
            self.stated[owner] = certificate.read(owner.subject, owner.certificate)
        return self.stated[owner]


class Tracer(Watch):
    """Shows the steps that are asked for, and how each run ends."""

    def __init__(self, ledger: Ledger, asked: Asked, write: Write, is_json: bool):
        self.ledger, self.asked, self.write, self.is_json = ledger, asked, write, is_json
        self.edges = EdgesBefore()
        self.wanted: Dict[Tuple[Published, int], Set[int]] = {}
        self.shown = 0
        self.record = 0
        self.forget()

    def forget(self) -> None:
        """Begins a record."""
        self.steps = self.shown_before = 0
        self.last: Optional[Tuple[Frame, int]] = None
        self.changes: List[str] = []

    def begin(self, number: int, record: model.Record) -> None:
        """Shows what a record is, where it is a run."""
        self.forget()
        self.record, self.shown_before = number, self.shown
        if isinstance(record, model.Run) and not self.is_json:
            self.write(f"{number} {run_line(record)}")

    def step(self, machine: Machine, frame: Frame) -> None:
        self.last = frame, frame.at
        if self.asked.until is not None and machine.steps > self.asked.until or self.shown >= self.asked.most:
            return
        if self.asked.spot is not None and frame.at not in self.at_spot(frame):
            return
        self.shown += 1
        step = self.step_of(machine, frame)
        if self.is_json:
            self.write(json.dumps(step.fields(self.record)))
        else:
            for line in step.lines():
                self.write(line)

    def at_spot(self, frame: Frame) -> Set[int]:
        """The instructions of a frame's function at which steps are shown."""
        key = frame.owner, frame.function
        if key not in self.wanted:
            self.wanted[key] = model.known(self.asked.spot).instructions(frame.owner.subject, frame.function)
        return self.wanted[key]

    def step_of(self, machine: Machine, frame: Frame) -> Step:
        """What holds before a frame's next instruction."""
        place = frame.owner.subject.instruction(frame.function, frame.at)
        stack, locals_ = holdings(self.ledger, machine, frame)
        edges = self.edges.before(frame.owner, frame.function, frame.at)
        return Step(machine.steps, len(machine.frames), function_text(frame.owner, frame.function), place,
                    frame.owner.subject.source_place(place), stack, locals_, edges)

    def ends(self, machine: Machine, ending: Ending) -> None:
        self.steps = machine.steps
        if not ending.words.startswith("returned"):
            return
        for key, cell in machine.cells.items():
            before, after = machine.stored.get(key), None if cell is None else cell[0]
            if before != after:
                self.changes.append(self.change(key[0], key[1], key[2], before, after))

    def change(self, place: int, struct: int, address: bytes, before: Value, after: Value) -> str:
        """What a run changes of what is stored."""
        owner = self.ledger.in_order()[place]
        token = Token(model.STRUCT, struct=owner.module.structs[struct].handle)
        where = f"{name_text((*owner.name, owner.definition_name(struct)))} at {short(address)}"
        old, new = ("" if one is None else shortened(said_value(self.ledger, owner, token, one)) for one in (before, after))
        if not new:
            return f"takes {where}, which was {old}"
        return f"changes {where} to {new}, from {old}" if old else f"stores {where}, {new}"

    def end(self, found: Answer) -> None:
        """Shows how a record ends: the lines of its report, and where and why."""
        if self.is_json:
            self.write(json.dumps({**fields_of(found), "steps": self.steps, "changes": self.changes}))
            return
        shown = self.shown - self.shown_before
        if shown < self.steps:
            self.write(f"  {counted(shown, 'step').capitalize()} of {self.steps:,} {'is' if shown == 1 else 'are'} shown{self.why_fewer()}")
        for line in told(found):
            self.write(line)
        if self.last is not None and found.failure is None:
            self.write(self.last_place())
        for line in self.changes[:MOST_CHANGES]:
            self.write(f"    {line}")
        if len(self.changes) > MOST_CHANGES:
            self.write(f"    and {len(self.changes) - MOST_CHANGES} more")

    def why_fewer(self) -> str:
        """Why a run has steps that aren't shown, where nobody asked for fewer."""
        return f": no more than {self.asked.most:,} are; `--steps N` shows more" if self.shown >= self.asked.most else ""

    def last_place(self) -> str:
        """Where a run returned."""
        frame, at = model.known(self.last)
        place = place_of(frame, at)
        source = frame.owner.subject.source_place(place)
        return place.text + (f", {source}" if source else "")


def trace(data: bytes, loaded: Optional[bytes], names: Optional[NameTable], asked: Asked, write: Write,
          is_json: bool = False) -> bool:
    """Shows the runs of a stream, over an empty ledger or one that is loaded. Answers whether nothing is refused. NoRecord where the
    stream hasn't what is asked for."""
    ledger = Ledger(names)
    refusal = None if loaded is None else ledger.load(loaded)
    if refusal:
        said = load_refused(refusal)
        for line in said.json_lines() if is_json else said.lines:
            write(line)
        return False
    reading = read_stream(data)
    if asked.record is not None and asked.record > len(reading.places):
        raise NoRecord(f"there is no record {asked.record}: the stream has {len(reading.places) or 'none'}")
    check_spot(ledger, reading, asked)
    places = names.of_stream(data) if names else None
    tracer = Tracer(ledger, asked, write, is_json)
    is_accepted = True
    for number, (record, place) in enumerate(zip(reading.stream.records, reading.places), 1):
        if asked.record is not None and number > asked.record:
            return is_accepted
        is_shown = asked.record in (None, number)
        ledger.watch = tracer if is_shown else None
        if is_shown:
            tracer.begin(number, record)
        found = placed(answer(ledger, number, record, place), places)
        if is_shown:
            tracer.end(found)
            is_accepted = is_accepted and not found.is_refused
    if reading.faults:
        failure = shape_failure(reading.faults[0].offset, reading.faults[0].reason)
        tracer.begin(len(reading.places) + 1, model.RawRecord(0, b""))
        tracer.end(Answer(len(reading.places) + 1, "none", [failure.verdict], failure))
        return False
    return is_accepted


def check_spot(ledger: Ledger, reading: StreamReading, asked: Asked) -> None:
    """Wants a module that has the function, and the place in it, at which steps are to be shown. NoRecord where there is none."""
    spot = asked.spot
    if spot is None:
        return
    offers = [offer.module for record in reading.stream.records if isinstance(record, model.Publish) for offer in record.offers]
    subjects = [one.subject for one in ledger.modules.values()]
    subjects += [Subject(read_module(data), 0, ledger.names.of(data)) for data in offers]
    functions = [(one, at) for one in subjects for at in range(len(one.module.functions)) if spot.is_function(one, at)]
    if not functions:
        raise NoRecord(f"no module of the stream has the function `{spot.text}`")
    if not any(spot.instructions(*one) for one in functions):
        raise NoRecord(no_instruction(spot, *functions[-1]))


def no_instruction(spot: Spot, subject: Subject, function: int) -> str:
    """That a function has no instruction where one is asked for."""
    if spot.instruction is not None:
        count = counted(len(subject.module.functions[function].code), "instruction")
        return f"`{spot.text}` has {count}, and none of the number {spot.instruction}: they are counted from 0"
    names = subject.source.of_function(function) if subject.source else None
    if names is None:
        return (f"the lines of `{spot.text}` aren't known, which `moveasm -g` keeps; an instruction is named by its number, from 0, "
                f"as `{spot.text}#2`")
    lines = sorted({line for line, _ in names.lines})
    told = ", ".join(map(str, lines[:MOST_EDGES])) + (", .." if len(lines) > MOST_EDGES else "")
    return f"`{spot.text}` has no instruction in line {spot.line}; it has some in the lines {told}"
