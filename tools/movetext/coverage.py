"""Which instructions of modules were done by runs, how often, and which ways of their branches were taken."""

import hashlib
from typing import Dict, Iterator, List, NamedTuple, Optional, Tuple

from .explain.link import Published, name_text
from .explain.machine import Frame, Machine, Watch
from .explain.subject import Subject
from .model import known
from .writer import write_module

BRANCHES = {"BrTrue": True, "BrFalse": False}
# So many lines that were never done are named in a line.
MOST_NAMED = 12


class Counted:
    """Of a function: how often each instruction was done, and how often each conditional branch went on and jumped."""

    def __init__(self, size: int):
        self.done = [0] * size
        self.ways: Dict[int, List[int]] = {}

    def add(self, other: "Counted") -> None:
        self.done = [one + more for one, more in zip(self.done, other.done)]
        for at, ways in other.ways.items():
            mine = self.ways.setdefault(at, [0, 0])
            mine[0] += ways[0]
            mine[1] += ways[1]


class Counts(Watch):
    """Counts what runs do, and their steps."""

    def __init__(self) -> None:
        self.functions: Dict[Tuple[Published, int], Counted] = {}
        self.modules: Dict[Published, None] = {}
        self.steps = 0

    def note(self, owner: Published) -> None:
        """Notes a module, of which maybe nothing is run."""
        self.modules[owner] = None

    def step(self, machine: Machine, frame: Frame) -> None:
        self.steps += 1
        counted = self.functions.get((frame.owner, frame.function))
        if counted is None:
            self.note(frame.owner)
            counted = Counted(len(frame.operations))
            self.functions[frame.owner, frame.function] = counted
        counted.done[frame.at] += 1
        wanted = BRANCHES.get(frame.owner.module.functions[frame.function].code[frame.at].opcode.name)
        if wanted is not None:
            counted.ways.setdefault(frame.at, [0, 0])[frame.stack[-1] is wanted] += 1


class Line(NamedTuple):
    """A line of code: its number in its text, or the number of the instruction where the text isn't known; its text, how often it was
    done (the least of its instructions), and which ways of its branches never were."""

    number: int
    text: str
    done: int
    missing: List[str]


class Module:
    """What was done of a module, wherever it was published."""

    def __init__(self, subject: Subject, name: str):
        self.subject, self.name = subject, name
        self.functions = [Counted(len(one.code)) for one in subject.module.functions]

    def instructions(self) -> Tuple[int, int]:
        """How many instructions were done, and how many there are."""
        every = [count for one in self.functions for count in one.done]
        return sum(count > 0 for count in every), len(every)

    def branches(self) -> Tuple[int, int]:
        """How many ways of conditional branches were taken, and how many there are."""
        taken = sum(count > 0 for one in self.functions for ways in one.ways.values() for count in ways)
        return taken, 2 * sum(len(self.branches_of(index)) for index in range(len(self.functions)))

    def branches_of(self, function: int) -> List[int]:
        """The conditional branches of a function."""
        return [at for at, one in enumerate(self.subject.module.functions[function].code) if one.name in BRANCHES]

    def missing(self, function: int, at: int) -> List[str]:
        """Which ways of an instruction, if it is a conditional branch that was done, never were taken."""
        if at not in self.branches_of(function) or not self.functions[function].done[at]:
            return []
        name = self.subject.module.functions[function].code[at].name
        ways = self.functions[function].ways.get(at, [0, 0])
        words = "goes on", "jumps"
        return [f"{name} never {words[way]}" for way in (0, 1) if not ways[way]]

    @property
    def file(self) -> Optional[str]:
        """The file of the module's text, where it is known."""
        return self.subject.source.file if self.subject.source else None

    def lines(self) -> List[Line]:
        """The lines that have code, in their order."""
        found = [line for function in range(len(self.functions)) for line in self.lines_of(function)]
        return sorted(found, key=lambda line: line.number) if self.file is not None else found

    def lines_of(self, function: int) -> Iterator[Line]:
        """A function's lines: those of its text, or one for each instruction."""
        names = self.subject.source.of_function(function) if self.subject.source else None
        by_line: Dict[int, List[int]] = {}
        for at in range(len(self.functions[function].done)):
            line = names.lines[at][0] if names and at < len(names.lines) else at
            by_line.setdefault(line, []).append(at)
        for line, some in by_line.items():
            text = "; ".join(self.subject.instruction_text(function, at) for at in some)
            done = min(self.functions[function].done[at] for at in some)
            yield Line(line, text, done, [way for at in some for way in self.missing(function, at)])

    def function(self, function: int) -> str:
        """A function's name."""
        return known(self.subject.module.function_name(self.subject.module.functions[function].handle))

    def head(self, function: int) -> str:
        """What stands before a function's brace."""
        return self.subject.code_printer(function).head()


def merged(counts: Counts) -> List[Module]:
    """What was done of each module; those of the same text and the same bytes are one."""
    found: Dict[Tuple[object, ...], Module] = {}
    for owner in counts.modules:
        source = owner.subject.source
        where = (source.file, source.place) if source else None
        key = owner.name, where, hashlib.sha256(write_module(owner.module)).digest()
        module = found.setdefault(key, Module(owner.subject, name_text(owner.name)))
        for function, counted in enumerate(module.functions):
            more = counts.functions.get((owner, function))
            if more is not None:
                counted.add(more)
    return sorted(found.values(), key=lambda one: (one.file or "", one.subject.source.place if one.subject.source else (0, 0), one.name))


def percent(done: int, count: int) -> str:
    """How much of something was done, rounded down, so that only all of it is 100 %."""
    return f"{100 * done // count} %" if count else "none"


def summary(module: Module) -> str:
    """What was done of a module, in a line."""
    (done, count), (taken, ways) = module.instructions(), module.branches()
    told = f"{done} of {count} instructions ({percent(done, count)})"
    if ways:
        told += f", {taken} of {ways} ways of branches ({percent(taken, ways)})"
    where = f" ({module.file})" if module.file is not None else ""
    return f"{module.name}{where}: {told}"


def ranges(numbers: List[int]) -> str:
    """Numbers in ascending order, those that follow one another as `3-5`."""
    parts: List[List[int]] = []
    for one in numbers:
        if parts and parts[-1][-1] == one - 1:
            parts[-1] = [parts[-1][0], one]
        else:
            parts.append([one])
    shown = ["-".join(map(str, part)) for part in parts[:MOST_NAMED]]
    return ", ".join(shown) + (f" and {len(parts) - MOST_NAMED} more" if len(parts) > MOST_NAMED else "")


def short_lines(modules: List[Module]) -> Iterator[str]:
    """For each module what was done of it, and where nothing was."""
    for module in modules:
        yield summary(module)
        if module.file is None:
            never = [module.function(at) for at, counted in enumerate(module.functions) if not any(counted.done)]
            if never:
                yield f"    never run: {', '.join(never[:MOST_NAMED])}" + (" .." if len(never) > MOST_NAMED else "")
            continue
        lines = module.lines()
        undone = sorted({line.number for line in lines if not line.done})
        if undone:
            yield f"    never done: line{'s' if len(undone) > 1 else ''} {ranges(undone)}"
        missing = [f"line {line.number}: {way}" for line in lines for way in line.missing]
        if missing:
            yield f"    never taken: {'; '.join(missing[:MOST_NAMED])}" + (" .." if len(missing) > MOST_NAMED else "")


def listing(module: Module, text: Optional[List[str]]) -> Iterator[Tuple[str, str, List[str], str]]:
    """The lines of a module, each with how often it was done, its number, the ways that are missing, and its text: those of its text
    where that is at hand, otherwise its code. How often is empty for a line without code."""
    if text is None:
        for function in range(len(module.functions)):
            yield "", "", [], module.head(function)
            for line in module.lines_of(function):
                yield str(line.done), str(line.number), line.missing, f"    {line.text}"
        return
    lines = module.lines()
    by_number: Dict[int, List[Line]] = {}
    for line in lines:
        by_number.setdefault(line.number, []).append(line)
    first = module.subject.source.place[0] if module.subject.source else 1
    last = max([line.number for line in lines], default=first)
    for number in range(first, min(last, len(text)) + 1):
        some = by_number.get(number, [])
        done = str(min(one.done for one in some)) if some else ""
        yield done, str(number), [way for one in some for way in one.missing], text[number - 1]


def whole_lines(module: Module, text: Optional[List[str]]) -> Iterator[str]:
    """A module's code with how often each line was done before it: a dash where it never was."""
    yield summary(module)
    for done, number, missing, line in listing(module, text):
        mark = "-" if done == "0" else done
        told = f"    <- {'; '.join(missing)}" if missing else ""
        yield f"{mark:>10} {number:>5} | {line}{told}".rstrip()
