"""`movedis --html`: one page of a module, or of a stream's modules: their code with its flow graph, and before each instruction the
stack, the locals and the borrow graph. Of a module that is refused it says where it stops, and why."""

from typing import Any, Dict, Iterator, List, NamedTuple, Optional, Tuple

from . import model
from .explain.failures import Failure
from .explain.ledger import Ledger
from .explain.subject import Block, Subject
from .explain.verdict import explain_module
from .html import data as json_data
from .html import escaped, page
from .model import NODE_NAMES, Publish
from .page_script import SCRIPT, STYLE
from .printer import indented
from .reader import read_module
from .records import read_stream
from .source_names import NameTable
from .stream_printer import broken_module_lines
from .walks import Walk, Walker, local_names

ROW, LANE, FIRST_LANE, MOST_LANES = 22, 9, 14, 16
# So many lines of what is said of a refusal, and letters of one, stand at the top.
MOST_LINES, MOST_LETTERS = 40, 600


class Shown(NamedTuple):
    """A module of a page: what it is called there, what is said of it, why it is refused if it is, and its certificate."""

    title: str
    verdict: str
    subject: Subject
    failure: Optional[Failure] = None
    certificate: Optional[bytes] = None


class Jump(NamedTuple):
    """Where control goes from a block's last row to another block's first: the rows, the instruction, and the lane of the arc."""

    start: int
    end: int
    at: int
    lane: int
    kind: str


def of_module(data: bytes, certificate: Optional[bytes], names: Optional[NameTable]) -> List[Shown]:
    """A module, with a certificate or by the least states."""
    verdict = explain_module(data, certificate, source=names.of(data) if names else None)
    subject, failure = verdict.subject, verdict.failure
    told = "passes phases 2 to 12" if failure is None else failure.named_verdict
    return [Shown(name_of(subject), told, subject, failure, certificate)]


def of_stream(data: bytes, names: Optional[NameTable]) -> List[Shown]:
    """A stream's modules, as they are published one bundle after the other."""
    ledger = Ledger(names)
    reading = read_stream(data)
    found = []
    for number, (record, place) in enumerate(zip(reading.stream.records, reading.places), 1):
        if not isinstance(record, Publish):
            continue
        refusal = ledger.publish(record, place)
        for index, offer in enumerate(record.offers):
            source = ledger.names.of(offer.module)
            subject = Subject(read_module(offer.module), place.modules[index], source)
            own = refusal is not None and (refusal.module in (None, index))
            failure = refusal.failure if refusal is not None and own else None
            told = "is published" if refusal is None else refusal.failure.named_verdict if own \
                else f"passes phase 1 at least; module {(refusal.module or 0) + 1} of its bundle is refused"
            if refusal is not None and not own:
                failure = explain_module(offer.module, offer.certificate, source=source).failure
            found.append(Shown(f"record {number}: {name_of(subject)}", told, subject, failure, offer.certificate))
    return found


def name_of(subject: Subject) -> str:
    """A module's name, as far as it has one."""
    return f"module {subject.names.module_text(subject.module.own)}"


def whole_page(modules: List[Shown], title: str) -> str:
    """The page."""
    parts = [f"<h1>{escaped(title)}</h1>",
             '<p class="quiet">The arrow keys go from instruction to instruction, Enter goes to the target of a branch, and a click '
             "to any instruction. What is said here is movedis's; moveledger's verdict counts.</p>"]
    told: List[Dict[str, Any]] = []
    body: List[str] = []
    stop = ""
    for place, one in enumerate(modules):
        written = ModulePart(place, one)
        body += written.parts()
        told.append(written.told)
        stop = stop or written.stop
    if not modules:
        body.append("<p>There is no module.</p>")
    if len(modules) > 1:
        links = "".join(f'<a href="#m{place}">{escaped(one.title)}</a>' for place, one in enumerate(modules))
        parts.append(f"<nav>{links}</nav>")
    every = {"modules": told, "kinds": [*NODE_NAMES, "Temp"], "slot": model.SLOT, "glob": model.GLOB, "stop": stop}
    parts += ['<div class="both">', "<main>", *body, "</main>", '<section id="panel" class="panel" aria-live="polite"></section>', "</div>",
              f'<script type="application/json" id="data">{json_data(every)}</script>']
    return page(title, "\n".join(parts), STYLE, SCRIPT)


class ModulePart:
    """A module's part of the page, and what the script is told of it."""

    def __init__(self, place: int, shown: Shown):
        self.place, self.shown, self.subject = place, shown, shown.subject
        self.stop = ""
        self.told: Dict[str, Any] = {"structs": self.subject.names.definitions, "functions": []}

    def parts(self) -> Iterator[str]:
        one = self.shown
        yield f'<h2 id="m{self.place}">{escaped(one.title)} <span class="{"stop" if one.failure else "quiet"}">{escaped(one.verdict)}</span></h2>'
        if one.failure is not None:
            yield from self.why(one.failure)
        if not self.subject.reading.is_module:
            lines = broken_module_lines(self.subject.reading, self.subject.base)
            yield f'<div class="wide"><pre>{escaped(chr(10).join(lines))}</pre></div>'
            return
        yield from self.structs()
        walker = Walker(self.subject, one.failure, one.certificate)
        for function in range(len(self.subject.module.functions)):
            yield from self.function(function, walker.walk(function))

    def why(self, failure: Failure) -> Iterator[str]:
        """Where the module stops, and why."""
        where = failure.place.text + (f", {failure.source}" if failure.source else "")
        place = escaped(where)
        if failure.place.function is not None and failure.place.instruction is not None and self.subject.reading.is_module:
            self.stop = f"m{self.place}f{failure.place.function}i{failure.place.instruction}"
            place = f'<a href="#{self.stop}">{place}</a>'
        lines = [line if len(line) <= MOST_LETTERS else line[:MOST_LETTERS] + ".." for line in failure.state[:MOST_LINES]]
        if len(failure.state) > MOST_LINES:
            lines.append(f"and {len(failure.state) - MOST_LINES} more")
        state = f"<pre>{escaped(chr(10).join(lines))}</pre>" if lines else ""
        yield (f'<div class="told bad"><strong>{escaped(failure.named_verdict)}</strong>, at {place}<br>'
               f"{escaped(failure.sentence[:MOST_LETTERS])}{state}</div>")

    def structs(self) -> Iterator[str]:
        """The structs that the module defines."""
        printer = self.subject.printer
        lines = [line for index, one in enumerate(self.subject.module.structs) for line in printer.struct(index, one)]
        if lines:
            yield f'<div class="wide"><pre>{escaped(chr(10).join(indented(lines, 0)))}</pre></div>'

    def function(self, function: int, walk: Walk) -> Iterator[str]:
        """A function: its head, its code in blocks, and the arcs of its flow."""
        rows: List[str] = []
        places: Dict[int, int] = {}
        code = self.subject.module.functions[function].code
        for index, block in enumerate(walk.blocks):
            rows.append(self.block_row(function, index, block))
            for at in range(block.first, block.last + 1):
                places[at] = len(rows)
                rows += self.rows_of(function, at, walk)
        jumps = laned(jumps_of(walk.blocks, places, code))
        width = FIRST_LANE + LANE * (max((one.lane for one in jumps), default=-1) + 1) + 8
        self.told["functions"].append(told_of(self.subject, function, walk))
        head = self.subject.code_printer(function).head()
        yield f'<div class="fn code" id="m{self.place}f{function}"><h3>{escaped(head)}</h3>'
        yield f'<div class="wide"><div class="rows" style="padding-left: {width}px; width: max-content; min-width: 100%">'
        yield flow_svg(jumps, len(rows), width)
        yield from rows
        yield "</div></div></div>"

    def block_row(self, function: int, index: int, block: Block) -> str:
        """The row that begins a block."""
        label = self.subject.label(function, block.first)
        named = f"block {index}" + (f" {label}:" if label else "") + ("" if block.is_reached else ", not reached")
        return f'<div class="row head">{escaped(named)}</div>'

    def rows_of(self, function: int, at: int, walk: Walk) -> List[str]:
        """The row of an instruction, and one with what is wrong there, if anything."""
        names = self.subject.source.of_function(function) if self.subject.source else None
        line = names.lines[at][0] if names and at < len(names.lines) else None
        where = f' title="line {line}"' if line is not None else ""
        wrong = walk.wrong.get(at, [])
        kind = "row at bad" if wrong else "row at"
        mark = f'id="m{self.place}f{function}i{at}" data-m="{self.place}" data-f="{function}" data-i="{at}"'
        text = escaped(self.subject.instruction_text(function, at))
        rows = [f'<div class="{kind}" {mark}{where}><span class="num">{at}</span>{text}</div>']
        return rows + [f'<div class="row why"><span class="num"></span>{escaped(one[:MOST_LETTERS])}</div>' for one in wrong]


def told_of(subject: Subject, function: int, walk: Walk) -> Dict[str, Any]:
    """What the script is told of a function: types and edges in tables, and before each instruction their numbers."""
    types: Dict[str, int] = {}
    edges: Dict[Tuple[int, int, int, int, str], int] = {}
    before = []
    for one in walk.before:
        stack = None if one.stack is None else [types.setdefault(it, len(types)) for it in one.stack]
        held = None if one.locals is None else "".join(map(str, one.locals))
        some = None if one.edges is None else [edges.setdefault(it, len(edges)) for it in one.edges]
        before.append([stack, held, some, one.how_many])
    code = subject.module.functions[function].code
    targets = {at: one.operand for at, one in enumerate(code) if one.opcode.is_branch and one.operand < len(code)}
    name = subject.module.function_name(subject.module.functions[function].handle)
    return {"name": name or f"function {function}", "locals": local_names(subject, function), "types": list(types), "edges": list(edges),
            "before": before, "targets": targets, "wrong": walk.wrong, "why": walk.why}


def jumps_of(blocks: List[Block], places: Dict[int, int], code: List[model.Instruction]) -> List[Jump]:
    """The ways of control between blocks, by rows: from the last instruction of one to the row that begins another."""
    heads = [places[one.first] - 1 for one in blocks]
    found = []
    for index, one in enumerate(blocks):
        for to in one.successors:
            is_next = to == index + 1 and not (code[one.last].opcode.is_branch and code[one.last].operand == blocks[to].first)
            kind = "next" if is_next else "back" if to <= index else ""
            found.append(Jump(places[one.last], heads[to], one.last, 0, kind))
    return found


def laned(jumps: List[Jump]) -> List[Jump]:
    """Jumps with lanes, the shortest innermost, so that no two in a lane stand beside each other, as far as there are lanes."""
    taken: List[List[Tuple[int, int]]] = []
    found = []
    for one in sorted(jumps, key=lambda jump: (abs(jump.end - jump.start), jump.start)):
        low, high = min(one.start, one.end), max(one.start, one.end)
        lane = next((at for at, others in enumerate(taken) if all(high < a or b < low for a, b in others)), len(taken))
        if lane == len(taken) and lane < MOST_LANES:
            taken.append([])
        lane = min(lane, MOST_LANES - 1)
        taken[lane].append((low, high))
        found.append(one._replace(lane=lane))
    return found


def flow_svg(jumps: List[Jump], rows: int, width: int) -> str:
    """The arcs of a function's flow, beside its rows."""
    parts = [f'<svg class="flow" width="{width}" height="{rows * ROW}" role="img" aria-label="the flow of control between blocks">']
    for one in jumps:
        x, edge = width - FIRST_LANE - LANE * one.lane, width - 8
        y1, y2 = one.start * ROW + ROW // 2 + 3, one.end * ROW + ROW // 2
        kind = f" {one.kind}" if one.kind else ""
        parts.append(f'<path class="arc{kind}" data-from="{one.at}" d="M{edge},{y1} H{x + 4} Q{x},{y1} {x},{y1 + (4 if y2 > y1 else -4)} '
                     f'V{y2 - (4 if y2 > y1 else -4)} Q{x},{y2} {x + 4},{y2} H{edge}"></path>')
        parts.append(f'<path class="tip{kind}" d="M{edge - 4},{y2 - 4} L{edge + 3},{y2} L{edge - 4},{y2 + 4} z"></path>')
    return "".join([*parts, "</svg>"])
