"""Runs: why one isn't begun, how one ends, and where it was given up."""

from typing import List, NamedTuple, NoReturn, Optional, Sequence, Tuple

from .. import model
from ..errors import and_meant
from ..held import local_holdings
from ..model import LEAF_NAMES, SIGNER, Token, known
from ..naming import quoted
from ..limits import RUN_COUNT, STEP_COUNT
from .failures import Failure, Fails, Place, a_type, counted
from .ledger import Ledger
from .link import Published, name_text
from .machine import Frame, Machine
from .signatures import is_given

# So many frames, and so many locals of one, are told of a run that is given up.
MOST_TOLD = 12


class Outcome(NamedTuple):
    """How a run is answered: the words of the report, and why where it didn't return."""

    words: str
    failure: Optional[Failure] = None


def answered(ledger: Ledger, record: model.Run, offset: int) -> Outcome:
    """Runs a record over a ledger, whose storage then is as the run leaves it."""
    try:
        owner, function = begun(ledger, record, offset)
    except Fails as fails:
        return Outcome(fails.failure.verdict, fails.failure)
    machine = Machine(ledger.modules, ledger.stored, ledger.watch)
    arguments = [one.value for one in record.arguments]
    if len(known(owner.module.parameters(owner.module.functions[function]))) > len(arguments):
        arguments.insert(0, record.sender)
    ending = machine.run(owner, function, arguments, record.budget)
    ledger.runs += 1
    if ledger.watch is not None:
        ledger.watch.ends(machine, ending)
    if ending.words.startswith("returned"):
        machine.keep()
        ledger.packed.update(machine.packed)
        ledger.unpacked.update(machine.unpacked)
        return Outcome(ending.words)
    return Outcome(ending.words, given_up(ledger, machine, ending.words, ending.why))


def begun(ledger: Ledger, record: model.Run, offset: int) -> Tuple[Published, int]:
    """The module and the function that a record runs. Raises the first reason why it isn't begun."""
    name = record.address, record.module
    where = f"{name_text(name)}::{quoted(record.function)}"

    def fail(reason: int, rule: str, found: str) -> NoReturn:
        raise Fails(Failure(None, Place(f"the run of {where}, offset {offset}", offset), rule, found, said=f"rejected {reason}"))

    if record.budget > STEP_COUNT:
        fail(2, f"a run's budget is at most {STEP_COUNT:,} steps", f"it is {record.budget:,}")
    owner = ledger.modules.get(name)
    if owner is None:
        fail(3, "the run names a module that is published",
             f"there is no {name_text(name)}{and_meant(name_text(name), map(name_text, ledger.modules))}")
    function = owner.function_places.get(record.function)
    if function is None:
        fail(4, "the run names a function of the module",
             f"{name_text(name)} has no `{record.function}`{and_meant(record.function, owner.function_places)}")
    definition = owner.module.functions[function]
    if not definition.is_entry:
        fail(5, "a run's function is entry", f"{where} isn't{how_entry(owner, definition)}")
    wanted = known(owner.module.parameters(definition))
    wanted = wanted[1:] if wanted and wanted[0].kind == SIGNER else wanted
    if [one.kind for one in wanted] != [one.kind for one in record.arguments]:
        fail(6, "the arguments are of the types of the parameters, without the signer, which is the sender",
             f"{where} takes {types_said(wanted)}, and is given {types_said([Token(one.kind) for one in record.arguments])}")
    if ledger.runs >= RUN_COUNT:
        fail(7, f"a ledger has at most {RUN_COUNT:,} runs", "it has had as many")
    return owner, function


def how_entry(owner: Published, definition: model.FunctionDefinition) -> str:
    """What to do where a function isn't entry: it is made so, where it may be."""
    types, results = known(owner.module.parameters(definition)), known(owner.module.results(definition))
    cant = [owner.subject.type(one) for place, one in enumerate(types) if not is_given(one, place)]
    if cant:
        return f", and takes {a_type(cant[0])}, which no run can give: call it from an entry function"
    if results:
        return ", and gives a result, which no run takes: call it from an entry function"
    return ": write `entry` before its name"


def types_said(types: Sequence[Token]) -> str:
    """Types of arguments in words."""
    return "(" + ", ".join(LEAF_NAMES[one.kind] for one in types) + ")" if types else "no arguments"


def given_up(ledger: Ledger, machine: Machine, words: str, why: str) -> Failure:
    """That a run was given up: where, why, and what the locals of the function at work hold."""
    frames, frame = machine.frames, machine.frames[-1]
    # An instruction that isn't begun any more is the next one.
    at = frame.at if words.startswith("exhausted steps") else frame.at - 1
    place = place_of(frame, at)
    if words.startswith("exhausted"):
        why = "the budget is used up before this instruction" if words.startswith("exhausted steps") \
            else f"the Call would make a {len(frames) + 1}th frame"
    calls = [f"called by {told(one, place_of(one, one.at - 1))}" for one in reversed(frames[:-1])]
    lines = locals_said(ledger, machine, frame) + calls[:MOST_TOLD]
    if len(calls) > MOST_TOLD:
        lines.append(f"and {counted(len(calls) - MOST_TOLD, 'frame')} more")
    return Failure(None, place, "", why, tuple(lines), frame.owner.subject.source_place(place), words)


def place_of(frame: Frame, at: int) -> Place:
    """An instruction of a frame. Its offset is that of its module's bytes where it was published."""
    return frame.owner.subject.instruction(frame.function, at).behind(f"{name_text(frame.owner.name)}, ")


def told(frame: Frame, place: Place) -> str:
    """A place of a frame, with that of the text where it is known."""
    source = frame.owner.subject.source_place(place)
    return place.text + (f", {source}" if source else "")


def locals_said(ledger: Ledger, machine: Machine, frame: Frame) -> List[str]:
    """What the locals of a frame hold, a line each."""
    held, more = local_holdings(ledger, machine, frame, MOST_TOLD)
    lines = [f"    {one.name}: {one.text}" for one in held]
    if more:
        lines.append(f"    and {counted(more, 'local')} more")
    return ["its locals hold:", *lines] if lines else []
