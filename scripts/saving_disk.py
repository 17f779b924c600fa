"""A disk, and programs that save on it: each order of their system calls, each call failing, each program killed and the machine stopped
between two calls. For `scripts/try-saving`."""

from itertools import product
from typing import Any, Dict, FrozenSet, Iterator, List, NamedTuple, Optional, Set, Tuple, Union

from saving_protocol import BARE, DONE, EMPTY, EXISTS, FAIL, HELD, NONE, PLACE, TORN, UNSAVED, Call, Content, Ledger, Mover, Saver, is_ledger

# A file's content, and all that a stopped machine may leave of it.
Inode = Tuple[Content, FrozenSet[Content]]
# Names, each with the number of its file.
Names = Tuple[Tuple[str, int], ...]
# Changes of names, each call's together.
Changes = Tuple[Tuple[str, Optional[int]], ...]
# What a program's calls gave so far, and its status: None before its end.
Run = Tuple[Tuple[Any, ...], Union[None, int, str]]
# These calls can't fail.
SURE = "tell", "ack", "whole", "close", "fstat", "read", "moves"


class State(NamedTuple):
    """What there is at a moment."""

    inodes: Tuple[Inode, ...]
    names: Names
    # Changes of names that aren't on the disk, and the names that are.
    pending: Tuple[Changes, ...]
    durable: Names
    locks: Tuple[Tuple[int, int], ...]
    runs: Tuple[Run, ...]
    # The ledgers that are acknowledged, and the names that were asked for or told.
    acked: FrozenSet[Ledger]
    told: FrozenSet[str]
    # How many calls may still fail, programs be killed, machines stop.
    faults: int
    kills: int
    crashes: int


class Found(NamedTuple):
    """What an exploration found: how many states, the losses with the calls that lead to them, and how the programs may end."""

    states: int
    losses: Dict[str, List[str]]
    ends: Set[Tuple[Any, ...]]


def sorted_names(at: Dict[str, Optional[int]]) -> Names:
    return tuple(sorted((name, inode) for name, inode in at.items() if inode is not None))


def known(content: Content) -> Inode:
    return content, frozenset([content])


class Disk(NamedTuple):
    """A disk with files, and the programs that save on it."""

    programs: Tuple[Union[Saver, Mover], ...]
    files: Dict[str, Content]
    in_turn: bool = False
    faults: int = 0
    kills: int = 0
    crashes: int = 0
    no_locks: bool = False
    no_links: bool = False


class Explorer:
    """All that may come of a disk."""

    def __init__(self, disk: Disk):
        self.disk = disk
        self.calls: Dict[Tuple[int, Tuple[Any, ...]], Call] = {}
        self.stops: Dict[Any, Set[Tuple[Tuple[Inode, ...], Names]]] = {}
        self.had = is_ledger(disk.files.get(PLACE, EMPTY))
        # All begin with one ledger.
        self.all_load = all(isinstance(it, Saver) and it.load == PLACE for it in disk.programs)

    def first(self) -> State:
        files = self.disk.files
        names = tuple(sorted((name, number) for number, name in enumerate(files)))
        inodes = tuple(known(content) for content in files.values())
        acked = frozenset(content for content in files.values() if isinstance(content, frozenset))
        runs = tuple(((), None) for _ in self.disk.programs)
        # What stood there before was asked for, or told, by others.
        told = frozenset(files) | {PLACE}
        return State(inodes, names, (), names, (), runs, acked, told, self.disk.faults, self.disk.kills, self.disk.crashes)

    def next_call(self, which: int, results: Tuple[Any, ...]) -> Call:
        """What a program does after its calls gave these results; its end is a call, too."""
        key = which, results
        if key not in self.calls:
            run = self.disk.programs[which].run()
            try:
                call = next(run)
                for result in results:
                    call = run.send(result)
                self.calls[key] = call
            except StopIteration as end:
                self.calls[key] = "exit", end.value
        return self.calls[key]

    def steps(self, state: State) -> Iterator[Tuple[str, State]]:
        """Each thing that may come next."""
        for which, (results, status) in enumerate(state.runs):
            if status is not None:
                continue
            yield from self.does(state, which, self.next_call(which, results))
            if state.kills and results:
                yield f"{which + 1} is killed", ended(state, which, "killed")._replace(kills=state.kills - 1)
            if self.disk.in_turn:
                break
        if state.crashes:
            runs = tuple((r, "stopped") if s is None and r else (() if s is not None else r, s) for r, s in state.runs)
            after = state._replace(pending=(), locks=(), runs=runs, crashes=state.crashes - 1)
            for inodes, names in self.stopped(state):
                yield "the machine stops", after._replace(inodes=inodes, names=names, durable=names)

    def does(self, state: State, which: int, call: Call) -> Iterator[Tuple[str, State]]:
        """What comes of a program's next call: it is done, or it fails."""
        if call[0] == "exit":
            yield f"{which + 1} ends with {call[1]}", ended(state, which, call[1])
            return
        label = f"{which + 1} {' '.join(shown(word) for word in call)}"
        if state.faults and call[0] not in SURE:
            yield f"{label} FAILS", gave(state, which, FAIL)._replace(faults=state.faults - 1)
        yield label, DOES[call[0]](self.disk, state, which, *call[1:])

    def stopped(self, state: State) -> Set[Tuple[Tuple[Inode, ...], Names]]:
        """What the disk may have after the machine stopped: any of the changes of names that weren't synced, in their order."""
        key = state.inodes, state.pending, state.durable
        if key in self.stops:
            return self.stops[key]
        found: Set[Tuple[Tuple[Inode, ...], Names]] = set()
        for chosen in product((False, True), repeat=len(state.pending)):
            at: Dict[str, Optional[int]] = dict(state.durable)
            for is_kept, changes in zip(chosen, state.pending):
                if is_kept:
                    at.update(dict(changes))
            names = sorted_names(at)
            used = sorted({number for _, number in names})
            for contents in product(*(sorted(state.inodes[number][1], key=str) for number in used)):
                left = [known(EMPTY)] * len(state.inodes)
                for number, content in zip(used, contents):
                    left[number] = known(content)
                found.add((tuple(left), names))
        self.stops[key] = found
        return found

    def lost(self, state: State) -> Optional[str]:
        """What is lost by now, or if the machine stops now, in words; None where nothing is."""
        whole = frozenset(it[1] for results, status in state.runs if isinstance(status, int) for it in results if is_whole(it))
        why = self.missing(state.inodes, state.names, state, whole)
        if why is None:
            for inodes, names in self.stopped(state):
                why = self.missing(inodes, names, state, frozenset())
                if why:
                    return f"if the machine stops: {why}"
        return why

    def missing(self, inodes: Tuple[Inode, ...], names: Names, state: State, whole: FrozenSet[Ledger]) -> Optional[str]:
        at = dict(names)
        stand = [content for name, number in names if name in state.told for content in [inodes[number][0]] if isinstance(content, frozenset)]
        for text in whole:
            if not any(text <= content for content in stand):
                return f"the ledger {shown(text)} was whole on the disk when its program ended, and no name that was told has it"
        for text in state.acked:
            if not any(text <= content for content in stand):
                return f"the acknowledged ledger {shown(text)} stands under no name that was asked for or told"
        for name, number in names:
            if name in state.told and name.startswith(UNSAVED) and inodes[number][0] == TORN:
                return "a part of a ledger stands under a name that was told for a whole one"
        if self.had and not (PLACE in at and is_ledger(inodes[at[PLACE]][0])):
            return "there is no ledger under the name, which had one"
        return None

    def parted(self, state: State) -> bool:
        """Whether two programs went on with one ledger, both ended with 0, and none has what both acknowledged."""
        if not self.all_load:
            return False
        saved = [it[1] for results, status in state.runs if status == 0 for it in results if is_whole(it)]
        return any(not (one <= other or other <= one) for one in saved for other in saved)

    def explore(self, is_first_enough: bool = False) -> Found:
        first = self.first()
        seen: Dict[State, Optional[Tuple[State, str]]] = {first: None}
        waits, ends = [first], set()
        losses: Dict[str, List[str]] = {}
        judged: Dict[Any, Optional[str]] = {}
        while waits and not (losses and is_first_enough):
            state = waits.pop()
            if self.parted(state):
                why: Optional[str] = "two programs went on with one ledger, both ended with 0, and none has what both acknowledged"
            else:
                wholes = tuple(it for results, status in state.runs if isinstance(status, int) for it in results if is_whole(it))
                key = state.inodes, state.names, state.pending, state.durable, state.acked, state.told, wholes
                if key not in judged:
                    judged[key] = self.lost(state)
                why = judged[key]
            if why:
                losses.setdefault(why, way(seen, state))
                continue
            if all(status is not None for _, status in state.runs):
                ends.add(tuple(status for _, status in state.runs))
            for label, after in self.steps(state):
                if after not in seen:
                    seen[after] = state, label
                    waits.append(after)
        return Found(len(seen), losses, ends)


def is_whole(result: Any) -> bool:
    return isinstance(result, tuple) and result[:1] == ("WHOLE",)


def ended(state: State, which: int, status: Union[int, str]) -> State:
    runs = state.runs[:which] + ((state.runs[which][0], status),) + state.runs[which + 1 :]
    return state._replace(locks=tuple(it for it in state.locks if it[1] != which), runs=runs)


def gave(state: State, which: int, result: Any, changes: Changes = ()) -> State:
    """A program's call gave this, and changed these names."""
    runs = state.runs[:which] + ((state.runs[which][0] + (result,), None),) + state.runs[which + 1 :]
    if not changes:
        return state._replace(runs=runs)
    return state._replace(runs=runs, names=sorted_names({**dict(state.names), **dict(changes)}), pending=state.pending + (changes,))


def opens(disk: Disk, state: State, which: int, name: str) -> State:
    return gave(state, which, dict(state.names).get(name, NONE))


def looks(disk: Disk, state: State, which: int, name: str) -> State:
    found = dict(state.names).get(name)
    return gave(state, which, NONE if found is None else (found, state.inodes[found][0]))


def looks_at_open(disk: Disk, state: State, which: int, number: int) -> State:
    return gave(state, which, (number, state.inodes[number][0]))


def reads(disk: Disk, state: State, which: int, number: int) -> State:
    return gave(state, which, state.inodes[number][0])


def creates(disk: Disk, state: State, which: int, name: str) -> State:
    if name in dict(state.names):
        return gave(state, which, EXISTS)
    fresh = state.inodes + (known(EMPTY),)
    return gave(state, which, len(state.inodes), ((name, len(state.inodes)),))._replace(inodes=fresh)


def opens_or_creates(disk: Disk, state: State, which: int, name: str) -> State:
    at = dict(state.names)
    return gave(state, which, at[name]) if name in at else creates(disk, state, which, name)


def locks(disk: Disk, state: State, which: int, number: int) -> State:
    held = dict(state.locks)
    if disk.no_locks:
        return gave(state, which, FAIL)
    if held.get(number, which) != which:
        return gave(state, which, HELD)
    return gave(state, which, True)._replace(locks=tuple(sorted({**held, number: which}.items())))


def closes(disk: Disk, state: State, which: int, number: int) -> State:
    return gave(state, which, DONE)._replace(locks=tuple(it for it in state.locks if it != (number, which)))


def writes(disk: Disk, state: State, which: int, number: int, text: Content) -> State:
    content, may = state.inodes[number]
    after = may | {text}
    if text != BARE and content != BARE:
        after |= {TORN}  # written from its front: a part of it may begin with the mark
    if content == BARE and after - {BARE, EMPTY, text} == frozenset() and len(may) > 1:
        after |= {TORN}  # the mark is written before the body is on the disk
    return gave(state, which, DONE)._replace(inodes=state.inodes[:number] + ((text, after),) + state.inodes[number + 1 :])


def syncs(disk: Disk, state: State, which: int, number: int) -> State:
    inodes = state.inodes[:number] + (known(state.inodes[number][0]),) + state.inodes[number + 1 :]
    return gave(state, which, DONE)._replace(inodes=inodes)


def syncs_folder(disk: Disk, state: State, which: int) -> State:
    return gave(state, which, DONE)._replace(pending=(), durable=state.names)


def links(disk: Disk, state: State, which: int, old: str, name: str) -> State:
    at = dict(state.names)
    if disk.no_links or old not in at:
        return gave(state, which, FAIL)
    return gave(state, which, EXISTS) if name in at else gave(state, which, DONE, ((name, at[old]),))


def renames(disk: Disk, state: State, which: int, old: str, name: str) -> State:
    at = dict(state.names)
    if old not in at:
        return gave(state, which, FAIL)
    return gave(state, which, DONE) if at.get(name) == at[old] else gave(state, which, DONE, ((old, None), (name, at[old])))


def moves(disk: Disk, state: State, which: int, old: str, name: str) -> State:
    """What somebody else does, and syncs; who finds a new ledger there lets it be."""
    at = dict(state.names)
    if at.get(name) not in (None, 0):
        return gave(state, which, NONE)
    acked = frozenset(text for text in state.acked if name not in at or text != state.inodes[0][0])
    names = sorted_names({**{n: i for n, i in at.items() if n != old}, name: at[old]})
    return gave(state, which, DONE)._replace(names=names, pending=(), durable=names, acked=acked)


def unlinks(disk: Disk, state: State, which: int, name: str) -> State:
    return gave(state, which, DONE, ((name, None),)) if name in dict(state.names) else gave(state, which, NONE)


def tells(disk: Disk, state: State, which: int, name: str) -> State:
    return gave(state, which, DONE)._replace(told=state.told | {name})


def is_on_disk(disk: Disk, state: State, which: int, text: Ledger) -> State:
    return gave(state, which, ("WHOLE", text))


def acknowledges(disk: Disk, state: State, which: int, text: Ledger) -> State:
    return gave(state, which, DONE)._replace(acked=state.acked | {text})


DOES: Dict[str, Any] = {
    "open": opens, "stat": looks, "fstat": looks_at_open, "read": reads, "create": creates, "opencreate": opens_or_creates, "lock": locks,
    "close": closes, "write": writes, "sync": syncs, "syncdir": syncs_folder, "link": links, "rename": renames, "moves": moves,
    "unlink": unlinks, "tell": tells, "whole": is_on_disk, "ack": acknowledges}


def shown(thing: Any) -> str:
    return "{" + ",".join(str(it) for it in sorted(thing)) + "}" if isinstance(thing, frozenset) else str(thing)


def way(seen: Dict[State, Optional[Tuple[State, str]]], state: State) -> List[str]:
    """The calls that lead to a state."""
    labels: List[str] = []
    before = seen[state]
    while before:
        labels.append(before[1])
        before = seen[before[0]]
    return labels[::-1]
