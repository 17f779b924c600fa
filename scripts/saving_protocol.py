"""How a program saves a ledger under a name: its system calls one after the other, as `scripts/try-saving` explores them. A call is
yielded with its names and its content, and what it gives is sent back. What is wrong with a wrong body of it is said by a word."""

from typing import Any, Dict, FrozenSet, Generator, NamedTuple, Optional, Tuple, Union

# What a file has: a ledger, by the records that were acknowledged in it, or something else.
Ledger = FrozenSet[int]
Content = Union[Ledger, str]
# A part of a ledger that begins with the mark, and one that doesn't; an empty file; another file.
TORN, BARE, EMPTY, TEXT = "torn", "bare", "empty", "text"
# What a call gives: the number of a file, what was seen of it, or one of these.
FAIL, NONE, EXISTS, HELD, DONE = "FAIL", "NONE", "EXISTS", "HELD", "DONE"
Call = Tuple[Any, ...]
Steps = Generator[Call, Any, Any]

# The name that is saved to, and those of the program's own beside it.
PLACE, LOCK, NEW = "X", ".moveledger-lock-X", ".moveledger-new-X"
PREVIOUS, UNSAVED = "X.previous", "X.unsaved"
TRIES, NAMES = 3, 5

# A body that doesn't ask whether a second name can be had, nor looks at its own names again; wrong bodies don't either.
SHORT = "short"
# Bodies that are wrong, and what is wrong with them.
WRONG: Dict[str, str] = {
    "no_lock": "the place isn't locked",
    "failed_lock_is_none": "a lock that can't be had counts as one",
    "lock_name_unasked": "the lock's name isn't looked at again once it is held",
    "unlocked_before_the_end": "the lock's file is removed before the end",
    "whole_is_removed": "a whole new file of an earlier program is removed",
    "mark_first": "the mark is written before the body",
    "not_synced": "the new file isn't synced",
    "renamed_onto_nothing": "the new file is renamed where nothing stands",
    "kept_by_a_rename": "what stands there is renamed",
    "previous_is_replaced": "what was kept before is replaced",
    "not_synced_before": "the folder isn't synced before the rename",
    "told_after": "the name of what is kept is told after the rename",
    "failed_is_removed": "a whole new file that can't have its place is removed",
    "renamed_before_told": "it is renamed before its new name is told",
    "not_synced_behind": "the folder isn't synced after the rename",
}


def is_ledger(content: Content) -> bool:
    return isinstance(content, frozenset)


def has_mark(content: Content) -> bool:
    return is_ledger(content) or content == TORN


def numbered(base: str, number: int) -> str:
    return base if number == 0 else f"{base}-{number}"


def is_there(seen: Any) -> bool:
    return seen not in (NONE, FAIL)


class Saver(NamedTuple):
    """A program that saves: its number, the ledger that it begins with, and what is wrong with it, if anything."""

    me: int
    load: Optional[str] = None
    wrong: str = ""

    def run(self) -> Steps:
        """All that it does, and its status."""
        lock = yield from self.locked()
        if lock is None:
            return 1
        if not ((yield from self.clears()) and (yield from self.may_replace())):
            return (yield from self.released(1))
        begun = yield from self.begun()
        if begun is None:
            return (yield from self.released(3))
        had, loaded = begun
        if self.wrong == "unlocked_before_the_end":
            yield "unlink", LOCK
        mine = had | {self.me}
        file = yield "create", NEW
        if file in (FAIL, EXISTS):
            return (yield from self.released(1))
        if not (yield from self.fills(file, mine)):
            yield "unlink", NEW
            return (yield from self.released(1))
        yield "whole", mine
        placed = yield from self.placed(lock, file, loaded)
        if placed is None:
            return (yield from self.set_aside(mine))
        is_synced = self.wrong == "not_synced_behind" or (yield ("syncdir",)) != FAIL
        if placed == "link":
            yield "unlink", NEW
        if is_synced:
            yield "ack", mine
        return (yield from self.released(0 if is_synced else 1))

    def released(self, status: int) -> Steps:
        yield "unlink", LOCK
        return status

    def locked(self) -> Steps:
        """The file of the lock once it is held; None where it can't be had."""
        if self.wrong == "no_lock":
            return 0
        for _ in range(TRIES):
            lock = yield "opencreate", LOCK
            if lock == FAIL:
                return None
            got = yield "lock", lock
            if got == HELD or got == FAIL and self.wrong != "failed_lock_is_none":
                yield "close", lock
                return None
            if self.wrong == "lock_name_unasked":
                return lock
            now = yield "stat", LOCK
            if is_there(now) and now[0] == lock:
                return lock
            yield "close", lock
        return None

    def clears(self) -> Steps:
        """Takes away what a killed program left of a new file; one that is whole stays by a name that is told. Whether that is done."""
        left = yield "stat", NEW
        if not is_there(left):
            return left == NONE
        there = yield "stat", PLACE
        if there == FAIL:
            return False
        is_place_too = there != NONE and there[0] == left[0]
        if has_mark(left[1]) and not is_place_too and self.wrong != "whole_is_removed":
            name = yield from self.unsaved()
            if name is None or (yield ("syncdir",)) == FAIL:
                return False
            yield "tell", name
        return (yield ("unlink", NEW)) != FAIL

    def may_replace(self) -> Steps:
        """Whether what stands there can have a second name, or is what was loaded: a mount can't, nor anything on some disks."""
        there = yield "stat", PLACE
        if there == FAIL:
            return False
        if there == NONE or not has_mark(there[1]) or self.wrong:
            return True
        if (yield ("link", PLACE, NEW)) == DONE:
            return (yield ("unlink", NEW)) != FAIL
        return self.load == PLACE

    def begun(self) -> Steps:
        """The ledger that it begins with, and what was seen of it if it is to be replaced; None where there is none."""
        if self.load is None:
            return frozenset(), None
        found = yield "open", self.load
        seen = FAIL if not is_there(found) else (yield "fstat", found)
        content = TEXT if seen == FAIL else (yield "read", found)
        return (content, seen if self.load == PLACE else None) if is_ledger(content) else None

    def fills(self, file: int, mine: Ledger) -> Steps:
        """Writes the body, puts it on the disk, and only then the mark. Whether that is done."""
        if self.wrong == "mark_first":
            return (yield ("write", file, TORN)) != FAIL and (yield ("write", file, mine)) != FAIL and (yield ("sync", file)) != FAIL
        if (yield ("write", file, BARE)) == FAIL:
            return False
        if self.wrong != "not_synced" and (yield ("sync", file)) == FAIL:
            return False
        if (yield ("write", file, mine)) == FAIL:
            return False
        return self.wrong == "not_synced" or (yield ("sync", file)) != FAIL

    def placed(self, lock: int, file: int, loaded: Any) -> Steps:
        """Gives the new file its place. Answers by which call, or None where it can't have it."""
        for _ in range(TRIES):
            there = yield "stat", PLACE
            if there == FAIL:
                return None
            if there == NONE and self.wrong != "renamed_onto_nothing":
                linked = yield "link", NEW, PLACE
                if linked == DONE:
                    return "link"
                if linked == EXISTS:
                    continue
                # A disk without hard links.
                is_free = (yield ("stat", PLACE)) == NONE
                return "rename" if is_free and (yield ("syncdir",)) != FAIL and (yield ("rename", NEW, PLACE)) == DONE else None
            stays = there != NONE and there[1] != EMPTY and there != loaded
            if stays and not has_mark(there[1]):
                return None
            name = None
            if stays:
                name = yield from self.kept()
                if name is None:
                    return None
            if self.wrong != "not_synced_before" and (yield ("syncdir",)) == FAIL:
                return None
            if name and self.wrong != "told_after":
                yield "tell", name
            if self.wrong != "kept_by_a_rename":
                is_ours = yield from self.are_ours(lock, file)
                if not is_ours:
                    return None
                if (yield ("stat", PLACE)) != there:
                    continue
            is_placed = (yield ("rename", NEW, PLACE)) == DONE
            if name and is_placed and self.wrong == "told_after":
                yield "tell", name
            return "rename" if is_placed else None
        return None

    def are_ours(self, lock: int, file: int) -> Steps:
        """Whether the names of the lock and of the new file still lead to ours."""
        if self.wrong:
            return True
        still = yield "stat", LOCK
        new = yield "stat", NEW
        return is_there(still) and still[0] == lock and is_there(new) and new[0] == file

    def kept(self) -> Steps:
        """The name by which what stands there stays."""
        if self.wrong == "kept_by_a_rename":
            return PREVIOUS if (yield ("rename", PLACE, PREVIOUS)) == DONE else None
        if self.wrong == "previous_is_replaced":
            yield "unlink", PREVIOUS
        return (yield from named_too(PLACE, PREVIOUS))

    def unsaved(self) -> Steps:
        """Gives the new file a name that is told; where it can have no second one, that alone, told before, since its old one may have
        been told. None where it has none."""
        name = yield from named_too(NEW, UNSAVED)
        if name is not None:
            return name
        for number in range(NAMES):
            name = numbered(UNSAVED, number)
            if (yield ("stat", name)) == NONE:
                if self.wrong != "renamed_before_told":
                    yield "tell", name
                return name if (yield ("rename", NEW, name)) == DONE else None
        return None

    def set_aside(self, mine: Ledger) -> Steps:
        """The new file can't have its place: it stays by a name that is told."""
        if self.wrong == "failed_is_removed":
            yield "unlink", NEW
            return (yield from self.released(1))
        name = yield from self.unsaved()
        is_synced = (yield ("syncdir",)) != FAIL
        yield "tell", name or NEW
        if is_synced:
            yield "ack", mine
        if name:
            yield "unlink", NEW
        return (yield from self.released(1))


def named_too(what: str, base: str) -> Steps:
    """Gives what stands under a name one more, the first of these that is free. None where it can have none."""
    for number in range(NAMES):
        linked = yield "link", what, numbered(base, number)
        if linked != EXISTS:
            return numbered(base, number) if linked == DONE else None
    return None


class Mover(NamedTuple):
    """Somebody who moves another ledger into the place, and so asks for the end of what stands there."""

    me: int

    def run(self) -> Steps:
        yield "moves", "other", PLACE
        return 0
