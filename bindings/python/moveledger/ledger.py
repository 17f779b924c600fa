"""Ledgers, and what needs none."""

import json as json_text
from ctypes import byref, c_size_t, c_uint8, c_uint64
from threading import Lock, RLock
from types import TracebackType
from typing import Any, Callable, ContextManager, Dict, Iterator, List, NamedTuple, NoReturn, Optional, Tuple, Type

from . import library as lib
from .errors import NoBlock, Unfinished
from .library import Bytes, Holder, Place, Saving, library
from .names import Address, address_bytes, module_words, struct_words
from .report import Count, Report, Stored, read_words

# At how many keys each page of `Ledger.values` looks.
KEYS = 1024


class Module(NamedTuple):
    """A published module's bytes, and those of the certificate that it was checked with."""

    code: bytes
    certificate: bytes


class Change(NamedTuple):
    """A value that differs from what stood there where a block was opened: its fields in braces, or None where there was or is none."""

    address: str
    struct: str
    before: Optional[str]
    now: Optional[str]


class ChangedModule(NamedTuple):
    """A module that was published in a block, or that replaced one with other bytes or another certificate."""

    name: str
    is_new: bool


class Opened:
    """An open block: how many records had been answered where it was begun, the block around it, and how many are open with it."""

    __slots__ = ("answered", "around", "depth", "is_asked")

    def __init__(self, answered: int, around: Optional["Opened"]) -> None:
        self.answered, self.around = answered, around
        self.depth: int = 1 if around is None else around.depth + 1
        # Whether it was closed by a call of `rollback` or `commit`, and not with a scope around it.
        self.is_asked = False

    def is_in(self, newest: Optional["Opened"]) -> bool:
        """Whether it is the newest block or one around that."""
        while newest is not None and newest.depth > self.depth:
            newest = newest.around
        return newest is self


class Step:
    """A block's opening or closing in the library: what that answered, once it has, and what is then open and answered."""

    __slots__ = ("statuses", "newest", "answered")

    def __init__(self, newest: Optional[Opened], answered: int) -> None:
        self.statuses: List[int] = []
        self.newest, self.answered = newest, answered


class Given(Bytes):
    """The bytes of a report, until they are read; and the report, until it is handed over."""

    report: Optional[Report] = None

    def read(self) -> Report:
        """The report. What is broken off here may be begun again."""
        report = self.report
        if report is None:
            report = self.report = Report(lib.copied(self).decode("ascii"))
        library().bytes_free(byref(self))
        return report


class Ledger:
    """A ledger in memory: an empty one, or the one that was saved. Threads may share it: a call waits for the one before it. A call from within
    a call of the same thread (from the function of `save_to`, or from a signal's handler) would wait for ever: it raises `RuntimeError`.

    A ledger isn't copied: what it saves is another one's beginning. `LoadRefused` where the bytes aren't a saved ledger's; `ValueError` where
    `answered` is no number of records."""

    # A signal's handler may raise an exception wherever Python's own code stands, but not within a call of the library, nor between what is done
    # by one call of something that isn't written in Python. So the library itself writes the number of answered records and the report; what
    # it answers where a block is opened or closed is noted by `list.extend`; and whatever is left half done is put right by the next call.
    def __init__(self, saved: Optional[bytes] = None, answered: int = 0) -> None:
        self._count = c_uint64(counted(answered))
        self._lock = RLock()
        # Held while a call goes on, so that one from within it is told from one of another thread.
        self._within = Lock()
        self._newest: Optional[Opened] = None
        # The step that goes on or was broken off; blocks whose scopes ended within a call; the last report; and those that weren't handed over.
        self._step: Optional[Step] = None
        self._ended: List[Opened] = []
        self._given = Given()
        self._missed: List[Given] = []
        self._holder = Holder()
        self._own, self._place = byref(self._holder), byref(self._count)
        why = c_uint8()
        if saved is None:
            status = library().new(self._own)
        else:
            status = library().load(*lib.text(saved), self._own, byref(why))
        if status != lib.DONE:
            lib.fail(status, why.value)

    @property
    def answered(self) -> int:
        """How many records it has answered, by which lines are numbered; it is no part of what is saved. It goes back with a block. It may be
        set, where no other call goes on: `ValueError` where that is no number of records."""
        return self._state()[1]

    @answered.setter
    def answered(self, answered: int) -> None:
        with self._lock, self._alone():
            self._count.value = counted(answered)

    @property
    def open_blocks(self) -> int:
        """How many blocks are open."""
        newest, _ = self._state()
        return 0 if newest is None else newest.depth

    def apply(self, records: bytes) -> Report:
        """Answers records, in order. A record that is cut off at the end is answered `refused 1`. `Unfinished` where memory runs
        out, with the report's beginning. Where the exception of a signal's handler, such as Ctrl-C's `KeyboardInterrupt`, breaks the call off,
        all records are answered or none, as `answered` tells, and `missed_report` has the report."""
        return self._apply(records, None)

    def _apply(self, records: bytes, opened: Optional[Opened]) -> Report:
        given, (data, length) = Given(), lib.text(records)
        with self._lock, self._alone(opened):
            holder = self._open()
            self._given = given
            status = library().apply(holder, data, length, self._place, byref(given))
            report = given.read()
            unfinished = Unfinished(report) if status == lib.MEMORY else None
        # From here to the end nothing is called, so the report can't be lost.
        given.report = None
        if status == lib.DONE:
            return report
        if unfinished is not None:
            raise unfinished
        lib.fail(status, 0)

    def missed_report(self) -> Optional[Report]:
        """The report of what a call of `apply` answered that was broken off, by the exception of a signal's handler, before it handed the report
        over; of several such calls the lines of all. None where there is none. It is given once, also where the ledger is closed."""
        joined = Given()
        with self._lock, self._alone():
            reports = [given.report for given in self._missed]
            text = "".join(report.text for report in reports if report is not None)
            report = joined.report = Report(text) if text else None
            self._missed = [joined]
        joined.report = None
        return report

    def block(self) -> "Block":
        """A block as a scope: `with ledger.block():` keeps what is answered in it at its end, and takes it back where an exception leaves
        it. Blocks nest."""
        return Block(self)

    def begin(self) -> None:
        """Opens a block: records are answered as ever, and `rollback` takes back what they changed. `OutOfMemory` where memory runs out. Where
        it raises, whatever it is, no block is opened."""
        self._begin()

    def _begin(self) -> Opened:
        opened: Optional[Opened] = None
        try:
            with self._lock, self._alone():
                opened = Opened(self._count.value, self._newest)
                self._do("begin", opened, opened.answered)
            return opened
        except BaseException:
            if opened is not None:
                self._end(opened)
            raise

    def rollback(self) -> None:
        """Closes the newest block, and takes back what was changed in it: the ledger, and `answered`, are as they were then. `NoBlock`."""
        with self._lock, self._alone():
            self._close("rollback", True)

    def commit(self) -> None:
        """Closes the newest block, and keeps what was changed in it, as a part of the block around it, if there is one. `NoBlock`."""
        with self._lock, self._alone():
            self._close("commit", True)

    def _close(self, name: str, is_asked: bool) -> None:
        newest, answered = self._newest, self._count.value
        if newest is None:
            # (the library says that none is open)
            self._do(name, None, answered)
        else:
            newest.is_asked = is_asked
            self._do(name, newest.around, newest.answered if name == "rollback" else answered)

    def _do(self, name: str, newest: Optional[Opened], answered: int) -> None:
        """A step of blocks, and what is open and answered after it."""
        holder, call = self._open(), getattr(library(), name)
        step = self._step = Step(newest, answered)
        step.statuses.extend(map(call, (holder,)))
        self._settle_step()
        if step.statuses[0] != lib.DONE:
            lib.fail(step.statuses[0], 0)

    def _end(self, opened: Opened) -> None:
        """Takes back a block whose scope has ended. Where that can't be, since a call of this thread goes on, the next one does it."""
        with self._lock:
            if self._within.locked():
                self._ended.append(opened)
            else:
                with self._alone():
                    self._take_back(opened, False)

    def _take_back(self, opened: Opened, is_asked: bool) -> None:
        """Closes a block, if it is open, and those within it, and takes back what was changed in them."""
        if self._holder.own and opened.is_in(self._newest):
            while self._newest is not None and self._newest.depth >= opened.depth:
                self._close("rollback", is_asked)

    def changes(self) -> List[Change]:
        """What is stored otherwise than where the newest block was opened, by ascending address. It takes as long as what runs changed in
        the block. `NoBlock`."""
        before, now = self.changes_json()
        values: Dict[Tuple[str, str], List[Optional[str]]] = {}
        for side, entries in enumerate((before, now)):
            for entry in entries:
                values.setdefault((entry["address"], entry["struct"]), [None, None])[side] = entry["value"]
        return sorted((Change(*key, *both) for key, both in values.items()), key=lambda change: change.address)

    def changes_json(self) -> Tuple[List[Dict[str, str]], List[Dict[str, str]]]:
        """The same as two shows: the values that the changed keys had, and those that they have, each with its `address`, `struct` and
        `value`."""
        before, now = Bytes(), Bytes()
        with self._lock, self._alone():
            status = library().changes(self._open(), byref(before), byref(now))
        texts = [library().taken(given).decode("ascii") for given in (before, now)]
        if status != lib.DONE:
            lib.fail(status, 0)
        shown: List[Any] = [json_text.loads(text.split(" ", 1)[1])["show"] for text in texts]
        return shown[0], shown[1]

    def changed_modules(self) -> List[ChangedModule]:
        """The modules that were published since the newest block was opened, and those that were replaced, in order of publication.
        `NoBlock`."""
        with self._lock, self._alone():
            lines = library().answer("changed_modules", self._open()).decode("ascii").splitlines()
        words = (line.split(" ") for line in lines)
        return [ChangedModule(name, word == "published") for word, name in words]

    def save(self) -> bytes:
        """The ledger's text, as `moveledger apply --save` writes it. Equal ledgers have equal texts."""
        with self._lock, self._alone():
            return library().answer("save", self._open())

    def save_to(self, write: Callable[[bytes], Any]) -> None:
        """Calls a function, such as the `write` of a binary file, with the same text in pieces of at most 65,536 bytes. The memory that this
        needs doesn't grow with what is stored. Other threads' calls of this ledger wait meanwhile, and one of the function's own raises
        `RuntimeError`; it may look at `answered`."""
        saving = Saving()
        with self._lock, self._alone():
            holder = self._open()
            try:
                status = library().save_begin(byref(saving))
                while status == lib.DONE:
                    piece = library().found("save_next", holder, byref(saving))
                    if piece is None:
                        return
                    write(piece)
                lib.fail(status, 0)
            finally:
                library().save_end(byref(saving))

    def show(self) -> List[Stored]:
        """The stored values, as a show has them."""
        return stored_in(self.show_text())

    def audit(self) -> List[Count]:
        """The counts of structs with neither copy nor drop, as an audit has them."""
        lines = (read_words(0, line) for line in self.audit_text().splitlines())
        return [line for line in lines if isinstance(line, Count)]

    def show_text(self, json: bool = False) -> str:
        """The lines of a show, without numbers, as text or JSON."""
        with self._lock, self._alone():
            return library().answer("show", self._open(), int(json)).decode("ascii")

    def audit_text(self, json: bool = False) -> str:
        """The lines of an audit, without numbers, as text or JSON."""
        with self._lock, self._alone():
            return library().answer("audit", self._open(), int(json)).decode("ascii")

    def value(self, address: Address, struct: str) -> Optional[str]:
        """The value of a struct that is stored at an address: its fields in braces. None where there is none. An address is a number or
        hexadecimal; a struct is named as `0x1::M::Coin`, or as a line of a show has it."""
        text = self.show_value(address, struct)
        return None if text is None else stored_in(text)[0].value

    def value_json(self, address: Address, struct: str) -> Optional[Dict[str, str]]:
        """The same as JSON, which is read: its `address`, `struct` and `value`."""
        text = self.show_value(address, struct, json=True)
        if text is None:
            return None
        entries: List[Dict[str, str]] = json_text.loads(text.split(" ", 1)[1])["show"]
        return entries[0]

    def show_value(self, address: Address, struct: str, json: bool = False) -> Optional[str]:
        """The same as the lines of a show of that value alone."""
        place, words = address_bytes(address), struct_words(struct)
        with self._lock, self._alone():
            data = library().found("show_value", self._open(), place, *words, int(json))
        return None if data is None else data.decode("ascii")

    def values_at(self, address: Address) -> List[Stored]:
        """The values that are stored at an address."""
        return stored_in(self.show_at(address))

    def show_at(self, address: Address, json: bool = False) -> str:
        """The same as the lines of a show of these values alone."""
        place = address_bytes(address)
        with self._lock, self._alone():
            return library().answer("show_at", self._open(), place, int(json)).decode("ascii")

    def values(self, struct: str, start: Address = 0) -> Iterator[Stored]:
        """The values of a struct at addresses from `start` on, by ascending address. They are asked for page by page, so that few of them
        stand in memory; what is applied meanwhile is told from where the walk stands. A struct's values have no index of their own: all
        that is stored is passed. A struct that isn't published has none."""
        page = self.show_page(struct, start, KEYS)
        while page is not None:
            text, after = page
            yield from stored_in(text)
            page = None if after is None else self.show_page(struct, after, KEYS)

    def show_page(self, struct: str, start: Address, most: int, json: bool = False) -> Optional[Tuple[str, Optional[int]]]:
        """A page of them: the lines of a show of its values alone, and the address from which the next page goes on, or None where no
        value is left. At most `most` keys are looked at, of whichever structs they are. None where no such struct is published."""
        if not 1 <= most < 1 << 64:
            raise ValueError(f"a page looks at 1 key at least, and not at {most}")
        place, words = Place.from_buffer_copy(address_bytes(start)), struct_words(struct)
        given, is_more = Bytes(), c_uint8()
        with self._lock, self._alone():
            status = library().show_page(self._open(), *words, byref(place), most, int(json), byref(given), byref(is_more))
        text = library().taken(given).decode("ascii")
        if not lib.is_found(status):
            return None
        return text, int.from_bytes(bytes(place), "big") if is_more.value else None

    def modules(self) -> List[str]:
        """The names of the published modules in order of publication, as `ADDRESS::MODULE`."""
        with self._lock, self._alone():
            return library().answer("modules", self._open()).decode("ascii").splitlines()

    def module(self, name: str) -> Optional[Module]:
        """The module of a name, as `0x1::M`. None where there is none."""
        words, code, certificate = module_words(name), Bytes(), Bytes()
        with self._lock, self._alone():
            status = library().module(self._open(), *words, byref(code), byref(certificate))
        found = Module(library().taken(code), library().taken(certificate))
        return found if lib.is_found(status) else None

    def runs(self) -> int:
        """How many runs were begun, whatever became of them."""
        runs = c_uint64()
        with self._lock, self._alone():
            status = library().runs(self._open(), byref(runs))
        return runs.value if status == lib.DONE else lib.fail(status, 0)

    def tally(self, struct: str) -> Optional[Count]:
        """The count of a struct, as an audit has it. None where no such struct is published, or where it has copy or drop."""
        words, packed, unpacked = struct_words(struct), c_uint64(), c_uint64()
        with self._lock, self._alone():
            status = library().tally(self._open(), *words, byref(packed), byref(unpacked))
        if not lib.is_found(status):
            return None
        home, _, own = struct.partition("::")
        return Count(0, f"{address_bytes(home).hex()}::{own}", packed.value - unpacked.value, packed.value, unpacked.value)

    def close(self) -> None:
        """Frees the ledger, with its open blocks. It answers nothing any more."""
        with self._lock, self._alone():
            library().free(self._own)
            self._newest = None

    def _open(self) -> Any:
        """What calls take for the ledger."""
        if not self._holder.own:
            raise ValueError("the ledger is closed")
        return self._own

    def _alone(self, opened: Optional[Opened] = None) -> ContextManager[bool]:
        """What is held while a call goes on, by a thread that has the lock. What was left half done is put right before. `NoBlock` where the call
        is one of a block that isn't open."""
        if self._within.locked():
            raise RuntimeError("a call of this ledger goes on in this thread: the function of save_to, or a signal's handler, made another one")
        given = self._given
        if self._step is not None or self._ended or given.report is not None or given.length:
            with self._within:
                self._settle()
        if opened is not None and not opened.is_in(self._newest):
            raise NoBlock("the block is closed")
        return self._within

    def _settle(self) -> None:
        """Puts right what was broken off. It may itself be broken off, and begun again."""
        self._settle_step()
        given = self._given
        if given.report is not None or given.length:
            given.read()
            if given not in self._missed:
                self._missed = [*(it for it in self._missed if it.report is not None), given]
            self._given = Given()
        while self._ended:
            self._take_back(self._ended[0], False)
            del self._ended[:1]

    def _settle_step(self) -> None:
        self._newest, self._count.value = self._state()
        self._step = None

    def _state(self) -> Tuple[Optional[Opened], int]:
        """The newest open block, and how many records are answered."""
        step = self._step
        if step is not None and step.statuses == [lib.DONE]:
            return step.newest, step.answered
        return self._newest, self._count.value

    def __reduce__(self) -> NoReturn:
        raise TypeError("a ledger isn't copied or pickled: Ledger(ledger.save(), ledger.answered) is one like it")

    def __enter__(self) -> "Ledger":
        return self

    def __exit__(self, kind: Optional[Type[BaseException]], error: Optional[BaseException],
                 trace: Optional[TracebackType]) -> None:
        self.close()

    def __del__(self) -> None:
        if hasattr(self, "_holder") and self._holder.own:
            self.close()


class Block:
    """A block of a ledger as a scope. It is opened where the scope begins, and closed where that ends: kept, or taken back where an exception
    leaves it. What it is asked while it isn't open raises `NoBlock`. It may be opened again when it is closed; `RuntimeError` before.

    A scope closes no block but its own and those within it. Where it ends while one within it is still open, such as that of a generator that
    waits in its scope, both are taken back, with a `RuntimeError` if no exception leaves it. The end of a scope whose block was taken back
    so raises `NoBlock`, if no exception leaves it: what was answered in it isn't kept."""

    def __init__(self, ledger: Ledger) -> None:
        self.ledger = ledger
        self._opened = Opened(0, None)

    def __enter__(self) -> "Block":
        opened: Optional[Opened] = None
        try:
            with self.ledger._lock:
                if self._is_open():
                    raise RuntimeError("the block is open already")
                opened = self._opened = self.ledger._begin()
            return self
        except BaseException:
            if opened is not None:
                self.ledger._end(opened)
            raise

    def apply(self, records: bytes) -> Report:
        """Answers records, as the ledger does: in the newest block, that is in this one or in one that was opened within it."""
        return self.ledger._apply(records, self._opened)

    def changes(self) -> List[Change]:
        """What is stored otherwise than where the newest block was opened, as `Ledger.changes` tells it."""
        with self.ledger._lock:
            self._need_open()
            return self.ledger.changes()

    def changed_modules(self) -> List[ChangedModule]:
        """The modules that were published or replaced, as `Ledger.changed_modules` tells them."""
        with self.ledger._lock:
            self._need_open()
            return self.ledger.changed_modules()

    def rollback(self) -> None:
        """Takes back what was answered in the block, and closes it before its scope ends, which then does nothing. Blocks that were opened within
        it are taken back with it, and the ends of their scopes do nothing either. `NoBlock` where it is closed already."""
        with self.ledger._lock, self.ledger._alone(self._opened):
            self.ledger._take_back(self._opened, True)

    def _is_open(self) -> bool:
        return self._opened.is_in(self.ledger._state()[0])

    def _need_open(self) -> None:
        if not self._is_open():
            raise NoBlock("the block is closed")

    def __exit__(self, kind: Optional[Type[BaseException]], error: Optional[BaseException],
                 trace: Optional[TracebackType]) -> None:
        try:
            if kind is None:
                self._keep()
            else:
                self.ledger._end(self._opened)
        except BaseException:
            # (also where a signal's handler broke that off)
            self.ledger._end(self._opened)
            raise

    def _keep(self) -> None:
        ledger, opened = self.ledger, self._opened
        with ledger._lock, ledger._alone():
            ledger._open()
            if ledger._newest is opened:
                ledger._close("commit", True)
            elif opened.is_in(ledger._newest):
                raise RuntimeError("a block that was opened within this one is still open: both are taken back")
            elif not opened.is_asked:
                raise NoBlock("the block was taken back with one around it, whose scope has ended")


def stored_in(text: str) -> List[Stored]:
    """The values in the lines of a show."""
    lines = (read_words(0, line) for line in text.splitlines())
    return [line for line in lines if isinstance(line, Stored)]


def counted(answered: int) -> int:
    """A number of records, as it may be."""
    if not 0 <= answered < 1 << 64:
        raise ValueError(f"{answered} is no number of answered records: it is at least 0, and below 2^64")
    return answered


class Record(NamedTuple):
    """A record that isn't answered yet: its kind (1 publish, 2 run, 3 show, 4 audit), and how many bytes it takes, behind which the next one
    begins. Of a publish or a run record, its sender; and of a run, the most steps that it may take. `sender` is None where the payload isn't
    that of such a record."""

    kind: int
    length: int
    sender: Optional[int]
    budget: int

    @property
    def most_bytes(self) -> int:
        """The most bytes that a run adds to a ledger, on average: a value for each three steps. 0 for other kinds, whose bytes say it."""
        return self.budget // 3 * 4300 if self.budget <= 10_000_000 else 0


def first_record(records: bytes) -> Optional[Record]:
    """The record that bytes begin with, without answering it. None where no whole one stands there."""
    size, kind, is_shaped, sender, budget = c_size_t(), c_uint8(), c_uint8(), Place(), c_uint64()
    words = [byref(place) for place in (size, kind, is_shaped, sender, budget)]
    if not lib.is_found(library().read_record(*lib.text(records), *words)):
        return None
    return Record(kind.value, size.value, int.from_bytes(bytes(sender), "big") if is_shaped.value else None, budget.value)


def prove(module: bytes, steps: Optional[int] = None) -> bytes:
    """A certificate of a module. `Refused` where none passes; `TooComplex`. Where a number of steps is given, the search takes no more: then
    `TooLong`. A step is one instruction of one visit of its block by the search."""
    if steps is None:
        return bytes.fromhex(library().judged("prove", *lib.text(module)).decode("ascii"))
    if not 0 <= steps < 1 << 64:
        raise ValueError(f"{steps} is no number of steps: it is at least 0, and below 2^64")
    return bytes.fromhex(library().judged("prove_within", *lib.text(module), steps).decode("ascii"))


def check(module: bytes, certificate: bytes) -> None:
    """`Refused` where a module doesn't pass with a certificate."""
    why, text = c_uint8(), certificate.hex().encode("ascii")
    status = library().check(*lib.text(module), *lib.text(text), byref(why))
    if status != lib.DONE:
        lib.fail(status, why.value)


def migrate(saved: bytes) -> bytes:
    """The text in the current form of a saved ledger of either form. `LoadRefused` where it isn't one."""
    return library().judged("migrate", *lib.text(saved))
