"""How much memory loads and shows take beside the ledger, and how the time of a load grows with its bytes: ledgers of modules of which
the first was upgraded to name the last, of modules that name all before them, and of chains saved in either order; and a show or an
audit as text and as JSON of many values and structs. A time is the processor's, the least of several tries, less what the program takes
for nothing. A row above its bound is marked, and the script then ends with status 1.

usage: python3 bench/memory.py PROGRAM FOLDER [--more]    with --more also 800 modules of 60 KB and 4,094 that name each other, which
takes up to 3 GB and some minutes with earlier programs; FOLDER is kept"""

import argparse
import os
from dataclasses import replace
from pathlib import Path
from typing import Callable, Dict, List, Sequence, Tuple

import growth
import inputs
import process
from costs import Program
from inputs import Module, model, publish, record, run, u64, writer
from process import Word

TRIES = 3
# Memory of a load, in times what the ledger takes while it runs; its time for twice as many bytes; KB of a show beside the ledger.
TIMES, LINEAR, BESIDE = 1.5, 2.4, 1_024
LARGE, MORE_LARGE = 200, 800
NAMING, MORE_NAMING = (500, 1_000), (2_047, 4_094)
CHAINED = 2_000, 4_000
# So many values of one leaf, and so many structs in each of as many modules.
COINS = 100_000, 200_000
STRUCTS, HOMES = 1_900, (16, 32)
NO_STATE = b""


class Memory:
    """Runs the program over streams and saved ledgers of a folder."""

    def __init__(self, program: Program):
        self.program, self.folder, self.above = program, program.folder, 0
        (self.folder / "nothing.stream").write_bytes(b"")
        self.nothing = self.seconds()

    def words(self, *words: Word) -> List[Word]:
        return [self.program.path, "apply", *words]

    def seconds(self, *options: Word) -> float:
        words = self.words(*options, "nothing.stream")
        return min(process.seconds_of(process.used(words, self.folder)) for _ in range(TRIES))

    def running(self, records: Sequence[bytes]) -> int:
        """The KB of memory that the program takes for records."""
        (self.folder / "memory.stream").write_bytes(b"".join(records))
        return process.memory(self.words("memory.stream"), self.folder)

    def saved(self, records: Sequence[bytes]) -> int:
        """Saves the ledger that records leave, each of which publishes, and tells its size."""
        ledger = self.folder / "memory.ledger"
        ledger.unlink(missing_ok=True)
        (self.folder / "memory.stream").write_bytes(b"".join(records))
        lines = process.printed(self.words("--save", ledger.name, "memory.stream"), self.folder).splitlines()
        refused = [line for line in lines if " published " not in line]
        assert len(lines) == len(records) and not refused, refused[:3]
        return ledger.stat().st_size

    def load(self) -> Tuple[float, int]:
        """The seconds and the KB of loading what is saved."""
        options = "--load", "memory.ledger"
        return self.seconds(*options) - self.nothing, process.memory(self.words(*options, "nothing.stream"), self.folder)

    def tell(self, text: str, is_above: bool) -> None:
        self.above += is_above
        print(f"memory: {text}{'  ABOVE' if is_above else ''}", flush=True)


def calling(m: Module, others: Sequence[str]) -> Module:
    """A module with a function, which calls that of the first one of others; it names those of all."""
    for other in others:
        m.foreign_function(other, "f", "u64", "u64")
    m.function("f", "u64", "u64", "", f"MoveLoc 0; {f'Call {others[0]}::f;' if others else ''} Ret", entry=False)
    return m


class Large:
    """Modules of 60 KB that each call a function of one other."""

    def __init__(self, program: Program):
        self.module = calling(inputs.all_families(inputs.LARGE, 5), ["U"])
        self.certificate = program.certificate(self.module.bytes())
        self.other = self.module.tables().identifiers.index("U")

    def published(self, own: str, other: str) -> bytes:
        """The record that publishes one, by its name and the other's."""
        self.module.tables().identifiers[self.other] = other
        return record(1, publish((self.module.renamed(own), self.certificate)))


def tell_large(memory: Memory, count: int) -> None:
    """Ledgers of many modules of 60 KB, behind a first one that names none, or that was upgraded to name the last: alike, and in a
    chain."""
    program, large = memory.program, Large(memory.program)
    first, own = program.published(calling(Module("A"), []).bytes()), program.published(calling(Module("U"), []).bytes())
    before = [first, own, program.published(inputs.helping().bytes())]
    behind = program.published(calling(Module("A"), [f"L{count - 1}"]).bytes())
    alike = [large.published(f"L{n}", "U") for n in range(count)]
    chain = [large.published(f"L{n}", f"L{n - 1}" if n else "U") for n in range(count)]
    for what, many in ("alike", alike), ("in a chain", chain):
        for how, records in ("behind one that names none", [*before, *many]), ("behind one that was upgraded to name the last", [*before, *many, behind]):
            running, size = memory.running(records), memory.saved(records)
            seconds, loading = memory.load()
            memory.tell(f"{count} modules of 60 KB {what}, {how}, {size / 1e6:.1f} MB saved: {running / 1024:.0f} MB while it runs, "
                        f"{loading / 1024:.0f} MB to load, {loading / running:.2f} times as much (bound: {TIMES}), in {seconds:.2f} s",
                        loading > TIMES * running)


class Naming:
    """Small modules that each name a function of many others. Their handles are made without a text, which would take long."""

    def __init__(self, program: Program):
        self.certificate = program.certificate(calling(Module("D"), []).bytes())

    def offer(self, own: int, others: Sequence[int]) -> model.Offer:
        """One that names others, by their numbers."""
        tables = calling(Module(f"D{own}"), []).tables()
        handle = tables.function_handles[0]
        for other in others:
            tables.identifiers.append(f"D{other}")
            tables.module_handles.append(model.ModuleHandle(0, len(tables.identifiers) - 1))
            tables.function_handles.append(replace(handle, module=len(tables.module_handles) - 1))
        return model.Offer(writer.write_module(tables), self.certificate)


# Makes the offers of a ledger of so many modules, in the order in which they are saved.
Made = Callable[[int], List[model.Offer]]


def tell_growth(memory: Memory, what: str, counts: Sequence[int], made: Made) -> None:
    """How long ledgers of so many modules take to be loaded, against their bytes."""
    sizes: List[int] = []
    spent: List[float] = []
    for count in counts:
        text = writer.write_ledger(model.Ledger(2, 0, made(count)))
        (memory.folder / "memory.ledger").write_bytes(text)
        seconds, held = memory.load()
        sizes.append(len(text))
        spent.append(max(seconds, 1e-3))
        print(f"memory: {count} modules {what}, {len(text) / 1e6:.2f} MB: loaded in {seconds:.3f} s, with {held / 1024:.0f} MB", flush=True)
    bytes_times, times = sizes[1] / sizes[0], spent[1] / spent[0]
    bound = bytes_times * LINEAR / 2
    memory.tell(f"modules {what}: {bytes_times:.2f} times the bytes take {times:.2f} times the time (bound: {bound:.2f})", times > bound)


def tell_loads(memory: Memory, counts: Sequence[int]) -> None:
    """Loads of ledgers whose modules name each other, of so many that name all before and of chains."""
    small = Naming(memory.program)

    def dense(n: int) -> List[model.Offer]:
        return [small.offer(k, range(k)) for k in range(n)]

    tell_growth(memory, "that each name all before", counts, dense)
    tell_growth(memory, "that each name all before, behind one that names the last", counts, lambda n: [small.offer(n, [n - 1]), *dense(n)])
    tell_growth(memory, "that each name all that are saved behind", counts, lambda n: dense(n)[::-1])
    tell_growth(memory, "in a chain", CHAINED, lambda n: [small.offer(k, [k - 1] if k else []) for k in range(n)])
    tell_growth(memory, "in a chain, each saved before the one that it names", CHAINED,
                lambda n: [small.offer(k, [k + 1] if k + 1 < n else []) for k in range(n)])


def tell_shows(memory: Memory) -> None:
    """Shows and audits as text and as JSON."""
    coin = memory.program.published(inputs.working().bytes())
    cases: Dict[str, Tuple[List[bytes], int]] = {}
    for count in COINS:
        senders = ((n * 0x9E3779B97F4A7C15 % 2**64) << 64 for n in range(count))
        cases[f"a show of {count:,} coins"] = [coin, *(record(2, run("mint", 100, u64(7), sender=sender)) for sender in senders)], 3
    for count in HOMES:
        homes = [record(1, publish((growth.assets(STRUCTS, f"A{k}"), NO_STATE))) for k in range(count)]
        cases[f"an audit of {count * STRUCTS:,} structs"] = homes, 4
    for what, (before, kind) in cases.items():
        alone = memory.running(before)
        for form, payload in ("text", b""), ("JSON", b"\x01"):
            beside = memory.running([*before, record(kind, payload)]) - alone
            memory.tell(f"{what} as {form}: {beside:,} KB beside {alone:,} (bound: {BESIDE:,})", beside > BESIDE)


def tell(program: Path, folder: Path, more: bool = False) -> int:
    """Prints a line for each measurement, and answers how many are above a bound."""
    os.makedirs(folder, exist_ok=True)
    memory = Memory(Program(program, folder.resolve()))
    tell_shows(memory)
    tell_loads(memory, NAMING)
    tell_large(memory, LARGE)
    if more:
        tell_loads(memory, MORE_NAMING)
        tell_large(memory, MORE_LARGE)
    print(f"memory: {memory.above} above a bound", flush=True)
    return memory.above


def main() -> int:
    words = argparse.ArgumentParser(description=__doc__, formatter_class=argparse.RawDescriptionHelpFormatter)
    words.add_argument("program", type=Path)
    words.add_argument("folder", type=Path)
    words.add_argument("--more", action="store_true")
    asked = words.parse_args()
    return 1 if tell(asked.program, asked.folder, asked.more) else 0


if __name__ == "__main__":
    raise SystemExit(main())
