"""What records store, answer and need at most for their bytes and their steps, by small streams: for docs/EMBEDDING.md, from which a
chain can price them. Memory is the most that the program held, less what it held for the records before, and so with what it needed for a
while; where there are many records it is told for each of the second half, which is what stays. The saved ledger is longer by what a
record stores. Nothing is held to a bound.

usage: python3 bench/prices.py PROGRAM FOLDER    FOLDER is kept; it gets each stream as a file"""

import os
import sys
from pathlib import Path
from typing import Iterator, List, NamedTuple, Sequence, Tuple

import growth
import inputs
import process
from costs import Program, many_foreign, many_own
from inputs import ASSET, PLAIN, Module, model, publish, record, run, u64
from movetext.reader import read_module
from runs import WIDE

STORED, SENDERS, COINS, OWNER = 2_000, 6, 100_000, 7
# The fields of a struct of eight leaves of 128 bits, of which 32 make one of 256.
ROW = "; ".join(f"a{n}: u128" for n in range(8))
NO_STATE = b""


def made(row: int, wide: int) -> str:
    """Makes a value of 256 leaves in a local, over another one that holds a part of it."""
    return "LdU128 7;" * 8 + f"Pack Row; StLoc {row};" + f"CopyLoc {row};" * 32 + f"Pack Wide; StLoc {wide};"


class Stream(NamedTuple):
    """A stream's name, what it does, the records before, those that are measured, and how many things they make."""

    name: str
    what: str
    before: Sequence[bytes]
    offered: Sequence[bytes]
    times: int


def storing() -> bytes:
    """A module whose function stores a value of 256 leaves of each of 2,000 structs under the sender, takes a field's reference of each,
    or writes there."""
    m = Module()
    m.struct("Row", PLAIN, ROW)
    m.struct("Wide", PLAIN, WIDE)
    m.add_names(["w"])
    for n in range(STORED):
        m.struct(f"S{n:x}", "has key", "w: Wide")
    half = STORED // 2
    for part in 0, 1:
        code = "".join(f"CopyLoc 0; CopyLoc 1; Pack S{n:x}; MoveTo S{n:x};" for n in range(part * half, part * half + half))
        m.function(f"part{part}", "&signer; Wide", "", "", code + "Ret", entry=False)
    calls = "".join(f"ImmBorrowLoc 0; CopyLoc 1; Call part{part};" for part in (0, 1))
    m.function("store", "signer", "", "Wide; Row", made(2, 1) + calls + "Ret")
    return m.bytes()


def changing(count: int) -> bytes:
    """A module whose function writes one leaf of a value of 256 leaves under each of so many structs."""
    m = Module()
    m.struct("Row", PLAIN, ROW)
    m.struct("Wide", PLAIN, WIDE)
    names = [f"S{n:x}" for n in range(count)]
    for name in names:
        m.struct(name, "has key", "w: Wide")
    stores = "".join(f"ImmBorrowLoc 0; CopyLoc 1; Pack {name}; MoveTo {name};" for name in names)
    m.function("store", "signer", "", "Wide; Row", made(2, 1) + stores + "Ret")
    writes = "".join(f"LdU128 9; CopyLoc 0; MutBorrowGlobal {name}; MutBorrowField {name}.w; MutBorrowField Wide.r0; MutBorrowField Row.a0; WriteRef;" for name in names)
    m.function("write", "address", "", "", writes + "Ret", ", ".join(names))
    m.function("take", "address", "", "", "".join(f"CopyLoc 0; MoveFrom {name}; Unpack {name}; Pop;" for name in names) + "LdU64 1; Abort", ", ".join(names))
    return m.bytes()


def longest() -> bytes:
    """A module with the value whose line is the longest: 256 leaves of 128 bits, each within as many structs as can be, and names of 128
    bytes."""
    m = Module("M" * 128)
    m.struct("T0", PLAIN, "v: u128")
    for n in range(1, 6):
        m.struct(f"T{n}", PLAIN, f"t: T{n - 1}")
    m.struct("Mid", PLAIN, "; ".join(f"m{n}: T5" for n in range(32)))
    own = "S" * 128
    m.struct(own, "has key", "; ".join(f"s{n}: Mid" for n in range(8)))
    deep = "".join(f"Pack T{n};" for n in range(6))
    m.function("store", "signer", "", "T5; Mid", f"LdU128 {2**128 - 1}; {deep} StLoc 1; {'CopyLoc 1;' * 32} Pack Mid; StLoc 2; ImmBorrowLoc 0; {'CopyLoc 2;' * 8} Pack {own}; MoveTo {own}; Ret")
    return m.bytes()


def nops(own: str) -> bytes:
    """A module of functions of instructions of one byte."""
    m = Module(own)
    for n in range(15):
        m.function(f"f{n}", "", "", "", "Nop;" * 4_095 + "Ret", entry=False)
    return m.bytes()


def listed(own: str) -> bytes:
    """A module of as many public functions as can be, with as many parameters and results."""
    m = Module(own)
    kinds = "bool", "u8", "u64", "u128", "address"
    for n in range(256):
        taken = "; ".join(kinds[n // 5 ** (k % 5) % 5] for k in range(16))
        m.function(f"f{n}", taken, "", "", "Ret", entry=False)
    return m.bytes()


def streams(program: Program) -> Iterator[Stream]:
    """What is measured."""
    at = model.Value(model.ADDRESS, inputs.address(OWNER))
    stores = program.published(storing())
    store = record(2, run("store", 10_000_000, sender=OWNER))
    senders = range(OWNER, OWNER + SENDERS)
    yield Stream("stored-256", "values of 256 leaves stored, 2,000 by each run", [stores],
                 [record(2, run("store", 10_000_000, sender=sender)) for sender in senders], STORED * SENDERS)
    coin = program.published(inputs.working().bytes())
    mints = [record(2, run("mint", 100, u64(7), sender=(n * 0x9E3779B97F4A7C15 % 2**64) << 64)) for n in range(COINS)]
    yield Stream("stored-1", "values of one leaf stored, a run each", [coin], mints, COINS)
    few = 500
    change = [program.published(changing(few)), store]
    yield Stream("changed", "values of 256 leaves of which one leaf is written", change, [record(2, run("write", 10_000_000, at))], few)
    yield Stream("taken", "values of 256 leaves taken out by a run that aborts", change, [record(2, run("take", 10_000_000, at))], few)
    yield Stream("packed", "structs of which a value is packed and unpacked", *packed(program))
    long = program.published(longest())
    longest_run = record(2, run("store", 10_000_000, sender=OWNER, module="M" * 128))
    yield Stream("shown", "longest line of a show", [long, longest_run], [record(3, b"")], 1)
    yield Stream("shown-json", "the same as JSON", [long, longest_run], [record(3, b"\x01")], 1)
    yield Stream("counted", "lines of an audit", [record(1, publish((growth.assets(1_900, "A"), NO_STATE)))], [record(4, b"")], 1_900)
    helping, large = program.published(inputs.helping().bytes()), inputs.all_families(inputs.LARGE, 5)
    found = program.certificate(large.bytes())
    yield Stream("ordinary", "ordinary modules of 60 KB", [helping], [record(1, publish((large.renamed(f"L{n}"), found))) for n in range(100)], 100)
    bare = program.certificate(nops("N"))
    yield Stream("nops", "modules of instructions of one byte", [], [record(1, publish((nops(f"N{n}"), bare))) for n in range(40)], 40)
    yield Stream("empty", "empty modules", [], [record(1, publish((Module(f"E{n}").bytes(), NO_STATE))) for n in range(4_000)], 4_000)
    yield Stream("structs", "modules of 1,900 structs that are counted", [], [record(1, publish((growth.assets(1_900, f"A{n}"), NO_STATE))) for n in range(40)], 40)
    yield Stream("fields", "modules of 3,000 structs", [], [record(1, publish((many_own(3_000, f"H{n}"), NO_STATE))) for n in range(40)], 40)
    home = record(1, publish((many_own(3_000), NO_STATE)))
    yield Stream("foreign", "modules that name 3,000 structs of another one", [home], [record(1, publish((many_foreign(3_000, f"F{n}"), NO_STATE))) for n in range(40)], 40)
    public = program.certificate(listed("P"))
    yield Stream("public", "modules of 256 public functions of 16 parameters", [], [record(1, publish((listed(f"P{n}"), public))) for n in range(40)], 40)
    stated = growth.stating(126, growth.MOST_EDGES)
    yield Stream("stated", "the same module of a certificate of 1 MB, replaced", [record(1, publish(stated))], [record(1, publish(stated))] * 3, 3)
    yield Stream("stated-once", "module of a certificate of 1 MB", [], [record(1, publish(stated))], 1)
    named = Module("M")
    named.assembled = read_module(stated[0]).module
    yield Stream("stated-bundle", "such modules in one bundle", [], [record(1, publish(*((named.renamed(f"T{n}"), stated[1]) for n in range(16))))], 16)


def packed(program: Program) -> Tuple[List[bytes], List[bytes], int]:
    """A run that packs and unpacks an asset of each struct of modules."""
    count, each = 10, 1_500
    m, calls = Module(), ""
    before: List[bytes] = []
    for k in range(count):
        home = Module(f"P{k}")
        home.add_names(["v"])
        for n in range(each):
            home.struct(f"A{n:x}", ASSET, "v: bool")
        home.function("pack", "bool", "bool", "", "MoveLoc 0;" + "".join(f"Pack A{n:x}; Unpack A{n:x};" for n in range(each)) + "Ret", entry=False)
        before.append(program.published(home.bytes()))
        m.foreign_function(f"P{k}", "pack", "bool", "bool")
        calls += f"Call P{k}::pack;"
    m.function("f", "", "", "", f"LdTrue; {calls} Pop; Ret")
    return [*before, program.published(m.bytes())], [record(2, run("f", 10_000_000))], count * each


def saved(program: Program, records: Sequence[bytes], name: str) -> int:
    """The length of the saved ledger."""
    (program.folder / name).write_bytes(b"".join(records))
    ledger = program.folder / "prices.ledger"
    ledger.unlink(missing_ok=True)
    process.used([program.path, "apply", "--save", ledger.name, name], program.folder)
    return ledger.stat().st_size


def tell(program: Program, stream: Stream) -> None:
    """Prints a line for a stream."""
    records, half = [*stream.before, *stream.offered], len(stream.offered) // 2
    names = [f"{stream.name}{part}.stream" for part in ("", "-half", "-before")]
    longer = saved(program, records, names[0]) - saved(program, stream.before, names[2])
    (program.folder / names[1]).write_bytes(b"".join([*stream.before, *stream.offered[:half]]))
    words: List[process.Word] = [program.path, "apply"]
    whole, less, least = (1024 * process.memory([*words, name], program.folder) for name in names)
    report = process.printed([*words, names[0]], program.folder)
    answered = len(report) - len(process.printed([*words, names[2]], program.folder))
    last, size = report.splitlines()[-1].split(), sum(map(len, stream.offered))
    each = f"{(whole - less) / (stream.times - stream.times // 2):,.0f} each behind the first half" if half else f"{(whole - least) / stream.times:,.0f} each"
    steps = f", {int(last[-1]):,} steps in the last" if last[1] in ("returned", "aborted") else ""
    print(f"prices: {stream.name}: {stream.times:,} {stream.what}: {size:,} bytes of records{steps}; memory {whole - least:,} bytes, {each}; "
          f"saved {longer:,} bytes, {longer / stream.times:,.0f} each; answered {answered:,} bytes", flush=True)


def main() -> None:
    os.makedirs(sys.argv[2], exist_ok=True)
    program = Program(Path(sys.argv[1]), Path(sys.argv[2]))
    for stream in streams(program):
        tell(program, stream)


if __name__ == "__main__":
    main()
