"""What the dearest runs that are known take: seconds for 10,000,000 steps, machine instructions for a step, and memory beside what the
ledger took before. A time is the processor's, the least of several tries. Where all steps would take longer than some seconds, fewer
are made and the seconds scaled. Then what a record with a small budget takes beside a large store. A row above its bound is marked,
and the script then ends with status 1.

usage: python3 bench/runs.py PROGRAM FOLDER [WORD ..]    only rows that have one of the words, if words are given. FOLDER is kept;
machine instructions are counted where there is a valgrind"""

import os
import random
import sys
from collections import Counter
from dataclasses import replace
from pathlib import Path
from typing import Dict, Iterator, List, NamedTuple, Optional, Sequence, Tuple

import inputs
import process
from costs import Program
from inputs import ASSET, PLAIN, Module, model, record, run, u64, writer
from process import difference

TRIES = 2
STEPS = 10_000_000
# A first try has so many steps; and where it says that all would take longer than this, so many more are made and no others.
FIRST, PATIENCE = 100_000, 20.0
# As many steps are counted as take so many seconds, at least the first number of them and at most the last.
COUNTED, COUNTED_SECONDS = (500, 50_000), 0.02
# Nothing is counted where it takes longer to load the ledger.
LOADED = 0.15
SECONDS, MEGABYTES = 2.0, 300.0
# What a run may take whose steps wait for memory that no cache holds: each moves 4 KB, or looks for a key among many.
MEMORY_SECONDS = 3.2
# What a record with a small budget may take: in times what it takes beside a small store, seconds for each step, and besides those.
BESIDE, STEP_SECONDS, RECORD_SECONDS = 1.1, 2e-7, 5e-6
# What a run may take that is the second one of its kind, whatever its code, so that what it grew is there.
DEEP_STEP_SECONDS, DEEP_SECONDS = 3e-6, 2e-5

# A struct of 256 leaves, and how a function with a local of each kind makes one: in the local after the last one of a number.
LEAVES = 256
ROW, WIDE = "; ".join(f"a{n}: u64" for n in range(8)), "; ".join(f"r{n}: Row" for n in range(32))
HOPPED = 200
FRAMES, LOCALS, OPERANDS, PARAMETERS, RESULTS = 256, 64, 128, 16, 8
LONG = 4_000
OWNER = 7


def wide_module(abilities: str = PLAIN) -> Module:
    """A module with the struct of 256 leaves."""
    m = Module()
    m.struct("Row", PLAIN, ROW)
    m.struct("Wide", abilities, WIDE)
    return m


def made(row: int, wide: int) -> str:
    """Makes a value of 256 leaves in a local, over another one that holds a part of it."""
    return "LdU64 7;" * 8 + f"Pack Row; StLoc {row};" + f"CopyLoc {row};" * 32 + f"Pack Wide; StLoc {wide};"


def again(code: str, begin: str = "", most: int = LONG, first: str = "", last: str = "") -> str:
    """Code that is repeated without an end, as often as a function has it: behind what begins the function, and each time round between
    what comes first and last, since nothing stays on the stack where control goes elsewhere."""
    often = max(1, (most - (begin + first + last).count(";")) // code.count(";"))
    return f"{begin} again: {first} {code * often} {last} Branch again"


class Row(NamedTuple):
    """A run without an end: what it does, the ledger or the records before, the function, its arguments, and the seconds that all steps
    may take."""

    what: str
    modules: Sequence[Module]
    arguments: Tuple[model.Value, ...] = ()
    stored: Sequence[model.Stored] = ()
    seconds: float = SECONDS


def called(m: Module, own: str) -> Module:
    """The same module under another name."""
    other, tables = Module(own), m.tables()
    names = list(tables.identifiers)
    names[tables.module_handles[tables.own].name] = own
    other.assembled = replace(tables, identifiers=names)
    return other


def one(code: str, locals_: str = "", modules: Sequence[Module] = (), m: Optional[Module] = None, parameters: str = "", acquires: str = "") -> List[Module]:
    """Modules, of which the last one has the function that is run."""
    m = m or Module()
    m.function("f", parameters, "", locals_, code, acquires)
    return [*modules, m]


def chain(m: Module, count: int, parameters: str, results: str, locals_: str, begin: str, end: str, last: str) -> None:
    """So many functions of which each calls the next one, and the last one does something else."""
    for n in range(count):
        code = f"{begin} Call g{n + 1}; {end}" if n + 1 < count else last
        m.function(f"g{n}", parameters, results, locals_, code, entry=False)


def of_locals() -> Iterator[Row]:
    """Calls: of functions with many locals, and with many results; and copies."""
    wides = "; ".join(["Wide"] * LOCALS)
    for what, kind in ("64 locals of 256 leaves", "Wide"), ("64 locals of one leaf", "u64"), ("64 locals that are references", "&u64"):
        m = wide_module()
        m.function("g", "", "", "; ".join([kind] * LOCALS), "Ret", entry=False)
        yield Row(f"calls of a function with {what}", one(again("Call g;"), m=m))
    m = wide_module()
    chain(m, FRAMES - 2, "", "", wides, "", "Ret", "Ret")
    yield Row("254 calls deep, each with 64 locals of 256 leaves", one(again("Call g0;"), m=m))
    m = wide_module()
    results = "; ".join(["Wide"] * RESULTS)
    chain(m, FRAMES - 2, "", results, "Row; Wide", "", "Ret", made(0, 1) + "CopyLoc 1;" * RESULTS + "Ret")
    yield Row("254 returns of 8 results of 256 leaves, frames of 257 words", one(again("Call g0;" + "Pop;" * RESULTS), m=m))
    m = wide_module()
    m.function("last", "", results, "Row; Wide", made(0, 1) + "CopyLoc 1;" * RESULTS + "Ret", entry=False)
    chain(m, FRAMES - 3, "", results, "u64", "", "Ret", "Call last; Ret")
    yield Row("254 returns of 8 results of 256 leaves, moved by one word", one(again("Call g0;" + "Pop;" * RESULTS), m=m))
    m = wide_module()
    m.function("last", "", results, "Row; Wide", made(0, 1) + "CopyLoc 1;" * RESULTS + "Ret", entry=False)
    chain(m, FRAMES - 3, "", results, "", "", "Ret", "Call last; Ret")
    yield Row("254 returns of 8 results of 256 leaves, which stay where they are", one(again("Call g0;" + "Pop;" * RESULTS), m=m))
    m = wide_module()
    m.function("last", "", results, "Row; Wide", made(0, 1) + "CopyLoc 1;" * RESULTS + "Ret", entry=False)
    chain(m, FRAMES - 3, "", results, "; ".join(["Wide"] * LOCALS), "", "Ret", "Call last; Ret")
    yield Row("254 returns of 8 results of 256 leaves, each past 64 locals of 256", one(again("Call g0;" + "Pop;" * RESULTS), m=m))
    m = wide_module()
    m.function("last", "", results, "Row; Wide", made(0, 1) + "CopyLoc 1;" * RESULTS + "Ret", entry=False)
    chain(m, FRAMES - 3, "", results, "u64", "", "Nop; Ret", "Call last; Ret")
    yield Row("254 returns of 8 results, moved by one word, with a Nop before each", one(again("Call g0;" + "Pop;" * RESULTS), m=m))
    m = wide_module()
    m.function("g", results, results, "", "".join(f"MoveLoc {n};" for n in range(RESULTS)) + "Ret", entry=False)
    yield Row("calls that hand back 8 arguments of 256 leaves", one(again("Call g;", made(0, 1), first="CopyLoc 1;" * RESULTS, last="Pop;" * RESULTS), "Row; Wide", m=m),
              seconds=MEMORY_SECONDS)
    m = wide_module()
    taken = "; ".join(["Wide"] * PARAMETERS)
    m.function("g", taken, "", "", "Ret", entry=False)
    yield Row("calls with 16 arguments of 256 leaves", one(again("CopyLoc 1;" * PARAMETERS + "Call g;", made(0, 1)), "Row; Wide", m=m), seconds=MEMORY_SECONDS)
    m = wide_module()
    m.function("g", "u64", "u64", "", "MoveLoc 0; Ret", entry=False)
    yield Row("calls that hand a number back", one(again("Call g;", first="LdU64 1;", last="Pop;"), m=m))
    yield Row("copies and pops of 256 leaves", one(again("CopyLoc 1; Pop;", made(0, 1)), "Row; Wide", m=wide_module()))
    yield Row("127 copies of 256 leaves, one on top of the other", one(again("CopyLoc 1;" * (OPERANDS - 1) + "Pop;" * (OPERANDS - 1), made(0, 1)), "Row; Wide", m=wide_module()))
    m = wide_module()
    m.function("g", "Wide; u64", "", "", "CopyLoc 1; LdU64 0; Eq; BrTrue done;" + "CopyLoc 0;" * (OPERANDS - 2) + "CopyLoc 1; LdU64 1; Sub; Call g;"
               + "Pop;" * (OPERANDS - 3) + "Ret; done: Ret", entry=False)
    yield Row("125 copies of 256 leaves in each of 254 frames", one(again(f"CopyLoc 1; LdU64 {FRAMES - 3}; Call g;", made(0, 1)), "Row; Wide", m=m), seconds=MEMORY_SECONDS)
    yield Row("moves of 256 leaves", one(again("MoveLoc 1; StLoc 1;", made(0, 1)), "Row; Wide", m=wide_module()))
    spread = "".join(f"CopyLoc {n}; StLoc {n + 1};" for n in range(1, LOCALS - 1)) + f"CopyLoc {LOCALS - 1}; StLoc 1;"
    yield Row("copies of 256 leaves from local to local", one(again(spread, made(0, 1)), "; ".join(["Row"] + ["Wide"] * (LOCALS - 1)), m=wide_module()))


def of_structs() -> Iterator[Row]:
    """Values that are put together, taken apart and compared; references."""
    yield Row("comparisons of 256 leaves", one(again("CopyLoc 1; CopyLoc 1; Eq; Pop;", made(0, 1)), "Row; Wide", m=wide_module()))
    compared = "CopyLoc 1;" * (OPERANDS - 1) + "Eq; Pop;" * (OPERANDS // 2 - 1) + "Pop;"
    yield Row("comparisons of 126 copies of 256 leaves", one(again(compared, made(0, 1)), "Row; Wide", m=wide_module()))
    yield Row("values of 256 leaves packed and unpacked", one(again("Unpack Wide; Pack Wide;", made(0, 1), first="CopyLoc 1;", last="Pop;"), "Row; Wide", m=wide_module()))
    m = wide_module()
    m.struct("Asset", "", "w: Wide")
    yield Row("assets of 256 leaves packed and unpacked, which is counted", one(again("Pack Asset; Unpack Asset;", made(0, 1), first="CopyLoc 1;", last="Pop;"), "Row; Wide", m=m))
    m = Module()
    m.struct("Coin", ASSET, "v: bool")
    yield Row("assets of one leaf packed and unpacked, which is counted", one(again("Pack Coin; Unpack Coin;", first="LdTrue;", last="Pop;"), m=m))
    packs = packing("P", 2_000)
    for count in 1, 10, 40:
        modules = [called(packs, f"P{k}") for k in range(count)]
        m = Module()
        calls = ""
        for k in range(count):
            m.foreign_function(f"P{k}", "pack", "bool", "bool")
            calls += f"Call P{k}::pack;"
        yield Row(f"assets of {count * 2_000:,} structs of {count} modules packed and unpacked in turn", one(again(calls, most=40, first="LdTrue;", last="Pop;"), modules=modules, m=m))
    begin = made(0, 1) + "ImmBorrowLoc 1; StLoc 2;"
    yield Row("reads of 256 leaves through a reference", one(again("CopyLoc 2; ReadRef; Pop;", begin), "Row; Wide; &Wide", m=wide_module()))
    begin = made(0, 1) + "CopyLoc 1; StLoc 2; MutBorrowLoc 1; StLoc 3;"
    yield Row("writes of 256 leaves through a reference", one(again("CopyLoc 2; CopyLoc 3; WriteRef;", begin), "Row; Wide; Wide; &mut Wide", m=wide_module()))
    yield Row("256 leaves read and written through a reference", one(again("CopyLoc 3; ReadRef; CopyLoc 3; WriteRef;", begin), "Row; Wide; Wide; &mut Wide", m=wide_module()))
    begin = made(0, 1) + "MutBorrowLoc 1; StLoc 2;"
    yield Row("borrows of a field of a field", one(again("CopyLoc 2; ImmBorrowField Wide.r31; ImmBorrowField Row.a7; ReadRef; Pop;", begin), "Row; Wide; &mut Wide", m=wide_module()))


def packing(own: str, count: int) -> Module:
    """A module with so many assets of one leaf, and a function that makes and takes apart one of each."""
    m = Module(own)
    m.add_names(["v"])
    for n in range(count):
        m.struct(f"A{n:x}", ASSET, "v: bool")
    for k in range(0, count, 1_000):
        code = "".join(f"Pack A{n:x}; Unpack A{n:x};" for n in range(k, min(k + 1_000, count)))
        m.function(f"part{k}", "bool", "bool", "", "MoveLoc 0;" + code + "Ret", entry=False)
    m.function("pack", "bool", "bool", "", "MoveLoc 0;" + "".join(f"Call part{k};" for k in range(0, count, 1_000)) + "Ret", entry=False)
    return m


def of_numbers() -> Iterator[Row]:
    """Numbers and jumps."""
    large, small = 2**127 - 1, 2**64 + 13
    for what, name, left, right in (
        ("products of numbers of 128 bits", "Mul", 2**64 - 59, 2**63 - 25), ("quotients of numbers of 128 bits", "Div", large, small),
        ("quotients of numbers of 128 bits by one of 64", "Div", large, 2**63 - 25), ("remainders of numbers of 128 bits", "Mod", large, small),
        ("remainders of numbers of 128 bits by 3", "Mod", large, 3), ("sums of numbers of 128 bits", "Add", large, small),
    ):
        yield Row(what, one(again(f"CopyLoc 0; CopyLoc 1; {name}; Pop;", f"LdU128 {left}; StLoc 0; LdU128 {right}; StLoc 1;"), "u128; u128"))
    for what, name, left, right in ("126 quotients of numbers of 128 bits", "Div", large, small), ("126 products of numbers of 128 bits", "Mul", 1, large):
        stacked = "CopyLoc 0;" * (OPERANDS - 2) + "CopyLoc 1;" + f"{name};" * (OPERANDS - 2) + "Pop;"
        yield Row(f"{what}, each the operand of the next", one(again(stacked, f"LdU128 {left}; StLoc 0; LdU128 {right}; StLoc 1;"), "u128; u128"))
    for name in "Shl", "Shr":
        yield Row(f"{name} of numbers of 128 bits", one(again(f"CopyLoc 0; LdU8 77; {name}; Pop;", f"LdU128 {large}; StLoc 0;"), "u128"))
    m = Module("M", 6)
    yield Row("casts", one(again("CastU128; CastU8; CastU32; CastU16; CastU64;", first="LdU64 200;", last="Pop;"), m=m))
    m = Module()
    yield Row("loads of constants", one(again("LdConst @0x1234567890abcdef1234567890abcdef; Pop; LdU128 5; Pop;"), m=m))
    yield Row("tests of bools", one(again("Not; LdTrue; And; LdFalse; Or;", first="LdTrue;", last="Pop;")))
    yield Row("Nops", one(again("Nop;")))
    hops = 1_021
    order = [(n * 389) % hops for n in range(hops)]
    labels = {place: order[(n + 1) % hops] for n, place in enumerate(order)}
    code = "".join(f"h{place}: Branch h{labels[place]}; Nop; Nop; Nop;" for place in range(hops)).replace("Nop; Nop; Nop;", "Nop; Nop; Branch h0;")
    yield Row("jumps from line to line of a function", one(code))
    yield Row("jumps on a condition", one("LdTrue; StLoc 0;" + "".join(f"j{n}: CopyLoc 0; BrTrue j{(n + 389) % 1_021}; " for n in range(1_021)) + "Branch j0", "bool"))
    hop = hopping("H")
    for count in 1, HOPPED:
        modules = [called(hop, f"H{k}") for k in range(count)]
        m, calls = Module(), ""
        for k in range(count):
            m.foreign_function(f"H{k}", "g0", "", "")
            calls += f"Call H{k}::g0;"
        yield Row(f"jumps and calls through all code of {count} modules of 60 KB", one(again(calls), modules=modules, m=m))


def hopping(own: str) -> Module:
    """A module of 60 KB of functions that jump from line to line in an order that isn't theirs, and call the next one."""
    m = Module(own)
    hops, functions = 400, 25
    for k in range(functions):
        at = [(n * 149) % hops for n in range(hops)]
        after = {place: f"h{at[n + 1]}" if n + 1 < hops else "done" for n, place in enumerate(at)}
        code = "".join(f"h{place}: Branch {after[place]}; Nop; Branch h0;" for place in range(hops))
        m.function(f"g{k}", "", "", "", f"Branch h0; {code} done: {f'Call g{k + 1};' if k + 1 < functions else ''} Ret", entry=False)
    return m


def scattered(n: int) -> bytes:
    """An address, of which the next one stands elsewhere."""
    return inputs.address((n * 0x9E3779B97F4A7C15 % 2**64) << 64 | 5)


def leaf(value: bytes) -> model.Value:
    return model.Value(model.ADDRESS, value)


AT = leaf(inputs.address(OWNER))
# How many values are stored, and how many values of 256 addresses a function holds.
KEYS, HELD = 200_000, 60


def of_storage() -> Iterator[Row]:
    """What is stored."""
    m = wide_module()
    m.struct("Big", ASSET, "w: Wide")
    begin = made(2, 1) + "ImmBorrowLoc 0; CopyLoc 1; Pack Big; MoveTo Big;"
    move = "LdConst @0x7; MoveFrom Big; StLoc 3; ImmBorrowLoc 0; MoveLoc 3; MoveTo Big;"
    rows = [
        ("values of 256 leaves taken out and stored", "signer", begin, move, "Wide; Row; Big"),
        ("values of 256 leaves read from the storage", "signer", begin, "LdConst @0x7; ImmBorrowGlobal Big; ImmBorrowField Big.w; ReadRef; Pop;", "Wide; Row; Big"),
        ("values of 256 leaves written to the storage", "signer", begin, "CopyLoc 1; LdConst @0x7; MutBorrowGlobal Big; MutBorrowField Big.w; WriteRef;", "Wide; Row; Big"),
    ]
    for what, taken, first, code, locals_ in rows:
        m = wide_module()
        m.struct("Big", ASSET, "w: Wide")
        m.function("f", taken, "", locals_, again(code, first), "Big")
        yield Row(what, [m])
    m = Module()
    m.struct("Coin", ASSET, "v: u64")
    m.function("f", "signer", "", "Coin", again("LdConst @0x7; MoveFrom Coin; StLoc 1; ImmBorrowLoc 0; MoveLoc 1; MoveTo Coin;", "ImmBorrowLoc 0; LdU64 1; Pack Coin; MoveTo Coin;"), "Coin")
    yield Row("values of one leaf taken out and stored", [m])
    m = wide_module()
    count = 400
    for n in range(count):
        m.struct(f"K{n}", ASSET, "w: Wide")
    stores = "".join(f"ImmBorrowLoc 0; CopyLoc 1; Pack K{n}; MoveTo K{n};" for n in range(count))
    takes = "".join(f"LdConst @0x7; MoveFrom K{n}; Unpack K{n}; Pop;" for n in range(count))
    m.function("f", "signer", "", "Wide; Row", again(stores + takes, made(2, 1)), ", ".join(f"K{n}" for n in range(count)))
    yield Row(f"values of 256 leaves of {count} structs stored and then taken out", [m])
    shuffled = random.Random(5).sample(range(KEYS), HELD * LEAVES)
    coins = [model.Stored(scattered(n), 0, 3, [u64(7)]) for n in range(KEYS)]
    tables = [model.Stored(inputs.address(k + 1), 0, 2, [leaf(scattered(n)) for n in shuffled[k * LEAVES:(k + 1) * LEAVES]]) for k in range(HELD)]
    stored = sorted(tables + coins, key=lambda one: (one.struct, one.address))
    uses = (
        (f"tests whether something is stored, of {HELD * LEAVES:,} among {KEYS:,} keys", "Exists Coin; Pop;", ""),
        (f"borrows of a stored field, of {HELD * LEAVES:,} among {KEYS:,} keys", "ImmBorrowGlobal Coin; Pop;", "Coin"),
        (f"reads of a stored field, of {HELD * LEAVES:,} among {KEYS:,} keys", "ImmBorrowGlobal Coin; ImmBorrowField Coin.v; ReadRef; Pop;", "Coin"),
        (f"mutable borrows, of {HELD * LEAVES:,} among {KEYS:,} keys", "MutBorrowGlobal Coin; Pop;", "Coin"),
        (f"writes of a stored field, of {HELD * LEAVES:,} among {KEYS:,} keys", "MutBorrowGlobal Coin; StLoc {r}; LdU64 5; MoveLoc {r}; MutBorrowField Coin.v; WriteRef;", "Coin"),
    )
    for what, use, acquires in uses:
        yield Row(what, [visiting(use, acquires)], stored=stored, seconds=MEMORY_SECONDS)
    bigs = [model.Stored(scattered(n), 0, 5, [u64(7)] * LEAVES) for n in shuffled]
    stored = sorted(tables + bigs, key=lambda one: (one.struct, one.address))
    yield Row(f"reads of all 256 leaves of {HELD * LEAVES:,} stored values", [visiting("ImmBorrowGlobal Big; ReadRef; Pop;", "Big")], stored=stored, seconds=MEMORY_SECONDS)
    written = "StLoc {r}; CopyLoc {w}; MoveLoc {r}; MutBorrowGlobal Big; WriteRef;"
    yield Row(f"writes of all 256 leaves of {HELD * LEAVES:,} stored values", [visiting(written, "Big")], stored=stored, seconds=MEMORY_SECONDS)
    m = wide_module()
    m.struct("Node", ASSET, "next: address; w: Part")
    m.struct("Part", PLAIN, "; ".join(f"r{n}: Row" for n in range(31)))
    walk = "CopyLoc 0; MutBorrowGlobal Node; StLoc 1; CopyLoc 1; ImmBorrowField Node.next; ReadRef; StLoc 0; LdU64 5; MoveLoc 1; MutBorrowField Node.w; MutBorrowField Part.r0; MutBorrowField Row.a0; WriteRef;"
    m.function("f", "address", "", "&mut Node", again(walk), "Node")
    count = 10_000
    nodes = [model.Stored(scattered(n), 0, 2, [leaf(scattered((n + 1) % count)), *[u64(7)] * 248]) for n in range(count)]
    yield Row(f"writes of one of 249 leaves of each of {count:,} values", [m], (leaf(scattered(0)),), sorted(nodes, key=lambda one: one.address))


def visiting(use: str, acquires: str) -> Module:
    """A module whose function has many addresses at hand, and uses each: with a local {r}, of a reference or an address, and one {w} that
    holds a value of 256 leaves."""
    m = Module()
    m.struct("Eight", PLAIN, "; ".join(f"a{n}: address" for n in range(8)))
    m.struct("Many", PLAIN, "; ".join(f"e{n}: Eight" for n in range(32)))
    m.struct("Table", "has store, key", "m: Many")
    m.struct("Coin", "has store, drop, key", "v: u64")
    m.struct("Row", PLAIN, ROW)
    m.struct("Big", "has copy, drop, store, key", WIDE)
    is_big = "{w}" in use
    each = use.format(r=2, w=1) * 8
    first = "".join(f"LdConst @{k + 1:#x}; ImmBorrowGlobal Table; ImmBorrowField Table.m; ReadRef; StLoc {k};" for k in range(HELD))
    body = "MoveLoc 0; Unpack Many;" + ("Unpack Eight;" + each) * 32 + "Ret"
    m.function("g", "Many; Big" if is_big else "Many; u64", "", "address" if is_big else "&mut Coin", body, acquires, entry=False)
    begin = "LdU64 7;" * 8 + f"Pack Row; StLoc {HELD};" + f"CopyLoc {HELD};" * 32 + f"Pack Big; StLoc {HELD + 1};"
    given = f"CopyLoc {HELD + 1}" if is_big else "LdU64 0"
    rest = "".join(f"CopyLoc {k}; {given}; Call g;" for k in range(HELD))
    m.function("f", "", "", "; ".join(["Many"] * HELD + ["Row; Big"]), f"{begin} {first} again: {rest} Branch again", "Table" + (f", {acquires}" if acquires else ""))
    return m


def of_memory() -> Iterator[Row]:
    """The deepest runs, which end for their frames."""
    for what, others in (f"{LOCALS} locals and {OPERANDS} operands", LOCALS - 1), (f"{OPERANDS} operands", 0):
        m = wide_module()
        m.function("g", "Wide", "", "; ".join(["Wide"] * others), "CopyLoc 0;" * OPERANDS + "Call g;" + "Pop;" * (OPERANDS - 1) + "Ret", entry=False)
        m.function("f", "", "", "Row; Wide", made(0, 1) + "MoveLoc 1; Call g; Ret")
        yield Row(f"256 frames, each with {what} of 256 leaves", [m])


ROWS = of_locals, of_structs, of_numbers, of_storage, of_memory


def ledger_bytes(program: Program, row: Row) -> bytes:
    """The saved ledger that a run begins with."""
    offers = [model.Offer(m.bytes(), program.certificate(m.bytes())) for m in row.modules]
    scarce: List[Tuple[int, int]] = []
    keys: List[Tuple[int, int]] = []
    for place, m in enumerate(row.modules):
        tables = m.tables()
        for index, definition in enumerate(tables.structs):
            abilities = tables.struct_handles[definition.handle].abilities
            if not abilities & (model.COPY | model.DROP):
                scarce.append((place, index))
            if abilities & model.KEY:
                keys.append((place, index))
    counts = Counter((one.place, one.struct) for one in row.stored)
    tallies = [model.Tally(counts[at], 0) for at in scarce]
    return writer.write_ledger(model.Ledger(2, 1, offers, scarce, tallies, keys, list(row.stored)))


class Runs:
    """Measures runs over the ledgers that they begin with."""

    def __init__(self, program: Program):
        self.program, self.above = program, 0

    def words(self, name: str) -> List[process.Word]:
        return [self.program.path, "apply", "--load", "runs.ledger", name]

    def write(self, row: Row, budget: Optional[int]) -> None:
        records = [] if budget is None else [record(2, run("f", budget, *row.arguments, sender=OWNER))]
        (self.program.folder / "runs.stream").write_bytes(b"".join(records))

    def seconds(self, row: Row, budget: Optional[int]) -> float:
        self.write(row, budget)
        return min(process.seconds_of(process.used(self.words("runs.stream"), self.program.folder)) for _ in range(TRIES))

    def counted(self, row: Row, budget: int) -> Optional[int]:
        self.write(row, budget)
        return process.instructions(self.words("runs.stream"), self.program.folder)

    def memory(self, row: Row, budget: Optional[int]) -> int:
        self.write(row, budget)
        return process.memory(self.words("runs.stream"), self.program.folder)

    def tell(self, row: Row) -> None:
        """Prints a line for a run."""
        (self.program.folder / "runs.ledger").write_bytes(ledger_bytes(self.program, row))
        self.write(row, FIRST)
        answer = process.printed(self.words("runs.stream"), self.program.folder).split()
        assert answer[1] == "exhausted", (row.what, answer)
        base = self.seconds(row, None)
        spent, steps = self.seconds(row, FIRST) - base, int(answer[3])
        is_short = answer[2] == "frames"
        if not is_short and spent * STEPS / FIRST <= PATIENCE:
            spent, steps = self.seconds(row, STEPS) - base, STEPS
        elif not is_short and spent < 0.2:
            spent, steps = self.seconds(row, FIRST * 5) - base, FIRST * 5
        seconds = spent if is_short else spent * STEPS / steps
        how = f"({steps:,} steps)" if is_short else "(scaled)" if steps != STEPS else ""
        count = steps // 4 if is_short else max(COUNTED[0], min(COUNTED[1], int(COUNTED_SECONDS * steps / max(spent, 0.01))))
        each = None if base > LOADED else difference(self.counted(row, 2 * count), self.counted(row, count))
        counted = "" if each is None else f"{each / count:10.1f} instructions a step"
        least, most = self.memory(row, None), self.memory(row, steps)
        held = (most - least) / 1024
        is_above = seconds > row.seconds or held > MEGABYTES
        self.above += is_above
        print(f"runs: {row.what:72}{seconds:8.2f} s (bound: {row.seconds}) {how:16}{counted}{held:8.1f} MB beside "
              f"{least / 1024:.0f}{'  ABOVE' if is_above else ''}", flush=True)


class Small(NamedTuple):
    """A record with a small budget: what it does, the ledger that it meets, the records before it, and itself; and the seconds that it may
    take for each step, and besides."""

    what: str
    modules: Sequence[Module]
    before: Sequence[bytes]
    offered: bytes
    step: float = STEP_SECONDS
    rest: float = RECORD_SECONDS


def idle_module() -> Module:
    """The module of the small runs, which has as many functions as can be, with long names that are nearly alike."""
    m = Module("Z")
    m.struct("Coin", ASSET, "v: u64")
    m.function("idle", "", "", "", "Ret")
    m.function("coin", "u64", "", "", "MoveLoc 0; Pack Coin; Unpack Coin; Pop; Ret")
    m.function("many", "; ".join(["u128"] * PARAMETERS), "", "", "Ret")
    m.function("churn", "signer", "", "", "ImmBorrowLoc 0; LdU64 7; Pack Coin; MoveTo Coin; LdConst @0x7; MoveFrom Coin; Unpack Coin; Pop; Ret", "Coin")
    for n in range(250):
        m.function("x" * 120 + f"{n:08}", "", "", "", "Ret", entry=False)
    return m


def large_store() -> List[Module]:
    """Many modules of all kinds, the last of which is that of the small runs."""
    assets = Module("Q")
    assets.add_names(["v"])
    for n in range(1_900):
        assets.struct(f"A{n:x}", ASSET, "v: u64")
    family, empty = inputs.all_families(inputs.LARGE, 5), Module("E")
    others = [called(assets, f"Q{k}") for k in range(4)] + [called(family, f"L{k}") for k in range(2)] + [called(empty, f"E{k}") for k in range(1_000)]
    return [inputs.helping(), *others, idle_module()]


def small_runs() -> Iterator[List[Small]]:
    """Records with small budgets: each beside a small store, and where it says more beside a large one or behind a dear run, which have to
    cost as much."""
    def of(function: str, budget: int, *arguments: model.Value, module: str = "Z") -> bytes:
        return record(2, run(function, budget, *arguments, sender=OWNER, module=module))

    m = wide_module()
    m.function("last", "", "", "", "Ret", entry=False)
    chain(m, FRAMES - 3, "", "", "; ".join(["Wide"] * LOCALS), "", "Ret", "Call last; Ret")
    m.function("f", "", "", "", "Call g0; Ret")
    m.function("given", "u64", "", "", "Call g0; Ret")
    few, many, deep = [idle_module()], large_store(), [m, idle_module()]
    packs = [called(packing("P", 2_000), f"P{k}") for k in range(4)]
    user = Module("U")
    for k in range(len(packs)):
        user.foreign_function(f"P{k}", "pack", "bool", "bool")
    user.function("f", "", "", "", "LdTrue;" + "".join(f"Call P{k}::pack;" for k in range(len(packs))) + "Pop; Ret")
    packing_store = [*packs, user, *few]
    first, packed = of("f", 1_000_000, module="M"), of("f", 1_000_000, module="U")
    given = of("given", 1_000_000, u64(7), module="M")
    kinds = (
        ("a run of no step", of("idle", 0)), ("a run of one step", of("idle", 10)), ("an asset packed and unpacked", of("coin", 10, u64(7))),
        ("an asset stored and taken out", of("churn", 20)), ("a run with 16 arguments", of("many", 10, *[model.Value(model.U128, 7)] * PARAMETERS)),
        ("a run of a function that isn't there", of("x" * 128, 10)), ("a run of a module that isn't there", of("idle", 10, module="Nowhere")),
    )
    for what, offered in kinds:
        yield [Small(what, few, [], offered), Small(f"{what}, in the last of {len(many):,} modules", many, [], offered),
               Small(f"{what}, behind a run 254 calls deep", deep, [first], offered),
               Small(f"{what}, behind a run that packed of 8,000 structs", packing_store, [packed], offered)]
    for what, one in ("a run 254 calls deep", first), ("a run 254 calls deep of a function with an argument", given):
        yield [Small(f"{what}, each with 64 locals of 256 leaves, behind such a run", deep, [one], one, DEEP_STEP_SECONDS, DEEP_SECONDS)]
    yield [Small("a run that packs and unpacks of 8,000 structs", packing_store, [], packed)]


class SmallRuns:
    """Measures records with small budgets over the ledgers that they meet."""

    def __init__(self, program: Program):
        self.program, self.above = program, 0
        self.ledgers: Dict[int, bytes] = {}

    def ledger(self, modules: Sequence[Module]) -> bytes:
        if id(modules) not in self.ledgers:
            self.ledgers[id(modules)] = ledger_bytes(self.program, Row("", modules))
        return self.ledgers[id(modules)]

    def words(self, one: Small, times: int) -> List[process.Word]:
        (self.program.folder / "runs.stream").write_bytes(b"".join([*one.before, *[one.offered] * times]))
        return [self.program.path, "apply", "--load", "runs.ledger", "runs.stream"]

    def seconds(self, one: Small, times: int) -> float:
        return min(process.seconds_of(process.used(self.words(one, times), self.program.folder)) for _ in range(TRIES))

    def tell(self, ones: Sequence[Small]) -> None:
        """Prints a line for each record, and how many times the first one's machine instructions it takes."""
        least: Optional[float] = None
        for one in ones:
            (self.program.folder / "runs.ledger").write_bytes(self.ledger(one.modules))
            words = self.words(one, 1)
            line = process.printed(words, self.program.folder).splitlines()[-1].split()
            steps = int(line[-1]) if line[1] in ("returned", "exhausted") else 0
            less, times = self.seconds(one, 0), 100
            spent = self.seconds(one, times) - less
            if spent < 0.02:
                times = 20_000
                spent = self.seconds(one, times) - less
            count = 50 if spent / times < 1e-4 else 2
            more = difference(*(process.instructions(self.words(one, n * count), self.program.folder) for n in (2, 1)))
            each = None if more is None else more / count
            least = least or each
            ratio = each / least if each is not None and least else 1.0
            bound = one.step * steps + one.rest
            is_above = spent / times > bound or ratio > BESIDE
            self.above += is_above
            counted = "" if each is None else f"{each:14,.0f} instructions, {ratio:.2f} times the first one's (bound: {BESIDE})"
            print(f"runs: {one.what:80}{line[1]:10}{steps:6} steps{spent / times * 1e6:12.2f} us (bound: {bound * 1e6:.1f}){counted}"
                  f"{'  ABOVE' if is_above else ''}", flush=True)


def tell(program: Path, folder: Path, *words: str) -> int:
    """Prints a line for each run, and answers how many are above a bound."""
    os.makedirs(folder, exist_ok=True)
    measured = Program(Path(program), Path(folder))
    runs, small = Runs(measured), SmallRuns(measured)

    def is_asked(what: str) -> bool:
        return not words or any(word in what for word in words)

    print(f"runs: seconds for {STEPS:,} steps, each with its bound, and memory of a run (bound: {MEGABYTES} MB)")
    for rows in ROWS:
        for row in rows():
            if is_asked(row.what):
                runs.tell(row)
    print(f"runs: records with small budgets, each (bound: that of its steps and {RECORD_SECONDS * 1e6:.0f} us)")
    for ones in small_runs():
        if is_asked(ones[0].what):
            small.tell(ones)
    above = runs.above + small.above
    print(f"runs: {above} above a bound")
    return above


if __name__ == "__main__":
    sys.exit(1 if tell(Path(sys.argv[1]), Path(sys.argv[2]), *sys.argv[3:]) else 0)
