"""What else grows, with n and with 2n of it: audits over many structs, shows of many values, bundles whose modules name each other
often, certificates that state as much as they may, high stacks, long chains of modules, and a module that all others name.

usage: python3 bench/growth.py PROGRAM FOLDER    FOLDER is kept"""

import os
import sys
from pathlib import Path
from typing import Callable, List, Optional, Sequence, Tuple

import inputs
from costs import Program
from inputs import ASSET, Module, publish, record, run, u64

MOST_EDGES = 1_024
MOST_OPERANDS = 128
AIM = 2.3


def assets(count: int, own: str) -> bytes:
    """A module with so many structs that an audit counts."""
    m = Module(own)
    m.add_names(["v"])
    for n in range(count):
        m.struct(f"A{n:x}", ASSET, "v: u64")
    return m.bytes()


def last_asset(count: int, own: str) -> bytes:
    """A module whose last struct is the one that is counted."""
    m = Module(own)
    m.add_names(["v"])
    for n in range(count - 1):
        m.struct(f"A{n:x}", inputs.PLAIN, "v: u64")
    m.struct("Last", ASSET, "v: u64")
    return m.bytes()


def naming_each_other(count: int, own: str, others: Sequence[str]) -> bytes:
    """A module that names so many functions of each of others."""
    m = Module(own)
    for other in others:
        for n in range(count):
            m.foreign_function(other, f"f{n:x}", "u64", "u64")
    return m.bytes()


def with_functions(count: int, own: str) -> bytes:
    m = Module(own)
    for n in range(count):
        m.function(f"f{n:x}", "u64", "u64", "", "MoveLoc 0; Ret", entry=False)
    return m.bytes()


def edges(count: int, targets: int) -> bytes:
    """So many edges as a certificate states them, with labels of two positions, into the first parameter."""
    wide = (count + 31) // 32
    return b"".join(bytes([1, 1, 0, 0, 2, a, b, 0]) for a in range(wide) for b in range(32))[: 8 * count]


def stating(blocks: int, count: int) -> Tuple[bytes, bytes]:
    """A module with a function of so many blocks, and a certificate that states so many edges for each."""
    m = Module()
    code = "".join(f"CopyLoc 1; BrTrue next{n}; next{n}: " for n in range(blocks - 1))
    m.function("f", "&u64; bool", "", "", code + "MoveLoc 0; Pop; Ret", entry=False)
    size = bytes([count % 128 + 128, count // 128]) if count >= 128 else bytes([count])
    return m.bytes(), (b"\x01\x01\x01" + size + edges(count, 1)) * blocks


def high(count: int) -> bytes:
    """A module with a function of so many instructions, most of which stand above 127 operands that are references."""
    m = Module()
    m.function("f", "&u64", "", "", inputs.filled("CopyLoc 0;" * (MOST_OPERANDS - 1) + "CopyLoc 0; Pop;" * ((count - 2 * MOST_OPERANDS - 4) // 2)
               + "Pop;" * (MOST_OPERANDS - 1) + "MoveLoc 0; Pop", count), entry=False)
    return m.bytes()


def link(n: int, more: Optional[str] = None) -> bytes:
    """A module that names the one before it, and one more."""
    m = Module(f"L{n}")
    if n:
        m.foreign_function(f"L{n - 1}", "f", "u64", "u64")
    if more:
        m.foreign_function(more, "f", "u64", "u64")
    m.function("f", "u64", "u64", "", f"MoveLoc 0; Call L{n - 1}::f; Ret" if n else "MoveLoc 0; Ret", entry=False)
    return m.bytes()


def ending(k: int, length: int, more: Optional[str] = None) -> bytes:
    """A module that names the last one of a chain, and one more."""
    m = Module(f"E{k}")
    for other in [f"L{length - 1}", *([more] if more else [])]:
        m.foreign_function(other, "f", "u64", "u64")
    m.function("f", "u64", "u64", "", "MoveLoc 0; Ret", entry=False)
    return m.bytes()


def naming_all(n: int, more: Sequence[str] = ()) -> bytes:
    """A module that names a function of each of the n ones before it, and more."""
    m = Module(f"D{n}")
    for other in [*(f"D{k}" for k in range(n)), *more]:
        m.foreign_function(other, "f", "u64", "u64")
    m.function("f", "u64", "u64", "", "MoveLoc 0; Ret", entry=False)
    return m.bytes()


def naming_first(n: int) -> bytes:
    """A module that names the first one."""
    m = Module(f"N{n}")
    m.foreign_function("L0", "f", "u64", "u64")
    return m.bytes()


# For a number the records before, those that are measured, and how often they are repeated.
Made = Callable[[int], Tuple[List[bytes], List[bytes], int]]


class Growth:
    """Measures records behind others, for n and for 2n."""

    def __init__(self, program: Program):
        self.program = program

    def tell(self, what: str, made: Made) -> None:
        """`made` gives for a number the records before, those that are measured, and how often they are repeated."""
        seconds = []
        for n in 1, 2:
            before, offered, times = made(n)
            answers = self.program.report([*before, *offered]).decode(errors="replace").splitlines()
            spent = (self.program.spent([*before, *offered * times]) - self.program.spent(before)) / times
            seconds.append(spent)
            size = sum(map(len, offered))
        wrote = sum(map(len, answers[len(before):]))
        print(f"growth: {what}: {seconds[0] * 1e3:.2f} ms, and {seconds[1] / max(seconds[0], 1e-9):.2f} times as long for twice as much (aim: {AIM} or less); "
              f"{size} bytes in, {wrote} out, {seconds[1] / (size + wrote) * 1e9:.0f} s for 1 GB; the last answer {answers[-1][:40]}", flush=True)


def tell(program: Path, folder: Path) -> None:
    os.makedirs(folder, exist_ok=True)
    measured = Program(program, folder)
    growth = Growth(measured)
    none = b""

    def published(*texts: bytes) -> bytes:
        return record(1, publish(*((text, none) for text in texts)))

    growth.tell("an audit of 16 modules of 900 structs each", lambda n: ([published(*(assets(900, f"A{k}") for k in range(8 * n)))], [record(4, b"")], 20))
    growth.tell("16 modules whose last of 1,900 structs is counted", lambda n: ([], [published(*(last_asset(950 * n, f"B{k}") for k in range(16)))], 1))
    coin = measured.published(inputs.working().bytes())
    growth.tell("a show of 50,000 values", lambda n: ([coin, *(record(2, run("mint", 100, u64(7), sender=(k * 7919) % 1_000_003 + 5)) for k in range(25_000 * n))], [record(3, b"")], 4))
    eight = [f"E{k}" for k in range(8)]
    homes = [with_functions(200, own) for own in eight]
    found = [measured.certificate(homes[0])] * 8
    home = record(1, publish(*zip(homes, found)))
    growth.tell("8 modules that name 200 functions of 8 others each", lambda n: ([home], [published(*(naming_each_other(100 * n, f"F{k}", eight) for k in range(8)))], 1))
    growth.tell("126 states of 1,024 edges", lambda n: ([], [record(1, publish(stating(63 * n, MOST_EDGES)))], 1))
    growth.tell("4,000 states of 32 edges", lambda n: ([], [record(1, publish(stating(1_000 * n, 32)))], 1))
    growth.tell("a function of 4,096 instructions above 127 references", lambda n: ([], [record(1, publish((high(2_048 * n), measured.certificate(high(2_048 * n)))))], 4))
    one = measured.certificate(link(1))
    chain = [record(1, publish((link(n), one))) for n in range(4_096)]
    other = Module("Alone")
    other.function("f", "u64", "u64", "", "MoveLoc 0; Ret", entry=False)
    alone = record(1, publish((other.bytes(), one)))
    growth.tell("4,096 modules in a chain", lambda n: ([], chain[: 2_048 * n], 1))
    growth.tell("the first one of a chain of 4,096 replaced", lambda n: (chain[: 2_048 * n], [chain[0]], 100))
    growth.tell("the last one of a chain of 4,096 replaced", lambda n: (chain[: 2_048 * n], [chain[2_048 * n - 1]], 100))
    users = [record(1, publish((naming_first(n), none))) for n in range(4_095)]
    growth.tell("one module that 4,000 name replaced", lambda n: ([chain[0], *users[: 2_000 * n]], [chain[0]], 20))
    bare = measured.certificate(naming_all(0))
    dense = [record(1, publish((naming_all(n), bare))) for n in range(2_000)]
    growth.tell("2,000 modules that each name all before (aim: 1 s in all)", lambda n: ([], dense[: 1_000 * n], 1))
    growth.tell("the last one of 2,000 such replaced by one that names a further one", lambda n: (
        [*dense[: 1_000 * n], alone], [record(1, publish((naming_all(1_000 * n - 1, ["Alone"]), bare)))], 100))
    growth.tell("the last one of a chain of 4,095 replaced by one that names a further one (aim: 1 ms)", lambda n: (
        [*chain[: 2_047 * n], alone], [record(1, publish((link(2_047 * n - 1, "Alone"), one)))], 1))
    growth.tell("16 modules behind a chain of 4,064 replaced by such (aim: 6 ms)", lambda n: (
        [*chain[: 2_032 * n], alone, *(record(1, publish((ending(k, 2_032 * n), one))) for k in range(16))],
        [record(1, publish(*((ending(k, 2_032 * n, "Alone"), one) for k in range(16))))], 1))
    growth.tell("4,000 modules without anything", lambda n: ([], [published(Module(f"Z{k}").bytes()) for k in range(2_000 * n)], 1))


if __name__ == "__main__":
    tell(*map(Path, sys.argv[1:]))
