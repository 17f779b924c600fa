"""What records cost whose size says little of it: upgrades among few and many modules and under few and many dependants, modules
that name many others, an upgrade that gains a dependency among many, names that collide, shows of values of large modules, the dearest
records of 1 MB that are known, beside the mean of publishing 1 MB of ordinary modules, and a step of a search for a certificate. A time is
the processor's, the least of several tries, and memory the most that the process held, both less what the program takes for the records
before.

usage: python3 bench/costs.py PROGRAM FOLDER    FOLDER is kept; machine instructions are counted where there is a valgrind"""

import os
import resource
import subprocess
import sys
from pathlib import Path
from typing import Dict, Iterable, Iterator, List, Optional, Sequence, Tuple

import inputs
import process
from inputs import ASSET, Module, Offered, publish, record, run, u64
from process import difference

TRIES = 3
UPGRADES = 300
FEW, MANY = 500, 2_000
# Modules that name one, and large ones, which take 60 KB each.
DEPENDANTS, LARGE_ONES = 4_000, 400
# Modules in one chain, and how often a module gains a dependency on all of them, and loses it again.
CHAINED, GAINS = 4_090, 20
# Half of an address that the hash of the store's names multiplies the other half by 0 for: the other half then tells nothing.
COLLIDING = 0x9E3779B97F4A7C15
SHOWS, SHOWN = 20, 1_000

# What is stated of a block of a function with two parameters: 1,024 edges from the second one's value into the first one.
STATED = b"\x01\x01\x01\x80\x08" + b"".join(bytes([1, 1, 0, 0, 2, a, b, 0]) for a in range(32) for b in range(32))


# Records as they stand in a stream. What is stated of a local and a reference: the local, the reference, the list of fields, and
# whether it is open. And the same of any node and a reference, with the node's kind first.
Records = Sequence[bytes]
Edge = Tuple[int, int, Sequence[int], int]
Leading = Tuple[int, int, int, Sequence[int], int]
SLOT, OWN, GLOB = inputs.model.SLOT, inputs.model.OWN, inputs.model.GLOB


class Program:
    """Runs the program over streams in a folder."""

    def __init__(self, program: Path, folder: Path):
        self.path, self.folder = Path(program).resolve(), Path(folder)

    def report(self, records: Records, name: str = "costs") -> bytes:
        (self.folder / f"{name}.stream").write_bytes(b"".join(records))
        out = subprocess.run([self.path, "apply", f"{name}.stream"], check=True, capture_output=True, cwd=self.folder).stdout
        return out

    def used(self, records: Records, name: str = "costs") -> Iterator[resource.struct_rusage]:
        """What the system counted of the program for records, once for each try."""
        (self.folder / f"{name}.stream").write_bytes(b"".join(records))
        for _ in range(TRIES):
            yield process.used([self.path, "apply", f"{name}.stream"], self.folder)

    def spent(self, records: Records, name: str = "costs") -> float:
        """The least seconds of the processor that the program takes for records."""
        return min(map(process.seconds_of, self.used(records, name)))

    def cost(self, records: Records, name: str = "costs") -> Tuple[float, int]:
        """The least seconds of the processor, and the least KB of memory, that the program takes for records."""
        tries = list(self.used(records, name))
        return min(map(process.seconds_of, tries)), min(used.ru_maxrss for used in tries)

    def instructions(self, records: Records, name: str = "costs") -> Optional[int]:
        """The machine instructions of the program for records, or None where there is no valgrind."""
        (self.folder / f"{name}.stream").write_bytes(b"".join(records))
        return process.instructions([self.path, "apply", f"{name}.stream"], self.folder)

    def more_instructions(self, before: Records, offered: Records) -> Optional[int]:
        """The machine instructions for records behind others, or None where there is no valgrind."""
        return difference(self.instructions([*before, *offered]), self.instructions(before))

    def certificate(self, text: bytes) -> bytes:
        (self.folder / "costs.module").write_bytes(text)
        out = subprocess.run([self.path, "prove", "costs.module"], check=True, capture_output=True, text=True, cwd=self.folder).stdout
        return bytes.fromhex(out.strip())

    def proves_within(self, steps: int) -> bool:
        """Whether a search for the certificate of the module that was asked for last ends within so many steps."""
        out = subprocess.run([self.path, "prove", "--steps", str(steps), "costs.module"], capture_output=True, text=True, cwd=self.folder)
        return "too long" not in out.stdout + out.stderr

    def steps(self, text: bytes) -> int:
        """How many steps the search for a module's certificate takes."""
        (self.folder / "costs.module").write_bytes(text)
        enough = 1
        while not self.proves_within(enough):
            enough *= 2
        too_few = enough // 2
        while enough - too_few > 1:
            middle = (too_few + enough) // 2
            enough, too_few = (middle, too_few) if self.proves_within(middle) else (enough, middle)
        return enough

    def search(self, text: bytes) -> Tuple[float, Optional[int]]:
        """The least seconds of the processor, and the machine instructions, of the search for a module's certificate."""
        (self.folder / "costs.module").write_bytes(text)
        command = [str(self.path), "prove", "costs.module"]
        return min(process.seconds_of(process.used(command, self.folder)) for _ in range(TRIES)), process.instructions(command, self.folder)

    def published(self, *modules: bytes) -> bytes:
        """The record that publishes modules in one bundle, and what it is answered."""
        return record(1, publish(*((text, self.certificate(text)) for text in modules)))


def small(own: str, version: int = 5) -> bytes:
    """A module of some 500 bytes that names no other."""
    return inputs.link_of_a_chain(0, 1).renamed(own)


def naming(own: str) -> bytes:
    """A module that calls a function of the one called U."""
    m = Module(own)
    m.foreign_function("U", "value", "u64", "u64")
    m.function("f", "u64", "u64", "", "MoveLoc 0; Call U::value; Ret", entry=False)
    return m.bytes()


def upgraded() -> bytes:
    """The module U that is upgraded."""
    m = Module("U")
    m.struct("Coin", ASSET, "v: u64; w: u64")
    m.function("value", "u64", "u64", "", "MoveLoc 0; LdU64 1; Add; Ret", entry=False)
    m.function("mint", "signer; u64", "", "", "ImmBorrowLoc 0; CopyLoc 1; MoveLoc 1; Pack Coin; MoveTo Coin; Ret")
    return m.bytes()


def tell_upgrades(program: Program) -> None:
    """Upgrades of one module among few and many, and among small and large ones."""
    upgrade = program.published(upgraded())
    others = [record(1, publish((small(f"S{n}"), program.certificate(small("S0"))))) for n in range(MANY)]
    times: Dict[int, float] = {}
    counts: Dict[int, Optional[int]] = {}
    for count in FEW, MANY:
        before = others[:count] + [upgrade]
        times[count] = program.spent(before + [upgrade] * UPGRADES) - program.spent(before)
        more = counts[count] = program.more_instructions(before, [upgrade] * 10)
        counted = f", {more / 10:.0f} machine instructions" if more is not None else ""
        print(f"costs: an upgrade of a module that nothing names among {count} others: {times[count] / UPGRADES * 1e6:.0f} us{counted}", flush=True)
    few, many = counts[FEW], counts[MANY]
    told = f", and {many / few:.2f} times the machine instructions" if few and many else ""
    print(f"costs: among {MANY} it takes {times[MANY] / times[FEW]:.2f} times as long as among {FEW}{told} (aim: 1.1 or less)", flush=True)
    large = inputs.all_families(inputs.LARGE, 5)
    helping = program.published(inputs.helping().bytes())
    certificate = program.certificate(large.bytes())
    found: List[float] = []
    for before in (others[:30] + [upgrade], [helping, *(record(1, publish((large.renamed(f"L{n}"), certificate))) for n in range(30)), upgrade]):
        more = program.more_instructions(before, [upgrade] * 10)
        if more is not None:
            found.append(more / 10)
    if found:
        print(f"costs: an upgrade among 30 modules of 500 bytes {found[0]:.0f} machine instructions, of 60 KB {found[1]:.0f} "
              f"(aim: as many)", flush=True)
    users = [record(1, publish((naming(f"N{n}"), program.certificate(naming("N0"))))) for n in range(FEW * 2)]
    times = {}
    for count in FEW, FEW * 2:
        before = [upgrade, *users[:count]]
        times[count] = program.spent(before + [upgrade] * 20) - program.spent(before)
    print(f"costs: an upgrade of a module that {FEW} name {times[FEW] / 20 * 1e3:.2f} ms, that {FEW * 2} name "
          f"{times[FEW * 2] / times[FEW]:.2f} times as long (aim: 2.2 or less)", flush=True)


def naming_large(units: int = inputs.LARGE) -> Module:
    """A module of 60 KB that also calls a function of the one called U."""
    m = inputs.all_families(units, 5)
    m.foreign_function("U", "value", "u64", "u64")
    m.function("f", "u64", "u64", "", "MoveLoc 0; Call U::value; Ret", entry=False)
    return m


def tell_dependants(program: Program) -> None:
    """Upgrades of a module that none, many small and many large modules name."""
    upgrade = program.published(upgraded())
    helping = program.published(inputs.helping().bytes())
    found = program.certificate(naming("N0"))
    others = [record(1, publish((small(f"S{n}"), program.certificate(small("S0"))))) for n in range(DEPENDANTS)]
    users = [record(1, publish((naming(f"N{n}"), found))) for n in range(DEPENDANTS)]
    large, more = naming_large(), naming_large(0)
    full, bare = program.certificate(large.bytes()), program.certificate(more.bytes())
    costs = []
    for what, before in (
        ("none of 4,000 names", [helping, upgrade, *others]),
        ("4,000 name", [helping, upgrade, *users]),
        (f"{LARGE_ONES} of {len(more.bytes())} bytes name", [helping, upgrade, *(record(1, publish((more.renamed(f"L{n}"), bare))) for n in range(LARGE_ONES))]),
        (f"{LARGE_ONES} of 60 KB name", [helping, upgrade, *(record(1, publish((large.renamed(f"L{n}"), full))) for n in range(LARGE_ONES))]),
    ):
        first, second = program.cost(before), program.cost([*before, *[upgrade] * 10])
        costs.append(((second[0] - first[0]) / 10, second[1] - first[1]))
        print(f"costs: an upgrade of a module that {what}: {costs[-1][0] * 1e3:.3f} ms, {costs[-1][1]} KB more for ten "
              f"(aim: 0.1 ms more, or 1.1 times, and 100 KB)", flush=True)


def naming_each(own: str, others: Sequence[str], structs: bool = False) -> bytes:
    """A module that names one function of each of others, or one struct."""
    m = Module(own)
    for other in others:
        if structs:
            m.foreign_struct(other, "P0", inputs.PLAIN)
        else:
            m.foreign_function(other, "numbers0", "u64; u64", "u64")
    return m.bytes()


def tell_naming(program: Program) -> None:
    """A module that names one entry of each of many small and of many large modules."""
    helping = program.published(inputs.helping().bytes())
    names = [f"L{n}" for n in range(LARGE_ONES)]
    costs = []
    for what, units in ("500 bytes", 1), ("60 KB", inputs.LARGE):
        home = inputs.all_families(units, 5)
        found = program.certificate(home.bytes())
        before = [helping, *(record(1, publish((home.renamed(name), found))) for name in names)]
        one = [record(1, publish((naming_each(f"F{k}", names, structs=k % 2 == 1), b""))) for k in range(10)]
        first, second, third = program.cost(before), program.cost([*before, one[0]]), program.cost([*before, *one])
        costs.append((third[0] - first[0]) / len(one))
        print(f"costs: a module of {len(one[0])} bytes that names one entry of each of {LARGE_ONES} modules of {what}: {costs[-1] * 1e3:.2f} ms, "
              f"{second[1] - first[1]} KB more (aim: 1,000 KB or less)", flush=True)
    print(f"costs: of 60 KB it takes {costs[1] / costs[0]:.2f} times as long as of 500 bytes (aim: 1.5 or less)", flush=True)


def at_address(address: int, own: str = "M", others: Sequence[int] = ()) -> bytes:
    """A module at an address, which has handles of modules called M at others."""
    tables = Module(own).tables()
    tables.addresses = [inputs.address(address), *map(inputs.address, others)]
    tables.identifiers = [own, *(["M"] if others else [])]
    tables.module_handles = [inputs.model.ModuleHandle(0, 0), *(inputs.model.ModuleHandle(n, 1) for n in range(1, len(others) + 1))]
    return inputs.writer.write_module(tables)


def offered_at(address: int, *texts: bytes) -> bytes:
    """The record that publishes modules without code from an address."""
    offers = [inputs.model.Offer(text, b"") for text in texts]
    return record(*inputs.writer.write_payload(inputs.model.Publish(inputs.address(address), offers)))


def linked(address: int, others: Sequence[int] = ()) -> bytes:
    """The record that publishes from an address a module M that names those called M at others, and nothing of them."""
    tables = Module("M").tables()
    tables.addresses = [inputs.address(address), *map(inputs.address, others)]
    tables.identifiers = ["M"]
    tables.module_handles = [inputs.model.ModuleHandle(n, 0) for n in range(len(others) + 1)]
    return offered_at(address, inputs.writer.write_module(tables))


def tell_gaining(program: Program) -> None:
    """An upgrade that gains a dependency, which leads to all other modules: its bundle is put in order among all of them."""
    above = CHAINED + 1
    without, gaining = linked(above), linked(above, [CHAINED])
    before = [linked(1), *(linked(n, [n - 1]) for n in range(2, above)), without]
    answers = program.report([*before, gaining, without]).decode().splitlines()
    assert all(line.endswith(" published 1") for line in answers), answers[-2:]
    spent = (program.spent([*before, *[gaining, without] * GAINS]) - program.spent([*before, *[without, without] * GAINS])) / GAINS
    counts = [program.instructions([*before, *[upgrade, without] * GAINS]) for upgrade in (gaining, without)]
    more = difference(*counts)
    counted = f", {more / GAINS:,.0f} machine instructions" if more is not None else ""
    print(f"costs: an upgrade of {len(gaining)} bytes that gains a dependency, by which it depends on {CHAINED} modules in one chain: "
          f"{spent * 1e3:.2f} ms more than one that gains none{counted} (aim: 0.5 ms, or 5,000,000 machine instructions)", flush=True)


def tell_colliding(program: Program) -> None:
    """Modules whose names have one hash in the store, beside modules whose names have not."""
    count, named = 4_000, 2_500
    for what, half in ("collide", COLLIDING), ("don't collide", 12_345):
        for where in "low", "high":
            def place(n: int) -> int:
                return (n + 1) << 64 | half if where == "low" else half << 64 | (n + 1)

            before = [offered_at(place(n), at_address(place(n))) for n in range(count)]
            spent = program.spent(before)
            naming = offered_at(1, at_address(1, "F", [place(n) for n in range(named)]))
            answer = program.report([*before, naming]).decode().splitlines()[-1]
            assert " published " in answer, answer
            more = (program.spent([*before, *[naming] * 10]) - spent) / 10
            print(f"costs: {count} modules whose names {what} (the {where} half of the address is alike), {sum(map(len, before))} bytes: {spent:.3f} s; "
                  f"a module of {len(naming)} bytes that names {named} of them: {more * 1e3:.2f} ms", flush=True)


def large_with_coins() -> bytes:
    """A module of 42 KB with a coin whose value holds a struct."""
    m = Module("M")
    m.struct("Amount", "has store", "v: u64; w: u64")
    m.struct("Coin", ASSET, "a: Amount; who: address")
    m.function("mint", "signer; u64; address", "", "",
               "ImmBorrowLoc 0; CopyLoc 1; MoveLoc 1; Pack Amount; MoveLoc 2; Pack Coin; MoveTo Coin; Ret")
    for n in range(1_900):
        m.struct(f"Filler{n}", "has store", "v: u64")
    return m.bytes()


def tell_shows(program: Program) -> None:
    """Shows of values of a small module and of a large one, as text and as JSON."""
    coin = inputs.working().bytes()
    large = large_with_coins()
    address = inputs.model.Value(inputs.model.ADDRESS, inputs.address(5))
    for what, text, arguments in ("a small module", coin, (u64(7),)), (f"a module of {len(large) // 1000} KB", large, (u64(7), address)):
        before = [program.published(text)] + [record(2, run("mint", 100, *arguments, sender=1000 + n)) for n in range(SHOWN)]
        for form, payload in ("text", b""), ("JSON", b"\x01"):
            show = record(3, payload)
            size = len(program.report(before + [show])) - len(program.report(before))
            spent = program.spent(before + [show] * SHOWS) - program.spent(before)
            more = program.more_instructions(before, [show])
            counted = f", {more / size:.1f} machine instructions for each byte" if more is not None else ""
            aim = " (aim: 30 or less)" if form == "text" else ""
            print(f"costs: {SHOWN} values of {what} as {form}: {spent / SHOWS * 1e3:.2f} ms{counted}{aim}", flush=True)


def many_constants(count: int, own: str) -> bytes:
    """A module with so many different constants, which nothing loads."""
    m = Module(own, 6)
    m.items.append("tables { constants { " + "; ".join(f"{n}u16" for n in range(count)) + " } }")
    return m.bytes()


def many_foreign(count: int, own: str, home: str = "H") -> bytes:
    """A module that names so many structs of another one, in the order that is the last one's first."""
    m = Module(own)
    for n in reversed(range(count)):
        m.foreign_struct(home, f"S{n:x}", "has copy, drop, store")
    return m.bytes()


def many_own(count: int, own: str = "H") -> bytes:
    """The module that has them."""
    m = Module(own)
    for n in range(count):
        m.struct(f"S{n:x}", "has copy, drop, store", "v: u64")
    return m.bytes()


def leading(holding: Sequence[int], edges: Iterable[Leading]) -> bytes:
    """What is stated of a block: which locals hold a value, and edges, in any order."""
    stated = {inputs.model.Edge(inputs.model.Node(kind, own), inputs.model.Node(SLOT, to), tuple(path), is_open == 1)
              for kind, own, to, path, is_open in edges}
    return inputs.writer.write_state(inputs.model.BlockState(list(holding), sorted(stated)))


def state(holding: Sequence[int], edges: Iterable[Edge]) -> bytes:
    """The same, of edges from a local's value to a reference, at a list that may be open."""
    return leading(holding, [(OWN, own, to, path, is_open) for own, to, path, is_open in edges])


# Releases the first parameter, and goes on to a block that releases a local.
ON = "MoveLoc 0; Pop; Branch next; next: MoveLoc {0}; Pop; Ret"
PAIRS = [(a, b) for a in range(32) for b in range(32)]
# Edges from a local's value to the first parameter, one for each pair, and the labels of 32 fields.
EACH_PAIR: List[Leading] = [(OWN, 1, 0, pair, 0) for pair in PAIRS]
FIRST_FIELDS = [(n,) for n in range(32)]


def stated(code: str, parameters: str = "&u64; u64") -> Offered:
    """A module with a function of one block, stated with 1,024 edges into its first parameter; and its certificate."""
    m = Module()
    m.function("f", parameters, "", "", code + "MoveLoc 0; Pop; Ret", entry=False)
    return m.bytes(), STATED


def copying(times: int, below: int) -> Offered:
    """The first parameter is copied and released so often, above so many copies."""
    return stated("CopyLoc 0;" * below + "CopyLoc 0; Pop;" * times + "Pop;" * below)


def moving(times: int, below: int) -> Offered:
    """It is moved to the stack and back so often, above so many copies."""
    return stated("CopyLoc 0;" * below + "MoveLoc 0; StLoc 0;" * times + "Pop;" * below)


def calling(times: int, references: int) -> Offered:
    """So many copies of it are handed to a function that returns as many, again and again."""
    m = Module()
    kinds = "; ".join(["&u64"] * references)
    m.function("pick", kinds, kinds, "", "".join(f"MoveLoc {n};" for n in range(references)) + "Ret", entry=False)
    m.function("f", "&u64; u64", "", "", "CopyLoc 0;" * references + "Call pick;" * times + "Pop;" * references + "MoveLoc 0; Pop; Ret", entry=False)
    return m.bytes(), b"\x01" * (1 + references) + b"\x00" + STATED


def calling_on(times: int, references: int) -> Offered:
    """The same, and what the last call returns is stated in a block ahead, with as many open labels as can be."""
    m = Module()
    kinds = "; ".join(["&u64"] * references)
    m.function("pick", kinds, kinds, "", "".join(f"MoveLoc {n};" for n in range(references)) + "Ret", entry=False)
    code = "CopyLoc 0;" * references + "Call pick;" * times + "Pop;" * (references - 1) + "StLoc 2;" + ON.format(2)
    m.function("f", "&u64; u64", "", "&u64", code, entry=False)
    here = state([1, 1, 0], [(1, 0, pair, 0) for pair in PAIRS])
    return m.bytes(), b"\x01" * (1 + references) + b"\x00" + here + state([0, 1, 1], [(1, 2, pair, 1) for pair in PAIRS])


def gathered(times: int, parameters: str, locals_: str, last: str, picked: int = 0) -> Offered:
    """A module with a function in which so many fields at different paths of what its first parameter refers to are borrowed, and a
    function returns one reference for all of them; and the certificates of the others, one of which may return as many references as
    it takes."""
    m = Module()
    m.struct("T", "has copy, drop", "; ".join(f"g{n}: u64" for n in range(8)))
    m.struct("S", "has copy, drop", "; ".join(f"f{n}: T" for n in range(32)))
    m.function("first", "&S", "&u64", "", "MoveLoc 0; ImmBorrowField S.f0; ImmBorrowField T.g0; Ret", entry=False)
    m.function("with", "&u64; &u64", "&u64", "", "MoveLoc 0; Ret", entry=False)
    if picked:
        kinds = several("&u64", picked)
        m.function("pick", kinds, kinds, "", "".join(f"MoveLoc {n};" for n in range(picked)) + "Ret", entry=False)
    paths = [f"CopyLoc 0; ImmBorrowField S.f{n // 8}; ImmBorrowField T.g{n % 8}; Call with;" for n in range(times)]
    m.function("f", parameters, "", locals_, "CopyLoc 0; Call first;" + "".join(paths) + last, entry=False)
    return m.bytes(), b"\x01\x01\x00" + b"\x01\x01\x01\x00" + (state([1] * picked, ()) if picked else b"")


def gathering(times: int) -> Offered:
    """The reference is released where the function ends."""
    text, others = gathered(times, "&S; u64", "", "Pop; MoveLoc 0; Pop; Ret")
    return text, others + STATED


def gathering_on(times: int) -> Offered:
    """The reference is stated in a block ahead, with as many open labels as can be."""
    text, others = gathered(times, "&S; u64", "&u64", "StLoc 2;" + ON.format(2))
    here = state([1, 1, 0], [(1, 0, pair, 0) for pair in PAIRS])
    return text, others + here + state([0, 1, 1], [(1, 2, pair, 1) for pair in PAIRS])


def gathering_from(times: int) -> Offered:
    """The reference leads into 61 locals, and what is stated ahead of one of them tells all paths apart."""
    parameters, others, last = 15, 46, 62
    text, certificates = gathered(times, "&S" + "; u64" * parameters, "u64; " * others + "&u64", f"StLoc {last};" + ON.format(last))
    holding = [1] * parameters + [0] * others
    here = state([1, *holding, 0], [(own, 0, (), 0) for own in range(1, last)])
    paths = sorted([(n // 8, n % 8) for n in range(times)] + [(n,) for n in range(32)])
    ahead = [(1, last, path, 1) for path in [(), *paths]] + [(own, last, (), 1) for own in range(2, last)]
    return text, certificates + here + state([0, *holding, 1], ahead)


def gathered_and_used(times: int, use: str) -> Offered:
    """So many fields are gathered in one reference, which a local holds while this is done."""
    text, others = gathered(times, "&S; u64", "&u64", f"StLoc 2; {use} MoveLoc 2; Pop; MoveLoc 0; Pop; Ret")
    return text, others + state([1, 1, 0], [(1, 0, pair, 0) for pair in PAIRS])


def gathered_and_moved(times: int, below: int, moves: int) -> Offered:
    """The reference is copied so often, and then moved to the stack and back."""
    return gathered_and_used(times, "CopyLoc 2;" * below + "MoveLoc 2; StLoc 2;" * moves + "Pop;" * below)


def gathered_and_called(times: int, calls: int) -> Offered:
    """Two copies of the reference are handed to a function that returns one reference for both."""
    return gathered_and_used(times, "CopyLoc 2; CopyLoc 2; Call with; Pop;" * calls)


def lending(times: int, below: int) -> Offered:
    """A local's value is borrowed so often, above so many copies of a reference with 1,024 edges."""
    return stated("CopyLoc 0;" * below + "ImmBorrowLoc 1; Pop;" * times + "Pop;" * below)


def lending_mutably(times: int, below: int, each: bool) -> Offered:
    """A local's value is borrowed mutably, and copies of the reference are released above so many copies of another one with 1,024
    edges: so many times from one reference, or each time from a new one."""
    m = Module()
    begin, end = "MutBorrowLoc 2; StLoc 3;", "MoveLoc 3; Pop;"
    copied = "CopyLoc 3; Pop;"
    used = (begin + copied + end) * times if each else begin + copied * times + end
    code = "CopyLoc 0;" * below + used + "Pop;" * below + "MoveLoc 0; Pop; Ret"
    m.function("f", "&u64; u64; u64", "", "&mut u64", code, entry=False)
    return m.bytes(), state([1, 1, 1, 0], [(1, 0, pair, 0) for pair in PAIRS])


def lending_below(times: int, references: int, calls: int) -> Offered:
    """A local's value, to which so many references lead by 17 labels each, is borrowed so often below mutable references to another
    one: 8 for one of them at each call."""
    m = Module()
    m.function("many", "&mut u64", "; ".join(["&mut u64"] * 8), "", "LdU64 0; Abort", entry=False)
    begin = "".join(f"ImmBorrowLoc 0; StLoc {2 + n};" for n in range(references)) + "Branch next; next: MutBorrowLoc 1;"
    code = begin + "Call many;" * calls + "ImmBorrowLoc 0; Pop;" * times + "Pop;" * (7 * calls + 1) + "Ret"
    m.function("f", "u64; u64", "", "; ".join(["&u64"] * references), code, entry=False)
    paths = [(), *((n,) for n in range(16))]
    ahead = [(0, 2 + n, path, 0) for n in range(references) for path in paths]
    return m.bytes(), b"\x01\x01\x00" + state([1, 1, *[0] * references], []) + state([1, 1, *[1] * references], ahead)


def replacing(times: int, borrows: int) -> Offered:
    """A mutable reference is copied, and the copy takes its place, so often; then a local from which a reference leads is borrowed so
    often."""
    m = Module()
    begin = "LdU64 1; StLoc 5; ImmBorrowLoc 2; StLoc 3; MutBorrowLoc 5; StLoc 4;"
    code = begin + "CopyLoc 4; StLoc 4;" * times + "ImmBorrowLoc 2; Pop;" * borrows + "MoveLoc 4; Pop; MoveLoc 0; Pop; Ret"
    m.function("f", "&u64; u64; u64", "", "&u64; &mut u64; u64", code, entry=False)
    return m.bytes(), state([1, 1, 1, 0, 0, 0], [(1, 0, pair, 0) for pair in PAIRS])


class Borrowing(Module):
    """A module in the making: functions that are called and only abort, and one that borrows and calls them; with its certificate."""

    def __init__(self) -> None:
        super().__init__()
        self.certificate = b""

    def called(self, own: str, parameters: str, results: str) -> None:
        """A function for the calls."""
        self.function(own, parameters, results, "", "LdU64 0; Abort", entry=False)
        self.certificate += state([1] * len(inputs.listed(parameters)), ())

    def nested(self) -> None:
        """Structs with 256 values, one in the other."""
        self.struct("T", "has copy, drop", "; ".join(f"g{n}: u64" for n in range(8)))
        self.struct("S", "has copy, drop", "; ".join(f"f{n}: T" for n in range(32)))
        self.struct("W", "has copy, drop", "w: S")

    def borrowing(self, parameters: str, locals_: str, code: str, states: inputs.Data, acquires: str = "") -> Offered:
        """The function that borrows, and what is stated of its blocks."""
        self.function("f", parameters, "", locals_, code, acquires, entry=False)
        return self.bytes(), self.certificate + states

    def asking(self, parameters: str, begin: str, code: str, asks: int, left: int) -> Offered:
        """One that begins so while a global is borrowed, goes on when it isn't any more, and then calls so often a function that borrows
        it; so many operands are left."""
        self.struct("R", ASSET, "v: u64")
        self.function("ask", "", "", "", "LdConst @0x1; ImmBorrowGlobal R; Pop; Ret", "R", entry=False)
        self.certificate += state((), ())
        count = len(inputs.listed(parameters))
        code = f"LdConst @0x1; ImmBorrowGlobal R; StLoc {count}; {begin} MoveLoc {count}; Pop;" + code + "Call ask;" * asks
        return self.borrowing(parameters, "&R", code + "Pop;" * left + "Ret", state([1] * count + [0], ()), "R")


def several(kind: str, count: int) -> str:
    return "; ".join([kind] * count)


def inner(n: int) -> str:
    """Of a reference to an S, one of the 256 fields of its fields is borrowed."""
    return f"ImmBorrowField S.f{n % 32}; ImmBorrowField T.g{n // 32 % 8};"


def mixing() -> Borrowing:
    """Has a function for four mutable references and four others, which returns as many."""
    m = Borrowing()
    kinds = several("&mut u64", 4) + "; " + several("&u64", 4)
    m.called("four", "&mut u64", several("&mut u64", 4))
    m.called("mixed", kinds, kinds)
    return m


def mixed(calls: int, last: str, others: str = "ImmBorrowLoc 0;" * 4, edges: Sequence[Edge] = ()) -> Offered:
    """Four mutable references to a local, and four others, are handed to it again and again, and then this is done."""
    code = f"MutBorrowLoc 1; Call four; {others}" + "Call mixed;" * calls + last + "Pop;" * 8 + "Ret"
    return mixing().borrowing("u64; u64; &u64; u64", "", code, state([1] * 4, edges))


def mixed_and_asked(times: int) -> Offered:
    """They are handed to it so often, and then as many calls ask of a global."""
    return mixing().asking("u64; u64", "MutBorrowLoc 1; Call four;" + "ImmBorrowLoc 0;" * 4, "Call mixed;" * times, times, 8)


def fields_and_asked(times: int, asks: int) -> Offered:
    """A field of one of the mutable references is borrowed before each such call, and then so many calls ask of a global."""
    m = Borrowing()
    m.nested()
    others, mutable = several("&u64", 4), several("&mut S", 4)
    m.called("four", "&mut S", mutable)
    m.called("mixed", f"{others}; {several('&mut S', 3)}; &mut T", f"{others}; {mutable}")
    begin = "ImmBorrowLoc 0;" * 4 + "MutBorrowLoc 1; Call four;"
    return m.asking("u64; S", begin, "MutBorrowField S.f0; Call mixed;" * times, asks, 8)


def lent_and_asked(times: int, asks: int) -> Offered:
    """A local's value is borrowed so often, each time gathered with the references before, and then so many calls ask of a global."""
    m = Borrowing()
    m.called("with", "&u64; &u64", "&u64")
    return m.asking("u64", "ImmBorrowLoc 0;", "ImmBorrowLoc 0; Call with;" * times, asks, 1)


def fields_below_one(times: int, edges: int) -> Offered:
    """So many borrows below one field of a reference with so many edges are gathered; as many open labels as edges are stated ahead."""
    m = Borrowing()
    m.nested()
    m.called("with", "&S; &u64", "&S")
    code = "CopyLoc 0; ImmBorrowField W.w;" + "".join(f"CopyLoc 0; ImmBorrowField W.w; {inner(n)} Call with;" for n in range(times))
    here = state([1, 1, 0], [(1, 0, pair, 0) for pair in PAIRS[:edges]])
    ahead = state([0, 1, 1], [(1, 2, [*pair, 0], 1) for pair in PAIRS[:edges]])
    return m.borrowing("&W; u64", "&S", f"{code} StLoc 2; {ON.format(2)}", here + ahead)


def fields_of_one(times: int) -> Offered:
    """So many borrows of 256 fields of a reference with one edge are gathered; as many open labels are stated ahead."""
    m = Borrowing()
    m.nested()
    m.called("with", "&u64; &u64", "&u64")
    code = f"ImmBorrowLoc 1; StLoc 0; CopyLoc 0; {inner(0)}" + "".join(f"CopyLoc 0; {inner(n)} Call with;" for n in range(times))
    ahead = state([0, 1, 1], [(1, 2, (n % 32, n // 32), 1) for n in range(times)])
    return m.borrowing("&S; S", "&u64", f"{code} StLoc 2; {ON.format(2)}", state([1, 1, 0], ()) + ahead)


def lent_to_many(times: int, references: int) -> Offered:
    """So many borrows of a local's field are gathered, and so many references are copies of that."""
    m = Borrowing()
    m.nested()
    m.called("with", "&T; &T", "&T")
    lent = "ImmBorrowLoc 0; ImmBorrowField S.f0;"
    code = lent + f"{lent} Call with;" * times + "StLoc 1;" + "".join(f"CopyLoc 1; StLoc {2 + n};" for n in range(references - 1))
    ahead = state([1] * (1 + references), [(0, 1 + n, (0,), 1) for n in range(references)])
    return m.borrowing("S", several("&T", references), f"{code} Branch next; next: Ret", state([1] + [0] * references, ()) + ahead)


def many_to_many(times: int, references: int) -> Offered:
    """Fields of so many references, and of the first of them so often again, are gathered; as many other references are copies."""
    m = Borrowing()
    m.nested()
    m.called("with", "&T; &T", "&T")
    first, last = range(1, 1 + references), range(1 + references, 1 + 2 * references)
    code = "".join(f"ImmBorrowLoc 0; StLoc {n};" for n in first) + "Branch next; next: CopyLoc 1; ImmBorrowField S.f0;"
    code += "".join(f"CopyLoc {n}; ImmBorrowField S.f0; Call with;" for n in [*first, *[1] * times]) + f"StLoc {last[0]};"
    code += "".join(f"CopyLoc {last[0]}; StLoc {n};" for n in last[1:]) + "".join(f"MoveLoc {n}; Pop;" for n in first)
    paths = [(), *((n,) for n in range(16))]
    here = state([1] + [1] * references + [0] * references, [(0, n, path, 0) for n in first for path in paths])
    ahead = state([1] + [0] * references + [1] * references, [(0, n, [*path, 0], 1) for n in last for path in paths])
    locals_ = several("&S", references) + "; " + several("&T", references)
    return m.borrowing("S", locals_, f"{code} Branch then; then: Ret", state([1] + [0] * references * 2, ()) + here + ahead)


def fields_of_copies(copies: int, times: int, references: int) -> Offered:
    """A mutable reference is copied so often, from one local to another and back; so many borrows of fields of the last copy are
    gathered, and so many references are to fields of that."""
    m = Borrowing()
    m.nested()
    m.called("with", "&S; &u64", "&S")
    code = "MutBorrowLoc 0; StLoc 1;" + "CopyLoc 1; StLoc 2; CopyLoc 2; StLoc 1;" * (copies // 2)
    code += "CopyLoc 1; FreezeRef; StLoc 3; CopyLoc 3;" + "".join(f"CopyLoc 3; {inner(n)} Call with;" for n in range(times)) + "StLoc 4;"
    code += "".join(f"CopyLoc 4; ImmBorrowField S.f{n}; StLoc {5 + n};" for n in range(references)) + "MoveLoc 3; Pop;"
    edges = [edge for to in [1, 2, *range(4, 5 + references)] for edge in from_first(3, to, (), 1) if edge[:2] != (SLOT, to)]
    ahead = leading([1, 1, 1, 0] + [1] * (1 + references), edges)
    locals_ = "&mut S; &mut S; &S; &S; " + several("&T", references)
    return m.borrowing("S", locals_, f"{code} Branch next; next: Ret", state([1] + [0] * (4 + references), ()) + ahead)


def borrows_and_calls(borrows: int, calls: int) -> Offered:
    """Two locals are borrowed so often, and then eight mutable references to a third one are handed to a function that returns as many."""
    m = Borrowing()
    m.called("eight", "&mut u64", several("&mut u64", 8))
    m.called("all", several("&mut u64", 8), several("&mut u64", 8))
    code = "MutBorrowLoc 2; Call eight;" + "ImmBorrowLoc 0; Pop; ImmBorrowLoc 1; Pop;" * (borrows // 2) + "Call all;" * calls
    return m.borrowing(several("u64", 3), "", code + "Pop;" * 8 + "Ret", state([1] * 3, ()))


def spread(times: int, references: int, depth: int, edges: Sequence[Leading], ahead: Sequence[Sequence[int]]) -> Offered:
    """Below a reference with these edges, so many positions down, so many borrows of fields are gathered, and so many copies of what they
    are gathered in are stated ahead, each by an open label of these paths from each local that an edge leads out of."""
    m = Borrowing()
    m.nested()
    kinds = ["W", *(f"D{n}" for n in range(depth - 1))][:depth]
    for n, kind in enumerate(kinds[1:]):
        m.struct(kind, "has copy, drop", f"w: {kinds[n]}")
    m.called("with", "&u64; &u64", "&u64")
    owns = sorted({edge[1] for edge in edges})
    first = 1 + len(owns)
    down = "CopyLoc 0;" + "".join(f"ImmBorrowField {kind}.w;" for kind in reversed(kinds)) + f"StLoc {first};"
    code = down + f"CopyLoc {first}; {inner(0)}" + "".join(f"CopyLoc {first}; {inner(n)} Call with;" for n in range(1, times)) + f"StLoc {first + 1};"
    code += "".join(f"CopyLoc {first + 1}; StLoc {first + 2 + n};" for n in range(references - 1))
    code += f"MoveLoc {first}; Pop; MoveLoc 0; Pop; Branch next; next: Ret"
    here = leading([1] * first + [0] * (1 + references), edges)
    stated_ahead = leading([0] + [1] * len(owns) + [0] + [1] * references, [(OWN, own, first + 1 + n, path, 1) for n in range(references) for own in owns for path in ahead])
    top = kinds[-1] if kinds else "S"
    return m.borrowing(f"&{top}; {several('u64', len(owns))}", f"&S; {several('&u64', references)}", code, here + stated_ahead)


def globals_gathered(count: int) -> Offered:
    """So many globals are gathered in one reference, and as many stated ahead."""
    m = Borrowing()
    for n in range(count):
        m.struct(f"R{n}", ASSET, "v: u64")
    m.called("with", "&u64; &u64", "&u64")
    lent = [f"LdConst @0x1; ImmBorrowGlobal R{n}; ImmBorrowField R{n}.v;" for n in range(count)]
    code = lent[0] + "".join(f"{one} Call with;" for one in lent[1:]) + "StLoc 0; Branch next; next: Ret"
    ahead = leading([1], [(GLOB, n, 0, (0,), 1) for n in range(count)])
    return m.borrowing("", "&u64", code, state([0], ()) + ahead, ", ".join(f"R{n}" for n in range(count)))


def globals_acquired(acquired: int, others: int, calls: int) -> Offered:
    """A function that acquires so many globals is called so often, where so many other globals are stated to lead into a reference."""
    m = Borrowing()
    for n in range(acquired + others):
        m.struct(f"R{n}", ASSET, "v: u64")
    names = ", ".join(f"R{n}" for n in range(acquired))
    m.function("ask", "", "", "", "".join(f"LdConst @0x1; ImmBorrowGlobal R{n}; Pop;" for n in range(acquired)) + "Ret", names, entry=False)
    m.certificate += state((), ())
    code = f"LdConst @0x1; ImmBorrowGlobal R{acquired}; ImmBorrowField R{acquired}.v; StLoc 0; Branch then; then: "
    code += "LdConst @0x1; ImmBorrowGlobal R0; Pop;" + "Call ask;" * calls + "CopyLoc 0; Pop; Ret"
    ahead = leading([1], [(GLOB, acquired + n, 0, (0,), 1) for n in range(others)])
    return m.borrowing("", "&u64", code, state([0], ()) + ahead, f"{names}, R{acquired}")


def from_first(count: int, to: int, path: Sequence[int] = (), is_open: int = 0) -> List[Leading]:
    """Edges to a reference from the first so many locals: from the value of the very first, and from the others, which are mutable
    references."""
    return [(SLOT if n else OWN, n, to, path, is_open) for n in range(count)]


def chained(kind: str, count: int) -> Tuple[str, str, List[Leading]]:
    """So many mutable references, each a copy of the one before, the first to a local's value: their types, the code, and the edges."""
    code = "MutBorrowLoc 0; StLoc 1;" + "".join(f"CopyLoc {n}; StLoc {1 + n};" for n in range(1, count))
    return several(f"&mut {kind}", count), code, [edge for to in range(1, 1 + count) for edge in from_first(to, to)]


def frozen(count: int, times: int) -> Offered:
    """The last of so many mutable references is copied so often, and the copy frozen."""
    locals_, code, _ = chained("u64", count)
    code += f"CopyLoc {count}; FreezeRef; Pop;" * times
    return Borrowing().borrowing("u64", locals_, code + "Ret", state([1] + [0] * count, ()))


def copies_that_go(times: int, references: int) -> Offered:
    """Of the last of 18 mutable references so many copies come and go, and so many references are to a field of it."""
    m = Borrowing()
    m.nested()
    locals_, code, edges = chained("S", 18)
    code += "CopyLoc 18; StLoc 19; CopyLoc 19; StLoc 18;" * (times // 2) + "CopyLoc 18; FreezeRef; ImmBorrowField S.f0; StLoc 20;"
    code += "".join(f"CopyLoc 20; StLoc {21 + n};" for n in range(references - 1))
    edges += [*from_first(18, 19), (SLOT, 19, 18, (), 0)]
    edges += [edge for to in range(20, 20 + references) for edge in from_first(20, to, (0,))]
    ahead = leading([1] * (20 + references), edges)
    locals_ += "; &mut S; " + several("&T", references)
    return m.borrowing("S", locals_, f"{code} Branch next; next: Ret", state([1] + [0] * (19 + references), ()) + ahead)


def fields_of_chained(times: int, references: int) -> Offered:
    """So many borrows of fields of the last of 17 mutable references are gathered, and so many references are copies of that."""
    m = Borrowing()
    m.nested()
    m.called("with", "&T; &T", "&T")
    locals_, code, edges = chained("W", 17)
    code += "CopyLoc 17; FreezeRef; ImmBorrowField W.w; StLoc 18; CopyLoc 18; ImmBorrowField S.f0;"
    code += "".join(f"CopyLoc 18; ImmBorrowField S.f{n % 32}; Call with;" for n in range(times)) + "StLoc 19;"
    code += "".join(f"CopyLoc 19; StLoc {20 + n};" for n in range(references - 1)) + "MoveLoc 18; Pop; Branch next; next: Ret"
    edges += [edge for to in range(19, 19 + references) for edge in from_first(18, to, (0,), 1)]
    ahead = leading([1] * 18 + [0] + [1] * references, edges)
    return m.borrowing("W", f"{locals_}; &S; {several('&T', references)}", code, state([1] + [0] * (18 + references), ()) + ahead)


def gathered_and_returned(times: int, calls: int) -> Offered:
    """So many fields of a reference with 288 edges are gathered, and eight copies of that handed to a function that returns as many."""
    text, others = gathered(times, "&S; u64", "&u64", "StLoc 2;" + "CopyLoc 2;" * 8 + "Call pick;" * calls + "Pop;" * 8 + "Ret", 8)
    return text, others + state([1, 1, 0], [(1, 0, pair, 0) for pair in PAIRS if pair[1] < 9])


def known_blocks() -> Sequence[Tuple[str, Offered]]:
    """Blocks that were dear in an earlier form of the program."""
    return (
        ("1,900 copies of a reference with 1,024 edges", copying(1_900, 0)),
        ("950 copies of it", copying(950, 0)),
        ("800 copies of it above 126 others", copying(800, 126)),
        ("1,900 moves of it to the stack and back", moving(1_900, 0)),
        ("1,800 moves of it above 125 copies", moving(1_800, 125)),
        ("900 moves of it above 125 copies", moving(900, 125)),
        ("4,000 calls with 8 copies of it that return as many", calling(4_000, 8)),
        ("2,000 calls with 8 copies of it that return as many", calling(2_000, 8)),
        ("3,900 such calls, with 1,024 open labels stated ahead", calling_on(3_900, 8)),
        ("256 fields of it at different paths, gathered in one reference by as many calls", gathering(256)),
        ("128 fields of it gathered so", gathering(128)),
        ("256 fields gathered so, with 1,024 open labels stated ahead", gathering_on(256)),
        ("256 fields gathered so of a reference into 61 locals", gathering_from(256)),
        ("250 fields gathered so, and 1,200 moves of the reference above 120 copies", gathered_and_moved(250, 120, 1_200)),
        ("250 fields gathered so, and 650 calls with two copies of the reference", gathered_and_called(250, 650)),
        ("125 fields gathered so, and 650 calls with two copies of the reference", gathered_and_called(125, 650)),
        ("1,300 borrows of a local above 120 copies", lending(1_300, 120)),
        ("1,800 copies of a mutable reference above 120 copies of another one", lending_mutably(1_800, 120, False)),
        ("600 mutable references, each copied, above 120 copies of another one", lending_mutably(600, 120, True)),
        ("1,500 borrows of a local to which 60 references lead, above 120 mutable ones to another", lending_below(1_500, 60, 17)),
        ("750 borrows of it", lending_below(750, 60, 17)),
        ("2,000 copies of a mutable reference that take its place", replacing(2_000, 0)),
        ("1,000 copies that take its place", replacing(1_000, 0)),
        ("1,300 copies that take its place, and 600 borrows of a local", replacing(1_300, 600)),
    )


def sought_blocks() -> Sequence[Tuple[str, Offered]]:
    """Blocks that were looked for: many ways by which a reference comes about, and then questions, or much that is stated ahead."""
    return (
        ("2,030 calls with 8 references, 4 of them mutable, and 2,030 calls that ask of a global", mixed_and_asked(2_030)),
        ("2,030 calls with 8 references, 4 of them mutable, and 1,020 borrows of a local", mixed(2_030, "ImmBorrowLoc 0; Pop;" * 1_020)),
        ("1,350 calls with 8 references, 4 of them mutable, and as many copies of a value", mixed(1_350, "CopyLoc 0; Pop;" * 1_350)),
        ("1,000 calls with 8 references, 4 of them mutable and 3 with 1,024 edges, and 1,500 copies of a value",
         mixed(1_000, "CopyLoc 0; Pop;" * 1_500, "CopyLoc 2;" * 3 + "ImmBorrowLoc 0;", [(3, 2, pair, 0) for pair in PAIRS])),
        ("800 borrows below one field of a reference with 400 edges, gathered, and 400 open labels stated ahead", fields_below_one(800, 400)),
        ("660 borrows of fields of a reference with one edge, gathered, and 660 open labels stated ahead", fields_of_one(660)),
        ("700 borrows of a local, gathered, and 60 references stated ahead", lent_to_many(700, 60)),
        ("981 borrows of fields of 31 references with 17 edges each, gathered, and 31 references stated ahead", many_to_many(950, 31)),
        ("500 borrows of fields of the last of 500 mutable copies, gathered, and 31 references stated ahead", fields_of_copies(500, 500, 30)),
        ("690 borrows of two locals, and 2,000 calls with 8 mutable references", borrows_and_calls(690, 2_000)),
        ("701 globals, gathered, and as many stated ahead", globals_gathered(701)),
        ("3,000 calls that acquire 1,000 globals, where 900 others lead into a reference", globals_acquired(1_000, 900, 3_000)),
        ("4,000 calls that acquire 8 globals, where 1,024 others lead into a reference", globals_acquired(8, 1_024, 4_000)),
        ("1,300 frozen copies of the last of 61 mutable references in one chain", frozen(61, 1_300)),
        ("1,400 copies that go, of the last of 18 mutable references in one chain, and 41 references stated ahead", copies_that_go(1_400, 41)),
        ("1,000 borrows of fields of the last of 17 mutable references in one chain, gathered, and 41 references stated ahead", fields_of_chained(1_000, 41)),
        ("1,024 fields, a call with 8 references after each, and 2,020 calls that ask of a global", fields_and_asked(1_024, 2_020)),
        ("1,020 borrows of a local, each gathered with those before, and 2,040 calls that ask of a global", lent_and_asked(1_020, 2_040)),
        ("256 fields of a reference with 288 edges, gathered, and 2,900 calls with 8 copies of it", gathered_and_returned(256, 2_900)),
        ("950 borrows of fields of a reference with 1,024 edges, gathered, and 59 references stated ahead by an open label each", spread(950, 59, 0, EACH_PAIR, [()])),
        ("950 such borrows, gathered, and 31 references stated ahead by 32 open labels each", spread(950, 31, 0, EACH_PAIR, FIRST_FIELDS)),
        ("900 borrows of fields three fields down of a reference with 105 edges, gathered, and 45 references stated ahead",
         spread(900, 45, 3, [(OWN, own, 0, (0,) * n, 0) for own in range(1, 16) for n in range(7)], [(0,) * 3])),
        ("560 borrows of fields of the last of 800 mutable copies, gathered, and 33 references stated ahead", fields_of_copies(800, 560, 32)),
        ("950 borrows of fields of a reference with 1,024 edges, one of them with no position, gathered, and 31 references stated ahead by 32 open labels each",
         spread(950, 31, 0, [*EACH_PAIR[1:], (OWN, 1, 0, (), 0)], FIRST_FIELDS)),
    )


def tell_dearest(program: Program) -> None:
    """What records cost that are dear for their size, beside ordinary ones."""
    ordinary = inputs.all_families(inputs.LARGE, 5).bytes()
    helping = program.published(inputs.helping().bytes())
    publishing = program.published(ordinary)
    mean = (program.spent([helping] + [publishing] * 10) - program.spent([helping])) / 10 / len(publishing) * 1e6
    print(f"costs: 1 MB of ordinary modules takes {mean * 1e3:.0f} ms", flush=True)

    def counted(offered: bytes, before: Records) -> float:
        """The machine instructions for each byte of a record, or 0 where there is no valgrind."""
        return (program.more_instructions(before, [offered]) or 0) / len(offered)

    usual = counted(publishing, [helping])
    dear = []

    def tell_one(what: str, offered: bytes, before: Records = ()) -> None:
        answer = program.report([*before, offered]).decode().splitlines()[-1]
        assert " published " in answer, (what, answer)
        spent = program.spent([*before, offered]) - program.spent(before)
        dear.append((spent / len(offered) * 1e6, counted(offered, before), what, spent, len(offered)))

    for count in 8_000, 16_000:
        tell_one(f"16 modules of {count} constants", record(1, publish(*((many_constants(count, f"C{n}"), b"") for n in range(16)))))
    for count in 1_500, 3_000:
        home = record(1, publish((many_own(count), b"")))
        tell_one(f"10 modules that each name {count} structs of another", record(1, publish(*((many_foreign(count, f"F{n}"), b"") for n in range(10)))), [home])
    for what, made in [*known_blocks(), *sought_blocks()]:
        tell_one(what, record(1, publish(made)))
    for per_megabyte, each, what, spent, size in sorted(dear, reverse=True):
        instructions = f", {each / usual:.0f} times the machine instructions" if each else ""
        print(f"costs: {what}, {size} bytes: {spent:.3f} s, {per_megabyte * 16.384:.1f} ms for 16 KB, "
              f"{per_megabyte / mean:.0f} times the mean for as many bytes{instructions} (aim: 100 or less, or 60 ms for 16 KB)", flush=True)


# Locals of a module whose search is long: a struct, a condition, and references, of which each gets an edge for each field.
STRUCT, CONDITION, FIRST = 0, 1, 2
LABELS, REFERENCES = 32, 32


def branching(blocks: int, depth: int) -> bytes:
    """A module with so many blocks of two instructions, each with 1,024 edges ahead of it and two successors: 32 references lead to 32
    fields of a local each, which lie so many structs deep."""
    m = Module()
    m.struct("S0", "has copy, drop", "; ".join(f"f{n}: u64" for n in range(LABELS)))
    for n in range(1, depth):
        m.struct(f"S{n}", "has copy, drop", "; ".join(f"f{k}: u64" for k in range(LABELS - 1)) + f"; inner: S{n - 1}")
    inwards = "".join(f"ImmBorrowField S{n}.inner;" for n in range(depth - 1, 0, -1))

    def borrowed(label: int) -> str:
        return f"ImmBorrowLoc {STRUCT}; {inwards} ImmBorrowField S0.f{label}; StLoc {FIRST}; Branch joined;"

    code = "".join(f"CopyLoc {CONDITION}; BrTrue arm{n};" for n in range(1, LABELS)) + borrowed(0)
    code += "".join(f"arm{n}: {borrowed(n)}" for n in range(1, LABELS))
    code += "joined: " + "".join(f"CopyLoc {FIRST}; StLoc {FIRST + n};" for n in range(1, REFERENCES)) + "Branch block0;"
    code += "".join(f"block{n}: CopyLoc {CONDITION}; BrTrue block0;" for n in range(blocks))
    m.function("f", f"S{depth - 1}; bool", "", "; ".join(["&u64"] * REFERENCES), code + "Ret", entry=False)
    return m.bytes()


def tell_steps(program: Program) -> None:
    """What a step of a search for a certificate takes: of ordinary code, and of the dearest that is known."""
    dearest = "1,000 blocks of two instructions with 1,024 edges ahead of each"
    for what, text in (
        ("ordinary code", inputs.all_families(inputs.LARGE, 5).bytes()),
        (f"{dearest}, whose labels have one position", branching(1_000, 1)),
        (f"{dearest}, whose labels have seven positions", branching(1_000, 7)),
    ):
        steps = program.steps(text)
        seconds, count = program.search(text)
        counted = f" and {count / steps:,.0f} machine instructions" if count is not None else ""
        print(f"costs: the search for a certificate of {what}, {len(text)} bytes: {steps} steps, {seconds:.3f} s, "
              f"{seconds / steps * 1e6:.2f} us{counted} a step", flush=True)


def tell(program: Path, folder: Path) -> None:
    """Prints a line for each measurement."""
    os.makedirs(folder, exist_ok=True)
    measured = Program(program, folder)
    tell_upgrades(measured)
    tell_dependants(measured)
    tell_naming(measured)
    tell_gaining(measured)
    tell_colliding(measured)
    tell_shows(measured)
    tell_dearest(measured)
    tell_steps(measured)


if __name__ == "__main__":
    tell(*map(Path, sys.argv[1:]))
