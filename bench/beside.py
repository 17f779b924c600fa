"""What the program costs beside a plain implementation of the same rules (plain.rs): machine instructions of both, less what an
empty stream or module takes, seconds by the clock, the least of several tries, and how both grow from n to 2n. What they print is equal,
byte for byte, or it ends. Each row has a bound: how many times the plain one's machine instructions the program may take for the second
half of its records, which are the same on both sides of any that come before, or of its blocks. Where one is above it, the script ends with
status 1.

usage: python3 bench/beside.py FOLDER [PROGRAM]    FOLDER is kept; it has the plain implementation as `plain`, or a rustc makes
it there. Machine instructions are counted where there is a valgrind."""

import random
import subprocess
import sys
import time
from functools import partial
from pathlib import Path
from typing import Any, Callable, Dict, Iterator, List, NamedTuple, Optional, Sequence, Tuple

import inputs
import process
from files import PROGRAM
from inputs import ASSET, Module, publish, record, run, u64
from process import difference

HERE = Path(__file__).resolve().parent
# The plain implementation, in the folder, and the commands of both.
PLAIN = "plain"
APPLY, PROVE, CHECK = "apply", "prove", "check"
Words = Sequence[str]
TRIES = 3
GROWTH_AIM = "2.3 or less"
NO_STATE = b""

EMPTY, MINTS, WRITES, OWNER = 2_000, 100_000, 500, 7
SHOW, SHOW_JSON, AUDIT = record(3, b""), record(3, b"\x01"), record(4, b"")
# Coins that are stored, and how often pairs of them that are chosen at random are used.
COINS, USES, MODULES = 10_000, 100, 5


def straight(code: str, most: int = 4_000) -> str:
    """Code without a branch, as often as it stands in so many instructions, and Ret."""
    return code * (most // code.count(";")) + "Ret"


def coin() -> Tuple[bytes, bytes]:
    """The module that is run, and its certificate: what is known where its functions begin."""
    m = Module()
    m.struct("Coin", ASSET, "v: u64")
    m.function("mint", "signer; u64", "", "", "ImmBorrowLoc 0; MoveLoc 1; Pack Coin; MoveTo Coin; Ret")
    m.function("stores", "address", "", "", straight("LdU64 5; CopyLoc 0; MutBorrowGlobal Coin; MutBorrowField Coin.v; WriteRef;"), "Coin")
    kept = straight("LdU64 5; CopyLoc 1; MutBorrowField Coin.v; WriteRef;")
    m.function("holds", "address", "", "&mut Coin", f"MoveLoc 0; MutBorrowGlobal Coin; StLoc 1; {kept}", "Coin")
    return m.bytes(), bytes([1, 1, 1, 0, 1, 1, 0, 1, 1, 0, 0])


# The functions of the module of random pairs: name, locals, what the code begins with, what is repeated, what that is, and the bound.
USED = (
    ("turns", "", "", "".join(f"CopyLoc {n}; ImmBorrowGlobal Coin; ImmBorrowField Coin.v; ReadRef; Pop;" for n in (0, 1)),
     "400 reads of two coins in turn", 0.42),
    ("keeps", "&Coin", "MoveLoc 0; ImmBorrowGlobal Coin; StLoc 2;", "CopyLoc 2; ImmBorrowField Coin.v; ReadRef; Pop;",
     "1,000 reads by a reference to a coin", 0.9),
)
# A coin's amount is lowered by one, and another one's is raised.
PAYING = "".join(f"CopyLoc {n}; MutBorrowGlobal Coin; MutBorrowField Coin.v; StLoc 2; CopyLoc 2; ReadRef; LdU64 1; {does}; MoveLoc 2; WriteRef;"
                 for n, does in ((0, "Sub"), (1, "Add")))
# Values of so many leaves: the fields of a value, and what puts them on the stack.
EIGHT = "; ".join(f"f{n}: u64" for n in range(8)), "LdU64 1;" * 8
WIDTHS = {1: ("f: u64", "LdU64 1;"), 8: EIGHT, 64: ("; ".join(f"g{n}: S8" for n in range(8)), f"{EIGHT[1]} Pack S8;" * 8)}
# What is done with such a value, and how many times the plain one's machine instructions that may take for each width. The plain one moves
# a pointer, whatever the width, and copies leaf by leaf, each with its type.
WIDE_USES = (
    ("moves", "moves", "MoveLoc 1; StLoc 2; MoveLoc 2; StLoc 1;", {1: 0.38, 8: 1.7, 64: 3.6}),
    ("copies", "copies and pops", "CopyLoc 1; Pop;", {1: 0.2, 8: 0.25, 64: 0.1}),
)


def using() -> Tuple[Module, bytes]:
    """The module whose functions use two stored coins, or a value of 1, 8 or 64 leaves, and its certificate."""
    m = Module()
    m.struct("Coin", ASSET, "v: u64")
    m.function("mint", "signer; u64", "", "", "ImmBorrowLoc 0; MoveLoc 1; Pack Coin; MoveTo Coin; Ret")
    holding = [[1, 1]]
    for name, locals_, begin, code, *_ in USED:
        m.function(name, "address; address", "", locals_, begin + straight(code), "Coin")
        holding.append([1, 1, *[0] * bool(locals_)])
    m.function("pays", "address; address", "", "&mut u64", straight(PAYING), "Coin")
    m.function("pay", "address; address", "", "&mut u64", f"{PAYING} Ret", "Coin")
    holding += [[1, 1, 0]] * 2
    for leaves, (fields, made) in WIDTHS.items():
        own = f"S{leaves}"
        m.struct(own, inputs.PLAIN, fields)
        for name, _, code, _ in WIDE_USES:
            m.function(f"{name}{leaves}", "u64", "", f"{own}; {own}", f"{made} Pack {own}; StLoc 1; {straight(code, 3_900)}")
            holding.append([1, 0, 0])
    return m, b"".join(bytes([1, *held, 0]) for held in holding)


# What makes the parts of an input, for n: records, or a module.
Made = Callable[[int], List[bytes]]


class Row(NamedTuple):
    """What is measured: what the input for n = 2 is, the parts of the input for n, how many times the plain one's machine instructions the
    second half of it may take, and the command that reads it."""

    what: str
    made: Made
    bound: float = 1.0
    command: str = APPLY


def of_pairs() -> Iterator[Row]:
    """Coins at addresses that are chosen at random, and values of several widths."""
    module, certificate = using()
    published = record(1, publish((module.bytes(), certificate)))
    chosen = random.Random(11)
    places = [chosen.getrandbits(128) for _ in range(COINS)]
    before = [published, *(record(2, run("mint", 100, u64(10**9), sender=place)) for place in places)]
    pairs = [[inputs.model.Value(inputs.model.ADDRESS, inputs.address(place)) for place in chosen.sample(places, 2)] for _ in range(40 * USES)]

    def modules(n: int) -> List[bytes]:
        return [record(1, publish((module.renamed(f"U{k}"), certificate))) for k in range(MODULES * n)]

    def uses(name: str, times: int, n: int) -> List[bytes]:
        return [*before, *(record(2, run(name, 10_000_000, *two)) for two in pairs[:times * n]), SHOW]

    def wides(name: str, n: int) -> List[bytes]:
        return [published, *[record(2, run(name, 10_000_000, u64(7)))] * (USES * n)]

    yield Row(f"{MODULES * 2} modules of {module.instructions:,} instructions without a branch, each of which is reached", modules, 1.52)
    for name, _, _, _, what, bound in USED:
        yield Row(f"{USES * 2:,} runs of {what}, of {COINS:,}", partial(uses, name, USES), bound)
    yield Row(f"{USES * 2:,} runs of 200 payments between two coins, of {COINS:,}", partial(uses, "pays", USES), 0.52)
    yield Row(f"{USES * 40:,} payments between two coins, of {COINS:,}, a record each", partial(uses, "pay", USES * 20), 0.97)
    for name, what, _, bounds in WIDE_USES:
        for leaves, bound in bounds.items():
            yield Row(f"{USES * 2:,} runs of 3,900 {what} of a value of {leaves} leaves", partial(wides, f"{name}{leaves}"), bound)


def streams() -> Iterator[Tuple[str, Made]]:
    """What the records for n = 2 of each of the first rows are, and the records for n."""
    published = record(1, publish(coin()))
    at = inputs.model.Value(inputs.model.ADDRESS, inputs.address(OWNER))

    def empty(n: int) -> List[bytes]:
        return [record(1, publish((Module(f"E{k}").bytes(), NO_STATE))) for k in range(EMPTY * n)]

    def mints(n: int, *after: bytes) -> List[bytes]:
        senders = ((k * 0x9E3779B97F4A7C15 % 2**64) << 64 for k in range(MINTS * n))
        return [published, *(record(2, run("mint", 100, u64(7), sender=sender)) for sender in senders), *after]

    def writes(n: int, name: str) -> List[bytes]:
        first = record(2, run("mint", 100, u64(7), sender=OWNER))
        return [published, first, *[record(2, run(name, 10_000_000, at))] * (WRITES * n), SHOW, AUDIT]

    yield f"{EMPTY * 2:,} empty modules", empty
    yield f"{MINTS * 2:,} mints", mints
    yield f"{MINTS * 2:,} mints, a show and an audit", lambda n: mints(n, SHOW, AUDIT)
    yield f"{MINTS * 2:,} mints and a show as JSON", lambda n: mints(n, SHOW_JSON)
    yield f"{WRITES * 2:,} runs of 800 writes of a stored field by its address", lambda n: writes(n, "stores")
    yield f"{WRITES * 2:,} runs of 1,000 writes by a reference kept", lambda n: writes(n, "holds")


def of_flows() -> Iterator[Row]:
    """Modules with loops: the search for a certificate, and the check of the one that it finds."""
    def loop(n: int) -> List[bytes]:
        return [inputs.looping(100 * n).bytes()]

    yield Row("`prove` of a loop of 200 blocks with 30 references", loop, 2.1, PROVE)
    yield Row("`prove` of 40 rounds through 200 blocks", lambda n: [inputs.rippling(40, 100 * n).bytes()], 1.75, PROVE)
    yield Row("`check` of the first one's certificate", loop, 1.2, CHECK)


def rows() -> Iterator[Row]:
    """All that is measured."""
    yield from (Row(what, made) for what, made in streams())
    yield from of_pairs()
    yield from of_flows()


class Side:
    """One of the two programs, which is run in a folder."""

    def __init__(self, folder: Path, program: Path):
        self.folder, self.program = folder, program

    def run(self, words: Words, **how: Any) -> "subprocess.CompletedProcess[bytes]":
        return subprocess.run([self.program, *words], check=True, cwd=self.folder, **how)

    def printed(self, words: Words) -> bytes:
        printed: bytes = self.run(words, stdout=subprocess.PIPE).stdout
        return printed

    def seconds(self, words: Words) -> float:
        """The least seconds by the clock."""
        tries = []
        for _ in range(TRIES):
            start = time.monotonic()
            self.run(words, stdout=subprocess.DEVNULL)
            tries.append(time.monotonic() - start)
        return min(tries)

    def instructions(self, words: Words) -> Optional[int]:
        """The machine instructions, or None where there is no valgrind."""
        return process.instructions([self.program, *words], self.folder)

    def words(self, command: str, name: str, parts: Sequence[bytes]) -> Words:
        """A command, with the files of an input of these parts."""
        (self.folder / name).write_bytes(b"".join(parts))
        if command != CHECK:
            return [command, name]
        certificate = f"{name}.certificate"
        (self.folder / certificate).write_bytes(self.printed([PROVE, name]))
        return [command, name, certificate]


def sides(program: Path, folder: Path) -> Tuple[Side, Side]:
    """The program and the plain implementation, which is made where there is none of today."""
    plain = folder / PLAIN
    if not plain.exists() or plain.stat().st_mtime < max(source.stat().st_mtime for source in HERE.glob("plain*.rs")):
        subprocess.run(["rustc", "-O", "-o", plain, HERE / "plain.rs"], check=True)
    return Side(folder, Path(program).resolve()), Side(folder, plain)


def compare(row: Row, both: Tuple[Side, Side]) -> bool:
    """Prints what an input costs on both sides, and how the program grows, and answers whether the program is above the bound."""
    what, made, bound, command = row
    is_above = False
    spent: Dict[int, List[float]] = {}
    counts: Dict[int, List[Optional[int]]] = {}
    nothing = both[0].words(command, "nothing.input", [] if command == APPLY else [Module().bytes()])
    for n in 1, 2:
        words = both[0].words(command, f"beside{n}.input", made(n))
        printed = [side.printed(words) for side in both]
        assert printed[0] == printed[1], f"{what}: what they print differs"
        spent[n] = [side.seconds(words) for side in both]
        counts[n] = [difference(side.instructions(words), side.instructions(nothing)) for side in both]
    ours, plain = spent[2]
    line = f"{ours:.3f} s by the clock, plain {plain:.3f} s"
    counted, of_plain, of_half = counts[2][0], counts[2][1], counts[1][0]
    more, plain_more = (difference(counts[2][side], counts[1][side]) for side in (0, 1))
    if counted is not None and of_plain is not None and of_half is not None and more is not None and plain_more is not None:
        is_above = more > bound * plain_more
        line += (f"; {counted:,} machine instructions, plain {of_plain:,}; the second half {more / plain_more:.2f} times as many (bound: {bound:.2f}); "
                 f"{counted / of_half:.2f} times those of half as much (aim: {GROWTH_AIM}){'  ABOVE' if is_above else ''}")
    else:
        line += f"; {ours / spent[1][0]:.2f} times as long as half as much (aim: {GROWTH_AIM})"
    print(f"beside: {what}: {line}", flush=True)
    return is_above


def tell(folder: Path, program: Path = HERE.parent / PROGRAM) -> int:
    """Prints a line for each input, and answers how many are above their bounds."""
    folder = Path(folder).resolve()
    folder.mkdir(parents=True, exist_ok=True)
    both = sides(program, folder)
    above = sum(compare(row, both) for row in rows())
    print(f"beside: {above} above a bound")
    return above


if __name__ == "__main__":
    sys.exit(1 if tell(*map(Path, sys.argv[1:])) else 0)
