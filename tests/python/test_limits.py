"""Runs the program on the most of each thing that there may be, and on one more, and compares how it ends and what it prints. A case that
takes much memory has no more of it than it needs, so that nothing large is held twice."""

import resource
import subprocess
import sys
import tempfile
from pathlib import Path
from typing import Callable, Iterable, Iterator, List, Mapping, Optional, Sequence

from cases import Cases, program
from common import EXAMPLES, TOP

sys.path.insert(0, str(TOP / "bench"))

from costs import copies_that_go  # noqa: E402
from inputs import DROP, LARGE, Module, all_families, helping, publish, record, run, u64  # noqa: E402
from movetext import model  # noqa: E402
from movetext.certificates import read_certificate  # noqa: E402
from movetext.numbers import write_number  # noqa: E402
from movetext.reader import read_module  # noqa: E402
from movetext.writer import write_certificate  # noqa: E402

MEGABYTE = 1 << 20
# The address space of a case that says nothing of it, in megabytes, and the stack of each, in kilobytes.
ROOM, STACK = 12, 64
DONE, REFUSED = 0, 3
PAYLOAD, MODULE, CERTIFICATE = 33_554_432, 65_536, 1_048_576
BLOCK = bytes([1, 0])
# A module of coins, in so many bytes, and a run that mints one.
EXAMPLE, FIRST = EXAMPLES / "first-coin.stream", 124


# What the program gets of its environment, which lies on the stack, too.
NOTHING: Mapping[str, str] = {}


class Case:
    """Words, the files that they name as {0}, {1}, what is printed (None: whatever it is), how the program has to end with so many
    megabytes of address space, and what the last of these files has then, if it is a ledger that is saved."""

    def __init__(self, shows: str, words: Sequence[str], files: Sequence[bytes], wanted: Optional[bytes], status: int = DONE, room: int = ROOM,
                 saved: Optional[bytes] = None):
        self.shows, self.words, self.files = shows, words, files
        self.wanted, self.status, self.room, self.saved = wanted, status, room, saved
        # What it printed once it was run, and what the last file had then.
        self.printed = self.kept = b""

    def fault(self, path: str, folder: str) -> str:
        """Runs the program; answers what isn't as it has to be, or nothing."""
        for number, contents in enumerate(self.files):
            Path(folder, str(number)).write_bytes(contents)
        words = [word.format(*(f"{folder}/{number}" for number in range(len(self.files)))) for word in self.words]
        ended = subprocess.run([path, *words], capture_output=True, env=NOTHING, preexec_fn=self.limit)
        self.printed = ended.stdout
        self.kept = Path(folder, str(len(self.files) - 1)).read_bytes()
        # A word of advice, as on a last record that isn't whole, is no fault.
        faults = [line for line in ended.stderr.splitlines() if not line.startswith(b"moveledger: ")]
        is_right = (ended.returncode, faults) == (self.status, []) and self.wanted in (None, ended.stdout)
        is_right = is_right and self.saved in (None, self.kept)
        return "" if is_right else f"status {ended.returncode}, {ended.stdout[-200:]!r}, {ended.stderr!r}"

    def limit(self) -> None:
        for what, most in (resource.RLIMIT_AS, self.room * MEGABYTE), (resource.RLIMIT_STACK, STACK * 1024):
            resource.setrlimit(what, (most, most))


def applied(shows: str, stream: bytes, lines: Sequence[str], room: int = ROOM) -> Case:
    report = "".join(f"{n} {line}\n" for n, line in enumerate(lines, 1))
    return Case(shows, ["apply", "{0}"], [stream], report.encode(), room=room)


def published(module: Module, certificate: bytes = b"") -> bytes:
    return record(1, publish((module.bytes(), certificate)))


def called(function: str, *given: model.Value, budget: int = 5000) -> bytes:
    return record(2, run(function, budget, *given, sender=1))


# ---- records, modules and certificates


def payloads() -> Iterator[Case]:
    for size, lines in (PAYLOAD, ["refused 1"] * 2), (PAYLOAD + 1, ["refused 1"]):
        yield applied(f"a payload of {size:,} bytes", b"\t" + write_number(size) + bytes(size) + b"\t\0", lines, room=48)


def full(size: int, own: str = "M") -> Module:
    """A module of so many bytes: a name of its own, 503 of 128 letters, and one that fills it up."""
    names = [f"M{n:03}" + 124 * "a" for n in range(503)]
    m = named(names + [(size - len(named(names, own).bytes()) - 1) * "a"], own)
    assert len(m.bytes()) == size
    return m


def named(names: Sequence[str], own: str = "M") -> Module:
    """A module with names that nothing has."""
    m = Module(own)
    m.add_names([own, *names])
    return m


def sizes() -> Iterator[Case]:
    for size, line in (MODULE, "published 1"), (MODULE + 1, "refused 1"):
        yield applied(f"a module of {size:,} bytes in a record", published(full(size)), [line])
    for size, line in (CERTIFICATE, "refused 9"), (CERTIFICATE + 1, "refused 1"):
        yield applied(f"a certificate of {size:,} bytes", published(Module(), bytes(size)), [line])


def bundle(names: Iterable[str]) -> bytes:
    return record(1, publish(*((Module(own).bytes(), b"") for own in names)))


def coins_named(name: bytes) -> bytes:
    """The record that publishes the module of coins, under another name of one letter."""
    coins, own = EXAMPLE.read_bytes()[:FIRST], b"\1M"
    assert coins.count(own) == 1
    return coins.replace(own, b"\1" + name)


def ledgers() -> Iterator[Case]:
    for count, line in (16, "published 16"), (17, "refused 1"):
        yield applied(f"a bundle of {count} modules", bundle(f"M{n}" for n in range(count)), [line])
    stream = b"".join(bundle(f"M{n}_{k}" for k in range(16)) for n in range(256))
    yield applied("coins under another name", coins_named(b"C"), ["published 1"])
    shows = "a ledger of 4,096 modules takes no other, such as these coins, but one in the place of its own"
    lines = ["published 16"] * 256 + ["refused 14", "published 1"]
    yield applied(shows, stream + coins_named(b"C") + bundle(["M7_7"]), lines)


def saved_whole(count: int) -> Iterator[Case]:
    """So many modules of the largest size are saved, loaded and saved again, and migrated: a text of more than a megabyte stays whole."""
    modules = [full(MODULE, f"B{n:02}") for n in range(count)]
    stream = b"".join(published(module) for module in modules)
    text = b"MVL2\0" + write_number(count) + b"".join(write_number(MODULE) + module.bytes() + b"\0" for module in modules)
    report = "".join(f"{n} published 1\n" for n in range(1, count + 1)).encode()
    shows = f"a ledger of {len(text):,} bytes"
    yield Case(f"{shows} is saved", ["apply", "--save", "{1}", "{0}"], [stream, b""], report, room=48, saved=text)
    audit = [record(4, b""), text]
    yield Case(f"{shows} is loaded and saved", ["apply", "--load", "{1}", "--save", "{1}", "{0}"], audit, b"1 end 0\n", room=48, saved=text)
    yield Case(f"{shows} is migrated", ["migrate", "{0}", "{1}"], [b"MVL1" + text[4:] + b"\0", b""], b"", room=48, saved=text)


def saved_deep() -> Iterator[Case]:
    """A value of 256 leaves, in structs 8 deep, is stored, saved, loaded and migrated."""
    m = Module()
    m.struct("S1", "has store", listed(32, "u64"))
    m.struct("S2", "has store", listed(8, "S1"))
    for n in range(3, 9):
        m.struct(f"S{n}", "has store, key" if n == 8 else "has store", f"s: S{n - 1}")
    packs = ("LdU64 7;" * 32 + "Pack S1;") * 8 + "".join(f"Pack S{n};" for n in range(2, 9))
    m.function("f", "signer", "", "", f"ImmBorrowLoc 0; {packs} MoveTo S8; Ret")
    stream = published(m, bytes([1, 1, 0])) + called("f")
    shows = "a value of 256 leaves, 8 deep,"
    first = Case(f"{shows} is saved", ["apply", "--save", "{1}", "{0}"], [stream, b""], b"1 published 1\n2 returned 274\n")
    yield first
    shown = "1 at {0:032x} {0:032x}::M::S8 {1}\n1 end 1\n".format(1, "{" * 7 + ",".join(["{" + ",".join(["7"] * 32) + "}"] * 8) + "}" * 7)
    words = ["apply", "--load", "{1}", "--save", "{1}", "{0}"]
    yield Case(f"{shows} is loaded, shown and saved", words, [record(3, b""), first.kept], shown.encode(), saved=first.kept)
    yield Case(f"{shows} is migrated", ["migrate", "{0}", "{1}"], [first.kept, b""], b"", saved=first.kept)


def minted_by(sender: int) -> bytes:
    """A mint of the example's coin by this sender."""
    mint = EXAMPLE.read_bytes()[FIRST:]
    return mint[:2] + sender.to_bytes(16, "big") + mint[18:]


def counted(struct: str, stored: int) -> str:
    """An audit's line of a struct of which nothing was unpacked."""
    return f"count {struct} stored {stored} packed {stored} unpacked 0"


def counted_as_json(struct: str, stored: int) -> str:
    return f'{{"packed":"{stored}","stored":"{stored}","struct":"{struct}","unpacked":"0"}}'


def told(number: int, *lines: str) -> bytes:
    """The lines that a record of this number is answered with."""
    return "".join(f"{number} {line}\n" for line in lines).encode()


# Audits and shows, each as text and as JSON.
REPORTS = record(4, b"") + record(3, b"") + record(4, b"\1") + record(3, b"\1")


def reported(shows: str, stream: bytes, answers: bytes, audit: Sequence[str], show: Sequence[str], jsons: Sequence[str], room: int) -> Iterator[Case]:
    """A ledger of these records is saved, loaded, counted and shown as text and as JSON, saved again and migrated."""
    first = Case(f"{shows} are saved", ["apply", "--save", "{1}", "{0}"], [stream, b""], answers, room=room)
    yield first
    report = told(1, *audit, f"end {len(audit)}") + told(2, *show, f"end {len(show)}") + told(3, jsons[0]) + told(4, jsons[1])
    words = ["apply", "--load", "{1}", "--save", "{1}", "{0}"]
    yield Case(f"{shows} are loaded, counted, shown and saved", words, [REPORTS, first.kept], report, room=room, saved=first.kept)
    yield Case(f"{shows} are migrated", ["migrate", "{0}", "{1}"], [first.kept, b""], b"", room=room, saved=first.kept)


def many_values(count: int) -> Iterator[Case]:
    """So many coins, of which a show as JSON has more than a megabyte."""
    coin = f"{1:032x}::M::Coin"
    stream = EXAMPLE.read_bytes()[:FIRST] + b"".join(minted_by(sender) for sender in range(1, count + 1))
    answers = told(1, "published 1") + b"".join(told(number, "returned 5") for number in range(2, count + 2))
    show = [f"at {sender:032x} {coin} {{7}}" for sender in range(1, count + 1)]
    entries = ",".join(f'{{"address":"{sender:032x}","struct":"{coin}","value":"{{7}}"}}' for sender in range(1, count + 1))
    jsons = [f'json {{"audit":[{counted_as_json(coin, count)}]}}', f'json {{"show":[{entries}]}}']
    yield from reported(f"{count:,} stored values", stream, answers, [counted(coin, count)], show, jsons, room=24 if count < 10_000 else 96)


def many_modules(bundles: int) -> Iterator[Case]:
    """Bundles of 16 modules, each with a struct that is counted."""
    names = [f"M{n:04}" for n in range(16 * bundles)]
    files = []
    for name in names:
        m = Module(name)
        m.struct("Coin", "has store, key", "v: u64")
        files.append((m.bytes(), b""))
    stream = b"".join(record(1, publish(*files[at : at + 16])) for at in range(0, len(files), 16))
    answers = b"".join(told(number, "published 16") for number in range(1, bundles + 1))
    coins = [f"{1:032x}::{name}::Coin" for name in names]
    entries = ",".join(counted_as_json(coin, 0) for coin in coins)
    jsons = [f'json {{"audit":[{entries}]}}', 'json {"show":[]}']
    yield from reported(f"{len(names):,} modules with a struct each", stream, answers, [counted(coin, 0) for coin in coins], [], jsons, room=24 if bundles < 100 else 64)


def largest() -> Iterator[Case]:
    yield from saved_whole(17)
    yield from saved_deep()
    yield from many_values(8_000)
    yield from many_values(100_000)
    yield from many_modules(70)
    yield from many_modules(256)


def budgets() -> Iterator[Case]:
    """The largest budgets, of runs that return at once, and of one that takes all its steps."""
    m = Module()
    m.function("f", "", "", "", "Ret")
    m.function("loop", "", "", "", "again: Branch again")
    most = 10_000_000
    given = [(most - 2, "returned 1"), (most - 1, "returned 1"), (most, "returned 1"), (most + 1, "rejected 2"), (1 << 63, "rejected 2")]
    stream = published(m, BLOCK * 2) + b"".join(record(2, run("f", budget)) for budget, _ in given)
    stream += record(2, run("loop", most)) + record(2, run("loop", most - 1))
    lines = ["published 1", *(line for _, line in given), f"exhausted steps {most}", f"exhausted steps {most - 1}"]
    yield applied("the largest budgets", stream, lines)


def calling(own: str, *others: str) -> bytes:
    """A module whose function calls that of each of others."""
    m = Module(own)
    for other in others:
        m.foreign_function(other, "f", "", "")
    m.function("f", "", "", "", "".join(f"Call {other}::f;" for other in others) + "Ret")
    return published(m, BLOCK)


def chains() -> Iterator[Case]:
    """The most modules in one chain, and many that each name all before. A chain isn't closed, wherever that is tried."""
    most = 4_095
    links = [calling(f"L{n}", *([f"L{n - 1}"] if n else [])) for n in range(most)]
    stream = b"".join([*links, calling("Alone"), calling("L0", f"L{most - 1}"), calling("L0", "Alone"), calling("Alone", f"L{most - 1}"),
                       calling("L4000", "L3999", "Alone"), calling("L2000", "L1999", "L4094"), record(2, run("f", 5000, module="L254")),
                       record(2, run("f", 5000, module="L255"))])
    lines = ["published 1"] * (most + 1) + ["refused 13", "published 1", "refused 13", "published 1", "refused 13"]
    yield applied("4,096 modules, most of them in one chain", stream, [*lines, "returned 511", "exhausted frames 256"], room=32)
    every = 300
    dense = [calling(f"D{n}", *(f"D{k}" for k in range(n))) for n in range(every)]
    stream = b"".join([*dense, calling("Alone"), calling("D0", "Alone"), calling("D0", f"D{every - 1}"), calling("Alone", "D7"), calling("D7", "Alone"),
                       calling(f"D{every - 1}"), calling("D0", f"D{every - 1}"), calling("D0", f"D{every - 2}")])
    lines = ["published 1"] * (every + 2) + ["refused 13", "refused 13", "published 1", "published 1", "published 1", "refused 13"]
    yield applied(f"{every} modules that each name all before", stream, lines, room=32)


def families() -> Iterator[Case]:
    m = all_families(LARGE, 6)
    files = [helping().bytes(), m.bytes()]
    proofs = [Case(f"a module of {len(file):,} bytes is proved", ["prove", "{0}"], [file], None) for file in files]
    yield from proofs
    certificates = [bytes.fromhex(it.printed.decode()) for it in proofs]
    yield applied("modules with every table and instruction", record(1, publish(*zip(files, certificates))), ["published 2"])


# ---- functions


def functions() -> Iterator[Case]:
    for count, line in (256, "published 1"), (257, "refused 2"):
        m = Module()
        for n in range(count):
            m.function(f"f{n}", "", "", "", "Ret")
        yield applied(f"a module of {count} functions", published(m, BLOCK * count), [line])


def of_shape(parameters: int = 0, results: int = 0, locals_: int = 0, code: str = "", budget: int = 5000) -> bytes:
    """A module with a function of numbers, of which it returns the first, and its certificate."""
    m = Module()
    given, answered, own = ("; ".join(["u64"] * count) for count in (parameters, results, locals_))
    m.function("f", given, answered, own, code + "".join(f"MoveLoc {n};" for n in range(results)) + "Ret", entry=not results)
    return published(m, bytes([1] + [1] * parameters + [0] * locals_ + [0])) + called("f", *[u64(7)] * min(parameters, 64), budget=budget)


def shapes() -> Iterator[Case]:
    refused = "refused 5", "rejected 3"
    yield applied("16 parameters", of_shape(16), ["published 1", "returned 1"])
    yield applied("17 parameters", of_shape(17), ["refused 5", "rejected 1"])
    yield applied("8 results", of_shape(9, 8), ["published 1", "rejected 5"])
    yield applied("9 results", of_shape(9, 9), refused)
    yield applied("64 locals", of_shape(0, 0, 64, budget=100), ["published 1", "returned 1"])
    yield applied("64 locals and a parameter", of_shape(1, 0, 64, budget=100), refused)
    yield applied("4,096 instructions", of_shape(code="Nop;" * 4095), ["published 1", "returned 4096"])
    yield applied("4,097 instructions", of_shape(code="Nop;" * 4096), ["refused 2", "rejected 3"])
    yield applied("128 operands", of_shape(code="LdTrue;" * 128 + "Pop;" * 128, budget=1000), ["published 1", "returned 257"])
    yield applied("129 operands", of_shape(code="LdTrue;" * 129 + "Pop;" * 129, budget=1000), ["refused 8", "rejected 3"])


# Code of 4,096 blocks, each of which goes on to the next one.
BRANCHES = "".join(f"b{n}: Branch b{n + 1};" for n in range(4095)) + "b4095: Ret"


def runs() -> Iterator[Case]:
    m = Module()
    m.function("f", "", "", "", BRANCHES)
    yield applied("4,096 blocks", published(m, BLOCK * 4096) + called("f"), ["published 1", "returned 4096"])
    m = Module()
    m.function("f", "", "", "", "again: Branch again")
    endless = published(m, BLOCK) + record(2, run("f", 1_000_000, sender=1))
    yield applied("1,000,000 steps", endless, ["published 1", "exhausted steps 1000000"])
    yield from json_after_runs(100_000)


def json_after_runs(count: int) -> Iterator[Case]:
    """A coin is minted, and minted again in vain until there were so many runs; then it is counted and shown as JSON."""
    stream, coin = EXAMPLE.read_bytes(), f"{1:032x}::M::Coin"
    first, mint = stream[:FIRST], stream[FIRST:]
    lines = ["published 1", "returned 5", *["aborted exists 0 4"] * (count - 1)]
    lines.append(f'json {{"audit":[{{"packed":"1","stored":"1","struct":"{coin}","unpacked":"0"}}]}}')
    lines.append(f'json {{"show":[{{"address":"{1:032x}","struct":"{coin}","value":"{{7}}"}}]}}')
    yield applied(f"JSON after {count:,} runs", first + mint * count + record(4, b"\1") + record(3, b"\1"), lines)


# ---- constants


def constants() -> Iterator[Case]:
    """16,000 constants, each of two bytes, which are too many for a u8."""
    for shows, last, line in ("all differ", 15_999, "refused 5"), ("the last is the first", 0, "refused 4"):
        m = Module()
        numbers = [*range(15_999), last]
        m.tables().constants = [model.Constant(model.Token(model.U8), n.to_bytes(2, "little")) for n in numbers]
        yield applied(f"16,000 constants, of which {shows}", published(m), [line])


# ---- structs


def listed(count: int, kind: str) -> str:
    return "; ".join(f"x{n}: {kind}" for n in range(count))


def structs() -> Iterator[Case]:
    for inner, outer, line in (32, 1, "published 1"), (33, 1, "refused 2"), (32, 8, "published 1"), (32, 9, "refused 13"):
        m = Module()
        m.struct("L", DROP, listed(inner, "u64"))
        m.struct("W", DROP, listed(outer, "L"))
        yield applied(f"{outer} structs of {inner} fields in a struct", published(m), [line])
    m = Module()
    m.struct("L", DROP, listed(32, "u64"))
    m.struct("W", DROP, listed(8, "L") + "; last: u64")
    yield applied("257 leaves in a struct", published(m), ["refused 13"])
    for depth, line in (8, "published 1"), (9, "refused 13"):
        m = Module()
        for n in range(1, depth + 1):
            m.struct(f"S{n}", DROP, "v: u64" if n == 1 else f"s: S{n - 1}")
        yield applied(f"structs {depth} deep", published(m), [line])


# ---- what an author is told


def both(shows: str, module: bytes, text: bytes, line: bytes) -> Iterator[Case]:
    """What is printed of a module that is refused, with a text and without."""
    yield Case(f"{shows} to prove", ["prove", "{0}"], [module], line, REFUSED)
    yield Case(f"{shows} to check", ["check", "{0}", "{1}"], [module, text], line, REFUSED)


def files() -> Iterator[Case]:
    yield from both("a file of 65,536 bytes", bytes(MODULE), b"", b"refused 2\n")
    yield from both("a file of 65,537 bytes", bytes(MODULE + 1), b"", b"refused 1\n")
    empty = Module().bytes()
    digits = b"0" * (2 * CERTIFICATE)
    for shows, text, lines in (
        ("2,097,152 digits", digits, (b"refused 9\n", b"refused 2\n")),
        ("2,097,152 digits and a line end", digits + b"\n", (b"refused 9\n", b"refused 2\n")),
        ("2,097,152 digits and two line ends", digits + b"\n\n", (b"refused 1\n", b"refused 1\n")),
    ):
        for of_what, module, line in ("a module", empty, lines[0]), ("no module", empty[:-1], lines[1]):
            yield Case(f"{shows} for {of_what}", ["check", "{0}", "{1}"], [module, text], line, REFUSED)


def searched(parameters: str, locals_: str, code: str) -> bytes:
    """A module with a struct of 32 numbers and a function."""
    m = Module()
    m.struct("L", DROP, listed(32, "u64"))
    m.function("f", parameters, "", locals_, code, entry=False)
    return m.bytes()


def found(shows: str, module: bytes) -> Iterator[Case]:
    """A certificate is found, and accepted."""
    proof = Case(f"{shows}: a certificate is found", ["prove", "{0}"], [module], None)
    yield proof
    yield Case(f"{shows}: it is accepted", ["check", "{0}", "{1}"], [module, proof.printed], b"accepted\n")


def too_complex(shows: str, module: bytes) -> Iterator[Case]:
    yield Case(f"{shows}: too complex", ["prove", "{0}"], [module], b"too complex\n", REFUSED)


def coming_back(count: int) -> bytes:
    """Code that comes back to its second block so many times, each time with a reference to another number in local 10. The
    block drops it, so that what follows is visited once, while one edge more leads to it where it begins."""
    code = "ImmBorrowLoc 1; StLoc 10; again: MoveLoc 10; Pop;"
    for n in range(count):
        code += f"CopyLoc 0; BrFalse next{n}; ImmBorrowLoc {2 + n // 32}; ImmBorrowField L.x{n % 32}; StLoc 10;"
        code += f"Branch again; next{n}: "
    return searched("bool; u64;" + "L;" * 8, "&u64", code + "Ret")


def with_references(more: str) -> bytes:
    """Code whose last block begins with 32 references, each to any of the 32 numbers of a struct."""
    code = "ImmBorrowLoc 2; ImmBorrowField L.x0; StLoc 3;"
    for n in range(1, 32):
        code += f"CopyLoc 0; BrFalse next{n}; ImmBorrowLoc 2; ImmBorrowField L.x{n}; StLoc 3; next{n}: "
    code += "".join(f"CopyLoc 3; StLoc {n};" for n in range(4, 35))
    return searched("bool; u64; L", "&u64;" * 33, f"{code} {more} Branch last; last: Ret")


def searches() -> Iterator[Case]:
    yield from found("a block is visited 256 times", coming_back(255))
    yield from too_complex("a block is visited 257 times", coming_back(256))
    yield from found("a block begins with 1,024 edges", with_references(""))
    yield from too_complex("a block begins with 1,025 edges", with_references("ImmBorrowLoc 1; StLoc 35;"))


def long_certificates() -> Iterator[Case]:
    """Of each of these blocks a certificate has 66 bytes: one for each of 64 locals, and two."""
    for names, shows, line, status in (
        ("fgh", "811,008", b"accepted\n", DONE),
        ("fghi", "1,081,344", b"refused 1\n", REFUSED),
    ):
        m = Module()
        for own in names:
            m.function(own, "", "", "u64;" * 64, BRANCHES)
        blocks = bytes([1] + [0] * 65).hex() * 4096 * len(names)
        printed = f"{blocks}\n".encode()
        yield Case(f"a certificate of {shows} bytes is printed", ["prove", "{0}"], [m.bytes()], printed, room=18)
        words = ["check", "{0}", "{1}"]
        yield Case(f"a certificate of {shows} bytes is checked", words, [m.bytes(), blocks.encode()], line, status, room=18)


def stated() -> Iterator[Case]:
    """A block's state with as many edges as may be stated. Then one of them is missing, and then there is one more."""
    module = with_references("")
    proof = Case("a certificate that states 1,024 edges is found", ["prove", "{0}"], [module], None)
    yield proof
    one = model.Edge(model.Node(model.OWN, 1), model.Node(model.SLOT, 3))
    none: List[model.Edge] = []
    for shows, count, more, line in (
        ("1,023 edges where 1,024 flow in", 1023, none, b"refused 11\n"),
        ("1,023 of them and another one", 1023, [one], b"refused 11\n"),
        ("1,025 edges", 1024, [one], b"refused 9\n"),
    ):
        certificate = read_certificate(bytes.fromhex(proof.printed.decode()), read_module(module).module).certificate
        last = certificate.functions[0][-1]
        assert last is not None and len(last.edges) == 1024
        last.edges = sorted(last.edges[:count] + more)
        text = write_certificate(certificate).hex().encode()
        yield Case(f"{shows} are stated", ["check", "{0}", "{1}"], [module, text], line, REFUSED)


def deepest() -> Iterator[Case]:
    """The test whether edges are below those that are stated has tables for the most ways of a block: mutable copies in one chain, of which
    each is the last one's copy."""
    stream = record(1, publish(copies_that_go(2_000, 5)))
    yield Case("2,000 mutable copies in one chain", ["apply", "{0}"], [stream], b"1 published 1\n")


class Limits(Cases):
    """The most of each thing, and one more."""


def add_test(cases_of: Callable[[], Iterator[Case]]) -> None:
    """Gives the class a test by a function's name."""
    def tried(self: Limits) -> None:
        with tempfile.TemporaryDirectory() as folder:
            for case in cases_of():
                self.note(case.shows, case.fault(program(), folder))

    tried.__doc__ = cases_of.__doc__
    setattr(Limits, f"test_{cases_of.__name__}", tried)


for it in (payloads, sizes, ledgers, largest, budgets, chains, families, functions, shapes, runs, constants, structs, files, searches, stated,
           long_certificates, deepest):
    add_test(it)
