"""Tries the text of modules and streams both ways: what tools/movedis prints of bytes, tools/moveasm turns into the very bytes. Over the
examples, the bytes that stand in hexadecimal in the tests and in FILEs, modules made at random, and altered ones. Then whether names are
kept beside bytes, and whether the pictures in documents and the files of tools/editors are those of today. With a program that is named,
it compares with that what is read as a module."""

import builtins
import random
import re
import subprocess
import tempfile
import textwrap
import time
from collections import Counter
from functools import lru_cache
from pathlib import Path
from typing import Dict, Iterable, List, Optional, Tuple

from cases import Cases, Given, program
from common import EXAMPLES, TESTS, TOP
from movetext import disassembler, limits, model, random_modules
from movetext.errors import Source, TextErrors
from movetext.ledgers import read_ledger
from movetext.opcodes import OPCODES
from movetext.printer import OTHER_ORDER
from movetext.reader import read_module
from movetext.proving import Prover
from movetext.samples import altered, given_bytes, modules_in
from movetext.source_names import NameTable, read_names
from movetext.streaming import TextAssembler
from movetext.writer import write_ledger, write_module, write_numbers, write_stream

# A module and its certificate.
Offered = Tuple[bytes, bytes]
# A text of a document that stands by itself.
BLOCK = re.compile(r"(?:^ {4}.*\n(?:(?: {4}.*)?\n)*)", re.M)
IS_RANDOM = True
LARGE_BYTES = 60_000
LARGE_SECONDS = 1.0
# The first large module made at random that is large enough.
LARGE_NUMBER = 34
# Modules of more bytes are tried as they are, and not altered.
ALTERED_BYTES = 4_000


class Failed(AssertionError):
    """What isn't as it has to be."""


def assemble(text: str) -> bytes:
    """The bytes of a text that names no files."""
    return TextAssembler(Source("text", text), "", Prover(None)).bytes()


class Trial:
    """Tries bytes, and counts what was tried, by what it's called."""

    def __init__(self, seed: str):
        self.seed = seed
        self.counts: Dict[str, int] = Counter()

    def bytes(self, data: bytes, what: Tuple[str, object], kind: Optional[str] = None) -> None:
        """Bytes to text and back. `what` is what they are called, and which one they are."""
        self.counts[what[0]] += 1
        try:
            self.both_ways(data, kind)
        except Exception as error:
            with tempfile.NamedTemporaryFile(prefix="test-text-", delete=False) as kept:
                kept.write(data)
            raise Failed(f"{what[0]}, {what[1]}: {error!r} (the bytes are in {kept.name})") from error

    def both_ways(self, data: "builtins.bytes", kind: Optional[str]) -> None:
        found = disassembler.disassemble(data, kind)
        try:
            made = assemble(found.text)
        except TextErrors as errors:
            if (kind or disassembler.kind_of(data)) != disassembler.LEDGER and not is_too_large(data):
                raise Failed(f"the text is refused: {errors}") from errors
            return
        if made == data:
            return
        if OTHER_ORDER not in found.text:
            raise Failed(f"other bytes come out, from offset {first_difference(data, made)}")
        if plain(disassembler.disassemble(made, kind).text) != plain(found.text):
            raise Failed("bytes of another text come out of one whose tables stand in another order")


def is_too_large(data: bytes) -> bool:
    """Whether bytes are a module, but too large for a record."""
    return len(data) > 65_536 and data[:4] == model.MAGIC


def plain(text: str) -> List[str]:
    """A text without what it says of the order of tables."""
    return [line.strip() for line in text.splitlines() if OTHER_ORDER not in line]


def first_difference(one: bytes, other: bytes) -> int:
    return next((at for at, (a, b) in enumerate(zip(one, other)) if a != b), min(len(one), len(other)))


def try_given(trial: Trial, paths: Iterable[Path]) -> List[Offered]:
    """Tries what stands in files, and answers the modules in it, each with its certificate."""
    modules = {}
    for what, data in given_bytes(paths):
        trial.bytes(data, ("in files", what))
        for module, certificate in modules_in(data):
            modules[module] = certificate
    for number, (module, certificate) in enumerate(modules.items()):
        trial.bytes(module, ("modules of these", number))
        disassembler.disassemble_module(module, certificate)
    return list(modules.items())


def try_random(trial: Trial, count: int) -> List[Offered]:
    """Tries modules made at random, one half of them wild, and a tenth as many streams. Answers some of their bytes."""
    used, kept = set(), []
    for number in range(count):
        module = random_modules.random_module(random.Random(f"{trial.seed} {number}"), number % 2 == 1)
        used |= {(module.version, one.opcode.code) for function in module.functions for one in function.code}
        data = write_module(module)
        if not read_module(data).is_module:
            raise Failed(f"module {number} made at random isn't read as one")
        trial.bytes(data, ("modules at random", number), disassembler.MODULE)
        kept.append((data, b""))
    wanted = {(version, one.code) for version in model.VERSIONS for one in OPCODES if one.version <= version}
    if count >= 1000 and used != wanted:
        raise Failed(f"no module has the instructions {sorted(wanted - used)}")
    for number in range(count // 10):
        stream = random_modules.random_stream(random.Random(f"{trial.seed} stream {number}"))
        trial.bytes(write_stream(stream), ("streams at random", number), disassembler.STREAM)
    return kept


def try_ledgers(trial: Trial, count: int) -> List[bytes]:
    """Tries saved ledgers made at random, of which no text is made into bytes. Answers their bytes."""
    kept = []
    for number in range(count):
        ledger = random_modules.random_ledger(random.Random(f"{trial.seed} ledger {number}"))
        data = write_ledger(ledger)
        found = read_ledger(data)
        if found is None or found.faults or found.ledger != ledger or write_ledger(found.ledger) != data:
            raise Failed(f"saved ledger {number} made at random isn't read as it was written")
        trial.bytes(data, ("saved ledgers at random", number))
        kept.append(data)
    return kept


def shuffled(draw: random.Random, data: bytes) -> bytes:
    """A module's bytes with its headers and its tables in any order."""
    headers = read_module(data).headers
    tables = {header.kind: data[header.start:header.start + header.length] for header in headers}
    contents = draw.sample(sorted(tables), len(tables))
    offsets = {kind: sum(len(tables[other]) for other in contents[:place]) for place, kind in enumerate(contents)}
    order = draw.sample(contents, len(contents))
    front = b"".join(bytes([kind]) + write_numbers(offsets[kind], len(tables[kind])) for kind in order)
    end = headers[-1].start + headers[-1].length if headers else 9
    return data[:9] + front + b"".join(tables[kind] for kind in contents) + data[end:]


def try_shuffled(trial: Trial, bases: List[Offered], count: int) -> None:
    """Tries modules whose tables stand in another order than a writer puts them in."""
    draw = random.Random(f"{trial.seed} shuffled")
    for number in range(count):
        data = draw.choice(bases)[0]
        if read_module(data).is_in_order:
            trial.bytes(shuffled(draw, data), ("in another order of tables", number), disassembler.MODULE)


def try_altered(trial: Trial, bases: List[Offered], ledgers: List[bytes], count: int) -> None:
    """Tries altered bytes of modules, of their certificates, and of streams and ledgers of them."""
    draw = random.Random(f"{trial.seed} altered")
    bases = [(module, certificate) for module, certificate in bases if len(module) <= ALTERED_BYTES]
    for number in range(count):
        data, certificate = draw.choice(bases)
        if number % 4 == 0:
            disassembler.disassemble_module(data, altered(draw, certificate))
        if number % 3 == 0:
            data = write_stream(model.Stream([model.Publish(bytes(16), [model.Offer(data, certificate)])]))
        elif number % 5 == 0:
            data = draw.choice(ledgers)
        elif number % 23 == 0:
            data = bytes(draw.randrange(256) for _ in range(draw.randrange(1, 200)))
        kind = disassembler.kind_of(data)
        for _ in range(draw.choice((1, 1, 2, 3))):
            data = altered(draw, data)
        trial.bytes(data, ("altered", number), draw.choice((kind, None)))


def try_agreement(trial: Trial, bases: List[Offered], program: Path, count: int) -> None:
    """Tries whether the program refuses in phase 2 exactly the altered modules that aren't read as modules."""
    draw = random.Random(f"{trial.seed} agreement")
    with tempfile.TemporaryDirectory() as folder:
        module, certificate = Path(folder, "module"), Path(folder, "certificate")
        certificate.write_text("\n")
        for number in range(count):
            data = altered(draw, draw.choice(bases)[0])
            trial.counts["compared with the program"] += 1
            module.write_bytes(data)
            words = subprocess.run([program, "check", module, certificate], stdout=subprocess.PIPE).stdout.decode().strip()
            if (words != "refused 2") != read_module(data).is_module and words != "refused 1":
                raise Failed(f"altered module {number}: the program says `{words}`, but here it's read otherwise: {data.hex()}")


def try_speed(trial: Trial) -> str:
    """Tries a large module, which takes less than a second of the processor each way."""
    for number in range(LARGE_NUMBER, 1000):
        data = write_module(random_modules.random_module(random.Random(f"large {number}"), False, 60))
        if LARGE_BYTES <= len(data) <= 65_536:
            break
    start = time.process_time()
    text = disassembler.disassemble(data).text
    middle = time.process_time()
    if assemble(text) != data:
        raise Failed("other bytes come out of a large module")
    for what, seconds in (("printed", middle - start), ("made", time.process_time() - middle)):
        if seconds > LARGE_SECONDS:
            raise Failed(f"a module of {len(data)} bytes is {what} in {seconds:.2f} seconds, more than {LARGE_SECONDS}")
    return f"{len(data)} bytes in {middle - start:.2f} and {time.process_time() - middle:.2f} s"


def try_programs(paths: Iterable[Path]) -> None:
    """Tries the programs themselves, and their statuses."""
    tools = TOP / "tools"
    for path in paths:
        text = subprocess.run([tools / "movedis", path], stdout=subprocess.PIPE, check=True).stdout
        made = subprocess.run([tools / "moveasm", "-"], input=text, stdout=subprocess.PIPE, check=True).stdout
        if made != path.read_bytes():
            raise Failed(f"{path.name}: other bytes come out of the programs")
    statuses: List[Tuple[List[str], int]] = [
        (["/no such file"], 1), ([], 2), (["--help"], 2), (["--as", "text", "x"], 2), (["--as", "module", __file__], 3)]
    for words, wanted in statuses:
        status = subprocess.run([tools / "movedis", *words], stdout=subprocess.DEVNULL, stderr=subprocess.DEVNULL).returncode
        if status != wanted:
            raise Failed(f"movedis {' '.join(words)}: status {status}, not {wanted}")


def try_names(folder: str) -> None:
    """Tries the names that moveasm keeps: movedis prints them, and its text makes the very bytes and the very names."""
    for text in sorted(EXAMPLES.glob("*.text")):
        made, printed = Path(folder, "made"), Path(folder, "printed")
        subprocess.run([TOP / "tools/moveasm", "-g", text, "-o", made], check=True)
        printed.write_bytes(subprocess.run([TOP / "tools/movedis", made], stdout=subprocess.PIPE, check=True).stdout)
        again = Path(folder, "again")
        subprocess.run([TOP / "tools/moveasm", "-g", printed, "-o", again], check=True)
        names = [read_names(Path(f"{one}.names").read_bytes()) for one in (made, again)]
        if made.read_bytes() != again.read_bytes() or words_of(names[0]) != words_of(names[1]):
            raise Failed(f"{text.name}: other bytes or other names come out of a text with its names")


def words_of(names: NameTable) -> Dict[str, List[object]]:
    """The names of locals and labels, by module."""
    return {key: [(one.locals, one.labels) for one in module.functions] for key, module in names.modules.items()}


def blocks_of(path: str) -> List[str]:
    """The texts of a document that stand by themselves on lines that begin with blanks."""
    return [textwrap.dedent(found[0]).rstrip() + "\n" for found in BLOCK.finditer((TOP / path).read_text())]


def plain_lines(text: str) -> str:
    """A text's lines without the blanks around them."""
    return "\n".join(line.strip() for line in text.splitlines())


def try_block(module: Path) -> None:
    """Tries whether the block that docs/ARCHITECTURE.md draws has, behind each instruction, the edges that movedis draws there."""
    block = next(one for one in blocks_of("docs/ARCHITECTURE.md") if one.startswith("block 0, as stated"))
    rows = re.findall(r"^ +(\d+)  .*?(?:(no edges)|(\w+ \w+) -+(\.\.)?-*> (.*))$", block, re.M)
    for number, _, source, dots, target in rows:
        words = ["--dot", "g", "--before", str(int(number) + 1), str(module)]
        dot = subprocess.run([TOP / "tools/movedis", *words], stdout=subprocess.PIPE, check=True).stdout.decode()
        nodes = dict(re.findall(r'^    (n\d+) \[label="([^"]*)"', dot, re.M))
        edges = re.findall(r'^    (n\d+) -> (n\d+)(?: \[label="(.*)"\])?;?$', dot, re.M)
        if [(nodes[it], label, nodes[other]) for it, other, label in edges] != ([(source, dots, target)] if source else []):
            raise Failed(f"docs/ARCHITECTURE.md draws other edges behind instruction {number} of g than movedis:\n{dot}")
    if len(rows) != 5:
        raise Failed(f"docs/ARCHITECTURE.md draws edges behind {len(rows)} instructions of g")


def try_documents(folder: str) -> None:
    """Tries whether the pictures of docs/VERIFIER.md are those that movedis draws, and its edges those of docs/ARCHITECTURE.md, the
    table of limits has them all, and the example of docs/AUTHORS.md stands in its file."""
    blocks = blocks_of("docs/VERIFIER.md")
    for name, words in (("branches", ["--dot", "f"]), ("references", ["--dot", "g", "--before", "8"])):
        made = Path(folder, name)
        subprocess.run([TOP / "tools/moveasm", "-g", EXAMPLES / f"{name}.text", "-o", made], check=True)
        drawn = subprocess.run([TOP / "tools/movedis", *words, made], stdout=subprocess.PIPE, check=True).stdout.decode()
        if drawn not in blocks:
            raise Failed(f"docs/VERIFIER.md hasn't what movedis {' '.join(words)} draws of {name}:\n{drawn}")
    try_block(Path(folder, "references"))
    table = (TOP / "docs/FORMATS.md").read_text().partition("## Limits")[2]
    missing = [number for number in limits.IN_FORMATS if not re.search(rf"\b{number:,}\b(?!,\d)", table)]
    if missing:
        raise Failed(f"docs/FORMATS.md: its table of limits hasn't {missing}")
    example = plain_lines((EXAMPLES / "owner.text").read_text())
    marker = next(one for one in blocks_of("docs/AUTHORS.md") if "struct Marker" in one)
    if not all(plain_lines(part) in example for part in marker.split("\n\n")):
        raise Failed("docs/AUTHORS.md: its marker isn't that of examples/owner.text")


def try_editors() -> None:
    """Tries whether the files for editors are made from the tables."""
    if subprocess.run([TOP / "scripts/make-editors", "--check"]).returncode:
        raise Failed("the files of tools/editors are stale")


@lru_cache(maxsize=None)
def trial() -> Trial:
    return Trial(Given.seed)


@lru_cache(maxsize=None)
def in_files() -> List[Offered]:
    files = [*sorted(EXAMPLES.glob("*.stream")), *sorted(TESTS.rglob("*.rt")), *map(Path, Given.files)]
    return try_given(trial(), files)


@lru_cache(maxsize=None)
def at_random() -> List[Offered]:
    return try_random(trial(), Given.modules)


def summary() -> str:
    return ", ".join(f"{count} {what}" for what, count in trial().counts.items()) or "as it should be"


class Text(Cases):
    """Bytes as text, and back."""

    def test_given(self) -> None:
        self.assertTrue(in_files())

    def test_random(self) -> None:
        self.assertEqual(len(at_random()), Given.modules)

    def test_shuffled(self) -> None:
        try_shuffled(trial(), at_random(), Given.modules // 5)

    def test_altered(self) -> None:
        """Ledgers made at random, and altered bytes of them and of modules."""
        kept = try_ledgers(trial(), (Given.modules + 9) // 10)
        try_altered(trial(), in_files() + at_random(), kept, 3 * Given.modules)

    def test_agreement(self) -> None:
        if not Given.program:
            self.skipTest("it compares with a program that is named")
        try_agreement(trial(), at_random(), Path(program()), Given.modules)

    def test_speed(self) -> None:
        self.note(f"a large module: {try_speed(trial())}")

    def test_programs(self) -> None:
        try_programs(sorted(EXAMPLES.glob("*.stream")))

    def test_names(self) -> None:
        with tempfile.TemporaryDirectory() as folder:
            try_names(folder)

    def test_documents(self) -> None:
        with tempfile.TemporaryDirectory() as folder:
            try_documents(folder)

    def test_editors(self) -> None:
        try_editors()
