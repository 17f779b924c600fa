"""Alters saved ledgers of both forms at random and has the program load them: each is refused with its number, which is the one that the
second implementation of the rules gives (`tools/movedis --explain`), or is loaded, as that loads it; then its audit balances, and it is
saved as the very text, or, of the old form, as one that is loaded and saved as itself."""

import random
import re
import subprocess
import tempfile
import time
from concurrent.futures import ThreadPoolExecutor
from pathlib import Path
from typing import Counter, Dict, Iterator, List, NamedTuple, Optional, Sequence, Tuple

from cases import Cases, Given, Tally, program
from common import EXAMPLES, Word
from movetext.explain.ledger import Ledger
from movetext.ledgers import read_ledger
from movetext.writer import write_ledger, write_number

AUDIT = b"\4\0"
COUNT = re.compile(rb"1 count \S+ stored (\d+) packed (\d+) unpacked (\d+)")
REFUSED = re.compile(rb"load refused [1-5]\n")
# Numbers at the limits of what a text may claim, and far beyond them.
HUGE = [0, 1, 127, 128, 4096, 4097, 65_535, 65_536, 1 << 20, 1 << 32, 42_949_672_960_000_000, (1 << 63) - 1, (1 << 64) - 1]
# The example's second record, by which a coin is minted, and where it says by whom.
FIRST, SENDER = 124, 2
MANY_COINS = 400
SECONDS = 600
WORKERS = 4
# How many of the ledgers that differ from that of first-coin in one bit are loaded, each as a ledger of its own: docs/FORMATS.md
# says so, and why a file's SHA-256 is to be kept beside it.
BITS, LOADED = 1_104, 392


IS_RANDOM = True

# A ledger's name, and its text.
Named = Tuple[str, bytes]


class Run(NamedTuple):
    """How a run ends, what it prints, what it says of faults, and the ledger that it saves, if any."""

    status: int
    report: bytes
    errors: bytes
    saved: Optional[bytes]


class Wrong(NamedTuple):
    """A text that isn't answered as it has to be: of which ledger it was made, what came of it, and the text."""

    name: str
    word: str
    text: bytes


# What came of some texts: how often each word was said, and those that went wrong.
Came = Tuple[Counter[str], List[Wrong]]


class Program:
    """The program, with a folder for its files."""

    def __init__(self, path: Word, folder: str):
        self.path, self.folder = path, Path(folder)

    def run(self, number: int, text: bytes, records: bytes) -> Run:
        """How it ends with a ledger and records. The number is the worker's own."""
        files = [self.folder / f"{name}{number}" for name in ("ledger", "records", "saved")]
        for file, data in zip(files, (text, records)):
            file.write_bytes(data)
        files[2].unlink(missing_ok=True)
        words: List[Word] = [self.path, "apply", "--load", files[0], "--save", files[2], files[1]]
        ended = subprocess.run(words, capture_output=True, timeout=SECONDS)
        # A file that is plainly of another kind gets a word of advice, which isn't compared.
        errors = b"".join(line for line in ended.stderr.splitlines(keepends=True) if not line.startswith(b"moveledger: "))
        return Run(ended.returncode, ended.stdout, errors, files[2].read_bytes() if files[2].exists() else None)

    def saved(self, records: bytes) -> bytes:
        """The ledger that records make of an empty one."""
        status, _, errors, text = self.run(0, b"MVL2\0\0", records)
        assert status == 0 and text is not None, errors
        return text


def many_coins() -> bytes:
    """The example's module, and coins at many addresses."""
    stream = (EXAMPLES / "first-coin.stream").read_bytes()
    mint = stream[FIRST:]
    senders = (n.to_bytes(16, "big") for n in range(1, MANY_COINS))
    return stream[:FIRST] + b"".join(mint[:SENDER] + sender + mint[SENDER + 16 :] for sender in senders)


def old_form(text: bytes) -> bytes:
    """The same ledger in the old form."""
    found = read_ledger(text)
    assert found is not None
    ledger = found.ledger
    ledger.form = 1
    ledger.stored.sort(key=lambda one: (one.address, one.place, one.struct))
    return write_ledger(ledger)


def ledgers(program: Program) -> Dict[str, bytes]:
    """Ledgers of both forms, small and large, by name."""
    found = {"empty": b"MVL2\0\0"}
    for stream in sorted(EXAMPLES.glob("*.stream")):
        found[stream.stem] = program.saved(stream.read_bytes())
    found["many coins"] = program.saved(many_coins())
    return {**found, **{f"{name}, in the old form": old_form(text) for name, text in found.items()}}


def altered(rng: random.Random, text: bytes, other: bytes) -> bytes:
    """The text with a few changes."""
    data = bytearray(text)
    for _ in range(rng.choice((1, 1, 1, 2, 3))):
        change(rng, data, other)
    return bytes(data)


def change(rng: random.Random, data: bytearray, other: bytes) -> None:
    """One change: of a byte, of a piece, or of a number."""
    at, end = sorted((place(rng, data), place(rng, data)))
    piece = bytes(data[at:end][:64])
    kind = rng.randrange(9)
    if kind == 0 and data:
        data[at % len(data)] = rng.randrange(256)
    elif kind == 1 and data:
        data[at % len(data)] ^= 1 << rng.randrange(8)
    elif kind == 2:
        del data[at:]
    elif kind == 3:
        del data[at : at + rng.randrange(1, 40)]
    elif kind == 4:
        data[at:at] = piece
    elif kind == 5:
        size = rng.choice((1, 8, 16, 24, 25))
        data[at : at + 2 * size] = data[at + size : at + 2 * size] + data[at : at + size]
    elif kind == 6:
        data[at : at + 1] = write_number(rng.choice(HUGE))
    elif kind == 7:
        data[at:end] = other[at:end]
    else:
        data += bytes(rng.randrange(256) for _ in range(rng.randrange(1, 9)))


def place(rng: random.Random, data: bytearray) -> int:
    """Where something is changed: anywhere, near the head, or behind the modules."""
    last = len(data)
    return rng.choice((rng.randint(0, last), rng.randint(0, min(last, 12)), rng.randint(max(0, last - 80), last)))


def is_balanced(report: bytes) -> bool:
    """Whether each count of an audit is of as many values as were packed and not unpacked."""
    lines = report.splitlines()
    counts = [count for count in map(COUNT.fullmatch, lines[:-1]) if count]
    is_whole = lines[len(counts) :] == [b"1 end %d" % len(counts)]
    return is_whole and all(int(count[1]) + int(count[3]) == int(count[2]) for count in counts)


def verdict(program: Program, number: int, text: bytes) -> str:
    """What came of a text, in a word; what isn't as it has to be, after 'wrong'."""
    status, report, errors, saved = program.run(number, text, AUDIT)
    refused = Ledger().load(text)
    wanted = refused.failure.said if refused else "loaded"
    if status == 3 and REFUSED.fullmatch(report) and not errors and saved is None:
        said = report.decode().strip()
        return said if said == wanted else f"wrong: {said}, where the second implementation says {wanted}"
    if refused:
        return f"wrong: ended with {status}, {report!r}, {errors!r}, where the second implementation says {wanted}"
    if (status, errors) != (0, b"") or not is_balanced(report) or saved is None:
        return f"wrong: ended with {status}, {report!r}, {errors!r}"
    if text[:4] == b"MVL2":
        return "loaded" if saved == text else "wrong: saved as another text"
    again = program.run(number, saved, AUDIT)
    return "loaded, of the old form" if again == Run(0, report, b"", saved) else f"wrong: its text of today gives {again}"


def tried(program: Program, number: int, texts: Sequence[Named]) -> Came:
    """What came of some texts."""
    words: Counter[str] = Counter()
    wrong: List[Wrong] = []
    for name, text in texts:
        word = verdict(program, number, text)
        words[word.split(":")[0]] += 1
        if word.startswith("wrong"):
            wrong.append(Wrong(name, word, text))
    return words, wrong


def all_tried(program: Program, pool: ThreadPoolExecutor, texts: Sequence[Named]) -> Came:
    """The same of all texts, some by each worker."""
    parts = [pool.submit(tried, program, number, texts[number::WORKERS]) for number in range(WORKERS)]
    counts: Counter[str] = Counter()
    wrong: List[Wrong] = []
    for part in parts:
        more, bad = part.result()
        counts += more
        wrong += bad
    return counts, wrong


def single_bits(text: bytes) -> Iterator[Named]:
    """The texts that differ from this one in one bit."""
    for bit in range(8 * len(text)):
        data = bytearray(text)
        data[bit // 8] ^= 1 << bit % 8
        yield f"bit {bit}", bytes(data)


def summary() -> str:
    return f"all {Tally.tried} as they should be"


class Saved(Cases):
    """How altered ledgers are loaded."""

    def setUp(self) -> None:
        self.began = time.monotonic()
        folder, self.pool = tempfile.TemporaryDirectory(), ThreadPoolExecutor(WORKERS)
        self.addCleanup(folder.cleanup)
        self.addCleanup(self.pool.shutdown)
        self.program = Program(program(), folder.name)
        self.whole = ledgers(self.program)

    def told(self, texts: Sequence[Named]) -> Counter[str]:
        """What came of texts. Notes each that went wrong, up to ten, or all together."""
        counts, wrong = all_tried(self.program, self.pool, texts)
        for name, word, text in wrong[:10]:
            self.note(name, f"{word}\n    {text.hex()}")
        if not wrong:
            self.note(f"{sum(counts.values())} texts in {time.monotonic() - self.began:.0f} s: {dict(sorted(counts.items()))}")
        return counts

    def test_altered(self) -> None:
        rng, names = random.Random(Given.seed), list(self.whole)
        texts = list(self.whole.items())
        while len(texts) < Given.texts:
            name = rng.choice(names)
            texts.append((name, altered(rng, self.whole[name], self.whole[rng.choice(names)])))
        self.told(texts)

    def test_bits(self) -> None:
        """Each ledger that differs in one bit from the first one."""
        bits = self.told(list(single_bits(self.whole["first-coin"])))
        self.same("changes of a bit, and how many of them are loaded", (sum(bits.values()), bits["loaded"]), (BITS, LOADED))
