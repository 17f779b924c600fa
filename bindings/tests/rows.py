"""Calls of the library with the answers that are wanted, from the repository's worked rows, examples and saved ledgers, as lines
that tests/session.c reads and prints."""

import re
from pathlib import Path
from typing import Iterator, List, NamedTuple, Tuple

TOP = Path(__file__).resolve().parents[2]
CRATES = TOP / "crates"
EXAMPLES = TOP / "examples"
# What a call answers, as tests/session.c names it.
DONE, REFUSED, LOAD_REFUSED, TOO_COMPLEX, ABSENT = "done", "refused", "load_refused", "too_complex", "absent"


class Row(NamedTuple):
    """What a row shows, what it gives, and what is wanted of that."""

    shows: str
    given: str
    wanted: str


class Call(NamedTuple):
    """A line that tells a call, and the line that is wanted, with what it shows. Where `wanted` is empty the answer has to be that of
    the call before it with the same words."""

    shows: str
    line: str
    wanted: str


def rows(file: str, text: str) -> List[Row]:
    """The rows of a text in one of the files."""
    tests = "moveledger_tests" if file == "rows.rt" else "moveledger_command_tests"
    source = (CRATES / tests / "src/tests" / file).read_text(encoding="utf-8")
    found = re.search(rf'const {text}: &str = r#*"\n(.*?)"#*;', source, re.S)
    assert found, f"{file} has no {text}"
    parts = [part.split("\n") for part in f"\n{found[1]}".split("\n# ")[1:]]
    assert parts, f"{file} has no rows in {text}"
    return [Row(*part[:3]) for part in parts]


def hexadecimal(data: bytes) -> str:
    return data.hex() or "-"


def answer(status: str, why: int = 0, answered: int = 0, data: bytes = b"") -> str:
    return f"{status} {why} {answered} {hexadecimal(data)}"


def report_of(row: Row) -> bytes:
    """The report that is wanted, a line for each of its parts."""
    return "".join(f"{part}\n" for part in row.wanted.split("; ") if part).encode("ascii")


def last_number(report: bytes) -> int:
    """The number of the last record that was answered."""
    return int(report.splitlines()[-1].split(b" ", 1)[0]) if report else 0


def of_record(report: bytes, number: int) -> bytes:
    """A record's lines."""
    return b"".join(line for line in report.splitlines(True) if line.startswith(b"%d " % number))


def answers(shows: str, begin: Tuple[str, str], records: List[str], report: bytes) -> Iterator[Call]:
    """All records in one call, and each in a call of its own; then what is saved of both."""
    yield Call(shows, *begin)
    yield Call(shows, f"apply {''.join(records) or '-'}", answer(DONE, 0, last_number(report), report))
    yield Call(shows, "save", "")
    yield Call(shows, *begin)
    for number, record in enumerate(records, 1):
        yield Call(shows, f"apply {record}", answer(DONE, 0, number, of_record(report, number)))
    yield Call(shows, "save", "")


def number(data: bytes, at: int) -> Tuple[int, int]:
    """A number in seven bits a byte, the lowest first, and where it ends."""
    value = shift = 0
    while True:
        value |= (data[at] & 127) << shift
        if data[at] < 128:
            return value, at + 1
        at, shift = at + 1, shift + 7


def records_of(stream: bytes) -> List[bytes]:
    """The records of a stream, whose last one is whole."""
    found, at = [], 0
    while at < len(stream):
        length, begin = number(stream, at + 1)
        found.append(stream[at:begin + length])
        at = begin + length
    return found


def of_rows() -> List[List[bytes]]:
    """The records of each worked row that has some."""
    return [[bytes.fromhex(record) for record in row.given.split()] for row in rows("rows.rt", "ROWS") if row.given]


def of_example(name: str) -> List[bytes]:
    """The records of an example."""
    return records_of((EXAMPLES / f"{name}.stream").read_bytes())


def fuzzed() -> str:
    """All of them, as fuzz.c reads them. The examples are there several times: their runs change what others have stored."""
    examples = [of_example(file.stem) for file in sorted(EXAMPLES.glob("*.stream"))]
    known = [*of_rows(), *examples * 5]
    return "".join("\n" + "".join(f"{record.hex()}\n" for record in records) for records in known)


NEW = "new", answer(DONE)


def of_records() -> Iterator[Call]:
    for row in rows("rows.rt", "ROWS"):
        yield from answers(row.shows, NEW, row.given.split(), report_of(row))
    for row in rows("saved.rt", "LOADED"):
        text, records = row.given.split()
        yield Call(row.shows, f"load {text}", answer(DONE))
        report = report_of(row)
        yield Call(row.shows, f"apply {records}", answer(DONE, 0, last_number(report), report))


def of_examples() -> Iterator[Call]:
    for file in sorted(EXAMPLES.glob("*.report")):
        kept = file.with_suffix(".ledger")
        begin = (f"load {kept.read_bytes().hex()}", answer(DONE)) if kept.exists() else NEW
        report = file.read_bytes()
        yield Call(file.stem, *begin)
        records = file.with_suffix(".stream").read_bytes()
        yield Call(file.stem, f"apply {records.hex()}", answer(DONE, 0, last_number(report), report))


def of_saved() -> Iterator[Call]:
    """Saved ledgers: refused, or loaded, asked and saved again."""
    yield Call("no ledger", "free", answer(DONE))
    for row in rows("saved.rt", "MIGRATED"):
        refused = re.fullmatch(r"load refused (\d)", row.wanted)
        if refused:
            wanted = answer(LOAD_REFUSED, int(refused[1]))
            yield Call(row.shows, f"migrate {row.given}", wanted)
            yield Call(row.shows, f"load {row.given}", wanted)
        else:
            text = answer(DONE, 0, 0, bytes.fromhex(row.wanted))
            yield Call(row.shows, f"migrate {row.given}", text)
            yield Call(row.shows, f"load {row.given}", answer(DONE))
            yield Call(row.shows, "save", text)
            yield Call(row.shows, "free", answer(DONE))


def of_questions() -> Iterator[Call]:
    """A show and an audit, of both forms, without a record: their lines are those of a record, but for its number."""
    report = (EXAMPLES / "json.report").read_bytes() + (EXAMPLES / "vault.report").read_bytes()
    yield Call("vaults", *NEW)
    stream = (EXAMPLES / "json.stream").read_bytes()
    wanted = (EXAMPLES / "json.report").read_bytes()
    yield Call("vaults", f"apply {stream.hex()}", answer(DONE, 0, last_number(wanted), wanted))
    asked = ("show", "00", b"at"), ("audit", "00", b"count"), ("show", "01", b'json {"show'), ("audit", "01", b'json {"audit')
    for call, form, begins in asked:
        bare = [line.split(b" ", 1)[1] for line in report.splitlines(True)]
        lines = [line for line in bare if line.startswith(begins)]
        end = b"end %d\n" % len(lines) if form == "00" else b""
        yield Call(f"{call} {form}", f"{call} {form}", answer(DONE, 0, last_number(wanted), b"".join(lines) + end))
    bare = [line.split(b" ", 1)[1] for line in report.splitlines(True)]
    yield from of_values(last_number(wanted), [line for line in bare if line.startswith(b"at")])
    yield from of_counts(last_number(wanted), [line for line in bare if line.startswith(b"count")])


def of_counts(answered: int, audit: List[bytes]) -> Iterator[Call]:
    """Each tally by its struct's name, by the lines of a whole audit."""
    for line in audit:
        struct, *words = line.decode("ascii").split()[1:]
        packed, unpacked = (int(words[at]).to_bytes(8, "little") for at in (3, 5))
        names = Stored(line, "", struct).names()
        yield Call(f"tally of {struct}", f"tally {names}", answer(DONE, 0, answered, packed + unpacked))
        yield Call("tally of no struct", f"tally {names}ff", answer(ABSENT, 0, answered, bytes(16)))


class Stored(NamedTuple):
    """A line of a show: of a value, by its address and its struct's name."""

    line: bytes
    address: str
    struct: str

    def names(self) -> str:
        """The struct's name as a call takes it."""
        home, module, name = self.struct.split("::")
        return f"{home} {hexadecimal(module.encode('ascii'))} {hexadecimal(name.encode('ascii'))}"


def shown(lines: List[bytes]) -> bytes:
    """The text of a show of these lines alone."""
    return b"".join(lines) + b"end %d\n" % len(lines)


def of_values(answered: int, show: List[bytes]) -> Iterator[Call]:
    """Each value of a ledger by its name, all of each address, and all of each struct in pages, by the lines of a whole show."""
    values = [Stored(line, *line.decode("ascii").split(" ")[1:3]) for line in show]
    for value in values:
        yield Call(f"value {value.struct}", f"show_value {value.address} {value.names()} 00", answer(DONE, 0, answered, shown([value.line])))
        missing = answer(ABSENT, 0, answered)
        yield Call("a value at no address", f"show_value {'f' * 32} {value.names()} 00", missing)
        yield Call("a value of no struct", f"show_value {value.address} {value.names()}ff 00", missing)
        yield Call("a value of a nameless struct", f"show_value {value.address} {value.names().rsplit(' ', 1)[0]} - 00", missing)
        here = [other.line for other in values if other.address == value.address]
        yield Call(f"values at {value.address}", f"show_at {value.address} 00", answer(DONE, 0, answered, shown(here)))
    for struct in {value.struct: value for value in values}.values():
        yield from of_pages(answered, values, struct)
    yield Call("values at no address", f"show_at {'f' * 32} 00", answer(DONE, 0, answered, shown([])))


def of_pages(answered: int, values: List[Stored], struct: Stored) -> Iterator[Call]:
    """The first page and the page from each address, which are whole: the last page of each."""
    for begins in ["0" * 32, *(value.address for value in values), "f" * 32]:
        lines = [value.line for value in values if value.struct == struct.struct and value.address >= begins]
        yield Call(f"page of {struct.struct}", f"show_page {begins} {struct.names()} ff 00", answer(DONE, 0, answered, shown(lines)))


def said_of_module(line: str) -> Tuple[str, int]:
    """The status and the reason of what is printed of a module."""
    refused = re.fullmatch(r"refused (\d+)", line)
    if refused:
        return REFUSED, int(refused[1])
    return (TOO_COMPLEX, 0) if line == "too complex" else (DONE, 0)


def of_modules() -> Iterator[Call]:
    """Certificates made, and checked."""
    yield Call("no ledger", "free", answer(DONE))
    for row in rows("authoring.rt", "PROVED"):
        status, why = said_of_module(row.wanted)
        made = row.wanted.encode("ascii") if status == DONE else b""
        yield Call(row.shows, f"prove {row.given or '-'}", answer(status, why, 0, made))
        if status == DONE:
            yield Call(row.shows, f"check {row.given} {hexadecimal(made)}", answer(DONE))
    for row in rows("authoring.rt", "CHECKED"):
        text, _, line = row.wanted.partition(": ")
        text = text.replace("\\r", "\r").replace("\\n", "\n")
        yield Call(row.shows, f"check {row.given} {hexadecimal(text.encode('utf-8'))}", answer(*said_of_module(line)))


def calls() -> List[Call]:
    """All calls, in order."""
    return [*of_records(), *of_examples(), *of_saved(), *of_questions(), *of_modules()]


def wrong(told: List[Call], printed: List[str]) -> List[str]:
    """What isn't as it is wanted, in words."""
    found = [f"{len(told)} calls have {len(printed)} answers"] if len(told) != len(printed) else []
    saved = ""
    for call, line in zip(told, printed):
        if call.wanted and line != call.wanted:
            found.append(f"{call.shows}: {call.line[:60]}: {line[:200]}, not {call.wanted[:200]}")
        elif not call.wanted:
            text = line.split(" ")[-1]
            if saved and text != saved:
                found.append(f"{call.shows}: saved otherwise when each record has a call of its own")
            saved = "" if saved else text
    return found
