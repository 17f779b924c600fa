"""Which must-fail edits the gate tries each time (tests/edits/fixed), on which text each edit was tried last (tests/edits/tried), and of
which crates they are tried later (tests/edits/later)."""

import hashlib
import re
from pathlib import Path
from threading import Lock
from typing import Dict, Iterable, Iterator, List, NamedTuple

from asked import ASKED
from common import CRATES, TOP
from must_fail import MORE, Edit, edits_of

FIXED, TRIED, LATER = TOP / "tests/edits/fixed", TOP / "tests/edits/tried", TOP / "tests/edits/later"
PARTS = "src", "specs"
# How a line begins that is a comment, by the kind of file.
COMMENTS = {".rt": "//", ".antt": "--"}
# The gate tries so many at least each time.
LEAST = 60
# More edits than so many that weren't tried on the text of today are for who changed it, before the landing.
MOST_UNTRIED = 150
# Each clause of these files needs an edit, or a word on why it has none.
PAGES = "crates/moveledger/specs/Headline.antt", "crates/moveledger/specs/Outcome.antt"
# A definition, a field of a record, and a case; then what a field is that only names something.
CLAUSE = re.compile(r"^(abbrev|record|data) pub (\w+)|^pub (abbrev|record|data) (\w+)|^  (?:pub )?([a-z]\w*) : (.*)")
ONLY_NAMED = re.compile(r"(?:List .*|LedgerView|Request)$")
NOTING = Lock()
ABOUT = """# On which text the must-fail edits were tried last, when a goal refused each: a line for each crate, with the checksum of its src and specs
# then, without comments and layout, and below it each of its edits, with the checksum of the edit's own text. scripts/try-edits CRATE
# writes it.
"""


def name_of(edit: Edit) -> str:
    """An edit's name, wherever it stands in its folder."""
    return edit.name[len(MORE):] if edit.name.startswith(MORE) else edit.name


def said_in(file: Path) -> str:
    """What a file says: without the lines that are comments, and without its layout."""
    lines = file.read_text(encoding="utf-8").splitlines()
    return " ".join(word for line in lines if not line.lstrip().startswith(COMMENTS[file.suffix]) for word in line.split())


def sum_of_code(crate: str) -> str:
    """The checksum of what a crate's code, contracts and definitions say, by the names of their files. A proof proves no wrong body, so proofs
    don't count."""
    told = hashlib.sha256()
    for part in PARTS:
        for file in sorted(it for it in (CRATES / crate / part).rglob("*") if it.suffix in COMMENTS):
            told.update(f"{hashlib.sha256(said_in(file).encode()).hexdigest()} {file.relative_to(CRATES / crate).as_posix()}\n".encode())
    return told.hexdigest()


def sum_of(edit: Edit) -> str:
    return hashlib.sha256("\0".join(text for change in edit.changes for text in change).encode()).hexdigest()


class Fixed(NamedTuple):
    """An edit that is tried each time, with what it stands for; or, without a name, clauses that have none, and why."""

    crate: str
    name: str
    words: str


def fixed() -> List[Fixed]:
    """The lines of the list: `CRATE/EDIT: words`, or `none: words`."""
    lines = [it for it in FIXED.read_text(encoding="utf-8").splitlines() if it and not it.startswith("#")]
    parted = [it.partition(": ") for it in lines]
    halves = [(*name.partition("/"), words) for name, _, words in parted]
    return [Fixed(crate if name else "", name, words) for crate, _, name, words in halves]


def clauses(page: str) -> Iterator[str]:
    """The clauses of a page: each of its definitions, and of a record or a list of cases each field that states something, and each case."""
    inside = ""
    for line in (TOP / page).read_text(encoding="utf-8").splitlines():
        found = CLAUSE.match(line)
        if not found:
            continue
        kind, name, field, states = found[1] or found[3], found[2] or found[4], found[5], found[6]
        if kind == "abbrev":
            yield name
        elif kind:
            inside = name
        elif not ONLY_NAMED.match(states):
            yield f"{inside}.{field}"


def asked() -> Iterator[str]:
    """What a fixed edit has to stand for: each call that was asked for by name, and each clause of the headline's two pages."""
    yield from (f"{row.crate}::{row.name}" for row in ASKED if row.form.startswith("fn"))
    for page in PAGES:
        yield from clauses(page)


def faults_of_fixed() -> Iterator[str]:
    """What is wrong with the list of those that are tried each time."""
    lines = fixed()
    there = {crate: {name_of(it) for it in edits_of(crate)} for crate in crates_with_edits()}
    for line in lines:
        if line.crate and line.name not in there.get(line.crate, set()):
            yield f"tests/edits/fixed names {line.crate}/{line.name}, which isn't there"
    named = {(it.crate, it.name) for it in lines if it.crate}
    if len(named) != sum(bool(it.crate) for it in lines):
        yield "tests/edits/fixed names an edit twice"
    if len(named) < LEAST:
        yield f"tests/edits/fixed has {len(named)} edits, and {LEAST} are wanted"
    words = {word for line in lines for word in re.findall(r"`([^`]+)`", line.words)}
    wanted = list(dict.fromkeys(asked()))
    yield from (f"tests/edits/fixed has no edit for {it}" for it in wanted if it not in words)
    yield from (f"tests/edits/fixed speaks of {it}, which isn't asked for" for it in sorted(words - set(wanted)))


def crates_with_edits() -> List[str]:
    return sorted(it.name for it in CRATES.iterdir() if (it / "must-fail").is_dir())


class Tried(NamedTuple):
    """The text of a crate on which its edits were tried, and the text of each of these."""

    code: str
    edits: Dict[str, str]


def tried() -> Dict[str, Tried]:
    found: Dict[str, Tried] = {}
    for line in TRIED.read_text(encoding="utf-8").splitlines() if TRIED.exists() else []:
        if line.startswith("    "):
            name, told = line.split()
            list(found.values())[-1].edits[name] = told
        elif line and not line.startswith("#"):
            name, told = line.split()
            found[name] = Tried(told, {})
    return found


def later() -> List[str]:
    """The crates of which the edits are to be tried on the text of today after the landing, and not by the gate."""
    lines = LATER.read_text(encoding="utf-8").splitlines() if LATER.exists() else []
    return [line for line in lines if line and not line.startswith("#")]


def note_tried(crate: str, code: str, edits: Iterable[Edit]) -> None:
    """Notes that a goal refused these edits of a crate, whose text had this checksum, if it still has. Others that were tried on it stay."""
    with NOTING:
        if sum_of_code(crate) != code:
            return
        all_tried = tried()
        there = {name_of(it): sum_of(it) for it in edits_of(crate)}
        last = all_tried.get(crate, Tried("", {}))
        kept = {name: told for name, told in last.edits.items() if last.code == code and there.get(name) == told}
        all_tried[crate] = Tried(code, {**kept, **{name_of(it): sum_of(it) for it in edits}})
        lines = [ABOUT]
        for name in sorted(set(all_tried) & set(crates_with_edits())):
            lines += [f"{name} {all_tried[name].code}\n", *(f"    {edit} {told}\n" for edit, told in sorted(all_tried[name].edits.items()))]
        new = TRIED.with_name("tried.new")
        new.write_text("".join(lines), encoding="utf-8")
        new.replace(TRIED)


def some(names: Iterable[str]) -> str:
    """A few of these names, and how many more there are."""
    told = sorted(names)
    return ", ".join(told[:5]) + (f" and {len(told) - 5} more" if told[5:] else "")


def faults_of_tried() -> Iterator[str]:
    """Edits that the notes name and that are gone, and those that they lack of a crate that they have, unless its edits are tried later."""
    put_off = later()
    for crate, last in sorted((crate, last) for crate, last in tried().items() if crate not in put_off):
        there = {name_of(it) for it in edits_of(crate)}
        if set(last.edits) - there:
            yield f"tests/edits/tried names edits of {crate} that are gone: {some(set(last.edits) - there)}"
        if there - set(last.edits):
            yield f"tests/edits/tried lacks edits of {crate}: {some(there - set(last.edits))}: scripts/try-edits --new {crate} tries them"


def untried() -> Dict[str, List[Edit]]:
    """The edits of each crate that weren't tried on its text of today, or not with theirs."""
    noted = tried()
    found: Dict[str, List[Edit]] = {}
    for crate in crates_with_edits():
        last = noted.get(crate, Tried("", {}))
        is_same = last.code == sum_of_code(crate)
        edits = [it for it in edits_of(crate) if not is_same or last.edits.get(name_of(it)) != sum_of(it)]
        if edits:
            found[crate] = edits
    return found
