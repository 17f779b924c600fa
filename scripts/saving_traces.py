"""The calls of the program that saves, as strace shows them, beside those of the protocol. For `scripts/try-saving`.

Calls that change names or files, and those that put them on the disk, have to be the protocol's, one by one. What is looked at between
two of them has to be at least what the protocol looks at there."""

import re
import subprocess
from pathlib import Path
from typing import Any, Dict, Iterator, List, NamedTuple, Optional, Set, Tuple

from common import use_tests
from saving_disk import Disk, Explorer
from saving_protocol import BARE, EMPTY, LOCK, NEW, PLACE, PREVIOUS, Content, Saver

use_tests()

from exits_run import OLD, SAVED, STREAM  # noqa: E402

CHANGES = "opencreate", "lock", "create", "write", "sync", "syncdir", "link", "rename", "unlink"
# A call of strace's: its name, its words, and what it gave. With -y a descriptor has its path.
CALL = re.compile(r"^(?:\d+ +)?(\w+)\((.*)\) += (-?\d+)")
QUOTED = re.compile(r'"((?:[^"\\]|\\.)*)"')
NUMBERED = re.compile(r"^\d+<([^>]*)>")
LOOKS = "stat", "lstat", "newfstatat", "statx", "fstat", "open", "openat"
# What a file has where the protocol says this of it.
TEXTS: Dict[Content, bytes] = {EMPTY: b"", BARE: 4 * b"\0" + SAVED[4:20]}


class Row(NamedTuple):
    """What stands there, what is loaded, and how it has to end; whether what stands there is a mount of its own."""

    says: str
    files: Dict[str, Content]
    load: Optional[str] = None
    status: int = 0
    is_mount: bool = False


class Part(NamedTuple):
    """A call that changes something, and what was looked at before it since the one before."""

    change: Tuple[str, ...]
    looked: Set[str]


def rows() -> Iterator[Row]:
    old: Content = frozenset({0})
    yield Row("nothing there", {})
    yield Row("an empty file there", {PLACE: EMPTY})
    yield Row("the ledger that is loaded", {PLACE: old}, PLACE)
    yield Row("a ledger that isn't loaded", {PLACE: old})
    yield Row("and one that was kept before", {PLACE: old, PREVIOUS: frozenset({8})})
    yield Row("a whole new file of an earlier program", {PLACE: old, NEW: frozenset({9})}, PLACE)
    yield Row("a part of one", {PLACE: old, NEW: BARE}, PLACE)
    yield Row("a mount of its own", {PLACE: old}, None, 1, is_mount=True)


def calls_of_protocol(row: Row) -> Iterator[Tuple[str, ...]]:
    """The protocol's calls where nothing fails and nobody else is there."""
    explorer = Explorer(Disk((Saver(1, row.load),), row.files, no_links=row.is_mount))
    state = explorer.first()
    while state.runs[0][1] is None:
        call = explorer.next_call(0, state.runs[0][0])
        if call[0] in ("write", "sync"):
            yield call[0], NEW
        elif call[0] == "lock":
            yield "lock", LOCK
        elif call[0] == "syncdir" or call[0] == "stat" or call[0] in CHANGES:
            yield tuple(str(word) for word in call)
        (_, state), = explorer.steps(state)


def calls_of_program(lines: List[str], folder: Path) -> Iterator[Tuple[str, ...]]:
    """The program's calls on the folder and the names in it, in the protocol's words."""
    for line in lines:
        found = CALL.match(line)
        if found is None:
            continue
        name, words, result = found[1], found[2], int(found[3])
        numbered, quoted = NUMBERED.match(words), QUOTED.findall(words)
        if numbered and Path(numbered[1]) == folder and name in ("fsync", "fdatasync"):
            yield ("syncdir",)
        elif numbered and Path(numbered[1]).parent == folder:
            yield from of_open_file(name, Path(numbered[1]).name)
        elif quoted:
            names = [Path(folder, it).name for it in quoted if Path(folder, it).parent == folder]
            if names:
                yield from of_names(name, names, words, result)


def of_open_file(name: str, file: str) -> Iterator[Tuple[str, ...]]:
    if name == "flock" and file == LOCK:
        yield "lock", LOCK
    elif name in ("fsync", "fdatasync"):
        yield "sync", file
    elif name.startswith("write") or name.startswith("pwrite"):
        yield "write", file
    elif name in LOOKS:
        yield "stat", file


def of_names(name: str, names: List[str], words: str, result: int) -> Iterator[Tuple[str, ...]]:
    if name.startswith("link") or name.startswith("rename"):
        yield (name[:4] if name.startswith("link") else "rename", *names)
    elif name.startswith("unlink"):
        yield "unlink", names[0]
    elif name.startswith("open") and names[0] == LOCK:
        # A lock that stands there already is opened by a second call.
        if result >= 0:
            yield "opencreate", LOCK
    elif name.startswith("open") and "O_CREAT" in words:
        yield "create", names[0]
    elif name in LOOKS:
        yield "stat", names[0]


def parts(calls: Iterator[Tuple[str, ...]]) -> List[Part]:
    """The calls by those that change something. Writes that follow one another are one."""
    found: List[Part] = []
    looked: Set[str] = set()
    for call in calls:
        if call[0] not in CHANGES:
            looked.add(call[1])
        elif not (call[0] == "write" and found and found[-1].change == call):
            found.append(Part(call, looked))
            looked = set()
    return found


def differs(wanted: List[Part], found: List[Part]) -> Optional[str]:
    """How the program's calls aren't the protocol's."""
    changes, made = [it.change for it in wanted], [it.change for it in found]
    if changes != made:
        return f"{shown(made)}, not {shown(changes)}"
    for before, one, other in zip([("the start",), *changes], wanted, found):
        missing = one.looked - other.looked
        if missing:
            return f"between {' '.join(before)} and {' '.join(one.change)} it doesn't look at {', '.join(sorted(missing))}"
    return None


def shown(calls: List[Tuple[str, ...]]) -> str:
    return "; ".join(" ".join(call) for call in calls)


def mounted(path: Path) -> bool:
    return subprocess.run(["mount", "--bind", path, path], stderr=subprocess.DEVNULL).returncode == 0


def traced(row: Row, program: str, top: Path) -> Optional[str]:
    """What is wrong with the program's calls in a row; nothing where they are the protocol's, None where it can't be tried."""
    folder, trace = top / "folder", top / "trace"
    folder.mkdir()
    for name, content in row.files.items():
        (folder / name).write_bytes(TEXTS.get(content, OLD if content == frozenset({0}) else SAVED))
    if row.is_mount and not mounted(folder / PLACE):
        return None
    words: List[Any] = ["strace", "-f", "-qq", "-y", "-s", "300", "-e", "trace=%file,%desc", "-o", trace, program, "apply"]
    words += [*(["--load", folder / row.load] if row.load else []), "--save", folder / PLACE, STREAM]
    try:
        ended = subprocess.run(words, cwd=folder, stdout=subprocess.DEVNULL, stderr=subprocess.PIPE)
    finally:
        if row.is_mount:
            subprocess.run(["umount", "--lazy", folder / PLACE], check=True)
    if ended.returncode != row.status:
        return f"status {ended.returncode}, not {row.status}: {ended.stderr.decode(errors='replace')}"
    found = parts(calls_of_program(trace.read_text(errors="replace").splitlines(), folder))
    return differs(parts(calls_of_protocol(row)), found) or ""
