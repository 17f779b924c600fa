"""Checks wrong bodies over the libraries that `rt ci` leaves: the toolchain's prover is called on a copy of one crate, for the functions that
are changed and those that they call alone. So nothing below the crate is proved once more, and of the crate as little as can be."""

import os
import re
import shutil
import subprocess
from contextlib import suppress
from pathlib import Path
from typing import Dict, List, NamedTuple, Optional, Set, Tuple

from common import CRATES, TOP, crates, processors
from must_fail import Edit, Place
from sources import functions_of

PARTS = "src", "specs", "proofs"
# What a check of a few functions takes at most of those that were measured, in bytes.
NEED = 2_500_000_000
# What the prover says where it has no function of a name, or several.
NO_NAME = re.compile(r"^rattle: error: `\w+` [^\n`]*`([^`]*)`", re.M)
IMPL = re.compile(r"^( *)(?:unsafe )?impl\b(.*)")
CYCLE = re.compile(r"#\[cycle\((\w+)\)\]")
# A list of parameters in angle brackets, of which none is in another.
PARAMETERS = re.compile(r"<[^<>]*>")


# The checks that run.
RUNNING: Set["subprocess.Popen[bytes]"] = set()


class Ended(NamedTuple):
    """How a check ended, and what it printed."""

    status: int
    printed: str


def kit() -> Optional[Path]:
    """The toolchain's folder, if it is installed."""
    found = shutil.which("rt")
    return Path(found).resolve().parent.parent if found else None


def sources(folder: Path) -> List[Path]:
    """The files that a crate in this folder is made of."""
    return sorted(it for part in PARTS for it in (folder / part).rglob("*") if it.is_file())


def texts_below(folder: Path) -> Dict[Path, bytes]:
    """What stands in each of these files."""
    return {it.relative_to(folder): it.read_bytes() for it in sources(folder)}


class Libraries:
    """The libraries that `rt ci` left below the crates of a repository, and the toolchain."""

    def __init__(self, top: Path, tools: Path) -> None:
        self.folder, self.tools = top / "crates", tools
        lines = [it for it in (TOP / "crates.txt").read_text(encoding="utf-8").splitlines() if not it.startswith("#")]
        self.static = {it.split()[0] for it in lines if "staticlib" in it.partition(":")[0].split()}
        self.uses = {name: uses for name, uses in crates().items()}

    def below(self, crate: str) -> Set[str]:
        """The repository's crates that this one stands on."""
        found: Set[str] = set()
        left = list(self.uses[crate])
        while left:
            name = left.pop()
            if name in self.uses and name not in found:
                found.add(name)
                left += self.uses[name]
        return found

    def rlib(self, crate: str) -> Path:
        return self.folder / crate / f"out/rlib/{crate}.rlib"

    def is_of_these_sources(self, name: str) -> bool:
        """Whether a crate's library is there, and of the text that the crate has here. A source of that clone which is newer than the
        library says that it is of an older text; `rt ci` leaves no stamp beside a library, other commands do."""
        library, folder = self.rlib(name), self.folder / name
        if not library.is_dir() or texts_below(folder) != texts_below(CRATES / name):
            return False
        stamp = library.parent / "stamp"
        made = (stamp if stamp.exists() else library).stat().st_mtime
        return all(file.stat().st_mtime <= made for file in sources(folder))

    def lacking(self, names: Set[str]) -> List[str]:
        """The crates below those of these names whose library isn't there, or is one of other sources."""
        return [it for it in sorted({below for name in names for below in self.below(name)}) if not self.is_of_these_sources(it)]

    def words(self, crate: str) -> List[str]:
        """What the prover is given for a crate."""
        is_program = (CRATES / crate / "src/main.rt").exists()
        words = ["--crate-name", crate, "src/main.rt" if is_program else "src/lib.rt"]
        words += ["--extern", f"std={self.tools}/rlibs/std.rlib", "-L", f"dependency={self.tools}/rlibs"]
        for name in self.uses[crate]:
            words += ["--extern", f"{name}={self.rlib(name) if name in self.uses else self.tools / f'rlibs/{name}.rlib'}"]
        for name in sorted(self.below(crate)):
            words += ["-L", f"dependency={self.rlib(name).parent}"]
        words += ["--antt-project", f"{self.tools}/rattle/logic/antt-project.json", "--logic-built", f"{self.tools}/logic_built"]
        words += ["--jobs", "1", "--links", f"{crate}="]
        return [*words, "--crate-type", "staticlib"] if crate in self.static else words


def bare(text: str) -> str:
    """A type without its parameters."""
    while PARAMETERS.search(text):
        text = PARAMETERS.sub("", text)
    return text.strip()


def parameters(text: str) -> Tuple[str, str]:
    """What stands in the angle brackets that a text begins with, if it does, and what stands behind them."""
    depth = 0
    for at, sign in enumerate(text):
        depth += (sign == "<") - (sign == ">" and text[at - 1] != "-")
        if not depth:
            return (text[1:at], text[at + 1:]) if at else ("", text)
    return "", text


def joined(trait: str, variables: Set[str]) -> str:
    """How a trait stands in a name: with what it is given, but for variables, as `FromIoError` for `From<io::Error>`."""
    paths = [it.split("::") for it in re.findall(r"\w+(?:::\w+)*", trait)]
    kept = [paths[0][-1:], *(it for it in paths[1:] if not set(it) & variables)] if paths else []
    return "".join(part[0].upper() + part[1:] for it in kept for part in it)


def owner_of(lines: List[str], first: int) -> Tuple[str, str]:
    """What a method's name has before it, by its `impl`: its type, with the name of the trait behind it, if it is of one; and its type."""
    indent = len(lines[first]) - len(lines[first].lstrip())
    for at in range(first, -1, -1):
        found = IMPL.match(lines[at])
        if found and len(found[1]) < indent:
            given, rest = parameters(found[2])
            variables = set(re.findall(r"(?:^|, *)(\w+)", bare(given)))
            head = re.sub(r"\bwhere\b.*|\{.*$|'\w+,? ?|&|\bmut ", "", rest)
            trait, is_of_trait, type_name = head.rpartition(" for ")
            name = bare(type_name).split("::")[-1]
            name = name[:1].upper() + name[1:]
            return name + (joined(trait, variables) if is_of_trait and trait.strip() != "Drop" else ""), name
    return "", ""


def names_of(place: Place, crate: str) -> List[str]:
    """How the prover may call the function of a place, the likeliest first; the last stands for all of the file's."""
    parts = [it for it in place.file[len("src/"):-len(".rt")].split("/") if it not in ("lib", "main", "mod")]
    if place.function is None:
        return [""]
    text = (CRATES / crate / place.file).read_text(encoding="utf-8")
    lines, function = text.split("\n"), functions_of(text)[place.function]
    head = next(at for at in range(function.first, function.last + 1) if re.search(rf"\bfn {function.name}\b", lines[at]))
    owner, type_name = owner_of(lines, head) if lines[head].startswith(" ") else ("", "")
    name = f"{owner}::{function.name}" if owner else function.name
    # (a method has the path of its type, which may stand in another file)
    is_here = not owner or re.search(rf"\b(?:struct|enum|trait) {type_name}\b", text)
    full = "::".join([*parts, name])
    found = [full, name] if is_here else [name, full]
    return list(dict.fromkeys([*found, *(["::".join(parts)] if parts else [])]))


def parts_of(place: Place, crate: str) -> Set[str]:
    """What a module of the proof of a place's function has in its name: the function, or a cycle of calls of its file."""
    text = (CRATES / crate / place.file).read_text(encoding="utf-8")
    return {*CYCLE.findall(text), *([] if place.function is None else [functions_of(text)[place.function].name])}


def begins_with(place: Path, folder: Path) -> bool:
    """Has a new folder of what is proved begin with that of another place; answers whether it does. A check replaces the file of a module
    and changes none, so these are linked."""
    def give(one: str, other: str) -> object:
        if one.endswith(".oantt"):
            with suppress(OSError):
                os.link(one, other)
                return other
        return shutil.copy2(one, other)

    try:
        shutil.copytree(place, folder, symlinks=True, copy_function=give)
    except (OSError, shutil.Error):
        # (another command works there)
        shutil.rmtree(folder, ignore_errors=True)
        return False
    return True


class Copy:
    """A copy of a crate's sources, which edits are applied to, with a folder of what is proved. A check takes from there what is of the
    same text and of the same libraries."""

    def __init__(self, crate: str, folder: Path, libraries: Libraries, earlier: Path) -> None:
        self.crate, self.folder, self.libraries, self.earlier = crate, folder, libraries, earlier
        self.own, self.proved = folder / "crates" / crate, folder / "kept"
        # What its checks took, in seconds of a processor.
        self.busy = 0.0
        for part in PARTS:
            if (CRATES / crate / part).is_dir():
                shutil.copytree(CRATES / crate / part, self.own / part)
        # What it calls, too, is proved in a check; so each begins with what the last one, or a check of the crate itself, has proved.
        for place in earlier, libraries.folder / crate / "out/incremental":
            if place.is_dir() and begins_with(place, self.proved):
                break

    def keep(self, edits: List[Edit]) -> None:
        """Leaves what was proved beside these edits to the next run, unless another one does at this time. All that is of the functions that
        they change goes, also what was refused: the next run proves that anew. Where one changes what is of no function, nothing is left."""
        if not self.proved.is_dir() or any(place.function is None for edit in edits for place in edit.places):
            return
        changed = {name for edit in edits for place in edit.places for name in parts_of(place, self.crate)}
        for file in self.proved.rglob("*.oantt"):
            if not changed.isdisjoint(it.lstrip("+") for it in file.name.split(".")):
                file.unlink()
        self.earlier.parent.mkdir(exist_ok=True)
        shutil.rmtree(self.earlier, ignore_errors=True)
        with suppress(OSError):
            self.proved.rename(self.earlier)

    def run(self, names: List[str]) -> Ended:
        """One check of the functions of these names; of all, where there is none. What it proves is kept for the next one in this copy."""
        words = [str(self.libraries.tools / "bin/rattle"), "check", *self.libraries.words(self.crate), "--incremental", str(self.proved)]
        words += [word for name in names for word in ("--only", name)]
        with open(self.folder / "said", "w+", encoding="utf-8", errors="replace") as said:
            run = subprocess.Popen(words, cwd=self.own, stdin=subprocess.DEVNULL, stdout=said, stderr=subprocess.STDOUT)
            RUNNING.add(run)
            _, status, used = os.wait4(run.pid, 0)
            run.returncode = os.WEXITSTATUS(status) if os.WIFEXITED(status) else 128 + os.WTERMSIG(status)
            RUNNING.discard(run)
            said.seek(0)
            self.busy += used.ru_utime + used.ru_stime
            return Ended(run.returncode, said.read())

    def check(self, edits: List[Edit]) -> str:
        """Checks the functions that these edits change. Answers what that printed."""
        places = {place: names_of(place, self.crate) for edit in edits for place in edit.places}
        while True:
            asked = sorted({it[0] for it in places.values()})
            ended = self.run([] if "" in asked else asked)
            unknown = NO_NAME.findall(ended.printed) if ended.status == 2 else []
            hit = [it for it in places.values() if it[0] in unknown]
            if not hit:
                return ended.printed
            for it in hit:
                it[:] = it[1:] or [""]


def end_all() -> None:
    """Ends the checks that run."""
    for run in list(RUNNING):
        run.kill()


def lanes() -> int:
    """How many checks may run at a time, by processors and memory."""
    free = re.search(r"^MemAvailable:\s+(\d+)", Path("/proc/meminfo").read_text(encoding="utf-8"), re.M)
    return max(1, min(4, processors(), int(free[1]) * 1024 // NEED if free else 1))
