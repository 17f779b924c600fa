"""What a check says of must-fail edits: which functions they change, which of them can be tried together, and by which goals each is refused."""

import re
import shutil
from functools import lru_cache
from pathlib import Path
from typing import Dict, Iterator, List, NamedTuple, Optional, Set, Tuple

from common import CRATES
from must_fail import Edit, Place, complaints, edits_of
from sources import Function, functions_of

CONSTANT = re.compile(r"^(?:pub(?:\([^)]*\))? )?(?:const|static) \w+:")


class Note(NamedTuple):
    """A goal that a check couldn't prove, with its file and the number of its line, from 0."""

    file: str
    line: int
    goal: str


def locate(edit: Edit) -> Optional[str]:
    """Finds the function of each change; answers what is wrong with the edit, if anything is."""
    if not edit.changes:
        return "has no change"
    texts: Dict[str, str] = {}
    for file, old, new in edit.changes:
        if not file or not file.startswith("src/") or not old:
            return f"changes {file or 'no file'}, old text {old!r}: only an edit of code shows anything of a contract"
        path = CRATES / edit.crate / file
        text = texts.setdefault(file, path.read_text() if path.exists() else "")
        if text.count(old) != 1:
            return f"no longer fits {file}: its old text stands there {text.count(old)} times"
        line = text[: text.index(old)].count("\n")
        inside = [at for at, it in enumerate(functions_of(text)) if it.first <= line <= it.last]
        if CONSTANT.match(text.split("\n")[line]):
            # (of no function: whichever is refused speaks of it)
            inside = []
        edit.places.append(Place(file, inside[0] if inside and file.endswith(".rt") else None))
        texts[file] = text.replace(old, new)
        if texts[file] == text:
            return f"changes nothing in {file}"
    return None


@lru_cache(maxsize=None)
def pristine(crate: str, file: str) -> Tuple[List[str], List[Function]]:
    """The lines of a crate's file, and its functions."""
    text = (CRATES / crate / file).read_text()
    return text.split("\n"), functions_of(text)


def bodies(edit: Edit) -> Iterator[Tuple[str, str]]:
    """The functions that an edit changes, as they are without it: the name and the text of each."""
    for file, at in edit.places:
        if at is not None:
            lines, functions = pristine(edit.crate, file)
            yield functions[at].name, "\n".join(lines[functions[at].first:functions[at].last + 1])


def calls(one: Edit, other: Edit) -> bool:
    """Whether a function that one edit changes calls, by the name, one that the other changes."""
    return any(f"{name}(" in text and re.search(rf"\b{name}\(", text) for _, text in bodies(one) for name, _ in bodies(other))


def clash(one: Edit, other: Edit) -> bool:
    """Whether two edits have to be tried in different rounds: they change one function, or one of them changes what is of none, or a
    function calls one that the other changes: it isn't judged then."""
    if any(at is None for _, at in one.places + other.places):
        return True
    return bool(set(one.places) & set(other.places)) or calls(one, other) or calls(other, one)


def rounds_of(edits: List[Edit]) -> List[List[Edit]]:
    rounds: List[List[Edit]] = []
    for edit in edits:
        fitting = next((it for it in rounds if not any(clash(edit, other) for other in it)), None)
        if fitting is None:
            rounds.append([edit])
        else:
            fitting.append(edit)
    return rounds


def apply(edits: List[Edit], crate: str, folder: Path) -> None:
    """Puts the pristine sources into the copy, and these edits into them."""
    for file in {file for edit in edits_of(crate) for file, _, _ in edit.changes if file}:
        if (CRATES / crate / file).exists():
            shutil.copy(CRATES / crate / file, folder / "crates" / crate / file)
    # Of each file where it was changed, by places in the pristine text, and how much longer it is by that. An edit is put where its old
    # text stood in the pristine one: another edit may have made the same text elsewhere, and each would undo the other.
    changed: Dict[str, List[Tuple[int, int]]] = {}
    for edit in edits:
        for file, old, new in edit.changes:
            path = folder / "crates" / crate / file
            text, stood = path.read_text(), (CRATES / crate / file).read_text().find(old)
            at = stood + sum(longer for place, longer in changed.get(file, []) if place < stood)
            if stood < 0 or not text.startswith(old, at):
                at = text.find(old)
            if at >= 0:
                path.write_text(text[:at] + new + text[at + len(old):])
                changed.setdefault(file, []).append((stood if stood >= 0 else at, len(new) - len(old)))


def refusals(output: str) -> Tuple[List[Note], Set[str]]:
    """What a check printed of the functions that it refused: its notes, and the names that aren't proved."""
    notes = re.findall(r"^(?:note|error): (src/\S+?):(\d+):\d+: (?:it is not proved|[^\n]*not proved)[^\n]*?\(`([^`]+)`\)", output, re.M)
    names = set(re.findall(r"^fn (\S+): not proved", output, re.M))
    return [Note(file, int(line) - 1, goal) for file, line, goal in notes], names


def path_of(crate: str, file: str) -> str:
    """How the functions of a file begin in a check's lines."""
    parts = [it for it in file[len("src/"):-len(".rt")].split("/") if it not in ("lib", "main", "mod")]
    return "::".join([crate, *parts])


def is_of(name: str, crate: str, file: str, text: str, function: Function) -> bool:
    """Whether a check's name is that of this function of the file: a method has the path of its type, which may stand elsewhere."""
    *path, last = name.split("::")
    is_method = len(path) > 1 and re.search(rf"^impl\b[^{{]*\b{re.escape(path[-1])}\b", text, re.M)
    return last == function.name and (name.startswith(path_of(crate, file)) or bool(is_method))


def standing(edit: Edit, file: str, at: int, text: str) -> Optional[Function]:
    """The function of the pristine file, by its number there, in a text of that file with edits, which may add functions or take some away:
    of those with its name the one that has as many before it."""
    pristine = functions_of((CRATES / edit.crate / file).read_text())
    before = sum(it.name == pristine[at].name for it in pristine[:at])
    alike = [it for it in functions_of(text) if it.name == pristine[at].name]
    return alike[before] if before < len(alike) else None


def verdict(edit: Edit, folder: Path, output: str) -> Tuple[List[str], str]:
    """The goals by which the functions of an edit are refused; or none, and what became of it."""
    notes, names = refusals(output)
    goals: List[str] = []
    otherwise = "not refused"
    for file, at in edit.places:
        if at is None:
            goals += sorted({goal for _, _, goal in notes}) or sorted(names)
            continue
        text = (folder / "crates" / edit.crate / file).read_text()
        function = standing(edit, file, at, text)
        if function is None:
            continue
        goals += [goal for where, line, goal in notes if where == file and function.first <= line <= function.last]
        own = {it for it in names if is_of(it, edit.crate, file, text, function)}
        if own and not goals:
            told, why = complaints(function.name, output)
            if why:
                otherwise = why
                continue
            goals += [goal for it in told for goal in re.findall(r"^`([^`]+)`", it)]
            goals += [] if goals else [f"it isn't proved: {name}" for name in own if f"fn {name}: not proved; it calls" not in output]
    return list(dict.fromkeys(goals)), otherwise


def broken(edits: List[Edit], folder: Path, output: str) -> List[Edit]:
    """The edits whose files a check can't compile: their lines are named by errors that no proof has."""
    found: List[Edit] = []
    for edit in edits:
        for file, at in edit.places:
            lines = [int(it) - 1 for it in re.findall(rf"error[^\n]*?{re.escape(file)}:(\d+)|{re.escape(file)}:(\d+):\d+: error", output) for it in it if it]
            if at is None:
                hit = bool(lines)
            else:
                function = standing(edit, file, at, (folder / "crates" / edit.crate / file).read_text())
                hit = function is not None and any(function.first <= line <= function.last for line in lines)
            if hit and edit not in found:
                found.append(edit)
    return found


def has_verdict(output: str) -> bool:
    """Whether a check came as far as the proofs."""
    return bool(re.search(r"^(?:fn|struct|enum|impl) \S+: ", output, re.M))
