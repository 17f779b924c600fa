"""The must-fail edits of the crates, as they stand in `must-fail/`, and what a check says of the proofs of the functions that they change."""

import re
from dataclasses import dataclass, field
from typing import List, NamedTuple, Optional, Tuple

from common import CRATES

MORE = "more.md "  # how the name of an edit begins that stands there
# What a proof says where an edit takes away what it names. That shows nothing of a contract: the right code could be refused so too.
TAKEN = re.compile(r"which was rejected|has no field|has no `|is not in scope|was not admitted")
# What it says where the prover met a limit of its own, so that nothing was decided.
LIMIT = re.compile(r"stopped at the step limit|outgrew the memory limit|antt ran out of")


class Change(NamedTuple):
    """The text that an edit takes from a file, and the one that it puts there; what a line is missing for is empty."""

    file: str
    old: str
    new: str


class Place(NamedTuple):
    """Where a change stands: its file, and which function of that, or None."""

    file: str
    function: Optional[int]


@dataclass
class Edit:
    """A must-fail edit: the texts that it takes from files and puts into them."""

    crate: str
    name: str
    changes: List[Change] = field(default_factory=list)
    places: List[Place] = field(default_factory=list)

    def __str__(self) -> str:
        return f"{self.crate}/must-fail/{self.name}"


def parsed(crate: str, name: str, lines: List[str]) -> Edit:
    """An edit from its lines."""
    edit, file, old = Edit(crate, name), "", ""
    for line in lines:
        if line.startswith("file: "):
            file = line[6:].strip()
        elif line.startswith("old: "):
            old = line[5:]
        elif line.startswith("new:"):
            edit.changes.append(Change(file, old, line[5:]))
    return edit


def edits_of(crate: str) -> List[Edit]:
    """All edits of a crate: the files of the gate, then the sections of more.md."""
    folder, found = CRATES / crate / "must-fail", []
    for file in sorted(folder.glob("*.edit")):
        found.append(parsed(crate, file.stem, file.read_text().split("\n")))
    if (folder / "more.md").exists():
        for section in re.split(r"^## ", (folder / "more.md").read_text(), flags=re.M)[1:]:
            name, *lines = section.split("\n")
            found.append(parsed(crate, f"{MORE}{name.strip()}", [line[4:] for line in lines if line.startswith("    ")]))
    return found


def complaints(function: str, output: str) -> Tuple[List[str], str]:
    """What a check printed of the files of a function's proof and shows something of its contract; and if it printed nothing else of them, why
    that shows nothing."""
    # (a long line about a record or a module ends before it says what that has not)
    said = re.findall(rf"^\./proofs/\S*\+?{function}/\S+?: error: (.*(?:\n  has no .*)?)", output, re.M)
    told = [it for it in said if not TAKEN.search(it) and not LIMIT.search(it)]
    if told or not said:
        return told, ""
    if any(LIMIT.search(it) for it in said):
        return told, "refused only by a limit of the prover: choose a change that it refuses sooner"
    return told, "refused only since a proof names what it takes away: keep these names"
