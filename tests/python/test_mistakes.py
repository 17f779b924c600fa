"""Makes each mistake of tests/mistakes as a new user would: writes the text, runs the commands, and wants the words and the status that
stand there. Needs no program, the text tools alone.

A file has mistakes one after the other: a line `== ` with what is wrong, a line `$ ` with the commands, the text, a line `-- ` with the
status of the last command that ran, and what the commands print. `scripts/test --make mistakes` writes what is printed today there."""

import multiprocessing
import os
import re
import runpy
import sys
import tempfile
from pathlib import Path
from typing import Dict, List, NamedTuple

from cases import Cases
from common import TOOLS, TOP

FOLDER = TOP / "tests/mistakes"
LEAST_MISTAKES = 260
MISTAKE = re.compile(r"^== (.*)\n\$ (.*)\n((?:(?!-- ).*\n)*)-- ([0-9]+)\n((?:(?!== ).*\n?)*)", re.M)


class Mistake(NamedTuple):
    """A mistake: what it shows, the commands, the text, and the status and the words that are wanted."""

    shows: str
    commands: str
    text: str
    status: int
    wanted: str

    def section(self, status: int, said: str) -> str:
        """The mistake as it stands in a file, with other words."""
        return f"== {self.shows}\n$ {self.commands}\n{self.text}-- {status}\n{said}" + ("\n" if said else "")


class Outcome(NamedTuple):
    """How the commands ended, and what they printed."""

    status: int
    said: str


def mistakes_in(path: Path) -> List[Mistake]:
    """The mistakes of a file."""
    return [Mistake(found[1], found[2], found[3], int(found[4]), found[5].strip("\n") and found[5].rstrip("\n") + "\n")
            for found in MISTAKE.finditer(path.read_text())]


def made(mistake: Mistake) -> Outcome:
    """Runs the commands of a mistake, up to the first that fails."""
    with tempfile.TemporaryDirectory() as folder, tempfile.TemporaryFile() as said:
        Path(folder, "my.text").write_bytes(mistake.text.replace("<BOM>", "\ufeff").encode())
        os.chdir(folder)
        for descriptor in (1, 2):
            os.dup2(said.fileno(), descriptor)
        statuses = [0]
        for command in mistake.commands.split(" && "):
            statuses += [] if statuses[-1] else [ended(*command.split())]
        said.seek(0)
        return Outcome(statuses[-1], said.read().decode("utf-8", "replace"))


def ended(tool: str, *words: str) -> int:
    """Runs a tool in this process, which prints to the files that are standard output and standard error, and answers its
    status."""
    sys.argv = [str(TOOLS / tool), *words]
    status = 0
    try:
        runpy.run_path(sys.argv[0], run_name="__main__")
    except SystemExit as ends:
        status = int(ends.code or 0)
    sys.stdout.flush()
    sys.stderr.flush()
    return status


def every_file() -> Dict[Path, List[Mistake]]:
    return {path: mistakes_in(path) for path in sorted(FOLDER.glob("*.txt"))}


def outcomes_of(mistakes: List[Mistake]) -> Dict[Mistake, Outcome]:
    """What comes of mistakes, four at a time."""
    sys.stdout.flush()
    with multiprocessing.get_context("fork").Pool(4) as workers:
        return dict(zip(mistakes, workers.map(made, mistakes)))


def make() -> None:
    """Writes what is printed today into the files."""
    for path, mistakes in every_file().items():
        outcomes = outcomes_of(mistakes)
        path.write_text("".join(one.section(*outcomes[one]) for one in mistakes))


class Mistakes(Cases):
    """What a new user is told."""

    def test_told(self) -> None:
        every = [one for mistakes in every_file().values() for one in mistakes]
        for one, (status, said) in outcomes_of(every).items():
            is_right = (status, said) == (one.status, one.wanted)
            self.note(one.shows, "" if is_right else f"status {status}, and not {one.status}; it says\n{said}and not\n{one.wanted}")
        self.assertGreaterEqual(len(every), LEAST_MISTAKES, "mistakes are missing")
