"""Does what README.md and docs/TEXT.md tell a reader to do, in a fresh copy of the repository's files, and compares what comes of it
with what the page says. An indented block is one of these:

- commands, line by line: they have to end with status 0;
- behind a paragraph that ends in `prints` or `answer`, what the commands before it print, those of that paragraph among them;
- behind `is examples/NAME`, the text of that file, without the comments at its head.

README.md has no other block; of docs/TEXT.md those are passed over that show what may stand in a text or in a command. The copy has nothing built. It
uses the program of dist/ if that is of these sources, and the first answer then has to come within five seconds of a processor; otherwise it is given
the program that was built here, or one that is named. No toolchain is on its PATH."""

import os
import re
import shutil
import subprocess
import tempfile
from pathlib import Path
from typing import Dict, Iterator, List, Optional, Tuple

from cases import Cases, Tally, program
from common import BUILT, copy_files, outcome

# The pages, and whether each of their blocks can be tried.
PAGES = ("README.md", True), ("docs/TEXT.md", False)
# Of the processors' time: the machine may be busy.
FIRST_WITHIN = 5
# A command, not what may stand in one: that has brackets.
COMMAND = re.compile(r"(?!.*[][])(?:(?:\./|tools/|scripts/|\.ci/)\S|(?:cp|echo) )")
INLINE = re.compile(r"`((?:\./|tools/)[^`]+)`")
IS_FILE = re.compile(r"\bis \[?(examples/[\w-]+\.\w+)")
PRINTS = re.compile(r"\b(?:prints|answers?)\b[^.]*[:,]?$")


def blocks(page: str) -> Iterator[Tuple[int, str, str]]:
    """The indented blocks of a page: the number of its first line, the paragraph before it, and its text."""
    lines, at, paragraph, is_fenced = page.split("\n"), 0, "", False
    while at < len(lines):
        line = lines[at]
        is_fenced ^= line.startswith("```")
        if line.startswith("    ") and not is_fenced and at > 0 and not lines[at - 1]:
            first = at
            found: List[str] = []
            while at < len(lines) and (lines[at].startswith("    ") or not lines[at]):
                found.append(lines[at][4:])
                at += 1
            yield first + 1, paragraph.strip(), "\n".join(found).rstrip("\n") + "\n"
            paragraph = ""
            continue
        paragraph = line if at > 0 and not lines[at - 1] else f"{paragraph} {line}"
        at += 1


def copied(folder: str) -> Tuple[Path, Dict[str, str]]:
    """A copy of the repository's files as they stand, and an environment in which no toolchain is found."""
    clone = Path(folder, "clone")
    copy_files(clone)
    hidden = Path(folder, "bin")
    hidden.mkdir()
    (hidden / "rt").write_text("#!/bin/sh\necho 'no toolchain here' >&2\nexit 127\n")
    (hidden / "rt").chmod(0o755)
    return clone, {**os.environ, "PATH": f"{hidden}{os.pathsep}{os.environ['PATH']}"}


def has_release(clone: Path, environment: Dict[str, str]) -> bool:
    """Whether the copy has a program in dist/ that is of its sources; otherwise it gets one that is named, or that stands here."""
    found = outcome(["scripts/program", "--here"], folder=clone, environment=environment)
    shutil.rmtree(clone / "out", ignore_errors=True)
    if found.status == 0:
        return True
    (clone / BUILT).parent.mkdir(parents=True)
    shutil.copy2(program(), clone / BUILT)
    subprocess.run(["scripts/build", "--built"], cwd=clone, check=True)
    return False


def seconds_used() -> float:
    """What this has used of the processors' time, with all that it started and that has ended."""
    return sum(os.times()[:4])


class Reader:
    """Who does what a page says, step by step."""

    def __init__(self, clone: Path, environment: Dict[str, str], test: Cases):
        self.clone, self.environment, self.test = clone, environment, test
        self.printed: Optional[str] = None
        self.took: Optional[float] = None

    def tell(self, where: str, shows: str, fault: str) -> None:
        self.test.note(f"{where} {shows}", fault)

    def run(self, where: str, commands: str) -> None:
        """Runs commands in turn; what they print is compared by the next block."""
        began = seconds_used()
        ended = outcome(["sh", "-e", "-c", commands], folder=self.clone, environment=self.environment)
        took = seconds_used() - began
        self.took = took if self.took is None else self.took
        self.printed = ended.printed
        shows = commands.strip().split("\n")[0] + (" .." if commands.count("\n") > 1 else "")
        self.tell(where, f"{shows} ({took:.1f} s)", f"status {ended.status}: {ended.said.strip()}" if ended.status else "")

    def block(self, where: str, paragraph: str, text: str) -> bool:
        """Tries a block; answers whether it is one that can be tried."""
        inline = INLINE.findall(paragraph)
        is_file = IS_FILE.search(paragraph)
        if is_file:
            name = is_file[1]
            wanted = re.sub(r"\A(?://[^\n]*\n)+", "", (self.clone / name).read_text())
            self.tell(where, name, "" if text == wanted else "the file has another text")
        elif all(COMMAND.match(line) for line in text.splitlines()):
            self.run(where, text)
        elif PRINTS.search(paragraph) and (inline or self.printed is not None):
            if inline:
                self.run(where, "\n".join(inline) + "\n")
            self.tell(where, "what that prints", "" if text == self.printed else f"it printed {self.printed!r}")
            self.printed = None
        else:
            return False
        return True


def read(page: str, is_whole: bool, reader: Reader) -> None:
    """Does what a page says."""
    clone, before = reader.clone, Tally.tried
    for line, paragraph, text in blocks((clone / page).read_text()):
        if not reader.block(f"{page}:{line}", paragraph, text) and is_whole:
            reader.tell(f"{page}:{line}", text.split("\n")[0], "what is to be done with this block?")
    if Tally.tried == before:
        reader.tell(page, "no block", "nothing was tried")


def summary() -> str:
    return f"all {Tally.tried} as the pages say"


class Readme(Cases):
    """What a reader is told to do."""

    def test_pages(self) -> None:
        with tempfile.TemporaryDirectory() as folder:
            clone, environment = copied(folder)
            is_released = has_release(clone, environment)
            readers = [Reader(clone, environment, self) for _ in PAGES]
            for reader, (page, is_whole) in zip(readers, PAGES):
                read(page, is_whole, reader)
        first = readers[0].took
        if is_released and first is not None:
            fault = "" if first < FIRST_WITHIN else f"not within {FIRST_WITHIN} s"
            readers[0].tell(PAGES[0][0], f"the first answer, by dist/, in {first:.1f} s of a processor", fault)
        else:
            print("dist/ has no program of these sources: tried with another one")
