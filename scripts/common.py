"""What the scripts have in common: where things stand, the program, the text tools, and the outcome of a command."""

import argparse
import os
import random
import re
import shutil
import subprocess
import sys
from pathlib import Path
from typing import Dict, Mapping, NamedTuple, Optional, Sequence, Tuple, Union

TOP = Path(__file__).resolve().parent.parent
CRATES = TOP / "crates"
TESTS = CRATES / "moveledger_tests/src/tests"
COMMAND_TESTS = CRATES / "moveledger_command_tests/src/tests"
EXAMPLES = TOP / "examples"
TOOLS = TOP / "tools"
PYTHON_TESTS = TOP / "tests/python"
# Where a build leaves the program, from the top.
BUILT = "crates/moveledger_program/out/moveledger_program"

# What scripts/try-guards sets for the scripts that it tries: with the first wrong line that has this pattern they end, since what is asked of
# them is told then; and for so many seconds they wait for what a broken program keeps from coming.
UNTIL = os.environ.get("UNTIL")
PATIENCE = int(os.environ.get("PATIENCE", "600"))

# The status by which a script says that it was left out, since something isn't installed; its last line says what.
LEFT_OUT = 77

Word = Union[str, Path]


def use_tools() -> None:
    """Lets the scripts import the package movetext."""
    if str(TOOLS) not in sys.path:
        sys.path.insert(0, str(TOOLS))


def use_tests() -> None:
    """Lets the scripts import the modules of tests/python."""
    if str(PYTHON_TESTS) not in sys.path:
        sys.path.insert(0, str(PYTHON_TESTS))


def arguments(description: Optional[str]) -> argparse.ArgumentParser:
    """A reader of the command line that says for --help what a script says of itself, without the usage that it makes itself."""
    about = (description or "").partition("\nusage:")[0]
    return argparse.ArgumentParser(description=about, formatter_class=argparse.RawDescriptionHelpFormatter, allow_abbrev=False)


def add_seed(parser: argparse.ArgumentParser) -> None:
    parser.add_argument("--seed", help="what is made at random depends on it; the same seed makes the same again")


def seed_of(given: argparse.Namespace) -> str:
    """The seed that was given, otherwise another one each time. Prints it, so that what was made can be made again."""
    seed: str = given.seed or str(random.SystemRandom().randrange(10 ** 6))
    print(f"seed {seed}", flush=True)
    return seed


def program(only_here: bool = False) -> Optional[str]:
    """The path of a program of these sources: the one that was built here, or that of dist/, or one that is built now. With
    `only_here` none is built, and None is answered where there is none."""
    words: Sequence[Word] = [TOP / "scripts/program", *(["--here"] if only_here else [])]
    found = subprocess.run(words, stdout=subprocess.PIPE, text=True)
    if found.returncode and not only_here:
        sys.exit(found.returncode)
    return found.stdout.strip() or None


class Outcome(NamedTuple):
    """How a command ended, and what it wrote to standard output and standard error."""

    status: int
    printed: str
    said: str


def outcome(words: Sequence[Word], given: bytes = b"", folder: Path = TOP, environment: Optional[Mapping[str, str]] = None) -> Outcome:
    """Runs a command, which reads what is given, and answers how it ended."""
    ended = subprocess.run(words, input=given, stdout=subprocess.PIPE, stderr=subprocess.PIPE, cwd=folder, env=environment)
    return Outcome(ended.returncode, ended.stdout.decode("utf-8", "replace"), ended.stderr.decode("utf-8", "replace"))


def is_enough(line: str) -> bool:
    """Whether nothing more is to be tried once this wrong line is told."""
    return UNTIL is not None and re.search(UNTIL, line, re.M) is not None


class Comparison:
    """Compares what is found with what is wanted, prints a line for each, and counts those that differ."""

    def __init__(self, name: str):
        self.name = name
        self.tried = self.wrong = 0

    def note(self, shows: str, fault: str = "") -> bool:
        """Notes what was tried, and what is wrong with it, if anything. Answers whether it is right."""
        self.tried += 1
        self.wrong += bool(fault)
        line = f"{'wrong' if fault else 'ok   '} {shows}{': ' + fault if fault else ''}"
        print(line, flush=True)
        if fault and is_enough(line):
            sys.exit(1)
        return not fault

    def same(self, shows: str, found: object, wanted: object) -> bool:
        return self.note(shows, "" if found == wanted else f"{found!r}, not {wanted!r}")

    def end(self, passed: str) -> int:
        """Prints how it came out, and answers the status of the script."""
        print(f"{self.name}: {self.wrong} of {self.tried} wrong" if self.wrong or not self.tried else f"{self.name}: {passed}")
        return 1 if self.wrong or not self.tried else 0


def name_of(line: str) -> str:
    """What the words of a quick script go by: its name, or that of the test that scripts/test runs."""
    first, *rest = line.split()
    return rest[0].partition(".")[0] if first == "test" else first


def crates(with_static: bool = True) -> Dict[str, Tuple[str, ...]]:
    """Each crate of crates.txt with all that it uses, in the order in which they stand there; with or without those that are built as
    a static library for other languages."""
    lines = [line.partition(":") for line in (TOP / "crates.txt").read_text().splitlines() if not line.startswith("#")]
    return {name.split()[0]: tuple(uses.split()) for name, colon, uses in lines if colon and (with_static or "staticlib" not in name)}


def printed(*words: Word) -> str:
    """What a command prints, without the blanks around it. Raises where that ends badly."""
    return subprocess.run(words, cwd=TOP, stdout=subprocess.PIPE, check=True, text=True).stdout.strip()


def copy_files(folder: Path) -> None:
    """Copies the repository's files as they stand into a folder, without what git leaves out."""
    words = ["git", "ls-files", "-z", "--cached", "--others", "--exclude-standard"]
    names = subprocess.run(words, cwd=TOP, stdout=subprocess.PIPE, check=True).stdout.decode().split("\0")
    for name in filter(None, names):
        if os.path.lexists(TOP / name):
            (folder / name).parent.mkdir(parents=True, exist_ok=True)
            shutil.copy2(str(TOP / name), str(folder / name), follow_symlinks=False)


def has(command: str) -> bool:
    return shutil.which(command) is not None


def processors() -> int:
    """How many processors this process may use."""
    return len(os.sched_getaffinity(0))
