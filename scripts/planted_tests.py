#!/usr/bin/env python3
"""Runs tests of a copy of the repository for plant-python, each in a process of its own: standard input has a list of them, and each
line of standard output says that one begins, or how it ended. Without a list, prints those that there are.
usage: scripts/planted_tests.py FOLDER < LIST    FOLDER has the unit tests, as tools"""

import importlib
import json
import os
import resource
import subprocess
import sys
import time
import unittest
from typing import IO, Callable, Iterator, List, NamedTuple

import reached
from common import TOP, arguments, use_tests

use_tests()

import test_mistakes  # noqa: E402

UNIT, MISTAKE, SCRIPT = "unit", "mistake", "script"
# So much address space a test may use: a mutant may ask for memory without end.
MOST_BYTES = 3 << 30
# What most tests import; a mutant may not let it be imported.
COMMON = "movetext.making", "movetext.disassembler", "movetext.testing"


class Test(NamedTuple):
    """A test: a method of a unit test by its name, a mistake by its place, or a script with its words."""

    kind: str
    name: str


def units(suite: unittest.TestSuite) -> Iterator[Test]:
    for it in suite:
        if isinstance(it, unittest.TestSuite):
            yield from units(it)
        else:
            yield Test(UNIT, it.id())


def known(folder: str) -> List[Test]:
    """The unit tests of a folder, and the mistakes for that of the text tools."""
    found = list(units(unittest.defaultTestLoader.discover(folder, top_level_dir=folder)))
    count = len(mistakes()) if folder.endswith("tools") else 0
    return found + [Test(MISTAKE, str(number)) for number in range(count)]


def mistakes() -> List[test_mistakes.Mistake]:
    return [one for mistakes in test_mistakes.every_file().values() for one in mistakes]


def tried(test: Test, told: List[test_mistakes.Mistake]) -> bool:
    """Whether a test passes."""
    if test.kind == UNIT:
        result = unittest.TestResult()
        unittest.defaultTestLoader.loadTestsFromName(test.name).run(result)
        return result.wasSuccessful() and result.testsRun > 0
    if test.kind == MISTAKE:
        one = told[int(test.name)]
        return test_mistakes.made(one) == (one.status, one.wanted)
    return subprocess.run(test.name.split(), cwd=TOP).returncode == 0


def in_own_process(number: int, call: Callable[[], bool]) -> bool:
    """Whether something answers True, in a process that is gone afterwards."""
    process = os.fork()
    if process:
        return os.waitpid(process, 0)[1] == 0
    status = 1
    try:
        with open(os.devnull, "rb") as nothing:
            os.dup2(nothing.fileno(), 0)
        if reached.TO in os.environ:
            os.environ[reached.TEST] = str(number)
            reached.begin()
        status = 0 if call() else 1
    finally:
        os._exit(status)


def load(tests: List[Test]) -> None:
    """Imports what the tests import, so that each needn't."""
    names = {it.name.rsplit(".", 2)[0] for it in tests if it.kind == UNIT}
    for name in [*sorted(names), *(COMMON if any(it.kind == MISTAKE for it in tests) else ())]:
        try:
            importlib.import_module(name)
        except BaseException:  # the tests will tell
            pass


def run(tests: List[Test], told_to: IO[str]) -> None:
    """Runs tests up to the first that fails."""
    print("begin 0", file=told_to)
    load(tests)
    told = mistakes() if any(it.kind == MISTAKE for it in tests) else []
    for number, test in enumerate(tests):
        print(f"begin {number}", file=told_to)
        began = time.monotonic()
        passes = in_own_process(number, lambda: tried(test, told))
        print(f"{'passed' if passes else 'failed'} {number} {time.monotonic() - began:.3f}", file=told_to)
        if not passes:
            break


def main() -> int:
    words = arguments(__doc__)
    words.add_argument("folder", metavar="FOLDER", help="the folder of the unit tests")
    given = words.parse_args()
    folder = str(TOP / given.folder)
    sys.path.insert(0, folder)
    os.chdir(folder)
    listed = sys.stdin.read()
    if not listed:
        print(json.dumps(known(folder)))
        return 0
    resource.setrlimit(resource.RLIMIT_AS, (MOST_BYTES, MOST_BYTES))
    kept = os.dup(1)
    for number in 1, 2:
        with open(os.devnull, "wb") as nothing:
            os.dup2(nothing.fileno(), number)
    run([Test(*it) for it in json.loads(listed)], os.fdopen(kept, "w", 1))
    return 0


if __name__ == "__main__":
    sys.exit(main())
