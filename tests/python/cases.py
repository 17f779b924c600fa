"""What the tests here share: cases that are told one by one, what `scripts/test` was given, and the program that is tried."""

import sys
import tempfile
import unittest
from functools import lru_cache
from pathlib import Path
from typing import Any, Callable, Iterable, Iterator, Optional, Sequence, Tuple, Type

if "common" not in sys.modules:
    sys.path.insert(0, str(Path(__file__).resolve().parents[2] / "scripts"))

import common  # noqa: E402

common.use_tools()

# What each case shows, what is found, and what is wanted.
Found = Iterator[Tuple[str, object, object]]


class Given:
    """What `scripts/test` was given, by the names of its options; the numbers here are those that it has by default."""

    program: Optional[str] = None
    seed: str = "1"
    modules = 1_000
    texts = 10_000
    random = 3_000
    altered = 10_000
    runs = 2_000
    files: Sequence[Path] = ()


class Enough(Exception):
    """What is asked of the test is told, and nothing more is to be tried."""


class Tally:
    """How many cases were tried, and how many of them are wrong."""

    tried = wrong = 0


@lru_cache(maxsize=None)
def program() -> str:
    """The program that is tried: the one that was given, otherwise that of these sources, which is built where there is none."""
    return str(Path(Given.program or common.program() or "").resolve())


class Cases(unittest.TestCase):
    """Tests whose cases are counted, and told as they come, each in a line; all are tried, though one is wrong."""

    def note(self, shows: str, fault: str = "") -> bool:
        """Notes what was tried, and what is wrong with it, if anything. Answers whether it is right."""
        Tally.tried += 1
        Tally.wrong += bool(fault)
        line = f"{'wrong' if fault else 'ok   '} {shows}{': ' + fault if fault else ''}"
        print(line, flush=True)
        if fault and common.is_enough(line):
            raise Enough
        with self.subTest(shows):
            if fault:
                self.fail(fault)
        return not fault

    def same(self, shows: str, found: object, wanted: object) -> bool:
        return self.note(shows, "" if found == wanted else f"{found!r}, not {wanted!r}")

    def each(self, cases: Found) -> None:
        """Tries cases, as they come. Where there are none here, that is told, and counts for nothing."""
        before = Tally.tried
        for shows, found, wanted in cases:
            self.same(shows, found, wanted)
        if Tally.tried == before:
            self.skipTest("it has no case here")


def add_tests(kind: Type[Cases], parts: Iterable[Callable[[Any], Found]], folder_as: Callable[[str], Any] = str) -> None:
    """Gives a class a test for each of these functions, by its name, with a new folder for each."""
    for cases_of in parts:
        def tried(self: Cases, cases_of: Callable[[Any], Found] = cases_of) -> None:
            with tempfile.TemporaryDirectory() as folder:
                self.each(cases_of(folder_as(folder)))

        tried.__doc__ = cases_of.__doc__
        setattr(kind, f"test_{cases_of.__name__.replace('cases_of_', '')}", tried)
