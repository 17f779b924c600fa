"""Runs of programs that are measured: by the processor's time and memory, and by machine instructions."""

import os
import re
import resource
import shutil
import subprocess
import sys
from pathlib import Path
from typing import IO, Optional, Sequence, Union

Word = Union[str, Path]

# What a small process does that starts a program: it says how many KB that one held at most.
STARTS = """import os, resource, sys
nowhere = os.open(os.devnull, os.O_WRONLY)
started = os.posix_spawn(sys.argv[1], sys.argv[1:], os.environ, file_actions=[(os.POSIX_SPAWN_DUP2, nowhere, 1)])
_, status, counted = os.wait4(started, 0)
sys.exit(status != 0) if status else print(counted.ru_maxrss)"""


def used(words: Sequence[Word], folder: Path, out: Union[int, IO[bytes]] = subprocess.DEVNULL) -> resource.struct_rusage:
    """What the system counted of a program, which has to end well."""
    process = subprocess.Popen(words, cwd=folder, stdout=out)
    counted: resource.struct_rusage
    _, status, counted = os.wait4(process.pid, 0)
    process.returncode = os.WEXITSTATUS(status) if os.WIFEXITED(status) else 128 + os.WTERMSIG(status)
    assert process.returncode == 0, words
    return counted


def seconds_of(counted: resource.struct_rusage) -> float:
    """The processor's seconds."""
    return counted.ru_utime + counted.ru_stime


def printed(words: Sequence[Word], folder: Path) -> str:
    """What a program prints, which has to end well."""
    return subprocess.run(words, check=True, stdout=subprocess.PIPE, cwd=folder, text=True).stdout


def memory(words: Sequence[Word], folder: Path) -> int:
    """The most KB of memory that a program held, which has to end well. Another process starts it, since the system counts what the one
    that starts a program held as that program's, and this one may hold much: GNU's `time` of 1 MB, if it is there, otherwise one of 8."""
    if shutil.which("time"):
        told = folder / "memory.told"
        subprocess.run(["time", "-f", "%M", "-o", told, *words], check=True, stdout=subprocess.DEVNULL, cwd=folder)
        return int(told.read_text().split()[-1])
    starts: Sequence[Word] = [sys.executable, "-I", "-S", "-c", STARTS, *words]
    return int(subprocess.run(starts, check=True, stdout=subprocess.PIPE, cwd=folder).stdout)


def instructions(words: Sequence[Word], folder: Path) -> Optional[int]:
    """The machine instructions of a program, or None where there is no valgrind."""
    if not shutil.which("valgrind"):
        return None
    out = folder / "callgrind.out"
    command: Sequence[Word] = ["valgrind", "--tool=callgrind", f"--callgrind-out-file={out}", *words]
    subprocess.run(command, check=True, stdout=subprocess.DEVNULL, stderr=subprocess.DEVNULL, cwd=folder)
    return number_in(out.read_text(), r"^(?:summary|totals): (\d+)")


def number_in(text: str, pattern: str) -> int:
    """The number that a pattern finds in a text."""
    found = re.search(pattern, text, re.MULTILINE)
    assert found is not None, pattern
    return int(found[1])


def difference(more: Optional[int], less: Optional[int]) -> Optional[int]:
    """How many more one count is than another, where both were counted."""
    return None if more is None or less is None else more - less
