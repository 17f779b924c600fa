"""Builds the libraries of a repository where no check has left work to begin with, several crates at a time, each once those that
it uses are built. A library is proved as the gate proves it: in one go, and of the libraries below it is read what they state and not
their proofs. That takes a third less of the processors than a build by `rt lib`, which leaves work for later checks of the same crate.
The crates that the longest chain of others waits for have the processors first, the others what these leave.
usage: scripts/lanes.py NAME JOBS    builds one library, over those below it as they were built"""

import argparse
import contextlib
import importlib.util
import os
import shutil
import subprocess
import sys
import time
from typing import IO, Any, Callable, Dict, Iterator, List, Mapping, Sequence

TOP = os.path.dirname(os.path.dirname(os.path.realpath(__file__)))
PARTS = "src", "specs", "proofs"
# A check loads its libraries and ends on one processor, so that there are more jobs than processors.
JOBS_A_PROCESSOR = 2
# How many jobs a crate gets that most waits for, one beside it, and one that gives way. A check with several jobs takes a third more of
# the processors than one with a single job.
MOST_JOBS, JOBS_BESIDE, JOBS_OF_ONE_THAT_GIVES_WAY = 4, 2, 1
# What a check takes before its first proof counts as so many bytes of its crate.
BEFORE = 50_000
# A crate gives way (see nice(1)), and waits for a free processor, where what will be built before it is wanted is more than this many
# times its own size, and more so where that is more than so many bytes.
FAR, MUCH = 2, 1_500_000
GIVES_WAY, GIVES_MUCH_WAY = 5, 15
# The free memory, in kB, below which no other crate is begun beside one.
ROOM = 5_000_000


def toolchain() -> Any:
    """The part of `rt` that calls the compiler, which lies beside it."""
    folder = os.path.dirname(os.path.realpath(shutil.which("rt") or "rt"))
    spec = importlib.util.spec_from_file_location("rtlib", f"{folder}/rtlib.py")
    assert spec is not None and spec.loader is not None
    made = importlib.util.module_from_spec(spec)
    spec.loader.exec_module(made)
    return made


@contextlib.contextmanager
def stamps_once(rtlib: Any) -> Iterator[None]:
    """For a while, each crate's stamp is reckoned once. It has the stamps of the crates that it uses, and by itself it is reckoned anew on
    each of the thousands of ways that lead to a crate at the bottom."""
    reckoned: Callable[[Any], str] = rtlib.Crate.stamp
    known: Dict[str, str] = {}

    def stamp(crate: Any) -> str:
        if crate.folder not in known:
            known[crate.folder] = reckoned(crate)
        return known[crate.folder]

    rtlib.Crate.stamp = stamp
    try:
        yield
    finally:
        rtlib.Crate.stamp = reckoned


class Crate:
    """A library of the repository: those that it uses, its sources' bytes, and the bytes of the longest chain that waits for it, with it
    and without it."""

    def __init__(self, name: str, used: List[str]):
        self.name, self.used = name, used
        self.behind = self.waiting = 0
        folders = [f"crates/{name}/{it}" for it in PARTS]
        self.size = BEFORE + sum(os.path.getsize(f"{at}/{it}") for top in folders for at, _, names in os.walk(top) for it in names)


def libraries(uses: Mapping[str, List[str]], program: str) -> Dict[str, Crate]:
    """The libraries that the program stands on, each by its name, after those that it uses, with what waits for it reckoned."""
    crates = {name: Crate(name, used) for name, used in uses.items() if name != program}
    for crate in reversed(list(crates.values())):
        crate.behind = crate.waiting + crate.size
        for it in crate.used:
            crates[it].waiting = max(crates[it].waiting, crate.behind)
    return crates


def has_room() -> bool:
    """Whether there is memory for another crate."""
    with open("/proc/meminfo", encoding="ascii") as lines:
        return next(int(it.split()[1]) for it in lines if it.startswith("MemAvailable:")) > ROOM


class Lane:
    """A build of one crate."""

    def __init__(self, crate: Crate, jobs: int, gives_way: int, log: IO[bytes]):
        self.crate, self.jobs, self.gives_way = crate, jobs, gives_way
        words = ["nice", "-n", str(gives_way), sys.executable, os.path.realpath(__file__)]
        self.run = subprocess.Popen([*words, crate.name, str(self.jobs)], stdin=subprocess.DEVNULL, stdout=log, stderr=log)

    def end(self) -> None:
        """Gives the build up; its compiler ends with it."""
        self.run.terminate()
        self.run.wait()


def way_given(crate: Crate, running: Sequence[Lane], left: Sequence[Crate]) -> int:
    """How much way a crate gives: none where it is wanted soon after those that are wanted now, or after the next one of the longest
    chain."""
    now = [it.crate.waiting for it in running if not it.gives_way] or [left[0].waiting]
    before = max(now) - crate.waiting
    return 0 if before <= FAR * crate.size else GIVES_WAY if before < MUCH else GIVES_MUCH_WAY


def are_new(uses: Mapping[str, List[str]], program: str) -> bool:
    """Whether no check has left work of a library here."""
    return not any(os.path.exists(f"crates/{it}/out/incremental") for it in uses if it != program)


def build(uses: Mapping[str, List[str]], program: str, processors: int, log: IO[bytes],
          tell: Callable[[Sequence[str]], object]) -> bool:
    """Builds the libraries that aren't built, and returns whether all are. `tell` is called now and then with the names of those that are."""
    rtlib, crates = toolchain(), libraries(uses, program)
    of_rt = {name: rtlib.Crate(f"{TOP}/crates/{name}", TOP, {}) for name in crates}
    with_lock = rtlib.lock(of_rt.values())
    with stamps_once(rtlib):
        built = [name for name, it in of_rt.items() if it.is_built()]
    running: List[Lane] = []
    well = True
    left = sorted((it for it in crates.values() if it.name not in built), key=lambda it: -it.behind)
    try:
        while running or (left and well):
            for crate in [it for it in left if well and all(used in built for used in it.used)]:
                is_idle, way = sum(it.jobs for it in running) < JOBS_A_PROCESSOR * processors, way_given(crate, running, left)
                if (is_idle or not way) and (not running or has_room()):
                    at_once = MOST_JOBS if crate is left[0] else JOBS_OF_ONE_THAT_GIVES_WAY if way else JOBS_BESIDE
                    running.append(Lane(crate, at_once, way, log))
                    left.remove(crate)
            time.sleep(0.2)
            tell(built)
            for lane in [it for it in running if it.run.poll() is not None]:
                running.remove(lane)
                well = lane.run.returncode == 0 and well
                built.append(lane.crate.name)
    finally:
        for lane in running:
            lane.end()
        for it in with_lock:
            os.close(it)
    return well


def prove(name: str, jobs: str) -> int:
    """Proves and builds one library, and marks it as built from its sources, by which `rt` knows it again. Returns the status."""
    rtlib = toolchain()
    crate = rtlib.Crate(f"{TOP}/crates/{name}", TOP, {})
    folder = os.path.dirname(crate.rlib)
    with stamps_once(rtlib):
        stamp = crate.stamp()
    shutil.rmtree(folder, ignore_errors=True)
    os.makedirs(folder)
    words = crate.words(["--jobs", jobs], keeps=False)
    status: int = crate.call(rtlib.RATTLE, "build", *words, "--statements", "-o", crate.rlib)
    with stamps_once(rtlib):
        is_same = stamp == crate.stamp()
    if not status and is_same:
        with open(f"{folder}/stamp", "w", encoding="utf-8") as mark:
            mark.write(stamp)
    return status


def main() -> int:
    words = argparse.ArgumentParser(description="Builds one library, over those below it as they were built")
    words.add_argument("name", metavar="NAME")
    words.add_argument("jobs", metavar="JOBS")
    given = words.parse_args()
    return prove(given.name, given.jobs)


if __name__ == "__main__":
    sys.exit(main())
