"""How long saving and loading take, and how much memory: of ledgers of many modules and of many stored values, and of twice as
many. A time is the processor's, the least of several tries, beside what the program takes for nothing.

usage: python3 bench/saved.py PROGRAM FOLDER    FOLDER has what `bench/run` writes"""

import subprocess
import sys
from pathlib import Path
from typing import Callable, Dict, Iterable, Sequence, Tuple

import files
import process
from process import Word

TRIES = 3
MODULES = 2_000, 4_000
VALUES = 250_000, 500_000
AIMS = {"save": "0.1 s or less", "load": "0.3 s or less"}


class Saved:
    """Runs the program over ledgers in a folder."""

    def __init__(self, program: Path, folder: Path):
        self.program, self.folder = Path(program).resolve(), Path(folder)
        self.nothing = self.spent()

    def spent(self, *options: str, stream: str = "nothing.stream") -> Tuple[float, int]:
        """The least seconds of the processor that the program takes, and the most memory that it had, in bytes."""
        tries = []
        for _ in range(TRIES):
            used = process.used([self.program, "apply", *options, stream], self.folder)
            tries.append((process.seconds_of(used), used.ru_maxrss * 1024))
        return min(seconds for seconds, _ in tries), max(memory for _, memory in tries)

    def ledger(self, name: str, pieces: Iterable[bytes]) -> int:
        """Saves the ledger that records leave, and gives its file's size."""
        stream = self.folder / f"{name}.records"
        with open(stream, "wb") as out:
            out.writelines(pieces)
        words: Sequence[Word] = [self.program, "apply", "--save", f"{name}.ledger", stream.name]
        subprocess.run(words, check=True, cwd=self.folder, stdout=subprocess.DEVNULL)
        stream.unlink()
        return (self.folder / f"{name}.ledger").stat().st_size

    def times(self, name: str) -> Tuple[Dict[str, float], int, int]:
        """The seconds of loading a ledger and of saving it, and the memory of each."""
        load, loading = self.spent("--load", f"{name}.ledger")
        both, saving = self.spent("--load", f"{name}.ledger", "--save", f"{name}.again")
        same = (self.folder / f"{name}.ledger").read_bytes() == (self.folder / f"{name}.again").read_bytes()
        assert same, f"{name}: what was loaded isn't saved as it was"
        (self.folder / f"{name}.again").unlink()
        return {"load": load - self.nothing[0], "save": both - load}, loading, saving


def tell_ledgers(saved: Saved, what: str, counts: Sequence[int], pieces: Callable[[int], Iterable[bytes]]) -> None:
    """Prints what ledgers of so many take."""
    found = []
    for count in counts:
        name = f"{what.replace(' ', '-')}{count}"
        size = saved.ledger(name, pieces(count))
        times, loading, saving = saved.times(name)
        found.append(times)
        small = "values" in what and count == counts[0]
        told = ", ".join(f"{verb} in {spent:.3f} s" + (f" (aim: {AIMS[verb]})" if small else "") for verb, spent in times.items())
        print(f"saved: {count} {what} in {size / 1e6:.1f} MB: {told}; {loading / 1e6:.0f} MB of memory to load, {saving / 1e6:.0f} to "
              f"load and save", flush=True)
    for verb in found[0]:
        print(f"saved: to {verb} twice as many {what} takes {found[1][verb] / found[0][verb]:.2f} times the time (aim: 2.2 or less)",
              flush=True)


def tell(program: Path, folder: Path) -> None:
    """Prints a line for each measurement."""
    saved, folder = Saved(program, folder), Path(folder)
    chain = [files.record(1, payload) for payload in files.chained(folder)]
    tell_ledgers(saved, "modules in chains", MODULES, lambda count: chain[:count])
    tell_ledgers(saved, "stored values", VALUES, lambda count: files.many_mints(folder, count))


if __name__ == "__main__":
    tell(*map(Path, sys.argv[1:]))
