"""What the library costs beside the program: mints through its C calls, all in one call and each in a call of its own, in machine
instructions and seconds beside those of `moveledger apply`, each less what an empty stream takes; and how long a ledger of 250,000
coins takes to be saved and loaded by it.

usage: python3 bench/embedding.py FOLDER [LIBRARY [PROGRAM]]    FOLDER is kept; LIBRARY is the folder of libmoveledger.a, that where
bindings/library puts it if none is given. It needs cc, and counts machine instructions where there is a valgrind."""

import argparse
import subprocess
from pathlib import Path
from typing import List, Optional, Tuple

import beside
from beside import Side
from files import PROGRAM
from process import Word, difference

HERE = Path(__file__).resolve().parent
TOP = HERE.parent
BUILT = TOP / "out/library"
AIM = "1.30 or less"
KEPT = 250_000
WAYS = {"once": "all in one call", "each": "a call for each"}


def compiled(folder: Path, library: Path, name: str = "embedding") -> Path:
    """The measuring program of this name."""
    made = folder / name
    words: List[Word] = ["-std=c11", "-O2", "-Wall", "-Wextra", "-I", TOP / "bindings/c", "-o", made, HERE / f"{name}.c"]
    subprocess.run(["cc", *words, library / "libmoveledger.a"], check=True)
    return made


def mints(n: int) -> List[bytes]:
    """So many records that mint, behind the one that publishes."""
    made = dict(beside.streams())[f"{beside.MINTS * 2:,} mints"]
    return made(1)[:1] + made(-(-n // beside.MINTS))[1 : n + 1]


def spent(side: Side, way: str, stream: str) -> Tuple[Optional[int], float]:
    """The machine instructions of a way to answer a stream, or None, and the seconds, each less what an empty stream takes."""
    counts = [side.instructions([way, name]) for name in (stream, "nothing.stream")]
    times = [side.seconds([way, name]) for name in (stream, "nothing.stream")]
    return difference(*counts), times[0] - times[1]


def tell_mints(folder: Path, program: Path, measuring: Path) -> None:
    """Prints a line for each way of answering them."""
    count = beside.MINTS * 2
    (folder / "mints.stream").write_bytes(b"".join(mints(count)))
    (folder / "nothing.stream").write_bytes(b"")
    report = Side(folder, program).printed(["apply", "mints.stream"])
    of_program = spent(Side(folder, program), "apply", "mints.stream")
    for way, words in WAYS.items():
        side = Side(folder, measuring)
        told = side.printed([way, "mints.stream"]).split()
        assert told == [b"%d" % (count + 1), b"%d" % len(report)], f"{way}: {told}, not {count + 1} records and {len(report)} bytes"
        of_library = spent(side, way, "mints.stream")
        line = f"{of_library[1]:.3f} s by the clock, the program {of_program[1]:.3f} s"
        ours, wanted = of_library[0], of_program[0]
        if ours is not None and wanted is not None:
            line += f"; {ours:,} machine instructions, the program {wanted:,}, {ours / wanted:.2f} times as many"
        print(f"embedding: {count:,} mints, {words}: {line} (aim: {AIM})", flush=True)


def tell_kept(folder: Path, measuring: Path) -> None:
    """Prints how long a ledger takes to be saved and loaded."""
    (folder / "kept.stream").write_bytes(b"".join(mints(KEPT)))
    tries = [[float(word) for word in Side(folder, measuring).printed(["kept", "kept.stream"]).split()] for _ in range(beside.TRIES)]
    saving, loading, size = (min(column) for column in zip(*tries))
    print(f"embedding: {KEPT:,} coins: saved as {size / 1e6:.1f} MB in {saving:.3f} s of the processor, "
          f"loaded in {loading:.3f} s", flush=True)


def main() -> None:
    words = argparse.ArgumentParser(description=__doc__, formatter_class=argparse.RawDescriptionHelpFormatter)
    words.add_argument("folder", type=Path)
    words.add_argument("library", type=Path, nargs="?", default=BUILT)
    words.add_argument("program", type=Path, nargs="?", default=TOP / PROGRAM)
    asked = words.parse_args()
    asked.folder.mkdir(parents=True, exist_ok=True)
    folder = asked.folder.resolve()
    measuring = compiled(folder, asked.library.resolve())
    tell_mints(folder, asked.program.resolve(), measuring)
    tell_kept(folder, measuring)


if __name__ == "__main__":
    main()
