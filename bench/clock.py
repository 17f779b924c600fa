"""What is measured, each as a number: times in seconds, memory in bytes, machine instructions. A time is the least of several
tries, since whatever else the machine does only makes a try slower; the tries of all measurements take turns."""

import subprocess
import time
from functools import partial
from pathlib import Path
from typing import Any, Callable, Dict, Iterable, List, Optional, Tuple

import process
from files import AT_ADDRESS, BLOCKS, FUNCTIONS, PROGRAM, ROUNDS_OF_A_LOOP, UPGRADED_AMONG, WORK
from process import Word, number_in

STEPS = 10_000_000
# What the number of a sender is multiplied by: so that addresses ascend, or come in no order.
ASCENDING, SCATTERED = 1, 0x9E3779B97F4A7C15
PHASES = ("2", "3 and 4", "5 to 8", "9", "10 to 12", "12")
STREAMS = (
    "nothing", "helping", "small5", "large5", "small6", "large6", "structs390", "structs3900", "chain400", "chain3600",
    "chain4000", "empty400", "empty3600", "empty4000", "working", "mints1000", "mints10000", "empty4000mints", "large100",
    "large100mints", *(f"{kind}{count}" for count in UPGRADED_AMONG for kind in ("chain", "upgraded")),
)


# A measurement: its kind, and of what. The least of each is seconds, or of phases the seconds of each.
Key = Tuple[str, str]
Best = Dict[Key, Any]


class Clock:
    """Runs the programs of a folder."""

    def __init__(self, folder: Path):
        self.folder = folder
        self.program = folder / PROGRAM
        self.bench = folder / "crates/mv_bench/out/mv_bench"
        self.baseline = folder / "baseline"

    def lines(self, *words: Word) -> List[Tuple[int, ...]]:
        """The lines that a program prints, each as its numbers."""
        out = subprocess.run(words, check=True, capture_output=True, text=True, cwd=self.folder).stdout
        return [tuple(map(int, line.split())) for line in out.splitlines()]

    def phases(self, name: str, times: int) -> Dict[str, float]:
        """The least seconds of each phase of a module."""
        tries = self.lines(self.bench, "phases", f"{name}.module", f"{name}.certificate", str(times))
        return {phase: min(one[i] for one in tries) / 1e9 for i, phase in enumerate(PHASES)}

    def prove(self, name: str, times: int) -> float:
        return min(self.lines(self.bench, "prove", f"{name}.module", str(times)))[0] / 1e9

    def runs(self, bundle: str, first: str, run: str, times: int, every: int, stride: int = SCATTERED) -> List[Tuple[float, int]]:
        """The seconds of each so many runs, one after the other, and their steps."""
        words = f"{bundle}.bundle", f"{first}.run", f"{run}.run", str(times), str(every), str(stride)
        return [(spent / 1e9, steps) for spent, steps in self.lines(self.bench, "run", *words)]

    def work(self, name: str) -> float:
        """The least seconds of one run of many steps."""
        tries = self.runs("working", "owner" if name in AT_ADDRESS else "no_step", name, 2, 1)
        assert all(steps == STEPS for _, steps in tries), name
        seconds, _ = min(tries)
        return seconds

    def plain(self, name: str) -> float:
        """The same of the plain interpreter."""
        return self.lines(self.baseline, name, str(STEPS))[0][0] / 1e9

    def apply(self, stream: str) -> float:
        """The seconds of the processor that the program takes for a stream. The report goes to a file."""
        report = self.folder / "report.txt"
        with open(report, "wb") as out:
            used = process.used([self.program, "apply", f"{stream}.stream"], self.folder, out)
        count, word = (self.folder / f"{stream}.lines").read_text().split()
        last = report.read_text().splitlines()[-1:]
        assert count == "0" or last[0].startswith(f"{count} {word} "), (stream, last)
        return process.seconds_of(used)

    def memory(self, pieces: Iterable[bytes]) -> int:
        """The most memory that the program had once it has answered a stream, whose end it waits for."""
        with open(self.folder / "report.txt", "wb") as out:
            run = subprocess.Popen([self.program, "apply", "/dev/stdin"], stdin=subprocess.PIPE, stdout=out, cwd=self.folder)
            assert run.stdin is not None
            for piece in pieces:
                run.stdin.write(piece)
            run.stdin.flush()
            status = Path(f"/proc/{run.pid}/status")
            while "State:\tS" not in status.read_text():
                time.sleep(0.01)
            most = number_in(status.read_text(), r"VmHWM:\s+(\d+) kB")
            run.communicate()
        assert run.returncode == 0
        return most * 1024

    def instructions(self, *words: Word) -> Optional[int]:
        """The machine instructions of the program, or None where there is no valgrind."""
        return process.instructions([self.program, *words], self.folder)

    def mean(self, bundle: str, run: str, times: int, every: int) -> float:
        """The least of so many means of the seconds of so many runs."""
        seconds, _ = min(self.runs(bundle, run if bundle.endswith("60") else "no_step", run, times, every))
        return seconds / every

    def least(self, stream: str, tries: int) -> float:
        """The least seconds of so many tries of a stream."""
        return min(self.apply(stream) for _ in range(tries))

    def tasks(self) -> Dict[Key, Callable[[], Any]]:
        """Each measurement of time, and how it is taken once."""
        tasks: Dict[Key, Callable[[], Any]] = {}

        def add(key: Key, take: Callable[[], Any]) -> None:
            tasks[key] = take

        for size, times in ("small", 50), ("large", 5):
            for version in 5, 6:
                add(("phases", f"{size}{version}"), partial(self.phases, f"{size}{version}", times))
        for count in FUNCTIONS:
            add(("phases", f"mixed{count}"), partial(self.phases, f"mixed{count}", 5))
            add(("phases", f"edges{count}"), partial(self.phases, f"edges{count}", 1))
            add(("prove", f"mixed{count}"), partial(self.prove, f"mixed{count}", 5))
        for name in [f"blocks{count}" for count in BLOCKS] + [f"rounds{count}" for count in ROUNDS_OF_A_LOOP]:
            add(("prove", name), partial(self.prove, name, 2))
        for name in WORK:
            add(("work", name), partial(self.work, name))
            if name not in AT_ADDRESS and self.baseline.exists():
                add(("plain", name), partial(self.plain, name))
        add(("idle", "small"), partial(self.mean, "working", "no_step", 3, 5_000))
        add(("idle", "large"), partial(self.mean, "working60", "no_step60", 3, 5_000))
        for name in "mint", "unpack":
            add(("first", name), partial(self.mean, "working", name, 5, 2_000))
        for stream in STREAMS:
            tries = 4 if stream.startswith(("chain", "empty", "upgraded")) else 2
            add(("apply", stream), partial(self.least, stream, tries))
        return tasks

    def best(self, rounds: int) -> Best:
        """The least of each measurement over so many rounds."""
        best: Best = {}
        for _ in range(rounds):
            for key, take in self.tasks().items():
                now = take()
                if isinstance(now, dict) and key in best:
                    best[key] = {phase: min(now[phase], best[key][phase]) for phase in now}
                else:
                    best[key] = now if key not in best else min(best[key], now)
        return best

    def mint_behind(self, values: int, stride: int) -> float:
        """The least seconds of a mint behind so many: of the means of 10,000."""
        before = values // 10_000
        return min(self.runs("working", "no_step", "mint", before + 5, 10_000, stride)[before:])[0] / 10_000

    def plain_insertion(self, values: int, stride: int) -> Optional[float]:
        """The same of an insertion into a plain tree of Rust's library, or None where there is no rustc."""
        if not self.baseline.exists():
            return None
        return min(self.lines(self.baseline, "tree", str(values), str(stride)))[0] / 1e9 / 10_000
