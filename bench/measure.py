"""Writes the inputs of the measurements into a folder, or measures there and prints a line for each."""

import sys
from pathlib import Path
from typing import List, Optional, Sequence

import beside
import costs
import growth
import files
import memory
import runs
import saved
from clock import ASCENDING, SCATTERED, STEPS, Best, Clock
from files import (BLOCKS, CHAIN, CHAINED, FUNCTIONS, LARGE_FEW, LARGE_MANY, ROUNDS_OF_A_LOOP, STRUCTS, UPGRADED_AMONG,
                   UPGRADES, WORK)
from inputs import BEGINNING
from process import difference

ROUNDS = 3
VALUES = 250_000
MODULES = 4_096

AIMS = {"sums": "220"}


def tell(text: str, aim: Optional[str] = None) -> None:
    print(text + (f" (aim: {aim})" if aim else ""), flush=True)


def micro(seconds: float) -> str:
    return f"{seconds * 1e6:.1f} us" if seconds < 0.01 else f"{seconds * 1e3:.1f} ms"


def instructions(name: str) -> int:
    """How many instructions a module has."""
    return files.measured_modules()[name].instructions


def sizes(folder: Path, *names: str) -> List[int]:
    return [(folder / f"{name}.module").stat().st_size for name in names]


def tell_linear(folder: Path, what: str, small: str, large: str, spent: Sequence[float]) -> None:
    """What two modules take, where it is to grow as their bytes do."""
    few, many = sizes(folder, small, large)
    tell(f"{what}: {few} bytes in {micro(spent[0])}, {many} bytes in {micro(spent[1])}: {many / few:.1f} times the bytes take "
         f"{spent[1] / spent[0]:.1f} times the time", f"{many / few:.1f}, linear")


def tell_modules(folder: Path, best: Best) -> None:
    for version in 5, 6:
        names = f"small{version}", f"large{version}"
        both = [best["phases", name] for name in names]
        tell_linear(folder, f"decode, version {version}", *names, [phases["2"] for phases in both])
        speeds = [f"{size / phases['2'] / 1e6:.0f} MB/s" for size, phases in zip(sizes(folder, *names), both)]
        tell(f"decode, version {version}: {' and '.join(speeds)}", "400 or more")
        rules = [phases["3 and 4"] + phases["5 to 8"] + phases["12"] for phases in both]
        tell_linear(folder, f"phases 3 to 8 and 12, version {version}", *names, rules)
    phases = ", ".join(f"{phase} {micro(spent)}" for phase, spent in best["phases", "large5"].items())
    tell(f"phases of {sizes(folder, 'large5')[0]} bytes of version 5: {phases}")


def tell_publishing(folder: Path, best: Best, clock: Clock) -> None:
    def spent(name: str) -> float:
        return float(best["apply", name] - best["apply", "helping"])

    few, many = (f"structs{count}" for count in STRUCTS)
    tell_linear(folder, "publish, all families", "small5", "large5", [spent("small5"), spent("large5")])
    tell_linear(folder, f"publish, {STRUCTS[0]} and {STRUCTS[1]} structs alone", few, many, [spent(few), spent(many)])
    tell(f"publish: {sizes(folder, 'large5')[0] / spent('large5') / 1e6:.1f} MB/s")
    counted = difference(*(clock.instructions("apply", f"{name}.stream") for name in ("large5", "small5")))
    if counted is None:
        tell("publish: machine instructions aren't counted, since there is no valgrind")
        return
    bytecode = instructions("large5") - instructions("small5")
    tell(f"publish: {counted / bytecode:.0f} machine instructions for each of {bytecode} bytecode instructions, "
         f"the large module's beyond the small one's", "900 or fewer")


def tell_growth(what: str, of: str, counts: Sequence[int], spent: Sequence[float]) -> None:
    times = ", ".join(f"{count} {of} in {micro(one)}" for count, one in zip(counts, spent))
    factor = counts[-1] / counts[0]
    tell(f"{what}: {times}; {factor:.1f} times as many take {spent[-1] / spent[0]:.1f} times the time", f"{factor:.1f}, linear")


def tell_functions(best: Best) -> None:
    for kind, what in ("mixed", "two blocks every 22"), ("edges", "992 edges in each state"):
        phases = [best["phases", f"{kind}{count}"] for count in FUNCTIONS]
        spent = [one["9"] + one["10 to 12"] - one["12"] for one in phases]
        behind = f"instructions behind its first {BEGINNING}" if kind == "edges" else "instructions"
        counts = [count - BEGINNING * (kind == "edges") for count in FUNCTIONS]
        tell_growth(f"phases 9 to 11 of one function, {what}", behind, counts, spent)
    tell_growth("prove, one function", "instructions", FUNCTIONS, [best["prove", f"mixed{count}"] for count in FUNCTIONS])
    tell_growth("prove, a loop of blocks", "blocks", BLOCKS, [best["prove", f"blocks{count}"] for count in BLOCKS])
    tell_growth("prove, a loop of 200 blocks gone round so often", "rounds", ROUNDS_OF_A_LOOP,
                [best["prove", f"rounds{count}"] for count in ROUNDS_OF_A_LOOP])


def tell_store(folder: Path, best: Best, clock: Clock) -> None:
    def spent(stream: str) -> float:
        return float(best["apply", stream] - best["apply", "nothing"])

    size, whole = (folder / f"chain{CHAINED}.stream").stat().st_size, spent(f"chain{CHAINED}")
    tell(f"store: {CHAINED} modules of {size / CHAINED:.0f} bytes in chains of {CHAIN}: {size / whole / 1e6:.2f} MB/s, "
         f"{micro(whole / CHAINED)} each")
    for kind, what in ("chain", "modules in chains"), ("empty", "empty modules"):
        last = best["apply", f"{kind}{CHAINED}"] - best["apply", f"{kind}{CHAINED - 400}"]
        times = last / spent(f"{kind}400")
        tell(f"store: the last 400 of {CHAINED} {what} take {times:.2f} times the first 400", "1.2 or less")
    few, many = (best["apply", f"upgraded{count}"] - best["apply", f"chain{count}"] for count in UPGRADED_AMONG)
    tell(f"store: {UPGRADES} upgrades among {UPGRADED_AMONG[1]} modules in chains take {many / few:.2f} times those among "
         f"{UPGRADED_AMONG[0]}, {micro(many / UPGRADES)} each", "1.2 or less")
    few, many = (clock.memory([(folder / f"chain{count}.stream").read_bytes()]) for count in (400, CHAINED))
    tell(f"store: {(many - few) / (CHAINED - 400):.0f} bytes of memory for each of these modules")
    few, many = (clock.memory([(folder / f"large{count}.stream").read_bytes()]) for count in (LARGE_FEW, LARGE_MANY))
    each = (many - few) / (LARGE_MANY - LARGE_FEW)
    texts = sum((folder / f"large5.{kind}").stat().st_size for kind in ("module", "certificate"))
    count = instructions("large5")
    tell(f"store: {each / 1e3:.0f} KB of memory for each module of 60 KB, {texts / 1e3:.0f} of them its texts; "
         f"{(each - texts) / count:.1f} bytes of linked code for each of its {count} instructions")
    tell(f"store: {MODULES} such modules come to {each * MODULES / 1e9:.2f} GB", "2 or less")


def tell_runs(folder: Path, best: Best, clock: Clock) -> None:
    for name, what in WORK.items():
        beside = f"; a plain Rust interpreter {STEPS / best['plain', name] / 1e6:.0f}" if ("plain", name) in best else ""
        aim = AIMS.get(name)
        tell(f"run: {what}: {STEPS / best['work', name] / 1e6:.1f} million steps a second{beside}", aim and f"{aim} or more")
    small, large = best["idle", "small"], best["idle", "large"]
    tell(f"run of no step: {small * 1e6:.2f} us in a module of 3 KB, {large * 1e6:.2f} us in one of 60 KB", "0.6 us or less")
    tell(f"mint: {best['first', 'mint'] * 1e6:.2f} us with a thousand values stored", "0.9 us or less")
    for order, stride in ("that ascend", ASCENDING), ("in no order", SCATTERED):
        behind = min(clock.mint_behind(VALUES, stride) for _ in range(3))
        alone = (behind - best["first", "unpack"]) * 1e9
        plain = clock.plain_insertion(VALUES, stride)
        beside = f"; an insertion into a plain tree of Rust's library {plain * 1e9:.0f} ns" if plain else ""
        tell(f"MoveTo: {alone:.0f} ns among {VALUES} values at addresses {order}, as a mint there of {behind * 1e6:.2f} us takes "
             f"longer than one that takes its coin apart{beside}", "250 ns or less")
    few, many = (clock.memory(files.many_mints(folder, count)) for count in (VALUES // 10, VALUES))
    tell(f"storage: {(many - few) / (VALUES - VALUES // 10):.0f} bytes of memory for each value of one leaf", "100 or less")


def tell_records(best: Best) -> None:
    for kind, few, many, before in ("mints", 1_000, 10_000, "working"), ("empty", 400, 4_000, "nothing"):
        each = {count: (best["apply", f"{kind}{count}"] - best["apply", before]) / count for count in (few, many)}
        what = {"mints": "mints", "empty": "empty modules"}[kind]
        for count, one in each.items():
            tell(f"apply: {count} {what}, {1 / one:.0f} a second, {one * 1e6:.2f} us each")
        tell(f"apply: one of {many} {what} takes {each[many] / each[few]:.2f} times one of {few}")
    for before, what in ("empty4000", "4000 empty modules"), (f"large{LARGE_FEW}", f"{LARGE_FEW} modules of 60 KB"):
        one = (best["apply", f"{before}mints"] - best["apply", before]) / 10_000
        tell(f"apply: 10000 mints behind {what}, {1 / one:.0f} a second, {one * 1e6:.2f} us each")


def main() -> None:
    task, folder = sys.argv[1], Path(sys.argv[2]).resolve()
    if task == "write":
        files.write(folder)
        return
    clock = Clock(folder)
    best = clock.best(int(sys.argv[3]) if len(sys.argv) > 3 else ROUNDS)
    tell_modules(folder, best)
    tell_publishing(folder, best, clock)
    tell_functions(best)
    tell_store(folder, best, clock)
    tell_runs(folder, best, clock)
    tell_records(best)
    saved.tell(clock.program, folder)
    costs.tell(clock.program, folder)
    growth.tell(clock.program, folder)
    above = runs.tell(clock.program, folder) + memory.tell(clock.program, folder)
    if (folder / beside.PLAIN).exists():
        above += beside.tell(folder, clock.program)
    sys.exit(1 if above else 0)


if __name__ == "__main__":
    main()
