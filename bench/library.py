"""What questions by names and addresses cost through the library's C calls: a value by its address and its struct's name among
1,200,000 coins, a show of an address with 3 values among them, and all coins in pages; a block of 1,000 mints that is taken back, beside
as many mints without a block; a save in pieces, with the memory that it takes; and a mint in a call of its own beside one in a call with
many others. Times are the processor's, the least of several tries, and each is printed with its aim.

usage: python3 bench/library.py FOLDER [LIBRARY]    FOLDER is kept; LIBRARY is the folder of libmoveledger.a, that where
bindings/library puts it if none is given. It needs cc, and counts machine instructions where there is a valgrind."""

import argparse
import subprocess
from pathlib import Path
from typing import List, NamedTuple, Tuple

import beside
import embedding
from beside import Side
from embedding import BUILT, mints
from inputs import ASSET, Module, publish, record, run, u64
from process import difference

COINS, THREES, CALLS = 1_200_000, 1_000, 200_000
BLOCKS, IN_BLOCK = 50, 1_000
TRIES = 3
# What the number of a coin is multiplied by, as library.c does it: so that addresses come in no order.
SCATTERED = 0x9E3779B97F4A7C15
# Where a record that runs a function has its sender: behind its kind and its length.
SENDER = slice(2, 18)
MOST_OF_VALUE, MOST_AT, MOST_OF_BLOCK, MOST_OF_MINT, MOST_BESIDE = 2.0, 5.0, 1.3, 1.2, 1_024
# So many coins are saved as 100 MB.
SAVED = 4_166_000


class Asked(NamedTuple):
    """The seconds of calls, how many they were, and how many values they told, or bytes of a report."""

    seconds: float
    calls: int
    values: int


def coins() -> Tuple[bytes, bytes]:
    """The module whose structs are stored, and its certificate: what is known where its functions begin."""
    m = Module()
    for struct in "Coin", "Left", "Right":
        m.struct(struct, ASSET, "v: u64")
    m.function("mint", "signer; u64", "", "", "ImmBorrowLoc 0; MoveLoc 1; Pack Coin; MoveTo Coin; Ret")
    two = "".join(f"ImmBorrowLoc 0; CopyLoc 1; Pack {struct}; MoveTo {struct};" for struct in ("Left", "Right"))
    m.function("more", "signer; u64", "", "", f"{two} Ret")
    return m.bytes(), bytes([1, 1, 1, 0] * 2)


def runs(function: str, count: int, first: int = 0) -> List[bytes]:
    """Runs of a function by so many owners, from that of one coin on."""
    made = record(2, run(function, 100, u64(7)))
    front, behind = made[: SENDER.start], made[SENDER.stop :]
    return [front + (nth * SCATTERED % 2**64 << 64).to_bytes(16, "big") + behind for nth in range(first, first + count)]


def asked(folder: Path, measuring: Path, many: int, threes: int, calls: int) -> List[Asked]:
    """What the measuring program prints, the least seconds of several tries."""
    blocks = runs("mint", 2 * BLOCKS * IN_BLOCK, many)
    made = [record(1, publish(coins())), *runs("mint", many), *runs("more", threes), *blocks]
    (folder / "asked.stream").write_bytes(b"".join(made))
    length = IN_BLOCK * len(blocks[0])
    tries = []
    for _ in range(TRIES):
        words = [str(word) for word in (measuring, folder / "asked.stream", many, threes, calls, BLOCKS, length)]
        lines = subprocess.run(words, check=True, stdout=subprocess.PIPE, universal_newlines=True).stdout.splitlines()
        tries.append([Asked(float(line.split()[0]), *map(int, line.split()[1:])) for line in lines])
    best = [min(column) for column in zip(*tries)]
    *told, taken_back, kept = [answer.values for answer in best]
    assert told == [calls, 3 * calls, many], f"{told} values are told, not {[calls, 3 * calls, many]}"
    assert taken_back == kept, f"blocks that are taken back are answered with {taken_back} bytes, and without a block with {kept}"
    return best


def tell_asked(best: List[Asked], many: int) -> None:
    """Prints a line for each kind of question."""
    pages = best[2]
    of_one, of_three, of_many, of_block, of_kept = (answer.seconds / answer.calls * 1e6 for answer in best)
    print(f"library: a value by its address and struct among {many:,} coins: {of_one:.2f} microseconds (aim: {MOST_OF_VALUE} or less)")
    print(f"library: a show of an address with 3 values among them: {of_three:.2f} microseconds (aim: {MOST_AT} or less)")
    print(f"library: all of them in {pages.calls:,} pages: {of_many:.0f} microseconds a page, "
          f"{pages.seconds / pages.values * 1e6:.2f} a value (no aim)")
    print(f"library: a block of {IN_BLOCK:,} mints begun, answered and taken back beside them: {of_block:.0f} microseconds, and the mints alone "
          f"{of_kept:.0f}, {of_block / of_kept:.2f} times by the clock, which has the caches' share (aim: {MOST_OF_BLOCK} or less)", flush=True)


def tell_blocks(folder: Path, measuring: Path) -> None:
    """Prints how many times the machine instructions of 1,000 mints the same take in a block that is taken back."""
    (folder / "mints.stream").write_bytes(b"".join(mints(beside.MINTS * 2)))
    half, parts, blocks = (Side(folder, measuring).instructions([way, "mints.stream"]) for way in ("half", "parts", "blocks"))
    taken_back, kept = difference(blocks, half), difference(parts, half)
    if taken_back is not None and kept is not None:
        print(f"library: a block of {IN_BLOCK:,} mints begun, answered and taken back: {taken_back / kept:.2f} times the machine instructions of "
              f"the mints alone (no aim)", flush=True)


def tell_pieces(folder: Path, measuring: Path, many: int) -> None:
    """Prints what a save in pieces takes beside the ledger."""
    (folder / "many.stream").write_bytes(b"".join([record(1, publish(coins())), *runs("mint", many)]))
    seconds, size, beside_it = Side(folder, measuring).printed(["saved", "many.stream"]).split()
    print(f"library: {many:,} coins saved in pieces: {int(size) / 1e6:.1f} MB in {float(seconds):.2f} s of the processor, and {int(beside_it):,} KB "
          f"of memory beside the ledger (aim: {MOST_BESIDE:,} or less)", flush=True)


def tell_mints(folder: Path, measuring: Path) -> None:
    """Prints how many times a mint in a long call one in a call of its own takes."""
    count = beside.MINTS * 2
    (folder / "mints.stream").write_bytes(b"".join(mints(count)))
    (folder / "nothing.stream").write_bytes(b"")
    once, each = (embedding.spent(Side(folder, measuring), way, "mints.stream") for way in ("once", "each"))
    going = Side(folder, measuring).instructions(["nothing", "mints.stream"])
    line = f"{each[1] / count * 1e6:.2f} microseconds by the clock, in one call with the others {once[1] / count * 1e6:.2f}"
    ours = difference(each[0], difference(going, Side(folder, measuring).instructions(["nothing", "nothing.stream"])))
    if ours is not None and once[0] is not None:
        line += f"; {ours / count:,.0f} machine instructions and {once[0] / count:,.0f}, {ours / once[0]:.2f} times as many"
    print(f"library: a mint in a call of its own: {line} (aim: {MOST_OF_MINT} times or less)", flush=True)


def main() -> None:
    words = argparse.ArgumentParser(description=__doc__, formatter_class=argparse.RawDescriptionHelpFormatter)
    words.add_argument("folder", type=Path)
    words.add_argument("library", type=Path, nargs="?", default=BUILT)
    words.add_argument("--coins", type=int, default=COINS, metavar="N", help="how many coins are stored")
    words.add_argument("--calls", type=int, default=CALLS, metavar="N", help="how often each question is asked")
    told = words.parse_args()
    told.folder.mkdir(parents=True, exist_ok=True)
    folder, library = told.folder.resolve(), told.library.resolve()
    threes = min(THREES, told.coins)
    tell_asked(asked(folder, embedding.compiled(folder, library, "library"), told.coins, threes, told.calls), told.coins)
    measuring = embedding.compiled(folder, library)
    tell_pieces(folder, measuring, min(SAVED, 4 * told.coins))
    tell_blocks(folder, measuring)
    tell_mints(folder, measuring)


if __name__ == "__main__":
    main()
