"""What test_exits.py tries of ledgers that are loaded, saved and migrated, each in a folder of its own."""

import fcntl
import os
import signal
import subprocess
from pathlib import Path
from typing import Callable, Iterator, List, Optional, Sequence, Tuple

from cases import Found
from common import has
from exits_run import (
    COUNTED, EMPTY, FIRST, KEPT, MEMORY, NOT_KEPT, OLD, OLD_FORM, PATIENCE, READ, REPORT, SAVED, STREAM, WRITE, End, Given, Running,
    Shelf, closes, ended, explained, fault_in, limits, line_from, mint_by, no_bytes, nobody, not_kept, program, saved)

IN_USE = "another program has this ledger in use"
NO_LEDGER = "this file isn't a saved ledger; it was left unchanged"


def refused_ledgers() -> Iterator[Tuple[bytes, int]]:
    """Texts of ledgers, and the number of the first reason against each."""
    two = 2 * (b"\x27" + EMPTY + b"\0")
    yield b"MVL3" + SAVED[4:], 1
    yield SAVED[:106], 1
    yield SAVED.replace(bytes.fromhex("0401010100"), bytes.fromhex("0401010000")), 2
    yield b"MVL2\0\2" + two, 3
    yield SAVED[:-1], 4
    yield SAVED + b"\0", 4
    yield SAVED[:4] + b"\0" + SAVED[5:], 5
    yield b"", 1


def loaded_and_saved(folder: str) -> Found:
    """What comes of ledgers that are begun with, and kept."""
    shelf = Shelf(folder)
    audit, none = shelf.file("audit", b"\4\0"), shelf.file("none", b"")
    old = shelf.file("old", SAVED)
    new = folder + "/new"
    counted = COUNTED.replace(b"3 ", b"1 ")
    yield "a ledger is saved", (ended(["apply", "--save", new, STREAM]), shelf.state("new")), ((0, REPORT, b""), (SAVED, []))
    yield "a ledger is loaded", ended(["apply", f"--load={new}", audit]), (0, counted, b"")
    found = ended(["apply", "--load", new, "--save", new, audit]), shelf.state("new")
    yield "a ledger is loaded from the file that it is saved in", found, ((0, counted, b""), (SAVED, []))
    cut = shelf.file("cut", STREAM.read_bytes() + b"\1")
    found = ended(["apply", cut, "--save", shelf.file("whole")]), shelf.state("whole")
    yield "a ledger is saved after a cut record", found, ((0, REPORT + b"3 refused 1\n", b""), (SAVED, []))
    yield "a ledger from a pipe", ended(["apply", "--load", "/dev/stdin", audit], input=SAVED), (0, counted, b"")
    yield "records from standard input", ended(["apply", "--load", old, "-"], input=b"\4\0"), (0, counted, b"")
    for text, number in refused_ledgers():
        bad, refused = shelf.file("bad", text), b"load refused %d\n" % number
        shelf.file("kept", b"kept")
        found = ended(["apply", "--load", bad, "--save", folder + "/kept", folder]), shelf.state("kept")
        yield f"a ledger that is refused for reason {number}", found, ((3, refused, b""), (b"kept", []))
        found = ended(["migrate", bad, folder + "/kept"]), shelf.state("kept")
        yield f"a ledger that isn't migrated for reason {number}", found, ((3, refused, b""), (b"kept", []))
    with open("/dev/full", "wb") as full:
        yield "a refused ledger, and a full standard output", ended(["apply", "--load", bad, none], full), (1, None, WRITE)
    yield "a ledger that isn't there, before a file that isn't", ended(["apply", "--load", f"{folder}/no", f"{folder}/no"]), (1, b"", READ)
    yield "a folder as a ledger", ended(["apply", "--load", folder, audit]), (1, b"", READ)
    inputs: List[Tuple[str, Given, bytes]] = [("input", folder, READ), ("output", STREAM, WRITE)]
    for name, given, fault in inputs:
        shelf.file("kept", OLD)
        with open("/dev/full", "wb") as full:
            status, _, said = ended(["apply", "--save", folder + "/kept", given], full)
        yield f"no ledger is saved after a fault of the {name}", (status, said, shelf.state("kept")), (1, fault, (OLD, []))
    # Of 4,096 modules so many, each of 65,536 bytes and with no certificate: nothing tells yet that they are no ledger's.
    long = shelf.file("long", OLD[:4] + bytes.fromhex("00" "8020") + 1024 * (bytes.fromhex("808004") + bytes(1 << 16) + b"\0"))
    yield "a long ledger, and no memory for it", ended(["apply", "--load", long, audit], preexec_fn=limits(24)), (1, b"", MEMORY)
    yield from much_is_given(shelf, audit)


def sparse(path: Path, front: bytes, size: int) -> Optional[Path]:
    """A file of this size that begins so, and has nothing but zeros behind; None where the disk takes none."""
    path.write_bytes(front)
    try:
        os.truncate(path, size)
    except OSError:
        return None
    return path


# How a text ends that its first bytes tell to have no head, and one of which a beginning tells that it isn't that of one with its modules.
NO_HEAD, NO_BODY = (3, b"load refused 1\n", b""), (3, b"load refused 4\n", b"")
# What texts begin with that are long, or don't end, and have zeros behind; and how they end, by their first bytes.
FRONTS: List[Tuple[str, bytes, End]] = [
    ("nothing", b"", NO_HEAD),
    ("a mark", OLD[:4], NO_BODY),
    ("a mark and a byte of a number", OLD[:4] + b"\x80", NO_HEAD),
    ("a mark and the length of a module that is too long", OLD[:4] + bytes.fromhex("0001818004"), NO_HEAD),
    ("an old mark", OLD_FORM[:4], NO_BODY),
    ("a ledger", SAVED, NO_BODY),
    ("a ledger of the old form", OLD_FORM, NO_BODY),
    ("a ledger without its last byte", SAVED[:-1], NO_BODY),
    ("100 bytes of a ledger", SAVED[:100], (3, b"load refused 2\n", b"")),
]


def much_is_given(shelf: Shelf, audit: Path) -> Found:
    """What comes of files that are long, or don't end: their first bytes tell that they are no ledgers."""
    few = limits(500)
    for shows, front, refused in FRONTS:
        wide = sparse(shelf.file("wide"), front, 20 << 30)
        if wide:
            yield f"{shows}, and 20 GB of zeros, are loaded", ended(["apply", "--load", wide, audit], preexec_fn=few, timeout=2), refused
            yield f"{shows}, and 20 GB of zeros, are migrated", ended(["migrate", wide, shelf.file("new")], preexec_fn=few, timeout=2), refused
        endless = subprocess.Popen(["sh", "-c", "cat - /dev/zero"], stdin=subprocess.PIPE, stdout=subprocess.PIPE)
        assert endless.stdin and endless.stdout
        endless.stdin.write(front)
        endless.stdin.close()
        found = ended(["apply", "--load", "/dev/stdin", audit], stdin=endless.stdout, timeout=60, preexec_fn=few)
        yield f"a pipe of {shows}, and zeros without end", found, refused
        endless.kill()
        endless.stdout.close()
        endless.wait()
    wider = sparse(shelf.file("wide"), OLD[:4], (1 << 45) + 5)
    if wider:
        yield "more bytes than a ledger has", ended(["apply", "--load", wider, audit], preexec_fn=few, timeout=2), NO_BODY
    shelf.file("wide").unlink()
    endless = subprocess.Popen(["yes"], stdout=subprocess.PIPE)
    yield "a pipe that never ends is loaded", ended(["apply", "--load", "/dev/stdin", audit], stdin=endless.stdout, timeout=60, preexec_fn=few), NO_HEAD
    endless.kill()
    endless.communicate()


def lock_of(path: Path) -> Path:
    """The file that is locked while a ledger is saved by a name."""
    return path.with_name(f".moveledger-lock-{path.name}")


def in_use(folder: str) -> Found:
    """What comes of a ledger that two programs go on with."""
    found: object
    shelf = Shelf(folder)
    kept, audit = shelf.file("kept", SAVED), shelf.file("audit", b"\4\0")
    old_form, link = shelf.file("old", OLD_FORM), shelf.folder / "link"
    link.symlink_to("kept")
    counted, refused = COUNTED.replace(b"3 ", b"1 "), (1, f"fault: read\nmoveledger: {kept}: {IN_USE}\n")
    both: List[Given] = ["apply", "--load", kept, "--save", kept]
    one = Running([program(), *both, "-"])
    yield "a program has a ledger in use", one.sent(b"\4\0", 2), counted
    yield "another one is told so", explained([*both, audit]), refused
    yield "it is told so of a link to it", explained(["apply", "--load", kept, "--save", link, audit])[0], 1
    yield "so is one that migrates it", explained(["migrate", kept, kept]), refused
    yield "one that only reads it isn't", ended(["apply", "--load", kept, audit]), (0, counted, b"")
    found = explained(["migrate", old_form, kept])[0], shelf.state("kept")
    yield "nor can one migrate another there", found, (1, (SAVED, [".moveledger-lock-kept"]))
    found = explained(["apply", "--save", kept, STREAM]), kept.read_bytes()
    yield "nor can one save there that hasn't loaded it", found, (not_kept(kept, IN_USE), SAVED)
    yield "the first one goes on", (one.sent(mint_by(2)), one.closed()), (b"2 returned 5\n", (0, b"", ""))
    yield "and then another one", (ended([*both, audit])[0], shelf.state("kept")[1]), (0, [])
    for text, shows in (OLD_FORM, "another ledger"), (SAVED + b"more", "the same file, written to"):
        shelf.file("kept", SAVED)
        one = Running([program(), *both, "-"])
        one.sent(b"\4\0", 2)
        if shows == "another ledger":
            os.replace(shelf.file("other", text), kept)
        else:
            kept.write_bytes(text)
        said = f"moveledger: {kept}: the ledger that stood there is kept as {kept}.previous\n"
        found = one.closed(), shelf.state("kept"), shelf.file("kept.previous").read_bytes()
        yield f"what stands there meanwhile stays: {shows}", found, ((0, b"", said), (SAVED, ["kept.previous"]), text)
        shelf.file("kept.previous").unlink()
    shelf.file("kept", SAVED)
    one = Running([program(), *both, "-"])
    one.sent(mint_by(2))
    os.replace(shelf.file("other", b"letters"), kept)
    unsaved = shelf.folder / "kept.unsaved"
    said = f"moveledger: the ledger is whole in {unsaved}: move or copy it to {kept}\nfault: write\nmoveledger: {kept}: {NO_LEDGER}\n"
    found = one.closed(), kept.read_bytes(), unsaved.exists() and ended(["apply", "--load", unsaved, audit])[1]
    yield "a file that is no ledger, moved there meanwhile", found, ((1, b"", said), b"letters", counted.replace(b"stored 1 packed 1", b"stored 2 packed 2"))
    unsaved.unlink(missing_ok=True)
    yield from locked(shelf, kept)
    yield from at_once(shelf, both, kept)


def locked(shelf: Shelf, kept: Path) -> Found:
    """What comes of locks that others hold, or that can't be had."""
    found: object
    shelf.file("kept", SAVED)
    with open(kept, "rb") as reader:
        # Who may read a ledger may not hold up who saves it.
        fcntl.flock(reader, fcntl.LOCK_EX)
        found = ended(["apply", "--load", kept, "--save", kept, shelf.file("audit")])[0], shelf.state("kept")
        yield "a lock of the ledger itself holds up nobody", found, (0, (SAVED, []))
    place = lock_of(shelf.folder / "new")
    stands: List[Tuple[Optional[bytes], str]] = [(None, "nothing stands there"), (b"", "an empty file"), (SAVED, "a ledger")]
    for text, shows in stands:
        new = shelf.file("new", text)
        with open(place, "wb") as lock:
            fcntl.flock(lock, fcntl.LOCK_EX)
            found = explained(["apply", "--save", new, STREAM]), new.read_bytes() if new.exists() else None, place.exists()
            yield f"another one saves there, and {shows}", found, (not_kept(new, IN_USE), text, True)
        yield f"one that has ended, and {shows}", (saved(new)[0], new.read_bytes(), place.exists()), (0, SAVED, False)
    place.symlink_to("elsewhere")
    found = explained(["apply", "--save", new, STREAM])[0], (shelf.folder / "elsewhere").exists(), new.read_bytes()
    yield "a link in the place of a lock isn't followed", found, (1, False, SAVED)
    place.unlink()
    new.chmod(0o640)
    one = Running([program(), "apply", "--save", new, "-"])
    one.sent(STREAM.read_bytes()[:FIRST])
    mode = place.stat().st_mode & 0o777 if place.exists() else None
    one.closed()
    yield "only its owner may open a lock", mode, 0o200
    if has("strace"):
        new.write_bytes(SAVED)
        why = "its place can't be locked: No locks available (os error 37)"
        words = failing("flock", "ENOLCK", ["apply", "--load", new, "--save", new, STREAM])
        yield "no locks on this disk, and the ledger is loaded", words, (1, b"", f"fault: read\nmoveledger: {new}: {why}\n")
        words = failing("flock", "ENOLCK", ["apply", "--save", new, STREAM])
        yield "no locks on this disk", (words[::2], words[1], new.read_bytes()), (not_kept(new, why), REPORT, SAVED)


def failing(calls: str, error: str, words: Sequence[Given]) -> Tuple[int, bytes, str]:
    """How the program ends where these calls fail: its status, its report, and what it says."""
    before = ["strace", "-f", "-qq", "-o", "/dev/null", "-e", f"trace={calls}", "-e", f"inject={calls}:error={error}", program()]
    run = subprocess.run([*before, *words], stdout=subprocess.PIPE, stderr=subprocess.PIPE)
    return run.returncode, run.stdout, run.stderr.decode()


def at_once(shelf: Shelf, both: Sequence[Given], kept: Path) -> Found:
    """Two programs at a time mint a coin each, ten times: what is acknowledged is stored."""
    shelf.file("kept", SAVED)
    acknowledged = 0
    for round in range(10):
        records = [shelf.file(f"mint{n}", mint_by(100 + 2 * round + n)) for n in range(2)]
        runs = [subprocess.Popen([program(), *both, file], stdout=subprocess.PIPE, stderr=subprocess.PIPE) for file in records]
        ends = [(run.communicate()[0], run.returncode) for run in runs]
        acknowledged += ends.count((b"1 returned 5\n", 0))
        assert all(end in ((b"1 returned 5\n", 0), (b"", 1)) for end in ends), ends
    _, report, _ = ended(["apply", "--load", kept, shelf.file("audit", b"\4\0")])
    stored = int(report.split()[4]) if report else 0
    yield "two programs at once: what is acknowledged is stored", (stored - 1, acknowledged >= 10), (acknowledged, True)
    lost, count = 0, 0
    for round in range(12):
        place = shelf.folder / f"place{round}"
        if round % 3:
            place.write_bytes(b"" if round % 3 == 1 else OLD)
        records = [shelf.file(f"mint{n}", STREAM.read_bytes()[:FIRST] + mint_by(100 + n)) for n in range(2)]
        words: List[List[Given]] = [[program(), "apply", "--save", place, file] for file in records]
        pair = [subprocess.Popen(it, stdout=subprocess.PIPE, stderr=subprocess.PIPE) for it in words]
        good = [file for file, run in zip(records, pair) if run.communicate() and run.returncode == 0]
        stands = [path.read_bytes() for path in shelf.folder.glob(f"place{round}*")]
        count += len(good)
        lost += sum(saved_after(shelf, file) not in stands for file in good) + (round % 3 == 2 and OLD not in stands)
    yield "two that haven't loaded, at once: both ledgers stand, and the old one", (lost, count >= 12), (0, True)


def saved_after(shelf: Shelf, records: Path) -> bytes:
    """The ledger after these records."""
    alone = shelf.file("alone", b"")
    ended(["apply", "--save", alone, records])
    return alone.read_bytes()


def slips(folder: str) -> Found:
    """What comes of a ledger that is saved where something stands that wasn't loaded."""
    shelf = Shelf(folder)
    text = shelf.file("text", b"letters to the bank\n")
    found: object = explained(["apply", "--save", text, STREAM]), saved(text), shelf.state("text")
    yield "no ledger takes the place of another file", found, (not_kept(text, NO_LEDGER), NOT_KEPT, (b"letters to the bank\n", []))
    old_form = shelf.file("old", OLD_FORM)
    yield "nor is one migrated there", (ended(["migrate", old_form, text]), shelf.state("text")), ((1, b"", WRITE), (b"letters to the bank\n", []))
    short = shelf.file("short", b"MVL")
    yield "nor takes one the place of a part of a mark", (saved(short), shelf.state("short")), (NOT_KEPT, (b"MVL", []))
    yield "an empty file is replaced", (saved(shelf.file("none", b"")), shelf.state("none")), (KEPT, (SAVED, []))
    kept = shelf.file("kept", OLD)
    for number, name in enumerate(("kept.previous", "kept.previous-1", "kept.previous-2")):
        said = f"moveledger: {kept}: the ledger that stood there is kept as {shelf.folder / name}\n"
        mint = shelf.file("mint", STREAM.read_bytes()[:FIRST] + mint_by(100 + number))
        shelf.file(f"before{number}", kept.read_bytes())
        yield f"slip {number + 1}: the ledger stays beside", explained(["apply", "--save", kept, mint]), (0, said)
    stands = [shelf.file(f"kept.previous{more}").read_bytes() if (shelf.folder / f"kept.previous{more}").exists() else None for more in ("", "-1", "-2")]
    yield "all that stayed before stay then", stands, [shelf.file(f"before{number}").read_bytes() for number in range(3)]
    found = ended(["migrate", old_form, kept]), kept.read_bytes(), shelf.state("kept")[1]
    wanted = ["kept.previous", "kept.previous-1", "kept.previous-2", "kept.previous-3"]
    yield "one stays beside one that is migrated", found, ((0, b"", b""), SAVED, wanted)
    other, previous = shelf.file("other", OLD), shelf.file("other.previous", b"letters")
    found = saved(other), other.read_bytes(), previous.read_bytes(), (shelf.folder / "other.previous-1").exists()
    yield "no other file of that name goes", found, (KEPT, SAVED, b"letters", True)
    (shelf.folder / "far").mkdir()
    aim = shelf.file("far/aim", OLD)
    link = shelf.folder / "link"
    link.symlink_to("far/aim")
    yield "it stays beside what a link leads to", (saved(link), aim.read_bytes(), shelf.file("far/aim.previous").read_bytes()), (KEPT, SAVED, OLD)


def said_before(words: Sequence[Given]) -> Tuple[bytes, bytes, Tuple[int, bytes, str]]:
    """What is said before a record is given, what is answered to one, and how it ends."""
    run = Running([program(), *words])
    assert run.run.stderr is not None
    said = line_from(run.run.stderr.fileno())
    return said, run.sent(b"\4\0", 1), run.closed()


def found_before(folder: str) -> Found:
    """That a ledger can't be saved is told before the first record is answered, and is the last fault."""
    shelf = Shelf(folder)
    text, long = shelf.file("text", b"text"), shelf.folder / (239 * "n")
    own = shelf.folder / ".moveledger-20261129"
    missing, is_folder = "No such file or directory (os error 2)", "Is a directory (os error 21)"
    places: List[Tuple[Given, str, str]] = [
        (Path(folder, "no/new"), missing, "into a folder that isn't there"), (Path(folder), is_folder, "in the place of a folder"),
        (text, NO_LEDGER, "in the place of another file"), (f"{folder}/sub/", is_folder, "by the name of a folder"),
        (own, "names that begin with .moveledger- are the program's own", "by a name of the program's own"),
        (long, "File name too long (os error 36)", "by a name of 239 letters")]
    for place, why, shows in places:
        status, said = not_kept(place, why)
        first, _, rest = said.partition("\n")
        found: object = said_before(["apply", "--save", place, "-"])
        yield f"it is said before the first record that it can't be saved {shows}", found, ((first + "\n").encode(), b"1 end 0\n", (status, b"", rest))
        yield f"a file that isn't there, before one that can't be saved {shows}", ended(["apply", "--save", place, f"{folder}/none"]), (1, b"", READ)
        yield f"a folder as input, before one that can't be saved {shows}", ended(["apply", "--save", place, folder]), (1, b"", READ)
        bad: List[Given] = ["apply", "--load", text, "--save", place, STREAM]
        yield f"a refused ledger, before one that can't be saved {shows}", ended(bad), (3, b"load refused 1\n", b"")
    yield "no name", explained(["apply", "--save", "", STREAM], cwd=folder), not_kept('""', "there is no name")
    yield "what stands there then", (sorted(os.listdir(folder)), text.read_bytes()), (["text"], b"text")
    fifo = shelf.folder / "fifo"
    os.mkfifo(fifo)
    with subprocess.Popen(["cat", fifo], stdout=subprocess.PIPE) as reading:
        found = saved(fifo, timeout=PATIENCE), reading.communicate(timeout=PATIENCE)[0]
    yield "a named pipe isn't opened before", found, (KEPT, SAVED)


def killed(path: Path) -> int:
    """The program is ended by the system while it saves: the first byte that it writes to a file is one too many."""
    run = subprocess.Popen([program(), "apply", "--save", path, STREAM], stdout=subprocess.PIPE, stderr=subprocess.PIPE, preexec_fn=no_bytes)
    run.communicate()
    return run.returncode


def leftovers(folder: str) -> Found:
    """What killed programs leave, and what comes of it."""
    found: object
    shelf = Shelf(folder)
    kept, new = shelf.file("kept", OLD), shelf.file(".moveledger-new-kept")
    kept.chmod(0o644)
    left = [".moveledger-lock-kept", ".moveledger-new-kept"]
    found = killed(kept), shelf.state("kept"), new.stat().st_mode & 0o777
    yield "a killed save leaves a file that is its owner's alone", found, (-signal.SIGXFSZ, (OLD, left), 0o600)
    yield "the next save takes it away", (saved(kept), shelf.state("kept")), (KEPT, (SAVED, ["kept.previous"]))
    shelf.file("kept.previous").unlink()
    both: List[Given] = ["apply", "--load", kept, "--save", kept, shelf.file("audit", b"\4\0")]
    for text in b"", b"\0\0\0\0" + SAVED[4:], b"MVL":
        new.write_bytes(text)
        yield f"so it does with one of {len(text)} bytes", (ended(both)[0], shelf.state("kept")), (0, (SAVED, []))
    for number in range(2):
        new.write_bytes(OLD)
        name = f"kept.unsaved{'-1' if number else ''}"
        said = f"moveledger: {kept}: what an earlier program couldn't put in place is kept as {shelf.folder / name}\n"
        found = explained(both), shelf.file(name).read_bytes() if (shelf.folder / name).exists() else None, kept.read_bytes(), new.exists()
        yield f"one that is whole stays as {name}", found, ((0, said), OLD, SAVED, False)
    for name in "kept.unsaved", "kept.unsaved-1":
        (shelf.folder / name).unlink(missing_ok=True)
    os.link(kept, new)
    yield "the ledger by that name, too", (ended(both)[0], shelf.state("kept")), (0, (SAVED, []))
    names = [f".moveledger-{it}" for it in ("0", "20261129", "999", "x", "new-other", "lock-other")]
    for name in names:
        shelf.file(name, b"another's")
    yield "no other file is touched", (ended(both)[0], shelf.state("kept")), (0, (SAVED, sorted(names)))
    for name in names:
        (shelf.folder / name).unlink()
    kept.write_bytes(OLD)
    run = subprocess.run([program(), "apply", "--save", kept, STREAM], capture_output=True, preexec_fn=no_bytes, restore_signals=False)
    found = (run.returncode, run.stdout, run.stderr.decode()), shelf.state("kept")
    said = f"fault: write\nmoveledger: {kept}: File too large (os error 27)\n"
    yield "a limit of a file's size, where its signal is ignored", found, ((1, REPORT, said), (OLD, []))
    if has("strace"):
        yield from at_each_call(shelf)


def at_each_call(shelf: Shelf) -> Found:
    """What stands there where calls fail, or the program is killed at one of them."""
    found: object
    last, name = shelf.file("last", OLD), shelf.folder / "last.unsaved"
    status, report, said = failing("rename,renameat,renameat2", "EIO", ["apply", "--load", last, "--save", last, STREAM])
    why = f"moveledger: the ledger is whole in {name}: move or copy it to {last}\nfault: write\nmoveledger: {last}: Input/output error (os error 5)\n"
    found = status, report, said, last.read_bytes(), name.read_bytes() if name.exists() else None
    yield "the last step fails: the new ledger stays, and is told", found, (1, REPORT, why, OLD, SAVED)
    lost, count = [], 0
    for loads in True, False:
        for number in range(1, 200):
            own = Shelf(str(shelf.folder / f"{loads}{number}"))
            own.folder.mkdir()
            kept = own.file("kept", OLD)
            inject = "trace=%file,%desc", "-e", f"inject=%file,%desc:signal=KILL:when={number}"
            words: List[Given] = ["strace", "-f", "-qq", "-o", "/dev/null", "-e", *inject, program(), "apply"]
            words += ["--load", kept, "--save", kept, STREAM] if loads else ["--save", kept, STREAM]
            run = subprocess.run(words, stdout=subprocess.PIPE, stderr=subprocess.PIPE)
            first = kept.read_bytes()
            again = ended(["apply", "--save", kept, own.file("none", b"")])
            texts = {path.read_bytes() for path in own.folder.iterdir() if path.name.startswith("kept")}
            is_kept = first in (OLD, SAVED) and again == (0, b"", b"") and own.state("kept")[0] == OLD
            # Whatever stood there first, stands there after the next save, which hasn't loaded it.
            if not is_kept or first not in texts or texts - {OLD, SAVED} or any(it.startswith(".") for it in own.state("kept")[1]):
                lost.append((loads, number, first, again, own.state("kept")))
            if run.returncode == 0:
                break
            count += 1
    # (strace counts the calls of each name by themselves)
    yield "the program is killed at each of its calls", (lost, count > 10), ([], True)


def migrated(folder: str) -> Found:
    """What comes of ledgers of the old form."""
    found: object
    shelf = Shelf(folder)
    old, new = shelf.file("form1", OLD_FORM), folder + "/form2"
    found = ended(["migrate", old, new]), shelf.state("form2"), old.read_bytes()
    yield "a ledger is migrated", found, ((0, b"", b""), (SAVED, []), OLD_FORM)
    found = ended(["migrate", new, new]), shelf.state("form2")
    yield "a ledger of today is migrated into its own place", found, ((0, b"", b""), (SAVED, []))
    found = ended(["migrate", old, old]), shelf.state("form1")
    yield "a ledger is migrated into its own place", found, ((0, b"", b""), (SAVED, []))
    old = shelf.file("form1", OLD_FORM)
    found = ended(["migrate", old, "/dev/full"]), old.read_bytes()
    yield "a ledger is migrated to a full device", found, ((1, b"", WRITE), OLD_FORM)
    found = ended(["migrate", old, f"{folder}/no/new"]), old.read_bytes()
    yield "a ledger is migrated into a folder that isn't there", found, ((1, b"", WRITE), OLD_FORM)
    found = ended(["migrate", old, folder]), old.read_bytes(), shelf.state("none")
    yield "a ledger is migrated into the place of a folder", found, ((1, b"", WRITE), OLD_FORM, (None, []))
    yield "a folder is migrated", ended(["migrate", folder, new]), (1, b"", READ)
    yield "a ledger that isn't there is migrated", ended(["migrate", f"{folder}/no", new]), (1, b"", READ)
    found = ended(["migrate", shelf.file("e", b"MVL1\0\0\0"), shelf.file("none")]), shelf.state("none")
    yield "the empty ledger is migrated", found, ((0, b"", b""), (OLD, []))


def replaced(folder: str) -> Found:
    """What stands in the place of a file after a ledger was to be saved in it, and what stays of the file."""
    found: object
    shelf = Shelf(folder)
    for mode in 0o600, 0o644, 0o777:
        kept = shelf.file("mode", b"")
        kept.chmod(mode)
        found = saved(kept), kept.stat().st_mode & 0o7777, shelf.state("mode")
        yield f"the mode {mode:o} stays", found, (KEPT, mode, (SAVED, []))
        kept.unlink()
    for mask, mode in (0o027, 0o640), (0o077, 0o600):
        kept = shelf.file("mode")
        found = saved(kept, preexec_fn=lambda: os.umask(mask)), kept.stat().st_mode & 0o7777
        yield f"a new file's mode, where {mask:03o} is kept back", found, (KEPT, mode)
        kept.unlink()
    if os.getuid() == 0:
        kept = shelf.file("owned", b"")
        os.chown(kept, 65534, 65533)
        kept.chmod(0o640)
        found = saved(kept), (kept.stat().st_uid, kept.stat().st_gid, kept.stat().st_mode & 0o7777)
        yield "the owner and the group stay", found, (KEPT, (65534, 65533, 0o640))
    (shelf.folder / "far").mkdir()
    for name, text in ("link", b""), ("dangling", None):
        aim = shelf.file(f"far/{name}", text)
        link = shelf.folder / name
        link.symlink_to(f"far/{name}")
        yield f"a {name} stays, and leads to the ledger", (saved(link), link.is_symlink(), aim.read_bytes()), (KEPT, True, SAVED)
    for name, leads_to in ("first", "far/second"), ("far/second", "third"):
        (shelf.folder / name).symlink_to(leads_to)
    found = saved(shelf.folder / "first"), shelf.state("far/third"), (shelf.folder / "far/second").is_symlink()
    yield "a link to a link is followed from where it lies", found, (KEPT, (SAVED, []), True)
    circle = shelf.folder / "circle"
    circle.symlink_to("circle")
    yield "a link that leads to itself", (saved(circle), circle.is_symlink()), (NOT_KEPT, True)
    other = shelf.folder / "other"
    os.link(shelf.file("one", OLD), other)
    yield "another name of a file keeps the old text", (saved(shelf.folder / "one"), other.read_bytes()), (KEPT, OLD)
    yield "a folder in the place of a file", (saved(folder), Path(folder).is_dir()), (NOT_KEPT, True)
    yield "a folder that isn't there", saved(f"{folder}/no/new"), NOT_KEPT


def written_to(folder: str) -> Found:
    """What comes of files that aren't replaced."""
    found: object
    shelf = Shelf(folder)
    yield "a full device", (saved("/dev/full"), Path("/dev/full").is_char_device()), (NOT_KEPT, True)
    yield "a device that takes all", (saved("/dev/null"), Path("/dev/null").is_char_device()), (KEPT, True)
    fifo = shelf.folder / "fifo"
    os.mkfifo(fifo)
    reading = os.open(fifo, os.O_RDONLY | os.O_NONBLOCK)
    yield "a named pipe", (saved(fifo), os.read(reading, 4096), fifo.is_fifo()), (KEPT, SAVED, True)
    os.close(reading)
    yield "standard output as a pipe", saved("/dev/stdout"), (0, REPORT + SAVED, b"")
    out = shelf.file("out", b"")
    with open(out, "wb") as file:
        found = saved("/dev/stdout", stdout=file), out.read_bytes()
    yield "standard output as a file", found, ((0, None, b""), REPORT + SAVED)
    with open(shelf.file("report", b""), "wb") as file:
        found = saved(shelf.file("beside", b""), stdout=file), shelf.file("report").read_bytes(), shelf.state("beside")
    yield "the report to one file, and the ledger to another of that disk", found, ((0, None, b""), REPORT, (SAVED, []))
    kept = shelf.file("kept", OLD_FORM)
    found = subprocess.run([program(), "migrate", kept, kept], preexec_fn=closes(1)).returncode, kept.read_bytes()
    yield "a closed standard output", found, (0, SAVED)
    with open(shelf.file("gone", b"old"), "rb") as gone:
        (shelf.folder / "gone").unlink()
        found = saved(f"/dev/fd/{gone.fileno()}", pass_fds=[gone.fileno()]), gone.read(), shelf.state("gone")
    yield "a file that has no name any more", found, (NOT_KEPT, b"old", (None, []))


def led_elsewhere(folder: str) -> Found:
    """What comes of a name that leads to something else at the end than at the start."""
    found: object
    shelf = Shelf(folder)
    example = STREAM.read_bytes()
    for shows in "pipe", "link to a device":
        place, other = shelf.folder / "place", shelf.file("other", OLD)
        if shows == "pipe":
            os.mkfifo(place)
        else:
            place.symlink_to("/dev/null")
        one = Running([program(), "apply", "--save", place, "-"])
        lines = one.sent(example, 2)
        place.unlink()
        place.symlink_to(other)
        said = f"fault: write\nmoveledger: {place}: {IN_USE}\n"
        found = lines, one.closed(), other.read_bytes()
        yield f"a {shows}, and then a ledger of that name", found, (REPORT, (1, b"", said), OLD)
        place.unlink()
    for text, is_linked, mode in (OLD, True, 0o600), (OLD, False, 0o600), (b"", False, 0o640):
        kept = shelf.file("kept", text)
        kept.chmod(mode)
        one = Running([program(), "apply", "--save", kept, "-"], preexec_fn=lambda: os.umask(0) and None)
        lines = one.sent(example, 2)
        kept.rename(shelf.folder / "moved")
        if is_linked:
            kept.symlink_to("moved")
        status = one.closed()[0]
        new = shelf.folder / ("kept.unsaved" if is_linked else "kept")
        found = lines, status, new.exists() and (new.read_bytes(), new.stat().st_mode & 0o7777)
        yield f"the mode {mode:o} stays where a file is moved{', and a link put there' if is_linked else ''}", found, (REPORT, int(is_linked), (SAVED, mode))
        for path in kept, new:
            path.unlink(missing_ok=True)
    room = shelf.folder / "room"
    room.mkdir()
    one = Running([program(), "apply", "--save", room / "kept", "-"])
    lines = one.sent(example, 2)
    room.rename(shelf.folder / "old room")
    room.mkdir()
    status = one.closed()[0]
    found = lines, status, sorted(it.name for it in room.iterdir())
    yield "a folder that is another one by the end", found, (REPORT, 1, ["kept.unsaved"])


def all_closed() -> None:
    for number in 0, 1:
        os.close(number)


def closed_at_first(folder: str) -> Found:
    """What comes of standard input, output and error that are closed: no other file gets their numbers."""
    found: object
    shelf = Shelf(folder)
    kept = shelf.folder / "kept"
    for close, shows in (all_closed, "input and output"), (closes(1), "output"):
        run = subprocess.run([program(), "apply", "--save", kept, STREAM], stderr=subprocess.PIPE, preexec_fn=close)
        found = run.returncode, fault_in(run.stderr), shelf.state("kept")
        yield f"a closed standard {shows}", found, (1, WRITE, (None, []))
    found = ended(["apply", "--save", kept, "-"], preexec_fn=closes(0)), shelf.state("kept")
    yield "a closed standard input that is read", found, ((1, b"", READ), (None, []))
    run = subprocess.run([program(), "apply", "--save", kept, STREAM], stdout=subprocess.PIPE, preexec_fn=closes(2))
    yield "a closed standard error", ((run.returncode, run.stdout), shelf.state("kept")), ((0, REPORT), (SAVED, []))


def named(folder: str) -> Found:
    """What comes of names of ledgers."""
    shelf = Shelf(folder)
    yield "a name alone", (saved("alone", cwd=folder), shelf.state("alone")), (KEPT, (SAVED, []))
    long = shelf.folder / (238 * "n")
    yield "a name of 238 letters", (saved(long), shelf.state(long.name)), (KEPT, (SAVED, []))
    yield "and what stood there", (saved(long), shelf.state(long.name)), (KEPT, (SAVED, [f"{long.name}.previous"]))
    other = shelf.file(".moveledger-x", b"")
    link = shelf.folder / "link"
    link.symlink_to(other.name)
    found = saved(link), other.read_bytes()
    yield "a link that leads to a name of the program's own", found, (NOT_KEPT, b"")


def mounted(folder: Path, options: str) -> bool:
    return subprocess.run(["mount", "-t", "tmpfs", "-o", options, "tmpfs", folder], stderr=subprocess.DEVNULL).returncode == 0


def full_disk(folder: str) -> Found:
    """Disks that have no room for a ledger, and a ledger that is a mount."""
    found: object
    disk, few, bound = Path(folder, "disk"), Path(folder, "few"), Path(folder, "bound")
    for place in disk, few:
        place.mkdir()
    no_space = "No space left on device (os error 28)"
    if not mounted(disk, "size=8k"):
        print("skip  a full disk: none can be mounted")
        return
    try:
        kept, rest = disk / "kept", disk / "rest"
        kept.write_bytes(OLD)
        rest.write_bytes(bytes(4096))
        found = explained(["apply", "--save", kept, STREAM]), kept.read_bytes(), sorted(os.listdir(disk))
        yield "a full disk", found, ((1, f"fault: write\nmoveledger: {kept}: {no_space}\n"), OLD, ["kept", "rest"])
        rest.unlink()
        found = saved(kept), kept.read_bytes(), sorted(os.listdir(disk))
        yield "the same disk with room", found, (KEPT, SAVED, ["kept", "kept.previous"])
        if mounted(few, "nr_inodes=2"):
            kept = few / "kept"
            kept.write_bytes(OLD)
            found = explained(["apply", "--load", kept, "--save", kept, STREAM]), kept.read_bytes(), os.listdir(few)
            yield "a disk that takes no more files", found, (not_kept(kept, no_space), OLD, ["kept"])
        bound.write_bytes(OLD)
        if subprocess.run(["mount", "--bind", bound, bound], stderr=subprocess.DEVNULL).returncode == 0:
            why = "Invalid cross-device link (os error 18)"
            loads: List[List[Given]] = [[], ["--load", bound]]
            for load in loads:
                found = explained(["apply", *load, "--save", bound, STREAM]), bound.read_bytes(), sorted(os.listdir(folder))
                yield f"a ledger that is a mount{', and is loaded' if load else ''}", found, (not_kept(bound, why), OLD, ["bound", "disk", "few"])
    finally:
        # Also while something still looks into it.
        for place in disk, few, bound:
            if os.path.ismount(place) or place == bound:
                subprocess.run(["umount", "--lazy", place], stderr=subprocess.DEVNULL)


def read_only(top: str) -> Found:
    """Folders and files that one may not write to. The superuser may, so the program then runs as nobody."""
    room, copy, stream = Path(top, "room"), Path(top, "program"), Path(top, "stream")
    room.mkdir()
    copy.write_bytes(Path(program()).read_bytes())
    stream.write_bytes(STREAM.read_bytes())
    for path, mode in (Path(top), 0o755), (copy, 0o755), (stream, 0o644):
        path.chmod(mode)

    as_nobody = nobody if os.getuid() == 0 else None
    try:
        subprocess.run([copy, "--help"], capture_output=True, preexec_fn=as_nobody)
    except (OSError, subprocess.SubprocessError):
        print("skip  folders and files that one may not write to: nobody can't run the program here")
        return

    def tried(name: str, folder_mode: int) -> Tuple[End, List[str]]:
        """What comes of it with the folder in this mode, and the names that the folder has then."""
        room.chmod(folder_mode)
        words: List[Given] = [copy, "apply", "--save", room / name, stream]
        run = subprocess.run(words, capture_output=True, preexec_fn=as_nobody)
        room.chmod(0o755)
        return (run.returncode, run.stdout, fault_in(run.stderr)), os.listdir(room)

    kept = room / "kept"
    kept.write_bytes(OLD)
    for shows, folder_mode, mode in (
        ("a folder that may only be read", 0o555, 0o666),
        ("a file that may only be read", 0o777, 0o444),
        ("a file that may only be written to", 0o777, 0o222),
        ("a folder that may only be written to", 0o333, 0o666),
    ):
        kept.chmod(mode)
        came = tried("kept", folder_mode)
        kept.chmod(0o644)
        yield shows, (came, kept.read_bytes()), ((NOT_KEPT, ["kept"]), OLD)
    yield "a new file in a folder that may only be read", tried("new", 0o555), (NOT_KEPT, ["kept"])
    if as_nobody:
        kept.write_bytes(b"")
        os.chown(kept, 65534, 0)
        kept.chmod(0o664)
        found = tried("kept", 0o777), kept.read_bytes(), kept.stat().st_gid, kept.stat().st_mode & 0o777
        yield "a group that can't be set may do what all others may", found, ((KEPT, ["kept"]), SAVED, 65534, 0o644)
        kept.write_bytes(OLD)
        os.chown(kept, 65533, 65533)
        kept.chmod(0o666)
        sticky = tried("kept", 0o1777), kept.read_bytes()
        yield "another's file in a sticky folder", sticky, ((NOT_KEPT, ["kept"]), OLD)


SAVING: List[Callable[[str], Found]] = [
    loaded_and_saved, in_use, slips, found_before, leftovers, migrated, replaced, written_to, led_elsewhere, closed_at_first, named, full_disk,
    read_only]
