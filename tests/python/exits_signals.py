"""What test_exits.py tries of signals: to the program that runs behind scripts/until-signal, and to that."""

import os
import signal
import socket
import subprocess
import sys
import time
from pathlib import Path
from typing import Any, Callable, List, Sequence, Tuple

from cases import Found
from common import TOP
from exits_run import (
    FIRST, NOT_KEPT, OLD, PATIENCE, READ, REPORT, RUN, SAVED, SPIN, STREAM, WRITE, Given, Running, Shelf, fault_in, mint_by,
    no_bytes, program)

ENDS = signal.SIGTERM, signal.SIGINT, signal.SIGHUP
MORE = signal.SIGQUIT, signal.SIGUSR1, signal.SIGUSR2, signal.SIGALRM
# A second signal within so many seconds is the first one: scripts/until-signal says why.
AT_ONCE = 0.2
SPUN = b"".join(b"%d exhausted steps 10000000\n" % n for n in range(2, 2_000))


def heard() -> None:
    """Signals as they come, whatever this process was told to ignore."""
    for number in (*ENDS, *MORE):
        signal.signal(number, signal.SIG_DFL)


def ending(number: int) -> bytes:
    """What is said once a signal has come."""
    name = signal.Signals(number).name
    return f"moveledger: {name}: no more records are read; the ledger of those that were is saved now\n".encode()


def told(number: int) -> bytes:
    return ending(number) + f"moveledger: {signal.Signals(number).name}: saved\n".encode()


def by_wrapper(*words: Given) -> List[Given]:
    """The program with what hands records on to it."""
    return [sys.executable, "-I", "-S", TOP / "scripts/until-signal", program(), *words]


def by_script(*words: Given) -> List[Given]:
    """The program as ./moveledger runs it, and one that is installed."""
    return ["sh", "-c", 'program=$0 scripts=$1; shift; . "$scripts/run.sh"', program(), TOP / "scripts", *words]


def begun(path: Given, records: bytes, lines: int, words: Callable[..., List[Given]] = by_wrapper, **settings: Any) -> Tuple[Running, bytes]:
    """The program with what hands records on to it, once so many lines of answers to these are there, and these lines."""
    run = Running(words("apply", "--save", path, "-"), **{"preexec_fn": heard, **settings})
    return run, run.sent(records, lines)


def signalled(run: Running) -> Tuple[int, bytes, bytes]:
    """How a program ends while its input stays open: its status, the rest of its report, and its standard error."""
    came = run.ended()
    run.end_input()
    return came


def child(run: Running) -> int:
    """The program behind the wrapper."""
    return int(Path(f"/proc/{run.run.pid}/task/{run.run.pid}/children").read_text().split()[0])


def heard_of(run: Running, number: int) -> bytes:
    """Sends a signal, and answers the line that is said of it."""
    run.run.send_signal(number)
    assert run.run.stderr is not None
    return run.run.stderr.readline()


def told_to_end(folder: str) -> Found:
    """One signal, to the wrapper alone and to all."""
    shelf = Shelf(folder)
    found: object
    kept, example = shelf.folder / "kept", STREAM.read_bytes()
    for number in ENDS:
        for to_all, shows in (False, "the wrapper"), (True, "the wrapper and the program"):
            run, lines = begun(kept, example + b"\4", 2)
            for process in [run.run.pid, child(run)][: 1 + to_all]:
                os.kill(process, number)
            found = lines, signalled(run), shelf.state("kept")
            yield f"{number.name} to {shows}", found, (REPORT, (128 + number, b"", told(number)), (SAVED, []))
            kept.unlink(missing_ok=True)
    for number in MORE:
        run, lines = begun(kept, example + b"\4", 2)
        run.run.send_signal(number)
        yield f"{number.name}", (lines, signalled(run), shelf.state("kept")), (REPORT, (128 + number, b"", told(number)), (SAVED, []))
        kept.unlink(missing_ok=True)
    run, lines = begun(kept, example[:FIRST], 1)
    os.kill(child(run), signal.SIGTERM)
    found = lines, run.sent(example[FIRST:]), run.closed(), shelf.state("kept")
    yield "SIGTERM to the program alone is ignored", found, (b"1 published 1\n", b"2 returned 5\n", (0, b"", ""), (SAVED, []))
    kept.unlink(missing_ok=True)
    run, lines = begun(kept, SPIN + 20 * RUN, 1)
    run.run.send_signal(signal.SIGTERM)
    status, rest, errors = signalled(run)
    found = lines, status, SPUN.startswith(rest), errors, kept.exists() and kept.read_bytes()[:4] == OLD[:4]
    yield "SIGTERM within a record", found, (b"1 published 1\n", 143, True, told(signal.SIGTERM), True)
    run, lines = begun(kept, SPIN + 2_000 * RUN, 1)
    run.run.send_signal(signal.SIGTERM)
    rest = signalled(run)[1]
    yield "few records wait that are answered before it ends", (SPUN.startswith(rest), len(rest.splitlines()) < 500), (True, True)
    run, lines = begun("/dev/full", example + b"\4", 2)
    run.run.send_signal(signal.SIGTERM)
    status, rest, errors = signalled(run)
    found = lines, status, rest, errors.startswith(ending(signal.SIGTERM) + WRITE), errors.endswith(b"saved\n")
    yield "SIGTERM where it can't be saved", found, (REPORT, 1, b"", True, False)
    kept.unlink(missing_ok=True)
    run, lines = begun(kept, example, 2)
    run.run.kill()
    run.run.wait()
    for _ in range(10 * PATIENCE):
        if kept.exists() and kept.read_bytes() == SAVED:
            break
        time.sleep(0.1)
    yield "the wrapper is killed", (lines, shelf.state("kept")[0]), (REPORT, SAVED)
    run.end_input()
    kept.write_bytes(OLD)
    run, lines = begun(kept, example + b"\4", 2)
    os.kill(child(run), signal.SIGKILL)
    found = lines, signalled(run), kept.read_bytes()
    yield "the program is killed", found, (REPORT, (137, b"", b""), OLD)


def twice(folder: str) -> Found:
    """Two signals."""
    shelf = Shelf(folder)
    found: object
    kept = shelf.file("twice", OLD)
    run, lines = begun(kept, SPIN + 500 * RUN, 1)
    first = heard_of(run, signal.SIGINT)
    time.sleep(1.5 * AT_ONCE)
    run.run.send_signal(signal.SIGTERM)
    status, rest, errors = signalled(run)
    found = first, status, b"a second signal" in errors, b"saved\n" in errors, kept.read_bytes(), len(rest.splitlines()) < 500
    yield "a second signal ends it at once", found, (ending(signal.SIGINT), 137, True, False, OLD, True)
    kept.unlink()
    run, lines = begun(kept, STREAM.read_bytes(), 2)
    # Those that come while it is stopped come at once, however busy the machine is.
    for number in signal.SIGSTOP, signal.SIGTERM, signal.SIGTERM, signal.SIGHUP, signal.SIGCONT:
        run.run.send_signal(number)
    status, rest, errors = signalled(run)
    found = status in (143, 129), errors == told(status - 128), shelf.state("twice")
    yield "signals that come at once are one", found, (True, True, (SAVED, []))
    kept.unlink(missing_ok=True)
    # A busy machine may take longer to answer, and `timeout` longer between the two.
    for seconds in "1", "4", "16", "64":
        kept.unlink(missing_ok=True)
        ended = Running(["timeout", seconds, *by_wrapper("apply", "--save", kept, "-")], preexec_fn=heard)
        try:
            lines = ended.sent(STREAM.read_bytes(), 2)
        except BrokenPipeError:
            lines = b""
        found = lines, signalled(ended), shelf.state("twice")
        if lines == REPORT and found[1][0] == 124:
            break
    yield "timeout, which sends two", found, (REPORT, (124, b"", told(signal.SIGTERM)), (SAVED, []))


def early(folder: str) -> Found:
    """A signal in the first moments: what was answered is saved, and there is no traceback."""
    shelf = Shelf(folder)
    kept, wrong = shelf.folder / "early", []
    for number in ENDS:
        for place in range(8):
            run = Running(by_script("apply", "--save", kept, "-"), preexec_fn=heard)
            run.write(STREAM.read_bytes())
            time.sleep(place * 0.012)
            run.run.send_signal(number)
            status, lines, errors = signalled(run)
            is_whole = (status, errors) == (128 + number, told(number)) and kept.exists() and (kept.read_bytes() == SAVED or not lines)
            # Python says nothing of what ends it while it starts; its status is then 1 now and then.
            is_before = status in (-number, 128 + number, 1) and (lines, errors) == (b"", b"") and not kept.exists()
            if not is_whole and not is_before:
                wrong.append((number, place, status, lines, errors))
            kept.unlink(missing_ok=True)
    yield "a signal in the first moments", wrong, []


def ignored(folder: str) -> Found:
    """A signal that was ignored at the start is ignored."""
    shelf = Shelf(folder)
    kept = shelf.folder / "ignored"
    run, lines = begun(kept, STREAM.read_bytes(), 2, preexec_fn=lambda: signal.signal(signal.SIGHUP, signal.SIG_IGN) and None)
    run.run.send_signal(signal.SIGHUP)
    time.sleep(0.1)
    yield "SIGHUP where it is ignored, as nohup does", (lines, run.closed(), shelf.state("ignored")), (REPORT, (0, b"", ""), (SAVED, []))


def by_itself(folder: str) -> Found:
    """Runs that end without a signal."""
    shelf = Shelf(folder)
    found: object
    kept, example = shelf.folder / "kept", STREAM.read_bytes()
    kept.unlink(missing_ok=True)
    run, lines = begun(kept, example, 2)
    run.end_input()
    yield "one whose input ends", (lines, run.ended(), shelf.state("kept")), (REPORT, (0, b"", b""), (SAVED, []))
    kept.unlink()
    run, lines = begun(kept, example + b"\1", 2)
    run.end_input()
    status, rest, errors = run.ended()
    found = lines, status, rest, fault_in(errors), shelf.state("kept")
    yield "one whose input ends within a record", found, (REPORT, 0, b"3 refused 1\n", b"", (SAVED, []))
    run = Running(by_wrapper("apply", "--load", shelf.folder / "none", "--save", kept, "-"), preexec_fn=heard)
    status, rest, errors = signalled(run)
    yield "one that ends by itself", (status, rest, fault_in(errors)), (1, b"", READ)
    kept.unlink()
    run, lines = begun(kept, example + b"\1" + 10 * b"\xff" + example, 3)
    status, rest, errors = signalled(run)
    yield "one with what is no record", (lines, status, rest), (REPORT + b"3 refused 1\n", 0, b"")
    long = b"\1" + b"\x80\x80\x80\x01" + bytes(1 << 21)
    kept.unlink()
    run, lines = begun(kept, long + example[FIRST:], 2)
    yield "one with a long record", (lines, run.closed()), (b"1 refused 1\n2 rejected 3\n", (0, b"", ""))
    kept.unlink()
    run = Running(by_wrapper("apply", "--save", kept, "-"), stdin=reset())
    status, rest, errors = run.ended()
    said = b"moveledger: standard input: Connection reset by peer (os error 104); the ledger of the records that were read is saved\n"
    yield "one whose input can't be read any more", (status, errors, kept.exists()), (1, READ + said, True)
    kept.unlink(missing_ok=True)
    here = os.open(shelf.folder, os.O_RDONLY)
    run = Running(by_script("apply", "--save", kept, "-"), stdin=here)
    os.close(here)
    status, rest, errors = run.ended()
    yield "a folder as standard input", (status, rest, fault_in(errors), kept.exists()), (1, b"", READ, False)


def reset() -> int:
    """A connection that the other side has broken off."""
    with socket.create_server(("127.0.0.1", 0)) as server:
        ours = socket.create_connection(server.getsockname())
        given, _ = server.accept()
        ours.setsockopt(socket.SOL_SOCKET, socket.SO_LINGER, b"\1\0\0\0\0\0\0\0")
        ours.close()
        return given.detach()


def others(folder: str) -> Found:
    """What the script does beside signals."""
    shelf = Shelf(folder)
    found: object
    kept = shelf.file("kept", OLD)
    limited = subprocess.run(by_script("apply", "--save", kept, STREAM), capture_output=True, preexec_fn=no_bytes)
    found = (limited.returncode, limited.stdout, fault_in(limited.stderr)), kept.read_bytes()
    yield "a limit of a file's size, by the script", found, (NOT_KEPT, OLD)
    read, write = os.pipe()
    os.write(write, b"for another")
    run = Running(by_script("apply", "--save", "-", STREAM), stdin=read, cwd=shelf.folder)
    found = run.ended(), os.read(read, 100), shelf.state("-")
    yield "a ledger of the name -, and an input that nobody reads", found, ((0, REPORT, b""), b"for another", (SAVED, []))
    os.close(write)
    with open(shelf.file("nine", SAVED), "rb") as nine:
        kept.unlink()
        words = by_script("apply", "--load", "/dev/fd/9", "--save", kept, "-")
        nines = subprocess.run(words, input=b"", capture_output=True, pass_fds=[9], preexec_fn=lambda: os.dup2(nine.fileno(), 9) and None)
    yield "a ledger that is loaded by the number 9", (nines.returncode, nines.stderr, shelf.state("kept")), (0, b"", (SAVED, []))
    kept.unlink()
    words = ["sh", "-c", 'exec "$@" 2>&-', "sh", *by_script("apply", "--save", kept, "-")]
    run = Running(words, preexec_fn=heard)
    lines = run.sent(STREAM.read_bytes(), 2)
    run.run.send_signal(signal.SIGTERM)
    yield "a closed standard error", (lines, signalled(run), shelf.state("kept")), (REPORT, (143, b"", b""), (SAVED, []))


def busy(words: Sequence[Given], records: Path) -> float:
    """The seconds of a processor that it takes to answer records from a pipe, with all that is beside it."""
    with subprocess.Popen(["cat", records], stdout=subprocess.PIPE) as given:
        run = subprocess.Popen(words, stdin=given.stdout, stdout=subprocess.DEVNULL, stderr=subprocess.DEVNULL)
        _, status, used = os.wait4(run.pid, 0)
        run.returncode = os.WEXITSTATUS(status)
    assert run.returncode == 0, run.returncode
    return float(used.ru_utime + used.ru_stime)


def costs(folder: str) -> Found:
    """What handing records on takes: not much beside what the program takes."""
    shelf = Shelf(folder)
    records = shelf.file("many", STREAM.read_bytes()[:FIRST] + b"".join(mint_by(number) for number in range(2, 50_002)))
    kept = shelf.file("many.ledger")
    bare = min(busy([program(), "apply", "--save", kept, "/dev/stdin"], records) for _ in range(2))
    whole = min(busy(by_wrapper("apply", "--save", kept, "-"), records) for _ in range(2))
    yield "handing on 50,000 mints costs less than they do", "" if whole < 2 * bare + 0.1 else f"{whole:.2f} s, and {bare:.2f} without", ""


SIGNALS: List[Callable[[str], Found]] = [told_to_end, twice, early, ignored, by_itself, others, costs]
