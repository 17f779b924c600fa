"""Runs the program once for each way in which it ends, and compares its exit status, its standard output and its standard error.
exits_saving.py has the cases of ledgers that are loaded, saved and migrated, exits_signals.py those of signals."""

import os
import pty
import re
import select
import signal
import socket
import subprocess
import time
import tty
from pathlib import Path
from typing import List, Optional, Sequence, Tuple, Union

from cases import Cases, Found, add_tests
from common import Word
from exits_run import (
    COUNTED, EMPTY, FIRST, MEGABYTE, MEMORY, PATIENCE, READ, REPORT, RUN, SAVED, SPIN, STREAM, WRITE, Given, Running,
    broken_pipe, closes, ended, explained, fault_in, limits, line_from, program)
from exits_saving import SAVING
from exits_signals import SIGNALS

# The number or the name to write to, and what the program gets as standard input, if not ours.
Ends = Tuple[Union[int, Path], Optional[int]]
MORE = b"\n\nFor more information, try '--help'.\n"
USAGE = b"\n\nUsage: moveledger <COMMAND>" + MORE
NOT_TEXT = b"error: invalid UTF-8 was detected in one or more arguments" + USAGE
# Words that ask for nothing that can be done, and what is said of them, in the form of clap's texts.
TEXTS = {
    "": b"error: 'moveledger' requires a subcommand but one was not provided\n  [subcommands: apply, migrate, prove, check, help]" + USAGE,
    "mint first-coin.stream": b"error: unrecognized subcommand 'mint'\n\n  tip: a similar subcommand exists: 'migrate'" + USAGE,
    "apply": b"error: the following required arguments were not provided:\n  <FILE>\n\nUsage: moveledger apply <FILE>" + MORE,
    "apply first-coin.stream more": b"error: unexpected argument 'more' found\n\nUsage: moveledger apply [OPTIONS] <FILE>" + MORE,
    "apply --save": b"error: a value is required for '--save <PATH>' but none was supplied" + MORE,
    "apply --load a --load b first-coin.stream": b"error: the argument '--load <PATH>' cannot be used multiple times\n\n"
    b"Usage: moveledger apply [OPTIONS] <FILE>" + MORE,
    "migrate old.ledger": b"error: the following required arguments were not provided:\n  <NEW>\n\nUsage: moveledger migrate <OLD> <NEW>" + MORE,
    "prove": b"error: the following required arguments were not provided:\n  <MODULE>\n\nUsage: moveledger prove <MODULE>" + MORE,
    "prove --steps x coin.module": b"error: invalid value 'x' for '--steps <N>': invalid digit found in string" + MORE,
    "prove --steps": b"error: a value is required for '--steps <N>' but none was supplied" + MORE,
    "check coin.module": b"error: the following required arguments were not provided:\n  <CERT>\n\n"
    b"Usage: moveledger check <MODULE> <CERT>" + MORE,
}
# And what they print that ask for help.
HELP = {
    "--help": b"A proved bytecode verifier for Move with a ledger of resources\n\n"
    b"Usage: moveledger <COMMAND>\n\n"
    b"Commands:\n  apply    Answer the records of a stream, and print the report\n  migrate  Convert a saved ledger to the current form\n  prove    Print a certificate for a module, in hexadecimal, or why there is none\n  check    Print `accepted` if a module passes with a certificate, or why not\n  help     Print this message or the help of the given subcommand(s)\n\n"
    b"Options:\n  -h, --help  Print help\n\n"
    b"Version: moveledger --version prints it\n\n"
    b"Exit status: 0 done; 1 a fault, which standard error names; 2 a mistake in the command line, or\n"
    b"help was asked for; 3 a module, a certificate or a saved ledger is refused, a module is too\ncomplex, or a search too long.\n",
    "apply --help": b"Answer the records of a stream, and print the report\n\n"
    b"Usage: moveledger apply [OPTIONS] <FILE>\n\n"
    b"Arguments:\n  <FILE>  The stream of records; - is standard input\n\n"
    b"Options:\n      --load <PATH>  Begin with the ledger that is saved in this file, and not with an empty one\n      --save <PATH>  Save the ledger in this file once the input is answered to its end\n  -h, --help         Print help\n\n"
    b"Example: moveledger apply --load coins.ledger --save coins.ledger today.stream\n",
    "migrate --help": b"Convert a saved ledger to the current form\n\n"
    b"Usage: moveledger migrate <OLD> <NEW>\n\n"
    b"Arguments:\n  <OLD>  A saved ledger of either form\n  <NEW>  The file that is replaced by it, or made; it may be OLD\n\n"
    b"Options:\n  -h, --help  Print help\n\n"
    b"Example: moveledger migrate old.ledger new.ledger\n",
    "prove --help": b"Print a certificate for a module, in hexadecimal, or why there is none\n\n"
    b"Usage: moveledger prove [OPTIONS] <MODULE>\n\n"
    b"Arguments:\n  <MODULE>  The bytes of a module; - is standard input\n\n"
    b"Options:\n      --steps <N>  Print `too long` if the search takes more than so many steps: each instruction, each time it is visited\n"
    b"  -h, --help       Print help\n\n"
    b"Example: moveledger prove coin.module > coin.certificate\n",
    "check --help": b"Print `accepted` if a module passes with a certificate, or why not\n\n"
    b"Usage: moveledger check <MODULE> <CERT>\n\n"
    b"Arguments:\n  <MODULE>  The bytes of a module; - is standard input\n  <CERT>    The file with the text of its certificate, as prove prints it\n\n"
    b"Options:\n  -h, --help  Print help\n\n"
    b"Example: moveledger check coin.module coin.certificate\n",
}
# A record of a kind that none has, and a length of 33,554,432 bytes.
LONG = bytes.fromhex("0980808010")


def answers(words: Sequence[Given], ends: Ends, steps: Sequence[Tuple[bytes, int]]) -> Tuple[List[bytes], bytes, int, bytes]:
    """Starts the program, sends it each step's bytes only when the answers to those before are there, and gives all answers,
    the rest of its report, its status and its standard error."""
    to, given = ends
    run = Running([program(), *words], stdin=given)
    if given is not None:
        os.close(given)
    number = os.open(to, os.O_WRONLY) if isinstance(to, Path) else to
    told = []
    for sent, lines in steps:
        os.write(number, sent)
        told.append(run.lines(lines))
    os.close(number)
    status, rest, errors = run.ended()
    return told, rest, status, fault_in(errors)


def pipe_ends() -> Ends:
    read, write = os.pipe()
    return write, read


def socket_ends() -> Ends:
    ours, given = socket.socketpair()
    return ours.detach(), given.detach()


def terminal_ends() -> Ends:
    ours, given = pty.openpty()
    # Bytes go through as they are, and come one at a time.
    tty.setraw(given)
    return ours, given


def stops_at_writer() -> Tuple[int, bytes, bytes]:
    """A standard output that nobody reads any more after the first answer: the next record's is a fault, though more may come."""
    example = STREAM.read_bytes()
    read, write = os.pipe()
    run = Running([program(), "apply", "-"], stdout=write)
    os.close(write)
    run.write(example[:FIRST])
    first = line_from(read)
    os.close(read)
    run.write(example[FIRST:])
    # Standard input stays open: the program doesn't wait for it.
    status, _, errors = run.ended()
    run.end_input()
    return status, first, fault_in(errors)


def shown_on_a_terminal(words: Sequence[Given], is_report_there: bool) -> Tuple[int, bytes]:
    """What standard error shows as a terminal."""
    ours, given = pty.openpty()
    run = subprocess.Popen([program(), *words], stdout=given if is_report_there else subprocess.DEVNULL, stderr=given)
    os.close(given)
    shown = b""
    while select.select([ours], [], [], PATIENCE)[0]:
        try:
            piece = os.read(ours, 65_536)
        except OSError:
            break
        if not piece:
            break
        shown += piece
    os.close(ours)
    return run.wait(), shown


def writes_of(count: int) -> int:
    """How often the program writes if so many records come together."""
    run = Running([program(), "apply", "-"])
    run.write(b"\t\0" * count)
    run.lines(count)
    told = Path(f"/proc/{run.run.pid}/io").read_text(encoding="ascii")
    run.closed()
    return int(told.split("syscw: ")[1].split()[0])


def asked_step_by_step(folder: str) -> Found:
    """What comes of records that are sent one by one."""
    example = STREAM.read_bytes()
    audit = b"\4\0"
    # The second record comes with the first byte of the third one, which may not hold its answer back.
    steps = [(example[:FIRST], 1), (example[FIRST:] + audit[:1], 1), (audit[1:], 2), (b"\t\0" * 3, 3), (b"\1", 0)]
    told = [b"1 published 1\n", b"2 returned 5\n", COUNTED, b"4 refused 1\n5 refused 1\n6 refused 1\n", b""]
    wanted = (told, b"7 refused 1\n", 0, b"")
    yield "a pipe as standard input", answers(["apply", "-"], pipe_ends(), steps), wanted
    yield "a pipe by its name", answers(["apply", "/dev/stdin"], pipe_ends(), steps), wanted
    yield "a socket as standard input", answers(["apply", "-"], socket_ends(), steps), wanted
    fifo = Path(folder, "fifo")
    os.mkfifo(fifo)
    yield "a named pipe", answers(["apply", fifo], (fifo, None), steps), wanted
    yield "many records that come together are answered by few writes", writes_of(400) < 100, True
    yield "a writer that fails while one waits", stops_at_writer(), (1, b"1 published 1\n", WRITE)
    with open(STREAM, "rb") as file:
        yield "a regular file as standard input", ended(["apply", "-"], stdin=file), (0, REPORT, b"")
    yield "a closed standard input", ended(["apply", "-"], preexec_fn=closes(0)), (1, b"", READ)


def lasting(folder: str, count: int) -> Tuple[Path, int, bytes]:
    """An input of so many runs that never end, its size, and the report on it."""
    file = Path(folder, "spin")
    file.write_bytes(SPIN + count * RUN)
    report = b"1 published 1\n" + b"".join(b"%d exhausted steps 10000000\n" % n for n in range(2, count + 2))
    return file, len(SPIN) + count * len(RUN), report


def watched(folder: str) -> Found:
    """What a terminal shows of a run that takes some six seconds, and of a short one."""
    whole: List[Given] = ["apply", STREAM]
    began = time.monotonic()
    ended(["apply", lasting(folder, 50)[0]])
    count = max(50, int(6 * 50 / (time.monotonic() - began)))
    long, size, report = lasting(folder, count)
    yield "a long run shows nothing where standard error is no terminal", ended(["apply", long]), (0, report, b"")
    # Where this machine has become so quick that it ends within two seconds, it is given more to do.
    for _ in range(4):
        status, shown = shown_on_a_terminal(["apply", long], False)
        lines = shown.split(b"\r")
        done = [line.split() for line in lines if line.endswith(b" records")]
        if done:
            break
        count *= 2
        long, size, report = lasting(folder, count)
    is_whole = all(int(words[2]) == size and 0 < int(words[0]) <= size and 1 < int(words[4]) <= count + 1 for words in done)
    is_rising = [int(words[4]) for words in done] == sorted({int(words[4]) for words in done})
    found = status, len(done) > 0, is_whole, is_rising, lines[-1]
    yield "a long run shows on a terminal how far it is", found, (0, True, True, True, b"\x1b[K")
    status, shown = shown_on_a_terminal(["apply", long], True)
    kept = b"".join(line for line in re.split(rb"\r\x1b\[K|\r(?!\n)", shown) if not line.endswith(b" records"))
    yield "a terminal that has both keeps the report whole", (status, kept), (0, report.replace(b"\n", b"\r\n"))
    yield "a short run shows nothing on a terminal", shown_on_a_terminal(whole, False), (0, b"")


def said_first(contents: bytes) -> Tuple[bytes, bytes]:
    """What is said of an input that goes on, and the first answer to it."""
    run = Running([program(), "apply", "-"])
    assert run.run.stderr is not None
    run.write(contents)
    said = line_from(run.run.stderr.fileno())
    answer = run.lines(1)
    run.closed()
    return said, answer


def told_of_files(folder: str) -> Found:
    """What is said of a fault behind its own line, and of a file that is plainly of another kind."""
    none = f"{folder}/none"
    module, ledger, text = (f"{folder}/told.{kind}" for kind in ("module", "ledger", "text"))
    for path, contents in (module, EMPTY), (ledger, SAVED), (text, b"publish by 0x1 {}\n"):
        Path(path).write_bytes(contents)
    missing = "No such file or directory (os error 2)"
    is_folder = "Is a directory (os error 21)"
    is_module, is_ledger = "this is a module, in bytes: `prove` and `check` take it", "this is a saved ledger: `apply --load` takes it"
    is_text = "this is a text, not a {0}: assemble it first, `tools/moveasm FILE -o FILE.{0}`"
    is_stream, is_cert = "this is a stream of records: `apply` takes it", "there is no such file, and CERT is the name of one"
    told: List[Tuple[List[Word], int, bytes, Word, str]] = [
        (["apply", none], 1, READ, none, missing),
        (["apply", folder], 1, READ, folder, is_folder),
        (["prove", folder], 1, READ, folder, is_folder),
        (["apply", "--load", none, STREAM], 1, READ, none, missing),
        (["migrate", none, f"{folder}/new"], 1, READ, none, missing),
        (["prove", none], 1, READ, none, missing),
        (["check", module, none], 1, READ, none, is_cert),
        (["apply", module], 0, b"", module, is_module),
        (["apply", ledger], 0, b"", ledger, is_ledger),
        (["apply", text], 0, b"", text, is_text.format("stream")),
        (["apply", "--load", text, STREAM], 3, b"", text, "this is text, not a saved ledger"),
        (["apply", "--load", module, STREAM], 3, b"", module, is_module),
        (["prove", STREAM], 3, b"", STREAM, is_stream),
        (["prove", text], 3, b"", text, is_text.format("module")),
        (["check", ledger, text], 3, b"", ledger, is_ledger),
    ]
    for words, status, fault, file, why in told:
        wanted = f"{fault.decode()}moveledger: {file}: {why}\n"
        yield f"what is said of `{words[0]}` of {Path(file).name}", explained(words), (status, wanted)
    cut = Path(folder, "told.stream")
    cut.write_bytes(STREAM.read_bytes() + b"\1")
    not_whole = "the last record is incomplete, or its length is invalid"
    yield "what is said of a cut record", explained(["apply", cut]), (0, f"moveledger: {cut}: {not_whole}\n")
    yield "what is said of it from standard input", explained(["apply", "-"], input=cut.read_bytes()), (0, f"moveledger: standard input: {not_whole}\n")
    # Taken for a record, the text has a length of 117 bytes.
    for contents, advice in (b"publish by 0x1 {}\n" * 7, is_text.format("stream")), (SAVED, is_ledger), (EMPTY, is_module):
        yield f"the advice `{advice[:24]}..` before the first answer", said_first(contents), (f"moveledger: standard input: {advice}\n".encode(), b"1 refused 1\n")
    with open("/dev/full", "wb") as full:
        found = explained(["apply", STREAM], stdout=full)
    yield "what is said of a full standard output", found, (1, "fault: write\nmoveledger: can't write to standard output: No space left on device (os error 28)\n")
    yield "a module from standard input", ended(["prove", "-"], input=EMPTY), (0, b"\n", b"")
    # Five instructions are each visited once for availabilities, and once for edges.
    coin = STREAM.read_bytes()[20:119]
    yield "as many steps as the search takes", ended(["prove", "--steps", "10", "-"], input=coin), (0, b"01010100\n", b"")
    yield "a step less", ended(["prove", "--steps", "9", "-"], input=coin), (3, b"too long\n", b"")
    Path(text).write_bytes(b"\n")
    yield "a module from standard input, with a certificate", ended(["check", "-", text], input=EMPTY), (0, b"accepted\n", b"")
    yield "the version", ended(["--version"]), (0, b"moveledger 1.0.0\n", b"")


def answered(folder: str) -> Found:
    """What comes of an input, of words, and of a standard output."""

    def stream(name: str, *parts: bytes) -> List[Given]:
        file = Path(folder, name)
        file.write_bytes(b"".join(parts))
        return ["apply", file]

    example = STREAM.read_bytes()
    whole: List[Given] = ["apply", STREAM]
    yield "an input is answered", ended(whole), (0, REPORT, b"")
    yield "an input without a record", ended(stream("empty")), (0, b"", b"")
    yield "a cut record is answered", ended(stream("cut", example, b"\1")), (0, REPORT + b"3 refused 1\n", b"")
    yield "a word that is no UTF-8", ended(["apply", b"\xff"]), (2, b"", NOT_TEXT)
    yield "a word too many that is no UTF-8", ended([*whole, b"\xff"]), (2, b"", NOT_TEXT)
    for words, text in TEXTS.items():
        yield f"the words '{words}'", ended(words.split()), (2, b"", text)
    for words, text in HELP.items():
        yield f"the words '{words}'", ended(words.split()), (2, text, b"")
    yield "a folder", ended(["apply", folder]), (1, b"", READ)
    yield "a file that isn't there", ended(["apply", f"{folder}/none"]), (1, b"", READ)
    with open("/dev/full", "wb") as full:
        yield "a full standard output", ended(whole, full), (1, None, WRITE)
        yield "a full standard output, and nothing to write", ended(stream("empty"), full), (0, None, b"")
    many = stream("many", *[b"\t\0"] * 100_000)
    with open("/dev/full", "wb") as full:
        yield "a full standard output before the end", ended(many, full), (1, None, WRITE)
    pipe = broken_pipe()
    yield "a standard output that nobody reads", ended(whole, pipe), (1, None, WRITE)
    os.close(pipe)
    closed = ended(whole, None, preexec_fn=closes(1))
    yield "a closed standard output", closed, (1, None, WRITE)
    silent = subprocess.run([program(), "apply", folder], preexec_fn=closes(2)).returncode
    yield "a closed standard error", silent, 1
    lines = b"".join(b"%d refused 1\n" % n for n in range(1, 100_001))
    yield "many lines", ended(many), (0, lines, b"")
    few = limits(24)
    short = stream("short", example, LONG, b"12345")
    yield "a long payload that doesn't come takes no memory", ended(short, preexec_fn=few), (0, REPORT + b"3 refused 1\n", b"")
    long = stream("long", example, LONG, bytes(32 * MEGABYTE))
    yield "a long payload that comes, and no memory for it", ended(long, preexec_fn=few), (1, REPORT, MEMORY)
    yield "a long payload that comes", ended(long), (0, REPORT + b"3 refused 1\n", b"")


def setUpModule() -> None:
    """What is mounted goes where the run is ended from outside, too."""
    signal.signal(signal.SIGTERM, signal.default_int_handler)


class Exits(Cases):
    """How the program ends."""


add_tests(Exits, [answered, told_of_files, asked_step_by_step, watched, *SAVING, *SIGNALS])
