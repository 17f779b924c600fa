"""scripts/until-signal, which hands whole records on to a program until a signal comes, with commands of a shell in the program's place."""

import fcntl
import os
import pty
import resource
import runpy
import select
import signal
import socket
import subprocess
import sys
import tempfile
import termios
import time
import unittest
from pathlib import Path
from typing import Any, Callable, Dict, List, Sequence, Tuple

from . import TOP

WRAPPER = TOP / "scripts/until-signal"
APPLY = ["apply", "--save", "kept", "-"]
ENDS = signal.SIGTERM, signal.SIGINT, signal.SIGHUP
# What asks how many bytes wait in a pipe, at most.
GET_PIPE_SIZE = 1032
COPIES = "cat"
WAITS = 'until [ -e "$0.goes-on" ]; do sleep 0.1; done; cat'
# More seconds than the busiest machine takes for what is awaited.
PATIENCE = 600
# The longest payload.
LONGEST = 33_554_432
# What begins as no record does.
LOST = b"\2" + 10 * b"\x80" + bytes(200)


def loaded() -> Dict[str, Any]:
    """The names of the wrapper, which keeps signals back while it is loaded."""
    before = signal.pthread_sigmask(signal.SIG_BLOCK, [])
    try:
        return runpy.run_path(str(WRAPPER))
    finally:
        signal.pthread_sigmask(signal.SIG_SETMASK, before)


def record(length: int, spelled: bytes = b"") -> bytes:
    """A record with a payload of so many bytes, whose length may be spelled longer than it need be."""
    rest, digits = length, b""
    while rest > 127:
        digits += bytes([rest & 127 | 128])
        rest >>= 7
    return b"\2" + (spelled or digits + bytes([rest])) + bytes(length)


class Records(unittest.TestCase):
    def setUp(self) -> None:
        names = loaded()
        self.long_size, self.behind_whole = names["long_size"], names["behind_whole"]

    def test_sizes(self) -> None:
        rows = [
            (b"", None), (b"\2", None), (b"\2\0", 2), (b"\2\x05", 7), (b"\2\x7f", 129), (b"\2\x80", None), (b"\2\x80\1", 131),
            (b"\2\xff\1", 258), (b"\2\x80\x80\1", 16_388), (b"\2\xff\xff\xff\x0f", 33_554_436), (b"\2\x80\x80\x80\x10", 33_554_437),
            (b"\2\x81\x80\x80\x10", 0), (b"\2" + 9 * b"\x80", None), (b"\2" + 9 * b"\x80" + b"\0", 11), (b"\2" + 9 * b"\x80" + b"\1", 0),
            (b"\2" + 10 * b"\x80", 0), (b"\2" + 10 * b"\xff", 0),
        ]
        for head, size in rows:
            with self.subTest(head.hex()):
                self.assertEqual(self.long_size(bytearray(head), 0), size)
                self.assertEqual(self.long_size(bytearray(b"\2\0" + head), 2), size)

    def test_the_last_whole_record_or_the_first_that_ends_at_a_place_or_behind(self) -> None:
        several: List[List[int]] = [
            [], [0], [5], [127], [128], [0, 127, 3], [126, 126, 126], [300, 2], [2, 300, 128, 127, 9], 20 * [60], [20_000]]
        for sizes in several:
            whole = [record(size) for size in sizes]
            ends = [len(b"".join(whole[:count])) for count in range(len(whole) + 1)]
            for rest in b"", b"\2", b"\2\x05abcd", b"\2\x7f" + bytes(126), b"\2\x80", b"\2\x80\1" + bytes(127), LOST:
                held = bytearray(b"".join(whole) + rest)
                for least in {0, 1, len(held) - 1, len(held), len(held) + 1, *(end + step for end in ends for step in (-1, 0, 1))}:
                    end = next((it for it in ends if it >= least), ends[-1])
                    is_lost = rest == LOST and least > ends[-1]
                    with self.subTest(f"{sizes} and {rest[:3].hex()} to {least}"):
                        self.assertEqual(self.behind_whole(held, least), (end, is_lost))

    def test_a_length_that_is_spelled_longer(self) -> None:
        held = bytearray(record(3, b"\x83\x80\0") + record(1))
        self.assertEqual(self.behind_whole(held, len(held)), (10, False))


class Words(unittest.TestCase):
    def given(self, number: int, words: Sequence[str]) -> bool:
        """What is answered for words where standard input is this one, or closed."""
        names, kept = loaded(), os.dup(0)
        try:
            os.dup2(number, 0) if number >= 0 else os.close(0)
            return bool(names["is_handed_on"](list(words)))
        finally:
            os.dup2(kept, 0)
            os.close(kept)

    def test_a_ledger_that_is_saved_after_records_of_standard_input(self) -> None:
        read, write = os.pipe()
        rows = [
            ("apply --save kept -", True), ("apply - --save kept", True), ("apply --save=kept -", True),
            ("apply --load old --save kept -", True), ("apply --save kept --load=old -", True), ("apply --save kept --other -", True),
            ("apply -", False), ("apply", False), ("", False), ("apply --save kept", False), ("apply --save", False),
            ("apply --save - file", False), ("apply --save kept file", False), ("apply --save kept - -", False),
            ("apply --load --save -", False), ("apply --saved=kept -", False), ("apply --load=--save -", False),
            ("migrate --save kept -", False), ("apply --load - --save kept file", False),
        ]
        for words, wanted in rows:
            with self.subTest(words):
                self.assertEqual(self.given(read, words.split()), wanted)
        os.close(read)
        os.close(write)

    def test_a_pipe_a_socket_or_a_terminal(self) -> None:
        ours, socket_end = socket.socketpair()
        master, terminal = pty.openpty()
        read, write = os.pipe()
        file, nothing, folder = os.open(WRAPPER, os.O_RDONLY), os.open(os.devnull, os.O_RDONLY), os.open(TOP, os.O_RDONLY)
        rows = [(read, True), (socket_end.fileno(), True), (terminal, True), (file, False), (nothing, False), (folder, False), (-1, False)]
        self.assertEqual([self.given(number, APPLY) for number, _ in rows], [wanted for _, wanted in rows])
        for number in read, write, master, terminal, file, nothing, folder:
            os.close(number)
        ours.close()
        socket_end.close()

    def test_few_bytes_wait_in_the_pipe(self) -> None:
        read, write = loaded()["small_pipe"]()
        self.assertEqual(fcntl.fcntl(write, GET_PIPE_SIZE), 4_096)
        os.write(write, b"1")
        self.assertEqual(os.read(read, 2), b"1")
        os.close(read)
        os.close(write)


class Runs(unittest.TestCase):
    """The wrapper as a process."""

    def setUp(self) -> None:
        self.place = tempfile.TemporaryDirectory()
        self.folder = Path(self.place.name)

    def tearDown(self) -> None:
        self.place.cleanup()

    def program(self, commands: str) -> str:
        """A program that runs these commands; `$0.began` is there once it has begun."""
        path = self.folder / "program"
        Path(f"{path}.began").unlink(missing_ok=True)
        path.write_text(f"#!/bin/sh\n: > \"$0.began\"\n{commands}\n")
        path.chmod(0o755)
        return str(path)

    def started(self, *words: str, **settings: Any) -> "subprocess.Popen[bytes]":
        pipe = subprocess.PIPE
        pipes: Dict[str, Any] = {"stdin": pipe, "stdout": pipe, "stderr": pipe, "preexec_fn": heard, **settings}
        run: "subprocess.Popen[bytes]" = subprocess.Popen([sys.executable, "-I", "-S", str(WRAPPER), *words], **pipes)
        self.addCleanup(close, run)
        return run

    def ended(self, *words: str, data: bytes = b"", **settings: Any) -> Tuple[int, bytes, bytes]:
        run = self.started(*words, **settings)
        printed, said = run.communicate(data, PATIENCE)
        return run.returncode, printed, said

    def is_begun(self) -> bool:
        return Path(self.folder, "program.began").exists()

    def send_once_begun(self, run: "subprocess.Popen[bytes]", number: int) -> None:
        """Sends a signal a while after the program has begun."""
        until(self.is_begun)
        time.sleep(0.3)
        run.send_signal(number)

    def signalled(self, run: "subprocess.Popen[bytes]", number: int) -> Tuple[int, bytes, bytes]:
        """How it ends by a signal while its input stays open."""
        self.send_once_begun(run, number)
        return ended(run)

    def signalled_while_full(self, run: "subprocess.Popen[bytes]") -> Tuple[int, bytes, bytes]:
        """How it ends by SIGTERM that comes once as much waits for the program as the pipe takes. The program goes on when that was heard of."""
        until(lambda: waiting(run) == 4_096)
        run.send_signal(signal.SIGTERM)
        assert run.stderr is not None
        heard_of = run.stderr.readline()
        Path(self.folder, "program.goes-on").touch()
        status, printed, said = ended(run)
        return status, printed, heard_of + said

    def test_all_of_an_input_that_ends_is_handed_on(self) -> None:
        whole = b"".join(record(size) for size in (0, 5, 127, 128, 70_000, 3, 4_096, 300_000)) + 3_000 * record(40)
        program = self.program(COPIES)
        for rest in b"", b"\2", b"\2\x05abc", b"\2" + 10 * b"\xff" + 100_000 * b"x" + record(3):
            with self.subTest(rest[:5].hex()):
                self.assertEqual(self.ended(program, *APPLY, data=whole + rest), (0, whole + rest, b""))

    def test_a_record_is_handed_on_once_it_is_whole(self) -> None:
        run = self.started(self.program(COPIES), *APPLY)
        assert run.stdout is not None
        steps = [(record(5) + b"\2\x05ab", record(5)), (b"cde\2", b"\2\x05abcde"), (b"\x80\1" + bytes(128), b"\2\x80\1" + bytes(128)),
                 (b"\2" + 9 * b"\xff", b""), (b"\xff", b"\2" + 10 * b"\xff"), (b"x", b"x"), (record(3)[:4], record(3)[:4])]
        for sent, handed_on in steps:
            send(run, sent)
            self.assertEqual(run.stdout.read(len(handed_on)), handed_on)
            self.assertEqual(select.select([run.stdout], [], [], 0.05)[0], [])
        self.assertEqual((run.communicate(timeout=PATIENCE), run.returncode), ((b"", b""), 0))

    def test_the_status_is_the_programs(self) -> None:
        ends = [("exit 0", 0), ("exit 1", 1), ("exit 3", 3), ("exit 255", 255), ("kill -KILL $$", 137), ("kill -SEGV $$", 139)]
        for commands, status in ends:
            with self.subTest(commands):
                self.assertEqual(self.ended(self.program(commands), *APPLY), (status, b"", b""))
                self.assertEqual(self.ended(self.program(commands), *APPLY, data=100_000 * record(5)), (status, b"", b""))

    def test_a_record_for_which_there_is_no_memory_ends_it_and_nothing_is_saved(self) -> None:
        program = self.program('cat && : > "$0.saved"')
        limit = 40 << 20
        run = self.started(program, *APPLY, env={**os.environ, "LC_ALL": "C"}, preexec_fn=lambda: resource.setrlimit(resource.RLIMIT_AS, (limit, limit)))
        try:
            printed, said = run.communicate(record(5) + record(LONGEST), PATIENCE)
        except BrokenPipeError:
            printed, said = run.communicate(None, PATIENCE)
        wanted = (1, record(5), b"fault: memory\nmoveledger: a record can't be read whole; nothing was saved\n", False)
        self.assertEqual((run.returncode, printed, said, Path(f"{program}.saved").exists()), wanted)

    def test_a_program_that_ends_by_itself_ends_it_too(self) -> None:
        run = self.started(self.program("exit 4"), *APPLY)
        self.assertEqual(ended(run), (4, b"", b""))

    def test_only_whole_records_are_handed_on_before_a_signal(self) -> None:
        rows = (signal.SIGTERM, b""), (signal.SIGINT, b"\2"), (signal.SIGHUP, b"\2\x05abc"), (signal.SIGTERM, b"\2\x80")
        for number, rest in rows:
            with self.subTest(f"{number.name} {rest.hex()}"):
                run = self.started(self.program(COPIES), *APPLY)
                send(run, record(5) + record(200) + rest)
                assert run.stdout is not None
                self.assertEqual(run.stdout.read(210), record(5) + record(200))
                run.send_signal(number)
                self.assertEqual(ended(run), (128 + number, b"", told(number)))

    def test_the_record_that_is_being_handed_on_comes_whole(self) -> None:
        run = self.started(self.program(WAITS), *APPLY)
        send(run, 60 * record(1_000))
        status, printed, said = self.signalled_while_full(run)
        self.assertEqual((status, said), (143, told(signal.SIGTERM)))
        # 4,096 bytes wait in the pipe: four records, and a part of the fifth.
        self.assertEqual(printed, 5 * record(1_000))

    def test_what_is_no_record_isnt_completed(self) -> None:
        run = self.started(self.program(WAITS), *APPLY)
        send(run, b"\2" + 10 * b"\xff" + 60_000 * b"x")
        status, printed, _ = self.signalled_while_full(run)
        self.assertEqual((status, printed[:11]), (143, b"\2" + 10 * b"\xff"))

    def test_a_program_that_cannot_save_keeps_its_status(self) -> None:
        for commands, status in ("cat > /dev/null; exit 1", 1), ("cat > /dev/null; kill -SEGV $$", 139):
            with self.subTest(commands):
                run = self.started(self.program(commands), *APPLY)
                self.assertEqual(self.signalled(run, signal.SIGTERM), (status, b"", told(signal.SIGTERM).splitlines(keepends=True)[0]))

    def test_a_second_signal_ends_the_program(self) -> None:
        run = self.started(self.program("exec sleep 60"), *APPLY)
        self.send_once_begun(run, signal.SIGTERM)
        assert run.stderr is not None
        first = run.stderr.readline()
        time.sleep(0.3)
        run.send_signal(signal.SIGINT)
        self.assertEqual(first, told(signal.SIGTERM).splitlines(keepends=True)[0])
        second = b"moveledger: a second signal: the program was ended; whether it had saved the ledger isn't known\n"
        self.assertEqual(ended(run), (137, b"", second))

    def test_a_second_signal_at_once_is_the_first(self) -> None:
        run = self.started(self.program("cat > /dev/null; sleep 0.1"), *APPLY)
        until(self.is_begun)
        # Those that come while it is stopped come at once, the smallest number first.
        for number in signal.SIGSTOP, signal.SIGTERM, signal.SIGINT, signal.SIGTERM, signal.SIGCONT:
            run.send_signal(number)
        self.assertEqual(ended(run), (130, b"", told(signal.SIGINT)))

    def test_signals_to_the_program_alone_do_nothing(self) -> None:
        program = self.program("for it in TERM INT HUP; do kill -$it $$; done; cat; cut -d' ' -f6 /proc/$$/stat; echo $$")
        status, printed, said = self.ended(program, *APPLY, data=record(5))
        session, process = printed[len(record(5)) :].split()
        self.assertEqual((status, printed[: len(record(5))], said, session), (0, record(5), b"", process))

    def test_a_signal_that_is_ignored_from_the_start(self) -> None:
        for number in ENDS:
            with self.subTest(number.name):
                run = self.started(self.program(COPIES), *APPLY, preexec_fn=lambda: heard(number))
                run.send_signal(number)
                time.sleep(0.1)
                run.send_signal(number)
                printed, said = run.communicate(record(5), PATIENCE)
                self.assertEqual((run.returncode, printed, said), (0, record(5), b""))

    def test_a_signal_that_came_before_it_was_ready(self) -> None:
        for number in ENDS:
            with self.subTest(number.name):
                run = self.started(self.program(COPIES), *APPLY, preexec_fn=lambda: pending(number))
                self.assertEqual(ended(run), (128 + number, b"", told(number)))
                words = self.program("sleep 1"), "apply", "file"
                self.assertEqual(self.ended(*words, preexec_fn=lambda: pending(number)), (-number, b"", b""))

    def test_anything_else_is_run_as_it_is(self) -> None:
        program = self.program('echo "$@"; cat')
        self.assertEqual(self.ended(program, "apply", "-", data=b"abc"), (0, b"apply -\nabc", b""))
        self.assertEqual(self.ended(program, data=b"abc"), (0, b"\nabc", b""))
        for number in ENDS:
            self.assertEqual(self.ended(self.program(f"kill -{number:d} $$"), "prove", "file"), (-number, b"", b""))

    def test_a_program_that_isnt_there(self) -> None:
        none = str(self.folder / "none")
        self.assertEqual(self.ended(none, *APPLY), (127, b"", f"moveledger: {none}: No such file or directory\n".encode()))

    def test_help(self) -> None:
        about = WRAPPER.read_text().split('"""')[1] + "\n"
        self.assertEqual(self.ended(), (1, b"", about.encode()))
        for word in "-h", "--help":
            self.assertEqual(self.ended(word), (0, about.encode(), b""))

    def test_standard_error_that_was_kept(self) -> None:
        kept = os.open(self.folder / "errors", os.O_WRONLY | os.O_CREAT)
        program = self.program("echo told >&2; cat; ls /proc/self/fd | wc -l")
        plain = self.ended(program, *APPLY)[1]
        for name in str(kept), "2", "0", "1", "x", "", "999":
            said = b"" if name == str(kept) else b"told\n"
            with self.subTest(name):
                found = self.ended(program, *APPLY, env={**os.environ, "MOVELEDGER_ERRORS": name}, pass_fds=[kept])
                self.assertEqual((found[0], found[2]), (0, said))
        self.assertEqual(Path(self.folder, "errors").read_bytes(), b"told\n")
        self.assertEqual(self.ended(program, *APPLY, env={**os.environ, "MOVELEDGER_ERRORS": str(kept)}, pass_fds=[kept])[1], plain)
        os.close(kept)

    def test_a_standard_error_that_nobody_reads(self) -> None:
        read, write = os.pipe()
        os.set_blocking(write, False)
        try:
            while os.write(write, 4_096 * b"x"):
                pass
        except BlockingIOError:
            os.set_blocking(write, True)
        run = self.started(self.program(COPIES), *APPLY, stderr=write)
        send(run, record(5))
        self.send_once_begun(run, signal.SIGTERM)
        self.assertEqual((run.communicate(timeout=PATIENCE)[0], run.returncode), (record(5), 143))
        os.close(read)
        os.close(write)


def until(condition: Callable[[], bool]) -> None:
    """Waits until something holds."""
    ends = time.monotonic() + PATIENCE
    while not condition():
        if time.monotonic() > ends:
            raise AssertionError("it doesn't come")
        time.sleep(0.01)


def waiting(run: "subprocess.Popen[bytes]") -> int:
    """How many bytes wait for the program behind the wrapper; 0 where it has not begun."""
    try:
        program = Path(f"/proc/{run.pid}/task/{run.pid}/children").read_text().split()[0]
        read = os.open(f"/proc/{program}/fd/0", os.O_RDONLY | os.O_NONBLOCK)
    except (OSError, IndexError):
        return 0
    try:
        return int.from_bytes(fcntl.ioctl(read, termios.FIONREAD, bytes(4)), sys.byteorder)
    except OSError:
        return 0
    finally:
        os.close(read)


def ended(run: "subprocess.Popen[bytes]") -> Tuple[int, bytes, bytes]:
    """How it ends while its input stays open: its status, and what more is printed and said."""
    status = run.wait(PATIENCE)
    assert run.stdout is not None and run.stderr is not None
    return status, run.stdout.read(), run.stderr.read()


def send(run: "subprocess.Popen[bytes]", data: bytes) -> None:
    assert run.stdin is not None
    run.stdin.write(data)
    run.stdin.flush()


def close(run: "subprocess.Popen[bytes]") -> None:
    """Ends a process, if it still runs, and closes its pipes."""
    run.kill()
    run.wait()
    for file in run.stdin, run.stdout, run.stderr:
        try:
            if file is not None:
                file.close()
        except BrokenPipeError:
            pass


def heard(ignored: int = 0) -> None:
    """Signals as they come, but for one that is ignored."""
    for number in ENDS:
        signal.signal(number, signal.SIG_IGN if number == ignored else signal.SIG_DFL)
    signal.pthread_sigmask(signal.SIG_UNBLOCK, ENDS)


def pending(number: int) -> None:
    """A signal that has come, and is kept back."""
    heard()
    signal.pthread_sigmask(signal.SIG_BLOCK, [number])
    os.kill(os.getpid(), number)


def told(number: int) -> bytes:
    """What is said where a signal ends the input, and the ledger is saved."""
    name = signal.Signals(number).name
    return (f"moveledger: {name}: no more records are read; the ledger of those that were is saved now\n"
            f"moveledger: {name}: saved\n").encode()
