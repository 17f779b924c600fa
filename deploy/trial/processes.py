"""The processes of the trial: nodes of the log, and replicas. All of them end with it."""

import ctypes
import os
import random
import re
import socket
import subprocess
import time
from pathlib import Path
from typing import Any, Callable, Dict, List, Optional, Sequence

from ledgerlog.saves import Save, saves_in

DEPLOY = Path(__file__).resolve().parent.parent
SUBREAPER = 36
NODES = 3
# The sockets that keep other trials from this one's ports, as long as it runs.
OURS: List[socket.socket] = []
# More than the busiest machine takes: nothing that is awaited comes as late as that. (scripts/try-guards, which awaits what never comes, asks
# for less.)
PATIENCE = max(60.0, float(os.environ.get("PATIENCE", "600")))


class Failed(Exception):
    """What isn't as it has to be."""


def until(condition: Callable[[], Any], seconds: float, what: str) -> Any:
    """Waits until something holds, and gives it. Failed where it doesn't within so many seconds."""
    ends = time.monotonic() + seconds
    while True:
        found = condition()
        if found:
            return found
        if time.monotonic() > ends:
            raise Failed(f"after {seconds:g} seconds it isn't so: {what}")
        time.sleep(0.02)


def command(name: str, *words: object, given: bytes = b"") -> "subprocess.CompletedProcess[bytes]":
    """Runs one of the commands to its end."""
    asked = [str(DEPLOY / name), *map(str, words)]
    return subprocess.run(asked, input=given, stdout=subprocess.PIPE, stderr=subprocess.PIPE)


def done(name: str, *words: object, given: bytes = b"", status: int = 0, says: str = "") -> str:
    """As `command`, and Failed where it doesn't end with this status, or doesn't say this. What it printed."""
    it = command(name, *words, given=given)
    if it.returncode != status or says not in (it.stdout + it.stderr).decode("utf-8", "replace"):
        raise Failed(f"deploy/{name} {' '.join(map(str, words))} ends with the status {it.returncode}: {it.stdout!r} "
                     f"{it.stderr!r}")
    return it.stdout.decode("utf-8", "replace").strip()


def adopt() -> None:
    """Makes this process the parent of what a killed replica leaves, so that it can wait for that too."""
    ctypes.CDLL(None).prctl(SUBREAPER, 1, 0, 0, 0)


def free_ports() -> int:
    """The first of six ports that nothing listens at, and that no other trial on this machine has, whose nodes may be down just now."""
    places = list(range(24_000, 32_000, 10))
    random.SystemRandom().shuffle(places)
    for first in places:
        ours = socket.socket(socket.AF_UNIX)
        try:
            ours.bind(f"\0moveledger-trial-{first}")
            for port in range(first, first + 2 * NODES):
                with socket.socket() as one:
                    one.bind(("127.0.0.1", port))
            OURS.append(ours)
            return first
        except OSError:
            ours.close()
    raise Failed("there are no free ports")


class Started:
    """One program of the trial, which may be started again; what it says on standard error is kept."""

    def __init__(self, words: Sequence[object], errors: Path) -> None:
        self.words = [str(word) for word in words]
        self.errors = errors
        self.process: Optional["subprocess.Popen[bytes]"] = None

    def start(self) -> None:
        with open(self.errors, "ab") as errors:
            self.process = subprocess.Popen(self.words, stdin=subprocess.DEVNULL, stdout=errors, stderr=errors)

    def kill(self) -> None:
        """kill -9."""
        assert self.process is not None
        self.process.kill()
        self.process.wait()

    def stop(self) -> int:
        """Asks it to end, and gives its status."""
        assert self.process is not None
        self.process.terminate()
        return self.process.wait(PATIENCE)

    def is_running(self) -> bool:
        return self.process is not None and self.process.poll() is None

    def told(self) -> str:
        return self.errors.read_text(errors="replace") if self.errors.exists() else ""


class Node(Started):
    """A node of the log."""

    def __init__(self, folder: Path, number: int, port: int, *options: object) -> None:
        self.base: List[object] = [DEPLOY / "node", "--folder", folder / "log", "--port", port, *options]
        self.number = number
        self.folder = folder / "log" / f"node{number}"
        super().__init__([*self.base, number], folder / f"node{number}.errors")

    def start_in_place(self) -> None:
        """Starts it as one that takes the place of a lost one; it is what it is from then on."""
        before, self.words = self.words, [str(word) for word in [*self.base, "--existing", self.number]]
        self.start()
        self.words = before


class ReplicaProcess(Started):
    """A replica of the trial."""

    END = re.compile(r"up to its end, record (\d+)")

    def __init__(self, words: Sequence[object], name: str, saves: Path, errors: Path) -> None:
        super().__init__([DEPLOY / "replica", *words, "--name", name, saves], errors)
        self.name = name
        self.folder = saves

    def saves(self) -> List[Save]:
        """Its saved ledgers, the newest first."""
        return saves_in(str(self.folder)) if self.folder.exists() else []

    def comes_back(self, number: int, seconds: float) -> float:
        """Starts it, and gives how long it takes until it has answered this record, the last one of the log."""
        before = len(self.told())
        began = time.monotonic()
        self.start()

        def is_back() -> bool:
            self.check()
            return any(int(at) >= number for at in self.END.findall(self.told()[before:]))

        until(is_back, seconds, f"{self.name} has answered record {number}")
        return time.monotonic() - began

    def ends(self, status: int, text: str, seconds: float = PATIENCE) -> str:
        """Waits until it has ended with this status and has said this text, and gives the line."""
        until(lambda: not self.is_running(), seconds, f"{self.name} ends: it has said {self.told()[-400:]}")
        assert self.process is not None
        lines = [line for line in self.told().splitlines() if text in line]
        if self.process.returncode != status or not lines:
            raise Failed(f"{self.name} ends with the status {self.process.returncode}: {self.told()[-400:]}")
        return lines[-1]

    def says(self, text: str, before: int = 0, seconds: float = PATIENCE) -> str:
        """Waits until it has said this, behind so much that it has said before, and gives the line."""
        found = lambda: [line for line in self.told()[before:].splitlines() if text in line]  # noqa: E731
        return str(until(found, seconds, f"{self.name} says `{text}`; it has said {self.told()[before:][-400:]}")[-1])

    def status(self) -> Dict[str, str]:
        """What it says of itself."""
        done = command("replica", "--status", self.folder)
        return dict(line.split(": ", 1) for line in done.stdout.decode().splitlines())

    def check(self) -> None:
        """Failed where it has ended."""
        if not self.is_running():
            raise Failed(f"{self.name} has ended: {self.told()[-400:]}")


def end_all(started: Sequence[Started]) -> None:
    """Ends these."""
    for one in started:
        if one.is_running():
            one.kill()


def wait_for_left() -> None:
    """Waits for what killed replicas left, when all that was started has ended."""
    ends = time.monotonic() + PATIENCE
    while time.monotonic() < ends:
        try:
            if os.waitpid(-1, os.WNOHANG)[0] == 0:
                time.sleep(0.02)
        except ChildProcessError:
            return
    raise Failed("a process that a killed replica left doesn't end")
