"""What a running replica says of itself, as lines of words and as metrics; and what it is asked over the socket in its folder."""

import os
import queue
import socket
import threading
import time
from dataclasses import dataclass, field
from typing import Callable, Dict, List, NamedTuple, Optional, Tuple

from .errors import LogError
from .records import ASKED

# A question is answered between two records, and one record takes seconds at most.
ANSWER_SECONDS = 600.0
# What it says of itself doesn't wait for its program.
STATUS_SECONDS = 5.0
MOST_WAITING = 16
# A log that was read so long ago may have gone on.
FRESH_SECONDS = 30.0
PART = 1 << 16


class LogValues(NamedTuple):
    """What the log has: up to which record it was cleared, the newest save of which a majority has voted for the digest, and its bytes."""

    cleared: int = 0
    agreed: int = 0
    room_used: int = 0
    room_most: int = 0


@dataclass
class Status:
    """What is known of a replica. Numbers are those of records; 0 where there is none yet."""

    name: str
    log_id: str = ""
    program: str = ""
    answered: int = 0
    last: int = 0
    saved: int = 0
    saved_at: float = 0.0
    save_seconds: float = 0.0
    save_bytes: int = 0
    skipped: int = 0
    restarts: int = 0
    program_id: int = 0
    # The record at which the program ended last and hasn't got further since; 0 where there is none.
    stuck: int = 0
    is_counted: bool = False
    held: int = 0
    # When the log was read last, and its values then; 0 where it never was.
    read_at: float = 0.0
    log_values: LogValues = LogValues()
    began: float = field(default_factory=time.time)
    differing: Dict[str, int] = field(default_factory=dict)

    def rows(self) -> List[Tuple[str, str]]:
        """Its values by their names."""
        differs = ", ".join(f"{name} at {number}" for name, number in sorted(dict(self.differing).items()))
        return [
            ("replica", self.name), ("log", self.log_id), ("program", self.program),
            ("counted", "yes" if self.is_counted else "no, it isn't in the log's set"),
            ("answered", str(self.answered)), ("behind", self.behind_words()),
            ("log read", f"{self.unread_seconds():.1f} s ago" if self.read_at else "never"), ("skipped", str(self.skipped)),
            ("saved", str(self.saved)), ("saved ago", f"{time.time() - self.saved_at:.1f} s" if self.saved_at else "never"),
            ("save took", f"{self.save_seconds:.3f} s"), ("save size", f"{self.save_bytes} bytes"),
            ("memory", f"{memory_of(os.getpid())} bytes"), ("program's memory", f"{memory_of(self.program_id)} bytes"),
            ("program restarts", str(self.restarts)), ("votes held", str(self.held)),
            ("stuck at record", str(self.stuck) if self.stuck else "none"), ("differs", differs or "none")]

    def behind(self) -> int:
        return max(0, self.last - self.answered)

    def unread_seconds(self) -> float:
        """For how long the log hasn't been read; since the start, where it never was."""
        return max(0.0, time.time() - (self.read_at or self.began))

    def behind_words(self) -> str:
        """By how many records it is behind; unknown where the log hasn't been read for long, and may have gone on."""
        return str(self.behind()) if self.read_at and self.unread_seconds() <= FRESH_SECONDS else "unknown"

    def metrics(self) -> str:
        """The same in the text form that Prometheus reads."""
        gauge, counter = "gauge", "counter"
        values: List[Tuple[str, str, str, float]] = [
            ("records_answered", gauge, "", self.answered), ("records_behind", gauge, "", self.behind()),
            ("records_skipped", gauge, "", self.skipped), ("save_record", gauge, "", self.saved),
            ("save_time_seconds", gauge, "", self.saved_at), ("save_duration_seconds", gauge, "", self.save_seconds),
            ("save_bytes", gauge, "", self.save_bytes), ("replicas_differing", gauge, "", len(self.differing)),
            ("votes_held", gauge, "", self.held), ("program_restarts_total", counter, "", self.restarts),
            ("record_stuck", gauge, "", self.stuck),
            ("start_time_seconds", gauge, "", self.began), ("log_unread_seconds", gauge, "", self.unread_seconds()),
            ("log_last", gauge, "", self.last), ("log_cleared", gauge, "", self.log_values.cleared),
            ("log_agreed_save", gauge, "", self.log_values.agreed), ("log_room_bytes", gauge, "", self.log_values.room_most),
            ("log_used_bytes", gauge, "", self.log_values.room_used),
            ("memory_bytes", gauge, 'process="replica"', memory_of(os.getpid())),
            ("memory_bytes", gauge, 'process="program"', memory_of(self.program_id)),
            ("info", gauge, f'log="{self.log_id}",program="{escaped(self.program)}"', 1)]
        lines: List[str] = []
        for name, kind, labels, value in values:
            typed = f"# TYPE moveledger_{name} {kind}"
            if typed not in lines:
                lines.append(typed)
            both = f'replica="{escaped(self.name)}"' + ("," + labels if labels else "")
            lines.append(f"moveledger_{name}{{{both}}} {value:.17g}")
        return "\n".join(lines) + "\n"


def escaped(text: str) -> str:
    return text.replace("\\", "\\\\").replace('"', '\\"').replace("\n", "\\n")


def memory_of(process: int) -> int:
    """How many bytes of memory a process holds; 0 where it isn't known."""
    try:
        with open(f"/proc/{process}/status", encoding="ascii", errors="replace") as file:
            for line in file:
                if line.startswith("VmRSS:"):
                    return int(line.split()[1]) * 1024
    except (OSError, ValueError):
        pass
    return 0


class Question:
    """A show or an audit that waits for its answer."""

    def __init__(self, record: bytes) -> None:
        self.record = record
        self.answers: "queue.Queue[bytes]" = queue.Queue()


class Asked:
    """The socket in a replica's folder. Its owner and group alone may open it. One line is a question: `status`, `metrics`, or
    a show or an audit, which waits for the replica. Nothing else is handed on: no record but these changes nothing."""

    def __init__(self, path: str, status: Status) -> None:
        self.status = status
        self.questions: "queue.Queue[Question]" = queue.Queue(MOST_WAITING)
        self.path = path
        if os.path.exists(path):
            os.remove(path)
        self.socket = socket.socket(socket.AF_UNIX)
        before = os.umask(0o117)
        try:
            bound(self.socket.bind, path)
        finally:
            os.umask(before)
        self.socket.listen(MOST_WAITING)
        threading.Thread(target=self.serve, daemon=True).start()

    def serve(self) -> None:
        while True:
            try:
                connection, _ = self.socket.accept()
            except OSError:
                return
            threading.Thread(target=self.answer, args=(connection,), daemon=True).start()

    def answer(self, connection: socket.socket) -> None:
        """Answers one question. Whoever asks may go away meanwhile."""
        try:
            with connection, connection.makefile("rb") as lines:
                connection.settimeout(ANSWER_SECONDS)
                connection.sendall(self.answer_to(lines.readline(PART).decode("ascii", "replace").strip()))
        except (OSError, ValueError):
            pass

    def answer_to(self, words: str) -> bytes:
        if words == "status":
            return "".join(f"{name}: {value}\n" for name, value in self.status.rows()).encode()
        if words == "metrics":
            return self.status.metrics().encode()
        if words not in ASKED:
            return f"there is no such question: {words}\n".encode()
        question = Question(ASKED[words])
        try:
            self.questions.put_nowait(question)
            return question.answers.get(timeout=ANSWER_SECONDS)
        except (queue.Full, queue.Empty):
            return b""

    def next(self) -> Optional[Question]:
        try:
            return self.questions.get_nowait()
        except queue.Empty:
            return None

    def close(self) -> None:
        self.socket.close()
        if os.path.exists(self.path):
            os.remove(self.path)


def bound(call: Callable[[str], None], path: str) -> None:
    """Binds or connects a socket to a path, which may be longer than the address of a socket takes."""
    folder = os.open(os.path.dirname(path) or ".", os.O_RDONLY)
    try:
        call(f"/proc/self/fd/{folder}/{os.path.basename(path)}")
    finally:
        os.close(folder)


def ask(path: str, words: str, seconds: float = ANSWER_SECONDS) -> bytes:
    """What a running replica answers within so many seconds. LogError where none runs there, it hangs, or it has too many questions."""
    ends = time.monotonic() + seconds
    try:
        with socket.socket(socket.AF_UNIX) as one:
            one.settimeout(seconds)
            bound(one.connect, path)
            one.sendall(words.encode() + b"\n")
            told = b"".join(iter(lambda: received(one, ends), b""))
    except socket.timeout:
        raise LogError(f"the replica that runs there doesn't answer within {seconds:.3g} s ({path})") from None
    except OSError as why:
        raise LogError(f"no replica that runs there answers ({path}: {why})") from None
    if not told:
        raise LogError("the replica didn't answer: it is stopping, or has too many questions")
    return told


def received(one: socket.socket, ends: float) -> bytes:
    """What comes next, or nothing at the end. socket.timeout where that isn't known by a time."""
    left = ends - time.monotonic()
    if left <= 0:
        raise socket.timeout("timed out")
    one.settimeout(left)
    return one.recv(PART)
