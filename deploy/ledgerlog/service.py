"""The socket of the submit service, and its port with TLS: a line of JSON and a record's bytes come in, and lines of JSON go out."""

import errno
import json
import os
import resource
import socket
import ssl
import threading
import time
from typing import Any, Callable, Dict, List, NamedTuple, Optional, Set, Tuple

from .appending import Offer, Outcome
from .client import ID, ID_IS, NAME_IS, PART, Stream
from .errors import LogError, NotWhole, Unreachable
from .etcd import Access
from .fetching import server_context
from .gathering import Finals, Writer, is_large, is_unknown, put_large
from .keys import NAME_TEXT
from .log import Log
from .pipelining import Wanted, error_of
from .records import MOST_BYTES, check_put
from .saves import locked
from .status import bound

LINE_BYTES = 4096
WAITING = 128
# So long may a client at the port take to say who it is, may any client take nothing of what it is told, and stays one that is refused.
CLIENT_SECONDS = 10.0
# So many clients there are at most, and so many descriptors are left for the log and all else, where fewer are allowed. Where another client
# comes, the one is closed that has been idle for longest; where each has a record on its way, the new one.
MOST_CLIENTS, SPARE_DESCRIPTORS = 1_000, 128
# Where more bytes than these wait until a client takes them, it is told no more, and closed.
MOST_QUEUED = 1 << 20
# So many large records are put at once, each over connections of its own.
MOST_LARGE = 8
# Where a client can't be taken, the next one is tried so much later, and so often at most that is said.
PAUSE_SECONDS, SAY_SECONDS = 0.1, 60.0
# So often it is looked whether the socket is still there; and the errors of one that isn't.
LOOK_SECONDS = 1.0
LOST = (errno.EBADF, errno.EINVAL, errno.ENOTSOCK, errno.EOPNOTSUPP)


def hang_up(connection: socket.socket) -> None:
    """Ends a connection for both sides, and wakes whoever reads it. (What TLS keeps of it stays, since other threads may use that.)"""
    try:
        socket.socket.shutdown(connection, socket.SHUT_RDWR)
    except OSError:
        pass


class Answers:
    """What a client is told. Whoever tells it something never waits for it: what it doesn't take at once is written by a thread of its own.
    A client that takes nothing for too long, or for which too much waits, is hung up on."""

    def __init__(self, stream: Stream) -> None:
        self.stream = stream
        self.left = bytearray()
        self.is_ended = False
        self.lock = threading.Lock()

    def add(self, data: bytes) -> None:
        with self.lock:
            if self.is_ended:
                return
            if self.left:
                self.left += data
                if len(self.left) - len(data) > MOST_QUEUED:
                    self.hang_up()
                return
            try:
                self.left += data[self.stream.offer(data):]
                if self.left:
                    threading.Thread(target=self.write, daemon=True).start()
            except (OSError, ValueError, RuntimeError):
                self.hang_up()

    def write(self) -> None:
        """Writes what waits as the client takes it, until nothing does."""
        ends = time.monotonic() + CLIENT_SECONDS
        while True:
            with self.lock:
                taken = self.part_taken()
                if self.is_ended or not self.left:
                    return
            if taken:
                ends = time.monotonic() + CLIENT_SECONDS
            try:
                self.stream.wait_until_taken(ends)
            except (OSError, ValueError):
                self.end()
                return

    def part_taken(self) -> int:
        """Writes what the client takes at once of what comes next. How many bytes that is."""
        try:
            taken = 0 if self.is_ended else self.stream.offer(bytes(self.left[:PART]))
        except (OSError, ValueError):
            self.hang_up()
            return 0
        del self.left[:taken]
        return taken

    def hang_up(self) -> None:
        self.is_ended = True
        self.left.clear()
        hang_up(self.stream.connection)

    def end(self) -> None:
        """Tells nothing any more."""
        with self.lock:
            self.hang_up()


class Connection:
    """One client, which may have any number of records on their way. `submitter` is who it is, where that is known."""

    def __init__(self, service: "Service", connection: socket.socket, context: Optional[ssl.SSLContext] = None) -> None:
        """With a context it says by TLS who it is, before it is heard."""
        self.service = service
        self.connection = connection
        self.context = context
        self.submitter: Optional[str] = None
        self.stream = Stream(connection)
        self.answers = Answers(self.stream)
        self.is_secured = context is None
        # When it last brought something; how many of its records are on their way; and of how many it awaits the lines.
        self.heard = time.monotonic()
        self.flying = self.awaited = 0
        self.lock = threading.Lock()

    def idle(self) -> Optional[Tuple[int, float]]:
        """How soon it is closed for another one, the least first; None where a record of it is on its way. Those go first that haven't said who
        they are, and those last that wait for lines."""
        if self.flying:
            return None
        return (0 if not self.is_secured else 1 if not self.awaited else 2, self.heard)

    def tell(self, **told: Any) -> None:
        """Tells the client, which may be gone, or takes nothing."""
        self.answers.add(json.dumps(told).encode() + b"\n")

    def serve(self) -> None:
        try:
            if self.connection.family != socket.AF_UNIX:
                self.connection.setsockopt(socket.IPPROTO_TCP, socket.TCP_NODELAY, 1)
            if self.context is not None:
                self.secure(self.context)
            while self.take():
                pass
        except (OSError, ValueError):
            pass
        finally:
            self.answers.end()
            self.connection.close()

    def secure(self, context: ssl.SSLContext) -> None:
        """Learns by its certificate who it is. OSError or ValueError where it doesn't say so in time."""
        self.connection.settimeout(CLIENT_SECONDS)
        secured = context.wrap_socket(self.connection, server_side=True, do_handshake_on_connect=False)
        self.connection = secured
        self.stream.connection = secured
        # All of it has to come within that time.
        secured.do_handshake()
        self.stream = Stream(secured)
        self.answers = Answers(self.stream)
        self.is_secured = True
        try:
            self.submitter = name_in(secured)
        except ValueError as why:
            self.refuse(None, str(why))
            raise

    def take(self) -> bool:
        """Takes one request. Whether another one may follow."""
        line = self.stream.line(LINE_BYTES)
        if not line:
            return False
        told = object_in(line)
        record_id, size = told.get("id"), told.get("bytes")
        if not isinstance(record_id, str):
            self.refuse(None, "this is no request: it is a line of JSON with the text `id` and the number `bytes`, of up to 4096 bytes")
            return False
        if type(size) is not int or not 0 <= size <= MOST_BYTES + LINE_BYTES:
            self.refuse(record_id, f"`bytes` is no number of bytes that a record may have: {size!r:.100}")
            return False
        record = self.stream.read(size)
        if len(record) < size:
            return False
        self.heard = time.monotonic()
        submitter = self.submitter or str(told.get("as", "anyone"))
        why = why_not(told, submitter, record)
        if why is not None:
            self.tell(id=record_id, refused=why)
            return True
        self.count(1, 0)
        self.service.put(Offer(record_id, record), submitter, self.teller(record_id, bool(told.get("wait"))))
        return True

    def teller(self, record_id: str, is_waiting: bool) -> Callable[[Outcome], None]:
        def done(outcome: Outcome) -> None:
            if isinstance(outcome, LogError):
                self.tell(**{"id": record_id, "unknown" if is_unknown(outcome) else "refused": str(outcome)})
                self.count(-1, 0)
                return
            self.tell(id=record_id, number=outcome)
            self.count(-1, int(is_waiting))
            if is_waiting and not self.answers.is_ended:
                self.service.finals.want(outcome, final)

        def final(lines: bytes) -> None:
            self.tell(id=record_id, lines=lines.decode("latin-1"))
            self.count(0, -1)
        return done

    def count(self, flying: int, awaited: int) -> None:
        with self.lock:
            self.flying += flying
            self.awaited += awaited

    def refuse(self, record_id: Optional[str], why: str) -> None:
        """Tells a client that it isn't heard any more, and lets it read that and go."""
        self.tell(**{"refused": why} if record_id is None else {"id": record_id, "refused": why})
        if not self.flying and not self.answers.left:
            socket.socket.shutdown(self.connection, socket.SHUT_WR)
        ends = time.monotonic() + CLIENT_SECONDS
        while time.monotonic() < ends and self.stream.more(ends):
            pass

    def close(self) -> None:
        """Ends it from another thread."""
        hang_up(self.connection)


def object_in(line: bytes) -> Dict[str, Any]:
    """The object of a line of JSON; an empty one where there is none."""
    try:
        told: Any = json.loads(line)
    except (ValueError, RecursionError):
        return {}
    return told if isinstance(told, dict) else {}


def why_not(told: Dict[str, Any], submitter: str, record: bytes) -> Optional[str]:
    """Why a request isn't one to put a record."""
    if not ID.fullmatch(told["id"]):
        return f"the id {told['id'][:100]!r} is none: {ID_IS}"
    if not isinstance(told.get("as", ""), str):
        return "`as` is no text"
    if not NAME_TEXT.fullmatch(submitter):
        return f"the name {submitter[:100]!r} is none: {NAME_IS}"
    try:
        check_put(record)
    except NotWhole as why:
        return f"this isn't one whole record for the log: {why}"
    return None


class Port(NamedTuple):
    """Where a service listens beside its socket, and the TLS that it speaks there."""

    host: str
    number: int
    access: Access = Access()


def name_in(connection: ssl.SSLSocket) -> str:
    """The submitter whom a client's certificate names. ValueError where it names none."""
    told: Any = connection.getpeercert() or {}
    found: List[str] = [value for row in told.get("subject", ()) for key, value in row if key == "commonName"]
    if len(found) != 1 or not NAME_TEXT.fullmatch(found[0]):
        raise ValueError(f"the certificate names no submitter, but {found}: {NAME_IS}")
    return found[0]


def most_clients() -> int:
    """How many clients there may be at once by the descriptors that this process may have."""
    allowed = resource.getrlimit(resource.RLIMIT_NOFILE)[0]
    return MOST_CLIENTS if allowed < 0 else min(MOST_CLIENTS, max(allowed // 2, allowed - SPARE_DESCRIPTORS))


class Service:
    """A socket that its owner and group alone may open, and a port. OSError where one can't be made, or another service has it."""

    def __init__(self, path: str, log: Callable[[], Log], port: Optional[Port] = None, say: Callable[[str], None] = lambda text: None) -> None:
        """`log` makes a client of its own for each thread, and `say` is called with what isn't as it should be."""
        self.path = path
        self.log = log
        self.say = say
        self.said = -SAY_SECONDS
        self.writer, self.finals = Writer(log()), Finals(log())
        self.connections: Set[Connection] = set()
        self.most, self.lock = most_clients(), threading.Lock()
        self.large = threading.Semaphore(MOST_LARGE)
        self.is_closing = False
        # What the socket or the port was lost by.
        self.lost: Optional[str] = None
        self.folder = locked(os.path.dirname(path) or ".")
        self.socket, self.file = made_socket(path)
        self.port: Optional[socket.socket] = None
        self.context: Optional[ssl.SSLContext] = None
        if port is not None:
            self.context = server_context(port.access)
            self.port = socket.create_server((port.host, port.number), family=socket.AF_INET6 if ":" in port.host else socket.AF_INET)
            self.port.settimeout(LOOK_SECONDS)

    def start(self) -> None:
        self.writer.start()
        self.finals.thread.start()
        if self.port is not None:
            threading.Thread(target=self.serve_at, args=(self.port,), daemon=True).start()

    def put(self, offer: Offer, submitter: str, done: Callable[[Outcome], None]) -> None:
        if not is_large(offer):
            self.writer.want(Wanted(offer, submitter, done))
            return
        self.large.acquire()
        try:
            threading.Thread(target=self.put_large, args=(offer, submitter, done), daemon=True).start()
        except RuntimeError as why:
            self.large.release()
            done(Unreachable(str(why)))

    def put_large(self, offer: Offer, submitter: str, done: Callable[[Outcome], None]) -> None:
        outcome: Outcome = Unreachable("the service can't reach the log now")
        try:
            outcome = put_large(self.log(), offer, submitter)
        except Exception as why:  # noqa: BLE001
            outcome = error_of(why)
        finally:
            self.large.release()
            done(outcome)

    def serve(self) -> None:
        """Takes clients at the socket until it is closed. OSError where it or the port is lost."""
        self.serve_at(self.socket)
        if self.lost is not None and not self.is_closing:
            raise OSError(self.lost)

    def serve_at(self, place: socket.socket) -> None:
        """Takes clients at a place until it is closed, or lost. After any other error it goes on."""
        while not self.is_closing and self.lost is None:
            try:
                connection = place.accept()[0]
                self.welcome(connection, None if place is self.socket else self.context)
            except socket.timeout:
                if not self.is_there():
                    self.lost = f"the socket {self.path} was removed"
            except ConnectionAbortedError:
                pass
            except (OSError, RuntimeError) as error:
                if not self.is_closing:
                    self.go_on(place, error)

    def go_on(self, place: socket.socket, error: Exception) -> None:
        """What is to be done where a client couldn't be taken: it is said, and the next one is tried after a moment."""
        code = error.errno if isinstance(error, OSError) else None
        if code in LOST:
            self.lost = f"the {'socket' if place is self.socket else 'port'} is lost: {error}"
            return
        if time.monotonic() >= self.said + SAY_SECONDS:
            self.said = time.monotonic()
            self.say(f"no client can be taken now, and the next one is tried: {error}")
        if code == errno.EMFILE:
            with self.lock:
                self.close_idle()
        time.sleep(PAUSE_SECONDS)

    def welcome(self, connection: socket.socket, context: Optional[ssl.SSLContext]) -> None:
        """Serves a client by a thread of its own. RuntimeError where there can't be another thread."""
        made = Connection(self, connection, context)
        with self.lock:
            is_taken = len(self.connections) < self.most or self.close_idle()
            if is_taken:
                self.connections.add(made)
        try:
            if is_taken:
                threading.Thread(target=self.serve_one, args=(made,), daemon=True).start()
                return
        except RuntimeError:
            self.forget(made)
            connection.close()
            raise
        if context is None:
            made.tell(unknown="the service has as many clients as it takes")
        connection.close()

    def close_idle(self) -> bool:
        """Closes the client that has been idle for longest. Whether there is one."""
        idle = [(order, id(one), one) for one in self.connections for order in [one.idle()] if order is not None]
        if not idle:
            return False
        oldest = min(idle)[2]
        self.connections.discard(oldest)
        oldest.close()
        return True

    def serve_one(self, one: Connection) -> None:
        try:
            one.serve()
        finally:
            self.forget(one)

    def forget(self, one: Connection) -> None:
        with self.lock:
            self.connections.discard(one)

    def is_there(self) -> bool:
        """Whether the socket's file is still the one that it made."""
        try:
            return file_at(self.path) == self.file
        except FileNotFoundError:
            return False
        except OSError:
            return True

    def close(self) -> None:
        self.is_closing = True
        for place in filter(None, (self.socket, self.port)):
            # Whoever waits for a client there is woken.
            hang_up(place)
            place.close()
        self.writer.stop()
        self.finals.stop()
        with self.lock:
            for connection in self.connections:
                connection.close()
        if self.is_there():
            os.remove(self.path)
        os.close(self.folder)


def file_at(path: str) -> Tuple[int, int]:
    """Which file stands there."""
    found = os.stat(path)
    return found.st_dev, found.st_ino


def made_socket(path: str) -> Tuple[socket.socket, Tuple[int, int]]:
    """A socket in place of what stands there, and its file."""
    if os.path.exists(path):
        os.remove(path)
    made = socket.socket(socket.AF_UNIX)
    before = os.umask(0o117)
    try:
        bound(made.bind, path)
    finally:
        os.umask(before)
    made.listen(WAITING)
    made.settimeout(LOOK_SECONDS)
    return made, file_at(path)
