"""A client of the submit service, for programs that submit. It needs nothing else of this folder."""

import json
import os
import re
import secrets
import select
import socket
import ssl
import threading
import time
from typing import Any, Callable, Dict, List, NamedTuple, Optional, Union

PAUSE_SECONDS = 0.1
CONNECT_SECONDS = 5.0
PART, LINE_BYTES = 1 << 16, 1 << 26
ADDRESS = re.compile(r"([^/]+):(\d{1,5})")
# What the log takes for an id, and for a submitter's name.
ID, NAME = re.compile(r"[A-Za-z0-9-]{1,96}"), re.compile(r"[A-Za-z0-9-]{1,64}")
ID_IS, NAME_IS = "an id has 1 to 96 letters, digits and -", "a submitter's name has 1 to 64 letters, digits and -"


class Tls(NamedTuple):
    """Files: the authority that vouches for the service, and this side's own certificate and key, whose name is the submitter's."""

    authority: str
    certificate: str
    key: str


class Placed(NamedTuple):
    """The number of a record, and its final lines where they were waited for."""

    number: int
    lines: Optional[bytes]


class Unknown(Exception):
    """It isn't known whether the record is put: try again with the same id, which is `id`."""

    def __init__(self, record_id: str, why: str) -> None:
        super().__init__(f"it isn't known whether {record_id} is put ({why}): try again with this id")
        self.id, self.why = record_id, why


class Refused(Exception):
    """The record isn't put, and won't be."""


class Lost(Exception):
    """The connection ended before the answer."""


class NotHeard(Exception):
    """The service refuses the connection itself, or something on it that it can't read."""


def connected(place: str, tls: Optional[Tls]) -> socket.socket:
    """A connection to the socket of a service, or to its address, HOST:PORT. OSError where there is none."""
    address = ADDRESS.fullmatch(place)
    if address is None:
        made = socket.socket(socket.AF_UNIX)
        try:
            # A service that takes no more clients is tried again, and not waited for.
            made.settimeout(CONNECT_SECONDS)
            made.connect(place)
            made.settimeout(None)
        except OSError:
            made.close()
            raise
        return made
    plain = socket.create_connection((address.group(1).strip("[]"), int(address.group(2))), CONNECT_SECONDS)
    plain.setsockopt(socket.IPPROTO_TCP, socket.TCP_NODELAY, 1)
    try:
        if tls is not None:
            context = ssl.create_default_context(cafile=tls.authority)
            context.load_cert_chain(tls.certificate, tls.key)
            plain = context.wrap_socket(plain, server_hostname=address.group(1).strip("[]"))
        plain.settimeout(None)
        return plain
    except OSError:
        plain.close()
        raise


class Stream:
    """A connection over which one thread reads while others write. TLS takes no two at once: whoever would wait lets the others go on."""

    def __init__(self, connection: socket.socket) -> None:
        self.connection = connection
        self.is_tls = isinstance(connection, ssl.SSLSocket)
        self.busy, self.writing = threading.Lock(), threading.Lock()
        self.buffer = b""
        if self.is_tls:
            connection.setblocking(False)

    def wait(self, what: int, limit: Optional[float]) -> None:
        """Waits until the connection may be read, or written. TimeoutError where it can't for so many seconds."""
        place = select.poll()
        place.register(self.connection.fileno(), what)
        if not place.poll(None if limit is None else 1000 * max(0.0, limit)):
            raise TimeoutError("the other side takes nothing" if what == select.POLLOUT else "the time is over")

    def more(self, ends: Optional[float] = None) -> bytes:
        """The bytes that come next; none at the end. OSError where the connection is lost, TimeoutError where they don't come in time."""
        while self.is_tls:
            with self.busy:
                try:
                    return self.connection.recv(PART)
                except ssl.SSLWantReadError:
                    what = select.POLLIN
                except ssl.SSLWantWriteError:
                    what = select.POLLOUT
            self.wait(what, None if ends is None else ends - time.monotonic())
        if ends is not None:
            self.wait(select.POLLIN, ends - time.monotonic())
        return self.connection.recv(PART)

    def line(self, most: int, ends: Optional[float] = None) -> bytes:
        """The next line, of at most so many bytes; none at the end."""
        while b"\n" not in self.buffer[:most] and len(self.buffer) < most:
            part = self.more(ends)
            if not part:
                return b""
            self.buffer += part
        end = self.buffer.find(b"\n", 0, most) + 1 or most
        found, self.buffer = self.buffer[:end], self.buffer[end:]
        return found

    def read(self, size: int) -> bytes:
        """So many bytes, or fewer at the end."""
        parts = [self.buffer]
        left = size - len(self.buffer)
        while left > 0:
            part = self.more()
            if not part:
                break
            parts.append(part)
            left -= len(part)
        found = b"".join(parts)
        self.buffer = found[size:]
        return found[:size]

    def offer(self, data: Union[bytes, memoryview]) -> int:
        """Writes as much as is taken at once; how many bytes that is. OSError where the connection is lost."""
        if not self.is_tls:
            try:
                return self.connection.send(data, socket.MSG_DONTWAIT)
            except BlockingIOError:
                return 0
        with self.busy:
            try:
                return self.connection.send(data)
            except (ssl.SSLWantWriteError, ssl.SSLWantReadError):
                return 0

    def wait_until_taken(self, ends: float) -> None:
        """Waits until the other side may take more. TimeoutError where it takes nothing in time."""
        self.wait(select.POLLOUT, ends - time.monotonic())
        if self.is_tls:
            # What has to be read first comes by the thread that reads.
            time.sleep(0.001)

    def write(self, data: bytes, ends: float) -> None:
        """Writes all of it. OSError where the connection is lost, TimeoutError where the other side doesn't take it in time."""
        if not self.writing.acquire(timeout=max(0.0, ends - time.monotonic())):
            raise TimeoutError("the time is over")
        try:
            left = memoryview(data)
            while left:
                taken = self.offer(left)
                left = left[taken:]
                if not taken:
                    self.wait_until_taken(ends)
        finally:
            self.writing.release()


class Request:
    """A record that was sent, and what was told of it so far."""

    def __init__(self, record_id: str) -> None:
        self.id = record_id
        self.answer: Optional[Dict[str, Any]] = None
        self.lines: Optional[str] = None


class Line:
    """One connection, over which any number of threads ask at once. One of those that wait reads for all. The service names the id alone to
    which an answer belongs, so of one id no two requests at once wait for their numbers. Its lines are the same for all."""

    def __init__(self, place: str, tls: Optional[Tls] = None) -> None:
        self.socket = connected(place, tls)
        self.stream = Stream(self.socket)
        self.requests: Dict[str, List[Request]] = {}
        self.changed = threading.Condition()
        self.is_reading = self.is_lost = False
        self.refusal: Optional[str] = None

    def ask(self, head: Dict[str, Any], record: bytes, ends: float) -> Request:
        """Sends a record, once no other request for its id waits for its number. Lost where that takes too long."""
        request = Request(str(head["id"]))
        self.wait(lambda: self.is_begun(request), ends)
        try:
            self.stream.write(json.dumps(head).encode() + b"\n" + record, ends)
        except OSError:
            self.give_up()
            self.forget(request)
            raise
        return request

    def is_begun(self, request: Request) -> bool:
        others = self.requests.setdefault(request.id, [])
        if any(one.answer is None for one in others):
            return False
        others.append(request)
        return True

    def answer(self, request: Request, ends: float) -> Dict[str, Any]:
        """What became of a record. Lost where that isn't told in time. The connection is given up then: what comes later on it would be taken
        for the answer to another request for this id."""
        try:
            self.wait(lambda: request.answer is not None, ends)
        except Lost:
            self.give_up()
            raise
        return request.answer or {}

    def lines(self, request: Request, ends: float) -> bytes:
        """The final lines of a record. Lost where they aren't told in time."""
        self.wait(lambda: request.lines is not None, ends)
        return (request.lines or "").encode("latin-1")

    def forget(self, request: Request) -> None:
        """Drops a request that waits for nothing any more."""
        with self.changed:
            left = [one for one in self.requests.pop(request.id, []) if one is not request]
            if left:
                self.requests[request.id] = left
            self.changed.notify_all()

    def wait(self, is_over: Callable[[], bool], ends: float) -> None:
        """Waits until something is so, and reads meanwhile unless another thread does. Lost where it doesn't become so in time."""
        while True:
            with self.changed:
                while not is_over():
                    if self.refusal is not None:
                        raise NotHeard(self.refusal)
                    if self.is_lost or time.monotonic() >= ends:
                        raise Lost("the connection ended" if self.is_lost else "the time is over")
                    if not self.is_reading:
                        break
                    self.changed.wait(ends - time.monotonic())
                else:
                    return
                self.is_reading = True
            self.read(ends)

    def read(self, ends: float) -> None:
        """Reads the next that is told, of whichever id."""
        told: Dict[str, Any] = {}
        is_lost = False
        try:
            line = self.stream.line(LINE_BYTES, ends)
            told, is_lost = (dict(json.loads(line)), False) if line else ({}, True)
        except TimeoutError:
            pass
        except (OSError, ValueError, TypeError):
            is_lost = True
        with self.changed:
            self.is_reading = False
            self.is_lost |= is_lost
            self.take(told)
            self.changed.notify_all()

    def take(self, told: Dict[str, Any]) -> None:
        """Gives what is told to those for whom it is. What nobody waits for any more is dropped."""
        if "id" not in told and "refused" in told:
            self.refusal, self.is_lost = str(told["refused"]), True
        requests = self.requests.get(str(told.get("id")), [])
        if "lines" in told:
            for request in requests:
                request.lines = str(told["lines"])
            return
        for request in requests:
            if request.answer is None:
                request.answer = told

    def give_up(self) -> None:
        """Ends the connection for all who use it: whoever waits is told so."""
        with self.changed:
            self.is_lost = True
            self.changed.notify_all()
        self.shut()

    def shut(self) -> None:
        try:
            socket.socket.shutdown(self.socket, socket.SHUT_RDWR)
        except OSError:
            pass

    def close(self) -> None:
        self.shut()
        self.socket.close()


class Ledger:
    """A ledger's log, by its submit service. Any number of threads may use one."""

    def __init__(self, place: str, submitter: str = "anyone", seconds: float = 60.0, tls: Optional[Tls] = None) -> None:
        """`place` is the service's socket, or its address, HOST:PORT; with TLS the submitter is the name in the certificate. `seconds` is
        for how long a record is tried, and its lines waited for."""
        self.place = place if ADDRESS.fullmatch(place) else os.path.abspath(place)
        self.tls = tls
        self.submitter = submitter
        self.seconds = seconds
        self.lock = threading.Lock()
        self.line: Optional[Line] = None

    def submit(self, record: bytes, record_id: Optional[str] = None, wait: bool = False) -> Placed:
        """Puts a record. Refused where it isn't put, Unknown where that isn't known when the time is over: with the same id it is put once,
        however often it's tried."""
        name = f"t{int(time.time()):08x}-{secrets.token_hex(16)}" if record_id is None else record_id
        self.check(name)
        ends = time.monotonic() + self.seconds
        why = "no service answers"
        while time.monotonic() < ends:
            line: Optional[Line] = None
            try:
                line = self.connected()
                return self.tried(line, record, name, wait, ends)
            except NotHeard as error:
                raise Unknown(name, str(error)) from None
            except (OSError, Lost) as error:
                why = str(error)
                if line is not None:
                    self.drop(line)
                time.sleep(PAUSE_SECONDS)
        raise Unknown(name, why)

    def check(self, record_id: str) -> None:
        """Refused where the service can't take such an id or such a name."""
        if not ID.fullmatch(record_id):
            raise Refused(f"the id {record_id[:100]!r} is none: {ID_IS}")
        if self.tls is None and not NAME.fullmatch(self.submitter):
            raise Refused(f"the name {self.submitter[:100]!r} is none: {NAME_IS}")

    def tried(self, line: Line, record: bytes, name: str, wait: bool, ends: float) -> Placed:
        request = line.ask({"id": name, "as": self.submitter, "bytes": len(record), "wait": wait}, record, ends)
        try:
            told = line.answer(request, ends)
            if "refused" in told:
                raise Refused(str(told["refused"]))
            if "number" not in told:
                raise Lost(str(told.get("unknown", told)))
            return Placed(int(told["number"]), line.lines(request, ends) if wait else None)
        finally:
            line.forget(request)

    def connected(self) -> Line:
        with self.lock:
            if self.line is not None and self.line.is_lost:
                self.line.close()
                self.line = None
            if self.line is None:
                self.line = Line(self.place, self.tls)
            return self.line

    def drop(self, line: Line) -> None:
        """Forgets a connection that was lost."""
        with self.lock:
            if self.line is line and line.is_lost:
                line.close()
                self.line = None

    def close(self) -> None:
        with self.lock:
            if self.line is not None:
                self.line.close()
            self.line = None
