"""The nodes of a log, as one client reaches them: the connections to them are kept, and the one that answered last is asked first."""

import errno
import http.client
import io
import os
import queue
import re
import select
import socket
import ssl
import threading
import time
from typing import Any, Callable, Dict, List, Optional, Tuple

# How long a node may take for its answer in the first round, and at most: it is twice as long in each round. To connect it has half of it.
FIRST_SECONDS, MOST_SECONDS = 2.0, 10.0
LEAST_SECONDS = 0.05
# So often it is looked whether the user of a connection is to stop; so long one answer, and then all that is asked, still has.
LOOK_SECONDS = 0.25
STOPPING_SECONDS, STOPPING_MOST = 2.0, 5.0
# A host, or what stands in its place as `[::1]`, and a port.
ADDRESS = re.compile(r"([^\s/?#@,\\]{1,256}):([0-9]{1,5})")
Headers = Dict[str, str]
Answer = Tuple[int, bytes]


def port_in(text: str) -> int:
    """The number of a port, 1 to 65,535. ValueError where the text is none."""
    if not re.fullmatch("[0-9]{1,5}", text) or not 0 < int(text) < 65_536:
        raise ValueError(text)
    return int(text)


def address_in(text: str) -> Tuple[str, int]:
    """The host and the port of an address, HOST:PORT. ValueError where the text is none."""
    found = ADDRESS.fullmatch(text)
    if found is None or not found.group(1).isprintable():
        raise ValueError(text)
    # UnicodeError is a ValueError.
    found.group(1).encode("idna")
    return found.group(1), port_in(found.group(2))


def never() -> bool:
    return False


class Timed:
    """A socket as http.client uses it, of which all that is done ends by a time, however slowly the other side goes on: the socket's own
    time is for each byte."""

    def __init__(self, one: socket.socket, by: float, is_stopping: Callable[[], bool]) -> None:
        self.socket = one
        self.by = by
        self.is_stopping = is_stopping

    def within(self, step: Callable[..., int], *given: Any) -> int:
        """Does a step that is done again where it timed out. socket.timeout where the time is over, or soon where the user is to stop."""
        while True:
            now = time.monotonic()
            if self.is_stopping():
                self.by = min(self.by, now + STOPPING_SECONDS)
            if now >= self.by:
                raise socket.timeout("timed out")
            self.socket.settimeout(min(self.by - now, LOOK_SECONDS))
            try:
                return step(*given)
            except socket.timeout:
                pass

    def connect(self, address: Any) -> None:
        self.socket.setblocking(False)
        code = self.socket.connect_ex(address)
        if code in (errno.EINPROGRESS, errno.EWOULDBLOCK):
            code = self.within(self.connected)
        if code:
            raise OSError(code, os.strerror(code))

    def connected(self) -> int:
        """How it went to connect. socket.timeout where that isn't known yet."""
        waiting = select.poll()
        waiting.register(self.socket, select.POLLOUT)
        if not waiting.poll(1000 * (self.socket.gettimeout() or 0)):
            raise socket.timeout("timed out")
        return self.socket.getsockopt(socket.SOL_SOCKET, socket.SO_ERROR)

    def secure(self, context: ssl.SSLContext, host: str) -> None:
        """Speaks TLS from now on."""
        made = self.socket = context.wrap_socket(self.socket, server_hostname=host, do_handshake_on_connect=False)

        def shake() -> int:
            made.do_handshake()
            return 0

        self.within(shake)

    def sendall(self, data: bytes) -> None:
        left = memoryview(data)
        while left:
            left = left[self.within(self.socket.send, left):]

    def makefile(self, mode: str) -> io.BufferedReader:
        return io.BufferedReader(Coming(self))

    def close(self) -> None:
        self.socket.close()


class Coming(io.RawIOBase):
    """What comes over a socket."""

    def __init__(self, timed: Timed) -> None:
        self.timed = timed
        # The socket stays open until this is closed too.
        self.held = timed.socket.makefile("rb", buffering=0)

    def readable(self) -> bool:
        return True

    def readinto(self, buffer: Any) -> int:
        return self.timed.within(self.timed.socket.recv_into, buffer)

    def close(self) -> None:
        self.held.close()
        super().close()


class Connection(http.client.HTTPConnection):
    """A connection over which all ends by a time."""

    def __init__(self, address: str, context: Optional[ssl.SSLContext], by: float, is_stopping: Callable[[], bool] = never) -> None:
        super().__init__(address)
        self.context = context
        self.by = by
        self.is_stopping = is_stopping
        self.timed: Optional[Timed] = None

    def give(self, by: float) -> None:
        """What is done from now on ends by this time; an answer that is still read, too."""
        self.by = by
        if self.timed is not None:
            self.timed.by = by

    def connect(self) -> None:
        """Connects to the first address of the host that takes it, in half of the time that there is."""
        try:
            found = socket.getaddrinfo(self.host, self.port, 0, socket.SOCK_STREAM)
        except UnicodeError as why:
            raise OSError(f"{self.host!r} is no host ({why})") from None
        now = time.monotonic()
        error = OSError(f"{self.host} has no address")
        for family, kind, protocol, _, address in found:
            one = Timed(socket.socket(family, kind, protocol), now + max(self.by - now, LEAST_SECONDS) / 2, self.is_stopping)
            try:
                one.connect(address)
                one.socket.setsockopt(socket.IPPROTO_TCP, socket.TCP_NODELAY, 1)
                one.by = self.by
                if self.context is not None:
                    one.secure(self.context, self.host)
            except BaseException as why:
                one.close()
                if not isinstance(why, OSError):
                    raise
                error = why
            else:
                self.sock = self.timed = one
                return
        raise error


class Nodes:
    """The addresses, HOST:PORT, the one that is asked next first."""

    def __init__(self, addresses: List[str], context: Optional[ssl.SSLContext]) -> None:
        self.addresses = addresses
        self.context = context
        self.connections: Dict[str, Connection] = {}
        # Called when a request is on its way.
        self.on_sent: Callable[[], None] = nothing
        # Whether whoever asks is to stop: then no answer is waited for long.
        self.is_stopping: Callable[[], bool] = never

    def close(self) -> None:
        for address in list(self.connections):
            self.drop(address)

    def drop(self, address: str) -> None:
        connection = self.connections.pop(address, None)
        if connection is not None:
            connection.close()

    def take_next(self) -> None:
        """Asks the next node from now on."""
        self.drop(self.addresses[0])
        self.addresses = self.addresses[1:] + self.addresses[:1]

    def made(self, address: str, seconds: float) -> Connection:
        """A connection that isn't made yet, and what is asked over it, have so many seconds together."""
        return Connection(address, self.context, time.monotonic() + seconds, self.is_stopping)

    def connected(self, address: str, seconds: float) -> Connection:
        connection = self.made(address, seconds)
        connection.connect()
        return connection

    def ask(self, path: str, text: str, headers: Headers, by: float) -> Answer:
        """What the first node answers: a status and bytes. OSError or HTTPException where it hasn't by this time, in which case what was
        asked may be done yet."""
        address = self.addresses[0]
        connection = self.connections.get(address)
        if connection is None or connection.sock is None:
            connection = self.connections[address] = self.connected(address, left_until(by))
        return asked(connection, path, text, headers, by, self.on_sent)

    def ends(self, by: float) -> float:
        """The time by which all that is asked ends: no later than that, and soon where whoever asks is to stop."""
        return min(by, time.monotonic() + STOPPING_MOST) if self.is_stopping() else by

    def race(self, path: str, text: str, is_answer: Callable[[Answer], bool], by: float) -> bool:
        """Asks all nodes at once, and puts the one first that answers first; whether one did by this time."""
        ended: "queue.Queue[None]" = queue.Queue()
        first: List[Tuple[str, Connection]] = []
        lock = threading.Lock()

        def ask(address: str) -> None:
            try:
                connection = self.connected(address, left_until(by))
                try:
                    is_good = is_answer(asked(connection, path, text, {}, by))
                except (OSError, http.client.HTTPException):
                    is_good = False
                with lock:
                    if is_good and not first:
                        first.append((address, connection))
                    else:
                        connection.close()
            except (OSError, http.client.HTTPException):
                pass
            ended.put(None)

        for address in list(self.addresses):
            threading.Thread(target=ask, args=(address,), daemon=True).start()
        for _ in self.addresses:
            try:
                ended.get(timeout=left_until(by))
            except queue.Empty:
                break
            if first:
                break
        with lock:
            if not first:
                return False
            address, connection = first[0]
        self.drop(address)
        self.connections[address] = connection
        self.addresses = [address, *(one for one in self.addresses if one != address)]
        return True


def left_until(by: float) -> float:
    """How many seconds are left until a time; some are always."""
    return max(by - time.monotonic(), LEAST_SECONDS)


def nothing() -> None:
    pass


def asked(connection: Connection, path: str, text: str, headers: Headers, by: float, on_sent: Callable[[], None] = nothing) -> Answer:
    """What a node answers over a connection, by this time."""
    connection.give(max(by, time.monotonic() + LEAST_SECONDS))
    connection.request("POST", path, text, headers)
    on_sent()
    answer = connection.getresponse()
    return answer.status, answer.read()
