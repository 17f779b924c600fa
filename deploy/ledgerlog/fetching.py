"""Saves over the network: a replica gives its own to those that ask, and fetches one when the log was cleared before it came so far. What
comes counts only by the digest that a majority has voted for."""

import http.client
import os
import re
import ssl
import threading
import time
from http.server import BaseHTTPRequestHandler, ThreadingHTTPServer
from typing import BinaryIO, Callable, List, Optional, Tuple

from .errors import Behind
from .etcd import Access
from .keys import AT
from .log import Log
from .nodes import Connection, address_in
from .requests import get, value_of
from .saves import Save, Saves, saved_vote_in, saves_in, vote_on
from .settings import Settings
from .votes import Vote, Votes

PATH = re.compile(r"/save/(\d{1,16})")
PART = 1 << 20
# So long a replica may be silent, and so many bytes a second it has to give behind that.
SILENT_SECONDS, LEAST_RATE = 10.0, 50_000.0
FIRST_PAUSE, MOST_PAUSE = 1.0, 30.0


def server_context(access: Access) -> Optional[ssl.SSLContext]:
    """What TLS is spoken by with clients, whose certificates the same authority vouches for; None for plain HTTP. OSError where a file isn't
    what it should be."""
    if access.authority is None or access.certificate is None:
        return None
    made = ssl.create_default_context(ssl.Purpose.CLIENT_AUTH, cafile=access.authority)
    made.load_cert_chain(access.certificate, access.key)
    made.verify_mode = ssl.CERT_REQUIRED
    return made


class Giving:
    """A port that answers GET /save/N with the save behind record N, and nothing else."""

    def __init__(self, host: str, port: int, folder: str, access: Access = Access()) -> None:
        """OSError where the port can't be had, or a certificate can't be read."""

        class Handler(BaseHTTPRequestHandler):
            timeout = SILENT_SECONDS

            def do_GET(self) -> None:
                asked = PATH.fullmatch(self.path)
                found = [save for save in saves_in(folder) if asked and save.number == int(asked.group(1))]
                try:
                    with open(found[0].path, "rb") as file:
                        self.give(file)
                except (IndexError, FileNotFoundError):
                    self.send_error(404)

            def give(self, file: BinaryIO) -> None:
                self.send_response(200)
                self.send_header("Content-Length", str(os.fstat(file.fileno()).st_size))
                self.end_headers()
                for part in iter(lambda: file.read(PART), b""):
                    self.wfile.write(part)

            def log_message(self, *_: object) -> None:
                pass

        context = server_context(access)
        self.server = ThreadingHTTPServer((host, port), Handler)
        self.server.daemon_threads = True
        if context is not None:
            # Whoever connects and says nothing holds up a thread of its own.
            self.server.socket = context.wrap_socket(self.server.socket, server_side=True, do_handshake_on_connect=False)
        setattr(self.server, "handle_error", lambda *_: None)
        self.address = f"{host}:{self.server.server_port}"
        threading.Thread(target=self.server.serve_forever, daemon=True).start()

    def close(self) -> None:
        self.server.shutdown()
        self.server.server_close()


def say(log: Log, name: str, what: str, value: Optional[str]) -> None:
    """Says something of a replica in the log, or that it doesn't hold any more, unless that stands there."""
    key = log.keys.own(name, what)
    before = log.etcd.get(key)
    if value is None and before is not None:
        log.etcd.delete(key, key + b"\0")
    elif value is not None and before != value.encode():
        log.etcd.put(key, value.encode())


def is_address(text: str) -> bool:
    try:
        address_in(text)
    except ValueError:
        return False
    return True


class Wrong(Exception):
    """What came isn't the save that was asked for."""


class Fetching:
    """A replica that needs a save of another one."""

    def __init__(self, log: Log, saves: Saves, name: str, tell: Callable[[str], None], is_stopping: Callable[[], bool]) -> None:
        self.log = log
        self.saves = saves
        self.name = name
        self.tell = tell
        self.is_stopping = is_stopping

    def fetch(self, settings: Settings, votes: Votes, why: Behind) -> Optional[Save]:
        """Fetches the newest agreed save that another one gives, and asks again while one of them doesn't answer; None where this replica is
        to stop. Behind where none of them has one."""
        pause = FIRST_PAUSE
        while not self.is_stopping():
            cleared, last = self.log.cleared(), self.log.last()
            agreed = [vote for vote in votes.agreed_saves(last) if vote.number >= cleared]
            given = self.addresses(votes)
            if not given or not agreed:
                raise Behind(f"{why}; " + ("no majority has voted for a later one" if not agreed else "no replica of the set says where it gives "
                                           "its saves (--saves-at)"))
            found, silent = self.fetched(settings, agreed, given)
            if found is not None:
                return found
            if not silent:
                raise Behind(f"{why}; none of {', '.join(name for name, _ in given)} gives one that a majority has voted for")
            self.tell(f"{why}; {', '.join(silent)} gives none yet: asks again in {pause:g} s")
            ends = time.monotonic() + pause
            while time.monotonic() < ends and not self.is_stopping():
                time.sleep(0.05)
            pause = min(2 * pause, MOST_PAUSE)
        return None

    def addresses(self, votes: Votes) -> List[Tuple[str, str]]:
        """Where the others of the set give their saves."""
        names = [name for name in votes.replicas if name != self.name]
        found = map(value_of, self.log.etcd.transact([], [get(self.log.keys.own(name, AT)) for name in names], [])[1])
        told = [(name, value.decode("ascii", "replace")) for name, value in zip(names, found) if value is not None]
        return [(name, address) for name, address in told if is_address(address)]

    def fetched(self, settings: Settings, agreed: List[Vote], given: List[Tuple[str, str]]) -> Tuple[Optional[Save], List[str]]:
        """The newest save that one of them gives, and who didn't answer."""
        silent: List[str] = []
        for vote in agreed:
            for name, address in given:
                if name in silent or self.is_stopping():
                    continue
                try:
                    if self.is_taken(vote, address):
                        save = self.saves.named(self.saves.fetched(), vote.number, settings.id)
                        self.tell(f"has the save behind record {vote.number} from {name}, with the digest that a majority has voted for")
                        return save, []
                except Wrong as why:
                    self.tell(f"{name} gives another save behind record {vote.number} than a majority has voted for ({why}): it is thrown away")
                except (OSError, http.client.HTTPException) as error:
                    silent.append(name)
                    self.tell(f"{name} at {address} doesn't give a save: {error or type(error).__name__}")
                finally:
                    self.saves.forget(self.saves.fetched())
        return None, silent

    def is_taken(self, vote: Vote, address: str) -> bool:
        """Whether a replica has a save; it is there then, whole and with the right digest. Wrong where what comes is another one."""
        made = Connection(address, self.log.etcd.access.context(), time.monotonic() + SILENT_SECONDS, self.is_stopping)
        try:
            made.request("GET", f"/save/{vote.number}")
            answer = made.getresponse()
            if answer.status == 404:
                return False
            if answer.status != 200:
                raise OSError(f"it answers with the status {answer.status}")
            self.take(made, answer, vote)
            return True
        finally:
            made.close()

    def take(self, connection: Connection, answer: http.client.HTTPResponse, vote: Vote) -> None:
        wanted = saved_vote_in(vote.value)
        size, began = 0, time.monotonic()
        with open(self.saves.fetched(), "wb") as file:
            while True:
                connection.give(min(time.monotonic(), began + size / LEAST_RATE) + SILENT_SECONDS)
                part = answer.read1(PART)
                if not part:
                    break
                size += len(part)
                if 0 < wanted.size < size:
                    raise Wrong(f"it has more than {wanted.size} bytes")
                if self.is_stopping():
                    raise OSError("this replica is to stop")
                file.write(part)
        if answer.length:
            raise OSError(f"the connection ended {answer.length} bytes too early")
        found = vote_on(self.saves.fetched())
        if found != wanted.ledger:
            raise Wrong(found.decode("ascii", "replace"))


__all__ = ["Fetching", "Giving", "say", "server_context"]
