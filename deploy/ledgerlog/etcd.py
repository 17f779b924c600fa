"""A client of etcd's gateway, which takes its requests as JSON over HTTP. All that is asked here may be asked twice: a request
whose answer got lost is put to the next node, until one answers."""

import http.client
import json
import socket
import ssl
import time
from typing import Dict, List, NamedTuple, Optional, Tuple

from .errors import Denied, Full, LogError, Unreachable
from .nodes import FIRST_SECONDS, MOST_SECONDS, Answer, Nodes
from .requests import Body, Entry, after, coded, entries_of, ranged, value_of

# How long is waited after every node was asked and none had an answer.
PAUSE_SECONDS = 0.1
# How long after etcd has a new password the file has it too.
GRACE_SECONDS = 0.5
# So many bytes a second of what is asked a busy node takes at least: a large piece has more time than a short question.
LEAST_RATE = 100_000.0
# The numbers of gRPC by which etcd refuses: it hasn't done what was asked, and won't. Whatever else comes in an answer's place leaves
# it unknown whether it is done: it's asked again.
REFUSALS = (3, 5, 6, 7, 8, 9, 11, 12)
DENIED = 7
DENIED_WORDS = ("authentication failed", "user name is empty")
BUSY = "too many requests"
# By gRPC's number, and by words: the user isn't known here any more, since it logged in long ago or users were changed.
LOGGED_OUT, OLD_USERS = 16, "revision of auth store is old"
NO_ROOM = "database space exceeded"
# What is asked of all nodes at once: it changes nothing, and only a node that reaches a majority has an answer.
FIRST_QUESTION = json.dumps({"key": coded(b"moveledger")})


class Access(NamedTuple):
    """How a log is reached: the authority that its nodes are vouched for by, this side's own certificate and key, a user and
    its password, or the file that has it; None for what isn't asked for."""

    authority: Optional[str] = None
    certificate: Optional[str] = None
    key: Optional[str] = None
    user: Optional[str] = None
    password: Optional[str] = None
    password_file: Optional[str] = None

    def secret(self) -> str:
        """The password: the file's, where there is one, which may have another one by now. OSError where it can't be read."""
        if self.password_file is None:
            return self.password or ""
        with open(self.password_file, encoding="utf-8") as file:
            return file.read().rstrip("\n")

    def context(self) -> Optional[ssl.SSLContext]:
        """What TLS is spoken by; None for plain HTTP. OSError where a file isn't what it should be."""
        if self.authority is None:
            return None
        made = ssl.create_default_context(cafile=self.authority)
        if self.certificate is not None:
            made.load_cert_chain(self.certificate, self.key)
        return made


class Found(NamedTuple):
    """The keys of a range, and the number of the store's last change when they were looked up."""

    entries: List[Entry]
    revision: int


class Etcd:
    """The nodes of a log, one of which is asked at a time."""

    def __init__(self, addresses: List[str], patience: float, access: Access = Access()) -> None:
        """`addresses` are HOST:PORT; `patience` is for how many seconds a request is put again and again."""
        self.patience = patience
        # The time by which all that is asked has to be answered, beside the patience for each; and what an answer may take that takes
        # a node long, whatever the patience is.
        self.until = float("inf")
        self.slow_seconds = 0.0
        self.access = access
        self.nodes = Nodes(addresses, access.context())
        self.token: Optional[str] = None
        # Whether a node that answers is known.
        self.is_found = False
        # Which cluster answered last, by the id that it gave itself when it was made or restored.
        self.cluster = ""

    @property
    def addresses(self) -> List[str]:
        return self.nodes.addresses

    def another(self) -> "Etcd":
        """A client of the same nodes, for another thread."""
        made = Etcd(list(self.addresses), self.patience, self.access)
        made.nodes.is_stopping = self.nodes.is_stopping
        return made

    def close(self) -> None:
        self.nodes.close()

    def give(self, seconds: float) -> None:
        """All that is asked from now on has so many seconds, together."""
        self.until = time.monotonic() + seconds

    def ask(self, path: str, body: Body) -> Body:
        """The answer of the first node that has one. Unreachable where none has for as long as `patience` lasts."""
        text = json.dumps(body)
        ends = min(time.monotonic() + self.patience, self.until)
        seconds, why = FIRST_SECONDS + len(text) / LEAST_RATE, "none in the time that was given"
        self.find(min(ends, time.monotonic() + seconds))
        while True:
            for _ in self.addresses:
                now, ends = time.monotonic(), self.nodes.ends(ends)
                if now >= ends:
                    raise Unreachable(f"no node of the log answers ({why})")
                try:
                    told = self.ask_as_user(path, text, max(min(now + seconds, ends), now + self.slow_seconds))
                    self.is_found = True
                    return told
                except (OSError, http.client.HTTPException) as error:
                    why = f"{self.addresses[0]}: {error or type(error).__name__}"
                    self.nodes.take_next()
            seconds = max(seconds, min(2 * seconds, MOST_SECONDS))
            time.sleep(max(0.0, min(PAUSE_SECONDS, ends - time.monotonic())))

    def find(self, by: float) -> None:
        """Finds a node that answers, where none has yet: one that hangs costs the others' time otherwise."""
        if not self.is_found and len(self.addresses) > 1:
            self.is_found = self.nodes.race("/v3/kv/range", FIRST_QUESTION, self.is_answer, by)

    def is_answer(self, answer: Answer) -> bool:
        """Whether a node has answered, be it by a refusal."""
        try:
            self.understood(answer)
        except OSError:
            return False
        except LogError:
            pass
        return True

    def headers(self) -> Dict[str, str]:
        return {"Authorization": self.token} if self.token else {}

    def ask_as_user(self, path: str, text: str, by: float) -> Body:
        """The answer of the node that is asked now, to the user that was given, which logs in first."""
        if self.access.user is not None and self.token is None:
            self.log_in(self.access.user, by)
        return self.ask_node(path, text, by)

    def log_in(self, user: str, by: float) -> None:
        """Gets a token. Denied where the password is wrong; one that was just changed stands in its file a moment later."""
        secret = self.access.secret()
        try:
            token = self.ask_node("/v3/auth/authenticate", json.dumps({"name": user, "password": secret}), by).get("token")
        except Denied as why:
            if self.access.password_file is None:
                raise
            time.sleep(GRACE_SECONDS)
            if self.access.secret() == secret:
                raise
            raise OSError(str(why)) from None
        if not token:
            raise OSError("an answer without a token")
        self.token = str(token)

    def ask_node(self, path: str, text: str, by: float) -> Body:
        """The answer of the node that is asked now. OSError where another one, or the same one later, may have one."""
        told = self.understood(self.nodes.ask(path, text, self.headers(), by))
        self.cluster = str(told.get("header", {}).get("cluster_id", self.cluster))
        return told

    def understood(self, answer: Answer) -> Body:
        """What an answer says. OSError where it is none, LogError where it's a refusal."""
        status, data = answer
        try:
            told = json.loads(data)
        except ValueError:
            told = None
        if not isinstance(told, dict):
            raise OSError(f"an answer that is no JSON (status {status})")
        if status != 200:
            self.refused(told)
        return told

    def refused(self, told: Body) -> None:
        """LogError where etcd refuses; OSError where it isn't known what becomes of what was asked."""
        code, message = told.get("code"), str(told.get("message", told.get("error", told)))
        if self.token is not None and (code == LOGGED_OUT or OLD_USERS in message):
            self.token = None
            raise OSError(message)
        if code not in REFUSALS or BUSY in message:
            raise OSError(message)
        if code == DENIED or any(words in message for words in DENIED_WORDS):
            raise Denied(message)
        raise Full(message) if NO_ROOM in message else LogError(message)

    def range(self, first: bytes, end: bytes, limit: int, last_first: bool = False, keys_only: bool = False) -> Found:
        """The first keys from one on and before another one, or the last ones; all of them where the limit is 0."""
        answer = self.ask("/v3/kv/range", ranged(first, end, limit, last_first, keys_only))
        return Found(entries_of(answer), int(answer["header"]["revision"]))

    def entry(self, key: bytes) -> Optional[Entry]:
        found = entries_of(self.ask("/v3/kv/range", {"key": coded(key)}))
        return found[0] if found else None

    def get(self, key: bytes) -> Optional[bytes]:
        return value_of(entries_of(self.ask("/v3/kv/range", {"key": coded(key)})))

    def put(self, key: bytes, value: bytes) -> None:
        self.ask("/v3/kv/put", {"key": coded(key), "value": coded(value)})

    def delete(self, first: bytes, end: bytes) -> None:
        """Deletes the keys from one on and before another one."""
        self.ask("/v3/kv/deleterange", {"key": coded(first), "range_end": coded(end)})

    def count(self, prefix: bytes) -> int:
        """How many keys begin so."""
        answer = self.ask("/v3/kv/range", {"key": coded(prefix), "range_end": coded(after(prefix)), "count_only": True})
        return int(answer.get("count", 0))

    def transact(self, compare: List[Body], success: List[Body], failure: List[Body]) -> Tuple[bool, List[List[Entry]]]:
        """Does one or the other, all at once: whether the comparisons hold, and what each part of what was done found."""
        done = self.transacted(compare, success, failure)
        return done[0], done[1]

    def transacted(self, compare: List[Body], success: List[Body],
                   failure: List[Body]) -> Tuple[bool, List[List[Entry]], int]:
        """As `transact`, and the number of the store's last change then."""
        answer = self.ask("/v3/kv/txn", {"compare": compare, "success": success, "failure": failure})
        found = [entries_of(part.get("response_range", {})) for part in answer.get("responses", [])]
        return bool(answer.get("succeeded", False)), found, int(answer["header"]["revision"])

    def wait(self, first: bytes, end: bytes, revision: int, seconds: float) -> None:
        """Waits until something of a range has changed after a revision, at most for so long. It may also come back sooner."""
        watched = {"key": coded(first), "range_end": coded(end), "start_revision": str(revision + 1)}
        ends = time.monotonic() + seconds
        connection = self.nodes.made(self.addresses[0], seconds)
        told: Body = {}
        try:
            connection.request("POST", "/v3/watch", json.dumps({"create_request": watched}), self.headers())
            answer = connection.getresponse()
            while time.monotonic() < ends:
                told = json.loads(answer.readline() or b"{}").get("result", {})
                if not told.get("created"):
                    break
            if not told or told.get("canceled"):
                time.sleep(PAUSE_SECONDS)
        except socket.timeout:
            return
        except (OSError, ValueError, http.client.HTTPException):
            time.sleep(PAUSE_SECONDS)
        finally:
            connection.close()
