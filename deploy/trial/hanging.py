"""Scenes in which nodes hang: they are stopped and go on later, take connections and answer nothing, take none and refuse none, or
answer when nobody waits any more."""

import http.client
import signal
import socket
import subprocess
import threading
import time
from http.server import BaseHTTPRequestHandler, ThreadingHTTPServer
from typing import List

from ledgerlog.etcd import Etcd

from .processes import DEPLOY, Failed, Node, command
from .stage import NAMES, PATIENCE, Stage

# Long enough for a node to answer a write that it gave up waiting for its peers.
PAUSE_SECONDS = 16.0
# What a command may take where one node hangs, which costs it nothing, beyond four times of what it takes where none does: the machine may
# be busy.
MOST_SECONDS = 8.0
LATE_SECONDS = 5.0
STREAM = 600


def signalled(nodes: List[Node], number: int) -> None:
    for node in nodes:
        assert node.process is not None
        node.process.send_signal(number)


def left_of(stage: Stage, stopped: List[Node]) -> List[str]:
    """The addresses of the nodes that aren't stopped."""
    return [address for node, address in zip(stage.place.nodes, stage.place.addresses) if node not in stopped]


def silent() -> socket.socket:
    """Takes connections, and answers nothing."""
    return socket.create_server(("127.0.0.1", 0))


def dropping() -> socket.socket:
    """Takes no connection and refuses none, since its queue is full."""
    made = socket.socket()
    made.bind(("127.0.0.1", 0))
    made.listen(0)
    for _ in range(2):
        waiting = socket.socket()
        waiting.setblocking(False)
        waiting.connect_ex(made.getsockname())
        waiting.detach()
    return made


class Late:
    """Hands on what a node is asked, and its answers so many seconds later."""

    def __init__(self, node: str, seconds: float) -> None:
        class Handler(BaseHTTPRequestHandler):
            protocol_version = "HTTP/1.1"

            def do_POST(self) -> None:
                body = self.rfile.read(int(self.headers["Content-Length"]))
                to = http.client.HTTPConnection(node, timeout=PATIENCE)
                to.request("POST", self.path, body)
                answer = to.getresponse()
                data = answer.read()
                to.close()
                time.sleep(seconds if self.path.endswith("txn") else 0.0)
                try:
                    self.send_response(answer.status)
                    self.send_header("Content-Length", str(len(data)))
                    self.end_headers()
                    self.wfile.write(data)
                except OSError:
                    self.close_connection = True

            def log_message(self, *_: object) -> None:
                pass

        self.server = ThreadingHTTPServer(("127.0.0.1", 0), Handler)
        self.address = f"127.0.0.1:{self.server.server_port}"
        threading.Thread(target=self.server.serve_forever, daemon=True).start()

    def close(self) -> None:
        self.server.shutdown()
        self.server.server_close()


def submitted(stage: Stage, nodes: List[str], seconds: float, *options: object) -> float:
    """Puts a record over these nodes: once, under the next number, and within so many seconds. How many it took."""
    number, record = stage.log.last() + 1, stage.given.fresh_mint()
    began = time.monotonic()
    it = command("submit", "--log", ",".join(nodes), "--ledger", stage.ledger, *options, "-", given=record)
    took = time.monotonic() - began
    if it.returncode != 0 or it.stdout.split(b"\n")[0] != b"%d" % number or stage.log.last() != number or took > seconds:
        raise Failed(f"submit over {nodes} took {took:.1f} s and ended with the status {it.returncode}: {it.stdout!r} {it.stderr!r}; "
                     f"the log has {stage.log.last()} records, and {number} were to be there")
    stage.put.append(record)
    return took


def most_seconds(stage: Stage) -> float:
    return MOST_SECONDS + 4 * submitted(stage, stage.place.addresses, PATIENCE, "--wait")


def one_hangs(stage: Stage) -> str:
    """The first node hangs in each way: no command waits for it."""
    others, told = stage.place.addresses[1:], []
    most = most_seconds(stage)
    for how, make in ("answers nothing", silent), ("takes no connection", dropping):
        with make() as node:
            nodes = [f"127.0.0.1:{node.getsockname()[1]}", *others]
            told.append(f"{how} {submitted(stage, nodes, most, '--wait'):.1f} s")
    stopped = stage.place.nodes[:1]
    signalled(stopped, signal.SIGSTOP)
    try:
        time.sleep(2.0)
        told.append(f"is stopped {submitted(stage, stage.place.addresses, 2 * most, '--wait'):.1f} s")
    finally:
        signalled(stopped, signal.SIGCONT)
    return f"submit --wait where one node {', '.join(told)}"


def late(stage: Stage) -> str:
    """A node answers each transaction when nobody waits any more: the record is put once, and its number found."""
    node = Late(stage.place.addresses[0], LATE_SECONDS)
    try:
        took = submitted(stage, [node.address], PATIENCE)
    finally:
        node.close()
    return f"answers {LATE_SECONDS:g} s late: the record is in the log once, and its number was known after {took:.1f} s"


def seconds_are_kept(stage: Stage) -> str:
    """Two nodes are stopped: submit ends in the time that it was given, with the id."""
    stopped, record, most = stage.place.nodes[1:], stage.given.fresh_mint(), 5 + most_seconds(stage)
    signalled(stopped, signal.SIGSTOP)
    try:
        began = time.monotonic()
        it = command("submit", *stage.words("submitter"), "--seconds", 5, "--id", "waits", "-", given=record)
        took = time.monotonic() - began
    finally:
        signalled(stopped, signal.SIGCONT)
    if it.returncode != 1 or b"try again with --id waits" not in it.stderr or took > most:
        raise Failed(f"submit --seconds 5 took {took:.1f} s and ended with the status {it.returncode}: {it.stderr!r}")
    again = command("submit", *stage.words("submitter"), "--id", "waits", "-", given=record)
    if again.returncode != 0:
        raise Failed(f"put again by its id, it ended with the status {again.returncode}: {again.stderr!r}")
    stage.put.append(record)
    return f"with two nodes stopped, submit --seconds 5 ended after {took:.1f} s with its id, by which the record was put later"


class Writing:
    """A write to these nodes, which has to be done however they answer meanwhile."""

    def __init__(self, stage: Stage, nodes: List[str]) -> None:
        self.etcd, self.key = Etcd(nodes, PATIENCE, stage.place.access), f"{stage.ledger}-written".encode()
        self.errors: List[Exception] = []
        self.thread = threading.Thread(target=self.work, daemon=True)
        self.thread.start()

    def work(self) -> None:
        try:
            self.etcd.put(self.key, b"x")
        except Exception as error:  # noqa: BLE001
            self.errors.append(error)

    def check(self) -> None:
        self.thread.join()
        if self.errors or self.etcd.get(self.key) != b"x":
            raise Failed(f"a write while two nodes were stopped ended so: {self.errors}")
        self.etcd.close()


def two_pause(stage: Stage, name: str, is_alone: bool) -> str:
    """Two nodes are stopped for a while under a stream: it ends as if nothing had been, and no replica ends. One that asks the third node
    alone is told by this that it gave up waiting for the others."""
    records = stage.offered(STREAM)
    before = stage.log.last()
    stopped = stage.random.sample(stage.place.nodes, 2)
    nodes = left_of(stage, stopped) if is_alone else stage.place.addresses
    words = [str(DEPLOY / "submit"), "--log", ",".join(nodes), "--ledger", stage.ledger, "--stream", "--id", name, "--seconds",
             str(PATIENCE), "-"]
    with subprocess.Popen(words, stdin=subprocess.PIPE, stdout=subprocess.PIPE, stderr=subprocess.PIPE) as process:
        assert process.stdin and process.stdout and process.stderr
        process.stdin.write(b"".join(records))
        process.stdin.close()
        process.stdout.readline()
        signalled(stopped, signal.SIGSTOP)
        writing = Writing(stage, left_of(stage, stopped))
        time.sleep(PAUSE_SECONDS)
        signalled(stopped, signal.SIGCONT)
        numbers = [int(line) for line in process.stdout.read().split()]
        said = process.stderr.read().decode()
    if process.returncode != 0 or len(numbers) != len(records) - 1 or stage.log.last() != before + len(records):
        raise Failed(f"submit ended with the status {process.returncode}: {said}; it told {len(numbers) + 1} numbers of {len(records)}, "
                     f"and the log has {stage.log.last() - before} more")
    writing.check()
    stage.put += records
    stage.all_answered(stage.log.last())
    stage.check_running()
    return (f"two nodes stopped for {PAUSE_SECONDS:g} s under a stream of {len(records)} over {len(nodes)} of them: each put once, and no "
            "replica ended")


def hanging(stage: Stage) -> List[str]:
    """All of this on one ledger."""
    stage.make()
    stage.start(NAMES)
    stage.feed(60)
    told = [one_hangs(stage), late(stage), seconds_are_kept(stage), two_pause(stage, "one", False),
            two_pause(stage, "two", True)]
    stage.all_answered(stage.log.last())
    stage.check_running()
    stage.verify()
    return told
