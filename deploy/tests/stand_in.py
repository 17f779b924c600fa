#!/usr/bin/env python3
"""A stand-in for moveledger, for tests that need no built program: it answers `apply` with lines that depend on all records
before, and saves and loads what it has. Its ledger is the number of runs, and a hash of them.

An environment may have it: STAND_IN_VERSION, what --version says; STAND_IN_WRONG, the number of the run that it answers
wrongly; STAND_IN_FATAL, the payload of a record at which it ends; STAND_IN_FORM, the form in which it saves, beside MVL2, which
each reads."""

import hashlib
import os
import sys
from typing import BinaryIO, Iterator

FATAL = bytes.fromhex(os.environ.get("STAND_IN_FATAL", "")) or None
MARK = os.environ.get("STAND_IN_FORM", "MVL2").encode()


class StandIn:
    """What was run."""

    def __init__(self, runs: int, digest: str) -> None:
        self.runs = runs
        self.digest = digest

    def lines(self, record: bytes) -> str:
        kind = record[0]
        if record[1:] == FATAL:
            print("fault: memory", file=sys.stderr)
            sys.exit(1)
        if kind in (1, 2):
            self.runs += 1
            wrong = "wrong" if os.environ.get("STAND_IN_WRONG") == str(self.runs) else ""
            self.digest = hashlib.sha256(self.digest.encode() + record + wrong.encode()).hexdigest()
            return f"returned {int(self.digest[:8], 16)}"
        if kind == 3:
            return f"at 00 {self.runs}\nend 1"
        return "end 0" if kind == 4 else "refused 1"


def records(stream: BinaryIO) -> Iterator[bytes]:
    while True:
        kind = stream.read(1)
        if not kind:
            return
        length = shift = 0
        while True:
            byte = stream.read(1)[0]
            length |= (byte & 127) << shift
            shift += 7
            if byte < 128:
                break
        yield kind + stream.read(length)


def loaded(name: str) -> StandIn:
    with open(name, "rb") as file:
        mark, runs, digest = file.read().split(b" ")
    if mark not in (b"MVL2", MARK):
        print("load refused 1")
        sys.exit(3)
    return StandIn(int(runs), digest.decode())


def main() -> int:
    words = sys.argv[1:]
    if words == ["--version"]:
        if "STAND_IN_VERSION" in os.environ:
            print(os.environ["STAND_IN_VERSION"])
            return 0
        return 2
    options = dict(zip(words[1:-1:2], words[2:-1:2]))
    held = loaded(options["--load"]) if "--load" in options else StandIn(0, "")
    with (sys.stdin.buffer if words[-1] == "-" else open(words[-1], "rb")) as stream:
        for number, record in enumerate(records(stream), 1):
            print("".join(f"{number} {line}\n" for line in held.lines(record).split("\n")), end="", flush=True)
    if "--save" in options:
        with open(options["--save"], "wb") as file:
            file.write(b"%s %d %s" % (MARK, held.runs, held.digest.encode()))
    return 0


sys.exit(main())
