"""Compares what the log and the replicas have in the end with one run of the program over the same records."""

import subprocess
from pathlib import Path
from typing import Dict, List, Tuple

from ledgerlog.final import Final
from ledgerlog.log import Log
from ledgerlog.written import Taken

from .processes import PATIENCE, Failed, ReplicaProcess, until

MOST_LINES = 5_000


def taken_from(log: Log, first: int = 1) -> List[Taken]:
    """All that a log has, from a number on."""
    told: List[Taken] = []
    while True:
        read = log.read(first + len(told)).taken
        if not read:
            return told
        told += read


def check_durable(records: List[bytes], durable: Dict[int, bytes]) -> None:
    """Failed where a record that was said to be durable isn't under its number, or the log has another one."""
    if len(records) != len(durable):
        raise Failed(f"the log has {len(records)} records, and {len(durable)} were said to be durable")
    wrong = [number for number, record in durable.items() if records[number - 1] != record]
    if wrong:
        raise Failed(f"record {min(wrong)} isn't the one that was said to be durable")


def applied(program: str, records: List[bytes], folder: Path) -> Tuple[Path, List[bytes]]:
    """Runs the program over the records: the name of the saved ledger, and the report line by line."""
    stream, saved, report = folder / "whole.stream", folder / "whole.ledger", folder / "whole.report"
    stream.write_bytes(b"".join(records))
    with open(report, "wb") as out:
        subprocess.run([program, "apply", "--save", str(saved), str(stream)], stdout=out, check=True)
    return saved, report.read_bytes().splitlines(keepends=True)


def final_lines(log: Log, last: int) -> List[bytes]:
    """What is final for the records from 1 on. Failed where something isn't."""
    final = Final(log.etcd, log.keys, log.settings())
    lines: List[bytes] = []
    while len(lines) < last:
        found = final.lines(len(lines) + 1, min(MOST_LINES, last - len(lines)))
        if not found:
            raise Failed(f"record {len(lines) + 1} isn't answered by a majority: {final.votes()}")
        lines += found
    return lines


def check_whole(log: Log, program: str, folder: Path, last: int) -> Path:
    """Failed where the final lines aren't those of one run of the program over the records that aren't skipped, with the log's
    numbers. Where that run saves its ledger."""
    taken = taken_from(log)
    saved, report = applied(program, [one.record for one in taken if one.why is None], folder)
    answers = iter(report)
    for number, (one, lines) in enumerate(zip(taken, final_lines(log, last)), 1):
        wanted = b"skipped %s\n" % one.why.encode() if one.why else next(answers, b"0 \n").split(b" ", 1)[1]
        if lines != b"%d %s" % (number, wanted):
            raise Failed(f"record {number} is answered {lines!r}, and one run of the program says {wanted!r}")
    return saved


def check_saves(replicas: List[ReplicaProcess], number: int, saved: Path) -> None:
    """Failed where a replica doesn't save the whole ledger, or another one than the program."""
    for replica in replicas:
        newest = lambda: replica.saves() and replica.saves()[0].number == number and replica.saves()[0]  # noqa: E731
        save = until(newest, PATIENCE, f"{replica.name} has saved record {number}")
        if Path(save.path).read_bytes() != saved.read_bytes():
            raise Failed(f"{save.path} isn't the ledger that the program saves")
