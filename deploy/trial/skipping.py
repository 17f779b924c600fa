"""A scene in which no program can take a record: it is named, skipped by the keeper, and limits keep others like it out."""

import os
from pathlib import Path
from typing import List

from ledgerlog.log import Offer

from .checking import check_whole
from .processes import Failed, command, done, until
from .stage import NAMES, PATIENCE, Stage

REFUSED = 3
FATAL = str(Path(__file__).resolve().parent / "fatal_program")


def stuck(stage: Stage) -> int:
    """Puts a record that no program can take among others, and waits until all say at which one they are. Its number."""
    fatal = stage.given.fresh_mint()
    os.environ.update(FATAL_OF=stage.program, FATAL_BYTES=fatal.hex())
    for name in NAMES:
        stage.replica(name, program=FATAL).start()
    stage.all_answered(stage.feed(45))
    number = stage.log.last() + 4
    records = [*(stage.given.fresh_mint() for _ in range(3)), fatal, *(stage.given.fresh_mint() for _ in range(5))]
    offers = [Offer(f"stuck-{at}", record) for at, record in enumerate(records)]
    stage.put += records
    list(stage.log.append(offers, "trial", stage.log.settings()))
    for name in NAMES:
        until(lambda: stage.replicas[name].status().get("stuck at record") == str(number), PATIENCE, f"{name} names record {number}")
    until(lambda: stage.line(number - 1), PATIENCE, "the lines before it are final")
    if stage.final().answered_by(number):
        raise Failed(f"record {number} is answered by {stage.final().answered_by(number)}")
    return number


def skipped(stage: Stage) -> List[str]:
    stage.make()
    number = stuck(stage)
    done("log", *stage.words("keeper"), "skip", number - 1, "--reason", "no", status=1, says="is answered by")
    done("log", *stage.words("keeper"), "skip", number, "--reason", "too much for all")
    last = stage.log.last()
    stage.all_answered(last)
    if stage.line(number) != b"%d skipped asked\n" % number:
        raise Failed(f"record {number} is answered {stage.line(number)!r}")
    stage.check_running()
    check_whole(stage.log, stage.program, stage.folder, last)
    for name in NAMES:
        stage.replicas[name].says("(too much for all)")
    done("log", *stage.words("reader"), "show", says=f"skipped {number}: too much for all")
    done("log", *stage.words("keeper"), "set", "--record-size", 64, "--record-budget", 10_000)
    it = command("submit", *stage.words("submitter"), "-", given=b"\x2a\x50" + bytes(80))
    if it.returncode != REFUSED:
        raise Failed(f"submit of a record beyond the limit ends with the status {it.returncode}: {it.stderr!r}")
    stage.verify(says=f"record {number} is skipped, since that was asked for: too much for all")
    return [f"no program could take record {number}: the lines before it became final, all three named it, and went on when it was "
            "skipped; the others are answered as by one apply", "submit refuses what is beyond a limit"]
