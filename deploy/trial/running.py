"""Scenes in which a replica's program is killed, a replica is asked, and programs are upgraded one by one."""

import os
import re
import signal
import stat
import subprocess
from pathlib import Path
from typing import List

from .processes import DEPLOY, Failed, command, done, until
from .stage import NAMES, PATIENCE, Stage

METRIC = re.compile(r'moveledger_[a-z_]+\{replica="[^"]*"(,[a-z]+="[^"]*")*\} [0-9.e+-]+')
TYPE = re.compile(r"# TYPE moveledger_[a-z_]+ (gauge|counter)")
LOOK = 4
# Versions that no program has.
OLD, NEW = "0.0.0-old", "0.0.0-new"


def killed_program(stage: Stage) -> str:
    """Kills the program below a replica: the replica has to start it again, and to answer as the others."""
    replica = stage.replicas["first"]
    kills = 0
    while kills < 3:
        before = len(replica.told())
        kill(children_of(replica.process.pid if replica.process else 0)[0])
        # One that saved, or has ended by itself, isn't counted: it isn't the one that answers.
        stage.all_answered(stage.feed(10))
        kills += "was killed by signal 9" in replica.told()[before:]
        stage.check_running()
    restarts = replica.status()["program restarts"]
    if int(restarts) < 3:
        raise Failed(f"the status has {restarts} restarts of the program")
    return f"the program below a replica killed {kills} times: started again, and all answered alike"


def kill(process: int) -> None:
    """kill -9 of a process that may have ended."""
    try:
        os.kill(process, signal.SIGKILL)
    except ProcessLookupError:
        pass


def children_of(process: int) -> List[int]:
    """The programs that a replica runs now."""
    found = lambda: Path(f"/proc/{process}/task/{process}/children").read_text().split()  # noqa: E731
    return [int(one) for one in until(found, PATIENCE, "a replica runs its program")]


def asked(stage: Stage) -> str:
    """What a replica says of itself, and what it is asked, against what is known."""
    last = stage.feed(20)
    stage.all_answered(last)
    for name in NAMES:
        status = until(lambda: stage.replicas[name].status()["answered"] == str(last) and stage.replicas[name].status(), PATIENCE,
                       f"{name} says that it has answered record {last}")
        if (status["behind"], status["differs"], status["counted"]) != ("0", "none", "yes"):
            raise Failed(f"{name} says of itself {status}")
    folder = stage.replicas["second"].folder
    metrics = done("replica", "--metrics", folder).splitlines()
    wrong = [line for line in metrics if not METRIC.fullmatch(line) and not TYPE.fullmatch(line)]
    if wrong or f'moveledger_records_answered{{replica="second"}} {last}' not in metrics:
        raise Failed(f"the metrics aren't as they should be: {wrong or metrics}")
    if stat.S_IMODE(os.stat(folder / "socket").st_mode) & 0o007:
        raise Failed("anybody may open a replica's socket")
    questions = (("show",), ("audit", "--json"))
    shows = [command("ask", stage.replicas[name].folder, *words).stdout for name in NAMES for words in questions]
    if not all(shows) or len(set(shows)) != 2 or stage.log.last() != last:
        raise Failed("the replicas are asked the same and answer differently")
    return (f"three replicas say their status and {len(metrics)} lines of metrics; their shows ({len(shows[0].splitlines())} "
            "lines) and audits are equal")


def build(stage: Stage, version: str) -> str:
    """A program of another version, which answers as the one of the trial."""
    path = stage.folder / f"moveledger-{version}"
    path.write_text(f'#!/bin/sh\n[ "$1" = --version ] && echo "moveledger {version}" && exit\nexec "{stage.program}" "$@"\n')
    path.chmod(0o755)
    return str(path)


def upgraded(stage: Stage) -> str:
    """Has each replica run another build, one after the other, while records come."""
    old, new = build(stage, OLD), build(stage, NEW)
    mixed = 0
    for program in (old, new):
        for name in NAMES:
            if stage.replicas[name].stop() != 0:
                raise Failed(f"{name} doesn't stop")
            stage.feed(10)
            replica = stage.again(name, program=program)
            last = stage.feed(10)
            stage.all_answered(last)
            until(lambda: (status := replica.status())["behind"] == "0" and status["differs"] == "none", PATIENCE,
                  f"{name} is back")
            mixed += len({stage.replicas[one].status()["program"].split(" sha256")[0] for one in NAMES}) > 1
    told = done("log", *stage.words("reader"), "show")
    if told.count(f"moveledger {NEW} sha256:") != 3 or mixed < 4:
        raise Failed(f"the log says of its programs: {told}")
    stage.check_running()
    return f"upgraded from {OLD} to {NEW} one by one while records came: nothing differs, the log names each replica's version"


def badly_upgraded(stage: Stage) -> str:
    """Has one replica run a build that answers differently: it has to stop, and the old build to bring it back."""
    stage.replicas["third"].stop()
    os.environ["WRONG_OF"] = stage.program
    wrong = stage.again("third", program=str(Path(__file__).resolve().parent / "wrong_program"))
    for _ in range(3):
        stage.submit(stage.given.fresh_mint())
    wrong.ends(LOOK, "STOPS, SINCE IT DIFFERS")
    stage.check_running("first", "second")
    stage.again("third", "--again")
    stage.all_answered(stage.feed(10))
    stage.check_running()
    return "a build that answers differently stopped at once, the two others went on, the old build brought it back"


def interrupted(stage: Stage) -> str:
    """Interrupts a submit that waits for lines that don't come: it has to tell the id, by which the record keeps its number."""
    for name in ("second", "third"):
        stage.replicas[name].stop()
    record = stage.given.fresh_mint()
    words = [str(DEPLOY / "submit"), *map(str, stage.words("submitter")), "--wait", "-"]
    with subprocess.Popen(words, stdin=subprocess.PIPE, stdout=subprocess.PIPE, stderr=subprocess.PIPE) as process:
        assert process.stdin and process.stdout and process.stderr
        process.stdin.write(record)
        process.stdin.close()
        number = process.stdout.readline().strip()
        process.send_signal(stage.random.choice((signal.SIGINT, signal.SIGTERM)))
        said = process.stderr.read().decode()
    found = re.search("try again with --id ([0-9a-f-t]+)", said)
    again = command("submit", *stage.words("submitter"), "--id", found.group(1), "-", given=record) if found else None
    if process.returncode != 1 or again is None or again.stdout.strip() != number:
        raise Failed(f"submit, interrupted at record {number!r}, ends with the status {process.returncode}: {said}")
    stage.put.append(record)
    for name in ("second", "third"):
        stage.again(name)
    stage.all_answered(int(number))
    return f"a submit that was interrupted while it waited told its id; put again by that it kept the number {int(number)}"


def running(stage: Stage) -> List[str]:
    """All of this on one ledger."""
    stage.make()
    stage.start()
    # By then all of them run the program that answers: one that starts asks it for its version.
    stage.all_answered(stage.feed(60))
    return [killed_program(stage), asked(stage), upgraded(stage), badly_upgraded(stage),
            interrupted(stage)]
