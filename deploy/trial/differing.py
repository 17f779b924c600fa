"""Scenes in which something differs: a save with a flipped bit, a program that answers wrongly, lines that someone else put."""

import os
from typing import List

from ledgerlog.chains import START, ChainVote, Point, Told, told_in
from ledgerlog.keys import TOLD, VOTE
from ledgerlog.requests import after

from .processes import DEPLOY, Failed, ReplicaProcess, done, until
from .stage import PATIENCE, Stage

WRONG = DEPLOY / "trial" / "wrong_program"
LOOK = 4


def flip(path: str, draw: int) -> int:
    """Flips one bit of a file, and gives its place."""
    place = draw % (8 * os.path.getsize(path))
    with open(path, "r+b") as file:
        file.seek(place // 8)
        byte = file.read(1)[0]
        file.seek(place // 8)
        file.write(bytes([byte ^ 1 << place % 8]))
    return place


def flipped_save(stage: Stage, replica: ReplicaProcess) -> str:
    """Flips a bit of a replica's newest save: it has to say so and to go on as the others do."""
    last = stage.feed(60)
    stage.saved(replica.name, last)
    replica.kill()
    before = len(replica.told())
    newest = replica.saves()[0]
    place = flip(newest.path, stage.random.getrandbits(60))
    replica.start()
    said = replica.says("isn't believed", before)
    if newest.path not in said:
        raise Failed(f"{replica.name} says {said}")
    until(lambda: os.path.exists(newest.path + ".refused"), PATIENCE, f"{newest.path} is set aside")
    stage.all_answered(stage.feed(20))
    stage.check_running()
    return f"bit {place} of {replica.name}'s save after record {newest.number} flipped: set aside, the one before taken"


def wrong_program(stage: Stage, name: str) -> str:
    """Has a replica answer wrongly: it has to stop, and to stay stopped until someone says so; the others go on."""
    replica = stage.replicas[name]
    if replica.stop() != 0:
        raise Failed(f"{name} doesn't stop")
    os.environ["WRONG_OF"] = stage.program
    wrong = stage.again(name, program=str(WRONG))
    number = 0
    for _ in range(5):
        number, _ = stage.submit(stage.given.fresh_mint())
    said = wrong.ends(LOOK, "STOPS, SINCE IT DIFFERS")
    stage.check_running(*[one for one in stage.replicas if one != name])
    stage.again(name).ends(LOOK, "stopped here before")
    before = len(wrong.told())
    again = stage.again(name, "--again")
    stage.all_answered(stage.feed(10))
    stage.all_answered(number)
    again.check()
    if "set aside" not in again.told()[before:] and not again.saves():
        raise Failed(f"{name} says {again.told()[before:]}")
    return (f"a program that answers wrongly: `{said[:150]}..`; stopped with the status {LOOK}, also when it was started again, "
            "back by --again")


def forge(stage: Stage, name: str, first: int, last: int) -> None:
    """Puts a wrong vote on all records up to one in a replica's name, and wrong lines from another one on."""
    keys, etcd = stage.log.keys, stage.log.etcd
    lines = [b"%d returned 999\n" % number for number in range(first, last + 1)]
    etcd.put(keys.vote(name, TOLD, first), Told(first, START, lines).value())
    etcd.put(keys.own(name, VOTE), ChainVote(Point(last, b"\1" * 32), Point(last, b"\1" * 32), last).text())


def forged_lines(stage: Stage, name: str) -> str:
    """Puts wrong votes and lines in a replica's name, on records to come and on some that it has answered: the right ones have to be
    answered, and nobody to stop."""
    first = stage.log.last() + 1
    forge(stage, name, first, first + 4)
    answers: List[str] = [stage.submit(stage.given.fresh_mint())[1] for _ in range(5)]
    stage.all_answered(first + 4)
    forge(stage, name, first, first + 4)
    stage.replicas[name].says("others than it made stand under this replica's own name")
    answers += [stage.submit(stage.given.fresh_mint())[1] for _ in range(5)]
    wrong = [lines for lines in answers if "999" in lines]
    if wrong:
        raise Failed(f"submit printed forged lines: {wrong}")
    stage.all_answered(first + 9)
    stage.check_running()
    return (f"wrong votes and lines in {name}'s name, on records to come and on answered ones: submit printed the right ones, {name} voted "
            "again, nobody stopped")


def verified(stage: Stage) -> str:
    """Has the log answered again, before and after one line is altered that a replica has told."""
    told = stage.verify()
    etcd, keys = stage.log.etcd, stage.log.keys
    entries = [(entry, lines) for name in stage.replicas for entry in etcd.range(keys.by(name, TOLD), after(keys.by(name, TOLD)), 0).entries
               for lines in [told_in(entry)] if lines is not None and b"999" not in entry.value]
    entry, lines = stage.random.choice(entries)
    number = stage.random.randrange(lines.first, lines.last() + 1)
    # Others may have told it too.
    for other, those in entries:
        if those.first <= number <= those.last():
            etcd.delete(other.key, other.key + b"\0")
    altered = [b"%d returned 999\n" % at if at == number else one for at, one in enumerate(lines.lines, lines.first)]
    etcd.put(entry.key, lines._replace(lines=altered).value())
    stage.verify(LOOK, f"the lines of record {number}: it has put '{number} returned 999")
    for other, _ in entries:
        etcd.put(other.key, other.value)
    stage.verify()
    return f"--verify: {told}; with one line altered under record {number} it says so"


def newcomer(stage: Stage) -> str:
    """A replica outside the set follows, and one that is handed a save is there at once."""
    folder = stage.folder / "handed"
    handed = int(done("snapshot", *stage.words("reader"), stage.with_agreed_save().folder, folder))
    one = stage.replica("handed", folder=folder)
    took = one.comes_back(stage.log.last(), PATIENCE)
    if "isn't in the log's set" not in one.told():
        raise Failed(f"a replica outside the set says {one.told()}")
    if one.stop() != 0:
        raise Failed("a replica outside the set doesn't stop")
    del stage.replicas["handed"]
    return f"a replica that was handed the save after record {handed} is there after {took:.2f} s, and puts nothing"


def differing(stage: Stage) -> List[str]:
    """All of this on one ledger."""
    stage.make()
    first, _, _ = stage.start()
    return [flipped_save(stage, first), wrong_program(stage, "second"), forged_lines(stage, "third"), verified(stage),
            newcomer(stage)]
