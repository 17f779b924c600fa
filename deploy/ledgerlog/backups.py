"""Backups of a log: etcd's own command takes them, with a save of each ledger whose log was cleared, and a drill restores the newest one into
a node of its own."""

import json
import os
import re
import secrets
import shutil
import socket
import subprocess
import sys
import time
from contextlib import closing, contextmanager
from typing import Dict, Iterator, List, NamedTuple, Optional, Sequence, Set, Tuple

from .errors import LogError
from .etcd import Access, Etcd
from .fetching import Fetching
from .keys import NAME_TEXT, SAVED, Keys, number_in
from .log import Log
from .program import Program
from .records import ASKED
from .requests import after, get, value_of
from .saves import Save, Saves, locked, saved_vote_in, saves_in, sync_file, sync_folder, vote_on
from .settings import Settings
from .verifying import Verifying
from .votes import Vote, Votes, votes_in

# A backup is a file with what a node has, and for each ledger whose log was cleared a folder with a save, as a replica's folder has it.
NAME, END = "log-", ".db"
SAVE_FOLDER = re.compile(r"(log-\d{8}T\d{6}Z)-([A-Za-z0-9-]{1,64})")
# Where a backup is made, and where one is restored for a look. What earlier versions of this left halfway.
UNFINISHED, DRILL = "unfinished", "drill"
LEFT = re.compile(r"log-.*\.db\.unfinished(\.part)?")
SNAPSHOT = "log.db"
# How long a backup may take, and a node to start on one.
TAKE_SECONDS, START_SECONDS = 1_800.0, 300.0
MOST_READ = 1_000
# How often a backup is begun anew, since logs are cleared or changed while it is taken; and for how long replicas that don't answer are waited
# for, each time before they are asked for the newest save again.
MOST_TRIES = 5
PAUSES = (1.0, 4.0)
# What etcdctl says it fails by begins so; the rest is a journal, or a trace.
FAILURES = ("Error:", "panic:", "fatal error:")
# No replica has this name: the saves of all are asked for.
NOBODY = ""


def failure_in(text: str) -> str:
    """Why etcdctl fails, of all that it says."""
    lines = text.strip().splitlines()
    return next((line for line in lines if line.startswith(FAILURES)), lines[-1] if lines else "it doesn't say why")


def etcdctl(words: Sequence[str], access: Access = Access()) -> str:
    """What etcd's own command prints. LogError where it fails. No password stands on its line, where every user could read it."""
    files = (("--cacert", access.authority), ("--cert", access.certificate), ("--key", access.key))
    options = [word for name, file in files if file is not None for word in (name, file)]
    environment: Dict[str, str] = {**os.environ, "ETCDCTL_API": "3"}
    if access.user is not None:
        environment["ETCDCTL_USER"] = f"{access.user}:{access.secret()}"
    try:
        it = subprocess.run(["etcdctl", *options, *words], env=environment, stdin=subprocess.DEVNULL, stdout=subprocess.PIPE,
                            stderr=subprocess.PIPE, timeout=TAKE_SECONDS)
    except subprocess.TimeoutExpired:
        raise LogError(f"etcdctl {words[0]} {words[1]} takes longer than {TAKE_SECONDS:g} seconds") from None
    if it.returncode != 0:
        said = failure_in(it.stderr.decode("utf-8", "replace"))
        raise LogError(f"etcdctl {words[0]} {words[1]} ends with the status {it.returncode}: {said}")
    return it.stdout.decode("utf-8", "replace").strip()


def backups_in(folder: str) -> List[str]:
    """The backups of a folder, the newest first."""
    return sorted((name for name in os.listdir(folder) if name.startswith(NAME) and name.endswith(END)), reverse=True)


def save_folders_in(folder: str) -> List[Tuple[str, str, str]]:
    """The folders of saves that stand beside backups, the newest first: each with the backup's name and the ledger's."""
    found = [(SAVE_FOLDER.fullmatch(name), name) for name in os.listdir(folder)]
    return sorted(((at.group(1) + END, at.group(2), os.path.join(folder, name)) for at, name in found if at), reverse=True)


def ledgers_in(etcd: Etcd) -> List[str]:
    """The ledgers that have a log there."""
    names: List[str] = []
    # All names begin with `-`, a digit or a letter.
    first, end = b"-", b"{"
    while True:
        found = etcd.range(first, end, 1, keys_only=True).entries
        if not found:
            return names
        prefix, is_in_one, _ = found[0].key.partition(b"/")
        name = prefix.decode("ascii", "replace")
        if is_in_one and NAME_TEXT.fullmatch(name) and etcd.get(Keys(name).log) is not None:
            names.append(name)
        first = prefix + b"0" if is_in_one else found[0].key + b"\0"


def emptied(path: str) -> None:
    """Removes all that stands in a folder."""
    with os.scandir(path) as found:
        for entry in found:
            if entry.is_dir(follow_symlinks=False):
                shutil.rmtree(entry.path)
            else:
                os.remove(entry.path)


@contextmanager
def workplace(folder: str, name: str) -> Iterator[str]:
    """A folder that is empty at first, and that one works in at a time: what one left that was killed is removed. LogError where another one
    is at work."""
    path = os.path.join(folder, name)
    os.makedirs(path, mode=0o700, exist_ok=True)
    try:
        lock = locked(path)
    except BlockingIOError:
        raise LogError(f"another one is at work in {path}") from None
    try:
        emptied(path)
        yield path
    finally:
        try:
            emptied(path)
        finally:
            os.close(lock)


def is_usable(settings: Settings, votes: Votes, vote: Vote) -> bool:
    """Whether a replica may go on from an agreed save: as many records of it are skipped as when it was made."""
    is_chained = settings.is_chaining() and vote.number > settings.chained
    skips = sum(one <= vote.number for one in settings.skips)
    return votes.is_usable(vote.number, vote.value) and (not is_chained or saved_vote_in(vote.value).skips == skips)


class Part(NamedTuple):
    """What a backup has of one ledger: its log as it was before the snapshot was taken, what the log has for the save that goes with it, and
    why there is none where one is needed. `rules` is the change that put the log's settings, and `changed` the last one of all this."""

    log: Log
    last: int
    cleared: int
    rules: int
    changed: int
    vote: Optional[Vote] = None
    lacks: str = ""

    def told(self) -> str:
        save = f", with the save behind record {self.vote.number}" if self.vote else ""
        return f"the log of {self.log.keys.ledger} up to record {self.last} at least{save}"

    def holds(self) -> bool:
        """Whether this holds after the snapshot too, and so in it: the records behind the save are there, and the votes for it."""
        settings, rules = self.log.settings_at(True)
        cleared = self.log.cleared()
        if self.lacks:
            return True
        if self.vote is None or rules != self.rules:
            return cleared == 0 and rules == self.rules
        final = votes_in(self.log.etcd, self.log.keys, settings).final(SAVED, self.vote.number)
        return cleared <= self.vote.number and final == self.vote.value


class Taking:
    """A backup that is taken, in a folder to work in."""

    def __init__(self, log: Log, folder: str, place: str) -> None:
        self.log = log
        self.folder = folder
        self.place = place
        self.told: Set[str] = set()

    def tell(self, text: str) -> None:
        """Says something, once however often it comes."""
        if text not in self.told:
            print(f"backup: {text}", file=sys.stderr, flush=True)
        self.told.add(text)

    def parts(self, names: List[str]) -> List[Part]:
        """Takes the saves of these ledgers, and then a snapshot that has the votes for them and the records behind them."""
        for _ in range(MOST_TRIES):
            emptied(self.place)
            parts = [self.part(Log(self.log.etcd, name)) for name in names]
            self.snapshot(max(part.changed for part in parts))
            if all([part.holds() for part in parts]):
                return parts
            self.tell("a log was cleared or changed meanwhile: takes it anew")
        raise LogError(f"logs were cleared or changed while a backup was taken, {MOST_TRIES} times: try again")

    def part(self, log: Log) -> Part:
        """What there is of a ledger now, with a save where its log was cleared."""
        settings, rules = log.settings_at(True)
        cleared = log.cleared()
        vote: Optional[Vote] = None
        lacks = ""
        if cleared:
            vote, lacks = self.save(log, settings, cleared)
        asked = [get(log.keys.last), get(log.keys.log)]
        if vote is not None:
            asked += [get(log.keys.vote(name, SAVED, vote.number)) for name in settings.replicas]
        found = log.etcd.transact([], asked, [])[1]
        changed = max(entry.changed for entries in found for entry in entries)
        return Part(log, log.last_of(value_of(found[0])), cleared, rules, changed, vote, lacks)

    def save(self, log: Log, settings: Settings, cleared: int) -> Tuple[Optional[Vote], str]:
        """Gets an agreed save behind what was cleared: what the log has for it, or why there is none."""
        votes = votes_in(log.etcd, log.keys, settings)
        agreed = [vote for vote in votes.agreed_saves(log.last()) if vote.number >= cleared and is_usable(settings, votes, vote)]
        if not agreed:
            return None, "no majority has voted for a save from there on"
        path = os.path.join(self.place, log.keys.ledger)
        os.mkdir(path, 0o700)
        saves = Saves(path)
        try:
            fetching = Fetching(log, saves, NOBODY, lambda text: self.tell(f"of {log.keys.ledger}: {text}"), lambda: False)
            save = self.given(fetching, settings, votes, agreed) or self.earlier(saves, log.keys.ledger, settings, agreed)
            names = [name for name, _ in fetching.addresses(votes)]
        finally:
            saves.close()
        if save is not None:
            return next(vote for vote in agreed if vote.number == save.number), ""
        if not names:
            return None, "no replica of the set says where it gives its saves (deploy/replica --saves-at)"
        return None, f"none of {', '.join(names)} gives a save from there on that a majority has voted for"

    def given(self, fetching: Fetching, settings: Settings, votes: Votes, agreed: List[Vote]) -> Optional[Save]:
        """The newest of these saves that a replica gives. The newest of all is waited for a while: a clearing forgets the votes for others."""
        for pause in PAUSES:
            save, silent = fetching.fetched(settings, agreed[:1], fetching.addresses(votes))
            if save is not None or not silent:
                break
            time.sleep(pause)
        return save or fetching.fetched(settings, agreed, fetching.addresses(votes))[0]

    def earlier(self, saves: Saves, ledger: str, settings: Settings, agreed: List[Vote]) -> Optional[Save]:
        """The newest of these saves that stands beside an earlier backup, copied."""
        there = [save for _, name, path in save_folders_in(self.folder) if name == ledger for save in saves_in(path)]
        for vote in agreed:
            for save in there:
                if save.number == vote.number and self.is_copied(save, saves.fetched(), vote):
                    self.tell(f"takes {save.path}, since no replica gives it")
                    return saves.named(saves.fetched(), vote.number, settings.id)
        return None

    def is_copied(self, save: Save, path: str, vote: Vote) -> bool:
        """Whether a save is there under another name then, whole and with the right digest."""
        try:
            shutil.copyfile(save.path, path)
            return vote_on(path) == saved_vote_in(vote.value).ledger
        except OSError as why:
            self.tell(f"{save.path} isn't taken: {why}")
            return False

    def snapshot(self, least: int) -> None:
        """Takes a snapshot from a node that has this change. LogError where none gives one."""
        path, access, why = os.path.join(self.place, SNAPSHOT), self.log.etcd.access, "there is no node"
        scheme = "http" if access.authority is None else "https"
        for node in list(self.log.etcd.addresses):
            try:
                etcdctl(["snapshot", "save", path, "--endpoints", f"{scheme}://{node}"], access)
                if newest_change(path) >= least:
                    return
                why = f"{node} is behind the other nodes"
            except LogError as error:
                why = str(error)
        raise LogError(why)


def newest_change(path: str) -> int:
    """The newest change in a snapshot that put a key. LogError where it can't be read."""
    told = etcdctl(["snapshot", "status", path, "--write-out", "json"])
    try:
        return int(json.loads(told.splitlines()[-1])["revision"])
    except (ValueError, KeyError, IndexError, TypeError):
        raise LogError(f"etcdctl doesn't say which changes the snapshot has: {told}") from None


def new_name(folder: str) -> str:
    """The name of a backup that is taken now, without its end. No other one has it."""
    while True:
        name = NAME + time.strftime("%Y%m%dT%H%M%SZ", time.gmtime())
        if not any(one.startswith(name) for one in os.listdir(folder)):
            return name
        time.sleep(0.1)


def put_in_place(place: str, folder: str, name: str, parts: List[Part]) -> str:
    """Moves what was taken to its place, the snapshot last: without it there is no backup. Where it is."""
    for part in parts:
        if part.vote is not None:
            os.rename(os.path.join(place, part.log.keys.ledger), os.path.join(folder, f"{name}-{part.log.keys.ledger}"))
    sync_file(os.path.join(place, SNAPSHOT))
    sync_folder(folder)
    path = os.path.join(folder, name + END)
    os.rename(os.path.join(place, SNAPSHOT), path)
    sync_folder(folder)
    return path


def forget_old(folder: str, keep: int) -> None:
    """Removes all but the newest backups, and the saves of those that are gone."""
    there = backups_in(folder)
    for old in [*there[keep:], *filter(LEFT.fullmatch, os.listdir(folder))]:
        os.remove(os.path.join(folder, old))
    for backup, _, path in save_folders_in(folder):
        if backup < there[:keep][-1]:
            shutil.rmtree(path)


def taken(log: Log, folder: str, keep: int, ledger: Optional[str] = None) -> str:
    """Takes a backup, with a save of each ledger whose log was cleared, or of this one alone, and forgets the oldest ones. What it has.
    LogError where there is none, or it isn't whole: then it stays, and so do all others."""
    os.makedirs(folder, mode=0o700, exist_ok=True)
    with workplace(folder, UNFINISHED) as place:
        names = [ledger] if ledger else ledgers_in(log.etcd)
        if not names:
            raise LogError("there is no log of any ledger: deploy/log make makes one")
        name = new_name(folder)
        parts = Taking(log, folder, place).parts(names)
        path = put_in_place(place, folder, name, parts)
        lacking = [f"the log of {part.log.keys.ledger} was cleared up to record {part.cleared}, and {part.lacks}" for part in parts if part.lacks]
        if lacking:
            raise LogError(f"{path} isn't whole: {'; '.join(lacking)}. No older backup is removed")
        forget_old(folder, keep)
    return f"{path} has {'; '.join(part.told() for part in parts)}"


def free_port() -> int:
    with socket.socket() as one:
        one.bind(("127.0.0.1", 0))
        return int(one.getsockname()[1])


@contextmanager
def node_of(backup: str, place: str) -> Iterator[str]:
    """A node of its own on the loopback interface, with what a backup has. Where it answers."""
    client, peer = (f"http://127.0.0.1:{free_port()}" for _ in range(2))
    data = os.path.join(place, "node")
    etcdctl(["snapshot", "restore", backup, "--name", "drill", "--data-dir", data, "--initial-cluster", f"drill={peer}",
             "--initial-cluster-token", secrets.token_hex(8), "--initial-advertise-peer-urls", peer])
    words = ["etcd", "--name", "drill", "--data-dir", data, "--listen-client-urls", client, "--advertise-client-urls", client,
             "--listen-peer-urls", peer, "--initial-advertise-peer-urls", peer, "--initial-cluster", f"drill={peer}",
             "--logger", "zap", "--log-level", "error"]
    with subprocess.Popen(words, stdin=subprocess.DEVNULL, stdout=subprocess.DEVNULL, stderr=subprocess.DEVNULL) as node:
        try:
            yield client.partition("//")[2]
        finally:
            node.kill()


def drilled(folder: str, ledger: Optional[str] = None, access: Access = Access(), program: Optional[str] = None) -> str:
    """Restores the newest backup into a node of its own, and looks whether each ledger can go on from it, or this one alone; with a program,
    it answers what is there. LogError where that can't be."""
    there = backups_in(folder)
    if not there:
        raise LogError(f"{folder} has no backup")
    path = os.path.join(folder, there[0])
    places = {name: place for backup, name, place in save_folders_in(folder) if backup == there[0]}
    user = Access(user=access.user, password=access.password, password_file=access.password_file)
    with workplace(folder, DRILL) as place, node_of(path, place) as address, closing(Etcd([address], START_SECONDS, user)) as etcd:
        names = [ledger] if ledger else sorted({*ledgers_in(etcd), *places})
        if not names:
            raise LogError(f"{path} has no log of any ledger")
        return f"{path}: " + "; ".join(looked_at(Log(etcd, name), places.get(name), program) for name in names)


def looked_at(log: Log, place: Optional[str], program: Optional[str] = None) -> str:
    """What a backup has of a ledger, whose save stands in this folder, where there is one. LogError where no replica could go on from it."""
    told = counted(log)
    cleared = log.cleared()
    saves = saves_in(place) if place is not None else []
    for save in saves:
        check_save(log, save)
    if cleared and not saves:
        raise LogError(f"{told}, but it isn't whole: no save stands beside it, so no replica can begin behind record {cleared}")
    if program is not None:
        check_answers(log, program, place, saves)
    return told + "".join(f", and the save behind record {save.number}" for save in saves)


def check_save(log: Log, save: Save) -> None:
    """LogError where a save isn't one that a replica begins with, by the log that it goes with."""
    settings, _ = log.settings_at(True)
    votes, last = votes_in(log.etcd, log.keys, settings), log.last()
    final = votes.final(SAVED, save.number)
    if not (settings.has_save(save.log_id, save.number) and log.cleared() <= save.number <= last):
        raise LogError(f"{save.path} isn't of the log {settings.id}, which was cleared up to record {log.cleared()} and ends with {last}")
    if final is None or saved_vote_in(final).ledger != save.vote():
        raise LogError(f"{save.path} isn't the save that a majority has voted for")
    if not is_usable(settings, votes, Vote(save.number, final)):
        raise LogError(f"{save.path} was saved before a record of it was skipped, or before lines were chained")


def check_answers(log: Log, program: str, place: Optional[str], saves: List[Save]) -> None:
    """LogError where a program makes other lines, or another save, of what is there than the log has for them. ProgramEnded where it doesn't
    load a save."""
    for save in saves:
        running = Program(program, save.number, save.path, None)
        try:
            # It answers when it has loaded all.
            running.ask(ASKED["audit"])
        finally:
            running.end()
    if not Verifying(log, program, place or "").run():
        raise LogError(f"{program} answers the records of {log.keys.ledger} otherwise than the replicas did")


def counted(log: Log) -> str:
    """What a log has. LogError where a record is missing."""
    settings, _ = log.settings_at(True)
    cleared, last = log.cleared(), log.last()
    wanted = cleared + 1
    while wanted <= last:
        entries = log.etcd.range(log.keys.record(wanted), after(log.keys.records), MOST_READ, keys_only=True).entries
        numbers = [number for number in map(number_in, (entry.key for entry in entries)) if number is not None and number <= last]
        if not numbers or numbers[0] != wanted:
            raise LogError(f"the backup has no record {wanted} of {log.keys.ledger}, and its last one is {last}")
        gap = next((at for at, number in enumerate(numbers) if number != wanted + at), len(numbers))
        wanted += gap
    return f"the log {settings.id} of {log.keys.ledger} is there with all records from {cleared + 1} to {last}"
