"""The saved ledgers of a replica: files of one folder, each named by the last record in it and by the log that this is of."""

import fcntl
import glob
import hashlib
import os
import re
import secrets
import shutil
import time
from typing import AbstractSet, List, NamedTuple, Optional

from .chains import DIGEST_TEXT

NAME = re.compile(r"ledger-(\d{16})-([0-9a-f]{32})")
REFUSED = ".refused"
# So many of the newest saves are kept, and so many of those that all replicas make.
KEPT = 2
# So many files that were set aside are kept.
KEPT_REFUSED = 2
UNNUMBERED = "unnumbered-"
STOPPED = "STOPPED"
SOCKET = "socket"
MARK_BYTES = 4
LOCK_SECONDS = 5.0


class Save(NamedTuple):
    """A saved ledger, the number of the last record in it, and the id of the log that it was made of."""

    number: int
    log_id: str
    path: str

    def vote(self) -> bytes:
        return vote_on(self.path)


def vote_on(path: str) -> bytes:
    """What is put for a saved ledger: its form, which its first bytes tell, and its SHA-256. OSError where it can't be read."""
    sha = hashlib.sha256()
    mark = b""
    with open(path, "rb") as file:
        for part in iter(lambda: file.read(1 << 20), b""):
            mark = mark or part[:MARK_BYTES]
            sha.update(part)
    form = mark if mark.isalnum() else mark.hex().encode() or b"-"
    return form + b" " + sha.hexdigest().encode()


class SavedVote(NamedTuple):
    """What is put for a saved ledger: its form and SHA-256, and where lines are chained the digest at its last record, its bytes, and how
    many of its records the keeper had skipped."""

    ledger: bytes
    chain: Optional[bytes] = None
    size: int = 0
    skips: int = 0

    def value(self) -> bytes:
        if self.chain is None:
            return self.ledger
        return b"%s %s %d %d" % (self.ledger, self.chain.hex().encode(), self.size, self.skips)


def saved_vote_in(value: bytes) -> SavedVote:
    """What a value says; what isn't told as it has to be is no ledger's."""
    words = value.split(b" ")
    if len(words) == 5 and DIGEST_TEXT.fullmatch(words[2]) and words[3].isdigit() and words[4].isdigit():
        return SavedVote(b" ".join(words[:2]), bytes.fromhex(words[2].decode()), int(words[3]), int(words[4]))
    return SavedVote(value)


def name_of(number: int, log_id: str) -> str:
    return f"ledger-{number:016d}-{log_id}"


def saves_in(folder: str) -> List[Save]:
    """The saved ledgers of a folder, the newest first."""
    found = [(NAME.fullmatch(name), name) for name in os.listdir(folder)]
    return sorted((Save(int(at.group(1)), at.group(2), os.path.join(folder, name)) for at, name in found if at), reverse=True)


def sync_folder(folder: str) -> None:
    """Waits until the disk has a folder's names."""
    number = os.open(folder, os.O_RDONLY)
    try:
        os.fsync(number)
    finally:
        os.close(number)


def sync_file(path: str) -> None:
    """Waits until the disk has what a file holds."""
    with open(path, "rb") as file:
        os.fsync(file.fileno())


def locked(folder: str) -> int:
    """A lock on a folder, which lasts until this is closed. OSError where another replica has it. It is waited for a little: a
    program that a killed replica was just starting may have it still."""
    number = os.open(folder, os.O_RDONLY)
    ends = time.monotonic() + LOCK_SECONDS
    while True:
        try:
            fcntl.flock(number, fcntl.LOCK_EX | fcntl.LOCK_NB)
            return number
        except OSError:
            if time.monotonic() > ends:
                os.close(number)
                raise
        time.sleep(0.05)


class Saves:
    """The folder of one replica. OSError where it can't be made or written, or another replica has it."""

    def __init__(self, folder: str) -> None:
        os.makedirs(folder, exist_ok=True)
        self.folder = folder
        self.lock = locked(folder)
        for left in glob.glob(os.path.join(glob.escape(folder), UNNUMBERED + "*")):
            os.remove(left) if os.path.isfile(left) else shutil.rmtree(left, ignore_errors=True)
        # A name of its own, since a program that a killed replica left behind may still be saving.
        self.unnumbered = os.path.join(folder, UNNUMBERED + secrets.token_hex(8))
        os.mkdir(self.unnumbered)

    def path(self, name: str) -> str:
        return os.path.join(self.folder, name)

    def all(self) -> List[Save]:
        """Those that are there, the newest first."""
        return saves_in(self.folder)

    def new(self) -> str:
        """Where the program is to save: the number isn't known yet."""
        return os.path.join(self.unnumbered, "ledger")

    def second(self) -> str:
        """Where a second run of the program is to save."""
        return os.path.join(self.unnumbered, "second")

    def fetched(self) -> str:
        """Where a save of another replica comes in."""
        return os.path.join(self.unnumbered, "fetched")

    def named(self, path: str, number: int, log_id: str) -> Save:
        """Gives a saved ledger its name, when the disk has it."""
        save = Save(number, log_id, self.path(name_of(number, log_id)))
        sync_file(path)
        os.rename(path, save.path)
        sync_folder(self.folder)
        return save

    def keep(self, path: str, number: int, log_id: str, every: int, agreed: AbstractSet[int] = frozenset()) -> Save:
        """Gives the ledger that was saved its name, and forgets those that are too old. `every` is that of the log, and `agreed` has the
        numbers of those that are final: the newest of them stays, since others may need it."""
        save = self.named(path, number, log_id)
        there = self.all()
        common = [one for one in there if one.number % every == 0]
        final = [one for one in there if one.number in agreed]
        for old in there:
            if old not in there[:KEPT] and old not in common[:KEPT] and old not in final[:1]:
                os.remove(old.path)
        return save

    def forget(self, path: str) -> None:
        """Removes what was saved and has no name yet."""
        if os.path.exists(path):
            os.remove(path)

    def set_aside(self, save: Save) -> None:
        """Takes a saved ledger away that isn't believed, and removes those that were set aside long ago."""
        os.rename(save.path, save.path + REFUSED)
        found = [self.path(name) for name in os.listdir(self.folder) if name.endswith(REFUSED)]
        for old in sorted(found, key=os.path.getmtime)[:-KEPT_REFUSED]:
            os.remove(old)
        sync_folder(self.folder)

    def stopped(self) -> Optional[str]:
        """What this replica said when it differed, where nobody has looked since."""
        try:
            with open(self.path(STOPPED), encoding="utf-8") as file:
                return file.read().strip()
        except FileNotFoundError:
            return None

    def stop(self, text: str) -> None:
        """Notes that the replica differs: it isn't started here again without a word."""
        with open(self.path(STOPPED), "w", encoding="utf-8") as file:
            file.write(text + "\n")
            file.flush()
            os.fsync(file.fileno())
        sync_folder(self.folder)

    def start_again(self) -> None:
        """Forgets that the replica differed."""
        os.remove(self.path(STOPPED))
        sync_folder(self.folder)

    def close(self) -> None:
        """Leaves the folder to another replica."""
        shutil.rmtree(self.unnumbered, ignore_errors=True)
        os.close(self.lock)
