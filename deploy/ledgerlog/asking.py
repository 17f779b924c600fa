"""Asks running replicas the same, and says how far they are."""

import hashlib
import os
import queue
import threading
import time
from typing import Dict, List, NamedTuple, Set, Union

from .errors import LogError
from .saves import SOCKET
from .status import STATUS_SECONDS, ask

PAUSE_SECONDS = 0.2
# So long the others still have when a majority has answered alike.
GRACE_SECONDS = 1.0
# A question that is put at the end of its time still has so long.
LEAST_SECONDS = 0.05


def status_of(folder: str, seconds: float = STATUS_SECONDS) -> Dict[str, str]:
    """What the replica of a folder says of itself within so many seconds. LogError where none runs there, or it hangs."""
    rows = ask(os.path.join(folder, SOCKET), "status", seconds).decode("utf-8", "replace").splitlines()
    return {name: value for name, _, value in (row.partition(": ") for row in rows)}


class Told(NamedTuple):
    """What a replica answers, or why it doesn't; nothing where it isn't asked any more."""

    folder: str
    what: Union[bytes, LogError, None]


class Heard:
    """What the replicas of some folders have told. Of answers the digests are kept."""

    def __init__(self, folders: List[str]) -> None:
        self.folders = folders
        self.by: Dict[bytes, Set[str]] = {}
        self.newest: Dict[str, Union[bytes, LogError]] = {}
        self.ended: Set[str] = set()

    def take(self, told: Told) -> bool:
        """Takes what one tells; whether more than half have told the same."""
        if told.what is None:
            self.ended.add(told.folder)
            return False
        if isinstance(told.what, LogError):
            self.newest[told.folder] = told.what
            return False
        digest = self.newest[told.folder] = hashlib.sha256(told.what).digest()
        self.by.setdefault(digest, set()).add(told.folder)
        return 2 * len(self.by[digest]) > len(self.folders)

    def is_over(self) -> bool:
        return self.ended >= set(self.folders)

    def are_all_heard(self) -> bool:
        return self.newest.keys() >= set(self.folders)

    def why_not(self) -> str:
        """Why no majority answers alike."""
        faults = [str(told) for told in self.newest.values() if isinstance(told, LogError)]
        return "; ".join(faults or [f"they answer {len(set(self.newest.values()))} ways"])

    def others(self, value: bytes) -> List[str]:
        """What is to be said of those that haven't told this."""
        alike = self.by[hashlib.sha256(value).digest()]
        rows: List[str] = []
        for folder in self.folders:
            told = self.newest.get(folder)
            if folder not in alike:
                rows.append(str(told) if isinstance(told, LogError) else f"{folder} " + ("answers otherwise" if told else "hasn't answered yet"))
        return rows


class Asking:
    """A question to the replicas of some folders. `doubts` says why an answer may be an old one."""

    def __init__(self, folders: List[str], question: str, least: int, seconds: float) -> None:
        self.folders = folders
        self.question = question
        self.least = least
        self.ends = time.monotonic() + seconds
        self.is_over = False
        self.doubts: List[str] = []

    def left(self) -> float:
        """How many seconds are left; some are always."""
        return max(self.ends - time.monotonic(), LEAST_SECONDS)

    def answer(self, folder: str) -> bytes:
        """What a replica answers when it has answered the record that it has to."""
        while True:
            answered = status_of(folder, self.left()).get("answered", "0")
            if answered.isdigit() and int(answered) >= self.least:
                break
            time.sleep(min(PAUSE_SECONDS, self.left()))
            if time.monotonic() >= self.ends:
                raise LogError(f"{folder} hasn't answered record {self.least} yet: it is at {answered}")
        return ask(os.path.join(folder, SOCKET), self.question, self.left())

    def of_one(self) -> bytes:
        """What the first replica answers."""
        folder = self.folders[0]
        found = self.answer(folder)
        try:
            told = status_of(folder)
        except LogError as why:
            self.doubts.append(f"it isn't known how far {folder} is: {why}")
            return found
        if told.get("behind") != "0":
            self.doubts.append(f"{folder} has answered record {told.get('answered')}, is behind the log by {told.get('behind')}, "
                               f"and has read it {told.get('log read')}")
        return found

    def ask_again(self, folder: str, told: "queue.Queue[Told]") -> None:
        """Asks a replica again and again while there is time, and hands on what it tells."""
        try:
            while not self.is_over:
                try:
                    told.put(Told(folder, self.answer(folder)))
                except LogError as why:
                    told.put(Told(folder, why))
                if time.monotonic() >= self.ends:
                    break
                time.sleep(min(PAUSE_SECONDS, self.left()))
        finally:
            told.put(Told(folder, None))

    def by_majority(self) -> bytes:
        """What more than half of the replicas answer alike. LogError where that doesn't come. One that hangs holds up no other."""
        told: "queue.Queue[Told]" = queue.Queue()
        for folder in set(self.folders):
            threading.Thread(target=self.ask_again, args=(folder, told), daemon=True).start()
        heard = Heard(self.folders)
        while not heard.is_over():
            one = told.get()
            if heard.take(one) and isinstance(one.what, bytes):
                self.is_over = True
                self.hear_others(heard, told)
                self.doubts += heard.others(one.what)
                return one.what
        raise LogError(f"no {len(self.folders) // 2 + 1} of {len(self.folders)} replicas answer alike behind one record; {heard.why_not()}")

    def hear_others(self, heard: Heard, told: "queue.Queue[Told]") -> None:
        """Gives those that haven't told anything yet a moment more."""
        ends = time.monotonic() + GRACE_SECONDS
        while not heard.are_all_heard() and time.monotonic() < ends:
            try:
                heard.take(told.get(timeout=max(ends - time.monotonic(), LEAST_SECONDS)))
            except queue.Empty:
                return
