import threading
from typing import Callable, Tuple

from ledgerlog import saving

from .store import fill
from .test_following import PATIENCE, OverStandIn, until


class WhileASaveIsRead(OverStandIn):
    """A save that takes the disk long."""

    protocol = 4

    def held(self, name: str) -> Tuple[threading.Event, threading.Event]:
        """Has what is done with a saved file wait until a test lets it go on: whether it waits, and what lets it."""
        waits, goes_on = threading.Event(), threading.Event()
        real: Callable[[str], object] = getattr(saving, name)

        def call(path: str) -> object:
            waits.set()
            goes_on.wait(PATIENCE)
            return real(path)

        setattr(saving, name, call)
        self.addCleanup(setattr, saving, name, real)
        self.addCleanup(goes_on.set)
        return waits, goes_on

    def test_answers_go_on_while_its_digest_is_made_and_the_disk_takes_it(self) -> None:
        digest, disk = self.held("vote_on"), self.held("sync_file")
        one = self.start("a")
        fill(self.log, 4)
        self.answered(4)
        last = 4
        for waits, goes_on in (digest, disk):
            until(waits.is_set)
            fill(self.log, 3)
            last += 3
            self.answered(last)
            self.assertEqual(one.saves.all(), [])
            goes_on.set()
        self.saved_at(4, "a")
