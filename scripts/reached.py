"""Notes which lines of a folder's files a test runs, for plant-python: in this process, and in those of Python that it starts, whose
sitecustomize.py calls `begin`. Imports nothing of ours, since it runs in any tool."""

import atexit
import json
import os
import sys
import threading
from types import FrameType
from typing import Any, Callable, Dict, NoReturn, Set

# Where files go with what was reached, the folder whose files count, and the test at hand.
TO, TOP, TEST = "REACHED_TO", "REACHED_TOP", "REACHED_TEST"
CUSTOMIZED = "import sys\nsys.path.append({scripts!r})\nimport reached\nreached.begin()\n"


class Lines:
    """The lines that were run, by file."""

    def __init__(self, top: str):
        self.top = top
        self.seen: Dict[str, Set[int]] = {}
        self.tracers: Dict[str, Callable[[FrameType, str, Any], Any]] = {}

    def called(self, frame: FrameType, event: str, given: object) -> Any:
        """What traces a call: nothing where its file isn't of the folder."""
        name = frame.f_code.co_filename
        if not name.startswith(self.top):
            return None
        if name not in self.tracers:
            self.tracers[name] = self.tracer(self.seen.setdefault(name, set()))
        return self.tracers[name](frame, event, given)

    def tracer(self, lines: Set[int]) -> Callable[[FrameType, str, Any], Any]:
        def traced(frame: FrameType, event: str, given: object) -> Any:
            lines.add(frame.f_lineno)
            return traced

        return traced

    def keep(self) -> None:
        """Writes what was run to a file of its own; none where a test has left no room for it."""
        sys.settrace(None)
        found = {os.path.relpath(name, self.top): sorted(lines) for name, lines in self.seen.items()}
        path = os.path.join(os.environ[TO], f"{os.environ[TEST]}-{os.getpid()}")
        try:
            with open(path, "w", encoding="utf-8") as out:
                json.dump(found, out)
        except OSError:
            os.unlink(path)


def begin() -> None:
    """Notes lines from here to the end of the process, if the environment asks for it."""
    if TEST not in os.environ:
        return
    lines, leave = Lines(os.environ[TOP] + os.sep), os._exit

    def left(status: int) -> NoReturn:
        lines.keep()
        leave(status)

    os._exit = left
    atexit.register(lines.keep)
    threading.settrace(lines.called)
    sys.settrace(lines.called)
