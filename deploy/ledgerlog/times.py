"""When records were put, as the keeper noted it while it cleared the log; and ids that say when they were made, so that none is put again
when nobody knows any more whether it was put."""

import re
import secrets
import time
from typing import List, NamedTuple, Optional

HOUR = 3600
# A mark is made at most so often.
GAP_SECONDS = 600
# Two clocks differ by no more than this.
AHEAD_SECONDS = 600
# Ids that say when they were made. A clear goes by the order of keys, in which lower case alone is the order of time: what says it in upper
# case goes with its record.
TIMED = re.compile(r"t([0-9a-f]{8})-.*")
IN_EITHER_CASE = re.compile(r"t([0-9a-fA-F]{8})-.*")


class Mark(NamedTuple):
    """The number of the last record at a time."""

    seconds: int
    number: int


def marks_in(text: Optional[bytes]) -> List[Mark]:
    """The marks of a text, the oldest first. What is no mark is left out."""
    rows = [line.split() for line in (text or b"").splitlines()]
    return sorted(Mark(int(row[0]), int(row[1])) for row in rows if len(row) == 2 and row[0].isdigit() and row[1].isdigit())


def text_of(marks: List[Mark]) -> bytes:
    return b"".join(b"%d %d\n" % mark for mark in marks)


def newest_before(marks: List[Mark], seconds: float) -> Optional[Mark]:
    """The newest mark that is at least so old: all records up to its number are."""
    return max((mark for mark in marks if mark.seconds <= seconds), default=None)


def marked(marks: List[Mark], now: int, last: int, hours: int) -> List[Mark]:
    """The marks with one of now, where it's time for one, and without those that say no more than a newer one that is old enough."""
    kept = newest_before(marks, now - hours * HOUR)
    left = [mark for mark in marks if kept is None or mark >= kept]
    is_due = not left or left[-1].seconds + GAP_SECONDS <= now
    return [*left, Mark(now, last)] if is_due else left


def new_record_id() -> str:
    """An id that says when it was made."""
    return f"t{int(time.time()):08x}-{secrets.token_hex(16)}"


def untimely(record_id: str, hours: int) -> Optional[str]:
    """Why a record can't be put by an id that isn't in the log: a record that was put by it may be cleared by now. None where it can."""
    found = IN_EITHER_CASE.fullmatch(record_id)
    if found is None or hours == 0:
        return None
    age = time.time() - int(found.group(1), 16)
    if age > hours * HOUR / 2:
        return (f"the id {record_id} isn't in the log, and was made {age / HOUR:.1f} hours ago, more than half of the {hours} for which "
                "ids are kept: a record that was put by it may be cleared by now")
    if age < -AHEAD_SECONDS:
        return f"the id {record_id} says that it was made {-age / HOUR:.1f} hours from now: this machine's clock is wrong, or that one's"
    return None
