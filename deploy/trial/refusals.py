"""What `submit` has to refuse: bytes that aren't exactly one whole record."""

from typing import Sequence

from .processes import Failed, command

REFUSED = 3
QUESTIONS = {"a show": b"\3\0", "a show as JSON": b"\3\1\1", "an audit": b"\4\0", "an audit as JSON": b"\4\1\1"}
# By what they show.
NOT_WHOLE = {
    "nothing": b"",
    "a kind alone": b"\4",
    "a length that is cut": b"\4\x80",
    "a length in a longer spelling": b"\4\x80\0",
    "a length of five bytes": b"\4\x80\x80\x80\x80\0",
    "a length of 33,554,433": b"\4\x81\x80\x80\x10",
    "a payload that is cut": b"\4\2\1",
    "two records": b"\4\0\4\0",
    "a record and one byte more": b"\4\1\1\0",
}


def check_refusals(options: Sequence[object]) -> None:
    """Failed where `submit` takes one of them, or a question."""
    for what, data in {**NOT_WHOLE, **QUESTIONS}.items():
        it = command("submit", *options, "-", given=data)
        if it.returncode != REFUSED or it.stdout or b"isn't one whole record" not in it.stderr:
            raise Failed(f"submit ends with the status {it.returncode} for {what}: {it.stdout!r} {it.stderr!r}")
