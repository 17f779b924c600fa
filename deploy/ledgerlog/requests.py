"""What etcd is asked and what it answers, in the JSON of its gateway."""

import base64
from typing import Any, Dict, List, NamedTuple, Optional

Body = Dict[str, Any]


class Entry(NamedTuple):
    """A key that is there, and what stands there; the store's change that made it, and the last one that put it."""

    key: bytes
    value: bytes
    created: int
    changed: int


def coded(data: bytes) -> str:
    return base64.b64encode(data).decode("ascii")


def after(prefix: bytes) -> bytes:
    """The first key behind all that begin so. The prefix doesn't end in the byte FF."""
    return prefix[:-1] + bytes([prefix[-1] + 1])


def absent(key: bytes) -> Body:
    """A comparison: nothing stands there."""
    return {"key": coded(key), "target": "CREATE", "result": "EQUAL", "create_revision": "0"}


def none_between(first: bytes, end: bytes) -> Body:
    """A comparison: no key is there from one on and before another one."""
    return {**absent(first), "range_end": coded(end)}


def unchanged(key: bytes, revision: int) -> Body:
    """A comparison: the last change of this key is this one; none where it is 0."""
    return {"key": coded(key), "target": "MOD", "result": "EQUAL", "mod_revision": str(revision)}


def none_since(first: bytes, end: bytes, revision: int) -> Body:
    """A comparison: no key from one on and before another one was put after this change."""
    return {"key": coded(first), "range_end": coded(end), "target": "MOD", "result": "LESS", "mod_revision": str(revision + 1)}


def equal(key: bytes, value: Optional[bytes]) -> Body:
    """A comparison: this value stands there, or nothing does."""
    if value is None:
        return absent(key)
    return {"key": coded(key), "target": "VALUE", "result": "EQUAL", "value": coded(value)}


def put(key: bytes, value: bytes) -> Body:
    return {"request_put": {"key": coded(key), "value": coded(value)}}


def get(key: bytes) -> Body:
    return {"request_range": {"key": coded(key)}}


def ranged(first: bytes, end: bytes, limit: int = 0, last_first: bool = False, keys_only: bool = False) -> Body:
    """The keys from one on and before another one, in a request of their own; all of them where the limit is 0."""
    order = {"sort_order": "DESCEND", "sort_target": "KEY"} if last_first else {}
    return {"key": coded(first), "range_end": coded(end), "limit": str(limit), "keys_only": keys_only, **order}


def get_range(first: bytes, end: bytes, limit: int) -> Body:
    return {"request_range": ranged(first, end, limit)}


def delete(key: bytes) -> Body:
    return {"request_delete_range": {"key": coded(key)}}


def delete_range(first: bytes, end: bytes) -> Body:
    return {"request_delete_range": {"key": coded(first), "range_end": coded(end)}}


def entries_of(answer: Body) -> List[Entry]:
    decoded = base64.b64decode
    return [Entry(decoded(one["key"]), decoded(one.get("value", "")), int(one["create_revision"]), int(one["mod_revision"]))
            for one in answer.get("kvs", [])]


def value_of(entries: List[Entry]) -> Optional[bytes]:
    """What stands under the one key that was asked for."""
    return entries[0].value if entries else None
