"""What bytes are, by how they begin: a module, a stream, a saved ledger, or a text in the place of bytes."""

import re
from typing import Optional

from .model import LEDGER_MAGIC, MAGIC
from .outputs import is_made

MODULE, STREAM, LEDGER = "module", "stream", "ledger"
KINDS = (MODULE, STREAM, LEDGER)

# A byte that no text has.
CONTROL = re.compile(rb"[\x00-\x08\x0e-\x1f\x7f]")
# So many bytes say whether they are text.
FRONT = 4_096


def kind_of(data: bytes) -> str:
    """What bytes are taken for: what their first four say, or a stream. Two of a module's four are enough."""
    if data[:4] in LEDGER_MAGIC.values():
        return LEDGER
    alike = sum(one == wanted for one, wanted in zip(data, MAGIC))
    return MODULE if alike >= 2 or alike == len(data) > 0 else STREAM


def bytes_kind(data: bytes) -> Optional[str]:
    """What bytes are that stand in the place of a text, or None where they may be one."""
    if data[:4] == MAGIC:
        return MODULE
    if data[:4] in LEDGER_MAGIC.values():
        return LEDGER
    return STREAM if data and is_made(data[:FRONT], len(data)) else None


def is_text(data: bytes) -> bool:
    """Whether bytes are a text: some letters of UTF-8, and no other bytes."""
    front = data[:FRONT]
    if not front.strip() or CONTROL.search(front):
        return False
    try:
        front.decode("utf-8")
    except UnicodeDecodeError as error:
        # The last letter may be cut.
        return error.start > len(front) - 4 and len(data) > FRONT
    return True
