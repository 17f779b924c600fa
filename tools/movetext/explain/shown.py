"""The lines of a show and of an audit."""

import json
from typing import Dict, List

from .ledger import Ledger, struct_text
from .link import Published


def full_name(owner: Published, struct: int) -> str:
    """A struct as a report names it."""
    return f"{owner.name[0].hex()}::{owner.name[1]}::{owner.definition_name(struct)}"


def shown(ledger: Ledger) -> List[Dict[str, str]]:
    """The stored values, by address, place and definition."""
    modules = ledger.in_order()
    found = []
    for place, struct, address in sorted(ledger.stored, key=lambda key: (key[2], key[0], key[1])):
        owner = modules[place]
        value = struct_text(ledger, owner, struct, ledger.stored[place, struct, address])
        found.append({"address": address.hex(), "struct": full_name(owner, struct), "value": value})
    return found


def audited(ledger: Ledger) -> List[Dict[str, str]]:
    """The structs with neither copy nor drop, and how many of their values there are."""
    found = []
    for owner, struct in ledger.scarce():
        packed, unpacked = ledger.packed[owner.place, struct], ledger.unpacked[owner.place, struct]
        found.append({"packed": str(packed), "stored": str(packed - unpacked), "struct": full_name(owner, struct),
                      "unpacked": str(unpacked)})
    return found


def report_of(ledger: Ledger, is_audit: bool, is_json: bool) -> List[str]:
    """The lines of a report for a show or an audit, without the record's number."""
    rows = audited(ledger) if is_audit else shown(ledger)
    if is_json:
        return ["json " + json.dumps({"audit" if is_audit else "show": rows}, separators=(",", ":"))]
    if is_audit:
        lines = [f"count {one['struct']} stored {one['stored']} packed {one['packed']} unpacked {one['unpacked']}"
                 for one in rows]
    else:
        lines = [f"at {one['address']} {one['struct']} {one['value']}" for one in rows]
    return lines + [f"end {len(rows)}"]
