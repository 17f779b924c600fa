"""What movedis shows beside texts and verdicts: runs step by step, and the page on which one walks through a module."""

import os
import re
from typing import Dict, List, Optional

from .commandline import Bounds, Option
from .outputs import TRACED
from .pages import of_module, of_stream, whole_page
from .source_names import NameTable
from .trace import MOST_STEPS, Asked, Spot, trace
from .writing import lines_to

# What these may take unless something else is given.
BOUNDS = Bounds(60, 2_000)

Given = Dict[str, Optional[str]]

OPTIONS = [
    Option("--trace", "", "Show the runs of a stream step by step, and where and why each ends"),
    Option("--until", "STEP", "With --trace: no step of a run after this one"),
    Option("--at", "PLACE", "With --trace: only steps at FUNCTION, FUNCTION:LINE or FUNCTION#INSTRUCTION"),
    Option("--steps", "STEPS", f"With --trace: at most so many steps; default: {MOST_STEPS:,}"),
    Option("--html", "", "Write a page to walk through a module, or a stream's modules, instruction by instruction"),
]
WAYS = {"--explain": "'--explain'", "--trace": "'--trace'", "--html": "'--html'", "FUNCTION": "'--dot <FUNCTION>'"}
PLACE = re.compile(r"(?:(.*)::)?`?([^`:#]+|#[0-9]+)`?(?:([:#])([0-9]{1,9}))?")


def wrong_together(given: Given) -> str:
    """What is said of options that don't go together, if they don't."""
    ways = [told for flag, told in WAYS.items() if given[flag] is not None]
    if len(ways) > 1:
        return f"only one of {' and '.join(ways)} is given"
    if given["--trace"] is not None and (given["CERTIFICATE"] is not None or given["KIND"] not in (None, "stream")):
        return "'--trace' is about a stream"
    for flag, name in (("--until", "STEP"), ("--at", "PLACE"), ("--steps", "STEPS")):
        value = given[name]
        if value is None:
            continue
        if given["--trace"] is None:
            return f"'{flag} <{name}>' needs '--trace'"
        if name == "PLACE" and not PLACE.fullmatch(value):
            return f"invalid value '{value}' for '--at <PLACE>': a place is FUNCTION, FUNCTION:LINE or FUNCTION#INSTRUCTION"
        if name != "PLACE" and not re.fullmatch(r"[1-9][0-9]{0,17}", value):
            return f"invalid value '{value}' for '{flag} <{name}>': a whole number of at least 1"
    return ""


def bounds_of(given: Given) -> Bounds:
    """What is allowed where nothing else is given."""
    return BOUNDS if given["--trace"] is not None or given["--html"] is not None else Bounds()


def asked_of(given: Given) -> Asked:
    """Which steps are asked for."""
    record, until, most = (int(given[name] or 0) or None for name in ("N", "STEP", "STEPS"))
    return Asked(record, until, None if given["PLACE"] is None else spot_of(given["PLACE"]), most or MOST_STEPS)


def spot_of(text: str) -> Spot:
    """A place at which steps are shown."""
    found = PLACE.fullmatch(text)
    assert found
    line, instruction = (int(found[4]) if found[3] == mark else None for mark in ":#")
    return Spot(found[1] or "", found[2], line, instruction)


def show_steps(given: Given, data: bytes, loaded: Optional[bytes], names: NameTable, inputs: List[str]) -> bool:
    """Writes the steps that are asked for, as they are done. Answers whether nothing is refused. Unwritten where one can't be written."""
    with lines_to(given["OUT"], TRACED, inputs) as write:
        return trace(data, loaded, names, asked_of(given), write, given["--json"] is not None)


def page_of(given: Given, data: bytes, certificate: Optional[bytes], names: NameTable, is_module: bool) -> str:
    """The page of a module or of a stream's modules."""
    shown = of_module(data, certificate, names) if is_module else of_stream(data, names)
    return whole_page(shown, "standard input" if given["FILE"] == "-" else os.path.basename(str(given["FILE"])))
