"""Which code of the crates calls which: functions by the words of their bodies, without tests, comments and contracts. A function is
reached if the program's `main` or a call of the C library leads to it. Words stand for functions of these names in the own crate and
in those below it, so too much may be reached, and never too little."""

import re
from dataclasses import dataclass
from functools import lru_cache
from pathlib import Path
from typing import Dict, Iterator, List, Mapping, Set, Tuple

from common import CRATES, crates
from sources import code_of, functions_of, is_test, text_of, without_contract

# Calls that the language makes by itself, without a word.
IMPLIED = {"drop", "next", "fmt", "from", "eq", "cmp", "partial_cmp", "deref", "deref_mut", "source", "default", "write", "read", "flush"}


@dataclass
class Function:
    """A function of a crate: where it stands, the words and the text of its body, whether it is called without a word, and whether it is a
    trait's, so that crates below may call it."""

    crate: str
    file: Path
    name: str
    body: str
    words: Set[str]
    is_root: bool
    is_of_trait: bool


def functions() -> Iterator[Function]:
    """All functions but those of tests."""
    for crate in crates():
        for file in sorted((CRATES / crate / "src").rglob("*.rt")):
            if is_test(file):
                continue
            lines = code_of(file)
            for function in functions_of("\n".join(lines)):
                span = lines[function.first : function.last + 1]
                text = "\n".join(span)
                if re.search(r"^\s*#\[test\]", text, re.M):
                    continue
                body = without_contract(span)
                heads = [line for line in lines[: function.first + 1] if line.startswith(("impl", "pub trait", "trait", "}"))]
                is_of_trait = bool(heads) and (" for " in heads[-1] or "trait" in heads[-1])
                is_root = 'extern "C"' in text or function.name in IMPLIED or (file.name == "main.rt" and function.name == "main")
                yield Function(crate, file, function.name, body, set(re.findall(r"\w+", body)), is_root, is_of_trait)


def closure(crate: str, below: Mapping[str, Set[str]]) -> Set[str]:
    found: Set[str] = {crate}
    left = [crate]
    while left:
        for it in below.get(left.pop(), ()):
            if it not in found:
                found.add(it)
                left.append(it)
    return found


def reached() -> List[Function]:
    """The functions that the program or the C library leads to."""
    known = {name: set(uses) for name, uses in crates().items()}
    below = {crate: closure(crate, known) for crate in known}
    every = list(functions())
    by_name: Dict[str, List[Function]] = {}
    for it in every:
        by_name.setdefault(it.name, []).append(it)
    found: Set[int] = set()
    left = [it for it in every if it.is_root]
    kept: List[Function] = []
    while left:
        one = left.pop()
        if id(one) in found:
            continue
        found.add(id(one))
        kept.append(one)
        for word in one.words & by_name.keys():
            left += [it for it in by_name[word] if it.is_of_trait or it.crate in below[one.crate]]
    return kept


@lru_cache(maxsize=None)
def brought_into(file: Path, crate: str, name: str) -> Tuple[bool, str]:
    """Whether a file brings in a name of a crate, and the other name under which it does, if there is one."""
    text = text_of(file)
    if crate not in text:
        return False, ""
    brought = re.search(rf"^use (?:\w+::)*{crate}(?:::\w+)*(?:::\{{[^}}]*\b{name}\b(?! as)[^}}]*\}}|::{name});", text, re.M)
    as_other = re.search(rf"^use {crate}(?:::\w+)*::\{{?[^}};]*\b{name} as (\w+)", text, re.M)
    return bool(brought), as_other[1] if as_other else ""


def calls(function: Function, crate: str, name: str) -> int:
    """How often a function calls one of this name of a crate, or a method of a type of it."""
    owner, _, method = name.rpartition("::")
    if owner:
        return len(re.findall(rf"(?:\.|\b{owner}::|Self::){method}(?:::<[^(]*>)?\(", function.body))
    if function.crate == crate:
        return len(re.findall(rf"(?<![.\w])(?:\w+::)*(?<!fn ){name}(?:::<[^(]*>)?\(", function.body))
    brought, as_other = brought_into(function.file, crate, name)
    count = len(re.findall(rf"\b{crate}::(?:\w+::)*{name}(?:::<[^(]*>)?\(", function.body))
    if brought:
        count += len(re.findall(rf"(?<![.\w:]){name}(?:::<[^(]*>)?\(", function.body))
    if as_other:
        count += len(re.findall(rf"(?<![.\w:]){as_other}(?:::<[^(]*>)?\(", function.body))
    return count


def callers(functions: List[Function], crate: str, name: str) -> Dict[str, int]:
    """How often each crate calls one of this name."""
    counts: Dict[str, int] = {}
    for it in functions:
        count = calls(it, crate, name)
        if count:
            counts[it.crate] = counts.get(it.crate, 0) + count
    return counts
