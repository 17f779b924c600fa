"""The sources of the crates, as the scripts read them: which files there are; code without comments, its functions, their clauses, its types
and what is public of it; what a file brings in by `use` and `ghost use`; and the definitions and statements of specs/ and proofs/."""

import re
from dataclasses import dataclass, field
from functools import lru_cache
from pathlib import Path
from typing import Collection, Dict, Iterable, Iterator, List, NamedTuple, Optional, Sequence, Set, Tuple

from common import CRATES

# ---- files


def code_files() -> List[Path]:
    return sorted(CRATES.glob("*/src/**/*.rt"))


def definition_files() -> List[Path]:
    return [path for part in ("specs", "proofs") for path in sorted(CRATES.glob(f"*/{part}/**/*.antt"))]


def is_test(file: Path) -> bool:
    parts = file.relative_to(CRATES).parts
    return parts[0].endswith("tests") or "tests" in parts or file.name == "tests.rt"


@dataclass
class Item:
    """A definition or a type: where it stands, what it defines, and the items that stand around it."""

    path: Path
    first: int
    text: List[str]  # its lines, with the comment above
    names: List[str]
    around: List["Item"] = field(default_factory=list)

    def lines(self) -> Set[int]:
        return {self.first + i for i, line in enumerate(self.text) if line.strip()}


def indent(line: str) -> int:
    return len(line) - len(line.lstrip(" "))


# ---- code: functions, their clauses, and types

FUNCTION = re.compile(r"^( *)(?:pub(?:\([^)]*\))? )?(?:const )?(?:unsafe )?(?:extern \"C\" )?fn (\w+)")
CLAUSE = re.compile(r"\s*(?:requires|ensures|ghost(?! use))\b")
ENSURES = re.compile(r"\s+ensures (\w+ )?\{")
TYPE = re.compile(r"(?:pub(?:\([^)]*\))? )?(?:enum|struct|type) (\w+)")


@lru_cache(maxsize=None)
def code_of(file: Path) -> List[str]:
    """The lines of a file without comments."""
    return [re.sub(r"(?<!:)//.*", "", line) for line in file.read_text(encoding="utf-8").split("\n")]


@lru_cache(maxsize=None)
def text_of(file: Path) -> str:
    """The text of a file without comments."""
    return "\n".join(code_of(file))


@dataclass
class Function:
    name: str
    first: int
    last: int


def functions_of(text: str) -> List[Function]:
    """The functions of a file in their order; a function's lines begin behind the one before it. One of a trait may have no body: it ends
    with the first line that ends in a semicolon before a body begins."""
    found: List[Function] = []
    lines, at = text.split("\n"), 0
    while at < len(lines):
        match = FUNCTION.match(lines[at])
        if match:
            start = found[-1].last + 1 if found else 0
            at = end_of(lines, at, match[1])
            found.append(Function(match[2], start, at))
        at += 1
    return found


def end_of(lines: List[str], first: int, blanks: str) -> int:
    """The last line of the function that begins at a line, which is indented by these blanks."""
    begun = lines[first].rstrip()
    if begun.endswith((";", "}")):
        return first
    has_body = begun.endswith("{")
    for at in range(first + 1, len(lines)):
        line = lines[at].rstrip()
        if line in (blanks + "{}", blanks + "}", blanks + "};") or (not has_body and line.endswith(";")) or line.endswith(";;"):
            return at
        has_body = has_body or line == blanks + "{" or (line.startswith(blanks + ")") and line.endswith("{"))
    return len(lines) - 1


def without_contract(lines: Iterable[str]) -> str:
    """A function's lines without its contract."""
    kept: List[str] = []
    is_clause = False
    for line in lines:
        if CLAUSE.match(line):
            is_clause = True
        elif line.strip() == "{" or FUNCTION.match(line):
            is_clause = False
        if not is_clause:
            kept.append(line)
    return "\n".join(kept)


def ensured(lines: List[str]) -> Dict[str, str]:
    """What a function ensures, by the names of its clauses, each as one line."""
    found: Dict[str, str] = {}
    at = 0
    while at < len(lines):
        head = ENSURES.match(lines[at])
        if head:
            text, at = lines[at].strip(), at + 1
            while at < len(lines) and text.count("{") > text.count("}"):
                text, at = f"{text} {lines[at].strip()}", at + 1
            found[(head[1] or "ensures").strip()] = text.rstrip(";")
        else:
            at += 1
    return found


def types_of(path: Path) -> Dict[str, Item]:
    """The types of a file of code by name, each with its comment and its attributes."""
    lines = path.read_text().splitlines()
    items: Dict[str, Item] = {}
    for i, line in enumerate(lines):
        found = TYPE.match(line)
        if not found:
            continue
        first = i
        while first and re.match(r"///|#\[", lines[first - 1]):
            first -= 1
        last = i
        if not line.rstrip().endswith((";", "}")):
            last = next(k for k in range(i, len(lines)) if re.match(r"[})]", lines[k]))
        items[found.group(1)] = Item(path, first + 1, lines[first : last + 1], [found.group(1)])
    return items


# ---- code: what is public of it


@dataclass
class Public:
    """Something public: its kind (fn, struct, enum, trait, type, const), name, signature and first sentence."""

    kind: str
    name: str
    signature: str
    says: str = ""
    members: List["Public"] = field(default_factory=list)


@dataclass
class Source:
    """A file: its items by name, the members of impls by type, its modules, and what it hands on by `pub use`."""

    items: Dict[str, Public] = field(default_factory=dict)
    impls: Dict[str, List[Public]] = field(default_factory=dict)
    modules: Dict[str, bool] = field(default_factory=dict)  # whether it is public
    handed: List[str] = field(default_factory=list)


KINDS = "fn|struct|enum|trait|type|const"
PUBLIC = re.compile(rf"(\s*)pub (?:unsafe |extern \"C\" |const (?=fn))*({KINDS}) (\w+)")
MEMBER = re.compile(r"(    )(fn|type) (\w+)")
IMPL = re.compile(r"impl(?:<.*?>)? ?(?:(?P<trait>[\w:]+(?:<.*>)?) for )?(?P<type>\w+)")


def joined(lines: List[str]) -> str:
    """Lines of code as one, laid out as if they had room."""
    text = re.sub(r"\s+", " ", " ".join(it.strip() for it in lines))
    text = re.sub(r",? ([)\]>])", r"\1", re.sub(r"([(\[<]) ", r"\1", text))
    return re.sub(r",( ?\})", r"\1", text).strip()


def head_of(lines: List[str], at: int) -> str:
    """The signature of a function or a constant, up to its clauses, its body or its value."""
    kept: List[str] = []
    inside = indent(lines[at])
    for line in lines[at:]:
        text = line.strip()
        if kept and (indent(line) <= inside and text.startswith("{") or re.match(r"(requires|ensures)\b", text)):
            break
        if text.startswith("//"):
            continue
        kept.append(re.sub(r"( \{\}?|;)$", "", text))
        if re.search(r"(\{|\{\}|;)$", text):
            break
    return joined(kept)


def inside_braces(lines: List[str], at: int) -> List[str]:
    """The lines between the braces of an item that is laid out over several."""
    end = next(i for i in range(at + 1, len(lines)) if lines[i].startswith(" " * indent(lines[at]) + "}"))
    return lines[at + 1 : end]


def shape_of(lines: List[str], at: int, kind: str) -> str:
    """A struct with its public fields, or an enum with its variants."""
    first = lines[at].strip()
    if not first.endswith("{"):
        return joined([first.rstrip(";")])
    kept = [it.strip() for it in inside_braces(lines, at) if it.strip() and not re.match(r"//|#\[", it.strip())]
    if kind == "struct":
        kept = [it[len("pub ") :] for it in kept if re.match(r"pub (?!ghost )", it)]
    head = first[:-2]
    return joined([head, "{", *kept, "}"]) if kept else head


def first_sentence(lines: List[str], at: int) -> str:
    """The first sentence of the comment above an item."""
    above = at - 1
    while above >= 0 and re.match(r"\s*(///|#\[|//)", lines[above]):
        above -= 1
    comment = [it.strip()[3:].strip() for it in lines[above + 1 : at] if it.strip().startswith("///")]
    paragraph = " ".join(comment).strip() if "" not in comment else " ".join(comment[: comment.index("")])
    return re.split(r"(?<=[.]) (?=[A-Z`])", paragraph, maxsplit=1)[0]


def members_of(lines: List[str], start: int, end: int, pattern: "re.Pattern[str]") -> Iterator[Public]:
    for at in range(start, end):
        found = pattern.match(lines[at])
        if found and indent(lines[at]) == 4:
            signature = head_of(lines, at)
            yield Public(found[2], found[3], re.sub(r"^pub ", "", signature), first_sentence(lines, at))


def public_of(path: Path) -> Source:
    """What is public in a file of code."""
    lines, source = path.read_text().split("\n"), Source()
    for at, line in enumerate(lines):
        if line.startswith(("pub mod ", "mod ")):
            source.modules[re.split(r"[ ;]", line)[2 if line.startswith("pub") else 1]] = line.startswith("pub")
        elif line.startswith("pub use "):
            end = next(i for i in range(at, len(lines)) if lines[i].endswith(";"))
            source.handed.append(joined(lines[at : end + 1])[8:-1])
        elif line.startswith("impl"):
            impl = IMPL.match(line)
            if impl and not line.endswith("{}"):
                end = next(i for i in range(at + 1, len(lines)) if lines[i].startswith("}"))
                if not impl["trait"]:
                    source.impls.setdefault(impl["type"], []).extend(members_of(lines, at, end, PUBLIC))
        else:
            found = PUBLIC.match(line)
            if found and not found[1]:
                kind, name = found[2], found[3]
                signature = shape_of(lines, at, kind) if kind in ("struct", "enum") else head_of(lines, at)
                item = Public(kind, name, re.sub(r"^pub ", "", signature), first_sentence(lines, at))
                if kind == "trait":
                    item.members = list(members_of(lines, at, at + 1 + len(inside_braces(lines, at)), MEMBER))
                source.items[name] = item
    return source


# ---- what a file brings in

USE = re.compile(r"(?:unfoldable )?(pub )?(?:ghost )?use ([\w.]+?)(?:\.\{(.*)\}| as (\S+));?$")


@dataclass
class Scope:
    """What names stand for in a file: its own items, and (module, name) of what it uses; alias names stand for modules."""

    items: Dict[str, Item]
    uses: Dict[str, Tuple[str, str]]
    aliases: Dict[str, str]


def scope_of(path: Path, ghost: bool = False) -> Scope:
    """What names stand for in a file of definitions, or with `ghost` in the ghost uses of a file of code."""
    lines = [line.strip() if ghost else line for line in path.read_text().splitlines()]
    uses: Dict[str, Tuple[str, str]] = {}
    aliases: Dict[str, str] = {}
    for line in lines:
        found = USE.match(line.replace("ghost use", "use") if ghost else line)
        if not found or ghost and not line.startswith("ghost use"):
            continue
        module, words, alias = found.group(2), found.group(3), found.group(4)
        if alias:
            aliases[alias] = module
        for word in (words or "").split(", "):
            name, _, other = word.partition(" as ")
            *within, name = name.split(".")
            if name:
                uses[other or name] = (".".join([module, *within]), name)
    items = {} if ghost else {name: item for item in items_of(path, lines) for name in item.names}
    return Scope(items, uses, aliases)


# ---- definitions

HEAD = re.compile(r"(?:unfoldable |abbrev )?(?:pub )?(?:record|data|ruleset) (\S+)|(?:unfoldable |abbrev )?(?:pub )?(\S+)(?= : )")
WORD = re.compile(r"[^\s()\[\]{};,λ]+")


def is_comment(line: str) -> bool:
    return line.lstrip().startswith("--")


def begins_item(line: str, known: Collection[str]) -> bool:
    """Whether a line without indentation begins a definition, and isn't a clause of the one above."""
    if re.match(r"(abbrev|unfoldable|pub|record|data|mutual|module _)\b", line) or line.startswith("infix"):
        return True
    head = re.match(r"(\S+) : ", line)
    return head is not None and head.group(1) not in known


def constructors_of(lines: Iterable[str]) -> List[str]:
    """The constructors of a `data` with these lines."""
    return [m.group(1) for m in (re.match(r"\s+(\S+) : ", line) for line in lines) if m]


def named(text: Sequence[str]) -> List[str]:
    """The names that an item's lines define, constructors too."""
    body = [line for line in text if not is_comment(line) and not line.startswith("infix")]
    heads = body[:1]
    if re.match(r"(abbrev )?mutual\b", body[0]):
        heads = [line.strip() for line in body[1:] if re.match(r" +(pub )?(data |record |\S+ : )", line) and indent(line) == indent(body[1])]
    names: List[str] = []
    for head in heads:
        found = HEAD.match(head)
        if found:
            names.append(found.group(1) or found.group(2))
    if re.search(r"\bdata \S+ .*\bwhere\b", " ".join(body)):
        names += [c for c in constructors_of(body) if c not in names]
    return names


def items_of(path: Path, lines: Sequence[str], first: int = 1, around: Sequence[Item] = ()) -> List[Item]:
    """The items of lines that begin at this number."""
    items: List[Item] = []
    pending: List[str] = []
    starts: List[str] = []
    current: Optional[Tuple[int, List[str]]] = None

    def close() -> None:
        nonlocal current
        if current:
            while current[1] and not current[1][-1].strip():
                current[1].pop()
            items.extend(finished(path, *current, around))
        current = None

    for number, line in enumerate(lines, first):
        if not line.strip():
            if pending and not current:
                pending = []
            elif current:
                current[1].append(line)
            continue
        if indent(line):
            if current:
                current[1].extend(pending)
                current[1].append(line)
                pending = []
            continue
        if is_comment(line) or line.startswith("infix"):
            pending.append(line)
            continue
        if USE.match(line) or re.match(r"(pub )?mod ", line):
            close()
            pending = []
            continue
        if begins_item(line, starts):
            close()
            current = (number - len(pending), pending + [line])
            head = HEAD.match(line)
            starts = [name for name in (head.groups() if head else ()) if name]
        elif current:
            current[1].extend(pending)
            current[1].append(line)
        pending = []
    close()
    return items


def finished(path: Path, first: int, text: List[str], around: Sequence[Item]) -> List[Item]:
    """The items of one head: itself, or for a `module _` its head, with what it opens, and what stands in it."""
    at = next((i for i, line in enumerate(text) if not is_comment(line)), 0)
    if not text[at].startswith("module _"):
        return [Item(path, first, text, named(text), list(around))]
    end = next(i for i in range(at, len(text)) if text[i].rstrip().endswith("where")) + 1
    while end < len(text) and text[end].lstrip().startswith("open "):
        end += 1
    head = Item(path, first, text[:end], [], list(around))
    body = text[end:]
    margin = min(indent(line) for line in body if line.strip())
    return [head] + items_of(path, [line[margin:] for line in body], first + end, [*around, head])


def words_of(text: Iterable[str]) -> Set[str]:
    """The words of these lines, without comments and texts. A `do` goes on by the words that the file has for that."""
    words: Set[str] = set()
    for line in text:
        words.update(WORD.findall(re.sub(r'"(\\.|[^"\\])*"', "", re.sub(r"(^|\s)-- .*", "", line))))
    return words | {">>=", ">>"} if "do" in words else words


# ---- statements

SIGNATURE = re.compile(r"(\s*)(?:pub )?([^\s(){}:,;=|λ]+) : (.*)$")
MODULE = re.compile(r"(\s*)(?:pub )?module \S+(.*)$")
RECORD = re.compile(r"(\s*)(?:abbrev |unfoldable )?(?:pub )?(?:record|data) ")
WHERE = re.compile(r"\bwhere\s*$")


class Stated(NamedTuple):
    """A statement: its line, its name, and its text as one line, behind the parameters of the modules around it."""

    line: int
    name: str
    text: str


def statements_of(file: Path) -> Iterator[Stated]:
    """The statements of a file of specs/ or proofs/, but for fields of records."""
    lines = file.read_text().split("\n")
    around: List[Tuple[int, str]] = []
    place = 0
    while place < len(lines):
        line = lines[place]
        if line.strip():
            while around and indent(line) <= around[-1][0]:
                around.pop()
        if RECORD.match(line):
            while place < len(lines) and lines[place].strip():
                place += 1
            continue
        if module := MODULE.match(line):
            text = module[2]
            while not WHERE.search(text) and place + 1 < len(lines):
                place += 1
                text += " " + lines[place].strip()
            around.append((len(module[1]), WHERE.sub("", text)))
        elif (signature := SIGNATURE.match(line)) and not line.lstrip().startswith(("use ", "--", "let ")):
            text, first = signature[3], place
            while place + 1 < len(lines) and lines[place + 1].lstrip().startswith("→"):
                place += 1
                text += " " + lines[place].strip()
            yield Stated(first + 1, signature[2], " ".join([*(it for _, it in around), text]))
        place += 1
