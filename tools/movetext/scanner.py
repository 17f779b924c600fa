"""A text's words."""

import re
from typing import List, Optional

from . import habits
from .errors import Help
from .model import LEAF_KINDS
from .limits import IDENTIFIER_BYTES

# The kinds of words. The first eight have the numbers of the pattern's groups.
NAME, LINE_END, MARK, NUMBER, INDEX, QUOTED, FILE, WRONG, HEX, END = range(1, 11)

KIND_WORDS = {
    NAME: "a name", LINE_END: "the end of the line", NUMBER: "a number", INDEX: "an index", QUOTED: "a name", HEX: "bytes",
    FILE: "a file's name", END: "the end of the text",
}

PATTERN = re.compile(r"""
    (?: [ \t\r\f]+ | //[^\n]* | /\*[^*]*\*+(?:[^/*][^*]*\*+)*/ )*
    (?: ( x"[^"]*" | [A-Za-z_][A-Za-z0-9_]* )
      | ( \n )
      | ( :: | [{}()\[\],:;.&@] )
      | ( [0-9][0-9A-Za-z_]* )
      | ( \#[0-9]+ )
      | ( `[^`\n]*` )
      | ( "[^"\n]*" )
      | ( [^ \t\r\f] ) )""", re.VERBOSE)

# Names that have another meaning where a name may stand: they're written in backquotes.
RESERVED = frozenset(LEAF_KINDS) | frozenset(
    "Self acquires as certificate entry false fun has import let locals module mut public struct tables true version".split())

IDENTIFIER = re.compile(r"(?:[A-Za-z]|_(?=[A-Za-z0-9_]))[A-Za-z0-9_]*\Z")

# What is wrong with text that is no word, by what it begins with.
WRONG_WORDS = {
    '"': Help("the quotes aren't closed on their line", 'a file is `"coin.text"`, bytes are `x"01 ff"`'),
    "`": Help("the backquotes aren't closed on their line", "a name in backquotes is as `` `u64` ``"),
    "/": Help("no word begins with `/`", "a comment is `// ...` or `/* ... */`"),
    "#": Help("no word begins with `#` alone", "an index is `#` and a number, as `#3`; a comment is `// ...`"),
}


class Words:
    """The words of a text: of each its kind, its text and its offset. The last three are of the kind END, so that there
    are two words behind each that is looked at. What is no word is one of the kind WRONG."""

    def __init__(self, text: str):
        self.text = text
        # Where a comment begins that isn't closed, so that the text ends there.
        self.cut: Optional[int] = None
        self.kinds: List[int] = []
        self.texts: List[str] = []
        self.starts: List[int] = []
        self.read(text)
        for _ in range(3):
            self.kinds.append(END)
            self.texts.append("")
            self.starts.append(len(text))

    def read(self, text: str) -> None:
        """Reads all words of a text. Each line has its end, so that there is a word behind each comment."""
        kinds, texts, starts = self.kinds.append, self.texts.append, self.starts.append
        for found in PATTERN.finditer(text + "\n"):
            kind = found.lastindex or WRONG
            word, start = found.group(kind), found.start(kind)
            if kind == NAME and word[-1] == '"':
                kind = HEX
            kinds(kind)
            texts(word)
            starts(start)
            if kind == WRONG and text.startswith("/*", start):
                self.cut = start
                return


def wrong_word(text: str, at: int) -> Help:
    """What is wrong where no word is."""
    if text.startswith("/*", at):
        return Help("the comment isn't closed", "a comment is `// ...` or `/* ... */`")
    return habits.of_mark(text, at) or WRONG_WORDS.get(text[at]) or Help(f"no word begins with {text[at]!r}")


def is_identifier(name: str) -> bool:
    """Whether a name is an identifier of the format."""
    return len(name) <= IDENTIFIER_BYTES and bool(IDENTIFIER.match(name))


def needs_quotes(name: str) -> bool:
    """Whether a name has to stand in backquotes wherever it may stand."""
    return name in RESERVED or not is_identifier(name)
