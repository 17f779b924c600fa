"""Gives tools/moveasm texts and command lines with errors, and compares its exit status and what it says, with what each caret marks; and
sees that the text tools leave other files as they are, and never end in a traceback."""

import os
import pty
import re
import signal
import subprocess
from pathlib import Path
from typing import IO, List, Optional, Sequence, Tuple, Union

from cases import Cases, Found, add_tests
from common import PATIENCE, TOOLS, TOP
from movetext import VERSION
from movetext.errors import Source, TextErrors
from movetext.proving import Prover
from movetext.streaming import TextAssembler

TOOL = TOOLS / "moveasm"
USAGE = "\n\nUsage: moveasm [OPTIONS] <FILE>\n\nFor more information, try '--help'.\n"

# Lines of a function's code, and what is said of the text that has them: its column, its message, and what to write.
LINES = [
    ("MoveLoc vv", "9: no local `vv`; did you mean `v`?"),
    ("MoveLoc", "8: wanted a local, found the end of the line"),
    ("MoveLoc v v", "11: wanted the end of the line, found `v`; `MoveLoc` names a local alone"),
    ("MovLoc v", "1: no instruction `MovLoc`; did you mean `MoveLoc`?"),
    ("MoveLocal v", "1: no instruction `MoveLocal`; did you mean `MoveLoc`?"),
    ("BorrowGlobalMut Coin", "1: no instruction `BorrowGlobalMut`; did you mean `MutBorrowGlobal`?"),
    ("LdU8 256", "6: `256` is too great: it is at most 255"),
    ("LdU8 v", "6: wanted a number of 8 bits, found `v`"),
    ("LdU64 12x", "7: `12x` is no number"),
    ("LdU64 7u64", "7: wanted a number of 64 bits without a type, found `7u64`; write `7`"),
    ("LdU16 1", "1: `LdU16` needs version 6, and this module has version 5; write `version 6` after the module's name"),
    ("LdConst 7", "9: `7` has no type; write `7u64`"),
    ("LdConst 256u8", "9: `256u8` is too great: a u8 is at most 255"),
    ("LdConst 1u16", "9: `u16` needs version 6, and this module has version 5; write `version 6` after the module's name"),
    ('LdConst u64 x"0"', '13: these are no bytes; bytes are pairs of hexadecimal digits, as `x"01 ff"`'),
    ("Branch donee", "8: no label `donee`; did you mean `done`?"),
    ("done: Nop", "1: a second label `done`; give one of them another name"),
    ("4: Nop", "1: this is instruction 1; write `1:`, or leave the number out"),
    ("let x: u64", "1: a local is declared after an instruction; write each `let` before the first instruction"),
    ("Pack Coinn", "6: no type `Coinn`; did you mean `Coin`?"),
    ("Pack Coin::Coin", "6: no import of a module `Coin`; write `import ADDRESS::Coin { .. }`, with what is used from it in the braces"),
    ("Pack N::Purse", "6: `N::Purse` is a struct of another module; only a struct's own module packs, unpacks, stores and takes it, and "
     "borrows its fields: call a function of that module"),
    ("Pack Purse", "6: no type `Purse`; did you mean `N::Purse`?"),
    ("MutBorrowField Coin.valu", "21: no field `valu` in `Coin`; did you mean `value`?"),
    ("MutBorrowField Coin", "16: `Coin` is no field; write the struct and the field, as `Coin.value`"),
    ("Call ff", "6: no function `ff`; did you mean `f`?"),
    ("Call pay", "6: no function `pay`; did you mean `N::pay`?"),
    ("Call N::pya", "6: no function `N::pya`; did you mean `N::pay`?"),
    ("Call N::seat", "6: no function `N::seat`; add `seat(TYPE, ..)` to the braces of `import 0x2::N`"),
    ("Call 0x3::N::pay", "6: no import of the module `0x3::N`; write `import 0x3::N { .. }`, with what is used from it in the braces"),
    ("Call #65536", "6: an index is at most 65535"),
    ("$", "1: no word begins with '$'"),
    ("/* Nop", "1: the comment isn't closed; a comment is `// ...` or `/* ... */`"),
]

# A module with a line of code at the beginning of line 7.
MODULE = """module 0x1::M {
    import 0x2::N { struct Purse has key; pay(u64) }
    struct Coin has store, key { value: u64 }
    public entry f(s: signer, v: u64) acquires Coin {
    done:
        Nop
%s
        Ret
    }
}
"""

# Whole texts, and what is said of each: of all its errors.
TEXTS: List[Tuple[str, List[str]]] = [
    ("modul 0x1::M {}", ["1:1: wanted `module`, `publish`, `run`, `show`, `audit`, `record` or `bytes`, found `modul`; did you mean "
                         "`module`?"]),
    ("module M {}", ["1:8: wanted an address as `0x1`, found `M`; addresses have no names"]),
    ("module 0x1::M {", ["1:15: this `{` isn't closed; write `}` where its block ends"]),
    ("module 0x1::M version 7 {}", ["1:23: there is no version 7; write `version 6`, or none for 5"]),
    ("module 0x1::M {}\nshow", ["2:1: wanted the end of the text, which is one module or records, found `show`; a module and records "
                                "stand together as `publish by ADDRESS { module .. }` and the records"]),
    ("module 0x1::M { struct A has kye { v: u64 } }", ["1:30: wanted `copy`, `drop`, `store` or `key`, found `kye`; did you mean "
                                                      "`key`?"]),
    ("module 0x1::M { struct A { v: u64 } has key }", ["1:37: the abilities stand after the fields; write `struct A has key { .. }`"]),
    ("module 0x1::M { struct A { v: u64, v: u8 } }", ["1:36: a second field `v`; give one of them another name"]),
    ("module 0x1::M { struct A { v: u64 } struct A { v: u8 } }", ["1:37: wanted the end of the line, found `struct`",
                                                                "1:44: a second struct `A`; give one of them another name"]),
    ("module 0x1::M { struct A { v: u64 }\nstruct A { v: u8 } }", ["2:8: a second struct `A`; give one of them another name"]),
    ("module 0x1::M { struct A { v: u65 } }", ["1:31: no type `u65`; did you mean `u64`?"]),
    ("module 0x1::M { f(a: u8, a: u8) { Ret } }", ["1:26: a second local `a`; give one of them another name"]),
    ("module 0x1::M { f() { Ret }\nf() { Ret } }", ["2:1: a second function `f`; give one of them another name"]),
    ("module 0x1::M { f() { Ret\nend: } }", ["2:1: no instruction follows the label `end`; write an instruction after it, as `Ret`"]),
    ("module 0x1::M { tables { name { a } } }", ["1:26: no table `name`"]),
    ("module 0x1::M {\nimport 0x2::N\nimport 0x3::N }", ["3:13: a second module goes by `N`; give it another name: `as N2`"]),
    ("run 0x1::M::f(7u64) by 0x1", ["1:27: wanted `budget`, found the end of the line; write how many steps it may take, as `budget "
                                    "1000`"]),
    ("run 0x1::M::f(7u64) budget 1", ["1:21: wanted `by`, found `budget`"]),
    ("publish by 0x1 {}", ["1:1: a bundle has at least one module; write `module ADDRESS::NAME { .. }` within the braces"]),
    ('publish by 0x1 { module "none" }', ["1:25: `none` can't be read: No such file or directory; a file's name is relative to the folder "
                                          "of the text"]),
    ("show\nshow jsn", ["2:6: wanted the end of the line, found `jsn`"]),
    ("show\n}\nshow", ["2:1: this `}` closes no block; take it out, or write the `{` before it"]),
    ("ledger 1 {}", ["1:1: a saved ledger isn't made from a text; `moveledger apply --save` writes one"]),
    # A module that is refused, alone and in a bundle.
    ("module 0x1::M {\nf(a: u64) { MoveLoc a; Ret }\n}", ["2:24: `Ret` leaves `u64` on the stack; take it off, by `Pop` or `StLoc`; or "
                                                         "declare it as a result in the function's head"]),
    ('publish by 0x1 {\nmodule 0x1::M {\nf(a: u64) { MoveLoc a; Ret }\n}\ncertificate x"0101 00" }',
     ["3:24: `Ret` leaves `u64` on the stack; take it off, by `Pop` or `StLoc`; or declare it as a result in the function's head"]),
    ('publish by 0x1 {\nmodule 0x1::M {\nf(a: u64) { Ret }\n}\ncertificate x"0100 00" }',
     ["5:13: this isn't a certificate of the module; write `certificate prove`, or leave it out: moveasm makes one"]),
    # Errors of several functions, structs and records.
    ("module 0x1::M {\nf() { Pup }\nstruct A { }\ng() { MoveLoc x; Ret }\nh(a u8) { Ret }\nk() { Call h; Call kk; Ret }\n}",
     ["2:7: no instruction `Pup`; did you mean `Pop`?", "4:15: no local `x`; write `let x: TYPE` before the first instruction",
      "5:5: wanted `:`, found `u8`", "6:20: no function `kk`; did you mean `k`?"]),
    ("module 0x1::M {\nstruct A { }\nf() { }\ng() { Add; Ret }\n}", ["2:8: `A` has no field; write one at least, as `is_set: bool`"]),
    ("module 0x1::M {\nf() { }\ng() { Add; Ret }\nh(): u8 { Ret }\n}",
     ["2:1: `f` has no instruction; write `Ret` at least",
      "3:7: `Add` takes two numbers of one type, the last on top, and finds nothing; put what it takes on the stack before it, as by "
      "`MoveLoc x` or `LdU64 1`",
      "4:11: `Ret` takes the results `u8` and finds nothing; put `u8` on the stack before it, or take the result out of the function's "
      "head"]),
    ("run 0x1::M::f(7) by 0x1 budget 1\nshow\nrun 0x1::M::f(x) by 0x1 budget 1",
     ["1:15: `7` has no type; write `7u64`", "3:15: wanted a value as `7u64`, `true` or `@0x1`, found `x`"]),
    # A brace that is missing, or too much.
    ("module 0x1::M {\nf() {\nRet\ng() {\nRet\n}\n}", ["2:5: this `{` isn't closed; the next function begins at line 4; write `}` where "
                                                      "its block ends"]),
    ("module 0x1::M {\n    f() {\n        Ret\n}", ["2:9: this `{` isn't closed; write `}` before that one"]),
    ("publish by 0x1 {\n  module 0x1::M {\n    f() {\n      Ret\n  }\n  certificate prove\n}\nshow x",
     ["3:9: this `{` isn't closed; the certificate begins at line 6; write `}` where its block ends",
      "8:6: wanted the end of the line, found `x`"]),
    ("module 0x1::M {\nf() {\nNop\n}\nRet\n}\ng() {\nRet\n}\n}", ["5:1: `Ret` is outside of a function; if a function is to go on "
                                                                 "here, take the `}` before it out"]),
]

# Command lines, and the status and what is said of them.
WORDS: List[Tuple[List[Union[str, bytes]], int, str]] = [
    ([], 2, "error: the following required arguments were not provided:\n  <FILE>" + USAGE),
    (["a", "b"], 2, "error: unexpected argument 'b' found" + USAGE),
    (["-x"], 2, "error: unexpected argument '-x' found" + USAGE),
    (["a", "-o"], 2, "error: a value is required for '-o <OUT>' but none was supplied" + USAGE),
    (["a", "-o", "b", "-oc"], 2, "error: the argument '-o <OUT>' cannot be used multiple times" + USAGE),
    ([b"\xff"], 2, "error: invalid UTF-8 was detected in one or more arguments" + USAGE),
    (["none"], 1, "fault: read: No such file or directory: 'none'\n"),
    (["."], 1, "fault: read: Is a directory: '.'\n"),
    (["-", "-g"], 2, "error: '-g' keeps names beside OUT: give '-o <OUT>'" + USAGE),
    (["-", "--megabytes", "x"], 2, "error: invalid value 'x' for '--megabytes <MEGABYTES>': a whole number of at least 1" + USAGE),
]


# What a message says first: the place, the word, and the fact.
FIRST = re.compile(r"(.+?):(\d+):(\d+): (error|note|warning): (.*)")


def ended(words: Sequence[Union[str, bytes, Path]], text: bytes = b"", stdout: Union[int, IO[bytes]] = subprocess.PIPE) -> Tuple[int, Optional[bytes], str]:
    """A run's status, standard output and standard error."""
    run = subprocess.run([TOOL, *words], input=text, stdout=stdout, stderr=subprocess.PIPE)
    return run.returncode, run.stdout, run.stderr.decode()


def messages(said: str, name: str = "standard input") -> List[str]:
    """What is said, an error a line: its place, its fact, and what to write. What is said elsewhere comes with the file's name."""
    found: List[str] = []
    last = ""
    for line in said.splitlines():
        first = FIRST.match(line)
        if first and first[4] != "note":
            front = "" if first[1] == name else f"{first[1]}:"
            found.append(f"{front}{first[2]}:{first[3]}: {first[5]}")
            last = ""
        elif line.startswith("    help: ") and found:
            found[-1] += f"; {line[10:]}"
            last = "help"
        elif line.startswith(" " * 10) and last == "help" and found:
            found[-1] += f" {line.strip()}"
        else:
            last = ""
    return found


def wrong_marks(said: str, text: str) -> List[str]:
    """The messages whose marks don't stand below the word at their column, or whose line isn't that of the text."""
    lines, wrong, every = said.splitlines(), [], text.split("\n")
    for at, line in enumerate(lines):
        first = FIRST.match(line)
        if first is None or at + 2 >= len(lines) or not set(lines[at + 2].strip()) == {"^"}:
            continue
        row, column = int(first[2]) - 1, int(first[3]) - 1
        marks = lines[at + 2][4:]
        word = re.match(r"\w*", every[row][column:])
        if lines[at + 1][4:] != every[row] or marks.index("^") != column or word and len(word[0]) not in (0, marks.count("^")):
            wrong.append("\n".join(lines[at:at + 3]))
    return wrong


def refused(text: Union[str, bytes]) -> Tuple[int, List[str]]:
    """The status, and what is said of a text. What a caret marks is checked, too."""
    data = text if isinstance(text, bytes) else text.encode()
    status, _, said = ended(["-"], data)
    return status, messages(said) + ([] if isinstance(text, bytes) else wrong_marks(said, text))


def tried(texts: Sequence[str]) -> List[Tuple[int, List[str]]]:
    """The same of many texts, without a process for each."""
    return [told(text) for text in texts]


def told(text: str) -> Tuple[int, List[str]]:
    try:
        TextAssembler(Source("standard input", text), "", Prover(), checks=True).bytes()
    except TextErrors as errors:
        said = str(errors)
        return 3, messages(said) + wrong_marks(said, text)
    return 0, []


def cases_of_texts(_folder: Path) -> Found:
    """What each text with an error shows, how it ended, and how it has to end."""
    yield "a text with an error", refused(MODULE % LINES[0][0]), (3, [f"7:{LINES[0][1]}"])
    found = tried([MODULE % line for line, _ in LINES])
    for (line, where), outcome in zip(LINES, found):
        yield line, outcome, (3, [f"7:{where}"])
    found = tried([text for text, _ in TEXTS])
    for (text, wanted), outcome in zip(TEXTS, found):
        yield text, outcome, (3, wanted)
    yield "no UTF-8", refused(b"show // \xff"), (3, ["1:9: the byte FF isn't UTF-8; save the text as UTF-8"])


def cases_of_words(_folder: Path) -> Found:
    """Command lines. Help and version go to standard output, the help in short lines that name the version."""
    for words, status, said in WORDS:
        outcome = ended(words)
        yield str(words), (outcome[0], outcome[2]), (status, said)
    for name in ("moveasm", "movedis"):
        run = subprocess.run([TOOLS / name, "--help"], stdout=subprocess.PIPE, stderr=subprocess.PIPE, text=True)
        yield f"{name} --help", (run.returncode, run.stderr, max(map(len, run.stdout.splitlines()), default=0) <= 100, "--version" in run.stdout), (
            2, "", True, True)
        run = subprocess.run([TOOLS / name, "--version"], stdout=subprocess.PIPE, stderr=subprocess.PIPE, text=True)
        yield f"{name} --version", (run.returncode, run.stdout, run.stderr), (0, f"{name} {VERSION}\n", "")


def cases_of_files(folder: Path) -> Found:
    """The same of texts that name files and programs."""
    program = Path(folder, "refuses")
    program.write_text("#!/bin/sh\necho refused 8\nexit 3\n")
    program.chmod(0o755)
    publish = b"publish by 0x1 { module 0x1::M { } }"
    status, _, said = ended(["--moveledger", program, "-"], publish)
    yield "a program that refuses what is accepted here", (status, messages(said)), (3, [
        f"1:18: the program and the rules here differ: `{program} prove` says refused 8, and moveasm an empty certificate"])
    status, _, said = ended(["--moveledger", os.path.join(folder, "none"), "-"], publish)
    yield "no program", (status, said.startswith("fault: prove: ")), (1, True)
    inner, outer = Path(folder, "inner.text"), Path(folder, "outer.text")

    def said_of(name: Path) -> Tuple[int, List[str]]:
        status, _, said = ended([outer])
        return status, messages(said, str(name))

    inner.write_text("module 0x1::M {\n    f() { MoveLoc a }\n}\n")
    outer.write_text('publish by 0x1 { module "inner.text" certificate x"" }\nshow')
    yield "an error in a file that is named", said_of(inner), (
        3, ["2:19: no local `a`; write `let a: TYPE` before the first instruction"])
    inner.write_text("module 0x1::M {\n    f() {\n        LdTrue\n        Ret\n    }\n}\n")
    outer.write_text('publish by 0x1 { module "inner.text" }')
    leaves = "`Ret` leaves `bool` on the stack; take it off, by `Pop` or `StLoc`; or declare it as a result in the function's head"
    yield "a module that is refused, in a file that is named", said_of(inner), (3, [f"4:9: {leaves}"])
    bytes_file = Path(folder, "inner.module")
    ended(["--no-check", inner, "-o", bytes_file])
    outer.write_text('publish by 0x1 {\n    module "inner.module"\n}\n')
    yield "a module that is refused, by its bytes", said_of(outer), (
        3, ["2:12: this module is refused: refused 8 (stack and types)"])


def cases_of_outputs(folder: Path) -> Found:
    """What stands where an output goes is left as it is where it is an input, or of another kind."""
    text, out, link, hard = (folder / name for name in ("x.text", "x.stream", "link", "hard"))
    text.write_text("show\n")
    link.symlink_to(text)
    os.link(text, hard)
    yield "no -o", (ended([text])[::2], out.read_bytes()), ((0, f"wrote {out}\n"), b"\3\0")
    for same in (text, link, hard):
        status, _, said = ended([text, "-o", same])
        yield f"the input as the output, as {same.name}", (status, said, text.read_text()), (
            1, f"fault: write: '{same}' is read here ({text}), and left as it is: give another name\n", "show\n")
    with open(text, "rb") as given:
        run = subprocess.run([TOOL, "-", "-o", text], stdin=given, stderr=subprocess.PIPE, text=True)
    yield "standard input as the output", (run.returncode, text.read_text()), (1, "show\n")
    for name, data in (("notes.md", b"# Notes\n"), ("a.ledger", b"MVL2\0\0"), ("a.png", b"\x89PNG\r\n\x1a\n")):
        other = folder / name
        other.write_bytes(data)
        status, _, said = ended([text, "-o", other])
        yield f"{name} as the output", (status, said, other.read_bytes()), (
            1, f"fault: write: '{other}' is there already and isn't a module or a stream, so it is left as it is: give another name, or "
            "remove it first\n", data)
    inner, outer = folder / "inner.text", folder / "outer.text"
    inner.write_text("module 0x1::M { }\n")
    outer.write_text('publish by 0x1 { module "inner.text" }\n')
    yield "a file that the text names as the output", (ended([outer, "-o", inner])[0], inner.read_text()), (1, "module 0x1::M { }\n")
    out.chmod(0o600)
    ended([inner, "-o", out])
    yield "a stream is replaced by a module, and keeps its mode", (out.read_bytes()[:4].hex(), oct(out.stat().st_mode & 0o777)), (
        "a11ceb0b", "0o600")
    to = folder / "to"
    to.symlink_to(out)
    ended([text, "-o", to])
    yield "an output through a link", (to.is_symlink(), out.read_bytes()), (True, b"\3\0")
    names = folder / "x.stream.names"
    names.write_text("mine\n")
    yield "another file in the place of names", (ended(["-g", text])[0], names.read_text(), out.read_bytes()), (1, "mine\n", b"\3\0")
    with open("/dev/full", "wb") as full:
        yield "a full standard output", ended(["-"], b"show", full), (1, None, "fault: write: No space left on device\n")
    long = folder / "long.text"
    long.write_text('bytes x"' + "00" * 100_000 + '"\n')
    run = subprocess.run(["sh", "-c", 'ulimit -f 1; exec "$@"', "sh", TOOL, long, "-o", out], stderr=subprocess.PIPE, text=True)
    yield "a write that fails", (run.returncode, run.stderr, out.exists() and out.read_bytes(), sorted(one.name for one in folder.glob(".*"))), (
        1, f"fault: write: File too large: '{out}'\n", b"\3\0", [])
    yield "a folder that isn't there", ended([text, "-o", folder / "no" / "x"])[::2], (
        1, f"fault: write: No such file or directory: '{folder / 'no' / 'x'}'\n")
    yield "a folder as the output", ended([text, "-o", folder])[::2], (1, f"fault: write: Is a directory: '{folder}'\n")
    yield "a device", ended([text, "-o", "/dev/null"])[::2], (0, "")
    names.unlink()
    printed = folder / "printed"
    yield "movedis writes a file, and writes it again", [ended_of("movedis", out, "-o", printed)[0] for _ in range(2)], [0, 0]
    yield "movedis leaves a text of an author", (ended_of("movedis", out, "-o", text)[0], text.read_text()), (1, "show\n")
    yield "movedis leaves its input", (ended_of("movedis", out, "-o", out)[0], out.read_bytes()), (1, b"\3\0")
    master, slave = pty.openpty()
    run = subprocess.run([TOOL, "-"], stdin=open(text, "rb"), stdout=slave, stderr=subprocess.PIPE, text=True)
    yield "bytes to a terminal", (run.returncode, run.stderr), (
        1, "fault: write: bytes aren't written to a terminal: name a file with '-o <OUT>'\n")
    os.close(master)
    os.close(slave)


def ended_of(tool: str, *words: Union[str, Path]) -> Tuple[int, str, str]:
    """How a tool ended. One that takes far longer, or far more memory, than it may is ended."""
    command: List[Union[str, Path]] = ["sh", "-c", f'ulimit -v 1500000; exec timeout {PATIENCE} "$@"', "sh", TOOLS / tool, *words]
    run = subprocess.run(command, stdin=subprocess.DEVNULL, stdout=subprocess.PIPE, stderr=subprocess.PIPE)
    return run.returncode, run.stdout.decode("utf-8", "replace"), run.stderr.decode("utf-8", "replace")


BURN = """module 0x1::M {
    struct Coin has key { v: u64 }
    %stake(a: address): u64 acquires Coin { MoveLoc a; MoveFrom Coin; Unpack Coin; Ret }
    %sentry burn(%sa: address) acquires Coin { %s
        let b: address
        MoveLoc a; StLoc b
        MoveLoc b; Call take; Pop
        Ret
    }
}
"""


def cases_of_warnings(folder: Path) -> Found:
    """An entry function that takes from any address is warned of, unless the text or the command line says that it is meant."""
    text = folder / "x.text"
    anybody = ["4:16: anybody can take any `Coin`: `burn` is entry, and has an address and no signer; take a signer too, and test that "
               "the address is the signer's; or say that it is meant, by `// moveasm: anyone` above the function"]
    rows: List[Tuple[str, Tuple[str, str, str, str], List[str], List[str]]] = [
        ("an entry function that takes from an address", ("", "", "", ""), [], anybody),
        ("the same with a signer", ("", "", "s: signer, ", ""), [], []),
        ("the same, and the text says so", ("", "// it is given back: moveasm: anyone\n    // by design\n    ", "", ""), [], []),
        ("the same, and its line says so", ("", "", "", "// moveasm: anyone"), [], []),
        ("the same, and the command line says so", ("", "", "", ""), ["--no-warn"], []),
    ]
    for shows, parts, options, wanted in rows:
        text.write_text(BURN % parts)
        status, _, said = ended([*options, text, "-o", folder / "x"])
        yield shows, (status, messages(said, str(text))), (0, wanted)


FOREVER = """publish by 0x1 {
    module 0x1::M {
        public entry f() {
        again:
            Branch again
        }
    }
}
""" + 40 * "run 0x1::M::f() by 0x1 budget 10_000_000\n"


def cases_of_bounds(folder: Path) -> Found:
    """An explanation takes ten seconds and 500 MB at most, unless the command line allows more, or less."""
    text, stream, zeros = (folder / name for name in ("x.text", "x.stream", "zeros"))
    text.write_text(FOREVER)
    ended([text])
    started = subprocess.Popen(["timeout", str(PATIENCE), TOOLS / "movedis", "--explain", stream], stdout=subprocess.PIPE, stderr=subprocess.PIPE, text=True)
    with open(zeros, "wb") as file:
        file.truncate(600_000_000)
    more = "'--megabytes <MEGABYTES>' allows more\n"
    yield "an explanation of 600 MB", ended_of("movedis", "--explain", zeros)[::2], (1, f"fault: memory: more than 500 MB are needed; {more}")
    yield "an explanation in few megabytes", ended_of("movedis", "--explain", "--megabytes", "100", zeros)[::2], (
        1, f"fault: memory: more than 100 MB are needed; {more}")
    zeros.unlink()
    yield "an explanation in a second", ended_of("movedis", "--explain", "--seconds", "1", stream)[::2], (
        1, "fault: time: not done within 1 second; '--seconds <SECONDS>' allows more\n")
    _, said = started.communicate()
    yield "an explanation that takes long", (started.returncode, said), (
        1, "fault: time: not done within 10 seconds; '--seconds <SECONDS>' allows more\n")


def cases_of_kinds(folder: Path) -> Found:
    """What is said of a file of another kind."""
    for data, what in ((b"\3\0", "a stream"), (bytes.fromhex("a11ceb0b05000000000000"), "a module"), (b"MVL2\0\0", "a saved ledger")):
        file = folder / "x"
        file.write_bytes(data)
        yield f"{what} in the place of a text", ended([file])[::2], (
            3, f"{file}: this is {what}, not a text: `tools/movedis {file}` prints it as text\n")
    for text in ("module 0x1::M {\n", "hello\n", "// \u00e9\nshow\n"):
        file.write_text(text)
        yield f"{text!r} in the place of bytes", ended_of("movedis", file)[::2], (
            3, f"{file}: this is a text, not bytes: `tools/moveasm {file}` makes its bytes\n")


def cases_of_streams(folder: Path) -> Found:
    """Closed streams, a reader that goes away, Ctrl-C and bytes that nest: a message or none, and never a traceback."""
    text = folder / "x.text"
    text.write_text("show\n" * 20_000)
    stream = folder / "x.stream"
    ended([text, "-o", stream])
    rows = [
        ("a reader that goes away", 'tools/movedis "$1" | head -n 1 > /dev/null; exit 0', 0),
        ("no standard input", 'tools/moveasm - <&-', 1), ("no standard output", 'tools/movedis "$1" >&-', 1),
        ("no standard error", 'tools/moveasm none 2>&-', 1), ("neither", 'tools/moveasm - >&- 2>&- < "$1"', 3),
    ]
    for shows, command, status in rows:
        run = subprocess.run(["bash", "-c", command, "bash", stream], cwd=TOP, stdout=subprocess.PIPE, stderr=subprocess.PIPE, text=True)
        yield shows, (run.returncode, "Traceback" in run.stderr), (status, False)
    pipe = folder / "pipe"
    os.mkfifo(pipe)
    for name in ("moveasm", "movedis"):
        started = subprocess.Popen([TOOLS / name, pipe], stdout=subprocess.PIPE, stderr=subprocess.PIPE)
        held = open(pipe, "wb")
        started.send_signal(signal.SIGINT)
        held.close()
        _, said = started.communicate()
        yield f"Ctrl-C while {name} reads", (started.returncode in (130, -signal.SIGINT), b"Traceback" in said), (True, False)
    names = folder / "x.stream.names"
    for told in ("[" * 100_000, '{"form":1,"modules":{"a":{"file":"\\ud800"}},"streams":{}}', "\udcff", "9" * 9_000):
        names.write_text(told, errors="surrogateescape")
        status, _, message = ended_of("movedis", stream)
        yield f"names as {told[:10]!r}", (status, "Traceback" in message), (3, False)
    names.unlink()
    number = "9" * 9_000
    for line in (f"LdU64 {number}", f"LdConst {number}u64", f"MoveLoc {number}", f"LdConst @0x{number}", f"Branch #{number}", f"{number}: Ret"):
        text.write_text(MODULE % line)
        status, _, message = ended([text])
        yield f"{line[:20]}..", (status, "Traceback" in message), (3, False)
    text.write_text("module 0x1::M { f(a: " + "&" * 50_000 + "u8) { Ret } }")
    status, _, message = ended([text])
    yield "references without end", (status, "Traceback" in message), (3, False)
    text.write_text("publish by 0x1 {" * 50_000)
    status, _, message = ended([text])
    yield "braces without end", (status, "Traceback" in message), (3, False)


class Moveasm(Cases):
    """What moveasm says, and what it leaves as it is."""

    def same(self, shows: str, found: object, wanted: object) -> bool:
        return super().same(repr(shows), found, wanted)


add_tests(Moveasm, [cases_of_texts, cases_of_words, cases_of_files, cases_of_bounds, cases_of_outputs, cases_of_warnings, cases_of_kinds,
                    cases_of_streams], Path)
