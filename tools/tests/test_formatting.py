"""The form of texts: what it keeps, that it is the same the second time, and what is laid out how."""

import os
import random
import re
import runpy
import stat
import sys
import tempfile
import unittest
from pathlib import Path
from typing import Iterator, List, Tuple

from movetext import scanner
from movetext.disassembler import MODULE, disassemble
from movetext.errors import TextError
from movetext.formatting import COMMENT, first_other, formatted, given_out, items_of, kept_of
from movetext.proving import Prover
from movetext.random_code import random_typed_module
from movetext.random_modules import random_module
from movetext.stream_parser import parse
from movetext.streaming import TextAssembler, read_source
from movetext.writer import write_module

from . import TOP

# So many texts there are at least, so that a new form of the files can't leave the tests without any.
LEAST_ROWS, LEAST_MISTAKES, RANDOM = 150, 60, 24

# What has been proved once needn't be again.
PROVER = Prover()
BETWEEN = [" ", " ", "  ", "\t", "    ", " /* it */ ", "\r "]
ENDS = ["\n", "\n", "\n\n", "\n\n\n\n", "  \n", "// all\n", "   // all of it  \n", " /* so\n        it is */\n", "\n  // alone\n"]

BEFORE = """\
\tmodule   0x1 :: M version 6{ // a module


struct   Coin has key,store{value :u64 , inner:Other}

  struct Other has store {
a: u64,
        b : u8, // the second
    }
    import 0x2::N as Q
    {
        get ( &mut u64 ) :( u64,bool )
        }
      // before f
      public entry f(s:signer,
  v:u64):( &Coin , &mut u64 )acquires Coin {
      let   place:&mut u64
    // what is first
    first  :
      ImmBorrowLoc s // one
          MoveLoc[1] ( v:u64 )
            2 : Nop;Nop
     LdConst u64 x"01 00
  0000 0000
          0000"
/* of two
    lines */
  second: third: Branch first
      /* and
         this */
      }


}

"""
AFTER = """\
module 0x1::M version 6 {  // a module
    struct Coin has key, store { value: u64, inner: Other }

    struct Other has store {
        a: u64,
        b: u8,  // the second
    }
    import 0x2::N as Q
    {
        get(&mut u64): (u64, bool)
    }
    // before f
    public entry f(s: signer,
        v: u64): (&Coin, &mut u64) acquires Coin {
        let place: &mut u64
    // what is first
    first:
        ImmBorrowLoc s  // one
        MoveLoc[1](v: u64)
        2: Nop; Nop
        LdConst u64 x"01 00
            0000 0000
            0000"
    /* of two
        lines */
    second: third: Branch first
        /* and
           this */
    }
}
"""


def row_texts() -> Iterator[str]:
    """The texts of the rows, each with the bytes of the modules that it names."""
    sys.path.insert(0, str(TOP / "scripts"))
    made = runpy.run_path(str(TOP / "scripts/make-rows"))
    sys.path.pop(0)
    for path in sorted((TOP / "tests/rows").glob("*.text")):
        subject = made["Subject"](path.stem, PROVER)
        for part in made["parts_of"](path.read_text(encoding="utf-8").split("\n")):
            text = made["NAMED"].sub(subject.bytes_named, part.text)
            if part.name:
                subject.module(part)
                subject.definitions[part.name] = part
            # (a saved ledger, and what `check` is given, aren't of the language)
            if parses(text):
                yield text


def mistake_texts() -> Iterator[str]:
    """The texts of tests/mistakes that have no error of syntax."""
    found = re.compile(r"^== .*\n\$ .*\n((?:(?!-- ).*\n)*)-- ", re.M)
    for path in sorted((TOP / "tests/mistakes").glob("*.txt")):
        yield from filter(parses, found.findall(path.read_text(encoding="utf-8")))


def parses(text: str) -> bool:
    try:
        parse(text, keeps_limits=False)
        return True
    except TextError:
        return False


def mangled(draw: random.Random, text: str) -> str:
    """A text with other blanks between its words, other empty lines, and comments at random."""
    parts = []
    for one in items_of(text):
        if one.kind == scanner.LINE_END:
            parts.append(draw.choice(ENDS))
        elif one.kind != COMMENT:
            parts += [one.text, draw.choice(BETWEEN)]
    return "".join(parts)


class Formatting(unittest.TestCase):
    def same_bytes(self, text: str, folder: Path = TOP) -> str:
        """The form of a text, which makes the same bytes, is its own form, and keeps words and comments."""
        form = formatted(text)
        self.assertEqual(formatted(form), form)
        self.assertEqual(kept_of(form), kept_of(text))
        self.assertEqual(outcome_of(form, folder), outcome_of(text, folder))
        self.assertIsNone(re.search(r"[ \t\r]$|\n\n\n|\A\n|\n\n\Z", form, re.M))
        return form

    def test_a_whole_text(self) -> None:
        self.assertEqual(formatted(BEFORE), AFTER)
        self.assertEqual(formatted(AFTER), AFTER)

    def test_the_examples_are_in_their_form(self) -> None:
        for path in sorted((TOP / "examples").glob("*.text")):
            text = path.read_text(encoding="utf-8")
            self.assertEqual(self.same_bytes(text, path.parent), text, path.name)

    def test_the_texts_of_rows(self) -> None:
        texts = list(row_texts())
        self.assertGreater(len(texts), LEAST_ROWS)
        for text in texts:
            self.same_bytes(text)

    def test_the_texts_of_mistakes(self) -> None:
        texts = list(mistake_texts())
        self.assertGreater(len(texts), LEAST_MISTAKES)
        for text in texts:
            self.same_bytes(text)

    def test_modules_made_at_random_with_any_blanks_and_comments(self) -> None:
        draw = random.Random("forms")
        for number in range(RANDOM):
            module = random_module(draw, number % 3 == 1) if number % 2 else random_typed_module(draw, (bytes(16), "M"))
            data = write_module(module)
            text = disassemble(data, MODULE).text
            form = self.same_bytes(text)
            self.assertEqual(outcome_of(form, TOP), data)
            with self.subTest(number):
                self.same_bytes(mangled(draw, text))

    def test_what_is_printed_of_modules_is_in_its_form_but_for_what_it_leaves_to_authors(self) -> None:
        text = disassemble((TOP / "examples/owner.stream").read_bytes()).text
        self.assertEqual([line.split("//")[0].rstrip() for line in formatted(text).splitlines()],
                         [line.split("//")[0].rstrip() for line in text.splitlines()])

    def test_mangled_examples_come_back(self) -> None:
        draw = random.Random("mangled")
        for path in sorted((TOP / "examples").glob("*.text")):
            self.same_bytes(mangled(draw, path.read_text(encoding="utf-8")), path.parent)

    def test_a_text_with_an_error_has_no_form(self) -> None:
        for text in ("module 0x1::M {", "run 0x1::M::f() by", "module 0x1::M { f() { LdU64 } }", "/* never closed"):
            with self.assertRaises(TextError):
                formatted(text)

    def test_no_text_and_comments_alone(self) -> None:
        self.assertEqual(formatted(""), "")
        self.assertEqual(formatted("\n\n  // it\n\n\n\n/* is */ \n\n"), "// it\n\n/* is */\n")

    def test_comments_after_code_stand_in_one_column(self) -> None:
        text = "show // a\naudit json // b\n\nshow // c\n"
        self.assertEqual(formatted(text), "show        // a\naudit json  // b\n\nshow  // c\n")


    def test_comments_stay_apart_where_a_line_is_long(self) -> None:
        long = "record 9 x\"" + 60 * "00" + "\""
        text = f"show // a\naudit // b\n{long} // c\nshow // d\n"
        self.assertEqual(formatted(text), f"show  // a\naudit  // b\n{long}  // c\nshow  // d\n")

    def test_the_first_line_that_differs(self) -> None:
        rows = [(b"a\nb\n", b"a\nc\n", 2), (b"x", b"y", 1), (b"a", b"a\n", 2), (b"a\n\n\n", b"a\n", 3), (b"", b"a", 1)]
        self.assertEqual([first_other(one, other) for one, other, _ in rows], [line for _, _, line in rows])


class Files(unittest.TestCase):
    def test_a_text_is_put_in_its_form_in_its_own_file(self) -> None:
        with tempfile.TemporaryDirectory() as folder:
            file, link = Path(folder, "it.text"), Path(folder, "link.text")
            file.write_text("show")
            file.chmod(0o640)
            link.symlink_to(file)
            given = {"FILE": str(link), "--check": None, "--write": "", "OUT": None}
            self.assertEqual(given_out(given, str(link), b"show", b"show\n"), 0)
            self.assertTrue(link.is_symlink())
            self.assertEqual((file.read_bytes(), stat.S_IMODE(file.stat().st_mode)), (b"show\n", 0o640))
            self.assertEqual(sorted(os.listdir(folder)), ["it.text", "link.text"])


def outcome_of(text: str, folder: Path) -> object:
    """The bytes of a text, or the errors that it has, without their places."""
    maker = TextAssembler(read_source("text", text.encode()), str(folder), PROVER)
    try:
        return maker.bytes()
    except Exception as errors:
        found: List[Tuple[str, str]] = [(type(errors).__name__, one.message) for one in getattr(errors, "errors", [])]
        return found or str(errors)

