"""Texts with one error each: the line, the column and the words that are told."""

import unittest
from typing import List, Tuple

from movetext import habits
from movetext.errors import Source, TextError
from movetext.model import U64, Value
from movetext.stream_parser import parse
from movetext.syntax import Ask, Index, Module, Name, Path, Publish, Raw, Run, Stream

Rows = List[Tuple[str, str]]
EXPRESSION = f"{habits.EXPRESSION.fact}; {habits.EXPRESSION.help}"
FIELD_READ = f"{habits.FIELD_READ.fact}; {habits.FIELD_READ.help}"
NEGATIVE = "there is no negative number; numbers are unsigned: Sub aborts the run below 0"


def in_module(*items: str) -> str:
    """A module with items, the first of which begins on line 2."""
    return "\n".join(["module 0x1::M {", *items, "}"])


def in_code(*lines: str) -> str:
    """A function with code that begins on line 3."""
    return in_module("f(v: u64) {", *lines, "}")


WORDS: Rows = [
    ("module 1::M { }", "1:8: `1` is no address, which is hexadecimal; write `0x1`"),
    ("module 0x1::M { } x", "1:19: wanted the end of the text, which is one module or records, found `x`"),
    ("module zero::M { }", "1:8: wanted an address as `0x1`, found `zero`; addresses have no names"),
    ("module 0x1g::M { }", "1:8: `0x1g` is no address; its digits are 0 to 9 and a to f"),
    ("module 0x100000000000000000000000000000001::M { }", "1:8: an address has at most 32 hexadecimal digits, this one 33"),
    ("module 0x1 M { }", "1:12: wanted `::`, found `M`"),
    ("module #65536::M { }", "1:8: an index is at most 65535"),
    ("module 0x1:: { }", "1:14: wanted the module's name, found `{`"),
    ("module 0x1::M version x { }", "1:23: wanted a version, found `x`"),
    ("module 0x1::M version 7 { }", "1:23: there is no version 7; write `version 6`, or none for 5"),
    ("module 0x1::M version -6 { }", f"1:23: {NEGATIVE}"),
    ("module 0x1::M version 6u8 { }", "1:23: wanted a version without a type, found `6u8`; write `6`"),
    ("module 0x1::M version 300 { }", "1:23: `300` is too great: it is at most 255"),
    ("module 0x1::M-N { }", "1:14: a name has letters, digits and `_`; write `M_N`"),
    ("module 0x1::M [ }", "1:15: wanted `{`, found `[`"),
    ("module 0x1::M {", "1:15: this `{` isn't closed; write `}` where its block ends"),
]
MODULES: Rows = [
    (in_module("import 0x2::N as 7"), "2:18: wanted a name, found `7`"),
    (in_module("import 0x2::N { f(u8"), "1:15: this `{` isn't closed; write `}` where its block ends"),
    (in_module("import 0x2::N { f(u8 u8) }"), "2:22: wanted `,` or `)`, found `u8`"),
    (in_module("import 0x2::N { struct S has drop copy }"), "2:35: abilities are separated by commas; as `has store, key`"),
    (in_module("import 0x2::N { struct S has drop | copy }"), "2:35: abilities are separated by commas; as `has store, key`"),
    (in_module("import 0x2::N { struct S has drop & copy }"), "2:35: abilities are separated by commas; as `has store, key`"),
    (in_module("import 0x2::N { struct S has drop mint() }"), "2:35: wanted the end of the line, found `mint`"),
    (in_module("import 0x2::N { struct S has store, dorp }"),
     "2:37: wanted `copy`, `drop`, `store` or `key`, found `dorp`; did you mean `drop`?"),
    (in_module("struct S"), "2:9: wanted `{`, found the end of the line"),
    (in_module("struct S }"), "2:10: wanted `{`, found `}`"),
    (in_module("struct 7 { }"), "2:8: wanted the struct's name, found `7`"),
    (in_module("struct #0 has copy { }"), "2:8: a struct by its index has the abilities of its handle"),
    (in_module("struct S { a b }"), "2:14: wanted `:`, found `b`"),
    (in_module("struct S { a: u64 b: u64 }"), "2:19: wanted `,`, `}` or the end of the line, found `b`"),
    (in_module("struct S { a: {} }"), "2:15: wanted a type, found `{`"),
    (in_module("struct S { a: & &u8 }"), "2:17: there is no reference to a reference; write one `&` alone"),
    (in_module("struct S { a: u16 }"),
     "2:15: `u16` needs version 6, and this module has version 5; write `version 6` after the module's name"),
    (in_module("tables { }", "tables { }"), "3:1: the module has tables already; write all tables within the first `tables`"),
    (in_module("7"), "2:1: wanted `import`, `struct`, `tables`, `public`, `entry`, `fun` or `}`, or a function's name, found `7`"),
    (in_module("public(friend) f() { Ret }"),
     "2:1: there is no `public(friend)`; a function is `public`, so that every module may call it, or private, without a "
     "word"),
    (in_module("public f { Ret }"), "2:10: wanted `(`, found `{`; a function has parentheses, also without parameters: `f()`"),
    (in_module("strct S { }"),
     "2:1: wanted `import`, `struct`, `tables`, `public`, `entry` or `fun`, or a function's name and `(`, found `strct`; did you mean "
     "`struct`?"),
    (in_module("use 0x1::N"),
     "2:1: no item begins with `use`; another module is named by `import 0x1::M { .. }`, with the structs and functions "
     "that are used in braces after it"),
    (in_module("f(a u64) { Ret }"), "2:5: wanted `:`, found `u64`"),
    (in_module("f() locals 3 { Ret }"), "2:12: wanted an index as `#3`, found `3`"),
    (in_module("f() locals #0 { let x: u64; Ret }"), "2:17: the locals are those of a signature by its index"),
    (in_module("#0 { let x: u64; Ret }"),
     "2:6: a function by the index of its handle has `locals` with the index of a signature, and no `let`"),
    (in_module("f() { let mut x: u64; Ret }"), "2:11: there is no `mut` after `let`; leave it out: every local may be written"),
    (in_module("f() acquires N::S { Ret }"), "2:14: `acquires` names structs of its own module, by their names alone; what a "
     "function of another module acquires isn't listed"),
    (in_module("f() acquires S, N.S { Ret }"), "2:17: `acquires` names structs of its own module, by their names alone; what a "
     "function of another module acquires isn't listed"),
    (in_module("f() acquires { Ret }"), "2:14: wanted a struct, found `{`"),
    (in_module("f(): { Ret }"), "2:6: wanted a type, found `{`"),
]
CODE: Rows = [
    (in_code("MoveLoc"), "3:8: wanted a local, found the end of the line"),
    (in_code("Pop 1"), "3:5: wanted the end of the line, found `1`; `Pop` names nothing: its operands are on the stack"),
    (in_code("LdU8 256"), "3:6: `256` is too great: it is at most 255"),
    (in_code("LdU64 1u8"), "3:7: wanted a number of 64 bits without a type, found `1u8`; write `1`"),
    (in_code("LdU64 1x"), "3:7: `1x` is no number"),
    (in_code("LdU64 v"), "3:7: wanted a number of 64 bits, found `v`"),
    (in_code("LdU16 1"), "3:1: `LdU16` needs version 6, and this module has version 5; write `version 6` after the module's name"),
    (in_code("LdConst 7"), "3:9: `7` has no type; write `7u64`"),
    (in_code("LdConst 256u8"), "3:9: `256u8` is too great: a u8 is at most 255"),
    (in_code("LdConst 0x7"), "3:9: `0x7` has no type; write `@0x7` for an address, or `0x7u64`"),
    (in_code('LdConst u16 x"00"'),
     "3:9: `u16` needs version 6, and this module has version 5; write `version 6` after the module's name"),
    (in_code('LdConst u64 x"0"'), '3:13: these are no bytes; bytes are pairs of hexadecimal digits, as `x"01 ff"`'),
    (in_code("LdConst Max"),
     "3:9: no constant `Max`; constants have no names: write the value where it is loaded, as `LdU64 7` or `LdConst @0x1`"),
    (in_code("LdConst &Max"), '3:13: wanted bytes as `x"01"`, found the end of the line'),
    (in_code("LdConst `Max`"), '3:14: wanted bytes as `x"01"`, found the end of the line'),
    (in_code("LdConst Max + 1"), f"3:13: {EXPRESSION}"),
    (in_code("LdConst -1u64"), f"3:9: {NEGATIVE}"),
    (in_code("LdU8(-1)"), f"3:6: {NEGATIVE}"),
    (in_code("v -1"), f"3:3: {EXPRESSION}"),
    (in_code("v -w"), f"3:3: {EXPRESSION}"),
    (in_code("v-w"), f"3:2: {EXPRESSION}"),
    (in_code("v-w; Ret"), f"3:2: {EXPRESSION}"),
    (in_code("Nop; v-w"), f"3:7: {EXPRESSION}"),
    (in_module("f() { v-w }"), f"2:8: {EXPRESSION}"),
    (in_module("f() { v-w: Ret }"), "2:8: a name has letters, digits and `_`; write `v_w`"),
    (in_code("CopyLoc v-w"), "3:10: a name has letters, digits and `_`; write `v_w`"),
    (in_code("CopyLoc v-1"), f"3:10: {EXPRESSION}"),
    (in_code("coin.value"), f"3:1: {FIELD_READ}"),
    (in_code("Coin.mint(v)"), "3:1: no instruction `Coin`"),
    (in_code("if v"), f"3:1: no instruction `if`; {habits.CONTROL}"),
    (in_code("While v < 3"), f"3:1: no instruction `While`; {habits.CONTROL}"),
    (in_code("While !v"), f"3:1: no instruction `While`; {habits.CONTROL}"),
    (in_code("push = 3"), f"3:6: {habits.ASSIGNED.fact}; {habits.ASSIGNED.help}"),
    (in_code("push 3"), f"3:1: no instruction `push`; {habits.INSTRUCTIONS['Push']}"),
    (in_code("Drop"), "3:1: no instruction `Drop`; did you mean `Pop`?"),
    (in_code("LdConst u64"), '3:12: wanted bytes as `x"01"`, found the end of the line'),
    (in_code("LdConst"), "3:8: wanted a type, found the end of the line"),
    (in_code("MovLoc v"), "3:1: no instruction `MovLoc`; did you mean `MoveLoc`?"),
    (in_code("f()"), "3:1: no instruction `f`; a function is called by `Call f`, with its arguments on the stack"),
    (in_code("a: Nop", "a: Nop"), "4:1: a second label `a`; give one of them another name"),
    (in_code("4: Nop"), "3:1: this is instruction 0; write `0:`, or leave the number out"),
    (in_code("a:"), "3:1: no instruction follows the label `a`; write an instruction after it, as `Ret`"),
    (in_code("Nop", "let x: u64"), "4:1: a local is declared after an instruction; write each `let` before the first instruction"),
    (in_code("x = 1"),
     "3:3: nothing is assigned with `=`; a local gets its value from instructions, as `LdU64 1` and `StLoc x` for `x = 1`; a "
     "`let` has a name and a type alone"),
    (in_code("7"), "3:1: wanted an instruction, a label or `}`, found `7`"),
    (in_code("return"), "3:1: no instruction `return`; write `Ret`, with the results on the stack"),
    (in_code("MutBorrowField Coin"), "3:16: `Coin` is no field; write the struct and the field, as `Coin.value`"),
    (in_code("MutBorrowField 7"), "3:16: wanted a struct's field as `Coin.value`, found `7`"),
    (in_code("Call f(u8"), "4:1: wanted `,` or `)`, found `}`"),
    (in_code("Branch"), "3:7: wanted a label, found the end of the line"),
]
TABLES: Rows = [
    (in_module("tables { 7 }"), "2:10: wanted a table's name or `}`, found `7`"),
    (in_module("tables { structures { } }"), "2:10: no table `structures`; did you mean `structs`?"),
    (in_module("tables { addresses { }; addresses { } }"), "2:25: a second table `addresses`"),
    (in_module("tables { addresses { 0x1"), "2:8: this `{` isn't closed; write `}` where its block ends"),
    (in_module("tables { constants { #3 } }"), "2:22: wanted a value, or a type and bytes"),
    (in_module("tables { fields { #3 } }"), "2:19: wanted a struct and a field, as `Coin.value`"),
    (in_module("tables { functions { f 7 } }"), "2:24: wanted `(`, found `7`"),
    (in_module("tables { identifiers { 7 } }"), "2:24: wanted an identifier, found `7`"),
]
RECORDS: Rows = [
    ("publsh by 0x1 { }",
     "1:1: wanted `module`, `publish`, `run`, `show`, `audit`, `record` or `bytes`, found `publsh`; did you mean `publish`?"),
    ("show; module 0x1::M { }", "1:7: wanted `publish`, `run`, `show`, `audit`, `record` or `bytes`, found `module`"),
    ("ledger", "1:1: a saved ledger isn't made from a text; `moveledger apply --save` writes one"),
    ("publish 0x1 { }", "1:9: wanted `by`, found `0x1`"),
    ("publish by 0x1 { }", "1:1: a bundle has at least one module; write `module ADDRESS::NAME { .. }` within the braces"),
    ("publish by 0x1 { show }", "1:18: wanted `module` or `}`, found `show`"),
    ("publish by 0x1 {" + 17 * ' module x""\n' + "}",
     "17:2: a bundle has at most 16 modules; publish the others in a record after it"),
    ('publish by 0x1 { module x"" certificate 7 }', '1:41: wanted bytes as `x"0100"`, a file\'s name or `prove`, found `7`'),
    ("run 0x1::M::f(7) by 0x2 budget 1", "1:15: `7` has no type; write `7u64`"),
    ("run 0x1::M::f(x) by 0x2 budget 1", "1:15: wanted a value as `7u64`, `true` or `@0x1`, found `x`"),
    ("run 0x1::`a b`::f() by 0x2 budget 1", "1:10: `a b` is no identifier"),
    ("run 0x1::M::f() by 0x2",
     "1:23: wanted `budget`, found the end of the line; write how many steps it may take, as `budget 1000`"),
    ("run 0x1::M::f() by 0x2 budget -1", f"1:31: {NEGATIVE}"),
    ("run 0x1::M::f() by 0x2 budget x", "1:31: wanted a number of steps, found `x`"),
    (f"run 0x1::M::f({', '.join(17 * ['true'])}) by 0x2 budget 1", "1:1: a run has at most 16 arguments, and this one has 17"),
    ("show text", "1:6: wanted the end of the line, found `text`"),
    ("show }", "1:6: this `}` closes no block; take it out, or write the `{` before it"),
    ("record x", "1:8: wanted a record's kind, found `x`"),
    ('record 256 x""', "1:8: `256` is too great: it is at most 255"),
    ("record 1", '1:9: wanted a payload as `x"01"`, found the end of the line'),
    ("bytes 1", '1:7: wanted bytes as `x"01"`, found `1`'),
    ('bytes x"1"', '1:7: these are no bytes; bytes are pairs of hexadecimal digits, as `x"01 ff"`'),
]


def told(text: str) -> str:
    """The first error of a text: its line, its column, its message, and what to write."""
    try:
        parse(text)
    except TextError as error:
        line, column = Source("text", text).place(error.at)
        return f"{line}:{column}: {error.message}" + (f"; {error.help}" if error.help else "")
    return "no error"


class Errors(unittest.TestCase):
    def test_each_error_is_told_at_its_place(self) -> None:
        for rows in (WORDS, MODULES, CODE, TABLES, RECORDS):
            for text, wanted in rows:
                with self.subTest(text):
                    self.assertEqual(told(text), wanted)

    def test_a_module_beyond_the_limits_is_read_where_they_are_not_kept(self) -> None:
        rows = [
            (in_module("struct S {", *(f"f{place}: u64" for place in range(33)), "}"),
     "35:1: a struct has at most 32 fields; put some into another struct, which is a field here"),
            (in_module(*(f"f{place}() {{ Ret }}" for place in range(257))),
     "258:1: a module has at most 256 functions; put some into another module"),
            (in_code(*4097 * ["Nop"]), "4099:1: a function has at most 4,096 instructions; move a part into another function"),
        ]
        for text, wanted in rows:
            self.assertEqual(told(text), wanted)
            parse(text, keeps_limits=False)


class Trees(unittest.TestCase):
    def test_a_module_has_its_items(self) -> None:
        tree = parse("module 0x1::M version 6 { import 0x2::N as O { struct P has key; g(u8): bool }; struct S has copy { a: u64 }\n"
                     "public entry f(x: u64): u64 acquires S { let y: u8; here: MoveLoc x; Ret } }")
        assert isinstance(tree, Module)
        self.assertEqual((tree.version, tree.name.address, tree.name.name), (6, bytes(15) + b"\1", Name("M", 12)))
        self.assertEqual((len(tree.imports[0].structs), len(tree.imports[0].functions), len(tree.structs)), (1, 1, 1))
        function = tree.functions[0]
        self.assertEqual((function.is_public, function.is_entry, function.labels), (True, True, {"here": 0}))
        self.assertEqual([line.opcode.name for line in function.code], ["MoveLoc", "Ret"])
        self.assertEqual([one.name.text for one in function.parameters + function.locals], ["x", "y"])

    def test_indices_stand_in_place_of_names(self) -> None:
        tree = parse("module #1::#2 { struct #0 { #3: #4 }; #5 locals #6 { Call #7 } }")
        assert isinstance(tree, Module)
        self.assertEqual((tree.name.address, tree.name.name), (Index(1, 7), Index(2, 11)))
        self.assertEqual(tree.functions[0].locals_index, Index(6, 48))
        self.assertEqual(tree.functions[0].code[0].operand, Path(None, Index(7, 58), 58))

    def test_a_stream_has_its_records(self) -> None:
        tree = parse('publish by 0x1 { module x"00" certificate prove; module "a.text" }\n'
                     'run 0x1::M::f(7u64) by 0x2 budget 100; show; audit json; record 9 x"01"; bytes x"ff"')
        assert isinstance(tree, Stream)
        self.assertEqual([type(one) for one in tree.records], [Publish, Run, Ask, Ask, Raw, Raw])
        run = tree.records[1]
        assert isinstance(run, Run)
        self.assertEqual((run.arguments, run.budget, run.sender), ([Value(U64, 7)], 100, bytes(15) + b"\2"))
