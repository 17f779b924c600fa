"""What is made at random: that it is what it is said to be, and that over a few hundred each kind of thing comes."""

import random
import unittest
from collections import Counter
from typing import Dict, List, Optional, Set

from movetext import model
from movetext.disassembler import MODULE, disassemble
from movetext.explain.verdict import explain_module
from movetext.ledgers import read_ledger
from movetext.limits import INDEX
from movetext.model import Audit, Module, Publish, RawRecord, Run, Show
from movetext.opcodes import OPCODES
from movetext.printer import OTHER_ORDER
from movetext.random_borrows import CALLS, LOCALS, random_borrowing_text
from movetext.random_code import BEGINNING, CLEARING, ON_NUMBER, ON_TOP, random_typed_module
from movetext.random_modules import LEAVES, ODD_NAMES, random_ledger, random_module, random_name, random_stream, random_value
from movetext.reader import read_module
from movetext.records import read_stream
from movetext.streaming import assemble
from movetext.writer import write_ledger, write_module, write_stream

COUNT = 150
ALL = {one.name for one in OPCODES}


def names_in(modules: List[Module]) -> Set[str]:
    """The instructions of modules."""
    return {it.name for module in modules for function in module.functions for it in function.code}


def kinds_in(modules: List[Module]) -> Set[int]:
    """The kinds of types in modules' signatures."""
    return {token.kind for module in modules for types in module.signatures for token in types}


class Modules(unittest.TestCase):
    def test_names_and_values(self) -> None:
        draw = random.Random("names")
        names = [random_name(draw) for _ in range(2_000)]
        self.assertTrue(all(name.isidentifier() and name != "_" and len(name) < 122 for name in names))
        self.assertEqual({len(name) for name in names} & {1, 2, 4, 7}, {1, 2, 4, 7})
        self.assertGreater(sum(len(name) > 8 for name in names), 20)
        self.assertLess(sum(name.startswith("_") for name in names), 200)
        wild = [random_name(draw, True) for _ in range(1_000)]
        self.assertTrue(200 < sum(name in ODD_NAMES for name in wild) < 400)
        self.assertTrue(set(ODD_NAMES) <= set(wild))
        for kind in LEAVES:
            values = [random_value(draw, kind) for _ in range(60)]
            if kind == model.BOOL:
                self.assertEqual(set(values), {True, False})
            elif kind == model.ADDRESS:
                self.assertTrue(all(isinstance(it, bytes) and len(it) == 16 for it in values))
                self.assertTrue({number.to_bytes(16, "big") for number in range(1, 9)} & set(values))
            else:
                most = (1 << 8 * model.LEAF_WIDTHS[kind]) - 1
                self.assertTrue({0, 1, most} <= set(values))
                self.assertTrue(all(isinstance(it, int) and 0 <= it <= most for it in values))

    def test_tame_modules_name_only_what_there_is(self) -> None:
        draw = random.Random("tame")
        modules = [random_module(draw) for _ in range(COUNT)]
        for module in modules:
            reading = read_module(write_module(module))
            self.assertEqual((reading.is_module, reading.faults, reading.module), (True, [], module))
            self.check_bounds(module)
            for kind in (model.IDENTIFIERS, model.ADDRESSES, model.MODULE_HANDLES, model.SIGNATURES, model.CONSTANTS):
                table = module.table(kind)
                self.assertEqual(len(set(table)), len(table))
            for struct in module.structs:
                self.assertEqual(len({one.name for one in struct.fields}), len(struct.fields))
        self.assertEqual((names_in(modules), {one.version for one in modules}), (ALL, {5, 6}))
        self.assertEqual(kinds_in(modules), {*model.LEAF_NAMES, model.STRUCT, model.REFERENCE, model.MUTABLE})
        self.assertEqual({len(one.module_handles) for one in modules}, {1, 2, 3, 4})
        self.assertEqual({len(one.structs) for one in modules}, set(range(5)))
        self.assertEqual({len(one.functions) for one in modules}, set(range(5)))
        self.assertEqual({len(it.fields) for one in modules for it in one.structs}, set(range(5)))
        self.assertEqual({len(it.acquires) for one in modules for it in one.functions}, {0, 1, 2})
        self.assertEqual({(it.is_public, it.is_entry) for one in modules for it in one.functions},
                         {(left, right) for left in (False, True) for right in (False, True)})
        self.assertEqual({it.abilities for one in modules for it in one.struct_handles}, set(range(16)))
        self.assertTrue(10 < max(len(it.code) for one in modules for it in one.functions) <= 40)
        late = {it.name for it in OPCODES if it.version == 6}
        self.assertFalse(late & names_in([one for one in modules if one.version == 5]))
        self.assertFalse(set(model.LATE_KINDS) & kinds_in([one for one in modules if one.version == 5]))

    def check_bounds(self, module: Module) -> None:
        for function in module.functions:
            self.assertTrue(all(at < len(module.structs) for at in function.acquires))
            for it in function.code:
                if it.opcode.is_branch:
                    self.assertLess(it.operand, max(len(function.code), 41))
        for handle in module.struct_handles:
            self.assertLess(handle.module, len(module.module_handles))
        own = [handle for handle in module.struct_handles if handle.module == module.own]
        self.assertEqual((len(own), module.own), (len(module.structs), 0))

    def test_wild_modules_name_what_there_is_not(self) -> None:
        draw = random.Random("wild")
        modules = [random_module(draw, True) for _ in range(COUNT)]
        whole = [read_module(write_module(module)) for module in modules]
        self.assertTrue(COUNT // 3 < sum(explain_module(write_module(it)).failure is not None for it in modules))
        self.assertTrue(any(it.is_module for it in whole))
        self.assertTrue(any(it.operand == INDEX for module in modules for one in module.functions for it in one.code))
        self.assertTrue(any(module.own != 0 for module in modules))
        self.assertTrue(any(len(set(module.identifiers)) < len(module.identifiers) for module in modules))
        self.assertTrue({name for module in modules for name in module.identifiers} & set(ODD_NAMES))
        sizes = [sum(len(it.code) for it in random_module(draw, size=size).functions) for size in (1, 20)]
        self.assertGreater(sizes[1], sizes[0])


    def test_what_is_printed_of_any_module_makes_its_bytes(self) -> None:
        draw = random.Random("printed")
        others = 0
        for number in range(90):
            data = write_module(random_module(draw, number % 3 > 0))
            reading, text = read_module(data), disassemble(data, MODULE).text
            again = assemble(text)
            self.assertEqual(disassemble(again, MODULE).text.replace(OTHER_ORDER + "\n", ""), text.replace(OTHER_ORDER + "\n", ""))
            self.assertEqual(text.startswith(OTHER_ORDER), reading.is_module and not reading.is_in_order)
            if text.startswith(OTHER_ORDER):
                others += 1
            else:
                self.assertEqual(again, data)
        self.assertLess(others, 45)


class Typed(unittest.TestCase):
    def test_most_pass_where_nothing_is_wrong(self) -> None:
        draw = random.Random("typed")
        modules: List[Module] = []
        for number in range(COUNT):
            modules.append(random_typed_module(draw, (bytes(15) + bytes([number]), "M"), modules[-2:]))
        failures = [explain_module(write_module(it)).failure for it in modules]
        verdicts: Dict[Optional[int], int] = Counter(failure.phase if failure else 0 for failure in failures)
        self.assertGreater(verdicts[0], COUNT // 3)
        # A module of version 5 that imports a type of version 6 is refused in phase 2.
        self.assertTrue({phase for phase in verdicts if phase and phase < 10} <= {2}, verdicts)
        used = names_in(modules)
        tried = {one.name for opcodes in [BEGINNING, ON_NUMBER, CLEARING, *ON_TOP.values()] for one in opcodes}
        self.assertLess(len(tried - used), 8, tried - used)
        self.assertTrue(any(len(module.module_handles) > 1 for module in modules))
        self.assertTrue(any(handle.module for module in modules for handle in module.function_handles))
        self.assertTrue(any(handle.module for module in modules for handle in module.struct_handles))
        sizes = {len(it.code) for module in modules for it in module.functions}
        self.assertTrue(max(sizes) > 40 and min(sizes) < 4, sizes)

    def test_errors_and_needs_are_told(self) -> None:
        draw = random.Random("wrong")
        found: Dict[Optional[int], int] = Counter()
        for number in range(COUNT):
            module = random_typed_module(draw, (bytes(16), "M"), errors=0.1, needs=0.2 if number % 2 else 0)
            failure = explain_module(write_module(module)).failure
            found[failure.phase if failure else 0] += 1
        self.assertTrue({0, 10, 11, 12} <= set(found), found)

    def test_texts_that_borrow_much(self) -> None:
        draw = random.Random("borrows")
        texts = [random_borrowing_text(draw, f"B{number}") for number in range(COUNT)]
        passed = 0
        for text in texts:
            failure = explain_module(assemble(text)).failure
            self.assertTrue(failure is None or failure.phase in (10, 11), failure)
            passed += failure is None
        self.assertTrue(COUNT // 8 < passed < COUNT, passed)
        whole = "\n".join(texts)
        called = {name for calls in CALLS.values() for name, _ in calls} | {"take"}
        for word in [*(f"Call {name}" for name in called), *(f"CopyLoc {name}" for name in LOCALS), "BrTrue on", "BrFalse on",
                     "MutBorrowGlobal Q", "ImmBorrowGlobal Q", "MutBorrowField Q.p", "ImmBorrowField P.a", "FreezeRef", "WriteRef",
                     "ReadRef", "MoveTo Q"]:
            self.assertIn(word, whole)


class Streams(unittest.TestCase):
    def test_records_of_each_kind(self) -> None:
        draw = random.Random("streams")
        kinds: Dict[type, int] = Counter()
        rests: Set[bytes] = set()
        for _ in range(COUNT):
            stream = random_stream(draw)
            reading = read_stream(write_stream(stream))
            self.assertEqual((len(reading.stream.records), reading.stream.rest), (len(stream.records), stream.rest))
            self.assertLess(len(stream.records), 6)
            rests.add(stream.rest)
            for it in stream.records:
                kinds[type(it)] += 1
                if isinstance(it, Publish):
                    self.assertIn(len(it.offers), (1, 2, 3))
                if isinstance(it, Run):
                    self.assertIn(it.budget, (0, 1, 100, 2 ** 64 - 1))
        self.assertEqual((set(kinds), rests), ({Publish, Run, Show, Audit, RawRecord}, {b"", b"\x01\x7f"}))
        self.assertGreater(min(kinds[Publish], kinds[Run]), kinds[RawRecord])

    def test_saved_ledgers_come_back(self) -> None:
        draw = random.Random("ledgers")
        forms: Dict[int, int] = Counter()
        counts: Dict[int, int] = Counter()
        for _ in range(COUNT):
            ledger = random_ledger(draw)
            reading = read_ledger(write_ledger(ledger))
            assert reading is not None
            forms[ledger.form] += 1
            counts[len(ledger.offers)] += 1
            if not reading.faults:
                self.assertEqual(reading.ledger, ledger)
            counts[100] += bool(ledger.stored and not reading.faults)
        self.assertTrue(min(forms[1], forms[2]) > COUNT // 4 and counts[100] > 10, (forms, counts))
        self.assertEqual(set(counts), {0, 1, 2, 3, 100})
