"""The page on which one walks through a module: what it tells of each instruction, where a refused module stops, and that nothing in
it is taken for anything else than text."""

import json
import random
import re
import textwrap
import unittest
from html.parser import HTMLParser
from typing import Any, Dict, List, Optional, Tuple

from movetext import model
from movetext.explain.failures import Fails
from movetext.explain.pictures import NoPicture, availabilities_before, edges_before, flows_of
from movetext.explain.stack import stacks_of
from movetext.explain.subject import Subject
from movetext.explain.verdict import explain_module
from movetext.html import escaped
from movetext.pages import Shown, of_module, of_stream, whole_page
from movetext.random_borrows import random_borrowing_text
from movetext.random_code import random_typed_module
from movetext.reader import read_module
from movetext.samples import altered, modules_in
from movetext.source_names import FunctionNames, ModuleNames, NameTable
from movetext.streaming import assemble
from movetext.walks import MOST_EDGES
from movetext.writer import write_module

from . import TOP

LEAST_INSTRUCTIONS = 400
ODD = "</script><script>alert(1)</script><img src=x onerror=alert(2)>&amp;\"'`\u202e\x1b[2J\ud800"


class Tags(HTMLParser):
    """The tags of a page, with their attributes."""

    def __init__(self) -> None:
        super().__init__()
        self.found: List[Tuple[str, Dict[str, Optional[str]]]] = []

    def handle_starttag(self, tag: str, attrs: List[Tuple[str, Optional[str]]]) -> None:
        self.found.append((tag, dict(attrs)))


def tags(page: str) -> List[Tuple[str, Dict[str, Optional[str]]]]:
    reader = Tags()
    reader.feed(page)
    return reader.found


def told(page: str) -> Dict[str, Any]:
    """What the page's script is told."""
    found = re.search(r'<script type="application/json" id="data">(.*?)</script>', page, re.S)
    assert found
    made: Dict[str, Any] = json.loads(found[1])
    return made


def modules() -> List[bytes]:
    streams = [path.read_bytes() for path in sorted((TOP / "examples").glob("*.stream"))]
    return list(dict.fromkeys(module for stream in streams for module, _ in modules_in(stream)))


def refusals() -> List[bytes]:
    """The modules and streams of docs/REFUSALS.md."""
    text = (TOP / "docs/REFUSALS.md").read_text(encoding="utf-8")
    found = re.findall(r"^( {4}.*\n(?:(?: {4}.*)?\n)*)```\n(?:(?!```).*\n)*```\n", text, re.M)
    return [assemble(textwrap.dedent(one)) for one in found]


class Walks(unittest.TestCase):
    def test_what_holds_before_each_instruction_is_what_the_pictures_and_the_phases_say(self) -> None:
        draw = random.Random("pages")
        every = modules() + [assemble(random_borrowing_text(draw, f"B{at}")) for at in range(20)]
        count = 0
        for data in every:
            verdict = explain_module(data)
            if verdict.failure is None:
                (module,) = told(whole_page(of_module(data, None, None), "it"))["modules"]
                for function, one in enumerate(module["functions"]):
                    count += self.check(verdict.subject, function, one)
        self.assertGreater(count, LEAST_INSTRUCTIONS)

    def check(self, subject: Subject, function: int, one: Dict[str, Any]) -> int:
        """Compares a function, and answers how many instructions it has."""
        flows = flows_of(subject, function, None)
        graph = subject.graph(function)
        for at, (stack, held, edges, many) in enumerate(one["before"]):
            block = next(index for index, it in enumerate(graph) if it.first <= at <= it.last)
            self.assertEqual([one["types"][it] for it in stack], [subject.type(it) for it in stacks_of(subject, function)[at]])
            if not graph[block].is_reached:
                self.assertEqual((held, edges), (None, None))
                continue
            wanted = edges_before(subject, function, at, flows)
            self.assertEqual(many, len(wanted))
            self.assertEqual([tuple(one["edges"][it][:4]) for it in edges], [(*it.source, *it.target) for it in sorted(wanted)][:MOST_EDGES])
            self.assertEqual(held, "".join(map(str, availabilities_before(subject, function, at, flows))))
        self.assertEqual(one["wrong"], {})
        return len(one["before"])

    def test_where_a_refused_module_stops(self) -> None:
        stops = count = 0
        for data in refusals():
            if data[:4] != model.MAGIC:
                continue
            failure = explain_module(data).failure
            if failure is None:
                continue
            count += 1
            page = whole_page(of_module(data, None, None), "it")
            self.assertIn(escaped(failure.named_verdict), page)
            self.assertIn(escaped(failure.sentence[:600]), page)
            if failure.place.instruction is not None:
                stops += 1
                stop = told(page)["stop"]
                self.assertEqual(stop, f"m0f{failure.place.function}i{failure.place.instruction}")
                self.assertIn(f'<div class="row at bad" id="{stop}"', page)
                self.assertTrue(told(page)["modules"][0]["functions"][failure.place.function]["wrong"][str(failure.place.instruction)])
        self.assertGreater(count, 40)
        self.assertGreater(stops, 20)

    def test_a_function_that_is_wrong_is_gone_through_to_its_end(self) -> None:
        data = assemble_refused("""
            both(on: bool): u64 {
                let a: u64
                CopyLoc a
                Pop
                LdU64 1; StLoc a
                LdTrue; Pop
                MoveLoc a
                Ret
            }""")
        (module,) = told(whole_page(of_module(data, None, None), "it"))["modules"]
        one = module["functions"][0]
        self.assertEqual([at for at in one["wrong"]], ["0"])
        self.assertEqual([held for _, held, _, _ in one["before"]], ["10", "10", "10", "10", "11", "11", "11", "10"])

    def test_where_the_stack_is_wrong_it_is_known_as_far_as_that(self) -> None:
        data = assemble_refused("f() { LdU64 1; LdTrue; Add; Pop; Ret }")
        page = whole_page(of_module(data, None, None), "it")
        one = told(page)["modules"][0]["functions"][0]
        self.assertEqual([stack if stack is None else [one["types"][it] for it in stack] for stack, _, _, _ in one["before"]],
                         [[], ["u64"], ["u64", "bool"], None, None])
        self.assertEqual(told(page)["stop"], "m0f0i2")

    def test_a_stream_has_each_module_with_its_verdict(self) -> None:
        shown = of_stream((TOP / "examples/upgrade.stream").read_bytes(), None)
        self.assertEqual([(one.title, one.verdict) for one in shown], [
            ("record 1: module 0x1::M", "is published"), ("record 5: module 0x1::M", "is published"),
            ("record 8: module 0x1::M", "refused 13 (link)")])
        self.assertIn("refused 13 (link)", whole_page(shown, "it"))

    def test_any_bytes_have_a_page(self) -> None:
        draw = random.Random("altered pages")
        bases = modules() + [write_module(random_typed_module(draw, (bytes(16), "M"), errors=0.02, needs=0.3)) for _ in range(20)] + refusals()
        for number in range(250):
            data = draw.choice(bases)
            for _ in range(draw.choice((0, 1, 1, 2))):
                data = altered(draw, data)
            with self.subTest(number, data=data.hex()):
                self.check_page(whole_page(of_module(data, draw.choice((None, b"", b"\1\1\1")), None), "it"))
                self.check_page(whole_page(of_stream(data, None), "it"))
        self.assertIn("There is no module", whole_page(of_stream(b"", None), "it"))

    def check_page(self, page: str) -> None:
        """A page can be encoded, its parts are told of, and nothing of it comes from elsewhere."""
        page.encode("utf-8")
        told(page)
        for tag, attributes in tags(page):
            self.assertIn(tag, PAGE_TAGS)
            self.assertFalse({"src", "onload", "onerror", "onclick", "srcset", "action"} & set(attributes), tag)
            self.assertTrue((attributes.get("href") or "#").startswith("#"))

    def test_names_are_text_whatever_stands_in_them(self) -> None:
        data = (TOP / "examples/owner.stream").read_bytes()
        (module, _), = modules_in(data)
        read = read_module(module).module
        names = NameTable()
        functions = []
        for one in read.functions:
            locals_ = [f"{ODD}{at}" for at in range(len(model.known(read.local_types(one))))]
            functions.append(FunctionNames((1, 1), locals_, {0: [ODD]}, [(1, 1)] * len(one.code)))
        names.add(module, ModuleNames(ODD, (1, 1), {}, functions))
        refused = module[:-1] + b"\x15"
        names.add(refused, ModuleNames(ODD, (1, 1), {}, functions))
        for shown in (of_stream(data, names), of_module(module, None, names), of_module(refused, None, names), odd_titles(module)):
            page = whole_page(shown, ODD)
            self.check_page(page)
            self.assertNotIn("<img", page)
            self.assertNotIn("alert(1)</script>", page)
            self.assertNotIn("\u202e", page)
            self.assertNotIn("\x1b", page)

    def test_rows_have_the_lines_of_the_text(self) -> None:
        data = (TOP / "examples/owner.stream").read_bytes()
        (module, _), = modules_in(data)
        functions = []
        for number, one in enumerate(read_module(module).module.functions):
            functions.append(FunctionNames((1, 1), [], {}, [(100 * number + at, 1) for at in range(len(one.code) - (number == 1))]))
        names = NameTable()
        names.add(module, ModuleNames("it", (1, 1), {}, functions))
        page = whole_page(of_module(module, None, names), "it")
        for number, at in (0, 0), (0, 1), (2, 3):
            self.assertRegex(page, f'id="m0f{number}i{at}"[^>]* title="line {100 * number + at}"')
        self.assertNotIn("title=", whole_page(of_module(module, None, None), "it").partition("<main")[2])

    def test_edges_of_a_page_are_bounded(self) -> None:
        front = "module 0x1::V { f(" + ", ".join(f"p{at}: bool" for at in range(8)) + ") {\n"
        lets = "".join(f"let r{at}: &bool\n" for at in range(40))
        code = [f"ImmBorrowLoc p{at % 8}; StLoc r{at}" for at in range(40)] * 3 + ["Ret"]
        data = assemble(front + lets + "\n".join(code) + "\n} }")
        one = told(whole_page(of_module(data, None, None), "it"))["modules"][0]["functions"][0]
        self.assertEqual((len(one["before"][-1][2]), one["before"][-1][3]), (40, 40))
        self.assertLess(MOST_EDGES, 64)


PAGE_TAGS = {"html", "head", "meta", "title", "style", "body", "h1", "h2", "h3", "p", "div", "pre", "span", "a", "nav", "main", "section", "svg",
             "path", "script", "strong", "br"}


def odd_titles(module: bytes) -> List[Shown]:
    """A module with odd words where a page has words of its own."""
    subject = Subject(read_module(module))
    try:
        subject.fail(11, subject.instruction(0, 1), ODD, ODD, [ODD] * 3)
    except Fails as fails:
        return [Shown(ODD, ODD, subject, fails.failure)]
    raise NoPicture("it fails")


def assemble_refused(functions: str) -> bytes:
    """The bytes of a module with these functions, whatever the phases say of it."""
    return assemble("module 0x1::M {\n" + functions + "\n}\n")
