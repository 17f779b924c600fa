"""movetest: what its files say, which reports are those that are wanted, where the program differs, and what was run how often."""

import os
import re
import stat
import subprocess
import sys
import tempfile
import unittest
from pathlib import Path
from typing import List, Tuple

from movetext.cases import Case, Step, Wanted, read_cases, separated
from movetext.coverage import Counts, listing, merged, short_lines, summary, whole_lines
from movetext.coverage_page import coverage_page
from movetext.errors import Source, TextErrors
from movetext.explain.answers import Answer
from movetext.streaming import assemble
from movetext.trials import Program, Result, Trial, are_wanted, full, is_wanted, told

from . import TOP

COIN = """\
publish by 0x1 {
    module 0x1::M {
        struct Coin has key { v: u64 }
        public entry mint(s: signer, v: u64) {
            Nop
            CopyLoc v
            LdU64 9
            Lt
            BrTrue fine
            LdU64 3; Abort
        fine:
            ImmBorrowLoc s; MoveLoc v; Pack Coin; MoveTo Coin
            Ret
        }
        entry never() { Ret }
    }
}
"""


def results(text: str, wanted: str = "", program: Program = Program(None), counts: "Counts | None" = None) -> Tuple[Trial, List[Result]]:
    trial = Trial("my.test", text.encode(), counts or Counts(), program)
    return trial, list(trial.results(wanted))


def problems(text: str, wanted: str = "", program: Program = Program(None)) -> List[str]:
    """What isn't as wanted, the first line of each."""
    trial, found = results(text, wanted, program)
    return [told(trial.source, one)[0] for result in found for one in result.problems]


def errors(text: str) -> List[str]:
    try:
        results(text)
    except TextErrors as found:
        return [line for line in found.lines() if line.startswith("my.test:")]
    return []


def said(words: str) -> Answer:
    return Answer(1, "run", words.split("; "))


class Language(unittest.TestCase):
    def test_what_is_wanted_is_told_from_the_text(self) -> None:
        text = 'show => end 0; .. // all\n/* => no */ "=> no" `=> no` x"=>" audit\n    => "my.report"  \n'
        plain, lines = separated(text)
        self.assertEqual((len(plain), plain.count("\n")), (len(text), text.count("\n")))
        self.assertEqual([(one.text, text[one.at:one.at + len(one.text)]) for one in lines],
                         [("end 0", "end 0"), ("..", ".."), ('"my.report"', '"my.report"')])
        self.assertNotIn("=>", re.sub(r'/\*.*?\*/|"[^"]*"|`[^`]*`', "", plain))

    def test_cases_and_what_they_begin_with(self) -> None:
        found, _ = read_cases(Source("my.test", 'show\ncase "a"\nshow => end 0\nthen "b"\naudit\n\ncase "c"\n'))
        self.assertEqual(len(found.first), 1)
        self.assertEqual([(one.title, one.goes_on, len(one.steps)) for one in found.cases], [("a", False, 1), ("b", True, 1), ("c", False, 0)])

    def test_errors_of_a_test_file_are_told_at_their_places(self) -> None:
        for text, wanted in (
                ("show\n", "my.test:2:1: error: a test file has a case: `case \"what it shows\"`"),
                ('cas "a"\n', "my.test:1:1: error: wanted `case`, `then`, `records`, `load`, `publish`, `run`, `show`, `audit` or `record`, found "
                 "`cas`"),
                ('load "/no/such"\ncase "a"', "my.test:1:1: error: `/no/such` can't be read: No such file or directory"),
                ('show\nload "x"\ncase "a"', "my.test:2:1: error: a ledger is loaded where a case begins, before any record"),
                ('show\ncase "a"\nload "x"', "my.test:3:1: error: a ledger is loaded where a case begins, before any record"),
                ('case "a"\nthen "b"\nload "x"', "my.test:3:1: error: a ledger is loaded where a case begins, before any record"),
                ('then "a"\n', "my.test:1:1: error: `then` goes on from a case, and there is none before it"),
                ('case a\n', 'my.test:1:6: error: wanted what the case shows, as `"who mints"`, found `a`'),
                ('case "a"\ncase "a"\n', 'my.test:2:1: error: a second case "a"'),
                ('case "a" => end 0\nshow', "my.test:1:13: error: `=>` stands after a record, with the report that is wanted"),
                ('case "a"\nshow\ncase "b" => end', "my.test:3:13: error: `=>` stands after a record, with the report that is wanted"),
                ('case "a"\nshow => retuned', "my.test:2:9: error: no line of a report begins with `retuned`"),
                ('case "a"\nshow => "my.report"', 'my.test:2:9: error: a report in a file is wanted for the records of a file, as '
                 '`records "my.text" => "my.report"`'),
                ('case "a"\nshow\nload "x"', "my.test:3:1: error: a ledger is loaded where a case begins, before any record"),
                ('case "a"\nrun 0x1::M::f( => returned\n) by 0x1 budget 3',
                 "my.test:2:19: error: `=>` stands after the whole record, with the report that is wanted"),
                ('case "a"\nbytes x"01"', 'my.test:2:1: error: a test has records, and no bytes outside of them: `record 9 x"01"` is a record of any '
                 'kind'),
                ('case "a"\nrecords "/no/such"', "my.test:2:1: error: `/no/such` can't be read: No such file or directory"),
                ('case "a"\nload "/no/such"', "my.test:2:1: error: `/no/such` can't be read: No such file or directory"),
                ('case "a"\nrecords "' + str(TOP / "examples/coin.text") + '"', None)):
            found = errors(text)
            self.assertEqual(found, [wanted]) if wanted else self.assertIn("is one module", found[0])


class Reports(unittest.TestCase):
    def test_lines_are_wanted_by_their_first_words(self) -> None:
        for wanted, line, is_it in (
                ("returned", "returned 27", True), ("returned 27", "returned 27", True), ("returned 2", "returned 27", False),
                ("aborted code 3", "aborted code 3 9", True), ("aborted code", "aborted code 3 9", True),
                ("aborted code 3", "aborted code 31 9", False), ("aborted missing", "aborted code 3 9", False),
                ("at 0x2", "at 00000000000000000000000000000002 X {4}", True),
                ("at 0x2 0xA::M::C { 4, { @0x3 } }", f"at {2:032x} {10:032x}::M::C {{4,{{{3:032x}}}}}", True),
                ("at 0x2 0xA::M::C {5}", f"at {2:032x} {10:032x}::M::C {{4}}", False),
                ("refused 1", "refused 11", False), ("end", "end 2", True), ('json {"audit":[]}', 'json {"audit":[]}', True),
                ("aborted code 3 at 7", "aborted code 3 9", False)):
            self.assertEqual(is_wanted(wanted, line, None), is_it, (wanted, line))
        self.assertEqual(full("at 0x1 0x1::M::C {{1}, {2}}"), f"at {1:032x} {1:032x}::M::C {{{{1}},{{2}}}}")

    def test_two_dots_stand_for_any_lines(self) -> None:
        for wanted, lines, is_it in (
                ("..", "", True), ("..", "a; b", True), ("a; ..", "a; b; c", True), ("..; c", "a; b; c", True), ("..; b; ..", "a; b; c", True),
                ("a; ..; c", "a; c", True), ("a", "a; b", False), ("a; b", "a", False), ("..; b", "a; b; c", False), ("b; ..", "a; b", False),
                ("..; ..", "a", True), ("..; a; ..; a", "a", False)):
            found = [(line, said(line)) for line in lines.split("; ") if line]
            self.assertEqual(are_wanted(wanted.split("; "), found), is_it, (wanted, lines))

    def test_what_is_wanted_and_what_comes(self) -> None:
        run = "run 0x1::M::mint({}u64) by 0x1 budget 100"
        text = COIN + 'case "a"\n' + run.format(7) + " => returned\n" + run.format(12) + " => aborted code 3 at 10\n"
        self.assertEqual(problems(text), [])
        self.assertEqual(problems(text.replace("=> returned", "=> returned 3")), [
            "my.test:19:45: error: wanted `returned 3`, but `returned 10` came"])
        self.assertEqual(problems(text.replace("code 3 at 10", "code 3 at 11")), [
            "my.test:20:46: error: wanted `aborted code 3 at 11`, but `aborted code 3 7` came at my.test:10"])
        self.assertEqual(problems(text.replace("at 10", "at my.test:10")), [])
        self.assertEqual(problems(text.replace("at 10", "at other.test:10"))[0].split(": error: ", 1)[1],
                         "wanted `aborted code 3 at other.test:10`, but `aborted code 3 7` came at my.test:10")
        self.assertEqual(problems(text.replace(" => aborted code 3 at 10", "")), [
            "my.test:20:1: error: nothing else is wanted of it, so it has to succeed, but `aborted code 3 7` came"])
        self.assertEqual(problems(text + "show => at 0x1 0x1::M::Coin {7}; end 2\n"), ["my.test:21:9: error: the report is another one"])
        self.assertEqual(problems(text + "show => at 0x1 0x1::M::Coin {7}; end 1\nrecord 9 x\"\" => refused 1\n"), [])

    def test_a_module_is_refused_where_it_is_wrong(self) -> None:
        module = COIN.replace("LdU64 9", "MoveLoc v; LdU64 9")
        for text, wanted in ((module, "refused 8 at 9"), (COIN.replace("CopyLoc v", "MoveLoc v"), "refused 10 at 12"),
                             (COIN.replace("mint(s: signer, v: u64)", "mint(s: signer, v: u64) acquires Coin"), "refused 12 at 4"),
                             (COIN.replace("struct Coin has key", "struct Coin has copy"), "refused 8"),
                             (COIN.replace("by 0x1 {", "by 0x2 {"), "refused 13")):
            first, _, rest = text.rpartition("\n")
            self.assertEqual(problems(f'{first} => {wanted}\n{rest}case "a"\n'), [], wanted)
            self.assertEqual(len(problems(f'{text}case "a"\n')), 1, wanted)

    def test_a_case_has_a_ledger_of_its_own_unless_it_goes_on(self) -> None:
        run = "run 0x1::M::mint(7u64) by 0x1 budget 100"
        text = COIN + f'case "a"\n{run}\ncase "b"\n{run}\nthen "c"\n{run} => aborted exists\nthen "d"\nshow => ..; end 1\ncase "e"\nshow => end 0\n'
        self.assertEqual(problems(text), [])
        self.assertEqual(problems(text, "D"), [])
        trial, found = results(text, "d")
        self.assertEqual([one.case.title for one in found if one.case], ["d"])
        self.assertEqual(problems(text.replace('then "c"', 'case "c"'))[0].split(": error: ", 1)[1], "wanted `aborted exists`, but `returned 10` came")
        self.assertEqual(len(problems(text.replace("show => end 0", "show => end 1"), "c")), 0)

    def test_what_all_cases_begin_with_is_told_once(self) -> None:
        text = COIN + 'run 0x1::M::mint(70u64) by 0x1 budget 100\ncase "a"\ncase "b"\n'
        self.assertEqual(len(problems(text)), 1)


class Programs(unittest.TestCase):
    def program(self, folder: str, lines: str) -> Program:
        """A program that answers these lines, whatever it is given."""
        file = Path(folder, "program")
        file.write_text(f"#!/bin/sh\ncat <<'EOF'\n{lines}\nEOF\n")
        file.chmod(stat.S_IRWXU)
        return Program(str(file))

    def test_where_the_program_differs(self) -> None:
        text = COIN + 'case "a"\nrun 0x1::M::mint(7u64) by 0x1 budget 100\nthen "b"\nshow\n'
        shown = f"3 at {1:032x} {1:032x}::M::Coin {{7}}\n3 end 1"
        with tempfile.TemporaryDirectory() as folder:
            self.assertEqual(problems(text, "", self.program(folder, f"1 published 1\n2 returned 10\n{shown}")), [])
            self.assertEqual(problems(text, "", self.program(folder, f"1 published 1\n2 returned 9\n{shown}")), [
                "my.test:19:1: error: the program answers `returned 9`, and movetest `returned 10`: the program's verdict counts, and one of the two "
                "has a bug"])
            self.assertIn("answers nothing", problems(text, "", self.program(folder, "1 published 1\n2 returned 10"))[0])
            self.assertEqual(len(problems(text, "a", self.program(folder, "1 published 1\n2 returned 10"))), 0)

    def ended(self, *words: str) -> "subprocess.CompletedProcess[str]":
        return subprocess.run([sys.executable, str(TOP / "tools/movetest"), *words], stdout=subprocess.PIPE, stderr=subprocess.PIPE, text=True)

    def test_statuses(self) -> None:
        with tempfile.TemporaryDirectory() as folder:
            right, wrong, broken, loop = (Path(folder, f"{name}.test") for name in ("right", "wrong", "broken", "loop"))
            right.write_text('case "a"\nshow => end 0\n')
            wrong.write_text('case "a"\nshow => end 1\n')
            broken.write_bytes(b'case "\xff"\n')
            loop.write_text(COIN.replace("entry never() { Ret }", "entry never() {\n Branch 0\n}")
                            + 'case "a"\nrun 0x1::M::never() by 0x1 budget 10000000 => exhausted\n')
            rows: List[Tuple[List[object], int, str]] = [
                ([right], 0, "1 case as wanted"), ([right, wrong], 1, "1 wrong of 2 cases"), ([broken, wrong], 2, "isn't UTF-8"),
                ([right, Path(folder, "none")], 2, "can't be read"), ([folder], 2, "Is a directory"), ([], 2, "required"),
                (["--only", "b", right], 2, "no case's title has"), (["-"], 2, "a test file has a name"),
                (["--moveledger", "/no/such", right], 2, "can't be run"), (["--moveledger", "/bin/false", right], 2, "status 1"),
                (["--alone", "--moveledger", "x", right], 2, "--alone"), (["--seconds", "1", loop], 2, "not done within 1 second"),
                (["--page", "/no/such/page", right], 1, "fault: write")]
            for words, status, told_of in rows:
                alone = [] if "--moveledger" in words else ["--alone"]
                ended = self.ended(*alone, *map(str, words))
                self.assertEqual(ended.returncode, status, (words, ended.stdout, ended.stderr))
                self.assertIn(told_of, ended.stdout + ended.stderr)
                self.assertNotIn("Traceback", ended.stderr)

    def test_runs_are_printed_with_their_steps(self) -> None:
        ended = self.ended("--alone", "--runs", str(TOP / "examples/start.test"))
        self.assertIn("5  returned 5                run 0x1::Coins::mint(7u64) by 0x1 budget 100", ended.stdout)


class Coverage(unittest.TestCase):
    def counted(self, runs: str) -> "List[str]":
        counts = Counts()
        results(COIN + f'case "a"\n{runs}', counts=counts)
        (module,) = merged(counts)
        return [*short_lines([module]), *whole_lines(module, COIN.split("\n"))]

    def test_what_was_done_how_often(self) -> None:
        run = "run 0x1::M::mint({}u64) by 0x{} budget 100\n"
        lines = self.counted(run.format(7, 1) + run.format(8, 2))
        self.assertEqual(lines[:3], ["0x1::M (my.test): 10 of 13 instructions (76 %), 1 of 2 ways of branches (50 %)",
                                     "    never done: lines 10, 15", "    never taken: line 9: BrTrue never goes on"])
        self.assertIn("         2     9 |             BrTrue fine    <- BrTrue never goes on", lines)
        self.assertIn("         -    10 |             LdU64 3; Abort", lines)
        self.assertIn("               3 |         struct Coin has key { v: u64 }", lines)
        lines = self.counted(run.format(7, 1) + run.format(12, 2).strip() + " => aborted\n")
        self.assertEqual(lines[:2], ["0x1::M (my.test): 12 of 13 instructions (92 %), 2 of 2 ways of branches (100 %)", "    never done: line 15"])
        self.assertEqual(self.counted("")[0], "0x1::M (my.test): 0 of 13 instructions (0 %), 0 of 2 ways of branches (0 %)")

    def test_a_module_without_a_text(self) -> None:
        counts = Counts()
        stream = str(TOP / "examples/owner.stream")
        results(f'publish "{stream}"\ncase "a"\nrun 0x1::Coin::open() by 0x2 budget 9\n', counts=counts)
        (module,) = merged(counts)
        self.assertEqual(list(short_lines([module])), ["0x1::Coin: 5 of 61 instructions (8 %)",
                                                       "    never run: check, add, take, mint, pay, burn"])
        rows = list(listing(module, None))
        self.assertIn(("1", "4", [], "    Ret"), rows)
        self.assertEqual([row for row in rows if not row[0]][:2],
                         [("", "", [], "check(p0: &signer, p1: address) acquires Marker"), ("", "", [], "public entry open(p0: signer)")])

    def test_a_module_without_a_text_of_which_all_is_run(self) -> None:
        counts = Counts()
        data = assemble("publish by 0x1 { module 0x1::M { entry f() { Ret } } }")
        with tempfile.TemporaryDirectory() as folder:
            stream = Path(folder, "my.stream")
            stream.write_bytes(data)
            results(f'publish "{stream}"\ncase "a"\nrun 0x1::M::f() by 0x2 budget 9\n', counts=counts)
        (module,) = merged(counts)
        self.assertEqual(list(short_lines([module])), ["0x1::M: 1 of 1 instructions (100 %)"])
        page = coverage_page([(module, None)], "all")
        self.assertNotIn("None", page)
        self.assertIn("<td>1 of 1, 100 %</td><td>none</td>", page)
        self.assertIn('<tr class="yes"><td class="n">1</td><td class="n">0</td><td>    Ret</td></tr>', page)

    def test_a_page_tells_lines_that_were_done_from_others(self) -> None:
        counts = Counts()
        results(COIN + 'case "a"\nrun 0x1::M::mint(7u64) by 0x1 budget 100\n', counts=counts)
        (module,) = merged(counts)
        found = dict(re.findall(r'<tr class="(\w*)"><td class="n">([^<]*)</td>', coverage_page([(module, COIN.split("\n"))], "it")))
        self.assertEqual(found, {"": "", "yes": "1", "part": "1", "no": "0"})
        kinds = re.findall(r'<tr class="(\w*)"><td class="n">[^<]*</td><td class="n">(\d+)</td>', coverage_page([(module, COIN.split("\n"))], "it"))
        self.assertEqual([int(line) for kind, line in kinds if kind == "no"], [10, 15])
        self.assertEqual([int(line) for kind, line in kinds if kind == "part"], [9])

    def test_a_page_of_it_has_nothing_that_is_not_escaped(self) -> None:
        counts = Counts()
        trial = Trial("my.test", (COIN.replace("CopyLoc v", "CopyLoc v // <script>alert(1)</script>") + 'case "a"\n').encode(), counts,
                      Program(None))
        list(trial.results(""))
        (module,) = merged(counts)
        odd = 'a<b>"\'&\x1b[2J\u202e\ud800'
        page = coverage_page([(module, trial.source.text.split("\n")), (module, [odd] * 9), (module, None)], odd)
        self.assertNotIn("<script", page)
        self.assertIn("&lt;script&gt;alert(1)", page)
        self.assertIn("a&lt;b&gt;&quot;&#x27;&amp;\\u001b[2J\\u202e\\ud800", page)
        page.encode("utf-8")
        self.assertIn(summary(module).replace("&", "&amp;"), page)
        self.assertFalse(re.search(r"https?:|src=|href=\"[^#]", page))


class Examples(unittest.TestCase):
    def test_each_example_has_a_test_and_all_are_as_wanted(self) -> None:
        before = os.getcwd()
        os.chdir(TOP)
        try:
            for path in sorted(Path("examples").glob("*.report")):
                test = path.with_suffix(".test")
                trial = Trial(str(test), test.read_bytes(), Counts(), Program(None))
                found = list(trial.results(""))
                self.assertTrue(found)
                self.assertEqual([told(trial.source, one) for result in found for one in result.problems], [])
        finally:
            os.chdir(before)

    def test_a_test_that_wants_something_else_fails(self) -> None:
        """Each number of what the examples' tests want matters: with another one the step isn't as wanted."""
        before = os.getcwd()
        os.chdir(TOP)
        tried = 0
        try:
            for path in sorted(Path("examples").glob("*.test")):
                trial = Trial(str(path), path.read_bytes(), Counts(), Program(None))
                ledger = trial.begun()
                for case in [Case("first", 0, True, trial.cases.first), *trial.cases.cases]:
                    ledger = ledger if case.goes_on else trial.after_first()
                    for done in trial.done(ledger, case.steps):
                        self.assertEqual(list(trial.problems_of(done)), [])
                        for at, line in enumerate(done.step.wanted):
                            for found in re.finditer(r"\d+(?!x)", "" if line.text.startswith('"') else line.text):
                                other = f"{line.text[:found.start()]}{int(found[0]) + 1}{line.text[found.end():]}"
                                step = done.step
                                changed = Step(step.what, step.at, step.end, [*step.wanted[:at], Wanted(other, 0), *step.wanted[at + 1:]])
                                self.assertTrue(list(trial.problems_of(done._replace(step=changed))), (path, other))
                                tried += 1
        finally:
            os.chdir(before)
        self.assertGreater(tried, 90)
