"""The mutants of a file, as scripts/plant-python plants them."""

import sys
import unittest
from typing import List

from . import TOP

sys.path.insert(0, str(TOP / "scripts"))

from planted import EVERYWHERE, Mutant, mutants_of  # noqa: E402

FILES = [*sorted((TOP / "tools/movetext").glob("*.py")), *sorted((TOP / "deploy/ledgerlog").glob("*.py")), TOP / "scripts/until-signal"]
SOURCE = '''"""Documentation of 3 things."""
from typing import TYPE_CHECKING
if TYPE_CHECKING:
    MOST = 1

LIMIT: int = 7


def f(a: int, b: "List[int]", c: int = 2, d: str = "x") -> bool:
    """What f does with 2."""
    assert a > 0, "no"
    if (a <= c and
            not b):
        return a in (1, 2)
    while a != LIMIT:
        a += 1
        if d.startswith("y") or d is None:
            break
        say(f"{a + 1} of {c}", "3 more")
    return False


if __name__ == "__main__":
    f(1, [])
'''


def told(mutants: List[Mutant]) -> List[str]:
    return [f"{it.line}: {it.old} -> {it.new}" for it in mutants]


class Mutants(unittest.TestCase):
    def test_what_is_turned_in_a_file(self) -> None:
        self.assertEqual(told(mutants_of("it.py", SOURCE.encode())), [
            "6: 7 -> 6", "6: 7 -> 8", "9: 2 -> 1", "9: 2 -> 3", "9: \"x\" -> 'x?'",
            "12: a <= c and\n            not b -> (False\n)", "12: a <= c and\n            not b -> (True\n)", "12: <= -> <",
            "12: and -> or", "13: not b -> b", "14: a in (1, 2) -> not (a in (1, 2))", "14: in -> not in", "14: 1 -> 0", "14: 1 -> 2",
            "14: 2 -> 1", "14: 2 -> 3", "15: a != LIMIT -> False", "15: a != LIMIT -> True", "15: != -> ==", "16: 1 -> 0", "16: 1 -> 2",
            '17: d.startswith("y") or d is None -> False', '17: d.startswith("y") or d is None -> True', "17: \"y\" -> 'y?'",
            "17: or -> and", "17: is -> is not", "18: break -> continue", '19: say(f"{a + 1} of {c}", "3 more") -> None',
            "20: False -> True"])

    def test_a_test_reaches_the_lines_of_a_statement(self) -> None:
        lines = {it.line: it.lines for it in mutants_of("it.py", SOURCE.encode())}
        self.assertEqual([lines[line] for line in (6, 9, 12, 13, 14, 15, 19)],
                         [EVERYWHERE, EVERYWHERE, (12, 13), (12, 13), (14, 14), (15, 15), (19, 19)])

    def test_each_mutant_of_our_files_is_python_of_as_many_lines(self) -> None:
        tried = 0
        for path in FILES:
            source = path.read_bytes()
            for at, mutant in enumerate(mutants_of(path.name, source)):
                made = mutant.applied(source)
                self.assertNotEqual(made, source, mutant.told())
                self.assertEqual(made.count(b"\n"), source.count(b"\n"), mutant.told())
                self.assertEqual(source[mutant.start : mutant.end].decode(), mutant.old)
                if at % 50 == 0:
                    compile(made, path.name, "exec", dont_inherit=True)
                    tried += 1
        self.assertGreater(tried, 150)

    def test_letters_of_several_bytes_move_nothing(self) -> None:
        source = 'def f(a: str) -> str:\n    return "\u00e9\u00e9" if a == "\u20ac" else a\n'.encode()
        self.assertEqual(told(mutants_of("it.py", source)), [
            '2: "\u00e9\u00e9" if a == "\u20ac" else a -> ""', '2: a == "\u20ac" -> False', '2: a == "\u20ac" -> True', "2: == -> !=",
            "2: \"\u20ac\" -> '\u20ac?'"])
