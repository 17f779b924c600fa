"""The mutants of a file of Python: its text with one span replaced, so that all lines keep their numbers. For plant-python.

What is turned: comparisons, `and` and `or`, `not`, conditions (made true, and false), numbers (one more, one fewer), True and False,
`break` and `continue`, what is returned, statements that are a call or a `yield` (left out), and strings where they are compared or are a
default.
Left as they are: annotations, decorators, documentation, assertions, what stands in an f-string, and blocks for `__main__` or for types."""

import ast
import re
from typing import List, NamedTuple, Optional, Sequence, Tuple, Union

OPERATORS = {"<": "<=", "<=": "<", ">": ">=", ">=": ">", "==": "!=", "!=": "==", "in": "not in", "not in": "in", "is": "is not",
             "is not": "is"}
OPERATOR = re.compile(rb"not\s+in\b|is\s+not\b|[<>=!]=|[<>]|\b(?:in|is|and|or)\b")
# Calls that compare what they are given.
COMPARING = "startswith", "endswith", "removeprefix", "partition", "rpartition"
Function = Union[ast.FunctionDef, ast.AsyncFunctionDef]
Lines = Tuple[int, int]
# The lines of what runs when a file is imported: each test of the file reaches them.
EVERYWHERE = 0, 0


class Mutant(NamedTuple):
    """A change of a file: its line, the span of bytes that is replaced, what stood and what comes there, and the first and the last line
    of the statement, one of which a test has to run to reach it."""

    file: str
    line: int
    start: int
    end: int
    old: str
    new: str
    lines: Lines

    def applied(self, source: bytes) -> bytes:
        return source[: self.start] + self.new.encode() + source[self.end :]

    def told(self) -> str:
        old, new = (re.sub(r"\s+", " ", it) for it in (self.old, self.new))
        return f"{self.file}:{self.line}: {old} -> {new}"


def head_of(statement: ast.stmt) -> Lines:
    """The lines of a statement, without those of the statements in it."""
    body = getattr(statement, "body", None)
    if body:
        return statement.lineno, max(statement.lineno, body[0].lineno - 1)
    return statement.lineno, statement.end_lineno or statement.lineno


def another(value: Union[str, bytes], is_searched: bool = False) -> str:
    """Another string; one that lacks its first sign, where signs are searched in it."""
    if is_searched and value:
        return repr(value[1:])
    return repr(value + "?" if isinstance(value, str) else value + b"?")


def is_for_types(test: ast.expr) -> bool:
    """Whether a condition holds only for a reader of types, or for a file that is run."""
    names = {it.id for it in ast.walk(test) if isinstance(it, ast.Name)}
    return bool(names & {"TYPE_CHECKING", "__name__"})


class Planting(ast.NodeVisitor):
    """Finds the mutants of a file."""

    def __init__(self, file: str, source: bytes):
        self.file, self.source = file, source
        self.starts = [0]
        for line in source.splitlines(keepends=True):
            self.starts.append(self.starts[-1] + len(line))
        self.found: List[Mutant] = []
        # The head of the statement at hand, and the function that it is in, if any.
        self.lines: Lines = EVERYWHERE
        self.function: Optional[Function] = None
        self.visit(ast.parse(source))

    def begin(self, node: Union[ast.expr, ast.stmt]) -> int:
        return self.starts[node.lineno - 1] + node.col_offset

    def end(self, node: Union[ast.expr, ast.stmt]) -> int:
        return self.starts[(node.end_lineno or 0) - 1] + (node.end_col_offset or 0)

    def plant(self, start: int, end: int, new: str) -> None:
        """Notes a mutant. What comes in the place of several lines has as many."""
        old = self.source[start:end].decode()
        breaks = old.count("\n") - new.count("\n")
        new = f"({new}" + "\n" * breaks + ")" if breaks else new
        if new != old:
            line = self.source.count(b"\n", 0, start) + 1
            self.found.append(Mutant(self.file, line, start, end, old, new, self.lines if self.function else EVERYWHERE))

    def replace(self, node: Union[ast.expr, ast.stmt], new: str) -> None:
        self.plant(self.begin(node), self.end(node), new)

    def text(self, node: ast.expr) -> str:
        return self.source[self.begin(node) : self.end(node)].decode()

    def visit(self, node: ast.AST) -> None:
        before = self.lines
        if isinstance(node, ast.stmt):
            self.lines = head_of(node)
        super().visit(node)
        self.lines = before

    def condition(self, test: ast.expr) -> None:
        """Makes a condition true, and false."""
        if not isinstance(test, ast.Constant):
            for new in "True", "False":
                self.replace(test, new)

    def between(self, left: ast.expr, right: ast.expr) -> Tuple[int, int, str]:
        """The span of the operator between two operands, and the operator."""
        start = self.end(left)
        found = OPERATOR.search(self.source, start, self.begin(right))
        assert found is not None, self.source[start : self.begin(right)]
        return found.start(), found.end(), " ".join(found[0].decode().split())

    def strings(self, node: ast.expr, is_searched: bool = False) -> None:
        """Turns the strings that something is compared with."""
        for it in node.elts if isinstance(node, (ast.Tuple, ast.List, ast.Set)) else [node]:
            if isinstance(it, ast.Constant) and isinstance(it.value, (str, bytes)):
                self.replace(it, another(it.value, is_searched and it is node))

    # What is turned.

    def visit_Compare(self, node: ast.Compare) -> None:
        operands = [node.left, *node.comparators]
        for left, operator, right in zip(operands, node.ops, operands[1:]):
            start, end, word = self.between(left, right)
            self.plant(start, end, OPERATORS[word])
            self.strings(right, isinstance(operator, (ast.In, ast.NotIn)))
        self.strings(node.left)
        self.generic_visit(node)

    def visit_BoolOp(self, node: ast.BoolOp) -> None:
        for left, right in zip(node.values, node.values[1:]):
            start, end, word = self.between(left, right)
            self.plant(start, end, "or" if word == "and" else "and")
        self.generic_visit(node)

    def visit_UnaryOp(self, node: ast.UnaryOp) -> None:
        if isinstance(node.op, ast.Not):
            start = self.begin(node)
            self.plant(start, self.end(node), self.source[start + len("not") : self.end(node)].decode().lstrip(" "))
        self.generic_visit(node)

    def visit_Constant(self, node: ast.Constant) -> None:
        if isinstance(node.value, bool):
            self.replace(node, str(not node.value))
        elif isinstance(node.value, (int, float)):
            self.replace(node, str(node.value + 1))
            if node.value >= 1:
                self.replace(node, str(node.value - 1))

    def visit_Call(self, node: ast.Call) -> None:
        if isinstance(node.func, ast.Attribute) and node.func.attr in COMPARING and node.args:
            self.strings(node.args[0])
        self.generic_visit(node)

    def visit_If(self, node: ast.If) -> None:
        if is_for_types(node.test):
            return
        self.condition(node.test)
        self.generic_visit(node)

    def visit_While(self, node: ast.While) -> None:
        self.condition(node.test)
        self.generic_visit(node)

    def visit_IfExp(self, node: ast.IfExp) -> None:
        self.condition(node.test)
        self.generic_visit(node)

    def visit_comprehension(self, node: ast.comprehension) -> None:
        for test in node.ifs:
            self.condition(test)
        self.generic_visit(node)

    def visit_Break(self, node: ast.Break) -> None:
        self.replace(node, "continue")

    def visit_Continue(self, node: ast.Continue) -> None:
        self.replace(node, "break")

    def visit_Return(self, node: ast.Return) -> None:
        if node.value is None:
            return
        if not isinstance(node.value, ast.Constant) or isinstance(node.value.value, (str, bytes)):
            self.replace(node.value, self.another_answer(node.value))
        self.visit(node.value)

    def another_answer(self, value: ast.expr) -> str:
        answers = self.function.returns if self.function else None
        name = answers.id if isinstance(answers, ast.Name) else ""
        said = {"bool": f"not ({self.text(value)})", "int": f"({self.text(value)}) + 1", "str": '""', "bytes": 'b""'}
        return said.get(name, "None")

    def visit_Expr(self, node: ast.Expr) -> None:
        if isinstance(node.value, ast.Constant):
            return
        if isinstance(node.value, (ast.Yield, ast.YieldFrom)):
            self.replace(node, "yield from ()")
        elif isinstance(node.value, ast.Call):
            self.replace(node, "None")
        self.generic_visit(node)

    # What is left as it is.

    def visit_JoinedStr(self, node: ast.JoinedStr) -> None:
        pass

    def visit_Assert(self, node: ast.Assert) -> None:
        pass

    def visit_arg(self, node: ast.arg) -> None:
        pass

    def visit_AnnAssign(self, node: ast.AnnAssign) -> None:
        self.visit_all([node.target, node.value])

    def visit_arguments(self, node: ast.arguments) -> None:
        for it in [*node.defaults, *node.kw_defaults]:
            if it is not None:
                self.strings(it)
                self.visit(it)

    def visit_FunctionDef(self, node: ast.FunctionDef) -> None:
        self.in_function(node)

    def visit_AsyncFunctionDef(self, node: ast.AsyncFunctionDef) -> None:
        self.in_function(node)

    def in_function(self, node: Function) -> None:
        self.visit(node.args)
        before, self.function = self.function, node
        self.visit_all(node.body)
        self.function = before

    def visit_ClassDef(self, node: ast.ClassDef) -> None:
        self.visit_all(node.body)

    def visit_all(self, nodes: Sequence[Optional[ast.AST]]) -> None:
        for it in nodes:
            if it is not None:
                self.visit(it)


def mutants_of(file: str, source: bytes) -> List[Mutant]:
    """The mutants of a file, in the order of its text."""
    return sorted(Planting(file, source).found, key=lambda it: (it.start, it.end, it.new))
