"""Compiles the example in the documentation of each crate's root, in a copy of the repository with one crate more that has them all.
Nothing is proved. Each has to have one, and each has to compile."""

import shutil
import subprocess
import tempfile
from pathlib import Path
from typing import List

from cases import Cases
from common import TOP, crates

EXTRA = "root_examples"
TESTS = "mv_tests", "mv_text_tests", "mv_edge_tests", "mv_storage_tests", "mv_command_tests", "moveledger_tests", "moveledger_command_tests"
# Definitions, and the types of what they hold of. The crates that test for them make such values, and their examples show how.
RULES = "mv_bound_rules", "mv_type_rules", "mv_certificate_rules"


def libraries() -> List[str]:
    """The libraries of crates.txt whose code another crate can use: not those that have only tests, or only definitions."""
    return [name for name in crates(with_static=False) if name not in TESTS + RULES and "\npub " in root_of(name)]


def root_of(crate: str) -> str:
    """The text of a library's root; none of a program's."""
    root = TOP / f"crates/{crate}/src/lib.rt"
    return root.read_text() if root.exists() else ""


def example_of(crate: str) -> str:
    """The lines between the fences of a root's documentation."""
    lines: List[str] = []
    inside = False
    for line in root_of(crate).splitlines():
        if not line.startswith("//!"):
            break
        text = line[4:] if line.startswith("//! ") else line[3:]
        if text.startswith("```"):
            inside = not inside
        elif inside:
            lines.append(text)
    return "\n".join(lines)


def summary() -> str:
    return f"{len(libraries())} examples compile"


class Docs(Cases):
    """The examples of the crates' roots."""

    def test_examples(self) -> None:
        names = libraries()
        examples = {name: example_of(name) for name in names}
        lacking = [name for name, text in examples.items() if not text]
        self.note("each library has an example", f"not {' '.join(lacking)}" if lacking else "")
        with tempfile.TemporaryDirectory() as folder:
            copy = Path(folder) / "copy"
            shutil.copytree(TOP, copy, ignore=shutil.ignore_patterns(".git", "bench", "deploy", "out", "dist", "__pycache__"), symlinks=True)
            source = copy / f"crates/{EXTRA}/src"
            source.mkdir(parents=True)
            with open(copy / "crates.txt", "a", encoding="utf-8") as list_of_crates:
                list_of_crates.write(f"{EXTRA}: {' '.join(names)}\n")
            (source / "main.rt").write_text(
                "//! The examples.\n#![tactic(auto)]\n\n" + "".join(f"mod of_{name};\n" for name in names) + "\nfn main() {}\n"
            )
            for name, text in examples.items():
                (source / f"of_{name}.rt").write_text(text.replace("fn example(", "pub fn example(") + "\n")
            ran = subprocess.run(["rt", "try"], cwd=source.parent, stdout=subprocess.PIPE, stderr=subprocess.STDOUT, text=True)
        self.note("the examples compile", f"status {ran.returncode}: {ran.stdout}" if ran.returncode else "")
