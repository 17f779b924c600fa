"""`movetest`: does the cases of test files, and says what isn't as wanted."""

import os
import subprocess
import sys
from typing import Dict, Iterator, List, Optional

from .commandline import (DONE, FAULT, MEGABYTES, SECONDS, WORDS, Argument, Bounds, CommandLine, Option, Spent, fault, limited,
                          read_input, understood_or_exit)
from .coverage import Counts, Module, merged, short_lines, whole_lines
from .coverage_page import coverage_page
from .errors import TextErrors
from .outputs import PAGE, write_output
from .trials import NotAsked, Program, Result, Trial, told
from .writing import Unwritten, Write, lines_to

# What a file may take, unless something else is given.
BOUNDS = Bounds(60, 2_000)

COMMAND = CommandLine(
    "movetest",
    "Runs the cases of test files, and compares each report with the one that is wanted. docs/WORKBENCH.md says how a case is written",
    [Argument("FILE", "Test files")],
    [Option("--only", "WORDS", "Only the cases whose titles have these words"),
     Option("--runs", "", "Print each run, with how it ended and its steps"),
     Option("--coverage", "", "Print each line of the modules, with how often it was executed"),
     Option("--page", "PAGE", "Write the same as a page, for a browser"),
     Option("--moveledger", "PROGRAM", "The program to compare with; default: the one that scripts/program finds, if any"),
     Option("--alone", "", "Compare with no program"),
     SECONDS._replace(help=f"{SECONDS.help}; default: {BOUNDS.seconds}, for each file"),
     MEGABYTES._replace(help=f"{MEGABYTES.help}; default: {BOUNDS.megabytes}")],
    has_version=True, takes_more=True)

Given = Dict[str, Optional[str]]
NONE = "no program of these sources is built"


class Session:
    """What was done of all files."""

    def __init__(self, given: Given, program: Program):
        self.given, self.program = given, program
        self.counts = Counts()
        self.cases = self.wrong = self.files = 0
        # Whether a file couldn't be tried, and whether some of its cases were begun.
        self.is_broken = self.is_begun = False

    def file(self, name: str) -> Iterator[str]:
        """Does a file's cases. Yields what is printed."""
        self.files += 1
        trial = Trial(name, read_input(name), self.counts, self.program)
        for result in trial.results(self.given["WORDS"] or ""):
            yield from self.result(trial, result)

    def result(self, trial: Trial, result: Result) -> Iterator[str]:
        """A case, or what all cases of a file begin with."""
        self.wrong += bool(result.problems)
        mark = "wrong" if result.problems else "ok   "
        if result.case is None:
            yield f"{mark} {trial.source.name}: what each case begins with"
        else:
            self.cases += 1
            line = trial.source.place(result.case.at)[0]
            runs = f"{len(result.runs)} run{'s' if len(result.runs) != 1 else ''}, {result.steps:,} steps"
            yield f"{mark} {trial.source.name}:{line}: {result.case.title} ({runs})"
        for run in result.runs if self.given["--runs"] is not None else []:
            yield f"      {trial.source.place(run.at)[0]:>5}  {run.words:<24}  {run.told}"
        for problem in result.problems:
            for line_told in told(trial.source, problem):
                yield f"      {line_told}"

    def summary(self) -> str:
        """How all came out."""
        if self.program.path is not None:
            compared = "; the program answers the same" if not self.wrong else ""
        else:
            compared = "; not compared with the program" + (f": {NONE}" if self.given["--alone"] is None else "")
        cases = f"{self.cases} case{'s' if self.cases != 1 else ''}"
        if not self.cases and not self.wrong:
            return f"movetest: no case was {'tried to its end' if self.is_begun else 'run'}"
        compared += "; not every case was tried" if self.is_broken else ""
        return f"movetest: {self.wrong} wrong of {cases}{compared}" if self.wrong else f"movetest: {cases} as wanted{compared}"

    def status(self) -> int:
        return WORDS if self.is_broken else FAULT if self.wrong else DONE


def program_here() -> Optional[str]:
    """The program of these sources, where one is built."""
    script = os.path.join(os.path.dirname(os.path.dirname(os.path.dirname(os.path.realpath(__file__)))), "scripts", "program")
    if not os.access(script, os.X_OK):
        return None
    try:
        found = subprocess.run([script, "--here"], stdin=subprocess.DEVNULL, stdout=subprocess.PIPE, stderr=subprocess.DEVNULL)
    except OSError:
        return None
    return found.stdout.decode("utf-8", "surrogateescape").strip() or None


def check_together(given: Given) -> None:
    """Ends the program where options don't go together."""
    wrong = ""
    if given["--alone"] is not None and given["PROGRAM"] is not None:
        wrong = "'--alone' compares with no program, and '--moveledger <PROGRAM>' is one"
    if any(name == "-" for name in [given["FILE"], *COMMAND.more]):
        wrong = "a test file has a name: the files that it names stand beside it"
    if wrong:
        sys.stderr.write(COMMAND.refusal(wrong))
        sys.exit(WORDS)


def try_files(session: Session, names: List[str], write: Write) -> None:
    """Does all files, each within its time."""
    for name in names:
        try:
            with limited(COMMAND, session.given, BOUNDS):
                for line in session.file(name):
                    write(line)
        except TextErrors as errors:
            broken(session, str(errors))
        except OSError as error:
            broken(session, f"{name}: can't be read: {error.strerror or error}")
        except NotAsked as error:
            broken(session, f"{name}: {error}", is_begun=True)
        except Spent as error:
            broken(session, f"{name}: {error}", is_begun=True)
        except RecursionError:
            broken(session, f"{name}: it is nested too deep", is_begun=True)


def broken(session: Session, message: str, is_begun: bool = False) -> None:
    """Says that a file couldn't be tried, or not to its end."""
    session.is_broken, session.is_begun = True, session.is_begun or is_begun
    sys.stdout.flush()
    print(message, file=sys.stderr, flush=True)


def text_of(module: Module) -> Optional[List[str]]:
    """The lines of a module's text, where it can be read."""
    if module.file is None:
        return None
    try:
        return read_input(module.file).decode("utf-8", "replace").split("\n")
    except OSError:
        return None


def say_coverage(session: Session, write: Write) -> None:
    """Prints what was done of the modules, and writes the page of it."""
    modules = [one for one in merged(session.counts) if one.functions]
    for line in short_lines(modules) if session.given["--coverage"] is None else []:
        write(line)
    for module in modules if session.given["--coverage"] is not None else []:
        for line in whole_lines(module, text_of(module)):
            write(line)
    if session.given["PAGE"] is not None:
        page = coverage_page([(module, text_of(module)) for module in modules], session.summary())
        try:
            write_output(session.given["PAGE"], page.encode("utf-8", "backslashreplace"), PAGE, [str(session.given["FILE"]), *COMMAND.more])
        except OSError as error:
            raise Unwritten(error) from None


def main() -> int:
    """The program movetest. Answers its status: 0 where all is as wanted, 1 where something isn't, or can't be written, and 2 where
    words aren't understood or a file can't be tried."""
    given = understood_or_exit(COMMAND)
    check_together(given)
    path = None if given["--alone"] is not None else given["PROGRAM"] or program_here()
    session = Session(given, Program(path))
    try:
        with lines_to(None, PAGE) as write:
            try_files(session, [str(given["FILE"]), *COMMAND.more], write)
            if not session.cases and not session.is_broken:
                broken(session, f"no case's title has the words \"{given['WORDS']}\"")
            say_coverage(session, write)
            write(session.summary())
    except Unwritten as error:
        return fault("write", error.why)
    return session.status()
