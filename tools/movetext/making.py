"""The program moveasm: bytes of a text, and a file with its names."""

import os
import sys
from typing import Dict, List, Optional

from .commandline import (DONE, MEGABYTES, REFUSED, SECONDS, WORDS, Argument, CommandLine, Option, Spent, fault, input_name, limited,
                          read_input, understood_or_exit)
from .errors import TextError, TextErrors
from .formatting import form
from .kinds import LEDGER, MODULE, STREAM, bytes_kind
from .outputs import BYTES, NAMES, beside, check_output, write_output
from .proving import NoProgram, Prover
from .source_names import SUFFIX
from .streaming import TextAssembler, read_source

LINE = CommandLine(
    "moveasm", "Makes the bytes of a module, or of a stream of records, from their text, and names what the verifier would refuse",
    [Argument("FILE", "The text; `-` is standard input")],
    [Option("-o", "OUT", "The file of the bytes, `-` for standard output; default: FILE with .module or .stream in place of its ending"),
     Option("-g", "", "Keep the names of locals and labels, and the lines, in OUT.names, where movedis finds them"),
     Option("--no-check", "", "Make the bytes even of modules that the verifier would refuse"),
     Option("--no-warn", "", "Don't warn"),
     Option("--moveledger", "PROGRAM", "Ask the program for each certificate too, and compare"),
     Option("--format", "", "Make no bytes, but print the text in the form that all texts have"),
     Option("--write", "", "With --format: replace FILE with it"),
     Option("--check", "", "With --format: write nothing, and end with status 1 if FILE isn't in that form"), SECONDS, MEGABYTES],
    has_version=True)

# What is said of bytes in the place of a text.
ADVICE = {MODULE: "this is a module, not a text: `tools/movedis {}` prints it as text",
          STREAM: "this is a stream, not a text: `tools/movedis {}` prints it as text",
          LEDGER: "this is a saved ledger, not a text: `tools/movedis {}` prints it as text"}

Given = Dict[str, Optional[str]]


class NoText(Exception):
    """Raised for bytes in the place of a text."""


def assembler(given: Given, data: bytes) -> TextAssembler:
    """What makes the bytes of a text."""
    name = str(given["FILE"])
    kind = bytes_kind(data)
    if kind is not None:
        raise NoText(ADVICE[kind].format("FILE" if name == "-" else name))
    folder = "" if name == "-" else os.path.dirname(name)
    source = read_source(input_name(name), data)
    return TextAssembler(source, folder, Prover(given["PROGRAM"]), given["--no-check"] is None)


def output_of(given: Given, is_module: bool) -> Optional[str]:
    """The name of the output; None for standard output."""
    if given["OUT"] is not None:
        return None if given["OUT"] == "-" else given["OUT"]
    return None if given["FILE"] == "-" else beside(str(given["FILE"]), ".module" if is_module else ".stream")


def written(given: Given, maker: TextAssembler, data: bytes) -> None:
    """Writes the bytes, and the names where they are wanted. OSError where they can't be written, or would take the place of
    something else."""
    out, inputs = output_of(given, maker.is_module), [str(given["FILE"]), *maker.files]
    names = f"{out}{SUFFIX}" if out and given["-g"] is not None else None
    if names:
        check_output(names, NAMES, inputs)
    write_output(out, data, BYTES, inputs)
    if names:
        write_output(names, maker.names.text().encode(), NAMES, inputs)
    if out and given["OUT"] is None:
        print(f"wrote {out}", file=sys.stderr)


def tell(maker: TextAssembler, warnings: List[TextError]) -> None:
    """Tells what isn't wrong, but rarely meant."""
    for one in sorted(warnings, key=lambda warning: warning.at):
        print("\n".join(one.lines(maker.source)), file=sys.stderr)


def wrong_together(given: Given) -> str:
    """What is said of options that don't go together with `--format`, if they don't."""
    of_format = [flag for flag in ("--write", "--check") if given[flag] is not None]
    others = [flag for flag in ("-g", "--no-check", "--no-warn") if given[flag] is not None]
    if given["--format"] is None:
        return f"'{of_format[0]}' needs '--format'" if of_format else ""
    if others or given["PROGRAM"] is not None:
        return f"'--format' makes no bytes: '{(others + ['--moveledger'])[0]}' isn't given with it"
    if len(of_format) > 1 or of_format and given["OUT"] is not None:
        return "at most one of '--write', '--check' and '-o' is given with '--format'"
    return "'--write' needs the name of a file" if given["--write"] is not None and given["FILE"] == "-" else ""


def main() -> int:
    """Makes the bytes of a text. Answers the status: 0, 1 for a fault, 2 for words that aren't understood, and 3 for a text that
    has an error."""
    given = understood_or_exit(LINE)
    if given["-g"] is not None and (given["OUT"] == "-" or given["OUT"] is None and given["FILE"] == "-"):
        sys.stderr.write(LINE.refusal("'-g' keeps names beside OUT: give '-o <OUT>'"))
        return WORDS
    wrong = wrong_together(given)
    if wrong:
        sys.stderr.write(LINE.refusal(wrong))
        return WORDS
    if given["--format"] is not None:
        return form(LINE, given)
    try:
        text = read_input(str(given["FILE"]))
    except OSError as error:
        return fault("read", error)
    try:
        with limited(LINE, given):
            maker = assembler(given, text)
            data = maker.bytes()
    except NoText as error:
        print(f"{input_name(str(given['FILE']))}: {error}", file=sys.stderr)
        return REFUSED
    except TextErrors as errors:
        print(errors, file=sys.stderr)
        return REFUSED
    except NoProgram as error:
        return fault("prove", error)
    except Spent as error:
        return fault(error.kind, error)
    if given["--no-warn"] is None:
        tell(maker, maker.warnings)
    try:
        written(given, maker, data)
    except OSError as error:
        return fault("write", error)
    return DONE
