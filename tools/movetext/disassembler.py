"""Bytes of any kind as text."""

import os
import re
import sys
from typing import Dict, List, NamedTuple, Optional, Tuple

from . import showing
from .certificates import read_certificate
from .commandline import (DONE, MEGABYTES, OF_STRANGERS, REFUSED, SECONDS, WORDS, Argument, CommandLine, Option, Spent,
                          WordsError, fault, input_name, limited, read_input, understood_or_exit)
from .cursor import Fault
from .explain.pictures import NoPicture, borrow_graph, flow_graph, function_named
from .explain.subject import Subject
from .explain.telling import Explained, NoRecord, ledger_explained, module_explained, stream_explained
from .kinds import KINDS, LEDGER, MODULE, STREAM, is_text, kind_of
from .ledgers import read_ledger
from .model import Publish
from .outputs import EXPLAINED, LISTING, OBJECTS, PAGE, PICTURE, PRINTED, Kind, known_inputs, write_output
from .printer import module_lines
from .reader import read_module
from .records import read_stream
from .source_names import SUFFIX, NameTable, NamesError, read_names
from .stream_printer import broken_module_lines, fault_lines, hex_lines, ledger_lines, stream_lines
from .writing import Unwritten

COMMAND = CommandLine(
    "movedis",
    "Prints a module, a stream of records or a saved ledger as text",
    [Argument("FILE", "The bytes; `-` is standard input"),
     Argument("CERTIFICATE", "A certificate of the module, as its bytes or as `moveledger prove` prints it: "
                             "what it states of each block is printed beside the code", is_required=False)],
    [Option("--explain", "", "Explain the verdict: for a module its phase, place and rule; for a stream each line of its report; for "
                             "a saved ledger why it isn't loaded. moveledger's verdict counts"),
     *showing.OPTIONS,
     Option("--record", "N", "With --explain and --trace: only record N"),
     Option("--load", "LEDGER", "With --explain and --trace: begin with this saved ledger"),
     Option("--json", "", "With --explain and --trace: one JSON object per line"),
     Option("--dot", "FUNCTION", "Draw the flow graph of a function, with what is stated about each block, for Graphviz"),
     Option("--before", "INSTRUCTION", "With --dot, draw the borrow graph before the instruction of this number"),
     Option("--names", "NAMES", "The names that `moveasm -g` kept; default: FILE.names, if it exists"),
     Option("--as", "KIND", "Take the bytes for a module, a stream or a ledger, whatever they begin with"),
     SECONDS._replace(help=f"{SECONDS.help}; --explain and --dot stop after {OF_STRANGERS.seconds} by default, --trace and --html after "
                          f"{showing.BOUNDS.seconds}"),
     MEGABYTES._replace(help=f"{MEGABYTES.help}; --explain and --dot stop at {OF_STRANGERS.megabytes} by default, --trace and --html at "
                            f"{showing.BOUNDS.megabytes}"),
     Option("-o", "OUT", "Write the text to OUT, and not to standard output")],
    has_version=True)

Given = Dict[str, Optional[str]]


class NoBytes(Exception):
    """Raised for a text in the place of bytes."""


class Disassembly(NamedTuple):
    """A text, and where and why the bytes aren't to their end what the text says; no fault where they are."""

    text: str
    faults: List[Fault] = []


def text_of(lines: List[str]) -> str:
    return "\n".join(lines) + "\n" if lines else ""


def disassemble(data: bytes, kind: Optional[str] = None, names: Optional[NameTable] = None) -> Disassembly:
    """The text of bytes."""
    kind = kind or kind_of(data)
    if kind == MODULE:
        return disassemble_module(data, None, names)
    if kind == LEDGER:
        return disassemble_ledger(data, names)
    reading = read_stream(data)
    return Disassembly(text_of(stream_lines(reading, names)), reading.faults)


def disassemble_module(data: bytes, certificate: Optional[bytes] = None, names: Optional[NameTable] = None) -> Disassembly:
    """The text of a module, with what a certificate states of its blocks as comments."""
    reading = read_module(data)
    if not reading.is_module:
        lines = broken_module_lines(reading) + hex_lines("bytes", data)
        return Disassembly(text_of(lines), reading.faults)
    source = names.of(data) if names else None
    if certificate is None:
        return Disassembly(text_of(module_lines(reading, source=source)))
    stated = read_certificate(certificate, reading.module)
    lines = module_lines(reading, stated.certificate, source=source)
    if stated.faults:
        lines += ["// No certificate of this module:"] + fault_lines(stated.faults)
    return Disassembly(text_of(lines), stated.faults)


def disassemble_ledger(data: bytes, names: Optional[NameTable] = None) -> Disassembly:
    """The text of a saved ledger, which is for reading alone."""
    reading = read_ledger(data)
    if reading is None:
        wrong = Fault(0, "a saved ledger begins with the bytes 4D 56 4C 31 or 4D 56 4C 32")
        return Disassembly(text_of(fault_lines([wrong]) + hex_lines("bytes", data)), [wrong])
    return Disassembly(text_of(ledger_lines(reading, names)), reading.faults)


def certificate_of(data: bytes) -> bytes:
    """A certificate's bytes, from themselves or from their text in hexadecimal."""
    if re.fullmatch(rb"(?:[0-9a-fA-F]{2})+(?:\r?\n)?", data):
        return bytes.fromhex(data.decode("ascii"))
    return b"" if data in (b"\n", b"\r\n") else data


def wrong_words(message: str) -> WordsError:
    return WordsError(COMMAND.refusal(message))


def check_together(given: Given) -> None:
    """Wants options that go together."""
    for flag, value in (("--record <N>", given["N"]), ("--load <LEDGER>", given["LEDGER"]), ("--json", given["--json"])):
        if value is not None and given["--explain"] is None and given["--trace"] is None:
            raise wrong_words(f"'{flag}' needs '--explain' or '--trace'")
    wrong = showing.wrong_together(given)
    if wrong:
        raise wrong_words(wrong)
    if given["N"] is not None and not re.fullmatch(r"[1-9][0-9]{0,17}", given["N"]):
        raise wrong_words(f"invalid value '{given['N']}' for '--record <N>': records are counted from 1")
    if given["INSTRUCTION"] is not None:
        if given["FUNCTION"] is None:
            raise wrong_words("'--before <INSTRUCTION>' needs '--dot <FUNCTION>'")
        if not re.fullmatch(r"[0-9]{1,5}", given["INSTRUCTION"]):
            raise wrong_words(f"invalid value '{given['INSTRUCTION']}' for '--before <INSTRUCTION>': instructions are counted "
                              "from 0")


def checked_kind(given: Given) -> Optional[str]:
    """What the bytes are to be taken for, or None. A certificate stands beside a module, a record's number and a saved ledger
    beside a stream that is explained."""
    check_together(given)
    kind = given["KIND"]
    if kind is not None and kind not in KINDS:
        raise wrong_words(f"invalid value '{kind}' for '--as <KIND>'\n  [possible values: {', '.join(KINDS)}]")
    wanted = MODULE if given["CERTIFICATE"] is not None else kind
    if given["N"] is not None or given["LEDGER"] is not None or given["--trace"] is not None:
        if given["CERTIFICATE"] is not None or kind not in (None, STREAM):
            raise wrong_words("'--record <N>' and '--load <LEDGER>' are about a stream")
        wanted = STREAM
    if given["CERTIFICATE"] is not None and kind not in (None, MODULE):
        raise wrong_words(f"a certificate stands beside a module, not a {kind}")
    return wanted


class Inputs(NamedTuple):
    """What the files have that are given: the bytes, what they are taken for, and a certificate, a saved ledger and names."""

    data: bytes
    kind: str
    certificate: Optional[bytes]
    loaded: Optional[bytes]
    names: NameTable


def read_inputs(given: Given) -> Inputs:
    """Reads the files that are given. OSError where one can't be read, WordsError where the words don't go together."""
    kind = checked_kind(given)
    data = read_input(str(given["FILE"]))
    if kind in (None, STREAM) and given["KIND"] is None and is_text(data):
        raise NoBytes(f"this is a text, not bytes: `tools/moveasm {given['FILE']}` makes its bytes")
    certificate = None if given["CERTIFICATE"] is None else certificate_of(read_certificate_file(given["CERTIFICATE"]))
    loaded = None if given["LEDGER"] is None else read_input(given["LEDGER"])
    return Inputs(data, kind or kind_of(data), certificate, loaded, given_names(given))


def read_certificate_file(name: str) -> bytes:
    """The bytes of a certificate's file. OSError where it can't be read, which says so where a certificate stands in its place."""
    try:
        return read_input(name)
    except FileNotFoundError as error:
        if re.fullmatch(r"(?:[0-9a-fA-F]{2})+", name):
            error.strerror = "CERTIFICATE is a file, and this isn't there"
        raise


def given_names(given: Given) -> NameTable:
    """The names that are given, or those that stand beside the bytes."""
    beside = f"{given['FILE']}{SUFFIX}"
    if given["NAMES"] is None and (given["FILE"] == "-" or not os.path.exists(beside)):
        return NameTable()
    name = given["NAMES"] or beside
    try:
        return read_names(read_input(name))
    except NamesError as error:
        raise NamesError(f"{name}: {error}") from None


def explain(given: Given, inputs: Inputs) -> Explained:
    """What is said of why a module or a stream's records are refused."""
    if inputs.kind == LEDGER:
        return ledger_explained(inputs.data, inputs.names)
    if inputs.kind == MODULE:
        return module_explained(inputs.data, inputs.certificate, inputs.names)
    return stream_explained(inputs.data, int(given["N"]) if given["N"] else None, inputs.loaded, inputs.names)


def picture(given: Given, inputs: Inputs) -> List[str]:
    """The picture that is asked for."""
    wanted = str(given["FUNCTION"])
    subject, certificate = drawn_module(inputs, wanted)
    function = function_named(subject, wanted.rpartition("::")[2])
    if given["INSTRUCTION"] is None:
        return flow_graph(subject, function, certificate)
    return borrow_graph(subject, function, int(given["INSTRUCTION"]), certificate)


def drawn_module(inputs: Inputs, wanted: str) -> Tuple[Subject, Optional[bytes]]:
    """The module of a function that is drawn, with its certificate if any: of a stream the last one that has the function."""
    if inputs.kind == MODULE:
        return Subject(read_module(inputs.data), 0, inputs.names.of(inputs.data)), inputs.certificate
    if inputs.kind == LEDGER:
        raise wrong_words("the pictures are of a module, or of a stream's modules")
    module, _, name = wanted.rpartition("::")
    for record in reversed(read_stream(inputs.data).stream.records):
        for offer in reversed(record.offers if isinstance(record, Publish) else []):
            subject = Subject(read_module(offer.module), 0, inputs.names.of(offer.module))
            named = subject.names.module_text(subject.module.own)
            functions = [subject.module.function_name(one.handle) for one in subject.module.functions]
            if name in functions and (not module or named == module or named.endswith(f"::{module}")):
                return subject, offer.certificate
    raise NoPicture(f"no module of the stream has the function `{wanted}`")


def traced(given: Given, inputs: Inputs) -> int:
    """Writes the steps that are asked for, and answers the status."""
    if given["KIND"] is None and kind_of(inputs.data) != STREAM:
        raise NoBytes(f"this is a {kind_of(inputs.data)}: `--trace` shows the runs of a stream")
    return DONE if showing.show_steps(given, inputs.data, inputs.loaded, inputs.names, inputs_of(given)) else REFUSED


def printed(given: Given, inputs: Inputs) -> Tuple[str, int, str]:
    """The text that is printed, the status, and what standard error says."""
    if given["--explain"] is not None:
        said = explain(given, inputs)
        lines = said.lines if given["--json"] is None else said.json_lines()
        return text_of(lines), DONE if said.is_accepted else REFUSED, ""
    if given["FUNCTION"] is not None:
        return text_of(picture(given, inputs)), DONE, ""
    if given["--html"] is not None:
        if inputs.kind == LEDGER:
            raise wrong_words("'--html' is about a module, or a stream's modules")
        return showing.page_of(given, inputs.data, inputs.certificate, inputs.names, inputs.kind == MODULE), DONE, ""
    found = disassemble(inputs.data, inputs.kind, inputs.names) if inputs.certificate is None \
        else disassemble_module(inputs.data, inputs.certificate, inputs.names)
    if not found.faults:
        return found.text, DONE, ""
    first = found.faults[0]
    return found.text, REFUSED, f"{input_name(str(given['FILE']))}: offset {first.offset}: {first.reason}\n"


def output_kind(given: Given) -> Kind:
    """What is written."""
    if given["--explain"] is not None:
        return OBJECTS if given["--json"] is not None else EXPLAINED
    if given["--html"] is not None:
        return PAGE
    return PICTURE if given["FUNCTION"] is not None else LISTING


def inputs_of(given: Given) -> List[str]:
    """The files that are read."""
    beside = f"{given['FILE']}{SUFFIX}"
    return known_inputs(given["FILE"], given["CERTIFICATE"], given["LEDGER"], given["NAMES"]) + [beside] * os.path.exists(beside)


def written(given: Given, text: str) -> None:
    """Writes the text. OSError where it can't be written, or would take the place of something else."""
    kind, out = output_kind(given), given["OUT"]
    front = f"{PRINTED}\n" if kind is LISTING and out not in (None, "-") else ""
    write_output(out, (front + text).encode("utf-8", "backslashreplace"), kind, inputs_of(given))


def main() -> int:
    """The program movedis. Answers its status: 0, 1 for a fault, 2 for words that aren't understood, and 3 where the bytes
    aren't to their end what the text says, what is explained is refused, or what is asked for isn't there."""
    given = understood_or_exit(COMMAND)
    explains = given["--explain"] is not None or given["FUNCTION"] is not None
    try:
        with limited(COMMAND, given, OF_STRANGERS if explains else showing.bounds_of(given)):
            inputs = read_inputs(given)
            if given["--trace"] is not None:
                return traced(given, inputs)
            text, status, told = printed(given, inputs)
    except WordsError as words:
        sys.stderr.write(str(words))
        return WORDS
    except NamesError as error:
        sys.stderr.write(f"{error}\n")
        return REFUSED
    except (NoRecord, NoPicture, NoBytes) as error:
        sys.stderr.write(f"{input_name(str(given['FILE']))}: {error}\n")
        return REFUSED
    except Spent as error:
        return fault(error.kind, error)
    except Unwritten as error:
        return fault("write", error.why)
    except OSError as error:
        return fault("read", error)
    try:
        written(given, text)
    except OSError as error:
        return fault("write", error)
    sys.stderr.write(told)
    return status
