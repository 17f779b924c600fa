"""Makes each example's stream anew from its text, and wants the very bytes; applies it, to the ledger of its name where there is one, and
compares what is printed with its report; and does the cases of its test file by tools/movetest, on the program too. Then it makes the
saved ledger of the examples anew, from the records and from the old form, and reads the reports' JSON by another reader.
`scripts/test --make examples` writes the streams and the reports."""

import json
import tempfile
from pathlib import Path
from typing import List

from cases import Cases, program
from common import EXAMPLES, TOOLS, Word, outcome


def made_stream(text: Path, folder: Path) -> bytes:
    """The bytes of a text, or none where it has errors, which are printed."""
    ended = outcome([TOOLS / "moveasm", text, "-o", folder / "stream"])
    print(ended.said, end="")
    return b"" if ended.status else (folder / "stream").read_bytes()


def applied(stream: Path) -> str:
    """The report on a stream, over the ledger of its name where there is one; or how the program ended otherwise."""
    ledger = stream.with_suffix(".ledger")
    loaded: List[Word] = ["--load", ledger] if ledger.exists() else []
    ended = outcome([program(), "apply", *loaded, stream])
    return f"status {ended.status}: {ended.said}" if ended.status else ended.printed


def fault_of(found: object, wanted: object) -> str:
    return "" if found == wanted else "differs"


def make_example(report: Path, folder: Path) -> str:
    """Writes an example's stream and its report. Answers what is wrong, if anything; then neither is written, or the stream alone."""
    stream = report.with_suffix(".stream")
    made = made_stream(report.with_suffix(".text"), folder)
    if not made:
        return "its text has errors"
    stream.write_bytes(made)
    printed = applied(stream)
    if printed.startswith("status "):
        return printed
    report.write_text(printed, encoding="utf-8")
    return ""


def reports() -> List[Path]:
    return sorted(EXAMPLES.glob("*.report"))


def make() -> int:
    """Writes the streams and the reports. Answers the status."""
    with tempfile.TemporaryDirectory() as folder:
        faults = [f"{report.stem}: {fault}" for report in reports() for fault in [make_example(report, Path(folder))] if fault]
    print("\n".join(faults) or f"{len(reports())} examples made")
    return 1 if faults else 0


def summary() -> str:
    return f"{len(reports())} examples as told"


class Examples(Cases):
    """What the examples say of themselves."""

    def setUp(self) -> None:
        folder = tempfile.TemporaryDirectory()
        self.addCleanup(folder.cleanup)
        self.folder = Path(folder.name)

    def test_streams(self) -> None:
        """Each example: its text, its stream and its report."""
        for report in reports():
            stream, name = report.with_suffix(".stream"), report.stem
            if self.note(f"{name}: the text's bytes", fault_of(made_stream(report.with_suffix(".text"), self.folder), stream.read_bytes())):
                self.note(f"{name}: the report", fault_of(applied(stream), report.read_text(encoding="utf-8")))
                ended = outcome([TOOLS / "movetest", "--moveledger", program(), report.with_suffix(".test")])
                self.note(f"{name}: the cases of its test file", f"status {ended.status}: {ended.printed}{ended.said}" if ended.status else "")

    def test_ledgers(self) -> None:
        """The saved ledger of the examples, as it is saved and as it is migrated."""
        saved, migrated = self.folder / "saved", self.folder / "migrated"
        ways: List[List[Word]] = [["apply", "--save", saved, EXAMPLES / "first-coin.stream"], ["migrate", EXAMPLES / "old.ledger", migrated]]
        for words, made in zip(ways, (saved, migrated)):
            ended = outcome([program(), *words])
            found = made.read_bytes() if made.exists() else ended.said
            self.note(f"kept.ledger, as it is {made.name}", fault_of(found, (EXAMPLES / "kept.ledger").read_bytes()))

    def test_json(self) -> None:
        """The lines of JSON of the reports, which Python's reader of JSON has to write back as they stand."""
        for report in reports():
            for line in report.read_text(encoding="utf-8").splitlines():
                number, kind, rest = (line.split(" ", 2) + ["", ""])[:3]
                if kind == "json":
                    again = json.dumps(json.loads(rest), separators=(",", ":"), sort_keys=True)
                    self.note(f"{report.stem}: the JSON of record {number}, read by another reader", fault_of(again, rest))
