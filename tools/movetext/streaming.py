"""From a whole text to its bytes: modules, and the records of streams with the files that they name."""

import os
from typing import Any, Collection, Dict, List, NamedTuple, Optional, Set, Union

from . import model, syntax
from .assembler import assembled
from .errors import Source, TextError, TextErrors, wrapped
from .explain import bounds, definitions
from .explain.failures import Failure, Fails
from .explain.link import Linking, ModuleName, Published
from .explain.pages import rule_said
from .explain.subject import Subject
from .explain.verdict import Trial
from .limits import CERTIFICATE_BYTES, RECORD_BYTES, TABLE_BYTES
from .proving import MakesCertificates, NotProved, Prover
from .reader import read_module
from .refusals import Written, refused
from .source_names import NameTable, StreamNames, module_names
from .stream_parser import parsed
from .warnings import warnings
from .writer import write_payload, write_record

# Bytes, within a class that has a method of that name.
Data = bytes


def read_source(name: str, data: bytes) -> Source:
    """The text of a file. TextErrors where the bytes are no UTF-8."""
    try:
        text = data.decode("utf-8")
    except UnicodeDecodeError as error:
        text = data[:error.start].decode("utf-8")
        wrong = TextError(len(text), f"the byte {data[error.start]:02X} isn't UTF-8", "save the text as UTF-8")
        raise TextErrors(Source(name, text), [wrong]) from None
    return Source(name, text)


class TextAssembler:
    """Makes bytes of a text. Files have their names from the folder of the text. Where it checks, each module goes through phases 2
    to 12, with the certificate that is given or that is found, and what modules that stand together name of each other is compared."""

    def __init__(self, source: Source, folder: str, prover: MakesCertificates, checks: bool = False):
        self.source = source
        self.folder = folder
        self.prover = prover
        self.checks = checks
        self.errors: List[TextError] = []
        self.others: List[TextErrors] = []
        self.warnings: List[TextError] = []
        self.names = NameTable()
        # The modules that texts have, by their bytes; those that stand in records before, and their bytes, by their names; the files that
        # were read.
        self.written: Dict[Data, Written] = {}
        self.published: Dict[ModuleName, Published] = {}
        self.bytes_of: Dict[ModuleName, Data] = {}
        self.files: List[str] = []
        self.is_module = False

    def bytes(self) -> Data:
        """The text's bytes. TextErrors where it has errors, NoProgram where none makes its certificates."""
        tree = self.parsed()
        self.is_module = isinstance(tree, syntax.Module)
        data = self.lone_module(tree) if isinstance(tree, syntax.Module) else b"".join(map(self.record, tree.records))
        if self.errors or self.others:
            raise TextErrors(self.source, self.errors, self.others)
        if isinstance(tree, syntax.Stream):
            self.name_records(tree, data)
        return data

    def lone_module(self, tree: syntax.Module) -> Data:
        """A text that is one module, which is tried as one of a bundle is."""
        made = self.module(tree)
        if made is not None and self.checks:
            self.find_failures(Offered(syntax.Offer(tree, syntax.Made(tree.at)), made), None)
        return made or b""

    def name_records(self, tree: syntax.Stream, data: Data) -> None:
        """Keeps the places of records. Where bytes stand among them, no record is told by its number."""
        if not any(isinstance(record, syntax.Raw) and record.kind is None for record in tree.records):
            self.names.add_stream(data, StreamNames(self.source.name, [self.source.place(record.at) for record in tree.records]))

    def parsed(self) -> Union[syntax.Module, syntax.Stream]:
        """What the text says; its errors are kept. TextErrors where it says nothing."""
        found = parsed(self.source.text)
        self.errors += found.errors
        if found.tree is None:
            raise TextErrors(self.source, found.errors)
        return found.tree

    def fail(self, at: int, message: str, help: str = "") -> Data:
        self.errors.append(TextError(at, message, help))
        return b""

    def module(self, tree: syntax.Module) -> Optional[Data]:
        """A module's bytes, or None where it has errors."""
        before = len(self.errors)
        made = assembled(tree, self.errors)
        if len(self.errors) > before or tree.is_broken:
            return None
        self.names.add(made.data, module_names(tree, made.entries, self.source))
        self.written[made.data] = Written(self.source, tree, made.entries)
        if self.checks:
            self.warnings += warnings(tree, made.data, self.source)
        return made.data

    def record(self, record: Union[syntax.Publish, syntax.Run, syntax.Ask, syntax.Raw]) -> Data:
        """A record's bytes."""
        if isinstance(record, syntax.Raw) and record.kind is None:
            return record.data
        told = self.told(record)
        payload = write_payload(told)[1]
        if len(payload) > RECORD_BYTES:
            return self.fail(record.at, f"the record has {len(payload):,} bytes, more than {RECORD_BYTES:,}")
        return write_record(told)

    def told(self, record: Union[syntax.Publish, syntax.Run, syntax.Ask, syntax.Raw]) -> model.Record:
        """What a record says."""
        if isinstance(record, syntax.Raw):
            return model.RawRecord(model.known(record.kind), record.data)
        if isinstance(record, syntax.Ask):
            return model.Audit(record.is_json) if record.is_audit else model.Show(record.is_json)
        if isinstance(record, syntax.Run):
            names = record.module.text, record.function.text
            return model.Run(record.sender, record.address, *names, record.budget, record.arguments)
        return model.Publish(record.sender, self.bundle(record))

    def bundle(self, record: syntax.Publish) -> List[model.Offer]:
        """The modules of a bundle with their certificates. None is made for one that has errors."""
        offers = [Offered(one, self.offered_module(one.module)) for one in record.offers]
        wrong = self.wrong_imports(offers) if self.checks else {}
        return [self.offer(one, wrong.get(place)) for place, one in enumerate(offers)]

    def wrong_imports(self, offers: List["Offered"]) -> Dict[int, Set[int]]:
        """Tells what modules say wrongly of each other, and of those before them. Answers, by the places of modules, the function
        handles that are wrong; -1 stands for a struct's."""
        places, bundle = [], []
        for place, one in enumerate(offers):
            subject = Subject(read_module(one.module or b""), 0, self.names.of(one.module or b""), advises=True)
            if one.module and is_named(subject):
                places.append(place)
                bundle.append(Published(subject))
                self.bytes_of[bundle[-1].name] = one.module
        linking = Linking(self.published, None, bundle)
        wrong: Dict[int, Set[int]] = {}
        for at, failure in linking.wrong_imports():
            handle = failure.place.entry if failure.place.kind == model.FUNCTION_HANDLES else -1
            wrong.setdefault(places[at], set()).add(handle if handle is not None else -1)
            self.refuse(failure, offers[places[at]], self.there(bundle[at], failure))
        self.published.update({one.name: one for one in bundle})
        return wrong

    def there(self, one: Published, failure: Failure) -> Optional[Written]:
        """The text of the module that an import names, or None."""
        handles: List[Any] = one.module.table(model.known(failure.place.kind))
        named = one.module_name(handles[model.known(failure.place.entry)].module)
        return self.written.get(self.bytes_of[named])

    def offer(self, offered: "Offered", wrong: Optional[Set[int]]) -> model.Offer:
        """A module with its certificate. Where the module has errors, or its imports have, it isn't tried further."""
        if offered.module is None:
            return model.Offer(b"")
        if len(offered.module) > TABLE_BYTES:
            self.fail(offered.text.module.at, f"the module has {len(offered.module):,} bytes, more than {TABLE_BYTES:,}")
        certificate = offered.text.certificate
        if wrong is not None:
            self.find_failures(offered, None, wrong)
            return model.Offer(offered.module)
        data = self.stated(certificate, offered)
        if len(data) > CERTIFICATE_BYTES:
            self.fail(certificate.at, f"the certificate has {len(data):,} bytes, more than {CERTIFICATE_BYTES:,}")
        return model.Offer(offered.module, data)

    def find_failures(self, offered: "Offered", stated: Optional[Data], wrong: Collection[int] = ()) -> bool:
        """Tells each failure of a module, with a certificate or without one; answers whether there is any. Functions that call what is
        imported wrongly aren't tried."""
        data = offered.module or b""
        trial = Trial(data, stated, source=self.names.of(data), advises=True)
        failures = [one for one in trial.failures() if not wrong or not is_behind(trial.subject, one, wrong)]
        for one in failures:
            self.refuse(one, offered)
        return bool(failures)

    def refuse(self, failure: Failure, offered: "Offered", there: Optional[Written] = None) -> None:
        """Tells a failure of a module, in the text that it stands in."""
        written = self.written.get(offered.module or b"")
        error = refused(failure, written, offered.text.module.at, there)
        if written is None or written.source is self.source:
            self.errors.append(error)
        else:
            self.others.append(TextErrors(written.source, [error]))

    def offered_module(self, module: Union[syntax.Module, syntax.HexBytes, syntax.FileName]) -> Optional[Data]:
        """A module's bytes, or None where it has errors."""
        if isinstance(module, syntax.Module):
            return self.module(module)
        if isinstance(module, syntax.HexBytes):
            return module.data
        before = len(self.errors)
        data = self.file(module)
        if len(self.errors) > before:
            return None
        if data.startswith(model.MAGIC) or not data:
            return data
        return self.module_of_text(module, data)

    def module_of_text(self, module: syntax.FileName, data: Data) -> Optional[Data]:
        """The bytes of a module of which a file has the text, or None where it has errors."""
        path = os.path.join(self.folder, module.name)
        try:
            inner = TextAssembler(read_source(path, data), os.path.dirname(path), self.prover, self.checks)
            tree = inner.parsed()
            made = inner.module(tree) if isinstance(tree, syntax.Module) else None
            if inner.errors:
                raise TextErrors(inner.source, inner.errors)
        except TextErrors as errors:
            self.others.append(errors)
            return None
        self.warnings += inner.warnings
        self.names.modules.update(inner.names.modules)
        self.written.update(inner.written)
        if made is None:
            self.fail(module.at, f"`{module.name}` is no module, but records", "name a text that is one module")
        return made

    def file(self, named: syntax.FileName) -> Data:
        """The bytes of a file."""
        path = os.path.join(self.folder, named.name)
        try:
            with open(path, "rb") as file:
                self.files.append(path)
                return file.read()
        except (OSError, ValueError) as error:
            return self.fail(named.at, f"`{named.name}` can't be read: {getattr(error, 'strerror', None) or error}",
                             "a file's name is relative to the folder of the text")

    def stated(self, certificate: Union[syntax.HexBytes, syntax.FileName, syntax.Made], offered: "Offered") -> Data:
        """A certificate that is given, that a file has, or that is made."""
        if isinstance(certificate, syntax.Made):
            return self.made(certificate, offered)
        before = len(self.errors)
        data = certificate.data if isinstance(certificate, syntax.HexBytes) else self.certificate_of(certificate)
        if self.checks and len(self.errors) == before:
            self.check_given(certificate.at, data, offered)
        return data

    def certificate_of(self, named: syntax.FileName) -> Data:
        """The certificate that a file has, as `moveledger prove` prints it."""
        try:
            return bytes.fromhex(self.file(named).decode("ascii"))
        except ValueError:
            return self.fail(named.at, f"`{named.name}` has no certificate's text, which is hexadecimal",
                             "`moveledger prove MODULE` prints one")

    def check_given(self, at: int, data: Data, offered: "Offered") -> None:
        """Tells what is wrong with a module or, where that has another certificate, with the one that is given."""
        failure = Trial(offered.module or b"", data, source=self.names.of(offered.module or b""), advises=True).first()
        if failure is None or self.find_failures(offered, None):
            return
        self.errors.append(TextError(at, "this isn't a certificate of the module",
                                     "write `certificate prove`, or leave it out: moveasm makes one", rule_said(failure),
                                     state=[*wrapped(f"{failure.place.text}: {failure.sentence}"), *failure.state]))

    def made(self, certificate: syntax.Made, offered: "Offered") -> Data:
        """A certificate that is made. Where there is none, the module's failures are told."""
        module = offered.module or b""
        try:
            return self.prover.certificate(module, self.names.of(module))
        except NotProved as why:
            if why.failure is None:
                return self.fail(certificate.at, str(why))
            self.find_failures(offered, None)
            return b""


class Offered(NamedTuple):
    """A module of a bundle: what the text has, and its bytes, or None where it has errors."""

    text: syntax.Offer
    module: Optional[bytes]


def is_named(subject: Subject) -> bool:
    """Whether a module's tables are such that others can name what it has: it passes phases 2 to 4."""
    if subject.reading.faults:
        return False
    try:
        for phase in (bounds, definitions):
            for check in phase.checks(subject):
                check.run()
    except Fails:
        return False
    return True


def is_behind(subject: Subject, failure: Failure, wrong: Collection[int]) -> bool:
    """Whether a failure may only come from function handles that are wrong, or from a struct's (-1)."""
    if failure.place.function is None:
        return -1 in wrong
    code = subject.module.functions[failure.place.function].code
    return -1 in wrong or any(one.name == "Call" and one.operand in wrong for one in code)


def assemble(text: str, name: str = "text") -> bytes:
    """The bytes of a text. TextErrors where it has errors, NoProgram where no program makes its certificates."""
    return TextAssembler(Source(name, text), "", Prover()).bytes()
