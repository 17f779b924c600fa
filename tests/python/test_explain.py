"""Compares what `tools/movedis --explain` says of modules and streams with what the program answers: the phase that refuses a bundle, the
certificate that `prove` makes, how each run ends, what is shown and audited, and whether a saved ledger is loaded. Over a refused module
for each rule (docs/REFUSALS.md, whose words are compared too), the examples, the bytes in the tests, modules made at random, alone and in
bundles that name each other, runs of them, ledgers that they leave, and altered ones. The gate runs it over fewer modules and altered
ones. `scripts/test --make explain` writes what is said into docs/REFUSALS.md."""

import copy
import random
import re
import subprocess
import tempfile
import textwrap
import time
from functools import lru_cache
from pathlib import Path
from typing import Counter, Dict, Iterable, Iterator, List, Match, Optional, Sequence, Tuple, Union

from cases import Cases, Given, program
from common import COMMAND_TESTS, EXAMPLES, TESTS, TOP
from movetext import model
from movetext.errors import Source
from movetext.explain.answers import Answer, answers
from movetext.explain.forgiving import certificate_for
from movetext.explain.ledger import Ledger
from movetext.explain.subject import Subject
from movetext.explain.telling import module_explained, stream_explained
from movetext.explain.verdict import explain_module
from movetext.ledgers import read_ledger
from movetext.opcodes import OPCODES
from movetext.proving import Prover
from movetext.random_borrows import random_borrowing_text
from movetext.random_code import random_typed_module
from movetext.random_modules import random_module, random_value
from movetext.reader import read_module
from movetext.records import read_stream
from movetext.samples import altered, given_bytes, modules_in
from movetext.streaming import TextAssembler
from movetext.writer import write_certificate, write_ledger, write_module, write_record

IS_RANDOM = True
REFUSALS = TOP / "docs/REFUSALS.md"
# So many records are given to the program at once: a module that takes another's place is asked beside all that are published.
RECORDS = 100
SENDER = bytes(15) + b"\1"
# What a hostile module of 20 KB may take to be explained, of the processor's time: five times what it takes on a processor that
# does nothing else, since one that other scripts share may be half as fast and less.
HOSTILE_SECONDS = 15
# So many modules are published before so many runs, and so many altered ledgers are loaded behind these.
WORLD, RUNS, ALTERED_LEDGERS = 8, 40, 15
ADDRESSES = [bytes(15) + bytes([n]) for n in range(1, 5)]
# A text of docs/REFUSALS.md, which stands by itself on lines that begin with blanks, and what is said of it.
EXAMPLE = re.compile(r"^( {4}.*\n(?:(?: {4}.*)?\n)*)(?:```\n((?:(?!```).*\n)*)```\n)?", re.M)
# A module and its certificate; records by world, the modules in them, and records with other certificates.
Offered = Tuple[bytes, bytes]
World = Tuple[List[List[bytes]], List[Offered], List[bytes]]
NOT_PROVED = re.compile("refused [0-9]+|too complex")


class Comparison:
    """Asks the program and --explain the same, and counts the answers of each part of what is tried."""

    def __init__(self, program: str):
        self.program = program
        self.counts: Dict[str, Counter[Optional[str]]] = {}
        self.differences: List[str] = []

    def count(self, part: str, answer: Optional[str]) -> None:
        if part not in self.counts:
            print(f"comparing {part}", flush=True)
        self.counts.setdefault(part, Counter())[answer] += 1

    def asked(self, *words: Union[str, Path]) -> str:
        return subprocess.run([self.program, *words], stdout=subprocess.PIPE, stdin=subprocess.DEVNULL).stdout.decode()

    def streams(self, part: str, records: Iterable[bytes]) -> None:
        """Compares the answers to publish records, which come as bytes, so many in a stream."""
        records = list(records)
        for first in range(0, len(records), RECORDS):
            some = records[first:first + RECORDS]
            self.stream(part, b"".join(some), some)

    def stream(self, part: str, data: bytes, records: Sequence[bytes] = (), loaded: Optional[bytes] = None) -> Optional[bytes]:
        """Compares the answers to a stream's records, over an empty ledger or a saved one. Answers the ledger that the program
        saves then, or None where it loads none."""
        with tempfile.TemporaryDirectory() as folder:
            files = [Path(folder, name) for name in ("records", "ledger", "saved")]
            for file, given in zip(files, (data, loaded or b"")):
                file.write_bytes(given)
            words: List[Union[str, Path]] = [] if loaded is None else ["--load", files[1]]
            report = self.asked("apply", *words, "--save", files[2], files[0])
            saved = files[2].read_bytes() if files[2].exists() else None
        self.same_report(part, data, records, report, loaded)
        return saved

    def same_report(self, part: str, data: bytes, records: Sequence[bytes], report: str, loaded: Optional[bytes]) -> None:
        """Compares a report with what --explain says, record by record."""
        ledger = Ledger()
        refusal = None if loaded is None else ledger.load(loaded)
        if loaded is not None and (refusal or report.startswith("load refused")):
            ours = refusal.failure.verdict if refusal else "loaded"
            self.count(part, ours)
            if report != ours + "\n":
                why = refusal.failure.lines() if refusal else []
                self.differ(f"{part}: the program says {report!r}, and --explain {ours}", [*why, loaded.hex()])
            return
        lines: Dict[str, List[str]] = {}
        for line in report.splitlines():
            lines.setdefault(line.partition(" ")[0], []).append(line)
        said = {str(answer.number): answer for answer in answers(data, ledger)}
        for number in sorted({*lines, *said}, key=int):
            answer = said.get(number)
            told = answer.lines if answer else []
            self.count(part, class_of(answer))
            if told != lines.get(number):
                shown = records[int(number) - 1] if records else data
                self.differ(f"{part}, record {number}: the program answers {lines.get(number)}, and --explain {told}",
                            (answer.failure.lines() if answer and answer.failure else []) + [shown.hex(), (loaded or b"").hex()])

    def proved(self, part: str, module: bytes) -> None:
        """Compares what is printed of a module without a certificate: a certificate, or why there is none."""
        with tempfile.NamedTemporaryFile() as file:
            file.write(module)
            file.flush()
            printed = self.asked("prove", file.name).strip()
        self.same_proof(part, module, printed)

    def same_proof(self, part: str, module: bytes, printed: str) -> None:
        verdict = explain_module(module)
        ours = verdict.failure.verdict if verdict.failure else write_certificate(model.known(verdict.least)).hex()
        self.count(part, ours if NOT_PROVED.fullmatch(ours) else "a certificate")
        if ours != printed:
            self.differ(f"{part}: the program prints {printed}, and --explain says {ours}", [module.hex()])

    def differ(self, front: str, lines: List[str]) -> None:
        self.differences.append(front)
        print("\n".join(["differs: " + front, *lines]), flush=True)


def class_of(answer: Optional[Answer]) -> str:
    """An answer without its numbers, but for those of phases, reasons and modules."""
    if answer is None:
        return "nothing"
    word, _, rest = answer.words[-1].partition(" ")
    return f"{word} {rest}" if word in ("published", "refused", "rejected") else f"{word} {rest.split(' ')[0]}" \
        if word in ("aborted", "exhausted") else word if word == "returned" else answer.kind


def record_of(*offers: Tuple[bytes, bytes], sender: bytes = SENDER) -> bytes:
    return write_record(model.Publish(sender, [model.Offer(*one) for one in offers]))


def loosened(draw: random.Random, subject: Subject, stated: model.Certificate) -> model.Certificate:
    """A certificate that states something else of a block: more, less, or other edges."""
    stated = copy.deepcopy(stated)
    states = [(function, state) for function, blocks in enumerate(stated.functions) for state in blocks if state]
    for _ in range(draw.choice((1, 1, 2, 4)) if states else 0):
        function, state = draw.choice(states)
        types = model.known(subject.module.local_types(subject.module.functions[function]))
        slots = [model.Node(model.SLOT, local) for local, one in enumerate(types) if one.is_reference]
        sources = [model.Node(model.OWN, local) for local, one in enumerate(types) if not one.is_reference]
        sources += [node for node in slots if types[node.index].is_mutable]
        sources += [model.Node(model.GLOB, struct) for struct in range(len(subject.module.structs))]
        way = draw.randrange(5)
        if way == 0 and state.availabilities:
            state.availabilities[draw.randrange(len(types))] = draw.choice((0, 1, 2, 2))
        elif way == 1 and state.edges:
            state.edges.pop(draw.randrange(len(state.edges)))
        elif way == 2 and state.edges:
            at = draw.randrange(len(state.edges))
            old = state.edges[at]
            state.edges[at] = model.Edge(old.source, old.target, old.positions[:draw.randrange(3)], draw.random() < 0.8)
        elif slots and sources:
            source, target = draw.choice(sources), draw.choice(slots)
            positions = tuple(draw.randrange(3) for _ in range(draw.choice((0, 0, 1, 2))))
            if source != target:
                state.edges.append(model.Edge(source, target, positions, draw.random() < 0.5))
        state.edges = sorted(set(state.edges))
    return stated


def other_module(draw: random.Random, module: model.Module) -> model.Module:
    """A module in which something is another one: an instruction, a type, a flag, an ability, an acquires list or a name."""
    module = copy.deepcopy(module)
    for _ in range(draw.choice((1, 1, 2, 3))):
        draw.choice(CHANGES)(draw, module)
    return module


def change_code(draw: random.Random, module: model.Module) -> None:
    codes = [one.code for one in module.functions if one.code]
    if not codes:
        return
    code = draw.choice(codes)
    at, way = draw.randrange(len(code)), draw.randrange(5)
    if way == 0:
        code.pop(at)
    elif way == 1:
        code.insert(at, copy.copy(draw.choice(code)))
    elif way == 2 and code[at].operand is not None:
        code[at].operand = max(0, code[at].operand + draw.choice((-1, 1))) % 2 ** 7
    elif way == 3:
        code[at], code[at - 1] = code[at - 1], code[at]
    else:
        # (none where the instruction is of a later version than its module)
        alike = [one for one in OPCODES if (one.operand, one.width) == code[at].opcode[2:4] and one.version <= module.version]
        if alike:
            code[at] = model.Instruction(draw.choice(alike), code[at].operand)


def change_type(draw: random.Random, module: model.Module) -> None:
    if module.signatures:
        at = draw.randrange(len(module.signatures))
        types = list(module.signatures[at])
        others = [one for signature in module.signatures for one in signature]
        if types and others:
            types[draw.randrange(len(types))] = draw.choice(others)
        module.signatures[at] = tuple(types)


def change_function(draw: random.Random, module: model.Module) -> None:
    if not module.functions:
        return
    one, way = draw.choice(module.functions), draw.randrange(4)
    if way == 0:
        one.is_public = not one.is_public
    elif way == 1:
        one.is_entry = not one.is_entry
    elif way == 2 and module.structs:
        one.acquires.append(draw.randrange(len(module.structs)))
    elif one.acquires:
        one.acquires.pop(draw.randrange(len(one.acquires)))


def change_struct(draw: random.Random, module: model.Module) -> None:
    if module.struct_handles and draw.random() < 0.6:
        at = draw.randrange(len(module.struct_handles))
        one = module.struct_handles[at]
        module.struct_handles[at] = model.StructHandle(one.module, one.name, one.abilities ^ draw.choice((1, 2, 4, 8)))
    elif module.structs:
        fields = draw.choice(module.structs).fields
        types = [one for signature in module.signatures for one in signature]
        types += [model.Token(model.STRUCT, struct=one) for one in range(len(module.struct_handles))]
        types += [model.Token(model.REFERENCE, inner=one) for one in types if not one.is_reference]
        if fields:
            at = draw.randrange(len(fields))
            other = model.Field(fields[at].name, draw.choice(types))
            fields[at] = copy.copy(draw.choice(fields)) if draw.random() < 0.3 else other


def change_constant(draw: random.Random, module: model.Module) -> None:
    if module.constants:
        at = draw.randrange(len(module.constants))
        one = module.constants[at]
        types = [one.type for one in module.constants] + [one for signature in module.signatures for one in signature]
        data = one.data if draw.random() < 0.5 else bytes(draw.randrange(3) for _ in range(draw.randrange(3)))
        module.constants[at] = model.Constant(draw.choice(types), data)


def change_name(draw: random.Random, module: model.Module) -> None:
    module.identifiers[draw.randrange(len(module.identifiers))] = draw.choice("abcMNS") + str(draw.randrange(40))


CHANGES = [change_code] * 6 + [change_function, change_struct] * 2 + [change_type, change_constant, change_name]


def assemble(text: str) -> bytes:
    return TextAssembler(Source("docs/REFUSALS.md", text), "", Prover(None)).bytes()


def try_tests(comparison: Comparison) -> None:
    """The tests' rows, by the answers that stand beside them, which need no program."""
    for row in (TESTS / "rows.rt").read_text().split('r#"')[1].split("#")[1:]:
        _, records, report = (row.split("\n") + ["", ""])[:3]
        comparison.same_report("rows of tests", bytes.fromhex(records), (), report.replace("; ", "\n"), None)
    text = (COMMAND_TESTS / "authoring.rt").read_text()
    for row in text.split("const PROVED")[1].split("const CHECKED")[0].split("#")[1:]:
        _, digits, printed = row.split("\n")[:3]
        comparison.same_proof("rows of tests, proved", bytes.fromhex(digits), printed)
    for row in text.split("const CHECKED")[1].split("#")[1:]:
        _, digits, line = row.split("\n")[:3]
        stated, _, answer = line.partition(": ")
        stated = stated.replace("\\n", "\n")
        if re.fullmatch("([0-9a-fA-F]{2})*\n?", stated):
            failure = explain_module(bytes.fromhex(digits), bytes.fromhex(stated)).failure
            comparison.count("rows of tests, checked", answer)
            if (failure.verdict if failure else "accepted") != answer:
                comparison.differ(f"authoring.rt: {answer} stands there, and --explain says {failure}", [digits, stated])


def try_given(comparison: Comparison, paths: Iterable[Path]) -> List[Offered]:
    """What stands in files: streams as they are, and each module in a record of its own and without a certificate."""
    found = dict(given_bytes(paths))
    modules: Dict[bytes, bytes] = {}
    for what, data in found.items():
        if data[:4] != model.MAGIC:
            comparison.stream("streams in files", data)
        modules.update(modules_in(data))
    comparison.streams("modules in files", [record_of(one, sender=own_address(one[0])) for one in modules.items()])
    for module in modules:
        comparison.proved("modules in files, proved", module)
    return list(modules.items())


def own_address(data: bytes) -> bytes:
    """The address that a module calls its own, or any."""
    module = read_module(data).module
    return module.address_of(module.own) or SENDER


def random_records(draw: random.Random, count: int) -> World:
    """Records of modules made at random, so many for an empty ledger; the modules with their certificates; and records of some
    of them with certificates that state something else."""
    records: List[List[bytes]] = []
    made: List[Offered] = []
    others: List[bytes] = []
    while len(made) < count:
        more, modules, loose = random_world(draw, min(count - len(made), RECORDS))
        records.append(more)
        made += modules
        others += loose
    return records, made, others


def random_world(draw: random.Random, count: int) -> Tuple[List[bytes], List[Offered], List[bytes]]:
    """Records of modules made at random, the modules with their certificates, and records of some that state something else.
    Three of four find the types that they need: half borrow much, some take the places of others, or come in bundles."""
    ledger = Ledger()
    world: List[model.Module] = []
    records: List[bytes] = []
    made: List[Offered] = []
    others: List[bytes] = []
    while len(made) < count:
        if len(made) % 4 == 0:
            made.append((write_module(random_module(draw, draw.random() < 0.5)), b""))
            records.append(record_of(made[-1], sender=own_address(made[-1][0])))
            continue
        bundle = random_bundle(draw, world, len(made))
        offers = [(data, certificate_for(data)) for data in map(write_module, bundle)]
        sender = SENDER if draw.random() < 0.98 else bytes(16)
        records.append(record_of(*[(data, write_certificate(stated)) for data, stated in offers], sender=sender))
        made += [(data, write_certificate(stated)) for data, stated in offers]
        if is_published(ledger, records[-1]) or draw.random() < 0.02:
            world = (world + bundle)[-60:]
        data, stated = draw.choice(offers)
        if any(stated.functions):
            other = loosened(draw, explain_module(data, b"\xff").subject, stated)
            others.append(record_of((data, write_certificate(other)), sender=own_address(data)))
    return records, made, others


def random_bundle(draw: random.Random, world: List[model.Module], number: int) -> List[model.Module]:
    """The modules of a bundle: one that borrows much, or some that name others."""
    bundle: List[model.Module] = []
    if number % 4 in (1, 3):
        bundle.append(read_module(assemble(random_borrowing_text(draw, f"B{number}"))).module)
    for _ in range(draw.choice((1, 1, 1, 2, 3)) if not bundle else 0):
        bundle.append(random_linked(draw, world + bundle, number + len(bundle)))
    if draw.random() < 0.2:
        draw.shuffle(bundle)
    return bundle


def is_published(ledger: Ledger, record: bytes) -> bool:
    """Whether a record's bundle joins a ledger, by --explain."""
    reading = read_stream(record)
    published = reading.stream.records[0]
    return isinstance(published, model.Publish) and ledger.publish(published, reading.places[0]) is None


def random_linked(draw: random.Random, world: List[model.Module], number: int) -> model.Module:
    """A module that names others of these, or one that takes the place of one."""
    if world and draw.random() < 0.15:
        before = draw.choice(world)
        if draw.random() < 0.7:
            return other_module(draw, before)
        own = model.known(before.address_of(before.own)), model.known(before.module_name(before.own))
        return random_typed_module(draw, own, draw.sample(world, min(len(world), 2)))
    others = draw.sample(world, min(len(world), draw.choice((0, 0, 1, 1, 2))))
    errors, needs = draw.choice(((0, 0), (0, 0), (0.01, 0), (0, 0.5), (0, 1)))
    return random_typed_module(draw, (SENDER, f"M{number}"), others, errors, needs)


def altered_records(draw: random.Random, bases: List[Offered], count: int) -> Iterator[bytes]:
    """Records of altered modules: of their bytes, of what they say, or of their certificates' bytes."""
    bases = [one for one in bases if len(one[0]) < 4_000]
    for _ in range(count):
        data, stated = draw.choice(bases)
        sender, way = own_address(data), draw.randrange(5)
        if way == 0 and stated:
            yield record_of((data, altered(draw, stated)), sender=sender)
            continue
        data = altered(draw, data) if way < 3 else write_module(other_module(draw, read_module(data).module))
        yield record_of((data, write_certificate(certificate_for(data))), sender=own_address(data))


def try_random(comparison: Comparison, seed: str, counts: Tuple[int, int], given: List[Offered]) -> None:
    """Modules made at random, and altered ones."""
    draw = random.Random(f"{seed} random")
    worlds, made, others = random_records(draw, counts[0])
    for records in worlds:
        comparison.stream("modules made at random", b"".join(records), records)
    comparison.streams("other states of these", others)
    for data, _ in made[:counts[0] // 4]:
        comparison.proved("modules made at random, proved", data)
    comparison.streams("altered", altered_records(random.Random(f"{seed} altered"), given + made, counts[1]))


def try_runs(comparison: Comparison, seed: str, count: int) -> None:
    """Runs of modules made at random, over the ledgers that they leave, and over altered ones."""
    draw = random.Random(f"{seed} runs")
    while count > 0:
        records, modules = runnable_world(draw)
        kept: Optional[bytes] = None
        for part in ("runs made at random", "runs over a loaded ledger"):
            some = records + random_runs(draw, modules, RUNS)
            kept = comparison.stream(part, b"".join(some), some, kept)
            records, count = [], count - RUNS
        saved = model.known(kept)
        some = random_runs(draw, modules, 5)
        comparison.stream("runs over a loaded ledger of the old form", b"".join(some), some, old_form(saved))
        for _ in range(ALTERED_LEDGERS):
            base = altered_ledger(draw, draw.choice((saved, old_form(saved))))
            comparison.stream("altered ledgers", b"".join(some), some, base)


def altered_ledger(draw: random.Random, saved: bytes) -> bytes:
    """A saved ledger that is altered: mostly behind its modules."""
    reading = model.known(read_ledger(saved))
    ends = [at + len(offer.certificate) for at, offer in zip(reading.certificate_offsets, reading.ledger.offers)]
    behind = max(ends, default=4)
    for _ in range(draw.choice((1, 1, 2))):
        at = draw.choices((behind, 4, 0), (6, 3, 1))[0]
        saved = saved[:at] + altered(draw, saved[at:])
    return saved


def runnable_world(draw: random.Random) -> Tuple[List[bytes], List[model.Module]]:
    """Records that publish some modules, and those that are published then."""
    ledger = Ledger()
    world: List[model.Module] = []
    records: List[bytes] = []
    for number in range(WORLD):
        module = random_typed_module(draw, (SENDER, f"M{number}"), draw.sample(world, min(len(world), 2)), 0, 0)
        data = write_module(module)
        record = record_of((data, write_certificate(certificate_for(data))))
        if is_published(ledger, record):
            world.append(module)
            records.append(record)
    coins = (EXAMPLES / "faucet.stream").read_bytes()
    records.append(coins[:read_stream(coins).places[1].at])
    return records, world + [read_module(offer).module for offer, _ in modules_in(coins)]


def old_form(saved: bytes) -> bytes:
    """The same ledger in the old form."""
    ledger = model.known(read_ledger(saved)).ledger
    ledger.form = 1
    ledger.stored.sort(key=lambda one: (one.address, one.place, one.struct))
    return write_ledger(ledger)


def random_runs(draw: random.Random, modules: List[model.Module], count: int) -> List[bytes]:
    """Records of runs, most of which are begun, and of shows and audits."""
    called = [(one, function) for one in modules for function in one.functions for _ in range(1 + 9 * function.is_entry)]
    records = []
    for _ in range(count if called else 0):
        module, function = draw.choice(called)
        wanted = [one for one in model.known(module.parameters(function)) if one.kind in model.LEAF_WIDTHS]
        kinds = [one.kind for one in wanted]
        if draw.random() < 0.05:
            kinds.append(draw.choice(list(model.LEAF_WIDTHS)))
        name = model.known(module.function_name(function.handle)) if draw.random() < 0.98 else "none"
        budget = draw.choice((draw.randrange(12), 100, 2_000, 2_000, 2_000, 10_000_001 + draw.randrange(3)))
        where = model.known(module.address_of(module.own)) if draw.random() < 0.98 else bytes(16)
        arguments = [model.Value(kind, small_value(draw, kind)) for kind in kinds]
        sender = draw.choice(ADDRESSES)
        called_module = model.known(module.module_name(module.own))
        records.append(write_record(model.Run(sender, where, called_module, name, budget, arguments)))
        if draw.random() < 0.05:
            is_json = draw.random() < 0.3
            records.append(write_record(model.Show(is_json) if draw.random() < 0.5 else model.Audit(is_json)))
    return [*records, write_record(model.Show()), write_record(model.Audit(True))]


def small_value(draw: random.Random, kind: int) -> Union[bool, int, bytes]:
    """A value of a kind: an address of few, a small number, or any."""
    if kind == model.ADDRESS:
        return draw.choice(ADDRESSES)
    return draw.randrange(9) if kind in model.NUMBER_KINDS and draw.random() < 0.7 else random_value(draw, kind)


def hostile_text(functions: int) -> str:
    """A module whose blocks are visited often by the search for the least states: in each function, edges are shifted through
    40 references in an inner loop, and 7 of them turned round in an outer one."""
    front = ["ImmBorrowLoc p1; StLoc l8"] + [f"ImmBorrowLoc p{n}; StLoc l{n + 7}" for n in range(2, 8)]
    front += [f"ImmBorrowLoc p1; StLoc l{n}" for n in range(15, 55)]
    inner = ["outer: CopyLoc l8; StLoc l15", "inner: CopyLoc p0; BrFalse turn"]
    inner += [f"CopyLoc l{n - 1}; StLoc l{n}" for n in range(54, 15, -1)] + ["Branch inner"]
    turn = ["turn: CopyLoc l8; StLoc l55"] + [f"CopyLoc l{n + 1}; StLoc l{n}" for n in range(8, 14)]
    code = "\n".join([*front, *inner, *turn, "CopyLoc l55; StLoc l14; CopyLoc p0; BrTrue outer; Ret"])
    head = f"(p0: bool, {', '.join(f'p{n}: u64' for n in range(1, 8))}) {{\n"
    lets = "".join(f"let l{n}: &u64\n" for n in range(8, 56))
    return "module 0x1::V {\n" + "".join(f"f{n}{head}{lets}{code}\n}}\n" for n in range(functions)) + "}\n"


def try_hostile(comparison: Comparison) -> None:
    """A module of 20 KB that keeps the search busy is explained in some seconds of the processor."""
    module, before = assemble(hostile_text(50)), time.process_time()
    comparison.proved("a hostile module", module)
    seconds = time.process_time() - before
    if seconds > HOSTILE_SECONDS:
        comparison.differ(f"a hostile module of {len(module):,} bytes: {seconds:.1f} seconds, more than {HOSTILE_SECONDS}", [])


def said_of(text: str) -> Tuple[bytes, str]:
    """The bytes of a text of docs/REFUSALS.md, and what is said of them."""
    maker = TextAssembler(Source("text", textwrap.dedent(text)), "", Prover(None))
    data = maker.bytes()
    said = module_explained(data, None, maker.names) if data[:4] == model.MAGIC \
        else stream_explained(data, None, None, maker.names)
    return data, "\n".join(said.lines) + "\n"


def make() -> None:
    """Writes what is said of each text into docs/REFUSALS.md."""
    def with_words(found: Match[str]) -> str:
        after = "" if found[2] is not None else "\n"
        return found[1].rstrip("\n") + "\n\n```\n" + said_of(found[1])[1] + "```\n" + after
    REFUSALS.write_text(EXAMPLE.sub(with_words, REFUSALS.read_text()))


def try_refusals(comparison: Comparison) -> None:
    """The texts of docs/REFUSALS.md: what is said of each is what stands there, and as the program answers."""
    for found in EXAMPLE.finditer(REFUSALS.read_text()):
        data, said = said_of(found[1])
        comparison.count("texts of docs/REFUSALS.md", said.split("\n")[0])
        if found[2] != said:
            comparison.differ(f"docs/REFUSALS.md: of this text is said\n{said}", [found[1]])
        if data[:4] == model.MAGIC:
            comparison.proved("modules of docs/REFUSALS.md, proved", data)
            data = record_of((data, write_certificate(certificate_for(data))), sender=own_address(data))
        comparison.stream("streams of docs/REFUSALS.md", data)


def try_programs(comparison: Comparison, stream: Path) -> None:
    """The program movedis itself: what it prints of a stream, a record, and a module with a certificate, and its statuses."""
    lines, _, is_accepted = stream_explained(stream.read_bytes())
    one, _, is_published = stream_explained(stream.read_bytes(), 1)
    (module, certificate), *_ = modules_in(stream.read_bytes())
    with tempfile.TemporaryDirectory() as folder:
        files = [Path(folder, name) for name in ("module", "certificate")]
        files[0].write_bytes(module)
        files[1].write_text(certificate.hex() + "\n")
        cases: List[Tuple[Sequence[Union[str, Path]], Sequence[str], int]] = [
            ([stream], lines, 0 if is_accepted else 3), (["--record", "1", stream], one, 0 if is_published else 3),
            (files, ["accepted"], 0), (["--record", "0", stream], [], 2), (["--record", "99", stream], [], 3),
            ([EXAMPLES / "kept.ledger"], ["loaded: 1 module, 1 stored value, 1 run"], 0)]
        for words, wanted, status in cases:
            ended = subprocess.run([TOP / "tools/movedis", "--explain", *words], stdout=subprocess.PIPE,
                                   stderr=subprocess.DEVNULL)
            comparison.count("command lines", f"status {ended.returncode}")
            if (ended.stdout.decode().splitlines(), ended.returncode) != (wanted, status):
                comparison.differ(f"movedis --explain {words}: status {ended.returncode}", [ended.stdout.decode()])


@lru_cache(maxsize=None)
def comparison() -> Comparison:
    return Comparison(program())


@lru_cache(maxsize=None)
def in_files() -> List[Offered]:
    """The modules in files, which are compared once."""
    return try_given(comparison(), [*sorted(EXAMPLES.glob("*.stream")), *sorted(TESTS.rglob("*.rt")), *map(Path, Given.files)])


def summary() -> str:
    return "all compare equal"


class Explain(Cases):
    """What --explain says, beside what the program answers."""

    @classmethod
    def tearDownClass(cls) -> None:
        for part, counts in comparison().counts.items():
            told = ", ".join(f"{count} {answer}" for answer, count in sorted(counts.items(), key=str))
            print(f"{part}: {sum(counts.values())} compared ({told})")

    def setUp(self) -> None:
        self.before = len(comparison().differences)

    def tearDown(self) -> None:
        count = len(comparison().differences) - self.before
        self.assertEqual(count, 0, f"{count} differ")

    def test_refusals(self) -> None:
        try_refusals(comparison())

    def test_hostile(self) -> None:
        try_hostile(comparison())

    def test_programs(self) -> None:
        try_programs(comparison(), EXAMPLES / "upgrade.stream")

    def test_tests(self) -> None:
        try_tests(comparison())

    def test_given(self) -> None:
        self.assertTrue(in_files())

    def test_random(self) -> None:
        try_random(comparison(), Given.seed, (Given.random, Given.altered), in_files())

    def test_runs(self) -> None:
        try_runs(comparison(), Given.seed, Given.runs)
