"""Sequences of all calls of a ledger, made at random from fixed seeds, beside a model that copies the whole ledger: where a block is begun
the model keeps the saved text, and where one is taken back it loads that text. The model's own ledger never has a block.
usage: python3 -m unittest discover -s bindings/python/tests    from the repository's top, with bindings/python on PYTHONPATH"""

import operator
import random
import sys
import unittest
from pathlib import Path
from typing import Any, Callable, Dict, List, NamedTuple, Optional, Set, Tuple

import moveledger
from moveledger.ledger import stored_in

TOP = Path(__file__).resolve().parents[3]
sys.path.append(str(TOP / "bindings/tests"))

import rows  # noqa: E402

SEEDS, STEPS, DEPTH = range(20), 300, 5
# What is met in the sequences outside of blocks, in blocks that are kept, and in blocks that are taken back.
LINES = ("Published", "Refusal", "Rejected", "Returned", "Aborted", "Exhausted", "Stored", "Count", "End", "Json")
ENDS = "outside", "kept", "taken back"
ONE = (1).to_bytes(16, "big")
# A step, and how often it is chosen.
Steps = List[Tuple[Callable[[], None], int]]


def at_home(record: bytes, home: int) -> bytes:
    """A record with another address in place of the address 1, wherever that stands: its sender, its module's, and in the module."""
    return record.replace(ONE, home.to_bytes(16, "big"))


def by(record: bytes, sender: int) -> bytes:
    """A record by another sender, where it has one."""
    if record[0] not in (1, 2) or len(record) < 32:
        return record
    _, begin = rows.number(record, 1)
    return record[:begin] + sender.to_bytes(16, "big") + record[begin + 16:]


class Kept(NamedTuple):
    """What a ledger tells as a whole, and what the model counts."""

    saved: bytes
    show: str
    audit: str
    answered: int
    runs: int
    modules: Dict[str, Optional[moveledger.Module]]


def shown(text: str) -> Dict[Tuple[str, str], str]:
    """The values of a show by their addresses and structs."""
    return {(line.address, line.struct): line.value for line in stored_in(text)}


class Sequence:
    """A ledger, and the model beside it: a ledger without blocks, what is kept of each open block, and the number of runs."""

    def __init__(self, test: unittest.TestCase, seed: int) -> None:
        self.test, self.random = test, random.Random(seed)
        self.ledger, self.model = moveledger.Ledger(), moveledger.Ledger()
        self.open: List[Kept] = []
        self.runs = 0
        self.rows = rows.of_rows()
        self.families = [rows.of_example(name) for name in ("upgrade", "owner", "faucet", "vault", "bundle", "references", "branches")]
        # The names of the lines that were met outside of blocks and in them, and how the blocks ended.
        self.met: Set[Tuple[str, str]] = set()
        self.lines: List[Set[str]] = []
        # Which kinds of changes were told.
        self.told: Set[str] = set()

    def close(self) -> None:
        """Frees the ledger, in whichever block it is."""
        self.ledger.close()
        self.model.close()

    def now(self, ledger: moveledger.Ledger) -> Kept:
        modules = {name: ledger.module(name) for name in ledger.modules()}
        return Kept(ledger.save(), ledger.show_text(), ledger.audit_text(), ledger.answered, self.runs, modules)

    def agree(self) -> None:
        """The ledger is the model's."""
        self.test.assertEqual(self.now(self.ledger), self.now(self.model))

    def some_records(self) -> bytes:
        """Records that follow one another in an example, or a worked row, at one of some addresses."""
        if self.random.random() < 0.7:
            source, home = self.random.choice(self.families), self.random.randint(1, 3)
            begin = self.random.choice((0, self.random.randrange(len(source))))
            chosen = source[begin:begin + self.random.randint(1, 10)]
        else:
            chosen, home = self.random.choice(self.rows), self.random.randint(1, 9)
        chosen = [at_home(record, home) for record in chosen]
        return b"".join(by(record, self.random.randint(1, 6)) if self.random.random() < 0.2 else record for record in chosen)

    def spoiled(self, records: bytes) -> bytes:
        """The same, cut or with another byte, now and then."""
        chance = self.random.random()
        if chance < 0.06:
            return records[:self.random.randrange(len(records))]
        if chance < 0.12:
            at = self.random.randrange(len(records))
            return records[:at] + bytes([self.random.randrange(256)]) + records[at + 1:]
        return records

    def note(self, report: moveledger.Report) -> None:
        """Counts runs, and notes which lines were met."""
        names = [type(line).__name__ for line in report]
        self.runs += sum(name in ("Returned", "Aborted", "Exhausted") for name in names)
        self.met.update((name, "outside") for name in names if not self.lines)
        for block in self.lines[-1:]:
            block.update(names)

    def apply(self) -> None:
        records = self.spoiled(self.some_records())
        report = self.ledger.apply(records)
        self.test.assertEqual(report.text, self.model.apply(records).text)
        self.note(report)
        self.agree()

    def begin(self) -> None:
        if len(self.open) == DEPTH:
            return
        self.open.append(self.now(self.ledger))
        self.lines.append(set())
        self.ledger.begin()
        self.agree()

    def rollback(self) -> None:
        if not self.open:
            self.test.assertRaises(moveledger.NoBlock, self.ledger.rollback)
        else:
            self.ledger.rollback()
            self.taken_back()
        self.agree()

    def taken_back(self) -> None:
        """The newest block was taken back: all is as it was where it was begun, in the model too."""
        kept = self.open.pop()
        self.met.update((name, "taken back") for name in self.lines.pop())
        self.runs = kept.runs
        self.test.assertEqual(self.now(self.ledger), kept)
        self.model.close()
        self.model = moveledger.Ledger(kept.saved, kept.answered)

    def commit(self) -> None:
        if not self.open:
            self.test.assertRaises(moveledger.NoBlock, self.ledger.commit)
        else:
            self.ledger.commit()
            self.kept()
        self.agree()

    def kept(self) -> None:
        """The newest block was kept, as a part of the one around it."""
        self.open.pop()
        names = self.lines.pop()
        self.met.update((name, "kept") for name in names)
        for around in self.lines[-1:]:
            around.update(names)

    def scope(self) -> None:
        """A block as a scope, that ends in one of three ways."""
        end = self.random.choice(("kept", "taken back", "left"))
        records = self.some_records()
        self.open.append(self.now(self.ledger))
        self.lines.append(set())
        try:
            with self.ledger.block() as block:
                report = block.apply(records)
                self.test.assertEqual(report.text, self.model.apply(records).text)
                self.note(report)
                if end == "taken back":
                    block.rollback()
                    self.test.assertRaises(moveledger.NoBlock, block.rollback)
                elif end == "left":
                    raise KeyError
        except KeyError:
            self.test.assertEqual(end, "left")
        if end == "kept":
            self.kept()
        else:
            self.taken_back()
        self.agree()

    def load(self) -> None:
        """A ledger that is loaded is the same, and has no open block. Where none is open, it takes the place of the other."""
        again = moveledger.Ledger(self.ledger.save(), self.ledger.answered)
        self.test.assertEqual(self.now(again), self.now(self.ledger))
        self.test.assertRaises(moveledger.NoBlock, again.rollback)
        pieces: List[bytes] = []
        self.ledger.save_to(pieces.append)
        self.test.assertEqual(b"".join(pieces), self.ledger.save())
        if self.open:
            again.close()
        else:
            self.ledger.close()
            self.ledger = again

    def differ(self) -> None:
        """What the newest block has changed is the difference of what stood where it was begun and what stands now."""
        if not self.open:
            self.test.assertRaises(moveledger.NoBlock, self.ledger.changes)
            self.test.assertRaises(moveledger.NoBlock, self.ledger.changed_modules)
            return
        old, new = self.open[-1], self.now(self.ledger)
        then, now = shown(old.show), shown(new.show)
        wanted = [moveledger.Change(*key, then.get(key), now.get(key)) for key in sorted({*then, *now}) if then.get(key) != now.get(key)]
        self.test.assertEqual(sorted(self.ledger.changes(), key=operator.itemgetter(0, 1)), wanted)
        modules = [moveledger.ChangedModule(name, name not in old.modules)
                   for name, module in new.modules.items() if old.modules.get(name) != module]
        self.test.assertEqual(self.ledger.changed_modules(), modules)
        self.told.update(word for word, holds in (("new", any(c.before is None for c in wanted)), ("gone", any(c.now is None for c in wanted)),
                                                  ("other", any(None not in c for c in wanted)), ("published", any(m.is_new for m in modules)),
                                                  ("replaced", not all(m.is_new for m in modules))) if holds)
        self.agree()

    def ask(self) -> None:
        Asked(self.test, self.ledger, self.random).compare(self.runs)
        self.agree()

    def run(self, steps: int) -> None:
        chances: Steps = [(self.apply, 40), (self.begin, 14), (self.rollback, 9), (self.commit, 9), (self.scope, 6), (self.load, 3),
                          (self.ask, 4), (self.differ, 8)]
        chosen = self.random.choices([step for step, _ in chances], [chance for _, chance in chances], k=steps)
        for at, step in enumerate(chosen):
            try:
                step()
            except AssertionError as error:
                raise AssertionError(f"step {at}, {step.__name__}, in {len(self.open)} blocks: {error}") from error


class Asked:
    """What questions by names and addresses tell, beside a show, an audit and a saved text of the whole."""

    def __init__(self, test: unittest.TestCase, ledger: moveledger.Ledger, chance: random.Random) -> None:
        self.test, self.ledger, self.random = test, ledger, chance
        self.show, self.audit = ledger.show(), ledger.audit()
        self.structs = sorted({line.struct for line in self.show} | {line.struct for line in self.audit})
        self.addresses = sorted({line.address for line in self.show} | {f"{home:032x}" for home in (0, 1, 2, 9)} | {"f" * 32})

    def compare(self, runs: int) -> None:
        self.values()
        self.at_addresses()
        for struct in self.structs:
            self.pages(struct)
        self.tallies()
        self.modules()
        self.test.assertEqual(self.ledger.runs(), runs)

    def values(self) -> None:
        found = {(line.address, line.struct): line.value for line in self.show}
        for address in self.addresses:
            for struct in [*self.structs, "0x1::M::Nothing", "0x99::M::Coin"]:
                value = found.get((address, struct))
                self.test.assertEqual(self.ledger.value(address, struct), value)
                told = None if value is None else {"address": address, "struct": struct, "value": value}
                self.test.assertEqual(self.ledger.value_json(address, struct), told)

    def at_addresses(self) -> None:
        for address in self.addresses:
            here = [line for line in self.show if line.address == address]
            self.test.assertEqual(self.ledger.values_at(address), here)
        if len({line.address for line in self.show}) == 1:
            self.test.assertEqual(self.ledger.show_at(self.show[0].address, json=True), self.ledger.show_text(json=True))

    def pages(self, struct: str) -> None:
        """All values of a struct from an address on, as they are told at once and by pages of so many keys."""
        start, most = int(self.random.choice(self.addresses), 16), self.random.choice((1, 2, 3, 100))
        wanted = [line for line in self.show if line.struct == struct and int(line.address, 16) >= start]
        self.test.assertEqual(list(self.ledger.values(struct, start)), wanted)
        found: List[str] = []
        after: Optional[int] = start
        while after is not None:
            page = self.ledger.show_page(struct, after, most)
            assert page is not None
            lines = page[0].splitlines()
            self.test.assertEqual(lines[-1], f"end {len(lines) - 1}")
            self.test.assertLessEqual(len(lines) - 1, most)
            self.test.assertTrue(page[1] is None or page[1] > after)
            found += lines[:-1]
            after = page[1]
        self.test.assertEqual(found, [f"at {line.address} {line.struct} {line.value}" for line in wanted])

    def tallies(self) -> None:
        counts: Dict[str, moveledger.Count] = {line.struct: line for line in self.audit}
        for struct in [*self.structs, "0x1::M::Nothing", "0x99::M::Coin"]:
            self.test.assertEqual(self.ledger.tally(struct), counts.get(struct))

    def modules(self) -> None:
        """The modules of the saved text, in its order."""
        saved = self.ledger.save()
        count, at = rows.number(saved, rows.number(saved, 4)[1])
        wanted: List[bytes] = []
        for _ in range(2 * count):
            length, begin = rows.number(saved, at)
            wanted.append(saved[begin:begin + length])
            at = begin + length
        names = self.ledger.modules()
        self.test.assertEqual(len(set(names)), count)
        told = [self.ledger.module(name) for name in names]
        self.test.assertEqual([part for module in told if module for part in module], wanted)
        lines: List[Any] = [*self.show, *self.audit]
        self.test.assertTrue(all(line.struct.rsplit("::", 1)[0] in names for line in lines))
        self.test.assertIsNone(self.ledger.module("0x99::M"))


class Sequences(unittest.TestCase):
    def test_sequences_are_those_of_a_model(self) -> None:
        met: Set[Tuple[str, str]] = set()
        told: Set[str] = set()
        for seed in SEEDS:
            sequence = Sequence(self, seed)
            with self.subTest(seed=seed):
                sequence.run(STEPS)
            sequence.close()
            met |= sequence.met
            told |= sequence.told
        for end in ENDS:
            self.assertLessEqual(set(LINES), {name for name, where in met if where == end}, end)
        self.assertEqual(told, {"new", "gone", "other", "published", "replaced"})

    def test_blocks_are_closed_from_within(self) -> None:
        """All ways to close three nested blocks in which a coin is minted, taken and minted again: the oldest that is taken back counts."""
        publish, mint, burn = (rows.of_example("upgrade")[at] for at in (4, 1, 5))
        for ends in range(8):
            with self.subTest(ends), moveledger.Ledger() as ledger:
                ledger.apply(publish)
                kept = []
                for record in mint, burn, mint:
                    kept.append((ledger.save(), ledger.answered))
                    ledger.begin()
                    self.assertIsInstance(ledger.apply(record)[0], moveledger.Returned)
                wanted = ledger.save(), ledger.answered
                for depth in reversed(range(3)):
                    is_kept = ends >> depth & 1
                    wanted = wanted if is_kept else kept[depth]
                    (ledger.commit if is_kept else ledger.rollback)()
                    self.assertEqual((ledger.save(), ledger.answered), wanted)

    def test_rows_are_taken_back(self) -> None:
        """Each worked row is answered in a block that is taken back. Then each of its records is tried out before it is answered, within a
        block that is kept: the report, and what is saved, are those of a ledger without blocks."""
        for number, records in enumerate(rows.of_rows()):
            with self.subTest(number), moveledger.Ledger() as ledger, moveledger.Ledger() as plain:
                wanted = plain.apply(b"".join(records)).text
                ledger.begin()
                self.assertEqual(ledger.apply(b"".join(records)).text, wanted)
                ledger.rollback()
                self.assertEqual((ledger.save(), ledger.answered), (moveledger.Ledger().save(), 0))
                self.assertEqual("".join(self.tried(ledger, records)), wanted)
                self.assertEqual((ledger.save(), ledger.answered), (plain.save(), plain.answered))

    def tried(self, ledger: moveledger.Ledger, records: List[bytes]) -> List[str]:
        """The lines of records, each of which is tried out and taken back before it is answered."""
        lines = []
        with ledger.block() as block:
            for record in records:
                with ledger.block() as trial:
                    tried = trial.apply(record).text
                    trial.rollback()
                lines.append(block.apply(record).text)
                self.assertEqual(tried, lines[-1])
        return lines


if __name__ == "__main__":
    unittest.main()
