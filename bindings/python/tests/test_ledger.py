"""The library through Python: the examples, what is refused, threads, and lines.
usage: python3 -m unittest discover -s bindings/python/tests    from the repository's top, with bindings/python on PYTHONPATH"""

import copy
import importlib.util
import pickle
import threading
import unittest
from pathlib import Path
from typing import Callable, Dict, List, Optional, Union

import moveledger
from moveledger.report import read_line

EXAMPLES = Path(__file__).resolve().parents[3] / "examples"
FIRST = (EXAMPLES / "first-coin.stream").read_bytes()
# Where the module stands in it, and where the record that mints begins.
MODULE, MINT = FIRST[20:119], FIRST[124:]
PUBLISH = FIRST[:124]


def mint(sender: int) -> bytes:
    """The record by which an address mints a coin."""
    return MINT[:2] + sender.to_bytes(16, "big") + MINT[18:]


class Answers(unittest.TestCase):
    def test_examples_are_answered(self) -> None:
        reports = sorted(EXAMPLES.glob("*.report"))
        self.assertTrue(reports)
        for report in reports:
            kept = report.with_suffix(".ledger")
            with self.subTest(report.stem), moveledger.Ledger(kept.read_bytes() if kept.exists() else None) as ledger:
                answer = ledger.apply(report.with_suffix(".stream").read_bytes())
                self.assertEqual(answer.text, report.read_text(encoding="ascii"))
                self.assertFalse(any(isinstance(line, moveledger.Unknown) for line in answer))

    def test_a_ledger_is_saved_asked_and_loaded(self) -> None:
        with moveledger.Ledger() as ledger:
            self.assertEqual(list(ledger.apply(FIRST)), [moveledger.Published(1, 1), moveledger.Returned(2, 5)])
            saved = ledger.save()
            self.assertEqual(saved, (EXAMPLES / "kept.ledger").read_bytes())
            coin = "00000000000000000000000000000001::M::Coin"
            self.assertEqual(ledger.show(), [moveledger.Stored(0, f"{1:032x}", coin, "{7}")])
            self.assertEqual(ledger.audit(), [moveledger.Count(0, coin, 1, 1, 0)])
            self.assertEqual(ledger.show_text(json=True)[:15], 'json {"show":[{')
        again = moveledger.Ledger(saved, answered=2)
        self.assertEqual(again.apply(mint(2)).text, "3 returned 5\n")
        self.assertEqual(again.answered, 3)

    def test_an_old_ledger_is_migrated(self) -> None:
        self.assertEqual(moveledger.migrate((EXAMPLES / "old.ledger").read_bytes()), (EXAMPLES / "kept.ledger").read_bytes())


COIN, COIN_LINE = "0x1::M::Coin", "00000000000000000000000000000001::M::Coin"
# One address, as it may be told.
ADDRESSES: List[Union[int, str]] = [1, "1", "0x1", f"{1:032x}"]


class Questions(unittest.TestCase):
    def test_a_value_is_asked_for(self) -> None:
        with moveledger.Ledger() as ledger:
            ledger.apply(FIRST)
            for struct in COIN, COIN_LINE:
                self.assertEqual([ledger.value(address, struct) for address in ADDRESSES], ["{7}"] * len(ADDRESSES))
            self.assertEqual(ledger.value_json(1, COIN), {"address": f"{1:032x}", "struct": COIN_LINE, "value": "{7}"})
            self.assertEqual(ledger.show_value(1, COIN), f"at {1:032x} {COIN_LINE} {{7}}\nend 1\n")
            self.assertEqual(ledger.values_at(1), ledger.show())
            self.assertEqual(ledger.show_at(1, json=True), ledger.show_text(json=True))
            self.assertEqual((ledger.show_at(2), ledger.values_at(2)), ("end 0\n", []))

    def test_what_is_not_there_is_none(self) -> None:
        with moveledger.Ledger() as ledger:
            ledger.apply(FIRST)
            self.assertIsNone(ledger.value(2, COIN))
            for struct in "0x2::M::Coin", "0x1::N::Coin", "0x1::M::Coins", "0x1::M::", "0x1::::Coin":
                self.assertIsNone(ledger.value(1, struct))
                self.assertIsNone(ledger.value_json(1, struct))
                self.assertIsNone(ledger.tally(struct))
                self.assertEqual((ledger.show_page(struct, 0, 1), list(ledger.values(struct))), (None, []))
            for module in "0x2::M", "0x1::N", "0x1::":
                self.assertIsNone(ledger.module(module))

    def test_what_is_no_name_is_refused(self) -> None:
        with moveledger.Ledger() as ledger:
            for struct in "Coin", "0x1::M", "0x1::M::Coin::u64", "x::M::Coin", f"{1 << 128:x}::M::Coin":
                self.assertRaises(ValueError, ledger.value, 1, struct)
            for address in -1, 1 << 128, "", "0xg":
                self.assertRaises(ValueError, ledger.value, address, COIN)
                self.assertRaises(ValueError, ledger.values_at, address)
            self.assertRaises(ValueError, ledger.module, COIN)
            self.assertRaises(ValueError, ledger.show_page, COIN, 0, 0)

    def test_values_of_a_struct_come_in_pages(self) -> None:
        with moveledger.Ledger() as ledger:
            ledger.apply(PUBLISH + b"".join(map(mint, range(1, 41))))
            shown = ledger.show()
            self.assertEqual((len(shown), list(ledger.values(COIN))), (40, shown))
            self.assertEqual(list(ledger.values(COIN, 31)), shown[30:])
            for most in 1, 7, 40, 41:
                found, pages = "", 0
                start: Optional[int] = 0
                while start is not None:
                    page = ledger.show_page(COIN, start, most)
                    assert page is not None
                    text, after = page
                    found += "".join(text.splitlines(True)[:-1])
                    self.assertTrue(after is None or after > start)
                    start, pages = after, pages + 1
                self.assertEqual(found, "".join(ledger.show_text().splitlines(True)[:-1]))
                self.assertGreaterEqual(pages, 40 // most)

    def test_modules_runs_and_tallies(self) -> None:
        with moveledger.Ledger() as ledger:
            self.assertEqual((ledger.modules(), ledger.runs(), ledger.tally(COIN)), ([], 0, None))
            ledger.apply(FIRST + mint(2))
            self.assertEqual((ledger.modules(), ledger.runs()), ([f"{1:032x}::M"], 2))
            self.assertEqual([ledger.tally(COIN)], ledger.audit())
            found = ledger.module(ledger.modules()[0])
            self.assertEqual(found, moveledger.Module(MODULE, moveledger.prove(MODULE)))


class Misuse(unittest.TestCase):
    def test_a_ledger_is_not_copied(self) -> None:
        with moveledger.Ledger() as ledger:
            with self.assertRaises(TypeError):
                copy.copy(ledger)
            with self.assertRaises(TypeError):
                copy.deepcopy(ledger)
            with self.assertRaises(TypeError):
                pickle.dumps(ledger)
            self.assertEqual(len(list(ledger.apply(FIRST))), 2)

    def test_numbers_of_records_are_in_range(self) -> None:
        for answered in -1, 1 << 64:
            with self.subTest(answered), self.assertRaises(ValueError):
                moveledger.Ledger(answered=answered)
            with moveledger.Ledger(answered=5) as ledger:
                with self.assertRaises(ValueError):
                    ledger.answered = answered
                self.assertEqual(ledger.answered, 5)
                ledger.answered = 7
                self.assertEqual(ledger.apply(FIRST).text, "8 published 1\n9 returned 5\n")

    def test_it_has_a_version(self) -> None:
        self.assertRegex(moveledger.__version__, r"^\d+\.\d+\.\d+$")


class Refusals(unittest.TestCase):
    def test_modules_are_proved_and_checked(self) -> None:
        certificate = moveledger.prove(MODULE)
        self.assertEqual(certificate.hex(), "01010100")
        moveledger.check(MODULE, certificate)
        with self.assertRaises(moveledger.Refused) as refused:
            moveledger.check(MODULE, b"")
        self.assertEqual(refused.exception.phase, 9)
        with self.assertRaises(moveledger.Refused) as refused:
            moveledger.prove(b"")
        self.assertEqual(refused.exception.phase, 2)

    def test_bytes_that_are_no_ledger_are_refused(self) -> None:
        for saved, reason in (b"", 1), (b"MVL2\0\0\0", 4):
            with self.assertRaises(moveledger.LoadRefused) as refused:
                moveledger.Ledger(saved)
            self.assertEqual(refused.exception.reason, reason)

    def test_a_closed_ledger_answers_nothing(self) -> None:
        ledger = moveledger.Ledger()
        ledger.close()
        ledger.close()
        calls: List[Callable[[], object]] = [
            lambda: ledger.apply(b""), ledger.save, ledger.show, ledger.modules, ledger.runs, lambda: ledger.value(1, COIN),
            lambda: ledger.values_at(1), lambda: list(ledger.values(COIN)), lambda: ledger.module("0x1::M"),
            lambda: ledger.tally(COIN)]
        for call in calls:
            self.assertRaises(ValueError, call)


    def test_what_is_no_bytes_is_refused(self) -> None:
        with moveledger.Ledger() as ledger:
            self.assertEqual(ledger.apply(bytearray(FIRST)).text, "1 published 1\n2 returned 5\n")
            for wrong in "text", 5, None:
                self.assertRaises(TypeError, ledger.apply, wrong)
            self.assertEqual(ledger.answered, 2)


class Texts(unittest.TestCase):
    def setUp(self) -> None:
        if not importlib.util.find_spec("movetext"):
            self.skipTest("movetext isn't installed")

    def test_a_text_becomes_records(self) -> None:
        text = (EXAMPLES / "faucet.text").read_text(encoding="utf-8")
        self.assertEqual(moveledger.assemble(text, "faucet.text"), (EXAMPLES / "faucet.stream").read_bytes())

    def test_a_text_with_errors_is_told(self) -> None:
        from movetext.errors import TextErrors

        with self.assertRaises(TextErrors):
            moveledger.assemble("publish by 0x1 {")


class Threads(unittest.TestCase):
    def test_each_thread_has_its_ledger(self) -> None:
        saved: Dict[int, bytes] = {}

        def work(count: int) -> None:
            with moveledger.Ledger() as ledger:
                ledger.apply(PUBLISH)
                for sender in range(count):
                    ledger.apply(mint(sender))
                saved[count] = ledger.save()

        threads = [threading.Thread(target=work, args=(count,)) for count in (40, 50)]
        for thread in threads:
            thread.start()
        for thread in threads:
            thread.join()
        for count, text in list(saved.items()):
            work(count)
            self.assertEqual(saved[count], text)

    def test_threads_share_a_ledger(self) -> None:
        with moveledger.Ledger() as ledger:
            ledger.apply(PUBLISH)
            threads = [threading.Thread(target=ledger.apply, args=(mint(sender),)) for sender in range(20)]
            for thread in threads:
                thread.start()
            for thread in threads:
                thread.join()
            self.assertEqual((len(ledger.show()), ledger.answered), (20, 21))


class Lines(unittest.TestCase):
    def test_lines_are_read(self) -> None:
        for text, line in {
            "7 refused 13": moveledger.Refusal(7, 13),
            "7 rejected 6": moveledger.Rejected(7, 6),
            "7 aborted code 9 3": moveledger.Aborted(7, "code", 9, 3),
            "7 exhausted frames 9": moveledger.Exhausted(7, "frames", 9),
            "7 end 2": moveledger.End(7, 2),
            "7 publ": moveledger.Unknown(7, "publ"),
            "7 published": moveledger.Unknown(7, "published"),
            "7 published x": moveledger.Unknown(7, "published x"),
            "": moveledger.Unknown(0, ""),
        }.items():
            self.assertEqual(read_line(text), line)


if __name__ == "__main__":
    unittest.main()
