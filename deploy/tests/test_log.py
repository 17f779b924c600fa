import unittest
from typing import Any, List, Optional

from ledgerlog.errors import LogError, OtherHistory, Refused
from ledgerlog.keys import number_in, numbered
from ledgerlog.log import Log, Offer, parts_of
from ledgerlog.requests import Body
from ledgerlog.settings import Past, Settings, settings_of
from ledgerlog.written import INLINE_BYTES, PIECE_BYTES, Taken, head_of

from .store import LOG_ID, SET, Store, fill, made_log, run


def large(size: int) -> bytes:
    """A record with a payload of so many bytes, of a length in three bytes or in four."""
    groups = [size >> shift & 127 for shift in (0, 7, 14, 21)]
    length = groups if groups[3] else groups[:3]
    return b"\2" + bytes([group | 128 for group in length[:-1]] + length[-1:]) + bytes(size)


class Appending(unittest.TestCase):
    def setUp(self) -> None:
        self.store = Store()
        self.log = made_log(self.store)

    def put(self, offers: List[Offer], submitter: str = "anyone") -> List[int]:
        return list(self.log.append(offers, submitter, self.log.settings()))

    def taken(self, first: int = 1) -> List[Taken]:
        return self.log.read(first).taken

    def test_records_get_the_next_numbers(self) -> None:
        self.assertEqual(fill(self.log, 130), list(range(1, 131)))
        self.assertEqual([one.record for one in self.taken(101)], [run(number) for number in range(101, 131)])
        self.assertEqual(self.log.last(), 130)

    def test_nothing_is_put_of_nothing(self) -> None:
        before = self.store.revision
        self.assertEqual((self.put([]), list(parts_of([])), self.store.revision), ([], [], before))

    def test_what_is_put_again_keeps_its_number(self) -> None:
        offers = [Offer("x", run(1)), Offer("y", run(2))]
        self.assertEqual(self.put(offers), [1, 2])
        self.assertEqual(self.put([Offer("z", run(3)), *offers]), [3, 1, 2])

    def test_an_id_is_one_record(self) -> None:
        self.put([Offer("x", run(1))])
        with self.assertRaisesRegex(LogError, "the id x is that of record 1"):
            self.put([Offer("x", run(2))])

    def test_a_large_record_is_there_with_its_pieces(self) -> None:
        record = large(PIECE_BYTES + 5)
        self.put([Offer("x", record)])
        self.assertEqual(self.taken()[0].record, record)
        self.assertEqual(self.store.get(self.log.keys.used("anyone")), str(2 * PIECE_BYTES).encode())

    def test_a_record_whose_pieces_were_cleared_meanwhile_gets_them_again(self) -> None:
        store = self.store
        real = store.asked_put

        def put_and_lose(body: Body) -> Body:
            answer = real(body)
            setattr(store, "asked_put", real)
            store.there = {key: one for key, one in store.there.items() if not key.startswith(b"L/piece/")}
            return answer

        for name, record in ("x", large(INLINE_BYTES)), ("y", large(2 * PIECE_BYTES)):
            setattr(store, "asked_put", put_and_lose)
            number, = self.put([Offer(name, record)])
            self.assertEqual(self.taken()[number - 1].record, record)

    def test_large_records_are_put_in_parts(self) -> None:
        offers = [Offer(f"x{at}", large(20 * PIECE_BYTES + at)) for at in range(7)]
        self.assertEqual(self.put(offers), [1, 2, 3, 4, 5, 6, 7])

    def test_a_quota_is_kept(self) -> None:
        self.log = made_log(self.store, quota=12, quotas={"rich": 0})
        self.assertEqual(self.put([Offer("x", run(1)), Offer("y", run(2)), Offer("z", run(3))]), [1, 2, 3])
        with self.assertRaisesRegex(Refused, "anyone has 12 bytes in the log, and may have 12"):
            self.put([Offer("w", run(4))])
        self.assertEqual(self.put([Offer("y", run(2))]), [2])
        self.assertEqual(self.put([Offer("w", run(4))], "rich"), [4])
        with self.assertRaises(Refused):
            self.put([Offer("v", large(INLINE_BYTES))])
        self.assertFalse(self.store.count(b"L/piece/"))

    def test_a_count_that_is_no_number_keeps_nobody_from_submitting(self) -> None:
        self.store.put(self.log.keys.used("anyone"), b"junk")
        self.assertEqual(fill(self.log, 2), [1, 2])
        self.assertEqual(self.store.get(self.log.keys.used("anyone")), b"8")

    def test_two_that_put_at_once_both_get_numbers(self) -> None:
        other = made_log(self.store)
        real = self.store.done

        def with_another_before(body: Body) -> Body:
            setattr(self.store, "done", real)
            fill(other, 1, "else")
            return real(body)

        setattr(self.store, "done", with_another_before)
        self.assertEqual(self.put([Offer("x", run(7)), Offer("y", run(8))]), [2, 3])


class Skipping(unittest.TestCase):
    def setUp(self) -> None:
        self.store = Store()
        self.log = made_log(self.store)

    def poison(self, value: Optional[bytes]) -> str:
        """Why it is skipped when it is put by hand under the next number."""
        number = self.log.last() + 1
        if value is not None:
            self.store.put(self.log.keys.record(number), value)
        self.store.put(self.log.keys.last, numbered(number))
        return self.log.read(number).taken[0].why or "no"

    def test_what_is_no_whole_record_is_skipped_by_the_rules_reasons(self) -> None:
        digest = bytes(32)
        rows = [(None, "missing"), (b"", "form"), (b"\0x anyone", "form"), (b"\2x anyone\n\2\0", "form"), (b"\0x\n\2\0", "form"),
                (b"\1x anyone\n" + digest, "form"), (b"\1x anyone\n" + digest + b"\0\1", "pieces"),
                (b"\0x anyone\n" + large(INLINE_BYTES), "form"),
                (b"\0x anyone\n", "record"), (b"\0x anyone\n\2\5ab", "record"), (b"\0x anyone\n\2\0\2\0", "record"),
                (b"\0x anyone\n\3\0", "question"), (b"\0x anyone\n\4\1\1", "question"), (b"\0x anyone\n\2\0", "no")]
        for value, why in rows:
            with self.subTest(value):
                self.assertEqual(self.poison(value), why)

    def test_pieces_that_come_after_the_record_do_not_count(self) -> None:
        self.assertEqual(list(self.log.append([Offer("x", large(INLINE_BYTES))], "anyone", self.log.settings())), [1])
        value = self.store.get(self.log.keys.record(1))
        piece = self.store.get(self.log.keys.piece("x", 0))
        assert value is not None and piece is not None
        self.assertEqual(self.poison(value), "no")
        self.store.delete(b"L/piece/", b"L/piece0")
        self.assertEqual(self.poison(value), "pieces")
        self.store.put(self.log.keys.piece("x", 0), piece)
        self.assertEqual([one.why for one in self.log.read(1).taken], ["pieces"] * 3)

    def test_pieces_with_another_digest_do_not_count(self) -> None:
        self.store.put(self.log.keys.piece("x", 0), b"\2\0")
        self.assertEqual(self.poison(b"\1x anyone\n" + bytes(32) + b"\0\1"), "pieces")

    def test_what_stands_under_other_keys_does_not_count(self) -> None:
        fill(self.log, 3)
        for at in range(150):
            self.store.put(self.log.keys.record(1) + b"%d" % at, b"junk")
        self.store.put(self.log.keys.record(4), b"\0x anyone\n\2\0")
        self.assertEqual([one.record for one in self.log.read(1).taken], [run(1), run(2), run(3)])

    def test_the_next_record_takes_the_place_of_what_is_behind_the_last(self) -> None:
        self.store.put(self.log.keys.record(1), b"junk")
        self.assertEqual(fill(self.log, 1), [1])
        self.assertEqual(self.log.read(1).taken[0].record, run(1))


class Reading(unittest.TestCase):
    def test_a_log_that_is_none_is_said_to_be_none(self) -> None:
        with self.assertRaisesRegex(LogError, "deploy/log make"):
            Log(Store(), "L").settings()
        with self.assertRaisesRegex(OtherHistory, "made anew, or lost"):
            Log(Store(), "L").read(1)

    def test_what_was_cleared_is_said_to_be_gone(self) -> None:
        store = Store()
        log = made_log(store)
        fill(log, 3)
        store.put(log.keys.cleared, b"2")
        self.assertEqual(len(log.read(3).taken), 1)
        with self.assertRaisesRegex(OtherHistory, "record 2 isn't in the log any more"):
            log.read(2)

    def test_a_log_that_is_cleared_while_it_is_read_is_not_skipped(self) -> None:
        store = Store()
        log = made_log(store)
        list(log.append([Offer("x", large(INLINE_BYTES))], "anyone", log.settings()))
        real = log.etcd.transacted

        def and_clear(*given: Any) -> Any:
            answer = real(*given)
            store.put(log.keys.cleared, b"1")
            store.delete(b"L/piece/", b"L/piece0")
            return answer

        setattr(log.etcd, "transacted", and_clear)
        with self.assertRaisesRegex(OtherHistory, "record 1 isn't in the log any more"):
            log.read(1)

    def test_a_last_record_that_is_no_number_is_a_fault(self) -> None:
        store = Store()
        log = made_log(store)
        store.put(log.keys.last, b"junk")
        with self.assertRaisesRegex(LogError, "stands no number"):
            log.read(1)


class SettingsText(unittest.TestCase):
    def test_what_is_written_is_read(self) -> None:
        settings = Settings(LOG_ID, SET, 7, 8, 9, {"alice": 5}, (Past("f" * 32, 3),))
        self.assertEqual(settings_of(settings.text()), settings)

    def test_anything_else_is_no_settings(self) -> None:
        for text in (b"", b"[]", b"{}", b'{"form": 1}', b'{"form": 2}', b"\xff"):
            with self.subTest(text), self.assertRaises(LogError):
                settings_of(text)

    def test_saves_of_an_earlier_id_are_good_up_to_where_it_was_restored(self) -> None:
        settings = Settings(LOG_ID, SET, past=(Past("f" * 32, 3),))
        self.assertTrue(settings.has_save(LOG_ID, 100))
        self.assertTrue(settings.has_save("f" * 32, 3))
        self.assertFalse(settings.has_save("f" * 32, 4))
        self.assertFalse(settings.has_save("e" * 32, 1))

    def test_numbers_in_keys(self) -> None:
        self.assertEqual(number_in(b"L/record/00000000000000ff"), 255)
        for key in (b"L/record/00000000000000FF", b"L/record/ff", b"L/record/00000000000000ff0", b""):
            self.assertIsNone(number_in(key))
        self.assertIsNone(head_of(b"\0two words anyone\n"))
