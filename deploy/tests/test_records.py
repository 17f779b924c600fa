import unittest

from ledgerlog.errors import NotWhole
from ledgerlog.records import check_one, check_put, records_of
from trial.refusals import NOT_WHOLE


class Records(unittest.TestCase):
    def test_what_is_no_whole_record_is_refused(self) -> None:
        for what, data in NOT_WHOLE.items():
            with self.subTest(what), self.assertRaises(NotWhole):
                check_one(data)

    def test_a_whole_record_of_any_kind_is_put(self) -> None:
        for data in (b"\1\0", b"\2\1\7", b"\x2a\0", b"\xff\2ab", b"\2\x80\1" + bytes(128)):
            check_put(data)

    def test_questions_are_not_put(self) -> None:
        for data in (b"\3\0", b"\4\0", b"\3\1\1", b"\4\1\1", b"\3\2ab"):
            with self.assertRaisesRegex(NotWhole, "asked of a replica"):
                check_put(data)

    def test_a_stream_is_cut_into_its_records(self) -> None:
        self.assertEqual(list(records_of(b"\1\0\2\1\7\4\0")), [b"\1\0", b"\2\1\7", b"\4\0"])
        with self.assertRaisesRegex(NotWhole, "at the byte 2"):
            list(records_of(b"\1\0\2\5"))
