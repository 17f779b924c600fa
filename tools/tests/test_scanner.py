"""A text's words, and what is told of letters that begin none."""

import unittest

from movetext import scanner
from movetext.scanner import Words, is_identifier, needs_quotes, wrong_word

WORDS = [
    ("module", scanner.NAME), ("_x1", scanner.NAME), ("`as`", scanner.QUOTED), ("::", scanner.MARK), ("{", scanner.MARK),
    ("&", scanner.MARK), ("@", scanner.MARK), ("0x1F", scanner.NUMBER), ("7_000u64", scanner.NUMBER), ("#12", scanner.INDEX),
    ('x"01 ff"', scanner.HEX), ('"a file"', scanner.FILE), ("\n", scanner.LINE_END),
]
WRONG = {
    '"open': "the quotes aren't closed on their line", "`open\n`": "the backquotes aren't closed on their line",
    "/* open": "the comment isn't closed", "/": "no word begins with `/`", "#x": "no word begins with `#` alone",
    "$": "no word begins with '$'",
}


class Scanning(unittest.TestCase):
    def test_each_kind_of_word(self) -> None:
        for text, kind in WORDS:
            words = Words(f" {text} ")
            with self.subTest(text):
                self.assertEqual((words.kinds[0], words.texts[0], words.starts[0]), (kind, text, 1))

    def test_comments_and_blanks_are_passed_over_and_lines_end(self) -> None:
        words = Words("a // b\n\t/* c\n * d */ e")
        self.assertEqual([one for one in words.texts if one], ["a", "\n", "e", "\n"])
        self.assertEqual(words.starts[2], 21)
        self.assertEqual(words.kinds[-3:], [scanner.END] * 3)

    def test_letters_that_begin_no_word_are_told_with_their_place(self) -> None:
        for text, message in WRONG.items():
            words = Words(f"  ;{text}")
            with self.subTest(text):
                self.assertEqual((words.kinds[1], words.starts[1]), (scanner.WRONG, 3))
                self.assertEqual(wrong_word(words.text, words.starts[1]).fact, message)

    def test_identifiers_and_names_that_need_quotes(self) -> None:
        for name in ("a", "A_1", "_1", "__", "a" * 128):
            self.assertTrue(is_identifier(name), name)
        for name in ("", "_", "1a", "a-b", "a" * 129, "a\n"):
            self.assertFalse(is_identifier(name), name)
        self.assertTrue(needs_quotes("as") and needs_quotes("u64") and needs_quotes("1a"))
        self.assertFalse(needs_quotes("coin"))
