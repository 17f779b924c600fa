"""Numbers as bytes, and the bytes of instructions, types and values."""

import unittest

from movetext import model
from movetext.limits import BUDGET, INDEX
from movetext.numbers import NumberError, read_number, write_number
from movetext.opcodes import NUMBER, OPCODES
from movetext.values import LEAF_WIDTHS, read_leaf, write_leaf
from movetext.writer import write_instruction, write_name, write_numbers, write_sized, write_token

# Numbers with their bytes: the ends of each length up to three, and the greatest.
NUMBERS = {
    0: "00", 1: "01", 127: "7f", 128: "8001", 300: "ac02", 16_383: "ff7f", 16_384: "808001", INDEX: "ffff03",
    BUDGET: "ffffffffffffffffff01",
}
# Bytes that are no number of at most 300, and why.
NO_NUMBERS = {
    "": "the bytes end before a number",
    "80": "the bytes end within a number",
    "8080": "the bytes end within a number",
    "8000": "the number 0 is written in 2 bytes, longer than its shortest form",
    "ac8200": "the number 300 is written in 3 bytes, longer than its shortest form",
    "ad02": "301; it is at most 300",
    "80808080808080808080": "a number has more than ten bytes",
}


class Numbers(unittest.TestCase):
    def test_a_number_is_its_shortest_bytes_and_back(self) -> None:
        for value, digits in NUMBERS.items():
            with self.subTest(value):
                self.assertEqual(write_number(value).hex(), digits)
                self.assertEqual(read_number(bytes.fromhex(digits), 0, len(digits) // 2, value), (value, len(digits) // 2))

    def test_a_number_is_read_from_its_place_and_no_further(self) -> None:
        data = b"\xff" + write_number(300) + b"\x05"
        self.assertEqual(read_number(data, 1, len(data), 300), (300, 3))
        with self.assertRaisesRegex(NumberError, "within a number"):
            read_number(data, 1, 2, 300)

    def test_bytes_that_are_no_number_are_told_with_their_place(self) -> None:
        for digits, reason in NO_NUMBERS.items():
            data = b"\7" + bytes.fromhex(digits)
            with self.subTest(digits), self.assertRaises(NumberError) as caught:
                read_number(data, 1, len(data), 300)
            self.assertEqual((caught.exception.offset, caught.exception.reason), (1, reason))

    def test_numbers_and_what_has_a_length_stand_one_behind_the_other(self) -> None:
        self.assertEqual(write_numbers(1, 128, 0).hex(), "01800100")
        self.assertEqual(write_sized(b"ab").hex(), "026162")
        self.assertEqual(write_name("f_1").hex(), "03665f31")


class Values(unittest.TestCase):
    def test_the_least_and_the_greatest_of_each_type_come_back(self) -> None:
        for kind, width in LEAF_WIDTHS.items():
            data = [bytes(width), b"\1" + bytes(width - 1), b"\xff" * width]
            for one in data[:2] if kind == model.BOOL else data:
                with self.subTest(kind=kind, data=one):
                    value = read_leaf(kind, one)
                    assert value is not None
                    self.assertEqual(write_leaf(kind, value), one)

    def test_bytes_of_another_length_and_another_bool_are_no_value(self) -> None:
        for kind, width in LEAF_WIDTHS.items():
            self.assertIsNone(read_leaf(kind, bytes(width - 1)))
            self.assertIsNone(read_leaf(kind, bytes(width + 1)))
        self.assertIsNone(read_leaf(model.BOOL, b"\2"))
        self.assertIsNone(read_leaf(model.SIGNER, bytes(16)))

    def test_numbers_have_their_lowest_byte_first(self) -> None:
        self.assertEqual(write_leaf(model.U32, 258).hex(), "02010000")
        self.assertEqual(read_leaf(model.U16, b"\1\2"), 513)


class Code(unittest.TestCase):
    def test_a_type_is_its_kind_and_what_it_refers_to(self) -> None:
        coin = model.Token(model.STRUCT, struct=300)
        self.assertEqual(write_token(coin).hex(), "08ac02")
        self.assertEqual(write_token(model.Token(model.MUTABLE, coin)).hex(), "0708ac02")

    def test_an_instruction_has_the_operand_of_its_row(self) -> None:
        for opcode in OPCODES:
            instruction = model.Instruction(opcode, 5) if opcode.operand else model.Instruction(opcode)
            size = opcode.width if opcode.operand == NUMBER else 1 if opcode.operand else 0
            with self.subTest(opcode.name):
                self.assertEqual(write_instruction(instruction), bytes([opcode.code]) + b"\5"[:size] + bytes(max(0, size - 1)))

    def test_there_are_57_instructions_and_no_two_of_a_name_or_a_byte(self) -> None:
        self.assertEqual({len(OPCODES), len({one.name for one in OPCODES}), len({one.code for one in OPCODES})}, {57})
