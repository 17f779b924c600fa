"""ULEB128 numbers: seven bits a byte, the lowest group first, the high bit set on all bytes but the last."""

from typing import Tuple

SMALL = [bytes([value]) for value in range(128)]


class NumberError(Exception):
    """Bytes at a place that are no number: `reason` says why, `offset` where the number begins."""

    def __init__(self, offset: int, reason: str):
        super().__init__(reason)
        self.offset = offset
        self.reason = reason


def write_number(value: int) -> bytes:
    """The shortest ULEB128 bytes of a number."""
    if value < 128:
        return SMALL[value]
    out = bytearray()
    while value > 127:
        out.append(value & 127 | 128)
        value >>= 7
    out.append(value)
    return bytes(out)


def read_number(data: bytes, offset: int, end: int, greatest: int) -> Tuple[int, int]:
    """The number at `offset` of the bytes before `end`, and the offset after it; NumberError where there is none."""
    value = shift = 0
    at = offset
    while True:
        if at >= end:
            raise NumberError(offset, "the bytes end within a number" if at > offset else "the bytes end before a number")
        byte = data[at]
        at += 1
        value |= (byte & 127) << shift
        if byte < 128:
            break
        shift += 7
        if shift >= 70:
            raise NumberError(offset, "a number has more than ten bytes")
    if byte == 0 and shift:
        raise NumberError(offset, f"the number {value} is written in {at - offset} bytes, longer than its shortest form")
    if value > greatest:
        raise NumberError(offset, f"{value}; it is at most {greatest}")
    return value, at
