"""Packs and unpacks tuples (tuple.md), and reads and writes the printable form of bytes in the lines of `fdbtester`.

Elements are None, byte strings, texts, integers of 128 bits, booleans, UUIDs, `Versionstamp`s and nested tuples.
"""

import re
import uuid
from typing import NamedTuple

INCOMPLETE = b"\xff" * 10
DEEPEST = 100


class Versionstamp(NamedTuple):
    """A versionstamp: ten bytes, by default those of an incomplete one, and the user's order."""

    stamp: bytes = INCOMPLETE
    user: int = 0


class NotATuple(ValueError):
    """The bytes pack no tuple."""


def escaped(string):
    return string.replace(b"\x00", b"\x00\xff") + b"\x00"


def packed_integer(number):
    size = (abs(number).bit_length() + 7) // 8
    if not -(2**127) <= number < 2**127:
        raise ValueError(f"{number} has more than 128 bits")
    magnitude = number if number >= 0 else number + 256**size - 1
    if size <= 8:
        head = bytes([0x14 + size if number >= 0 else 0x14 - size])
    else:
        head = bytes([0x1D, size]) if number >= 0 else bytes([0x0B, size ^ 0xFF])
    return head + magnitude.to_bytes(size, "big")


def packed(element, depth=0):
    """Packs one element, which lies in so many nested tuples."""
    if element is None:
        return b"\x00\xff" if depth else b"\x00"
    if isinstance(element, bool):
        return b"\x27" if element else b"\x26"
    if isinstance(element, int):
        return packed_integer(element)
    if isinstance(element, bytes):
        return b"\x01" + escaped(element)
    if isinstance(element, str):
        return b"\x02" + escaped(element.encode())
    if isinstance(element, uuid.UUID):
        return b"\x30" + element.bytes
    if isinstance(element, Versionstamp):
        return b"\x33" + element.stamp + element.user.to_bytes(2, "big")
    if isinstance(element, (tuple, list)):
        if depth == DEEPEST:
            raise ValueError(f"tuples nest {DEEPEST} deep at most")
        return b"\x05" + b"".join(packed(it, depth + 1) for it in element) + b"\x00"
    raise TypeError(f"a tuple has no element like {element!r}")


def pack(elements):
    """Packs a tuple."""
    return b"".join(packed(it) for it in elements)


class Reader:
    """Reads packed elements from the left."""

    def __init__(self, string):
        self.string, self.at = string, 0

    def take(self, size):
        if len(self.string) - self.at < size:
            raise NotATuple("the bytes end inside an element")
        self.at += size
        return self.string[self.at - size : self.at]

    def unescaped(self):
        found = bytearray()
        while True:
            byte = self.take(1)
            if byte == b"\x00":
                if self.string[self.at : self.at + 1] != b"\xff":
                    return bytes(found)
                self.at += 1
            found += byte

    def integer(self, code):
        if 0x0C <= code <= 0x1C:
            size, is_negative = abs(code - 0x14), code < 0x14
        else:
            is_negative = code == 0x0B
            size = self.take(1)[0] ^ (0xFF if is_negative else 0)
        number = int.from_bytes(self.take(size), "big")
        return number - 256**size + 1 if is_negative else number

    def nested(self):
        found = []
        while True:
            if self.string[self.at : self.at + 2] == b"\x00\xff":
                self.at += 2
                found.append(None)
            elif self.string[self.at : self.at + 1] == b"\x00":
                self.at += 1
                return tuple(found)
            else:
                found.append(self.element())

    def element(self):
        code = self.take(1)[0]
        if code == 0x00:
            return None
        if code == 0x01:
            return self.unescaped()
        if code == 0x02:
            return self.unescaped().decode()
        if code == 0x05:
            return self.nested()
        if 0x0B <= code <= 0x1D:
            return self.integer(code)
        if code in (0x26, 0x27):
            return code == 0x27
        if code == 0x30:
            return uuid.UUID(bytes=self.take(16))
        if code == 0x33:
            return Versionstamp(self.take(10), int.from_bytes(self.take(2), "big"))
        raise NotATuple(f"no element begins with the byte {code:02x}")


def unpack(string):
    """Unpacks a tuple, or raises NotATuple where the bytes aren't what `pack` gives."""
    reader, found = Reader(string), []
    while reader.at < len(string):
        try:
            found.append(reader.element())
        except (UnicodeDecodeError, RecursionError) as cause:
            raise NotATuple(str(cause)) from cause
    try:
        is_packed = pack(found) == string
    except ValueError as cause:
        raise NotATuple(str(cause)) from cause
    if not is_packed:
        raise NotATuple("the bytes are no shortest spelling")
    return tuple(found)


def printable(string):
    """Returns the printable form of bytes, as it stands in the lines of a script or a dump."""
    plain = {byte: chr(byte) for byte in range(0x20, 0x7F)} | {0x5C: "\\\\"}
    return "".join(plain.get(byte, f"\\x{byte:02x}") for byte in string)


def unprintable(text):
    """Returns the bytes of a printable form."""
    parts = re.findall(r"\\x([0-9a-f]{2})|\\(\\)|([^\\])", text)
    return b"".join(bytes([int(digits, 16)]) if digits else (slash or plain).encode("latin-1") for digits, slash, plain in parts)


if __name__ == "__main__":
    print("tuple_layer.py is a module and no command: the other scripts pack and unpack by it. `python3 -m pydoc scripts/tuple_layer.py` has its calls")
