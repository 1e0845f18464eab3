"""Values that a script passes on, faults, and ranges of keys.

A range is a pair of keys, begin and end, and has the keys that are at least its begin and less than its end.
"""

from typing import Iterable, Iterator

END = b"\xff"

Range = tuple[bytes, bytes]


class NotShared(Exception):
    """A cluster may answer otherwise than this program: a script for comparing with one leaves the instruction out."""


class Refused(Exception):
    """A call is answered with an error code."""

    def __init__(self, code: int):
        super().__init__(str(code))
        self.code = code


class Stopped(Exception):
    """A machine ends before its last instruction: the word of its M line."""

    def __init__(self, word: str):
        super().__init__(word)
        self.word = word


class Unstable(bytes):
    """Bytes that another run may have otherwise: with a versionstamp, or with a prefix that an allocator gave."""


class Stamped(Unstable):
    """Bytes with a versionstamp."""


class Allocated(Unstable):
    """Bytes with a prefix that an allocator gave."""


class Unknown(bytes):
    """Bytes that every tester gives alike, and that aren't known while a script is made."""


def like(value: bytes, *sources: object) -> bytes:
    """Returns the value, marked as the first of its sources that is marked."""
    for source in sources:
        if isinstance(source, (Unstable, Unknown)):
            return type(source)(value)
    return value


def joined(*parts: bytes) -> bytes:
    return like(b"".join(parts), *parts)


def after(key: bytes) -> bytes:
    """Returns the first key behind this one."""
    return like(key + b"\x00", key)


def above(prefix: bytes) -> bytes | None:
    """Returns the first key above all that begin with the prefix, or None where there is none."""
    front = prefix.rstrip(b"\xff")
    return like(front[:-1] + bytes([front[-1] + 1]), prefix) if front else None


def meet(ones: Iterable[Range], others: Iterable[Range]) -> bool:
    """Whether a range of one list has a key of a range of the other."""
    others = list(others)
    return any(max(begin, low) < min(end, high) for begin, end in ones for low, high in others)


def without(ranges: Iterable[Range], holes: Iterable[Range]) -> list[Range]:
    """Returns what is left of the ranges without the holes."""
    left = [it for it in ranges if it[0] < it[1]]
    for low, high in holes:
        left = list(_cut(left, low, high))
    return left


def _cut(ranges: list[Range], low: bytes, high: bytes) -> Iterator[Range]:
    for begin, end in ranges:
        if high <= begin or end <= low:
            yield begin, end
            continue
        if begin < low:
            yield begin, low
        if high < end:
            yield high, end
