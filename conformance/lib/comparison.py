"""Compares the pairs that two testers leave, and tells a difference as a person reads it."""

import re
from typing import Iterator, NamedTuple, Optional

from explain import error_text
from instruction_text import BadAt, TextFault, element_text, pairs_in
from tuple_layer import NotATuple, printable, unpack

from .testers import Answer

LOGGED = re.compile(rb"log\d*/")
WIDEST = 200


class Difference(NamedTuple):
    """In what a tester differs from the program: pairs that are missing, pairs that shouldn't be there, and other faults."""

    missing: list[tuple[bytes, bytes]]
    left: list[tuple[bytes, bytes]]
    faults: list[str]

    def items(self) -> list[tuple[bytes, int]]:
        """Returns the logs and the instructions of the items that differ."""
        return [(item[0], item[2]) for pair in [*self.missing, *self.left] if (item := item_of(*pair))]

    def kind(self) -> str:
        """Returns what a smaller script must share: a fault that is told, or a difference in pairs."""
        return re.sub(r"[0-9]+", "N", self.faults[0]) if self.faults else "pairs"


def line_pairs(lines: frozenset[str]) -> tuple[list[tuple[bytes, bytes]], list[str]]:
    """Reads K lines, and returns their pairs in order and what is wrong with lines that are none."""
    pairs, faults = [], []
    for line in sorted(lines):
        try:
            pairs += pairs_in(line.encode("latin-1") + b"\n")
        except (TextFault, BadAt) as fault:
            faults.append(bad_line(line, str(fault)))
    return sorted(pairs), faults


def bad_line(line: str, fault: str) -> str:
    """Says what is wrong with a line that is no K line."""
    place = re.search(r"bad at (\d+)", fault)
    told = f"no K line: {line[:WIDEST]}"
    if place and re.match(r"\\x[0-9A-Fa-f]{2}", line[int(place[1]) :]):
        digits = line[int(place[1]) + 2 :][:2]
        why = "hexadecimal digits are lower-case" if digits != digits.lower() else "a byte from 20 to 7E stands for itself"
        return f"{told} ({why})"
    return f"{told} (bad at byte {place[1]})" if place else f"{told} ({fault.split(': ', 1)[-1]})"


def compared(program: Answer, tester: Answer) -> Optional[Difference]:
    """Returns in what a tester differs from the program, or None where it doesn't."""
    if not tester.fault and program.lines == tester.lines:
        return None
    if tester.fault:
        return Difference([], [], [tester.fault])
    missing, _ = line_pairs(program.lines - tester.lines)
    left, faults = line_pairs(tester.lines - program.lines)
    return Difference([] if faults else missing, [] if faults else left, faults)


def item_behind(front: bytes, key: bytes, value: bytes) -> Optional[tuple[int, int, object]]:
    """Returns of an item that was logged under a prefix its place, its instruction and the item."""
    try:
        (place, number), (item,) = unpack(key[len(front) :]) if key.startswith(front) else (), unpack(value)
    except (NotATuple, ValueError):
        return None
    return place, number, item


def item_of(key: bytes, value: bytes) -> Optional[tuple[bytes, int, int, object]]:
    """Returns of an item that a random script logged the prefix of its log, its place, its instruction and the item."""
    front = LOGGED.match(key)
    found = item_behind(front[0], key, value) if front else None
    return (front[0], *found) if front and found else None


def value_text(item: object) -> str:
    """Returns an item as a person reads it: an error by its name, bytes that pack a tuple with what they pack."""
    text = element_text(item)
    if isinstance(item, bytes):
        try:
            found = unpack(item)
        except NotATuple:
            found = ()
        if found[:1] == (b"ERROR",) and len(found) == 2:
            return f"error {error_text(found[1].decode())}"
        if len(found) > 1 or found and item[:1] in (b"\x01", b"\x02", b"\x05"):
            text += f", packs {element_text(found)}"
    return text if len(text) <= WIDEST else f"{text[:WIDEST]}.. ({len(text)} characters)"


def pair_text(key: bytes, value: bytes) -> str:
    found = item_of(key, value)
    if found is None:
        return f"{printable(key)} = {printable(value)[:WIDEST]}"
    log, place, number, item = found
    return f"{log.decode()} item {place}, of instruction {number}: {value_text(item)}"


def difference_lines(difference: Difference) -> Iterator[str]:
    for fault in difference.faults:
        yield fault
    yield from (f"missing: {pair_text(*pair)}" for pair in difference.missing)
    yield from (f"left:    {pair_text(*pair)}" for pair in difference.left)


def stack_lines(answer: Answer) -> Iterator[str]:
    """Yields the logged stacks of an answer, an item a line."""
    pairs, _ = line_pairs(frozenset(line for line in answer.lines if line.startswith("K log")))
    yield from (f"{printable(key)} = {printable(value)[:WIDEST]}" if item_of(key, value) is None else pair_text(key, value) for key, value in pairs)
