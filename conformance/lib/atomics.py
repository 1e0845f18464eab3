"""Atomic operations: what each makes of a value, which is None where there is none, and an operand."""

from typing import Callable, Optional

from .values import Unstable, like

LONGEST_VALUE = 100_000

Value = Optional[bytes]
Operation = Callable[[Value, bytes], Value]


def fitted(value: bytes, size: int) -> bytes:
    return value[:size].ljust(size, b"\x00")


def number(string: bytes) -> int:
    return int.from_bytes(string, "little")


def added(value: Value, operand: bytes) -> bytes:
    size = len(operand)
    return ((number(fitted(value or b"", size)) + number(operand)) % 256**size).to_bytes(size, "little")


def appended(value: Value, operand: bytes) -> bytes:
    both = (value or b"") + operand
    return both if len(both) <= LONGEST_VALUE else value or b""


def bytewise(combine: Callable[[int, int], int]) -> Operation:
    return lambda value, operand: operand if value is None else bytes(map(combine, fitted(value, len(operand)), operand))


def chosen(choose: Callable) -> Operation:
    """Returns the operation that keeps the lesser or the greater of two numbers, both of the operand's length."""
    return lambda value, operand: operand if value is None else choose(fitted(value, len(operand)), operand, key=number)


def zero_where_absent(operation: Operation) -> Operation:
    """Returns the operation as API version 500 has it: no value counts as 00."""
    return lambda value, operand: operation(value or b"", operand)


AND = bytewise(lambda one, other: one & other)
OR = bytewise(lambda one, other: one | other)
XOR = bytewise(lambda one, other: one ^ other)

OPERATIONS: dict[bytes, Operation] = {
    b"ADD": added,
    b"AND": AND,
    b"BIT_AND": AND,
    b"OR": OR,
    b"BIT_OR": OR,
    b"XOR": XOR,
    b"BIT_XOR": XOR,
    b"APPEND_IF_FITS": appended,
    b"MAX": chosen(max),
    b"MIN": chosen(min),
    b"BYTE_MAX": lambda value, operand: operand if value is None else max(value, operand),
    b"BYTE_MIN": lambda value, operand: operand if value is None else min(value, operand),
    b"COMPARE_AND_CLEAR": lambda value, operand: None if value == operand else value,
}
OLD = {name: zero_where_absent(OPERATIONS[name]) for name in (b"AND", b"BIT_AND", b"MIN")}
WITH_A_STAMP = (b"SET_VERSIONSTAMPED_KEY", b"SET_VERSIONSTAMPED_VALUE")


def is_atomic(name: bytes) -> bool:
    return name in OPERATIONS or name in WITH_A_STAMP


def result(api: int, name: bytes, value: Value, operand: bytes) -> Value:
    """Returns what an operation makes of a value, under an API version."""
    operation = OLD[name] if api < 510 and name in OLD else OPERATIONS[name]
    found = operation(value, operand)
    if found is None or name == b"COMPARE_AND_CLEAR":
        return found
    return like(bytes(found), *(it for it in (value, operand) if isinstance(it, Unstable)))
