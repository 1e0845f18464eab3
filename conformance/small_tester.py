#!/usr/bin/env python3
"""A small stack tester over a database in memory, as an example of a tester that the suite runs.

    python3 conformance/small_tester.py run PREFIX API [--many] < LINES > LINES

It reads K lines, runs the instructions of the prefix, and prints the pairs that are there at the end as K lines. With `--many` it
takes scripts one after the other, each ended by a line `.`, and answers each by its pairs and a line `.`. It has the operations
of the subjects stack, tuples, reads, pending and atomic, and LOG_STACK. It leaves out errors, conflicts, versions, versionstamps,
threads, directories and the limits of keys and values: at an operation of these it stops with status 3 and says at which instruction.
"""

import os
import sys

sys.path.insert(0, os.path.join(os.path.dirname(os.path.realpath(__file__)), "..", "scripts"))

from instruction_text import TextFault, pair_line, pairs_in  # noqa: E402
from tuple_layer import INCOMPLETE, Versionstamp, pack, unpack  # noqa: E402

ABSENT = b"RESULT_NOT_PRESENT"
LONGEST_VALUE = 100_000
LONGEST_LOGGED = 40_000
END = b"\xff"


def first_above_all_with(prefix):
    """Returns the first key above all that begin with the prefix."""
    front = prefix.rstrip(b"\xff")
    return front[:-1] + bytes([front[-1] + 1]) if front else END


def fitted(value, size):
    return value[:size].ljust(size, b"\x00")


def number(string):
    return int.from_bytes(string, "little")


def bytewise(combine):
    """Returns an atomic operation that combines value and operand byte by byte."""
    return lambda value, operand: operand if value is None else bytes(map(combine, fitted(value, len(operand)), operand))


def chosen(choose, key):
    """Returns an atomic operation that keeps the value or the operand, both of the operand's length, as the key says."""
    return lambda value, operand: operand if value is None else choose(fitted(value, len(operand)), operand, key=key)


def added(value, operand):
    return ((number(fitted(value or b"", len(operand))) + number(operand)) % 256 ** len(operand)).to_bytes(len(operand), "little")


def appended(value, operand):
    both = (value or b"") + operand
    return both if len(both) <= LONGEST_VALUE else value


# What an atomic operation makes of a value, which is None where there is none, and an operand.
ATOMIC = {
    b"ADD": added,
    b"BIT_AND": bytewise(lambda one, other: one & other),
    b"BIT_OR": bytewise(lambda one, other: one | other),
    b"BIT_XOR": bytewise(lambda one, other: one ^ other),
    b"APPEND_IF_FITS": appended,
    b"MAX": chosen(max, number),
    b"MIN": chosen(min, number),
    b"BYTE_MAX": lambda value, operand: operand if value is None else max(value, operand),
    b"BYTE_MIN": lambda value, operand: operand if value is None else min(value, operand),
    b"COMPARE_AND_CLEAR": lambda value, operand: None if value == operand else value,
}
ATOMIC |= {short: ATOMIC[b"BIT_" + short] for short in (b"AND", b"OR", b"XOR")}


class Transaction:
    """A transaction: the pairs at its first read or write, and those writes behind them."""

    def __init__(self, database):
        self.database, self.begun, self.writes = database, None, []

    def pairs(self):
        """Returns the pairs that the transaction sees."""
        if self.begun is None:
            self.begun = dict(self.database)
        pairs = dict(self.begun)
        for write in self.writes:
            write(pairs)
        return pairs

    def commit(self):
        for write in self.writes:
            write(self.database)
        self.__init__(self.database)

    def get(self, key):
        return self.pairs().get(key, ABSENT)

    def key(self, key, or_equal, offset):
        """Returns the key that a selector means."""
        keys = sorted(self.pairs())
        place = sum(it < key or (or_equal and it == key) for it in keys) - 1 + offset
        return b"" if place < 0 else keys[place] if place < len(keys) else END

    def range(self, begin, end, limit, reverse):
        """Returns the pairs of a range, in order or reversed, at most so many."""
        pairs = sorted(((key, value) for key, value in self.pairs().items() if begin <= key < end), reverse=reverse)
        return pairs[:limit] if limit else pairs

    def set(self, key, value):
        self.writes.append(lambda pairs: pairs.update({key: value}))

    def clear_range(self, begin, end):
        def write(pairs):
            for key in [key for key in pairs if begin <= key < end]:
                del pairs[key]

        self.writes.append(write)

    def atomic(self, name, key, operand):
        def write(pairs):
            value = ATOMIC[name](pairs.get(key), operand)
            pairs.pop(key, None)
            if value is not None:
                pairs[key] = value

        self.writes.append(write)


class Machine:
    """A stack machine. An item is a value and the number of the instruction that pushed it."""

    def __init__(self, database, prefix):
        self.database, self.name, self.transactions, self.stack, self.number = database, prefix, {}, [], 0

    def pop(self, count=1):
        """Pops so many values: the one on top is the first; of one value, the value itself."""
        values = [self.stack.pop()[0] for _ in range(count)]
        return values[0] if count == 1 else values

    def pop_bytes(self, count=1):
        values = [value.encode() if isinstance(value, str) else value for value in (self.stack.pop()[0] for _ in range(count))]
        return values[0] if count == 1 else values

    def pop_tuple(self):
        return [self.stack.pop()[0] for _ in range(self.pop())]

    def push(self, value):
        self.stack.append((value, self.number))

    def current(self):
        return self.transactions.setdefault(self.name, Transaction(self.database))

    def run(self, name, *elements):
        """Runs one instruction. An operation of this class has its name in small letters."""
        base, _, ending = name.rpartition("_")
        if name == "PUSH":
            self.push(elements[0])
        elif ending in ("SNAPSHOT", "DATABASE") and hasattr(Calls, base.lower()):
            self.call(base, Transaction(self.database) if ending == "DATABASE" else self.current(), ending == "DATABASE")
        elif hasattr(Calls, name.lower()):
            self.call(name, self.current(), False)
        elif hasattr(Operations, name.lower()):
            getattr(Operations, name.lower())(self)
        else:
            raise NotImplementedError(name)

    def call(self, name, transaction, is_on_database):
        """Makes a call on a transaction; one on the database is committed, and leaves a text where it leaves nothing else."""
        height = len(self.stack)
        pops = getattr(Calls, name.lower())(self, transaction)
        if is_on_database:
            transaction.commit()
            if len(self.stack) == height - pops:
                self.push(ABSENT)


class Operations:
    """The operations that no transaction has a part in, or that are on transactions as a whole."""

    def dup(self):
        self.stack.append(self.stack[-1])

    def empty_stack(self):
        self.stack.clear()

    def swap(self):
        depth = -1 - self.pop()
        self.stack[-1], self.stack[depth] = self.stack[depth], self.stack[-1]

    def pop(self):
        self.stack.pop()

    def sub(self):
        one, other = self.pop(2)
        self.push(one - other)

    def concat(self):
        one, other = self.pop(2)
        self.push(one + other)

    def wait_future(self):
        """Every item is known already, and keeps its number."""

    def tuple_pack(self):
        self.push(pack(self.pop_tuple()))

    def tuple_unpack(self):
        for element in unpack(self.pop_bytes()):
            self.push(pack((element,)))

    def tuple_range(self):
        front = pack(self.pop_tuple())
        self.push(front + b"\x00")
        self.push(front + b"\xff")

    def tuple_sort(self):
        # Packed tuples sort as the tuples do.
        for string in sorted(self.pop_tuple()):
            unpack(string)
            self.push(string)

    def tuple_pack_with_versionstamp(self):
        prefix, elements = self.pop_bytes(), self.pop_tuple()
        count = incomplete_in(elements)
        if count != 1:
            self.push(b"ERROR: MULTIPLE" if count else b"ERROR: NONE")
            return
        string = prefix + pack(elements)
        place = len(os.path.commonprefix([string, prefix + pack(completed(elements))]))
        self.push(b"OK")
        self.push(string + place.to_bytes(4, "little"))

    def get_approximate_size(self):
        self.push(b"GOT_APPROXIMATE_SIZE")

    def get_estimated_range_size(self):
        self.pop(2)
        self.push(b"GOT_ESTIMATED_RANGE_SIZE")

    def unit_tests(self):
        """There are none."""

    def use_transaction(self):
        self.name = self.pop_bytes()

    def new_transaction(self):
        self.transactions[self.name] = Transaction(self.database)

    reset = new_transaction

    def commit(self):
        self.current().commit()
        self.push(ABSENT)

    def log_stack(self):
        prefix, items = self.pop_bytes(), self.stack[:]
        self.stack.clear()
        for place, (value, instruction) in enumerate(items):
            self.database[prefix + pack((place, instruction))] = pack((value,))[:LONGEST_LOGGED]


class Calls:
    """The operations that read or write by a transaction. Each returns how many items it popped."""

    def get(self, transaction):
        self.push(transaction.get(self.pop_bytes()))
        return 1

    def get_key(self, transaction):
        key, (or_equal, offset), prefix = self.pop_bytes(), self.pop(2), self.pop_bytes()
        found = transaction.key(key, or_equal, offset)
        self.push(found if found.startswith(prefix) else prefix if found < prefix else first_above_all_with(prefix))
        return 4

    def push_range(self, pairs):
        self.push(pack([it for pair in pairs for it in pair]))

    def get_range(self, transaction):
        begin, end = self.pop_bytes(2)
        limit, reverse, _ = self.pop(3)
        Calls.push_range(self, transaction.range(begin, end, limit, bool(reverse)))
        return 5

    def get_range_starts_with(self, transaction):
        prefix, (limit, reverse, _) = self.pop_bytes(), self.pop(3)
        Calls.push_range(self, transaction.range(prefix, first_above_all_with(prefix), limit, bool(reverse)))
        return 4

    def get_range_selector(self, transaction):
        begin = transaction.key(self.pop_bytes(), *self.pop(2))
        end = transaction.key(self.pop_bytes(), *self.pop(2))
        (limit, reverse, _), prefix = self.pop(3), self.pop_bytes()
        pairs = transaction.range(begin, end, limit, bool(reverse))
        Calls.push_range(self, [pair for pair in pairs if pair[0].startswith(prefix)])
        return 10

    def set(self, transaction):
        transaction.set(*self.pop_bytes(2))
        return 2

    def clear(self, transaction):
        key = self.pop_bytes()
        transaction.clear_range(key, key + b"\x00")
        return 1

    def clear_range(self, transaction):
        transaction.clear_range(*self.pop_bytes(2))
        return 2

    def clear_range_starts_with(self, transaction):
        prefix = self.pop_bytes()
        transaction.clear_range(prefix, first_above_all_with(prefix))
        return 1

    def atomic_op(self, transaction):
        name, key, operand = self.pop_bytes(3)
        if name not in ATOMIC:
            raise NotImplementedError(name.decode())
        transaction.atomic(name, key, operand)
        return 3


def is_incomplete(element):
    return isinstance(element, Versionstamp) and element.stamp == INCOMPLETE


def is_nested(element):
    return isinstance(element, tuple) and not isinstance(element, Versionstamp)


def incomplete_in(elements):
    """Returns how many incomplete versionstamps a tuple has, nested ones too."""
    return sum(incomplete_in(it) if is_nested(it) else is_incomplete(it) for it in elements)


def completed(elements):
    """Returns the tuple with other bytes in the place of each incomplete versionstamp."""
    return tuple(completed(it) if is_nested(it) else Versionstamp(bytes(10), it.user) if is_incomplete(it) else it for it in elements)


class LeftOut(Exception):
    """An operation that this tester doesn't have."""


def run(prefix, lines):
    """Runs the instructions of a prefix, and returns the pairs at the end as K lines."""
    database = dict(pairs_in(lines))
    front, machine = pack((prefix,)), Machine(database, prefix)
    instructions = sorted((key, value) for key, value in database.items() if front + b"\x00" <= key < front + b"\xff")
    for machine.number, (_, value) in enumerate(instructions):
        try:
            machine.run(*unpack(value))
        except NotImplementedError as cause:
            raise LeftOut(f"instruction {machine.number}: {cause} is left out") from cause
    return "".join(pair_line(*pair) + "\n" for pair in sorted(database.items()))


def run_many(prefix):
    """Answers scripts until the input ends. A line that begins with `!` says why a script has no answer."""
    script = []
    for line in sys.stdin.buffer:
        if line != b".\n":
            script.append(line)
            continue
        try:
            told = run(prefix, b"".join(script))
        except LeftOut as fault:
            told = f"! {fault}\n"
        print(told + ".", flush=True)
        script = []


def main(words):
    if words == ["--help"]:
        print(__doc__)
        return
    if len(words) not in (3, 4) or words[0] != "run" or words[3:] not in ([], ["--many"]):
        print("small_tester: the words are `run PREFIX API`, and perhaps --many; --help says more", file=sys.stderr)
        sys.exit(2)
    prefix = words[1].encode()
    if words[3:]:
        run_many(prefix)
        return
    try:
        print(run(prefix, sys.stdin.buffer.read()), end="")
    except (LeftOut, TextFault) as fault:
        print(f"small_tester: {fault}", file=sys.stderr)
        sys.exit(2 if isinstance(fault, TextFault) else 3)


if __name__ == "__main__":
    main(sys.argv[1:])
