"""The stack machine of the bindings tester on a database, as docs/reference/rules.md has it, and machines that run by turns.

On a database that is shared with a cluster an instruction raises `NotShared` where a cluster may do otherwise.
"""

from __future__ import annotations

import os
from typing import Any, Callable, NamedTuple, Optional

from tuple_layer import INCOMPLETE, NotATuple, Versionstamp, pack, unpack

from . import atomics
from .directory_operations import Directories
from .transactions import Attempt, Database, RangeOptions, Selector, Transaction, prefix_range
from .values import END, Allocated, NotShared, Refused, Stamped, Stopped, Unknown, Unstable, above, joined, like

ABSENT = b"RESULT_NOT_PRESENT"
LONGEST_LOGGED = 40_000
BATCH = 100
MOST_MACHINES = 64

Instruction = tuple


class Item(NamedTuple):
    """An item of a stack: an element, or an attempt whose versionstamp it waits for, and the instruction that pushed it."""

    value: Any
    number: int


def error_item(code: int) -> bytes:
    return pack((b"ERROR", str(code).encode()))


class World:
    """What all machines share: the database, the transactions by their names, and the machines."""

    def __init__(self, database: Database):
        self.database = database
        self.transactions: dict[bytes, Transaction] = {}
        self.machines: list["Machine"] = []

    def transaction(self, name: bytes) -> Transaction:
        if name not in self.transactions:
            self.transactions[name] = Transaction(self.database)
        return self.transactions[name]

    def start(self, prefix: bytes) -> "Machine":
        """Starts a machine on the instructions that stand in the database."""
        if len(self.machines) == MOST_MACHINES:
            raise Stopped("machine-limit")
        machine = Machine(self, prefix)
        begin, end = pack((prefix,)) + b"\x00", pack((prefix,)) + b"\xff"
        machine.left = [value for key, value in sorted(self.database.pairs.items()) if begin <= key < end]
        self.machines.append(machine)
        return machine

    def run(self, polls: int) -> None:
        """Runs the machines by turns, an instruction each, until all have ended."""
        while any([machine.step(polls) for machine in self.machines]):  # each of them, also behind one that goes on
            pass


class Machine(Directories):
    """A stack machine under a prefix."""

    def __init__(self, world: World, prefix: bytes):
        super().__init__()
        self.world, self.database = world, world.database
        self.prefix = self.name = prefix
        self.stack: list[Item] = []
        self.number = 0
        self.seen_version = 0
        self.is_seen_sure = False
        self.errors: list[tuple[int, str]] = []
        self.left: list[bytes] = []
        self.end: Optional[str] = None
        self.polls_left: Optional[int] = None
        self.must_wait = False
        self.is_on_database = False
        self.is_snapshot = False

    # Running.

    def step(self, polls: int) -> bool:
        """Runs one instruction, or polls once more. Returns whether the machine goes on."""
        if self.end is not None:
            return False
        if self.number == len(self.left):
            self.end = "ended"
            return False
        before = list(self.stack)
        try:
            self.run_value(self.left[self.number])
        except Waits as wait:
            self.stack = before
            self.polls_left = (polls if self.polls_left is None else self.polls_left) - 1
            if self.polls_left > 0:
                return True
            self.stack = self.stack[: wait.height]
            self.end = "wait-bound"
            return False
        except Stopped as stop:
            self.end = stop.word
            return False
        self.polls_left = None
        self.number += 1
        return True

    def run_value(self, value: bytes) -> None:
        try:
            instruction = unpack(value)
        except NotATuple as fault:
            raise Stopped("bad-instruction") from fault
        self.run(instruction)

    def run(self, instruction: Instruction) -> None:
        """Runs one instruction: a name, and of PUSH an element."""
        name = instruction[0] if instruction else None
        name = name.decode("latin-1") if isinstance(name, bytes) else name
        if not isinstance(name, str) or len(instruction) != 1 + (name == "PUSH"):
            raise Stopped("bad-instruction")
        self.check_wait(name)
        if name == "PUSH":
            self.push(instruction[1])
            return
        base = self.base_of(name)
        operation = OPERATIONS.get(base)
        if operation is None or name == "TUPLE_PACK_WITH_VERSIONSTAMP" and self.database.api < 520:
            raise Stopped("bad-instruction")
        try:
            operation(self)
        except Refused as refusal:
            self.fail(base, str(refusal.code))

    def base_of(self, name: str) -> str:
        """Returns the name without an ending that the operation has, and notes the ending."""
        base, _, ending = name.rpartition("_")
        self.is_snapshot = ending == "SNAPSHOT" and base in WITH_SNAPSHOT
        self.is_on_database = ending == "DATABASE" and base in WITH_DATABASE
        return base if self.is_snapshot or self.is_on_database else name

    def check_wait(self, name: str) -> None:
        """A shared script waits for what a tester may push as a future."""
        self.database.need(not self.must_wait or name in ("WAIT_FUTURE", "POP"), "a future that isn't waited for")
        self.must_wait = False

    def fail(self, base: str, word: str) -> None:
        """Notes an error and pushes its item."""
        self.errors.append((self.number, word))
        if base.startswith("DIRECTORY_"):
            self.push_fault(base)
        else:
            self.push(error_item(int(word)))
        self.must_wait = not base.startswith("DIRECTORY_")

    # Operands.

    def push(self, value: Any) -> None:
        self.stack.append(Item(value, self.number))

    def pop_item(self) -> Item:
        """Pops an item; one that waits becomes known first."""
        if not self.stack:
            raise Stopped("underflow")
        item = self.stack[-1]
        if isinstance(item.value, Attempt):
            item = self.settled(item)
        self.stack.pop()
        return item

    def settled(self, item: Item) -> Item:
        outcome = item.value.outcome
        if outcome is None:
            self.database.need(False, "a versionstamp that may never come")
            raise Waits(len(self.stack) - 1)
        if isinstance(outcome, bytes):
            return Item(outcome, item.number)
        self.database.need(outcome == 2021, "a versionstamp of an attempt that ended otherwise")
        self.errors.append((self.number, str(outcome)))
        return Item(error_item(outcome), item.number)

    def pop(self, *kinds: type) -> Any:
        """Pops an operand of one of these kinds."""
        value = self.pop_item().value
        self.database.need(not isinstance(value, Unknown), "an operand that isn't known")
        is_flag = isinstance(value, bool) and bool not in kinds
        if kinds and (is_flag or not isinstance(value, kinds)) or isinstance(value, Versionstamp) and tuple in kinds:
            raise Stopped("bad-instruction")
        return value

    def pop_bytes(self) -> bytes:
        value = self.pop(bytes, str)
        self.database.need(isinstance(value, bytes), "a Unicode string in the place of bytes")
        return value.encode() if isinstance(value, str) else value

    def pop_integer(self, least: int = -(2**127), most: int = 2**127 - 1) -> int:
        value = self.pop(int)
        if not least <= value <= most:
            raise Stopped("bad-instruction")
        return value

    def pop_flag(self) -> bool:
        return bool(self.pop(int, bool))

    def pop_tuple(self) -> list:
        count = self.pop_integer(0)
        return [self.pop() for _ in range(min(count, len(self.stack) + 1))]

    def pop_selector(self) -> Selector:
        return Selector(self.pop_bytes(), self.pop_flag(), self.pop_integer(-(2**31), 2**31 - 1))

    def pop_options(self) -> RangeOptions:
        return RangeOptions(self.pop_integer(0, 2**31 - 1), self.pop_flag(), self.pop_integer(-2, 4))

    # Stack and data.

    def dup(self) -> None:
        if not self.stack:
            raise Stopped("underflow")
        self.stack.append(self.stack[-1])

    def empty_stack(self) -> None:
        self.stack.clear()

    def swap(self) -> None:
        depth = self.pop_integer(0)
        if depth >= len(self.stack):
            raise Stopped("underflow")
        self.stack[-1], self.stack[-1 - depth] = self.stack[-1 - depth], self.stack[-1]

    def drop(self) -> None:
        self.pop_item()

    def sub(self) -> None:
        found = self.pop(int) - self.pop(int)
        if not -(2**127) <= found < 2**127:
            raise Stopped("bad-instruction")
        self.push(found)

    def concat(self) -> None:
        one, other = self.pop(bytes, str), self.pop(bytes, str)
        if isinstance(one, str) != isinstance(other, str):
            raise Stopped("bad-instruction")
        self.push(one + other if isinstance(one, str) else joined(one, other))

    def wait_future(self) -> None:
        self.stack.append(self.pop_item())

    def tuple_pack(self) -> None:
        self.push(self.packed(self.pop_tuple()))

    def packed(self, elements: list) -> bytes:
        try:
            return like(pack(elements), *elements)
        except ValueError as fault:
            raise Stopped("bad-instruction") from fault

    def unpacked(self, string: bytes) -> tuple:
        try:
            return unpack(string)
        except NotATuple as fault:
            raise Stopped("bad-instruction") from fault

    def tuple_pack_with_versionstamp(self) -> None:
        prefix, elements = self.pop_bytes(), self.pop_tuple()
        count = incomplete_in(elements)
        if count != 1:
            self.push(b"ERROR: MULTIPLE" if count else b"ERROR: NONE")
            return
        string = prefix + self.packed(elements)
        place = len(os.path.commonprefix([string, prefix + pack(completed(elements))]))
        self.push(b"OK")
        self.push(string + place.to_bytes(4, "little"))

    def tuple_unpack(self) -> None:
        string = self.pop_bytes()
        for element in self.unpacked(string):
            self.push(like(pack((element,)), string))

    def tuple_range(self) -> None:
        front = self.packed(self.pop_tuple())
        self.push(joined(front, b"\x00"))
        self.push(joined(front, b"\xff"))

    def tuple_sort(self) -> None:
        count = self.pop_integer(0)
        strings = [self.pop_bytes() for _ in range(min(count, len(self.stack) + 1))]
        for string in strings:
            self.unpacked(string)
        for string in sorted(strings):  # packed tuples sort as the tuples do
            self.push(string)

    def get_approximate_size(self) -> None:
        self.database.need(self.current().phase == "active", "a size behind a commit")
        self.push(b"GOT_APPROXIMATE_SIZE")

    def get_estimated_range_size(self) -> None:
        begin, end = self.pop_bytes(), self.pop_bytes()
        self.database.need(begin < end <= END and self.current().phase == "active", "the size of no range")
        self.push(b"GOT_ESTIMATED_RANGE_SIZE")

    def unit_tests(self) -> None:
        self.database.need(False, "a binding's own tests")

    # Transactions.

    def current(self) -> Transaction:
        return self.world.transaction(self.name)

    def use_transaction(self) -> None:
        self.name = self.pop_bytes()

    def new_transaction(self) -> None:
        if self.name in self.world.transactions:
            self.world.transactions[self.name].attempt.decide(1025)
        self.world.transactions[self.name] = Transaction(self.database)

    def reset(self) -> None:
        self.current().reset()

    def cancel(self) -> None:
        self.current().cancel()

    def commit(self) -> None:
        self.current().commit()
        self.leave(ABSENT)

    def on_error(self) -> None:
        code = self.pop_integer(0, 65_535)
        self.current().on_error(code)
        self.leave(ABSENT)

    def leave(self, value: bytes) -> None:
        """Pushes what a tester may push as a future."""
        self.push(value)
        self.must_wait = True

    def call(self, call: Callable[[Transaction], Any]) -> Any:
        """Makes a call on the current transaction, or on the database: there it is committed."""
        if not self.is_on_database:
            return call(self.current())
        transaction = Transaction(self.database)
        found = call(transaction)
        transaction.commit()
        return found

    def read(self, call: Callable[[Transaction, bool], Any]) -> Any:
        is_snapshot = self.is_snapshot or self.is_on_database and self.database.is_shared
        return self.call(lambda transaction: call(transaction, is_snapshot))

    def write(self, call: Callable[[Transaction], None]) -> None:
        self.call(call)
        if self.is_on_database:
            self.leave(ABSENT)

    def get(self) -> None:
        key = self.pop_bytes()
        value = self.read(lambda transaction, is_snapshot: transaction.get(key, is_snapshot))
        self.leave(ABSENT if value is None else like(value, value))

    def get_key(self) -> None:
        selector, prefix = self.pop_selector(), self.pop_bytes()
        found = self.read(lambda transaction, is_snapshot: transaction.get_key(selector, is_snapshot))
        region = self.database.region
        self.database.need(region is None or region[0] <= prefix and (above(prefix) or END) <= region[1], "a prefix outside the script's own keys")
        if found.startswith(prefix):
            self.leave(found)
        else:
            self.leave(prefix if found < prefix else above(prefix) or END)

    def push_pairs(self, pairs: list[tuple[bytes, bytes]], is_known: bool = True) -> None:
        elements = [it for pair in pairs for it in pair]
        string = like(pack(elements), *elements)
        self.leave(string if is_known else Unknown(string))

    def get_range(self) -> None:
        begin, end, options = self.pop_bytes(), self.pop_bytes(), self.pop_options()
        self.push_pairs(self.read(lambda transaction, is_snapshot: transaction.get_range(begin, end, options, is_snapshot)))

    def get_range_starts_with(self) -> None:
        prefix, options = self.pop_bytes(), self.pop_options()
        self.database.need(above(prefix) is not None, "a prefix without an end")
        self.push_pairs(self.read(lambda transaction, is_snapshot: transaction.get_range(*prefix_range(prefix), options, is_snapshot)))

    def get_range_selector(self) -> None:
        begin, end, options, prefix = self.pop_selector(), self.pop_selector(), self.pop_options(), self.pop_bytes()
        pairs, is_known = self.read(lambda transaction, is_snapshot: transaction.get_range_between(begin, end, options, is_snapshot))
        self.database.need(is_known or self.database.is_alone, "a limit among the keys of other machines")
        self.push_pairs([pair for pair in pairs if pair[0].startswith(prefix)], is_known)

    def set(self) -> None:
        key, value = self.pop_bytes(), self.pop_bytes()
        self.check_prefix(key)
        self.write(lambda transaction: transaction.set(key, value))

    def check_prefix(self, key: bytes) -> None:
        """A prefix of a directory that isn't committed may be given to another one, which must find no key there."""
        given = [it for it in self.database.pairs.values() if isinstance(it, Allocated)] if isinstance(key, Allocated) else []
        self.database.need(not isinstance(key, Allocated) or any(key.startswith(it) for it in given), "contents of a directory that isn't there")

    def clear(self) -> None:
        key = self.pop_bytes()
        self.write(lambda transaction: transaction.clear(key))

    def clear_range(self) -> None:
        begin, end = self.pop_bytes(), self.pop_bytes()
        self.write(lambda transaction: transaction.clear_range(begin, end))

    def clear_range_starts_with(self) -> None:
        prefix = self.pop_bytes()
        self.database.need(above(prefix) is not None, "a prefix without an end")
        self.write(lambda transaction: transaction.clear_range(*prefix_range(prefix)))

    def atomic_op(self) -> None:
        name, key, operand = self.pop_bytes(), self.pop_bytes(), self.pop_bytes()
        self.write(lambda transaction: transaction.atomic(name, key, operand))

    def get_read_version(self) -> None:
        self.seen_version = self.current().get_read_version()
        self.is_seen_sure = True
        self.push(b"GOT_READ_VERSION")

    def set_read_version(self) -> None:
        self.database.need(self.is_seen_sure, "a version that isn't known")
        self.current().set_read_version(self.seen_version)

    def get_committed_version(self) -> None:
        self.seen_version = self.current().get_committed_version()
        self.is_seen_sure = self.seen_version > 0
        self.push(b"GOT_COMMITTED_VERSION")

    def get_versionstamp(self) -> None:
        self.push(self.current().get_versionstamp())

    def add_conflict_range(self, is_write: bool) -> None:
        begin, end = self.pop_bytes(), self.pop_bytes()
        self.current().add_conflict(begin, end, is_write)
        self.push(b"SET_CONFLICT_RANGE")

    def add_conflict_key(self, is_write: bool) -> None:
        key = self.pop_bytes()
        if key >= END and self.current().phase == "active":
            self.database.need(False, "an error of a conflict key")
            raise Refused(2004)
        self.current().add_conflict(key, key + b"\x00", is_write)
        self.push(b"SET_CONFLICT_KEY")

    def disable_write_conflict(self) -> None:
        self.current().disable_write_conflict()

    # Other machines, and the log.

    def start_thread(self) -> None:
        prefix = self.pop_bytes()
        self.world.start(prefix)

    def wait_empty(self) -> None:
        height = len(self.stack) - 1
        begin, end = prefix_range(self.pop_bytes())
        if any(begin <= key < end for key in self.database.pairs):
            raise Waits(height)
        self.push(b"WAITED_FOR_EMPTY")

    def log_stack(self) -> None:
        prefix = self.pop_bytes()
        while self.stack:
            first = max(len(self.stack) - BATCH, 0)
            items = [self.pop_item() for _ in range(len(self.stack) - first)][::-1]
            unstable = [it for it in items if isinstance(it.value, Unstable)]
            self.database.need(not any(isinstance(it.value, (Stamped, Allocated)) for it in unstable), "an item that no cluster gives again")
            transaction = Transaction(self.database)
            for place, (value, number) in enumerate(items, first):
                transaction.set(prefix + pack((place, number)), like(pack((value,))[:LONGEST_LOGGED], value))
            transaction.commit()


class Waits(Exception):
    """A poll was in vain: nothing is changed. If the wait ends so, the items above this height are gone."""

    def __init__(self, height: int):
        super().__init__()
        self.height = height


def is_nested(element: object) -> bool:
    return isinstance(element, (tuple, list)) and not isinstance(element, Versionstamp)


def incomplete_in(elements: Any) -> int:
    """Returns how many incomplete versionstamps a tuple has, nested ones too."""
    return sum(incomplete_in(it) if is_nested(it) else isinstance(it, Versionstamp) and it.stamp == INCOMPLETE for it in elements)


def completed(elements: Any) -> tuple:
    """Returns the tuple with other bytes in the place of each incomplete versionstamp."""
    is_incomplete = [isinstance(it, Versionstamp) and it.stamp == INCOMPLETE for it in elements]
    return tuple(completed(it) if is_nested(it) else Versionstamp(bytes(10), it.user) if lacks else it for it, lacks in zip(elements, is_incomplete))


WITH_SNAPSHOT = """GET GET_KEY GET_RANGE GET_RANGE_STARTS_WITH GET_RANGE_SELECTOR GET_READ_VERSION DIRECTORY_OPEN DIRECTORY_LIST
    DIRECTORY_EXISTS""".split()
WITH_DATABASE = """GET GET_KEY GET_RANGE GET_RANGE_STARTS_WITH GET_RANGE_SELECTOR SET CLEAR CLEAR_RANGE CLEAR_RANGE_STARTS_WITH ATOMIC_OP
    DIRECTORY_CREATE_OR_OPEN DIRECTORY_CREATE DIRECTORY_OPEN DIRECTORY_MOVE DIRECTORY_MOVE_TO DIRECTORY_REMOVE
    DIRECTORY_REMOVE_IF_EXISTS DIRECTORY_LIST DIRECTORY_EXISTS""".split()

NAMED = """empty_stack dup swap sub concat wait_future tuple_pack tuple_pack_with_versionstamp tuple_unpack tuple_range tuple_sort
    get_approximate_size get_estimated_range_size unit_tests use_transaction new_transaction reset cancel commit on_error get get_key
    get_range get_range_starts_with get_range_selector set clear clear_range clear_range_starts_with atomic_op get_read_version
    set_read_version get_committed_version get_versionstamp disable_write_conflict start_thread wait_empty log_stack""".split()
OPERATIONS: dict[str, Callable[[Machine], None]] = {name.upper(): getattr(Machine, name) for name in NAMED}
OPERATIONS |= {"POP": Machine.drop}
for is_a_write, word in ((False, "READ"), (True, "WRITE")):
    OPERATIONS[f"{word}_CONFLICT_RANGE"] = lambda machine, is_write=is_a_write: machine.add_conflict_range(is_write)
    OPERATIONS[f"{word}_CONFLICT_KEY"] = lambda machine, is_write=is_a_write: machine.add_conflict_key(is_write)
OPERATIONS |= {name: getattr(Machine, name.lower()) for name in Directories.NAMES}

__all__ = ["Machine", "World", "Item", "Waits", "NotShared", "Stopped", "atomics"]
