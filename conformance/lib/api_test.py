"""Random groups on keys: reads and writes of a few transactions that overlap, and what stands around them."""

from __future__ import annotations

import random
from typing import Callable, Optional

from . import atomics
from .scripts import LOG, PREFIX, Group, Options, Rules, Script, Writer, call, chosen, log, waited
from .transactions import EXACT, RETRIED
from .values import Unstable, above

SUFFIXES = [b"", b"a", b"a\x00", b"ab", b"b", b"b\xff", b"c", b"\xff", b"\x00"]
VALUES = [b"", b"\x00", b"\x01", b"\xff", b"\x01\x00", b"v", b"vv", b"abc", b"\xff\xff", b"\x02\x00\x00\x00", bytes(8)]
RETRIES = list(RETRIED)
NOT_RETRIED = [2000, 2004, 2101, 1036]
MODES = [-2, -1, 0, 1, 2, 3, 4]
OUTSIDE = [b"\xff", b"\xff\x01", b"\xff\xfe"]
READ_ENDINGS = ["", "", "", "_SNAPSHOT", "_DATABASE"]
WRITE_ENDINGS = ["", "", "", "", "_DATABASE"]

Weights = dict[str, int]

# How often each group comes.
API: Weights = {
    "set": 10, "clear": 6, "clear_range": 6, "clear_range_starts_with": 3, "atomic_op": 10,
    "get": 9, "get_key": 7, "get_range": 7, "get_range_starts_with": 3, "get_range_selector": 6,
    "conflict_key": 2, "conflict_range": 2, "silent_write": 3, "commit": 7, "use_transaction": 6, "new_transaction": 2, "reset": 2,
    "cancel": 1, "on_error": 2, "read_version": 2, "set_read_version": 2, "committed_version": 1, "after_end": 2, "duel": 1,
    "stamped_value": 1, "stamped_key": 1, "unreadable": 1, "stamp_of_reads": 1, "read_outside": 1, "exact": 1, "sizes": 1,
    "dup": 1, "swap": 1, "pop": 1, "sub": 1, "concat": 1, "wait": 1, "empty_stack": 1, "read_into_write": 2,
}  # fmt: skip
CONFLICTS: Weights = {
    "set": 10, "clear": 5, "clear_range": 4, "atomic_op": 5, "get": 10, "get_key": 4, "get_range": 8, "get_range_starts_with": 2,
    "get_range_selector": 2, "conflict_key": 4, "conflict_range": 4, "silent_write": 5, "commit": 16, "use_transaction": 18,
    "new_transaction": 1, "reset": 2, "on_error": 2, "read_version": 3, "set_read_version": 3, "committed_version": 3, "after_end": 1,
    "duel": 60,
}  # fmt: skip
THREADS: Weights = API | {"stamped_value": 1, "stamped_key": 0, "get_range_selector": 4, "empty_stack": 0}

# What a program of this kind alone is asked: errors of writes, and what a client may answer otherwise.
OWN: Weights = {"faulty_write": 6, "faulty_version": 2, "write_after_end": 4, "wait_for_any_stamp": 2, "stamped_anywhere": 3, "faulty_conflict": 2}


class KeysWriter(Writer):
    """Writes groups on the keys of a region that begins with `front`."""

    def __init__(self, prefix: bytes, rules: Rules, words: random.Random, front: bytes, weights: Weights, api_names: int = 3):
        super().__init__(prefix, rules, words)
        self.front = front
        self.queue: list[Callable[[], Group]] = []  # groups that come next
        keys = self.random.sample(SUFFIXES, self.random.randint(3, 6))
        self.keys = [front + it for it in keys]
        self.names = [prefix, *(prefix + b"-t%d" % place for place in range(1, api_names))]
        self.weights: dict[Callable, int] = {getattr(self, name): weight for name, weight in weights.items() if weight}

    # Choices.

    def any(self, some: list) -> object:
        return self.random.choice(some)

    def likely(self, share: float) -> bool:
        return self.random.random() < share

    def key(self) -> bytes:
        return self.random.choice(self.keys)

    def value(self) -> bytes:
        return self.random.choice(VALUES) if self.likely(0.7) else self.random.randbytes(self.random.randint(1, 9))

    def ends(self) -> tuple[bytes, bytes]:
        """Returns the ends of a range, which may be empty, or reach to the end of all that begins with a key."""
        begin, end = sorted([self.key(), self.key()])
        if self.likely(0.3):
            end = above(begin) or end
        return begin, min(max(end, begin), above(self.front) or end)

    def options(self) -> tuple[int, int, int]:
        """Returns limit, reverse and mode."""
        mode = self.random.choice(MODES)
        limit = self.random.choice([0, 0, 1, 1, 2, 3, 100])
        return limit or (2 if mode == EXACT else 0), self.random.choice([0, 0, 1]), mode

    def selector(self) -> tuple[bytes, int, int]:
        return self.key(), self.random.choice([0, 1]), self.random.choice([0, 1, 0, 1, 2, -1, 3, -3, 100, -100])

    def ending(self, endings: list[str]) -> str:
        return self.random.choice(endings)

    # Reads and writes.

    def read(self, name: str, *operands: object, endings: Optional[list[str]] = None) -> Group:
        return waited(call(name + self.ending(endings or READ_ENDINGS), *operands), self.likely(0.9))

    def write(self, name: str, *operands: object) -> Group:
        ending = self.ending(WRITE_ENDINGS)
        group = call(name + ending, *operands)
        return waited(group, self.likely(0.5)) if ending else group

    def set(self) -> Group:
        return self.write("SET", self.key(), self.value())

    def clear(self) -> Group:
        return self.write("CLEAR", self.key())

    def clear_range(self) -> Group:
        return self.write("CLEAR_RANGE", *self.ends())

    def clear_range_starts_with(self) -> Group:
        return self.write("CLEAR_RANGE_STARTS_WITH", self.key())

    def atomic(self) -> tuple[bytes, bytes, bytes]:
        name, key = self.random.choice(sorted(atomics.OPERATIONS)), self.key()
        operand = self.machine.database.pairs.get(key)
        return name, key, self.value() if operand is None or isinstance(operand, Unstable) or self.likely(0.6) else bytes(operand)

    def atomic_op(self) -> Group:
        return self.write("ATOMIC_OP", *self.atomic())

    def get(self) -> Group:
        return self.read("GET", self.key())

    def get_key(self) -> Group:
        return self.read("GET_KEY", *self.selector(), self.any([self.front, self.front, self.key()]))

    def get_range(self) -> Group:
        begin, end = self.ends()
        if self.likely(0.03):
            begin, end = end, begin
        return self.read("GET_RANGE", begin, end, *self.options())

    def get_range_starts_with(self) -> Group:
        return self.read("GET_RANGE_STARTS_WITH", self.any([self.front, self.key()]), *self.options())

    def get_range_selector(self) -> Group:
        return self.read("GET_RANGE_SELECTOR", *self.selector(), *self.selector(), *self.options(), self.front)

    def read_into_write(self) -> Group:
        """Sets a key to what another has, or to what the range has."""
        reads = [call("GET", self.key()), call("GET_RANGE", *self.ends(), 1, 0, -1), call("GET_KEY", *self.selector(), self.front)]
        return [*waited(self.random.choice(reads)), *call("SET", self.key())]

    def conflict_key(self) -> Group:
        return call(f"{self.any(['READ', 'WRITE'])}_CONFLICT_KEY", self.key())

    def conflict_range(self) -> Group:
        return call(f"{self.any(['READ', 'WRITE'])}_CONFLICT_RANGE", *self.ends())

    def silent_write(self) -> Group:
        writes = [call("SET", self.key(), self.value()), call("CLEAR", self.key()), call("CLEAR_RANGE", *self.ends()), call("ATOMIC_OP", *self.atomic())]
        return [("DISABLE_WRITE_CONFLICT",), *self.random.choice(writes)]

    # Transactions.

    def commit(self) -> Group:
        """Commits where each client is answered alike; else begins anew."""
        if not self.rules.is_own and not self.machine.current().is_commit_shared():
            return [("RESET",)]
        behind = [[("RESET",)], [("RESET",)], [("NEW_TRANSACTION",)], waited(call("ON_ERROR", self.any(RETRIES))), [], call("GET_COMMITTED_VERSION")]
        return [*waited([("COMMIT",)]), *(self.random.choice(behind) if self.machine.current().phase == "active" else [("RESET",)])]

    def use_transaction(self) -> Group:
        return call("USE_TRANSACTION", self.random.choice(self.names))

    def new_transaction(self) -> Group:
        return [("NEW_TRANSACTION",)]

    def reset(self) -> Group:
        return [("RESET",)]

    def cancel(self) -> Group:
        behind = [call("GET", self.key()), call("GET_RANGE", *self.ends(), 0, 0, -1), [("COMMIT",)], call("ON_ERROR", 1020)]
        return [("CANCEL",), *waited(self.random.choice(behind)), ("RESET",)]

    def on_error(self) -> Group:
        if self.likely(0.7):
            return waited(call("ON_ERROR", self.any(RETRIES)))
        return [*waited(call("ON_ERROR", self.any(NOT_RETRIED))), ("RESET",)]

    def read_version(self) -> Group:
        return [(self.random.choice(["GET_READ_VERSION", "GET_READ_VERSION_SNAPSHOT"]),)]

    def set_read_version(self) -> Group:
        transaction = self.machine.current()
        anew = transaction.version is not None or transaction.phase != "active"
        return [("RESET",)] * anew + [("SET_READ_VERSION",)]

    def committed_version(self) -> Group:
        return [("GET_COMMITTED_VERSION",)]

    def after_end(self) -> Group:
        """Commits a write alone, and asks behind the commit."""
        asked = [call("GET", self.key()), call("GET_KEY", *self.selector(), self.front), call("GET_RANGE", *self.ends(), 0, 0, -1), [("COMMIT",)]]
        begun = [("NEW_TRANSACTION",), *call("SET", self.key(), self.value()), *waited([("COMMIT",)])]
        return [*begun, *waited(self.random.choice(asked)), ("RESET",)]

    def duel(self) -> Group:
        """Lets a transaction read, another one write and commit, and then the first one write and commit."""
        one, other = self.random.sample(self.names, 2)
        writes = [self.named_write, self.named_write, self.silent_write, self.conflict_key, self.conflict_range]
        reads = [self.named_read] * 3 + [self.conflict_key, self.conflict_range, self.read_version]
        self.queue = [
            *([self.random.choice(writes)] if self.likely(0.4) else []),
            *(self.random.choice(reads) for _ in range(self.random.randint(1, 2))),
            lambda: [*call("USE_TRANSACTION", other), ("RESET",)],
            *(self.random.choice(writes) for _ in range(self.random.randint(1, 2))),
            self.commit,
            lambda: call("USE_TRANSACTION", one),
            *([self.named_read] if self.likely(0.2) else []),
            self.named_write,
            self.commit,
        ]
        return [*call("USE_TRANSACTION", one), ("RESET",)]

    def named_write(self) -> Group:
        """Writes by the current transaction, or ranges that may be empty by the database."""
        if self.likely(0.2):
            return waited(call("CLEAR_RANGE_DATABASE", *self.ends()), False)
        writes = [("SET", self.key(), self.value()), ("CLEAR", self.key()), ("CLEAR_RANGE", *self.ends()), ("ATOMIC_OP", *self.atomic())]
        name, *operands = self.random.choice(writes)
        return call(str(name), *operands)

    def named_read(self) -> Group:
        endings = ["", "", "_SNAPSHOT"]
        reads = [("GET", self.key()), ("GET_RANGE", *self.ends(), *self.options()), ("GET_KEY", *self.selector(), self.front)]
        name, *operands = self.random.choices(reads, [3, 3, 1])[0]
        return self.read(str(name), *operands, endings=endings)

    # Versionstamps: each group ends with nothing that a stamp is in.

    def place(self, string: bytes) -> bytes:
        """Returns the place that ends a stamped key or value."""
        return len(string).to_bytes(4, "little")

    def stamped_value(self) -> Group:
        """Sets a stamped value, and clears it if it is what GET_VERSIONSTAMP gives."""
        key, old = self.key(), self.rules.api < 520
        front, back = (b"", b"") if old else (self.value(), self.value())
        operand = bytes(10) if old else front + bytes(10) + back + self.place(front)
        whole = [("PUSH", back), *call("SWAP", 1), ("CONCAT",), ("PUSH", front), ("CONCAT",)]
        return [
            ("NEW_TRANSACTION",), *call("ATOMIC_OP", b"SET_VERSIONSTAMPED_VALUE", key, operand), ("GET_VERSIONSTAMP",),
            *waited([("COMMIT",)], False), ("WAIT_FUTURE",), *whole, *call("ATOMIC_OP_DATABASE", b"COMPARE_AND_CLEAR", key), ("POP",),
            *waited(call("GET_DATABASE", key)), *waited(call("CLEAR_DATABASE", key), False), ("RESET",),
        ]  # fmt: skip

    def stamped_key(self) -> Group:
        """Sets a stamped key, reads it by what GET_VERSIONSTAMP gives, and clears it."""
        front = self.front + b"\xfe"
        template = front + bytes(10)
        place = len(front).to_bytes(2 if self.rules.api < 520 else 4, "little")
        return [
            ("NEW_TRANSACTION",), *call("ATOMIC_OP", b"SET_VERSIONSTAMPED_KEY", template + place, self.value()), ("GET_VERSIONSTAMP",),
            *waited([("COMMIT",)], False), ("WAIT_FUTURE",), ("PUSH", front), ("CONCAT",), *waited([("GET_DATABASE",)]),
            *waited(call("CLEAR_RANGE_STARTS_WITH_DATABASE", front), False), ("RESET",),
        ]  # fmt: skip

    def unreadable(self) -> Group:
        """Reads over a stamped value or key of the transaction itself, and begins anew."""
        key, front = self.key(), self.front + b"\xfe"
        old = self.rules.api < 520
        value = call("ATOMIC_OP", b"SET_VERSIONSTAMPED_VALUE", key, bytes(10) if old else bytes(14))
        stamped = call("ATOMIC_OP", b"SET_VERSIONSTAMPED_KEY", front + bytes(10) + len(front).to_bytes(2 if old else 4, "little"), b"")
        ending = self.any(["", "_SNAPSHOT"])
        whole = call(f"GET_RANGE_STARTS_WITH{ending}", self.front, 0, 0, -1)
        write, reads = self.random.choice([(value, [call(f"GET{ending}", key), whole]), (stamped, [whole])])
        return [("NEW_TRANSACTION",), ("GET_READ_VERSION",), *write, *waited(self.random.choice(reads)), ("RESET",)]

    def stamp_of_reads(self) -> Group:
        """Asks for the versionstamp of a commit that wrote nothing: 2021."""
        return [("NEW_TRANSACTION",), *waited(call("GET", self.key())), ("GET_VERSIONSTAMP",), *waited([("COMMIT",)], False), ("WAIT_FUTURE",), ("RESET",)]

    # Errors of reads, and sizes.

    def read_outside(self) -> Group:
        key = self.random.choice(OUTSIDE)
        beyond = OUTSIDE[1]
        reads = [("GET", key), ("GET_KEY", beyond, 0, 1, self.front), ("GET_RANGE", self.key(), beyond, 0, 0, -1)]
        name, *operands = self.random.choice(reads)
        return self.read(str(name), *operands)

    def exact(self) -> Group:
        return self.read("GET_RANGE", *self.ends(), 0, 0, EXACT)

    def sizes(self) -> Group:
        return self.random.choice([[("GET_APPROXIMATE_SIZE",)], call("GET_ESTIMATED_RANGE_SIZE", *self.ends())])

    # The stack.

    def dup(self) -> Group:
        return [("DUP",)]

    def swap(self) -> Group:
        return call("SWAP", self.random.randrange(max(len(self.machine.stack), 1)))

    def pop(self) -> Group:  # type: ignore[override]
        return [("POP",)]

    def sub(self) -> Group:
        return call("SUB", self.random.randint(-(2**62), 2**62), self.random.choice([0, 1, -1, 255, 2**32, -(2**62)]))

    def concat(self) -> Group:
        return call("CONCAT", *self.random.choice([(b"a\x00", b"\xff"), ("x", "\u00e9"), (b"", b""), (self.value(), self.value())]))

    def wait(self) -> Group:
        return [("WAIT_FUTURE",)]

    def empty_stack(self) -> Group:
        return [("EMPTY_STACK",)] if self.likely(0.1) else [("PUSH", self.value())]

    # Of a program of this kind alone.

    def faulty_write(self) -> Group:
        key, name = self.any([b"\xff", b"\xff\xff", bytes(10_001)]), self.any([b"NONE", b"ADD"])
        inverted = sorted([self.key(), self.key() + b"\x00"], reverse=True)
        if self.likely(0.1):
            return [("PUSH", b"v" * 60_000), ("DUP",), ("CONCAT",), *call("SET", self.key())]
        calls = [("SET", key, self.value()), ("CLEAR", key), ("ATOMIC_OP", name, key, self.value()), ("CLEAR_RANGE", *inverted)]
        operation, *operands = self.random.choice(calls)
        return self.write(str(operation), *operands)

    def faulty_conflict(self) -> Group:
        kind = self.any(["READ", "WRITE"])
        return self.random.choice([call(f"{kind}_CONFLICT_KEY", b"\xff"), call(f"{kind}_CONFLICT_RANGE", self.keys[0] + b"\x01", self.keys[0])])

    def faulty_version(self) -> Group:
        """Sets a version that was set already, or one of no commit."""
        return self.random.choice([[("SET_READ_VERSION",)], [("NEW_TRANSACTION",), ("GET_COMMITTED_VERSION",), ("SET_READ_VERSION",)]])

    def write_after_end(self) -> Group:
        end = self.random.choice([("COMMIT",), ("CANCEL",)])
        return [end, *self.random.choice([self.set, self.clear, self.atomic_op, self.conflict_key, self.read_version, self.get])()]

    def wait_for_any_stamp(self) -> Group:
        """Waits for the versionstamp of an attempt that ends in any way."""
        return [("GET_VERSIONSTAMP",), self.random.choice([("RESET",), ("CANCEL",), ("NEW_TRANSACTION",)]), ("WAIT_FUTURE",)]

    def stamped_anywhere(self) -> Group:
        size = 2 if self.rules.api < 520 else 4
        front = self.random.choice([self.key(), self.front])
        template = front + bytes(self.random.choice([10, 10, 11, 9]))
        place = self.random.choice([0, len(front), len(front), 1]).to_bytes(size, "little")
        if self.likely(0.5):
            return call("ATOMIC_OP", b"SET_VERSIONSTAMPED_KEY", template + place, self.value())
        return call("ATOMIC_OP", b"SET_VERSIONSTAMPED_VALUE", self.key(), template + (b"" if size == 2 else place))

    # The whole.

    def write_groups(self, operations: int) -> None:
        """Writes groups until there are so many instructions."""
        begun = self.machine.number
        for key in self.random.sample(self.keys, len(self.keys) // 2):
            self.add(waited(call("SET_DATABASE", key, self.value()), False))
        for _ in range(20 * operations):
            if self.machine.number - begun >= operations:
                break
            group = self.queue.pop(0)() if self.queue else chosen(self.random, self.weights)()
            if not (group[0] in (("DUP",), ("POP",), ("WAIT_FUTURE",)) and not self.machine.stack):
                self.add(group)

    def finish(self, log_prefix: bytes) -> None:
        self.add(log(log_prefix), True)


def keys_script(test: str, weights: Weights, seed: int, options: Options, key_count: Optional[int] = None) -> Script:
    """Returns a script of one machine on a few keys."""
    words = random.Random(f"{test} {seed}")
    rules = Rules(options.api, (b"k", b"l"), True, options.is_own, options.without, options.has_errors)
    writer = KeysWriter(PREFIX, rules, words, b"k", weights | (OWN if options.is_own else {}))
    if key_count:
        writer.keys = writer.keys[:key_count]
    writer.write_groups(options.operations)
    writer.finish(LOG)
    return Script(test, seed, options.api, [(PREFIX, writer.groups)], {PREFIX: rules})


def api_script(seed: int, options: Options) -> Script:
    """Every operation on keys, by three transactions that overlap."""
    return keys_script("api", API, seed, options)


def conflicts_script(seed: int, options: Options) -> Script:
    """Transactions that read and write three keys by turns: which commits are refused."""
    return keys_script("conflicts", CONFLICTS, seed, options, 3)


def threads_script(seed: int, options: Options) -> Script:
    """Machines side by side, each on keys of its own."""
    words = random.Random(f"threads {seed}")
    sections, rules = [], {}
    started: list[Group] = []
    for number in range(1, options.machines + 1):
        prefix, front, busy = b"w%d" % number, b"k%02d/" % number, b"busy/%d" % number
        rules[prefix] = Rules(options.api, (front, above(front) or front), False, False, options.without, options.has_errors)
        writer = KeysWriter(prefix, rules[prefix], words, front, THREADS)
        writer.write_groups(options.operations // options.machines)
        writer.finish(b"log%d/" % number)
        sections.append((prefix, [*writer.groups, waited(call("CLEAR_DATABASE", busy), False)]))
        started += [waited(call("SET_DATABASE", busy, b""), False), call("START_THREAD", prefix)]
    shown = [waited(call("GET_RANGE_STARTS_WITH_DATABASE", b"k%02d/" % number, 0, 0, -1)) for number in range(1, options.machines + 1)]
    main = [*started[::2], *started[1::2], call("WAIT_EMPTY", b"busy/"), *shown, log(LOG)]
    return Script("threads", seed, options.api, [(PREFIX, main), *sections], rules)
