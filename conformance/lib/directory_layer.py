"""The directory layer on a transaction, by the steps of docs/reference/rules.md, "Directories", and the allocator of its prefixes."""

from __future__ import annotations

import random
from typing import NamedTuple, Optional

from tuple_layer import NotATuple, pack, unpack

from .transactions import RangeOptions, Transaction
from .values import Allocated, above, joined, like

PARTITION = b"partition"
TRIES = 32
GREATEST_START = 2**62
ALL = RangeOptions(0, False, -1)
FIRST = RangeOptions(1, False, -1)
LAST = RangeOptions(1, True, -1)

Path = tuple[str, ...]


class Fault(Exception):
    """A call of a layer is refused: the name of the fault."""

    def __init__(self, word: str):
        super().__init__(word)
        self.word = word


class Layer(NamedTuple):
    """A layer: the prefix of its nodes, that of the prefixes which it allocates, and whether a prefix may be given."""

    node: bytes = b"\xfe"
    content: bytes = b""
    is_manual: bool = False


class Found(NamedTuple):
    """A directory that was found: its prefix, its layer name, and the names that remain behind a partition."""

    prefix: bytes
    name: bytes
    remaining: Path


class Opened(NamedTuple):
    prefix: bytes
    name: bytes


def inside(partition: bytes) -> Layer:
    """Returns the layer of a partition."""
    return Layer(joined(partition, b"\xfe"), partition, False)


class Calls:
    """The calls of a layer on a transaction."""

    def __init__(self, transaction: Transaction, layer: Layer, words: random.Random, is_snapshot: bool = False):
        self.transaction, self.layer, self.words, self.is_snapshot = transaction, layer, words, is_snapshot

    def within(self, partition: bytes) -> "Calls":
        return Calls(self.transaction, inside(partition), self.words, self.is_snapshot)

    # Nodes.

    def node(self, prefix: bytes) -> bytes:
        return joined(self.layer.node, like(pack((bytes(prefix),)), prefix))

    def root(self) -> bytes:
        return self.node(self.layer.node)

    def entry(self, prefix: bytes, name: str) -> bytes:
        return joined(self.node(prefix), pack((0, name)))

    def get(self, key: bytes) -> Optional[bytes]:
        return self.transaction.get(key, self.is_snapshot)

    def range(self, begin: bytes, end: bytes, options: RangeOptions = ALL, is_snapshot: bool = False) -> list:
        return self.transaction.get_range(begin, end, options, is_snapshot or self.is_snapshot)

    def check(self, is_write: bool) -> None:
        key = joined(self.root(), pack((b"version",)))
        version = self.get(key)
        if version is None:
            if is_write:
                self.transaction.set(key, b"\x01\x00\x00\x00" + bytes(8))
            return
        if len(version) != 12:
            raise Fault("BadNode")
        if int.from_bytes(version[:4], "little") > 1 or is_write and version[4:8] != bytes(4):
            raise Fault("VersionNewer")

    def find(self, path: Path) -> Optional[Found]:
        prefix, name = self.layer.node, b""
        for place, step in enumerate(path):
            found = self.get(self.entry(prefix, step))
            if found is None:
                return None
            prefix = found
            name = self.get(joined(self.node(prefix), pack((b"layer",)))) or b""
            if name == PARTITION:
                return Found(prefix, name, path[place + 1 :])
        return Found(prefix, name, ())

    def first_of_last(self, pairs: list) -> bytes:
        """Returns the prefix of the node that a key belongs to."""
        try:
            first = unpack(pairs[0][0][len(self.layer.node) :])[0]
        except (NotATuple, IndexError) as fault:
            raise Fault("BadNode") from fault
        if not isinstance(first, bytes):
            raise Fault("BadNode")
        return first

    def is_in_use(self, prefix: bytes, is_snapshot: bool) -> bool:
        if not prefix or prefix.startswith(self.layer.node):
            return True
        pairs = self.range(joined(self.layer.node, b"\x00"), joined(self.node(prefix), b"\x00"), LAST, is_snapshot)
        if pairs and prefix.startswith(self.first_of_last(pairs)):
            return True
        end = above(prefix)
        if end is None:
            raise Fault("NoSuccessor")
        return bool(self.range(self.node(prefix), self.node(end), FIRST, is_snapshot))

    def children(self, prefix: bytes) -> list[tuple[str, bytes]]:
        front = joined(self.node(prefix), pack((0,)))
        found = []
        for key, value in self.range(joined(front, b"\x00"), joined(front, b"\xff")):
            try:
                names = unpack(key[len(front) :])
            except NotATuple as fault:
                raise Fault("BadNode") from fault
            if len(names) != 1 or not isinstance(names[0], str):
                raise Fault("BadNode")
            found.append((names[0], value))
        return found

    # Calls.

    def create_or_open(self, path: Path, name: Optional[bytes], prefix: Optional[bytes], may_create: bool, may_open: bool) -> Opened:
        self.check(False)
        if prefix is not None and not self.layer.is_manual:
            raise Fault("ManualNotAllowed")
        if not path:
            raise Fault("EmptyPath")
        found = self.find(path)
        if found and found.remaining:
            return self.within(found.prefix).create_or_open(found.remaining, name, prefix, may_create, may_open)
        if found:
            if not may_open:
                raise Fault("Exists")
            if name and name != found.name:
                raise Fault("LayerDiffers")
            return Opened(found.prefix, found.name)
        if not may_create:
            raise Fault("Missing")
        return self.create(path, name, prefix)

    def create(self, path: Path, name: Optional[bytes], prefix: Optional[bytes]) -> Opened:
        self.check(True)
        if prefix is None:
            prefix = self.new_prefix()
        elif self.is_in_use(prefix, False):
            raise Fault("PrefixInUse")
        parent = self.layer.node
        if len(path) > 1:
            parent = self.create_or_open(path[:-1], None, None, True, True).prefix
        self.transaction.set(self.entry(parent, path[-1]), prefix)
        self.transaction.set(joined(self.node(prefix), pack((b"layer",))), name or b"")
        return Opened(prefix, name or b"")

    def new_prefix(self) -> bytes:
        """Allocates a prefix; which reads of it conflict is a client's own."""
        surely = self.transaction.surely[:]
        number = self.allocate(joined(self.root(), pack((b"hca",))))
        prefix = Allocated(self.layer.content + pack((number,)))
        end = above(prefix)
        if end is None:
            raise Fault("NoSuccessor")
        if self.range(prefix, end, FIRST):
            raise Fault("KeysAtPrefix")
        if self.is_in_use(prefix, True):
            raise Fault("PrefixInUse")
        self.transaction.surely = surely
        return prefix

    def move(self, old: Path, new: Path) -> Opened:
        self.check(True)
        if new[: len(old)] == old:
            raise Fault("IntoItself")
        source, target = self.find(old), self.find(new)
        if not source:
            raise Fault("Missing")
        has_left, has_right = bool(source.remaining), bool(target and target.remaining)
        if has_left or has_right:
            if not (has_left and has_right) or not target or source.prefix != target.prefix:
                raise Fault("AcrossPartitions")
            return self.within(source.prefix).move(source.remaining, target.remaining)
        if target:
            raise Fault("Exists")
        parent = self.find(new[:-1])
        if not parent or parent.remaining:
            raise Fault("ParentMissing")
        self.transaction.set(self.entry(parent.prefix, new[-1]), source.prefix)
        before = self.find(old[:-1])
        if before:
            self.transaction.clear(self.entry(before.prefix, old[-1]))
        return Opened(source.prefix, source.name)

    def remove(self, path: Path, is_optional: bool) -> None:
        self.check(True)
        if not path:
            raise Fault("EmptyPath")
        found = self.find(path)
        if not found:
            if is_optional:
                return
            raise Fault("Missing")
        if found.remaining:
            self.within(found.prefix).remove(found.remaining, is_optional)
            return
        self.clear_below(found.prefix)
        parent = self.find(path[:-1])
        if parent:
            self.transaction.clear(self.entry(parent.prefix, path[-1]))

    def clear_below(self, prefix: bytes) -> None:
        left = [prefix]
        while left:
            prefix = left.pop(0)
            left += [child for _, child in self.children(prefix)]
            end = above(prefix)
            if end is None:
                raise Fault("NoSuccessor")
            self.transaction.clear_range(prefix, end)
            node = self.node(prefix)
            self.transaction.clear_range(joined(node, b"\x00"), joined(node, b"\xff"))

    def list(self, path: Path) -> list[str]:
        self.check(False)
        found = self.find(path)
        if not found:
            raise Fault("Missing")
        if found.name == PARTITION:
            return self.within(found.prefix).list(found.remaining)
        return [name for name, _ in self.children(found.prefix)]

    def exists(self, path: Path) -> bool:
        self.check(False)
        found = self.find(path)
        if found and found.remaining:
            return self.within(found.prefix).exists(found.remaining)
        return found is not None

    # The allocator.

    def allocate(self, subspace: bytes) -> int:
        """Returns a number that no other transaction gets (docs/reference/rules.md, "The allocator of prefixes")."""
        front = [joined(subspace, pack((place,))) for place in (0, 1)]
        start = self.first_start(front[0])
        while 2 * self.count(front[0], start) >= window(start):
            start += window(start)
            self.transaction.clear_range(front[0], joined(front[0], pack((start,))))
            self.transaction.disable_write_conflict()
            self.transaction.clear_range(front[1], joined(front[1], pack((start,))))
        size = window(start)
        tried = [start + self.words.getrandbits(64) % size for _ in range(TRIES)]
        for number in [*tried, *(start + (tried[-1] - start + step) % size for step in range(1, size + 1))]:
            if self.is_granted(joined(front[1], pack((number,)))):
                return number
        raise Fault("WindowFull")

    def first_start(self, counters: bytes) -> int:
        pairs = self.range(joined(counters, b"\x00"), joined(counters, b"\xff"), LAST, True)
        if not pairs:
            return 0
        try:
            (start,) = unpack(pairs[0][0][len(counters) :])
        except (NotATuple, ValueError) as fault:
            raise Fault("BadCounter") from fault
        if not isinstance(start, int) or isinstance(start, bool) or not 0 <= start <= GREATEST_START:
            raise Fault("BadCounter")
        return start

    def count(self, counters: bytes, start: int) -> int:
        key = joined(counters, pack((start,)))
        self.transaction.atomic(b"ADD", key, b"\x01" + bytes(7))
        return int.from_bytes(self.transaction.get(key, True) or b"", "little", signed=True)

    def is_granted(self, key: bytes) -> bool:
        is_absent = self.transaction.get(key, False) is None
        self.transaction.disable_write_conflict()
        self.transaction.set(key, b"")
        if is_absent:
            self.transaction.add_conflict(key, joined(key, b"\x00"), True)
        return is_absent


def window(start: int) -> int:
    return 64 if start < 255 else 1024 if start < 65_535 else 8192
