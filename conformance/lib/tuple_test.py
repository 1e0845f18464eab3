"""Random groups on tuples: packing, unpacking, ranges, sorting and versionstamps. No group reads or writes the database."""

from __future__ import annotations

import random
import uuid

from tuple_layer import Versionstamp, pack, packed

from .scripts import LOG, PREFIX, Group, Options, Rules, Script, Writer, call, log

BOUNDS = [0, 1, 2, 127, 128, 255, 256, 2**16, 2**24, 2**31, 2**32, 2**40, 2**48, 2**56, 2**63, 2**64, 2**72, 2**96, 2**120, 2**127]
BYTES = [b"", b"\x00", b"\xff", b"\x00\xff", b"\xff\x00", b"a", b"a\x00", b"a\x00b", b"ab", b"\x00\x00", b"\x01\x02\x05"]
TEXTS = ["", "\x00", "a", "a\x00b", "ab", "\u00e9", "\u20ac", "\U0001f600", "\uffff", "z"]
USERS = [0, 1, 255, 256, 65_535]


class TupleWriter(Writer):
    """Writes groups of operations on tuples."""

    def integer(self) -> int:
        bound = self.random.choice(BOUNDS) if self.random.random() < 0.7 else self.random.getrandbits(self.random.randint(1, 126))
        number = (bound + self.random.choice([-1, 0, 0, 1])) * self.random.choice([1, -1])
        return min(max(number, -(2**127)), 2**127 - 1)

    def stamp(self) -> Versionstamp:
        return Versionstamp(self.random.choice([bytes(10), b"\x00" * 9 + b"\x01", b"\x00\xff" * 5, b"\xfe" + b"\xff" * 9]), self.random.choice(USERS))

    def element(self, depth: int = 0) -> object:
        choices = [
            lambda: None,
            lambda: self.random.choice(BYTES),
            lambda: self.random.randbytes(self.random.randint(0, 12)),
            lambda: self.random.choice(TEXTS),
            self.integer,
            self.integer,
            self.integer,
            lambda: self.random.random() < 0.5,
            lambda: uuid.UUID(int=self.random.choice([0, 1, 2**128 - 1, self.random.getrandbits(128)])),
            self.stamp,
            lambda: tuple(self.element(depth + 1) for _ in range(self.random.randint(0, 3))),
        ]
        return self.random.choice(choices[: 10 if depth == 4 else 11])()

    def tuple(self, most: int = 4) -> tuple:
        return tuple(self.element() for _ in range(self.random.randint(0, most)))

    def alike(self) -> list[tuple]:
        """Returns tuples that begin alike, so that their order hangs on their ends."""
        front = self.tuple(2)
        return [(*front, *self.tuple(2)) for _ in range(self.random.randint(1, 5))] + [front]

    def packing(self, name: str, elements: tuple) -> Group:
        return call(name, len(elements), *elements)

    def pack(self) -> Group:
        return self.packing("TUPLE_PACK", self.tuple())

    def range(self) -> Group:
        return self.packing("TUPLE_RANGE", self.tuple(3))

    def unpack(self) -> Group:
        return call("TUPLE_UNPACK", pack(self.tuple()))

    def pack_and_unpack(self) -> Group:
        return [*self.pack(), ("TUPLE_UNPACK",)]

    def unpack_bytes(self) -> Group:
        """Unpacks bytes that were put together an element at a time, and not by packing a whole tuple."""
        return call("TUPLE_UNPACK", b"".join(packed(self.element()) for _ in range(self.random.randint(0, 5))))

    def pack_texts(self) -> Group:
        """Packs a packed tuple into another one."""
        return call("TUPLE_PACK", 1, pack(self.tuple(2)))

    def sort(self) -> Group:
        tuples = self.alike() if self.random.random() < 0.6 else [self.tuple(3) for _ in range(self.random.randint(0, 5))]
        self.random.shuffle(tuples)
        return call("TUPLE_SORT", len(tuples), *map(pack, tuples))

    def sort_one_kind(self) -> Group:
        kind = self.random.choice([self.integer, lambda: self.random.choice(BYTES), lambda: self.random.choice(TEXTS), self.stamp])
        tuples = [(kind(),) for _ in range(self.random.randint(2, 6))]
        return call("TUPLE_SORT", len(tuples), *map(pack, tuples))

    def with_stamp(self) -> Group:
        """Packs a tuple with no, one or two incomplete versionstamps, which may be nested."""
        elements = list(self.tuple(3))
        for _ in range(self.random.choice([0, 1, 1, 1, 1, 2])):
            incomplete: object = Versionstamp(user=self.random.choice(USERS))
            for _ in range(self.random.choice([0, 0, 1, 2])):
                incomplete = (self.element(3), incomplete)
            elements.insert(self.random.randint(0, len(elements)), incomplete)
        name = "TUPLE_PACK_WITH_VERSIONSTAMP"
        return call(name, self.random.choice([b"", b"k", b"\x00\xff"]), len(elements), *elements) if self.rules.api >= 520 else self.pack()

    def arithmetic(self) -> Group:
        """Subtracts, and packs the difference."""
        one, other = (self.random.choice([-1, 1]) * (self.random.choice(BOUNDS[:14]) >> 1) for _ in range(2))
        return [("PUSH", self.random.choice([1, 1, 2**31])), *call("SUB", one, other), ("PUSH", 2), ("TUPLE_PACK",)]

    def join(self) -> Group:
        """Packs two tuples, joins what comes out, and unpacks that."""
        return [*self.pack(), *self.pack(), ("CONCAT",), ("TUPLE_UNPACK",)]

    def stack(self) -> Group:
        return self.random.choice([[("DUP",)], [("POP",)], call("SWAP", self.random.randrange(max(len(self.machine.stack), 1)))])

    def write_groups(self, operations: int) -> None:
        kinds = [
            self.pack, self.range, self.unpack, self.pack_and_unpack, self.unpack_bytes, self.pack_texts, self.sort, self.sort_one_kind,
            self.with_stamp, self.arithmetic, self.join, self.stack,
        ]  # fmt: skip
        while self.machine.number < operations:
            group = self.random.choice(kinds)()
            if self.machine.stack or group[0][0] == "PUSH":
                self.add(group)


def tuple_script(seed: int, options: Options) -> Script:
    """Tuples of all elements but floats: packing, unpacking, ranges, sorting, and versionstamps."""
    rules = Rules(options.api, (b"k", b"l"), True, options.is_own, options.without, options.has_errors)
    writer = TupleWriter(PREFIX, rules, random.Random(f"tuple {seed}"))
    writer.write_groups(options.operations)
    writer.add(log(LOG), True)
    return Script("tuple", seed, options.api, [(PREFIX, writer.groups)], {PREFIX: rules})
