"""Random groups on directories, and directories that machines create side by side."""

from __future__ import annotations

import random
from .directory_layer import PARTITION, Layer
from .directory_operations import Directory, Subspace
from .scripts import LOG, PREFIX, Group, Options, Rules, Script, Writer, call, log, waited

NAMES = ["a", "b", "c", "\u00e9"]
LAYERS = [None, None, None, b"", b"x", b"y", PARTITION]
GIVEN = [None, None, None, b"g1", b"g1a", b"g2"]
TUPLES: list[tuple] = [(), ("x",), (1, b"y"), (None, 2**40)]
REGION = (b"\x02", b"\xff")
LEAVE = [(b"\xfe", b"\xff"), (b"\x14", b"\x1d"), (b"g", b"h"), (b"n", b"o")]


def path_operands(path: tuple[str, ...]) -> list[object]:
    return [len(path), *path]


def cleared() -> Group:
    """Clears the nodes and the contents of all directories, whose prefixes no cluster gives again."""
    return [it for ends in LEAVE for it in waited(call("CLEAR_RANGE_DATABASE", *ends), False)]


class DirectoryWriter(Writer):
    """Writes groups on directories whose paths meet."""

    def any(self, some: list) -> object:
        return self.random.choice(some)

    def path(self, least: int = 1) -> tuple[str, ...]:
        return tuple(self.random.choice(NAMES) for _ in range(self.random.choice([least, 1, 1, 2, 2, 3])))

    def optional_path(self) -> list[object]:
        return [0] if self.random.random() < 0.3 else [1, *path_operands(self.path())]

    def is_on_database(self) -> bool:
        return self.random.random() < 0.75

    def on(self, name: str, *operands: object, has_snapshot: bool = False) -> Group:
        """Returns an operation on the database, or on a transaction that commits or begins anew behind it."""
        if self.is_on_database():
            return call(f"DIRECTORY_{name}_DATABASE", *operands)
        ending = self.random.choice(["", "_SNAPSHOT"]) if has_snapshot else ""
        return [*call(f"DIRECTORY_{name}{ending}", *operands), *([] if self.random.random() < 0.4 else self.end())]

    def end(self) -> Group:
        return self.random.choice([[*waited([("COMMIT",)]), ("RESET",)], [("RESET",)], [*waited([("COMMIT",)]), ("NEW_TRANSACTION",)]])

    def create_or_open(self) -> Group:
        return self.on("CREATE_OR_OPEN", *path_operands(self.path()), self.any(LAYERS))

    def create(self) -> Group:
        return self.on("CREATE", *path_operands(self.path()), self.any(LAYERS), self.any(GIVEN))

    def open(self) -> Group:
        return self.on("OPEN", *path_operands(self.path()), self.any(LAYERS), has_snapshot=True)

    def move(self) -> Group:
        return self.on("MOVE", *path_operands(self.path()), *path_operands(self.path()))

    def move_to(self) -> Group:
        return self.on("MOVE_TO", *path_operands(self.path()))

    def remove(self) -> Group:
        return self.on(self.random.choice(["REMOVE", "REMOVE_IF_EXISTS"]), *self.optional_path())

    def list(self) -> Group:
        return self.on("LIST", *self.optional_path(), has_snapshot=True)

    def exists(self) -> Group:
        return self.on("EXISTS", *self.optional_path(), has_snapshot=True)

    def empty_path(self) -> Group:
        name = self.random.choice(["CREATE_OR_OPEN", "OPEN"])
        return call(f"DIRECTORY_{name}_DATABASE", 0, None)

    def indices(self, *kinds: type) -> list[int]:
        return [place for place, it in enumerate(self.machine.objects) if isinstance(it, kinds)]

    def change(self) -> Group:
        """Makes another object the current one; some are null, which leads to the one at the error index."""
        indices = self.indices(Directory, Directory, Layer, Subspace) if self.random.random() < 0.85 else list(range(len(self.machine.objects)))
        return call("DIRECTORY_CHANGE", self.random.choice([0, indices[-1], self.random.choice(indices)]))

    def set_error_index(self) -> Group:
        return call("DIRECTORY_SET_ERROR_INDEX", self.random.choice(self.indices(Layer, Directory)))

    def create_subspace(self) -> Group:
        elements = self.random.choice(TUPLES)
        return call("DIRECTORY_CREATE_SUBSPACE", len(elements), *elements, self.any([b"n1", b"n2", b"g"]))

    def create_layer(self) -> Group:
        """Creates a layer over two new subspaces, which may take prefixes that are given."""
        first = len(self.machine.objects)
        raw = b"n%d" % self.random.randint(1, 3)
        subspaces = [*call("DIRECTORY_CREATE_SUBSPACE", 0, raw + b"/nodes"), *call("DIRECTORY_CREATE_SUBSPACE", 0, self.any([raw + b"/content", b"g/"]))]
        return [*subspaces, *call("DIRECTORY_CREATE_LAYER", first, first + 1, self.random.choice([0, 1, 1])), *call("DIRECTORY_CHANGE", first + 2)]

    def open_subspace(self) -> Group:
        elements = self.random.choice(TUPLES)
        return call("DIRECTORY_OPEN_SUBSPACE", len(elements), *elements)

    def pack(self) -> Group:
        elements = self.random.choice(TUPLES)
        return call("DIRECTORY_PACK_KEY", len(elements), *elements)

    def range(self) -> Group:
        elements = self.random.choice(TUPLES)
        return call("DIRECTORY_RANGE", len(elements), *elements)

    def is_subspace(self, place: int = -1) -> bool:
        found = self.machine.objects[self.machine.index if place < 0 else place]
        return isinstance(found, Subspace) or isinstance(found, Directory) and found.name != PARTITION

    def to_subspace(self) -> Group:
        """Makes a directory the current object that is a subspace, mostly, where the current one is none."""
        indices = [place for place in self.indices(Directory, Subspace) if self.is_subspace(place)]
        return call("DIRECTORY_CHANGE", self.random.choice(indices)) if indices and self.random.random() < 0.8 else []

    def keys(self) -> Group:
        """Packs a key of the current object, and takes it apart again; where that is no subspace each step is a fault."""
        if not self.is_subspace() and (change := self.to_subspace()):
            return change
        name = self.random.choice(["DIRECTORY_STRIP_PREFIX", "DIRECTORY_UNPACK_KEY", "DIRECTORY_CONTAINS"])
        if self.is_subspace() and self.random.random() < 0.4:
            last = call("SWAP", 1)
            return [*self.range(), ("DIRECTORY_STRIP_PREFIX",), *last, ("DIRECTORY_STRIP_PREFIX",)]
        return [*self.pack(), (name,)]

    def key_of_another(self) -> Group:
        return call(self.random.choice(["DIRECTORY_CONTAINS", "DIRECTORY_STRIP_PREFIX", "DIRECTORY_UNPACK_KEY"]), self.any([b"zz", b"z\xff", b"\x01"]))

    def contents(self) -> Group:
        """Sets a key in the current directory, so that a removal has contents to clear, or reads it."""
        if not self.is_subspace():
            return self.to_subspace() or self.pack()
        write = [("PUSH", b"v"), *self.pack(), ("SET_DATABASE",), ("POP",)]
        return self.random.choice([write, [*self.pack(), *waited([("GET_DATABASE",)])]])

    def lived(self) -> Group:
        """Creates a directory with contents, removes it or the one above it, and looks for the contents."""
        path = self.path()
        begin = [*call("DIRECTORY_CREATE_OR_OPEN_DATABASE", *path_operands(path), None), *call("DIRECTORY_CHANGE", len(self.machine.objects))]
        key = call("DIRECTORY_PACK_KEY", *self.random.choice([(0,), (1, "x")]))
        write = [("PUSH", b"v"), *key, ("SET_DATABASE",), ("POP",)]
        below = call("DIRECTORY_CREATE_DATABASE", 1, "below", self.any(LAYERS), None) if self.random.random() < 0.4 else []
        return [*begin, *write, *below, *call("DIRECTORY_REMOVE_DATABASE", 0), *key, *waited([("GET_DATABASE",)])]

    def log_directory(self) -> Group:
        return [*call("DIRECTORY_LOG_DIRECTORY", b"log/d/"), *self.end()]

    def log_subspace(self) -> Group:
        return [*call("DIRECTORY_LOG_SUBSPACE", b"log/s/"), *self.end()]

    def use_transaction(self) -> Group:
        return [("RESET",), *call("USE_TRANSACTION", self.any([b"p", b"p-t1"])), ("RESET",)]

    def write_groups(self, operations: int) -> None:
        weights = {
            self.create_or_open: 16, self.create: 10, self.open: 8, self.move: 7, self.move_to: 4, self.remove: 6, self.list: 8, self.exists: 8,
            self.empty_path: 1, self.change: 12, self.set_error_index: 2, self.create_subspace: 2, self.create_layer: 2, self.open_subspace: 2,
            self.keys: 6, self.key_of_another: 2, self.contents: 6, self.lived: 3, self.log_directory: 4, self.log_subspace: 1, self.use_transaction: 2,
        }  # fmt: skip
        for _ in range(20 * operations):
            if self.machine.number >= operations:
                break
            self.add(self.random.choices(list(weights), list(weights.values()))[0]())


def directory_script(seed: int, options: Options) -> Script:
    """Directories whose paths meet: layers, moves, removals, partitions, subspaces, and prefixes that are given."""
    rules = Rules(options.api, REGION, True, False, options.without, options.has_errors)
    writer = DirectoryWriter(PREFIX, rules, random.Random(f"directory {seed}"))
    writer.write_groups(options.operations)
    writer.add(cleared(), True)
    writer.add(log(LOG), True)
    return Script("directory", seed, options.api, [(PREFIX, writer.groups)], {PREFIX: rules})


class Created:
    """The directories that a machine creates: at each index of its list the path, the same for every tester."""

    def __init__(self, words: random.Random, parent: str, operations: int):
        self.random, self.parent = words, parent
        self.groups: list[Group] = []
        self.names: list[str] = []
        self.next_index = 1
        self.size = 0
        self.add(self.opened((parent,)))
        while self.size < operations:
            self.random.choice([self.create_alone, self.create_together, self.create_together, self.move, self.remove])()

    def add(self, group: Group) -> None:
        self.groups.append(group)
        self.size += len(group)

    def new_name(self) -> str:
        self.names.append(f"d{self.next_index}")
        return self.names[-1]

    def opened(self, path: tuple[str, ...], ending: str = "_DATABASE") -> Group:
        self.next_index += 1
        return call(f"DIRECTORY_CREATE_OR_OPEN{ending}", *path_operands(path), None)

    def counted(self, path: tuple[str, ...]) -> Group:
        """Opens a directory and adds one to a key in it: a prefix that two directories have counts two."""
        index = self.next_index
        key = [*call("DIRECTORY_CHANGE", index), ("PUSH", b"\x01"), *call("DIRECTORY_PACK_KEY", 1, "n")]
        return [*self.opened(path), *key, ("PUSH", b"ADD"), ("ATOMIC_OP_DATABASE",), ("POP",), *call("DIRECTORY_CHANGE", 0)]

    def create_alone(self) -> None:
        self.add(self.counted((self.parent, self.new_name())))

    def create_together(self) -> None:
        """Creates directories in transactions that overlap. Which commits are refused is left open; then each is opened."""
        names = [self.new_name() for _ in range(self.random.randint(2, 3))]
        groups = []
        for place, name in enumerate(names):
            groups += [*call("USE_TRANSACTION", f"{self.parent}-t{place}".encode()), ("NEW_TRANSACTION",)]
            groups += self.opened((self.parent, name), "")
        for place in range(len(names)):
            groups += [*call("USE_TRANSACTION", f"{self.parent}-t{place}".encode()), ("COMMIT",), ("POP",), ("RESET",)]
        self.add(groups + [it for name in names for it in self.counted((self.parent, name))])

    def move(self) -> None:
        if self.names:
            place = self.random.randrange(len(self.names))
            old, new = self.names[place], f"m{self.next_index}"
            self.names[place] = new
            self.next_index += 1
            self.add(call("DIRECTORY_MOVE_DATABASE", 2, self.parent, old, 2, self.parent, new))

    def remove(self) -> None:
        if len(self.names) > 3:
            name = self.names.pop(self.random.randrange(len(self.names)))
            self.add(call("DIRECTORY_REMOVE_DATABASE", 1, 2, self.parent, name))


def shown(parent: str, names: list[str], index: int) -> tuple[list[Group], int]:
    """Returns groups that list a directory, and push of each one in it its count, and its first and its last key without the prefix."""
    groups = [call("DIRECTORY_LIST_DATABASE", 1, 1, parent)]
    for name in names:
        strip = [("WAIT_FUTURE",), ("DIRECTORY_STRIP_PREFIX",)]
        key = [*call("DIRECTORY_PACK_KEY", 1, "n"), *waited([("GET_DATABASE",)])]
        ends = [ends_read(1, 0, is_begin=True), ends_read(0, 0, is_begin=False)]
        groups.append(
            [*call("DIRECTORY_OPEN_DATABASE", 2, parent, name, None), *call("DIRECTORY_CHANGE", index), *key, *[it for end in ends for it in [*end, *strip]], *call("DIRECTORY_CHANGE", 0)]
        )
        index += 1
    return groups, index


def ends_read(offset: int, or_equal: int, is_begin: bool) -> Group:
    """Returns a read of the first or the last key in the current directory: its range, of which one end becomes a selector's key."""
    drop: Group = [("POP",)] if is_begin else [*call("SWAP", 1), ("POP",)]
    under: Group = [("PUSH", b""), ("PUSH", offset), ("PUSH", or_equal)]
    # The operands below the key: the prefix, the offset and or_equal; the end of the range comes on top of them.
    return [*under, *call("DIRECTORY_RANGE", 0), *drop, ("GET_KEY_DATABASE",)]


def hca_script(seed: int, options: Options) -> Script:
    """Machines that create directories side by side: each has a prefix of its own, whoever came first."""
    words = random.Random(f"directory_hca {seed}")
    sections, started, last = [], [], []
    index = 1
    for number in range(1, options.machines + 1):
        busy = b"busy/%d" % number
        created = Created(words, f"w{number}", options.operations // options.machines)
        end = [log(b"log%d/" % number), waited(call("CLEAR_DATABASE", busy), False)]
        sections.append((b"w%d" % number, [*created.groups, *end]))
        started.append((waited(call("SET_DATABASE", busy, b""), False), call("START_THREAD", b"w%d" % number)))
        groups, index = shown(created.parent, created.names, index)
        last += groups
    begin: list[Group] = [*(busy for busy, _ in started), *(start for _, start in started), call("WAIT_EMPTY", b"busy/")]
    return Script("directory_hca", seed, options.api, [(PREFIX, [*begin, *last, cleared(), log(LOG)]), *sections], {})
