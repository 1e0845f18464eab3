"""The operations on directories of the stack machine."""

import random
from typing import Any, Callable, NamedTuple, Optional

from tuple_layer import NotATuple, pack, unpack

from .directory_layer import PARTITION, Calls, Fault, Layer, Opened, Path
from .transactions import Transaction
from .values import Allocated, Refused, Stopped, Unstable, joined


class Subspace(NamedTuple):
    prefix: bytes


class Directory(NamedTuple):
    """A directory: its layer, path, prefix and layer name, and the partitions that its path led through, itself included."""

    layer: Layer
    path: Path
    prefix: bytes
    name: bytes
    partitions: tuple[tuple[Path, bytes], ...] = ()


APPENDING = ("CREATE_SUBSPACE", "CREATE_LAYER", "CREATE_OR_OPEN", "CREATE", "OPEN", "MOVE", "MOVE_TO", "OPEN_SUBSPACE")


class Directories:
    """The part of a machine that has directories. The rest of the machine pops, pushes and has the transactions."""

    NAMES = [f"DIRECTORY_{name}" for name in APPENDING] + [
        f"DIRECTORY_{name}"
        for name in """CHANGE SET_ERROR_INDEX REMOVE REMOVE_IF_EXISTS LIST EXISTS PACK_KEY UNPACK_KEY RANGE CONTAINS LOG_SUBSPACE
            LOG_DIRECTORY STRIP_PREFIX""".split()
    ]

    def __init__(self) -> None:
        self.objects: list[Any] = [Layer()]
        self.index = 0
        self.error_index = 0
        self.words = random.Random(0)

    def __getattr__(self, name: str) -> Any:  # what the rest of the machine has
        raise AttributeError(name)

    # Operands and objects.

    def object(self) -> Any:
        found = self.objects[self.index]
        self.database.need(found is not None, "a directory that isn't there")
        return found

    def pop_path(self) -> Path:
        names = self.pop_tuple()
        if not all(isinstance(name, str) for name in names):
            raise Stopped("bad-instruction")
        return tuple(names)

    def pop_name(self) -> Optional[bytes]:
        value = self.pop(type(None), bytes, str)
        return value.encode() if isinstance(value, str) else value

    def pop_optional_path(self) -> Path:
        return self.pop_path() if self.pop_integer(0, 1) else ()

    def index_in(self, *indices: int) -> None:
        is_there = all(0 <= it < len(self.objects) for it in indices)
        self.database.need(is_there, "an index of no object")
        if not is_there:
            raise Fault("NoSuchIndex")

    def subspace(self, found: Any = None) -> bytes:
        """Returns the prefix of the current object, or of another one, where it is a subspace."""
        found = self.object() if found is None else found
        if isinstance(found, Subspace) or isinstance(found, Directory) and found.name != PARTITION:
            return found.prefix
        raise Fault("NotASubspace")

    def layer_and_path(self) -> tuple[Layer, Path]:
        found = self.object()
        if isinstance(found, Layer):
            return found, ()
        if isinstance(found, Directory):
            return found.layer, found.path
        raise Fault("NotADirectory")

    def append(self, found: Any) -> None:
        self.objects.append(found)

    def faulting(self, operation: Callable[[], None], name: str) -> None:
        """Runs an operation, and notes its fault."""
        try:
            operation()
        except Fault as fault:
            self.fail(f"DIRECTORY_{name}", fault.word)

    def push_fault(self, base: str) -> None:
        self.push(b"DIRECTORY_ERROR")
        if base.removeprefix("DIRECTORY_") in APPENDING:
            self.append(None)

    # Calls of a layer.

    def on_layer(self, layer: Layer, call: Callable[[Calls], Any], is_write: bool) -> Any:
        """Makes a call of a layer, on the current transaction or on the database."""

        def made(transaction: Transaction) -> Any:
            transaction.has_directories = True
            if not self.is_on_database:
                self.database.need(transaction.phase == "active", "a directory behind a commit")
            self.check_stale(transaction)
            try:
                return call(Calls(transaction, layer, self.words, self.is_snapshot))
            except (Fault, Refused):
                if is_write and self.database.is_shared and not self.is_on_database:
                    transaction.phase = "unsure"
                raise

        return self.call(made)

    def check_stale(self, transaction: Transaction) -> None:
        """A binding may keep the layer of a partition, which is no more found by its path."""
        found = self.objects[self.index]
        for path, prefix in found.partitions if isinstance(found, Directory) and self.database.is_shared else ():
            self.database.need(self.partition_at(transaction, found.layer, path) == prefix, "a partition that was moved or removed")

    def partition_at(self, transaction: Transaction, layer: Layer, path: Path) -> Optional[bytes]:
        """Returns the prefix of the partition at a path, seen by a transaction of its own that notes nothing."""
        seen = Transaction(transaction.database)
        seen.version, seen.mutations = transaction.version, list(transaction.mutations)
        found = Calls(seen, layer, self.words, True).find(path)
        while found and found.remaining:
            found = Calls(seen, Layer(joined(found.prefix, b"\xfe"), found.prefix), self.words, True).find(found.remaining)
        return found.prefix if found and found.name == PARTITION else None

    def partitions_of(self, layer: Layer, path: Path) -> tuple[tuple[Path, bytes], ...]:
        """Returns the partitions that a path leads through, itself included."""
        if not self.database.is_shared:
            return ()
        transaction = Transaction(self.database) if self.is_on_database else self.current()
        found = [(path[:size], self.partition_at(transaction, layer, path[:size])) for size in range(1, len(path) + 1)]
        return tuple((front, prefix) for front, prefix in found if prefix is not None)

    def open_at(self, name: str, path: Path, call: Callable[[Calls, Path], Opened], is_write: bool = True) -> None:
        """Appends the directory that a call opens at a path below the current one."""
        layer, front = self.layer_and_path()
        whole = front + path
        opened = self.on_layer(layer, lambda calls: call(calls, whole), is_write)
        self.append(Directory(layer, whole, opened.prefix, opened.name, self.partitions_of(layer, whole)))

    def directory_create_or_open(self) -> None:
        path, name = self.pop_path(), self.pop_name()
        self.faulting(lambda: self.open_at("CREATE_OR_OPEN", path, lambda calls, whole: calls.create_or_open(whole, name, None, True, True)), "CREATE_OR_OPEN")

    def directory_create(self) -> None:
        path, name, prefix = self.pop_path(), self.pop_name(), self.pop_name()
        self.faulting(lambda: self.open_at("CREATE", path, lambda calls, whole: calls.create_or_open(whole, name, prefix, True, False)), "CREATE")

    def directory_open(self) -> None:
        path, name = self.pop_path(), self.pop_name()
        self.faulting(lambda: self.open_at("OPEN", path, lambda calls, whole: calls.create_or_open(whole, name, None, False, True), False), "OPEN")

    def directory_move(self) -> None:
        old, new = self.pop_path(), self.pop_path()

        def move() -> None:
            front = self.layer_and_path()[1]
            self.open_at("MOVE", new, lambda calls, whole: calls.move(front + old, whole))

        self.faulting(move, "MOVE")

    def directory_move_to(self) -> None:
        new = self.pop_path()

        def move() -> None:
            layer, path = self.layer_and_path()
            if not isinstance(self.object(), Directory):
                raise Fault("RootCannotMove")
            opened = self.on_layer(layer, lambda calls: calls.move(path, new), True)
            self.append(Directory(layer, new, opened.prefix, opened.name, self.partitions_of(layer, new)))

        self.faulting(move, "MOVE_TO")

    def remove(self, is_optional: bool) -> None:
        path = self.pop_optional_path()

        def remove() -> None:
            layer, front = self.layer_and_path()
            self.on_layer(layer, lambda calls: calls.remove(front + path, is_optional), True)

        self.faulting(remove, "REMOVE")

    def directory_remove(self) -> None:
        self.remove(False)

    def directory_remove_if_exists(self) -> None:
        self.remove(True)

    def ask(self, ask: Callable[[Calls, Path], Any], name: str) -> None:
        path = self.pop_optional_path()

        def push() -> None:
            layer, front = self.layer_and_path()
            self.push(self.on_layer(layer, lambda calls: ask(calls, front + path), False))

        self.faulting(push, name)

    def directory_list(self) -> None:
        self.ask(lambda calls, path: pack(calls.list(path)), "LIST")

    def directory_exists(self) -> None:
        self.ask(lambda calls, path: int(calls.exists(path)), "EXISTS")

    # Objects and keys.

    def directory_create_subspace(self) -> None:
        elements, raw = self.pop_tuple(), self.pop_bytes()
        self.append(Subspace(joined(raw, self.packed(elements))))

    def directory_create_layer(self) -> None:
        first, second, is_manual = self.pop_integer(), self.pop_integer(), self.pop_flag()

        def create() -> None:
            self.index_in(first, second)
            node, content = self.objects[first], self.objects[second]
            if node is None or content is None:
                self.append(None)
                return
            self.append(Layer(self.subspace(node), self.subspace(content), is_manual))

        self.faulting(create, "CREATE_LAYER")

    def directory_change(self) -> None:
        index = self.pop_integer()

        def change() -> None:
            self.index_in(index)
            self.index = index if self.objects[index] is not None else self.error_index

        self.faulting(change, "CHANGE")

    def directory_set_error_index(self) -> None:
        index = self.pop_integer()

        def change() -> None:
            self.index_in(index)
            self.error_index = index

        self.faulting(change, "SET_ERROR_INDEX")

    def directory_pack_key(self) -> None:
        elements = self.pop_tuple()
        self.faulting(lambda: self.push(joined(self.subspace(), self.packed(elements))), "PACK_KEY")

    def behind_prefix(self, string: bytes) -> bytes:
        prefix = self.subspace()
        if not string.startswith(prefix):
            self.database.need(not isinstance(prefix, Unstable) or string[:1] not in ALLOCATED, "bytes that may have a prefix")
            raise Fault("NotInside")
        return bytes(string[len(prefix) :])

    def directory_unpack_key(self) -> None:
        string = self.pop_bytes()

        def push() -> None:
            try:
                elements = unpack(self.behind_prefix(string))
            except NotATuple as fault:
                self.database.need(False, "bytes that are no tuple")
                raise Fault("BadTuple") from fault
            for element in elements:
                self.push(element)

        self.faulting(push, "UNPACK_KEY")

    def directory_range(self) -> None:
        elements = self.pop_tuple()

        def push() -> None:
            front = joined(self.subspace(), self.packed(elements))
            self.push(joined(front, b"\x00"))
            self.push(joined(front, b"\xff"))

        self.faulting(push, "RANGE")

    def directory_contains(self) -> None:
        string = self.pop_bytes()

        def push() -> None:
            prefix = self.subspace()
            is_in = string.startswith(prefix)
            self.database.need(is_in or not isinstance(prefix, Unstable) or string[:1] not in ALLOCATED, "bytes that may have a prefix")
            self.push(int(is_in))

        self.faulting(push, "CONTAINS")

    def directory_open_subspace(self) -> None:
        elements = self.pop_tuple()
        self.faulting(lambda: self.append(Subspace(joined(self.subspace(), self.packed(elements)))), "OPEN_SUBSPACE")

    def directory_log_subspace(self) -> None:
        front = self.pop_bytes()

        def log() -> None:
            prefix = self.subspace()
            self.database.need(not isinstance(prefix, Allocated), "a prefix that no cluster gives again")
            self.current().set(front + pack((self.index,)), prefix)

        self.faulting(log, "LOG_SUBSPACE")

    def directory_log_directory(self) -> None:
        raw = self.pop_bytes()

        def log() -> None:
            layer, path = self.layer_and_path()
            found = self.object()
            name = found.name if isinstance(found, Directory) else b""

            def call(calls: Calls) -> None:
                exists = calls.exists(path)
                names = calls.list(path) if exists else []
                front = raw + pack((self.index,))
                for word, value in (("path", pack(path)), ("layer", pack((bytes(name),))), ("exists", pack((int(exists),))), ("children", pack(names))):
                    calls.transaction.set(front + pack((word,)), value)

            self.on_layer(layer, call, True)

        self.faulting(log, "LOG_DIRECTORY")

    def directory_strip_prefix(self) -> None:
        string = self.pop_bytes()
        self.faulting(lambda: self.push(self.behind_prefix(string)), "STRIP_PREFIX")


# With which bytes an allocated prefix may begin: those of a packed number.
ALLOCATED = [bytes([code]) for code in range(0x14, 0x1D)]
