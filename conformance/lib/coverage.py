"""Measures what scripts meet: operations, error codes, and operations that are neighbours on one key in one transaction."""

from collections import Counter
from typing import Iterable, Iterator

from instruction_text import NAMES

from .machine import World
from .scripts import PREFIX, Script
from .transactions import Database

KINDS = ["set", "clear", "clear range", "atomic", "get", "get range", "selector"]
POLLS = 10_000
# What no random script has: a binding's own tests.
LEFT_OUT = {"UNIT_TESTS"}


class Coverage:
    """What was met by the scripts that were added."""

    def __init__(self) -> None:
        self.scripts = 0
        self.instructions = 0
        self.operations: Counter[str] = Counter()
        self.codes: Counter[str] = Counter()
        self.neighbours: Counter[tuple[str, str]] = Counter()

    def add(self, script: Script) -> None:
        """Runs a script by the machine here, and counts what it meets."""
        world = World(Database(dict(script.pairs()), script.api))
        world.start(PREFIX)
        world.run(POLLS)
        self.scripts += 1
        self.instructions += script.size()
        for _, instructions in script.instructions():
            self.operations.update(it[0] for it in instructions)
        for machine in world.machines:
            self.codes.update(word for _, word in machine.errors)
        self.neighbours.update(world.database.neighbours)

    def lacking(self, names: Iterable[str]) -> list[str]:
        return sorted(set(names) - set(self.operations) - LEFT_OUT)

    def empty_neighbours(self) -> list[str]:
        return [f"{first} and {kind}" for first in KINDS for kind in KINDS if not self.neighbours[first, kind]]

    def lines(self, names: Iterable[str]) -> Iterator[str]:
        yield f"{self.scripts} scripts, {self.instructions} instructions"
        yield ""
        yield "operations, and how often each came:"
        yield from table(sorted(self.operations.items()))
        lacking = self.lacking(names)
        yield f"  without any: {', '.join(lacking) or 'none'}"
        yield ""
        yield "errors, and how often each came:"
        yield from table(sorted(self.codes.items()))
        if self.neighbours["set", "clear"]:  # directories have neighbours by the way
            yield ""
            yield "operations that are neighbours on one key in one transaction, the first one down, the next one across:"
            yield "  " + " " * 12 + "".join(f"{kind:>12}" for kind in KINDS)
            for first in KINDS:
                yield f"  {first:<12}" + "".join(f"{self.neighbours[first, kind]:>12}" for kind in KINDS)
            yield f"  without any: {', '.join(self.empty_neighbours()) or 'none'}"


def table(rows: list[tuple[str, int]]) -> Iterator[str]:
    for begin in range(0, len(rows), 4):
        yield "  " + "".join(f"{name:<36}{count:>8}  " if len(name) > 20 else f"{name:<20}{count:>8}  " for name, count in rows[begin : begin + 4])


# The operations of each test's subject.
TUPLES = {name for name in NAMES if name.startswith("TUPLE_")} | {"PUSH", "DUP", "SWAP", "POP", "SUB", "CONCAT", "LOG_STACK"}
DIRECTORIES = {name for name in NAMES if name.startswith("DIRECTORY_")}
THREADED = {"START_THREAD", "WAIT_EMPTY"}
KEYS = NAMES - DIRECTORIES - {name for name in NAMES if name.startswith("TUPLE_")} - THREADED | {"PUSH"}
SUBJECTS = {
    "api": KEYS,
    "tuple": TUPLES,
    "directory": DIRECTORIES,
    "directory_hca": {"DIRECTORY_CREATE_OR_OPEN", "DIRECTORY_CREATE_OR_OPEN_DATABASE"} | THREADED,
    "conflicts": {"GET", "SET", "COMMIT", "READ_CONFLICT_KEY", "WRITE_CONFLICT_KEY", "READ_CONFLICT_RANGE", "WRITE_CONFLICT_RANGE", "DISABLE_WRITE_CONFLICT"},
    "threads": THREADED | {"GET", "SET", "COMMIT", "GET_RANGE"},
}
