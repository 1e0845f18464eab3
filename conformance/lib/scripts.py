"""Random scripts: sections of groups of instructions, each group a call with its operands, and how they are written down."""

import random
from typing import Callable, Iterable, NamedTuple, Optional

from instruction_text import pairs_of, section_lines

from .machine import Instruction, Machine, World
from .transactions import Database
from .values import NotShared, Range, Stopped, Unstable

Group = list[Instruction]
Sections = list[tuple[bytes, list[Group]]]

PREFIX = b"p"
LOG = b"log/"


class Rules(NamedTuple):
    """What a section is made and shrunk by: the keys that it may ask of, and whether it is for a program of this kind alone."""

    api: int = 630
    region: Optional[Range] = None
    is_alone: bool = True
    is_own: bool = False
    without: frozenset[str] = frozenset()  # operations that are left out
    has_errors: bool = True  # whether an instruction may be answered by an error


class Script(NamedTuple):
    """A script. `rules` are those of each section that is checked by the machine here; others are right by their making."""

    test: str
    seed: int
    api: int
    sections: Sections
    rules: dict[bytes, Rules] = {}

    def instructions(self) -> Iterable[tuple[bytes, Group]]:
        """Yields each prefix with its instructions."""
        for prefix, groups in self.sections:
            yield prefix, [it for group in groups for it in group]

    def size(self) -> int:
        return sum(len(instructions) for _, instructions in self.instructions())

    def pairs(self) -> list[tuple[bytes, bytes]]:
        return pairs_of([it for it in self.instructions() if it[1]])

    def text(self) -> str:
        return "".join(line + "\n" for section in self.instructions() if section[1] for line in section_lines(*section))

    def with_sections(self, sections: Sections) -> "Script":
        return self._replace(sections=sections)


def call(name: str, *operands: object) -> Group:
    """Returns an operation behind the pushes of its operands, the first one on top."""
    return [*(("PUSH", it) for it in reversed(operands)), (name,)]


def waited(group: Group, is_kept: bool = True) -> Group:
    """Returns the group with a wait for what it pushed, or without that."""
    return [*group, ("WAIT_FUTURE",) if is_kept else ("POP",)]


def log(prefix: bytes) -> Group:
    return call("LOG_STACK", prefix)


class Options(NamedTuple):
    """What the scripts of a test are made by."""

    operations: int = 100
    api: int = 630
    machines: int = 3
    is_own: bool = False
    without: frozenset[str] = frozenset()
    has_errors: bool = True


class Writer:
    """Writes the groups of one section, and runs them on a machine of its own as it goes.

    A group that a cluster may answer otherwise is refused, and nothing is left of it.
    """

    def __init__(self, prefix: bytes, rules: Rules, words: Optional[random.Random] = None):
        self.prefix, self.rules = prefix, rules
        self.random = words or random.Random(0)
        self.groups: list[Group] = []
        self.refused = 0
        self.begin()

    def begin(self) -> None:
        database = Database({}, self.rules.api, None if self.rules.is_own else self.rules.region, self.rules.is_alone)
        self.machine = Machine(World(database), self.prefix)

    def run(self, group: Group) -> None:
        for instruction in group:
            self.machine.run(instruction)
            self.machine.number += 1

    def add(self, group: Group, is_needed: bool = False) -> bool:
        """Adds a group where it may stand, and says whether it did. One that is needed may have operations that are left out."""
        if not is_needed and any(it[0] in self.rules.without for it in group):
            self.refused += 1
            return False
        try:
            self.run(group)
            if self.machine.errors and not self.rules.has_errors:
                raise NotShared("an error")
        except (NotShared, Stopped) as fault:
            self.why = str(fault)
            self.refused += 1
            self.begin()
            for it in self.groups:
                self.run(it)
            return False
        self.groups.append(group)
        return True

    def is_waiting(self) -> bool:
        return self.machine.must_wait

    def leaves_unstable(self) -> bool:
        """Whether the database has pairs that no cluster gives again."""
        return any(isinstance(it, Unstable) for pair in self.machine.database.pairs.items() for it in pair)


def kept(prefix: bytes, rules: Rules, groups: list[Group]) -> Optional[list[Group]]:
    """Returns those of the groups that may stand, or None where what they leave may not."""
    writer = Writer(prefix, rules._replace(without=frozenset(), has_errors=True))
    for group in groups:
        writer.add(group)
    if writer.is_waiting() or not rules.is_own and writer.leaves_unstable():
        return None
    return writer.groups


def chosen(words: random.Random, weights: dict[Callable, int]) -> Callable:
    return words.choices(list(weights), list(weights.values()))[0]
