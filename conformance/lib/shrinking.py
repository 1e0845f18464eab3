"""Makes a script smaller that a tester answers otherwise than the program: groups go, then instructions, then operands get simpler.

What is tried is always such that each client must answer it alike, as the script at first is, and is run by both testers.
"""

import time
from typing import Callable, Iterator, NamedTuple, Optional

from tuple_layer import Versionstamp

from .comparison import Difference
from .directory_operations import APPENDING
from .scripts import Group, Script, kept

Check = Callable[[Script], Optional[Difference]]

CONTROL = {"USE_TRANSACTION", "NEW_TRANSACTION", "RESET", "COMMIT", "CANCEL", "ON_ERROR"}


class Limits(NamedTuple):
    runs: int
    seconds: float


class Shrinker:
    """Cuts a script down, for as long as its limits let it."""

    def __init__(self, script: Script, difference: Difference, check: Check, limits: Limits):
        self.script, self.difference, self.check, self.limits = script, difference, check, limits
        self.kind = difference.kind()
        self.runs = 0
        self.begun = time.monotonic()
        self.tried = {script.text()}

    def is_over(self) -> bool:
        return self.runs >= self.limits.runs or time.monotonic() - self.begun > self.limits.seconds

    def allowed(self, script: Script) -> Optional[Script]:
        """Returns the script with those groups alone that may stand."""
        sections = []
        for prefix, groups in script.sections:
            if prefix in script.rules:
                left = kept(prefix, script.rules[prefix], groups)
                if left is None:
                    return None
                groups = left
            sections.append((prefix, groups))
        return script.with_sections(sections)

    def takes(self, script: Script) -> bool:
        """Takes a smaller script in the place of the one at hand where it still differs."""
        found = self.allowed(script)
        if found is None or found.text() in self.tried or self.is_over():
            return False
        self.tried.add(found.text())
        self.runs += 1
        difference = self.check(found)
        if difference is None or difference.kind() != self.kind:
            return False
        self.script, self.difference = found, difference
        return True

    # One section at a time.

    def groups(self, place: int) -> list[Group]:
        return self.script.sections[place][1]

    def with_groups(self, place: int, groups: list[Group]) -> Script:
        sections = list(self.script.sections)
        sections[place] = (sections[place][0], groups)
        return self.script.with_sections(sections)

    def ends(self, place: int) -> int:
        """Returns how many groups at the end of a section stay: those that clear and log, and those of the main machine of several."""
        groups = self.groups(place)
        if place == 0 and len(self.script.sections) > 1:
            return len(groups)
        return sum(any(name in ("LOG_STACK", "CLEAR_RANGE_DATABASE", "CLEAR_DATABASE") for name, *_ in it) for it in groups[-2:])

    def shrink(self) -> None:
        """Shrinks the script at hand until nothing more goes, or a limit is reached."""
        self.cut_behind_difference()
        self.drop_sections()
        for place in range(len(self.script.sections)):
            self.keep_related(place)
        while not self.is_over():
            before = self.script.text()
            for place in range(len(self.script.sections)):
                self.drop_groups(place)
            for place in range(len(self.script.sections)):
                self.drop_instructions(place)
                self.simplify_operands(place)
            if self.script.text() == before:
                return

    def cut_behind_difference(self) -> None:
        """Drops what stands behind the first instruction whose item differs."""
        for place, (_, groups) in enumerate(self.script.sections):
            log = b"log/" if place == 0 else b"log%d/" % place
            numbers = [number for front, number in self.difference.items() if front == log]
            stays = self.ends(place)
            if not numbers or stays == len(groups):
                continue
            number, count = 0, 0
            while number <= min(numbers) and count < len(groups):
                number += len(groups[count])
                count += 1
            self.takes(self.with_groups(place, [*groups[:count], *groups[max(len(groups) - stays, count) :]]))

    def drop_sections(self) -> None:
        """Empties the other machines, all but the ends of their sections."""
        for place in range(1, len(self.script.sections)):
            groups = self.groups(place)
            self.takes(self.with_groups(place, groups[len(groups) - self.ends(place) :]))

    def keep_related(self, place: int) -> None:
        """Keeps the groups that name a key which the last one names, and those on transactions."""
        groups, stays = self.groups(place), self.ends(place)
        if len(groups) - stays < 4:
            return
        body, end = groups[: len(groups) - stays], groups[len(groups) - stays :]
        keys = named_in(body[-1])
        related = [it for it in body if named_in(it) & keys or any(name in CONTROL for name, *_ in it)]
        self.takes(self.with_groups(place, [*related, *end]))

    def drop_groups(self, place: int) -> None:
        """Drops groups, half of them at a time, then fewer."""
        stays = self.ends(place)
        size = max((len(self.groups(place)) - stays + 1) // 2, 1)
        while not self.is_over():
            self.drop_chunks(place, size, stays)
            if size == 1:
                return
            size = (size + 1) // 2

    def drop_chunks(self, place: int, size: int, stays: int) -> None:
        """Drops each chunk of so many groups, the last ones first but for the very last group."""
        at = max(len(self.groups(place)) - stays - 1, 0)
        while at > 0 and not self.is_over():
            begin = max(at - size, 0)
            groups = self.groups(place)
            self.takes(self.with_groups(place, dropped(groups, begin, at)))
            at = min(begin, len(self.groups(place)) - stays)
        groups = self.groups(place)
        if len(groups) > stays:
            last = len(groups) - stays
            self.takes(self.with_groups(place, dropped(groups, last - 1, last)))

    def drop_instructions(self, place: int) -> None:
        """Drops single instructions of groups, a push with what it is pushed for where one alone doesn't go."""
        for at in range(len(self.groups(place)) - self.ends(place) - 1, -1, -1):
            if at >= len(self.groups(place)):
                continue
            for smaller in smaller_groups(self.groups(place)[at]):
                if self.is_over():
                    return
                groups = self.groups(place)
                self.takes(self.with_groups(place, [*groups[:at], smaller, *groups[at + 1 :]]))

    def simplify_operands(self, place: int) -> None:
        """Takes simpler elements for those that are pushed."""
        for at in range(len(self.groups(place)) - self.ends(place)):
            number = 0
            while at < len(self.groups(place)) and number < len(self.groups(place)[at]):
                self.simplify(place, at, number)
                number += 1

    def simplify(self, place: int, at: int, number: int) -> None:
        name, *elements = self.groups(place)[at][number]
        for simpler in simpler_elements(elements[0]) if name == "PUSH" else ():
            groups = self.groups(place)
            group = [*groups[at][:number], ("PUSH", simpler), *groups[at][number + 1 :]]
            if self.is_over() or self.takes(self.with_groups(place, [*groups[:at], group, *groups[at + 1 :]])):
                return


INDEXED = {"DIRECTORY_CHANGE": 1, "DIRECTORY_SET_ERROR_INDEX": 1, "DIRECTORY_CREATE_LAYER": 2}


def appended(groups: list[Group]) -> int:
    """Returns how many directories and the like the groups append to their machine's list."""
    names = [name.removeprefix("DIRECTORY_").removesuffix("_DATABASE").removesuffix("_SNAPSHOT") for group in groups for name, *_ in group if name.startswith("DIRECTORY_")]
    return sum(name in APPENDING for name in names)


def dropped(groups: list[Group], begin: int, end: int) -> list[Group]:
    """Returns the groups without some, where later ones name the same directories by their new indices."""
    first, count = 1 + appended(groups[:begin]), appended(groups[begin:end])
    return [*groups[:begin], *(renumbered(it, first, count) for it in groups[end:])] if count else groups[:begin] + groups[end:]


def renumbered(group: Group, first: int, count: int) -> Group:
    """Returns the group with other indices: so many objects from the first one on are gone."""
    found = list(group)
    for place, (name, *_) in enumerate(group):
        for at in range(place - INDEXED.get(name, 0), place):
            index = group[at][1]
            found[at] = ("PUSH", index if index < first else max(index - count, 0) if index >= first + count else 0)
    return found


def named_in(group: Group) -> set[bytes]:
    """Returns the byte strings that a group pushes."""
    return {it[1] for it in group if it[0] == "PUSH" and isinstance(it[1], bytes) and it[1]}


def smaller_groups(group: Group) -> Iterator[Group]:
    """Yields the group without its front or its back, and then without each operation and its pushes, the last one first."""
    ends = [place + 1 for place, it in enumerate(group) if it[0] != "PUSH"]
    half = ends[len(ends) // 2 - 1] if len(ends) > 1 else 0
    if half:
        yield group[:half]
        yield group[half:]
    for begin, end in reversed(list(zip([0, *ends], ends)) if len(ends) > 1 else []):
        yield group[:begin] + group[end:]


def simpler_elements(element: object) -> Iterator[object]:
    """Yields elements that are simpler than this one, the simplest first."""
    if isinstance(element, bool) or element is None or isinstance(element, Versionstamp):
        return
    if isinstance(element, int):
        yield from (it for it in (0, 1, -1) if abs(it) < abs(element))
    elif isinstance(element, bytes) and len(element) > 1:
        yield from (b"", element[:1]) if element[:1] != b"k" else (element[:2],) if len(element) > 2 else ()
    elif isinstance(element, str) and len(element) > 1:
        yield element[:1]
    elif isinstance(element, tuple) and element:
        yield ()
        yield element[:1]
