"""The cases of the suite: what the file `cases` of each subject lists, and how each is judged."""

import os
import re
import subprocess
from typing import Iterator, NamedTuple, Optional

from instruction_text import assembled, pairs_in
from tuple_layer import printable

from . import CONFORMANCE
from .comparison import item_behind, line_pairs, value_text
from .testers import Answer, UserFault, answer_of

OWN = "this_program_only"
SECONDS = 60  # that one case may take


class Case(NamedTuple):
    """A case: its folder and name, what it shows, its text, the lines of its script, its order, and what it must leave."""

    subject: str
    name: str
    shows: str
    text: str
    script: str
    order: str
    left: dict[bytes, bytes]
    dump: str
    words: tuple[str, ...]

    def path(self) -> str:
        return f"{self.subject}/{self.name}"

    def operations(self) -> set[str]:
        return {line.split(" ")[0] for line in self.text.splitlines() if not line.startswith("@")}

    def front(self) -> bytes:
        """Returns the prefix under which the case logs its stack."""
        return f"{self.name}/".encode()


class Result(NamedTuple):
    """What came of a case: the lines that say in what it differs, none where it passed, and the instructions at fault."""

    case: Case
    faults: list[str]
    instructions: frozenset[int] = frozenset()
    is_skipped: bool = False


def read(*path: str) -> str:
    """Returns the text of a file of the suite, none where it isn't there."""
    whole = os.path.join(CONFORMANCE, *path)
    if not os.path.exists(whole):
        return ""
    with open(whole, encoding="latin-1", newline="\n") as file:
        return file.read()


class Row(NamedTuple):
    """A line of a file `cases`: a case's name, what it shows, and the section of the document that says so."""

    name: str
    shows: str
    document: str


def fields(line: str, count: int) -> list[str]:
    """Returns the fields of a line, which ` | ` parts."""
    parts = line.split(" | ")
    if len(parts) != count:
        raise UserFault(f"{count} fields are wanted in the line: {line}")
    return parts


def subjects() -> list[tuple[str, str]]:
    """Returns the folder and the title of each subject, in the order of the file `subjects`."""
    return [(folder, title) for folder, title in (fields(line, 2) for line in read("subjects").splitlines())]


def rows_of(subject: str) -> list[Row]:
    """Returns the rows of a subject's file `cases`."""
    return [Row(*fields(line, 3)) for line in read(subject, "cases").splitlines()]


def all_cases() -> list[Case]:
    """Returns the cases of all subjects, in order."""
    cases = [case_of(subject, row.name, row.shows) for subject, _ in subjects() for row in rows_of(subject)]
    lost = unlisted(cases)
    if lost:
        raise UserFault(f"no file `cases` lists {', '.join(lost)}")
    return cases


def case_of(subject: str, name: str, shows: str) -> Case:
    text = read(subject, f"{name}.fdbt")
    left = dict(pairs_in(read(subject, f"{name}.left").encode("latin-1")))
    words = read(subject, "words").split() or ["630"]
    return Case(subject, name, shows, text, assembled(text.encode("latin-1")), read(subject, f"{name}.order"), left, read(subject, f"{name}.dump"), tuple(words))


def unlisted(cases: list[Case]) -> list[str]:
    """Returns the scripts of the folder that no file `cases` lists."""
    listed = {case.path() for case in cases}
    found = {os.path.relpath(os.path.join(folder, name), CONFORMANCE) for folder, _, names in os.walk(CONFORMANCE) for name in names}
    return sorted(path for path in found if path.endswith(".fdbt") and path.removesuffix(".fdbt") not in listed)


def pair_text(case: Case, key: bytes, value: bytes) -> str:
    """Returns a pair as a person reads it: of a logged item its place in the stack, its instruction and the item."""
    found = item_behind(case.front(), key, value)
    if found is None:
        return f"{printable(key)} = {printable(value)}"
    place, number, item = found
    return f"item {place}, of instruction {number}: {value_text(item)}"


def wanted(case: Case) -> dict[bytes, bytes]:
    """Returns all pairs that must stand at the end."""
    return dict(pairs_in(case.script.encode("latin-1"))) | case.left


def differences(case: Case, answer: Answer) -> Result:
    """Returns in what the pairs of an answer differ from those of the case."""
    pairs, bad = line_pairs(answer.lines)
    if bad:
        return Result(case, bad)
    must, left = wanted(case), dict(pairs)
    missing = [it for it in must.items() if left.get(it[0]) != it[1]]
    extra = [it for it in left.items() if must.get(it[0]) != it[1]]
    told = [f"missing: {pair_text(case, *it)}" for it in missing] + [f"left:    {pair_text(case, *it)}" for it in extra]
    items = (item_behind(case.front(), *it) for it in [*missing, *extra])
    return Result(case, told, frozenset(it[1] for it in items if it))


def command_words(case: Case, has_orders: bool) -> list[str]:
    """Returns the words of a case's command line: the file `words` of its folder has those behind the prefix."""
    return ["replay" if case.order and has_orders else "run", "p", *case.words]


def judged(program: list[str], case: Case, has_pairs_alone: bool) -> Result:
    """Runs a case, and returns in what the program differs from it."""
    given = (case.order if not has_pairs_alone else "") + case.script
    try:
        ran = subprocess.run([*program, *command_words(case, not has_pairs_alone)], input=given.encode("latin-1"), capture_output=True, timeout=SECONDS, check=False)
    except subprocess.TimeoutExpired:
        return Result(case, [f"no end after {SECONDS} seconds"])
    except OSError as fault:
        raise UserFault(f"--program: {fault.strerror}: {program[0]}") from fault
    if ran.returncode != 0:
        told = ran.stderr.decode("latin-1").splitlines()[-1:]
        return Result(case, [f"status {ran.returncode}", *told], instruction_in(told))
    out = ran.stdout.decode("latin-1")
    result = differences(case, answer_of(out.split("\n"), "", 0))
    if not result.faults and not has_pairs_alone and out != case.dump:
        return Result(case, ["the pairs are right, and the dump is another one"])
    return result


def instruction_in(told: list[str]) -> frozenset[int]:
    """Returns the instruction that a tester names where it stops."""
    found: Optional[re.Match] = re.search(r"instruction (\d+)", told[0]) if told else None
    return frozenset([int(found[1])]) if found else frozenset()


def marked_lines(result: Result) -> Iterator[str]:
    """Yields the text of a case, with a mark before the instructions at fault."""
    number, is_first = -1, True
    for line in result.case.text.splitlines():
        if line.startswith("@"):
            is_first = number < 0
            yield f"  {line}"
            continue
        number += is_first
        yield f"{'>' if is_first and number in result.instructions else ' '} {line}"
