"""Prints what a script of the bindings tester did, as its dump tells it, for a person.

SCRIPT is what `fdbtester run` or `replay` read, or the instruction text that it was made of; DUMP is what it wrote. Instructions
and elements are printed as instruction text spells them, docs/reference/text.md. Printed are each machine's instructions by number,
each beside what it left on the stack at the end and the errors that were noted at it; where and how each machine ended;
the order in which requests were taken; and the pairs of the database beside the instructions. It reads and prints, and
judges nothing.
"""

import collections
import re
import signal
import sys
from typing import NamedTuple

from command_words import Parser
from instruction_text import TextFault, assembled, element_text
from tuple_layer import NotATuple, pack, unpack, unprintable

# The names of the API reference, "Error Codes".
ERRORS = {
    1007: "transaction_too_old",
    1009: "future_version",
    1020: "not_committed",
    1021: "commit_unknown_result",
    1025: "transaction_cancelled",
    1036: "accessed_unreadable",
    1037: "process_behind",
    2000: "client_invalid_operation",
    2004: "key_outside_legal_range",
    2005: "inverted_range",
    2010: "read_version_already_set",
    2011: "version_invalid",
    2017: "used_during_commit",
    2018: "invalid_mutation_type",
    2021: "no_commit_version",
    2101: "transaction_too_large",
    2102: "key_too_large",
    2103: "value_too_large",
    2210: "exact_mode_without_limits",
}

ENDS = {
    "ended": "ended after {} instructions",
    "bad-instruction": "stopped at instruction {}: it is no instruction, or has an operand of a wrong kind or range",
    "underflow": "stopped at instruction {}: the stack lacks an operand",
    "wait-bound": "stopped at instruction {}: it waited in vain, for as many polls as --polls says",
    "machine-limit": "stopped at instruction {}: 64 machines were started already",
}

# How many characters of a value are printed before the rest is left out.
WIDEST = 160


class ReadFault(Exception):
    """A file can't be read, or isn't what it is to be."""


class Machine(NamedTuple):
    """What a dump says of a machine: how it ended, its prefix, its items and its errors by instruction."""

    end: str
    number: int
    prefix: bytes
    items: dict
    errors: dict


class Dump(NamedTuple):
    """The lines of a dump."""

    machines: list
    order: list
    pairs: dict


def pair_of(fields):
    """Splits the fields of a K line into key and value."""
    found = re.fullmatch(r"((?:[^\\]|\\\\|\\x[0-9a-f]{2})*)\\=((?:[^\\]|\\\\|\\x[0-9a-f]{2})*)", fields, re.S)
    if not found:
        raise ReadFault(f"no K line: K {cut(fields)}")
    return unprintable(found[1]), unprintable(found[2])


def lines_of(path):
    """Returns the lines of a file; of instruction text those that it stands for."""
    try:
        with open(path, "rb") as file:
            string = file.read()
        text = assembled(string) if string.startswith(b"@") else string.decode("latin-1")
    except OSError as fault:
        raise ReadFault(f"{path}: {fault.strerror}") from fault
    except TextFault as fault:
        raise ReadFault(f"{path}: {fault}") from fault
    return text.split("\n")


def check_kinds(path, lines, kinds, what):
    """Refuses a file that has a line of another kind."""
    for number, line in enumerate(lines, 1):
        if line and line[:2] not in kinds:
            raise ReadFault(f"{path}: line {number} is none of {what}: {cut(line)}")


def check_dump(path, lines):
    """Refuses a file that no run wrote: a dump begins with its machines."""
    if not any(lines):
        raise ReadFault(f"{path}: no dump: it is empty, as what a run leaves that ends with status 2")
    check_kinds(path, lines, ("M ", "S ", "E ", "O ", "K "), "a dump")
    if not lines[0].startswith("M "):
        raise ReadFault(f"{path}: no dump: it doesn't begin with an M line")


def fields_of(lines):
    """Yields the kind and the fields of each line."""
    for line in lines:
        yield line[:1], line[2:].rstrip("\n")


def pairs_of(fields_of_lines):
    """Returns the pairs of a script; of two lines with one key the later stays."""
    return dict(pair_of(fields) for kind, fields in fields_of_lines if kind == "K")


def dump_of(fields_of_lines):
    """Returns the dump that these lines are."""
    dump = Dump([], [], {})
    for kind, fields in fields_of_lines:
        try:
            add_line(dump, kind, fields)
        except (ValueError, IndexError) as fault:
            raise ReadFault(f"no line of a dump: {kind} {cut(fields)}") from fault
    return dump


def add_line(dump, kind, fields):
    """Adds what one line says to a dump."""
    if kind == "M":
        _, end, number, prefix = fields.split(" ", 3)
        if end not in ENDS:
            raise ValueError(end)
        dump.machines.append(Machine(end, int(number), unprintable(prefix), collections.defaultdict(list), collections.defaultdict(list)))
    elif kind == "S":
        machine, place, number, item = fields.split(" ", 3)
        dump.machines[int(machine)].items[int(number)].append((int(place), unprintable(item)))
    elif kind == "E":
        machine, number, word = fields.split(" ", 2)
        dump.machines[int(machine)].errors[int(number)].append(word)
    elif kind == "O":
        dump.order.append(int(fields))
    elif kind == "K":
        key, value = pair_of(fields)
        dump.pairs[key] = value


def cut(text):
    """Returns a text, or the first of it where it is long."""
    return text if len(text) <= WIDEST else f"{text[:WIDEST]}.. ({len(text)} characters)"


def bytes_text(string):
    """Returns bytes as they are, and beside them the tuple that they pack, where they seem to be one."""
    try:
        found = unpack(string)
    except NotATuple:
        found = ()
    seems_packed = found and None not in found and found[0] != b"" and found[0] != ""
    return cut(element_text(string) + (f", packs {element_text(found)}" if seems_packed else ""))


def item_text(string):
    """Returns the packed item of an S line as a person writes it."""
    if string == b"*":
        return "(still waits)"
    element = unpack(string)[0]
    if isinstance(element, bytes):
        try:
            found = unpack(element)
        except NotATuple:
            found = ()
        if found[:1] == (b"ERROR",) and len(found) == 2:
            return f"error {error_text(found[1].decode())}"
        return bytes_text(element)
    return cut(element_text(element))


def error_text(word):
    """Returns the code of an error with its name."""
    name = ERRORS.get(int(word)) if word.isdigit() else None
    return f"{word} {name}" if name else word


def instruction_text(value):
    """Returns an instruction as a person writes it, or says that it is none."""
    try:
        name, *elements = unpack(value)
        name = name.decode() if isinstance(name, bytes) else name
        return cut(" ".join([str(name), *map(element_text, elements)]))
    except (NotATuple, ValueError, UnicodeDecodeError):
        return f"(no instruction: {cut(repr(value))})"


def instructions_of(pairs, prefix):
    """Returns the keys and values of the instructions under a prefix, in order."""
    front = pack((prefix,))
    return sorted((key, value) for key, value in pairs.items() if front + b"\x00" <= key < front + b"\xff")


def notes_of(machine, number, has_places=True):
    """Returns what is noted beside an instruction: the items that it left, and the errors that these don't tell."""
    left = [f"leaves {f'[{place}] ' if has_places else ''}{item_text(item)}" for place, item in machine.items.get(number, [])]
    errors = [f"error {error_text(word)}" for word in machine.errors.get(number, [])]
    return left + [it for it in errors if not any(note.endswith(it) for note in left)]


def machine_lines(number, machine, pairs):
    """Yields the lines on one machine."""
    yield f"machine {number}, prefix {element_text(machine.prefix)}: {ENDS[machine.end].format(machine.number)}"
    stopped = machine.number if machine.end != "ended" else None
    for place, (_, value) in enumerate(instructions_of(pairs, machine.prefix)):
        front = f"  {'>' if place == stopped else ' '}{place:4}  {instruction_text(value)}"
        notes = notes_of(machine, place)
        yield f"{front:<44}  {notes[0]}" if notes else front
        for note in notes[1:]:
            yield f"{'':<44}  {note}"
        if place == stopped:
            return


def order_lines(order):
    """Yields the lines on the order: runs of places of one machine, with its requests, counted from 0."""
    taken, begin = collections.Counter(), 0
    for place, machine in enumerate(order):
        if place + 1 < len(order) and order[place + 1] == machine:
            continue
        first, count = taken[machine], place + 1 - begin
        taken[machine] += count
        places = f"{begin + 1}" if count == 1 else f"{begin + 1} to {place + 1}"
        requests = f"request {first}" if count == 1 else f"requests {first} to {first + count - 1}"
        yield f"  {places}: machine {machine}, its {requests}"
        begin = place + 1


def database_lines(dump, pairs):
    """Yields the lines on the database: its pairs beside the instructions, and the keys of the script that are gone."""
    own = {key for machine in dump.machines for key, _ in instructions_of(pairs, machine.prefix)}
    for key, value in dump.pairs.items():
        if key not in own or pairs[key] != value:
            yield f"  {bytes_text(key)} = {bytes_text(value)}"
    for key in pairs:
        if key not in dump.pairs:
            yield f"  {bytes_text(key)} is gone"


def explained(pairs, dump):
    """Yields the lines of the whole explanation."""
    for number, machine in enumerate(dump.machines):
        yield from machine_lines(number, machine, pairs)
        yield ""
    yield f"order of requests, {len(dump.order)} places:"
    yield from order_lines(dump.order)
    yield ""
    yield "database beside the instructions:"
    yield from database_lines(dump, pairs)


def main(words):
    parser = Parser("explain.py", "explain.py SCRIPT DUMP", __doc__)
    parser.add_argument("script", metavar="SCRIPT", help="what `fdbtester run` or `replay` read, or the instruction text that it was made of")
    parser.add_argument("dump", metavar="DUMP", help="what it wrote")
    args = parser.parse_args(words)
    signal.signal(signal.SIGPIPE, signal.SIG_DFL)
    try:
        script, dump = lines_of(args.script), lines_of(args.dump)
        check_kinds(args.script, script, ("O ", "K "), "a script")
        check_dump(args.dump, dump)
        lines = list(explained(pairs_of(fields_of(script)), dump_of(fields_of(dump))))
    except (ReadFault, NotATuple, IndexError) as fault:
        print(f"explain.py: {fault}", file=sys.stderr)
        return 2
    for line in lines:
        print(line)
    return 0


if __name__ == "__main__":
    sys.exit(main(sys.argv[1:]))
