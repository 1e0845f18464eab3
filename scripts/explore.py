"""Finds the outcomes that a script of several machines can have, by the orders of its requests.

Each order is replayed by `fdbtester`, so each outcome is what the serial machine gives for the order that is printed with it.
An outcome is the dump without its order: how the machines ended, their stacks and errors, and the pairs of the database. A switch is
where a machine is left while it could go on; orders with few of them are tried first, and most faults need few. A machine
that waits is turned to where its poll is answered, and in vain only where every machine that is left waits: its wait then ends by --polls.
"""

import argparse
import glob
import os
import shlex
import signal
import subprocess
import sys
import tempfile
from typing import NamedTuple

from command_words import Parser
from explain import ENDS, ReadFault, bytes_text, dump_of, fields_of, instruction_text, instructions_of, notes_of, pairs_of
from instruction_text import TextFault, assembled
from orders import MACHINES, Exploration, ReplayFault, Replays, outcome_of, processes

TOP = os.path.join(os.path.dirname(os.path.realpath(__file__)), "..")


class Outcome(NamedTuple):
    """An outcome: how many orders lead to it, the shortest of them, the words its replay needs, and its dump."""

    count: int
    order: bytes
    words: list
    dump: bytes
    kept: bytes  # what of the dump is compared


def number_in(least, most):
    """Returns the reader of a word that is a number within these bounds."""

    def number(word):
        if not (word.isascii() and word.isdigit() and least <= int(word) <= most):
            raise argparse.ArgumentTypeError(f"{word!r} is no number from {least} to {most}")
        return int(word)

    return number


def words_of(words):
    """Reads the words of the command line."""
    parser = Parser("explore.py", "explore.py [options] PREFIX SCRIPT", __doc__)
    many = number_in(1, 2**31)
    parser.add_argument("prefix", metavar="PREFIX", help="the prefix of the first machine")
    parser.add_argument("script", metavar="SCRIPT", help="a script as `fdbtester run` reads it, where an order before it is left out; or its instruction text")
    parser.add_argument("--api", metavar="API", choices=["630", "500"], default="630", help="the API version: 630, or 500; 630 where it isn't given")
    parser.add_argument("--switches", metavar="N", type=number_in(0, 2**31), default=2, help="switches of an order, at most; 2 where it isn't given")
    parser.add_argument("--orders", metavar="N", type=many, default=20_000, help="orders that are tried, at most; 20000 where it isn't given")
    parser.add_argument("--polls", metavar="N", type=number_in(1, 100_000), default=1, help="polls of a wait in vain; 1 where it isn't given")
    parser.add_argument("--seed", metavar="N", type=number_in(0, 2**64 - 1), default=0, help="the seed of the random words; 0 where it isn't given")
    parser.add_argument("--database", action="store_true", help="tells outcomes apart by the pairs of the database alone")
    parser.add_argument("--save", metavar="DIR", help="writes the order and the dump of each outcome there, and the file `outcomes` for --expect")
    parser.add_argument("--expect", metavar="FILE", help="ends with status 1 where an outcome isn't among those of the file")
    parser.add_argument("--jobs", metavar="N", type=many, default=os.cpu_count(), help="processes at once; one a processor where it isn't given")
    parser.add_argument("--program", metavar="FILE", help="the program that replays; where it isn't given, the one that ./fdbtester runs")
    return parser.parse_args(words)


def program_at_hand():
    """Returns the program that the launcher runs, which it makes first where there is none."""
    found = subprocess.run([os.path.join(TOP, "fdbtester"), "--where"], stdout=subprocess.PIPE, check=False)
    if found.returncode:
        sys.exit(found.returncode)
    return os.fsdecode(found.stdout).rstrip("\n")


def read_script(path):
    """Reads a script, and returns its K lines, without the order that may stand before them; of instruction text those that it stands for."""
    with open(path, "rb") as file:
        string = file.read()
    if string.startswith(b"@"):
        return assembled(string).encode("latin-1")
    lines = string.split(b"\n")
    first = next(place for place, line in enumerate(lines) if not line.startswith(b"O "))
    return b"\n".join(lines[first:])


def check_places(words):
    """Looks at what is read and written at the end, before the search."""
    if words.expect is not None:
        with open(words.expect, "rb"):
            pass
    if words.save is not None:
        os.makedirs(words.save, exist_ok=True)
        with tempfile.TemporaryFile(dir=words.save):
            pass


def outcomes_of(exploration, words, replays):
    """Tries the orders, and returns the outcomes in the order in which they were found, and how many orders ended in vain."""
    best, counts, vain = {}, {}, 0
    for found in exploration.orders():
        counts[found.outcome] = counts.get(found.outcome, 0) + 1
        vain += found.vain < len(found.places)
        if found.outcome not in best or len(found.places) < len(best[found.outcome].places):
            best[found.outcome] = found
    return [outcome(found, counts[found.outcome], words, replays) for found in best.values()], vain


def outcome(found, count, words, replays):
    """Replays the shortest order of an outcome."""
    polls = words.polls if found.vain < len(found.places) else 1
    order = found.places[: found.vain] + b"".join(bytes([machine]) * polls for machine in found.places[found.vain :])
    dump = replays.ask(order, polls).dump
    options = ["--seed", str(words.seed)] * (words.seed != 0) + ["--polls", str(polls)] * (found.vain < len(found.places))
    return Outcome(count, order, options, dump, outcome_of(dump, words.database))


def facts_of(pairs, dump, by_pairs):
    """Returns what an outcome says: by a place to sort it by, of what it is said and what."""
    facts = {}
    for number, machine in enumerate([] if by_pairs else dump.machines):
        facts[number, -1] = f"machine {number}", f"prefix {machine.prefix!r}, {ENDS[machine.end].format(machine.number)}"
        instructions = [instruction_text(value) for _, value in instructions_of(pairs, machine.prefix)]
        for place in sorted({*machine.items, *machine.errors}):
            name = instructions[place] if place < len(instructions) else "an instruction that the run wrote"
            facts[number, place] = f"machine {number}, {place}  {name}", ", ".join(notes_of(machine, place, False))
    for key, value in dump.pairs.items():
        facts[MACHINES, key] = bytes_text(key), bytes_text(value)
    return facts


def difference_lines(first, other):
    """Yields a line for each fact in which an outcome differs from the first one."""
    for place in sorted(first | other):
        name = (first | other)[place][0]
        before, here = (facts[place][1] if place in facts else "nothing" for facts in (first, other))
        if here != before:
            yield f"  {name}: {here}; in outcome 1: {before}"


def bounds_line(exploration, words, vain):
    """Returns what was tried, and what the bounds left out."""
    left = []
    if exploration.has_further_switches:
        left.append(f"orders with more than {words.switches} switches")
    if exploration.unfollowed:
        left.append(f"what {exploration.unfollowed} branches lead to, by --orders")
    text = f"{exploration.tried} orders tried; left out: {' and '.join(left) or 'none'}"
    return f"{text}; in {vain} a wait in vain was ended by --polls" if vain else text


def replay_line(outcome, words):
    """Returns the command that replays an outcome's order."""
    with open(words.script, "rb") as file:
        front = file.read(2)
    reads = "grep -v '^O '" if front == b"O " else "./fdbtester asm <" if front[:1] == b"@" else "cat"
    order = f"printf 'O %d\\n' {' '.join(map(str, outcome.order))}; " if outcome.order else ""
    options = outcome.words + ["--"] * words.prefix.startswith("-")
    return f"    ({order}{reads} {shlex.quote(words.script)}) | ./fdbtester {shlex.join(['replay', *options, words.prefix, '630'])}"


def report_lines(exploration, outcomes, words, vain):
    """Yields the lines that are printed."""
    pairs = pairs_of(fields_of(read_script(words.script).decode("latin-1").split("\n")))
    facts = [facts_of(pairs, dump_of(fields_of(it.dump.decode("latin-1").split("\n"))), words.database) for it in outcomes]
    yield bounds_line(exploration, words, vain)
    for number, it in enumerate(outcomes):
        yield ""
        yield f"outcome {number + 1} of {len(outcomes)}, by {it.count} of {exploration.tried} orders. A shortest one:"
        yield replay_line(it, words)
        yield from difference_lines(facts[0], facts[number])


def save(folder, outcomes):
    """Writes the order and the dump of each outcome, and all outcomes into one file, in place of those of an earlier call."""
    os.makedirs(folder, exist_ok=True)
    for old in glob.glob(os.path.join(glob.escape(folder), "outcome-*.dump")) + glob.glob(os.path.join(glob.escape(folder), "outcome-*.order")):
        os.remove(old)
    files = {"outcomes": b"\n".join(it.kept for it in outcomes)}
    for number, it in enumerate(outcomes, 1):
        files[f"outcome-{number}.order"] = b"".join(b"O %d\n" % machine for machine in it.order)
        files[f"outcome-{number}.dump"] = it.dump
    for name, text in files.items():
        with open(os.path.join(folder, name), "wb") as file:
            file.write(text)


def unexpected(path, outcomes):
    """Returns the numbers of the outcomes that aren't in the file, and how many outcomes of the file didn't come."""
    with open(path, "rb") as file:
        expected = {text.strip(b"\n") for text in file.read().split(b"\n\n")}
    came = {it.kept.strip(b"\n") for it in outcomes}
    return [number for number, it in enumerate(outcomes, 1) if it.kept.strip(b"\n") not in expected], len(expected - came)


def main(words):
    signal.signal(signal.SIGPIPE, signal.SIG_DFL)
    check_places(words)
    replays = Replays(words.program or program_at_hand(), os.fsencode(words.prefix), words.seed, read_script(words.script), words.api)
    with processes(words.jobs, replays, words.database) as pool:
        exploration = Exploration(pool, words.switches, words.orders)
        outcomes, vain = outcomes_of(exploration, words, replays)
    for line in report_lines(exploration, outcomes, words, vain):
        print(line)
    if words.save:
        save(words.save, outcomes)
    if words.expect is None:
        return 0
    numbers, missing = unexpected(words.expect, outcomes)
    print(f"\n{words.expect}: {', '.join(f'outcome {number}' for number in numbers) or 'no outcome'} isn't in it; {missing} of its outcomes didn't come")
    return 1 if numbers else 0


if __name__ == "__main__":
    try:
        sys.exit(main(words_of(sys.argv[1:])))
    except OSError as fault:
        print(f"explore.py: {fault.filename or 'the program'}: {fault.strerror}", file=sys.stderr)
        sys.exit(2)
    except TextFault as fault:
        print(f"explore.py: {sys.argv[-1]}: {fault}", file=sys.stderr)
        sys.exit(2)
    except (ReadFault, ReplayFault) as fault:
        print(f"explore.py: {fault}", file=sys.stderr)
        sys.exit(2)
