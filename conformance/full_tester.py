#!/usr/bin/env python3
"""A stack tester with every operation, on a database in memory: an example of a tester that random scripts are compared with.

    python3 conformance/full_tester.py run PREFIX API < LINES > LINES

It reads K lines, runs the machines by turns, and prints the pairs that are there at the end as K lines. It ends with status 3 where
a machine stopped before its last instruction. With `--dump` it prints the M, S and E lines of a dump as well. With `--many` it takes
scripts one after the other, each ended by a line `.`, and answers each by its pairs and a line `.`.
"""

import argparse
import sys
from typing import NamedTuple

from lib.answers import serve  # the modules of scripts/ are on the path behind this
from lib.machine import Machine, World
from lib.transactions import Attempt, Database

from command_words import Parser
from instruction_text import TextFault, pair_line, pairs_in
from tuple_layer import pack, printable

POLLS = 10_000


class Outcome(NamedTuple):
    """The pairs at the end, and how the machines ended."""

    world: World

    def pair_lines(self) -> list[str]:
        return [pair_line(key, value) for key, value in sorted(self.world.database.pairs.items())]

    def status(self) -> int:
        return 0 if all(machine.end == "ended" for machine in self.world.machines) else 3

    def machine_lines(self) -> list[str]:
        """Returns the M, S and E lines."""
        machines = list(enumerate(self.world.machines))
        lines = [f"M {place} {it.end} {it.number} {printable(it.prefix)}" for place, it in machines]
        lines += [f"S {place} {height} {item.number} {item_text(item.value)}" for place, it in machines for height, item in enumerate(it.stack)]
        return lines + [f"E {place} {number} {word}" for place, it in machines for number, word in it.errors]


def item_text(value: object) -> str:
    return "*" if isinstance(value, Attempt) else printable(pack((value,)))


def run(lines: bytes, prefix: bytes, api: int, polls: int = POLLS) -> Outcome:
    """Runs the machine of a prefix, and those that it starts."""
    world = World(Database(dict(pairs_in(lines)), api))
    world.start(prefix)
    world.run(polls)
    return Outcome(world)


def words_of(words: list[str]) -> argparse.Namespace:
    parser = Parser("full_tester.py", "full_tester.py run PREFIX API [options]", __doc__)
    parser.add_argument("command", choices=["run"])
    parser.add_argument("prefix", metavar="PREFIX")
    parser.add_argument("api", metavar="API", type=int, choices=[630, 500])
    parser.add_argument("--dump", action="store_true", help="prints M, S and E lines before the K lines")
    parser.add_argument("--many", action="store_true", help="takes many scripts, each ended by a line `.`")
    return parser.parse_args(words)


def main(words: list[str]) -> int:
    args = words_of(words)

    def answer(lines: bytes) -> tuple[int, list[str]]:
        outcome = run(lines, args.prefix.encode(), args.api)
        return outcome.status(), (outcome.machine_lines() if args.dump else []) + outcome.pair_lines()

    if args.many:
        serve(answer)
        return 0
    try:
        status, lines = answer(sys.stdin.buffer.read())
    except TextFault as fault:
        print(f"full_tester: {fault}", file=sys.stderr)
        return 2
    sys.stdout.write("".join(line + "\n" for line in lines))
    return status


if __name__ == "__main__":
    sys.exit(main(sys.argv[1:]))
