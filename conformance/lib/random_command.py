"""The command conformance/random: its words, and what it prints."""

import argparse
import multiprocessing
import os
import shlex
import shutil
import signal
import sys
import time
from concurrent.futures import ThreadPoolExecutor
from functools import partial
from itertools import islice
from typing import Iterator, NamedTuple, Optional

from instruction_text import NAMES, pair_line

from .comparison import Difference, compared, difference_lines, line_pairs, stack_lines
from .coverage import SUBJECTS, Coverage
from .scripts import Options, Script
from .shrinking import Limits, Shrinker
from .testers import Answer, Tester, UserFault, command_of, program_at_hand
from .tests_by_name import TESTS

NAME = "conformance/random"
MANY = 2**31
BATCH = 32  # scripts for each job that are handed out at a time


def number_in(least: int, most: int):
    """Returns the reader of a word that is a number within these bounds."""

    def number(word: str) -> int:
        if not (word.isascii() and word.isdigit() and least <= int(word) <= most):
            raise argparse.ArgumentTypeError(f"{word!r} is no number from {least} to {most}")
        return int(word)

    return number


def operation(word: str) -> str:
    if word not in NAMES:
        raise argparse.ArgumentTypeError(f"{word!r} is no operation")
    return word


class Parser(argparse.ArgumentParser):
    """Tells a wrong word in one line."""

    def error(self, message: str):  # type: ignore[override]
        raise UserFault(f"{message}; --help has the words")


def parser_of(about: str) -> Parser:
    tests = "".join(f"\n  {name:<14} {make.__doc__}" for name, make in TESTS.items())
    parser = Parser(prog=NAME, usage=f"{NAME} TEST [options]", description=about + tests, formatter_class=argparse.RawDescriptionHelpFormatter)
    parser.add_argument("test", metavar="TEST", choices=TESTS, help="one of the tests above")
    parser.add_argument("--seed", metavar="S", type=number_in(0, 2**64 - 1), default=0, help="the first seed; 0 where it isn't given")
    parser.add_argument("--scripts", metavar="N", type=number_in(1, MANY), default=100, help="how many seeds from there on; 100 where it isn't given")
    parser.add_argument("--ops", metavar="M", type=number_in(1, 1_000_000), default=100, help="about how many instructions a script has, pushes included; 100 where it isn't given")
    parser.add_argument("--machines", metavar="K", type=number_in(1, 30), default=3, help="machines beside the first one, of directory_hca and threads; 3 where it isn't given")
    parser.add_argument("--api", metavar="API", type=int, choices=[630, 500], default=630, help="the API version: 630, or 500")
    parser.add_argument("--program", metavar="COMMAND", help="the tester that is compared")
    parser.add_argument("--many", action="store_true", help="starts COMMAND once for each job, with the word --many behind the others: it takes scripts, each ended by a line `.`, and answers each by its pairs and a line `.`")
    parser.add_argument("--own", action="store_true", help="has what no cluster shares as well: errors of writes where this program tells them, versions and versionstamps as they are; for a second program of this kind")
    parser.add_argument("--without", metavar="OPERATION", action="append", default=[], type=operation, help="leaves out an operation that the tester doesn't have; may come several times. `--without GET` leaves GET_SNAPSHOT in")
    parser.add_argument("--no-errors", action="store_true", help="leaves out what is answered by an error, but for directory_hca")
    parser.add_argument("--write", metavar="DIR", help="writes each script there: NAME.fdbt, its text, NAME.kv, its K lines, and in hexadecimal digits NAME.load, the pairs to load, and NAME.left, those that must stand beside them")
    parser.add_argument("--coverage", action="store_true", help="runs no tester; prints what the scripts meet")
    parser.add_argument("--keep-going", action="store_true", help="names every script that differs, and shrinks the first")
    parser.add_argument("--runs", metavar="N", type=number_in(0, MANY), default=200, help="runs that shrinking takes, at most; 200 where it isn't given")
    parser.add_argument("--seconds", metavar="N", type=number_in(1, MANY), default=60, help="seconds that one script and that shrinking take, at most; 60 where it isn't given")
    parser.add_argument("--save", metavar="FILE", help="writes the text of the smallest script that differs")
    parser.add_argument("--jobs", metavar="N", type=number_in(1, 1000), default=os.cpu_count(), help="scripts at once; one a processor where it isn't given. 1 for a command that clears a shared cluster")
    parser.add_argument("--reference", metavar="FILE", help="the program that says what must stand; where it isn't given, the one that ./fdbtester runs")
    return parser


def options_of(args: argparse.Namespace) -> Options:
    return Options(args.ops, args.api, args.machines, args.own, frozenset(args.without), not args.no_errors)


class Found(NamedTuple):
    """A script that differs."""

    script: Script
    difference: Difference


class Runner:
    """Makes the scripts of some seeds, and runs them by both testers."""

    def __init__(self, args: argparse.Namespace):
        self.args = args
        self.reference = Tester([args.reference], args.api, seconds=args.seconds)
        self.tester: Optional[Tester] = Tester(command_of(args.program), args.api, args.many, args.seconds) if args.program is not None else None

    def script(self, seed: int) -> Script:
        return TESTS[self.args.test](seed, options_of(self.args))

    def seeds(self) -> range:
        return range(self.args.seed, self.args.seed + self.args.scripts)

    def expected(self, lines: bytes) -> Answer:
        answer = self.reference.run(lines)
        if answer.fault and not (self.args.own and answer.status == 3):
            raise UserFault(f"the program that says what must stand: {answer.fault}")
        return answer

    def check(self, script: Script) -> Optional[Difference]:
        """Returns in what the tester differs from the program."""
        assert self.tester is not None
        lines = lines_of(script)
        wanted, found = self.expected(lines), self.tester.run(lines)
        if self.args.own and wanted.status == 3 == found.status:
            wanted, found = wanted._replace(fault=""), found._replace(fault="")
        return compared(wanted, found)

    def check_smaller(self, script: Script) -> Optional[Difference]:
        """Does the same of a script that was cut down, which the program may stop at."""
        try:
            return self.check(script)
        except UserFault:
            return None

    def smaller_options(self) -> Iterator[Options]:
        """Yields the options of smaller scripts of the same test, the smallest first."""
        for operations in (10, 20, 40, 80):
            for machines in range(1, self.args.machines + 1):
                if operations * machines < self.args.ops:
                    yield options_of(self.args)._replace(operations=operations * machines, machines=machines)

    def check_seed(self, seed: int) -> Optional[Found]:
        script = self.script(seed)
        difference = self.check(script)
        return Found(script, difference) if difference else None

    def differing(self) -> Iterator[tuple[int, Optional[Found]]]:
        """Yields for each seed, in order, what was found."""
        seeds = iter(self.seeds())
        with multiprocessing.Pool(self.args.jobs, begin, (self.args,)) as pool:
            while some := list(islice(seeds, BATCH * self.args.jobs)):
                yield from zip(some, pool.imap(check_seed, some, 4))

    def close(self) -> None:
        if self.tester:
            self.tester.close()


# What each process compares by.
here: dict[str, Runner] = {}


def begin(args: argparse.Namespace) -> None:
    signal.signal(signal.SIGINT, signal.SIG_IGN)
    here["runner"] = Runner(args)


def check_seed(seed: int) -> Optional[Found]:
    return here["runner"].check_seed(seed)


def lines_of(script: Script) -> bytes:
    return "".join(pair_line(*pair) + "\n" for pair in script.pairs()).encode("latin-1")


def write(runner: Runner, folder: str) -> None:
    """Writes the scripts, and the pairs that must stand."""
    try:
        os.makedirs(folder, exist_ok=True)
        with ThreadPoolExecutor(runner.args.jobs) as pool:
            list(pool.map(partial(write_one, runner, folder), runner.seeds()))
    except OSError as fault:
        raise UserFault(f"--write {folder}: {fault.strerror}: {fault.filename}") from fault


def write_one(runner: Runner, folder: str, seed: int) -> None:
    script = runner.script(seed)
    lines = lines_of(script)
    loaded = dict(script.pairs())
    stands, _ = line_pairs(runner.expected(lines).lines)
    left = [(key, value) for key, value in stands if loaded.get(key) != value]
    files = {"fdbt": script.text(), "kv": lines.decode("latin-1"), "load": hexadecimal(script.pairs()), "left": hexadecimal(left)}
    for kind, text in files.items():
        with open(os.path.join(folder, f"{script.test}_{seed}.{kind}"), "w", encoding="latin-1", newline="\n") as file:
            file.write(text)


def hexadecimal(pairs: list[tuple[bytes, bytes]]) -> str:
    return "".join(f"{key.hex()} {value.hex()}\n" for key, value in pairs)


def command_again(args: argparse.Namespace, seed: int) -> str:
    """Returns the command that shows the script of a seed again."""
    words = [NAME, args.test, "--seed", str(seed), "--scripts", "1", "--ops", str(args.ops)]
    words += ["--machines", str(args.machines)] * (args.test in ("directory_hca", "threads")) + ["--api", "500"] * (args.api == 500)
    words += ["--own"] * args.own + [it for name in args.without for it in ("--without", name)] + ["--no-errors"] * args.no_errors + ["--many"] * args.many + ["--program", args.program]
    return shlex.join(words)


def shrunk(runner: Runner, found: Found) -> tuple[Script, Difference, int]:
    """Cuts a script down."""
    shrinker = Shrinker(found.script, found.difference, runner.check_smaller, Limits(runner.args.runs, runner.args.seconds))
    shrinker.shrink()
    return shrinker.script, shrinker.difference, shrinker.runs


def remade(runner: Runner, found: Found) -> tuple[Script, Difference, int]:
    """Makes smaller scripts by the same seed, and returns the smallest that differs."""
    runs = 0
    for options in runner.smaller_options():
        script = TESTS[runner.args.test](found.script.seed, options)
        runs += 1
        if difference := runner.check_smaller(script):
            return script, difference, runs
    return found.script, found.difference, runs


def report(runner: Runner, found: Found) -> Iterator[str]:
    """Shrinks a script that differs, and yields the lines that show it."""
    args, size = runner.args, found.script.size()
    yield f"seed {found.script.seed} of {args.test} differs, a script of {size} instructions:"
    yield from (f"    {line}" for line in islice(difference_lines(found.difference), 20))
    smallest, difference, runs = shrunk(runner, found) if found.script.rules else remade(runner, found)
    yield ""
    yield f"cut down to {smallest.size()} instructions in {runs} runs:"
    yield from (f"    {line}" for line in smallest.text().splitlines())
    yield from (f"  {line}" for line in difference_lines(difference))
    lines = lines_of(smallest)
    assert runner.tester is not None
    for title, tester in (("stack by the program:", runner.reference), ("stack by the command:", runner.tester)):
        yield f"  {title}"
        yield from (f"    {line}" for line in stack_lines(tester.run(lines)))
    yield "again, from the whole script:"
    yield f"    {command_again(args, found.script.seed)}"
    if args.save:
        save(args.save, smallest.text())


def save(path: str, text: str) -> None:
    try:
        with open(path, "w", encoding="latin-1", newline="\n") as file:
            file.write(text)
    except OSError as fault:
        raise UserFault(f"--save {path}: {fault.strerror}") from fault


def compare(runner: Runner) -> int:
    """Compares the scripts, and shows the first that differs."""
    args, begun = runner.args, time.monotonic()
    first: Optional[Found] = None
    differing, count = [], 0
    for seed, found in runner.differing():
        count += 1
        if found:
            first = first or found
            differing.append(seed)
            if not args.keep_going:
                break
    seconds = time.monotonic() - begun
    if first is None:
        print(f"{args.test}: {count} scripts, none differs, in {seconds:.1f} seconds")
        return 0
    for line in report(runner, first):
        print(line)
    if args.keep_going:
        print(f"{args.test}: {len(differing)} of {count} scripts differ, in {seconds:.1f} seconds: seeds {' '.join(map(str, differing))}")
    else:
        print(f"{args.test}: the {ordinal(count)} script differs, after {seconds:.1f} seconds; --keep-going tries the others too")
    return 1


def ordinal(count: int) -> str:
    ending = {1: "st", 2: "nd", 3: "rd"}.get(count % 10, "th") if count % 100 not in (11, 12, 13) else "th"
    return f"{count}{ending}"


def cover(args: argparse.Namespace) -> int:
    coverage, options = Coverage(), options_of(args)
    for seed in range(args.seed, args.seed + args.scripts):
        coverage.add(TESTS[args.test](seed, options))
    for line in coverage.lines(SUBJECTS[args.test]):
        print(line)
    return 0


def reference_of(args: argparse.Namespace) -> str:
    """Returns the program that says what must stand."""
    if args.reference is not None and shutil.which(args.reference) is None:
        raise UserFault(f"--reference: {args.reference} can't be run: there is no such program")
    return args.reference or program_at_hand()


def run(words: list[str], about: str) -> int:
    args = parser_of(about).parse_args(words)
    if args.coverage:
        return cover(args)
    if args.program is None and args.write is None:
        raise UserFault("--program COMMAND compares, --write DIR writes and --coverage counts: one of them must be there")
    if args.program is not None:
        command_of(args.program)
    args.reference = reference_of(args)
    runner = Runner(args)
    if args.write is not None:
        write(runner, args.write)
    try:
        return compare(runner) if args.program is not None else 0
    finally:
        runner.close()


def main(words: list[str], about: str) -> int:
    signal.signal(signal.SIGPIPE, signal.SIG_DFL)
    try:
        return run(words, about)
    except UserFault as fault:
        print(f"{NAME}: {fault}", file=sys.stderr)
        return 2
