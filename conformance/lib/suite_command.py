"""The command conformance/run: its words, and what it prints."""

import argparse
import json
import os
import signal
import sys
from concurrent.futures import ThreadPoolExecutor
from typing import Iterator, Optional
from xml.sax.saxutils import quoteattr

from instruction_text import NAMES, pairs_in

from . import TOP
from .random_command import Parser, number_in
from .suite import OWN, Case, Result, all_cases, judged, marked_lines
from .testers import UserFault, command_of

NAME = "conformance/run"
FAILED = os.path.join(TOP, "out", "conformance.failed")


def parser_of(about: str) -> Parser:
    parser = Parser(prog=NAME, usage=f"{NAME} [options]", description=about, formatter_class=argparse.RawDescriptionHelpFormatter)
    parser.add_argument("--program", metavar="COMMAND", default=os.path.join(TOP, "fdbtester"), help="the tester; it is called with `run p 630`, reads K lines and prints them; ./fdbtester where it isn't given")
    parser.add_argument("--pairs", action="store_true", help=f"compares the pairs that are left, and no dump; leaves out {OWN} and takes no orders: for a tester of another make")
    parser.add_argument("--subject", metavar="NAME", action="append", help="runs the cases of this folder alone; may come several times")
    parser.add_argument("--case", metavar="NAME", action="append", help="runs this case alone, as SUBJECT/NAME or NAME; may come several times")
    parser.add_argument("--failed", action="store_true", help="runs the cases alone that failed last time")
    parser.add_argument("--skip", metavar="OPERATION", action="append", default=[], help="skips the cases with this operation, and counts them; may come several times")
    parser.add_argument("--list", action="store_true", help="runs nothing; prints the cases, and what each shows")
    parser.add_argument("--operations", action="store_true", help="runs nothing; prints which operations each subject needs")
    parser.add_argument("--export", metavar="DIR", help="runs nothing; writes for each case but those of " + OWN + " the pairs to load and the pairs that must be left")
    parser.add_argument("--junit", metavar="FILE", help="writes what came of each case as JUnit's XML")
    parser.add_argument("--json", action="store_true", help="prints what came of each case as JSON, and nothing else")
    parser.add_argument("--jobs", metavar="N", type=number_in(1, 1000), default=os.cpu_count(), help="cases at once; one a processor where it isn't given")
    return parser


def chosen(args: argparse.Namespace) -> list[Case]:
    """Returns the cases that the words name."""
    cases = all_cases()
    if args.pairs or args.export is not None:
        cases = [case for case in cases if not case.subject.startswith(OWN)]
    for name in args.skip:
        if name not in NAMES | {"PUSH"}:
            raise UserFault(f"--skip {name}: there is no such operation")
    cases = [case for case in cases if named(case.subject, args.subject)]
    check_named(args.subject, {case.subject for case in cases}, "--subject", "--operations lists them")
    cases = [case for case in cases if args.case is None or case.name in args.case or case.path() in args.case]
    check_named(args.case, {it for case in cases for it in (case.name, case.path())}, "--case", "--list lists them")
    if args.failed:
        failed = failed_last()
        cases = [case for case in cases if case.path() in failed]
    return cases


def named(name: str, names: Optional[list[str]]) -> bool:
    return names is None or name in names


def check_named(names: Optional[list[str]], there: set[str], option: str, hint: str) -> None:
    for name in names or []:
        if name not in there:
            raise UserFault(f"{option} {name}: there is none of this name here; {hint}")


def failed_last() -> set[str]:
    """Returns the cases that failed when the suite was run last."""
    try:
        with open(FAILED, encoding="utf-8") as file:
            return set(file.read().split())
    except OSError as fault:
        raise UserFault("--failed: no run is kept; run the suite first") from fault


def keep_failed(results: list[Result]) -> None:
    """Notes the cases that failed, for --failed; where there is no room for the note it isn't kept."""
    try:
        os.makedirs(os.path.dirname(FAILED), exist_ok=True)
        with open(FAILED, "w", encoding="utf-8") as file:
            file.writelines(f"{it.case.path()}\n" for it in results if it.faults)
    except OSError:
        pass


def export(folder: str, cases: list[Case]) -> None:
    """Writes the pairs to load and the pairs that must stand beside them at the end, a pair a line, key and value in hexadecimal."""
    try:
        for case in cases:
            os.makedirs(os.path.join(folder, case.subject), exist_ok=True)
            for kind, pairs in (("load", pairs_in(case.script.encode("latin-1"))), ("left", case.left.items())):
                with open(os.path.join(folder, case.subject, f"{case.name}.{kind}"), "w", encoding="ascii") as file:
                    file.writelines(f"{key.hex()} {value.hex()}\n" for key, value in pairs)
    except OSError as fault:
        raise UserFault(f"--export {folder}: {fault.strerror}: {fault.filename}") from fault


def subjects(cases: list[Case]) -> list[str]:
    return list(dict.fromkeys(case.subject for case in cases))


def operation_lines(cases: list[Case]) -> Iterator[str]:
    for subject in subjects(cases):
        needed = set().union(*(case.operations() for case in cases if case.subject == subject))
        yield f"{subject}: {' '.join(sorted(needed))}"


def told(results: list[Result]) -> Iterator[str]:
    """Yields the cases that differ, and a line for each subject."""
    for result in results:
        if result.faults:
            yield f"{result.case.path()}: {result.case.shows}"
            yield from (f"    {line}" for line in result.faults)
            yield "    its script:" if not result.instructions else "    its script, with the instructions at fault:"
            yield from (f"      {line}" for line in marked_lines(result))
    for subject in subjects([it.case for it in results]):
        some = [it for it in results if it.case.subject == subject]
        run = [it for it in some if not it.is_skipped]
        skipped = len(some) - len(run)
        yield f"{subject}: {sum(not it.faults for it in run)} of {len(run)} cases passed" + (f", {skipped} skipped" if skipped else "")


def as_json(results: list[Result]) -> str:
    rows = [
        {"subject": it.case.subject, "case": it.case.name, "shows": it.case.shows, "result": state(it), "differences": it.faults, "instructions": sorted(it.instructions)}
        for it in results
    ]
    return json.dumps(rows, indent=1)


def state(result: Result) -> str:
    return "skipped" if result.is_skipped else "failed" if result.faults else "passed"


def as_junit(results: list[Result]) -> Iterator[str]:
    yield '<?xml version="1.0" encoding="UTF-8"?>'
    yield "<testsuites>"
    for subject in subjects([it.case for it in results]):
        some = [it for it in results if it.case.subject == subject]
        yield f'  <testsuite name={quoteattr(subject)} tests="{len(some)}" failures="{sum(bool(it.faults) for it in some)}" skipped="{sum(it.is_skipped for it in some)}">'
        for it in some:
            front = f"    <testcase classname={quoteattr('conformance.' + subject.replace('/', '.'))} name={quoteattr(it.case.name)}"
            inner = "<skipped/>" if it.is_skipped else f"<failure message={quoteattr(xml_text(' | '.join(it.faults)))}/>" if it.faults else ""
            yield f"{front}>{inner}</testcase>" if inner else f"{front}/>"
        yield "  </testsuite>"
    yield "</testsuites>"


def xml_text(text: str) -> str:
    """Returns a text without the characters that XML doesn't have."""
    return "".join(it if it.isprintable() else "?" for it in text)


def write_junit(path: str, results: list[Result]) -> None:
    try:
        with open(path, "w", encoding="utf-8") as file:
            file.writelines(line + "\n" for line in as_junit(results))
    except OSError as fault:
        raise UserFault(f"--junit {path}: {fault.strerror}") from fault


def results_of(args: argparse.Namespace, cases: list[Case]) -> list[Result]:
    program = command_of(args.program)
    skipped = set(args.skip)

    def result(case: Case) -> Result:
        return Result(case, [], is_skipped=True) if skipped & case.operations() else judged(program, case, args.pairs)

    with ThreadPoolExecutor(args.jobs) as pool:
        return list(pool.map(result, cases))


def run(words: list[str], about: str) -> int:
    args = parser_of(about).parse_args(words)
    cases = chosen(args)
    if args.export is not None:
        export(args.export, cases)
        return 0
    if args.list or args.operations:
        for line in operation_lines(cases) if args.operations else (f"{case.path()}: {case.shows}" for case in cases):
            print(line)
        return 0
    results = results_of(args, cases)
    keep_failed(results)
    if args.junit is not None:
        write_junit(args.junit, results)
    for line in [as_json(results)] if args.json else told(results):
        print(line)
    if not cases:
        print("no case failed last time" if args.failed else "no case", file=sys.stderr)
    return 1 if any(it.faults for it in results) else 0


def main(words: list[str], about: str) -> int:
    signal.signal(signal.SIGPIPE, signal.SIG_DFL)
    try:
        return run(words, about)
    except UserFault as fault:
        print(f"{NAME}: {fault}", file=sys.stderr)
        return 2
