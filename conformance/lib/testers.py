"""Runs scripts by a tester: by a process for each, or many by one process."""

import os
import shlex
import shutil
import subprocess
import threading
from typing import NamedTuple, Optional

from . import TOP
from .answers import DOT

SECONDS = 60.0  # that one script may take
TOLD = 200  # characters of what a tester says that are told


class UserFault(Exception):
    """A mistake of the one who calls: it is told in one line, with status 2."""


class Answer(NamedTuple):
    """What a tester left of a script: its K lines, or why there are none."""

    lines: frozenset[str] = frozenset()
    fault: str = ""
    status: int = 0
    other: tuple[str, ...] = ()  # its other lines


def program_at_hand() -> str:
    """Returns the program that the launcher runs, which it makes first where there is none."""
    found = subprocess.run([os.path.join(TOP, "fdbtester"), "--where"], stdout=subprocess.PIPE, text=True, check=False)
    if found.returncode:
        raise UserFault(f"./fdbtester --where ended with status {found.returncode}")
    return found.stdout.rstrip("\n")


def command_of(text: str) -> list[str]:
    """Returns the words of a command, or says that there is no such program."""
    try:
        words = [text] if os.path.isfile(text) else shlex.split(text)
    except ValueError as fault:
        raise UserFault(f"--program {text}: {fault}") from fault
    if not words:
        raise UserFault("--program is empty")
    if shutil.which(words[0]) is None:
        raise UserFault(f"--program: {words[0]} can't be run: there is no such program")
    return words


class Tester:
    """A tester that is called with `run PREFIX API`, reads K lines and prints them."""

    def __init__(self, command: list[str], api: int, is_many: bool = False, seconds: float = SECONDS):
        self.command, self.api, self.is_many, self.seconds = command, api, is_many, seconds
        self.own = threading.local()
        self.processes: list[subprocess.Popen] = []

    def words(self) -> list[str]:
        return [*self.command, "run", "p", str(self.api)]

    def run(self, lines: bytes) -> Answer:
        return self.run_many(lines) if self.is_many else self.run_once(lines)

    def run_once(self, lines: bytes) -> Answer:
        try:
            ran = subprocess.run(self.words(), input=lines, capture_output=True, timeout=self.seconds, check=False)
        except subprocess.TimeoutExpired:
            return Answer(fault=f"no end after {self.seconds:g} seconds", status=-1)
        except OSError as fault:
            raise UserFault(f"--program: {fault.strerror}: {self.command[0]}") from fault
        fault = ""
        if ran.returncode:
            told = ran.stderr.decode("latin-1").splitlines()[-1:]
            fault = ": ".join([f"status {ran.returncode}", *(line[:TOLD] for line in told)])
        return answer_of(ran.stdout.decode("latin-1").split("\n"), fault, ran.returncode)

    def process(self) -> subprocess.Popen:
        """Returns the process of this thread, which is started where there is none."""
        found: Optional[subprocess.Popen] = getattr(self.own, "process", None)
        if found is None or found.poll() is not None:
            found = subprocess.Popen([*self.words(), "--many"], stdin=subprocess.PIPE, stdout=subprocess.PIPE, stderr=subprocess.DEVNULL)
            self.own.process = found
            self.processes.append(found)
        return found

    def run_many(self, lines: bytes) -> Answer:
        process = self.process()
        assert process.stdin and process.stdout
        timer = threading.Timer(self.seconds, process.kill)
        timer.start()
        try:
            process.stdin.write(lines + DOT)
            process.stdin.flush()
            found = []
            while (line := process.stdout.readline()) not in (DOT, b""):
                found.append(line.decode("latin-1").rstrip("\n"))
        except BrokenPipeError:
            line = b""
        finally:
            timer.cancel()
        if line == b"":
            return Answer(fault="the process that takes many scripts ended without an answer", status=-1)
        told = [it[2:] for it in found if it.startswith("! ")]
        return answer_of(found, told[0][:TOLD] if told else "", 1 if told else 0)

    def close(self) -> None:
        for process in self.processes:
            if process.stdin:
                process.stdin.close()
            process.wait()


def answer_of(lines: list[str], fault: str, status: int) -> Answer:
    pairs = frozenset(line for line in lines if line.startswith("K "))
    return Answer(pairs, fault, status, tuple(line for line in lines if line and not line.startswith(("K ", "! "))))
