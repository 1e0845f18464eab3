"""How a tester answers many scripts in one process: K lines and a line `.` on standard input, its pairs and a line `.` back.

A line of the answer that begins with `!` says why a script has none: the tester's status, or what it says.
"""

import sys
from typing import Callable, Iterator

DOT = b".\n"


def scripts_in(lines: Iterator[bytes]) -> Iterator[bytes]:
    """Yields the scripts, each as its lines."""
    found: list[bytes] = []
    for line in lines:
        if line == DOT:
            yield b"".join(found)
            found = []
        else:
            found.append(line)


def serve(answer: Callable[[bytes], tuple[int, list[str]]]) -> None:
    """Answers scripts by a function that returns a status and lines."""
    for script in scripts_in(iter(sys.stdin.buffer.readline, b"")):
        try:
            status, lines = answer(script)
            told = lines if status == 0 else [*lines, f"! status {status}"]
        except Exception as fault:  # one script that fails isn't to end the others
            told = [f"! {type(fault).__name__}: {fault}".replace("\n", " ")]
        sys.stdout.write("".join(line + "\n" for line in told) + ".\n")
        sys.stdout.flush()
