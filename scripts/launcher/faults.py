"""Shows the line that a fault of the input is in, with a mark under its place and what was wanted there."""

import os
import re
import sys

from builds import HERE
from words import EVENTS, LINES, PAIRS, TEXT

sys.path.insert(0, os.path.join(HERE, "scripts"))

from instruction_text import wanted_in_text  # noqa: E402

WIDEST = 100  # bytes of a line that are shown

TOLD = re.compile(rb"^fdbtester: line (\d+): (bad at (\d+)|too long|too many|not an instruction)$", re.M)

KINDS = {
    LINES: r"`K key\=value`, or before all of these, for a replay, `O ` and the number of a machine",
    PAIRS: r"`K key\=value`",
    EVENTS: r"`W key`, `K key\=value` or `C key`",
}
BYTE = r"a byte from 20 to 7E as it is, `\\`, or for any other `\x` and two lower-case digits"
NOT_AN_INSTRUCTION = "the pair is no instruction there: disasm takes the instructions of each machine from 0 on and together, and no other pairs"
TOO_LONG = "the line passes a limit: 440,004 bytes a line, 10,000 a key, 100,000 a value or a packed instruction"
TOO_MANY = "the input passes a limit: 67,108,864 bytes, 1,000,000 lines or instructions, 10,000 W lines"


def wanted_in_lines(line, place, form):
    """Returns what was wanted at a place of a line of pairs or events."""
    if place == 0 or place == 1:
        return f"a line is {KINDS[form]}" if place == 0 else "a space behind the letter"
    if line[:2] == b"O ":
        return "the number of a machine, in digits without a leading zero, and no more"
    if place == len(line) and line[:1] == b"K" and b"\\=" not in line:
        return r"`\=` between the key and the value"
    if place == len(line):
        return "a line feed at the end of the line"
    if line[:2] == b"K " and place == 2:
        return r"a key that is no system key: its first byte isn't \xff; " + BYTE
    return BYTE


def wanted_at(line, place, form, read, number):
    """Returns what was wanted at a place, or None where it isn't known."""
    if form == TEXT:
        return wanted_in_text(read.given, number, place)
    if line[:1] == b"@":
        return "K lines: this is instruction text, which is assembled where its file is a word, as ./fdbtester run p 630 FILE"
    return wanted_in_lines(line, place, form) if form in KINDS else None


def shown(line):
    """Returns bytes as they can be printed, one character for each."""
    return "".join(chr(it) if 0x20 <= it < 0x7F else "?" for it in line)


def window_of(line, place):
    """Returns the part of a line round a place, and where the place lies in it."""
    begin = max(0, min(place - WIDEST // 2, len(line) - WIDEST))
    front = "... " if begin else ""
    back = " ..." if begin + WIDEST < len(line) else ""
    return front + shown(line[begin : begin + WIDEST]) + back, len(front) + place - begin


def line_of(given, number):
    """Returns a line by its number, counted from 1, or None where there is none: the place behind the last one is an empty line."""
    lines = given.split(b"\n", number)
    return lines[number - 1] if number <= len(lines) else None


def excerpt_of(said, read, form):
    """Returns the excerpt for the fault that was told, or None where none was."""
    told = TOLD.search(said)
    if not told:
        return None
    number, what = int(told[1]), told[2]
    line = line_of(read.given, number)
    if line is None:
        return None
    place = int(told[3]) if told[3] else None
    label = str(read.line_before(number))
    text, at = window_of(line, place or 0)
    room = " " * len(label)
    out = [f"{room}--> {read.name}, line {label}" + (f", byte {place}" if place is not None else ""), f"{room} |", f"{label} | {text}"]
    if place is None:
        why = {b"too long": TOO_LONG, b"too many": TOO_MANY}.get(what, NOT_AN_INSTRUCTION)
        return "\n".join([*out, f"{room} = {why}"])
    wanted = wanted_at(line, place, form, read, number)
    return "\n".join([*out, f"{room} | {' ' * at}^" + (f" wanted: {wanted}" if wanted else "")])
