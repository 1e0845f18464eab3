"""Judges the words of a call as the program does, before anything is built: which command they are, or what is wrong with them.

`crates/model_commands/specs/Grammar.antt` has the grammar. `tests/launcher` compares the two on many lists of words.
"""

import difflib
import os
from typing import NamedTuple, Optional

from words import COMMANDS, LONGEST_PREFIX, OWN, SHELL, Command, command_named, takes_file


class Fault(Exception):
    """What is wrong with the words, as a sentence without its full stop."""


class Call(NamedTuple):
    """The words of a call of the program: the command, the words that the program gets, and the file to be read, if one is named."""

    command: Command
    words: list
    file: Optional[str]


def near(word, known):
    """Returns a hint that names the nearest known word, if there is one."""
    found = difflib.get_close_matches(word.lower(), known, 1, 0.6)
    return f" (did you mean {found[0]}?)" if found else ""


def is_numeral(word):
    return word.isascii() and word.isdigit() and (word[0] != "0" or word == "0")


def check_number(word, least, most, what):
    """Raises a fault where the word isn't a number within these bounds."""
    if not is_numeral(word):
        raise Fault(f"{what} wants a number, in digits without a leading zero, and has {word!r}")
    if len(word) > 40 or not least <= int(word) <= most:
        raise Fault(f"{what} is {least:,} to {most:,}, and not {word}")


def check_operand(operand, word):
    """Raises a fault where the word isn't what this operand may be."""
    if operand.name == "PREFIX" and len(os.fsencode(word)) > LONGEST_PREFIX:
        raise Fault(f"the prefix has more than {LONGEST_PREFIX:,} bytes")
    if operand.values and word not in operand.values:
        raise Fault(f"the {operand.name} version {word!r} is none of those that are answered: {' and '.join(operand.values)}")
    if operand.least is not None:
        check_number(word, operand.least, operand.most, operand.name)


def option_in(command, word):
    """Returns the option that a word begins, and the value that is joined to it, if one is."""
    for option in command.options:
        if word == option.name:
            return option, None
        if word.startswith(option.name + "="):
            return option, word[len(option.name) + 1 :]
    known = [it.name for it in command.options]
    has = f"it has {', '.join(known)}" if known else "it has none"
    name = word.partition("=")[0]
    raise Fault(f"{command.name} has no option {name}: {has}{near(name, known)}")


def arguments_in(command, words):
    """Returns the positional words behind a command, each with its place among the words, and the values of its options."""
    placed, values, at = [], [], 0
    while at < len(words):
        word = words[at]
        at += 1
        if word == "--":
            placed += [(it, place) for place, it in enumerate(words[at:], at)]
            break
        if not word.startswith("-") or word == "-":
            placed.append((word, at - 1))
            continue
        option, value = option_in(command, word)
        if value is None:
            if at == len(words) or words[at].startswith("-"):
                raise Fault(f"behind {option.name} a number is missing")
            value = words[at]
            at += 1
        values.append((option, value))
    return placed, values


def check_options(values):
    """Raises a fault where an option is given twice, or its value isn't within its bounds."""
    seen = set()
    for option, value in values:
        if option in seen:
            raise Fault(f"{option.name} is given twice")
        seen.add(option)
        check_number(value, option.least, option.most, option.name)


def missing(command, count):
    """Returns what is missing where only so many positional words are there."""
    lacking = [f"{it.name} ({it.line})" for it in command.operands[count:]]
    return f"behind {command.name} {' and '.join(lacking)} {'is' if len(lacking) == 1 else 'are'} missing"


def call_of(command, words):
    """Returns the call that the words behind a command are."""
    if any(not is_utf8(it) for it in words):
        raise Fault("a word isn't UTF-8")
    if command.reads == SHELL and any(it.startswith("-") for it in words):
        raise Fault(f"{command.name} has no options")
    placed, values = arguments_in(command, words)
    wanted = len(command.operands)
    if len(placed) < wanted:
        raise Fault(missing(command, len(placed)))
    if len(placed) > wanted + takes_file(command):
        raise Fault(f"behind {command.name} the word {placed[wanted + takes_file(command)][0]!r} is one too many")
    for operand, (word, _) in zip(command.operands, placed):
        check_operand(operand, word)
    check_options(values)
    if len(placed) == wanted:
        return Call(command, [command.name, *words], None)
    file, place = placed[wanted]
    return Call(command, [command.name, *words[:place], *words[place + 1 :]], file)


def is_utf8(word):
    try:
        os.fsencode(word).decode()
    except UnicodeDecodeError:
        return False
    return True


def judge(words):
    """Returns the call that the words are, or raises the fault that they have."""
    if not words:
        raise Fault("a command is missing")
    command = command_named(words[0])
    if command is None:
        known = [it.name for it in COMMANDS] + [it.name for it in OWN] + ["help"]
        what = "option" if words[0].startswith("-") else "command"
        if words[0].startswith("-") and words[0] in known:
            raise Fault(f"{words[0]} stands alone")
        raise Fault(f"there is no {what} {words[0]!r}{near(words[0], known)}")
    return call_of(command, words[1:])


def asks_for_help(words):
    """Returns the command whose page is asked for, or `all`, or None where no help is."""
    if words in (["--help"], ["-h"], ["help"]):
        return "all"
    if len(words) == 2 and words[0] in ("help", "--help", "-h") and command_named(words[1]):
        return words[1]
    if len(words) >= 2 and command_named(words[0]) and any(it in ("--help", "-h") for it in words[1 : until_separator(words)]):
        return words[0]
    return None


def until_separator(words):
    return words.index("--") if "--" in words else len(words)
