"""The one table of words: the commands of the program and of the launcher, their options with the ranges, and the lines of the shell.

Hints on wrong words, the pages of help, the completions and the manual page are made from it.
"""

from typing import NamedTuple, Optional, Tuple

# What a command reads on standard input.
LINES = "lines"  # K lines of a script, or instruction text, which is assembled first
TEXT = "text"
EVENTS = "events"
PAIRS = "pairs"
SHELL = "shell"

LONGEST_PREFIX = 1_000
VERSIONS = ("630", "500")


class Operand(NamedTuple):
    """A word that must stand behind a command."""

    name: str
    line: str
    least: Optional[int] = None  # of a number
    most: Optional[int] = None
    values: Tuple[str, ...] = ()


class Option(NamedTuple):
    """An option with the number that it takes."""

    name: str
    least: int
    most: int
    line: str


class Command(NamedTuple):
    """A command of the program: the words behind its name, what it reads, and its line of help with what else its page says."""

    name: str
    operands: Tuple[Operand, ...]
    options: Tuple[Option, ...]
    reads: Optional[str]
    line: str
    page: Tuple[str, ...] = ()
    examples: Tuple[str, ...] = ()


class Own(NamedTuple):
    """A command of the launcher, which stands alone, or before its one operand."""

    name: str
    operand: str
    line: str


PREFIX = Operand("PREFIX", f"the prefix of the instructions, at most {LONGEST_PREFIX:,} bytes")
API = Operand("API", f"the version of the API: {' or '.join(VERSIONS)}", values=VERSIONS)
WORKERS = Operand("N", "how many workers there are, 1 to 30", 1, 30)

SEED = Option("--seed", 0, 2**64 - 1, "the seed of the random words, a number of 64 bits; 0 where none is given")
POLLS = Option("--polls", 1, 100_000, "how many polls one wait has, 1 to 100,000; 10,000 where none is given")
WINDOW = Option("--window", 1, 1_000_000, "how many versions before the last one stay readable, 1 to 1,000,000; all where none is given")
RUN_OPTIONS = (SEED, POLLS, WINDOW)

COMMANDS = (
    Command(
        "run",
        (PREFIX, API),
        RUN_OPTIONS,
        LINES,
        "runs the instructions of the prefix, and writes the dump",
        ("Each machine runs in a thread of its own. docs/guide/scripts.md says how to read the dump, and scripts/explain.py explains it.",),
        ("./fdbtester run p 630 crates/examples/data/first.kv", "./fdbtester run p 630 --seed 7 < mine.kv > mine.dump"),
    ),
    Command(
        "replay",
        (PREFIX, API),
        RUN_OPTIONS,
        LINES,
        "runs the instructions by the order whose lines stand before the script",
        ("The order is the O lines of a dump. Requests are taken in that order, so the same dump comes again.",),
        ("(grep '^O ' first.dump; cat mine.kv) | ./fdbtester replay p 630 > second.dump",),
    ),
    Command(
        "gen",
        (WORKERS,),
        (),
        None,
        "runs a script made for N workers, 1 to 30, and writes its summary",
        ("It reads nothing, and its summary of seven counts is always the same.",),
        ("./fdbtester gen 8",),
    ),
    Command(
        "watch",
        (),
        (),
        EVENTS,
        "writes at which commit each watch of the W, C and K lines fires",
        (r"W key makes a watch, K key\=value and C key are commits 1, 2 and so on, over an empty database.",),
        (r"printf '%s\n' 'W k' 'K k\=a' 'C k' | ./fdbtester watch",),
    ),
    Command(
        "asm",
        (),
        (),
        TEXT,
        "writes the K lines of instruction text",
        ("docs/reference/text.md has the text. Empty lines, and lines that begin with #, are taken out first.",),
        ("./fdbtester asm mine.fdbt | ./fdbtester run p 630",),
    ),
    Command(
        "disasm",
        (),
        (),
        PAIRS,
        "writes the instruction text of K lines",
        ("docs/reference/text.md has the text.",),
        ("./fdbtester disasm crates/examples/data/first.kv",),
    ),
    Command(
        "shell",
        (),
        (),
        SHELL,
        "takes commands in the manner of fdbcli, a line each, on an empty database",
        ("At a terminal this launcher shows a prompt, keeps the lines of the session for the arrow keys, and has commands of its own.",),
        ("./fdbtester shell", r"printf 'set a 1\nget a\n' | ./fdbtester shell"),
    ),
)

OWN = (
    Own("--help", "", "prints this page; also -h, help, and behind a command, or before one as help run, that command's page"),
    Own("--version", "", "prints the version, and which builds are at hand, by which toolchain"),
    Own("--build", "", "proves and builds the program: some hundred minutes of a processor from nothing; keeps the log"),
    Own("--dist", "", "proves and packs the program: a folder and a .tar.gz that run on any x86-64 Linux without the toolchain"),
    Own("--install", "PREFIX", "puts the same under PREFIX, as /usr/local"),
    Own("--try", "", "runs each case that stands as data by the program at hand, and says how many passed"),
    Own("--test", "", "runs the program's own cases by the proved program, which is built first where it isn't up to date"),
    Own("--where", "", "prints where the program at hand stands, which is built unproved first where none is up to date"),
)


class ShellLine(NamedTuple):
    """A line of the shell."""

    name: str
    tokens: str
    line: str
    is_own: bool = False  # whether it is the launcher's, at a terminal alone


SHELL_LINES = (
    ShellLine("begin", "", "begins a transaction"),
    ShellLine("commit", "", "commits the transaction, and prints the version, or -1 where nothing was written"),
    ShellLine("reset", "", "begins the transaction anew"),
    ShellLine("get", "KEY", "prints the value of the key"),
    ShellLine("getrange", "BEGIN END [N]", "prints the pairs from BEGIN up to END, END left out: 25 at most, or N, from 1 to 2147483647"),
    ShellLine("set", "KEY VALUE", "sets the key; outside a transaction it commits, too"),
    ShellLine("clear", "KEY", "clears the key; outside a transaction it commits, too"),
    ShellLine("clearrange", "BEGIN END", "clears the keys from BEGIN up to END, END left out; outside a transaction it commits, too"),
    ShellLine("qpush", "QUEUE VALUE", "adds the value at the end of the queue"),
    ShellLine("qpop", "QUEUE", "takes the first value of the queue, and prints it, or `empty`"),
    ShellLine("madd", "MULTIMAP KEY VALUE", "adds one to the count of the pair in the multimap"),
    ShellLine("msub", "MULTIMAP KEY VALUE", "takes one from the count of the pair: at 0 the pair goes, and one that is absent stays so"),
    ShellLine("mget", "MULTIMAP KEY", "prints each value of the key with its count, or `empty`"),
    ShellLine("bwrite", "BYTES AT PIECE", "replaces the bytes of the byte string from a place on, up to its end or past it"),
    ShellLine("bread", "BYTES FROM N", "prints the bytes from a place on, N at most"),
    ShellLine("bsize", "BYTES", "prints how many bytes there are"),
    ShellLine("help", "[LINE]", "prints the lines, or what one of them does", True),
    ShellLine("source", "FILE", "takes the lines of a file as if they were typed", True),
    ShellLine("exit", "", "ends the shell; so does Ctrl-D", True),
    ShellLine("quit", "", "ends the shell", True),
)

STATUSES = (
    (0, "each machine ran all its instructions; or the summary, the firings, the lines or the text were written; or the shell answered all lines"),
    (1, "the words are no command; of --try and --test: a case differs"),
    (2, "a line of the input, or the order of a replay, has a fault, or a pair is no instruction"),
    (3, "a machine stopped earlier; the dump was written"),
    (4, "reading failed"),
    (5, "writing failed"),
    (6, "memory ran out"),
    (125, "a build failed: nothing was run"),
    (127, "the Rattle toolchain, whose command is rt, isn't on the PATH: nothing was run"),
    (134, "the unproved build stopped itself at such a fault; rt try -- WORDS in crates/fdbtester says where"),
)


def command_named(name):
    """Returns the command of this name, or None."""
    return next((it for it in COMMANDS if it.name == name), None)


def option_form(option):
    return f"{option.name} N"


def synopsis(command):
    """Returns how a command is called, its file left out."""
    words = [command.name, *(it.name for it in command.operands), *(f"[{option_form(it)}]" for it in command.options)]
    return " ".join(words)


def takes_file(command):
    """Whether a file may stand as a further word, to be read in place of standard input."""
    return command.reads is not None
