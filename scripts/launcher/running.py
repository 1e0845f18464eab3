"""Runs the program: over standard input as it is, or over a file, whose instruction text is assembled first."""

import os
import signal
import stat
import subprocess
import sys

from builds import HERE, say, tell
from faults import excerpt_of
from words import LINES, TEXT

sys.path.insert(0, os.path.join(HERE, "scripts"))

from instruction_text import MOST_BYTES, stripped  # noqa: E402

READ_FAULT = 4


class Input:
    """What the program reads: the bytes, the name of where they came from, and the number in it of each line, where lines were taken out."""

    def __init__(self, given, name, numbers=None):
        self.given, self.name, self.numbers = given, name, numbers

    def line_before(self, number):
        """Returns the number that a line has where it came from."""
        return self.numbers[number - 1] if self.numbers and number <= len(self.numbers) else number


def name_of(call):
    return call.file if call.file is not None else "standard input"


def read_whole(call):
    """Returns the bytes of the file that the call names, or of standard input, as many as an input may have and one more."""
    try:
        if call.file is None:
            return sys.stdin.buffer.read(MOST_BYTES + 1)
        with open(call.file, "rb") as file:
            return file.read(MOST_BYTES + 1)
    except OSError as error:
        say("read fault")
        say(f"{name_of(call)}: {error.strerror}")
        sys.exit(READ_FAULT)


def without_comments(given, name):
    """Returns the text without its comments and empty lines, and says which were taken out."""
    if len(given) > MOST_BYTES:
        return Input(given, name)
    text, numbers = stripped(given)
    left_out = given.count(b"\n") + (not given.endswith(b"\n")) - len(numbers) if given else 0
    if not left_out:
        return Input(given, name)
    say(f"{name}: {left_out} comments and empty lines are left out")
    return Input(text, name, numbers)


def order_and_script(given):
    """Returns the O lines at the front, and what stands behind them."""
    at = 0
    while given.startswith(b"O ", at):
        feed = given.find(b"\n", at)
        at = len(given) if feed < 0 else feed + 1
    return given[:at], given[at:]


def is_text(script):
    """Whether a script is instruction text, by its first byte: K lines have neither sections, nor comments, nor empty lines."""
    return script[:1] == b"@" or script[:1] in (b"#", b"\n") and stripped(script)[0][:1] == b"@"


def feeding(given):
    """Returns a file in memory that holds the bytes, for the program to read."""
    file = os.fdopen(os.memfd_create("fdbtester"), "w+b")
    file.write(given)
    file.seek(0)
    return file


def assembled_by(program, text):
    """Assembles a text by `asm`, and returns its K lines; ends with the status of `asm` where it refuses the text."""
    ran = run_child([program, "asm"], feeding(text.given), subprocess.PIPE)
    if ran.status:
        end_as(ran, text, TEXT)
    return ran.out


class Ran:
    """How a child ended, and what it wrote where that was asked for."""

    def __init__(self, status, out, err):
        self.status, self.out, self.err = status, out, err


def run_child(words, given, out):
    """Runs the program, hands signals on to it, and shows its standard error as it comes."""
    child = subprocess.Popen(words, stdin=given, stdout=out, stderr=subprocess.PIPE)
    for it in (signal.SIGINT, signal.SIGTERM, signal.SIGHUP, signal.SIGQUIT):
        signal.signal(it, lambda number, _: child.send_signal(number))
    wrote, said = b"", b""
    if out == subprocess.PIPE:
        wrote, said = child.communicate()
        show(said)
    else:
        for line in child.stderr:
            show(line)
            said = (said + line)[-1000:]
    status = child.wait()
    for it in (signal.SIGINT, signal.SIGTERM, signal.SIGHUP, signal.SIGQUIT):
        signal.signal(it, signal.SIG_DFL)
    return Ran(status, wrote, said)


def show(said):
    """Writes what the program said to standard error, byte for byte."""
    try:
        sys.stderr.buffer.write(said)
        sys.stderr.buffer.flush()
    except OSError:
        sys.stderr = open(os.devnull, "w")


def end_as(ran, read, form):
    """Shows the line that a fault is in, where the program told one; then ends as the program did."""
    if ran.status == 2:
        excerpt = excerpt_of(ran.err, read, form)
        if excerpt:
            tell(excerpt + "\n")
    if ran.status < 0:
        # As the program ended, by the same signal.
        os.kill(os.getpid(), -ran.status)
    sys.exit(ran.status)


def is_file(stream):
    """Whether a stream is a file that can be read again."""
    try:
        return stat.S_ISREG(os.fstat(stream.fileno()).st_mode)
    except (OSError, ValueError, AttributeError):
        return False


def at_terminal(stream):
    return stream is not None and stream.isatty()


def hand_over(call, program):
    """Becomes the program."""
    if call.command.reads and at_terminal(sys.stdin):
        say(f"{call.command.name} waits for {'text' if call.command.reads == TEXT else 'lines'} on standard input; Ctrl-D ends them")
    sys.stderr.flush()
    os.execv(program, [program, *call.words])


def text_of(call, program):
    """Returns what the program reads of a file, or of a text."""
    given, name = read_whole(call), name_of(call)
    if call.command.reads == TEXT:
        return without_comments(given, name), TEXT
    if call.command.reads != LINES:
        return Input(given, name), call.command.reads
    order, script = order_and_script(given)
    if not is_text(script):
        return Input(given, name), LINES
    say(f"{name} is instruction text: it is assembled first")
    front = order.count(b"\n")
    text = without_comments(script, name)
    if front:
        text.numbers = [it + front for it in text.numbers or range(1, script.count(b"\n") + 2)]
    return Input(order + assembled_by(program, text), f"the K lines of {name}"), LINES


def run_call(call, program):
    """Runs the program with the words of the call, and ends with its status."""
    reads_text = call.command.reads == TEXT and sys.stdin is not None and not at_terminal(sys.stdin)
    if call.command.reads is None or call.file is None and not reads_text and not is_file(sys.stdin):
        hand_over(call, program)
    if call.file is None and not reads_text:
        begin = os.lseek(0, 0, os.SEEK_CUR)
        ran = run_child([program, *call.words], None, None)
        end_as(ran, again_from(begin) if ran.status == 2 else None, call.command.reads)
    read, form = text_of(call, program)
    ran = run_child([program, *call.words], feeding(read.given), None)
    end_as(ran, read, form)


def again_from(begin):
    """Reads standard input again, from where the program began."""
    return Input(os.pread(0, MOST_BYTES + 1, begin), "standard input")
