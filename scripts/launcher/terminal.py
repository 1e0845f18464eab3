"""The shell at a terminal: a prompt, lines that can be edited and completed, and lines of the launcher's own."""

import os
import signal
import subprocess
import sys

from builds import say
from pages import shell_help
from words import SHELL_LINES

PROMPT = "fdb> "
# The answer to an empty line, which is no command. No later line of another answer is this one.
END = b"ERROR: bad command\n"
DEEPEST = 10  # files that `source` takes, one in the other

NAMES = [it.name for it in SHELL_LINES]
PLAIN = set(range(0x21, 0x7F)) - {ord("\\")}


class BadQuote(Exception):
    """A quoted token is wrong."""


def escaped(string):
    """Returns the printable form of bytes as a token: a space is an escape too, and no byte at all is `\\e`."""
    return "".join(chr(it) if it in PLAIN else "\\\\" if it == ord("\\") else f"\\x{it:02x}" for it in string) or "\\e"


def quoted_token(line, at):
    """Reads a token in quotes, and returns the token that it stands for, and where it ends. A backslash stands before a quote or a backslash,
    or begins an escape `\\x` with two digits."""
    found = bytearray()
    while line[at : at + 1] != '"':
        if line.startswith(('\\"', "\\\\"), at):
            found += line[at + 1].encode()
            at += 2
        elif line.startswith("\\x", at):
            found += byte_of(line[at + 2 : at + 4])
            at += 4
        elif at >= len(line) or line[at] == "\\":
            raise BadQuote("a quote is missing" if at >= len(line) else 'behind a backslash in quotes stands ", a backslash, or x and two digits')
        else:
            found += line[at].encode(errors="surrogateescape")
            at += 1
    if line[at + 1 : at + 2] not in ("", " "):
        raise BadQuote("behind a quoted token a space is missing")
    return escaped(bytes(found)), at + 1


def byte_of(digits):
    try:
        return bytes.fromhex(digits) if len(digits) == 2 else b""
    except ValueError:
        raise BadQuote("behind \\x stand two hexadecimal digits") from None


def unquoted(line):
    """Returns the line with each token that begins with a quote in the form that the program takes."""
    out, at = "", 0
    while at < len(line):
        if line[at] == '"' and (at == 0 or line[at - 1] == " "):
            token, at = quoted_token(line, at + 1)
            out += token
        else:
            out += line[at]
            at += 1
    return out


class Session:
    """The program's shell over two pipes. It gets each line with an empty one behind it, whose answer tells where that of the line ends."""

    def __init__(self, program):
        how = {"stdin": subprocess.PIPE, "stdout": subprocess.PIPE}
        # In a session of its own, so that Ctrl-C doesn't reach it.
        self.shell = subprocess.Popen([program, "shell"], start_new_session=True, **how)

    def ask(self, line):
        """Sends a line, prints its answer, and returns whether the program goes on. Ctrl-C waits until the whole answer was read."""
        typed = signal.signal(signal.SIGINT, signal.SIG_IGN)
        try:
            return self.answered(line)
        finally:
            signal.signal(signal.SIGINT, typed)

    def answered(self, line):
        try:
            self.shell.stdin.write(line.encode(errors="surrogateescape") + b"\n\n")
            self.shell.stdin.flush()
        except BrokenPipeError:
            return False
        first = True
        for answer in self.shell.stdout:
            if answer == END and not first:
                return True
            sys.stdout.write(answer.decode(errors="replace"))
            first = False
        return False

    def end(self):
        """Ends the program, and returns its status."""
        try:
            self.shell.stdin.close()
        except BrokenPipeError:
            pass
        status = self.shell.wait()
        return status if status >= 0 else 128 - status


def take_file(session, name, depth):
    """Takes the lines of a file as if they were typed, and returns whether the shell goes on."""
    try:
        with open(name, encoding="utf-8", errors="surrogateescape") as file:
            lines = file.read().split("\n")
    except OSError as error:
        say(f"source {name}: {error.strerror}")
        return True
    if lines[-1] == "":
        lines.pop()
    if depth == DEEPEST:
        say(f"source {name}: more than {DEEPEST} files, one in the other")
        return True
    return all(take(session, line, depth + 1) for line in lines)


def take(session, line, depth=0):
    """Does what one line asks for, and returns whether the shell goes on."""
    words = line.split()
    if not words:
        return True
    if words[0] in ("exit", "quit") and len(words) == 1:
        return False
    if words[0] == "help" and len(words) <= 2:
        print(shell_help(words[1:]))
        return True
    if words[0] == "source":
        name = line.partition("source")[2].strip()
        if not name:
            say("source wants a file")
            return True
        return take_file(session, os.path.expanduser(name), depth)
    try:
        return session.ask(unquoted(line))
    except BadQuote as wrong:
        say(wrong)
        return True


def complete_files(begun):
    """Returns the names of files that begin so."""
    folder, _, front = begun.rpartition("/")
    try:
        names = sorted(it for it in os.listdir((folder + "/") if "/" in begun else ".") if it.startswith(front))
    except OSError:
        return []
    paths = [f"{folder}/{it}" if "/" in begun else it for it in names]
    return [it + "/" if os.path.isdir(it) else it for it in paths]


def completions(before, begun):
    """Returns what may stand for a word that is half typed, behind what was typed before it."""
    if not before.strip():
        return [it + " " for it in NAMES if it.startswith(begun)]
    if before.strip() == "help":
        return [it for it in NAMES if it.startswith(begun)]
    return complete_files(begun) if before.strip() == "source" else []


def set_up_editing():
    """Has the lines edited and completed, where Python was built with that."""
    try:
        import readline
    except ImportError:
        return
    readline.set_completer_delims(" ")
    readline.set_completer(lambda begun, number: ([*completions(readline.get_line_buffer()[: readline.get_begidx()], begun), None])[number])
    readline.parse_and_bind("bind ^I rl_complete" if "libedit" in (readline.__doc__ or "") else "tab: complete")


def typed_lines():
    """Yields the lines that are typed. Ctrl-C takes back the one that is half typed, and Ctrl-D ends them."""
    while True:
        try:
            yield input(PROMPT)
        except KeyboardInterrupt:
            print()
        except EOFError:
            return


def converse(program):
    """Answers the lines that are typed, and returns the program's status."""
    signal.signal(signal.SIGINT, signal.default_int_handler)
    set_up_editing()
    session = Session(program)
    for line in typed_lines():
        try:
            if not take(session, line):
                break
            sys.stdout.flush()
        except KeyboardInterrupt:
            print()
    return session.end()
