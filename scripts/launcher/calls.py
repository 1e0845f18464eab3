"""What a call of the launcher does: its own commands, help, and the words of the program."""

import os
import signal
import subprocess
import sys
import tempfile

import builds
import pages
from judging import Fault, asks_for_help, judge
from running import at_terminal, run_call
from terminal import converse
from words import OWN, SHELL

WORDS_ARE_NO_COMMAND = 1
WRITE_FAULT = 5


def refuse(why):
    """Says what the program says of such words, and then what is wrong with them."""
    builds.say("usage")
    builds.say(f"{why}; ./fdbtester --help has all words")
    sys.exit(WORDS_ARE_NO_COMMAND)


def cases(program):
    return subprocess.run([os.path.join(builds.HERE, "tests", "cases"), program], check=False).returncode


def request_words():
    """Returns how the cases of requests for the database are run, and where: by their proved program where it is up to date, which runs all
    other cases too, or else by an unproved build, which is given these files alone and leaves out those of large cases."""
    folder = os.path.join(builds.CRATES, "examples")
    data = os.path.join(folder, "data")
    if builds.are_requests_proved():
        return [builds.built("crates", "examples", "out", "examples")], data
    files = sorted(it for it in os.listdir(data) if it.endswith(".requests") and not it.startswith("large"))
    given = [word for it in files for word in ("--data", f"{it}={os.path.join(data, it)}")]
    return ["rt", "try", "--steps", "1", "--seconds", "600", *given], builds.built("crates", "examples")


def try_all():
    """Runs all cases by the program at hand, those of requests beside the rest, and returns status 1 where one differs."""
    if builds.is_distribution():
        return cases(builds.proved_path())
    if not builds.are_requests_proved():
        builds.need_toolchain()
        builds.make_place()
    words, folder = request_words()
    with tempfile.TemporaryFile() as told:
        how = {"stdin": subprocess.DEVNULL, "stdout": told, "stderr": subprocess.DEVNULL}
        requesting = subprocess.Popen(words, cwd=folder, **how)
        status = cases(builds.program_at_hand())
        status = requesting.wait() or status
        told.seek(0)
        sys.stdout.buffer.write(told.read())
    return 1 if status else 0


def build():
    if not builds.is_proved():
        builds.prove()


def test():
    build()
    return cases(builds.proved_path())


def where():
    print(builds.program_at_hand())


def dist():
    from packing import make_distribution

    make_distribution()


def install(prefix):
    from packing import install_under

    install_under(prefix)


ALONE = {"--version": builds.version, "--build": build, "--dist": dist, "--try": try_all, "--test": test, "--where": where}


def own_command(words):
    """Does the command of the launcher that the words are, and returns its status; None where they are none."""
    if len(words) == 1 and words[0] in ALONE:
        return ALONE[words[0]]() or 0
    if words[:1] == ["--install"]:
        if len(words) != 2:
            refuse("--install wants one word, the folder that it is installed under")
        return install(words[1]) or 0
    if words and words[0] in [it.name for it in OWN]:
        refuse(f"{words[0]} stands alone")
    return None


def show_help(asked):
    """Prints a page, and ends."""
    try:
        print(pages.whole_page() if asked == "all" else pages.command_page(asked), flush=True)
    except OSError:
        os._exit(WRITE_FAULT)
    sys.exit(0)


def main(words):
    """Does what the words ask for, and ends with its status."""
    if sys.stderr is None:
        # It is closed, and what is said must not go to standard output.
        sys.stderr = open(os.devnull, "w")
    signal.signal(signal.SIGINT, signal.SIG_DFL)
    signal.signal(signal.SIGPIPE, signal.SIG_DFL)
    asked = asks_for_help(words)
    if asked:
        show_help(asked)
    status = own_command(words)
    if status is not None:
        sys.exit(status)
    try:
        call = judge(words)
    except Fault as fault:
        refuse(fault)
    if call.file is not None and not os.path.exists(call.file):
        refuse(f"{call.file}: there is no such file")
    if call.command.reads == SHELL and call.file is None and at_terminal(sys.stdin) and at_terminal(sys.stdout):
        sys.exit(converse(builds.program_at_hand()))
    run_call(call, builds.program_at_hand())
