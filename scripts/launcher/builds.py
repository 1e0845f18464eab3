"""The builds of the program: where they stand, whether a source is newer, and how they are made."""

import contextlib
import os
import re
import shutil
import signal
import subprocess
import sys
import tempfile
import time

BUILD_FAILED = 125
NO_TOOLCHAIN = 127

HERE = os.path.realpath(os.path.join(os.path.dirname(os.path.realpath(__file__)), "..", ".."))
CRATES = os.path.join(HERE, "crates")
# What a distribution has in place of the sources of the program.
PROVED_BY = os.path.join(HERE, "PROVED-BY")
PACKED = os.path.join(HERE, "program", "fdbtester")
# The parts of a crate that a build is made of.
PROVED_PARTS = ("src", "specs", "proofs")
TRIED_PARTS = ("src",)


def tell(text):
    """Writes text to standard error, where that takes it: the status tells what matters all the same."""
    try:
        sys.stderr.write(text)
        sys.stderr.flush()
    except OSError:
        # What the buffer still holds must not fail once more at the end.
        sys.stderr = open(os.devnull, "w")


def say(text):
    tell(f"fdbtester: {text}\n")


def is_distribution():
    return os.path.isfile(PROVED_BY)


def place():
    """Returns the folder where builds are made: FDBTESTER_BUILD, or the checkout itself."""
    return os.path.abspath(os.environ.get("FDBTESTER_BUILD") or HERE)


def built(*names):
    return os.path.join(place(), *names)


def where_kept(parts, *names):
    """Returns where a build of the program is kept: in the folder of builds, or in the checkout where one that is up to date is there alone."""
    here = os.path.join(HERE, *names)
    is_here = place() != HERE and not is_current("fdbtester", built(*names), parts) and is_current("fdbtester", here, parts)
    return here if is_here else built(*names)


def proved_path():
    return PACKED if is_distribution() else where_kept(PROVED_PARTS, "crates", "fdbtester", "out", "fdbtester")


def unproved_path():
    return where_kept(TRIED_PARTS, "out", "unproved")


def log_path():
    return built("out", "build.log")


# Whether a build is there and up to date.


def crates_below(top):
    """Returns the crates that a program is made of, each behind those that it stands on."""
    uses, found = {}, []
    with open(os.path.join(HERE, "crates.txt"), encoding="utf-8") as file:
        for line in file:
            head, colon, deps = line.partition("#")[0].partition(":")
            if colon:
                uses[head.split()[0]] = deps.replace(",", " ").split()

    def visit(crate):
        if crate in uses and crate not in found:
            for it in uses[crate]:
                visit(it)
            found.append(crate)

    visit(top)
    return found


def is_newer_below(folder, date):
    """Whether the folder, or a file or folder in it, is newer than the date."""
    for at, _, files in os.walk(folder):
        if any(os.stat(it).st_mtime_ns > date for it in [at, *(os.path.join(at, name) for name in files)]):
            return True
    return False


def is_current(top, build, parts):
    """Whether the build of a crate is there, and none of these parts of its crates is newer, folders included."""
    if not os.access(build, os.X_OK):
        return False
    date = os.stat(build).st_mtime_ns
    if os.stat(os.path.join(HERE, "crates.txt")).st_mtime_ns > date:
        return False
    return not any(is_newer_below(os.path.join(CRATES, crate, part), date) for crate in crates_below(top) for part in parts)


def is_proved():
    return is_distribution() or is_current("fdbtester", proved_path(), PROVED_PARTS)


def is_tried():
    return is_current("fdbtester", unproved_path(), TRIED_PARTS)


def are_requests_proved():
    """Whether the program that runs the cases of requests is proved, and no source of it is newer."""
    return is_current("examples", built("crates", "examples", "out", "examples"), PROVED_PARTS)


# Making a build.


def need_toolchain():
    if shutil.which("rt") is None:
        say("the program must be built, and the Rattle toolchain is missing: its command rt isn't on the PATH")
        sys.exit(NO_TOOLCHAIN)


def kit():
    """Returns the toolchain's own line, or None where there is none."""
    with contextlib.suppress(OSError):
        ran = subprocess.run(["rt", "version"], stdin=subprocess.DEVNULL, capture_output=True, text=True, check=False)
        if ran.returncode == 0:
            return ran.stdout.strip()
    return None


def commit():
    """Returns the commit of the checkout, with a mark where files differ from it, or `unknown`."""
    with contextlib.suppress(OSError):
        words = ["git", "-C", HERE, "describe", "--always", "--dirty", "--abbrev=12"]
        ran = subprocess.run(words, stdin=subprocess.DEVNULL, capture_output=True, text=True, check=False)
        if ran.returncode == 0:
            return ran.stdout.strip()
    return "unknown"


def fail(why):
    say(why)
    say("the build failed")
    sys.exit(BUILD_FAILED)


def copy_newer(file, to):
    """Copies a file where the copy isn't there, or has another size or date."""
    one = os.stat(file)
    with contextlib.suppress(FileNotFoundError):
        other = os.stat(to)
        if (one.st_size, one.st_mtime_ns) == (other.st_size, other.st_mtime_ns):
            return
    shutil.copy2(file, to)
    os.chmod(to, 0o644)


def mirror_folder(at, to):
    """Makes a folder have the files of another, and no further ones but in `out`."""
    os.makedirs(to, exist_ok=True)
    names = set(os.listdir(at)) - {"out"}
    for name in set(os.listdir(to)) - names - {"out"}:
        gone = os.path.join(to, name)
        shutil.rmtree(gone) if os.path.isdir(gone) else os.remove(gone)
    for name in names:
        one, other = os.path.join(at, name), os.path.join(to, name)
        mirror_folder(one, other) if os.path.isdir(one) else copy_newer(one, other)


def make_place():
    """Makes the folder of builds ready: it can be written to, and has the sources where it isn't the checkout."""
    to = place()
    try:
        os.makedirs(os.path.join(to, "out"), exist_ok=True)
        if to != HERE:
            mirror_folder(CRATES, os.path.join(to, "crates"))
            for name in ("crates.txt", "HANDLES"):
                copy_newer(os.path.join(HERE, name), os.path.join(to, name))
        with tempfile.TemporaryFile(dir=os.path.join(to, "out")):
            pass
    except OSError as error:
        hint = "" if to != HERE else "; FDBTESTER_BUILD=FOLDER names a folder for what is built"
        fail(f"nothing can be built in {to}: {error.strerror}{hint}")


class Progress:
    """A line that is overwritten at a terminal, and nothing elsewhere."""

    def __init__(self):
        self.is_shown, self.begun, self.width = sys.stderr.isatty(), time.monotonic(), 0

    def seconds(self):
        return time.monotonic() - self.begun

    def show(self, text):
        if self.is_shown:
            line = f"fdbtester: {text}, {self.seconds():.0f} s"
            print("\r" + line.ljust(self.width), end="", file=sys.stderr, flush=True)
            self.width = len(line)

    def clear(self):
        if self.is_shown and self.width:
            print("\r" + " " * self.width + "\r", end="", file=sys.stderr, flush=True)
            self.width = 0


@contextlib.contextmanager
def ending_orderly():
    """Has a signal end the work in it by SystemExit, so that what it began is stopped and removed."""

    def end(number, _):
        sys.exit(128 + number)

    before = {it: signal.signal(it, end) for it in (signal.SIGINT, signal.SIGTERM, signal.SIGHUP)}
    try:
        yield
    finally:
        for it, handler in before.items():
            signal.signal(it, handler)


def run_logged(words, folder, log, progress, what):
    """Runs a command with its output in the log, and returns its status."""
    with ending_orderly():
        started = subprocess.Popen(words, cwd=folder, stdin=subprocess.DEVNULL, stdout=log, stderr=subprocess.STDOUT)
        try:
            while True:
                progress.show(what)
                with contextlib.suppress(subprocess.TimeoutExpired):
                    return started.wait(1 if progress.is_shown else None)
        finally:
            progress.clear()
            stop(started)


def date_build(build, begun):
    """Gives the build the date at which its making began, since sources may have changed meanwhile, and notes the toolchain."""
    with open(build + ".kit", "w", encoding="utf-8") as file:
        print(kit() or "unknown", file=file)
    os.utime(build, ns=(begun, begun))


def now_in(folder):
    """Returns the date that a new file gets there."""
    with tempfile.NamedTemporaryFile(dir=folder) as file:
        return os.stat(file.name).st_mtime_ns


def in_words(seconds):
    minutes = int(seconds) // 60
    return f"{minutes} min {int(seconds) % 60} s" if minutes else f"{seconds:.0f} s"


def prove():
    """Proves the libraries, the lowest first, then the program, and runs it over no lines; says what was proved, and keeps the log."""
    need_toolchain()
    make_place()
    every = crates_below("fdbtester")
    begun, progress = now_in(built("out")), Progress()
    with open(log_path(), "w", encoding="utf-8") as log:
        print(f"commit {commit()}, {kit()}, begun {time.strftime('%Y-%m-%d %H:%M:%S')}", file=log, flush=True)
        for number, crate in enumerate(every):
            what = f"proving {crate}, {len(every) - number} of {len(every)} crates left"
            if not progress.is_shown:
                say(what)
            words = ["rt", "run", "--", "run", "p", "630"] if crate == "fdbtester" else ["rt", "lib"]
            print(f"== {crate}", file=log, flush=True)
            if run_logged(words, built("crates", crate), log, progress, what):
                show_end(crate)
                fail(f"{crate} was not proved; {log_path()} has all that was said")
        took = progress.seconds()
        told = f"proved fdbtester and the {len(every) - 1} crates below it, by {kit()}, from commit {commit()}, in {in_words(took)}"
        print(told, file=log)
    date_build(proved_path(), begun)
    say(f"{told}; the log is {log_path()}")


def show_end(crate):
    """Prints what the log says of the crate that failed."""
    with open(log_path(), encoding="utf-8", errors="replace") as log:
        print(log.read().rpartition(f"== {crate}\n")[2], file=sys.stderr, end="")


# The unproved build. `rt try` keeps no executable: its folder goes when the program in it has ended. So it is given a command that
# reads nothing and takes a second, and the executable gets a second name while that runs.

def found_in(room, name):
    """Returns the file of this name in a folder that rt try made below the room."""
    for at, _, files in os.walk(room):
        if name in files and at != room:
            return os.path.join(at, name)
    return None


def children_of(parent):
    """Yields the processes that this one started, with their words."""
    for name in filter(str.isdigit, os.listdir("/proc")):
        with contextlib.suppress(OSError, ValueError, IndexError):
            with open(f"/proc/{name}/stat", "rb") as file:
                if int(file.read().rpartition(b")")[2].split()[1]) != parent:
                    continue
            with open(f"/proc/{name}/cmdline", "rb") as file:
                yield int(name), file.read().split(b"\0")


def end_search_for_names(trying):
    """Ends what rt try starts beside the build: a check that looks for reserved names, which these sources haven't, for some 50 seconds of a
    processor. Returns whether it was found."""
    for pid, words in children_of(trying):
        if b"check" in words and b"no function" in words:
            with contextlib.suppress(OSError):
                os.kill(pid, signal.SIGKILL)
            return True
    return False


def stop(started):
    """Stops a command of rt that is still running; it removes what it made then."""
    started.terminate()
    with contextlib.suppress(subprocess.TimeoutExpired):
        started.wait(10)


def stage_in(room):
    """Returns what rt try does now."""
    if found_in(room, "program"):
        return "trying the program"
    return "translating the program" if found_in(room, "module.bc") else "reading the sources"


def keep_program(trying, room, progress):
    """Gives the executable a second name once it is there; waits for rt try to end, and returns its status."""
    kept, has_ended_search = os.path.join(room, "kept"), False
    while trying.poll() is None:
        has_ended_search = has_ended_search or end_search_for_names(trying.pid)
        program = None if os.path.exists(kept) else found_in(room, "program")
        if program:
            with contextlib.suppress(OSError):
                os.link(program, kept)
        progress.show(f"making an unproved build: {stage_in(room)}")
        time.sleep(0.1)
    return trying.returncode


def is_sound(program):
    """Whether the program that was kept runs."""
    how = {"stdin": subprocess.DEVNULL, "stdout": subprocess.DEVNULL, "stderr": subprocess.DEVNULL}
    with contextlib.suppress(OSError):
        return subprocess.run([program, "run", "p", "630"], check=False, **how).returncode == 0
    return False


def try_program(room, said, progress):
    """Has rt try build and run the program, keeps it in the room, and returns the status of rt try."""
    words = ["rt", "try", "--steps", "1", "--", "gen", "8"]
    how = {"cwd": built("crates", "fdbtester"), "env": {**os.environ, "TMPDIR": room}, "stdin": subprocess.DEVNULL}
    # In a group of its own, so that an interrupt reaches it once alone: a second one would leave its work behind.
    trying = subprocess.Popen(words, stdout=subprocess.DEVNULL, stderr=said, start_new_session=True, **how)
    try:
        return keep_program(trying, room, progress)
    finally:
        stop(trying)
        progress.clear()


def build_unproved():
    """Builds the sources unproved, and keeps the program."""
    with ending_orderly(), tempfile.TemporaryDirectory(prefix="try-", dir=built("out")) as room:
        begun, progress, kept = now_in(room), Progress(), os.path.join(room, "kept")
        with open(os.path.join(room, "said"), "w+b") as said:
            # Status 0 is the program's own. Each other may be rt's as well, and then it has said why.
            if try_program(room, said, progress):
                said.seek(0)
                fail(said.read().decode(errors="replace").rstrip())
        if not is_sound(kept):
            fail("the unproved build couldn't be kept: call once more")
        date_build(kept, begun)
        os.replace(kept + ".kit", unproved_path() + ".kit")
        os.replace(kept, unproved_path())
        say(f"made in {in_words(progress.seconds())}, and kept")


def program_at_hand():
    """Returns the proved program, or else the unproved build, which is made where it isn't up to date."""
    if is_proved():
        return proved_path()
    if is_tried():
        say("this is an unproved build; ./fdbtester --build proves and builds the program")
    else:
        need_toolchain()
        make_place()
        say("making an unproved build, in a minute or two; ./fdbtester --build proves and builds the program")
        build_unproved()
    return unproved_path()


def describe(name, build, is_up_to_date):
    """Prints whether the build is there and up to date, and what it was made by."""
    if not os.access(build, os.X_OK):
        print(f"{name}: none")
        return
    by = "a run of rt ci"
    with contextlib.suppress(OSError):
        with open(build + ".kit", encoding="utf-8") as file:
            by = file.read().strip()
    print(f"{name}: {'up to date' if is_up_to_date else 'older than its sources'}, by {by}")


def version():
    """Prints the version, and which builds are at hand, by which toolchain."""
    if is_distribution():
        with open(PROVED_BY, encoding="utf-8") as file:
            told = file.read()
        found = re.search(r"^commit: (.*)$", told, re.M)
        print(f"fdbtester {found[1] if found else 'unknown'}, API versions 630 and 500\n{told}", end="")
        return
    print(f"fdbtester {commit()}, API versions 630 and 500")
    describe("proved program", proved_path(), is_proved())
    describe("unproved build", unproved_path(), is_tried())
    print(f"toolchain: {kit() or 'none'}")
