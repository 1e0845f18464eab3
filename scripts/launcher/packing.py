"""Packs the proved program for machines without the toolchain, and installs it."""

import hashlib
import os
import re
import shutil
import subprocess
import sys
import tarfile
import tempfile

import builds
from builds import HERE, fail, say

# What a distribution has, beside the program: files and folders of the checkout. One that isn't there is left out.
PARTS = (
    "fdbtester",
    "scripts",
    "conformance",
    "docs",
    "man",
    "completions",
    "editors",
    "README.md",
    "CONTRIBUTING.md",
    "crates/examples/data",
    "tests/cases",
    "tests/shell",
    "bench/README.md",
)
LEFT_OUT = ("__pycache__", ".git")

# Where --install puts what a system looks for in a folder of its own, as links into the distribution.
LINKS = (
    ("bin/fdbtester", "fdbtester"),
    ("share/man/man1/fdbtester.1", "man/fdbtester.1"),
    ("share/bash-completion/completions/fdbtester", "completions/fdbtester.bash"),
    ("share/zsh/site-functions/_fdbtester", "completions/_fdbtester"),
    ("share/vim/vimfiles/syntax/fdbt.vim", "editors/vim/syntax/fdbt.vim"),
    ("share/vim/vimfiles/ftdetect/fdbt.vim", "editors/vim/ftdetect/fdbt.vim"),
)
HOME = "lib/fdbtester"

PASSED = re.compile(r"^\d+ passed, (\d+) failed.*$", re.M)


def sum_of(path):
    with open(path, "rb") as file:
        return hashlib.sha256(file.read()).hexdigest()


def text_of(path):
    try:
        with open(path, encoding="utf-8", errors="replace") as file:
            return file.read()
    except OSError:
        return ""


def last_line(told):
    """Returns the last line that says how many passed, where none failed; else None."""
    found = list(PASSED.finditer(told))
    return found[-1][0] if found and found[-1][1] == "0" else None


def gate_line():
    """Returns what the last whole gate, .ci/run, said of this very commit at its end; where there was none, what --build said of its proofs."""
    noted = text_of(os.path.join(HERE, "out", "gate")).splitlines()
    if len(noted) == 2 and noted[0] == builds.commit() and not noted[0].endswith("-dirty") and last_line(noted[1]):
        return noted[1]
    proved = [it for it in text_of(builds.log_path()).splitlines() if it.startswith("proved fdbtester")]
    return f"none was run of this commit; --build {proved[-1]}" if proved else "none was run of this commit"


def toolchain_folder():
    """Returns the toolchain's folder."""
    return os.path.dirname(os.path.dirname(os.path.realpath(shutil.which("rt"))))


def link(to):
    """Links the object file of the proved program with the toolchain's C libraries and the system's, so that it needs no library where it runs."""
    libraries = [os.path.join(toolchain_folder(), "c", name) for name in ("libos_c.a", "liblibc_c.a")]
    flags = ["-static", "-Wl,--gc-sections", "-Wl,-z,relro,-z,now,-z,noexecstack"]
    try:
        ran = subprocess.run(["cc", *flags, "-o", to, builds.proved_path() + ".o", *libraries], capture_output=True, text=True, check=False)
    except FileNotFoundError:
        fail("a C compiler with a static C library is needed, cc -static: gcc and libc6-dev on Debian")
    if ran.returncode:
        fail(f"cc -static failed:\n{ran.stderr.rstrip()}")


def cases_of(program):
    """Runs the cases by the program that was linked, and returns how many passed."""
    ran = subprocess.run([os.path.join(HERE, "tests", "cases"), program], capture_output=True, text=True, check=False)
    if ran.returncode:
        fail(f"the program that was linked statically differs:\n{ran.stdout.rstrip()}")
    return ran.stdout.strip().splitlines()[-1]


def without(folder, names):
    return [it for it in names if it in LEFT_OUT]


def copy_parts(to):
    """Copies what a distribution has beside the program."""
    for part in PARTS:
        one, other = os.path.join(HERE, part), os.path.join(to, part)
        os.makedirs(os.path.dirname(other), exist_ok=True)
        if os.path.isdir(one):
            shutil.copytree(one, other, ignore=without)
        elif os.path.isfile(one):
            shutil.copy2(one, other)


def proved_by(program):
    """Returns the text of PROVED-BY."""
    rows = [
        ("kit", builds.kit()),
        ("commit", builds.commit()),
        ("gate", gate_line()),
        ("proved program", f"sha256 {sum_of(builds.proved_path())}"),
        ("its object file", f"sha256 {sum_of(builds.proved_path() + '.o')}"),
        ("program/fdbtester", f"sha256 {sum_of(program)}, that object file linked statically: {linker()}"),
        ("tried", f"{cases_of(program)}, by program/fdbtester"),
    ]
    return "".join(f"{name}: {said}\n" for name, said in rows)


def linker():
    ran = subprocess.run(["cc", "--version"], capture_output=True, text=True, check=False)
    return ran.stdout.splitlines()[0] if ran.stdout else "cc"


def make_folder(to):
    """Makes the folder of a distribution."""
    builds.need_toolchain()
    if not builds.is_proved():
        builds.prove()
    if not os.path.isfile(builds.proved_path() + ".o"):
        fail(f"{builds.proved_path()}.o isn't there: remove {builds.proved_path()}, and call --build")
    builds.make_place()
    os.makedirs(os.path.join(to, "program"))
    link(os.path.join(to, "program", "fdbtester"))
    copy_parts(to)
    text = proved_by(os.path.join(to, "program", "fdbtester"))
    with open(os.path.join(to, "PROVED-BY"), "w", encoding="utf-8") as file:
        file.write(text)


def plain_owner(entry):
    entry.uid = entry.gid = 0
    entry.uname = entry.gname = "root"
    return entry


def make_distribution():
    """Makes the folder and the .tar.gz, in out/dist."""
    if builds.is_distribution():
        fail("this is a distribution: --install PREFIX installs it")
    builds.need_toolchain()
    builds.make_place()
    name = f"fdbtester-{builds.commit()}-x86_64"
    room, to = builds.built("out", "dist"), builds.built("out", "dist", name)
    os.makedirs(room, exist_ok=True)
    with tempfile.TemporaryDirectory(dir=room) as made:
        folder = os.path.join(made, name)
        os.makedirs(folder)
        make_folder(folder)
        with tarfile.open(os.path.join(made, "packed"), "w:gz") as archive:
            archive.add(folder, name, filter=plain_owner)
        shutil.rmtree(to, ignore_errors=True)
        os.rename(folder, to)
        os.replace(os.path.join(made, "packed"), to + ".tar.gz")
    sys.stdout.write(text_of(os.path.join(to, "PROVED-BY")))
    print(f"{to}\n{to}.tar.gz")


def put_link(prefix, name, target):
    """Puts a link into the installed distribution, in place of an older one."""
    path = os.path.join(prefix, name)
    os.makedirs(os.path.dirname(path), exist_ok=True)
    if os.path.lexists(path):
        os.remove(path)
    os.symlink(os.path.relpath(os.path.join(prefix, HOME, target), os.path.dirname(path)), path)


def install_under(prefix):
    """Puts a distribution under the prefix, in place of an older one: this one, or one that is made of the checkout."""
    prefix = os.path.abspath(prefix)
    home = os.path.join(prefix, HOME)
    try:
        os.makedirs(os.path.dirname(home), exist_ok=True)
        with tempfile.TemporaryDirectory(prefix="fdbtester-", dir=os.path.dirname(home)) as made:
            folder = os.path.join(made, "new")
            if builds.is_distribution():
                shutil.copytree(HERE, folder, ignore=without)
            else:
                os.makedirs(folder)
                make_folder(folder)
            if os.path.lexists(home):
                os.rename(home, os.path.join(made, "old"))
            os.rename(folder, home)
        for name, target in LINKS:
            put_link(prefix, name, target)
    except OSError as error:
        fail(f"{error.filename or prefix}: {error.strerror}")
    print(f"installed under {prefix}: bin/fdbtester, {HOME}, the manual page and completions")
