"""The lists of cases: the page conformance/CASES.md, and the tables of crates/examples/data/README.md. scripts/made calls them."""

import os
import re
import sys
from typing import Iterator, List, NamedTuple, Tuple

TOP = os.path.realpath(os.path.join(os.path.dirname(os.path.realpath(__file__)), ".."))
DATA = os.path.join(TOP, "crates", "examples", "data")
sys.path.insert(0, os.path.join(TOP, "scripts"))
sys.path.insert(0, os.path.join(TOP, "conformance"))

from lib.suite import rows_of, subjects  # noqa: E402

SUITE_HEAD = """# The cases

This page is made by `scripts/made` from the files `subjects` and `SUBJECT/cases`; `.ci/run` compares it. [README.md](README.md) says how a binding
runs the cases.

Each case is a script `NAME.fdbt`, with what it must leave in `NAME.left` and this program's dump in `NAME.dump`. The last column names the section
of the document that the case shows: FoundationDB's API reference of release 6.3, `tuple.md`, the directory layer's documentation,
`bindingApiTester.md` or `directoryLayerTester.md`.

No cluster gives again what stands under "Of this program only", or a client may answer otherwise:
[differences](../docs/guide/differences.md) has each reason.
"""


def suite_page() -> str:
    """Returns conformance/CASES.md."""
    parts = [SUITE_HEAD]
    for subject, title in subjects():
        rows = (f"| [{it.name}]({subject}/{it.name}.fdbt) | {it.shows} | {it.document} |" for it in rows_of(subject))
        parts.append("\n".join([f"## {title}", "", "| case | shows | document |", "|---|---|---|", *rows, ""]))
    return "\n".join(parts)


class Block(NamedTuple):
    """A case of a file of cases, and the comment above it."""

    comment: str
    lines: List[str]

    def value(self, tag: str) -> str:
        return next((line[len(tag) :] for line in self.lines if line.startswith(tag)), "")


def lines_of(name: str) -> List[str]:
    with open(os.path.join(DATA, name), encoding="latin-1", newline="\n") as file:
        return file.read().split("\n")


def blocks_of(name: str) -> Iterator[Block]:
    """Yields the cases of a file."""
    comment: List[str] = []
    case: List[str] = []
    told = ""
    for line in [*lines_of(name), "case"]:
        if line.startswith("#"):
            comment.append(line[1:].strip())
        elif re.match("case( |$)", line):
            if case:
                yield Block(told, case)
            told, comment, case = " ".join(comment), [], [line]
        elif not line:
            comment = []
        else:
            case.append(line)


def scripts_table(_: str) -> str:
    """Returns the table of the scripts that examples.cases runs."""
    shown: dict = {}
    for block in blocks_of("examples.cases"):
        shows, statuses = shown.setdefault(block.value("in "), (block.comment, []))
        statuses.append(block.value("status ") or "0")
        if not shows:
            sys.exit(f"lists.py: no comment in examples.cases says what {block.value('in ')} shows")
    rows = (f"| `{name}` | {', '.join(dict.fromkeys(statuses))} | {shows} |" for name, (shows, statuses) in shown.items())
    return "\n".join(["| script | status | shows |", "|---|---|---|", *rows])


def about(name: str) -> str:
    """Returns the first sentence of the comment with which a file begins."""
    lines = lines_of(name)
    text = " ".join(line[1:].strip() for line in lines[: next(at for at, line in enumerate(lines) if not line.startswith("#"))])
    if not text:
        sys.exit(f"lists.py: {name} does not begin with a comment that says what its cases are about")
    return re.split(r"\. |\.$", text)[0]


def files_table(_: str) -> str:
    """Returns the table of the files of cases."""
    names = sorted((name for name in os.listdir(DATA) if name.endswith((".cases", ".requests"))), key=lambda name: (name.split(".")[1], name))
    rows = (f"| `{name}` | {sum(1 for _ in blocks_of(name))} | {about(name)} |" for name in names)
    return "\n".join(["| file | cases | about |", "|---|---|---|", *rows])


PARTS: Tuple = (("scripts", scripts_table), ("files", files_table))


# ---- crates

CRATES_HEAD = """# The crates

This page is made by `scripts/made` from `crates.txt` and the head of each crate; `.ci/run` compares it. Crates stand lowest first. The last column names the
crates that a crate stands on, those of the toolchain left out. [The tour](../internals/tour.md) says how they fit.
"""

FAMILIES = (
    ("Of the program", ""),
    ("Definitions", "model_"),
    ("Laws", "laws_"),
    ("Tests", "test_"),
)


def crate_lines() -> List[Tuple[str, List[str]]]:
    """Returns each crate of crates.txt with what it stands on."""
    with open(os.path.join(TOP, "crates.txt"), encoding="utf-8") as file:
        lines = [line.partition("#")[0].partition(":") for line in file]
    return [(head.split()[0], rest.split()) for head, colon, rest in lines if colon]


def head_of(crate: str) -> str:
    """Returns the first sentence of a crate's head, without its full stop."""
    for name in ("lib.rt", "main.rt"):
        path = os.path.join(TOP, "crates", crate, "src", name)
        if os.path.isfile(path):
            with open(path, encoding="utf-8") as file:
                lines = file.read().split("\n")
            text = " ".join(line[3:].strip() for line in lines[: next(at for at, line in enumerate(lines) if not line.startswith("//!") or line == "//!")])
            return re.split(r"\.(?: |$)", text)[0].replace("|", "\\|")
    return ""


def family_of(crate: str) -> str:
    prefix = next((prefix for _, prefix in FAMILIES if prefix and crate.startswith(prefix)), "")
    return "test_" if crate == "examples" else prefix


def longest_chain(found: List[Tuple[str, List[str]]]) -> List[str]:
    """Returns the longest chain of crates each of which stands on the one before, those of crates.txt being lowest first."""
    chains: dict = {}
    for crate, below in found:
        chains[crate] = [*max((chains.get(it, []) for it in below), key=len, default=[]), crate]
    return max(chains.values(), key=len)


def crates_page() -> str:
    """Returns docs/made/crates.md."""
    found = crate_lines()
    own, chain = {crate for crate, _ in found}, longest_chain(found)
    parts = [CRATES_HEAD, f"There are {len(found)} crates. The longest chain has {len(chain)}: {', '.join(chain)}.\n"]
    for title, prefix in FAMILIES:
        rows = (f"| {crate} | {head_of(crate)} | {', '.join(it for it in below if it in own)} |" for crate, below in found if family_of(crate) == prefix)
        parts.append("\n".join([f"## {title}", "", "| crate | is | stands on |", "|---|---|---|", *rows, ""]))
    return "\n".join(parts)
