#!/usr/bin/env python3
"""Makes two pages of the sources: docs/made/calls.md, each public call with its clauses, and docs/made/wrong-bodies.md, the wrong bodies
that are refused.

Without a word the pages are written anew; with --check nothing is written, and the status is 1 where one differs from what the sources make.

A call is public where a crate's src/lib.rt has it or hands it on by `pub use`, and a method where its type or trait is. A row has the first
sentence of its comment, the names of its clauses (`unnamed` for one without a name), its file, and the files of definitions that
its clauses cite. A must-fail edit begins with two lines `# what the body does` and `# refused by the call and its clause`.
"""

import argparse
import os
import re
import sys
from pathlib import Path
from typing import Dict, Iterator, List, NamedTuple, Optional, Tuple

TOP = Path(__file__).resolve().parent.parent
CALLS = TOP / "docs" / "made" / "calls.md"
BODIES = TOP / "docs" / "made" / "wrong-bodies.md"

CALLS_HEAD = """# Each public call

This page is made from the sources by `scripts/promises.py`; `.ci/run` compares it. Crates stand in the order of `crates.txt`, lowest first.

A row has the call, the first sentence of its comment, and the names of its clauses; `unnamed` is a clause without a name. Then come its file
in the crate's `src/`, and the files of definitions that its clauses cite, in `specs/` of the crate that is named, or of its own. What is
proved of a call is its clauses, and no more. [Promises](../internals/promises.md) has what holds across calls, in words.

Beside these, `Tuple` and `Bytes` are compared by `cmp` (`fdb_tuple/src/order.rt`: `order`, `bytes`, defined in `Order.antt`;
`key_bytes/src/bytes.rt`, defined in `Keys.antt`).

"""

BODIES_HEAD = """# Wrong bodies that are refused

This page is made from the files `must-fail/*.edit` of the crates by `scripts/promises.py`; `.ci/run` compares it.

Each row is an edit of code, and its first lines say what stands in the row. The gate tries each edit, and the prover must refuse it.
The last column names the call whose public clause the body breaks. The goal that stays open may belong to a call below, whose clause hands
that one down: that call stands in brackets where it is known.

"""


class Call(NamedTuple):
    """A public call: its name with its type, the first sentence of its comment, its clauses, and what it stands in."""

    name: str
    sentence: str
    clauses: List[str]
    file: str
    definitions: List[str]


def crates() -> Iterator[str]:
    """Yields the crates of crates.txt in their order."""
    for line in (TOP / "crates.txt").read_text(encoding="utf-8").splitlines():
        head, colon, _ = line.partition("#")[0].partition(":")
        if colon:
            yield head.split()[0]


def exported(lib: str) -> set:
    """Returns the names that a root file hands on by `pub use`."""
    names = set()
    for path in re.findall(r"^pub use ([^;]+);", lib, re.M):
        inner = re.search(r"\{([^}]*)\}", path)
        for name in (inner.group(1) if inner else path.rpartition("::")[2]).split(","):
            names.add(name.split(" as ")[-1].strip())
    return names - {""}


def first_sentence(lines: List[str]) -> str:
    """Returns the first sentence of a comment, without its full stop."""
    text = " ".join(line.strip()[3:].strip() for line in lines if line.strip() != "///")
    found = re.match(r"((?:`[^`]*`|[^`])*?[.:])(?:\s|$)", text)
    return (found.group(1) if found else text).rstrip(".:").replace("|", "\\|")


def cited(text: str, uses: Dict[str, Tuple[str, str]], crate: str) -> List[str]:
    """Returns the files of definitions that clauses cite, each with its crate where it is another."""
    words = set(re.findall(r"[A-Za-z_][\w'-]*", text))
    files = {uses[word] for word in words if word in uses}
    return sorted(module if owner == crate else f"{owner}: {module}" for owner, module in files)


def uses_of(text: str) -> Dict[str, Tuple[str, str]]:
    """Returns for each name of a definition that a file uses its crate and its file of specs/."""
    names = {}
    for owner, module, group in re.findall(r"ghost use Rattle\.(\w+)\.specs\.(\w+)(?:\.\w+)*?\.?(\{[^}]*\}| as \w+)?;", text):
        if owner != "std" and module not in ("declared", "contracts"):
            words = group[4:] if group.startswith(" as") else group.strip("{}")
            for word in words.split(","):
                names[word.split(" as ")[-1].strip()] = (owner, module)
    return names


CLAUSE = re.compile(r"\s*(?:ensures|requires)\b")


def body_start(lines: List[str], at: int) -> int:
    """Returns the number of the line at which the body of a function begins, or that of the line behind it where it has none."""
    depth, is_in_contract = 0, False
    while True:
        line = lines[at]
        is_in_contract = is_in_contract or CLAUSE.match(line) is not None
        if depth == 0 and not CLAUSE.match(line):
            if re.match(r"\s*\{", line) or line.endswith("{}") or (not is_in_contract and re.search(r"[\w)>\]] \{$", line)):
                return at
        depth += line.count("{") - line.count("}")
        at += 1
        if depth == 0 and line.endswith(";"):
            return at


def calls_of(crate: str) -> List[Call]:
    """Returns the public calls of a crate, file by file."""
    folder = TOP / "crates" / crate / "src"
    if not (folder / "lib.rt").is_file():
        return []
    names = exported((folder / "lib.rt").read_text(encoding="utf-8"))
    found = []
    for path in sorted(folder.rglob("*.rt")):
        if "tests" in path.parts or path.name == "tests.rt":
            continue
        found += calls_in(crate, path, names, path.name == "lib.rt")
    return found


def calls_in(crate: str, path: Path, names: set, is_root: bool) -> List[Call]:
    """Returns the public calls of a file."""
    text = path.read_text(encoding="utf-8")
    lines, uses, owner, is_trait, found = text.splitlines(), uses_of(text), None, False, []
    for at, line in enumerate(lines):
        block = re.match(r"(?:impl(?:<.*?>)?|pub trait) (?:[\w:]+(?:<.*?>)? for )?(\w+)", line)
        if block:
            owner, is_trait = None if " for " in line else block.group(1), line.startswith("pub trait")
        elif line == "}":
            owner = None
        call = re.match(r"( *)fn (\w+)" if owner and is_trait else r"( *)pub fn (\w+)", line)
        if not call or (call.group(1) and (owner is None or owner not in names)) or (not call.group(1) and not is_root and call.group(2) not in names):
            continue
        end = body_start(lines, at)
        contract = "\n".join(it for it in lines[at:end] if not it.lstrip().startswith("//"))
        clauses = re.findall(r"\bensures\*?(?: (\w+))? \{", contract)
        comment = []
        above = at - 1
        while above >= 0 and lines[above].lstrip().startswith(("///", "#[")):
            if lines[above].lstrip().startswith("///"):
                comment.insert(0, lines[above])
            above -= 1
        name = f"{owner}::{call.group(2)}" if call.group(1) else call.group(2)
        ensured = "\n".join(part for part in re.split(r"\n(?=\s*(?:ensures|requires)\b)", contract) if part.lstrip().startswith("ensures"))
        found.append(Call(name, first_sentence(comment), [it or "unnamed" for it in clauses], path.stem, cited(ensured, uses, crate)))
    return found


def calls_part() -> str:
    """Returns the tables of public calls, one for each crate that has any with a clause."""
    parts = []
    for crate in crates():
        calls = [call for call in calls_of(crate) if call.clauses]
        if not calls:
            continue
        rows = [f"## {crate}", "", "| call | does | clauses | file | definitions |", "|---|---|---|---|---|"]
        for call in calls:
            clauses = ", ".join(it if it == "unnamed" else f"`{it}`" for it in dict.fromkeys(call.clauses))
            rows.append(f"| `{call.name}` | {call.sentence} | {clauses} | {call.file} | {', '.join(call.definitions)} |")
        parts.append("\n".join(rows))
    return "\n\n".join(parts)


def told_in(edit: Path) -> Tuple[Optional[str], Optional[str]]:
    """Returns what the first two lines of an edit say: what the body does, and what refuses it."""
    said = [line[1:].strip() for line in edit.read_text(encoding="utf-8").splitlines() if line.startswith("#")]
    if len(said) < 2 or not said[1].startswith("refused by "):
        return None, None
    return said[0], said[1][len("refused by ") :]


def bodies_part() -> str:
    """Returns the table of the wrong bodies."""
    rows = ["| a body that | edit | refused by |", "|---|---|---|"]
    for crate in crates():
        for edit in sorted((TOP / "crates" / crate / "must-fail").glob("*.edit")):
            does, by = told_in(edit)
            if does is None:
                sys.exit(f"promises.py: {edit.relative_to(TOP)} does not begin with two lines, '# what it does' and '# refused by ..'")
            rows.append(f"| {does} | `{crate}/{edit.stem}` | {by} |")
    return "\n".join(rows)


def calls_page() -> str:
    """Returns docs/made/calls.md."""
    return f"{CALLS_HEAD}{calls_part()}\n"


def bodies_page() -> str:
    """Returns docs/made/wrong-bodies.md."""
    return f"{BODIES_HEAD}{bodies_part()}\n"


def text_of(path: Path) -> Optional[str]:
    return path.read_text(encoding="utf-8") if path.is_file() else None


def main() -> None:
    parser = argparse.ArgumentParser(description=__doc__, formatter_class=argparse.RawDescriptionHelpFormatter)
    parser.add_argument("--check", action="store_true", help="write nothing, and end with status 1 where a page differs")
    words = parser.parse_args()
    differing = {path: page for path, page in ((CALLS, calls_page()), (BODIES, bodies_page())) if text_of(path) != page}
    if words.check:
        sys.exit("".join(f"promises.py: {path.relative_to(TOP)} is not what the sources make: run scripts/promises.py\n" for path in differing).rstrip() or 0)
    for path, page in differing.items():
        path.parent.mkdir(parents=True, exist_ok=True)
        path.write_text(page, encoding="utf-8")


if __name__ == "__main__":
    main()
