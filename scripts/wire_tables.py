"""The tables of docs/reference/wire.md: each request of a client and each reply, as the tuple that it is. scripts/made calls them.

The rows are those of the definitions in crates/fdb_wire/specs: `call_row` and `request_row` of Requests.antt, `reply_row` of Replies.antt.
"""

import os
import re
import sys
from typing import List, Tuple

TOP = os.path.realpath(os.path.join(os.path.dirname(os.path.realpath(__file__)), ".."))
SPECS = os.path.join(TOP, "crates", "fdb_wire", "specs")

# What some elements of a definition are called in a tuple; each other one has the name that the definition gives it.
GROUPS = {"selector_elements": "SELECTOR", "options_elements": "OPTIONS", "range_elements": "begin, end", "pair_elements": "key, value, ..", "path_elements": "name, .."}
ELEMENT = re.compile(r"(elem\.\w+|count|optional|%s)\s+\(?(?:length )?([\w.]+)" % "|".join(GROUPS))


def text_of(module: str) -> str:
    with open(os.path.join(SPECS, f"{module}.antt"), encoding="utf-8") as file:
        return re.sub(r"^\s*--.*$", "", file.read(), flags=re.M)


def equations(module: str, name: str) -> List[Tuple[str, str]]:
    """Returns the left and the right sides of a definition's equations."""
    found = re.findall(rf"^{name} (.*?) =((?:.*?)(?=^\S|\Z))", text_of(module), re.M | re.S)
    if not found:
        sys.exit(f"wire_tables.py: {module}.antt has no equations of {name}")
    return found


def elements(said: str) -> List[str]:
    """Returns what stands in a tuple after its name."""
    return [GROUPS.get(kind, word.rpartition(".")[2] if word.rpartition(".")[2] != "0" else word.split(".")[0]) for kind, word in ELEMENT.findall(said)]


def tuple_of(name: str, *items: str) -> str:
    return f"`({', '.join([f'{chr(34)}{name}{chr(34)}', *items])})`"


def name_in(said: str) -> str:
    return re.search(r'codes "(\w+)"', said).group(1)


def clients() -> List[str]:
    """Returns the requests that a client makes."""
    return [re.search(r"request\.(\w+)", left).group(1) for left, right in equations("Requests", "IsClients") if "request." in left and "⊥" not in right]


def request_table(_: str) -> str:
    """Returns the table of the requests of a client."""
    rows = []
    for left, said in equations("Requests", "request_row"):
        made = re.search(r"request\.(\w+)", left).group(1)
        if made == "On":
            rows += [(tuple_of(name_in(it), "transaction", *elements(it)), call.strip("()").replace("call.", "", 1).split()[0]) for call, it in equations("Requests", "call_row")]
        elif made in clients():
            rows.append((tuple_of(name_in(said), *elements(said)), made))
    return "\n".join(["| request | in the sources |", "|---|---|", *(f"| {form} | `{name}` |" for form, name in rows)])


def reply_table(_: str) -> str:
    """Returns the table of the replies, those of directories left out."""
    rows = [(tuple_of(name_in(said), *elements(said)), re.search(r"reply\.(\w+)", left).group(1)) for left, said in equations("Replies", "reply_row") if 'codes "' in said]
    shown = [row for row in rows if not row[1].startswith("Dir")]
    return "\n".join(["| reply | in the sources |", "|---|---|", *(f"| {form} | `{name}` |" for form, name in shown)])


PARTS = (("requests", request_table), ("replies", reply_table))
