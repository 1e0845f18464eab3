"""The tables of docs/reference/operations.md: each operation, and each error code. scripts/made calls them.

Names, forms, the kinds of the operands and the codes are those of the definitions and constants of the sources. What an operation does
is told by ROWS, in words: a row that a definition contradicts, or an operation without a row, ends the script. `names` and `kinds` are the two
places that know how the sources keep operations.
"""

import os
import re
import sys
from typing import Dict, Iterator, List, NamedTuple, Optional, Tuple

TOP = os.path.realpath(os.path.join(os.path.dirname(os.path.realpath(__file__)), ".."))
CRATES = os.path.join(TOP, "crates")


def text_of(*path: str) -> str:
    with open(os.path.join(CRATES, *path), encoding="utf-8") as file:
        return file.read()


# ---- definitions


def definitions(crate: str, *modules: str) -> Dict[str, str]:
    """Returns the text of each definition of the files, comments left out, by its name."""
    found: Dict[str, str] = {}
    for module in modules:
        text = re.sub(r"^\s*--.*$", "", text_of(crate, "specs", f"{module}.antt"), flags=re.M)
        heads = list(re.finditer(r"^(?:abbrev |unfoldable )?pub (?:record |data )?([^\s:]+)", text, re.M))
        for head, after in zip(heads, [*heads[1:], None]):
            body = text[head.end() : after.start() if after else len(text)]
            found[head.group(1)] = body[body.find("\n") :]
    return found


MODULES = ("Operands", "Pops", "StackOperations", "Calls", "Directories", "Machines")
MACHINE = definitions("model_machine", *(it for it in MODULES if os.path.isfile(os.path.join(CRATES, "model_machine", "specs", f"{it}.antt"))))
CALLS = {**definitions("model_database", "Transactions"), **definitions("fdb_calls", "Calling")}


def arm(name: str, pattern: str) -> str:
    """Returns the right side of the equation of a definition whose left side has this constructor."""
    source = MACHINE if name in MACHINE else CALLS
    found = re.search(rf"^{name} [^\n]*?{pattern}(?![A-Za-z])[^\n]*? =((?:.*?)(?=^\S|\Z))", source[name], re.M | re.S)
    if not found:
        sys.exit(f"operation_tables.py: {name} has no equation for {pattern}")
    return found.group(1)


def walk(text: str, source: Dict[str, str], wanted: str, seen: frozenset = frozenset()) -> Iterator[str]:
    """Yields what matches in a text and in the definitions that it uses, in the order of the text."""
    for word in re.finditer(rf"(?P<found>{wanted})|(?<![.\w])[a-z]\w*", text):
        if word.group("found"):
            yield word.group("found")
        elif word.group(0) in source and word.group(0) not in seen:
            yield from walk(source[word.group(0)], source, wanted, seen | {word.group(0)})


# ---- names


class Name(NamedTuple):
    """An operation: its name, its enum and its variant there, and which forms it has."""

    name: str
    enum: str
    variant: str
    forms: str


FORMS = {"Alone": "", "AloneSince520": "", "OrSnapshot": "S", "Writes": "D", "Reads": "S, D"}
ENUMS = {"operation": "StackOperation", "on_transaction": "TransactionOperation", "on_database": "DatabaseOperation", "on_directories": "DirectoryOperation"}


def rows_of_the_table(text: str) -> List[Name]:
    """Returns the rows of the table of operations of crates/model_operations, and PUSH, which has none there."""
    rows = re.findall(r'\(\s*b"(\w+)",\s*Forms::(\w+),\s*Operation::(\w+)(?:\(\w+::(\w+)\))?,?\s*\)', text)
    found = [Name(name, f"{kind}Operation" if variant else "Instruction", variant or kind, FORMS[forms]) for name, forms, kind, variant in rows]
    return [Name("PUSH", "Instruction", "Push", ""), *found]


def names_of_the_definitions(text: str) -> List[Name]:
    """Returns the operations that the definition of an instruction names."""
    found = [Name(name, ENUMS.get(enum, "Instruction"), variant, "") for name, enum, variant in re.findall(r'\(codes "(\w+)"\) then Some \(?(\w+)\.(\w+)', text)]
    found += [Name(name, ENUMS[enum], variant, FORMS[forms]) for name, forms, enum, variant in re.findall(r'\(codes "(\w+)", (\w+), (\w+)\.(\w+)\)', text)]
    whole = {it.name for it in found}
    snapshots = {name for name in whole if name.endswith("_SNAPSHOT")}
    return [it._replace(forms="S") if f"{it.name}_SNAPSHOT" in snapshots else it for it in found if it.name not in snapshots]


def names() -> List[Name]:
    """Returns the operations in the order of the sources."""
    if os.path.isdir(os.path.join(CRATES, "model_operations")):
        return rows_of_the_table(text_of("model_operations", "src", "lib.rt"))
    return names_of_the_definitions(text_of("model_machine", "specs", "Instructions.antt"))


# ---- operands

# What a definition pops is one of these words, or one of the kinds of Pops.antt; the kinds of the page are those of docs/reference/operations.md.
KINDS = {
    "bytes_operand": "bytes", "string_operand": "string", "int_operand": "int", "count_operand": "count", "flag_operand": "flag", "offset_operand": "offset",
    "limit_operand": "limit", "mode_operand": "mode", "code_operand": "code", "tuple_operand": "tuple", "item_operand": "any", "selector_operand": "selector",
    "byte_strings_operand": "tuples", "path_operand": "path", "name_operand": "name", "path_if_given": "path if given",
    "kinds.Bytes": "bytes", "kinds.String": "string", "kinds.Int": "int", "kinds.Count": "count", "kinds.Flag": "flag", "kinds.Code": "code", "kinds.Tuples": "tuples",
    "kinds.Tuple": "tuple", "kinds.Any": "any", "kinds.Selector": "selector", "kinds.Options": "limit, flag, mode", "kinds.PathIfGiven": "path if given",
    "kinds.Path": "path", "kinds.Name": "name",
}  # fmt: skip

# The definitions that say what an operation pops and asks, the first that is there.
CALLERS = {
    "StackOperation": ("effect_of", "operated"), "DatabaseOperation": ("call_with", "call_of"), "TransactionOperation": ("request_with", "request_of"),
    "DirectoryOperation": ("directed_with", "directed"),
}  # fmt: skip
STEPS = {name: body for name, body in MACHINE.items() if name not in ("act_of", "at_rest", "operand", *(it for names in CALLERS.values() for it in names))}


def meaning(operation: Name) -> str:
    """Returns the text of the definitions that says what an operation pops and asks."""
    if operation.enum == "Instruction":
        return "" if operation.variant == "Push" else arm("act_of", rf"instruction\.{operation.variant}")
    return arm(next(it for it in CALLERS[operation.enum] if it in MACHINE), rf"\.{operation.variant}")


def kinds(operation: Name) -> List[str]:
    """Returns the kinds of what an operation pops, in order."""
    wanted = "|".join(rf"\b{re.escape(it)}\b" for it in KINDS)
    found = walk(meaning(operation), {name: body for name, body in STEPS.items() if name not in KINDS}, wanted)
    return [kind for it in found for kind in KINDS[it].split(", ")]


# ---- codes


def constants() -> Dict[str, Tuple[int, str]]:
    """Returns each error code by the name of its constant, with what its comment says."""
    rows = re.findall(r"^/// (.*)\npub const (\w+): u16 = (\d+);", text_of("model_database", "src", "lib.rt"), re.M)
    return {name: (int(number), says.rstrip(".")) for says, name, number in rows}


CODES = constants()


def codes(operation: Name) -> List[str]:
    """Returns with which codes, or faults of directories, an operation may be answered."""
    text, is_of_directories = meaning(operation), operation.enum == "DirectoryOperation"
    faults = [f"`{it}`" for it in walk(text, STEPS, r'(?<=Faults \(codes ")\w+')] if is_of_directories else []
    asks_layer = is_of_directories and any(walk(text, STEPS, r"\bkind\.\w+"))
    numbers = {CODES[it][0] for call in walk(text, STEPS, r"\bcall\.[A-Z]\w*") for it in codes_of_call(call)}
    return [*dict.fromkeys(faults), *(["a fault of the layer"] if asks_layer else []), *map(str, sorted(numbers))]


def codes_of_call(call: str) -> List[str]:
    """Returns the constants of the codes that a call may be refused with."""
    said = arm("called", re.escape(call))
    found = walk(said, CALLS, r"\b(?:" + "|".join(CODES) + r")\b")
    return [it for it in found if it != "EXACT_MODE_WITHOUT_LIMITS" or "lacks_limit" in said]


# ---- what each does, in words


class Row(NamedTuple):
    """What an operation pops, each with its kind first, and what it does."""

    pops: str
    does: str


ROWS = {
    "PUSH": Row("", "pushes the element that stands in the instruction"),
    "DUP": Row("", "pushes a copy of the top item, with that item's instruction number; the copy of an item that waits waits for the same attempt"),
    "EMPTY_STACK": Row("", "drops all items, those that wait too"),
    "SWAP": Row("count n", "swaps the top item and the one at depth n, with their numbers, whether they wait or not; `underflow` where there is none at that depth"),
    "POP": Row("any", "drops it"),
    "SUB": Row("int a, int b", "pushes a - b"),
    "CONCAT": Row("string a, string b", "pushes a followed by b; both must be of one kind"),
    "WAIT_FUTURE": Row("any", "pushes it again with its own number, so an item that waited is known afterwards"),
    "TUPLE_PACK": Row("tuple", "pushes its packed bytes"),
    "TUPLE_PACK_WITH_VERSIONSTAMP": Row(
        "bytes prefix, tuple",
        "pushes `OK`, and then the prefix, the packed tuple and the place of its one incomplete versionstamp; or pushes `ERROR: NONE` or `ERROR: MULTIPLE`. Unknown under API version 500",
    ),
    "TUPLE_UNPACK": Row("bytes", "pushes each element of the tuple that they pack, packed alone"),
    "TUPLE_RANGE": Row("tuple", "pushes the begin and then the end of its range: its packed bytes followed by `00`, and by `FF`"),
    "TUPLE_SORT": Row("tuples", "pushes the packed tuples in the order of tuples, the greatest last; equal ones all stay"),
    "GET_APPROXIMATE_SIZE": Row("", "pushes `GOT_APPROXIMATE_SIZE`"),
    "GET_ESTIMATED_RANGE_SIZE": Row("bytes begin, bytes end", "pushes `GOT_ESTIMATED_RANGE_SIZE`"),
    "UNIT_TESTS": Row("", "does nothing"),
    "USE_TRANSACTION": Row("bytes name", "makes the transaction of this name the current one, without a request"),
    "NEW_TRANSACTION": Row("", "puts a new transaction under the current name"),
    "ON_ERROR": Row(
        "code", "pushes `RESULT_NOT_PRESENT` and begins the transaction anew for 1007, 1009, 1020, 1021 and 1037; is answered any other code itself, and cancels the transaction"
    ),
    "RESET": Row("", "begins the transaction anew"),
    "CANCEL": Row("", "cancels the transaction"),
    "COMMIT": Row("", "commits, and pushes `RESULT_NOT_PRESENT`"),
    "GET_READ_VERSION": Row("", "keeps the read version as the last version seen, and pushes `GOT_READ_VERSION`; both forms are one"),
    "SET_READ_VERSION": Row("", "sets the read version to the last version seen, which stays"),
    "GET_COMMITTED_VERSION": Row("", "keeps the committed version, or -1, as the last version seen, and pushes `GOT_COMMITTED_VERSION`"),
    "READ_CONFLICT_RANGE": Row("bytes begin, bytes end", "adds the range to the read conflict ranges, and pushes `SET_CONFLICT_RANGE`"),
    "WRITE_CONFLICT_RANGE": Row("bytes begin, bytes end", "adds the range to the write conflict ranges, and pushes `SET_CONFLICT_RANGE`"),
    "READ_CONFLICT_KEY": Row("bytes key", "adds the range of this key alone, and pushes `SET_CONFLICT_KEY`; so a key that isn't below `FF` is 2004"),
    "WRITE_CONFLICT_KEY": Row("bytes key", "the same for the write conflict ranges"),
    "DISABLE_WRITE_CONFLICT": Row("", "lets the next write of the transaction add no write conflict range"),
    "GET_VERSIONSTAMP": Row("", "pushes an item that waits for the versionstamp of this attempt's commit"),
    "GET": Row("bytes key", "pushes the value, or `RESULT_NOT_PRESENT`"),
    "GET_KEY": Row(
        "selector, bytes prefix",
        "pushes the key that the selector finds, if it begins with the prefix; if the key is less, pushes the prefix; if it is greater, the least key above all that begin with the prefix",
    ),
    "GET_RANGE": Row("bytes begin, bytes end, limit, flag reverse, mode", "pushes one packed tuple: the keys and values of the pairs in turn"),
    "GET_RANGE_STARTS_WITH": Row("bytes prefix, limit, flag reverse, mode", "the same from the prefix up to the least key above all that begin with it, or up to `FF` where there is none"),
    "GET_RANGE_SELECTOR": Row(
        "selector begin, selector end, limit, flag reverse, mode, bytes prefix", "the same between the keys that the selectors find, of the pairs whose keys begin with the prefix"
    ),
    "SET": Row("bytes key, bytes value", "sets the key"),
    "CLEAR": Row("bytes key", "clears the key"),
    "CLEAR_RANGE": Row("bytes begin, bytes end", "clears the keys from begin up to end, end left out"),
    "CLEAR_RANGE_STARTS_WITH": Row("bytes prefix", "clears the keys from the prefix up to the least key above all that begin with it, or up to `FF` where there is none"),
    "ATOMIC_OP": Row("bytes name, bytes key, bytes operand", "does the atomic operation of this name on the key"),
    "LOG_STACK": Row(
        "bytes prefix",
        "takes the items from the top, at most 100 for a request, until none is left. Each request logs a pair for each item: the key is the prefix and the packed tuple of the item's "
        "place, counted from the oldest, and its instruction; the value is the first 40,000 bytes of the packed item. A request is answered as those sets and their commit are",
    ),
    "START_THREAD": Row("bytes prefix", "starts a machine under this prefix, and pushes nothing; ends its own machine with `machine-limit` where 64 were started"),
    "WAIT_EMPTY": Row(
        "bytes prefix",
        "polls until no key begins with the prefix, and then pushes `WAITED_FOR_EMPTY`; ends the machine with `wait-bound` after as many polls in vain as `--polls` says",
    ),
    "DIRECTORY_CREATE_SUBSPACE": Row("tuple, bytes raw", "appends the subspace of raw followed by the packed tuple"),
    "DIRECTORY_CREATE_LAYER": Row(
        "int nodes, int contents, flag manual", "appends the layer whose nodes and contents stand in the subspaces at the two indices; appends null where one of them is null"
    ),
    "DIRECTORY_CREATE_OR_OPEN": Row("path, name layer", "appends the directory, which is made where it is missing"),
    "DIRECTORY_CREATE": Row("path, name layer, name prefix", "makes and appends the directory"),
    "DIRECTORY_OPEN": Row("path, name layer", "appends the directory"),
    "DIRECTORY_CHANGE": Row("int index", "makes the object at the index the current one, or that at the error index where the object is null"),
    "DIRECTORY_SET_ERROR_INDEX": Row("int index", "makes this the error index"),
    "DIRECTORY_MOVE": Row("path old, path new", "moves the directory, and appends it"),
    "DIRECTORY_MOVE_TO": Row("path new", "moves the current directory to this path from the root on, and appends it"),
    "DIRECTORY_REMOVE": Row("path if given", "removes the directory, and all below it"),
    "DIRECTORY_REMOVE_IF_EXISTS": Row("path if given", "the same where there is such a directory"),
    "DIRECTORY_LIST": Row("path if given", "pushes the packed tuple of the names right below"),
    "DIRECTORY_EXISTS": Row("path if given", "pushes 1 or 0"),
    "DIRECTORY_PACK_KEY": Row("tuple", "pushes the current prefix followed by the packed tuple"),
    "DIRECTORY_UNPACK_KEY": Row("bytes key", "pushes the elements of the tuple after the current prefix, as they are"),
    "DIRECTORY_RANGE": Row("tuple", "pushes the two ends of the tuple's range in the current subspace"),
    "DIRECTORY_CONTAINS": Row("bytes key", "pushes 1 or 0: whether the key begins with the current prefix"),
    "DIRECTORY_OPEN_SUBSPACE": Row("tuple", "appends the subspace of the current prefix followed by the packed tuple"),
    "DIRECTORY_LOG_SUBSPACE": Row("bytes raw", "sets the current prefix under raw followed by the packed index, on the current transaction"),
    "DIRECTORY_LOG_DIRECTORY": Row("bytes raw", "makes the call `log`, with the current index, path and layer name"),
    "DIRECTORY_STRIP_PREFIX": Row("bytes key", "pushes the key without the current prefix"),
}


def told_kinds(pops: str) -> List[str]:
    """Returns the kinds that a row of words names, in order."""
    known = sorted(set(KINDS.values()), key=len, reverse=True)
    return [next((kind for kind in known if part == kind or part.startswith(f"{kind} ")), part) for part in pops.split(", ") if part]


def row_of(operation: Name) -> str:
    """Returns the line of an operation, whose words fit the definitions."""
    row = ROWS.get(operation.name)
    if row is None:
        sys.exit(f"operation_tables.py: ROWS has no {operation.name}")
    if told_kinds(row.pops) != kinds(operation):
        sys.exit(f"operation_tables.py: {operation.name} pops {kinds(operation)} by the definitions, and {told_kinds(row.pops)} by ROWS")
    name = f"{operation.name} ({operation.forms})" if operation.forms else operation.name
    said = codes(operation)
    return f"| {name} | {row.pops} | {row.does} | {', '.join(said)} |"


PART_OF = {"StackOperation": "stack", "DatabaseOperation": "calls", "TransactionOperation": "calls", "Instruction": "machines", "DirectoryOperation": "directories"}
ELSEWHERE = {"PUSH": "stack", "USE_TRANSACTION": "calls"}


def operations_of(part: str) -> List[Name]:
    """Returns the operations of a part, those that stand elsewhere in the sources first."""
    found = [it for it in names() if ELSEWHERE.get(it.name, PART_OF[it.enum]) == part]
    return sorted(found, key=lambda it: it.name not in ELSEWHERE)


def table(part: str) -> str:
    """Returns the table of the operations of a part."""
    if part == "stack":
        rows = [row_of(it).rsplit(" |", 2)[0] + " |" for it in operations_of(part)]
        return "\n".join(["| operation | pops | does |", "|---|---|---|", *rows])
    return "\n".join(["| operation | pops | does | codes |", "|---|---|---|---|", *map(row_of, operations_of(part))])


def code_table(_: Optional[str]) -> str:
    """Returns the table of the error codes."""
    rows = (f"| {number} | {name.lower()} | {says} |" for name, (number, says) in sorted(CODES.items(), key=lambda it: it[1][0]))
    return "\n".join(["| code | name | comes where |", "|---|---|---|", *rows])


def count_of_names(_: Optional[str]) -> str:
    """Returns a line that says how many names there are, forms counted apart."""
    found = names()
    whole = sum(1 + (it.forms.count("S") + it.forms.count("D")) for it in found)
    return f"There are {len(found)} operations, and {whole} names with their forms."


PARTS: Tuple = (("count", count_of_names), *((part, table) for part in ("stack", "calls", "machines", "directories")), ("codes", code_table))
