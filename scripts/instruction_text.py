"""Writes and reads instruction text, docs/reference/text.md: scripts as a person writes them, and the K lines that they stand for.

    python3 scripts/instruction_text.py asm < TEXT > LINES
    python3 scripts/instruction_text.py disasm < LINES > TEXT
    python3 scripts/instruction_text.py strip < TEXT > TEXT

`strip` takes out empty lines, and comments: lines that begin with `#`, spaces before it or not. The program reads neither.
A fault is told as `fdbtester` tells it, on standard error, with status 2. With `--self-test` it reads known texts and compares.
"""

import difflib
import functools
import sys
import uuid

from tuple_layer import DEEPEST, NotATuple, Versionstamp, pack, printable, unpack

MOST_BYTES = 67_108_864  # of a text, or of K lines
MOST_LINES = 1_000_000  # K lines, or instructions of a text
LONGEST_LINE = 440_004
LONGEST_KEY = 10_000
LONGEST_VALUE = 100_000  # also of a packed instruction
LONGEST_PREFIX = 1_000

STACK = """DUP EMPTY_STACK SWAP POP SUB CONCAT WAIT_FUTURE TUPLE_PACK TUPLE_PACK_WITH_VERSIONSTAMP TUPLE_UNPACK TUPLE_RANGE TUPLE_SORT
    GET_APPROXIMATE_SIZE GET_ESTIMATED_RANGE_SIZE UNIT_TESTS USE_TRANSACTION LOG_STACK START_THREAD WAIT_EMPTY NEW_TRANSACTION ON_ERROR
    RESET CANCEL COMMIT GET_READ_VERSION GET_READ_VERSION_SNAPSHOT SET_READ_VERSION GET_COMMITTED_VERSION GET_VERSIONSTAMP
    READ_CONFLICT_RANGE WRITE_CONFLICT_RANGE READ_CONFLICT_KEY WRITE_CONFLICT_KEY DISABLE_WRITE_CONFLICT"""
READS = "GET GET_KEY GET_RANGE GET_RANGE_STARTS_WITH GET_RANGE_SELECTOR DIRECTORY_OPEN DIRECTORY_LIST DIRECTORY_EXISTS"
WRITES = """SET CLEAR CLEAR_RANGE CLEAR_RANGE_STARTS_WITH ATOMIC_OP DIRECTORY_CREATE_OR_OPEN DIRECTORY_CREATE DIRECTORY_MOVE
    DIRECTORY_MOVE_TO DIRECTORY_REMOVE DIRECTORY_REMOVE_IF_EXISTS"""
DIRECTORIES = """DIRECTORY_CREATE_SUBSPACE DIRECTORY_CREATE_LAYER DIRECTORY_CHANGE DIRECTORY_SET_ERROR_INDEX DIRECTORY_PACK_KEY
    DIRECTORY_UNPACK_KEY DIRECTORY_RANGE DIRECTORY_CONTAINS DIRECTORY_OPEN_SUBSPACE DIRECTORY_LOG_SUBSPACE DIRECTORY_LOG_DIRECTORY
    DIRECTORY_STRIP_PREFIX"""
ENDINGS = [(STACK, [""]), (READS, ["", "_SNAPSHOT", "_DATABASE"]), (WRITES, ["", "_DATABASE"]), (DIRECTORIES, [""])]

# Every operation but PUSH.
NAMES = {name + ending for names, endings in ENDINGS for name in names.split() for ending in endings}


class TextFault(Exception):
    """Why a text or its lines are refused: the line, counted from 1, and what is wrong with it."""

    def __init__(self, line, what):
        super().__init__(f"line {line}: {what}")
        self.line, self.what = line, what


class BadAt(Exception):
    """A byte of a line fits no rule: the place, and what was wanted there."""

    def __init__(self, place, wanted="the end of the line"):
        super().__init__(f"bad at {place}")
        self.place, self.wanted = place, wanted


DIGITS = "digits without a leading zero"
HEXADECIMAL = "a lower-case hexadecimal digit"
ESCAPE = r"`\\` for a backslash, or `\x` and two lower-case digits for a byte that doesn't stand for itself"
UTF8 = "a Unicode string whose bytes are UTF-8"
ELEMENT = "an element: null, true, false, a number, b'..', u'..', uuid:.., stamp:.. or a tuple in parentheses"


# Writing.


def quoted(string):
    return printable(string).replace("'", "\\x27")


def element_text(element):
    """Returns the one spelling of an element."""
    if element is None:
        return "null"
    if isinstance(element, bool):
        return "true" if element else "false"
    if isinstance(element, int):
        return str(element)
    if isinstance(element, bytes):
        return f"b'{quoted(element)}'"
    if isinstance(element, str):
        return f"u'{quoted(element.encode())}'"
    if isinstance(element, uuid.UUID):
        return f"uuid:{element.hex}"
    if isinstance(element, Versionstamp):
        return f"stamp:{element.stamp.hex()}.{element.user}"
    return f"({' '.join(map(element_text, element))})"


def section_lines(prefix, instructions):
    """Returns the lines of a machine's instructions, each a tuple of a name and, for PUSH, of an element."""
    return [f"@ {printable(prefix)}", *(" ".join([name, *map(element_text, elements)]) for name, *elements in instructions)]


def pair_line(key, value):
    """Returns the K line of a pair."""
    return f"K {printable(key)}\\={printable(value)}"


def pairs_of(sections):
    """Returns the pairs of sections, each of a prefix and its instructions, in their order."""
    return [(pack((prefix, number)), pack(it)) for prefix, instructions in sections for number, it in enumerate(instructions)]


# Reading.


class Line:
    """Reads one line from the left. What it lacks at its end is told at the place of its line feed."""

    def __init__(self, string):
        self.string, self.at = string, 0

    def next(self):
        return self.string[self.at : self.at + 1]

    def walk(self, word):
        """Reads this word, which is bad at its first other byte."""
        for byte in word:
            if self.next() != bytes([byte]):
                raise BadAt(self.at, f"`{chr(byte)}`" + (f" of `{word.decode()}`" if len(word) > 1 else ""))
            self.at += 1

    def escape(self, plain):
        """Reads what begins with a backslash; `plain` has the bytes that stand for themselves."""
        if self.string.startswith(b"\\\\", self.at):
            self.at += 2
            return b"\\"
        digits = self.string[self.at + 2 : self.at + 4]
        if self.string[self.at + 1 : self.at + 2] != b"x" or len(digits) != 2 or digits.strip(b"0123456789abcdef"):
            raise BadAt(self.at, ESCAPE)
        byte = bytes([int(digits, 16)])
        if byte in plain or byte == b"\\":
            raise BadAt(self.at, ESCAPE)
        self.at += 4
        return byte

    def byte(self, plain):
        """Reads the spelling of one byte."""
        if self.next() == b"\\":
            return self.escape(plain)
        if not self.next() or self.next() not in plain:
            raise BadAt(self.at, "a byte from 20 to 7E, or an escape" + ("" if b"'" in plain else ", and at the end a quote"))
        self.at += 1
        return self.string[self.at - 1 : self.at]

    def digits(self):
        """Reads digits without a leading zero."""
        begin = self.at
        while self.next().isdigit() and (self.at == begin or self.string[begin] != ord("0")):
            self.at += 1
        if self.at == begin:
            raise BadAt(begin, DIGITS)
        return self.string[begin : self.at]

    def hexadecimal(self, count):
        """Reads so many lower-case hexadecimal digits."""
        begin = self.at
        while self.at - begin < count:
            if not self.next() or self.next() not in b"0123456789abcdef":
                raise BadAt(self.at, HEXADECIMAL)
            self.at += 1
        return bytes.fromhex(self.string[begin : self.at].decode())


PLAIN = bytes(byte for byte in range(0x20, 0x7F) if byte != ord("\\"))
QUOTED = PLAIN.replace(b"'", b"")


def number_in(line, least, most):
    """Reads a number within these bounds; one outside is bad at its first byte."""
    begin = line.at
    if least < 0 and line.next() == b"-":
        line.at += 1
        if line.next() == b"0":
            raise BadAt(line.at, "a digit from 1 to 9")
    digits = line.digits()
    if len(digits) > 40 or not least <= int(line.string[begin : line.at]) <= most:
        raise BadAt(begin, f"a number from {least} to {most}")
    return int(line.string[begin : line.at])


def byte_string(line):
    line.walk(b"b'")
    found = bytearray()
    while line.next() != b"'":
        found += line.byte(QUOTED)
    line.at += 1
    return bytes(found)


def is_utf8(string):
    try:
        string.decode()
    except UnicodeDecodeError:
        return False
    return True


def can_become_utf8(string):
    """Whether this is UTF-8 with some bytes more, at most those of one character."""
    return any(is_utf8(string + byte * count) for byte in (b"\x80", b"\xbf") for count in range(4))


def unicode_string(line):
    """Reads a Unicode string, which is bad at its `u` as soon as its bytes can't become UTF-8."""
    begin, found, character = line.at, b"", b""
    line.walk(b"u'")
    while line.next() != b"'":
        character += line.byte(QUOTED)
        if is_utf8(character):
            found, character = found + character, b""
        elif not can_become_utf8(character):
            raise BadAt(begin, UTF8)
    if character:
        raise BadAt(begin, UTF8)
    line.at += 1
    return found.decode()


def word_for(word, element):
    """Returns the reader of a word that stands for an element."""

    def read(line):
        line.walk(word)
        return element

    return read


def universally_unique(line):
    line.walk(b"uuid:")
    return uuid.UUID(bytes=line.hexadecimal(16 * 2))


def versionstamp(line):
    line.walk(b"stamp:")
    stamp = line.hexadecimal(10 * 2)
    line.walk(b".")
    return Versionstamp(stamp, number_in(line, 0, 2**16 - 1))


def nested(line, depth):
    if depth == DEEPEST:
        raise BadAt(line.at, f"an element that isn't nested deeper than {DEEPEST} tuples")
    line.walk(b"(")
    found = []
    while line.next() != b")":
        if found:
            line.walk(b" ")
        found.append(element_of(line, depth + 1))
    line.at += 1
    return tuple(found)


READERS = {
    b"n": word_for(b"null", None),
    b"t": word_for(b"true", True),
    b"f": word_for(b"false", False),
    b"b": byte_string,
    b"s": versionstamp,
}


def element_of(line, depth=0):
    """Reads one element, which lies in so many nested tuples."""
    if line.next() == b"(":
        return nested(line, depth)
    if line.next() == b"u":
        return universally_unique(line) if line.string[line.at + 1 : line.at + 2] == b"u" else unicode_string(line)
    if line.next() in READERS:
        return READERS[line.next()](line)
    if line.next() != b"-" and not line.next().isdigit():
        raise BadAt(line.at, ELEMENT)
    return number_in(line, -(2**127), 2**127 - 1)


def alike(one, other):
    """Returns how many bytes two strings begin with alike."""
    count = 0
    while count < min(len(one), len(other)) and one[count] == other[count]:
        count += 1
    return count


def wanted_name(name):
    """Returns what a line wants that begins with no known name."""
    if name == "PUSH":
        return "a space and an element behind PUSH"
    begun = name.split(" ")[0]
    if begun in NAMES:
        return f"the end of the line: {begun} takes what it needs from the stack"
    near = difflib.get_close_matches(begun, [*NAMES, "PUSH"], 1, 0.6)
    return "the name of an operation" + (f"; is {near[0]} meant?" if near else "")


def instruction_of(line):
    """Reads an instruction: a name that is the rest of its line, or PUSH with an element."""
    if line.string.startswith(b"PUSH "):
        line.at = len(b"PUSH ")
        return "PUSH", element_of(line)
    name = line.string.decode("latin-1")
    if name not in NAMES:
        raise BadAt(max(alike(known, name) for known in NAMES | {"PUSH"}), wanted_name(name))
    line.at = len(line.string)
    return (name,)


def prefix_of(line, taken):
    """Reads the prefix of a section, which isn't among those that are taken."""
    line.walk(b"@ ")
    found = bytearray()
    while line.next():
        begin = line.at
        found += line.byte(PLAIN)
        if len(found) > LONGEST_PREFIX:
            raise BadAt(begin, f"a prefix of at most {LONGEST_PREFIX} bytes")
    if bytes(found) in taken:
        raise BadAt(len(b"@ "), "a prefix that hasn't come before")
    return bytes(found)


def lines_of(text):
    """Yields the lines of a text: the number, the bytes before the line feed, and whether there is one."""
    begin, number = 0, 0
    while begin < len(text):
        number += 1
        feed = text.find(b"\n", begin)
        end = len(text) if feed < 0 else feed
        if min(end + 1, len(text)) > MOST_BYTES:
            raise TextFault(number, "too many")
        if end - begin > LONGEST_LINE:
            raise TextFault(number, "too long")
        yield number, text[begin:end], feed >= 0
        begin = end + 1


class Sections:
    """The sections of a text, while its lines are read."""

    def __init__(self):
        self.found, self.count = [], 0

    def is_open(self):
        """Whether a section has no instruction yet."""
        return bool(self.found) and not self.found[-1][1]

    def add(self, string):
        """Reads one line. Returns the line as it was read."""
        line = Line(string)
        if string.startswith(b"@"):
            if self.is_open():
                raise BadAt(0, "an instruction: the section before has none")
            self.found.append((prefix_of(line, {prefix for prefix, _ in self.found}), []))
        elif self.found:
            self.found[-1][1].append(instruction_of(line))
        else:
            raise BadAt(0, "`@ ` and the prefix of a machine, as a text begins")
        return line


def sections_of(text):
    """Reads a text, and returns its sections, each of a prefix and its instructions; or raises TextFault for its first fault."""
    sections, number = Sections(), 0
    for number, string, has_feed in lines_of(text):
        sections.count += not string.startswith(b"@")
        if sections.count > MOST_LINES:
            raise TextFault(number, "too many")
        try:
            line = sections.add(string)
            if line.at < len(string) or not has_feed:
                raise BadAt(line.at, "the end of the line" if has_feed else "a line feed")
        except BadAt as fault:
            raise TextFault(number, fault) from fault
        if sections.found[-1][1] and len(pack(sections.found[-1][1][-1])) > LONGEST_VALUE:
            raise TextFault(number, "too long")
    if sections.is_open():
        raise TextFault(number + 1, BadAt(0, "an instruction: the section before has none"))
    return sections.found


def wanted_in_text(text, number, place):
    """Returns what was wanted at the place of a line, where that is the first fault of the text; else None."""
    try:
        sections_of(text)
    except TextFault as fault:
        bad = fault.what
        return bad.wanted if isinstance(bad, BadAt) and (fault.line, bad.place) == (number, place) else None
    return None


def stripped(text):
    """Returns a text without its empty lines and its comments, and of each line that stays the number that it had."""
    lines = text.split(b"\n")
    kept = [(number, line) for number, line in enumerate(lines, 1) if line.strip(b" \t") and not line.lstrip(b" \t").startswith(b"#")]
    ends_open = kept and kept[-1][0] == len(lines)
    left = b"\n".join(line for _, line in kept) + (b"" if ends_open or not kept else b"\n")
    return left, [number for number, _ in kept]


def assembled(text):
    """Returns the K lines of a text."""
    return "".join(pair_line(*pair) + "\n" for pair in pairs_of(sections_of(text)))


def pair_of(string, has_feed):
    """Reads a K line."""
    line = Line(string)
    if not string.startswith(b"K"):
        raise BadAt(0)
    line.walk(b"K ")
    key, value = bytearray(), bytearray()
    while not string.startswith(b"\\=", line.at):
        key += line.byte(PLAIN)
        if key[0] == 0xFF:
            raise BadAt(len(b"K "))
    line.at += len(b"\\=")
    while line.next():
        value += line.byte(PLAIN)
    if not has_feed:
        raise BadAt(line.at)
    return bytes(key), bytes(value)


def pairs_in(lines):
    """Reads K lines, and returns their pairs in order; or raises TextFault for the first fault."""
    found, count = [], 0
    for number, string, has_feed in lines_of(lines):
        count += string.startswith(b"K")
        if count > MOST_LINES:
            raise TextFault(number, "too many")
        try:
            key, value = pair_of(string, has_feed)
        except BadAt as fault:
            raise TextFault(number, fault) from fault
        if len(key) > LONGEST_KEY or len(value) > LONGEST_VALUE:
            raise TextFault(number, "too long")
        found.append((key, value))
    return found


def instruction_in(value):
    """Returns the instruction that these bytes pack, or None."""
    try:
        found = unpack(value)
    except NotATuple:
        return None
    has_element = found[:1] == ("PUSH",)
    if len(found) != 1 + has_element or not (has_element or isinstance(found[0], str) and found[0] in NAMES):
        return None
    return found


def place_of(key):
    """Returns the prefix and the index that a key packs, or None."""
    try:
        found = unpack(key)
    except NotATuple:
        return None
    is_place = len(found) == 2 and isinstance(found[0], bytes) and isinstance(found[1], int) and not isinstance(found[1], bool)
    return found if is_place else None


def sections_in(pairs):
    """Returns the sections that these pairs are, or raises TextFault for the first pair that can't follow."""
    sections = {}
    for number, (key, value) in enumerate(pairs, 1):
        place, instruction = place_of(key), instruction_in(value)
        open_prefix = next(reversed(sections), None)
        if place and place[0] not in sections and place[1] == 0 and len(place[0]) <= LONGEST_PREFIX:
            sections[place[0]] = []
        elif not place or place[0] != open_prefix or place[1] != len(sections[open_prefix]):
            raise TextFault(number, "not an instruction")
        if instruction is None:
            raise TextFault(number, "not an instruction")
        sections[place[0]].append(instruction)
    return list(sections.items())


def disassembled(lines):
    """Returns the text of K lines."""
    return "".join(line + "\n" for section in sections_in(pairs_in(lines)) for line in section_lines(*section))


# Elements beside their spelling, one of each kind and at each bound.
ELEMENTS = [
    ("null", None),
    ("true", True),
    ("0", 0),
    ("-7", -7),
    (str(2**127 - 1), 2**127 - 1),
    (str(-(2**127)), -(2**127)),
    ("b'a\\x00\\\\\\x27\"'", b"a\x00\\'\""),
    ("u'\\xc3\\xa9'", "\u00e9"),
    ("uuid:0123456789abcdef0123456789abcdef", uuid.UUID("0123456789abcdef0123456789abcdef")),
    ("stamp:00000000000000000001.65535", Versionstamp(b"\x00" * 9 + b"\x01", 65535)),
    ("(null u'x' (1 2) ())", (None, "x", (1, 2), ())),
    ("(" * 100 + ")" * 100, functools.reduce(lambda inner, _: (inner,), range(99), ())),
]

# Lines behind `@ p` and where they are bad; those of no instruction, too.
BAD = [
    ("PUSH -0", 6), ("PUSH 007", 6), ("PUSH -", 6), ("GETX", 3), ("GET_", 4), ("PUSH", 4), ("SET x", 3), ("SET ", 3), ("", 0),
    ("PUSH " + str(2**127), 5), ("PUSH " + "9" * 400 + "x", 5), ("PUSH b'\\q'", 7), ("PUSH b'\\x41'", 7), ("PUSH b'\\xFF'", 7), ("PUSH b'", 7),
    ("PUSH u'\\xff\\q'", 5), ("PUSH u'\\xc3\\q'", 11), ("PUSH u'\\xed\\xa0\\q'", 5), ("PUSH u'\\xff", 5), ("PUSH u'\\xc3'", 5), ("PUSH nul", 8),
    ("PUSH (1  2)", 8), ("PUSH (1 )", 8), ("PUSH ( 1)", 6), ("PUSH (1", 7), ("PUSH ())", 7), ("PUSH " + "(" * 101, 105),
    ("PUSH stamp:00000000000000000001.07", 33), ("PUSH stamp:00000000000000000001.65536", 32), ("PUSH uuid:0", 11), ("PUSH ux", 6),
    ("@ q", 0), ("frob", 0),
]  # fmt: skip


# Texts with comments and empty lines, what is left of them, and the numbers of the lines.
COMMENTED = [
    (b"", b"", []),
    (b"@ p\nSET\n", b"@ p\nSET\n", [1, 2]),
    (b"# one\n\n@ p\n  # two\n \nSET\n\n", b"@ p\nSET\n", [3, 6]),
    (b"@ p\nSET\n# end", b"@ p\nSET\n", [1, 2]),
    (b"\n@ p\nSET", b"@ p\nSET", [2, 3]),
    (b"#\n\n", b"", []),
    (b"@ p\nPUSH b'#'\n", b"@ p\nPUSH b'#'\n", [1, 2]),
]


def self_test():
    """Reads and writes the known texts, and returns what comes out otherwise."""
    wrong = [repr(text) for text, left, numbers in COMMENTED if stripped(text) != (left, numbers)]
    for spelling, element in ELEMENTS:
        text = f"@ p\nPUSH {spelling}\nSET\n"
        if sections_of(text.encode()) != [(b"p", [("PUSH", element), ("SET",)])] or disassembled(assembled(text.encode()).encode()) != text:
            wrong.append(spelling)
    for line, place in BAD:
        try:
            wrong.append(f"{line} is {sections_of(f'@ p{chr(10)}{line}{chr(10)}'.encode())}")
        except TextFault as fault:
            wrong += [f"{line} is {fault}"] if str(fault) != f"line 2: bad at {place}" else []
    return wrong


def main(words):
    if words == ["--self-test"]:
        sys.exit("\n".join(self_test()) or 0)
    if words == ["strip"]:
        sys.stdout.buffer.write(stripped(sys.stdin.buffer.read())[0])
        return
    if words in (["--help"], ["-h"]):
        print(__doc__)
        return
    if words not in (["asm"], ["disasm"]):
        print("instruction_text.py: the one word is asm, disasm, strip, --self-test or --help", file=sys.stderr)
        sys.exit(2)
    given = sys.stdin.buffer.read(MOST_BYTES + 1)
    try:
        sys.stdout.write(assembled(given) if words == ["asm"] else disassembled(given))
    except TextFault as fault:
        print(f"fdbtester: {fault}", file=sys.stderr)
        sys.exit(2)


if __name__ == "__main__":
    main(sys.argv[1:])
