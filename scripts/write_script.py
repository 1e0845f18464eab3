"""Prints scripts of the bindings tester as the K lines that `fdbtester` reads.

Put the instructions of your binding's test into MACHINES, and other pairs of the database into PAIRS; or import
`script_lines`. With `--text` it prints the machines as instruction text, docs/reference/text.md. With `--self-test` it packs known
tuples and compares.
"""

import sys
import uuid

from command_words import Parser
from instruction_text import pair_line, pairs_of, section_lines
from tuple_layer import NotATuple, Versionstamp, pack, unpack

# The machines by their prefixes. Machine 0 is that of the command line; START_THREAD starts the others.
MACHINES = {b"p": [("PUSH", b"v"), ("PUSH", b"k"), ("SET",), ("COMMIT",)]}

# Further pairs of the database, keys and values.
PAIRS = {}


def script_lines(machines, pairs):
    """Returns the K lines of all machines, and of further pairs."""
    return [pair_line(*pair) for pair in [*pairs_of(machines.items()), *pairs.items()]]


def text_lines(machines):
    """Returns the lines of all machines as instruction text."""
    return [line for section in machines.items() for line in section_lines(*section)]


# Tuples and their packed bytes: those of tuple.md, and one at each bound of the integers.
VECTORS = [
    ((), ""),
    ((None,), "00"),
    ((b"foo\x00bar",), "01666f6f00ff62617200"),
    (("F\u00d4O\x00bar",), "0246c3944f00ff62617200"),
    (((b"foo\x00bar", None, ()),), "0501666f6f00ff6261720000ff050000"),
    ((0, 1, -1), "14" "1501" "13fe"),
    ((255, -255, 256, -256), "15ff" "1300" "160100" "12feff"),
    ((-5551212,), "11ab4b93"),
    ((2**64 - 1, 1 - 2**64), "1cffffffffffffffff" "0c0000000000000000"),
    ((2**64, -(2**64)), "1d09010000000000000000" "0bf6feffffffffffffffff"),
    ((2**127 - 1,), "1d107f" + "ff" * 15),
    ((-(2**127),), "0bef7f" + "ff" * 15),
    ((False, True), "2627"),
    ((uuid.UUID(int=1),), "30" + "00" * 15 + "01"),
    ((Versionstamp(b"\x00" * 9 + b"\x01", 258),), "33" + "00" * 9 + "01" + "0102"),
    ((Versionstamp(),), "33" + "ff" * 10 + "0000"),
]

# Bytes that pack no tuple: an integer with a leading zero, a cut string, no code, a long form that is too short.
REFUSED = ["160005", "0161", "ff", "1d0801ffffffffffffff", "050161ff"]


def self_test():
    """Packs and unpacks the vectors, and returns those that come out otherwise."""
    wrong = [repr(elements) for elements, digits in VECTORS if pack(elements).hex() != digits or unpack(bytes.fromhex(digits)) != elements]
    for digits in REFUSED:
        try:
            wrong.append(f"{digits} is {unpack(bytes.fromhex(digits))!r}")
        except NotATuple:
            pass
    return wrong


def main(words):
    parser = Parser("write_script.py", "write_script.py [--text | --self-test]", __doc__)
    some = parser.add_mutually_exclusive_group()
    some.add_argument("--text", action="store_true", help="prints the machines as instruction text")
    some.add_argument("--self-test", action="store_true", help="packs known tuples and compares")
    args = parser.parse_args(words)
    if args.self_test:
        wrong = self_test()
        print("\n".join(wrong), end="\n" if wrong else "", file=sys.stderr)
        return 1 if wrong else 0
    print("\n".join(text_lines(MACHINES) if args.text else script_lines(MACHINES, PAIRS)))
    return 0


if __name__ == "__main__":
    sys.exit(main(sys.argv[1:]))
