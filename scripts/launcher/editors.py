"""The syntax files of instruction text for editors, made from the names of its operations."""

import json
import os
import sys

sys.path.insert(0, os.path.join(os.path.dirname(os.path.realpath(__file__)), ".."))

from instruction_text import NAMES  # noqa: E402

OPERATIONS = sorted({*NAMES, "PUSH"})


def vim_syntax():
    """Returns the syntax file for Vim."""
    names = "\n".join(f"syntax keyword fdbtOperation {it}" for it in OPERATIONS)
    return rf"""" Instruction text of fdbtester, made by scripts/made.
if exists("b:current_syntax")
  finish
endif
syntax case match
syntax match fdbtComment "^\s*#.*$"
syntax match fdbtPrefix "^@ .*$"
{names}
syntax keyword fdbtConstant null true false
syntax match fdbtNumber "-\?\<\(0\|[1-9]\d*\)\>"
syntax match fdbtNumber "\<uuid:[0-9a-f]\{{32\}}\>"
syntax match fdbtNumber "\<stamp:[0-9a-f]\{{20\}}\.\d\+"
syntax region fdbtString start=+\<[bu]'+ end=+'+ oneline contains=fdbtEscape
syntax match fdbtEscape "\\\\\|\\x[0-9a-f]\{{2\}}" contained
highlight default link fdbtComment Comment
highlight default link fdbtPrefix Title
highlight default link fdbtOperation Statement
highlight default link fdbtConstant Constant
highlight default link fdbtNumber Number
highlight default link fdbtString String
highlight default link fdbtEscape SpecialChar
let b:current_syntax = "fdbt"
"""


def vim_detection():
    return '" Instruction text of fdbtester, made by scripts/made.\nautocmd BufRead,BufNewFile *.fdbt setfiletype fdbt\n'


def textmate_grammar():
    """Returns the TextMate grammar, which other editors take too."""
    rules = [
        ("comment.line.number-sign.fdbt", r"^\s*#.*$"),
        ("entity.name.section.fdbt", "^@ .*$"),
        ("keyword.operator.word.fdbt", rf"^({'|'.join(OPERATIONS)})(?=$| )"),
        ("constant.language.fdbt", r"\b(null|true|false)\b"),
        ("constant.numeric.fdbt", r"\b(uuid:[0-9a-f]{32}|stamp:[0-9a-f]{20}\.\d+)\b|(?<![\w:.])-?(0|[1-9]\d*)\b"),
    ]
    string = {
        "name": "string.quoted.single.fdbt",
        "begin": r"\b[bu]'",
        "end": "'|$",
        "patterns": [{"name": "constant.character.escape.fdbt", "match": r"\\\\|\\x[0-9a-f]{2}"}],
    }
    named = [{"name": name, "match": match} for name, match in rules]
    grammar = {
        "name": "fdbtester instruction text",
        "comment": "Made by scripts/made.",
        "scopeName": "source.fdbt",
        "fileTypes": ["fdbt"],
        "patterns": [*named[:2], string, *named[2:]],
    }
    return json.dumps(grammar, indent=2) + "\n"
