"""The pages of help, the manual page and the completions, all made from the table of words."""

import textwrap

from words import COMMANDS, LINES, OWN, SHELL_LINES, STATUSES, command_named, option_form, synopsis, takes_file

WIDTH = 118

FOOT = """Until the program is proved and up to date, an unproved build of the same sources runs: it stops where an index, a sum or an access to
memory goes wrong. It takes a minute or two to make, and is made again once a source changes. Where this checkout can't be written to,
the environment variable FDBTESTER_BUILD names a folder for what is built."""

LIMITS = """Limits: a prefix of 1,000 bytes, 64 machines, 30 workers of gen, 10,000 watches, 1,000,000 instructions of a text, 440,005 bytes a line of
the shell."""

PAGES = """README.md begins with a session, and names the pages: docs/guide/compare.md for comparing a binding, docs/reference/operations.md for each operation
and error code, docs/internals/theorem.md for what is proved."""

FILE = "FILE, where one is named, is read in place of standard input."
TEXT_TOO = "Instruction text (docs/reference/text.md) is assembled first, which is known by its first byte."


def filled(text, indent=""):
    return textwrap.fill(" ".join(text.split()), WIDTH, initial_indent=indent, subsequent_indent=indent)


def rows(pairs, indent="  "):
    """Returns a table of two columns, the second wrapped."""
    pairs = list(pairs)
    width = max(len(one) for one, _ in pairs) + 2
    room = " " * (len(indent) + width)
    return "\n".join(
        textwrap.fill(other, WIDTH, initial_indent=indent + one.ljust(width), subsequent_indent=room, break_on_hyphens=False) for one, other in pairs
    )


def call_of(command):
    return synopsis(command) + (" [FILE]" if takes_file(command) else "")


def unique(items):
    """Returns the items in their order, each once."""
    return list(dict.fromkeys(items))


def word_rows():
    """Yields what the words behind the commands mean, each once."""
    for operand in unique(it for command in COMMANDS for it in command.operands):
        yield operand.name, operand.line
    yield "FILE", "a file that is read in place of standard input; instruction text in it is assembled first"
    for option in unique(it for command in COMMANDS for it in command.options):
        yield option_form(option), option.line
    yield "--", "behind it each word is what it is, also one that begins with -"


def whole_page():
    """Returns the page of --help."""
    return "\n".join(
        [
            "Usage: ./fdbtester WORDS < INPUT      runs the program",
            "       ./fdbtester COMMAND            a command of the launcher",
            "",
            "Words of the program:",
            *(f"  {call_of(it)}\n{filled(it.line, ' ' * 6)}" for it in COMMANDS),
            "",
            rows(word_rows()),
            "",
            "Commands of the launcher:",
            rows((f"{it.name} {it.operand}".rstrip(), it.line) for it in OWN),
            "",
            filled(FOOT),
            "",
            "Exit statuses:",
            rows((str(number), line) for number, line in STATUSES),
            "",
            filled(LIMITS),
            "",
            filled(PAGES),
        ]
    )


def command_page(name):
    """Returns the page of one command."""
    command = command_named(name)
    parts = [f"Usage: ./fdbtester {call_of(command)}", "", filled(f"{command.line[0].upper()}{command.line[1:]}.")]
    parts += ["", *(filled(it) for it in command.page)] if command.page else []
    words = [(it.name, it.line) for it in command.operands] + [(option_form(it), it.line) for it in command.options]
    parts += ["", rows(words)] if words else []
    if takes_file(command):
        parts += ["", filled(" ".join([FILE, TEXT_TOO] if command.reads == LINES else [FILE]))]
    if name == "shell":
        parts += ["", shell_page()]
    parts += ["", "Examples:", *(f"  {it}" for it in command.examples)]
    return "\n".join(parts)


def line_form(line):
    return f"{line.name} {line.tokens}".rstrip()


def shell_page():
    """Returns what the lines of the shell do."""
    return "\n".join(
        [
            "Lines:",
            rows((line_form(it), it.line) for it in SHELL_LINES if not it.is_own),
            "",
            "Lines of the launcher, at a terminal alone:",
            rows((line_form(it), it.line) for it in SHELL_LINES if it.is_own),
            "",
            filled(SHELL_NOTE),
        ]
    )


SHELL_NOTE = r"""A token is bytes in printable form: a space is \x20, and no byte at all is \e. At a terminal a token may stand in double quotes, as in
set k "a b", and is then written so; Ctrl-C takes back a line that is half typed, the tabulator completes names, and an empty line is nothing."""


def shell_help(words):
    """Returns what the shell's `help` prints: for a line, or for all."""
    if not words:
        return shell_page()
    for it in SHELL_LINES:
        if it.name == words[0]:
            return f"{line_form(it)}\n{filled(it.line[0].upper() + it.line[1:] + '.', '  ')}"
    return f"help: no line begins with {words[0]}"


# The manual page.


def roff(text):
    """Returns a text as roff has it, in one line."""
    escaped = " ".join(text.split()).replace("\\", "\\e").replace("-", "\\-")
    return "\\&" + escaped if escaped[:1] in (".", "'") else escaped


def tagged(pairs):
    return [line for one, other in pairs for line in (".TP", f".B {roff(one)}", roff(other))]


def synopsis_lines():
    for it in COMMANDS:
        yield from (f".B fdbtester {it.name}", roff(call_of(it)[len(it.name) :]), ".br")
    for it in OWN:
        yield from filter(None, (f".B fdbtester {roff(it.name)}", roff(it.operand), ".br"))


def example_lines():
    for example in (it for command in COMMANDS for it in command.examples):
        yield from (roff(example.replace("./fdbtester", "fdbtester")), ".br")


DESCRIPTION = """fdbtester runs a script of instructions of FoundationDB's bindings tester, without a cluster, and writes the dump that each binding
can be compared with. It is proved to answer as the documents of its distribution say."""
BUILD_PLACE = "the folder for what is built, where the checkout can't be written to"


def sections():
    """Yields the sections of the manual page: the title, and the lines."""
    yield "NAME", ["fdbtester \\- says what a program of FoundationDB transactions must answer"]
    yield "SYNOPSIS", synopsis_lines()
    yield "DESCRIPTION", [roff(DESCRIPTION), ".PP", roff(f"{FILE} Of run and replay: {TEXT_TOO}")]
    yield "COMMANDS", tagged((it.name, f"{it.line[0].upper()}{it.line[1:]}. {' '.join(it.page)}") for it in COMMANDS)
    yield "WORDS", tagged(word_rows())
    yield "COMMANDS OF THE LAUNCHER", tagged((f"{it.name} {it.operand}".rstrip(), it.line) for it in OWN)
    lines = tagged((line_form(it), it.line + (" (at a terminal alone)" if it.is_own else "")) for it in SHELL_LINES)
    yield "LINES OF THE SHELL", [*lines, ".PP", roff(SHELL_NOTE)]
    yield "EXIT STATUS", tagged((str(number), line) for number, line in STATUSES)
    yield "ENVIRONMENT", tagged([("FDBTESTER_BUILD", BUILD_PLACE)])
    yield "EXAMPLES", example_lines()
    yield "SEE ALSO", [roff("README.md of the distribution, and the pages in docs/ that it names.")]


def manual_page():
    """Returns fdbtester.1."""
    lines = ['.\\" Made by scripts/made from the table of words, scripts/launcher/words.py.', '.TH FDBTESTER 1 "" "fdbtester" "User Commands"']
    for title, body in sections():
        lines += [f".SH {title}", *body]
    return "\n".join(lines) + "\n"


# Completions.


def bash_case(command):
    """Returns the arm of a command in the completion for bash."""
    options = " ".join([*(it.name for it in command.options), "--help"])
    files = f"{len(command.operands)}" if takes_file(command) else "none"
    values = "".join(f'((place == {place})) && words="{" ".join(it.values)}"; ' for place, it in enumerate(command.operands) if it.values)
    return f"""        {command.name}) {values}options="{options}"; file_at={files} ;;"""


def bash_completion():
    """Returns the completion for bash."""
    names = " ".join([*(it.name for it in COMMANDS), "help", *(it.name for it in OWN)])
    valued = "|".join(unique(it.name for command in COMMANDS for it in command.options))
    return f"""# Completion of fdbtester for bash, made by scripts/made from the table of words, scripts/launcher/words.py.
_fdbtester() {{
    local word=${{COMP_WORDS[COMP_CWORD]}} before=${{COMP_WORDS[COMP_CWORD-1]}} words="" options="" file_at=none place=0 at
    COMPREPLY=()
    if ((COMP_CWORD == 1)); then
        mapfile -t COMPREPLY < <(compgen -W "{names}" -- "$word")
        return
    fi
    case $before in {valued}) return ;; esac
    for ((at = 2; at < COMP_CWORD; at++)); do
        case ${{COMP_WORDS[at]}} in
        {valued}) ((at++)) ;;
        -*) ;;
        *) ((place++)) ;;
        esac
    done
    case ${{COMP_WORDS[1]}} in
{chr(10).join(bash_case(it) for it in COMMANDS)}
        help) words="{" ".join(it.name for it in COMMANDS)}" ;;
        --install) mapfile -t COMPREPLY < <(compgen -d -- "$word"); return ;;
    esac
    [[ $word == -* ]] && words=$options
    mapfile -t COMPREPLY < <(compgen -W "$words" -- "$word")
    if [[ $place == "$file_at" && $word != -* ]]; then
        mapfile -t COMPREPLY < <(compgen -f -- "$word")
    fi
}}
complete -o filenames -F _fdbtester fdbtester ./fdbtester
"""


def zsh_quoted(text):
    return text.replace("'", "'\\''").replace("[", "\\[").replace("]", "\\]").replace(":", "\\:")


def zsh_arguments(command):
    """Returns what `_arguments` is given for a command."""
    given = [f"'{it.name}=[{zsh_quoted(it.line)}]:number:'" for it in command.options]
    for place, it in enumerate(command.operands, 1):
        given.append(f"'{place}:{it.name}:({' '.join(it.values)})'" if it.values else f"'{place}:{it.name}: '")
    if takes_file(command):
        given.append(f"'{len(command.operands) + 1}:FILE:_files'")
    return " \\\n                ".join(["'--help[prints the page of this command]'", *given])


def zsh_completion():
    """Returns the completion for zsh."""
    lines = "\n".join(f"        '{zsh_quoted(it.name)}:{zsh_quoted(it.line)}'" for it in (*COMMANDS, *OWN))
    arms = "\n".join(f"            {it.name}) _arguments {zsh_arguments(it)} ;;" for it in COMMANDS)
    return f"""#compdef fdbtester
# Completion of fdbtester for zsh, made by scripts/made from the table of words, scripts/launcher/words.py.
_fdbtester() {{
    local -a commands=(
{lines}
        'help:prints a page of help'
    )
    if ((CURRENT == 2)); then
        _describe command commands
        return
    fi
    local command=$words[2]
    shift words
    ((CURRENT--))
    case $command in
{arms}
            help) _values command {" ".join(it.name for it in COMMANDS)} ;;
            --install) _files -/ ;;
    esac
}}
_fdbtester "$@"
"""


# The tables of docs/reference/words.md.


def cell(text):
    """Returns a text as a cell of a table has it."""
    return text.replace("|", "\\|")


def command_table(_):
    rows = (f"| `{call_of(it)}` | {cell(it.line)} |" for it in COMMANDS)
    return "\n".join(["| words | do |", "|---|---|", *rows])


def word_table(_):
    rows = (f"| `{one}` | {cell(other)} |" for one, other in word_rows())
    return "\n".join(["| word | is |", "|---|---|", *rows])


def own_table(_):
    rows = (f"| `{f'{it.name} {it.operand}'.rstrip()}` | {cell(it.line)} |" for it in OWN)
    return "\n".join(["| word | does |", "|---|---|", *rows])


PARTS = (("commands", command_table), ("words", word_table), ("launcher", own_table))
