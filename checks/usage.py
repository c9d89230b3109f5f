"""What is made of the text of --help, or compared with it. For documents.sh.

The text is that of the test crates/mb_test_commands/src/tests/help.rt, which the gate compares with what the program
prints. Of it are made the first block of docs/use/commands.md, and the man page and the completions in packaging/. Each
other list of commands has those of the text and no others, with as many words."""

import ast
import dataclasses
import functools
import pathlib
import re

TEST = pathlib.Path("crates/mb_test_commands/src/tests/help.rt")
TABLE = pathlib.Path("crates/mb_top/src/table.rt")
COMMANDS = pathlib.Path("docs/use/commands.md")
STATUSES = pathlib.Path("docs/believe/statuses.md")
FAILURES = pathlib.Path("crates/mb_test_commands/src/tests/failures.rt")
PEER, SHARES = pathlib.Path("peers/commands.py"), pathlib.Path("checks/fuzz/cases.py")
HOSTILE = pathlib.Path("checks/hostile/hostile.py")
MAN, BASH, ZSH = (pathlib.Path("packaging", name) for name in ("miniboot.1", "miniboot.bash", "_miniboot"))
WORD = re.compile(r'^const \w+: Word = \(\s*"(\w+)",\s*Kind::(\w+)(?:\s*\{\s*least: (\w+),\s*most: (\w+))?', re.M)
# the most values that are offered for a number
FEW = 32


@dataclasses.dataclass
class Command:
    """A command of the text: its name, the words after it, and what it does."""

    name: str
    words: list
    does: str


@functools.lru_cache(None)
def printed():
    """What --help and --version print."""
    expected = dict(re.findall(r'^const ([A-Z]+): &str =\s*"([^"]*)";', TEST.read_text(), re.M))
    return expected["HELP"], expected["VERSION"].replace("\\n", "")


@functools.lru_cache(None)
def commands():
    """The commands of the text, in its order; --help and --version are none."""
    found, current = [], None
    for line in printed()[0].splitlines():
        call = re.match(r"  miniboot (\S+)(.*)", line)
        if call:
            current = None if call[1].startswith("-") else Command(call[1], call[2].split(), "")
            found += [current] if current else []
        elif current and line.startswith("      "):
            current.does = f"{current.does} {line.strip()}".strip()
        else:
            current = None
    return found


def summary():
    """What the program is, as the first line of the text says it after its name."""
    return printed()[0].splitlines()[0].split(" ", 1)[1].rstrip(".")


def statuses():
    """Each status with what it means."""
    words = " ".join(printed()[0].split("\nstatus: ", 1)[1].split())
    return [part.split(" ", 1) for part in re.split(r", (?=\d )", words)]


@functools.lru_cache(None)
def kinds():
    """The kind of each word that stands after a command's name, with its least and its most value if it is a number."""
    told = {name: (kind, least, most) for name, kind, least, most in WORD.findall(TABLE.read_text())}
    return {word: told.get(word, ("File", "", "")) for command in commands() for word in command.words}


def words_of(kind):
    return sorted({word for command in commands() for word in command.words if kinds()[word][0] == kind})


def values_of(word):
    """The values of a number that has few."""
    _, least, most = kinds()[word]
    is_few = least.isdigit() and most.isdigit() and int(most) - int(least) < FEW
    return [str(value) for value in range(int(least), int(most) + 1)] if is_few else []


# ---- what is made


def roff(text):
    return text.replace("\\", "\\e").replace("-", "\\-").replace("'", "\\(aq")


def man_page():
    numbers, hexes = words_of("Number"), words_of("Hex")
    yield '.\\" Made of the text of --help by checks/documents.sh --write.'
    yield f'.TH MINIBOOT 1 "" "{printed()[1]}"'
    yield from (".SH NAME", f"miniboot \\- {roff(summary())}", ".SH SYNOPSIS")
    yield from (".B miniboot", ".I COMMAND", ".RI [ WORD \\&..]", ".br")
    yield from (".B miniboot \\-\\-help", ".br", ".B miniboot \\-\\-version", ".SH DESCRIPTION")
    yield (f"Each word in capitals is the name of a file, except these: {', '.join(numbers)} are numbers, and "
           f"{', '.join(hexes)} is bytes in hexadecimal digits.")
    yield "A command reads its inputs in the order of the words, and checks each before it reads the next."
    yield "It prints one text or one line."
    yield ".SH COMMANDS"
    for command in commands():
        yield from (".TP", f'.BI "{command.name} " "{" ".join(command.words)}"', roff(command.does))
    yield from (".TP", ".B \\-\\-help", "prints this list", ".TP", ".B \\-\\-version", "prints the version")
    yield '.SH "EXIT STATUS"'
    for status, means in statuses():
        yield from (".TP", f".B {status}", roff(means))
    yield from (".SH ENVIRONMENT", ".TP", ".B MINIBOOT_TRACE")
    yield "if it is set and not empty, appcode and callcode tell each step of the code on standard error"
    yield from (".SH NOTES", "Files of keys and devices are secret, and not encrypted.")
    yield "The page docs/use/commands.md of the repository has each line that is printed, what each file holds, and which"
    yield "files must never be copied."


def bash_completion():
    yield "# Completion of the words of miniboot, for bash. Made of the text of --help by checks/documents.sh --write."
    yield "_miniboot() {"
    yield "    local word=${COMP_WORDS[COMP_CWORD]} words=()"
    yield "    COMPREPLY=()"
    yield '    if [ "$COMP_CWORD" -eq 1 ]; then'
    names = " ".join([*(command.name for command in commands()), "--help", "--version"])
    yield f'        mapfile -t COMPREPLY < <(compgen -W "{names}" -- "$word")'
    yield "        return"
    yield "    fi"
    yield '    case ${COMP_WORDS[1]} in'
    for command in commands():
        yield f"    {command.name}) words=({' '.join(command.words)}) ;;"
    yield "    esac"
    yield "    case ${words[COMP_CWORD - 2]-} in"
    yield '    "") ;;'
    unknown = words_of("Hex") + [word for word in words_of("Number") if not values_of(word)]
    for word in words_of("Number"):
        if values_of(word):
            yield f'    {word}) mapfile -t COMPREPLY < <(compgen -W "{" ".join(values_of(word))}" -- "$word") ;;'
    yield f"    {' | '.join(unknown)}) ;;"
    yield '    *) mapfile -t COMPREPLY < <(compgen -f -- "$word") ;;'
    yield "    esac"
    yield "}"
    yield "complete -o filenames -F _miniboot miniboot"


def zsh_argument(place, word):
    """How zsh is told of the word at a place after the program's name."""
    action = {"File": "_files", "Hex": " "}.get(kinds()[word][0]) or f"({' '.join(values_of(word))})"
    return f"'{place}:{word}:{action if action != '()' else ' '}'"


def zsh_completion():
    yield "#compdef miniboot"
    yield "# Completion of the words of miniboot, for zsh. Made of the text of --help by checks/documents.sh --write."
    yield "local -a commands=("
    for command in commands():
        quoted = command.does.replace("'", "'\\''").replace(":", "\\:")
        yield f"    '{command.name}:{quoted}'"
    yield "    '--help:prints the list of commands'"
    yield "    '--version:prints the version'"
    yield ")"
    yield "if (( CURRENT == 2 )); then"
    yield "    _describe command commands"
    yield "    return"
    yield "fi"
    yield 'case $words[2] in'
    for command in commands():
        arguments = " ".join(zsh_argument(place, word) for place, word in enumerate(command.words, 2))
        yield f"{command.name}) _arguments '1:command: ' {arguments} ;;"
    yield "esac"


def with_help():
    """The page of commands, with the text as its first block."""
    page = COMMANDS.read_text()
    block = re.search(r"^    .*\n(?:(?:    .*)?\n)*(?=\S)", page, re.M)
    shown = "\n".join(f"    {line}".rstrip() for line in printed()[0].splitlines())
    return f"{page[: block.start()]}{shown}\n\n{page[block.end():]}"


def made():
    """Each file that is made of the text, with its text."""
    yield COMMANDS, with_help()
    for path, lines in (MAN, man_page()), (BASH, bash_completion()), (ZSH, zsh_completion()):
        yield path, "\n".join(lines) + "\n"


# ---- what is compared


def rows_of(page, *header):
    """The cells of the rows of the tables whose header begins with these words."""
    inside = False
    for line in page.read_text().splitlines():
        cells = [cell.strip() for cell in line.strip("|").split("|")]
        if not line.startswith("|"):
            inside = False
        elif tuple(cells[: len(header)]) == header:
            inside = True
        elif inside and "---" not in line:
            yield cells


def assigned(path, name):
    """What a module of Python assigns to a name, as a tree."""
    for node in ast.parse(path.read_text()).body:
        if isinstance(node, ast.Assign) and any(isinstance(it, ast.Name) and it.id == name for it in node.targets):
            return node.value
    return None


def named_in(path, node):
    """The names in a tuple of names, those of other tuples that stand in it with a star among them."""
    if isinstance(node, ast.Starred):
        return named_in(path, node.value)
    if isinstance(node, ast.Tuple):
        return [name for item in node.elts for name in named_in(path, item)]
    other = assigned(path, node.id)
    return named_in(path, other) if isinstance(other, ast.Tuple) else [node.id]


def lists():
    """Each other list of commands: its file, and each command of it with the number of its words, if that says it."""
    yield COMMANDS, [(cells[0].strip("`"), None) for cells in rows_of(COMMANDS, "command", "reads")]
    yield STATUSES, [(cells[0].strip("`"), None) for cells in rows_of(STATUSES, "command", "what holds")]
    peer = assigned(PEER, "COMMANDS")
    yield PEER, [(key.value, value.elts[1].value) for key, value in zip(peer.keys, peer.values)]
    yield SHARES, [(key.value, None) for key in assigned(SHARES, "SHARES").keys]
    yield HOSTILE, [(name.lower(), None) for name in named_in(HOSTILE, assigned(HOSTILE, "COMMANDS"))]
    rows = FAILURES.read_text().split("const COMMANDS: ", 1)[1].split("\n];", 1)[0]
    calls = [call.split() for call in re.findall(r'words: "([^"]*)"', rows)]
    yield FAILURES, [(name, len(words)) for name, *words in calls]


def faults():
    """What is wrong with the other lists: the file, the line, and what."""
    wanted = {command.name: command for command in commands()}
    for path, rows in lists():
        for name in sorted(set(wanted) - {name for name, _ in rows}):
            yield path, 1, f"{name} is not in the list of commands"
        for name, count in rows:
            if name not in wanted:
                yield path, 1, f"{name} is in the list of commands, and --help does not have it"
            elif count not in (None, len(wanted[name].words)):
                yield path, 1, f"{name} has {count} words here, and {len(wanted[name].words)} by --help"
    for name, reads, writes, *_ in rows_of(COMMANDS, "command", "reads"):
        command = wanted.get(name.strip("`"))
        files = {word for word in command.words if kinds()[word][0] == "File"} if command else set()
        if command and set(re.findall(r"\b[A-Z]{2,}\b", f"{reads} {writes}")) != files:
            yield COMMANDS, 1, f"{command.name} reads and writes {', '.join(sorted(files))} by --help"
