"""What is computed anew of application code: how codes run, by which lines their steps are told, and what texts assemble
to, by `applications.py`."""

import re

import applications
import commands
from applications import BadLine, NoInstruction

TRAPS = dict(NoInstruction=1, TooFewValues=2, TooManyValues=3, BadAddress=4, DivisionByZero=5, BadRegion=6)
TRAPS |= dict(OutputFull=7, BadReturn=8)
# what the running layer may read
TWO, THREE = {2: {b"k": b"\7\10", b"e": b""}}, {3: {b"t": b"\5"}}
SIGHTS = {"Both": TWO | THREE, "OnlyTwo": TWO, "FromThree": THREE}
TEXT = r'b"((?:[^"\\]|\\.)*)"'


def told(end, words):
    """An end of the tests in the words of `app`."""
    if end == "Stopped":
        trap, place, output = words
        return f"trap {TRAPS[trap.removeprefix('Trap::')]} {place} {output or '-'}"
    return " ".join([{"Halted": "halted", "Out": "out of steps"}[end], *(word or "-" for word in words)])


def app_runs(source):
    """The rows of codes, each with its input, what it may read, its steps and its end."""
    row = r'\(\s*"([0-9a-f]*)",\s*"([0-9a-f]*)",\s*(\w+),\s*([\d_]+),\s*(Halted|Stopped|Out)\(([^)]*)\),?\s*\)'
    for code, input_, sight, steps, end, words in source.rows(row):
        words = [word.strip().strip('"') for word in words.split(",") if word.strip()]
        found, _ = applications.run(bytes.fromhex(code), bytes.fromhex(input_), SIGHTS[sight], int(steps.replace("_", "")))
        source.seen.update(words)
        source.compare(f"run of {code[:40]}", found, told(end, words))


def app_traces(source):
    """The rows of codes, each with its input, what it may read, its steps and the lines of its trace."""
    row = r'\(\s*"([0-9a-f]*)",\s*"([0-9a-f]*)",\s*(\w+),\s*([\d_]+),\s*"(trace [^"]*)",?\s*\)'
    for code, input_, sight, steps, lines in source.rows(row):
        read = SIGHTS[sight]
        told = applications.traced(bytes.fromhex(code), bytes.fromhex(input_), read, int(steps.replace("_", "")))
        wanted = unescaped(re.sub(r"\\\n\s*", "", lines)).decode()
        source.compare(f"trace of {code[:40]}", "".join(f"{line}\n" for line in told), wanted)


def unescaped(text):
    return text.encode().decode("unicode_escape").encode("latin-1")


def app_texts(source):
    """The texts with their codes or first bad lines, and the codes with their texts or what is wrong with them."""
    for text, end, word in source.rows(rf'\(\s*{TEXT},\s*(Code|Line)\(\s*"?(\w*)"?,?\s*\),?\s*\)'):
        try:
            found = "Code", applications.assemble(unescaped(text)).hex()
        except BadLine as bad:
            found = "Line", str(bad.line)
        source.compare(f"text {text[:40]}", found, (end, word))
    for code, end, word in source.rows(r'\(\s*"([0-9a-f]*)",\s*(Text|At)\(\s*(?:b")?([^")]*?)"?,?\s*\),?\s*\)'):
        try:
            found = "Text", "".join(f"{line}\\n" for line in applications.disassemble(bytes.fromhex(code)))
        except NoInstruction as none:
            found = "At", str(none.at)
        source.compare(f"code {code[:40]}", found, (end, word))


def app_trials(source):
    """The codes that are tried or shown, each with what is given besides and its end. What is shown of a code has to
    assemble to it, once the places are taken off."""
    kinds = {"Hex": bytes.fromhex, "Text": unescaped, "Sevens": lambda count: b"\7" * int(count.replace("_", ""))}
    files = {}
    for name, kind, word in source.rows(r'name: "(\w+)",\s*content: Content::(Hex|Text|Sevens)\("?([^")]*)"?\)'):
        files[name] = kinds[kind](word)
    for name, count in source.rows(r'name: "(\w+)",\s*content: Content::Laid\(&\[\("", ([\d_]+), 0\)\]\)'):
        files[name] = bytes(int(count.replace("_", "")))
    for words, status, line in source.rows(r'Step::Ends\(\s*"((?:appcode|showcode) [^"]*)",\s*(\d),\s*"([^"]+)",?\s*\)'):
        found, wanted = commands.answer(words.split(" "), commands.Folder(files)), unescaped(line).decode()
        fits = found.text.startswith(wanted[:-2]) if wanted.endswith(("*\n", "**")) else found.text == wanted
        source.compare(words, (found.status, fits or found.text), (int(status), True))
        if words.startswith("showcode") and found.status == 0:
            without_places = re.sub(r" ; \d+$", "", found.text, flags=re.MULTILINE).encode()
            source.compare(f"code of {words}", applications.assemble(without_places), files[words.split(" ")[1]])
