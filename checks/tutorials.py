"""Whether a tutorial shows what the examples show and what the documents list. For documents.sh."""

import pathlib
import re

LONG = re.compile(r"([0-9a-f]{8})[0-9a-f]{8,}")
QUOTED = re.compile(r"`([^`]+)`")
COMMANDS = pathlib.Path("docs/use/commands.md")
FORMATS = pathlib.Path("docs/use/formats.md")


def shown_by(path):
    """The lines of an example's script or expected.txt, each as it is and with long words cut as steps.sh cuts them."""
    return [(line.strip(), LONG.sub(r"\1..", line.strip())) for line in path.read_text().splitlines()]


def blocks_of(text):
    """The indented and fenced blocks: the number of the first line, and the lines. An empty line or `..` ends one."""
    block, fenced = [], False
    for number, line in enumerate([*text.splitlines(), ""], 1):
        fence = line.lstrip().startswith("```")
        fenced ^= fence
        if (fenced or line.startswith("    ")) and not fence and line.strip() not in ("", ".."):
            block.append(line.strip())
        elif block:
            yield number - len(block), block
            block = []


def stands_in(block, shown):
    """Whether the lines of a block stand in an example, one after another."""
    return any(
        all(line in pair for line, pair in zip(block, shown[at:]))
        for at in range(len(shown) - len(block) + 1)
    )


def rows_of(text, *header):
    """The numbers and cells of the rows of the tables whose header begins with these words."""
    inside = False
    for number, line in enumerate(text.splitlines(), 1):
        cells = [cell.strip() for cell in line.strip("|").split("|")]
        if not line.startswith("|"):
            inside = False
        elif tuple(cells[: len(header)]) == header:
            inside = True
        elif inside:
            yield number, cells


def answers():
    """The lines that are printed, each with its status, as commands.md and formats.md list them."""
    commands, formats = COMMANDS.read_text(), FORMATS.read_text()
    listed = [("", cells[1], cells[0]) for _, cells in rows_of(commands, "status", "line")]
    listed += [("", cells[0], "7") for _, cells in rows_of(commands, "line", "what is wrong")]
    listed += [("", cells[0], "5") for _, cells in rows_of(commands, "line", "what to do")]
    listed += [("", cells[0], "0") for _, cells in rows_of(formats, "reply")]
    listed += [("refused ", cells[0], "0") for _, cells in rows_of(formats, "refusal")]
    return {(begins + line, status) for begins, cell, status in listed for line in QUOTED.findall(cell)}


def faults_of(text):
    """What is wrong in a tutorial: blocks that no example shows, and lines that are not listed with their status."""
    examples = [shown_by(path) for end in ("sh", "txt", "asm") for path in sorted(pathlib.Path("examples").rglob(f"*.{end}"))]
    for number, block in blocks_of(text):
        if not any(stands_in(block, shown) for shown in examples):
            yield number, f"no example shows these lines, from: {block[0]}"
    known = answers()
    rows = [(number, cells[0], cells[1]) for number, cells in rows_of(text, "line", "status")]
    rows += [(number, cells[0], "0") for number, cells in rows_of(text, "line", "what to do")]
    for number, cell, status in rows:
        for line in QUOTED.findall(cell):
            if (line, status) not in known:
                yield number, f"no line {line} of status {status} is listed in {COMMANDS} or {FORMATS}"
