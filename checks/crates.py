"""What is made of crates.txt: the tables of crates in two pages, and the figure of their layers. For documents.sh."""

import dataclasses
import functools
import pathlib
import subprocess
import sys

LIST = pathlib.Path("crates.txt")
ARCHITECTURE = pathlib.Path("docs/change/architecture.md")
CLAUSES = pathlib.Path("docs/believe/crates.md")
SCRIPT, FIGURE = "docs/figures/layers.py", pathlib.Path("docs/figures/layers.svg")
HEADING = "## The crates"
ALONE = "no crate stands on it"


@dataclasses.dataclass(frozen=True)
class Crate:
    """A crate, what it owns, and those on which it stands, as its line and the comment above it say."""

    number: int
    name: str
    owns: str
    stands_on: tuple


def listed():
    """The crates of the list, in its order."""
    crates, comment = [], []
    for number, line in enumerate(LIST.read_text().splitlines(), 1):
        name, colon, others = line.partition(":")
        if line.startswith("#"):
            comment.append(line.lstrip("# "))
            continue
        if colon:
            crates.append(Crate(number, name.split()[0], " ".join(comment), tuple(others.split())))
        comment = []
    return crates


def quoted(names):
    return ", ".join(f"`{name}`" for name in names) or "none"


def with_table(page, rows):
    """The text of a page, with these rows in the table under its heading of crates."""
    lines = page.read_text().splitlines()
    first = next(at for at in range(lines.index(HEADING), len(lines)) if lines[at].startswith("|"))
    last = next((at for at in range(first, len(lines)) if not lines[at].startswith("|")), len(lines))
    return "\n".join([*lines[:first], *rows, *lines[last:]]) + "\n"


@functools.lru_cache(None)
def figure():
    """The figure as its script draws it, and what that finds wrong."""
    drawn = subprocess.run([sys.executable, "-B", SCRIPT], capture_output=True, text=True)
    return drawn.stdout, drawn.stderr.splitlines()


def made():
    """Each file that is made of the list, with its text."""
    crates = listed()
    rows = [f"| `{crate.name}` | {crate.owns} | {quoted(crate.stands_on)} |" for crate in crates]
    yield ARCHITECTURE, with_table(ARCHITECTURE, ["| crate | owns | stands on |", "|---|---|---|", *rows])
    rows = [f"| [`{crate.name}`](../../crates/{crate.name}/README.md) | {crate.owns} |" for crate in crates]
    yield CLAUSES, with_table(CLAUSES, ["| crate | owns |", "|---|---|", *rows])
    drawn, wrong = figure()
    if not wrong:
        yield FIGURE, drawn


def faults():
    """What is wrong with the list: the file, the line, and what."""
    crates = listed()
    folders = {path.parent.name for path in pathlib.Path("crates").glob("*/src")}
    below = {name for crate in crates for name in crate.stands_on}
    for crate in crates:
        if crate.name not in folders:
            yield LIST, crate.number, f"no crate {crate.name}"
        if not crate.owns:
            yield LIST, crate.number, f"no comment above {crate.name} says what it owns"
        if ALONE in crate.owns and crate.name in below:
            yield LIST, crate.number, f"a crate stands on {crate.name}"
    for name in sorted(folders - {crate.name for crate in crates}):
        yield LIST, 1, f"no line for the crate {name}"
    for line in figure()[1]:
        yield SCRIPT, 1, line
