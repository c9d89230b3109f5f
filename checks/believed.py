"""How much one has to read to know what a clause says, and whether the documents say so. For believed.sh and
documents.sh."""

import functools
import pathlib
import re
import sys

TOP = pathlib.Path("crates/mb_top/src/commands.rt")
TRAITS = [pathlib.Path("crates/mb_host/src/host.rt"), pathlib.Path("crates/mb_board/src/board.rt")]
USE = re.compile(r"^(?:ghost )?use Rattle\.(\w+)\.specs\.([\w.]+)\.\{([^}]*)\}", re.M)
DECLARED = re.compile(r"^use Rattle\.(\w+)\.specs\.declared\.(\w+)\.(?!TheConstants)(\w+)\.", re.M)
CONSTANTS = re.compile(r"^(?:ghost )?use Rattle\.(\w+)\.specs\.declared\.\w+\.TheConstants\.\{([^}]*)\}", re.M)
TIED = re.compile(r": (\w+) ≡ ")
CLAUSE = re.compile(r"^    ensures (\w+) \{(.*?)\}\n(?=    ensures|\{)", re.M | re.S)
NAMED = re.compile(r"`(?:crates/(\w+)/specs/)?((?:\w+/)?\w+\.antt)`")
FOLDER = re.compile(r"`crates/(\w+)/specs`")
COUNTED = re.compile(
    r"^\s*\| (?:.*\]\()?(?:([^)|]*\.(?:antt|rt))\)|\[([^\]]*)\]\(#[^)]*\)).*\| ([\d,]+) \| ([\d,]+) \|$")
MODEL = ["mb_model", "mb_model_commands"]
NEAR = 0.1


def file_of(crate, module):
    path = pathlib.Path("crates", crate, "specs", module.replace(".", "/") + ".antt")
    return path if path.exists() else None


def constants_in(text):
    """The constants of the code that a text imports, each with its crate."""
    return {(crate, name.strip()) for crate, names in CONSTANTS.findall(text) for name in names.split(",")}


@functools.lru_cache(None)
def tied_constants():
    """The constants that a file ties to their numbers, each with its crate, and that file: of its own crate, or of one
    above."""
    found = {}
    for file in sorted(pathlib.Path("crates").glob("*/specs/NumberLaws.antt")):
        text = file.read_text()
        tied = set(TIED.findall(text))
        found |= {(crate, name): file for crate, name in constants_in(text) if name in tied}
    return found


def used_by(text, words=None):
    """The files of definitions that a text imports; if words are given, only those with an imported name among them.

    A constant of the code stands for the file that ties it to its number, if one does."""
    found = set()
    for crate, module, names in USE.findall(text):
        file = file_of(crate, module)
        imported = {name.split(" as ")[-1].strip() for name in names.split(",")}
        if file and (words is None or imported & words):
            found.add(file)
    for crate, name in constants_in(text):
        file = tied_constants().get((crate, name))
        if file and (words is None or name in words):
            found.add(file)
    return found


def reached(files):
    """These files and all that they import, one from another."""
    found, waiting = set(), set(files)
    while waiting:
        file = waiting.pop()
        found.add(file)
        waiting |= used_by(file.read_text()) - found
    return found


def lines_of(file):
    return sum(1 for line in file.read_text().splitlines()
               if line.strip() and not re.match(r"\s*--|use ", line))


def declared_by(files):
    return {types for file in files for types in DECLARED.findall(file.read_text())}


def untied_in(files):
    """The constants of the code that files of definitions import, and that no file ties to their numbers."""
    found = set().union(*(constants_in(file.read_text()) for file in files))
    return sorted(name for crate, name in found if (crate, name) not in tied_constants())


def clauses_of_top():
    """The clauses of `top` by name, each with the files that it imports."""
    text = TOP.read_text()
    return {
        name: used_by(text, set(re.findall(r"\w+", clause)))
        for name, clause in CLAUSE.findall(text[text.index("\npub fn top"):])
    }


# ---- what is printed

def show(what, files, listed):
    found = reached(files)
    lines, types, constants = sum(map(lines_of, found)), declared_by(found), untied_in(found)
    print(f"{what}: {len(found)} files, {lines:,} lines, {len(types)} declared types, {len(constants)} constants")
    for file in sorted(found) if listed else []:
        print(f"  {lines_of(file):5} {file}")
    for name in constants if listed else []:
        print(f"        {name}")


def main(words):
    listed = words[:1] == ["--files"]
    given = [pathlib.Path(word) for word in words[listed:]]
    for file in given:
        if file.suffix != ".antt" or not file.is_file():
            sys.exit(f"{file} is no file of definitions")
        show(file.name, {file}, listed)
    if not given:
        clauses = clauses_of_top()
        for name, files in clauses.items():
            show(f"`{name}` of `top`", files, listed)
        every = set().union(*clauses.values())
        show("all clauses of `top`", every, listed)
        traits = set().union(*(used_by(file.read_text()) for file in TRAITS))
        show("all clauses of `top`, and the traits", every | traits, listed)


# ---- what the documents say

def sections_of(page):
    """The sections of a page that leads through definitions, each with the files that it names.

    A file stands in the folder that its item names, or in one that the section's text names, or in one of MODEL. If two
    files there have one name, the item names its folder too, as in `machine/Runs.antt`."""
    sections = {}
    for title, text in re.findall(r"^## ([^\n]*)\n(.*?)(?=^## |\Z)", page.read_text(), re.M | re.S):
        parts = re.split(r"\n(?=- |\n)", text)
        own = [crate for part in parts if not part.startswith("- ") for crate in FOLDER.findall(part)]
        files = set()
        for part in parts:
            for crate, name in NAMED.findall(part):
                crates = [crate] if crate else [*FOLDER.findall(part), *own, *MODEL]
                places = [path for place in crates for path in pathlib.Path("crates", place, "specs").rglob(name)]
                files.update(places[:1])
        sections[title] = files
    return sections


def is_near(said, counted):
    return abs(said - counted) <= NEAR * counted


def believed():
    """The files that the clauses of `top` reach."""
    return reached(set().union(*clauses_of_top().values()))


def faults_of(page):
    """The rows of a page that count files and lines of definitions, and are wrong by more than a tenth.

    A row counts what a file of definitions reaches, what the clauses of `top` reach, or what a section names of it."""
    top, sections = believed(), sections_of(page)
    for number, line in enumerate(page.read_text().splitlines(), 1):
        row = COUNTED.match(line)
        if not row:
            continue
        target, section, files, lines = row.groups()
        if section:
            found = sections.get(section, set()) & top
        else:
            found = reached({page.parent / target}) if target.endswith(".antt") else top
        counted = sum(map(lines_of, found))
        if not (is_near(int(files.replace(",", "")), len(found)) and is_near(int(lines.replace(",", "")), counted)):
            yield number, f"there are {len(found)} files and {counted:,} lines"


def unnamed_in(page):
    """The files that the clauses of `top` reach, and that no section of a page names."""
    return sorted(believed() - set().union(*sections_of(page).values()))


if __name__ == "__main__":
    main(sys.argv[1:])
