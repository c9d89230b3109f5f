#!/usr/bin/env bash
# What the documents say of the tree, and what is made of it: documents.sh [--write].
#
# Of crates.txt are made the tables of crates in docs/change/architecture.md and docs/believe/crates.md, and the figure
# of their layers; of the text that a test expects of --help the first block of docs/use/commands.md, and the man page
# and the completions in packaging/. With --write these are written; without it each has to be as it would be written.
#
# Besides, each link in the pages at the top, of docs/, of packaging/, of peers/ and of crates leads to a file that is
# there, and to a heading if it names one; the name in backquotes that a link to definitions or code shows is defined in
# that file, or is the file's own; each path in backquotes that begins in a folder of the repository is there, and so is
# each file of code that is named by its end; no line but that of a table has over 120 columns; each row of a crate's
# page, its README.md, names public calls of the crate, and clauses that these calls have, and so does what the page has
# that they do not say; each clause of each public call has a row there, but for those that the table of common clauses
# in docs/believe/crates.md has. A clause that cites a record of specs/Calls.antt, the file of what the calls of the
# crate promise, is as many clauses as the record has fields, with their names. Each crate has a line in crates.txt,
# with what it owns above it; the tables of commands in docs/use/commands.md and docs/believe/statuses.md, and the lists
# of commands in peers/commands.py, checks/fuzz, checks/hostile and mb_test_commands have the commands of --help, with
# as many words and the same files; the version that CHANGELOG.md names is the one that a test expects of --version, and
# that of the library's header and of its crate for Rust; each block of a tutorial in docs/start/ stands in an example,
# and each line in its tables is listed, with its status, in docs/use/commands.md or docs/use/formats.md; each file of
# definitions that a clause of `top` reaches is named in a section of docs/believe/definitions.md, and the counts of
# such files and their lines there and in docs/believe/theorem.md are right within a tenth. A method of a trait is a
# call of the type that implements it if it has clauses of its own there. Prints a line for each that is wrong, and
# nothing if none is.
set -u
cd "$(dirname "$0")/.." || exit 2

python3 -B - "$@" <<'PYTHON'
import itertools
import pathlib
import re
import sys

sys.path.insert(0, "checks")
import believed
import crates
import tutorials
import usage
from definitions import names_of

LINK = re.compile(r"\[[^\]]*\]\(([^)\s]+)\)")
NAMED = re.compile(r"\[`([^`\]]+)`\]\(([^)\s#]+\.(?:antt|rt))\)")
ITEM = re.compile(r"^\s*(?:pub )?(?:const )?(?:fn|struct|enum|trait|const|type) (\w+)", re.M)
PATH = re.compile(r"`((?:crates|docs|checks|examples|bench|library|packaging|peers|\.ci)/[A-Za-z0-9_./-]+)`")
CODE = re.compile(r"`([a-z_/]+\.rt)`")
WIDEST = 120
HEADER = re.compile(r"^(?:pub )?(?:unsafe )?(impl|trait)\b(.*)")
CALL = re.compile(r'^\s*(pub )?(?:const )?(?:extern "C" )?fn ([a-z_0-9]+)')
CLAUSE = re.compile(
    r"^\s*ensures (?:(?P<name>[a-z_0-9]+) )?\{(?P<text>.*?)(?=^\s*(?:ensures|requires|decreases)\b|\Z)", re.M | re.S
)
PROMISES = "-- What the calls of this crate promise"
RECORD = re.compile(r"^pub record (\w+)(.*?)(?=^\S|\Z)", re.M | re.S)
FIELD = re.compile(r"^  pub (\w+) :", re.M)
UNNAMED = "its one clause"
COMMON = "common clause"
LIBRARY_VERSIONS = {
    "library/include/mb_library.h": r'^#define MB_LIBRARY_VERSION "([\d.]+)"$',
    "library/rust/Cargo.toml": r'^version = "([\d.]+)"$',
}

CODES = [path.as_posix() for path in pathlib.Path("crates").glob("*/src/**/*.rt")]

wrong = []


def report(path, number, what):
    wrong.append(f"{path}:{number}: {what}")


# ---- links and paths

def anchors_of(text):
    """The anchors of the headings, as a page shows them."""
    found = set()
    for line in text.splitlines():
        if line.startswith("#"):
            title = re.sub(r"[^\w\s-]", "", line.lstrip("#").strip().lower())
            found.add(re.sub(r"\s", "-", title))
    return found


def defined_in(file):
    """The names that a file defines, with its own."""
    text = file.read_text()
    return {file.name} | (names_of(text) if file.suffix == ".antt" else set(ITEM.findall(text)))


def check_links(path):
    for number, line in enumerate(path.read_text().splitlines(), 1):
        for target in LINK.findall(line):
            if re.match(r"[a-z]+:", target):
                continue
            name, _, anchor = target.partition("#")
            file = path.parent / name if name else path
            if not file.exists():
                report(path, number, f"no file for the link {target}")
            elif anchor and anchor not in anchors_of(file.read_text()):
                report(path, number, f"no heading for the link {target}")
        for name, target in NAMED.findall(line):
            file = path.parent / target
            if file.exists() and name.split("::")[-1] not in defined_in(file):
                report(path, number, f"{name} is not defined in {target}")
        for name in PATH.findall(line):
            if "/out/" not in name and "NAME" not in name and not pathlib.Path(name).exists():
                report(path, number, f"no file {name}")
        for name in CODE.findall(line):
            if not name.startswith("crates/") and not any(code.endswith("/" + name) for code in CODES):
                report(path, number, f"no file {name} in a crate")
        if len(line) > WIDEST and not line.startswith("|"):
            report(path, number, f"{len(line)} columns")


# ---- public calls and their clauses

def type_of(kind, rest):
    """The type that an impl is for, or the name of a trait."""
    rest = re.sub(r"<[^<>]*(?:<[^<>]*>[^<>]*)*>", "", rest)
    names = re.findall(r"\w+", rest.split("{")[0].split(":")[0].split("where")[0])
    if kind == "impl" and "for" in names:
        names = names[names.index("for") + 1:]
    return names[0] if names else None


def contract_from(lines, at):
    """The lines from that of a call up to its body."""
    depth = 0
    for end in range(at, len(lines)):
        line = lines[end]
        if depth == 0 and line.strip() in ("{", "{}"):
            return lines[at:end]
        depth += sum(line.count(c) for c in "{([") - sum(line.count(c) for c in "})]")
        if depth == 0 and line.rstrip().endswith(";"):
            return lines[at:end + 1]
        if depth == 1 and line.rstrip().endswith("{") and not re.search(r"\b(ensures|requires)\b", line):
            return lines[at:end]
    return lines[at:]


def exported_by(root):
    """The names that the root file of a crate offers: its own, those of its public modules, and those that it uses."""
    if not root.exists():
        return set()
    text = root.read_text()
    names = set(re.findall(r"\w+", " ".join(re.findall(r"^pub use ([^;]*);", text, re.M))))
    modules = [root.parent / f"{name}.rt" for name in re.findall(r"^pub mod (\w+);", text, re.M)]
    for declared in [text, *(path.read_text() for path in modules)]:
        names.update(re.findall(r'^pub (?:(?:extern "C" )?fn|struct|enum|trait) (\w+)', declared, re.M))
    return names


def promises_of(crate):
    """The records of what the calls of a crate promise, by name, with their fields."""
    path = crate / "specs/Calls.antt"
    text = path.read_text() if path.exists() else ""
    return {name: FIELD.findall(rest) for name, rest in RECORD.findall(text)} if text.startswith(PROMISES) else {}


def clauses_in(contract, promises):
    """The names of what a contract ensures: of its clauses, or of the fields of the records that they cite."""
    names = set()
    for clause in CLAUSE.finditer("\n".join(contract)):
        fields = [name for word in re.findall(r"\w+", clause["text"]) for name in promises.get(word, [])]
        names.update(fields or [clause["name"] or UNNAMED])
    return names


def calls_of(crate):
    """The public calls of a crate, by name and by type and name, with their clauses."""
    calls, promises = {}, promises_of(crate)
    exported = exported_by(crate / "src/lib.rt")
    for path in sorted((crate / "src").rglob("*.rt")):
        if "tests" in path.parts or path.name == "tests.rt":
            continue
        lines = path.read_text().splitlines()
        owner, in_trait, of_trait = None, False, False
        for at, line in enumerate(lines):
            if line.startswith("}"):
                owner, in_trait, of_trait = None, False, False
            header = HEADER.match(line)
            if header:
                owner, in_trait = type_of(*header.groups()), header[1] == "trait"
                of_trait = header[1] == "impl" and " for " in line
            call = CALL.match(line)
            if not call or not (call[1] or in_trait or of_trait) or (owner or call[2]) not in exported:
                continue
            clauses = clauses_in(contract_from(lines, at), promises)
            if of_trait and not clauses:
                continue
            name = f"{owner}::{call[2]}" if owner else call[2]
            calls.setdefault(name, set()).update(clauses)
    return calls


def cells_of(line):
    return [cell.strip() for cell in re.split(r"(?<!\\)\|", line.strip().strip("|"))]


def check_rows(path, crate, told, common):
    """The rows of a page on one crate, or of one whose headings name crates."""
    calls, of_one = calls_of(pathlib.Path("crates", crate)) if crate else None, crate is not None
    is_table_of_calls = is_table_of_clauses = False
    for number, line in enumerate(path.read_text().splitlines(), 1):
        if line.startswith("## ") and not of_one:
            named = re.findall(r"`(\w+)`", line)
            crate = named[0] if named else None
            calls = None
            if crate and not pathlib.Path("crates", crate).is_dir():
                report(path, number, f"no crate {crate}")
            elif crate:
                calls = calls_of(pathlib.Path("crates", crate))
        elif not line.startswith("|"):
            is_table_of_calls = is_table_of_clauses = False
        elif cells_of(line)[0] == "call":
            is_table_of_calls = True
        elif cells_of(line)[0] == COMMON:
            is_table_of_clauses = True
        elif is_table_of_clauses:
            common.update(re.findall(r"`(\w+)`", cells_of(line)[0]))
        elif is_table_of_calls and "---" not in line:
            cells = cells_of(line)
            if calls is None:
                report(path, number, "no crate is named in the heading above")
                continue
            clauses = re.findall(r"`(\w+)`", cells[1]) or ([UNNAMED] if UNNAMED in cells[1] else [])
            check_call(path, number, crate, calls, re.findall(r"`([\w:]+)`", cells[0]), clauses)
            for name in re.findall(r"`([\w:]+)`", cells[0]):
                told.setdefault((crate, name), set()).update(clauses)
                if not clauses:
                    report(path, number, f"no clause of {name} is named")


def check_call(path, number, crate, calls, names, clauses):
    """Whether a crate has these calls, and each of them these clauses."""
    for name in names:
        if name not in calls:
            report(path, number, f"{crate} has no public call {name}")
            continue
        for clause in clauses:
            if clause not in calls[name]:
                report(path, number, f"{name} of {crate} has no clause {clause}")


def check_unsaid(path, crate):
    """Whether the calls and clauses are there of which a page says what they do not say."""
    calls = calls_of(pathlib.Path("crates", crate))
    front, _, unsaid = path.read_text().partition("\n## Not said\n")
    for item in re.finditer(r"^- (?:.|\n(?!- |\n))*", unsaid, re.M):
        number = front.count("\n") + 2 + unsaid[: item.start()].count("\n")
        for of in " ".join(item[0][2:].split()).split(": ")[0].split("; "):
            named = re.fullmatch(r"((?:, )?`[\w:]+`)+(?: \(((?:, )?`\w+`)+\))?", of)
            names, _, clauses = of.partition(" (")
            if named:
                called, given = re.findall(r"`([\w:]+)`", names), re.findall(r"`(\w+)`", clauses)
                check_call(path, number, crate, calls, called, given)


def check_proved(shared):
    """Whether each clause of each public call has a row, in the page of its crate."""
    told, common = {}, set()
    folders = sorted(p for p in pathlib.Path("crates").iterdir() if (p / "src").is_dir())
    check_rows(shared, None, told, common)
    for crate in folders:
        page = crate / "README.md"
        if page.exists():
            check_rows(page, crate.name, told, common)
            check_unsaid(page, crate.name)
        else:
            report(page, 0, "the crate has no page")
    for crate in folders:
        for name, clauses in sorted(calls_of(crate).items()):
            for clause in sorted(clauses - told.get((crate.name, name), set()) - common):
                report(crate / "README.md", 0, f"{name} has no row for {clause}")


# ---- what is made, and the version

def check_made():
    """Whether each file that is made of crates.txt or of the text of --help is as it would be made now. With --write it
    is made."""
    for path, text in [*crates.made(), *usage.made()]:
        standing = path.read_text() if path.exists() else ""
        if standing == text:
            continue
        if WRITE:
            path.parent.mkdir(exist_ok=True)
            path.write_text(text)
            continue
        pairs = itertools.zip_longest(standing.splitlines(), text.splitlines())
        number, line = next((number, line) for number, (old, line) in enumerate(pairs, 1) if old != line)
        report(path, number, f"checks/documents.sh --write makes this line {line or 'nothing'!r}")


def check_version(changes):
    """Whether the changes name the version that the test expects the program to print."""
    version = re.search(r"The current version is ([\d.]+),", changes.read_text())
    if not version or f"miniboot {version[1]}" != usage.printed()[1]:
        report(changes, 1, f"--version prints {usage.printed()[1]}, and the current version is another")
    for path, pattern in LIBRARY_VERSIONS.items():
        shown = re.search(pattern, pathlib.Path(path).read_text(), re.M)
        if not version or not shown or shown[1] != version[1]:
            report(path, 1, "the version is another than the current one of CHANGELOG.md")


WRITE = sys.argv[1:] == ["--write"]
if sys.argv[1:] and not WRITE:
    sys.exit("usage: checks/documents.sh [--write]")
check_made()
documents = [page for folder in (".", "packaging", "peers") for page in sorted(pathlib.Path(folder).glob("*.md"))]
documents += [*sorted(pathlib.Path("docs").rglob("*.md")), *sorted(pathlib.Path("crates").glob("*/README.md"))]
for document in documents:
    check_links(document)
check_proved(pathlib.Path("docs/believe/crates.md"))
for path, number, what in [*crates.faults(), *usage.faults()]:
    report(path, number, what)
check_version(pathlib.Path("CHANGELOG.md"))
for tutorial in sorted(set(pathlib.Path("docs/start").glob("*.md")) - {pathlib.Path("docs/start/kit.md")}):
    for number, what in tutorials.faults_of(tutorial.read_text()):
        report(tutorial, number, what)
for counting in (pathlib.Path("docs/believe/theorem.md"), pathlib.Path("docs/believe/definitions.md")):
    for number, what in believed.faults_of(counting):
        report(counting, number, what)
for file in believed.unnamed_in(pathlib.Path("docs/believe/definitions.md")):
    report("docs/believe/definitions.md", 1, f"no section names {file}, which a clause of top reaches")
print("\n".join(wrong), end="\n" if wrong else "")
sys.exit(1 if wrong else 0)
PYTHON
