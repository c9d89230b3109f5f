#!/usr/bin/env bash
# Tries the wrong bodies of checks/wrong-bodies, or those of the crates that are named: edits in the form of must-fail
# edits, a folder for each crate, which the gate does not try since they take long: checks/wrong_bodies.sh [-j N]
# [CRATE..]. The prover has to refuse each, in a copy of its crate. Prints a line for each that is proved, for each that
# does not apply, and for each that is refused at a proof that was written by hand, which shows nothing of the contract.
# Such an edit is tried again without the answers that no longer fit, and beside it its control: the right body without
# the same answers. If a goal fails that the right body closes, the edit is refused for what it does; if none, it shows
# nothing, since the right body is refused there too. An edit with a line `test: CRATE TEST` is one that no clause can
# refuse: that test of that crate has to fail over it. One with a line `free: REASON` gives an answer that every contract
# leaves free, and has to be proved. The last line counts. Fails if any other is proved, if a free one is refused, or if
# one does not apply. It begins with what `rt check` has kept of each crate, and then takes some ten seconds of a
# processor for each try; a crate of which nothing is kept is proved first. With -j N it tries those of N crates at a
# time.
set -u
cd "$(dirname "$0")/.." || exit 2

if ! command -v rt >/dev/null; then
    echo "rt is not there: no wrong body was tried" >&2
    exit 0
fi

python3 - "$@" <<'PYTHON'
import collections
import concurrent.futures
import os
import pathlib
import queue
import re
import shutil
import subprocess
import sys
import tempfile
import threading

TOP = pathlib.Path.cwd()
EDITS = TOP / "checks" / "wrong-bodies"
PARTS = ["src", "specs", "proofs"]
TRIES = 8

BY_TEST = re.compile(r"^test: (\w+) (\w+)$", re.M)
FREE = re.compile(r"^free: (.+)$", re.M)
AT_A_PROOF = re.compile(r"(?:\./)?(proofs/\S+?):(\d+):\d+: error: (.*)")
AT_A_CLAUSE = re.compile(r"note: (src/\S+: .*)")
# a goal that is left open, with the file in which its answer would stand
OPEN_GOAL = re.compile(r"^note: `(\S+)` of (proofs/\S+) must prove", re.M)
# what the prover says of a text that it cannot read, and of a proof file that names what is gone
UNREAD = re.compile(r"is not in scope|has no field|is no name|operand is missing|expected the end|cannot continue")

counts = collections.Counter()
printing = threading.Lock()


def linked(source, target):
    """A link to the file, or a copy of it where the two places have no links in common."""
    try:
        os.link(source, target)
    except OSError:
        shutil.copy2(source, target)


def make_room(room):
    """The sources of all crates, and links to what is built of them."""
    for name in ["crates.txt", "HANDLES"]:
        shutil.copy(TOP / name, room / name)
    for crate in (TOP / "crates").iterdir():
        restore(room, crate.name)
        if (crate / "out" / "rlib").is_dir():
            shutil.copytree(crate / "out" / "rlib", room / "crates" / crate.name / "out" / "rlib", copy_function=linked)


def restore(room, crate, parts=PARTS):
    """The sources of a crate as they are, or these parts of them."""
    for part in parts:
        own = room / "crates" / crate / part
        if own.exists():
            shutil.rmtree(own)
        if (TOP / "crates" / crate / part).is_dir():
            shutil.copytree(TOP / "crates" / crate / part, own)


def apply(edit, own):
    """Changes the sources, or says why they cannot be changed so."""
    path, old = "", ""
    for line in edit.read_text().split("\n"):
        if line.startswith("file: "):
            path = line[len("file: "):].strip()
        elif line.startswith("old: "):
            old = line[len("old: "):]
        elif line.startswith("new:"):
            if not (own / path).is_file() or (own / path).read_text().count(old) != 1:
                return f"not once in {path}: {old}"
            text = (own / path).read_text().replace(old, line[len("new:"):].removeprefix(" "))
            (own / path).write_text(text)
    return ""


def without(text, numbers):
    """The text of a file of answers without the declarations and the imports that stand at these lines."""
    kept, block, broken = [], [], False
    for number, line in enumerate(text.split("\n"), 1):
        begins = re.match(r"(pub )?(\S+) :|use |--|abbrev ", line)
        if begins:
            kept += [] if broken else block
            block, broken = [], False
        block.append(line)
        broken = broken or number in numbers
    return "\n".join(kept + ([] if broken else block)) + "\n"


def is_unread(line):
    """Whether the prover could not read a text of src/ or specs/, where a false statement reads well."""
    at = re.match(r"(?:\./)?(src|specs)/\S+?:\d+:\d+: error: (?:`[^`]*`: )?(.*)", line)
    return bool(at) and bool(UNREAD.search(re.sub(r"`[^`]*`", "", at[2])))


def check(own):
    """Whether the crate is proved, and what the prover says of it."""
    words = ["rt", "check", "--jobs", "1"]
    ran = subprocess.run(words, cwd=own, capture_output=True, text=True, errors="replace")
    return ran.returncode == 0, ran.stdout + ran.stderr


def misfits(said):
    """The lines of each file of answers at which an answer does not fit."""
    lines = collections.defaultdict(set)
    for path, number, _ in AT_A_PROOF.findall(said):
        if path.endswith(("/Answers.antt", "/Invariants.antt")):
            lines[path].add(int(number))
    return lines


def try_by_prover(own, right):
    """What became of the edited crate. `right` puts the right bodies back, and leaves the proofs."""
    for tries in range(TRIES):
        proved, said = check(own)
        gone = "without answers that no longer fit " if tries else ""
        if proved:
            return "proved", f"{gone}it is proved"
        if "logic=not-proved" not in said or any(map(is_unread, said.split("\n"))):
            return "not judged", said.strip().split("\n")[-1][:160]
        wrong = misfits(said)
        if not wrong and not tries:
            clause, lemma = AT_A_CLAUSE.search(said), AT_A_PROOF.search(said)
            if clause or OPEN_GOAL.search(said):
                return "refused", ""
            return "refused at a lemma", lemma[0][:160] if lemma else said.strip()[-160:]
        if not wrong:
            right()
            return judge(set(OPEN_GOAL.findall(said)), set(OPEN_GOAL.findall(check(own)[1])))
        for path, numbers in wrong.items():
            (own / path).write_text(without((own / path).read_text(), numbers))
    return "not judged", f"after {TRIES} tries answers still do not fit"


def judge(of_edit, of_right):
    """What goals that are open in the edited crate show, beside those that are open with the right body."""
    more, fewer = of_edit - of_right, of_right - of_edit
    # an edit that changes a branch gives the goals under it other names
    if len(more) > len(fewer):
        return "refused by its control", "at " + ", ".join(sorted(goal for goal, _ in more))[:160]
    return "shows nothing", "the right body is refused at as many goals without the answers that no longer fit"


def try_by_test(room, crate, test):
    """What a test says of the edited crate."""
    words, own = ["rt", "try", "--test", "--", test], room / "crates" / crate
    ran = subprocess.run(words, cwd=own, capture_output=True, text=True, errors="replace")
    ended = re.search(rf"^test (?:\S+::)?{test} \.\.\. (ok|FAILED)", ran.stdout + ran.stderr, re.M)
    if not ended:
        return "not judged", f"{crate} ran no test {test}"
    return ("proved", f"{test} of {crate} passes") if ended[1] == "ok" else ("refused", "")


def try_edit(room, crate, edit):
    own = room / "crates" / crate
    restore(room, crate)
    why = apply(edit, own)
    if why:
        return "not applied", why
    by_test, free = BY_TEST.search(edit.read_text()), FREE.search(edit.read_text())
    if by_test:
        return try_by_test(room, *by_test.groups())
    what, text = try_by_prover(own, lambda: restore(room, crate, ["src", "specs"]))
    if free and what == "proved":
        return "free", f"proved, and may be: {free[1]}"
    if free:
        return "not judged", f"refused, though it is said to be free: {text}"
    return what, text


def try_crate(crate, rooms):
    room = rooms.get()
    own = room / "crates" / crate
    # its own work is copied, since a check adds to it
    shutil.rmtree(own / "out", ignore_errors=True)
    if (TOP / "crates" / crate / "out").is_dir():
        shutil.copytree(TOP / "crates" / crate / "out", own / "out")
    for edit in sorted((EDITS / crate).glob("*.edit")):
        what, text = try_edit(room, crate, edit)
        with printing:
            counts[what] += 1
            if text:
                print(f"{crate}/{edit.stem}: {text}", flush=True)
    restore(room, crate)
    rooms.put(room)


words, at_once = sys.argv[1:], 1
if words[:1] == ["-j"]:
    if len(words) < 2 or not re.fullmatch("[1-9][0-9]?", words[1]):
        sys.exit("usage: checks/wrong_bodies.sh [-j N] [CRATE..]")
    at_once, words = int(words[1]), words[2:]
crates = words or sorted(path.name for path in EDITS.iterdir() if path.is_dir())
for crate in crates:
    if not (EDITS / crate).is_dir():
        sys.exit(f"{crate} has no wrong bodies")
with tempfile.TemporaryDirectory() as work, concurrent.futures.ThreadPoolExecutor(at_once) as tries:
    rooms = queue.Queue()
    for number in range(min(at_once, len(crates))):
        room = pathlib.Path(work, str(number))
        (room / "crates").mkdir(parents=True)
        make_room(room)
        rooms.put(room)
    # those with the most edits first, so that none is left alone at the end
    by_length = sorted(crates, key=lambda crate: -len(list((EDITS / crate).glob("*.edit"))))
    list(tries.map(lambda crate: try_crate(crate, rooms), by_length))
kinds = ["refused", "refused by its control", "refused at a lemma", "shows nothing", "free", "proved", "not applied", "not judged"]
print(", ".join(f"{counts[what]} {what}" for what in kinds))
sys.exit(1 if counts["proved"] or counts["not applied"] or counts["not judged"] else 0)
PYTHON
