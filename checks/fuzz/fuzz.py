#!/usr/bin/env python3
"""Gives the program spoilt files, and compares with what peers/commands.py predicts. See checks/fuzz.sh."""

import argparse
import collections
import pathlib
import re
import resource
import shlex
import shutil
import subprocess
import sys
import tempfile
import time

sys.path.insert(0, str(pathlib.Path(__file__).resolve().parents[2] / "peers"))

import cases  # noqa: E402
import commands  # noqa: E402
import devices_shown  # noqa: E402
import pool  # noqa: E402
from lms import sha256  # noqa: E402

# the seconds by the clock after which a call is given up, and the status that it then has
GIVEN_UP, GAVE_UP = 60, -1
HERE = pathlib.Path(__file__).resolve().parent
IMAGE_PLACES = "length", "root", "public", "region 2", "region 3", "state"
AT_ROLES = "key", "owner", "root", "chain", "public", "register", "items", "code"
LINE_ROLES = "script", "draft", "order", "statement", "policy", "text"
INPUTS = ["image", "script", "noise", "root", "chain", "statement", "key", "owner", "code", "draft", "order"]
INPUTS += ["public", "endorsement", "policy", "input", "text", "register", "items"]
OUTPUTS = "image", "script", "noise", "key", "public", "out", "register", "output"
LINES = [
    "words",
    *(f"input image {place}" for place in IMAGE_PLACES),
    *(f"input {role} at N" for role in AT_ROLES),
    *(f"input {role} line N" for role in LINE_ROLES),
    *(f"input {role} length" for role in ("noise", "code")),
    *(f"input {role} too long" for role in INPUTS),
    *(f"read failed {role}" for role in INPUTS),
    *(f"write failed {role}" for role in OUTPUTS),
    *(f"refused {code} N" for code in (20, 21, 22, 23)),
    *(f"refused {code}" for code in (24, 25, 26, 27, 28, 30, 31, 32)),
    *("refused 4 layer", "denied N RULE", "out of steps", *(f"trap {cause} N" for cause in range(1, 9))),
    *("zeroised", "differs", "has statement", "not countersignable", "spent", "no action at N", "full"),
]
REPLIES = ["booted", "off", "tampered", "armed", "at N", "done N N", "kept", "dropped", "value", "absent", "signed N N"]
REPLIES += ["called", "status", "stopped"] + [f"refused {number} {words}" for number, words in commands.machine.REFUSALS.items()]
ANSWERS = ["added", "same", "extended", *(f"refused {number}" for number in (20, 21, 22, 23, 30, 31, 32))]
ANSWERS += ["found", "codes"]
VERDICTS = "old", "new", "unstopped"


def lay(case, folder):
    """Puts the files of a case into a folder."""
    for name in case.folders:
        (folder / name).mkdir()
    for name, bytes_ in case.files.items():
        (folder / name).write_bytes(bytes_)


class Runner:
    """The program in a folder of its own."""

    def __init__(self, program, folder):
        self.program, self.folder = program, folder

    def run(self, case):
        """The status, what is printed, and what goes to standard error."""

        def limited():
            if case.limit is not None:
                resource.setrlimit(resource.RLIMIT_FSIZE, (case.limit, case.limit))

        printed = open("/dev/full", "wb") if case.is_full else subprocess.PIPE
        done = subprocess.run(
            [self.program, *case.words],
            cwd=self.folder,
            stdin=subprocess.DEVNULL,
            stdout=printed,
            stderr=subprocess.PIPE,
            timeout=GIVEN_UP,
            preexec_fn=limited,
            restore_signals=False,
        )
        if case.is_full:
            printed.close()
        return done.returncode, (done.stdout or b"").decode(errors="replace"), done.stderr.decode(errors="replace")

    def left(self):
        """The files that are there, by their names, and the folders."""
        paths = list(self.folder.rglob("*"))
        files = {str(path.relative_to(self.folder)): path.read_bytes() for path in paths if path.is_file()}
        return files, {str(path.relative_to(self.folder)) for path in paths if path.is_dir()}

    def clear(self):
        for path in self.folder.iterdir():
            if path.is_dir():
                shutil.rmtree(path)
            else:
                path.unlink()


class Untold(Exception):
    """The prediction does not say what should come."""


def wrong_in(case, answer, found, after, folders):
    """What is wrong with a call, or None."""
    status, printed, errors = found
    if not is_told(case, status, errors.splitlines()):
        return f"on standard error: {errors}"
    if folders != case.folders:
        return f"there are the folders {sorted(folders)}, and not {sorted(case.folders)}"
    if isinstance(answer.served, devices_shown.Rehearsed):
        return wrong_in_rehearsal(case, answer.served, status, printed, after)
    if answer.served is not None:
        return wrong_in_run(case, answer.served, status, printed, after)
    if status != answer.status or not (case.is_full or answer.prints(printed)):
        return f"status {status}, {printed!r}, and not {answer.status}, {texts_of(answer)}"
    return wrong_files(case, answer.written, after)


def is_told(case, status, lines):
    """Whether a read or a write that failed is told on one line, and a print that failed on one more."""
    least, most = int(status in (4, 5)), int(status in (4, 5)) + int(case.is_full)
    return least <= len(lines) <= most and all(line.startswith("miniboot: ") for line in lines)


def texts_of(answer):
    """What a command may print."""
    return " or ".join(map(repr, (answer.text, *answer.others)))


def wrong_files(case, written, after):
    """Files that hold another thing than they should, or None. One whose write failed may hold anything."""
    wanted = case.files | written
    for name in sorted(wanted.keys() | after.keys()):
        if name in written and written[name] is None:
            continue
        if wanted.get(name) != after.get(name):
            return f"the file {name} is not as it should be"
    return None


def wrong_in_run(case, served, status, printed, after):
    """What is wrong with a run that served events, which then writes its image and prints, or None."""
    others = wrong_files(case, {served.name: None}, after)
    if others:
        return others
    wanted = 0, None
    if case.limit is not None and case.limit < len(served.before):
        wanted = 5, "write failed image\n"
    elif case.is_full and served.events:
        wanted = 5, None
    if status != wanted[0] or wanted[1] not in (None, printed):
        return f"status {status}, {printed!r}, and not {wanted}"
    if wanted[1]:
        return None
    replies = only_replies(served) if case.is_full else printed.splitlines()
    if printed and not printed.endswith("\n"):
        return "the last line does not end"
    return commands.wrong_in_run(served, replies, after.get(served.name))


def wrong_in_rehearsal(case, rehearsed, status, printed, after):
    """What is wrong with a rehearsal, which writes nothing and then prints, or None."""
    others = wrong_files(case, {}, after)
    if others:
        return others
    if not case.is_full:
        if printed and not printed.endswith("\n"):
            return "the last line does not end"
        return devices_shown.wrong_in_rehearsal(rehearsed, status, printed.splitlines())
    # the status of a refusal is kept if its lines cannot be printed
    refused = devices_shown.first_unobeyed(rehearsed.numbers, only_replies(rehearsed))
    wanted = 7 if refused else 5 if rehearsed.events else 0
    return None if status == wanted else f"status {status}, and not {wanted}"


def only_replies(served):
    """The replies that were not printed, if no others could have come."""
    replies, worlds = [], served.worlds
    for event in served.events:
        _, possible = commands.machine.follow(worlds, event, None)
        if len(set(possible)) > 1:
            raise Untold
        worlds, _ = commands.machine.follow(worlds, event, possible[0])
        replies.append(possible[0])
    return replies


class Counts:
    """How many cases ended in which way."""

    def __init__(self):
        self.statuses, self.lines = collections.defaultdict(collections.Counter), collections.Counter()
        self.replies, self.answers, self.verdicts = (collections.Counter() for _ in range(3))
        self.untold, self.wrong, self.tried = 0, 0, 0

    def add(self, case, status, printed):
        self.tried += 1
        self.statuses[case.command][status] += 1
        if case.is_full:
            self.lines["write failed output"] += status == 5
        elif case.command == "rehearse" and status in (0, 7):
            replies = [line for line in printed.splitlines() if not line.startswith("first ")]
            self.replies.update(map(kind_of_reply, replies))
        elif status != 0:
            line = printed.rstrip("\n")
            self.lines[kind_of_line(line)] += 1
        elif case.command == "run":
            self.replies.update(map(kind_of_reply, printed.splitlines()))
        elif case.command in ("fleet", "enrol"):
            self.answers.update(filter(None, map(kind_of_answer, printed.splitlines())))
        elif case.command == "cutat":
            self.verdicts.update(printed.splitlines())

    def show(self, seconds):
        took = " and ".join(
            f"{who} {used.ru_utime + used.ru_stime:.0f} s"
            for who, used in (
                ("of the program", resource.getrusage(resource.RUSAGE_CHILDREN)),
                ("here", resource.getrusage(resource.RUSAGE_SELF)),
            )
        )
        wrong = f"{self.wrong or 'none'} differ, {self.untold or 'none'} not told"
        print(f"\n{self.tried} cases in {seconds:.0f} s (processor time: {took}): {wrong}")
        statuses = sorted({status for counts in self.statuses.values() for status in counts})
        print(f"\n{'status':14}" + "".join(f"{status:>8}" for status in statuses))
        for command, counts in sorted(self.statuses.items()):
            print(f"{command:14}" + "".join(f"{counts[status]:8}" for status in statuses))
        tables = ("line", self.lines, LINES), ("reply", self.replies, REPLIES), ("answer", self.answers, ANSWERS)
        tables += (("state that a power loss leaves", self.verdicts, VERDICTS),)
        for name, counts, known in tables:
            print(f"\n{name:30} times")
            for line in [*known, *sorted(counts.keys() - set(known))]:
                print(f"{line:30} {counts[line]:5}")


def kind_of_line(line):
    """A line with N for its numbers, without the bytes that a code emits."""
    line = re.sub(r"^(refused 2[0-3]|input \S+ at|input \S+ line) \d+$", r"\1 N", line)
    line = re.sub(r"^(refused 3[0-2]) .*", r"\1", line)
    line = re.sub(r"^denied \d+ .*", "denied N RULE", line)
    line = re.sub(r"^(trap \d) \d+ .*", r"\1 N", line)
    line = re.sub(r"^no action at \d+", "no action at N", line)
    return re.sub(r"^out of steps .*", "out of steps", line)


def kind_of_answer(line):
    """The kind of an answer of a register, or None of a line that goes on with one."""
    words = line.split(" ")
    if words[0] == "refused":
        return " ".join(words[:2])
    return words[0] if words[0] in ANSWERS else None


def kind_of_reply(reply):
    words = reply.split(" ")
    if words[0] in ("value", "status", "called"):
        return words[0]
    if words[0] == "refused":
        return reply
    return " ".join([words[0], *("N" for _ in words[1:3])])


def again(case):
    """The command line of a case, which is given in a copy of the folder before/."""
    limit = [] if case.limit is None else ["env", "--ignore-signal=XFSZ", "prlimit", f"--fsize={case.limit}"]
    return told([*limit, "miniboot", *case.words]) + (" >/dev/full" if case.is_full else "")


def expected(case, answer):
    """What a command should do, in words."""
    if isinstance(answer.served, devices_shown.Rehearsed):
        return "replies of the device as peers/machine.py has them, veiled, and all files as they were\n"
    if answer.served is not None:
        return "status 0, replies of the device as peers/machine.py has them, and its image\n"
    lines = [f"status {answer.status}, {texts_of(answer)}"]
    for name, bytes_ in answer.written.items():
        lines.append(f"{name}: " + ("anything" if bytes_ is None else f"SHA-256 {sha256(bytes_).hex()}"))
    return "\n".join([*lines, "all other files as they were", ""])


def keep(number, seed, case, answer, what, found, after):
    """Keeps the files of a case that differs in a folder of their own, with its command line and what was expected."""
    folder = pathlib.Path(tempfile.mkdtemp(prefix="fuzz-"))
    (folder / "before").mkdir()
    lay(case, folder / "before")
    for name, bytes_ in after.items():
        path = folder / "after" / name
        path.parent.mkdir(exist_ok=True, parents=True)
        path.write_bytes(bytes_)
    (folder / "command").write_text(again(case) + "\n")
    (folder / "expected").write_text(expected(case, answer))
    (folder / "found").write_text(f"{what}\nstatus {found[0]}\n{found[1]}{found[2]}")
    print(f"case {number} of seed {seed}: {again(case)}: {what[:400]}")
    print(f"  kept in {folder}; again: checks/fuzz.sh --case {number} {seed}", flush=True)


def told(words):
    """A command line, with bytes that are no text as escapes."""
    return shlex.join(words).encode(errors="backslashreplace").decode()


def try_case(maker, runner, number, counts):
    case = maker.case(number)
    answer = predicted(case, maker.pool)
    lay(case, runner.folder)
    try:
        found = runner.run(case)
    except subprocess.TimeoutExpired:
        found = GAVE_UP, "", f"no end after {GIVEN_UP} s"
    after, folders = runner.left()
    runner.clear()
    try:
        what = wrong_in(case, answer, found, after, folders)
    except Untold:
        counts.untold += 1
        what = None
    counts.add(case, found[0], found[1])
    if what:
        counts.wrong += 1
        keep(number, maker.seed, case, answer, what, found, after)


def predicted(case, kept):
    folder = commands.Folder(case.files, case.folders, case.is_full, case.limit)
    return commands.answer(case.words, folder, kept.workloads)


def main():
    reader = argparse.ArgumentParser()
    reader.add_argument("program", type=pathlib.Path)
    reader.add_argument("seconds", type=int)
    reader.add_argument("seed", type=int)
    reader.add_argument("--cache", type=pathlib.Path, required=True)
    reader.add_argument("--case", type=int, help="this case alone")
    words = reader.parse_args()
    began = time.monotonic()
    made = pool.pool_in(words.cache)
    print(f"seed {words.seed}; keys and devices stand after {time.monotonic() - began:.0f} s", flush=True)
    maker, counts = cases.Maker(made, words.seed), Counts()
    with tempfile.TemporaryDirectory(dir="/dev/shm" if pathlib.Path("/dev/shm").is_dir() else None) as folder:
        runner = Runner(words.program.resolve(), pathlib.Path(folder))
        began = time.monotonic()
        number = 0
        if words.case is not None:
            try_case(maker, runner, words.case, counts)
        while words.case is None and time.monotonic() - began < words.seconds:
            try_case(maker, runner, number, counts)
            number += 1
        counts.show(time.monotonic() - began)
    return 1 if counts.wrong else 0


if __name__ == "__main__":
    sys.exit(main())
