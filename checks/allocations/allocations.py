#!/usr/bin/env python3
"""Makes each allocation of the program fail in turn. See checks/allocations.sh, which runs it."""

import argparse
import collections
import concurrent.futures
import dataclasses
import functools
import pathlib
import shutil
import subprocess
import sys
import tempfile

CHECKS = pathlib.Path(__file__).resolve().parents[1]
sys.path[:0] = [str(CHECKS.parent / "peers"), str(CHECKS / "hostile"), str(CHECKS / "chains")]

import commands  # noqa: E402
import hostile  # noqa: E402
import random_calls  # noqa: E402
from lms import sha256  # noqa: E402
from officer import Officer, body, countersigned_text, order, order_line, signed_text  # noqa: E402

NO_MEMORY = 6, "no memory\n"
LIKE_OTHERS, LACKS = "as without a failure", "status 6"
# the events that may be answered `no memory`, as each is at some allocation
EVENTS = "boot", "command", "put", "get", "sign", "call"
# inputs for the PIN check of examples/calls
SETUP, WRONG, RIGHT = (input_.hex() for input_ in (b"\0004071SECRET!!", b"\0011111", b"\0014071"))
GIVEN_UP = 600


@dataclasses.dataclass(frozen=True)
class End:
    """How a run ends: its status, what it prints, and all files after it."""

    status: int
    printed: str
    files: dict

    def __eq__(self, other):
        return (self.status, self.printed, self.files) == (other.status, other.printed, other.files)


# ---- the life of a device


class Life:
    """The files of a run: a new device, the events of its life, and the noise of each."""

    def __init__(self):
        maker, *owners = (Officer(sha256(b"life", bytes([n]))) for n in range(4))
        self.owners = dict(enumerate(owners, 1))
        files = {
            "noise": sha256(b"birth") + bytes(range(16)),
            "key": maker.key_file(),
            "owner": self.owners[1].public(),
            "code": b"layer one",
        }
        made = commands.answer("factory noise key owner code image".split(), commands.Folder(files))
        self.image = made.written["image"]
        self.used = dict.fromkeys(self.owners, 0)
        self.events = [(line, b"") for line in ("boot",)]
        for layer in (2, 3):
            self.order(layer - 1, f"establish {layer}\nowner {self.owners[layer].public().hex()}\ntrust countersigned")
        for layer in (2, 3):
            self.order(layer - 1, f"emergency {layer}\nversion 1\ntrust countersigned\ncode 61626{layer}")
        self.order(3, "newkey 3 epoch")
        for line in "go", "put 2 pin 31323334", "go", "put 3 token 00ff", "sign 3 1 68656c6c6f", "off", "boot":
            self.events.append((line, b""))
        self.order(1, "load 1\nversion 2\ntrust always\ncode 6f6e65", (2, 3))
        self.order(3, "load 3\nversion 2\ntrust countersigned\ncode 676869")
        for line in "get 2 pin", "get 3 token", "put 2 pin 35", "drop 3 token", "status", "off", "boot":
            self.events.append((line, b""))
        self.order(2, f"emergency 3\nversion 3\ntrust countersigned\ncode {random_calls.PIN.hex()}")
        self.order(3, "newkey 3 epoch")
        for line in f"call 3 - {SETUP}", f"call 3 - {WRONG}", f"call 3 3 {WRONG}", f"call 3 3 {RIGHT}", "off":
            self.events.append((line, b""))

    def order(self, owner, draft, beside=()):
        """An order by the owner of a layer, countersigned by those of others, and the noise of its event."""
        text = body(f"order {draft}\n")
        signatures = [(layer, self.sign(layer, countersigned_text(layer, text))) for layer in beside]
        line = order_line(order(text, self.sign(owner, signed_text(text)), signatures)).strip()
        self.events.append((line, sha256(b"draw", bytes([len(self.events)]))))

    def sign(self, owner, text):
        self.used[owner] += 1
        return self.owners[owner].key.sign(self.used[owner] - 1, text)

    def files(self, without=None):
        """The files of the run; the event `without` and its noise are left out."""
        events = [event for at, event in enumerate(self.events) if at != without]
        return {
            "image": self.image,
            "script": "".join(line + "\n" for line, _ in events).encode(),
            "noise": b"".join(noise for _, noise in events),
        }


# ---- runs


class Runner:
    """The program in folders of its own, with a library before it that counts its allocations and fails one."""

    def __init__(self, program, library, folder):
        self.program, self.library, self.folder = program, library, folder

    def run(self, words, files, failing=0):
        """The end of a run whose allocation of this number fails, and how many allocations it had."""
        folder = pathlib.Path(tempfile.mkdtemp(dir=self.folder))
        try:
            for name, bytes_ in files.items():
                (folder / name).write_bytes(bytes_)
            calls = folder / ".calls"
            calls.write_bytes(bytes(8))
            done = subprocess.run(
                [self.program, *words.split(" ")],
                cwd=folder,
                env={"LD_PRELOAD": self.library, "CALLS": str(calls), "FAILING": str(failing)},
                stdin=subprocess.DEVNULL,
                capture_output=True,
                timeout=GIVEN_UP,
            )
            count = int.from_bytes(calls.read_bytes(), sys.byteorder)
            calls.unlink()
            after = {path.name: path.read_bytes() for path in folder.iterdir()}
            return End(done.returncode, (done.stdout + done.stderr).decode(errors="replace"), after), count
        finally:
            shutil.rmtree(folder)


def kind_of_end(end, usual, files, words):
    """What an end with a failing allocation is, or None if it may not come."""
    if end == usual:
        return LIKE_OTHERS
    if (end.status, end.printed) == NO_MEMORY:
        if end.files == files:
            return LACKS
        # its device has answered an event so, after its files were written
        if words.startswith("generate ") and end.files == usual.files:
            return f"{LACKS}, its files written"
    return None


def kind_of_life(runner, life, end):
    """The event that was answered `no memory` in a life that otherwise goes as without that event, or None."""
    replies = end.printed.splitlines()
    wanting = [at for at, reply in enumerate(replies) if reply == "no memory"]
    if end.status != 0 or len(wanting) != 1 or wanting[0] >= len(life.events):
        return None
    (at,) = wanting
    without = life_without(runner, life, at)
    if without.status == 0 and without.printed.splitlines() == replies[:at] + replies[at + 1 :]:
        if end.files == without.files | {name: life.files()[name] for name in ("script", "noise")}:
            return f"`no memory` to {life.events[at][0].split(' ')[0]}"
    return None


def kind_of_rehearsal(end, files):
    """What an end of a rehearsal is in which one event was answered `no memory`, or None."""
    replies = end.printed.splitlines()
    if end.status == 7 and end.files == files and replies[:-1].count("no memory") == 1:
        # an empty remark stands before the events
        if replies[-1] == f"first {replies.index('no memory') + 2} no memory":
            return "an event answered `no memory`"
    return None


@functools.lru_cache(None)
def life_without(runner, life, at):
    return runner.run("run image script noise", life.files(at))[0]


def try_each(runner, pool, words, files, other=None):
    """Each allocation of a command fails in turn. Prints how the runs ended, and gives the count of each kind."""
    usual, count = runner.run(words, files)
    kinds, wrong = collections.Counter(), []
    ends = pool.map(lambda number: runner.run(words, files, number)[0], range(1, count + 1))
    for number, end in enumerate(ends, 1):
        kind = kind_of_end(end, usual, files, words) or (other and other(end))
        if kind is None:
            changed = sorted(name for name in files | end.files if files.get(name) != end.files.get(name))
            wrong.append(f"{words}: allocation {number}: status {end.status}, {end.printed[-200:]!r}, changed {changed}")
        kinds[kind or "WRONG"] += 1
    print("\n".join(wrong[:5]), end="\n" if wrong else "")
    told = ", ".join(f"{kinds[kind]} {kind}" for kind in sorted(kinds))
    print(f"{words.split(' ')[0]:12} {count:5} allocations: {told}", flush=True)
    if usual.status != 0 or count == 0:
        print(f"{words}: without a failing allocation: status {usual.status}, {count} allocations, {usual.printed!r}")
        kinds["WRONG"] += 1
    return kinds


def try_life(runner, pool):
    life = Life()
    files = life.files()
    usual, _ = runner.run("run image script noise", files)
    served = commands.answer("run image script noise".split(), commands.Folder(files)).served
    wrong = commands.wrong_in_run(served, usual.printed.splitlines(), usual.files["image"])
    kinds = try_each(runner, pool, "run image script noise", files, lambda end: kind_of_life(runner, life, end))
    missing = [event for event in EVENTS if not kinds[f"`no memory` to {event}"]]
    if wrong or missing:
        print(f"run: {wrong or 'right where none fails'}; no allocation was that of an event {', '.join(missing)}")
        kinds["WRONG"] += 1
    return kinds, usual.files["image"]


def try_guesses(runner, pool, image):
    """A wrong guess and the right one, each without a key and with one: both lack memory at the same allocations, so that
    a lack does not tell which it was. What comes after the event may differ, since a longer answer is printed with more
    memory. Prints how many allocations there were, and gives how many runs were wrong."""
    wrong = 0
    for key in "-", "3":
        scripts = [f"boot\ncall 3 {key} {guess}\noff\n".encode() for guess in (WRONG, RIGHT)]
        tried = [answers_of(runner, pool, {"image": image, "script": script, "noise": b""}) for script in scripts]
        lacking = [[number for number, answer in enumerate(each) if answer == "no memory"] for each in tried]
        same = lacking[0] == lacking[1] and lacking[0]
        counts = " and ".join(str(len(each) - 1) for each in tried)
        print(f"{f'call 3 {key}':12} {counts} allocations, {len(lacking[0])} and {len(lacking[1])} `no memory`", flush=True)
        if not same:
            print(f"call 3 {key}: a wrong guess and the right one differ: {lacking}")
            wrong += 1
    return wrong


def answers_of(runner, pool, files):
    """What the call of a script is answered if no allocation fails, and if each fails in turn."""
    usual, count = runner.run("run image script noise", files)
    ends = pool.map(lambda number: runner.run("run image script noise", files, number)[0], range(1, count + 1))
    # a run that ends with status 6 has answered nothing
    return [(end.printed.splitlines()[1:2] or ["no run"])[0] for end in (usual, *ends)]


def try_all(runner, pool):
    """For how many allocations, and in how many runs, something was wrong."""
    life, image = try_life(runner, pool)
    found, guesses = [life], try_guesses(runner, pool, image)
    sample = hostile.sample()
    for command in hostile.COMMANDS:
        if command is not hostile.RUN:
            files = {name: sample[name] for name in command.words.split(" ") if name in sample}
            other = functools.partial(kind_of_rehearsal, files=files) if command is hostile.REHEARSE else None
            found.append(try_each(runner, pool, command.words, files, other))
    if not all(kinds[LACKS] for kinds in found):
        print("a command never ended with status 6")
        found[0]["WRONG"] += 1
    return sum(sum(kinds.values()) for kinds in found), sum(kinds["WRONG"] for kinds in found) + guesses


def main():
    reader = argparse.ArgumentParser()
    reader.add_argument("program", type=pathlib.Path)
    reader.add_argument("library", type=pathlib.Path)
    reader.add_argument("-j", type=int, default=1)
    words = reader.parse_args()
    folder = tempfile.mkdtemp(dir="/dev/shm" if pathlib.Path("/dev/shm").is_dir() else None)
    try:
        with concurrent.futures.ThreadPoolExecutor(words.j) as pool:
            runner = Runner(words.program.resolve(), str(words.library.resolve()), folder)
            tried, wrong = try_all(runner, pool)
    finally:
        shutil.rmtree(folder)
    print(f"{tried} failing allocations: {wrong or 'none'} wrong")
    return 1 if wrong else 0


if __name__ == "__main__":
    sys.exit(main())
