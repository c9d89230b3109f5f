#!/usr/bin/env python3
"""Gives each command of the program a hostile world. See checks/hostile.sh, which runs it."""

import argparse
import concurrent.futures
import dataclasses
import functools
import pathlib
import resource
import shutil
import signal
import subprocess
import sys
import tempfile
import time

HERE = pathlib.Path(__file__).resolve().parent
sys.path[:0] = [str(HERE.parents[1] / "peers"), str(HERE.parent / "chains")]

import chains  # noqa: E402
import commands  # noqa: E402
import devices_shown  # noqa: E402
import fleet  # noqa: E402
import forged  # noqa: E402
import hss  # noqa: E402
import images  # noqa: E402
import machine  # noqa: E402
import random_calls  # noqa: E402
from device import owned  # noqa: E402
from lms import sha256  # noqa: E402
from officer import Officer, body, order, order_line, signed_text  # noqa: E402
from orders import read_order  # noqa: E402

LONGEST = chains.LONGEST_FILE
MOST_LINES, MOST_CODE = 65_536, 32_768
# how many more events `cutat` serves than a script has
EVENTS_OF_A_CUT = 3
SECTOR, IMAGE = chains.SECTOR, chains.FLASH + chains.BBRAM
KEY_FIELDS, PUBLIC_FIELDS = (0, 4, 20, 52), (0, 4, 8, 24)
# the code `push 65`, `emit`, `halt`
CODE = bytes.fromhex("01000000414200")
MOST_INPUT = 4_096
# how many trials a process gets at a time, and the seconds after which a call is given up
CHUNK, GIVEN_UP = 100, 600


@dataclasses.dataclass(frozen=True)
class Command:
    """The words of a call, and the role and the name of each file that it reads and then writes, in this order."""

    words: str
    reads: tuple = ()
    writes: tuple = ()


@dataclasses.dataclass(frozen=True)
class Trial:
    """A call over changed files. It ends with this status and line, or as peers/commands.py predicts. The first
    `done` of its outputs are written as ever, and if a write fails, the next one may be anything."""

    command: Command
    changes: tuple = ()
    ends: tuple | None = None
    done: int = 0
    is_torn: bool = False
    # the most bytes that a file takes, and whether nothing can be printed
    limit: int | None = None
    is_full: bool = False


RUN = Command(
    "run image script noise", (("image", "image"), ("script", "script"), ("noise", "noise")), (("image", "image"),)
)
REHEARSE = Command("rehearse image tried noise", (("image", "image"), ("script", "tried"), ("noise", "noise")))
SHOWIMAGE = Command("showimage image", (("image", "image"),))
HISTORY = Command("history root chain", (("root", "root"), ("chain", "chain")))
CUTAT = Command(
    "cutat image script noise 1 00", (("image", "image"), ("script", "script"), ("noise", "noise"))
)
VERIFY = Command("verify root chain 1", (("root", "root"), ("chain", "chain")))
AUDIT = Command("audit image root chain 1", (("image", "image"), ("root", "root"), ("chain", "chain")))
CHAIN = Command("chain image out", (("image", "image"),), (("out", "out"),))
ATTACH = Command("attach chain statement out", (("chain", "chain"), ("statement", "statement")), (("out", "out"),))
FACTORY = Command(
    "factory noise key owner code new",
    (("noise", "noise"), ("key", "key"), ("owner", "owner"), ("code", "code")),
    (("key", "key"), ("image", "new")),
)
KEYGEN = Command("keygen noise made public", (("noise", "noise"),), (("key", "made"), ("public", "public")))
SIGN = Command("sign key draft out", (("key", "key"), ("draft", "draft")), (("key", "key"), ("out", "out")))
COUNTERSIGN = Command(
    "countersign key 3 order out", (("key", "key"), ("order", "order")), (("key", "key"), ("out", "out"))
)
COSIGN = Command(
    "cosign key 3 order draft out",
    (("key", "key"), ("order", "order"), ("draft", "draft")),
    (("key", "key"), ("out", "out")),
)
SHOWORDER = Command("showorder order", (("order", "order"),))
ORDERED = Command("ordered owner order", (("public", "owner"), ("order", "order")))
SHOWKEY = Command("showkey key", (("key", "key"),))
SHOWMAKER = Command("showmaker maker", (("key", "maker"),))
MIGRATE = Command("migrate image out", (("image", "image"),), (("out", "out"),))
GENERATE = Command("generate 1 1 new events draws", (), (("image", "new"), ("script", "events"), ("noise", "draws")))
HSSKEYGEN = Command("hsskeygen noise 2 made public", (("noise", "noise"),), (("key", "made"), ("public", "public")))
ENDORSE = Command("endorse maker root out", (("key", "maker"), ("root", "root")), (("key", "maker"), ("out", "out")))
ENDORSED = Command(
    "endorsed hss root endorsement", (("public", "hss"), ("root", "root"), ("endorsement", "endorsement"))
)
TRUST = Command("trust root chain 1 policy", (("root", "root"), ("chain", "chain"), ("policy", "policy")))
APP = Command("app coded 2 input 100", (("image", "coded"), ("input", "input")))
ASM = Command("asm text out", (("text", "text"),), (("out", "out"),))
DISASM = Command("disasm codes out", (("code", "codes"),), (("out", "out"),))
SHOWCODE = Command("showcode codes", (("code", "codes"),))
FLEET = Command(
    "fleet root register items",
    (("root", "root"), ("register", "register"), ("items", "items")),
    (("register", "register"),),
)
REGISTER = Command("register out", (), (("out", "out"),))
ENROL = Command(
    "enrol root register chain",
    (("root", "root"), ("register", "register"), ("chain", "chain")),
    (("register", "register"),),
)
DEVICES = Command("devices register", (("register", "register"),))
APPCODE = Command("appcode halting input 100", (("code", "halting"), ("input", "input")))
CALLCODE = Command(
    "callcode counting secrets input next",
    (("code", "counting"), ("text", "secrets"), ("input", "input")),
    (("out", "next"),),
)
LEAST_NOISE = {RUN: 32, REHEARSE: 0, CUTAT: 32, FACTORY: 48, KEYGEN: 32, HSSKEYGEN: 32}
# those whose short inputs end as peers/commands.py predicts
PREDICTED = (
    *(HSSKEYGEN, ENDORSE, ENDORSED, TRUST, APP, APPCODE, ASM, DISASM),
    *(FLEET, REGISTER, ENROL, DEVICES),
    *(COSIGN, SHOWORDER, ORDERED, SHOWKEY, SHOWMAKER, CALLCODE, SHOWCODE),
)
COMMANDS = (
    *(RUN, REHEARSE, SHOWIMAGE, HISTORY, CUTAT, VERIFY, AUDIT, CHAIN, ATTACH, FACTORY, KEYGEN, SIGN, COUNTERSIGN, MIGRATE, GENERATE),
    *PREDICTED,
)
# chains of other files
STATED, LAST, NO_KEY = Command("verify root attached 1"), Command("verify root full 1"), Command("verify root full 9")
TOLD, TOLD_LAST = Command("history root attached"), Command("history root full")
ANSWERED, TOLD_ANSWER = Command("verify root answered 1"), Command("history root answered")
ATTACH_ANSWER = Command("attach chain answer out", (("chain", "chain"), ("statement", "answer")), (("out", "out"),))
# of a device whose layer 2 has code that takes calls, and emits its input
CALL = Command("run calling script noise", (("image", "calling"), ("script", "script"), ("noise", "noise")), (("image", "calling"),))
BAD, BAD_AUDIT, BAD_HISTORY = Command("verify root bad 1"), Command("audit image root bad 1"), Command("history root bad")


# ---- the files of each trial


def sample():
    """The files that each trial has: of a device whose key 1 made a statement, and then layers 1 and 3 were loaded."""
    device, officer = owned(), Officer(sha256(b"officer"))
    device.make_key(3)
    _, statement = device.sign(3, 1, b"a message")
    _, answer = device.stated(device.key_of(3, 1), b"an answer", sha256(b"an input"))
    device.load(1)
    device.load(3)
    targets = f"target serial {device.serial.hex()}\ntarget length 9\n"
    draft = f"order load 2\n{targets}version 7\ntrust always never\ncode 00ff\n"
    text = body(draft)
    files = {
        "image": device.image(),
        "script": b"boot\nput 2 pin 35363738\nget 2 pin\ncommand 00\nsign 3 1 6869\noff\n",
        "tried": b"#\nboot\nput 2 pin 35363738\nget 2 pin\nsign 3 1 6869\noff\n",
        "noise": bytes(range(48)),
        "root": device.maker.public(),
        "chain": device.chain(),
        "statement": statement.hex().encode() + b"\n",
        "answer": answer.hex().encode() + b"\n",
        "key": officer.key_file(),
        "owner": officer.public(),
        "code": b"code of layer 1",
        "draft": draft.encode(),
        "order": order_line(order(text, officer.key.sign(0, signed_text(text)))).encode(),
        "full": forged.chain(longest().log),
    }
    for words in (["attach", "chain", "statement", "attached"], ["attach", "chain", "answer", "answered"]):
        files |= chains.answer(words, files.get)[2]
    return files | tools_files(files)


def tools_files(files):
    """The files of the commands on makers' keys, policies, the code of applications, and registers."""
    maker, root = hss.Maker(hss.seed_of(b"maker".ljust(32, b"\0")), 2), files["root"]
    code = sha256(b"some code").hex()
    text = "label again\n" + "push 65\nemit\nget token\n" * 12 + "jump again\ncall 0\nhalt\n"
    made = {
        "maker": maker.file(31),
        "hss": maker.public(),
        "endorsement": maker.endorse(32, root),
        "policy": f"# a policy\nset known {code} {code}\nallow all and kind epoch not code 1 known\n".encode(),
        "coded": coded(files["image"], CODE),
        "calling": coded(files["image"], random_calls.ECHOING),
        "halting": CODE,
        "counting": random_calls.COUNTER,
        "secrets": b"secret k -\nsecret c 00000007\n",
        "input": b"what the code is given",
        "text": text.encode(),
        "register": fleet.spelled({bytes(16): fleet.Row(3, (bytes(32), None, None), (bytes(32), bytes(32)))}),
        "items": fleet.shows(files["chain"]) + b"\3\1" + b"\2\1" + bytes(32),
    }
    return made | {"codes": commands.answer(["asm", "text", "codes"], commands.Folder(made)).written["codes"]}


def coded(image, code):
    """The image of the device after a load of layer 2 with this code."""
    text = body(f"order load 2\nversion 7\ntrust always\ncode {code.hex()}\n")
    signature = Officer(sha256(b"owner", b"\2")).key.sign(1, signed_text(text))
    loaded = read_order(order(text, signature))
    return images.image_of(machine.obey(images.meaning(image), loaded, bytes(32)))


@functools.lru_cache(None)
def longest():
    """A device with a log of the most entries."""
    return forged.Forger(length=forged.MOST).device


def changed(bytes_, change):
    """The bytes of a file after a change, None for no file, or `folder`."""
    what, *how = change
    if what == "cut":
        return bytes_[: how[0]]
    if what == "turn":
        return bytes_[: how[0]] + bytes([bytes_[how[0]] ^ 1 << how[1]]) + bytes_[how[0] + 1 :]
    if what == "fill":
        return bytes_[: how[0]].ljust(how[0], b"\7")
    return {"gone": None, "folder": "folder", "is": how[0] if how else None}[what]


# ---- kinds of trials


def calls_fail(files):
    """Each read fails for want of the file and at a folder of its name; each write for want of room, or at a folder of
    the file's name, and printing for want of room."""
    for command in COMMANDS:
        for role, name in command.reads:
            for what in "gone", "folder":
                yield Trial(command, ((name, what),), (4, f"read failed {role}\n"))
        # no more room than before the shortest of these outputs ends, but room for the outputs before it
        room = {"key": 10, "image": 1_000, "out": 100, "register": 100}
        if len(command.writes) == 1:
            room = dict.fromkeys(room, 5)
        for number, (role, name) in enumerate(command.writes):
            wanted = 5, f"write failed {role}\n"
            if (role, name) not in command.reads:
                yield Trial(command, ((name, "folder"),), wanted, number, True)
            if role in room:
                yield Trial(command, (), wanted, number, True, room[role])
        yield Trial(command, (), (5, ""), len(command.writes), is_full=True)


def long_inputs(files):
    """Each input is one byte too long, which its line reports, or as long as it may be."""
    for command in COMMANDS:
        for role, name in command.reads:
            yield Trial(command, ((name, "fill", LONGEST + 1),), (3, f"input {role} too long\n"))
            # noise may go on, and is not used there
            done = len(command.writes) if role == "noise" else 0
            yield Trial(command, ((name, "fill", LONGEST),), ends_of_longest(command, role), done)


def ends_of_longest(command, role):
    """The end of a command whose input goes on to the most bytes, or None if peers/commands.py predicts it."""
    if command in (ENDORSE, SHOWMAKER) and role == "key":
        return (3, "input key at 45\n")
    if role in ("key", "root", "owner"):
        return (3, f"input {role} at 56\n")
    if role in ("image", "code"):
        return (3, f"input {role} length\n")
    lines = {"script": 7, "draft": 7, "order": 2, "statement": 2, "policy": 4, "text": 3 if command is CALLCODE else 41}
    return (3, f"input {role} line {lines[role]}\n") if role in lines else None


def short_inputs(files):
    """Each input ends near its beginning, near its end and at regular steps between; an image where sectors begin."""
    for command in COMMANDS:
        for role, name in command.reads:
            for at in offsets_of(role, len(files[name])):
                if command in PREDICTED:
                    yield Trial(command, ((name, "cut", at),))
                else:
                    yield from short_input(command, role, name, files[name], at)
    for at in range(len(files["attached"]) - chains.SIGNATURE - 20, len(files["attached"]), 7):
        yield Trial(STATED, (("attached", "cut", at),))
        yield Trial(TOLD, (("attached", "turn", at, at % 8),))
    for at in range(len(files["answered"]) - chains.SIGNATURE - 60, len(files["answered"]), 7):
        yield Trial(ANSWERED, (("answered", "cut", at),))
        yield Trial(ANSWERED, (("answered", "turn", at, at % 8),))
        yield Trial(TOLD_ANSWER, (("answered", "turn", at, at % 8),))
    for at in range(0, len(files["answer"]), 7):
        yield Trial(ATTACH_ANSWER, (("answer", "cut", at),))


# the steps at which inputs of long roles end, in bytes
STEPS = {"image": SECTOR, "chain": 31, "statement": 7, "order": 7, "endorsement": 7, "items": 31}
NEAR = 40


def offsets_of(role, length):
    """Where an input of this length ends."""
    step = STEPS.get(role, 1)
    near = set() if role == "image" else {*range(NEAR), *range(length - NEAR, length)}
    return sorted({*range(0, length, step)} | {at for at in near if 0 <= at < length})


def short_input(command, role, name, bytes_, at):
    """The trial in which an input ends here, if its end is known to be reported."""
    change = ((name, "cut", at),)
    fields = {"key": KEY_FIELDS, "owner": PUBLIC_FIELDS, "root": PUBLIC_FIELDS}
    if role in fields:
        begins = max(field for field in fields[role] if field <= at)
        yield Trial(command, change, (3, f"input {role} at {begins}\n"))
    elif role == "image":
        yield Trial(command, change, (3, "input image length\n"))
    elif role == "chain":
        yield Trial(command, change)
    elif role == "noise":
        if at < LEAST_NOISE[command]:
            yield Trial(command, change, (3, "input noise length\n"))
    elif role != "code" and is_told(role, bytes_, at):
        line = bytes_[:at].count(b"\n") + 1
        yield Trial(command, change, (3, f"input {role} line {line}\n"))


def is_told(role, text, at):
    """Whether a text cannot end here: before a word; in a draft also before a line; in one long word anywhere."""
    if role in ("order", "statement"):
        return at < len(text) - 1
    before = text[at - 1 : at]
    return before == b" " or (role == "draft" and before in (b"", b"\n"))


def last_entries(files):
    """The last of 128 entries ends at each of its bytes, and each byte has a bit flipped. peers/commands.py
    predicts."""
    begins = len(forged.chain(longest().log[:-1])) - 1
    for at in range(begins, len(files["full"])):
        yield Trial(LAST, (("full", "cut", at),))
        yield Trial(LAST, (("full", "turn", at, at % 8),))
        yield Trial(TOLD_LAST, (("full", "turn", at, at % 8),))
    yield Trial(NO_KEY)


def forged_entries(files):
    """In the place of the last of 128 entries stands one that a device signed against the rules."""
    for _, _, bytes_ in forged.last_chains():
        yield Trial(BAD, (("bad", "is", bytes_),))
        yield Trial(BAD_AUDIT, (("bad", "is", bytes_),))
        yield Trial(BAD_HISTORY, (("bad", "is", bytes_),))


def limits(files):
    """The longest script and one line more; the largest code and one byte more, by a draft, an order and a device."""
    off = b"off\n"
    yield Trial(RUN, (("script", "is", off * MOST_LINES),), (0, "off\n" * MOST_LINES), 1)
    yield Trial(RUN, (("script", "is", off * (MOST_LINES + 1)),), (3, f"input script line {MOST_LINES + 1}\n"))
    yield Trial(REHEARSE, (("tried", "is", off * MOST_LINES),), (0, "off\n" * MOST_LINES))
    replies = "off\n" * (MOST_LINES - 1) + f"refused 1 off\nfirst {MOST_LINES} refused 1 off\n"
    yield Trial(REHEARSE, (("tried", "is", off * (MOST_LINES - 1) + b"go\n"),), (7, replies))
    yield Trial(REHEARSE, (("tried", "is", off * (MOST_LINES + 1)),), (3, f"input script line {MOST_LINES + 1}\n"))
    most = MOST_LINES - EVENTS_OF_A_CUT
    yield Trial(CUTAT, (("script", "is", off * most),), (0, "unstopped\n"))
    yield Trial(CUTAT, (("script", "is", off * (most + 1)),), (3, f"input script line {most + 1}\n"))
    yield Trial(CUTAT, (("script", "is", off * (MOST_LINES + 1)),), (3, f"input script line {MOST_LINES + 1}\n"))
    yield Trial(FACTORY, (("code", "is", bytes(MOST_CODE + 1)),), (3, "input code length\n"))
    yield Trial(FACTORY, (("code", "is", bytes(MOST_CODE)),), (0, f"serial {files['noise'][32:48].hex()}\n"), 2)
    head = b"order load 2\nversion 7\ntrust always\ncode "
    yield Trial(SIGN, (("draft", "is", head + b"07" * MOST_CODE + b"\n"),), (0, "index 0\n"), 2)
    yield Trial(SIGN, (("draft", "is", head + b"07" * (MOST_CODE + 1) + b"\n"),), (3, "input draft line 4\n"))
    # the longest input, which is an action of as many demands as there is room for; and one that has a byte more
    action = b"\37" + (b"\1\1k\200" + bytes(128)) * 31 + b"\2ok"
    for given, reply in (action, "called 6f6b"), (action[:-1], "refused 9 run"), (bytes(MOST_INPUT), "refused 9 run"):
        script = f"boot\ncall 2 - {given.hex()}\noff\n".encode()
        yield Trial(CALL, (("script", "is", script),), (0, f"booted\n{reply}\noff\n"), 1)
    script = f"boot\ncall 2 - {bytes(MOST_INPUT + 1).hex()}\noff\n".encode()
    yield Trial(CALL, (("script", "is", script),), (3, "input script line 2\n"))
    for more, reply in (0, "done 7 9"), (1, "refused 10 text"):
        script = f"boot\n{largest(MOST_CODE + more)}off\n".encode()
        yield Trial(RUN, (("script", "is", script),), (0, f"booted\n{reply}\noff\n"), 1)


def largest(length):
    """The line of a load of layer 2 with this much code, signed by its owner."""
    text = body(f"order load 2\nversion 7\ntrust always\ncode {'07' * length}\n")
    signature = Officer(sha256(b"owner", b"\2")).key.sign(0, signed_text(text))
    return order_line(order(text, signature))


KINDS = {
    "calls that fail": calls_fail,
    "long inputs": long_inputs,
    "short inputs": short_inputs,
    "the last of 128 entries": last_entries,
    "the last of 128 entries, forged": forged_entries,
    "the longest script, the largest code": limits,
}


# ---- trials


def predicted(command, files):
    """How a command ends over these files, as peers/commands.py says."""
    return commands.answer(command.words.split(" "), commands.Folder(files))


class Worker:
    """A folder with the files, in which the program runs."""

    def __init__(self, program, folder, files):
        self.program, self.files = program, files
        self.folder = pathlib.Path(tempfile.mkdtemp(dir=folder))
        for name, bytes_ in files.items():
            (self.folder / name).write_bytes(bytes_)
        self.known = {}

    def lay(self, name, content):
        """Makes this the content of a name."""
        path = self.folder / name
        if path.is_dir():
            path.rmdir()
        if content is None:
            path.unlink(missing_ok=True)
        elif content == "folder":
            path.unlink(missing_ok=True)
            path.mkdir()
        else:
            path.write_bytes(content)

    def seen(self):
        """What each name in the folder holds."""
        return {path.name: "folder" if path.is_dir() else path.read_bytes() for path in self.folder.iterdir()}

    def run(self, trial):
        def begin():
            if trial.limit is not None:
                signal.signal(signal.SIGXFSZ, signal.SIG_IGN)
                resource.setrlimit(resource.RLIMIT_FSIZE, (trial.limit, trial.limit))

        # a process that is not limited is begun in a faster way
        with open("/dev/full", "wb") as full:
            done = subprocess.run(
                [self.program, *trial.command.words.split(" ")],
                cwd=self.folder,
                stdin=subprocess.DEVNULL,
                stdout=full if trial.is_full else subprocess.PIPE,
                stderr=subprocess.PIPE,
                timeout=GIVEN_UP,
                preexec_fn=None if trial.limit is None else begin,
            )
        texts = [(text or b"").decode(errors="replace") for text in (done.stdout, done.stderr)]
        return (done.returncode, texts[0]), texts[1].splitlines()

    def usual(self, trial):
        """The files that the command of a trial writes if no call fails: as peers/commands.py says, but for `run`,
        whose image it does not predict byte by byte."""
        is_like_others = trial.is_torn or trial.is_full or trial.ends is None
        key = trial.command, () if is_like_others else trial.changes
        if key not in self.known:
            before = self.before(key[1])
            seen = before | predicted(trial.command, before).written
            if trial.command in (RUN, CALL):
                self.run(dataclasses.replace(trial, limit=None, is_full=False))
                seen = self.seen()
            self.known[key] = {name: seen.get(name) for _, name in trial.command.writes}
            self.restore(self.seen())
        return self.known[key]

    def before(self, changes):
        """Changes the files, and gives what there is then."""
        there = dict(self.files)
        for name, *change in changes:
            there[name] = changed(self.files.get(name), change)
            self.lay(name, there[name])
        return {name: content for name, content in there.items() if content is not None}

    def restore(self, seen):
        """All files are those of every trial again, after these were seen."""
        for name in seen | self.files:
            if seen.get(name) != self.files.get(name):
                self.lay(name, self.files.get(name))

    def wrong_in(self, trial):
        """What is wrong with a call, or None."""
        usual = self.usual(trial) if trial.done else {}
        before = self.before(trial.changes)
        try:
            found, told = self.run(trial)
        except subprocess.TimeoutExpired:
            return f"{trial.command.words}: no end after {GIVEN_UP} s"
        finally:
            after = self.seen()
            self.restore(after)
        wanted, free = dict(before), set()
        ends = trial.ends
        outputs = [name for _, name in trial.command.writes]
        for name in outputs[: trial.done]:
            wanted[name] = usual[name]
        if trial.is_torn:
            free = set(outputs[trial.done : trial.done + 1])
        if ends is None and trial.command != RUN:
            answer = predicted(trial.command, before)
            ends, wanted = (answer.status, answer.text), wanted | answer.written
            if answer.served and not devices_shown.wrong_in_rehearsal(answer.served, found[0], found[1].splitlines()):
                ends = found
        if found != ends and (ends or found[0] != 0):
            return f"{self.told(trial)}: {found[0]}, {found[1][:100]!r}, and not {ends or 0}"
        # a call of the host that failed is told on one line of standard error
        if len(told) != (found[0] in (4, 5)) or not all(line.startswith("miniboot: ") for line in told):
            return f"{self.told(trial)}: on standard error {told}"
        other = {name for name in after | wanted if name not in free and after.get(name) != wanted.get(name)}
        return f"{self.told(trial)}: {sorted(other)} are not what they should be" if other else None

    @staticmethod
    def told(trial):
        changes = ", ".join(" ".join(str(part)[:40] for part in change) for change in trial.changes)
        return f"{trial.command.words} ({changes}, room {trial.limit}, nothing printed {trial.is_full})"


def begin(*words):
    """Makes the worker of a process."""
    global worker
    worker = Worker(*words)


def wrong_among(trials):
    return [wrong for wrong in map(worker.wrong_in, trials) if wrong]


def try_kind(pool, name, files, every):
    """Tries a kind, and prints a line: how many calls were made, and how many of them were wrong."""
    began, trials = time.monotonic(), list(KINDS[name](files))[::every]
    chunks = [trials[first : first + CHUNK] for first in range(0, len(trials), CHUNK)]
    wrong = 0
    for found in pool.map(wrong_among, chunks):
        wrong += len(found)
        for line in found[:3]:
            print(line, flush=True)
    took = f"{time.monotonic() - began:6.1f} s"
    print(f"{name:38} {len(trials):6} calls {took}{f', {wrong} WRONG' if wrong else ''}", flush=True)
    return len(trials), wrong


def main():
    reader = argparse.ArgumentParser()
    reader.add_argument("program", type=pathlib.Path)
    reader.add_argument("-j", type=int, default=1)
    reader.add_argument("--kinds", nargs="*", default=list(KINDS), help="some of the kinds alone")
    reader.add_argument("--every", type=int, default=1, help="of each kind each so many alone")
    words = reader.parse_args()
    began, files = time.monotonic(), sample()
    if not forged.are_predicted(forged.last_chains(), files):
        return 1
    folder = tempfile.mkdtemp(dir="/dev/shm" if pathlib.Path("/dev/shm").is_dir() else None)
    try:
        with concurrent.futures.ProcessPoolExecutor(
            words.j, initializer=begin, initargs=(words.program.resolve(), folder, files)
        ) as pool:
            counts = [try_kind(pool, name, files, words.every) for name in words.kinds]
    finally:
        shutil.rmtree(folder)
    tried, wrong = map(sum, zip(*counts))
    print(f"{tried} calls in {time.monotonic() - began:.0f} s: {wrong or 'none'} wrong")
    return 1 if wrong else 0


if __name__ == "__main__":
    sys.exit(main())
