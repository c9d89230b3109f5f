#!/usr/bin/env python3
"""Gives the program bad chains and statements. See checks/chains.sh, which runs it."""

import argparse
import concurrent.futures
import pathlib
import random
import resource
import shutil
import subprocess
import sys
import tempfile
import time

sys.path.insert(0, str(pathlib.Path(__file__).resolve().parents[2] / "peers"))

import chains  # noqa: E402
import forged  # noqa: E402
from device import owned  # noqa: E402

RANDOM = 400
# the seconds of processor time within which a call has to end, and those by the clock after which it is given up
MOST_SECONDS, GIVEN_UP = 1, 60
# how many numbers of a kind a process tries at a time
CHUNK = 250
# how seldom `attach` and `audit` are tried on chains with cut or flipped entries: once in this many times
SELDOM = 32
MESSAGE = b"a message"


# ---- the files of each trial


def sample():
    """The files that each trial has: of a device whose key 1 made a statement, and then layers 1 and 3 were loaded."""
    device = owned()
    device.make_key(3)
    _, statement = device.sign(3, 1, MESSAGE)
    device.load(1)
    device.load(3)
    files = {"root": device.maker.public(), "image": device.image(), "chain": device.chain()}
    files["statement"] = statement.hex().encode() + b"\n"
    _, _, written = chains.answer(["attach", "chain", "statement", "attached"], files.get)
    return files | written


def first_entries(files):
    """The offset at which the second entry of a chain ends."""
    reader = chains.Reader(files["attached"], 6)
    reader.signed_entry()
    reader.signed_entry()
    return reader.at


def offsets(files):
    """The offsets of the word, the count and the first two entries, and those of the statement."""
    whole = len(files["attached"])
    _, statement = chains.read_chain(files["attached"])
    length = 1 + len(statement.spelled())
    return [*range(first_entries(files)), *range(whole - length, whole)]


def turned(bytes_, at, bit):
    return bytes_[:at] + bytes([bytes_[at] ^ 1 << bit]) + bytes_[at + 1 :]


class Kind:
    """A kind of trials, which are numbered. `calls` gives the words and the bytes of the file `bad` for a number."""

    def __init__(self, name, files):
        self.name, self.files = name, files
        self.offsets = offsets(files)

    def count(self):
        raise NotImplementedError

    def calls(self, number):
        raise NotImplementedError


class Good(Kind):
    """What is right is accepted."""

    def count(self):
        return 1

    def calls(self, number):
        for words in (
            ["chain", "image", "out"],
            ["verify", "root", "chain", "1"],
            ["verify", "root", "attached", "1"],
            ["attach", "chain", "statement", "out"],
            ["audit", "image", "root", "attached", "1"],
        ):
            yield words, b""


class Random(Kind):
    """Random bytes; every other time they follow the beginning of a chain. The first are few."""

    def count(self):
        return RANDOM

    def calls(self, number):
        chance = random.Random(number)
        bytes_ = chance.randbytes(chance.randrange(min(24_000, 2 + number * 100)))
        if number % 2:
            bytes_ = b"MBC1\0" + bytes([chance.randrange(1, 129)]) + bytes([chance.randrange(4)]) + bytes_
        yield ["verify", "root", "bad", "1"], bytes_
        yield ["audit", "image", "root", "bad", str(number)], bytes_
        yield ["attach", "bad", "statement", "out"], bytes_
        yield ["attach", "chain", "bad", "out"], bytes_
        yield ["verify", "bad", "chain", "1"], bytes_[: chance.randrange(60)]


class Long(Kind):
    """Files of the greatest length, and longer ones."""

    def count(self):
        return 2

    def calls(self, number):
        for name in ("chain", "statement"):
            bytes_ = self.files[name].ljust(chains.LONGEST_FILE + number, b"\0")
            yield ["verify", "root", "bad", "1"], bytes_
            yield ["audit", "image", "root", "bad", "1"], bytes_
            yield ["attach", "bad", "statement", "out"], bytes_
            yield ["attach", "chain", "bad", "out"], bytes_
            yield ["verify", "bad", "chain", "1"], bytes_


class Cut(Kind):
    """A chain that ends at an offset."""

    def count(self):
        return len(self.offsets)

    def calls(self, number):
        bytes_ = self.files["attached"][: self.offsets[number]]
        yield ["verify", "root", "bad", "1"], bytes_
        if number % SELDOM == 0:
            yield ["attach", "bad", "statement", "out"], bytes_
            yield ["audit", "image", "root", "bad", "1"], bytes_


class Turned(Kind):
    """A chain with one bit flipped."""

    def count(self):
        return 8 * len(self.offsets)

    def calls(self, number):
        at, bit = self.offsets[number // 8], number % 8
        bytes_ = turned(self.files["attached"], at, bit)
        yield ["verify", "root", "bad", "1"], bytes_
        if number % SELDOM == number // SELDOM % SELDOM:
            yield ["audit", "image", "root", "bad", "1"], bytes_
            yield ["attach", "bad", "statement", "out"], bytes_
            yield ["attach", "bad", "statement", "out"], turned(self.files["chain"], at, bit)


class StatementLine(Kind):
    """The line of a statement that ends early, or has one bit flipped."""

    def count(self):
        return len(self.files["statement"])

    def calls(self, number):
        line = self.files["statement"]
        yield ["attach", "chain", "bad", "out"], turned(line, number, number * 5 % 8)
        if number % 4 == 0:
            yield ["attach", "chain", "bad", "out"], line[:number]


class Forged(Kind):
    """A chain that a device signed against the rules."""

    def __init__(self, name, files):
        super().__init__(name, files)
        self.forged = list(forged.all_chains())

    def count(self):
        return len(self.forged)

    def calls(self, number):
        _, _, bytes_ = self.forged[number]
        yield ["verify", "root", "bad", "1"], bytes_
        yield ["audit", "image", "root", "bad", "1"], bytes_


KINDS = {
    "what is right": Good,
    "random bytes": Random,
    "long files": Long,
    "cuts of entries and statement": Cut,
    "turned bits of entries and statement": Turned,
    "lines of statements": StatementLine,
    "signed against the rules": Forged,
}


# ---- trials


class Worker:
    """A folder with the files, in which the program runs."""

    def __init__(self, program, folder, files):
        self.program, self.files = program, files
        self.folder = pathlib.Path(tempfile.mkdtemp(dir=folder))
        for name, bytes_ in files.items():
            (self.folder / name).write_bytes(bytes_)
        self.kinds = {}

    def kind(self, name):
        if name not in self.kinds:
            self.kinds[name] = KINDS[name](name, self.files)
        return self.kinds[name]

    def run(self, words):
        """The status, what is printed, and how long it took."""
        before = resource.getrusage(resource.RUSAGE_CHILDREN)
        done = subprocess.run(
            [self.program, *words], cwd=self.folder, stdin=subprocess.DEVNULL, capture_output=True, timeout=GIVEN_UP
        )
        after = resource.getrusage(resource.RUSAGE_CHILDREN)
        seconds = after.ru_utime + after.ru_stime - before.ru_utime - before.ru_stime
        return done.returncode, done.stdout.decode(errors="replace") + done.stderr.decode(errors="replace"), seconds

    def seen(self):
        return {path.name: path.stat().st_mtime_ns for path in self.folder.iterdir()}

    def wrong_in(self, words, bytes_):
        """What is wrong with a call, or None, and how long it took."""
        bad = self.folder / "bad"
        bad.write_bytes(bytes_)
        wanted, line, written = chains.answer(words, (self.files | {"bad": bytes_}).get)
        before = self.seen()
        try:
            status, printed, seconds = self.run(words)
        except subprocess.TimeoutExpired:
            return f"{' '.join(words)}: no end after {GIVEN_UP} s", GIVEN_UP
        found = {name for name, time_ in self.seen().items() if before.get(name) != time_}
        made = {name: (self.folder / name).read_bytes() for name in found}
        for name in found - before.keys():
            (self.folder / name).unlink()
        if (status, printed) != (wanted, line):
            return f"{' '.join(words)}: status {status}, {printed!r}, and not {wanted}, {line!r}", seconds
        if made != written:
            return f"{' '.join(words)}: it wrote {sorted(made)}, and not {sorted(written)}, or other bytes", seconds
        if seconds > MOST_SECONDS:
            return f"{' '.join(words)}: it took {seconds:.1f} s", seconds
        return None, seconds

    def trials(self, name, numbers):
        """How many calls were made, the longest time, and what was wrong, with a folder of the files."""
        kind, tried, longest, wrong = self.kind(name), 0, 0, []
        for number in numbers:
            for words, bytes_ in kind.calls(number):
                what, seconds = self.wrong_in(words, bytes_)
                tried, longest = tried + 1, max(longest, seconds)
                if what:
                    kept = tempfile.mkdtemp(prefix="chains-")
                    shutil.copytree(self.folder, kept, dirs_exist_ok=True)
                    wrong.append(f"{name}, {number}: {what}; the files are kept in {kept}")
        return tried, longest, wrong


def begin(*words):
    """Makes the worker of a process."""
    global worker
    worker = Worker(*words)


def trials(name, numbers):
    return worker.trials(name, numbers)


def try_kind(pool, name, files, every):
    """Tries a kind, and prints a line: how many calls were made, and how many of them were wrong."""
    began, numbers = time.monotonic(), range(0, KINDS[name](name, files).count(), every)
    chunks = [numbers[first : first + CHUNK] for first in range(0, len(numbers), CHUNK)]
    tried, longest, wrong = 0, 0, 0
    for calls, seconds, found in pool.map(trials, [name] * len(chunks), chunks):
        tried, longest, wrong = tried + calls, max(longest, seconds), wrong + len(found)
        for line in found[:3]:
            print(line, flush=True)
    took = f"{time.monotonic() - began:6.1f} s, the longest call {longest * 1e3:.0f} ms"
    print(f"{name:38} {tried:6} calls {took}{f', {wrong} WRONG' if wrong else ''}", flush=True)
    return tried, wrong


def main():
    reader = argparse.ArgumentParser()
    reader.add_argument("program", type=pathlib.Path)
    reader.add_argument("-j", type=int, default=1)
    reader.add_argument("--kinds", nargs="*", default=list(KINDS), help="some of the kinds alone")
    reader.add_argument("--every", type=int, default=1, help="of each kind each so many alone")
    words = reader.parse_args()
    began, files = time.monotonic(), sample()
    if not forged.are_predicted(forged.all_chains(), files):
        return 1
    folder = tempfile.mkdtemp()
    try:
        with concurrent.futures.ProcessPoolExecutor(
            words.j, initializer=begin, initargs=(words.program.resolve(), folder, files)
        ) as pool:
            counts = [try_kind(pool, name, files, words.every) for name in words.kinds]
    finally:
        shutil.rmtree(folder)
    tried, wrong = map(sum, zip(*counts))
    print(f"{tried} calls in {time.monotonic() - began:.0f} s: {wrong or 'none'} wrong")
    return 1 if wrong else 0


if __name__ == "__main__":
    sys.exit(main())
