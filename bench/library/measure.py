#!/usr/bin/env python3
"""Compares verifiers, which bench/library.sh builds: measure.py ROWS NAME PROGRAM [NAME PROGRAM]..

ROWS is a file of signatures, and each program verifies them as measure.c says. A name that begins with `mb_library` is
of the library; the others are what it is compared with. The programs take turns in rounds: in each, every program
verifies the first row, in an order that is drawn anew, then the second row, and so on. A turn is half a millisecond,
twice, since some processors are slower for a while after what ran before. All programs are on one processor, and in the
next round on another. So what else the machine does meets them alike. The least time that a program took for a row
counts, of as many rounds as the environment's ROUNDS names, or 60. It prints a table in microseconds of processor time,
and how many times as long the library takes: for all signatures of LMS, the least and the most of a row; and for all of
them within a round, the median of the rounds.
"""

import os
import pathlib
import random
import statistics
import subprocess
import sys

ROUNDS = int(os.environ.get("ROUNDS", "60"))
# how long a program is measured at a time, in nanoseconds
TURN = 500_000
# how often each row is verified before, by which a virtual machine has compiled what it runs
WARM = 150
# the bytes of an LMS key, and those before it in an HSS key
LMS_KEY, LEVELS = 56, 4


class Row:
    """What a signature is of."""

    def __init__(self, line):
        key = bytes.fromhex(line.split(" ")[1])
        self.is_lms = len(key) == LMS_KEY
        at = 0 if self.is_lms else LEVELS
        self.types = f"{key[at + 3]} and {key[at + 7]}"
        if not self.is_lms:
            self.types += f", {key[3]} levels"


class Program:
    """A program with a verifier, and the time of a call of each row in each round, in nanoseconds."""

    def __init__(self, name, path, rows, count):
        self.name, self.hashes, self.calls = name, [0] * count, [1] * count
        self.times = [[] for _ in range(count)]
        self.process = subprocess.Popen([path, rows], stdin=subprocess.PIPE, stdout=subprocess.PIPE, text=True)

    def ask(self, row, calls):
        """The time of a call of the row."""
        self.process.stdin.write(f"{row} {calls}\n")
        self.process.stdin.flush()
        answer = self.process.stdout.readline().split()
        if not answer:
            sys.exit(f"{self.name} ended with status {self.process.wait()}")
        self.hashes[row] = int(answer[1]) // calls
        return int(answer[0]) / calls

    def warm(self, row):
        self.ask(row, WARM)
        self.calls[row] = max(1, round(TURN / self.ask(row, 10)))

    def turn(self, row):
        self.times[row].append(min(self.ask(row, self.calls[row]) for _ in range(2)))

    def move(self, processor):
        """Has all threads of the program run on this processor alone."""
        for thread in pathlib.Path(f"/proc/{self.process.pid}/task").iterdir():
            os.sched_setaffinity(int(thread.name), {processor})

    def least(self, row):
        return min(self.times[row])

    def end(self):
        self.process.stdin.close()
        self.process.wait()


def measure(programs, count):
    for program in programs:
        for row in range(count):
            program.warm(row)
    processors, order = sorted(os.sched_getaffinity(0)), random.Random(59)
    for turn in range(ROUNDS):
        for program in programs:
            program.move(processors[turn % len(processors)])
        for row in range(count):
            for program in order.sample(programs, len(programs)):
                program.turn(row)


def print_table(programs, rows, lms):
    width = max(len(program.name) for program in programs) + 2

    def line(title, hashes, times):
        print(f"{title:<18}{hashes or '':>8}" + "".join(f"{time / 1e3:>{width}.1f}" for time in times))

    hashes = [max(program.hashes[row] for program in programs) for row in range(len(rows))]
    print(f"{'types':<18}{'hashes':>8}" + "".join(f"{program.name:>{width}}" for program in programs))
    for row, it in enumerate(rows):
        line(it.types, hashes[row], [program.least(row) for program in programs])
    line("all of LMS", sum(hashes[row] for row in lms), [sum(map(program.least, lms)) for program in programs])


def print_times(library, other, lms):
    rows = [library.least(row) / other.least(row) for row in lms]
    whole = sum(map(library.least, lms)) / sum(map(other.least, lms))
    rounds = [
        sum(library.times[row][turn] for row in lms) / sum(other.times[row][turn] for row in lms)
        for turn in range(ROUNDS)
    ]
    print(
        f"{library.name} takes {whole:.2f} times as long as {other.name}"
        f" ({min(rows):.2f} to {max(rows):.2f} by row; {statistics.median(rounds):.2f} in the median round)"
    )


def main(words):
    if len(words) < 3 or len(words) % 2 == 0:
        sys.exit(__doc__)
    file, *words = words
    rows = [Row(line) for line in pathlib.Path(file).read_text().splitlines()]
    lms = [row for row, it in enumerate(rows) if it.is_lms]
    programs = [Program(*pair, file, len(rows)) for pair in zip(words[::2], words[1::2])]
    measure(programs, len(rows))
    print(f"The least of {ROUNDS} rounds, in microseconds of processor time:")
    print_table(programs, rows, lms)
    for library in programs:
        for other in programs:
            if library.name.startswith("mb_library") and not other.name.startswith("mb_library"):
                print_times(library, other, lms)
    for program in programs:
        program.end()


if __name__ == "__main__":
    main(sys.argv[1:])
