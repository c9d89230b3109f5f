#!/usr/bin/env python3
"""Measures `asm` of texts with many labels and jumps. See bench/applications.sh, which runs it.

    assembler.py PROGRAM FOLDER

It fails if a text takes a second or more, or if the program does not say of it what it has to.
"""

import pathlib
import sys

sys.path.insert(0, str(pathlib.Path(__file__).resolve().parents[1]))

from calls import Calls  # noqa: E402

ROUNDS = 5
COUNTS = 10_000, 100_000, 400_000
# the most bytes of a text, and of its code
LONGEST, MOST_CODE = 4_194_304, 32_768
# a jump takes three bytes of code, so no more than these assemble
MOST_JUMPS = MOST_CODE // 3
# the seconds that a text may take
ALLOWED = 1
# a name has a first character that is no digit, and two more; and a factor by which names come in no order
FIRST, OTHERS, APART = bytes(range(0x3A, 0x7F)), bytes(range(0x21, 0x7F)), 104_729


def name(number):
    """The name of a label, of three bytes."""
    number = number * APART % (len(FIRST) * len(OTHERS) ** 2)
    number, last = divmod(number, len(OTHERS))
    first, middle = divmod(number, len(OTHERS))
    return bytes([FIRST[first], OTHERS[middle], OTHERS[last]])


def labels(numbers):
    return b"".join(b"label %s\n" % name(number) for number in numbers)


def jumps(numbers):
    return b"".join(b"jump %s\n" % name(number) for number in numbers)


def texts(count):
    """Of this many lines: what each text is, the text, and what `asm` prints of it."""
    many = min(count // 2, MOST_JUMPS)
    given, taken = range(count - many), range(count - 2 * many, count - many)
    said = f"bytes {3 * many}\n"
    yield "labels", labels(range(count)), "bytes 0\n"
    yield "jumps forwards", jumps(taken) + labels(given), said
    yield "jumps backwards", labels(given) + jumps(taken), said
    yield "jumps over a wrong line", jumps(taken) + b"none\n" + labels(given), f"input text line {many + 1}\n"
    yield "jumps to one label", labels([0]) + jumps([0]) * (count - 1), refused_jump(count)
    yield "a label given twice", labels([*range(count - 1), 0]), f"input text line {count}\n"


def refused_jump(count):
    """What is said of a label and jumps to it: the first jump for which there is no room is wrong."""
    return f"bytes {3 * (count - 1)}\n" if count - 1 <= MOST_JUMPS else f"input text line {MOST_JUMPS + 2}\n"


def longest():
    """Texts of the most bytes, and what `asm` prints of each."""
    count = LONGEST // len(b"label \n" + b"n" * 32)
    long = b"".join(b"label %s%s\n" % (b"n" * 29, name(number)) for number in range(count))
    yield "labels of 32 bytes", count, long, "bytes 0\n"
    yield "instructions", LONGEST // 4, b"pop\n" * (LONGEST // 4), f"input text line {MOST_CODE + 1}\n"
    yield "empty lines", LONGEST, b"\n" * LONGEST, "input text line 1\n"
    yield "one line", 1, b"a" * LONGEST, "input text line 1\n"


def measure(calls, what, count, text, wanted):
    """Prints the time and the memory of a text, and tells whether the time is short enough."""
    status = 3 if wanted.startswith("input ") else 0
    seconds, megabytes = calls.measure("asm text out", {"text": text}, wanted, status)
    told = "" if megabytes is None else f"{megabytes:8.1f} MB"
    print(f"{what:24} {count:9,} lines {len(text):9,} bytes {seconds * 1e3:8.1f} ms {told}", flush=True)
    return seconds < ALLOWED


def main(program, folder):
    calls = Calls(pathlib.Path(program).resolve(), pathlib.Path(folder), ROUNDS)
    rows = [(what, count, text, said) for count in COUNTS for what, text, said in texts(count)]
    if not all([measure(calls, *row) for row in [*rows, *longest()]]):
        sys.exit(f"a text takes {ALLOWED} s or more")


if __name__ == "__main__":
    main(*sys.argv[1:])
