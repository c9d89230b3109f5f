#!/usr/bin/env python3
"""Measures each command at its largest inputs. See bench/largest.sh, which runs it.

    measure.py PROGRAM FOLDER [COMMAND..]

A row of ROWS is a command, what its input has many of, the most that there can be, and a function that makes a call with
so many: the words, the files, what is printed at first, and the status if that is not 0. What is printed shows that the
call did what the row says.
"""

import functools
import pathlib
import subprocess
import sys

HERE = pathlib.Path(__file__).resolve().parents[1]
sys.path[:0] = [str(HERE), str(HERE.parent / "peers")]

import device  # noqa: E402
import fleet  # noqa: E402
import hss  # noqa: E402
import images  # noqa: E402
from calls import Calls  # noqa: E402
from lms import sha256, u8, u32  # noqa: E402
from officer import Officer, body, order, order_line, signed_text  # noqa: E402

ROUNDS = 3
LONGEST, MOST_CODE, MOST_SIGNATURE = 4_194_304, 32_768, 9_324
EVENTS, EVENTS_OF_A_CUT = 65_536, 65_533
LEVELS, WORKLOAD, ENTRIES, STEPS = 8, 24, 128, 10_000_000
# the rules of a policy beside a line for a set and one for the rule that allows
RULES = 254
# What one more takes in the upper half of a row may be so many times what it takes in the quarter below; and so many
# seconds and megabytes are taken for noise of the machine.
GROWTH, NOISE_OF_TIME, NOISE_OF_MEMORY = 1.6, 0.02, 2
# commands that are measured elsewhere: `asm` by bench/applications.sh
ELSEWHERE = {"asm"}

MAKER, ONE, TWO = (Officer(sha256(b"largest", u8(n))) for n in range(3))


# ---- keys and orders


def noise(words, starts, more=None):
    """A call over this many bytes of noise."""
    return lambda count: (words, {"noise": bytes(count), **(more or {})}, starts)


def factory_code(count):
    files = {"noise": bytes(48), "key": MAKER.key_file(), "owner": ONE.public(), "code": bytes(count)}
    return "factory noise key owner code image", files, "serial "


def showkey(_):
    return "showkey key", {"key": ONE.key_file()}, "owner "


def hsskeygen(levels):
    return f"hsskeygen noise {levels} key public", {"noise": bytes(32)}, "maker "


def showmaker(levels):
    return "showmaker key", {"key": maker(levels).file(32**levels - 1)}, "maker "


def endorse(levels):
    number = 32**levels - 1
    return "endorse key root out", {"key": maker(levels).file(number), "root": MAKER.public()}, f"index {number}\n"


def endorsed(levels):
    made = maker(levels)
    files = {"public": made.public(), "root": MAKER.public(), "endorsement": endorsement(levels)}
    return "endorsed public root endorsement", files, "endorsed\n"


def maker(levels):
    return hss.Maker(hss.seed_of(bytes(32)), levels)


@functools.cache
def endorsement(levels):
    return maker(levels).endorse(0, MAKER.public())


def draft(count):
    """A draft of a load of this many bytes of code, with as many targets as there can be."""
    targets = "".join(f"target code {1 + n % 3} {sha256(u8(n)).hex()}\n" for n in range(8))
    return f"order load 1\n{targets}version 7\ntrust always never\ncode {bytes(count).hex()}\n"


def drafted(count, layers):
    """The order of the draft, signed, with countersignatures of the most bytes for these layers."""
    text = body(draft(count))
    return order_line(order(text, signed(text), [(layer, bytes(MOST_SIGNATURE)) for layer in layers])).encode()


@functools.cache
def signed(text):
    return ONE.key.sign(0, signed_text(text))


def showorder(count):
    return "showorder order", {"order": drafted(count, (2, 3))}, "order load 1\n"


def ordered(count):
    return "ordered public order", {"public": ONE.public(), "order": drafted(count, (2, 3))}, "in charge\n"


def sign(count):
    return "sign key draft out", {"key": ONE.key_file(), "draft": draft(count).encode()}, "index 0\n"


def countersign(count):
    return "countersign key 3 order out", {"key": TWO.key_file(), "order": drafted(count, (2,))}, "index 0\n"


def cosign(count):
    files = {"key": TWO.key_file(), "order": drafted(count, (2,)), "draft": draft(count).encode()}
    return "cosign key 3 order draft out", files, "index 0\n"


# ---- devices and chains


@functools.cache
def grown(entries):
    """A device with a log of this many entries and a key of layer 3, number 1, and the statement that it last made."""
    made = device.owned()
    made.make_key(3)
    while len(made.log) < entries:
        made.load(3 if len(made.log) < entries - 1 or made.key.uses < 31 else 1)
    return made, made.image(), made.sign(3, 1, b"a message")[1]


@functools.cache
def full():
    """A device with all entries, secrets and keys that there can be."""
    return device.full()


@functools.cache
def coded(code):
    """The image of a device whose layer 3 has this code."""
    made = device.owned()
    made.succeed()
    made.codes[3], made.layers[3] = code, made.running(3, code, 7, device.equal(device.ALWAYS))
    made.change(device.LOAD, 3)
    return made.image()


def chain(entries):
    return "chain image out", {"image": grown(entries)[1]}, f"entries {entries}\n"


def attach(entries):
    made, _, statement = grown(entries)
    files = {"chain": made.chain(), "statement": statement.hex().encode() + b"\n"}
    return "attach chain statement out", files, f"entries {entries}\n"


def verify(entries):
    made, _, statement = grown(entries)
    files = {"root": made.maker.public(), "chain": made.chain()[:-1] + u8(1) + statement}
    return "verify root chain 1", files, "key 1 "


def history(entries):
    made, _, statement = grown(entries)
    files = {"root": made.maker.public(), "chain": made.chain()[:-1] + u8(1) + statement}
    return "history root chain", files, "serial "


def showimage(entries):
    return "showimage image", {"image": grown(entries)[1]}, "serial "


def audit(entries):
    made, image, _ = grown(entries)
    return "audit image root chain 1", {"image": image, "root": made.maker.public(), "chain": made.chain()}, "agrees\n"


def migrate(entries):
    image = grown(entries)[1]
    old = images.old_flash_of(images.meaning(image)) + image[len(images.BLANK) :]
    return "migrate image out", {"image": old}, "migrated "


# ---- a device that is served


def script(lines, count):
    """A script of this many events, the first and the last of which turn power on and off."""
    middle = (lines * (count // len(lines) + 1))[: count - 2]
    return "".join(line + "\n" for line in ["boot", *middle, "off"]).encode()


def served(starts, *lines, command="run"):
    """A run, or a rehearsal, over a full device with a script of these lines, again and again."""

    def run(count):
        events = script(list(lines), count)
        files = {"image": full()[1], "script": events, "noise": bytes(32 * events.count(b"command"))}
        return f"{command} image script noise", files, f"booted\n{starts}"

    return run


@functools.cache
def an_order():
    """The image of a device, and an order for it whose code has the most bytes, which it obeys again and again."""
    made = device.owned()
    text = body(f"order emergency 3\nversion 7\ntrust always\ncode {bytes(MOST_CODE).hex()}\n")
    return made.image(), order_line(order(text, made.owner[2].key.sign(0, signed_text(text)))).rstrip("\n")


MOST_ORDERS = LONGEST // 70_300


def run_orders(count):
    image, line = an_order()
    files = {"image": image, "script": script([line], count + 2), "noise": bytes(32 * count)}
    return "run image script noise", files, "booted\ndone "


def run_refused(count):
    """Orders whose signature has one bit of its last node flipped."""
    image, line = an_order()
    at = len(line) - 4
    turned = f"{line[:at]}{int(line[at], 16) ^ 1:x}{line[at + 1 :]}"
    files = {"image": image, "script": script([turned], count + 2), "noise": bytes(32 * count)}
    return "run image script noise", files, "booted\nrefused 13 "


def cutat(count):
    files = {"image": full()[1], "script": script(["status"], count), "noise": b""}
    return "cutat image script noise 1 00", files, "unstopped\n"


def generate(rounds):
    return f"generate 1 {rounds} image script noise", {}, "events "


# ---- policies and registers


def joined(word, leaf, count):
    """`count` tests, joined by a word in a tree as flat as can be."""
    if count == 1:
        return leaf
    return f"{word} {joined(word, leaf, count // 2)} {joined(word, leaf, count - count // 2)}"


def trust(begins, word, leaf):
    """A policy of so many bytes, in rules that deny, each of which is tried to its end and does not hold."""

    def call(length):
        made, _, _ = grown(ENTRIES)
        hashes = " ".join(sha256(b"set", u8(n)).hex() for n in range(64))
        first, last = f"set s0 {hashes}\n", "allow all alive\n"
        room = (length - len(first) - len(last)) // RULES - len(f"deny r000 {begins}\n")
        tests = joined(word, leaf, (room + len(f"{word} ")) // len(f"{word} {leaf} "))
        rules = "".join(f"deny r{number} {begins}{tests}\n" for number in range(RULES))
        files = {"root": made.maker.public(), "chain": made.chain(), "policy": (first + rules + last).encode()}
        return "trust root chain 1 policy", files, "allowed\n"

    return call


@functools.cache
def registered(devices, of_one_code):
    """A register of devices of the most entries, each with code of its own in layer 3 or all with one."""
    rows = {}
    for number in range(devices):
        code = sha256(b"code", u32(0 if of_one_code else number))
        hashed = tuple(sha256(u32(number), u8(entry)) for entry in range(ENTRIES))
        rows[sha256(u32(number))[:16]] = fleet.Row(number, (sha256(b"one"), sha256(b"two"), code), hashed)
    return fleet.spelled(rows)


def served_items(register, items, starts):
    return "fleet root register items", {"root": full()[0].maker.public(), "register": register, "items": items}, starts


def shown(count):
    return served_items(fleet.spelled({}), fleet.shows(full()[0].chain()) * count, "added ")


def found_one(count):
    question = u8(fleet.FIND) + u8(3) + sha256(b"code", u32(7))
    return served_items(registered(fleet.DEVICES, False), question * count, "found 1\n")


def found_all(count):
    question = u8(fleet.FIND) + u8(3) + sha256(b"code", u32(0))
    return served_items(registered(fleet.DEVICES, True), question * count, f"found {fleet.DEVICES}\n")


def counted(count):
    question = u8(fleet.CODES) + u8(3)
    return served_items(registered(fleet.DEVICES, False), question * count, f"codes {fleet.DEVICES}\n")


def answers(line, lines):
    """How many answers there can be, each of which has a line of so many bytes for each device, and one more."""
    return fleet.LONGEST_TEXT // (line * fleet.DEVICES + len(lines))


def register(_):
    return "register out", {}, "devices 0\n"


def enrol_devices(devices):
    files = {"root": full()[0].maker.public(), "register": registered(devices, False), "chain": full()[0].chain()}
    return "enrol root register chain", files, "added "


def enrol_entries(entries):
    made = grown(entries)[0]
    files = {"root": made.maker.public(), "register": registered(fleet.DEVICES - 1, False), "chain": made.chain()}
    return "enrol root register chain", files, "added "


def devices(count):
    return "devices register", {"register": registered(count, False)}, f"devices {count}\n"


# ---- applications


def disasm(count):
    return "disasm code out", {"code": bytes(count)}, f"lines {count}\n"


def showcode(count):
    """Jumps, each to the next place."""
    jumps = b"".join(b"\x20" + (at + 3).to_bytes(2, "big") for at in range(0, count - 2, 3))
    return "showcode code", {"code": jumps + bytes(count % 3)}, "jump at_3 ; 0\n"


def app(count):
    """The code halts at once."""
    return "app image 3 input 1", {"image": coded(bytes(MOST_CODE)), "input": bytes(count)}, "halted 1 -\n"


def appcode_code(count):
    return "appcode code input 1", {"code": bytes(count), "input": b""}, "halted 1 -\n"


def appcode_input(count):
    return "appcode code input 1", {"code": bytes(MOST_CODE), "input": bytes(count)}, "halted 1 -\n"


def appcode_steps(count):
    """The code is a jump to itself."""
    return f"appcode code input {count}", {"code": b"\x20\0\0", "input": b""}, "out of steps -\n", 7


FOUND, CODES = answers(40, b"found 512\n"), answers(72, b"codes 512\n")
KEYS = {"key": MAKER.key_file(), "owner": ONE.public(), "code": b"code"}
ROWS = (
    ("keygen", "bytes of noise", LONGEST, noise("keygen noise key public", "owner ")),
    ("showkey", "call", 1, showkey),
    ("factory", "bytes of noise", LONGEST, noise("factory noise key owner code image", "serial ", KEYS)),
    ("factory", "bytes of code", MOST_CODE, factory_code),
    ("hsskeygen", "bytes of noise", LONGEST, noise("hsskeygen noise 8 key public", "maker ")),
    ("hsskeygen", "levels", LEVELS, hsskeygen),
    ("showmaker", "levels", LEVELS, showmaker),
    ("endorse", "levels", LEVELS, endorse),
    ("endorsed", "levels", LEVELS, endorsed),
    ("showorder", "bytes of code", MOST_CODE, showorder),
    ("ordered", "bytes of code", MOST_CODE, ordered),
    ("sign", "bytes of code", MOST_CODE, sign),
    ("countersign", "bytes of code", MOST_CODE, countersign),
    ("cosign", "bytes of code", MOST_CODE, cosign),
    ("showimage", "entries", ENTRIES, showimage),
    ("run", "events `status`", EVENTS, served("status ", "status")),
    ("run", "events `go`", EVENTS, served("at 2\n", "go")),
    ("run", "events `get`", EVENTS, served("value ", "get 2 name-00")),
    ("run", "events `put` that write", EVENTS, served("kept\n", "put 2 name-00 31", "put 2 name-00 32")),
    ("run", "events `drop` and `put`", EVENTS, served("dropped\n", "drop 2 name-00", "put 2 name-00 31")),
    ("run", "events `sign`", EVENTS, served("signed 9 ", "sign 3 9 6869")),
    ("run", "events `cut`", EVENTS, served("armed\n", "cut 100000 fill 00")),
    ("run", "events `off` and `boot`", EVENTS, served("off\nbooted\n", "off", "boot")),
    ("run", "events `tamper`", EVENTS, served("tampered\n", "tamper")),
    ("run", "orders that are none", EVENTS, served("refused 10 ", "command 00")),
    ("run", "orders of 32,768 bytes of code", MOST_ORDERS, run_orders),
    ("run", "such orders, refused", MOST_ORDERS, run_refused),
    ("rehearse", "events `get`", EVENTS, served("value -\n", "get 2 name-00", command="rehearse")),
    ("rehearse", "events `off` and `boot`", EVENTS, served("off\nbooted\n", "off", "boot", command="rehearse")),
    ("cutat", "events `status`", EVENTS_OF_A_CUT, cutat),
    ("chain", "entries", ENTRIES, chain),
    ("attach", "entries", ENTRIES, attach),
    ("migrate", "entries", ENTRIES, migrate),
    ("generate", "rounds", WORKLOAD, generate),
    ("verify", "entries", ENTRIES, verify),
    ("history", "entries", ENTRIES, history),
    ("audit", "entries", ENTRIES, audit),
    ("trust", "bytes of `or code 1 s0`", LONGEST, trust("", "or", "code 1 s0")),
    ("trust", "bytes of `and alive`", LONGEST, trust("not ", "and", "alive")),
    ("fleet", "chains of 128 entries", 12, shown),
    ("fleet", "questions that find one", LONGEST // 34, found_one),
    ("fleet", "questions that find all", FOUND, found_all),
    ("fleet", "questions that count codes", CODES, counted),
    ("register", "call", 1, register),
    ("enrol", "devices", fleet.DEVICES - 1, enrol_devices),
    ("enrol", "entries", ENTRIES, enrol_entries),
    ("devices", "devices", fleet.DEVICES, devices),
    ("disasm", "bytes of code", MOST_CODE, disasm),
    ("showcode", "bytes of code", MOST_CODE, showcode),
    ("app", "bytes of input", LONGEST, app),
    ("appcode", "bytes of code", MOST_CODE, appcode_code),
    ("appcode", "bytes of input", LONGEST, appcode_input),
    ("appcode", "steps", STEPS, appcode_steps),
)


def grows(counts, amounts, noise_of_it):
    """Whether one more takes more in the upper half than in the quarter below it."""
    low, middle, high = amounts
    expected = (middle - low) / (counts[1] - counts[0]) * (counts[2] - counts[1])
    return high - middle > GROWTH * max(expected, 0) + noise_of_it


def measure(calls, command, what, most, made):
    """Prints a row, and tells whether time or memory grows faster than the input."""
    counts = [1] if most == 1 else [most // 4, most // 2, most]
    times, memories = zip(*(calls.measure(*made(count)) for count in counts))
    told = " ".join(f"{seconds * 1e3:9.1f}" for seconds in times)
    faster = len(counts) == 3 and grows(counts, times, NOISE_OF_TIME)
    if memories[-1] is not None:
        told += " ms " + " ".join(f"{megabytes:7.1f}" for megabytes in memories) + " MB"
        faster = faster or (len(counts) == 3 and grows(counts, memories, NOISE_OF_MEMORY))
    print(f"{command:11} {counts[-1]:10,} {what:31} {told}{'  GROWS FASTER' if faster else ''}", flush=True)
    return faster


def commands_of(program):
    """The names of the commands that the program has."""
    told = subprocess.run([program, "--help"], capture_output=True, text=True, check=True).stdout
    return {line.split(" ")[3] for line in told.splitlines() if line.startswith("  miniboot ") and " --" not in line}


def main(program, folder, *wanted):
    program = pathlib.Path(program).resolve()
    there = commands_of(program)
    missing = sorted(there - {row[0] for row in ROWS} - ELSEWHERE)
    if missing:
        sys.exit(f"no row for {', '.join(missing)}")
    calls = Calls(program, pathlib.Path(folder), ROUNDS)
    print("command           most                                 a quarter, a half and all")
    faster = 0
    for command, what, most, made in ROWS:
        if wanted and command not in wanted:
            continue
        if command not in there:
            print(f"{command:11} skipped: the program does not have it")
            continue
        faster += measure(calls, command, what, most, made)
    if faster:
        sys.exit(f"{faster} grow faster than their input")


if __name__ == "__main__":
    main(*sys.argv[1:])
