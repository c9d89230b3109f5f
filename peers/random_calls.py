#!/usr/bin/env python3
"""Random calls, by which a built program is compared with commands.py.

    random_calls.py PROGRAM [COUNT]      gives the program COUNT random devices, 200 if it is not said
    random_calls.py - [COUNT]            only predicts, and prints how often each reply and line comes

Layers 2 and 3 of each device have code that emits its input, or bytes of its own, or a secret; the programs of
examples/calls; code that traps, that has no end, that is random, or that takes no calls. A script of calls, puts, gets,
drops, signatures and power losses is served: replies and image have to be those of machine.py. What is signed is
attached to the chain, verified, shown, and judged by a random policy. Then a random code is called by `callcode` on
random secrets, and code of random instructions is tried by `appcode` and called by `callcode`. All that is printed and
written has to be what commands.py predicts, with a trace and without one, and a trace what applications.py tells.
"""

import collections
import itertools
import pathlib
import random
import re
import sys
import tempfile

import applications
import commands
import device
import machine
import texts
from lms import sha256, u8
from random_orders import called, called_and_told

DEVICES = 200
# the longest run whose trace is compared
MOST_TRACED = 5_000
PROGRAMS = pathlib.Path(__file__).resolve().parents[1] / "examples" / "calls"
WORD = "push 1296193585\npop\n"
# code that emits its input, so that an input is an action
ECHO = WORD + "push 0\nlabel a\ndup\nlength\nless\njumpzero b\ndup\ninput\nemit\npush 1\nadd\njump a\nlabel b\nhalt\n"
# code that answers the first byte of the secret `k` of a region
TELLING = WORD + "push 0\npush {}\nget k\npop\npush 0\nemit\npush 1\nemit\npush 0\nload\nemit\nhalt\n"
ENDS = ("halt\n", "emit\n", "push 0\nload\n", "push 0\npush 1\nget k\n", "label a\njump a\n", "push 1\npush 0\ndiv\n")
NAMES = [b"k", b"t", b"p", b"~" * 32, b"!"] + [b"n%d" % n for n in range(19)]
KINDS = ("call",) * 12 + ("boot",) * 3 + ("put", "get", "drop", "sign", "cut", "off", "go")
LENGTHS = 0, 1, 2, 4, 127, 128
VALUES = 0, 0, 1, 1, 2, 3, 6, 12, 30, 255, 256, 897, 1_000, 1_023, 1_024, 4_294_967_295
POLICIES = ("called", "not called", "statement", "last", "alive", "input now", "answer now", "code 3 good", "input good")


def code_of(text):
    return applications.assemble(text.encode())


ECHOING = code_of(ECHO)
PIN, COUNTER = (applications.assemble((PROGRAMS / name).read_bytes()) for name in ("pin.asm", "counter.asm"))


def emitting(bytes_):
    """Code that emits these bytes."""
    return code_of(WORD + "".join(f"push {byte}\nemit\n" for byte in bytes_) + "halt\n")


def some_code(rng, layer):
    how = rng.random()
    if how < 0.45:
        return ECHOING
    if how < 0.6:
        return rng.choice((PIN, COUNTER))
    if how < 0.7:
        return emitting(some_action(rng)[:300])
    if how < 0.78:
        return code_of(TELLING.format(rng.choice((layer, 3))))
    if how < 0.86:
        return code_of(WORD + rng.choice(ENDS))
    if how < 0.9:
        return applications.CALL_WORD + rng.randbytes(rng.choice((0, 1, 5, 30)))
    return rng.choice((b"", b"abc", ECHOING[:5], ECHOING[1:], ECHOING[6:], ECHOING[:5] + b"\3" + ECHOING[6:]))


def some_instruction(rng):
    """A line of an assembler text, after lines that push what it takes."""
    name = rng.choice(list(applications.VALUES))
    takes, _ = applications.VALUES[name]
    pushed = [f"push {rng.choice(VALUES)}" for _ in range(takes if rng.random() < 0.95 else 0)]
    if name == "get":
        return [*pushed[:1], "push 3", f"get {rng.choice(NAMES).decode()}"]
    if name in ("push", *applications.JUMPS):
        return [*pushed, f"{name} {rng.choice(VALUES) % 65_536}"]
    return [*pushed, name] if name != "halt" or rng.random() < 0.2 else ["push 1"]


def some_instructions(rng):
    """Code of random instructions, which often goes on for a while."""
    lines = [line for _ in range(rng.choice((2, 8, 30))) for line in some_instruction(rng)]
    return code_of("".join(f"{line}\n" for line in [*lines, "halt"]))


def some_demand(rng):
    name = rng.choice(NAMES)
    spelled = u8(len(name)) + name
    if rng.random() < 0.3:
        return u8(0) + spelled
    length = rng.choice(LENGTHS)
    return u8(1) + spelled + u8(length) + rng.randbytes(length)


def some_action(rng):
    """The bytes of an action; now and then of none."""
    demands = [some_demand(rng) for _ in range(rng.choice((0, 0, 1, 1, 2, 5, 23, 30)))]
    length = rng.choice((*LENGTHS, 8, 129) if rng.random() < 0.2 else (0, 1, 4))
    action = u8(len(demands)) + b"".join(demands) + u8(length) + rng.randbytes(length)
    how, at = rng.random(), rng.randrange(len(action))
    if how < 0.05:
        return action[:at]
    if how < 0.1:
        return action[:at] + bytes([action[at] ^ 1 << rng.randrange(8)]) + action[at + 1 :]
    return action + b"\0" if how < 0.12 else action


def some_input(rng):
    how = rng.random()
    if how < 0.7:
        return some_action(rng)[: applications.MOST_OUTPUT]
    if how < 0.8:
        return rng.choice((b"\0", b"\1")) + rng.choice((b"4071", b"1111")) + rng.choice((b"", b"SECRET!!"))
    return rng.randbytes(rng.choice((0, 1, 2, 300, 4_095, 4_096)))


def word(bytes_):
    return bytes_.hex() or "-"


class Made(device.Device):
    """A device whose layers 2 and 3 have code of this file."""

    def load_code(self, layer, kind, code):
        self.succeed()
        self.codes[layer] = code
        self.layers[layer] = self.running(layer, code, len(self.log), device.equal(device.ALWAYS))
        self.change(kind, layer)


def some_device(rng):
    made = Made()
    for layer in (2, 3):
        made.establish(layer)
    for layer in (2, 3):
        made.load_code(layer, device.EMERGENCY, some_code(rng, layer))
    for layer, kind in ((2, device.EPOCH), (3, device.EPOCH), (3, device.CONFIGURATION)):
        made.make_key(layer, kind)
    for layer in (2, 3):
        for name in rng.sample(NAMES, rng.choice((0, 1, 3, 21, 22))):
            made.put(layer, name, rng.randbytes(rng.choice(LENGTHS)))
    for _, key in made.regions[3]["keys"]:
        key.uses = rng.choice((0, 0, 30, 31, 32))
    return made


def some_event(rng):
    kind, layer = rng.choice(KINDS), rng.choice((2, 3, 3))
    key, name = rng.choice((1, 1, 2, 3, 9)), rng.choice(NAMES).decode()
    if kind == "call":
        return f"call {layer} {rng.choice((key, '-', '-'))} {word(some_input(rng))}"
    if kind == "put":
        return f"put {layer} {name} {word(rng.randbytes(rng.choice(LENGTHS)))}"
    if kind in ("get", "drop"):
        return f"{kind} {layer} {name}"
    if kind == "sign":
        return f"sign {layer} {key} {word(rng.randbytes(rng.choice(LENGTHS)))}"
    return f"cut {rng.choice((1, 2, 3, 4, 7))} fill {rng.choice(('00', 'ff', '01'))}" if kind == "cut" else kind


def some_script(rng):
    """A script; power may fail in one of two."""
    lines = ["boot"] + [some_event(rng) for _ in range(rng.choice((4, 8, 16)))]
    calm = rng.random() < 0.5
    return "".join(line + "\n" for line in lines if not calm or not line.startswith("cut "))


def some_policy(rng, given, codes):
    """A policy that asks for inputs of the script, and for the codes."""
    hashes = [sha256(bytes_).hex() for bytes_ in (*given, b"", rng.randbytes(3))]
    lines = [f"set now {' '.join(rng.sample(hashes, rng.randrange(1, min(len(hashes), 64) + 1)))}"]
    lines.append(f"set good {' '.join(sha256(code).hex() for code in codes)}")
    one, two = rng.choice(POLICIES), rng.choice(POLICIES)
    lines.append(f"{rng.choice(('allow', 'deny'))} one {rng.choice(('and', 'or'))} {one} {two}")
    return "".join(line + "\n" for line in [*lines, "allow rest last"])


def some_secrets(rng):
    """Lines of secrets; now and then one is wrong."""
    names = rng.sample(NAMES, rng.choice((0, 1, 3, 21, 22, 23)))
    lines = [f"secret {name.decode()} {word(rng.randbytes(rng.choice(LENGTHS)))}" for name in names]
    if lines and rng.random() < 0.15:
        at = rng.randrange(len(lines))
        spoilt = lines[at - 1], "", "# a remark", "secret", lines[at] + " 00", lines[at].upper(), "secret k " + "00" * 129
        lines[at] = rng.choice(spoilt)
    return "".join(line + "\n" for line in lines)


class Comparison:
    """A program in a folder, or none; how often each kind of line came, and how many calls ended otherwise."""

    def __init__(self, program, folder):
        self.program, self.folder = program, folder
        self.calls, self.wrong, self.lines = 0, 0, collections.Counter()

    def ends(self, number, words, files):
        """The files after a command; those that are predicted where there is no program."""
        answer = commands.answer(words.split(" "), commands.Folder(dict(files)))
        wanted = answer.status, answer.text, files | answer.written
        self.lines.update(kind_of(line) for line in answer.text.splitlines()[-1:])
        self.compare(number, words, self.called(files, words) if self.program else wanted, wanted)
        return wanted[2]

    def called(self, files, words):
        self.calls += 1
        return called(self.program, self.folder, files, words.split(" "))

    def traces(self, number, words, files):
        """A trace, if the run is short; all else is as without it."""
        answer = commands.answer(words.split(" "), commands.Folder(dict(files)))
        wanted = list(itertools.islice(trace_of(words.split(" "), files), MOST_TRACED + 1))
        if self.program and len(wanted) <= MOST_TRACED:
            self.calls += 1
            found = called_and_told(self.program, self.folder, files, words.split(" "), MINIBOOT_TRACE="1")
            self.compare(number, words, found[:3], (answer.status, answer.text, files | answer.written))
            self.compare(number, f"the trace of {words}", found[3].splitlines(), wanted)

    def compare(self, number, words, found, wanted):
        if found != wanted:
            self.wrong += 1
            print(f"device {number}: {words}: {found[:2]}, and not {wanted[:2]}")

    def serves(self, number, files):
        """The replies of a device to its script, and the files afterwards."""
        served = commands.answer("run image script noise".split(" "), commands.Folder(dict(files))).served
        if not self.program:
            replies, world = [], served.worlds[0]
            for event in served.events:
                reply, world = next(machine.outcomes(world, event))
                replies.append(reply)
            return replies, files
        status, printed, after = self.called(files, "run image script noise")
        replies = printed.splitlines()
        wrong = commands.wrong_in_run(served, replies, after["image"]) if status == 0 else f"status {status}, {printed}"
        self.compare(number, "run", (0, wrong), (0, None))
        return replies, after


def trace_of(words, files):
    """The lines of the trace of an `appcode` or a `callcode` whose inputs are in their forms, and of no other."""
    command, code, *others = words
    if command == "appcode":
        return applications.traced(files[code], files[others[0]], {3: {}}, int(others[1]))
    try:
        kept = texts.read_secrets(files[others[0]])
    except texts.BadLine:
        return iter(())
    known = {name: value for name, value, _ in kept}
    return applications.traced(files[code], files[others[1]], {3: known}, applications.CALL_STEPS)


def kind_of(line):
    words = line.split(" ")
    if words[0] == "refused":
        return " ".join(words[:2])
    return " ".join(words[:1] if words[0] != "no" else words[:2])


def try_device(comparison, rng, number):
    made = some_device(rng)
    script = some_script(rng)
    files = {"image": made.image(), "script": script.encode(), "noise": b"", "root": made.maker.public()}
    replies, files = comparison.serves(number, files)
    comparison.lines.update(kind_of(reply) for reply in replies)
    comparison.ends(number, "showimage image", files)
    signed = [reply.split(" ") for reply in replies if reply.startswith("signed ")]
    if signed:
        _, key, _, statement = rng.choice(signed)
        given = re.findall(r"^call \d \S+ (\S+)$", script, re.MULTILINE)
        given = [b"" if each == "-" else bytes.fromhex(each) for each in given]
        if rng.random() < 0.2:
            at = rng.choice((8, 9, 10, 40, 74, 76, 80))
            statement = statement[:at] + rng.choice("0123456789abcdef") + statement[at + 1 :]
        files |= {"chain": made.chain(), "statement": statement.encode() + b"\n"}
        files |= {"policy": some_policy(rng, given, [code for code in made.codes.values() if code]).encode()}
        files = comparison.ends(number, "attach chain statement now", files)
        if "now" in files:
            for words in (f"verify root now {key}", "history root now", f"trust root now {key} policy"):
                comparison.ends(number, words, files)
    files = {"code": some_code(rng, 3), "secrets": some_secrets(rng).encode(), "input": some_input(rng)}
    comparison.ends(number, "callcode code secrets input next", files)
    comparison.traces(number, "callcode code secrets input next", files)
    files["code"] = some_instructions(rng)
    for words in ("callcode code secrets input next", f"appcode code input {rng.choice((1, 10, 1_000))}"):
        comparison.ends(number, words, files)
        comparison.traces(number, words, files)


def compare(program, count):
    """Prints each call that ends otherwise than predicted, and how many there were."""
    rng = random.Random("calls")
    with tempfile.TemporaryDirectory() as work:
        comparison = Comparison(program, pathlib.Path(work))
        for number in range(count):
            try_device(comparison, rng, number)
    if program is None:
        for line, times in sorted(comparison.lines.items()):
            print(f"{line:30} {times:5}")
        return 0
    print(f"{comparison.calls} calls on {count} random devices: {comparison.wrong or 'none'} otherwise than predicted")
    return 1 if comparison.wrong else 0


def main(words):
    if len(words) not in (1, 2):
        sys.exit(__doc__)
    program = None if words[0] == "-" else str(pathlib.Path(words[0]).resolve())
    return compare(program, int(words[1]) if words[1:] else DEVICES)


if __name__ == "__main__":
    sys.exit(main(sys.argv[1:]))
