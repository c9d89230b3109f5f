#!/usr/bin/env python3
"""What examples/device-life, examples/rehearsal, examples/outbound, examples/policy, examples/fleet, examples/operator,
examples/orders, examples/endorsement and examples/calls show: their scripts are followed line by line, over files that
are all made here.

    examples.py device-life >examples/device-life/expected.txt
    examples.py rehearsal >examples/rehearsal/expected.txt
    examples.py outbound >examples/outbound/expected.txt
    examples.py fleet >examples/fleet/expected.txt
    examples.py operator >examples/operator/expected.txt
    examples.py policy >examples/policy/expected.txt
    examples.py orders >examples/orders/expected.txt
    examples.py endorsement >examples/endorsement/expected.txt
    examples.py calls >examples/calls/expected.txt

Each line of a script's steps has one of a few forms.
"""

import copy
import pathlib
import re
import shlex
import sys

import applications
import chains
import commands
import fleet
import images
import machine
import texts
from chain_readers import Served, World
from lms import sha256, verify
from officer import signed_text

TOP = pathlib.Path(__file__).resolve().parents[1]
ESCAPE = re.compile(r"\\(?:x([0-9a-f]{2})|([0-7]{1,3})|(n))")


def unescaped(word):
    """The bytes of a word of printf."""
    text = ESCAPE.sub(lambda found: "\n" if found[3] else chr(int(found[1] or found[2], 16 if found[1] else 8)), word)
    return text.encode("latin-1")


def joined(lines):
    """Lines of a block as one."""
    return re.sub(r"\n *", "; ", lines)


def turns(name, words, statement):
    """The statement of a loop, once for each of the words."""
    return "\n".join(statement.replace(f'"${name}"', word) for word in words.split())


def statements(script):
    """The statements of the functions that make the steps, each in one line; a loop is written out."""
    script = re.sub(r" \\\n *", " ", script)
    functions = re.findall(r"^(?:before_the_morning|the_\w+)\(\) \{\n(.*?)^\}", script, re.DOTALL | re.MULTILINE)
    steps = "    echo\n".join(functions)
    steps = re.compile(r"\{\n(.*?)\n\s*\} >", re.DOTALL).sub(lambda found: f"{{ {joined(found[1])}; }} >", steps)
    loop = re.compile(r"for (\w+) in ([^;]*); do\n\s*(.*?)\n\s*done", re.DOTALL)
    steps = loop.sub(lambda found: turns(*found.groups()), steps)
    return [line.strip() for line in steps.splitlines() if line.strip()]


class Judged(Served):
    """A device that judges the order it is given, and whose power fails in the first write of the order after a
    `cut`."""

    armed = False

    def reply(self, line):
        if self.level == 0 and line != "boot":
            return "refused 1 off"
        return super().reply(line)

    def off(self, line):
        self.level = 0
        return "off"

    def cut(self, line, count, *_):
        if count != "1":
            raise ValueError(line)
        self.armed = True
        return "armed"

    def command(self, line, order):
        text, signature, _ = self.world.order_at(line)
        draft = self.world.drafts[text]
        refusal = self.refusal(draft, text, signature)
        if not refusal and not self.armed:
            return super().command(line, order)
        self.draws = self.draws[32:]
        if not refusal:
            self.level, self.armed = 0, False
        return refusal or "stopped"

    def refusal(self, draft, text, signature):
        """Why the order is refused, of what the examples give a device."""
        first, *lines = (line.split(" ") for line in draft.splitlines())
        kind, layer = first[1], int(first[2])
        if any(line[:2] == ["target", "serial"] and line[2] != self.device.serial.hex() for line in lines):
            return "refused 11 target"
        if kind == "establish" and self.device.layers[layer]["owner"]:
            return "refused 12 state"
        in_charge = self.device.layers[layer - (kind in ("establish", "emergency"))]["owner"]
        return None if verify(in_charge, signed_text(text), signature) else "refused 13 signature"


class Steps(World):
    """The files of an example, and what it shows."""

    serving = Judged

    def __init__(self):
        super().__init__({})
        self.printed, self.shown = "", []

    def follow(self, statement):
        for pattern, does in FORMS:
            found = re.fullmatch(pattern, statement)
            if found:
                return does(self, *found.groups())
        raise ValueError(f"a statement of another form: {statement}")

    def show(self, indent, text):
        self.shown += [indent + line for line in text.splitlines()]

    def words(self, text):
        """The words of a statement, with the files that stand in them in hexadecimal."""
        text = re.sub(r"\$\(hex <([\w.]+)\)", lambda found: self.files[found[1]].hex(), text)
        text = re.sub(r"\$\(sum <([\w.]+)\)", lambda found: sha256(self.files[found[1]]).hex(), text)
        return shlex.split(text)

    def miniboot(self, words):
        status, self.printed = self.answer(words.split(" "))
        return status

    # ---- the forms

    def make_key(self, name, noise):
        self.files["noise"] = bytes.fromhex(noise)
        self.miniboot(f"keygen noise {name}.key {name}.public")

    def order(self, text):
        name, officer, draft, *beside = self.words(text)
        self.files["draft"] = unescaped(draft)
        self.miniboot(f"sign {officer}.key draft {name}")
        for layer, other in zip(beside[::2], beside[1::2]):
            self.miniboot(f"countersign {other}.key {layer} {name} {name}")

    def born(self, names):
        for name in names.split():
            self.files["noise"] = bytes.fromhex(name * 48)
            self.miniboot(f"factory noise maker.key first.public code {name}")

    def live(self, names, events):
        self.files["script"], self.files["noise"] = self.script_of(events.split()).encode(), bytes(4_096)
        for name in names.split():
            self.miniboot(f"run {name} script noise")

    def draft(self, text):
        name, *lines = self.words(text)
        self.files[f"{name}.draft"] = "".join(f"{line}\n" for line in lines).encode()
        self.show("  ", f"{name}.draft: {'; '.join(lines)}")

    def policy(self, text):
        name, *lines = self.words(text)
        self.files[name] = "".join(f"{line}\n" for line in lines).encode()
        self.show("    ", self.files[name].decode())

    def signed(self, text):
        name, officer, *beside = text.split(" ")
        self.ask(f"sign {officer}.key {name}.draft {name}")
        for layer, other in zip(beside[::2], beside[1::2]):
            self.ask(f"countersign {other}.key {layer} {name} {name}")

    def script_of(self, events):
        return "".join(self.files[each].decode() if each in self.orders else f"{each}\n" for each in events)

    def serve(self, text):
        image, *events = self.words(text)
        self.files["script"] = self.script_of(events).encode()
        self.show("  ", f"$ miniboot run {image} script noise")
        self.miniboot(f"run {image} script noise")
        rows = zip(events, self.printed.splitlines(), strict=True)
        self.show("    ", "".join(f"{event:21}  {reply}\n" for event, reply in rows))

    def rehearse(self, text):
        image, *events = self.words(text)
        self.files["script"] = self.script_of(events).encode()
        self.show("  ", f"$ miniboot rehearse {image} script noise")
        status = self.miniboot(f"rehearse {image} script noise")
        lines = self.printed.splitlines()
        self.show("    ", "".join(f"{event:21}  {reply}\n" for event, reply in zip(events, lines)))
        self.show("    ", "\n".join(lines[len(events) :] + ([f"status {status}"] if status else [])))

    def cut_each_write(self, order):
        """What is found if the order has not happened, and if it has."""
        for before in ([], [order]):
            device = copy.deepcopy(self.devices["new"])
            events = ["boot", *before, "status", order]
            replies = Judged(self, device, self.files["noise"]).replies(self.script_of(events))
            self.show("    ", f"{replies[-2]}, and {order} again: {replies[-1]}")

    def keep_statement(self, name):
        self.files[name] = re.findall(r"^signed \d+ \d+ (.*\n)", self.printed, re.MULTILINE)[-1].encode()
        self.hash_of(name, name)

    def enrolled(self, names):
        for name in names.split():
            self.miniboot(f"chain {name} chain")
            self.ask("enrol maker.public register chain")

    def table_of_codes(self):
        """How many devices have which code of layer 2."""
        self.miniboot("devices register")
        self.show("  ", "$ tail -n +2 devices | cut -d ' ' -f 6 | sort | uniq -c")
        codes = [line.split(" ")[5] for line in self.printed.splitlines()[1:]]
        self.show("    ", "".join(f"{codes.count(code)} {code}\n" for code in sorted(set(codes))))

    def hash_of(self, name, file):
        self.show("  ", f"{name}  SHA-256 {sha256(self.content(file)).hex()}")

    def order_hash(self, name):
        self.show("  ", f"{name}  SHA-256 {sha256(bytes.fromhex(self.files[name].decode()[8:-1])).hex()}")

    def ask(self, words):
        self.show("  ", f"$ miniboot {words}")
        status = self.miniboot(words)
        self.show("    ", self.printed + (f"status {status}\n" if status else ""))

    def copy(self, name, other):
        self.devices[other] = copy.deepcopy(self.devices[name])

    def write(self, pieces, name):
        self.files[name] = b"".join(self.piece(piece) for piece in pieces.strip("; ").split("; "))

    def piece(self, piece):
        command, *words = piece.split(" ", 1)
        if command == "printf":
            return unescaped(words[0].strip("'"))
        if command == "bytes":
            return bytes.fromhex(words[0])
        if command == "sevens":
            return b"\7" * int(words[0])
        if command == "shows":
            return b"".join(fleet.shows(self.devices[name].chain()) for name in words[0].split())
        if command == "head":
            count, name = re.fullmatch(r"-c (\d+) (\S+)", words[0]).groups()
            return self.files[name][: int(count)]
        if command == "tail":
            first, name = re.fullmatch(r"-c \+(\d+) (\S+)", words[0]).groups()
            return self.files[name][int(first) - 1 :]
        name, first, end = words[0].split()
        return self.content(name)[int(first) : int(end)]

    def zeros(self, count, name):
        self.files[name] = bytes(int(count))

    def factory_key(self, name, octal):
        self.files["noise"] = bytes([int(octal, 8)]) * 32
        self.ask(f"keygen noise {name}.key {name}.public")


    def lines_of(self, name):
        self.show("    ", self.files[name].decode())

    def write_script(self, text):
        self.files["script"] = self.script_of(self.words(text)).encode()


class Predicted(Steps):
    """The files of an example of commands that serve no device, which `commands.py` predicts."""

    def answer(self, words):
        answer = commands.answer(words, commands.Folder(self.files))
        self.files |= answer.written
        return answer.status, answer.text


class Called(Predicted):
    """The files of an example of calls, with a device that machine.py serves. A call that is answered writes its region,
    the selector and the wiped area: so a power loss in its first write leaves what was before it, and one in its third
    what is after it."""

    def __init__(self):
        super().__init__()
        self.orders = ()

    def answer(self, words):
        if words[0] == "run":
            return 0, self.run(*words[1:])
        if words[0] == "rehearse":
            return chains.answer(words, self.files.get)[:2]
        if words[0] == "cutat":
            return 0, {"1": "old\n", "3": "new\n", "4": "unstopped\n"}[words[4]]
        return super().answer(words)

    def run(self, image, script, noise):
        state = images.meaning(self.files[image])
        events = machine.with_draws(texts.read_script(self.files[script]), self.files[noise])
        world, replies = machine.World(state), []
        for event in events:
            ends = list(machine.outcomes(world, event))
            if world.cut and event.word == "call":
                ends = [(reply, after) for reply, after in ends if reply == "stopped"]
                ends = ends[{1: 0, 3: 1}[world.cut.count] :]
            reply, world = ends[0]
            replies.append(reply)
        self.files[image] = images.image_of(world.state)
        return "".join(reply + "\n" for reply in replies)

    def script_of(self, events):
        return "".join(self.files[each].decode() if each in self.files else f"{each}\n" for each in events)

    def trace(self, text):
        """A call of a code on secrets in a text, with its trace in a file."""
        _, code, secrets, input_, _ = text.split(" ")
        kept = texts.read_secrets(self.files[secrets])
        known = {3: {name: value for name, value, _ in kept}}
        lines = applications.traced(self.files[code], self.files[input_], known, applications.CALL_STEPS)
        told = "".join(f"{line}\n" for line in lines).encode()
        self.show("  ", f"$ MINIBOOT_TRACE=1 miniboot {text} 2>trace")
        status = self.miniboot(text)
        self.show("    ", self.printed + (f"status {status}\n" if status else ""))
        self.files["trace"] = told

    def lines_with(self, word, name):
        self.show("  ", f"$ grep {word} {name}")
        lines = self.files[name].decode().splitlines()
        self.show("    ", "".join(f"{line}\n" for line in lines if word in line))

    def copy(self, name, other):
        self.files[other] = self.files[name]

    def order(self, text):
        name, officer, draft = self.words(text)
        self.files["draft"] = unescaped(draft)
        self.miniboot(f"sign {officer}.key draft {name}")


FORMS = [
    (r"echo(?: \"(.*)\")?", lambda steps, text: steps.shown.append(text or "")),
    (r"make_key (\w+) ([0-9a-f]+)", Steps.make_key),
    (r"order (.*)", lambda steps, text: steps.order(text)),
    (r"born ([\d ]+)", Steps.born),
    (r'live "([^"]*)" (.*)', Steps.live),
    (r"draft (.*)", Steps.draft),
    (r"policy (.*)", Steps.policy),
    (r"signed (.*)", Steps.signed),
    (r"order_hash (\w+)", Steps.order_hash),
    (r"serve (.*)", Steps.serve),
    (r"rehearse (.*)", Steps.rehearse),
    (r"cut_each_write (\w+)", Steps.cut_each_write),
    (r"keep_statement (\w+)", Steps.keep_statement),
    (r"enrolled ([\w ]+)", Steps.enrolled),
    (r"table_of_codes", Steps.table_of_codes),
    (r"hash_of ([\w.]+) ([\w.]+)", Steps.hash_of),
    (r"lines_of (\w+)", Steps.lines_of),
    (r"lines_with (\w+) (\w+)", lambda steps, word, name: steps.lines_with(word, name)),
    (r"trace (.*)", lambda steps, text: steps.trace(text)),
    (r"write_script (.*)", Steps.write_script),
    (r"ask (.*)", Steps.ask),
    (r"miniboot (.*)", Steps.miniboot),
    (r"cp (\w+) (\w+)", lambda steps, name, other: steps.copy(name, other)),
    (r"head -c (\d+) /dev/zero >(\w+)", Steps.zeros),
    (r"factory_key (\w+) (\d)", Steps.factory_key),
    (r"\{ (.*) \} >(\w+)", Steps.write),
    (r"((?:bytes|printf|sevens|part|head) .*) >([\w.]+)", Steps.write),
]

# how the steps of an example are followed whose devices are not those of life.py
OTHERS = {"orders": Predicted, "endorsement": Predicted, "calls": Called}


def followed(root, example):
    steps = OTHERS.get(example, Steps)()
    steps.files |= {path.name: path.read_bytes() for path in (root / "examples" / example).glob("*.asm")}
    for statement in statements((root / "examples" / example / "run.sh").read_text()):
        steps.follow(statement)
    return steps


def compare_shown(source, steps):
    """Each line is compared; those that are no sentence count."""
    found, wanted = steps.shown, source.text.splitlines()
    for here, there in zip(found, wanted):
        if there.startswith("  "):
            source.compare("line", here, there)
    if found != wanted:
        source.compare("all lines", found, wanted)


def rehearsal(source):
    compare_shown(source, followed(source.root, "rehearsal"))


def outbound(source):
    compare_shown(source, followed(source.root, "outbound"))


def fleet_of_devices(source):
    compare_shown(source, followed(source.root, "fleet"))


def operator(source):
    compare_shown(source, followed(source.root, "operator"))


def orders(source):
    compare_shown(source, followed(source.root, "orders"))


def endorsement(source):
    compare_shown(source, followed(source.root, "endorsement"))


def calls(source):
    compare_shown(source, followed(source.root, "calls"))


def policy(source):
    compare_shown(source, followed(source.root, "policy"))


def device_life(source):
    compare_shown(source, followed(source.root, "device-life"))


if __name__ == "__main__":
    print("\n".join(followed(TOP, sys.argv[1]).shown))
