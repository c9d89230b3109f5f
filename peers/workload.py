#!/usr/bin/env python3
"""The generated workload of a number, made and served by the formats alone.

    workload.py NUMBER ROUNDS      prints the SHA-256 hashes of its image, its script and its noise, a line each
    workload.py compare PROGRAM    compares what the built program generates and serves with what is made here
"""

import itertools
import pathlib
import subprocess
import sys
import tempfile

from chain_readers import Served
from device import AREA, BBRAM, FLASH, LOG, Flash, code_sector
from life import Living
from lms import sha256, u8, u16, u32
from officer import Officer, body, countersigned_text, order, order_line, signed_text

HERE = pathlib.Path(__file__).resolve().parent
sys.path.insert(0, str(HERE.parent / "checks" / "cuts"))

from program import meaning  # noqa: E402

MASK = 0xFFFFFFFF


def turned(word, bits):
    return (word << bits | word >> (32 - bits)) & MASK


def quarter(words, a, b, c, d):
    for x, y, z, bits in ((a, b, d, 16), (c, d, b, 12), (a, b, d, 8), (c, d, b, 7)):
        words[x] = words[x] + words[y] & MASK
        words[z] = turned(words[z] ^ words[x], bits)


def block(key, counter):
    """The sixteen words of a block of ChaCha20, with a counter and a nonce of 64 bits each; the nonce is 0."""
    start = [int.from_bytes(b"expand 32-byte k"[4 * i:4 * i + 4], "little") for i in range(4)]
    start += [int.from_bytes(key[4 * i:4 * i + 4], "little") for i in range(8)]
    start += [counter & MASK, counter >> 32, 0, 0]
    words = list(start)
    for _ in range(10):
        for i in range(4):
            quarter(words, i, 4 + i, 8 + i, 12 + i)
        for i in range(4):
            quarter(words, i, 4 + (i + 1) % 4, 8 + (i + 2) % 4, 12 + (i + 3) % 4)
    return [a + b & MASK for a, b in zip(words, start)]


class Draws:
    """The words of the generator whose key is the number and zeros, in order."""

    def __init__(self, number):
        self.key, self.blocks, self.left = u32(number) + bytes(28), 0, []

    def word(self):
        if not self.left:
            self.left, self.blocks = block(self.key, self.blocks), self.blocks + 1
        return self.left.pop(0)

    def bytes(self, count):
        return b"".join(u32(self.word()) for _ in range((count + 3) // 4))[:count]

    def code(self):
        return self.bytes(1_024 + self.word() % 31_745)

    def value(self):
        return self.bytes(self.word() % 129)

    def round(self):
        return self.code(), [self.value() for _ in range(4)], self.bytes(32)


def word(some):
    return some.hex() or "-"


class Script:
    """The lines, and the officers who sign the orders among them."""

    def __init__(self, officers):
        self.officers, self.text, self.length = officers, "", 0
        # the draft of each order, by its line, and who countersigned it
        self.drafts = {}

    def put(self, *lines):
        self.text += "".join(line + "\n" for line in lines)

    def order(self, signer, draft, countersigners=()):
        self.length += 1
        first, *rest = draft.splitlines()
        draft = "\n".join([first, f"target length {self.length}", *rest])
        text = body(draft)
        signature = self.officers[signer].sign(signed_text(text))
        by = [(n, self.officers[n].sign(countersigned_text(n, text))) for n in countersigners]
        line = order_line(order(text, signature, by))
        self.drafts[line] = draft, set(countersigners)
        self.text += line

    def order_of(self, line):
        """The draft of an order's line, and the layers that countersigned it."""
        return self.drafts[line + "\n"]

    def establish(self, layer):
        owner = self.officers[layer].public()
        self.order(layer - 1, f"order establish {layer}\nowner {owner.hex()}\ntrust countersigned")

    def load(self, kind, layer, version, code, signer, countersigners=()):
        lines = f"order {kind} {layer}\nversion {version}\ntrust countersigned\ncode {code.hex()}"
        self.order(signer, lines, countersigners)

    def round(self, number, code, values, message):
        self.put("off", "boot")
        layer = {1: 3, 2: 2, 0: 1}[number % 3]
        self.load("load", layer, 1 + number, code, layer, range(layer + 1, 4))
        self.put("go", "go")
        names = [f"s{(4 * (number - 1) + j) % 16:02}" for j in range(4)]
        self.put(*(f"put 3 {name} {word(value)}" for name, value in zip(names, values)))
        self.put(f"sign 3 1 {word(message)}")


def made(number, rounds):
    """The new device, the script and its noise."""
    draws = Draws(number)
    maker, *officers = (Officer(draws.bytes(32)) for _ in range(4))
    noise = draws.bytes(48)
    codes = [draws.code() for _ in range(3)]
    played = [draws.round() for _ in range(rounds)]
    commands = draws.bytes(32 * (5 + rounds))
    device = Living(noise, maker, officers[0].public(), codes[0])
    script = Script(dict(enumerate(officers, 1)))
    script.put("boot")
    script.establish(2)
    script.establish(3)
    script.load("emergency", 2, 1, codes[1], 1)
    script.load("emergency", 3, 1, codes[2], 2)
    script.order(3, "order newkey 3 epoch")
    for at, each in enumerate(played, 1):
        script.round(at, *each)
    script.put("off")
    return device, script, commands


def workload(number, rounds):
    """The image, the script and its noise."""
    device, script, commands = made(number, rounds)
    return device.image(), script.text.encode(), commands


class Writing(Served):
    """A device that serves a script, and its memory as its writes leave it. An order writes its code into the slot of
    its layer that is not named, and its header into header area 1; then its entries into the sectors of the log, and
    the header that counts them into area 0. The areas of the root are current in turn."""

    def __init__(self, world, device, draws):
        super().__init__(world, device, draws)
        self.flash = Flash(device.image()[:FLASH])
        # the slot in which each layer's code stands
        self.slots = device.slots()
        # of regions 2 and 3: whether the second area is current
        self.selectors = {2: 0, 3: 0}

    def written_regions(self, line):
        """The regions that an order writes: its layer's, and, unless it makes a key, those above."""
        first = self.world.order_of(line)[0].splitlines()[0].split(" ")
        layer = int(first[2])
        return [m for m in (2, 3) if (m == layer if first[1] == "newkey" else m >= layer)]

    def command(self, line, word):
        before, written = len(self.device.log), self.written_regions(line)
        reply = super().command(line, word)
        self.write_code(line)
        self.flash.write(1, self.device.header(self.slots, len(self.device.log) - before))
        for m in written:
            self.selectors[m] ^= 1
        for position in range(before, len(self.device.log)):
            self.flash.write(LOG + position, self.device.log_sector(position))
        self.flash.write(0, self.device.header(self.slots))
        return reply

    def write_code(self, line):
        """A load puts its code into the other slot, or into slot 1; an establishment leaves its layer without code."""
        kind, layer = self.world.order_of(line)[0].splitlines()[0].split(" ")[1:3]
        layer = int(layer)
        if kind in ("load", "emergency"):
            self.slots[layer] = 2 if self.slots[layer] == 1 else 1
            self.flash.write(code_sector(layer, self.slots[layer]), self.device.codes[layer])
        elif kind == "establish":
            self.slots[layer] = 0

    def put(self, line, layer, *words):
        self.selectors[int(layer)] ^= 1
        return super().put(line, layer, *words)

    def sign(self, line, layer, *words):
        self.selectors[int(layer)] ^= 1
        return super().sign(line, layer, *words)

    def image(self):
        """The image at the end, in which inactive areas are blank."""
        selectors = [0, self.selectors[2], self.selectors[3]]
        bbram = bytearray(BBRAM)
        bbram[0:4] = u8(0xA5) + bytes(selectors)
        for slot, text in enumerate((self.device.root(0, None), self.device.region(2), self.device.region(3))):
            at = AREA * (1 + 2 * slot + selectors[slot])
            bbram[at : at + 2 + len(text)] = u16(len(text)) + text
        return bytes(self.flash.bytes + bbram)


def served(number, rounds):
    """What `generate` prints of a workload."""
    device, script, noise = made(number, rounds)
    serving = Writing(script, device, noise)
    lines = list(summary(serving.replies(script.text), len(device.log)))
    return "\n".join([*lines, f"image {sha256(serving.image()).hex()}", ""])


def generated(number, rounds):
    """The image, the script and its noise, and the lines that `generate` prints."""
    return workload(number, rounds), served(number, rounds).splitlines()


def stands_for(device):
    """What the records of its image are, but for the areas in which they stand, and its codes and log."""
    root = device.root(0, None)
    public = list(device.codes.values()), [device.log_sector(position) for position in range(len(device.log))]
    return root[:1] + root[2:], device.region(2), device.region(3), public


def summary(replies, length):
    """The lines that `generate` prints, but for the hash of the image."""
    yield f"events {len(replies)}"
    for word in ("done", "signed", "refused"):
        yield f"{word} {sum(reply.split(' ')[0] == word for reply in replies)}"
    yield f"length {length}"


class Comparison:
    """The program in a folder, and how many values of a workload agree and differ."""

    def __init__(self, program, folder):
        self.program, self.folder, self.agree, self.differ = program, folder, 0, 0

    def run(self, *words):
        done = subprocess.run([self.program, *words], cwd=self.folder, capture_output=True, text=True)
        self.compare(f"status of {' '.join(words)}", done.returncode, 0)
        return done.stdout.splitlines()

    def compare(self, what, found, wanted):
        self.agree, self.differ = self.agree + (found == wanted), self.differ + (found != wanted)
        if found != wanted:
            print(f"generate: {what}: {wanted} here, {found} by the program")

    def compare_lines(self, what, found, wanted):
        """Shows the first line that differs."""
        rows = enumerate(itertools.zip_longest(found, wanted), 1)
        at = next((number for number, (here, there) in rows if here != there), None)
        first = slice(at and at - 1, at)
        self.compare(what if at is None else f"{what}, line {at}", found[first], wanted[first])

    def hash_of(self, name):
        file = self.folder / name
        return sha256(file.read_bytes()).hex() if file.exists() else None

    def workload(self, number, rounds):
        device, script, noise = made(number, rounds)
        serving = Writing(script, device, noise)
        files = {"image": device.image(), "script": script.text.encode(), "noise": noise}
        replies = serving.replies(script.text)
        printed = self.run("generate", str(number), str(rounds), *files)
        for name, bytes_ in files.items():
            self.compare(f"hash of the {name}", self.hash_of(name), sha256(bytes_).hex())
        self.compare_lines("summary", printed[:-1], list(summary(replies, len(device.log))))
        self.compare_lines("replies", self.run("run", *files), replies)
        self.compare("image at the end", printed[-1:], [f"image {self.hash_of('image')}"])
        self.compare("hash of the image at the end", self.hash_of("image"), sha256(serving.image()).hex())
        if self.hash_of("image"):
            found = meaning((self.folder / "image").read_bytes())
            self.compare("the image stands for the device", found == stands_for(device), True)


def compare(program):
    with tempfile.TemporaryDirectory() as folder:
        comparison = Comparison(program, pathlib.Path(folder))
        for rounds in (3, 24):
            comparison.workload(1, rounds)
    print(f"miniboot generate: {comparison.agree} agree, {comparison.differ} differ")
    return 1 if comparison.differ else 0


def main(words):
    if words[0] == "compare":
        return compare(pathlib.Path(words[1]).resolve())
    for each in workload(int(words[0]), int(words[1])):
        print(sha256(each).hex())
    return 0


if __name__ == "__main__":
    sys.exit(main(sys.argv[1:]))
