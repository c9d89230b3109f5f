"""A device's image, written from the formats alone: its log, its records, and work that an order has left to be done.

    device.py full IMAGE           a log of 128 entries, sixteen keys, and as many secrets as both regions hold
    device.py new IMAGE            a new device
    device.py pending KIND IMAGE   a device with work pending: entry, succession, renewal, last, add, short; with none: born
    device.py row KIND             a row of the tests of such work in crates/mb_test_cuts, whose birth is signed by zeros

After `old`, as in `device.py old full IMAGE`, each birth and change has version 1, which spells one trust for each layer,
and so have the records of the regions, of at most 16 secrets each; otherwise version 2, which spells two trusts, and
regions of at most 22. The rows are of version 1. Each image's line says what it stands for:
`state LENGTH NUMBER USES`, the numbers of secrets and keys of regions 2 and 3, and the SHA-256 hash of the signatures of
the log, one after another.
"""

import sys

import applications
from chains import Statement, stated_text
from lms import PrivateKey, sha256, u8, u16, u32
from officer import Officer

FLASH, BBRAM, AREA, SECTOR = 1_048_576, 28_672, 4_096, 4_096
# the first sector of the log
LOG = 64
SIGNATURE = 2_348
ESTABLISH, SURRENDER, LOAD, EMERGENCY = 1, 2, 3, 4
ALWAYS, NEVER, COUNTERSIGNED = 0, 1, 2
EPOCH, CONFIGURATION = 0, 1
# the tags of a birth and of a change, by version
BIRTH, CHANGE = {1: 0, 2: 16}, {1: 1, 2: 17}
EMPTY, KEEP, DROP_CONFIGURATION, ADD = u8(1), u8(0), u8(2), u8(3)
KINDS = "entry", "succession", "renewal", "last", "add", "short", "born"


def code_sector(layer, slot):
    """The first sector of a slot, 1 or 2, of a layer's code."""
    return 2 + 16 * (layer - 1) + 8 * (slot - 1)


class Flash:
    """The flash of a device, sector by sector."""

    def __init__(self, bytes_=b"\xff" * FLASH):
        self.bytes = bytearray(bytes_)

    def write(self, sector, text):
        """Erases as many sectors from this one on as the text takes, and stores the text there. A sector that
        already begins so is not written."""
        for at in range(0, len(text), SECTOR):
            piece, start = text[at : at + SECTOR], SECTOR * sector + at
            if self.bytes[start : start + len(piece)] != piece:
                self.bytes[start : start + SECTOR] = piece.ljust(SECTOR, b"\xff")


class Key:
    """A key with a number, made of an event's draw and the serial."""

    def __init__(self, draw, serial, number):
        self.number, self.uses = number, 0
        self.seed = sha256(u8(0x10), draw, serial, u32(number))
        self.identifier = sha256(u8(0x11), draw, serial, u32(number))[:16]
        self.key = PrivateKey(self.identifier, self.seed)

    def spelled(self):
        return self.identifier + self.seed

    def sign(self, text):
        """The signature of the text by the next index."""
        self.uses += 1
        return self.key.sign(self.uses - 1, text)


def equal(trust):
    """One trust, in changes of layer 1 and of layer 2 alike."""
    return trust, trust


UNOWNED = {"owner": None, "code": None, "version": 0, "reliable": False, "trusts": equal(NEVER)}


def pair(some):
    return (2 in some) + 2 * (3 in some)


def optional(bytes_):
    return u8(0) if bytes_ is None else u8(1) + bytes_


class Device:
    """A device whose owners are obeyed without looking at their signatures, and whose birth the maker has signed or
    not."""

    # of the births and changes that it writes
    version = 2

    def __init__(self, signed=True, version=2):
        self.version = version
        self.draws = 0
        self.serial = sha256(b"serial")[:16]
        self.maker, self.owner = Officer(sha256(b"maker")), {n: Officer(sha256(b"owner", u8(n))) for n in (1, 2, 3)}
        self.codes = {1: b"code of layer 1", 2: None, 3: None}
        self.layers = {1: self.running(1, self.codes[1], 1, equal(ALWAYS)), 2: dict(UNOWNED), 3: dict(UNOWNED)}
        self.be_born(signed)

    def be_born(self, signed=True):
        self.made = self.number = 0
        self.regions = {2: {"secrets": [], "keys": []}, 3: {"secrets": [], "keys": []}}
        self.key, self.outgoing, self.log = self.new_key(), None, []
        birth = u8(BIRTH[self.version]) + self.serial + self.key.key.public() + self.spelled_layers()
        self.log.append((birth, self.maker.sign(u8(3) + birth) if signed else bytes(SIGNATURE)))

    def draw(self):
        self.draws += 1
        return sha256(b"draw", u32(self.draws))

    def new_key(self):
        self.made += 1
        return Key(self.draw(), self.serial, self.made - 1)

    def running(self, layer, code, version, trusts):
        owner = self.owner[layer].public()
        return {"owner": owner, "code": sha256(code), "version": version, "reliable": True, "trusts": trusts}

    def spelled_layers(self):
        return b"".join(self.spelled_layer(self.layers[n], self.version) for n in (1, 2, 3))

    @staticmethod
    def spelled_layer(layer, version):
        """A layer as entries of this version spell it; version 1 has one trust, which both have to be."""
        one, two = layer["trusts"]
        if version == 1 and one != two:
            raise ValueError("version 1 spells one trust")
        trusts = u8(one) if version == 1 else u8(one) + u8(two)
        flags = (layer["owner"] is not None) + 2 * (layer["code"] is not None) + 4 * layer["reliable"]
        code = b"" if layer["code"] is None else layer["code"] + u32(layer["version"])
        return u8(flags) + trusts + (layer["owner"] or b"") + code

    # ---- entries

    def append(self, entry):
        self.log.append((entry, self.key.sign(u8(3) + entry)))

    def succeed(self):
        """A device key with only its last index left gives way to the next."""
        self.outgoing = None
        if self.key.uses == 31:
            self.outgoing, after = self.key, self.new_key()
            self.append(u8(3) + u32(len(self.log)) + after.key.public())
            self.key = after

    def kept(self, kind, layer, cosigned):
        """The regions that a change keeps: all above, but for an owner's change."""
        return [m for m in (2, 3) if m < layer or kind == LOAD or (kind == EMERGENCY and m > layer)]

    def change(self, kind, layer, cosigned=(), renews=False, kept=None):
        """The entry of a change whose layers stand already."""
        self.number += 1
        kept = self.kept(kind, layer, cosigned) if kept is None else kept
        after = self.new_key() if renews else None
        entry = u8(CHANGE[self.version]) + u32(len(self.log)) + u32(self.number) + u8(kind) + u8(layer)
        entry += u8(pair(cosigned)) + u8(pair(kept)) + self.spelled_layers() + optional(after and after.key.public())
        self.append(entry)
        if renews:
            self.outgoing, self.key = self.key, after

    def establish(self, layer, trusts=equal(ALWAYS)):
        self.succeed()
        self.layers[layer] = dict(UNOWNED, owner=self.owner[layer].public(), trusts=trusts)
        self.change(ESTABLISH, layer)

    def surrender(self, layer):
        """The owner of a layer, of which nothing is kept, gives it up."""
        self.succeed()
        self.layers[layer], self.codes[layer] = dict(UNOWNED), None
        self.change(SURRENDER, layer)

    def load(self, layer, kind=LOAD, trusts=equal(ALWAYS)):
        """A load of layer 1 makes the next device key itself, at the last index too."""
        self.outgoing = None
        if layer > 1:
            self.succeed()
        code = b"code %d of layer %d" % (len(self.log), layer)
        self.codes[layer] = code
        self.layers[layer] = self.running(layer, code, len(self.log), trusts)
        self.change(kind, layer, renews=layer == 1)
        for m in range(max(layer, 2), 4):
            region = self.regions[m]
            region["keys"] = [key for key in region["keys"] if key[0] == EPOCH]

    def make_key(self, layer, kind=EPOCH):
        self.succeed()
        number, key = self.made, self.new_key()
        entry = u8(2) + u32(len(self.log)) + u32(self.number) + u32(number) + u8(layer) + u8(kind) + key.key.public()
        self.append(entry)
        self.regions[layer]["keys"].append((kind, key))

    def put(self, layer, name, value):
        """A secret of a known name keeps its place."""
        secrets = self.regions[layer]["secrets"]
        names = [known for known, _, _ in secrets]
        at = names.index(name) if name in names else len(secrets)
        secrets[at : at + 1] = [(name, value, self.number)]

    # ---- what it hands out

    def sign(self, layer, number, message):
        """The index and the statement of the region's key with this number, or None if it has no such key."""
        key = self.key_of(layer, number)
        return key and self.stated(key, message)

    def key_of(self, layer, number):
        """The region's key with this number, or None."""
        return next((key for _, key in self.regions[layer]["keys"] if key.number == number), None)

    def stated(self, key, said, input_=None):
        """The next index of a region's key and its statement: of a message, or of the answer to a call's input, of which
        the hash is given."""
        index, unsigned = key.uses, Statement(self.number, said, b"", input_)
        signature = key.sign(stated_text(self.serial, key.number, unsigned))
        return index, Statement(self.number, said, signature, input_).spelled()

    def call(self, layer, number, given):
        """Does what the code of a layer asks for that is called, or NoAnswer: its answer, and the index and the statement
        of the region's key with this number, if one is named."""
        runs = [m for m in range(layer, 4) if all(self.layers[n]["reliable"] for n in range(1, m + 1))]
        secrets = {m: {name: value for name, value, _ in self.regions[m]["secrets"]} for m in runs}
        demands, answer = applications.called(self.codes[layer], given, secrets)
        kept = applications.after_demands(demands, self.regions[layer]["secrets"], self.number)
        self.regions[layer]["secrets"] = list(kept)
        return answer, None if number is None else self.stated(self.key_of(layer, number), answer, sha256(given))

    def chain(self):
        """Its chain without a statement."""
        return b"MBC1" + u16(len(self.log)) + b"".join(entry + signature for entry, signature in self.log) + u8(0)

    # ---- records

    @staticmethod
    def spelled_key(key):
        return u32(key[1].number) + u8(key[0]) + key[1].spelled() + u8(key[1].uses)

    def region(self, layer):
        secrets, keys = self.regions[layer]["secrets"], self.regions[layer]["keys"]
        if not secrets and not keys:
            return b""
        text = u8(self.version) + u8(len(secrets))
        for name, value, born in secrets:
            text += u8(len(name)) + name + u8(len(value)) + value + u32(born)
        return text + u8(len(keys)) + b"".join(map(self.spelled_key, keys))

    def root(self, area, pending):
        return u8(1) + u8(area) + self.serial + self.key.spelled() + u8(self.key.uses) + optional(pending)

    def slots(self, which=1):
        """The slot of each layer: this one, or 0 if the layer has no code."""
        return {layer: 0 if code is None else which for layer, code in self.codes.items()}

    def header(self, slots, unsigned=0):
        """The header of a flash with codes in these slots. The last `unsigned` entries are not signed."""
        signed = len(self.log) - unsigned
        text = b"MBH1"
        for layer, slot in slots.items():
            text += u8(slot) + u32(len(self.codes[layer]) if slot else 0)
        text += u16(signed) + u8(unsigned)
        return text + b"".join(u16(len(entry)) + entry for entry, _ in self.log[signed:])

    def log_sector(self, position):
        """What the log's sector of a position begins with."""
        entry, signature = self.log[position]
        return u16(len(entry)) + entry + signature

    def image(self, area=0, pending=None, unsigned=0, regions=None):
        """The image. If `area` is 1, header, root and both regions are in their second areas, and codes in slot 2."""
        flash, slots = Flash(), self.slots(1 + area)
        flash.write(area, self.header(slots, unsigned))
        for layer, slot in slots.items():
            if slot:
                flash.write(code_sector(layer, slot), self.codes[layer])
        for position in range(len(self.log) - unsigned):
            flash.write(LOG + position, self.log_sector(position))
        bbram = bytearray(BBRAM)
        bbram[0:4] = u8(0xA5) + u8(area) * 3
        records = [self.root(area, pending), *(regions or (self.region(2), self.region(3)))]
        for slot, text in enumerate(records):
            at = AREA * (1 + 2 * slot + area)
            bbram[at : at + 2 + len(text)] = u16(len(text)) + text
        return bytes(flash.bytes + bbram)

    def told(self):
        """What the program reports of this state."""
        counts = [len(self.regions[m][what]) for m in (2, 3) for what in ("secrets", "keys")]
        signatures = sha256(*(signature for _, signature in self.log)).hex()
        return " ".join(map(str, ["state", len(self.log), self.number, self.key.uses, *counts, signatures]))


def owned(signed=True, version=2):
    """A device whose three layers run."""
    device = Device(signed, version)
    for layer in (2, 3):
        device.establish(layer)
    for layer in (2, 3):
        device.load(layer, EMERGENCY)
    return device


def full(version=2):
    device = owned(version=version)
    for layer in (2, 3):
        for _ in range(8):
            device.make_key(layer)
        for number in range(16 if version == 1 else 22):
            device.put(layer, b"name-%02d" % number, bytes([number]) * 128)
    while len(device.log) < 128:
        device.load(3 if len(device.log) < 127 or device.key.uses < 31 else 1)
    return device, device.image()


def short_succession(signed, version):
    """A device key that gives way in a log of small entries: layer 2 is established and surrendered in turn."""
    device = Device(signed, version)
    while device.key.uses < 31:
        device.establish(2)
        if device.key.uses < 31:
            device.surrender(2)
    before = device.region(2), device.region(3)
    device.surrender(2)
    return device, before, EMPTY * 2


def left_to_do(kind, signed=True, version=2):
    """A device after an order of the kind, the records of its regions before it, and their fates."""
    if kind == "short":
        return short_succession(signed, version)
    if kind == "born":
        device = Device(signed, version)
        return device, (device.region(2), device.region(3)), None
    device = owned(signed, version)
    device.make_key(2, CONFIGURATION)
    device.make_key(3)
    device.put(2, b"pin", b"1234")
    while kind in ("succession", "last") and device.key.uses < 31:
        device.load(3)
    before = device.region(2), device.region(3)
    if kind == "add":
        device.make_key(3, CONFIGURATION)
        return device, before, KEEP + ADD + device.spelled_key(device.regions[3]["keys"][-1])
    if kind in ("renewal", "last"):
        device.load(1)
        return device, before, DROP_CONFIGURATION * 2
    device.load(3)
    return device, before, KEEP + DROP_CONFIGURATION


def pending_of(device, kind, fates):
    """How many entries are unsigned, and the pending work as the root has it."""
    if fates is None:
        return 0, None
    unsigned = 2 if kind in ("succession", "short") else 1
    outgoing = device.outgoing and device.outgoing.spelled() + u8(device.outgoing.uses)
    return unsigned, u8(unsigned) + optional(outgoing) + fates


def with_pending(kind, version=2):
    """The device after the order, and the image that the order leaves."""
    device, before, fates = left_to_do(kind, version=version)
    unsigned, pending = pending_of(device, kind, fates)
    return device, device.image(1, pending, unsigned, before)


def row(kind):
    """A row of the tests: the records that the order leaves, and what they mean."""
    device, before, fates = left_to_do(kind, signed=False, version=1)
    unsigned, pending = pending_of(device, kind, fates)
    signer = device.outgoing or device.key
    codes = ", ".join(f'"{(code or b"").hex()}"' for code in device.codes.values())
    told = device.told().split(" ")
    yield "Left {"
    yield f'    identifier: "{signer.identifier.hex()}",'
    yield f'    seed: "{signer.seed.hex()}",'
    yield f'    header: "{device.header(device.slots(), unsigned).hex()}",'
    yield f"    codes: [{codes}],"
    yield "    entries: &["
    for entry, _ in device.log:
        yield f'        "{entry.hex()}",'
    yield "    ],"
    yield f"    unsigned: {unsigned},"
    yield f'    root: "{device.root(0, pending).hex()}",'
    yield f'    two: "{before[0].hex()}",'
    yield f'    three: "{before[1].hex()}",'
    yield f"    uses: {told[3]},"
    yield f"    items: [{', '.join(told[4:8])}],"
    yield f'    signatures: "{told[8]}",'
    yield "}"


def main(words):
    version = 1 if words[:1] == ["old"] else 2
    words = words[1:] if version == 1 else words
    if len(words) == 2 and words[0] == "full":
        device, image = full(version)
    elif len(words) == 2 and words[0] == "new":
        device = Device(version=version)
        image = device.image()
    elif len(words) == 3 and words[0] == "pending" and words[1] in KINDS:
        device, image = with_pending(words[1], version)
    elif len(words) == 2 and words[0] == "row" and words[1] in KINDS:
        print("\n".join(row(words[1])))
        return 0
    else:
        print(__doc__, file=sys.stderr)
        return 2
    with open(words[-1], "wb") as file:
        file.write(image)
    print(device.told())
    return 0


if __name__ == "__main__":
    sys.exit(main(sys.argv[1:]))
