"""Images of devices: the state that one means, what is wrong with it, and the image of a state, by the formats alone.

An image is read in the current form, whose flash is in segments, or in the earlier form.
"""

import dataclasses

import chains
from chains import AREA, BBRAM, FLASH, LOG, SECTOR, SIGNATURE, Reader, Unformed
from device import code_sector
from keys import key_of, signed
from lms import sha256, u8, u16, u32

LIFE = 0xA5
CODE = 32_768
KEEP, EMPTY, DROP_CONFIGURATION, ADD = range(4)
# of the earlier form: how long an area of flash is, and the longest record in it
OLD_AREA, OLD_RECORD = 524_288, 470_000
# the most secrets of a region record, by its version
SECRETS = {1: 16, 2: 22}
KEYS = 8
BLANK = b"\xff" * FLASH


class Fault(Exception):
    """What is wrong with an image."""

    def __init__(self, place):
        super().__init__(place)
        self.place = place


@dataclasses.dataclass(frozen=True)
class Key:
    """A key in a region."""

    number: int
    kind: int
    identifier: bytes
    seed: bytes
    uses: int

    def spelled(self):
        return u32(self.number) + u8(self.kind) + self.identifier + self.seed + u8(self.uses)


@dataclasses.dataclass(frozen=True)
class Region:
    """The secrets of a region, each a name, a value and the number at which it was put, and its keys."""

    secrets: tuple = ()
    keys: tuple = ()

    def spelled(self, version=2):
        if not self.secrets and not self.keys:
            return b""
        text = u8(version) + u8(len(self.secrets))
        for name, value, put in self.secrets:
            text += u8(len(name)) + name + u8(len(value)) + value + u32(put)
        return text + u8(len(self.keys)) + b"".join(key.spelled() for key in self.keys)


@dataclasses.dataclass(frozen=True)
class State:
    """A live device. `log` has the entries with their signatures, and `judged` is what they come to."""

    serial: bytes
    log: tuple
    codes: tuple
    identifier: bytes
    seed: bytes
    uses: int
    two: Region
    three: Region
    judged: object = dataclasses.field(compare=False, default=None)

    def region(self, layer):
        return {2: self.two, 3: self.three}[layer]

    def with_region(self, layer, region):
        return dataclasses.replace(self, **{{2: "two", 3: "three"}[layer]: region})

    def root(self, area=0, pending=None):
        head = u8(1) + u8(area) + self.serial + self.identifier + self.seed + u8(self.uses)
        return head + (u8(0) if pending is None else u8(1) + pending)


class OwnLog(chains.Log):
    """The log of a device itself, which does not know who signed its birth."""

    def __init__(self):
        super().__init__(None)

    def judge(self, entry, signature):
        if self.length > 0:
            super().judge(entry, signature)
        elif not self.is_ruled(entry):
            raise chains.Refused(23, 0)
        else:
            self.take(entry)


# ---- reading


@dataclasses.dataclass(frozen=True)
class Pending:
    """The work that a root record says is left to be done."""

    unsigned: int
    # identifier, seed and uses
    outgoing: tuple | None
    fates: tuple


@dataclasses.dataclass(frozen=True)
class Stored:
    """The parts of an image that is well formed."""

    serial: bytes
    device: tuple
    pending: Pending | None
    codes: tuple
    signed: tuple
    unsigned: tuple
    regions: tuple


def read_key(reader):
    number, kind = reader.number(4), reader.number(1, 0, 1)
    return Key(number, kind, reader.take(16), reader.take(32), reader.number(1, 0, 32))


def read_fate(reader):
    fate = reader.number(1, KEEP, ADD)
    return fate, read_key(reader) if fate == ADD else None


def read_pending(reader):
    unsigned = reader.number(1, 1, 2)
    outgoing = None
    if reader.number(1, 0, 1):
        outgoing = reader.take(16), reader.take(32), reader.number(1, 1, 32)
    return Pending(unsigned, outgoing, (read_fate(reader), read_fate(reader)))


def read_root(reader):
    reader.number(1, 1, 1)
    area, serial = reader.number(1, 0, 1), reader.take(16)
    device = reader.take(16), reader.take(32), reader.number(1, 0, 32)
    return area, serial, device, read_pending(reader) if reader.number(1, 0, 1) else None


def read_name(reader):
    length = reader.number(1, 1, 32)
    at, name = reader.at, reader.take(length)
    if not all(0x21 <= byte <= 0x7E for byte in name):
        raise Unformed(at)
    return name


def read_region(reader):
    version = reader.number(1, 1, 2)
    secrets = []
    for _ in range(reader.number(1, 0, SECRETS[version])):
        name = read_name(reader)
        secrets.append((name, reader.take(reader.number(1, 0, 128)), reader.number(4)))
    keys = tuple(read_key(reader) for _ in range(reader.number(1, 0 if secrets else 1, KEYS)))
    return Region(tuple(secrets), keys)


def area_in_force(bbram, number):
    """The record of the current area of the root, region 2 or region 3: a length, that many bytes, and zeros."""
    first = AREA * (1 + 2 * number + bbram[1 + number] % 2)
    area = bbram[first : first + AREA]
    length = int.from_bytes(area[:2], "big")
    if length > AREA - 2 or any(area[2 + length :]):
        raise Unformed(0)
    return area[2 : 2 + length]


def read_header(reader):
    """The slots and lengths of the codes, how many entries are signed, and the unsigned ones."""
    if reader.take(4) != b"MBH1":
        raise Unformed(0)
    codes = []
    for _ in range(3):
        slot = reader.number(1, 0, 2)
        codes.append((slot, reader.number(4, 0, CODE if slot else 0)))
    signed = reader.number(2, 1, 128)
    unsigned = reader.number(1, 0, min(2, 128 - signed))
    return codes, signed, [reader.take(reader.number(2, 1, 400)) for _ in range(unsigned)]


def read_sector(reader):
    """The entry of a sector of the log, and its signature."""
    text = reader.take(reader.number(2, 1, 400))
    return Reader(text).whole(Reader.entry), reader.take(SIGNATURE)


def read_public(flash, area):
    """The codes, the signed entries and the unsigned ones, by the current form."""
    slots, count, unsigned = read_header(Reader(flash[SECTOR * area : SECTOR * (area + 1)]))
    codes = []
    for layer, (slot, length) in enumerate(slots, 1):
        at = SECTOR * code_sector(layer, slot or 1)
        codes.append(bytes(flash[at : at + length]) if slot else None)
    signed = [read_sector(Reader(flash[SECTOR * at : SECTOR * (at + 1)])) for at in range(LOG, LOG + count)]
    return tuple(codes), tuple(signed), tuple(Reader(text).whole(Reader.entry) for text in unsigned)


def read_old_record(reader):
    reader.number(1, 1, 1)
    codes = []
    for _ in range(3):
        codes.append(reader.take(reader.number(4, 0, CODE)) if reader.number(1, 0, 1) else None)
    signed, unsigned = [], []
    for _ in range(reader.number(2, 1, 128)):
        entry = reader.entry()
        if reader.number(1, 0, 1):
            signed.append((entry, reader.take(SIGNATURE)))
            if unsigned:
                raise Unformed(reader.at)
        else:
            unsigned.append(entry)
    return tuple(codes), tuple(signed), tuple(unsigned)


def read_old_public(flash, area):
    """The codes, the signed entries and the unsigned ones, by the earlier form."""
    half = flash[OLD_AREA * area : OLD_AREA * (area + 1)]
    length = int.from_bytes(half[:4], "big")
    if length > OLD_RECORD:
        raise Unformed(0)
    return Reader(half[4 : 4 + length]).whole(read_old_record)


def fits(pending, unsigned):
    """The unsigned entries are as many as the root says, which are two only if a key is outgoing."""
    if pending is None:
        return not unsigned
    return pending.unsigned == len(unsigned) and (pending.outgoing is not None or pending.unsigned == 1)


def stored(image, public=read_public):
    """The parts of an image, or None of a dead device, or Fault."""
    if len(image) != FLASH + BBRAM:
        raise Fault("length")
    flash, bbram = image[:FLASH], image[FLASH:]
    if bbram[0] == 0 and not any(bbram):
        return None
    try:
        if bbram[0] != LIFE or any(bbram[4:AREA]):
            raise Unformed(0)
        area, serial, device, pending = Reader(area_in_force(bbram, 0)).whole(read_root)
    except Unformed:
        raise Fault("root") from None
    try:
        codes, signed, unsigned = public(flash, area)
        if not fits(pending, unsigned):
            raise Unformed(0)
    except Unformed:
        raise Fault("public") from None
    regions = []
    for layer in (2, 3):
        try:
            record = area_in_force(bbram, layer - 1)
            regions.append(Reader(record).whole(read_region) if record else Region())
        except Unformed:
            raise Fault(f"region {layer}") from None
    return Stored(serial, device, pending, codes, signed, unsigned, tuple(regions))


def after_fate(region, fate, key):
    """What a fate leaves of a region."""
    if fate == EMPTY:
        return Region()
    if fate == DROP_CONFIGURATION:
        return dataclasses.replace(region, keys=tuple(each for each in region.keys if each.kind == chains.EPOCH))
    if fate == ADD and key.number not in [each.number for each in region.keys]:
        return dataclasses.replace(region, keys=(*region.keys, key))
    return region


def completed(parts):
    """The state that the parts of an image come to, once the pending work is done; it may be no valid one."""
    log, regions, (identifier, seed, uses) = parts.signed, parts.regions, parts.device
    if parts.pending:
        if parts.pending.outgoing is None:
            if uses == 0:
                raise Fault("state")
            signers = [(identifier, seed, uses - 1)]
        else:
            *outgoing, used = parts.pending.outgoing
            signers = [(*outgoing, used - 1), (identifier, seed, 0)]
        for entry, (by, its_seed, index) in zip(parts.unsigned, signers):
            log += ((entry, signed(by, its_seed, index, u8(3) + entry.text)),)
        regions = [after_fate(region, *fate) for region, fate in zip(regions, parts.pending.fates)]
    return State(parts.serial, log, parts.codes, identifier, seed, uses, *regions)


def is_code(code, layer):
    return code is None if layer.code is None else code is not None and sha256(code) == layer.code


def keys_of(entries, layer):
    """The keys of a layer that are alive at the end of a log, each a number, a kind and a public key."""
    for entry in entries:
        if entry.tag == chains.NEW_KEY and entry.layer == layer and chains.life_of(entries, entry.key_number).alive:
            yield entry.key_number, entry.kind, entry.key


def was_kept(entries, layer, put):
    """A secret of a layer, put at this configuration, was kept by all changes since."""
    changes = [entry for entry in entries if entry.tag == chains.CHANGE and entry.number > put]
    return all(layer in change.kept for change in changes)


def is_region(region, layer, log, entries):
    """A device with this log can have this region."""
    names = [name for name, _, _ in region.secrets]
    if not log.layer(layer).reliable and (region.secrets or region.keys):
        return False
    if len(region.keys) > KEYS or len(set(names)) < len(names):
        return False
    if any(put > log.number or not was_kept(entries, layer, put) for _, _, put in region.secrets):
        return False
    wanted = list(keys_of(entries, layer))
    if [(key.number, key.kind) for key in region.keys] != [each[:2] for each in wanted]:
        return False
    return all(key_of(key.identifier, key.seed).public() == each[2] for key, each in zip(region.keys, wanted))


def judged(state):
    """The state with what its log comes to, or Fault if no device can have it."""
    log, entries = OwnLog(), [entry for entry, _ in state.log]
    try:
        for entry, signature in state.log:
            log.judge(entry, signature)
    except chains.Refused:
        raise Fault("state") from None
    valid = (
        all(is_code(code, layer) for code, layer in zip(state.codes, log.layers))
        and (state.serial, state.uses) == (log.serial, log.signed)
        and all(is_region(state.region(layer), layer, log, entries) for layer in (2, 3))
        and key_of(state.identifier, state.seed).public() == log.in_charge
    )
    if not valid:
        raise Fault("state")
    return dataclasses.replace(state, judged=log)


def meaning(image, public=read_public):
    """The state that an image means, or None of a dead device, or Fault."""
    parts = stored(image, public)
    return parts and judged(completed(parts))


def migrated(image):
    """The state that an image means by the current form or by the one before; the fault is the current form's."""
    try:
        return meaning(image)
    except Fault as fault:
        try:
            return meaning(image, read_old_public)
        except Fault:
            raise fault from None


def is_clean(image):
    """The battery-backed memory of a well-formed image holds only current records, and no work is pending."""
    bbram = image[FLASH:]
    others = (bbram[AREA * (2 + 2 * number - bbram[1 + number] % 2) :][:AREA] for number in range(3))
    return not any(bbram) or (stored(image).pending is None and not any(map(any, others)))


# ---- writing


def memory(root, regions=(b"", b""), selectors=(0, 0, 0)):
    """The battery-backed memory with these records current."""
    bbram = bytearray(BBRAM)
    bbram[0:4] = u8(LIFE) + bytes(selectors)
    for number, record in enumerate((root, *regions)):
        at = AREA * (1 + 2 * number + selectors[number] % 2)
        bbram[at : at + 2 + len(record)] = u16(len(record)) + record
    return bytes(bbram)


def header(codes, slots, signed, unsigned=()):
    """A header for codes in these slots."""
    text = b"MBH1"
    for code, slot in zip(codes, slots):
        text += u8(0 if code is None else slot) + u32(len(code or b""))
    return text + u16(signed) + u8(len(unsigned)) + b"".join(u16(len(each)) + each for each in unsigned)


def log_sector(entry, signature):
    return u16(len(entry.text)) + entry.text + signature


def place(flash, sector, text):
    """Puts a text at the beginning of a sector."""
    flash[SECTOR * sector : SECTOR * sector + len(text)] = text


def flash_of(state, area=0, slots=(1, 1, 1), unsigned=0, blank=BLANK):
    """Flash that holds a state in these areas and slots. The last `unsigned` entries are not signed."""
    flash, count = bytearray(blank), len(state.log) - unsigned
    texts = [entry.text for entry, _ in state.log[count:]]
    place(flash, area, header(state.codes, slots, count, texts))
    for layer, (code, slot) in enumerate(zip(state.codes, slots), 1):
        if code is not None:
            place(flash, code_sector(layer, slot), code)
    for position, (entry, signature) in enumerate(state.log[:count]):
        place(flash, LOG + position, log_sector(entry, signature))
    return bytes(flash)


def image_of(state):
    """The image that `factory` and `migrate` write of a state."""
    return flash_of(state) + memory(state.root(), (state.two.spelled(), state.three.spelled()))


def old_flash_of(state, area=0, unsigned=0):
    """Flash that holds a state in this area, in the earlier form."""
    text = u8(1) + b"".join(u8(0) if code is None else u8(1) + u32(len(code)) + code for code in state.codes)
    text += u16(len(state.log))
    for at, (entry, signature) in enumerate(state.log):
        text += entry.text + (u8(1) + signature if at < len(state.log) - unsigned else u8(0))
    flash = bytearray(BLANK)
    flash[OLD_AREA * area : OLD_AREA * area + 4 + len(text)] = u32(len(text)) + text
    return bytes(flash)
