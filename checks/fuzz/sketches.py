"""Images that are made of their parts, so that each part can be spoilt before the whole is put together."""

import dataclasses

import images
import keys
import spoil
from chains import AREA, CONFIGURATION, LOG, SECTOR, Reader, Unformed
from device import code_sector
from images import Key, Region
from lms import u8, u16
from orders import NEW_KEY

NAMES = [b"pin", b"token", b"-", b"#", b"!", b"~" * 32, b"a-longer-name"] + [b"s%02d" % n for n in range(24)]


def dressed(rng, state):
    """The state with other secrets, and other uses of its keys."""
    for layer in (2, 3):
        region, log = state.region(layer), state.judged
        if not log.layer(layer).reliable:
            continue
        count = rng.choice((0, 1, 2, 2, 15, 16, 17, 21, 22, 22, 22))
        names = rng.sample(NAMES, count)
        length = rng.choice((0, 1, 4, 128))
        secrets = tuple((name, rng.randbytes(length), log.number) for name in names)
        held = tuple(dataclasses.replace(key, uses=rng.choice((0, 1, 30, 31, 32, key.uses))) for key in region.keys)
        state = state.with_region(layer, Region(secrets, held))
    return state


class Sketch:
    """The parts of an image of a state, which may have an order's work left to be done, in one of the two forms."""

    def __init__(self, rng, state, is_old=False):
        self.rng, self.state, self.is_old = rng, state, is_old
        self.area, self.slots = rng.randrange(2), [rng.choice((1, 2)) for _ in range(3)]
        self.selectors = [rng.randrange(256) if rng.random() < 0.3 else rng.randrange(2) for _ in range(3)]
        self.unsigned, self.life = 0, images.LIFE
        self.regions = [self.region(state.two), self.region(state.three)]
        self.signed = list(state.log)
        self.root = state.root(self.area)
        # what is put into the image at an offset, and what is done with all of it at last
        self.patches, self.ends = [], []
        self.codes = list(state.codes)

    def region(self, region):
        """A region's record, now and then in version 1 if it can be."""
        return region.spelled(1 if len(region.secrets) <= 16 and self.rng.random() < 0.3 else 2)

    def leave(self, before, order):
        """The order that led to the state from the one before is left to be done."""
        state, rng = self.state, self.rng
        self.unsigned = len(state.log) - len(before.log)
        self.signed = list(state.log[: len(before.log)])
        given = (before.identifier, before.seed)
        outgoing = None if given == (state.identifier, state.seed) else b"".join(given) + u8(before.uses + 1)
        pending = u8(self.unsigned) + (u8(0) if outgoing is None else u8(1) + outgoing)
        for at, layer in enumerate((2, 3)):
            pending += self.fate(order, layer)
            # A fate may be done already.
            self.regions[at] = self.region((state if rng.random() < 0.3 else before).region(layer))
        self.root = state.root(self.area, pending)

    def fate(self, order, layer):
        after = self.state.region(layer)
        if order.kind == NEW_KEY:
            return u8(images.ADD) + after.keys[-1].spelled() if layer == order.layer else u8(images.KEEP)
        if layer < order.layer:
            return u8(images.KEEP)
        return u8(images.DROP_CONFIGURATION if layer in self.state.log[-1][0].kept else images.EMPTY)

    # ---- spoiling

    def spoil(self):
        """Spoils one part, or two."""
        ways = [
            *[self.spoil_root] * 4,
            *[self.spoil_region] * 5,
            *[self.spoil_header] * 3,
            *[self.spoil_sector] * 2,
            *[self.sign_anew] * 3,
            *[self.twist_region] * 5,
            *[self.spoil_memory] * 2,
            self.spoil_code,
            self.spoil_selectors,
            self.spoil_length,
            self.spoil_anywhere,
        ]
        for _ in range(1 if self.rng.random() < 0.85 else 2):
            self.rng.choice(ways)()

    def spoil_root(self):
        self.root = spoil.spoilt_record(self.rng, self.root, images.read_root)

    def spoil_region(self):
        at = self.rng.randrange(2)
        record = self.regions[at] or self.regions[1 - at]
        self.regions[at] = spoil.spoilt_record(self.rng, record, images.read_region)

    def twist_region(self):
        """A region that is well formed, and that the device cannot have."""
        at = self.rng.randrange(2)
        try:
            region = Reader(self.regions[at]).whole(images.read_region) if self.regions[at] else Region()
        except Unformed:
            return
        self.regions[at] = self.twisted(region, at + 2).spelled(2)

    def twisted(self, region, layer):
        rng, log = self.rng, self.state.judged
        secrets, held = list(region.secrets), list(region.keys)
        how = rng.randrange(6) if held else rng.randrange(2)
        if how == 0:
            secrets = (secrets + [(b"pin", b"1", log.number)] * 2)[:22]
            name, value, put = secrets.pop(rng.randrange(len(secrets)))
            secrets.append((name, value, rng.choice((put, 0, max(put - 1, 0), log.number, log.number + 1, 2**32 - 1))))
        elif how == 1:
            number = rng.choice((0, log.made, log.made - 1))
            held = (held + [Key(number, rng.randrange(2), *keys.born(bytes(32), self.state.serial, 0), 0)])[:8]
        elif how == 2:
            held.pop(rng.randrange(len(held)))
        elif how == 3:
            held.insert(0, held.pop())
            held = held if len(held) > 1 else held * 2
        else:
            at = rng.randrange(len(held))
            turns = {"number": held[at].number + 1, "kind": CONFIGURATION - held[at].kind, "uses": rng.randrange(33)}
            turns["identifier"] = spoil.turned(rng, held[at].identifier)
            name = rng.choice(list(turns))
            held[at] = dataclasses.replace(held[at], **{name: turns[name]})
        return Region(tuple(secrets[:22]), tuple(held))

    def spoil_header(self):
        rng = self.rng
        if self.is_old:
            at = 4 + rng.randrange(40) if rng.random() < 0.5 else rng.randrange(4)
            self.patches.append((images.OLD_AREA * self.area + at, rng.randbytes(1)))
            return
        texts = [entry.text for entry, _ in self.state.log[len(self.signed) :]]
        header = images.header(self.codes, self.slots, len(self.signed), texts)
        spoilt = spoil.spoilt_record(rng, header, images.read_header)
        self.patches.append((SECTOR * self.area, spoilt.ljust(len(header), b"\xff")))

    def spoil_sector(self):
        at = self.rng.randrange(len(self.signed))
        sector = images.log_sector(*self.signed[at])
        spoilt = spoil.spoilt_record(self.rng, sector, images.read_sector)
        self.patches.append((SECTOR * (LOG + at), spoilt.ljust(len(sector), b"\xff")[:SECTOR]))

    def sign_anew(self):
        """An entry is changed, and has the signature that it then should have."""
        if not self.signed:
            return
        at = self.rng.choice((len(self.signed) - 1, self.rng.randrange(len(self.signed))))
        entry, signature = self.signed[at]
        text = spoil.spoilt_field(self.rng, entry.text, spoil.fields_of(entry.text, Reader.entry))
        try:
            turned = Reader(text).whole(Reader.entry)
        except Unformed:
            return
        index = int.from_bytes(signature[:4], "big") % 32
        by = (self.state.identifier, self.state.seed)
        self.signed[at] = turned, keys.signed(*by, index, u8(3) + text)

    def spoil_code(self):
        rng = self.rng
        layer = rng.randrange(3)
        if self.codes[layer] and rng.random() < 0.7:
            self.codes[layer] = spoil.turned(rng, self.codes[layer])
        else:
            self.codes[layer] = rng.choice((None, b"", b"code"))

    def spoil_selectors(self):
        at = self.rng.randrange(3)
        self.patches.append((images.FLASH + 1 + at, u8(self.selectors[at] ^ 1)))

    def spoil_memory(self):
        rng, first = self.rng, images.FLASH
        how = rng.randrange(6)
        if how == 0:
            self.life = rng.choice((0, 1, 0xA4, 0xA7, 0xFF, 0x5A))
        elif how == 1:
            self.patches.append((first + rng.choice((4, 5, AREA - 1, rng.randrange(4, AREA))), b"\1"))
        elif how == 2:
            # a length that is too great, or the greatest
            number = rng.randrange(3)
            at = first + AREA * (1 + 2 * number + self.selectors[number] % 2)
            self.patches.append((at, u16(rng.choice((0, 1, AREA - 2, AREA - 1, 0xFFFF)))))
        elif how == 3:
            number, at = rng.randrange(3), rng.choice((AREA - 1, rng.randrange(1_000, AREA)))
            self.patches.append((first + AREA * (1 + 2 * number + self.selectors[number] % 2) + at, b"\1"))
        elif how == 4:
            self.patches.append((first, bytes(images.BBRAM)))
            if rng.random() < 0.5:
                self.patches.append((first + rng.choice((1, 3, 4, AREA, images.BBRAM - 1)), b"\1"))
        else:
            self.patches.append((first + rng.randrange(images.BBRAM), rng.randbytes(1)))

    def spoil_length(self):
        rng = self.rng
        self.ends.append(rng.choice((lambda image: image[:-1], lambda image: image + b"\0", lambda image: b"")))

    def spoil_anywhere(self):
        rng = self.rng
        places = [SECTOR * sector for sector in (self.area, LOG, LOG + len(self.signed) - 1)]
        places += [images.FLASH, images.FLASH + AREA]
        self.ends.append(lambda image: turned_near(rng, image, rng.choice(places)))

    # ---- the whole

    def litter(self):
        """Inactive areas and spare sectors hold something."""
        rng = self.rng
        spare = [1 - self.area, 50, 191, 255, LOG + len(self.signed)]
        spare += [code_sector(layer, 3 - slot) for layer, slot in enumerate(self.slots, 1)]
        if not self.is_old:
            self.patches += [(SECTOR * sector, rng.randbytes(60)) for sector in spare if rng.random() < 0.4]
        if rng.random() < 0.5:
            number = rng.randrange(3)
            at = AREA * (2 + 2 * number - self.selectors[number] % 2)
            self.patches.append((images.FLASH + at + rng.choice((0, 2, AREA - 4)), rng.randbytes(4)))

    def image(self):
        state = dataclasses.replace(self.state, log=(*self.signed, *self.state.log[len(self.signed) :]))
        state = dataclasses.replace(state, codes=tuple(self.codes))
        if self.is_old:
            flash = images.old_flash_of(state, self.area, self.unsigned)
        else:
            flash = images.flash_of(state, self.area, self.slots, self.unsigned)
        regions = [record[: AREA - 2] for record in self.regions]
        image = bytearray(flash + images.memory(self.root[: AREA - 2], regions, self.selectors))
        image[images.FLASH] = self.life
        for at, text in self.patches:
            image[at : at + len(text)] = text
        image = bytes(image)
        for end in self.ends:
            image = end(image)
        return image


def turned_near(rng, image, at):
    at += rng.randrange(64)
    return image[:at] + bytes([image[at] ^ 1 << rng.randrange(8)]) + image[at + 1 :] if at < len(image) else image
