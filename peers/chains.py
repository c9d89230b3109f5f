#!/usr/bin/env python3
"""Chains of certificates, read and judged by the formats, the rules of the log and RFC 8554 alone.

    chains.py chain IMAGE OUT              as `miniboot` does, with the words and statuses of docs/use/commands.md
    chains.py attach CHAIN STATEMENT OUT
    chains.py verify ROOT CHAIN KEYNUMBER
    chains.py audit IMAGE ROOT CHAIN KEYNUMBER
    chains.py signatures ROOT CHAIN        prints the signature of each entry as a line KEY TEXT SIGNATURE

The image of a device has to be one of whose log no entry is left to be signed. Nothing here is taken from the program:
the log is walked once, with the device key in charge, and the lives of a key are followed from its birth on.
"""

import dataclasses
import functools
import pathlib
import re
import sys

import lms
from lms import sha256, u8, u16, u32

ESTABLISH, SURRENDER, LOAD, EMERGENCY = 1, 2, 3, 4
ALWAYS, NEVER, COUNTERSIGNED = 0, 1, 2
EPOCH, CONFIGURATION = 0, 1
BIRTH, CHANGE, NEW_KEY, SUCCESSION = 0, 1, 2, 3
# what an entry's first byte says: what it is, and the version of a birth or change
TAGS = {0: (BIRTH, 1), 1: (CHANGE, 1), 2: (NEW_KEY, None), 3: (SUCCESSION, None), 16: (BIRTH, 2), 17: (CHANGE, 2)}
SIGNATURE = 2_348
# the longest message or answer, and what stands in the place of a message's length if a call was answered
LONGEST_SAID, CALLED = 128, 129
LONGEST_FILE = 4_194_304
LAST_INDEX = 31
TRUSTS = "always", "never", "countersigned"
FLASH, BBRAM, AREA, SECTOR = 1_048_576, 28_672, 4_096, 4_096
# the first sector of the log
LOG = 64

verifies = functools.lru_cache(8_192)(lms.verify)


class Unformed(Exception):
    """Bytes that are no record, and the offset at which they fail."""

    def __init__(self, at):
        super().__init__(at)
        self.at = at


class Refused(Exception):
    """Why a chain is refused: a code, and the entry or offset if it has one."""

    def __init__(self, *numbers):
        super().__init__(*numbers)
        self.line = " ".join(map(str, ("refused", *numbers)))


@dataclasses.dataclass(frozen=True)
class Layer:
    owner: bytes | None = None
    code: bytes | None = None
    version: int | None = None
    reliable: bool = False
    # in changes of layer 1, and in changes of layer 2
    trusts: tuple = (NEVER, NEVER)


@dataclasses.dataclass(frozen=True)
class Entry:
    """An entry of a log. A birth or change has a version. `key` is the device key that it names, or the region's key
    that it makes."""

    tag: int
    version: int | None = None
    text: bytes = b""
    serial: bytes | None = None
    position: int | None = None
    number: int | None = None
    kind: int | None = None
    layer: int | None = None
    cosigned: frozenset = frozenset()
    kept: frozenset = frozenset()
    layers: tuple | None = None
    key: bytes | None = None
    key_number: int | None = None


@dataclasses.dataclass(frozen=True)
class Statement:
    """A statement of a region's key. `said` is a message; or, if `input` is the hash of a call's input, its answer."""

    number: int
    said: bytes
    signature: bytes
    input: bytes | None = None

    def spelled(self):
        size = u8(len(self.said)) if self.input is None else u8(CALLED) + self.input + u8(len(self.said))
        return u32(self.number) + size + self.said + self.signature

    @property
    def word(self):
        return "statement" if self.input is None else "called"

    def words(self):
        """What is listed of it behind the word for its kind."""
        return [*([] if self.input is None else [self.input.hex()]), self.said.hex() or "-"]


# ---- reading


class Reader:
    """Fields of bytes, one after another."""

    def __init__(self, bytes_, at=0):
        self.bytes, self.at = bytes_, at

    def take(self, count):
        if self.at + count > len(self.bytes):
            raise Unformed(self.at)
        self.at += count
        return self.bytes[self.at - count : self.at]

    def number(self, width, least=0, most=None):
        at = self.at
        number = int.from_bytes(self.take(width), "big")
        if number < least or (most is not None and number > most):
            raise Unformed(at)
        return number

    def end(self):
        if self.at != len(self.bytes):
            raise Unformed(self.at)

    def pair(self):
        some = self.number(1, 0, 3)
        return frozenset(m for bit, m in ((1, 2), (2, 3)) if some & bit)

    def key(self):
        at = self.at
        self.number(4, 5, 9)
        self.number(4, 1, 4)
        self.take(16)
        self.take(32)
        return self.bytes[at : self.at]

    def trusts(self, version, is_owned):
        """One trust for changes of both layers in version 1, and one for each in version 2."""
        one, *more = (self.number(1, 0, 2) if is_owned else self.number(1, NEVER, NEVER) for _ in range(version))
        return one, *(more or [one])

    def layer(self, version):
        at = self.at
        flags = self.number(1)
        if flags not in (0, 1, 3, 7):
            raise Unformed(at)
        trusts = self.trusts(version, flags & 1)
        owner = self.key() if flags & 1 else None
        code, code_version = (self.take(32), self.number(4)) if flags & 2 else (None, None)
        return Layer(owner, code, code_version, flags == 7, trusts)

    def layers(self, version):
        return tuple(self.layer(version) for _ in range(3))

    def birth(self, version):
        serial, key = self.take(16), self.key()
        return {"serial": serial, "key": key, "layers": self.layers(version)}

    def change(self, version):
        fields = {"position": self.number(4), "number": self.number(4)}
        fields |= {"kind": self.number(1, 1, 4), "layer": self.number(1, 1, 3)}
        fields |= {"cosigned": self.pair(), "kept": self.pair(), "layers": self.layers(version)}
        return fields | {"key": self.key() if self.number(1, 0, 1) else None}

    def new_key(self, _):
        fields = {"position": self.number(4), "number": self.number(4), "key_number": self.number(4)}
        return fields | {"layer": self.number(1, 2, 3), "kind": self.number(1, 0, 1), "key": self.key()}

    def succession(self, _):
        return {"position": self.number(4), "key": self.key()}

    def entry(self):
        at = self.at
        byte = self.number(1)
        if byte not in TAGS:
            raise Unformed(at)
        tag, version = TAGS[byte]
        fields = (self.birth, self.change, self.new_key, self.succession)[tag](version)
        return Entry(tag, version, self.bytes[at : self.at], **fields)

    def signed_entry(self):
        return self.entry(), self.take(SIGNATURE)

    def statement(self):
        number, size = self.number(4), self.number(1, 0, CALLED)
        input_ = None
        if size == CALLED:
            input_, size = self.take(32), self.number(1, 0, LONGEST_SAID)
        return Statement(number, self.take(size), self.take(SIGNATURE), input_)

    def chain(self):
        if self.take(4) != b"MBC1":
            raise Unformed(self.at - 4)
        entries = [self.signed_entry() for _ in range(self.number(2, 1, 128))]
        return entries, self.statement() if self.number(1, 0, 1) else None

    def whole(self, read):
        """What the whole of the bytes spells."""
        value = read(self)
        self.end()
        return value


def read_chain(bytes_):
    """The signed entries of a chain, and its statement or none."""
    return Reader(bytes_).whole(Reader.chain)


def spelled(entries, statement=None):
    """The bytes of a chain."""
    signed = b"".join(entry.text + signature for entry, signature in entries)
    end = u8(1) + statement.spelled() if statement else u8(0)
    return b"MBC1" + u16(len(entries)) + signed + end


def log_in(image):
    """The signed entries of the log in a device's image, or None of a dead device."""
    if len(image) != FLASH + BBRAM:
        raise Ended(3, "input image length")
    bbram = image[FLASH:]
    if not any(bbram):
        return None
    root = bbram[AREA * (1 + bbram[1] % 2) :]
    reader = Reader(image[SECTOR * root[3] :][:SECTOR], 4)
    for _ in range(3):
        reader.number(1, 0, 2)
        reader.number(4)
    signed = reader.number(2, 1, 128)
    reader.number(1, 0, 0)
    log = []
    for position in range(signed):
        sector = image[SECTOR * (LOG + position) :][:SECTOR]
        end = 2 + int.from_bytes(sector[:2], "big")
        log.append((Reader(sector[:end], 2).whole(Reader.entry), sector[end : end + SIGNATURE]))
    return log


# ---- the rules of the log


def signing_layer(kind, layer):
    """The layer whose owner gives the order."""
    return layer - 1 if kind in (ESTABLISH, EMERGENCY) else layer


class Log:
    """The entries of a device, one after another, by the maker's key."""

    def __init__(self, maker):
        self.in_charge, self.signed, self.serial = maker, 0, None
        self.length = self.number = self.made = 0
        # of the births and changes so far, the highest
        self.version = 1
        self.layers = (Layer(),) * 3

    def layer(self, n):
        return self.layers[n - 1]

    def judge(self, entry, signature):
        """Takes the next entry, or refuses it."""
        if not verifies(self.in_charge, u8(3) + entry.text, signature):
            raise Refused(21, self.length)
        if self.length > 0 and not self.is_in_place(entry, int.from_bytes(signature[:4], "big")):
            raise Refused(22, self.length)
        if not self.is_ruled(entry):
            raise Refused(23, self.length)
        self.take(entry)

    def is_in_place(self, entry, index):
        return entry.position in (None, self.length) and index == self.signed

    def is_ruled(self, entry):
        if entry.version is not None and entry.version < self.version:
            return False
        if entry.tag == BIRTH:
            one, two, three = entry.layers
            return self.length == 0 and one.owner is not None and one.reliable and two == three == Layer()
        rule = {CHANGE: self.is_ruled_change, NEW_KEY: self.is_ruled_key, SUCCESSION: self.is_ruled_succession}
        return self.length > 0 and rule[entry.tag](entry)

    def is_ruled_succession(self, entry):
        return self.signed == LAST_INDEX

    def is_ruled_key(self, entry):
        numbers = entry.number == self.number and entry.key_number == self.made
        runs = all(layer.reliable for layer in self.layers[: entry.layer])
        return numbers and runs and self.signed != LAST_INDEX

    def is_ruled_change(self, entry):
        renews = entry.kind == LOAD and entry.layer == 1
        return (
            entry.number == self.number + 1
            and self.is_allowed(entry.kind, entry.layer)
            and self.is_placed(entry, self.layer(entry.layer), entry.layers[entry.layer - 1])
            and entry.cosigned <= self.may_cosign(entry)
            and all(self.is_left(entry, m) for m in (1, 2, 3) if m != entry.layer)
            and entry.kept == {m for m in (2, 3) if m < entry.layer or self.admits(entry, m)}
            and (entry.key is not None) == renews
            and (renews or self.signed != LAST_INDEX)
        )

    def is_allowed(self, kind, k):
        """The layers are as an order of this kind for layer k requires."""
        owned = {n for n in (1, 2, 3) if self.layer(n).owner is not None}
        if kind == LOAD:
            return k in owned and self.layer(k).reliable
        return k > 1 and signing_layer(kind, k) in owned and (k not in owned if kind == ESTABLISH else k in owned)

    @staticmethod
    def is_placed(entry, old, new):
        """An order of the entry's kind can put the new layer in place of the old."""
        if entry.kind == ESTABLISH:
            return new.owner is not None and new.code is None
        if entry.kind == SURRENDER:
            return new == Layer()
        return new.owner == old.owner and new.reliable

    def may_cosign(self, entry):
        above = {m for m in (2, 3) if m > entry.layer and self.layer(m).owner is not None}
        return above if entry.kind in (LOAD, EMERGENCY) else set()

    def admits(self, entry, m):
        """Layer m goes along with a change at it or beneath it."""
        if m == entry.layer:
            return entry.kind == LOAD
        trusts = {ALWAYS: True, NEVER: False, COUNTERSIGNED: m in entry.cosigned}
        return entry.kind in (LOAD, EMERGENCY) and trusts[self.layer(m).trusts[entry.layer - 1]]

    def is_left(self, entry, m):
        """Another layer stands as before, but for one above that does not admit the change."""
        old, new = self.layer(m), entry.layers[m - 1]
        reliable = old.reliable and (m < entry.layer or self.admits(entry, m))
        return new == dataclasses.replace(old, reliable=reliable)

    def take(self, entry):
        self.length += 1
        self.signed = self.signed + 1 if self.length > 1 else 0
        if entry.tag == CHANGE:
            self.number += 1
        self.version = entry.version or self.version
        self.layers = entry.layers or self.layers
        self.serial = entry.serial or self.serial
        if entry.key is not None:
            self.made += 1
            if entry.tag != NEW_KEY:
                self.in_charge, self.signed = entry.key, 0


# ---- the key


@dataclasses.dataclass(frozen=True)
class Life:
    """What a log says of a region's key: the configurations are a number and the layers up to the key's own."""

    layer: int
    kind: int
    key: bytes
    alive: bool
    configurations: tuple


def ends(key, change):
    """The change ends the key."""
    if key.kind == EPOCH:
        return key.layer not in change.kept
    return change.layer <= key.layer


def life_of(entries, n):
    """The life of the key with this number, or None if no entry makes it."""
    number, layers = 0, (Layer(),) * 3
    for at, entry in enumerate(entries):
        if entry.tag == NEW_KEY and entry.key_number == n:
            return lived(entry, (number, layers[: entry.layer]), entries[at + 1 :])
        number += entry.tag == CHANGE
        layers = entry.layers or layers
    return None


def lived(key, born, later):
    configurations = [born]
    for change in (entry for entry in later if entry.tag == CHANGE):
        if ends(key, change):
            return Life(key.layer, key.kind, key.key, False, tuple(configurations))
        if change.layer <= key.layer:
            configurations.append((change.number, change.layers[: key.layer]))
    return Life(key.layer, key.kind, key.key, True, tuple(configurations))


def stated_text(serial, n, statement):
    """What the device with this serial signs of a statement, by the key with this number."""
    begins = u8(4) if statement.input is None else u8(6)
    return begins + serial + u32(n) + u32(statement.number) + (statement.input or b"") + statement.said


def accepted(maker, bytes_, n):
    """The life of the key with this number by a chain, its statement or none, and the number of its entries."""
    try:
        signed, statement = read_chain(bytes_)
    except Unformed as unformed:
        raise Refused(20, unformed.at) from None
    log = Log(maker)
    for entry, signature in signed:
        log.judge(entry, signature)
    life = life_of([entry for entry, _ in signed], n)
    if life is None:
        raise Refused(24)
    if statement:
        if not verifies(life.key, stated_text(log.serial, n, statement), statement.signature):
            raise Refused(25)
        if statement.number != log.number:
            raise Refused(26)
        if not life.alive:
            raise Refused(27)
    return life, statement, len(signed)


def layer_line(number, layer):
    owner = sha256(layer.owner).hex() if layer.owner else "-"
    code, version = (layer.code.hex(), layer.version) if layer.code else ("-", "-")
    reliable = "reliable" if layer.reliable else "unreliable"
    one, two = (TRUSTS[trust] for trust in layer.trusts)
    return f"layer {number} {owner} {code} {version} {reliable} {one if one == two else f'{one} {two}'}"


def listing(n, life, statement):
    """The lines of what a chain says of a key."""
    kind = ("epoch", "configuration")[life.kind]
    yield f"key {n} {kind} layer {life.layer} {'alive' if life.alive else 'ended'}"
    for number, layers in life.configurations:
        yield f"configuration {number}"
        for m, layer in enumerate(layers, 1):
            yield layer_line(m, layer)
    if statement:
        yield " ".join([statement.word, *statement.words()])


# ---- the commands


class Ended(Exception):
    """A command that ends otherwise than by its work: its status and its line."""

    def __init__(self, status, line):
        super().__init__(status, line)
        self.status, self.line = status, line


class Files:
    """Files by their names, and what a command writes of them."""

    def __init__(self, content):
        self.content, self.written = content, {}

    def read(self, role, name):
        bytes_ = self.content(name)
        if bytes_ is None:
            raise Ended(4, f"read failed {role}")
        if len(bytes_) > LONGEST_FILE:
            raise Ended(3, f"input {role} too long")
        return bytes_

    def write(self, role, name, bytes_):
        self.written[name] = bytes_

    def record(self, role, name, read):
        try:
            return Reader(self.read(role, name)).whole(read)
        except Unformed as unformed:
            raise Ended(3, f"input {role} at {unformed.at}") from None

    def statement(self, name):
        lines = self.read("statement", name).split(b"\n")
        if lines[-1] == b"":
            lines.pop()
        try:
            if not lines or not re.fullmatch(rb"([0-9A-Fa-f]{2})+", lines[0]):
                raise Unformed(0)
            statement = Reader(bytes.fromhex(lines[0].decode())).whole(Reader.statement)
        except Unformed:
            raise Ended(3, "input statement line 1") from None
        if len(lines) > 1:
            raise Ended(3, "input statement line 2")
        return statement


def number_in(word):
    if not re.fullmatch("0|[1-9][0-9]{0,9}", word) or int(word) >= 2**32:
        raise Ended(2, "words")
    return int(word)


def judged(maker, chain, n):
    try:
        return accepted(maker, chain, n)
    except Refused as refused:
        raise Ended(7, refused.line) from None


def verify(files, root, chain, key):
    n = number_in(key)
    maker = files.record("root", root, Reader.key)
    life, statement, _ = judged(maker, files.read("chain", chain), n)
    return list(listing(n, life, statement))


def audit(files, image, root, chain, key):
    n = number_in(key)
    own = log_in(files.read("image", image))
    maker = files.record("root", root, Reader.key)
    bytes_ = files.read("chain", chain)
    if own is None:
        raise Ended(7, "zeroised")
    life, _, length = judged(maker, bytes_, n)
    here = life_of([entry for entry, _ in own[:length]], n)
    if here is None or here.configurations != life.configurations:
        raise Ended(7, "differs")
    return ["agrees"]


def write_chain(files, out, entries, statement=None):
    files.written[out] = spelled(entries, statement)
    return [f"entries {len(entries)}"]


def chain_of(files, image, out):
    log = log_in(files.read("image", image))
    if log is None:
        raise Ended(7, "zeroised")
    return write_chain(files, out, log)


def attach(files, chain, statement, out):
    entries, attached = files.record("chain", chain, Reader.chain)
    stated = files.statement(statement)
    if attached:
        raise Ended(7, "has statement")
    count = 1
    while count < len(entries) and not is_change_above(stated.number, entries[count][0]):
        count += 1
    return write_chain(files, out, entries[:count], stated)


def is_change_above(number, entry):
    return entry.tag == CHANGE and entry.number > number


COMMANDS = {"verify": (verify, 3), "audit": (audit, 4), "chain": (chain_of, 2), "attach": (attach, 3)}


def answer(words, content, commands=COMMANDS):
    """The status of a command, what it prints, and the files that it writes; `content` gives a file's bytes or None."""
    files = Files(content)
    try:
        command, count = commands.get(words[0], (None, 0)) if words else (None, 0)
        if len(words) != count + 1 or "" in words:
            raise Ended(2, "words")
        lines = command(files, *words[1:])
    except Ended as ended:
        return ended.status, ended.line + "\n", {}
    return 0, "".join(line + "\n" for line in lines), files.written


def signatures(maker, chain):
    """The key in charge, the text and the signature of each entry of a chain."""
    log = Log(maker)
    for entry, signature in read_chain(chain)[0]:
        yield log.in_charge, u8(3) + entry.text, signature
        log.judge(entry, signature)


def statement_signature(chain, n):
    """The key, the text and the signature of a chain's statement, which the key with this number made."""
    entries, statement = read_chain(chain)
    log = [entry for entry, _ in entries]
    text = stated_text(log[0].serial, n, statement)
    return life_of(log, n).key, text, statement.signature


def content_of(name):
    path = pathlib.Path(name)
    return path.read_bytes() if path.is_file() else None


def main(words):
    if not words or words[0] not in (*COMMANDS, "signatures"):
        print(__doc__, file=sys.stderr)
        return 2
    if words[0] == "signatures":
        for row in signatures(*map(content_of, words[1:])):
            print(*(part.hex() for part in row))
        return 0
    status, printed, written = answer(words, content_of)
    for name, bytes_ in written.items():
        pathlib.Path(name).write_bytes(bytes_)
    print(printed, end="")
    return status


if __name__ == "__main__":
    sys.exit(main(sys.argv[1:]))
