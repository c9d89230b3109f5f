"""Drafts, order lines, statement lines and scripts, read from the formats alone.

A text is given as bytes. What is wrong with one is reported by its first wrong line, from 1.
"""

import dataclasses
import re

import chains
from lms import u8, u32
from orders import CODE, COUNTERSIGNED, DIFFER, EMERGENCY, ESTABLISH, LOAD, NEW_KEY, SURRENDER, NoOrder, read_order

MOST_EVENTS = 65_536
# how many more events `cutat` serves than a script has
EVENTS_OF_A_CUT = 3
MOST_TARGETS = 8
# of a call's input, and of a region
LONGEST_INPUT, MOST_SECRETS = 4_096, 22
KINDS = {b"establish": ESTABLISH, b"surrender": SURRENDER, b"load": LOAD, b"emergency": EMERGENCY, b"newkey": NEW_KEY}
TRUSTS = {b"always": 0, b"never": 1, b"countersigned": COUNTERSIGNED}
KEY_KINDS = {b"epoch": 0, b"configuration": 1}


class BadLine(Exception):
    """The first wrong line of a text."""

    def __init__(self, line):
        super().__init__(line)
        self.line = line


class Wrong(Exception):
    """A line that is not of the grammar."""


def lines_of(text):
    """The lines of a text, of which the last may lack its end."""
    lines = text.split(b"\n")
    return lines[:-1] if lines[-1] == b"" else lines


def number(word, most=2**32 - 1, least=0):
    if not re.fullmatch(rb"0|[1-9][0-9]*", word) or not least <= int(word) <= most:
        raise Wrong
    return int(word)


def hexadecimal(word, least=0, most=None):
    """The bytes that a word spells, from `least` to `most` of them."""
    if word == b"-":
        bytes_ = b""
    elif re.fullmatch(rb"([0-9A-Fa-f]{2})+", word):
        bytes_ = bytes.fromhex(word.decode())
    else:
        raise Wrong
    if len(bytes_) < least or (most is not None and len(bytes_) > most):
        raise Wrong
    return bytes_


def one_of(known, word):
    if word not in known:
        raise Wrong
    return known[word]


def words_after(line, *first):
    """The words of a line that has to begin with these."""
    words = line.split(b" ")
    if tuple(words[: len(first)]) != first:
        raise Wrong
    return words[len(first) :]


def several(words, count):
    if len(words) != count:
        raise Wrong
    return words


# ---- drafts


def target(words):
    kind, *rest = words or [b""]
    if kind == b"serial":
        return u8(1) + hexadecimal(*several(rest, 1), 16, 16)
    if kind == b"length":
        return u8(2) + u32(number(*several(rest, 1)))
    tag = one_of({b"owner": 3, b"code": 4}, kind)
    layer, hashed = several(rest, 2)
    return u8(tag) + u8(number(layer, 3, 1)) + hexadecimal(hashed, 32, 32)


def public_key(word):
    key = hexadecimal(word, 56, 56)
    try:
        chains.Reader(key).key()
    except chains.Unformed:
        raise Wrong from None
    return key


class Draft:
    """The lines of a draft, taken in turn."""

    def __init__(self, text):
        self.lines, self.at = lines_of(text), 0

    def next(self, read):
        """What the next line says, which has to be there."""
        if self.at == len(self.lines):
            raise BadLine(self.at + 1)
        self.at += 1
        try:
            return read(self.lines[self.at - 1])
        except Wrong:
            raise BadLine(self.at) from None

    def first(self, line):
        words = words_after(line, b"order")
        kind = one_of(KINDS, words[0] if words else b"")
        several(words, 3 if kind == NEW_KEY else 2)
        layer = number(words[1], 3, 1 if kind == LOAD else 2)
        return kind, layer, one_of(KEY_KINDS, words[2]) if kind == NEW_KEY else None

    def targets(self):
        found = []
        while len(found) < MOST_TARGETS and self.at < len(self.lines) and self.lines[self.at].startswith(b"target "):
            found.append(self.next(lambda line: target(words_after(line, b"target"))))
        return found

    def field(self, name, read):
        return self.next(lambda line: read(*several(words_after(line, name), 1)))

    def trusts(self):
        def read(line):
            words = words_after(line, b"trust")
            if len(words) not in (1, 2):
                raise Wrong
            return one_of(TRUSTS, words[0]), one_of(TRUSTS, words[-1])

        return self.next(read)

    def body(self):
        """The body of the order that the draft says."""
        kind, layer, key_kind = self.next(self.first)
        targets = self.targets()
        fields, trusts = b"", None
        if kind == ESTABLISH:
            owner = self.field(b"owner", public_key)
            trusts = self.trusts()
            fields = owner + spelled_trusts(trusts)
        elif kind in (LOAD, EMERGENCY):
            version = self.field(b"version", number)
            trusts = self.trusts()
            code = self.field(b"code", lambda word: hexadecimal(word, 0, CODE))
            fields = u32(version) + spelled_trusts(trusts) + u32(len(code)) + code
        elif kind == NEW_KEY:
            fields = u8(key_kind)
        if self.at < len(self.lines):
            raise BadLine(self.at + 1)
        differ = DIFFER if trusts and trusts[0] != trusts[1] else 0
        return u8(kind + differ) + u8(layer) + u8(len(targets)) + b"".join(targets) + fields


def spelled_trusts(trusts):
    one, two = trusts
    return u8(one) if one == two else u8(one) + u8(two)


def read_draft(text):
    """The body of a draft's order, or BadLine."""
    return Draft(text).body()


# ---- lines of one kind


def only_line(text, read):
    lines = lines_of(text)
    try:
        value = read(lines[0] if lines else b"")
    except (Wrong, NoOrder, chains.Unformed):
        raise BadLine(1) from None
    if len(lines) > 1:
        raise BadLine(2)
    return value


def read_order_line(text):
    """The order of an order line, or BadLine."""
    return only_line(text, lambda line: read_order(hexadecimal(*several(words_after(line, b"command"), 1))))


def read_statement_line(text):
    """The statement of a statement line, or BadLine."""
    return only_line(text, lambda line: chains.Reader(hexadecimal(line)).whole(chains.Reader.statement))


# ---- secrets


def read_secrets(text):
    """The secrets of a text, each a name, a value, and 0 in the place of a configuration number, or BadLine. No name
    comes twice."""
    secrets = []
    for at, line in enumerate(lines_of(text), 1):
        if line == b"" or line.startswith(b"#"):
            continue
        try:
            if len(secrets) == MOST_SECRETS:
                raise Wrong
            named, value = several(words_after(line, b"secret"), 2)
            if name(named) in [known for known, _, _ in secrets]:
                raise Wrong
            secrets.append((named, hexadecimal(value, 0, 128), 0))
        except Wrong:
            raise BadLine(at) from None
    return tuple(secrets)


# ---- scripts


@dataclasses.dataclass(frozen=True)
class Event:
    """An event of a script: its word, and what stands after it. The number is None of a call that names no key."""

    word: str
    layer: int = 0
    name: bytes = b""
    bytes: bytes = b""
    number: int | None = 0


def region(word):
    return number(word, 3, 2)


def name(word):
    if not 1 <= len(word) <= 32 or not all(0x21 <= byte <= 0x7E for byte in word):
        raise Wrong
    return word


def read_cut(words):
    if len(words) == 3 and words[1] == b"fill":
        count, _, fill = words
    elif len(words) == 5 and words[1] == b"keep" and words[3] == b"fill":
        count, _, keep, _, fill = words
        number(keep, 1_048_576)
    else:
        raise Wrong
    hexadecimal(fill, 1, 16)
    return Event("cut", number=number(count, 100_000, 1))


def read_event(line):
    word, *words = line.split(b" ")
    if word in (b"boot", b"off", b"tamper", b"status", b"go"):
        several(words, 0)
        return Event(word.decode())
    if word == b"cut":
        return read_cut(words)
    if word == b"command":
        return Event("command", bytes=hexadecimal(*several(words, 1)))
    if word == b"put":
        layer, named, value = several(words, 3)
        return Event("put", region(layer), name(named), hexadecimal(value, 0, 128))
    if word in (b"get", b"drop"):
        layer, named = several(words, 2)
        return Event(word.decode(), region(layer), name(named))
    if word == b"sign":
        layer, key, message = several(words, 3)
        return Event("sign", region(layer), b"", hexadecimal(message, 0, 128), number(key))
    if word == b"call":
        layer, key, input_ = several(words, 3)
        named = None if key == b"-" else number(key)
        return Event("call", region(layer), b"", hexadecimal(input_, 0, LONGEST_INPUT), named)
    raise Wrong


def numbered_events(text):
    """The events of a script, each with the number of its line, or BadLine."""
    events = []
    for at, line in enumerate(lines_of(text), 1):
        if line == b"" or line.startswith(b"#"):
            continue
        if len(events) == MOST_EVENTS:
            raise BadLine(at)
        try:
            events.append((at, read_event(line)))
        except Wrong:
            raise BadLine(at) from None
    return events


def read_script(text):
    """The events of a script, or BadLine."""
    return [event for _, event in numbered_events(text)]


def read_uncut_script(text):
    """The events of a script whose last event can be cut, or BadLine. The grammar of the whole script is tried
    first."""
    events = numbered_events(text)
    for count, (at, event) in enumerate(events, 1):
        if event.word == "cut" or count > MOST_EVENTS - EVENTS_OF_A_CUT:
            raise BadLine(at)
    if not events:
        raise BadLine(len(lines_of(text)) + 1)
    return [event for _, event in events]
